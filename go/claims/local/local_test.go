package local_test

import (
	"context"
	"errors"
	"os"
	"path/filepath"
	"runtime"
	"sync"
	"sync/atomic"
	"testing"
	"time"

	"svid.example/go/v3/claims"
	"svid.example/go/v3/claims/claimstest"
	"svid.example/go/v3/claims/local"
	"svid.example/go/v3/internal/logtest"
	"svid.example/go/v3/journal"
)

// A server has one store for each group.
type server struct {
	dir    string
	mu     sync.Mutex
	stores map[string]*shared
}

// A shared store is that of all members of a test: it stays open until the test of all ends.
type shared struct{ *local.Store }

func (shared) Close() error { return nil }

func (s *server) Store(t testing.TB, o claimstest.Options) claims.Store {
	s.mu.Lock()
	defer s.mu.Unlock()
	if s.stores[o.Name] == nil {
		s.stores[o.Name] = &shared{local.New(local.Options{Dir: filepath.Join(s.dir, o.Name), Terms: o.Terms})}
	}
	return s.stores[o.Name]
}

// One member has it, so nobody has other terms or hears of withdrawals from it, and what was closed is closed for all.
func TestStore(t *testing.T) {
	s := &server{dir: t.TempDir(), stores: map[string]*shared{}}
	claimstest.Run(t, s, "Terms", "Closed", "Withdrawals", "Pages")
	for _, one := range s.stores {
		if err := one.Store.Close(); err != nil {
			t.Error(err)
		}
	}
}

// terms are those of the tests below.
var terms = claims.Terms{Lasts: 3600, Margin: 60, Back: 10}

// A clock that a test sets.
type clock struct{ at atomic.Uint64 }

func newClock() *clock {
	c := new(clock)
	c.at.Store(claimstest.Now())
	return c
}

func open(t *testing.T, dir string, c *clock) *local.Store {
	t.Helper()
	s := local.New(local.Options{Dir: dir, Terms: terms, Now: c.at.Load})
	if _, err := s.Open(context.Background()); err != nil {
		t.Fatal(err)
	}
	t.Cleanup(func() { s.Close() })
	return s
}

// put wants this owner of a claim of owner n.
func put(t *testing.T, s claims.Store, claim claims.Claim, n, due int) claims.Found {
	t.Helper()
	claim.Owner = claimstest.Own(n)
	var found [1]claims.Found
	s.Put(context.Background(), []claims.Claim{claim}, found[:])
	if found[0].Err != nil {
		t.Fatal(found[0].Err)
	}
	if is := found[0].Owner == claim.Owner; is != (n == due) {
		t.Fatalf("the claim of owner %d: its own entry is there: %v", n, is)
	}
	return found[0]
}

func closes(t *testing.T, s claims.Store) {
	t.Helper()
	if err := s.Close(); err != nil {
		t.Fatal(err)
	}
}

func TestARestartForgetsNothing(t *testing.T) {
	dir, c := filepath.Join(t.TempDir(), "claims"), newClock()
	one := claims.Claim{Key: claimstest.Key(), Expires: c.at.Load() + 600}
	gone := claims.Withdrawal{Key: claimstest.Key(), Expires: c.at.Load() + 600}
	s := open(t, dir, c)
	put(t, s, one, 1, 1)
	if owner, err := s.Withdraw(context.Background(), gone); err != nil || owner != claims.Withdrawn {
		t.Fatal(owner, err)
	}
	for start := 0; start < 3; start++ {
		closes(t, s)
		s = open(t, dir, c)
		put(t, s, one, 2, 1)
		if found := put(t, s, one, 1, 1); found.Deaf != 0 {
			t.Fatalf("a restart that lost nothing is deaf until %d", found.Deaf)
		}
		if found := put(t, s, claims.Claim{Key: gone.Key, Expires: gone.Expires}, 1, 3); found.Owner != claims.Withdrawn {
			t.Fatalf("a withdrawn token has the owner %v", found.Owner)
		}
	}
}

// An entry that is over leaves its key to the next claim, also after a restart.
func TestWhatIsOverIsClaimedAnew(t *testing.T) {
	dir, c := filepath.Join(t.TempDir(), "claims"), newClock()
	key := claimstest.Key()
	s := open(t, dir, c)
	put(t, s, claims.Claim{Key: key, Expires: c.at.Load() + 100}, 1, 1)
	c.at.Add(100 + terms.Margin - 1)
	put(t, s, claims.Claim{Key: key, Expires: c.at.Load() + 100}, 2, 1)
	c.at.Add(1)
	later := claims.Claim{Key: key, Expires: c.at.Load() + 100}
	put(t, s, later, 2, 2)
	closes(t, s)
	s = open(t, dir, c)
	put(t, s, later, 1, 2)
}

// A clock that goes back by more than the terms allow may have let entries go that are live: the epoch ends, also if it went back while nothing ran.
func TestAClockThatGoesBackEndsTheEpoch(t *testing.T) {
	for name, between := range map[string]func(*testing.T, *local.Store, string, *clock) *local.Store{
		"running": func(_ *testing.T, s *local.Store, _ string, _ *clock) *local.Store { return s },
		"restarted": func(t *testing.T, s *local.Store, dir string, c *clock) *local.Store {
			closes(t, s)
			return open(t, dir, c)
		},
		"restarted until a snapshot has it": func(t *testing.T, s *local.Store, dir string, c *clock) *local.Store {
			for n := 0; n < 12; n++ { // (the eighth journal wants one)
				closes(t, s)
				s = open(t, dir, c)
			}
			return s
		},
	} {
		t.Run(name, func(t *testing.T) {
			dir, c := filepath.Join(t.TempDir(), "claims"), newClock()
			began := c.at.Load()
			one := claims.Claim{Key: claimstest.Key(), Expires: began + 600}
			s := open(t, dir, c)
			put(t, s, one, 1, 1)
			before := claimstest.State(t, s)
			c.at.Add(1000) // The entry is over.
			claimstest.State(t, s)
			s = between(t, s, dir, c)
			c.at.Store(began + 1)
			s = between(t, s, dir, c)
			state := claimstest.State(t, s)
			if want := began + 1000 + terms.Lasts; state.Deaf != want || state.Epoch == before.Epoch {
				t.Fatalf("the state is %+v, and before it %+v", state, before)
			}
			var found [1]claims.Found
			one.Owner = claimstest.Own(2)
			if s.Put(context.Background(), []claims.Claim{one}, found[:]); claimstest.Judge(one, found[0], 0) == claimstest.Mine {
				t.Fatal("a token that was claimed is accepted once more")
			}
			c.at.Store(state.Deaf - 10) // The deafness lasts to its end.
			s = between(t, s, dir, c)
			if is := claimstest.State(t, s); is.Deaf != state.Deaf || is.Epoch != state.Epoch {
				t.Fatalf("later the state is %+v, and before it %+v", is, state)
			}
		})
	}
}

// Where the disk does not take an entry, nobody is answered, and the next put of the key brings it there.
func TestAnEntryIsOnTheDiskBeforeItIsAnswered(t *testing.T) {
	dir, c := filepath.Join(t.TempDir(), "claims"), newClock()
	s := open(t, dir, c)
	if err := os.Rename(dir, dir+".moved"); err != nil {
		t.Fatal(err)
	}
	claim := claims.Claim{Key: claimstest.Key(), Owner: claimstest.Own(1), Expires: c.at.Load() + 600}
	for try := 0; try < 2; try++ {
		var found [1]claims.Found
		s.Put(context.Background(), []claims.Claim{claim}, found[:])
		if !errors.Is(found[0].Err, journal.ErrMoved) || found[0].Owner == claim.Owner {
			t.Fatalf("a folder that was moved answers %+v", found[0])
		}
	}
	if _, err := s.State(context.Background()); err == nil {
		t.Error("the state of a folder that was moved has no error")
	}
	_ = s.Close()
}

// A folder stays small: what is over leaves it.
func TestTheFolderStaysSmall(t *testing.T) {
	dir, c := filepath.Join(t.TempDir(), "claims"), newClock()
	s := open(t, dir, c)
	for round := 0; round < 40; round++ {
		these, found := make([]claims.Claim, 2000), make([]claims.Found, 2000)
		for i := range these {
			these[i] = claims.Claim{Key: claimstest.Key(), Owner: claimstest.Own(1), Expires: c.at.Load() + 30}
		}
		if s.Put(context.Background(), these, found); found[0].Err != nil {
			t.Fatal(found[0].Err)
		}
		c.at.Add(120)
		claimstest.State(t, s)
	}
	logtest.Await(t, "a folder of some 2,000 live entries, of 80,000 claims, to have no more than 4 MiB", func() bool {
		files, err := os.ReadDir(dir)
		if err != nil {
			t.Fatal(err)
		}
		var size int64
		for _, it := range files {
			if info, err := it.Info(); err == nil { // (it may have gone)
				size += info.Size()
			}
		}
		return size <= 4<<20
	})
}

// A store whose folder takes nothing more says so, though nobody claims a token: before one is used up that another member could take.
func TestAFolderThatTakesNothingIsSeen(t *testing.T) {
	dir, c := filepath.Join(t.TempDir(), "claims"), newClock()
	s := open(t, dir, c)
	claimstest.State(t, s) // (it writes the time, once in this minute)
	if err := os.Rename(dir, dir+".moved"); err != nil {
		t.Fatal(err)
	}
	if _, err := s.State(context.Background()); !errors.Is(err, journal.ErrMoved) {
		t.Errorf("a folder that was moved: %v", err)
	}
	_ = s.Close()
}

// What is over takes no memory, however long the store runs.
func TestWhatIsOverTakesNoMemory(t *testing.T) {
	dir, c := filepath.Join(t.TempDir(), "claims"), newClock()
	c.at.Store(c.at.Load() / 60 * 60)
	s := open(t, dir, c)
	heap := func() int {
		runtime.GC()
		var memory runtime.MemStats
		runtime.ReadMemStats(&memory)
		return int(memory.HeapAlloc)
	}
	hours := func(n int) {
		t.Helper()
		for these, found := make([]claims.Claim, 500), make([]claims.Found, 500); n > 0; n-- {
			for i := range these {
				these[i] = claims.Claim{Key: claimstest.Key(), Owner: claimstest.Own(1), Expires: c.at.Load() + 30}
			}
			if s.Put(context.Background(), these, found); found[0].Err != nil {
				t.Fatal(found[0].Err)
			}
			for _, seconds := range []uint64{terms.Margin + 20, 3580 - terms.Margin} { // (in the minute in which they are over, and before that; and later)
				c.at.Add(seconds)
				claimstest.State(t, s)
			}
		}
	}
	hours(20)
	before := heap()
	hours(100)
	if grown := heap() - before; grown > 500<<10 {
		t.Errorf("50,000 claims that are over take %d bytes", grown)
	}
}

// Another process, or another store of this one, can't have the folder meanwhile.
func TestAFolderHasOneStore(t *testing.T) {
	dir, c := filepath.Join(t.TempDir(), "claims"), newClock()
	open(t, dir, c)
	ctx, end := context.WithTimeout(context.Background(), time.Minute)
	defer end()
	if _, err := local.New(local.Options{Dir: dir, Terms: terms}).Open(ctx); !errors.Is(err, journal.ErrHeld) {
		t.Errorf("a folder that is open: %v", err)
	}
}
