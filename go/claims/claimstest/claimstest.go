// Package claimstest tests a claim store, with its real server: each store passes the same tests.
package claimstest

import (
	"context"
	"encoding/binary"
	"errors"
	"fmt"
	"math"
	"runtime"
	"strings"
	"sync"
	"sync/atomic"
	"testing"
	"time"

	"svid.example/go/v3/claims"
	"svid.example/go/v3/internal/logtest"
	"svid.example/go/v3/internal/patience"
	"svid.example/go/v3/svid"
)

// Options say which store a member has.
type Options struct {
	Name    string // of the group
	Address string // of a proxy; "" for the server itself
	Terms   claims.Terms

	// Compares lets the member wait, where the server or the store is a new one, for so long that another one has surely looked, also on a busy
	// machine.
	Compares bool
}

// A Server is one that a store is tested with. Its calls end the test that they fail in.
type Server interface {
	// Store returns a member's store, which is not open yet. The suite closes it.
	Store(t testing.TB, o Options) claims.Store
}

// A Machine is a Server that is a process of its own.
type Machine interface {
	Server
	// Address is where it listens, for a proxy.
	Address() string
	// Start starts it again, once it was ended as kill -9 does or as an administrator does, and waits until it answers.
	Start(t testing.TB)
	Kill(t testing.TB)
	Stop(t testing.TB)
	// Pause lets it do nothing until Resume.
	Pause(t testing.TB)
	Resume(t testing.TB)
	// Copy copies what the server keeps. restore puts it back. The server does not run meanwhile.
	Copy(t testing.TB) (restore func())
}

// An Emptier is a Server that can lose all that a group has.
type Emptier interface {
	Empty(t testing.TB, name string)
}

// A Liar is a Server into which a member can write an entry that no honest one writes. It expires in an hour.
type Liar interface {
	Lie(t testing.TB, name string, key svid.TokenKey, entry []byte)
}

// Usual are the terms of a test that cares for none.
var Usual = claims.Terms{Lasts: 7200, Margin: 120, Back: 60}

// suite is a run of the tests against one server.
type suite struct {
	server Server
	groups atomic.Uint64
}

// Run runs all tests but some. A test that the server has no means for is left out.
func Run(t *testing.T, server Server, except ...string) {
	s := &suite{server: server}
	_, isMachine := server.(Machine)
	_, isEmptier := server.(Emptier)
	_, isLiar := server.(Liar)
	tests := []struct {
		name  string
		run   func(*testing.T)
		can   bool
		alone bool // it does something to the server, or to all groups
	}{
		{"Put", s.put, true, false}, {"Many", s.many, true, false}, {"Races", s.races, true, false}, {"Withdrawals", s.withdrawals, true, false},
		{"Pages", s.pages, true, false}, {"Liar", s.liar, isLiar, true}, {"Expiry", s.expiry, true, false}, {"Past", s.past, true, false},
		{"Terms", s.terms, true, false}, {"TooLong", s.tooLong, true, false}, {"Emptied", s.emptied, isEmptier, true},
		{"EmptiedAndOpened", s.emptiedAndOpened, isEmptier, true}, {"ContextEnds", s.contextEnds, isMachine, true},
		{"LostAnswer", s.lostAnswer, isMachine, false}, {"Closed", s.closed, true, false}, {"ClosedMeanwhile", s.closedMeanwhile, isMachine, true},
		{"Killed", s.killed, isMachine, true}, {"Stopped", s.stopped, isMachine, true}, {"PutBack", s.putBack, isMachine, true},
		{"ServerComesLater", s.serverComesLater, isMachine, true}, {"Load", s.load, true, false},
	}
	run := func(t *testing.T, alone bool) {
		for _, test := range tests {
			one := test.run
			if test.can && test.alone == alone && !contains(except, test.name) {
				t.Run(test.name, func(t *testing.T) {
					if !alone {
						t.Parallel()
					}
					one(t)
				})
			}
		}
	}
	t.Run("Beside", func(t *testing.T) { run(t, false) })
	t.Run("Alone", func(t *testing.T) { run(t, true) })
}

func contains(names []string, name string) bool {
	for _, one := range names {
		if one == name {
			return true
		}
	}
	return false
}

func (s *suite) name() string { return fmt.Sprint("test-", s.groups.Add(1)) }

// store is a member's, which is open, and closed when the test ends.
func (s *suite) store(t testing.TB, o Options) claims.Store {
	t.Helper()
	store := s.begin(t, o)
	Open(t, store)
	return store
}

func (s *suite) begin(t testing.TB, o Options) claims.Store {
	t.Helper()
	if o.Terms == (claims.Terms{}) {
		o.Terms = Usual
	}
	store := s.server.Store(t, o)
	t.Cleanup(func() { store.Close() })
	return store
}

// Open opens a store, and ends the test where that fails.
func Open(t testing.TB, store claims.Store) claims.State {
	t.Helper()
	ctx, cancel := context.WithTimeout(context.Background(), patience.Long)
	defer cancel()
	state, err := store.Open(ctx)
	if err != nil {
		t.Fatal(err)
	}
	return state
}

// Refuses wants that a store does not open, and that the error has a text. Where it is another one, it waits longer: a busy machine may be slow.
func Refuses(t testing.TB, store claims.Store, text string) {
	t.Helper()
	for wait := time.Second; ; {
		now := longer(&wait)
		ctx, cancel := context.WithTimeout(context.Background(), now)
		_, err := store.Open(ctx)
		cancel()
		if err != nil && strings.Contains(err.Error(), text) {
			return
		}
		if err == nil || now == wait {
			t.Fatalf("opened in %v: %v, want %q", now, err, text)
		}
	}
}

// atFirst is for how long a call is tried at first that is tried again.
const atFirst = 5 * time.Second

// longer returns for how long a call is tried now, and lets it be twice as long the next time: a busy machine may be slow.
func longer(wait *time.Duration) (now time.Duration) {
	now = *wait
	if *wait *= 2; *wait > patience.Long {
		*wait = patience.Long
	}
	return now
}

// State asks for the state until it is there.
func State(t testing.TB, store claims.Store) (state claims.State) {
	t.Helper()
	wait := atFirst
	logtest.Await(t, "the store's state", func() bool {
		ctx, cancel := context.WithTimeout(context.Background(), longer(&wait))
		defer cancel()
		var err error
		state, err = store.State(ctx)
		if err != nil {
			t.Log(err)
		}
		return err == nil
	})
	return state
}

// Watch asks for the state each few milliseconds, as a member does each second, until the test ends or end is called.
func Watch(t testing.TB, store claims.Store) (end func()) {
	ctx, cancel := context.WithCancel(context.Background())
	done := make(chan struct{})
	go func() {
		defer close(done)
		tick := time.NewTicker(20 * time.Millisecond)
		defer tick.Stop()
		for {
			call, cancelCall := context.WithTimeout(ctx, time.Second)
			store.State(call)
			cancelCall()
			select {
			case <-tick.C:
			case <-ctx.Done():
				return
			}
		}
	}()
	var once sync.Once
	end = func() { once.Do(func() { cancel(); <-done }) }
	t.Cleanup(end)
	return end
}

var keys atomic.Uint64

// Key is a key that no other call returns.
func Key() (key svid.TokenKey) {
	binary.BigEndian.PutUint64(key[:], keys.Add(1)*0x9e3779b97f4a7c15) // (spread over the shards)
	copy(key[24:], "\r\n \x00\xff'\"%")
	return key
}

// Own is an owner of a test.
func Own(n int) (o claims.Owner) {
	copy(o[:], "owner of a test\x00\r\n")
	binary.BigEndian.PutUint64(o[24:], uint64(n)+1)
	return o
}

// Now is the time of this machine.
func Now() uint64 { return uint64(time.Now().Unix()) }

// Try puts claims once.
func Try(store claims.Store, wait time.Duration, these ...claims.Claim) []claims.Found {
	ctx, cancel := context.WithTimeout(context.Background(), wait)
	defer cancel()
	found := make([]claims.Found, len(these))
	for i := range found {
		found[i].Err = errors.New("Put set nothing")
	}
	store.Put(ctx, these, found)
	return found
}

// Put puts claims, and those again that had an error, until all have an answer.
func Put(t testing.TB, store claims.Store, these ...claims.Claim) []claims.Found {
	t.Helper()
	found, err := put(store, patience.Long, these...)
	if err != nil {
		t.Fatal(err)
	}
	return found
}

func put(store claims.Store, wait time.Duration, these ...claims.Claim) ([]claims.Found, error) {
	all := make([]claims.Found, len(these))
	open := make([]int, len(these))
	for i := range open {
		open[i] = i
	}
	try := atFirst
	for look, end := patience.Looks(), time.Now().Add(wait); ; look() {
		again := make([]claims.Claim, len(open))
		for n, i := range open {
			again[n] = these[i]
		}
		var failed []int
		var err error
		for n, f := range Try(store, longer(&try), again...) {
			if all[open[n]] = f; f.Err != nil {
				failed, err = append(failed, open[n]), f.Err
			}
		}
		if open = failed; len(open) == 0 {
			return all, nil
		}
		if time.Now().After(end) {
			return nil, fmt.Errorf("waited %v: %w", wait, err)
		}
	}
}

// A Judgment is what a member makes of a Found.
type Judgment int

const (
	Undecided Judgment = iota // nothing is known yet
	Mine                      // accepted
	Another                   // somebody else's claim was first
	Unknown                   // an earlier epoch may have had a claim
	Expired                   // the token is over by the store's time
	Withdrawn                 // withdrawn
)

// Judge says what is due, as the library does: a claim is accepted if its entry is its own, its token lives on by the store's time
// less ahead, and no earlier epoch may have had it.
func Judge(c claims.Claim, f claims.Found, ahead uint64) Judgment {
	switch {
	case f.Err != nil:
		return Undecided
	case f.Owner == claims.Withdrawn:
		return Withdrawn
	case f.Owner != c.Owner:
		return Another
	case c.Expires+ahead <= f.Time:
		return Expired
	case c.Expires <= f.Deaf:
		return Unknown
	}
	return Mine
}

// A Ledger says of each key who accepted it. It is for many goroutines.
type Ledger struct {
	mu  sync.Mutex
	who map[svid.TokenKey]claims.Owner
}

// Accept notes an acceptance, and ends the test where another owner has one.
func (l *Ledger) Accept(t testing.TB, c claims.Claim) {
	t.Helper()
	l.mu.Lock()
	defer l.mu.Unlock()
	if l.who == nil {
		l.who = make(map[svid.TokenKey]claims.Owner)
	}
	if is, there := l.who[c.Key]; there && is != c.Owner {
		t.Errorf("%x was accepted twice: %x, %x", c.Key, is, c.Owner)
	}
	l.who[c.Key] = c.Owner
}

// Len is how many keys were accepted.
func (l *Ledger) Len() int {
	l.mu.Lock()
	defer l.mu.Unlock()
	return len(l.who)
}

// Load lets members put claims of the same keys, in calls of a few, each key at all of them, until end is called. It notes in the
// ledger what was accepted.
func Load(t testing.TB, l *Ledger, members ...claims.Store) (end func()) {
	return LoadWith(t, l, func(i int) claims.Claim { return claims.Claim{Key: Key(), Expires: Now() + uint64(1800+i%3600)} }, members...)
}

// LoadWith is Load with claims of the caller's, whose owners it sets.
func LoadWith(t testing.TB, l *Ledger, next func(i int) claims.Claim, members ...claims.Store) (end func()) {
	stop := make(chan struct{})
	var running sync.WaitGroup
	var feeds []chan []claims.Claim
	for n, store := range members {
		feed := make(chan []claims.Claim, 64)
		feeds = append(feeds, feed)
		for k := 0; k < 2; k++ {
			running.Add(1)
			go func(owner claims.Owner, store claims.Store) {
				defer running.Done()
				const least = time.Second
				wait := least // (it is short again once the store answers, so that a server that hangs holds nobody up)
				for these := range feed {
					mine := append([]claims.Claim(nil), these...)
					for i := range mine {
						mine[i].Owner = owner
					}
					for try := 0; try < 3 && len(mine) > 0; try++ {
						var again []claims.Claim
						for i, f := range Try(store, longer(&wait), mine...) {
							switch Judge(mine[i], f, 60) {
							case Mine:
								l.Accept(t, mine[i])
							case Undecided:
								again = append(again, mine[i])
							}
						}
						if mine = again; len(mine) == 0 {
							wait = least
						} else if wait > atFirst {
							wait = atFirst
						}
					}
				}
			}(Own(n), store)
		}
	}
	running.Add(1)
	go func() {
		defer running.Done()
		for i := 0; ; {
			these := make([]claims.Claim, 1+i%7)
			for k := range these {
				these[k] = next(i)
				i++
			}
			for _, feed := range feeds {
				select {
				case feed <- these:
				case <-stop:
					for _, feed := range feeds {
						close(feed)
					}
					return
				}
			}
		}
	}()
	var once sync.Once
	end = func() { once.Do(func() { close(stop); running.Wait() }) }
	t.Cleanup(end)
	return end
}

// want ends the test where an owner is not the one that is due.
func want(t testing.TB, f claims.Found, owner claims.Owner) {
	t.Helper()
	if f.Err != nil || f.Owner != owner {
		t.Fatalf("found %x %v, and not %x", f.Owner, f.Err, owner)
	}
}

// The first claim stays, whoever puts another, and whoever asks again.
func (s *suite) put(t *testing.T) {
	o := Options{Name: s.name()}
	a, b := s.store(t, o), s.store(t, o)
	first := claims.Claim{Key: Key(), Owner: Own(1), Expires: Now() + 3000}
	second := first
	second.Owner = Own(2)
	before := Now()
	is := Put(t, a, first)[0]
	want(t, is, first.Owner)
	if is.Deaf != 0 || is.Time < before || is.Time > Now() {
		t.Errorf("%+v at %d to %d", is, before, Now())
	}
	for i := 0; i < 3; i++ {
		want(t, Put(t, b, second)[0], first.Owner)
		want(t, Put(t, a, first)[0], first.Owner)
		want(t, Put(t, b, first)[0], first.Owner) // (as after a lost answer, by another connection)
	}
	later := second
	later.Expires += 300
	want(t, Put(t, b, later)[0], first.Owner)
	other := claims.Claim{Key: Key(), Owner: Own(2), Expires: Now() + 3000}
	want(t, Put(t, b, other)[0], other.Owner)
	if x, y := State(t, a), State(t, b); x.Epoch == "" || x.Epoch != y.Epoch || x.Deaf != 0 || y.Deaf != 0 || x.Time < before {
		t.Errorf("%+v %+v", x, y)
	}
}

// Each claim of a call has an answer of its own. Other groups have other entries.
func (s *suite) many(t *testing.T) {
	o := Options{Name: s.name()}
	a, b := s.store(t, o), s.store(t, o)
	Watch(t, b)
	these := make([]claims.Claim, claims.MostClaims)
	var earlier []claims.Claim
	for i := range these {
		these[i] = claims.Claim{Key: Key(), Owner: Own(1), Expires: Now() + 3000 + uint64(i)}
		if i%3 == 0 {
			one := these[i]
			one.Owner = Own(2)
			earlier = append(earlier, one)
		}
	}
	Put(t, b, earlier...)
	for again := 0; again < 2; again++ {
		for i, f := range Put(t, a, these...) {
			due := Own(1)
			if i%3 == 0 {
				due = Own(2)
			}
			want(t, f, due)
		}
	}
	Put(t, a) // nothing
	other := s.store(t, Options{Name: s.name()})
	want(t, Put(t, other, claims.Claim{Key: these[0].Key, Owner: Own(3), Expires: Now() + 3000})[0], Own(3))
}

// Of many members that put the same keys at once, one is the first of each, and all hear of the same one.
func (s *suite) races(t *testing.T) {
	const members, calls, each = 6, 24, 16
	o := Options{Name: s.name()}
	these := make([]claims.Claim, calls*each)
	for i := range these {
		these[i] = claims.Claim{Key: Key(), Expires: Now() + 3000}
	}
	var found [members][calls * each]claims.Found
	Watch(t, s.store(t, o))
	var putting sync.WaitGroup
	for m := 0; m < members; m++ {
		store := s.store(t, o)
		for k := 0; k < calls; k++ {
			putting.Add(1)
			go func(m, k int) {
				defer putting.Done()
				mine := make([]claims.Claim, each)
				for i := range mine { // (in another order at each member)
					at := (i*(2*m+1) + m) % each
					mine[i] = these[k*each+at]
					mine[i].Owner = Own(m)
				}
				all, err := put(store, patience.Long, mine...)
				if err != nil {
					t.Error(err)
					return
				}
				for i := range mine {
					found[m][k*each+(i*(2*m+1)+m)%each] = all[i]
				}
			}(m, k)
		}
	}
	putting.Wait()
	for i := range these {
		first := found[0][i].Owner
		winners := 0
		for m := 0; m < members; m++ {
			if found[m][i].Owner != first {
				t.Fatalf("key %d is %x's and %x's", i, first, found[m][i].Owner)
			}
			if first == Own(m) {
				winners++
			}
		}
		if winners != 1 {
			t.Fatalf("key %d has %d winners", i, winners)
		}
	}
	s.same(t, o)
}

// same looks that nobody has ended the epoch of a group that lost nothing.
func (s *suite) same(t testing.TB, o Options) {
	t.Helper()
	if is := State(t, s.store(t, o)); is.Deaf != 0 {
		t.Errorf("nothing was lost, and the store is %+v", is)
	}
}

// Withdraw withdraws, and tries again until that is there.
func Withdraw(t testing.TB, store claims.Store, w claims.Withdrawal) claims.Owner {
	t.Helper()
	owner, err := withdraw(store, w)
	if err != nil {
		t.Fatalf("waited %v for a withdrawal: %v", patience.Long, err)
	}
	return owner
}

func withdraw(store claims.Store, w claims.Withdrawal) (owner claims.Owner, err error) {
	wait := atFirst
	for look, end := patience.Looks(), time.Now().Add(patience.Long); ; look() {
		ctx, cancel := context.WithTimeout(context.Background(), longer(&wait))
		owner, err = store.Withdraw(ctx, w)
		cancel()
		if err == nil || time.Now().After(end) {
			return owner, err
		}
	}
}

// Withdrawals reads all that came after a position, and where that ends.
func Withdrawals(t testing.TB, store claims.Store, after string) (all []claims.Withdrawal, last string) {
	t.Helper()
	wait := atFirst
	for end := time.Now().Add(patience.Long); ; {
		ctx, cancel := context.WithTimeout(context.Background(), longer(&wait))
		these, last, err := store.Withdrawals(ctx, after)
		cancel()
		if err != nil && time.Now().After(end) {
			t.Fatal(err)
		}
		if err != nil {
			continue
		}
		if len(these) > claims.MostWithdrawals {
			t.Fatalf("%d at once", len(these))
		}
		all = append(all, these...)
		if last == after {
			return all, last
		}
		after = last
	}
}

// A withdrawal that came first wins over every claim, and all hear of it. One that came after a claim hears of that.
func (s *suite) withdrawals(t *testing.T) {
	o := Options{Name: s.name()}
	a, b := s.store(t, o), s.store(t, o)
	first := claims.Withdrawal{Key: Key(), Expires: Now() + 3000}
	if all, _ := Withdrawals(t, b, ""); len(all) != 0 {
		t.Fatalf("%v", all)
	}
	if who := Withdraw(t, a, first); who != claims.Withdrawn {
		t.Fatalf("%x", who)
	}
	want(t, Put(t, b, claims.Claim{Key: first.Key, Owner: Own(1), Expires: first.Expires})[0], claims.Withdrawn)
	if who := Withdraw(t, b, first); who != claims.Withdrawn {
		t.Fatalf("again: %x", who)
	}
	late := claims.Withdrawal{Key: Key(), Expires: Now() + 400}
	want(t, Put(t, b, claims.Claim{Key: late.Key, Owner: Own(2), Expires: late.Expires})[0], Own(2))
	if who := Withdraw(t, a, late); who != Own(2) {
		t.Fatalf("late: %x", who)
	}
	all, last := Withdrawals(t, b, "")
	if !has(all, first) || !has(all, late) {
		t.Fatalf("%v", all)
	}
	if more, same := Withdrawals(t, b, last); len(more) != 0 || same != last {
		t.Fatalf("%v behind %q, at %q", more, last, same)
	}
	third := claims.Withdrawal{Key: Key(), Expires: Now() + 500}
	Withdraw(t, b, third)
	for _, store := range []claims.Store{a, b} { // (a position of one member is good for another)
		if more, _ := Withdrawals(t, store, last); len(more) != 1 || more[0] != third {
			t.Fatalf("%v behind %q", more, last)
		}
	}
	for _, position := range []string{"no position", last + "0"} { // (the second one is after the end, as of a store that has lost its last ones)
		if again, _ := Withdrawals(t, a, position); !has(again, first) || !has(again, late) || !has(again, third) {
			t.Fatalf("%v behind %q", again, position)
		}
	}
}

func has(all []claims.Withdrawal, one claims.Withdrawal) bool {
	for _, w := range all {
		if w == one {
			return true
		}
	}
	return false
}

// Withdrawals are read in pages.
func (s *suite) pages(t *testing.T) {
	const goroutines = 16
	most := 2*claims.MostWithdrawals + 10
	o := Options{Name: s.name()}
	a, b := s.store(t, o), s.store(t, o)
	Watch(t, b)
	var mu sync.Mutex
	due := make(map[claims.Withdrawal]bool)
	var putting sync.WaitGroup
	for g := 0; g < goroutines; g++ {
		putting.Add(1)
		go func(g int) {
			defer putting.Done()
			for i := g; i < most; i += goroutines {
				w := claims.Withdrawal{Key: Key(), Expires: Now() + 3000 + uint64(i)}
				if _, err := withdraw(a, w); err != nil {
					t.Error(err)
					return
				}
				mu.Lock()
				due[w] = true
				mu.Unlock()
			}
		}(g)
	}
	putting.Wait()
	all, _ := Withdrawals(t, b, "")
	for _, w := range all {
		delete(due, w)
	}
	if len(due) != 0 {
		t.Fatalf("%d of %d are missing, and %d came", len(due), most, len(all))
	}
	s.same(t, o)
}

// An entry of any length that a liar wrote makes nobody read more than an owner has, and refuses the token.
func (s *suite) liar(t *testing.T) {
	o := Options{Name: s.name()}
	a := s.store(t, o)
	long := make([]byte, 512<<10) // (of NATS, a message has at most a megabyte)
	for i := range long {
		long[i] = byte(i*7 + 1)
	}
	const entries = 16
	var these []claims.Claim
	for i := 0; i < entries; i++ {
		these = append(these, claims.Claim{Key: Key(), Owner: Own(1), Expires: Now() + 3000})
		s.server.(Liar).Lie(t, o.Name, these[i].Key, long)
	}
	var before, after runtime.MemStats
	runtime.ReadMemStats(&before)
	for _, f := range Put(t, a, these...) {
		want(t, f, *(*claims.Owner)(long[:32]))
	}
	runtime.ReadMemStats(&after)
	if took := after.TotalAlloc - before.TotalAlloc; took > entries/2*uint64(len(long)) { // (other tests of the process take some meanwhile)
		t.Errorf("%d bytes of memory for %d entries", took, entries)
	}
	short := claims.Claim{Key: Key(), Owner: Own(1), Expires: Now() + 3000}
	s.server.(Liar).Lie(t, o.Name, short.Key, []byte("short"))
	if f := Try(a, 5*time.Second, short)[0]; f.Err == nil && f.Owner == short.Owner {
		t.Errorf("%+v", f)
	}
	fine := claims.Claim{Key: Key(), Owner: Own(1), Expires: Now() + 3000}
	want(t, Put(t, a, fine)[0], fine.Owner)
}

// An entry stays until the margin has passed after its expiry, by the store's clock, and then it goes.
func (s *suite) expiry(t *testing.T) {
	o := Options{Name: s.name(), Terms: claims.Terms{Lasts: 3600, Margin: 2, Back: 1}}
	a, b := s.store(t, o), s.store(t, o)
	var first claims.Claim
	var f claims.Found
	logtest.Await(t, "a claim that is put before its token is over", func() bool {
		first = claims.Claim{Key: Key(), Owner: Own(1), Expires: State(t, a).Time + 1}
		f = Try(a, atFirst, first)[0]
		return f.Err == nil && f.Time <= first.Expires
	})
	want(t, f, first.Owner)
	second := first
	second.Owner = Own(2)
	logtest.Await(t, "the entry to go", func() bool {
		State(t, a)
		f = Put(t, b, second)[0]
		return f.Owner == second.Owner
	})
	if f.Time < first.Expires+o.Terms.Margin {
		t.Errorf("it went at %d, and expired at %d", f.Time, first.Expires)
	}
}

// A token that is over for longer than the margin may have lost its entry: the store's time says so, or an error does.
func (s *suite) past(t *testing.T) {
	a := s.store(t, Options{Name: s.name()})
	for _, ago := range []uint64{Usual.Margin, Usual.Margin + 1, 100_000, Now()} {
		for again := 0; again < 2; again++ {
			c := claims.Claim{Key: Key(), Owner: Own(again), Expires: Now() - ago}
			if f := Try(a, 5*time.Second, c)[0]; f.Err == nil && f.Time < c.Expires+Usual.Margin {
				t.Errorf("%d s ago: %+v", ago, f)
			}
		}
	}
}

// The greatest Lasts counts for all. A greater margin than that of the store is refused, and one that has more for clocks of members: what the
// store allows its own clock to step back may be more than this member allows.
func (s *suite) terms(t *testing.T) {
	o := Options{Name: s.name(), Terms: claims.Terms{Lasts: 1000, Margin: 50, Back: 20}}
	a := s.store(t, o)
	long := claims.Claim{Key: Key(), Owner: Own(1), Expires: Now() + 1900}
	if f := Try(a, 5*time.Second, long)[0]; f.Err == nil {
		t.Fatalf("a token of more than Lasts: %+v", f)
	}
	less := o
	less.Terms.Lasts, less.Terms.Margin = 10, 49
	c := s.store(t, less)
	brief := claims.Claim{Key: Key(), Owner: Own(1), Expires: Now() + 900}
	want(t, Put(t, c, brief)[0], brief.Owner)
	more := o
	more.Terms.Lasts = 2000
	b := s.store(t, more)
	long.Key = Key()
	want(t, Put(t, b, long)[0], long.Owner)
	logtest.Await(t, "the others to hear of it", func() bool {
		State(t, a)
		f := Try(a, 5*time.Second, long)[0]
		return f.Err == nil && f.Owner == long.Owner
	})
	ctx, cancel := context.WithTimeout(context.Background(), patience.Long)
	defer cancel()
	for what, terms := range map[string]claims.Terms{
		"a greater margin":                           {Lasts: 1000, Margin: 51, Back: 20},
		"a margin that leaves more without its back": {Lasts: 1000, Margin: 45, Back: 10},
	} {
		bad := o
		bad.Terms = terms
		var unfit *claims.Unfit
		if _, err := s.begin(t, bad).Open(ctx); !errors.As(err, &unfit) {
			t.Errorf("%s: %v", what, err)
		}
	}
}

// What lives for longer than the terms allow has no answer, whatever number its expiry is.
func (s *suite) tooLong(t *testing.T) {
	a := s.store(t, Options{Name: s.name()})
	for _, expires := range []uint64{Now() + Usual.Lasts + 60, 1 << 40, 1 << 53, math.MaxInt64, math.MaxInt64 + 1, math.MaxUint64} {
		c := claims.Claim{Key: Key(), Owner: Own(1), Expires: expires}
		fine := claims.Claim{Key: Key(), Owner: Own(1), Expires: Now() + 3000}
		found := Try(a, 5*time.Second, c, fine)
		if found[0].Err == nil {
			t.Errorf("%d: %+v", expires, found[0])
		}
		if found[1].Err != nil { // (a store may refuse all of a call)
			want(t, Put(t, a, fine)[0], fine.Owner)
		}
		ctx, cancel := context.WithTimeout(context.Background(), 5*time.Second)
		if owner, err := a.Withdraw(ctx, claims.Withdrawal{Key: Key(), Expires: expires}); err == nil {
			t.Errorf("a withdrawal until %d: %x", expires, owner)
		}
		cancel()
	}
}

// A store that lost all begins another epoch, which is deaf to whatever the one before may have had. All see the same one, also who
// starts later.
func (s *suite) emptied(t *testing.T) {
	o := Options{Name: s.name()}
	a, b := s.store(t, o), s.store(t, o)
	before := State(t, a)
	c := claims.Claim{Key: Key(), Owner: Own(1), Expires: Now() + 3000}
	want(t, Put(t, a, c)[0], c.Owner)
	s.server.(Emptier).Empty(t, o.Name)
	again := c
	again.Owner = Own(2)
	f := Put(t, b, again)[0]
	if f.Deaf < before.Time+Usual.Lasts {
		t.Fatalf("after the loss: %+v", f)
	}
	x, y := State(t, a), State(t, b)
	z := Open(t, s.begin(t, o))
	for _, is := range []claims.State{x, y, z} {
		if is.Epoch == before.Epoch || is.Epoch != x.Epoch || is.Deaf < before.Time+Usual.Lasts || is.Deaf != x.Deaf {
			t.Errorf("%+v, and before %+v", is, before)
		}
	}
	for _, store := range []claims.Store{a, b} {
		one := claims.Claim{Key: Key(), Owner: Own(3), Expires: Now() + 3000}
		if f := Put(t, store, one)[0]; f.Owner != one.Owner || f.Deaf != x.Deaf {
			t.Errorf("%+v", f)
		}
	}
}

// A store that lost all, and is made again by a member that knows nothing of it, is deaf all the same, while another member runs.
func (s *suite) emptiedAndOpened(t *testing.T) {
	o := Options{Name: s.name()}
	a := s.store(t, o)
	before := State(t, a)
	c := claims.Claim{Key: Key(), Owner: Own(1), Expires: Now() + 3000}
	want(t, Put(t, a, c)[0], c.Owner)
	Watch(t, a)
	s.server.(Emptier).Empty(t, o.Name)
	o.Compares = true
	late := s.begin(t, o)
	if is := Open(t, late); is.Deaf < before.Time+Usual.Lasts || is.Epoch == before.Epoch {
		t.Errorf("%+v", is)
	}
	again := c
	again.Owner = Own(2)
	if f := Put(t, late, again)[0]; Judge(again, f, 60) != Unknown {
		t.Errorf("%+v", f)
	}
	logtest.Await(t, "one epoch", func() bool { return State(t, a) == State(t, late) || State(t, a).Epoch == State(t, late).Epoch })
}

// A call ends with its context, whatever the server does. The same claim finds its entry later.
func (s *suite) contextEnds(t *testing.T) {
	m := s.server.(Machine)
	o := Options{Name: s.name()}
	a := s.store(t, o)
	b := s.store(t, o)
	c := claims.Claim{Key: Key(), Owner: Own(1), Expires: Now() + 3000}
	m.Pause(t)
	defer m.Resume(t)
	begun := time.Now()
	for _, f := range Try(a, 100*time.Millisecond, c, claims.Claim{Key: Key(), Owner: Own(1), Expires: Now() + 3000}) {
		if f.Err == nil {
			t.Errorf("%+v", f)
		}
	}
	ctx, cancel := context.WithCancel(context.Background())
	time.AfterFunc(100*time.Millisecond, cancel)
	for name, call := range map[string]func() error{ // (no deadline, and an end)
		"Put": func() error {
			found := make([]claims.Found, 1)
			a.Put(ctx, []claims.Claim{c}, found)
			return found[0].Err
		},
		"State": func() error { _, err := a.State(ctx); return err },
		"Withdraw": func() error {
			_, err := a.Withdraw(ctx, claims.Withdrawal{Key: Key(), Expires: Now() + 3000})
			return err
		},
		"Withdrawals": func() error { _, _, err := a.Withdrawals(ctx, ""); return err },
		"Open":        func() error { _, err := s.begin(t, o).Open(ctx); return err },
	} {
		answer := make(chan error, 1)
		go func() { answer <- call() }()
		select {
		case err := <-answer:
			if err == nil {
				t.Errorf("%s of a context that has ended", name)
			}
		case <-time.After(patience.Long):
			t.Fatalf("%s goes on after its context has ended", name)
		}
	}
	if took := time.Since(begun); took > patience.Long/2 {
		t.Errorf("calls took %v", took)
	}
	m.Resume(t)
	want(t, Put(t, a, c)[0], c.Owner)
	other := c
	other.Owner = Own(2)
	want(t, Put(t, b, other)[0], c.Owner)
}

// A claim whose answer was lost finds its own entry.
func (s *suite) lostAnswer(t *testing.T) {
	m := s.server.(Machine)
	o := Options{Name: s.name()}
	b := s.store(t, o)
	proxy := logtest.NewProxy(t, m.Address())
	o.Address = proxy.Address
	a := s.store(t, o)
	c := claims.Claim{Key: Key(), Owner: Own(1), Expires: Now() + 3000}
	c.Owner = claims.Owner{}
	copy(c.Owner[:], "marker of the answer that is lost")
	proxy.Lose([]byte("marker of the answer that is lo"))
	if f := Try(a, patience.Long, c)[0]; f.Err == nil { // (it ends once the proxy ends the connection)
		t.Skip("the owner does not go over the wire as it is")
	}
	if !proxy.HasLost() {
		t.Fatal("nothing was lost")
	}
	other := c
	other.Owner = Own(2)
	want(t, Put(t, b, other)[0], c.Owner)
	want(t, Put(t, a, c)[0], c.Owner)
	proxy.Shut(true)
	if f := Try(a, 300*time.Millisecond, c)[0]; f.Err == nil {
		t.Errorf("through a proxy that is shut: %+v", f)
	}
	proxy.Shut(false)
	want(t, Put(t, a, c)[0], c.Owner)
	if x, y := State(t, a), State(t, b); x.Epoch != y.Epoch || x.Deaf != 0 {
		t.Errorf("%+v %+v", x, y)
	}
}

// What is closed answers no more, and may be closed again.
func (s *suite) closed(t *testing.T) {
	o := Options{Name: s.name()}
	a := s.store(t, o)
	c := claims.Claim{Key: Key(), Owner: Own(1), Expires: Now() + 3000}
	want(t, Put(t, a, c)[0], c.Owner)
	if err := a.Close(); err != nil {
		t.Fatal(err)
	}
	if err := a.Close(); err != nil {
		t.Fatal(err)
	}
	if f := Try(a, 5*time.Second, c)[0]; f.Err == nil {
		t.Errorf("put into what is closed: %+v", f)
	}
	ctx, cancel := context.WithTimeout(context.Background(), 5*time.Second)
	defer cancel()
	if _, err := a.State(ctx); err == nil {
		t.Error("the state of what is closed")
	}
}

// Close ends calls that are under way.
func (s *suite) closedMeanwhile(t *testing.T) {
	m := s.server.(Machine)
	a := s.store(t, Options{Name: s.name()})
	m.Pause(t)
	defer m.Resume(t)
	ended := make(chan claims.Found)
	go func() {
		ended <- Try(a, patience.Long, claims.Claim{Key: Key(), Owner: Own(1), Expires: Now() + 3000})[0]
	}()
	for look := patience.Looks(); ; look() {
		a.Close()
		select {
		case f := <-ended:
			if f.Err == nil {
				t.Errorf("%+v", f)
			}
			return
		default:
		}
	}
}

// A server that is killed and started again has lost nothing, and the epoch stays.
func (s *suite) killed(t *testing.T) { s.again(t, func(m Machine) { m.Kill(t) }) }

func (s *suite) stopped(t *testing.T) { s.again(t, func(m Machine) { m.Stop(t) }) }

func (s *suite) again(t *testing.T, end func(Machine)) {
	m := s.server.(Machine)
	o := Options{Name: s.name()}
	a, b := s.store(t, o), s.store(t, o)
	before := State(t, a)
	Watch(t, a)
	var ledger Ledger
	stop := Load(t, &ledger, a, b)
	logtest.Await(t, "some claims", func() bool { return ledger.Len() > 100 })
	end(m)
	m.Start(t)
	n := ledger.Len()
	logtest.Await(t, "some more", func() bool { return ledger.Len() > n+100 })
	stop()
	ledger.mu.Lock()
	defer ledger.mu.Unlock()
	late := s.store(t, o)
	for key, owner := range ledger.who {
		want(t, Put(t, late, claims.Claim{Key: key, Owner: Own(99), Expires: Now() + 3000})[0], owner)
		if len(ledger.who) > 1000 && key[0] > 64 { // (enough of them)
			break
		}
	}
	if is := State(t, a); is.Epoch != before.Epoch || is.Deaf != 0 {
		t.Errorf("%+v, and before %+v", is, before)
	}
}

// A server that was put back to an older copy lacks claims: another epoch begins before anybody accepts what was claimed.
func (s *suite) putBack(t *testing.T) {
	m := s.server.(Machine)
	o := Options{Name: s.name()}
	a := s.store(t, o)
	o.Compares = true
	b := s.store(t, o)
	o.Compares = false
	early := claims.Claim{Key: Key(), Owner: Own(1), Expires: Now() + 3000}
	want(t, Put(t, a, early)[0], early.Owner)
	before := State(t, a)
	restore := m.Copy(t)
	lost := claims.Claim{Key: Key(), Owner: Own(1), Expires: Now() + 3000}
	want(t, Put(t, a, lost)[0], lost.Owner)
	Watch(t, a)
	restore()
	again := lost
	again.Owner = Own(2)
	if f := Put(t, b, again)[0]; Judge(again, f, 60) == Mine {
		t.Errorf("accepted twice: %+v", f)
	}
	is := State(t, b)
	if is.Epoch == before.Epoch || is.Deaf < before.Time+Usual.Lasts {
		t.Errorf("%+v, and before %+v", is, before)
	}
	if late := Open(t, s.begin(t, o)); late.Epoch != is.Epoch || late.Deaf != is.Deaf {
		t.Errorf("later: %+v, and %+v", late, is)
	}
}

// Who opens a store waits for its server.
func (s *suite) serverComesLater(t *testing.T) {
	m := s.server.(Machine)
	o := Options{Name: s.name()}
	m.Stop(t)
	store := s.begin(t, o)
	ctx, cancel := context.WithTimeout(context.Background(), 200*time.Millisecond)
	if _, err := store.Open(ctx); err == nil {
		t.Error("open without a server")
	}
	cancel()
	opened := make(chan error)
	go func() {
		ctx, cancel := context.WithTimeout(context.Background(), patience.Long)
		defer cancel()
		_, err := store.Open(ctx)
		opened <- err
	}()
	m.Start(t)
	if err := <-opened; err != nil {
		t.Fatal(err)
	}
	c := claims.Claim{Key: Key(), Owner: Own(1), Expires: Now() + 3000}
	want(t, Put(t, store, c)[0], c.Owner)
}

// Members that put the same tokens for a while accept each once, and what is alone is accepted.
func (s *suite) load(t *testing.T) {
	o := Options{Name: s.name()}
	var ledger Ledger
	a := s.store(t, o)
	Watch(t, a)
	end := Load(t, &ledger, a, s.store(t, o), s.store(t, o))
	begun := time.Now()
	logtest.Await(t, "claims", func() bool { // (a busy machine takes its time for many)
		n := ledger.Len()
		return n > 2000 || n > 200 && time.Since(begun) > patience.Long/3
	})
	end()
	s.same(t, o)
}
