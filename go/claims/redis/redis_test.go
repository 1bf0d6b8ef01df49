package redis

import (
	"context"
	"testing"
	"time"

	"svid.example/go/v3/claims"
	"svid.example/go/v3/claims/claimstest"
	"svid.example/go/v3/internal/broker"
	"svid.example/go/v3/internal/logtest"
	"svid.example/go/v3/internal/patience"
	"svid.example/go/v3/svid"
)

// compares is how long members of a test compare. They look at the state each 20 ms.
const compares = 300 * time.Millisecond

// comparing is a store that is open, and whose member lets others compare for as long as can be: a busy machine may be slow. It stops waiting
// once another one has ended the epoch.
func comparing(t testing.TB, o Options) claims.Store {
	t.Helper()
	o.Wait = mostWait
	return opened(t, o)
}

// A machine is a redis-server of a test.
type machine struct {
	*broker.Redis
	replicas int
}

// start starts a server, which ends with the test.
func start(t testing.TB, more ...string) *machine {
	t.Helper()
	return startIn(t, t.TempDir(), more...)
}

func startIn(t testing.TB, dir string, more ...string) *machine {
	t.Helper()
	r, err := broker.NewRedis(dir, more...)
	if err != nil {
		t.Fatal(err)
	}
	t.Cleanup(r.Kill)
	s := &machine{Redis: r}
	s.Start(t)
	return s
}

func (s *machine) Start(t testing.TB) {
	t.Helper()
	if err := s.Redis.Start(); err != nil {
		t.Fatal(err)
	}
	logtest.Await(t, "redis-server", s.Answers)
}

func (s *machine) Store(t testing.TB, o claimstest.Options) claims.Store {
	url := s.URL
	if o.Address != "" {
		url = "redis://" + o.Address
	}
	given := Options{URLs: []string{url}, Name: o.Name, Terms: o.Terms, Replicas: s.replicas}
	if o.Compares {
		given.Wait = mostWait
	}
	return newStore(t, given)
}

// newStore is a store that is not open yet: one of this package, or of a client of another language.
func newStore(t testing.TB, o Options) claims.Store {
	t.Helper()
	o = usual(o)
	if !claimstest.OfOthers() {
		return newOwn(t, o)
	}
	store, err := newRemote(o)
	if err != nil {
		t.Fatal(err)
	}
	t.Cleanup(func() { store.Close() })
	return store
}

// usual are the options of a test, where it has none.
func usual(o Options) Options {
	if o.Name == "" {
		o.Name = "svid"
	}
	if o.Terms == (claims.Terms{}) {
		o.Terms = claimstest.Usual
	}
	if o.Wait == 0 {
		o.Wait = compares
	}
	return o
}

// newOwn is a store of this package that is not open yet.
func newOwn(t testing.TB, o Options) *Store {
	t.Helper()
	store, err := New(usual(o))
	if err != nil {
		t.Fatal(err)
	}
	t.Cleanup(func() { store.Close() })
	return store
}

// opened is a store that is open.
func opened(t testing.TB, o Options) claims.Store {
	t.Helper()
	store := newStore(t, o)
	claimstest.Open(t, store)
	return store
}

// openedOwn is one of this package.
func openedOwn(t testing.TB, o Options) *Store {
	t.Helper()
	store := newOwn(t, o)
	claimstest.Open(t, store)
	return store
}

// keyOf is the key of an entry in a group of the usual name.
func keyOf(c claims.Claim) string { return "svid:{svid}:" + string(c.Key[:]) }

func (s *machine) Address() string   { return s.Redis.Address }
func (s *machine) Kill(testing.TB)   { s.Redis.Kill() }
func (s *machine) Stop(testing.TB)   { s.Redis.Stop() }
func (s *machine) Pause(testing.TB)  { s.Redis.Pause() }
func (s *machine) Resume(testing.TB) { s.Redis.Resume() }

func (s *machine) do(t testing.TB, words ...string) string {
	t.Helper()
	answer, err := s.Do(words...)
	if err != nil {
		t.Fatal(err)
	}
	return answer
}

func (s *machine) Empty(t testing.TB, name string) { s.do(t, "FLUSHALL") }

func (s *machine) Lie(t testing.TB, name string, key svid.TokenKey, entry []byte) {
	s.do(t, "SET", "svid:{"+name+"}:"+string(key[:]), string(entry), "EX", "3600")
}

func (s *machine) Copy(t testing.TB) func() {
	t.Helper()
	return logtest.Copied(t, s.Dir, s.Redis.Stop, s.Redis.Kill, s.Start)
}

func claim(n int) claims.Claim {
	return claims.Claim{Key: claimstest.Key(), Owner: claimstest.Own(n), Expires: claimstest.Now() + 3000}
}

func limited(t testing.TB) context.Context {
	ctx, cancel := context.WithTimeout(context.Background(), patience.Long)
	t.Cleanup(cancel)
	return ctx
}

func TestStore(t *testing.T) { claimstest.Run(t, start(t)) }
