package server

import (
	"bytes"
	"context"
	"encoding/json"
	"errors"
	"fmt"
	"net/http"
	"net/http/httptest"
	"runtime"
	"strings"
	"sync"
	"sync/atomic"
	"testing"
	"time"

	"svid.example/go/v3/claims"
	"svid.example/go/v3/claims/memory"
	"svid.example/go/v3/internal/patience"
	"svid.example/go/v3/svid"
)

// ruleOf is a rule that a test knows to be one.
func ruleOf(t testing.TB, text string) *CallerRule {
	t.Helper()
	rule, err := ParseCaller(text)
	if err != nil {
		t.Fatal(err)
	}
	return rule
}

// inBound are options of mode bound whose callers this rule names.
func inBound(t testing.TB, rule string, o Options) Options {
	o.Mode, o.Stored, o.Terms, o.Caller = Bound, true, claims.Terms{Lasts: 3660, Margin: 90, Back: 60}, ruleOf(t, rule)
	return o
}

// bound returns engines of one group in mode bound.
func bound(t testing.TB, n int, rule string) ([]*Engine, *shop) {
	t.Helper()
	s := newShop()
	var all []*Engine
	for i := 0; i < n; i++ {
		all = append(all, s.use(t, ready(t, engine(t, inBound(t, rule, Options{ValidatorID: svid.ValidatorID{byte(i + 1)}})))))
	}
	return all, s
}

// by sends a token as a caller of this name does.
func by(e *Engine, name, token string) error {
	_, err := e.Check(WithCaller(context.Background(), CallerNamed(name)), token)
	return err
}

// from sends a token to /check with these headers.
func from(e *Engine, token string, header http.Header) *httptest.ResponseRecorder {
	r, w := httptest.NewRequest(http.MethodGet, "http://svidd/check", nil), httptest.NewRecorder()
	r.Header = header.Clone()
	if r.Header == nil {
		r.Header = http.Header{}
	}
	r.Header.Set("Authorization", "Bearer "+token)
	e.Handler().ServeHTTP(w, r)
	return w
}

// A token is accepted at each sidecar from the caller that used it first, again and again, and from nobody else.
func TestBoundAcceptsOneCaller(t *testing.T) {
	all, _ := bound(t, 3, "header:X-Caller")
	one := token("a")
	for round := 0; round < 3; round++ {
		for i, e := range all {
			if err := by(e, "owner", one); err != nil {
				t.Errorf("the owner at sidecar %d: %v", i, err)
			}
			if err := by(e, "thief", one); err != svid.Replayed {
				t.Errorf("the thief at sidecar %d: %v", i, err)
			}
		}
	}
	for _, e := range all {
		if uses, err := svid.Uses(saved(t, e)); err != nil || len(uses) != 0 {
			t.Errorf("the record has %d uses: %v", len(uses), err)
		}
		if n := withMachine(e, (*Machine).Backlog); n != 0 {
			t.Errorf("%d things are under way", n)
		}
		if got := e.Metrics.OtherCaller.Load(); got != 3 {
			t.Errorf("%d requests of another caller are counted", got)
		}
	}
}

// Many requests of an owner at once are all accepted, and none of as many thieves.
func TestBoundAtOnce(t *testing.T) {
	all, _ := bound(t, 3, "header:X-Caller")
	for round := 0; round < 10; round++ {
		one := token(fmt.Sprint("at once ", round))
		if err := by(all[round%3], "owner", one); err != nil {
			t.Fatal(err)
		}
		var group sync.WaitGroup
		for i := 0; i < 24; i++ {
			group.Add(2)
			go func(i int) {
				defer group.Done()
				if err := by(all[i%3], "owner", one); err != nil {
					t.Errorf("the owner: %v", err)
				}
			}(i)
			go func(i int) {
				defer group.Done()
				if err := by(all[i%3], fmt.Sprint("thief ", i), one); err != svid.Replayed {
					t.Errorf("a thief: %v", err)
				}
			}(i)
		}
		group.Wait()
	}
}

// Requests with one token that come while the store is asked share its answer, and so do those that come later, of whatever caller.
func TestRequestsOfOneCallerShareAClaim(t *testing.T) {
	all, store := bound(t, 1, "header:X-Caller")
	e, one := all[0], token("a")
	const waiters = 100
	release, answers := store.hold(), make(chan error, waiters+1)
	send := func() { answers <- by(e, "owner", one) }
	go send()
	await(t, "the claim", func() bool { return store.puts() == 1 })
	for i := 0; i < waiters; i++ {
		go send()
	}
	await(t, "all to wait", func() bool { return withMachine(e, at(waiting)) == waiters })
	release()
	for i := 0; i < waiters+1; i++ {
		if err := <-answers; err != nil {
			t.Error(err)
		}
	}
	if n := store.puts(); n != 1 {
		t.Errorf("%d requests of one caller took %d calls", waiters+1, n)
	}
	if err := by(e, "owner", one); err != nil || store.puts() != 1 {
		t.Errorf("later: %v, after %d calls", err, store.puts())
	}
	if err := by(e, "thief", one); err != svid.Replayed || store.puts() != 1 {
		t.Errorf("a thief: %v, after %d calls", err, store.puts())
	}
}

// Of two callers that send a token first at the same time, one gets 200, and goes on to get it.
func TestBoundHasOneFirstCaller(t *testing.T) {
	all, store := bound(t, 2, "header:X-Caller")
	one := token("a")
	release := store.hold()
	answers := [2]chan error{make(chan error, 1), make(chan error, 1)}
	for i, e := range all {
		i, e := i, e
		go func() { answers[i] <- by(e, fmt.Sprint(i), one) }()
	}
	await(t, "both claims", func() bool { return store.puts() == 2 })
	release()
	won, lost := 0, 0
	var first string
	for i := range answers {
		switch err := <-answers[i]; err {
		case nil:
			won, first = won+1, fmt.Sprint(i)
		case svid.Replayed:
			lost++
		default:
			t.Error(err)
		}
	}
	if won != 1 || lost != 1 {
		t.Fatalf("%d won, %d lost", won, lost)
	}
	for i, e := range all {
		if err := by(e, first, one); err != nil {
			t.Errorf("at sidecar %d: %v", i, err)
		}
	}
}

// Where one sidecar of a group runs in strict and one in bound, a token belongs to that which claimed it first: the other one refuses it.
func TestBoundBesideStrict(t *testing.T) {
	all, store := bound(t, 1, "header:X-Caller")
	other := store.use(t, ready(t, engine(t, inStrict(Options{ValidatorID: svid.ValidatorID{2}}))))
	one, two := token("a"), token("b")
	for i, row := range []struct{ is, want error }{
		{by(all[0], "owner", one), nil}, {check(other, one), svid.Replayed}, {by(all[0], "owner", one), nil},
		{check(other, two), nil}, {by(all[0], "owner", two), svid.Replayed}, {check(other, two), svid.Replayed},
	} {
		if row.is != row.want {
			t.Errorf("request %d: %v, want %v", i, row.is, row.want)
		}
	}
}

// Another life of a sidecar knows the caller from the store.
func TestBoundOverARestart(t *testing.T) {
	all, store := bound(t, 1, "header:X-Caller")
	one := token("a")
	if err := by(all[0], "owner", one); err != nil {
		t.Fatal(err)
	}
	next := store.use(t, ready(t, engine(t, inBound(t, "header:X-Caller", Options{ValidatorID: svid.ValidatorID{1}}))))
	if err := by(next, "thief", one); err != svid.Replayed {
		t.Errorf("a thief after a restart: %v", err)
	}
	if err := by(next, "owner", one); err != nil {
		t.Errorf("the owner after a restart: %v", err)
	}
}

// What the store answered to one thief counts for all of them, and for the owner: whose the token is does not change. So neither holds up the
// other, and the owner goes on where the store is away, or has lost all since.
func TestWhatAThiefWasAnswered(t *testing.T) {
	all, store := bound(t, 2, "header:X-Caller")
	one := token("a")
	if err := by(all[0], "owner", one); err != nil {
		t.Fatal(err)
	}
	e, before := all[1], store.puts() // where the owner was not yet
	for i := 0; i < 6; i++ {
		if err := by(e, fmt.Sprint("thief ", i%2), one); err != svid.Replayed || store.puts() != before+1 {
			t.Errorf("thief %d, time %d: %v, after %d calls", i%2, i/2, err, store.puts()-before)
		}
	}
	store.Lose(nil)
	e.lookAtStore() // as each second
	for i := 0; i < 3; i++ {
		if err := by(e, "owner", one); err != nil || store.puts() != before+1 {
			t.Errorf("the owner, time %d: %v, after %d calls", i, err, store.puts()-before)
		}
	}
	if err := by(e, "thief", one); err != svid.Replayed {
		t.Errorf("a thief, when the store has lost all: %v", err)
	}
	next := store.use(t, ready(t, engine(t, inBound(t, "header:X-Caller", Options{ValidatorID: svid.ValidatorID{9}}))))
	if err := by(next, "thief", one); !errors.Is(err, ErrLost) {
		t.Errorf("a thief at a sidecar that knows nothing of the token: %v", err)
	}
}

// While nobody reads the store's withdrawals, the store is asked about an owner again. So a sidecar that is cut off from it accepts nothing.
func TestAnOwnerIsAskedAboutWhileTheStoreIsAway(t *testing.T) {
	store := newShop()
	e := store.use(t, ready(t, engine(t, inBound(t, "header:X-Caller", Options{Wait: 50 * time.Millisecond}))))
	one := token("a")
	await(t, "the owner to be accepted", func() bool { return by(e, "owner", one) == nil })
	store.hold()
	await(t, "the owner to be refused", func() bool { return by(e, "owner", one) != nil })
	var err error
	await(t, "an answer to a thief", func() bool { err = by(e, "thief", one); return !errors.Is(err, context.DeadlineExceeded) }) // (a busy machine may be late)
	if err != svid.Replayed {
		t.Errorf("a thief: %v", err)
	}
}

// While a computer is suspended, the clock that only goes ahead stands still. The first request after that finds a withdrawal of that time. A
// store that is away then is not looked at for each request.
func TestAWithdrawalWhileTheComputerWasSuspended(t *testing.T) {
	for _, mode := range []Mode{Bound, Reuse, Once} {
		store := &watchedShop{shop: newShop()}
		var suspended atomic.Uint64
		o := inBound(t, "header:X-Caller", Options{Now: func() uint64 { return moment + suspended.Load() }})
		o.Mode = mode
		e := ready(t, engine(t, o))
		state, err := store.shop.Open(context.Background())
		if err != nil {
			t.Fatal(err)
		}
		e.UseStore(store, state)
		one, other := token("a"), token("b")
		if err := by(e, "owner", one); err != nil {
			t.Fatal(err)
		}
		for _, gone := range []string{one, other} {
			found, err := e.Find(gone)
			if err != nil {
				t.Fatal(err)
			}
			if _, err := store.Withdraw(context.Background(), claims.Withdrawal{Key: found.Key, Expires: found.Expires}); err != nil {
				t.Fatal(err)
			}
			suspended.Add(100)
			if err := by(e, "owner", gone); err != svid.Withdrawn {
				t.Errorf("%s, after %d seconds: %v", mode, suspended.Load(), err)
			}
		}
		suspended.Add(50)
		store.Fault = func() error { return errors.New("connection refused") }
		before := store.looks.Load()
		for i := 0; i < 20; i++ {
			_ = by(e, "owner", one)
		}
		if looks := store.looks.Load() - before; looks == 0 || looks > 5 { // (a busy machine may be stopped too)
			t.Errorf("%s: %d looks for 20 requests", mode, looks)
		}
	}
}

// waitIn is how many goroutines wait for something in a call of this name.
func waitIn(call string) (n int) {
	stacks := make([]byte, 1<<20)
	stacks = stacks[:runtime.Stack(stacks, true)]
	for _, stack := range strings.Split(string(stacks), "\n\n") {
		header, frames, _ := strings.Cut(stack, "\n")
		if first, _, _ := strings.Cut(frames, "\n"); strings.Contains(header, "[select") && strings.Contains(first, call) {
			n++
		}
	}
	return n
}

// Requests that come while the first one after a suspension looks at the store wait for that look.
func TestRequestsBesideTheFirstLookWaitForIt(t *testing.T) {
	store := &watchedShop{shop: newShop()}
	var suspended atomic.Uint64
	e := ready(t, engine(t, inBound(t, "header:X-Caller", Options{Now: func() uint64 { return moment + suspended.Load() }})))
	state, err := store.shop.Open(context.Background())
	if err != nil {
		t.Fatal(err)
	}
	e.UseStore(store, state)
	one := token("a")
	if err := by(e, "owner", one); err != nil {
		t.Fatal(err)
	}
	found, err := e.Find(one)
	if err != nil {
		t.Fatal(err)
	}
	if _, err := store.Withdraw(context.Background(), claims.Withdrawal{Key: found.Key, Expires: found.Expires}); err != nil {
		t.Fatal(err)
	}
	store.goOn = make(chan struct{})
	suspended.Store(250)
	before, answers := store.looks.Load(), make(chan error, 2)
	go func() { answers <- by(e, "owner", one) }()
	await(t, "the first one to look", func() bool { return store.looks.Load() > before })
	go func() { answers <- by(e, "owner", one) }()
	await(t, "the other one to wait, or an answer", func() bool { return len(answers) > 0 || waitIn("(*Engine).lookFirst(") > 0 })
	close(store.goOn)
	for i := 0; i < 2; i++ {
		if err := <-answers; err != svid.Withdrawn {
			t.Errorf("answer %d: %v", i, err)
		}
	}
}

// A look before a request takes at most three quarters of the time for which requests wait, which begins behind it: who asks svidd waits for both.
func TestALookBeforeARequestIsShort(t *testing.T) {
	const wait = time.Second
	store := &watchedShop{shop: newShop()}
	var suspended atomic.Uint64
	e := ready(t, engine(t, inBound(t, "header:X-Caller", Options{Wait: wait, Now: func() uint64 { return moment + suspended.Load() }})))
	state, err := store.shop.Open(context.Background())
	if err != nil {
		t.Fatal(err)
	}
	e.UseStore(store, state)
	before := store.looks.Load()
	suspended.Store(250)
	_ = by(e, "owner", token("a"))
	if store.looks.Load() == before {
		t.Fatal("nobody looks")
	}
	if state, withdrawals := time.Duration(store.state.Load()), time.Duration(store.withdrawals.Load()); state+withdrawals > wait/4*3 {
		t.Errorf("of %v, a look may take %v and %v", wait, state, withdrawals)
	}
}

// A look that hangs holds up each request for part of its time alone: what the store says then of the token counts.
func TestALookThatHangsHoldsUpNobody(t *testing.T) {
	store := &watchedShop{shop: newShop()}
	var suspended atomic.Uint64
	e := ready(t, engine(t, inBound(t, "header:X-Caller", Options{Wait: 100 * time.Millisecond, Now: func() uint64 { return moment + suspended.Load() }})))
	state, err := store.shop.Open(context.Background())
	if err != nil {
		t.Fatal(err)
	}
	e.UseStore(store, state)
	store.goOn = make(chan struct{})
	before, looked := store.looks.Load(), make(chan struct{})
	go func() { defer close(looked); e.lookAhead() }()
	await(t, "a look", func() bool { return store.looks.Load() > before })
	suspended.Store(250)
	answered := make(chan struct{})
	go func() { defer close(answered); _ = by(e, "owner", token("a")); _ = by(e, "owner", token("b")) }()
	select {
	case <-answered:
	case <-time.After(patience.Long):
		t.Error("requests wait for a look that hangs")
	}
	close(store.goOn)
	<-looked
	<-answered
}

// A token that may have been claimed before a loss of the store is refused for good, so the store is asked once.
func TestALostTokenIsAskedOnce(t *testing.T) {
	all, store := bound(t, 1, "header:X-Caller")
	store.Lose(nil)
	for i := 0; i < 3; i++ {
		if err := by(all[0], "owner", token("a")); !errors.Is(err, ErrLost) || store.puts() != 1 {
			t.Errorf("time %d: %v, after %d calls", i, err, store.puts())
		}
	}
}

// A withdrawal here, and one that another sidecar put into the store after the claim, refuse the token of its owner too.
func TestBoundHearsOfWithdrawals(t *testing.T) {
	all, _ := bound(t, 2, "header:X-Caller")
	one := token("a")
	for _, e := range all {
		if err := by(e, "owner", one); err != nil {
			t.Fatal(err)
		}
	}
	found, err := all[0].Find(one)
	if err != nil {
		t.Fatal(err)
	}
	if _, usedBy, err := all[0].Withdraw(found.Key, found.Expires); err != nil || usedBy != (svid.ValidatorID{}) {
		t.Errorf("withdrawn: used by %v, %v", usedBy, err)
	}
	if err := by(all[0], "owner", one); err != svid.Withdrawn {
		t.Errorf("where it was withdrawn: %v", err)
	}
	all[1].lookAtStore() // as each second
	if err := by(all[1], "owner", one); err != svid.Withdrawn {
		t.Errorf("at another sidecar: %v", err)
	}
	uses, err := svid.Uses(saved(t, all[1]))
	if err != nil || len(uses) != 1 || !uses[0].Withdrawn {
		t.Errorf("the record has %v: %v", uses, err)
	}
}

// An operator may give an expiry that is too early, and then the right one. The later one counts at each sidecar, and what is heard twice stands in
// the record once.
func TestALongerWithdrawalCounts(t *testing.T) {
	var now atomic.Uint64
	now.Store(moment)
	store := &shop{Store: memory.Store{Now: now.Load, Terms: claims.Terms{Lasts: 3660, Margin: 90, Back: 60}}}
	var all []*Engine
	for i := byte(1); i <= 3; i++ {
		all = append(all, store.use(t, ready(t, engine(t, inBound(t, "header:X-Caller", Options{ValidatorID: svid.ValidatorID{i}, Now: now.Load})))))
	}
	one := token("a")
	if err := by(all[1], "owner", one); err != nil {
		t.Fatal(err)
	}
	found, err := all[0].Find(one)
	if err != nil {
		t.Fatal(err)
	}
	for i, expires := range []uint64{moment + 10, found.Expires, moment + 20} {
		if _, _, err := all[0].Withdraw(found.Key, expires); err != nil {
			t.Fatal(err)
		}
		if i < 2 {
			all[1].lookAtStore()
		}
	}
	all[2].lookAtStore() // (it hears of all three at once)
	for _, e := range all[1:] {
		e.outlook.heard = "" // as where the store was made again, with the same withdrawals
		e.lookAtStore()
		if uses, err := svid.Uses(saved(t, e)); err != nil || len(uses) != 2 {
			t.Errorf("the record has %v: %v", uses, err)
		}
	}
	now.Store(moment + 30)
	for i, e := range all {
		if err := by(e, "owner", one); err != svid.Withdrawn {
			t.Errorf("sidecar %d, once the first withdrawal has expired: %v", i, err)
		}
	}
}

// Withdrawals are kept until they expire, not for ever.
func TestWithdrawalsThatHaveExpiredAreDropped(t *testing.T) {
	w := withdrawnTokens{until: map[svid.TokenKey]uint64{}}
	for i := uint64(0); i < 100*leastWithdrawn; i++ {
		w.add(moment+i, svid.TokenKey{byte(i), byte(i >> 8), byte(i >> 16)}, moment+i+10)
	}
	if n := len(w.until); n > 2*leastWithdrawn {
		t.Errorf("%d are kept", n)
	}
	w.add(moment, svid.TokenKey{1, 1, 1, 1}, moment+20)
	w.add(moment, svid.TokenKey{1, 1, 1, 1}, moment+10)
	for expires, want := range map[uint64]bool{moment + 10: true, moment + 20: true, moment + 21: false} {
		if w.has(svid.TokenKey{1, 1, 1, 1}, expires) != want {
			t.Errorf("until %d: %v", expires, !want)
		}
	}
}

// A cutShop is a store with a part that is away, as a Redis Cluster without one of its servers. It can't say what it is. The rest goes on.
type cutShop struct{ *shop }

var errCut = errors.New("shard 7: connection refused")

func (cutShop) State(context.Context) (claims.State, error) { return claims.State{}, errCut }

// A withdrawal is heard of while the store can't say what it is: the claims of other shards go on meanwhile. The sidecar is not ready.
func TestBoundHearsOfWithdrawalsOfAStoreThatIsPartlyAway(t *testing.T) {
	all, store := bound(t, 2, "header:X-Caller")
	one := token("a")
	if err := by(all[1], "owner", one); err != nil {
		t.Fatal(err)
	}
	all[1].store.Store(&reached{cutShop{store}})
	found, err := all[0].Find(one)
	if err != nil {
		t.Fatal(err)
	}
	if _, _, err := all[0].Withdraw(found.Key, found.Expires); err != nil {
		t.Fatal(err)
	}
	all[1].lookAtStore()
	if err := by(all[1], "owner", one); err != svid.Withdrawn {
		t.Errorf("at a sidecar whose look failed: %v", err)
	}
	if all[1].outlook.away.Load() == nil {
		t.Error("the store counts as one that is there")
	}
	if err := by(all[1], "owner", token("b")); err != nil {
		t.Errorf("another token: %v", err)
	}
}

// A sidecar that has not read the store's withdrawals judges nothing. The engine tells the member of a store that is away, or has lost entries, and
// the member decides what that means for /readyz.
func TestReadyInBound(t *testing.T) {
	s := newShop()
	e := ready(t, engine(t, inBound(t, "header:X-Caller", Options{Wait: time.Millisecond})))
	if err := by(e, "owner", token("a")); !errors.Is(err, ErrNotReady) || e.Ready() == nil {
		t.Errorf("without a store: %v, ready: %v", err, e.Ready())
	}
	if s.use(t, e); e.Ready() != nil {
		t.Error(e.Ready())
	}
	s.Lose(nil)
	e.lookAtStore()
	_ = e.Ready()
	if known := withMachine(e, func(m *Machine) svid.Known { return m.known }); !known.Deaf || known.Away || !known.Heard {
		t.Errorf("with a store that has lost entries: %+v", known)
	}
	e.storeAnswered(time.Now(), errors.New("connection lost"))
	await(t, "the store to be away for longer than a request waits", func() bool {
		_ = e.Ready()
		return withMachine(e, func(m *Machine) bool { return m.known.Away })
	})
}

// What stands in the place of a caller names none, and then nothing is judged: the answer is 503, and its line says what to set.
func TestARequestWithoutACaller(t *testing.T) {
	type headers = http.Header
	for _, row := range []struct {
		rule   string
		header headers
		says   string // "" where there is a caller
	}{
		{"header:x-client-hash", headers{"X-Client-Hash": {"ab12"}}, ""},
		{"header:X-Client-Hash", nil, "there is no header X-Client-Hash: let the proxy set it"},
		{"header:X-Client-Hash", headers{"X-Client-Hash": {""}}, "the header X-Client-Hash is empty: let the proxy set it"},
		{"header:X-Client-Hash", headers{"X-Client-Hash": {" "}}, "the header X-Client-Hash is empty: let the proxy set it"},
		{"header:X-Client-Hash", headers{"X-Client-Hash": {"a", "a"}}, "there are 2 headers X-Client-Hash: let the proxy replace what a client sent"},
		{"address:X-Real-Ip", headers{"X-Real-Ip": {"192.0.2.1"}}, ""},
		{"address:X-Real-Ip", headers{"X-Real-Ip": {"2001:db8::1"}}, ""},
		{"address:X-Real-Ip", headers{"X-Forwarded-For": {"192.0.2.1"}}, "there is no header X-Real-Ip: let the proxy set it"},
		{"address:X-Real-Ip", headers{"X-Real-Ip": {"192.0.2.1", "192.0.2.2"}}, "there are 2 headers X-Real-Ip"},
		{"address:X-Real-Ip", headers{"X-Real-Ip": {"192.0.2.1, 192.0.2.2"}}, "which is not one IP address"},
		{"address:X-Real-Ip", headers{"X-Real-Ip": {"unix:"}}, "which is not one IP address"},
		{"address:X-Real-Ip", headers{"X-Real-Ip": {"192.0.2.1:80"}}, "which is not one IP address"},
		{"address:X-Real-Ip/24,64", headers{"X-Real-Ip": {strings.Repeat("a", 5000)}}, "has 5000 bytes that are not one IP address"},
		{"address:X-Real-Ip", headers{"X-Real-Ip": {"fe80::1%eth0"}}, "has an address with a zone"},
		{"address:X-Real-Ip/24,64", headers{"X-Real-Ip": {"fe80::1%eth0"}}, "has an address with a zone"},
		{"address:X-Real-Ip", headers{"X-Real-Ip": {"\u00a0192.0.2.1"}}, "which is not one IP address"},
		{"peer", headers{"X-Real-Ip": {"192.0.2.1"}}, "no address of a peer is known"},
		{"principal", headers{"X-Forwarded-Client-Cert": {"URI=spiffe://example.org/web"}}, "no principal is known"},
	} {
		var out bytes.Buffer
		all, store := bound(t, 1, row.rule)
		e := all[0]
		e.Log = NewLog(&out, Decisions)
		one := token("a")
		w := from(e, one, row.header)
		if row.says == "" {
			if w.Code != 200 {
				t.Errorf("%+v: %d %s", row, w.Code, w.Body)
			}
			continue
		}
		if want := `{"reason":"NoCaller","result":"unavailable"}`; w.Code != 503 || strings.TrimSpace(w.Body.String()) != want || w.Header().Get("Retry-After") == "" {
			t.Errorf("%+v: %d %v %s", row, w.Code, w.Header(), w.Body)
		}
		var line map[string]any
		if err := json.Unmarshal(out.Bytes(), &line); err != nil {
			t.Fatalf("%s: %v", &out, err)
		}
		said, _ := line["reason"].(string)
		if line["level"] != "error" || line["event"] != "unavailable" || !strings.Contains(said, row.says) || len(said) > 300 || line["caller"] != nil {
			t.Errorf("%+v: the line is %s", row, &out)
		}
		for _, how := range []Addresses{Network, None} {
			out.Reset()
			e.Log.SetAddresses(how)
			from(e, one, row.header)
			if line := strings.ReplaceAll(out.String(), "192.0.2.0/24", ""); !strings.Contains(line, `"unavailable"`) || strings.Contains(line, "192.0.2") {
				t.Errorf("%+v: with addresses %d the line is %s", row, how, line)
			}
		}
		if page := request(e.Handler(), "GET", "/metrics").Body.String(); store.puts() != 0 ||
			!strings.Contains(page, `svidd_checks_total{result="no_caller"} 3`+"\n") || !strings.Contains(page, `svidd_checks_total{result="unavailable"} 0`+"\n") {
			t.Errorf("%+v: %d claims, and the metrics: %s", row, store.puts(), page)
		}
		// (A token that nobody was accepted with is nobody's.)
		if err := by(e, "owner", one); err != nil {
			t.Errorf("%+v: its owner: %v", row, err)
		}
	}
	all, _ := bound(t, 1, "peer")
	if err := check(all[0], token("a")); !errors.Is(err, ErrNoCaller) {
		t.Errorf("without a request: %v", err)
	}
	if err := by(all[0], "", token("a")); !errors.Is(err, ErrNoCaller) {
		t.Errorf("an empty name: %v", err)
	}
	if _, err := all[0].Check(WithCaller(context.Background(), Caller{}), token("a")); !errors.Is(err, ErrNoCaller) {
		t.Errorf("a caller that nobody made: %v", err)
	}
}

// Who is one caller, and who is another.
func TestCallersAreToldApart(t *testing.T) {
	address := func(text string) http.Header { return http.Header{"X-Real-Ip": {text}} }
	hash := func(text string) http.Header { return http.Header{"X-Hash": {text}} }
	for _, row := range []struct {
		rule  string
		one   http.Header
		other http.Header
		same  bool
	}{
		{"address:X-Real-Ip", address("192.0.2.1"), address("192.0.2.1"), true},
		{"address:X-Real-Ip", address("192.0.2.1"), address(" 192.0.2.1 "), true},
		{"address:X-Real-Ip", address("192.0.2.1"), address("::ffff:192.0.2.1"), true},
		{"address:X-Real-Ip", address("2001:db8::1"), address("2001:0db8:0:0::1"), true},
		{"address:X-Real-Ip", address("192.0.2.1"), address("192.0.2.2"), false},
		{"address:X-Real-Ip", address("2001:db8::1"), address("2001:db8::2"), false},
		{"address:X-Real-Ip", address("192.0.2.1"), address("::192.0.2.1"), false},
		{"address:X-Real-Ip/24,64", address("192.0.2.1"), address("192.0.2.254"), true},
		{"address:X-Real-Ip/24,64", address("192.0.2.1"), address("192.0.3.1"), false},
		{"address:X-Real-Ip/24,64", address("2001:db8::1"), address("2001:db8::ffff:1"), true},
		{"address:X-Real-Ip/24,64", address("2001:db8:0:1::1"), address("2001:db8:0:2::1"), false},
		{"address:X-Real-Ip/24,64", address("192.0.2.1"), address("::ffff:192.0.2.77"), true},
		{"address:X-Real-Ip/32,128", address("192.0.2.1"), address("192.0.2.2"), false},
		{"header:X-Hash", hash("ab"), hash("ab"), true},
		{"header:X-Hash", hash("ab"), hash(" ab\t"), true},
		{"header:X-Hash", hash("ab"), hash("ab\u00a0"), false},
		{"header:X-Hash", hash("ab"), hash("AB"), false},
		{"header:X-Hash", hash("ab"), hash("ab,cd"), false},
	} {
		all, _ := bound(t, 2, row.rule)
		want := map[bool]int{true: 200, false: 401}[row.same]
		one := token("a")
		if w := from(all[0], one, row.one); w.Code != 200 {
			t.Errorf("%+v: the first one: %d %s", row, w.Code, w.Body)
		}
		if w := from(all[1], one, row.other); w.Code != want {
			t.Errorf("%+v: the other one: %d %s", row, w.Code, w.Body)
		}
	}
	// Kinds of names differ: a name can't be one of another kind.
	digests := map[[32]byte]string{}
	for _, kind := range []string{"address", "header", "principal", "name"} {
		for _, name := range []string{"192.0.2.1", "header\x00192.0.2.1", "\x00192.0.2.1"} {
			c := callerBy(kind, name)
			if before, is := digests[c.digest]; is {
				t.Errorf("%s %q has the digest of %s", kind, name, before)
			}
			digests[c.digest] = fmt.Sprintf("%s %q", kind, name)
		}
	}
}

// However many addresses come, each is its own caller, and has its own name, also when it comes again.
func TestRecentCallersAreToldApart(t *testing.T) {
	rule := ruleOf(t, "address:X-Real-Ip/24,128")
	of := func(text string) Caller { return rule.Of(http.Header{"X-Real-Ip": {text}}, Source{}) }
	digests := map[[32]byte]int{}
	for round := 0; round < 3; round++ {
		for i := 0; i < 4*len(rule.recent.known); i++ {
			text := fmt.Sprintf("2001:db8::%x", i+1)
			from := of(text)
			if other, is := digests[from.digest]; from.name != text || from.fault != nil || is && other != i {
				t.Fatalf("%s: %+v, as of address %d", text, from, other)
			}
			digests[from.digest] = i
		}
	}
	if len(digests) != 4*len(rule.recent.known) {
		t.Errorf("%d callers", len(digests))
	}
	for i := 0; i < 2; i++ {
		if one, other := of("192.0.2.1"), of("192.0.2.2"); one != other || one.name != "192.0.2.0/24" {
			t.Errorf("%+v and %+v", one, other)
		}
		if from := of("192.0.2.1:80"); !errors.Is(from.fault, ErrNoCaller) || from.isOne() {
			t.Errorf("what is no address: %+v", from)
		}
	}
}

// Envoy says the subject of a certificate that has no URI, or a DNS name of it. Many certificates may have one of these, so they name no caller.
func TestAPrincipalIsAURI(t *testing.T) {
	rule := ruleOf(t, "principal")
	for principal, want := range map[string]string{
		"spiffe://example.org/web": "", "SPIFFE://example.org/web": "", "https://example.org": "",
		"": "no principal is known", "O=Acme,C=US": "has no URI", "web.example.org": "has no URI", "CN=spiffe://example.org/web": "has no URI",
		"://example.org": "has no URI", "spiffe:example.org": "has no URI",
	} {
		from := rule.Of(nil, Source{Address: "192.0.2.1", Principal: principal})
		if want == "" && (from.fault != nil || from.name != principal) {
			t.Errorf("%q: %v", principal, from.fault)
		}
		if want != "" && (!errors.Is(from.fault, ErrNoCaller) || !strings.Contains(from.fault.Error(), want) || from.digest != [32]byte{}) {
			t.Errorf("%q: %v, want %q", principal, from.fault, want)
		}
	}
}

// The lines of a token say who sent it, also those of a thief, which say why.
func TestLinesSayWhoCalls(t *testing.T) {
	var out bytes.Buffer
	all, _ := bound(t, 1, "address:X-Real-Ip/24,64")
	e, one := all[0], token("a")
	e.Log = NewLog(&out, Decisions)
	for _, row := range []struct {
		address, event, caller, says string
	}{
		{"192.0.2.7", "accepted", "192.0.2.0/24", ""},
		{"198.51.100.7", "refused", "198.51.100.0/24", "another caller used this token first"},
		{"198.51.100.8", "refused", "198.51.100.0/24", "another caller used this token first"},
		{"2001:db8::1", "refused", "2001:db8::/64", "another caller used this token first"},
	} {
		out.Reset()
		from(e, one, http.Header{"X-Real-Ip": {row.address}})
		var line map[string]any
		if err := json.Unmarshal(out.Bytes(), &line); err != nil {
			t.Fatalf("%s: %v", &out, err)
		}
		says, _ := line["says"].(string)
		if line["event"] != row.event || line["caller"] != row.caller || says != row.says || line["used_by"] != nil {
			t.Errorf("%+v: %s", row, &out)
		}
	}
	if page := request(e.Handler(), "GET", "/metrics").Body.String(); !strings.Contains(page, "svidd_other_caller_total 3\n") {
		t.Errorf("the metrics: %s", page)
	}
}

// A header that is no short name may be a secret: the log has a digest of it.
func TestNoSecretOfACallerIsLogged(t *testing.T) {
	var out bytes.Buffer
	all, _ := bound(t, 1, "header:X-Client")
	e := all[0]
	e.Log = NewLog(&out, Decisions)
	for _, row := range []struct {
		value, says string // "" for a digest
	}{
		{"ab:cd:ef", "ab:cd:ef"}, {"spiffe://example.org/web", "spiffe://example.org/web"}, {token("secret"), ""}, {"a secret", ""}, {"\u009b2J", ""},
		{"\xff", ""}, {strings.Repeat("a", 129), ""},
	} {
		out.Reset()
		w := from(e, token("of "+row.value), http.Header{"X-Client": {row.value}})
		var line map[string]any
		if err := json.Unmarshal(out.Bytes(), &line); err != nil {
			t.Fatalf("%s: %v", &out, err)
		}
		said, _ := line["caller"].(string)
		if w.Code != 200 || row.says != "" && said != row.says || row.says == "" && (!strings.HasPrefix(said, "sha256:") || len(said) != 39) {
			t.Errorf("%q: %d, the line has %q", row.value, w.Code, said)
		}
	}
}

// A token that its owner has sent twice is not verified again.
func TestABoundTokenIsKnown(t *testing.T) {
	all, _ := bound(t, 1, "header:X-Caller")
	e, one := all[0], token("a")
	for i := 0; i < 2; i++ {
		if err := by(e, "owner", one); err != nil {
			t.Fatal(err)
		}
	}
	e.keyring.Close()
	if err := by(e, "owner", one); err != nil {
		t.Error(err)
	}
	if err := by(e, "thief", one); err != svid.Replayed {
		t.Errorf("a thief: %v", err)
	}
	if err := by(e, "owner", token("b")); err != svid.ErrClosed {
		t.Errorf("another token: %v", err)
	}
}

// A store that does not answer is a 503 that says so. The claim is the caller's all the same.
func TestABoundClaimOfUnknownOutcome(t *testing.T) {
	s := newShop()
	one := token("a")
	s.fail(errors.New("connection lost"))
	e, err := givenUp(t, s, inBound(t, "header:X-Caller", Options{}), func(e *Engine) error { return by(e, "owner", one) })
	if !errors.Is(err, context.DeadlineExceeded) || e.ReasonOf(err) != "NotClaimed" {
		t.Errorf("%v, %s", err, e.ReasonOf(err))
	}
	s.fail(nil)
	for name, want := range map[string]error{"thief": svid.Replayed, "owner": nil} {
		err := by(e, name, one)
		for ; errors.Is(err, context.DeadlineExceeded); err = by(e, name, one) { // (a busy machine)
		}
		if err != want {
			t.Errorf("%s: %v", name, err)
		}
	}
}

// What is no rule, and what it says.
func TestRulesThatNameNoCaller(t *testing.T) {
	for text, want := range map[string]string{
		"":                            "names no caller",
		"address":                     "names no header: write address:HEADER",
		"address:":                    "names no header",
		"header":                      "names no header: write header:HEADER",
		"header:a b":                  "is no name of a header",
		"header:X-\u00e4":             "is no name of a header",
		"header:authorization":        "a thief has too",
		"address:Authorization":       "a thief has too",
		"client":                      "names no caller: write address:HEADER",
		"peer:X":                      "behind peer stands no header",
		"principal:X":                 "behind principal stands no header",
		"principal/24,64":             "a network stands behind an address alone",
		"header:X/24,64":              "a network stands behind an address alone",
		"peer/24":                     "write a network as",
		"peer/0,64":                   "write a network as",
		"peer/33,64":                  "write a network as",
		"peer/24,129":                 "write a network as",
		"address:X-Real-Ip/24,64,1":   "write a network as",
		"address:X-Real-Ip/24,64/1":   "write a network as",
		"address:X-Real-Ip/-1,64":     "write a network as",
		"address:X-Real-Ip,X-Other":   "is no name of a header",
		"address:X-Real-Ip/ 24 , 64 ": "write a network as",
	} {
		if rule, err := ParseCaller(text); rule != nil || err == nil || !strings.Contains(err.Error(), want) {
			t.Errorf("%q: %v %v, want %q", text, rule, err, want)
		}
	}
	for _, text := range []string{"address:X-Real-Ip", "peer", "peer/24,64", "header:x-client_hash", "principal", "address:X-Real-Ip/32,128", "address:X-Real-Ip/1,1"} {
		if rule, err := ParseCaller(text); err != nil || rule.OfEnvoy() != strings.HasPrefix(text, "p") {
			t.Errorf("%q: %v %v", text, rule, err)
		}
	}
}
