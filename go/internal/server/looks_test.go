package server

import (
	"context"
	"errors"
	"sync/atomic"
	"testing"
	"time"

	"svid.example/go/v3/claims"
	"svid.example/go/v3/internal/patience"
	"svid.example/go/v3/svid"
)

// A watchedShop sees how it is looked at.
type watchedShop struct {
	*shop
	looks, atOnce, most atomic.Int64
	state, withdrawals  atomic.Int64 // for how long a call may take, in nanoseconds
	goOn                chan struct{}
	endless             bool // there are always more withdrawals
	silent              bool // nobody hears of one
}

func (w *watchedShop) State(ctx context.Context) (claims.State, error) {
	w.looks.Add(1)
	if n := w.atOnce.Add(1); n > w.most.Load() {
		w.most.Store(n)
	}
	defer w.atOnce.Add(-1)
	w.state.Store(int64(left(ctx)))
	if w.goOn != nil {
		<-w.goOn
	}
	return w.shop.State(ctx)
}

func (w *watchedShop) Withdrawals(ctx context.Context, after string) ([]claims.Withdrawal, string, error) {
	w.withdrawals.Store(int64(left(ctx)))
	if w.silent {
		<-ctx.Done()
		return nil, after, ctx.Err()
	}
	if !w.endless {
		return w.shop.Withdrawals(ctx, after)
	}
	if ctx.Err() != nil {
		return nil, after, ctx.Err()
	}
	these := make([]claims.Withdrawal, claims.MostWithdrawals)
	for i := range these {
		these[i] = claims.Withdrawal{Key: svid.TokenKey{1}, Expires: moment + 300}
	}
	return these, after + ".", nil
}

func left(ctx context.Context) time.Duration {
	end, ok := ctx.Deadline()
	if !ok {
		return never
	}
	return time.Until(end)
}

// A look at the store that is under way is waited for: two would read the same withdrawals, and share what they know.
func TestOneLookAtTheStoreAtATime(t *testing.T) {
	e := ready(t, engine(t, inStrict(Options{})))
	store := &watchedShop{shop: newShop(), goOn: make(chan struct{})}
	state, err := store.shop.Open(context.Background())
	if err != nil {
		t.Fatal(err)
	}
	ended := make(chan struct{}, 2)
	go func() { e.UseStore(store, state); ended <- struct{}{} }()
	await(t, "the first look", func() bool { return store.looks.Load() == 1 })
	begun := make(chan struct{})
	go func() { close(begun); e.lookAhead(); ended <- struct{}{} }()
	<-begun
	for i := 0; i < 2; i++ {
		store.goOn <- struct{}{}
		<-ended
	}
	if most := store.most.Load(); most != 1 {
		t.Errorf("%d looks at once", most)
	}
}

// A member looks at a store that hangs well within the time for which others wait for it, however long a request may wait.
func TestALookEndsBeforeOthersStopWaiting(t *testing.T) {
	const quarantine = 3 * time.Second // of all stores
	o := inStrict(Options{Wait: time.Minute})
	o.Mode = Reuse
	e := engine(t, o)
	store := &watchedShop{shop: newShop()}
	state, err := store.shop.Open(context.Background())
	if err != nil {
		t.Fatal(err)
	}
	e.UseStore(store, state)
	hangs, reads := time.Duration(store.state.Load()), time.Duration(store.withdrawals.Load())
	if hangs > 1500*time.Millisecond || reads+hangs >= quarantine || tickEvery+hangs >= quarantine {
		t.Errorf("State may take %v, and withdrawals %v", hangs, reads)
	}
	if pauseAfter(0) != tickEvery || pauseAfter(2*tickEvery) <= 0 || pauseAfter(2*tickEvery) > tickEvery/10 {
		t.Errorf("the pauses are %v and %v", pauseAfter(0), pauseAfter(2*tickEvery))
	}
}

// A store that has more withdrawals than one look can read is not away. The next look goes on where this one ended.
func TestAStoreWithManyWithdrawalsIsNotAway(t *testing.T) {
	o := inStrict(Options{Wait: 500 * time.Millisecond})
	o.Mode = Reuse
	e := engine(t, o)
	store := &watchedShop{shop: newShop(), endless: true}
	state, err := store.shop.Open(context.Background())
	if err != nil {
		t.Fatal(err)
	}
	e.UseStore(store, state)
	first := len(e.outlook.heard)
	for i := 0; i < 3; i++ {
		e.lookAhead()
	}
	if e.outlook.away.Load() != nil {
		t.Error("the store is away")
	}
	if first == 0 || len(e.outlook.heard) <= first {
		t.Errorf("%d and %d pages are read", first, len(e.outlook.heard))
	}
}

// A store that says what it is, and hangs where its withdrawals are read, is away: a member hears of none.
func TestAStoreThatTellsOfNoWithdrawalIsAway(t *testing.T) {
	o := inStrict(Options{Wait: 10 * time.Millisecond})
	o.Mode = Reuse
	store := &watchedShop{shop: newShop()}
	e := engine(t, o)
	state, err := store.shop.Open(context.Background())
	if err != nil {
		t.Fatal(err)
	}
	e.UseStore(store, state)
	for _, silent := range []bool{true, false} {
		store.silent = silent
		e.lookAhead()
		if isAway := e.outlook.away.Load() != nil; isAway != silent {
			t.Errorf("silent %v, away %v", silent, isAway)
		}
	}
}

// In mode strict a claim finds the withdrawal of its token, so nobody reads the list.
func TestStrictReadsNoWithdrawals(t *testing.T) {
	e := ready(t, engine(t, inStrict(Options{})))
	store := &watchedShop{shop: newShop()}
	state, err := store.shop.Open(context.Background())
	if err != nil {
		t.Fatal(err)
	}
	e.UseStore(store, state)
	e.lookAhead()
	if store.looks.Load() == 0 || store.withdrawals.Load() != 0 {
		t.Errorf("%d looks, and withdrawals were read within %d", store.looks.Load(), store.withdrawals.Load())
	}
}

// A request that puts its own claim holds up no answer of another one, however long the store takes.
func TestAnOwnClaimHoldsUpNobody(t *testing.T) {
	all, store := strictWithin(t, 1, patience.Long)
	e := all[0]
	release := store.hold()
	first := claimed(t, store, e, token("a"))
	const many = mostAgain + 8
	answers := make(chan error, many)
	for i := 0; i < many; i++ {
		go func() { answers <- check(e, token("a")) }()
	}
	await(t, "those that wait", func() bool { return withMachine(e, at(waiting)) == many })
	arm := func(at time.Duration) {
		e.mu.Lock()
		defer e.mu.Unlock()
		e.armed = at
	}
	arm(-1) // (so no tick does what the next request's step does)
	release()
	if err := <-first; err != nil {
		t.Fatal(err)
	}
	for i := 0; i < mostAgain; i++ {
		<-answers
	}
	release = store.hold()
	other := claimed(t, store, e, token("b"))
	for i := mostAgain; i < many; i++ {
		select {
		case err := <-answers:
			if err != svid.Replayed {
				t.Error(err)
			}
		case <-time.After(patience.Long / 18):
			t.Fatalf("%d answers wait for another request's claim", many-i)
		}
	}
	arm(never)
	release()
	if err := <-other; err != nil {
		t.Error(err)
	}
}

// An answer that comes in time, and then waits for the machine until the request is late, makes no 200.
func TestAnAnswerThatWaitsForTheMachineIsLate(t *testing.T) {
	var e *Engine
	var store *shop
	var answer chan error
	var release func()
	for wait := 50 * time.Millisecond; store == nil || store.puts() == 0; wait *= 2 { // (on a busy machine the request may be late before its claim is put)
		if wait > 2*patience.Long {
			t.Fatal("no claim is put")
		}
		var all []*Engine
		all, store = strictWithin(t, 1, wait)
		e, answer, release = all[0], make(chan error, 1), store.hold()
		go func(e *Engine, answer chan error) { answer <- check(e, token("a")) }(e, answer)
		await(t, "the claim, or an answer", func() bool { return store.puts() == 1 || len(answer) > 0 })
	}
	e.mu.Lock()
	due := e.machine.due
	release()
	if due != never { // (else it is late already)
		time.Sleep(due + 10*time.Millisecond - time.Since(e.start)) // What follows Put waits for the lock, past the deadline.
	}
	e.mu.Unlock()
	if err := <-answer; !errors.Is(err, context.DeadlineExceeded) {
		t.Errorf("%v", err)
	}
}
