package server

import (
	"context"
	"crypto/rand"
	"errors"
	"fmt"
	"sync/atomic"
	"time"

	"svid.example/go/v3/claims"
	"svid.example/go/v3/internal/brief"
	"svid.example/go/v3/svid"
)

// UseStore lets the engine claim tokens at the group's store, which was opened. But for mode strict, it reads the withdrawals that the store has.
func (e *Engine) UseStore(store claims.Store, state claims.State) {
	e.store.Store(&reached{store})
	e.step(StoreOpened{state})
	e.lookAtStore()
}

// put puts claims into the store, and lets the machine hear what was there.
func (e *Engine) put(b *Batch) {
	ctx, cancel := context.WithTimeout(e.life, b.Within)
	defer cancel()
	from := time.Now()
	e.store.Load().Put(ctx, b.Claims, b.Found)
	e.noteClaims(from, b.Found)
	e.step(Claimed{b})
}

// noteClaims takes note of whether the store takes claims, which were put at a time.
func (e *Engine) noteClaims(from time.Time, found []claims.Found) {
	for i := range found {
		if found[i].Err == nil {
			e.outlook.claims.Store(nil)
			return
		}
	}
	if len(found) > 0 {
		goesOn(&e.outlook.claims, from, found[0].Err)
	}
}

// goesOn notes an absence for which there is this reason now. It began at that time, unless it has begun before.
func goesOn(of *atomic.Pointer[absence], from time.Time, why error) {
	for is := false; !is; {
		before := of.Load()
		if before != nil {
			from = before.since
		}
		is = of.CompareAndSwap(before, &absence{from, why})
	}
}

// tryLife is how many seconds a claim lives by which a member sees whether a store takes claims again.
const tryLife = 60

// tryClaim puts a claim of no token into a store that answers, and took no claim before: nobody sends tokens to an unready sidecar.
func (e *Engine) tryClaim(ctx context.Context, store claims.Store) {
	if e.outlook.claims.Load() == nil {
		return
	}
	one := claims.Claim{Expires: e.Now() + tryLife}
	if _, err := rand.Read(one.Key[:]); err != nil {
		return // It is tried again.
	}
	one.Owner = svid.OwnerOfLife(e.ValidatorID, e.Life, one.Expires)
	from, found := time.Now(), make([]claims.Found, 1)
	store.Put(ctx, []claims.Claim{one}, found)
	e.noteClaims(from, found)
}

// errNoStore: a withdrawal comes before the store was reached.
var errNoStore = errors.New("the group's store was not reached yet")

func (e *Engine) withdrawAtStore(w *StoreWithdraw) {
	ctx, cancel := context.WithTimeout(e.life, w.Within)
	defer cancel()
	if store := e.store.Load(); store == nil {
		w.Err = errNoStore
	} else {
		w.Owner, w.Err = store.Withdraw(ctx, w.Withdrawal)
	}
	e.step(Stored{w})
}

const (
	// lookWithin is how long a store may take to say what it is, and hearWithin for how long withdrawals are read then. So a member looks
	// again at a store that hung, and lost all meanwhile, before the others stop waiting for it (3 s).
	lookWithin = 1500 * time.Millisecond
	hearWithin = time.Second
)

// lookAtStore asks the store what it is, and reads the withdrawals that are new, by one goroutine at a time. It reads them also where the first
// call failed: while one server of a Redis Cluster is away, claims of the others go on. In mode strict the claim of a token tells that it was
// withdrawn.
func (e *Engine) lookAtStore() {
	store := e.store.Load()
	if store == nil {
		return
	}
	e.outlook.looking <- struct{}{}
	defer func() { <-e.outlook.looking }()
	e.lookNow(store, e.Wait)
}

// mostUnlooked is after how long without a look at the store a request looks first. Only a process that was stopped comes that far, or a computer that
// was suspended, since even a store that is away is looked at again: tokens may have been withdrawn meanwhile.
const mostUnlooked = 2*(lookWithin+hearWithin) + 2*tickEvery

// lookFirst looks at the store before a token is judged, where nobody has for long. It takes at most three quarters of Options.Wait, also where another
// look is under way: after it the request has its own time.
func (e *Engine) lookFirst() {
	if e.Mode == Strict || !e.isUnlooked() {
		return
	}
	from, at, most := time.Now(), e.time(), e.Wait/4*3
	timer := time.NewTimer(most)
	defer timer.Stop()
	select {
	case e.outlook.looking <- struct{}{}:
		defer func() { <-e.outlook.looking }()
	case <-timer.C:
		e.outlook.looked.Store(&at) // (who comes next does not wait for a store that hangs)
		return
	}
	if e.isUnlooked() { // (else another request has looked, or Run)
		e.lookNow(e.store.Load(), (most-time.Since(from))/2)
	}
}

// isUnlooked says whether the last look at the store began too long ago, by either clock.
func (e *Engine) isUnlooked() bool {
	last := e.outlook.looked.Load()
	return last != nil && !e.time().isWithin(mostUnlooked, *last)
}

// lookNow looks at the store, by two calls that may take so long each, or less. The caller has looking.
func (e *Engine) lookNow(store claims.Store, most time.Duration) {
	from, at := time.Now(), e.time()
	defer e.outlook.looked.Store(&at)
	ctx, cancel := e.within(lookWithin, most)
	defer cancel()
	state, err := store.State(ctx)
	if err == nil {
		e.step(Looked{state})
		e.tryClaim(ctx, store)
	}
	if e.Mode != Strict {
		if heard := e.hearFromStore(store, most); err == nil {
			err = heard
		}
	}
	if e.life.Err() != nil {
		return // It is the engine that ends.
	}
	e.storeAnswered(from, err)
}

// within is a context that ends with the engine, or after the lesser of these times.
func (e *Engine) within(one, other time.Duration) (context.Context, context.CancelFunc) {
	if one > other {
		one = other
	}
	return context.WithTimeout(e.life, one)
}

// hearFromStore reads the withdrawals that the store had since the last time, page by page. Where there are more than can be read now, the
// next look goes on.
func (e *Engine) hearFromStore(store claims.Store, most time.Duration) error {
	ctx, cancel := e.within(hearWithin, most)
	defer cancel()
	for pages := 0; ; pages++ {
		these, last, err := store.Withdrawals(ctx, e.outlook.heard)
		if err != nil {
			if pages > 0 && ctx.Err() != nil {
				return nil
			}
			return err
		}
		h := &Heard{These: these, Whole: last == e.outlook.heard}
		if e.step(h); h.Err != nil {
			return h.Err
		}
		e.outlook.heard = last
		if h.Whole {
			return nil
		}
	}
}

// storeAnswered takes note of whether the store answered a look that began at a time, and logs a change: also one of the reason.
func (e *Engine) storeAnswered(from time.Time, err error) {
	o := &e.outlook
	if err == nil {
		o.away.Store(nil)
		if claims := o.claims.Load(); claims != nil {
			err = claims.why
		}
	} else {
		goesOn(&o.away, from, err)
	}
	switch isAway := e.isAway(); {
	case isAway:
		o.said = true
		if why := e.whyAway(); o.causes.IsNew(time.Now(), why) {
			e.Log.Error("unready", why)
		}
	case err == nil && o.said:
		o.said = false
		o.causes.Forget()
		e.Log.Event("ready")
	}
}

// whyAway says why no token can be claimed: the store does not answer, or takes no claims.
func (e *Engine) whyAway() error {
	if away := e.outlook.away.Load(); away != nil {
		return fmt.Errorf("%w: %v", errAway, brief.Error(away.why))
	}
	if claims := e.outlook.claims.Load(); claims != nil {
		return fmt.Errorf("the group's store takes no claims: %w", brief.Error(claims.why))
	}
	return errAway
}
