package server

import (
	"bytes"
	"context"
	"encoding/json"
	"errors"
	"fmt"
	"net/http"
	"sort"
	"strings"
	"sync"
	"sync/atomic"
	"testing"
	"time"

	"svid.example/go/v3/claims"
	"svid.example/go/v3/internal/patience"
	"svid.example/go/v3/svid"
)

// Of many requests at many sidecars one is accepted.
func TestStrictAcceptsOneOfMany(t *testing.T) {
	all, _ := strict(t, 3)
	const rounds = 20
	for round := 0; round < rounds; round++ {
		one := token(fmt.Sprint(round))
		var accepted atomic.Int32
		var group sync.WaitGroup
		for i := 0; i < 24; i++ {
			group.Add(1)
			go func(e *Engine) {
				defer group.Done()
				switch err := check(e, one); err {
				case nil:
					accepted.Add(1)
				case svid.Replayed:
				default:
					t.Error(err)
				}
			}(all[i%len(all)])
		}
		group.Wait()
		if n := accepted.Load(); n != 1 {
			t.Fatalf("round %d: accepted %d times", round, n)
		}
	}
	uses := 0
	for _, e := range all {
		own, err := svid.Uses(saved(t, e))
		if err != nil {
			t.Fatal(err)
		}
		uses += len(own)
	}
	if uses != rounds {
		t.Errorf("the records have %d uses, want %d", uses, rounds)
	}
}

// Of two claims the first in the store wins, whoever is answered first. The other one's log says who has the token.
func TestTheFirstClaimInTheStoreWins(t *testing.T) {
	for _, winnerFirst := range []bool{true, false} {
		all, store := strict(t, 2)
		var out bytes.Buffer
		all[1].Log = NewLog(&out, Decisions)
		release := store.hold()
		first := claimed(t, store, all[0], token("a"))
		if winnerFirst {
			release()
			release = func() {}
			if err := <-first; err != nil {
				t.Error(err)
			}
			first <- nil
		}
		second := claimed(t, store, all[1], token("a"))
		release()
		if won, lost := <-first, <-second; won != nil || lost != svid.Replayed {
			t.Errorf("winner first %v: %v, %v", winnerFirst, won, lost)
		}
		if won, lost := all[0].Metrics.ClaimsWon.Load(), all[1].Metrics.ClaimsLost.Load(); won != 1 || lost != 1 {
			t.Errorf("%d won, %d lost", won, lost)
		}
		if want := fmt.Sprintf("%q:%q", "used_by", all[0].ValidatorID); !strings.Contains(out.String(), want) {
			t.Errorf("there is no %s in %s", want, &out)
		}
		// What is another's is asked once.
		before := store.puts()
		if err := check(all[1], token("a")); err != svid.Replayed || store.puts() != before {
			t.Errorf("again: %v, after %d calls", err, store.puts()-before)
		}
	}
}

// A claim that had no answer is put again, and finds its own entry.
func TestAClaimWithoutAnswerIsPutAgain(t *testing.T) {
	all, store := strict(t, 2)
	store.fail(errors.New("connection lost"))
	answer := claimed(t, store, all[0], token("a"))
	await(t, "another try", func() bool { return store.puts() > 2 })
	store.fail(nil)
	if err := <-answer; err != nil {
		t.Error(err)
	}
	for i, e := range all {
		if err := check(e, token("a")); err != svid.Replayed {
			t.Errorf("sidecar %d, later: %v", i, err)
		}
	}
}

// A claim whose outcome is unknown is answered 503. The same life may claim the token again, and nobody else.
func TestAClaimOfUnknownOutcome(t *testing.T) {
	lost := errors.New("connection lost")
	var all []*Engine
	var store *shop
	var err error
	// On a busy machine a request's time may be over before the store has answered: the next one has twice as long.
	for wait := 2 * time.Second; ; wait *= 2 {
		all, store = strictWithin(t, 2, wait)
		store.fail(lost)
		if err = check(all[0], token("a")); !errors.Is(err, context.DeadlineExceeded) || strings.Contains(err.Error(), lost.Error()) || wait > patience.Long {
			break
		}
	}
	if !errors.Is(err, context.DeadlineExceeded) || !strings.Contains(err.Error(), lost.Error()) {
		t.Error(err)
	}
	wantClaims(t, all[0], 0, 0, 1)
	store.fail(nil)
	err = check(all[1], token("a"))
	for ; errors.Is(err, context.DeadlineExceeded); err = check(all[1], token("a")) { // (a busy machine)
	}
	if err != svid.Replayed {
		t.Errorf("at another sidecar: %v", err)
	}
	for _, want := range []error{nil, svid.Replayed} {
		err := check(all[0], token("a"))
		for ; errors.Is(err, context.DeadlineExceeded); err = check(all[0], token("a")) { // (a busy machine)
		}
		if err != want {
			t.Errorf("%v, want %v", err, want)
		}
	}
}

// A claim whose client goes away ends at once. Nobody knows what became of it, which is counted.
func TestAClientThatGoesAwayDuringAClaim(t *testing.T) {
	all, store := strictWithin(t, 1, time.Minute)
	e := all[0]
	defer store.hold()()
	first := claimed(t, store, e, token("a"))
	gone, leave := context.WithCancel(context.Background())
	answer := make(chan error, 1)
	go func() {
		_, err := e.Check(gone, token("b"))
		answer <- err
	}()
	await(t, "the other claim", func() bool { return withMachine(e, at(claiming)) == 2 })
	leave()
	wantAnswer(t, answer, context.Canceled)
	select {
	case err := <-first:
		t.Errorf("another request ends: %v", err)
	default:
	}
}

// Requests that come while a claim is open wait for it, and cost the store nothing.
func TestRequestsWaitForAnOpenClaim(t *testing.T) {
	all, store := strict(t, 1)
	e := all[0]
	release := store.hold()
	first := claimed(t, store, e, token("a"))
	answers := make(chan error, 3)
	for i := 0; i < 2; i++ {
		go func() { answers <- check(e, token("a")) }()
	}
	impatient, cancel := context.WithTimeout(context.Background(), 10*time.Millisecond)
	defer cancel()
	if _, err := e.Check(impatient, token("a")); !errors.Is(err, context.DeadlineExceeded) {
		t.Errorf("its time is up: %v", err)
	}
	release()
	if err := <-first; err != nil {
		t.Error(err)
	}
	for i := 0; i < 2; i++ {
		if err := <-answers; err != svid.Replayed {
			t.Error(err)
		}
	}
	if store.puts() != 1 || e.Metrics.ClaimsWon.Load() != 1 || e.Metrics.ClaimsLost.Load() != 0 {
		t.Errorf("%d calls, claims won %d", store.puts(), e.Metrics.ClaimsWon.Load())
	}
}

// The disk soon has what was won, and no claim that was lost. No answer waits for it, or fails where it does.
func TestStrictKeepsWhatItWon(t *testing.T) {
	store, d := newShop(), &disk{}
	var out bytes.Buffer
	own := store.use(t, ready(t, engine(t, inStrict(Options{Journal: d, Log: NewLog(&out, Errors)}))))
	other := store.use(t, ready(t, engine(t, inStrict(Options{ValidatorID: svid.ValidatorID{2}}))))
	slow := make(chan struct{})
	d.before = func() { <-slow }
	const many = 100
	for i := 0; i < many; i++ {
		if err := check(own, token(fmt.Sprint(i))); err != nil {
			t.Fatal(err)
		}
	}
	if err := check(other, token("another's")); err != nil {
		t.Error(err)
	}
	if err := check(own, token("another's")); err != svid.Replayed {
		t.Error(err)
	}
	close(slow)
	kept(t, own)
	if uses, err := svid.Uses(d.kept); err != nil || len(uses) != many {
		t.Errorf("the disk has %d uses, want %d (%v)", len(uses), many, err)
	}
	d.mu.Lock()
	d.fault = errors.New("it is full")
	d.mu.Unlock()
	if err := check(own, token("full")); err != nil {
		t.Error(err)
	}
	kept(t, own)
	if n := own.Metrics.JournalFailures.Load(); n != 1 || !strings.Contains(out.String(), "it is full") {
		t.Errorf("%d failures, log %s", n, &out)
	}
	full := func(uses []svid.Use) {
		own.step(doing(func(m *Machine) {
			if m.keeper.uses, m.keeper.busy = uses, nil; uses != nil {
				m.keeper.busy = new(Write)
			}
		}))
	}
	full(make([]svid.Use, mostUnkept))
	if err := check(own, token("slow")); err != nil {
		t.Error(err)
	}
	full(nil)
	if n := own.Metrics.JournalFailures.Load(); n != 2 {
		t.Errorf("%d failures", n)
	}
}

// Another life of a sidecar, with the same validator ID, accepts nothing that an earlier one claimed: whether that answered 200 is
// unknown.
func TestAnotherLifeAcceptsNothingOfAnEarlierOne(t *testing.T) {
	store := newShop()
	defer store.hold()()
	if _, err := givenUp(t, store, inStrict(Options{}), func(e *Engine) error { return check(e, token("a")) }); !errors.Is(err, context.DeadlineExceeded) {
		t.Fatal(err)
	}
	store.mu.Lock()
	store.held = nil
	store.mu.Unlock()
	later := store.use(t, ready(t, engine(t, inStrict(Options{}))))
	if err := check(later, token("a")); err != svid.Replayed {
		t.Error(err)
	}
}

// A token that is withdrawn while it is claimed is refused.
func TestAWithdrawalDuringAClaimCounts(t *testing.T) {
	all, store := strict(t, 1)
	e := all[0]
	found, err := e.Find(token("a"))
	if err != nil {
		t.Fatal(err)
	}
	release := store.hold()
	answer := claimed(t, store, e, token("a"))
	_, usedBy, err := e.Withdraw(found.Key, found.Expires)
	if err != nil || usedBy != e.ValidatorID {
		t.Errorf("used by %v: %v", usedBy, err)
	}
	release()
	if err := <-answer; err != svid.Withdrawn {
		t.Error(err)
	}
}

// A token that was withdrawn at one sidecar is refused at all others: in strict by its claim, in the other modes once they have looked
// at the store. Who withdraws a used one hears who used it.
func TestAWithdrawalByTheStore(t *testing.T) {
	store := newShop()
	make := func(mode Mode, id byte) *Engine {
		o := inStrict(Options{ValidatorID: svid.ValidatorID{id}, Journal: &disk{}})
		o.Mode = mode
		return store.use(t, ready(t, engine(t, o)))
	}
	one, other, once, reuse := make(Strict, 1), make(Strict, 2), make(Once, 3), make(Reuse, 4)
	found, err := one.Find(token("a"))
	if err != nil {
		t.Fatal(err)
	}
	if _, usedBy, err := one.Withdraw(found.Key, found.Expires); err != nil || usedBy != (svid.ValidatorID{}) {
		t.Errorf("used by %v: %v", usedBy, err)
	}
	for _, e := range []*Engine{once, reuse} {
		e.lookAhead()
		uses, err := svid.Uses(saved(t, e))
		if err != nil || len(uses) != 1 {
			t.Errorf("%s: the record has %d uses: %v", e.Mode, len(uses), err)
		}
	}
	for _, e := range []*Engine{one, other, once, reuse} {
		if err := check(e, token("a")); err != svid.Withdrawn {
			t.Errorf("%s: %v", e.Mode, err)
		}
	}
	late := make(Reuse, 5)
	if err := check(late, token("a")); err != svid.Withdrawn {
		t.Errorf("one that starts later: %v", err)
	}
	if err := check(other, token("b")); err != nil {
		t.Fatal(err)
	}
	found, err = one.Find(token("b"))
	if err != nil {
		t.Fatal(err)
	}
	if _, usedBy, err := one.Withdraw(found.Key, found.Expires); err != nil || usedBy != other.ValidatorID {
		t.Errorf("used by %v: %v", usedBy, err)
	}
	store.Fault = func() error { return errors.New("no servers") }
	if _, _, err := one.Withdraw(found.Key, found.Expires); err == nil || !strings.Contains(err.Error(), "no servers") {
		t.Error(err)
	}
}

// Once a store has lost entries, no token is accepted that may have been used before, and the others are. An operator sees it.
func TestAStoreThatHasLostEntries(t *testing.T) {
	all, store := strict(t, 2)
	var out bytes.Buffer
	all[0].Log = NewLog(&out, Errors)
	all[0].step(doing(func(m *Machine) { m.Log = all[0].Log }))
	if err := check(all[0], token("a")); err != nil {
		t.Fatal(err)
	}
	store.Lose(nil)
	w := request(all[1].Handler(), "GET", "/check", "Bearer "+token("a"))
	if w.Code != http.StatusServiceUnavailable || !strings.Contains(w.Body.String(), `"EntriesLost"`) {
		t.Errorf("a token that was used before: %d %s", w.Code, w.Body)
	}
	all[0].lookAhead()
	if err := all[0].Ready(); err == nil || !strings.Contains(err.Error(), fmt.Sprint(moment+3660)) {
		t.Errorf("ready: %v", err)
	}
	if !strings.Contains(out.String(), `"event":"epoch"`) {
		t.Errorf("the log has %s", &out)
	}
	page := request(all[0].Handler(), "GET", "/metrics").Body.String()
	for _, want := range []string{"svidd_store_epochs_total 1", fmt.Sprint("svidd_store_deaf_until_timestamp_seconds ", moment+3660), `svidd_store_epoch_info{epoch="1"} 1`, "svidd_store_connected 1"} {
		if !strings.Contains(page, want+"\n") {
			t.Errorf("there is no %q in\n%s", want, page)
		}
	}
	now := uint64(moment + 100)
	store.Now = func() uint64 { return now }
	for _, e := range all {
		e.Now = store.Now
		e.lookAhead()
		if err := e.Ready(); err != nil {
			t.Error(err)
		}
	}
	for life, want := range map[uint64]error{3560: ErrLost, 3561: nil} {
		late := example.Token("ES256", map[string]any{"sub": "spiffe://example.org/web", "aud": "ledger", "exp": now + life, "jti": fmt.Sprint(life)})
		if err := check(all[0], late); err != want {
			t.Errorf("a token that lives for %d s: %v, want %v", life, err, want)
		}
	}
}

// The store's time counts too: a token that has expired there, less what clocks may differ, is not accepted, and one that lives for
// longer than the store keeps claims neither.
func TestTheStoresTimeCounts(t *testing.T) {
	for ahead, want := range map[int64]error{329: nil, 330: svid.Expired, -3300: nil, -3361: errFar} {
		store := newShop()
		now := uint64(moment + ahead)
		store.Now = func() uint64 { return now }
		e := store.use(t, ready(t, engine(t, inStrict(Options{}))))
		if err := check(e, token("a")); err != want {
			t.Errorf("the store is %d s ahead: %v, want %v", ahead, err, want)
		}
	}
}

// A claim is answered by what counts when its store answers: keys that were written otherwise are looked up again, and the claim is
// found again.
func TestAClaimOfOldBundles(t *testing.T) {
	all, store := strict(t, 1)
	e := all[0]
	release := store.hold()
	answer := claimed(t, store, e, token("a"))
	if err := e.SetBundles(map[string]json.RawMessage{"example.org": otherwise(t, example.JWKSet())}); err != nil {
		t.Fatal(err)
	}
	release()
	if err := <-answer; err != nil {
		t.Errorf("a key that is written otherwise: %v", err)
	}
	release = store.hold()
	answer = claimed(t, store, e, token("b"))
	if err := e.SetBundles(map[string]json.RawMessage{"example.org": []byte(`{"keys":[]}`)}); err != nil {
		t.Fatal(err)
	}
	release()
	if err := <-answer; err != svid.NoKey {
		t.Errorf("a key that is gone: %v", err)
	}
}

// Claims that come while a call is under way share the next one, of bounded length. A call that has no answer holds up no other for
// long.
func TestClaimsShareACall(t *testing.T) {
	all, store := strictWithin(t, 1, patience.Long)
	e := all[0]
	release := store.hold()
	const many = claims.MostClaims + 3
	answers := make(chan error, many+1)
	go func() { answers <- check(e, token("first")) }()
	await(t, "the first call", func() bool { return store.puts() == 1 })
	const others = fewCalls - 1 // so that a full call has to wait too
	for i := 0; i < others; i++ {
		e.step(doing(func(m *Machine) { m.claims.pacing.Sent(m.now.Up + time.Hour) }))
		defer e.step(doing(func(m *Machine) { m.claims.pacing.Answered() }))
	}
	for i := 0; i < many; i++ {
		go func(i int) { answers <- check(e, token(fmt.Sprint(i))) }(i)
	}
	await(t, "all claims", func() bool { return withMachine(e, func(m *Machine) int { return len(m.claims.waiting) }) == many })
	release()
	for i := 0; i <= many; i++ {
		if err := <-answers; err != nil {
			t.Fatal(err)
		}
	}
	sizes := []int{}
	for _, call := range store.calls {
		sizes = append(sizes, len(call))
	}
	sort.Ints(sizes) // (the last two are under way at once)
	if fmt.Sprint(sizes) != fmt.Sprint([]int{1, 3, claims.MostClaims}) {
		t.Errorf("the calls have %v claims", sizes)
	}
}

// Withdrawals of a store are read page by page, and each once. A sidecar judges nothing before it has read all.
func TestWithdrawalsAreReadPageByPage(t *testing.T) {
	store := newShop()
	const many = claims.MostWithdrawals + 5
	for i := 0; i < many; i++ {
		if _, err := store.Withdraw(context.Background(), claims.Withdrawal{Key: svid.TokenKey{1, byte(i), byte(i >> 8)}, Expires: moment + 300}); err != nil {
			t.Fatal(err)
		}
	}
	pages := &pagedShop{shop: store}
	o := inStrict(Options{})
	o.Mode = Reuse
	e := ready(t, engine(t, o))
	state, err := pages.Open(context.Background())
	if err != nil {
		t.Fatal(err)
	}
	e.UseStore(pages, state)
	if uses, err := svid.Uses(saved(t, e)); err != nil || len(uses) != many {
		t.Errorf("the record has %d withdrawals: %v", len(uses), err)
	}
	e.lookAhead()
	if got := fmt.Sprint(pages.read); got != fmt.Sprint([]int{claims.MostWithdrawals, 5, 0, 0}) {
		t.Errorf("pages of %s", got)
	}
}

// A pagedShop counts the withdrawals that it tells.
type pagedShop struct {
	*shop
	read []int
}

func (p *pagedShop) Withdrawals(ctx context.Context, after string) ([]claims.Withdrawal, string, error) {
	these, last, err := p.shop.Withdrawals(ctx, after)
	p.read = append(p.read, len(these))
	return these, last, err
}

// In the modes that claim nothing, no token is judged before the store's withdrawals are read.
func TestNothingIsJudgedBeforeWithdrawalsAreRead(t *testing.T) {
	o := inStrict(Options{})
	o.Mode = Reuse
	e := ready(t, engine(t, o))
	e.step(StoreOpened{claims.State{Epoch: "one", Time: moment}})
	if err := check(e, token("a")); !errors.Is(err, ErrNotReady) || !strings.Contains(err.Error(), "withdrawals are being read") {
		t.Error(err)
	}
	e.step(&Heard{Whole: true})
	if err := check(e, token("a")); err != nil {
		t.Error(err)
	}
}
