package server

import (
	"context"
	"errors"
	"fmt"
	"strings"
	"testing"
	"time"

	"svid.example/go/v3/claims"
	"svid.example/go/v3/svid"
)

// As the library paces claims (svid_pacing).
const (
	nextCall   = 20 * time.Millisecond
	mostCalls  = 64
	fullCall   = 32
	fewCalls   = 4
	firstRetry = 10 * time.Millisecond
	lastRetry  = 250 * time.Millisecond
)

// A bench is a machine in mode strict by itself: a test does by hand what the machine wants to be done.
type bench struct {
	t       testing.TB
	machine *Machine
	keyring *svid.Keyring
	now     Time
	batches []*Batch // that went to the store
	others  []Effect // that came besides
}

func newBench(t testing.TB) *bench {
	t.Helper()
	return benchOf(t, inStrict(Options{}))
}

// benchOf is one with other options.
func benchOf(t testing.TB, of Options) *bench {
	t.Helper()
	of.Longest, of.Ahead, of.Step, of.ValidatorID, of.Wait, of.Audiences = 3600, 30, 600, svid.ValidatorID{1}, time.Minute, []string{"ledger"}
	o := svid.Options{Audiences: of.Audiences, Bundles: example.Bundles(), Longest: of.Longest, Ahead: of.Ahead, Step: of.Step, ValidatorID: of.ValidatorID}
	validator, err := svid.Open(o)
	if err != nil {
		t.Fatal(err)
	}
	t.Cleanup(validator.Close)
	b := &bench{t: t, now: Time{Wall: moment, Up: time.Hour}}
	if b.keyring, err = svid.NewKeyring(example.Bundles()); err != nil {
		t.Fatal(err)
	}
	t.Cleanup(b.keyring.Close)
	if b.machine, err = NewMachine(of, validator, b.now); err != nil {
		t.Fatal(err)
	}
	b.step(Bundled(true), &Load{}, StoreOpened{claims.State{Epoch: "one", Time: moment}})
	return b
}

// step lets things happen.
func (b *bench) step(events ...Event) {
	for _, event := range events {
		b.machine.Step(b.now, event)
		b.collect()
	}
}

// pass lets time pass.
func (b *bench) pass(d time.Duration) {
	b.now.Up += d
	b.machine.Tick(b.now)
	b.collect()
}

func (b *bench) collect() {
	for _, effect := range b.machine.Effects(nil) {
		if put, ok := effect.(PutClaims); ok {
			b.batches = append(b.batches, put.Batch)
		} else {
			b.others = append(b.others, effect)
		}
	}
}

// comes lets a request come, whose signature is still being verified.
func (b *bench) comes(id string) *Request {
	r := NewRequest(token(id))
	b.step(r)
	return r
}

// count is how many effects of the same type have come.
func (b *bench) count(like Effect) (n int) {
	for _, effect := range b.others {
		if fmt.Sprintf("%T", effect) == fmt.Sprintf("%T", like) {
			n++
		}
	}
	return n
}

// asks lets a request come that opens a claim, or waits for one.
func (b *bench) asks(id string) *Request {
	r := b.comes(id)
	r.Key, r.Fault = b.keyring.VerifyToken(&r.read)
	b.step(Verified{r})
	return r
}

// answers lets the store answer a call: each claim is what it put, or nothing is known.
func (b *bench) answers(call int, fault error) {
	batch := b.batches[call]
	for i := range batch.Found {
		batch.Found[i] = claims.Found{Owner: batch.Claims[i].Owner, Time: b.now.Wall, Err: fault}
	}
	b.step(Claimed{batch})
}

// want wants so many claims to have ended in each way, and nothing to be kept of them.
func (b *bench) want(won, lost, failed uint64) {
	b.t.Helper()
	m := b.machine.metrics
	if w, l, f := m.ClaimsWon.Load(), m.ClaimsLost.Load(), m.ClaimsFailed.Load(); w != won || l != lost || f != failed {
		b.t.Errorf("%d claims won, %d lost, %d failed; want %d, %d, %d", w, l, f, won, lost, failed)
	}
	if n := b.machine.Backlog(); n != 0 {
		b.t.Errorf("%d things are under way", n)
	}
}

// A token that can't be read is refused, and the member keeps no request of it: else strangers could use up all that it has room for.
func TestATokenThatCantBeReadLeavesNoRequest(t *testing.T) {
	b := newBench(t)
	r := NewRequest("a.b.c")
	b.step(r)
	r.Key, r.Fault = b.keyring.VerifyToken(&r.read)
	if b.step(Verified{r}); !r.answered || r.Err != svid.HeaderSpelling {
		t.Errorf("answered %v: %v", r.answered, r.Err)
	}
	if at, any, err := b.machine.validator.Due(); any || err != nil {
		t.Errorf("a request is open until %v: %v", at, err)
	}
	b.want(0, 0, 0)
}

// A claim goes out at once where no call is under way. Else it waits for the answer, for some time.
func TestAClaimWaitsForTheCallUnderWay(t *testing.T) {
	for how, pass := range map[string]func(b *bench){
		"the answer": func(b *bench) { b.answers(0, nil) },
		"its time":   func(b *bench) { b.pass(nextCall) },
	} {
		b := newBench(t)
		b.asks("1")
		if len(b.batches) != 1 {
			t.Fatalf("%s: %d calls", how, len(b.batches))
		}
		b.asks("2")
		b.asks("3")
		if b.pass(nextCall - 1); len(b.batches) != 1 {
			t.Fatalf("%s: a call goes out too early", how)
		}
		b.now.Up -= nextCall - 1
		b.machine.now.Up = b.now.Up
		if pass(b); len(b.batches) != 2 || len(b.batches[1].Claims) != 2 {
			t.Fatalf("%s: %d calls", how, len(b.batches))
		}
		if how == "its time" {
			b.answers(0, nil)
		}
		b.answers(1, nil)
		b.want(3, 0, 0)
	}
}

// As many claims as fill a call do not wait for the call under way, as long as few calls are.
func TestAFullCallGoesOutBesideOthers(t *testing.T) {
	b := newBench(t)
	b.asks("first")
	for i := 0; i < (fewCalls+1)*fullCall; i++ {
		b.asks(fmt.Sprint(i))
		if want := 1 + min(fewCalls-1, (i+1)/fullCall); len(b.batches) != want {
			t.Fatalf("%d claims wait, and %d calls go out; want %d", i+1, len(b.batches), want)
		}
	}
	for i := 1; i < fewCalls; i++ {
		if n := len(b.batches[i].Claims); n != fullCall {
			t.Errorf("call %d has %d claims", i, n)
		}
	}
	for i := 0; i < len(b.batches); i++ {
		b.answers(i, nil)
	}
	b.want((fewCalls+1)*fullCall+1, 0, 0)
}

func min(a, b int) int {
	if a < b {
		return a
	}
	return b
}

// While calls have no answer, others go out beside them, and not more than so many.
func TestCallsBesideEachOther(t *testing.T) {
	b := newBench(t)
	for i := 0; i < mostCalls+10; i++ {
		b.asks(fmt.Sprint(i))
		b.pass(nextCall)
	}
	if len(b.batches) != mostCalls {
		t.Fatalf("%d calls are under way", len(b.batches))
	}
	b.answers(3, nil)
	if len(b.batches) != mostCalls+1 || len(b.batches[mostCalls].Claims) != 10 {
		t.Fatalf("%d calls", len(b.batches))
	}
}

// A claim that is given up before its call goes out is not put.
func TestAClaimThatWaitsCanBeTakenBack(t *testing.T) {
	b := newBench(t)
	b.asks("first")
	one, two := b.asks("1"), b.asks("2")
	b.step(Gone{one, context.Canceled}, Gone{one, context.Canceled})
	if !errors.Is(one.Err, context.Canceled) || b.machine.metrics.ClaimsFailed.Load() != 1 {
		t.Errorf("a claim is given up once: %v", one.Err)
	}
	key := two.Accepted.Use.Key
	b.answers(0, nil)
	if len(b.batches) != 2 || len(b.batches[1].Claims) != 1 || b.batches[1].Claims[0].Key != key {
		t.Errorf("%d calls", len(b.batches))
	}
	b.answers(1, nil)
	b.step(Gone{two, context.Canceled})
	if two.Err != nil {
		t.Errorf("a claim fails whose outcome is there: %v", two.Err)
	}
	b.want(2, 0, 1)
}

// An answer that comes at the end of a request's time, or later, makes no 200 of it, also where nothing else happened since.
func TestALateAnswerAcceptsNothing(t *testing.T) {
	for wait, want := range map[time.Duration]error{time.Minute - 1: nil, time.Minute: context.DeadlineExceeded, 3 * time.Minute: context.DeadlineExceeded} {
		b := newBench(t)
		r := b.asks("1")
		b.now.Up += wait
		if b.answers(0, nil); !r.answered || !errors.Is(r.Err, want) || (r.Err == nil) != (want == nil) {
			t.Errorf("after %v: %v, want %v", wait, r.Err, want)
		}
	}
	// So it is of a write, in mode once.
	b := benchOf(t, Options{Mode: Once, Journal: &disk{}})
	r := b.asks("1")
	b.now.Up += 3 * time.Minute
	if b.step(Kept{r.write}); !errors.Is(r.Err, context.DeadlineExceeded) {
		t.Errorf("a late write: %v", r.Err)
	}
}

// A claim is given up and answered, in any order: it ends once.
func TestClaimsEndOnce(t *testing.T) {
	for _, gone := range []bool{true, false} {
		b := newBench(t)
		r := b.asks("1")
		if gone {
			b.step(Gone{r, context.Canceled})
			b.answers(0, nil)
			b.want(0, 0, 1)
		} else {
			b.answers(0, nil)
			b.step(Gone{r, context.Canceled})
			b.want(1, 0, 0)
		}
		if (r.Err != nil) != gone {
			t.Errorf("gone %v: %v", gone, r.Err)
		}
	}
}

// A store that has lost entries says so when it is opened: nobody is sent here whose token can't be accepted, also where the first look fails.
func TestAStoreThatIsDeafWhenItIsOpened(t *testing.T) {
	b := newBench(t)
	if err := b.machine.Ready(b.now, false, false); err != nil {
		t.Fatal(err)
	}
	b.step(StoreOpened{claims.State{Epoch: "two", Time: moment, Deaf: svid.StaysUntil(moment, 3600)}})
	if err := b.machine.Ready(b.now, false, false); err == nil || !strings.Contains(err.Error(), "lost entries") {
		t.Errorf("%v", err)
	}
}

// Claims without an answer are put again, after a pause that grows, until their time is over. Others do not wait for them.
func TestClaimsWithoutAnswerArePutAgain(t *testing.T) {
	b := newBench(t)
	fault := errors.New("connection refused")
	r := b.asks("1")
	pause := firstRetry
	for i := 0; i < 10; i++ {
		b.answers(i, fault)
		if r.answered || b.machine.Due() != b.now.Up+pause {
			t.Fatalf("try %d: it is due after %v, want %v", i, b.machine.Due()-b.now.Up, pause)
		}
		if b.pass(pause); len(b.batches) != i+2 {
			t.Fatalf("try %d: %d calls", i, len(b.batches))
		}
		if pause *= 2; pause > lastRetry {
			pause = lastRetry
		}
	}
	b.answers(10, fault)
	other := b.asks("2")
	if b.answers(11, nil); other.Err != nil || !other.answered || r.answered {
		t.Errorf("another claim: %v", other.Err)
	}
	if b.pass(time.Minute); !errors.Is(r.Err, context.DeadlineExceeded) || !strings.Contains(r.Err.Error(), fault.Error()) {
		t.Error(r.Err)
	}
	b.pass(time.Minute)
	b.want(1, 0, 1)
}

// Who sends one token very often holds nobody up: the requests that wait for its claim go on by and by, and all are answered.
// Those that leave are answered at once.
func TestOneTokenThatIsSentVeryOften(t *testing.T) {
	b := newBench(t)
	b.asks("1")
	var all []*Request
	for i := 0; i < 5*mostAgain; i++ {
		all = append(all, b.asks("1"))
	}
	answered := func() (n int) {
		for _, r := range all {
			if r.answered {
				n++
			}
		}
		return n
	}
	b.step(Gone{all[7], context.Canceled})
	if n := answered(); n != 1 {
		t.Errorf("%d are answered", n)
	}
	b.answers(0, nil)
	if n := answered(); n != 1+mostAgain {
		t.Errorf("%d are answered in one step", n)
	}
	last := all[len(all)-1]
	if b.step(Gone{last, context.Canceled}); !errors.Is(last.Err, context.Canceled) || b.machine.Due() != b.now.Up {
		t.Errorf("one that leaves: %v", last.Err)
	}
	for i := 0; i < 5; i++ {
		b.pass(0)
	}
	if n := answered(); n != len(all) {
		t.Errorf("%d of %d are answered", n, len(all))
	}
	for i, r := range all {
		if want := error(svid.Replayed); r.Err != want && i != 7 && r != last {
			t.Errorf("request %d: %v", i, r.Err)
		}
	}
	b.want(1, 0, 0)
}

// Each request is answered when its time is over, whatever it waits for, and no later than the machine says that it is due. One that has an answer
// has no time.
func TestEachRequestIsAnsweredAtItsTime(t *testing.T) {
	for what, make := range map[string]func(b *bench, id string) *Request{
		"its signature":       (*bench).comes,
		"its claim":           (*bench).asks,
		"the claim of others": func(b *bench, _ string) *Request { return b.asks("one") },
	} {
		b := newBench(t)
		wall := b.now.Wall
		var all []*Request
		for i := 0; i < 40; i++ {
			b.now.Up += time.Second
			all = append(all, make(b, fmt.Sprint(i)))
		}
		for i := 0; i < len(all); i += 3 {
			b.step(Gone{all[i], context.Canceled})
		}
		for i, r := range all {
			at := time.Hour + time.Duration(i+1)*time.Second + time.Minute
			for n := 0; b.machine.Due() < at; n++ {
				if n == 100_000 {
					t.Fatalf("%s: what is due at %v is never done", what, b.machine.Due())
				}
				if b.now.Up = b.machine.Due(); r.answered && i%3 > 0 {
					t.Fatalf("%s: request %d is answered too early: %v", what, i, r.Err)
				}
				b.pass(0)
			}
			if b.now.Up = at; i%3 > 0 && b.machine.Due() != at {
				t.Errorf("%s: the next is due at %v, and not at %v", what, b.machine.Due(), at)
			}
			want := context.DeadlineExceeded
			if i%3 == 0 {
				want = context.Canceled
			}
			if b.pass(0); !r.answered || !errors.Is(r.Err, want) {
				t.Errorf("%s: request %d: %v", what, i, r.Err)
			}
		}
		for call := range b.batches {
			b.answers(call, errors.New("too late"))
		}
		b.pass(lastRetry)
		for _, r := range all {
			if what == "its signature" {
				b.step(Verified{r})
			}
		}
		if n := b.machine.Backlog(); n != 0 || b.machine.Due() != never || b.now.Wall != wall {
			t.Errorf("%s: %d things are under way, due at %v", what, n, b.machine.Due())
		}
	}
}

// A request may get its answer while its signature is verified. It gets one answer, and nothing is kept of it.
func TestAVerificationThatTakesTooLong(t *testing.T) {
	for mode, o := range map[Mode]Options{Once: {Mode: Once, Journal: &disk{}}, Reuse: {Mode: Reuse}, Strict: inStrict(Options{})} {
		b := benchOf(t, o)
		r := b.comes("1")
		b.pass(time.Minute)
		if !errors.Is(r.Err, context.DeadlineExceeded) || b.count(Answer{}) != 1 {
			t.Errorf("%s: %v, answered %d times", mode, r.Err, b.count(Answer{}))
		}
		r.Key, r.Fault = b.keyring.VerifyToken(&r.read)
		b.step(Verified{r})
		if b.count(Answer{}) != 1 || b.machine.Backlog() != 0 || len(b.batches) != 0 {
			t.Errorf("%s: answered %d times, and %d things are under way", mode, b.count(Answer{}), b.machine.Backlog())
		}
		if r := b.asks("1"); mode == Reuse && r.Err != nil {
			t.Errorf("%s: its token is used up: %v", mode, r.Err)
		}
	}
}

// A request whose signature nobody could verify is answered so, and its token is not used up.
func TestAVerificationThatFails(t *testing.T) {
	b := benchOf(t, Options{Mode: Once, Journal: &disk{}})
	r := b.comes("1")
	r.Fault = svid.ErrNoMemory
	if b.step(Verified{r}); r.Err != svid.ErrNoMemory || b.machine.Backlog() != 0 {
		t.Errorf("%v, and %d things are under way", r.Err, b.machine.Backlog())
	}
	other := b.asks("1")
	if b.step(Kept{other.write}); other.Err != nil {
		t.Error(other.Err)
	}
}

// A pause before another try is short again once an answer came.
func TestAPauseIsShortAgainAfterAnAnswer(t *testing.T) {
	b := newBench(t)
	fault := errors.New("connection refused")
	b.asks("1")
	for i, pause := 0, firstRetry; i < 6; i, pause = i+1, 2*pause {
		b.answers(i, fault)
		b.pass(b.machine.Due() - b.now.Up)
	}
	b.answers(6, nil)
	b.asks("2")
	if b.answers(7, fault); b.machine.Due() != b.now.Up+firstRetry {
		t.Errorf("it is due after %v", b.machine.Due()-b.now.Up)
	}
}

// One server of several is away, so each call has some answers. A claim of that server is put again after a short pause each time: it may be back.
func TestAPauseStaysShortWhereTheStoreAnswersSome(t *testing.T) {
	b := newBench(t)
	answersBut := func(call int, gone claims.Claim) {
		t.Helper()
		batch := b.batches[call]
		for i, one := range batch.Claims {
			if batch.Found[i] = (claims.Found{Owner: one.Owner, Time: b.now.Wall}); one == gone {
				batch.Found[i] = claims.Found{Err: errors.New("connection refused")}
			}
		}
		b.step(Claimed{batch})
		if pause := b.machine.Due() - b.now.Up; pause != firstRetry {
			t.Errorf("after call %d it is due after %v", call, pause)
		}
	}
	b.asks("1")
	b.asks("2")
	b.asks("3")
	b.answers(0, nil)
	gone := b.batches[1].Claims[1]
	answersBut(1, gone)
	b.asks("4")
	b.asks("5")
	b.pass(firstRetry)
	b.pass(nextCall - firstRetry)
	if len(b.batches) != 4 || len(b.batches[3].Claims) != 2 || b.batches[3].Claims[1] != gone {
		t.Fatalf("%d calls", len(b.batches))
	}
	answersBut(3, gone)
}

// Claims that have no room in a call go out with the next one, also where no answer comes.
func TestClaimsWithoutRoomGoOutByThemselves(t *testing.T) {
	b := newBench(t)
	for i := 0; i < fewCalls; i++ {
		b.pass(nextCall)
		b.asks(fmt.Sprint("first ", i))
	}
	const more = 3
	for i := 0; i < claims.MostClaims+more; i++ {
		b.asks(fmt.Sprint(i))
	}
	for i, want := range []int{1, claims.MostClaims, more} {
		if last := len(b.batches) - 1; last != fewCalls-1+i || len(b.batches[last].Claims) != want {
			t.Fatalf("%d calls, and the last one has %d claims", len(b.batches), len(b.batches[last].Claims))
		}
		due := b.machine.Due() - b.now.Up
		if due > nextCall && i < 2 {
			t.Fatalf("the next call is due after %v", due)
		}
		b.pass(due)
	}
}

// A claim of who may not call any more is not accepted.
func TestAClaimOfACallerWhoMayNotCallAnyMore(t *testing.T) {
	b := newBench(t)
	r := b.asks("1")
	b.step(&Ruling{Rules: &Rules{Audiences: b.machine.rules.Audiences, Allow: []string{"spiffe://example.org/job"}}})
	if b.answers(0, nil); r.Err != ErrNotAllowed {
		t.Errorf("%v", r.Err)
	}
	b.want(0, 1, 0)
}

// What another's claim was is asked once, and told each time.
func TestALostClaimIsToldAgain(t *testing.T) {
	b := newBench(t)
	other := svid.OwnerOfLife(svid.ValidatorID{7}, svid.Life{7}, moment+300)
	b.asks("1")
	b.batches[0].Found[0] = claims.Found{Owner: other, Time: moment}
	b.step(Claimed{b.batches[0]})
	r := b.asks("1")
	if r.Err != svid.Replayed || r.Owner != (svid.ValidatorID{7}) || len(b.batches) != 1 {
		t.Errorf("%v, by %v, after %d calls", r.Err, r.Owner, len(b.batches))
	}
	b.want(0, 1, 0)
}

// Another token of a key is not known: it may be accepted once the first one has expired.
func TestAKnownTokenIsThatAlone(t *testing.T) {
	var k knownClaims
	claim, of := claims.Claim{Key: svid.TokenKey{1}, Expires: moment + 10}, svid.Found{Owner: svid.Owner{7}, Time: moment}
	k.add(0, svid.KnownClaim{Key: claim.Key, Expires: claim.Expires, Found: of}, [32]byte{}, true)
	if one, _, known := k.of(&claim); !known || one.found != of {
		t.Errorf("%v %v", one, known)
	}
	claim.Expires++
	if _, _, known := k.of(&claim); known {
		t.Error("a later token of the key is known")
	}
}

// Answers are kept for a while, and not more than so many.
func TestKnownTokensHaveABound(t *testing.T) {
	var k knownClaims
	one, of := claims.Claim{Expires: moment}, svid.Found{Owner: svid.Owner{7}}
	k.add(0, svid.KnownClaim{Expires: moment, Found: of}, [32]byte{}, true)
	if _, _, known := k.of(&one); !known {
		t.Error("it is not kept")
	}
	for i := 0; i < 3*mostKnown; i++ {
		k.add(time.Duration(i), svid.KnownClaim{Key: svid.TokenKey{1, byte(i), byte(i >> 8), byte(i >> 16)}, Found: of}, [32]byte{}, true)
	}
	if n := len(k.young) + len(k.old); n > 2*mostKnown {
		t.Errorf("%d are kept", n)
	}
	if _, _, known := k.of(&one); known {
		t.Error("one of long ago is kept")
	}
	for i := 1; i < 3; i++ { // and each for two minutes at the least, where few come
		k.add(time.Duration(i)*2*knownFor, svid.KnownClaim{Key: svid.TokenKey{2, byte(i)}, Found: of}, [32]byte{}, true)
	}
	if n := len(k.young) + len(k.old); n > 2 {
		t.Errorf("%d are kept though few come", n)
	}
}

// Once the machine has ended, nothing is claimed any more.
func TestNothingIsClaimedAfterTheEnd(t *testing.T) {
	b := newBench(t)
	b.step(End{})
	if b.count(Ended{}) != 1 {
		t.Fatal("it does not end")
	}
	if r := b.comes("late"); !errors.Is(r.Err, ErrNotReady) || b.count(Verify{}) != 0 {
		t.Errorf("%v", r.Err)
	}
}

// The end waits for calls that are under way, and answers their requests.
func TestTheEndWaitsForCalls(t *testing.T) {
	b := newBench(t)
	r := b.asks("1")
	if b.step(End{}); b.count(Ended{}) != 0 {
		t.Error("it ends while a call is under way")
	}
	if b.answers(0, nil); r.Err != nil || !r.answered || b.count(Ended{}) != 1 {
		t.Errorf("%v, ended %d times", r.Err, b.count(Ended{}))
	}
}

// The end waits for what the group is to be told, and for what the disk is to have, also for what came while other uses were on their way.
func TestTheEndWaitsForAllThatIsToGoOut(t *testing.T) {
	for what, o := range map[string]Options{"the group": {Mode: Once, Grouped: true}, "the disk": inStrict(Options{Journal: &disk{}})} {
		b := benchOf(t, o)
		b.step(Joined{}, CaughtUp{}, Run{})
		var onTheirWay []Event // what ends a value, or a write for which nobody waits
		uses, puts := 0, 0
		work := func() { // does at once what requests wait for
			for len(b.others) > 0 || puts < len(b.batches) {
				effects := b.others
				b.others = nil
				for ; puts < len(b.batches); puts++ {
					b.answers(puts, nil)
				}
				for _, effect := range effects {
					switch effect := effect.(type) {
					case Append:
						uses += len(effect.Uses)
						onTheirWay = append(onTheirWay, Kept{effect.Write})
					case Send:
						uses += len(effect.Uses)
						onTheirWay = append(onTheirWay, Landed{effect.Put})
					case Snapshot:
						b.step(Snapshotted{})
					}
				}
			}
		}
		for _, id := range []string{"a", "b", "c"} {
			r := b.asks(id)
			for work(); !r.answered; work() {
				b.pass(nextCall)
			}
			if r.Err != nil {
				t.Fatal(r.Err)
			}
		}
		if uses != 1 {
			t.Errorf("%s: %d uses are on their way, and the others share the next turn", what, uses)
		}
		b.step(End{})
		for work(); len(onTheirWay) > 0; work() {
			if b.machine.known.Ended {
				t.Errorf("%s: it ended with %d of 3 uses", what, uses)
			}
			next := onTheirWay[0]
			onTheirWay = onTheirWay[1:]
			b.step(next)
			b.pass(keepPause)
		}
		if uses != 3 || !b.machine.known.Ended {
			t.Errorf("%s: %d of 3 uses went out, and it ended: %v", what, uses, b.machine.known.Ended)
		}
	}
}
