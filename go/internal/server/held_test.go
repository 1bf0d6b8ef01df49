package server

import (
	"context"
	"encoding/json"
	"errors"
	"fmt"
	"strings"
	"sync"
	"testing"
	"time"

	"svid.example/go/v3/claims"
	"svid.example/go/v3/svid"
)

// accepted lets a table hear that a token was accepted, whose signature this key made.
func (v *verified) accepted(one string, by *svid.Key) {
	m := v.recall(one)
	v.keep(m, one, by, svid.Use{})
	m.held.letGo()
}

// A token is held from its second acceptance on, as it is: another one of its hash is another token.
func TestATokenIsHeldByAllOfIt(t *testing.T) {
	v, key := newVerified(), new(svid.Key)
	one := "a token"
	for i := 0; i < 4; i++ {
		m := v.recall(one)
		if m.isHeld != (i > 1) || m.isHeld && (m.key != key || m.held.token.Text() != one) {
			t.Errorf("accepted %d times: %+v", i, m)
		}
		v.keep(m, one, key, svid.Use{})
		m.held.letGo()
	}
	m := v.recall(one)
	defer m.held.letGo()
	other := newHeld(m.hash, "another")
	other.key = new(svid.Key)
	v.held.drop(m.hash).letGo()
	v.held.add(other)
	if again := v.recall(one); again.isHeld || again.key != key {
		t.Errorf("a token is taken for another one of its hash: %+v", again)
	}
	if n := other.users.Load(); n != 2 {
		t.Errorf("the other one has %d users", n)
	}
	if v.held.add(m.held) != nil || v.held.of[m.hash] != other {
		t.Error("two tokens of one hash are held")
	}
}

// What is held has a bound, and a token that comes again and again stays. Long ones are known, and not held.
func TestHeldTokensHaveABound(t *testing.T) {
	v, key := newVerified(), new(svid.Key)
	accept := func(one string) { v.accepted(one, key) }
	for i := 0; i < 2; i++ {
		accept("stays")
	}
	var early *heldToken
	for i := 0; i < 3*mostHeld; i++ {
		one := fmt.Sprint("twice ", i)
		accept(one)
		accept(one)
		if m := v.recall("stays"); !m.isHeld {
			t.Fatalf("a token that comes all the while made room for token %d", i)
		} else {
			m.held.letGo()
		}
		if i == 1 {
			m := v.recall(one)
			early = m.held
			m.held.letGo()
		}
	}
	if n := early.users.Load(); n != 0 {
		t.Errorf("one that made room has %d users", n)
	}
	if n, m := len(v.held.of), len(v.held.round); n != mostHeld || m != mostHeld {
		t.Errorf("%d are held, in %d places", n, m)
	}
	for one, want := range map[string]bool{"stays": true, fmt.Sprint("twice ", 3*mostHeld-1): true, "twice 1": false} {
		m := v.recall(one)
		if m.isHeld != want || m.key != key {
			t.Errorf("%q: %+v", one, m)
		}
		if m.isHeld && m.held.users.Load() != 2 {
			t.Errorf("%q has %d users", one, m.held.users.Load())
		}
		m.held.letGo()
	}
	before := v.recall("stays").held
	v.forget(recalled{hash: before.hash})
	if m := v.recall("stays"); m.isHeld || m.key != nil {
		t.Errorf("a token that is forgotten is held: %+v", m)
	}
	if before.users.Load() != 1 { // (that of recall)
		t.Errorf("it has %d users", before.users.Load())
	}
	for i := 0; i < mostHeld; i++ { // (a free place is taken, too)
		accept(fmt.Sprint("later ", i))
		accept(fmt.Sprint("later ", i))
	}
	if n := len(v.held.of); n != mostHeld {
		t.Errorf("%d are held", n)
	}
	for length, want := range map[int]bool{mostHeldLen: true, mostHeldLen + 1: false} {
		one := strings.Repeat("a", length)
		for i := 0; i < 3; i++ {
			accept(one)
		}
		if m := v.recall(one); m.isHeld != want || m.key != key {
			t.Errorf("%d bytes: %+v", length, m)
		}
	}
}

// A token that is taken out while requests use it goes on to be read, and is closed behind the last of them.
func TestAHeldTokenIsUsedToTheEnd(t *testing.T) {
	e := ready(t, engine(t, Options{Mode: Reuse}))
	one := token("a")
	for i := 0; i < 3; i++ {
		if err := check(e, one); err != nil {
			t.Fatal(err)
		}
	}
	r := NewRequest(one)
	if e.recall(r); !r.recalled.isHeld {
		t.Fatal("it is not held")
	}
	held := r.recalled.held
	e.verified.clear()
	if n := held.users.Load(); n != 1 {
		t.Errorf("it has %d users", n)
	}
	if e.stepFor(r, r); r.Err != nil || r.done != nil {
		t.Errorf("%v, answered later: %v", r.Err, r.done != nil)
	}
	held.letGo()
}

// Many requests with few tokens are answered at once, while the bundles are renewed, and others push them out.
func TestHeldTokensAtOnce(t *testing.T) {
	all, _ := bound(t, 1, "header:X-Caller")
	e := all[0]
	var tokens [4]string
	for i := range tokens {
		tokens[i] = token(fmt.Sprint("of ", i))
	}
	var group sync.WaitGroup
	for i := 0; i < 8; i++ {
		group.Add(1)
		go func(i int) {
			defer group.Done()
			for n := 0; n < 50; n++ {
				one := tokens[n%len(tokens)]
				if err := by(e, fmt.Sprint("owner ", n%len(tokens)), one); err != nil {
					t.Errorf("an owner: %v", err)
				}
				if err := by(e, fmt.Sprint("thief ", i), one); err != svid.Replayed {
					t.Errorf("a thief: %v", err)
				}
				switch {
				case i == 0 && n%10 == 0:
					e.verified.clear()
				case i == 1:
					m := e.verified.recall(one)
					e.verified.forget(m)
					m.held.letGo()
				}
			}
		}(i)
	}
	group.Wait()
}

// A token of a known key is answered in time, though it goes through no verification: also where the store hangs.
func TestATokenOfAKnownKeyIsAnsweredInTime(t *testing.T) {
	b := newBench(t)
	r := b.known(token("a"))
	if b.step(r); r.answered || b.count(Verify{}) != 0 || len(b.batches) != 1 {
		t.Fatalf("answered: %v, %d verifications, %d calls", r.answered, b.count(Verify{}), len(b.batches))
	}
	if due := b.machine.Due(); due > b.now.Up+b.machine.Wait {
		t.Errorf("it is due at %v", due)
	}
	if b.pass(b.machine.Wait); !errors.Is(r.Err, context.DeadlineExceeded) || b.machine.Backlog() == 0 {
		t.Errorf("%v", r.Err)
	}
	b.answers(0, nil)
	b.want(0, 0, 1)
}

// known returns a request whose key is known before it comes.
func (b *bench) known(one string) *Request {
	b.t.Helper()
	r := NewRequest(one)
	if r.Key, r.Fault = b.keyring.VerifyToken(&r.read); r.Key == nil {
		b.t.Fatal(r.Fault)
	}
	return r
}

// What the store answered stays known while its token comes, however many others come and go.
func TestAKnownClaimStaysWhileItsTokenComes(t *testing.T) {
	b := benchOf(t, inBound(t, "header:X-Caller", Options{ValidatorID: svid.ValidatorID{1}, Wait: time.Second}))
	one, calls := token("a"), 0
	ask := func(one string, caller byte) *Request {
		t.Helper()
		r := b.known(one)
		r.Caller = [32]byte{caller}
		b.step(&Heard{Whole: true}, r)
		for ; calls < len(b.batches); calls++ {
			b.answers(calls, nil)
		}
		return r
	}
	for i := 0; i < 5; i++ {
		before := len(b.batches)
		if r := ask(one, 1); r.Err != nil || len(b.batches) > before && i > 0 {
			t.Errorf("the owner, time %d: %v, after %d calls", i, r.Err, len(b.batches)-before)
		}
		if r := ask(one, 2); r.Err != svid.Replayed || !r.Other {
			t.Errorf("a thief, time %d: %v", i, r.Err)
		}
		b.now.Up += 2 * knownFor
		if r := ask(token(fmt.Sprint("other ", i)), 1); r.Err != nil {
			t.Errorf("another token, time %d: %v", i, r.Err)
		}
	}
}

// heldOf is what an engine has of a token that was accepted again and again.
func heldOf(t *testing.T, r *Request) recalled {
	t.Helper()
	if r.Err != nil {
		t.Fatal(r.Err)
	}
	h := newHeld(1, r.Token)
	t.Cleanup(h.letGo)
	h.key, h.claim = r.Key, claims.Claim{Key: r.Accepted.Use.Key, Expires: r.Accepted.Use.Expires}
	return recalled{key: r.Key, held: h, isHeld: true}
}

// In mode bound a held token is answered as it comes, from its owner and from others, and the store is asked once: as long as its withdrawals are read.
func TestAHeldTokenIsAnsweredAtOnce(t *testing.T) {
	b := benchOf(t, inBound(t, "header:X-Caller", Options{}))
	b.step(&Heard{Whole: true})
	owner, thief := [32]byte{1}, [32]byte{2}
	first := NewRequest(token("a"))
	first.Caller = owner
	b.step(first)
	first.Key, first.Fault = b.keyring.VerifyToken(&first.read)
	b.step(Verified{first})
	b.answers(0, nil)
	held := heldOf(t, first)
	send := func(caller [32]byte) *Request {
		r := NewRequest(first.Token)
		r.Key, r.Caller, r.recalled = held.key, caller, held
		b.step(r)
		return r
	}
	for i := 0; i < 20; i++ { // (twenty minutes)
		for j := 0; j < 2; j++ {
			if r := send(owner); !r.answered || r.Err != nil || r.Other || r.Accepted.Use.Key != held.held.claim.Key || r.rules == nil {
				t.Fatalf("the owner, minute %d: %v, %+v", i, r.Err, r.Accepted)
			}
			if r := send(thief); !r.answered || r.Err != svid.Replayed || !r.Other {
				t.Errorf("the thief, minute %d: %v", i, r.Err)
			}
		}
		if n := b.machine.Backlog(); n != 0 || len(b.batches) != 1 {
			t.Errorf("minute %d: %d things are under way, after %d calls", i, n, len(b.batches))
		}
		b.now.Up += knownFor + time.Second
		b.step(&Heard{Whole: true})
	}
	b.now.Up += 2 * time.Minute
	if r := send(owner); r.answered || len(b.batches) != 2 {
		t.Errorf("while nobody reads withdrawals: %v, after %d calls", r.Err, len(b.batches))
	}
}

// A held token that comes while another request has its claim waits for it, and is late like any other.
func TestAHeldTokenWaitsForAClaim(t *testing.T) {
	b := benchOf(t, inBound(t, "header:X-Caller", Options{}))
	b.step(&Heard{Whole: true})
	first := NewRequest(token("a"))
	b.step(first)
	first.Key, first.Fault = b.keyring.VerifyToken(&first.read)
	b.step(Verified{first})
	h := newHeld(1, first.Token)
	t.Cleanup(h.letGo)
	h.key = first.Key
	r := NewRequest(first.Token)
	r.Key, r.recalled = first.Key, recalled{key: first.Key, held: h, isHeld: true}
	b.step(r)
	if r.answered || b.machine.Backlog() == 0 {
		t.Fatalf("it does not wait: %v", r.Err)
	}
	b.answers(0, nil)
	if !first.answered || first.Err != nil || !r.answered || r.Err != nil || len(b.batches) != 1 {
		t.Errorf("%v and %v, after %d calls", first.Err, r.Err, len(b.batches))
	}
}

// Where no token is judged, a held one is answered so.
func TestAHeldTokenOfAMachineThatIsNotReady(t *testing.T) {
	b := benchOf(t, inBound(t, "header:X-Caller", Options{}))
	b.step(&Heard{Whole: true})
	first := b.asks("a")
	b.answers(0, nil)
	held := heldOf(t, first)
	b.step(Bundled(false))
	r := NewRequest(first.Token)
	r.Key, r.recalled = held.key, held
	b.step(r)
	if !r.answered || !errors.Is(r.Err, ErrNotReady) || b.machine.Backlog() != 0 {
		t.Errorf("%v", r.Err)
	}
}

// heldOfOwner is a bench whose first request, of caller 1, was accepted and is answered; and its token, which is held.
func heldOfOwner(t *testing.T, one string) (*bench, recalled) {
	t.Helper()
	b := benchOf(t, inBound(t, "header:X-Caller", Options{}))
	b.step(&Heard{Whole: true})
	r := b.known(one)
	r.Caller = [32]byte{1}
	b.step(r)
	b.answers(0, nil)
	return b, heldOf(t, r)
}

// held lets a held token come from a caller.
func (b *bench) held(one string, of recalled, caller byte) *Request {
	r := NewRequest(one)
	r.Key, r.Caller, r.recalled = of.key, [32]byte{caller}, of
	b.step(r)
	return r
}

// What the store answers later counts, also for a token that is held: it has lost the claim meanwhile.
func TestALaterAnswerCountsForAHeldToken(t *testing.T) {
	one := token("a")
	for what, row := range map[string]struct {
		found claims.Found
		want  error
	}{
		"lost":            {claims.Found{Owner: svid.OwnerOfCaller([32]byte{1}, moment+300), Deaf: moment + 300}, ErrLost},
		"lost, and taken": {claims.Found{Owner: svid.OwnerOfCaller([32]byte{2}, moment+300), Deaf: moment + 300}, svid.Replayed},
	} {
		b, of := heldOfOwner(t, one)
		if r := b.held(one, of, 1); r.Err != nil || len(b.batches) != 1 {
			t.Fatalf("%v, after %d calls", r.Err, len(b.batches))
		}
		b.now.Up += 10 * time.Minute // (nobody reads withdrawals)
		r := b.held(one, of, 1)
		if len(b.batches) != 2 {
			t.Fatalf("%s: the store is not asked", what)
		}
		b.batches[1].Found[0] = row.found
		b.batches[1].Found[0].Time = moment
		if b.step(Claimed{b.batches[1]}); r.Err != row.want {
			t.Errorf("%s: %v", what, r.Err)
		}
		b.step(&Heard{Whole: true})
		for i := 0; i < 2; i++ {
			if r := b.held(one, of, 1); r.Err != row.want || r.Other != (row.want == svid.Replayed) {
				t.Errorf("%s, time %d: %v", what, i, r.Err)
			}
		}
		if n := b.machine.Backlog(); n != 0 || len(b.batches) != 2 {
			t.Errorf("%s: %d things are under way, after %d calls", what, n, len(b.batches))
		}
	}
}

// If a held token has its answer at once, or is not judged, every other request has its own all the same.
func TestAHeldTokenLeavesOthersTheirAnswers(t *testing.T) {
	b := benchOf(t, inBound(t, "header:X-Caller", Options{}))
	b.step(&Heard{Whole: true})
	waits := b.asks("waits") // the request of number 0
	if waits.number != 0 || len(b.batches) != 1 {
		t.Fatalf("number %d, after %d calls", waits.number, len(b.batches))
	}
	r := b.asks("a")
	b.pass(time.Second)
	b.answers(1, nil)
	of := heldOf(t, r)
	for i := 0; i < 2; i++ {
		if r := b.held(r.Token, of, 0); !r.answered || r.Err != nil {
			t.Errorf("the owner: %v", r.Err)
		}
	}
	b.step(Bundled(false))
	if r := b.held(r.Token, of, 0); !errors.Is(r.Err, ErrNotReady) {
		t.Errorf("while nothing is judged: %v", r.Err)
	}
	b.step(Bundled(true))
	if n := b.machine.Backlog(); n == 0 || waits.answered {
		t.Fatalf("%d things are under way; %v", n, waits.Err)
	}
	if b.pass(b.machine.Wait); !waits.answered || !errors.Is(waits.Err, context.DeadlineExceeded) {
		t.Errorf("who waited: answered: %v, %v", waits.answered, waits.Err)
	}
}

// A held token is judged as it comes: by what was withdrawn since, by the callers and audiences of now, by the clock, and not after the end.
func TestAHeldTokenIsJudgedEachTime(t *testing.T) {
	one := token("a")
	for what, row := range map[string]struct {
		events func(b *bench, of recalled) []Event
		want   error
	}{
		"withdrawn here": {func(_ *bench, of recalled) []Event {
			return []Event{&Withdraw{Key: of.held.claim.Key, Expires: of.held.claim.Expires}}
		}, svid.Withdrawn},
		"withdrawn elsewhere": {func(_ *bench, of recalled) []Event {
			return []Event{&Heard{These: []claims.Withdrawal{{Key: of.held.claim.Key, Expires: of.held.claim.Expires}}}}
		}, svid.Withdrawn},
		"for another audience": {func(*bench, recalled) []Event { return []Event{&Ruling{Rules: &Rules{[]string{"other"}, nil}}} }, svid.NotAudience},
		"of one who may not call": {func(*bench, recalled) []Event {
			return []Event{&Ruling{Rules: &Rules{[]string{"ledger"}, []string{"spiffe://example.org/billing"}}}}
		}, ErrNotAllowed},
		"expired":               {func(b *bench, _ recalled) []Event { b.now.Wall += 300; return nil }, svid.Expired},
		"while the clock jumps": {func(b *bench, _ recalled) []Event { b.now.Wall += 100_000; return nil }, svid.ErrJump},
		"after the end":         {func(*bench, recalled) []Event { return []Event{End{}} }, ErrNotReady},
		"while draining":        {func(*bench, recalled) []Event { return []Event{Drain{}} }, nil},
	} {
		b, of := heldOfOwner(t, one)
		if r := b.held(one, of, 1); r.Err != nil {
			t.Fatal(r.Err)
		}
		b.step(row.events(b, of)...)
		before := b.machine.Backlog() // (a withdrawal is on its way to the store)
		for caller := byte(1); caller < 3; caller++ {
			r := b.held(one, of, caller)
			if want := row.want; caller == 2 && want == nil {
				want = svid.Replayed
				if r.Err != want || !r.Other {
					t.Errorf("%s: a thief: %v", what, r.Err)
				}
			} else if !r.answered || !errors.Is(r.Err, want) {
				t.Errorf("%s: caller %d: %v", what, caller, r.Err)
			}
			if r.Err != nil && r.Accepted != (svid.Accepted{}) {
				t.Errorf("%s: caller %d: a refused token has %+v", what, caller, r.Accepted)
			}
		}
		if n := b.machine.Backlog(); n != before || len(b.machine.requests) != 0 {
			t.Errorf("%s: %d things are under way", what, n)
		}
		if m := b.machine.metrics; m.ClaimsWon.Load() != 1 || m.ClaimsLost.Load() != 0 || m.ClaimsFailed.Load() != 0 {
			t.Errorf("%s: claims are counted twice", what)
		}
	}
}

// A held token is let go by a request that is judged again, since the bundles were replaced while it was judged.
func TestAHeldTokenIsLetGoByWhoIsJudgedAgain(t *testing.T) {
	var replace func()
	e := ready(t, engine(t, Options{Mode: Reuse, Now: func() uint64 { // (the engine looks at its clock behind what it has of a token)
		if do := replace; do != nil {
			replace = nil
			do()
		}
		return moment
	}}))
	one := token("a")
	for i := 0; i < 2; i++ {
		if err := check(e, one); err != nil {
			t.Fatal(err)
		}
	}
	held := e.verified.held.round[0]
	if n := held.users.Load(); n != 1 || held.token.Text() != one {
		t.Fatalf("%d use the token, and the table alone is to", n)
	}
	replace = func() {
		if err := e.SetBundles(map[string]json.RawMessage{"example.org": otherwise(t, example.JWKSet())}); err != nil {
			t.Error(err)
		}
	}
	if err := check(e, one); err != nil || replace != nil {
		t.Errorf("a good token: %v", err)
	}
	if n := held.users.Load(); n != 0 {
		t.Errorf("%d use the token, whose request has its answer", n)
	}
}
