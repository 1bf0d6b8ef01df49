//go:build cgo

package server

import (
	"context"
	"encoding/json"
	"errors"
	"fmt"
	"strings"
	"testing"

	"svid.example/go/v3/internal/scarce"
	"svid.example/go/v3/svid"
)

// What was read of a request's token goes with the request, in each mode.
func TestRequestsLeaveNothingOfTheirTokens(t *testing.T) {
	one := token("a")
	all, _ := strict(t, 1)
	for mode, e := range map[Mode]*Engine{Once: ready(t, engine(t, Options{Mode: Once})), Reuse: ready(t, engine(t, Options{Mode: Reuse})), Strict: all[0]} {
		if err := check(e, one); err != nil {
			t.Fatal(err)
		}
		next := 0
		ask := func(times int) {
			t.Helper()
			for i := 0; i < times; i++ {
				// In mode reuse the keyring does not read a known token. So the signature is another one each time.
				text := one
				if mode == Reuse {
					text = fmt.Sprintf("%s%08d%s", one[:len(one)-10], next, one[len(one)-2:])
					next++
				}
				if err := check(e, text); err != svid.Replayed && err != svid.BadSignature {
					t.Fatal(err)
				}
			}
		}
		const times, most = 200, 100 // What is read of a token takes a block and more.
		ask(times)
		before := scarce.Held()
		ask(times)
		if more := scarce.Held() - before; more > most {
			t.Errorf("%s: %d requests hold %d blocks", mode, times, more)
		}
	}
}

// holdsNoMore wants a call to hold no memory of tokens the second time.
func holdsNoMore(t *testing.T, what string, call func(turn int)) {
	t.Helper()
	const most = 100
	call(0)
	before := scarce.Held()
	call(1)
	if more := scarce.Held() - before; more > most {
		t.Errorf("%s hold %d blocks", what, more)
	}
}

// A token that comes again in mode reuse is read once or twice, and held once.
func TestReusedTokensLeaveNothing(t *testing.T) {
	e := ready(t, engine(t, Options{Mode: Reuse}))
	one := token("a")
	holdsNoMore(t, "200 requests of one token", func(int) {
		for i := 0; i < 200; i++ {
			if err := check(e, one); err != nil {
				t.Fatal(err)
			}
		}
	})
}

// What is held of tokens that came again is let go with the bundles, and at the end.
func TestHeldTokensAreLetGo(t *testing.T) {
	for what, let := range map[string]func(e *Engine) error{
		"other bundles": func(e *Engine) error {
			return e.SetBundles(map[string]json.RawMessage{"example.org": otherwise(t, example.JWKSet())})
		},
		"the end": func(e *Engine) error { e.Close(); return nil },
	} {
		e := ready(t, engine(t, Options{Mode: Reuse}))
		before := scarce.Held()
		const tokens = 200
		for i := 0; i < tokens; i++ {
			one := token(fmt.Sprint("held ", i))
			for n := 0; n < 2; n++ {
				if err := check(e, one); err != nil {
					t.Fatal(err)
				}
			}
		}
		held := scarce.Held() - before
		if held < tokens {
			t.Errorf("%d tokens hold %d blocks", tokens, held)
		}
		if err := let(e); err != nil {
			t.Error(err)
		}
		if left := scarce.Held() - before; left > held/2 {
			t.Errorf("%s: of %d blocks %d are left", what, held, left)
		}
	}
}

// So is the token of a request that waited for the claim of another one.
func TestRequestsThatWaitLeaveNothing(t *testing.T) {
	const many = 200
	all, store := strict(t, 1)
	e := all[0]
	holdsNoMore(t, "200 requests that waited", func(turn int) {
		release := store.hold()
		one := token(fmt.Sprint("waits ", turn))
		first := claimed(t, store, e, one)
		answers := make(chan error, many)
		for i := 0; i < many; i++ {
			go func() { answers <- check(e, one) }()
		}
		await(t, "all to wait", func() bool { return withMachine(e, at(waiting)) == many })
		release()
		if err := <-first; err != nil {
			t.Fatal(err)
		}
		for i := 0; i < many; i++ {
			if err := <-answers; err != svid.Replayed {
				t.Fatal(err)
			}
		}
	})
}

// So is one whose request was answered while its signature was verified.
func TestTokensThatAreVerifiedTooLateLeaveNothing(t *testing.T) {
	b := benchOf(t, Options{Mode: Reuse})
	holdsNoMore(t, "200 requests that were late", func(turn int) {
		for i := 0; i < 200; i++ {
			r := b.comes(fmt.Sprint("late ", i))
			b.step(Gone{r, context.Canceled})
			if r.Key, r.Fault = b.keyring.VerifyToken(&r.read); r.Key == nil {
				t.Fatal(r.Fault)
			}
			b.step(Verified{r})
		}
	})
}

// So is a known token that is too long to be held, also while the clock is wrong and nothing is judged.
func TestLongTokensLeaveNothing(t *testing.T) {
	now := uint64(moment)
	e := newShop().use(t, ready(t, engine(t, inBound(t, "header:X-Caller", Options{Step: 600, Now: func() uint64 { return now }}))))
	one := example.Token("ES256", map[string]any{"sub": "spiffe://example.org/web", "aud": "ledger", "exp": moment + 300, "jti": "long", "more": strings.Repeat("a", mostHeldLen)})
	for i := 0; i < 3; i++ {
		if err := by(e, "owner", one); err != nil {
			t.Fatal(err)
		}
		if err := by(e, "thief", one); err != svid.Replayed {
			t.Errorf("a thief: %v", err)
		}
	}
	if m := e.verified.recall(one); m.key == nil || m.held != nil {
		t.Fatalf("it is held, or not known: %+v", m)
	}
	for _, want := range []error{nil, svid.ErrJump} {
		holdsNoMore(t, fmt.Sprintf("200 requests that are answered %v", want), func(int) {
			for i := 0; i < 200; i++ {
				if err := by(e, "owner", one); err != want {
					t.Fatal(err)
				}
			}
		})
		now += 100_000
	}
}

// So is one whose claim was answered once its request had its answer.
func TestClaimsThatAreAnsweredTooLateLeaveNothing(t *testing.T) {
	b := newBench(t)
	holdsNoMore(t, "200 claims that were late", func(turn int) {
		for i := 0; i < 200; i++ {
			call := len(b.batches)
			r := b.asks(fmt.Sprint("late ", turn, " ", i))
			for len(b.batches) == call {
				b.pass(nextCall)
			}
			b.step(Gone{r, context.Canceled})
			b.answers(call, nil)
			if b.others = nil; !errors.Is(r.Err, context.Canceled) || r.Accepted != (svid.Accepted{}) {
				t.Fatal(r.Err)
			}
		}
	})
}
