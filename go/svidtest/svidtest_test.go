package svidtest_test

import (
	"context"
	"errors"
	"testing"
	"time"

	"svid.example/go/v3/bundles"
	"svid.example/go/v3/guard"
	"svid.example/go/v3/internal/patience"
	"svid.example/go/v3/svid"
	"svid.example/go/v3/svidtest"
)

// open opens the guard of a test.
func open(t *testing.T, i *svidtest.Issuer, o guard.Options) *guard.Guard {
	t.Helper()
	o.Audiences, o.Bundles, o.Wait = []string{"ledger"}, []bundles.Spec{i.Bundle()}, patience.Long // (a busy machine may be slow, and each token is asked once)
	g, err := guard.Open(o)
	if err != nil {
		t.Fatal(err)
	}
	t.Cleanup(g.Close)
	return g
}

// check awaits an answer about a token, while the guard is not ready.
func check(t *testing.T, g *guard.Guard, token string) error {
	t.Helper()
	for until := time.Now().Add(patience.Long); ; time.Sleep(10 * time.Millisecond) {
		_, err := g.Check(context.Background(), token)
		if _, refused := err.(svid.Refusal); err == nil || refused || time.Now().After(until) {
			return err
		}
	}
}

// A service tests its own use of the guard in five lines.
func TestFiveLines(t *testing.T) {
	issuer := svidtest.New(t, "example.org", nil)
	g := open(t, issuer, guard.Options{State: t.TempDir()})
	token := issuer.Token(svidtest.Wish{Subject: "spiffe://example.org/web", Audience: []string{"ledger"}})
	if first, second := check(t, g, token), check(t, g, token); first != nil || second != svid.Replayed {
		t.Error(first, second)
	}
}

// Each fault is refused as it says, and a token of a key after a rotation is accepted.
func TestFaultsAndARotation(t *testing.T) {
	issuer := svidtest.New(t, "example.org", nil)
	g := open(t, issuer, guard.Options{Mode: guard.Reuse})
	wish := svidtest.Wish{Subject: "spiffe://example.org/web", Audience: []string{"ledger"}}
	for fault, due := range map[svidtest.Fault]svid.Refusal{
		svidtest.Expired: svid.Expired, svidtest.NotYet: svid.NotYet, svidtest.OtherAudience: svid.NotAudience,
		svidtest.BadSignature: svid.BadSignature, svidtest.UnknownKey: svid.NoKey,
	} {
		wish.Fault = fault
		if err := check(t, g, issuer.Token(wish)); err != due {
			t.Errorf("%s: %v", fault, err)
		}
	}
	wish.Fault = ""
	for i := 0; i < 3; i++ { // (the next key is in the bundle before it signs, and the one after it once the guard has read it again)
		issuer.Rotate()
		token := issuer.Token(wish)
		for until := time.Now().Add(patience.Long); check(t, g, token) != nil; time.Sleep(10 * time.Millisecond) {
			if time.Now().After(until) {
				t.Fatalf("rotation %d: %v", i, check(t, g, token))
			}
		}
	}
}

// A test sets the clock of the issuer and of the guard, and its store loses what it has.
func TestClockAndStore(t *testing.T) {
	clock := svidtest.NewClock()
	issuer := svidtest.New(t, "example.org", clock)
	store := &svidtest.Store{Now: clock.Now, Terms: guard.Terms(3600, 30)}
	g := open(t, issuer, guard.Options{Store: store, Now: clock.Now})
	wish := svidtest.Wish{Subject: "spiffe://example.org/web", Audience: []string{"ledger"}, JTI: "1"}
	if err := check(t, g, issuer.Token(wish)); err != nil {
		t.Error(err)
	}
	wish.JTI = "2"
	late := issuer.Token(wish)
	clock.Add(301)
	if err := check(t, g, late); err != svid.Expired {
		t.Errorf("a token that has expired: %v", err)
	}
	wish.JTI = "later"
	if err := check(t, g, issuer.Token(wish)); err != nil {
		t.Errorf("a token of the later time: %v", err)
	}
	store.Lose(nil)
	wish.JTI = "3"
	if _, err := g.Check(context.Background(), issuer.Token(wish)); err == nil || errors.Is(err, svid.Replayed) {
		t.Errorf("a token that may have been lost: %v", err)
	}
}
