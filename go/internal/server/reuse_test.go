package server

import (
	"encoding/json"
	"fmt"
	"strings"
	"sync"
	"sync/atomic"
	"testing"

	"svid.example/go/v3/internal/issuer"
	"svid.example/go/v3/svid"
)

// A token is known from its second acceptance on: it is not verified again, and judged all the same. A key that is gone, a
// withdrawal, the token's expiry and another signature count at once.
func TestAReusedTokenIsKnown(t *testing.T) {
	var now atomic.Uint64
	now.Store(moment)
	e := ready(t, engine(t, Options{Mode: Reuse, Now: now.Load}))
	one := token("a")
	for i := 0; i < 4; i++ {
		if m := e.verified.recall(one); m.again != (i > 0) || (m.key != nil) != (i > 1) {
			t.Errorf("accepted %d times: %+v", i, m)
		}
		if err := check(e, one); err != nil {
			t.Fatal(err)
		}
	}
	before := e.verified.recall(one)
	for what, bad := range map[string]string{"another signature": one[:len(one)-8] + "AAAAAAAA", "none": one[:strings.LastIndexByte(one, '.')+1], "a byte more": one + "A"} {
		for i := 0; i < 3; i++ {
			if err := check(e, bad); err == nil {
				t.Errorf("%s is accepted", what)
			}
		}
		if m := e.verified.recall(bad); m.again {
			t.Errorf("%s is kept; only accepted tokens are", what)
		}
	}
	// The same keys, written otherwise, are other keys.
	if err := e.SetBundles(map[string]json.RawMessage{"example.org": otherwise(t, example.JWKSet())}); err != nil {
		t.Fatal(err)
	}
	if e.verified.recall(one).key != nil {
		t.Error("a key of the old bundles is kept")
	}
	late := before
	late.key = nil // so it was the second acceptance
	e.verified.keep(late, one, before.key, svid.Use{})
	if e.verified.recall(one).key != nil {
		t.Error("a key of the old bundles was kept after their end")
	}
	late.epoch++ // as if it had been
	e.verified.keep(late, one, before.key, svid.Use{})
	if e.verified.recall(one).key != before.key {
		t.Error("it is not kept")
	}
	if err := check(e, one); err != nil {
		t.Errorf("a known key that is of no use any more: %v", err)
	}
	again := e.verified.recall(one)
	if again.key == nil || again.key == before.key {
		t.Errorf("%v is known", again.key)
	}
	// Without the key.
	other, err := issuer.New("example.org")
	if err != nil {
		t.Fatal(err)
	}
	if err := e.SetBundles(map[string]json.RawMessage{"example.org": other.JWKSet()}); err != nil {
		t.Fatal(err)
	}
	late.epoch++
	e.verified.keep(late, one, again.key, svid.Use{})
	for i := 0; i < 3; i++ {
		if err := check(e, one); err != svid.BadSignature {
			t.Errorf("without its key: %v", err)
		}
	}
	if err := e.SetBundles(map[string]json.RawMessage{"example.org": example.JWKSet()}); err != nil {
		t.Fatal(err)
	}
	for i := 0; i < 3; i++ {
		if err := check(e, one); err != nil {
			t.Error(err)
		}
	}
	now.Store(moment + 300)
	if err := check(e, one); err != svid.Expired {
		t.Errorf("expired: %v", err)
	}
}

// The keyring verifies no known token.
func TestAKnownTokenIsNotVerified(t *testing.T) {
	e := ready(t, engine(t, Options{Mode: Reuse}))
	one := token("a")
	for i := 0; i < 2; i++ {
		if err := check(e, one); err != nil {
			t.Fatal(err)
		}
	}
	e.keyring.Close()
	if err := check(e, one); err != nil {
		t.Error(err)
	}
	if err := check(e, token("b")); err != svid.ErrClosed {
		t.Errorf("another token: %v", err)
	}
}

// Nothing is kept of a token that is refused, whoever signed it.
func TestRefusedTokensAreNotKept(t *testing.T) {
	e := ready(t, engine(t, Options{Mode: Reuse}))
	for what, claims := range map[string]map[string]any{
		"expired":              {"sub": "spiffe://example.org/web", "aud": "ledger", "exp": 1, "jti": "a"},
		"for another audience": {"sub": "spiffe://example.org/web", "aud": "other", "exp": moment + 300, "jti": "a"},
	} {
		one := example.Token("ES256", claims)
		for i := 0; i < 3; i++ {
			if err := check(e, one); err == nil {
				t.Errorf("a token that is %s is accepted", what)
			}
		}
		if m := e.verified.recall(one); m.again {
			t.Errorf("a token that is %s is kept", what)
		}
	}
}

// A known token that is withdrawn is refused at once.
func TestAKnownTokenIsWithdrawn(t *testing.T) {
	e := ready(t, engine(t, Options{Mode: Reuse}))
	one := token("a")
	for i := 0; i < 3; i++ {
		if err := check(e, one); err != nil {
			t.Fatal(err)
		}
	}
	found, err := e.Find(one)
	if err != nil {
		t.Fatal(err)
	}
	if _, _, err := e.Withdraw(found.Key, found.Expires); err != nil {
		t.Fatal(err)
	}
	if err := check(e, one); err != svid.Withdrawn {
		t.Errorf("withdrawn: %v", err)
	}
}

// Two tokens of one hash are two tokens: the one is not taken for the other.
func TestATokenIsKnownByAllOfIt(t *testing.T) {
	v, key := newVerified(), new(svid.Key)
	for _, one := range []string{"a", "b"} {
		m := recalled{again: true} // of the same hash, 0
		v.keep(m, one, key, svid.Use{})
		if v.look(&m) != digestOf(one) || m.key != key {
			t.Errorf("%q: %+v", one, m)
		}
	}
	one := token("a")
	v.keep(recalled{hash: v.recall(one).hash, again: true}, one[:len(one)-1], key, svid.Use{})
	if m := v.recall(one); m.key != nil || !m.again {
		t.Errorf("a token is known by another one of its hash: %+v", m)
	}
	for i := range one {
		if digestOf(one) == digestOf(one[:i]+string(one[i]^1)+one[i+1:]) {
			t.Errorf("a digest leaves out byte %d", i)
		}
	}
}

// What is kept of tokens has a bound, and a token that comes again and again stays, however many come once.
func TestVerifiedTokensHaveABound(t *testing.T) {
	v := newVerified()
	keys := [3]*svid.Key{new(svid.Key), new(svid.Key), new(svid.Key)}
	accept := func(one string, by *svid.Key) { v.keep(v.recall(one), one, by, svid.Use{}) }
	tooLong := strings.Repeat("s", mostHeldLen+1) // to be held
	for i := 0; i < 2; i++ {
		accept("stays", keys[2])
		accept(tooLong, keys[1])
	}
	for i := 0; i < 3*mostInGeneration; i++ {
		accept(fmt.Sprint("once ", i), keys[0])
	}
	if m := v.recall("stays"); m.key != keys[2] {
		t.Errorf("a known token made room for those that come once: %+v", m)
	}
	for i := 0; i < 3*mostInGeneration; i++ {
		v.recall("stays")
		if i%(mostInGeneration/4) == 0 {
			v.recall(tooLong)
		}
		one := fmt.Sprint("twice ", i)
		accept(one, keys[i%3])
		accept(one, keys[i%3])
	}
	if n := len(v.once.young) + len(v.once.old); n > 2*mostInGeneration {
		t.Errorf("%d are kept that came once", n)
	}
	if n := len(v.known.young) + len(v.known.old); n > 2*mostInGeneration {
		t.Errorf("%d are known", n)
	}
	for one, key := range map[string]*svid.Key{"stays": keys[2], tooLong: keys[1]} {
		if m := v.recall(one); m.key != key {
			t.Errorf("a token that came all the while is not known: %+v", m)
		}
	}
	for i := 3*mostInGeneration - 3; i < 3*mostInGeneration; i++ {
		if m := v.recall(fmt.Sprint("twice ", i)); m.key != keys[i%3] {
			t.Errorf("the key of token %d is another one", i)
		}
	}
	for _, long := range []string{"twice 1", "once 1"} {
		if v.recall(long).again {
			t.Errorf("%q, which came long ago, is kept", long)
		}
	}
}

// While the bundles are renewed, and their keys written otherwise each time, no good token is refused.
func TestGoodTokensWhileBundlesAreRenewed(t *testing.T) {
	for _, mode := range []Mode{Once, Reuse} {
		o := Options{Mode: mode}
		if mode == Once {
			o.Journal = &disk{}
		}
		e := ready(t, engine(t, o))
		sets := [2]json.RawMessage{example.JWKSet(), otherwise(t, example.JWKSet())}
		var all sync.WaitGroup
		var left atomic.Int64
		left.Store(8)
		for i := 0; i < 8; i++ {
			all.Add(1)
			go func(number int) {
				defer all.Done()
				defer left.Add(-1)
				one := token(fmt.Sprint("of ", number))
				for i := 0; i < 100; i++ {
					if mode == Once {
						one = token(fmt.Sprint(number, " ", i))
					}
					if err := check(e, one); err != nil {
						t.Errorf("%s: %v", mode, err)
					}
				}
			}(i)
		}
		for i := 0; left.Load() > 0; i++ {
			if err := e.SetBundles(map[string]json.RawMessage{"example.org": sets[i%2]}); err != nil {
				t.Error(err)
			}
		}
		all.Wait()
	}
}

// otherwise is a JWK set with the same keys, written otherwise.
func otherwise(t *testing.T, text []byte) json.RawMessage {
	t.Helper()
	var set struct {
		Keys []map[string]any `json:"keys"`
	}
	if err := json.Unmarshal(text, &set); err != nil {
		t.Fatal(err)
	}
	for _, key := range set.Keys {
		key["note"] = "renewed"
	}
	renewed, err := json.Marshal(set)
	if err != nil {
		t.Fatal(err)
	}
	return renewed
}
