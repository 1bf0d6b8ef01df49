package server

import (
	"encoding/json"
	"errors"
	"fmt"
	"strings"
	"testing"
	"time"

	"svid.example/go/v3/svid"
)

// Bundles without a key that can be used are as good as none: the engine is not ready, says why, and judges no token. With one good key among them it
// is ready.
func TestBundlesWithoutAUsableKey(t *testing.T) {
	empty := json.RawMessage(`{"keys":[]}`)
	unnamed := json.RawMessage(strings.ReplaceAll(string(example.JWKSet()), `"use":"jwt-svid",`, ""))
	if strings.Contains(string(unnamed), `"use"`) {
		unnamed = json.RawMessage(strings.ReplaceAll(string(example.JWKSet()), `"use":"jwt-svid"`, `"other":"a"`))
	}
	for _, c := range []struct {
		bundles map[string]json.RawMessage
		want    string
	}{
		{map[string]json.RawMessage{"example.org": empty}, "no key of a trust bundle can verify a token: that of example.org: its list of keys is empty"},
		{map[string]json.RawMessage{"example.org": unnamed}, `that of example.org: no entry of it has the use "jwt-svid": `},
		{map[string]json.RawMessage{"example.org": empty, "example.com": empty, "example.net": empty}, "that of example.com and 2 others: "},
		{map[string]json.RawMessage{}, "there is no trust bundle"},
		{map[string]json.RawMessage{"example.com": empty, "example.org": example.JWKSet()}, ""},
	} {
		e := ready(t, engine(t, Options{Mode: Reuse}))
		if err := e.SetBundles(c.bundles); err != nil {
			t.Fatal(err)
		}
		err := e.Ready()
		if (err == nil) != (c.want == "") || err != nil && !strings.Contains(err.Error(), c.want) {
			t.Errorf("%s: ready is %v", c.want, err)
		}
		if err := check(e, token("a")); (c.want == "") != (err == nil) || err != nil && !errors.Is(err, ErrNotReady) {
			t.Errorf("%s: a token: %v", c.want, err)
		}
		ready(t, e)
		if err := e.Ready(); err != nil {
			t.Errorf("%s: with good bundles: %v", c.want, err)
		}
	}
}

// Where nobody may call whose bundle is there, the engine is not ready, and each token is answered as before.
func TestNobodyMayCall(t *testing.T) {
	for pattern, want := range map[string]error{
		"spiffe://example.org": nil, "spiffe://example.org/web/*": nil, "spiffe://example.org/other": nil,
		"spiffe://example.com": errNobodyMayCall, "spiffe://example.com/web/*": errNobodyMayCall, "spiffe://example.com/web": errNobodyMayCall,
	} {
		e := ready(t, engine(t, Options{Mode: Reuse, Allow: []string{pattern}}))
		if err := e.Ready(); err != want {
			t.Errorf("%s: %v", pattern, err)
		}
		if err := check(e, token("a")); want != nil && err != ErrNotAllowed {
			t.Errorf("%s: a token: %v", pattern, err)
		}
		if err := e.SetRules(e.Audiences, nil); err != nil || e.Ready() != nil {
			t.Errorf("%s: without it: %v %v", pattern, err, e.Ready())
		}
	}
}

// A store that answers, and takes no claims, makes mode strict unready. It is ready once a claim of no token goes well, which no request makes.
func TestAStoreThatTakesNoClaims(t *testing.T) {
	store := newShop()
	e := store.use(t, ready(t, engine(t, inStrict(Options{Wait: 300 * time.Millisecond}))))
	if puts := store.puts(); puts != 0 {
		t.Errorf("%d claims of no token, and all is well", puts)
	}
	store.fail(errors.New("insufficient resources"))
	next := 0
	await(t, "a claim to be put", func() bool { // (on a busy machine the first requests may be late)
		next++
		if err := check(e, token(fmt.Sprint("a", next))); err == nil {
			t.Fatal("it is accepted")
		}
		return store.puts() > 0
	})
	e.lookAhead()
	await(t, "that time to be over", e.isAway)
	if err := e.Ready(); err == nil || err.Error() != "the group's store takes no claims: insufficient resources" {
		t.Errorf("ready is %v", err)
	}
	before := store.puts()
	e.lookAhead()
	if after := store.puts(); after != before+1 {
		t.Errorf("%d claims are tried by one look", after-before)
	}
	store.fail(nil)
	await(t, "a look in time after which it is ready", func() bool { e.lookAhead(); return e.Ready() == nil })
	before = store.puts()
	e.lookAhead()
	if after := store.puts(); after != before {
		t.Errorf("%d claims are tried, and all is well", after-before)
	}
	await(t, "a token to be accepted", func() bool { next++; return check(e, token(fmt.Sprint("b", next))) == nil }) // (a busy machine may be late)
}

// A sidecar that has no memory for tokens is not ready, until it accepts one, or was refused none for a while.
func TestMemoryThatIsRefusedMakesUnready(t *testing.T) {
	e := ready(t, engine(t, Options{Mode: Reuse}))
	e.noteMemory(svid.Expired)
	if err := e.Ready(); err != nil {
		t.Error(err)
	}
	e.noteMemory(fmt.Errorf("a token: %w", svid.ErrNoMemory))
	if err := e.Ready(); err != errStarved {
		t.Errorf("ready is %v", err)
	}
	if e.noteMemory(svid.HeaderSpelling); e.Ready() != errStarved {
		t.Errorf("after a token that takes no memory, ready is %v", e.Ready())
	}
	if err := check(e, token("a")); err != nil || e.Ready() != nil {
		t.Errorf("with memory: %v %v", err, e.Ready())
	}
	e.noteMemory(svid.ErrNoMemory)
	e.outlook.memory.Add(-int64(starvedFor))
	if err := e.Ready(); err != nil {
		t.Errorf("some time behind it, ready is %v", err)
	}
}
