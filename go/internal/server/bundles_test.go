package server

import (
	"encoding/json"
	"errors"
	"strings"
	"testing"
	"time"

	"svid.example/go/v3/internal/issuer"
	"svid.example/go/v3/svid"
)

// A claim whose bundles were replaced since it was judged is judged by its token again, before its value is read.
func TestAClaimWhoseBundlesAreReplaced(t *testing.T) {
	other, err := issuer.New("example.org")
	if err != nil {
		t.Fatal(err)
	}
	for what, row := range map[string]struct {
		bundle json.RawMessage
		want   error
	}{
		"the same key":   {example.JWKSet(), nil},
		"another key":    {other.JWKSet(), svid.BadSignature},
		"no key":         {json.RawMessage(`{"keys":[]}`), svid.NoKey},
		"no such domain": {nil, svid.UnknownDomain},
	} {
		all, store := strict(t, 1)
		e := all[0]
		release := store.hold()
		answer := claimed(t, store, e, token("a"))
		bundles := map[string]json.RawMessage{"example.com": other.JWKSet()}
		if row.bundle != nil {
			bundles["example.org"] = row.bundle
		}
		if err := e.SetBundles(bundles); err != nil {
			t.Fatal(err)
		}
		release()
		if err := <-answer; err != row.want {
			t.Errorf("%s: %v, want %v", what, err, row.want)
		}
		lost := uint64(0)
		if row.want != nil {
			lost = 1
		}
		wantClaims(t, e, 1-lost, lost, 0)
		// Its claim is in the store, and is this life's: with the key back, the token is accepted, unless it was.
		want := error(nil)
		if row.want == nil {
			want = svid.Replayed
		}
		ready(t, e)
		if err := check(e, token("a")); err != want {
			t.Errorf("%s: again: %v, want %v", what, err, want)
		}
	}
}

// Bundles that the validator does not take leave the old ones in their place.
func TestBadBundlesChangeNothing(t *testing.T) {
	e := ready(t, engine(t, Options{Mode: Reuse}))
	for what, domains := range map[string]map[string]json.RawMessage{
		"a name that is none": {"Example": example.JWKSet()},
		"no list of keys":     {"example.org": json.RawMessage(`{"keys":1}`)},
		"no JSON":             {"example.org": json.RawMessage(`{`)},
	} {
		if err := e.SetBundles(domains); err == nil {
			t.Errorf("%s was taken", what)
		}
		if err := check(e, token("a")); err != nil {
			t.Errorf("behind %s: %v", what, err)
		}
	}
	if err := e.SetBundles(map[string]json.RawMessage{}); err != nil {
		t.Fatal(err)
	}
	if err := check(e, token("a")); !errors.Is(err, ErrNotReady) || e.Ready() == nil {
		t.Errorf("without a bundle: %v", err)
	}
}

// Tokens of a trust domain whose bundle could not be read yet are not refused: nobody could judge them. Those of a trust
// domain that nobody named are.
func TestABundleThatWasNotReadYet(t *testing.T) {
	for _, mode := range []Mode{Once, Strict, Reuse} {
		o := inStrict(Options{Domains: []string{"example.org", "example.com"}})
		o.Mode, o.Stored = mode, mode == Strict
		e := ready(t, engine(t, o))
		if mode == Strict {
			e = newShop().use(t, e)
		}
		e.Metrics.BundleAges = func() map[string]time.Duration { return map[string]time.Duration{"example.org": time.Second} }
		for domain, want := range map[string]error{"example.com": ErrNoBundle, "example.net": svid.UnknownDomain} {
			other, err := issuer.New(domain)
			if err != nil {
				t.Fatal(err)
			}
			one := other.Token("ES256", map[string]any{"sub": "spiffe://" + domain + "/web", "aud": "ledger", "exp": moment + 300, "jti": "a"})
			if err := check(e, one); err != want {
				t.Errorf("%s, %s: %v, want %v", mode, domain, err, want)
			}
			if w := request(e.Handler(), "GET", "/check", "Bearer "+one); (w.Code == 503) != (want == ErrNoBundle) {
				t.Errorf("%s, %s: status %d", mode, domain, w.Code)
			}
			if want != ErrNoBundle {
				continue
			}
			if err := e.SetBundles(map[string]json.RawMessage{"example.org": example.JWKSet(), domain: other.JWKSet()}); err != nil {
				t.Fatal(err)
			}
			if err := check(e, one); err != nil {
				t.Errorf("%s, %s: %v once its bundle was read", mode, domain, err)
			}
		}
		page := request(e.Handler(), "GET", "/metrics").Body.String()
		for _, line := range []string{`svidd_bundle_age_seconds{trust_domain="example.com"} +Inf`, `svidd_bundle_age_seconds{trust_domain="example.org"} 1`} {
			if !strings.Contains(page, line+"\n") {
				t.Errorf("/metrics has no %s", line)
			}
		}
	}
}
