//go:build cgo

package server

import (
	"encoding/json"
	"errors"
	"fmt"
	"testing"

	"svid.example/go/v3/internal/issuer"
	"svid.example/go/v3/internal/scarce"
	"svid.example/go/v3/svid"
)

// Where there is no memory for new bundles, or for none, the engine is as ready as before, and judges by the old ones: checks do,
// and Find.
func TestAnEngineKeepsOldBundlesWithoutMemory(t *testing.T) {
	other, err := issuer.New("example.com")
	if err != nil {
		t.Fatal(err)
	}
	for _, mode := range []Mode{Once, Reuse} {
		e := ready(t, engine(t, Options{Mode: mode}))
		number := 0
		of := func(i *issuer.Issuer, domain string) string {
			number++
			return i.Token("ES256", map[string]any{"sub": "spiffe://" + domain + "/web", "aud": "ledger", "exp": moment + 300, "jti": fmt.Sprint(mode, number)})
		}
		again := token("again")
		if err := check(e, again); err != nil {
			t.Fatal(err)
		}
		for what, domains := range map[string]map[string]json.RawMessage{
			"others": {"example.com": other.JWKSet()}, "none": {},
		} {
			for n := 0; ; n++ {
				var err error
				if scarce.During(n, true, func() { err = e.SetBundles(domains) }) == 0 {
					if err != nil || n == 0 {
						t.Errorf("%s, %s: no memory is refused from allocation %d on, and %v", mode, what, n, err)
					}
					break
				}
				if !errors.Is(err, svid.ErrNoMemory) {
					t.Fatalf("%s, %s, allocation %d: %v", mode, what, n, err)
				}
				if err := e.Ready(); err != nil {
					t.Fatalf("%s, %s, allocation %d: ready: %v", mode, what, n, err)
				}
				if err := check(e, of(example, "example.org")); err != nil {
					t.Fatalf("%s, %s, allocation %d: a token of the old bundles: %v", mode, what, n, err)
				}
				if err := check(e, again); mode == Reuse && err != nil || mode == Once && err != svid.Replayed {
					t.Fatalf("%s, %s, allocation %d: a token that came before: %v", mode, what, n, err)
				}
				if err := check(e, of(other, "example.com")); err != svid.UnknownDomain {
					t.Fatalf("%s, %s, allocation %d: a token of the new bundles: %v", mode, what, n, err)
				}
				if _, err := e.Find(of(example, "example.org")); err != nil {
					t.Fatalf("%s, %s, allocation %d: Find: %v", mode, what, n, err)
				}
			}
			ready(t, e)
		}
	}
}
