//go:build cgo

package svid

import (
	"fmt"
	"testing"

	"svid.example/go/v3/internal/issuer"
	"svid.example/go/v3/internal/scarce"
)

// Where the library has no memory for new bundles, the validator and the keyring keep the old ones, and checks judge by these.
func TestOldBundlesStayWithoutMemory(t *testing.T) {
	const now = 1_767_225_600
	old, next := newIssuer(t, "example.org"), newIssuer(t, "example.com")
	bundles := next.Bundles()
	number := 0
	for name, renew := range map[string]func(v *Validator, k *Keyring) error{
		"Validator.SetBundles": func(v *Validator, k *Keyring) error { return v.SetBundles(bundles) },
		"Keyring.SetBundles":   func(v *Validator, k *Keyring) error { return k.SetBundles(bundles) },
		"Renew":                func(v *Validator, k *Keyring) error { return v.Renew(k, bundles) },
	} {
		v, k := openValidator(t, old.Bundles()), openKeyring(t, string(old.Bundles()))
		token := func(i *issuer.Issuer, domain string) string {
			number++
			return i.Token("ES256", map[string]any{"sub": "spiffe://" + domain + "/web", "aud": "ledger", "exp": now + 300, "jti": fmt.Sprint(number)})
		}
		for _, all := range []bool{false, true} {
			for n := 0; ; n++ {
				what := fmt.Sprintf("%s, allocation %d, all after it: %v", name, n, all)
				edition := v.Edition()
				var err error
				if scarce.During(n, all, func() { err = renew(v, k) }) == 0 {
					if err != nil || n < 10 {
						t.Errorf("%s: no memory is refused, and %v", what, err)
					}
					t.Logf("%s: %d allocations", name, n)
					break
				}
				if err != ErrNoMemory || v.Edition() != edition {
					t.Fatalf("%s: %v", what, err)
				}
				if _, err := v.Accept(k, now, token(old, "example.org")); err != nil {
					t.Fatalf("%s: a token of the old bundles: %v", what, err)
				}
				if _, err := v.Accept(k, now, token(next, "example.com")); err != UnknownDomain {
					t.Fatalf("%s: a token of the new bundles: %v", what, err)
				}
				if _, err := k.Verify(token(next, "example.com")); err != UnknownDomain {
					t.Fatalf("%s: the keyring has the new bundles: %v", what, err)
				}
				if free := len(k.askers); free != cap(k.askers) {
					t.Fatalf("%s: %d handles of %d are there", what, free, cap(k.askers))
				}
			}
			// The old ones again, for the next round.
			if err := v.Renew(k, old.Bundles()); err != nil {
				t.Fatal(err)
			}
		}
	}
}
