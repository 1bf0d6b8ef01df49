//go:build cgo && !gocrypto

package svid

import (
	"encoding/json"
	"errors"
	"fmt"
	"testing"

	"svid.example/go/v3/internal/issuer"
	"svid.example/go/v3/internal/scarce"
)

// Where OpenSSL is refused memory, no key is taken for one that can't be used, no good signature for a bad one, and no bad
// one for a good one.
func TestEachAllocationOfOpenSSLRefused(t *testing.T) {
	one, err := issuer.New("example.org")
	if err != nil {
		t.Fatal(err)
	}
	var set struct{ Keys []map[string]string }
	if err := json.Unmarshal(one.JWKSet(), &set); err != nil {
		t.Fatal(err)
	}
	for _, algorithm := range issuer.Algorithms {
		s := signingOf(t, one.Token(algorithm, map[string]any{"sub": "spiffe://example.org/web", "aud": "ledger", "exp": 2_000_000_000}))
		good := s.signature
		bad := append([]byte(nil), good...)
		bad[len(bad)-1] ^= 1
		var jwk []byte
		for _, key := range set.Keys {
			if key["kid"] == issuer.KeyID(algorithm) {
				jwk, _ = json.Marshal(key)
			}
		}
		for _, all := range []bool{false, true} {
			parsed, verified := 0, 0
			for n := 0; ; n++ {
				var key *Key
				if scarce.During(n, all, func() { key = parseKey(jwk, UsualRSABits) }) == 0 {
					break
				}
				if parsed++; key.fault != nil && !errors.Is(key.fault, ErrNoMemory) {
					t.Errorf("%s, allocation %d of parsing, all after it %v: %v", algorithm, n, all, key.fault)
				}
			}
			for n := 0; ; n++ {
				key := parseKey(jwk, UsualRSABits)
				if key.fault != nil {
					t.Fatal(key.fault)
				}
				var isGood, isBad error
				refused := scarce.During(n, all, func() { isBad = key.Verify(algorithm, s.text, bad) })
				if refused += scarce.During(n, all, func() { isGood = key.Verify(algorithm, s.text, good) }); refused == 0 {
					break
				}
				if verified++; isGood != nil && isGood != ErrNoMemory || isBad != ErrSignature && isBad != ErrNoMemory {
					t.Errorf("%s, allocation %d of verifying, all after it %v: a good signature is %v, a bad one %v", algorithm, n, all, isGood, isBad)
				}
			}
			if parsed == 0 || verified == 0 {
				t.Errorf("%s: %d and %d allocations were refused", algorithm, parsed, verified)
			}
		}
	}
}

// A keyring that has no verdict because OpenSSL is out of memory says so, and keeps no key for one that can't be used.
func TestAKeyringIsRefusedMemory(t *testing.T) {
	one, err := issuer.New("example.org")
	if err != nil {
		t.Fatal(err)
	}
	keyring, err := NewKeyring(one.Bundles())
	if err != nil {
		t.Fatal(err)
	}
	defer keyring.Close()
	for _, algorithm := range []string{"PS256", "ES384"} {
		var tokens [3]string
		for i := range tokens {
			tokens[i] = one.Token(algorithm, map[string]any{"sub": "spiffe://example.org/web", "aud": "ledger", "exp": 2_000_000_000, "jti": fmt.Sprint(i)})
		}
		verify := func(what, token string) {
			if yes, err := keyring.Verify(token); err != nil || len(yes) != 1 {
				t.Errorf("%s, %s: %d questions, and %v", algorithm, what, len(yes), err)
			}
		}
		// (known: the keyring has parsed the key)
		for _, known := range []bool{false, true} {
			for n, refused := 0, 1; refused > 0; n++ {
				keyring.keys = newKeyCache(UsualRSABits)
				if known {
					verify("at first", tokens[0])
				}
				refused = scarce.During(n, true, func() {
					if yes, err := keyring.Verify(tokens[1]); err == nil && len(yes) != 1 || err != nil && (err != ErrNoMemory || len(yes) != 0) {
						t.Errorf("%s, known %v, allocation %d: %d questions, and %v", algorithm, known, n, len(yes), err)
					}
				})
				verify(fmt.Sprintf("known %v, behind allocation %d", known, n), tokens[2])
			}
		}
	}
}
