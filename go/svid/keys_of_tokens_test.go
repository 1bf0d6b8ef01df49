package svid

import (
	"encoding/base64"
	"fmt"
	"strings"
	"testing"

	"svid.example/go/v3/internal/issuer"
)

func newIssuer(t testing.TB, domain string) *issuer.Issuer {
	t.Helper()
	i, err := issuer.New(domain)
	if err != nil {
		t.Fatal(err)
	}
	return i
}

func openKeyring(t testing.TB, bundles string) *Keyring {
	t.Helper()
	k, err := NewKeyring([]byte(bundles))
	if err != nil {
		t.Fatal(err)
	}
	t.Cleanup(k.Close)
	return k
}

// signingOf is a token's signature, and what it is made over.
func signingOf(t testing.TB, token string) *signing {
	t.Helper()
	end := strings.LastIndexByte(token, '.')
	signature, err := base64.RawURLEncoding.DecodeString(token[end+1:])
	if err != nil {
		t.Fatal(err)
	}
	return &signing{text: token[:end], signature: signature}
}

// Tokens of two trust domains with one header, by each algorithm: what Verify answers is what the library asks.
func TestVerifyAnswersTheLibrarysQuestion(t *testing.T) {
	a, b := newIssuer(t, "a.org"), newIssuer(t, "b.org")
	k := openKeyring(t, fmt.Sprintf(`{"a.org":%s,"b.org":%s}`, a.JWKSet(), b.JWKSet()))
	for _, algorithm := range issuer.Algorithms {
		for n := 0; n < 3; n++ {
			for _, i := range []*issuer.Issuer{a, b} {
				token := i.Token(algorithm, map[string]any{"sub": i.Subject("/web"), "aud": "ledger", "exp": 99, "jti": fmt.Sprint(n)})
				candidates, err := k.Candidates(token)
				if err != nil || len(candidates) != 1 {
					t.Fatal(candidates, err)
				}
				yes, err := k.Verify(token)
				if err != nil || len(yes) != 1 || yes[0] != candidates[0].Question {
					t.Fatalf("%s, token %d: %x, %v, want %x", algorithm, n, yes, err, candidates[0].Question)
				}
				end := strings.LastIndexByte(token, '.')
				if yes, err := k.Verify(token[:end-1] + "A" + token[end:]); err == nil && len(yes) != 0 {
					t.Fatal("another text has the same signature")
				}
				if _, err := k.Verify(token[:end] + ".~"); err != SignatureSpelling {
					t.Fatal(err)
				}
			}
		}
	}
	// The other domain's signature over a subject of this one.
	token := b.Token("ES256", map[string]any{"sub": a.Subject("/web"), "aud": "ledger", "exp": 99})
	if yes, err := k.Verify(token); err != nil || len(yes) != 0 {
		t.Error("a key of another trust domain: ", yes, err)
	}
}
