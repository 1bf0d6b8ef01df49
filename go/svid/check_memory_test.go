//go:build cgo

package svid

import (
	"fmt"
	"strings"
	"testing"

	"svid.example/go/v3/internal/scarce"
)

// A check for which the library has no memory says so, or accepts: no good token is refused for that, by bundles of any size.
func TestEachAllocationOfACheckRefused(t *testing.T) {
	const now = 1_767_225_600
	one := newIssuer(t, "example.org")
	number := 0
	for _, large := range []bool{false, true} {
		bundles := one.Bundles()
		if large {
			bundles = append([]byte(strings.Repeat(" ", 4096)), bundles...)
		}
		v, k := openValidator(t, bundles), openKeyring(t, string(bundles))
		for name, call := range map[string]func(read *Token, yes []Question) (Accepted, error){
			"Check":      func(read *Token, yes []Question) (Accepted, error) { return v.Check(now, read.text, yes) },
			"CheckToken": func(read *Token, _ []Question) (Accepted, error) { return v.CheckToken(now, read) },
			"CheckToken of a closed token": func(read *Token, _ []Question) (Accepted, error) {
				read.Close()
				return v.CheckToken(now, read)
			},
			"Judge": func(read *Token, yes []Question) (Accepted, error) { return v.Judge(now, read.text, yes) },
			"CheckToken by a key that was named": func(read *Token, _ []Question) (Accepted, error) {
				by := read.found.by
				read.VerifiedBy(nil)
				read.VerifiedBy(by)
				return v.CheckToken(now, read)
			},
			"JudgeToken": func(read *Token, _ []Question) (Accepted, error) { return v.JudgeToken(now, read) },
			"JudgeToken of a closed token": func(read *Token, _ []Question) (Accepted, error) {
				read.Close()
				return v.JudgeToken(now, read)
			},
			"JudgeToken by a key that was named": func(read *Token, _ []Question) (Accepted, error) {
				by := read.found.by
				read.VerifiedBy(nil)
				read.VerifiedBy(by)
				return v.JudgeToken(now, read)
			},
		} {
			for _, all := range []bool{false, true} {
				for n, refused := 0, 1; refused > 0; n++ {
					number++
					read := NewToken(one.Token("ES256", map[string]any{"sub": "spiffe://example.org/web", "aud": "ledger", "exp": now + 300, "jti": fmt.Sprint(number)}))
					yes, err := k.Verify(read.text)
					if err != nil || len(yes) != 1 {
						t.Fatal(yes, err)
					}
					if key, err := k.VerifyToken(&read); err != nil || key == nil || !read.isRead {
						t.Fatal(key, err, read.isRead)
					}
					var accepted Accepted
					refused = scarce.During(n, all, func() { accepted, err = call(&read, yes) })
					if err == nil && accepted.ID != "spiffe://example.org/web" || err != nil && (err != ErrNoMemory || refused == 0) {
						t.Errorf("%s by %d bytes of bundles, allocation %d, all after it: %v: %q, %v", name, len(bundles), n, all, accepted.ID, err)
					}
					read.Close()
				}
			}
		}
	}
}
