//go:build cgo

package svid_test

import (
	"errors"
	"fmt"
	"runtime"
	"strings"
	"testing"
	"time"

	"svid.example/go/v3/internal/patience"
	"svid.example/go/v3/internal/scarce"
	"svid.example/go/v3/svid"
)

// Tokens that were read leave no memory behind, whatever became of them.
func TestTokensLeaveNothing(t *testing.T) {
	k, v := keyring(t, example.Bundles()), open(t, 1)
	for _, text := range []string{example.Token("ES256", claims("a")), example.Token("ES256", stranger()), "a.b"} {
		for name, call := range map[string]func(){
			"Accept":     func() { _, _ = v.Accept(k, moment, text) },
			"Candidates": func() { _, _ = k.Candidates(text) },
			"Verify":     func() { _, _ = k.Verify(text) },
			"VerifyToken": func() {
				one := svid.NewToken(text)
				_, _ = k.VerifyToken(&one)
				_, _ = k.VerifyToken(&one)
				_, _ = v.JudgeToken(moment, &one)
				_, _ = v.CheckToken(moment, &one)
				one.Close()
			},
		} {
			const times, most = 100, 50 // One that kept what it read would hold a block and more for each call.
			for i := 0; i < times; i++ {
				call()
			}
			before := scarce.Held()
			for i := 0; i < times; i++ {
				call()
			}
			if more := scarce.Held() - before; more > most {
				t.Errorf("%s of %.10q: %d calls hold %d blocks", name, text, times, more)
			}
		}
	}
}

// Other audiences leave nothing of the record that was copied, nor of one that could not be.
func TestOtherAudiencesLeaveNothing(t *testing.T) {
	v := open(t, 1)
	if _, err := v.Withdraw(moment, svid.TokenKey{1}, moment+300); err != nil {
		t.Fatal(err)
	}
	change := func(times int) {
		t.Helper()
		for i := 0; i < times; i++ {
			if err := v.SetAudiences([]string{"ledger", fmt.Sprint("other", i%3)}); err != nil {
				t.Fatal(err)
			}
			if err := v.SetAudiences([]string{"\n"}); !errors.Is(err, svid.ErrAudience) {
				t.Fatal(err)
			}
		}
	}
	change(10)
	const times, most = 100, 50
	before := scarce.Held()
	change(times)
	if more := scarce.Held() - before; more > most {
		t.Errorf("%d changes hold %d blocks", times, more)
	}
}

// However many bad tokens strangers send, they hold up nobody: each handle and each thread is there for the next token.
func TestBadTokensHoldUpNobody(t *testing.T) {
	k, err := svid.NewKeyring(example.Bundles())
	if err != nil {
		t.Fatal(err)
	}
	v, good := open(t, 1), example.Token("ES256", claims("held up"))
	unsigned := good[:strings.LastIndexByte(good, '.')+1]
	for name, bad := range map[string]string{"no token": "a", "cut": good[:40], "forged": unsigned + strings.Repeat("A", 86), "of an unknown domain": example.Token("ES256", stranger()), "long": strings.Repeat("a", svid.MaxToken+1)} {
		done := make(chan struct{})
		go func() {
			defer close(done)
			for i := 0; i < 8*runtime.GOMAXPROCS(0); i++ {
				_, _ = v.Accept(k, moment, bad)
				_, _ = k.Verify(bad)
				_, _ = k.Candidates(bad)
			}
			if _, err := k.Verify(good); err != nil {
				t.Errorf("a good token behind those: %v", err)
			}
		}()
		select {
		case <-done:
		case <-time.After(patience.Long):
			t.Fatalf("%s: tokens hold up those behind them", name) // (and so they would Close)
		}
	}
	k.Close()
}

// stranger are claims of another trust domain.
func stranger() map[string]any {
	of := claims("stranger")
	of["sub"] = "spiffe://example.net/web"
	return of
}
