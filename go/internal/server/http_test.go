package server

import (
	"bytes"
	"context"
	"errors"
	"fmt"
	"net/http/httptest"
	"strings"
	"testing"

	"svid.example/go/v3/svid"
)

// The key in the log of a refused token is the one that the validator gives it.
func TestTokenKeyIsTheValidators(t *testing.T) {
	e := ready(t, engine(t, Options{Mode: Reuse}))
	for _, claims := range []map[string]any{
		{"sub": "spiffe://example.org/web", "aud": "ledger", "exp": moment + 1, "jti": "j1"},
		{"sub": "spiffe://example.org", "aud": []string{"x", "audit"}, "exp": moment + 1, "jti": ""},
		{"sub": "spiffe://example.org/a/b", "aud": "audit", "exp": moment + 1, "jti": "\u00e9\"\\<"},
		{"sub": "spiffe://example.org/a/b", "aud": "audit", "exp": moment + 1},
	} {
		one := example.Token("RS256", claims)
		use, err := e.Find(one)
		if err != nil {
			t.Fatal(err)
		}
		said := readUnverified(one)
		if *said.short().Key != use.Key || said.Subject != claims["sub"] || said.audience(e.Audiences) == "" {
			t.Errorf("%+v, and the key is %v", said, use.Key)
		}
	}
}

func TestRequests(t *testing.T) {
	e := ready(t, engine(t, Options{Mode: Reuse}))
	h := e.Handler()
	good := token("a")
	for _, row := range []struct {
		what, method, path string
		authorization      []string
		status             int
		challenge          string
	}{
		{"good", "GET", "/check", []string{"Bearer " + good}, 200, ""},
		{"any method", "DELETE", "/check", []string{"Bearer " + good}, 200, ""},
		{"any path", "POST", "/check/a/../b//c", []string{"Bearer " + good}, 200, ""},
		{"any case", "GET", "/check", []string{"bEARER   " + good + " "}, 200, ""},
		{"no token", "GET", "/check", nil, 401, `Bearer realm="svid"`},
		{"another scheme", "GET", "/check", []string{"Basic " + good}, 401, `Bearer realm="svid"`},
		{"two tokens", "GET", "/check", []string{"Bearer " + good, "Bearer " + good}, 401, `Bearer error="invalid_request", error_description="NotBearer"`},
		{"an empty token", "GET", "/check", []string{"Bearer "}, 401, `Bearer error="invalid_request", error_description="NotBearer"`},
		{"no scheme", "GET", "/check", []string{good}, 401, `Bearer realm="svid"`},
		{"something behind it", "GET", "/check", []string{"Bearer " + good + " x"}, 401, `Bearer error="invalid_request", error_description="NotBearer"`},
		{"two joined headers", "GET", "/check", []string{"Bearer " + good + ",Bearer " + good}, 401, `Bearer error="invalid_request", error_description="NotBearer"`},
		{"a tab before it", "GET", "/check", []string{"Bearer\t" + good}, 401, `Bearer error="invalid_request", error_description="NotBearer"`},
		{"what only looks like a token", "GET", "/check", []string{"Bearer ~.a.b"}, 401, `Bearer error="invalid_token", error_description="HeaderSpelling"`},
		{"too long", "GET", "/check", []string{"Bearer " + strings.Repeat("a", svid.MaxToken+1)}, 401, `Bearer error="invalid_token", error_description="TooLong"`},
		{"another audience", "GET", "/check", []string{"Bearer " + example.Token("ES256", map[string]any{"sub": "spiffe://example.org/a", "aud": "x", "exp": moment + 9})},
			401, `Bearer error="invalid_token", error_description="NotAudience"`},
		// Of two reasons the first counts, also where the keyring finds the second.
		{"two reasons", "GET", "/check", []string{"Bearer " + example.Token("ES256", map[string]any{"sub": "spiffe://example.com/a", "aud": "x", "exp": moment + 9})},
			401, `Bearer error="invalid_token", error_description="NotAudience"`},
		{"another path", "GET", "/checked", []string{"Bearer " + good}, 404, ""},
		{"the root", "GET", "/", nil, 404, ""},
		{"health", "GET", "/healthz", nil, 200, ""},
		{"readiness", "GET", "/readyz", nil, 200, ""},
	} {
		w := request(h, row.method, row.path, row.authorization...)
		if w.Code != row.status || w.Header().Get("WWW-Authenticate") != row.challenge {
			t.Errorf("%s: %d %q", row.what, w.Code, w.Header().Get("WWW-Authenticate"))
		}
		if accepted := w.Header().Get("X-Spiffe-Id") != ""; accepted != (w.Code == 200 && strings.HasPrefix(row.path, "/check")) {
			t.Errorf("%s: status %d with X-Spiffe-Id %q", row.what, w.Code, w.Header().Get("X-Spiffe-Id"))
		}
	}
	unready := engine(t, Options{Mode: Once})
	if w := request(unready.Handler(), "GET", "/check", "Bearer "+good); w.Code != 503 || w.Header().Get("Retry-After") == "" || w.Header().Get("WWW-Authenticate") != "" {
		t.Errorf("unready: %d", w.Code)
	}
	if w := request(unready.Handler(), "GET", "/readyz"); w.Code != 503 {
		t.Errorf("unready: %d", w.Code)
	}
}

func TestTheAdminSocketsRequests(t *testing.T) {
	e := ready(t, engine(t, Options{Mode: Once}))
	reloads := 0
	h := e.Admin(func(context.Context) (Reloaded, error) {
		if reloads++; reloads > 1 {
			return Reloaded{}, errors.New("--audience is missing")
		}
		return Reloaded{Changed: []string{"allow"}}, nil
	})
	post := func(body string) *httptest.ResponseRecorder {
		w := httptest.NewRecorder()
		h.ServeHTTP(w, httptest.NewRequest("POST", "/withdraw", strings.NewReader(body)))
		return w
	}
	for body, status := range map[string]int{
		"":                         400,
		"{}":                       422,
		`{"key":"00","exp":1}`:     422,
		`{"token":"a.b.c"}`:        422,
		`{"token":"a","key":"b"}`:  422,
		strings.Repeat("[", 1<<18): 400,
		fmt.Sprintf(`{"key":"%064d","exp":%d}`, 0, moment):   422, // it has expired
		fmt.Sprintf(`{"key":"%064d","exp":%d}`, 0, moment+1): 200,
	} {
		if w := post(body); w.Code != status {
			t.Errorf("%.40s: %d %s", body, w.Code, w.Body)
		}
	}
	if w := request(h, "GET", "/withdraw"); w.Code != 405 {
		t.Errorf("GET /withdraw: %d", w.Code)
	}
	if w := request(h, "POST", "/reload"); w.Code != 200 || w.Body.String() != `{"changed":["allow"]}`+"\n" || reloads != 1 {
		t.Errorf("reload: %d, %d times", w.Code, reloads)
	}
	w := request(h, "GET", "/messages")
	if uses, err := svid.Uses(w.Body.Bytes()); err != nil || len(uses) != 1 || !uses[0].Withdrawn {
		t.Errorf("messages: %v, %v", uses, err)
	}
	if w := request(e.Handler(), "POST", "/withdraw"); w.Code != 404 {
		t.Errorf("the public address withdraws: %d", w.Code)
	}
}

// Whatever comes as a header, nothing panics, the status is 200 only for the token that the validator accepts, and no
// token is logged.
func FuzzCheck(f *testing.F) {
	var log bytes.Buffer // by one goroutine: each process of the fuzzer has its own
	e := ready(f, engine(f, Options{Mode: Reuse, Log: NewLog(&log, All)}))
	h := e.Handler()
	good := token("a")
	signed := good[:strings.LastIndexByte(good, '.')]
	for _, seed := range []string{
		"Bearer " + good, "bearer  " + good, "Bearer", "Basic a", "Bearer a.b.c", "Bearer " + signed + ".AAAA", good,
		"Bearer eyJhbGciOiJub25lIn0.e30.AA", "Bearer " + strings.Repeat("A", 70000), "Bearer \x00\xff", "",
	} {
		f.Add(seed, "/check/x")
	}
	f.Fuzz(func(t *testing.T, authorization, path string) {
		log.Reset()
		w := request(h, "GET", path, authorization)
		// No line has the token, or its signature. (A short one may be a word of the line.)
		_, secret, _ := strings.Cut(authorization, " ")
		secret = secret[strings.LastIndexByte(secret, '.')+1:]
		if len(secret) > 40 && strings.Contains(log.String(), secret) {
			t.Errorf("%q is logged: %s", authorization, &log)
		}
		switch w.Code {
		case 200:
			if checked := path == "/check" || strings.HasPrefix(path, "/check/"); checked {
				_, sent, _ := strings.Cut(authorization, " ")
				sent = strings.Trim(sent, " ")
				// (the signature of ES256 is not unique, but this token has one that was made)
				if !strings.HasPrefix(sent, signed) || check(e, sent) != nil {
					t.Errorf("%q is accepted", authorization)
				}
			}
		case 401, 404:
		default:
			t.Errorf("status %d for %q %q", w.Code, path, authorization)
		}
	})
}

func BenchmarkCheck(b *testing.B) {
	e := ready(b, engine(b, Options{Mode: Reuse}))
	h := e.Handler()
	for _, algorithm := range []string{"ES256", "RS256"} {
		one := example.Token(algorithm, map[string]any{"sub": "spiffe://example.org/web", "aud": "ledger", "exp": moment + 300, "jti": "a"})
		b.Run(algorithm, func(b *testing.B) {
			b.ReportAllocs()
			b.RunParallel(func(p *testing.PB) {
				for p.Next() {
					e.verified.clear() // or the signature is not verified again
					if err := check(e, one); err != nil {
						b.Fatal(err)
					}
				}
			})
		})
		b.Run(algorithm+" again, behind HTTP", func(b *testing.B) {
			b.ReportAllocs()
			b.RunParallel(func(p *testing.PB) {
				for p.Next() {
					if w := request(h, "GET", "/check", "Bearer "+one); w.Code != 200 {
						b.Fatal(w.Code)
					}
				}
			})
		})
	}
}
