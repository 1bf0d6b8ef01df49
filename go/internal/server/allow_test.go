package server

import (
	"encoding/json"
	"net/http"
	"strings"
	"testing"

	"svid.example/go/v3/svid"
)

// A caller that no pattern allows gets 403 for a good token, which is not used up; and for another one what anybody gets.
func TestWhoMayCall(t *testing.T) {
	for mode, make := range map[Mode]func(Options) *Engine{
		Once:   func(o Options) *Engine { o.Journal = &disk{}; return ready(t, engine(t, o)) },
		Reuse:  func(o Options) *Engine { return ready(t, engine(t, o)) },
		Strict: func(o Options) *Engine { return newShop().use(t, ready(t, engine(t, inStrict(o)))) },
	} {
		t.Run(string(mode), func(t *testing.T) {
			e := make(Options{Mode: mode, Allow: []string{"spiffe://example.org/other", "spiffe://example.com"}})
			good := token("a")
			for range [2]int{} {
				w := request(e.Handler(), "GET", "/check", "Bearer "+good)
				if w.Code != http.StatusForbidden || w.Header().Get("WWW-Authenticate") != `Bearer error="insufficient_scope", error_description="NotAllowed"` ||
					strings.TrimSpace(w.Body.String()) != `{"reason":"NotAllowed","result":"refused"}` || w.Header().Get("Retry-After") != "" || w.Header().Get("X-Spiffe-Id") != "" {
					t.Fatalf("not allowed: %d %v %s", w.Code, w.Header(), w.Body)
				}
			}
			spoilt := good[:len(good)-6] + "AAAAAA"
			if err := check(e, spoilt); err != svid.BadSignature {
				t.Errorf("a bad signature of who may not call: %v", err)
			}
			if err := check(e, "no token"); err != svid.NotThreeParts {
				t.Errorf("no token: %v", err)
			}
			if n := e.Metrics.notAllowed.Load(); n != 2 {
				t.Errorf("%d are counted", n)
			}
			before := e.Allow
			if err := e.SetRules(e.Audiences, append(before[:2:2], "spiffe://example.org/*")); err != nil {
				t.Fatal(err)
			}
			if err := check(e, good); err != nil {
				t.Errorf("its token was used up: %v", err)
			}
			if err := e.SetRules(e.Audiences, before); err != nil {
				t.Fatal(err)
			}
			if mode != Reuse {
				if err := check(e, good); err != svid.Replayed {
					t.Errorf("a used token of who may not call any more: %v", err)
				}
			}
		})
	}
}

// An empty list lets nobody in, even where nobody has refused it.
func TestAnEmptyListOfCallersIsNotAll(t *testing.T) {
	e := ready(t, engine(t, Options{Mode: Reuse, Allow: []string{}}))
	if err := check(e, token("a")); err != ErrNotAllowed {
		t.Errorf("%v", err)
	}
}

// A token of a trust domain without its bundle can't be judged, whoever may call.
func TestWhoMayCallWithoutABundle(t *testing.T) {
	e := engine(t, Options{Mode: Reuse, Allow: []string{"spiffe://example.com"}, Domains: []string{"example.org"}})
	if err := e.SetBundles(map[string]json.RawMessage{"example.com": example.JWKSet()}); err != nil {
		t.Fatal(err)
	}
	if err := e.Load(nil); err != nil {
		t.Fatal(err)
	}
	if err := check(e, token("a")); err != ErrNoBundle {
		t.Error(err)
	}
}
