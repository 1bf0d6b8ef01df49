package server

import (
	"errors"
	"fmt"
	"net/http"
	"sync"
	"testing"

	"svid.example/go/v3/internal/scarce"
	"svid.example/go/v3/svid"
)

// ofAudience is a new token of a caller for an audience.
func ofAudience(audience, caller, id string) string {
	return example.Token("ES256", map[string]any{"sub": "spiffe://example.org/" + caller, "aud": audience, "exp": moment + 300, "jti": id})
}

// Other audiences and callers count at once, in each mode, and what was accepted before stays used.
func TestRulesAreReplaced(t *testing.T) {
	for mode, make := range map[Mode]func(Options) *Engine{
		Once:   func(o Options) *Engine { o.Journal = &disk{}; return ready(t, engine(t, o)) },
		Reuse:  func(o Options) *Engine { return ready(t, engine(t, o)) },
		Strict: func(o Options) *Engine { return newShop().use(t, ready(t, engine(t, inStrict(o)))) },
	} {
		e := make(Options{Mode: mode})
		used := ofAudience("ledger", "web", "used")
		if err := check(e, used); err != nil {
			t.Fatal(err)
		}
		for _, wrong := range []struct{ audiences, allow []string }{{[]string{"a\nb"}, nil}, {[]string{"other"}, []string{"nobody"}}, {[]string{"other"}, []string{}}} {
			if err := e.SetRules(wrong.audiences, wrong.allow); err == nil {
				t.Errorf("%s: %q count", mode, wrong)
			}
			if err := check(e, ofAudience("other", "web", "-")); err != svid.NotAudience {
				t.Errorf("%s: after rules that are wrong: %v", mode, err)
			}
		}
		if err := e.SetRules([]string{"other", "third"}, []string{"spiffe://example.org/job"}); err != nil {
			t.Fatal(err)
		}
		for i, row := range []struct {
			audience, caller string
			want             error
		}{
			{"ledger", "job", svid.NotAudience}, {"other", "web", ErrNotAllowed}, {"other", "job", nil}, {"third", "job", nil},
		} {
			if err := check(e, ofAudience(row.audience, row.caller, fmt.Sprint(i))); err != row.want {
				t.Errorf("%s: %+v: %v", mode, row, err)
			}
		}
		w := request(e.Handler(), "GET", "/check", "Bearer "+ofAudience("third", "job", "h"))
		if w.Code != http.StatusOK || w.Header().Get("X-Svid-Audience") != "third" {
			t.Errorf("%s: %d %v", mode, w.Code, w.Header())
		}
		if found, err := e.Find(ofAudience("third", "job", "f")); err != nil || found.Expires != moment+300 {
			t.Errorf("%s: a token to withdraw: %v", mode, err)
		}
		if err := e.SetRules([]string{"ledger"}, nil); err != nil {
			t.Fatal(err)
		}
		want := error(svid.Replayed)
		if mode == Reuse {
			want = nil
		}
		if err := check(e, used); err != want {
			t.Errorf("%s: the token of before: %v", mode, err)
		}
	}
}

// Who may call under one audience is not let in under another one: while both change, no request is judged by one of each.
func TestRulesCountTogether(t *testing.T) {
	for mode, o := range map[Mode]Options{Once: {Mode: Once, Journal: &disk{}}, Reuse: {Mode: Reuse}, Strict: inStrict(Options{})} {
		o.Allow = []string{"spiffe://example.org/web"}
		b := benchOf(t, o)
		r := NewRequest(ofAudience("admin", "web", "a"))
		b.step(r) // It comes by the rules of before.
		r.Key, r.Fault = b.keyring.VerifyToken(&r.read)
		ruling := &Ruling{Rules: &Rules{Audiences: []string{"admin"}, Allow: []string{"spiffe://example.org/job"}}}
		if b.step(ruling); ruling.Err != nil {
			t.Fatal(ruling.Err)
		}
		if b.step(Verified{r}); r.Err != ErrNotAllowed {
			t.Errorf("%s: %v", mode, r.Err)
		}
	}
}

// The audience of an answer is one of the rules by which its token was judged.
func TestTheAudienceIsOfTheRulesThatCounted(t *testing.T) {
	b := benchOf(t, Options{Mode: Once, Journal: &disk{}})
	r := b.asks("a")
	b.step(&Ruling{Rules: &Rules{Audiences: []string{"other"}}})
	if b.step(Kept{r.write}); r.Err != nil || r.rules.audience(r.Token) != "ledger" {
		t.Errorf("%v: %q", r.Err, r.rules.audience(r.Token))
	}
}

// While rules change and change again, each token is accepted by one pair, and once.
func TestRulesChangeWhileRequestsCome(t *testing.T) {
	e := ready(t, engine(t, Options{Mode: Once, Journal: &disk{}, Allow: []string{"spiffe://example.org/web"}}))
	const tokens = 40
	var mine, others [tokens]string
	for i := range mine {
		mine[i], others[i] = ofAudience("ledger", "web", fmt.Sprint(i)), ofAudience("admin", "web", fmt.Sprint(i))
	}
	end, changed := make(chan struct{}), make(chan struct{})
	go func() {
		defer close(changed)
		for i := 0; ; i++ {
			select {
			case <-end:
				return
			default:
			}
			audience, caller := "admin", "job"
			if i%2 > 0 {
				audience, caller = "ledger", "web"
			}
			if err := e.SetRules([]string{audience}, []string{"spiffe://example.org/" + caller}); err != nil {
				t.Error(err)
			}
		}
	}()
	var all sync.WaitGroup
	for n := 0; n < 4; n++ {
		all.Add(1)
		go func() {
			defer all.Done()
			for i := range mine {
				if err := check(e, others[i]); err == nil {
					t.Error("a caller of the one audience is accepted for the other")
				}
				err := check(e, mine[i])
				for ; errors.Is(err, ErrNotAllowed) || err == svid.NotAudience; err = check(e, mine[i]) {
				}
				if err != nil && err != svid.Replayed {
					t.Error(err)
				}
			}
		}()
	}
	all.Wait()
	close(end)
	<-changed
	uses, err := svid.Uses(e.Journal.(*disk).kept)
	if err != nil || len(uses) != tokens {
		t.Errorf("%d uses of %d tokens: %v", len(uses), tokens, err)
	}
}

// Where there is no memory for the record of other audiences, the rules of before count, both.
func TestRulesWithoutMemory(t *testing.T) {
	e := ready(t, engine(t, Options{Mode: Once, Journal: &disk{}}))
	for n := 0; ; n++ {
		var err error
		if scarce.During(n, false, func() { err = e.SetRules([]string{"other"}, []string{"spiffe://example.org/job"}) }) == 0 {
			if err != nil || n < 10 {
				t.Errorf("no memory is refused at %d, and %v", n, err)
			}
			return
		}
		if err == nil {
			t.Fatalf("allocation %d is missed by nobody", n)
		}
		if err := check(e, ofAudience("ledger", "web", fmt.Sprint(n))); err != nil {
			t.Fatalf("allocation %d: the rules of before: %v", n, err)
		}
	}
}

// A claim of an audience that is taken away is judged again, by what counts when its store answers.
func TestAClaimWhoseAudienceIsTakenAway(t *testing.T) {
	for audience, want := range map[string]error{"ledger": nil, "other": svid.NotAudience} {
		all, store := strict(t, 1)
		e := all[0]
		release := store.hold()
		answer := claimed(t, store, e, token("a"))
		if err := e.SetRules([]string{audience, "third"}, nil); err != nil {
			t.Fatal(err)
		}
		release()
		if err := <-answer; err != want {
			t.Errorf("%s: %v, want %v", audience, err, want)
		}
	}
}
