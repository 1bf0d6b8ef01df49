package server

import (
	"bytes"
	"context"
	"encoding/json"
	"errors"
	"net/http"
	"net/http/httptest"
	"strings"
	"sync/atomic"
	"testing"
	"time"

	"svid.example/go/v3/carriers"
	"svid.example/go/v3/svid"
)

// What comes while the clock is too far ahead waits until it is right, however often that is looked at meanwhile.
func TestLateMessagesStayUntilTheClockIsRight(t *testing.T) {
	var now atomic.Uint64
	now.Store(moment)
	e := ready(t, engine(t, Options{Mode: Once, Journal: &disk{}, Now: now.Load, Step: 600}))
	now.Store(moment + 100_000)
	for i := byte(1); i <= 3; i++ {
		message := batchOf(svid.Use{Key: svid.TokenKey{i}, Expires: moment + 300, At: moment})
		e.Take([]carriers.Value{{Kind: carriers.Uses, Message: message}})
		for k := range message { // (it stands among others, whose room is used again)
			message[k] = 0
		}
	}
	for i := 0; i < 3; i++ {
		e.step(doing((*Machine).takeLate))
		e.step(doing((*Machine).tick))
	}
	wantUses(t, []*Engine{e}, 0)
	now.Store(moment + 1)
	e.step(doing((*Machine).tick))
	wantUses(t, []*Engine{e}, 3)
}

// A withdrawal names one token: of two it would be unknown which one stays good.
func TestAWithdrawalNamesOneToken(t *testing.T) {
	e := ready(t, engine(t, Options{Mode: Once, Journal: &disk{}}))
	body, err := json.Marshal(Withdrawal{Token: token("a"), Key: strings.Repeat("0", 64), Exp: moment + 300})
	if err != nil {
		t.Fatal(err)
	}
	w := httptest.NewRecorder()
	e.Admin(nil).ServeHTTP(w, httptest.NewRequest(http.MethodPost, "/withdraw", bytes.NewReader(body)))
	if w.Code != http.StatusUnprocessableEntity {
		t.Errorf("%d %s", w.Code, w.Body)
	}
	wantUses(t, []*Engine{e}, 0)
}

// A timeless group stores what it is given, and can't say when.
type timelessGroup struct{ slowGroup }

func (timelessGroup) Stored(context.Context, carriers.Kind, uint64) (time.Time, error) {
	return time.Time{}, errors.New("no servers")
}

// Whether the others take a withdrawal is unknown without the broker's time: it is not answered as done.
func TestAWithdrawalOfUnknownTime(t *testing.T) {
	e := ready(t, engine(t, Options{Mode: Reuse, Grouped: true}))
	e.Join(timelessGroup{})
	_, _, err := e.Withdraw(svid.TokenKey{1}, moment+300)
	if err == nil || !strings.Contains(err.Error(), "no servers") || e.Metrics.Withdrawals.Load() != 0 {
		t.Errorf("%v, and %d are counted", err, e.Metrics.Withdrawals.Load())
	}
}

// Each answer says that nobody may keep it, and what its body is. The audience is the first of the service's own that the token
// names.
func TestHeadersOfAnswers(t *testing.T) {
	e := ready(t, engine(t, Options{Mode: Reuse}))
	of := func(audiences ...string) string {
		return "Bearer " + example.Token("ES256", map[string]any{"sub": "spiffe://example.org/web", "aud": audiences, "exp": moment + 300})
	}
	for _, row := range []struct {
		engine        *Engine
		authorization string
		status        int
		kind          string // the body's
		audience      string
	}{
		{e, of("ledger"), 200, "", "ledger"},
		{e, of("audit"), 200, "", "audit"},
		{e, of("other", "audit", "ledger"), 200, "", "ledger"},
		{e, of("other"), 401, "application/json", ""},
		{e, "Basic a", 401, "application/json", ""},
		{engine(t, Options{Mode: Reuse}), of("ledger"), 503, "application/json", ""},
	} {
		w := request(row.engine.Handler(), "GET", "/check", row.authorization)
		if w.Code != row.status || w.Header().Get("Cache-Control") != "no-store" || w.Header().Get("Content-Type") != row.kind ||
			w.Header().Get("X-Svid-Audience") != row.audience {
			t.Errorf("%.30s: %d %v", row.authorization, w.Code, w.Header())
		}
	}
}

// What has no token is counted by itself, and the time of checks in seconds.
func TestWhatIsCounted(t *testing.T) {
	e := ready(t, engine(t, Options{Mode: Reuse}))
	request(e.Handler(), "GET", "/check")
	request(e.Handler(), "GET", "/check", "Basic a")
	e.Metrics.observe(nil, 1500*time.Millisecond)
	e.Metrics.observe(svid.Replayed, 3*time.Millisecond)
	e.Metrics.observe(errors.New("time is up"), 2*time.Hour)
	page := request(e.Handler(), "GET", "/metrics").Body.String()
	for _, want := range []string{
		`svidd_checks_total{result="no_token"} 2`, `svidd_checks_total{result="accepted"} 1`, `svidd_checks_total{result="Replayed"} 1`,
		`svidd_checks_total{result="unavailable"} 1`, "svidd_check_seconds_sum 7201.503", "svidd_check_seconds_count 3",
		`svidd_check_seconds_bucket{le="0.0025"} 0`, `svidd_check_seconds_bucket{le="0.005"} 1`, `svidd_check_seconds_bucket{le="2.5"} 2`,
		`svidd_check_seconds_bucket{le="+Inf"} 3`,
	} {
		if !strings.Contains(page, want+"\n") {
			t.Errorf("there is no %q in\n%s", want, page)
		}
	}
}
