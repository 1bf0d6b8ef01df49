package server

import (
	"bytes"
	"context"
	"encoding/json"
	"fmt"
	"net/http"
	"net/http/httptest"
	"strings"
	"sync/atomic"
	"testing"

	"svid.example/go/v3/svid"
)

// ctxOf is a context for one check.
func ctxOf(t *testing.T) context.Context {
	t.Helper()
	ctx, cancel := context.WithCancel(context.Background())
	t.Cleanup(cancel)
	return ctx
}

func reuseBy(t *testing.T, rule string, o Options) (*Engine, *bytes.Buffer) {
	t.Helper()
	var out bytes.Buffer
	parsed, err := ParseCaller(rule)
	if err != nil {
		t.Fatal(err)
	}
	o.Mode, o.Caller, o.Log = Reuse, parsed, NewLog(&out, Decisions)
	return ready(t, engine(t, o)), &out
}

// send sends a token as somebody whose address the proxy says; "" says none.
func send(e *Engine, from, token string) int {
	r := httptest.NewRequest("GET", "/check", nil)
	r.Header.Set("Authorization", "Bearer "+token)
	if from != "" {
		r.Header.Set("X-Real-Ip", from)
	}
	w := httptest.NewRecorder()
	e.Handler().ServeHTTP(w, r)
	return w.Code
}

// In reuse nobody is refused for the caller. Of each token the second caller is reported once, with the first one, the keys and the caller's ID, and
// each of its requests is counted.
func TestReuseReportsASecondCaller(t *testing.T) {
	e, out := reuseBy(t, "address:X-Real-Ip", Options{})
	one, two := token("a"), token("b")
	for _, c := range [][2]string{{"192.0.2.1", one}, {"192.0.2.1", one}, {"192.0.2.2", one}, {"192.0.2.2", one}, {"192.0.2.3", one}, {"192.0.2.1", one}, {"", one},
		{"192.0.2.2", two}, {"192.0.2.2", two}} {
		if status := send(e, c[0], c[1]); status != http.StatusOK {
			t.Errorf("%q gets %d", c[0], status)
		}
	}
	var lines []string
	for _, line := range strings.Split(strings.TrimSpace(out.String()), "\n") {
		var said map[string]any
		if err := json.Unmarshal([]byte(line), &said); err != nil {
			t.Fatal(err)
		}
		if said["event"] == "second caller" {
			lines = append(lines, fmt.Sprint(said["first"], " ", said["second"], " ", said["kid"], " ", said["sub"], " ", len(fmt.Sprint(said["key"]))))
		}
	}
	if due := "[192.0.2.1 192.0.2.2 ec-256 spiffe://example.org/web 64]"; fmt.Sprint(lines) != due {
		t.Errorf("it says %q, and %q is due", lines, due)
	}
	if strings.Contains(out.String(), one[:40]) {
		t.Error("the log has a token")
	}
	page := request(e.Handler(), "GET", "/metrics").Body.String()
	for _, line := range []string{"svidd_second_caller_total 3\n", "svidd_unknown_caller_total 1\n"} {
		if !strings.Contains(page, line) {
			t.Errorf("/metrics lacks %q", line)
		}
	}
	if !strings.Contains(out.String(), `"caller":"192.0.2.1"`) {
		t.Error("a decision does not say its caller")
	}
	for how, due := range map[Addresses]string{Network: `"first":"192.0.2.0/24"`, None: `"key":`} {
		e.Log.SetAddresses(how)
		said, one := out.Len(), token(due)
		if send(e, "192.0.2.1", one) != http.StatusOK || send(e, "192.0.2.2", one) != http.StatusOK {
			t.Error("a token is refused")
		}
		if line := out.String()[said:]; !strings.Contains(line, `"event":"second caller"`) || !strings.Contains(line, due) || strings.Contains(line, "192.0.2.1") ||
			strings.Contains(line, "192.0.2.2") || how == None && strings.Contains(line, "192.0.2") {
			t.Errorf("%d: the lines have addresses: %s", how, line)
		}
	}
}

// A service names the caller itself, and Envoy by gRPC.
func TestASecondCallerThatAServiceNames(t *testing.T) {
	e, _ := reuseBy(t, "peer", Options{})
	one := token("a")
	for _, name := range []string{"first", "first", "second"} {
		if _, err := e.Check(WithCaller(ctxOf(t), CallerNamed(name)), one); err != nil {
			t.Error(err)
		}
	}
	if _, err := e.Check(ctxOf(t), one); err != nil {
		t.Error(err)
	}
	if second, unknown := e.Metrics.SecondCaller.Load(), e.Metrics.UnknownCaller.Load(); second != 1 || unknown != 1 {
		t.Errorf("%d second callers, %d unknown ones", second, unknown)
	}
}

// Without Options.Caller, and for a token that is refused, nothing is kept.
func TestNothingIsKeptOfCallersThatNobodyAsksFor(t *testing.T) {
	e := ready(t, engine(t, Options{Mode: Reuse}))
	if err := check(e, token("a")); err != nil || len(e.firsts.of) != 0 {
		t.Errorf("%v, %d kept", err, len(e.firsts.of))
	}
	if second, unknown := e.Metrics.SecondCaller.Load(), e.Metrics.UnknownCaller.Load(); second != 0 || unknown != 0 {
		t.Errorf("%d second callers, %d unknown ones", second, unknown)
	}
	e, _ = reuseBy(t, "address:X-Real-Ip", Options{})
	if status := send(e, "192.0.2.1", token("a")[:40]); status != http.StatusUnauthorized || len(e.firsts.of) != 0 {
		t.Errorf("%d, %d kept", status, len(e.firsts.of))
	}
}

// The table forgets what has expired, and has a limit: beyond it a token's callers are not known, and that is counted.
func TestTheTableOfCallersIsBounded(t *testing.T) {
	var now atomic.Uint64
	now.Store(moment)
	e, _ := reuseBy(t, "address:X-Real-Ip", Options{Now: now.Load})
	if status := send(e, "192.0.2.1", token("a")); status != http.StatusOK || len(e.firsts.of) != 1 {
		t.Fatal(status, len(e.firsts.of))
	}
	for i := 0; len(e.firsts.of) < mostCallers; i++ {
		e.firsts.of[svid.TokenKey{byte(i), byte(i >> 8), byte(i >> 16)}] = first{until: moment + 20}
	}
	if status := send(e, "192.0.2.1", token("b")); status != http.StatusOK || len(e.firsts.of) != mostCallers || e.Metrics.UnknownCaller.Load() != 1 {
		t.Errorf("%d, %d kept, %d unknown", status, len(e.firsts.of), e.Metrics.UnknownCaller.Load())
	}
	now.Store(moment + 21) // (some have expired, and to look at all of them for each token would take long)
	if status := send(e, "192.0.2.1", token("d")); status != http.StatusOK || len(e.firsts.of) != mostCallers || e.Metrics.UnknownCaller.Load() != 2 {
		t.Errorf("%d, %d kept, %d unknown", status, len(e.firsts.of), e.Metrics.UnknownCaller.Load())
	}
	if status := send(e, "192.0.2.2", token("a")); status != http.StatusOK || e.Metrics.SecondCaller.Load() != 1 {
		t.Errorf("%d: a known token's second caller is not reported", status)
	}
	now.Store(moment + forgetEach)
	if status := send(e, "192.0.2.1", token("c")); status != http.StatusOK || len(e.firsts.of) != 2 {
		t.Errorf("%d, %d kept: what has expired is not forgotten, or what has not is", status, len(e.firsts.of))
	}
}
