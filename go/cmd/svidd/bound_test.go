package main

import (
	"fmt"
	"io"
	"net/http"
	"path/filepath"
	"strings"
	"sync"
	"sync/atomic"
	"testing"

	"svid.example/go/v3/internal/envoytest"
)

// inBound starts n sidecars of mode bound that share a store, whose callers a header names.
func inBound(t *testing.T, n int, url string, more ...string) []*process {
	t.Helper()
	bundle := bundleOption(bundleFile(t, example))
	all := make([]*process, n)
	for i := range all {
		all[i] = start(t, append([]string{bundle, "--replay", "bound", "--caller", "address:X-Real-Ip", "--store", url}, more...)...)
	}
	return all
}

// sendsFrom sends a token as the proxy of a client with this address does.
func (p *process) sendsFrom(client, token string) (status int, reason string) {
	p.t.Helper()
	r, err := http.NewRequest(http.MethodGet, "http://"+p.address+"/check", nil)
	if err != nil {
		p.t.Fatal(err)
	}
	r.Header.Set("Authorization", "Bearer "+token)
	if client != "" {
		r.Header.Set("X-Real-Ip", client)
	}
	answer, err := p.client.Do(r)
	if err != nil {
		p.t.Error(err)
		return 0, err.Error()
	}
	defer answer.Body.Close()
	body, err := io.ReadAll(answer.Body)
	if err != nil {
		p.t.Error(err)
	}
	return answer.StatusCode, string(body)
}

// Over each store, at one sidecar and at three: the owners of 100 tokens send each of them ten times, and a thief sends each while they do so. No
// owner is refused, and no thief is accepted. (With -long there are ten times as many tokens.)
func TestBoundRefusesThieves(t *testing.T) {
	t.Parallel()
	for name, begin := range stores {
		for _, n := range []int{1, 3} {
			begin, n := begin, n
			t.Run(fmt.Sprint(name, n), func(t *testing.T) {
				t.Parallel()
				_, url := begin(t)
				all := inBound(t, n, url, "--log", "errors")
				const atATime = 16
				owned, times := 100, 10
				if *long {
					owned, times = 1000, 20
				}
				sent := tokens(t, fmt.Sprint("bound", n), owned)
				var refused, stolen, unjudged atomic.Int32
				sends := func(p *process, client, token string, accepted int, counted *atomic.Int32) {
					switch status, _ := p.sendsFrom(client, token); status {
					case accepted:
					case http.StatusOK, http.StatusUnauthorized:
						counted.Add(1)
					default:
						unjudged.Add(1)
					}
				}
				var workers sync.WaitGroup
				next := int64(-1)
				for w := 0; w < atATime; w++ {
					workers.Add(1)
					go func(w int) {
						defer workers.Done()
						for i := int(atomic.AddInt64(&next, 1)); i < owned; i = int(atomic.AddInt64(&next, 1)) {
							owner, thief := fmt.Sprintf("192.0.2.%d", i%250), fmt.Sprintf("198.51.100.%d", i%250)
							sends(all[i%n], owner, sent[i], http.StatusOK, &refused)
							var both sync.WaitGroup // (both at once)
							both.Add(1)
							go func() {
								defer both.Done()
								for k := 0; k < n; k++ {
									sends(all[(i+k)%n], thief, sent[i], http.StatusUnauthorized, &stolen)
								}
							}()
							for k := 1; k < times; k++ {
								sends(all[(i+k)%n], owner, sent[i], http.StatusOK, &refused)
							}
							both.Wait()
						}
					}(w)
				}
				workers.Wait()
				if refused.Load() != 0 || stolen.Load() != 0 || unjudged.Load() != 0 {
					t.Errorf("%d requests of owners refused, %d of thieves accepted, %d not judged", refused.Load(), stolen.Load(), unjudged.Load())
				}
				others := 0
				for _, p := range all {
					var count int
					if _, err := fmt.Sscan(p.metric("svidd_other_caller_total"), &count); err != nil {
						t.Fatal(err)
					}
					others += count
				}
				if others != n*owned {
					t.Errorf("%d requests of other callers are counted, want %d", others, n*owned)
				}
				wantNoLoss(t, all)
				t.Logf("%d tokens to %d sidecars, each %d times: %d requests of thieves refused", owned, n, times, others)
			})
		}
	}
}

// A token that was withdrawn after its owner used it is refused within seconds at another sidecar. The lines of the log say who called.
func TestBoundOverAWithdrawal(t *testing.T) {
	t.Parallel()
	_, url := stores["Redis"](t)
	admin := filepath.Join(t.TempDir(), "admin.sock")
	all := append(inBound(t, 1, url, "--admin", admin), inBound(t, 1, url)...)
	one := token(t, "withdrawn in bound", lasting)
	for _, p := range all {
		if status, body := p.sendsFrom("192.0.2.1", one); status != 200 {
			t.Fatalf("%d %s", status, body)
		}
	}
	if status, body := all[1].sendsFrom("192.0.2.2", one); status != 401 || !strings.Contains(body, `"Replayed"`) {
		t.Errorf("a thief: %d %s", status, body)
	}
	if status, body := all[1].sendsFrom("", one); status != 503 || !strings.Contains(body, `"NoCaller"`) {
		t.Errorf("no caller: %d %s", status, body)
	}
	all[1].await("the lines", func() bool { return len(all[1].events("refused")) == 1 && len(all[1].events("unavailable")) == 1 })
	if line := all[1].events("refused")[0]; line["caller"] != "192.0.2.2" || line["says"] != "another caller used this token first" {
		t.Errorf("the line of the thief: %v", line)
	}
	if line := all[1].events("unavailable")[0]; line["reason"] != "the request names no caller: there is no header X-Real-Ip: let the proxy set it" {
		t.Errorf("the line without a caller: %v", line)
	}
	status, out, said := svidd(t, one, "withdraw", "--admin", admin, "-")
	if status != 0 || !strings.HasPrefix(out, "withdrawn ") || strings.Contains(out, "used by") {
		t.Fatalf("%d %s %s", status, out, said)
	}
	if status, body := all[0].sendsFrom("192.0.2.1", one); status != 401 || !strings.Contains(body, `"Withdrawn"`) {
		t.Errorf("where it was withdrawn: %d %s", status, body)
	}
	all[1].await("the other sidecar hears of it", func() bool {
		status, body := all[1].sendsFrom("192.0.2.1", one)
		return status == 401 && strings.Contains(body, `"Withdrawn"`)
	})
}

// Envoy says by gRPC who the client is: its address, or the principal of its certificate. A header says neither.
func TestBoundBehindEnvoy(t *testing.T) {
	t.Parallel()
	_, url := stores["Redis"](t)
	for i, row := range []struct {
		rule               string
		owner, same, thief [2]string // address and principal
		none               [2]string
	}{
		{rule: "peer", owner: [2]string{"192.0.2.1", "p"}, same: [2]string{"192.0.2.1", "other"}, thief: [2]string{"192.0.2.2", "p"}, none: [2]string{"", "p"}},
		{rule: "peer/24,64", owner: [2]string{"192.0.2.1", "p"}, same: [2]string{"192.0.2.9", "p"}, thief: [2]string{"192.0.3.1", "p"}, none: [2]string{"", "p"}},
		{rule: "principal", owner: [2]string{"192.0.2.1", "spiffe://example.org/a"}, same: [2]string{"192.0.2.2", "spiffe://example.org/a"},
			thief: [2]string{"192.0.2.1", "spiffe://example.org/b"}, none: [2]string{"192.0.2.1", ""}},
	} {
		p, address := startEnvoy(t, false, "--replay", "bound", "--caller", row.rule, "--store", url)
		envoy := envoytest.Start(t, address)
		one := token(t, fmt.Sprint("envoy", i), lasting)
		for _, it := range []struct {
			who    [2]string
			status int
			reason string
		}{
			{row.none, 503, "NoCaller"}, {row.owner, 200, ""}, {row.same, 200, ""}, {row.thief, 401, "Replayed"}, {row.owner, 200, ""},
		} {
			if status, reason := sentByEnvoy(t, envoy, it.who, one, "x-forwarded-for", "192.0.2.1"); status != it.status || reason != it.reason {
				t.Errorf("%s: %v: %d %s, want %d %s", row.rule, it.who, status, reason, it.status, it.reason)
			}
		}
		// (/check by HTTP has no such address)
		if status, body := p.sendsFrom("192.0.2.1", one); status != 503 || !strings.Contains(body, "NoCaller") {
			t.Errorf("%s by HTTP: %d %s", row.rule, status, body)
		}
	}
}

// sentByEnvoy lets Envoy ask about a token of a client with this address and principal, which sends more headers.
func sentByEnvoy(t *testing.T, envoy *envoytest.Client, who [2]string, token string, more ...string) (status int, reason string) {
	t.Helper()
	a := envoy.CheckFrom(t, who[0], who[1], append([]string{"authorization", "Bearer " + token}, more...)...)
	if a.Denied != nil {
		return a.Denied.Status.Code, a.Status.Message
	}
	return map[bool]int{true: 200}[a.OK != nil], a.Failed
}

// The headers of a CheckRequest are those that the client sent: a rule of a header names nobody there, whatever the client says. To /check over HTTP it does.
func TestNoHeaderNamesACallerToEnvoy(t *testing.T) {
	t.Parallel()
	_, url := stores["Redis"](t)
	p, address := startEnvoy(t, false, "--replay", "bound", "--caller", "address:X-Real-Ip", "--store", url)
	envoy, one := envoytest.Start(t, address), token(t, "a header", lasting)
	if status, body := p.sendsFrom("192.0.2.1", one); status != 200 {
		t.Fatalf("the owner, by HTTP: %d %s", status, body)
	}
	for _, more := range [][]string{{"x-real-ip", "192.0.2.1"}, {"x-real-ip", "192.0.2.2"}, nil} {
		if status, reason := sentByEnvoy(t, envoy, [2]string{"192.0.2.1", "p"}, one, more...); status != 503 || reason != "NoCaller" {
			t.Errorf("%q: %d %s", more, status, reason)
		}
	}
	p.await("the lines", func() bool { return len(p.events("unavailable")) == 3 })
	const says = "the request names no caller: by gRPC, Envoy hands on the header X-Real-Ip as the client sent it: take --caller peer or --caller principal"
	for _, line := range p.events("unavailable") {
		if line["reason"] != says {
			t.Error(line)
		}
	}
}

// A single sidecar has whose a token is in its state folder, over a kill too: what it answered 200 it refuses to all but the owner.
func TestBoundWithoutAStore(t *testing.T) {
	t.Parallel()
	state := filepath.Join(t.TempDir(), "state")
	bundle := bundleOption(bundleFile(t, example))
	begin := func() *process {
		return start(t, bundle, "--replay", "bound", "--caller", "address:X-Real-Ip", "--state", state)
	}
	sent := tokens(t, "bound alone", 30)
	refuses := func(p *process, client, token string) {
		t.Helper()
		if status, body := p.sendsFrom(client, token); status != 401 || !strings.Contains(body, `"Replayed"`) {
			t.Errorf("a thief: %d %s", status, body)
		}
	}
	for life := 0; life < 3; life++ {
		p := begin()
		for i, one := range sent[:10*(life+1)] { // ten more in each life
			owner, thief := fmt.Sprintf("192.0.2.%d", i), fmt.Sprintf("198.51.100.%d", i)
			if i < 10*life { // The thief is the first one to come after the restart.
				refuses(p, thief, one)
			}
			for k := 0; k < 3; k++ {
				if status, body := p.sendsFrom(owner, one); status != 200 {
					t.Errorf("life %d, token %d: its owner: %d %s", life, i, status, body)
				}
			}
			refuses(p, thief, one)
		}
		p.kill()
	}
}
