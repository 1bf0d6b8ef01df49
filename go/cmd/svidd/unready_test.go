package main

import (
	"encoding/json"
	"fmt"
	"math/big"
	"net/http"
	"net/http/httptest"
	"os"
	"os/exec"
	"path/filepath"
	"strings"
	"syscall"
	"testing"
	"time"

	"svid.example/go/v3/internal/agenttest"
	"svid.example/go/v3/internal/broker"
)

// withBundle plays a sidecar whose only bundle is this text.
func withBundle(text func(t *testing.T) string) func(t *testing.T, mode string) *stage {
	return func(t *testing.T, mode string) *stage {
		name := filepath.Join(t.TempDir(), "bundle.json")
		must(t, os.WriteFile(name, []byte(text(t)), 0o600))
		return launched(newStage(t, mode, bundleOption(name)))
	}
}

// withKeys is one whose only bundle has the issuer's keys, each after a change.
func withKeys(change func(key map[string]any)) func(t *testing.T, mode string) *stage {
	return withBundle(func(t *testing.T) string {
		var set struct {
			Keys []map[string]any `json:"keys"`
		}
		must(t, json.Unmarshal(example.JWKSet(), &set))
		for _, key := range set.Keys {
			change(key)
		}
		text, err := json.Marshal(set)
		must(t, err)
		return string(text)
	})
}

// withRSA is one whose only bundle has a key of so many bits.
func withRSA(bits uint) func(t *testing.T, mode string) *stage {
	n := new(big.Int).Lsh(big.NewInt(1), bits-1)
	text := fmt.Sprintf(`{"keys":[{"use":"jwt-svid","kid":"long","kty":"RSA","e":"AQAB","n":%q}]}`, base64URL(n.SetBit(n, 0, 1).Bytes()))
	return withBundle(func(*testing.T) string { return text })
}

// launched launches a stage that is not to be ready.
func launched(s *stage) *stage {
	s.launch()
	return s
}

// inStrange is a stage with this kind of store. Once it is ready, something happens to that.
func inStrange(kind string, what func(t *testing.T, s storeServer)) func(t *testing.T, mode string) *stage {
	return func(t *testing.T, mode string) *stage {
		server, url := stores[kind](t)
		s := newStage(t, mode, bundleOption(bundleFile(t, example)), "--store", url)
		s.store = server
		s.start()
		what(t, server)
		return s
	}
}

// redisDoes lets a Redis do this.
func redisDoes(words ...string) func(t *testing.T, s storeServer) {
	return func(t *testing.T, s storeServer) {
		_, err := s.(*broker.Redis).Do(words...)
		must(t, err)
	}
}

func init() {
	for state, play := range map[string]func(t *testing.T, mode string) *stage{
		"The list of keys of the bundle is empty":                          withBundle(func(*testing.T) string { return `{"keys":[]}` }),
		"The keys of the bundle have no `use`, as those of an OIDC issuer": withKeys(func(key map[string]any) { delete(key, "use") }),
		"The keys of the bundle are for X.509-SVIDs alone":                 withKeys(func(key map[string]any) { key["use"] = "x509-svid" }),
		"The keys of the bundle have a `use` that is another":              withKeys(func(key map[string]any) { key["use"] = "sig" }),
		"The keys of the bundle are of another type":                       withKeys(func(key map[string]any) { key["kty"] = "OKP" }),
		"The RSA keys of the bundle are longer than `--rsa-bits`":          withRSA(8192),
		"The RSA keys of the bundle are too short":                         withRSA(1024),
		"The points of the keys are not on their curves": withKeys(func(key map[string]any) {
			key["kty"], key["crv"], key["x"], key["y"] = "EC", "P-256", strings.Repeat("A", 42)+"E", strings.Repeat("A", 42)+"E"
			delete(key, "alg")
		}),
		"The file of the bundle is no JSON":             withBundle(func(*testing.T) string { return "keys" }),
		"The file has bundles of several trust domains": withBundle(func(*testing.T) string { return string(example.Bundles()) }),
		"The file of the bundle has more than 1 MiB":    withBundle(func(*testing.T) string { return `{"keys":["` + strings.Repeat("a", 1<<20) + `"]}` }),
		"The server of the bundle does not answer": func(t *testing.T, mode string) *stage {
			return launched(newStage(t, mode, bundleOption("https://"+freeAddress(t)+"/")))
		},
		"The server of the bundle shows another certificate": func(t *testing.T, mode string) *stage {
			server := httptest.NewTLSServer(http.NotFoundHandler())
			t.Cleanup(server.Close)
			return launched(newStage(t, mode, bundleOption(server.URL)))
		},
		"The Workload API does not answer": func(t *testing.T, mode string) *stage {
			return launched(newStage(t, mode, "--workload-api=unix://"+filepath.Join(t.TempDir(), "none.sock")))
		},
		"The Workload API knows no such workload": func(t *testing.T, mode string) *stage {
			agent := agenttest.Start(t)
			agent.Refuse(t, "PERMISSION_DENIED", "no identity issued")
			return launched(newStage(t, mode, "--workload-api="+agent.Address))
		},
		"Who may call is in no trust domain that has a bundle": func(t *testing.T, mode string) *stage {
			return launched(newStage(t, mode, bundleOption(bundleFile(t, example)), "--allow=spiffe://example.com/web"))
		},
		"Redis is full":              inStrange("Redis", redisDoes("CONFIG", "SET", "maxmemory", "1")),
		"Redis takes no writes":      inStrange("Redis", redisDoes("CONFIG", "SET", "min-replicas-to-write", "3")),
		"Redis has taken the rights": inStrange("Redis", redisDoes("ACL", "SETUSER", "default", "-@all", "+ping", "+acl", "+hello", "+client", "+auth")),
		"PostgreSQL is away":         inStrange("PostgreSQL", func(_ *testing.T, s storeServer) { s.Kill() }),
		"PostgreSQL takes no writes": inStrange("PostgreSQL", func(t *testing.T, s storeServer) {
			p := s.(*broker.Postgres)
			must(t, p.Do("ALTER SYSTEM SET default_transaction_read_only = on"))
			must(t, p.Do("SELECT pg_reload_conf()"))
		}),
		"NATS is away": inStrange("NATS", func(_ *testing.T, s storeServer) { s.Kill() }),
		"The system refuses memory for a token": func(t *testing.T, mode string) *stage {
			pipe := filepath.Join(t.TempDir(), "pipe")
			must(t, syscall.Mkfifo(pipe, 0o600))
			s := newStage(t, mode, bundleOption(bundleFile(t, example)))
			s.more = []string{starvedBy + "=" + pipe}
			s.start()
			starve, err := os.OpenFile(pipe, os.O_WRONLY, 0)
			must(t, err)
			t.Cleanup(func() { must(t, starve.Close()) })
			isRefused := func() bool { // Only a token shows it, and for some seconds.
				status, _, _ := s.check(s.token("shows"))
				return status == http.StatusServiceUnavailable
			}
			s.await("a token that memory is refused for", isRefused)
			s.meanwhile(func() { _ = isRefused() })
			return s
		},
	} {
		plays[state] = play
	}
}

// base64URL is base64url without padding, as a JWK has it.
func base64URL(b []byte) string {
	const digits = "ABCDEFGHIJKLMNOPQRSTUVWXYZabcdefghijklmnopqrstuvwxyz0123456789-_"
	var text strings.Builder
	for len(b) > 0 {
		var piece [3]byte
		n := copy(piece[:], b)
		b = b[n:]
		all := uint(piece[0])<<16 | uint(piece[1])<<8 | uint(piece[2])
		for i := 0; i <= n; i++ {
			text.WriteByte(digits[all>>(18-6*i)&63])
		}
	}
	return text.String()
}

// soon is within how long /readyz says why no token can be accepted, once that is so.
const soon = 2 * time.Second

// A haste says whether the machine let this process run as it wanted to, so that a time means something.
type haste struct {
	stop chan struct{}
	lost chan time.Duration
}

// hurry looks each 20 ms how much later than that it runs.
func hurry() *haste {
	h := &haste{make(chan struct{}), make(chan time.Duration, 1)}
	go func() {
		var lost time.Duration
		for {
			from := time.Now()
			select {
			case <-h.stop:
				h.lost <- lost
				return
			case <-time.After(20 * time.Millisecond):
				lost += time.Since(from) - 20*time.Millisecond
			}
		}
	}()
	return h
}

// end is how much time was lost.
func (h *haste) end() time.Duration {
	close(h.stop)
	return <-h.lost
}

// An unready is what a sidecar says that is not ready: by its metrics, and by the name of its state.
type unready struct{ state, metrics string }

// wantAlerts wants the rules of Prometheus to tell of each of these sidecars, where their metrics stay as they are, and of no other one.
func wantAlerts(t *testing.T, all []unready) {
	t.Helper()
	var series, due strings.Builder
	var rules ruleFile
	readYAML(t, "prometheus/rules.yaml", &rules)
	says, exprs := map[string]string{}, ""
	for _, rule := range rules.Groups[0].Rules {
		exprs += rule.Expr + "\n"
		if rule.Alert == "SviddNotReady" {
			says = rule.Annotations
			if rule.Labels["severity"] != "page" {
				t.Errorf("who is not ready is a %s", rule.Labels["severity"])
			}
		}
	}
	for i, one := range all {
		instance := fmt.Sprintf("%d: %s", i, one.state)
		for _, line := range strings.Split(one.metrics, "\n") {
			name, value, isSample := cutLast(line, " ")
			if !isSample || strings.HasPrefix(line, "#") || value == "+Inf" {
				continue
			}
			name, labels, _ := strings.Cut(strings.TrimSuffix(name, "}"), "{")
			if !strings.Contains(exprs, name) { // No rule looks at it, and there are many.
				continue
			}
			if labels != "" {
				labels = ", " + labels
			}
			sample := fmt.Sprintf("%s{job=\"svidd\", instance=%q%s}", name, instance, labels)
			fmt.Fprintf(&series, "      - { series: '%s', values: '%sx40' }\n", strings.ReplaceAll(sample, "'", "''"), value)
		}
		fmt.Fprintf(&due, "          - exp_labels: { severity: page, job: svidd, instance: %q }\n            exp_annotations: { summary: %q, action: %q }\n",
			instance, strings.ReplaceAll(says["summary"], "{{ $labels.instance }}", instance), says["action"])
	}
	rulesPath, err := filepath.Abs("../../deploy/prometheus/rules.yaml")
	must(t, err)
	text := fmt.Sprintf("rule_files: [%q]\nevaluation_interval: 1m\ntests:\n  - interval: 15s\n    input_series:\n%s    alert_rule_test:\n      - eval_time: 5m\n        alertname: SviddNotReady\n        exp_alerts:\n%s",
		rulesPath, &series, &due)
	name := filepath.Join(t.TempDir(), "unready.yaml")
	must(t, os.WriteFile(name, []byte(text), 0o600))
	if said, err := exec.Command("promtool", "test", "rules", name).CombinedOutput(); err != nil {
		t.Errorf("promtool: %v (it is in Debian's prometheus)\n%s", err, said)
	}
}
