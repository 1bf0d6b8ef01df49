package main

import (
	"bytes"
	"context"
	"encoding/json"
	"errors"
	"fmt"
	"io"
	"net"
	"net/http"
	"net/http/httptest"
	"os"
	"os/exec"
	"path/filepath"
	"reflect"
	"regexp"
	"sort"
	"strconv"
	"strings"
	"testing"
	"time"

	"svid.example/go/v3/internal/natstest"
	"svid.example/go/v3/internal/patience"
)

// readYAML reads a file of deploy/ with Debian's python3-yaml.
func readYAML(t *testing.T, name string, into any) {
	t.Helper()
	c := exec.Command(python, "-c", "import json, sys, yaml; json.dump(yaml.safe_load(sys.stdin), sys.stdout)")
	file, err := os.Open(filepath.Join("../../deploy", name))
	if err != nil {
		t.Fatal(err)
	}
	defer file.Close()
	var said bytes.Buffer
	c.Stdin, c.Stderr = file, &said
	text, err := c.Output()
	if err != nil {
		t.Fatalf("%s: %v: %s (it wants Debian's python3-yaml)", name, err, &said)
	}
	if err := json.Unmarshal(text, into); err != nil {
		t.Fatalf("%s: %v", name, err)
	}
}

// The sidecars of deploy/compose.yaml, by the very words of their command, over a NATS server that runs by those of its own.
func TestComposeFile(t *testing.T) {
	t.Parallel()
	var compose struct {
		Services map[string]struct {
			Image   string
			Build   struct{ Context, Dockerfile string }
			Command []string
			Volumes []string
			Network string `json:"network_mode"`
		}
	}
	readYAML(t, "compose.yaml", &compose)
	server := natstest.Start(t, compose.Services["nats"].Command[:1]...)
	bundle := bundleFile(t, example)
	var all []*process
	for _, name := range []string{"svidd-1", "svidd-2"} {
		service := compose.Services[name]
		if context := filepath.Join("../../deploy", service.Build.Context); context != imageContext || service.Build.Dockerfile != "" {
			t.Errorf("%s is built from %s %s, and not as TestImage does", name, context, service.Build.Dockerfile)
		}
		if of := strings.TrimPrefix(service.Network, "service:"); compose.Services[of].Image == "" || of == service.Network {
			t.Errorf("%s has the network of %q", name, service.Network)
		}
		p := &process{t: t, address: freeAddress(t), log: &lines{}, client: &http.Client{Timeout: patience.Long}}
		for _, word := range service.Command {
			p.args = append(p.args, strings.NewReplacer("/etc/svidd/bundle.json", bundle, "nats://nats:4222", server.URL,
				"/run/svidd", t.TempDir()).Replace(word))
		}
		p.args = append(p.args, "--listen", p.address)
		t.Cleanup(p.kill)
		p.start()
		all = append(all, p)
	}
	one := token(t, "compose", lasting)
	all[0].want(one, 200, "")
	all[1].want(one, 401, "Replayed")
	// The site and the stand-in of the service are good for nginx together.
	folder := t.TempDir()
	config := "pid " + folder + "/pid; events { } http { access_log off;"
	for _, name := range []string{"nginx-site.conf", "compose-service.conf"} {
		text, err := os.ReadFile(filepath.Join("../../deploy", name))
		if err != nil {
			t.Fatal(err)
		}
		config += string(text)
	}
	file := filepath.Join(folder, "nginx.conf")
	if err := os.WriteFile(file, []byte(config+"}"), 0o600); err != nil {
		t.Fatal(err)
	}
	if said, err := exec.Command("nginx", "-t", "-q", "-c", file, "-e", filepath.Join(folder, "log")).CombinedOutput(); err != nil {
		t.Errorf("nginx: %v: %s", err, said)
	}
	for name, service := range compose.Services {
		for _, volume := range service.Volumes {
			file, _, _ := strings.Cut(volume, ":")
			if _, err := os.Stat(filepath.Join("../../deploy", file)); strings.HasPrefix(file, "./") && file != "./bundle.json" && err != nil {
				t.Errorf("%s: %v", name, err)
			}
		}
	}
}

// subjects are those of NATS that a file names: what a member may publish, and what it may subscribe.
func subjects(t *testing.T, file string) (publish, subscribe []string) {
	t.Helper()
	text, err := os.ReadFile(file)
	if err != nil {
		t.Fatal(err)
	}
	commented := regexp.MustCompile(`(?m)^ *#.*$`).ReplaceAllString(string(text), "")
	found := regexp.MustCompile(`publish: \{ allow: \[([^\]]*)\] \}\s*subscribe: \{ allow: \[([^\]]*)\] \}`).FindStringSubmatch(commented)
	if found == nil {
		t.Fatalf("%s has no rights", file)
	}
	var both [2][]string
	for i := range both {
		for _, name := range regexp.MustCompile(`"([^"]*)"`).FindAllStringSubmatch(found[i+1], -1) {
			both[i] = append(both[i], name[1])
		}
		sort.Strings(both[i])
	}
	return both[0], both[1]
}

// What the files for NATS and Redis let a member do is what its store takes, and no more. go/claims tests that this is enough, and that
// all of it is needed. nats.conf has the rights for a group of mode once, too.
func TestRightsOfMembers(t *testing.T) {
	t.Parallel()
	publish, subscribe := subjects(t, "../../claims/nats/permissions.conf")
	if got, read := subjects(t, "../../deploy/kubernetes/nats/nats.conf"); !reflect.DeepEqual(got, publish) || !reflect.DeepEqual(read, subscribe) {
		t.Errorf("kubernetes/nats/nats.conf: %q %q", got, read)
	}
	publish = append(publish, "$KV.svid.>", "svid.svid.summary", "_INBOX.svid.svid.answer.>", "$JS.API.INFO", "$JS.API.STREAM.INFO.KV_svid",
		"$JS.API.STREAM.CREATE.KV_svid", "$JS.API.STREAM.MSG.GET.KV_svid", "$JS.API.CONSUMER.CREATE.KV_svid", "$JS.FC.KV_svid.>")
	subscribe = append(subscribe, "svid.svid.summary")
	sort.Strings(publish)
	sort.Strings(subscribe)
	if got, read := subjects(t, "../../deploy/nats.conf"); !reflect.DeepEqual(got, publish) || !reflect.DeepEqual(read, subscribe) {
		t.Errorf("nats.conf: %q %q", got, read)
	}
	rights := func(file, pattern string) string {
		t.Helper()
		text, err := os.ReadFile(file)
		if err != nil {
			t.Fatal(err)
		}
		found := regexp.MustCompile(pattern).FindStringSubmatch(string(text))
		if found == nil {
			t.Fatalf("%s has no rights", file)
		}
		return strings.NewReplacer("GROUP", "svid", "'", "").Replace(found[1])
	}
	due := rights("../../../docs/STORES.md", `(?m)^ACL SETUSER member on >secret (.*)$`)
	if got := rights("../../deploy/kubernetes/redis/redis.yaml", `"user svidd on >\$PASSWORD ([^"]*)"`); got != due {
		t.Errorf("redis.yaml: %s\nis due: %s", got, due)
	}
}

// The unit is good for systemd, which rates what it leaves open as little, and its options are those of svidd.toml.
func TestSystemdUnit(t *testing.T) {
	folder := t.TempDir()
	bundles := filepath.Join(folder, "bundles")
	if err := os.Mkdir(bundles, 0o700); err != nil {
		t.Fatal(err)
	}
	writeBundle(t, filepath.Join(bundles, "example.org.json"), example)
	self, err := filepath.Abs(os.Args[0])
	if err != nil {
		t.Fatal(err)
	}
	paths := strings.NewReplacer("/usr/local/bin/svidd", self, "/etc/svidd", folder, "/var/lib/svidd", filepath.Join(folder, "state"),
		"/run/svidd", folder)
	for _, name := range []string{"svidd.service", "svidd.toml"} {
		text, err := os.ReadFile(filepath.Join("../../deploy", name))
		if err != nil {
			t.Fatal(err)
		}
		if err := os.WriteFile(filepath.Join(folder, name), []byte(paths.Replace(string(text))), 0o600); err != nil {
			t.Fatal(err)
		}
	}
	unit, options := filepath.Join(folder, "svidd.service"), filepath.Join(folder, "svidd.toml")
	for _, args := range [][]string{{"verify", unit}, {"security", "--no-pager", "--offline=true", "--threshold=15", unit}} {
		if said, err := exec.Command("systemd-analyze", args...).CombinedOutput(); err != nil {
			t.Errorf("systemd-analyze %v: %v (it is in Debian's systemd)\n%s", args, err, said)
		}
	}
	if status, out, err := here("", "serve", "--config", options, "--check-config"); status != 0 {
		t.Errorf("--check-config: %d %q %q", status, out, err)
	}
	// However often a start fails, another one comes: systemd starts a unit at most StartLimitBurst times in StartLimitIntervalSec.
	text, err := os.ReadFile(unit)
	if err != nil {
		t.Fatal(err)
	}
	limits := map[string]int{"StartLimitIntervalSec": 10, "StartLimitBurst": 5, "RestartSec": 0}
	for name := range limits {
		if found := regexp.MustCompile(`(?m)^` + name + `=(\d+)$`).FindSubmatch(text); found != nil {
			limits[name], _ = strconv.Atoi(string(found[1]))
		}
	}
	if within := limits["StartLimitIntervalSec"]; within > 0 && limits["StartLimitBurst"]*limits["RestartSec"] <= within {
		t.Errorf("systemd gives up a sidecar whose starts fail: %v", limits)
	}
	// As systemd starts it: the socket of NOTIFY_SOCKET hears of its states.
	notified, err := net.ListenUnixgram("unixgram", &net.UnixAddr{Name: filepath.Join(folder, "notify"), Net: "unixgram"})
	if err != nil {
		t.Fatal(err)
	}
	defer notified.Close()
	t.Setenv("NOTIFY_SOCKET", filepath.Join(folder, "notify"))
	p := &process{t: t, address: freeAddress(t), log: &lines{}, client: &http.Client{Timeout: patience.Long}}
	p.args = []string{"serve", "--config", options, "--listen", p.address}
	t.Cleanup(p.kill)
	p.start()
	p.want(token(t, "unit", lasting), 200, "")
	p.end()
	for _, want := range []string{"READY=1", "STOPPING=1"} {
		said := make([]byte, 100)
		_ = notified.SetReadDeadline(time.Now().Add(patience.Long))
		if n, err := notified.Read(said); err != nil || string(said[:n]) != want {
			t.Errorf("systemd hears %q, %v, and not %s\n%s", said[:n], err, want, p.log)
		}
	}
}

// extAuthz is the filter of deploy/envoy.yaml.
type extAuthz struct {
	FailureModeAllow bool `json:"failure_mode_allow"`
	StatusOnError    struct{ Code string }
	HTTPService      struct {
		ServerURI             struct{ URI, Cluster, Timeout string }
		PathPrefix            string
		AuthorizationResponse struct {
			AllowedUpstreamHeaders, AllowedClientHeaders struct{ Patterns []struct{ Exact string } }
		}
	}
}

// envoy does what Envoy's documentation says of a listener with the HTTP service of its filter ext_authz. Debian has no
// Envoy: this is not Envoy, but the calls that it makes, with the settings of deploy/envoy.yaml.
//
//   - It asks path_prefix with the request's path and query behind it, by the request's method, without its body, with
//     its Host and Authorization, and no other header that was not allowed.
//   - 200 lets the request through, with allowed_upstream_headers in the place of the request's own.
//   - 5xx and no answer within the timeout are errors: status_on_error, unless failure_mode_allow.
//   - Another status goes to the client, with the body and with allowed_client_headers.
type envoy struct {
	filter          extAuthz
	sidecar         string
	service         http.Handler
	timeout         time.Duration
	removedOfRoutes []string
}

func newEnvoy(t *testing.T, sidecar string, service http.Handler) *envoy {
	t.Helper()
	e := &envoy{sidecar: sidecar, service: service}
	var file struct {
		Static struct {
			Listeners []struct {
				Chains []struct {
					Filters []struct {
						Config struct {
							HTTPFilters []struct {
								Name   string
								Config json.RawMessage `json:"typed_config"`
							} `json:"http_filters"`
							Routes struct {
								Remove []string `json:"request_headers_to_remove"`
							} `json:"route_config"`
						} `json:"typed_config"`
					}
				} `json:"filter_chains"`
			}
		} `json:"static_resources"`
	}
	readYAML(t, "envoy.yaml", &file)
	manager := file.Static.Listeners[0].Chains[0].Filters[0].Config
	e.removedOfRoutes = manager.Routes.Remove
	if name := manager.HTTPFilters[0].Name; name != "envoy.filters.http.ext_authz" {
		t.Fatalf("the first filter is %s", name)
	}
	var raw map[string]any
	if err := json.Unmarshal(manager.HTTPFilters[0].Config, &raw); err != nil {
		t.Fatal(err)
	}
	text, err := json.Marshal(withoutUnderscores(raw))
	if err != nil {
		t.Fatal(err)
	}
	if err := json.Unmarshal(text, &e.filter); err != nil {
		t.Fatal(err)
	}
	if e.timeout, err = time.ParseDuration(e.filter.HTTPService.ServerURI.Timeout); err != nil || e.filter.HTTPService.PathPrefix != "/check" {
		t.Fatalf("%+v, %v", e.filter, err)
	}
	return e
}

// withoutUnderscores lets encoding/json find the members of snake_case by the names of Go.
func withoutUnderscores(value any) any {
	switch v := value.(type) {
	case map[string]any:
		all := make(map[string]any, len(v))
		for name, member := range v {
			if name != "failure_mode_allow" {
				name = strings.ReplaceAll(name, "_", "")
			}
			all[name] = withoutUnderscores(member)
		}
		return all
	case []any:
		for i := range v {
			v[i] = withoutUnderscores(v[i])
		}
	}
	return value
}

func (e *envoy) ServeHTTP(w http.ResponseWriter, r *http.Request) {
	ctx, cancel := context.WithTimeout(r.Context(), e.timeout)
	defer cancel()
	ask, err := http.NewRequestWithContext(ctx, r.Method, "http://"+e.sidecar+e.filter.HTTPService.PathPrefix+r.RequestURI, nil)
	if err != nil {
		http.Error(w, err.Error(), http.StatusBadRequest)
		return
	}
	ask.Host = r.Host
	ask.Header["Authorization"] = r.Header["Authorization"]
	answer, err := http.DefaultTransport.RoundTrip(ask)
	if err == nil {
		defer answer.Body.Close()
	}
	response := e.filter.HTTPService.AuthorizationResponse
	switch {
	case err != nil || answer.StatusCode >= 500:
		if !e.filter.FailureModeAllow {
			if e.filter.StatusOnError.Code != "ServiceUnavailable" {
				err = errors.New("status_on_error is another")
			}
			http.Error(w, fmt.Sprint(err), http.StatusServiceUnavailable)
			return
		}
	case answer.StatusCode == http.StatusOK:
		for _, header := range response.AllowedUpstreamHeaders.Patterns {
			if values := answer.Header.Values(header.Exact); len(values) > 0 {
				r.Header.Set(header.Exact, values[0])
			}
		}
	default:
		for _, header := range response.AllowedClientHeaders.Patterns {
			for _, value := range answer.Header.Values(header.Exact) {
				w.Header().Add(header.Exact, value)
			}
		}
		w.WriteHeader(answer.StatusCode)
		_, _ = io.Copy(w, answer.Body)
		return
	}
	for _, header := range e.removedOfRoutes {
		r.Header.Del(header)
	}
	e.service.ServeHTTP(w, r)
}

// The calls of Envoy's filter ext_authz, by the settings of deploy/envoy.yaml.
func TestEnvoyListener(t *testing.T) {
	t.Parallel()
	p := start(t, bundleOption(bundleFile(t, example)), "--state", filepath.Join(t.TempDir(), "state"))
	service := http.HandlerFunc(func(w http.ResponseWriter, r *http.Request) {
		body, _ := io.ReadAll(r.Body)
		fmt.Fprintf(w, "%s of %v for %v until %v with %q token %v", r.RequestURI, r.Header["X-Spiffe-Id"], r.Header["X-Svid-Audience"],
			r.Header["X-Svid-Expires"], body, r.Header["Authorization"])
	})
	e := newEnvoy(t, p.address, service)
	front := httptest.NewServer(e)
	t.Cleanup(front.Close)
	send := func(method, path, token string) (*http.Response, string) {
		t.Helper()
		r, err := http.NewRequest(method, front.URL+path, strings.NewReader("a body"))
		if err != nil {
			t.Fatal(err)
		}
		// which a client may not say of itself
		r.Header["X-Spiffe-Id"] = []string{"spiffe://example.org/admin", "spiffe://example.org/root"}
		r.Header["X-Svid-Audience"] = []string{"all", "every"}
		r.Header["X-Svid-Expires"] = []string{"1", "2"}
		if token != "" {
			r.Header.Set("Authorization", "Bearer "+token)
		}
		answer, err := p.client.Do(r)
		if err != nil {
			t.Fatal(err)
		}
		defer answer.Body.Close()
		body, err := io.ReadAll(answer.Body)
		if err != nil {
			t.Fatal(err)
		}
		return answer, string(body)
	}
	for i, method := range []string{"GET", "POST", "DELETE", "PATCH", "OPTIONS"} {
		path := []string{"/", "/a/b?c=d&e=%2f", "//a/../../b", "/check", "/metrics"}[i]
		exp := time.Now().Add(lasting).Unix()
		one := example.Token("ES256", map[string]any{"sub": "spiffe://example.org/web", "aud": "ledger", "exp": exp, "jti": "envoy" + method})
		want := fmt.Sprintf(`%s of [spiffe://example.org/web] for [ledger] until [%d] with "a body" token []`, path, exp)
		if answer, body := send(method, path, one); answer.StatusCode != 200 || body != want {
			t.Errorf("%s %s: %d %q, and %q is due", method, path, answer.StatusCode, body, want)
		}
		answer, body := send(method, path, one)
		if answer.StatusCode != 401 || !strings.Contains(answer.Header.Get("WWW-Authenticate"), "Replayed") || !strings.Contains(body, "Replayed") ||
			answer.Header.Get("X-Spiffe-Id") != "" {
			t.Errorf("%s %s again: %d %v %q", method, path, answer.StatusCode, answer.Header, body)
		}
	}
	if answer, _ := send("GET", "/", ""); answer.StatusCode != 401 || answer.Header.Get("WWW-Authenticate") != `Bearer realm="svid"` {
		t.Errorf("no token: %d %v", answer.StatusCode, answer.Header)
	}
	p.end()
	if answer, body := send("GET", "/", token(t, "alone", lasting)); answer.StatusCode != 503 || strings.Contains(body, "another") {
		t.Errorf("without its sidecar: %d %q", answer.StatusCode, body)
	}
	// One that takes the connection and does not answer.
	deaf, err := net.Listen("tcp", "127.0.0.1:0")
	if err != nil {
		t.Fatal(err)
	}
	defer deaf.Close()
	e.sidecar, e.timeout = deaf.Addr().String(), 200*time.Millisecond
	if answer, _ := send("GET", "/", token(t, "deaf", lasting)); answer.StatusCode != 503 {
		t.Errorf("a sidecar that does not answer: %d", answer.StatusCode)
	}
	// What the other setting would do, and that the documents say so.
	e.filter.FailureModeAllow = true
	if answer, body := send("GET", "/", ""); answer.StatusCode != 200 || !strings.Contains(body, "of [spiffe://example.org/admin spiffe://example.org/root] for") {
		t.Errorf("failure_mode_allow: %d %q", answer.StatusCode, body)
	}
	for _, name := range []string{"../../deploy/envoy.yaml", "../../deploy/envoy-grpc.yaml", "../../../docs/SIDECAR.md"} {
		text, err := os.ReadFile(name)
		if err != nil {
			t.Fatal(err)
		}
		if !strings.Contains(string(text), "failure_mode_allow: true") {
			t.Errorf("%s does not say what failure_mode_allow: true would do", name)
		}
	}
}
