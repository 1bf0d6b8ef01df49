package main

import (
	"encoding/json"
	"net/http"
	"os"
	"path/filepath"
	"strings"
	"syscall"
	"testing"
	"time"

	"svid.example/go/v3/internal/agenttest"
	"svid.example/go/v3/internal/issuer"
	"svid.example/go/v3/internal/patience"
)

// agentBundles are an issuer's keys as the Workload API of SPIRE gives them: it names no use.
func agentBundles(t *testing.T, i *issuer.Issuer) map[string]string {
	t.Helper()
	var set struct {
		Keys []map[string]any `json:"keys"`
	}
	if err := json.Unmarshal(i.JWKSet(), &set); err != nil {
		t.Fatal(err)
	}
	for _, key := range set.Keys {
		delete(key, "use")
	}
	text, err := json.Marshal(set)
	if err != nil {
		t.Fatal(err)
	}
	return map[string]string{"spiffe://example.org": string(text)}
}

// A workload beside an agent needs no bundle: the environment says where to ask, and a change of keys comes by itself.
func TestBundlesOfAWorkloadAPI(t *testing.T) {
	agent := agenttest.Start(t)
	agent.Refuse(t, "PERMISSION_DENIED", "no identity issued")
	t.Setenv("SPIFFE_ENDPOINT_SOCKET", agent.Address)
	p := &process{t: t, address: freeAddress(t), log: &lines{}, client: &http.Client{Timeout: patience.Long}}
	p.args = []string{"serve", "--audience", "ledger", "--longest", "3600", "--listen", p.address, "--state", filepath.Join(t.TempDir(), "state")}
	t.Cleanup(p.kill)
	p.launch()
	p.await("a word of the refusal", func() bool { return strings.Contains(p.log.String(), "register it as a workload") })
	p.await("/readyz to say it", func() bool {
		status, why := p.get("/readyz")
		return status == http.StatusServiceUnavailable && strings.Contains(why, "no trust bundle")
	})

	agent.Give(t, agentBundles(t, example))
	p.await("ready", func() bool { status, _ := p.get("/readyz"); return status == http.StatusOK })
	one := token(t, "a", time.Hour)
	p.want(one, 200, "")
	p.want(one, 401, "Replayed")

	// Other keys: the tokens of the old ones are none any more.
	other, err := issuer.New("example.org")
	if err != nil {
		t.Fatal(err)
	}
	agent.Give(t, agentBundles(t, other))
	p.await("the other keys", func() bool { return len(p.events("bundles")) == 2 })
	claims := map[string]any{"sub": "spiffe://example.org/web", "aud": "ledger", "exp": time.Now().Add(time.Hour).Unix(), "jti": "b"}
	if status, _, body := p.check(token(t, "c", time.Hour)); status != 401 {
		t.Errorf("a token of a key that is gone: %d %s", status, body)
	}
	p.want(other.Token("ES256", claims), 200, "")

	// Without the agent the keys stay.
	agent.Kill(t)
	p.await("the agent's end", func() bool { return strings.Count(p.log.String(), `"bundle not read; the last good one stays"`) > 1 })
	claims["jti"] = "d"
	p.want(other.Token("ES256", claims), 200, "")
	agent.Again(t)
	agent.Give(t, agentBundles(t, example))
	p.await("the first keys again", func() bool { return len(p.events("bundles")) == 3 })
	p.want(token(t, "e", time.Hour), 200, "")
	p.want(one, 401, "Replayed")
	p.end()
}

func TestVerifyAsksTheWorkloadAPI(t *testing.T) {
	t.Parallel()
	agent := agenttest.StartTCP(t)
	agent.Give(t, agentBundles(t, example))
	for _, more := range [][]string{{}, {bundleOption(bundleFile(t, example))}, {"--bundle=example.com=" + bundleFile(t, example)}} {
		args := append([]string{"verify", "--audience", "ledger", "--workload-api", agent.Address}, more...)
		if status, out, err := here(token(t, "a", time.Hour), args...); status != 0 || !strings.Contains(out, `"jti":"a"`) {
			t.Errorf("%q: %d %s %s", more, status, out, err)
		}
	}
	agent.Kill(t)
	if status, _, err := here(token(t, "a", time.Hour), "verify", "--audience", "ledger", "--workload-api", agent.Address); status != 2 || !strings.Contains(err, "refused") {
		t.Errorf("%d %s", status, err)
	}
	if status, _, err := here("", "verify", "--audience", "ledger", "--workload-api", "agent.sock"); status != 2 || !strings.Contains(err, "unix:///run/spire/agent.sock") {
		t.Errorf("%d %s", status, err)
	}
}

// A bundle that is named and not there yet: its tokens can't be judged, and all others can.
func TestABundleThatIsNotThereYet(t *testing.T) {
	t.Parallel()
	other, err := issuer.New("example.com")
	if err != nil {
		t.Fatal(err)
	}
	name := filepath.Join(t.TempDir(), "example.com.json")
	p := start(t, bundleOption(bundleFile(t, example)), "--bundle", "example.com="+name, "--state", filepath.Join(t.TempDir(), "state"))
	p.want(token(t, "a", time.Hour), 200, "")
	claims := map[string]any{"sub": "spiffe://example.com/web", "aud": "ledger", "exp": time.Now().Add(time.Hour).Unix(), "jti": "b"}
	one := other.Token("ES256", claims)
	p.want(one, 503, "NoBundle")
	if age := p.metric(`svidd_bundle_age_seconds{trust_domain="example.com"}`); age != "+Inf" {
		t.Errorf("its age is %s", age)
	}
	writeBundle(t, name, other)
	if err := p.signal(syscall.SIGHUP); err != nil {
		t.Fatal(err)
	}
	p.await("the bundle", func() bool { return len(p.events("bundles")) == 2 })
	p.want(one, 200, "")
}

// A bundle that the validator itself refuses stands in nobody's way: the log names it once, its tokens can't be judged, and other
// bundles are renewed beside it.
func TestABundleThatTheValidatorRefuses(t *testing.T) {
	t.Parallel()
	name, good := filepath.Join(t.TempDir(), "example.com.json"), bundleFile(t, example)
	deep := `{"keys":[` + strings.Repeat("[", 500) + strings.Repeat("]", 500) + `]}`
	if err := os.WriteFile(name, []byte(deep), 0o600); err != nil {
		t.Fatal(err)
	}
	p := start(t, bundleOption(good), "--bundle", "example.com="+name, "--replay", "reuse")
	p.want(token(t, "a", time.Hour), 200, "")
	other, err := issuer.New("example.com")
	if err != nil {
		t.Fatal(err)
	}
	claims := map[string]any{"sub": "spiffe://example.com/web", "aud": "ledger", "exp": time.Now().Add(time.Hour).Unix(), "jti": "b"}
	p.want(other.Token("ES256", claims), 503, "NoBundle")
	next, err := issuer.New("example.org")
	if err != nil {
		t.Fatal(err)
	}
	for i, one := range []*issuer.Issuer{next, example, next} {
		writeBundle(t, good, one)
		if err := p.signal(syscall.SIGHUP); err != nil {
			t.Fatal(err)
		}
		p.await("the renewal", func() bool { return len(p.events("bundles")) == i+2 })
	}
	p.want(token(t, "c", time.Hour), 401, "BadSignature")
	said := p.events("bundle not read")
	if len(said) != 1 || said[0]["source"] != name || said[0]["error"] == nil {
		t.Errorf("the log has %v", said)
	}
	writeBundle(t, name, other)
	if err := p.signal(syscall.SIGHUP); err != nil {
		t.Fatal(err)
	}
	p.await("the good one", func() bool { return len(p.events("bundles")) == 5 })
	p.want(other.Token("ES256", claims), 200, "")
	if n := len(p.awaitEvents("bundle source is well again", 1)); n != 1 {
		t.Errorf("it is well again %d times", n)
	}
	p.end()
}

func TestVerifyDoesNotWaitForAnEmptyFolder(t *testing.T) {
	t.Parallel()
	folder := t.TempDir()
	status, _, err := svidd(t, token(t, "a", time.Hour), "verify", "--audience", "ledger", "--bundles", folder)
	if status != 2 || err != "svidd: "+folder+" has no file DOMAIN.json\n" {
		t.Errorf("%d %q", status, err)
	}
}
