package main

import (
	"encoding/pem"
	"net/http"
	"net/http/httptest"
	"os"
	"path/filepath"
	"strings"
	"sync/atomic"
	"syscall"
	"testing"
)

// What stands on the command line counts before the environment, and that before a file.
func TestTheCommandLineCountsFirst(t *testing.T) {
	config := filepath.Join(t.TempDir(), "svidd.toml")
	if err := os.WriteFile(config, []byte("replay = \"twice\"\nlog = \"loud\"\ngroup = \"a b\"\n"), 0o600); err != nil {
		t.Fatal(err)
	}
	t.Setenv("SVIDD_REPLAY", "never")
	t.Setenv("SVIDD_LOG", "errors")
	args := []string{"serve", "--check-config", "--audience", "a", "--longest", "60", bundleOption(bundleFile(t, example)), "--replay", "reuse", "--config", config}
	status, out, err := here("", args...)
	if status != 2 || out != "" || !strings.Contains(err, "--group") || strings.Count(err, "\n") != 1 {
		t.Errorf("%d %q %q", status, out, err)
	}
	if status, out, err := here("", append(args, "--group", "g")...); status != 0 || err != "" {
		t.Errorf("%d %q %q", status, out, err)
	}
}

// A sidecar with a state folder has the folder's validator ID, over restarts.
func TestTheStateFolderHasTheValidatorID(t *testing.T) {
	t.Parallel()
	state, admin := filepath.Join(t.TempDir(), "state"), filepath.Join(t.TempDir(), "admin.sock")
	p := start(t, bundleOption(bundleFile(t, example)), "--state", state, "--admin", admin)
	text, err := os.ReadFile(filepath.Join(state, "place"))
	if err != nil {
		t.Fatal(err)
	}
	id := strings.TrimSpace(string(text))
	p.want(token(t, "a", lasting), 200, "")
	p.end()
	p.start()
	p.want(token(t, "b", lasting), 200, "")
	for i, line := range p.events("serving") {
		if line["validator_id"] != id {
			t.Errorf("start %d: the validator ID is %v, and the folder has %s", i, line["validator_id"], id)
		}
	}
	if status, out, err := here("", "report", "--admin", admin); status != 0 || strings.Count(out, " "+id+" ") != 2 {
		t.Errorf("%d %q %q", status, out, err)
	}
	p.end()
}

// SIGHUP, and reload on the admin socket, have an endpoint asked at once, and not only when its bundle's hint says so.
func TestAnEndpointIsAskedWhereSomeoneWants(t *testing.T) {
	var asked atomic.Int32
	endpoint := httptest.NewTLSServer(http.HandlerFunc(func(w http.ResponseWriter, r *http.Request) {
		asked.Add(1)
		_, _ = w.Write(example.JWKSet())
	}))
	defer endpoint.Close()
	authorities := filepath.Join(t.TempDir(), "authorities.pem")
	text := pem.EncodeToMemory(&pem.Block{Type: "CERTIFICATE", Bytes: endpoint.Certificate().Raw})
	if err := os.WriteFile(authorities, text, 0o600); err != nil {
		t.Fatal(err)
	}
	t.Setenv("SSL_CERT_FILE", authorities)
	admin := filepath.Join(t.TempDir(), "admin.sock")
	p := start(t, bundleOption(endpoint.URL), "--replay", "reuse", "--admin", admin)
	if n := asked.Load(); n != 1 {
		t.Errorf("at the start it is asked %d times", n)
	}
	if err := p.signal(syscall.SIGHUP); err != nil {
		t.Fatal(err)
	}
	p.await("a question after SIGHUP", func() bool { return asked.Load() == 2 })
	c := p.dial("unix", admin, "POST /reload HTTP/1.1\r\nHost: a\r\n\r\n")
	defer c.Close()
	p.await("a question after reload", func() bool { return asked.Load() == 3 })
	p.end()
}
