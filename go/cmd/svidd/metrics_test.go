package main

import (
	"io"
	"net/http"
	"os"
	"path/filepath"
	"strings"
	"syscall"
	"testing"
	"time"
)

// at asks another address of the process.
func (p *process) at(address, path, token string) (status int, header http.Header, body string) {
	p.t.Helper()
	request, err := http.NewRequest(http.MethodGet, "http://"+address+path, nil)
	if err != nil {
		p.t.Fatal(err)
	}
	if token != "" {
		request.Header.Set("Authorization", "Bearer "+token)
	}
	answer, err := p.client.Do(request)
	if err != nil {
		return 0, nil, err.Error()
	}
	defer answer.Body.Close()
	text, err := io.ReadAll(answer.Body)
	if err != nil {
		return 0, nil, err.Error()
	}
	return answer.StatusCode, answer.Header, string(text)
}

// Who reaches the address of --metrics can't ask about a token, and who reaches that of --listen reads no metrics.
func TestMetricsHaveAnAddressOfTheirOwn(t *testing.T) {
	t.Parallel()
	metrics := freeAddress(t)
	p := start(t, bundleOption(bundleFile(t, example)), "--state", filepath.Join(t.TempDir(), "state"), "--metrics", metrics)
	one := token(t, "one", lasting)
	for _, row := range []struct {
		address, path string
		status        int
		want          string
	}{
		{p.address, "/metrics", 404, ""},
		{p.address, "/healthz", 200, "ok\n"},
		{p.address, "/readyz", 200, "ready\n"},
		{metrics, "/metrics", 200, "\nsvidd_ready 1\n"},
		{metrics, "/healthz", 200, "ok\n"},
		{metrics, "/readyz", 200, "ready\n"},
		{metrics, "/check", 404, ""},
		{metrics, "/check/", 404, ""},
		{metrics, "/check/metrics", 404, ""},
		{metrics, "//check", 404, ""},
		{metrics, "/metrics/../check", 404, ""},
		{metrics, "/", 404, ""},
	} {
		status, header, body := p.at(row.address, row.path, one)
		if status != row.status || !strings.Contains(body, row.want) || header.Get("X-Spiffe-Id") != "" {
			t.Errorf("%s%s: %d %v %.200q", row.address, row.path, status, header, body)
		}
	}
	// None of these calls was a use of the token.
	p.want(one, 200, "")
	if _, _, body := p.at(metrics, "/metrics", ""); !strings.Contains(body, "svidd_checks_total{result=\"accepted\"} 1\n") {
		t.Errorf("/metrics: %s", body)
	}
	if serving := p.awaitEvents("serving", 1); len(serving) != 1 || serving[0]["metrics"] != metrics {
		t.Errorf("the log: %v", serving)
	}
	p.end()
}

// The socket of --metrics is as that of --listen, and an address that is taken ends the start.
func TestTheAddressOfMetrics(t *testing.T) {
	t.Parallel()
	socket := filepath.Join(t.TempDir(), "metrics.sock")
	args := []string{bundleOption(bundleFile(t, example)), "--replay", "reuse", "--metrics", "unix:" + socket}
	p := start(t, args...)
	if text, err := adminOf(socket).ask(http.MethodGet, "/readyz", nil); err != nil || string(text) != "ready\n" {
		t.Errorf("%q, %v", text, err)
	}
	if info, err := os.Stat(socket); err != nil || info.Mode().Perm() != 0o666 {
		t.Errorf("%v, %v", info, err)
	}
	taken := prepare(t, nil, append(args[:len(args)-1], p.address)...)
	taken.launch()
	taken.exitsWith(2)
	if !strings.Contains(taken.log.String(), "address already in use") {
		t.Errorf("an address that is taken: %s", taken.log)
	}
	p.end()
}

// With --drain the sidecar goes on answering after SIGTERM, and says on each address that it drains.
func TestRequestsAreAnsweredWhileItDrains(t *testing.T) {
	t.Parallel()
	metrics := freeAddress(t)
	p := start(t, bundleOption(bundleFile(t, example)), "--state", filepath.Join(t.TempDir(), "state"), "--metrics", metrics, "--drain", "1h")
	if err := p.signal(syscall.SIGTERM); err != nil {
		t.Fatal(err)
	}
	for _, address := range []string{p.address, metrics} {
		p.await("draining", func() bool {
			status, _, body := p.at(address, "/readyz", "")
			return status == 503 && body == "draining\n"
		})
	}
	p.want(token(t, "draining", lasting), 200, "")
	if err := p.signal(syscall.SIGHUP); err != nil {
		t.Fatal(err)
	}
	p.await("SIGHUP", func() bool { return len(p.events("signal")) == 2 })
	if status, body := p.get("/readyz"); status != 503 || body != "draining\n" {
		t.Errorf("after SIGHUP: %d %s", status, body)
	}
	p.want(token(t, "after SIGHUP", lasting), 200, "")
	// A second signal to end it does so at once.
	p.end()
}

// It ends by itself once that time is over.
func TestDrainEnds(t *testing.T) {
	t.Parallel()
	p := start(t, bundleOption(bundleFile(t, example)), "--replay", "reuse", "--drain", "300ms")
	from := time.Now()
	p.end()
	if took := time.Since(from); took < 300*time.Millisecond {
		t.Errorf("it ended after %v", took)
	}
	if len(p.events("end")) != 1 {
		t.Errorf("the log: %s", p.log)
	}
}
