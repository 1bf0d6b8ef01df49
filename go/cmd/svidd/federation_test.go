package main

import (
	"bufio"
	"crypto/tls"
	"encoding/base64"
	"encoding/json"
	"encoding/pem"
	"fmt"
	"io"
	"log"
	"net/http"
	"net/http/httptest"
	"os"
	"path/filepath"
	"strings"
	"syscall"
	"testing"

	"svid.example/go/v3/internal/logtest"
)

// federated is a server of a bundle with a certificate for 127.0.0.1 and for an ID. It returns its address, its authority as PEM,
// and a trust bundle with that.
func federated(t *testing.T, id string) (address, ca, bundle string) {
	t.Helper()
	dir := t.TempDir()
	ca, cert, key := logtest.Certificate(t, dir, id)
	text, err := os.ReadFile(ca)
	if err != nil {
		t.Fatal(err)
	}
	block, _ := pem.Decode(text)
	var set struct {
		Keys []any `json:"keys"`
	}
	if err := json.Unmarshal(example.JWKSet(), &set); err != nil {
		t.Fatal(err)
	}
	set.Keys = append(set.Keys, map[string]any{"use": "x509-svid", "kty": "EC", "x5c": []string{base64.StdEncoding.EncodeToString(block.Bytes)}})
	served, err := json.Marshal(set)
	if err != nil {
		t.Fatal(err)
	}
	first, err := json.Marshal(map[string]any{"keys": set.Keys[len(set.Keys)-1:]}) // (no key of a token is in it)
	if err != nil {
		t.Fatal(err)
	}
	bundle = filepath.Join(dir, "first.json")
	if err := os.WriteFile(bundle, first, 0o600); err != nil {
		t.Fatal(err)
	}
	pair, err := tls.LoadX509KeyPair(cert, key)
	if err != nil {
		t.Fatal(err)
	}
	s := httptest.NewUnstartedServer(http.HandlerFunc(func(w http.ResponseWriter, r *http.Request) { _, _ = w.Write(served) }))
	s.TLS = &tls.Config{Certificates: []tls.Certificate{pair}}
	s.Config.ErrorLog = log.New(io.Discard, "", 0)
	s.StartTLS()
	t.Cleanup(s.Close)
	return s.URL, ca, bundle
}

// A bundle comes from a server that is known by own authorities, or by its SPIFFE ID, and from no other one. svidd verify asks the
// same servers, and SIGHUP takes over by what they are known.
func TestABundleOfAServerThatIsKnown(t *testing.T) {
	const id = "spiffe://example.org/spire/server"
	address, ca, bundle := federated(t, id)
	_, otherCA, otherBundle := federated(t, id)
	source := "--bundle=example.org=" + address
	for what, row := range map[string]struct {
		args []string
		is   bool
	}{
		"own authorities":             {[]string{"--bundle-ca=example.org=" + ca}, true},
		"other authorities":           {[]string{"--bundle-ca=example.org=" + otherCA}, false},
		"the system's":                {nil, false},
		"its ID":                      {[]string{"--bundle-id=example.org=" + id, "--bundle-ca=example.org=" + bundle}, true},
		"its ID by other authorities": {[]string{"--bundle-id=example.org=" + id, "--bundle-ca=example.org=" + otherBundle}, false},
		"another ID":                  {[]string{"--bundle-id=example.org=" + id + "2", "--bundle-ca=example.org=" + bundle}, false},
	} {
		status, _, said := here(token(t, what, lasting), append([]string{"verify", "--audience=ledger", source}, row.args...)...)
		if (status == 0) != row.is || !row.is && status != exitFailed {
			t.Errorf("%s: %d %s", what, status, said)
		}
	}

	config := filepath.Join(t.TempDir(), "svidd.toml")
	write := func(id, file string) {
		t.Helper()
		if err := os.WriteFile(config, []byte(fmt.Sprintf("bundle-id = [%q]\nbundle-ca = [%q]\n", "example.org="+id, "example.org="+file)), 0o600); err != nil {
			t.Fatal(err)
		}
	}
	write(id, otherBundle)
	p := prepare(t, nil, "--replay=reuse", source, "--config="+config)
	p.launch()
	p.await("the server to be refused", func() bool { return strings.Contains(p.log.String(), "unknown authority") })
	p.want(token(t, "a", lasting), 503, "NotReady")
	write(id, bundle)
	if err := p.signal(syscall.SIGHUP); err != nil {
		t.Fatal(err)
	}
	p.await("the bundle", func() bool { status, _ := p.get("/readyz"); return status == http.StatusOK })
	p.want(token(t, "b", lasting), 200, "")
	if line := p.awaitEvents("options", 1)[0]; fmt.Sprint(line["changed"]) != "[bundle-ca]" {
		t.Errorf("the log: %v", line)
	}
}

// --check-config reads the files of authorities, and says what is wrong with what is said of servers.
func TestCheckConfigReadsTheAuthorities(t *testing.T) {
	const id = "spiffe://example.org/spire/server"
	address, ca, bundle := federated(t, id)
	empty := filepath.Join(t.TempDir(), "empty")
	if err := os.WriteFile(empty, []byte(`{"keys":[]}`), 0o600); err != nil {
		t.Fatal(err)
	}
	for _, row := range []struct {
		args []string
		want string // "" where nothing is wrong
	}{
		{[]string{"--bundle-ca=example.org=" + ca}, ""}, {[]string{"--bundle-id=example.org=" + id, "--bundle-ca=example.org=" + bundle}, ""},
		{[]string{"--bundle-id=example.org=spiffe://host.example/server"}, ""},
		{[]string{"--bundle-ca=example.org=" + bundle}, "it has no certificate as PEM"},
		{[]string{"--bundle-id=example.org=" + id, "--bundle-ca=example.org=" + ca}, "it is no JSON object"},
		{[]string{"--bundle-id=example.org=" + id, "--bundle-ca=example.org=" + empty}, "no entry of it has the use"},
		{[]string{"--bundle-ca=example.org=/nowhere"}, "no such file"},
		{[]string{"--bundle-id=example.org=" + id}, "a first one must be there as a file"},
		{[]string{"--bundle-id=example.org=" + id + "/*", "--bundle-ca=example.org=" + bundle}, "is no SPIFFE ID of a server"},
		{[]string{"--bundle-id=example.org=spiffe://example.org//", "--bundle-ca=example.org=" + bundle}, "is no SPIFFE ID of a server"},
		{[]string{"--bundle-id=example.com=" + id}, "no bundle of example.com comes from an address"},
	} {
		args := append([]string{"serve", "--check-config", "--audience=a", "--longest=1h", "--replay=reuse", "--bundle=example.org=" + address}, row.args...)
		status, out, said := here("", args...)
		if isGood := status == 0 && out == "svidd: the options are good\n"; isGood != (row.want == "") || !strings.Contains(said, row.want) {
			t.Errorf("%q: %d %q %q", row.args, status, out, said)
		}
	}
}

// One answer of an endpoint, however long, costs one short line of the log, and the log goes on.
func TestALongAnswerOfAnEndpoint(t *testing.T) {
	t.Parallel()
	dir := t.TempDir()
	ca, cert, key := logtest.Certificate(t, dir, "")
	pair, err := tls.LoadX509KeyPair(cert, key)
	if err != nil {
		t.Fatal(err)
	}
	l, err := tls.Listen("tcp", "127.0.0.1:0", &tls.Config{Certificates: []tls.Certificate{pair}})
	if err != nil {
		t.Fatal(err)
	}
	defer l.Close()
	long, endless := strings.Repeat("x", 60_000), strings.Repeat("x", 3<<20)
	answers := []string{"HTTP/1.1 404 " + long, "HTTP/1.1 302 Found\r\nLocation: http://elsewhere/" + long, "HTTP/1.1 404 " + endless}
	go func() {
		for n := 0; ; n++ {
			conn, err := l.Accept()
			if err != nil {
				return
			}
			if _, err := http.ReadRequest(bufio.NewReader(conn)); err == nil {
				_, _ = io.WriteString(conn, answers[n%len(answers)]+"\r\nContent-Length: 0\r\nConnection: close\r\n\r\n")
			}
			conn.Close()
		}
	}()
	p := start(t, bundleOption(bundleFile(t, example)), "--replay=reuse", "--bundle=other.example=https://"+l.Addr().String(), "--bundle-ca=other.example="+ca)
	for _, want := range []string{"it answers 404 xxx", "it leads to http://elsewhere/xxx", "server response headers exceeded"} {
		p.await(want, func() bool { return strings.Contains(p.log.String(), want) })
		if err := p.signal(syscall.SIGHUP); err != nil { // (so it is asked again)
			t.Fatal(err)
		}
	}
	p.want(token(t, "long answer", lasting), 200, "")
	p.await("the line of a token", func() bool { return len(p.events("accepted")) == 1 })
	for _, line := range strings.Split(p.log.String(), "\n") {
		if len(line) > 8192 {
			t.Errorf("a line of %d bytes: %.200s", len(line), line)
		}
	}
	if _, metrics := p.get("/metrics"); !strings.Contains(metrics, "\nsvidd_log_lines_dropped_total 0\n") {
		t.Error("lines were dropped")
	}
}
