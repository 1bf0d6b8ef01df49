package main

import (
	"bytes"
	"encoding/json"
	"fmt"
	"net/http"
	"os"
	"os/exec"
	"path/filepath"
	"strings"
	"testing"
	"time"
)

// python is Debian's, which has the libraries that outside.py wants.
const python = "/usr/bin/python3"

// Tokens that other people's libraries made, and a bundle as SPIRE prints one.
func TestTokensOfOtherLibraries(t *testing.T) {
	t.Parallel()
	makers := exec.Command(python, "outside.py", "ledger", fmt.Sprint(time.Now().Add(10*time.Minute).Unix()))
	var said bytes.Buffer
	makers.Stderr = &said
	text, err := makers.Output()
	if err != nil {
		t.Fatalf("outside.py: %v: it wants python3-jwt, python3-authlib, python3-jose, python3-cryptography and jose of Debian\n%s", err, &said)
	}
	var made struct {
		Bundle    json.RawMessage
		Good, Bad []struct{ By, Due, Token string }
	}
	if err := json.Unmarshal(text, &made); err != nil {
		t.Fatal(err)
	}
	folder := t.TempDir()
	if err := os.WriteFile(filepath.Join(folder, "example.org.json"), made.Bundle, 0o600); err != nil {
		t.Fatal(err)
	}
	p := start(t, "--bundles", folder, "--state", filepath.Join(t.TempDir(), "state"))
	for _, one := range made.Good {
		status, header, body := p.check(one.Token)
		name := strings.ReplaceAll(one.By, " ", "-")
		if status != 200 || header.Get("X-Spiffe-Id") != "spiffe://example.org/"+name {
			t.Errorf("%s: %d %v %s", one.By, status, header["X-Spiffe-Id"], body)
		}
		p.want(one.Token, 401, "Replayed")
	}
	for _, one := range made.Bad {
		if status, _, body := p.check(one.Token); status != 401 || !strings.Contains(body, `"`+one.Due+`"`) {
			t.Errorf("%s: %d %s, and %s is due", one.By, status, body, one.Due)
		}
	}
	if len(made.Good) != 33 || len(made.Bad) != 10 {
		t.Errorf("%d good tokens and %d bad ones", len(made.Good), len(made.Bad))
	}
	t.Logf("accepted %d tokens and refused %d", len(made.Good), len(made.Bad))
}

// The site of deploy/nginx-site.conf, with nginx before a service that says who calls.
func TestNginxSite(t *testing.T) {
	t.Parallel()
	p := start(t, bundleOption(bundleFile(t, example)), "--state", filepath.Join(t.TempDir(), "state"))
	site, front, service := startNginx(t, p.address)
	p.await("nginx", func() bool {
		answer, err := http.Get("http://" + service)
		if err == nil {
			answer.Body.Close()
		}
		return err == nil
	})
	get := func(authorization string) (*http.Response, string) {
		request, err := http.NewRequest(http.MethodPost, "http://"+front+"/a/b?c=d", strings.NewReader("a body"))
		if err != nil {
			t.Fatal(err)
		}
		// which a client may not say of itself
		request.Header["X-Spiffe-Id"] = []string{"spiffe://example.org/admin", "spiffe://example.org/root"}
		request.Header["X-Svid-Audience"] = []string{"all", "every"}
		request.Header["X-Svid-Expires"] = []string{"1", "2"}
		if authorization != "" {
			request.Header.Set("Authorization", authorization)
		}
		answer, err := p.client.Do(request)
		if err != nil {
			t.Fatalf("%s: %v", site, err)
		}
		defer answer.Body.Close()
		var body bytes.Buffer
		if _, err := body.ReadFrom(answer.Body); err != nil {
			t.Fatal(err)
		}
		return answer, body.String()
	}
	exp := time.Now().Add(lasting).Unix()
	once := example.Token("ES256", map[string]any{"sub": "spiffe://example.org/web", "aud": "ledger", "exp": exp, "jti": "nginx"})
	want := fmt.Sprintf("caller spiffe://example.org/web for ledger until %d token \n", exp)
	if answer, body := get("Bearer " + once); answer.StatusCode != 200 || body != want {
		t.Errorf("accepted: %d %q, and %q is due", answer.StatusCode, body, want)
	}
	if answer, _ := get("Bearer " + once); answer.StatusCode != 401 || !strings.Contains(answer.Header.Get("WWW-Authenticate"), "Replayed") {
		t.Errorf("replayed: %d %v", answer.StatusCode, answer.Header)
	}
	if answer, _ := get(""); answer.StatusCode != 401 || answer.Header.Get("WWW-Authenticate") != `Bearer realm="svid"` {
		t.Errorf("no token: %d %v", answer.StatusCode, answer.Header)
	}
	long := example.Token("ES256", map[string]any{"sub": "spiffe://example.org/web", "aud": "ledger", "exp": time.Now().Add(lasting).Unix(), "pad": strings.Repeat("a", 45000)})
	if answer, _ := get("Bearer " + long); answer.StatusCode != 200 {
		t.Errorf("a token of %d bytes: %d", len(long), answer.StatusCode)
	}
	p.end()
	if answer, _ := get("Bearer " + token(t, "alone", lasting)); answer.StatusCode != 503 || answer.Header.Get("Retry-After") == "" {
		t.Errorf("without its sidecar: %d %v", answer.StatusCode, answer.Header)
	}
}

// startNginx starts nginx with the site, and a service behind it.
func startNginx(t *testing.T, sidecar string) (log, front, service string) {
	t.Helper()
	site, err := os.ReadFile("../../deploy/nginx-site.conf")
	if err != nil {
		t.Fatal(err)
	}
	folder := t.TempDir()
	front, service = freeAddress(t), freeAddress(t)
	text := strings.NewReplacer("127.0.0.1:9901", sidecar, "127.0.0.1:8081", service, "127.0.0.1:8080", front).Replace(string(site))
	log = filepath.Join(folder, "error.log")
	text = fmt.Sprintf(`daemon off; master_process off; pid %[1]s/pid; error_log %[1]s/error.log; events { }
http {
  access_log off;
  client_body_temp_path %[1]s/1; proxy_temp_path %[1]s/2; fastcgi_temp_path %[1]s/3; uwsgi_temp_path %[1]s/4; scgi_temp_path %[1]s/5;
  server { listen %[2]s; location / { return 200 "caller $http_x_spiffe_id for $http_x_svid_audience until $http_x_svid_expires token $http_authorization\n"; } }
%[3]s
}
`, folder, service, text)
	config := filepath.Join(folder, "nginx.conf")
	if err := os.WriteFile(config, []byte(text), 0o600); err != nil {
		t.Fatal(err)
	}
	nginx := exec.Command("nginx", "-c", config, "-e", log)
	if err := nginx.Start(); err != nil {
		t.Fatalf("nginx: %v: install Debian's nginx", err)
	}
	t.Cleanup(func() { _ = nginx.Process.Kill(); _ = nginx.Wait() })
	return log, front, service
}
