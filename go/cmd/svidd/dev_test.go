package main

import (
	"bufio"
	"encoding/json"
	"fmt"
	"io"
	"net/http"
	"os"
	"os/exec"
	"path/filepath"
	"regexp"
	"strings"
	"testing"

	"svid.example/go/v3/internal/agenttest"
	"svid.example/go/v3/internal/dev"
	"svid.example/go/v3/internal/issuer"
	"svid.example/go/v3/internal/patience"
)

// A devProcess is a running svidd dev.
type devProcess struct {
	*process
	page, endpoint string
	room           string // the folder of its socket
}

// startDev starts svidd dev on free ports, and waits until it is ready.
func startDev(t *testing.T, args ...string) *devProcess {
	t.Helper()
	p := &devProcess{process: &process{t: t, address: freeAddress(t), log: &lines{}, client: &http.Client{Timeout: patience.Long}}, page: freeAddress(t), endpoint: freeAddress(t)}
	p.args = append([]string{"dev", "--listen", p.address, "--page", p.page, "--endpoint", p.endpoint}, args...)
	t.Cleanup(p.kill)
	p.again()
	return p
}

// again starts it, also after its end.
func (p *devProcess) again() {
	p.t.Helper()
	p.log = &lines{}
	p.launch()
	p.await("svidd dev to be ready", func() bool { return strings.Contains(p.log.String(), "ready. Now: svidd mint --try\n") })
	p.room = filepath.Dir(regexp.MustCompile(`unix://(\S+)`).FindStringSubmatch(p.log.String())[1])
}

// mint is a token.
func (p *devProcess) mint(words ...string) string {
	p.t.Helper()
	status, out, why := svidd(p.t, "", append([]string{"mint", "--dev", p.page}, words...)...)
	if status != 0 {
		p.t.Fatalf("svidd mint %q: %d %s", words, status, why)
	}
	return strings.TrimSuffix(out, "\n")
}

// A token of one's own is accepted from its first caller, again and again, and refused from another address. One with a fault is refused as such.
func TestDevMintsTokensAndTriesThem(t *testing.T) {
	p := startDev(t)
	for fault, due := range map[string][3]string{
		"":               {"200 accepted", "200 accepted", "401 refused Replayed"},
		"expired":        {"401 refused Expired", "401 refused Expired", "401 refused Expired"},
		"not-yet":        {"401 refused NotYet", "401 refused NotYet", "401 refused NotYet"},
		"other-audience": {"401 refused NotAudience", "401 refused NotAudience", "401 refused NotAudience"},
		"bad-signature":  {"401 refused BadSignature", "401 refused BadSignature", "401 refused BadSignature"},
		"unknown-key":    {"401 refused NoKey", "401 refused NoKey", "401 refused NoKey"},
	} {
		_, rest, _ := strings.Cut(p.mint("--try", "--fault", fault), "\n")
		want := fmt.Sprintf("sent from 127.0.0.1: %s\nsent from 127.0.0.1: %s\nsent from 127.0.0.2: %s", due[0], due[1], due[2])
		if rest != want {
			t.Errorf("fault %q: got\n%s\nwant\n%s", fault, rest, want)
		}
	}
	p.end()
	for _, line := range strings.SplitAfter(p.log.String(), "\n") {
		if line != "" && !strings.HasPrefix(line, "svidd dev ("+dev.Mark+"): ") {
			t.Errorf("a line does not say what it is for: %q", line)
		}
	}
	if n := strings.Count(p.log.String(), "ready. Now:"); n != 1 {
		t.Errorf("it says %d times that it is ready", n)
	}
	if _, err := os.Stat(p.room); !os.IsNotExist(err) {
		t.Errorf("its folder is left: %v", err)
	}
}

// Without --caller the connection names the caller, whatever headers a client sends. With it, a proxy's header does.
func TestDevNamesTheCallerByTheConnection(t *testing.T) {
	for _, c := range []struct {
		words  []string
		from   [2]string // what the header says, first and then
		status int       // of the second request
	}{
		{nil, [2]string{"192.0.2.1", "192.0.2.2"}, 200},
		{[]string{"--caller", "address:X-Real-Ip"}, [2]string{"192.0.2.1", "192.0.2.2"}, 401},
		{[]string{"--caller", "address:X-Real-Ip"}, [2]string{"192.0.2.1", "192.0.2.1"}, 200},
	} {
		p := startDev(t, c.words...)
		token := p.mint()
		var status int
		for _, from := range c.from {
			request, err := http.NewRequest(http.MethodGet, "http://"+p.address+"/check", nil)
			if err != nil {
				t.Fatal(err)
			}
			request.Header.Set("Authorization", "Bearer "+token)
			request.Header.Set("X-Real-Ip", from)
			answer, err := p.client.Do(request)
			if err != nil {
				t.Fatal(err)
			}
			answer.Body.Close()
			status = answer.StatusCode
		}
		if status != c.status {
			t.Errorf("%q %q: %d, and %d is due", c.words, c.from, status, c.status)
		}
		p.end() // (which writes the last lines)
		if c.words == nil && !strings.Contains(p.log.String(), "caller=127.0.0.1 ") {
			t.Errorf("the log does not name the connection:\n%s", p.log)
		}
	}
}

// In reuse a second caller is accepted, and said.
func TestDevSaysASecondCaller(t *testing.T) {
	p := startDev(t, "--replay", "reuse")
	if out := p.mint("--try"); strings.Count(out, "200 accepted") != 3 {
		t.Error(out)
	}
	p.await("the line of a second caller", func() bool {
		return strings.Contains(p.log.String(), "): second caller ") && strings.Contains(p.log.String(), "first=127.0.0.1 second=127.0.0.2")
	})
}

// What a token says can be asked for.
func TestMintSaysWhatItIsAsked(t *testing.T) {
	p := startDev(t, "--audience", "books", "--life", "90s", "--replay", "once")
	for _, c := range []struct {
		words []string
		due   map[string]any
	}{
		{nil, map[string]any{"sub": "spiffe://example.org/billing/api", "aud": []any{"books"}, "life": 90.0}},
		{[]string{"--subject", "spiffe://example.org/a", "--audience", "x", "--audience", "books", "--life", "30", "--jti", "one"},
			map[string]any{"sub": "spiffe://example.org/a", "aud": []any{"x", "books"}, "life": 30.0, "jti": "one"}},
		{[]string{"--jti", "none"}, map[string]any{"sub": "spiffe://example.org/billing/api", "aud": []any{"books"}, "life": 90.0, "jti": nil}},
	} {
		token := p.mint(c.words...)
		status, out, why := svidd(t, token, "verify", "--audience", "books", "--workload-api", "unix://"+p.room+"/agent.sock")
		var said map[string]any
		if status != 0 || json.Unmarshal([]byte(out), &said) != nil {
			t.Fatalf("%q: %d %s", c.words, status, why)
		}
		said["life"] = said["exp"].(float64) - said["iat"].(float64)
		for name, due := range c.due {
			if fmt.Sprint(said[name]) != fmt.Sprint(due) {
				t.Errorf("%q: %s is %v, and %v is due", c.words, name, said[name], due)
			}
		}
		p.want(token, 200, "")
		p.want(token, 401, "Replayed")
	}
	for words, why := range map[string]string{
		"--life 91":                         "at most 90 seconds",
		"--subject spiffe://example.com/a":  "no workload of the trust domain example.org",
		"--subject spiffe://example.org":    "no workload of the trust domain example.org",
		"--subject web":                     "is no SPIFFE ID",
		"--fault broken":                    "name expired, not-yet, other-audience, bad-signature, unknown-key",
		"--dev 127.0.0.1:1":                 "no svidd dev answers at 127.0.0.1:1",
		"--dev 10.0.0.1:9900":               "is not 127.0.0.1:PORT",
		"--dev " + p.address + " --life 20": "what answers at " + p.address,
		"more":                              "takes no argument",
	} {
		status, _, said := svidd(t, "", append([]string{"mint", "--dev", p.page}, strings.Fields(words)...)...)
		if status != exitFailed || !strings.Contains(said, why) {
			t.Errorf("mint %s: %d %q, and %q is due", words, status, said, why)
		}
	}
}

// svidd dev gives good tokens to whoever reaches it, so it takes no other address than that of loopback.
func TestDevAnswersThisMachineAlone(t *testing.T) {
	for _, option := range []string{"listen", "page", "endpoint"} {
		for _, address := range []string{"0.0.0.0:9955", ":9955", "localhost:9955", "127.0.0.2:9955", "[::1]:9955", "[::ffff:127.0.0.1]:9955", "unix:/tmp/a", "127.0.0.1", "127.0.0.1:"} {
			status, _, why := svidd(t, "", "dev", "--"+option, address)
			if status != exitFailed || !strings.Contains(why, "--"+option+": ") || !strings.Contains(why, "answers this machine alone") {
				t.Errorf("--%s %s: %d %q", option, address, status, why)
			}
		}
	}
	t.Setenv("SVIDD_LISTEN", "0.0.0.0:9955")
	if status, _, why := svidd(t, "", "dev"); status != exitFailed || !strings.Contains(why, "answers this machine alone") {
		t.Errorf("SVIDD_LISTEN: %d %q", status, why)
	}
}

func TestDevSaysWhatIsWrongWithItsOptions(t *testing.T) {
	for words, why := range map[string]string{
		"--domain Example":                       "--domain: ",
		"--subject spiffe://example.com/a":       "--subject: ",
		"--life 0":                               "--life must be from 1s to 24h",
		"--rotate 25h":                           "--rotate must be from 1s to 24h",
		"--replay twice":                         "none of once, strict, bound and reuse",
		"--caller peer":                          "answers no Envoy",
		"--caller nobody":                        "names no caller",
		"--replay once --caller header:X-Caller": "for --replay bound and --replay reuse",
		"--page 127.0.0.1:9901":                  "--page has the address of --listen",
		"--keys /nowhere":                        "--keys: ",
		"more":                                   "takes no argument",
	} {
		status, _, said := svidd(t, "", append([]string{"dev"}, strings.Fields(words)...)...)
		if status != exitFailed || !strings.Contains(said, why) {
			t.Errorf("dev %s: %d %q, and %q is due", words, status, said, why)
		}
	}
}

// The keys rotate. A token of the key before is good until it expires, and a sidecar that reads the bundle endpoint follows, by either profile of
// SPIFFE federation.
func TestDevRotatesItsKeys(t *testing.T) {
	p := startDev(t, "--rotate", "1s", "--life", "20m")
	first := p.mint()
	kid := func(token string) string {
		given, _, _ := strings.Cut(token, ".")
		return given
	}
	p.await("another key that signs", func() bool { return kid(p.mint()) != kid(first) })
	second := p.mint()
	p.await("the new key at the sidecar", func() bool { status, _, _ := p.check(second); return status == 200 })
	p.want(first, 200, "")
	address, ca := "example.org=https://"+p.endpoint+"/", filepath.Join(p.room, "ca.pem")
	for name, more := range map[string][]string{
		"https_web":    {"--bundle-ca", "example.org=" + ca},
		"https_spiffe": {"--bundle-ca", "example.org=" + filepath.Join(p.room, "bundle.json"), "--bundle-id", "example.org=spiffe://example.org/svidd/dev"},
	} {
		for _, token := range []string{first, second} {
			if status, _, why := svidd(t, token, append([]string{"verify", "--audience", "ledger", "--bundle", address}, more...)...); status != 0 {
				t.Errorf("%s: %d %s", name, status, why)
			}
		}
	}
}

// The folder of --keys keeps the keys, and lets nobody else in.
func TestDevKeepsItsKeys(t *testing.T) {
	folder := t.TempDir()
	if err := os.Chmod(folder, 0o755); err != nil {
		t.Fatal(err)
	}
	if status, _, why := svidd(t, "", "dev", "--keys", folder); status != exitFailed || !strings.Contains(why, "has mode 0755") {
		t.Errorf("a folder that others may read: %d %s", status, why)
	}
	if err := os.Chmod(folder, 0o700); err != nil {
		t.Fatal(err)
	}
	p := startDev(t, "--keys", folder)
	before := p.mint()
	info, err := os.Stat(filepath.Join(folder, "keys.json"))
	if err != nil || info.Mode().Perm() != 0o600 {
		t.Errorf("the file of keys: %v %v", info.Mode(), err)
	}
	p.end()
	p.again()
	p.want(before, 200, "")
	p.end()
	if status, _, why := svidd(t, "", "dev", "--keys", folder, "--domain", "example.com"); status != exitFailed || !strings.Contains(why, "keys of the trust domain") {
		t.Errorf("a folder of another trust domain: %d %s", status, why)
	}
	if err := os.WriteFile(filepath.Join(folder, "keys.json"), []byte(`{"Domain": "example.org"}`), 0o600); err != nil {
		t.Fatal(err)
	}
	if status, _, why := svidd(t, "", "dev", "--keys", folder); status != exitFailed || !strings.Contains(why, "lacks keys") {
		t.Errorf("a file without keys: %d %s", status, why)
	}
}

// gRPC's own client asks the Workload API. Its tokens are as SPIRE's: without a jti, and the same one again.
func TestDevServesAWorkloadAPI(t *testing.T) {
	p := startDev(t, "--rotate", "1s", "--life", "20m")
	address := "unix:" + filepath.Join(p.room, "agent.sock")
	said := agenttest.Ask(t, address, agenttest.Question{Call: "FetchJWTSVID", Audience: []string{"ledger"}, Header: true})
	if len(said.Tokens) != 1 || said.Tokens[0].ID != "spiffe://example.org/billing/api" {
		t.Fatalf("FetchJWTSVID: %+v", said)
	}
	p.want(said.Tokens[0].Token, 200, "")
	again := agenttest.Ask(t, address, agenttest.Question{Call: "FetchJWTSVID", Audience: []string{"ledger"}, Header: true})
	if len(again.Tokens) != 1 || again.Tokens[0].Token != said.Tokens[0].Token {
		t.Errorf("the same question has another token: %+v", again)
	}
	_, out, _ := svidd(t, said.Tokens[0].Token, "verify", "--audience", "ledger", "--workload-api", "unix://"+p.room+"/agent.sock")
	if !strings.Contains(out, `"sub"`) || strings.Contains(out, "jti") {
		t.Errorf("it says %s", out)
	}
	other := agenttest.Ask(t, address, agenttest.Question{Call: "FetchJWTSVID", Audience: []string{"ledger"}, ID: "spiffe://example.org/web", Header: true})
	if len(other.Tokens) != 1 || other.Tokens[0].ID != "spiffe://example.org/web" {
		t.Errorf("another workload: %+v", other)
	}
	streamed := agenttest.Ask(t, address, agenttest.Question{Call: "FetchJWTBundles", Messages: 2, Header: true})
	if len(streamed.Messages) != 2 || streamed.Messages[0]["spiffe://example.org"] == streamed.Messages[1]["spiffe://example.org"] {
		t.Errorf("FetchJWTBundles: %+v", streamed)
	}
	for _, c := range []struct {
		asked agenttest.Question
		code  string
	}{
		{agenttest.Question{Call: "FetchJWTSVID", Audience: []string{"ledger"}}, "INVALID_ARGUMENT"},
		{agenttest.Question{Call: "FetchJWTBundles"}, "INVALID_ARGUMENT"},
		{agenttest.Question{Call: "FetchJWTSVID", Header: true}, "INVALID_ARGUMENT"},
		{agenttest.Question{Call: "FetchJWTSVID", Audience: []string{"ledger"}, ID: "spiffe://example.com/a", Header: true}, "PERMISSION_DENIED"},
		{agenttest.Question{Call: "FetchX509SVID", Header: true}, "UNIMPLEMENTED"},
	} {
		if said := agenttest.Ask(t, address, c.asked); said.Code != c.code {
			t.Errorf("%+v: %+v, and %s is due", c.asked, said, c.code)
		}
	}
}

// ask asks the page.
func (p *devProcess) ask(method, path, host, origin, body string) (status int, header http.Header, text string) {
	p.t.Helper()
	request, err := http.NewRequest(method, "http://"+p.page+path, strings.NewReader(body))
	if err != nil {
		p.t.Fatal(err)
	}
	if host != "" {
		request.Host = host
	}
	if origin != "" {
		request.Header.Set("Origin", origin)
	}
	answer, err := p.client.Do(request)
	if err != nil {
		p.t.Fatal(err)
	}
	defer answer.Body.Close()
	said, err := io.ReadAll(answer.Body)
	if err != nil {
		p.t.Fatal(err)
	}
	return answer.StatusCode, answer.Header, string(said)
}

// The page of another site, or a name that leads to this machine, gets no token and hears nothing.
func TestDevsPageAnswersItselfAlone(t *testing.T) {
	p := startDev(t)
	for _, c := range []struct {
		method, path, host, origin, body string
		status                           int
	}{
		{"GET", "/", "", "", "", 200},
		{"GET", "/page.js", "", "", "", 200},
		{"GET", "/page.css", "", "", "", 200},
		{"GET", "/other", "", "", "", 404},
		{"PUT", "/", "", "", "", 405},
		{"POST", "/mint", "", "http://" + p.page, "{}", 200},
		{"POST", "/mint", "", "", "{}", 200},
		{"POST", "/mint", "", "", "[", 400},
		{"POST", "/mint", "", "", `{"fault":"other"}`, 400},
		{"POST", "/mint", "", "https://example.net", "{}", 403},
		{"POST", "/mint", "example.net", "", "{}", 403},
		{"GET", "/events", "example.net", "", "", 403},
		{"GET", "/", "localhost:9900", "", "", 403},
	} {
		status, header, _ := p.ask(c.method, c.path, c.host, c.origin, c.body)
		if status != c.status || header.Get("X-Svidd-Dev") != dev.Mark {
			t.Errorf("%s %s of %q %q: %d, and %d is due", c.method, c.path, c.host, c.origin, status, c.status)
		}
		if policy := header.Get("Content-Security-Policy"); c.path == "/" && status == 200 && !strings.HasPrefix(policy, "default-src 'none'") {
			t.Errorf("the page may load anything: %q", policy)
		}
	}
}

// The page hears of tokens and decisions as they come, and of those before.
func TestDevTellsItsPage(t *testing.T) {
	p := startDev(t)
	answer, err := p.client.Get("http://" + p.page + "/events")
	if err != nil {
		t.Fatal(err)
	}
	defer answer.Body.Close()
	token := p.mint()
	p.want(token, 200, "")
	scanner := bufio.NewScanner(answer.Body)
	var kinds []string
	for len(kinds) < 2 && scanner.Scan() {
		text := strings.TrimPrefix(scanner.Text(), "data: ")
		isData := text != scanner.Text()
		var said struct {
			Kind  string
			Value struct{ Token, Event, Caller, Key string }
		}
		if !isData {
			continue
		}
		if err := json.Unmarshal([]byte(text), &said); err != nil {
			t.Fatal(err)
		}
		kinds = append(kinds, said.Kind)
		if v := said.Value; said.Kind == "token" && (v.Token != token || v.Key == "") || said.Kind == "decision" && (v.Event != "accepted" || v.Caller != "127.0.0.1") {
			t.Errorf("it hears %s", text)
		}
	}
	if fmt.Sprint(kinds) != "[token decision]" {
		t.Errorf("it hears %v: %v", kinds, scanner.Err())
	}
}

// Nothing of a release starts svidd dev: no unit, image, manifest or package.
func TestNoReleaseStartsDev(t *testing.T) {
	found, err := exec.Command("git", "-C", "../../..", "grep", "-nE", `svidd("?, ?"| )dev\b`, "--", "go/deploy", "tools/packaging", ":!tools/packaging/man", ":!tools/packaging/completions", "examples", ".ci", "install").CombinedOutput()
	if err == nil || len(found) > 0 {
		t.Errorf("%v\n%s", err, found)
	}
	for _, name := range []string{"../../deploy/svidd.service", "../../deploy/Dockerfile"} {
		if _, err := os.Stat(name); err != nil {
			t.Error(err) // (or this test looks at nothing)
		}
	}
	if len(issuer.Faults) != 5 {
		t.Error("TestDevMintsTokensAndTriesThem does not try each fault")
	}
}
