package main

import (
	"bufio"
	"errors"
	"fmt"
	"io"
	"net"
	"net/http"
	"net/http/httptest"
	"os"
	"os/exec"
	"path/filepath"
	"strings"
	"sync/atomic"
	"syscall"
	"testing"
	"time"

	"svid.example/go/v3/internal/patience"
)

// A recipe is a proxy before a service, by files of deploy/.
type recipe struct {
	*process        // the sidecar
	front    string // where clients come
	said     *lines // what the proxy prints
	heard    chan heard
	folder   string
	replaced *strings.Replacer // the addresses and places of the files, by those of the test
	begin    func()            // writes the files and starts the proxy
	stop     func()            // ends the proxy
	limited  bool              // whether the proxy gives up as early as its files say
	trailers bool              // whether the proxy hands on trailers, as its file says
	from     string            // the address that clients come from; "" for 127.0.0.1
}

// limits are the texts of deploy/ by which a proxy gives up, by the seconds in which it must not on a busy machine.
var limits = map[string]func(seconds int) map[string]string{
	"Caddyfile": func(s int) map[string]string {
		return map[string]string{"dial_timeout 1s": fmt.Sprintf("dial_timeout %ds", s), "response_header_timeout 5s": fmt.Sprintf("response_header_timeout %ds", s)}
	},
	"apache-svidd.lua": func(s int) map[string]string {
		return map[string]string{"http.TIMEOUT = 5": fmt.Sprintf("http.TIMEOUT = %d", s)}
	},
	"haproxy-svidd.lua": func(s int) map[string]string {
		return map[string]string{"local longest = 10000": fmt.Sprintf("local longest = %d", 2000*s)}
	},
	"haproxy.cfg": func(s int) map[string]string {
		return map[string]string{"timeout connect 1s": fmt.Sprintf("timeout connect %ds", s), "timeout server 5s": fmt.Sprintf("timeout server %ds", s),
			"timeout client 60s": fmt.Sprintf("timeout client %ds", 3*s), "timeout server 60s": fmt.Sprintf("timeout server %ds", s)}
	},
	"nginx-site.conf": func(s int) map[string]string {
		return map[string]string{"proxy_connect_timeout 1s": fmt.Sprintf("proxy_connect_timeout %ds", s), "proxy_read_timeout 5s": fmt.Sprintf("proxy_read_timeout %ds", s)}
	},
}

// heard is a request as the service gets it.
type heard struct {
	Method, URI, Body string
	Header, Trailer   http.Header
}

// newRecipe starts a sidecar and a service.
func newRecipe(t *testing.T) *recipe {
	t.Helper()
	return newRecipeBy(t, "--state", filepath.Join(t.TempDir(), "state"), "--allow", "spiffe://example.org/web")
}

// newRecipeBy starts a sidecar with these options, and a service.
func newRecipeBy(t *testing.T, options ...string) *recipe {
	t.Helper()
	r := &recipe{heard: make(chan heard, 100), said: &lines{}, folder: t.TempDir(), front: freeAddress(t)}
	for _, folder := range []string{r.folder, filepath.Dir(r.folder)} { // Apache's processes are of another user.
		if err := os.Chmod(folder, 0o755); err != nil {
			t.Fatal(err)
		}
	}
	service := httptest.NewServer(http.HandlerFunc(func(w http.ResponseWriter, it *http.Request) {
		body, _ := io.ReadAll(it.Body)
		r.heard <- heard{it.Method, it.RequestURI, string(body), it.Header, it.Trailer}
		_, _ = io.WriteString(w, "served")
	}))
	t.Cleanup(service.Close)
	r.process = start(t, append(options, bundleOption(bundleFile(t, example)), "--wait", patience.Long.String())...)
	r.replaced = strings.NewReplacer("127.0.0.1:9901", r.address, "127.0.0.1:8081", service.Listener.Addr().String(), "127.0.0.1:8080", r.front)
	return r
}

// file writes a file of deploy/ with the addresses of the test, and something in front of it. Until the recipe is limited, nothing gives up before
// the test does: on a busy machine, each second of a file may pass while a process waits for a processor.
func (r *recipe) file(name, front string) string {
	r.t.Helper()
	text, err := os.ReadFile(filepath.Join("../../deploy", name))
	if err != nil {
		r.t.Fatal(err)
	}
	patient := string(text)
	if limits := limits[name]; limits != nil && !r.limited {
		var pairs []string // (replaced at once: one limit of the test may be another one of the file)
		for old, other := range limits(int(patience.Long.Seconds())) {
			if strings.Count(patient, old+"\n")+strings.Count(patient, old+";\n")+strings.Count(patient, old+" --") != 1 {
				r.t.Fatalf("%s: there is not one limit %q", name, old)
			}
			pairs = append(pairs, old, other)
		}
		patient = strings.NewReplacer(pairs...).Replace(patient)
	}
	to := filepath.Join(r.folder, name)
	if err := os.WriteFile(to, []byte(front+r.replaced.Replace(patient)), 0o644); err != nil {
		r.t.Fatal(err)
	}
	return to
}

// runs starts the proxy, and waits until it answers.
func (r *recipe) runs(environment []string, words ...string) {
	r.t.Helper()
	c := exec.Command(words[0], words[1:]...)
	c.Env = append(os.Environ(), environment...)
	c.Stdout, c.Stderr = r.said, r.said
	if err := c.Start(); err != nil {
		r.t.Fatalf("%v: install Debian's package of it", err)
	}
	ended := false
	r.stop = func() {
		if !ended {
			ended = true
			killAll(c.Process.Pid)
			_ = c.Wait()
		}
	}
	stop := r.stop
	r.t.Cleanup(func() {
		stop()
		if r.t.Failed() {
			r.t.Logf("%s says: %s", words[0], r.said)
		}
	})
	r.await(words[0], func() bool {
		if c.ProcessState != nil {
			r.t.Fatalf("%s ended: %s", words[0], r.said)
		}
		it, err := net.Dial("tcp", r.front)
		if err == nil {
			it.Close()
		}
		return err == nil
	})
}

// send sends a request with these lines of headers, and returns the answer with its body.
func (r *recipe) send(method, path, body string, headers ...string) (*http.Response, string) {
	r.t.Helper()
	dialer := net.Dialer{}
	if r.from != "" {
		dialer.LocalAddr = &net.TCPAddr{IP: net.ParseIP(r.from)}
	}
	c, err := dialer.Dial("tcp", r.front)
	if err != nil {
		r.t.Fatal(err)
	}
	defer c.Close()
	_ = c.SetDeadline(time.Now().Add(patience.Long))
	text := fmt.Sprintf("%s %s HTTP/1.1\r\nHost: ledger.example.org\r\nContent-Length: %d\r\n", method, path, len(body))
	for _, header := range headers {
		text += header + "\r\n"
	}
	if _, err := io.WriteString(c, text+"\r\n"+body); err != nil {
		r.t.Fatal(err)
	}
	answer, err := http.ReadResponse(bufio.NewReader(c), nil)
	if err != nil {
		r.t.Fatalf("%s %s: %v", method, path, err)
	}
	defer answer.Body.Close()
	said, err := io.ReadAll(answer.Body)
	if err != nil {
		r.t.Fatal(err)
	}
	return answer, string(said)
}

// served is the request that has reached the service; nil where none has.
func (r *recipe) served() *heard {
	select {
	case h := <-r.heard:
		return &h
	default:
		return nil
	}
}

// forged is what a client may not say of itself, in each spelling that a service may take for it.
var forged = func() (all []string) {
	for _, name := range []string{"X-Spiffe-Id", "X-Svid-Audience", "X-Svid-Expires"} {
		for _, spelling := range []string{name, strings.ToLower(name), strings.ReplaceAll(name, "-", "_"), strings.Replace(name, "-", "_", 1),
			strings.ReplaceAll(name, "-", "."), strings.Replace(name, "-", "~", 1), strings.ToLower(strings.ReplaceAll(name, "-", "!")),
			name[:strings.LastIndex(name, "-")] + "_" + name[strings.LastIndex(name, "-")+1:], strings.ToUpper(strings.ReplaceAll(name, "-", "_"))} {
			all = append(all, spelling+": spiffe://example.org/admin")
		}
	}
	all = append(all, "X-Spiffe-Id: spiffe://example.org/root", "X-Spiffe-Id:", "X-Request-Id: mine", "X-Forwarded-For: 192.0.2.66")
	return all[:len(all):len(all)] // (without room: what tests that run side by side append is a copy)
}()

// identity is what the service hears of the caller, whatever spelling its headers have.
func (h heard) identity() map[string][]string {
	all := map[string][]string{}
	for name, values := range h.Header {
		name = strings.Map(func(c rune) rune {
			if c >= 'a' && c <= 'z' || c >= '0' && c <= '9' {
				return c
			}
			return '-' // (as lighttpd takes it for its programs)
		}, strings.ToLower(name))
		if name == "authorization" || strings.HasPrefix(name, "x-svid") || strings.HasPrefix(name, "x-spiffe") {
			all[name] = append(all[name], values...)
		}
	}
	return all
}

// listens listens in the place of the sidecar. Another test may just start a program: until that runs, it has what was open here when it was made, so
// also a listener that was closed since.
func (r *recipe) listens() (it net.Listener) {
	r.t.Helper()
	r.await("nobody else listens on "+r.address, func() bool {
		var err error
		if it, err = net.Listen("tcp", r.address); err != nil && !errors.Is(err, syscall.EADDRINUSE) {
			r.t.Fatal(err)
		}
		return err == nil
	})
	return it
}

// holds wants the recipe to keep what each must.
func (r *recipe) holds() {
	t := r.t
	t.Helper()
	for i, method := range []string{"GET", "POST", "DELETE", "PATCH", "OPTIONS"} {
		path := []string{"/", "/a/b?c=d&e=%2f", "/a//b/%2e%2e/c", "/check", "/metrics?a"}[i]
		exp := time.Now().Add(lasting).Unix()
		one := example.Token("ES256", map[string]any{"sub": "spiffe://example.org/web", "aud": "ledger", "exp": exp, "jti": "recipe" + method})
		body := map[bool]string{true: "a body"}[method == "POST" || method == "PATCH"]
		answer, said := r.send(method, path, body, append(forged, "Authorization: Bearer "+one)...)
		got := r.served()
		if answer.StatusCode != 200 || said != "served" || got == nil {
			t.Errorf("%s %s: %d %q", method, path, answer.StatusCode, said)
			continue
		}
		due := map[string][]string{"x-spiffe-id": {"spiffe://example.org/web"}, "x-svid-audience": {"ledger"}, "x-svid-expires": {fmt.Sprint(exp)}}
		if who := got.identity(); fmt.Sprint(who) != fmt.Sprint(due) {
			t.Errorf("%s %s: the service hears of %v, and %v is due", method, path, who, due)
		}
		if got.Method != method || got.URI != path || got.Body != body {
			t.Errorf("%s %s: the service gets %s %s %q", method, path, got.Method, got.URI, got.Body)
		}
		// The logs of both have one name of the request, and that of the sidecar the client's address.
		id := got.Header.Get("X-Request-Id")
		r.await("the line of the request", func() bool { return len(r.events("accepted")) > i })
		if line := r.events("accepted")[i]; id == "" || id == "mine" || line["request"] != id || line["client"] != "127.0.0.1" {
			t.Errorf("%s %s: the service hears of the request %q, and the log has %v", method, path, id, line)
		}

		answer, said = r.send(method, path, body, append(forged, "Authorization: Bearer "+one)...)
		if answer.StatusCode != 401 || !strings.Contains(answer.Header.Get("WWW-Authenticate"), "Replayed") || r.served() != nil {
			t.Errorf("%s %s again: %d %v %q", method, path, answer.StatusCode, answer.Header, said)
		}
	}
	if answer, _ := r.send("GET", "/", "", forged...); answer.StatusCode != 401 || answer.Header.Get("WWW-Authenticate") != `Bearer realm="svid"` || r.served() != nil {
		t.Errorf("no token: %d %v", answer.StatusCode, answer.Header)
	}
	// A caller that no --allow lets in hears so, however often it asks, and is not told to try again. Its token stays good. (nginx's
	// auth_request hands the status on, and nothing else.)
	other := example.Token("ES256", map[string]any{"sub": "spiffe://example.org/job", "aud": "ledger", "exp": time.Now().Add(time.Minute).Unix(), "jti": "other"})
	for i := 0; i < 2; i++ {
		answer, _ := r.send("GET", "/", "", append(forged, "Authorization: Bearer "+other)...)
		challenge := answer.Header.Get("WWW-Authenticate")
		if answer.StatusCode != 403 || answer.Header.Get("Retry-After") != "" || challenge != "" && !strings.Contains(challenge, "NotAllowed") || r.served() != nil {
			t.Errorf("another caller: %d %v", answer.StatusCode, answer.Header)
		}
	}
	r.want(other, 403, "NotAllowed")
	// Two tokens are none.
	if answer, _ := r.send("GET", "/", "", "Authorization: Bearer "+token(t, "two", lasting), "Authorization: Bearer a.b.c"); answer.StatusCode/100 != 4 || r.served() != nil {
		t.Errorf("two tokens: %d %v", answer.StatusCode, answer.Header)
	}
	// A client that lets the proxy take a header out makes nobody of itself.
	for _, named := range []string{"X-Spiffe-Id", "x-svid-expires, X-Spiffe-Id", "keep-alive, X_Spiffe_Id"} {
		answer, _ := r.send("GET", "/", "", "Connection: "+named, "Authorization: Bearer "+token(t, named, lasting))
		got := r.served()
		if answer.StatusCode == 200 && (got == nil || len(got.identity()) != 3) || answer.StatusCode != 200 && got != nil {
			t.Errorf("Connection: %s: %d, and the service hears of %+v", named, answer.StatusCode, got)
		}
	}
	// Nor does one get another protocol, behind which nobody checks what it sends.
	for _, protocol := range []string{"h2c", "websocket", "other/1"} {
		answer, _ := r.send("GET", "/", "", "Connection: Upgrade, HTTP2-Settings", "Upgrade: "+protocol, "HTTP2-Settings: AAMAAABkAAQAAP__", "Authorization: Bearer "+token(t, protocol, lasting))
		if got := r.served(); got != nil && got.Header.Get("Upgrade") != "" {
			t.Errorf("Upgrade: %s: %d, and the service hears of %+v", protocol, answer.StatusCode, got.Header)
		}
	}
	long := example.Token("ES256", map[string]any{"sub": "spiffe://example.org/web", "aud": "ledger", "exp": time.Now().Add(lasting).Unix(), "pad": strings.Repeat("a", 45000)})
	if answer, _ := r.send("GET", "/", "", "Authorization: Bearer "+long); answer.StatusCode != 200 || r.served() == nil {
		t.Errorf("a token of %d bytes: %d", len(long), answer.StatusCode)
	}
	body := strings.Repeat("b", 300_000)
	answer, _ := r.send("POST", "/", body, "Authorization: Bearer "+token(t, "body", lasting))
	if got := r.served(); answer.StatusCode != 200 || got == nil || got.Body != body {
		t.Errorf("a long body: %d", answer.StatusCode)
	}
	r.opensNoTunnel()
	r.keepsTrailers()
	// Without its sidecar nothing is let through, and nor is it if that does not answer in time.
	r.end()
	unavailable := func(what string) {
		t.Helper()
		answer, _ := r.send("GET", "/", "", append(forged, "Authorization: Bearer "+token(t, what, lasting))...)
		if answer.StatusCode != 503 || answer.Header.Get("Retry-After") == "" || r.served() != nil {
			t.Errorf("%s: %d %v", what, answer.StatusCode, answer.Header)
		}
	}
	unavailable("without its sidecar")
	r.stop()
	r.limited = true
	r.begin()
	deaf := r.listens()
	var asked atomic.Int64
	go func() {
		for {
			c, err := deaf.Accept()
			if err != nil {
				return
			}
			defer c.Close()
			asked.Add(1)
		}
	}()
	unavailable("a sidecar that does not answer")
	deaf.Close()
	if n := asked.Load(); n != 1 { // A second time, a token that was accepted is Replayed.
		t.Errorf("the sidecar is asked %d times", n)
	}
	r.asksOnceWhereAConnectionEnds()
	// Nor by an answer that is none of the sidecar's.
	for _, status := range []int{204, 302, 403, 500, 503} {
		other := r.listens()
		it := &http.Server{Handler: http.HandlerFunc(func(w http.ResponseWriter, _ *http.Request) { w.WriteHeader(status) })}
		go func() { _ = it.Serve(other) }()
		answer, _ := r.send("GET", "/", "", append(forged, "Authorization: Bearer "+token(t, "other", lasting))...)
		if got := r.served(); got != nil && (status != 204 || len(got.identity()["x-spiffe-id"]) > 0 && got.identity()["x-spiffe-id"][0] != "") {
			t.Errorf("an answer of %d: %d, and the service hears of %+v", status, answer.StatusCode, got.identity())
		}
		it.Close()
	}
}

// asksOnceWhereAConnectionEnds wants 503 where the sidecar ends a connection that the proxy has kept, and does not answer: it may have accepted the
// token. A proxy that asks again makes 401 of that.
func (r *recipe) asksOnceWhereAConnectionEnds() {
	r.t.Helper()
	sidecar := r.listens()
	defer sidecar.Close()
	var asked, ends atomic.Int64
	it := &http.Server{Handler: http.HandlerFunc(func(w http.ResponseWriter, _ *http.Request) {
		asked.Add(1)
		if ends.Load() > 0 {
			panic(http.ErrAbortHandler)
		}
		w.Header().Set("X-Spiffe-Id", "spiffe://example.org/web")
	})}
	go func() { _ = it.Serve(sidecar) }()
	defer it.Close()
	for i := 0; i < 16; i++ { // (each thread of a proxy has connections of its own)
		if answer, _ := r.send("GET", "/", "", "Authorization: Bearer a.b.c"); answer.StatusCode != 200 || r.served() == nil {
			r.t.Fatalf("a sidecar that answers: %d", answer.StatusCode)
		}
	}
	ends.Store(1)
	for i := 0; i < 16; i++ {
		asked.Store(0)
		answer, _ := r.send("GET", "/", "", "Authorization: Bearer a.b.c")
		if n := asked.Load(); answer.StatusCode != 503 || answer.Header.Get("Retry-After") == "" || r.served() != nil || n != 1 {
			r.t.Errorf("the sidecar ends a connection: %d %v, and it is asked %d times", answer.StatusCode, answer.Header, n)
		}
	}
}

// In mode bound, by the client's address: each proxy of the ready files says it, whatever the client says of itself. A thief who comes from another
// address is refused, and the owner is not.
func TestRecipesInBound(t *testing.T) {
	t.Parallel()
	for name, runs := range map[string]func(r *recipe){
		"Caddy":   func(r *recipe) { r.runsCaddy("") },
		"HAProxy": func(r *recipe) { r.runsHAProxy("", "") },
		"Apache":  (*recipe).runsApache,
		"nginx":   (*recipe).runsNginx,
	} {
		runs := runs
		t.Run(name, func(t *testing.T) {
			t.Parallel()
			_, url := stores["Redis"](t)
			r := newRecipeBy(t, "--replay", "bound", "--caller", "address:X-Real-Ip", "--store", url)
			runs(r)
			bearer := "Authorization: Bearer " + token(t, "bound "+name, lasting)
			for i, row := range []struct {
				from   string
				says   []string
				status int
			}{
				{"127.0.0.1", nil, 200},
				{"127.0.0.1", nil, 200},
				{"127.0.0.2", nil, 401},
				{"127.0.0.2", []string{"X-Real-Ip: 127.0.0.1"}, 401},
				{"127.0.0.2", []string{"X-Real-Ip: 127.0.0.1", "x-real-ip: 127.0.0.1", "X_Real_Ip: 127.0.0.1", "X-Forwarded-For: 127.0.0.1", "Forwarded: for=127.0.0.1"}, 401},
				{"127.0.0.2", []string{"X-Real-Ip:", "True-Client-Ip: 127.0.0.1"}, 401},
				{"127.0.0.1", []string{"X-Real-Ip: 127.0.0.2", "X-Forwarded-For: 127.0.0.2"}, 200},
				{"127.0.0.1", nil, 200},
			} {
				r.from = row.from
				answer, _ := r.send("GET", "/", "", append(row.says, bearer)...)
				if got := r.served(); answer.StatusCode != row.status || (got != nil) != (row.status == 200) {
					t.Errorf("%d: from %s with %q: %d, want %d", i, row.from, row.says, answer.StatusCode, row.status)
				}
			}
			// A client that lets the proxy take the header out becomes nobody else.
			r.from = "127.0.0.2"
			answer, _ := r.send("GET", "/", "", "Connection: X-Real-Ip", "X-Real-Ip: 127.0.0.1", bearer)
			if got := r.served(); answer.StatusCode == 200 || got != nil {
				t.Errorf("Connection: X-Real-Ip: %d", answer.StatusCode)
			}
			for _, line := range append(r.events("accepted"), r.events("refused")...) {
				if line["caller"] != "127.0.0.1" && line["event"] == "accepted" || line["caller"] != "127.0.0.2" && line["event"] == "refused" {
					t.Errorf("the log has %v", line)
				}
			}
		})
	}
}

func TestCaddyRecipe(t *testing.T) {
	t.Parallel()
	r := newRecipe(t)
	r.runsCaddy("")
	r.holds()
}

// Without TLS Caddy speaks HTTP/2 only where its configuration says so.
func TestCaddyRecipeOverHTTP2(t *testing.T) {
	t.Parallel()
	r := newRecipe(t)
	r.runsCaddy("\tservers {\n\t\tprotocols h1 h2c\n\t}\n")
	r.holdsOverHTTP2()
}

// runsCaddy starts Caddy, with more options of its own.
func (r *recipe) runsCaddy(options string) {
	r.t.Helper()
	_, port, _ := net.SplitHostPort(r.front)
	r.replaced = strings.NewReplacer(":8080 {", ":"+port+" {", "127.0.0.1:9901", r.address, "127.0.0.1:8081", r.replaced.Replace("127.0.0.1:8081"))
	home := []string{"HOME=" + r.folder, "XDG_DATA_HOME=" + r.folder, "XDG_CONFIG_HOME=" + r.folder}
	r.begin = func() {
		file := r.file("Caddyfile", "{\n\tadmin off\n\tauto_https off\n"+options+"}\n")
		r.runs(home, "caddy", "run", "--config", file, "--adapter", "caddyfile")
	}
	r.begin()
}

func TestHAProxyRecipe(t *testing.T) {
	t.Parallel()
	r := newRecipe(t)
	r.trailers = true
	given := r.replaced
	r.begin = func() {
		r.replaced = given
		r.runsHAProxy("", "")
	}
	r.begin()
	r.holds()
}

// HAProxy speaks HTTP/2 by the same port, as a client begins.
func TestHAProxyRecipeOverHTTP2(t *testing.T) {
	t.Parallel()
	r := newRecipe(t)
	r.trailers = true
	r.runsHAProxy("", "")
	r.holdsOverHTTP2()
}

// HAProxy goes on where Lua fails. Nothing passes then, be it before the sidecar is asked or after its refusal.
func TestHAProxyWhoseLuaFails(t *testing.T) {
	t.Parallel()
	for _, at := range []string{"  local headers = txn.http", "  local client = core.", "  local function of(", "  if said.status == 401 or"} {
		at := at
		t.Run(at, func(t *testing.T) {
			t.Parallel()
			r := newRecipe(t)
			r.runsHAProxy(at, "  if true then error('it fails') end\n"+at)
			answer, _ := r.send("GET", "/", "", forged...)
			if got := r.served(); answer.StatusCode != 503 || answer.Header.Get("Retry-After") == "" || got != nil {
				t.Errorf("%d %v, and the service hears of %+v", answer.StatusCode, answer.Header, got)
			}
		})
	}
}

// runsHAProxy starts HAProxy, whose Lua has another text in the place of this one.
func (r *recipe) runsHAProxy(old, other string) {
	r.t.Helper()
	lua := r.file("haproxy-svidd.lua", "")
	// (an abstract name is one of the whole machine)
	name := fmt.Sprintf("abns@svidd-%s", r.front)
	text, err := os.ReadFile(lua)
	if err != nil {
		r.t.Fatal(err)
	}
	changed := strings.ReplaceAll(string(text), "abns@svidd-ask", name)
	if strings.Count(changed, old) != 1 && old != "" {
		r.t.Fatalf("%q stands there %d times", old, strings.Count(changed, old))
	}
	if err := os.WriteFile(lua, []byte(strings.Replace(changed, old, other, 1)), 0o644); err != nil {
		r.t.Fatal(err)
	}
	r.replaced = strings.NewReplacer("/etc/haproxy/haproxy-svidd.lua", lua, "abns@svidd-ask", name, "127.0.0.1:9901", r.address, "127.0.0.1:8081", r.replaced.Replace("127.0.0.1:8081"), "127.0.0.1:8080", r.front)
	r.runs(nil, "haproxy", "-db", "-f", r.file("haproxy.cfg", ""))
}

func TestApacheRecipe(t *testing.T) {
	t.Parallel()
	r := newRecipe(t)
	r.runsApache()
	r.holds()
}

// runsApache starts Apache.
func (r *recipe) runsApache() {
	t := r.t
	t.Helper()
	given := r.replaced
	lua := filepath.Join(r.folder, "apache-svidd.lua")
	site := strings.NewReplacer("/etc/apache2/apache-svidd.lua", lua, "127.0.0.1:8081", given.Replace("127.0.0.1:8081"), "127.0.0.1:8080", r.front)
	front := fmt.Sprintf("ServerRoot %[1]s\nServerName ledger.example.org\nPidFile %[1]s/pid\nErrorLog %[1]s/error.log\nMutex file:%[1]s\n", r.folder)
	if os.Getuid() == 0 {
		front += "User nobody\nGroup nogroup\n"
	}
	for _, module := range []string{"mpm_event", "authz_core", "headers", "lua", "proxy", "proxy_http", "unique_id"} {
		front += fmt.Sprintf("LoadModule %s_module /usr/lib/apache2/modules/mod_%[1]s.so\n", module)
	}
	r.begin = func() {
		r.replaced = given
		r.file("apache-svidd.lua", "")
		r.replaced = site
		r.runs(nil, "/usr/sbin/apache2", "-D", "FOREGROUND", "-f", r.file("apache-site.conf", front))
	}
	r.begin()
	t.Cleanup(func() {
		if text, err := os.ReadFile(filepath.Join(r.folder, "error.log")); t.Failed() {
			t.Logf("the log of Apache: %s %v", text, err)
		}
	})
}

// The recipe of nginx holds what the others do.
func TestNginxRecipe(t *testing.T) {
	t.Parallel()
	r := newRecipe(t)
	r.runsNginx()
	r.holds()
}

// runsNginx starts nginx.
func (r *recipe) runsNginx() {
	t := r.t
	t.Helper()
	front := fmt.Sprintf(`daemon off; master_process off; pid %[1]s/pid; error_log %[1]s/error.log; events { }
http {
  access_log off;
  client_body_temp_path %[1]s/1; proxy_temp_path %[1]s/2; fastcgi_temp_path %[1]s/3; uwsgi_temp_path %[1]s/4; scgi_temp_path %[1]s/5;
`, r.folder)
	r.begin = func() {
		file := r.file("nginx-site.conf", front)
		text, err := os.ReadFile(file)
		if err != nil {
			t.Fatal(err)
		}
		if err := os.WriteFile(file, append(text, "}\n"...), 0o600); err != nil {
			t.Fatal(err)
		}
		r.runs(nil, "nginx", "-c", file, "-e", filepath.Join(r.folder, "error.log"))
	}
	r.begin()
}
