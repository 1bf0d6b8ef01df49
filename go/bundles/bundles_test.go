package bundles

import (
	"context"
	"crypto/tls"
	"crypto/x509"
	"encoding/json"
	"errors"
	"fmt"
	"io"
	"log"
	"net/http"
	"net/http/httptest"
	"os"
	"path/filepath"
	"reflect"
	"runtime"
	"strings"
	"sync"
	"testing"
	"time"

	"svid.example/go/v3/internal/patience"
)

// spire is a bundle as `spire-server bundle show -format spiffe` prints one.
const spire = `{
    "keys": [
        {
            "use": "x509-svid",
            "kty": "EC",
            "crv": "P-256",
            "x": "fK-wKTnKL7KFLM27lqq5DC-bxrVaH6rDV-IcCSEOeL4",
            "y": "wq-g3TQWxYlV51TCPH030yXsRxvujD4hUUaIQrXk4KI",
            "x5c": ["MIIBKjCB0aADAgECAgEBMAoGCCqGSM49BAMCMAAwIhgPMDAwMTAxMDEwMDAwMDBaGA85OTk5MTIzMTIzNTk1OVowADBZ"]
        },
        {
            "use": "jwt-svid",
            "kty": "EC",
            "kid": "C6vs25welZOx6WksNYfbMfiw9l96pMnD",
            "crv": "P-256",
            "x": "ngLYQnlfF6GsojUwqtcEE3WgTNG2RUlsGhK73RNEl5k",
            "y": "tKbiDSUSsQ3F1P7wteeHNXIcU-cx6CgSbroeQrQHTLM"
        }
    ],
    "spiffe_sequence": 7,
    "spiffe_refresh_hint": 300
}`

// An observer keeps what a watcher says.
type observer struct {
	mu    sync.Mutex
	last  map[string]string
	calls int
	fault error // what the next calls answer
	lines []string
}

func (o *observer) changed(all map[string]json.RawMessage) error {
	o.mu.Lock()
	defer o.mu.Unlock()
	o.last = map[string]string{}
	for domain, text := range all {
		o.last[domain] = string(text)
	}
	o.calls++
	return o.fault
}

func (o *observer) log(event string, fields ...any) {
	o.mu.Lock()
	defer o.mu.Unlock()
	o.lines = append(o.lines, strings.TrimSpace(fmt.Sprintln(append([]any{event}, fields...)...)))
}

// wantLines wants so many lines of the log that hold this text.
func (o *observer) wantLines(t *testing.T, n int, text string) {
	t.Helper()
	o.mu.Lock()
	defer o.mu.Unlock()
	got := 0
	for _, line := range o.lines {
		if strings.Contains(line, text) {
			got++
		}
	}
	if got != n {
		t.Errorf("%d lines with %q, want %d, of\n%s", got, text, n, strings.Join(o.lines, "\n"))
	}
}

func (o *observer) want(t *testing.T, domains map[string]string) {
	t.Helper()
	o.mu.Lock()
	defer o.mu.Unlock()
	if !reflect.DeepEqual(o.last, domains) {
		t.Errorf("%d bundles %q, want %q", len(o.last), o.last, domains)
	}
}

// awaitAnswer waits until a line says that a bundle was read or was not, and returns whether it was. (What of a bundle is passed over, other
// lines say before.)
func (o *observer) awaitAnswer(t *testing.T) (read bool) {
	t.Helper()
	yes, no := o.says("bundle read"), o.says("bundle not read")
	o.await(t, "an answer", func() bool { read = yes(); return read || no() })
	return read
}

func (o *observer) await(t *testing.T, what string, so func() bool) {
	t.Helper()
	for end := time.Now().Add(patience.Long); ; time.Sleep(time.Millisecond) {
		o.mu.Lock()
		is := so()
		o.mu.Unlock()
		if is {
			return
		}
		if time.Now().After(end) {
			t.Fatalf("waited in vain for %s: %q", what, o.lines)
		}
	}
}

// watch begins a watcher that looks at files only when a test lets it.
func watch(t *testing.T, change func(*Options), specs ...Spec) (*Watcher, *observer) {
	t.Helper()
	ctx, cancel := context.WithCancel(context.Background())
	t.Cleanup(cancel)
	o := &observer{}
	options := Options{Log: o.log, Every: time.Hour}
	if change != nil {
		change(&options)
	}
	w, err := Watch(ctx, specs, o.changed, options)
	if err != nil {
		t.Fatal(err)
	}
	return w, o
}

func write(t *testing.T, name, text string) {
	t.Helper()
	if err := os.WriteFile(name, []byte(text), 0o600); err != nil {
		t.Fatal(err)
	}
}

func remove(t *testing.T, name string) {
	t.Helper()
	if err := os.Remove(name); err != nil {
		t.Fatal(err)
	}
}

func TestFile(t *testing.T) {
	name := filepath.Join(t.TempDir(), "bundle.json")
	write(t, name, spire)
	w, o := watch(t, nil, Spec{Domain: "example.org", Source: name})
	o.want(t, map[string]string{"example.org": spire}) // as it is
	o.wantLines(t, 1, "key passed over domain example.org source "+name+" entry 0 why it is for X.509-SVIDs")
	o.wantLines(t, 1, "bundle read domain example.org source "+name+" keys 1")

	w.Reload()
	if o.calls != 1 {
		t.Errorf("told %d times of one bundle", o.calls)
	}
	next := strings.Replace(spire, `"spiffe_sequence": 7`, `"spiffe_sequence": 8`, 1)
	write(t, name, next)
	w.Reload()
	o.want(t, map[string]string{"example.org": next})
	o.wantLines(t, 1, "key passed over") // once for each entry

	for _, bad := range []string{next[:100], "", "[]", "null", `{"key":[]}`, `{"keys":1}`, "{\"keys\":[],\"x\":\"\xff\"}"} {
		write(t, name, bad)
		w.Reload()
	}
	w.Reload()
	if err := os.Remove(name); err != nil {
		t.Fatal(err)
	}
	w.Reload()
	o.want(t, map[string]string{"example.org": next})
	o.wantLines(t, 7, "bundle not read; the last good one stays source "+name)
	if age, ok := w.Age("example.org"); !ok || age <= 0 {
		t.Error(age, ok)
	}
	if _, ok := w.Age("example.com"); ok {
		t.Error("a bundle that nobody named has an age")
	}
	before, _ := w.Age("example.org")
	write(t, name, `{"keys":null}`)
	w.Reload()
	o.want(t, map[string]string{"example.org": `{"keys":null}`})
	o.wantLines(t, 1, "bundle source is well again")
	if after, _ := w.Age("example.org"); after >= before {
		t.Errorf("the age of a good bundle went from %v to %v", before, after)
	}
}

// A bundle with many entries of no use, and others each time, costs a few lines of the log each time, and no memory.
func TestManyEntriesThatArePassedOver(t *testing.T) {
	name := filepath.Join(t.TempDir(), "bundle.json")
	many := func(round int) string {
		var entries []string
		for i := 0; i < 10_000; i++ {
			entries = append(entries, fmt.Sprint(round*10_000+i))
		}
		return `{"keys":[` + strings.Join(entries, ",") + `]}`
	}
	write(t, name, many(0))
	w, o := watch(t, nil, Spec{Domain: "example.org", Source: name})
	for round := 1; round < 4; round++ {
		write(t, name, many(round))
		w.Reload()
	}
	o.wantLines(t, 4*mostSaid, "key passed over")
	o.wantLines(t, 4, "keys 0 passed_over 10000")
	if n := len(w.said["example.org"]); n != mostSaid {
		t.Errorf("%d entries are kept", n)
	}
}

// What was wrong with files of a folder is forgotten with them.
func TestFaultsOfFilesThatAreGone(t *testing.T) {
	dir := t.TempDir()
	named := filepath.Join(dir, "a file that is named")
	w, _ := watch(t, nil, Folder(dir), Spec{Domain: "named", Source: named})
	for i := 0; i < 50; i++ {
		bad := filepath.Join(dir, fmt.Sprintf("d%d.json", i))
		write(t, bad, "half")
		w.Reload()
		if err := os.Remove(bad); err != nil {
			t.Fatal(err)
		}
	}
	w.Reload()
	if len(w.faults) != 1 || w.faults[named] == "" {
		t.Errorf("%d faults are kept: %v", len(w.faults), w.faults)
	}
	for _, err := range []error{w.Fault(), w.FileFault()} {
		if err == nil || !strings.HasPrefix(err.Error(), "named: ") { // (and it is none of the folder's)
			t.Errorf("the fault of a file that a spec names: %v", err)
		}
	}
}

// An endpoint that does not answer, or stops within its answer, is given up; the last good bundle stays meanwhile, and
// the end of the watcher waits for no answer.
func TestAnEndpointThatHangs(t *testing.T) {
	hang, free := make(chan bool, 1), make(chan struct{})
	e := httptest.NewTLSServer(http.HandlerFunc(func(w http.ResponseWriter, r *http.Request) {
		select {
		case half := <-hang:
			if half {
				w.Write([]byte(spire[:100]))
				w.(http.Flusher).Flush()
			}
			<-free
		default:
			w.Write([]byte(spire))
		}
	}))
	t.Cleanup(e.Close)
	t.Cleanup(func() { close(free) })
	w, o := watch(t, func(o *Options) {
		o.Limit = 500 * time.Millisecond
		o.Roots = x509.NewCertPool()
		o.Roots.AddCert(e.Certificate())
	}, Spec{Domain: "example.org", Source: e.URL})
	o.await(t, "the bundle", func() bool { return o.last["example.org"] == spire })
	for _, half := range []bool{false, true} {
		hang <- half
		w.Reload()
		o.await(t, "a fault", func() bool { return strings.Contains(strings.Join(o.lines, "\n"), "deadline exceeded") })
		o.want(t, map[string]string{"example.org": spire})
		o.mu.Lock()
		o.lines = nil
		o.mu.Unlock()
		w.Reload()
		o.await(t, "the bundle again", func() bool { return strings.Contains(strings.Join(o.lines, "\n"), "well again") })
	}
}

// The end of the context ends every goroutine, also one that waits for an answer.
func TestTheEndLeavesNothing(t *testing.T) {
	asked := make(chan bool, 1)
	e := httptest.NewTLSServer(http.HandlerFunc(func(w http.ResponseWriter, r *http.Request) { asked <- true; <-r.Context().Done() }))
	t.Cleanup(e.Close)
	before := runtime.NumGoroutine()
	ctx, cancel := context.WithCancel(context.Background())
	roots := x509.NewCertPool()
	roots.AddCert(e.Certificate())
	if _, err := Watch(ctx, []Spec{{Domain: "example.org", Source: e.URL}, Folder(t.TempDir())}, func(map[string]json.RawMessage) error { return nil }, Options{Roots: roots}); err != nil {
		t.Fatal(err)
	}
	<-asked
	cancel()
	for end := time.Now().Add(patience.Long); runtime.NumGoroutine() > before; time.Sleep(time.Millisecond) {
		if time.Now().After(end) {
			t.Fatalf("%d goroutines, and %d before", runtime.NumGoroutine(), before)
		}
	}
}

func TestFileThatComesLater(t *testing.T) {
	name := filepath.Join(t.TempDir(), "bundle.json")
	_, o := watch(t, func(o *Options) { o.Every = time.Millisecond }, Spec{Domain: "example.org", Source: name})
	if o.calls != 0 {
		t.Error("told of nothing")
	}
	write(t, name+".new", spire)
	if err := os.Rename(name+".new", name); err != nil {
		t.Fatal(err)
	}
	o.await(t, "the bundle", func() bool { return o.last["example.org"] == spire })
	o.wantLines(t, 1, "bundle not read")
}

func TestFolder(t *testing.T) {
	dir := t.TempDir()
	write(t, filepath.Join(dir, "example.org.json"), spire)
	write(t, filepath.Join(dir, "Example.com.json"), spire)
	write(t, filepath.Join(dir, "example.org.txt"), "no bundle")
	write(t, filepath.Join(dir, "named.json"), `{"keys":[1]}`)
	named := filepath.Join(t.TempDir(), "other")
	write(t, named, spire)
	first := filepath.Join(t.TempDir(), "first")
	write(t, first, spire)
	w, o := watch(t, nil, Spec{Domain: "first", Source: first}, Folder(dir), Spec{Domain: "named", Source: named})
	o.want(t, map[string]string{"first": spire, "example.org": spire, "named": spire})
	o.wantLines(t, 1, `"Example.com" is no trust domain's name`)
	o.wantLines(t, 1, "the bundle of named comes from "+named)
	o.wantLines(t, 0, "example.org.txt")

	const none = `{"keys":[]}`
	write(t, filepath.Join(dir, "b.json"), none)
	write(t, first, none)
	write(t, named, none)
	w.Reload() // reads all of them
	o.want(t, map[string]string{"first": none, "example.org": spire, "named": none, "b": none})
	remove(t, filepath.Join(dir, "Example.com.json"))
	remove(t, filepath.Join(dir, "named.json"))
	write(t, filepath.Join(dir, "example.org.json"), "half")
	w.Reload()
	o.want(t, map[string]string{"first": none, "example.org": spire, "named": none, "b": none})
	if err := w.FileFault(); err == nil || !strings.HasPrefix(err.Error(), "example.org.json: ") {
		t.Errorf("%v does not tell which file of the folder it is", err)
	}
	if err := os.Remove(filepath.Join(dir, "example.org.json")); err != nil {
		t.Fatal(err)
	}
	w.Reload()
	o.want(t, map[string]string{"first": none, "named": none, "b": none})
	o.wantLines(t, 1, "bundle dropped: its file is gone domain example.org")
	if err := os.Rename(dir, dir+".away"); err != nil {
		t.Fatal(err)
	}
	w.Reload()
	o.want(t, map[string]string{"first": none, "named": none, "b": none}) // A folder that can't be read takes nothing with it.
	if err := os.Rename(dir+".away", dir); err != nil {
		t.Fatal(err)
	}
}

func TestCheckKeepsTheLastGoodBundle(t *testing.T) {
	name := filepath.Join(t.TempDir(), "bundle.json")
	write(t, name, spire)
	w, o := watch(t, func(o *Options) {
		o.Check = func(domain string, document json.RawMessage) error {
			if domain != "example.org" || strings.Contains(string(document), "bad") {
				return errors.New("too deep")
			}
			return nil
		}
	}, Spec{Domain: "example.org", Source: name})
	write(t, name, `{"keys":["bad"]}`)
	w.Reload()
	o.want(t, map[string]string{"example.org": spire})
	o.wantLines(t, 1, "why too deep")
}

// An endpoint is a bundle endpoint over https.
type endpoint struct {
	*httptest.Server
	mu     sync.Mutex
	status int
	text   string
	to     string
	asked  int
	shown  *tls.Certificate // nil for that of httptest
	most   uint16           // version of TLS; 0 for any
}

func newEndpoint(t *testing.T) *endpoint {
	e := &endpoint{status: http.StatusOK, text: spire}
	e.Server = httptest.NewUnstartedServer(http.HandlerFunc(func(w http.ResponseWriter, r *http.Request) {
		e.mu.Lock()
		defer e.mu.Unlock()
		e.asked++
		if e.to != "" {
			http.Redirect(w, r, e.to, http.StatusFound)
			return
		}
		w.WriteHeader(e.status)
		w.Write([]byte(e.text))
	}))
	e.Config.ErrorLog = log.New(io.Discard, "", 0)
	e.TLS = &tls.Config{GetConfigForClient: func(*tls.ClientHelloInfo) (*tls.Config, error) {
		e.mu.Lock()
		defer e.mu.Unlock()
		if e.shown == nil {
			return nil, nil
		}
		return &tls.Config{Certificates: []tls.Certificate{*e.shown}, MinVersion: tls.VersionTLS10, MaxVersion: e.most}, nil
	}}
	e.StartTLS()
	t.Cleanup(e.Close)
	return e
}

func (e *endpoint) set(status int, text, to string) {
	e.mu.Lock()
	defer e.mu.Unlock()
	e.status, e.text, e.to = status, text, to
}

func (e *endpoint) trusted(o *Options) {
	o.Roots = x509.NewCertPool()
	o.Roots.AddCert(e.Certificate())
}

func TestAddress(t *testing.T) {
	e := newEndpoint(t)
	w, o := watch(t, e.trusted, Spec{Domain: "example.org", Source: e.URL})
	o.await(t, "the bundle", func() bool { return o.last["example.org"] == spire })
	plain := httptest.NewServer(http.NotFoundHandler())
	defer plain.Close()
	for why, set := range map[string]func(){
		"it answers 503":       func() { e.set(http.StatusServiceUnavailable, spire, "") },
		"it is no JSON object": func() { e.set(http.StatusOK, "<html>", "") },
		"it leads to http://":  func() { e.set(http.StatusOK, "", plain.URL) },
		"it has more than":     func() { e.set(http.StatusOK, strings.Repeat(" ", mostDocument+1), "") },
		"it leads to " + e.URL: func() { e.set(http.StatusOK, "", e.URL) },
	} {
		set()
		w.Reload()
		o.await(t, why, func() bool { return strings.Contains(strings.Join(o.lines, "\n"), why) })
		o.want(t, map[string]string{"example.org": spire})
	}
	e.set(http.StatusOK, `{"keys":[]}`, "")
	w.Reload()
	o.await(t, "the next bundle", func() bool { return o.last["example.org"] == `{"keys":[]}` })
	o.wantLines(t, 1, "bundle source is well again")
}

func TestAddressOfAnAuthorityThatIsNotTrusted(t *testing.T) {
	e := newEndpoint(t)
	_, o := watch(t, nil, Spec{Domain: "example.org", Source: e.URL})
	o.await(t, "a fault", func() bool { return len(o.lines) > 0 })
	o.wantLines(t, 1, "certificate")
	if o.calls != 0 {
		t.Error("a bundle was read from an endpoint that is not trusted")
	}
}

func TestRefreshHints(t *testing.T) {
	for text, want := range map[string]time.Duration{
		`{"keys":[],"spiffe_refresh_hint":300}`:                 300 * time.Second,
		`{"keys":[],"spiffe_refresh_hint":1}`:                   shortestRefresh,
		`{"keys":[],"spiffe_refresh_hint":1e3}`:                 usualRefresh,
		`{"keys":[],"spiffe_refresh_hint":1e300}`:               usualRefresh,
		`{"keys":[],"spiffe_refresh_hint":9223372036854775807}`: longestRefresh,
		`{"keys":[],"spiffe_refresh_hint":-5}`:                  usualRefresh,
		`{"keys":[],"spiffe_refresh_hint":"soon"}`:              usualRefresh,
		`{"keys":[],"spiffe_refresh_hint":null}`:                usualRefresh,
		`{"keys":[]}`:                                           usualRefresh,
	} {
		d, err := parse([]byte(text))
		if got := d.refresh(); got != want || err != nil {
			t.Errorf("%s: %v %v, want %v", text, got, err, want)
		}
	}
}

func TestEntriesThatArePassedOver(t *testing.T) {
	for entry, want := range map[string]string{
		`{"use":"jwt-svid","kid":"","kty":"EC"}`:   "",
		`{"use":"jwt-svid","kid":"a","kty":"RSA"}`: "",
		`1`:                                        "it is no JSON object",
		`null`:                                     "it is no JSON object",
		`{"kid":"a","kty":"EC"}`:                   `it has no use, which must be "jwt-svid"`,
		`{"use":"sig","kid":"a","kty":"EC"}`:       `its use is not "jwt-svid"`,
		`{"use":"x509-svid","kty":"EC"}`:           "it is for X.509-SVIDs",
		`{"use":"jwt-svid","kty":"EC"}`:            "its kid is not there, or no text",
		`{"use":"jwt-svid","kid":1,"kty":"EC"}`:    "its kid is not there, or no text",
		`{"use":"jwt-svid","kid":"a","kty":"OKP"}`: "its kty is neither RSA nor EC",
	} {
		if got, _ := passedOver(json.RawMessage(entry)); got != want {
			t.Errorf("%s: %q, want %q", entry, got, want)
		}
	}
}

func TestSpecs(t *testing.T) {
	for text, want := range map[string]Spec{
		"example.org=bundle.json":          {Domain: "example.org", Source: "bundle.json"},
		"a=/etc/b=c.json":                  {Domain: "a", Source: "/etc/b=c.json"},
		"example.org=https://h:8443/b?x=1": {Domain: "example.org", Source: "https://h:8443/b?x=1"},
	} {
		if got, err := Parse(text); got != want || err != nil {
			t.Errorf("%s: %v %v", text, got, err)
		}
	}
	for _, bad := range []string{"", "example.org", "example.org=", "=bundle.json", "Example.org=b", "a=http://h/b", "a=https://",
		"a=https://user:secret@h/b", "a=https://user:sec ret@h/b", "a=http://user:secret@h/b", strings.Repeat("a", 256) + "=b"} {
		if got, err := Parse(bad); err == nil || strings.Contains(err.Error(), "ret@") {
			t.Errorf("%q is %v, and the error has the password or is none: %v", bad, got, err)
		}
	}
	if _, err := Parse("bundle.json"); err == nil || !strings.Contains(err.Error(), `"bundle.json": name the one trust domain whose bundle it is`) {
		t.Errorf("a file without a name: %v", err)
	}
	specs, err := ParseSpecs([]string{"a=b", "c=https://d"}, "dir")
	if want := []Spec{{Domain: "a", Source: "b"}, {Domain: "c", Source: "https://d"}, Folder("dir")}; !reflect.DeepEqual(specs, want) || err != nil {
		t.Errorf("%v %v, want %v", specs, err, want)
	}
	specs, err = ParseSpecs([]string{"a=b"}, "", ofAgent(t, "unix:/c"))
	if want := []Spec{{Domain: "a", Source: "b"}, ofAgent(t, "unix:/c")}; !reflect.DeepEqual(specs, want) || err != nil {
		t.Errorf("%v %v, want %v", specs, err, want)
	}
	for _, bad := range [][]string{{"a"}, {"a=b", "a=c"}} {
		if _, err := ParseSpecs(bad, ""); err == nil {
			t.Errorf("%q was read", bad)
		}
	}
	for _, bad := range [][]Spec{{{Domain: "a", Source: "b"}, {Domain: "a", Source: "c"}}, {Folder("a"), Folder("b")}, {Folder("a"), ofAgent(t, "unix:/b")},
		{WorkloadAPI("unix:/b", nil)}, {{Domain: "A", Source: "b"}}} {
		if _, err := Watch(context.Background(), bad, nil, Options{}); err == nil {
			t.Errorf("%v was taken", bad)
		}
	}
}

// A bundle whose keys name no use verifies no token. A source that was never read has no last good bundle.
func TestWhatAnOperatorMustSee(t *testing.T) {
	name := filepath.Join(t.TempDir(), "bundle.json")
	w, o := watch(t, nil, Spec{Domain: "example.org", Source: name})
	o.wantLines(t, 1, "bundle not read source "+name)
	write(t, name, `{"keys":[{"kty":"EC","kid":"a"}]}`)
	w.Reload()
	o.wantLines(t, 1, "bundle read domain example.org source "+name+" keys 0 passed_over 1")
	o.wantLines(t, 1, "bundle has no key domain example.org source "+name+` why no token of this trust domain can be accepted: no entry of it has the use "jwt-svid": it has no use`)
	if err := os.Remove(name); err != nil {
		t.Fatal(err)
	}
	w.Reload()
	o.wantLines(t, 1, "bundle not read; the last good one stays source "+name)
}
