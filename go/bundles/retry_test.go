package bundles

import (
	"context"
	"crypto/x509"
	"encoding/json"
	"errors"
	"net"
	"net/http"
	"net/http/httptest"
	"runtime"
	"strings"
	"testing"
	"time"

	"svid.example/go/v3/internal/agenttest"
	"svid.example/go/v3/internal/patience"
)

// A clock lets a test see each pause, and end it.
type clock struct {
	pauses chan time.Duration
	end    chan time.Time
}

func newClock() *clock { return &clock{make(chan time.Duration), make(chan time.Time)} }

func (c *clock) after(pause time.Duration) <-chan time.Time {
	c.pauses <- pause
	return c.end
}

// want wants the next pause to be of this length. It goes on until over.
func (c *clock) want(t *testing.T, what string, pause time.Duration) {
	t.Helper()
	select {
	case got := <-c.pauses:
		if got != pause {
			t.Errorf("%s: a pause of %v, want %v", what, got, pause)
		}
	case <-time.After(patience.Long):
		t.Fatalf("%s: there is no pause", what)
	}
}

func (c *clock) over(t *testing.T) {
	t.Helper()
	select {
	case c.end <- time.Time{}:
	case <-time.After(patience.Long):
		t.Fatal("nobody waits for the end of the pause")
	}
}

// asked is how often an endpoint was asked since the last call.
func (e *endpoint) askedSince() (n int) {
	e.mu.Lock()
	defer e.mu.Unlock()
	n, e.asked = e.asked, 0
	return n
}

// An address is asked once, and then there is a pause: as the bundle's hint says, five minutes without one, and ten seconds behind
// an error. Reload ends it. One fault has one line, and another one has another.
func TestPausesOfAnAddress(t *testing.T) {
	e, c := newEndpoint(t), newClock()
	w, o := watch(t, func(o *Options) { e.trusted(o); o.after = c.after }, Spec{Domain: "example.org", Source: e.URL})
	next := func(what string, pause time.Duration, lines int, text string) {
		t.Helper()
		c.want(t, what, pause)
		if n := e.askedSince(); n != 1 {
			t.Errorf("%s: it was asked %d times", what, n)
		}
		o.wantLines(t, lines, text)
	}
	next("a bundle", 300*time.Second, 1, "bundle read domain example.org source "+e.URL)
	c.over(t)
	next("the same", 300*time.Second, 1, "bundle read") // once for each bundle
	e.set(http.StatusServiceUnavailable, "", "")
	for range make([]struct{}, 3) {
		c.over(t)
		next("an error", 10*time.Second, 1, "bundle not read; the last good one stays source "+e.URL+" why it answers 503")
	}
	w.Reload()
	next("an error again", 10*time.Second, 1, "bundle not read")
	e.set(http.StatusOK, "{", "")
	for range make([]struct{}, 2) {
		c.over(t)
		next("another error", 10*time.Second, 1, "why it is no JSON object")
	}
	e.set(http.StatusServiceUnavailable, "", "")
	c.over(t)
	next("the first one again", 10*time.Second, 2, "why it answers 503")
	o.wantLines(t, 0, "well again")
	o.want(t, map[string]string{"example.org": spire})
	e.set(http.StatusOK, `{"keys":[]}`, "")
	c.over(t)
	next("another bundle", 5*time.Minute, 1, "bundle source is well again source "+e.URL)
	e.set(http.StatusOK, `{"keys":[],"spiffe_refresh_hint":5}`, "")
	c.over(t)
	next("a small hint", 10*time.Second, 1, "well again") // (and it was not unwell)
	o.wantLines(t, 3, "bundle read domain example.org")
	if o.calls != 3 {
		t.Errorf("told %d times of three bundles", o.calls)
	}
}

// An agent that is away is asked again after a second, and then after twice the pause each time, up to half a minute. The pauses
// begin again once it has given bundles. The log has one line.
func TestPausesOfAWorkloadAPI(t *testing.T) {
	agent, c := agenttest.Start(t), newClock()
	agent.Refuse(t, "UNAVAILABLE", "soon")
	w, o := watch(t, func(o *Options) { o.after, o.calm = c.after, 1 }, ofAgent(t, agent.Address))
	for _, seconds := range []time.Duration{1, 2, 4, 8, 16, 30, 30} {
		c.want(t, "an agent that is not ready", seconds*time.Second)
		o.wantLines(t, 1, "bundle not read source "+agent.Address+" why it is not ready (Unavailable): soon")
		c.over(t)
	}
	c.want(t, "an agent that is not ready", 30*time.Second)
	agent.Give(t, map[string]string{"spiffe://example.org": bare})
	w.Reload() // ends a pause
	o.await(t, "the bundle", o.calledTimes(1))
	o.await(t, "a word of it", o.says("bundle source is well again source "+agent.Address))
	agent.Refuse(t, "UNAVAILABLE", "soon")
	for _, seconds := range []time.Duration{1, 2} {
		c.want(t, "an agent that is away again", seconds*time.Second)
		o.wantLines(t, 1, "bundle not read; the last good one stays source "+agent.Address+" why it is not ready (Unavailable): soon")
		c.over(t)
	}
	c.want(t, "an agent that is away again", 4*time.Second)
	o.wantLines(t, 1, "well again")

	// One that refuses the call itself is not asked again, until Reload.
	agent.Refuse(t, "INVALID_ARGUMENT", "no")
	c.over(t)
	o.await(t, "the refusal", o.says("it refuses the call itself"))
	agent.Give(t, map[string]string{"spiffe://example.org": spire})
	w.Reload()
	o.await(t, "the other bundle", o.calledTimes(2))
	o.await(t, "a word of it", func() bool { return strings.Count(strings.Join(o.lines, "\n"), "well again") == 2 })
	select {
	case pause := <-c.pauses:
		t.Errorf("after a refusal for good there is a pause of %v", pause)
	default:
	}
}

// A Workload API may come and go many times a second. The log has a line of each kind once in a while, with the number of those left out, and how it is in
// the end.
func TestAWorkloadAPIThatComesAndGoes(t *testing.T) {
	agent := agenttest.Start(t)
	w, o := watch(t, func(o *Options) {
		o.after, o.calm, o.Every = func(time.Duration) <-chan time.Time { return time.After(time.Millisecond) }, time.Hour, 10*time.Millisecond
	}, ofAgent(t, agent.Address))
	until := func(what string, is func() bool) { // (without the lock of the observer, which the watcher takes for each line)
		t.Helper()
		for end := time.Now().Add(patience.Long); !is(); time.Sleep(time.Millisecond) {
			if time.Now().After(end) {
				t.Fatalf("waited in vain for %s", what)
			}
		}
	}
	const rounds = 10
	for i := 0; i < rounds; i++ {
		agent.Give(t, map[string]string{"spiffe://example.org": bare})
		until("bundles", func() bool { return w.Answered() && w.Fault() == nil })
		agent.Refuse(t, "UNAVAILABLE", "soon")
		until("the end of them", func() bool { return w.Fault() != nil })
	}
	o.wantLines(t, 1, "bundle not read; the last good one stays source "+agent.Address)
	o.wantLines(t, 1, "bundle source is well again source "+agent.Address)
	calm := func(is time.Duration) {
		w.mu.Lock()
		w.options.calm = is
		w.mu.Unlock()
	}
	twice := func(text string) {
		t.Helper()
		o.await(t, "another line of "+text, func() bool { return strings.Count(strings.Join(o.lines, "\n"), text) == 2 })
	}
	calm(1)
	twice("bundle not read; the last good one stays source " + agent.Address)
	o.wantLines(t, 1, "unlogged")
	calm(time.Hour)
	agent.Give(t, map[string]string{"spiffe://example.org": spire})
	until("bundles again", func() bool { return w.Fault() == nil })
	calm(1)
	twice("bundle source is well again source " + agent.Address)
}

// Bundles that were not taken, because memory ran out, are given again at each look at the files, until they are. The log says it once.
func TestBundlesThatWereNotTaken(t *testing.T) {
	name := t.TempDir() + "/bundle.json"
	write(t, name, spire)
	agent := agenttest.Start(t)
	agent.Give(t, map[string]string{"spiffe://example.com": bare})
	w, o := watch(t, nil, Spec{Domain: "example.org", Source: name}, ofAgent(t, agent.Address))
	o.await(t, "both", o.calledTimes(2))
	fail := func(err error) {
		o.mu.Lock()
		defer o.mu.Unlock()
		o.fault = err
	}
	w.readFiles()
	if o.calls != 2 {
		t.Errorf("told %d times of what was taken", o.calls)
	}
	fail(errors.New("out of memory"))
	agent.Give(t, map[string]string{"spiffe://example.com": spire})
	o.await(t, "the other bundle", o.calledTimes(3))
	o.await(t, "a word of it", o.says("bundles not taken; those before stay why out of memory"))
	for i := 4; i < 7; i++ {
		w.readFiles()
		if o.calls != i || len(o.last) != 2 {
			t.Errorf("call %d: told %d times, the last time of %d bundles", i, o.calls, len(o.last))
		}
	}
	o.wantLines(t, 1, "bundles not taken")
	fail(errors.New("another fault"))
	w.readFiles()
	o.wantLines(t, 2, "bundles not taken")
	fail(nil)
	w.readFiles()
	w.readFiles()
	if o.calls != 8 {
		t.Errorf("told %d times", o.calls)
	}
	fail(errors.New("another fault"))
	write(t, name, `{"keys":[]}`)
	w.readFiles()
	o.wantLines(t, 3, "bundles not taken") // a new fault
}

// The end of a watcher is no fault of its sources: the log has no line of it.
func TestTheEndIsNoFault(t *testing.T) {
	asked := make(chan bool, 1)
	e := httptest.NewTLSServer(http.HandlerFunc(func(w http.ResponseWriter, r *http.Request) { asked <- true; <-r.Context().Done() }))
	defer e.Close()
	agent := agenttest.Start(t)
	agent.Give(t, map[string]string{"spiffe://example.com": bare})
	before := runtime.NumGoroutine()
	ctx, cancel := context.WithCancel(context.Background())
	roots, o := x509.NewCertPool(), &observer{}
	roots.AddCert(e.Certificate())
	if _, err := Watch(ctx, []Spec{{Domain: "example.org", Source: e.URL}, ofAgent(t, agent.Address)}, o.changed, Options{Log: o.log, Roots: roots}); err != nil {
		t.Fatal(err)
	}
	<-asked
	o.await(t, "the bundle of the agent", o.calledTimes(1))
	cancel()
	o.await(t, "the end", func() bool { return runtime.NumGoroutine() <= before })
	o.wantLines(t, 0, "not read")
}

// A source is well again once, entries that come back are named again, and so are those of a bundle that was dropped.
func TestWhatIsLoggedAnew(t *testing.T) {
	dir := t.TempDir()
	name := dir + "/example.org.json"
	w, o := watch(t, nil, Folder(dir))
	reload := func(text string) {
		t.Helper()
		write(t, name, text)
		w.Reload()
	}
	reload(`{"keys":[1]}`)
	reload(`{"keys":[1,2]}`)
	o.wantLines(t, 1, "key passed over domain example.org source "+name+" entry 0")
	o.wantLines(t, 1, "key passed over domain example.org source "+name+" entry 1")
	reload(`{"keys":[2]}`)
	o.wantLines(t, 2, "key passed over")
	reload(`{"keys":[2,1]}`)
	o.wantLines(t, 3, "key passed over")
	for range make([]struct{}, 2) {
		reload("half")
	}
	o.wantLines(t, 1, "bundle not read; the last good one stays source "+name)
	for range make([]struct{}, 2) {
		reload(`{"keys":[2,1]}`)
	}
	o.wantLines(t, 1, "bundle source is well again source "+name)
	o.wantLines(t, 4, "bundle read")
	remove(t, name)
	for range make([]struct{}, 2) {
		w.Reload()
	}
	o.wantLines(t, 1, "bundle dropped: its file is gone")
	reload(`{"keys":[2,1]}`)
	o.wantLines(t, 5, "key passed over")
	o.wantLines(t, 5, "bundle read")
	// What was wrong with a file that is gone counts as a new fault.
	for range make([]struct{}, 2) {
		reload("half")
		remove(t, name)
		w.Reload()
	}
	o.wantLines(t, 2, "bundle not read; the last good one stays source "+name)
}

// So it is where an agent gives a bundle no more, and gives it again.
func TestWhatIsLoggedAnewOfAnAgent(t *testing.T) {
	const entries = `{"keys":[1]}`
	agent := agenttest.Start(t)
	_, o := watch(t, nil, ofAgent(t, agent.Address))
	for round := 1; round < 3; round++ {
		agent.Give(t, map[string]string{"spiffe://a": bare, "spiffe://b": entries})
		o.await(t, "both", o.calledTimes(2*round-1))
		o.wantLines(t, round, "key passed over domain b source b of "+agent.Address)
		agent.Give(t, map[string]string{"spiffe://a": bare})
		o.await(t, "one", o.calledTimes(2*round))
		o.wantLines(t, round, "bundle dropped: the Workload API has it no more domain b")
	}
	o.wantLines(t, 1, "bundle read domain a")
}

// A key that nobody can use is named with its reason. Where no other one is there, the log says so. Of many keys the first ones are
// looked at.
func TestKeysThatCannotBeUsed(t *testing.T) {
	const key = `{"use":"jwt-svid","kid":"a","kty":"EC"}`
	asked := 0
	name := t.TempDir() + "/bundle.json"
	write(t, name, `{"keys":[`+key+`]}`)
	w, o := watch(t, func(o *Options) {
		o.Unusable = func(text json.RawMessage) string {
			if asked++; strings.Contains(string(text), "good") {
				return ""
			}
			return "its curve is none"
		}
	}, Spec{Domain: "example.org", Source: name})
	o.wantLines(t, 1, "key passed over domain example.org source "+name+" entry 0 why its curve is none")
	o.wantLines(t, 1, "bundle read domain example.org source "+name+" keys 0 passed_over 1")
	o.wantLines(t, 1, "bundle has no key domain example.org source "+name+" why no token of this trust domain can be accepted: no key of it can be used: its curve is none")
	write(t, name, `{"keys":[1,`+key+","+strings.Replace(key, `"a"`, `"good"`, 1)+`]}`)
	w.Reload()
	o.wantLines(t, 1, "key passed over domain example.org source "+name+" entry 0 why its curve is none") // it was said
	o.wantLines(t, 1, "bundle read domain example.org source "+name+" keys 1 passed_over 2")
	o.wantLines(t, 1, "bundle has no key")
	if asked != 3 {
		t.Errorf("asked about %d keys of three: 1 is no key", asked)
	}
	good := strings.Replace(key, `"a"`, `"good"`, 1)
	for _, c := range []struct {
		keys  string
		asked int
		has   string
	}{
		{good + "," + strings.Repeat(key+",", mostJudged+9) + key, mostJudged, "keys 12 passed_over 63"}, // Those that nobody was asked about count.
		{strings.Repeat(key+",", mostJudged+9) + good, mostJudged + 10, "keys 1 passed_over 73"},
		{strings.Repeat(key+",", mostJudged+9) + key, mostJudged + 10, "keys 0 passed_over 74"},
	} {
		asked = 0
		write(t, name, `{"keys":[`+c.keys+`]}`)
		w.Reload()
		if asked != c.asked {
			t.Errorf("asked about %d keys, not %d", asked, c.asked)
		}
		o.wantLines(t, 1, "bundle read domain example.org source "+name+" "+c.has)
	}
}

// How many keys of a bundle can be used, and if none can, which cause has it: the list is empty, no entry is for tokens, or no key can be used.
func TestUsableKeys(t *testing.T) {
	unusable := func(key json.RawMessage) string {
		if strings.Contains(string(key), "good") {
			return ""
		}
		return "its curve is none"
	}
	const of = `"kid":"a","kty":"EC"}`
	for _, c := range []struct {
		bundle string
		keys   int
		why    string
	}{
		{`{"keys":[]}`, 0, "its list of keys is empty"},
		{`{"keys":null}`, 0, "its list of keys is empty"},
		{`{"keys":[{` + of + `]}`, 0, `no entry of it has the use "jwt-svid": it has no use`},
		{`{"keys":[{"use":"x509-svid",` + of + `]}`, 0, `no entry of it has the use "jwt-svid": `},
		{`{"keys":[{"use":"x509-svid",` + of + `,{"use":"jwt-svid",` + of + `]}`, 0, "no key of it can be used: its curve is none"},
		{`{"keys":[1,{"use":"jwt-svid","good":1,` + of + `,{"use":"jwt-svid",` + of + `]}`, 1, ""},
		{`{}`, 0, `it has no member "keys"`},
		{``, 0, "it is no JSON object"},
	} {
		keys, err := Usable(json.RawMessage(c.bundle), unusable)
		if keys != c.keys || (err == nil) != (c.why == "") || err != nil && !strings.HasPrefix(err.Error(), c.why) {
			t.Errorf("%s: %d keys, %v", c.bundle, keys, err)
		}
	}
}

// A private key in a bundle is named, since whoever reads the bundle can sign tokens. Its public part counts as before.
func TestAPrivateKeyInABundle(t *testing.T) {
	name := t.TempDir() + "/bundle.json"
	for entries, want := range map[string]string{
		`{"use":"jwt-svid","kid":"a","kty":"EC"},{"use":"jwt-svid","kid":"b","kty":"EC","d":"AQ"}`: "entry 1",
		`{"use":"x509-svid","kty":"RSA","d":"AQ"},{"kty":"oct","k":"AQ"}`:                          "entry 0",
		`1,{"kty":"oct","k":"AQ"}`:                       "entry 1",
		`{"use":"jwt-svid","kid":"a","kty":"EC","D":""}`: "",
	} {
		write(t, name, `{"keys":[`+entries+`]}`)
		_, o := watch(t, nil, Spec{Domain: "example.org", Source: name})
		if want == "" {
			o.wantLines(t, 0, "bundle has a private key")
			continue
		}
		o.wantLines(t, 1, "bundle has a private key domain example.org source "+name+" "+want+" why it has the private part of a key")
	}
}

// An address that resets each connection has one fault, whatever port this machine draws.
func TestAFaultOfEachConnectionIsOne(t *testing.T) {
	l, err := net.Listen("tcp", "127.0.0.1:0")
	if err != nil {
		t.Fatal(err)
	}
	defer l.Close()
	go func() {
		for conn, err := l.Accept(); err == nil; conn, err = l.Accept() {
			_, _ = conn.Read(make([]byte, 1))
			_ = conn.(*net.TCPConn).SetLinger(0)
			conn.Close()
		}
	}()
	c := newClock()
	_, o := watch(t, func(o *Options) { o.after = c.after }, Spec{Domain: "example.org", Source: "https://" + l.Addr().String()})
	for range make([]struct{}, 3) {
		c.want(t, "a connection that is reset", shortestRefresh)
		o.wantLines(t, 1, "bundle not read")
		c.over(t)
	}
}
