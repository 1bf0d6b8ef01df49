package guard

import (
	"bytes"
	"context"
	"crypto/tls"
	"crypto/x509"
	"encoding/json"
	"errors"
	"fmt"
	"net/http"
	"net/http/httptest"
	"net/url"
	"os"
	"path/filepath"
	"strings"
	"sync"
	"testing"
	"time"

	"svid.example/go/v3/bundles"
	"svid.example/go/v3/carriers"
	"svid.example/go/v3/claims"
	"svid.example/go/v3/claims/memory"
	"svid.example/go/v3/internal/issuer"
	"svid.example/go/v3/internal/patience"
	"svid.example/go/v3/internal/server"
	"svid.example/go/v3/svid"
	"svid.example/go/v3/workload"
)

var example = func() *issuer.Issuer {
	i, err := issuer.New("example.org")
	if err != nil {
		panic(err)
	}
	return i
}()

// token is one of example.org's /web for the ledger.
func token(name string) string {
	return example.Token("ES256", map[string]any{"sub": "spiffe://example.org/web", "aud": "ledger", "exp": svid.Now() + 300, "jti": name})
}

// bundleFile is the spec of a file with the bundle of an issuer.
func bundleFile(t testing.TB, i *issuer.Issuer) bundles.Spec {
	t.Helper()
	name := filepath.Join(t.TempDir(), "bundle.json")
	if err := os.WriteFile(name, i.JWKSet(), 0o600); err != nil {
		t.Fatal(err)
	}
	spec, err := bundles.Parse("example.org=" + name)
	if err != nil {
		t.Fatal(err)
	}
	return spec
}

// usual are options of mode once with a state folder of its own.
func usual(t testing.TB) Options {
	return Options{Audiences: []string{"ledger"}, Bundles: []bundles.Spec{bundleFile(t, example)}, State: filepath.Join(t.TempDir(), "state"), Wait: time.Minute}
}

func open(t testing.TB, o Options) *Guard {
	t.Helper()
	g, err := Open(o)
	if err != nil {
		t.Fatal(err)
	}
	t.Cleanup(g.Close)
	return g
}

// Options that are corrected open the folder that those of before could not.
func TestOptionsThatAreCorrected(t *testing.T) {
	o := usual(t)
	o.Bundles[0].Domain = "A"
	if _, err := Open(o); err == nil {
		t.Fatal("a misspelled trust domain")
	}
	o.Bundles[0].Domain = "example.org"
	open(t, o)
}

// hello answers who calls.
var hello = http.HandlerFunc(func(w http.ResponseWriter, r *http.Request) { fmt.Fprintln(w, "hello", Caller(r).ID) })

// ask asks a handler with these values of Authorization, and returns the answer.
func ask(h http.Handler, authorization ...string) *httptest.ResponseRecorder {
	r, w := httptest.NewRequest(http.MethodGet, "/", nil), httptest.NewRecorder()
	r.Header["Authorization"] = authorization
	h.ServeHTTP(w, r)
	return w
}

// A token is accepted once, and not after a restart; what else comes is denied as svidd denies it.
func TestAServiceAcceptsEachTokenOnce(t *testing.T) {
	o := usual(t)
	o.Allow = []string{"spiffe://example.org/web"}
	g := open(t, o)
	other := example.Token("ES256", map[string]any{"sub": "spiffe://example.org/other", "aud": "ledger", "exp": svid.Now() + 300})
	good := token("good")
	for i, row := range []struct {
		authorization   []string
		status          int
		body, challenge string
	}{
		{[]string{"Bearer " + good}, 200, "hello spiffe://example.org/web\n", ""},
		{[]string{"Bearer " + good}, 401, `{"reason":"Replayed","result":"refused"}`, `Bearer error="invalid_token", error_description="Replayed"`},
		{nil, 401, `{"reason":"NoToken","result":"refused"}`, `Bearer realm="svid"`},
		{[]string{"Basic x"}, 401, `{"reason":"NotBearer","result":"refused"}`, `Bearer realm="svid"`},
		{[]string{"Bearer " + other}, 403, `{"reason":"NotAllowed","result":"refused"}`, `Bearer error="insufficient_scope", error_description="NotAllowed"`},
	} {
		w := ask(g.Protect(hello), row.authorization...)
		if w.Code != row.status || strings.TrimSpace(w.Body.String()) != strings.TrimSpace(row.body) || w.Header().Get("WWW-Authenticate") != row.challenge {
			t.Errorf("%d: %d %q %q", i, w.Code, w.Body, w.Header())
		}
		if cached := w.Header().Get("Cache-Control"); (cached == "no-store") != (row.status != 200) {
			t.Errorf("%d: Cache-Control %q", i, cached)
		}
	}
	g.Close()
	if w := ask(g.Protect(hello), "Bearer "+token("late")); w.Code != 503 || w.Header().Get("Retry-After") == "" || strings.Contains(w.Body.String(), "hello") {
		t.Errorf("a guard that is closed: %d %q", w.Code, w.Body)
	}
	g = open(t, o)
	if w := ask(g.Protect(hello), "Bearer "+good); w.Code != 401 || !strings.Contains(w.Body.String(), "Replayed") {
		t.Errorf("after a restart: %d %q", w.Code, w.Body)
	}
}

// A withdrawn token is refused, whether it was used or not; one of another issuer can't be withdrawn.
func TestWithdraw(t *testing.T) {
	g := open(t, usual(t))
	one := token("withdrawn")
	done, err := g.Withdraw(one)
	if err != nil || !done.Use.Withdrawn || done.UsedBy != (svid.ValidatorID{}) {
		t.Fatal(done, err)
	}
	if w := ask(g.Protect(hello), "Bearer "+one); w.Code != 401 || !strings.Contains(w.Body.String(), "Withdrawn") {
		t.Errorf("%d %q", w.Code, w.Body)
	}
	stranger, err := issuer.New("example.org")
	if err != nil {
		t.Fatal(err)
	}
	forged := stranger.Token("ES256", map[string]any{"sub": "spiffe://example.org/web", "aud": "ledger", "exp": svid.Now() + 300})
	if _, err := g.Withdraw(forged); !errors.Is(err, svid.BadSignature) {
		t.Errorf("a forged token: %v", err)
	}
	if _, err := g.WithdrawKey(svid.TokenKey{1}, svid.Now()+300); err != nil {
		t.Error(err)
	}
}

// What would accept a token twice, or none, is an error that says what to do.
func TestOptionsThatCanNotBeMeant(t *testing.T) {
	for want, change := range map[string]func(*Options){
		"Options.Audiences is empty": func(o *Options) { o.Audiences = nil },
		"Options.Bundles is empty":   func(o *Options) { o.Bundles = nil },
		"Options.State is empty":     func(o *Options) { o.State = "" },
		"Options.Store is nil":       func(o *Options) { o.Mode = Strict },
		"Options.Log is for":         func(o *Options) { o.Mode, o.Log = Reuse, slowLog{} },
		"used a token first":         func(o *Options) { o.Mode, o.Caller, o.State = Bound, "peer", "" },
		"Options.Caller is for mode": func(o *Options) { o.Caller = "peer" },
		"names no header":            func(o *Options) { o.Mode, o.Caller, o.Store = Bound, "header", new(memory.Store) },
		`Options.Mode "twice"`:       func(o *Options) { o.Mode = "twice" },
		"Options.Longest is at most": func(o *Options) { o.Longest = mostLongest + 1 },
		"Options.Ahead at most":      func(o *Options) { o.Ahead = mostAhead + 1 },
		"Options.Wait and":           func(o *Options) { o.Wait = -1 },
		"Summaries are not negative": func(o *Options) { o.Summaries = -1 },
		"is no trust domain's name":  func(o *Options) { o.Bundles[0].Domain = "A" },
		"no pattern of SPIFFE IDs":   func(o *Options) { o.Allow = []string{"*"} },
		"leave the list out (nil)":   func(o *Options) { o.Allow = []string{} },
	} {
		o := usual(t)
		change(&o)
		if g, err := Open(o); err == nil || !strings.Contains(err.Error(), want) {
			t.Errorf("%s: %v", want, err)
			if err == nil {
				g.Close()
			}
		}
	}
}

// What the options leave out, and that clocks may be said not to differ.
func TestWhatOptionsLeaveOut(t *testing.T) {
	o := usual(t)
	o.Wait = 0
	got, err := o.usual()
	if err != nil || got.Mode != Once || got.Longest != 3600 || got.Ahead != 30 || got.Wait != 2*time.Second || got.Summaries != 5*time.Minute {
		t.Errorf("%+v %v", got, err)
	}
	o.Store, o.Ahead = new(memory.Store), Exactly
	if got, err = o.usual(); err != nil || got.Mode != Strict || got.Ahead != 0 {
		t.Errorf("%+v %v", got, err)
	}
	if keep := Keep(3600, 30); keep != 3660*time.Second {
		t.Error(keep)
	}
	// Members whose Ahead differs by less than a minute share a store. A greater one has a margin of its own.
	for ahead, margin := range map[uint64]uint64{0: 120, 1: 120, 30: 120, 60: 120, 61: 121, 3600: 3660} {
		if got := Terms(3600, ahead); got != (claims.Terms{Lasts: 3600 + 2*ahead, Margin: margin, Back: StepBack}) {
			t.Errorf("ahead %d: %+v", ahead, got)
		}
	}
}

// In mode Bound a guard accepts a token from the caller that used it first: that of the connection, or the one that WithCaller names.
func TestBoundKnowsItsCallers(t *testing.T) {
	store := &memory.Store{Terms: Terms(3600, 30)}
	of := func(caller string) *Guard {
		o := usual(t)
		o.State, o.Store, o.Mode, o.Caller = "", store, Bound, caller
		g := open(t, o)
		await(t, g)
		return g
	}
	send := func(h http.Handler, remote, token string, callers ...string) int {
		r, w := httptest.NewRequest(http.MethodGet, "/", nil), httptest.NewRecorder()
		r.RemoteAddr = remote
		r.Header.Set("Authorization", "Bearer "+token)
		r.Header["X-Caller"] = callers
		h.ServeHTTP(w, r)
		return w.Code
	}
	served := http.HandlerFunc(func(w http.ResponseWriter, r *http.Request) { w.WriteHeader(http.StatusNoContent) })
	byPeer, byHeader, byName := of("peer"), of("header:X-Caller"), of("")
	one, two, three := token("one"), token("two"), token("three")
	for _, row := range []struct {
		guard   *Guard
		remote  string
		token   string
		callers []string
		want    int
	}{
		{byPeer, "192.0.2.1:1", one, nil, 204},
		{byPeer, "192.0.2.1:2", one, []string{"other"}, 204},
		{byPeer, "192.0.2.2:1", one, nil, 401},
		{byPeer, "@", one, nil, 503},
		{byHeader, "192.0.2.1:1", two, []string{"a"}, 204},
		{byHeader, "192.0.2.2:1", two, []string{"a"}, 204},
		{byHeader, "192.0.2.1:1", two, []string{"b"}, 401},
		{byHeader, "192.0.2.1:1", two, []string{"a", "b"}, 503},
		{byHeader, "192.0.2.1:1", two, nil, 503},
		{byName, "192.0.2.1:1", three, []string{"a"}, 503},
	} {
		if got := send(row.guard.Protect(served), row.remote, row.token, row.callers...); got != row.want {
			t.Errorf("%s %q: %d, want %d", row.remote, row.callers, got, row.want)
		}
	}
	// A certificate that nobody has verified says nothing.
	byCertificate, four := of("principal").Protect(served), token("four")
	for _, row := range []struct {
		id       string
		verified bool
		want     int
	}{{"spiffe://example.org/web", true, 204}, {"spiffe://example.org/job", true, 401}, {"spiffe://example.org/web", false, 503}, {"spiffe://example.org/web", true, 204}} {
		r, w := httptest.NewRequest(http.MethodGet, "/", nil), httptest.NewRecorder()
		r.Header.Set("Authorization", "Bearer "+four)
		id, err := url.Parse(row.id)
		if err != nil {
			t.Fatal(err)
		}
		certificate := &x509.Certificate{URIs: []*url.URL{id}}
		r.TLS = &tls.ConnectionState{PeerCertificates: []*x509.Certificate{certificate}}
		if row.verified {
			r.TLS.VerifiedChains = [][]*x509.Certificate{{certificate}}
		}
		if byCertificate.ServeHTTP(w, r); w.Code != row.want {
			t.Errorf("%+v: %d", row, w.Code)
		}
	}
	for _, row := range []struct {
		name string
		want error
	}{{"a", nil}, {"b", svid.Replayed}, {"a", nil}} {
		if _, err := byName.Check(WithCaller(context.Background(), row.name), three); err != row.want {
			t.Errorf("%s: %v, want %v", row.name, err, row.want)
		}
	}
	for _, ctx := range []context.Context{context.Background(), WithCaller(context.Background(), "")} {
		if _, err := byName.Check(ctx, three); !errors.Is(err, ErrNoCaller) || byName.ReasonOf(err) != "NoCaller" {
			t.Errorf("without a caller: %v", err)
		}
	}
}

// The guards of a group accept a token once in all, whichever is asked, and one after a restart knows what the others accepted.
func TestAGroupAcceptsEachTokenOnce(t *testing.T) {
	store := &memory.Store{Terms: Terms(3600, 30)}
	var all [3]*Guard
	var last string
	join := func() *Guard {
		o := usual(t)
		o.State, o.Store = "", store
		g := open(t, o)
		await(t, g)
		return g
	}
	for i := range all {
		all[i] = join()
	}
	for n := 0; n < 20; n++ {
		one, accepted := token(fmt.Sprint("group", n)), make(chan int, len(all))
		last = one
		var asking sync.WaitGroup
		for _, g := range all {
			asking.Add(1)
			go func(g *Guard) {
				defer asking.Done()
				accepted <- ask(g.Protect(hello), "Bearer "+one).Code
			}(g)
		}
		asking.Wait()
		close(accepted)
		codes := map[int]int{}
		for code := range accepted {
			codes[code]++
		}
		if codes[200] != 1 || codes[401] != len(all)-1 {
			t.Fatalf("token %d: %v", n, codes)
		}
	}
	all[0].Close()
	if w := ask(join().Protect(hello), "Bearer "+last); w.Code != 401 || !strings.Contains(w.Body.String(), "Replayed") {
		t.Errorf("after a restart: %d %q", w.Code, w.Body)
	}
}

// await waits until the guard is ready.
func await(t *testing.T, g *Guard) {
	t.Helper()
	for deadline := time.Now().Add(patience.Long); g.Ready() != nil; time.Sleep(5 * time.Millisecond) {
		if time.Now().After(deadline) {
			t.Fatal(g.Ready())
		}
	}
}

// An unfitStore is of no use.
type unfitStore struct{ memory.Store }

func (*unfitStore) Open(context.Context) (claims.State, error) {
	return claims.State{}, claims.Unfitf("appendonly is off: turn it on")
}

// The guard reports a store that is of no use, and accepts nothing.
func TestAStoreThatIsOfNoUse(t *testing.T) {
	o, failed := usual(t), make(chan error, 1)
	o.Store, o.Failed = new(unfitStore), func(err error) { failed <- err }
	g := open(t, o)
	var unfit *claims.Unfit
	select {
	case err := <-failed:
		if !errors.As(err, &unfit) {
			t.Error(err)
		}
	case <-time.After(patience.Long):
		t.Fatal("nobody is told")
	}
	if w := ask(g.Protect(hello), "Bearer "+token("unfit")); w.Code != 503 || !strings.Contains(w.Body.String(), "NotReady") {
		t.Errorf("%d %q", w.Code, w.Body)
	}
}

// A slowStore has a server that does not come up.
type slowStore struct{ claims.Store }

func (slowStore) Open(ctx context.Context) (claims.State, error) {
	<-ctx.Done()
	return claims.State{}, ctx.Err()
}

func (slowStore) Close() error { return nil }

// A guard that is closed while its store does not come up has not failed.
func TestCloseBeforeTheStoreIsThere(t *testing.T) {
	var log bytes.Buffer
	o := usual(t)
	o.Store, o.Lines = slowStore{}, server.NewLog(&log, All)
	g := open(t, o)
	inTime(t, g.Close)
	if strings.Contains(log.String(), `"event":"end"`) {
		t.Errorf("it says %s", &log)
	}
}

// Each judged token counts, and is a line of the log that does not have it.
func TestEachJudgedTokenIsCountedAndLogged(t *testing.T) {
	var log, metrics bytes.Buffer
	o := usual(t)
	o.Lines = NewLines(&log, Decisions)
	g := open(t, o)
	one := token("counted")
	for i := 0; i < 3; i++ {
		ask(g.Protect(hello), "Bearer "+one)
	}
	if err := g.WriteMetrics(&metrics); err != nil {
		t.Fatal(err)
	}
	for _, want := range []string{`svidd_checks_total{result="accepted"} 1`, `svidd_checks_total{result="Replayed"} 2`, "svidd_check_seconds_count 3"} {
		if !strings.Contains(metrics.String(), want+"\n") {
			t.Errorf("no %s", want)
		}
	}
	o.Lines.Close(time.Minute)
	lines := log.String()
	if strings.Count(lines, `"event":"accepted"`) != 1 || strings.Count(lines, `"reason":"Replayed"`) != 2 || strings.Contains(lines, one) {
		t.Error(lines)
	}
}

// A hanging is a writer that takes nothing until it is let go.
type hanging struct {
	free chan struct{}
	text bytes.Buffer // for who has waited for all lines
}

func (h *hanging) Write(b []byte) (int, error) {
	<-h.free
	return h.text.Write(b)
}

// A log that nobody reads holds up no request. What there is no room for is dropped and counted, and the log says so later.
func TestALogThatHangs(t *testing.T) {
	for _, mode := range []Mode{Once, Reuse} {
		out := &hanging{free: make(chan struct{})}
		o := usual(t)
		o.Mode, o.Lines = mode, NewLines(out, All)
		var g *Guard
		inTime(t, func() { g = open(t, o) })
		inTime(t, func() {
			for header, want := range map[string]int{"Bearer " + token("hanging"): 200, "Bearer x": 401} {
				if w := ask(g.Protect(hello), header); w.Code != want {
					t.Errorf("%s: %d %q", mode, w.Code, w.Body)
				}
			}
			for long := strings.Repeat("a", 1<<16); o.Lines.Dropped() < 5; {
				o.Lines.Event("long", "text", long)
			}
		})
		inTime(t, g.Close)
		if out.text.Len() > 0 {
			t.Errorf("%s: it did not hang", mode)
		}
		close(out.free)
		inTime(t, func() { o.Lines.Close(time.Minute) })
		if text := out.text.String(); !strings.Contains(text, `"event":"accepted"`) || !strings.Contains(text, `"dropped":`) {
			t.Errorf("%s: %.2000s", mode, text)
		}
	}
}

// A log of no Outlet, and none at all, may be closed.
func TestLinesThatAreNone(t *testing.T) {
	var none *Lines
	none.Close(time.Minute)
	server.NewLog(&bytes.Buffer{}, All).Close(time.Minute)
}

// Options.Failed may close the guard.
func TestFailedMayClose(t *testing.T) {
	o, guards, closed := usual(t), make(chan *Guard, 1), make(chan bool)
	o.Store = new(unfitStore)
	o.Failed = func(error) { (<-guards).Close(); close(closed) }
	g, err := Open(o)
	if err != nil {
		t.Fatal(err)
	}
	guards <- g
	inTime(t, func() { <-closed })
	inTime(t, func() {
		if w := ask(g.Protect(hello), "Bearer "+token("failed")); w.Code != 503 {
			t.Errorf("%d %q", w.Code, w.Body)
		}
	})
}

// A guard that is closed while requests come answers each of them, and accepts none after that.
func TestCloseWhileRequestsCome(t *testing.T) {
	for _, mode := range []Mode{Once, Strict, Reuse} {
		o := usual(t)
		o.Mode = mode
		if mode == Strict {
			o.Store = &memory.Store{Terms: Terms(3600, 30)}
		}
		g := open(t, o)
		await(t, g)
		tokens := make([]string, 400)
		for i := range tokens {
			tokens[i] = token(fmt.Sprint(mode, i))
		}
		var asking sync.WaitGroup
		begun := make(chan bool, len(tokens))
		for i := 0; i < 8; i++ {
			asking.Add(1)
			go func(own []string) {
				defer asking.Done()
				for _, one := range own {
					begun <- true
					if code := ask(g.Protect(hello), "Bearer "+one).Code; code != 200 && code != 503 {
						t.Errorf("%s: %d", mode, code)
					}
				}
			}(tokens[i*50 : i*50+50])
		}
		for i := 0; i < 40; i++ {
			<-begun
		}
		g.Close()
		inTime(t, func() {
			if code := ask(g.Protect(hello), "Bearer "+token(fmt.Sprint(mode, "late"))).Code; code != 503 {
				t.Errorf("%s: after Close: %d", mode, code)
			}
		})
		if _, err := g.Withdraw(tokens[0]); err != svid.ErrClosed {
			t.Errorf("%s: after Close: %v", mode, err)
		}
		if _, err := g.WithdrawKey(svid.TokenKey{1}, svid.Now()+300); err != svid.ErrClosed {
			t.Errorf("%s: after Close: %v", mode, err)
		}
		if err := g.Ready(); err != svid.ErrClosed {
			t.Errorf("%s: after Close: ready: %v", mode, err)
		}
		inTime(t, asking.Wait)
	}
}

// A slowLog is one whose group takes its time to close.
type slowLog struct {
	closing, goOn chan struct{}
}

func (slowLog) GroupName() string { return "slow" }

func (l slowLog) Join(context.Context, carriers.Options, carriers.Sink) (carriers.Group, error) {
	return slowGroup{log: l}, nil
}

type slowGroup struct {
	carriers.Group
	log slowLog
}

func (slowGroup) Ready() <-chan struct{} {
	ready := make(chan struct{})
	close(ready)
	return ready
}
func (slowGroup) Taken() uint64   { return 0 }
func (slowGroup) Aside() uint64   { return 0 }
func (slowGroup) Connected() bool { return true }
func (slowGroup) Put(context.Context, carriers.Kind, uint64, []byte) error {
	return nil
}

func (g slowGroup) Close() error {
	close(g.log.closing)
	<-g.log.goOn
	return nil
}

// A token that comes while a guard closes is answered at once.
func TestATokenThatComesWhileAGuardCloses(t *testing.T) {
	o, slow := usual(t), slowLog{make(chan struct{}), make(chan struct{})}
	o.Log = slow
	g := open(t, o)
	await(t, g)
	closed := make(chan struct{})
	go func() { defer close(closed); g.Close() }()
	<-slow.closing
	inTime(t, func() {
		if w := ask(g.Protect(hello), "Bearer "+token("closing")); w.Code != 503 {
			t.Errorf("%d %q", w.Code, w.Body)
		}
	})
	close(slow.goOn)
	<-closed
}

// A hangingLog is one whose group takes a use, and says nothing of it for long.
type hangingLog struct {
	slowLog
	putting chan struct{}
}

func (l hangingLog) Join(context.Context, carriers.Options, carriers.Sink) (carriers.Group, error) {
	return hangingGroup{slowGroup{log: l.slowLog}, l.putting}, nil
}

type hangingGroup struct {
	slowGroup
	putting chan struct{}
}

func (g hangingGroup) Put(context.Context, carriers.Kind, uint64, []byte) error {
	close(g.putting)
	<-g.log.goOn
	return nil
}

// While a guard closes, and its group is still to hear of a use, it accepts nothing more, and says so.
func TestAGuardThatClosesAcceptsNothing(t *testing.T) {
	slow := hangingLog{slowLog{make(chan struct{}), make(chan struct{})}, make(chan struct{})}
	o := usual(t)
	o.Log = slow
	g := open(t, o)
	defer close(slow.goOn)
	await(t, g)
	if _, err := g.Check(context.Background(), token("told")); err != nil {
		t.Fatal(err)
	}
	<-slow.putting
	go g.Close()
	for end := time.Now().Add(patience.Long); g.Ready() != svid.ErrClosed; time.Sleep(time.Millisecond) {
		if time.Now().After(end) {
			t.Fatal("it does not say that it is closed")
		}
	}
	if _, err := g.Check(context.Background(), token("late")); err != svid.ErrClosed {
		t.Errorf("%v", err)
	}
}

// POST /reload of a service's own admin socket calls what it was given, and says that no option changed: a list, as where some did.
func TestAServiceReloads(t *testing.T) {
	o := usual(t)
	o.Mode, o.State = Reuse, ""
	reloads := 0
	w := httptest.NewRecorder()
	open(t, o).Admin(func() { reloads++ }).ServeHTTP(w, httptest.NewRequest("POST", "/reload", nil))
	if w.Code != 200 || w.Body.String() != `{"changed":[]}`+"\n" || reloads != 1 {
		t.Errorf("%d %s, %d times", w.Code, w.Body, reloads)
	}
}

// A lateLog is one that is joined once the engine of the guard has ended.
type lateLog struct {
	slowLog
	guard *Guard
}

func (l *lateLog) Join(ctx context.Context, _ carriers.Options, _ carriers.Sink) (carriers.Group, error) {
	<-ctx.Done()
	for end := time.Now().Add(patience.Long); time.Now().Before(end); time.Sleep(time.Millisecond) {
		if err := l.guard.engine.Ready(); err != nil && strings.Contains(err.Error(), "ended") {
			break
		}
	}
	return slowGroup{log: l.slowLog}, nil
}

// A group that is joined while its guard ends is left again.
func TestAGroupThatIsJoinedAtTheEnd(t *testing.T) {
	late := &lateLog{slowLog: slowLog{make(chan struct{}), make(chan struct{})}}
	o := usual(t)
	o.Log = late
	g, err := New(o)
	if err == nil {
		err = g.Load()
	}
	if err != nil {
		t.Fatal(err)
	}
	late.guard = g
	ctx, cancel := context.WithCancel(context.Background())
	cancel()
	g.Run(ctx)
	close(late.goOn)
	g.Close()
	select {
	case <-late.closing:
	default:
		t.Error("nobody left the group")
	}
}

// inTime fails the test where what it calls hangs.
func inTime(t *testing.T, do func()) {
	t.Helper()
	done := make(chan struct{})
	go func() { defer close(done); do() }()
	select {
	case <-done:
	case <-time.After(patience.Long):
		t.Fatal("it hangs")
	}
}

// Of a source that is followed no more, nothing counts, also if it was being read at that moment.
func TestBundlesOfASourceThatIsLeft(t *testing.T) {
	var log bytes.Buffer
	o := usual(t)
	o.Mode, o.Lines = Reuse, server.NewLog(&log, All)
	g, err := New(o)
	if err != nil {
		t.Fatal(err)
	}
	defer g.Close()
	if err := g.Follow([]bundles.Spec{bundleFile(t, example)}); err != nil {
		t.Fatal(err)
	}
	before := strings.Count(log.String(), `"event":"bundles"`)
	late := map[string]json.RawMessage{"example.net": example.JWKSet()}
	if err := g.renew(1, late); err != nil || strings.Count(log.String(), `"event":"bundles"`) != before {
		t.Errorf("%v: %s", err, &log)
	}
	if err := g.renew(2, late); err != nil || strings.Count(log.String(), `"event":"bundles"`) != before+1 {
		t.Errorf("%v: %s", err, &log)
	}
	if err := g.Follow([]bundles.Spec{{Domain: "A", Source: "b"}}); err == nil {
		t.Error("a source that is none is followed")
	}
	if err := g.renew(2, late); err != nil || strings.Count(log.String(), `"event":"bundles"`) != before+2 {
		t.Errorf("after a source that is none: %v: %s", err, &log)
	}
}

// A trust domain that has no source any more goes at once, though no other source can be read. One that has a source, or may have one in a Workload
// API that has not answered, stays until that gives other bundles.
func TestATrustDomainWithoutASource(t *testing.T) {
	other, err := issuer.New("example.net")
	if err != nil {
		t.Fatal(err)
	}
	o, ofOther := usual(t), bundleFile(t, other)
	ofOther.Domain = "example.net"
	o.Mode, o.Bundles = Reuse, []bundles.Spec{bundleFile(t, example), ofOther}
	g := open(t, o)
	of := func(i *issuer.Issuer, domain string) error {
		_, err := g.Check(context.Background(), i.Token("ES256", map[string]any{"sub": "spiffe://" + domain + "/web", "aud": "ledger", "exp": time.Now().Add(time.Hour / 2).Unix()}))
		return err
	}
	if err, err2 := of(example, "example.org"), of(other, "example.net"); err != nil || err2 != nil {
		t.Fatal(err, err2)
	}
	nobody, err := workload.ParseAddress("tcp://127.0.0.1:1")
	if err != nil {
		t.Fatal(err)
	}
	if err := g.Follow([]bundles.Spec{bundles.WorkloadAPI("tcp://127.0.0.1:1", nobody)}); err != nil {
		t.Fatal(err)
	}
	if err, err2 := of(example, "example.org"), of(other, "example.net"); err != nil || err2 != nil {
		t.Errorf("before a Workload API has answered: %v, %v", err, err2)
	}
	away := []bundles.Spec{{Domain: "example.org", Source: "https://127.0.0.1:1/"}}
	if err := g.Follow(away); err != nil {
		t.Fatal(err)
	}
	if err, err2 := of(example, "example.org"), of(other, "example.net"); err != nil || err2 != svid.UnknownDomain {
		t.Errorf("%v, and of the trust domain without a source: %v", err, err2)
	}
	if err := g.Follow([]bundles.Spec{bundles.Folder(t.TempDir())}); err != nil {
		t.Fatal(err)
	}
	if err := of(example, "example.org"); !errors.Is(err, server.ErrNotReady) {
		t.Errorf("of an empty folder: %v", err)
	}
	dir := t.TempDir()
	if err := os.WriteFile(filepath.Join(dir, "example.org.json"), example.JWKSet(), 0o600); err != nil {
		t.Fatal(err)
	}
	if err := g.Follow([]bundles.Spec{bundles.Folder(dir)}); err != nil {
		t.Fatal(err)
	}
	if err := of(example, "example.org"); err != nil {
		t.Errorf("of a folder that has it: %v", err)
	}
}

// What a source gives while another one is tried that is none, counts: a key that is gone must not stay.
func TestBundlesThatComeWhileABadSourceIsTried(t *testing.T) {
	o, taken := usual(t), 0
	var log bytes.Buffer
	o.Mode, o.Lines = Reuse, server.NewLog(&log, All)
	g, err := New(o)
	if err != nil {
		t.Fatal(err)
	}
	defer g.Close()
	stop, tried := make(chan struct{}), make(chan struct{})
	go func() {
		defer close(tried)
		for {
			select {
			case <-stop:
				return
			default:
				if g.Follow([]bundles.Spec{{Domain: "A", Source: "b"}}) == nil {
					t.Error("a source that is none is followed")
				}
			}
		}
	}()
	for ; taken < 500; taken++ {
		if err := g.renew(1, map[string]json.RawMessage{"example.org": example.JWKSet()}); err != nil {
			t.Fatal(err)
		}
	}
	close(stop)
	<-tried
	if got := strings.Count(log.String(), `"event":"bundles"`); got != taken+1 {
		t.Errorf("%d of %d were taken", got-1, taken)
	}
}

// Bundles that the engine does not take are an error for the watcher, which gives them again. They are no event.
func TestBundlesThatTheEngineDoesNotTake(t *testing.T) {
	var log bytes.Buffer
	o := usual(t)
	o.Mode, o.Lines = Reuse, server.NewLog(&log, All)
	g, err := New(o)
	if err != nil {
		t.Fatal(err)
	}
	domains, before := map[string]json.RawMessage{"example.org": example.JWKSet()}, strings.Count(log.String(), "\n")
	if err := g.renew(1, domains); err != nil || strings.Count(log.String(), "\n") != before+1 {
		t.Errorf("%v: %s", err, &log)
	}
	g.Close()
	if err := g.renew(1, domains); err != svid.ErrClosed || strings.Count(log.String(), "\n") != before+1 {
		t.Errorf("%v: %s", err, &log)
	}
}
