package server

import (
	"bytes"
	"context"
	"encoding/json"
	"errors"
	"fmt"
	"io"
	"net/http"
	"net/http/httptest"
	"runtime"
	"strings"
	"testing"
	"time"
	"unsafe"

	"svid.example/go/v3/internal/patience"
	"svid.example/go/v3/journal"
	"svid.example/go/v3/svid"
)

// The disk hangs: each request ends in time, with 503. Its token is burnt, here and, where the disk had the use after all,
// after a restart. Nobody else waits for the disk, /readyz says that nothing is kept, and all goes on once the disk is back.
func TestADiskThatHangs(t *testing.T) {
	d := &disk{hangs: make(chan struct{})}
	e := ready(t, engine(t, Options{Mode: Once, Journal: d, Wait: 50 * time.Millisecond}))
	h := e.Handler()
	// A busy machine may take longer than that to verify a token. Then nothing is said of it.
	said := func(id string) (code int) {
		await(t, "an answer in time", func() bool {
			code = request(h, "GET", "/check", "Bearer "+token(id)).Code
			return code != http.StatusServiceUnavailable
		})
		return code
	}
	for _, id := range []string{"a", "b"} {
		await(t, "its use to be written", func() bool {
			before := e.Metrics.JournalFailures.Load()
			w := request(h, "GET", "/check", "Bearer "+token(id))
			if w.Code != http.StatusServiceUnavailable {
				t.Fatalf("%s: %d %s", id, w.Code, w.Body)
			}
			return e.Metrics.JournalFailures.Load() > before
		})
		if code := said(id); code != http.StatusUnauthorized {
			t.Errorf("%s, again: %d", id, code)
		}
	}
	if w := withdraw(e); w.Code != http.StatusServiceUnavailable {
		t.Errorf("a withdrawal: %d %s", w.Code, w.Body)
	}
	if n := e.Metrics.JournalFailures.Load(); n != 3 {
		t.Errorf("%d failures are counted", n)
	}
	for path, want := range map[string]int{"/metrics": 200, "/healthz": 200, "/readyz": 503} {
		if w := request(h, "GET", path); w.Code != want {
			t.Errorf("%s: %d %s", path, w.Code, w.Body)
		}
	}
	again(t, e)
	if err := e.Ready(); err != errKeepsNothing {
		t.Errorf("ready: %v", err)
	}
	close(d.hangs)
	again(t, e)
	if err := e.Ready(); err != nil {
		t.Errorf("the disk is back: %v", err)
	}
	next := 0
	await(t, "a token to be accepted, as the disk is back", func() bool {
		next++
		return request(h, "GET", "/check", "Bearer "+token(fmt.Sprint("c", next))).Code == http.StatusOK
	})
	if code := said("a"); code != http.StatusUnauthorized {
		t.Errorf("a token that was given up: %d", code)
	}
}

// Where too much waits for the disk already, a request hears so at once.
func TestTooMuchWaitsForTheDisk(t *testing.T) {
	d := &disk{full: errors.New("too much waits for the disk")}
	e := ready(t, engine(t, Options{Mode: Once, Journal: d, Wait: patience.Long}))
	from := time.Now()
	if _, err := e.Check(context.Background(), token("full")); !errors.Is(err, d.full) || time.Since(from) > patience.Long/2 {
		t.Errorf("%v after %v", err, time.Since(from))
	}
}

// A disk that hangs for long is tried again and again, and gathers no goroutines.
func TestADiskThatHangsGathersNothing(t *testing.T) {
	d := &disk{hangs: make(chan struct{})}
	e := ready(t, engine(t, Options{Mode: Once, Journal: d, Wait: 10 * time.Millisecond}))
	defer close(d.hangs)
	if err := check(e, token("a")); err == nil {
		t.Fatal("it is accepted")
	}
	before := runtime.NumGoroutine()
	for i := 0; i < 20; i++ {
		again(t, e)
	}
	await(t, "the end of all tries", func() bool { return runtime.NumGoroutine() <= before })
}

// What waits for a disk that hangs is a use, and nothing of the request that brought it.
func TestADiskThatHangsKeepsNoRequest(t *testing.T) {
	d := &disk{hangs: make(chan struct{})}
	e := ready(t, engine(t, Options{Mode: Once, Journal: d, Wait: time.Millisecond}))
	defer close(d.hangs)
	freed := make(chan struct{})
	func() {
		text := []byte(token("a"))
		runtime.SetFinalizer(&text[0], func(*byte) { close(freed) })
		if err := check(e, *(*string)(unsafe.Pointer(&text))); err == nil {
			t.Fatal("it is accepted")
		}
	}()
	await(t, "its token to be freed", func() bool {
		runtime.GC()
		select {
		case <-freed:
			return true
		default:
			return false
		}
	})
}

// A snapshot that is being written holds no request up, and what comes meanwhile outlives a restart. The real journal here.
func TestNobodyWaitsForASnapshot(t *testing.T) {
	dir := t.TempDir()
	kept, err := journal.Open(dir)
	if err != nil {
		t.Fatal(err)
	}
	e := ready(t, engine(t, Options{Mode: Once, Journal: kept}))
	if err := kept.Load(e.Feed); err != nil {
		t.Fatal(err)
	}
	if err := check(e, token("before")); err != nil {
		t.Fatal(err)
	}
	writing, goOn := make(chan struct{}), make(chan struct{})
	snapshot := make(chan error)
	go func() {
		snapshot <- kept.Snapshot(func(w io.Writer) error {
			close(writing)
			<-goOn
			return e.Save(w)
		})
	}()
	<-writing
	if err := check(e, token("meanwhile")); err != nil {
		t.Error(err)
	}
	if w := request(e.Handler(), "GET", "/metrics"); !strings.Contains(w.Body.String(), "svidd_journal_bytes 120\n") {
		t.Errorf("/metrics: %s", w.Body)
	}
	close(goOn)
	if err := <-snapshot; err != nil {
		t.Error(err)
	}
	if err := kept.Close(); err != nil {
		t.Fatal(err)
	}
	// Its end is a fault as well, and a token that comes then is burnt.
	if err := check(e, token("closed")); !errors.Is(err, journal.ErrClosed) || e.Ready() == nil {
		t.Errorf("closed: %v, ready: %v", err, e.Ready())
	}
	kept, err = journal.Open(dir)
	if err != nil {
		t.Fatal(err)
	}
	defer kept.Close()
	again := engine(t, Options{Mode: Once, Journal: kept})
	if err := again.SetBundles(map[string]json.RawMessage{"example.org": example.JWKSet()}); err != nil {
		t.Fatal(err)
	}
	if err := kept.Load(again.Feed); err != nil {
		t.Fatal(err)
	}
	if err := again.Load(nil); err != nil {
		t.Fatal(err)
	}
	for _, id := range []string{"before", "meanwhile"} {
		if err := check(again, token(id)); err != svid.Replayed {
			t.Errorf("%s, after a restart: %v", id, err)
		}
	}
}

// /readyz tells of a full disk in mode once. A withdrawal that is not kept is no reason in the other modes, which keep
// acceptances elsewhere.
func TestReadyzTellsOfADiskThatKeepsNothing(t *testing.T) {
	for mode, want := range map[Mode]bool{Once: false, Reuse: true} {
		d := &disk{fault: errors.New("no space left on device")}
		e := ready(t, engine(t, Options{Mode: mode, Journal: d}))
		if w := withdraw(e); w.Code != http.StatusServiceUnavailable {
			t.Errorf("%s: %d %s", mode, w.Code, w.Body)
		}
		if got := e.Ready() == nil; got != want {
			t.Errorf("%s: ready is %v", mode, got)
		}
		w := request(e.Handler(), "GET", "/readyz")
		if (w.Code == http.StatusOK) != want || strings.Contains(w.Body.String(), "space") {
			t.Errorf("%s: %d %s", mode, w.Code, w.Body)
		}
		if line := "svidd_ready 0\n"; strings.Contains(request(e.Handler(), "GET", "/metrics").Body.String(), line) == want {
			t.Errorf("%s: svidd_ready", mode)
		}
	}
	// The engine tries by itself, and an acceptance that is kept is enough.
	for what, mend := range map[string]func(e *Engine) (end func()){
		"a request": func(e *Engine) func() {
			if err := check(e, token("b")); err != nil {
				t.Error(err)
			}
			return func() {}
		},
		"by itself": func(e *Engine) func() {
			ctx, cancel := context.WithCancel(context.Background())
			ended := make(chan struct{})
			go func() { e.Run(ctx); close(ended) }()
			await(t, "ready", func() bool { return e.Ready() == nil })
			return func() { cancel(); <-ended }
		},
	} {
		d := &disk{fault: errors.New("no space left on device")}
		e := ready(t, engine(t, Options{Mode: Once, Journal: d}))
		if err := check(e, token("a")); err == nil || e.Ready() == nil {
			t.Errorf("%s: %v, and it is ready", what, err)
		}
		d.mu.Lock()
		d.fault = nil
		d.mu.Unlock()
		end := mend(e)
		if err := e.Ready(); err != nil {
			t.Errorf("%s: %v", what, err)
		}
		end()
	}
}

// A write that fails while an earlier one is tried again is tried too: the machine is not ready before the disk has taken both.
func TestEachWriteThatFailedIsTriedAgain(t *testing.T) {
	b := benchOf(t, Options{Mode: Once, Journal: &disk{}})
	full := errors.New("no space left on device")
	next := func() (w *Write) {
		t.Helper()
		for _, effect := range b.others {
			if it, ok := effect.(Append); ok {
				w = it.Write
			}
		}
		if b.others = nil; w == nil {
			t.Fatal("nothing is written")
		}
		return w
	}
	ends := func(w *Write, err error) {
		w.Err = err
		b.step(Kept{w})
	}
	isReady := func() bool { return b.machine.Ready(b.now, false, false) == nil }
	b.asks("a")
	ends(next(), full)
	b.step(doing((*Machine).keepAgain))
	again := next()
	if b.step(doing((*Machine).keepAgain)); len(b.others) > 0 {
		t.Errorf("it is tried again before the last try has ended: %v", b.others)
	}
	b.asks("b")
	ends(next(), full)
	if ends(again, nil); isReady() {
		t.Error("it is ready, and the disk has not taken the second one")
	}
	b.step(doing((*Machine).keepAgain))
	if ends(next(), nil); !isReady() {
		t.Error("the disk has taken both, and it is not ready")
	}
}

// The client of a token that could not be judged hears one word, which names nothing of the inside. The log has the error.
func TestAClientHearsAWordOfWhatFailed(t *testing.T) {
	const secret = "/var/lib/svidd/journal.1: nats://10.0.0.7:4222"
	var now uint64 = moment
	for _, row := range []struct {
		want string
		make func(t *testing.T, log *Log, wait time.Duration) *Engine
	}{
		{"NotReady", func(t *testing.T, log *Log, _ time.Duration) *Engine { return engine(t, Options{Mode: Once, Log: log}) }},
		{"NoBundle", func(t *testing.T, log *Log, _ time.Duration) *Engine {
			e := engine(t, Options{Mode: Once, Domains: []string{"example.org"}, Log: log})
			if err := e.SetBundles(map[string]json.RawMessage{"example.com": example.JWKSet()}); err != nil {
				t.Fatal(err)
			}
			if err := e.Load(nil); err != nil {
				t.Fatal(err)
			}
			return e
		}},
		{"ClockJump", func(t *testing.T, log *Log, _ time.Duration) *Engine {
			e := ready(t, engine(t, Options{Mode: Once, Step: 600, Now: func() uint64 { return now }, Log: log}))
			now += 100_000
			return e
		}},
		{"NotKept", func(t *testing.T, log *Log, _ time.Duration) *Engine {
			return ready(t, engine(t, Options{Mode: Once, Journal: &disk{fault: errors.New(secret)}, Log: log}))
		}},
		{"NotClaimed", func(t *testing.T, log *Log, wait time.Duration) *Engine {
			store := newShop()
			e := store.use(t, ready(t, engine(t, inStrict(Options{Wait: wait, Log: log}))))
			store.fail(errors.New(secret))
			return e
		}},
	} {
		var out bytes.Buffer
		var w *httptest.ResponseRecorder
		for wait := 30 * time.Millisecond; wait <= 2*patience.Long; wait *= 2 {
			out.Reset()
			e := row.make(t, NewLog(&out, Errors), wait)
			w = request(e.Handler(), "GET", "/check", "Bearer "+token("a"))
			if row.want != "NotClaimed" || strings.Contains(out.String(), secret) { // (on a busy machine a claim may be put too late)
				break
			}
		}
		if want := `{"reason":"` + row.want + `","result":"unavailable"}` + "\n"; w.Code != 503 || w.Body.String() != want {
			t.Errorf("%s: %d %s", row.want, w.Code, w.Body)
		}
		if secretly := row.want == "NotKept" || row.want == "NotClaimed"; strings.Contains(out.String(), secret) != secretly || out.Len() == 0 {
			t.Errorf("%s: the log has %s", row.want, &out)
		}
	}
	// A fault that no table has, too.
	e := engine(t, Options{Mode: Reuse})
	if got := e.ReasonOf(errors.New(secret)); got != "NotJudged" {
		t.Error(got)
	}
	if got := e.ReasonOf(svid.ErrNoMemory); got != "NoMemory" {
		t.Error(got)
	}
}
