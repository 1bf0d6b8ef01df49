package guard

import (
	"context"
	"errors"
	"fmt"
	"io"
	"net"
	"net/http"
	"os"
	"path/filepath"
	"runtime"
	"runtime/debug"
	"strings"
	"sync/atomic"
	"testing"
	"time"

	"golang.org/x/net/http2"
	"golang.org/x/net/http2/h2c"

	"svid.example/go/v3/bundles"
	"svid.example/go/v3/claims/memory"
	"svid.example/go/v3/internal/grpc"
	"svid.example/go/v3/internal/issuer"
	"svid.example/go/v3/internal/patience"
	"svid.example/go/v3/internal/protowire"
	"svid.example/go/v3/internal/scarce"
	"svid.example/go/v3/internal/server"
	"svid.example/go/v3/journal"
	"svid.example/go/v3/svid"
	"svid.example/go/v3/workload"
)

// holding is what this process holds of the system.
type holding struct {
	files, threads, goroutines int
	blocks                     int   // of the C library
	heap                       int64 // bytes of Go
}

// held is what the process holds once all garbage is gone.
func held(t *testing.T) (h holding) {
	t.Helper()
	runtime.GC() // (what has a finalizer goes at the second one)
	debug.FreeOSMemory()
	for name, count := range map[string]*int{"fd": &h.files, "task": &h.threads} {
		all, err := os.ReadDir("/proc/self/" + name)
		if err != nil {
			t.Fatal(err)
		}
		*count = len(all)
	}
	var memory runtime.MemStats
	runtime.ReadMemStats(&memory)
	h.goroutines, h.blocks, h.heap = runtime.NumGoroutine(), scarce.Held(), int64(memory.HeapAlloc)
	return h
}

// fits says whether there is no more than before, but for what a process takes once. A call that leaves anything leaves it so many times.
func (h holding) fits(before holding, times int) bool {
	return h.files <= before.files && h.threads <= before.threads+times/10+16 && h.goroutines <= before.goroutines &&
		h.blocks <= before.blocks+times/2+20 && h.heap <= before.heap+int64(times)<<8+64<<10
}

// A lived is a part of the life of a guard, which is repeated so many times.
type lived struct {
	name  string
	times int
	do    func(i int)
}

// How often: a fifth of it under the race detector, as go/build says. To open a guard takes some of a processor's milliseconds.
var opens, calls = few(100), few(1000)

func few(times int) int {
	if os.Getenv("SVID_TEST_FEW") != "" {
		return times / 5
	}
	return times
}

// leavesNothing repeats parts of a life, and compares what the process holds.
func leavesNothing(t *testing.T, parts ...lived) {
	t.Helper()
	for _, part := range parts {
		first := part.times / 10 // (what is kept for a while is full by then, and threads are there)
		for i := 0; i < first; i++ {
			part.do(i)
		}
		before := held(t)
		for i := 0; i < part.times; i++ {
			part.do(first + i)
		}
		after := held(t)
		for end := time.Now().Add(patience.Long); !after.fits(before, part.times); after = held(t) {
			if time.Now().After(end) {
				t.Fatalf("%s: %d times leave something: %+v, and %+v before", part.name, part.times, after, before)
			}
			time.Sleep(10 * time.Millisecond)
		}
	}
}

// of wants an error to be this one; nil wants none.
func of(t *testing.T, what string, got, want error) {
	t.Helper()
	if !errors.Is(got, want) || (got == nil) != (want == nil) {
		t.Fatalf("%s: %v, want %v", what, got, want)
	}
}

// opened opens a guard, and closes it.
func opened(t *testing.T, o Options) {
	t.Helper()
	g, err := Open(o)
	of(t, "open", err, nil)
	g.Close()
}

// A guard that is opened and closed leaves nothing, in each mode, and neither does one that can't be opened.
func TestALifeLeavesNothing(t *testing.T) {
	once, bound, misspelled, taken := usual(t), usual(t), usual(t), usual(t)
	bound.Mode = Bound
	misspelled.Bundles[0].Domain = "A"
	folder, err := journal.Open(taken.State)
	of(t, "open", err, nil)
	defer folder.Close()
	strict, reuse, unfit := usual(t), usual(t), usual(t)
	strict.State, strict.Store = "", &memory.Store{Terms: Terms(3600, 30)}
	reuse.State, reuse.Mode = "", Reuse
	leavesNothing(t,
		lived{"once", opens, func(int) { opened(t, once) }},
		lived{"strict", opens, func(int) { opened(t, strict) }},
		lived{"bound", opens, func(int) { opened(t, bound) }},
		lived{"reuse", opens, func(int) { opened(t, reuse) }},
		lived{"a misspelled bundle", opens, func(int) {
			if _, err := Open(misspelled); err == nil || errors.Is(err, journal.ErrHeld) {
				t.Fatal(err)
			}
		}},
		lived{"a folder that is held", calls, func(int) { _, err := Open(taken); of(t, "a folder that is held", err, journal.ErrHeld) }},
		lived{"a store that is unfit", opens, func(int) {
			failed := make(chan error, 1)
			unfit.Store, unfit.Mode, unfit.State = new(unfitStore), Strict, ""
			unfit.Failed = func(err error) { failed <- err }
			g, err := Open(unfit)
			of(t, "open", err, nil)
			<-failed
			g.Close()
		}},
		lived{"lines", calls, func(int) {
			lines := NewLines(io.Discard, All)
			lines.Event("one")
			lines.Close(patience.Long)
		}})
}

// Requests leave nothing, however they end.
func TestRequestsLeaveNothing(t *testing.T) {
	stranger, err := issuer.New("example.org")
	of(t, "an issuer", err, nil)
	forged := stranger.Token("ES256", map[string]any{"sub": "spiffe://example.org/web", "aud": "ledger", "exp": svid.Now() + 3000})
	other := example.Token("ES256", map[string]any{"sub": "spiffe://example.org/web", "aud": "other", "exp": svid.Now() + 3000})
	again := example.Token("RS256", map[string]any{"sub": "spiffe://example.org/web", "aud": "ledger", "exp": svid.Now() + 3000, "jti": "again"})
	over := example.Token("ES256", map[string]any{"sub": "spiffe://example.org/web", "aud": "ledger", "exp": svid.Now() - 3000})
	now := svid.Now()
	o := usual(t)
	o.Now = func() uint64 { return now } // So nothing expires meanwhile.
	once := open(t, o)
	o = usual(t)
	o.Mode, o.Caller = Reuse, "peer"
	reuse := open(t, o)
	o = usual(t)
	var isAway atomic.Bool // (the guard looks at its store meanwhile)
	store := &memory.Store{Terms: Terms(3600, 30), Fault: func() error {
		if isAway.Load() {
			return errors.New("the store is away")
		}
		return nil
	}}
	o.State, o.Store, o.Wait = "", store, 2*time.Millisecond
	strict := open(t, o)
	await(t, strict)
	isAway.Store(true)
	ctx := context.Background()
	left, leave := context.WithCancel(ctx)
	leave()
	check := func(g *Guard, token string, want error) {
		t.Helper()
		_, err := g.Check(ctx, token)
		of(t, token, err, want)
	}
	check(once, again, nil)
	handler := reuse.Protect(hello)
	leavesNothing(t,
		lived{"refused", calls, func(int) {
			check(once, "no token", svid.NotThreeParts)
			check(once, again[:40], svid.NotThreeParts)
			check(once, forged, svid.BadSignature)
			check(once, other, svid.NotAudience)
			check(once, over, svid.Expired)
			check(once, again, svid.Replayed)
		}},
		lived{"accepted again", calls, func(i int) {
			if w := ask(handler, "Bearer "+again); w.Code != 200 {
				t.Fatalf("%d %q", w.Code, w.Body)
			}
		}},
		lived{"a store that is away", calls, func(i int) {
			if _, err := strict.Check(ctx, again); err == nil || strict.ReasonOf(err) == "" {
				t.Fatal(err)
			}
		}},
		lived{"a client that left", calls, func(int) {
			if _, err := strict.Check(left, again); err == nil {
				t.Fatal("accepted")
			}
		}},
		lived{"a withdrawal that is refused", calls, func(int) {
			_, err := once.WithdrawKey(svid.TokenKey{1}, now-1)
			of(t, "a token that is over", err, svid.ErrGone)
			_, err = once.Withdraw(forged)
			of(t, "a forged one", err, svid.BadSignature)
			_, err = strict.WithdrawKey(svid.TokenKey{1}, now-1)
			of(t, "a token that is over", err, svid.ErrGone)
		}},
		lived{"a withdrawal", calls, func(int) {
			_, err := once.WithdrawKey(svid.TokenKey{2}, now+3000)
			of(t, "a withdrawal", err, nil)
		}},
		lived{"a snapshot", calls, func(int) { of(t, "a snapshot", once.journal.Snapshot(once.engine.Save), nil) }},
		lived{"what an operator asks", calls, func(int) {
			of(t, "metrics", once.WriteMetrics(io.Discard), nil)
			of(t, "ready", once.Ready(), nil)
		}})
}

// A reload leaves nothing of the options and of the bundles that there were, whatever gives these.
func TestAReloadLeavesNothing(t *testing.T) {
	agent := agentOf(t)
	folder, o := t.TempDir(), usual(t)
	o.Mode = Reuse
	g := open(t, o)
	file := o.Bundles[0].Source
	sets := []string{string(example.JWKSet()), strings.Replace(string(example.JWKSet()), `"use"`, `"note":"other","use"`, 1)}
	put := func(name, text string) { of(t, name, os.WriteFile(name, []byte(text), 0o600), nil) }
	put(filepath.Join(folder, "example.org.json"), sets[0])
	follow := func(specs ...bundles.Spec) { of(t, "follow", g.Follow(specs), nil) }
	leavesNothing(t,
		lived{"bundles of a file", calls, func(i int) {
			put(file, sets[i%2])
			g.Reload()
			of(t, "the file", g.FileFault(), nil)
		}},
		lived{"a file that is none", calls, func(i int) {
			put(file, fmt.Sprint("no bundle ", i%2))
			g.Reload()
			if g.FileFault() == nil {
				t.Fatal("nothing is wrong")
			}
		}},
		lived{"other sources", opens, func(i int) {
			follow(bundles.Folder(folder))
			follow(bundles.Spec{Domain: "example.org", Source: "https://127.0.0.1:1/"})
		}},
		lived{"a Workload API", opens, func(int) {
			follow(agent.spec)
			agent.await(t, g)
			follow(bundles.Folder(folder))
		}},
		lived{"a Workload API that is away", opens, func(int) {
			address, err := workload.ParseAddress("tcp://127.0.0.1:1")
			of(t, "an address", err, nil)
			follow(bundles.WorkloadAPI("tcp://127.0.0.1:1", address))
			g.Reload()
			follow(bundles.Folder(folder))
		}},
		lived{"other rules", calls, func(i int) {
			of(t, "rules", g.Admit([]string{"ledger", fmt.Sprint("other", i%3)}, []string{"spiffe://example.org/web"}), nil)
			of(t, "rules", g.Admit([]string{"ledger"}, nil), nil)
			if err := g.Admit([]string{"ledger"}, []string{"*"}); err == nil {
				t.Fatal("no error")
			}
		}})
}

// An agent is a Workload API that gives the bundle of example.org, and goes on.
type agent struct {
	spec  bundles.Spec
	given chan struct{}
}

// agentOf serves one.
func agentOf(t *testing.T) *agent {
	t.Helper()
	a := &agent{given: make(chan struct{}, 1)}
	entry := protowire.AppendField(protowire.AppendField(nil, 1, []byte("spiffe://example.org")), 2, example.JWKSet())
	frame := grpc.Frame(protowire.AppendField(nil, 1, entry))
	l, err := net.Listen("tcp", "127.0.0.1:0")
	of(t, "listen", err, nil)
	server := &http.Server{Handler: h2c.NewHandler(http.HandlerFunc(func(w http.ResponseWriter, r *http.Request) {
		w.Header().Set("Content-Type", "application/grpc")
		_, _ = w.Write(frame)
		w.(http.Flusher).Flush()
		a.given <- struct{}{}
		<-r.Context().Done()
	}), &http2.Server{})}
	go func() { _ = server.Serve(l) }()
	t.Cleanup(func() { server.Close() })
	at := "tcp://" + l.Addr().String()
	address, err := workload.ParseAddress(at)
	of(t, "an address", err, nil)
	a.spec = bundles.WorkloadAPI(at, address)
	return a
}

// await waits until the guard was given the bundle.
func (a *agent) await(t *testing.T, g *Guard) {
	t.Helper()
	select {
	case <-a.given:
	case <-time.After(patience.Long):
		t.Fatal("nobody asks the agent")
	}
	for end := time.Now().Add(patience.Long); !g.follows.watcher.Load().Answered(); time.Sleep(time.Millisecond) {
		if time.Now().After(end) {
			t.Fatal("the agent's bundle does not come")
		}
	}
}

// A countedStore counts how often it was closed.
type countedStore struct {
	memory.Store
	closed int
}

func (s *countedStore) Close() error { s.closed++; return nil }

// Close lets go of the store, once, however often it is called.
func TestCloseLetsGoOfTheStore(t *testing.T) {
	store := &countedStore{Store: memory.Store{Terms: Terms(3600, 30)}}
	o := usual(t)
	o.State, o.Store = "", store
	g := open(t, o)
	await(t, g)
	for i := 0; i < 2; i++ {
		g.Close()
	}
	if store.closed != 1 {
		t.Errorf("the store was closed %d times", store.closed)
	}
}

// What a guard was asked holds up no Close, whatever it was.
func TestCloseBehindEachCall(t *testing.T) {
	for name, call := range map[string]func(g *Guard){
		"Check":          func(g *Guard) { _, _ = g.Check(context.Background(), "no token") },
		"Ready":          func(g *Guard) { _ = g.Ready() },
		"Withdraw":       func(g *Guard) { _, _ = g.Withdraw("no token") },
		"WithdrawKey":    func(g *Guard) { _, _ = g.WithdrawKey(svid.TokenKey{1}, 1) },
		"Protect":        func(g *Guard) { ask(g.Protect(hello), "Bearer x") },
		"Handler":        func(g *Guard) { ask(g.Handler()) },
		"Reload":         func(g *Guard) { g.Reload() },
		"a bad pattern":  func(g *Guard) { _ = g.Admit([]string{"ledger"}, []string{"*"}) },
		"a bad source":   func(g *Guard) { _ = g.Follow([]bundles.Spec{{Domain: "A", Source: "b"}}) },
		"another source": func(g *Guard) { _ = g.Follow([]bundles.Spec{bundles.Folder(t.TempDir())}) },
		"Drain":          func(g *Guard) { g.Drain() },
		"WriteMetrics":   func(g *Guard) { _ = g.WriteMetrics(io.Discard) },
	} {
		o := usual(t)
		o.State, o.Mode = "", Reuse
		g, err := Open(o)
		of(t, "open", err, nil)
		call(g)
		closed := make(chan struct{})
		go func() { defer close(closed); g.Close() }()
		select {
		case <-closed:
		case <-time.After(patience.Long):
			t.Fatalf("behind %s, Close hangs", name)
		}
	}
}

// A moving log moves the state folder away at its first line that says so.
type moving struct {
	dir string
	at  string
}

func (m *moving) Write(line []byte) (int, error) {
	if strings.Contains(string(line), m.at) {
		_ = os.Rename(m.dir, m.dir+".moved")
	}
	return len(line), nil
}

// A guard does not start with a folder that takes nothing any more, as one does whose sync failed, or that was moved: each token would be used up, and
// answered 503.
func TestAStartWithAFolderThatHasEnded(t *testing.T) {
	o := usual(t)
	for i := 0; i < 9; i++ { // The journals of so many starts want a snapshot.
		j, err := journal.Open(o.State)
		of(t, "open", err, nil)
		of(t, "load", j.Load(func([]byte) error { return nil }), nil)
		of(t, "close", j.Close(), nil)
	}
	torn, err := os.OpenFile(filepath.Join(o.State, "journal.9"), os.O_APPEND|os.O_WRONLY, 0)
	of(t, "tear", err, nil)
	_, err = torn.WriteString("a write that was cut off")
	of(t, "tear", err, nil)
	torn.Close()
	o.Lines = server.NewLog(&moving{o.State, "journal torn"}, All)
	g, err := New(o)
	of(t, "new", err, nil)
	defer g.Close()
	of(t, "a folder that was moved at the start", g.Load(), svid.ErrFolderEnded)
}
