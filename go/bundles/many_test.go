package bundles

import (
	"context"
	"encoding/json"
	"fmt"
	"os"
	"path/filepath"
	"runtime"
	"runtime/debug"
	"strings"
	"sync"
	"sync/atomic"
	"syscall"
	"testing"
	"time"

	"svid.example/go/v3/internal/agenttest"
	"svid.example/go/v3/internal/patience"
)

// A lone says whether its calls of do come one after the other.
type lone struct{ inside, both atomic.Int32 }

func (l *lone) do() {
	if l.inside.Add(1) > 1 {
		l.both.Add(1)
	}
	for i := 0; i < 20; i++ {
		runtime.Gosched() // so that another one may come
	}
	l.inside.Add(-1)
}

// Many may ask for a look at once. One looks at a time, and one tells at a time, so the newest bundles come last.
func TestTheNewestBundlesComeLast(t *testing.T) {
	folder := t.TempDir()
	named := filepath.Join(t.TempDir(), "named.json")
	text := func(n int) string { return strings.Replace(spire, `"kid": "C6`, fmt.Sprintf(`"kid": "%d`, n), 1) }
	write(t, named, text(0))
	write(t, filepath.Join(folder, "example.com.json"), text(0))
	var reading, telling lone
	var mu sync.Mutex
	var last map[string]string
	ctx, cancel := context.WithCancel(context.Background())
	defer cancel()
	w, err := Watch(ctx, []Spec{Folder(folder), {Domain: "example.org", Source: named}}, func(all map[string]json.RawMessage) error {
		telling.do()
		mu.Lock()
		defer mu.Unlock()
		last = map[string]string{}
		for domain, document := range all {
			last[domain] = string(document)
		}
		return nil
	}, Options{Every: time.Hour, Check: func(string, json.RawMessage) error { reading.do(); return nil }})
	if err != nil {
		t.Fatal(err)
	}
	const rounds, askers = 20, 4
	for round := 1; round <= rounds; round++ {
		for _, name := range []string{named, filepath.Join(folder, "example.com.json")} {
			write(t, name+".new", text(round))
			if err := os.Rename(name+".new", name); err != nil {
				t.Fatal(err)
			}
		}
		var all sync.WaitGroup
		for i := 0; i < askers; i++ {
			all.Add(2)
			go func() { defer all.Done(); w.Reload() }()
			go func() { defer all.Done(); w.tell(); w.Ages() }()
		}
		all.Wait()
		mu.Lock()
		if last["example.org"] != text(round) || last["example.com"] != text(round) {
			t.Errorf("round %d: %q", round, last)
		}
		mu.Unlock()
	}
	if n, m := reading.both.Load(), telling.both.Load(); n != 0 || m != 0 {
		t.Errorf("%d times two looked at once, and %d times two told at once", n, m)
	}
}

// opened is how many files this process has open.
func opened(t *testing.T) int {
	t.Helper()
	all, err := os.ReadDir("/proc/self/fd")
	if err != nil {
		t.Fatal(err)
	}
	return len(all)
}

// Looks at files leave none open, whatever stands there.
func TestNoFileStaysOpen(t *testing.T) {
	defer debug.SetGCPercent(debug.SetGCPercent(-1)) // which would close what is left open
	folder := t.TempDir()
	named := filepath.Join(folder, "named")
	write(t, named, spire)
	write(t, filepath.Join(folder, "example.org.json"), spire)
	if err := syscall.Mkfifo(filepath.Join(folder, "pipe.json"), 0o600); err != nil {
		t.Fatal(err)
	}
	w, _ := watch(t, nil, Folder(folder), Spec{Domain: "named", Source: named})
	before := opened(t)
	const looks = 20
	for i := 0; i < looks; i++ {
		w.Reload()
	}
	if after := opened(t); after >= before+looks {
		t.Errorf("%d files are open, and %d before", after, before)
	}
}

// A bundle that its source gives again is as good as new, though it is the same.
func TestABundleThatIsGivenAgainIsNew(t *testing.T) {
	name := filepath.Join(t.TempDir(), "bundle.json")
	write(t, name, spire)
	w, o := watch(t, nil, Spec{Domain: "example.org", Source: name})
	w.mu.Lock()
	w.held["example.org"].good = time.Now().Add(-time.Hour)
	w.mu.Unlock()
	if age, ok := w.Age("example.org"); !ok || age < time.Hour {
		t.Errorf("it is %v old", age)
	}
	w.Reload()
	if age, ok := w.Age("example.org"); !ok || age > time.Minute {
		t.Errorf("it is %v old, and was given just now", age)
	}
	if o.calls != 1 {
		t.Errorf("told %d times of one bundle", o.calls)
	}
}

// The end of the context ends a pause.
func TestTheEndEndsAPause(t *testing.T) {
	e := newEndpoint(t)
	pauses := make(chan time.Duration, 1)
	ctx, cancel := context.WithCancel(context.Background())
	before := runtime.NumGoroutine()
	o := Options{Every: time.Hour, after: func(d time.Duration) <-chan time.Time { pauses <- d; return nil }}
	e.trusted(&o)
	if _, err := Watch(ctx, []Spec{{Domain: "example.org", Source: e.URL}}, func(map[string]json.RawMessage) error { return nil }, o); err != nil {
		t.Fatal(err)
	}
	<-pauses
	cancel()
	e.CloseClientConnections() // which have goroutines of their own
	for end := time.Now().Add(patience.Long); runtime.NumGoroutine() > before; time.Sleep(time.Millisecond) {
		if time.Now().After(end) {
			t.Fatalf("%d goroutines, and %d before", runtime.NumGoroutine(), before)
		}
	}
}

// The bundles of an agent were good until the moment at which it went, also where nobody asked how old they are.
func TestBundlesAreGoodUntilTheAgentGoes(t *testing.T) {
	agent := agenttest.Start(t)
	agent.Give(t, map[string]string{"spiffe://example.org": bare})
	w, o := watch(t, nil, ofAgent(t, agent.Address))
	o.await(t, "the bundle", o.calledTimes(1))
	w.mu.Lock()
	w.held["example.org"].good = time.Now().Add(-time.Hour)
	w.mu.Unlock()
	agent.Kill(t)
	o.await(t, "the end of the stream", o.says("bundle not read; the last good one stays source "+agent.Address))
	if age, ok := w.Age("example.org"); !ok || age > 10*time.Minute {
		t.Errorf("it is %v old, and the agent went just now", age)
	}
}
