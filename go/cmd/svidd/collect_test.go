package main

import (
	"context"
	"runtime"
	"runtime/debug"
	"testing"
	"time"

	"svid.example/go/v3/bundles"
	"svid.example/go/v3/guard"
	"svid.example/go/v3/internal/patience"
)

// Garbage is collected early until the sidecar is ready, or ends, and as usual from then on; and as GOGC says where that is given. (How much
// may gather is one number of the process. So this test runs beside no other one.)
func TestGarbageOfAStartIsCollectedEarly(t *testing.T) {
	defer debug.SetGCPercent(debug.SetGCPercent(100))
	ballast := make([]byte, 4*spareHeap) // Beside it, what other tests have left does not count.
	defer runtime.KeepAlive(ballast)
	runtime.GC()
	next := func() uint64 {
		var now runtime.MemStats
		runtime.ReadMemStats(&now)
		return now.NextGC
	}
	usual := next()
	isEarly := func() bool { return next() < usual*3/4 }
	file, err := bundles.Parse("example.org=" + bundleFile(t, example))
	if err != nil {
		t.Fatal(err)
	}
	for _, row := range []struct {
		name, percent string
		early         bool
		end           func(g *guard.Guard, cancel func()) error
	}{
		{"ready", "", true, func(g *guard.Guard, _ func()) error { return g.Load() }},
		{"ended", "", true, func(_ *guard.Guard, cancel func()) error { cancel(); return nil }},
		{"given", "100", false, func(*guard.Guard, func()) error { return nil }},
	} {
		t.Setenv("GOGC", row.percent)
		g, err := guard.New(guard.Options{Audiences: []string{"ledger"}, Bundles: []bundles.Spec{file}, Mode: guard.Reuse})
		if err != nil {
			t.Fatal(err)
		}
		ctx, cancel := context.WithCancel(context.Background())
		over := make(chan struct{})
		go func() { defer close(over); (&sidecar{guard: g}).collectEarly(ctx) }()
		if row.early {
			for end := time.Now().Add(patience.Long); !isEarly(); time.Sleep(time.Millisecond) {
				if time.Now().After(end) {
					t.Fatalf("%s: garbage is not collected early", row.name)
				}
			}
			select {
			case <-over:
				t.Errorf("%s: it is over before the sidecar is ready", row.name)
			case <-time.After(2 * readyPause):
			}
		}
		if err := row.end(g, cancel); err != nil {
			t.Fatal(err)
		}
		select {
		case <-over:
		case <-time.After(patience.Long):
			t.Fatalf("%s: it is not over", row.name)
		}
		if isEarly() {
			t.Errorf("%s: garbage is still collected early", row.name)
		}
		cancel()
		g.Close()
	}
}
