package main

import (
	"fmt"
	"net/http"
	"net/http/httptest"
	"os"
	"path/filepath"
	"strings"
	"sync/atomic"
	"syscall"
	"testing"
	"time"

	"svid.example/go/v3/internal/natstest"
	"svid.example/go/v3/internal/server"
)

// BenchmarkModes sends tokens to a sidecar within this process, 32 at a time, without the network: new ones, or a few again and again.
func BenchmarkModes(b *testing.B) {
	const few = 256
	for _, name := range []string{"once", "strict", "strict with a state folder", "bound", "bound, a few tokens", "reuse", "reuse, a few tokens"} {
		b.Run(name, func(b *testing.B) {
			mode, more, _ := strings.Cut(strings.ReplaceAll(name, ",", ""), " ")
			kept, again := strings.HasPrefix(more, "with"), strings.HasPrefix(more, "a few")
			o := options{
				audiences: list{"ledger"}, bundles: list{"example.org=" + bundleFile(b, example)}, longest: seconds{7200, true}, ahead: seconds{30, true},
				listen: freeAddress(b), replay: mode, group: "svid", replicas: 1, wait: period(10 * time.Second), summaries: period(time.Hour),
			}
			if kept || mode == "once" {
				o.state = filepath.Join(b.TempDir(), "state")
			}
			if mode == "strict" || mode == "bound" {
				o.stores = list{natstest.Start(b).URL}
			}
			if mode == "bound" {
				o.caller = "address:X-Real-Ip"
			}
			s := &sidecar{options: o, log: server.NewLog(os.Stderr, server.Errors), failed: make(chan error, 1)}
			signals, ended := make(chan os.Signal, 1), make(chan error, 1)
			go func() { ended <- s.run(signals) }()
			natstest.Await(b, "ready", func() bool {
				answer, err := http.Get("http://" + o.listen + "/readyz")
				if err != nil {
					return false
				}
				answer.Body.Close()
				return answer.StatusCode == http.StatusOK
			})
			tokens := make([]string, b.N)
			if again && b.N > few {
				tokens = tokens[:few]
			}
			for i := range tokens {
				tokens[i] = token(b, fmt.Sprint(name, i), time.Hour)
			}
			handler := s.guard.Handler()
			next := int64(-1)
			b.SetParallelism(32)
			b.ReportAllocs()
			b.ResetTimer()
			b.RunParallel(func(p *testing.PB) {
				for p.Next() {
					r := httptest.NewRequest(http.MethodGet, "/check", nil)
					r.Header.Set("Authorization", "Bearer "+tokens[int(atomic.AddInt64(&next, 1))%len(tokens)])
					r.Header.Set("X-Real-Ip", "192.0.2.1")
					w := httptest.NewRecorder()
					if handler.ServeHTTP(w, r); w.Code != http.StatusOK {
						b.Error(w.Code, w.Body)
					}
				}
			})
			b.StopTimer()
			signals <- syscall.SIGTERM
			if err := <-ended; err != nil {
				b.Error(err)
			}
		})
	}
}
