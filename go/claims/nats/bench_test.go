package nats

import (
	"context"
	"crypto/rand"
	"fmt"
	"os"
	"path/filepath"
	"strconv"
	"strings"
	"sync"
	"syscall"
	"testing"
	"time"

	client "github.com/nats-io/nats.go"

	"svid.example/go/v3/claims"
	"svid.example/go/v3/claims/claimstest"
	"svid.example/go/v3/svid"
)

// ticks is how much time of the processors a process has had.
func ticks(b testing.TB, pid int) time.Duration {
	b.Helper()
	text, err := os.ReadFile(fmt.Sprintf("/proc/%d/stat", pid))
	if err != nil {
		b.Fatal(err)
	}
	_, rest, _ := strings.Cut(string(text), ") ")
	fields := strings.Fields(rest)
	user, _ := strconv.Atoi(fields[11])
	system, _ := strconv.Atoi(fields[12])
	return time.Duration(user+system) * 10 * time.Millisecond
}

func selfTicks() time.Duration {
	var u syscall.Rusage
	syscall.Getrusage(syscall.RUSAGE_SELF, &u)
	return time.Duration(u.Utime.Nano() + u.Stime.Nano())
}

// rss is how many bytes of memory a process has.
func rss(b testing.TB, pid int) float64 {
	text, err := os.ReadFile(fmt.Sprintf("/proc/%d/statm", pid))
	if err != nil {
		b.Fatal(err)
	}
	pages, _ := strconv.Atoi(strings.Fields(string(text))[1])
	return float64(pages * os.Getpagesize())
}

func randomKey() (key svid.TokenKey) {
	rand.Read(key[:])
	return key
}

// measure lets so many goroutines put calls of a size, and says what a claim costs.
func measure(b *testing.B, server int, goroutines, size int, put func(n int)) {
	b.Helper()
	var running sync.WaitGroup
	theirs, mine := ticks(b, server), selfTicks()
	b.ResetTimer()
	for g := 0; g < goroutines; g++ {
		running.Add(1)
		go func(g int) {
			defer running.Done()
			for n := g * size; n < b.N; n += goroutines * size {
				put(size)
			}
		}(g)
	}
	running.Wait()
	b.StopTimer()
	n := float64((b.N + size - 1) / size * size)
	b.ReportMetric(float64((ticks(b, server)-theirs).Microseconds())/n, "server-µs/claim")
	b.ReportMetric(float64((selfTicks()-mine).Microseconds())/n, "client-µs/claim")
	b.ReportMetric(0, "ns/op")
}

// What a claim costs, alone and in calls of 16, by one at a time and by many, beside kv.Create of the client.
func BenchmarkPut(b *testing.B) {
	m := newMachine(b)
	store := newStore(b, Options{Servers: []string{m.URL}, Name: "bench", Terms: claimstest.Usual})
	b.Cleanup(func() { store.Close() })
	claimstest.Open(b, store)
	put := func(size int) {
		these, found := make([]claims.Claim, size), make([]claims.Found, size)
		for i := range these {
			these[i] = claims.Claim{Key: randomKey(), Owner: claimstest.Own(1), Expires: claimstest.Now() + 300}
		}
		store.Put(context.Background(), these, found)
		for _, f := range found {
			if f.Err != nil {
				b.Error(f.Err)
			}
		}
	}
	for _, run := range []struct{ goroutines, size int }{{1, 1}, {1, 16}, {4, 16}, {1, 64}, {32, 1}} {
		b.Run(fmt.Sprintf("calls of %d by %d", run.size, run.goroutines), func(b *testing.B) {
			measure(b, m.Pid(), run.goroutines, run.size, put)
		})
	}
	js := admin(b, m.URL)
	kv, err := js.CreateKeyValue(&client.KeyValueConfig{Bucket: "plain", TTL: 2 * time.Hour})
	if err != nil {
		b.Fatal(err)
	}
	for _, goroutines := range []int{1, 32} {
		b.Run(fmt.Sprintf("kv.Create by %d", goroutines), func(b *testing.B) {
			measure(b, m.Pid(), goroutines, 1, func(int) {
				if _, err := kv.Create(keyText(randomKey()), []byte("1")); err != nil {
					b.Error(err)
				}
			})
		})
	}
}

// What it costs that a member looks at the store, as each does once a second.
func BenchmarkState(b *testing.B) {
	m := newMachine(b)
	store := newStore(b, Options{Servers: []string{m.URL}, Name: "bench", Terms: claimstest.Usual})
	b.Cleanup(func() { store.Close() })
	claimstest.Open(b, store)
	claimstest.Put(b, store, claims.Claim{Key: randomKey(), Owner: claimstest.Own(1), Expires: claimstest.Now() + 300})
	for name, every := range map[string]time.Duration{"all": 0, "time alone": time.Hour} {
		store.every = every
		b.Run(name, func(b *testing.B) { measureState(b, m, store) })
	}
}

func measureState(b *testing.B, m *machine, store *Store) {
	measure(b, m.Pid(), 1, 1, func(int) {
		if _, err := store.State(context.Background()); err != nil {
			b.Error(err)
		}
	})
}

// What a million entries hold, and how long a member takes to open the store then.
func BenchmarkMillion(b *testing.B) {
	const entries = 1_000_000
	m := newMachine(b)
	store := newStore(b, Options{Servers: []string{m.URL}, Name: "bench", Terms: claimstest.Usual})
	b.Cleanup(func() { store.Close() })
	claimstest.Open(b, store)
	before := rss(b, m.Pid())
	theirs := ticks(b, m.Pid())
	these, found := make([]claims.Claim, claims.MostClaims), make([]claims.Found, claims.MostClaims)
	for n := 0; n < entries; n += len(these) {
		for i := range these {
			these[i] = claims.Claim{Key: randomKey(), Owner: claimstest.Own(1), Expires: claimstest.Now() + 300}
		}
		store.Put(context.Background(), these, found)
		for _, f := range found {
			if f.Err != nil {
				b.Fatal(f.Err)
			}
		}
	}
	b.ReportMetric((rss(b, m.Pid())-before)/entries, "B-memory/entry")
	b.ReportMetric(float64((ticks(b, m.Pid())-theirs).Microseconds())/entries, "server-µs/claim")
	var disk int64
	filepath.Walk(m.dir, func(_ string, info os.FileInfo, err error) error {
		if err == nil && !info.IsDir() {
			disk += info.Size()
		}
		return nil
	})
	b.ReportMetric(float64(disk)/entries, "B-disk/entry")
	late := newStore(b, Options{Servers: []string{m.URL}, Name: "bench", Terms: claimstest.Usual})
	defer late.Close()
	begun := time.Now()
	claimstest.Open(b, late)
	b.ReportMetric(float64(time.Since(begun).Microseconds())/1000, "ms/open")
	b.ReportMetric(0, "ns/op")
}
