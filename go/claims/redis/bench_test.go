package redis

import (
	"context"
	"fmt"
	"runtime"
	"sync"
	"syscall"
	"testing"
	"time"
	"unsafe"

	"github.com/gomodule/redigo/redis"

	"svid.example/go/v3/claims"
	"svid.example/go/v3/claims/claimstest"
)

// processorTime is what a process has taken of the processors.
func processorTime(pid int) time.Duration {
	var t syscall.Timespec
	clock := uintptr(int32(^int32(pid)<<3 | 2)) // (as clock_getcpuclockid has it; 0 for this one)
	if pid == 0 {
		clock = 2 // CLOCK_PROCESS_CPUTIME_ID
	}
	syscall.Syscall(syscall.SYS_CLOCK_GETTIME, clock, uintptr(unsafe.Pointer(&t)), 0)
	return time.Duration(t.Nano())
}

// BenchmarkPut measures the processor time of a claim at the server and here, in calls of 1 and 16, by one goroutine and by eight. It is
// beside plain SET NX EX by redigo, one pipeline a call.
func BenchmarkPut(b *testing.B) {
	s := start(b)
	ctx := context.Background()
	for _, each := range []int{1, 16} {
		for _, goroutines := range []int{1, 8} {
			store := openedOwn(b, Options{URLs: []string{s.URL}, Name: fmt.Sprint("bench-", each, "-", goroutines)})
			measure := func(name string, call func(these []claims.Claim, found []claims.Found) error) {
				b.Run(fmt.Sprintf("%s/%d/by%d", name, each, goroutines), func(b *testing.B) {
					runtime.GC()
					server, own := processorTime(s.Pid()), processorTime(0)
					var running sync.WaitGroup
					for g := 0; g < goroutines; g++ {
						running.Add(1)
						go func(g int) {
							defer running.Done()
							these, found := make([]claims.Claim, each), make([]claims.Found, each)
							for n := g; n < b.N; n += goroutines {
								for i := range these {
									these[i] = claim(1)
								}
								if err := call(these, found); err != nil {
									b.Error(err)
									return
								}
							}
						}(g)
					}
					running.Wait()
					all := float64(b.N * each * 1000)
					b.ReportMetric(float64(processorTime(s.Pid())-server)/all, "server-µs/claim")
					b.ReportMetric(float64(processorTime(0)-own)/all, "client-µs/claim")
				})
			}
			measure("claims", func(these []claims.Claim, found []claims.Found) error {
				call, cancel := context.WithTimeout(ctx, time.Minute)
				defer cancel()
				store.Put(call, these, found)
				for i := range found {
					if found[i].Err != nil || found[i].Owner != these[i].Owner {
						return fmt.Errorf("%+v", found[i])
					}
				}
				return nil
			})
			pool := &redis.Pool{MaxIdle: 8, Dial: func() (redis.Conn, error) { return redis.Dial("tcp", s.Redis.Address) }}
			measure("plain", func(these []claims.Claim, found []claims.Found) error {
				c := pool.Get()
				defer c.Close()
				for i := range these {
					if err := c.Send("SET", "plain:"+string(these[i].Key[:]), "1", "NX", "EX", 420); err != nil {
						return err
					}
				}
				if err := c.Flush(); err != nil {
					return err
				}
				for range these {
					if _, err := c.Receive(); err != nil {
						return err
					}
				}
				return nil
			})
			pool.Close()
		}
	}
}

// BenchmarkMemory measures what an entry takes of the server's memory.
func BenchmarkMemory(b *testing.B) {
	s := start(b, "--appendfsync", "always")
	store := openedOwn(b, Options{URLs: []string{s.URL}})
	used := func() float64 {
		c, err := store.servers[0].dial(context.Background())
		if err != nil {
			b.Fatal(err)
		}
		defer c.Close()
		answers, err := c.do(context.Background(), cmd("INFO", "memory"))
		if err != nil {
			b.Fatal(err)
		}
		var n float64
		fmt.Sscan(field(textOf(answers[0]), "used_memory"), &n)
		return n
	}
	before := used()
	these, found := make([]claims.Claim, claims.MostClaims), make([]claims.Found, claims.MostClaims)
	n := 0
	for ; n < b.N; n += len(these) {
		for i := range these {
			these[i] = claim(1)
			these[i].Expires = claimstest.Now() + 7000
		}
		store.Put(context.Background(), these, found)
		if found[0].Err != nil {
			b.Fatal(found[0].Err)
		}
	}
	b.ReportMetric((used()-before)/float64(n), "B/claim")
}
