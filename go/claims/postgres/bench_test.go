package postgres

import (
	"context"
	"crypto/rand"
	"database/sql/driver"
	"fmt"
	"os"
	"path/filepath"
	"strings"
	"sync"
	"syscall"
	"testing"
	"time"

	"svid.example/go/v3/claims"
	"svid.example/go/v3/claims/claimstest"
	"svid.example/go/v3/svid"
)

// spent is the processor time of a server with all its processes, those that have ended too.
func (s *machine) spent(b *testing.B) time.Duration {
	b.Helper()
	var ticks int
	names, _ := filepath.Glob("/proc/[0-9]*/stat")
	for _, name := range names {
		text, err := os.ReadFile(name)
		_, rest, ok := strings.Cut(string(text), ") ")
		if err != nil || !ok {
			continue // It has ended.
		}
		var state string
		var parent, user, system, usersOfEnded, systemOfEnded, skipped int
		if _, err := fmt.Sscan(rest, &state, &parent, &skipped, &skipped, &skipped, &skipped, &skipped, &skipped, &skipped, &skipped, &skipped, &user, &system,
			&usersOfEnded, &systemOfEnded); err != nil {
			b.Fatal(err)
		}
		switch {
		case filepath.Base(filepath.Dir(name)) == fmt.Sprint(s.Pid()):
			ticks += user + system + usersOfEnded + systemOfEnded
		case parent == s.Pid():
			ticks += user + system
		}
	}
	return time.Duration(ticks) * 10 * time.Millisecond
}

// own is the processor time of this process.
func own(b *testing.B) time.Duration {
	var used syscall.Rusage
	if err := syscall.Getrusage(syscall.RUSAGE_SELF, &used); err != nil {
		b.Fatal(err)
	}
	return time.Duration(used.Utime.Nano() + used.Stime.Nano())
}

// A plainMember puts claims as a program does that has nothing but a table.
type plainMember struct {
	*Store
	conns chan *conn
}

func (p *plainMember) Put(ctx context.Context, these []claims.Claim, found []claims.Found) {
	c := <-p.conns
	defer func() { p.conns <- c }()
	if len(these) > 1 {
		keys, _, ends := arrays(these)
		if _, err := c.call(ctx, "INSERT INTO plain SELECT * FROM unnest($1::bytea[], $2::bigint[]) ON CONFLICT DO NOTHING", keys, ends); err != nil {
			found[0].Err = err
		}
		return
	}
	if _, err := c.call(ctx, "INSERT INTO plain VALUES ($1, $2) ON CONFLICT DO NOTHING", these[0].Key[:], driver.Value(int64(these[0].Expires))); err != nil {
		found[0].Err = err
	}
}

// look looks at a store each second, as a member does, until what it returns is called.
func look(store *Store) (end func()) {
	ctx, cancel := context.WithCancel(context.Background())
	done := make(chan struct{})
	go func() {
		defer close(done)
		tick := time.NewTicker(time.Second)
		defer tick.Stop()
		for {
			select {
			case <-tick.C:
				store.State(ctx)
			case <-ctx.Done():
				return
			}
		}
	}()
	return func() { cancel(); <-done }
}

// BenchmarkPut says what a claim costs at the server, and at the member, beside a plain INSERT. b.N is a number of claims.
func BenchmarkPut(b *testing.B) {
	s := start(b, "-c", "shared_buffers=256MB", "-c", "max_wal_size=2GB")
	s.do(b, "CREATE TABLE plain (key bytea PRIMARY KEY, expires bigint NOT NULL)")
	for _, each := range []int{1, 16} {
		for _, name := range []string{"claims", "plain"} {
			for _, members := range []int{1, 8} {
				b.Run(fmt.Sprintf("%s/in_calls_of_%d/%d_at_once", name, each, members), func(b *testing.B) {
					store := newStore(b, Options{URLs: []string{s.URL}, Name: "svid", Terms: claimstest.Usual})
					claimstest.Open(b, store)
					var putter interface {
						Put(context.Context, []claims.Claim, []claims.Found)
					} = store
					if name == "plain" {
						p := &plainMember{store.(*Store), make(chan *conn, members)}
						for i := 0; i < members; i++ {
							c, err := p.take(context.Background())
							if err != nil {
								b.Fatal(err)
							}
							p.conns <- c
						}
						putter = p
					}
					defer look(store.(*Store))()
					run := func(n int) {
						var running sync.WaitGroup
						for m := 0; m < members; m++ {
							running.Add(1)
							go func() {
								defer running.Done()
								these, found := make([]claims.Claim, each), make([]claims.Found, each)
								for i := 0; i < n/members; i += each {
									for k := range these {
										var key svid.TokenKey
										rand.Read(key[:])
										these[k] = claims.Claim{Key: key, Owner: claimstest.Own(1), Expires: claimstest.Now() + 300}
									}
									putter.Put(context.Background(), these, found)
									if found[0].Err != nil {
										b.Error(found[0].Err)
										return
									}
								}
							}()
						}
						running.Wait()
					}
					run(200 * members * each) // All is prepared then.
					server, client := s.spent(b), own(b)
					b.ResetTimer()
					run(b.N)
					b.StopTimer()
					b.ReportMetric(float64((s.spent(b)-server).Microseconds())/float64(b.N), "server-µs")
					b.ReportMetric(float64((own(b)-client).Microseconds())/float64(b.N), "client-µs")
				})
			}
		}
	}
}
