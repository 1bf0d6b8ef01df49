package svid_test

import (
	"math/rand"
	"testing"
	"time"

	"svid.example/go/v3/svid"
)

// BenchmarkWalk walks over a record of a million uses: for a summary, and for an answer to a summary that agrees in all buckets but one. It also
// says for how long another call waited at the most.
func BenchmarkWalk(b *testing.B) {
	v := open(b, 1)
	random := rand.New(rand.NewSource(1))
	for i := 0; i < 250; i++ {
		uses := make([]svid.Use, 4000)
		for j := range uses {
			uses[j] = svid.Use{Expires: moment + 1000 + uint64(random.Intn(1000)), At: moment, ValidatorID: svid.ValidatorID{9}}
			random.Read(uses[j].Key[:])
		}
		if err := v.Take(moment, batchesOf(uses)); err != nil {
			b.Fatal(err)
		}
	}
	walk := func(name string, walk func() error) {
		b.Run(name, func(b *testing.B) {
			done, longest := make(chan struct{}), make(chan time.Duration)
			go func() {
				most := time.Duration(0)
				for {
					select {
					case <-done:
						longest <- most
						return
					default:
					}
					begun := time.Now()
					if _, err := v.Size(); err != nil {
						b.Error(err)
					}
					if took := time.Since(begun); took > most {
						most = took
					}
					time.Sleep(50 * time.Microsecond) // (a caller that comes again and again, and not a loop that holds the lock)
				}
			}()
			for i := 0; i < b.N; i++ {
				if err := walk(); err != nil {
					b.Fatal(err)
				}
			}
			close(done)
			b.ReportMetric(float64((<-longest).Microseconds()), "µs-waited")
		})
	}
	walk("summary", func() error { _, err := v.WalkSummary(10); return err })
	summary, err := v.WalkSummary(0)
	if err != nil {
		b.Fatal(err)
	}
	if err := v.Take(moment, batchOf(svid.Use{Expires: moment + 1000, At: moment, Key: svid.TokenKey{7}})); err != nil {
		b.Fatal(err)
	}
	walk("answer", func() error { _, err := v.WalkAnswer(summary, 1<<20); return err })
}
