package jetstream

import (
	"fmt"
	"testing"
	"time"

	"github.com/nats-io/nats.go"

	"svid.example/go/v3/internal/natstest"
)

// A counter is a sink that does nothing, so that the bucket alone is measured.
type counter struct{}

func (counter) Begin(Log)            {}
func (counter) Take([]Value) []error { return nil }

// BenchmarkCatchUp reads a bucket of N uses, from Join to Ready.
func BenchmarkCatchUp(b *testing.B) {
	s := natstest.Start(b)
	fill(b, s.URL, b.N)
	b.ResetTimer()
	g, err := Join(patient(b), options(2, s.URL), counter{})
	if err != nil {
		b.Fatal(err)
	}
	defer g.Close()
	<-g.Ready()
	if got := g.Taken(); got != uint64(b.N) {
		b.Errorf("%d values, want %d", got, b.N)
	}
}

// fill puts n uses into the bucket.
func fill(b *testing.B, url string, n int) {
	g, err := Join(patient(b), options(1, url), counter{})
	if err != nil {
		b.Fatal(err)
	}
	defer g.Close()
	js, err := g.conn.JetStream(nats.PublishAsyncMaxPending(4096))
	if err != nil {
		b.Fatal(err)
	}
	for i := 0; i < n; i++ {
		if _, err := js.PublishAsync(fmt.Sprintf("%su.%s.%d", g.subject, g.member, i), batch(key(i), g.options.ValidatorID), nats.StallWait(time.Minute)); err != nil {
			b.Fatal(err)
		}
	}
	select {
	case <-js.PublishAsyncComplete():
	case <-time.After(time.Minute):
		b.Fatal("the broker did not store all values")
	}
}

// BenchmarkPut puts values of one use, one after the other.
func BenchmarkPut(b *testing.B) {
	s := natstest.Start(b)
	g, err := Join(patient(b), options(1, s.URL), counter{})
	if err != nil {
		b.Fatal(err)
	}
	defer g.Close()
	b.ResetTimer()
	for i := 0; i < b.N; i++ {
		if err := g.Put(patient(b), Claims, uint64(i+1), batch(key(i), g.options.ValidatorID)); err != nil {
			b.Fatal(err)
		}
	}
}
