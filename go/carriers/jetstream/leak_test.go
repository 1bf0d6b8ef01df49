package jetstream

import (
	"errors"
	"fmt"
	"sync/atomic"
	"testing"
	"time"

	"svid.example/go/v3/internal/natstest"
	"svid.example/go/v3/internal/patience"
)

// However often a member repairs its record, or starts to read again, it listens at no more subjects than before.
func TestNoSubscriptionStays(t *testing.T) {
	t.Parallel()
	a := join(t, options(1, natstest.Start(t).URL))
	asked := make(chan bool)
	await := func(repairs int) {
		t.Helper()
		for ; repairs > 0; repairs-- {
			select {
			case <-asked:
			case <-time.After(patience.Long):
				t.Fatal("no summary is sent")
			}
		}
	}
	a.Summaries(time.Millisecond, func() ([]byte, error) {
		select {
		case asked <- true:
		case <-a.life.Done():
		}
		return []byte("of a"), nil
	}, func([]byte, int) ([][]byte, error) { return nil, nil })
	await(2)
	before := a.conn.NumSubscriptions()
	await(20)
	for i := 0; i < 20; i++ {
		natstest.Await(t, "a feed", func() bool {
			f, _, err := a.feedFrom(1, readWait)
			if err == nil {
				f.close()
			}
			return err == nil
		})
	}
	const most = 2 // of a repair, and of the reader that starts again
	natstest.Await(t, fmt.Sprintf("subscriptions, which were %d, to end", before), func() bool { return a.conn.NumSubscriptions() <= before+most })
}

// A repair that failed is made again at its time: a member without a summary, or without a broker, keeps no processor busy.
func TestARepairThatFailedWaitsForItsTime(t *testing.T) {
	t.Parallel()
	a := join(t, options(1, natstest.Start(t).URL))
	var asked atomic.Int32
	a.Summaries(time.Hour, func() ([]byte, error) { asked.Add(1); return nil, errors.New("no memory for a summary") },
		func([]byte, int) ([][]byte, error) { return nil, nil })
	natstest.Await(t, "a summary", func() bool { return asked.Load() > 0 })
	for i := 0; i < 20; i++ {
		tell(t, a, i)
	}
	if n := asked.Load(); n != 1 {
		t.Errorf("%d summaries were asked for within an hour", n)
	}
}

// However often reading failed, it begins again soon.
func TestTheRestBeforeReadingHasABound(t *testing.T) {
	for rest, most := range map[time.Duration]time.Duration{attemptPause: mostAnewWait, readWait: mostReadWait} {
		for i := 0; i < 1000; i++ {
			before := rest
			if rest = longer(rest, most); rest < before || rest <= 0 || rest > most {
				t.Fatalf("behind %d failures: %v, and %v before", i+1, rest, before)
			}
		}
	}
}
