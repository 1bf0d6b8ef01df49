package server

import (
	"bytes"
	"context"
	"errors"
	"fmt"
	"strings"
	"testing"

	"svid.example/go/v3/internal/patience"
	"svid.example/go/v3/svid"
)

// The use is on the disk before the answer goes out, and where it can't be, the token is not accepted then or later.
func TestOnceKeepsAnAcceptanceBeforeItAnswers(t *testing.T) {
	d := &disk{}
	e := ready(t, engine(t, Options{Mode: Once, Journal: d}))
	if err := check(e, token("a")); err != nil {
		t.Fatal(err)
	}
	if d.Size() != 82 {
		t.Errorf("%d bytes are on the disk", d.Size())
	}
	d.fault = errors.New("disk full")
	if err := check(e, token("b")); !errors.Is(err, d.fault) {
		t.Errorf("disk full: %v", err)
	}
	d.fault = nil
	if err := check(e, token("b")); err != svid.Replayed {
		t.Errorf("again: %v", err)
	}
	// What the disk has is used after a restart; what it could not keep was never accepted.
	again := engine(t, Options{Mode: Once, Journal: d})
	ready(t, again)
	if err := again.Load(d.kept); err != nil {
		t.Fatal(err)
	}
	if err := check(again, token("a")); err != svid.Replayed {
		t.Errorf("after a restart: %v", err)
	}
}

// Another request with the token is refused while the first one still waits for the disk.
func TestOnceAcceptsOneOfTwoAtOnce(t *testing.T) {
	d := &disk{}
	e := ready(t, engine(t, Options{Mode: Once, Journal: d}))
	var second error
	d.before = func() { d.before = nil; second = check(e, token("a")) }
	if err := check(e, token("a")); err != nil || second != svid.Replayed {
		t.Errorf("first %v, second %v", err, second)
	}
}

func TestARecordOfTheFutureIsNotLoaded(t *testing.T) {
	e := engine(t, Options{Mode: Once})
	use := svid.Use{Key: svid.TokenKey{1}, Expires: moment + 100, At: moment + 31}
	if err := e.Load(batchOf(use)); !errors.Is(err, svid.ErrTooFar) || !strings.Contains(err.Error(), "clock") {
		t.Errorf("%v", err)
	}
	if e.Ready() == nil {
		t.Error("it is ready")
	}
}

// A use that the broker does not take is counted, and so is one for which there is no room.
func TestWhatIsNotToldIsCounted(t *testing.T) {
	var out bytes.Buffer
	e := ready(t, engine(t, Options{Mode: Once, Grouped: true, Log: NewLog(&out, Errors)}))
	(&broker{}).join(e).fault = errors.New("the disk is full")
	if err := check(e, token("a")); err != nil {
		t.Fatal(err)
	}
	ctx, cancel := context.WithCancel(context.Background())
	cancel()
	e.Run(ctx)
	if e.Metrics.Untold.Load() != 1 || e.Metrics.Told.Load() != 0 || !strings.Contains(out.String(), `"event":"tell"`) {
		t.Errorf("untold %d, told %d, log %s", e.Metrics.Untold.Load(), e.Metrics.Told.Load(), &out)
	}
	full := ready(t, engine(t, Options{Mode: Once, Grouped: true}))
	(&broker{}).join(full)
	full.step(doing(func(m *Machine) { m.tale.untold = make([]svid.Use, mostUntold) }))
	if err := check(full, token("b")); err != nil || full.Metrics.Untold.Load() != 1 {
		t.Errorf("%v, untold %d", err, full.Metrics.Untold.Load())
	}
}

// Of many requests that share a write, each is answered.
func TestManyRequestsShareAWrite(t *testing.T) {
	e := ready(t, engine(t, Options{Mode: Once, Journal: &disk{}, Wait: patience.Long}))
	const many = 3*mostHeard + 1
	e.heard = []*Write{nil} // (so nobody begins before all are there)
	answers := make(chan error, many)
	for i := 0; i < many; i++ {
		go func(i int) { _, err := e.Check(context.Background(), token(fmt.Sprint("shares", i))); answers <- err }(i)
	}
	await(t, "all of them", func() bool {
		e.hearing.Lock()
		defer e.hearing.Unlock()
		return len(e.heard) == 1+many
	})
	e.heard = e.heard[1:]
	e.hear()
	for i := 0; i < many; i++ {
		if err := <-answers; err != nil {
			t.Error(err)
		}
	}
}
