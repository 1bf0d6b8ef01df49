package server

import (
	"bytes"
	"context"
	"errors"
	"io"
	"runtime"
	"strings"
	"sync"
	"testing"
	"time"

	"svid.example/go/v3/carriers"
	"svid.example/go/v3/carriers/jetstream"
	"svid.example/go/v3/internal/natstest"
	"svid.example/go/v3/internal/patience"
	"svid.example/go/v3/svid"
)

// lines are what a log writes.
type lines struct {
	mu   sync.Mutex
	text bytes.Buffer
}

func (l *lines) Write(line []byte) (int, error) {
	l.mu.Lock()
	defer l.mu.Unlock()
	return l.text.Write(line)
}

func (l *lines) have(text string) bool {
	l.mu.Lock()
	defer l.mu.Unlock()
	return strings.Contains(l.text.String(), text)
}

// live is a token that expires in five minutes by this machine's clock.
func live(id string) string {
	return example.Token("ES256", map[string]any{"sub": "spiffe://example.org/web", "aud": "ledger", "exp": svid.Now() + 300, "jti": id})
}

// running joins an engine to the bucket of a broker, and runs it until the test ends.
func running(t *testing.T, e *Engine, url string) *Engine {
	t.Helper()
	ctx, cancel := context.WithTimeout(context.Background(), patience.Long)
	t.Cleanup(cancel)
	g, err := jetstream.Join(ctx, jetstream.Options{Servers: []string{url}, Name: "svid", ValidatorID: e.ValidatorID, TTL: time.Hour}, e)
	if err != nil {
		t.Fatal(err)
	}
	e.Join(g)
	<-g.Ready()
	var run sync.WaitGroup
	running, end := context.WithCancel(context.Background())
	run.Add(1)
	go func() { defer run.Done(); e.Run(running) }()
	t.Cleanup(func() { end(); run.Wait(); g.Close() })
	return e
}

// A withdrawal by a clock that is further ahead than the others allow is not answered as done. They hear of it as soon as
// they take it.
func TestAWithdrawalOfAClockThatIsAhead(t *testing.T) {
	url := natstest.Start(t).URL
	right := running(t, ready(t, engine(t, Options{Mode: Reuse, Grouped: true, ValidatorID: svid.ValidatorID{1}, Now: svid.Now})), url)
	var lines lines
	fast := running(t, ready(t, engine(t, Options{Mode: Reuse, Grouped: true, ValidatorID: svid.ValidatorID{2}, Log: NewLog(&lines, Errors),
		Now: func() uint64 { return svid.Now() + 33 }})), url)
	one := live("a")
	found, err := right.Find(one)
	if err != nil {
		t.Fatal(err)
	}
	_, _, err = fast.Withdraw(found.Key, found.Expires)
	if err == nil || !strings.Contains(err.Error(), "the other sidecars take it only in") {
		t.Error(err)
	}
	natstest.Await(t, "a line about it", func() bool { return lines.have(found.Key.String()) })
	if err := check(fast, one); err != svid.Withdrawn {
		t.Errorf("here: %v", err)
	}
	natstest.Await(t, "the withdrawal at another sidecar", func() bool { return check(right, one) == svid.Withdrawn })
	if got := right.group.Load().Aside(); got != 1 {
		t.Errorf("%d values were put aside: the first one is to be", got)
	}
	// One by a clock within the bound is done at once.
	other, err := right.Find(live("b"))
	if err != nil {
		t.Fatal(err)
	}
	if _, _, err := right.Withdraw(other.Key, other.Expires); err != nil {
		t.Error(err)
	}
}

// The machine sends it again a second after the log's server would take it: another member's clock may be that second behind.
func TestAWithdrawalIsToldAgainInTime(t *testing.T) {
	b := benchOf(t, Options{Mode: Reuse, Grouped: true})
	b.step(Joined{}, CaughtUp{}, Run{}, &Withdraw{Key: svid.TokenKey{1}, Expires: moment + 300})
	put := b.others[len(b.others)-1].(Send).Put
	const early = 3
	put.At = moment - b.machine.Ahead - early
	b.step(Landed{put})
	b.others = nil
	for second := 1; second <= early+2; second++ {
		if b.pass(time.Second); (b.count(Send{}) > 0) != (second > early) {
			t.Errorf("after %d seconds it is told %d times", second, b.count(Send{}))
		}
	}
}

// A slowGroup stores what it is given, by a clock that is behind.
type slowGroup struct{ behind time.Duration }

func (slowGroup) Ready() <-chan struct{}                                   { return closedChannel }
func (slowGroup) Put(context.Context, carriers.Kind, uint64, []byte) error { return nil }
func (slowGroup) Taken() uint64                                            { return 0 }
func (slowGroup) Aside() uint64                                            { return 0 }
func (slowGroup) Connected() bool                                          { return true }
func (g slowGroup) Stored(context.Context, carriers.Kind, uint64) (time.Time, error) {
	return time.Unix(moment, 0).Add(-g.behind), nil
}

var closedChannel = func() chan struct{} {
	c := make(chan struct{})
	close(c)
	return c
}()

// Nothing is withdrawn before all is read, and what the group does not hear of is not answered as done.
func TestAWithdrawalThatTheGroupDoesNotHearOf(t *testing.T) {
	one := svid.TokenKey{1}
	e := engine(t, Options{Mode: Reuse, Grouped: true, Wait: 50 * time.Millisecond})
	m := &tie{broker: &broker{}, engine: e, ready: make(chan struct{})}
	m.members = []*tie{m}
	withdraw := func() error {
		_, _, err := e.Withdraw(one, moment+300)
		return err
	}
	wantNotReady := func(what string) {
		t.Helper()
		if err := withdraw(); !errors.Is(err, ErrNotReady) {
			t.Errorf("%s: %v", what, err)
		}
	}
	wantNotReady("without a bundle")
	ready(t, e)
	wantNotReady("without a group")
	e.Join(m)
	wantNotReady("before the bucket is read")
	if len(m.log) != 0 || len(saved(t, e)) != 17 {
		t.Errorf("%d values, and a record of %d bytes", len(m.log), len(saved(t, e)))
	}
	close(m.ready)
	full := errors.New("no room")
	m.fault = full
	var told error
	await(t, "the group's fault", func() bool { told = withdraw(); return errors.Is(told, full) }) // (a busy machine may be late)
	if !strings.Contains(told.Error(), "not told") {
		t.Errorf("the group was not told: %v", told)
	}
	answer := make(chan struct{})
	m.mu.Lock() // (what came too late may be under way)
	m.fault, m.answer = nil, answer
	m.mu.Unlock()
	if err := withdraw(); !errors.Is(err, context.DeadlineExceeded) {
		t.Errorf("the group does not answer: %v", err)
	}
	if n := e.Metrics.Withdrawals.Load(); n != 0 {
		t.Errorf("%d are counted", n)
	}
	close(answer)
	var err error
	await(t, "an answer", func() bool { err = withdraw(); return !errors.Is(err, context.DeadlineExceeded) }) // (a busy machine may be late)
	if err != nil || e.Metrics.Withdrawals.Load() != 1 {
		t.Errorf("%v, and %d are counted", err, e.Metrics.Withdrawals.Load())
	}
}

// What waits to be told again ends with the engine, though its time is days away: nothing holds the engine's memory then.
func TestAWithdrawalThatWaitsEndsWithTheEngine(t *testing.T) {
	freed := make(chan struct{})
	func() { // so that nothing here refers to the engine
		log := NewLog(io.Discard, Errors)
		runtime.SetFinalizer(log, func(*Log) { close(freed) }) // (the engine refers to itself, and would have none)
		e, err := NewEngine(Options{Mode: Reuse, Audiences: []string{"ledger"}, Longest: 3600, Ahead: 30, ValidatorID: svid.ValidatorID{1}, Grouped: true,
			Wait: time.Second, Log: log, Now: func() uint64 { return moment }})
		if err != nil {
			t.Fatal(err)
		}
		defer e.Close()
		ready(t, e).Join(slowGroup{behind: 3 * 24 * time.Hour})
		_, _, err = e.Withdraw(svid.TokenKey{1}, moment+300)
		if err == nil || !strings.Contains(err.Error(), "the other sidecars take it only in 259170 seconds") {
			t.Error(err)
		}
		running, end := context.WithCancel(context.Background())
		end()
		e.Run(running)
	}()
	await(t, "the engine's memory", func() bool {
		runtime.GC()
		select {
		case <-freed:
			return true
		default:
			return false
		}
	})
}

// A withdrawal is answered in time, whatever does not answer; and what answers later changes nothing.
func TestAWithdrawalIsAnsweredInTime(t *testing.T) {
	o := inStrict(Options{Journal: &disk{}, Grouped: true})
	b := benchOf(t, o)
	b.step(Joined{}, CaughtUp{})
	for silent, want := range map[string]string{
		"disk":  "withdrawn here, but the withdrawal could not be kept: the disk did not answer in time: context deadline exceeded",
		"store": "withdrawn here, but the store did not take it; try again: context deadline exceeded",
		"group": "withdrawn here, but the group was not told; try again: context deadline exceeded",
		"none":  "",
	} {
		b.others = nil
		w := &Withdraw{Key: svid.TokenKey{1}, Expires: moment + 300}
		b.step(w)
		var late []Event
		for _, effect := range b.others {
			var ends Event
			is := ""
			switch effect := effect.(type) {
			case Append:
				is, ends = "disk", Kept{effect.Write}
			case WithdrawAtStore:
				is, ends = "store", Stored{effect.StoreWithdraw}
			case Send:
				effect.At = moment
				is, ends = "group", Landed{effect.Put}
			}
			if is == silent {
				late = append(late, ends)
			} else if b.step(ends); w.answered && silent != "none" {
				t.Errorf("%s: it is answered too early: %v", silent, w.Err)
			}
		}
		if silent != "none" && (len(late) != 1 || b.machine.Due() != b.now.Up+time.Minute) {
			t.Fatalf("%s: %d are silent, and it is due in %v", silent, len(late), b.machine.Due()-b.now.Up)
		}
		b.pass(time.Minute)
		said := ""
		if w.Err != nil {
			said = w.Err.Error()
		}
		if !w.answered || said != want {
			t.Errorf("%s: answered %v: %q", silent, w.answered, said)
		}
		if err := b.machine.Ready(b.now, false, false); err != nil {
			t.Errorf("%s: ready: %v", silent, err)
		}
		for b.others = nil; len(late) > 0; late = late[1:] {
			b.step(late[0])
		}
		if n := b.machine.Backlog(); n != 0 || b.count(Answer{}) != 0 {
			t.Errorf("%s: %d things are under way, and %d answers come", silent, n, b.count(Answer{}))
		}
	}
	if done, failed := b.machine.metrics.Withdrawals.Load(), b.machine.metrics.JournalFailures.Load(); done != 1 || failed != 1 {
		t.Errorf("%d are done, and %d writes have failed", done, failed)
	}
}
