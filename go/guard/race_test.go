package guard

import (
	"context"
	"fmt"
	"io"
	"runtime"
	"sync"
	"testing"
	"time"

	"svid.example/go/v3/claims/memory"
	"svid.example/go/v3/svid"
)

// yields lets other goroutines run, now and then. It shares nothing with them, so that the race detector sees all that they share themselves.
func yields() {
	for n := time.Now().Nanosecond() >> 6 & 3; n > 0; n-- {
		runtime.Gosched()
	}
}

// A yielding writer lets others run while it has a line.
type yielding struct{}

func (yielding) Write(line []byte) (int, error) { yields(); return len(line), nil }

// Whatever is called at once, no token is accepted twice, and none after its withdrawal. Others run at each look at a clock, at each call of the
// store, and at each line of the log. The race detector looks at what they share.
func TestAllCallsAtOnce(t *testing.T) {
	for _, mode := range []Mode{Once, Strict, Bound, Reuse} {
		store := &memory.Store{Terms: Terms(3600, 30), Fault: func() error { yields(); return nil }}
		now := func() uint64 { yields(); return svid.Now() }
		guards := make([]*Guard, 2)
		for i := range guards {
			o := usual(t)
			o.Mode, o.Now, o.Lines = mode, now, NewLines(yielding{}, All)
			if mode == Strict || mode == Bound {
				o.State, o.Store = "", store
			}
			guards[i] = open(t, o)
			await(t, guards[i])
		}
		allCalls(t, mode, guards)
	}
}

// A shown token counts who was accepted with it.
type shown struct {
	text string

	mu      sync.Mutex
	by      map[string]int // how often, by the guard that accepted it
	callers map[string]bool
}

// counts takes note of an acceptance.
func (s *shown) counts(guard, caller string) {
	s.mu.Lock()
	defer s.mu.Unlock()
	s.by[guard]++
	s.callers[caller] = true
}

// wrong says what the mode does not allow, or nothing.
func (s *shown) wrong(mode Mode) string {
	all := 0
	for guard, times := range s.by {
		if all += times; mode == Once && times > 1 {
			return fmt.Sprintf("guard %s accepted it %d times", guard, times)
		}
	}
	switch {
	case mode == Strict && all > 1:
		return fmt.Sprintf("it was accepted %d times", all)
	case mode == Bound && len(s.callers) > 1:
		return "two callers were accepted"
	}
	return ""
}

// allCalls makes all calls of guards at once, and looks at what was accepted.
func allCalls(t *testing.T, mode Mode, guards []*Guard) {
	t.Helper()
	tokens := make([]*shown, 24)
	for i := range tokens {
		tokens[i] = &shown{text: token(fmt.Sprint(mode, i)), by: map[string]int{}, callers: map[string]bool{}}
	}
	var calling sync.WaitGroup
	goOn := func(do func()) {
		calling.Add(1)
		go func() { defer calling.Done(); do() }()
	}
	specs := guards[0].options.Bundles
	for n, g := range guards {
		guard, g := fmt.Sprint(n), g
		for c := 0; c < 3; c++ {
			caller := fmt.Sprint("caller ", c)
			goOn(func() {
				for _, one := range tokens {
					switch _, err := g.Check(WithCaller(context.Background(), caller), one.text); {
					case err == nil:
						one.counts(guard, caller)
					case err != svid.Replayed:
						t.Errorf("%s: %v", mode, err)
					}
					yields()
				}
			})
		}
		goOn(func() { // Those that were withdrawn.
			for i := 0; i < 8; i++ {
				gone := token(fmt.Sprint(mode, guard, "gone", i))
				if _, err := g.Withdraw(gone); err != nil {
					t.Errorf("%s: withdraw: %v", mode, err)
				}
				if _, err := g.Check(WithCaller(context.Background(), "any"), gone); err != svid.Withdrawn {
					t.Errorf("%s: after its withdrawal: %v", mode, err)
				}
			}
		})
		goOn(func() { // Those whose clients leave.
			for i := 0; i < 8; i++ {
				ctx, leave := context.WithCancel(WithCaller(context.Background(), "any"))
				goOn(func() { yields(); leave() })
				_, _ = g.Check(ctx, token(fmt.Sprint(mode, guard, "left", i)))
			}
		})
		goOn(func() {
			for i := 0; i < 8; i++ {
				if err := g.Admit([]string{"ledger", fmt.Sprint("other", i)}, nil); err != nil {
					t.Errorf("%s: admit: %v", mode, err)
				}
				if err := g.Follow(specs); err != nil {
					t.Errorf("%s: follow: %v", mode, err)
				}
				g.Reload()
			}
		})
		goOn(func() {
			for i := 0; i < 8; i++ {
				if err := g.WriteMetrics(io.Discard); err != nil {
					t.Errorf("%s: metrics: %v", mode, err)
				}
				if err := g.FileFault(); err != nil {
					t.Errorf("%s: %v", mode, err)
				}
				_ = g.Ready()
				if g.journal != nil {
					if err := g.journal.Snapshot(g.engine.Save); err != nil {
						t.Errorf("%s: snapshot: %v", mode, err)
					}
				}
			}
		})
	}
	inTime(t, calling.Wait)
	for i, one := range tokens {
		if why := one.wrong(mode); why != "" {
			t.Errorf("%s: token %d: %s", mode, i, why)
		}
		if len(one.by) == 0 {
			t.Errorf("%s: token %d was accepted by nobody", mode, i)
		}
	}
	for _, g := range guards { // And they end while others are asked.
		g := g
		goOn(g.Close)
		goOn(func() { _, _ = g.Check(WithCaller(context.Background(), "any"), token(string(mode))); _ = g.Ready() })
	}
	inTime(t, calling.Wait)
}
