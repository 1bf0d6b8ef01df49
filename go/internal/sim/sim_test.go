package sim

import (
	"errors"
	"flag"
	"fmt"
	"os"
	"runtime"
	"sort"
	"strings"
	"sync"
	"sync/atomic"
	"testing"
	"time"

	"svid.example/go/v3/internal/server"
	"svid.example/go/v3/svid"
)

var (
	seeds = flag.Int("seeds", usual(), "how many seeds to run of each mode")
	from  = flag.Int64("from", 0, "the first one")
	seed  = flag.Int64("seed", -1, "run this seed alone, and tell what happens")
)

// usual is how many seeds are run where nobody says it. go/build lets few be run under the race detector, which sees nothing in the one goroutine
// of a group: without it thousands are.
func usual() int {
	if os.Getenv("SVID_TEST_FEW") != "" {
		return 20
	}
	return 150
}

// check runs the seeds of a mode. One that fails is run again, with as little as it takes, and told.
func check(t *testing.T, mode server.Mode) {
	tokensOf()
	if *seed >= 0 {
		tell(t, planOf(mode, *seed))
		return
	}
	var next atomic.Int64
	var failed atomic.Bool
	var all sync.WaitGroup
	var mu sync.Mutex
	answers := map[string]int{}
	next.Store(*from)
	for i := runtime.GOMAXPROCS(0); i > 0; i-- {
		all.Add(1)
		go func() {
			defer all.Done()
			for !failed.Load() {
				n := next.Add(1) - 1
				if n >= *from+int64(*seeds) {
					return
				}
				p := planOf(mode, n)
				r := p.run(nil)
				mu.Lock()
				for word, count := range r.answers {
					answers[word] += count
				}
				mu.Unlock()
				if r.failure != "" && !failed.Swap(true) {
					t.Errorf("seed %d of mode %s: %s\nrun it by: go test ./internal/sim -run %s -seed %d -v", n, mode, r.failure, t.Name(), n)
					tell(t, shrunk(p, r.kind))
				}
			}
		}()
	}
	all.Wait()
	var words []string
	for word, count := range answers {
		words = append(words, fmt.Sprintf("%s %d", word, count))
	}
	sort.Strings(words)
	t.Logf("%d seeds: %s", *seeds, strings.Join(words, ", "))
	if answers["accepted"] < *seeds {
		t.Errorf("%d acceptances are too few to say anything", answers["accepted"])
	}
}

// tell runs a plan, and tells what happens.
func tell(t *testing.T, p *plan) {
	var lines []string
	r := p.run(func(format string, args ...any) { lines = append(lines, fmt.Sprintf(format, args...)) })
	t.Logf("%v\n%s", p, strings.Join(lines, "\n"))
	if r.failure != "" {
		t.Errorf("seed %d: %s", p.seed, r.failure)
	}
}

func TestStrict(t *testing.T) { check(t, server.Strict) }
func TestOnce(t *testing.T)   { check(t, server.Once) }
func TestBound(t *testing.T)  { check(t, server.Bound) }
func TestReuse(t *testing.T)  { check(t, server.Reuse) }

// A member that could not take a withdrawal before the store lost it knows the owner still, and accepts it (docs/STORES.md, "What all stores have in
// common"). A second withdrawal ends that.
func TestAWithdrawalThatTheStoreLost(t *testing.T) {
	p := &plan{mode: server.Bound, members: 2, disks: []bool{false, false}, offsets: make([]time.Duration, 2), drifts: make([]float64, 2), rough: 1 << 20, lasts: 20 * time.Second}
	w := p.world(nil)
	one, other, late := w.pool.tokens[0][0], w.members[0], w.members[1]
	asked := map[time.Duration]*ask{}
	for _, second := range []time.Duration{1, 4, 10, 16} {
		second := second
		w.at(second*time.Second, func() { asked[second] = late.ask(one, owner, 0) })
	}
	w.at(2*time.Second, func() { late.offset += 10000 * time.Second })
	lose := func() { w.do(deed{kind: "lose entries"}) }
	w.at(5*time.Second/2, lose)
	w.at(3*time.Second, func() { other.withdraw(one) }) // (the store has no claim of it)
	w.at(7*time.Second, lose)
	w.at(8*time.Second, func() { late.offset = 0 })
	w.at(12*time.Second, func() { other.withdraw(one) })
	w.end()
	for second, want := range map[time.Duration]error{1: nil, 4: svid.ErrJump, 10: nil, 16: svid.Withdrawn} {
		if a := asked[second]; a == nil || !a.done || !errors.Is(a.request.Err, want) {
			t.Errorf("after %d seconds the answer is not %v: %+v", second, want, a)
		}
	}
	if w.report.failure != "" {
		t.Error(w.report.failure)
	}
}

// A plan has the same run each time.
func TestASeedIsOneRun(t *testing.T) {
	for _, mode := range []server.Mode{server.Once, server.Strict, server.Bound, server.Reuse} {
		for n := int64(0); n < 20; n++ {
			var runs [2]strings.Builder
			for i := range runs {
				planOf(mode, n).run(func(format string, args ...any) { fmt.Fprintf(&runs[i], format+"\n", args...) })
			}
			if runs[0].String() != runs[1].String() {
				t.Fatalf("seed %d of mode %s has two runs:\n%s\n\n%s", n, mode, &runs[0], &runs[1])
			}
		}
	}
}
