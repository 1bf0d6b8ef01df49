// Package sim simulates whole groups of sidecars in one goroutine: their machines (server.Machine), clocks that are wrong, disks
// that fail, a store and a log that lose answers and what they have, kills, and clients that send one token everywhere. A seed gives a plan, and a
// plan gives one run, each time the same. What a run may not do is looked for from outside, in the list of events.
package sim

import (
	"container/heap"
	"fmt"
	"math/rand"
	"time"
)

// A world is a run.
type world struct {
	plan    *plan
	pool    *pool
	now     time.Duration // since the run began
	queue   queue
	log     *logServer   // of mode once
	store   *storeServer // of the other modes
	members []*member
	healed  bool // no faults come from here on
	report  report
	trace   func(format string, args ...any) // nil for none
}

// A happening is something that happens at a time.
type happening struct {
	at    time.Duration
	order uint64 // of two at one time the first one comes first
	do    func()
}

// A queue is what is to happen.
type queue struct {
	all   []happening
	order uint64
}

func (q *queue) Len() int { return len(q.all) }
func (q *queue) Less(i, k int) bool {
	return q.all[i].at < q.all[k].at || q.all[i].at == q.all[k].at && q.all[i].order < q.all[k].order
}
func (q *queue) Swap(i, k int) { q.all[i], q.all[k] = q.all[k], q.all[i] }
func (q *queue) Push(one any)  { q.all = append(q.all, one.(happening)) }
func (q *queue) Pop() any {
	one := q.all[len(q.all)-1]
	q.all = q.all[:len(q.all)-1]
	return one
}

// after lets something happen later.
func (w *world) after(d time.Duration, do func()) { w.at(w.now+d, do) }

func (w *world) at(at time.Duration, do func()) {
	if at < w.now {
		at = w.now
	}
	w.queue.order++
	heap.Push(&w.queue, happening{at, w.queue.order, do})
}

// run lets all happen up to a time, or until something happens that may not.
func (w *world) run(until time.Duration) {
	for w.report.failure == "" && w.queue.Len() > 0 && w.queue.all[0].at <= until {
		one := heap.Pop(&w.queue).(happening)
		w.now = one.at
		one.do()
	}
	if w.now < until {
		w.now = until
	}
}

func (w *world) tell(format string, args ...any) {
	if w.trace != nil {
		w.trace("%12v  %s", w.now, fmt.Sprintf(format, args...))
	}
}

// wall is the true time, in seconds.
func (w *world) wall() uint64 { return base + uint64(w.now/time.Second) }

// chance returns the chance of something with a number: it is the same whatever else happens.
func (w *world) chance(words ...uint64) *rand.Rand {
	mixed := uint64(w.plan.seed) ^ 0x9e3779b97f4a7c15
	for _, word := range words {
		mixed = (mixed ^ word) * 0xbf58476d1ce4e5b9
		mixed ^= mixed >> 29
	}
	return rand.New(&quick{mixed})
}

// A quick source of chance: one that costs nothing to make (splitmix64).
type quick struct{ state uint64 }

func (q *quick) Seed(seed int64) { q.state = uint64(seed) }
func (q *quick) Int63() int64    { return int64(q.Uint64() >> 1) }
func (q *quick) Uint64() uint64 {
	q.state += 0x9e3779b97f4a7c15
	z := q.state
	z = (z ^ z>>30) * 0xbf58476d1ce4e5b9
	z = (z ^ z>>27) * 0x94d049bb133111eb
	return z ^ z>>31
}
