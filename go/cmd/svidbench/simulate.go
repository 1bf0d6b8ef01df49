package main

import (
	"container/heap"
	"flag"
	"fmt"
	"math"
	"math/rand"
	"sort"
)

const (
	pause  = 1e-3  // seconds between two values of a sidecar, at the least
	flight = 20e-3 // seconds that the next value waits for the broker's answer to the last one, at the most
	shared = 512   // uses share a value, at the most
)

// A model is what uses and the values that carry them cost, in seconds of a processor. What simulate begins with was
// measured by `svidbench scale` at 3, 10 and 30 sidecars, on a machine of 4 cores that had other work: on a free one all is
// cheaper.
type model struct {
	accept     float64 // an acceptance, at its sidecar
	store      float64 // a value at the broker, by the one that leads the bucket, one after the other
	storeUse   float64 // each use of it
	deliver    float64 // a value at the broker, for each sidecar
	deliverUse float64
	hear       float64 // a value at each sidecar
	hearUse    float64
	cores      int     // of the broker's machines together, for deliveries
	use        float64 // bytes of memory of a live use
	life       float64 // seconds that a token still has when it is accepted
	buckets    int     // each for a range of tokens, with a leader of its own
	regions    int     // each with brokers of its own, which hear of the others' uses by one stream each
}

// simulate prints, for groups of mode once up to 1,000 sidecars and 100,000 acceptances a second, what is busy and how long a use is
// on its way until a sidecar has heard of it.
func simulate(f *flag.FlagSet, args []string) error {
	m := model{}
	micros := map[*float64]float64{}
	cost := func(to *float64, name string, value float64, what string) {
		f.Float64Var(to, name, value, what+", in microseconds of a processor")
		micros[to] = value
	}
	cost(&m.accept, "accept", 220, "an acceptance")
	cost(&m.store, "store", 90, "storing a value at the broker")
	cost(&m.storeUse, "store-use", 1, "each use of a value that is stored")
	cost(&m.deliver, "deliver", 6, "delivering a value to one sidecar")
	cost(&m.deliverUse, "deliver-use", 0.1, "each use of a value that is delivered")
	cost(&m.hear, "hear", 18, "hearing of a value")
	cost(&m.hearUse, "hear-use", 3, "each use of a value that is heard of")
	f.IntVar(&m.cores, "cores", 16, "of the broker's machines, for deliveries")
	f.Float64Var(&m.use, "use", 190, "bytes of memory of a live use")
	f.Float64Var(&m.life, "life", 300, "seconds that a token still has when it is accepted")
	f.IntVar(&m.buckets, "buckets", 1, "each for a range of tokens, with a leader of its own")
	f.IntVar(&m.regions, "regions", 1, "each with its own brokers")
	f.Parse(args)
	for to := range micros {
		*to /= 1e6
	}
	fmt.Println("| sidecars | acceptances/s | uses a value | leader busy | brokers busy | a sidecar busy | live uses | MB a sidecar | heard after, p50 ms | p99 |")
	fmt.Println("|--:|--:|--:|--:|--:|--:|--:|--:|--:|--:|")
	for _, members := range []int{3, 10, 30, 100, 300, 1000} {
		for _, rate := range []float64{100, 1_000, 10_000, 100_000} {
			m.row(members, rate)
		}
	}
	return nil
}

func (m model) row(members int, rate float64) {
	live := rate * m.life
	way := "no more |"
	r := m.run(members, rate)
	if r.isSteady {
		way = fmt.Sprintf("%.1f | %.1f", r.p50*1000, r.p99*1000)
	}
	fmt.Printf("| %d | %.0f | %.1f | %s | %s | %s | %.0f | %.0f | %s |\n", members, rate, r.uses,
		share(r.leader), share(r.brokers), share(r.sidecar), live, 30+live*m.use/1e6, way)
}

func share(of float64) string { return fmt.Sprintf("%.0f %%", 100*of) }

// An event is that a member accepts a token, or puts a value.
type event struct {
	at     float64
	member int
	puts   bool
}

type events []event

func (e events) Len() int           { return len(e) }
func (e events) Less(i, j int) bool { return e[i].at < e[j].at }
func (e events) Swap(i, j int)      { e[i], e[j] = e[j], e[i] }
func (e *events) Push(x any)        { *e = append(*e, x.(event)) }
func (e *events) Pop() any {
	last := (*e)[len(*e)-1]
	*e = (*e)[:len(*e)-1]
	return last
}

// A result is what a simulation found.
type result struct {
	uses                     float64 // a value, in the mean
	leader, brokers, sidecar float64 // how busy each was
	p50, p99                 float64 // seconds until a sidecar has heard of a use
	isSteady                 bool    // no queue grew to the end
}

// run simulates the uses of a while.
//
// Uses come at random. Each member puts those that wait into one value, as svidd does. The leader of a member's bucket
// stores one value after the other. Each of the broker's cores delivers each value to its share of the sidecars, one after
// the other. A sidecar takes what it hears, and accepts its own tokens in between, one after the other.
func (m model) run(members int, rate float64) (r result) {
	const most = 20_000_000 // deliveries
	here := members / m.regions
	if here == 0 {
		here = 1
	}
	count := int(math.Min(math.Max(20_000, rate), most/float64(here)))
	random := rand.New(rand.NewSource(1))
	waiting := make([][]float64, members) // when the uses came that a member has not put
	next := make([]float64, members)      // when it may put a value
	leaders := make([]float64, m.buckets)
	cores := make([]float64, m.cores)
	sidecars := make([]float64, here)
	var queue events
	now := 0.0
	for i := 0; i < count; i++ {
		now += random.ExpFloat64() / rate
		queue = append(queue, event{at: now, member: random.Intn(members)})
	}
	heap.Init(&queue)
	var sample []float64
	values, last := 0, now
	for len(queue) > 0 {
		e := heap.Pop(&queue).(event)
		if !e.puts {
			if e.member < here {
				sidecars[e.member] = math.Max(sidecars[e.member], e.at) + m.accept
			}
			if waiting[e.member] = append(waiting[e.member], e.at); len(waiting[e.member]) == 1 {
				heap.Push(&queue, event{math.Max(e.at, next[e.member]), e.member, true})
			}
			continue
		}
		uses := waiting[e.member]
		if len(uses) > shared {
			uses = uses[:shared]
		}
		n := float64(len(uses))
		values++
		leader := &leaders[e.member%len(leaders)]
		*leader = math.Max(*leader, e.at) + m.store + n*m.storeUse
		stored := *leader
		next[e.member] = math.Max(e.at+pause, math.Min(stored, e.at+flight))
		for c := range cores {
			at := math.Max(cores[c], stored)
			for s := c; s < here; s += len(cores) {
				at += m.deliver + n*m.deliverUse
				sidecars[s] = math.Max(sidecars[s], at) + m.hear + n*m.hearUse
				if (values+s)%97 == 0 { // a sample does
					for _, came := range uses {
						sample = append(sample, sidecars[s]-came)
					}
				}
			}
			cores[c] = at
		}
		last = math.Max(last, e.at)
		if waiting[e.member] = waiting[e.member][len(uses):]; len(waiting[e.member]) > 0 {
			heap.Push(&queue, event{next[e.member], e.member, true})
		}
	}
	all, v := float64(count), float64(values)
	r.uses = all / v
	r.leader = (v*m.store + all*m.storeUse) / now / float64(m.buckets)
	r.brokers = (v*m.deliver + all*m.deliverUse) * float64(here) / now / float64(m.cores)
	r.sidecar = (v*m.hear + all*m.hearUse + all/float64(members)*m.accept) / now
	sort.Float64s(sample)
	if len(sample) > 0 {
		r.p50, r.p99 = sample[len(sample)/2], sample[len(sample)*99/100]
	}
	// (a leader that is always busy answers later, and gets fewer values with more uses each)
	r.isSteady = r.brokers < 1 && r.sidecar < 1 && r.p99 < 5*flight && last < now+flight
	return r
}
