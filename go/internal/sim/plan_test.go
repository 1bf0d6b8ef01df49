package sim

import (
	"fmt"
	"math/rand"
	"sort"
	"strings"
	"time"

	"svid.example/go/v3/carriers"
	"svid.example/go/v3/claims"
	"svid.example/go/v3/internal/server"
	"svid.example/go/v3/journal"
	"svid.example/go/v3/svid"
)

// A plan is a group, and what happens to it from outside. What it leaves open, such as how long something takes, is drawn from
// the seed, too.
type plan struct {
	seed    int64
	mode    server.Mode
	members int
	disks   []bool
	drifts  []float64
	offsets []time.Duration
	rough   int  // one of so many things takes very long
	wild    bool // clocks are further off than the group's options say
	lasts   time.Duration
	deeds   []deed
}

// A deed is something that happens to a group.
type deed struct {
	at     time.Duration
	kind   string
	member int
	number int // the kind says what it counts
	length time.Duration
}

func (d deed) String() string {
	return fmt.Sprintf("%12v  %s: member %d, %d, %v", d.at, d.kind, d.member, d.number, d.length)
}

func (p *plan) String() string {
	lines := []string{fmt.Sprintf("seed %d, mode %s, %d members, disks %v, clocks %v %v, one of %d things is slow, for %v",
		p.seed, p.mode, p.members, p.disks, p.offsets, p.drifts, p.rough, p.lasts)}
	for _, d := range p.deeds {
		lines = append(lines, d.String())
	}
	return strings.Join(lines, "\n")
}

// deeds are what may happen, and how often by comparison. Tokens are sent by each second deed.
var deeds = []struct {
	kind  string
	often int
}{
	{"kill", 3}, {"kill within", 4}, {"lose power", 4}, {"end", 2}, {"set the clock", 3}, {"jump", 2}, {"renew", 5}, {"rules", 3}, {"withdraw", 5}, {"server away", 3}, {"cut off", 3},
	{"lag", 2}, {"lose answers", 6}, {"store again", 3}, {"remove", 1}, {"put back", 1}, {"garbage", 2}, {"claim", 2}, {"fail disk", 4},
	{"slow disk", 4}, {"snapshot", 3}, {"lose entries", 2}, {"set the store's clock", 3},
}

// planOf is the plan of a seed.
func planOf(mode server.Mode, seed int64) *plan {
	r := rand.New(&quick{uint64(seed)*2654435761 + uint64(len(mode))})
	p := &plan{seed: seed, mode: mode, members: 1 + r.Intn(4), rough: []int{4, 20, 100, 1000}[r.Intn(4)], wild: r.Intn(4) == 0,
		lasts: time.Duration(5+r.Intn(30)) * time.Second}
	for i := 0; i < p.members; i++ {
		p.disks = append(p.disks, mode == server.Once || r.Intn(3) > 0)
		p.drifts = append(p.drifts, (r.Float64()-0.5)/500)
		p.offsets = append(p.offsets, time.Duration(r.Intn(ahead*500))*time.Millisecond)
	}
	all := 0
	for _, d := range deeds {
		all += d.often
	}
	// Some runs have few kinds of trouble, so that one fault is not hidden by another.
	trouble := 1 + r.Intn(3)
	for n := 10 + r.Intn(60); n > 0; n-- {
		d := deed{at: time.Duration(r.Int63n(int64(p.lasts))), member: r.Intn(p.members), number: r.Intn(1 << 20), length: time.Duration(r.Int63n(int64(6 * time.Second)))}
		if d.kind = "send"; r.Intn(4) < trouble {
			number := r.Intn(all)
			for _, one := range deeds {
				if number -= one.often; number < 0 {
					d.kind = one.kind
					break
				}
			}
		}
		p.deeds = append(p.deeds, d)
	}
	sort.SliceStable(p.deeds, func(i, k int) bool { return p.deeds[i].at < p.deeds[k].at })
	return p
}

// run runs a plan, and says what happened that may not; "" for nothing.
func (p *plan) run(trace func(format string, args ...any)) report {
	w := p.world(trace)
	w.end()
	return w.report
}

// world is the world of a plan before anything has happened.
func (p *plan) world(trace func(format string, args ...any)) *world {
	w := &world{plan: p, pool: tokensOf(), trace: trace}
	w.report.accepted, w.report.answers = map[svid.TokenKey][]acceptance{}, map[string]int{}
	w.log, w.store = &logServer{w: w}, newStore(w)
	for i := 0; i < p.members; i++ {
		m := &member{w: w, number: i, id: svid.ValidatorID{byte(i + 1)}, offset: p.offsets[i], drift: p.drifts[i],
			kept: map[svid.Use]bool{}, withdrawn: map[svid.TokenKey]time.Duration{}}
		if p.disks[i] {
			m.disk = journal.NewModel(m.id)
		}
		w.members = append(w.members, m)
	}
	for _, m := range w.members {
		w.after(time.Duration(m.number)*time.Millisecond, m.start)
	}
	w.after(3*time.Second, w.log.expire)
	for _, d := range p.deeds {
		d := d
		w.at(time.Second/2+d.at, func() { w.do(d) })
	}
	return w
}

// end lets all happen, and heals the group.
func (w *world) end() {
	w.run(w.plan.lasts + time.Second)
	w.heal()
	for _, m := range w.members {
		if m.life != nil {
			m.life.die(0)
		}
	}
}

// issued is a token that was issued by now, and not long ago.
func (w *world) issued(number int) *token {
	now := int(w.now / time.Second)
	back := number % 4 // (few, so that a token comes often)
	s := now/slot - back*back
	if s < 0 {
		s = 0
	}
	return w.pool.tokens[s%slots][number/4%eachSlot]
}

// The callers that send tokens. In mode bound one token in four comes from a thief, who may be the first.
const (
	owner = iota
	thief
	anotherThief
	callers
)

// sender is who sends a token next.
func (w *world) sender(r *rand.Rand) int {
	if w.plan.mode != server.Bound || r.Intn(4) > 0 {
		return owner
	}
	return owner + 1 + r.Intn(callers-1)
}

// do does a deed.
func (w *world) do(d deed) {
	m := w.members[d.member]
	l := m.life
	if d.kind != "send" {
		w.tell("deed: %v", d)
	}
	r := w.chance(uint64(d.number), uint64(d.at))
	switch d.kind {
	case "send":
		one := w.issued(d.number)
		for n := 1 + r.Intn(6); n > 0; n-- {
			by := w.sender(r)
			to, gives := w.members[r.Intn(len(w.members))], time.Duration(0)
			if r.Intn(8) == 0 {
				gives = time.Duration(1 + r.Int63n(int64(wait)))
			}
			d := time.Duration(r.Int63n(int64(4 * time.Millisecond)))
			if r.Intn(4) == 0 {
				d = time.Duration(r.Int63n(int64(4 * time.Second)))
			}
			w.after(d, func() { to.ask(one, by, gives) })
		}
	case "kill":
		if l != nil {
			l.die(d.length / 2)
		}
	case "kill within": // a step: some of its effects are done, and others are not
		m.effects = 1 + d.number%12
	case "lose power":
		if m.disk == nil {
			if l != nil {
				l.die(d.length / 2)
			}
		} else {
			m.powerAt = 1 + d.number%30
		}
	case "end":
		if l != nil {
			l.end()
		}
	case "set the clock": // a little, and where it is wild, far
		most := ahead * 1000 / 2
		if w.plan.wild {
			most = wildest * 1000
		}
		m.offset = time.Duration(d.number%most) * time.Millisecond
	case "jump": // by so much that it is seen, and back
		if before := m.offset; before < 1000*time.Second {
			m.offset += 10000 * time.Second
			w.after(10*d.length, func() {
				if !w.healed {
					m.offset = before
				}
			})
		}
	case "renew":
		m.set = d.number % bundleSets
		if d.number%7 < 5 {
			m.set = d.number % 2
		}
		if l != nil {
			l.renew(m.set)
		}
	case "rules":
		if m.rules = d.number % len(rules); d.number%7 < 5 {
			m.rules = d.number % 2
		}
		if l != nil {
			l.rule(m.rules)
		}
	case "withdraw":
		m.withdraw(w.issued(d.number))
	case "server away":
		w.log.away = w.now + d.length
		w.store.away = w.log.away
	case "lose entries": // all of them, or those whose key begins so; and the epoch ends
		kept := byte(d.number)
		w.store.lost++
		w.store.Lose(func(key svid.TokenKey) bool { return key[0] < kept })
	case "set the store's clock": // by as much as it may differ, and it goes back by as much as it may step back
		to := time.Duration(d.number%(ahead*500)) * time.Millisecond
		if least := w.store.offset - back*time.Second; to < least {
			to = least
		}
		w.store.offset = to
	case "cut off":
		m.apart = w.now + d.length
	case "lag":
		m.lag = d.length / 4
	case "lose answers":
		m.answersLost += 1 + d.number%3
	case "store again": // what was stored is stored once more
		if n := len(w.log.values); n > 0 {
			v := w.log.values[n-1-d.number%n%5]
			w.log.append(v.kind, v.message, v.uses)
		}
		w.store.putAgain(d.number)
	case "remove":
		w.log.remove(d.number)
	case "put back":
		w.log.putBack(d.number % 5)
	case "garbage":
		message := make([]byte, d.number%100)
		r.Read(message)
		w.log.append(carriers.Uses, message, nil)
	case "claim": // by a member that lies
		one := w.issued(d.number)
		use := svid.Use{Key: one.key, Expires: one.expires, At: w.wall() + uint64(d.number%3)*ahead, ValidatorID: svid.ValidatorID{byte(200 + d.number%2)}}
		w.log.use(use, []svid.Use{use})
		if d.number%4 == 0 {
			w.store.take([]claims.Claim{{Key: one.key, Owner: claims.Owner{byte(200 + d.number%2)}, Expires: one.expires}}, make([]claims.Found, 1))
		}
	case "fail disk":
		m.faulty += 1 + d.number%3
	case "slow disk":
		m.slow = w.now + d.length
	case "snapshot":
		if l != nil {
			w.after(m.delay(kindDisk), l.snapshot)
		}
	}
}

// heal ends all faults, and looks whether all is well then.
func (w *world) heal() {
	if w.report.failure != "" {
		return
	}
	w.healed = true
	w.tell("all faults end")
	w.log.away, w.store.away = 0, 0
	last := svid.Use{Key: svid.TokenKey{0xff}, Expires: w.wall() + 1, At: w.wall(), ValidatorID: svid.ValidatorID{200}}
	w.log.use(last, nil) // Who has missed the value before it hears so now.
	for _, m := range w.members {
		m.offset, m.drift, m.slow, m.faulty, m.powerAt, m.effects, m.apart, m.answersLost, m.lag = 0, 0, 0, 0, 0, 0, 0, 0, 0
		m.set, m.rules = 0, 0
		if l := m.life; l != nil {
			l.rule(0)
			if l.renew(0); l.diskFaults { // as someone does who has mended the disk
				l.die(0)
			}
		}
	}
	// After the longest wait for what is under way, and the times by which clocks were off.
	w.run(w.now + 8*time.Second)
	if w.plan.wild {
		w.run(w.now + wildest*time.Second)
	}
	if w.report.failure != "" {
		return
	}
	w.repair()
	w.wantEqual()
	// After the time for which a sidecar accepts nothing that has missed values, and one for which a clock was wrong.
	w.run(w.now + keeps + 12*time.Second)
	if w.report.failure != "" {
		return
	}
	for _, m := range w.members {
		if m.life == nil {
			w.fail("%v: is not up, though no fault is left", m)
			return
		}
		if err := m.life.machine.Ready(m.life.time(), false, false); err != nil {
			w.fail("%v: is not ready, though no fault is left: %v", m, err)
			return
		}
	}
	w.wantFresh()
	for _, m := range w.members {
		if n := m.life.machine.Backlog(); n != 0 && w.report.failure == "" {
			w.fail("%v: %d things are under way, though nothing happens", m, n)
		}
	}
}

// repair lets each member of mode once send a summary to the previous one, and then to the next one, and take the answers. So a use
// reaches another member by one answer alone, and what is wrong with that answer is seen.
func (w *world) repair() {
	if w.plan.mode != server.Once {
		return
	}
	var up []*member
	for _, m := range w.members {
		if m.life != nil {
			up = append(up, m)
		}
	}
	for i := 1; i < len(up); i++ {
		w.answers(up[i], up[i-1])
	}
	for i := len(up) - 1; i > 0; i-- {
		w.answers(up[i-1], up[i])
	}
}

// answers lets a member ask another one for what it lacks, and take the answer.
func (w *world) answers(asking, asked *member) {
	if w.report.failure != "" || asking.life == nil || asked.life == nil {
		return
	}
	summary, err := asking.life.machine.Summary()
	if err == nil {
		summary, err = asked.life.machine.Answer(summary)
	}
	if err != nil {
		w.fail("%v asks %v for what it has: %v", asking, asked, err)
		return
	}
	t := &server.Taking{Values: []carriers.Value{{Kind: carriers.Answer, Message: summary}}}
	asking.life.step(t)
	w.tell("%v takes %d bytes of %v: %v", asking, len(summary), asked, t.Errs)
}

// A list takes what a record saves.
type list struct{ messages []byte }

func (l *list) Write(b []byte) (int, error) {
	l.messages = append(l.messages, b...)
	return len(b), nil
}

// wantEqual wants the records of all members to be equal, of those that have read all. In mode strict each has its own uses,
// and in bound and reuse a store that has lost its withdrawals tells a member that starts later of none.
func (w *world) wantEqual() {
	if w.plan.mode == server.Strict || w.plan.mode != server.Once && w.store.lost > 0 {
		return
	}
	var moment uint64
	records := map[*member][]svid.Use{}
	for _, m := range w.members {
		l := m.life
		if l == nil || w.plan.mode == server.Once && !l.caughtUp && len(w.members) > 1 {
			continue
		}
		l.machine.Tick(l.time())
		l.perform()
		var saved list
		if err := l.machine.Save(&saved); err != nil {
			w.fail("%v: %v", m, err)
			return
		}
		uses, err := svid.Uses(saved.messages)
		if err != nil {
			w.fail("%v: %v", m, err)
			return
		}
		size, err := l.validator.Size()
		if err != nil {
			w.fail("%v: %v", m, err)
			return
		}
		if records[m] = uses; size.Moment > moment {
			moment = size.Moment
		}
	}
	var first map[svid.Use]bool
	var whose *member
	for _, m := range w.members {
		uses, is := records[m]
		if !is {
			continue
		}
		live := map[svid.Use]bool{}
		for _, use := range uses {
			_, told := w.store.told[use.Key]
			// (A summary leaves out what expires soon.)
			if use.Expires > moment+ahead && use.ValidatorID[0] < 200 && (w.plan.mode == server.Once || told) {
				live[w.known(use)] = true
			}
		}
		if first == nil {
			first, whose = live, m
			continue
		}
		for use := range live {
			if !first[use] {
				w.fail("%v has %s, and %v has not", m, names{use}, whose)
				return
			}
		}
		if len(live) != len(first) {
			w.fail("%v has %d uses, and %v %d", m, len(live), whose, len(first))
			return
		}
	}
}

// known is what two records have in common of a use. In modes bound and reuse each member makes its own use of a withdrawal that it reads.
func (w *world) known(use svid.Use) svid.Use {
	if w.plan.mode != server.Once {
		return svid.Use{Key: use.Key, Withdrawn: use.Withdrawn}
	}
	return use
}

// wantFresh wants fresh tokens to be accepted by each member. In mode bound its owner is accepted again, by each member, and a thief is not.
func (w *world) wantFresh() {
	now := int(w.now/time.Second) / slot
	for i, m := range w.members {
		one := w.pool.tokens[now%slots][4+i%2*2] // of issuer 0
		if i >= 2 {
			one = w.pool.tokens[(now-1)%slots][4+i%2*2]
		}
		if !w.wantAnswer(m, one, owner, nil) {
			return
		}
		if w.plan.mode != server.Bound {
			continue
		}
		for _, other := range w.members {
			if !w.wantAnswer(other, one, thief, svid.Replayed) || !w.wantAnswer(other, one, owner, nil) {
				return
			}
		}
	}
}

// wantAnswer wants this answer of a member to a caller.
func (w *world) wantAnswer(m *member, one *token, by int, want error) bool {
	a := m.ask(one, by, 0)
	for end := w.now + 3*time.Second; w.now < end && w.report.failure == "" && a != nil && !a.done; {
		w.run(w.now + 100*time.Millisecond)
	}
	switch {
	case w.report.failure != "":
	case a == nil || !a.done:
		w.fail("%v: is not up, though no fault is left", m)
	case a.request.Err != want:
		w.fail("%v: caller %d of %s is answered wrongly, though no fault is left: %v", m, by, one, a.request.Err)
	}
	return w.report.failure == ""
}
