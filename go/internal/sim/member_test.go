package sim

import (
	"context"
	"encoding/binary"
	"errors"
	"fmt"
	"syscall"
	"time"

	"svid.example/go/v3/carriers"
	"svid.example/go/v3/internal/server"
	"svid.example/go/v3/journal"
	"svid.example/go/v3/svid"
)

// wait is Options.Wait of all machines.
const wait = 2 * time.Second

var (
	errLate = fmt.Errorf("the group's server did not answer: %w", context.DeadlineExceeded)
	errAway = errors.New("connection refused")
)

// A member is a sidecar of the group, over all its lives.
type member struct {
	w      *world
	number int
	id     svid.ValidatorID
	disk   *journal.Model // nil without a state folder
	life   *life          // nil while it is down
	lives  uint64
	draws  uint64 // of delays

	offset time.Duration // its clock is ahead by so much
	drift  float64       // and by this part of the time
	set    int           // its bundles
	rules  int           // by which rules it is to accept tokens

	slow        time.Duration // the disk does nothing before this time
	faulty      int           // so many of the next calls of the disk that change something fail
	powerAt     int           // the power is lost in the call with this number; 0 for none
	powerLost   bool
	effects     int           // it is killed in front of the effect with this number; 0 for none
	apart       time.Duration // it reaches no log before this time
	answersLost int           // the log's answers to so many of its next values are lost
	lag         time.Duration // it reads the log so much later

	kept      map[svid.Use]bool               // uses whose write was done
	withdrawn map[svid.TokenKey]time.Duration // when the answer to a withdrawal was that it is done
}

func (m *member) String() string { return fmt.Sprintf("member %d", m.number) }

// cutOff says whether it reaches no log now.
func (m *member) cutOff() bool { return m.apart > m.w.now }

// A life is one of a member: from a start of its process to its end.
type life struct {
	m          *member
	w          *world
	number     uint64
	name       svid.Life // by which it claims
	machine    *server.Machine
	validator  *svid.Validator
	journal    *journal.Journal
	born       time.Duration
	dead       bool
	ending     bool
	diskFaults bool          // a call of its disk has failed
	set        int           // of the bundles that its validator has
	rules      int           // that it has
	armed      time.Duration // when it ticks next

	position string // of the last withdrawal that it has read in the store

	// Of reading the log, in mode once.
	joined   bool
	value    uint64 // the position of the value that was read last
	ready    uint64 // all up to this one is to be read before it is caught up
	caughtUp bool
	copies   int           // as the log had them when it was looked at last
	pumpAt   time.Duration // when it reads next; never where it waits for a value

	asks  map[*server.Call]*ask
	heard map[svid.TokenKey]time.Duration // withdrawals of others that it has taken

	callers map[svid.TokenKey]int // in mode bound: whom the store has named to it as a token's owner
}

const never = time.Duration(1<<63 - 1)

// The kinds of delays.
const (
	kindRead = iota
	kindSend
	kindLand
	kindDisk
	kindTick
	kindVerify
)

// delay draws how long something takes. Most of it is quick, and some takes very long.
func (m *member) delay(kind uint64) time.Duration {
	m.draws++
	r := m.w.chance(uint64(m.number), kind, m.draws)
	quickly := [...]time.Duration{3 * time.Millisecond, 2 * time.Millisecond, 2 * time.Millisecond, 4 * time.Millisecond, 2 * time.Millisecond, time.Millisecond}[kind]
	d := time.Duration(r.Int63n(int64(quickly)))
	if kind == kindTick || kind == kindVerify || m.w.healed {
		return d
	}
	if r.Intn(m.w.plan.rough) == 0 {
		d += time.Duration(r.Int63n(int64([...]time.Duration{2 * time.Second, 3 * time.Second, 3 * time.Second, 3 * time.Second}[kind])))
	}
	if kind == kindRead {
		d += m.lag
	}
	return d
}

// wall is what its clock shows.
func (m *member) wall() uint64 {
	at := base*time.Second.Seconds() + (m.w.now + m.offset).Seconds() + m.w.now.Seconds()*m.drift
	return uint64(at)
}

func (l *life) time() server.Time { return server.Time{Wall: l.m.wall(), Up: l.w.now - l.born} }

// start begins a life. Where that fails, it is tried again, as a service manager does.
func (m *member) start() {
	w := m.w
	if m.life != nil {
		return
	}
	if m.offset > wildest*time.Second { // Nobody starts a sidecar with such a clock: it would be right from then on.
		w.after(time.Second, m.start)
		return
	}
	m.lives++
	l := &life{m: m, w: w, number: m.lives, born: w.now, set: m.set, rules: m.rules, armed: never, pumpAt: never,
		asks: map[*server.Call]*ask{}, heard: map[svid.TokenKey]time.Duration{}, callers: map[svid.TokenKey]int{}}
	m.life = l
	w.tell("%v: starts", m)
	o := server.Options{Mode: w.plan.mode, Audiences: rules[l.rules].Audiences, Allow: rules[l.rules].Allow, Longest: longest, Ahead: ahead, Step: step, ValidatorID: m.id,
		Grouped: w.plan.mode == server.Once && len(w.members) > 1, Stored: w.plan.mode != server.Once, Terms: terms, Wait: wait}
	binary.BigEndian.PutUint64(o.Life[:], uint64(m.number)<<32|m.lives)
	l.name = o.Life
	var err error
	if l.validator, err = svid.Open(svid.Options{Audiences: o.Audiences, Bundles: w.pool.bundles[l.set], Longest: longest, Ahead: ahead,
		Step: step, ValidatorID: m.id}); err != nil {
		w.fail("a validator does not open: %v", err)
		return
	}
	if m.disk != nil {
		m.disk.Before(m.before)
		if l.journal, err = m.disk.Open(); err != nil {
			l.startsAgain(err)
			return
		}
		o.Journal = l.journal
	}
	if l.machine, err = server.NewMachine(o, l.validator, l.time()); err != nil {
		w.fail("a member does not open: %v", err)
		return
	}
	l.step(server.Bundled(true))
	if !l.load() {
		return
	}
	l.step(server.Run{})
	if o.Grouped {
		w.after(m.delay(kindSend), l.join)
	}
	if o.Stored {
		w.after(m.delay(kindSend), l.openStore)
	}
}

// before is asked before each call of the disk that changes something.
func (m *member) before(call, name string, length int) (int, error) {
	if m.powerLost {
		return 0, journal.ErrGone
	}
	if m.powerAt > 0 {
		if m.powerAt--; m.powerAt == 0 {
			m.powerLost = true
			m.w.tell("%v: the power is lost in %s %s", m, call, name)
			return 0, journal.ErrLost
		}
	}
	if m.faulty > 0 {
		m.faulty--
		if m.life != nil {
			m.life.diskFaults = true
		}
		m.w.tell("%v: %s %s fails", m, call, name)
		m.draws++
		return m.w.chance(uint64(m.number), m.draws).Intn(length + 1), syscall.EIO
	}
	return 0, nil
}

// startsAgain ends a life that could not begin.
func (l *life) startsAgain(why error) {
	l.w.tell("%v: does not start: %v", l.m, why)
	var damaged interface{ Unwrap() error }
	if errors.As(why, &damaged) && errors.Is(why, svid.ErrDamaged) {
		l.w.fail("%v: what a crash left is called damaged: %v", l.m, why)
		return
	}
	l.die(time.Second)
}

// die ends a life at once: nothing of it is left but what its disk has.
func (l *life) die(down time.Duration) {
	if l.dead {
		return
	}
	m := l.m
	l.dead, m.life = true, nil
	l.w.tell("%v: ends", m)
	if l.journal != nil && !m.powerLost {
		// (A kill closes no journal. But one that is closed puts a mark, so it is left open here.)
		l.journal = nil
	}
	if m.disk == nil {
		m.withdrawn = map[svid.TokenKey]time.Duration{}
	}
	if m.powerLost {
		m.draws++
		m.disk = m.disk.Crash(m.w.chance(uint64(m.number), m.draws, 99))
		m.powerLost = false
	}
	l.validator.Close()
	l.w.after(down, m.start)
}

// lost says whether the power was lost in the last call of the disk, and ends the life then.
func (l *life) lost() bool {
	if !l.m.powerLost {
		return false
	}
	l.die(time.Second / 2)
	return true
}

// load gives the machine what the state folder has, as svidd does.
func (l *life) load() bool {
	load := &server.Load{}
	if l.journal != nil {
		err := l.journal.Load(func(messages []byte) error {
			f := &server.Feed{Messages: messages}
			l.machine.Step(l.time(), f)
			return f.Err
		})
		if l.lost() {
			return false
		}
		if err == nil {
			if wants, must := l.journal.WantsSnapshot(); wants {
				if fault := l.journal.Snapshot(l.machine.Save); l.lost() {
					return false
				} else if must || errors.Is(fault, svid.ErrFolderEnded) {
					err = fault
				}
			}
		}
		if err != nil {
			l.startsAgain(err)
			return false
		}
		load.Size = l.journal.Size()
	}
	if l.step(load); load.Err != nil {
		l.startsAgain(load.Err)
		return false
	}
	l.w.tell("%v: has read its state folder", l.m)
	return true
}

// step lets something happen to the machine, and does what is to be done then.
func (l *life) step(event server.Event) {
	if l.dead {
		return
	}
	l.machine.Step(l.time(), event)
	l.perform()
}

func (l *life) tick() {
	if l.dead || l.w.now < l.armed {
		return
	}
	l.armed = never
	l.machine.Tick(l.time())
	l.perform()
}

func (l *life) perform() {
	for _, effect := range l.machine.Effects(nil) {
		if l.m.effects > 0 {
			if l.m.effects--; l.m.effects == 0 {
				l.die(time.Second / 4)
				return
			}
		}
		if l.do(effect); l.dead {
			return
		}
	}
	if due := l.machine.Due(); due != never {
		if at := l.born + due + l.m.delay(kindTick); at < l.armed {
			l.armed = at
			l.w.at(at, l.tick)
		}
	}
}

// do does what is to be done, at some time.
func (l *life) do(effect server.Effect) {
	w, m := l.w, l.m
	switch effect := effect.(type) {
	case server.Verify:
		w.after(m.delay(kindVerify), func() {
			if !l.dead {
				if a := l.asks[&effect.Call]; a != nil { // (else it has its answer)
					a.set, a.rules, a.wall = l.set, l.rules, m.wall()
					effect.Key, effect.Fault = w.pool.verify(l.set, a.token)
				}
				l.step(server.Verified(effect))
			}
		})
	case server.Append:
		at := w.now + m.delay(kindDisk)
		if at < m.slow {
			at = m.slow + time.Millisecond
		}
		w.at(at, func() { l.append(effect.Write) })
	case server.PutClaims:
		l.put(effect.Batch)
	case server.WithdrawAtStore:
		l.withdrawAtStore(effect.StoreWithdraw)
	case server.Send:
		l.send(effect.Put)
	case server.Answer:
		if a := l.asks[effect.Call]; a != nil {
			delete(l.asks, effect.Call)
			a.answered(effect.Err)
		}
	case server.Snapshot:
		w.after(m.delay(kindDisk), l.snapshot)
	case server.JumpedAhead:
		l.end()
	case server.Ended:
		l.die(time.Second)
	}
}

// append brings uses to the disk.
func (l *life) append(w *server.Write) {
	if l.dead {
		return
	}
	w.Err = l.journal.AppendUses(context.Background(), w.Uses...)
	if l.lost() {
		return
	}
	w.Size = l.journal.Size()
	if w.Err == nil {
		for _, use := range w.Uses {
			l.m.kept[use] = true
		}
	}
	l.w.after(l.m.delay(kindTick), func() { l.step(server.Kept{Write: w}) })
}

func (l *life) snapshot() {
	if l.dead || l.journal == nil {
		return
	}
	err := l.journal.Snapshot(l.machine.Save)
	if l.lost() {
		return
	}
	l.w.tell("%v: snapshot: %v", l.m, err)
	l.step(server.Snapshotted{Size: l.journal.Size(), Err: err})
}

// end lets the process end as a signal does.
func (l *life) end() {
	if !l.ending && !l.dead {
		l.ending = true
		l.w.tell("%v: is told to end", l.m)
		l.step(server.Drain{})
		l.step(server.End{})
	}
}

// renew gives the validator other bundles.
func (l *life) renew(set int) {
	if l.dead {
		return
	}
	if err := l.validator.SetBundles(l.w.pool.bundles[set]); err != nil {
		l.w.fail("%v: bundles are not taken: %v", l.m, err)
		return
	}
	l.set = set
	l.step(server.Bundled(true))
}

// rules are those that a member may have. By the first two all tokens of the pool may be accepted, and by the others none.
var rules = [...]server.Rules{
	{Audiences: []string{"ledger"}}, {Audiences: []string{"audit", "ledger"}, Allow: []string{"spiffe://example.org/job", "spiffe://example.org/web"}},
	{Audiences: []string{"ledger"}, Allow: []string{"spiffe://example.org/web/*"}}, {Audiences: []string{"audit"}},
}

// rule gives the machine other rules.
func (l *life) rule(number int) {
	if l.dead {
		return
	}
	ruling := &server.Ruling{Rules: &rules[number]}
	l.rules = number // (from here on, also for what the same step answers)
	if l.step(ruling); ruling.Err != nil {
		l.w.fail("%v: rules are not taken: %v", l.m, ruling.Err)
	}
}

// join joins the group, once its log is there.
func (l *life) join() {
	if l.dead || l.joined {
		return
	}
	if l.w.log.away > l.w.now || l.m.cutOff() {
		l.w.after(50*time.Millisecond, l.join)
		return
	}
	l.joined = true
	l.step(server.Joined{})
	l.begin()
}

// begin begins to read the log from its first value on.
func (l *life) begin() {
	s := l.w.log
	l.value, l.ready, l.copies = s.first()-1, s.last, s.copies
	l.w.tell("%v: reads the log from after %d on, up to %d", l.m, l.value, s.last)
	l.pumpSoon(0)
}

// pumpSoon lets the life read the log after a while, unless it does so before.
func (l *life) pumpSoon(d time.Duration) {
	if at := l.w.now + d; at < l.pumpAt {
		l.pumpAt = at
		l.w.at(at, l.pump)
	}
}

// pump reads the next value.
func (l *life) pump() {
	if l.dead || l.w.now < l.pumpAt {
		return
	}
	l.pumpAt = never
	s := l.w.log
	if !l.joined {
		return
	}
	if s.away > l.w.now || l.m.cutOff() {
		l.pumpSoon(100 * time.Millisecond)
		return
	}
	if l.copies != s.copies {
		l.begin()
		return
	}
	next := s.next(l.value)
	if next == nil {
		l.value = s.last
		l.catchUp()
		return
	}
	l.value = next.position
	t := &server.Taking{Values: []carriers.Value{{Kind: next.kind, Position: next.position, Message: next.message}}}
	uses := next.uses
	if l.step(t); l.dead {
		return
	}
	for _, use := range uses {
		if _, is := l.heard[use.Key]; use.Withdrawn && t.Errs == nil && !is {
			l.heard[use.Key] = l.w.now
		}
	}
	l.catchUp()
	l.pumpSoon(l.m.delay(kindTick) / 8)
}

// catchUp: the machine has all that the log had when it joined.
func (l *life) catchUp() {
	if l.caughtUp || l.value < l.ready {
		return
	}
	l.caughtUp = true
	l.step(server.CaughtUp{})
}
