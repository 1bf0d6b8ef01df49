package server

import (
	"errors"
	"fmt"
	"time"

	"svid.example/go/v3/claims"
	"svid.example/go/v3/internal/clocks"
	"svid.example/go/v3/svid"
)

// A Machine carries out what the proved member of package svid says: what happens goes in by Step and Tick, and what is to be done comes out by
// Effects. It has no goroutine, no lock, no clock and no chance. So the same events at the same moments have the same effects, and a
// simulation can have many machines in one goroutine (package sim). An Engine runs one with goroutines, sockets and files.
//
// The member decides which request is answered 200, when, and what must be done before. The machine knows who waits for which number, and how
// far what was asked for is (walk.go).
//
// Its methods may be called by one goroutine at a time, except for Save, Mark, Summary and Answer, which only ask the validator.
type Machine struct {
	*Options
	metrics   *Metrics
	validator *svid.Validator

	now     Time
	effects []Effect
	due     time.Duration // when the member has something that is over; never where it has nothing

	known   svid.Known // as the machine last told it to the member
	useless string     // why its trust bundles are as good as none; "" where they are not, or there are none
	began   uint64     // when the machine was made

	rules       *Rules               // that count now
	requests    map[uint64]*Request  // without an answer, by their numbers
	withdrawals map[uint64]*Withdraw // the same
	again       []uint64             // numbers of requests whose tokens are to be judged again
	claims      claimQueue           // in modes strict and bound
	own         ownUses              // in mode once, in a group
	heard       Time                 // when the store's withdrawals were read last
	state       claims.State         // of the store, as it was when it was looked at last
	withdrawn   withdrawnTokens      // that this process withdrew, where there is a store

	keeper keeper // what the disk is to have
	tale   tale   // what the group is to be told
	late   late   // messages for a clock that is right

	jumpedAt time.Duration // since then the clock is further ahead than Options.Step
	mixedAt  time.Duration // when it was last logged that the group's modes differ

	runs   bool
	second time.Duration // when the machine looks after itself next
	ending bool
	giveUp time.Duration // when the end stops waiting for the group
	last   bool          // the last snapshot is taken, or being taken
}

// A Time is a moment by the two clocks of a machine.
type Time struct {
	Wall uint64        // seconds since 1970, by a clock that may be wrong, jump, and go back
	Up   time.Duration // since some moment, by a clock that only goes ahead
}

// isWithin says whether no more time has passed since then, by both clocks: while the computer is suspended, Up stands still.
func (t Time) isWithin(most time.Duration, then Time) bool {
	const rounding = time.Second // of Wall
	return t.moment().Since(clocks.Moment{Up: then.Up, Wall: then.moment().Wall + rounding}) <= most
}

func (t Time) moment() clocks.Moment {
	const last = uint64(never/time.Second) - 1 // that a moment can have
	if t.Wall > last {
		t.Wall = last
	}
	return clocks.Moment{Up: t.Up, Wall: time.Duration(t.Wall) * time.Second}
}

// An Event is something that happened.
type Event interface{ happen(m *Machine) }

// An Effect is something that is to be done: one of those below. Their order says nothing: all of a step may be done at once.
type Effect any

// The effects. The executor owns what an effect points to until it posts the event that the effect wants.
type (
	// Verify: find the key that made the signature of the request's token. Set Key or Fault, and then Verified.
	Verify struct{ *Request }
	// Append: bring the uses to the disk. Set Err and Size, and then Kept. Where nobody waits for it, within Within.
	Append struct{ *Write }
	// PutClaims: put the claims into the store, within Within. Set Found, and then Claimed.
	PutClaims struct{ *Batch }
	// WithdrawAtStore: put the withdrawal into the store, within Within. Set Owner or Err, and then Stored.
	WithdrawAtStore struct{ *StoreWithdraw }
	// Send: put the value into the group's log, within Within. Set Err, and where Timed says so, At or AtErr; then Landed.
	Send struct{ *Put }
	// Answer: the call is answered: look at its Err.
	Answer struct{ *Call }
	// Snapshot: replace what is on the disk by Save, and then Snapshotted.
	Snapshot struct{}
	// JumpedAhead: the clock has been too far ahead for a minute: restart.
	JumpedAhead struct{}
	// Ended: sent after End, once everything that could be published and persisted was.
	Ended struct{}
)

// A Call is something that waits for an Answer.
type Call struct {
	Err      error // why it was not done
	done     chan struct{}
	answered bool
}

// memberModes are the modes as the member has them.
var memberModes = map[Mode]svid.MemberMode{Once: svid.MemberOnce, Strict: svid.MemberStrict, Bound: svid.MemberBound, Reuse: svid.MemberReuse}

// NewMachine returns a machine that is not ready, whose validator has an empty record and no member. It wants Renewed and Load, where
// Options.Grouped is set Joined and CaughtUp, and where Options.Stored is set StoreOpened and Looked. It uses the validator until Ended.
func NewMachine(o Options, validator *svid.Validator, now Time) (*Machine, error) {
	return newMachine(&o, new(Metrics), validator, now)
}

func newMachine(o *Options, metrics *Metrics, validator *svid.Validator, now Time) (*Machine, error) {
	o.Stored = o.Stored || o.Mode.claims()
	mode, ok := memberModes[o.Mode]
	if !ok {
		return nil, fmt.Errorf("%q is no mode", o.Mode)
	}
	if err := validator.OpenMember(svid.MemberTerms{Mode: mode, Disk: o.Journal != nil, Store: o.Stored, Log: o.Grouped,
		Wait: o.Wait, Ahead: o.Ahead, Lasts: o.Terms.Lasts, Life: o.Life}); err != nil {
		return nil, err
	}
	m := &Machine{Options: o, metrics: metrics, validator: validator, now: now, began: now.Wall, due: never, second: never,
		requests: map[uint64]*Request{}, withdrawals: map[uint64]*Withdraw{}, claims: claimQueue{pacing: svid.NewPacing(), known: knownClaims{turned: now.Up}}, rules: &Rules{o.Audiences, nil},
		withdrawn: withdrawnTokens{until: map[svid.TokenKey]uint64{}},
		known:     svid.Known{Opened: !o.Stored, Heard: !o.Stored, Joined: !o.Grouped, CaughtUp: !o.Grouped}}
	m.keeper.due, m.tale.due, m.mixedAt = never, never, now.Up-seldomTime
	if o.Allow == nil {
		return m, nil
	}
	ruling := Ruling{Rules: &Rules{o.Audiences, o.Allow}}
	ruling.happen(m)
	return m, ruling.Err
}

// Step lets an event happen. now is not before the last one by Up, or counts as that. Whatever is late by then is answered before the event.
func (m *Machine) Step(now Time, event Event) {
	m.goTo(now)
	m.overdue()
	event.happen(m)
	m.settle()
}

// Tick lets happen what is due by now. To be called at Due, or any time.
func (m *Machine) Tick(now Time) {
	m.goTo(now)
	m.overdue()
	if m.keeper.due <= m.now.Up {
		m.keepNext()
	}
	if m.tale.due <= m.now.Up {
		m.tellNext()
	}
	m.tellLater()
	if m.second <= m.now.Up {
		m.second = m.now.Up + tickEvery
		m.lookAfterAll()
	}
	m.settle()
}

// Due is when Tick is to be called next, by Time.Up; never where nothing is due.
func (m *Machine) Due() time.Duration {
	if len(m.again) > 0 {
		return m.now.Up
	}
	due := m.due
	for _, other := range [...]time.Duration{m.claims.due(), m.keeper.due, m.tale.due, m.tale.nextLater(), m.second} {
		if other < due {
			due = other
		}
	}
	if m.ending && !m.known.Ended && m.giveUp < due && m.giveUp > m.now.Up {
		due = m.giveUp
	}
	return due
}

// Effects appends to room what is to be done since it was called last.
func (m *Machine) Effects(room []Effect) []Effect {
	room = append(room, m.effects...)
	for i := range m.effects {
		m.effects[i] = nil
	}
	if m.effects = m.effects[:0]; cap(m.effects) > 256 {
		m.effects = nil
	}
	return room
}

func (m *Machine) goTo(now Time) {
	if now.Up < m.now.Up {
		now.Up = m.now.Up
	}
	m.now = now
}

func (m *Machine) do(effect Effect) { m.effects = append(m.effects, effect) }

func (m *Machine) answer(c *Call, err error) {
	c.Err, c.answered = err, true
	m.do(Answer{c})
}

// overdue answers what is late.
func (m *Machine) overdue() {
	if m.due > m.now.Up {
		return
	}
	for {
		deed, err := m.validator.Overdue(m.now.Up)
		if err != nil || deed.Kind == svid.DeedNothing {
			break
		}
		m.carryOut(deed)
	}
	for {
		made, ended, err := m.validator.WithdrawalOverdue(m.now.Up)
		if err != nil || !ended {
			break
		}
		m.withdrawalEnded(made)
	}
	m.due = m.nextDue()
}

// comes takes note that the member has another request, or another withdrawal. All wait for the same time, so a later one is due later.
func (m *Machine) comes() {
	if m.due == never {
		m.due = m.nextDue()
	}
}

func (m *Machine) nextDue() time.Duration {
	if at, any, err := m.validator.Due(); err == nil && any {
		return at
	}
	return never
}

// settle does what a step leaves to be done behind it.
func (m *Machine) settle() {
	m.goOn()
	m.sendClaims()
	m.end()
}

// What happens to a machine as a whole.
type (
	// Bundled: the validator has a trust bundle by which a token can be accepted, or has none.
	Bundled bool
	// Useless: the validator has trust bundles, and no token can be accepted by them. It says why.
	Useless string
	// Joined: there is a group.
	Joined struct{}
	// CaughtUp: what the group had is read.
	CaughtUp struct{}
	// Drain: Ready is to answer no from now on. Tokens are still judged.
	Drain struct{}
	// Run: the machine is to look after itself, each second, and to tell the group.
	Run struct{}
	// End: the machine is to end. It keeps and tells what it can, takes a last snapshot, and then comes Ended.
	End struct{}
)

func (b Bundled) happen(m *Machine) { m.known.Bundled, m.useless = bool(b), ""; m.know() }
func (u Useless) happen(m *Machine) { m.known.Bundled, m.useless = false, string(u); m.know() }
func (Joined) happen(m *Machine)    { m.known.Joined = true; m.know() }
func (CaughtUp) happen(m *Machine)  { m.known.CaughtUp = true; m.know() }
func (Drain) happen(m *Machine)     { m.known.Draining = true; m.know() }

// know tells the member what the machine knows. (A validator that is closed says so when it is asked.)
func (m *Machine) know() {
	m.known.Deaf = m.state.Deaf > 0 && m.state.Deaf >= svid.StaysUntil(m.now.Wall, m.Longest)
	_ = m.validator.Know(m.known)
}

func (Run) happen(m *Machine) {
	m.runs = true
	m.second = m.now.Up + tickEvery
	m.tellNext()
}

func (End) happen(m *Machine) {
	m.ending, m.second, m.giveUp = true, never, m.now.Up+tellWait
	m.tale.later = nil
	m.tellNext()
}

// end ends the machine once nothing is under way: what waits for the group is sent or given up, and what waits for the disk
// is there or could not be kept. Then comes the last snapshot.
func (m *Machine) end() {
	if !m.ending || m.known.Ended {
		return
	}
	if m.giveUp <= m.now.Up {
		m.dropTale()
	}
	if m.isTelling() || m.isKeeping() || m.claims.pacing.Calls() > 0 || m.keeper.saving {
		return
	}
	if m.Journal != nil && m.known.Loaded && !m.last {
		m.last = true
		m.save()
		return
	}
	m.known.Ended, m.runs = true, false
	m.know()
	m.do(Ended{})
}

// Ready returns nil if tokens are to be sent here: the machine can judge them, and does not drain. full says that the state folder has no room for
// another acceptance, and away that the store has not answered for longer than a request waits.
func (m *Machine) Ready(now Time, full, away bool) error {
	m.goTo(now)
	m.known.Full, m.known.Away = full, away
	m.know()
	return m.inWords(m.validator.Ready())
}

var (
	// errNoBundles: no source has given a trust bundle.
	errNoBundles = errors.New(svid.UnreadyNoBundle.Words())
	// errKeepsNothing: in mode once a token would be answered 503, and be burnt.
	errKeepsNothing = errors.New("the state folder takes no acceptances: the log says why")
	// errAway: in modes strict and bound a token would be answered 503.
	errAway = errors.New("the group's store does not answer, so no token can be claimed")
)

// inWords says why no token is judged, or none is to be sent here, in an operator's words.
func (m *Machine) inWords(err error) error {
	why, ok := err.(svid.Unready)
	if !ok {
		return err
	}
	switch why {
	case svid.UnreadyNoBundle:
		if m.useless != "" {
			return errors.New(m.useless)
		}
		return errNoBundles
	case svid.UnreadyEnded:
		return errors.New("the sidecar has ended")
	case svid.UnreadyGroupUnread:
		return errors.New("the group's bucket is being read")
	case svid.UnreadyDraining:
		return errors.New("draining")
	case svid.UnreadyJumped:
		return fmt.Errorf("the clock went ahead by more than %d seconds at once", m.Options.Step)
	case svid.UnreadyKeepsNothing:
		return errKeepsNothing
	case svid.UnreadyStoreAway:
		return errAway
	case svid.UnreadyDeaf:
		return fmt.Errorf("the store has lost entries: no token is accepted that expires before %d, and so none at the moment", m.state.Deaf)
	}
	return errors.New(why.Words())
}

// notReady is why nothing is judged, or withdrawn, yet.
func (m *Machine) notReady(err error) error {
	if _, ok := err.(svid.Unready); ok {
		return fmt.Errorf("%w: %v", ErrNotReady, m.inWords(err))
	}
	return err
}

// Backlog is how many things are under way: requests, claims, values, writes, and what waits to be told. Where nothing happens
// it is 0.
func (m *Machine) Backlog() int {
	c, k, t := &m.claims, &m.keeper, &m.tale
	n := len(m.requests) + len(m.withdrawals) + len(m.again) + len(c.waiting) + len(c.later) + c.pacing.Calls()
	n += len(k.uses) + len(t.untold) + len(t.later) + len(m.late.messages)
	if k.busy != nil || t.told != nil {
		n++
	}
	return n
}
