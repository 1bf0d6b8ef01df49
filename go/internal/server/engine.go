// Package server is the sidecar svidd without its command line: it judges
// tokens over HTTP, and keeps what an acceptance owes to the disk and to the
// group before the answer goes out.
//
// A Machine decides, by the proved validator of package svid, and an Engine runs it with goroutines, sockets and files. A
// Handler puts it behind /check. The state folder and the group are interfaces here, which packages journal and
// carriers have.
package server

import (
	"context"
	"encoding/json"
	"fmt"
	"io"
	"runtime/debug"
	"sync"
	"sync/atomic"
	"time"

	"svid.example/go/v3/carriers"
	"svid.example/go/v3/claims"
	"svid.example/go/v3/svid"
	"svid.example/go/v3/svidhttp"
)

// A Mode is what an acceptance means for the next time that the token comes.
type Mode string

// The modes.
const (
	Once   Mode = "once"   // a token is accepted once by this sidecar; the group hears of it at once
	Strict Mode = "strict" // a token is accepted once in the whole group
	Bound  Mode = "bound"  // a token is accepted from the caller that used it first in the group, again and again
	Reuse  Mode = "reuse"  // a token is accepted until it expires or is withdrawn
)

// claims says whether a token is claimed in the group's store before it is accepted.
func (m Mode) claims() bool { return m == Strict || m == Bound }

// comesAgain says whether a token may be accepted again, so that what was verified is worth keeping.
func (m Mode) comesAgain() bool { return m == Reuse || m == Bound }

// A Journal keeps acceptances on the disk.
type Journal interface {
	// AppendUses returns after the uses are on the disk, or once ctx ends: the disk may have them then, now or later.
	AppendUses(ctx context.Context, uses ...svid.Use) error
	// KeepUses does not wait: kept hears that in its place, soon after, unless an error is returned.
	KeepUses(kept func(error), uses ...svid.Use) error
	// Size is how many bytes were appended since the last snapshot. It waits for no disk.
	Size() int64
	// Room returns nil if the disk takes the next acceptance.
	Room(ctx context.Context) error
	// Moved says whether the path of the state folder leads elsewhere, so that it takes nothing any more.
	Moved() bool
	// Snapshot replaces snapshot and journal by what write writes, and loses
	// nothing that is appended meanwhile.
	Snapshot(write func(io.Writer) error) error
}

// A Group carries uses and withdrawals to the other sidecars, and theirs to
// Engine.Take.
type Group interface {
	Ready() <-chan struct{}
	// Put returns once the value is stored, and tries until ctx ends. Every
	// member is given it then, in one order, with all values.
	Put(ctx context.Context, kind carriers.Kind, number uint64, message []byte) error
	// Stored returns when the broker stored a value that was Put, by its clock.
	Stored(ctx context.Context, kind carriers.Kind, number uint64) (time.Time, error)
	Taken() uint64
	Aside() uint64
	// Connected says whether the broker is there at this moment.
	Connected() bool
}

// Options of an Engine.
type Options struct {
	Mode        Mode
	Caller      *CallerRule // in modes Bound and Reuse: what names the caller of a request; nil where WithCaller alone does, and in Reuse where nobody asks
	Audiences   []string    // until SetRules
	Allow       []string    // patterns of the SPIFFE IDs that may call (svid.Allows), until SetRules; nil allows all
	Domains     []string    // trust domains that are to have a bundle: until one has, its tokens can't be judged
	RSABits     int         // at most so many has an RSA key, as svid.KeyringOptions has it
	Longest     uint64      // seconds past now that a token may live
	Ahead       uint64      // seconds that clocks of the group may differ
	Step        uint64      // seconds that the clock may go ahead between two ticks; 0 for any
	Jumped      func()      // is called once the clock has been further ahead than Step for a minute; may be nil
	ValidatorID svid.ValidatorID
	Journal     Journal       // nil writes nothing to the disk
	Grouped     bool          // the engine is not ready before it joined a group
	Stored      bool          // the engine is not ready before it reached the group's store (UseStore)
	Terms       claims.Terms  // of that store
	Life        svid.Life     // another one for each start: NewEngine draws it
	Wait        time.Duration // for the disk, the group and the store, in one request
	Now         func() uint64 // nil is svid.Now
	Log         *Log
}

// An Engine judges tokens: it runs a Machine. Its methods may be called by many goroutines at once.
type Engine struct {
	Options
	Metrics Metrics
	// Missing returns what is wrong with a source of trust bundles, and nil where nothing is known of that. It is set before the first request,
	// or stays nil.
	Missing   func() error
	keyring   *svid.Keyring
	validator *svid.Validator
	group     atomic.Pointer[joined]
	store     atomic.Pointer[reached]
	caughtUp  atomic.Bool // the machine knows that the group's bucket is read
	renewing  sync.Mutex  // held while bundles are replaced
	usable    atomic.Pointer[usable]
	start     time.Time // when Time.Up is 0
	outlook   outlook
	pulse     pulse
	verified  *verified                // in modes reuse and bound
	firsts    firsts                   // in mode reuse with Options.Caller
	toHave    atomic.Pointer[[]string] // trust domains that are to have a bundle; nil while Options.Domains counts
	isReal    bool                     // Options.Now was not given

	hearing sync.Mutex // guards heard
	heard   []*Write   // of these it is known what became, and the machine is to hear that

	mu      sync.Mutex // held over a step of the machine; guards the fields below
	machine *Machine
	alarm   *time.Timer   // ticks
	armed   time.Duration // when it does

	life   context.Context // ends with Run
	end    context.CancelFunc
	ending chan struct{} // closed as Run begins to end
	ended  chan struct{} // closed once the machine has ended
}

// joined is the group once it is there.
type joined struct{ Group }

// reached is the group's store once it was opened.
type reached struct{ claims.Store }

// noBundles are the bundles before the first ones are read.
var noBundles = []byte("{}")

// NewEngine returns an engine that is not ready: it wants SetBundles, Load, where
// Options.Grouped is set Join, and where Options.Stored is set UseStore.
func NewEngine(o Options) (*Engine, error) {
	isReal := o.Now == nil
	if isReal {
		o.Now = svid.Now
	}
	if o.Step == 0 {
		o.Step = svid.NoLimit
	}
	life, err := svid.NewLife()
	if err != nil {
		return nil, err
	}
	o.Life = life
	keyring, err := svid.OpenKeyring(svid.KeyringOptions{Bundles: noBundles, RSABits: o.RSABits})
	if err != nil {
		return nil, err
	}
	validator, err := svid.Open(svid.Options{
		Audiences: o.Audiences, Bundles: noBundles, Longest: o.Longest,
		Ahead: o.Ahead, Step: o.Step, ValidatorID: o.ValidatorID,
	})
	if err != nil {
		keyring.Close()
		return nil, err
	}
	e := &Engine{Options: o, keyring: keyring, validator: validator, start: time.Now(), isReal: isReal, armed: never,
		verified: newVerified(), ending: make(chan struct{}), ended: make(chan struct{})}
	e.outlook.looking = make(chan struct{}, 1)
	e.life, e.end = context.WithCancel(context.Background())
	e.usable.Store(&usable{})
	if e.machine, err = newMachine(&e.Options, &e.Metrics, validator, e.time()); err != nil {
		e.end()
		keyring.Close()
		validator.Close()
		return nil, err
	}
	e.alarm = time.AfterFunc(never, e.tick)
	return e, nil
}

// Close frees the record. No call may be under way.
func (e *Engine) Close() {
	e.mu.Lock()
	defer e.mu.Unlock()
	e.alarm.Stop()
	e.armed = -1 // It is never set again.
	e.end()
	e.verified.clear()
	e.keyring.Close()
	e.validator.Close()
}

// time is what the clocks show.
func (e *Engine) time() Time {
	if e.isReal {
		now := time.Now() // (as svid.Now, and a clock is looked at once)
		return Time{Wall: uint64(now.Unix()), Up: now.Sub(e.start)}
	}
	return Time{Wall: e.Now(), Up: time.Since(e.start)}
}

// step lets something happen to the machine, and does what is to be done then.
func (e *Engine) step(event Event) { e.stepFor(nil, event) }

// stepFor does so in a goroutine that waits for the answer to a call, and so does itself what that call wants: behind all else, which waits
// for others.
func (e *Engine) stepFor(own *Request, event Event) {
	var room [4]Effect
	now := e.time()
	e.mu.Lock()
	now.Up = time.Since(e.start) // What is late by now is late, however long the lock was waited for.
	e.machine.Step(now, event)
	if own != nil && own.done == nil && !own.answered { // Else nobody has to tell its goroutine.
		own.done = make(chan struct{})
	}
	effects := e.machine.Effects(room[:0])
	e.arm()
	e.mu.Unlock()
	last := -1
	for i, effect := range effects {
		if last < 0 && takesLong(own, effect) {
			last = i
		} else {
			e.do(own, effect)
		}
	}
	if last >= 0 {
		e.do(own, effects[last])
	}
}

// takesLong says whether do comes back late from an effect, since it does itself what its own call wants.
func takesLong(own *Request, effect Effect) bool {
	switch effect := effect.(type) {
	case Verify:
		return true
	case PutClaims:
		return isOwn(own, effect)
	}
	return false
}

// isOwn says whether the goroutine of a request puts the claims itself: it waits for the answer anyway.
func isOwn(own *Request, effect PutClaims) bool {
	return own != nil && own.patient && effect.has(own)
}

// tick lets happen what is due.
func (e *Engine) tick() {
	now := e.time()
	e.mu.Lock()
	if e.armed < 0 {
		e.mu.Unlock()
		return
	}
	e.armed = never
	e.machine.Tick(now)
	effects := e.machine.Effects(nil)
	e.arm()
	e.mu.Unlock()
	for _, effect := range effects {
		e.do(nil, effect)
	}
}

// arm sets the alarm, unless it is set to an earlier moment. The caller holds mu.
func (e *Engine) arm() {
	if due := e.machine.Due(); due < e.armed {
		e.armed = due
		e.alarm.Reset(due - time.Since(e.start))
	}
}

// do does what is to be done: at once what takes no time, or what the call wants that this goroutine waits for.
func (e *Engine) do(own *Request, effect Effect) {
	switch effect := effect.(type) {
	case Answer:
		if effect.done != nil {
			close(effect.done)
		}
	case Verify:
		effect.Key, effect.Fault = e.keyring.VerifyToken(effect.reading()) // which key made the signature
		e.stepFor(own, Verified(effect))
	case Append:
		if own != nil && effect.Write == own.write {
			e.keep(effect.Write)
		} else {
			go e.appendInTime(effect.Write)
		}
	case PutClaims:
		if isOwn(own, effect) {
			e.put(effect.Batch)
		} else {
			go e.put(effect.Batch)
		}
	case WithdrawAtStore:
		go e.withdrawAtStore(effect.StoreWithdraw)
	case Send:
		go e.send(effect.Put)
	case Snapshot:
		go e.snapshot()
	case JumpedAhead:
		if e.Jumped != nil {
			e.Jumped()
		}
	case Ended:
		close(e.ended)
	}
}

// recall finds what is kept of a request's token, in modes reuse and bound. Where the key is known that made the signature, nobody verifies it.
func (e *Engine) recall(r *Request) {
	if !e.Mode.comesAgain() {
		return
	}
	r.recalled = e.verified.recall(r.Token)
	if r.Key = r.recalled.key; r.Key == nil || r.recalled.isHeld {
		return
	}
	t := r.reading()
	t.VerifiedBy(r.Key)
	_ = t.Read() // Here it holds no lock. The validator says what is wrong with the token.
}

// keep brings the uses of a request to the disk. Nobody waits here for the disk: the machine answers the request, at the latest when its
// time is over.
func (e *Engine) keep(w *Write) {
	if err := e.Journal.KeepUses(func(err error) { e.keptSoon(w, err) }, w.Uses...); err != nil {
		e.kept(w, err)
	}
}

// keptSoon is kept for one of many requests that share a write: the machine hears of them together, since each time takes its lock.
func (e *Engine) keptSoon(w *Write, err error) {
	w.Err, w.Size = err, e.Journal.Size()
	e.hearing.Lock()
	e.heard = append(e.heard, w)
	first := len(e.heard) == 1
	e.hearing.Unlock()
	if first {
		go e.hear()
	}
}

// mostHeard is of how many writes the machine hears while nobody else has its lock.
const mostHeard = 32

func (e *Engine) hear() {
	e.hearing.Lock()
	all := e.heard
	e.heard = nil
	e.hearing.Unlock()
	var room [mostHeard]Effect
	for len(all) > 0 {
		now, these := e.time(), all
		if len(these) > mostHeard {
			these = these[:mostHeard]
		}
		all = all[len(these):]
		e.mu.Lock()
		now.Up = time.Since(e.start)
		for _, w := range these {
			e.machine.Step(now, Kept{w})
		}
		effects := e.machine.Effects(room[:0])
		e.arm()
		e.mu.Unlock()
		for _, effect := range effects {
			e.do(nil, effect)
		}
	}
}

// kept lets the machine hear what became of a write.
func (e *Engine) kept(w *Write, err error) {
	w.Err, w.Size = err, e.Journal.Size()
	e.step(Kept{w})
}

// appendInTime brings uses to the disk, and waits for that as long as anybody else at the most: a disk that hangs gathers no goroutines.
func (e *Engine) appendInTime(w *Write) {
	ctx, cancel := context.WithTimeout(e.life, w.Within)
	defer cancel()
	e.kept(w, e.Journal.AppendUses(ctx, w.Uses...))
}

// send puts a value into the group's log, and tries for as long as it is worth it.
func (e *Engine) send(p *Put) {
	ctx, cancel := context.WithTimeout(e.life, p.Within)
	defer cancel()
	g := e.group.Load()
	var message []byte
	if message, p.Err = svid.Batches(p.Uses); p.Err == nil {
		p.Err = g.Put(ctx, p.Kind, p.Number, message)
	}
	if p.Err == nil && p.Timed {
		var at time.Time
		at, p.AtErr = g.Stored(ctx, p.Kind, p.Number)
		p.At = uint64(at.Unix())
	}
	e.step(Landed{p})
}

// snapshot writes the record to the state folder.
func (e *Engine) snapshot() {
	var written counter
	err := e.Journal.Snapshot(func(w io.Writer) error {
		written = 0
		return e.Save(io.MultiWriter(w, &written))
	})
	e.step(Snapshotted{Length: int64(written), Size: e.Journal.Size(), Err: err})
}

// A counter counts the bytes that are written to it.
type counter int64

func (c *counter) Write(bytes []byte) (int, error) {
	*c += counter(len(bytes))
	return len(bytes), nil
}

// SetBundles replaces the trust bundles, given by trust domain. On an error the
// old ones stay.
func (e *Engine) SetBundles(domains map[string]json.RawMessage) error {
	text, err := json.Marshal(domains)
	if err != nil {
		return fmt.Errorf("bundles: %w", err)
	}
	usable, err := e.usableOf(domains)
	if err != nil {
		return err
	}
	e.renewing.Lock()
	defer e.renewing.Unlock()
	if len(domains) == 0 {
		e.step(Bundled(false)) // No token can be accepted from here on, and it is not the tokens' fault.
	}
	if err = e.validator.Renew(e.keyring, text); err == nil {
		e.verified.clear()
		e.usable.Store(usable)
	}
	usable = e.usable.Load()
	if why := usable.useless(); why != "" {
		e.step(Useless(why))
	} else {
		e.step(Bundled(len(usable.keys) > 0))
	}
	return err
}

// SetRules lets tokens for these audiences, and of callers of these patterns, be accepted from now on, and no others. On an error
// the rules of before count.
func (e *Engine) SetRules(audiences, allow []string) error {
	if err := CheckCallers(allow); err != nil {
		return err
	}
	r := &Ruling{Rules: &Rules{Audiences: append([]string(nil), audiences...), Allow: append([]string(nil), allow...)}}
	e.step(r)
	return r.Err
}

// Join lets the engine share its record with a group, to which it was given as
// the Sink.
func (e *Engine) Join(g Group) {
	e.group.Store(&joined{g})
	e.step(Joined{})
}

// look tells the machine once the group's bucket is read.
func (e *Engine) look() {
	if e.caughtUp.Load() {
		return
	}
	if g := e.group.Load(); g != nil {
		select {
		case <-g.Ready():
			e.step(CaughtUp{})
			e.caughtUp.Store(true)
			go debug.FreeOSMemory() // of the bucket's values, which may be as many as the record's uses
		default:
		}
	}
}

// Drain lets Ready answer no from now on. Tokens are still judged.
func (e *Engine) Drain() { e.step(Drain{}) }

// Ready returns nil if tokens are to be sent here: the engine can judge them, and
// does not drain.
func (e *Engine) Ready() error {
	e.look()
	if e.Mode == Once && e.Journal != nil && e.Journal.Moved() {
		return errMoved
	}
	now, full, away := e.time(), e.outlook.noRoom.Load(), e.isAway()
	switch err := withMachine(e, func(m *Machine) error { return m.Ready(now, full, away) }); {
	case err == errAway:
		return e.whyAway()
	case err == errNoBundles && e.Missing != nil:
		if why := e.Missing(); why != nil {
			return fmt.Errorf("%w: %v", err, why)
		}
		return err
	case err != nil:
		return err
	case e.isStarved():
		return errStarved
	}
	return e.usable.Load().noCaller(e.rulesNow().Allow)
}

// withMachine looks at the machine of an engine.
func withMachine[A any](e *Engine, look func(m *Machine) A) A {
	e.mu.Lock()
	defer e.mu.Unlock()
	return look(e.machine)
}

// isBundled says whether there is a trust bundle.
func (e *Engine) isBundled() bool {
	return withMachine(e, func(m *Machine) bool { return m.known.Bundled })
}

// rulesNow are those that count.
func (e *Engine) rulesNow() *Rules {
	return withMachine(e, func(m *Machine) *Rules { return m.rules })
}

// Check judges a token, and makes an acceptance last as the mode says. The error
// is nil for an accepted token, a svid.Refusal for a refused one, and anything
// else if the token could not be judged, or its acceptance not be kept: it is
// not accepted then. It counts that, and logs it. In mode bound WithCaller says who presents the token.
func (e *Engine) Check(ctx context.Context, token string) (svid.Accepted, error) {
	v := e.judgeToken(ctx, caller{bound: e.namedIn(ctx)}, token)
	return v.accepted, v.err
}

// mostTries is how often a token is judged if the bundles are replaced each time between its verification and its judgment. That happens
// next to never even once, so the bound is for faults.
const mostTries = 16

// judge lets the machine judge a token that this caller presents. It returns the rules by which an accepted one was judged. In mode bound nothing is
// judged without a caller: all who have none would be one caller.
func (e *Engine) judge(ctx context.Context, from Caller, v *verdict) *Rules {
	if e.Mode == Bound && !from.isOne() {
		v.err = from.whyNone()
		return nil
	}
	e.look()
	e.lookFirst()
	r := e.judgeOnce(ctx, from, v.token)
	for tries := 1; tries < mostTries && r.isOfOldBundles(); tries++ {
		e.verified.forget(r.recalled)
		r.recalled.held.letGo()
		r = e.judgeOnce(ctx, from, v.token)
	}
	if e.Mode.comesAgain() && r.Err == nil {
		e.verified.keep(r.recalled, v.token, r.Key, r.Accepted.Use)
		e.noteCaller(from, r.Accepted.Use, v.token)
	}
	r.recalled.held.letGo()
	v.accepted, v.owner, v.other, v.err = r.Accepted, r.Owner, r.Other, e.ofBundles(v.token, r.Err)
	return r.rules
}

func (e *Engine) judgeOnce(ctx context.Context, from Caller, token string) *Request {
	r := NewRequest(token)
	r.Caller, r.patient = from.digest, isPatient(ctx)
	e.recall(r)
	e.stepFor(r, r)
	switch {
	case r.done == nil: // It was answered at once.
	case e.Mode.claims():
		e.awaitClaim(ctx, r)
	default:
		<-r.done
	}
	return r
}

// ErrNotAllowed: none of Options.Allow allows the token's subject. The token is good, and it is not used up.
var ErrNotAllowed = svidhttp.ErrNotAllowed

// ofBundles is ErrNoBundle in the place of UnknownDomain, where the token's trust domain is to have a bundle.
func (e *Engine) ofBundles(token string, err error) error {
	if err == svid.UnknownDomain && (!e.isBundled() || e.isToHaveBundle(readUnverified(token).domain)) {
		return ErrNoBundle
	}
	return err
}

// isToHaveBundle says whether a trust domain is one of Options.Domains.
func (e *Engine) isToHaveBundle(domain string) bool {
	for _, one := range e.domains() {
		if one == domain {
			return true
		}
	}
	return false
}

// Withdraw withdraws the token of this key, which expires at exp, here and in the
// group. An error that says the group was not told leaves the token withdrawn here;
// the same call can be made again. usedBy is who accepted the token before, as the
// group's store has it; zeros where nobody did, or there is no store. In mode bound
// the store has a digest of the caller, and no validator: so zeros there too.
func (e *Engine) Withdraw(key svid.TokenKey, exp uint64) (use svid.Use, usedBy svid.ValidatorID, err error) {
	e.look()
	w := &Withdraw{Call: Call{done: make(chan struct{})}, Key: key, Expires: exp}
	e.step(w)
	<-w.done
	if w.Err != nil {
		return svid.Use{}, usedBy, w.Err
	}
	if e.Mode == Bound {
		return w.Use, usedBy, nil
	}
	return w.Use, w.UsedBy.ValidatorID(), nil
}

// Find returns the key and expiry of a token for these audiences whose signature
// is good and that has not expired, whether it was used or not.
func (e *Engine) Find(token string) (svid.Use, error) {
	if !e.isBundled() {
		return svid.Use{}, ErrNotReady
	}
	yes, err := e.keyring.Verify(token)
	if _, refused := refusalOf(err); err != nil && !refused {
		return svid.Use{}, err
	}
	judged, err := e.keyring.Judge(svid.Judgment{Audiences: e.rulesNow().Audiences, Longest: svid.NoLimit, ValidatorID: e.ValidatorID}, e.Now(), token, yes)
	return judged.Use, err
}

// Feed gives the record a part of the messages of the state folder, as the journal reads them. Load follows with the last
// ones, or none.
func (e *Engine) Feed(messages []byte) error {
	f := &Feed{Messages: messages}
	e.step(f)
	return f.Err
}

// Load gives the record the messages of the state folder. A record that is
// further in the future than Options.Ahead is an error: a token that it has as
// used could be accepted again without it.
func (e *Engine) Load(messages []byte) error {
	if err := e.Feed(messages); err != nil {
		return err
	}
	l := &Load{}
	if e.Journal != nil {
		l.Size = e.Journal.Size()
	}
	e.lookForRoom()
	e.step(l)
	return l.Err
}

// Begin is part of carriers.Sink. The record takes values in any order, so nothing is to be done.
func (e *Engine) Begin(carriers.Start) {}

// Take gives the record values of the group, by pieces, so that nobody waits for long meanwhile. An error says that a value is put
// aside: it is no message, or of a time further ahead than Options.Ahead.
func (e *Engine) Take(values []carriers.Value) (errs []error) {
	for from := 0; from < len(values); {
		to := from
		for bytes := 0; to < len(values) && bytes < takePiece; to++ {
			bytes += len(values[to].Message)
		}
		piece := &Taking{Values: values[from:to]}
		e.step(piece)
		if piece.Errs != nil {
			if errs == nil {
				errs = make([]error, len(values))
			}
			copy(errs[from:], piece.Errs)
		}
		from = to
	}
	return errs
}

// pause waits, and says whether the engine goes on.
func (e *Engine) pause(d time.Duration) bool {
	if d == 0 {
		return true
	}
	timer := time.NewTimer(d)
	defer timer.Stop()
	select {
	case <-e.ending:
		return false
	case <-timer.C:
		return true
	}
}

// Summary returns the summary of the record, for another sidecar to answer.
func (e *Engine) Summary() ([]byte, error) { return e.machine.Summary() }

// Answers answers another sidecar's summary by messages of at most most bytes each.
func (e *Engine) Answers(summary []byte, most int) ([][]byte, error) {
	answer, err := e.machine.Answer(summary)
	if err != nil {
		return nil, err
	}
	return svid.Pieces(answer, most)
}

// Save writes the whole record as messages.
func (e *Engine) Save(w io.Writer) error { return e.machine.Save(w) }

// Run keeps the record until ctx ends: it follows the clock, tells the group, and
// takes snapshots. It returns once everything that waited for the group was sent or given up,
// and the last snapshot is taken.
func (e *Engine) Run(ctx context.Context) {
	e.step(Run{})
	looked := make(chan struct{})
	go func() { defer close(looked); e.lookAheadEachSecond() }()
	<-ctx.Done()
	e.step(End{})
	close(e.ending)
	<-e.ended
	e.end()
	<-looked
}
