package server

import (
	"context"
	"errors"
	"fmt"

	"svid.example/go/v3/carriers"
	"svid.example/go/v3/claims"
	"svid.example/go/v3/svid"
)

// The walk of each call through the machine, from its coming to its answer. The member says what comes next.

var (
	// ErrNotReady: the sidecar has not yet read its bundles, its record and the
	// group's.
	ErrNotReady = errors.New("not ready")

	// ErrNoBundle: the bundle of the token's trust domain could not be read yet.
	ErrNoBundle = errors.New("the bundle of the token's trust domain was not read yet")

	// ErrLost: the store has lost entries, so whether another member accepted the token is unknown.
	ErrLost = errors.New("the store has lost entries, and a claim of the token may be among them: whether it was used is unknown")

	// errFar: the token lives longer than the store's terms allow.
	errFar = errors.New("the token lives longer than the group's store keeps claims: give all members the same --longest, and set their clocks right")

	errNoNumber = errors.New("no more requests can be told apart: restart the sidecar")
)

// A Request asks whether a token is accepted. Its Err is nil for one that is, a svid.Refusal for one that is refused, and
// anything else if the token could not be judged, or its acceptance not be kept: it is not accepted then.
type Request struct {
	Call
	Token    string
	read     svid.Token    // the same, which the effect Verify and the step Verified read once
	Accepted svid.Accepted // where it is
	rules    *Rules        // by which it was judged last
	number   uint64        // by which the member names it
	stage    stage
	left     error // the answer, where the member says that nobody waits for one

	// What the effect Verify is to find, unless Key is known before.
	Key   *svid.Key // that made the signature; nil where none did
	Fault error     // why nobody could find that out

	recalled recalled // of modes reuse and bound: what the engine had of the token

	write *Write // of mode once

	// Of mode bound.
	Caller [32]byte // a digest of who presents the token
	Other  bool     // the token is another caller's, so the answer is Replayed

	// Of modes strict and bound.
	Owner   svid.ValidatorID // in mode strict: whose claim the token is, where the answer is Replayed by the store; else zeros
	claim   claims.Claim     // that was put, or waits for a call
	isKept  bool             // what the store answered was known before, and is kept as it is
	patient bool             // it has no end but Options.Wait, so its goroutine may put the claim itself
	fault   error            // what the store said last, where that was no answer
}

// A stage is what a request waits for.
type stage int

const (
	verifying stage = iota // its signature is being verified
	writing                // its use is on its way to the disk
	claiming               // its claim waits for a call, or is on its way
	waiting                // for another request's claim, or to be judged
)

// NewRequest returns a request that asks about a token.
func NewRequest(token string) *Request { return &Request{Token: token, read: svid.NewToken(token)} }

// reading is what the library is to read of the token, or has read: it may be held for other requests too.
func (r *Request) reading() *svid.Token {
	if r.recalled.held != nil {
		return &r.recalled.held.token
	}
	return &r.read
}

// Verified: the effect Verify is done.
type Verified struct{ *Request }

// Gone: nobody waits any more for the answer to the request, for this reason. A use that is on its way to the disk goes there all the same.
type Gone struct {
	*Request
	Why error
}

// A request comes. If its key is known it is judged at once.
func (r *Request) happen(m *Machine) {
	if r.Key != nil {
		m.ask(r)
		return
	}
	deed, err := m.validator.Come(m.now.Up)
	if err == nil && deed.Kind != svid.DeedJudge {
		err = errNoNumber
	}
	if err != nil {
		m.answer(&r.Call, m.notReady(err))
		return
	}
	m.take(r, deed.Number)
	m.do(Verify{r})
}

// take takes a request that has come, and waits.
func (m *Machine) take(r *Request, number uint64) {
	r.number = number
	m.requests[number] = r
	m.comes()
}

// ask lets a request come whose key is known, and its token be judged, by what the store answered before to a put of its claim.
func (m *Machine) ask(r *Request) {
	r.stage = waiting
	r.reading().VerifiedBy(r.Key)
	accepted, deed, err := m.validator.Ask(m.now.Wall, m.now.Up, &r.Caller, m.knownClaim(r), r.reading())
	switch {
	case deed.Number == svid.NoRequest:
		if err == svid.ErrUnasked {
			err = errNoNumber
		}
		r.read.Close()
		m.answer(&r.Call, m.notReady(err))
		return
	case deed.Kind == svid.DeedAnswer: // Nobody has to find it by its number.
		r.number = deed.Number
	default:
		m.take(r, deed.Number)
	}
	m.judged(r, accepted, deed, err)
}

// Its signature was verified. A token that the keyring refuses is judged without a key, for the validator to say which refusal comes first.
func (v Verified) happen(m *Machine) {
	r := v.Request
	if r.stage = waiting; r.answered {
		r.read.Close()
		return
	}
	if _, refused := refusalOf(r.Fault); r.Fault != nil && !refused {
		m.leave(r, r.Fault)
		return
	}
	r.reading().VerifiedBy(r.Key)
	m.judge(r)
}

// judge lets the token of a request be judged. Where nothing came of that, as of a token that can't be read, the request ends.
func (m *Machine) judge(r *Request) {
	accepted, deed, err := m.validator.JudgeRequest(m.now.Wall, m.now.Up, r.number, r.reading())
	m.judged(r, accepted, deed, err)
}

// judged carries out what a judgment says.
func (m *Machine) judged(r *Request, accepted svid.Accepted, deed svid.Deed, err error) {
	if err == nil {
		r.Accepted, r.rules = accepted, m.rules
		m.noteOwn(accepted.Use)
	} else if deed.Kind == svid.DeedNothing {
		m.leave(r, err)
		return
	}
	m.carryOutFor(r, deed)
}

// leave ends the walk of a request by this answer, unless its use is on its way to the disk.
func (m *Machine) leave(r *Request, why error) {
	r.left = why
	deed, err := m.validator.Leave(m.now.Up, r.number)
	if err != nil {
		m.finish(r, err)
		return
	}
	m.carryOut(deed)
}

func (g Gone) happen(m *Machine) {
	if !g.answered {
		m.leave(g.Request, g.ended(g.Why))
	}
}

// carryOut does what the member says of a request.
func (m *Machine) carryOut(deed svid.Deed) { m.carryOutFor(m.requests[deed.Number], deed) }

// carryOutFor does what the member says of this request; nil is one that has its answer.
func (m *Machine) carryOutFor(r *Request, deed svid.Deed) {
	if deed.Kind == svid.DeedAnswer && deed.Next != svid.NoRequest {
		m.again = append(m.again, deed.Next)
	}
	if r == nil {
		return
	}
	switch deed.Kind {
	case svid.DeedJudge:
		m.again = append(m.again, deed.Number)
	case svid.DeedAppend:
		r.stage, r.write = writing, writeOf(deed)
		m.keep(r.write)
	case svid.DeedClaim:
		m.openClaim(r, deed.Used)
	case svid.DeedAnswer:
		m.finish(r, m.answerOf(r, deed.Err))
	}
}

// answerOf is the answer to a request that the member answers so.
func (m *Machine) answerOf(r *Request, err error) error {
	switch err {
	case svid.ErrNotAllowed:
		return ErrNotAllowed
	case svid.ErrClaimDeaf:
		return ErrLost
	case svid.ErrClaimFar:
		return errFar
	case svid.ErrNotKept:
		return &notKept{"acceptance", r.write.Err}
	case svid.ErrLeft:
		if r.left != nil {
			return r.left
		}
	case svid.ErrLate:
		if r.stage == writing {
			m.untaken(r.write)
		}
		return r.ended(context.DeadlineExceeded)
	}
	return err
}

// ended is why a request has no answer, by what it waited for.
func (r *Request) ended(why error) error {
	switch {
	case r.stage == verifying:
		return fmt.Errorf("the signature of the token was not verified: %w", why)
	case r.stage == writing:
		return &notKept{"acceptance", errDisk}
	case r.stage == waiting:
		return fmt.Errorf("waiting for the claim of another request: %w", why)
	case r.fault != nil && errors.Is(why, context.DeadlineExceeded):
		return fmt.Errorf("the token could not be claimed: %w; the store's last answer: %v", why, r.fault)
	}
	return fmt.Errorf("the token could not be claimed: %w", why)
}

// finish answers a request. What was read of its token is let go here, or by who verifies it still.
//
// In mode once the machine tells the group now, without waiting: summaries repair what does not reach it. In mode strict the use goes to the disk, where
// there is one, and the answer does not wait for that: it is the store that makes the token unusable. In modes bound and reuse there is no use: the token
// may come again.
func (m *Machine) finish(r *Request, err error) {
	delete(m.requests, r.number)
	switch {
	case err != nil:
		r.Accepted = svid.Accepted{}
	case m.Mode == Once:
		m.tell(r.Accepted.Use)
	case m.Mode == Strict:
		m.keepSoon(r.Accepted.Use)
	}
	if r.stage == claiming {
		m.count(err)
	}
	if r.Other {
		m.metrics.OtherCaller.Add(1)
	}
	if r.stage != verifying {
		r.read.Close()
	}
	m.answer(&r.Call, err)
}

// goOn judges the tokens of requests whose turn has come. Where one token is sent very often, they go on by and by, so that
// others come in between.
func (m *Machine) goOn() {
	for n := 0; n < mostAgain && len(m.again) > 0; {
		number := m.again[0]
		if m.again = m.again[1:]; len(m.again) == 0 {
			m.again = nil
		}
		if r := m.requests[number]; r != nil {
			n++
			m.judge(r)
		}
	}
}

// mostAgain is how many requests go on in one step.
const mostAgain = 32

// isOfOldBundles says whether the request is refused since a key made the signature that the validator does not have any more, or has
// otherwise written: another one of the new bundles may have made it. (A claim of the token is this life's, and is found again.)
func (r *Request) isOfOldBundles() bool {
	return r.Err == svid.BadSignature && r.Key != nil
}

// A notKept is why the state folder did not take something.
type notKept struct {
	what string
	why  error
}

func (n *notKept) Error() string { return fmt.Sprintf("the %s could not be kept: %v", n.what, n.why) }
func (n *notKept) Unwrap() error { return n.why }

// A Withdraw withdraws the token of this key, which expires at Expires, here and in the group. An Err that says the group was not
// told leaves the token withdrawn here; the same call can be made again.
type Withdraw struct {
	Call
	Key     svid.TokenKey
	Expires uint64
	Use     svid.Use     // what the record gained
	UsedBy  claims.Owner // whose claim the store has of the token: it was used before. Zeros where it was not

	number uint64 // by which the member names it
	write  *Write
	faults [3]error // why a keeper does not have it
}

// The walk of a withdrawal: it is in the record at once, so no token is accepted after it. Then it goes to the disk, into the
// group's log and into the store, each whatever becomes of the others. The member says when it is answered.
func (w *Withdraw) happen(m *Machine) {
	err := m.validator.Judges()
	if err == nil {
		w.Use, err = m.withdraw(w.Key, w.Expires)
	}
	any := false
	if err == nil {
		w.number, any, err = m.validator.WithdrawalCome(m.now.Up)
	}
	if err == nil && !any {
		err = errNoNumber
	}
	if err != nil {
		m.answer(&w.Call, m.notReady(err))
		return
	}
	m.withdrawals[w.number] = w
	m.comes()
	uses := []svid.Use{w.Use}
	if m.Stored {
		m.do(WithdrawAtStore{&StoreWithdraw{Withdrawal: claims.Withdrawal{Key: w.Key, Expires: w.Expires}, Within: m.Wait, by: w}})
	} else {
		w.taken(m, svid.KeeperStore, nil)
	}
	if m.Grouped {
		m.put(&Put{Kind: carriers.Uses, Uses: uses, Timed: true, Within: m.Wait, by: w})
	} else {
		w.taken(m, svid.KeeperLog, nil)
	}
	if w.write = (&Write{Uses: uses, by: w}); m.Journal != nil {
		m.keep(w.write)
	} else {
		w.taken(m, svid.KeeperDisk, nil)
	}
}

// landed: the log has the withdrawal, or not.
func (w *Withdraw) landed(m *Machine, p *Put) {
	switch {
	case w.answered:
	case p.Err != nil:
		w.taken(m, svid.KeeperLog, faultAt(svid.KeeperLog, p.Err))
	case p.AtErr != nil:
		w.taken(m, svid.KeeperLog, fmt.Errorf("whether the group takes it is unknown; try again: %w", p.AtErr))
	default:
		w.taken(m, svid.KeeperLog, m.isHeard(w.Use, p.At))
	}
}

// Stored: the effect WithdrawAtStore is done.
type Stored struct{ *StoreWithdraw }

func (s Stored) happen(m *Machine) {
	if s.Err != nil {
		s.by.taken(m, svid.KeeperStore, faultAt(svid.KeeperStore, s.Err))
		return
	}
	if !s.by.answered {
		s.by.UsedBy = s.Owner
	}
	s.by.taken(m, svid.KeeperStore, nil)
}

// taken: a keeper has the withdrawal, or err says why not.
func (w *Withdraw) taken(m *Machine, keeper svid.Keeper, err error) {
	if w.answered {
		return
	}
	w.faults[keeper] = err
	made, ended, fault := m.validator.WithdrawalTold(w.number, keeper, err == nil)
	if fault == nil && ended {
		m.withdrawalEnded(made)
	}
}

// withdrawalEnded answers a withdrawal that waits for no keeper any more.
func (m *Machine) withdrawalEnded(made svid.Reached) {
	w := m.withdrawals[made.Number]
	if w == nil {
		return
	}
	delete(m.withdrawals, made.Number)
	var fault error
	for keeper, ok := range [...]bool{svid.KeeperDisk: made.Disk, svid.KeeperStore: made.Store, svid.KeeperLog: made.Log} {
		err := w.faults[keeper]
		if !ok && err == nil {
			err = m.lateAt(w, svid.Keeper(keeper))
		}
		switch {
		case ok:
		case fault == nil:
			fault = fmt.Errorf("withdrawn here, but %w", err)
		default:
			fault = fmt.Errorf("%w, and %v", fault, err)
		}
	}
	if fault == nil {
		m.metrics.Withdrawals.Add(1)
		m.Log.Event("withdrawn", "key", w.Key.String(), "exp", w.Expires)
	}
	m.answer(&w.Call, fault)
}

// lateAt is why a keeper does not have a withdrawal that has said nothing in time.
func (m *Machine) lateAt(w *Withdraw, keeper svid.Keeper) error {
	if keeper == svid.KeeperDisk {
		m.untaken(w.write)
		return faultAt(keeper, errDisk)
	}
	return faultAt(keeper, context.DeadlineExceeded)
}

// faultAt is why a keeper does not have a withdrawal.
func faultAt(keeper svid.Keeper, err error) error {
	switch keeper {
	case svid.KeeperDisk:
		return &notKept{"withdrawal", err}
	case svid.KeeperStore:
		return fmt.Errorf("the store did not take it; try again: %w", err)
	}
	return fmt.Errorf("the group was not told; try again: %w", err)
}
