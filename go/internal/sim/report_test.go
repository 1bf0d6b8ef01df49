package sim

import (
	"errors"
	"fmt"
	"strings"
	"time"

	"svid.example/go/v3/claims"
	"svid.example/go/v3/internal/server"
	"svid.example/go/v3/svid"
)

// A report is what is said about a run.
type report struct {
	failure  string // what happened that may not; "" for nothing
	kind     string // of that
	accepted map[svid.TokenKey][]acceptance
	answers  map[string]int // how often each answer was given

}

// An acceptance is a 200.
type acceptance struct {
	by     *member
	caller int
	at     time.Duration
}

// fail says what happened that may not. The first time counts.
func (w *world) fail(format string, args ...any) {
	if w.report.failure == "" {
		w.report.failure, w.report.kind = fmt.Sprintf(format, args...), format
		w.tell("FAILURE: %s", w.report.failure)
	}
}

// An ask is a request of a client, or a withdrawal.
type ask struct {
	l         *life
	token     *token
	caller    int
	request   *server.Request
	withdraw  *server.Withdraw
	at        time.Duration
	set       int    // of the bundles by which it was verified
	rules     int    // that counted then
	wall      uint64 // what the clock showed then
	withdrawn bool   // it was withdrawn there before
	done      bool
	gone      bool // the client went away
}

// most is how long a request may take: the verification, the pause before its claim goes out, and the wait; and all that ticks
// is late by some milliseconds.
const most = wait + 50*time.Millisecond

// String names a token in a report. (Most runs have no report, so names are made only where one is written.)
func (t *token) String() string {
	return fmt.Sprintf("token %x of issuer %d (until %+d)", t.key[:3], t.issuer, int64(t.expires)-base)
}

// names print as the list of these uses in a report.
type names []svid.Use

func (uses names) String() string {
	var all []string
	for _, use := range uses {
		what := "use"
		if use.Withdrawn {
			what = "withdrawal"
		}
		all = append(all, fmt.Sprintf("%s of %x by %d at %+d", what, use.Key[:3], use.ValidatorID[0], int64(use.At)-base))
	}
	return strings.Join(all, ", ")
}

// caller is one of those that send tokens, as a machine knows it.
func caller(number int) (digest [32]byte) {
	digest[0] = byte(number)
	return digest
}

// unheard is for how long after a withdrawal a member may accept a token whose owner the store named before: it reads the withdrawals each
// second, and asks the store again where it could not read them for as long as a request waits.
const unheard = time.Second + wait

// mayMiss says whether a member that has read no withdrawal of a token may accept the token's owner still. If the store lost the withdrawal with its
// epoch, nobody can read it any more (docs/STORES.md, "What all stores have in common").
func (w *world) mayMiss(one gone) bool { return w.now <= one.at+unheard || w.store.lost > one.lost }

// has says whether the store has named that caller to this life in mode bound, as the token's owner.
func (l *life) has(one *token, by int) bool {
	first, is := l.callers[one.key]
	return is && first == by
}

// refused looks at the refusal of another caller in mode bound: the store has named the owner then, whom the life keeps in mind. (A token may have had
// several owners, each in an epoch of its own: then this says nothing.)
func (a *ask) refused() {
	owners := a.l.w.store.ever[a.token.key]
	if _, known := a.l.callers[a.token.key]; known || len(owners) != 1 {
		return
	}
	for by := 0; by < callers; by++ {
		if owners[a.l.ownerOf(a.token, by)] {
			a.l.callers[a.token.key] = by
		}
	}
}

// ask lets a caller send a token to a member. It goes away after a while, if that is more than 0.
func (m *member) ask(one *token, by int, gives time.Duration) *ask {
	l := m.life
	if l == nil || l.ending {
		return nil
	}
	a := &ask{l: l, token: one, caller: by, at: m.w.now, request: server.NewRequest(one.text)}
	a.request.Caller = caller(by)
	_, a.withdrawn = m.withdrawn[one.key]
	if _, heard := l.heard[one.key]; heard {
		a.withdrawn = true
	}
	if gone, done := m.w.store.gone[one.key]; done && gone.by != l.ownerOf(one, a.caller) && !(l.has(one, by) && m.w.mayMiss(gone)) {
		a.withdrawn = true
	}
	if m.knows(one) { // (as an engine does, which verifies no such token)
		a.set, a.rules, a.wall = l.set, l.rules, m.wall()
		a.request.Key, _ = m.w.pool.verify(l.set, one)
	}
	l.asks[&a.request.Call] = a
	m.w.tell("%v: is asked about %s by caller %d", m, one, by)
	l.step(a.request)
	if gives > 0 && m.w.claims() {
		m.w.after(gives, func() {
			if !l.dead && !a.done {
				a.gone = true
				l.step(server.Gone{Request: a.request, Why: errors.New("the client has gone away")})
			}
		})
	}
	m.w.after(most, func() {
		if !l.dead && !a.done {
			m.w.fail("%v: no answer within %v about %s", m, most, one)
		}
	})
	return a
}

// knows says whether the key is known that made the signature of a token, since the member has accepted it, and may accept it again.
func (m *member) knows(one *token) bool {
	if m.w.plan.mode != server.Bound && m.w.plan.mode != server.Reuse {
		return false
	}
	for _, other := range m.w.report.accepted[one.key] {
		if other.by == m {
			return true
		}
	}
	return false
}

// claims says whether a token is claimed in the store before it is accepted.
func (w *world) claims() bool { return w.plan.mode == server.Strict || w.plan.mode == server.Bound }

// ownerOf is for whom a life claims a token that this caller sends.
func (l *life) ownerOf(one *token, by int) claims.Owner {
	if l.w.plan.mode == server.Bound {
		return svid.OwnerOfCaller(caller(by), one.expires)
	}
	return svid.OwnerOfLife(l.m.id, l.name, one.expires)
}

// withdraw withdraws a token at a member.
func (m *member) withdraw(one *token) {
	l := m.life
	if l == nil || l.ending {
		return
	}
	a := &ask{l: l, token: one, at: m.w.now, withdraw: &server.Withdraw{Key: one.key, Expires: one.expires}}
	l.asks[&a.withdraw.Call] = a
	m.w.tell("%v: is to withdraw %s", m, one)
	l.step(a.withdraw)
	if use := a.withdraw.Use; use != (svid.Use{}) { // (from here on no token is accepted that comes later)
		if _, is := l.heard[use.Key]; !is {
			l.heard[use.Key] = m.w.now
		}
	}
	m.w.after(2*most, func() {
		if !l.dead && !a.done {
			m.w.fail("%v: no answer to a withdrawal", m)
		}
	})
}

// answered looks at an answer.
func (a *ask) answered(err error) {
	w, m := a.l.w, a.l.m
	a.done = true
	if a.withdraw != nil {
		w.tell("%v: withdrawn %s: %v", m, a.token, err)
		if err == nil {
			m.withdrawn[a.token.key] = w.now
			if m.disk != nil && !m.kept[a.withdraw.Use] {
				w.fail("%v: a withdrawal is done that is not on the disk", m)
			}
			// (Where the store has a claim of it, the answer says whose: its one acceptance is that life's, now or before. In mode bound that caller goes on
			// to be accepted where nobody has heard of the withdrawal yet, and no other one is. So does one whose claim the store has lost, for a while,
			// at a member to which the store had named it.)
			before, is := w.store.gone[a.token.key]
			if lost := w.store.told[a.token.key]; w.claims() && (!is || lost > before.lost) { // (one that was lost can be made again)
				w.store.gone[a.token.key] = gone{a.withdraw.UsedBy, w.now, lost}
			}
			// (Without a disk, a member has it for as long as it lives, or the group has it.)
		}
		return
	}
	w.tell("%v: answers %s: %v", m, a.token, err)
	if d := w.now - a.at; d > most {
		w.fail("%v: an answer took %v: %v", m, d, err)
	}
	if err != nil {
		w.report.answers[word(err)]++
		if w.plan.mode == server.Bound && errors.Is(err, svid.Replayed) {
			a.refused()
		}
		return
	}
	w.report.answers["accepted"]++
	a.accepted()
}

// word is an answer in a word.
func word(err error) string {
	var refusal svid.Refusal
	switch {
	case errors.As(err, &refusal):
		return refusal.String()
	case errors.Is(err, server.ErrNotReady):
		return "not ready"
	case errors.Is(err, server.ErrNotAllowed):
		return "not allowed"
	case errors.Is(err, server.ErrLost):
		return "lost"
	case errors.Is(err, svid.ErrJump):
		return "jump"
	}
	return "unavailable"
}

// accepted looks at a 200.
func (a *ask) accepted() {
	l, w, m := a.l, a.l.w, a.l.m
	one, got := a.token, a.request.Accepted
	if w.plan.mode == server.Bound {
		l.callers[one.key] = a.caller
	}
	if got.ID != "spiffe://example.org/web" || got.Use.Key != one.key || got.Use.Expires != one.expires || got.Use.ValidatorID != m.id {
		w.fail("%v: another token was accepted: %+v", m, got)
	}
	set := a.set
	by := a.rules
	if w.claims() { // (judged again as its claim was answered)
		set, by = l.set, l.rules
	}
	if by > 1 {
		w.fail("%v: %s is accepted by rules that do not allow it", m, one)
	}
	if set != one.issuer {
		w.fail("%v: %s is accepted by the keys of another issuer", m, one)
	}
	if a.wall >= one.expires {
		w.fail("%v: %s is accepted, and has expired", m, one)
	}
	if a.withdrawn {
		w.fail("%v: %s is accepted after its withdrawal", m, one)
	}
	before := w.report.accepted[one.key]
	for _, other := range before {
		switch w.plan.mode {
		case server.Strict:
			w.fail("%s is accepted by %v at %v and by %v", one, other.by, other.at, m)
		case server.Once:
			if other.by == m {
				w.fail("%s is accepted twice by %v, before at %v", one, m, other.at)
			}
		case server.Bound:
			if other.caller != a.caller {
				w.fail("%s is accepted from caller %d by %v at %v, and from caller %d by %v", one, other.caller, other.by, other.at, a.caller, m)
			}
		}
	}
	w.report.accepted[one.key] = append(before, acceptance{m, a.caller, w.now})
	switch w.plan.mode {
	case server.Strict, server.Bound:
		if !w.store.ever[one.key][l.ownerOf(one, a.caller)] {
			w.fail("%v: %s is accepted, and the store did not have its claim", m, one)
		}
	case server.Once:
		if m.disk != nil && !m.kept[got.Use] {
			w.fail("%v: %s is accepted, and the disk does not have its use", m, one)
		}
	}
}
