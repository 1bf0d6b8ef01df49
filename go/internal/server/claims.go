package server

import (
	"time"

	"svid.example/go/v3/claims"
	"svid.example/go/v3/svid"
)

// A Batch is claims that go to the store in one call: the effect PutClaims puts them, and sets Found.
type Batch struct {
	Claims []claims.Claim
	Found  []claims.Found
	Within time.Duration // how long anybody waits for it

	requests []*Request // those that the claims are of
}

// has says whether a claim of the batch is this request's.
func (b *Batch) has(r *Request) bool {
	for _, one := range b.requests {
		if one == r {
			return true
		}
	}
	return false
}

// Claimed: the effect PutClaims is done.
type Claimed struct{ *Batch }

// A claimQueue has the claims that are to be put. When a call goes out, the library says.
type claimQueue struct {
	pacing  *svid.Pacing
	waiting []*Request // these wait for a call; some may be answered by then
	later   []retry    // these had no answer
	known   knownClaims
	denied  uint64 // counts answers that denied a claim
}

// A retry is requests whose claims are put again at a time.
type retry struct {
	at       time.Duration
	requests []*Request
}

// take takes out as many claims as a call may have.
func (c *claimQueue) take() (these []*Request) {
	if these = c.waiting; len(these) <= claims.MostClaims {
		c.waiting = nil
		return these
	}
	c.waiting = these[claims.MostClaims:]
	return these[:claims.MostClaims]
}

// putAgain lets the claims wait for a call whose pause is over.
func (c *claimQueue) putAgain(now time.Duration) {
	later := c.later
	c.later = nil
	for _, one := range later {
		if one.at > now {
			c.later = append(c.later, one)
		} else {
			c.waiting = append(c.waiting, one.requests...)
		}
	}
}

// due is when a call is to go out next, where claims wait.
func (c *claimQueue) due() time.Duration {
	due := never
	if len(c.waiting) > 0 {
		if at, any := c.pacing.Due(); any {
			due = at
		}
	}
	for _, one := range c.later {
		if one.at < due {
			due = one.at
		}
	}
	return due
}

// openClaim lets the claim of a request wait for a call, unless the store has said before whose the token is: it stays that.
func (m *Machine) openClaim(r *Request, use svid.Use) {
	r.claim = claims.Claim{Key: use.Key, Expires: use.Expires}
	one, isOld, known := m.claims.known.of(&r.claim)
	if known && one.mine && one.caller == r.Caller {
		r.claim.Owner = one.found.Owner
	} else {
		r.claim.Owner = m.ownerOf(r, use.Expires)
	}
	if isOwn := one.found.Owner == r.claim.Owner; known && (!isOwn || m.hears()) {
		r.isKept = !isOld && (one.mine || !isOwn)
		m.found(r, one.found)
		return
	}
	r.stage = claiming
	m.claims.waiting = append(m.claims.waiting, r)
}

// knownClaim is what the store answered before to a claim of a token that is held, by the same caller, whose the token is; zeros where that is not known.
// The held token keeps it until a claim is denied: that may be an answer to the same claim, after the store lost entries.
func (m *Machine) knownClaim(r *Request) *svid.KnownClaim {
	if m.Mode != Bound || !r.recalled.isHeld || !m.hears() {
		return &noClaim
	}
	h := r.recalled.held
	if h.known.Expires == 0 || h.caller != r.Caller || h.denied != m.claims.denied {
		one, _, ok := m.claims.known.of(&h.claim)
		if !ok || !one.mine || one.caller != r.Caller {
			return &noClaim
		}
		h.known = svid.KnownClaim{Key: h.claim.Key, Expires: h.claim.Expires, Found: one.found}
		h.caller, h.denied = r.Caller, m.claims.denied
	}
	return &h.known
}

var noClaim svid.KnownClaim

// ownerOf is for whom the token of a request is claimed: for this life, and in mode bound for the caller.
func (m *Machine) ownerOf(r *Request, expires uint64) claims.Owner {
	if m.Mode == Bound {
		return svid.OwnerOfCaller(r.Caller, expires)
	}
	return svid.OwnerOfLife(m.ValidatorID, m.Life, expires)
}

// sendClaims puts the claims that are to go out now.
func (m *Machine) sendClaims() {
	c := &m.claims
	if len(c.later) > 0 {
		c.putAgain(m.now.Up)
	}
	for len(c.waiting) > 0 && c.pacing.MaySend(m.now.Up, len(c.waiting)) {
		b := &Batch{Within: m.Wait}
		for _, r := range c.take() {
			if deed, _ := m.validator.Send(m.now.Up, r.number); deed.Kind != svid.DeedClaim { // It is answered, or is now.
				m.carryOut(deed)
				continue
			}
			b.Claims, b.requests = append(b.Claims, r.claim), append(b.requests, r)
		}
		if b.Found = make([]claims.Found, len(b.Claims)); len(b.Claims) > 0 {
			c.pacing.Sent(m.now.Up)
			m.do(PutClaims{b})
		}
	}
}

// Claims were answered, or not. Whoever was late, or left, has its answer already.
func (b Claimed) happen(m *Machine) {
	answered, again := false, []*Request(nil)
	for i, r := range b.requests {
		found := &b.Found[i]
		answered = answered || found.Err == nil
		switch {
		case r.answered:
		case found.Err == nil:
			m.found(r, svid.Found{Owner: found.Owner, Time: found.Time, Deaf: found.Deaf})
		default:
			r.fault = found.Err
			again = append(again, r)
		}
	}
	end := m.claims.pacing.Unanswered
	if answered {
		end = m.claims.pacing.Answered
	}
	if pause := end(); len(again) > 0 {
		m.claims.later = append(m.claims.later, retry{m.now.Up + pause, again})
	}
}

// found tells the member what the store answered to the claim of a request.
func (m *Machine) found(r *Request, found svid.Found) {
	accepted, deed, err := m.validator.Found(m.now.Wall, m.now.Up, r.number, r.Caller, found, r.reading())
	lost := err == svid.Replayed && found.Owner != r.claim.Owner
	switch {
	case lost && m.Mode == Bound: // (The owner is a digest, and names nobody.)
		r.Other = true
	case lost:
		r.Owner = found.Owner.ValidatorID()
	}
	if !r.isKept && (lost || m.Mode == Bound && (err == nil || err == svid.ErrClaimDeaf)) {
		m.claims.known.add(m.now.Up, svid.KnownClaim{Key: r.claim.Key, Expires: r.claim.Expires, Found: found}, r.Caller, !lost)
	}
	if !r.isKept && err != nil {
		m.claims.denied++
	}
	m.judged(r, accepted, deed, err)
}

// count counts a claim that has ended.
func (m *Machine) count(err error) {
	switch _, refused := refusalOf(err); {
	case err == nil:
		m.metrics.ClaimsWon.Add(1)
	case refused, err == ErrNotAllowed:
		m.metrics.ClaimsLost.Add(1)
	default:
		m.metrics.ClaimsFailed.Add(1)
	}
}

// knownClaims are what the store answered to claims of tokens that others have claimed, and in mode bound to those of a token's owner too. The entry
// of a token stays until the token has expired, so the next request with it asks no store, whoever makes it: the library takes any answer to a put of
// the token's key. Whether the token was withdrawn since is read from the store's list, so an owner is asked about again while nobody reads that.
type knownClaims struct {
	generations[svid.TokenKey, knownClaim]
	turned time.Duration
}

type knownClaim struct {
	expires uint64
	found   svid.Found
	caller  [32]byte // who asked
	mine    bool     // the token is that caller's
}

const (
	// mostKnown is how many there are in a generation.
	mostKnown = 1 << 16
	// knownFor is for how long a generation grows.
	knownFor = time.Minute
)

// add keeps what the store answered to this caller's claim. mine says that the token is the caller's.
func (k *knownClaims) add(now time.Duration, one svid.KnownClaim, caller [32]byte, mine bool) {
	if len(k.young) >= mostKnown || now-k.turned > knownFor && len(k.young) > 0 {
		k.turn()
		k.turned = now
	}
	k.put(one.Key, knownClaim{expires: one.Expires, found: one.Found, caller: caller, mine: mine})
}

// of is what is known of a claim. isOld says that it goes soon, unless it is added again.
func (k *knownClaims) of(claim *claims.Claim) (one knownClaim, isOld, known bool) {
	one, isOld, known = k.find(claim.Key)
	return one, isOld, known && one.expires == claim.Expires
}
