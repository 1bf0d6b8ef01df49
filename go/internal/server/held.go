package server

import (
	"strings"
	"sync/atomic"

	"svid.example/go/v3/claims"
	"svid.example/go/v3/svid"
)

// A heldToken is a known token that the library keeps open: it was read once, and so was what its key signed. That is no verdict, and says nothing
// that the token does not say. Requests with the token share it. It is closed once it has made room for another, and no request uses it. (Only a token
// of its hash is compared with it, so no time says how much of a token somebody has guessed.)
type heldToken struct {
	token svid.Token   // is given to calls under the engine's lock alone
	key   *svid.Key    // that made its signature
	claim claims.Claim // of it, without an owner
	hash  uint64       // of its text
	users atomic.Int32 // the requests that use it, and the table

	// In mode bound, guarded by the engine's lock: what the store answered to the claim of this caller, whose the token is; zeros where that is not known.
	known  svid.KnownClaim
	caller [32]byte
	denied uint64 // as claimQueue.denied was then

	// Guarded by the mutex of the table.
	at    int  // its place
	asked bool // it was asked for since the hand was there
}

const (
	// mostHeld is how many tokens are held.
	mostHeld = 1 << 12
	// mostHeldLen is how many bytes such a token may have. It is there as it came, as what was read of it, and as what is compared with a key.
	mostHeldLen = 1 << 11
)

// newHeld returns a token that one request uses, and that is to be held if it is accepted. One that is too long is nil.
func newHeld(hash uint64, token string) *heldToken {
	if len(token) > mostHeldLen {
		return nil
	}
	h := &heldToken{token: svid.NewToken(strings.Clone(token)), hash: hash} // (The text may be part of a longer one.)
	h.users.Store(1)
	return h
}

// letGo says that one does not use it any more.
func (h *heldToken) letGo() {
	if h != nil && h.users.Add(-1) == 0 {
		h.token.Close()
	}
}

// heldTokens are the tokens that are held, by their hashes. Where there is no room, one makes room that nobody asked for while the hand went round.
type heldTokens struct {
	of    map[uint64]*heldToken
	round []*heldToken // nil in a place that is free
	hand  int
}

// get returns the held token of a hash for one more user, if there is one.
func (h *heldTokens) get(hash uint64) *heldToken {
	one := h.of[hash]
	if one != nil {
		one.asked = true
		one.users.Add(1)
	}
	return one
}

// add holds a token, unless one of its hash is held. Whoever calls it lets go the one that made room.
func (h *heldTokens) add(one *heldToken) (gone *heldToken) {
	if h.of[one.hash] != nil {
		return nil
	}
	if h.of == nil {
		h.of = make(map[uint64]*heldToken)
	}
	if len(h.round) < mostHeld {
		h.round = append(h.round, nil)
		one.at = len(h.round) - 1
	} else {
		one.at = h.free()
		if gone = h.round[one.at]; gone != nil {
			delete(h.of, gone.hash)
		}
	}
	one.users.Add(1)
	h.of[one.hash], h.round[one.at] = one, one
	return gone
}

// free is the next place that is free, or whose token nobody has asked for.
func (h *heldTokens) free() (at int) {
	for {
		at = h.hand
		h.hand = (h.hand + 1) % len(h.round)
		one := h.round[at]
		if one == nil || !one.asked {
			return at
		}
		one.asked = false
	}
}

// drop takes out the token of a hash. Whoever calls it lets it go.
func (h *heldTokens) drop(hash uint64) (gone *heldToken) {
	if gone = h.of[hash]; gone != nil {
		delete(h.of, hash)
		h.round[gone.at] = nil
	}
	return gone
}

// letGo lets go all of them. Nobody asks for one any more.
func (h *heldTokens) letGo() {
	for _, one := range h.round {
		one.letGo()
	}
}
