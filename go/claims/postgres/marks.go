package postgres

import (
	"sort"

	"svid.example/go/v3/claims"
)

const (
	recent    = mostCalls // marks of the last calls, whose order at the server may be another one: so many are under way together
	mostMarks = 64        // each look asks for all of them
)

// marks are claims that were answered to be there: the last ones that a call stored, and in front of them those that outlive all that came
// later. What is lost at the end of a history is the last one or more of all claims, so one of the marks is lost too, while it has not expired.
type marks struct{ all []claims.Claim }

// found adds one that an earlier call had stored, whose answer may not have come. Its order at the server is not known.
func (m *marks) found(one claims.Claim) {
	for _, it := range m.all {
		if it.Key == one.Key {
			return
		}
	}
	older := len(m.all) - recent
	if older < 0 {
		older = 0
	}
	if older == mostMarks-recent {
		older--
		m.all = append(m.all[:older], m.all[older+1:]...)
	}
	at := sort.Search(older, func(n int) bool { return m.all[n].Expires < one.Expires })
	m.all = append(m.all, one)
	copy(m.all[at+1:], m.all[at:])
	m.all[at] = one
}

// add adds one that a call stored.
func (m *marks) add(one claims.Claim) {
	m.all = append(m.all, one)
	n := len(m.all) - recent
	if n <= 0 {
		return
	}
	older := n - 1 // of these, each one outlives the next
	for older > 0 && m.all[older-1].Expires <= m.all[n-1].Expires {
		older--
	}
	if older == mostMarks-recent {
		older-- // The one before it in time says nearly as much.
	}
	m.all = append(m.all[:older], m.all[n-1:]...)
}

// drop drops what has expired so long ago that the store removes it.
func (m *marks) drop(now, margin uint64) {
	kept := m.all[:0]
	for _, one := range m.all {
		if one.Expires > latest || one.Expires+margin >= now {
			kept = append(kept, one)
		}
	}
	m.all = kept
}
