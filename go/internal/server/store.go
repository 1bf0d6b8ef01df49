package server

import (
	"time"

	"svid.example/go/v3/claims"
	"svid.example/go/v3/svid"
)

// StoreOpened: the group's store was reached, and agrees on the terms.
type StoreOpened struct{ State claims.State }

func (o StoreOpened) happen(m *Machine) {
	m.known.Opened = true
	Looked{State: o.State}.happen(m)
}

// Looked: the store said what it is.
type Looked struct{ State claims.State }

func (l Looked) happen(m *Machine) {
	before := m.state
	if m.state = l.State; before.Epoch != "" && before.Epoch != l.State.Epoch {
		m.metrics.Epochs.Add(1)
		m.Log.Error("epoch", ErrLost, "epoch", l.State.Epoch, "before", before.Epoch, "until", l.State.Deaf,
			"why", "of tokens that expire by then, none is accepted: one of them may have been used")
	}
	m.know()
}

// Heard has withdrawals that the store told of. Whole says that there are no more at the moment.
type Heard struct {
	These []claims.Withdrawal
	Whole bool
	Err   error // why the record did not take one: it is to come again
}

func (h *Heard) happen(m *Machine) {
	if h.Err = m.hear(h.These); h.Err == nil && h.Whole {
		m.known.Heard, m.heard = true, m.now
		m.know()
	}
}

// hears says whether the withdrawals of the store were read a short while ago.
func (m *Machine) hears() bool { return m.now.isWithin(tickEvery+m.Wait, m.heard) }

// hear adds withdrawals of others to the record, and brings them to the disk.
func (m *Machine) hear(these []claims.Withdrawal) error {
	for _, w := range these {
		if m.withdrawn.has(w.Key, w.Expires) {
			continue
		}
		use, err := m.withdraw(w.Key, w.Expires)
		if err == svid.ErrGone {
			continue // The token has expired.
		}
		if err != nil {
			return err
		}
		m.keepSoon(use)
	}
	return nil
}

// withdraw adds a withdrawal to the record.
func (m *Machine) withdraw(key svid.TokenKey, expires uint64) (svid.Use, error) {
	use, err := m.validator.Withdraw(m.now.Wall, key, expires)
	if err == nil && m.Stored {
		m.withdrawn.add(m.now.Wall, key, expires)
	}
	return use, err
}

// withdrawnTokens are the withdrawals that this process added to the record, each with the latest expiry that was given for its token. So one that
// the store tells of many times stands in the record once, and one that is to last longer than those before it counts.
type withdrawnTokens struct {
	until map[svid.TokenKey]uint64
	full  int // so many are kept before those that have expired are dropped
}

// leastWithdrawn is how many are kept in any case.
const leastWithdrawn = 1 << 10

func (w *withdrawnTokens) has(key svid.TokenKey, expires uint64) bool {
	until, is := w.until[key]
	return is && until >= expires
}

func (w *withdrawnTokens) add(now uint64, key svid.TokenKey, expires uint64) {
	if w.has(key, expires) {
		return
	}
	if len(w.until) >= w.full {
		for key, until := range w.until {
			if until <= now {
				delete(w.until, key)
			}
		}
		w.full = 2*len(w.until) + leastWithdrawn
	}
	w.until[key] = expires
}

// A StoreWithdraw is a withdrawal on its way to the store.
type StoreWithdraw struct {
	claims.Withdrawal
	Within time.Duration // how long anybody waits for it

	// What the effect WithdrawAtStore is to say.
	Owner claims.Owner // as claims.Store has it
	Err   error        // why the store does not have it. It may have it all the same

	by *Withdraw
}
