package server

import (
	"context"
	"errors"
	"fmt"
	"time"

	"svid.example/go/v3/svid"
)

// keepPause is between two writes for which no answer waits: what comes meanwhile shares the next one.
const keepPause = 20 * time.Millisecond

const (
	// mostUnkept is how many uses may wait for the disk after their answers.
	mostUnkept = 1 << 19
	// mostAtOnce is how many of them one write takes.
	mostAtOnce = 1 << 17
)

var errUnkept = errors.New("the state folder is too slow: uses are kept by the group's store alone")

// errMoved: in mode once every token would be answered 503, until a restart.
var errMoved = errors.New("the state folder is no longer at its path: the log says why")

var errDisk = fmt.Errorf("the disk did not answer in time: %w", context.DeadlineExceeded)

// A Write is uses that are to come to the disk.
type Write struct {
	Uses   []svid.Use
	Within time.Duration // how long anybody waits for it

	// What the effect Append is to say.
	Err  error // why it is not on the disk. It may be there all the same, or come there later
	Size int64 // how many bytes the state folder has beside its snapshot

	number uint64    // of the request that it is for
	asked  bool      // it is for a request
	by     *Withdraw // that it is for, or nil
	missed bool      // it is counted as one that the disk did not take
}

// writeOf is the write of a request. A disk that hangs may keep it for long, so nothing but the use belongs to it.
func writeOf(deed svid.Deed) *Write {
	w := new(struct {
		Write
		use [1]svid.Use
	})
	w.use[0] = deed.Used
	w.Uses, w.number, w.asked = w.use[:], deed.Number, true
	return &w.Write
}

// request is the number of the request that a write is for, if it is for one.
func (w *Write) request() uint64 {
	if w.asked {
		return w.number
	}
	return svid.NoRequest
}

// Kept: the effect Append is done.
type Kept struct{ *Write }

// A keeper is what is to come to the disk.
type keeper struct {
	uses   []svid.Use    // for which no answer waits
	busy   *Write        // some of them, on their way
	due    time.Duration // when the next ones are to be brought there
	faults seldom

	unkept *Write // what the state folder did not take last, nil where it takes all
	again  *Write // on its way once more
	of     *Write // what that was before

	size   int64         // bytes that the state folder has beside the snapshot
	saved  int64         // the length of the last snapshot
	saving bool          // a snapshot is being taken
	rest   time.Duration // after one that failed, no other begins before this, by Time.Up
}

// keep brings uses to the disk.
func (m *Machine) keep(w *Write) {
	w.Within = m.Wait
	m.do(Append{w})
}

// The member hears of each write, whose request may be answered meanwhile.
func (k Kept) happen(m *Machine) {
	w := k.Write
	m.keeper.size = w.Size
	switch {
	case w == m.keeper.again:
		m.keptAgain(w)
		return
	case w.Err != nil:
		m.untaken(w)
	default:
		m.keeper.unkept = nil
		m.wrote(w, true)
	}
	switch {
	case w == m.keeper.busy:
		m.keptSoon(w.Err)
	case w.by != nil && w.Err != nil:
		w.by.taken(m, svid.KeeperDisk, faultAt(svid.KeeperDisk, w.Err))
	case w.by != nil:
		w.by.taken(m, svid.KeeperDisk, nil)
	}
}

// untaken: the disk did not take a write, or not in time.
func (m *Machine) untaken(w *Write) {
	if !w.missed {
		w.missed = true
		m.metrics.JournalFailures.Add(1)
	}
	m.keeper.unkept = w
	m.wrote(w, false)
}

// wrote tells the member what became of a write.
func (m *Machine) wrote(w *Write, ok bool) {
	if deed, err := m.validator.Wrote(m.now.Up, w.request(), ok); err == nil {
		m.carryOut(deed)
	}
}

// keepAgain gives the state folder once more what it did not take. So Ready answers yes again once it takes all, though
// nobody sends tokens to who is not ready.
func (m *Machine) keepAgain() {
	k := &m.keeper
	if k.unkept != nil && k.again == nil {
		k.of = k.unkept
		k.again = &Write{Uses: k.of.Uses, number: k.of.number, asked: k.of.asked}
		m.keep(k.again)
	}
}

func (m *Machine) keptAgain(w *Write) {
	k := &m.keeper
	if k.again = nil; w.Err == nil && k.unkept == k.of {
		k.unkept = nil
		m.wrote(w, true)
	}
	k.of = nil
}

// keepSoon brings uses to the disk, where there is a state folder, and no answer waits for that. Those that come while
// others are on their way share the next write.
func (m *Machine) keepSoon(uses ...svid.Use) {
	if m.Journal == nil || len(uses) == 0 {
		return
	}
	k := &m.keeper
	if len(k.uses)+len(uses) > mostUnkept {
		m.metrics.JournalFailures.Add(1)
		m.seldom("journal", errUnkept)
		return
	}
	k.uses = append(k.uses, uses...)
	if k.due == never {
		m.keepNext()
	}
}

// keepNext brings the next uses to the disk.
func (m *Machine) keepNext() {
	k := &m.keeper
	k.due = never
	if k.busy != nil || len(k.uses) == 0 {
		return
	}
	uses := k.uses
	if len(uses) > mostAtOnce {
		uses = uses[:mostAtOnce:mostAtOnce]
	}
	if k.uses = k.uses[len(uses):]; len(k.uses) == 0 {
		k.uses = nil
	}
	k.busy = &Write{Uses: uses}
	m.keep(k.busy)
}

// keptSoon ends a write for which no answer waits.
func (m *Machine) keptSoon(err error) {
	if err != nil {
		m.seldom("journal", &notKept{"acceptance", err})
	}
	m.keeper.busy, m.keeper.due = nil, m.now.Up+keepPause
}

// seldom logs an error of something that is tried again and again.
func (m *Machine) seldom(event string, err error) {
	m.keeper.faults.log(m.now.Up, m.Log, event, err)
}

// isKeeping says whether something is on its way to the disk for which nobody waits.
func (m *Machine) isKeeping() bool {
	k := &m.keeper
	return k.busy != nil || len(k.uses) > 0
}
