package server

import (
	"fmt"
	"sort"
	"time"

	"svid.example/go/v3/carriers"
	"svid.example/go/v3/svid"
)

const (
	// mostUntold is how many uses may wait to be told. After that they are dropped
	// and counted: the group's summaries bring them later.
	mostUntold = 1 << 16
	// tellPause is between two values that tell the group of uses: those that come meanwhile share the next one.
	tellPause = time.Millisecond
	// mostTold is how many uses share a value. It has 33 kB then: each broker takes that.
	mostTold = 512
	// tellWait is how long the group is tried for one value.
	tellWait = 10 * time.Second
	// mostEarly is how many seconds ahead a withdrawal may be to be sent again.
	mostEarly = 7 * 24 * 3600
)

// A Put is a value that is to stand in the group's log.
type Put struct {
	Kind   carriers.Kind
	Number uint64
	Uses   []svid.Use
	Within time.Duration // how long it is tried
	Timed  bool          // whether it is to be known when the log's server stored it

	// What the effect Send is to say.
	Err   error  // why it is not stored. It may be, all the same, now or later
	At    uint64 // when it was stored, by the server's clock, in seconds
	AtErr error  // why that is unknown

	by *Withdraw // that it is for; nil where it tells of uses
}

// Landed: the effect Send is done.
type Landed struct{ *Put }

// put sends a value with a number of its own.
func (m *Machine) put(p *Put) {
	m.tale.values++
	p.Number = m.tale.values
	m.do(Send{p})
}

func (l Landed) happen(m *Machine) {
	if l.by != nil {
		l.by.landed(m, l.Put)
	} else if l.Put == m.tale.told { // (else it was given up)
		m.toldOf(l.Put)
	}
}

// A tale is what the group is to be told.
type tale struct {
	values uint64        // numbers of the values put into the group's bucket, except for claims
	untold []svid.Use    // these wait
	told   *Put          // these are on their way
	due    time.Duration // when the next ones are to go out
	later  []telling     // these are to be told again, in the order of their moments
}

type telling struct {
	use svid.Use
	at  time.Duration
}

// tell lets the group hear of a use, soon.
func (m *Machine) tell(use svid.Use) {
	if !m.Grouped {
		return
	}
	t := &m.tale
	if len(t.untold) >= mostUntold {
		m.metrics.Untold.Add(1)
		return
	}
	t.untold = append(t.untold, use)
	if t.due == never {
		m.tellNext()
	}
}

// tellNext tells the group of the uses that wait for it, many by one value.
func (m *Machine) tellNext() {
	t := &m.tale
	t.due = never
	if !m.runs || t.told != nil || len(t.untold) == 0 {
		return
	}
	uses := t.untold
	if len(uses) > mostTold {
		uses = uses[:mostTold:mostTold]
	}
	if t.untold = t.untold[len(uses):]; len(t.untold) == 0 {
		t.untold = nil
	}
	t.told = &Put{Kind: carriers.Uses, Uses: uses, Within: tellWait}
	m.put(t.told)
}

// toldOf ends a value that tells of uses.
func (m *Machine) toldOf(p *Put) {
	t := &m.tale
	if t.told, t.due = nil, m.now.Up+tellPause; m.ending {
		t.due = m.now.Up
	}
	if p.Err == nil {
		m.metrics.Told.Add(uint64(len(p.Uses)))
		return
	}
	m.metrics.Untold.Add(uint64(len(p.Uses)))
	m.Log.Error("tell", p.Err, "uses", len(p.Uses))
}

// isTelling says whether the group is still to be told something.
func (m *Machine) isTelling() bool {
	return m.tale.told != nil || len(m.tale.untold) > 0
}

// dropTale gives up what the group was not told.
func (m *Machine) dropTale() {
	t := &m.tale
	if t.told != nil {
		t.untold = append(t.told.Uses, t.untold...)
	}
	m.metrics.Untold.Add(uint64(len(t.untold)))
	t.told, t.untold, t.due = nil, nil, never
}

// isHeard returns nil if the group takes a withdrawal that its log's server stored at this moment.
//
// Other sidecars take it only if its time is at most Options.Ahead past their clocks. Where this clock (or a record that an
// earlier one has brought ahead) is further ahead of the broker's, they don't take it before then: that is an error, which
// says from when on they do, and the machine tells them again at that time.
func (m *Machine) isHeard(use svid.Use, broker uint64) error {
	if use.At <= broker+m.Ahead {
		return nil
	}
	early := use.At - m.Ahead - broker
	if early < mostEarly && !m.ending {
		m.tale.keepLater(telling{use, m.now.Up + time.Duration(early+1)*time.Second})
	}
	err := fmt.Errorf("the other sidecars take it only in %d seconds: the record here is %d seconds ahead of the broker's clock: "+
		"withdraw the token at another sidecar, and set this clock right (now %d)", early, use.At-broker, m.now.Wall)
	m.Log.Error("withdrawal", err, "key", use.Key.String(), "exp", use.Expires)
	return err
}

// keepLater keeps a use that is to be told again.
func (t *tale) keepLater(one telling) {
	i := sort.Search(len(t.later), func(i int) bool { return t.later[i].at > one.at })
	t.later = append(t.later, telling{})
	copy(t.later[i+1:], t.later[i:])
	t.later[i] = one
}

// nextLater is when the next one of them is to be told.
func (t *tale) nextLater() time.Duration {
	if len(t.later) == 0 {
		return never
	}
	return t.later[0].at
}

// tellLater tells the group of uses whose moment has come.
func (m *Machine) tellLater() {
	for t := &m.tale; t.nextLater() <= m.now.Up; {
		use := t.later[0].use
		t.later = t.later[1:]
		m.tell(use)
	}
}
