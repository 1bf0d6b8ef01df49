package server

import (
	"errors"
	"fmt"
	"io"
	"time"

	"svid.example/go/v3/carriers"
	"svid.example/go/v3/svid"
)

const (
	// takePiece is about how many bytes of messages the record takes under one lock.
	takePiece = 256 << 10
	// smallJournal is the length of a journal below which no snapshot is worth it.
	smallJournal = 8 << 20
	// mostSettle is how many seconds a summary may be on its way until uses that have
	// expired meanwhile make a difference.
	mostSettle = 5
	// mostAnswer is about how many bytes an answer to a summary has at the most.
	mostAnswer = 16 << 20
	// tickEvery is how often the record's moment follows the clock.
	tickEvery = time.Second
	// mostLate is how many bytes of messages wait for a clock that is too far ahead.
	mostLate = 64 << 20
	// ofLate is how many of these each counts beside its own: its place in the list, and what its memory is rounded up by.
	ofLate = 32
	// restAfterFailed is how long after a snapshot that failed the next one begins. Each one begins a journal, and on a full disk it takes what room is
	// left from acceptances.
	restAfterFailed = time.Minute
	// jumpPatience is how long a clock may be too far ahead before it seems to be right.
	jumpPatience = time.Minute
)

// A Feed gives the record a part of the messages of the state folder. Load follows the last one.
type Feed struct {
	Messages []byte
	Err      error
}

func (f *Feed) happen(m *Machine) {
	err := m.validator.Take(m.now.Wall, f.Messages)
	switch {
	case errors.Is(err, svid.ErrTooFar):
		f.Err = fmt.Errorf("the record of the state folder is more than %d seconds ahead of this machine's clock (now %d): set the clock right: %w",
			m.Ahead, m.now.Wall, err)
	case err != nil:
		f.Err = fmt.Errorf("the record of the state folder: %w", err)
	}
}

// A Load ends the messages of the state folder, which holds so many bytes beside its snapshot: tokens can be judged from here on,
// unless Err says why not.
type Load struct {
	Size int64
	Err  error
}

func (l *Load) happen(m *Machine) {
	if l.Err = m.validator.Tick(m.now.Wall); l.Err != nil { // (a clock that goes too far ahead from here on is seen)
		return
	}
	m.known.Loaded, m.keeper.size = true, l.Size
	m.know()
}

// A Taking gives the record values of the group, in their order. Errs is nil, or has one for each value: it
// says that the value is put aside, since it is no message, or of a time further ahead than Options.Ahead.
type Taking struct {
	Values []carriers.Value
	Errs   []error
}

// The record takes many values in one call, and each by itself: else one that a member cut off on purpose would swallow the
// beginning of the next one, which is another member's.
func (t *Taking) happen(m *Machine) {
	messages := make([][]byte, len(t.Values))
	for i := range t.Values {
		messages[i] = t.Values[i].Message
	}
	for at := 0; at < len(messages); {
		taken, err := m.validator.TakeEach(m.now.Wall, messages[at:])
		for end := at + taken; at < end; at++ {
			t.taken(m, at, nil)
		}
		if err != nil {
			t.taken(m, at, err)
			at++
		}
	}
}

// taken takes note of a value that was taken, or why it was not.
func (t *Taking) taken(m *Machine, i int, err error) {
	v := &t.Values[i]
	if v.Kind == carriers.Claims { // In once no sidecar claims a token in the bucket, as svidd 2.0 did in strict.
		m.noteMode(v.Message)
	}
	if m.Log.Writes(All) {
		m.Log.Detail("message", "bytes", len(v.Message), "error", err)
	}
	if err == nil {
		m.lookTwice(v.Message)
		return
	}
	if errors.Is(err, svid.ErrJump) {
		m.late.add([][]byte{append([]byte(nil), v.Message...)}) // (Its own bytes stand among those of many others.)
	}
	if t.Errs == nil {
		t.Errs = make([]error, len(t.Values))
	}
	t.Errs[i] = err
}

// errMixed: a sidecar of the group runs in another mode.
var errMixed = errors.New("another sidecar of the group accepts tokens in another mode, so a token can be accepted twice: run all in one mode")

// noteMode logs that another sidecar of the group runs in another mode, as a value of that mode tells, and counts such values.
func (m *Machine) noteMode(message []byte) {
	uses, _ := svid.Uses(message) // (none of bytes that are no message)
	for i := range uses {
		if m.saysMode(&uses[i]) {
			m.sayMixed(&uses[i])
			return
		}
	}
}

// saysMode says whether a use tells the mode of who made it: a withdrawal is of every mode, and before this sidecar began, the
// group may have been in another one.
func (m *Machine) saysMode(use *svid.Use) bool { return !use.Withdrawn && use.At > m.began+m.Ahead }

// sayMixed counts a value of another mode, and logs that once a minute.
func (m *Machine) sayMixed(use *svid.Use) {
	m.metrics.OtherMode.Add(1)
	if m.now.Up-m.mixedAt >= seldomTime {
		m.mixedAt = m.now.Up
		m.Log.Error("mode", errMixed, "mode", string(m.Mode), "other", use.ValidatorID.String())
	}
}

// late are messages that came while the clock was too far ahead. The record takes them once it is right again.
type late struct {
	messages [][]byte
	bytes    int
}

// add keeps messages, as far as there is room. The group's summaries bring back the others.
func (l *late) add(messages [][]byte) {
	for _, one := range messages {
		if size := ofLate + len(one); l.bytes+size <= mostLate {
			l.messages, l.bytes = append(l.messages, one), l.bytes+size
		}
	}
}

// takeLate gives the record what came while the clock was too far ahead.
func (m *Machine) takeLate() {
	messages := m.late.messages
	m.late = late{}
	for i, one := range messages {
		err := m.validator.Take(m.now.Wall, one)
		if err == nil {
			m.lookTwice(one)
		}
		if errors.Is(err, svid.ErrJump) {
			m.late.add(messages[i:])
			return
		}
		if err != nil {
			m.Log.Error("message", err)
		}
	}
}

// Summary returns the summary of the record, for another sidecar to answer.
func (m *Machine) Summary() ([]byte, error) {
	settle := m.Ahead / 2 // or the other one's clock, which may be behind, finds it too far ahead
	if settle > mostSettle {
		settle = mostSettle
	}
	return m.validator.WalkSummary(settle)
}

// Answer answers another sidecar's summary.
func (m *Machine) Answer(summary []byte) ([]byte, error) {
	return m.validator.WalkAnswer(summary, mostAnswer)
}

// Save writes the whole record as messages.
func (m *Machine) Save(w io.Writer) error { return m.validator.Save(w) }

// lookAfterAll is done each second.
func (m *Machine) lookAfterAll() {
	m.tick()
	m.keepAgain()
	m.measure()
	k := &m.keeper
	if m.Journal != nil && m.known.Loaded && !k.saving && k.size > k.saved && k.size > smallJournal && m.now.Up >= k.rest {
		m.save()
	}
}

// tick lets the record follow the clock. A clock that goes ahead by more than Options.Step at once would expire all that
// the record knows, and the record can't go back. So the record stays where it is, and tokens are answered 503 (svid.ErrJump),
// until the clock is right again, or has stayed there for so long that it seems to be right: Options.Jumped then lets the
// sidecar restart, with the record of the disk and of the group.
func (m *Machine) tick() {
	now := m.now.Wall
	err := m.validator.Tick(now)
	before, jumped := m.known.Jumped, errors.Is(err, svid.ErrJump)
	m.known.Jumped = jumped
	m.know()
	switch {
	case jumped && !before:
		m.jumpedAt = m.now.Up
		m.Log.Error("clock", err, "now", now)
	case jumped && m.now.Up-m.jumpedAt > jumpPatience:
		m.do(JumpedAhead{})
	case before && !jumped:
		m.Log.Event("clock", "now", now)
	}
	if err != nil && !jumped {
		m.seldom("tick", err)
	}
	if !jumped {
		m.takeLate()
	}
}

// measure takes the size of the record, for the metrics.
func (m *Machine) measure() {
	size, err := m.validator.Size()
	if err != nil {
		m.seldom("measure", err)
		return
	}
	m.metrics.Uses.Store(size.Uses)
	m.metrics.Moment.Store(size.Moment)
}

// save takes a snapshot.
func (m *Machine) save() {
	m.keeper.saving = true
	m.do(Snapshot{})
}

// A Snapshotted: the effect Snapshot is done.
type Snapshotted struct {
	Length int64 // of the bytes that Save wrote
	Size   int64 // of the bytes that the disk has beside it
	Err    error
}

func (s Snapshotted) happen(m *Machine) {
	m.keeper.saving, m.keeper.size = false, s.Size
	if s.Err != nil {
		m.keeper.rest = m.now.Up + restAfterFailed
		m.metrics.JournalFailures.Add(1)
		m.Log.Error("snapshot", s.Err)
		return
	}
	m.keeper.saved = s.Length
	m.metrics.Snapshots.Add(1)
}
