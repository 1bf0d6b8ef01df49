package server

import (
	"bytes"
	"errors"
	"fmt"
	"strings"
	"testing"
	"time"

	"svid.example/go/v3/svid"
)

// Each cause has a line a minute, the lines between are counted, and causes without end have few lines.
func TestOneLineAMinuteForEachCause(t *testing.T) {
	var s seldom
	begin := time.Hour
	want := func(at time.Duration, cause string, unlogged uint64, ok bool) {
		t.Helper()
		if n, is := s.speak(begin+at, cause); n != unlogged || is != ok {
			t.Errorf("%s at %v: %d %v", cause, at, n, is)
		}
	}
	want(0, "a", 0, true)
	want(1, "a", 0, false)
	want(2, "b", 1, true)
	want(3, "b", 0, false)
	want(4, "a", 0, false)
	want(time.Minute-1, "a", 0, false)
	want(time.Minute, "a", 3, true)
	want(time.Minute+1, "b", 0, false)
	want(time.Minute+2, "b", 1, true)
	want(2*time.Minute-1, "a", 0, false)

	for i := 0; i < 1000; i++ {
		_, ok := s.speak(begin+time.Hour, fmt.Sprint(i))
		if ok != (i < mostCauses) {
			t.Fatalf("cause %d: %v", i, ok)
		}
	}
	if len(s.said) != mostCauses {
		t.Errorf("%d causes are kept", len(s.said))
	}
	want(2*time.Hour, "c", 1000-mostCauses, true)
}

// A disk that takes nothing for long, in mode strict: the log has one line of each cause, and the metrics count every write.
func TestTheKeeperDoesNotFillTheLog(t *testing.T) {
	const writes = 5
	one := errors.New("the disk is gone")
	var out bytes.Buffer
	d := &disk{fault: one}
	e := ready(t, engine(t, inStrict(Options{Journal: d, Log: NewLog(&out, Errors)})))
	lines := func(text string) int { return strings.Count(out.String(), text) }
	keep := func(times int) {
		for i := 0; i < times; i++ {
			e.step(doing(func(m *Machine) { m.keepSoon(svid.Use{}) }))
			kept(t, e)
		}
	}
	keep(writes)
	if lines("the disk is gone") != 1 || lines("\n") != 1 {
		t.Errorf("the log has %s", &out)
	}
	d.fault = errors.New("it is full")
	keep(writes)
	if lines("it is full") != 1 || lines(fmt.Sprintf(`"unlogged":%d`, writes-1)) != 1 || lines("\n") != 2 {
		t.Errorf("another cause: the log has %s", &out)
	}

	// The same holds for uses that there is no room for.
	full := func(times int) {
		e.step(doing(func(m *Machine) { m.keeper.uses, m.keeper.busy = make([]svid.Use, mostUnkept), new(Write) }))
		for i := 0; i < times; i++ {
			e.step(doing(func(m *Machine) { m.keepSoon(svid.Use{}) }))
		}
		e.step(doing(func(m *Machine) { m.keeper.uses, m.keeper.busy = nil, nil }))
		keep(1)
	}
	full(writes)
	full(writes)
	if lines(errUnkept.Error()) != 1 || lines("\n") != 3 {
		t.Errorf("the keeper is full: the log has %s", &out)
	}
	if n := e.Metrics.JournalFailures.Load(); n != 4*writes+2 {
		t.Errorf("%d failures are counted", n)
	}

	// A minute later there is another line, with all that were not written.
	e.step(doing(func(m *Machine) {
		for cause, at := range m.keeper.faults.said {
			m.keeper.faults.said[cause] = at - seldomTime
		}
	}))
	keep(1)
	if lines("it is full") != 2 || lines(fmt.Sprintf(`"unlogged":%d`, 2*writes+1)) != 1 || lines("\n") != 4 {
		t.Errorf("a minute later: the log has %s", &out)
	}
}
