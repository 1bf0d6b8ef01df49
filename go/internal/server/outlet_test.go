package server

import (
	"bytes"
	"errors"
	"fmt"
	"strings"
	"sync"
	"testing"
	"time"

	"svid.example/go/v3/internal/patience"
)

// A sink is a writer that hangs, and fails, as a test wants it.
type sink struct {
	mu    sync.Mutex // is held while it hangs
	begun chan int   // the length of each write, before it is made; nobody need read it
	text  bytes.Buffer
	takes int // bytes until it fails; negative where it never does
}

func newSink() *sink { return &sink{begun: make(chan int, 1<<16), takes: -1} }

func (s *sink) Write(b []byte) (int, error) {
	s.begun <- len(b)
	s.mu.Lock()
	defer s.mu.Unlock()
	if s.takes >= 0 && len(b) > s.takes {
		n := s.takes
		s.text.Write(b[:n])
		s.takes = 0
		return n, errors.New("no space left on device")
	}
	if s.takes >= 0 {
		s.takes -= len(b)
	}
	return s.text.Write(b)
}

// fail lets it take so many bytes more, and fail behind them.
func (s *sink) fail(takes int) {
	s.mu.Lock()
	defer s.mu.Unlock()
	s.takes = takes
}

func (s *sink) String() string {
	s.mu.Lock()
	defer s.mu.Unlock()
	return s.text.String()
}

// give gives an outlet the lines with these numbers.
func give(o *Outlet, from, to int, length int) {
	for i := from; i < to; i++ {
		fmt.Fprintf(o, "%0*d\n", length-1, i)
	}
}

// The writer hangs: what has room waits, the rest is dropped and counted, and nobody waits. After that all goes on, in order.
func TestAnOutletThatHangs(t *testing.T) {
	out := newSink()
	out.mu.Lock()
	o := NewOutlet(out)
	const length, room = 64, mostWaiting / 64
	give(o, 0, 1, length)
	<-out.begun // The first line is with the writer.
	give(o, 1, 1+room, length)
	if n := o.Dropped(); n != 0 {
		t.Errorf("%d lines are dropped of those that have room", n)
	}
	give(o, 1+room, 1+room+7, length)
	fmt.Fprintln(o) // This one has room by itself, and stands behind one that is dropped.
	if n := o.Dropped(); n != 8 {
		t.Errorf("%d lines are dropped, want 8", n)
	}
	out.mu.Unlock()
	await(t, "the line that counts", func() bool { return strings.Contains(out.String(), `"dropped":8`) })
	give(o, 5000, 5001, length)
	o.Close(time.Minute)
	lines := strings.Split(strings.TrimSuffix(out.String(), "\n"), "\n")
	if len(lines) != 1+room+2 {
		t.Fatalf("%d lines, want %d", len(lines), 1+room+2)
	}
	for i, line := range lines[:1+room] {
		if line != fmt.Sprintf("%0*d", length-1, i) {
			t.Fatalf("line %d is %q", i, line)
		}
	}
	if line := lines[1+room]; !strings.Contains(line, `"event":"log"`) || !strings.Contains(line, `"error":"8 lines were dropped`) || !strings.Contains(line, `"time":"2`) {
		t.Errorf("the line that counts is %q", line)
	}
	if want := fmt.Sprintf("%0*d", length-1, 5000); lines[2+room] != want {
		t.Errorf("the last line is %q", lines[2+room])
	}
	// (only the first line of all is as long as it is; the others share pages)
	for len(out.begun) > 2 {
		if n := <-out.begun; n > onePage || n < onePage-length {
			t.Fatalf("%d bytes are written at once", n)
		}
	}
}

// A line that is longer than a page is written at once, and one that is longer than all the room is dropped.
func TestAnOutletsLongLines(t *testing.T) {
	out := newSink()
	o := NewOutlet(out)
	long := strings.Repeat("a", 3*onePage) + "\n"
	out.mu.Lock()
	fmt.Fprintln(o, "first")
	<-out.begun
	fmt.Fprint(o, long)
	fmt.Fprintln(o, "last")
	out.mu.Unlock()
	if n := <-out.begun; n != len(long) {
		t.Errorf("%d bytes are written at once", n)
	}
	await(t, "the last line", func() bool { return strings.HasSuffix(out.String(), "last\n") })
	// Nothing waits when it comes, so nothing need be written before others have room.
	for i := uint64(1); i <= 3; i++ {
		fmt.Fprint(o, strings.Repeat("b", mostWaiting)+"\n")
		if n := o.Dropped(); n != i {
			t.Errorf("%d lines are dropped, want %d", n, i)
		}
		await(t, "the line that counts it", func() bool { return strings.Count(out.String(), `"dropped":1,`) == int(i) })
	}
	fmt.Fprintln(o, "next")
	o.Close(time.Minute)
	text := strings.TrimPrefix(out.String(), "first\n"+long+"last\n")
	if lines := strings.Split(text, "\n"); o.Dropped() != 3 || len(lines) != 5 || lines[3] != "next" || !strings.Contains(lines[0], fmt.Sprintf(`"error":"a line of %d bytes was dropped`, mostWaiting+1)) {
		t.Errorf("%d lines are dropped, %q", o.Dropped(), text)
	}
}

// Where nothing has room, a line that never has is one that is dropped, as the others.
func TestAnOutletsLongLineBesideNoRoom(t *testing.T) {
	out := newSink()
	out.mu.Lock()
	o := NewOutlet(out)
	fmt.Fprintln(o, "first")
	<-out.begun
	fmt.Fprint(o, strings.Repeat("a", mostWaiting-1)+"\n")
	fmt.Fprint(o, strings.Repeat("b", mostWaiting)+"\n")
	fmt.Fprintln(o, "none is kept behind one that is dropped")
	if n := o.Dropped(); n != 2 {
		t.Errorf("%d lines are dropped, want 2", n)
	}
	out.mu.Unlock()
	await(t, "the line that counts", func() bool { return strings.Contains(out.String(), `"dropped":2,`) })
	fmt.Fprintln(o, "next")
	o.Close(time.Minute)
	if text := out.String(); o.Dropped() != 2 || strings.Count(text, "\n") != 4 || !strings.HasSuffix(text, "\nnext\n") {
		t.Errorf("%d lines are dropped, %d written", o.Dropped(), strings.Count(text, "\n"))
	}
}

// The writer fails, in the middle of a line too: what it did not take is counted, and the next line begins a line.
func TestAnOutletThatFails(t *testing.T) {
	out := newSink()
	o := NewOutlet(out)
	for round, row := range []struct {
		takes int
		want  string
	}{
		{0, ""},
		{3, "000\n"}, // half a line, which is ended once that can be done
		{8, "0000007\n"},
	} {
		out.fail(row.takes)
		before, had := o.Dropped(), len(out.String())
		out.mu.Lock()
		fmt.Fprintln(o, "0000007")
		fmt.Fprintln(o, "0000008")
		out.mu.Unlock()
		lost := uint64(2)
		if row.takes == 8 {
			lost = 1
		}
		await(t, "lines that are lost", func() bool { return o.Dropped() == before+lost })
		out.fail(-1)
		fmt.Fprintln(o, "again")
		await(t, "another line", func() bool { return strings.Contains(out.String()[had:], `"dropped"`) })
		if got := out.String()[had:]; !strings.HasPrefix(got, row.want+"again\n{") || !strings.Contains(got, fmt.Sprintf(`"dropped":%d,`, lost)) {
			t.Errorf("round %d: %q", round, got)
		}
	}
	o.Close(time.Minute)
}

// Lines that are lost one after the other are said together.
func TestAnOutletThatFailsForLong(t *testing.T) {
	out := newSink()
	o := NewOutlet(out)
	out.fail(0)
	for i := uint64(1); i <= 5; i++ {
		fmt.Fprintln(o, "lost")
		await(t, "a line that is lost", func() bool { return o.Dropped() == i })
	}
	out.fail(-1)
	fmt.Fprintln(o, "again")
	o.Close(time.Minute)
	if got := out.String(); !strings.HasPrefix(got, "again\n{") || !strings.Contains(got, `"dropped":5,`) || strings.Count(got, "\n") != 2 {
		t.Errorf("%q", got)
	}
}

// The writer fails within the line that says how many were lost: the next such line says it, and nothing else is lost.
func TestAnOutletThatFailsAsItCounts(t *testing.T) {
	out := newSink()
	o := NewOutlet(out)
	out.fail(0)
	fmt.Fprintln(o, "lost")
	await(t, "a line that is lost", func() bool { return o.Dropped() == 1 })
	const taken = "again\n{\"dr"
	out.fail(len(taken))
	fmt.Fprintln(o, "again")
	await(t, "half of the line that counts", func() bool { return out.String() == taken })
	out.fail(-1)
	fmt.Fprintln(o, "last")
	o.Close(time.Minute)
	if got := out.String(); !strings.HasPrefix(got, taken+"\nlast\n{") || !strings.Contains(got, `"dropped":1,`) || o.Dropped() != 1 {
		t.Errorf("%d dropped: %q", o.Dropped(), got)
	}
}

// A lazy is a writer that takes its time for each write.
type lazy struct {
	mu    sync.Mutex
	lines string
}

func (l *lazy) Write(lines []byte) (int, error) {
	time.Sleep(20 * time.Millisecond)
	l.mu.Lock()
	defer l.mu.Unlock()
	l.lines += string(lines)
	return len(lines), nil
}

// Close waits for what came, but not for a writer that hangs, and behind it every line is dropped.
func TestTheEndOfAnOutlet(t *testing.T) {
	defer soon(t)()
	slow := new(lazy)
	l := NewLog(NewOutlet(slow), Errors)
	l.Error("the last", errors.New("any"))
	l.Close(time.Minute)
	slow.mu.Lock()
	if !strings.Contains(slow.lines, `"event":"the last"`) {
		t.Errorf("the log ends with %q", slow.lines)
	}
	slow.mu.Unlock()
	out := newSink()
	o := NewOutlet(out)
	give(o, 0, 1000, 20)
	o.Close(time.Minute)
	if n := strings.Count(out.String(), "\n"); n != 1000 {
		t.Errorf("%d lines are written", n)
	}
	fmt.Fprintln(o, "late")
	if o.Dropped() != 1 || strings.Contains(out.String(), "late") {
		t.Errorf("after the end: %d dropped, %q", o.Dropped(), out)
	}

	hung := newSink()
	hung.mu.Lock()
	o = NewOutlet(hung)
	fmt.Fprintln(o, "a")
	from := time.Now()
	o.Close(10 * time.Millisecond)
	if took := time.Since(from); took > patience.Long/2 {
		t.Errorf("Close took %v", took)
	}
	hung.mu.Unlock()
	<-o.ended
}

// A line is written though no other one follows.
func TestALineIsWrittenAtOnce(t *testing.T) {
	out := newSink()
	o := NewOutlet(out)
	defer o.Close(time.Minute)
	for _, line := range []string{"one\n", "two\n"} {
		fmt.Fprint(o, line)
		await(t, line, func() bool { return strings.HasSuffix(out.String(), line) })
	}
}

// /metrics asks how many lines were dropped while others are dropped.
func TestDroppedIsAskedMeanwhile(t *testing.T) {
	hung := newSink()
	hung.mu.Lock()
	o := NewOutlet(hung)
	done := make(chan struct{})
	go func() {
		defer close(done)
		for i := 0; i < 200; i++ {
			fmt.Fprintln(o, strings.Repeat("a", mostWaiting/50))
		}
	}()
	last := uint64(0)
	for ended := false; !ended; {
		select {
		case <-done:
			ended = true
		default:
		}
		n := o.Dropped()
		if n < last {
			t.Errorf("%d are dropped, and %d before", n, last)
		}
		last = n
	}
	if last == 0 {
		t.Error("no line is dropped")
	}
	hung.mu.Unlock()
	o.Close(time.Minute)
}

// Lines of many goroutines are all written or counted, and none is mixed with another one.
func TestAnOutletOfMany(t *testing.T) {
	out := newSink()
	o := NewOutlet(out)
	log := NewLog(o, All)
	var all sync.WaitGroup
	const writers, each = 8, 2000
	for i := 0; i < writers; i++ {
		all.Add(1)
		go func() {
			defer all.Done()
			for n := 0; n < each; n++ {
				log.Event("one", "text", "\n")
			}
		}()
	}
	all.Wait()
	o.Close(time.Minute)
	written := uint64(0)
	for _, line := range strings.Split(strings.TrimSuffix(out.String(), "\n"), "\n") {
		if strings.HasSuffix(line, `,"text":"\n","time":"`+line[len(line)-29:]) && strings.HasPrefix(line, `{"event":"one"`) {
			written++
		} else if !strings.Contains(line, `"dropped"`) {
			t.Fatalf("%q", line)
		}
	}
	if written+log.Dropped() != writers*each {
		t.Errorf("%d lines are written, %d dropped", written, log.Dropped())
	}
}
