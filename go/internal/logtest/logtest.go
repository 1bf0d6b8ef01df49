// Package logtest tests whatever carries a group, with its real server: each carrier passes the same tests.
package logtest

import (
	"bytes"
	"context"
	"errors"
	"fmt"
	"os"
	"os/exec"
	"path/filepath"
	"strings"
	"sync"
	"sync/atomic"
	"syscall"
	"testing"
	"time"

	"svid.example/go/v3/carriers"
	"svid.example/go/v3/internal/patience"
)

// Options say how a member joins.
type Options struct {
	Name    string
	Address string // of a proxy; "" for the server itself
	Keep    time.Duration
	Log     func(event string, fields ...any)
}

// A Server is one that a carrier is tested with. Its calls end the test that they fail in.
type Server interface {
	// Join joins a group.
	Join(ctx context.Context, o Options, sink carriers.Sink) (carriers.Group, error)
	// Address is where it listens, for a proxy; "" where there is no network.
	Address() string
	// Start starts it again, once it was ended as kill -9 does or as an administrator does, and waits until it answers.
	Start(t testing.TB)
	Kill(t testing.TB)
	Stop(t testing.TB)
	// Pause lets it do nothing until Resume.
	Pause(t testing.TB)
	Resume(t testing.TB)
	// Remove removes a value by hand. Of all values, the first ones go with it where only that can be done: so it says how many.
	Remove(t testing.TB, name string, position uint64)
	// Garbage puts values into a group's log that no member writes, and says how many have a position now.
	Garbage(t testing.TB, name string) int
	// Copy copies what the server keeps. restore puts it back. The server does not run meanwhile.
	Copy(t testing.TB) (restore func())
	// Destroy removes the log.
	Destroy(t testing.TB, name string)
	// Lose lets the answer to the append of the next value be lost that holds a text, where Address is "".
	Lose(marker []byte)
}

// Await asks every few milliseconds whether something is so, and ends the test where it is not in time.
func Await(t testing.TB, what string, so func() bool) {
	t.Helper()
	AwaitFor(t, patience.Long, what, so)
}

// AwaitFor is Await for what may take longer.
func AwaitFor(t testing.TB, most time.Duration, what string, so func() bool) {
	t.Helper()
	for look, end := patience.Looks(), time.Now().Add(most); !so(); look() {
		if time.Now().After(end) {
			t.Fatalf("waited %v for %s", most, what)
		}
	}
}

// A member is a tie to the group, with what it was given and what it logged.
type member struct {
	carriers.Group
	mu    sync.Mutex
	begun []carriers.Start
	order []carriers.Value // since the last Begin
	lines []string
	next  atomic.Uint64
}

func (m *member) Begin(start carriers.Start) {
	m.mu.Lock()
	defer m.mu.Unlock()
	m.begun, m.order = append(m.begun, start), nil
}

func (m *member) Take(values []carriers.Value) (errs []error) {
	m.mu.Lock()
	defer m.mu.Unlock()
	m.order = append(m.order, values...)
	for i, v := range values {
		if !bytes.HasPrefix(v.Message, []byte("good ")) {
			if errs == nil {
				errs = make([]error, len(values))
			}
			errs[i] = errors.New("no value of a test")
		}
	}
	return errs
}

func (m *member) log(event string, fields ...any) {
	m.mu.Lock()
	defer m.mu.Unlock()
	m.lines = append(m.lines, fmt.Sprint(append([]any{event, " "}, fields...)...))
}

// said says whether a line has a text.
func (m *member) said(text string) bool {
	m.mu.Lock()
	defer m.mu.Unlock()
	for _, line := range m.lines {
		if strings.Contains(line, text) {
			return true
		}
	}
	return false
}

// starts are the beginnings so far.
func (m *member) starts() []carriers.Start {
	m.mu.Lock()
	defer m.mu.Unlock()
	return append([]carriers.Start(nil), m.begun...)
}

// values are those that were read since the last beginning.
func (m *member) values() []carriers.Value {
	m.mu.Lock()
	defer m.mu.Unlock()
	return append([]carriers.Value(nil), m.order...)
}

// count is how many these are: to look at all of them takes far longer.
func (m *member) count() int {
	m.mu.Lock()
	defer m.mu.Unlock()
	return len(m.order)
}

// has says how often a value was read.
func (m *member) has(message string) (n int) {
	for _, v := range m.values() {
		if string(v.Message) == message {
			n++
		}
	}
	return n
}

// suite is a run of the tests against one server.
type suite struct {
	server Server
	groups atomic.Uint64
}

func (s *suite) name() string { return fmt.Sprint("test-", s.groups.Add(1)) }

// join joins, and waits until all is read.
func (s *suite) join(t testing.TB, o Options) *member {
	t.Helper()
	m := s.begin(t, o)
	select {
	case <-m.Ready():
	case <-time.After(patience.Long):
		m.mu.Lock()
		defer m.mu.Unlock()
		t.Fatalf("a member was not ready: %v", m.lines)
	}
	return m
}

func (s *suite) begin(t testing.TB, o Options) *member {
	t.Helper()
	m := new(member)
	if err := s.tryBegin(t, o, m); err != nil {
		t.Fatal(err)
	}
	return m
}

// tryBegin lets a member join. It may be called by any goroutine.
func (s *suite) tryBegin(t testing.TB, o Options, m *member) error {
	if o.Keep == 0 {
		o.Keep = time.Hour
	}
	o.Log = m.log
	ctx, cancel := context.WithTimeout(context.Background(), patience.Long)
	defer cancel()
	g, err := s.server.Join(ctx, o, m)
	if err != nil {
		return err
	}
	m.Group = g
	t.Cleanup(func() { g.Close() })
	return nil
}

// put puts a value, and ends the test where that fails.
func (m *member) put(t testing.TB, message string) {
	t.Helper()
	if err := m.tryPut(patience.Long, message); err != nil {
		t.Fatal(err)
	}
}

func (m *member) tryPut(wait time.Duration, message string) error {
	ctx, cancel := context.WithTimeout(context.Background(), wait)
	defer cancel()
	return m.Put(ctx, carriers.Claims, m.next.Add(1), []byte(message))
}

// same waits until all members have read the same values, and these are in front of nothing else and without gaps.
func same(t testing.TB, want func(order []carriers.Value) bool, members ...*member) {
	t.Helper()
	Await(t, "the same values everywhere", func() bool {
		for _, m := range members[1:] {
			if m.count() != members[0].count() {
				return false
			}
		}
		first := members[0].values()
		if !want(first) {
			return false
		}
		for _, m := range members[1:] {
			other := m.values()
			if len(other) != len(first) {
				return false
			}
			for i := range other {
				if other[i].Position != first[i].Position || !bytes.Equal(other[i].Message, first[i].Message) {
					t.Fatalf("position %d is %q and %q", first[i].Position, first[i].Message, other[i].Message)
				}
			}
		}
		return true
	})
	for i, v := range members[0].values() {
		if v.Position != uint64(i+1) {
			t.Fatalf("value %d has position %d", i+1, v.Position)
		}
	}
}

func atLeast(n int) func([]carriers.Value) bool {
	return func(order []carriers.Value) bool { return len(order) >= n }
}

// holds says whether an order has all these messages.
func holds(messages []string) func([]carriers.Value) bool {
	return func(order []carriers.Value) bool {
		there := make(map[string]bool, len(order))
		for _, v := range order {
			there[string(v.Message)] = true
		}
		for _, m := range messages {
			if !there[m] {
				return false
			}
		}
		return true
	}
}

// Run runs all tests but some.
func Run(t *testing.T, server Server, except ...string) {
	s := &suite{server: server}
	for _, test := range []struct {
		name string
		run  func(*testing.T)
	}{
		{"OneOrder", s.oneOrder}, {"LostAnswer", s.lostAnswer}, {"TooLarge", s.tooLarge}, {"Garbage", s.garbage}, {"Removed", s.removed},
		{"Killed", s.killed}, {"Stopped", s.stopped}, {"Paused", s.paused}, {"PutBack", s.putBack}, {"PutBackAndAhead", s.putBackAndAhead},
		{"Destroyed", s.destroyed}, {"Expires", s.expires}, {"Shorter", s.shorter}, {"ServerComesLater", s.serverComesLater},
	} {
		if !contains(except, test.name) {
			t.Run(test.name, test.run)
		}
	}
}

func contains(names []string, name string) bool {
	for _, one := range names {
		if one == name {
			return true
		}
	}
	return false
}

// Many members append at once. All read the same values in one order, and so does one that comes late.
func (s *suite) oneOrder(t *testing.T) {
	const members, puts, values = 4, 4, 25
	name := s.name()
	var all []*member
	for i := 0; i < members; i++ {
		all = append(all, s.join(t, Options{Name: name}))
	}
	var putting sync.WaitGroup
	var sent []string
	for i, m := range all {
		for j := 0; j < puts; j++ {
			var these []string
			for k := 0; k < values; k++ {
				these = append(these, fmt.Sprintf("good %d.%d.%d", i, j, k))
			}
			sent = append(sent, these...)
			putting.Add(1)
			go func(m *member) {
				defer putting.Done()
				for _, message := range these {
					if err := m.tryPut(patience.Long, message); err != nil {
						t.Error(err)
					}
				}
			}(m)
		}
	}
	putting.Wait()
	late := s.join(t, Options{Name: name})
	same(t, holds(sent), append(all, late)...)
	// Who puts one value after the other finds them in that order. (A value may stand there twice, where an answer was late: the first counts.)
	last, seen := make(map[string]int), make(map[string]bool)
	for _, v := range late.values() {
		if seen[string(v.Message)] {
			continue
		}
		seen[string(v.Message)] = true
		var i, j, k int
		fmt.Sscanf(string(v.Message), "good %d.%d.%d", &i, &j, &k)
		who := fmt.Sprint(i, j)
		if at, ok := last[who]; ok && k < at {
			t.Fatalf("value %d of %s stands behind %d", k, who, at)
		}
		last[who] = k
		if v.Kind != carriers.Claims {
			t.Fatalf("position %d is of kind %c", v.Position, v.Kind)
		}
	}
	for _, m := range append(all, late) {
		if got := m.starts(); len(got) != 1 || got[0].Passed != 0 || got[0].Missed {
			t.Errorf("began %v", got)
		}
		if m.Aside() != 0 || m.Taken() < uint64(len(sent)) {
			t.Errorf("%d values were taken, and %d put aside", m.Taken(), m.Aside())
		}
	}
	if got := late.starts()[0].Ready; got < uint64(len(sent)) {
		t.Errorf("who comes late is ready behind %d", got)
	}
	ctx, cancel := context.WithTimeout(context.Background(), patience.Long)
	defer cancel()
	before := time.Now()
	number := all[0].next.Add(1)
	if err := all[0].Put(ctx, carriers.Uses, number, []byte("good use")); err != nil {
		t.Fatal(err)
	}
	at, err := all[0].Stored(ctx, carriers.Uses, number)
	if err != nil || at.Before(before.Add(-time.Minute)) || at.After(time.Now().Add(time.Minute)) {
		t.Errorf("stored at %v: %v", at, err)
	}
	Await(t, "a value of uses", func() bool { return late.has("good use") > 0 })
	order := late.values()
	if got := order[len(order)-1].Kind; got != carriers.Uses {
		t.Errorf("it has kind %c", got)
	}
}

// An answer that is lost lets a value be put again. It is there once or twice, and at the same positions for all.
func (s *suite) lostAnswer(t *testing.T) {
	name := s.name()
	o := Options{Name: name}
	other := s.join(t, o)
	var proxy *Proxy
	if to := s.server.Address(); to != "" {
		proxy = NewProxy(t, to)
		o.Address = proxy.Address
	}
	m := s.join(t, o)
	const message = "good answer that is lost"
	if proxy != nil {
		proxy.Lose([]byte(message))
	} else {
		s.server.Lose([]byte(message))
	}
	m.put(t, message)
	if proxy != nil && !proxy.HasLost() {
		t.Fatal("no answer was lost")
	}
	m.put(t, "good end")
	same(t, holds([]string{message, "good end"}), m, other)
	if n := m.has(message); n > 2 {
		t.Errorf("the value is there %d times", n)
	}
}

// A value that is too large is an error at once.
func (s *suite) tooLarge(t *testing.T) {
	m := s.join(t, Options{Name: s.name()})
	begun := time.Now()
	err := m.tryPut(patience.Long, "good "+strings.Repeat("x", carriers.MostValue))
	if err == nil || errors.Is(err, context.DeadlineExceeded) || time.Since(begun) > patience.Long/2 {
		t.Errorf("it took %v: %v", time.Since(begun), err)
	}
	large := "good " + strings.Repeat("x", 100<<10)
	m.put(t, large)
	same(t, holds([]string{large}), m)
}

// What others put into the log that is no value of a member is given to all at the same positions, and stops nobody.
func (s *suite) garbage(t *testing.T) {
	o := Options{Name: s.name()}
	m := s.join(t, o)
	m.put(t, "good 1")
	n := s.server.Garbage(t, o.Name)
	m.put(t, "good 2")
	late := s.join(t, o)
	same(t, atLeast(n+2), m, late)
	if m.Aside() != uint64(n) || late.Aside() != uint64(n) || late.has("good 2") != 1 {
		t.Errorf("%d and %d values were put aside, and %d are none", m.Aside(), late.Aside(), n)
	}
}

// Values that are removed by hand are missing for who has not read them, and nothing happens to who has.
func (s *suite) removed(t *testing.T) {
	o := Options{Name: s.name()}
	m := s.join(t, o)
	for i := 1; i <= 5; i++ {
		m.put(t, fmt.Sprint("good ", i))
	}
	same(t, atLeast(5), m)
	s.server.Remove(t, o.Name, 3)
	late := s.join(t, o)
	var positions []uint64
	for _, v := range late.values() {
		positions = append(positions, v.Position)
	}
	if got := late.starts(); len(got) != 1 || got[0].Missed || fmt.Sprint(positions) != "[1 2 4 5]" || !late.said("values are gone") {
		t.Errorf("%v %v", got, positions)
	}
	s.server.Remove(t, o.Name, 1)
	later := s.join(t, o)
	if got := later.starts(); len(got) != 1 || !got[0].Missed || got[0].Passed != 1 || got[0].Ready != 5 {
		t.Errorf("%v", got)
	}
	m.put(t, "good 6")
	for _, one := range []*member{m, late, later} {
		Await(t, "the next value", func() bool { return one.has("good 6") == 1 })
	}
	if got := m.starts(); len(got) != 1 || m.said("gone") {
		t.Errorf("who has read them began %v", got)
	}
	// The last ones are gone.
	s.server.Remove(t, o.Name, 6)
	last := s.join(t, o)
	order := last.values()
	if got := last.starts()[0]; got.Ready != 6 || order[len(order)-1].Position != 5 {
		t.Errorf("%v, and the last one is %d", got, order[len(order)-1].Position)
	}
	m.put(t, "good 7")
	Await(t, "the next value", func() bool { return last.has("good 7") == 1 })
	if order = last.values(); order[len(order)-1].Position != 7 {
		t.Errorf("it has position %d", order[len(order)-1].Position)
	}
}

// load lets members append one value after the other, several at a time, until it is ended: it then says which ones were answered.
func load(t testing.TB, members ...*member) (end func() []string) {
	var putting sync.WaitGroup
	stop := make(chan struct{})
	var mu sync.Mutex
	var answered []string
	for i, m := range members {
		for j := 0; j < 3; j++ {
			putting.Add(1)
			go func(m *member, who string) {
				defer putting.Done()
				const least, most = 2 * time.Second, 20 * time.Second
				wait := least // (it is short again once the server answers, so that one that hangs holds nobody up)
				for n := 0; ; n++ {
					select {
					case <-stop:
						return
					case <-time.After(5 * time.Millisecond):
					}
					message := fmt.Sprint("good ", who, ".", n)
					if m.tryPut(wait, message) != nil {
						if wait *= 2; wait > most {
							wait = most
						}
					} else {
						wait = least
						mu.Lock()
						answered = append(answered, message)
						mu.Unlock()
					}
				}
			}(m, fmt.Sprint(i, ".", j))
		}
	}
	return func() []string {
		close(stop)
		putting.Wait()
		return answered
	}
}

// trouble lets something happen to the server under load. Nothing that was answered is lost, and nobody says so.
func (s *suite) trouble(t *testing.T, times int, happen func(away func())) {
	o := Options{Name: s.name()}
	members := []*member{s.join(t, o), s.join(t, o), s.join(t, o)}
	end := load(t, members...)
	for i := 0; i < times; i++ {
		before := members[0].Taken()
		Await(t, "some values", func() bool { return members[0].Taken() > before+20 })
		happen(func() {
			Await(t, "the members to see it", func() bool {
				for _, m := range members {
					if m.Connected() {
						return false
					}
				}
				return true
			})
		})
	}
	before := members[0].Taken()
	Await(t, "some values", func() bool { return members[0].Taken() > before+20 })
	answered := end()
	late := s.join(t, o)
	same(t, holds(answered), append(members, late)...)
	for _, m := range append(members, late) {
		if got := m.starts(); len(got) != 1 || m.said("gone") || m.said("anew") {
			t.Errorf("began %v, and said %q", got, m.lines)
		}
	}
}

func (s *suite) killed(t *testing.T) {
	s.trouble(t, 3, func(away func()) { s.server.Kill(t); away(); s.server.Start(t) })
}

func (s *suite) stopped(t *testing.T) {
	s.trouble(t, 2, func(away func()) { s.server.Stop(t); away(); s.server.Start(t) })
}

func (s *suite) paused(t *testing.T) {
	s.trouble(t, 2, func(away func()) { s.server.Pause(t); away(); s.server.Resume(t) })
}

// A server that is put back from an older copy has lost values: a member that has read these begins again, and says so.
func (s *suite) putBack(t *testing.T) {
	o := Options{Name: s.name()}
	m := s.join(t, o)
	m.put(t, "good 1")
	m.put(t, "good 2")
	same(t, atLeast(2), m)
	restore := s.server.Copy(t)
	m.put(t, "good 3")
	same(t, atLeast(3), m)
	restore()
	Await(t, "the log to name the loss", func() bool { return len(m.starts()) == 2 && m.said("anew") })
	if got := m.starts()[1]; !got.Missed || got.Passed != 0 || got.Ready != 2 {
		t.Errorf("began %+v", got)
	}
	m.put(t, "good 4")
	same(t, holds([]string{"good 1", "good 2", "good 4"}), m, s.join(t, o))
	if m.has("good 3") != 0 {
		t.Error("the lost value is there")
	}
}

// The same, where others have appended as many values meanwhile.
func (s *suite) putBackAndAhead(t *testing.T) {
	o := Options{Name: s.name()}
	other := s.join(t, o)
	behind := o
	var shut func(bool)
	if to := s.server.Address(); to != "" {
		proxy := NewProxy(t, to)
		behind.Address, shut = proxy.Address, proxy.Shut
	} else {
		shut = func(bool) {}
	}
	m := s.join(t, behind)
	m.put(t, "good 1")
	same(t, atLeast(1), m, other)
	restore := s.server.Copy(t)
	m.put(t, "good 2")
	same(t, atLeast(2), m, other)
	shut(true)
	restore()
	if s.server.Address() != "" {
		Await(t, "the loss to be seen by the other", func() bool { return len(other.starts()) == 2 })
		for i := 3; i < 7; i++ {
			other.put(t, fmt.Sprint("good ", i))
		}
	}
	shut(false)
	Await(t, "the loss to be seen", func() bool { return len(m.starts()) == 2 })
	if got := m.starts()[1]; !got.Missed || got.Passed != 0 {
		t.Errorf("began %+v", got)
	}
	m.put(t, "good 7")
	same(t, holds([]string{"good 1", "good 7"}), m, other)
	if m.has("good 2") != 0 {
		t.Error("the lost value is there")
	}
}

// A log that was removed is made again, and a member that has read it says so. One that had nothing to read goes on in the new one.
func (s *suite) destroyed(t *testing.T) {
	o := Options{Name: s.name()}
	empty := s.join(t, o)
	s.server.Destroy(t, o.Name)
	empty.put(t, "good 0")
	same(t, holds([]string{"good 0"}), empty)
	empty.Close()
	o.Name = s.name()
	m, other := s.join(t, o), s.join(t, o)
	m.put(t, "good 1")
	same(t, atLeast(1), m, other)
	s.server.Destroy(t, o.Name)
	for _, one := range []*member{m, other} {
		Await(t, "the loss to be seen", func() bool { return len(one.starts()) >= 2 })
		if got := one.starts()[1]; !got.Missed || got.Passed != 0 || got.Ready != 0 {
			t.Errorf("began %+v", got)
		}
	}
	m.put(t, "good 2")
	same(t, holds([]string{"good 2"}), m, other)
	if m.has("good 1") != 0 {
		t.Error("the lost value is there")
	}
}

// Values are removed once they are too old, and never before. Who comes after that misses nothing.
func (s *suite) expires(t *testing.T) {
	const keep = 3 * time.Second
	o := Options{Name: s.name(), Keep: keep}
	m := s.join(t, o)
	put := make(map[string]time.Time) // when each value was put that is stored
	var mu sync.Mutex
	stop, stopped := make(chan struct{}), make(chan struct{})
	go func() {
		defer close(stopped)
		for n := 0; ; n++ {
			select {
			case <-stop:
				return
			case <-time.After(20 * time.Millisecond):
			}
			message, at := fmt.Sprint("good ", n), time.Now()
			if err := m.tryPut(patience.Long, message); err != nil {
				t.Error(err)
				continue
			}
			mu.Lock()
			put[message] = at
			mu.Unlock()
		}
	}()
	begun := time.Now()
	for removals, first := 0, uint64(0); removals < 3; {
		mu.Lock()
		due := make(map[string]time.Time, len(put))
		for message, at := range put {
			due[message] = at
		}
		mu.Unlock()
		late := s.join(t, o)
		done, read, start := time.Now(), late.values(), late.starts()[0]
		if start.Missed {
			t.Fatalf("values are missing: %+v %q", start, late.lines)
		}
		if len(read) > 0 {
			for message, at := range due {
				if age := done.Sub(at); age < keep && late.has(message) == 0 {
					t.Errorf("%q is gone at the age of %v", message, age)
				}
			}
			if read[0].Position > first && read[0].Position > 1 {
				removals, first = removals+1, read[0].Position
			}
			for i := 1; i < len(read); i++ { // (what is removed while it reads is old enough, and so is what stands before that)
				before := done.Sub(due[string(read[i-1].Message)])
				if at := read[i].Position; at <= read[i-1].Position || at > read[i-1].Position+1 && before < keep {
					t.Fatalf("position %d stands behind %d, which is %v old", at, read[i-1].Position, before)
				}
			}
		}
		late.Close()
		if time.Since(begun) > patience.Long {
			t.Fatalf("values were removed %d times", removals)
		}
	}
	close(stop)
	<-stopped
	if got := m.starts(); len(got) != 1 {
		t.Errorf("who reads all began %v", got)
	}
}

// A log that keeps values for less time than a member needs is not joined.
func (s *suite) shorter(t *testing.T) {
	o := Options{Name: s.name(), Keep: time.Hour}
	s.join(t, o)
	ctx, cancel := context.WithTimeout(context.Background(), patience.Long)
	defer cancel()
	o.Keep = 2 * time.Hour
	if g, err := s.server.Join(ctx, o, new(member)); err == nil || errors.Is(err, context.DeadlineExceeded) {
		t.Errorf("joined: %v", err)
		if err == nil {
			g.Close()
		}
	}
	o.Keep = time.Minute
	s.join(t, o)
}

// A server that comes up after its members is waited for, and what can't be put is an error once the time is up.
func (s *suite) serverComesLater(t *testing.T) {
	o := Options{Name: s.name()}
	m := s.join(t, o)
	s.server.Stop(t)
	Await(t, "the member to see it", func() bool { return !m.Connected() })
	if err := m.tryPut(50*time.Millisecond, "good 1"); !errors.Is(err, context.DeadlineExceeded) {
		t.Errorf("put without a server: %v", err)
	}
	late, joined := &member{}, make(chan error, 1)
	go func() { joined <- s.tryBegin(t, o, late) }()
	s.server.Start(t)
	if err := <-joined; err != nil {
		t.Fatal(err)
	}
	m.put(t, "good 2")
	same(t, holds([]string{"good 2"}), m, late)
}

// Small is a small disk, and ends with the test. fill leaves no room on it, and free gives that back. Only root can have one: ok says
// whether that went.
func Small(t testing.TB, megabytes int) (dir string, fill, free func(), ok bool) {
	t.Helper()
	dir, err := os.MkdirTemp("", "svid-small-")
	if err != nil {
		t.Fatal(err)
	}
	t.Cleanup(func() { os.RemoveAll(dir) })
	if err := syscall.Mount("tmpfs", dir, "tmpfs", 0, fmt.Sprintf("size=%dm,mode=755", megabytes)); err != nil {
		return "", nil, nil, false
	}
	t.Cleanup(func() { syscall.Unmount(dir, syscall.MNT_DETACH) })
	filler := filepath.Join(dir, "filler")
	fill = func() {
		file, err := os.Create(filler)
		if err != nil {
			t.Fatal(err)
		}
		defer file.Close()
		for err == nil {
			_, err = file.Write(make([]byte, 4<<10))
		}
		if !errors.Is(err, syscall.ENOSPC) {
			t.Fatal(err)
		}
	}
	free = func() {
		if err := os.Remove(filler); err != nil {
			t.Fatal(err)
		}
	}
	return dir, fill, free, true
}

// Copied copies what a server keeps in a folder, once stop has ended it, and starts it again. restore kills it, puts the copy back, and starts
// it again.
func Copied(t testing.TB, dir string, stop, kill func(), start func(testing.TB)) (restore func()) {
	t.Helper()
	kept := t.TempDir()
	stop()
	CopyAll(t, dir, kept)
	start(t)
	return func() {
		kill()
		CopyAll(t, kept, dir)
		start(t)
	}
}

// CopyAll removes what the folder to has, and copies into it everything that from has.
func CopyAll(t testing.TB, from, to string) {
	t.Helper()
	for _, words := range [][]string{{"mkdir", "-p", to}, {"find", to, "-mindepth", "1", "-delete"}, {"cp", "-a", from + "/.", to}} {
		if out, err := exec.Command(words[0], words[1:]...).CombinedOutput(); err != nil {
			t.Fatalf("%v: %v %s", words, err, out)
		}
	}
}
