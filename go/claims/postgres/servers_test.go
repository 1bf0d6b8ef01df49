package postgres

import (
	"context"
	"errors"
	"io"
	"net"
	"runtime"
	"strings"
	"testing"
	"time"

	"svid.example/go/v3/internal/clocks"
	"svid.example/go/v3/internal/patience"
)

// looked is servers that were looked at just now, with these roles.
func looked(roles ...role) *servers {
	s := newServers(make([]string, len(roles)), make(chan struct{}))
	for i, is := range roles {
		s.all[i].role, s.all[i].at = is, clocks.Now()
	}
	return s
}

// later is a clock that stands at some time after a moment, by the one that only goes ahead and by the wall's.
func later(than clocks.Moment, up, wall time.Duration) func() clocks.Moment {
	return func() clocks.Moment { return clocks.Moment{Up: than.Up + up, Wall: than.Wall + wall} }
}

// What was seen of servers a while ago, by either clock, does not count: another one may have become the primary meanwhile.
func TestAnOldLookDoesNotCount(t *testing.T) {
	primary, standby := role{primary: true, system: "1", line: "00000001"}, role{system: "1"}
	for _, row := range []struct {
		up, wall time.Duration
		want     error
	}{
		{0, 0, nil},
		{mostAge, mostAge, nil},
		{0, -time.Hour, nil},
		{mostAge + 1, mostAge + 1, errUnlookedServers},
		{mostAge + 1, -time.Hour, errUnlookedServers},
		{time.Millisecond, mostAge + 1, errUnlookedServers}, // the computer was suspended
	} {
		s := looked(primary, standby)
		s.all[1].at = s.all[0].at
		s.now = later(s.all[0].at, row.up, row.wall)
		if err := s.use(s.all[0]); err != row.want {
			t.Errorf("%v and %v ago: %v, want %v", row.up, row.wall, err, row.want)
		}
		s.all[1].at = s.now()
		if err := s.use(s.all[0]); err != row.want {
			t.Errorf("one of them %v and %v ago: %v, want %v", row.up, row.wall, err, row.want)
		}
	}
	if err := newServers(make([]string, 2), make(chan struct{})).use(nil); err != errUnlookedServers {
		t.Errorf("never: %v", err)
	}
}

// A look is as old as its beginning, by either clock, whatever came of it: while the computer was suspended, another server may have become the primary.
func TestALookIsAsOldAsItsBeginning(t *testing.T) {
	t.Parallel()
	ctx := context.Background()
	for what, url := range map[string]string{"a server": start(t).URL, "an address where nobody listens": "postgres://a@127.0.0.1:1/a"} {
		s := newServers([]string{url, url}, make(chan struct{}))
		one := s.all[0]
		begun := clocks.Now()
		s.now = func() clocks.Moment { // (it is suspended after the first look at the clock)
			s.now = later(begun, time.Millisecond, time.Hour)
			return begun
		}
		c := s.lookAt(ctx, one, nil)
		if age := s.now().Since(one.at); age <= mostAge {
			t.Errorf("%s: what was seen %v ago counts (%v)", what, age, one.fault)
		}
		if (c == nil) != (one.fault != nil) {
			t.Fatalf("%s: %v", what, one.fault)
		}
		if c = s.lookAt(ctx, one, c); s.now().Since(one.at) > mostAge {
			t.Errorf("%s: what was seen just now does not count (%v)", what, one.fault)
		}
		if c == nil {
			continue
		}
		c.close() // as a server, or somebody on the way, ends what is quiet for long
		s.now = later(begun, 2*time.Millisecond, 2*time.Hour)
		if c = s.lookAt(ctx, one, c); one.fault != nil {
			t.Fatalf("%s: what has ended while the computer was suspended is taken for an answer: %v", what, one.fault)
		}
		c.close()
	}
}

// Of two primaries, the one that was promoted later counts, whichever is named first.
func TestTheLaterTimelineCounts(t *testing.T) {
	old, now := role{primary: true, system: "1", line: "00000001"}, role{primary: true, system: "1", line: "00000002"}
	for at, s := range map[int]*servers{1: looked(old, now), 0: looked(now, old)} {
		if first, err := s.primary(); err != nil || first != s.all[at] {
			t.Errorf("%v %v, want server %d", first, err, at)
		}
		if err := s.use(s.all[1-at]); !errors.Is(err, errStale) {
			t.Errorf("the primary of before: %v", err)
		}
	}
}

// Two primaries are named by the numbers of their addresses, so that somebody knows which one to take out.
func TestTwoPrimariesAreNamed(t *testing.T) {
	standby, primary := role{system: "1"}, role{primary: true, system: "1", line: "00000001"}
	for what, s := range map[string]*servers{
		"addresses 2 and 4 are primaries of two database clusters": looked(standby, primary, standby, role{primary: true, system: "2", line: "00000001"}),
		"addresses 1 and 3 are both primaries":                     looked(primary, standby, role{primary: true, system: "1", line: "00000001", started: "later"}),
	} {
		if _, err := s.primary(); err == nil || !strings.Contains(err.Error(), what) {
			t.Errorf("%v, want %q", err, what)
		}
	}
}

// Servers that nobody can look at are waited for in time.
func TestServersThatNobodyLooksAt(t *testing.T) {
	s := newServers(make([]string, 2), make(chan struct{}))
	s.begun = true
	ctx, cancel := context.WithTimeout(context.Background(), time.Millisecond)
	defer cancel()
	ended := make(chan error, 1)
	go func() { _, err := s.await(ctx); ended <- err }()
	select {
	case err := <-ended:
		if !errors.Is(err, context.DeadlineExceeded) {
			t.Error(err)
		}
	case <-time.After(patience.Long):
		t.Error("it does not end")
	}
}

// However often the primary is asked for, each server is looked at by one goroutine.
func TestEachServerIsLookedAtOnce(t *testing.T) {
	s := looked(role{primary: true, system: "1"}, role{system: "1"})
	defer s.wait()
	defer close(s.done)
	before := runtime.NumGoroutine()
	for i := 0; i < 100; i++ {
		_, _ = s.await(context.Background()) // (nobody is there)
	}
	if n := runtime.NumGoroutine() - before; n >= 100 {
		t.Errorf("%d goroutines more", n)
	}
}

// A look at a server that hangs ends with its store, and not only after its own time: who closes a store waits for it.
func TestALookEndsWithItsStore(t *testing.T) {
	t.Parallel()
	for try := 1; ; try++ { // (on a busy machine the look may be over before its store is)
		hangs, err := net.Listen("tcp", "127.0.0.1:0")
		if err != nil {
			t.Fatal(err)
		}
		defer hangs.Close()
		url := "postgres://a@" + hangs.Addr().String() + "/a?sslmode=disable"
		s := newServers([]string{url, url}, make(chan struct{}))
		s.begin()
		for range s.all {
			c, err := hangs.Accept()
			if err != nil {
				t.Fatal(err)
			}
			defer c.Close()
		}
		close(s.done)
		s.wait()
		if errors.Is(s.all[0].fault, context.Canceled) || errors.Is(s.all[1].fault, context.Canceled) {
			return
		}
		if try == 10 {
			t.Fatalf("looks end with %v and %v", s.all[0].fault, s.all[1].fault)
		}
	}
}

// A call ends soon after its context, also where a server takes the connection and says nothing.
func TestAConnectionThatBeginsEndsWithItsContext(t *testing.T) {
	t.Parallel()
	hangs, err := net.Listen("tcp", "127.0.0.1:0")
	if err != nil {
		t.Fatal(err)
	}
	defer hangs.Close()
	const times = 20 // (so that what a busy machine adds is less than what the connections would wait)
	from := time.Now()
	for i := 0; i < times; i++ {
		ctx, cancel := context.WithCancel(context.Background())
		go func() {
			if c, err := hangs.Accept(); err == nil {
				defer c.Close()
				_, _ = c.Read(make([]byte, 8)) // (it has sent its first message)
				cancel()
				_, _ = io.Copy(io.Discard, c)
			}
		}()
		if _, err := dial(ctx, "postgres://a@"+hangs.Addr().String()+"/a?sslmode=disable"); err == nil {
			t.Fatal("it is connected")
		}
		cancel()
	}
	if took := time.Since(from); took > times*dialWait/2 {
		t.Errorf("%d connections took %v", times, took)
	}
}

// A server is looked at twice a second, also one that refuses connections at once: no processor is busy with that.
func TestLooksHavePauses(t *testing.T) {
	s := newServers([]string{"postgres://a@127.0.0.1:1/a", "postgres://a@127.0.0.1:2/a"}, make(chan struct{}))
	from, looks := time.Now(), 0
	s.begin()
	for late := time.After(patience.Long); looks < 6; looks++ {
		s.mu.Lock()
		changed := s.changed
		s.mu.Unlock()
		select {
		case <-changed:
		case <-late:
			t.Fatal("nobody looks")
		}
	}
	took := time.Since(from)
	close(s.done)
	s.wait()
	// (Each of the two looks at once, and then at each tick. A look may end between two of these reads, which only lets it take longer.)
	if least := lookEvery; took < least {
		t.Errorf("%d looks took %v, and not %v", looks, took, least)
	}
	if _, err := s.await(context.Background()); err == nil {
		t.Error("servers that nobody reaches have a primary")
	}
}
