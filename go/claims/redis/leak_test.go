package redis

import (
	"context"
	"errors"
	"net"
	"runtime/debug"
	"testing"
	"time"

	"svid.example/go/v3/internal/logtest"
)

// sockets is how many connections a server has, this one among them.
func (s *machine) sockets(t *testing.T) int {
	t.Helper()
	answer, err := s.Do("EVAL", "return tonumber(redis.call('INFO', 'clients'):match('connected_clients:(%d+)'))", "0")
	if err != nil {
		t.Fatal(err)
	}
	n := 0
	for _, c := range answer[1:] {
		n = 10*n + int(c-'0')
	}
	return n
}

// However often a member looks for its primary, it leaves no connection: at the primary, at a replica, or in this process.
func TestEachSearchForThePrimaryLeavesNothing(t *testing.T) {
	t.Parallel()
	primary := start(t)
	replica := startReplica(t, primary)
	s := openedOwn(t, Options{URLs: []string{primary.URL, replica.URL}})
	put(t, s, 1)
	before := [2]int{primary.sockets(t), replica.sockets(t)}
	for i := 0; i < 40; i++ {
		c, err := s.connection(limited(t), s.shards[0])
		if err != nil {
			t.Fatal(err)
		}
		s.leave(c, errReplica) // what has happened to one has happened to all that wait
	}
	put(t, s, 1)
	logtest.Await(t, "the connections to end", func() bool {
		return primary.sockets(t) <= before[0]+1 && replica.sockets(t) <= before[1]+1
	})
}

// What is asked on a connection of its own leaves none, whether it fails or not: else members that try again and again would use up those of the server.
func TestWhatIsAskedOnceLeavesNothing(t *testing.T) {
	server := start(t)
	defer debug.SetGCPercent(debug.SetGCPercent(-1)) // (which closes what nobody has)
	before := server.sockets(t)
	for what, try := range map[string]struct {
		ask  func(s *Store) error
		good bool
	}{
		"a password that is refused": {func(s *Store) error {
			s.servers[0].user, s.servers[0].password = "nobody", "wrong"
			_, err := s.servers[0].dial(limited(t))
			return err
		}, false},
		"what the server is": {func(s *Store) error { return s.find(limited(t)) }, true},
		"whether it fits":    {func(s *Store) error { return s.Check(limited(t)) }, true},
		"the ID of no server of a Cluster": {func(s *Store) error {
			if err := s.find(limited(t)); err != nil {
				return nil
			}
			s.cluster, s.shards[0].at = true, server.Redis.Address
			_, err := s.reach(limited(t), s.shards[0])
			return err
		}, false},
		"the primary, under two names": {func(s *Store) error {
			s.servers = append(s.servers, s.servers[0])
			c, err := s.primary(limited(t))
			if err == nil {
				c.Close()
			}
			return err
		}, true},
		"the primary, as a replica": {func(s *Store) error {
			server.do(t, "REPLICAOF", "127.0.0.1", "1")
			defer server.do(t, "REPLICAOF", "NO", "ONE")
			_, err := s.primary(limited(t))
			return err
		}, false},
		"slots of no Cluster": {func(s *Store) error { _, err := s.servers[0].slots(limited(t)); return err }, false},
	} {
		for i := 0; i < 5; i++ {
			if err := try.ask(newOwn(t, Options{URLs: []string{server.URL}})); (err == nil) != try.good {
				t.Errorf("%s: %v", what, err)
			}
		}
		logtest.Await(t, "the connections to end that asked for "+what, func() bool { return server.sockets(t) <= before })
	}
}

// A burst of calls leaves as many connections as wait for the next one, and no more.
func TestABurstLeavesFewConnections(t *testing.T) {
	t.Parallel()
	server := start(t)
	s := openedOwn(t, Options{URLs: []string{server.URL}})
	var all []*conn
	for i := 0; i < 10*mostIdle; i++ {
		c, err := s.connection(limited(t), s.shards[0])
		if err != nil {
			t.Fatal(err)
		}
		all = append(all, c)
	}
	for _, c := range all {
		s.leave(c, nil)
	}
	logtest.Await(t, "the connections to end", func() bool { return server.sockets(t) <= mostIdle+2 })
	if len(s.open) != mostIdle {
		t.Errorf("%d connections are kept in mind", len(s.open))
	}
	c, err := s.connection(limited(t), s.shards[0])
	if err != nil {
		t.Fatal(err)
	}
	s.leave(c, errReplica) // (so those that wait end, too)
	if len(s.open) > 0 {
		t.Errorf("%d connections that ended are kept in mind", len(s.open))
	}
}

// A server that is away is asked now and then, and holds up no look at the others.
func TestAServerThatIsAwayIsAskedNowAndThen(t *testing.T) {
	t.Parallel()
	l, err := net.Listen("tcp", "127.0.0.1:0")
	if err != nil {
		t.Fatal(err)
	}
	defer l.Close()
	s := newOwn(t, Options{URLs: []string{"redis+sentinel://" + l.Addr().String() + "?service=a", "redis+sentinel://127.0.0.1:1?service=a"}})
	asked, tried, from := 0, 0, time.Now()
	faults := make([]error, 2)
	for i := 0; i < 20; i++ {
		s.ask(limited(t), func(context.Context, int, *conn) { asked++ }, faults)
		var refused *net.OpError
		if errors.As(faults[1], &refused) {
			tried++
		}
	}
	if asked != 20 || faults[0] != nil || faults[1] == nil {
		t.Errorf("the one that is there was asked %d times: %v", asked, faults)
	}
	if took := time.Since(from); tried < 1 || tried > 1+int(took/askOthers) {
		t.Errorf("one that is away was asked %d times in %v: %v", tried, took, faults[1])
	}
	from = time.Now()
	for n, look := 0, pauses(); n < 8; n++ { // (as who waits for a server does)
		look(limited(t))
	}
	if took := time.Since(from); took < 200*time.Millisecond {
		t.Errorf("between 9 calls to a server that is away are %v in all", took)
	}
}

// A server whose connection has ended is asked by another one at the next look: it may be the new primary.
func TestAServerWhoseConnectionsEnd(t *testing.T) {
	t.Parallel()
	l, err := net.Listen("tcp", "127.0.0.1:0")
	if err != nil {
		t.Fatal(err)
	}
	defer l.Close()
	go func() {
		for {
			c, err := l.Accept()
			if err != nil {
				return
			}
			c.Close()
		}
	}()
	s := newOwn(t, Options{URLs: []string{"redis+sentinel://" + l.Addr().String() + "?service=a"}})
	asked, faults := 0, make([]error, 1)
	for i := 0; i < 5; i++ {
		s.ask(limited(t), func(ctx context.Context, _ int, c *conn) {
			asked++
			if _, err := c.do(ctx, cmd("TIME")); err == nil {
				t.Error("a connection that has ended answers")
			}
		}, faults)
	}
	if asked != 5 {
		t.Errorf("it was asked %d times in 5 looks: %v", asked, faults[0])
	}
	if len(s.open) > 0 {
		t.Errorf("%d connections that ended are kept in mind", len(s.open))
	}
}

// Members that come and go leave no key that stays for ever: a group's store has the same few, however often its members were restarted.
func TestMembersThatComeAndGoLeaveNoKey(t *testing.T) {
	t.Parallel()
	server := start(t)
	stay := func() string {
		t.Helper()
		answer, err := server.Do("EVAL", "local n = 0 for _, k in ipairs(redis.call('KEYS', '*')) do if redis.call('TTL', k) < 0 then n = n + 1 end end return n", "0")
		if err != nil {
			t.Fatal(err)
		}
		return answer
	}
	member := func(n int) {
		t.Helper()
		s := openedOwn(t, Options{URLs: []string{server.URL}})
		put(t, s, n)
		if _, err := s.State(limited(t)); err != nil {
			t.Fatal(err)
		}
		s.Close()
	}
	member(1)
	before := stay()
	for n := 2; n < 7; n++ {
		member(n)
	}
	if now := stay(); now != before {
		t.Errorf("keys that stay are %s, and were %s with one member", now, before)
	}
}
