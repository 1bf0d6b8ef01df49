package redis

import (
	"context"
	"errors"
	"fmt"
	"io"
	"net"
	"os"
	"os/exec"
	"path/filepath"
	"strings"
	"sync"
	"sync/atomic"
	"testing"
	"time"
	"unsafe"

	"svid.example/go/v3/claims"
	"svid.example/go/v3/claims/claimstest"
	"svid.example/go/v3/internal/broker"
	"svid.example/go/v3/internal/clocks"
	"svid.example/go/v3/internal/logtest"
	"svid.example/go/v3/internal/patience"
)

// ended looks that the epoch ended for all members, and for one that starts now: all have the same one, and it is deaf.
func ended(t *testing.T, before claims.State, late claims.Store, members ...claims.Store) {
	t.Helper()
	endedFor(t, claimstest.Key()[0], before, late, members...)
}

// endedFor looks so at the shard of the keys that begin with this byte.
func endedFor(t *testing.T, first byte, before claims.State, late claims.Store, members ...claims.Store) {
	t.Helper()
	is := claimstest.Open(t, late)
	if is.Epoch == before.Epoch || is.Deaf < before.Time+claimstest.Usual.Lasts {
		t.Errorf("who starts later has %+v, and before %+v", is, before)
	}
	for _, m := range members {
		logtest.Await(t, "a member to see the end of the epoch", func() bool {
			now := claimstest.State(t, m)
			return now.Epoch == is.Epoch && now.Deaf == is.Deaf
		})
	}
	c := claim(1)
	c.Key[0] = first
	for _, m := range append(members, late) {
		if f := claimstest.Put(t, m, c)[0]; claimstest.Judge(c, f, 60) == claimstest.Mine {
			t.Errorf("a token of the epoch before is accepted: %+v", f)
		}
	}
}

// stays looks that the epoch is the same, for all members and for one that starts now.
func stays(t *testing.T, before claims.State, members ...claims.Store) {
	t.Helper()
	for _, m := range members {
		if is := claimstest.State(t, m); is.Epoch != before.Epoch || is.Deaf != before.Deaf {
			t.Errorf("%+v, and before %+v", is, before)
		}
	}
}

// refused looks that a claim that another member won before is not accepted.
func refused(t *testing.T, m claims.Store, c claims.Claim) {
	t.Helper()
	c.Owner = claimstest.Own(1000)
	if f := claimstest.Put(t, m, c)[0]; claimstest.Judge(c, f, 60) == claimstest.Mine {
		t.Errorf("accepted twice: %+v", f)
	}
}

func put(t *testing.T, m claims.Store, n int) claims.Claim {
	t.Helper()
	c := claim(n)
	if f := claimstest.Put(t, m, c)[0]; claimstest.Judge(c, f, 60) != claimstest.Mine {
		t.Fatalf("%+v", f)
	}
	return c
}

// An entry that somebody removes by hand is seen by the member whose last one it was. Of others nobody sees it.
func TestAnEntryThatIsRemovedByHand(t *testing.T) {
	t.Parallel()
	s := start(t)
	a, b := opened(t, Options{URLs: []string{s.URL}}), opened(t, Options{URLs: []string{s.URL}})
	before := claimstest.State(t, a)
	first, last := put(t, a, 1), put(t, a, 1)
	s.do(t, "DEL", keyOf(first))
	again := first
	again.Owner = claimstest.Own(2)
	if f := claimstest.Put(t, b, again)[0]; claimstest.Judge(again, f, 60) != claimstest.Mine {
		t.Errorf("(docs/STORES.md says that it is not seen) %+v", f)
	}
	stays(t, before, a, b)
	s.do(t, "DEL", keyOf(last))
	claimstest.State(t, a)
	ended(t, before, newStore(t, Options{URLs: []string{s.URL}}), a, b)
	before, last.Expires = claimstest.State(t, a), claimstest.Now()-1 // (a member whose clock is behind may still accept its token)
	last.Key = claimstest.Key()
	claimstest.Put(t, a, last)
	s.do(t, "DEL", keyOf(last))
	claimstest.State(t, a)
	ended(t, before, newStore(t, Options{URLs: []string{s.URL}}), a, b)
}

// A replica that lacks entries comes up as the primary, under the same name.
func TestAReplicaUnderTheSameName(t *testing.T) {
	t.Parallel()
	primary := start(t)
	replica := startReplica(t, primary)
	o := Options{URLs: []string{primary.URL}}
	a, b := opened(t, o), comparing(t, o)
	there := put(t, a, 1)
	before := claimstest.State(t, a)
	has(t, replica, there)
	replica.Redis.Kill()
	lost := put(t, a, 1)
	primary.Redis.Kill()
	logtest.CopyAll(t, replica.Dir, primary.Dir)
	claimstest.Watch(t, a)
	primary.Start(t)
	refused(t, b, lost)
	ended(t, before, newStore(t, o), a, b)
}

// startReplica starts a replica, and waits until it follows.
func startReplica(t *testing.T, primary *machine, more ...string) *machine {
	t.Helper()
	host, port, _ := strings.Cut(primary.Redis.Address, ":")
	replica := start(t, append([]string{"--replicaof", host + " " + port}, more...)...)
	follows(t, replica)
	return replica
}

func follows(t *testing.T, replica *machine) {
	t.Helper()
	logtest.Await(t, "the replica", func() bool {
		answer, err := replica.Do("EVAL", "return redis.call('INFO', 'replication'):match('master_link_status:up') or 'down'", "0")
		return err == nil && strings.HasPrefix(answer, "$21")
	})
}

// has waits until a replica's disk has an entry.
func has(t *testing.T, replica *machine, c claims.Claim) {
	t.Helper()
	logtest.Await(t, "the replica's disk to have it", func() bool {
		answer, err := replica.Do("EVAL", "local p = redis.call('INFO', 'persistence'); return p:find('aof_rewrite_in_progress:0') and "+
			"p:find('aof_rewrite_scheduled:0') and redis.call('EXISTS', KEYS[1])", "1", keyOf(c))
		return err == nil && answer == ":1"
	})
}

// A replica takes over from a primary that ended. Without Replicas the epoch ends, also where it lacks nothing that a member knows of.
func TestATakeover(t *testing.T) {
	t.Parallel()
	primary := start(t)
	replica := startReplica(t, primary)
	o := Options{URLs: []string{primary.URL, replica.URL}}
	a, b := opened(t, o), opened(t, o)
	before := claimstest.State(t, a)
	there := put(t, a, 1)
	has(t, replica, there)
	replica.Redis.Pause()
	lost := put(t, a, 1)
	primary.Redis.Kill()
	replica.Redis.Resume()
	replica.do(t, "REPLICAOF", "NO", "ONE")
	refused(t, b, lost)
	refused(t, b, there)
	ended(t, before, newStore(t, o), a, b)
}

// With Replicas a claim counts once a replica has it, so a replica that takes over lacks none, and the epoch stays.
func TestATakeoverWithReplicas(t *testing.T) {
	t.Parallel()
	primary := start(t)
	first, second := startReplica(t, primary), startReplica(t, primary)
	o := Options{URLs: []string{primary.URL, first.URL, second.URL}, Replicas: 3}
	a, b, c := opened(t, o), opened(t, o), opened(t, o)
	before := claimstest.State(t, a)
	there := put(t, a, 1)
	claimstest.Watch(t, a)
	first.Redis.Pause()
	alone := claim(1)
	for _, m := range []claims.Store{b, c} { // (the second time the entry is there, and counts no more than the first time)
		if f := claimstest.Try(m, time.Second, alone)[0]; f.Err == nil {
			t.Errorf("one replica has it, and it counts: %+v", f)
		}
	}
	first.Redis.Resume()
	if f := claimstest.Put(t, b, alone)[0]; claimstest.Judge(alone, f, 60) != claimstest.Mine {
		t.Errorf("%+v", f)
	}
	primary.Redis.Kill()
	first.do(t, "REPLICAOF", "NO", "ONE")
	host, port, _ := strings.Cut(first.Redis.Address, ":")
	second.do(t, "REPLICAOF", host, port)
	third := startReplica(t, first)
	refused(t, b, there)
	put(t, b, 2)
	stays(t, before, a, b, opened(t, Options{URLs: []string{first.URL, third.URL}, Replicas: 3}))
}

// Too few replicas are said.
func TestTooFewReplicas(t *testing.T) {
	t.Parallel()
	s := start(t)
	claimstest.Refuses(t, newStore(t, Options{URLs: []string{s.URL + "?replicas=2"}}), "replicas have it, and 1 must")
}

// A server that is named twice is one server.
func TestAServerThatIsNamedTwice(t *testing.T) {
	t.Parallel()
	s := start(t)
	a := openedOwn(t, Options{URLs: []string{s.URL, s.URL}})
	put(t, a, 1)
	claimstest.State(t, a)
}

// Two servers say that they are the primary: nobody accepts anything, and all goes on once one of them is a replica again.
func TestTwoPrimaries(t *testing.T) {
	t.Parallel()
	primary := start(t)
	replica := startReplica(t, primary)
	o := Options{URLs: []string{primary.URL, replica.URL}}
	a := opened(t, o)
	before := claimstest.State(t, a)
	put(t, a, 1)
	replica.do(t, "REPLICAOF", "NO", "ONE")
	const both = "both that they are the primary"
	logtest.Await(t, "a member to see both", func() bool {
		_, err := a.State(limited(t))
		return err != nil && strings.Contains(err.Error(), both)
	})
	if f := claimstest.Try(a, 5*time.Second, claim(1))[0]; f.Err == nil {
		t.Errorf("%+v", f)
	}
	logtest.Await(t, "a member that starts to see both", func() bool {
		err := tryOpen(t, o, 5*time.Second)
		return err != nil && strings.Contains(err.Error(), both)
	})
	host, port, _ := strings.Cut(primary.Redis.Address, ":")
	replica.do(t, "REPLICAOF", host, port)
	follows(t, replica)
	stays(t, before, a)
	put(t, a, 1)
}

// Connections end while the computer is suspended, and a replica is promoted. The first look sees that: it does not ask by a connection of before.
func TestAServerThatIsAskedAfterASuspension(t *testing.T) {
	t.Parallel()
	primary := start(t)
	replica := startReplica(t, primary)
	a := openedOwn(t, Options{URLs: []string{primary.URL, replica.URL}})
	claimstest.State(t, a)
	replica.do(t, "REPLICAOF", "NO", "ONE")
	a.watching.Lock()
	for _, w := range a.watched {
		if w.conn != nil {
			w.conn.raw.Close()
		}
	}
	a.watching.Unlock()
	suspended := time.Duration(0)
	for end := time.Now().Add(patience.Long); ; {
		suspended += time.Hour
		a.now = func() clocks.Moment { return clocks.Moment{Wall: clocks.Now().Wall + suspended} }
		faults, seen, isLate := make([]error, 2), make([]error, 2), false
		a.ask(limited(t), func(ctx context.Context, i int, c *conn) {
			if seen[i] = isPrimary(ctx, c); i == 1 {
				isLate = ctx.Err() != nil
			}
		}, faults)
		if (isLate || faults[1] != nil) && time.Now().Before(end) {
			continue // (a busy server may not answer in time)
		}
		if seen[1] != nil || faults[1] != nil {
			t.Errorf("the new primary is seen as none: %v %v", seen[1], faults[1])
		}
		return
	}
}

// A replica becomes a primary while the computer is suspended, and the old primary goes on as one. What it answers who wakes up does not count, and neither
// does what it answered to a call that was under way.
func TestAnOldPrimaryAfterASuspension(t *testing.T) {
	t.Parallel()
	primary := start(t)
	replica := startReplica(t, primary)
	put := func(s *Store) error {
		found := make([]claims.Found, 1)
		s.Put(limited(t), []claims.Claim{claim(60)}, found)
		return found[0].Err
	}
	rows := []struct {
		what  string
		looks int32 // at the clock, before the computer is suspended
		call  func(s *Store) error
	}{
		{"a claim", 0, put},
		{"a claim that has begun", 1, put},
		{"a claim that has a connection", 2, put},
		{"a claim that was sent", 3, put},
		{"a withdrawal", 0, func(s *Store) error {
			_, err := s.Withdraw(limited(t), claims.Withdrawal{Key: claim(1).Key, Expires: claim(60).Expires})
			return err
		}},
		{"withdrawals", 0, func(s *Store) error {
			_, _, err := s.Withdrawals(limited(t), "")
			return err
		}},
	}
	members := make([]*Store, len(rows))
	for i := range rows {
		members[i] = openedOwn(t, Options{URLs: []string{primary.URL, replica.URL}})
		claimstest.Put(t, members[i], claim(60))
	}
	replica.do(t, "REPLICAOF", "NO", "ONE")
	for i, row := range rows {
		var looks atomic.Int32
		members[i].now = func() clocks.Moment {
			now := clocks.Now()
			if looks.Add(1) > row.looks {
				now.Wall += time.Hour
			}
			return now
		}
		if err := row.call(members[i]); err == nil || !strings.Contains(err.Error(), "both that they are the primary") {
			t.Errorf("%s: %v", row.what, err)
		}
	}
}

// A call that took long does not count where another server has taken over meanwhile. Of a server that is alone it does.
func TestAnAnswerOfAServerThatWasReplaced(t *testing.T) {
	t.Parallel()
	primary := start(t)
	replica := startReplica(t, primary)
	for _, urls := range [][]string{{primary.URL, replica.URL}, {primary.URL}} {
		s := openedOwn(t, Options{URLs: urls})
		claimstest.Put(t, s, claim(60))
		c, err := s.take(limited(t), s.shards)
		if err != nil {
			t.Fatal(err)
		}
		s.lost()
		if err := s.stays(limited(t), c, clocks.Moment{}); (err == errMeanwhile) != (len(urls) > 1) || err != nil && len(urls) == 1 {
			t.Errorf("of %d servers: %v", len(urls), err)
		}
		s.leave(c, nil)
	}
}

// A look that has no time says nothing: the next claim looks again.
func TestALookThatHasNoTime(t *testing.T) {
	t.Parallel()
	primary := start(t)
	replica := startReplica(t, primary)
	s := openedOwn(t, Options{URLs: []string{primary.URL, replica.URL}})
	s.now = func() clocks.Moment { return clocks.Moment{Wall: clocks.Now().Wall + time.Hour} }
	ctx, cancel := context.WithCancel(context.Background())
	cancel()
	if err := s.watch(ctx); err == nil || !s.isUnwatched() {
		t.Errorf("it counts: %v", err)
	}
	if err := s.watch(limited(t)); err != nil || s.isUnwatched() {
		t.Errorf("one that has time does not: %v", err)
	}
}

// A token is withdrawn again until later. Its entry goes when the first withdrawal ends, and nobody takes that for a loss.
func TestATokenThatIsWithdrawnAgain(t *testing.T) {
	t.Parallel()
	s := start(t)
	a, b := opened(t, Options{URLs: []string{s.URL}}), opened(t, Options{URLs: []string{s.URL}})
	before := claimstest.State(t, a)
	w := withdrawal()
	claimstest.Withdraw(t, a, w)
	a.Close()
	w.Expires += 1000
	if owner := claimstest.Withdraw(t, b, w); owner != claims.Withdrawn {
		t.Errorf("%x", owner)
	}
	s.do(t, "DEL", keyOf(claims.Claim{Key: w.Key})) // (as the server does by itself then)
	stays(t, before, b)
}

// A primary becomes a replica of a server that lacks entries, and a primary again. Connections outlive that.
func TestAPrimaryThatWasAReplica(t *testing.T) {
	t.Parallel()
	s, other := start(t), start(t)
	o := Options{URLs: []string{s.URL}}
	a, b := opened(t, o), opened(t, o)
	before := claimstest.State(t, a)
	put(t, b, 2)
	lost := put(t, a, 1)
	host, port, _ := strings.Cut(other.Redis.Address, ":")
	s.do(t, "REPLICAOF", host, port)
	follows(t, s)
	if f := claimstest.Try(a, 200*time.Millisecond, claim(1))[0]; f.Err == nil {
		t.Errorf("put into a replica: %+v", f)
	}
	s.do(t, "REPLICAOF", "NO", "ONE")
	refused(t, b, lost)
	ended(t, before, newStore(t, o), a, b)
}

// Once the server at an address is a replica, the next call connects again: the address may lead to the primary by then.
func TestAnAddressThatLeadsToAnotherServer(t *testing.T) {
	t.Parallel()
	replica, primary := start(t), start(t)
	var to atomic.Value
	to.Store(replica.Redis.Address)
	s := openedOwn(t, Options{URLs: []string{"redis://" + leading(t, &to)}})
	put(t, s, 1)
	replica.do(t, "REPLICAOF", "127.0.0.1", "1")
	to.Store(primary.Redis.Address)
	logtest.Await(t, "a claim at the primary", func() bool {
		return claimstest.Try(s, time.Second, claim(2))[0].Err == nil
	})
}

// leading is an address that leads each new connection to another one.
func leading(t *testing.T, to *atomic.Value) string {
	t.Helper()
	l, err := net.Listen("tcp", "127.0.0.1:0")
	if err != nil {
		t.Fatal(err)
	}
	t.Cleanup(func() { l.Close() })
	go func() {
		for {
			from, err := l.Accept()
			if err != nil {
				return
			}
			other, err := net.Dial("tcp", to.Load().(string))
			if err != nil {
				from.Close()
				continue
			}
			go func() { _, _ = io.Copy(other, from); other.Close() }()
			go func() { _, _ = io.Copy(from, other); from.Close() }()
		}
	}()
	return l.Addr().String()
}

// As before, and it lost nothing that the record tells, for a member that put nothing meanwhile: each put looks at the server's run.
func TestEachPutLooksAtTheRun(t *testing.T) {
	t.Parallel()
	s := start(t)
	replica := startReplica(t, s)
	o := Options{URLs: []string{s.URL}}
	a, b := opened(t, o), opened(t, o)
	before := claimstest.State(t, a)
	has(t, replica, put(t, a, 1))
	has(t, replica, put(t, b, 2))
	replica.do(t, "REPLICAOF", "NO", "ONE")
	lost := put(t, a, 1) // (the other server has the record, and not this)
	host, port, _ := strings.Cut(replica.Redis.Address, ":")
	s.do(t, "REPLICAOF", host, port)
	follows(t, s)
	s.do(t, "REPLICAOF", "NO", "ONE")
	lost.Owner = claimstest.Own(2)
	// (a client of another language may look again within the call, and then say whose it is)
	if f := claimstest.Try(b, 5*time.Second, lost)[0]; claimstest.Judge(lost, f, 60) == claimstest.Mine || f.Err == nil && !claimstest.OfOthers() {
		t.Errorf("the first put at another run counts: %+v", f)
	}
	refused(t, b, lost)
	ended(t, before, newStore(t, o), a, b)
}

// A connection that is new may lead to a server that an older copy has replaced, down to its memory: it has the run and the record. A look that was
// under way before says nothing of it.
func TestALookThatANewConnectionOvertook(t *testing.T) {
	t.Parallel()
	s := start(t)
	o := Options{URLs: []string{s.URL}}
	a := openedOwn(t, o)
	before := claimstest.State(t, a)
	there := put(t, a, 1)
	c, err := a.connection(limited(t), a.shards[0])
	if err != nil {
		t.Fatal(err)
	}
	views, err := a.look(limited(t), c, a.shards)
	if err != nil {
		t.Fatal(err)
	}
	s.do(t, "DEL", keyOf(there))
	s.do(t, "CLIENT", "KILL", "TYPE", "normal", "SKIPME", "yes")
	a.drop(c)
	if c, err = a.connection(limited(t), a.shards[0]); err != nil {
		t.Fatal(err)
	}
	a.adopt(a.shards[0], views[0])
	a.give(c)
	refused(t, a, there)
	ended(t, before, newStore(t, o), a)
}

// Nothing counts at a new run before members have had the time to compare.
func TestMembersCompareFirst(t *testing.T) {
	t.Parallel()
	s := start(t)
	o := Options{URLs: []string{s.URL}, Wait: time.Hour / 60}
	quick := o
	quick.Wait = 0
	a := opened(t, quick)
	before := claimstest.State(t, a)
	there := put(t, a, 1)
	s.Redis.Kill()
	s.Start(t)
	b := newStore(t, o)
	logtest.Await(t, "a member to say that it compares", func() bool {
		ctx, cancel := context.WithTimeout(context.Background(), time.Second)
		defer cancel()
		if _, err := b.Open(ctx); err == nil {
			t.Fatal("it does not compare")
		}
		r, _ := readRecord(recordOf(t, s))
		return r.next != "" && r.until != 0
	})
	if f := claimstest.Try(a, 300*time.Millisecond, there)[0]; f.Err == nil { // (it may compare for as long as the other one said)
		t.Errorf("%+v", f)
	}
	r, _ := readRecord(recordOf(t, s))
	if r.id != before.Epoch || r.next == "" || r.until == 0 {
		t.Errorf("%+v", r)
	}
}

func recordOf(t *testing.T, s *machine) string {
	t.Helper()
	return strings.TrimPrefix(s.do(t, "EVAL", "return {ok = redis.call('GET', KEYS[1]) or ''}", "1", "svid:{svid}:epoch"), "+")
}

// Sentinel lets a replica that lacks entries take over.
func TestSentinel(t *testing.T) {
	t.Parallel()
	for _, replicas := range []int{1, 2} {
		t.Run(fmt.Sprint(replicas), func(t *testing.T) {
			primary := start(t)
			all := []*machine{primary, startReplica(t, primary)}
			if replicas > 1 {
				all = append(all, startReplica(t, primary))
			}
			var o Options
			var sentinels []*broker.Redis
			for i := 0; i < 3; i++ {
				s, err := broker.NewSentinel(t.TempDir(), "svid", primary.Redis.Address, 2)
				if err == nil {
					err = s.Start()
				}
				if err != nil {
					t.Fatal(err)
				}
				t.Cleanup(s.Kill)
				sentinels, o.URLs = append(sentinels, s), append(o.URLs, s.URL)
			}
			for _, url := range o.URLs {
				one, err := parse(url)
				if err != nil {
					t.Fatal(err)
				}
				logtest.Await(t, "the Sentinels to know each other", func() bool {
					c, err := one.dial(limited(t))
					if err != nil {
						return false
					}
					defer c.Close()
					answers, err := c.do(limited(t), cmd("SENTINEL", "CKQUORUM", "svid"), cmd("SENTINEL", "REPLICAS", "svid"), cmd("SENTINEL", "SENTINELS", "svid"))
					if err != nil || firstFailure(answers) != nil {
						return false
					}
					found, _ := answers[1].([]any)
					others, _ := answers[2].([]any)
					return len(found) == len(all)-1 && len(others) == 2
				})
			}
			o.Replicas = replicas
			a, b := opened(t, o), opened(t, o)
			before := claimstest.State(t, a)
			claimstest.Watch(t, a)
			claimstest.Watch(t, b)
			var ledger claimstest.Ledger
			end := claimstest.Load(t, &ledger, a, b)
			logtest.Await(t, "some claims", func() bool { return ledger.Len() > 200 })
			var lost claims.Claim
			if replicas == 1 {
				all[1].Redis.Pause()
				lost = put(t, a, 1)
			}
			primary.Redis.Kill()
			notice(t, sentinels...)
			if replicas == 1 {
				all[1].Redis.Resume()
				refused(t, b, lost)
				end()
				ended(t, before, newStore(t, o), a, b)
				return
			}
			n := ledger.Len()
			logtest.Await(t, "some more", func() bool { return ledger.Len() > n+200 })
			end()
			stays(t, before, a, b, opened(t, o))
		})
	}
}

// notice lets Sentinels notice that the primary has ended.
func notice(t *testing.T, sentinels ...*broker.Redis) {
	t.Helper()
	for _, s := range sentinels {
		if err := s.Notice("svid"); err != nil {
			t.Fatal(err)
		}
	}
}

// startClock starts a server whose clock can be set to a number of seconds before this machine's, or behind it.
func startClock(t *testing.T) (s *machine, set func(seconds int64)) {
	t.Helper()
	dir := t.TempDir()
	library, offset := filepath.Join(dir, "clock.so"), filepath.Join(dir, "offset")
	if out, err := exec.Command("gcc", "-shared", "-fPIC", "-O1", "-Wall", "-o", library, "testdata/clock.c").CombinedOutput(); err != nil {
		t.Fatalf("%v: %s", err, out)
	}
	file, err := os.Create(offset)
	if err != nil {
		t.Fatal(err)
	}
	t.Cleanup(func() { file.Close() })
	set = func(seconds int64) {
		t.Helper()
		var text [8]byte
		*(*int64)(unsafe.Pointer(&text)) = seconds
		if _, err := file.WriteAt(text[:], 0); err != nil {
			t.Fatal(err)
		}
	}
	set(0)
	t.Setenv("CLOCK_OFFSET", offset)
	t.Setenv("LD_PRELOAD", library)
	s = start(t)
	os.Unsetenv("LD_PRELOAD") // (t.Setenv puts back what was there)
	return s, set
}

// The server's clock goes back by a day, or ahead.
func TestAClockThatIsADayOff(t *testing.T) {
	s, set := startClock(t)
	const day = 86400
	o := Options{URLs: []string{s.URL}}
	a, b := opened(t, o), opened(t, o)
	before := claimstest.State(t, a)
	there := put(t, a, 1)
	set(-30)
	put(t, b, 2) // (within what it may step back)
	stays(t, before, a, b)
	set(-day)
	there.Owner = claimstest.Own(3)
	for n := 0; n < 3; n++ {
		if f := claimstest.Try(b, 5*time.Second, there)[0]; claimstest.Judge(there, f, 60) == claimstest.Mine {
			t.Errorf("accepted twice: %+v", f)
		}
		c := claim(3)
		c.Expires -= day
		if f := claimstest.Try(b, 5*time.Second, c)[0]; claimstest.Judge(c, f, 60) == claimstest.Mine {
			t.Errorf("the epoch goes on: %+v", f)
		}
	}
	is := claimstest.Open(t, newStore(t, o))
	if is.Epoch == before.Epoch || is.Deaf < before.Time+claimstest.Usual.Lasts {
		t.Errorf("%+v, and before %+v", is, before)
	}
	for _, m := range []claims.Store{a, b} {
		if now := claimstest.State(t, m); now.Epoch != is.Epoch || now.Deaf != is.Deaf {
			t.Errorf("%+v, and not %+v", now, is)
		}
	}
	before = claimstest.State(t, a)
	set(day)
	from := claimstest.Now()
	is = claimstest.State(t, b)
	if is.Epoch != before.Epoch || is.Time < from+day-1 {
		t.Errorf("%+v", is)
	}
	c := claim(1)
	if f := claimstest.Put(t, b, c)[0]; claimstest.Judge(c, f, 60) != claimstest.Expired {
		t.Errorf("by a clock that is ahead: %+v", f)
	}
	late := newStore(t, o)
	set(0)
	claimstest.Open(t, late) // (who starts now knows it by what the others have seen)
	f := claimstest.Put(t, late, c)[0]
	if f.Deaf < claimstest.Now()+day-10 || claimstest.Judge(c, f, 60) == claimstest.Mine {
		t.Errorf("%+v", f)
	}
	set(day)
	other := opened(t, o)
	before = claimstest.State(t, other)
	s.do(t, "DEL", "svid:{svid}:seen") // (what all have seen; each one still knows what it has seen itself)
	set(0)
	if is := claimstest.State(t, other); is.Epoch == before.Epoch {
		t.Errorf("%+v, and before %+v", is, before)
	}
}

// A server whose memory is full refuses claims, and keeps those that it has.
func TestFullMemory(t *testing.T) {
	t.Parallel()
	s := start(t)
	full(t, s, func() { s.do(t, "CONFIG", "SET", "maxmemory", "1mb") }, func() { s.do(t, "CONFIG", "SET", "maxmemory", "0") })
}

// One whose disk is full ends, and goes on once there is room.
func TestFullDisk(t *testing.T) {
	t.Parallel()
	dir, fill, free, ok := logtest.Small(t, 16)
	if !ok {
		t.Skip("a small disk needs root")
	}
	s := startIn(t, dir)
	full(t, s, fill, func() {
		free()
		if !s.Answers() {
			s.Redis.Kill()
			s.Start(t)
		}
	})
}

func full(t *testing.T, s *machine, fill, free func()) {
	o := Options{URLs: []string{s.URL}}
	a, b := opened(t, o), opened(t, o)
	before := claimstest.State(t, a)
	claimstest.Watch(t, a)
	var won []claims.Claim
	fill()
	for {
		c := claim(1)
		f := claimstest.Try(a, time.Second, c)[0]
		if f.Err != nil {
			break
		}
		if won = append(won, c); len(won) > 200_000 {
			t.Fatal("the server has room")
		}
	}
	free()
	for _, c := range won {
		refused(t, b, c)
	}
	put(t, b, 2)
	stays(t, before, a, b, opened(t, o))
}

// SET of an expired entry answers OK, and nothing is kept: the store's time decides.
func TestWhatIsOverIsNotKept(t *testing.T) {
	t.Parallel()
	s := start(t)
	a := opened(t, Options{URLs: []string{s.URL}})
	for _, ago := range []uint64{claimstest.Usual.Margin, claimstest.Usual.Margin + 1, 1 << 20} {
		for n := 0; n < 2; n++ {
			c := claim(n)
			c.Expires = claimstest.Now() - ago
			f := claimstest.Put(t, a, c)[0]
			if f.Owner != c.Owner || f.Time < c.Expires+claimstest.Usual.Margin {
				t.Errorf("%+v", f)
			}
			if got := s.do(t, "EXISTS", keyOf(c)); got != ":0" {
				t.Errorf("%d s ago: it is kept: %s", ago, got)
			}
		}
	}
}

// Answers that come too late are no answers to what was asked next.
func TestLateAnswers(t *testing.T) {
	t.Parallel()
	s := start(t)
	o := Options{URLs: []string{s.URL}}
	a, b := opened(t, o), opened(t, o)
	before := claimstest.State(t, a)
	var ledger claimstest.Ledger
	end := claimstest.Load(t, &ledger, a, b)
	for n := 0; n < 5; n++ {
		at := ledger.Len()
		logtest.Await(t, "some claims", func() bool { return ledger.Len() > at+50 })
		s.Redis.Pause()
		for i := 0; i < 3; i++ {
			if f := claimstest.Try(a, 30*time.Millisecond, claim(5))[0]; f.Err == nil {
				t.Errorf("%+v", f)
			}
		}
		s.Redis.Resume()
	}
	end()
	stays(t, before, a, b)
}

// lateAnswer is a member to whom an answer comes late: the claim is put, and what was found comes after release.
func lateAnswer(t *testing.T, s *machine) (a claims.Store, c claims.Claim, release func() claims.Found) {
	t.Helper()
	return lateAnswerFor(t, s, opened)
}

func lateAnswerFor(t *testing.T, s *machine, opened func(testing.TB, Options) claims.Store) (a claims.Store, c claims.Claim, release func() claims.Found) {
	t.Helper()
	proxy := logtest.NewProxy(t, s.Redis.Address)
	a, c = opened(t, Options{URLs: []string{"redis://" + proxy.Address}}), claim(1)
	put(t, a, 1)
	end := proxy.Hold(t, c.Key[:])
	found := make(chan claims.Found, 1)
	go func() { found <- claimstest.Try(a, patience.Long, c)[0] }()
	logtest.Await(t, "the entry", func() bool { return s.do(t, "EXISTS", keyOf(c)) == ":1" })
	return a, c, func() claims.Found { end(); return <-found }
}

// Two answers are read in another order than that in which the server put the entries. Of both, a member knows the one that was put last.
func TestAnswersInAnotherOrder(t *testing.T) {
	t.Parallel()
	for name, prepare := range map[string]func(t *testing.T, s *machine){
		"alone": func(*testing.T, *machine) {}, "with a replica": func(t *testing.T, s *machine) { startReplica(t, s) },
	} {
		prepare := prepare
		t.Run(name, func(t *testing.T) {
			s := start(t)
			prepare(t, s)
			a, first, release := lateAnswer(t, s)
			before := claimstest.State(t, a)
			last := put(t, a, 1)
			if f := release(); claimstest.Judge(first, f, 60) != claimstest.Mine {
				t.Fatalf("%+v", f)
			}
			s.do(t, "DEL", keyOf(last))
			claimstest.State(t, a)
			ended(t, before, newStore(t, Options{URLs: []string{s.URL}}), a)
		})
	}
}

// The server may take a part of a call, then another call, and then the rest, whose claims others have won. Of both calls, a member knows the entry that
// was put last.
func TestACallThatIsCut(t *testing.T) {
	t.Parallel()
	s := start(t)
	startReplica(t, s)
	proxy := logtest.NewProxy(t, s.Redis.Address)
	a, b := opened(t, Options{URLs: []string{"redis://" + proxy.Address}}), opened(t, Options{URLs: []string{s.URL}})
	before := claimstest.State(t, a)
	these := []claims.Claim{claim(1), put(t, b, 2)}
	these[1].Owner = these[0].Owner
	release := proxy.Cut(t, these[1].Key[:])
	answers := make(chan []claims.Found, 1)
	go func() { answers <- claimstest.Try(a, patience.Long, these...) }()
	logtest.Await(t, "the first part", func() bool { return s.do(t, "EXISTS", keyOf(these[0])) == ":1" })
	last := put(t, a, 1)
	release()
	if f := <-answers; claimstest.Judge(these[0], f[0], 60) != claimstest.Mine || f[1].Err != nil || f[1].Owner == these[1].Owner {
		t.Fatalf("%+v", f)
	}
	s.do(t, "DEL", keyOf(last))
	claimstest.State(t, a)
	ended(t, before, newStore(t, Options{URLs: []string{s.URL}}), a)
}

// A claim whose answer was lost finds its own entry. A member that was answered so knows it as one that it has put, beside those that came later.
func TestAnEntryThatWasFound(t *testing.T) {
	t.Parallel()
	for _, isLast := range []bool{true, false} {
		isLast := isLast
		t.Run(fmt.Sprint(isLast), func(t *testing.T) {
			s := start(t)
			proxy := logtest.NewProxy(t, s.Redis.Address)
			a := opened(t, Options{URLs: []string{"redis://" + proxy.Address}})
			before := claimstest.State(t, a)
			put(t, a, 1)
			found := claim(1)
			proxy.Lose(found.Key[:])
			claimstest.Try(a, patience.Long, found)
			last := put(t, a, 1)
			if f := claimstest.Put(t, a, found)[0]; !proxy.HasLost() || claimstest.Judge(found, f, 60) != claimstest.Mine {
				t.Fatalf("%+v", f)
			}
			if !isLast {
				found = last
			}
			s.do(t, "DEL", keyOf(found))
			claimstest.State(t, a)
			ended(t, before, newStore(t, Options{URLs: []string{s.URL}}), a)
		})
	}
}

// Claims whose answers were lost find their entries in one call. Whichever came last at the server, the member knows it.
func TestEntriesThatWereFound(t *testing.T) {
	t.Parallel()
	s := start(t)
	proxy := logtest.NewProxy(t, s.Redis.Address)
	a := opened(t, Options{URLs: []string{"redis://" + proxy.Address}})
	before := claimstest.State(t, a)
	put(t, a, 1) // (then the server has the scripts of others)
	first, last := claim(1), claim(1)
	for _, c := range []claims.Claim{first, last} {
		proxy.Lose(c.Key[:])
		claimstest.Try(a, patience.Long, c)
		if !proxy.HasLost() {
			t.Fatal("the answer came")
		}
	}
	for n, f := range claimstest.Put(t, a, last, first) {
		if claimstest.Judge(first, f, 60) != claimstest.Mine {
			t.Fatalf("%d: %+v", n, f)
		}
	}
	s.do(t, "DEL", keyOf(last))
	claimstest.State(t, a)
	ended(t, before, newStore(t, Options{URLs: []string{s.URL}}), a)
}

// A member knows few entries, however many it puts or finds: each look asks for all of them.
func TestFewEntriesAreKnown(t *testing.T) {
	t.Parallel()
	it := &shard{prefix: "svid:"}
	p := &part{shards: []*shard{it}, claims: []int{0}, of: []int{0}}
	for n := 0; n < 2*mostKnown; n++ {
		c := claim(1)
		p.note(1, []int{0}, []any{c.Owner[:]}, []claims.Claim{c}, []sent{{}}, false)
	}
	if len(it.claimed) != mostKnown {
		t.Errorf("%d that were found", len(it.claimed))
	}
	for n := 0; n < 2; n++ {
		p.note(1, []int{0}, []any{"OK"}, []claims.Claim{claim(1)}, []sent{{claimed: it.claimed}}, true)
		if len(it.claimed) != 1 {
			t.Errorf("%d entries are known after a new one, and not that one alone", len(it.claimed))
		}
	}
	last := it.claimed[0]
	for n := 0; n < 2*mostKnown; n++ {
		c := claim(1)
		p.note(1, []int{0}, []any{c.Owner[:]}, []claims.Claim{c}, []sent{{}}, false)
	}
	if len(it.claimed) != mostKnown || !knows(it.claimed, last) {
		t.Errorf("%d entries are known, and the one that was put last is one of them: %t", len(it.claimed), knows(it.claimed, last))
	}
}

// An answer comes once its member has compared with a later run of the server, which lacks the entry: another member has won the token there.
func TestAnAnswerOfAnEarlierRun(t *testing.T) {
	t.Parallel()
	s := start(t)
	a, c, release := lateAnswer(t, s)
	b := opened(t, Options{URLs: []string{s.URL}})
	before := claimstest.State(t, a)
	s.do(t, "DEL", keyOf(c))
	s.Redis.Kill()
	s.Start(t)
	logtest.Await(t, "the later run", func() bool { put(t, a, 1); return claimstest.State(t, a).Epoch == before.Epoch })
	other := c
	other.Owner = claimstest.Own(2)
	won := claimstest.Put(t, b, other)[0]
	if f := release(); claimstest.Judge(c, f, 60) == claimstest.Mine && claimstest.Judge(other, won, 60) == claimstest.Mine {
		t.Errorf("accepted twice: %+v and %+v", f, won)
	}
	stays(t, before, a, b)
}

// As before, for a member that looked at nothing meanwhile.
func TestALateAnswerOfAServerThatIsGone(t *testing.T) {
	t.Parallel()
	serverIsGone(t, opened)
}

// As before, for a member whose computer is suspended while it waits.
func TestALateAnswerAfterASuspension(t *testing.T) {
	t.Parallel()
	serverIsGone(t, func(t testing.TB, o Options) claims.Store {
		store := newOwn(t, o)
		store.now = func() clocks.Moment { return clocks.Moment{Wall: clocks.Now().Wall} }
		claimstest.Open(t, store)
		return store
	})
}

// serverIsGone lets a claim's server go, and be emptied, before its member reads the answer. Another member claims the token meanwhile.
func serverIsGone(t *testing.T, member func(testing.TB, Options) claims.Store) {
	t.Helper()
	s := start(t)
	a, c, release := lateAnswerFor(t, s, member)
	b := opened(t, Options{URLs: []string{s.URL}})
	s.do(t, "DEL", keyOf(c))
	s.Redis.Kill()
	s.Start(t)
	other := c
	other.Owner = claimstest.Own(2)
	won := claimstest.Put(t, b, other)[0]
	if f := release(); claimstest.Judge(c, f, 60) == claimstest.Mine && claimstest.Judge(other, won, 60) == claimstest.Mine {
		t.Errorf("accepted twice: %+v and %+v", f, won)
	}
	claimstest.State(t, a)
}

// A claim compares with a server that is slow for as long as anybody waits for it, though no look has time enough.
func TestAServerThatIsSlow(t *testing.T) {
	t.Parallel()
	s := start(t)
	proxy := logtest.NewProxy(t, s.Redis.Address)
	a := opened(t, Options{URLs: []string{"redis://" + proxy.Address}})
	proxy.Delay(turnWait + turnWait/10)
	ctx, cancel := context.WithTimeout(context.Background(), turnWait)
	defer cancel()
	if _, err := a.State(ctx); err == nil {
		t.Fatal("a look had time enough")
	}
	put(t, a, 1)
}

// An answer of an earlier run may come while a look reads what the next run has. Another look compares what that answer put: it is noted once it counts.
func TestALookThatALateAnswerOvertook(t *testing.T) {
	t.Parallel()
	s := newOwn(t, usual(Options{URLs: []string{"redis://127.0.0.1:1"}}))
	known := record{id: strings.Repeat("a", idLength), terms: s.options.Terms, run: "earlier"}
	now := known
	now.run = "later"
	it := &shard{record: known}
	v := view{raw: now.text(), asked: it.claimed}
	answers := []any{[]byte(known.id), []any{[]byte("1"), []byte("0")}, []byte("# Replication\r\nrole:master\r\nmaster_replid:earlier\r\n")}
	_, err := s.behind(answers, []*shard{it}, []sent{{record: known}}, func(uint64) {
		if s.mu.TryLock() {
			t.Fatal("a look may end before the entry is noted")
		}
		it.claimed = []evidence{{key: "key"}}
	})
	if err != nil {
		t.Fatal(err)
	}
	if s.adopt(it, v) || it.agreed || it.record.run != known.run {
		t.Errorf("nobody has compared its entry: %+v", it)
	}
	v.asked = it.claimed
	if !s.adopt(it, v) || !it.agreed || it.record.run != now.run {
		t.Errorf("its entry was compared: %+v", it)
	}
}

// The entry of another member refuses a claim, and goes before it is read: whose the token is stays unknown, and nobody has withdrawn it.
func TestAnEntryThatGoesMeanwhile(t *testing.T) {
	t.Parallel()
	s := start(t)
	proxy := logtest.NewProxy(t, s.Redis.Address)
	a, b := openedOwn(t, Options{URLs: []string{"redis://" + proxy.Address}}), openedOwn(t, Options{URLs: []string{s.URL}})
	put(t, a, 1)
	for end := time.Now().Add(patience.Long); ; {
		c := claim(1)
		other := c
		other.Owner = claimstest.Own(2)
		claimstest.Put(t, b, other)
		release := proxy.Hold(t, c.Key[:])
		found := make(chan claims.Found, 1)
		go func() { found <- claimstest.Try(a, patience.Long, c)[0] }()
		logtest.Await(t, "the claim to be sent", proxy.HasLost)
		s.do(t, "DEL", keyOf(c))
		release()
		f := <-found
		if f.Err == nil && f.Owner == c.Owner && time.Now().Before(end) {
			continue // The entry was gone before the claim came.
		}
		if !errors.Is(f.Err, errNoEntry) {
			t.Errorf("%+v", f)
		}
		return
	}
}

// A member's number that is gone tells of a loss, until its key may have expired: members see time a bit late, and not all at once.
func TestANumberThatExpires(t *testing.T) {
	t.Parallel()
	s := newOwn(t, Options{URLs: []string{"redis://127.0.0.1:1"}})
	it := &shard{life: 5, lifeAt: 1000}
	for _, row := range []struct {
		after uint64
		life  string
		lacks bool
	}{
		{0, "5", false},
		{0, "6", false},
		{0, "4", true},
		{0, "", true},
		{lifeLasts / 2, "", true},
		{lifeLasts - lifeSlack, "", false},
		{lifeLasts - 1, "", false},
		{lifeLasts, "", false},
	} {
		if lacks := s.lacks(it, view{time: it.lifeAt + row.after, life: row.life}); lacks != row.lacks {
			t.Errorf("%q after %d s: lacks %v", row.life, row.after, lacks)
		}
	}
}

// A context that ends after its answer ends no later call on that connection.
func TestAContextThatEndsLater(t *testing.T) {
	t.Parallel()
	s := start(t)
	a := openedOwn(t, Options{URLs: []string{s.URL}})
	c, err := a.connection(limited(t), a.shards[0])
	if err != nil {
		t.Fatal(err)
	}
	defer a.give(c)
	for n := 0; n < 3; n++ {
		ctx, cancel := context.WithCancel(context.Background())
		if _, err := c.do(ctx, cmd("TIME")); err != nil {
			t.Fatal(err)
		}
		cancel()
		if _, err := c.do(context.Background(), cmd("BLPOP", "none", 3*lookEvery.Seconds())); err != nil { // (in which the end would be seen)
			t.Fatalf("call %d: %v", n, err)
		}
	}
}

// A server with replicas that is killed and started again keeps all, over and over.
func TestKilledOverAndOver(t *testing.T) {
	t.Parallel()
	s := start(t)
	o := Options{URLs: []string{s.URL}}
	a, b, c := opened(t, o), opened(t, o), opened(t, o)
	before := claimstest.State(t, a)
	claimstest.Watch(t, a)
	var ledger claimstest.Ledger
	end := claimstest.Load(t, &ledger, a, b, c)
	for n := 0; n < 4; n++ {
		at := ledger.Len()
		logtest.Await(t, "some claims", func() bool { return ledger.Len() > at+100 })
		s.Redis.Kill()
		s.Start(t)
	}
	end()
	stays(t, before, a, b, c, opened(t, o))
}

// clusterOf starts a Cluster.
func clusterOf(t *testing.T, replicas int, n int) (all []*broker.Redis, o Options) {
	t.Helper()
	var dirs []string
	for i := 0; i < n; i++ {
		dirs = append(dirs, t.TempDir())
	}
	all, err := broker.NewRedisCluster(dirs)
	if err != nil {
		t.Fatal(err)
	}
	for _, s := range all {
		if err := s.Start(); err != nil {
			t.Fatal(err)
		}
		t.Cleanup(s.Kill)
		logtest.Await(t, "redis-server", s.Answers)
		o.URLs = append(o.URLs, s.URL)
	}
	if err := broker.CreateCluster(all, replicas); err != nil {
		t.Fatal(err)
	}
	for _, s := range all {
		logtest.Await(t, "the Cluster", func() bool {
			out, err := exec.Command("redis-cli", "-p", port(s), "CLUSTER", "INFO").Output()
			return err == nil && strings.Contains(string(out), "cluster_state:ok")
		})
	}
	return all, o
}

// owns is which server has a shard.
func owns(t *testing.T, all []*broker.Redis, it *shard) (owner int) {
	t.Helper()
	owner = -1
	logtest.Await(t, "a server that has the slot", func() bool { // (on a busy machine the others may seem to be away, and then it has none)
		for i, s := range all {
			if s.Pid() == 0 {
				continue
			}
			if _, err := s.Do("EXISTS", it.prefix+"epoch"); err == nil {
				owner = i
			}
		}
		return owner >= 0
	})
	return owner
}

// clusterMachine runs the common tests.
type clusterMachine struct{ o Options }

func (m *clusterMachine) Store(t testing.TB, o claimstest.Options) claims.Store {
	own := m.o
	own.Name, own.Terms = o.Name, o.Terms
	return newStore(t, own)
}

// A Cluster passes the common tests. One of its servers is killed and started again, and another is put back to an older copy; a slot
// moves.
func TestCluster(t *testing.T) {
	t.Parallel()
	all, o := clusterOf(t, 0, 3)
	claimstest.Run(t, &clusterMachine{o}, "Pages")
	a, b := opened(t, o), opened(t, o)
	before := claimstest.State(t, a)
	claimstest.Watch(t, a)
	var ledger claimstest.Ledger
	end := claimstest.Load(t, &ledger, a, b)
	logtest.Await(t, "some claims", func() bool { return ledger.Len() > 200 })
	all[1].Kill()
	at := ledger.Len()
	logtest.Await(t, "some claims of the other shards", func() bool { return ledger.Len() > at+50 })
	if err := all[1].Start(); err != nil {
		t.Fatal(err)
	}
	logtest.Await(t, "the server", func() bool { return len(put16(t, a)) == 16 })
	at = ledger.Len()
	logtest.Await(t, "some claims", func() bool { return ledger.Len() > at+200 })
	end()
	stays(t, before, a, b, opened(t, o))

	t.Run("Rights", func(t *testing.T) { // those that the documents name are enough
		own, user := o, "cluster-member"
		if claimstest.OfOthers() {
			user = "cluster-service"
		}
		own.URLs = nil
		for _, s := range all {
			acl(t, func(words ...string) error { _, err := s.Do(words...); return err }, rights(t, user))
			own.URLs = append(own.URLs, strings.Replace(s.URL, "redis://", "redis://"+user+":secret@", 1))
		}
		m := opened(t, own)
		logtest.Await(t, "claims of all shards", func() bool { return len(put16(t, m)) == 16 })
		w := withdrawal()
		claimstest.Withdraw(t, m, w)
		if got, _ := claimstest.Withdrawals(t, m, ""); !contains(got, w) {
			t.Errorf("%v", got)
		}
	})
	t.Run("Move", func(t *testing.T) {
		it := newShards("svid", true)[5]
		from := owns(t, all, it)
		to := (from + 1) % len(all)
		var there claims.Claim
		for there = claim(1); there.Key[0]>>4 != 5; there = claim(1) {
		}
		if f := claimstest.Put(t, a, there)[0]; claimstest.Judge(there, f, 60) != claimstest.Mine {
			t.Fatalf("%+v", f)
		}
		move(t, all[from], all[to], int(slotOf(it.prefix)))
		refused(t, b, there)
		f := claimstest.Put(t, b, there)[0]
		if claimstest.Judge(there, f, 60) == claimstest.Mine || f.Deaf == 0 {
			t.Errorf("after the move: %+v", f)
		}
		other := claim(1)
		for other.Key[0]>>4 == 5 {
			other = claim(1)
		}
		if f := claimstest.Put(t, b, other)[0]; claimstest.Judge(other, f, 60) != claimstest.Mine || f.Deaf != 0 {
			t.Errorf("of another shard: %+v", f)
		}
		late := claimstest.Open(t, newStore(t, o))
		logtest.Await(t, "one epoch", func() bool {
			x, y := claimstest.State(t, a), claimstest.State(t, b)
			return x.Epoch == late.Epoch && y.Epoch == late.Epoch && x.Deaf == late.Deaf
		})
		if late.Deaf == 0 || late.Epoch == before.Epoch {
			t.Errorf("%+v", late)
		}
	})
	t.Run("Shards", func(t *testing.T) { // a call puts the last entry of each shard, and all these are lost
		var last []claims.Claim
		logtest.Await(t, "claims of all shards", func() bool { last = put16(t, a); return len(last) == shardCount })
		for i, it := range newShards("svid", true) {
			if answer, err := all[owns(t, all, it)].Do("DEL", it.prefix+string(last[i].Key[:])); answer != ":1" || err != nil {
				t.Fatal(answer, err)
			}
		}
		claimstest.State(t, a)
		for _, c := range last {
			refused(t, b, c)
		}
	})
}

// of16 is one claim for each shard.
func of16() (these []claims.Claim) {
	for i := 0; i < shardCount; i++ {
		c := claim(1)
		c.Key[0] = byte(i << 4)
		these = append(these, c)
	}
	return these
}

// put16 puts one claim into each shard, and returns those that have an answer.
func put16(t *testing.T, m claims.Store) (answered []claims.Claim) {
	these := of16()
	for i, f := range claimstest.Try(m, 5*time.Second, these...) {
		if f.Err == nil {
			answered = append(answered, these[i])
		}
	}
	return answered
}

// move moves a slot.
func move(t *testing.T, from, to *broker.Redis, slot int) {
	t.Helper()
	id := func(s *broker.Redis) string {
		out, err := exec.Command("redis-cli", "-p", port(s), "CLUSTER", "MYID").Output()
		if err != nil {
			t.Fatal(err)
		}
		return strings.TrimSpace(string(out))
	}
	run := func(s *broker.Redis, words ...string) {
		t.Helper()
		if _, err := s.Do(words...); err != nil {
			t.Fatal(words, err)
		}
	}
	number := fmt.Sprint(slot)
	run(to, "CLUSTER", "SETSLOT", number, "IMPORTING", id(from))
	run(from, "CLUSTER", "SETSLOT", number, "MIGRATING", id(to))
	moved := false
	for end := time.Now().Add(patience.Long); !moved; {
		answer, err := from.Do("EVAL", "#!lua flags=allow-cross-slot-keys\nlocal k = redis.call('CLUSTER', 'GETKEYSINSLOT', ARGV[1], 100); if #k == 0 then return 0 end; "+
			"redis.call('MIGRATE', ARGV[2], ARGV[3], '', '0', ARGV[4], 'KEYS', unpack(k)); return 1", "0", number, "127.0.0.1", port(to), fmt.Sprint(patience.Long.Milliseconds()))
		if err != nil || time.Now().After(end) {
			t.Fatal(answer, err)
		}
		moved = answer == ":0"
	}
	run(to, "CLUSTER", "SETSLOT", number, "NODE", id(to))
	run(from, "CLUSTER", "SETSLOT", number, "NODE", id(to))
}

func port(s *broker.Redis) string { _, port, _ := strings.Cut(s.Address, ":"); return port }

// While one server of a Cluster is away, State fails. Claims of the other servers' shards go on, and withdrawals are read where one of these has
// their list: so who looks must read them though State failed.
func TestClusterWithoutOneServer(t *testing.T) {
	t.Parallel()
	all, o := clusterOf(t, 0, 3)
	a, b, shards := opened(t, o), opened(t, o), newShards("svid", true)
	lists := owns(t, all, shards[0])
	there := claim(1)
	for owns(t, all, shards[there.Key[0]>>4]) != lists {
		there = claim(1)
	}
	if f := claimstest.Put(t, b, there)[0]; claimstest.Judge(there, f, 60) != claimstest.Mine {
		t.Fatalf("%+v", f)
	}
	all[(lists+1)%len(all)].Kill()
	soon := func(try func(ctx context.Context) error) error {
		ctx, cancel := context.WithTimeout(context.Background(), 2*time.Second)
		defer cancel()
		return try(ctx)
	}
	state := func(ctx context.Context) error { _, err := b.State(ctx); return err }
	logtest.Await(t, "State to fail", func() bool { return soon(state) != nil })
	logtest.Await(t, "a claim that goes on", func() bool {
		f := claimstest.Try(b, 2*time.Second, there)[0]
		return f.Err == nil && f.Owner == there.Owner
	})
	w := claims.Withdrawal{Key: there.Key, Expires: there.Expires}
	logtest.Await(t, "the withdrawal", func() bool {
		return soon(func(ctx context.Context) error { _, err := a.Withdraw(ctx, w); return err }) == nil
	})
	logtest.Await(t, "who hears of it", func() (is bool) {
		_ = soon(func(ctx context.Context) error {
			these, _, err := b.Withdrawals(ctx, "")
			is = err == nil && contains(these, w)
			return nil
		})
		return is
	})
	if soon(state) == nil {
		t.Error("State has an answer")
	}
}

// In a Cluster a replica takes over from a primary that was killed, and lacks an entry.
func TestClusterTakeover(t *testing.T) {
	t.Parallel()
	all, o := clusterOf(t, 1, 6)
	a, b := opened(t, o), opened(t, o)
	before := claimstest.State(t, a)
	claimstest.Watch(t, a)
	claimstest.Watch(t, b)
	there := of16()
	claimstest.Put(t, a, there...)
	from, behind := owns(t, all, newShards("svid", true)[3]), replicas(t, all)
	for _, s := range behind {
		s.Pause()
	}
	lost := of16()
	claimstest.Put(t, a, lost...)
	all[from].Kill()
	for _, s := range behind {
		s.Resume()
	}
	for _, c := range append(there, lost...) {
		refused(t, b, c)
	}
	late := newStore(t, o)
	claimstest.Open(t, late)
	var is claims.State
	logtest.Await(t, "one epoch", func() bool { // (on a busy machine replicas of other servers may take over, too, and end the epoch once more)
		is = claimstest.State(t, late)
		return claimstest.State(t, a).Epoch == is.Epoch && claimstest.State(t, b).Epoch == is.Epoch
	})
	if is.Deaf < before.Time+claimstest.Usual.Lasts || is.Epoch == before.Epoch {
		t.Errorf("%+v, and before %+v", is, before)
	}
}

// replicas are those servers of a Cluster that have another one's slots at the moment: on a busy machine some may have taken over before.
func replicas(t *testing.T, all []*broker.Redis) (these []*broker.Redis) {
	t.Helper()
	for _, s := range all {
		answer, err := s.Do("EVAL", "return redis.call('INFO', 'replication'):find('role:slave') and 1 or 0", "0")
		if err != nil {
			t.Fatal(err)
		}
		if answer == ":1" {
			these = append(these, s)
		}
	}
	return these
}

// With Replicas a claim counts in a Cluster once a replica has it, so a replica that takes over lacks none, and the epoch stays.
func TestClusterTakeoverWithReplicas(t *testing.T) {
	t.Parallel()
	all, o := clusterOf(t, 1, 6)
	o.Replicas = 2
	a, b := opened(t, o), opened(t, o)
	before := claimstest.State(t, a)
	there := of16()
	claimstest.Put(t, a, there...)
	behind := replicas(t, all)
	for _, s := range behind {
		s.Pause()
	}
	alone := of16()
	for n := 0; n < 2; n++ { // (the second time the entries are there, and count no more than the first time)
		for _, f := range claimstest.Try(b, time.Second, alone...) {
			if f.Err == nil {
				t.Errorf("no replica has it, and it counts: %+v", f)
			}
		}
	}
	for _, s := range behind {
		s.Resume()
	}
	claimstest.Watch(t, a)
	claimstest.Watch(t, b)
	for i, f := range claimstest.Put(t, b, alone...) {
		if claimstest.Judge(alone[i], f, 60) != claimstest.Mine {
			t.Errorf("%+v", f)
		}
	}
	it := newShards("svid", true)[3]
	from := owns(t, all, it)
	all[from].Kill()
	logtest.Await(t, "a replica to take over", func() bool {
		for n, s := range all {
			if n == from {
				continue
			}
			if out, err := s.Do("EXISTS", it.prefix+"epoch"); err == nil && out == ":1" {
				return true
			}
		}
		return false
	})
	if err := all[from].Start(); err != nil { // (as a replica of that one)
		t.Fatal(err)
	}
	for _, c := range append(there, alone...) {
		refused(t, b, c)
	}
	logtest.Await(t, "claims of all shards", func() bool { return len(put16(t, b)) == 16 })
	stays(t, before, a, b, opened(t, o))
}

// A primary that hung while Sentinel let a replica take over goes on, and says that it is the primary until Sentinel tells it. A member
// whose connection it kept leaves it.
func TestAPrimaryThatHung(t *testing.T) {
	t.Parallel()
	primary := start(t)
	replica := startReplica(t, primary)
	sentinel, err := broker.NewSentinel(t.TempDir(), "svid", primary.Redis.Address, 1)
	if err == nil {
		err = sentinel.Start()
	}
	if err != nil {
		t.Fatal(err)
	}
	t.Cleanup(sentinel.Kill)
	o := Options{URLs: []string{sentinel.URL}}
	a, b, c := opened(t, o), opened(t, o), openedOwn(t, o)
	before := claimstest.State(t, a)
	put(t, b, 1)
	has(t, replica, put(t, a, 1))
	c.disagree(c.shards)
	primary.Redis.Pause()
	notice(t, sentinel)
	// (a claim that compares with the primary, and can be waited for as long as a test lasts)
	waiting, late := make(chan []claims.Found, 1), claim(3)
	go func() { waiting <- claimstest.Try(c, 2*patience.Long, late) }()
	// (and so can a member that starts)
	starts, begun := newOwn(t, o), make(chan error, 1)
	go func() {
		ctx, cancel := context.WithTimeout(context.Background(), 2*patience.Long)
		defer cancel()
		_, err := starts.Open(ctx)
		begun <- err
	}()
	logtest.Await(t, "the replica to take over", func() bool {
		answer, err := replica.Do("EVAL", "return redis.call('INFO', 'replication'):find('role:master') and 1 or 0", "0")
		return err == nil && answer == ":1"
	})
	logtest.Await(t, "a member to see it", func() bool { return claimstest.State(t, a).Epoch != before.Epoch })
	logtest.Await(t, "a member whose claim hangs to see it", func() bool { return claimstest.State(t, c).Epoch != before.Epoch })
	logtest.Await(t, "that claim to be put at the new primary", func() bool { return len(waiting) == 1 })
	logtest.Await(t, "a member that started while the primary hung to open the store", func() bool { return len(begun) == 1 })
	if err := <-begun; err != nil {
		t.Error(err)
	}
	if f := (<-waiting)[0]; f.Err != nil || f.Owner != late.Owner {
		t.Errorf("the claim that hung: %+v", f)
	}
	primary.Redis.Resume()
	if is := claimstest.State(t, b); is.Epoch == before.Epoch {
		t.Errorf("it still has the primary of before: %+v", is)
	}
	ended(t, before, newStore(t, o), a, b)
}

// Sentinels that name two primaries are an error.
func TestSentinelsThatDisagree(t *testing.T) {
	t.Parallel()
	o := twoSentinels(t)
	claimstest.Refuses(t, newStore(t, o), errDisagree.Error())
	opened(t, Options{URLs: o.URLs[:1]})
}

// So they are while a member is at work: it claims nothing until they agree again.
func TestSentinelsThatDisagreeMeanwhile(t *testing.T) {
	t.Parallel()
	o := twoSentinels(t)
	a := openedOwn(t, Options{URLs: o.URLs[:1]})
	put(t, a, 1)
	agree := a.servers
	a.servers = newOwn(t, o).servers
	for end := time.Now().Add(patience.Long); ; {
		if _, err := a.State(limited(t)); errors.Is(err, errDisagree) {
			break
		} else if err == nil || time.Now().After(end) { // (a busy Sentinel may not answer in time)
			t.Fatalf("a look: %v", err)
		}
	}
	if f := claimstest.Try(a, patience.Long, claim(1))[0]; !errors.Is(f.Err, errDisagree) {
		t.Errorf("a claim: %+v", f)
	}
	a.servers = agree
	claimstest.State(t, a)
	put(t, a, 1)
}

// twoSentinels name two primaries.
func twoSentinels(t *testing.T) (o Options) {
	t.Helper()
	one, other := start(t), start(t)
	for _, s := range []*machine{one, other} {
		sentinel, err := broker.NewSentinel(t.TempDir(), "svid", s.Redis.Address, 1)
		if err == nil {
			err = sentinel.Start()
		}
		if err != nil {
			t.Fatal(err)
		}
		t.Cleanup(sentinel.Kill)
		o.URLs = append(o.URLs, sentinel.URL)
		logtest.Await(t, "the Sentinel", sentinel.Answers)
	}
	return o
}

// A member that put nothing since it looked last sees by its number that the server has an older copy, and one that looked last before
// its last claim by that claim.
func TestWhatAMemberKnows(t *testing.T) {
	for name, what := range map[string]func(t *testing.T, m claims.Store){
		"number": func(t *testing.T, m claims.Store) { claimstest.State(t, m) },
		"claim":  func(t *testing.T, m claims.Store) { put(t, m, 1) },
	} {
		what := what
		t.Run(name, func(t *testing.T) {
			t.Parallel()
			s := start(t)
			o := Options{URLs: []string{s.URL}}
			a := opened(t, o)
			before := claimstest.State(t, a)
			restore := s.Copy(t)
			what(t, a)
			restore()
			if is := claimstest.State(t, a); is.Epoch == before.Epoch || is.Deaf < before.Time+claimstest.Usual.Lasts {
				t.Errorf("%+v, and before %+v", is, before)
			}
			ended(t, before, newStore(t, o), a)
		})
	}
}

// A token that lives for too long is not even put where the store's time is known, and where it was another one, it has no answer. One that comes just
// after a suspension of the computer is no such token: the store's time went on.
func TestATokenThatLivesTooLong(t *testing.T) {
	t.Parallel()
	s := start(t)
	a := opened(t, Options{URLs: []string{s.URL}})
	c := claim(1)
	c.Expires = claimstest.Now() + claimstest.Usual.Lasts + 100
	if f := claimstest.Try(a, patience.Long, c)[0]; !errors.Is(f.Err, errTooLong) {
		t.Errorf("%+v", f)
	}
	if got := s.do(t, "EXISTS", keyOf(c)); got != ":0" {
		t.Errorf("it was put: %s", got)
	}
	if a, is := a.(*Store); is {
		a.mu.Lock()
		a.shards[0].clock.store += 1000
		a.mu.Unlock()
	}
	if f := claimstest.Try(a, patience.Long, c)[0]; !errors.Is(f.Err, errTooLong) {
		t.Errorf("by another time: %+v", f)
	}
	own, c := openedOwn(t, Options{URLs: []string{s.URL}}), claim(1)
	own.mu.Lock()
	was := &own.shards[0].clock
	*was = clock{was.store - 5000, clocks.Moment{Up: was.own.Up, Wall: was.own.Wall - 5000*time.Second}}
	own.mu.Unlock()
	if f := claimstest.Try(own, patience.Long, c)[0]; claimstest.Judge(c, f, 60) != claimstest.Mine {
		t.Errorf("after a suspension: %+v", f)
	}
}

// Members that see a loss at once agree on one next epoch.
func TestMembersAgree(t *testing.T) {
	t.Parallel()
	s := start(t)
	o := Options{URLs: []string{s.URL}}
	var all []claims.Store
	for i := 0; i < 8; i++ {
		all = append(all, opened(t, o))
	}
	for n := 0; n < 5; n++ {
		before := claimstest.State(t, all[0])
		s.do(t, "FLUSHALL")
		var asking sync.WaitGroup
		for _, m := range all {
			asking.Add(1)
			go func(m claims.Store) { defer asking.Done(); m.State(limited(t)) }(m)
		}
		asking.Wait()
		r, _ := readRecord(recordOf(t, s))
		if len(r.before) != n+1 || r.before[0] != before.Epoch {
			t.Errorf("%d ends, and the epochs before are %v", n+1, r.before)
		}
		for _, m := range all {
			stays(t, claimstest.State(t, all[0]), m)
		}
	}
}

// Who ends an epoch may not know of all that another member has answered in it. That one sees to it before anybody puts anything.
func TestAnEndCoversWhatEachMemberKnows(t *testing.T) {
	t.Parallel()
	s := start(t)
	o := Options{URLs: []string{s.URL}}
	a, b := opened(t, o), comparing(t, o)
	more := o
	more.Terms = claimstest.Usual
	more.Terms.Lasts += 1000
	opened(t, more)
	before := claimstest.State(t, a) // (and b does not know yet for how long tokens may live)
	s.do(t, "FLUSHALL")
	ctx, cancel := context.WithTimeout(context.Background(), compares/3)
	defer cancel()
	if _, err := b.State(ctx); err == nil {
		t.Fatal("who ends an epoch does not wait for others")
	}
	claimstest.Watch(t, a)
	c := claim(1)
	if f := claimstest.Put(t, b, c)[0]; f.Deaf < before.Time+claimstest.Usual.Lasts+1000 {
		t.Errorf("%+v", f)
	}
	ended(t, before, newStore(t, o), a, b)
}

// As before, for who does not look before the next put: each put looks whether the epoch is the one that this member has compared.
func TestEachPutLooksAtTheEpoch(t *testing.T) {
	t.Parallel()
	s := start(t)
	o := Options{URLs: []string{s.URL}}
	a, b := opened(t, o), opened(t, o)
	more := o
	more.Terms = claimstest.Usual
	more.Terms.Lasts += 1000
	opened(t, more)
	before := claimstest.State(t, a)
	s.do(t, "FLUSHALL")
	claimstest.State(t, b)
	if f := claimstest.Put(t, a, claim(1))[0]; f.Deaf < before.Time+claimstest.Usual.Lasts+1000 {
		t.Errorf("%+v", f)
	}
}

// A record is written in the place of the one that was read, and of no other: also where somebody writes between two steps of that.
func TestARecordThatChangedMeanwhile(t *testing.T) {
	t.Parallel()
	s := start(t)
	a := openedOwn(t, Options{URLs: []string{s.URL}})
	it := a.shards[0]
	was := it.record
	c, err := a.take(limited(t), a.shards)
	if err != nil {
		t.Fatal(err)
	}
	defer a.give(c)
	first, second := was, was
	first.list, second.list = 10, 20
	for _, next := range []record{first, second} { // (both have read what was there before)
		if err := a.swap(limited(t), c, it, was.text(), next.text()); err != nil {
			t.Fatal(err)
		}
	}
	if got := recordOf(t, s); got != first.text() {
		t.Errorf("%q, and not %q", got, first.text())
	}
	if err := a.swap(limited(t), c, it, first.text(), second.text()); err != nil || recordOf(t, s) != second.text() {
		t.Error("a record is not written", err)
	}
}

// A member that knows nothing makes an emptied store again, and waits. A member that ran before sees in that time that it is another history.
func TestAStoreThatWasMadeAnew(t *testing.T) {
	t.Parallel()
	s := start(t)
	o := Options{URLs: []string{s.URL}}
	a := opened(t, o)
	before := claimstest.State(t, a)
	put(t, a, 1)
	s.do(t, "FLUSHALL")
	o.Wait = mostWait
	late := newStore(t, o)
	logtest.Await(t, "a new record", func() bool {
		ctx, cancel := context.WithTimeout(context.Background(), time.Second)
		defer cancel()
		if is, err := late.Open(ctx); err == nil {
			t.Fatalf("who makes a store does not wait for others: %+v", is)
		}
		return recordOf(t, s) != ""
	})
	if is := claimstest.State(t, a); is.Epoch == before.Epoch || is.Deaf < before.Time+claimstest.Usual.Lasts {
		t.Errorf("%+v, and before %+v", is, before)
	}
	ended(t, before, late, a)
}

// Servers of a Cluster that hang do not keep a member from the others for good, though each look at them ends too early. (Each look has longer than
// the one before, and never as long as all of these servers take: a busy machine may be slow.)
func TestServersThatHang(t *testing.T) {
	t.Parallel()
	const hanging = 4
	_, o := clusterOf(t, 0, 3)
	var hang []string
	for i := 0; i < hanging; i++ {
		l, err := net.Listen("tcp", "127.0.0.1:0")
		if err != nil {
			t.Fatal(err)
		}
		t.Cleanup(func() { l.Close() })
		hang = append(hang, "redis://"+l.Addr().String())
	}
	o.URLs = append(hang, o.URLs...)
	a := openedOwn(t, o)
	a.lost()
	a.mu.Lock()
	a.from = 0
	a.mu.Unlock()
	wait := askWait + askWait/2
	logtest.Await(t, "a look that ends at a server that answers", func() bool {
		ctx, cancel := context.WithTimeout(context.Background(), wait)
		defer cancel()
		_, err := a.State(ctx)
		if err != nil {
			t.Log(err)
		}
		if wait += askWait; wait > (hanging-1)*askWait {
			wait = (hanging - 1) * askWait
		}
		return err == nil
	})
}
