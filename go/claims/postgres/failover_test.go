package postgres

import (
	"context"
	"errors"
	"fmt"
	"os"
	"strings"
	"testing"
	"time"

	"svid.example/go/v3/claims"
	"svid.example/go/v3/claims/claimstest"
	"svid.example/go/v3/internal/broker"
	"svid.example/go/v3/internal/clocks"
	"svid.example/go/v3/internal/logtest"
	"svid.example/go/v3/internal/patience"
)

// follow starts a standby of a server.
func follow(t *testing.T, primary *machine, more ...string) *machine {
	t.Helper()
	dir, err := broker.Folder()
	if err != nil {
		t.Fatal(err)
	}
	t.Cleanup(func() { os.RemoveAll(dir) })
	host, port, _ := strings.Cut(primary.Postgres.Address, ":")
	if out, err := primary.Command("pg_basebackup", "-D", dir+"/data", "-h", host, "-p", port, "-U", "svid", "-R", "-c", "fast").CombinedOutput(); err != nil {
		t.Fatalf("%v %s", err, out)
	}
	return startIn(t, dir, more...)
}

// waitsFor sets for which standbys a server waits, and returns once its commits do.
func (s *machine) waitsFor(t testing.TB, names string) {
	t.Helper()
	s.do(t, "ALTER SYSTEM SET synchronous_standby_names = '"+names+"'")
	s.do(t, "SELECT pg_reload_conf()")
	logtest.Await(t, "the server to read its settings", func() bool {
		return s.Do(`DO $$ BEGIN ASSERT current_setting('synchronous_standby_names') = '`+names+`'; END $$`) == nil
	})
	s.do(t, "CHECKPOINT") // (by then the checkpointer has read them too, which tells commits to wait)
}

// has waits until a server has so many claims.
func (s *machine) has(t testing.TB, n int) {
	t.Helper()
	logtest.Await(t, fmt.Sprintf("the server to have %d claims", n), func() bool {
		return s.Do(fmt.Sprintf(`DO $$ BEGIN ASSERT (SELECT count(*) FROM svid.claim) = %d; END $$`, n)) == nil
	})
}

func (s *machine) promote(t testing.TB) {
	t.Helper()
	s.do(t, "SELECT pg_promote()")
}

// A member waits for an answer, and does not look at the store meanwhile. Its server ends, an older copy comes up at the same address, and another member
// wins the token there: the late answer does not count.
func TestALateAnswerOfAServerThatIsGone(t *testing.T) {
	t.Parallel()
	lateAnswer(t, open)
}

// As before, for a member whose computer is suspended while it waits.
func TestALateAnswerAfterASuspension(t *testing.T) {
	t.Parallel()
	lateAnswer(t, func(t testing.TB, o Options) claims.Store {
		o.Terms = claimstest.Usual
		store, err := New(o)
		if err != nil {
			t.Fatal(err)
		}
		t.Cleanup(func() { store.Close() })
		store.servers.now = func() clocks.Moment { return clocks.Moment{Wall: clocks.Now().Wall} }
		claimstest.Open(t, store)
		return store
	})
}

// lateAnswer lets a server go, and an older copy take its address, before a member reads its answer. Another member claims the token meanwhile.
func lateAnswer(t *testing.T, opened func(testing.TB, Options) claims.Store) {
	t.Helper()
	s := start(t)
	proxy := logtest.NewProxy(t, s.Postgres.Address)
	o := Options{URLs: []string{s.URL}, Name: "svid"}
	b := open(t, o)
	o.URLs = []string{strings.Replace(s.URL, s.Postgres.Address, proxy.Address, 1)}
	a := opened(t, o)
	mine(t, a, claim(1))
	restore := logtest.Copied(t, s.Dir, s.Postgres.Stop, s.Postgres.Kill, s.start)
	mine(t, a, claim(1))
	c := claim(1)
	release := proxy.Hold(t, c.Key[:])
	late := make(chan claims.Found, 1)
	go func() { late <- claimstest.Try(a, patience.Long, c)[0] }()
	s.has(t, 3)
	if !proxy.HasLost() {
		t.Skip("the key does not go over the wire as it is")
	}
	restore()
	claimstest.Watch(t, b)
	won := by(2, c)
	mine(t, b, won)
	release()
	if f := <-late; claimstest.Judge(c, f, 60) == claimstest.Mine {
		t.Errorf("accepted twice: %+v", f)
	}
}

// A standby that lacks claims and is promoted ends the epoch, for members that run and for one that knows nothing of the primary.
func TestFailoverToAStandbyThatLacksClaims(t *testing.T) {
	t.Parallel()
	primary := start(t)
	standby := follow(t, primary)
	o := Options{URLs: []string{primary.URL, standby.URL}, Name: "svid"}
	a, b := open(t, o), open(t, o)
	there := claim(1)
	mine(t, a, there)
	standby.has(t, 1)
	before := claimstest.State(t, a)
	standby.Postgres.Kill()
	lost := claim(1)
	mine(t, a, lost)
	primary.Postgres.Kill()
	standby.start(t)
	standby.promote(t)
	late := newStore(t, Options{URLs: []string{standby.URL}, Name: "svid"})
	claimstest.Open(t, late)
	for n, store := range []claims.Store{b, late, a} {
		again := by(2+n, lost)
		if f := claimstest.Put(t, store, again)[0]; claimstest.Judge(again, f, 60) == claimstest.Mine {
			t.Errorf("%d: %+v", n, f)
		}
		if f := claimstest.Put(t, store, by(2, there))[0]; f.Owner != there.Owner {
			t.Errorf("%d: %+v", n, f)
		}
	}
	another(t, before, late, a, b)
}

// Where claims wait for a standby, that one lacks none, and the epoch stays when it is promoted.
func TestFailoverToAStandbyThatHasAll(t *testing.T) {
	t.Parallel()
	wait := []string{"-c", "synchronous_standby_names=*"}
	primary := start(t, wait...)
	primary.do(t, "SET synchronous_commit = local; "+Schema("svid", claimstest.Usual, ""))
	standby := follow(t, primary, wait...)
	o := Options{URLs: []string{primary.URL, standby.URL}, Name: "svid", Replicas: 2}
	a, b := open(t, o), open(t, o)
	before := claimstest.State(t, a)
	for _, store := range []claims.Store{a, b} {
		claimstest.Watch(t, store)
	}
	var ledger claimstest.Ledger
	end := claimstest.Load(t, &ledger, a, b)
	logtest.Await(t, "claims", func() bool { return ledger.Len() > 100 })
	primary.Postgres.Kill()
	standby.promote(t)
	n := ledger.Len()
	if f := claimstest.Try(a, time.Second, claim(1))[0]; f.Err == nil {
		t.Errorf("without a standby: %+v", f)
	}
	follow(t, standby, wait...)
	logtest.Await(t, "more claims", func() bool { return ledger.Len() > n+100 })
	end()
	late := open(t, Options{URLs: []string{standby.URL}, Name: "svid", Replicas: 2})
	for _, store := range []claims.Store{a, b, late} {
		if is := claimstest.State(t, store); is.Epoch != before.Epoch || is.Deaf != 0 {
			t.Errorf("%+v, and before %+v", is, before)
		}
	}
}

// A standby for which nobody waited, and which is promoted though others were to be, lacks claims: members that know of these see it.
func TestFailoverToTheWrongStandby(t *testing.T) {
	t.Parallel()
	primary := start(t)
	primary.do(t, Schema("svid", claimstest.Usual, ""))
	right := follow(t, primary, "-c", "cluster_name=right")
	wrong := follow(t, primary, "-c", "cluster_name=wrong")
	primary.waitsFor(t, `"right"`)
	o := Options{URLs: []string{primary.URL, wrong.URL, right.URL}, Name: "svid", Replicas: 2}
	a, b := open(t, o), open(t, o)
	primary.comparing(t, "svid")
	mine(t, a, claim(1))
	wrong.has(t, 1)
	before := claimstest.State(t, a)
	wrong.Postgres.Kill()
	lost := claim(1)
	mine(t, a, lost)
	right.has(t, 2)
	primary.Postgres.Kill()
	right.Postgres.Kill()
	wrong.start(t)
	wrong.promote(t)
	wrong.waitsFor(t, "*")
	follow(t, wrong)
	claimstest.Watch(t, a)
	again := by(2, lost)
	if f := claimstest.Put(t, b, again)[0]; claimstest.Judge(again, f, 60) != claimstest.Unknown {
		t.Errorf("%+v", f)
	}
	another(t, before, a, b, open(t, Options{URLs: []string{wrong.URL}, Name: "svid", Replicas: 2}))
}

// A standby is promoted while its primary runs on. Members that know both addresses go to the new one, and nobody accepts what was
// claimed at the old one.
func TestTwoPrimaries(t *testing.T) {
	t.Parallel()
	primary := start(t)
	primary.do(t, schemaWith("svid", "3 seconds"))
	standby := follow(t, primary)
	a := open(t, Options{URLs: []string{primary.URL, standby.URL}, Name: "svid"})
	b := open(t, Options{URLs: []string{standby.URL, primary.URL}, Name: "svid"})
	before := claimstest.State(t, a)
	for _, store := range []claims.Store{a, b} {
		claimstest.Watch(t, store)
	}
	var ledger claimstest.Ledger
	// (They are to be accepted when the epoch that follows is not deaf to them: as if they had been issued much later.)
	end := claimstest.LoadWith(t, &ledger, func(i int) claims.Claim {
		return claims.Claim{Key: claimstest.Key(), Expires: claimstest.Now() + claimstest.Usual.Lasts}
	}, a, b)
	logtest.Await(t, "claims", func() bool { return ledger.Len() > 200 })
	standby.promote(t)
	c := open(t, Options{URLs: []string{standby.URL, primary.URL}, Name: "svid"}) // It goes to the new one at once.
	end2 := claimstest.LoadWith(t, &ledger, func(i int) claims.Claim { return claim(3) }, c)
	another(t, before, a, b, c)
	standby.do(t, "UPDATE svid.epoch SET lasts = lasts + 1000") // (so that claims are taken to which it is not deaf)
	end()
	end2()
	f := mine(t, a, claims.Claim{Key: claimstest.Key(), Owner: claimstest.Own(1), Expires: claimstest.State(t, a).Deaf + 1})
	if f.Deaf < before.Time+claimstest.Usual.Lasts {
		t.Errorf("%+v", f)
	}
	// The old one is still there, for who knows no other address.
	old := newStore(t, Options{URLs: []string{primary.URL}, Name: "svid"})
	if is := claimstest.Open(t, old); is.Epoch != before.Epoch {
		t.Errorf("%+v", is)
	}
	// What it has since then counts for nobody who knows both.
	split := claims.Claim{Key: claimstest.Key(), Owner: claimstest.Own(7), Expires: claimstest.Now() + 3000}
	mine(t, old, split)
	for _, store := range []claims.Store{a, b, c} {
		if is := claimstest.State(t, store); is.Epoch == before.Epoch {
			t.Errorf("%+v", is)
		}
	}
}

// Two standbys that were both promoted are one too many.
func TestTwoStandbysArePromoted(t *testing.T) {
	t.Parallel()
	primary := start(t)
	one, two := follow(t, primary), follow(t, primary)
	o := Options{URLs: []string{primary.URL, one.URL, two.URL}, Name: "svid"}
	a := open(t, o)
	primary.Postgres.Kill()
	one.promote(t)
	two.promote(t)
	logtest.Await(t, "the member to see both", func() bool {
		_, err := a.State(limited(t))
		return err != nil && strings.Contains(err.Error(), "addresses 2 and 3 are both primaries: stop the wrong one")
	})
	if f := claimstest.Try(a, time.Second, claim(1))[0]; f.Err == nil {
		t.Errorf("%+v", f)
	}
	two.Postgres.Kill()
	mine(t, a, claim(1))
}

// Servers that don't come of one are no servers of one store.
func TestServersOfTwoClusters(t *testing.T) {
	t.Parallel()
	claimstest.Refuses(t, newStore(t, Options{URLs: []string{start(t).URL, foreign(t).URL}, Name: "svid"}), "addresses 1 and 2 are primaries of two database clusters")
}

// foreign is a server whose data have another identifier.
func foreign(t *testing.T) *machine {
	t.Helper()
	s := start(t)
	s.Postgres.Stop()
	if err := os.RemoveAll(s.Dir); err != nil {
		t.Fatal(err)
	}
	if out, err := s.Command("initdb", "-D", s.Dir, "-U", "svid", "--auth=trust", "--no-sync", "-E", "UTF8", "--locale=C").CombinedOutput(); err != nil {
		t.Fatalf("%v %s", err, out)
	}
	s.start(t)
	return s
}

// An administrator who lets the server wait for no standby any more lets calls go on that wait. No claim of them counts, and none after
// them, until the server waits again and a standby has them.
func TestStandbysAreNotWaitedForAnyMore(t *testing.T) {
	t.Parallel()
	s := start(t)
	s.do(t, Schema("svid", claimstest.Usual, ""))
	standby := follow(t, s)
	s.waitsFor(t, "*")
	a := open(t, Options{URLs: []string{s.URL}, Name: "svid", Replicas: 2})
	mine(t, a, claim(1))
	standby.has(t, 1)
	standby.Postgres.Pause()
	these := []claims.Claim{claim(1), claim(1), claim(1)}
	found := make(chan claims.Found, 2*len(these))
	for _, c := range these {
		go func(c claims.Claim) { found <- claimstest.Try(a, patience.Long, c)[0] }(c)
	}
	logtest.Await(t, "the claims to wait", func() bool {
		return s.Do(fmt.Sprintf(`DO $$ BEGIN ASSERT (SELECT count(*) FROM pg_stat_activity WHERE wait_event = 'SyncRep') = %d; END $$`, len(these))) == nil
	})
	s.waitsFor(t, "")
	for range these {
		if f := <-found; f.Err == nil {
			t.Errorf("answered, and no standby has it: %+v", f)
		}
	}
	for _, c := range append(these, claim(1)) {
		var unfit *claims.Unfit
		if f := claimstest.Try(a, patience.Long, c)[0]; !errors.As(f.Err, &unfit) || !strings.Contains(f.Err.Error(), "synchronous_standby_names") {
			t.Errorf("%+v", f)
		}
	}
	if _, err := a.State(limited(t)); err == nil {
		t.Error("a state without standbys")
	}
	s.waitsFor(t, "*")
	for again := 0; again < 3; again++ {
		ctx, cancel := context.WithTimeout(context.Background(), 300*time.Millisecond)
		a.State(ctx)
		cancel()
		for _, c := range these {
			if f := claimstest.Try(a, 100*time.Millisecond, c)[0]; f.Err == nil {
				t.Fatalf("answered, and no standby has it: %+v", f)
			}
		}
	}
	standby.Postgres.Resume()
	for _, c := range these {
		logtest.Await(t, "a look", func() bool { _, err := a.State(limited(t)); return err == nil })
		mine(t, a, c)
	}
	standby.has(t, 4)
}

// Calls that the member gave up wait for no standby any more: else each try of a claim would leave one more process at the server.
func TestWhatIsGivenUpEndsAtTheServer(t *testing.T) {
	t.Parallel()
	s := start(t)
	s.do(t, Schema("svid", claimstest.Usual, ""))
	standby := follow(t, s)
	s.waitsFor(t, "*")
	a := open(t, Options{URLs: []string{s.URL}, Name: "svid"})
	standby.Postgres.Pause()
	waiting := func(holds string) bool {
		return s.Do("DO $$ BEGIN ASSERT (SELECT count(*) FROM pg_stat_activity WHERE wait_event = 'SyncRep') "+holds+"; END $$") == nil
	}
	many := ">= 8"
	if claimstest.OfOthers() { // (they look meanwhile)
		many = ">= 4"
	}
	again := 0
	logtest.Await(t, "calls that wait for the standby", func() bool {
		again++ // (a busy machine takes its time until a call is made)
		these, wait := []claims.Claim{claim(1), claim(1)}, 30*time.Millisecond
		if longer := time.Duration(again) * 5 * time.Millisecond; longer > wait {
			wait = longer
		}
		if f := claimstest.Try(a, wait, these[again%2:]...)[0]; f.Err == nil {
			t.Fatalf("answered, and no standby has it: %+v", f)
		}
		return again >= 20 && waiting(many)
	})
	ended, end := context.WithCancel(context.Background())
	end()
	for n := 0; n < 20; n++ {
		a.State(ended) // (What could not be ended now is to be ended later.)
	}
	logtest.Await(t, "the processes to end", func() bool {
		claimstest.Try(a, 30*time.Millisecond, claim(1))
		ctx, cancel := context.WithTimeout(context.Background(), 200*time.Millisecond)
		defer cancel()
		a.State(ctx) // (It waits too.)
		return waiting("< 4")
	})
}

// If someone cancels the wait of a claim for standbys, no standby has it, and it counts for nobody: neither then nor when it is put
// again and found.
func TestACancelledWait(t *testing.T) {
	t.Parallel()
	s := start(t)
	s.do(t, Schema("svid", claimstest.Usual, ""))
	standby := follow(t, s)
	s.waitsFor(t, "*")
	for _, n := range []int{1, 2} {
		a := open(t, Options{URLs: []string{s.URL}, Name: "svid", Replicas: 2})
		these := make([]claims.Claim, n)
		for i := range these {
			these[i] = claim(1)
		}
		standby.Postgres.Pause()
		for again := 0; again < 3; again++ {
			found := make(chan []claims.Found, 1)
			go func() { found <- claimstest.Try(a, time.Second, these...) }() // (Then it looks, which waits too.)
			logtest.Await(t, "the call to end", func() bool {
				s.Do(`SELECT pg_cancel_backend(pid) FROM pg_stat_activity WHERE wait_event = 'SyncRep'`)
				return len(found) > 0
			})
			for _, f := range <-found {
				if f.Err == nil {
					t.Errorf("%d: %+v", again, f)
				}
			}
		}
		standby.Postgres.Resume()
		for i, f := range claimstest.Put(t, a, these...) {
			if f.Owner != these[i].Owner {
				t.Errorf("%+v", f)
			}
		}
	}
}
