package postgres

import (
	"bytes"
	"context"
	"database/sql"
	"errors"
	"fmt"
	"strings"
	"testing"
	"time"

	"svid.example/go/v3/claims"
	"svid.example/go/v3/claims/claimstest"
	"svid.example/go/v3/internal/logtest"
	"svid.example/go/v3/internal/patience"
	"svid.example/go/v3/svid"
)

// open is an open store of a member.
func open(t testing.TB, o Options) claims.Store {
	t.Helper()
	store := newStore(t, o)
	claimstest.Open(t, store)
	return store
}

// claim is one of an owner, under a key of its own.
func claim(n int) claims.Claim {
	return claims.Claim{Key: claimstest.Key(), Owner: claimstest.Own(n), Expires: claimstest.Now() + 3000}
}

// by is the same claim by another owner.
func by(n int, c claims.Claim) claims.Claim {
	c.Owner = claimstest.Own(n)
	return c
}

// mine puts a claim, which is to be the first.
func mine(t testing.TB, store claims.Store, c claims.Claim) claims.Found {
	t.Helper()
	f := claimstest.Put(t, store, c)[0]
	if f.Err != nil || f.Owner != c.Owner {
		t.Fatalf("%+v", f)
	}
	return f
}

// another ends the test unless all see one epoch, which is not the one before, and is deaf to what that may have had.
func another(t testing.TB, before claims.State, stores ...claims.Store) {
	t.Helper()
	first := claimstest.State(t, stores[0])
	for _, store := range stores {
		is := claimstest.State(t, store)
		if is.Epoch == before.Epoch || is.Epoch != first.Epoch || is.Deaf != first.Deaf || is.Deaf < before.Time+claimstest.Usual.Lasts {
			t.Errorf("%+v, and %+v, and before %+v", is, first, before)
		}
	}
}

// Rows that go by hand, or change, end the epoch with the same commit: nobody accepts a token whose claim went.
func TestRowsThatGoByHandEndTheEpoch(t *testing.T) {
	t.Parallel()
	s := start(t)
	for i, statement := range []string{
		"DELETE FROM S.claim", "DELETE FROM S.claim WHERE key = 'KEY'", "UPDATE S.claim SET owner = substr(key, 1, 32)", "UPDATE S.claim SET key = owner WHERE key = 'KEY'",
		"UPDATE S.claim SET expires = 1", "TRUNCATE S.claim", "TRUNCATE S.claim, S.withdrawal", "DELETE FROM S.withdrawal", "UPDATE S.withdrawal SET position = 7", "TRUNCATE S.withdrawal",
		"WITH gone AS (DELETE FROM S.claim WHERE key = 'KEY' RETURNING *) INSERT INTO S.claim SELECT key, owner, 1 FROM gone WHERE key <> 'KEY'",
	} {
		name := fmt.Sprint("group", i)
		o := Options{URLs: []string{s.URL}, Name: name}
		a, b := open(t, o), open(t, o)
		c := claim(1)
		before := claimstest.State(t, a)
		mine(t, a, c)
		if owner := claimstest.Withdraw(t, a, claims.Withdrawal{Key: claimstest.Key(), Expires: c.Expires}); owner != claims.Withdrawn {
			t.Errorf("%x", owner)
		}
		s.do(t, strings.NewReplacer("S.", name+".", "KEY", fmt.Sprintf(`\x%x`, c.Key[:])).Replace(statement))
		again := by(2, c)
		f := claimstest.Put(t, b, again)[0]
		if claimstest.Judge(again, f, 60) != claimstest.Unknown && claimstest.Judge(again, f, 60) != claimstest.Another {
			t.Errorf("%s: %+v", statement, f)
		}
		if f.Deaf < before.Time+claimstest.Usual.Lasts {
			t.Errorf("%s: not deaf: %+v", statement, f)
		}
		next := claimstest.State(t, b)
		another(t, before, a, b, open(t, o))
		s.do(t, fmt.Sprintf("SELECT %s.next('%s', NULL)", name, before.Epoch)) // (as a member that saw the loss as well)
		if is := claimstest.State(t, a); is.Epoch != next.Epoch {
			t.Errorf("%s: the epoch ended twice", statement)
		}
		// What could not be claimed before is accepted.
		s.do(t, "UPDATE "+name+".epoch SET lasts = lasts + 1000") // (so that one is taken)
		later := claims.Claim{Key: claimstest.Key(), Owner: claimstest.Own(1), Expires: f.Deaf + 1}
		if f := mine(t, a, later); claimstest.Judge(later, f, 60) != claimstest.Mine {
			t.Errorf("%s: %+v", statement, f)
		}
		for _, store := range []claims.Store{a, b} {
			store.Close()
		}
	}
}

// Where the triggers of the table are off, each look finds that the last claims of its member are gone.
func TestALookMissesRows(t *testing.T) {
	t.Parallel()
	s := start(t)
	for i, statement := range []string{"DELETE FROM S.claim", "TRUNCATE S.claim", "UPDATE S.claim SET owner = substr(key, 1, 32)"} {
		name := fmt.Sprint("group", i)
		o := Options{URLs: []string{s.URL}, Name: name}
		a, b := open(t, o), open(t, o)
		before := claimstest.State(t, b)
		for i := 0; i < 40; i++ {
			mine(t, a, claim(1))
		}
		s.do(t, "SET session_replication_role = replica; "+strings.ReplaceAll(statement, "S.", name+"."))
		another(t, before, a, b, open(t, o))
	}
}

// A claim that waits while rows go is answered of the epoch that follows: nobody counts it as one of before.
func TestAClaimThatWaitsWhileTheEpochEnds(t *testing.T) {
	t.Parallel()
	s := start(t)
	o := Options{URLs: []string{s.URL}, Name: "svid"}
	a, b := open(t, o), open(t, o)
	waitForLocks(t, s)
	for _, n := range []int{1, 3} {
		inTime(t, func() error {
			lost := make([]claims.Claim, n)
			again := make([]claims.Claim, n)
			for i := range lost {
				lost[i] = claim(1)
				again[i] = by(2, lost[i])
			}
			for _, f := range claimstest.Put(t, a, lost...) {
				if f.Owner != claimstest.Own(1) {
					return fmt.Errorf("%+v", f)
				}
			}
			found := make(chan []claims.Found, 1)
			hold(t, s, "svid", func(c *conn) {
				go func() { found <- claimstest.Try(b, patience.Long, again...) }()
				awaitLock(t, s, found)
				if _, err := c.query(limited(t), "TRUNCATE svid.claim"); err != nil {
					t.Fatal(err)
				}
			})
			var err error
			for _, f := range <-found {
				if err == nil && !errors.Is(f.Err, claims.ErrEpoch) {
					err = fmt.Errorf("%+v", f)
				}
			}
			for i, f := range claimstest.Put(t, b, again...) {
				if got := claimstest.Judge(again[i], f, 60); err == nil && got != claimstest.Unknown {
					err = fmt.Errorf("%v: %+v", got, f)
				}
			}
			return err
		})
	}
}

// inTime does something again where it failed, and took longer than a server gives a statement: the machine may be busy.
func inTime(t testing.TB, do func() error) {
	t.Helper()
	for end := time.Now().Add(patience.Long); ; {
		from := time.Now()
		err := do()
		if err == nil {
			return
		}
		if time.Since(from) < 10*time.Second || time.Now().After(end) {
			t.Fatal(err)
		}
	}
}

// awaitLock waits until a call of put waits for a lock, or has found something.
func awaitLock(t testing.TB, s *machine, found chan []claims.Found) {
	t.Helper()
	logtest.Await(t, "the call to wait", func() bool {
		return len(found) > 0 || s.Do(`DO $$ BEGIN ASSERT EXISTS (SELECT FROM pg_stat_activity WHERE wait_event_type = 'Lock' AND query LIKE '%put(%'); END $$`) == nil
	})
}

// waitForLocks lets claims wait for a lock as long as it takes, so that a test sees them wait.
func waitForLocks(t testing.TB, s *machine) {
	t.Helper()
	for _, of := range []string{"bytea[], bytea[], bigint[]", "bytea, bytea, bigint"} {
		s.do(t, "ALTER FUNCTION svid.put("+of+") SET lock_timeout = 0")
	}
}

// hold holds the table of claims while something is done in the same transaction.
func hold(t testing.TB, s *machine, name string, do func(c *conn)) {
	t.Helper()
	c, err := dial(limited(t), s.URL)
	if err != nil {
		t.Fatal(err)
	}
	defer c.close()
	run := func(text string) {
		t.Helper()
		if _, err := c.query(limited(t), text); err != nil {
			t.Fatal(err)
		}
	}
	run("BEGIN; SET LOCAL idle_in_transaction_session_timeout = 0; SET LOCAL statement_timeout = 0")
	run(`LOCK TABLE "` + name + `".claim IN ACCESS EXCLUSIVE MODE`)
	do(c)
	run("COMMIT")
}

// Calls put their claims in one order, whatever the order of their own is: so none waits for another one that waits for it.
func TestOneOrder(t *testing.T) {
	t.Parallel()
	s := start(t)
	o := Options{URLs: []string{s.URL}, Name: "svid"}
	a, b := open(t, o), open(t, o)
	waitForLocks(t, s)
	inTime(t, func() error {
		first, second := claim(1), claim(1)
		if string(first.Key[:]) > string(second.Key[:]) {
			first, second = second, first
		}
		c, err := dial(limited(t), s.URL)
		if err != nil {
			return err
		}
		defer c.close()
		for _, text := range []string{"BEGIN", fmt.Sprintf(`INSERT INTO svid.claim VALUES ('\x%x', sha256('x'), 1)`, first.Key[:])} {
			if _, err := c.query(limited(t), text); err != nil {
				return err
			}
		}
		found := make(chan []claims.Found, 1)
		go func() { found <- claimstest.Try(a, patience.Long, second, first) }()
		awaitLock(t, s, found)
		if f := claimstest.Try(b, patience.Long, second)[0]; f.Err != nil || f.Owner != second.Owner {
			err = fmt.Errorf("held up by a call that waits for another claim: %+v", f)
		}
		c.close()
		for _, f := range <-found {
			if err == nil && (f.Err != nil || f.Owner != claimstest.Own(1)) {
				err = fmt.Errorf("%+v", f)
			}
		}
		return err
	})
}

// Positions of withdrawals are those of an epoch: after its end all are read again.
func TestWithdrawalsOfAnotherEpoch(t *testing.T) {
	t.Parallel()
	s := start(t)
	o := Options{URLs: []string{s.URL}, Name: "svid"}
	a, b := open(t, o), open(t, o)
	withdraw := func(n int) {
		for ; n > 0; n-- {
			claimstest.Withdraw(t, a, claims.Withdrawal{Key: claimstest.Key(), Expires: claimstest.Now() + 3000})
		}
	}
	withdraw(2)
	all, last := claimstest.Withdrawals(t, b, "")
	if len(all) != 2 {
		t.Fatalf("%v", all)
	}
	s.do(t, "DROP SCHEMA svid CASCADE")
	withdraw(3)
	if all, _ := claimstest.Withdrawals(t, b, last); len(all) != 3 {
		t.Errorf("%v", all)
	}
	for _, wrong := range []string{"", "x", "x/1", strings.Repeat("x", 36) + "/1", last, strings.Replace(last, "/2", "/-2", 1), last[:36] + "/99999999999999999999"} {
		if all, _ := claimstest.Withdrawals(t, b, wrong); len(all) != 3 {
			t.Errorf("%q: %v", wrong, all)
		}
	}
	s.do(t, "UPDATE svid.told SET last = 1::bigint << 62") // (a position has 63 bits)
	withdraw(1)
	all, last = claimstest.Withdrawals(t, b, "")
	if again, _ := claimstest.Withdrawals(t, b, last); len(all) != 4 || len(again) != 0 {
		t.Errorf("%d withdrawals, and %d of them are read again", len(all), len(again))
	}
}

// An entry that stops an insert, and is gone when its owner is read, is no answer.
func TestAnEntryThatIsGoneMeanwhile(t *testing.T) {
	t.Parallel()
	s := start(t)
	text := Schema("svid", claimstest.Usual, "")
	for from, remove := range map[string]string{
		"  there := (SELECT '\\x01'":                  "SET session_replication_role = replica; DELETE FROM svid.claim WHERE key = token;\n",
		"  SELECT string_agg(CASE WHEN c.key IS NULL": "SET session_replication_role = replica; DELETE FROM svid.claim WHERE key = ANY (keys);\n",
	} {
		if strings.Count(text, from) != 1 {
			t.Fatalf("%q is not in the schema", from)
		}
		text = strings.Replace(text, from, remove+from, 1)
	}
	s.do(t, text)
	a := open(t, Options{URLs: []string{s.URL}, Name: "svid"})
	for _, n := range []int{1, 2} {
		these := make([]claims.Claim, n)
		for i := range these {
			these[i] = claim(1)
		}
		claimstest.Put(t, a, these...)
		for _, f := range claimstest.Try(a, patience.Long, these...) {
			if f.Err == nil {
				t.Errorf("%+v", f)
			}
		}
		for i, f := range claimstest.Put(t, a, these...) {
			if f.Owner != these[i].Owner {
				t.Errorf("%+v", f)
			}
		}
	}
}

// The rows that say what claims mean can't go alone.
func TestTheEpochsRowStays(t *testing.T) {
	t.Parallel()
	s := start(t)
	a := open(t, Options{URLs: []string{s.URL}, Name: "svid"})
	for _, statement := range []string{"DELETE FROM svid.epoch", "TRUNCATE svid.epoch", "DELETE FROM svid.told", "TRUNCATE svid.told"} {
		if err := s.Do(statement); err == nil || !strings.Contains(err.Error(), "drop the schema") {
			t.Errorf("%s: %v", statement, err)
		}
	}
	mine(t, a, claim(1))
}

// A server that was put back to an older copy, and went on from there for longer than it had been, lacks claims all the same.
func TestAnOlderCopyThatWentOn(t *testing.T) {
	t.Parallel()
	s := &suite{start(t)}
	o := Options{URLs: []string{s.URL}, Name: "svid"}
	a, b := open(t, o), open(t, o)
	s.comparing(t, "svid")
	mine(t, a, claim(1))
	before := claimstest.State(t, a)
	restore := s.Copy(t)
	lost := claim(1)
	mine(t, a, lost)
	mine(t, a, claims.Claim{Key: claimstest.Key(), Owner: claimstest.Own(1), Expires: claimstest.Now() + 30}) // (not long enough to be a mark)
	restore()
	s.do(t, "CREATE TABLE more AS SELECT repeat('x', 1000) FROM generate_series(1, 5000)")
	claimstest.Watch(t, a)
	again := by(2, lost)
	if f := claimstest.Put(t, b, again)[0]; claimstest.Judge(again, f, 60) != claimstest.Unknown {
		t.Errorf("%+v", f)
	}
	another(t, before, a, b, open(t, o))
}

// A claim that is there already is put again, in one call with another one, which lives less long. A server that was put back lacks that one alone: it is
// seen all the same, whether the call stored that one or an earlier call, which had no answer that counts.
func TestAnotherClaimOfACall(t *testing.T) {
	t.Parallel()
	for name, isStored := range map[string]bool{"stored": true, "there": false} {
		isStored := isStored
		t.Run(name, func(t *testing.T) {
			t.Parallel()
			s := &suite{start(t)}
			o := Options{URLs: []string{s.URL}, Name: "svid"}
			a, b := open(t, o), open(t, o)
			s.comparing(t, "svid")
			again, lost := claim(1), claim(1)
			lost.Expires -= 1000
			mine(t, a, again)
			before := claimstest.State(t, a)
			restore := s.Copy(t)
			if !isStored { // (that this call was answered is not known to the member)
				c := open(t, o)
				mine(t, c, lost)
				c.Close()
			}
			for _, f := range claimstest.Put(t, a, again, lost) {
				if f.Err != nil || f.Owner != again.Owner {
					t.Fatalf("%+v", f)
				}
			}
			restore()
			claimstest.Watch(t, a)
			if f := claimstest.Put(t, b, by(2, lost))[0]; claimstest.Judge(by(2, lost), f, 60) != claimstest.Unknown {
				t.Errorf("%+v", f)
			}
			another(t, before, a, b)
		})
	}
}

// A store made again while a member runs that knew the one before is another history: also where an administrator makes it.
func TestAStoreMadeAgain(t *testing.T) {
	t.Parallel()
	s := start(t)
	o := Options{URLs: []string{s.URL}, Name: "svid"}
	a := open(t, o)
	before := claimstest.State(t, a)
	mine(t, a, claim(1))
	s.do(t, "DROP SCHEMA svid CASCADE; "+comparingSchema(t, "svid"))
	claimstest.Watch(t, a)
	another(t, before, open(t, o), a)
}

// A dump that is read in again is an older copy, though the server and the epoch are the same ones: nobody accepts what it lacks.
func TestADumpThatIsReadInAgain(t *testing.T) {
	t.Parallel()
	s := start(t)
	o := Options{URLs: []string{s.URL}, Name: "svid"}
	a := open(t, o)
	there := claim(1)
	mine(t, a, there)
	before := claimstest.State(t, a)
	dump, err := s.Command("pg_dump", s.URL, "--schema=svid", "--clean", "--if-exists").Output()
	if err != nil {
		t.Fatal(err)
	}
	lost := claim(1)
	mine(t, a, lost)
	a.Close() // Nobody is there who could miss it.
	b := open(t, o)
	read := s.Command("psql", s.URL, "-q", "--single-transaction", "-v", "ON_ERROR_STOP=1")
	read.Stdin = bytes.NewReader(dump)
	if out, err := read.CombinedOutput(); err != nil {
		t.Fatalf("%v %s", err, out)
	}
	again := by(2, lost)
	if f := claimstest.Put(t, b, again)[0]; claimstest.Judge(again, f, 60) != claimstest.Unknown {
		t.Errorf("%+v", f)
	}
	if f := claimstest.Put(t, b, by(2, there))[0]; f.Owner != there.Owner {
		t.Errorf("%+v", f)
	}
	another(t, before, open(t, o), b)
}

// Claims and withdrawals that are over go in pieces, by whoever looks, and the epoch stays.
func TestWhatIsOverGoes(t *testing.T) {
	t.Parallel()
	s := start(t)
	a := open(t, Options{URLs: []string{s.URL}, Name: "svid"})
	before := claimstest.State(t, a)
	over := before.Time - claimstest.Usual.Margin
	s.do(t, fmt.Sprintf(`INSERT INTO svid.claim SELECT sha256(int4send(n)), sha256('x'), %d - n FROM generate_series(1, 25000) AS n`, over))
	s.do(t, fmt.Sprintf(`INSERT INTO svid.withdrawal SELECT n, sha256(int4send(n)), %d - n FROM generate_series(1, 12000) AS n`, over))
	kept := claims.Claim{Key: claimstest.Key(), Owner: claimstest.Own(1), Expires: over + 100}
	mine(t, a, kept)
	logtest.Await(t, "what is over to go", func() bool {
		claimstest.State(t, a)
		return s.Do(`DO $$ BEGIN ASSERT (SELECT count(*) FROM svid.claim) = 1 AND (SELECT count(*) FROM svid.withdrawal) = 0; END $$`) == nil
	})
	if f := claimstest.Put(t, a, by(2, kept))[0]; f.Owner != kept.Owner {
		t.Errorf("%+v", f)
	}
	if is := claimstest.State(t, a); is.Epoch != before.Epoch || is.Deaf != 0 {
		t.Errorf("%+v, and before %+v", is, before)
	}
	s.do(t, "DELETE FROM svid.claim") // (a member whose clock is behind may still accept its token)
	another(t, before, open(t, Options{URLs: []string{s.URL}, Name: "svid"}))
}

// A token is withdrawn again until later. Its row goes once the first withdrawal is over, and nobody takes that for a loss.
func TestATokenThatIsWithdrawnAgain(t *testing.T) {
	t.Parallel()
	s := start(t)
	a := open(t, Options{URLs: []string{s.URL}, Name: "svid"})
	before := claimstest.State(t, a)
	w := claims.Withdrawal{Key: claimstest.Key(), Expires: before.Time - claimstest.Usual.Margin - 1}
	claimstest.Withdraw(t, open(t, Options{URLs: []string{s.URL}, Name: "svid"}), w)
	w.Expires += 3000
	if owner := claimstest.Withdraw(t, a, w); owner != claims.Withdrawn {
		t.Errorf("%x", owner)
	}
	logtest.Await(t, "what is over to go", func() bool {
		if is := claimstest.State(t, a); is.Epoch != before.Epoch {
			t.Fatalf("%+v, and before %+v", is, before)
		}
		return s.Do(`DO $$ BEGIN ASSERT (SELECT count(*) FROM svid.claim) = 0; END $$`) == nil
	})
	if is := claimstest.State(t, a); is.Epoch != before.Epoch {
		t.Errorf("%+v, and before %+v", is, before)
	}
}

// A connection that has ended is kept in mind no more: while a server answers by errors, each call has another one.
func TestConnectionsThatEndedTakeNoMemory(t *testing.T) {
	t.Parallel()
	a, err := New(Options{URLs: []string{start(t).URL}, Name: "svid", Terms: claimstest.Usual})
	if err != nil {
		t.Fatal(err)
	}
	defer a.Close()
	claimstest.Open(t, a)
	for n := 0; n < 5; n++ {
		if _, err := a.call(context.Background(), "SELECT 1 / 0"); err == nil {
			t.Error("no error")
		}
	}
	if len(a.open) != len(a.idle) {
		t.Errorf("%d connections are kept in mind, and %d are there", len(a.open), len(a.idle))
	}
}

// A look has its answer in time, however much is over: the looks after it remove the rest.
func TestALookAtAStoreOfWhichMuchIsOver(t *testing.T) {
	t.Parallel()
	s := start(t)
	a := open(t, Options{URLs: []string{s.URL}, Name: "svid"})
	over := claimstest.State(t, a).Time - claimstest.Usual.Margin
	s.do(t, `CREATE SEQUENCE svid.looks`)
	// (There is always more.)
	s.do(t, fmt.Sprintf(`CREATE OR REPLACE FUNCTION svid.expire() RETURNS bigint LANGUAGE sql AS $$ SELECT %d + 0 * nextval('svid.looks') $$`, pieces))
	s.do(t, fmt.Sprintf(`INSERT INTO svid.claim VALUES (sha256('a'), sha256('x'), %d)`, over-1))
	logtest.Await(t, "a look that removes more than once", func() bool {
		s.do(t, `SELECT setval('svid.looks', 1)`)
		claimstest.State(t, a)
		return s.Do(`DO $$ BEGIN ASSERT (SELECT last_value FROM svid.looks) > 2; END $$`) == nil
	})
}

// The store's SQL has the sums of the library: how long an entry stays, and to what an epoch is deaf that follows a loss.
func TestTimesOfTheLibrary(t *testing.T) {
	t.Parallel()
	s := start(t)
	a := open(t, Options{URLs: []string{s.URL}, Name: "svid"})
	usual := claimstest.Usual
	over := claimstest.State(t, a).Time - usual.Margin
	s.do(t, fmt.Sprintf(`INSERT INTO svid.claim SELECT sha256(int4send(n)), sha256('x'), %d + n FROM generate_series(-100, 100) AS n`, over))
	claimstest.State(t, a)
	s.do(t, "SELECT svid.expire()")
	db, err := sql.Open("postgres", s.URL)
	if err != nil {
		t.Fatal(err)
	}
	defer db.Close()
	var latest, first, count uint64
	if err := db.QueryRow("SELECT e.latest, (SELECT min(c.expires) FROM svid.claim AS c), (SELECT count(*) FROM svid.claim) FROM svid.epoch AS e").Scan(&latest, &first, &count); err != nil {
		t.Fatal(err)
	}
	if svid.StaysUntil(first, usual.Margin) < latest || svid.StaysUntil(first-1, usual.Margin) >= latest || count != over+100-first+1 {
		t.Errorf("at %d the first of %d entries expires at %d", latest, count, first)
	}
	for _, deaf := range []uint64{0, latest + 10*usual.Lasts} {
		s.do(t, fmt.Sprintf("UPDATE svid.epoch SET deaf = %d", deaf))
		before := claimstest.State(t, a)
		s.do(t, "TRUNCATE svid.claim")
		after := claimstest.State(t, a)
		if after.Deaf < svid.DeafAfter(before.Time+usual.Back, usual.Lasts, deaf) || after.Deaf > svid.DeafAfter(after.Time+usual.Back, usual.Lasts, deaf) {
			t.Errorf("%+v, and before %+v", after, before)
		}
	}
}

// Of a store at which nobody looks no answer counts, since the time of its last look bounds what an ended epoch may have had.
func TestNobodyLooks(t *testing.T) {
	t.Parallel()
	s := start(t)
	a := open(t, Options{URLs: []string{s.URL}, Name: "svid"})
	s.do(t, "UPDATE svid.epoch SET latest = latest - 11")
	c := claim(1)
	if f := claimstest.Try(a, patience.Long, c)[0]; !errors.Is(f.Err, errUnlooked) {
		t.Errorf("%+v", f)
	}
	if f := mine(t, a, c); f.Deaf != 0 { // (Put again where a busy machine takes so long that nobody looks once more.)
		t.Errorf("after a look: %+v", f)
	}
}

// The quarantine of a store that nobody has looked at since its server was started again stops everybody.
func TestQuarantine(t *testing.T) {
	t.Parallel()
	s := start(t)
	s.do(t, schemaWith("svid", "3 days"))
	a := newStore(t, Options{URLs: []string{s.URL}, Name: "svid"})
	ctx, cancel := context.WithTimeout(context.Background(), time.Second)
	defer cancel()
	if state, err := a.Open(ctx); err == nil || ctx.Err() == nil {
		t.Errorf("%+v %v", state, err)
	}
	quarantined := func(c claims.Claim) {
		t.Helper()
		logtest.Await(t, "an answer", func() bool {
			f := claimstest.Try(a, patience.Long, c)[0]
			if f.Err == nil {
				t.Fatalf("answered in the quarantine: %+v", f)
			}
			return errors.Is(f.Err, errRun)
		})
	}
	quarantined(claim(1))
	s.do(t, "UPDATE svid.epoch SET ready = clock_timestamp()")
	c := claim(1)
	mine(t, a, c)
	s.Postgres.Kill()
	s.start(t)
	for again := 0; again < 3; again++ {
		quarantined(c)
	}
	s.do(t, "UPDATE svid.epoch SET ready = clock_timestamp()")
	mine(t, a, c)
}
