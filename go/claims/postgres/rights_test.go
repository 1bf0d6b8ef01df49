package postgres

import (
	"context"
	"fmt"
	"io"
	"net"
	"net/url"
	"os"
	"runtime/debug"
	"strings"
	"testing"
	"time"

	"svid.example/go/v3/claims"
	"svid.example/go/v3/claims/claimstest"
	"svid.example/go/v3/internal/broker"
	"svid.example/go/v3/internal/logtest"
	"svid.example/go/v3/internal/patience"
)

// as is the URL of a server for a user.
func (s *machine) as(user, password string) string {
	u, err := url.Parse(s.URL)
	if err != nil {
		panic(err)
	}
	u.User = url.UserPassword(user, password)
	return u.String()
}

// refused is why a store can't be opened.
func refused(t testing.TB, o Options) error {
	t.Helper()
	ctx, cancel := context.WithTimeout(context.Background(), patience.Long)
	defer cancel()
	_, err := newStore(t, o).Open(ctx)
	if _, is := err.(*claims.Unfit); !is {
		t.Fatalf("not unfit: %v", err)
	}
	return err
}

// Members with the rights that an administrator gives them do all that a store does, and can't change or remove what is there.
func TestRights(t *testing.T) {
	t.Parallel()
	s := start(t)
	s.do(t, `CREATE ROLE "the member" LOGIN PASSWORD 'secret'`)
	o := Options{URLs: []string{s.as("the member", "secret")}, Name: "svid"}
	if !claimstest.OfOthers() { // (those make no store)
		if err := refused(t, o); !strings.Contains(err.Error(), "svidd schema") || !strings.Contains(err.Error(), "CREATE ON DATABASE") || strings.Contains(err.Error(), "secret") {
			t.Errorf("%v", err)
		}
	}
	s.do(t, Schema("svid", claimstest.Usual, ""))
	if err := refused(t, o); !strings.Contains(err.Error(), `GRANT USAGE ON SCHEMA svid TO "the member"`) ||
		!strings.Contains(err.Error(), `GRANT EXECUTE ON FUNCTION svid.put(bytea,bytea,bigint) TO "the member"`) || strings.Contains(err.Error(), "secret") {
		t.Errorf("%v", err)
	}
	_, given, _ := strings.Cut(refused(t, o).Error(), "prints: ")
	s.do(t, given)
	a := open(t, o)
	s.do(t, `REVOKE EXECUTE ON FUNCTION svid.withdraw FROM "the member"`)
	if _, err := a.Withdraw(context.Background(), claims.Withdrawal{Key: claimstest.Key(), Expires: claimstest.Now() + 3000}); err == nil ||
		!strings.HasSuffix(err.Error(), `: GRANT EXECUTE ON FUNCTION svid.withdraw(bytea,bigint) TO "the member"`) {
		t.Errorf("%v", err)
	}
	s.do(t, `DROP SCHEMA svid CASCADE`)
	s.do(t, Schema("svid", claimstest.Usual, "the member"))
	o.Terms = claimstest.Usual
	o.Terms.Lasts++
	b := open(t, o)
	c := claim(1)
	f := mine(t, b, c)
	for _, f := range claimstest.Put(t, b, by(2, c), claim(1)) {
		if f.Owner != claimstest.Own(1) {
			t.Errorf("%+v", f)
		}
	}
	if owner := claimstest.Withdraw(t, b, claims.Withdrawal{Key: claimstest.Key(), Expires: c.Expires}); owner != claims.Withdrawn {
		t.Errorf("%x", owner)
	}
	if all, _ := claimstest.Withdrawals(t, b, ""); len(all) != 1 {
		t.Errorf("%v", all)
	}
	claimstest.State(t, b)
	member := &machine{Postgres: &broker.Postgres{URL: o.URLs[0]}}
	for _, query := range []string{
		`SELECT * FROM svid.claim`, `SELECT * FROM svid.epoch`, `SELECT * FROM svid.withdrawal`, `SELECT * FROM svid.past`, `SELECT * FROM svid.told`,
		`INSERT INTO svid.claim VALUES (sha256('x'), sha256('x'), 1)`, `UPDATE svid.claim SET owner = sha256('x')`, `DELETE FROM svid.claim`, `TRUNCATE svid.claim`,
		`DROP TABLE svid.claim`, `ALTER TABLE svid.claim DISABLE TRIGGER deleted`, `LOCK TABLE svid.claim IN ACCESS EXCLUSIVE MODE`, `UPDATE svid.epoch SET deaf = 0`,
		`SELECT 1 FROM svid.epoch FOR UPDATE`, `DELETE FROM svid.withdrawal`, `UPDATE svid.told SET last = 0`, `INSERT INTO svid.past (id) VALUES (gen_random_uuid())`,
		`DROP SCHEMA svid CASCADE`, `CREATE TABLE svid.more (x int)`, `CREATE OR REPLACE FUNCTION svid.expire() RETURNS bigint LANGUAGE sql AS 'SELECT 1'`,
		`SELECT svid.next('00000000-0000-0000-0000-000000000000', NULL)`, `SELECT svid.lost()`, `SELECT svid.stays()`,
		`CREATE TRIGGER t BEFORE INSERT ON svid.claim EXECUTE FUNCTION svid.lost()`, `SET session_replication_role = replica`,
		`SELECT svid.put('short'::bytea, sha256('x'), 1)`, `SELECT svid.put(sha256('x'), decode(repeat('00', 33), 'hex'), 1)`,
		`SELECT svid.put(sha256('x'), 'short'::bytea, 1)`, `SELECT svid.put(NULL::bytea, sha256('x'), 1)`, `SELECT svid.put(sha256('x'), NULL::bytea, 1)`,
		`SELECT svid.put(ARRAY[sha256('x'), sha256('y')], ARRAY[sha256('x')], ARRAY[1::bigint, 2])`, `SELECT svid.withdraw('short', 1)`,
		`SELECT svid.put(ARRAY[decode(repeat('00', 1000), 'hex')], ARRAY[sha256('x')], ARRAY[1::bigint])`,
	} {
		if err := member.Do(query); err == nil {
			t.Errorf("a member may: %s", query)
		}
	}
	// What a member calls by other names does not stand in for what the functions call.
	if err := member.Do(`CREATE TEMP TABLE claim (key bytea); CREATE TEMP TABLE epoch (id uuid); CREATE FUNCTION pg_temp.int8send(bigint) RETURNS bytea LANGUAGE sql AS $$ SELECT ''::bytea $$;
		SELECT svid.put(sha256('z'), sha256('z'), 1); SELECT svid.expire(); SELECT svid.state(NULL, '{}', '{}', '{}', true)`); err != nil {
		t.Errorf("a member may not: %v", err)
	}
	// A liar ends the epoch, and makes nothing last longer than the terms allow.
	if err := member.Do(fmt.Sprintf(`SELECT svid.put(sha256('long'), sha256('x'), %d), svid.agree(-1), svid.agree(0)`, f.Time+10*o.Terms.Lasts)); err != nil {
		t.Error(err)
	}
	s.do(t, `DO $$ BEGIN ASSERT NOT EXISTS (SELECT FROM svid.claim WHERE key = sha256('long')); END $$`)
	if err := member.Do(`SELECT svid.agree(9223372036854775807)`); err == nil {
		t.Error("a member may let tokens live for ever")
	}
	mine(t, b, claim(1))
	if is := claimstest.State(t, b); is.Deaf != 0 {
		t.Errorf("%+v", is)
	}
}

// A server that could lose what it has committed is not used, also where it changes while a member runs.
func TestAServerThatForgets(t *testing.T) {
	t.Parallel()
	s := start(t, "-c", "synchronous_commit=off", "-c", "default_transaction_isolation=serializable")
	o := Options{URLs: []string{s.URL}, Name: "svid"}
	a := open(t, o) // Each session sets these.
	mine(t, a, claim(1))
	more := o
	more.Replicas = 2
	if err := refused(t, more); !strings.Contains(err.Error(), `synchronous_standby_names is "" and must wait for 1`) {
		t.Errorf("%v", err)
	}
	s.do(t, `CREATE ROLE "the owner" LOGIN; GRANT CREATE ON DATABASE postgres TO "the owner"`)
	blind := Options{URLs: []string{s.as("the owner", "x")}, Name: "other"}
	mine(t, open(t, blind), claim(1))
	s.do(t, "ALTER SYSTEM SET synchronous_standby_names = '*'")
	s.do(t, "SELECT pg_reload_conf()")
	blind.Replicas = 2
	logtest.Await(t, "the right that is missing to be named", func() bool {
		// (The first look of a second commits the time, and waits for the standby that is not there: not where the store has seen a later one.)
		s.do(t, `SET synchronous_commit = local; UPDATE other.epoch SET latest = floor(date_part('epoch', clock_timestamp())) + 30`)
		ctx, cancel := context.WithTimeout(context.Background(), 20*time.Second)
		defer cancel()
		store := newStore(t, blind)
		defer store.Close()
		_, err := store.Open(ctx)
		return err != nil && strings.Contains(err.Error(), `GRANT pg_read_all_stats TO "the owner"`)
	})
	s.do(t, "ALTER SYSTEM RESET synchronous_standby_names")
	s.do(t, "SELECT pg_reload_conf()")
	for _, name := range []string{"fsync", "full_page_writes"} {
		s.do(t, "ALTER SYSTEM SET "+name+" = off")
		s.do(t, "SELECT pg_reload_conf()")
		logtest.Await(t, "the setting", func() bool {
			_, err := a.State(limited(t))
			return err != nil && strings.Contains(err.Error(), name+" is off and must be on")
		})
		if f := claimstest.Try(a, patience.Long, claim(1))[0]; f.Err == nil || !strings.Contains(f.Err.Error(), name+" is off and must be on") {
			t.Errorf("%+v", f)
		}
		if err := refused(t, o); !strings.Contains(err.Error(), name+" is off and must be on") {
			t.Errorf("%v", err)
		}
		s.do(t, "ALTER SYSTEM RESET "+name)
		s.do(t, "SELECT pg_reload_conf()")
		logtest.Await(t, "the setting again", func() bool { _, err := a.State(limited(t)); return err == nil })
		mine(t, a, claim(1))
	}
}

func TestStandbys(t *testing.T) {
	for names, want := range map[string]int{
		"": 0, "  ": 0, "*": 1, "a": 1, "a, b": 1, `"a b"`: 1, "1 (a)": 1, "2 (a, b)": 2, "FIRST 2 (a, b, c)": 2, "ANY 3 (*)": 3, "any 10(a)": 10, "first  1 (*)": 1, `"7 (x)"`: 1,
	} {
		if got := standbys(names); got != want {
			t.Errorf("%q waits for %d, and not %d", names, got, want)
		}
	}
}

// A part of a store is no store.
func TestAPartOfAStore(t *testing.T) {
	t.Parallel()
	s := start(t)
	s.do(t, "CREATE SCHEMA svid; CREATE TABLE svid.claim (x int)")
	if !claimstest.OfOthers() { // (those make no store)
		if err := refused(t, Options{URLs: []string{s.URL}, Name: "svid"}); !strings.Contains(err.Error(), `DROP SCHEMA "svid" CASCADE`) {
			t.Errorf("%v", err)
		}
	}
	s.do(t, "DROP SCHEMA svid CASCADE; "+Schema("svid", claimstest.Usual, "")+"; UPDATE svid.epoch SET format = 2")
	if err := refused(t, Options{URLs: []string{s.URL}, Name: "svid"}); !strings.Contains(err.Error(), "format 2") {
		t.Errorf("%v", err)
	}
}

// With sslmode=verify-full a server is used if the authority knows it, by its name.
func TestTLS(t *testing.T) {
	t.Parallel()
	ca, cert, key := logtest.Certificate(t, t.TempDir())
	otherCA, _, _ := logtest.Certificate(t, t.TempDir())
	dir, err := broker.Folder()
	if err != nil {
		t.Fatal(err)
	}
	t.Cleanup(func() { os.RemoveAll(dir) })
	for from, to := range map[string]string{cert: dir + "/cert.pem", key: dir + "/key.pem"} {
		text, err := os.ReadFile(from)
		if err == nil {
			err = os.WriteFile(to, text, 0o600)
		}
		if err == nil {
			err = broker.Own(to)
		}
		if err != nil {
			t.Fatal(err)
		}
	}
	s := startIn(t, dir, "-c", "ssl=on", "-c", "ssl_cert_file="+dir+"/cert.pem", "-c", "ssl_key_file="+dir+"/key.pem")
	plain := strings.TrimSuffix(s.URL, "?sslmode=disable")
	open(t, Options{URLs: []string{s.URL + "&target_session_attrs=read-write"}, Name: "svid"})
	for name, row := range map[string]struct {
		url  string
		good bool
	}{
		"good":              {plain + "?sslmode=verify-full&sslrootcert=" + ca, true},
		"another authority": {plain + "?sslmode=verify-full&sslrootcert=" + otherCA, false},
		"the system's":      {plain + "?sslmode=verify-full", false},
		"another name":      {strings.Replace(plain, "127.0.0.1", "localhost", 1) + "?sslmode=verify-full&sslrootcert=" + ca, false},
		"not checked":       {plain, true},
	} {
		store := newStore(t, Options{URLs: []string{row.url}, Name: "svid"})
		ctx, cancel := context.WithTimeout(context.Background(), patience.Long)
		if !row.good {
			ctx, cancel = context.WithTimeout(context.Background(), time.Second)
		}
		if _, err := store.Open(ctx); (err == nil) != row.good {
			t.Errorf("%s: %v", name, err)
		}
		cancel()
	}
}

// URLs and names that can't be used are errors that have no secret of them.
func TestOptions(t *testing.T) {
	for text, want := range map[string]string{
		"postgres://u:secret@h/d":                        "",
		"postgresql://u@h/d?sslmode=verify-full":         "",
		"postgres:///d?host=/var/run/postgresql":         "",
		"postgres://u:secret@h:x/d":                      "it is no URL",
		"postgres://u:secret@h1,h2/d":                    "several servers",
		"redis://u:secret@h":                             "not like postgres://",
		"postgres://u:secret@h/d?connect_timeout=secret": "",
	} {
		_, err := New(Options{URLs: []string{text}, Name: "svid"})
		if (err == nil) != (want == "") || err != nil && (!strings.Contains(err.Error(), want) || strings.Contains(err.Error(), "secret")) {
			t.Errorf("%s: %v", text, err)
		}
	}
	for _, o := range []Options{
		{Name: "svid"}, {URLs: []string{"postgres://h/d"}}, {URLs: []string{"postgres://h/d"}, Name: `a"b`}, {URLs: []string{"postgres://h/d"}, Name: "pg_x"},
		{URLs: []string{"postgres://h/d"}, Name: strings.Repeat("x", 64)}, {URLs: []string{"postgres://h/d"}, Name: "svid", Terms: claims.Terms{Lasts: most + 1}},
		{URLs: []string{"postgres://h/d"}, Name: "svid", Terms: claims.Terms{Back: 1}},
	} {
		if _, err := New(o); err == nil {
			t.Errorf("%+v", o)
		}
	}
}

func TestOptionsOfTheEnvironment(t *testing.T) {
	t.Setenv("PGSERVICE", "x")
	if _, err := New(Options{URLs: []string{"postgres://h/d"}, Name: "svid"}); err == nil {
		t.Error("what the library can't use is no error")
	}
}

// A session that can't begin leaves no connection: a member tries again and again, and would use up those of the server.
func TestASessionThatCantBeginLeavesNothing(t *testing.T) {
	l, err := net.Listen("tcp", "127.0.0.1:0")
	if err != nil {
		t.Fatal(err)
	}
	defer l.Close()
	defer debug.SetGCPercent(debug.SetGCPercent(-1)) // (which closes what nobody has)
	left := make(chan error, 1)
	go func() {
		c, err := l.Accept()
		if err != nil {
			left <- err
			return
		}
		defer c.Close()
		// The server lets the member in, is ready, and refuses the first query as one that shuts down does.
		const refusal = "SFATAL\x00C57P01\x00Mit ends\x00\x00"
		_, _ = c.Write([]byte("R\x00\x00\x00\x08\x00\x00\x00\x00Z\x00\x00\x00\x05IE\x00\x00\x00" + string(rune(4+len(refusal))) + refusal + "Z\x00\x00\x00\x05I"))
		_ = c.SetReadDeadline(time.Now().Add(patience.Long))
		_, err = io.Copy(io.Discard, c)
		left <- err
	}()
	ctx, cancel := context.WithTimeout(context.Background(), patience.Long)
	defer cancel()
	c, err := dial(ctx, "postgres://u@"+l.Addr().String()+"/d?sslmode=disable")
	if err == nil || !strings.Contains(err.Error(), "it ends") {
		t.Errorf("%v, %v", c, err)
	}
	if err := <-left; err != nil {
		t.Errorf("the connection stays: %v", err)
	}
}

// So does a server that does not say what it is.
func TestAServerThatDoesNotSayWhatItIsLeavesNothing(t *testing.T) {
	defer debug.SetGCPercent(debug.SetGCPercent(-1)) // (which closes what nobody has)
	s := start(t)
	s.do(t, "CREATE ROLE poor LOGIN")
	s.do(t, "REVOKE EXECUTE ON FUNCTION pg_control_system() FROM PUBLIC")
	ctx, cancel := context.WithTimeout(context.Background(), patience.Long)
	defer cancel()
	at := &server{number: 1, url: s.as("poor", "any")}
	for i := 0; i < 5; i++ {
		if c, _, err := reach(ctx, at); err == nil || !strings.Contains(err.Error(), "pg_control_system") {
			t.Fatalf("%v, %v", c, err)
		}
	}
	logtest.Await(t, "all connections to end", func() bool {
		return s.Do(`DO $$ BEGIN ASSERT (SELECT count(*) FROM pg_stat_activity WHERE usename = 'poor') = 0; END $$`) == nil
	})
}

// A member that ends leaves no connection, also where it ends while it connects.
func TestCloseLeavesNothing(t *testing.T) {
	t.Parallel()
	s := start(t)
	open(t, Options{URLs: []string{s.URL}, Name: "svid"}).Close()
	for i := 0; i < 20; i++ {
		urls := []string{s.URL, s.URL}
		store := newStore(t, Options{URLs: urls[i%2:], Name: "svid"})
		ctx, cancel := context.WithTimeout(context.Background(), patience.Long)
		opened := make(chan error, 1)
		go func() { _, err := store.Open(ctx); opened <- err }()
		if i%3 > 0 {
			if err := <-opened; err != nil {
				t.Fatal(err)
			}
		}
		if err := store.Close(); err != nil {
			t.Fatal(err)
		}
		cancel()
	}
	logtest.Await(t, "all connections to end", func() bool {
		return s.Do(`DO $$ BEGIN ASSERT (SELECT count(*) FROM pg_stat_activity WHERE backend_type = 'client backend') = 1; END $$`) == nil
	})
}
