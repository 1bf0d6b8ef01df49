package postgres

import (
	"context"
	"fmt"
	"os"
	"strings"
	"testing"
	"time"

	"svid.example/go/v3/claims"
	"svid.example/go/v3/claims/claimstest"
	"svid.example/go/v3/internal/broker"
	"svid.example/go/v3/internal/logtest"
	"svid.example/go/v3/internal/patience"
)

// A machine is a server of PostgreSQL of a test.
type machine struct {
	*broker.Postgres
	compared []string // the stores whose members wait until the epoch has ended
}

// start starts a server, which ends with the test.
func start(t testing.TB, more ...string) *machine {
	t.Helper()
	dir, err := broker.Folder()
	if err != nil {
		t.Fatal(err)
	}
	t.Cleanup(func() { os.RemoveAll(dir) })
	return startIn(t, dir, more...)
}

func startIn(t testing.TB, dir string, more ...string) *machine {
	t.Helper()
	p, err := broker.NewPostgres(dir, more...)
	if err != nil {
		t.Fatal(err)
	}
	t.Cleanup(p.End)
	s := &machine{Postgres: p}
	s.start(t)
	return s
}

func (s *machine) start(t testing.TB) {
	t.Helper()
	if err := s.Postgres.Start(); err != nil {
		t.Fatal(err)
	}
}

func (s *machine) do(t testing.TB, query string, values ...any) {
	t.Helper()
	if err := s.Do(query, values...); err != nil {
		t.Fatal(query, err)
	}
}

// suite is a machine as the suite has it.
type suite struct{ *machine }

func (s *suite) Store(t testing.TB, o claimstest.Options) claims.Store {
	t.Helper()
	address := s.URL
	if o.Address != "" {
		address = strings.Replace(address, s.Postgres.Address, o.Address, 1)
	}
	if o.Compares {
		s.comparing(t, o.Name)
	}
	return newStore(t, Options{URLs: []string{address}, Name: o.Name, Terms: o.Terms})
}

// schemaWith is Schema of a store with another quarantine.
func schemaWith(name, quarantined string) string {
	return strings.ReplaceAll(Schema(name, claimstest.Usual, ""), fmt.Sprintf("interval '%d milliseconds'", quarantine.Milliseconds()), "interval '"+quarantined+"'")
}

// comparingSchema is Schema of a store in which nobody is answered, once it is new or at another run of the server, until a member has ended the epoch:
// a busy machine may be slow to let that member look. Who waits looks again soon.
func comparingSchema(t testing.TB, name string) string {
	t.Helper()
	text := schemaWith(name, fmt.Sprintf("%d milliseconds", patience.Long.Milliseconds()))
	const atARun = "      ready = clock_timestamp() + "
	_, long, _ := strings.Cut(text, atARun)
	long, _, _ = strings.Cut(long, " WHERE ")
	for from, to := range map[string]string{
		"SET id = gen_random_uuid(),": "SET id = gen_random_uuid(), ready = clock_timestamp(),", "wait := greatest(": "wait := least(100, greatest(",
		"e.ready - clock_timestamp())));": "e.ready - clock_timestamp()))));", atARun + long: atARun + `(SELECT c.time FROM "` + name + `".compares AS c)`,
	} {
		if strings.Count(text, from) != 1 {
			t.Fatalf("%q is not once in the schema", from)
		}
		text = strings.Replace(text, from, to, 1)
	}
	return text + comparesFor(name, long)
}

// comparesFor makes the table that says for how long the members of a store compare.
func comparesFor(name, long string) string {
	return fmt.Sprintf("\nDROP TABLE IF EXISTS %q.compares;\nCREATE TABLE %[1]q.compares AS SELECT %s AS time;\n", name, long)
}

// comparing lets the members of a store wait so from now on. Where there is no store, it makes a new one of that kind.
func (s *machine) comparing(t testing.TB, name string) {
	t.Helper()
	s.compared = append(s.compared, name)
	text := comparingSchema(t, name)
	var functions []string
	for _, of := range []string{"next", "state"} {
		start, end := `CREATE FUNCTION "`+name+`".`+of+"(", "END $$;"
		_, function, _ := strings.Cut(text, start)
		function, _, _ = strings.Cut(function, end)
		functions = append(functions, strings.Replace(start, "CREATE", "CREATE OR REPLACE", 1)+function+end)
	}
	logtest.Await(t, "a store whose members compare", func() bool {
		if s.Do(`SELECT 1 FROM "`+name+`".epoch`) == nil {
			return s.Do(strings.Join(functions, "\n")+text[strings.LastIndex(text, "\nDROP TABLE"):]) == nil
		}
		return s.Do(text) == nil // (a member that runs may make it at the same time)
	})
}

// limited is a context that ends when the patience of tests does.
func limited(t testing.TB) context.Context {
	ctx, cancel := context.WithTimeout(context.Background(), patience.Long)
	t.Cleanup(cancel)
	return ctx
}

func newStore(t testing.TB, o Options) claims.Store {
	t.Helper()
	if o.Name == "" {
		o.Name = "svid"
	}
	if o.Terms == (claims.Terms{}) {
		o.Terms = claimstest.Usual
	}
	make := func(o Options) (claims.Store, error) { return New(o) }
	if claimstest.OfOthers() {
		make = newRemote
	}
	store, err := make(o)
	if err != nil {
		t.Fatal(err)
	}
	t.Cleanup(func() { store.Close() })
	return store
}

func (s *suite) Address() string    { return s.Postgres.Address }
func (s *suite) Start(t testing.TB) { s.start(t) }
func (s *suite) Kill(testing.TB)    { s.Postgres.Kill() }
func (s *suite) Stop(testing.TB)    { s.Postgres.Stop() }
func (s *suite) Pause(testing.TB)   { s.Postgres.Pause() }
func (s *suite) Resume(testing.TB)  { s.Postgres.Resume() }

func (s *suite) Copy(t testing.TB) func() {
	t.Helper()
	restore := logtest.Copied(t, s.Dir, s.Postgres.Stop, s.Postgres.Kill, s.start)
	for _, name := range s.compared { // (The server that goes on has lost nothing. The copy has the long time.)
		s.do(t, fmt.Sprintf("UPDATE %q.compares SET time = interval '0'; UPDATE %[1]q.epoch SET ready = least(ready, clock_timestamp())", name))
	}
	return restore
}

// Empty drops the schema, again where a member that looks at it holds what the server wants at the moment, and waits for what it holds.
func (s *suite) Empty(t testing.TB, name string) {
	t.Helper()
	query := `DROP SCHEMA "` + name + `" CASCADE`
	for err := s.Do(query); err != nil; err = s.Do(query) {
		if !strings.Contains(err.Error(), "deadlock detected") {
			t.Fatal(query, err)
		}
	}
}

func TestMain(m *testing.M) {
	quarantine = time.Second
	os.Exit(m.Run())
}

// What does something to the server runs beside what does not.
var (
	beside = []string{"Put", "Many", "Races", "Withdrawals", "Pages", "Expiry", "Past", "Terms", "TooLong", "LostAnswer", "Closed", "Load"}
	alone  = []string{"Emptied", "EmptiedAndOpened", "ContextEnds", "ClosedMeanwhile"}
	again  = []string{"Killed", "Stopped", "PutBack", "ServerComesLater"}
)

func TestStore(t *testing.T) {
	t.Parallel()
	claimstest.Run(t, &suite{start(t)}, append(alone, again...)...)
}

func TestStoreAlone(t *testing.T) {
	t.Parallel()
	claimstest.Run(t, &suite{start(t)}, append(beside, again...)...)
}

func TestStoreOfAServerThatEnds(t *testing.T) {
	t.Parallel()
	claimstest.Run(t, &suite{start(t)}, append(beside, alone...)...)
}
