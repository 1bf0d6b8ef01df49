package main

import (
	"net"
	"os"
	"strings"
	"testing"

	client "github.com/nats-io/nats.go"

	"svid.example/go/v3/internal/broker"
	"svid.example/go/v3/internal/natstest"
)

// --check-config says of the servers of a group what a start would find out: a wrong password, a database that is missing, TLS that is off, and a
// server that is unfit. It changes nothing there, and no password is printed.
func TestCheckConfigAsksTheServers(t *testing.T) {
	t.Parallel()
	_, redis := stores["Redis"](t)
	redisOf := func(options ...string) string {
		s, err := broker.NewRedis(t.TempDir(), options...)
		must(t, err)
		t.Cleanup(s.Kill)
		must(t, s.Start())
		natstest.Await(t, "Redis", func() bool {
			c, err := net.Dial("tcp", s.Address)
			if err == nil {
				c.Close()
			}
			return err == nil
		})
		return s.URL
	}
	postgresServer, postgres := stores["PostgreSQL"](t)
	database := postgresServer.(*broker.Postgres)
	must(t, database.Do("CREATE ROLE poor LOGIN"))
	unfit, err := broker.Folder()
	must(t, err)
	t.Cleanup(func() { os.RemoveAll(unfit) })
	loose, err := broker.NewPostgres(unfit, "-c", "fsync=off")
	must(t, err)
	t.Cleanup(loose.Kill)
	must(t, loose.Start())
	nats := natstest.Start(t)
	guarded, err := broker.New(t.TempDir(), "--user", "svidd", "--pass", "right")
	must(t, err)
	t.Cleanup(guarded.Kill)
	must(t, guarded.Start())
	natstest.Await(t, "NATS with a password", func() bool {
		conn, err := client.Connect(strings.Replace(guarded.URL, "://", "://svidd:right@", 1))
		if err == nil {
			conn.Close()
		}
		return err == nil
	})
	bare := "nats://" + strings.TrimPrefix(guarded.URL, "nats://")
	withUser := func(url, user string) string { return strings.Replace(url, "://", "://"+user+"@", 1) }

	// A stream of the group's log that could lose values.
	js := stream(t, nats.URL)
	_, err = js.AddStream(&client.StreamConfig{Name: "KV_svid", Subjects: []string{"$KV.svid.>"}})
	must(t, err)

	good := []string{"serve", "--check-config", "--audience", "a", "--longest", "60", bundleOption(bundleFile(t, example))}
	strict := func(url string) []string { return []string{"--replay=strict", "--store", url} }
	once := func(url string) []string {
		return []string{"--replay=once", "--state=" + t.TempDir(), "--group-log", url}
	}
	for what, row := range map[string]struct {
		args []string
		want string // "" where the options are good
	}{
		"a good Redis":                       {strict(redis), ""},
		"a good PostgreSQL":                  {strict(postgres), ""},
		"a good NATS":                        {strict(nats.URL), ""},
		"a good log":                         {once(withUser(bare, "svidd:right")), ""},
		"Redis with a password that is none": {strict(withUser(redis, ":secret")), "AUTH"},
		"Redis wants a password":             {strict(redisOf("--requirepass", "right")), "NOAUTH"},
		"Redis has another password":         {strict(withUser(redisOf("--requirepass", "right"), ":secret")), "WRONGPASS"},
		"Redis loses what it has":            {strict(redisOf("--appendonly", "no")), "appendonly is no and must be yes"},
		"Redis is a replica":                 {strict(redisOf("--replicaof", "127.0.0.1 1")), "--store: "},
		"PostgreSQL lacks the database":      {strict(strings.Replace(postgres, "/postgres?", "/none?", 1)), `database "none" does not exist`},
		"PostgreSQL lacks the user":          {strict(strings.Replace(postgres, "svid@", "nobody:secret@", 1)), `role "nobody" does not exist`},
		"PostgreSQL speaks no TLS":           {strict(strings.Replace(postgres, "sslmode=disable", "sslmode=require", 1)), "SSL is not enabled"},
		"PostgreSQL loses what it has":       {strict(loose.URL), "fsync is off and must be on"},
		"PostgreSQL gives no rights":         {strict(strings.Replace(postgres, "svid@", "poor@", 1)), "this user may not make it"},
		"NATS has another password":          {strict(withUser(bare, "svidd:secret")), "Authorization Violation"},
		"NATS speaks no TLS":                 {strict(strings.Replace(nats.URL, "nats://", "tls://", 1)), "--store: "},
		"the log has another password":       {once(withUser(bare, "svidd:secret")), "Authorization Violation"},
		"the log loses what it has":          {once(nats.URL), "--group-log: "},
	} {
		var status int
		var out, said string
		natstest.Await(t, what+" to be asked in time", func() bool { // (a busy server may take longer than the two seconds that --check-config waits)
			status, out, said = here("", append(good[:len(good):len(good)], row.args...)...)
			return !strings.Contains(said, "no good answer within 2s")
		})
		if row.want == "" && (status != 0 || out != "svidd: the options are good\n" || said != "") {
			t.Errorf("%s: %d %q %q", what, status, out, said)
		}
		if row.want != "" && (status != 2 || out != "" || !strings.Contains(said, row.want) || strings.Contains(said, "secret") || strings.Count(said, "\n") != 1) {
			t.Errorf("%s: %d %q %q, and %q is due", what, status, out, said, row.want)
		}
	}
	// Redis takes this for the beginning of a command, and waits for the rest.
	status, _, said := here("", append(good[:len(good):len(good)], strict(strings.Replace(redis, "redis://", "rediss://", 1))...)...)
	if status != 0 || !strings.HasPrefix(said, "svidd: warning: --store: no good answer within 2s") || !strings.Contains(said, "speaks no TLS") {
		t.Errorf("Redis speaks no TLS: %d %q", status, said)
	}
	// Nothing was made.
	if err := database.Do("SELECT 1 / (SELECT count(*) FROM pg_namespace WHERE nspname = 'svid')"); err == nil {
		t.Error("PostgreSQL has a store now")
	}
	for name := range js.StreamNames() {
		if name != "KV_svid" {
			t.Errorf("NATS has the stream %s now", name)
		}
	}
}
