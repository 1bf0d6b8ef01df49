package main

import (
	"flag"
	"fmt"
	"io"
	"net"
	"os"
	"os/exec"
	"path/filepath"
	"strings"
	"sync/atomic"
	"testing"
	"time"

	"svid.example/go/v3/internal/broker"
	"svid.example/go/v3/internal/natstest"
)

// long lets a test send 10,000 tokens.
var long = flag.Bool("long", false, "send forty times as many tokens to a group")

// A storeServer is what a group's store stands in.
type storeServer interface {
	Kill()
	Stop()
	Start() error
}

// stores start each kind of server, and say by which address the group's store is reached.
var stores = map[string]func(t *testing.T) (server storeServer, url string){
	"NATS": func(t *testing.T) (storeServer, string) {
		s := natstest.Start(t)
		return s, s.URL
	},
	"Redis": func(t *testing.T) (storeServer, string) {
		s, err := broker.NewRedis(t.TempDir())
		if err != nil {
			t.Fatal(err)
		}
		t.Cleanup(s.Kill)
		if err := s.Start(); err != nil {
			t.Fatal(err)
		}
		return s, s.URL
	},
	"PostgreSQL": func(t *testing.T) (storeServer, string) {
		dir, err := broker.Folder()
		if err != nil {
			t.Fatal(err)
		}
		t.Cleanup(func() { os.RemoveAll(dir) })
		s, err := broker.NewPostgres(dir)
		if err != nil {
			t.Fatal(err)
		}
		t.Cleanup(s.Kill)
		if err := s.Start(); err != nil {
			t.Fatal(err)
		}
		return s, s.URL
	},
}

// members starts n sidecars of mode strict that share a store.
func members(t *testing.T, n int, url string, more ...string) []*process {
	t.Helper()
	bundle := bundleOption(bundleFile(t, example))
	all := make([]*process, n)
	for i := range all {
		all[i] = start(t, append([]string{bundle, "--replay", "strict", "--store", url, "--log", "errors",
			"--admin", filepath.Join(t.TempDir(), "admin.sock")}, more...)...)
	}
	return all
}

func many() int {
	if *long {
		return 10_000
	}
	return 250
}

// Whatever the store stands in: each token that three sidecars get at once is accepted by exactly one.
func TestStrictOverEachStore(t *testing.T) {
	t.Parallel()
	for name, begin := range stores {
		begin := begin
		t.Run(name, func(t *testing.T) {
			t.Parallel()
			_, url := begin(t)
			all := members(t, 3, url)
			n := many()
			accepted, unjudged := storm(all, tokens(t, "each", n), 16)
			if got := count(accepted); got != fmt.Sprintf("1:%d", n) {
				t.Errorf("accepted %s; unjudged %s", got, count(unjudged))
			}
			wantNoLoss(t, all)
		})
	}
}

// The same while two sidecars and the server are killed, and the server is stopped as an administrator does: no token is accepted
// twice, and nothing says that entries are lost.
func TestKilledOverEachStore(t *testing.T) {
	t.Parallel()
	for name, begin := range stores {
		begin := begin
		t.Run(name, func(t *testing.T) {
			t.Parallel()
			server, url := begin(t)
			all := members(t, 3, url)
			n := many()
			sent := tokens(t, "killed", n)
			var begun int64
			done := make(chan error, 1)
			go func() { done <- troubles(t, &begun, n, server, all) }()
			accepted, _ := stormCounted(all, sent, 16, &begun)
			if err := <-done; err != nil {
				t.Fatal(err)
			}
			for _, p := range all {
				p.await("ready", func() bool { status, _ := p.get("/readyz"); return status == 200 })
			}
			again, unjudged := storm(all, sent, 16)
			total := 0
			for i := range sent {
				if accepted[i]+again[i] > 1 {
					t.Fatalf("token %d was accepted %d times, and %d times after it", i, accepted[i], again[i])
				}
				total += int(accepted[i])
			}
			if got := count(unjudged); got != fmt.Sprintf("0:%d", n) {
				t.Errorf("after it, unjudged %s", got)
			}
			wantNoLoss(t, all)
			t.Logf("%d tokens to 3 sidecars: accepted %s", n, count(accepted))
		})
	}
}

// Two sidecars that were started from copies of one state folder have one validator ID, and still are two lives: each token is
// accepted by one of them.
func TestCopiesOfAStateFolder(t *testing.T) {
	t.Parallel()
	_, url := stores["Redis"](t)
	state := filepath.Join(t.TempDir(), "state")
	first := members(t, 1, url, "--state", state, "--log", "decisions")[0]
	first.want(token(t, "before", lasting), 200, "")
	first.end()
	copied := filepath.Join(t.TempDir(), "copy")
	if out, err := exec.Command("cp", "-a", state, copied).CombinedOutput(); err != nil {
		t.Fatalf("%s %v", out, err)
	}
	first.start()
	all := append(members(t, 1, url, "--state", copied, "--log", "decisions"), first)
	if one, other := all[0].awaitEvents("serving", 1), all[1].awaitEvents("serving", 2); one[0]["validator_id"] != other[0]["validator_id"] {
		t.Errorf("they have two validator IDs: %v, %v", one, other)
	}
	const n = 200
	accepted, unjudged := storm(all, tokens(t, "copies", n), 16)
	if got := count(accepted); got != fmt.Sprintf("1:%d", n) {
		t.Errorf("accepted %s; unjudged %s", got, count(unjudged))
	}
}

// wantNoLoss wants that no sidecar has seen the store lose entries.
func wantNoLoss(t *testing.T, all []*process) {
	t.Helper()
	for _, p := range all {
		if epochs, deaf := p.metric("svidd_store_epochs_total"), p.metric("svidd_store_deaf_until_timestamp_seconds"); epochs != "0" || deaf != "0" {
			t.Errorf("%s epochs, until %s, and it said:\n%s", epochs, deaf, p.log)
		}
	}
}

// troubles kills two sidecars and the server, each once so many tokens were sent, and stops the server once.
func troubles(t *testing.T, begun *int64, n int, server storeServer, all []*process) error {
	for i, trouble := range []func() error{
		func() error { return restartAt(all[1]) },
		func() error { server.Kill(); time.Sleep(500 * time.Millisecond); return server.Start() },
		func() error { return restartAt(all[2]) },
		func() error { server.Stop(); time.Sleep(500 * time.Millisecond); return server.Start() },
	} {
		for atomic.LoadInt64(begun) < int64(n*(i+1)/5) {
			time.Sleep(time.Millisecond)
		}
		if err := trouble(); err != nil {
			return err
		}
	}
	return nil
}

// restartAt kills a sidecar and starts it again.
func restartAt(p *process) error {
	p.kill()
	p.run = command(p.args...)
	p.run.Stderr = p.log
	return p.run.Start()
}

// A store is chosen by its address, and what can't go with it is said.
func TestOptionsOfTheStore(t *testing.T) {
	good := []string{"serve", "--check-config", "--audience", "a", "--longest", "60", "--bundle", "example.org=" + bundleFile(t, example)}
	for _, row := range []struct {
		args []string
		want string // "" where the options are good
	}{
		{[]string{"--replay", "strict"}, "--store is missing"},
		{[]string{"--replay", "strict", "--store", "nats://h:4222"}, ""},
		{[]string{"--replay", "strict", "--store", "redis://u:secret@h"}, ""},
		{[]string{"--replay", "strict", "--store", "redis://h1", "--store", "redis://h2"}, ""},
		{[]string{"--replay", "strict", "--store", "rediss://u:secret@h?ssl_ca_certs=/none"}, "/none"},
		{[]string{"--replay", "strict", "--store", "postgres://u:secret@h/d"}, ""},
		{[]string{"--replay", "strict", "--store", "postgres://u:secret@h:x/d"}, "it is no URL"},
		{[]string{"--replay", "strict", "--store", "mysql://u:secret@h"}, "address 1 must begin"},
		{[]string{"--replay", "strict", "--store", "redis://h", "--store", "nats://u:secret@h"}, "address 2 must begin"},
		{[]string{"--replay", "strict", "--store", "redis://h", "--nats", "nats://u:secret@h"}, "are for --replay once"},
		{[]string{"--replay", "strict", "--group-log", "nats://u:secret@h"}, "are for --replay once"},
		{[]string{"--replay", "reuse", "--store", "redis://h"}, ""},
		{[]string{"--replay", "once", "--state", t.TempDir(), "--group-log", "redis://h"}, "--replay strict --store"},
		{[]string{"--replay", "once", "--state", t.TempDir(), "--group-log", "nats://h"}, ""},
		{[]string{"--replay", "once", "--state", t.TempDir(), "--group-log", "nats://h1", "--group-log", "http://u:secret@h2"}, "--group-log: address 2 must begin"},
		{[]string{"--replay", "once", "--state", t.TempDir(), "--group-log", "nats://h", "--store", "redis://h"}, ""},
		{[]string{"--replay", "once", "--state", t.TempDir(), "--group-log", "nats://h", "--nats", "nats://h"}, "give one of them"},
		{[]string{"--replay", "strict", "--store", "redis://h", "--nats-creds", bundleFile(t, example)}, "are for NATS"},
		{[]string{"--replay", "strict", "--store", "redis://h", "--replicas", "6"}, "from 1 to 5"},
	} {
		status, out, err := here("", append(good[:len(good):len(good)], row.args...)...)
		said := out + withoutServers(err)
		if row.want == "" && (status != 0 || said != "svidd: the options are good\n") || row.want != "" && (status != 2 || !strings.Contains(err, row.want)) {
			t.Errorf("%q: %d %q, and %q is due", row.args, status, said, row.want)
		}
		if strings.Contains(said, "secret") {
			t.Errorf("%q: a password is printed: %q", row.args, said)
		}
	}
	t.Setenv("SVIDD_STORE", "redis://h1,redis://u:secret@h2:x")
	if status, out, err := here("", append(good, "--replay", "strict")...); status != 2 || !strings.Contains(err, "address 2: it is no URL") || strings.Contains(out+err, "secret") {
		t.Errorf("%d %q %q", status, out, err)
	}
}

// What schema prints makes a store that members with the rights of a role use, and whose entries these can't change.
func TestSchema(t *testing.T) {
	t.Parallel()
	server, url := stores["PostgreSQL"](t)
	postgres := server.(*broker.Postgres)
	for _, args := range [][]string{{"schema"}, {"schema", "--longest", "0"}, {"schema", "--longest", "60", "--group", "a b"}, {"schema", "--longest", "60", "more"}} {
		if status, out, _ := here("", args...); status != 2 || out != "" {
			t.Errorf("%q: %d %q", args, status, out)
		}
	}
	status, text, err := here("", "schema", "--longest", "3600", "--group", "ledger", "--role", "member")
	if status != 0 || err != "" {
		t.Fatal(status, err)
	}
	if err := postgres.Do("CREATE ROLE member LOGIN; CREATE ROLE other LOGIN"); err != nil {
		t.Fatal(err)
	}
	if err := postgres.Do(text); err != nil {
		t.Fatal(err)
	}
	as := func(user string) string { return strings.Replace(url, "svid@", user+"@", 1) }
	p := members(t, 1, as("member"), "--group", "ledger")[0]
	one := token(t, "one", lasting)
	p.want(one, 200, "")
	p.want(one, 401, "Replayed")
	other := prepare(t, nil, bundleOption(bundleFile(t, example)), "--replay", "strict", "--store", as("other"), "--group", "ledger")
	other.launch()
	if err := other.wait(); err == nil || !strings.Contains(other.log.String(), "svidd schema") {
		t.Errorf("%v: %s", err, other.log)
	}
}

// A sidecar whose store is not reached says why, without the password of its address.
func TestWhyAStoreIsNotReached(t *testing.T) {
	t.Parallel()
	var all []*stage
	for _, scheme := range []string{"redis", "postgres", "nats"} {
		s := newStage(t, "strict", bundleOption(bundleFile(t, example)), "--store", scheme+"://member:secret@"+freeAddress(t))
		s.more = append(s.more, inHaste+"=1")
		s.launch()
		all = append(all, s)
	}
	for _, s := range all {
		s.await("the line that says why", func() bool { return len(s.events("store not reached")) > 0 })
		if why := fmt.Sprint(s.events("store not reached")[0]["error"]); !strings.Contains(why, "connection refused") || strings.Contains(s.log.String(), "secret") {
			t.Errorf("it says %s", why)
		}
	}
}

// A healthy store takes seconds to open, while the members of the group compare what they know. Nobody logs that it can't be reached.
func TestAStoreThatTakesItsTime(t *testing.T) {
	t.Parallel()
	_, url := stores["Redis"](t)
	s := newStage(t, "strict", bundleOption(bundleFile(t, example)), "--store", url)
	s.more = append(s.more, inHaste+"=1")
	s.launch()
	s.await("ready", func() bool { status, _ := s.get("/readyz"); return status == 200 })
	if lines := s.events("store not reached"); len(lines) > 0 {
		t.Errorf("%v", lines)
	}
}

// A store that takes connections and answers nothing is one line, however often svidd looks at it: from another port each time.
func TestAStoreThatHangsIsSaidOnce(t *testing.T) {
	t.Parallel()
	l, err := net.Listen("tcp", "127.0.0.1:0")
	must(t, err)
	defer l.Close()
	var looks atomic.Int32 // Each begins with a connection that says nothing.
	go func() {
		for c, err := l.Accept(); err == nil; c, err = l.Accept() {
			go func(c net.Conn) {
				defer c.Close()
				if n, _ := io.Copy(io.Discard, c); n == 0 {
					looks.Add(1)
				}
			}(c)
		}
	}()
	s := newStage(t, "strict", bundleOption(bundleFile(t, example)), "--store", "redis://"+l.Addr().String())
	s.more = append(s.more, inHaste+"=1")
	s.launch()
	s.await("two looks at the store", func() bool { return looks.Load() > 2 })
	if lines := s.awaitEvents("store not reached", 1); len(lines) != 1 {
		t.Errorf("%d lines: %v", len(lines), lines)
	}
}
