package redis

import (
	"context"
	"errors"
	"fmt"
	"io"
	"net"
	"os"
	"path/filepath"
	"strings"
	"syscall"
	"testing"
	"time"

	"svid.example/go/v3/claims"
	"svid.example/go/v3/claims/claimstest"
	"svid.example/go/v3/internal/broker"
	"svid.example/go/v3/internal/logtest"
	"svid.example/go/v3/internal/patience"
)

// tryOpen opens a store, and says why it can't be.
func tryOpen(t *testing.T, o Options, wait time.Duration) error {
	t.Helper()
	ctx, cancel := context.WithTimeout(context.Background(), wait)
	defer cancel()
	_, err := newStore(t, o).Open(ctx)
	return err
}

// A server that could lose what it has answered is not used, and the error says by which setting.
func TestAServerThatForgets(t *testing.T) {
	t.Parallel()
	s := start(t)
	for name, row := range map[string]struct {
		setting, good, bad, want string
	}{
		"no file":        {"appendonly", "yes", "no", "appendonly is no and must be yes"},
		"each second":    {"appendfsync", "always", "everysec", "appendfsync is everysec and must be always"},
		"never":          {"appendfsync", "always", "no", "appendfsync is no and must be always"},
		"not meanwhile":  {"no-appendfsync-on-rewrite", "no", "yes", "no-appendfsync-on-rewrite is yes and must be no"},
		"evicts":         {"maxmemory-policy", "noeviction", "allkeys-lru", "maxmemory-policy is allkeys-lru and must be noeviction"},
		"evicts by time": {"maxmemory-policy", "noeviction", "volatile-ttl", "maxmemory-policy is volatile-ttl and must be noeviction"},
	} {
		s.do(t, "CONFIG", "SET", row.setting, row.bad)
		var unfit *claims.Unfit
		if err := tryOpen(t, Options{URLs: []string{s.URL}}, patience.Long); !errors.As(err, &unfit) || !strings.Contains(err.Error(), row.want) {
			t.Errorf("%s: %v", name, err)
		}
		if err := tryOpen(t, Options{URLs: []string{s.URL + "?settings=unchecked"}}, patience.Long); err != nil {
			t.Errorf("%s: unchecked: %v", name, err)
		}
		s.do(t, "CONFIG", "SET", row.setting, row.good)
	}
}

// A setting that is changed while members run stops them, once they look at it again.
func TestASettingThatIsChanged(t *testing.T) {
	t.Parallel()
	s := start(t)
	a := opened(t, Options{URLs: []string{s.URL}})
	before := claimstest.State(t, a)
	put(t, a, 1)
	look := func() {
		a, is := a.(*Store)
		if !is { // (others look each time)
			return
		}
		a.mu.Lock()
		defer a.mu.Unlock()
		for run, is := range a.checked {
			a.checked[run] = checked{is.at.Add(-checkEvery), is.settled}
		}
	}
	s.do(t, "CONFIG", "SET", "appendfsync", "everysec")
	look()
	var unfit *claims.Unfit
	if _, err := a.State(limited(t)); !errors.As(err, &unfit) {
		t.Error(err)
	}
	if f := claimstest.Try(a, patience.Long, claim(1))[0]; !errors.As(f.Err, &unfit) {
		t.Errorf("%+v", f)
	}
	s.do(t, "CONFIG", "SET", "appendfsync", "always")
	put(t, a, 1)
	stays(t, before, a)
}

// rewrites says whether a server is rewriting its file.
func (s *machine) rewrites() bool {
	answer, err := s.Do("EVAL", "return redis.call('INFO', 'persistence'):find('aof_rewrite_in_progress:1') and 1 or 0", "0")
	return err == nil && answer == ":1"
}

// rewriting lets a server take hours to rewrite its file. At end that is killed, and the next rewrite is quick.
func (s *machine) rewriting(t *testing.T) (end func()) {
	t.Helper()
	s.do(t, "DEBUG", "POPULATE", "100")
	s.do(t, "CONFIG", "SET", "rdb-key-save-delay", "100000000")
	return func() {
		t.Helper()
		s.do(t, "CONFIG", "SET", "rdb-key-save-delay", "0")
		for _, pid := range broker.Children(s.Pid()) {
			syscall.Kill(pid, syscall.SIGKILL)
		}
		logtest.Await(t, "the end of a rewrite", func() bool { return !s.rewrites() })
	}
}

// A server whose file was just turned on has it once its first rewrite is over. A rewrite of one that has it already stops nobody.
func TestTheFirstRewrite(t *testing.T) {
	t.Parallel()
	s := start(t, "--enable-debug-command", "local")
	o := Options{URLs: []string{s.URL}}
	a := opened(t, o)
	end := s.rewriting(t)
	s.do(t, "BGREWRITEAOF")
	logtest.Await(t, "a rewrite", s.rewrites)
	if err := tryOpen(t, o, patience.Long); err != nil || !s.rewrites() {
		t.Errorf("during a rewrite of a file that has all: %v", err)
	}
	put(t, a, 1)
	end()
	s.do(t, "CONFIG", "SET", "appendonly", "no")
	if a, is := a.(*Store); is {
		a.mu.Lock()
		a.checked = make(map[string]checked)
		a.mu.Unlock()
	}
	var unfit *claims.Unfit
	if _, err := a.State(limited(t)); !errors.As(err, &unfit) {
		t.Error(err)
	}
	end = s.rewriting(t)
	s.do(t, "CONFIG", "SET", "appendonly", "yes")
	logtest.Await(t, "a rewrite", s.rewrites)
	if f := claimstest.Try(a, patience.Long, claim(1))[0]; f.Err == nil || !strings.Contains(f.Err.Error(), "first append-only file") {
		t.Errorf("%+v", f)
	}
	end()
	put(t, a, 1)
}

// A server that was never used, and whose file is being made, is not used before that is there.
func TestAServerThatGetsAFile(t *testing.T) {
	t.Parallel()
	s := start(t, "--enable-debug-command", "local", "--appendonly", "no")
	end := s.rewriting(t)
	s.do(t, "CONFIG", "SET", "appendonly", "yes")
	claimstest.Refuses(t, newStore(t, Options{URLs: []string{s.URL}}), "first append-only file")
	end()
	opened(t, Options{URLs: []string{s.URL}})
}

// A replica alone is not used.
func TestAReplicaAlone(t *testing.T) {
	t.Parallel()
	primary := start(t)
	replica := startReplica(t, primary)
	claimstest.Refuses(t, newStore(t, Options{URLs: []string{replica.URL}}), "it is a replica")
	opened(t, Options{URLs: []string{replica.URL, primary.URL}})
}

// The key of the record has something else.
func TestAKeyThatIsNoRecord(t *testing.T) {
	t.Parallel()
	s := start(t)
	for _, text := range []string{"x", strings.Repeat("a", 32), strings.Repeat("a", 1<<20)} {
		s.do(t, "SET", "svid:{svid}:epoch", text)
		var unfit *claims.Unfit
		if err := tryOpen(t, Options{URLs: []string{s.URL}}, patience.Long); !errors.As(err, &unfit) || !strings.Contains(err.Error(), "svid:{svid}:epoch is not the record") {
			t.Errorf("%.40q: %v", text, err)
		}
	}
}

// rights are those that docs/STORES.md names.
func rights(t testing.TB, name string) []string {
	t.Helper()
	text, err := os.ReadFile("../../../docs/STORES.md")
	if err != nil {
		t.Fatal(err)
	}
	for _, line := range strings.Split(string(text), "\n") {
		if strings.HasPrefix(line, "ACL SETUSER "+name+" ") {
			return strings.Fields(strings.ReplaceAll(line, "GROUP", "svid"))
		}
	}
	t.Fatalf("docs/STORES.md has no line ACL SETUSER %s", name)
	return nil
}

// acl gives the rights of a line of redis-cli: what stands in parentheses is one word.
func acl(t testing.TB, do func(words ...string) error, line []string) {
	t.Helper()
	var words []string
	open := false
	for _, word := range line {
		if open {
			words[len(words)-1] += " " + word
		} else {
			words = append(words, strings.TrimPrefix(word, "'"))
		}
		if strings.HasPrefix(word, "'(") {
			open = true
		}
		if strings.HasSuffix(word, ")'") {
			open = false
			words[len(words)-1] = strings.TrimSuffix(words[len(words)-1], "'")
		}
	}
	if err := do(words...); err != nil {
		t.Fatal(words, err)
	}
}

// The rights that the documents name are enough, and each is needed. (The address names a database: without one, +select is not needed.)
func TestRights(t *testing.T) {
	t.Parallel()
	s := start(t)
	do := func(words ...string) error { _, err := s.Do(words...); return err }
	acl(t, do, rights(t, "member"))
	bare := strings.Replace(s.URL, "redis://", "redis://member:secret@", 1)
	url := bare + "/2"
	use := func(url string, wait time.Duration) error {
		store, err := New(Options{URLs: []string{url}, Name: "svid", Terms: claimstest.Usual, Wait: 20 * time.Millisecond})
		if err != nil {
			return err
		}
		defer store.Close()
		ctx, cancel := context.WithTimeout(context.Background(), wait)
		defer cancel()
		if _, err := store.Open(ctx); err != nil {
			return err
		}
		c := claim(1)
		found := make([]claims.Found, 1)
		for n := 0; n < 2; n++ {
			if store.Put(ctx, []claims.Claim{c}, found); found[0].Err != nil {
				return found[0].Err
			}
		}
		if _, err := store.Withdraw(ctx, claims.Withdrawal{Key: claimstest.Key(), Expires: claimstest.Now() + 3000}); err != nil {
			return err
		}
		if all, _, err := store.Withdrawals(ctx, ""); err != nil || len(all) == 0 {
			return fmt.Errorf("%d withdrawals, %v", len(all), err)
		}
		if _, err := store.State(ctx); err != nil {
			return err
		}
		store.mu.Lock() // (as if the list were old)
		it := store.shards[0]
		it.record.since = 0
		shards := store.shards
		store.mu.Unlock()
		conn, err := store.take(ctx, shards)
		if err != nil {
			return err
		}
		defer store.give(conn)
		return store.turn(ctx, conn, shards)
	}
	may := func(url string) bool {
		for wait := time.Second / 2; ; wait *= 2 { // (what is not permitted is tried until the time is over)
			err := use(url, wait)
			if err == nil || strings.Contains(err.Error(), "NOPERM") {
				return err == nil
			}
			if wait > patience.Long {
				t.Fatal(err)
			}
		}
	}
	if !may(url) {
		t.Error("the rights are not enough")
	}
	for _, word := range rights(t, "member") {
		word = strings.Trim(word, "()'")
		if !strings.HasPrefix(word, "+") || word == "+wait" || word == "+unwatch" { // (for replicas, and where two write at once)
			continue
		}
		s.do(t, "FLUSHALL")
		s.do(t, "ACL", "DELUSER", "member")
		var less []string
		for _, one := range rights(t, "member") {
			if strings.Trim(one, "()'") != word {
				less = append(less, one)
			} else if strings.HasSuffix(one, ")'") {
				less[len(less)-1] += ")'"
			}
		}
		acl(t, do, less)
		if may(url) {
			t.Errorf("the right %s is not needed", word)
		}
		if is := may(bare); is != (word == "+select") {
			t.Errorf("without the right %s, and with an address without a database: %v", word, is)
		}
	}
	s.do(t, "ACL", "DELUSER", "member")
	acl(t, do, rights(t, "member"))
	for _, words := range [][]string{{"DEL", "svid:{svid}:x"}, {"EXPIREAT", "svid:{svid}:x", "1"}, {"GET", "svid:{svid}:x"}, {"FLUSHALL"}, {"SET", "other", "x"}, {"CONFIG", "SET", "appendonly", "no"}} {
		one, err := parse(url)
		if err != nil {
			t.Fatal(err)
		}
		c, err := one.dial(limited(t))
		if err != nil {
			t.Fatal(err)
		}
		args := make([]any, 0, 4)
		for _, w := range words[1:] {
			args = append(args, w)
		}
		answers, err := c.do(limited(t), cmd(words[0], args...))
		if err != nil || firstFailure(answers) == nil || !strings.Contains(firstFailure(answers).Error(), "NOPERM") {
			t.Errorf("%v: %v %v", words, answers, err)
		}
		c.Close()
	}
	s.do(t, "ACL", "SETUSER", "member", "-config|get")
	err := tryOpen(t, Options{URLs: []string{url}}, patience.Long)
	if err == nil || !strings.Contains(err.Error(), "does not tell its settings") || strings.Contains(err.Error(), "secret") {
		t.Errorf("%v", err)
	}
	if err := tryOpen(t, Options{URLs: []string{url + "?settings=unchecked"}}, patience.Long); err != nil {
		t.Error(err)
	}
	wrong := strings.Replace(s.URL, "redis://", "redis://member:wrong@", 1)
	claimstest.Refuses(t, newStore(t, Options{URLs: []string{wrong}}), "WRONGPASS")
}

// A password may stand in the URL, in a file, or in the environment.
func TestPasswords(t *testing.T) {
	s := start(t)
	s.do(t, "CONFIG", "SET", "requirepass", "sesame")
	file := t.TempDir() + "/password"
	for ending, text := range map[string]string{"": "sesame\n", ".crlf": "sesame\r\nmore\r\n", ".bare": "sesame"} {
		if err := os.WriteFile(file+ending, []byte(text), 0o600); err != nil {
			t.Fatal(err)
		}
	}
	unaware, err := net.Listen("tcp", "127.0.0.1:0") // (as a Redis that does not know AUTH)
	if err != nil {
		t.Fatal(err)
	}
	defer unaware.Close()
	go func() {
		for {
			c, err := unaware.Accept()
			if err != nil {
				return
			}
			go func() {
				defer c.Close()
				for room := make([]byte, 1<<10); err == nil; {
					if _, err = c.Read(room); err == nil {
						_, err = io.WriteString(c, "-ERR unknown command 'AUTH', with args beginning with: 'sesame' \r\n")
					}
				}
			}()
		}
	}()
	for name, row := range map[string]struct {
		url, variable string
		good          bool
	}{
		"none":        {s.URL, "", false},
		"unaware":     {"redis://:sesame@" + unaware.Addr().String(), "", false},
		"url":         {strings.Replace(s.URL, "redis://", "redis://:sesame@", 1), "", true},
		"file":        {s.URL + "?password_file=" + file, "", true},
		"file, CR LF": {s.URL + "?password_file=" + file + ".crlf", "", true},
		"bare file":   {s.URL + "?password_file=" + file + ".bare", "", true},
		"environment": {s.URL, "sesame", true},
	} {
		if claimstest.OfOthers() && row.variable != "" {
			continue // (it has an environment of its own)
		}
		t.Run(name, func(t *testing.T) {
			t.Setenv(passwordVariable, row.variable)
			wait := patience.Long
			if !row.good {
				wait = 300 * time.Millisecond
			}
			if err := tryOpen(t, Options{URLs: []string{row.url}}, wait); (err == nil) != row.good || err != nil && strings.Contains(err.Error(), "sesame") {
				t.Error(err)
			}
		})
	}
}

// A Sentinel is shown its own password, and never the servers': one without a password refuses that, and one of another team would know it.
func TestPasswordsOfSentinels(t *testing.T) {
	file := filepath.Join(t.TempDir(), "password")
	if err := os.WriteFile(file, []byte("open\n"), 0o600); err != nil {
		t.Fatal(err)
	}
	t.Setenv(passwordVariable, "of the environment")
	for ending, want := range map[string][2]string{
		"":                                {"", "sesame"},
		"&password_file=" + file:          {"", "open"},
		"&sentinel_password_file=" + file: {"open", "sesame"},
	} {
		sentinel, err := parse("redis+sentinel://:sesame@h?service=svid" + ending)
		if err != nil {
			t.Fatal(err)
		}
		for i, one := range []*server{&sentinel, sentinel.at("h:6379")} {
			if is, err := one.secret(); err != nil || is != want[i] {
				t.Errorf("%s: the password of %s is %q, and must be %q: %v", ending, []string{"a Sentinel", "the server"}[i], is, want[i], err)
			}
		}
	}
	if one, err := parse("redis+sentinel://h?service=svid"); err != nil {
		t.Fatal(err)
	} else if is, err := one.secret(); is != "" || err != nil {
		t.Errorf("the password of a Sentinel is %q: %v", is, err)
	}
}

// Over TLS both sides know each other by certificates.
func TestTLS(t *testing.T) {
	ca, cert, key := logtest.Certificate(t, t.TempDir())
	otherCA, otherCert, otherKey := logtest.Certificate(t, t.TempDir())
	r, err := broker.NewRedis(t.TempDir())
	if err != nil {
		t.Fatal(err)
	}
	t.Cleanup(r.Kill)
	r.Secure(ca, cert, key)
	s := &machine{Redis: r}
	s.Start(t)
	for name, row := range map[string]struct {
		url  string
		good bool
	}{
		"good":              {r.URL + "?ssl_ca_certs=" + ca + "&ssl_certfile=" + cert + "&ssl_keyfile=" + key, true},
		"another authority": {r.URL + "?ssl_ca_certs=" + otherCA + "&ssl_certfile=" + cert + "&ssl_keyfile=" + key, false},
		"the system's":      {r.URL + "?ssl_certfile=" + cert + "&ssl_keyfile=" + key, false},
		"no certificate":    {r.URL + "?ssl_ca_certs=" + ca, false},
		"a stranger":        {r.URL + "?ssl_ca_certs=" + ca + "&ssl_certfile=" + otherCert + "&ssl_keyfile=" + otherKey, false},
		"another name":      {strings.Replace(r.URL, "127.0.0.1", "localhost", 1) + "?ssl_ca_certs=" + ca + "&ssl_certfile=" + cert + "&ssl_keyfile=" + key, false},
		"no TLS":            {"redis://" + r.Address, false},
	} {
		wait := patience.Long
		if !row.good {
			wait = 300 * time.Millisecond
		}
		if err := tryOpen(t, Options{URLs: []string{row.url}}, wait); (err == nil) != row.good {
			t.Errorf("%s: %v", name, err)
		}
	}
}

// A server may listen on a Unix socket, and have several databases.
func TestASocket(t *testing.T) {
	t.Parallel()
	socket := filepath.Join(t.TempDir(), "redis.sock")
	s := start(t, "--unixsocket", socket)
	a := opened(t, Options{URLs: []string{"unix://" + socket + "?db=3"}})
	c := put(t, a, 1)
	refused(t, opened(t, Options{URLs: []string{s.URL + "/3"}}), c)
	put(t, opened(t, Options{URLs: []string{s.URL}}), 2)
	if x, y := claimstest.State(t, a), claimstest.State(t, opened(t, Options{URLs: []string{s.URL}})); x.Epoch == y.Epoch {
		t.Error("two databases have one epoch")
	}
}

// Options that can't be used are errors that have no secret of them.
func TestOptions(t *testing.T) {
	t.Parallel()
	empty := filepath.Join(t.TempDir(), "empty")
	if err := os.WriteFile(empty, nil, 0o600); err != nil {
		t.Fatal(err)
	}
	for text, want := range map[string]string{
		"rediss://h?ssl_ca_certs=" + empty:    empty + ": no certificate in it",
		"redis://h":                           "",
		"redis://h:1/3":                       "",
		"rediss://u:secret@[::1]:6380/0":      "",
		"unix:///run/redis.sock":              "",
		"unix:///run/redis.sock?db=2":         "",
		"unix://run/redis.sock":               "not like redis://",
		"redis+sentinel://h?service=svid":     "",
		"redis+sentinel://h":                  "a Sentinel's address is like",
		"redis://h?service=svid":              "a Sentinel's address is like",
		"redis://u:secret@h:x":                "it is no URL",
		"redis://u:secret%zz@h":               "it is no URL",
		"redis:":                              "not like redis://",
		"http://h":                            "not like redis://",
		"redis://h/x":                         "not the number of a database",
		"redis://h/01":                        "not the number of a database",
		"redis://u:secret@h?foo=secret":       `"foo" is none of`,
		"redis://h?settings=none":             "settings can only be unchecked",
		"redis://h?replicas=3":                "",
		"redis://h?replicas=0":                "replicas can be from 1 to 64",
		"redis://h?replicas=65":               "replicas can be from 1 to 64",
		"redis://h?ssl_ca_certs=x":            "rediss:// alone",
		"rediss://h?ssl_certfile=x":           "only of use together",
		"rediss://h?ssl_ca_certs=/nowhere":    "/nowhere",
		"redis://h?password_file=/nowhere":    "/nowhere",
		"redis://u:secret@h?password_file=%z": "what stands after its ?",
	} {
		_, err := New(Options{URLs: []string{text}, Name: "svid"})
		if (err == nil) != (want == "") || err != nil && (!strings.Contains(err.Error(), want) || strings.Contains(err.Error(), "secret")) {
			t.Errorf("%s: %v", text, err)
		}
	}
	for want, o := range map[string]Options{
		"letters, digits":                {URLs: []string{"redis://h"}, Name: "{x}"},
		"no server is named":             {Name: "x"},
		"on 1 to 64 servers":             {URLs: []string{"redis://h"}, Name: "x", Replicas: 65},
		"a part of the margin":           {URLs: []string{"redis://h"}, Name: "x", Terms: claims.Terms{Margin: 1, Back: 2}},
		"at most 1099511627776 s":        {URLs: []string{"redis://h"}, Name: "x", Terms: claims.Terms{Lasts: mostTime + 1}},
		"must be at most 109951162777":   {URLs: []string{"redis://h"}, Name: "x", Terms: claims.Terms{Margin: mostTime + 1}},
		"compare for at most":            {URLs: []string{"redis://h"}, Name: "x", Wait: time.Hour},
		"all addresses are those of Sen": {URLs: []string{"redis://h", "redis+sentinel://h?service=x"}, Name: "x"},
		"address 2: one before it leads": {URLs: []string{"redis://h/1", "redis://h/2"}, Name: "x"},
	} {
		if _, err := New(o); err == nil || !strings.Contains(err.Error(), want) {
			t.Errorf("%s: %v", want, err)
		}
	}
}

// A record is read as it was written, and nothing else is one.
func TestRecords(t *testing.T) {
	t.Parallel()
	id, err := newID()
	if err != nil {
		t.Fatal(err)
	}
	r := record{id: id, deaf: 1, began: 2, terms: claims.Terms{Lasts: 3, Margin: 4, Back: 5}, run: "run", node: "node", next: "next", until: 6, settle: 7, list: 8, since: 9}
	for n := 0; n < 12; n++ {
		is, ok := readRecord(r.text())
		if !ok || is.text() != r.text() || len(r.text()) > mostRecord {
			t.Fatalf("%q %v", r.text(), is)
		}
		next, err := r.successor(100, 100, replication{run: "other"}, "node")
		if err != nil || !next.follows(r.id) || next.deaf != 108 || len(next.before) > mostBefores || next.id == r.id || n > 2 && !next.follows(id) != (n > 6) && n < 7 {
			t.Fatalf("%+v %v", next, err)
		}
		r = next
	}
	for _, text := range []string{"", "x", r.text() + " x", strings.Replace(r.text(), "svid1", "svid2", 1), strings.Replace(r.text(), " 4 ", " x ", 1), r.text()[1:]} {
		if _, ok := readRecord(text); ok {
			t.Errorf("%q", text)
		}
	}
}

// The slots of keys are those that Redis has.
func TestSlots(t *testing.T) {
	t.Parallel()
	for key, want := range map[string]uint16{"123456789": 12739, "foo": 12182, "{foo}x": 12182, "svid:{user1000}:x": 3443, "foo{}{bar}": 8363} {
		if got := slotOf(key); got != want {
			t.Errorf("%s: %d, and not %d", key, got, want)
		}
	}
}
