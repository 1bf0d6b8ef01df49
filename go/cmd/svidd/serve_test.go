package main

import (
	"net/http"
	"os"
	"path/filepath"
	"strings"
	"syscall"
	"testing"
	"time"

	"svid.example/go/v3/internal/issuer"
	"svid.example/go/v3/internal/version"
	"svid.example/go/v3/svid"
)

// One sidecar from its start to its end, as a user meets it.
func TestServeOnce(t *testing.T) {
	t.Parallel()
	state, admin := filepath.Join(t.TempDir(), "state"), filepath.Join(t.TempDir(), "admin.sock")
	bundle := bundleFile(t, example)
	p := start(t, bundleOption(bundle), "--state", state, "--admin", admin)

	first := token(t, "first", lasting)
	status, header, body := p.check(first)
	if status != 200 || header.Get("X-Spiffe-Id") != "spiffe://example.org/web" || header.Get("X-Svid-Audience") != "ledger" ||
		header.Get("X-Svid-Expires") == "" || header.Get("Cache-Control") != "no-store" || body != "" {
		t.Errorf("accepted: %d %v %q", status, header, body)
	}
	status, header, body = p.check(first)
	if status != 401 || header.Get("WWW-Authenticate") != `Bearer error="invalid_token", error_description="Replayed"` ||
		strings.TrimSpace(body) != `{"reason":"Replayed","result":"refused"}` {
		t.Errorf("replayed: %d %v %q", status, header, body)
	}
	if status, _ := p.get("/check"); status != 401 {
		t.Errorf("no token: %d", status)
	}

	// A token is withdrawn by itself, and by its key.
	second, third := token(t, "second", lasting), token(t, "third", lasting)
	if status, out, err := svidd(t, "", "withdraw", "--admin", admin, second); status != 0 || !strings.HasPrefix(out, "withdrawn ") {
		t.Errorf("withdraw: %d %q %q", status, out, err)
	}
	p.want(second, 401, "Withdrawn")
	p.want(third, 200, "")
	p.await("two lines of the log", func() bool { return len(p.events("accepted")) >= 2 })
	accepted := p.events("accepted")
	if len(accepted) != 2 || accepted[1]["sub"] != "spiffe://example.org/web" || accepted[1]["kid"] != "ec-256" || accepted[1]["aud"] != "ledger" {
		t.Errorf("log: %v", accepted)
	}
	if status, _, err := svidd(t, "", "withdraw", "--admin", admin, "--key", accepted[1]["key"].(string), "--exp", "4000000000"); status != 0 {
		t.Errorf("withdraw by key: %d %q", status, err)
	}
	p.want(third, 401, "Withdrawn")
	if status, _, err := svidd(t, "", "withdraw", "--admin", admin, "a.b.c"); status != 2 || !strings.Contains(err, "HeaderSpelling") {
		t.Errorf("withdraw of no token: %d %q", status, err)
	}
	status, out, errors := svidd(t, "", "report", "--admin", admin)
	if status != 0 || !strings.Contains(out, "\nuses 4\n") || !strings.Contains(out, "\ntwice 0\n") || strings.Count(out, " withdrawn\n") != 2 {
		t.Errorf("report: %d %q %q", status, out, errors)
	}
	if _, out, _ := svidd(t, "", "report", "--json", "--admin", admin); strings.Count(out, `"withdrawn":true`) != 2 {
		t.Errorf("report: %q", out)
	}
	if info, err := os.Stat(admin); err != nil || info.Mode().Perm() != 0o600 {
		t.Errorf("admin socket: %v, %v", info.Mode(), err)
	}

	// New keys, by SIGHUP.
	other, err := issuer.New("example.org")
	if err != nil {
		t.Fatal(err)
	}
	signed := other.Token("RS256", map[string]any{"sub": "spiffe://example.org/a", "aud": "ledger", "exp": time.Now().Add(lasting).Unix()})
	p.want(signed, 401, "BadSignature")
	writeBundle(t, bundle, other)
	if err := p.run.Process.Signal(syscall.SIGHUP); err != nil {
		t.Fatal(err)
	}
	p.await("the new bundle", func() bool { return len(p.events("bundles")) == 2 })
	p.want(signed, 200, "")

	for name, want := range map[string]string{
		`svidd_checks_total{result="accepted"}`: "3", `svidd_checks_total{result="Replayed"}`: "1", `svidd_checks_total{result="no_token"}`: "1",
		"svidd_check_seconds_count": "7", "svidd_withdrawals_total": "2", "svidd_ready": "1",
	} {
		if got := p.metric(name); got != want {
			t.Errorf("%s is %s, and %s is due", name, got, want)
		}
	}

	// What was used before a restart is used after it, after SIGTERM and after a crash. SIGINT ends it as well.
	writeBundle(t, bundle, example)
	p.end()
	p.start()
	p.want(first, 401, "Replayed")
	fourth := token(t, "fourth", lasting)
	p.want(fourth, 200, "")
	p.kill()
	p.start()
	p.want(fourth, 401, "Replayed")
	p.want(second, 401, "Withdrawn")
	if err := p.signal(syscall.SIGINT); err != nil {
		t.Fatal(err)
	}
	p.exits()
	for _, secret := range []string{first, second, third, fourth, signed} {
		if strings.Contains(p.log.String(), secret[strings.LastIndexByte(secret, '.'):]) {
			t.Error("the log has a token's signature in it")
		}
	}
}

// No request of a stranger is an error that an operator must look at.
func TestRequestsAreNoErrors(t *testing.T) {
	t.Parallel()
	p := start(t, bundleOption(bundleFile(t, example)), "--replay", "reuse", "--log", "errors")
	for _, path := range []string{"/check", "/check?a;b", "/check/a;b?c;d", "/nothing?a;b", "/readyz?a;b"} {
		if status, _ := p.get(path); status == 0 {
			t.Errorf("%s has no answer", path)
		}
	}
	p.end()
	if text := p.log.String(); strings.Contains(text, `"level":"error"`) {
		t.Errorf("the log: %s", text)
	}
}

func TestReuseAcceptsUntilWithdrawn(t *testing.T) {
	t.Parallel()
	admin := filepath.Join(t.TempDir(), "admin.sock")
	p := start(t, bundleOption(bundleFile(t, example)), "--replay", "reuse", "--admin", admin)
	reused := token(t, "a", lasting)
	p.want(reused, 200, "")
	p.want(reused, 200, "")
	// Nothing keeps the withdrawal, and the command says so.
	status, out, err := svidd(t, "", "withdraw", "--admin", admin, reused)
	if status != 0 || !strings.HasPrefix(out, "withdrawn ") || !strings.HasPrefix(err, "svidd: warning: the sidecar forgets this withdrawal") {
		t.Errorf("withdraw: %d %q %q", status, out, err)
	}
	p.want(reused, 401, "Withdrawn")
	p.end()
	p.start()
	p.want(reused, 200, "")
	p.end()

	// A folder keeps it.
	p.args = append(p.args, "--state", filepath.Join(t.TempDir(), "state"))
	p.start()
	if status, out, err := svidd(t, "", "withdraw", "--admin", admin, reused); status != 0 || !strings.HasPrefix(out, "withdrawn ") || err != "" {
		t.Errorf("withdraw: %d %q %q", status, out, err)
	}
	p.end()
	p.start()
	p.want(reused, 401, "Withdrawn")
	p.end()
}

func TestASecondProcessDoesNotShareAStateFolder(t *testing.T) {
	t.Parallel()
	state := filepath.Join(t.TempDir(), "state")
	p := start(t, bundleOption(bundleFile(t, example)), "--state", state)
	args := append([]string(nil), p.args...)
	args[6] = freeAddress(t)
	if status, _, err := svidd(t, "", args...); status != 2 || !strings.Contains(err, "lock") && !strings.Contains(err, "held") {
		t.Errorf("second process: %d %q", status, err)
	}
	p.end()
}

// A record that can't be taken ends the start: without it, tokens that were used could be accepted.
func TestAStateFolderThatCantBeTaken(t *testing.T) {
	t.Parallel()
	future := batchOf(svid.Use{Key: svid.TokenKey{1}, Expires: svid.Now() + 7200, At: svid.Now() + 3600})
	for _, row := range []struct {
		name    string
		content []byte
		want    string
	}{
		{"journal.1", future, "set the clock right"},
		{"snapshot", []byte("garbage"), "snapshot is damaged at byte 0"},
		{"place", []byte("here\n"), "is not 32 hexadecimal digits"},
		{"place", []byte("0f0f\n"), "is not 32 hexadecimal digits"},
	} {
		state := t.TempDir()
		for name, content := range map[string][]byte{"place": []byte(strings.Repeat("0f", 16)), row.name: row.content} {
			if err := os.WriteFile(filepath.Join(state, name), content, 0o600); err != nil {
				t.Fatal(err)
			}
		}
		p := prepare(t, nil, bundleOption(bundleFile(t, example)), "--state", state)
		p.launch()
		p.exitsWith(2)
		if !strings.Contains(p.log.String(), row.want) || len(p.events("end")) != 1 {
			t.Errorf("%s: %s", row.name, p.log)
		}
	}
}

// --ahead 0s says that no clocks differ, and is not taken for an option that was left out.
func TestAnAheadOfNoTime(t *testing.T) {
	t.Parallel()
	state := t.TempDir()
	future := batchOf(svid.Use{Key: svid.TokenKey{1}, Expires: svid.Now() + 7200, At: svid.Now() + 3600})
	for name, content := range map[string][]byte{"place": []byte(strings.Repeat("0f", 16)), "journal.1": future} {
		if err := os.WriteFile(filepath.Join(state, name), content, 0o600); err != nil {
			t.Fatal(err)
		}
	}
	for ahead, want := range map[string]string{"0s": "more than 0 seconds ahead", "7s": "more than 7 seconds ahead"} {
		p := prepare(t, nil, bundleOption(bundleFile(t, example)), "--state", state, "--ahead", ahead)
		p.launch()
		p.exitsWith(2)
		if !strings.Contains(p.log.String(), want) {
			t.Errorf("--ahead %s: %s", ahead, p.log)
		}
	}
}

func TestWhatIsWrongWithTheOptionsIsSaidAtOnce(t *testing.T) {
	t.Parallel()
	status, _, err := here("", "serve", "--check-config", "--replay", "twice", "--log", "loud")
	if status != 2 {
		t.Errorf("status %d", status)
	}
	for _, want := range []string{"--audience", "--bundle", "--longest", "fills the memory", "--replay", "--log"} {
		if !strings.Contains(err, want) {
			t.Errorf("%q does not speak of %s", err, want)
		}
	}
	bundle := bundleOption(bundleFile(t, example))
	good := []string{"serve", "--check-config", "--audience", "a", bundle, "--longest", "60"}
	for _, row := range []struct {
		more   []string
		status int
		want   string
	}{
		{[]string{"--state", t.TempDir()}, 0, "good"},
		{nil, 2, "--state is missing"},
		{[]string{"--replay", "strict"}, 2, "--store is missing"},
		{[]string{"--replay", "strict", "--store", "nats://127.0.0.1:1"}, 0, "good"},
		{[]string{"--replay", "reuse"}, 0, "good"},
		{[]string{"--replay", "reuse", "--longest", "0"}, 2, "--longest"},
		{[]string{"--replay", "reuse", "--longest", "soon"}, 2, "whole number"},
		{[]string{"--replay", "reuse", "--bundle", "nothing"}, 2, "DOMAIN=FILE"},
		{[]string{"--replay", "reuse", "what"}, 2, "no argument"},
		{[]string{"--replay", "reuse", "--ahead", "86401"}, 2, "--ahead"},
		{[]string{"--state", t.TempDir(), "--nats", "nats://svidd:secret@[::1"}, 2, "--nats: address 1"},
		{[]string{"--replay", "strict", "--store", "nats://h", "--nats-cert", "a"}, 2, "together"},
		{[]string{"--replay", "strict", "--store", "nats://h", "--nats-ca", "/nothing"}, 2, "no such file"},
	} {
		status, out, err := here("", append(append([]string(nil), good...), row.more...)...)
		if status != row.status || !strings.Contains(out+err, row.want) {
			t.Errorf("%v: %d %q", row.more, status, out+err)
		}
		if strings.Contains(out+err, "secret") {
			t.Errorf("%v: a password is printed: %q", row.more, out+err)
		}
	}
}

func TestOptionsOfAFileAndOfTheEnvironment(t *testing.T) {
	config := filepath.Join(t.TempDir(), "config.json")
	write := func(text string) {
		if err := os.WriteFile(config, []byte(text), 0o600); err != nil {
			t.Fatal(err)
		}
	}
	write(`{"audience": ["a", "b"], "longest": 60, "bundle": "example.org=` + bundleFile(t, example) + `", "replay": "once", "check-config": true}`)
	t.Setenv("SVIDD_REPLAY", "reuse")
	if status, out, err := here("", "serve", "--config", config); status != 0 {
		t.Errorf("%d %q %q", status, out, err)
	}
	t.Setenv("SVIDD_LONGEST", "no")
	if status, _, err := here("", "serve", "--config", config); status != 2 || !strings.Contains(err, "SVIDD_LONGEST") {
		t.Errorf("%d %q", status, err)
	}
	os.Unsetenv("SVIDD_LONGEST")
	write("# as TOML\naudience = [\"a\", 'b'] # two\nlongest = 3_600\nbundle = \"example.org=" + bundleFile(t, example) + "\"\nsummaries = '1m'\ncheck-config = true\n")
	if status, out, err := here("", "serve", "--config", config); status != 0 {
		t.Errorf("%d %q %q", status, out, err)
	}
	for text, want := range map[string]string{
		`{"audiences": "a"}`:            `no option is named "audiences"`,
		`{"config": "a"}`:               `no option is named "config"`,
		`{"longest": 60} {}`:            "something stands after",
		`{"longest": 60`:                "it is no JSON object",
		`{"longest": 6.5}`:              "whole number",
		`{"longest": [60]}`:             "longest has one value, not a list",
		`{"allow": []}`:                 "allow is an empty list",
		"allow = []":                    "allow is an empty list",
		`{"audience": [null]}`:          "it is to be ",
		`{"audience": {"a": "b"}}`:      "it is to be ",
		"longest = 60.0":                "it is to be ",
		"longest = 2026-11-25":          "it is to be ",
		"audience = \"a\"\n[longest]\n": "it is to be ",
		"audience = a":                  "it is no TOML",
		"longest = 60\nlongest = 61":    "it is no TOML",
		"audience = [1, [2]]":           "it is to be ",
		"":                              "--audience is missing",
	} {
		write(text)
		if status, _, err := here("", "serve", "--config", config); status != 2 || !strings.Contains(err, want) {
			t.Errorf("%q: %d %q, and %q is due", text, status, err, want)
		}
	}
}

func TestVerifyPrintsTheClaims(t *testing.T) {
	t.Parallel()
	bundle := bundleOption(bundleFile(t, example))
	good := token(t, "a", lasting)
	status, out, err := svidd(t, good+"\n", "verify", "--audience", "ledger", bundle)
	if status != 0 || !strings.Contains(out, `"jti":"a"`) {
		t.Errorf("%d %q %q", status, out, err)
	}
	for _, row := range []struct {
		token, want string
		status      int
		more        []string
	}{
		{good[:len(good)-4] + "AAAA", "refused BadSignature\nNo key among the first 3 that fit made the signature.\n", 1, nil},
		{good, "refused TooLongLived\nThe token expires more than", 1, []string{"--longest", "1"}},
		{token(t, "b", -time.Minute), "refused Expired", 1, nil},
		{"", "standard input has no token", 2, nil},
		{".", "refused NotThreeParts", 1, nil},
		{strings.Repeat("a", 70000), "refused TooLong", 1, nil},
		{good, "no such file", 2, []string{"--bundle", "example.com=/nothing/there"}},
	} {
		status, _, err := here(row.token, append([]string{"verify", "--audience", "ledger", bundle}, row.more...)...)
		if status != row.status || !strings.Contains(err, row.want) {
			t.Errorf("%s: %d %q", row.want, status, err)
		}
	}
}

func TestVersionAndUsage(t *testing.T) {
	t.Parallel()
	if status, out, _ := svidd(t, "", "version"); status != 0 || !strings.HasPrefix(out, "svidd "+version.Number+" (libsvid ") {
		t.Errorf("%d %q", status, out)
	}
	if status, _, err := here("", "frobnicate"); status != 2 || !strings.Contains(err, "usage:") {
		t.Errorf("%d %q", status, err)
	}
	if status, out, _ := here("", "--help"); status != 0 || !strings.Contains(out, "svidd serve") {
		t.Errorf("%d %q", status, out)
	}
}

// The socket of --listen may be a unix socket.
func TestListenOnAUnixSocket(t *testing.T) {
	t.Parallel()
	socket := filepath.Join(t.TempDir(), "svidd.sock")
	p := &process{t: t, log: &lines{}, client: &http.Client{}}
	p.args = []string{"serve", "--audience", "a", "--longest", "60", "--replay", "reuse", bundleOption(bundleFile(t, example)), "--listen", "unix:" + socket}
	t.Cleanup(p.kill)
	p.launch()
	p.await("an answer", func() bool {
		text, err := adminOf(socket).ask(http.MethodGet, "/readyz", nil)
		return err == nil && string(text) == "ready\n"
	})
	if status, out, err := svidd(t, "", "ready", "--listen", "unix:"+socket); status != 0 || out != "ready\n" {
		t.Errorf("ready: %d %q %q", status, out, err)
	}
	p.end()
	if status, _, err := here("", "ready", "--listen", "unix:"+socket); status != 2 || err == "" {
		t.Errorf("ready, after its end: %d %q", status, err)
	}
}

// A token that is too long is refused, and one that is far too long is not read to its end.
func TestATokenThatIsTooLong(t *testing.T) {
	t.Parallel()
	p := start(t, bundleOption(bundleFile(t, example)), "--replay", "reuse", "--log", "errors")
	p.want(strings.Repeat("a", 65537), 401, "TooLong")
	if status, _, _ := p.check(strings.Repeat("a", 200_000)); status != http.StatusRequestHeaderFieldsTooLarge {
		t.Errorf("200,000 bytes: %d", status)
	}
	p.want(token(t, "good", lasting), 200, "")
}

// An address that is taken is said at the start, which leaves no socket.
func TestAnAddressThatIsTaken(t *testing.T) {
	t.Parallel()
	admin := filepath.Join(t.TempDir(), "admin.sock")
	p := start(t, bundleOption(bundleFile(t, example)), "--replay", "reuse", "--admin", admin)
	args := append([]string(nil), p.args...)
	if status, _, err := svidd(t, "", args...); status != 2 || !strings.Contains(err, "address already in use") {
		t.Errorf("the same port: %d %q", status, err)
	}
	args[6] = freeAddress(t)
	if status, _, err := svidd(t, "", args...); status != 2 || !strings.Contains(err, "another process answers there") {
		t.Errorf("the same admin socket: %d %q", status, err)
	}
	socket := filepath.Join(t.TempDir(), "listen.sock")
	args[6] = "unix:" + socket
	if status, _, err := svidd(t, "", args...); status != 2 || !strings.Contains(err, "another process answers there") {
		t.Errorf("the same admin socket, beside a socket that nobody has: %d %q", status, err)
	}
	if _, err := os.Lstat(socket); !os.IsNotExist(err) {
		t.Errorf("the other socket is left: %v", err)
	}
	p.want(token(t, "good", lasting), 200, "")
}
