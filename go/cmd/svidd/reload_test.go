package main

import (
	"fmt"
	"net"
	"os"
	"path/filepath"
	"strings"
	"syscall"
	"testing"
	"time"

	"svid.example/go/v3/internal/issuer"
	"svid.example/go/v3/internal/natstest"
)

// SIGHUP takes over the bundles and the level of the log, says what has changed, and names what counts only after a restart. Options
// that are wrong change nothing.
func TestOptionsAreReadAgain(t *testing.T) {
	t.Parallel()
	config := filepath.Join(t.TempDir(), "svidd.toml")
	write := func(lines ...string) {
		t.Helper()
		if err := os.WriteFile(config, []byte(strings.Join(lines, "\n")+"\n"), 0o600); err != nil {
			t.Fatal(err)
		}
	}
	other, err := issuer.New("example.com")
	if err != nil {
		t.Fatal(err)
	}
	first, second := bundleFile(t, example), bundleFile(t, other)
	ofOther := func(id string) string {
		return other.Token("ES256", map[string]any{"sub": "spiffe://example.com/web", "aud": "ledger", "exp": time.Now().Add(lasting).Unix(), "jti": id})
	}
	one, two := fmt.Sprintf("%q", "example.org="+first), fmt.Sprintf("%q", "example.com="+second)
	write("replay = \"reuse\"", "bundle = ["+one+"]")
	p := start(t, "--config", config)
	signals := 0
	hangUp := func() map[string]any {
		t.Helper()
		signals++
		if err := p.signal(syscall.SIGHUP); err != nil {
			t.Fatal(err)
		}
		var lines []map[string]any
		p.await("the options", func() bool { lines = p.events("options"); return len(lines) >= signals })
		return lines[signals-1]
	}
	p.want(token(t, "a", lasting), 200, "")
	p.want(ofOther("a"), 401, "UnknownDomain")

	// Another bundle, and another level.
	write("replay = \"reuse\"", "bundle = ["+one+", "+two+"]", "log = \"all\"")
	if line := hangUp(); fmt.Sprint(line["changed"]) != "[bundle log]" {
		t.Errorf("the log: %v", line)
	}
	p.await("the new bundle", func() bool { return strings.Contains(p.log.String(), `"trust_domains":2`) })
	p.want(ofOther("b"), 200, "")
	p.want(token(t, "b", lasting), 200, "")
	if age := p.metric(`svidd_bundle_age_seconds{trust_domain="example.com"}`); age == "+Inf" || age == "" {
		t.Errorf("the age of the new bundle: %q", age)
	}

	// Nothing new: the bundles are read again all the same.
	writeBundle(t, second, example)
	if line := hangUp(); fmt.Sprint(line["changed"]) != "[]" {
		t.Errorf("the log: %v", line)
	}
	p.await("the keys that replace the others", func() bool {
		_, _, body := p.check(ofOther(fmt.Sprint(time.Now().UnixNano())))
		return strings.Contains(body, "BadSignature")
	})
	writeBundle(t, second, other)

	// What is wrong changes nothing.
	for wrong, says := range map[string]string{"bundle = [\"nothing\"]": "DOMAIN=FILE", "bundel = [" + one + "]": "did you mean --bundle?"} {
		write("replay = \"reuse\"", wrong, "log = \"errors\"")
		if line := hangUp(); line["level"] != "error" || !strings.Contains(fmt.Sprint(line["error"]), says) {
			t.Errorf("the log: %v", line)
		}
		before := len(p.events("accepted"))
		p.want(token(t, says, lasting), 200, "")
		p.await("the line of a decision", func() bool { return len(p.events("accepted")) > before })
	}

	// A bundle goes, the log becomes quiet, and what can't change is named.
	write("replay = \"reuse\"", "bundle = ["+two+"]", "wait = \"3s\"", "audience = [\"others\"]", "log = \"errors\"", "ahead = 31")
	if err := p.signal(syscall.SIGHUP); err != nil {
		t.Fatal(err)
	}
	var last map[string]any
	p.await("what counts after a restart", func() bool {
		lines := p.events("options")
		last = lines[len(lines)-1]
		return last["restart"] != nil
	})
	if fmt.Sprint(last["restart"]) != "[ahead wait]" || last["level"] != "error" { // (--audience stands on the command line)
		t.Errorf("the log: %v", last)
	}
	p.await("the bundle to go", func() bool {
		_, _, body := p.check(token(t, fmt.Sprint(time.Now().UnixNano()), lasting))
		return strings.Contains(body, "UnknownDomain")
	})
	before := len(p.events("accepted"))
	p.want(ofOther("d"), 200, "")
	p.end()
	if after := len(p.events("accepted")); after != before {
		t.Errorf("the level errors has %d decisions more", after-before)
	}
}

// SIGHUP takes over audiences and callers, both or none, in each mode. What was accepted before stays used, also after a restart.
func TestAudiencesAndCallersAreReadAgain(t *testing.T) {
	t.Parallel()
	nats := natstest.Start(t)
	for _, mode := range [][]string{{"--replay=once", "--state=" + filepath.Join(t.TempDir(), "once")}, {"--replay=reuse"}, {"--replay=strict", "--store=" + nats.URL}} {
		t.Run(mode[0], func(t *testing.T) {
			config := filepath.Join(t.TempDir(), "svidd.json")
			write := func(audiences, allow []string, more string) {
				t.Helper()
				if len(allow) > 0 {
					more = fmt.Sprintf(`, "allow": [%s]`, quoted(allow)) + more
				}
				text := fmt.Sprintf(`{"audience": [%s]%s}`, quoted(audiences), more)
				if err := os.WriteFile(config, []byte(text), 0o600); err != nil {
					t.Fatal(err)
				}
			}
			of := func(audience, caller, id string) string {
				return example.Token("ES256", map[string]any{"sub": "spiffe://example.org/" + caller, "aud": audience, "exp": time.Now().Add(lasting).Unix(), "jti": id})
			}
			write([]string{"ledger"}, []string{"spiffe://example.org/web"}, "")
			p := prepare(t, nil)
			p.args = append([]string{"serve", "--longest=3600", "--listen=" + p.address, "--config=" + config, bundleOption(bundleFile(t, example))}, mode...)
			p.start()
			signals := 0
			hangUp := func() map[string]any {
				t.Helper()
				signals++
				if err := p.signal(syscall.SIGHUP); err != nil {
					t.Fatal(err)
				}
				p.await("the options", func() bool { return len(p.events("options")) >= signals })
				return p.events("options")[signals-1]
			}
			used := of("ledger", "web", "used")
			p.want(used, 200, "")
			p.want(of("ledger", "job", "a"), 403, "NotAllowed")
			p.want(of("admin,audit", "web", "b"), 401, "NotAudience")

			write([]string{"admin,audit", "other"}, []string{"spiffe://example.org/job"}, "")
			if line := hangUp(); fmt.Sprint(line["changed"]) != "[allow audience]" || line["level"] != "info" {
				t.Errorf("the log: %v", line)
			}
			p.want(of("admin,audit", "web", "c"), 403, "NotAllowed")
			p.want(of("ledger", "job", "d"), 401, "NotAudience")
			status, header, _ := p.check(of("admin,audit", "job", "e"))
			if status != 200 || header.Get("X-Svid-Audience") != "admin,audit" {
				t.Errorf("%d %v", status, header)
			}

			// A comma within a name is not one between two.
			write([]string{"admin", "audit", "other"}, []string{"spiffe://example.org/job"}, "")
			if line := hangUp(); fmt.Sprint(line["changed"]) != "[audience]" {
				t.Errorf("the log: %v", line)
			}
			p.want(of("admin,audit", "job", "f"), 401, "NotAudience")
			p.want(of("audit", "job", "g"), 200, "")

			// What is wrong changes nothing, however much of it is good.
			for _, wrong := range []struct {
				audience, allow []string
				more, says      string
			}{
				{[]string{"ledger"}, []string{"nobody"}, "", "--allow"}, {[]string{"ledger"}, nil, `, "log": "loud"`, "--log"},
				{[]string{"ledger", "a\nb"}, nil, "", "--audience"}, {nil, nil, "", "--audience is missing"},
			} {
				write(wrong.audience, wrong.allow, wrong.more)
				if line := hangUp(); line["level"] != "error" || !strings.Contains(fmt.Sprint(line["error"]), wrong.says) {
					t.Errorf("the log: %v", line)
				}
				p.want(of("ledger", "web", "h"+wrong.says), 401, "NotAudience")
				p.want(of("audit", "web", "i"+wrong.says), 403, "NotAllowed")
			}

			// Back again: the token of before is used.
			write([]string{"ledger"}, nil, "")
			hangUp()
			want := func() {
				t.Helper()
				if strings.HasSuffix(mode[0], "reuse") {
					p.want(used, 200, "")
				} else {
					p.want(used, 401, "Replayed")
				}
			}
			want()
			p.want(of("ledger", "job", "z"), 200, "")
			p.end()
			p.start()
			want()
		})
	}
}

// quoted are texts as a list in JSON has them.
func quoted(texts []string) string {
	var all []string
	for _, text := range texts {
		all = append(all, fmt.Sprintf("%q", text))
	}
	return strings.Join(all, ", ")
}

// --check-config looks into the state folder and at the places of sockets, and asks the servers of the group's store and log.
func TestCheckConfigLooksAtTheFoldersAndServers(t *testing.T) {
	t.Parallel()
	folder := t.TempDir()
	file := filepath.Join(folder, "file")
	if err := os.WriteFile(file, nil, 0o600); err != nil {
		t.Fatal(err)
	}
	state, _ := stateFolder(t)
	damaged, _ := stateFolder(t)
	content, err := os.ReadFile(filepath.Join(damaged, "snapshot"))
	if err != nil {
		t.Fatal(err)
	}
	content[50] ^= 1
	if err := os.WriteFile(filepath.Join(damaged, "snapshot"), content, 0o600); err != nil {
		t.Fatal(err)
	}
	answers, err := net.Listen("tcp", "127.0.0.1:0")
	if err != nil {
		t.Fatal(err)
	}
	defer answers.Close()
	nobody := freeAddress(t)
	for _, row := range []struct {
		args []string
		want string // "" where nothing is wrong
		warn string
	}{
		{[]string{"--state", state}, "", ""},
		{[]string{"--state", filepath.Join(folder, "new")}, "", ""},
		{[]string{"--state", filepath.Join(folder, "new") + "/"}, "", ""},
		{[]string{"--state", filepath.Join(folder, "none", "new")}, "--state: stat " + filepath.Join(folder, "none") + ": no such file or directory", ""},
		{[]string{"--state", file}, "--state: " + file + " is no folder", ""},
		{[]string{"--state", damaged}, "--state: journal: " + filepath.Join(damaged, "snapshot") + " is damaged at byte", ""},
		{[]string{"--admin", filepath.Join(folder, "admin.sock")}, "", ""},
		{[]string{"--admin", filepath.Join(folder, "none", "admin.sock")}, "--admin: stat " + filepath.Join(folder, "none") + ": no such file", ""},
		{[]string{"--admin", file}, "--admin: " + file + " is there, and is no socket", ""},
		{[]string{"--listen", "unix:" + filepath.Join(folder, "none", "s")}, "--listen: stat", ""},
		{[]string{"--listen", "unix:" + filepath.Join(file, "s")}, "--listen: " + file + " is no folder", ""},
		{[]string{"--listen", "a..b:9901"}, "--listen: lookup a..b: no such host", ""},
		{[]string{"--listen", "192.0.2.1:9901"}, "--listen: this user can't listen at 192.0.2.1:9901: bind: cannot assign requested address", ""},
		{[]string{"--metrics", "192.0.2.1:9902"}, "--metrics: this user can't listen at 192.0.2.1:9902", ""},
		{[]string{"--envoy", "192.0.2.1:9903"}, "--envoy: this user can't listen at 192.0.2.1:9903", ""},
		{[]string{"--listen", answers.Addr().String()}, "", ""}, // It is taken: by the svidd that is to be changed.
		{[]string{"--metrics", "unix:" + filepath.Join(folder, "none", "s")}, "--metrics: stat", ""},
		{[]string{"--nats", "nats://svidd:secret@" + answers.Addr().String()}, "", "--group-log: no good answer within 2s"}, // It is silent.
		{[]string{"--nats", "nats://svidd:secret@" + nobody}, "", "nothing answers at " + nobody},
		{[]string{"--store", "redis://svidd:secret@" + nobody}, "", "nothing answers at " + nobody},
		{[]string{"--store", "postgres://svidd:secret@" + nobody + "/db?sslmode=disable"}, "", "nothing answers at " + nobody},
		{[]string{"--nats", "nats://svidd:secret@h:0"}, "address 1 has a port that is none", ""},
		{[]string{"--nats", "nats://h:4222,nats://svidd:secret@h:70000"}, "address 2 has a port that is none", ""},
		{[]string{"--nats", "nats://svidd:secret@h:4222/svid"}, "address 1 must end with its port", ""},
		{[]string{"--nats", "nats://svidd:secret@:4222"}, "address 1 is not like", ""},
	} {
		replay := "--replay=reuse"
		if row.args[0] == "--store" {
			replay = "--replay=strict"
		}
		args := append([]string{"serve", "--check-config", "--audience=a", "--longest=1h", replay, bundleOption(bundleFile(t, example))}, row.args...)
		if row.args[0] == "--nats" {
			args = append(args, "--replay=once", "--state="+filepath.Join(folder, "of nats"))
		}
		status, out, err := here("", args...)
		isGood := status == 0 && out == "svidd: the options are good\n"
		if isGood != (row.want == "") || !strings.Contains(err, row.want) || !isGood && (status != 2 || strings.Count(err, "\n") != 1) {
			t.Errorf("%q: %d %q %q", row.args, status, out, err)
		}
		if row.warn != "" && !strings.HasPrefix(err, "svidd: warning: "+row.warn) || row.warn == "" && isGood && err != "" {
			t.Errorf("%q: %q", row.args, err)
		}
		if strings.Contains(out+err, "secret") {
			t.Errorf("%q: a password is printed: %q", row.args, out+err)
		}
	}
}

// `svidd reload` waits, and says what became of it: which options have other values, what counts only after a restart, and what is wrong, whether that
// is an option or a bundle. The metrics say the same, also behind a signal. The commands that ask a sidecar find it by its file.
func TestReloadSaysWhatBecameOfIt(t *testing.T) {
	t.Parallel()
	folder := shortFolder(t)
	config, admin, bundle := filepath.Join(folder, "svidd.toml"), filepath.Join(folder, "admin.sock"), filepath.Join(folder, "bundle.json")
	writeBundle(t, bundle, example)
	p := prepare(t, nil, "--config", config)
	write := func(lines ...string) {
		t.Helper()
		lines = append(lines, fmt.Sprintf("admin = %q", admin), fmt.Sprintf("listen = %q", p.address), fmt.Sprintf("bundle = [%q]", "example.org="+bundle), `replay = "reuse"`)
		must(t, os.WriteFile(config, []byte(strings.Join(lines, "\n")+"\n"), 0o600))
	}
	reload := func(want int, says ...string) {
		t.Helper()
		status, out, err := here("", "reload", "--config", config)
		if status != want {
			t.Errorf("status %d: %q %q", status, out, err)
		}
		for _, one := range says {
			if !strings.Contains(out+err, one) {
				t.Errorf("%q does not say %q", out+err, one)
			}
		}
		good := map[bool]string{true: "1", false: "0"}[want == 0]
		if is := p.metric("svidd_config_last_reload_successful"); is != good {
			t.Errorf("the metric is %s", is)
		}
	}
	write()
	p.start()
	began := p.metric("svidd_config_last_reload_success_timestamp_seconds")
	if p.metric("svidd_config_last_reload_successful") != "1" || began == "" {
		t.Errorf("before any reload: %s", began)
	}
	reload(0, "reloaded\n")
	write(`allow = ["spiffe://example.org"]`, `log = "all"`, `wait = "3s"`)
	reload(0, "reloaded: other values of --allow, --log\n", "svidd: warning: --wait counts only after a restart\n")
	good := p.metric("svidd_config_last_reload_success_timestamp_seconds")
	write(`alow = ["spiffe://example.org"]`)
	reload(2, `no option is named "alow": did you mean --allow?`, "the options stay as they are")
	write()
	must(t, os.WriteFile(bundle, []byte("{"), 0o600))
	reload(2, "the last good one stays: example.org: it is no JSON object")
	write(`alow = ["spiffe://example.org"]`)
	reload(2, "the options stay as they are")
	write()
	if again := p.metric("svidd_config_last_reload_success_timestamp_seconds"); again != good {
		t.Errorf("the last good reload was at %s, and not at %s", again, good)
	}
	p.want(token(t, "all the same", lasting), 200, "")
	writeBundle(t, bundle, example)
	must(t, p.signal(syscall.SIGHUP))
	p.await("the signal's reload", func() bool { return p.metric("svidd_config_last_reload_successful") == "1" })

	// The other commands find it by the same file.
	if status, out, err := here("", "ready", "--config", config); status != 0 || out != "ready\n" {
		t.Errorf("ready: %d %q %q", status, out, err)
	}
	if status, out, err := here("", "report", "--config", config); status != 0 || !strings.HasPrefix(out, "moment ") {
		t.Errorf("report: %d %q %q", status, out, err)
	}
	if status, out, err := here(token(t, "gone", lasting), "withdraw", "--config", config, "-"); status != 0 || !strings.HasPrefix(out, "withdrawn ") {
		t.Errorf("withdraw: %d %q %q", status, out, err)
	}
	for _, args := range [][]string{{"reload"}, {"report"}, {"withdraw", "-"}, {"reload", "--admin", admin, "more"}} {
		if status, _, err := here("", args...); status != 2 || !strings.Contains(err, "--config, the file of serve") {
			t.Errorf("%q: %d %q", args, status, err)
		}
	}
	p.end()
	if status, _, err := here("", "reload", "--config", config); status != 2 || !strings.Contains(err, admin) {
		t.Errorf("of none that runs: %d %q", status, err)
	}
}
