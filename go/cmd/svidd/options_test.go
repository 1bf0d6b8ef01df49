package main

import (
	"bytes"
	"errors"
	"net"
	"net/http"
	"os"
	"path/filepath"
	"reflect"
	"regexp"
	"sort"
	"strconv"
	"strings"
	"syscall"
	"testing"
	"time"

	"svid.example/go/v3/internal/patience"
	"svid.example/go/v3/internal/version"
	"svid.example/go/v3/svid"
	"svid.example/go/v3/workload"
)

// here runs a command in this process, which takes less time than another one.
func here(stdin string, args ...string) (status int, out, err string) {
	var o, e bytes.Buffer
	status = run(args, stdio{strings.NewReader(stdin), &o, &e})
	return status, o.String(), e.String()
}

// A token that stands where none is due is not printed whole: who calls may keep what is printed.
func TestMistakesHideTokens(t *testing.T) {
	t.Parallel()
	token := token(t, "hidden", lasting)
	short := "eyJhbGciOiJFUzI1NiJ9" + "AAAA." + "eyJzdWIiOiJhIn0.c2lnbmF0dXJl" // (a file may have it as its name)
	keys := filepath.Join(t.TempDir(), short)
	if err := os.Mkdir(keys, 0o700); err != nil {
		t.Fatal(err)
	}
	if err := os.WriteFile(filepath.Join(keys, "keys.json"), nil, 0o600); err != nil {
		t.Fatal(err)
	}
	if _, _, said := here("", "dev", "--keys="+keys); !strings.Contains(said, short[:20]+"..") || strings.Contains(said, short[20:]) {
		t.Errorf("dev with keys that can't be read: %q", said)
	}
	for _, args := range [][]string{
		{token}, {"--" + token}, {"help", token},
		{"verify", token}, {"verify", "--" + token}, {"verify", "--longest", token}, {"verify", "--config=" + token},
		{"verify", "--audience=ledger", "--bundle", token}, {"verify", "--audience=ledger", "--bundle=example.org=" + token},
		{"serve", token}, {"serve", "--" + token}, {"serve", "--longest=Bearer " + token}, {"serve", "--replay=" + token},
		{"withdraw", "--exp", token}, {"withdraw", "--admin=/nowhere", "--key", token, "--exp=5"}, {"withdraw", "--admin=" + token, "--key=00", "--exp=5"},
		{"report", token}, {"ready", token}, {"check-state", token}, {"schema", token}, {"version", token},
	} {
		_, out, said := here("", args...)
		if printed := out + said; strings.Contains(printed, token[21:]) || strings.Contains(printed, token[len(token)-20:]) || strings.Contains(printed, token[:21]) {
			t.Errorf("%.40q: %s", args, printed)
		}
	}
}

// The commands and their options are those of lists/svidd.toml, which has what --help says of each, and its default.
func TestOptionsAreThoseOfTheList(t *testing.T) {
	t.Parallel()
	due := make(map[string][]string)
	for _, it := range listed {
		for _, command := range strings.Fields(it.commands) {
			due[command] = append(due[command], it.name)
		}
	}
	for command := range due {
		if commands[command] == nil {
			t.Errorf("there is no command %s", command)
		}
	}
	named := regexp.MustCompile(`(?m)^  --([a-z-]+)`)
	for command := range commands {
		if !regexp.MustCompile(`(?m)^  svidd ` + command + `( |$)`).MatchString(usage) {
			t.Errorf("the synopsis has no command %s", command)
		}
		var has []string
		_, said, _ := here("", command, "--help")
		for _, it := range named.FindAllStringSubmatch(said, -1) {
			has = append(has, it[1])
		}
		sort.Strings(has)
		sort.Strings(due[command])
		if !reflect.DeepEqual(has, due[command]) {
			t.Errorf("%s has the options %v, and %v are due", command, has, due[command])
		}
	}
}

// Where the library has a default of its own, the list has that one.
func TestDefaultsOfTheListAreTheLibrarys(t *testing.T) {
	t.Parallel()
	if got := optionOf("serve", "rsa-bits").initial; got != strconv.Itoa(svid.UsualRSABits) {
		t.Errorf("--rsa-bits is %s by default, and %d in the library", got, svid.UsualRSABits)
	}
	for _, row := range []struct{ option, says string }{{"ahead", "(default 30s)"}, {"group", "(default svid)"}} {
		if _, serve, _ := here("", "serve", "--help"); !strings.Contains(serve, row.says) {
			t.Errorf("serve --help does not say %s", row.says)
		}
		if a, b := optionOf("serve", row.option).initial, optionOf("schema", row.option).initial; a != b {
			t.Errorf("--%s is %q by default in serve, and %q in schema", row.option, a, b)
		}
	}
}

// What would end serve, or leave it without work, is said before it starts.
func TestOptionsThatServeCantRunWith(t *testing.T) {
	t.Parallel()
	folder, file := t.TempDir(), bundleFile(t, example)
	good := []string{"serve", "--check-config", "--audience", "a", "--longest", "60", "--replay", "reuse", bundleOption(file)}
	for _, row := range []struct {
		option, value string
		want          string // "" where the options are good
	}{
		{"group", "a b", "letters, digits, - and _"},
		{"group", "a.b", "letters, digits, - and _"},
		{"group", "", "letters, digits, - and _"},
		{"group", "Ledger_1-a", ""},
		{"replicas", "0", "from 1 to 5"},
		{"replicas", "6", "from 1 to 5"},
		{"replicas", "-1", "from 1 to 5"},
		{"replicas", "5", ""},
		{"log-addresses", "some", "is none of whole, network and none"},
		{"log-addresses", "network", ""},
		{"listen", "9901", "write HOST:PORT"},
		{"listen", "127.0.0.1", "write HOST:PORT"},
		{"listen", "127.0.0.1:", "write HOST:PORT"},
		{"listen", "127.0.0.1:99999", "write HOST:PORT"},
		{"listen", "", "write HOST:PORT"},
		{"listen", "unix:", "or unix:PATH"},
		{"listen", "unix:@svidd", "or unix:PATH"},
		{"listen", "unix:" + folder + "/socket", ""},
		{"listen", "unix:socket", ""},
		{"listen", "unix:" + strings.Repeat("a", 108), "at most 107 bytes"},
		{"listen", "unix:" + strings.Repeat("a", 107), ""},
		{"listen", ":9901", ""},
		{"listen", "[::1]:0", ""},
		{"listen", "localhost:http", ""},
		{"metrics", "9902", "write HOST:PORT"},
		{"metrics", "127.0.0.1:9901", "is the address of --listen"},
		{"metrics", ":9901", "is the address of --listen"},
		{"metrics", "0.0.0.0:9901", "is the address of --listen"},
		{"metrics", "localhost:9901", "is the address of --listen"},
		{"metrics", "127.0.0.2:9901", ""},
		{"envoy", ":9901", "is the address of --listen or of --metrics"},
		{"metrics", "unix:" + strings.Repeat("a", 108), "at most 107 bytes"},
		{"metrics", "unix:@svidd", "or unix:PATH"},
		{"metrics", "", ""},
		{"metrics", ":9902", ""},
		{"drain", "-1s", "is no time"},
		{"drain", "61m", "from 0s to 1h"},
		{"drain", "1h", ""},
		{"admin", "", ""},
		{"admin", "@svidd", "abstract name"},
		{"admin", strings.Repeat("a", 108), "at most 107 bytes"},
		{"admin", strings.Repeat("a", 107), ""},
		{"rsa-bits", "2047", "from 2048 to 16384"},
		{"rsa-bits", "16385", "from 2048 to 16384"},
		{"rsa-bits", "0", "from 2048 to 16384"},
		{"rsa-bits", "16384", ""},
		{"rsa-bits", "2048", ""},
		{"bundles", folder + "/none", "none: no such file or directory. Give a folder"},
		{"bundles", file, "Give a folder"},
		{"bundles", folder, ""},
		{"nats", "http://svidd:secret@h", "nats://, tls://, ws:// or wss://"},
		{"nats", "nats://h:1,mqtt://svidd:secret@h", "address 2 must begin"},
		{"nats", "svidd:secret@[::1", "address 1 is not like"},
		{"nats", "nats://", "address 1 is not like"},
		{"nats", "h:4222", ""},
		{"nats", "h", ""},
		{"nats", "tls://svidd:secret@h:4222", ""},
		{"nats", "ws://h,wss://h", ""},
	} {
		args := append(good[:len(good):len(good)], "--"+row.option, row.value)
		if row.option == "listen" && row.want == "" && !strings.HasPrefix(row.value, "unix:") {
			if l, err := net.Listen("tcp", row.value); err == nil {
				l.Close()
			} else if !errors.Is(err, syscall.EADDRINUSE) { // such as a machine without IPv6
				row.want = "this user can't listen at "
			}
		}
		if row.option == "nats" {
			args = append(args, "--replay", "once", "--state", filepath.Join(folder, "state"))
		}
		status, out, err := here("", args...)
		said := out + err
		if row.option == "nats" && row.want == "" {
			said = out + withoutServers(err)
		}
		if row.want == "" && (status != 0 || said != "svidd: the options are good\n") {
			t.Errorf("--%s %q: %d %q", row.option, row.value, status, said)
		}
		if row.want != "" && (status != 2 || !strings.Contains(err, "--"+row.option) || !strings.Contains(err, row.want) || strings.Count(said, "\n") != 1) {
			t.Errorf("--%s %q: %d %q, and %q is due", row.option, row.value, status, said, row.want)
		}
		if strings.Contains(said, "secret") {
			t.Errorf("--%s %q: a password is printed: %q", row.option, row.value, said)
		}
	}
	for _, option := range []string{"listen", "envoy", "metrics"} {
		both := []string{"--admin", filepath.Join(folder, "a.sock"), "--" + option, "unix:" + folder + "/./a.sock"}
		if status, _, said := here("", append(good[:len(good):len(good)], both...)...); status != 2 || !strings.Contains(said, "--admin is the path of --"+option) {
			t.Errorf("%q: %d %q", both, status, said)
		}
	}
}

// What mode bound wants: a store, and what names a caller. The other modes want no caller.
func TestOptionsOfModeBound(t *testing.T) {
	t.Parallel()
	good := []string{"serve", "--check-config", "--audience", "a", "--longest", "60", bundleOption(bundleFile(t, example))}
	store := []string{"--store", "redis://127.0.0.1:1"}
	for _, row := range []struct {
		args []string
		want string // "" where the options are good
	}{
		{append(store, "--replay", "bound", "--caller", "address:X-Real-Ip"), ""},
		{append(store, "--replay", "bound", "--caller", "address:X-Real-Ip/24,64"), ""},
		{append(store, "--replay", "bound", "--caller", "header:X-Client-Hash"), ""},
		{append(store, "--replay", "bound", "--caller", "peer", "--envoy", "127.0.0.1:9903"), ""},
		{append(store, "--replay", "bound", "--caller", "principal", "--envoy", "127.0.0.1:9903"), ""},
		{append(store, "--replay", "bound"), "--caller is missing"},
		{[]string{"--replay", "bound", "--caller", "header:X"}, "--state is missing: in mode bound"},
		{append(store, "--replay", "bound", "--caller", "peer"), "give --envoy"},
		{append(store, "--replay", "bound", "--caller", "principal"), "give --envoy"},
		{append(store, "--replay", "bound", "--caller", "address"), "write address:HEADER"},
		{append(store, "--replay", "bound", "--caller", "header:Authorization"), "which a thief has too"},
		{append(store, "--replay", "strict", "--caller", "header:X"), "--caller is for --replay bound"},
		{[]string{"--replay", "reuse", "--caller", "header:X"}, ""},
		{[]string{"--replay", "reuse", "--caller", "peer"}, "give --envoy"},
	} {
		status, out, err := here("", append(good[:len(good):len(good)], row.args...)...)
		if row.want == "" && (status != 0 || out+withoutServers(err) != "svidd: the options are good\n") {
			t.Errorf("%q: %d %q", row.args, status, out+err)
		}
		if row.want != "" && (status != 2 || !strings.Contains(err, row.want) || strings.Count(err, "\n") != 1) {
			t.Errorf("%q: %d %q, and %q is due", row.args, status, out+err, row.want)
		}
	}
}

// withoutServers is what is said beside the warnings of servers that do not answer: the names in the tests are of none.
func withoutServers(said string) string {
	for strings.HasPrefix(said, "svidd: warning: nothing answers at ") {
		_, said, _ = strings.Cut(said, "\n")
	}
	return said
}

// --check-config reads the bundles that are files, and says what is wrong with each.
func TestCheckConfigReadsTheBundles(t *testing.T) {
	t.Parallel()
	folder, empty := t.TempDir(), t.TempDir()
	write := func(name, text string) string {
		t.Helper()
		name = filepath.Join(folder, name)
		if err := os.WriteFile(name, []byte(text), 0o600); err != nil {
			t.Fatal(err)
		}
		return name
	}
	good := bundleFile(t, example)
	gone, bad, list, none := filepath.Join(folder, "gone"), write("bad.json", "{"), write("list.json", `{"keys":1}`), write("none.json", `{"keys":[]}`)
	for _, row := range []struct {
		args []string
		want []string // of these lines each; the options are good where it is empty
		warn string
	}{
		{[]string{"--bundle", "example.org=" + good}, nil, ""},
		{[]string{"--bundle", "example.org=" + gone}, []string{gone + ": no such file"}, ""},
		{[]string{"--bundle", "example.org=" + bad}, []string{bad + ": it is no JSON object"}, ""},
		{[]string{"--bundle", "example.org=" + list}, []string{list + `: its member "keys" is no list`}, ""},
		{[]string{"--bundle", "example.org=" + good, "--bundle", "example.com=" + gone, "--bundle", "example.net=" + bad}, []string{gone, bad}, ""},
		{[]string{"--bundle", "example.org=" + none}, []string{"no key of a trust bundle can be used"}, "its list of keys is empty"},
		{[]string{"--bundle", "example.org=" + none, "--bundle", "example.com=" + good}, nil, "its list of keys is empty"},
		{[]string{"--bundles", folder}, []string{bad, list}, ""},
		{[]string{"--bundles", empty}, []string{empty + " has no file DOMAIN.json"}, ""},
		{[]string{"--bundles", empty, "--bundle", "example.org=" + good}, nil, ""},
		// What answers over a socket may be away.
		{[]string{"--bundles", empty, "--bundle", "example.org=https://127.0.0.1:1/"}, nil, ""},
		{[]string{"--workload-api", "unix:///nothing"}, nil, ""},
		{[]string{"--workload-api", "unix:///nothing", "--bundle", "example.org=" + bad}, []string{bad}, ""},
		{[]string{"--workload-api", "unix:///nothing", "--bundle", "example.org=" + none}, nil, "its list of keys is empty"},
	} {
		status, out, err := here("", append([]string{"serve", "--check-config", "--audience", "a", "--longest", "60", "--replay", "reuse"}, row.args...)...)
		isGood := status == 0 && out == "svidd: the options are good\n"
		if isGood != (row.want == nil) || !isGood && (status != 2 || out != "") {
			t.Errorf("%q: %d %q %q", row.args, status, out, err)
		}
		if isGood && row.warn == "" && err != "" || !strings.Contains(err, row.warn) || row.warn != "" && !strings.HasPrefix(err, "svidd: warning: ") {
			t.Errorf("%q: %q", row.args, err)
		}
		for _, want := range row.want {
			if !strings.Contains(err, want) {
				t.Errorf("%q: %q does not speak of %s", row.args, err, want)
			}
		}
	}
}

// verify takes the file and the environment of serve, and says what is wrong with what it is given.
func TestVerifyWithTheOptionsOfServe(t *testing.T) {
	folder := t.TempDir()
	writeBundle(t, filepath.Join(folder, "example.org.json"), example)
	text, err := os.ReadFile("../../deploy/svidd.toml")
	if err != nil {
		t.Fatal(err)
	}
	config := filepath.Join(t.TempDir(), "svidd.toml")
	write := func(more string) {
		t.Helper()
		all := more + strings.Replace(string(text), "/etc/svidd/bundles", folder, 1)
		if err := os.WriteFile(config, []byte(all), 0o600); err != nil {
			t.Fatal(err)
		}
	}
	write("ahead = 30\ncheck-config = true\n")
	t.Setenv("SVIDD_ADMIN", "/run/svidd/admin.sock")
	t.Setenv("SVIDD_REPLICAS", "no number")
	if status, out, err := here(token(t, "a", lasting), "verify", "--config", config); status != 0 || !strings.Contains(out, `"jti":"a"`) {
		t.Errorf("the file of serve: %d %q %q", status, out, err)
	}
	write("admins = \"a\"\n")
	if status, _, err := here("", "verify", "--config", config); status != 2 || !strings.Contains(err, `no option is named "admins"`) {
		t.Errorf("an option that nobody has: %d %q", status, err)
	}

	good := []string{"verify", "--audience", "ledger"}
	bundle, gone := bundleOption(bundleFile(t, example)), filepath.Join(t.TempDir(), "nope.json")
	secret := token(t, "b", lasting)
	for _, row := range []struct {
		args []string
		want string
	}{
		{append(good, bundleOption(gone)), "svidd: " + gone + ": open " + gone + ": no such file or directory\n"},
		{append(good, bundle, "what"), "svidd: verify takes no argument, and got \"what\": it reads the token from standard input\n"},
		{append(good, bundle, secret), "svidd: verify takes no argument, and got \"" + secret[:20] + "\": it reads the token from standard input\n"},
		{append(good, bundle, "--longest", "0"), "svidd: --longest must be from 1 to 3153600000 seconds\n"},
		{[]string{"verify", bundle}, "svidd: --audience is missing: the name by which tokens call this service\n"},
		{good, "svidd: --workload-api, --bundle or --bundles is missing: without trust bundles no token can be accepted\n"},
	} {
		args := append([]string(nil), row.args...)
		if status, out, err := here(secret, args...); status != 2 || out != "" || err != row.want {
			t.Errorf("%q: %d %q %q, and %q is due", args, status, out, err, row.want)
		}
	}
}

// The token of withdraw may come from standard input, where no other process sees it.
func TestWithdrawOfStandardInput(t *testing.T) {
	t.Parallel()
	admin := filepath.Join(t.TempDir(), "admin.sock")
	p := start(t, bundleOption(bundleFile(t, example)), "--state", filepath.Join(t.TempDir(), "state"), "--admin", admin)
	one := token(t, "one", lasting)
	for _, bad := range []string{" \t" + one + "\r\n", one + " \n", one + "\n" + token(t, "two", lasting) + "\n"} {
		if status, out, err := here(bad, "withdraw", "--admin", admin, "-"); status != 2 || out != "" || err == "" {
			t.Errorf("%q: %d %q %q", bad, status, out, err)
		}
	}
	status, out, err := svidd(t, one+"\r\n", "withdraw", "--admin", admin, "-")
	if status != 0 || !strings.HasPrefix(out, "withdrawn ") || err != "" {
		t.Errorf("%d %q %q", status, out, err)
	}
	p.want(one, 401, "Withdrawn")
	for _, row := range []struct {
		stdin string
		args  []string
		want  string
	}{
		{"\n", []string{"-"}, "standard input has no token"},
		{"a.b.c", []string{"-"}, "HeaderSpelling"},
		{strings.Repeat("a", 70000), []string{"-"}, "TooLong"},
		{one, []string{"--key", strings.Repeat("0", 64), "--exp", "4000000000", "-"}, "withdraw wants"},
		{one, nil, "withdraw wants"},
		{one, []string{"--key", strings.Repeat("0", 64)}, "withdraw wants"},
		{one, []string{"--exp", "4000000000"}, "withdraw wants"},
		{one, []string{"--exp", "4000000000", "-"}, "withdraw wants"},
	} {
		args := append([]string{"withdraw", "--admin", admin}, row.args...)
		if status, _, err := here(row.stdin, args...); status != 2 || !strings.Contains(err, row.want) {
			t.Errorf("%.40q %q: %d %q", row.stdin, row.args, status, err)
		}
	}
	p.end()
}

// Any process may connect to the socket of --listen, and only this user to that of --admin, whatever the umask is.
func TestModesOfTheSockets(t *testing.T) {
	t.Parallel()
	bundle := bundleOption(bundleFile(t, example))
	for _, umask := range []int{0, 0o077} {
		folder := t.TempDir()
		listen, admin := filepath.Join(folder, "svidd.sock"), filepath.Join(folder, "admin.sock")
		p := &process{t: t, log: &lines{}, client: &http.Client{}}
		p.args = []string{"serve", "--audience", "a", "--longest", "60", "--replay", "reuse", bundle, "--listen", "unix:" + listen, "--admin", admin}
		t.Cleanup(p.kill)
		func() {
			defer syscall.Umask(syscall.Umask(umask))
			p.launch()
		}()
		p.await("an answer", func() bool {
			_, err := adminOf(admin).ask(http.MethodGet, "/healthz", nil)
			return err == nil
		})
		for name, want := range map[string]os.FileMode{listen: 0o666, admin: 0o600} {
			if info, err := os.Stat(name); err != nil || info.Mode().Perm() != want {
				t.Errorf("umask %03o: %s has mode %v, %v, and %v is due", umask, name, info.Mode(), err, want)
			}
		}
		p.end()
	}
}

// systemd hears that svidd is ready once it answers, though it may answer 503.
func TestReadyForSystemdBeforeTheBundlesAreRead(t *testing.T) {
	folder := t.TempDir()
	notified, err := net.ListenUnixgram("unixgram", &net.UnixAddr{Name: filepath.Join(folder, "notify"), Net: "unixgram"})
	if err != nil {
		t.Fatal(err)
	}
	defer notified.Close()
	t.Setenv("NOTIFY_SOCKET", filepath.Join(folder, "notify"))
	t.Setenv(workload.EndpointSocket, "unix://"+filepath.Join(folder, "agent.sock"))
	p := &process{t: t, address: freeAddress(t), log: &lines{}, client: &http.Client{Timeout: patience.Long}}
	p.args = []string{"serve", "--audience", "a", "--longest", "60", "--replay", "reuse", "--listen", p.address}
	t.Cleanup(p.kill)
	p.launch()
	said := make([]byte, 100)
	_ = notified.SetReadDeadline(time.Now().Add(patience.Long))
	if n, err := notified.Read(said); err != nil || string(said[:n]) != "READY=1" {
		t.Errorf("systemd hears %q, %v", said[:n], err)
	}
	if status, why := p.get("/readyz"); status != http.StatusServiceUnavailable || !strings.Contains(why, "no trust bundle") {
		t.Errorf("/readyz: %d %q", status, why)
	}
	p.end()
}

// SIGTERM closes the address at once. While a request is under way, the admin socket says that svidd drains.
func TestDrainingIsSaidOnTheAdminSocket(t *testing.T) {
	t.Parallel()
	admin := filepath.Join(t.TempDir(), "admin.sock")
	p := start(t, bundleOption(bundleFile(t, example)), "--replay", "reuse", "--admin", admin)
	slow, err := net.Dial("tcp", p.address)
	if err != nil {
		t.Fatal(err)
	}
	defer slow.Close()
	if _, err := slow.Write([]byte("GET /healthz HTTP/1.1\r\nHost: a\r\n")); err != nil {
		t.Fatal(err)
	}
	// Connections are accepted in their order: once a later one is answered, this one is svidd's too, and not the kernel's alone.
	if _, err := (peer{network: "tcp", address: p.address}).ask(http.MethodGet, "/healthz", nil); err != nil {
		t.Fatal(err)
	}
	if err := p.signal(syscall.SIGTERM); err != nil {
		t.Fatal(err)
	}
	p.await("draining", func() bool {
		_, err := adminOf(admin).ask(http.MethodGet, "/readyz", nil)
		return err != nil && strings.HasSuffix(err.Error(), "503: draining")
	})
	p.await("the listener's end", func() bool {
		c, err := net.Dial("tcp", p.address)
		if err == nil {
			c.Close()
		}
		return err != nil
	})
	if _, err := slow.Write([]byte("\r\n")); err != nil {
		t.Error(err)
	}
	answer := make([]byte, 100)
	if n, err := slow.Read(answer); err != nil || !strings.HasPrefix(string(answer[:n]), "HTTP/1.1 200 ") {
		t.Errorf("the request that was under way: %q, %v", answer[:n], err)
	}
	if err := p.wait(); err != nil {
		t.Errorf("svidd: %v\n%s", err, p.log)
	}
}

// Each command prints its help on standard output, with two dashes before each option, and that is a success: with two dashes and with one,
// and behind what else stands there.
func TestHelp(t *testing.T) {
	t.Parallel()
	for command := range commands {
		var before string
		for _, args := range [][]string{{command, "--help"}, {command, "-help"}, {command, "-h"}, {command, "argument", "--help"}, {"help", command}, {"--help", command}} {
			status, out, said := here("", args...)
			if status != 0 || said != "" || !strings.HasPrefix(out, "usage: svidd "+command) || before != "" && out != before {
				t.Errorf("%q: %d %q %q", args, status, out, said)
			}
			if one := regexp.MustCompile(`(?m)^ *-[a-z].*`).FindString(out); one != "" {
				t.Errorf("%q: an option has one dash: %s", args, one)
			}
			before = out
		}
		for _, it := range listed {
			if strings.Contains(" "+it.commands+" ", " "+command+" ") && !strings.Contains(before, "\n  --"+it.name) {
				t.Errorf("the help of %s has no --%s", command, it.name)
			}
		}
		if synopsis, _, _ := strings.Cut(before, "\n"); strings.Contains(synopsis, " BUNDLES ") != strings.Contains(before, "\nBUNDLES: --workload-api") {
			t.Errorf("the help of %s does not say what BUNDLES is: %s", command, before)
		}
	}
	for _, word := range []string{"help", "--help", "-help", "-h"} {
		if status, out, said := here("", word); status != 0 || out != usage || said != "" {
			t.Errorf("%s: %d %q %q", word, status, out, said)
		}
	}
	const due = `usage: svidd report --admin PATH [--json]

  --admin PATH
        unix socket PATH of the sidecar
  --config FILE
        FILE of options, as TOML (audience = ["ledger"]) or as a JSON object
  --json
        print one JSON object
`
	if status, out, said := svidd(t, "", "report", "--help"); status != 0 || out != due || said != "" {
		t.Errorf("%d %q %q", status, out, said)
	}
	for _, row := range []struct {
		args []string
		want string
	}{
		{[]string{"help", "srve"}, `svidd: no command is named "srve": did you mean serve?` + "\n"},
		{[]string{"version", "now"}, `svidd: version takes no argument, and got "now"` + "\n"},
		{[]string{"version", "--now"}, "svidd: no option is named --now. 'svidd version --help' lists them\n"},
	} {
		if status, out, said := here("", row.args...); status != 2 || out != "" || said != row.want {
			t.Errorf("%q: %d %q %q", row.args, status, out, said)
		}
	}
	if status, out, _ := here("", "-version"); status != 0 || !strings.HasPrefix(out, "svidd "+version.Number) {
		t.Errorf("-version: %d %q", status, out)
	}
	// Where nobody can read it, that is a fault.
	for _, args := range [][]string{{"help"}, {"report", "--help"}, {"version"}} {
		var said bytes.Buffer
		if status := run(args, stdio{strings.NewReader(""), full{}, &said}); status != 2 || said.String() != "svidd: no room\n" {
			t.Errorf("%q, and standard output is full: %d %q", args, status, &said)
		}
	}
}

// full takes nothing.
type full struct{}

func (full) Write([]byte) (int, error) { return 0, errors.New("no room") }
