package main

import (
	"fmt"
	"io"
	"net"
	"net/http"
	"net/url"
	"os"
	"path/filepath"
	"strings"
	"syscall"
	"testing"

	"svid.example/go/v3/svid"
)

// Where no sidecar answers, withdraw, report and ready say what they asked, why there is no answer, and what to do.
func TestNobodyAnswers(t *testing.T) {
	t.Parallel()
	room := t.TempDir()
	in := func(name string) string { return filepath.Join(room, name) }
	if err := os.WriteFile(in("file"), nil, 0o600); err != nil {
		t.Fatal(err)
	}
	listen := func(name string) *net.UnixListener {
		l, err := net.ListenUnix("unix", &net.UnixAddr{Name: in(name), Net: "unix"})
		if err != nil {
			t.Fatal(err)
		}
		return l
	}
	left := listen("left") // as a process leaves it that was killed
	left.SetUnlinkOnClose(false)
	left.Close()
	elsewhere := listen("elsewhere") // of another service of HTTP
	t.Cleanup(func() { elsewhere.Close() })
	go func() { _ = http.Serve(elsewhere, http.NotFoundHandler()) }()
	other := listen("other") // of one that is no HTTP
	t.Cleanup(func() { other.Close() })
	go func() {
		for {
			c, err := other.Accept()
			if err != nil {
				return
			}
			go func() { _, _ = io.WriteString(c, "hello\n"); _, _ = io.Copy(io.Discard, c); c.Close() }()
		}
	}()
	long := in(strings.Repeat("a", 108))
	const admin, ready = "the path that serve has as --admin", "the address that serve has as --metrics, or as --listen where it has none"
	for _, row := range []struct{ path, want string }{
		{in("none"), "nothing is at PATH: give GIVE, and see whether svidd runs"},
		{in("file/none"), "nothing is at PATH: give GIVE, and see whether svidd runs"},
		{in("file"), "PATH is no socket: give GIVE"},
		{room, "PATH is no socket: give GIVE"},
		{in("left"), "nobody listens on PATH: give GIVE, and see whether svidd runs"},
		{in("elsewhere"), "PATH answers, and not to ASKED: give GIVE"},
		{in("other"), "PATH does not answer as svidd does: ... Give GIVE"},
		{long, "PATH is too long: the path of a unix socket has at most 107 bytes. Give GIVE"},
	} {
		for _, it := range []struct {
			args        []string
			asked, give string
		}{
			{[]string{"report", "--admin", row.path}, "/messages", admin},
			{[]string{"withdraw", "--admin", row.path, "a.b.c"}, "/withdraw", admin},
			{[]string{"ready", "--listen", "unix:" + row.path}, "/readyz", ready},
		} {
			if it.args[0] == "ready" && row.path == long {
				continue // (it is no value of the option)
			}
			due := "svidd: " + strings.NewReplacer("PATH", row.path, "GIVE", it.give, "ASKED", it.asked).Replace(row.want) + "\n"
			begin, end, some := strings.Cut(due, "...") // (which stands for words of Go's library)
			if status, out, err := here("", it.args...); status != 2 || out != "" || !strings.HasPrefix(err, begin) || !strings.HasSuffix(err, end) || !some && err != due ||
				strings.Contains(err, "http://svidd/") {
				t.Errorf("%q: %d %q %q\nis due: %q", it.args, status, out, err, due)
			}
		}
	}
	closed := freeAddress(t)
	for _, row := range []struct {
		args []string
		want string
	}{
		{[]string{"ready", "--listen", closed}, "nobody listens on " + closed + ": give " + ready + ", and see whether svidd runs"},
		{[]string{"ready", "--listen", "9901"}, `--listen "9901" is no address: write HOST:PORT, such as 127.0.0.1:9901, or unix:PATH`},
		{[]string{"ready", "--listen", "http://127.0.0.1:9901/"}, `--listen "http://127.0.0.1:9901/" is no address: write HOST:PORT, such as 127.0.0.1:9901, or unix:PATH`},
		{[]string{"ready", "--listen", "unix:" + long}, "--listen: the path of a unix socket has at most 107 bytes"},
		{[]string{"ready", "9901"}, `ready takes no argument, and got "9901": give the address as --listen`},
		{[]string{"report", "x"}, `report takes no argument, and got "x": give --admin, ` + admin},
		{[]string{"report"}, "report wants --admin, " + admin + ", or --config, the file of serve that has it"},
	} {
		if status, out, err := here("", row.args...); status != 2 || out != "" || err != "svidd: "+row.want+"\n" {
			t.Errorf("%q: %d %q %q\nis due: %q", row.args, status, out, err, row.want)
		}
	}
	for err, want := range map[error]string{
		&net.OpError{Op: "dial", Net: "unix", Err: os.NewSyscallError("connect", syscall.EACCES)}: "PATH: permission denied: run this as the user that svidd runs as",
		os.ErrDeadlineExceeded: "PATH gave no answer within 1m0s: see the log of svidd",
	} {
		if got := adminOf("PATH").silent(&url.Error{Op: "Get", URL: "http://svidd/", Err: err}); got.Error() != want {
			t.Errorf("%v: %q\nis due: %q", err, got, want)
		}
	}
}

// What --json prints has these names, which programs read.
func TestAReportInJSON(t *testing.T) {
	t.Parallel()
	one, other := svid.ValidatorID{1}, svid.ValidatorID{2}
	messages, err := svid.Batches([]svid.Use{
		{Key: svid.TokenKey{1}, Expires: 2000, At: 1000, ValidatorID: one}, {Key: svid.TokenKey{1}, Expires: 2000, At: 1001, ValidatorID: other},
		{Key: svid.TokenKey{2}, Expires: 3000, At: 1002, ValidatorID: one, Withdrawn: true},
	})
	must(t, err)
	text, err := svid.Report(messages)
	must(t, err)
	got, err := reportInJSON(text)
	a, b := svid.TokenKey{1}.String(), svid.TokenKey{2}.String()
	want := fmt.Sprintf(`{"moment":1002,"uses":[{"exp":2000,"key":%q,"validator_id":%q,"at":1000},{"exp":2000,"key":%q,"validator_id":%q,"at":1001},`+
		`{"exp":3000,"key":%q,"validator_id":%q,"at":1002,"withdrawn":true}],"twice":[{"key":%q,"uses":2}]}`+"\n", a, one, a, other, b, one, a)
	if err != nil || got != want {
		t.Errorf("%v\n%s, want\n%s", err, got, want)
	}
	if got, err = reportInJSON("moment 0\nuses 0\ntwice 0\n"); err != nil || got != `{"moment":0,"uses":[],"twice":[]}`+"\n" {
		t.Errorf("of an empty record: %q %v", got, err)
	}
}
