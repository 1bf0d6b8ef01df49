package main

import (
	"bytes"
	"fmt"
	"net"
	"os"
	"os/exec"
	"path/filepath"
	"strings"
	"syscall"
	"testing"
)

// hanging is what runs svidd so that a call of the system, such as fdatasync, does not return for an hour.
func hanging(t *testing.T, call string) []string {
	t.Helper()
	strace, err := exec.LookPath("strace")
	if err != nil {
		without(t, "a disk that hangs is made by strace: apt-get install strace")
	}
	words := []string{strace, "-f", "--quiet=all", "--seccomp-bpf", "--output=/dev/null", "--trace=" + call, "--inject=" + call + ":delay_enter=3600s"}
	if out, err := exec.Command(words[0], append(words[1:len(words):len(words)], "true")...).CombinedOutput(); err != nil {
		without(t, "strace can't trace here: %v %s", err, out)
	}
	return append(words, os.Args[0])
}

// without skips a test for want of something. Where CI=true that is a failure: go test does not name what it skips.
func without(t *testing.T, why string, values ...any) {
	t.Helper()
	if os.Getenv("CI") == "true" {
		t.Fatalf(why, values...)
	}
	t.Skipf(why, values...)
}

// The disk hangs for good, at the first acceptance: every request is answered in time, and none with 200. /healthz, /readyz and
// /metrics do not wait, and SIGTERM ends the process.
func TestADiskThatHangs(t *testing.T) {
	t.Parallel()
	state, admin := filepath.Join(t.TempDir(), "state"), filepath.Join(t.TempDir(), "admin.sock")
	p := prepare(t, hanging(t, "fdatasync"), bundleOption(bundleFile(t, example)), "--state", state, "--admin", admin, "--wait", "300ms")
	p.more = []string{asSvidd + "=1", inHaste + "=1"}
	p.start()
	for i := 0; i < 3; i++ {
		one := token(t, fmt.Sprint(i), lasting)
		p.want(one, 503, "NotKept")
		p.want(one, 401, "Replayed")
	}
	p.want("a.b.c", 401, "HeaderSpelling")
	if status, _, err := svidd(t, "", "withdraw", "--admin", admin, token(t, "withdrawn", lasting)); status != 2 || !strings.Contains(err, "503") {
		t.Errorf("withdraw: %d %q", status, err)
	}
	for path, want := range map[string]int{"/healthz": 200, "/readyz": 503, "/metrics": 200} {
		if status, body := p.get(path); status != want {
			t.Errorf("%s: %d %q", path, status, body)
		}
	}
	if n := p.metric("svidd_journal_failures_total"); n != "4" {
		t.Errorf("%s failures", n)
	}
	p.endHanging()
	p.await("the log to say so", func() bool { return strings.Contains(p.log.String(), "did not take a last snapshot") })
}

// A start that hangs ends by SIGTERM.
func TestAStartThatHangs(t *testing.T) {
	t.Parallel()
	p := prepare(t, hanging(t, "flock"), bundleOption(bundleFile(t, example)), "--state", filepath.Join(t.TempDir(), "state"))
	p.more = []string{asSvidd + "=1"}
	p.launch()
	p.await("the lock", func() bool {
		_, err := os.Stat(filepath.Join(p.option("--state"), "lock"))
		return err == nil
	})
	p.endHanging()
}

// endHanging ends svidd by SIGTERM. strace, which runs it, holds the thread whose call of the system hangs until that would return. So the
// end is seen by all other threads: they are there as long as svidd runs.
func (p *process) endHanging() {
	p.t.Helper()
	if err := p.signal(syscall.SIGTERM); err != nil {
		p.t.Fatal(err)
	}
	p.await("the end of svidd", func() bool {
		pid, err := p.pid()
		return err != nil || pid == 0 || threads(pid) <= 1
	})
}

// threads is how many threads of a process have not ended.
func threads(pid int) (n int) {
	for _, state := range threadStates(pid) {
		if state != 'Z' && state != 'X' {
			n++
		}
	}
	return n
}

// isStopped says whether no thread of a process runs since SIGSTOP. That comes some time after the signal was sent.
func isStopped(pid int) bool {
	states := threadStates(pid)
	return len(states) > 0 && len(bytes.Trim(states, "T")) == 0
}

// threadStates are the states of a process's threads, as /proc has them.
func threadStates(pid int) (states []byte) {
	stats, err := filepath.Glob(fmt.Sprintf("/proc/%d/task/[0-9]*/stat", pid))
	if err != nil {
		return nil
	}
	for _, stat := range stats {
		text, err := os.ReadFile(stat)
		if err != nil {
			continue // it has ended meanwhile
		}
		states = append(states, text[bytes.LastIndexByte(text, ')')+2])
	}
	return states
}

// A pipe instead of a file is said at once, where svidd can't go on without that file.
func TestAPipeInsteadOfAFile(t *testing.T) {
	t.Parallel()
	folder := t.TempDir()
	pipe, state := filepath.Join(folder, "pipe"), filepath.Join(folder, "state")
	if err := syscall.Mkfifo(pipe, 0o600); err != nil {
		t.Fatal(err)
	}
	if err := os.Mkdir(state, 0o700); err != nil {
		t.Fatal(err)
	}
	if err := syscall.Mkfifo(filepath.Join(state, "place"), 0o600); err != nil {
		t.Fatal(err)
	}
	bundle := bundleOption(bundleFile(t, example))
	for _, row := range []struct {
		args []string
		want string
	}{
		{[]string{"--config", pipe}, pipe + " is no regular file"},
		{[]string{"--config", "/dev/zero"}, "/dev/zero is no regular file"},
		{[]string{bundle, "--state", state}, "place is no regular file"},
		{[]string{bundle, "--state", pipe}, "pipe"},
		{[]string{"--bundles", pipe, "--replay", "reuse"}, pipe + " is no folder. Give a folder"},
	} {
		p := prepare(t, nil, row.args...)
		p.launch()
		p.exitsWith(2)
		if !strings.Contains(p.log.String(), row.want) {
			t.Errorf("%q: %s", row.args, p.log)
		}
	}
}

// Nor is a pipe waited for, a socket or a folder, in the place of a file for the NATS servers: neither by --check-config, nor by
// a start.
func TestWhatIsNoRegularFileForNATS(t *testing.T) {
	t.Parallel()
	dir := t.TempDir()
	in := func(name string) string { return filepath.Join(dir, name) }
	if err := syscall.Mkfifo(in("pipe"), 0o600); err != nil {
		t.Fatal(err)
	}
	if err := os.Mkdir(in("folder"), 0o700); err != nil {
		t.Fatal(err)
	}
	socket, err := net.Listen("unix", in("socket"))
	if err != nil {
		t.Fatal(err)
	}
	defer socket.Close()
	good := []string{bundleOption(bundleFile(t, example)), "--replay", "reuse", "--store", "nats://127.0.0.1:1"}
	for _, kind := range []string{"pipe", "folder", "socket"} {
		for _, options := range [][]string{
			{"--nats-creds", in(kind)}, {"--nats-ca", in(kind)}, {"--nats-cert", in(kind), "--nats-key", in(kind)},
		} {
			for _, check := range []string{"--check-config=true", "--check-config=false"} {
				p := prepare(t, nil, append(append(good[:len(good):len(good)], options...), check)...)
				p.launch()
				p.exitsWith(2)
				if log := p.log.String(); !strings.Contains(log, "--nats-creds: "+in(kind)+" is no regular file") || strings.Count(log, "\n") != 1 {
					t.Errorf("%q, %s: %s", options, check, log)
				}
			}
		}
	}
}

// A pipe instead of a bundle stops neither SIGTERM nor SIGHUP.
func TestAPipeInsteadOfABundle(t *testing.T) {
	t.Parallel()
	good, folder := bundleFile(t, example), t.TempDir()
	pipe := filepath.Join(folder, "example.com.json")
	if err := syscall.Mkfifo(pipe, 0o600); err != nil {
		t.Fatal(err)
	}
	// At the start.
	state := filepath.Join(folder, "state")
	p := prepare(t, nil, "--bundle", "example.com="+pipe, "--state", state)
	p.launch()
	p.await("the state folder, which it opens before", func() bool {
		_, err := os.Stat(filepath.Join(state, "place"))
		return err == nil
	})
	if err := p.signal(syscall.SIGTERM); err != nil {
		t.Fatal(err)
	}
	p.exits()

	// While it runs: the pipe comes later.
	other := filepath.Join(t.TempDir(), "example.com.json")
	p = start(t, bundleOption(good), "--bundle", "example.com="+other, "--replay", "reuse")
	if err := syscall.Mkfifo(other, 0o600); err != nil {
		t.Fatal(err)
	}
	for i := 0; i < 3; i++ {
		if err := p.signal(syscall.SIGHUP); err != nil {
			t.Fatal(err)
		}
	}
	p.await("the signals", func() bool { return len(p.events("signal")) > 0 })
	p.want(token(t, "good", lasting), 200, "")
	if err := p.signal(syscall.SIGTERM); err != nil {
		t.Fatal(err)
	}
	p.exits()
}
