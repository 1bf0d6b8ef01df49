package main

import (
	"bufio"
	"encoding/json"
	"fmt"
	"os"
	"path/filepath"
	"syscall"
	"testing"
	"time"

	"svid.example/go/v3/internal/patience"
)

// piped starts svidd serve with a pipe as standard error, and returns the end that nobody reads yet. The pipe takes one page.
func piped(t *testing.T, args ...string) (p *process, reader *os.File) {
	t.Helper()
	reader, writer, err := os.Pipe()
	if err != nil {
		t.Fatal(err)
	}
	t.Cleanup(func() { reader.Close() })
	const setPipeSize = 1031 // F_SETPIPE_SZ of Linux
	if _, _, errno := syscall.Syscall(syscall.SYS_FCNTL, writer.Fd(), setPipeSize, 4096); errno != 0 {
		t.Fatal(errno)
	}
	p = prepare(t, nil, args...)
	p.stderr = writer
	p.start()
	writer.Close()
	return p, reader
}

// exits wants the process to end by itself, with a status of 0.
func (p *process) exits() {
	p.t.Helper()
	p.exitsWith(0)
}

// exitsWith wants the process to end by itself, with a status.
func (p *process) exitsWith(status int) {
	p.t.Helper()
	err := p.wait()
	if got := p.run.ProcessState.ExitCode(); got != status {
		p.t.Errorf("svidd ends with %d (%v), want %d\n%s", got, err, status, p.log)
	}
	p.client.CloseIdleConnections()
}

// Where nobody reads standard error, every request is answered. Lines that have no room are dropped and counted, the log says
// so once it is read again, and it loses nothing more.
func TestALogThatNobodyReads(t *testing.T) {
	t.Parallel()
	p, reader := piped(t, bundleOption(bundleFile(t, example)), "--state", filepath.Join(t.TempDir(), "state"))
	var asked int
	for asked = 0; p.metric("svidd_log_lines_dropped_total") == "0"; asked += 100 {
		if asked > 100_000 {
			t.Fatal("no line is dropped")
		}
		for i := 0; i < 100; i++ {
			if p.want("a.b.c", 401, "HeaderSpelling"); t.Failed() {
				t.FailNow()
			}
		}
	}
	p.want(token(t, "good", lasting), 200, "")
	before := p.metric("svidd_log_lines_dropped_total")

	// What was kept comes in its order, then a line that counts what was not, and from there on each line.
	if err := reader.SetReadDeadline(time.Now().Add(patience.Long)); err != nil {
		t.Fatal(err)
	}
	refused, dropped := 0, 0
	lines := bufio.NewScanner(reader)
	lines.Buffer(nil, 1<<20)
	for lines.Scan() {
		var line struct {
			Event   string
			Dropped int
		}
		if err := json.Unmarshal(lines.Bytes(), &line); err != nil {
			t.Fatalf("%q: %v", lines.Text(), err)
		}
		if line.Event == "refused" || line.Event == "accepted" {
			refused++
		}
		if line.Event == "log" {
			dropped = line.Dropped
			break
		}
	}
	if fmt.Sprint(dropped) != before || refused+dropped != asked+1 {
		t.Errorf("%d lines of decisions and %d dropped, of %d; %s are counted", refused, dropped, asked+1, before)
	}
	p.want(token(t, "later", lasting), 200, "")
	if !lines.Scan() || !json.Valid(lines.Bytes()) || p.metric("svidd_log_lines_dropped_total") != before {
		t.Errorf("after it: %q", lines.Text())
	}
	if err := p.signal(syscall.SIGTERM); err != nil {
		t.Fatal(err)
	}
	for lines.Scan() {
	}
	p.exits()
}

// SIGTERM ends the process though nobody reads its log.
func TestTheEndOfALogThatNobodyReads(t *testing.T) {
	t.Parallel()
	p, _ := piped(t, bundleOption(bundleFile(t, example)), "--replay", "reuse")
	for i := 0; i < 500 && !t.Failed(); i++ {
		p.want("a.b.c", 401, "HeaderSpelling")
	}
	if err := p.signal(syscall.SIGTERM); err != nil {
		t.Fatal(err)
	}
	p.exits()
}

// Where the reader of standard error is gone, the service goes on.
func TestALogWhoseReaderIsGone(t *testing.T) {
	t.Parallel()
	p, reader := piped(t, bundleOption(bundleFile(t, example)), "--replay", "reuse")
	reader.Close()
	good := token(t, "good", lasting)
	for i := 0; i < 3; i++ {
		p.want(good, 200, "")
	}
	p.await("lines that are dropped", func() bool { return p.metric("svidd_log_lines_dropped_total") != "0" })
	p.want(good, 200, "")
	if err := p.signal(syscall.SIGTERM); err != nil {
		t.Fatal(err)
	}
	p.exits()
}
