// Package agenttest starts a SPIFFE Workload API for a test: agent.py, by the gRPC and protobuf of Debian's Python. What it
// starts ends with the test.
package agenttest

import (
	"bufio"
	_ "embed"
	"encoding/json"
	"io"
	"os/exec"
	"path/filepath"
	"strings"
	"syscall"
	"testing"
)

//go:embed agent.py
var program string

// python is Debian's, which has the libraries that agent.py wants.
const python = "/usr/bin/python3"

// An Agent serves a Workload API.
type Agent struct {
	// Address is where, as SPIFFE_ENDPOINT_SOCKET has it.
	Address string

	listen string
	run    *exec.Cmd
	in     io.WriteCloser
	out    *bufio.Reader
}

// Start starts an agent on a unix socket. It gives nothing yet.
func Start(t testing.TB) *Agent {
	t.Helper()
	socket := filepath.Join(t.TempDir(), "agent.sock")
	a := &Agent{Address: "unix://" + socket, listen: "unix:" + socket}
	t.Cleanup(func() { a.Kill(t) })
	a.Again(t)
	return a
}

// StartTCP starts an agent on a port of loopback.
func StartTCP(t testing.TB) *Agent {
	t.Helper()
	a := &Agent{listen: "127.0.0.1:0"}
	t.Cleanup(func() { a.Kill(t) })
	a.Address = "tcp://127.0.0.1:" + a.Again(t)
	return a
}

// Again starts an agent that was killed, at the same address. It gives nothing yet.
func (a *Agent) Again(t testing.TB) (port string) {
	t.Helper()
	a.run = exec.Command(python, "-c", program, a.listen)
	var said strings.Builder
	a.run.Stderr = &said
	in, errIn := a.run.StdinPipe()
	out, errOut := a.run.StdoutPipe()
	if errIn != nil || errOut != nil {
		t.Fatal(errIn, errOut)
	}
	if err := a.run.Start(); err != nil {
		t.Fatal(err)
	}
	a.in, a.out = in, bufio.NewReader(out)
	port, err := a.out.ReadString('\n')
	if err != nil {
		_ = a.run.Wait()
		t.Fatalf("agent.py: %v: it wants python3-grpcio and python3-protobuf of Debian\n%s", err, &said)
	}
	return strings.TrimSpace(port)
}

// Give gives these bundles, by what the agent calls their trust domains, to all streams and to those that begin later. It
// returns how many streams there are.
func (a *Agent) Give(t testing.TB, bundles map[string]string) (streams string) {
	t.Helper()
	return a.say(t, map[string]any{"bundles": bundles})
}

// Refuse ends all streams, and those that begin later, with a code of gRPC such as PERMISSION_DENIED.
func (a *Agent) Refuse(t testing.TB, code, why string) {
	t.Helper()
	a.say(t, map[string]any{"code": code, "why": why})
}

func (a *Agent) say(t testing.TB, what map[string]any) string {
	t.Helper()
	if err := json.NewEncoder(a.in).Encode(what); err != nil {
		t.Fatal(err)
	}
	line, err := a.out.ReadString('\n')
	if err != nil {
		t.Fatal(err)
	}
	return strings.TrimSpace(line)
}

// Freeze stops the agent, so that it says nothing, and is still there. Thaw lets it go on.
func (a *Agent) Freeze(t testing.TB) { a.signal(t, syscall.SIGSTOP) }

// Thaw lets a frozen agent go on.
func (a *Agent) Thaw(t testing.TB) { a.signal(t, syscall.SIGCONT) }

func (a *Agent) signal(t testing.TB, s syscall.Signal) {
	t.Helper()
	if err := a.run.Process.Signal(s); err != nil {
		t.Fatal(err)
	}
}

// Kill kills the agent, if it runs.
func (a *Agent) Kill(t testing.TB) {
	t.Helper()
	if a.run == nil {
		return
	}
	_ = a.run.Process.Kill()
	_ = a.run.Wait()
	a.run = nil
}
