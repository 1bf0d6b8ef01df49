// Package broker starts nats-server with JetStream, alone or as a cluster, on 127.0.0.1 and in folders of its caller.
// Tests, examples and measurements use it.
package broker

import (
	"fmt"
	"os"
	"os/exec"
	"path/filepath"
	"strings"
	"syscall"
	"time"

	"github.com/nats-io/nats.go"

	"svid.example/go/v3/internal/patience"
)

// A Server is one nats-server. It keeps its port and its folder when it is killed and started again. It is for one
// goroutine at a time.
type Server struct {
	URL  string
	args []string
	run  *exec.Cmd
}

// New returns a server that does not run yet, with what it keeps in dir, which must be there.
func New(dir string, more ...string) (*Server, error) {
	ports, err := FreePorts(1)
	if err != nil {
		return nil, err
	}
	return newServer(dir, ports[0], more...), nil
}

// NewCluster returns servers that do not run yet, one for each folder, which form a cluster.
func NewCluster(dirs []string, more ...string) ([]*Server, error) {
	n := len(dirs)
	ports, err := FreePorts(2 * n)
	if err != nil {
		return nil, err
	}
	routes := make([]string, n)
	for i := range routes {
		routes[i] = fmt.Sprintf("nats://127.0.0.1:%d", ports[n+i])
	}
	servers := make([]*Server, n)
	for i, dir := range dirs {
		args := append([]string{"--name", fmt.Sprint("n", i), "--cluster_name", "svid", "--cluster", routes[i],
			"--routes", strings.Join(routes, ",")}, more...)
		servers[i] = newServer(dir, ports[i], args...)
	}
	return servers, nil
}

func newServer(dir string, port int, more ...string) *Server {
	args := []string{"-js", "-sd", dir, "-a", "127.0.0.1", "-p", fmt.Sprint(port), "-l", filepath.Join(dir, "log")}
	return &Server{URL: fmt.Sprintf("nats://127.0.0.1:%d", port), args: append(args, more...)}
}

// Start starts the server, for the first time or again. It may take a while until it Answers.
func (s *Server) Start() error {
	s.run = exec.Command("nats-server", s.args...)
	if err := s.run.Start(); err != nil {
		s.run = nil
		return fmt.Errorf("broker: %w: install Debian's nats-server", err)
	}
	return nil
}

// Kill ends the server as kill -9 does. Of a server that does not run it does nothing.
func (s *Server) Kill() {
	if s.run != nil {
		s.run.Process.Kill()
		await(s.run)
		s.run = nil
	}
}

// Stop ends the server as SIGTERM does, and waits until it has ended.
func (s *Server) Stop() {
	if s.run != nil {
		s.run.Process.Signal(syscall.SIGTERM)
		await(s.run)
		s.run = nil
	}
}

// Await waits until the server has ended by itself.
func (s *Server) Await() {
	if s.run != nil {
		await(s.run)
		s.run = nil
	}
}

// Pid is the server's process, and 0 where it does not run.
func (s *Server) Pid() int {
	if s.run == nil {
		return 0
	}
	return s.run.Process.Pid
}

// Answers says whether JetStream answers: of a cluster, whether it has a leader.
func (s *Server) Answers() bool {
	nc, err := nats.Connect(s.URL, nats.Timeout(patience.Long))
	if err != nil {
		return false
	}
	defer nc.Close()
	js, err := nc.JetStream(nats.MaxWait(10 * time.Second))
	if err != nil {
		return false
	}
	_, err = js.AccountInfo()
	return err == nil
}

// URLs returns the addresses of the servers.
func URLs(servers []*Server) []string {
	var all []string
	for _, s := range servers {
		all = append(all, s.URL)
	}
	return all
}

// FreePorts returns n ports of 127.0.0.1 that nobody listens on. They stay held until this process ends, by sockets that do not
// listen. So the system gives them to nobody who asks for any port. A server that names one can listen on it, and can do so again
// after it was killed.
func FreePorts(n int) ([]int, error) {
	ports := make([]int, n)
	for i := range ports {
		var err error
		if ports[i], err = hold(); err != nil {
			return nil, fmt.Errorf("broker: no free port: %w", err)
		}
	}
	return ports, nil
}

// hold takes a free port. Linux lets another socket listen on it where both sockets have SO_REUSEADDR, which servers set.
func hold() (port int, err error) {
	fd, err := syscall.Socket(syscall.AF_INET, syscall.SOCK_STREAM|syscall.SOCK_CLOEXEC, 0)
	if err != nil {
		return 0, os.NewSyscallError("socket", err)
	}
	if err = syscall.SetsockoptInt(fd, syscall.SOL_SOCKET, syscall.SO_REUSEADDR, 1); err == nil {
		err = syscall.Bind(fd, &syscall.SockaddrInet4{Addr: [4]byte{127, 0, 0, 1}})
	}
	var name syscall.Sockaddr
	if err == nil {
		name, err = syscall.Getsockname(fd)
	}
	if err != nil {
		syscall.Close(fd)
		return 0, fmt.Errorf("127.0.0.1: %w", err)
	}
	return name.(*syscall.SockaddrInet4).Port, nil
}
