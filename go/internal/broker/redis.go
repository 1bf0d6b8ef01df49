package broker

import (
	"bufio"
	"fmt"
	"net"
	"os/exec"
	"path/filepath"
	"strings"
	"syscall"
	"time"

	"svid.example/go/v3/internal/patience"
)

// A Redis is one redis-server, which keeps what it has answered. It keeps its port and its folder when it is killed and started
// again. It is for one goroutine at a time.
type Redis struct {
	process
	URL, Address, Dir string
	args              []string
	secure            bool
}

// NewRedis returns a server that does not run yet, with what it keeps in dir, which must be there.
func NewRedis(dir string, more ...string) (*Redis, error) {
	ports, err := FreePorts(1)
	if err != nil {
		return nil, err
	}
	address := fmt.Sprintf("127.0.0.1:%d", ports[0])
	args := []string{"--bind", "127.0.0.1", "--port", fmt.Sprint(ports[0]), "--dir", dir, "--logfile", filepath.Join(dir, "log"),
		"--appendonly", "yes", "--appendfsync", "always", "--save", "", "--repl-diskless-sync-delay", "0"}
	return &Redis{URL: "redis://" + address, Address: address, Dir: dir, args: append(args, more...)}, nil
}

// Secure lets the server speak TLS alone, with this certificate, to those with one of these authorities.
func (s *Redis) Secure(ca, cert, key string) {
	_, port, _ := net.SplitHostPort(s.Address)
	s.args = append(s.args, "--port", "0", "--tls-port", port, "--tls-ca-cert-file", ca, "--tls-cert-file", cert, "--tls-key-file", key)
	s.URL, s.secure = "rediss://"+s.Address, true
}

// Start starts the server, for the first time or again. It may take a while until it Answers.
func (s *Redis) Start() error {
	if err := s.start(exec.Command("redis-server", s.args...)); err != nil {
		return fmt.Errorf("broker: %w: install Debian's redis-server", err)
	}
	return nil
}

// Stop ends the server as SIGTERM does, and waits until it has ended.
func (s *Redis) Stop() { s.end(syscall.SIGTERM) }

// Answers says whether the server answers, or, with TLS, whether it takes connections.
func (s *Redis) Answers() bool {
	if s.secure {
		c, err := net.DialTimeout("tcp", s.Address, patience.Long)
		if err == nil {
			c.Close()
		}
		return err == nil
	}
	answer, err := s.Do("PING")
	return err == nil && answer == "+PONG"
}

// Do sends one command, and returns the first line of the answer.
func (s *Redis) Do(words ...string) (string, error) {
	c, err := net.DialTimeout("tcp", s.Address, patience.Long)
	if err != nil {
		return "", err
	}
	defer c.Close()
	c.SetDeadline(time.Now().Add(patience.Long))
	var text strings.Builder
	fmt.Fprintf(&text, "*%d\r\n", len(words))
	for _, w := range words {
		fmt.Fprintf(&text, "$%d\r\n%s\r\n", len(w), w)
	}
	if _, err := c.Write([]byte(text.String())); err != nil {
		return "", err
	}
	line, err := bufio.NewReader(c).ReadString('\n')
	line = strings.TrimRight(line, "\r\n")
	if err == nil && strings.HasPrefix(line, "-") {
		err = fmt.Errorf("redis: %s", line)
	}
	return line, err
}
