package main

import (
	"context"
	"errors"
	"fmt"
	"math"
	"net"
	"net/http"
	"os"
	"strings"
	"sync"
	"syscall"
	"time"

	"svid.example/go/v3/svidhttp"
)

// An answerer is a server of one listener.
type answerer interface {
	Serve(net.Listener) error // until Shutdown or Close: http.ErrServerClosed then
	Shutdown(context.Context) error
	Close() error
}

// A served is a listener with the server behind it.
type served struct {
	name     string // of the option that has its address
	server   answerer
	listener net.Listener
}

// The umasks of the sockets. Connecting to one needs the right to write to it.
const (
	public  = 0o111 // all may connect, as to a port of loopback: the folder says who may reach it
	private = 0o177 // nothing for group and others
)

// listen binds the addresses, and begins to answer. The first is that of --listen.
func (s *sidecar) listen() ([]served, error) {
	var servers []served
	for _, each := range s.addresses() {
		l, err := bind(each.address, each.umask)
		if err != nil {
			for _, it := range servers {
				it.listener.Close()
			}
			return nil, err
		}
		servers = append(servers, served{each.name, each.server, bounded{l, each.unwatched, speaksHTTP1(each.server)}})
	}
	for _, each := range servers {
		go func(it served) {
			if err := it.server.Serve(it.listener); !errors.Is(err, http.ErrServerClosed) {
				s.fail(err)
			}
		}(each)
	}
	return servers, nil
}

// An answering address: where it is, and who may connect to it if it is a unix socket.
type answering struct {
	name    string
	address string
	umask   int
	server  answerer
	// unwatched: while a request is answered, the HTTP server does not look whether its client leaves. Who wants to know asks by withLeaving.
	unwatched bool
}

// addresses are those to answer on, in the order in which they end. So who asks for metrics or on the admin socket hears that
// the first one drains.
func (s *sidecar) addresses() []answering {
	checks := s.guard.Handler()
	if s.metrics != "" {
		checks = s.guard.WithoutMetrics()
	}
	all := []answering{{"listen", s.options.listen, public, s.server(checks), true}}
	if s.envoy != "" {
		byEnvoy := newGRPC(s.guard.Envoy(), s.log.Standard("envoy"))
		byEnvoy.base.WriteTimeout = s.answerWait()
		all = append(all, answering{"envoy", s.envoy, public, byEnvoy, false})
	}
	if s.metrics != "" {
		all = append(all, answering{"metrics", s.metrics, public, s.server(s.guard.Watched()), false})
	}
	if s.admin != "" {
		all = append(all, answering{"admin", "unix:" + s.admin, private, s.server(s.guard.AdminWith(s.reloaded)), false})
	}
	return all
}

// (Nothing reads a query. Without AllowQuerySemicolons package http would log an error for each one that has a semicolon.)
func (s *sidecar) server(handler http.Handler) *http.Server {
	return &http.Server{
		Handler: http.AllowQuerySemicolons(handler), ReadHeaderTimeout: headerWait, ReadTimeout: requestWait, WriteTimeout: s.answerWait(),
		IdleTimeout: idleWait, MaxHeaderBytes: svidhttp.MaxHeader, ErrorLog: s.log.Standard("http"), ConnContext: withLeaving,
	}
}

// speaksHTTP1 says whether a server does: that of Envoy's calls speaks HTTP/2.
func speaksHTTP1(server answerer) bool {
	_, is := server.(*http.Server)
	return is
}

// answerWait is how long an answer may take: the time begins before the request waits for the store or the disk.
func (s *sidecar) answerWait() time.Duration {
	if most := math.MaxInt64 - requestWait; time.Duration(s.wait) > most {
		return math.MaxInt64
	}
	return requestWait + time.Duration(s.wait)
}

// shutdown ends the servers, and lets requests that are under way end: first those that judge tokens, together.
func (s *sidecar) shutdown(servers []served) {
	ctx, cancel := context.WithTimeout(context.Background(), drainWait)
	defer cancel()
	end := func(it served) {
		if err := it.server.Shutdown(ctx); err != nil {
			s.log.Error("shutdown", err)
			it.server.Close()
		}
	}
	var judging sync.WaitGroup
	var others []served
	for _, each := range servers {
		if each.name != "listen" && each.name != "envoy" {
			others = append(others, each)
			continue
		}
		judging.Add(1)
		go func(it served) { defer judging.Done(); end(it) }(each)
	}
	judging.Wait()
	for _, each := range others {
		end(each)
	}
}

// bind listens on HOST:PORT, or on unix:PATH with this umask, whatever the process has. A
// socket that a killed process left is replaced: one that refuses connections. (One whose process is stopped, or has too many that
// wait, does not.)
func bind(address string, umask int) (net.Listener, error) {
	if !strings.HasPrefix(address, "unix:") {
		return net.Listen("tcp", address)
	}
	path := strings.TrimPrefix(address, "unix:")
	c, refused := net.DialTimeout("unix", path, time.Second)
	if refused == nil {
		c.Close()
		return nil, fmt.Errorf("%s: another process answers there", path)
	}
	if info, err := os.Lstat(path); err == nil && info.Mode()&os.ModeSocket != 0 {
		if !errors.Is(refused, syscall.ECONNREFUSED) {
			return nil, fmt.Errorf("%s: another process may have it: %w", path, refused)
		}
		if err := os.Remove(path); err != nil {
			return nil, err
		}
	}
	defer syscall.Umask(syscall.Umask(umask))
	return net.Listen("unix", path)
}

// notify tells systemd of a new state, where it started this process and wants to
// know (sd_notify).
func notify(state string) {
	name := os.Getenv("NOTIFY_SOCKET")
	if name == "" {
		return
	}
	if c, err := net.Dial("unixgram", name); err == nil {
		_ = c.SetDeadline(time.Now().Add(time.Second)) // Nobody waits for who does not read it.
		_, _ = c.Write([]byte(state))
		c.Close()
	}
}
