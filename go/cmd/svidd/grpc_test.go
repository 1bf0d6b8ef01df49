package main

import (
	"context"
	"errors"
	"io"
	"log"
	"net"
	"net/http"
	"os"
	"sync/atomic"
	"syscall"
	"testing"
	"time"

	"golang.org/x/net/http2"

	"svid.example/go/v3/internal/logtest"
	"svid.example/go/v3/internal/patience"
)

// A shortOf listener has no file descriptors, or no memory, for some connections.
type shortOf struct {
	net.Listener
	none atomic.Int32 // so many times yet
}

func (s *shortOf) Accept() (net.Conn, error) {
	if n := s.none.Add(-1); n >= 0 {
		faults := [...]error{syscall.EMFILE, syscall.ENFILE, syscall.ENOBUFS, syscall.ENOMEM}
		return nil, &net.OpError{Op: "accept", Net: "tcp", Err: os.NewSyscallError("accept4", faults[int(n)%len(faults)])}
	}
	return s.Listener.Accept()
}

// serveGRPC serves an answer to each call, and returns a function that connects.
func serveGRPC(t *testing.T, none int32) (s *grpcServer, connect func() *http2.ClientConn, ended chan error) {
	t.Helper()
	s = newGRPC(http.HandlerFunc(func(w http.ResponseWriter, r *http.Request) { w.WriteHeader(http.StatusNoContent) }), nil)
	l, err := net.Listen("tcp", "127.0.0.1:0")
	if err != nil {
		t.Fatal(err)
	}
	few := &shortOf{Listener: l}
	few.none.Store(none)
	ended = make(chan error, 1)
	go func() { ended <- s.Serve(bounded{Listener: few}) }()
	t.Cleanup(func() { s.Close() })
	return s, func() *http2.ClientConn {
		t.Helper()
		c, err := net.DialTimeout("tcp", l.Addr().String(), patience.Long)
		if err != nil {
			t.Fatal(err)
		}
		t.Cleanup(func() { c.Close() })
		client, err := new(http2.Transport).NewClientConn(c)
		if err != nil {
			t.Fatal(err)
		}
		return client
	}, ended
}

// wantAnswer wants one on a connection.
func wantAnswer(t *testing.T, on *http2.ClientConn) {
	t.Helper()
	ctx, cancel := context.WithTimeout(context.Background(), patience.Long)
	defer cancel()
	request, err := http.NewRequestWithContext(ctx, http.MethodPost, "http://a/", nil)
	if err != nil {
		t.Fatal(err)
	}
	answer, err := on.RoundTrip(request)
	if err != nil {
		t.Fatal(err)
	}
	answer.Body.Close()
	if answer.StatusCode != http.StatusNoContent {
		t.Fatal(answer.Status)
	}
}

// A connection of Envoy takes any number of calls, one after the other: it may stay for weeks.
func TestAConnectionTakesManyCalls(t *testing.T) {
	t.Parallel()
	_, connect, _ := serveGRPC(t, 0)
	for on, i := connect(), 0; i < 4*mostStreams; i++ {
		wantAnswer(t, on)
	}
}

// Where there are no file descriptors for a while, or no memory, a server goes on once there are some, and ends when it is to.
func TestTooManyOpenFilesEndNoServer(t *testing.T) {
	t.Parallel()
	l, err := net.Listen("tcp", "127.0.0.1:0")
	if err != nil {
		t.Fatal(err)
	}
	few := &shortOf{Listener: l}
	few.none.Store(4)
	byHTTP := &http.Server{Handler: http.NotFoundHandler(), ErrorLog: log.New(io.Discard, "", 0)}
	go func() { _ = byHTTP.Serve(bounded{Listener: few}) }()
	t.Cleanup(func() { byHTTP.Close() })
	client := http.Client{Timeout: patience.Long, Transport: &http.Transport{DisableKeepAlives: true}}
	answer, err := client.Get("http://" + l.Addr().String())
	if err != nil {
		t.Fatal(err)
	}
	answer.Body.Close()

	s, connect, ended := serveGRPC(t, 4)
	wantAnswer(t, connect())
	s.Close()
	select {
	case err := <-ended:
		if !errors.Is(err, http.ErrServerClosed) {
			t.Errorf("at its end: %v", err)
		}
	case <-time.After(patience.Long):
		t.Fatal("the server does not end")
	}
}

// A connection that has ended leaves nothing at the server.
func TestConnectionsThatEndedAreForgotten(t *testing.T) {
	t.Parallel()
	s, connect, _ := serveGRPC(t, 0)
	for i := 0; i < 20; i++ {
		on := connect()
		wantAnswer(t, on)
		on.Close()
	}
	logtest.Await(t, "the connections to be forgotten", func() bool {
		s.mu.Lock()
		defer s.mu.Unlock()
		return len(s.conns) == 0
	})
}

// Whatever a connection of Envoy takes, it takes within a minute, or it ends: who reads nothing holds nothing for long.
func TestAConnectionThatTakesNothingEnds(t *testing.T) {
	for fault, written := range map[error]int{nil: 3, os.ErrDeadlineExceeded: 0} {
		c := &slowConn{fault: fault}
		w := &writing{c}
		n, err := w.Write([]byte("abc"))
		if due := time.Until(c.until); due <= 0 || due > requestWait {
			t.Errorf("a write may take %v", due)
		}
		if n != written || err != fault || c.closed != (fault != nil) {
			t.Errorf("%v: %d bytes are written, %v, and it is closed: %v", fault, n, err, c.closed)
		}
	}
}

// A slowConn fails at each write, or takes all.
type slowConn struct {
	net.Conn
	fault  error
	until  time.Time
	closed bool
}

func (c *slowConn) SetWriteDeadline(at time.Time) error { c.until = at; return nil }
func (c *slowConn) Close() error                        { c.closed = true; return nil }
func (c *slowConn) Write(b []byte) (int, error) {
	if c.fault != nil {
		return 0, c.fault
	}
	return len(b), nil
}
