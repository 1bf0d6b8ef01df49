package main

import (
	"context"
	"errors"
	"log"
	"net"
	"net/http"
	"sync"
	"sync/atomic"
	"time"

	"golang.org/x/net/http2"

	"svid.example/go/v3/svidhttp"
)

const (
	// mostStreams is how many calls a connection may have under way. An Envoy that has more opens another connection.
	mostStreams = 256
	// mostMetadata is how many bytes the headers of a call itself may have: those of the request are in its message.
	mostMetadata = 1 << 14
	// mostUnread is how many bytes of messages a connection may send that no call has read yet. With their headers, that is less
	// than a bounded connection may send.
	mostUnread = 2 * svidhttp.MaxHeader
	// scarcePause is how long a server that has no file descriptor for a connection waits for one.
	scarcePause = 20 * time.Millisecond
	// tellAgain is how often the server tells connections to end, while they do not.
	tellAgain = 100 * time.Millisecond
)

// A grpcServer answers gRPC: HTTP/2 without TLS, from the first byte of a connection on. The HTTP/2 is that of golang.org/x/net.
type grpcServer struct {
	handler http.Handler
	base    *http.Server  // its limits of time are those of each call
	http2   *http2.Server // which ends its connections when base shuts down

	mu       sync.Mutex // guards the fields below
	closing  bool
	listener net.Listener
	conns    map[net.Conn]bool
	ended    sync.WaitGroup // of the connections
}

func newGRPC(handler http.Handler, errors *log.Logger) *grpcServer {
	s := &grpcServer{handler: handler, conns: map[net.Conn]bool{},
		base: &http.Server{ReadTimeout: headerWait, WriteTimeout: requestWait, MaxHeaderBytes: mostMetadata, ErrorLog: errors},
		http2: &http2.Server{MaxConcurrentStreams: mostStreams, IdleTimeout: idleWait, MaxReadFrameSize: 1 << 14,
			MaxUploadBufferPerConnection: mostUnread, MaxUploadBufferPerStream: 1 << 16},
	}
	if err := http2.ConfigureServer(s.base, s.http2); err != nil {
		panic(err) // (only ciphers of TLS could be wrong)
	}
	return s
}

// Serve accepts connections. Where the process has no file descriptors left, it waits for some, as package http does.
func (s *grpcServer) Serve(l net.Listener) error {
	s.mu.Lock()
	s.listener = l
	s.mu.Unlock()
	for {
		c, err := l.Accept()
		if err == nil {
			go s.serve(&writing{c})
			continue
		}
		if s.isClosing() {
			return http.ErrServerClosed
		}
		var scarce interface{ Temporary() bool }
		if !errors.As(err, &scarce) || !scarce.Temporary() {
			return err
		}
		time.Sleep(scarcePause)
	}
}

func (s *grpcServer) isClosing() bool {
	s.mu.Lock()
	defer s.mu.Unlock()
	return s.closing
}

// serve answers the calls of a connection, until it ends.
func (s *grpcServer) serve(c net.Conn) {
	defer c.Close()
	s.mu.Lock()
	if s.closing {
		s.mu.Unlock()
		return
	}
	s.conns[c] = true
	s.ended.Add(1)
	s.mu.Unlock()
	defer func() {
		s.mu.Lock()
		delete(s.conns, c)
		s.mu.Unlock()
		s.ended.Done()
	}()
	s.http2.ServeConn(c, &http2.ServeConnOpts{BaseConfig: s.base, Handler: s.atMost(2*mostStreams, c)})
}

// atMost ends a connection that has so many calls under way: it takes them back and begins others, faster than they end
// (CVE-2023-44487). This version of HTTP/2 counts those alone that were not taken back.
func (s *grpcServer) atMost(most int64, c net.Conn) http.Handler {
	var running atomic.Int64
	return http.HandlerFunc(func(w http.ResponseWriter, r *http.Request) {
		defer running.Add(-1)
		if running.Add(1) > most {
			c.Close()
			return
		}
		s.handler.ServeHTTP(w, r)
	})
}

// Shutdown takes no more connections, lets the calls end that are under way, and waits for that until ctx ends.
func (s *grpcServer) Shutdown(ctx context.Context) error {
	s.stop()
	ended := make(chan struct{})
	go func() { defer close(ended); s.ended.Wait() }()
	again := time.NewTicker(tellAgain)
	defer again.Stop()
	for {
		if err := s.base.Shutdown(ctx); err != nil { // which tells the connections
			return err
		}
		select {
		case <-ended:
			return nil
		case <-ctx.Done():
			return ctx.Err()
		case <-again.C: // One that had just begun may not have heard it.
		}
	}
}

func (s *grpcServer) stop() {
	s.mu.Lock()
	defer s.mu.Unlock()
	if s.closing = true; s.listener != nil {
		s.listener.Close()
	}
}

// Close ends all connections at once.
func (s *grpcServer) Close() error {
	s.stop()
	s.mu.Lock()
	defer s.mu.Unlock()
	for c := range s.conns {
		c.Close()
	}
	return nil
}

// A writing connection ends where the client does not take what is written to it.
type writing struct{ net.Conn }

func (w *writing) Write(b []byte) (int, error) {
	err := w.Conn.SetWriteDeadline(time.Now().Add(requestWait))
	n := 0
	if err == nil {
		n, err = w.Conn.Write(b)
	}
	if err != nil {
		w.Conn.Close()
	}
	return n, err
}
