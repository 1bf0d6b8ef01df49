// Package natstest starts nats-server with JetStream for a test. What it starts ends with the test.
package natstest

import (
	"testing"
	"time"

	"github.com/nats-io/nats.go"

	"svid.example/go/v3/internal/broker"
	"svid.example/go/v3/internal/patience"
)

// Start starts one server, with more words on its command line, and waits until JetStream answers.
func Start(t testing.TB, more ...string) *broker.Server {
	t.Helper()
	s, err := broker.New(t.TempDir(), more...)
	if err != nil {
		t.Fatal(err)
	}
	start(t, s)
	return s
}

// Cluster starts n servers as a cluster, with more words on their command lines, and waits until JetStream has a leader.
func Cluster(t testing.TB, n int, more ...string) []*broker.Server {
	t.Helper()
	dirs := make([]string, n)
	for i := range dirs {
		dirs[i] = t.TempDir()
	}
	servers, err := broker.NewCluster(dirs, more...)
	if err != nil {
		t.Fatal(err)
	}
	start(t, servers...)
	return servers
}

func start(t testing.TB, servers ...*broker.Server) {
	t.Helper()
	for _, s := range servers {
		t.Cleanup(s.Kill)
		if err := s.Start(); err != nil {
			t.Fatal(err)
		}
	}
	for _, s := range servers {
		Await(t, "JetStream", s.Answers)
	}
}

// Connect connects as soon as a server lets it in, which a busy one may do late. The connection ends with the test.
func Connect(t testing.TB, servers string, options ...nats.Option) (c *nats.Conn) {
	t.Helper()
	Await(t, "a connection", func() (is bool) {
		var err error
		if c, err = nats.Connect(servers, append(options, nats.Timeout(patience.Long))...); err != nil {
			t.Log(err)
		}
		return err == nil
	})
	t.Cleanup(c.Close)
	return c
}

// JetStream asks a connection's server for what only an administrator may do.
func JetStream(t testing.TB, c *nats.Conn) nats.JetStreamContext {
	t.Helper()
	js, err := c.JetStream(nats.MaxWait(patience.Long / 4))
	if err != nil {
		t.Fatal(err)
	}
	return js
}

// Await asks every few milliseconds whether something is so, and ends the test where it is not in time.
func Await(t testing.TB, what string, so func() bool) {
	t.Helper()
	for look, end := patience.Looks(), time.Now().Add(patience.Long); !so(); look() {
		if time.Now().After(end) {
			t.Fatalf("waited %v for %s", patience.Long, what)
		}
	}
}
