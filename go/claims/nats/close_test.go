package nats

import (
	"bufio"
	"context"
	"errors"
	"net"
	"strings"
	"testing"
	"time"

	client "github.com/nats-io/nats.go"

	"svid.example/go/v3/claims/claimstest"
	"svid.example/go/v3/internal/patience"
)

// A store that is closed while it connects leaves no connection: the client would keep it for good, and connect again.
func TestCloseWhileItConnects(t *testing.T) {
	t.Parallel()
	l, err := net.Listen("tcp", "127.0.0.1:0")
	if err != nil {
		t.Fatal(err)
	}
	defer l.Close()
	s, err := New(Options{Servers: []string{"nats://" + l.Addr().String()}, Name: "a", Terms: claimstest.Usual, Connect: []client.Option{client.Timeout(patience.Long)}})
	if err != nil {
		t.Fatal(err)
	}
	ctx, cancel := context.WithTimeout(context.Background(), patience.Long)
	defer cancel()
	opened, left := make(chan error, 1), make(chan error, 1)
	go func() { _, err := s.Open(ctx); opened <- err }()
	c, err := l.Accept() // A server that is slow to say who it is.
	if err != nil {
		t.Fatal(err)
	}
	defer c.Close()
	if err := s.Close(); err != nil {
		t.Fatal(err)
	}
	go func() {
		_, err := c.Write([]byte("INFO {\"server_id\":\"a\",\"version\":\"2.9.0\",\"proto\":1,\"headers\":true,\"max_payload\":1048576}\r\n"))
		for said := bufio.NewReader(c); err == nil; {
			var line string
			if line, err = said.ReadString('\n'); strings.HasPrefix(line, "PING") {
				_, err = c.Write([]byte("PONG\r\n"))
			}
		}
		left <- err
	}()
	for what, end := range map[string]chan error{"Open": opened, "the connection": left} {
		select {
		case err := <-end:
			if err == nil || what == "Open" && errors.Is(err, context.DeadlineExceeded) {
				t.Errorf("%s ends by %v", what, err)
			}
		case <-time.After(patience.Long):
			t.Fatalf("%s does not end", what)
		}
	}
}
