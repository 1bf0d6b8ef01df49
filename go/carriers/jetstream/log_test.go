package jetstream

import (
	"context"
	"strings"
	"syscall"
	"testing"

	"github.com/nats-io/nats.go"

	"svid.example/go/v3/carriers"
	"svid.example/go/v3/internal/broker"
	"svid.example/go/v3/internal/logtest"
	"svid.example/go/v3/internal/natstest"
)

// A machine is a NATS server of a test that all carriers pass.
type machine struct {
	*broker.Server
	dir string
}

func (s *machine) Join(ctx context.Context, o logtest.Options, sink carriers.Sink) (carriers.Group, error) {
	url := s.URL
	if o.Address != "" {
		url = "nats://" + o.Address
	}
	return Join(ctx, Options{Servers: []string{url}, Name: o.Name, TTL: o.Keep, Log: o.Log,
		Connect: []nats.Option{nats.DontRandomize()}}, sink)
}

func (s *machine) Address() string { return strings.TrimPrefix(s.URL, "nats://") }

func (s *machine) Start(t testing.TB) {
	t.Helper()
	if err := s.Server.Start(); err != nil {
		t.Fatal(err)
	}
	logtest.Await(t, "JetStream", s.Answers)
}

func (s *machine) Kill(testing.TB)   { s.Server.Kill() }
func (s *machine) Stop(testing.TB)   { s.Server.Stop() }
func (s *machine) Pause(testing.TB)  { syscall.Kill(s.Pid(), syscall.SIGSTOP) }
func (s *machine) Resume(testing.TB) { syscall.Kill(s.Pid(), syscall.SIGCONT) }
func (s *machine) Lose([]byte)       {}

// Remove is of no use: no setting of the bucket lets a value in the midst be removed.
func (s *machine) Remove(testing.TB, string, uint64) {}

func (s *machine) Garbage(t testing.TB, name string) int {
	js := s.stream(t)
	for _, key := range []string{"c.garbage", "u.garbage", "x"} {
		if _, err := js.Publish("$KV."+name+"."+key, []byte("garbage")); err != nil {
			t.Fatal(err)
		}
	}
	return 3
}

func (s *machine) stream(t testing.TB) nats.JetStreamContext {
	t.Helper()
	return natstest.JetStream(t, natstest.Connect(t, s.URL))
}

func (s *machine) Copy(t testing.TB) func() {
	t.Helper()
	return logtest.Copied(t, s.dir, s.Server.Stop, s.Server.Kill, s.Start)
}

func (s *machine) Destroy(t testing.TB, name string) {
	if err := s.stream(t).DeleteStream("KV_" + name); err != nil {
		t.Fatal(err)
	}
}

// NATS passes the tests of all carriers. Those of values that someone removes are in group_test.go, since an operator can remove
// the first ones alone.
func TestLog(t *testing.T) {
	t.Parallel()
	dir := t.TempDir()
	server, err := broker.New(dir)
	if err != nil {
		t.Fatal(err)
	}
	t.Cleanup(server.Kill)
	s := &machine{server, dir}
	s.Start(t)
	logtest.Run(t, s, "Removed")
}
