package nats

import (
	"context"
	"fmt"
	"os"
	"path/filepath"
	"strings"
	"sync"
	"syscall"
	"testing"
	"time"

	client "github.com/nats-io/nats.go"

	"svid.example/go/v3/claims"
	"svid.example/go/v3/claims/claimstest"
	"svid.example/go/v3/internal/broker"
	"svid.example/go/v3/internal/logtest"
	"svid.example/go/v3/internal/natstest"
	"svid.example/go/v3/internal/patience"
	"svid.example/go/v3/svid"
)

// compares lets a member wait at a new run of the server until another one of its test has ended the epoch.
func (s *Store) compares() { s.forRun.Store(int64(patience.Long)) }

func TestMain(m *testing.M) {
	waitNew, lookEvery = 2*time.Second, 0
	os.Exit(m.Run())
}

// A machine is a server of NATS that the suite uses.
type machine struct {
	*broker.Server
	dir     string
	emptied sync.Map // groups whose store was removed, by their names
}

func newMachine(t testing.TB) *machine { return newMachineWith(t, "") }

// newMachineWith starts a server with more lines in its configuration.
func newMachineWith(t testing.TB, config string) *machine {
	t.Helper()
	dir := t.TempDir()
	server, err := broker.New(dir, "-c", filepath.Join(dir, "nats.conf"))
	if err != nil {
		t.Fatal(err)
	}
	m := &machine{Server: server, dir: dir}
	m.setConfig(t, config)
	t.Cleanup(server.Kill)
	m.Start(t)
	return m
}

func (m *machine) setConfig(t testing.TB, config string) {
	t.Helper()
	if err := os.WriteFile(filepath.Join(m.dir, "nats.conf"), []byte(config+"\n"), 0o600); err != nil {
		t.Fatal(err)
	}
}

func (m *machine) Address() string { return strings.TrimPrefix(m.URL, "nats://") }

func (m *machine) Start(t testing.TB) {
	t.Helper()
	if m.Pid() == 0 {
		if err := m.Server.Start(); err != nil {
			t.Fatal(err)
		}
	}
	natstest.Await(t, "JetStream", m.Answers)
}

func (m *machine) Kill(testing.TB) { m.Server.Kill() }
func (m *machine) Stop(testing.TB) { m.Server.Stop() }

func (m *machine) Pause(t testing.TB) {
	t.Helper()
	syscall.Kill(m.Pid(), syscall.SIGSTOP)
	natstest.Await(t, "the server to stop", func() bool {
		threads, _ := filepath.Glob(fmt.Sprintf("/proc/%d/task/*/stat", m.Pid()))
		for _, file := range threads {
			text, _ := os.ReadFile(file)
			if _, rest, _ := strings.Cut(string(text), ") "); !strings.HasPrefix(rest, "T") {
				return false
			}
		}
		return len(threads) > 0
	})
}

func (m *machine) Resume(testing.TB) { syscall.Kill(m.Pid(), syscall.SIGCONT) }

func (m *machine) Copy(t testing.TB) (restore func()) {
	t.Helper()
	return logtest.Copied(t, m.dir, m.Server.Stop, m.Server.Kill, m.Start)
}

func (m *machine) Store(t testing.TB, o claimstest.Options) claims.Store {
	t.Helper()
	url := m.URL
	if o.Address != "" {
		url = "nats://" + o.Address
	}
	s := newStore(t, Options{Servers: []string{url}, Name: o.Name, Terms: o.Terms})
	s.forNew.Store(int64(waitNew / 20)) // (no member knows another store, where the test does not say so)
	if o.Compares {
		s.compares()
		if _, is := m.emptied.Load(o.Name); is { // (so another member of the test knows the store of before)
			s.forNew.Store(int64(patience.Long))
		}
	}
	return s
}

func newStore(t testing.TB, o Options) *Store {
	t.Helper()
	lines := &said{group: t.Name() + " " + o.Name}
	o.Log = func(event string, fields ...any) {
		lines.add(fmt.Sprintln(append([]any{event}, fields...)...))
		if strings.HasPrefix(event, "the epoch ended") {
			logs.Range(func(s, of any) bool {
				if of.(*said).group == lines.group {
					s.(*Store).forRun.Store(0)
					s.(*Store).forNew.Store(0)
				}
				return true
			})
		}
		if testing.Verbose() && os.Getenv("SVID_TEST_LOG") != "" {
			fmt.Fprintln(os.Stderr, append([]any{time.Now().Format("05.000"), t.Name(), event}, fields...)...)
		}
	}
	s, err := New(o)
	if err != nil {
		t.Fatal(err)
	}
	logs.Store(s, lines)
	t.Cleanup(func() { logs.Delete(s) })
	return s
}

// logs has the lines of each store's log.
var logs sync.Map

// A said is the lines of a log.
type said struct {
	group string // of a test, whose stores belong together
	mu    sync.Mutex
	lines []string
}

func (s *said) add(line string) {
	s.mu.Lock()
	defer s.mu.Unlock()
	s.lines = append(s.lines, line)
}

// logged is how many lines of a store's log have a text.
func logged(s *Store, text string) (n int) {
	it, _ := logs.Load(s)
	lines := it.(*said)
	lines.mu.Lock()
	defer lines.mu.Unlock()
	for _, line := range lines.lines {
		if strings.Contains(line, text) {
			n++
		}
	}
	return n
}

// adminAt does what an administrator can.
func adminAt(url string) (js client.JetStreamContext, done func(), err error) {
	nc, err := client.Connect(url, client.Timeout(patience.Long))
	if err != nil {
		return nil, nil, err
	}
	if js, err = nc.JetStream(client.MaxWait(patience.Long / 4)); err != nil {
		nc.Close()
	}
	return js, nc.Close, err
}

func admin(t testing.TB, url string) client.JetStreamContext {
	t.Helper()
	return natstest.JetStream(t, natstest.Connect(t, url))
}

func (m *machine) Empty(t testing.TB, name string) {
	t.Helper()
	m.emptied.Store(name, true)
	js := admin(t, m.URL)
	for _, ending := range endings {
		if err := js.DeleteStream("KV_" + name + "-claims" + ending); err != nil {
			t.Fatal(err)
		}
	}
}

// Lie puts what the stream takes of an entry.
func (m *machine) Lie(t testing.TB, name string, key svid.TokenKey, entry []byte) {
	t.Helper()
	js := admin(t, m.URL)
	subject := "$KV." + name + "-claims.c." + keyText(key)
	if len(entry) > int(most[ofClaims]) {
		if _, err := js.Publish(subject, entry); err == nil {
			t.Fatalf("an entry of %d bytes was taken", len(entry))
		}
		entry = entry[:most[ofClaims]]
	}
	if _, err := js.Publish(subject, entry); err != nil {
		t.Fatal(err)
	}
}

// What does something to the server runs beside what does not, and beside what ends the server. (An entry leaves by its age: TestEntriesStay has that.)
var (
	beside = []string{"Put", "Many", "Races", "Withdrawals", "Pages", "Expiry", "Past", "Terms", "TooLong", "LostAnswer", "Closed", "Load"}
	alone  = []string{"Liar", "Emptied", "EmptiedAndOpened", "ContextEnds", "ClosedMeanwhile"}
	again  = []string{"Killed", "Stopped", "PutBack", "ServerComesLater"}
)

func TestSuite(t *testing.T) {
	t.Parallel()
	claimstest.Run(t, newMachine(t), append(append([]string{"Expiry"}, alone...), again...)...)
}

func TestSuiteAlone(t *testing.T) {
	t.Parallel()
	claimstest.Run(t, newMachine(t), append(beside, again...)...)
}

func TestSuiteOfAServerThatEnds(t *testing.T) {
	t.Parallel()
	claimstest.Run(t, newMachine(t), append(beside, alone...)...)
}

func patient(t testing.TB) context.Context {
	ctx, cancel := context.WithTimeout(context.Background(), patience.Long)
	t.Cleanup(cancel)
	return ctx
}
