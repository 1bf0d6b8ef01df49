package workload

import (
	"context"
	"errors"
	"io"
	"net"
	"net/http"
	"net/http/httptest"
	"path/filepath"
	"reflect"
	"strings"
	"testing"
	"time"

	"golang.org/x/net/http2"
	"golang.org/x/net/http2/h2c"

	"svid.example/go/v3/internal/agenttest"
	"svid.example/go/v3/internal/patience"
)

// client is that of an address.
func client(t *testing.T, address string) *Client {
	t.Helper()
	a, err := ParseAddress(address)
	if err != nil {
		t.Fatal(err)
	}
	return NewClient(a, patience.Long)
}

// watch begins to watch, and returns what is given, and why it ended.
func watch(t *testing.T, address string) (given chan map[string][]byte, ended chan error) {
	t.Helper()
	ctx, cancel := context.WithTimeout(context.Background(), patience.Long)
	given, ended = make(chan map[string][]byte), make(chan error, 1)
	go func() {
		ended <- client(t, address).WatchBundles(ctx, func(bundles map[string][]byte) {
			select {
			case given <- bundles:
			case <-ctx.Done():
			}
		})
		close(given)
	}()
	t.Cleanup(func() {
		cancel()
		for range given {
		}
	})
	return given, ended
}

func wantBundles(t *testing.T, given chan map[string][]byte, want map[string]string) {
	t.Helper()
	got := map[string]string{}
	for name, bundle := range <-given {
		got[name] = string(bundle)
	}
	if !reflect.DeepEqual(got, want) {
		t.Errorf("%q, want %q", got, want)
	}
}

// The server of gRPC's own library, over a unix socket and over TCP.
func TestEachMessageIsGiven(t *testing.T) {
	for _, agent := range []*agenttest.Agent{agenttest.Start(t), agenttest.StartTCP(t)} {
		one := map[string]string{"spiffe://example.org": `{"keys":[]}`}
		agent.Give(t, one)
		given, ended := watch(t, agent.Address)
		wantBundles(t, given, one)
		for _, next := range []map[string]string{
			{"spiffe://example.org": "a", "spiffe://example.com": ""},
			{},
			{"": strings.Repeat("b", 5<<20), "spiffe://example.net": strings.Repeat("c", 5<<20)}, // many frames of HTTP/2
		} {
			agent.Give(t, next)
			wantBundles(t, given, next)
		}
		agent.Kill(t)
		if err := <-ended; err == nil {
			t.Error("the agent is gone, and nothing is wrong")
		}
	}
}

func TestAnEndSaysWhy(t *testing.T) {
	agent := agenttest.Start(t)
	for _, one := range []struct {
		code, why, want string
		forGood         bool
	}{
		{"PERMISSION_DENIED", "no identity issued", "it has no identity for this process (PermissionDenied): no identity issued: register it as a workload", false},
		{"UNAVAILABLE", "100% bad: é", "it is not ready (Unavailable): 100% bad: é", false},
		{"INVALID_ARGUMENT", "no", "it refuses the call itself (InvalidArgument): no", true},
		{"INTERNAL", "x", "it answers with code 13 of gRPC: x", false},
	} {
		wantEnd := func(ended chan error) {
			t.Helper()
			if err := <-ended; err == nil || err.Error() != one.want || errors.Is(err, ErrForGood) != one.forGood {
				t.Errorf("%s: %v, want %q", one.code, err, one.want)
			}
		}
		agent.Give(t, map[string]string{"spiffe://example.org": "a"})
		given, ended := watch(t, agent.Address)
		<-given
		agent.Refuse(t, one.code, one.why) // The status stands behind a message,
		wantEnd(ended)
		_, ended = watch(t, agent.Address) // and here behind none.
		wantEnd(ended)
	}
}

func TestTheContextEndsIt(t *testing.T) {
	agent := agenttest.Start(t)
	agent.Give(t, map[string]string{"a": "b"})
	ctx, cancel := context.WithCancel(context.Background())
	err := client(t, agent.Address).WatchBundles(ctx, func(map[string][]byte) { cancel() })
	if !errors.Is(err, context.Canceled) {
		t.Errorf("%v", err)
	}
}

// ends wants a call to end with an error that has this text, which says that the server can be asked again.
func ends(t *testing.T, what string, c *Client, want string) {
	t.Helper()
	ctx, cancel := context.WithTimeout(context.Background(), patience.Long)
	defer cancel()
	err := c.WatchBundles(ctx, func(map[string][]byte) {})
	if err == nil || !strings.Contains(err.Error(), want) || errors.Is(err, ErrForGood) || ctx.Err() != nil {
		t.Errorf("%s: %v, want %q", what, err, want)
	}
}

// A server that says nothing is left after the limit. The next call has a connection of its own.
func TestASilentServer(t *testing.T) {
	const limit, want = 200 * time.Millisecond, "it is silent: no bundles came within 200ms"
	agent := agenttest.Start(t)
	c := client(t, agent.Address)
	c.limit = limit
	ends(t, "one of gRPC without bundles", c, want)
	agent.Freeze(t)
	ends(t, "one that is frozen", c, want)
	agent.Thaw(t)
	c.limit = patience.Long
	agent.Give(t, map[string]string{"a": "b"})
	ctx, cancel := context.WithTimeout(context.Background(), patience.Long)
	defer cancel()
	err := c.WatchBundles(ctx, func(bundles map[string][]byte) {
		if string(bundles["a"]) == "b" {
			cancel()
		}
	})
	if !errors.Is(err, context.Canceled) {
		t.Errorf("the call behind them: %v", err)
	}

	for what, begin := range map[string]string{
		"one that sends headers alone":     "",
		"one that begins a head":           "\x00",
		"one that ends a head":             "\x00\x00\x00\x00\x08",
		"one that begins a message":        "\x00\x00\x00\x00\x08\x0a\x06\x0a\x01a",
		"one that begins the second":       "\x00\x00\x00\x00\x08\x0a\x06\x0a\x01a\x12\x01b\x00",
		"one that is within the second":    "\x00\x00\x00\x00\x08\x0a\x06\x0a\x01a\x12\x01b\x00\x00\x00\x00\x08\x0a",
		"one whose first message is empty": "\x00\x00\x00\x00\x00\x00\x00",
	} {
		server := httptest.NewUnstartedServer(nil)
		server.Config.Handler = h2c.NewHandler(http.HandlerFunc(func(w http.ResponseWriter, r *http.Request) {
			w.Header().Set("Content-Type", "application/grpc")
			io.WriteString(w, begin)
			w.(http.Flusher).Flush()
			<-r.Context().Done()
		}), &http2.Server{})
		server.Start()
		c := client(t, "tcp://"+server.Listener.Addr().String())
		c.limit = limit
		ends(t, what, c, want)
		server.Close()
	}

	deaf, err := net.Listen("tcp", "127.0.0.1:0")
	if err != nil {
		t.Fatal(err)
	}
	defer deaf.Close()
	c = client(t, "tcp://"+deaf.Addr().String())
	c.limit = limit
	ends(t, "one that takes no connection", c, want)
	conn, err := deaf.Accept()
	if err != nil {
		t.Fatal(err)
	}
	defer conn.Close()
	if err := conn.SetDeadline(time.Now().Add(patience.Long)); err != nil {
		t.Fatal(err)
	}
	if _, err := io.ReadAll(conn); err != nil {
		t.Errorf("the connection is still there: %v", err)
	}
}

// Between two messages a server may be silent for longer than the limit.
func TestAServerWithoutNews(t *testing.T) {
	agent := agenttest.Start(t)
	one, two := map[string]string{"a": "b"}, map[string]string{"a": "c"}
	agent.Give(t, one)
	c := client(t, agent.Address)
	c.limit = 500 * time.Millisecond
	ctx, cancel := context.WithTimeout(context.Background(), patience.Long)
	defer cancel()
	given, news := 0, make(chan bool)
	watch := func() error {
		return c.WatchBundles(ctx, func(bundles map[string][]byte) {
			if given++; given == 1 {
				time.AfterFunc(3*c.limit, func() {
					defer close(news)
					agent.Give(t, two)
				})
				return
			}
			if string(bundles["a"]) != "c" {
				t.Errorf("%q", bundles)
			}
			cancel()
		})
	}
	err := watch()
	for given == 0 && ctx.Err() == nil { // (on a busy machine the first message may come too late)
		err = watch()
	}
	if given == 0 {
		t.Fatal(err)
	}
	<-news
	if !errors.Is(err, context.Canceled) || given != 2 {
		t.Errorf("%d messages: %v", given, err)
	}
}

// A server that has given bundles is silent until they change. Whether it is still there, it is asked after a while.
func TestAServerThatIsGoneIsMissed(t *testing.T) {
	agent := agenttest.Start(t)
	agent.Give(t, map[string]string{"a": "b"})
	c := client(t, agent.Address)
	c.idle, c.limit = time.Second, 500*time.Millisecond
	ctx, cancel := context.WithTimeout(context.Background(), patience.Long)
	defer cancel()
	err := c.WatchBundles(ctx, func(map[string][]byte) { agent.Freeze(t) })
	if err == nil || ctx.Err() != nil {
		t.Errorf("%v", err)
	}
}

func TestNobodyAnswers(t *testing.T) {
	err := client(t, "unix://"+filepath.Join(t.TempDir(), "agent.sock")).WatchBundles(context.Background(), nil)
	if err == nil || !strings.Contains(err.Error(), "no such file") {
		t.Errorf("%v", err)
	}
}

// Servers that do as none of gRPC does.
func TestBadServers(t *testing.T) {
	good := func(w http.ResponseWriter) { w.Header().Set("Content-Type", "application/grpc") }
	ok := func(w http.ResponseWriter) { w.Header().Set(http.TrailerPrefix+"Grpc-Status", "0") }
	for what, one := range map[string]struct {
		answer func(w http.ResponseWriter)
		want   string
	}{
		"a page":                {func(w http.ResponseWriter) { io.WriteString(w, "hello") }, "no gRPC is served there"},
		"an error of HTTP":      {func(w http.ResponseWriter) { good(w); w.WriteHeader(404) }, "it answers 404"},
		"no status":             {func(w http.ResponseWriter) { good(w) }, "without a status"},
		"a status that is none": {func(w http.ResponseWriter) { good(w); w.Header().Set("Grpc-Status", "x") }, "without a status"},
		"an end":                {func(w http.ResponseWriter) { good(w); ok(w) }, "it has ended the stream"},
		"a byte of a head":      {func(w http.ResponseWriter) { good(w); io.WriteString(w, "\x00"); ok(w) }, "unexpected EOF"},
		"half a head":           {func(w http.ResponseWriter) { good(w); io.WriteString(w, "\x00\x00\x00"); ok(w) }, "unexpected EOF"},
		"half a message":        {func(w http.ResponseWriter) { good(w); io.WriteString(w, "\x00\x00\x00\x00\x09\x0a"); ok(w) }, "unexpected EOF"},
		"a compressed message":  {func(w http.ResponseWriter) { good(w); io.WriteString(w, "\x01\x00\x00\x00\x00") }, "compressed"},
		"a great message":       {func(w http.ResponseWriter) { good(w); io.WriteString(w, "\x00\x01\x00\x00\x01") }, "of 16777217 bytes"},
		"the greatest, cut":     {func(w http.ResponseWriter) { good(w); io.WriteString(w, "\x00\x01\x00\x00\x00a"); ok(w) }, "unexpected EOF"},
		"a great status":        {func(w http.ResponseWriter) { good(w); w.Header().Set("Grpc-Message", strings.Repeat("a", 1<<17)) }, "COMPRESSION_ERROR"},
		"a bad message":         {func(w http.ResponseWriter) { good(w); io.WriteString(w, "\x00\x00\x00\x00\x02\x0a\x09") }, "no JWTBundlesResponse"},
	} {
		server := httptest.NewUnstartedServer(nil)
		server.Config.Handler = h2c.NewHandler(http.HandlerFunc(func(w http.ResponseWriter, r *http.Request) { one.answer(w) }), &http2.Server{})
		server.Start()
		_, ended := watch(t, "tcp://"+server.Listener.Addr().String())
		if err := <-ended; err == nil || !strings.Contains(err.Error(), one.want) || errors.Is(err, ErrForGood) {
			t.Errorf("%s: %v, want %q", what, err, one.want)
		}
		server.Close()
	}
	silent, err := net.Listen("tcp", "127.0.0.1:0")
	if err != nil {
		t.Fatal(err)
	}
	defer silent.Close()
	go func() {
		for c, err := silent.Accept(); err == nil; c, err = silent.Accept() {
			c.Close()
		}
	}()
	_, ended := watch(t, "tcp://"+silent.Addr().String())
	if err := <-ended; err == nil {
		t.Error("a server that hangs up answered")
	}
}

func TestMessages(t *testing.T) {
	for message, want := range map[string]map[string][]byte{
		"":                           {},
		"\x0a\x06\x0a\x01a\x12\x01b": {"a": []byte("b")},
		"\x0a\x06\x12\x01b\x0a\x01a": {"a": []byte("b")}, // in any order
		"\x0a\x03\x0a\x01a":          {"a": nil},
		"\x0a\x00":                   {"": nil},
		"\x0a\x06\x0a\x01a\x12\x01b\x0a\x06\x0a\x01a\x12\x01c": {"a": []byte("c")}, // the last one counts
		"\x10\x07\x1a\x01x\x0a\x08\x0a\x01a\x12\x01b\x18\x01":  {"a": []byte("b")}, // fields that nobody knows
	} {
		if got, err := readBundles([]byte(message)); err != nil || !reflect.DeepEqual(got, want) {
			t.Errorf("%q: %q %v, want %q", message, got, err, want)
		}
	}
	for _, bad := range []string{"\x0a", "\x0a\x02a", "\x00", "\x0a\x02\x0a\x05", "\x0c", "\x0b\x0a"} {
		if got, err := readBundles([]byte(bad)); err == nil {
			t.Errorf("%q: %q", bad, got)
		}
	}
}

func FuzzMessage(f *testing.F) {
	f.Add([]byte("\x0a\x06\x0a\x01a\x12\x01b"))
	f.Fuzz(func(t *testing.T, message []byte) {
		total := 0
		bundles, err := readBundles(message)
		for name, bundle := range bundles {
			total += len(name) + len(bundle)
		}
		if err == nil && total > len(message) {
			t.Errorf("%d bytes of bundles in %d", total, len(message))
		}
	})
}

func TestAddresses(t *testing.T) {
	for text, want := range map[string]Address{
		"unix:///run/spire/agent.sock": {"unix", "/run/spire/agent.sock"},
		"unix:/run/agent.sock":         {"unix", "/run/agent.sock"},
		"tcp://127.0.0.1:8081":         {"tcp", "127.0.0.1:8081"},
		"tcp://[::1]:8081":             {"tcp", "[::1]:8081"},
	} {
		if got, err := ParseAddress(text); got != want || err != nil {
			t.Errorf("%s: %v %v", text, got, err)
		}
	}
	for _, bad := range []string{"", "/run/agent.sock", "unix:", "unix://", "unix:run/agent.sock", "unix://host/agent.sock?a", "unix:///a#b",
		"tcp://127.0.0.1", "tcp://localhost:1", "tcp://127.0.0.1:0", "tcp://127.0.0.1:65536", "tcp://127.0.0.1:1/", "tcp://u@127.0.0.1:1",
		"tcp://127.0.0.1:1?a", "tcp://127.0.0.1:1#a", "tcp://127.0.0.1:1?", "tcp://127.0.0.1:1#", "tcp://127.0.0.1:1/#", "tcp://@127.0.0.1:1",
		"tcp://u:p@127.0.0.1:1", "tcp:///127.0.0.1:1", "tcp://127.0.0.1:1:2", "tcp://[::1]", "tcp://[::1%25lo]:1", "tcp://::1:1", "http://127.0.0.1:1", "tcp:127.0.0.1:1"} {
		if got, err := ParseAddress(bad); err == nil {
			t.Errorf("%q is %v", bad, got)
		}
	}
}
