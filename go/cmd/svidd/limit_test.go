package main

import (
	"bufio"
	"bytes"
	"encoding/binary"
	"errors"
	"fmt"
	"io"
	"math"
	"net"
	"net/http"
	"os"
	"path/filepath"
	"strings"
	"syscall"
	"testing"
	"time"

	"svid.example/go/v3/guard"
	"svid.example/go/v3/internal/broker"
	"svid.example/go/v3/internal/natstest"
	"svid.example/go/v3/internal/patience"
)

// hasRead says whether svidd has read all that a connection over IPv4 has sent: neither end has a byte that waits (proc(5), /proc/net/tcp).
func (p *process) hasRead(c net.Conn) bool {
	p.t.Helper()
	here, there := inProc(c.LocalAddr()), inProc(c.RemoteAddr())
	all, err := os.ReadFile("/proc/net/tcp")
	if err != nil {
		p.t.Fatal(err)
	}
	ends := 0
	for _, line := range strings.Split(string(all), "\n") {
		row := strings.Fields(line)
		if len(row) < 5 || !(row[1] == here && row[2] == there || row[1] == there && row[2] == here) {
			continue
		}
		if row[4] != "00000000:00000000" {
			return false
		}
		ends++
	}
	return ends == 2
}

// inProc is an address as /proc/net/tcp has it: the bytes of the IP as a number of this machine, and the port.
func inProc(a net.Addr) string {
	of := a.(*net.TCPAddr)
	return fmt.Sprintf("%08X:%04X", binary.LittleEndian.Uint32(of.IP.To4()), of.Port)
}

// dial connects to svidd, and sends the beginning of a request.
func (p *process) dial(network, address, text string) net.Conn {
	p.t.Helper()
	c, err := net.Dial(network, address)
	if err != nil {
		p.t.Fatal(err)
	}
	p.t.Cleanup(func() { c.Close() })
	if err := c.SetDeadline(time.Now().Add(patience.Long)); err != nil {
		p.t.Fatal(err)
	}
	if _, err := io.WriteString(c, text); err != nil {
		p.t.Fatal(err)
	}
	return c
}

// answer reads one from a connection.
func (p *process) answer(r *bufio.Reader) *http.Response {
	p.t.Helper()
	got, err := http.ReadResponse(r, nil)
	if err != nil {
		p.t.Fatal(err)
	}
	if _, err := io.Copy(io.Discard, got.Body); err != nil {
		p.t.Fatal(err)
	}
	got.Body.Close()
	return got
}

// A client that sends chunks of one byte, each with a long extension, is not read for long, on each address.
func TestEndlessChunkExtensions(t *testing.T) {
	t.Parallel()
	admin, metrics := filepath.Join(t.TempDir(), "admin.sock"), freeAddress(t)
	p := start(t, bundleOption(bundleFile(t, example)), "--replay", "reuse", "--admin", admin, "--metrics", metrics)
	const most = 64 << 20 // what the buffers of a connection hold is less
	chunk := []byte("1;" + strings.Repeat("a", 4000) + "\r\nx\r\n")
	for _, row := range [][3]string{
		{"tcp", p.address, "GET /check"}, {"tcp", p.address, "GET /healthz"}, {"tcp", p.address, "GET /nothing"},
		{"unix", admin, "POST /withdraw"}, {"unix", admin, "POST /reload"}, {"tcp", metrics, "GET /readyz"}, {"tcp", metrics, "GET /check"},
	} {
		c := p.dial(row[0], row[1], row[2]+" HTTP/1.1\r\nHost: a\r\nTransfer-Encoding: chunked\r\n\r\n")
		sent := 0
		for sent < most {
			n, err := c.Write(chunk)
			if sent += n; err != nil {
				break
			}
		}
		if sent >= most {
			t.Errorf("%s: %d bytes are taken", row, sent)
		}
		c.Close()
	}
	p.want(token(t, "good", lasting), 200, "")
}

// Nothing needs the body of a request: the answer does not wait for it, and is the last one of its connection.
func TestABodyIsNotWaitedFor(t *testing.T) {
	p := start(t, bundleOption(bundleFile(t, example)), "--replay", "reuse")
	good := token(t, "good", lasting)
	for _, length := range []string{"Content-Length: 100000", "Content-Length: 100000000000", "Transfer-Encoding: chunked"} {
		for _, path := range []string{"/check", "/readyz", "/metrics"} {
			c := p.dial("tcp", p.address, "POST "+path+" HTTP/1.1\r\nHost: a\r\nAuthorization: Bearer "+good+"\r\n"+length+"\r\n\r\n")
			from := time.Now()
			if got := p.answer(bufio.NewReader(c)); got.StatusCode != 200 || !got.Close {
				t.Errorf("%s, %s: %d, close %v", length, path, got.StatusCode, got.Close)
			}
			if took := time.Since(from); took > 20*time.Second {
				t.Errorf("%s, %s: it took %v", length, path, took)
			}
			c.Close()
		}
	}
	// A body that comes is no request.
	c := p.dial("tcp", p.address, "POST /check HTTP/1.1\r\nHost: a\r\nContent-Length: 33\r\n\r\nGET /healthz HTTP/1.1\r\nHost: a\r\n\r\n")
	r := bufio.NewReader(c)
	if got := p.answer(r); got.StatusCode != 401 {
		t.Errorf("%d", got.StatusCode)
	}
	if rest, err := io.ReadAll(r); err != nil || len(rest) > 0 {
		t.Errorf("after the answer: %q, %v", rest, err)
	}
}

// The HTTP server answers OPTIONS * by itself, and with 200, which means that a token is good. Here it is the path of a request as another one, however
// its bytes come, and by whatever stands in front of it.
func TestOptionsOfTheServer(t *testing.T) {
	t.Parallel()
	admin, metrics := filepath.Join(t.TempDir(), "admin.sock"), freeAddress(t)
	p := start(t, bundleOption(bundleFile(t, example)), "--replay", "reuse", "--admin", admin, "--metrics", metrics)
	const request = "OPTIONS * HTTP/1.1\r\nHost: a\r\nAuthorization: Bearer a.b.c\r\n\r\n"
	for _, at := range [][2]string{{"tcp", p.address}, {"tcp", metrics}, {"unix", admin}} {
		for _, before := range []string{"", "GET /check HTTP/1.1\r\nHost: a\r\n\r\n", "POST /other HTTP/1.1\r\nHost: a\r\n\r\n\r\n", "POST /other HTTP/1.0\nHost: a\nConnection: keep-alive\n\n\r\r"} {
			for _, cut := range []int{0, 1, 8, 9, 10} {
				c := p.dial(at[0], at[1], before+request[:cut])
				r := bufio.NewReader(c)
				if before != "" {
					if got := p.answer(r); got.StatusCode == 200 || got.Close {
						t.Fatalf("%s: %q: %d", at, before, got.StatusCode)
					}
				}
				if _, err := io.WriteString(c, request[cut:]); err != nil {
					t.Fatal(err)
				}
				if got := p.answer(r); got.StatusCode != 404 {
					t.Errorf("%s: OPTIONS * behind %q, cut at %d: %d", at, before, cut, got.StatusCode)
				}
				c.Close()
			}
		}
	}
	// Nothing else is another request for that.
	one := token(t, "options", lasting)
	c := p.dial("tcp", p.address, "OPTIONS /check HTTP/1.1\r\nHost: a\r\nX: \"OPTIONS *\"\r\nX-Request-Id: OPTIONS_*\r\nAuthorization: Bearer "+one+"\r\n\r\n")
	if got := p.answer(bufio.NewReader(c)); got.StatusCode != 200 || got.Header.Get("X-Spiffe-Id") == "" {
		t.Errorf("OPTIONS /check: %d", got.StatusCode)
	}
}

// Only what stands at the beginning of a line is changed, however it is cut.
func TestAsterisks(t *testing.T) {
	for text, want := range map[string]string{
		"": "", "OPTIONS *": "OPTIONS /", "OPTIONS * HTTP/1.1\r\n\r\nOPTIONS * HTTP": "OPTIONS / HTTP/1.1\r\n\r\nOPTIONS / HTTP",
		" OPTIONS *": " OPTIONS *", "GET *\r\n": "GET *\r\n", "OPTIONSOPTIONS *": "OPTIONSOPTIONS *", "OPTIONS  *": "OPTIONS  *",
		"OPTION\nOPTIONS *": "OPTION\nOPTIONS /", "a: OPTIONS *\nOPTIONS *\n": "a: OPTIONS *\nOPTIONS /\n", "\r\n\r\rOPTIONS *": "\r\n\r\rOPTIONS /",
		"a\rOPTIONS *": "a\rOPTIONS *", "OPTIONS ?\nOPTIONS *": "OPTIONS ?\nOPTIONS /", "options *": "options *", "OPTIONS /check/*": "OPTIONS /check/*",
	} {
		for first := 0; first <= len(text); first++ {
			for second := first; second <= len(text); second++ {
				got, lines := []byte(text), asterisks{}
				lines.replace(got[:first])
				lines.replace(got[first:second])
				lines.replace(got[second:])
				if string(got) != want {
					t.Fatalf("%q, cut at %d and %d: %q, want %q", text, first, second, got, want)
				}
			}
		}
	}
}

// Many requests over one connection are no long one, also if they come before the answers are read.
func TestManyRequestsOfOneConnection(t *testing.T) {
	t.Parallel()
	p := start(t, bundleOption(bundleFile(t, example)), "--replay", "reuse", "--log", "errors")
	request := "GET /check HTTP/1.1\r\nHost: a\r\nAuthorization: Bearer " + strings.Repeat("a", 60_000) + "\r\n\r\n"
	const many = 3 * mostUnanswered / 60_000
	c := p.dial("tcp", p.address, "")
	go func() { _, _ = io.Copy(c, bytes.NewReader([]byte(strings.Repeat(request, many)))) }()
	r := bufio.NewReader(c)
	for i := 0; i < many; i++ {
		if got := p.answer(r); got.StatusCode != 401 || got.Close {
			t.Fatalf("request %d: %d, close %v", i, got.StatusCode, got.Close)
		}
	}
}

// A client that sends its headers slowly is cut off, on either address.
func TestAClientThatSendsItsHeadersSlowly(t *testing.T) {
	t.Parallel()
	admin := filepath.Join(t.TempDir(), "admin.sock")
	p := start(t, bundleOption(bundleFile(t, example)), "--replay", "reuse", "--admin", admin)
	from := time.Now()
	for _, c := range []net.Conn{
		p.dial("tcp", p.address, "GET /check HTTP/1.1\r\nHost:"),
		p.dial("unix", admin, "GET /check HTTP/1.1\r\nHost:"),
		p.dial("tcp", p.address, ""),
	} {
		if rest, err := io.ReadAll(c); err != nil {
			t.Errorf("%q, %v", rest, err)
		}
	}
	if took := time.Since(from); took < headerWait/2 {
		t.Errorf("they are cut off after %v", took)
	}
}

// The body of a request to the admin socket has a bound, and a file that is longer is not read.
func TestALongBodyOfTheAdminSocket(t *testing.T) {
	t.Parallel()
	admin := filepath.Join(t.TempDir(), "admin.sock")
	p := start(t, bundleOption(bundleFile(t, example)), "--replay", "reuse", "--admin", admin)
	for pad, want := range map[int]int{100_000: 200, 140_000: 400} {
		body := fmt.Sprintf(`{"key":"%064d","exp":4000000000,"pad":"%s"}`, 1, strings.Repeat("a", pad))
		c := p.dial("unix", admin, fmt.Sprintf("POST /withdraw HTTP/1.1\r\nHost: a\r\nContent-Length: %d\r\n\r\n%s", len(body), body))
		if got := p.answer(bufio.NewReader(c)); got.StatusCode != want {
			t.Errorf("%d bytes: %d", len(body), got.StatusCode)
		}
	}
}

// A client that leaves takes back a claim that was not put yet.
func TestAClientThatLeavesItsClaim(t *testing.T) {
	t.Parallel()
	server, url := stores["Redis"](t)
	redis := server.(*broker.Redis)
	p := members(t, 1, url, "--wait", "1h")[0]
	if err := syscall.Kill(redis.Pid(), syscall.SIGSTOP); err != nil {
		t.Fatal(err)
	}
	defer func() { _ = syscall.Kill(redis.Pid(), syscall.SIGCONT) }()
	p.await("the store to stop", func() bool { return isStopped(redis.Pid()) })
	// (Once as many calls are under way as may be, a claim waits for its turn. Until then a request puts its own.)
	n := 0
	p.await("the end of a claim whose client has left", func() bool {
		n++
		go p.check(token(t, fmt.Sprint("first", n), lasting))
		p.dial("tcp", p.address, "GET /check HTTP/1.1\r\nHost: a\r\nAuthorization: Bearer "+token(t, fmt.Sprint("left", n), lasting)+"\r\n\r\n").Close()
		return p.metric(`svidd_claims_total{outcome="failed"}`) != "0"
	})
}

// A client has left once it sends nothing more, or is not there. One that waits for its answer has not, whether it has sent more or not.
func TestWhetherAClientHasLeft(t *testing.T) {
	for _, network := range []string{"tcp", "unix"} {
		address := "127.0.0.1:0"
		if network == "unix" {
			address = filepath.Join(t.TempDir(), "socket")
		}
		l, err := net.Listen(network, address)
		if err != nil {
			t.Fatal(err)
		}
		defer l.Close()
		ends := map[string]func(c net.Conn) error{
			"it closes":          net.Conn.Close,
			"it sends no more":   func(c net.Conn) error { return c.(interface{ CloseWrite() error }).CloseWrite() },
			"it sends something": func(c net.Conn) error { _, err := io.WriteString(c, "a"); return err },
			"it waits":           func(net.Conn) error { return nil },
		}
		for what, end := range ends {
			client, err := net.Dial(network, l.Addr().String())
			if err != nil {
				t.Fatal(err)
			}
			defer client.Close()
			accepted, err := l.Accept()
			if err != nil {
				t.Fatal(err)
			}
			defer accepted.Close()
			c := boundedConnOf(accepted, true).(*boundedConn)
			if c.hasLeft() {
				t.Errorf("%s: the client has left before %s", network, what)
			}
			if err := end(client); err != nil {
				t.Fatal(err)
			}
			switch what {
			case "it waits":
			case "it sends something":
				got := make([]byte, 1)
				natstest.Await(t, "a byte", func() bool {
					n, _, _ := syscall.Recvfrom(fileOf(t, accepted), got, syscall.MSG_PEEK|syscall.MSG_DONTWAIT)
					return n == 1
				})
			default:
				natstest.Await(t, network+": "+what, c.hasLeft)
				continue
			}
			if c.hasLeft() {
				t.Errorf("%s: the client has left, and %s", network, what)
			}
			accepted.Close()
			if !c.hasLeft() {
				t.Errorf("%s: the connection is closed, and the client has not left", network)
			}
		}
	}
	here, there := net.Pipe()
	defer there.Close()
	if boundedConnOf(here, true).(*boundedConn).hasLeft() {
		t.Error("a connection that is no socket")
	}
}

// fileOf is the descriptor of a connection, which stays its own.
func fileOf(t *testing.T, c net.Conn) (fd int) {
	t.Helper()
	raw, err := c.(syscall.Conn).SyscallConn()
	if err != nil {
		t.Fatal(err)
	}
	if err := raw.Control(func(it uintptr) { fd = int(it) }); err != nil {
		t.Fatal(err)
	}
	return fd
}

// A request comes in any two parts, also where one byte is left in the HTTP server's buffer behind the first.
func TestARequestInTwoParts(t *testing.T) {
	t.Parallel()
	p := start(t, bundleOption(bundleFile(t, example)), "--replay", "reuse")
	request := "GET /check HTTP/1.1\r\nHost: a\r\nX-Pad: " + strings.Repeat("a", 5000) + "\r\nAuthorization: Bearer " + token(t, "parts", lasting) + "\r\n\r\n"
	for _, first := range []int{1, 4094, 4095, 4096, len(request) - 1} {
		c := p.dial("tcp", p.address, request[:first])
		p.await("the first part is read", func() bool { return p.hasRead(c) })
		if _, err := io.WriteString(c, request[first:]); err != nil {
			t.Fatal(err)
		}
		if got := p.answer(bufio.NewReader(c)); got.StatusCode != 200 {
			t.Errorf("%d bytes first: %d", first, got.StatusCode)
		}
	}
}

// Only the reads of one byte are passed over by which the HTTP server watches whether the client leaves, and only of connections that it is not to watch.
func TestAnUnwatchedConnection(t *testing.T) {
	for _, unwatched := range []bool{false, true} {
		here, there := net.Pipe()
		defer there.Close()
		c := boundedConnOf(here, unwatched)
		defer c.Close()
		go func() { _, _ = there.Write([]byte("abc")) }()
		if unwatched {
			for _, at := range []time.Time{{}, longAgo, {}} { // (as the HTTP server sets them around an answer)
				if err := c.SetReadDeadline(at); err != nil {
					t.Fatal(err)
				}
				if n, err := c.Read(make([]byte, 1)); n != 0 || err != nil {
					t.Errorf("with the deadline %v: %d %v", at, n, err)
				}
			}
		}
		got := make([]byte, 2)
		if n, err := c.Read(got); n != 2 || err != nil || string(got) != "ab" {
			t.Errorf("unwatched %v, two bytes: %q %d %v", unwatched, got, n, err)
		}
		if err := c.SetReadDeadline(time.Now().Add(patience.Long)); err != nil {
			t.Fatal(err)
		}
		if n, err := c.Read(got[:1]); n != 1 || err != nil || got[0] != 'c' {
			t.Errorf("unwatched %v, with a deadline: %q %d %v", unwatched, got, n, err)
		}
	}
}

// The HTTP server can end the read by which it watches a connection.
func TestAWatchedConnection(t *testing.T) {
	here, there := net.Pipe()
	defer there.Close()
	c := boundedConnOf(here, false)
	defer c.Close()
	ended := make(chan error, 1)
	go func() { _, err := c.Read(make([]byte, 1)); ended <- err }()
	if err := c.SetReadDeadline(longAgo); err != nil {
		t.Fatal(err)
	}
	select {
	case err := <-ended:
		if !errors.Is(err, os.ErrDeadlineExceeded) {
			t.Error(err)
		}
	case <-time.After(patience.Long):
		t.Error("the read goes on")
	}
}

// The deadline counts that was set last, whichever the connection itself has.
func TestDeadlines(t *testing.T) {
	soon, late := 30*time.Millisecond, patience.Long
	for _, row := range []struct {
		sets []time.Duration // 0 for never
		over bool
	}{
		{[]time.Duration{soon}, true}, {[]time.Duration{late, soon}, true}, {[]time.Duration{0, soon}, true}, {[]time.Duration{late, -late}, true},
		{[]time.Duration{soon, late, soon}, true}, {[]time.Duration{late, 0, soon}, true},
		{[]time.Duration{soon, late}, false}, {[]time.Duration{soon, 0}, false}, {[]time.Duration{-late, 0}, false}, {[]time.Duration{-late, late}, false},
	} {
		for _, name := range []string{"read", "write"} {
			here, there := net.Pipe()
			c := boundedConnOf(here, true)
			set := map[string]func(time.Time) error{"read": c.SetReadDeadline, "write": c.SetWriteDeadline}[name]
			for _, after := range row.sets {
				at := time.Time{}
				if after != 0 {
					at = time.Now().Add(after)
				}
				if err := set(at); err != nil {
					t.Fatal(err)
				}
			}
			// The other end takes or sends one half, and the second one once the first deadline is over; or never, where none is left then.
			halves, other := 2, make(chan error, 1)
			if row.over {
				halves = 1
			}
			go func() {
				room := make([]byte, 2)
				for i := 0; i < halves; i++ {
					var err error
					if name == "read" {
						_, err = there.Write([]byte("ab"))
					} else if _, err = io.ReadFull(there, room); string(room) != "abcd"[2*i:2*i+2] && err == nil {
						err = fmt.Errorf("%q", room)
					}
					if err != nil {
						other <- err
						return
					}
					time.Sleep(3 * soon)
				}
				other <- nil
			}()
			from := time.Now()
			var err error
			if name == "read" {
				_, err = io.ReadFull(c, make([]byte, 4))
			} else {
				_, err = c.Write([]byte("abcd"))
			}
			if errors.Is(err, os.ErrDeadlineExceeded) != row.over || !row.over && err != nil || time.Since(from) > late/2 {
				t.Fatalf("%s, %v: %v after %v", name, row.sets, err, time.Since(from))
			}
			if !row.over { // An earlier one that is set then counts.
				from = time.Now()
				if err := set(from.Add(soon)); err != nil {
					t.Fatal(err)
				}
				if name == "read" {
					_, err = c.Read(make([]byte, 1))
				} else {
					_, err = c.Write([]byte("e"))
				}
				if !errors.Is(err, os.ErrDeadlineExceeded) || time.Since(from) > late/2 {
					t.Fatalf("%s, %v, and then a sooner one: %v after %v", name, row.sets, err, time.Since(from))
				}
			}
			c.Close()
			if err := <-other; err != nil && !row.over {
				t.Errorf("%s, %v: %v", name, row.sets, err)
			}
			there.Close()
		}
	}
}

// A read that waits is ended by a deadline that is set meanwhile.
func TestADeadlineEndsARead(t *testing.T) {
	here, there := net.Pipe()
	defer there.Close()
	c := boundedConnOf(here, false)
	defer c.Close()
	if err := c.SetDeadline(time.Now().Add(patience.Long)); err != nil {
		t.Fatal(err)
	}
	ended, from := make(chan error), time.Now()
	go func() { _, err := c.Read(make([]byte, 1)); ended <- err }()
	time.Sleep(10 * time.Millisecond)
	if err := c.SetReadDeadline(time.Unix(1, 0)); err != nil {
		t.Fatal(err)
	}
	if err, took := <-ended, time.Since(from); !errors.Is(err, os.ErrDeadlineExceeded) || took > patience.Long/2 {
		t.Errorf("%v after %v", err, took)
	}
}

// However long a request may wait for the store or the disk (--wait), its answer may be written then.
func TestAnAnswerAtTheEndOfALongWait(t *testing.T) {
	t.Parallel()
	for _, wait := range []time.Duration{time.Hour, math.MaxInt64} {
		l, err := net.Listen("tcp", "127.0.0.1:0")
		if err != nil {
			t.Fatal(err)
		}
		s := &sidecar{options: options{wait: period(wait)}, log: guard.NewLines(io.Discard, guard.Errors)}
		of := &writesOf{Listener: l, until: make(chan time.Time, 10)}
		server := s.server(http.HandlerFunc(func(w http.ResponseWriter, r *http.Request) {}))
		go func() { _ = server.Serve(of) }()
		defer server.Close()
		got, err := http.Get("http://" + l.Addr().String())
		if err != nil {
			t.Fatal(err)
		}
		got.Body.Close()
		select {
		case until := <-of.until:
			if left := time.Until(until); left < wait && left < math.MaxInt64-time.Hour {
				t.Errorf("an answer may take %v, and its request may wait for %v", left, wait)
			}
		default:
			t.Errorf("an answer may take any time, where its request may wait for %v", wait)
		}
	}
}

// writesOf tells until when what it accepts may be written to.
type writesOf struct {
	net.Listener
	until chan time.Time
}

type writesTo struct {
	net.Conn
	until chan time.Time
}

func (l *writesOf) Accept() (net.Conn, error) {
	c, err := l.Listener.Accept()
	return &writesTo{c, l.until}, err
}

func (c *writesTo) SetWriteDeadline(at time.Time) error {
	c.until <- at
	return c.Conn.SetWriteDeadline(at)
}

// boundedConnOf is the connection that a bounded listener makes of this one.
func boundedConnOf(c net.Conn, unwatched bool) net.Conn {
	accepted, err := bounded{oneConn{c}, unwatched, true}.Accept()
	if err != nil {
		panic(err)
	}
	return accepted
}

// oneConn is a listener of one connection.
type oneConn struct{ net.Conn }

func (l oneConn) Accept() (net.Conn, error) { return l.Conn, nil }
func (l oneConn) Addr() net.Addr            { return l.LocalAddr() }
