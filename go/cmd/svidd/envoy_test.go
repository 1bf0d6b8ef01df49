package main

import (
	"bytes"
	"context"
	"crypto/tls"
	"encoding/binary"
	"fmt"
	"io"
	"net"
	"net/http"
	"path/filepath"
	"strings"
	"sync"
	"syscall"
	"testing"
	"time"

	"golang.org/x/net/http2"
	"golang.org/x/net/http2/hpack"
	"google.golang.org/protobuf/encoding/protowire"

	"svid.example/go/v3/internal/envoytest"
	"svid.example/go/v3/internal/extauthz"
	"svid.example/go/v3/internal/patience"
	"svid.example/go/v3/internal/server"
)

// startEnvoy starts svidd with an address for Envoy: a port, or a socket.
func startEnvoy(t *testing.T, unix bool, args ...string) (p *process, address string) {
	t.Helper()
	address = freeAddress(t)
	if unix {
		address = "unix:" + filepath.Join(t.TempDir(), "envoy.sock")
	}
	return start(t, append(args, "--envoy", address, bundleOption(bundleFile(t, example)))...), address
}

// Envoy hears by gRPC what /check says: in each mode, on a port and on a socket.
func TestEnvoyAsksByGRPC(t *testing.T) {
	t.Parallel()
	for _, unix := range []bool{false, true} {
		p, address := startEnvoy(t, unix, "--state", filepath.Join(t.TempDir(), "state"), "--allow", "spiffe://example.org/web")
		envoy := envoytest.Start(t, address)
		good := token(t, "a", lasting)
		a := envoy.Check(t, "", "authorization", "Bearer "+good, "x-request-id", "name-1", "x-forwarded-for", "203.0.113.9, 198.51.100.7", "x-spiffe-id", "spiffe://example.org/other")
		if a.OK == nil || a.Denied != nil || a.Status.Code != 0 || a.Failed != "" {
			t.Fatalf("a good token: %+v", a)
		}
		fields := envoytest.Fields(a.OK.Headers)
		expires := fields["x-svid-expires"]
		delete(fields, "x-svid-expires")
		if fmt.Sprint(fields) != "map[x-spiffe-id:spiffe://example.org/web x-svid-audience:ledger]" || len(expires) != 10 || fmt.Sprint(a.OK.Remove) != "[authorization]" {
			t.Errorf("what the service gets: %v %q %q", fields, expires, a.OK.Remove)
		}
		p.await("its line", func() bool { return len(p.events("accepted")) == 1 })
		if line := p.events("accepted")[0]; line["request"] != "name-1" || line["client"] != "198.51.100.7" {
			t.Errorf("the log: %v", line)
		}
		other := example.Token("ES256", map[string]any{"sub": "spiffe://example.org/job", "aud": "ledger", "exp": time.Now().Add(lasting).Unix(), "jti": "o"})
		for what, row := range map[string]struct {
			fields             []string
			code, status       int
			challenge, because string
		}{
			"used before":    {[]string{"authorization", "Bearer " + good}, 16, 401, `Bearer error="invalid_token", error_description="Replayed"`, "Replayed"},
			"no token":       {[]string{"cookie", "Bearer " + good}, 16, 401, `Bearer realm="svid"`, "NoToken"},
			"another scheme": {[]string{"authorization", "Basic YQ=="}, 16, 401, `Bearer realm="svid"`, "NotBearer"},
			"two tokens":     {[]string{"authorization", "Bearer " + token(t, "b", lasting) + ",Bearer " + token(t, "c", lasting)}, 16, 401, `Bearer error="invalid_request", error_description="NotBearer"`, "NotBearer"},
			"two fields":     {[]string{"authorization", "Bearer " + token(t, "d", lasting), "Authorization", "Bearer x"}, 16, 401, `Bearer error="invalid_request", error_description="NotBearer"`, "NotBearer"},
			"another caller": {[]string{"authorization", "Bearer " + other}, 7, 403, `Bearer error="insufficient_scope", error_description="NotAllowed"`, "NotAllowed"},
		} {
			a := envoy.Check(t, "", row.fields...)
			if a.Denied == nil || a.OK != nil || a.Status.Code != row.code || a.Status.Message != row.because || a.Denied.Status.Code != row.status {
				t.Errorf("%s: %+v", what, a)
				continue
			}
			fields := envoytest.Fields(a.Denied.Headers)
			if fields["www-authenticate"] != row.challenge || fields["cache-control"] != "no-store" || fields["content-type"] != "application/json" || fields["x-request-id"] == "" || len(fields) != 4 {
				t.Errorf("%s: %v", what, fields)
			}
			if want := fmt.Sprintf("{\"reason\":%q,\"result\":\"refused\"}\n", row.because); a.Denied.Body != want {
				t.Errorf("%s: %q", what, a.Denied.Body)
			}
		}
		// The whole of a long request, and of one that is too long.
		if a := envoy.Check(t, strings.Repeat("b", 100_000), "authorization", "Bearer "+token(t, "long", lasting)); a.OK == nil {
			t.Errorf("a long request: %+v", a)
		}
		if a := envoy.Check(t, strings.Repeat("b", server.MaxEnvoy), "authorization", "Bearer "+token(t, "longer", lasting)); a.Failed != "RESOURCE_EXHAUSTED" || !strings.Contains(a.Why, "with_request_body") {
			t.Errorf("a request that is too long: %+v", a)
		}
		if accepted, none := p.metric(`svidd_checks_total{result="accepted"}`), p.metric(`svidd_checks_total{result="no_token"}`); accepted != "2" || none == "0" {
			t.Errorf("the metrics: %s %s", accepted, none)
		}
		// It ends with its calls.
		p.end()
	}
}

// deploy/envoy-grpc.yaml is deploy/envoy.yaml but for the way to ask: nothing is let through where the call fails, the token ends
// there, and the cluster speaks HTTP/2.
func TestEnvoyListenerOverGRPC(t *testing.T) {
	t.Parallel()
	var files [2]string
	for i, name := range []string{"envoy.yaml", "envoy-grpc.yaml"} {
		var file any
		readYAML(t, name, &file)
		files[i] = fmt.Sprint(file)
	}
	for what, in := range map[string][2]bool{
		"failure_mode_allow:false": {true, true}, "status_on_error:map[code:ServiceUnavailable]": {true, true}, "request_headers_to_remove:[authorization]": {true, true},
		"headers_with_underscores_action:REJECT_REQUEST": {true, true}, "max_request_headers_kb:96": {true, true}, "http_service": {true, false},
		"grpc_service:map[envoy_grpc:map[cluster_name:svidd] timeout:5s]": {false, true}, "transport_api_version:V3": {false, true},
		"explicit_http_config:map[http2_protocol_options:map[]]": {false, true}, "port_value:9903": {false, true},
		"retry_policy": {false, false}, "with_request_body": {false, false}, "encode_raw_headers": {false, false},
		"connect_matcher": {false, false}, "upgrade_configs": {false, false}, "enable_trailers": {false, false},
	} {
		for i := range files {
			if strings.Contains(files[i], what) != in[i] {
				t.Errorf("file %d: %q is there: %v", i, what, !in[i])
			}
		}
	}
}

// Where a token can't be judged, Envoy denies the request with 503, whatever it does about calls that fail.
func TestEnvoyHearsThatATokenCannotBeJudged(t *testing.T) {
	t.Parallel()
	address := freeAddress(t)
	p := prepare(t, nil, "--envoy", address, "--replay", "strict", "--store", "redis://"+freeAddress(t), bundleOption(bundleFile(t, example)))
	p.launch()
	p.await("an answer", func() bool { status, _ := p.get("/healthz"); return status == http.StatusOK })
	a := envoytest.Start(t, address).Check(t, "", "authorization", "Bearer "+token(t, "a", lasting))
	if a.Denied == nil || a.OK != nil || a.Status.Code != 14 || a.Status.Message != "NotReady" || a.Denied.Status.Code != 503 || a.Denied.Body != "{\"reason\":\"NotReady\",\"result\":\"unavailable\"}\n" {
		t.Fatalf("%+v", a)
	}
	if fields := envoytest.Fields(a.Denied.Headers); fields["retry-after"] != "1" || fields["www-authenticate"] != "" {
		t.Error(fields)
	}
}

// grpcClient is a client of HTTP/2 without TLS.
func grpcClient(address string) *http.Client {
	return &http.Client{Timeout: patience.Long, Transport: &http2.Transport{AllowHTTP: true, DialTLS: func(string, string, *tls.Config) (net.Conn, error) {
		return net.Dial("tcp", address)
	}}}
}

// call makes a call with this body, and returns the status of HTTP and of gRPC.
func call(t *testing.T, c *http.Client, address, path, kind string, body io.Reader) (status int, code string) {
	t.Helper()
	request, err := http.NewRequest(http.MethodPost, "http://"+address+path, body)
	if err != nil {
		t.Fatal(err)
	}
	request.Header.Set("Content-Type", kind)
	answer, err := c.Do(request)
	if err != nil {
		return 0, err.Error()
	}
	defer answer.Body.Close()
	if _, err := io.ReadAll(answer.Body); err != nil {
		return 0, err.Error()
	}
	if code = answer.Trailer.Get("Grpc-Status"); code == "" {
		code = answer.Header.Get("Grpc-Status")
	}
	return answer.StatusCode, code
}

// frame is a message as gRPC sends it.
func frame(flag byte, length int, message string) string {
	head := make([]byte, 5)
	head[0] = flag
	binary.BigEndian.PutUint32(head[1:], uint32(length))
	return string(head) + message
}

// What is no call of Check gets its code, and costs the connection nothing.
func TestCallsThatAreNone(t *testing.T) {
	t.Parallel()
	p, address := startEnvoy(t, false, "--replay", "reuse", "--caller", "peer")
	c := grpcClient(address)
	const check, grpc = extauthz.Path, "application/grpc"
	field := func(before []byte, number protowire.Number, value []byte) []byte {
		return protowire.AppendBytes(protowire.AppendTag(before, number, protowire.BytesType), value)
	}
	noText := field(field(nil, 1, []byte("authorization")), 2, []byte("Bearer \xff"))
	for _, number := range []protowire.Number{3, 2, 4, 1} { // headers, http, request, attributes
		noText = field(nil, number, noText)
	}
	for _, row := range []struct {
		path, kind, body string
		status           int
		code             string
	}{
		{check, grpc, frame(0, 0, ""), 200, "0"}, {check, grpc + "+proto", frame(0, 0, ""), 200, "0"}, {check, grpc + ";x", frame(0, 0, ""), 200, "0"},
		{check, "application/json", "{}", 415, ""}, {check, grpc + "-web", frame(0, 0, ""), 415, ""},
		{"/envoy.service.auth.v2.Authorization/Check", grpc, frame(0, 0, ""), 200, "12"}, {check + "/", grpc, frame(0, 0, ""), 200, "12"}, {"/check", grpc, frame(0, 0, ""), 200, "12"},
		{check, grpc, frame(1, 0, ""), 200, "12"},
		{check, grpc, "", 200, "3"}, {check, grpc, "\x00\x00", 200, "3"}, {check, grpc, frame(0, 2, "\x0a"), 200, "3"},
		{check, grpc, frame(0, 0, "") + frame(0, 0, ""), 200, "3"}, {check, grpc, frame(0, 0, "x"), 200, "3"},
		{check, grpc, frame(0, 1, "\x0a"), 200, "3"}, {check, grpc, frame(0, 2, "\x08\x01"), 200, "3"}, {check, grpc, frame(0, 2, "\x0a\x05"), 200, "3"},
		{check, grpc, frame(0, len(noText), string(noText)), 200, "3"},
		{check, grpc, frame(0, server.MaxEnvoy+1, ""), 200, "8"}, {check, grpc, frame(0, 1<<32-1, ""), 200, "8"},
	} {
		if status, code := call(t, c, address, row.path, row.kind, strings.NewReader(row.body)); status != row.status || code != row.code {
			t.Errorf("%s %s %q: %d %q, want %d %q", row.path, row.kind, row.body, status, code, row.status, row.code)
		}
	}
	if status, _ := p.get("/readyz"); status != http.StatusOK {
		t.Error("it ended")
	}
}

// A call that does not send its message holds up no other one, and ends. (Other work on the machine may hold up 20 calls for as long as
// it takes: so one of many tries is to show it. Calls that wait for the slow one do so each time.)
func TestASlowCallHoldsUpNobody(t *testing.T) {
	_, address := startEnvoy(t, false, "--replay", "reuse")
	c := grpcClient(address)
	for end := time.Now().Add(patience.Long); !answersBesideASlowCall(t, c, address) && !t.Failed(); {
		if time.Now().After(end) {
			t.Fatal("20 calls end behind the slow one")
		}
	}
}

// answersBesideASlowCall says whether 20 calls were answered while another one was under way that sends no message.
func answersBesideASlowCall(t *testing.T, c *http.Client, address string) bool {
	slow, rest := io.Pipe()
	defer rest.Close()
	ended := make(chan struct{})
	from := time.Now()
	go func() {
		defer close(ended)
		status, code := call(t, c, address, extauthz.Path, "application/grpc", io.MultiReader(strings.NewReader(frame(0, 100, "")), slow))
		if took := time.Since(from); code != "3" || took < headerWait/2 {
			t.Errorf("the slow call: %d %q behind %v", status, code, took)
		}
	}()
	for i := 0; i < 20; i++ {
		if status, code := call(t, c, address, extauthz.Path, "application/grpc", strings.NewReader(frame(0, 0, ""))); status != 200 || code != "0" {
			t.Errorf("a call beside it: %d %q", status, code)
		}
	}
	select {
	case <-ended:
		return false
	default:
		<-ended
		return true
	}
}

// A connection with a header without end is closed, and so is one that sends no frames.
func TestConnectionsThatMeanNoGood(t *testing.T) {
	t.Parallel()
	_, address := startEnvoy(t, false, "--replay", "reuse")
	open := func() (net.Conn, *http2.Framer) {
		t.Helper()
		c, err := net.Dial("tcp", address)
		if err != nil {
			t.Fatal(err)
		}
		t.Cleanup(func() { c.Close() })
		if err := c.SetDeadline(time.Now().Add(patience.Long)); err != nil {
			t.Fatal(err)
		}
		f := http2.NewFramer(c, c)
		if _, err := io.WriteString(c, http2.ClientPreface); err != nil {
			t.Fatal(err)
		}
		if err := f.WriteSettings(); err != nil {
			t.Fatal(err)
		}
		return c, f
	}
	// closed says whether the server ends the connection, which it is sent something on meanwhile.
	closed := func(c net.Conn, send func(n int) error) bool {
		done := make(chan struct{})
		go func() { defer close(done); _, _ = io.Copy(io.Discard, c) }()
		for n := 0; n < 1<<17; n++ {
			if send(n) != nil {
				return true
			}
			select {
			case <-done:
				return true
			default:
			}
		}
		return false
	}
	var text bytes.Buffer
	encoder := hpack.NewEncoder(&text)
	for _, field := range [][2]string{{":method", "POST"}, {":scheme", "http"}, {":path", extauthz.Path}, {":authority", "a"}, {"content-type", "application/grpc"}} {
		if err := encoder.WriteField(hpack.HeaderField{Name: field[0], Value: field[1]}); err != nil {
			t.Fatal(err)
		}
	}
	c, f := open()
	if err := f.WriteHeaders(http2.HeadersFrameParam{StreamID: 1, BlockFragment: text.Bytes()}); err != nil {
		t.Fatal(err)
	}
	if !closed(c, func(n int) error { return f.WriteContinuation(1, false, make([]byte, 1000)) }) {
		t.Error("a header without end is read")
	}
	if c, _ = open(); !closed(c, func(n int) error { _, err := c.Write(make([]byte, 1000)); return err }) {
		t.Error("what is no frame is read")
	}
	if status, code := call(t, grpcClient(address), address, extauthz.Path, "application/grpc", strings.NewReader(frame(0, 0, ""))); status != 200 || code != "0" {
		t.Errorf("another connection: %d %q", status, code)
	}
}

// A connection has so many calls under way, and no more.
func TestCallsThatAreTakenBackCount(t *testing.T) {
	t.Parallel()
	going := make(chan struct{})
	var most, running int
	var mu sync.Mutex
	s := newGRPC(http.HandlerFunc(func(w http.ResponseWriter, r *http.Request) {
		mu.Lock()
		if running++; running > most {
			most = running
		}
		mu.Unlock()
		<-going
	}), nil)
	l, err := net.Listen("tcp", "127.0.0.1:0")
	if err != nil {
		t.Fatal(err)
	}
	go func() { _ = s.Serve(bounded{Listener: l}) }()
	c, err := net.Dial("tcp", l.Addr().String())
	if err != nil {
		t.Fatal(err)
	}
	defer c.Close()
	f := http2.NewFramer(c, c)
	_, _ = io.WriteString(c, http2.ClientPreface)
	_ = f.WriteSettings()
	go func() {
		var text bytes.Buffer
		encoder := hpack.NewEncoder(&text)
		for id := uint32(1); ; id += 2 {
			text.Reset()
			for _, field := range [][2]string{{":method", "POST"}, {":scheme", "http"}, {":path", "/"}, {":authority", "a"}} {
				_ = encoder.WriteField(hpack.HeaderField{Name: field[0], Value: field[1]})
			}
			if f.WriteHeaders(http2.HeadersFrameParam{StreamID: id, BlockFragment: text.Bytes(), EndHeaders: true, EndStream: true}) != nil ||
				f.WriteRSTStream(id, http2.ErrCodeCancel) != nil {
				return
			}
		}
	}()
	_ = c.SetReadDeadline(time.Now().Add(patience.Long))
	if _, err := io.Copy(io.Discard, c); err != nil && strings.Contains(err.Error(), "timeout") {
		t.Error("the connection is not ended")
	}
	// (The last of them may begin only now.)
	underWay := func() int { mu.Lock(); defer mu.Unlock(); return most }
	for look, end := patience.Looks(), time.Now().Add(patience.Long); underWay() < 2*mostStreams && time.Now().Before(end); {
		look()
	}
	if n := underWay(); n != 2*mostStreams {
		t.Errorf("%d calls were under way", n)
	}
	close(going)
	ctx, cancel := context.WithTimeout(context.Background(), patience.Long)
	defer cancel()
	if err := s.Shutdown(ctx); err != nil {
		t.Error(err)
	}
}

// The end waits for calls that are under way, and not for ever.
func TestTheEndWaitsForCalls(t *testing.T) {
	going, began := make(chan struct{}), make(chan struct{})
	s := newGRPC(http.HandlerFunc(func(w http.ResponseWriter, r *http.Request) {
		close(began)
		<-going
		w.Header().Set("Grpc-Status", "0")
	}), nil)
	l, err := net.Listen("tcp", "127.0.0.1:0")
	if err != nil {
		t.Fatal(err)
	}
	ended := make(chan error, 1)
	go func() { ended <- s.Serve(l) }()
	done := make(chan string, 1)
	address := l.Addr().String()
	go func() {
		_, code := call(t, grpcClient(address), address, "/", "application/grpc", strings.NewReader(""))
		done <- code
	}()
	<-began
	short, cancel := context.WithTimeout(context.Background(), 3*tellAgain)
	defer cancel()
	if err := s.Shutdown(short); err != context.DeadlineExceeded {
		t.Errorf("it ends before the call: %v", err)
	}
	if err := <-ended; err != http.ErrServerClosed {
		t.Errorf("Serve: %v", err)
	}
	close(going)
	if code := <-done; code != "0" {
		t.Errorf("the call: %q", code)
	}
	long, cancel := context.WithTimeout(context.Background(), patience.Long)
	defer cancel()
	if err := s.Shutdown(long); err != nil {
		t.Errorf("after the call: %v", err)
	}
}

// At SIGTERM a call that is under way gets its answer.
func TestACallEndsBeforeSvidd(t *testing.T) {
	t.Parallel()
	p, address := startEnvoy(t, false, "--replay", "reuse")
	c := grpcClient(address)
	body, rest := io.Pipe()
	done := make(chan string, 1)
	go func() {
		_, code := call(t, c, address, extauthz.Path, "application/grpc", body)
		done <- code
	}()
	message := string(protowire.AppendBytes(protowire.AppendTag(nil, 15, protowire.BytesType), make([]byte, 200_000)))
	message = frame(0, len(message), message)
	half := len(message) * 3 / 4 // It is longer than what may be sent before the call reads.
	if _, err := io.WriteString(rest, message[:half]); err != nil {
		t.Fatal(err)
	}
	if err := p.signal(syscall.SIGTERM); err != nil {
		t.Fatal(err)
	}
	p.await("the end of the address", func() bool {
		c, err := net.Dial("tcp", address)
		if err == nil {
			c.Close()
		}
		return err != nil
	})
	if _, err := io.WriteString(rest, message[half:]); err != nil {
		t.Fatal(err)
	}
	rest.Close()
	if code := <-done; code != "0" {
		t.Errorf("the call ends with %q", code)
	}
	if err := p.wait(); err != nil {
		t.Errorf("svidd: %v\n%s", err, p.log)
	}
}
