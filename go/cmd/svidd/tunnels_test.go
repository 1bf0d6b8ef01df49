package main

import (
	"bufio"
	"bytes"
	"fmt"
	"io"
	"net"
	"net/http"
	"strings"
	"testing"
	"time"

	"golang.org/x/net/http2"
	"golang.org/x/net/http2/hpack"

	"svid.example/go/v3/internal/patience"
)

// withoutToken is a request that no sidecar has seen, whose client says who it is.
const withoutToken = "GET /tunnelled HTTP/1.1\r\nHost: ledger.example.org\r\nX-Spiffe-Id: spiffe://example.org/admin\r\nConnection: close\r\n\r\n"

// hearsNobodyElse wants the service to hear of no caller but the one of the token, since the last look.
func (r *recipe) hearsNobodyElse(what string) {
	r.t.Helper()
	for got := r.served(); got != nil; got = r.served() {
		if who := got.identity()["x-spiffe-id"]; len(who) != 1 || who[0] != "spiffe://example.org/web" {
			r.t.Errorf("%s: the service hears of %s %s by %v", what, got.Method, got.URI, who)
		}
	}
}

// opensNoTunnel wants a CONNECT to be refused, and its token to stay good. Where a service answers 200, as one of Go does, a proxy that hands it on
// makes a tunnel: it does not look at the bytes that follow.
func (r *recipe) opensNoTunnel() {
	t := r.t
	t.Helper()
	for i, target := range []string{"ledger.example.org:8081", r.front, "/"} {
		one := token(t, fmt.Sprint("connect", i), lasting)
		c, err := net.Dial("tcp", r.front)
		if err != nil {
			t.Fatal(err)
		}
		_ = c.SetDeadline(time.Now().Add(patience.Long))
		if _, err := fmt.Fprintf(c, "CONNECT %[1]s HTTP/1.1\r\nHost: %[1]s\r\nAuthorization: Bearer %[2]s\r\n\r\n", target, one); err != nil {
			t.Fatal(err)
		}
		from := bufio.NewReader(c)
		answer, err := http.ReadResponse(from, nil)
		if err != nil {
			t.Fatalf("CONNECT %s: %v", target, err)
		}
		if answer.StatusCode != 405 && answer.StatusCode != 400 { // (nginx, and others where the target is none, find it malformed)
			t.Errorf("CONNECT %s: %d", target, answer.StatusCode)
		}
		_, _ = io.WriteString(c, withoutToken) // (the proxy may have closed the connection)
		_, _ = io.Copy(io.Discard, from)       // until the proxy closes it
		c.Close()
		r.hearsNobodyElse("CONNECT " + target)
		if answer, _ := r.send("GET", "/", "", "Authorization: Bearer "+one); answer.StatusCode != 200 {
			t.Errorf("after CONNECT %s its token gets %d", target, answer.StatusCode)
		}
		r.hearsNobodyElse("a request after CONNECT " + target)
	}
}

// holdsOverHTTP2 wants the recipe to keep what each must over HTTP/2.
func (r *recipe) holdsOverHTTP2() {
	r.t.Helper()
	r.opensNoTunnelOverHTTP2()
	r.keepsTrailersOverHTTP2()
}

// opensNoTunnelOverHTTP2 wants the same over HTTP/2, where a tunnel is a stream, and where one may be for another protocol (RFC 8441).
func (r *recipe) opensNoTunnelOverHTTP2() {
	t := r.t
	t.Helper()
	one := token(t, "CONNECT over HTTP/2", lasting)
	bearer := [2]string{"authorization", "Bearer " + one}
	if status := r.stream(withoutToken, nil, [2]string{":method", "CONNECT"}, [2]string{":authority", "ledger.example.org:8081"}, bearer); status != "405" {
		t.Errorf("CONNECT over HTTP/2: %s", status)
	}
	r.hearsNobodyElse("CONNECT over HTTP/2")
	path, scheme, authority := [2]string{":path", "/"}, [2]string{":scheme", "http"}, [2]string{":authority", "ledger.example.org"}
	if status := r.stream("", nil, [2]string{":method", "GET"}, path, scheme, authority, bearer); status != "200" {
		t.Errorf("after CONNECT over HTTP/2 its token gets %s", status)
	}
	r.hearsNobodyElse("a GET over HTTP/2")
	for _, protocol := range []string{"websocket", "h2c"} {
		bearer := [2]string{"authorization", "Bearer " + token(t, protocol+" over HTTP/2", lasting)}
		r.stream(withoutToken, nil, [2]string{":method", "CONNECT"}, [2]string{":protocol", protocol}, path, scheme, authority, bearer)
		r.hearsNobodyElse("CONNECT over HTTP/2 for " + protocol)
	}
}

// stream opens a stream of HTTP/2 with these fields. With a trailer it sends a text and that at once; else a text, unless there is none, behind the
// answer. It returns the status once the stream has ended.
func (r *recipe) stream(text string, trailer [][2]string, fields ...[2]string) (status string) {
	t := r.t
	t.Helper()
	c, err := net.Dial("tcp", r.front)
	if err != nil {
		t.Fatal(err)
	}
	defer c.Close()
	_ = c.SetDeadline(time.Now().Add(patience.Long))
	f := http2.NewFramer(c, c)
	f.ReadMetaHeaders = hpack.NewDecoder(4096, nil)
	var block bytes.Buffer
	encoder := hpack.NewEncoder(&block)
	headers := func(fields [][2]string, last bool) {
		block.Reset()
		for _, field := range fields {
			if err := encoder.WriteField(hpack.HeaderField{Name: field[0], Value: field[1]}); err != nil {
				t.Fatal(err)
			}
		}
		if err := f.WriteHeaders(http2.HeadersFrameParam{StreamID: 1, BlockFragment: block.Bytes(), EndHeaders: true, EndStream: last}); err != nil {
			t.Fatal(err)
		}
	}
	if _, err := io.WriteString(c, http2.ClientPreface); err != nil {
		t.Fatal(err)
	}
	if err := f.WriteSettings(); err != nil {
		t.Fatal(err)
	}
	headers(fields, text == "")
	if trailer != nil {
		for rest := text; rest != ""; {
			n := len(rest)
			if n > 16384 {
				n = 16384
			}
			if err := f.WriteData(1, false, []byte(rest[:n])); err != nil {
				t.Fatal(err)
			}
			rest = rest[n:]
		}
		headers(trailer, true)
	}
	for {
		frame, err := f.ReadFrame()
		if err == io.EOF {
			return status
		}
		if err != nil {
			t.Fatalf("%v: %v", fields[0], err)
		}
		switch it := frame.(type) {
		case *http2.MetaHeadersFrame:
			if status = it.PseudoValue("status"); text != "" && trailer == nil {
				_ = f.WriteData(1, true, []byte(text)) // (the proxy may have closed the stream)
			}
		case *http2.SettingsFrame:
			if !it.IsAck() {
				_ = f.WriteSettingsAck()
			}
		case *http2.RSTStreamFrame:
			return fmt.Sprintf("%s, and then %v", status, it.ErrCode)
		case *http2.GoAwayFrame:
			return fmt.Sprintf("%s, and then %v", status, it.ErrCode)
		}
		if h := frame.Header(); h.StreamID == 1 && (h.Type == http2.FrameHeaders || h.Type == http2.FrameData) && h.Flags.Has(http2.FlagDataEndStream) {
			return status
		}
	}
}

// trailer is what a client may send after a body to make somebody else of itself.
var trailer = [][2]string{{"x-spiffe-id", "spiffe://example.org/admin"}, {"x-svid-audience", "all"}, {"authorization", "Bearer a.b.c"}}

// keepsTrailers wants no field that a client sends after a body to be a header at the service, and none of these names to reach it in a trailer,
// unless the recipe says that its proxy hands them on.
func (r *recipe) keepsTrailers() {
	t := r.t
	t.Helper()
	for i, announced := range []string{"", "Trailer: X-Spiffe-Id, X-Svid-Audience, Authorization\r\n", "Trailer: X-Other\r\nTE: trailers\r\n"} {
		for _, body := range []string{"", "body", strings.Repeat("long", 100_000)} {
			what := fmt.Sprintf("a trailer behind %d bytes, announced by %q", len(body), announced)
			c, err := net.Dial("tcp", r.front)
			if err != nil {
				t.Fatal(err)
			}
			_ = c.SetDeadline(time.Now().Add(patience.Long))
			text := fmt.Sprintf("POST / HTTP/1.1\r\nHost: ledger.example.org\r\nAuthorization: Bearer %s\r\n%sTransfer-Encoding: chunked\r\nConnection: close\r\n\r\n",
				token(t, fmt.Sprint("trailer", i, len(body)), lasting), announced)
			if body != "" {
				text += fmt.Sprintf("%x\r\n%s\r\n", len(body), body)
			}
			text += "0\r\n"
			for _, field := range trailer {
				text += field[0] + ": " + field[1] + "\r\n"
			}
			if _, err := io.WriteString(c, text+"\r\n"); err != nil {
				t.Fatal(err)
			}
			answer, err := http.ReadResponse(bufio.NewReader(c), nil)
			if err != nil {
				t.Fatal(err)
			}
			answer.Body.Close()
			c.Close()
			r.keptTrailers(what, fmt.Sprint(answer.StatusCode), body)
		}
	}
}

// keepsTrailersOverHTTP2 wants the same over HTTP/2.
func (r *recipe) keepsTrailersOverHTTP2() {
	r.t.Helper()
	for i, announced := range []string{"x-other", "x-spiffe-id, x-svid-audience"} {
		for _, body := range []string{"body", strings.Repeat("long", 10_000)} {
			bearer := [2]string{"authorization", "Bearer " + token(r.t, fmt.Sprint("trailer over HTTP/2", i, len(body)), lasting)}
			// (A server of Go ends a stream whose trailer has a field Authorization.)
			status := r.stream(body, trailer[:2], [2]string{":method", "POST"}, [2]string{":path", "/"}, [2]string{":scheme", "http"},
				[2]string{":authority", "ledger.example.org"}, [2]string{"trailer", announced}, bearer)
			r.keptTrailers(fmt.Sprintf("a trailer over HTTP/2 behind %d bytes, announced by %q", len(body), announced), status, body)
		}
	}
}

func (r *recipe) keptTrailers(what, status, body string) {
	t := r.t
	t.Helper()
	got := r.served()
	if strings.HasPrefix(status, "4") && got == nil {
		return
	}
	if status != "200" || got == nil || got.Body != body || fmt.Sprint(got.identity()["x-spiffe-id"]) != "[spiffe://example.org/web]" || len(got.identity()) != 3 {
		t.Errorf("%s: %s, and the service gets %+v", what, status, got)
		return
	}
	said := heard{Header: got.Trailer}.identity()
	for name, values := range said {
		if len(values) == 0 {
			delete(said, name) // (a name that was announced, and no value)
		}
	}
	if len(said) > 0 != r.trailers {
		t.Errorf("%s: the service hears of %v in the trailer", what, said)
	}
}

// A service of Go answers CONNECT as any other request, so a test with one tells whether a proxy makes a tunnel.
func TestAServiceOfGoAnswersConnect(t *testing.T) {
	t.Parallel()
	l, err := net.Listen("tcp", "127.0.0.1:0")
	if err != nil {
		t.Fatal(err)
	}
	s := &http.Server{Handler: http.HandlerFunc(func(w http.ResponseWriter, _ *http.Request) { w.WriteHeader(http.StatusOK) })}
	go func() { _ = s.Serve(l) }()
	defer s.Close()
	c, err := net.Dial("tcp", l.Addr().String())
	if err != nil {
		t.Fatal(err)
	}
	defer c.Close()
	if _, err := io.WriteString(c, "CONNECT a:1 HTTP/1.1\r\nHost: a\r\n\r\n"); err != nil {
		t.Fatal(err)
	}
	answer, err := http.ReadResponse(bufio.NewReader(c), nil)
	if err != nil || answer.StatusCode != 200 {
		t.Fatalf("%v %v", answer, err)
	}
}
