package bundles

import (
	"bufio"
	"bytes"
	"crypto/tls"
	"crypto/x509"
	"encoding/json"
	"io"
	"log"
	"net"
	"net/http"
	"net/http/httptest"
	"strings"
	"testing"
	"time"

	"golang.org/x/net/http2"
)

// A bundle comes over TLS 1.2 or 1.3 (SPIFFE Federation, profile https_web).
func TestVersionsOfTLS(t *testing.T) {
	for version, want := range map[uint16]bool{
		tls.VersionTLS10: false, tls.VersionTLS11: false, tls.VersionTLS12: true, tls.VersionTLS13: true,
	} {
		e := httptest.NewUnstartedServer(http.HandlerFunc(func(w http.ResponseWriter, r *http.Request) { _, _ = io.WriteString(w, spire) }))
		e.TLS = &tls.Config{MinVersion: version, MaxVersion: version}
		e.Config.ErrorLog = log.New(io.Discard, "", 0)
		e.StartTLS()
		_, o := watch(t, func(o *Options) {
			o.Roots = x509.NewCertPool()
			o.Roots.AddCert(e.Certificate())
		}, Spec{Domain: "example.org", Source: e.URL})
		if o.awaitAnswer(t) != want {
			t.Errorf("version %x: %q", version, o.lines)
		}
		e.Close()
	}
}

// A server that never ends its headers is left once its time is over: it costs no processor after that.
func TestHeadersWithoutEnd(t *testing.T) {
	e := newEndpoint(t)
	l, err := tls.Listen("tcp", "127.0.0.1:0", &tls.Config{Certificates: e.TLS.Certificates, NextProtos: []string{"h2", "http/1.1"}})
	if err != nil {
		t.Fatal(err)
	}
	defer l.Close()
	const limit = 2 * time.Second
	left := make(chan string, 1)
	go func() {
		conn, err := l.Accept()
		if err != nil {
			return
		}
		defer conn.Close()
		send := func() error { _, err := io.WriteString(conn, "X: "+strings.Repeat("x", 1000)+"\r\n"); return err }
		_ = conn.(*tls.Conn).Handshake()
		if conn.(*tls.Conn).ConnectionState().NegotiatedProtocol == "h2" {
			framer := http2.NewFramer(conn, conn)
			_, err := io.ReadFull(conn, make([]byte, len(http2.ClientPreface)))
			_ = framer.WriteSettings()
			for stream := uint32(0); err == nil && stream == 0; {
				var frame http2.Frame
				if frame, err = framer.ReadFrame(); err == nil && frame.Header().Type == http2.FrameHeaders {
					stream = frame.Header().StreamID
				}
			}
			_ = framer.WriteHeaders(http2.HeadersFrameParam{StreamID: 1, BlockFragment: []byte{0x88}})
			send = func() error { return framer.WriteContinuation(1, false, bytes.Repeat([]byte{0x88}, 1000)) }
		} else if _, err := http.ReadRequest(bufio.NewReader(conn)); err == nil {
			_, _ = io.WriteString(conn, "HTTP/1.1 200 OK\r\n")
		}
		for end := time.Now().Add(10 * limit); time.Now().Before(end); time.Sleep(time.Millisecond) {
			_ = conn.SetWriteDeadline(end)
			if err := send(); err != nil {
				left <- ""
				return
			}
		}
		left <- conn.(*tls.Conn).ConnectionState().NegotiatedProtocol
	}()
	_, o := watch(t, func(o *Options) {
		e.trusted(o)
		o.Limit = limit
	}, Spec{Domain: "example.org", Source: "https://" + l.Addr().String()})
	o.await(t, "the end of its time", o.says("bundle not read"))
	if by := <-left; by != "" {
		t.Errorf("it still reads what comes by %s", by)
	}
}

// A service may have replaced the transport of package http: bundles neither need that, nor trust it.
func TestAnotherDefaultTransport(t *testing.T) {
	before := http.DefaultTransport
	defer func() { http.DefaultTransport = before }()
	e := newEndpoint(t)
	for _, other := range []http.RoundTripper{
		http.NewFileTransport(http.Dir(t.TempDir())),
		&http.Transport{DialTLSContext: (&tls.Dialer{Config: &tls.Config{InsecureSkipVerify: true}}).DialContext},
	} {
		http.DefaultTransport = other
		e.set(http.StatusOK, spire, "")
		_, o := watch(t, e.trusted, Spec{Domain: "example.org", Source: e.URL})
		o.await(t, "the bundle", o.says("bundle read"))
		_, o = watch(t, nil, Spec{Domain: "example.org", Source: e.URL})
		o.await(t, "that the server is a stranger", o.says("bundle not read"))
		if o.calls != 0 {
			t.Errorf("told %d times: %q", o.calls, o.lines)
		}
	}
}

// What an endpoint answers may be long: it is not read for long, and its log, and what is kept of it, is short.
func TestLongTextsOfAnEndpoint(t *testing.T) {
	e := newEndpoint(t)
	listen := func() net.Listener {
		l, err := tls.Listen("tcp", "127.0.0.1:0", &tls.Config{Certificates: e.TLS.Certificates})
		if err != nil {
			t.Fatal(err)
		}
		return l
	}
	long, endless := strings.Repeat("x", mostHeader-1000), strings.Repeat("x", 2<<20)
	for answer, want := range map[string]string{
		"HTTP/1.1 404 " + endless + "\r\n":                                  "server response headers exceeded 65536 bytes",
		"HTTP/1.1 200 OK\r\n" + "X: " + endless + "\r\n":                    "server response headers exceeded 65536 bytes",
		"HTTP/1.1 302 Found\r\nLocation: " + endless + "\r\n":               "server response headers exceeded 65536 bytes",
		"HTTP/1.1 404 " + long + "\r\n":                                     "it answers 404 xxx",
		"HTTP/1.1 302 Found\r\nLocation: http://elsewhere/" + long + "\r\n": "it leads to http://elsewhere/xxx",
		"HTTP/1.1 302 Found\r\nLocation: https://[::1]:0/" + long + "\r\n":  "dial tcp [::1]:0",
		"HTTP/1.1 302 Found\r\nLocation: https://%zz/" + long + "\r\n":      "failed to parse Location header",
		long + "\r\n": "malformed HTTP response",
	} {
		l, answer := listen(), answer
		go func() {
			for {
				conn, err := l.Accept()
				if err != nil {
					return
				}
				if _, err := http.ReadRequest(bufio.NewReader(conn)); err == nil {
					_, _ = io.WriteString(conn, answer+"Content-Length: 0\r\nConnection: close\r\n\r\n")
				}
				conn.Close()
			}
		}()
		w, o := watch(t, e.trusted, Spec{Domain: "example.org", Source: "https://" + l.Addr().String()})
		o.await(t, want, o.says("bundle not read"))
		l.Close()
		o.mu.Lock()
		for _, line := range o.lines {
			if len(line) > 2048 || !strings.Contains(line, want) {
				t.Errorf("%s: %d bytes are logged: %.300s", want, len(line), line)
			}
		}
		o.mu.Unlock()
		w.mu.Lock()
		for _, fault := range w.faults {
			if len(fault) > 2048 {
				t.Errorf("%s: %d bytes are kept", want, len(fault))
			}
		}
		w.mu.Unlock()
	}
}

// Only the answer 200 has a bundle.
func TestStatusesOfAnEndpoint(t *testing.T) {
	e := newEndpoint(t)
	e.set(http.StatusNotFound, spire, "")
	w, o := watch(t, e.trusted, Spec{Domain: "example.org", Source: e.URL})
	for _, status := range []int{http.StatusNotFound, http.StatusCreated, http.StatusNonAuthoritativeInfo, http.StatusAccepted, http.StatusUnauthorized} {
		e.set(status, spire, "")
		w.Reload()
		o.await(t, http.StatusText(status), o.says(http.StatusText(status)))
	}
	if o.calls != 0 {
		t.Errorf("told %d times: %q", o.calls, o.lines)
	}
}

// A bundle of an address, and of a file, has at most 1 MiB.
func TestTheLongestBundle(t *testing.T) {
	sized := func(bytes int) string { return strings.Repeat(" ", bytes-len(spire)) + spire }
	e := newEndpoint(t)
	e.set(http.StatusOK, sized(1<<20), "")
	name := t.TempDir() + "/bundle.json"
	write(t, name, sized(1<<20))
	w, o := watch(t, e.trusted, Spec{Domain: "a", Source: e.URL}, Spec{Domain: "b", Source: name})
	o.await(t, "both", func() bool { return len(o.last) == 2 })
	e.set(http.StatusOK, sized(1<<20+1), "")
	write(t, name, sized(1<<20+1))
	w.Reload()
	for _, source := range []string{e.URL, name} {
		o.await(t, source, o.says("source "+source+" why it has more than 1048576 bytes"))
	}
}

// A hint of 0 is none, and a good hint holds to its bounds.
func TestBoundsOfHints(t *testing.T) {
	for hint, want := range map[string]time.Duration{
		"0": usualRefresh, "9": shortestRefresh, "10": shortestRefresh, "11": 11 * time.Second,
		"86399": 86399 * time.Second, "86400": longestRefresh, "86401": longestRefresh,
	} {
		d, err := parse([]byte(`{"keys":null,"spiffe_refresh_hint":` + hint + `}`))
		if got := d.refresh(); got != want || err != nil {
			t.Errorf("%s: %v %v, want %v", hint, got, err, want)
		}
	}
}

// What is passed over, and what is no bundle.
func TestWhatIsNoBundle(t *testing.T) {
	for text, want := range map[string]string{
		"null": "it is no JSON object, but null", "{}": `it has no member "keys"`, `{"Keys":[]}`: `it has no member "keys"`,
		`{"keys":{}}`: `its member "keys" is no list`, `{"keys":7}`: `its member "keys" is no list`, "[]": "it is no JSON object",
		"{\"keys\":[\"\xff\"]}": "it is not UTF-8", `{"keys":[]}x`: "it is no JSON object",
	} {
		if _, err := parse([]byte(text)); err == nil || !strings.Contains(err.Error(), want) {
			t.Errorf("%q: %v, want %q", text, err, want)
		}
	}
	for entry, want := range map[string]string{
		`{"use":"jwt-svid","kid":"a","kty":"EC","n":1e999}`: "it is no JSON object", // a number that no float is
		`{"use":"jwt-svid","kid":"a","kty":"EC","n":1.5}`:   "a number in it is no whole number of 64 bits",
		`{"use":"jwt-svid","kid":"a","kty":"oct"}`:          "its kty is neither RSA nor EC",
		`{"use":"jwt-svid","kid":"a"}`:                      "its kty is neither RSA nor EC",
	} {
		if got, _ := passedOver(json.RawMessage(entry)); got != want {
			t.Errorf("%s: %q, want %q", entry, got, want)
		}
	}
}
