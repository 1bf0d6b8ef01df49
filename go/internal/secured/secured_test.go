package secured

import (
	"context"
	"crypto/tls"
	"crypto/x509"
	"errors"
	"io"
	"net"
	"net/http"
	"net/http/httptest"
	"os"
	"runtime/debug"
	"testing"
	"time"

	"svid.example/go/v3/internal/patience"
)

// A server that is not trusted keeps no connection: who tries again and again would use up its own file descriptors.
func TestAServerThatIsNotTrustedKeepsNoConnection(t *testing.T) {
	defer debug.SetGCPercent(debug.SetGCPercent(-1)) // (which closes what nobody has)
	known := httptest.NewTLSServer(http.NotFoundHandler())
	defer known.Close()
	l, err := net.Listen("tcp", "127.0.0.1:0")
	if err != nil {
		t.Fatal(err)
	}
	defer l.Close()
	ended := make(chan error, 1)
	go func() {
		raw, err := l.Accept()
		if err != nil {
			ended <- err
			return
		}
		defer raw.Close()
		_ = tls.Server(raw, &tls.Config{Certificates: known.TLS.Certificates}).Handshake()
		_ = raw.SetReadDeadline(time.Now().Add(patience.Long))
		_, err = io.Copy(io.Discard, raw)
		ended <- err
	}()
	ctx, cancel := context.WithTimeout(context.Background(), patience.Long)
	defer cancel()
	var unknown x509.UnknownAuthorityError
	if c, err := Dial(ctx, "tcp", l.Addr().String(), &tls.Config{RootCAs: x509.NewCertPool()}, patience.Long); c != nil || !errors.As(err, &unknown) {
		t.Errorf("%v, %v", c, err)
	}
	if err := <-ended; errors.Is(err, os.ErrDeadlineExceeded) {
		t.Errorf("the connection stays: %v", err)
	}
}
