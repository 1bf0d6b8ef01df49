package bundles

import (
	"context"
	"crypto/x509"
	"encoding/pem"
	"io"
	"log"
	"net"
	"net/http"
	"net/http/httptest"
	"path/filepath"
	"sync"
	"testing"
	"time"

	"svid.example/go/v3/internal/patience"
)

// Each look at an address leaves at most the one connection that waits for the next look, whatever the server answers; where each look has authorities
// of its own, it leaves none.
func TestLooksAtAnAddressLeaveNoConnection(t *testing.T) {
	var mu sync.Mutex
	open, status := map[net.Conn]bool{}, 0
	e := httptest.NewUnstartedServer(http.HandlerFunc(func(w http.ResponseWriter, r *http.Request) {
		mu.Lock()
		defer mu.Unlock()
		w.WriteHeader(status)
		_, _ = io.WriteString(w, spire)
	}))
	e.Config.ErrorLog = log.New(io.Discard, "", 0)
	e.Config.ConnState = func(c net.Conn, is http.ConnState) {
		mu.Lock()
		defer mu.Unlock()
		if open[c] = true; is == http.StateClosed || is == http.StateHijacked {
			delete(open, c)
		}
	}
	e.StartTLS()
	defer e.Close()
	count := func() int {
		mu.Lock()
		defer mu.Unlock()
		return len(open)
	}
	roots, file := x509.NewCertPool(), filepath.Join(t.TempDir(), "ca.pem")
	roots.AddCert(e.Certificate())
	write(t, file, string(pem.EncodeToMemory(&pem.Block{Type: "CERTIFICATE", Bytes: e.Certificate().Raw})))
	for name, row := range map[string]struct {
		spec Spec
		most int
	}{
		"the authorities of the web": {Spec{Domain: "example.org", Source: e.URL}, 1},
		"authorities of its own":     {Spec{Domain: "example.org", Source: e.URL, Authorities: file}, 0},
		"another server":             {Spec{Domain: "example.org", Source: e.URL, ID: "spiffe://example.net/a"}, 0},
	} {
		for _, answer := range []int{http.StatusOK, http.StatusNotFound, http.StatusInternalServerError} {
			mu.Lock()
			status = answer
			mu.Unlock()
			w := &Watcher{client: httpsOnly(roots), options: Options{Limit: patience.Long}, held: map[string]*bundle{"example.net": {document: []byte(spire)}}}
			for i := 0; i < 30; i++ {
				text, err := w.fetch(context.Background(), row.spec)
				if fits := row.spec.ID == "" && answer == http.StatusOK; fits != (err == nil) || fits != (string(text) == spire) {
					t.Fatalf("%s, %d: %v", name, answer, err)
				}
			}
			for late := time.Now().Add(patience.Long); count() > row.most; time.Sleep(time.Millisecond) {
				if time.Now().After(late) {
					t.Fatalf("%s: 30 answers %d leave %d connections", name, answer, count())
				}
			}
			w.client.CloseIdleConnections()
		}
	}
}
