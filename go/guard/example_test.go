package guard_test

import (
	"fmt"
	"log"
	"net/http"
	"net/http/httptest"
	"os"
	"path/filepath"
	"strings"

	"svid.example/go/v3/bundles"
	"svid.example/go/v3/guard"
	"svid.example/go/v3/internal/issuer"
	"svid.example/go/v3/svid"
)

// A service that accepts each token once, over restarts too.
func ExampleGuard_Protect() {
	folder, err := os.MkdirTemp("", "example")
	if err != nil {
		log.Fatal(err)
	}
	defer os.RemoveAll(folder)
	name := filepath.Join(folder, "bundle.json") // as `spire-server bundle show -format spiffe` writes it
	spire, err := issuer.New("example.org")
	if err != nil {
		log.Fatal(err)
	}
	if err := os.WriteFile(name, spire.JWKSet(), 0o600); err != nil {
		log.Fatal(err)
	}

	g, err := guard.Open(guard.Options{
		Audiences: []string{"ledger"},
		Bundles:   []bundles.Spec{{Domain: "example.org", Source: name}},
		State:     filepath.Join(folder, "state"),
	})
	if err != nil {
		log.Fatal(err)
	}
	defer g.Close()
	hello := http.HandlerFunc(func(w http.ResponseWriter, r *http.Request) { fmt.Fprintln(w, "hello", guard.Caller(r).ID) })
	handler := g.Protect(hello) // for http.Handle

	token := spire.Token("ES256", map[string]any{"sub": "spiffe://example.org/web", "aud": "ledger", "exp": svid.Now() + 300})
	for i := 0; i < 2; i++ {
		request, answer := httptest.NewRequest(http.MethodGet, "/", nil), httptest.NewRecorder()
		request.Header.Set("Authorization", "Bearer "+token)
		handler.ServeHTTP(answer, request)
		fmt.Println(answer.Code, strings.TrimSpace(answer.Body.String()))
	}
	// Output:
	// 200 hello spiffe://example.org/web
	// 401 {"reason":"Replayed","result":"refused"}
}
