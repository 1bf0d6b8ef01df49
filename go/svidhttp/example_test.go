package svidhttp_test

import (
	"context"
	"fmt"
	"log"
	"net/http"
	"net/http/httptest"
	"strings"

	"svid.example/go/v3/internal/issuer"
	"svid.example/go/v3/svid"
	"svid.example/go/v3/svidhttp"
)

// A validator and its keyring in front of a handler. The record is in memory: package guard has one that lasts.
func ExampleProtect() {
	spire, err := issuer.New("example.org")
	if err != nil {
		log.Fatal(err)
	}
	bundles := spire.Bundles() // {"example.org":{"keys":[..]}}
	keyring, err := svid.NewKeyring(bundles)
	if err != nil {
		log.Fatal(err)
	}
	defer keyring.Close()
	id, err := svid.NewValidatorID()
	if err != nil {
		log.Fatal(err)
	}
	validator, err := svid.Open(svid.Options{Audiences: []string{"ledger"}, Bundles: bundles, Longest: 3600, Ahead: 10, Step: 86400, ValidatorID: id})
	if err != nil {
		log.Fatal(err)
	}
	defer validator.Close()
	check := func(_ context.Context, token string) (svid.Accepted, error) {
		return validator.Accept(keyring, svid.Now(), token)
	}
	hello := func(w http.ResponseWriter, r *http.Request) {
		accepted, _ := svidhttp.Caller(r)
		fmt.Fprintln(w, "hello", accepted.ID)
	}
	handler := svidhttp.Protect(svidhttp.CheckerFunc(check), http.HandlerFunc(hello))

	token := spire.Token("ES256", map[string]any{"sub": "spiffe://example.org/web", "aud": "ledger", "exp": svid.Now() + 300})
	for _, authorization := range []string{"Bearer " + token, "Bearer " + token, ""} {
		request, answer := httptest.NewRequest(http.MethodGet, "/", nil), httptest.NewRecorder()
		if authorization != "" {
			request.Header.Set("Authorization", authorization)
		}
		handler.ServeHTTP(answer, request)
		fmt.Println(answer.Code, answer.Header().Get("WWW-Authenticate"), strings.TrimSpace(answer.Body.String()))
	}
	// Output:
	// 200  hello spiffe://example.org/web
	// 401 Bearer error="invalid_token", error_description="Replayed" {"reason":"Replayed","result":"refused"}
	// 401 Bearer realm="svid" {"reason":"NoToken","result":"refused"}
}
