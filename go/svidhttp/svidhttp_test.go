package svidhttp

import (
	"context"
	"errors"
	"fmt"
	"net/http"
	"net/http/httptest"
	"testing"

	"svid.example/go/v3/svid"
)

// What a request gets for each error, and that nothing of the error itself is in it.
func TestDenials(t *testing.T) {
	for _, row := range []struct {
		err    error
		status int
		body   string
	}{
		{svid.Replayed, 401, `{"reason":"Replayed","result":"refused"}`},
		{fmt.Errorf("wrapped: %w", svid.Expired), 401, `{"reason":"Expired","result":"refused"}`},
		{ErrNotAllowed, 403, `{"reason":"NotAllowed","result":"refused"}`},
		{errors.New("/secret"), 503, `{"reason":"NotJudged","result":"unavailable"}`},
		{svid.ErrClosed, 503, `{"reason":"NotJudged","result":"unavailable"}`},
		{context.Canceled, 503, `{"reason":"NotJudged","result":"unavailable"}`},
	} {
		called := false
		check := CheckerFunc(func(context.Context, string) (svid.Accepted, error) {
			return svid.Accepted{ID: "spiffe://example.org/web"}, row.err
		})
		r, w := httptest.NewRequest(http.MethodGet, "/", nil), httptest.NewRecorder()
		r.Header.Set("Authorization", "Bearer x")
		Protect(check, http.HandlerFunc(func(http.ResponseWriter, *http.Request) { called = true })).ServeHTTP(w, r)
		if called || w.Code != row.status || w.Body.String() != row.body+"\n" || w.Header().Get("Content-Type") != "application/json" ||
			w.Header().Get("Cache-Control") != "no-store" {
			t.Errorf("%v: %d %q %v, called: %v", row.err, w.Code, w.Body, w.Header(), called)
		}
	}
}

// A request that has several headers, or none, reaches neither the checker nor the handler; nobody but Protect says who calls.
func TestOnlyProtectSaysWhoCalls(t *testing.T) {
	never := CheckerFunc(func(context.Context, string) (svid.Accepted, error) {
		t.Error("the checker is asked")
		return svid.Accepted{}, nil
	})
	for _, authorization := range [][]string{nil, {}, {"Bearer a", "Bearer b"}, {"Bearer"}, {"Bearer a b"}, {"Basic x"}} {
		r, w := httptest.NewRequest(http.MethodGet, "/", nil), httptest.NewRecorder()
		r.Header["Authorization"] = authorization
		Protect(never, http.HandlerFunc(func(http.ResponseWriter, *http.Request) { t.Error("the handler is called") })).ServeHTTP(w, r)
		if w.Code != 401 {
			t.Errorf("%q: %d", authorization, w.Code)
		}
	}
	r := httptest.NewRequest(http.MethodGet, "/", nil)
	if accepted, ok := Caller(r); ok || accepted.ID != "" {
		t.Error(accepted, ok)
	}
}

// A worded checker has a word for each error that is no answer about a token.
type worded struct{ err error }

func (c worded) Check(context.Context, string) (svid.Accepted, error) { return svid.Accepted{}, c.err }
func (worded) ReasonOf(error) string                                  { return "NotClaimed" }

// Of an error that is no answer about a token, a client reads the checker's word, and nothing of the error itself.
func TestAClientReadsAWordOfTheChecker(t *testing.T) {
	for err, want := range map[error]string{
		errors.New("dial tcp 192.0.2.1:6379: /run/secret"): `{"reason":"NotClaimed","result":"unavailable"}`,
		svid.Replayed: `{"reason":"Replayed","result":"refused"}`,
	} {
		r, w := httptest.NewRequest(http.MethodGet, "/", nil), httptest.NewRecorder()
		r.Header.Set("Authorization", "Bearer x")
		Protect(worded{err}, http.NotFoundHandler()).ServeHTTP(w, r)
		if w.Body.String() != want+"\n" {
			t.Errorf("%v: %q", err, w.Body)
		}
	}
}
