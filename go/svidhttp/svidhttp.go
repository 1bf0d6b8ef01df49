// Package svidhttp lets only requests with a good token through to an http.Handler.
//
//	http.Handle("/", svidhttp.Protect(checker, handler))
//
// The Checker is a guard.Guard, or a function over a svid.Validator. Any other request gets status 401, 403 or 503, as Denial says.
// The handler reads who calls by Caller.
package svidhttp

import (
	"context"
	"errors"
	"net/http"

	"svid.example/go/v3/internal/jsontext"
	"svid.example/go/v3/svid"
)

// ErrNotAllowed: the token is good, and its subject may not call. It is not used up.
var ErrNotAllowed = errors.New("the caller's SPIFFE ID is not among those that may call")

// A Checker judges the tokens of requests. Its methods may be called by many goroutines at once.
type Checker interface {
	// Check accepts a token. Any error means that it did not: a svid.Refusal or ErrNotAllowed is an answer about the token, and
	// any other error says that there is none.
	Check(ctx context.Context, token string) (svid.Accepted, error)
}

// A CheckerFunc is a function that is a Checker.
type CheckerFunc func(ctx context.Context, token string) (svid.Accepted, error)

// Check calls the function.
func (f CheckerFunc) Check(ctx context.Context, token string) (svid.Accepted, error) {
	return f(ctx, token)
}

// A Reasoner is a Checker that has a word for each error that is no answer about a token. The error itself may name files and
// addresses, so no client gets it.
type Reasoner interface{ ReasonOf(err error) string }

// MaxHeader is how many bytes the headers of a request may have: room for the longest token, and for what a proxy adds. Give it
// to http.Server.MaxHeaderBytes.
const MaxHeader = 2 * svid.MaxToken

// Protect returns a handler that calls next for a request whose bearer token the checker accepts, and denies any other request.
func Protect(checker Checker, next http.Handler) http.Handler {
	return http.HandlerFunc(func(w http.ResponseWriter, r *http.Request) {
		token, err := svid.BearerToken(r.Header["Authorization"])
		var accepted svid.Accepted
		if err == nil {
			accepted, err = checker.Check(r.Context(), token)
		}
		if err != nil {
			denial := DenialOf(err)
			if named, ok := checker.(Reasoner); ok && denial.Status == http.StatusServiceUnavailable {
				denial.Reason = named.ReasonOf(err)
			}
			w.Header().Set("Cache-Control", "no-store")
			denial.Write(w)
			return
		}
		next.ServeHTTP(w, r.WithContext(context.WithValue(r.Context(), callerKey{}, accepted)))
	})
}

type callerKey struct{}

// Caller returns the accepted token of a request that came through Protect. ok is false for any other request.
func Caller(r *http.Request) (accepted svid.Accepted, ok bool) {
	accepted, ok = r.Context().Value(callerKey{}).(svid.Accepted)
	return accepted, ok
}

// A Denial is the answer to a request that is not let through.
type Denial struct {
	Status int    // 401, or 403 for ErrNotAllowed, or 503 where there is no answer about the token
	Result string // "refused" or "unavailable"
	Reason string // NoToken, NotBearer, NotAllowed, the name of a svid.Refusal, or why there is no answer

	code string // the error code of RFC 6750, section 3.1; "" where the client tried no bearer token: section 3 wants none then
}

// DenialOf returns the answer for an error of svid.BearerToken or of Checker.Check.
func DenialOf(err error) Denial {
	var none svid.NoBearer
	var refusal svid.Refusal
	switch {
	case errors.As(err, &none) && none == svid.BearerAbsent:
		return Denial{Status: http.StatusUnauthorized, Result: "refused", Reason: "NoToken"}
	case errors.As(err, &none) && none == svid.BearerScheme:
		return Denial{Status: http.StatusUnauthorized, Result: "refused", Reason: "NotBearer"}
	case errors.As(err, &none):
		return Denial{http.StatusUnauthorized, "refused", "NotBearer", "invalid_request"}
	case errors.Is(err, ErrNotAllowed):
		return Denial{http.StatusForbidden, "refused", "NotAllowed", "insufficient_scope"}
	case errors.As(err, &refusal):
		return Denial{http.StatusUnauthorized, "refused", refusal.String(), "invalid_token"}
	}
	return Denial{Status: http.StatusServiceUnavailable, Result: "unavailable", Reason: "NotJudged"}
}

// noTokenTried is a challenge without an error. RFC 6750, section 3, wants one parameter at least.
const noTokenTried = `Bearer realm="svid"`

// Write answers with the status, a challenge as RFC 6750 has it or Retry-After, and a JSON body with Result and Reason.
func (d Denial) Write(w http.ResponseWriter) {
	body := jsontext.Append([]byte(`{"reason":`), d.Reason)
	body = append(jsontext.Append(append(body, `,"result":`...), d.Result), "}\n"...)
	switch {
	case d.Status == http.StatusServiceUnavailable:
		w.Header().Set("Retry-After", "1")
	case d.code == "":
		w.Header().Set("WWW-Authenticate", noTokenTried)
	default:
		w.Header().Set("WWW-Authenticate", `Bearer error="`+d.code+`", error_description="`+d.Reason+`"`)
	}
	w.Header().Set("Content-Type", "application/json")
	w.WriteHeader(d.Status)
	_, _ = w.Write(body)
}
