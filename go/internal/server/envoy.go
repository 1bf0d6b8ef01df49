package server

import (
	"bytes"
	"net/http"
	"net/textproto"
	"strconv"
	"strings"

	"svid.example/go/v3/internal/extauthz"
	"svid.example/go/v3/internal/grpc"
	"svid.example/go/v3/svidhttp"
)

// MaxEnvoy is how many bytes a CheckRequest of Envoy may have: the headers of a request, and what Envoy says beside them.
const MaxEnvoy = 2 * svidhttp.MaxHeader

// A call that can't be read ends with such a status of gRPC. (Envoy then lets nothing through, unless it has failure_mode_allow.)
var (
	errNoCheck  = &grpc.Fault{Code: grpc.Unimplemented, Why: "only envoy.service.auth.v3.Authorization/Check is answered"}
	errTooLarge = &grpc.Fault{Code: grpc.ResourceExhausted, Why: "the message has more than " + strconv.Itoa(MaxEnvoy) + " bytes: let Envoy send no body (with_request_body)"}
)

// Envoy answers envoy.service.auth.v3.Authorization/Check, for a server of HTTP/2. It answers a request as Handler does at /check:
// an accepted one gets X-Spiffe-Id, X-Svid-Audience and X-Svid-Expires, and loses its Authorization; any other one is denied with
// the status, the headers and the body of /check. Where the token could not be judged, that is 503: such a request is denied too,
// whatever Envoy does about calls that fail.
func (e *Engine) Envoy() http.Handler {
	return http.HandlerFunc(func(w http.ResponseWriter, r *http.Request) {
		if r.Method != http.MethodPost || !isGRPC(r.Header.Get("Content-Type")) {
			http.Error(w, "this address answers gRPC", http.StatusUnsupportedMediaType)
			return
		}
		w.Header().Set("Content-Type", "application/grpc")
		answer, fault := e.checkEnvoy(r)
		if fault != nil {
			w.Header().Set("Grpc-Status", strconv.Itoa(fault.Code))
			w.Header().Set("Grpc-Message", fault.Why)
			return
		}
		w.Header().Set("Trailer", "Grpc-Status")
		_, _ = w.Write(grpc.Frame(answer))
		w.Header().Set("Grpc-Status", "0")
	})
}

// isGRPC says whether a type is one of gRPC with messages of protobuf.
func isGRPC(kind string) bool {
	return kind == "application/grpc" || kind == "application/grpc+proto" || strings.HasPrefix(kind, "application/grpc;")
}

// checkEnvoy answers one call.
func (e *Engine) checkEnvoy(r *http.Request) (answer []byte, fault *grpc.Fault) {
	if r.URL.Path != extauthz.Path {
		return nil, errNoCheck
	}
	message, fault := grpc.ReadOne(r.Body, MaxEnvoy)
	switch {
	case fault == grpc.ErrTooLarge:
		return nil, errTooLarge
	case fault != nil:
		return nil, fault
	}
	asked, err := extauthz.ReadHeaders(message, "authorization", "x-request-id", "x-forwarded-for")
	var from Caller
	if err == nil && e.asksCaller() {
		var source extauthz.Source
		source, err = extauthz.ReadSource(message)
		from = e.Caller.ByEnvoy(Source(source))
	}
	if err != nil {
		return nil, &grpc.Fault{Code: grpc.InvalidArgument, Why: "it is no CheckRequest"}
	}
	header := http.Header{}
	for name, values := range asked {
		header[textproto.CanonicalMIMEHeaderKey(name)] = values
	}
	who := callerOf(&http.Request{Header: header, RemoteAddr: r.RemoteAddr})
	who.bound = from
	v := e.judgeBearer(r.Context(), who, header["Authorization"])
	if v.err != nil {
		return e.deniedByEnvoy(who, v.err), nil
	}
	id, audience, expires := v.values()
	return extauthz.Accepted([]extauthz.Field{
		{Name: "x-spiffe-id", Value: id}, {Name: "x-svid-audience", Value: audience}, {Name: "x-svid-expires", Value: expires},
	}, "authorization"), nil
}

// deniedByEnvoy is the answer of /check to this error, as a CheckResponse.
func (e *Engine) deniedByEnvoy(who caller, err error) []byte {
	denial := e.denial(err)
	w := heard{header: http.Header{}}
	denial.Write(&w)
	fields := []extauthz.Field{{Name: "cache-control", Value: "no-store"}, {Name: "x-request-id", Value: who.request}}
	for _, name := range []string{"Content-Type", "Retry-After", "Www-Authenticate"} {
		if value := w.header.Get(name); value != "" {
			fields = append(fields, extauthz.Field{Name: strings.ToLower(name), Value: value})
		}
	}
	return extauthz.Denied(codeOf(denial.Status), denial.Reason, denial.Status, fields, w.body.String())
}

// heard is an answer over HTTP that stays here.
type heard struct {
	header http.Header
	body   bytes.Buffer
}

func (h *heard) Header() http.Header                  { return h.header }
func (h *heard) WriteHeader(int)                      {}
func (h *heard) Write(text []byte) (n int, err error) { return h.body.Write(text) }

// codeOf is the code of gRPC for a status of /check.
func codeOf(status int) int {
	switch status {
	case http.StatusUnauthorized:
		return grpc.Unauthenticated
	case http.StatusForbidden:
		return grpc.PermissionDenied
	}
	return grpc.Unavailable
}
