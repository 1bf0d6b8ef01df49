package dev

import (
	"net/http"
	"strconv"
	"strings"
	"time"

	"svid.example/go/v3/internal/grpc"
	"svid.example/go/v3/internal/protowire"
)

// The calls of the SPIFFE Workload API that are answered, and the most bytes that a message of a client may have.
const (
	fetchTokens  = "/SpiffeWorkloadAPI/FetchJWTSVID"
	fetchBundles = "/SpiffeWorkloadAPI/FetchJWTBundles"

	mostMessage = 1 << 16
)

// Workload answers the SPIFFE Workload API over gRPC, for a server of HTTP/2: FetchJWTSVID and FetchJWTBundles, as SPIRE's agent does. It attests
// nobody: whoever asks is the workload that he names, or Options.Subject. ended ends its streams.
func (d *Desk) Workload(ended <-chan struct{}) http.Handler {
	return http.HandlerFunc(func(w http.ResponseWriter, r *http.Request) {
		if r.Method != http.MethodPost || !strings.HasPrefix(r.Header.Get("Content-Type"), "application/grpc") {
			http.Error(w, "this address answers gRPC, "+Mark, http.StatusUnsupportedMediaType)
			return
		}
		w.Header().Set("Content-Type", "application/grpc")
		w.Header().Set("X-Svidd-Dev", Mark)
		w.Header().Set("Trailer", "Grpc-Status, Grpc-Message")
		fault := d.answer(w, r, ended)
		if fault == nil {
			fault = &grpc.Fault{}
		}
		w.Header().Set("Grpc-Status", strconv.Itoa(fault.Code))
		w.Header().Set("Grpc-Message", fault.Why)
	})
}

func (d *Desk) answer(w http.ResponseWriter, r *http.Request, ended <-chan struct{}) *grpc.Fault {
	if r.Header.Get("Workload.spiffe.io") != "true" { // (SPIFFE Workload Endpoint, section 3)
		return &grpc.Fault{Code: grpc.InvalidArgument, Why: "security header missing from request"}
	}
	message, fault := grpc.ReadOne(r.Body, mostMessage)
	switch {
	case fault != nil:
		return fault
	case r.URL.Path == fetchTokens:
		return d.answerTokens(w, message)
	case r.URL.Path == fetchBundles:
		return d.streamBundles(w, r, ended)
	}
	return &grpc.Fault{Code: grpc.Unimplemented, Why: "svidd dev answers FetchJWTSVID and FetchJWTBundles alone"}
}

// send sends a message.
func send(w http.ResponseWriter, message []byte) error {
	if _, err := w.Write(grpc.Frame(message)); err != nil {
		return err
	}
	if f, ok := w.(http.Flusher); ok {
		f.Flush()
	}
	return nil
}

// answerTokens answers FetchJWTSVID with one token.
func (d *Desk) answerTokens(w http.ResponseWriter, message []byte) *grpc.Fault {
	audience, subject, ok := readTokenRequest(message)
	switch {
	case !ok:
		return &grpc.Fault{Code: grpc.InvalidArgument, Why: "it is no JWTSVIDRequest"}
	case len(audience) == 0:
		return &grpc.Fault{Code: grpc.InvalidArgument, Why: "audience must be specified"}
	case subject == "":
		subject = d.Subject
	}
	if err := CheckSubject(subject, d.Domain.Name()); err != nil {
		return &grpc.Fault{Code: grpc.PermissionDenied, Why: "no identity issued"}
	}
	token, err := d.fetch(subject, audience)
	if err != nil {
		return &grpc.Fault{Code: grpc.Unavailable, Why: "no token could be signed"}
	}
	if send(w, protowire.AppendField(nil, 1, fields(token.Subject, token.Token))) != nil {
		return &grpc.Fault{Code: grpc.Unavailable, Why: "the answer was not taken"}
	}
	return nil
}

// readTokenRequest reads a JWTSVIDRequest: the fields audience (1, repeated) and spiffe_id (2).
func readTokenRequest(message []byte) (audience []string, subject string, ok bool) {
	err := protowire.Each(message, func(number protowire.Number, kind protowire.Type, value []byte) error {
		switch {
		case kind != protowire.BytesType:
		case number == 1:
			audience = append(audience, string(value))
		case number == 2:
			subject = string(value)
		}
		return nil
	})
	return audience, subject, err == nil
}

// fields are fields of text, by number from 1.
func fields(texts ...string) (message []byte) {
	for i, text := range texts {
		message = protowire.AppendField(message, protowire.Number(i+1), []byte(text))
	}
	return message
}

// streamBundles answers FetchJWTBundles: the bundle now, and after each change of keys.
func (d *Desk) streamBundles(w http.ResponseWriter, r *http.Request, ended <-chan struct{}) *grpc.Fault {
	for {
		changed := d.Domain.Changed()
		if send(w, protowire.AppendField(nil, 1, fields("spiffe://"+d.Domain.Name(), string(d.Domain.JWTKeys())))) != nil {
			return &grpc.Fault{Code: grpc.Unavailable, Why: "the answer was not taken"}
		}
		select {
		case <-changed:
		case <-r.Context().Done():
			return nil
		case <-ended:
			return &grpc.Fault{Code: grpc.Unavailable, Why: "svidd dev ends"}
		}
	}
}

// RotateEach lets the keys rotate in such intervals, until ended is closed. failed hears why they did not.
func (d *Desk) RotateEach(interval time.Duration, ended <-chan struct{}, failed func(error)) {
	ticker := time.NewTicker(interval)
	defer ticker.Stop()
	for {
		select {
		case <-ended:
			return
		case <-ticker.C:
			if err := d.Domain.Rotate(); err != nil {
				failed(err)
				continue
			}
			d.Rotated()
		}
	}
}
