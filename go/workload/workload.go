// Package workload asks a SPIFFE Workload API, as SPIRE's agent serves it on a socket, for the trust bundles of JWT-SVIDs.
//
// It makes one call, FetchJWTBundles: a stream of gRPC over HTTP/2, without TLS. The HTTP/2 is that of Go's own libraries.
package workload

import (
	"bytes"
	"context"
	"errors"
	"fmt"
	"io"
	"net"
	"net/http"
	"net/url"
	"strconv"
	"strings"
	"sync/atomic"
	"time"

	"golang.org/x/net/http2"
	"svid.example/go/v3/internal/brief"
	"svid.example/go/v3/internal/grpc"
	"svid.example/go/v3/internal/protowire"
)

const (
	// method is the call (SPIFFE Workload API, section 6.2.2).
	method = "/SpiffeWorkloadAPI/FetchJWTBundles"
	// mostMessage is how many bytes a message may have: bundles of some hundred trust domains.
	mostMessage = 16 << 20
	// mostHeaders is how many bytes the headers of an answer may have, and those after its messages, which say why it ended.
	mostHeaders = 1 << 16
	// idle is how long a server may send nothing before it is asked by HTTP/2 whether it is still there. Servers of gRPC hang up
	// on who asks more often than every five minutes.
	idle = 6 * time.Minute
)

// ErrForGood: the server refuses the call as it is made, so the client does not make it again.
var ErrForGood = errors.New("it refuses the call itself")

// A Client asks the Workload API of one address. Each call has a connection of its own.
type Client struct {
	address     Address
	limit, idle time.Duration
}

// NewClient returns a client. The limit is how long the server may take for its first message, for the rest of one that it
// has begun, and to say that it is still there.
func NewClient(a Address, limit time.Duration) *Client { return &Client{a, limit, idle} }

// WatchBundles calls give with the bundles of all trust domains, by what the server calls these, once for each message. A
// message has all that are valid from then on. A bundle is a JWK set.
//
// It returns when ctx ends, when the server ends the stream or is silent for too long, or when something is wrong: the error
// is never nil, and wraps ErrForGood where the server does not want this call again.
func (c *Client) WatchBundles(ctx context.Context, give func(bundles map[string][]byte)) error {
	within, end := context.WithCancel(ctx)
	defer end()
	var isLate atomic.Bool
	late := time.AfterFunc(c.limit, func() {
		isLate.Store(true)
		end()
	})
	defer late.Stop()
	err := c.watch(within, late, give)
	if isLate.Load() {
		return fmt.Errorf("it is silent: no bundles came within %v", c.limit)
	}
	return err
}

// watch is WatchBundles. The timer late runs while a message is due.
func (c *Client) watch(ctx context.Context, late *time.Timer, give func(bundles map[string][]byte)) error {
	conn, err := new(net.Dialer).DialContext(ctx, c.address.network, c.address.where)
	if err != nil {
		return err
	}
	defer conn.Close()
	transport := http2.Transport{
		DisableCompression: true,
		MaxHeaderListSize:  mostHeaders,
		ReadIdleTimeout:    c.idle,
		PingTimeout:        c.limit,
	}
	server, err := transport.NewClientConn(conn)
	if err != nil {
		return err
	}
	// (The request has one message, which is empty.)
	request, err := http.NewRequestWithContext(ctx, http.MethodPost, "http://localhost"+method, bytes.NewReader(grpc.Frame(nil)))
	if err != nil {
		return err
	}
	request.Header = http.Header{
		"Content-Type":       {"application/grpc"},
		"Te":                 {"trailers"},
		"User-Agent":         {"svidd"},
		"Workload.spiffe.io": {"true"}, // SPIFFE Workload Endpoint, section 3
	}
	answer, err := server.RoundTrip(request)
	if err != nil {
		return err
	}
	defer answer.Body.Close()
	if kind := answer.Header.Get("Content-Type"); answer.StatusCode != http.StatusOK || !strings.HasPrefix(kind, "application/grpc") {
		return fmt.Errorf("it answers %s with %q: no gRPC is served there", brief.Text(answer.Status, brief.Most), brief.Text(kind, brief.Most))
	}
	for {
		message, err := grpc.Read(answer.Body, mostMessage, func() { late.Reset(c.limit) })
		late.Stop()
		var long grpc.TooLarge
		switch {
		case err == io.EOF:
			return ending(answer)
		case err == grpc.ErrCompressed:
			return errors.New("it sends a compressed message, which nobody asked for")
		case errors.As(err, &long):
			return fmt.Errorf("it sends a message of %d bytes; at most %d are read", long, mostMessage)
		case err != nil:
			return err
		}
		bundles, err := readBundles(message)
		if err != nil {
			return err
		}
		give(bundles)
	}
}

// ending says why a stream has ended. The status stands after it, or, where there was no message, in front.
func ending(answer *http.Response) error {
	status := answer.Trailer
	if status.Get("Grpc-Status") == "" {
		status = answer.Header
	}
	why, err := url.PathUnescape(status.Get("Grpc-Message"))
	if err != nil {
		why = status.Get("Grpc-Message")
	}
	why = brief.Text(why, brief.Most)
	code, err := strconv.Atoi(status.Get("Grpc-Status"))
	switch {
	case err != nil:
		return errors.New("it has ended the stream without a status")
	case code == grpc.OK:
		return errors.New("it has ended the stream")
	case code == grpc.InvalidArgument:
		return fmt.Errorf("%w (InvalidArgument): %s", ErrForGood, why)
	case code == grpc.PermissionDenied:
		return fmt.Errorf("it has no identity for this process (PermissionDenied): %s: register it as a workload", why)
	case code == grpc.Unavailable:
		return fmt.Errorf("it is not ready (Unavailable): %s", why)
	}
	return fmt.Errorf("it answers with code %d of gRPC: %s", code, why)
}

// The fields of a JWTBundlesResponse, and of an entry of its map.
const (
	bundlesField = 1
	keyField     = 1
	valueField   = 2
)

var errMessage = errors.New("it sends what is no JWTBundlesResponse")

// readBundles reads a JWTBundlesResponse.
func readBundles(message []byte) (map[string][]byte, error) {
	bundles := make(map[string][]byte)
	err := protowire.Each(message, func(number protowire.Number, kind protowire.Type, entry []byte) error {
		if number != bundlesField || kind != protowire.BytesType {
			return nil
		}
		var key string
		var bundle []byte
		err := protowire.Each(entry, func(number protowire.Number, kind protowire.Type, value []byte) error {
			switch {
			case kind != protowire.BytesType:
			case number == keyField:
				key = string(value)
			case number == valueField:
				bundle = value
			}
			return nil
		})
		bundles[key] = bundle
		return err
	})
	if err != nil {
		return nil, errMessage
	}
	return bundles, nil
}
