package workload

import (
	"context"
	"errors"
	"net"
	"net/url"
	"path"
	"strconv"
	"strings"
	"time"
)

// EndpointSocket is the variable of the environment that gives a workload the address of its Workload API (SPIFFE Workload
// Endpoint, section 4).
const EndpointSocket = "SPIFFE_ENDPOINT_SOCKET"

// An Address is where a Workload API is served.
type Address struct {
	network string // unix or tcp
	where   string // a path, or an IP address and a port
}

var errAddress = errors.New("it is not like unix:///run/spire/agent.sock or tcp://127.0.0.1:8081")

// ParseAddress reads unix:PATH, where PATH begins with a slash, or tcp://IP:PORT (SPIFFE Workload Endpoint, section 4).
func ParseAddress(text string) (Address, error) {
	if where := strings.TrimPrefix(text, "unix:"); where != text {
		if strings.HasPrefix(where, "//") {
			where = where[2:]
		}
		if !path.IsAbs(where) || strings.ContainsAny(where, "?#") {
			return Address{}, errAddress
		}
		return Address{"unix", where}, nil
	}
	u, err := url.Parse(text)
	if err != nil || u.Scheme != "tcp" || text[len("tcp"):] != "://"+u.Host { // so nothing else stands there, not even an empty part
		return Address{}, errAddress
	}
	host, port, err := net.SplitHostPort(u.Host)
	if number, bad := strconv.ParseUint(port, 10, 16); err != nil || bad != nil || number == 0 || net.ParseIP(host) == nil {
		return Address{}, errAddress
	}
	return Address{"tcp", u.Host}, nil
}

// WatchBundles asks the Workload API at this address, as Client.WatchBundles does. It makes an Address a bundles.API.
func (a Address) WatchBundles(ctx context.Context, limit time.Duration, give func(bundles map[string][]byte)) error {
	return NewClient(a, limit).WatchBundles(ctx, give)
}

// IsForGood says whether an error wraps ErrForGood.
func (a Address) IsForGood(err error) bool { return errors.Is(err, ErrForGood) }
