package server

import (
	"crypto/rand"
	"encoding/hex"
	"net"
	"net/http"
	"net/netip"
	"strconv"
	"strings"
	"sync/atomic"
	"time"
)

// A caller is who sent a request. Of it, only bound decides something, and that in mode bound alone. In mode reuse it is reported.
type caller struct {
	request string // the name of the request, which its answer has too
	client  string // the address of the client, for the log
	bound   Caller // whose the token is to be
}

// callerOf names a request by its X-Request-Id where that is a name, and else by one of its own.
func callerOf(r *http.Request) caller {
	c := caller{client: clientOf(r)}
	if given := r.Header["X-Request-Id"]; len(given) == 1 && isName(given[0]) {
		c.request = given[0]
	} else {
		c.request = names.next()
	}
	return c
}

// mostName is how many bytes the name of a request may have.
const mostName = 128

// isName says whether a text can stand in a line of a log, and is not too long for one.
func isName(text string) bool {
	for i := 0; i < len(text); i++ {
		switch c := text[i]; {
		case c >= '0' && c <= '9', c >= 'a' && c <= 'z', c >= 'A' && c <= 'Z', strings.IndexByte("-._:/+=", c) >= 0:
		default:
			return false
		}
	}
	return text != "" && len(text) <= mostName
}

// A naming gives names that no other process gives.
type naming struct {
	process string
	number  atomic.Uint64
}

var names = newNaming()

func newNaming() *naming {
	var some [8]byte
	if _, err := rand.Read(some[:]); err != nil {
		return &naming{process: strconv.FormatInt(time.Now().UnixNano(), 16)}
	}
	return &naming{process: hex.EncodeToString(some[:])}
}

func (n *naming) next() string {
	var room [64]byte
	return string(strconv.AppendUint(append(append(room[:0], n.process...), '-'), n.number.Add(1), 10))
}

// clientOf is the address that the proxy in front says last (X-Forwarded-For), and that of who asks where it says none.
func clientOf(r *http.Request) string {
	if given := r.Header["X-Forwarded-For"]; len(given) > 0 {
		last := given[len(given)-1]
		if address, err := netip.ParseAddr(strings.TrimSpace(last[strings.LastIndexByte(last, ',')+1:])); err == nil {
			return address.WithZone("").String()
		}
	}
	if host, _, err := net.SplitHostPort(r.RemoteAddr); err == nil {
		return host
	}
	return "unix"
}
