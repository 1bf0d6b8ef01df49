package server

import (
	"context"
	"crypto/sha256"
	"encoding/hex"
	"errors"
	"fmt"
	"hash/maphash"
	"net/http"
	"net/netip"
	"net/textproto"
	"net/url"
	"strconv"
	"strings"
	"sync/atomic"
)

// A CallerRule says what names the caller of a request, in modes bound and reuse:
//
//	address:HEADER  the one IP address of a header that the proxy sets on its request to /check
//	peer            the address of the connection to Envoy, as Envoy says it by gRPC
//	header:NAME     the value of a header that the proxy sets on its request to /check
//	principal       the first URI of the client's certificate, as Envoy says it by gRPC
//
// For guard.Protect, peer and principal are those of the connection to the service.
//
// Behind address:HEADER and peer may stand /BITS4,BITS6: then all addresses of a network of so many bits (IPv4, IPv6) are one caller.
type CallerRule struct {
	kind      string // address, peer, header or principal
	header    string // its canonical name
	four, six int    // bits of a network
	recent    recentCallers
}

// Source is what is known of a client beside its headers: "" where it is unknown.
type Source struct{ Address, Principal string }

// errCaller says how the rule is written.
var errCaller = errors.New("write address:HEADER or header:NAME, with a header that the proxy in front sets, or peer or principal where Envoy asks by gRPC")

// ParseCaller reads a rule.
func ParseCaller(text string) (*CallerRule, error) {
	rule := &CallerRule{four: 32, six: 128, recent: recentCallers{seed: maphash.MakeSeed()}}
	rest, network, hasNetwork := strings.Cut(text, "/")
	kind, header, hasHeader := strings.Cut(rest, ":")
	rule.kind = kind
	switch kind {
	case "address", "header":
		if !hasHeader || header == "" {
			return nil, fmt.Errorf("%q names no header: write %s:HEADER, with one that the proxy in front sets, as %s:X-Real-Ip", text, kind, kind)
		}
		if !isHeaderName(header) {
			return nil, fmt.Errorf("%q is no name of a header", header)
		}
		if rule.header = textproto.CanonicalMIMEHeaderKey(header); rule.header == "Authorization" {
			return nil, errors.New("Authorization has the token itself, which a thief has too: name a header that the proxy in front sets")
		}
	case "peer", "principal":
		if hasHeader {
			return nil, fmt.Errorf("%q: behind %s stands no header", text, kind)
		}
	default:
		return nil, fmt.Errorf("%q names no caller: %w", text, errCaller)
	}
	if !hasNetwork {
		return rule, nil
	}
	if kind != "address" && kind != "peer" {
		return nil, fmt.Errorf("%q: a network stands behind an address alone", text)
	}
	four, six, both := strings.Cut(network, ",")
	var okFour, okSix bool
	rule.four, okFour = bitsOf(four, 32)
	rule.six, okSix = bitsOf(six, 128)
	if !both || !okFour || !okSix {
		return nil, fmt.Errorf("%q: write a network as its bits of IPv4 (1 to 32) and of IPv6 (1 to 128), as /24,64", text)
	}
	return rule, nil
}

// bitsOf reads how many bits a network has.
func bitsOf(text string, most int) (bits int, ok bool) {
	n, err := strconv.ParseUint(text, 10, 8)
	return int(n), err == nil && n > 0 && int(n) <= most
}

// isHeaderName says whether a text is a token (RFC 9110, section 5.6.2).
func isHeaderName(text string) bool {
	for _, c := range []byte(text) {
		if !(c >= 'a' && c <= 'z' || c >= 'A' && c <= 'Z' || c >= '0' && c <= '9' || strings.IndexByte("!#$%&'*+-.^_`|~", c) >= 0) {
			return false
		}
	}
	return text != ""
}

// OfEnvoy says whether Envoy alone names such callers, by gRPC.
func (c *CallerRule) OfEnvoy() bool { return c.kind == "peer" || c.kind == "principal" }

// A Caller is who presents a token, in modes bound and reuse.
type Caller struct {
	name   string   // for the log
	digest [32]byte // tells it from all others
	fault  error    // why the request names none, an ErrNoCaller; then there is no digest
}

// ErrNoCaller: the request does not say who presents the token, so it is not judged.
var ErrNoCaller = errors.New("the request names no caller")

func noCaller(text string, values ...any) Caller {
	return Caller{fault: fmt.Errorf("%w: "+text, append([]any{ErrNoCaller}, values...)...)}
}

// isOne says whether it is a caller. One that nobody made is none: all requests of such would be one caller.
func (c Caller) isOne() bool { return c.fault == nil && c.digest != [32]byte{} }

// whyNone is why it is none.
func (c Caller) whyNone() error {
	if c.fault == nil {
		return ErrNoCaller
	}
	return c.fault
}

// callerBy is the caller of this name. The digest is over what kind of name it is, and the name. No kind has a byte 0, so no two of them have one
// text. It leaves out which header the name came from: all members of a group have one --caller, and where two proxies name one client by two headers,
// it is one caller.
func callerBy(kind, name string) Caller {
	var room [256]byte // A name of a usual length asks for no memory.
	digest := sha256.Sum256(append(append(append(room[:0], kind...), 0), name...))
	if kind != "address" && !isName(name) { // It may be a secret, such as a token.
		name = "sha256:" + hex.EncodeToString(digest[:16])
	}
	return Caller{name: name, digest: digest}
}

// Of is the caller of a request.
func (c *CallerRule) Of(header http.Header, source Source) Caller {
	switch {
	case c == nil:
		return noCaller("no rule says who the caller is")
	case c.kind == "principal" && source.Principal == "":
		return noCaller("no principal is known: let Envoy ask by gRPC, and clients show a certificate that it verifies (require_client_certificate, trusted_ca)")
	case c.kind == "principal" && !isURI(source.Principal): // Where a certificate has none, Envoy says a DNS name of it, or the subject.
		return noCaller("the client's certificate has no URI: let clients show an X.509-SVID that Envoy verifies (require_client_certificate, trusted_ca)")
	case c.kind == "principal":
		return callerBy("principal", source.Principal)
	case c.kind == "peer" && source.Address == "":
		return noCaller("no address of a peer is known: let Envoy ask by gRPC, or name a header that the proxy sets (--caller address:HEADER)")
	case c.kind == "peer":
		return c.within(source.Address)
	}
	values := header[c.header]
	value := ""
	if len(values) == 1 {
		value = strings.Trim(values[0], " \t") // the white space of a header's value (RFC 9110, section 5.6.3)
	}
	switch {
	case len(values) == 0:
		return noCaller("there is no header %s: let the proxy set it", c.header)
	case len(values) > 1:
		return noCaller("there are %d headers %s: let the proxy replace what a client sent", len(values), c.header)
	case value == "":
		return noCaller("the header %s is empty: let the proxy set it", c.header)
	case c.kind == "address":
		return c.within(value)
	}
	return callerBy("header", value)
}

// ByEnvoy is the caller of a request that Envoy asks about by gRPC. The headers that Envoy hands on are the client's own, so none of them names
// a caller.
func (c *CallerRule) ByEnvoy(source Source) Caller {
	if c != nil && !c.OfEnvoy() {
		return noCaller("by gRPC, Envoy hands on the header %s as the client sent it: take --caller peer or --caller principal", c.header)
	}
	return c.Of(nil, source)
}

// isURI says whether a text is an absolute URI with an authority, as SPIFFE IDs are.
func isURI(text string) bool {
	u, err := url.Parse(text)
	return err == nil && strings.HasPrefix(text[len(u.Scheme):], "://")
}

// mostShown is how many bytes of a value that is no address stand in the log. No token is so short.
const mostShown = 64

// A noAddress is an ErrNoCaller: what has the address of a client has another text, such as a list of addresses.
type noAddress struct{ where, text string }

func (n *noAddress) Error() string {
	if len(n.text) > mostShown {
		return n.withoutText()
	}
	return fmt.Sprintf("%v: %s has %q, which is not one IP address: let the proxy set it to that of the client", ErrNoCaller, n.where, n.text)
}

func (n *noAddress) withoutText() string {
	return fmt.Sprintf("%v: %s has %d bytes that are not one IP address: let the proxy set it to that of the client", ErrNoCaller, n.where, len(n.text))
}

func (n *noAddress) Unwrap() error { return ErrNoCaller }

// where says what has the address of a client.
func (c *CallerRule) where() string {
	if c.kind == "peer" {
		return "the peer"
	}
	return "the header " + c.header
}

// recentCallers has callers of before, by the texts of their addresses. There is room for so many, and a new one takes the place of another: whoever
// sends many addresses lets the others be read and digested again, and nothing else.
type recentCallers struct {
	seed  maphash.Seed
	known [1 << 8]atomic.Pointer[recentCaller]
}

type recentCaller struct {
	text string
	Caller
}

// slot is where the caller of a text is kept.
func (r *recentCallers) slot(text string) *atomic.Pointer[recentCaller] {
	return &r.known[maphash.String(r.seed, text)%uint64(len(r.known))]
}

// within is the caller of an address, or of its network.
func (c *CallerRule) within(text string) Caller {
	slot := c.recent.slot(text)
	if one := slot.Load(); one != nil && one.text == text {
		return one.Caller
	}
	text = strings.Clone(text) // (It may be part of a longer one.)
	from := c.networkOf(text)
	if from.fault == nil {
		slot.Store(&recentCaller{text, from})
	}
	return from
}

// networkOf reads an address.
func (c *CallerRule) networkOf(text string) Caller {
	address, err := netip.ParseAddr(text)
	if err != nil {
		return Caller{fault: &noAddress{c.where(), text}}
	}
	if address.Zone() != "" { // Hosts of two links may have one such address, and only this machine knows which link a zone is.
		return noCaller("%s has an address with a zone, which two clients may share: let the proxy set it to one without", c.where())
	}
	address = address.Unmap()
	bits := c.six
	if address.Is4() {
		bits = c.four
	}
	if bits == address.BitLen() {
		return callerBy("address", spelled(address, text))
	}
	network, err := address.Prefix(bits)
	if err != nil {
		return noCaller("%s has no network of %d bits: %v", c.where(), bits, err)
	}
	return callerBy("address", network.String())
}

// spelled is the one spelling of an address. Where the text has it already, no memory is asked for.
func spelled(address netip.Addr, text string) string {
	var room [64]byte
	if one := address.AppendTo(room[:0]); string(one) != text {
		return string(one)
	}
	return text
}

// callerIn is the caller of a request to /check, where that counts.
func (e *Engine) callerIn(header http.Header) Caller {
	if !e.asksCaller() {
		return Caller{}
	}
	return e.Caller.Of(header, Source{})
}

type callerKey struct{}

// WithCaller returns a context by which Engine.Check knows who presents the token.
func WithCaller(ctx context.Context, from Caller) context.Context {
	return context.WithValue(ctx, callerKey{}, from)
}

// CallerNamed is the caller of a name that a service gives.
func CallerNamed(name string) Caller {
	if name == "" {
		return noCaller("its name is empty")
	}
	return callerBy("name", name)
}

// namedIn is the caller of WithCaller, where that counts.
func (e *Engine) namedIn(ctx context.Context) Caller {
	if !e.asksCaller() {
		return Caller{}
	}
	if from, ok := ctx.Value(callerKey{}).(Caller); ok {
		return from
	}
	return noCaller("call guard.WithCaller, or let guard.Protect find it (Options.Caller)")
}
