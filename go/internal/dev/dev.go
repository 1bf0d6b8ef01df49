// Package dev is what svidd dev has beside a sidecar, for development only: a SPIFFE Workload API, a bundle endpoint, a mint, and a page that shows
// tokens, callers and decisions as they come. Whoever reaches these gets good tokens, so they answer this machine alone.
package dev

import (
	"crypto/rand"
	"crypto/tls"
	"encoding/hex"
	"encoding/json"
	"errors"
	"fmt"
	"io"
	"net"
	"net/http"
	"net/netip"
	"sort"
	"strings"
	"sync"
	"time"

	"svid.example/go/v3/internal/issuer"
	"svid.example/go/v3/svid"
)

// Mark stands in each line that svidd dev writes, and in its answers.
const Mark = "for development only"

// CheckAddress is an error where an address is other than 127.0.0.1:PORT.
func CheckAddress(text string) error {
	at, err := netip.ParseAddrPort(text)
	if err != nil || at.Addr() != netip.AddrFrom4([4]byte{127, 0, 0, 1}) {
		return fmt.Errorf("%q is not 127.0.0.1:PORT: svidd dev is %s, and answers this machine alone", text, Mark)
	}
	return nil
}

// Options are those of a Desk.
type Options struct {
	Domain   *issuer.Domain
	Subject  string           // the SPIFFE ID that a token has where nobody asks for another one
	Audience string           // the same of its audience
	Page     string           // the address of the desk, 127.0.0.1:PORT
	Check    string           // that of the sidecar
	Now      func() time.Time // the clock; nil is this machine's
}

// A Desk mints tokens, and keeps what happened lately for the page. Its methods may be called by many goroutines at once.
type Desk struct {
	Options
	mu     sync.Mutex
	events []event       // the last ones
	next   uint64        // the number of the next one: greater than those of earlier desks, which a browser may have seen
	came   chan struct{} // closed when one comes
	given  map[string]issuer.Minted
}

// An event is what the page shows as a line.
type event struct {
	number uint64
	text   []byte // JSON
}

const (
	mostEvents = 500
	mostGiven  = 1024
)

// NewDesk returns a desk.
func NewDesk(o Options) *Desk {
	if o.Now == nil {
		o.Now = time.Now
	}
	return &Desk{Options: o, next: uint64(o.Now().UnixMilli()), came: make(chan struct{}), given: map[string]issuer.Minted{}}
}

// add keeps an event of this kind. The oldest ones go.
func (d *Desk) add(kind string, value any) {
	text, err := json.Marshal(map[string]any{"kind": kind, "time": d.Now().UTC().Format(time.RFC3339), "value": value})
	if err != nil {
		return // (no value of this package is such)
	}
	d.mu.Lock()
	defer d.mu.Unlock()
	if len(d.events) == mostEvents {
		d.events = append(d.events[:0:0], d.events[1:]...)
	}
	d.events = append(d.events, event{d.next, text})
	d.next++
	close(d.came)
	d.came = make(chan struct{})
}

// after are the events behind this number, and what is closed when another one comes.
func (d *Desk) after(number uint64) (these []event, came <-chan struct{}) {
	d.mu.Lock()
	defer d.mu.Unlock()
	from := sort.Search(len(d.events), func(i int) bool { return d.events[i].number > number })
	return append(these, d.events[from:]...), d.came
}

// An Ask is what somebody wants of the mint. What is empty is as usual.
type Ask struct {
	Subject  string       `json:"sub,omitempty"`
	Audience []string     `json:"aud,omitempty"`
	Life     uint64       `json:"life,omitempty"` // seconds
	JTI      string       `json:"jti,omitempty"`  // "none" writes none, as SPIRE does; "" draws one
	Fault    issuer.Fault `json:"fault,omitempty"`
}

// A Given is what the mint answers.
type Given struct {
	issuer.Minted
	Key   string `json:"key"`   // by which the record names the token
	Check string `json:"check"` // the address of the sidecar
	For   string `json:"for"`   // Mark
}

// Mint signs a token. The error says what can't be signed.
func (d *Desk) Mint(a Ask) (Given, error) {
	w := issuer.Wish{Subject: a.Subject, Audience: a.Audience, Life: time.Duration(a.Life) * time.Second, JTI: a.JTI, Fault: a.Fault}
	most := uint64(d.Domain.Life() / time.Second)
	switch {
	case a.Life > most:
		return Given{}, fmt.Errorf("a token lives for at most %d seconds here: let svidd dev give more (--life)", most)
	case a.Life == 0:
		w.Life = d.Domain.Life()
	}
	if w.Subject == "" {
		w.Subject = d.Subject
	}
	if len(w.Audience) == 0 {
		w.Audience = []string{d.Audience}
	}
	switch w.JTI {
	case "none":
		w.JTI = ""
	case "":
		var some [8]byte
		if _, err := rand.Read(some[:]); err != nil {
			return Given{}, err
		}
		w.JTI = hex.EncodeToString(some[:])
	}
	if err := CheckSubject(w.Subject, d.Domain.Name()); err != nil {
		return Given{}, err
	}
	if err := checkFault(w.Fault); err != nil {
		return Given{}, err
	}
	return d.sign(w)
}

// sign signs a token, and shows it.
func (d *Desk) sign(w issuer.Wish) (Given, error) {
	minted, err := d.Domain.Mint(w)
	if err != nil {
		return Given{}, err
	}
	said, err := svid.Read(minted.Token)
	if err != nil {
		return Given{}, fmt.Errorf("no validator would read such a token: %w", err)
	}
	given := Given{Minted: minted, Key: said.Key.String(), Check: d.Check, For: Mark}
	d.add("token", given)
	return given, nil
}

// CheckSubject is an error where a text is no ID of a workload of this trust domain.
func CheckSubject(id, domain string) error {
	of, path, err := svid.ParseID(id)
	if err != nil {
		return err
	}
	if of != domain || path == "" {
		return fmt.Errorf("%q is no workload of the trust domain %s: write spiffe://%s/PATH", id, domain, domain)
	}
	return nil
}

// CheckDomain is an error where a text can't name a trust domain.
func CheckDomain(name string) error { return CheckSubject("spiffe://"+name+"/a", name) }

func checkFault(f issuer.Fault) error {
	names := make([]string, 0, len(issuer.Faults))
	for _, one := range issuer.Faults {
		if f == "" || f == one {
			return nil
		}
		names = append(names, string(one))
	}
	return fmt.Errorf("%q is no fault: name %s, or none", f, strings.Join(names, ", "))
}

// fetch is a token as SPIRE's agent gives it: without a jti, and the same one until half of its life is over.
func (d *Desk) fetch(subject string, audience []string) (issuer.Minted, error) {
	sort.Strings(audience)
	name := subject + "\n" + strings.Join(audience, "\n")
	now := d.Now().Unix()
	d.mu.Lock()
	had, ok := d.given[name]
	d.mu.Unlock()
	if ok && 2*now < had.Issued+had.Expires {
		return had, nil
	}
	given, err := d.sign(issuer.Wish{Subject: subject, Audience: audience, Life: d.Domain.Life()})
	if err != nil {
		return issuer.Minted{}, err
	}
	d.mu.Lock()
	defer d.mu.Unlock()
	if len(d.given) >= mostGiven {
		d.given = map[string]issuer.Minted{}
	}
	d.given[name] = given.Minted
	return given.Minted, nil
}

// Rotated shows that the keys have rotated.
func (d *Desk) Rotated() { d.add("keys", d.Domain.KeyIDs()) }

// Endpoint answers a bundle endpoint's requests (SPIFFE Federation, section 5) with the bundle, to be read again within hint.
func (d *Desk) Endpoint(hint time.Duration) http.Handler {
	return http.HandlerFunc(func(w http.ResponseWriter, r *http.Request) {
		w.Header().Set("X-Svidd-Dev", Mark)
		w.Header().Set("Content-Type", "application/json")
		_, _ = w.Write(d.Domain.Bundle(hint))
	})
}

// EndpointTLS shows its certificate, which is renewed before it expires.
func (d *Desk) EndpointTLS() *tls.Config {
	var mu sync.Mutex
	var shown *tls.Certificate
	var until time.Time
	return &tls.Config{MinVersion: tls.VersionTLS12, GetCertificate: func(*tls.ClientHelloInfo) (*tls.Certificate, error) {
		mu.Lock()
		defer mu.Unlock()
		if d.Now().Before(until) {
			return shown, nil
		}
		made, err := d.Domain.Server(net.IPv4(127, 0, 0, 1))
		if err != nil {
			return nil, err
		}
		shown, until = made, d.Now().Add(issuer.ServerLife/2)
		return shown, nil
	}}
}

// OfConnection lets the address of the connection name the caller, as a proxy would: it replaces the headers X-Real-Ip and X-Forwarded-For.
func OfConnection(next http.Handler) http.Handler {
	return http.HandlerFunc(func(w http.ResponseWriter, r *http.Request) {
		if host, _, err := net.SplitHostPort(r.RemoteAddr); err == nil {
			r.Header["X-Real-Ip"] = []string{host}
		} else {
			delete(r.Header, "X-Real-Ip")
		}
		delete(r.Header, "X-Forwarded-For")
		next.ServeHTTP(w, r)
	})
}

// Marked writes Mark into each answer of a handler.
func Marked(next http.Handler) http.Handler {
	return http.HandlerFunc(func(w http.ResponseWriter, r *http.Request) {
		w.Header().Set("X-Svidd-Dev", Mark)
		next.ServeHTTP(w, r)
	})
}

// Lines takes lines of the sidecar's log. It shows each decision on the page, and writes each line to out in words.
func (d *Desk) Lines(out io.Writer) io.Writer { return lines{d, out} }

type lines struct {
	desk *Desk
	out  io.Writer
}

func (l lines) Write(text []byte) (int, error) {
	for _, line := range strings.SplitAfter(string(text), "\n") {
		var said map[string]any
		if json.Unmarshal([]byte(line), &said) != nil {
			continue
		}
		switch said["event"] {
		case "accepted", "refused", "unavailable", "second caller":
			l.desk.add("decision", said)
		}
		if err := Say(l.out, inWords(said)); err != nil {
			return 0, err
		}
	}
	return len(text), nil
}

// Say writes a line that says what it is for.
func Say(out io.Writer, text string) error {
	_, err := fmt.Fprintf(out, "svidd dev (%s): %s\n", Mark, text)
	return err
}

// shownFields are those of a line of the log that are said, in this order.
var shownFields = []string{"reason", "says", "error", "sub", "aud", "caller", "first", "second", "key"}

// inWords is a line of the log in one line of words.
func inWords(said map[string]any) string {
	words := []string{fmt.Sprint(said["event"])}
	for _, name := range shownFields {
		if value, ok := said[name]; ok {
			words = append(words, fmt.Sprintf("%s=%v", name, value))
		}
	}
	return strings.Join(words, " ")
}

// errNotHere: a page of another address, or a name that was made to lead here, asked.
var errNotHere = errors.New("ask by the address of the page itself")
