package bundles

import (
	"crypto/tls"
	"crypto/x509"
	"encoding/asn1"
	"encoding/json"
	"errors"
	"fmt"
	"net/http"
	"net/url"
	"strings"
	"time"

	"svid.example/go/v3/internal/brief"
	"svid.example/go/v3/svid"
)

// How the server of an address shows that it is the right one (SPIFFE Federation, section 5.2). Profile https_web: by a
// certificate for its name, of the system's authorities or those of Spec.Authorities. Profile https_spiffe: by an X.509-SVID of
// Spec.ID, of the authorities that a known bundle has.

var (
	errNotOneID       = errors.New("its certificate has not exactly one URI, so it is no X.509-SVID")
	errIsAuthority    = errors.New("its certificate may sign others, so it is no X.509-SVID of a server")
	errNoCertificate  = errors.New("it shows no certificate")
	errNoAuthorities  = errors.New(`no entry of it has the use "x509-svid" and one certificate`)
	errNoPEM          = errors.New("it has no certificate as PEM")
	errLeadsElsewhere = errors.New("it leads elsewhere, which the profile https_spiffe does not allow")
)

// endpoint is the client for one request to the address of a spec.
func (w *Watcher) endpoint(s Spec) (*http.Client, error) {
	switch {
	case s.ID != "":
		roots, err := w.authoritiesOf(s)
		if err != nil {
			return nil, err
		}
		return forSVID(s.ID, roots), nil
	case s.Authorities != "":
		roots, err := readPEM(s.Authorities)
		if err != nil {
			return nil, err
		}
		client := httpsOnly(roots)
		once(client)
		return client, nil
	}
	return w.client, nil
}

// mostOfAnswer is how many bytes of a status or an address that a server sends stand in an error.
const mostOfAnswer = 256

// notAsked is the error of a request, whose address may be one that a server led to.
func notAsked(err error) error {
	var request *url.Error
	if errors.As(err, &request) {
		request.URL = brief.Text(request.URL, mostOfAnswer)
	}
	return err
}

// once lets no connection stay after its request, since each request has a client of its own: the authorities may be other ones
// for the next one.
func once(client *http.Client) {
	if transport, ok := client.Transport.(*http.Transport); ok {
		transport.DisableKeepAlives = true
	}
}

// forSVID is a client of a server with the X.509-SVID of this ID. It follows no redirect, since only this server is known.
func forSVID(id string, roots *x509.CertPool) *http.Client {
	client := httpsOnly(nil)
	once(client)
	client.Transport.(*http.Transport).TLSClientConfig = &tls.Config{
		MinVersion: tls.VersionTLS12,
		// The name in the address says nothing in this profile. VerifyConnection runs for each connection, and refuses all others.
		InsecureSkipVerify: true,
		VerifyConnection:   func(c tls.ConnectionState) error { return checkSVID(c.PeerCertificates, id, roots, time.Now()) },
	}
	client.CheckRedirect = func(*http.Request, []*http.Request) error { return errLeadsElsewhere }
	return client
}

// checkSVID is an error where certificates are not those of a server with this ID (X.509-SVID, section 5).
func checkSVID(shown []*x509.Certificate, id string, roots *x509.CertPool, now time.Time) error {
	if len(shown) == 0 {
		return errNoCertificate
	}
	leaf, between := shown[0], x509.NewCertPool()
	for _, c := range shown[1:] {
		between.AddCert(c)
	}
	uris, err := urisOf(leaf)
	switch {
	case err != nil:
		return err
	case len(uris) != 1:
		return errNotOneID
	case uris[0] != id:
		return fmt.Errorf("its certificate is that of %.256q, and not of %s", uris[0], id)
	case leaf.IsCA || leaf.KeyUsage&(x509.KeyUsageCertSign|x509.KeyUsageCRLSign) != 0:
		return errIsAuthority
	}
	_, err = leaf.Verify(x509.VerifyOptions{Roots: roots, Intermediates: between, CurrentTime: now, KeyUsages: []x509.ExtKeyUsage{x509.ExtKeyUsageServerAuth}})
	return err
}

// Object identifier and tag of names (RFC 5280, section 4.2.1.6).
var subjectAltName = asn1.ObjectIdentifier{2, 5, 29, 17}

const uniformResourceIdentifier = 6

// urisOf are the URIs of a certificate, byte for byte: what a parser of addresses makes of two may be the same text.
func urisOf(c *x509.Certificate) (uris []string, err error) {
	for _, extension := range c.Extensions {
		if !extension.Id.Equal(subjectAltName) {
			continue
		}
		var names []asn1.RawValue
		if rest, err := asn1.Unmarshal(extension.Value, &names); err != nil || len(rest) > 0 {
			return nil, errNotOneID
		}
		for _, name := range names {
			if name.Class == asn1.ClassContextSpecific && name.Tag == uniformResourceIdentifier {
				uris = append(uris, string(name.Bytes))
			}
		}
	}
	return uris, nil
}

// authoritiesOf are those by which the server of a spec with an ID is known: where its bundle is that of the ID's own trust domain,
// the last good one, and before the first one the file; else the file, or where there is none, the last good bundle of the ID's
// trust domain.
func (w *Watcher) authoritiesOf(s Spec) (*x509.CertPool, error) {
	domain := domainOf(s.ID)
	w.mu.Lock()
	last := w.held[domain]
	w.mu.Unlock()
	if last != nil && (s.Authorities == "" || domain == s.Domain) {
		roots, err := authoritiesIn(last.document)
		if err != nil {
			err = fmt.Errorf("the bundle of %s: %w", domain, err)
		}
		return roots, err
	}
	if s.Authorities == "" {
		return nil, fmt.Errorf("the bundle of %s, by which its server is known, was not read yet", domain)
	}
	return readAuthorities(s.Authorities)
}

// readAuthorities reads the authorities of a trust bundle that is a file.
func readAuthorities(name string) (*x509.CertPool, error) {
	text, err := readFile(name)
	if err != nil {
		return nil, err
	}
	roots, err := authoritiesIn(text)
	if err != nil {
		err = fmt.Errorf("%s: %w", name, err)
	}
	return roots, err
}

// authoritiesIn are the certificates of a trust bundle that sign X.509-SVIDs (SPIFFE Trust Domain and Bundle, section 4.2.2).
func authoritiesIn(bundle []byte) (*x509.CertPool, error) {
	d, err := parse(bundle)
	if err != nil {
		return nil, err
	}
	roots, some := x509.NewCertPool(), false
	d.each(func(_ int, entry json.RawMessage) {
		var key struct {
			Use string   `json:"use"`
			X5C [][]byte `json:"x5c"` // each DER as base64
		}
		if json.Unmarshal(entry, &key) != nil || key.Use != "x509-svid" || len(key.X5C) != 1 {
			return
		}
		if c, err := x509.ParseCertificate(key.X5C[0]); err == nil {
			roots.AddCert(c)
			some = true
		}
	})
	if !some {
		return nil, errNoAuthorities
	}
	return roots, nil
}

// readPEM reads a file of authorities for https_web.
func readPEM(name string) (*x509.CertPool, error) {
	text, err := readFile(name)
	if err != nil {
		return nil, err
	}
	roots := x509.NewCertPool()
	if !roots.AppendCertsFromPEM(text) {
		return nil, fmt.Errorf("%s: %w", name, errNoPEM)
	}
	return roots, nil
}

// CheckAuthorities reads the file of authorities, if there is one, and says why no server can be known by it.
func (s Spec) CheckAuthorities() error {
	var err error
	switch {
	case s.Authorities == "":
	case s.ID != "":
		_, err = readAuthorities(s.Authorities)
	default:
		_, err = readPEM(s.Authorities)
	}
	return err
}

// domainOf is the trust domain of a SPIFFE ID, or "" where a text is none with a path.
func domainOf(id string) string {
	domain, path, err := svid.ParseID(id)
	if err != nil || path == "" {
		return ""
	}
	return domain
}

// checkEndpoint is an error where what a spec says of the server of its address can't be meant.
func (s Spec) checkEndpoint() error {
	if s.ID == "" && s.Authorities == "" {
		return nil
	}
	if !s.isAddress() {
		return fmt.Errorf("bundles: %s: an ID, or authorities, of a server belong to an address as https://HOST/PATH", s.Domain)
	}
	if s.ID == "" {
		return nil
	}
	domain := domainOf(s.ID)
	if err := checkDomain(domain); err != nil {
		return fmt.Errorf("bundles: %s: %q is no SPIFFE ID of a server, as spiffe://DOMAIN/PATH", s.Domain, s.ID)
	}
	if domain == s.Domain && s.Authorities == "" {
		return fmt.Errorf("bundles: %s: its server is known by its own bundle, so a first one must be there as a file: give its authorities", s.Domain)
	}
	return nil
}

// ParseEndpoints adds to specs what stands after --bundle-id and --bundle-ca: DOMAIN=ID, and DOMAIN=FILE. The specs
// must give an address for each DOMAIN.
func ParseEndpoints(specs []Spec, ids, authorities []string) ([]Spec, error) {
	specs = append([]Spec(nil), specs...)
	set := func(texts []string, what string, field func(s *Spec) *string) error {
		for _, text := range texts {
			domain, value, found := strings.Cut(text, "=")
			if !found || domain == "" || value == "" {
				return fmt.Errorf("bundles: %q: write DOMAIN=%s", text, what)
			}
			at := -1
			for i, s := range specs {
				if s.Domain == domain && s.isAddress() {
					at = i
				}
			}
			if at < 0 {
				return fmt.Errorf("bundles: %q: no bundle of %s comes from an address", text, domain)
			}
			if *field(&specs[at]) != "" {
				return fmt.Errorf("bundles: %q: one of %s is given twice", text, domain)
			}
			*field(&specs[at]) = value
		}
		return nil
	}
	if err := set(ids, "SPIFFE-ID", func(s *Spec) *string { return &s.ID }); err != nil {
		return nil, err
	}
	if err := set(authorities, "FILE", func(s *Spec) *string { return &s.Authorities }); err != nil {
		return nil, err
	}
	return specs, checkAll(specs)
}
