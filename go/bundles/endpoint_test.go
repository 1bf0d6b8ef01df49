package bundles

import (
	"bytes"
	"crypto/ecdsa"
	"crypto/elliptic"
	"crypto/rand"
	"crypto/tls"
	"crypto/x509"
	"crypto/x509/pkix"
	"encoding/asn1"
	"encoding/base64"
	"encoding/pem"
	"fmt"
	"math/big"
	"net"
	"net/http"
	"path/filepath"
	"strings"
	"testing"
	"time"
)

// An authority signs certificates.
type authority struct {
	t    *testing.T
	key  *ecdsa.PrivateKey
	cert *x509.Certificate
}

var serial int64

func newAuthority(t *testing.T) *authority {
	t.Helper()
	a := &authority{t: t}
	serial++
	template := &x509.Certificate{SerialNumber: big.NewInt(serial), Subject: pkix.Name{CommonName: fmt.Sprint("authority ", serial)}, NotBefore: time.Now().Add(-time.Hour),
		NotAfter: time.Now().Add(time.Hour), IsCA: true, BasicConstraintsValid: true, KeyUsage: x509.KeyUsageCertSign}
	a.key, a.cert = a.make(template, nil)
	return a
}

// make makes a certificate that the parent signs, or by itself.
func (a *authority) make(template *x509.Certificate, parent *authority) (*ecdsa.PrivateKey, *x509.Certificate) {
	a.t.Helper()
	key, err := ecdsa.GenerateKey(elliptic.P256(), rand.Reader)
	if err != nil {
		a.t.Fatal(err)
	}
	signer, above := key, template
	if parent != nil {
		signer, above = parent.key, parent.cert
	}
	der, err := x509.CreateCertificate(rand.Reader, template, above, &key.PublicKey, signer)
	if err != nil {
		a.t.Fatal(err)
	}
	cert, err := x509.ParseCertificate(der)
	if err != nil {
		a.t.Fatal(err)
	}
	return key, cert
}

// names are an extension with these URIs, and the address of this machine, written as they are.
func names(t *testing.T, uris ...string) pkix.Extension {
	t.Helper()
	all := []asn1.RawValue{{Class: asn1.ClassContextSpecific, Tag: 7, Bytes: net.IPv4(127, 0, 0, 1).To4()}}
	for _, uri := range uris {
		all = append(all, asn1.RawValue{Class: asn1.ClassContextSpecific, Tag: uniformResourceIdentifier, Bytes: []byte(uri)})
	}
	value, err := asn1.Marshal(all)
	if err != nil {
		t.Fatal(err)
	}
	return pkix.Extension{Id: subjectAltName, Value: value}
}

// server makes the certificate of a server with these URIs, changed by change.
func (a *authority) server(change func(*x509.Certificate), uris ...string) tls.Certificate {
	a.t.Helper()
	serial++
	template := &x509.Certificate{SerialNumber: big.NewInt(serial), NotBefore: time.Now().Add(-time.Hour), NotAfter: time.Now().Add(time.Hour), BasicConstraintsValid: true,
		KeyUsage: x509.KeyUsageDigitalSignature, ExtKeyUsage: []x509.ExtKeyUsage{x509.ExtKeyUsageServerAuth, x509.ExtKeyUsageClientAuth},
		ExtraExtensions: []pkix.Extension{names(a.t, uris...)}}
	if change != nil {
		change(template)
	}
	key, cert := a.make(template, a)
	return tls.Certificate{Certificate: [][]byte{cert.Raw}, PrivateKey: key}
}

// signed is a trust bundle with these authorities.
func signed(all ...*authority) string {
	var entries []string
	for _, a := range all {
		entries = append(entries, fmt.Sprintf(`{"use":"x509-svid","kty":"EC","x5c":[%q]}`, base64.StdEncoding.EncodeToString(a.cert.Raw)))
	}
	return `{"keys":[` + strings.Join(entries, ",") + `]}`
}

func (a *authority) pem() string {
	return string(pem.EncodeToMemory(&pem.Block{Type: "CERTIFICATE", Bytes: a.cert.Raw}))
}

// show lets the endpoint show another certificate from its next connection on.
func (e *endpoint) show(c tls.Certificate) {
	e.mu.Lock()
	defer e.mu.Unlock()
	e.shown = &c
}

// newShowing is an endpoint that shows this certificate.
func newShowing(t *testing.T, c tls.Certificate) *endpoint {
	t.Helper()
	e := newEndpoint(t)
	e.show(c)
	return e
}

const serverID = "spiffe://example.org/spire/server"

// The server of an address with an ID must show an X.509-SVID of exactly that ID, of the authorities that are known.
func TestTheServerShowsItsID(t *testing.T) {
	known, web := newAuthority(t), newAuthority(t)
	file := filepath.Join(t.TempDir(), "first.json")
	write(t, file, signed(known))
	serial++
	between := &authority{t: t}
	between.key, between.cert = between.make(&x509.Certificate{SerialNumber: big.NewInt(serial), Subject: pkix.Name{CommonName: "between"}, NotBefore: time.Now().Add(-time.Hour),
		NotAfter: time.Now().Add(time.Hour), IsCA: true, BasicConstraintsValid: true, KeyUsage: x509.KeyUsageCertSign}, known)
	chain := between.server(nil, serverID)
	chain.Certificate = append(chain.Certificate, between.cert.Raw)
	e := newShowing(t, known.server(nil, serverID))
	e.set(http.StatusOK, signed(known), "")
	for what, row := range map[string]struct {
		shown tls.Certificate
		why   string // "" where the bundle is taken
	}{
		"an X.509-SVID of the ID":              {known.server(nil, serverID), ""},
		"one of an authority between":          {chain, ""},
		"one without that authority":           {between.server(nil, serverID), "unknown authority"},
		"one that has no purposes":             {known.server(func(c *x509.Certificate) { c.ExtKeyUsage = nil }, serverID), ""},
		"one of another server":                {known.server(nil, serverID+"2"), "is that of \"spiffe://example.org/spire/server2\""},
		"one of another trust domain":          {known.server(nil, "spiffe://example.com/spire/server"), "is that of"},
		"one whose ID has more behind it":      {known.server(nil, serverID+"#"), "is that of"},
		"one whose ID is written otherwise":    {known.server(nil, "spiffe://example.org/spire/%73erver"), "is that of"},
		"one of two IDs":                       {known.server(nil, serverID, "spiffe://example.org/other"), "not exactly one URI"},
		"one of the same ID twice":             {known.server(nil, serverID, serverID), "not exactly one URI"},
		"one that has another URI before":      {known.server(nil, "https://example.org/", serverID), "not exactly one URI"},
		"a certificate for its address":        {known.server(nil), "not exactly one URI"},
		"one of the authorities of the web":    {web.server(nil, serverID), "unknown authority"},
		"one that has expired":                 {known.server(func(c *x509.Certificate) { c.NotAfter = time.Now().Add(-time.Minute) }, serverID), "expired"},
		"one that is not valid yet":            {known.server(func(c *x509.Certificate) { c.NotBefore = time.Now().Add(time.Minute) }, serverID), "not yet valid"},
		"one that is an authority":             {known.server(func(c *x509.Certificate) { c.IsCA = true }, serverID), "may sign others"},
		"one that may sign certificates":       {known.server(func(c *x509.Certificate) { c.KeyUsage |= x509.KeyUsageCertSign }, serverID), "may sign others"},
		"one that may sign lists":              {known.server(func(c *x509.Certificate) { c.KeyUsage |= x509.KeyUsageCRLSign }, serverID), "may sign others"},
		"one of a client alone":                {known.server(func(c *x509.Certificate) { c.ExtKeyUsage = c.ExtKeyUsage[1:] }, serverID), "incompatible key usage"},
		"one that nobody signed but its owner": {ofItself(t), "unknown authority"},
	} {
		e.show(row.shown)
		_, o := watch(t, func(o *Options) {
			o.Roots = x509.NewCertPool() // of the web: they say nothing here
			o.Roots.AddCert(web.cert)
			o.Roots.AddCert(e.Certificate())
		}, Spec{Domain: "example.org", Source: e.URL, ID: serverID, Authorities: file})
		if row.why == "" {
			o.await(t, what, func() bool { return o.last["example.org"] == signed(known) })
			continue
		}
		o.await(t, what, func() bool { return strings.Contains(strings.Join(o.lines, "\n"), row.why) })
		o.mu.Lock()
		if o.calls > 0 {
			t.Errorf("%s: the bundle is taken", what)
		}
		o.mu.Unlock()
	}
}

// TLS 1.0 and 1.1 show nothing.
func TestVersionsOfTLSOfAServerWithAnID(t *testing.T) {
	known := newAuthority(t)
	file := filepath.Join(t.TempDir(), "first.json")
	write(t, file, signed(known))
	for version, want := range map[uint16]bool{tls.VersionTLS10: false, tls.VersionTLS11: false, tls.VersionTLS12: true, tls.VersionTLS13: true} {
		e := newShowing(t, known.server(nil, serverID))
		e.mu.Lock()
		e.most, e.text = version, signed(known)
		e.mu.Unlock()
		_, o := watch(t, nil, Spec{Domain: "example.org", Source: e.URL, ID: serverID, Authorities: file})
		if o.awaitAnswer(t) != want {
			t.Errorf("version %x: %q", version, o.lines)
		}
	}
}

// ofItself is a certificate that its own key signed.
func ofItself(t *testing.T) tls.Certificate {
	t.Helper()
	a := &authority{t: t}
	serial++
	key, cert := a.make(&x509.Certificate{SerialNumber: big.NewInt(serial), NotBefore: time.Now().Add(-time.Hour), NotAfter: time.Now().Add(time.Hour), BasicConstraintsValid: true,
		ExtraExtensions: []pkix.Extension{names(t, serverID)}}, nil)
	return tls.Certificate{Certificate: [][]byte{cert.Raw}, PrivateKey: key}
}

// No certificate that a server shows ends the process, be the server known by its name or by its ID.
func TestAKeyOfAnUnknownAlgorithm(t *testing.T) {
	known, bad := newAuthority(t), &authority{t: t}
	file := filepath.Join(t.TempDir(), "first.json")
	write(t, file, signed(known))
	serial++
	template := &x509.Certificate{SerialNumber: big.NewInt(serial), Subject: pkix.Name{CommonName: "of all"}, NotBefore: time.Now().Add(-time.Hour),
		NotAfter: time.Now().Add(time.Hour), ExtraExtensions: []pkix.Extension{names(t, serverID)}}
	key, leaf := bad.make(template, nil)
	_, above := bad.make(template, nil)
	usual := []byte{6, 7, 0x2a, 0x86, 0x48, 0xce, 0x3d, 2, 1} // the object identifier of keys of elliptic curves
	other := append(append([]byte(nil), usual[:8]...), 99)
	unknown := bytes.Replace(above.Raw, usual, other, 1)
	if c, err := x509.ParseCertificate(unknown); err != nil || c.PublicKeyAlgorithm != x509.UnknownPublicKeyAlgorithm {
		t.Fatal(c, err)
	}
	e := newShowing(t, tls.Certificate{Certificate: [][]byte{leaf.Raw, unknown}, PrivateKey: key})
	for what, spec := range map[string]Spec{
		"by its name": {Domain: "example.org", Source: e.URL}, "by its ID": {Domain: "example.org", Source: e.URL, ID: serverID, Authorities: file},
	} {
		_, o := watch(t, e.trusted, spec)
		o.await(t, what, o.says("bundle not read"))
		o.mu.Lock()
		if o.calls > 0 {
			t.Errorf("%s: the bundle is taken", what)
		}
		o.mu.Unlock()
	}
}

// A server that is known by its own bundle is known by the last good one: the authorities of before count no more, not even on a
// connection that was there.
func TestTheServersAuthoritiesFollowItsBundle(t *testing.T) {
	first, second := newAuthority(t), newAuthority(t)
	file := filepath.Join(t.TempDir(), "first.json")
	write(t, file, signed(first))
	e := newShowing(t, first.server(nil, serverID))
	e.set(http.StatusOK, signed(second), "")
	w, o := watch(t, nil, Spec{Domain: "example.org", Source: e.URL, ID: serverID, Authorities: file})
	o.await(t, "the bundle", func() bool { return o.last["example.org"] == signed(second) })
	e.set(http.StatusOK, signed(first), "")
	w.Reload()
	o.await(t, "the authority of before", o.says("unknown authority"))
	e.show(second.server(nil, serverID))
	e.set(http.StatusOK, signed(first, second), "")
	w.Reload()
	o.await(t, "the next bundle", func() bool { return o.last["example.org"] == signed(first, second) })
	e.set(http.StatusOK, spire, "") // which has no certificate that can be read
	w.Reload()
	o.await(t, "a bundle without authorities", func() bool { return o.last["example.org"] == spire })
	w.Reload()
	o.await(t, "nobody to know it by", o.says(`the bundle of example.org: `+errNoAuthorities.Error()))
}

// A server of another trust domain is known by its file, or by the last good bundle of that trust domain.
func TestTheServerIsOfAnotherTrustDomain(t *testing.T) {
	first, second := newAuthority(t), newAuthority(t)
	file := filepath.Join(t.TempDir(), "host.json")
	e := newShowing(t, first.server(nil, "spiffe://host.example/server"))
	e.set(http.StatusOK, signed(second), "")
	spec := Spec{Domain: "example.org", Source: e.URL, ID: "spiffe://host.example/server"}
	w, o := watch(t, nil, spec, Spec{Domain: "host.example", Source: file})
	o.await(t, "no bundle of the host", o.says("the bundle of host.example, by which its server is known, was not read yet"))
	write(t, file, signed(first))
	w.Reload()
	o.await(t, "the bundle", func() bool { return o.last["example.org"] == signed(second) })
	write(t, file, signed(second))
	w.Reload()
	o.await(t, "an authority that is gone", o.says("unknown authority"))

	// By a file of its own, which is read each time.
	own := filepath.Join(t.TempDir(), "own.json")
	spec.Authorities = own
	w, o = watch(t, nil, spec, Spec{Domain: "host.example", Source: file})
	o.await(t, "no file", o.says("own.json: no such file"))
	write(t, own, signed(first))
	w.Reload()
	o.await(t, "the bundle by the file", func() bool { return o.last["example.org"] == signed(second) })
}

// A server that is known by its ID leads nowhere.
func TestAServerWithAnIDLeadsNowhere(t *testing.T) {
	known := newAuthority(t)
	file := filepath.Join(t.TempDir(), "first.json")
	write(t, file, signed(known))
	e, other := newShowing(t, known.server(nil, serverID)), newShowing(t, known.server(nil, serverID))
	e.set(http.StatusOK, "", other.URL)
	_, o := watch(t, nil, Spec{Domain: "example.org", Source: e.URL, ID: serverID, Authorities: file})
	o.await(t, "the redirect", o.says(errLeadsElsewhere.Error()))
	if other.asked != 0 {
		t.Error("it is followed")
	}
}

// Own authorities for https_web count alone, and as the file has them at each request.
func TestOwnAuthorities(t *testing.T) {
	own, web := newAuthority(t), newAuthority(t)
	file := filepath.Join(t.TempDir(), "ca.pem")
	write(t, file, own.pem())
	e := newShowing(t, own.server(nil))
	e.set(http.StatusOK, signed(own), "")
	trusted := func(o *Options) {
		o.Roots = x509.NewCertPool()
		o.Roots.AddCert(web.cert)
	}
	w, o := watch(t, trusted, Spec{Domain: "example.org", Source: e.URL, Authorities: file})
	o.await(t, "the bundle", func() bool { return o.last["example.org"] == signed(own) })
	e.show(web.server(nil))
	e.set(http.StatusOK, signed(web), "")
	w.Reload()
	o.await(t, "the authorities of the web", o.says("unknown authority"))
	write(t, file, web.pem())
	w.Reload()
	o.await(t, "the other file", func() bool { return o.last["example.org"] == signed(web) })
	e.set(http.StatusOK, signed(own, web), "")
	write(t, file, own.pem()) // The server shows the other one still, also on a connection that was there.
	w.Reload()
	o.await(t, "the file of before", func() bool { return strings.Count(strings.Join(o.lines, "\n"), "unknown authority") == 2 })
	write(t, file, "nothing")
	w.Reload()
	o.await(t, "no certificate", o.says(errNoPEM.Error()))
	// The name counts: this address is not one of the certificate.
	e.show(own.server(func(c *x509.Certificate) { c.ExtraExtensions = nil; c.DNSNames = []string{"example.org"} }))
	write(t, file, own.pem())
	w.Reload()
	o.await(t, "another name", o.says("cannot validate certificate for 127.0.0.1"))
}

// What is no authority is passed over, and a bundle of none knows nobody.
func TestAuthoritiesOfABundle(t *testing.T) {
	a := newAuthority(t)
	der := base64.StdEncoding.EncodeToString(a.cert.Raw)
	for entries, want := range map[string]bool{
		`{"use":"x509-svid","x5c":["` + der + `"]}`: true, `7,{"use":"x509-svid","x5c":["AAAA"]},{"use":"x509-svid","x5c":["` + der + `"]}`: true,
		"": false, `{"use":"jwt-svid","x5c":["` + der + `"]}`: false, `{"x5c":["` + der + `"]}`: false, `{"use":"x509-svid"}`: false,
		`{"use":"x509-svid","x5c":["` + der + `","` + der + `"]}`: false, `{"use":"x509-svid","x5c":["!"]}`: false, `{"use":"x509-svid","x5c":"` + der + `"}`: false,
	} {
		roots, err := authoritiesIn([]byte(`{"keys":[` + entries + `]}`))
		if (err == nil) != want || (roots != nil) != want || err != nil && err != errNoAuthorities {
			t.Errorf("%s: %v", entries, err)
		}
	}
}

// What is said of servers belongs to addresses.
func TestParseEndpoints(t *testing.T) {
	const at = "https://h/b"
	specs := func(more ...Spec) []Spec {
		return append([]Spec{{Domain: "a", Source: at}, {Domain: "b", Source: "/file"}}, more...)
	}
	for _, row := range []struct {
		ids, cas []string
		want     string
	}{
		{nil, nil, ""}, {[]string{"a=spiffe://c/d"}, nil, ""}, {[]string{"a=spiffe://a/d"}, []string{"a=/f"}, ""}, {nil, []string{"a=/f"}, ""},
		{[]string{"a=spiffe://a/d"}, nil, "a first one must be there as a file"}, {[]string{"a=spiffe://a"}, nil, "is no SPIFFE ID of a server"},
		{[]string{"a=spiffe://a/"}, nil, "is no SPIFFE ID"}, {[]string{"a=https://a/b"}, nil, "is no SPIFFE ID"}, {[]string{"a=spiffe:///b"}, nil, "is no SPIFFE ID"},
		{[]string{"a=spiffe://A/b"}, nil, "is no SPIFFE ID"}, {[]string{"b=spiffe://c/d"}, nil, "no bundle of b comes from an address"},
		{[]string{"c=spiffe://c/d"}, nil, "no bundle of c comes from an address"}, {nil, []string{"b=/f"}, "no bundle of b comes from an address"},
		{[]string{"a"}, nil, "write DOMAIN=SPIFFE-ID"}, {nil, []string{"a="}, "write DOMAIN=FILE"}, {nil, []string{"=x"}, "write DOMAIN=FILE"},
		{[]string{"a=spiffe://c/d", "a=spiffe://c/d"}, nil, "given twice"}, {nil, []string{"a=/f", "a=/g"}, "given twice"},
	} {
		given := specs()
		got, err := ParseEndpoints(given, row.ids, row.cas)
		if row.want == "" && err != nil || row.want != "" && (err == nil || !strings.Contains(err.Error(), row.want)) {
			t.Errorf("%q %q: %v, want %q", row.ids, row.cas, err, row.want)
		}
		if given[0] != (Spec{Domain: "a", Source: at}) {
			t.Errorf("%q %q: the specs are changed: %+v", row.ids, row.cas, given)
		}
		if err == nil && len(row.ids)+len(row.cas) > 0 && got[0] == given[0] {
			t.Errorf("%q %q: they don't count", row.ids, row.cas)
		}
	}
	for _, wrong := range []Spec{{Domain: "b", Source: "/f", ID: "spiffe://b/c"}, {Domain: "b", Source: "/f", Authorities: "/g"}, {Source: "/folder", Authorities: "/g"}} {
		if err := checkAll([]Spec{wrong}); err == nil {
			t.Errorf("%+v is good", wrong)
		}
	}
}
