package issuer

import (
	"crypto"
	"crypto/ecdsa"
	"crypto/elliptic"
	"crypto/rand"
	"crypto/tls"
	"crypto/x509"
	"crypto/x509/pkix"
	"encoding/hex"
	"encoding/json"
	"encoding/pem"
	"errors"
	"fmt"
	"math/big"
	"net"
	"net/url"
	"os"
	"path/filepath"
	"sync"
	"time"
)

// A Domain is a trust domain for development. It signs tokens by EC keys that rotate, and gives trust bundles, as a SPIRE server does. Its methods
// may be called by many goroutines at once.
//
// The next key is in the bundle one rotation before it signs. A key that signs no more stays there until its last token has expired.
type Domain struct {
	name    string
	life    time.Duration    // the longest life of a token
	folder  string           // "" keeps the keys in memory
	now     func() time.Time // the clock
	changed chan struct{}    // closed when the bundle changes

	mu        sync.Mutex
	keys      []*domainKey // those that signed, the one that signs, and the next one
	sequence  uint64       // counts the bundles
	authority *authority
}

// A domainKey signs tokens. Its fields are those of the file.
type domainKey struct {
	ID      string
	PKCS8   []byte    // the private key
	Until   time.Time // when its last token has expired; zero while it signs
	private *ecdsa.PrivateKey
}

// An authority signs the certificate of the bundle endpoint. Its fields are those of the file.
type authority struct {
	DER     []byte
	PKCS8   []byte
	private *ecdsa.PrivateKey
	of      *x509.Certificate
}

// keysFile is what the folder has.
type keysFile struct {
	Domain    string
	Sequence  uint64
	Keys      []*domainKey
	Authority *authority
}

const (
	keysName    = "keys.json"
	clockSlack  = time.Minute // for clocks that are behind
	privateMode = 0o600
)

// ServerLife is how long the certificate of a bundle endpoint counts.
const ServerLife = 24 * time.Hour

// NewDomain makes a trust domain whose tokens live for at most life. folder keeps its keys over restarts, and has mode 0700; "" keeps them in
// memory. now nil is this machine's clock.
//
// Errors: the folder has another mode, has keys of another trust domain, or can't be read or written.
func NewDomain(name string, life time.Duration, folder string, now func() time.Time) (*Domain, error) {
	if now == nil {
		now = time.Now
	}
	d := &Domain{name: name, life: life, folder: folder, now: now, changed: make(chan struct{})}
	if folder != "" {
		if err := d.read(); err != nil {
			return nil, err
		}
	}
	if len(d.keys) > 0 {
		return d, nil
	}
	for len(d.keys) < 2 { // One signs, and one is the next.
		key, err := newDomainKey()
		if err != nil {
			return nil, err
		}
		d.keys = append(d.keys, key)
	}
	var err error
	if d.authority, err = newAuthority(name, d.now()); err != nil {
		return nil, err
	}
	d.sequence = 1
	return d, d.write()
}

func newDomainKey() (*domainKey, error) {
	private, err := ecdsa.GenerateKey(elliptic.P256(), rand.Reader)
	if err != nil {
		return nil, err
	}
	id, err := randomName(16)
	if err != nil {
		return nil, err
	}
	der, err := x509.MarshalPKCS8PrivateKey(private)
	return &domainKey{ID: id, PKCS8: der, private: private}, err
}

// randomName is one of so many random bytes, as digits.
func randomName(bytes int) (string, error) {
	some := make([]byte, bytes)
	_, err := rand.Read(some)
	return hex.EncodeToString(some), err
}

// CheckPrivate is an error where a folder is not of mode 0700: private keys may stand there.
func CheckPrivate(folder string) error {
	info, err := os.Stat(folder)
	switch {
	case err != nil:
		return err
	case !info.IsDir():
		return fmt.Errorf("%s is no folder", folder)
	case info.Mode().Perm() != 0o700:
		return fmt.Errorf("%s has mode %04o: private keys stand there, so let nobody else in: chmod 0700 %s", folder, info.Mode().Perm(), folder)
	}
	return nil
}

// read reads the folder's keys, if it has some.
func (d *Domain) read() error {
	if err := CheckPrivate(d.folder); err != nil {
		return err
	}
	path := filepath.Join(d.folder, keysName)
	text, err := os.ReadFile(path)
	if errors.Is(err, os.ErrNotExist) {
		return nil
	}
	var file keysFile
	if err == nil {
		err = json.Unmarshal(text, &file)
	}
	if err == nil && (len(file.Keys) < 2 || file.Authority == nil) {
		err = errors.New("it lacks keys")
	}
	if err == nil && file.Domain != d.name {
		err = fmt.Errorf("it has the keys of the trust domain %q: take another folder", file.Domain)
	}
	for i := 0; err == nil && i < len(file.Keys); i++ {
		file.Keys[i].private, err = ecOf(file.Keys[i].PKCS8)
	}
	if err == nil {
		err = file.Authority.parse()
	}
	if err != nil {
		return fmt.Errorf("%s: %w", path, err)
	}
	d.keys, d.sequence, d.authority = file.Keys, file.Sequence, file.Authority
	return nil
}

func ecOf(der []byte) (*ecdsa.PrivateKey, error) {
	key, err := x509.ParsePKCS8PrivateKey(der)
	if err != nil {
		return nil, err
	}
	private, ok := key.(*ecdsa.PrivateKey)
	if !ok || private.Curve != elliptic.P256() {
		return nil, errors.New("a key is not one of P-256")
	}
	return private, nil
}

// write replaces the folder's keys. The caller holds mu, or nobody else has d.
func (d *Domain) write() error {
	if d.folder == "" {
		return nil
	}
	text, err := json.Marshal(keysFile{d.name, d.sequence, d.keys, d.authority})
	if err != nil {
		return err
	}
	f, err := os.OpenFile(filepath.Join(d.folder, keysName+".new"), os.O_WRONLY|os.O_CREATE|os.O_TRUNC, privateMode)
	if err != nil {
		return err
	}
	_, err = f.Write(text)
	if err == nil {
		err = f.Sync()
	}
	if closed := f.Close(); err == nil {
		err = closed
	}
	if err != nil {
		return err
	}
	return os.Rename(f.Name(), filepath.Join(d.folder, keysName))
}

// Name is the trust domain's.
func (d *Domain) Name() string { return d.name }

// Life is the longest life of a token.
func (d *Domain) Life() time.Duration { return d.life }

// Rotate lets the next key sign from now on. On an error the keys stay as they are.
func (d *Domain) Rotate() error {
	next, err := newDomainKey()
	if err != nil {
		return err
	}
	d.mu.Lock()
	defer d.mu.Unlock()
	before, now := d.keys, d.now()
	old := *before[len(before)-2]
	old.Until = now.Add(d.life)
	d.keys = nil
	for _, key := range before[:len(before)-2] {
		if key.Until.Add(clockSlack).After(now) {
			d.keys = append(d.keys, key)
		}
	}
	d.keys = append(d.keys, &old, before[len(before)-1], next)
	d.sequence++
	if err := d.write(); err != nil {
		d.keys, d.sequence = before, d.sequence-1
		return err
	}
	close(d.changed)
	d.changed = make(chan struct{})
	return nil
}

// Changed is closed once the bundle is another one than at the time of this call.
func (d *Domain) Changed() <-chan struct{} {
	d.mu.Lock()
	defer d.mu.Unlock()
	return d.changed
}

// KeyIDs are those of the bundle's keys for tokens, in order. The last but one signs.
func (d *Domain) KeyIDs() (ids []string) {
	d.mu.Lock()
	defer d.mu.Unlock()
	for _, key := range d.keys {
		ids = append(ids, key.ID)
	}
	return ids
}

// JWTKeys is the JWK set of the keys for tokens, as SPIRE's Workload API gives it.
func (d *Domain) JWTKeys() []byte { return marshal(map[string]any{"keys": d.jwtKeys("")}) }

func (d *Domain) jwtKeys(use string) (keys []any) {
	d.mu.Lock()
	defer d.mu.Unlock()
	for _, key := range d.keys {
		jwk := ECKey(key.ID, &key.private.PublicKey)
		if jwk["use"] = use; use == "" {
			delete(jwk, "use")
		}
		keys = append(keys, jwk)
	}
	return keys
}

// Bundle is the whole trust bundle, as `spire-server bundle show -format spiffe` prints it. hint is how long a reader may wait before it
// reads it again.
func (d *Domain) Bundle(hint time.Duration) []byte {
	of := map[string]any{"use": "x509-svid", "x5c": [][]byte{d.authority.DER}}
	for name, value := range ECKey("", &d.authority.private.PublicKey) {
		if name != "kid" && name != "use" {
			of[name] = value
		}
	}
	keys := append([]any{of}, d.jwtKeys("jwt-svid")...)
	d.mu.Lock()
	defer d.mu.Unlock()
	return marshal(map[string]any{"keys": keys, "spiffe_sequence": d.sequence, "spiffe_refresh_hint": int64(hint / time.Second)})
}

// A Fault is what is wrong with a token that is signed on purpose.
type Fault string

// The faults. "" is none.
const (
	Expired       Fault = "expired"        // it has expired
	NotYet        Fault = "not-yet"        // it does not count yet (`nbf`)
	OtherAudience Fault = "other-audience" // it is for another service
	BadSignature  Fault = "bad-signature"  // its key has signed something else
	UnknownKey    Fault = "unknown-key"    // its `kid` is in no bundle
)

// Faults are all of them.
var Faults = []Fault{Expired, NotYet, OtherAudience, BadSignature, UnknownKey}

// A Wish is what a token is to say.
type Wish struct {
	Subject  string        // the SPIFFE ID
	Audience []string      // the services that it is for
	Life     time.Duration // up to that of the domain
	JTI      string        // "" writes none, as SPIRE does
	Fault    Fault
}

// A Minted is a token, and what it says.
type Minted struct {
	Token    string   `json:"token"`
	Subject  string   `json:"sub"`
	Audience []string `json:"aud"`
	Issued   int64    `json:"iat"`
	Expires  int64    `json:"exp"`
	KeyID    string   `json:"kid"`
	JTI      string   `json:"jti,omitempty"`
	Fault    Fault    `json:"fault,omitempty"`
}

// Mint signs a token by ES256. It has the claims of SPIRE: aud, exp, iat and sub.
func (d *Domain) Mint(w Wish) (Minted, error) {
	now := d.now()
	d.mu.Lock()
	key := d.keys[len(d.keys)-2]
	d.mu.Unlock()
	m := Minted{Subject: w.Subject, Audience: w.Audience, KeyID: key.ID, JTI: w.JTI, Fault: w.Fault}
	from, private := now, key.private
	var err error
	switch w.Fault {
	case Expired:
		from = now.Add(-2 * w.Life)
	case OtherAudience:
		m.Audience = []string{"another-service"}
	case UnknownKey:
		var other *domainKey
		if other, err = newDomainKey(); err == nil {
			m.KeyID, private = other.ID, other.private
		}
	}
	if err != nil {
		return Minted{}, err
	}
	m.Issued, m.Expires = from.Unix(), from.Add(w.Life).Unix()
	claims := map[string]any{"sub": m.Subject, "aud": m.Audience, "iat": m.Issued, "exp": m.Expires}
	if w.JTI != "" {
		claims["jti"] = w.JTI
	}
	if w.Fault == NotYet {
		claims["nbf"] = from.Add(w.Life / 2).Unix()
	}
	header := marshal(map[string]string{"alg": "ES256", "kid": m.KeyID, "typ": "JWT"})
	text := encode(header) + "." + encode(marshal(claims))
	signed := text
	if w.Fault == BadSignature {
		signed += "~"
	}
	signature, err := signedBy(private, crypto.SHA256, signed)
	m.Token = text + "." + encode(signature)
	return m, err
}

// AuthorityPEM is the certificate of the authority that signs the bundle endpoint's.
func (d *Domain) AuthorityPEM() []byte {
	return pem.EncodeToMemory(&pem.Block{Type: "CERTIFICATE", Bytes: d.authority.DER})
}

// ServerID is the SPIFFE ID in the bundle endpoint's certificate.
func (d *Domain) ServerID() string { return "spiffe://" + d.name + "/svidd/dev" }

// Server is a new certificate for the bundle endpoint at this address: an X.509-SVID of ServerID that counts for the address, too. So it serves
// both profiles of SPIFFE federation.
func (d *Domain) Server(at net.IP) (*tls.Certificate, error) {
	private, err := ecdsa.GenerateKey(elliptic.P256(), rand.Reader)
	if err != nil {
		return nil, err
	}
	form, err := certificateOf(d.ServerID(), d.now(), ServerLife)
	if err != nil {
		return nil, err
	}
	form.IPAddresses = []net.IP{at}
	form.KeyUsage, form.ExtKeyUsage = x509.KeyUsageDigitalSignature, []x509.ExtKeyUsage{x509.ExtKeyUsageServerAuth}
	der, err := x509.CreateCertificate(rand.Reader, form, d.authority.of, &private.PublicKey, d.authority.private)
	return &tls.Certificate{Certificate: [][]byte{der}, PrivateKey: private}, err
}

func newAuthority(domain string, now time.Time) (*authority, error) {
	private, err := ecdsa.GenerateKey(elliptic.P256(), rand.Reader)
	if err != nil {
		return nil, err
	}
	const tenYears = 10 * 365 * 24 * time.Hour
	form, err := certificateOf("spiffe://"+domain, now, tenYears)
	if err != nil {
		return nil, err
	}
	form.IsCA, form.BasicConstraintsValid, form.KeyUsage = true, true, x509.KeyUsageCertSign
	a := &authority{}
	if a.DER, err = x509.CreateCertificate(rand.Reader, form, form, &private.PublicKey, private); err != nil {
		return nil, err
	}
	if a.PKCS8, err = x509.MarshalPKCS8PrivateKey(private); err != nil {
		return nil, err
	}
	return a, a.parse()
}

// parse sets private and of.
func (a *authority) parse() (err error) {
	if a.of, err = x509.ParseCertificate(a.DER); err != nil {
		return err
	}
	a.private, err = ecOf(a.PKCS8)
	return err
}

func certificateOf(id string, now time.Time, life time.Duration) (*x509.Certificate, error) {
	uri, err := url.Parse(id)
	if err != nil {
		return nil, err
	}
	number, err := rand.Int(rand.Reader, new(big.Int).Lsh(big.NewInt(1), 120))
	return &x509.Certificate{SerialNumber: number, Subject: pkix.Name{CommonName: "svidd dev, for development only"}, URIs: []*url.URL{uri},
		NotBefore: now.Add(-clockSlack), NotAfter: now.Add(life)}, err
}
