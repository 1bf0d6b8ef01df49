// Package issuer makes tokens and trust bundles: an Issuer for tests and measurements, and a Domain for svidd dev.
package issuer

import (
	"crypto"
	"crypto/ecdsa"
	"crypto/elliptic"
	"crypto/rand"
	"crypto/rsa"
	"encoding/base64"
	"encoding/json"
	"fmt"
	"math/big"
)

// lists:begin algorithms (written by tools/lists from lists/algorithms.toml)

// Algorithms are the 9 algorithms of JWT-SVIDs.
var Algorithms = []string{"RS256", "RS384", "RS512", "ES256", "ES384", "ES512", "PS256", "PS384", "PS512"}

// lists:end

// An Issuer signs tokens for one trust domain. It has one RSA key, and an EC key
// a curve. All its methods may be called by many goroutines at once.
type Issuer struct {
	domain string
	rsa    *rsa.PrivateKey
	ec     map[string]*ecdsa.PrivateKey // by algorithm
}

// New returns an issuer with new keys.
func New(domain string) (*Issuer, error) {
	// (Eight primes are found sooner than two, which are longer. Who verifies sees only their product.)
	key, err := rsa.GenerateMultiPrimeKey(rand.Reader, 8, 2048)
	if err != nil {
		return nil, err
	}
	i := &Issuer{domain: domain, rsa: key, ec: make(map[string]*ecdsa.PrivateKey)}
	for name, curve := range map[string]elliptic.Curve{
		"ES256": elliptic.P256(), "ES384": elliptic.P384(), "ES512": elliptic.P521(),
	} {
		if i.ec[name], err = ecdsa.GenerateKey(curve, rand.Reader); err != nil {
			return nil, err
		}
	}
	return i, nil
}

// KeyID is the kid of the key that signs by the algorithm.
func KeyID(algorithm string) string {
	if algorithm[0] == 'E' {
		return "ec-" + algorithm[2:]
	}
	return "rsa"
}

// JWKSet returns the issuer's public keys as a JWK set.
func (i *Issuer) JWKSet() json.RawMessage {
	keys := []map[string]string{{
		"kty": "RSA", "use": "jwt-svid", "kid": KeyID("RS256"),
		"n": encode(i.rsa.N.Bytes()), "e": encode(big.NewInt(int64(i.rsa.E)).Bytes()),
	}}
	for _, name := range Algorithms {
		if key := i.ec[name]; key != nil {
			keys = append(keys, ECKey(KeyID(name), &key.PublicKey))
		}
	}
	return marshal(map[string]any{"keys": keys})
}

// ECKey returns the JWK of an EC key.
func ECKey(kid string, key *ecdsa.PublicKey) map[string]string {
	size := (key.Params().BitSize + 7) / 8
	return map[string]string{
		"kty": "EC", "use": "jwt-svid", "kid": kid, "crv": key.Params().Name,
		"x": encode(key.X.FillBytes(make([]byte, size))), "y": encode(key.Y.FillBytes(make([]byte, size))),
	}
}

// Bundles returns trust bundles with this issuer's keys.
func (i *Issuer) Bundles() []byte { return marshal(map[string]any{i.domain: i.JWKSet()}) }

// Subject returns a SPIFFE ID of the issuer's trust domain.
func (i *Issuer) Subject(path string) string { return "spiffe://" + i.domain + path }

// Token signs the claims, with the header alg, kid and typ.
func (i *Issuer) Token(algorithm string, claims map[string]any) string {
	header := map[string]any{"alg": algorithm, "kid": KeyID(algorithm), "typ": "JWT"}
	return i.Sign(algorithm, string(marshal(header)), string(marshal(claims)))
}

// Sign signs a header and a payload as they are.
func (i *Issuer) Sign(algorithm, header, payload string) string {
	signed := encode([]byte(header)) + "." + encode([]byte(payload))
	return signed + "." + encode(i.signature(algorithm, signed))
}

var hashes = map[string]crypto.Hash{"256": crypto.SHA256, "384": crypto.SHA384, "512": crypto.SHA512}

func (i *Issuer) signature(algorithm, signed string) []byte {
	hash := hashes[algorithm[2:]]
	sum := digest(hash, signed)
	switch algorithm[:2] {
	case "RS":
		return must(rsa.SignPKCS1v15(rand.Reader, i.rsa, hash, sum))
	case "PS":
		return must(rsa.SignPSS(rand.Reader, i.rsa, hash, sum, &rsa.PSSOptions{SaltLength: hash.Size()}))
	}
	return must(signedBy(i.ec[algorithm], hash, signed))
}

// signedBy is the signature of an EC key: r and s, each in full length.
func signedBy(key *ecdsa.PrivateKey, hash crypto.Hash, signed string) ([]byte, error) {
	r, s, err := ecdsa.Sign(rand.Reader, key, digest(hash, signed))
	if err != nil {
		return nil, err
	}
	size := (key.Params().BitSize + 7) / 8
	return append(r.FillBytes(make([]byte, size)), s.FillBytes(make([]byte, size))...), nil
}

func digest(hash crypto.Hash, text string) []byte {
	h := hash.New()
	h.Write([]byte(text))
	return h.Sum(nil)
}

func encode(b []byte) string { return base64.RawURLEncoding.EncodeToString(b) }

func marshal(v any) []byte { return must(json.Marshal(v)) }

// must panics where signing or writing JSON failed: that is a fault of the test.
func must[T any](v T, err error) T {
	if err != nil {
		panic(fmt.Sprint("issuer: ", err))
	}
	return v
}
