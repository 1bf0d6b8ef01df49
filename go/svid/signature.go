package svid

/*
#include "svid.h"

static uint32_t key_spki(const uint8_t *key, size_t key_len, _GoString_ alg, size_t most_bits, uint8_t *out, svid_told *told) {
    return svid_key_spki(key, key_len, (const uint8_t *)_GoStringPtr(alg), _GoStringLen(alg), most_bits, out, SVID_SPKI_ROOM, told);
}
*/
import "C"

import (
	"crypto"
	"crypto/ecdsa"
	"crypto/rsa"
	_ "crypto/sha256" // SHA-256 of the algorithms, for Go's own verifiers
	_ "crypto/sha512" // SHA-384 and SHA-512
	"crypto/x509"
	"encoding/json"
	"errors"
	"fmt"
)

const (
	// UsualRSABits is how many bits an RSA key may have, unless KeyringOptions say
	// another number.
	UsualRSABits = C.SVID_USUAL_RSA_BITS
	leastRSABits = C.SVID_LEAST_RSA_BITS
	mostRSABits  = C.SVID_MOST_RSA_BITS
)

// ErrSignature: the key didn't make the signature.
var ErrSignature = errors.New("svid: the key did not make this signature")

// ErrKey: the key can't be used, or not with the token's algorithm.
var ErrKey = errors.New("svid: unusable key")

// An algorithm says how a signature is made (RFC 7518, section 3.1).
type algorithm struct {
	index  int // in algorithms
	name   string
	hash   crypto.Hash
	scheme scheme
}

// A scheme is that of RFC 7518: RSASSA-PKCS1-v1_5 (section 3.3), ECDSA (3.4), or RSASSA-PSS with a salt of exactly the hash's
// length (3.5).
type scheme int

const (
	pkcs1 scheme = iota
	elliptic
	pss
)

// lists:begin algorithms (written by tools/lists from lists/algorithms.toml)

var algorithms = [...]algorithm{
	{0, "RS256", crypto.SHA256, pkcs1},
	{1, "RS384", crypto.SHA384, pkcs1},
	{2, "RS512", crypto.SHA512, pkcs1},
	{3, "ES256", crypto.SHA256, elliptic},
	{4, "ES384", crypto.SHA384, elliptic},
	{5, "ES512", crypto.SHA512, elliptic},
	{6, "PS256", crypto.SHA256, pss},
	{7, "PS384", crypto.SHA384, pss},
	{8, "PS512", crypto.SHA512, pss},
}

// lists:end

func findAlgorithm[T string | []byte](name T) *algorithm {
	for i := range algorithms {
		if algorithms[i].name == string(name) {
			return &algorithms[i]
		}
	}
	return nil
}

// algorithmName is the name as a string, without new memory for a known one.
func algorithmName(name []byte) string {
	if a := findAlgorithm(name); a != nil {
		return a.name
	}
	return string(name)
}

// signatureLen is how many bytes a signature by this key has: as many as the modulus (RFC 8017, 8.1.2 and 8.2.2), or r and s,
// each with the whole length of the curve's order (RFC 7518, section 3.4).
func signatureLen(key crypto.PublicKey) int {
	switch k := key.(type) {
	case *rsa.PublicKey:
		return k.Size()
	case *ecdsa.PublicKey:
		return 2 * ((k.Params().BitSize + 7) / 8)
	}
	return 0
}

// A signing is a text and its signature. The text is hashed once, however many keys may have made the signature: all of them
// by one algorithm.
type signing struct {
	text      string
	signature []byte
	digest    digest
}

// A Key is a public key of a trust bundle: an entry of a JWK set.
type Key struct {
	text   string
	said   [len(algorithms)]C.uint32_t // what the library said of it for each algorithm
	public crypto.PublicKey
	handle *handle // what verifies
	fault  error
}

// ParseKey reads a JWK of type RSA or EC. The error is ErrNoMemory, or ErrKey with the
// reason why no algorithm can use the key (docs/FORMATS.md, "Keys that can be used").
// An RSA key has at most UsualRSABits bits.
func ParseKey(jwk []byte) (*Key, error) { return KeyringOptions{}.ParseKey(jwk) }

// ParseKey is the function ParseKey, with the bound of these options. It may answer
// ErrRSABits too.
func (o KeyringOptions) ParseKey(jwk []byte) (*Key, error) {
	bits, err := o.rsaBits()
	if err != nil {
		return nil, err
	}
	k := parseKey(jwk, bits)
	if k.fault != nil {
		return nil, k.fault
	}
	return k, nil
}

// parseKey is ParseKey that keeps the fault: a key that can't be used verifies nothing. An RSA key has at most so many bits.
func parseKey(jwk []byte, rsaBits int) *Key {
	k := &Key{text: string(jwk)}
	var der []byte // the same for each algorithm that can use the key
	worst := C.uint32_t(C.SVID_OK)
	for i := range algorithms {
		room := make([]byte, C.SVID_SPKI_ROOM)
		var told C.svid_told
		said := C.key_spki(start(jwk), C.size_t(len(jwk)), algorithms[i].name, C.size_t(rsaBits), start(room), &told)
		switch k.said[i] = said; {
		case said == C.SVID_NO_MEMORY:
			k.fault = ErrNoMemory
			return k
		case said == C.SVID_OK:
			der = room[:told.len]
		case said > worst:
			worst = said
		}
	}
	if der == nil {
		k.fault = keyError(worst, jwk, rsaBits)
		return k
	}
	var err error
	if k.public, err = x509.ParsePKIXPublicKey(der); err != nil {
		k.fault = fmt.Errorf("%w: %v", ErrKey, err) // (a point that is not on its curve)
		return k
	}
	k.fault = k.hold()
	return k
}

// lists:begin keys (written by tools/lists from lists/statuses.toml)

// keyFaults say why no algorithm can use a key, where one algorithm has other words.
var keyFaults = map[C.uint32_t]string{
	C.SVID_KEY_KTY: "the key's kty is neither RSA nor EC",
	C.SVID_KEY_ALG: "the key's alg is that of no algorithm that fits it",
	C.SVID_KEY_CRV: "the key's crv is none of P-256, P-384 and P-521",
}

// lists:end

// keyError is ErrKey with the reason.
func keyError(said C.uint32_t, jwk []byte, rsaBits int) error {
	says, ok := keyFaults[said]
	switch {
	case said == C.SVID_KEY_BITS:
		says = bitsFault(jwk, rsaBits)
	case !ok:
		says = wordsOf(said).says
	}
	return fmt.Errorf("%w: %s", ErrKey, says)
}

// bitsFault says which bound the n of an RSA key does not keep, of the three that there are.
func bitsFault(jwk []byte, rsaBits int) string {
	room := make([]byte, C.SVID_SPKI_ROOM)
	var told C.svid_told
	for i := range algorithms {
		switch C.key_spki(start(jwk), C.size_t(len(jwk)), algorithms[i].name, mostRSABits, start(room), &told) {
		case C.SVID_OK:
			return fmt.Sprintf("the key's n has more than the %d bits that were chosen (RSABits, or --rsa-bits)", rsaBits)
		case C.SVID_NO_MEMORY:
			return wordsOf(C.SVID_KEY_BITS).says
		}
	}
	var key struct{ N string }
	if err := json.Unmarshal(jwk, &key); err == nil && len(key.N) > mostRSABits/8 { // (a character is 6 bits, so a short one has fewer)
		return fmt.Sprintf("the key's n has more than %d bits, the most that a key may have", mostRSABits)
	}
	return fmt.Sprintf("the key's n has fewer than %d bits", leastRSABits)
}

// JSON returns the key's JWK.
func (k *Key) JSON() string { return k.text }

// Public returns the key for crypto/rsa or crypto/ecdsa, or ErrKey with the reason
// why it can't be used.
func (k *Key) Public() (crypto.PublicKey, error) { return k.public, k.fault }

// Verify returns nil if this key made the signature over the signed text by the
// algorithm of this name (docs/FORMATS.md, "Candidates"). ErrSignature: it didn't,
// as a key of another type or curve than the algorithm's can't. ErrKey: the key
// can't be used at all, or its JWK names another algorithm. ErrNoMemory: memory was
// refused, so nothing is known.
func (k *Key) Verify(name, signed string, signature []byte) error {
	return k.verify(name, &signing{text: signed, signature: signature})
}

func (k *Key) verify(name string, s *signing) error {
	if k.fault != nil {
		return k.fault
	}
	a := findAlgorithm(name)
	if a == nil {
		return fmt.Errorf("%w: no algorithm is named %q", ErrKey, name)
	}
	switch k.said[a.index] {
	case C.SVID_OK:
	case C.SVID_KEY_ALG:
		return fmt.Errorf("%w: it is for another algorithm, and the token says %s", ErrKey, name)
	default: // A key of another type or curve.
		return ErrSignature
	}
	if len(s.signature) != signatureLen(k.public) {
		return ErrSignature
	}
	return k.made(a, s)
}
