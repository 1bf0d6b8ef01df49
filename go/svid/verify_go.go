//go:build cgo && gocrypto

package svid

import (
	"crypto/ecdsa"
	"crypto/rsa"
	"math/big"
)

// A digest is that of a signed text, or nil before it is made.
type digest []byte

// A handle is what verifies by OpenSSL. Go's library needs none.
type handle struct{}

func (k *Key) hold() error { return nil }

// made is nil if the key made the signature, which has the length that is due, and else ErrSignature.
func (k *Key) made(a *algorithm, s *signing) error {
	if s.digest == nil {
		hash := a.hash.New()
		hash.Write([]byte(s.text))
		s.digest = hash.Sum(nil)
	}
	if !verifyInGo(a, k.public, s.digest, s.signature) {
		return ErrSignature
	}
	return nil
}

func verifyInGo(a *algorithm, public any, digest, signature []byte) bool {
	switch key := public.(type) {
	case *ecdsa.PublicKey:
		half := len(signature) / 2
		return ecdsa.Verify(key, digest, new(big.Int).SetBytes(signature[:half]), new(big.Int).SetBytes(signature[half:]))
	case *rsa.PublicKey:
		// Go 1.19 takes a signature that is not below the modulus (RFC 8017, section 5.2.2).
		if new(big.Int).SetBytes(signature).Cmp(key.N) >= 0 {
			return false
		}
		if a.scheme == pss {
			return rsa.VerifyPSS(key, a.hash, digest, signature, &rsa.PSSOptions{SaltLength: a.hash.Size()}) == nil
		}
		return rsa.VerifyPKCS1v15(key, a.hash, digest, signature) == nil
	}
	return false
}
