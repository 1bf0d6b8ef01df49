package main

import (
	"crypto"
	"crypto/ecdsa"
	"crypto/elliptic"
	"crypto/rsa"
	"crypto/sha256"
	"encoding/base64"
	"encoding/json"
	"math/big"
	"strings"
	"time"
)

// standard verifies by the standard library.
type standard struct {
	keys     map[string]any
	audience string
}

// newStandard reads the keys of a JWK set that are for ES256, RS256 and PS256.
func newStandard(bundle []byte, audience string) (verifier, error) {
	var set struct {
		Keys []struct{ Kid, Kty, Crv, X, Y, N, E string }
	}
	if err := json.Unmarshal(bundle, &set); err != nil {
		return nil, err
	}
	keys := map[string]any{}
	for _, k := range set.Keys {
		switch {
		case k.Crv == "P-256":
			keys[k.Kid] = &ecdsa.PublicKey{Curve: elliptic.P256(), X: number(k.X), Y: number(k.Y)}
		case k.Kty == "RSA":
			keys[k.Kid] = &rsa.PublicKey{N: number(k.N), E: int(number(k.E).Int64())}
		}
	}
	return &standard{keys, audience}, nil
}

// number is a member of a key, or 0 if it is none.
func number(text string) *big.Int {
	bytes, _ := base64.RawURLEncoding.DecodeString(text)
	return new(big.Int).SetBytes(bytes)
}

func (s *standard) verify(token string) (c claims, err error) {
	parts := strings.Split(token, ".")
	if len(parts) != 3 {
		return c, errToken
	}
	var header struct{ Alg, Kid string }
	if err := decode(parts[0], &header); err != nil {
		return c, err
	}
	if err := decode(parts[1], &c); err != nil {
		return c, err
	}
	signature, err := base64.RawURLEncoding.DecodeString(parts[2])
	if err != nil {
		return c, errToken
	}
	digest := sha256.Sum256([]byte(parts[0] + "." + parts[1]))
	good := isGood(header.Alg, s.keys[header.Kid], digest[:], signature)
	if !good || c.Aud != s.audience || c.Exp <= time.Now().Unix() || !strings.HasPrefix(c.Sub, "spiffe://example.org/") || c.Jti == "" {
		return c, errToken
	}
	return c, nil
}

func isGood(alg string, key any, digest, signature []byte) bool {
	switch k := key.(type) {
	case *ecdsa.PublicKey:
		return alg == "ES256" && len(signature) == 64 &&
			ecdsa.Verify(k, digest, new(big.Int).SetBytes(signature[:32]), new(big.Int).SetBytes(signature[32:]))
	case *rsa.PublicKey:
		switch alg {
		case "RS256":
			return rsa.VerifyPKCS1v15(k, crypto.SHA256, digest, signature) == nil
		case "PS256":
			return rsa.VerifyPSS(k, crypto.SHA256, digest, signature, &rsa.PSSOptions{SaltLength: sha256.Size}) == nil
		}
	}
	return false
}

func decode(part string, into any) error {
	text, err := base64.RawURLEncoding.DecodeString(part)
	if err != nil {
		return err
	}
	return json.Unmarshal(text, into)
}
