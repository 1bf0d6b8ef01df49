package main

import (
	"encoding/json"
	"fmt"
	"strings"
	"time"

	"gopkg.in/square/go-jose.v2"
	"gopkg.in/square/go-jose.v2/jwt"
)

// joseVerifier verifies in the steps of ParseAndValidate of go-spiffe's package jwtsvid, by the library that it stands on.
// (Debian has that library, and not go-spiffe itself.)
type joseVerifier struct {
	keys     map[string]any // by kid, as go-spiffe keeps them
	audience string
}

func newJose(bundle []byte, audience string) (verifier, error) {
	var set jose.JSONWebKeySet
	if err := json.Unmarshal(bundle, &set); err != nil {
		return nil, err
	}
	v := &joseVerifier{make(map[string]any), audience}
	for _, key := range set.Keys {
		if key.Use == "jwt-svid" {
			v.keys[key.KeyID] = key.Key
		}
	}
	return v, nil
}

// lists:begin algorithms (written by tools/lists from lists/algorithms.toml)

var allowed = map[jose.SignatureAlgorithm]bool{
	jose.RS256: true, jose.RS384: true, jose.RS512: true, jose.ES256: true, jose.ES384: true, jose.ES512: true,
	jose.PS256: true, jose.PS384: true, jose.PS512: true,
}

// lists:end

func (v *joseVerifier) verify(token string) (c claims, err error) {
	parsed, err := jwt.ParseSigned(token)
	if err != nil {
		return c, err
	}
	if len(parsed.Headers) != 1 || !allowed[jose.SignatureAlgorithm(parsed.Headers[0].Algorithm)] {
		return c, fmt.Errorf("%w: the algorithm", errToken)
	}
	// The trust domain of the subject says which bundle is asked for the key.
	var said jwt.Claims
	if err := parsed.UnsafeClaimsWithoutVerification(&said); err != nil {
		return c, err
	}
	if said.Subject == "" || said.Expiry == nil {
		return c, fmt.Errorf("%w: no subject or expiry", errToken)
	}
	domain, _, _ := strings.Cut(strings.TrimPrefix(said.Subject, "spiffe://"), "/")
	if domain != "example.org" {
		return c, fmt.Errorf("%w: the subject", errToken)
	}
	key := v.keys[parsed.Headers[0].KeyID]
	if key == nil {
		return c, fmt.Errorf("%w: no such key", errToken)
	}
	// (All claims go to a map, as there.)
	all := make(map[string]any)
	if err := parsed.Claims(key, &all); err != nil {
		return c, err
	}
	if err := said.Validate(jwt.Expected{Audience: jwt.Audience{v.audience}, Time: time.Now()}); err != nil {
		return c, err
	}
	if said.ID == "" {
		return c, fmt.Errorf("%w: no jti", errToken)
	}
	return claims{Sub: said.Subject, Aud: v.audience, Jti: said.ID, Exp: said.Expiry.Time().Unix()}, nil
}
