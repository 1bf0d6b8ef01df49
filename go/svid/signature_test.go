package svid_test

import (
	"bytes"
	"crypto"
	"crypto/rand"
	"crypto/rsa"
	"crypto/sha256"
	"encoding/base64"
	"encoding/json"
	"errors"
	"fmt"
	"regexp"
	"strings"
	"testing"

	"svid.example/go/v3/internal/issuer"
	"svid.example/go/v3/svid"
)

// exampleKey is example's key for the algorithm.
func exampleKey(t *testing.T, algorithm string) *svid.Key {
	t.Helper()
	var set struct{ Keys []map[string]string }
	if err := json.Unmarshal(example.JWKSet(), &set); err != nil {
		t.Fatal(err)
	}
	for _, jwk := range set.Keys {
		if jwk["kid"] == issuer.KeyID(algorithm) {
			key, err := svid.ParseKey(mustJSON(jwk))
			if err != nil {
				t.Fatal(err)
			}
			return key
		}
	}
	t.Fatalf("there is no key for %s", algorithm)
	return nil
}

// signing is the text that a token signs, and the signature. The number makes another token.
func signing(t *testing.T, algorithm string, number int) (signed string, signature []byte) {
	t.Helper()
	token := example.Token(algorithm, claims(fmt.Sprint(number)))
	end := strings.LastIndexByte(token, '.')
	return token[:end], unBase64(t, token[end+1:])
}

func unBase64(t testing.TB, text string) []byte {
	t.Helper()
	bytes, err := base64.RawURLEncoding.DecodeString(text)
	if err != nil {
		t.Fatal(err)
	}
	return bytes
}

// wantVerify wants a key to have made only the first of these signatures.
func wantVerify(t *testing.T, key *svid.Key, algorithm, signed string, good []byte, others map[string][]byte) {
	t.Helper()
	if err := key.Verify(algorithm, signed, good); err != nil {
		t.Errorf("%s: %v", algorithm, err)
	}
	for what, signature := range others {
		if err := key.Verify(algorithm, signed, signature); !errors.Is(err, svid.ErrSignature) {
			t.Errorf("%s, %s: %v", algorithm, what, err)
		}
	}
}

// A keyring uses RSA keys up to its own bound alone, and up to 4,096 bits where it has none.
func TestAnRSAKeyHasABound(t *testing.T) {
	long := func(bits int) (bundles []byte, token string) {
		// (Two primes of that length take seconds to find.)
		key, err := rsa.GenerateMultiPrimeKey(rand.Reader, bits/256, bits)
		if err != nil {
			t.Fatal(err)
		}
		encode := base64.RawURLEncoding.EncodeToString
		signed := encode([]byte(`{"alg":"RS256","kid":"long"}`)) + "." + encode(mustJSON(claims(fmt.Sprint(bits))))
		sum := sha256.Sum256([]byte(signed))
		signature, err := rsa.SignPKCS1v15(rand.Reader, key, crypto.SHA256, sum[:])
		if err != nil {
			t.Fatal(err)
		}
		jwk := map[string]string{"kty": "RSA", "use": "jwt-svid", "kid": "long", "n": encode(key.N.Bytes()), "e": "AQAB"}
		return mustJSON(map[string]any{"example.org": map[string]any{"keys": []any{jwk}}}), signed + "." + encode(signature)
	}
	four, token4 := long(4096)
	five, token5 := long(5120)
	jwk5 := regexp.MustCompile(`\{"e":[^}]*\}`).Find(five)
	sixteen, token16 := long(16384)
	for _, row := range []struct {
		bundles []byte
		token   string
		bits    int
		want    int // questions that are answered yes
	}{
		{four, token4, 0, 1}, {four, token4, 4096, 1}, {four, token4, 4095, 0}, {four, token4, 2048, 0},
		{five, token5, 0, 0}, {five, token5, 5119, 0}, {five, token5, 5120, 1},
		{sixteen, token16, 0, 0}, {sixteen, token16, 16383, 0}, {sixteen, token16, 16384, 1},
	} {
		k, err := svid.OpenKeyring(svid.KeyringOptions{Bundles: row.bundles, RSABits: row.bits})
		if err != nil {
			t.Fatal(err)
		}
		for _, when := range []string{"at first", "with other bundles"} {
			if yes, err := k.Verify(row.token); err != nil || len(yes) != row.want {
				t.Errorf("%d bytes of bundles, at most %d bits, %s: %d questions, %v", len(row.bundles), row.bits, when, len(yes), err)
			}
			// A key that is too long stays a candidate, as any that can't be used.
			if candidates, err := k.Candidates(row.token); err != nil || len(candidates) != 1 {
				t.Errorf("%d candidates, %v", len(candidates), err)
			}
			if err := k.SetBundles(row.bundles); err != nil {
				t.Fatal(err)
			}
		}
		k.Close()
	}
	for _, bits := range []int{-1, 1, 2047, 16385} {
		if k, err := svid.OpenKeyring(svid.KeyringOptions{Bundles: four, RSABits: bits}); err != svid.ErrRSABits || k != nil {
			t.Errorf("at most %d bits: %v", bits, err)
		}
		if key, err := (svid.KeyringOptions{RSABits: bits}).ParseKey(jwk5); err != svid.ErrRSABits || key != nil {
			t.Errorf("a key of at most %d bits: %v", bits, err)
		}
	}
	for bits, want := range map[int]error{0: svid.ErrKey, 5119: svid.ErrKey, 5120: nil} {
		if _, err := (svid.KeyringOptions{RSABits: bits}).ParseKey(jwk5); !errors.Is(err, want) {
			t.Errorf("a key of 5,120 bits, and at most %d are due: %v", bits, err)
		}
	}
}

// Whatever bytes a stranger sends as a signature, it is a bad one, and nothing else.
func TestAnyBytesAreABadSignature(t *testing.T) {
	for _, algorithm := range issuer.Algorithms {
		key := exampleKey(t, algorithm)
		signed, good := signing(t, algorithm, 0)
		others := map[string][]byte{"ones": bytes.Repeat([]byte{0xff}, len(good)), "a one": append(make([]byte, len(good)-1), 1)}
		for i := 0; i < 30; i++ {
			bytes := make([]byte, len(good))
			if _, err := rand.Read(bytes); err != nil {
				t.Fatal(err)
			}
			bytes[0] >>= i % 9 // (below the modulus, or the order, and above)
			others[fmt.Sprintf("%x", bytes)] = bytes
		}
		wantVerify(t, key, algorithm, signed, good, others)
	}
}
