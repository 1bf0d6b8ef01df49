package svid_test

import (
	"encoding/base64"
	"encoding/json"
	"errors"
	"testing"

	"svid.example/go/v3/svid"
)

// An RSA key has at least 2,048 bits (RFC 7518, section 3.3): not one less. Its error says which of the three bounds it does not keep.
func TestAnRSAKeyHasAtLeast2048Bits(t *testing.T) {
	for _, c := range []struct {
		bytes int
		first byte
		bits  int // that an RSA key may have; 0 for the usual ones
		want  string
	}{
		{256, 0x7f, 0, "the key's n has fewer than 2048 bits"},
		{256, 0x01, 0, "the key's n has fewer than 2048 bits"},
		{256, 0x80, 0, ""},
		{512, 0xff, 0, ""},
		{513, 0x01, 0, "the key's n has more than the 4096 bits that were chosen (RSABits, or --rsa-bits)"},
		{513, 0x01, 4097, ""},
		{2049, 0x01, 16384, "the key's n has more than 16384 bits, the most that a key may have"},
	} {
		n := make([]byte, c.bytes)
		for i := range n {
			n[i] = 0xff
		}
		n[0] = c.first
		jwk, err := json.Marshal(map[string]string{"kty": "RSA", "n": base64.RawURLEncoding.EncodeToString(n), "e": "AQAB"})
		if err != nil {
			t.Fatal(err)
		}
		_, err = svid.KeyringOptions{RSABits: c.bits}.ParseKey(jwk)
		if c.want == "" && err != nil || c.want != "" && (!errors.Is(err, svid.ErrKey) || err.Error() != "svid: unusable key: "+c.want) {
			t.Errorf("%q: %v", c.want, err)
		}
	}
}
