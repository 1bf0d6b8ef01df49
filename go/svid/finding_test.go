//go:build cgo

package svid

import "testing"

// What was found of one token is no answer for another one that the same key may have signed, in whole or in part.
func TestAFindingIsOfItsToken(t *testing.T) {
	const now = 1_767_225_600
	one := newIssuer(t, "example.org")
	k, v := openKeyring(t, string(one.Bundles())), openValidator(t, one.Bundles())
	var tokens [2]Token
	for i := range tokens {
		text := one.Token("ES256", map[string]any{"sub": "spiffe://example.org/web", "aud": "ledger", "exp": now + 300, "jti": string(rune('a' + i))})
		tokens[i] = NewToken(text)
		defer tokens[i].Close()
		if key, err := k.VerifyToken(&tokens[i]); key == nil || err != nil {
			t.Fatal(key, err)
		}
	}
	own, other := tokens[0].found, tokens[1].found
	for what, mixed := range map[string]finding{
		"a finding":   other,
		"a text":      {own.by, other.text, own.signature},
		"a signature": {own.by, own.text, other.signature},
	} {
		tokens[0].found = mixed
		if _, err := v.JudgeToken(now, &tokens[0]); err != BadSignature {
			t.Errorf("%s of another token: judged: %v", what, err)
		}
		if _, err := v.CheckToken(now, &tokens[0]); err != BadSignature {
			t.Errorf("%s of another token: checked: %v", what, err)
		}
	}
	tokens[0].found = own
	if _, err := v.CheckToken(now, &tokens[0]); err != nil {
		t.Errorf("its own finding: %v", err)
	}
}

// VerifyToken keeps what the signature was verified over, and lends it to nobody.
func TestAFindingIsWhatWasVerified(t *testing.T) {
	one := newIssuer(t, "example.org")
	k := openKeyring(t, string(one.Bundles()))
	for _, jti := range []string{"a", "b"} {
		text := one.Token("ES256", map[string]any{"sub": "spiffe://example.org/web", "aud": "ledger", "exp": 2_000_000_000, "jti": jti})
		read := NewToken(text)
		defer read.Close()
		s := signing{text: text[:1], signature: []byte(jti)}
		key, err := k.VerifyToken(&read)
		if key == nil || err != nil {
			t.Fatal(key, err)
		}
		if found := s.found(key); found.by != key || found.text != s.text || string(found.signature) != jti || &found.signature[0] == &s.signature[0] {
			t.Errorf("%v, and verified was %v", found, s)
		}
		if key.verify("ES256", &signing{text: read.found.text, signature: read.found.signature}) != nil {
			t.Errorf("the key did not make what was found of %s", jti)
		}
	}
	if none := (&signing{text: "a"}).found(nil); none.by != nil || none.text != "" || none.signature != nil {
		t.Errorf("no key has found %v", none)
	}
}
