package svid_test

import (
	"bytes"
	"crypto/ecdsa"
	"crypto/elliptic"
	"crypto/rand"
	"encoding/base64"
	"encoding/json"
	"errors"
	"fmt"
	"log"
	"math/big"
	"strings"
	"sync"
	"sync/atomic"
	"testing"

	"svid.example/go/v3/internal/issuer"
	"svid.example/go/v3/svid"
)

const (
	moment  = 1_767_225_600
	longest = 3600
)

var example = newIssuer()

func newIssuer() *issuer.Issuer {
	i, err := issuer.New("example.org")
	if err != nil {
		log.Fatal(err)
	}
	return i
}

func claims(jti string) map[string]any {
	return map[string]any{"sub": "spiffe://example.org/web", "aud": "ledger", "exp": moment + 300, "jti": jti}
}

func options(id byte) svid.Options {
	return svid.Options{
		Audiences: []string{"ledger", "audit"}, Bundles: example.Bundles(),
		Longest: longest, Ahead: 10, Step: 86400, ValidatorID: svid.ValidatorID{id},
	}
}

func open(t testing.TB, id byte) *svid.Validator {
	t.Helper()
	v, err := svid.Open(options(id))
	if err != nil {
		t.Fatal(err)
	}
	t.Cleanup(v.Close)
	return v
}

func keyring(t testing.TB, bundles []byte) *svid.Keyring {
	t.Helper()
	k, err := svid.NewKeyring(bundles)
	if err != nil {
		t.Fatal(err)
	}
	t.Cleanup(k.Close)
	return k
}

// verified is the token's question, answered by its signature.
func verified(t testing.TB, k *svid.Keyring, token string) []svid.Question {
	t.Helper()
	yes, err := k.Verify(token)
	if err != nil || len(yes) != 1 {
		t.Fatalf("Verify: %d questions, error %v", len(yes), err)
	}
	return yes
}

// RFC 7515, A.3: a key and a signature that someone else made.
func TestSignatureOfRFC7515(t *testing.T) {
	const jwk = `{"kty":"EC","crv":"P-256","x":"f83OJ3D2xF1Bg8vub9tLe1gHMzV76e8Tus9uPHvRVEU","y":"x_FEzRu9m36HLN_tue659LNpXW6pCyStikYjKIWI5a0"}`
	const signed = "eyJhbGciOiJFUzI1NiJ9.eyJpc3MiOiJqb2UiLA0KICJleHAiOjEzMDA4MTkzODAsDQogImh0dHA6Ly9leGFtcGxlLmNvbS9pc19yb290Ijp0cnVlfQ"
	const signature = "DtEhU3ljbEg8L38VWAfUAqOyKAM6-Xx-F4GawxaepmXFCgfTjDxw5djxLa8ISlSApmWQxfKTUJqPP3-Kg6NU1Q"
	key, err := svid.ParseKey([]byte(jwk))
	if err != nil {
		t.Fatal(err)
	}
	made, err := base64.RawURLEncoding.DecodeString(signature)
	if err != nil {
		t.Fatal(err)
	}
	if err := key.Verify("ES256", signed, made); err != nil {
		t.Error(err)
	}
	if err := key.Verify("ES256", signed+"A", made); !errors.Is(err, svid.ErrSignature) {
		t.Errorf("another text: %v", err)
	}
	if err := key.Verify("none", signed, nil); !errors.Is(err, svid.ErrKey) {
		t.Errorf("no algorithm: %v", err)
	}
}

// A key is used with the algorithm that fits its curve, and with the one that its JWK names.
func TestAKeyOfAnotherCurveOrAlgorithmIsRefused(t *testing.T) {
	var set struct{ Keys []map[string]string }
	if err := json.Unmarshal(example.JWKSet(), &set); err != nil {
		t.Fatal(err)
	}
	for _, key := range set.Keys {
		key["kid"] = "one"
	}
	token := func(algorithm string) string {
		header := fmt.Sprintf(`{"alg":%q,"kid":"one"}`, algorithm)
		payload, err := json.Marshal(claims("a"))
		if err != nil {
			t.Fatal(err)
		}
		return example.Sign(algorithm, header, string(payload))
	}
	for _, algorithm := range issuer.Algorithms {
		for _, key := range set.Keys {
			fits := key["kty"] == "RSA" && algorithm[0] != 'E' ||
				key["crv"] == map[string]string{"ES256": "P-256", "ES384": "P-384", "ES512": "P-521"}[algorithm] && key["crv"] != ""
			for _, named := range []string{"", algorithm, "HS256"} {
				delete(key, "alg")
				if named != "" {
					key["alg"] = named
				}
				bundles, err := json.Marshal(map[string]any{"example.org": map[string]any{"keys": []any{key}}})
				if err != nil {
					t.Fatal(err)
				}
				k, err := svid.NewKeyring(bundles)
				if err != nil {
					t.Fatal(err)
				}
				yes, _ := k.Verify(token(algorithm))
				if want := fits && named != "HS256"; (len(yes) == 1) != want {
					t.Errorf("%s with a key %s %s for %q: %d questions", algorithm, key["kty"], key["crv"], named, len(yes))
				}
				k.Close()
			}
		}
	}
}

// Of many keys that may have signed a token the first MaxCandidates are tried.
func TestOfManyCandidatesTheFirstAreTried(t *testing.T) {
	other, err := issuer.New("example.org")
	if err != nil {
		t.Fatal(err)
	}
	key := func(of *issuer.Issuer) json.RawMessage {
		var set struct{ Keys []json.RawMessage }
		if err := json.Unmarshal(of.JWKSet(), &set); err != nil {
			t.Fatal(err)
		}
		return set.Keys[1] // of ES256
	}
	token := example.Sign("ES256", `{"alg":"ES256"}`, string(mustJSON(claims("a"))))
	for order, want := range map[int]int{0: 1, svid.MaxCandidates - 1: 1, svid.MaxCandidates: 0} {
		var keys []json.RawMessage
		for len(keys) < svid.MaxCandidates+1 {
			if len(keys) == order {
				keys = append(keys, key(example))
			} else {
				keys = append(keys, key(other))
			}
		}
		k := keyring(t, mustJSON(map[string]any{"example.org": map[string]any{"keys": keys}}))
		if first, err := k.Candidates(token); err != nil || len(first) != svid.MaxCandidates {
			t.Fatalf("%d candidates, %v", len(first), err)
		}
		if yes, err := k.Verify(token); err != nil || len(yes) != want {
			t.Errorf("the key at order %d: %d questions, %v", order, len(yes), err)
		}
	}
}

func TestKeysThatCannotBeUsed(t *testing.T) {
	p256, err := ecdsa.GenerateKey(elliptic.P256(), rand.Reader)
	if err != nil {
		t.Fatal(err)
	}
	ec := func(name, value string) string {
		key := issuer.ECKey("a", &p256.PublicKey)
		key[name] = value
		text, err := json.Marshal(key)
		if err != nil {
			t.Fatal(err)
		}
		return string(text)
	}
	encode := base64.RawURLEncoding.EncodeToString
	modulus := func(bits int) string {
		n := new(big.Int).SetBit(big.NewInt(1), bits-1, 1)
		return encode(n.Bytes())
	}
	// A coordinate that begins with a zero, and which can be written without it.
	var short *ecdsa.PrivateKey
	for short == nil || short.X.BitLen() > 31*8 {
		if short, err = ecdsa.GenerateKey(elliptic.P256(), rand.Reader); err != nil {
			t.Fatal(err)
		}
	}
	cut := issuer.ECKey("a", &short.PublicKey)
	cut["x"] = encode(short.X.Bytes())
	x := p256.X.FillBytes(make([]byte, 32))
	leftOver := []byte(encode(x))
	leftOver[42]++ // (the last two bits of 43 characters are none of 32 bytes)
	zero := encode(make([]byte, 32))
	for what, jwk := range map[string]string{
		"no JSON":             `{`,
		"a type of its own":   `{"kty":"oct","k":"AA"}`,
		"a bad one for ES256": `{"kty":"oct","k":"AA","alg":"ES256"}`,
		"RSA of 1,024 bits":   `{"kty":"RSA","n":"` + modulus(1024) + `","e":"AQAB"}`,
		"RSA of 2,047 bits":   `{"kty":"RSA","n":"` + modulus(2047) + `","e":"AQAB"}`,
		"RSA of 4,097 bits":   `{"kty":"RSA","n":"` + modulus(4097) + `","e":"AQAB"}`,
		"exponent 1":          `{"kty":"RSA","n":"` + modulus(2048) + `","e":"AQ"}`,
		"exponent 2":          `{"kty":"RSA","n":"` + modulus(2048) + `","e":"Ag"}`,
		"exponent 65536":      `{"kty":"RSA","n":"` + modulus(2048) + `","e":"AQAA"}`,
		"exponent 2^31+1":     `{"kty":"RSA","n":"` + modulus(2048) + `","e":"gAAAAQ"}`,
		"exponent 2^32+1":     `{"kty":"RSA","n":"` + modulus(2048) + `","e":"AQAAAAE"}`,
		"no exponent":         `{"kty":"RSA","n":"` + modulus(2048) + `"}`,
		"a zero before n":     `{"kty":"RSA","n":"` + encode(append([]byte{0}, unBase64(t, modulus(2048))...)) + `","e":"AQAB"}`,
		"a zero before e":     `{"kty":"RSA","n":"` + modulus(2048) + `","e":"AAEAAQ"}`,
		"an even modulus":     `{"kty":"RSA","n":"` + encode(new(big.Int).Lsh(big.NewInt(3), 2047).Bytes()) + `","e":"AQAB"}`,
		"padding":             `{"kty":"RSA","n":"` + modulus(2048) + `","e":"AQAB=="}`,
		"a number":            `{"kty":"RSA","n":"` + modulus(2048) + `","e":65537}`,
		"names in capitals":   `{"KTY":"RSA","N":"` + modulus(2048) + `","E":"AQAB"}`,
		"a curve of its own":  ec("crv", "secp256k1"),
		"a longer curve":      ec("crv", "P-384"),
		"a short coordinate":  ec("x", "AA"),
		"one without a zero":  string(mustJSON(cut)),
		"one with a zero":     ec("x", encode(append([]byte{0}, x...))),
		"one with three":      ec("y", "AAAA"+issuer.ECKey("a", &p256.PublicKey)["y"]),
		"bits left over":      ec("x", string(leftOver)),
		"a point off a curve": ec("x", zero),
		"not base64url":       ec("x", strings.Repeat("+", 43)),
		"a line end":          ec("x", strings.Repeat("A", 43)+"\n"),
	} {
		if key, err := svid.ParseKey([]byte(jwk)); !errors.Is(err, svid.ErrKey) || key != nil {
			t.Errorf("%s: %v", what, err)
		}
	}
	for what, jwk := range map[string]string{
		"RSA of 2,048 bits": `{"kty":"RSA","n":"` + modulus(2048) + `","e":"AQAB"}`,
		"RSA of 4,096 bits": `{"kty":"RSA","n":"` + modulus(4096) + `","e":"AQAB"}`,
		"exponent 3":        `{"kty":"RSA","n":"` + modulus(2048) + `","e":"Aw"}`,
		"exponent 2^31-1":   `{"kty":"RSA","n":"` + modulus(2048) + `","e":"f____w"}`,
		"a zero in it":      string(mustJSON(issuer.ECKey("a", &short.PublicKey))),
	} {
		if _, err := svid.ParseKey([]byte(jwk)); err != nil {
			t.Errorf("%s: %v", what, err)
		}
	}
}

// refuse checks a token as a service does.
func refuse(v *svid.Validator, k *svid.Keyring, token string) error {
	yes, _ := k.Verify(token) // a refusal comes again, in its place among the others
	_, err := v.Check(moment, token, yes)
	return err
}

func mustJSON(v any) []byte {
	text, err := json.Marshal(v)
	if err != nil {
		panic(err)
	}
	return text
}

func TestRefusalsAreErrors(t *testing.T) {
	all := svid.Refusals()
	if len(all) < 2 || all[0] != svid.TooLong || all[len(all)-1] != svid.Replayed {
		t.Fatalf("refusals: %v", all)
	}
	for i, r := range all {
		wrapped := fmt.Errorf("checking: %w", r)
		for j, other := range all {
			if errors.Is(wrapped, other) != (i == j) {
				t.Errorf("errors.Is(%v, %v)", r, other)
			}
		}
		var found svid.Refusal
		if !errors.As(wrapped, &found) || found != r {
			t.Errorf("errors.As: %v", found)
		}
	}
	if got := svid.Replayed.Error(); got != "svid: token refused: Replayed" {
		t.Error(got)
	}
	if got := svid.Refusal(7).String(); got != "Refusal(7)" {
		t.Error(got)
	}
}

func TestJudgeAddsNothing(t *testing.T) {
	v, k := open(t, 1), keyring(t, example.Bundles())
	token := example.Token("ES256", claims("a"))
	yes := verified(t, k, token)
	judged, err := v.Judge(moment, token, yes)
	if err != nil {
		t.Fatal(err)
	}
	accepted, err := v.Check(moment, token, yes)
	if err != nil || accepted != judged {
		t.Errorf("judged %+v, checked %+v, %v", judged, accepted, err)
	}
	if _, err := v.Judge(moment, token, yes); err != svid.Replayed {
		t.Error(err)
	}
}

func save(t testing.TB, v *svid.Validator) []byte {
	t.Helper()
	var out bytes.Buffer
	if err := v.Save(&out); err != nil {
		t.Fatal(err)
	}
	return out.Bytes()
}

func TestMessagesCarryTheRecord(t *testing.T) {
	a, b, k := open(t, 1), open(t, 2), keyring(t, example.Bundles())
	used, withdrawn := example.Token("ES256", claims("used")), example.Token("ES256", claims("withdrawn"))
	if err := refuse(a, k, used); err != nil {
		t.Fatal(err)
	}
	judged, err := a.Judge(moment, withdrawn, verified(t, k, withdrawn))
	if err != nil {
		t.Fatal(err)
	}
	gone, err := a.Withdraw(moment, judged.Use.Key, judged.Use.Expires)
	if err != nil || !gone.Withdrawn {
		t.Fatalf("%+v, %v", gone, err)
	}
	// One use by its batch, the other by summary and answer.
	if err := b.Take(moment, batchOf(gone)); err != nil {
		t.Fatal(err)
	}
	if err := refuse(b, k, withdrawn); err != svid.Withdrawn {
		t.Errorf("withdrawn: %v", err)
	}
	summary, err := b.Summary()
	if err != nil {
		t.Fatal(err)
	}
	answer, err := a.Answer(moment, summary)
	if err != nil {
		t.Fatal(err)
	}
	if err := b.Take(moment, answer); err != nil {
		t.Fatal(err)
	}
	if err := refuse(b, k, used); err != svid.Replayed {
		t.Errorf("used: %v", err)
	}
	if !bytes.Equal(save(t, a), save(t, b)) {
		t.Error("the records differ")
	}
}

func TestSaveWritesALargeRecordInPieces(t *testing.T) {
	const uses = 10_000
	v := open(t, 1)
	for i := 0; i < uses; i++ {
		u := svid.Use{Key: svid.TokenKey{byte(i >> 8), byte(i)}, Expires: moment + 100, At: moment, ValidatorID: svid.ValidatorID{2}}
		if err := v.Take(moment, batchOf(u)); err != nil {
			t.Fatal(err)
		}
	}
	saved := save(t, v)
	other := open(t, 3)
	var pieces pieces
	if err := v.Save(&pieces); err != nil || len(pieces) != 3 {
		t.Errorf("%d pieces: %v", len(pieces), err)
	}
	for _, piece := range pieces {
		if err := other.Take(moment, piece); err != nil {
			t.Fatal(err)
		}
	}
	if !bytes.Equal(save(t, other), saved) || len(saved) < uses*65 {
		t.Error("the records differ")
	}
	// One that can't be written whole is an error, whichever piece it is.
	for most := 0; most < len(saved); most += len(saved) / 2 {
		if err := v.Save(&full{most}); !errors.Is(err, errFull) {
			t.Errorf("room for %d bytes: %v", most, err)
		}
	}
}

// The pieces that were written, each by itself.
type pieces [][]byte

func (p *pieces) Write(b []byte) (int, error) {
	*p = append(*p, append([]byte(nil), b...))
	return len(b), nil
}

var errFull = errors.New("it is full")

// A full writer has room for so many bytes.
type full struct{ room int }

func (f *full) Write(b []byte) (int, error) {
	if f.room -= len(b); f.room < 0 {
		return 0, errFull
	}
	return len(b), nil
}

// A message that is cut off is read by no one, whatever stands behind it.
func TestUsesOfWholeMessages(t *testing.T) {
	one := batchOf(svid.Use{Expires: 2, At: 1})
	none, two := append([]byte(nil), one[:17]...), batchesOf([]svid.Use{{Expires: 2, At: 1}, {Expires: 3, At: 1}})
	none[16] = 0
	many := append([]byte(nil), one...)
	many[13] = 255
	for what, row := range map[string]struct {
		message []byte
		want    bool
	}{
		"one use": {one, true}, "no use": {none, true}, "two uses": {two, true},
		"nothing": {nil, true}, "half": {one[:81], false}, "a byte more": {append(one[:82:82], 0), false}, "two batches": {append(one[:82:82], one...), true},
		"one and a half": {append(one[:82:82], one[:81]...), false}, "another one behind": {append(one[:82:82], []byte("JSR\x02\x02plain bytes")...), false},
		"another kind": {append([]byte("JSR\x02\x02"), one[5:]...), false}, "version 1": {append([]byte("JSR\x01\x01"), one[5:]...), false},
		"a count of billions": {many, false}, "a head alone": {one[:17], false}, "half a head": {one[:16], false},
	} {
		if _, err := svid.Uses(row.message); (err == nil) != row.want {
			t.Errorf("%s: %v", what, err)
		}
	}
}

// Batches of uses are what a validator takes and saves, whatever their order.
func TestBatches(t *testing.T) {
	if got := batchesOf(nil); len(got) != 0 {
		t.Errorf("no uses: % X", got)
	}
	var uses []svid.Use
	for i := 0; i < 300; i++ {
		uses = append(uses, svid.Use{Key: svid.TokenKey{byte(i * 7)}, Expires: moment + 50 + uint64(i%3), At: moment - uint64(i%2),
			ValidatorID: svid.ValidatorID{byte(i % 5)}, Withdrawn: i%4 == 0})
	}
	uses = append(uses, uses[:20]...)
	before := append([]svid.Use(nil), uses...)
	together, alone := open(t, 1), open(t, 1)
	got := batchesOf(uses)
	if err := together.Take(moment, got); err != nil {
		t.Fatal(err)
	}
	for _, u := range uses {
		if err := alone.Take(moment, batchOf(u)); err != nil {
			t.Fatal(err)
		}
	}
	saved := save(t, together)
	if !bytes.Equal(saved, save(t, alone)) {
		t.Error("the records differ")
	}
	if _, err := svid.Uses(got); err != nil || len(got) != 2*17+(len(saved)-17) {
		t.Errorf("%d bytes of batches, and a record of %d", len(got), len(saved))
	}
	if fmt.Sprint(uses) != fmt.Sprint(before) {
		t.Error("the uses were changed")
	}
	if one := uses[0]; !bytes.Equal(batchesOf(uses[:1]), batchOf(one)) {
		t.Error("one use")
	}
}

// Pieces tell together what the messages tell, and none is longer than was asked for.
func TestPieces(t *testing.T) {
	var uses []svid.Use
	for i := 0; i < 1000; i++ {
		uses = append(uses, svid.Use{Key: svid.TokenKey{byte(i), byte(i >> 8)}, Expires: moment + 100, At: moment - uint64(i%7), ValidatorID: svid.ValidatorID{byte(i % 3)},
			Withdrawn: i%10 == 0})
	}
	// The moment of the messages is greater than that of any use.
	from := open(t, 1)
	if err := from.Take(moment, batchesOf(uses)); err != nil {
		t.Fatal(err)
	}
	if err := from.Tick(moment + 50); err != nil {
		t.Fatal(err)
	}
	saved := save(t, from)
	for most, count := range map[int]int{82: 1000, 146: 1000, 147: 500, 200: 500, 10_000: 7, 1 << 20: 1} {
		pieces, err := svid.Pieces(append(saved[:len(saved):len(saved)], batchOf(uses[3])...), most)
		if err != nil || len(pieces) != count {
			t.Errorf("at most %d bytes: %d pieces, want %d (%v)", most, len(pieces), count, err)
		}
		to := open(t, 2)
		for _, piece := range pieces {
			if err := to.Take(moment+50, piece); err != nil || len(piece) > most {
				t.Fatalf("at most %d bytes: %d (%v)", most, len(piece), err)
			}
		}
		if !bytes.Equal(save(t, to), saved) {
			t.Errorf("at most %d bytes: the records differ", most)
		}
	}
	// The pieces of a record without uses have its moment, too.
	empty := open(t, 3)
	if err := empty.Tick(moment); err != nil {
		t.Fatal(err)
	}
	if pieces, err := svid.Pieces(save(t, empty), 82); err != nil || len(pieces) != 1 || !bytes.Equal(pieces[0], save(t, empty)) {
		t.Errorf("% X: %v", pieces, err)
	}
	if pieces, err := svid.Pieces(nil, 0); err != nil || pieces != nil {
		t.Errorf("of nothing: %q, %v", pieces, err)
	}
	if _, err := svid.Pieces(saved, 81); !errors.Is(err, svid.ErrNoRoom) {
		t.Errorf("81 bytes: %v", err)
	}
	var fault *svid.MessageError
	if _, err := svid.Pieces(saved[:100], 1000); !errors.As(err, &fault) || fault.Reason != "Truncated" {
		t.Errorf("cut off: %v", err)
	}
	if _, err := svid.Pieces(make([]byte, svid.MaxMessages+1), 1000); err == nil {
		t.Error("more than a call takes")
	}
}

func TestErrorsThatAreAboutNoToken(t *testing.T) {
	for _, audiences := range [][]string{{"a\nb"}, {"a\r"}, {"\xff"}, {""}, {"a", ""}, {"", "a"}} {
		bad := options(1)
		bad.Audiences = audiences
		if _, err := svid.Open(bad); !errors.Is(err, svid.ErrAudience) {
			t.Errorf("audiences %q: %v", audiences, err)
		}
	}
	if _, err := svid.NewKeyring([]byte("[]")); !errors.Is(err, svid.ErrBundles) {
		t.Errorf("bundles: %v", err)
	}
	var bundle *svid.BundleError
	if _, err := svid.NewKeyring([]byte(`{"a":{"keys":[]},"B":{}}`)); !errors.As(err, &bundle) || bundle.Reason != "Domain" || bundle.Index != 0 {
		t.Errorf("bundles: %v", err)
	}
	v := open(t, 1)
	if err := v.SetBundles([]byte(`{"a":{"keys":[]},"b":{}}`)); !errors.As(err, &bundle) || bundle.Reason != "Keys" || bundle.Index != 1 {
		t.Errorf("bundles: %v", err)
	} else if want := "svid: a name of the bundles has no list of keys (number 1 of the names in rising order, counted from 0): write a JWK Set under that name, or take it out"; err.Error() != want {
		t.Errorf("bundles say %q", err)
	}
	if err := v.Tick(moment); err != nil {
		t.Error(err)
	}
	if err := v.Tick(moment + 86401); err != svid.ErrJump {
		t.Errorf("jump: %v", err)
	}
	if _, err := v.Withdraw(moment, svid.TokenKey{}, moment); err != svid.ErrGone {
		t.Errorf("gone: %v", err)
	}
	var message *svid.MessageError
	if err := v.Take(moment, []byte("garbage")); !errors.As(err, &message) || message.Reason != "Magic" || message.Message != 1 {
		t.Errorf("garbage: %v", err)
	} else if want := "svid: Magic in message 1 at byte 0: the first four bytes are those of no version, and due is 4A 53 52, which is JSR, and then 02 or 01"; err.Error() != want {
		t.Errorf("garbage says %q", err)
	}
	far := svid.Use{Expires: moment + 100, At: moment + 11}
	if err := v.Take(moment, batchOf(far)); err != svid.ErrTooFar {
		t.Errorf("far: %v", err)
	}
	if err := v.Take(moment, make([]byte, svid.MaxMessages+1)); err == nil {
		t.Error("64 MiB and a byte were taken")
	}
	if _, err := v.Answer(moment, batchOf(far)); err != svid.ErrNotSummary {
		t.Errorf("summary: %v", err)
	}
	v.Close()
	v.Close()
	if _, err := v.Check(moment, "a.b.c", nil); err != svid.ErrClosed {
		t.Errorf("closed: %v", err)
	}
	if err := v.Save(&bytes.Buffer{}); err != svid.ErrClosed {
		t.Errorf("closed: %v", err)
	}
}

// A closed keyring says so, whatever the token is, and gets no bundles.
func TestAClosedKeyring(t *testing.T) {
	k, v := keyring(t, example.Bundles()), open(t, 1)
	good := example.Token("ES256", claims("a"))
	other, err := issuer.New("example.org")
	if err != nil {
		t.Fatal(err)
	}
	k.Close()
	k.Close()
	for _, text := range []string{good, "a.b.c", ""} {
		one := svid.NewToken(text)
		defer one.Close()
		for name, call := range map[string]func() error{
			"Candidates":  func() error { _, err := k.Candidates(text); return err },
			"Verify":      func() error { _, err := k.Verify(text); return err },
			"VerifyToken": func() error { _, err := k.VerifyToken(&one); return err },
			"Accept":      func() error { _, err := v.Accept(k, moment, text); return err },
			"SetBundles":  func() error { return k.SetBundles(other.Bundles()) },
			"Renew":       func() error { return v.Renew(k, other.Bundles()) },
		} {
			if err := call(); err != svid.ErrClosed {
				t.Errorf("%s of %.5q: %v", name, text, err)
			}
		}
	}
	if _, err := v.Accept(keyring(t, example.Bundles()), moment, good); err != nil {
		t.Errorf("a validator that a closed keyring renewed: %v", err)
	}
}

func TestParseTokenKey(t *testing.T) {
	key := svid.TokenKey{1, 0xab}
	if got, err := svid.ParseTokenKey(strings.ToUpper(key.String())); err != nil || got != key {
		t.Errorf("%v, %v", got, err)
	}
	for _, bad := range []string{"", "00", key.String() + "0", strings.Repeat("g", 64)} {
		if _, err := svid.ParseTokenKey(bad); err == nil {
			t.Errorf("%q was read", bad)
		}
	}
}

// Each token that many goroutines check at once is accepted once, while bundles are renewed.
func TestATokenIsAcceptedOnceAmongMany(t *testing.T) {
	v, k := open(t, 1), keyring(t, example.Bundles())
	for round := 0; round < 20; round++ {
		token := example.Token("ES256", claims(fmt.Sprint(round)))
		var accepted, replayed int32
		var group sync.WaitGroup
		for i := 0; i < 32; i++ {
			group.Add(1)
			go func() {
				defer group.Done()
				switch err := refuse(v, k, token); err {
				case nil:
					atomic.AddInt32(&accepted, 1)
				case svid.Replayed:
					atomic.AddInt32(&replayed, 1)
				default:
					t.Error(err)
				}
			}()
		}
		if err := k.SetBundles(example.Bundles()); err != nil {
			t.Fatal(err)
		}
		if err := v.SetBundles(example.Bundles()); err != nil {
			t.Fatal(err)
		}
		group.Wait()
		if accepted != 1 || replayed != 31 {
			t.Fatalf("accepted %d times, refused as used %d times", accepted, replayed)
		}
	}
}

func BenchmarkVerify(b *testing.B) {
	k := keyring(b, example.Bundles())
	for _, algorithm := range []string{"RS256", "ES256", "PS256"} {
		token := example.Token(algorithm, claims("a"))
		b.Run(algorithm, func(b *testing.B) {
			for i := 0; i < b.N; i++ {
				verified(b, k, token)
			}
		})
	}
}

func BenchmarkCandidates(b *testing.B) {
	k := keyring(b, example.Bundles())
	token := example.Token("ES256", claims("a"))
	b.ReportAllocs()
	for i := 0; i < b.N; i++ {
		if _, err := k.Candidates(token); err != nil {
			b.Fatal(err)
		}
	}
}

func BenchmarkCheckReplayed(b *testing.B) {
	v, k := open(b, 1), keyring(b, example.Bundles())
	token := example.Token("ES256", claims("a"))
	yes := verified(b, k, token)
	b.ReportAllocs()
	for i := 0; i < b.N; i++ {
		_, _ = v.Check(moment, token, yes)
	}
}

// Uses reads what Save writes, and says where bytes are no batches.
func TestUsesReadsARecord(t *testing.T) {
	v := open(t, 1)
	used := svid.Use{Key: svid.TokenKey{1}, Expires: moment + 5, At: moment - 1, ValidatorID: svid.ValidatorID{7}}
	gone := svid.Use{Key: svid.TokenKey{2}, Expires: moment + 6, At: moment, ValidatorID: svid.ValidatorID{8}, Withdrawn: true}
	for _, u := range []svid.Use{gone, used} {
		if err := v.Take(moment, batchOf(u)); err != nil {
			t.Fatal(err)
		}
	}
	saved := save(t, v)
	uses, err := svid.Uses(append(batchOf(used), saved...))
	if err != nil || len(uses) != 3 || uses[0] != used || uses[1] != used || uses[2] != gone {
		t.Errorf("%v %v", uses, err)
	}
	var message *svid.MessageError
	if _, err := svid.Uses(saved[:100]); !errors.As(err, &message) || message.Reason != "Truncated" || message.Offset != 100 {
		t.Errorf("torn: %v", err)
	}
	if _, err := svid.Uses([]byte("JSR")); !errors.As(err, &message) || message.Reason != "Truncated" || message.Offset != 3 {
		t.Errorf("three bytes: %v", err)
	}
	summary, err := v.Summary()
	if err != nil {
		t.Fatal(err)
	}
	if uses, err := svid.Uses(summary); err != nil || len(uses) != 0 {
		t.Errorf("a summary: %v %v", uses, err)
	}
}

// No message has a use that had expired when it was made.
func TestAUseThatNoMessageTells(t *testing.T) {
	good := svid.Use{Expires: 2, At: 1}
	for _, bad := range []svid.Use{{Expires: 1, At: 1}, {Expires: 0, At: 1}, {}} {
		var fault *svid.MessageError
		if out, err := svid.Batches([]svid.Use{good, bad, bad}); !errors.As(err, &fault) || fault.Reason != "UseExpired" || fault.Offset != 1 || out != nil {
			t.Errorf("%+v: %v %v", bad, out, err)
		}
		if out, err := bad.Batch(); err == nil || out != nil {
			t.Errorf("%+v: %v %v", bad, out, err)
		}
	}
}

// More uses of one time than a batch has are several batches.
func TestUsesOfOneTime(t *testing.T) {
	uses := make([]svid.Use, 65_537)
	for i := range uses {
		uses[len(uses)-1-i] = svid.Use{Key: svid.TokenKey{byte(i >> 16), byte(i >> 8), byte(i)}, Expires: moment + 9, At: moment}
	}
	out, err := svid.Batches(uses)
	if err != nil || len(out) != 2*17+65*len(uses) {
		t.Fatalf("%d bytes, %v", len(out), err)
	}
	got, err := svid.Uses(out)
	if err != nil || len(got) != len(uses) || got[0] != uses[len(uses)-1] || got[65_536] != uses[0] {
		t.Errorf("%d uses, %v", len(got), err)
	}
}

// Keys that name no use count as keys for tokens once they are joined.
func TestJoinBundles(t *testing.T) {
	var set struct {
		Keys []map[string]any `json:"keys"`
	}
	if err := json.Unmarshal(example.JWKSet(), &set); err != nil {
		t.Fatal(err)
	}
	for _, key := range set.Keys {
		delete(key, "use")
	}
	text, err := json.Marshal(set)
	if err != nil {
		t.Fatal(err)
	}
	one := example.Token("ES256", claims("join"))
	for _, c := range []struct {
		bundles []byte
		want    error
	}{
		{[]byte(`{"example.org":` + string(text) + `}`), svid.NoKey},
		{joined(t, "spiffe://example.org", text), nil},
		{joined(t, "example.org", text), nil},
		{joined(t, "example.org", example.JWKSet()), nil},
		{joined(t, "example.org", bytes.ReplaceAll(example.JWKSet(), []byte("jwt-svid"), []byte("x509-svid"))), svid.NoKey},
	} {
		keyring, err := svid.NewKeyring(c.bundles)
		if err != nil {
			t.Fatal(err)
		}
		if _, err := keyring.Verify(one); err != c.want {
			t.Errorf("%v, want %v", err, c.want)
		}
		keyring.Close()
	}
	for what, sets := range map[string]map[string][]byte{
		"no JSON":       {"example.org": []byte("{")},
		"no keys":       {"example.org": []byte("{}")},
		"two of a name": {"example.org": text, "spiffe://example.org": text},
		"no name":       {"": []byte(`{"example.org":` + string(text) + `}`)},
		"no ID":         {"spiffe://": text},
		"no UTF-8":      {"\xff": text},
	} {
		if got, err := svid.JoinBundles(sets); !errors.Is(err, svid.ErrBundles) || got != nil {
			t.Errorf("%s: %s %v", what, got, err)
		}
	}
}

func joined(t *testing.T, domain string, set []byte) []byte {
	t.Helper()
	bundles, err := svid.JoinBundles(map[string][]byte{domain: set})
	if err != nil {
		t.Fatal(err)
	}
	return bundles
}

// Accept answers with the first refusal that holds, though the keyring refuses the token for a later one.
func TestAcceptAnswersAsTheValidator(t *testing.T) {
	keyring, err := svid.NewKeyring(example.Bundles())
	if err != nil {
		t.Fatal(err)
	}
	v, err := svid.Open(svid.Options{Audiences: []string{"ledger"}, Bundles: example.Bundles(), Longest: 3600, ValidatorID: svid.ValidatorID{1}})
	if err != nil {
		t.Fatal(err)
	}
	defer v.Close()
	stranger, err := issuer.New("example.net")
	if err != nil {
		t.Fatal(err)
	}
	foreign := claims("foreign")
	foreign["sub"], foreign["aud"] = "spiffe://example.net/web", "other"
	one := example.Token("ES256", claims("accept"))
	for _, c := range []struct {
		token         string
		byKey, byBoth error
	}{
		{stranger.Token("ES256", foreign), svid.UnknownDomain, svid.NotAudience},
		{"a.b", svid.NotThreeParts, svid.NotThreeParts},
		{one, nil, nil},
		{one, nil, svid.Replayed},
	} {
		if _, err := keyring.Verify(c.token); err != c.byKey {
			t.Errorf("the keyring says %v, want %v", err, c.byKey)
		}
		if _, err := v.Accept(keyring, moment, c.token); err != c.byBoth {
			t.Errorf("%v, want %v", err, c.byBoth)
		}
	}
	// A Step that is not given is none.
	if _, err := v.Accept(keyring, moment+100_000, one); err != svid.Expired {
		t.Errorf("a day later: %v", err)
	}
	keyring.Close()
	if _, err := v.Accept(keyring, moment, one); !errors.Is(err, svid.ErrClosed) {
		t.Errorf("with a closed keyring: %v", err)
	}
}
