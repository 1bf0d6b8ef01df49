package main

import (
	"crypto"
	"crypto/rand"
	"crypto/rsa"
	"crypto/sha256"
	"encoding/base64"
	"encoding/json"
	"encoding/pem"
	"fmt"
	"net/http"
	"net/http/httptest"
	"os"
	"path/filepath"
	"reflect"
	"strings"
	"testing"
	"time"
	"unicode"

	"svid.example/go/v3/internal/issuer"
	"svid.example/go/v3/svid"
)

// Standard input of verify is one token, with or without one line end. All other bytes belong to the token, and a token with
// them is none.
func TestVerifyReadsOneToken(t *testing.T) {
	t.Parallel()
	bundle := bundleOption(bundleFile(t, example))
	good, longest := token(t, "a", lasting), longestToken(t)
	blanks := strings.Repeat(" ", svid.MaxToken)
	for _, row := range []struct {
		stdin, want string
		status      int
	}{
		{good, "", 0},
		{good + "\n", "", 0},
		{good + "\r\n", "", 0},
		{longest, "", 0},
		{longest + "\n", "", 0},
		{longest + "\r\n", "", 0},
		{" " + good, "refused HeaderSpelling", 1},
		{"\t" + good + "\n", "refused HeaderSpelling", 1},
		{"\ufeff" + good, "refused HeaderSpelling", 1},
		{good + " ", "refused SignatureSpelling", 1},
		{good + " \n", "refused SignatureSpelling", 1},
		{good + "\r", "refused SignatureSpelling", 1},
		{good + "\r\r\n", "refused SignatureSpelling", 1},
		{good + "\x00", "refused SignatureSpelling", 1},
		{good + blanks + good, "refused TooLong", 1},
		{"  " + good + blanks + "A", "refused TooLong", 1},
		{"", "standard input has no token", 2},
		{"\n", "standard input has no token", 2},
		{"\n" + good, "more than one line", 2},
		{good + "\n\n", "more than one line", 2},
		{good + "\r\n\r\n", "more than one line", 2},
		{good + "\n" + good + "\n", "more than one line", 2},
		{good + "\n" + blanks + "A", "more than one line", 2},
		{longest + "\n" + " ", "more than one line", 2},
		{longest + "\r\n" + "A", "more than one line", 2},
		{longest + "A\n", "refused TooLong", 1},
	} {
		status, out, err := here(row.stdin, "verify", "--audience", "ledger", bundle)
		if status != row.status || !strings.Contains(err, row.want) || (out == "") != (status != 0) {
			t.Errorf("%.40q and %d bytes: %d %q %q, and %q is due", row.stdin, len(row.stdin), status, out, err, row.want)
		}
	}
}

// Where a token's key is not found, or no key made its signature, verify names each key that was passed over, and which cause makes it none. So does
// --check-config. Both name a bundle that has a private key.
func TestKeysThatArePassedOver(t *testing.T) {
	t.Parallel()
	var set struct {
		Keys []map[string]any `json:"keys"`
	}
	must(t, json.Unmarshal(example.JWKSet(), &set))
	good := len(set.Keys)
	for _, key := range []map[string]any{
		{"kid": "a", "kty": "RSA", "n": "AQAB", "e": "AQAB"}, {"kid": "b", "use": "sig", "kty": "EC"}, {"kid": "c", "use": "jwt-svid", "kty": "OKP"},
		{"kid": "d", "use": "jwt-svid", "kty": "RSA", "n": "AQAB", "e": "AQAB"}, {"use": "x509-svid", "kty": "EC"},
	} {
		set.Keys = append(set.Keys, key)
	}
	write := func() string {
		text, err := json.Marshal(set)
		must(t, err)
		name := filepath.Join(t.TempDir(), "bundle.json")
		must(t, os.WriteFile(name, text, 0o600))
		return name
	}
	warned := func(file string) (all string) {
		for i, why := range []string{`it has no use, which must be "jwt-svid"`, `its use is not "jwt-svid"`, "its kty is neither RSA nor EC", "unusable key: the key's n has fewer than 2048 bits"} {
			all += fmt.Sprintf("svidd: warning: entry %d of %s is skipped: %s\n", good+i, file, why)
		}
		return all
	}
	file := write()
	other, err := issuer.New("example.org")
	must(t, err)
	claims := map[string]any{"sub": "spiffe://example.org/web", "aud": "ledger", "exp": time.Now().Add(lasting).Unix()}
	noKey := example.Sign("ES256", `{"alg":"ES256","kid":"e"}`, fmt.Sprintf(`{"sub":"spiffe://example.org/web","aud":"ledger","exp":%d}`, claims["exp"]))
	for _, row := range []struct{ token, refused, warned string }{
		{example.Token("ES256", claims), "", ""},
		{other.Token("ES256", claims), "BadSignature", warned(file)},
		{noKey, "NoKey", warned(file)},
		{longestToken(t) + "A", "TooLong", ""},
	} {
		due, want := "", 0
		if row.refused != "" {
			due, want = "refused "+row.refused+"\n", 1
		}
		status, _, said := here(row.token, "verify", "--audience", "ledger", bundleOption(file))
		_, rest, _ := strings.Cut(strings.TrimPrefix(said, due), "\n") // (the refusal in words)
		if status != want || !strings.HasPrefix(said, due) || rest != row.warned {
			t.Errorf("%q: %d %q", row.refused, status, said)
		}
	}
	check := []string{"serve", "--check-config", "--audience", "a", "--longest", "60", "--replay", "reuse"}
	if status, out, said := here("", append(check, bundleOption(file))...); status != 0 || out != "svidd: the options are good\n" || said != warned(file) {
		t.Errorf("--check-config: %d %q %q", status, out, said)
	}
	set.Keys[0]["d"] = "AQAB"
	file = write()
	due := warned(file) + "svidd: warning: " + file + ": it has the private part of a key, and whoever reads it can sign tokens of this trust domain: take that part out, and replace the key\n"
	if status, _, said := here("", append(check, bundleOption(file))...); status != 0 || said != due {
		t.Errorf("a private key: %d %q", status, said)
	}
	exposed := strings.TrimPrefix(due, warned(file))
	for token, due := range map[string]string{example.Token("ES256", claims): exposed, noKey: warned(file) + exposed} {
		if status, _, said := here(token, "verify", "--audience", "ledger", bundleOption(file)); !strings.HasSuffix(said, due) || status == 0 != (said == exposed) {
			t.Errorf("verify, of a private key: %d %q", status, said)
		}
	}
}

// A key with more bits than --rsa-bits verifies nothing, and the operator hears of it.
func TestAnRSAKeyHasABound(t *testing.T) {
	t.Parallel()
	key, err := rsa.GenerateMultiPrimeKey(rand.Reader, 20, 5120)
	if err != nil {
		t.Fatal(err)
	}
	encode := base64.RawURLEncoding.EncodeToString
	signed := encode([]byte(`{"alg":"PS256","kid":"long"}`)) + "." +
		encode([]byte(fmt.Sprintf(`{"sub":"spiffe://example.org/web","aud":"ledger","exp":%d}`, time.Now().Add(lasting).Unix())))
	sum := sha256.Sum256([]byte(signed))
	signature, err := rsa.SignPSS(rand.Reader, key, crypto.SHA256, sum[:], &rsa.PSSOptions{SaltLength: sha256.Size})
	if err != nil {
		t.Fatal(err)
	}
	file := filepath.Join(t.TempDir(), "bundle.json")
	bundle := `{"keys":[{"kty":"RSA","use":"jwt-svid","kid":"long","e":"AQAB","n":"` + encode(key.N.Bytes()) + `"}]}`
	if err := os.WriteFile(file, []byte(bundle), 0o600); err != nil {
		t.Fatal(err)
	}
	one, why := signed+"."+encode(signature), "the key's n has more than the 4096 bits that were chosen"
	for _, row := range []struct {
		option []string
		want   string
		status int
	}{
		{nil, "refused BadSignature", 1},
		{[]string{"--rsa-bits", "5119"}, "refused BadSignature", 1},
		{[]string{"--rsa-bits", "5120"}, "", 0},
		{[]string{"--rsa-bits", "16385"}, "must be from 2048 to 16384", 2},
	} {
		status, _, err := here(one, append([]string{"verify", "--audience", "ledger", bundleOption(file)}, row.option...)...)
		if status != row.status || !strings.Contains(err, row.want) {
			t.Errorf("verify %q: %d %q", row.option, status, err)
		}
	}
	other, err := issuer.New("example.com")
	if err != nil {
		t.Fatal(err)
	}
	p := start(t, bundleOption(file), "--bundle=example.com="+bundleFile(t, other), "--replay", "reuse")
	p.want(one, 401, "BadSignature")
	over := p.awaitEvents("key passed over", 2)
	if len(over) != 2 || !strings.Contains(fmt.Sprint(over), why) || len(p.awaitEvents("bundle has no key", 1)) != 1 {
		t.Errorf("the log has %v: %s", over, p.log)
	}
	p.end()
	p = start(t, bundleOption(file), "--replay", "reuse", "--rsa-bits", "5120")
	p.want(one, 200, "")
	if len(p.events("key passed over")) != 0 {
		t.Errorf("the log is %s", p.log)
	}
	p.end()
	check := []string{"serve", "--check-config", "--audience", "a", "--longest", "60", "--replay", "reuse", bundleOption(file)}
	if status, _, err := here("", check...); status != 2 || !strings.Contains(err, "warning") || !strings.Contains(err, "no key of it can be used") {
		t.Errorf("--check-config: %d %q", status, err)
	}
}

// What is printed of claims is one line of JSON that means what the token says, and nothing in it is a command for a terminal: white space
// between two tokens of JSON may be line ends, which move the cursor.
func TestClaimsArePrintedInOneLine(t *testing.T) {
	t.Parallel()
	bundle := bundleOption(bundleFile(t, example))
	claims := fmt.Sprintf("\r\n\t{\r\"sub\"\t: %q,\n\"aud\":[\r\"ledger\"\n],\"exp\":%d\t,\"note\":\"\u009b2J\x7f\\r\\n\\t\u2028\\u009b\"}\r\n",
		example.Subject("/web"), time.Now().Add(lasting).Unix())
	status, out, said := here(example.Sign("ES256", `{"alg":"ES256","kid":"ec-256"}`, claims), "verify", "--audience", "ledger", bundle)
	line := strings.TrimSuffix(out, "\n")
	if status != 0 || line == out || strings.IndexFunc(line, func(r rune) bool { return !unicode.IsPrint(r) }) >= 0 {
		t.Fatalf("%d %q %q", status, out, said)
	}
	var is, want any
	if json.Unmarshal([]byte(line), &is) != nil || json.Unmarshal([]byte(claims), &want) != nil || !reflect.DeepEqual(is, want) {
		t.Errorf("%q means %v, and %v is due", line, is, want)
	}
}

// longestToken is a good token of svid.MaxToken bytes.
func longestToken(t *testing.T) string {
	t.Helper()
	const room = `{"alg":"ES256","kid":"ec-256","more":""}`
	claims, err := json.Marshal(map[string]any{"sub": example.Subject("/web"), "aud": "ledger", "exp": time.Now().Add(lasting).Unix()})
	if err != nil {
		t.Fatal(err)
	}
	payload := string(claims)
	for more := 48000; more < 50000; more++ {
		for _, blanks := range []string{"", " ", "  "} {
			length := base64.RawURLEncoding.EncodedLen(len(room)+more) + base64.RawURLEncoding.EncodedLen(len(payload+blanks)) + 2 + 86
			if length == svid.MaxToken {
				return example.Sign("ES256", strings.Replace(room, `""`, `"`+strings.Repeat("m", more)+`"`, 1), payload+blanks)
			}
		}
	}
	t.Fatal("no token has that length")
	return ""
}

// verify waits for each bundle that is named: the one that comes last may be the token's.
func TestVerifyWaitsForEachBundle(t *testing.T) {
	other, err := issuer.New("example.com")
	if err != nil {
		t.Fatal(err)
	}
	first := make(chan bool)
	server := httptest.NewTLSServer(http.HandlerFunc(func(w http.ResponseWriter, r *http.Request) {
		if r.URL.Path == "/first" {
			defer close(first)
			_, _ = w.Write(example.JWKSet())
			return
		}
		<-first
		time.Sleep(500 * time.Millisecond) // so that the first one is there without this one
		_, _ = w.Write(other.JWKSet())
	}))
	defer server.Close()
	authorities := filepath.Join(t.TempDir(), "authorities.pem")
	text := pem.EncodeToMemory(&pem.Block{Type: "CERTIFICATE", Bytes: server.Certificate().Raw})
	if err := os.WriteFile(authorities, text, 0o600); err != nil {
		t.Fatal(err)
	}
	t.Setenv("SSL_CERT_FILE", authorities)
	one := other.Token("ES256", map[string]any{"sub": "spiffe://example.com/web", "aud": "ledger", "exp": time.Now().Add(lasting).Unix(), "jti": "a"})
	status, out, said := svidd(t, one, "verify", "--audience", "ledger",
		"--bundle", "example.org="+server.URL+"/first", "--bundle", "example.com="+server.URL+"/second")
	if status != 0 || !strings.Contains(out, `"jti":"a"`) {
		t.Errorf("%d %q %q", status, out, said)
	}
}

// A token that stands where none is due is not printed: who calls may keep what is.
func TestATokenOnTheCommandLineIsNotPrinted(t *testing.T) {
	one := token(t, "shown", lasting)
	_, secret, _ := strings.Cut(one, ".")
	for _, args := range [][]string{{one}, {"serve", one}, {"verify", one}, {"withdraw", one}, {"withdraw", "--admin", "none", one, one}, {"report", one},
		{"ready", one}, {"schema", one}} {
		status, out, err := svidd(t, "", args...)
		if status == 0 || strings.Contains(out+err, secret) {
			t.Errorf("%.20q: %d %q %q", args, status, out, err)
		}
	}
}

// What docs/FORMATS.md, "Deviations", says that this project refuses and the standards do not: a token that is good but for one member,
// and the refusal that it gets, or none. (TestAnRSAKeyHasABound has keys of more bits.)
func TestDeviations(t *testing.T) {
	t.Parallel()
	now := time.Now().Unix()
	rows := []struct{ part, member, answer string }{
		{"payload", `"exp":4102444800`, ""},
		{"payload", `"exp":4.1024448e9`, "Exp"},
		{"payload", `"exp":41024448e2`, "Exp"},
		{"payload", `"exp":4102444800.5`, "Exp"},
		{"payload", `"exp":4102444800.0`, "Exp"},
		{"payload", `"exp":-0`, "Exp"},
		{"payload", `"exp":18446744073709551616`, "Exp"},
		{"payload", `"exp":null`, "Exp"},
		{"payload", `"nbf":1700000000`, ""},
		{"payload", `"nbf":1.7e9`, "Nbf"},
		{"payload", `"nbf":1700000000.5`, "Nbf"},
		{"payload", `"nbf":1700000000.0`, "Nbf"},
		{"payload", `"nbf":-1`, "Nbf"},
		{"payload", `"nbf":null`, "Nbf"},
		{"payload", `"jti":null`, "Jti"},
		{"payload", `"sub":null`, "Sub"},
		{"payload", `"aud":null`, "Aud"},
		{"payload", `"aud":["ledger",null]`, "Aud"},
		{"payload", `"iat":1.7e9`, ""},
		{"payload", `"iat":null`, ""},
		{"payload", `"iss":null`, ""},
		{"header", `"alg":null`, "Alg"},
		{"header", `"kid":null`, "Kid"},
		{"header", `"typ":null`, "Typ"},
		{"header", `"crit":null`, "Crit"},
		{"header", `"cty":null`, ""},
		{"key", `"use":null`, "NoKey"},
		{"key", `"kid":null`, "NoKey"},
		{"key", `"alg":null`, "BadSignature"},
		{"key", `"x5c":null`, ""},
		{"key", `"iat":1700000000`, ""},
		{"key", `"iat":1.5`, "NoKey"},
		{"key", `"iat":1.0`, "NoKey"},
		{"key", `"iat":1e3`, "NoKey"},
		{"key", `"iat":-0`, "NoKey"},
		{"key", `"ext":{"a":[1.5]}`, "NoKey"},
		{"payload", fmt.Sprint(`"nbf":`, now), ""},
		{"payload", fmt.Sprint(`"nbf":`, now+60), "NotYet"},
		{"payload", fmt.Sprint(`"exp":`, now), "Expired"},
	}
	var keys struct{ Keys []map[string]json.RawMessage }
	if err := json.Unmarshal(example.JWKSet(), &keys); err != nil {
		t.Fatal(err)
	}
	for _, row := range rows {
		members := map[string]map[string]json.RawMessage{}
		for part, text := range map[string]string{
			"header":  `{"alg":"ES256","kid":"` + issuer.KeyID("ES256") + `","typ":"JWT"}`,
			"payload": `{"sub":"spiffe://example.org/web","aud":"ledger","exp":4102444800,"jti":"deviation"}`,
			"changed": "{" + row.member + "}",
		} {
			one := make(map[string]json.RawMessage)
			if err := json.Unmarshal([]byte(text), &one); err != nil {
				t.Fatalf("%s: %v", row.member, err)
			}
			members[part] = one
		}
		var set struct {
			Keys []map[string]json.RawMessage `json:"keys"`
		}
		for _, key := range keys.Keys {
			copied := make(map[string]json.RawMessage)
			for name, value := range key {
				copied[name] = value
			}
			if string(key["kid"]) == `"`+issuer.KeyID("ES256")+`"` {
				members["key"] = copied
			}
			set.Keys = append(set.Keys, copied)
		}
		for name, value := range members["changed"] {
			members[row.part][name] = value
		}
		written := func(v any) string {
			text, err := json.Marshal(v)
			if err != nil {
				t.Fatal(err)
			}
			return string(text)
		}
		file := filepath.Join(t.TempDir(), "bundle.json")
		if err := os.WriteFile(file, []byte(written(set)), 0o600); err != nil {
			t.Fatal(err)
		}
		signed := example.Sign("ES256", written(members["header"]), written(members["payload"]))
		status, out, said := here(signed, "verify", "--audience", "ledger", "--bundle", "example.org="+file)
		if row.answer == "" && (status != 0 || said != "") || row.answer != "" && (status != 1 || out != "" || !strings.HasPrefix(said, "refused "+row.answer+"\n")) {
			t.Errorf("%s %s: %d %q %q, and %q is due", row.part, row.member, status, out, said, row.answer)
		}
		if row.answer == "Exp" && said != "refused Exp\n"+svid.Exp.Sentence()+"\n" {
			t.Errorf("%s: %q: what it says of an issuer that writes fractions", row.member, said)
		}
	}
}
