package svid_test

import (
	"errors"
	"reflect"
	"strings"
	"testing"

	"svid.example/go/v3/svid"
)

func TestBearerToken(t *testing.T) {
	long := strings.Repeat("a", svid.MaxToken)
	for _, row := range []struct {
		authorization []string
		token         string
		err           error
	}{
		{[]string{"Bearer a.b.c"}, "a.b.c", nil},
		{[]string{"\tbEARER   a== \t"}, "a==", nil},
		{[]string{"Bearer " + long}, long, nil},
		{nil, "", svid.BearerAbsent},
		{[]string{}, "", svid.BearerAbsent},
		{[]string{"Bearer a", "Bearer a"}, "", svid.BearerSeveral},
		{[]string{"", "Bearer a"}, "", svid.BearerSeveral},
		{[]string{""}, "", svid.BearerScheme},
		{[]string{"Basic YTpi"}, "", svid.BearerScheme},
		{[]string{"a.b.c"}, "", svid.BearerScheme},
		{[]string{"Bearer"}, "", svid.BearerSpelling},
		{[]string{"Bearer a,Bearer b"}, "", svid.BearerSpelling},
		{[]string{"Bearer\ta"}, "", svid.BearerSpelling},
		{[]string{"Bearer a\x00"}, "", svid.BearerSpelling},
		{[]string{"Bearer " + long + "a"}, "", svid.TooLong},
	} {
		if token, err := svid.BearerToken(row.authorization); token != row.token || err != row.err {
			t.Errorf("%.40q: %.40q, %v", row.authorization, token, err)
		}
	}
	said := make(map[string]bool)
	for _, why := range []svid.NoBearer{svid.BearerAbsent, svid.BearerSeveral, svid.BearerScheme, svid.BearerSpelling} {
		said[why.Error()] = true
	}
	if len(said) != 4 {
		t.Errorf("two reasons have one text: %v", said)
	}
}

// What is read of a token is what it was made of, and its key is that of its use.
func TestRead(t *testing.T) {
	v, k := open(t, 1), keyring(t, example.Bundles())
	for _, claims := range []map[string]any{
		{"sub": "spiffe://example.org/web", "aud": "ledger", "exp": moment + 1, "jti": "j1"},
		{"sub": "spiffe://example.org", "aud": []string{"", "a\n\x00b", "ledger", "\u00e9\"\\<"}, "exp": moment + 1, "jti": ""},
		{"sub": "spiffe://example.org/a/b", "aud": append(make([]string, 40), "audit"), "exp": moment + 1},
	} {
		token := example.Token("RS256", claims)
		said, err := svid.Read(token)
		if err != nil {
			t.Fatal(err)
		}
		judged, err := v.Judge(moment, token, verified(t, k, token))
		if err != nil || said.Key != judged.Use.Key || said.Expires != judged.Use.Expires || said.Subject != judged.ID {
			t.Errorf("read %+v, judged %+v, %v", said, judged, err)
		}
		aud, many := claims["aud"].([]string)
		if !many {
			aud = []string{claims["aud"].(string)}
		}
		if said.Algorithm != "RS256" || said.TrustDomain != "example.org" || said.KeyID == "" || !reflect.DeepEqual(said.Audiences, aud) {
			t.Errorf("%+v", said)
		}
	}
	// Nobody has vouched for what is read: the signature of this one is bad, it has expired, and it names no key.
	said, err := svid.Read(example.Sign("ES256", `{"alg":"PS512"}`, `{"sub":"spiffe://a/b","aud":"x","exp":1}`))
	if err != nil || said.Algorithm != "PS512" || said.Subject != "spiffe://a/b" || said.TrustDomain != "a" || said.KeyID != "" || said.Expires != 1 {
		t.Errorf("%+v, %v", said, err)
	}
	for token, want := range map[string]svid.Refusal{
		"":                                   svid.NotThreeParts,
		"a.b":                                svid.NotThreeParts,
		strings.Repeat("a", svid.MaxToken+1): svid.TooLong,
		example.Sign("ES256", `{"alg":"ES256"}`, `{"sub":"spiffe://a/b","aud":"x"}`): svid.Exp,
	} {
		if said, err := svid.Read(token); err != want || said.Subject != "" {
			t.Errorf("%.20q: %+v, %v", token, said, err)
		}
	}
}

func TestSize(t *testing.T) {
	v, k := open(t, 1), keyring(t, example.Bundles())
	token := example.Token("ES256", claims("a"))
	if _, err := v.Check(moment, token, verified(t, k, token)); err != nil {
		t.Fatal(err)
	}
	if _, err := v.Withdraw(moment, svid.TokenKey{1}, moment+5); err != nil {
		t.Fatal(err)
	}
	for _, row := range []struct{ now, uses uint64 }{{moment, 2}, {moment + 4, 2}, {moment + 5, 1}, {moment + 300, 0}} {
		if err := v.Tick(row.now); err != nil {
			t.Fatal(err)
		}
		if size, err := v.Size(); err != nil || size != (svid.Size{Moment: row.now, Uses: row.uses}) {
			t.Errorf("%+v, %v, and not %+v", size, err, row)
		}
	}
	v.Close()
	if _, err := v.Size(); err != svid.ErrClosed {
		t.Error(err)
	}
}

// A keyring judges as a validator with an empty record does, however often.
func TestAKeyringJudges(t *testing.T) {
	k := keyring(t, example.Bundles())
	by := svid.Judgment{Audiences: []string{"x", "ledger"}, Longest: longest, ValidatorID: svid.ValidatorID{7}}
	with := func(name string, value any) string {
		c := claims("a")
		c[name] = value
		return example.Token("ES256", c)
	}
	good := with("jti", "b")
	for i := 0; i < 2; i++ {
		judged, err := k.Judge(by, moment, good, verified(t, k, good))
		said, _ := svid.Read(good)
		if err != nil || judged.ID != said.Subject || judged.Use.Key != said.Key || judged.Use.Expires != said.Expires || judged.Use.At != moment || judged.Use.ValidatorID != by.ValidatorID {
			t.Errorf("%+v, %v", judged, err)
		}
	}
	for _, row := range []struct {
		want  error
		token string
	}{
		{svid.NotThreeParts, "a.b"},
		{svid.NotAudience, with("aud", "other")},
		{svid.Expired, with("exp", moment)},
		{svid.NotYet, with("nbf", moment+1)},
		{svid.TooLongLived, with("exp", moment+longest+1)},
		{svid.UnknownDomain, with("sub", "spiffe://example.com/web")},
		{svid.BadSignature, good[:len(good)-8] + "AAAAAAAA"},
	} {
		yes, _ := k.Verify(row.token)
		if _, err := k.Judge(by, moment, row.token, yes); err != row.want {
			t.Errorf("%v, and got %v", row.want, err)
		}
	}
	if _, err := k.Judge(by, moment, good, nil); err != svid.BadSignature {
		t.Errorf("without a question: %v", err)
	}
	if _, err := k.Judge(svid.Judgment{Audiences: []string{""}}, moment, good, nil); !errors.Is(err, svid.ErrAudience) {
		t.Errorf("an empty audience: %v", err)
	}
	k.Close()
	if _, err := k.Judge(by, moment, good, nil); err != svid.ErrClosed {
		t.Error(err)
	}
}
