package svid_test

import (
	"errors"
	"strings"
	"testing"

	"svid.example/go/v3/internal/issuer"
	"svid.example/go/v3/svid"
)

// A token that is read once is answered as one that each call reads, before and after it is closed.
func TestATokenThatIsReadOnceIsAnsweredAlike(t *testing.T) {
	stranger, err := issuer.New("example.net")
	if err != nil {
		t.Fatal(err)
	}
	foreign, expired, long := claims("foreign"), claims("expired"), claims("long")
	foreign["sub"], foreign["aud"] = "spiffe://example.net/web", "other"
	expired["exp"] = moment
	long["jti"] = strings.Repeat("a", 6000)
	good := example.Token("ES256", claims("good"))
	k := keyring(t, example.Bundles())
	type byToken func(now uint64, one *svid.Token) (svid.Accepted, error)
	type byText func(now uint64, token string, yes []svid.Question) (svid.Accepted, error)
	for _, calls := range []struct {
		name string
		read func(v *svid.Validator) byToken
		text func(v *svid.Validator) byText
	}{
		{"judge", func(v *svid.Validator) byToken { return v.JudgeToken }, func(v *svid.Validator) byText { return v.Judge }},
		{"check", func(v *svid.Validator) byToken { return v.CheckToken }, func(v *svid.Validator) byText { return v.Check }},
	} {
		one, other := open(t, 1), open(t, 1)
		for i, text := range []string{
			good, good, good[:len(good)-8] + "AAAAAAAA", stranger.Token("ES256", claims("good")), stranger.Token("ES256", foreign),
			example.Token("RS256", claims("rsa")), example.Token("ES256", expired), example.Token("ES256", long), "a.b", "", strings.Repeat("a", 70_000),
		} {
			read := svid.NewToken(text)
			yes, err := k.Verify(text)
			for turn := 0; turn < 2; turn++ {
				if key, byKey := k.VerifyToken(&read); byKey != err || (key != nil) != (len(yes) == 1) {
					t.Errorf("%s %d: %v %v, and by its text %v %v", calls.name, i, key, byKey, yes, err)
				}
			}
			got, err := calls.read(one)(moment, &read)
			want, wantErr := calls.text(other)(moment, text, yes)
			if got.ID != want.ID || got.Use != want.Use || err != wantErr {
				t.Errorf("%s %d: %v %v, and by its text %v %v", calls.name, i, got, err, want, wantErr)
			}
			read.Close()
			_, err = calls.read(one)(moment, &read)
			_, wantErr = calls.text(other)(moment, text, yes)
			if err != wantErr || calls.name == "check" && err == nil {
				t.Errorf("%s %d once more: %v, and by its text %v", calls.name, i, err, wantErr)
			}
			read.Close()
		}
	}
}

// A closed validator says so, whatever the token is.
func TestAReadTokenAtAClosedValidator(t *testing.T) {
	k := keyring(t, example.Bundles())
	read := svid.NewToken(example.Token("ES256", claims("a")))
	defer read.Close()
	if _, err := k.VerifyToken(&read); err != nil {
		t.Fatal(err)
	}
	v := open(t, 1)
	v.Close()
	if _, err := v.CheckToken(moment, &read); !errors.Is(err, svid.ErrClosed) {
		t.Error(err)
	}
	if _, err := v.JudgeToken(moment, &read); !errors.Is(err, svid.ErrClosed) {
		t.Error(err)
	}
}

// A token is accepted by the key that VerifiedBy names, while the validator has that key. VerifyToken finds the key again.
func TestATokenIsCheckedByItsKey(t *testing.T) {
	text := example.Token("ES256", claims("named"))
	k, v := keyring(t, example.Bundles()), open(t, 1)
	good, bad := svid.NewToken(text), svid.NewToken(text[:len(text)-8]+"AAAAAAAA")
	defer good.Close()
	defer bad.Close()
	judged := func(what string, token *svid.Token, want error) {
		t.Helper()
		if _, err := v.JudgeToken(moment, token); err != want {
			t.Errorf("%s: %v, want %v", what, err, want)
		}
	}
	judged("without a key", &good, svid.BadSignature)
	key, err := k.VerifyToken(&good)
	if err != nil || key == nil {
		t.Fatal(key, err)
	}
	judged("by the key that was found", &good, nil)
	good.VerifiedBy(nil)
	judged("without a key again", &good, svid.BadSignature)
	good.VerifiedBy(key)
	judged("by the key that was named", &good, nil)
	bad.VerifiedBy(key)
	if none, err := k.VerifyToken(&bad); none != nil || err != nil {
		t.Errorf("a bad signature: %v %v", none, err)
	}
	judged("a bad signature, after its verification", &bad, svid.BadSignature)
	other, err := issuer.New("example.org")
	if err != nil {
		t.Fatal(err)
	}
	if err := v.SetBundles(other.Bundles()); err != nil {
		t.Fatal(err)
	}
	judged("after a renewal without its key", &good, svid.BadSignature)
}

// Read reads a token once, and says of one that is no JWT-SVID why: the same as its check.
func TestATokenIsReadBeforehand(t *testing.T) {
	k, v := keyring(t, example.Bundles()), open(t, 1)
	for _, text := range []string{example.Token("ES256", claims("read")), "a.b.c", ""} {
		read := svid.NewToken(text)
		first, second := read.Read(), read.Read()
		_, verified := k.VerifyToken(&read)
		if first != second || first != verified {
			t.Errorf("%.10q: %v, again %v, and by the keyring %v", text, first, second, verified)
		}
		if _, err := v.CheckToken(moment, &read); err != first {
			t.Errorf("%.10q: checked: %v, and read: %v", text, err, first)
		}
		read.Close()
	}
	read := svid.NewToken(example.Token("ES256", claims("let go")))
	if err := read.Read(); err != nil {
		t.Error(err)
	}
	read.Close()
	if err := read.Read(); err != nil {
		t.Errorf("after Close: %v", err)
	}
	read.Close()
}
