package svid_test

import (
	"errors"
	"strings"
	"testing"

	"svid.example/go/v3/svid"
)

// SPIFFE-ID, section 2.
func TestParseID(t *testing.T) {
	for _, row := range []struct{ id, domain, path string }{
		{"spiffe://example.org", "example.org", ""},
		{"spiffe://a/b", "a", "/b"},
		{"spiffe://a.b-c_d.0/Web/..x/_", "a.b-c_d.0", "/Web/..x/_"},
		{"spiffe://" + strings.Repeat("a", 255) + "/b", strings.Repeat("a", 255), "/b"},
	} {
		if domain, path, err := svid.ParseID(row.id); domain != row.domain || path != row.path || err != nil {
			t.Errorf("%s: %q %q %v", row.id, domain, path, err)
		}
	}
	for id, want := range map[string]string{
		"": "does not begin with spiffe://", "a/b": "does not begin with spiffe://", "spiffe://": "name of the ID is empty", "spiffe://A/b": "(byte 9)",
		"spiffe://a/": "(byte 11): the ID has an empty segment", "spiffe://a/b/..": "(byte 13)", "spiffe://" + strings.Repeat("a", 256): "more than 255 bytes",
	} {
		if domain, path, err := svid.ParseID(id); domain != "" || path != "" || err == nil || !strings.Contains(err.Error(), want) {
			t.Errorf("%s: %q %q %v, want %s", id, domain, path, err, want)
		}
	}
}

// The rows of docs/FORMATS.md, "Bundles", in their order.
func TestCheckEntry(t *testing.T) {
	for entry, want := range map[string]svid.EntryFault{
		"": svid.EntryNotObject, "7": svid.EntryNotObject, `{"use":"jwt-svid"`: svid.EntryNotObject, `{"n":1.5}`: svid.EntryNoUse,
		`{"use":"x509-svid","n":1.5}`: svid.EntryX509, `{"use":"sig","n":1.5}`: svid.EntryUse, `{"use":["jwt-svid"]}`: svid.EntryUse,
		`{"use":"jwt-svid","kid":1,"n":1.5}`: svid.EntryKid, `{"use":"jwt-svid","kid":"k","kty":"oct","n":1.5}`: svid.EntryKty,
		`{"use":"jwt-svid","kid":"k","kty":"EC","n":[1.5]}`:                                  svid.EntryNumber,
		`{"use":"jwt-svid","kid":"` + strings.Repeat("k", 65536) + `","kty":"EC"}`:           svid.EntryTooLong,
		`{"use":"jwt-svid","kid":"` + strings.Repeat("k", 65536) + `","kty":"EC","n":[1.5]}`: svid.EntryNumber,
	} {
		err := svid.CheckEntry([]byte(entry))
		if err != want || want.String() == "" || !strings.HasSuffix(err.Error(), want.String()) {
			t.Errorf("%.80s: %v, want %v", entry, err, want)
		}
	}
	for _, entry := range []string{`{"use":"jwt-svid","kid":"","kty":"EC"}`, `{"use":7,"use":"jwt-svid","kid":"k","kty":"RSA","n":-9223372036854775808}`} {
		if err := svid.CheckEntry([]byte(entry)); err != nil {
			t.Errorf("%s: %v", entry, err)
		}
	}
}

func TestPayload(t *testing.T) {
	for token, want := range map[string]string{"..": "", "a.e30.b": "{}", ".eyJhIjoxfQ.": `{"a":1}`} {
		if payload, err := svid.Payload(token); string(payload) != want || err != nil {
			t.Errorf("%s: %q %v", token, payload, err)
		}
	}
	for token, want := range map[string]svid.Refusal{"": svid.NotThreeParts, "a.b": svid.NotThreeParts, ".e31.": svid.PayloadSpelling, ".e30=.": svid.PayloadSpelling,
		strings.Repeat("a", svid.MaxToken+1): svid.TooLong} {
		var refusal svid.Refusal
		if payload, err := svid.Payload(token); payload != nil || !errors.As(err, &refusal) || refusal != want {
			t.Errorf("%.20s: %q %v", token, payload, err)
		}
	}
}
