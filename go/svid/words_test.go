package svid_test

import (
	"encoding/hex"
	"encoding/json"
	"errors"
	"fmt"
	"os"
	"regexp"
	"strings"
	"testing"

	"svid.example/go/v3/svid"
)

// A listed status is what lists/statuses.toml has of it.
type listed map[string]string

// listedStatus is the status of this name behind SVID_.
func listedStatus(t *testing.T, name string) listed {
	t.Helper()
	list, err := os.ReadFile("../../lists/statuses.toml")
	if err != nil {
		t.Fatal(err)
	}
	for _, group := range strings.Split(string(list), "[[group]]")[1:] {
		rows := strings.Split(group, "[[group.status]]")
		of := fieldsOf(rows[0])
		for _, row := range rows[1:] {
			if fields := fieldsOf(row); of["prefix"]+fields["name"] == name {
				if _, is := fields["advice"]; !is {
					fields["advice"] = of["advice"]
				}
				return fields
			}
		}
	}
	t.Fatalf("lists/statuses.toml has no status %s", name)
	return nil
}

func fieldsOf(row string) listed {
	fields := listed{}
	for _, field := range regexp.MustCompile(`(?m)^(\w+) = "(.*)"$`).FindAllStringSubmatch(row, -1) {
		fields[field[1]] = field[2]
	}
	return fields
}

// says is what is wrong, as an error has it: without marks, without a capital, and without a period.
func (l listed) says() string {
	words := l["words"]
	if words == "" {
		words = l["says"]
	}
	words = strings.ReplaceAll(words, "`", "")
	return strings.ToLower(words[:1]) + strings.TrimSuffix(words[1:], ".")
}

// whole is that, and what to do.
func (l listed) whole() string {
	if l["advice"] == "" {
		return l.says()
	}
	return l.says() + ": " + l["advice"]
}

// An error of a call says what is wrong and what to do, in the words of the list.
func TestCallErrorsInWords(t *testing.T) {
	for name, err := range map[string]error{
		"NO_MEMORY": svid.ErrNoMemory, "CLOSED": svid.ErrClosed, "GONE": svid.ErrGone, "TOO_FAR": svid.ErrTooFar, "JUMP": svid.ErrJump,
		"TOO_MUCH": svid.ErrTooMuch, "NOT_SUMMARY": svid.ErrNotSummary, "NO_LOG": svid.ErrNoLog, "HAS_LOG": svid.ErrHasLog,
		"BUNDLES_NOT_OBJECT": svid.ErrBundles, "FOLDER_ENDED": svid.ErrFolderEnded, "FOLDER_FULL": svid.ErrFolderFull,
		"FOLDER_TOO_LONG": svid.ErrPayload, "FILE_TEAR": svid.ErrTorn, "FILE_DAMAGE": svid.ErrDamaged,
		"NO_MEMBER": svid.ErrNoMember, "IS_OPEN": svid.ErrIsOpen, "NO_MODE": svid.ErrNoMode, "UNASKED": svid.ErrUnasked,
		"CLAIM_FAR": svid.ErrClaimFar, "CLAIM_DEAF": svid.ErrClaimDeaf, "LATE": svid.ErrLate, "NOT_KEPT": svid.ErrNotKept, "LEFT": svid.ErrLeft,
		"ENDED": svid.UnreadyEnded, "NO_BUNDLE": svid.UnreadyNoBundle, "LOADING": svid.UnreadyLoading, "STORE_UNREACHED": svid.UnreadyStoreUnreached,
		"WITHDRAWALS_UNREAD": svid.UnreadyWithdrawalsUnread, "BROKER_UNREACHED": svid.UnreadyBrokerUnreached, "GROUP_UNREAD": svid.UnreadyGroupUnread,
		"DRAINING": svid.UnreadyDraining, "JUMPED": svid.UnreadyJumped, "KEEPS_NOTHING": svid.UnreadyKeepsNothing, "STORE_AWAY": svid.UnreadyStoreAway,
		"DEAF": svid.UnreadyDeaf,
	} {
		if want := "svid: " + listedStatus(t, name).whole(); err.Error() != want {
			t.Errorf("%s says %q, and not %q", name, err, want)
		}
	}
	want := "svid: " + listedStatus(t, "FILE_OTHER").says() + ": it is format 3, "
	if err := (&svid.FormatError{Format: 3}); !strings.HasPrefix(err.Error(), want) {
		t.Errorf("%q, and not %q", err, want)
	}
}

// So does an error of bundles, which names the index, and one of sets of keys, which names the set.
func TestBundleErrorsInWords(t *testing.T) {
	for bundles, name := range map[string]string{`{"a":{"keys":[]},"B":{}}`: "BUNDLES_DOMAIN", `{"A":{"keys":[]}}`: "BUNDLES_DOMAIN", `{"a":{}}`: "BUNDLES_KEYS"} {
		row := listedStatus(t, name)
		want := fmt.Sprintf("svid: %s (number 0 of the names in rising order, counted from 0): %s", row.says(), row["advice"])
		if _, err := svid.NewKeyring([]byte(bundles)); err == nil || err.Error() != want {
			t.Errorf("%s: %v, and not %q", bundles, err, want)
		}
	}
	for _, one := range []string{`{"keys":[]}`, `{"A":1,"keys":null}`, `{"keys":[],"spiffe_sequence":1}`} {
		want := "svid: " + listedStatus(t, "BUNDLES_UNNAMED").whole()
		v, err := svid.Open(svid.Options{Audiences: []string{"ledger"}, Bundles: []byte("{}")})
		if err != nil {
			t.Fatal(err)
		}
		_, kErr := svid.NewKeyring([]byte(one))
		_, vErr := svid.Open(svid.Options{Audiences: []string{"ledger"}, Bundles: []byte(one)})
		for _, err := range []error{kErr, vErr, svid.CheckBundles([]byte(one)), v.SetBundles([]byte(one))} {
			if err == nil || err.Error() != want {
				t.Errorf("%s: %v, and not %q", one, err, want)
			}
		}
		v.Close()
	}
	for name, sets := range map[string]map[string][]byte{
		"BUNDLES_NOT_OBJECT": {"b": []byte("[]"), "a": []byte(`{"keys":[]}`)},
		"BUNDLES_KEYS":       {"b": []byte("{}")},
		"BUNDLES_TWICE":      {"b": []byte(`{"keys":[]}`), "spiffe://b": []byte(`{"keys":[]}`)},
	} {
		want := "b: " + listedStatus(t, name).whole()
		if _, err := svid.JoinBundles(sets); err == nil || !strings.HasSuffix(err.Error(), want) || !errors.Is(err, svid.ErrBundles) {
			t.Errorf("%s: %v, and not %q", name, err, want)
		}
	}
}

// So does an error of a key, by what holds for each algorithm.
func TestKeyErrorsInWords(t *testing.T) {
	for key, name := range map[string]string{
		"[]":                         "KEY_NOT_OBJECT",
		`{"kty":"RSA"}`:              "KEY_N",
		`{"kty":"EC","crv":"P-256"}`: "KEY_X",
		`{"kty":"EC","crv":"P-256","x":"` + strings.Repeat("A", 43) + `"}`: "KEY_Y",
		`{"kty":"RSA","n":"` + strings.Repeat("_", 340) + `_w","e":"AQ"}`:  "KEY_E",
	} {
		says := listedStatus(t, name).says()
		for old, with := range map[string]string{
			"its ": "the key's ", "most_bits": "4096", "ALGORITHM_LENGTHS": "32, 48 or 66",
		} {
			says = strings.Replace(says, old, with, 1)
		}
		if _, err := svid.ParseKey([]byte(key)); !errors.Is(err, svid.ErrKey) || err.Error() != "svid: unusable key: "+says {
			t.Errorf("%s: %v, and not %q", key, err, says)
		}
	}
}

// An error of messages says what is wrong and due.
func TestMessageErrorsInWords(t *testing.T) {
	text, err := os.ReadFile("../../tests/vectors/messages.json")
	if err != nil {
		t.Fatal(err)
	}
	var file struct {
		Vectors []struct {
			Messages string
			Fault    *struct {
				Reason          string
				Message, Offset int
			}
		}
	}
	if err := json.Unmarshal(text, &file); err != nil {
		t.Fatal(err)
	}
	seen := map[string]bool{}
	for _, vector := range file.Vectors {
		messages, err := hex.DecodeString(vector.Messages)
		if err != nil {
			t.Fatal(err)
		}
		if vector.Fault == nil {
			continue
		}
		var fault *svid.MessageError
		if _, err := svid.Uses(messages); !errors.As(err, &fault) {
			t.Fatalf("%v: %v", vector, err)
		}
		name := strings.ToUpper(regexp.MustCompile(`(.)([A-Z])`).ReplaceAllString(fault.Reason, "${1}_${2}"))
		said := listedStatus(t, name)
		want := fmt.Sprintf("svid: %s in message %d at byte %d: %s, and due is %s", vector.Fault.Reason, vector.Fault.Message, vector.Fault.Offset, said["says"], said["due"])
		if fault.Error() != want {
			t.Errorf("%q, and not %q", fault, want)
		}
		seen[fault.Reason] = true
	}
	if len(seen) != 8 {
		t.Errorf("only %v were seen", seen)
	}
	said := listedStatus(t, "USE_EXPIRED")
	want := fmt.Sprintf("svid: UseExpired at offset 1: %s, and due is %s", said["says"], said["due"])
	if _, err := svid.Batches([]svid.Use{{Expires: 2, At: 1}, {Expires: 1, At: 1}}); err == nil || err.Error() != want {
		t.Errorf("%v, and not %q", err, want)
	}
}

// So does an error of a pattern, and of an ID.
func TestPatternErrorsInWords(t *testing.T) {
	for name, pattern := range map[string]string{
		"TOO_LONG": "spiffe://" + strings.Repeat("a", 2040), "SCHEME": "example.org", "DOMAIN_EMPTY": "spiffe://", "DOMAIN_BYTE": "spiffe://A",
		"DOMAIN_LONG": "spiffe://" + strings.Repeat("a", 256), "SEGMENT_EMPTY": "spiffe://a//*", "SEGMENT_DOTS": "spiffe://a/../*", "PATH_BYTE": "spiffe://a/b*",
	} {
		words := listedStatus(t, "PATTERN_"+name).whole()
		if err := svid.CheckPattern(pattern); err == nil || !strings.HasSuffix(err.Error(), "): "+words) {
			t.Errorf("%q says %v, and not %q", pattern, err, words)
		}
	}
	want := `svid: "spiffe://a//b" is no SPIFFE ID (byte 11): ` + listedStatus(t, "ID_SEGMENT_EMPTY").whole()
	if _, err := svid.Allows("spiffe://a", "spiffe://a//b"); err == nil || err.Error() != want {
		t.Errorf("%v, and not %q", err, want)
	}
}

// So does an error of a header field Authorization.
func TestBearerErrorsInWords(t *testing.T) {
	for name, fields := range map[string][]string{
		"ABSENT": nil, "SEVERAL": {"Bearer a", "Bearer a"}, "SCHEME": {"Basic a"}, "SPELLING": {"Bearer a b"},
	} {
		want := "svid: " + listedStatus(t, "BEARER_"+name).whole()
		if _, err := svid.BearerToken(fields); err == nil || err.Error() != want {
			t.Errorf("%q says %q, and not %q", fields, err, want)
		}
	}
}
