package jsontext

import (
	"encoding/json"
	"strings"
	"testing"
	"unicode"
)

// Each byte, alone and between others, what is no UTF-8, and what a terminal would take for a command: it means what it means to package
// encoding/json, and is printed as it stands.
func TestAppend(t *testing.T) {
	texts := []string{"", "spiffe://example.org/web", "Zürich", "line\nfeed", "\u2028\u2029", "\xff", "a\xc3", "\"\\", "</script>&",
		"\u009b2J", "\u009d0;title\u009c", "\u202eabc\u2066", "\U000e0041", "\U0001f600", "\ufffd", "\ufeff"}
	for b := 0; b < 256; b++ {
		texts = append(texts, string([]byte{byte(b)}), "a"+string([]byte{byte(b)})+"z", string(rune(b)))
	}
	for _, text := range texts {
		plain, err := json.Marshal(text)
		if err != nil {
			t.Fatal(err)
		}
		got := string(Append([]byte("before "), text))
		if strings.IndexFunc(text, func(r rune) bool { return r >= '\x7f' && !unicode.IsPrint(r) }) < 0 && got != "before "+string(plain) {
			t.Errorf("%q: %s, want %s", text, got, plain)
		}
		if strings.IndexFunc(got, func(r rune) bool { return !unicode.IsPrint(r) }) >= 0 {
			t.Errorf("%q: %q is not to be printed", text, got)
		}
		var is, want string
		if json.Unmarshal([]byte(strings.TrimPrefix(got, "before ")), &is) != nil || json.Unmarshal(plain, &want) != nil || is != want {
			t.Errorf("%q: %s means %q", text, got, is)
		}
	}
}

// White space between tokens becomes blanks, and strings keep what they mean.
func TestPrintable(t *testing.T) {
	for text, want := range map[string]string{
		"{\"a\":1}":                        "{\"a\":1}",
		"\r\n{\t\"a\" :\r[1,\n2]}\n":       "  { \"a\" : [1, 2]} ",
		"\r\"\\r\\n\\t \u009b\x7fZürich\"": " \"\\r\\n\\t \\u009b\\u007fZürich\"",
	} {
		if got := string(Printable([]byte(text))); got != want {
			t.Errorf("%q: %q, want %q", text, got, want)
		}
	}
}

func TestAPlainTextTakesNoMemory(t *testing.T) {
	room := make([]byte, 0, 64)
	if n := testing.AllocsPerRun(100, func() { room = Append(room[:0], "spiffe://example.org/web") }); n != 0 {
		t.Errorf("%v allocations", n)
	}
}
