package brief

import (
	"errors"
	"fmt"
	"io"
	"strings"
	"testing"
	"time"
	"unicode/utf8"
)

func TestText(t *testing.T) {
	for _, row := range []struct {
		text string
		most int
		want string
	}{
		{"", 0, ""},
		{"abc", 3, "abc"},
		{"abcd", 3, "abc... (4 bytes)"},
		{"Zürich", 2, "Z... (7 bytes)"}, // no character is cut
		{"Zürich", 3, "Zü... (7 bytes)"},
		{"\U0001f600", 3, "... (4 bytes)"},
		{"\x80\x80\x80\x80\x80\x80", 5, "\x80\x80\x80\x80\x80... (6 bytes)"}, // (no UTF-8)
	} {
		if got := Text(row.text, row.most); got != row.want {
			t.Errorf("%q, %d: %q, want %q", row.text, row.most, got, row.want)
		}
	}
	for n := 0; n < 20; n++ {
		if got := Text(strings.Repeat("\u00fc\u20ac", 4), n); !utf8.ValidString(got) {
			t.Errorf("%d: %q", n, got)
		}
	}
}

func TestError(t *testing.T) {
	if Error(nil) != nil {
		t.Error("no error is one")
	}
	short := errors.New(strings.Repeat("a", Most))
	if Error(short) != short {
		t.Error("a short error is another one")
	}
	long := fmt.Errorf("%w%s", io.EOF, strings.Repeat("a", Most))
	if got := Error(long); got.Error() != "EOF"+strings.Repeat("a", Most-3)+fmt.Sprintf("... (%d bytes)", Most+3) || !errors.Is(got, io.EOF) {
		t.Errorf("%v", got)
	}
	given := []any{"why", long, "n", 1, "text", "b"}
	if all := Fields(given); all[1].(error).Error() != Error(long).Error() || all[3] != 1 || all[5] != "b" || len(all) != 6 || given[1] != long {
		t.Errorf("%v of %v", all, given)
	}
}

func TestCause(t *testing.T) {
	for text, want := range map[string]string{
		"read tcp 127.0.0.1:40001->127.0.0.1:6379: i/o timeout": "read tcp 127.0.0.1:6379: i/o timeout",
		"Get \"https://a:1/\": write tcp [::1]:40001->[::1]:1: broken pipe, lookup a on 10.0.0.1:53: read udp 10.0.0.2:4->10.0.0.1:53: i/o timeout": "Get \"https://a:1/\": write tcp [::1]:1: broken pipe, lookup a on 10.0.0.1:53: read udp 10.0.0.1:53: i/o timeout",
		`nats: Permissions Violation for Publish to "$KV.svid-claims.c.AbC_-1"`:                                                                     `nats: Permissions Violation for Publish to "$KV.svid-claims.c"`,
		`nats: Permissions Violation for Subscription to "_INBOX.Xy1.2" using queue "q.r"`:                                                          `nats: Permissions Violation for Subscription to "_INBOX" using queue "q.r"`,
		`nats: Permissions Violation for Publish to "$JS.FC.KV_svid.a1.b2"`:                                                                         `nats: Permissions Violation for Publish to "$JS.FC.KV_svid"`,
		`nats: Permissions Violation for Publish to "$JS.API.STREAM.INFO.KV_svid"`:                                                                  `nats: Permissions Violation for Publish to "$JS.API.STREAM.INFO.KV_svid"`,
		"dial tcp 127.0.0.1:6379: connect: connection refused":                                                                                      "dial tcp 127.0.0.1:6379: connect: connection refused",
	} {
		if got := Cause(errors.New(text)); got != want {
			t.Errorf("%s: %q", text, got)
		}
	}
}

// A cause is new where it was not there for a minute, or was forgotten. Those without end are few.
func TestCauses(t *testing.T) {
	var c Causes
	begin := time.Now()
	want := func(at time.Duration, text string, is bool) {
		t.Helper()
		if c.IsNew(begin.Add(at), errors.New(text)) != is {
			t.Errorf("%s at %v: it is new: %v", text, at, !is)
		}
	}
	for round := time.Duration(0); round < 4*causeTime; round += causeTime / 2 {
		want(round, "read tcp a:1->b:2: c", round == 0)
		want(round, fmt.Sprintf("read tcp a:%d->b:2: c", round), false)
	}
	want(4*causeTime, "d", true)
	want(5*causeTime-1, "d", false)
	want(6*causeTime-1, "d", true)
	c.Forget()
	want(6*causeTime-1, "d", true)
	c.Forget()
	for i := 0; i < 1000; i++ {
		want(0, fmt.Sprint(i), i < mostCauses)
	}
	if len(c.last) != mostCauses {
		t.Errorf("%d causes are kept", len(c.last))
	}
}
