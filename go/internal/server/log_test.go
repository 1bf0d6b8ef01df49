package server

import (
	"bytes"
	"encoding/json"
	"errors"
	"fmt"
	"strings"
	"testing"
	"time"
	"unicode"

	"svid.example/go/v3/svid"
)

func TestTheLogHasItsLevels(t *testing.T) {
	for level, want := range map[Level]int{Errors: 1, Decisions: 2, All: 3} {
		var out bytes.Buffer
		l := NewLog(&out, level)
		l.Error("a", errors.New("b"), "c", 1)
		l.Event("d", "why", errors.New("e"))
		l.Detail("f", 1, 2)
		if n := strings.Count(out.String(), "\n"); n != want {
			t.Errorf("level %d: %d lines", level, n)
		}
	}
	var none *Log
	none.Event("nothing")
}

// A log of errors alone has the tokens that could not be judged. One of decisions has the others too, which are no errors.
func TestWhichDecisionsAreErrors(t *testing.T) {
	for event, row := range map[string]struct {
		o     Options
		token string
		level string
	}{
		"accepted":              {Options{Mode: Reuse}, token("a"), "info"},
		"refused NotAllowed":    {Options{Mode: Reuse, Allow: []string{"spiffe://example.org/other"}}, token("a"), "info"},
		"refused Expired":       {Options{Mode: Reuse, Now: func() uint64 { return moment + 600 }}, token("a"), "info"},
		"refused NotThreeParts": {Options{Mode: Reuse}, "a.b", "info"},
		"unavailable":           {Options{Mode: Once, Journal: &disk{fault: errors.New("no space left on device")}}, token("a"), "error"},
	} {
		for level, lines := range map[Level]int{Errors: map[string]int{"info": 0, "error": 1}[row.level], Decisions: 1} {
			var out bytes.Buffer
			o := row.o
			o.Log = NewLog(&out, level)
			request(ready(t, engine(t, o)).Handler(), "GET", "/check", "Bearer "+row.token)
			words := strings.Fields(event)
			if n := strings.Count(out.String(), "\n"); n != lines {
				t.Errorf("%s: %d lines, and %d are due: %s", event, n, lines, &out)
			}
			if lines > 0 && !strings.Contains(out.String(), `"level":"`+row.level+`","event":"`+words[0]+`"`) {
				t.Errorf("%s: %s", event, &out)
			}
			if lines > 0 && len(words) > 1 && !strings.Contains(out.String(), `"reason":"`+words[1]+`"`) {
				t.Errorf("%s: %s", event, &out)
			}
		}
	}
}

func TestTheStandardLoggersLinesAreErrors(t *testing.T) {
	var out bytes.Buffer
	NewLog(&out, Errors).Standard("http").Println("a line")
	if !strings.Contains(out.String(), `"error":"a line"`) || !strings.Contains(out.String(), `"event":"http"`) {
		t.Error(out.String())
	}
}

// What a refused token says of itself is cut before it is logged: between two letters, and with a sign that it is cut.
func TestTheLogHoldsLittleOfARefusedToken(t *testing.T) {
	const letter = "\u00e9"
	for _, odd := range []string{"", "a"} { // (of two bytes, so one of these texts would be cut within a letter)
		var out bytes.Buffer
		e := ready(t, engine(t, Options{Mode: Once, Log: NewLog(&out, Decisions)}))
		long, path := odd+strings.Repeat(letter, 5000), "spiffe://example.org/"+strings.Repeat("a", 1000)
		header, payload := fmt.Sprintf(`{"alg":"ES256","kid":%q}`, long), fmt.Sprintf(`{"sub":%q,"aud":[%q,"b","c","d","e","f"],"exp":%d}`, path, long, moment+9)
		if w := request(e.Handler(), "GET", "/check", "Bearer "+example.Sign("ES256", header, payload)); w.Code != 401 {
			t.Fatal(w.Code)
		}
		var line struct {
			Claimed struct {
				Sub, Kid string
				Aud      []string
			}
		}
		if err := json.Unmarshal(out.Bytes(), &line); err != nil {
			t.Fatal(err)
		}
		said := line.Claimed
		if want := odd + strings.Repeat(letter, (mostLogged-len(odd))/2) + ".."; said.Kid != want || len(said.Aud) != 4 || said.Aud[0] != want || said.Sub != path[:mostLogged]+".." {
			t.Errorf("%+v", said)
		}
	}
}

// What a server says may be long. Its line is not, and no line behind it is lost.
func TestALongTextIsCutInTheLog(t *testing.T) {
	var out lines
	outlet := NewOutlet(&out)
	log := NewLog(outlet, All)
	long := strings.Repeat("\u00e9", 1<<20)
	log.Error("one", errors.New(long), "source", long)
	log.Event("two", "why", errors.New(long))
	log.Standard("http").Print(long)
	log.Event("last")
	if said := log.reason(errors.New(long)); len(said) > 2*mostValue || !strings.Contains(said, " bytes)") {
		t.Errorf("a reason of %d bytes", len(said))
	}
	outlet.Close(time.Minute)
	out.mu.Lock()
	defer out.mu.Unlock()
	all := strings.Split(strings.TrimSuffix(out.text.String(), "\n"), "\n")
	if len(all) != 4 || log.Dropped() != 0 || !strings.Contains(all[3], `"event":"last"`) {
		t.Errorf("%d lines, %d dropped", len(all), log.Dropped())
	}
	for _, line := range all {
		if len(line) > 3*mostValue {
			t.Errorf("a line of %d bytes: %.200s", len(line), line)
		}
	}
}

// What a stranger writes into a token, or what a server says, is text to a terminal too that takes U+009B for the beginning of a command.
func TestNoLineCommandsATerminal(t *testing.T) {
	var out lines
	e := ready(t, engine(t, Options{Mode: Reuse, Log: NewLog(&out, All)}))
	text := "\u009b2J\x7f\u009d0;title\u009c\u202e"
	bad := example.Token("ES256", map[string]any{"sub": "spiffe://example.org/web", "aud": []string{text}, "exp": moment + 1})
	if err := check(e, bad); err != svid.NotAudience {
		t.Fatal(err)
	}
	e.Log.Event("event", "why", errors.New(text))
	out.mu.Lock()
	defer out.mu.Unlock()
	said := out.text.String()
	if strings.IndexFunc(said, func(r rune) bool { return r != '\n' && !unicode.IsPrint(r) }) >= 0 || strings.Count(said, `\u009b2J\u007f`) != 2 {
		t.Errorf("%q", said)
	}
}

// Lines have addresses of clients and callers whole, as networks, or not at all. Another name of a caller stays.
func TestAddressesInLines(t *testing.T) {
	for _, c := range []struct {
		how        Addresses
		text, want string
	}{
		{Whole, "192.0.2.77", "192.0.2.77"}, {Network, "192.0.2.77", "192.0.2.0/24"}, {None, "192.0.2.77", ""},
		{Network, "2001:db8:1:2::3", "2001:db8:1::/48"}, {None, "2001:db8:1:2::3", ""}, {Network, "::ffff:192.0.2.77", "192.0.2.0/24"},
		{Network, "192.0.2.64/26", "192.0.2.0/24"}, {None, "192.0.2.64/26", ""}, {Whole, "192.0.2.64/26", "192.0.2.64/26"},
		{None, "spiffe://example.org/web", "spiffe://example.org/web"}, {Network, "sha256:00", "sha256:00"}, {None, "unix", "unix"}, {None, "", ""},
	} {
		var out bytes.Buffer
		log := NewLog(&out, Decisions)
		log.SetAddresses(c.how)
		log.decide(&decision{Client: c.text, Caller: c.text})
		var line map[string]any
		if err := json.Unmarshal(out.Bytes(), &line); err != nil {
			t.Fatal(err)
		}
		for _, name := range []string{"client", "caller"} {
			if got, is := line[name]; is != (c.want != "") || is && got != c.want {
				t.Errorf("%s %s, %d: %v", name, c.text, c.how, got)
			}
		}
	}
	(*Log)(nil).SetAddresses(None)
}

// The key in a line is spelled as the report has it, and as `svidd withdraw` takes it.
func TestTheKeyInALine(t *testing.T) {
	var log bytes.Buffer
	e := ready(t, engine(t, Options{Mode: Reuse, Log: NewLog(&log, Decisions)}))
	one := token("a")
	use, err := e.Find(one)
	if err == nil {
		err = check(e, one)
	}
	if due := `"key":"` + use.Key.String() + `"`; err != nil || !strings.Contains(log.String(), due) {
		t.Errorf("%v, and a line with %s is due: %s", err, due, &log)
	}
}
