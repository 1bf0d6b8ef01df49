package server

import (
	"bytes"
	"encoding/json"
	"net/http"
	"net/http/httptest"
	"strings"
	"testing"
)

// A decision is logged with the name of its request, which the answer has too, and with the client's address. Texts that are no
// names or addresses do not reach the log.
func TestADecisionNamesItsRequest(t *testing.T) {
	var out bytes.Buffer
	e := ready(t, engine(t, Options{Mode: Reuse, Log: NewLog(&out, Decisions)}))
	h := e.Handler()
	for _, row := range []struct {
		given     []string // X-Request-Id
		forwarded []string // X-Forwarded-For
		peer      string
		request   string // "" for one that is made
		client    string
	}{
		{nil, nil, "192.0.2.1:1234", "", "192.0.2.1"},
		{nil, nil, "[2001:db8::1]:1234", "", "2001:db8::1"},
		{nil, nil, "@", "", "unix"},
		{nil, nil, "", "", "unix"},
		{[]string{"7f3a-b_c.d:e/f+g="}, []string{"198.51.100.7"}, "127.0.0.1:1", "7f3a-b_c.d:e/f+g=", "198.51.100.7"},
		{[]string{strings.Repeat("a", 128)}, []string{"10.0.0.1, 198.51.100.7"}, "127.0.0.1:1", strings.Repeat("a", 128), "198.51.100.7"},
		{[]string{strings.Repeat("a", 129)}, []string{"10.0.0.1", "2001:db8::2"}, "127.0.0.1:1", "", "2001:db8::2"},
		{[]string{"a", "b"}, []string{"198.51.100.7,"}, "127.0.0.1:1", "", "127.0.0.1"},
		{[]string{""}, []string{""}, "127.0.0.1:1", "", "127.0.0.1"},
		{[]string{"a b"}, []string{"unknown"}, "127.0.0.1:1", "", "127.0.0.1"},
		{[]string{"a\"b"}, []string{"198.51.100.7:80"}, "127.0.0.1:1", "", "127.0.0.1"},
		{[]string{"ä"}, []string{"fe80::1%" + strings.Repeat("a", 1000)}, "127.0.0.1:1", "", "fe80::1"},
	} {
		out.Reset()
		r := httptest.NewRequest("GET", "/check", nil)
		r.RemoteAddr, r.Header = row.peer, http.Header{"Authorization": {"Bearer " + token("a")}}
		if row.given != nil {
			r.Header["X-Request-Id"] = row.given
		}
		if row.forwarded != nil {
			r.Header["X-Forwarded-For"] = row.forwarded
		}
		w := httptest.NewRecorder()
		h.ServeHTTP(w, r)
		var line map[string]any
		if err := json.Unmarshal(out.Bytes(), &line); err != nil {
			t.Fatalf("%s: %v", &out, err)
		}
		request, _ := line["request"].(string)
		if w.Code != 200 || line["client"] != row.client || line["level"] != "info" || request == "" || w.Header().Get("X-Request-Id") != request {
			t.Errorf("%+v: %d %v %v", row, w.Code, w.Header(), line)
		}
		if isMade := strings.HasPrefix(request, names.process+"-"); isMade != (row.request == "") || !isMade && request != row.request {
			t.Errorf("%+v: the request is %q", row, request)
		}
	}
	if names.next() == names.next() {
		t.Error("two requests have one name")
	}
}

// Lines of each level say which it is, and those that can't be judged are errors.
func TestALineSaysItsLevel(t *testing.T) {
	var out bytes.Buffer
	log := NewLog(&out, All)
	log.Error("a", http.ErrBodyNotAllowed)
	log.Event("b")
	log.Detail("c")
	e := engine(t, Options{Mode: Reuse, Log: log})
	request(e.Handler(), "GET", "/check", "Bearer "+token("a"))
	var levels []string
	for _, text := range strings.Split(strings.TrimSpace(out.String()), "\n") {
		var line struct{ Level string }
		if err := json.Unmarshal([]byte(text), &line); err != nil {
			t.Fatal(err)
		}
		levels = append(levels, line.Level)
	}
	if got := strings.Join(levels, " "); got != "error info debug error" {
		t.Error(got)
	}
}
