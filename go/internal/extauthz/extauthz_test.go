package extauthz

import (
	"fmt"
	"testing"

	"svid.example/go/v3/internal/protowire"
)

// request is a CheckRequest whose map of headers has these entries.
func request(entries ...[]byte) []byte {
	var http []byte
	for _, e := range entries {
		http = protowire.AppendField(http, httpHeaders, e)
	}
	return protowire.AppendField(nil, checkAttributes, protowire.AppendField(nil, attributesRequest, protowire.AppendField(nil, requestHTTP, http)))
}

func entry(key, value string) []byte {
	return protowire.AppendField(protowire.AppendField(nil, entryKey, []byte(key)), entryValue, []byte(value))
}

// The header fields that are wanted are read, each as often as it is there, and no others.
func TestReadHeaders(t *testing.T) {
	one := request(entry("authorization", "a"), entry("cookie", "b"))
	for what, row := range map[string]struct {
		message []byte
		want    string
	}{
		"nothing":                  {nil, "map[]"},
		"one":                      {one, "map[authorization:[a]]"},
		"two":                      {request(entry("authorization", "a"), entry("Authorization", "b")), "map[authorization:[a b]]"},
		"in two parts":             {append(append([]byte(nil), one...), one...), "map[authorization:[a a]]"},
		"a field twice":            {request(append(entry("cookie", "a"), entry("authorization", "b")...)), "map[authorization:[b]]"},
		"a key without a value":    {request(protowire.AppendField(nil, entryKey, []byte("authorization"))), "map[authorization:[]]"},
		"a value without a key":    {request(protowire.AppendField(nil, entryValue, []byte("a"))), "map[]"},
		"a name that begins so":    {request(entry("authorization2", "a"), entry("authorizatio", "a")), "map[]"},
		"a header elsewhere":       {protowire.AppendField(nil, 2, one[2:]), "map[]"},
		"fields that are unknown":  {append(appendNumber(nil, 9, 7), one...), "map[authorization:[a]]"},
		"a group that is unknown":  {append([]byte{9<<3 | 3, 9<<3 | 4}, one...), "map[authorization:[a]]"},
		"a number where a text is": {request(appendNumber(nil, entryKey, 1)), "field 1 is of another type"},
		"not UTF-8":                {request(entry("x", "\xff")), "a field is not UTF-8"},
		"cut":                      {one[:len(one)-1], "unexpected EOF"},
		"an end without its group": {[]byte{9<<3 | 4}, "mismatching end group marker"},
		"the field 0":              {[]byte{0, 0}, "invalid field number"},
	} {
		headers, err := ReadHeaders(row.message, "authorization")
		got := fmt.Sprint(headers)
		if err != nil {
			got = err.Error()
			if headers != nil {
				t.Errorf("%s: %v", what, headers)
			}
		}
		if got != row.want && !(err != nil && got[len(got)-len(row.want):] == row.want) {
			t.Errorf("%s: %s, want %s", what, got, row.want)
		}
	}
}

// The client of a request is read from its own fields, and from no others: of two, the last one counts.
func TestReadSource(t *testing.T) {
	socket := func(address string) []byte {
		return protowire.AppendField(nil, addressSocket, protowire.AppendField(nil, socketAddress, []byte(address)))
	}
	peer := func(address []byte, principal string) []byte {
		return protowire.AppendField(protowire.AppendField(nil, peerAddress, address), peerPrincipal, []byte(principal))
	}
	source := func(peer []byte) []byte {
		return protowire.AppendField(nil, checkAttributes, protowire.AppendField(nil, attributesSource, peer))
	}
	for what, row := range map[string]struct {
		message []byte
		want    string
	}{
		"nothing":            {nil, "{ }"},
		"both":               {source(peer(socket("192.0.2.1"), "spiffe://example.org/web")), "{192.0.2.1 spiffe://example.org/web}"},
		"beside headers":     {append(request(entry("a", "b")), source(peer(socket("::1"), "p"))...), "{::1 p}"},
		"a pipe":             {source(peer(protowire.AppendField(nil, 2, []byte("path")), "p")), "{ p}"},
		"two addresses":      {append(source(peer(socket("192.0.2.1"), "p")), source(peer(socket("192.0.2.2"), ""))...), "{192.0.2.2 }"},
		"the destination":    {protowire.AppendField(nil, checkAttributes, protowire.AppendField(nil, 2, peer(socket("192.0.2.1"), "p"))), "{ }"},
		"of the headers":     {request(entry("source", "192.0.2.1")), "{ }"},
		"not UTF-8":          {source(peer(socket("\xff"), "p")), "a field is not UTF-8"},
		"a principal is not": {source(peer(socket("a"), "\xff")), "a field is not UTF-8"},
		"cut":                {source(peer(socket("192.0.2.1"), "p"))[:9], "unexpected EOF"},
	} {
		s, err := ReadSource(row.message)
		got := fmt.Sprint(s)
		if err != nil {
			if got = err.Error(); s != (Source{}) {
				t.Errorf("%s: %v", what, s)
			}
		}
		if got != row.want {
			t.Errorf("%s: %s, want %s", what, got, row.want)
		}
	}
}

// Each message that is cut anywhere is no whole one, or has fewer header fields: none is misread.
func TestMessagesThatAreCut(t *testing.T) {
	whole := request(entry("authorization", "Bearer a"))
	for n := range whole {
		if headers, err := ReadHeaders(whole[:n], "authorization"); err == nil && len(headers) > 0 {
			t.Errorf("%d bytes: %v", n, headers)
		}
	}
}

// The answers have their fields under the numbers of Envoy's API, each written as protobuf does.
func TestAnswers(t *testing.T) {
	ok := Accepted([]Field{{"a", "b"}}, "c")
	if got, want := fmt.Sprintf("%x", ok), "0a00"+"1a0f"+"120a"+"0a06"+"0a0161"+"120162"+"1802"+"2a0163"; got != want {
		t.Errorf("accepted: %s, want %s", got, want)
	}
	denied := Denied(16, "w", 401, []Field{{"a", "b"}}, "d")
	if got, want := fmt.Sprintf("%x", denied), "0a05"+"0810"+"120177"+"1214"+"0a03"+"089103"+"120a"+"0a06"+"0a0161"+"120162"+"1802"+"1a0164"; got != want {
		t.Errorf("denied: %s, want %s", got, want)
	}
}

// Whatever comes, reading ends, and answers within the message.
func FuzzReadHeaders(f *testing.F) {
	f.Add(request(entry("authorization", "a")))
	f.Add([]byte{9<<3 | 3, 9<<3 | 4})
	f.Fuzz(func(t *testing.T, message []byte) {
		headers, err := ReadHeaders(message, "authorization")
		if err != nil && headers != nil {
			t.Error(headers, err)
		}
		for _, value := range headers["authorization"] {
			if len(value) > len(message) {
				t.Error(value)
			}
		}
	})
}
