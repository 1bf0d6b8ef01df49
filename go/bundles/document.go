package bundles

import (
	"bytes"
	"encoding/json"
	"errors"
	"fmt"
	"io"
	"time"
	"unicode/utf8"

	"svid.example/go/v3/svid"
)

// mostDocument is how many bytes a bundle has at the most. One of SPIRE has 2,000 for each key and certificate.
const mostDocument = 1 << 20

var errTooLong = fmt.Errorf("it has more than %d bytes", mostDocument)

// A document is what of a bundle this package looks at.
type document struct {
	keys json.RawMessage // a list, or null
	hint json.Number     // spiffe_refresh_hint
}

// parse reads a bundle: a JSON object whose member keys is a list, or null.
func parse(text []byte) (document, error) {
	var members map[string]json.RawMessage
	if !utf8.Valid(text) {
		return document{}, errors.New("it is not UTF-8")
	}
	if err := json.Unmarshal(text, &members); err != nil {
		return document{}, fmt.Errorf("it is no JSON object: %w", err)
	}
	if members == nil {
		return document{}, errors.New("it is no JSON object, but null")
	}
	keys, there := members["keys"]
	if !there {
		return document{}, errors.New(`it has no member "keys"`)
	}
	d := document{keys: bytes.TrimSpace(keys)}
	if d.keys[0] != '[' && d.keys[0] != 'n' {
		return document{}, errors.New(`its member "keys" is no list`)
	}
	// A hint that is no number is as good as none.
	_ = json.Unmarshal(members["spiffe_refresh_hint"], &d.hint)
	return d, nil
}

// each calls do for each entry of keys, in their order. (To decode them all takes a hundred times the memory of the shortest, and
// one after the other, seconds.)
func (d document) each(do func(number int, entry json.RawMessage)) {
	if d.keys[0] != '[' {
		return // It is null.
	}
	list := d.keys[1 : len(d.keys)-1]
	for number := 0; len(bytes.TrimSpace(list)) > 0; number++ {
		end := firstEnd(list)
		do(number, json.RawMessage(bytes.TrimSpace(list[:end])))
		if end == len(list) {
			return
		}
		list = list[end+1:]
	}
}

// Usable says how many entries of a bundle can verify a token, and if none can, why. unusable says why a key can't, or nothing
// (Options.Unusable). The error is also that of a document that is no bundle, and svid.ErrNoMemory.
func Usable(bundle json.RawMessage, unusable func(key json.RawMessage) (why string)) (keys int, err error) {
	d, err := parse(bundle)
	if err != nil {
		return 0, err
	}
	return d.usable(unusable, func(int, json.RawMessage, string) {})
}

// errEmpty: a bundle has no entry.
var errEmpty = errors.New("its list of keys is empty")

// usable is Usable, and tells over of each entry that verifies nothing. Of the keys beyond mostJudged none is judged, once there is one that can be
// used: it takes time.
func (d document) usable(unusable func(json.RawMessage) string, over func(number int, entry json.RawMessage, why string)) (keys int, none error) {
	none = errEmpty
	isJudged := false // that none is why a key can't be used
	d.each(func(number int, entry json.RawMessage) {
		why, err := passedOver(entry)
		if err != nil {
			none, isJudged = err, true // There is no memory to read the entry.
			return
		}
		judges := why == "" && unusable != nil && (number < mostJudged || keys == 0)
		if judges {
			why = unusable(entry)
		}
		switch {
		case why == "":
			keys++
			return
		case judges && !isJudged:
			none, isJudged = fmt.Errorf("no key of it can be used: %s", why), true
		case none == errEmpty:
			none = fmt.Errorf(`no entry of it has the use "jwt-svid": %s`, why)
		}
		over(number, entry, why)
	})
	if keys > 0 {
		return keys, nil
	}
	return 0, none
}

// errPrivate: an entry has what signs, too (RFC 7518, sections 6.2.2, 6.3.2 and 6.4).
var errPrivate = errors.New("it has the private part of a key, and whoever reads it can sign tokens of this trust domain: take that part out, and replace the key")

// private is the number of the first entry that has the private part of a key, or a secret key.
func (d document) private() (number int, is bool) {
	d.each(func(i int, entry json.RawMessage) {
		var key map[string]json.RawMessage // (by the fields of a struct, "D" would count, too)
		if !is && entry[0] == '{' && json.Unmarshal(entry, &key) == nil && (key["d"] != nil || key["k"] != nil) {
			number, is = i, true
		}
	})
	return number, is
}

// firstEnd is where the first entry of a list ends: at a comma outside of texts and brackets, or at the end. The list is JSON.
func firstEnd(list []byte) int {
	depth, isText := 0, false
	for i := 0; i < len(list); i++ {
		switch c := list[i]; {
		case isText && c == '\\':
			i++
		case c == '"':
			isText = !isText
		case isText:
		case c == '[' || c == '{':
			depth++
		case c == ']' || c == '}':
			depth--
		case c == ',' && depth == 0:
			return i
		}
	}
	return len(list)
}

// Between two looks at an address. The hint of a bundle is followed within these bounds; without one SPIFFE recommends
// five minutes.
const (
	shortestRefresh = 10 * time.Second
	usualRefresh    = 5 * time.Minute
	longestRefresh  = 24 * time.Hour
)

// refresh is how long a bundle is good before it is asked for again.
func (d document) refresh() time.Duration {
	hint, err := d.hint.Int64()
	switch {
	case err != nil || hint <= 0:
		return usualRefresh
	case hint > int64(longestRefresh/time.Second):
		return longestRefresh
	case hint < int64(shortestRefresh/time.Second):
		return shortestRefresh
	}
	return time.Duration(hint) * time.Second
}

// passedOver says why an entry of keys signs no token, or nothing where it may: docs/FORMATS.md, "Bundles". The error is svid.ErrNoMemory.
// (A bundle may have half a million entries, and errors.As takes longer than to check one.)
func passedOver(entry json.RawMessage) (why string, err error) {
	err = svid.CheckEntry(entry)
	if fault, is := err.(svid.EntryFault); is {
		return fault.String(), nil
	}
	return "", err
}

// readAll reads a bundle of bearable length.
func readAll(r io.Reader) ([]byte, error) {
	text, err := io.ReadAll(io.LimitReader(r, mostDocument+1))
	if err == nil && len(text) > mostDocument {
		err = errTooLong
	}
	return text, err
}
