// Package jsontext writes texts as strings of JSON, without new memory for those that need no escape.
package jsontext

import (
	"encoding/json"
	"unicode"
	"unicode/utf16"
	"unicode/utf8"
)

// Append appends the text as package encoding/json writes it (RFC 8259, section 7), and escapes what is not to be printed.
func Append(line []byte, text string) []byte {
	for i := 0; i < len(text); i++ {
		if c := text[i]; c < ' ' || c >= '\x7f' || c == '"' || c == '\\' || c == '<' || c == '>' || c == '&' {
			quoted, _ := json.Marshal(text) // (a string has no error)
			return append(line, Printable(quoted)...)
		}
	}
	return append(append(append(line, '"'), text...), '"')
}

// Printable gives JSON text for people: in one line, in which all is printed. In strings it escapes what is not: a terminal may take U+007F to
// U+009F for commands, and other such characters change how it shows those beside them. Control characters below a blank stand between
// tokens alone, as white space (RFC 8259, sections 2 and 7), and each becomes a blank.
func Printable(text []byte) []byte {
	var made []byte // nil while nothing was changed
	rest := text
	for len(rest) > 0 {
		r, n := utf8.DecodeRune(rest)
		if unicode.IsPrint(r) {
			if made != nil {
				made = append(made, rest[:n]...)
			}
		} else {
			if made == nil {
				made = append(make([]byte, 0, 2*len(text)), text[:len(text)-len(rest)]...)
			}
			if r < ' ' {
				made = append(made, ' ')
			} else if high, low := utf16.EncodeRune(r); low != unicode.ReplacementChar {
				made = escape(escape(made, high), low)
			} else {
				made = escape(made, r)
			}
		}
		rest = rest[n:]
	}
	if made == nil {
		return text
	}
	return made
}

func escape(line []byte, r rune) []byte {
	const digits = "0123456789abcdef"
	return append(line, '\\', 'u', digits[r>>12&15], digits[r>>8&15], digits[r>>4&15], digits[r&15])
}
