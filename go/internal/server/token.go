package server

import (
	"strings"

	"svid.example/go/v3/internal/jsontext"
	"svid.example/go/v3/svid"
)

// mostLogged is how many bytes of a text of an unverified token are logged.
const mostLogged = 256

// An unverified token is what a token says of itself, if it is a JWT-SVID: for the
// log, and for the audience of a token that the validator has accepted.
type unverified struct {
	Subject  string
	Audience []string
	KeyID    string
	Key      *svid.TokenKey // by which the record names the token; nil if it is no JWT-SVID

	domain string // the trust domain of the subject
}

// readUnverified reads what a token says. One that is refused for what it is says nothing.
func readUnverified(token string) unverified {
	said, err := svid.Read(token)
	if err != nil {
		return unverified{}
	}
	return unverified{Subject: said.Subject, Audience: said.Audiences, KeyID: said.KeyID, Key: &said.Key, domain: said.TrustDomain}
}

// audience is the first of own that the token names.
func (u unverified) audience(own []string) string {
	for _, name := range own {
		for _, a := range u.Audience {
			if a == name {
				return name
			}
		}
	}
	return ""
}

// short is u with its texts cut for the log: nobody has vouched for them.
func (u unverified) short() *unverified {
	if len(u.Audience) > 4 {
		u.Audience = u.Audience[:4]
	}
	audience := make([]string, len(u.Audience))
	for i, a := range u.Audience {
		audience[i] = cut(a)
	}
	return &unverified{Subject: cut(u.Subject), Audience: audience, KeyID: cut(u.KeyID), Key: u.Key}
}

// append appends a JSON object with what is not empty.
func (u *unverified) append(line []byte) []byte {
	from := len(line)
	line = appendUnlessEmpty(line, "sub", u.Subject)
	for i, a := range u.Audience {
		if i == 0 {
			line = append(line, `,"aud":[`...)
		} else {
			line = append(line, ',')
		}
		line = jsontext.Append(line, a)
	}
	if len(u.Audience) > 0 {
		line = append(line, ']')
	}
	line = appendUnlessEmpty(line, "kid", u.KeyID)
	if u.Key != nil {
		line = appendDigits(line, "key", u.Key[:])
	}
	if len(line) == from {
		line = append(line, ',')
	}
	line[from] = '{' // instead of the comma
	return append(line, '}')
}

func cut(s string) string {
	if len(s) > mostLogged {
		return strings.ToValidUTF8(s[:mostLogged], "") + ".."
	}
	return s
}
