package svid

/*
#include "svid.h"

static uint32_t says(_GoString_ token, svid_said *said, size_t *lens, size_t lens_len, uint8_t *out, size_t out_len, svid_told *told) {
    return svid_token_says((const uint8_t *)_GoStringPtr(token), _GoStringLen(token), said, lens, lens_len, out, out_len, told);
}

static uint32_t payload(_GoString_ token, uint8_t *out, size_t out_len, svid_told *told) {
    return svid_token_payload((const uint8_t *)_GoStringPtr(token), _GoStringLen(token), out, out_len, told);
}
*/
import "C"

import (
	"sync"
	"unsafe"
)

// Said is what a token says of itself. Nobody has vouched for it.
type Said struct {
	Key         TokenKey // by which the record names the token
	Expires     uint64   // exp
	Algorithm   string   // as the header names it: "ES256"
	Subject     string   // a SPIFFE ID
	TrustDomain string   // that of the subject
	KeyID       string   // kid, and "" if the header has none
	Audiences   []string // at least one
}

// A sayer is room for what a token says. Those that nobody uses wait for the next token.
type sayer struct {
	said C.svid_said
	told C.svid_told
	lens []C.size_t
	out  []byte
}

var sayers = sync.Pool{New: func() any { return &sayer{lens: make([]C.size_t, 8), out: make([]byte, 1024)} }}

// Read returns what a token says, and judges nothing: it looks at no signature, no
// time and no audience. The error is a Refusal, TooLong to Jti, if the token is
// refused for what it is, or ErrNoMemory.
func Read(token string) (Said, error) {
	s := sayers.Get().(*sayer)
	defer sayers.Put(s)
	for {
		status := C.says(token, &s.said, first(s.lens), C.size_t(len(s.lens)), start(s.out), C.size_t(len(s.out)), &s.told)
		if status == C.SVID_TOO_SHORT {
			s.grow()
			continue
		}
		if err := failure(status, &s.told); err != nil {
			return Said{}, err
		}
		return saidBy(&s.said, s.lens[:s.said.texts], string(s.out[:s.told.len])), nil
	}
}

// Payload returns the payload of a token, which has its claims as JSON, as it was signed. It judges nothing. The error is the
// Refusal TooLong, NotThreeParts or PayloadSpelling, or ErrNoMemory.
func Payload(token string) ([]byte, error) {
	var told C.svid_told
	out := make([]byte, len(token)) // (its base64url is longer)
	status := C.payload(token, start(out), C.size_t(len(out)), &told)
	if err := failure(status, &told); err != nil {
		return nil, err
	}
	return out[:told.len], nil
}

// grow makes room for what the last call told.
func (s *sayer) grow() {
	if n := int(s.said.texts); n > len(s.lens) {
		s.lens = make([]C.size_t, n)
	}
	if n := int(s.told.len); n > len(s.out) {
		s.out = make([]byte, n)
	}
}

// saidBy cuts the texts of a token by their lengths, as svid_token_says wrote them.
func saidBy(said *C.svid_said, lens []C.size_t, texts string) Said {
	next := func() string {
		text := texts[:lens[0]]
		texts, lens = texts[lens[0]:], lens[1:]
		return text
	}
	s := Said{Key: *(*TokenKey)(unsafe.Pointer(&said.key)), Expires: uint64(said.exp),
		Algorithm: next(), Subject: next(), TrustDomain: next(), KeyID: next()}
	s.Audiences = make([]string, 0, len(lens))
	for len(lens) > 0 {
		s.Audiences = append(s.Audiences, next())
	}
	return s
}
