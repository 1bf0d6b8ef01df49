package svid

/*
#include "svid.h"

typedef struct {
    uint32_t status;
    svid_bearer token;
} found;

// (By value: what C is given the address of takes new memory.)
static found bearer(uint64_t fields, _GoString_ value) {
    found f;
    f.status = svid_bearer_token(fields, (const uint8_t *)_GoStringPtr(value), _GoStringLen(value), &f.token);
    return f;
}
*/
import "C"

// A NoBearer says why a request has no bearer token. It is an error.
type NoBearer uint32

// The reasons, in the order in which they are looked for.
const (
	BearerAbsent   NoBearer = C.SVID_BEARER_ABSENT   // the request has no header field Authorization
	BearerSeveral  NoBearer = C.SVID_BEARER_SEVERAL  // it has more than one
	BearerScheme   NoBearer = C.SVID_BEARER_SCHEME   // the scheme is not Bearer
	BearerSpelling NoBearer = C.SVID_BEARER_SPELLING // the scheme is not followed by one token
)

// Error says what the request has, or lacks, and what to send.
func (n NoBearer) Error() string { return "svid: " + wordsOf(C.uint32_t(n)).whole() }

// BearerToken returns the one bearer token of a request (RFC 9110, section 11.4; RFC 6750, section 2.1). authorization has the
// values of all its header fields Authorization. BearerToken does not read the token.
//
// The error is a NoBearer, or the Refusal TooLong for a token of more than MaxToken bytes.
func BearerToken(authorization []string) (string, error) {
	var first string
	if len(authorization) > 0 {
		first = authorization[0]
	}
	switch found := C.bearer(C.uint64_t(len(authorization)), first); found.status {
	case C.SVID_OK:
		return first[found.token.at : found.token.at+found.token.len], nil
	case C.SVID_TOO_LONG:
		return "", TooLong
	default:
		return "", NoBearer(found.status)
	}
}
