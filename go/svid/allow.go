package svid

/*
#include "svid.h"

static uint32_t allows(_GoString_ pattern, _GoString_ id, svid_id *out) {
    return svid_id_allows((const uint8_t *)_GoStringPtr(pattern), _GoStringLen(pattern), (const uint8_t *)_GoStringPtr(id), _GoStringLen(id), out);
}
*/
import "C"

import "fmt"

// A PatternError says where a text is no pattern of SPIFFE IDs.
type PatternError struct {
	Pattern string
	Offset  int // the byte that is at fault, from 0; 0 also where it is no byte
	says    string
}

// Error says what is wrong, and what to write.
func (e *PatternError) Error() string {
	return fmt.Sprintf("svid: %q is no pattern of SPIFFE IDs (byte %d): %s", e.Pattern, e.Offset, e.says)
}

// Allows says whether a pattern allows a SPIFFE ID (docs/FORMATS.md, "Patterns of IDs"): spiffe://DOMAIN/PATH allows that ID,
// spiffe://DOMAIN/PATH/* all IDs below it by whole segments, and spiffe://DOMAIN all IDs of the trust domain.
//
// The error is a *PatternError, ErrNoMemory, or another one where id is no SPIFFE ID: the ID of an Accepted or of a Said is one.
func Allows(pattern, id string) (bool, error) {
	var out C.svid_id
	status := C.allows(pattern, id, &out)
	switch {
	case status == C.SVID_OK:
		return true, nil
	case status == C.SVID_NOT_ALLOWED:
		return false, nil
	case status >= C.SVID_PATTERN_TOO_LONG && status <= C.SVID_PATTERN_PATH_BYTE:
		return false, &PatternError{pattern, int(out.offset), wordsOf(status).whole()}
	}
	return false, idError(id, status, &out)
}

// CheckPattern returns why a text is no pattern, a *PatternError or ErrNoMemory, or nil.
func CheckPattern(pattern string) error {
	_, err := Allows(pattern, "spiffe://example.org")
	return err
}
