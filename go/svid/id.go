package svid

/*
#include "svid.h"

static uint32_t parse_id(_GoString_ id, svid_id *out) {
    return svid_id_parse((const uint8_t *)_GoStringPtr(id), _GoStringLen(id), out);
}
*/
import "C"

import "fmt"

// ParseID takes a SPIFFE ID apart: into the name of its trust domain, and its path, which is empty or begins with a slash
// (SPIFFE-ID, section 2). The error is ErrNoMemory, or says where the text is no SPIFFE ID.
func ParseID(id string) (trustDomain, path string, err error) {
	var out C.svid_id
	if status := C.parse_id(id, &out); status != C.SVID_OK {
		return "", "", idError(id, status, &out)
	}
	end := len(id) - int(out.path_len)
	return id[end-int(out.domain_len) : end], id[end:], nil
}

// idError says why a text is no SPIFFE ID.
func idError(id string, status C.uint32_t, out *C.svid_id) error {
	if status == C.SVID_NO_MEMORY {
		return ErrNoMemory
	}
	return fmt.Errorf("svid: %q is no SPIFFE ID (byte %d): %s", id, int(out.offset), wordsOf(status).whole())
}
