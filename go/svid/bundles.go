package svid

// #include "svid.h"
import "C"

import (
	"fmt"
	"sort"
)

// JoinBundles makes trust bundles of JWK sets by trust domain, named example.org or spiffe://example.org. The result is for
// NewKeyring, Options.Bundles and SetBundles.
//
// The sets have keys for JWT-SVIDs alone, as those that a SPIFFE Workload API gives, and those of go-spiffe
// (jwtbundle.Bundle.Marshal). So a key that names no use gets the use jwt-svid, without which it would be passed over. A key of
// a SPIFFE bundle document names its use, and stays as it is.
//
// The error wraps ErrBundles, or is ErrNoMemory: a set is no JSON object with a list "keys", a name is no trust domain name, or a
// trust domain is named twice.
func JoinBundles(sets map[string][]byte) ([]byte, error) {
	names := make([]string, 0, len(sets))
	for name := range sets {
		names = append(names, name)
	}
	sort.Strings(names) // so of several faults it is always the same one
	var texts []byte
	documents := make([]C.svid_document, 0, len(sets))
	for _, name := range names {
		domain, set := name, sets[name]
		if domain == "" {
			domain = "spiffe://" // (to the library, a document without a name has the names of its trust domains)
		}
		texts = append(append(texts, domain...), set...)
		documents = append(documents, C.svid_document{name_len: C.size_t(len(domain)), text_len: C.size_t(len(set)), keys: 1})
	}
	out, told, status := join(texts, documents)
	switch {
	case status == C.SVID_OK:
		return out, nil
	case status == C.SVID_NO_MEMORY || told.input == 0:
		return nil, failure(status, &told)
	}
	return nil, &joinError{names[told.input-1], wordsOf(status).whole()}
}

// A joinError says which set can't be joined, why, and what to do. It is ErrBundles, too.
type joinError struct{ name, says string }

func (e *joinError) Error() string { return fmt.Sprintf("svid: %s: %s", e.name, e.says) }
func (e *joinError) Unwrap() error { return ErrBundles }

// join calls svid_bundles_join with as much room as it needs.
func join(texts []byte, documents []C.svid_document) (out []byte, told C.svid_told, status C.uint32_t) {
	out = make([]byte, 2*len(texts)+64)
	for {
		status = C.svid_bundles_join(start(texts), C.size_t(len(texts)), first(documents), C.size_t(len(documents)), start(out), C.size_t(len(out)), &told)
		if status != C.SVID_TOO_SHORT {
			return out[:told.len], told, status
		}
		out = make([]byte, told.len)
	}
}
