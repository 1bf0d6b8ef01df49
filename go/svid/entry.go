package svid

// #include "svid.h"
import "C"

// An EntryFault says why an entry of a trust bundle is no key for JWT-SVIDs (docs/FORMATS.md, "Bundles"). It is an error.
type EntryFault uint32

// The reasons, in the order in which they are looked for.
const (
	EntryNotObject EntryFault = C.SVID_ENTRY_NOT_OBJECT // it is no JSON object
	EntryNoUse     EntryFault = C.SVID_ENTRY_NO_USE     // it has no use
	EntryX509      EntryFault = C.SVID_ENTRY_X509       // it is for X.509-SVIDs
	EntryUse       EntryFault = C.SVID_ENTRY_USE        // its use is not "jwt-svid"
	EntryKid       EntryFault = C.SVID_ENTRY_KID        // its kid is not there, or no text
	EntryKty       EntryFault = C.SVID_ENTRY_KTY        // its kty is that of no algorithm
	EntryNumber    EntryFault = C.SVID_ENTRY_NUMBER     // a number in it is no whole number of 64 bits
	EntryTooLong   EntryFault = C.SVID_ENTRY_TOO_LONG   // it has more than 65,536 bytes as compact JSON
)

// String says it in words, as the rest of a sentence.
func (e EntryFault) String() string { return entryWords[e] }

// Error says it in words.
func (e EntryFault) Error() string { return "svid: an entry is no key: " + entryWords[e] }

// lists:begin entries (written by tools/lists from lists/statuses.toml)

// entryWords say why an entry is no key.
var entryWords = map[EntryFault]string{
	EntryNotObject: "it is no JSON object",
	EntryNoUse:     "it has no use, which must be \"jwt-svid\"",
	EntryX509:      "it is for X.509-SVIDs",
	EntryUse:       "its use is not \"jwt-svid\"",
	EntryKid:       "its kid is not there, or no text",
	EntryKty:       "its kty is neither RSA nor EC",
	EntryNumber:    "a number in it is no whole number of 64 bits",
	EntryTooLong:   "it has more than 65,536 bytes as compact JSON",
}

// lists:end

// CheckEntry returns nil for an entry of a trust bundle, as JSON, that is a key for JWT-SVIDs. Other entries are passed over
// wherever bundles are read: of these the error is an EntryFault, or ErrNoMemory.
func CheckEntry(entry []byte) error {
	var told C.svid_told
	// (in a room of no bytes, a key has too little)
	status := C.svid_key_text(start(entry), C.size_t(len(entry)), nil, 0, &told)
	switch {
	case status == C.SVID_TOO_SHORT:
		return nil
	case status >= C.SVID_ENTRY_NOT_OBJECT && status <= C.SVID_ENTRY_TOO_LONG:
		return EntryFault(status)
	}
	return failure(status, &told)
}
