package svid

// #include "svid.h"
import "C"

import (
	"errors"
	"fmt"
)

// Errors that are about no token. After each of them the token, or the message,
// was not accepted.
var (
	// ErrNoMemory: malloc returned NULL. The call can be made again.
	ErrNoMemory = ofCall(C.SVID_NO_MEMORY)
	// ErrClosed: the Validator or Keyring is closed.
	ErrClosed = ofCall(C.SVID_CLOSED)
	// ErrGone: the token to be withdrawn has expired.
	ErrGone = ofCall(C.SVID_GONE)
	// ErrTooFar: a message tells of a time more than Options.Ahead seconds past now.
	ErrTooFar = ofCall(C.SVID_TOO_FAR)
	// ErrJump: now is more than Options.Step seconds past the record's moment.
	ErrJump = ofCall(C.SVID_JUMP)
	// ErrRenewed: the trust bundles or the audiences are other ones than when the token was accepted.
	ErrRenewed = errors.New("svid: the trust bundles or the audiences were replaced since the token was judged: judge it again")
	// ErrTooMuch: bundles, or an input of messages, have more than MaxMessages bytes.
	ErrTooMuch = ofCall(C.SVID_TOO_MUCH)
	// ErrNoRoom: no message that tells a use is as short as was asked for.
	ErrNoRoom = errors.New("svid: messages as short as this have no room for a use: 82 bytes are the least")
	// ErrNotSummary: the input is not one summary.
	ErrNotSummary = ofCall(C.SVID_NOT_SUMMARY)
	// ErrAudience: an audience is not UTF-8, is empty, or holds a line break.
	ErrAudience = errors.New("svid: an audience must be UTF-8 text without line breaks, and not empty")
	// ErrRSABits: KeyringOptions.RSABits is out of its range.
	ErrRSABits = errors.New("svid: RSABits must be from 2048 to 16384, or 0 for 4096")
	// ErrBundles: the bundles are not one JSON object.
	ErrBundles = ofCall(C.SVID_BUNDLES_NOT_OBJECT)
)

// ofCall is the error of a call with this status.
func ofCall(status C.uint32_t) error { return errors.New("svid: " + wordsOf(status).whole()) }

// A BundleError says which trust domain of the bundles is at fault.
type BundleError struct {
	Reason string // "Domain": the name is no trust domain name; "Keys": its value is no JWK set; "Unnamed": they are one bundle without a name
	Index  int    // of the name among all names in rising byte order, from 0
}

// Error says what is wrong and what to do, and names the index.
func (e *BundleError) Error() string {
	if e.Reason == "Unnamed" {
		return "svid: " + wordsOf(C.SVID_BUNDLES_UNNAMED).whole()
	}
	said := wordsOf(C.SVID_BUNDLES_KEYS)
	if e.Reason == "Domain" {
		said = wordsOf(C.SVID_BUNDLES_DOMAIN)
	}
	return fmt.Sprintf("svid: %s (number %d of the names in rising order, counted from 0): %s", said.says, e.Index, said.advice)
}

// A MessageError says why bytes are no row of messages.
type MessageError struct {
	Reason  string // as docs/FORMATS.md names it: "Magic" to "Truncated"
	Message int    // which message is at fault, from 1; 0 for one of Read or OpenLog, and of Batches, where Offset is the index of the use
	Offset  int    // the byte of that message at which the faulty field begins, from 0
}

// Error names the reason and where it is, and says what is wrong and due there.
func (e *MessageError) Error() string {
	if e.Message == 0 {
		return fmt.Sprintf("svid: %s at offset %d: %s", e.Reason, e.Offset, messageWords[e.Reason])
	}
	return fmt.Sprintf("svid: %s in message %d at byte %d: %s", e.Reason, e.Message, e.Offset, messageWords[e.Reason])
}

// lists:begin messages (written by tools/lists from lists/statuses.toml)

// messageWords say what is wrong and due, by the Reason of a MessageError.
var messageWords = map[string]string{
	"Magic":      "the first four bytes are those of no version, and due is 4A 53 52, which is JSR, and then 02 or 01",
	"Kind":       "the fifth byte is that of no kind of message of the version, and due is 01 for a batch, or 02 for a summary, which only version 2 has",
	"Count":      "a batch tells of too many uses, and due is a number of at most 65,536 uses, or of 4,096 in version 1",
	"UseKind":    "the last byte of a use is neither 0 nor 1, and due is a use whose last byte is 00 or 01",
	"UseExpired": "a use expires at its batch's moment or before it, and due is a use that expires after the batch's moment",
	"UseFuture":  "a use was made after its batch's moment, and due is a use that was made at the batch's moment or before it",
	"UseOrder":   "a use is not greater than the one before it, and due is a use that is greater than the one before it",
	"Truncated":  "the bytes end before the message does, and due is the rest of the message",
}

// lists:end

var statusErrors = map[C.uint32_t]error{
	C.SVID_NO_MEMORY:          ErrNoMemory,
	C.SVID_CLOSED:             ErrClosed,
	C.SVID_NO_LOG:             ErrNoLog,
	C.SVID_HAS_LOG:            ErrHasLog,
	C.SVID_GONE:               ErrGone,
	C.SVID_TOO_FAR:            ErrTooFar,
	C.SVID_JUMP:               ErrJump,
	C.SVID_TOO_MUCH:           ErrTooMuch,
	C.SVID_NOT_SUMMARY:        ErrNotSummary,
	C.SVID_BUNDLES_NOT_OBJECT: ErrBundles,
	C.SVID_OWN_NOT_UTF8:       ErrAudience,
	C.SVID_IS_OPEN:            ErrIsOpen,
	C.SVID_NO_MEMBER:          ErrNoMember,
	C.SVID_NO_MODE:            ErrNoMode,
	C.SVID_UNASKED:            ErrUnasked,
}

// failure is the error of a status, or nil for SVID_OK.
func failure(status C.uint32_t, told *C.svid_told) error {
	switch {
	case status == C.SVID_OK:
		return nil
	case status >= C.SVID_TOO_LONG && status <= C.SVID_REPLAYED: // (no other status has a number between these)
		return Refusal(status)
	case status >= C.SVID_ENDED && status <= C.SVID_DEAF:
		return Unready(status)
	case status >= C.SVID_MAGIC && status <= C.SVID_TRUNCATED:
		return &MessageError{Reason: wordsOf(status).name, Message: int(told.message), Offset: int(told.offset)}
	case status == C.SVID_BUNDLES_DOMAIN:
		return &BundleError{Reason: "Domain", Index: int(told.offset)}
	case status == C.SVID_BUNDLES_KEYS:
		return &BundleError{Reason: "Keys", Index: int(told.offset)}
	case status == C.SVID_BUNDLES_UNNAMED:
		return &BundleError{Reason: "Unnamed"}
	}
	if err, ok := statusErrors[status]; ok {
		return err
	}
	return fmt.Errorf("svid: the library answered status %d", uint32(status))
}
