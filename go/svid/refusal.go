package svid

// #include "svid.h"
import "C"

import "fmt"

// A Refusal is the reason why a token is refused. It is an error, so that
// errors.Is(err, svid.Replayed) tests for one reason, and errors.As finds the
// Refusal of any error.
type Refusal uint32

// lists:begin refusals (written by tools/lists from lists/refusals.toml)

// The refusals, in the order in which the validator looks for them. A token
// is answered with the first that holds.
const (
	TooLong           Refusal = C.SVID_TOO_LONG           // The token has more than 65,536 bytes.
	NotThreeParts     Refusal = C.SVID_NOT_THREE_PARTS    // The token has not exactly two periods.
	HeaderSpelling    Refusal = C.SVID_HEADER_SPELLING    // The header is not base64url.
	HeaderNotObject   Refusal = C.SVID_HEADER_NOT_OBJECT  // The header is no JSON object.
	Crit              Refusal = C.SVID_CRIT               // The header has a member `crit`.
	Alg               Refusal = C.SVID_ALG                // `alg` is none of the nine algorithms RS256 to RS512, ES256 to ES512 and PS256 to PS512.
	Typ               Refusal = C.SVID_TYP                // `typ` is there, and is neither "JWT" nor "JOSE".
	Kid               Refusal = C.SVID_KID                // `kid` is there, and is no string.
	PayloadSpelling   Refusal = C.SVID_PAYLOAD_SPELLING   // The payload is not base64url.
	PayloadNotObject  Refusal = C.SVID_PAYLOAD_NOT_OBJECT // The payload is no JSON object.
	SignatureSpelling Refusal = C.SVID_SIGNATURE_SPELLING // The signature is empty, or not base64url.
	Sub               Refusal = C.SVID_SUB                // `sub` is no SPIFFE ID.
	Aud               Refusal = C.SVID_AUD                // `aud` is neither a string nor a list of one or more strings.
	Exp               Refusal = C.SVID_EXP                // `exp` is no whole number from 0 to 2^64-1, written with digits alone.
	Nbf               Refusal = C.SVID_NBF                // `nbf` is there, and is no whole number from 0 to 2^64-1.
	Jti               Refusal = C.SVID_JTI                // `jti` is there, and is no string.
	NotAudience       Refusal = C.SVID_NOT_AUDIENCE       // No value of `aud` is one of the validator's audiences.
	Expired           Refusal = C.SVID_EXPIRED            // The token has expired: `exp` is not greater than the record's moment.
	NotYet            Refusal = C.SVID_NOT_YET            // The token is not valid yet: `nbf` is greater than the record's moment.
	TooLongLived      Refusal = C.SVID_TOO_LONG_LIVED     // The token expires more than `longest` seconds past the record's moment.
	UnknownDomain     Refusal = C.SVID_UNKNOWN_DOMAIN     // The bundles have no trust domain of this name.
	NoKey             Refusal = C.SVID_NO_KEY             // The trust domain has no key that fits `alg` and `kid`.
	BadSignature      Refusal = C.SVID_BAD_SIGNATURE      // No key among the first 3 that fit made the signature.
	Withdrawn         Refusal = C.SVID_WITHDRAWN          // The token was withdrawn.
	Replayed          Refusal = C.SVID_REPLAYED           // The token was accepted before, here or by a validator whose messages were taken.
)

// refusals are all of them, in their order.
var refusals = [...]Refusal{
	TooLong, NotThreeParts, HeaderSpelling, HeaderNotObject, Crit, Alg, Typ, Kid, PayloadSpelling,
	PayloadNotObject, SignatureSpelling, Sub, Aud, Exp, Nbf, Jti, NotAudience, Expired, NotYet,
	TooLongLived, UnknownDomain, NoKey, BadSignature, Withdrawn, Replayed,
}

// lists:end

// Refusals returns all refusals in their order.
func Refusals() []Refusal { return append([]Refusal(nil), refusals[:]...) }

// String returns the refusal's name, as docs/FORMATS.md has it: "Replayed".
func (r Refusal) String() string {
	if r.isOne() {
		return wordsOf(C.uint32_t(r)).name
	}
	return fmt.Sprintf("Refusal(%d)", uint32(r))
}

// Sentence says the refusal in words: "The token was withdrawn." The text may change
// from version to version.
func (r Refusal) Sentence() string {
	if r.isOne() {
		return wordsOf(C.uint32_t(r)).sentence
	}
	return "No refusal has this number."
}

// isOne says whether a refusal has this number.
func (r Refusal) isOne() bool {
	return r >= TooLong && r <= Replayed // (no other status has a number between these)
}

// Error returns "svid: token refused: " and the refusal's name.
func (r Refusal) Error() string { return "svid: token refused: " + r.String() }
