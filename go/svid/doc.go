// Package svid accepts and refuses SPIFFE JWT-SVIDs, and keeps the record of
// the tokens that were used or withdrawn.
//
// It is a binding of the C library libsvid, whose decisions are proved. A
// service holds two things:
//
//   - A [Keyring] has the trust bundles. It finds the keys that may have signed
//     a token, and verifies the signature.
//   - A [Validator] has the record. It judges a token whose signature is
//     verified, and remembers that it was used.
//
// One call does both, for each request:
//
//	accepted, err := validator.Accept(keyring, svid.Now(), token)
//
// It verifies signatures in parallel (Keyring.VerifyToken), and then holds the
// validator's lock for the verdict (Validator.CheckToken).
//
// A group that must accept each token once shares a log: values in one order,
// which all of its validators read. There a token is judged (Validator.Judge), its
// use goes into the log, and Validator.Read says whether the token is accepted.
//
// A service that answers many requests at once, keeps what it accepts on a disk, or
// claims tokens in a group's store, opens a member (Validator.OpenMember). It says for
// each request what is to be done before the answer, and what the answer is: a [Deed].
//
// An error that is a [Refusal] says why the token is refused, and
// errors.Is(err, svid.Replayed) tests for one reason. Any other error means
// that the token could not be judged: it was not accepted, and the caller may
// try again.
//
// Words: a use is the fact that a token was accepted once, or withdrawn. A record
// is a set of uses that have not expired, and a moment, the latest time that it
// has seen. A message carries a record or a part of it to other validators. All
// times are whole seconds since 1970.
//
// Building needs Linux on x86-64 or aarch64, cgo (CGO_ENABLED=1 and a C compiler), and
// OpenSSL 3 with its headers (Debian: libssl-dev to build, libssl3 to run). The module
// has the C library for both. OpenSSL's libcrypto verifies the signatures. With
// `-tags gocrypto` Go's standard library does, and nothing of OpenSSL is needed. That
// takes a service longer: three times for RSA, and seven times for P-521.
package svid

// #include "svid.h"
import "C"

// Version returns the version of the C library: 10,000 times the major number,
// 100 times the minor number, and the patch.
func Version() uint32 { return uint32(C.svid_version()) }
