package svid

/*
#include "svid.h"

typedef struct { uint8_t bytes[32]; } claim_owner;
typedef struct { uint8_t bytes[16]; } claim_id;

// (by value, so that Go allocates nothing)
static claim_owner owner_of_life(claim_id validator_id, claim_id life, uint64_t exp) {
    claim_owner owner;
    svid_claim_owner(validator_id.bytes, life.bytes, exp, owner.bytes);
    return owner;
}

static claim_owner owner_of_caller(claim_owner caller, uint64_t exp) {
    claim_owner owner;
    svid_claim_owner_of_caller(caller.bytes, exp, owner.bytes);
    return owner;
}

static claim_id validator_of(claim_owner owner) {
    claim_id id;
    svid_claim_validator(owner.bytes, id.bytes);
    return id;
}

static uint32_t outcome(claim_owner owner, uint64_t exp, claim_owner found, uint64_t time, uint64_t deaf, uint64_t lasts, uint64_t moment) {
    return svid_claim_outcome(owner.bytes, exp, found.bytes, time, deaf, lasts, moment);
}
*/
import "C"

import (
	"encoding/hex"
	"fmt"
	"unsafe"
)

// An Owner says whose claim the entry of a token key is. The owner of a withdrawal is 0.
type Owner [32]byte

// OwnerOfLife returns the owner that a life of a validator claims a token for. exp is when the token expires, in seconds. life is 16
// random bytes: take new ones at each start, or the validator would accept tokens again after a restart.
func OwnerOfLife(id ValidatorID, life [16]byte, exp uint64) Owner {
	return ownerBy(C.owner_of_life(idOf(id), idOf(life), C.uint64_t(exp)))
}

// OwnerOfCaller returns the owner that every validator claims a token for which this caller presents. exp is when the token expires,
// in seconds. caller tells the caller from all others, as a digest of its certificate.
func OwnerOfCaller(caller [32]byte, exp uint64) Owner {
	return ownerBy(C.owner_of_caller(ownerOf(caller), C.uint64_t(exp)))
}

// ValidatorID returns the validator ID that an owner of OwnerOfLife begins with.
func (o Owner) ValidatorID() ValidatorID {
	id := C.validator_of(ownerOf(o))
	return *(*ValidatorID)(unsafe.Pointer(&id))
}

// String returns the owner as 64 hexadecimal digits.
func (o Owner) String() string { return hex.EncodeToString(o[:]) }

// StaysUntil returns until when a store keeps the entry of a token that expires at exp, by its own clock, in seconds. margin is at
// least the ahead of ClaimMoment plus how many seconds the store's clock may ever step back.
func StaysUntil(exp, margin uint64) uint64 {
	return uint64(C.svid_claim_until(C.uint64_t(exp), C.uint64_t(margin)))
}

// DeafAfter returns the Found.Deaf of a store after it may have lost entries. time is no less than the time of any answer before the
// loss: the store's time at the end, plus how many seconds its clock may ever step back. lasts is that of Claim.Outcome, or more.
// before is the Found.Deaf until then.
func DeafAfter(time, lasts, before uint64) uint64 {
	return uint64(C.svid_claim_deaf(C.uint64_t(time), C.uint64_t(lasts), C.uint64_t(before)))
}

// ClaimMoment returns the moment at which to judge an answer with this time: now, or time less ahead if that is later. now is the
// later of the clock and of the record's moment. Do not advance the record to the result: a store whose clock is wrong would expire
// all its uses.
func ClaimMoment(now, time, ahead uint64) uint64 {
	return uint64(C.svid_claim_moment(C.uint64_t(now), C.uint64_t(time), C.uint64_t(ahead)))
}

// A Claim is what was put under the key of a token.
type Claim struct {
	Owner   Owner
	Expires uint64 // of the token, in seconds
}

// Found is what a store answers to a put.
type Found struct {
	Owner Owner  // what the key has after the put: the owner that was put, or that of an earlier put
	Time  uint64 // the store's, in seconds, read at the put or after it
	Deaf  uint64 // tokens that expire by then may have been claimed before the store lost entries: DeafAfter, or 0 if it never lost one
}

// A ClaimOutcome is what becomes of a Claim. If several hold, the first is returned.
type ClaimOutcome byte

// The outcomes. No outcome is 0.
const (
	// ClaimWithdrawn: the token was withdrawn.
	ClaimWithdrawn ClaimOutcome = iota + 1
	// ClaimTaken: the entry is another's, so the token was used.
	ClaimTaken
	// ClaimFar: the token expires too long after the store's time.
	ClaimFar
	// ClaimDeaf: the token may have been claimed before the store lost entries.
	ClaimDeaf
	// ClaimExpired: the token has expired.
	ClaimExpired
	// ClaimMine: the entry is this claim's, and nothing stands against the token. A validator that accepts a token once still looks
	// whether its record has a use of it.
	ClaimMine
)

// Outcome returns what becomes of the claim by the answer to any put of its key. lasts is how many seconds past the store's time a
// token may expire, and moment is that of ClaimMoment.
func (c Claim) Outcome(found Found, lasts, moment uint64) ClaimOutcome {
	status := C.outcome(ownerOf(c.Owner), C.uint64_t(c.Expires), ownerOf(found.Owner), C.uint64_t(found.Time), C.uint64_t(found.Deaf),
		C.uint64_t(lasts), C.uint64_t(moment))
	switch status {
	case C.SVID_OK:
		return ClaimMine
	case C.SVID_CLAIM_WITHDRAWN:
		return ClaimWithdrawn
	case C.SVID_CLAIM_TAKEN:
		return ClaimTaken
	case C.SVID_CLAIM_FAR:
		return ClaimFar
	case C.SVID_CLAIM_DEAF:
		return ClaimDeaf
	case C.SVID_CLAIM_EXPIRED:
		return ClaimExpired
	}
	return 0
}

var outcomeNames = [...]string{"none", "Withdrawn", "Taken", "Far", "Deaf", "Expired", "Mine"}

// String is the outcome's name, as "Mine".
func (o ClaimOutcome) String() string {
	if int(o) < len(outcomeNames) {
		return outcomeNames[o]
	}
	return fmt.Sprintf("ClaimOutcome(%d)", byte(o))
}

func ownerOf(bytes [32]byte) C.claim_owner { return *(*C.claim_owner)(unsafe.Pointer(&bytes)) }

func ownerBy(owner C.claim_owner) Owner { return *(*Owner)(unsafe.Pointer(&owner)) }

func idOf(bytes [16]byte) C.claim_id { return *(*C.claim_id)(unsafe.Pointer(&bytes)) }
