package svid

// #include "svid.h"
import "C"

import (
	"crypto/rand"
	"encoding/hex"
	"fmt"
	"time"
	"unsafe"
)

// MaxMessages is the greatest number of bytes that one call takes as messages.
const MaxMessages = 67108864

// MaxToken is the greatest length of a token in bytes. A longer one is refused
// as TooLong.
const MaxToken = 65536

// usualBatch is room for a batch of one use: others take less for each.
const usualBatch = C.SVID_BATCH_OF_LEN

// Now returns the time of the system's clock in whole seconds since 1970.
func Now() uint64 { return uint64(time.Now().Unix()) }

// A ValidatorID is 16 bytes that name one validator among all that share a record.
type ValidatorID [16]byte

// NewValidatorID returns a random validator ID.
func NewValidatorID() (ValidatorID, error) {
	var id ValidatorID
	if _, err := rand.Read(id[:]); err != nil {
		return ValidatorID{}, fmt.Errorf("svid: no random bytes for a validator ID: %w", err)
	}
	return id, nil
}

// String returns the validator ID as 32 hexadecimal digits.
func (id ValidatorID) String() string { return hex.EncodeToString(id[:]) }

// A TokenKey names a token in the record: all uses of one token have the same
// key. It is a digest, and says nothing of the token itself.
type TokenKey [32]byte

// String returns the key as 64 hexadecimal digits.
func (k TokenKey) String() string { return hex.EncodeToString(k[:]) }

// ParseTokenKey reads a key of 64 hexadecimal digits of either case.
func ParseTokenKey(text string) (TokenKey, error) {
	var k TokenKey
	if len(text) != 2*len(k) {
		return TokenKey{}, fmt.Errorf("svid: a token's key has 64 hexadecimal digits, and this text has %d bytes", len(text))
	}
	if _, err := hex.Decode(k[:], []byte(text)); err != nil {
		return TokenKey{}, fmt.Errorf("svid: a token's key has 64 hexadecimal digits: %w", err)
	}
	return k, nil
}

// A Use is one entry of a record: a token was accepted, or withdrawn.
type Use struct {
	Key         TokenKey
	Expires     uint64      // when the token expires
	At          uint64      // the record's moment when it was accepted or withdrawn
	ValidatorID ValidatorID // of the validator that accepted or withdrawn it
	Withdrawn   bool        // withdrawn, not accepted
}

// Batch returns the use as a message: a batch of one use, 82 bytes. Its errors are those of Batches.
func (u Use) Batch() ([]byte, error) { return Batches([]Use{u}) }

// Batches returns uses as messages: a batch for each time at which uses were accepted or withdrawn, as Uses reads them.
// That is 65 bytes a use, and 17 a batch. A use that is given twice stands in it once. The uses themselves stay.
//
// The error is ErrNoMemory, or a *MessageError for a use that expires when it was made, or before: no message can tell it.
func Batches(uses []Use) ([]byte, error) {
	entries := make([]C.svid_entry, len(uses))
	for i := range uses {
		u, e := &uses[i], &entries[i]
		e.exp, e.at = C.uint64_t(u.Expires), C.uint64_t(u.At)
		*(*TokenKey)(unsafe.Pointer(&e.key)), *(*ValidatorID)(unsafe.Pointer(&e.validator_id)) = u.Key, u.ValidatorID
		if u.Withdrawn {
			e.withdrawn = 1
		}
	}
	var told C.svid_told
	for out := make([]byte, usualBatch*len(uses)); ; out = make([]byte, told.len) {
		status := C.svid_entries_write(first(entries), C.size_t(len(entries)), start(out), C.size_t(len(out)), &told)
		if status == C.SVID_TOO_SHORT {
			continue
		}
		if err := failure(status, &told); err != nil {
			return nil, err
		}
		return out[:told.len], nil
	}
}

// Pieces returns what messages tell as messages of at most most bytes each: the same uses, and the same moment. It is for
// whoever carries messages that may not be longer. What has expired by that moment is left out. No messages have no pieces.
//
// ErrNoRoom: most is less than one use takes. Other errors: *MessageError, ErrTooMuch, ErrNoMemory.
func Pieces(messages []byte, most int) ([][]byte, error) {
	if len(messages) == 0 {
		return nil, nil
	}
	if most < C.SVID_BATCH_OF_LEN {
		return nil, fmt.Errorf("%w: %d bytes", ErrNoRoom, most)
	}
	v := &Validator{terms: C.svid_terms{ahead: C.UINT64_MAX, step: C.UINT64_MAX}}
	if err := v.open(nil, []byte("{}")); err != nil {
		return nil, err
	}
	defer v.Close()
	if err := v.Take(0, messages); err != nil {
		return nil, err
	}
	var pieces [][]byte
	room := make([]byte, most)
	for part := (C.svid_part{}); part.done == 0; {
		n, err := v.part(&part, room)
		if err != nil {
			return nil, err
		}
		pieces = append(pieces, append([]byte(nil), room[:n]...))
	}
	return pieces, nil
}

// Uses reads messages: all uses of their batches, in their order. The error is a *MessageError, ErrTooMuch or ErrNoMemory.
func Uses(messages []byte) ([]Use, error) {
	var told C.svid_told
	for entries := make([]C.svid_entry, len(messages)/(usualBatch*3/4)+1); ; entries = make([]C.svid_entry, told.len) {
		status := C.svid_entries_read(start(messages), C.size_t(len(messages)), first(entries), C.size_t(len(entries)), &told)
		if status == C.SVID_TOO_SHORT {
			continue
		}
		if err := failure(status, &told); err != nil {
			return nil, err
		}
		uses := make([]Use, told.len)
		for i := range uses {
			e := &entries[i]
			uses[i] = Use{Key: *(*TokenKey)(unsafe.Pointer(&e.key)), Expires: uint64(e.exp), At: uint64(e.at),
				ValidatorID: *(*ValidatorID)(unsafe.Pointer(&e.validator_id)), Withdrawn: e.withdrawn != 0}
		}
		return uses, nil
	}
}

// Report returns what messages tell, for people to read, as `svid report` prints it. The error is a *MessageError, ErrTooMuch or
// ErrNoMemory.
func Report(messages []byte) (string, error) {
	var told C.svid_told
	for out := make([]byte, 4*len(messages)+64); ; out = make([]byte, told.len) {
		status := C.svid_report(start(messages), C.size_t(len(messages)), 0, start(out), C.size_t(len(out)), &told)
		if status == C.SVID_TOO_SHORT {
			continue
		}
		if err := failure(status, &told); err != nil {
			return "", err
		}
		return string(out[:told.len]), nil
	}
}
