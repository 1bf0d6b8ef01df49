package svid

/*
#include "svid.h"
*/
import "C"

import (
	"errors"
	"fmt"
	"io"
	"strings"
	"sync"
	"unsafe"
)

// NoLimit, as Options.Longest, Options.Ahead or Options.Step, sets no limit.
const NoLimit = ^uint64(0)

// Options say what a validator is for. Audiences, Bundles, Longest and ValidatorID must
// be given: a Longest of 0 refuses every token, and so does no audience.
type Options struct {
	// Audiences are the names by which tokens may call this service.
	Audiences []string
	// Bundles are the trust bundles: a JSON object from trust domain names to
	// JWK sets, as JoinBundles makes it. Give the Keyring the same.
	Bundles []byte
	// Longest is how many seconds past the record's moment a token may expire.
	// It bounds the memory of the record. NoLimit for any.
	Longest uint64
	// Ahead is how many seconds a message's moment may lie past this
	// validator's clock.
	Ahead uint64
	// Step is how many seconds the clock may go ahead between two calls; past
	// that they answer ErrJump, so that a wrong clock doesn't expire the whole
	// record. The first call on a new record is never a jump. 0 sets no limit, as
	// NoLimit does.
	Step uint64
	// ValidatorID names this validator among all that share its record. Two
	// validators of one ID accept a token twice.
	ValidatorID ValidatorID
}

// An Accepted token.
type Accepted struct {
	ID  string // the SPIFFE ID of its subject
	Use Use    // what the record gained by it, or would gain

	bundles uint64 // which of the bundles of its validator it was judged by
}

// A Validator judges tokens, and keeps the record of those that were used or
// withdrawn. All its methods may be called by many goroutines at once: each call
// holds one lock for its whole length, which is microseconds, except where the
// method says otherwise.
type Validator struct {
	mu     sync.Mutex
	handle C.svid_validator
	// What a call writes, kept here so that it needs no new memory. Guarded by mu.
	told C.svid_told
	used C.svid_use
	key  C.svid_key
	size C.svid_size
	id   [C.SVID_ID_ROOM]byte
	// And of values and a log.
	row      row
	fates    []C.svid_fate
	readings []C.svid_reading
	status   C.uint32_t
	// And of a member.
	deed       C.svid_deed
	found      C.svid_found
	known      C.svid_known_claim
	caller     [32]byte
	due        C.svid_deadline
	withdrawal C.svid_withdrawal

	terms   C.svid_terms   // of its whole life
	bundles uint64         // how often there were other bundles or audiences, the first included; guarded by mu
	text    []byte         // of the bundles; guarded by mu
	rows    []byte         // room for their candidates; guarded by mu
	lent    C.svid_bundles // open once Check or Judge was given a question; it has none, but during a call; guarded by mu
	log     Log            // its Ready and Lasts, of the log that the validator reads; guarded by mu
	answers bool           // it has a member; guarded by mu
	allow   []string       // patterns of who may call that; nil allows all; guarded by mu
}

// Open returns a validator with an empty record. To go on with a saved record,
// Take it. Errors: ErrAudience, ErrBundles, a *BundleError, ErrNoMemory.
func Open(o Options) (*Validator, error) {
	own, err := audienceLines(o.Audiences)
	if err != nil {
		return nil, err
	}
	if o.Step == 0 {
		o.Step = NoLimit // (to the library, each second would be a jump)
	}
	terms := C.svid_terms{longest: C.uint64_t(o.Longest), ahead: C.uint64_t(o.Ahead), step: C.uint64_t(o.Step)}
	*(*ValidatorID)(unsafe.Pointer(&terms.validator_id)) = o.ValidatorID
	v := &Validator{bundles: 1, terms: terms}
	if err := v.open(own, o.Bundles); err != nil {
		return nil, err
	}
	v.keep(o.Bundles)
	return v, nil
}

// open opens the handle, with an empty record.
func (v *Validator) open(own, bundles []byte) error {
	status := C.svid_validator_open(&v.handle, &v.terms, start(own), C.size_t(len(own)),
		start(bundles), C.size_t(len(bundles)), &v.told)
	return failure(status, &v.told)
}

// audienceLines writes audiences one a line, as the library wants them.
func audienceLines(audiences []string) ([]byte, error) {
	for _, a := range audiences {
		if a == "" || strings.ContainsAny(a, "\r\n") {
			return nil, fmt.Errorf("%w: %q", ErrAudience, a)
		}
	}
	return []byte(strings.Join(audiences, "\n")), nil
}

// start is the address of the first byte, and nil where there is none.
func start(b []byte) *C.uint8_t { return (*C.uint8_t)(unsafe.Pointer(first(b))) }

// first is the address of the first element, and nil where there is none.
func first[T any](all []T) *T {
	if len(all) == 0 {
		return nil
	}
	return &all[0]
}

// Close frees the record and all else that the library holds. Later calls
// answer ErrClosed. Closing twice is fine.
func (v *Validator) Close() {
	v.mu.Lock()
	defer v.mu.Unlock()
	C.svid_validator_close(&v.handle)
	C.svid_bundles_close(&v.lent)
}

// Check judges the token, and if it accepts it, adds the use to the record, so
// that the token is refused from then on as Replayed. yes are the questions of
// Keyring.Verify. The record advances to now first, and the token is judged at
// the record's moment, which may be later.
//
// The error is a Refusal if the token is refused, and else ErrJump,
// ErrNoMemory or ErrClosed.
func (v *Validator) Check(now uint64, token string, yes []Question) (Accepted, error) {
	return v.answered(now, token, yes, v.CheckToken)
}

// answered lets a call have the token, with the key whose question is among yes.
func (v *Validator) answered(now uint64, token string, yes []Question, call func(uint64, *Token) (Accepted, error)) (Accepted, error) {
	t := NewToken(token)
	defer t.Close()
	if err := v.findBy(&t, yes); err != nil {
		return Accepted{}, err
	}
	return call(now, &t)
}

// Accept verifies the token's signature by the keyring, which has the same bundles,
// and checks the token: all that a service does for a request. A token that the
// keyring refuses is checked all the same, so the Refusal is the first that holds,
// in the order of Refusals. Other errors are those of Keyring.VerifyToken and Check.
// The token is read once, and hashed for no key. If Renew replaces the bundles in
// between, the signature is verified once more.
func (v *Validator) Accept(k *Keyring, now uint64, token string) (Accepted, error) {
	t := NewToken(token)
	defer t.Close()
	for {
		made, err := k.verifyToken(&t)
		var refusal Refusal
		if err != nil && !errors.As(err, &refusal) {
			return Accepted{}, err
		}
		accepted, err := v.CheckToken(now, &t)
		if err != BadSignature || made.by == nil || k.has(made.keys) {
			return accepted, err
		}
	}
}

// Judge answers what Check would answer, and adds nothing to the record: a later
// Check may still accept the token.
func (v *Validator) Judge(now uint64, token string, yes []Question) (Accepted, error) {
	return v.answered(now, token, yes, v.JudgeToken)
}

// accepted reads what a check or a judgment left. The caller holds the lock.
func (v *Validator) accepted(status C.uint32_t, t *Token) (Accepted, error) {
	if err := failure(status, &v.told); err != nil {
		return Accepted{}, err
	}
	if id := v.id[:v.told.len]; string(id) != t.id { // (The token may have been judged before: its ID asks for memory once.)
		t.id = string(id)
	}
	return Accepted{ID: t.id, Use: useOf(&v.used, false), bundles: v.bundles}, nil
}

// Withdraw withdraws the token of this key, which expires at exp, and returns the
// use that the record gained. The token is refused as Withdrawn from now on,
// also by validators that take the use. Errors: ErrGone, ErrJump, ErrNoMemory.
func (v *Validator) Withdraw(now uint64, key TokenKey, exp uint64) (Use, error) {
	v.mu.Lock()
	defer v.mu.Unlock()
	status := C.svid_validator_withdraw(&v.handle, C.uint64_t(now), (*C.svid_key)(unsafe.Pointer(&key)),
		C.uint64_t(exp), &v.used, &v.told)
	if err := failure(status, &v.told); err != nil {
		return Use{}, err
	}
	return useOf(&v.used, true), nil
}

// Tick advances the record to now, and drops what has expired by then.
// Errors: ErrJump.
func (v *Validator) Tick(now uint64) error {
	v.mu.Lock()
	defer v.mu.Unlock()
	status := C.svid_validator_tick(&v.handle, C.uint64_t(now), &v.told)
	return failure(status, &v.told)
}

// Take adds what messages tell: those of other validators, or a saved record.
// Taking a message twice, or in another order, makes no difference. The lock is
// held for about two microseconds for each use.
//
// ErrTooFar: the messages tell of a time more than Options.Ahead seconds past
// now, and nothing was added. ErrTooMuch or a *MessageError: these are no
// messages, and nothing happened. ErrNoMemory: a part may be added, and the same
// messages can be taken again. ErrJump.
func (v *Validator) Take(now uint64, messages []byte) error {
	v.mu.Lock()
	defer v.mu.Unlock()
	return v.take(now, messages)
}

func (v *Validator) take(now uint64, messages []byte) error {
	status := C.svid_validator_take(&v.handle, C.uint64_t(now), start(messages), C.size_t(len(messages)), &v.told)
	return failure(status, &v.told)
}

// A Size says how large a record is.
type Size struct {
	Moment uint64 // the time that the record has seen
	Uses   uint64 // how many uses it has, withdrawals among them
}

// Size returns the record's moment and how many uses it has. It looks at none of them.
func (v *Validator) Size() (Size, error) {
	v.mu.Lock()
	defer v.mu.Unlock()
	status := C.svid_validator_size(&v.handle, &v.size, &v.told)
	if err := failure(status, &v.told); err != nil {
		return Size{}, err
	}
	return Size{Moment: uint64(v.size.moment), Uses: uint64(v.size.uses)}, nil
}

// savePiece is for how many bytes of messages Save has room at a time: the lock
// is held for as long as writing them takes.
const savePiece = 256 << 10

// Save writes the whole record as messages, piece by piece. Other calls may be
// made in between: the pieces together hold each use that the record had when
// Save began and that is live when it ends.
func (v *Validator) Save(w io.Writer) error {
	piece := make([]byte, savePiece)
	for part := (C.svid_part{}); part.done == 0; {
		n, err := v.part(&part, piece)
		if err != nil {
			return err
		}
		if _, err := w.Write(piece[:n]); err != nil {
			return fmt.Errorf("svid: writing the record: %w", err)
		}
	}
	return nil
}

func (v *Validator) part(part *C.svid_part, out []byte) (int, error) {
	v.mu.Lock()
	defer v.mu.Unlock()
	status := C.svid_validator_parts(&v.handle, part, start(out), C.size_t(len(out)), &v.told)
	if err := failure(status, &v.told); err != nil {
		return 0, err
	}
	return int(v.told.len), nil
}

// Summary returns a message of 8,205 bytes, by which another validator's Answer
// finds what is missing here. The lock is held while the whole record is digested:
// most of a second for a million uses, where WalkSummary is the better choice.
func (v *Validator) Summary() ([]byte, error) {
	v.mu.Lock()
	defer v.mu.Unlock()
	out := make([]byte, C.SVID_SUMMARY_LEN)
	status := C.svid_validator_summary(&v.handle, start(out), C.size_t(len(out)), &v.told)
	if err := failure(status, &v.told); err != nil {
		return nil, err
	}
	return out, nil
}

// Answer returns messages with the uses that the validator which wrote the
// summary may lack. The record advances to now, and to the summary's moment.
// The lock is held for up to three times as long as for Summary: see WalkAnswer.
// Errors: ErrNotSummary, ErrTooFar, ErrTooMuch, a *MessageError, ErrJump, ErrNoMemory.
func (v *Validator) Answer(now uint64, summary []byte) ([]byte, error) {
	v.mu.Lock()
	defer v.mu.Unlock()
	out := make([]byte, 4096)
	for {
		status := C.svid_validator_answer(&v.handle, C.uint64_t(now), start(summary), C.size_t(len(summary)),
			start(out), C.size_t(len(out)), &v.told)
		if status == C.SVID_TOO_SHORT {
			out = make([]byte, v.told.len)
			continue
		}
		if err := failure(status, &v.told); err != nil {
			return nil, err
		}
		return out[:v.told.len], nil
	}
}
