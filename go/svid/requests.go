package svid

/*
#include "svid.h"

// The handles come as the addresses of their first words, as in token.go.
static uint32_t judge_request(uint64_t *v, uint64_t now, uint64_t up, uint64_t number, _GoString_ key, _GoString_ input, const uint8_t *signature,
                              size_t signature_len, uint64_t *t, uint8_t *out, size_t out_len, svid_use *used, svid_deed *deed, svid_told *told) {
    return svid_member_judge((svid_validator *)v, now, up, number, (const uint8_t *)_GoStringPtr(key), _GoStringLen(key),
                             (const uint8_t *)_GoStringPtr(input), _GoStringLen(input), signature, signature_len,
                             (svid_token *)t, out, out_len, used, deed, told);
}
static uint32_t found_request(uint64_t *v, uint64_t now, uint64_t up, uint64_t number, const uint8_t *caller, const svid_found *found, _GoString_ key,
                              _GoString_ input, const uint8_t *signature, size_t signature_len, uint64_t *t, uint8_t *out, size_t out_len,
                              svid_use *used, svid_deed *deed, svid_told *told) {
    return svid_member_found((svid_validator *)v, now, up, number, caller, found, (const uint8_t *)_GoStringPtr(key), _GoStringLen(key),
                             (const uint8_t *)_GoStringPtr(input), _GoStringLen(input), signature, signature_len,
                             (svid_token *)t, out, out_len, used, deed, told);
}
static uint32_t ask_request(uint64_t *v, uint64_t now, uint64_t up, const uint8_t *caller, const svid_known_claim *known, _GoString_ key, _GoString_ input,
                            const uint8_t *signature, size_t signature_len, uint64_t *t, uint8_t *out, size_t out_len, svid_use *used, svid_deed *deed,
                            svid_told *told) {
    return svid_member_ask((svid_validator *)v, now, up, caller, known, (const uint8_t *)_GoStringPtr(key), _GoStringLen(key),
                           (const uint8_t *)_GoStringPtr(input), _GoStringLen(input), signature, signature_len,
                           (svid_token *)t, out, out_len, used, deed, told);
}
*/
import "C"

import (
	"errors"
	"strings"
	"time"
	"unsafe"
)

// Errors of calls on a member.
var (
	// ErrNoMember: the validator has no member.
	ErrNoMember = ofCall(C.SVID_NO_MEMBER)
	// ErrIsOpen: the validator has a member already.
	ErrIsOpen = ofCall(C.SVID_IS_OPEN)
	// ErrNoMode: MemberTerms.Mode is none of the modes.
	ErrNoMode = ofCall(C.SVID_NO_MODE)
	// ErrUnasked: the request does not wait for that, or its time is over. Nothing happened.
	ErrUnasked = ofCall(C.SVID_UNASKED)
)

// Why a member answers a request, beside a Refusal and ErrNoMemory: Deed.Err.
var (
	// ErrNotAllowed: the token is good, and SetRules does not let its subject call. The record gained nothing.
	ErrNotAllowed = errors.New("svid: the subject of the token may not call")
	// ErrClaimFar: the token expires too long after the store's time.
	ErrClaimFar = ofCall(C.SVID_CLAIM_FAR)
	// ErrClaimDeaf: the store has lost entries, and a claim of the token may be among them.
	ErrClaimDeaf = ofCall(C.SVID_CLAIM_DEAF)
	// ErrLate: the time of the request was over before it had an answer.
	ErrLate = ofCall(C.SVID_LATE)
	// ErrNotKept: the state folder did not take the acceptance.
	ErrNotKept = ofCall(C.SVID_NOT_KEPT)
	// ErrLeft: nobody waits for the answer any more.
	ErrLeft = ofCall(C.SVID_LEFT)
)

var answerErrors = map[C.uint64_t]error{
	C.SVID_NO_MEMORY:   ErrNoMemory,
	C.SVID_NOT_ALLOWED: ErrNotAllowed,
	C.SVID_CLAIM_FAR:   ErrClaimFar,
	C.SVID_CLAIM_DEAF:  ErrClaimDeaf,
	C.SVID_LATE:        ErrLate,
	C.SVID_NOT_KEPT:    ErrNotKept,
	C.SVID_LEFT:        ErrLeft,
}

// A MemberMode is how a member accepts tokens.
type MemberMode uint64

// The modes.
const (
	MemberOnce   MemberMode = C.SVID_ONCE   // once at this member; its use is on the disk before that, if there is a state folder
	MemberStrict MemberMode = C.SVID_STRICT // once in the whole group, by a claim in its store
	MemberBound  MemberMode = C.SVID_BOUND  // from one caller alone, by a claim in the group's store
	MemberReuse  MemberMode = C.SVID_REUSE  // again and again
)

// MemberTerms are what a member is given for its life. Moments by the clock of `up` are durations since some moment that stays the same, by a
// clock that only goes ahead.
type MemberTerms struct {
	Mode  MemberMode
	Disk  bool          // there is a state folder
	Store bool          // there is a group's store
	Log   bool          // there is a log that tells withdrawals to the group
	Wait  time.Duration // within this each request and each withdrawal is answered, by the clock of `up`
	Ahead uint64        // seconds that the store's time may be ahead of the own clock
	Lasts uint64        // seconds past the store's time that a token may expire
	Life  Life          // another one for each start
}

// Known is what a member knows: before all that may say of a token that it was used was read, the member judges none.
type Known struct {
	Bundled  bool // there is a trust bundle
	Loaded   bool // the state folder is read, or there is none
	Opened   bool // the store was reached, or there is none
	Heard    bool // the store's withdrawals were read to the end once, or there is none
	Joined   bool // the group's broker was reached, or there is none
	CaughtUp bool // what the group had is read, or there is none
	Draining bool // the member is to end soon
	Jumped   bool // the clock went ahead too far at once
	Full     bool // the state folder has no room for another acceptance
	Away     bool // the store has not answered for longer than a request waits
	Deaf     bool // the store has lost entries, so no token is accepted that lives as long as it may
	Ended    bool // the member has ended
}

// A DeedKind is what is to be done for a request.
type DeedKind uint64

// The kinds.
const (
	DeedNothing DeedKind = C.SVID_DEED_NOTHING // another call will say what is to be done
	DeedJudge   DeedKind = C.SVID_DEED_JUDGE   // find the key that made the signature of its token, and JudgeRequest
	DeedAppend  DeedKind = C.SVID_DEED_APPEND  // bring Used to the state folder, and Wrote
	DeedClaim   DeedKind = C.SVID_DEED_CLAIM   // put a claim of Used into the store: Send right before that, and Found behind it
	DeedAnswer  DeedKind = C.SVID_DEED_ANSWER  // answer the request, and then JudgeRequest of Next
)

// NoRequest is the number of no request.
const NoRequest = ^uint64(0)

// A Deed is what a member wants to be done for a request.
type Deed struct {
	Kind   DeedKind
	Number uint64 // of the request
	Err    error  // of an answer: nil if the token is accepted; else a Refusal, ErrNotAllowed to ErrLeft, or ErrNoMemory
	Next   uint64 // of an answer: a request that waited for it, whose token is to be judged again; NoRequest for none
	Used   Use    // of DeedAppend, DeedClaim, and an answer without Err
}

// OpenMember lets the validator answer requests: it has a member, without requests, which judges no token before Know. All may call. The record
// stays. Takes no memory of the library.
//
// Errors: ErrHasLog, ErrIsOpen, ErrNoMode, ErrClosed. Then nothing happened.
func (v *Validator) OpenMember(terms MemberTerms) error {
	t := C.svid_member_terms{mode: C.uint64_t(terms.Mode), disk: oneIf(terms.Disk), store: oneIf(terms.Store), log: oneIf(terms.Log),
		wait: C.uint64_t(terms.Wait), ahead: C.uint64_t(terms.Ahead), lasts: C.uint64_t(terms.Lasts)}
	*(*Life)(unsafe.Pointer(&t.life)) = terms.Life
	v.mu.Lock()
	defer v.mu.Unlock()
	status := C.svid_member_open(&v.handle, &t)
	v.answers = v.answers || status == C.SVID_OK
	return failure(status, nil)
}

// Know tells the member all that it is to know from now on. Whether the state folder took the last acceptance it knows by itself (Wrote). Requests
// that are open stay as they are. Errors: ErrNoMember, ErrClosed.
func (v *Validator) Know(known Known) error {
	k := C.svid_known{bundled: oneIf(known.Bundled), loaded: oneIf(known.Loaded), opened: oneIf(known.Opened), heard: oneIf(known.Heard),
		joined: oneIf(known.Joined), caught_up: oneIf(known.CaughtUp), draining: oneIf(known.Draining), jumped: oneIf(known.Jumped),
		full: oneIf(known.Full), away: oneIf(known.Away), deaf: oneIf(known.Deaf), ended: oneIf(known.Ended)}
	v.mu.Lock()
	defer v.mu.Unlock()
	return failure(C.svid_member_know(&v.handle, &k), nil)
}

// oneIf is 1 for true and 0 for false.
func oneIf(is bool) C.uint64_t {
	if is {
		return 1
	}
	return 0
}

// Judges returns nil if the member judges tokens, and else the first Unready that says why not. Errors: ErrNoMember, ErrClosed.
func (v *Validator) Judges() error {
	v.mu.Lock()
	defer v.mu.Unlock()
	return failure(C.svid_member_judges(&v.handle), nil)
}

// Ready returns nil if tokens are to be sent to the member, and else the first Unready that says why not. Errors: ErrNoMember, ErrClosed.
func (v *Validator) Ready() error {
	v.mu.Lock()
	defer v.mu.Unlock()
	return failure(C.svid_member_ready(&v.handle), nil)
}

// Come lets a request come: the DeedJudge has its number, by which the other calls name it. DeedNothing where no number is left.
//
// Errors: an Unready where no token is judged; ErrNoMemory, ErrNoMember, ErrClosed. Then nothing came.
func (v *Validator) Come(up time.Duration) (Deed, error) {
	v.mu.Lock()
	defer v.mu.Unlock()
	v.deed.what = C.SVID_DEED_NOTHING
	status := C.svid_member_come(&v.handle, C.uint64_t(up), &v.deed)
	return v.done(), failure(status, nil)
}

// JudgeRequest judges the token of a request by the key that Keyring.VerifyToken has found. The record advances to now, and in MemberOnce it
// gains the use of an accepted token. The Deed says what is to be done before the answer; where the request waits for another one's claim, that
// is nothing, and there is no error.
//
// The error is a Refusal, ErrNotAllowed or ErrNoMemory where the token is refused, and the Deed answers the request. With DeedNothing nothing
// happened: a Refusal, TooLong to Jti, or ErrNoMemory of a token that can't be read; ErrUnasked, ErrJump, ErrHasLog, ErrNoMember, ErrClosed.
func (v *Validator) JudgeRequest(now uint64, up time.Duration, number uint64, t *Token) (Accepted, Deed, error) {
	if err := t.prepare(); err != nil {
		return Accepted{}, Deed{}, err
	}
	v.mu.Lock()
	defer v.mu.Unlock()
	v.deed.what = C.SVID_DEED_NOTHING
	f := &t.found
	status := C.judge_request(&v.handle.word, C.uint64_t(now), C.uint64_t(up), C.uint64_t(number), f.key(), f.text, start(f.signature),
		C.size_t(len(f.signature)), &t.handle.word, start(v.id[:]), C.size_t(len(v.id)), &v.used, &v.deed, &v.told)
	if status == C.SVID_NOT_ALLOWED {
		return Accepted{}, v.done(), ErrNotAllowed
	}
	accepted, err := v.accepted(status, t)
	return accepted, v.done(), err
}

// Found tells what the store answered to the claim of a request, or to any put of the same claim. caller tells who presents the token, and counts
// in MemberBound alone. If the claim counts, the token is judged once more, and in MemberStrict the record gains its use. If the store says that the
// token was withdrawn, so does the record from now on, unless memory is refused.
//
// The error is that of the Deed, which answers the request. With DeedNothing nothing happened, as for JudgeRequest.
func (v *Validator) Found(now uint64, up time.Duration, number uint64, caller [32]byte, found Found, t *Token) (Accepted, Deed, error) {
	if err := t.prepare(); err != nil {
		return Accepted{}, Deed{}, err
	}
	v.mu.Lock()
	defer v.mu.Unlock()
	v.deed.what = C.SVID_DEED_NOTHING
	v.caller = caller
	v.found.time, v.found.deaf = C.uint64_t(found.Time), C.uint64_t(found.Deaf)
	*(*Owner)(unsafe.Pointer(&v.found.owner)) = found.Owner
	f := &t.found
	status := C.found_request(&v.handle.word, C.uint64_t(now), C.uint64_t(up), C.uint64_t(number), start(v.caller[:]), &v.found, f.key(), f.text,
		start(f.signature), C.size_t(len(f.signature)), &t.handle.word, start(v.id[:]), C.size_t(len(v.id)), &v.used, &v.deed, &v.told)
	deed := v.done()
	if deed.Kind == DeedAnswer && deed.Err != nil {
		return Accepted{}, deed, deed.Err
	}
	accepted, err := v.accepted(status, t)
	return accepted, deed, err
}

// A KnownClaim is what a store answered before to a put of a claim.
type KnownClaim struct {
	Key     TokenKey
	Expires uint64 // when the token expires; no claim has 0
	Found   Found
}

// Ask lets a request come whose key Keyring.VerifyToken has found before, and judges its token: Come and JudgeRequest at one moment. If a claim is to be
// put and known (zeros for none) is of that claim, the request hears that answer at once, as by Found. The Deed has the number of the request also if
// there is nothing to do.
//
// The error is that of JudgeRequest or Found. With NoRequest as the number no request came: an error of Come or of Token.Read; ErrUnasked where no number
// is left.
func (v *Validator) Ask(now uint64, up time.Duration, caller *[32]byte, known *KnownClaim, t *Token) (Accepted, Deed, error) {
	if err := t.prepare(); err != nil {
		return Accepted{}, Deed{Number: NoRequest}, err
	}
	v.mu.Lock()
	defer v.mu.Unlock()
	v.deed.what, v.deed.number = C.SVID_DEED_NOTHING, C.uint64_t(NoRequest)
	v.known.exp, v.known.found.time, v.known.found.deaf = C.uint64_t(known.Expires), C.uint64_t(known.Found.Time), C.uint64_t(known.Found.Deaf)
	*(*TokenKey)(unsafe.Pointer(&v.known.key)) = known.Key
	*(*Owner)(unsafe.Pointer(&v.known.found.owner)) = known.Found.Owner
	f := &t.found
	status := C.ask_request(&v.handle.word, C.uint64_t(now), C.uint64_t(up), start(caller[:]), &v.known, f.key(), f.text, start(f.signature),
		C.size_t(len(f.signature)), &t.handle.word, start(v.id[:]), C.size_t(len(v.id)), &v.used, &v.deed, &v.told)
	deed := v.done()
	if deed.Number = uint64(v.deed.number); deed.Kind == DeedAnswer && deed.Err != nil {
		return Accepted{}, deed, deed.Err
	}
	accepted, err := v.accepted(status, t)
	return accepted, deed, err
}

// prepare reads the token, and what the key of VerifiedBy signed, where that was not done. The error is a Refusal, TooLong to Jti, or ErrNoMemory.
func (t *Token) prepare() error {
	if !t.isRead {
		if err := t.Read(); err != nil {
			return err
		}
	}
	return t.complete()
}

// Wrote tells that the use of a request is on the disk, or could not be brought there. In MemberOnce a member is not ready while the last one could
// not: tell it once more when the disk has taken that use after all. Errors: ErrNoMember, ErrClosed.
func (v *Validator) Wrote(up time.Duration, number uint64, ok bool) (Deed, error) {
	v.mu.Lock()
	defer v.mu.Unlock()
	v.deed.what = C.SVID_DEED_NOTHING
	status := C.svid_member_wrote(&v.handle, C.uint64_t(up), C.uint64_t(number), oneIf(ok), &v.deed)
	return v.done(), failure(status, nil)
}

// Send asks whether the claim of a request is still to be put, right before it goes out: DeedClaim says so. Errors: ErrNoMember, ErrClosed.
func (v *Validator) Send(up time.Duration, number uint64) (Deed, error) {
	v.mu.Lock()
	defer v.mu.Unlock()
	v.deed.what = C.SVID_DEED_NOTHING
	status := C.svid_member_send(&v.handle, C.uint64_t(up), C.uint64_t(number), &v.deed)
	return v.done(), failure(status, nil)
}

// Leave tells that nobody waits any more for the answer to a request: the Deed answers it by ErrLeft, unless its use is on its way to the disk.
// Errors: ErrNoMember, ErrClosed.
func (v *Validator) Leave(up time.Duration, number uint64) (Deed, error) {
	v.mu.Lock()
	defer v.mu.Unlock()
	v.deed.what = C.SVID_DEED_NOTHING
	status := C.svid_member_leave(&v.handle, C.uint64_t(up), C.uint64_t(number), &v.deed)
	return v.done(), failure(status, nil)
}

// Overdue answers the request that came first, by ErrLate, if its time is over. Call it until there is nothing to do. Errors: ErrNoMember,
// ErrClosed.
func (v *Validator) Overdue(up time.Duration) (Deed, error) {
	v.mu.Lock()
	defer v.mu.Unlock()
	v.deed.what = C.SVID_DEED_NOTHING
	status := C.svid_member_overdue(&v.handle, C.uint64_t(up), &v.deed)
	return v.done(), failure(status, nil)
}

// Due is when a request or a withdrawal is due: then call Overdue and WithdrawalOverdue. any is false where none is open. Errors: ErrNoMember,
// ErrClosed.
func (v *Validator) Due() (at time.Duration, any bool, err error) {
	v.mu.Lock()
	defer v.mu.Unlock()
	v.due.at = C.UINT64_MAX
	status := C.svid_member_due(&v.handle, &v.due)
	return time.Duration(v.due.at), v.due.at != C.UINT64_MAX, failure(status, nil)
}

// done is what the last call wants to be done. The caller holds the lock.
func (v *Validator) done() Deed {
	d := &v.deed
	deed := Deed{Kind: DeedKind(d.what)}
	if deed.Kind == DeedNothing {
		return deed
	}
	deed.Number, deed.Next, deed.Used = uint64(d.number), uint64(d.next), useOf(&d.used, false)
	if deed.Kind == DeedAnswer && d.status != C.SVID_OK {
		deed.Err = answerError(d.status)
	}
	return deed
}

// answerError is why a request is answered so.
func answerError(status C.uint64_t) error {
	if err, ok := answerErrors[status]; ok {
		return err
	}
	return failure(C.uint32_t(status), nil)
}

// SetRules replaces the audiences and who may call the member, as one. allow has patterns of SPIFFE IDs, as Allows has them; nil lets all call, and
// an empty list nobody. The record stays, and so does each open request: it is judged by these rules from now on. A verdict of before counts no more
// (ErrRenewed). On an error nothing has changed.
//
// Errors: ErrAudience, a *PatternError, ErrNoMemory, ErrNoMember, ErrClosed.
func (v *Validator) SetRules(audiences, allow []string) error {
	own, err := audienceLines(audiences)
	if err != nil {
		return err
	}
	for _, pattern := range allow {
		if err := CheckPattern(pattern); err != nil {
			return err
		}
	}
	v.mu.Lock()
	defer v.mu.Unlock()
	return v.setRules(own, allow)
}

// setRules does so with what was checked. The caller holds the lock.
func (v *Validator) setRules(own []byte, allow []string) error {
	callers := []byte(strings.Join(allow, "\n"))
	status := C.svid_member_rules(&v.handle, start(own), C.size_t(len(own)), oneIf(allow == nil), start(callers), C.size_t(len(callers)))
	if err := failure(status, nil); err != nil {
		return err
	}
	v.bundles++
	if v.allow = nil; allow != nil {
		v.allow = append([]string{}, allow...)
	}
	return nil
}
