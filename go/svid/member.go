package svid

// #include "svid.h"
import "C"

import (
	"errors"
	"fmt"
	"unsafe"
)

// Errors of a Validator that reads a group's log.
var (
	// ErrNoLog: the validator reads no log.
	ErrNoLog = ofCall(C.SVID_NO_LOG)
	// ErrHasLog: the validator reads a log, so its tokens are accepted by their claims there.
	ErrHasLog = ofCall(C.SVID_HAS_LOG)
)

// A Fate is what becomes of a use that a Validator reads from its group's log.
type Fate byte

// The fates. No fate is 0.
const (
	// FateAccepted: it is the first claim of its token in the log, and this validator's own: the token is accepted.
	FateAccepted Fate = iota + 1
	// FateFirst: it is the first claim of its token, which this validator does not accept: it is another one's, or stands where
	// an earlier life may have read it, or after values that are missing. The record has it.
	FateFirst
	// FateWithdrawal: it is a withdrawal. The record has it.
	FateWithdrawal
	// FateTooFarAhead: its time lies more than Options.Ahead seconds past now. It counts as a claim, and nobody here accepts it.
	FateTooFarAhead
	// FateExpired: the token has expired, or the use says that it expires before it was made.
	FateExpired
	// FateWithdrawn: the token was withdrawn.
	FateWithdrawn
	// FateReplayed: the record has a use of the token, or a claim before it in the log has its key.
	FateReplayed
)

// fateOf reads a fate as the library writes it.
func fateOf(fate C.uint64_t) Fate {
	switch fate {
	case C.SVID_FATE_ACCEPTED:
		return FateAccepted
	case C.SVID_FATE_FIRST:
		return FateFirst
	case C.SVID_FATE_WITHDRAWAL:
		return FateWithdrawal
	case C.SVID_FATE_TOO_FAR_AHEAD:
		return FateTooFarAhead
	case C.SVID_FATE_EXPIRED:
		return FateExpired
	case C.SVID_FATE_WITHDRAWN:
		return FateWithdrawn
	case C.SVID_FATE_REPLAYED:
		return FateReplayed
	}
	return 0
}

var fateNames = [...]string{"none", "Accepted", "First", "Withdrawal", "TooFarAhead", "Expired", "Withdrawn", "Replayed"}

// String is the fate's name, as "Accepted".
func (f Fate) String() string {
	if int(f) < len(fateNames) {
		return fateNames[f]
	}
	return fmt.Sprintf("Fate(%d)", byte(f))
}

// A LogUse is a use that was read from a log, with its fate.
type LogUse struct {
	Use  Use
	Fate Fate
}

// A Mark is where a validator is in the log of its group. Values of the log are counted from 1, and none is left out.
type Mark struct {
	// Passed is the position of the last value that was read whole. At the beginning it is that of the last value before the
	// first one that the log has: 0 where that is the first of all.
	Passed uint64
	// Begun is how many uses of the value after that one were read.
	Begun int
	// Deaf is the moment before which the validator accepts nothing, in seconds, since it has not read all values up to Passed:
	// by then all uses of these have expired.
	Deaf uint64
}

// A Log is what OpenLog wants to know of a log.
type Log struct {
	// Mark is where to begin: at the first value that the log has, or where an earlier life of this validator was when it was saved.
	Mark Mark
	// Beside is what LogBeside wrote in that life, or nothing.
	Beside []byte
	// Ready is the position of the last value that an earlier life of this validator may have read: at least of the last one in
	// the log when it begins. Of these values it accepts nothing.
	Ready uint64
	// Lasts is how many seconds a use lives at the most after its being put into the log: the longest life of a token, and
	// twice what the group's clocks may differ. So long the validator accepts nothing after a gap.
	Lasts uint64
}

// A Reading is what Read did.
type Reading struct {
	Order Order
	From  int   // the number of the first use of the value that was read, counted from 0
	Count int   // how many were read: so many elements of its room Read has written
	Rest  Rest  // what is left of the value
	Fault error // why the value is no messages, and so has no uses: ErrTooMuch or a *MessageError; nil where it is
}

// An Order is how a value follows on those that were read.
type Order uint32

// The orders.
const (
	OrderAgain Order = C.SVID_ORDER_AGAIN // it was read before, and changes nothing
	OrderNext  Order = C.SVID_ORDER_NEXT  // it is the next one
	OrderGap   Order = C.SVID_ORDER_GAP   // values in front of it are missing
)

// A Rest is what is left of a value.
type Rest byte

// The rests.
const (
	RestNothing  Rest = iota // the next value is to be read
	RestNoRoom               // uses for which the room was too small: read the same value again
	RestNoMemory             // uses, and memory was refused for the first of them: read the same value again
)

// OpenLog lets the validator read a log. Where it reads one already, it reads the other one from now on; the record stays.
//
// From here on tokens are accepted by Read alone, and Check answers ErrHasLog. Errors: a *MessageError for Log.Beside;
// ErrNoMemory, ErrClosed.
func (v *Validator) OpenLog(log Log) error {
	v.mu.Lock()
	defer v.mu.Unlock()
	return v.openLog(log)
}

func (v *Validator) openLog(log Log) error {
	mark := markOf(log.Mark)
	status := C.svid_validator_log(&v.handle, &mark, C.uint64_t(log.Ready), C.uint64_t(log.Lasts),
		start(log.Beside), C.size_t(len(log.Beside)), &v.told)
	if err := failure(status, &v.told); err != nil {
		return err
	}
	v.log = Log{Ready: log.Ready, Lasts: log.Lasts}
	return nil
}

// Read reads the value at this position of the log, and writes its uses with their fates into room, as many as there are and
// have room. It goes on where the last call stopped in the value. A FateAccepted says that the validator accepts the token of
// that use: answer one request so that has put this use.
//
// edition is that of the bundles by which the tokens were judged whose uses the value may have. Where SetBundles or SetAudiences
// was called since, ErrRenewed says so, and nothing happened: judge them again.
//
// Give the values of a log in their order, each one whole. A value that is no messages has no uses, for every validator
// alike: Reading.Fault says what is wrong with it, and that is no error. ErrJump: nothing happened; after no gap, now 0 reads
// the value, and raises nothing. Other errors: ErrNoLog, ErrClosed.
func (v *Validator) Read(now, position uint64, value []byte, edition uint64, room []LogUse) (Reading, error) {
	var reading [1]Reading
	_, err := v.ReadEach(now, position, [][]byte{value}, edition, room, reading[:])
	return reading[0], err
}

// isFault says whether an error is about bytes that are no messages.
func isFault(err error) bool {
	var fault *MessageError
	return err == ErrTooMuch || errors.As(err, &fault)
}

// LogMark says where the validator is in its log, and whether it accepts its own claims from here on: it has read all up to
// Log.Ready, and the record's moment has reached Mark.Deaf. Errors: ErrNoLog, ErrClosed.
func (v *Validator) LogMark() (mark Mark, accepts bool, err error) {
	v.mu.Lock()
	defer v.mu.Unlock()
	return v.logMark()
}

func (v *Validator) logMark() (mark Mark, accepts bool, err error) {
	var m C.svid_mark
	status := C.svid_validator_mark(&v.handle, &m, &v.told)
	if err := failure(status, &v.told); err != nil {
		return Mark{}, false, err
	}
	return goMark(&m), v.told.more == 1, nil
}

// markOf is a mark as C has it.
func markOf(m Mark) C.svid_mark {
	return C.svid_mark{passed: C.uint64_t(m.Passed), begun: C.size_t(m.Begun), deaf: C.uint64_t(m.Deaf)}
}

func goMark(m *C.svid_mark) Mark {
	return Mark{Passed: uint64(m.passed), Begun: int(m.begun), Deaf: uint64(m.deaf)}
}

// LogBeside writes the claims that were read and that the record did not take, for OpenLog: those of tokens that were claimed
// or withdrawn before, or from too far ahead. Errors: ErrNoLog, ErrNoMemory, ErrClosed.
func (v *Validator) LogBeside() ([]byte, error) {
	v.mu.Lock()
	defer v.mu.Unlock()
	return v.logBeside()
}

func (v *Validator) logBeside() ([]byte, error) {
	out := make([]byte, 4096)
	for {
		status := C.svid_validator_beside(&v.handle, start(out), C.size_t(len(out)), &v.told)
		if status == C.SVID_TOO_SHORT {
			out = make([]byte, v.told.len)
			continue
		}
		if err := failure(status, &v.told); err != nil {
			return nil, err
		}
		return out[:v.told.len], nil
	}
}

// GoOn lets the validator accept tokens again though it missed values of the log that may still live. A token that one of these
// claims may then be accepted twice. Errors: ErrNoLog, ErrClosed.
func (v *Validator) GoOn() error {
	v.mu.Lock()
	defer v.mu.Unlock()
	status := C.svid_validator_go_on(&v.handle, &v.told)
	return failure(status, &v.told)
}

// Edition is how often the validator had other trust bundles or audiences: 1 at first, and one more with each SetBundles, Renew
// and SetAudiences.
func (v *Validator) Edition() uint64 {
	v.mu.Lock()
	defer v.mu.Unlock()
	return v.bundles
}

// Edition is that of the bundles by which the token was judged.
func (a Accepted) Edition() uint64 { return a.bundles }

// useOf is a use as the library writes it.
func useOf(used *C.svid_use, withdrawn bool) Use {
	return Use{
		Key:         *(*TokenKey)(unsafe.Pointer(&used.key)),
		Expires:     uint64(used.exp),
		At:          uint64(used.at),
		ValidatorID: *(*ValidatorID)(unsafe.Pointer(&used.validator_id)),
		Withdrawn:   withdrawn,
	}
}
