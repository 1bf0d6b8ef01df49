package svid

// #include "svid.h"
import "C"

import "time"

// A Keeper is one that is to have a withdrawal, beside the record.
type Keeper uint64

// The keepers.
const (
	KeeperDisk  Keeper = C.SVID_AT_DISK  // the state folder
	KeeperStore Keeper = C.SVID_AT_STORE // the group's store
	KeeperLog   Keeper = C.SVID_AT_LOG   // the group's log
)

// Reached says how far a withdrawal came: whether each keeper has it, or need not have it. Where a keeper may not have it, the same
// withdrawal may be made again.
type Reached struct {
	Number           uint64 // of the withdrawal
	Disk, Store, Log bool
}

// WithdrawalCome gives a withdrawal that the record has (Withdraw) a number, by which WithdrawalTold names it. It is on its way to the state folder, the
// store and the log, as far as MemberTerms has such. Where any is false, no number is left, and it is on its way nowhere.
//
// Errors: ErrNoMemory: it is on its way nowhere, and may be made again. ErrNoMember, ErrClosed.
func (v *Validator) WithdrawalCome(up time.Duration) (number uint64, any bool, err error) {
	v.mu.Lock()
	defer v.mu.Unlock()
	v.withdrawal.number = C.UINT64_MAX
	status := C.svid_withdrawal_come(&v.handle, C.uint64_t(up), &v.withdrawal)
	return uint64(v.withdrawal.number), v.withdrawal.number != C.UINT64_MAX, failure(status, nil)
}

// WithdrawalTold tells that a keeper has a withdrawal, or may not have it. Tell it of each keeper, also of one that is not there. Where ended is
// true, the withdrawal waits for no keeper any more. One that has ended hears of nothing. Errors: ErrNoMember, ErrClosed.
func (v *Validator) WithdrawalTold(number uint64, keeper Keeper, ok bool) (made Reached, ended bool, err error) {
	v.mu.Lock()
	defer v.mu.Unlock()
	v.withdrawal.number = C.UINT64_MAX
	status := C.svid_withdrawal_told(&v.handle, C.uint64_t(number), C.uint64_t(keeper), oneIf(ok), &v.withdrawal)
	return v.reached(status)
}

// WithdrawalOverdue gives up the withdrawal that came first, if its time is over: a keeper that has not said so may not have it. Call it until ended is
// false. Errors: ErrNoMember, ErrClosed.
func (v *Validator) WithdrawalOverdue(up time.Duration) (made Reached, ended bool, err error) {
	v.mu.Lock()
	defer v.mu.Unlock()
	v.withdrawal.number = C.UINT64_MAX
	status := C.svid_withdrawal_overdue(&v.handle, C.uint64_t(up), &v.withdrawal)
	return v.reached(status)
}

// reached is the withdrawal that a call has ended, if it has. The caller holds the lock.
func (v *Validator) reached(status C.uint32_t) (made Reached, ended bool, err error) {
	w := &v.withdrawal
	if err := failure(status, nil); err != nil || w.number == C.UINT64_MAX {
		return Reached{}, false, err
	}
	return Reached{Number: uint64(w.number), Disk: w.disk == isThere, Store: w.store == isThere, Log: w.log == isThere}, true, nil
}

// isThere: a keeper has a withdrawal, or need not have it.
const isThere = 1
