package svid

// #include "svid.h"
import "C"

// SetAudiences replaces the names by which tokens may call this service. The record stays, and so does where the validator is in
// a log. So a token that was used before is still refused. A verdict of before counts no more (ErrRenewed), since it may be of a
// token for another audience. On an error nothing has changed.
//
// With a member, who may call stays as it is (SetRules). Without one the lock is held while the record is copied, which takes a few microseconds for
// each entry, and twice its memory.
//
// Errors: ErrAudience, ErrNoMemory, ErrJump where the record has a moment that is too far ahead, ErrClosed.
func (v *Validator) SetAudiences(audiences []string) error {
	own, err := audienceLines(audiences)
	if err != nil {
		return err
	}
	v.mu.Lock()
	defer v.mu.Unlock()
	if v.answers {
		return v.setRules(own, v.allow)
	}
	next := &Validator{terms: v.terms, log: v.log}
	if err := next.open(own, v.text); err != nil {
		return err
	}
	defer func() { C.svid_validator_close(&next.handle) }()
	if err := next.goOnFrom(v); err != nil {
		return err
	}
	v.handle, next.handle = next.handle, v.handle // From here on next has what is to be closed.
	v.bundles++
	return nil
}

// goOnFrom gives a new validator the record of another one, whose lock the caller holds, and its position in a log.
func (v *Validator) goOnFrom(before *Validator) error {
	status := C.svid_validator_size(&before.handle, &before.size, &before.told)
	if err := failure(status, &before.told); err != nil {
		return err
	}
	moment := uint64(before.size.moment)
	piece := make([]byte, savePiece)
	for part := (C.svid_part{}); part.done == 0; {
		status := C.svid_validator_parts(&before.handle, &part, start(piece), C.size_t(len(piece)), &before.told)
		if err := failure(status, &before.told); err != nil {
			return err
		}
		if err := v.take(moment, piece[:before.told.len]); err != nil {
			return err
		}
	}
	return v.readOnFrom(before)
}

// readOnFrom lets it read the log of the other one, if that reads one.
func (v *Validator) readOnFrom(before *Validator) error {
	mark, _, err := before.logMark()
	if err == ErrNoLog {
		return nil
	}
	if err != nil {
		return err
	}
	log := v.log // (with its Ready and its Lasts)
	log.Mark = mark
	if log.Beside, err = before.logBeside(); err != nil {
		return err
	}
	return v.openLog(log)
}

// keep keeps a copy of the text of the bundles that the validator has.
func (v *Validator) keep(bundles []byte) {
	v.text = append([]byte(nil), bundles...)
}
