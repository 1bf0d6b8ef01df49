package svid

// #include "svid.h"
import "C"

import "math/rand"

// buckets is how many parts a record has. Each has a digest in a summary.
const buckets = 256

// answerPiece is how many bytes of an answer WalkAnswer has room for at first.
const answerPiece = 64 << 10

// WalkSummary is Summary for a large record in a busy service: it asks for one of 256
// buckets at a time, so that no other call waits for more than that. The summary is of
// the record as it will be settle seconds after its moment, so that what expires on the
// way of the summary makes no difference; a validator that takes the summary may
// advance that far. What other calls add meanwhile may be in it or not, which makes an
// answer larger, and never wrong. Errors: ErrClosed, ErrNoMemory.
func (v *Validator) WalkSummary(settle uint64) ([]byte, error) {
	size, err := v.Size()
	if err != nil {
		return nil, err
	}
	digests := C.svid_digests{moment: C.uint64_t(size.Moment + settle)}
	for bucket := 0; bucket < buckets; bucket++ {
		if err := v.digest(bucket, &digests); err != nil {
			return nil, err
		}
	}
	var told C.svid_told
	out := make([]byte, C.SVID_SUMMARY_LEN)
	status := C.svid_summary_of(&digests, start(out), C.size_t(len(out)), &told)
	if err := failure(status, &told); err != nil {
		return nil, err
	}
	return out, nil
}

// digest puts the digest of a bucket to the others.
func (v *Validator) digest(bucket int, digests *C.svid_digests) error {
	v.mu.Lock()
	defer v.mu.Unlock()
	status := C.svid_validator_digest(&v.handle, C.uint8_t(bucket), digests, &v.told)
	return failure(status, &v.told)
}

// WalkAnswer is Answer for a large record in a busy service: it asks for one of 256
// buckets at a time, and does not advance the record. The answer is messages with the
// uses of those buckets whose digests differ, and empty if none does. It has about most
// bytes at the most: it begins with another bucket each time, and leaves out those that
// come after the first most bytes, for a later summary. Errors: ErrNotSummary,
// ErrTooMuch, a *MessageError, ErrClosed, ErrNoMemory.
func (v *Validator) WalkAnswer(summary []byte, most int) ([]byte, error) {
	var asked C.svid_digests
	var told C.svid_told
	status := C.svid_summary_read(start(summary), C.size_t(len(summary)), &asked, &told)
	if err := failure(status, &told); err != nil {
		return nil, err
	}
	out := make([]byte, 0, answerPiece)
	first := rand.Intn(buckets)
	for i := 0; i < buckets && (i == 0 || len(out) < most); i++ {
		bucket := (first + i) % buckets
		differs, err := v.differs(bucket, &asked)
		if err == nil && differs {
			out, err = v.appendBucket(bucket, asked.moment, out)
		}
		if err != nil {
			return nil, err
		}
	}
	return out, nil
}

// differs says whether the digest of a bucket is another than the summary's.
func (v *Validator) differs(bucket int, asked *C.svid_digests) (bool, error) {
	v.mu.Lock()
	defer v.mu.Unlock()
	status := C.svid_validator_differs(&v.handle, C.uint8_t(bucket), asked, &v.told)
	return v.told.more == 1, failure(status, &v.told)
}

// appendBucket appends the uses of a bucket that expire after a moment, as messages.
func (v *Validator) appendBucket(bucket int, moment C.uint64_t, out []byte) ([]byte, error) {
	for {
		status, told := v.tellBucket(bucket, moment, out[len(out):cap(out)])
		if status == C.SVID_TOO_SHORT {
			out = append(make([]byte, 0, 2*cap(out)+int(told.len)), out...)
			continue
		}
		if err := failure(status, &told); err != nil {
			return nil, err
		}
		return out[:len(out)+int(told.len)], nil
	}
}

// tellBucket puts them into the room. Each try takes the lock by itself, so that no
// other call waits for two.
func (v *Validator) tellBucket(bucket int, moment C.uint64_t, room []byte) (C.uint32_t, C.svid_told) {
	v.mu.Lock()
	defer v.mu.Unlock()
	status := C.svid_validator_bucket(&v.handle, C.uint8_t(bucket), moment, start(room), C.size_t(len(room)), &v.told)
	return status, v.told
}
