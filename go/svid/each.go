package svid

/*
#include "svid.h"

// Takes values that stand one directly after the other, each by itself, up to the first one that is not taken: how many were, and `status` is of
// the next one.
static size_t take_each(svid_validator *v, uint64_t now, const uint8_t *values, const size_t *lens, size_t lens_len,
                        uint32_t *status, svid_told *told) {
    for (size_t i = 0; i < lens_len; i++) {
        *status = svid_validator_take(v, now, values, lens[i], told);
        if (*status != SVID_OK) return i;
        if (lens[i] > 0) values += lens[i]; // (there may be none at all)
    }
    return lens_len;
}

// Reads such values, which stand in a log from `position` on, while there is room for a use. It ends behind the first one that is not the next one,
// or not read to its end without a fault: `status` is of the last one. It returns how many readings it wrote.
static size_t read_each(svid_validator *v, uint64_t now, uint64_t position, const uint8_t *values, const size_t *lens, size_t lens_len,
                        svid_fate *out, size_t out_len, svid_reading *readings, uint32_t *status, svid_told *told) {
    size_t i = 0;
    do {
        *status = svid_validator_read(v, now, position + i, values, lens[i], out, out_len, &readings[i], told);
        if (*status != SVID_OK || readings[i].order != SVID_ORDER_NEXT) return i + 1;
        if (lens[i] > 0) values += lens[i]; // (there may be none at all)
        out += readings[i].count;
        out_len -= readings[i].count;
        i++;
    } while (i < lens_len && out_len > 0);
    return i;
}
*/
import "C"

const (
	// mostPacked is how many bytes of values are put together for a call, beside the last one.
	mostPacked = 32 << 10
	// largeValue is the length of a value that is worth a call by itself.
	largeValue = 4 << 10
)

// A row is values one directly after the other, as a call of the library takes many of them.
type row struct {
	values []byte
	lens   []C.size_t
	room   []byte
}

// pack lets the row be the first ones of values: at least one, and at most most. A large one is alone, and is not copied.
func (r *row) pack(values [][]byte, most int) {
	r.lens = r.lens[:0]
	if most <= 1 || len(values[0]) >= largeValue {
		r.values, r.lens = values[0], append(r.lens, C.size_t(len(values[0])))
		return
	}
	r.room = r.room[:0]
	for _, value := range values {
		if len(value) >= largeValue || len(r.room) >= mostPacked || len(r.lens) >= most {
			break
		}
		r.room, r.lens = append(r.room, value...), append(r.lens, C.size_t(len(value)))
	}
	r.values = r.room
}

// TakeEach takes values one after the other, each by itself as Take does: the messages of one can't go on in the next one. It
// returns how many it took. Where these are not all, the error is that of the next one, and those behind it were not looked at.
// The lock is held over all of them.
func (v *Validator) TakeEach(now uint64, values [][]byte) (taken int, err error) {
	v.mu.Lock()
	defer v.mu.Unlock()
	for taken < len(values) {
		v.row.pack(values[taken:], len(values))
		n := int(C.take_each(&v.handle, C.uint64_t(now), start(v.row.values), &v.row.lens[0], C.size_t(len(v.row.lens)), &v.status, &v.told))
		v.row.values = nil
		if taken += n; n < len(v.row.lens) {
			return taken, failure(v.status, &v.told)
		}
	}
	return taken, nil
}

// ReadEach reads values that stand in the log one directly after the other, the first of them at this position, each as Read does.
// The uses of all go to room, one after the other, and what was done with each value to readings. It returns how many values that
// are: it stops where readings or room is full, and behind a value that is not the next one, or not read to its end, or has a
// fault. It need not read all that have room. The error is that of Read for the value behind these, with which nothing happened.
func (v *Validator) ReadEach(now, position uint64, values [][]byte, edition uint64, room []LogUse, readings []Reading) (read int, err error) {
	v.mu.Lock()
	defer v.mu.Unlock()
	if edition != v.bundles {
		return 0, ErrRenewed
	}
	if len(values) == 0 || len(readings) == 0 {
		return 0, nil
	}
	v.makeRoom(len(room), len(readings))
	v.row.pack(values, len(readings))
	read = int(C.read_each(&v.handle, C.uint64_t(now), C.uint64_t(position), start(v.row.values), &v.row.lens[0], C.size_t(len(v.row.lens)),
		first(v.fates[:len(room)]), C.size_t(len(room)), &v.readings[0], &v.status, &v.told))
	v.row.values = nil
	at := 0
	for i := range v.readings[:read] {
		c := &v.readings[i]
		r := Reading{Order: Order(c.order), From: int(c.from), Count: int(c.count)}
		if i == read-1 {
			if err := r.end(v.status, failure(v.status, &v.told)); err != nil {
				return i, err
			}
		}
		readings[i] = r
		for end := at + r.Count; at < end; at++ {
			fate := fateOf(v.fates[at].fate)
			room[at] = LogUse{Use: useOf(&v.fates[at].used, fate == FateWithdrawal), Fate: fate}
		}
	}
	return read, nil
}

// makeRoom makes room for so many fates and readings.
func (v *Validator) makeRoom(fates, readings int) {
	if len(v.fates) < fates {
		v.fates = make([]C.svid_fate, fates)
	}
	if len(v.readings) < readings {
		v.readings = make([]C.svid_reading, readings)
	}
}

// end notes how a reading ended, by the status of the library. It returns the error of one that was none.
func (r *Reading) end(status C.uint32_t, err error) error {
	switch {
	case status == C.SVID_TOO_SHORT:
		r.Rest = RestNoRoom
	case err == ErrNoMemory:
		r.Rest = RestNoMemory
	case isFault(err):
		r.Fault = err
	default:
		return err
	}
	return nil
}
