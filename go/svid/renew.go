package svid

/*
#include "svid.h"
#include <stdlib.h>
#ifdef __GLIBC__
#include <malloc.h>
static void trim(void) { malloc_trim(0); }
#else
static void trim(void) {}
#endif
*/
import "C"

import "runtime"

// SetBundles replaces the trust bundles. The record stays, so a token that was
// used before is still refused. On an error the old bundles stay. The bundles are
// read before the lock is taken, which is held for microseconds.
//
// A service that has a Keyring too calls Renew.
func (v *Validator) SetBundles(bundles []byte) error {
	var b C.svid_bundles
	var told C.svid_told
	if err := failure(C.svid_bundles_open(&b, start(bundles), C.size_t(len(bundles)), &told), &told); err != nil {
		return err
	}
	defer freed(&b, len(bundles))
	v.mu.Lock()
	defer v.mu.Unlock()
	return v.renew(&b, bundles)
}

// CheckBundles returns nil if these trust bundles can be read, and else the error of NewKeyring. It makes no keyring.
func CheckBundles(bundles []byte) error {
	var b C.svid_bundles
	var told C.svid_told
	defer freed(&b, len(bundles))
	return failure(C.svid_bundles_open(&b, start(bundles), C.size_t(len(bundles)), &told), &told)
}

// Renew replaces the trust bundles of the validator and of its keyring as one: no
// token is verified by the ones and judged by the others, except those that are
// verified just then. On an error both keep the old bundles. The bundles are read
// before any lock is taken.
func (v *Validator) Renew(k *Keyring, bundles []byte) error {
	r, err := openRenewal(bundles)
	if err != nil {
		return err
	}
	defer r.close()
	k.mu.Lock()
	defer k.mu.Unlock()
	if k.closed {
		return ErrClosed
	}
	v.mu.Lock()
	defer v.mu.Unlock()
	return r.of(v, k)
}

// A renewal has bundles that were read for a validator and its keyring, and once it is done, those that these had.
type renewal struct {
	text    []byte
	bundles *C.svid_bundles // the validator's
	askers  chan *asker     // the keyring's
}

// openRenewal reads bundles. Errors: ErrBundles, a *BundleError, ErrNoMemory.
func openRenewal(text []byte) (*renewal, error) {
	r, told := &renewal{text: text, bundles: new(C.svid_bundles)}, new(C.svid_told)
	if err := failure(C.svid_bundles_open(r.bundles, start(text), C.size_t(len(text)), told), told); err != nil {
		return nil, err
	}
	trim(len(text)) // The askers may be read by another thread, which would not find that room.
	var err error
	if r.askers, err = openAskers(text); err != nil {
		freed(r.bundles, len(text))
		return nil, err
	}
	return r, nil
}

func (r *renewal) close() {
	closeAskers(r.askers)
	freed(r.bundles, len(r.text))
}

// of replaces the bundles of both. The caller holds their locks. On an error they keep what they had.
func (r *renewal) of(v *Validator, k *Keyring) error {
	if err := v.renew(r.bundles, r.text); err != nil {
		return err
	}
	r.askers = k.replace(r.askers)
	return nil
}

// freed gives back the memory of bundles, and what it took to read the ones in their place, of so many bytes. (C keeps what
// is freed for the thread that asked for it, and a renewal may run in any. So each thread would keep the room in which it
// read large bundles.)
func freed(b *C.svid_bundles, size int) {
	C.svid_bundles_close(b)
	trim(size)
}

// trim gives back what it took to read bundles of so many bytes.
func trim(size int) {
	if size > trimmedBundles {
		C.trim()
	}
}

// trimmedBundles is how many bytes bundles have that take megabytes to read.
const trimmedBundles = 1 << 16

// renew exchanges the bundles for those of an open handle, which were read from this text. The caller holds the lock.
func (v *Validator) renew(b *C.svid_bundles, text []byte) error {
	status := C.svid_validator_renew_by(&v.handle, b, &v.told)
	if err := failure(status, &v.told); err != nil {
		return err
	}
	v.bundles++
	v.keep(text)
	return nil
}

// mostAskedBytes is how many bytes of bundles the handles of a keyring read together, if they are more than one. A handle
// takes ten times as much memory.
const mostAskedBytes = 1 << 20

// handles is how many handles a keyring has of bundles: one for each processor, and fewer of large bundles.
func handles(bundles []byte) int {
	most := mostAskedBytes / (len(bundles) + 1)
	if processors := runtime.GOMAXPROCS(0); most > processors {
		return processors
	}
	if most < 1 {
		return 1
	}
	return most
}
