//go:build cgo

// Package scarce lets allocations of the C library svid fail, and counts what it holds, for tests. Only tests import it, since it gives the
// whole process its own malloc.
package scarce

/*
#include <stdatomic.h>
#include <stddef.h>

// The path of its folder gives this package another key in Go's cache for each checkout. go vet -trimpath takes from there a text that names a file
// of the checkout that made it, and fails where that is gone.
#cgo CFLAGS: -I${SRCDIR}

extern void *__libc_malloc(size_t size);
extern void *__libc_calloc(size_t count, size_t size);
extern void *__libc_realloc(void *old, size_t size);
extern void __libc_free(void *old);

// How many allocations of this thread go well before one is refused, or, with all, each one. -1 refuses none.
static _Thread_local long left = -1;
static _Thread_local int all;
static _Thread_local long refused;

// Whether no thread gets more than a little. (The start of a thread takes 24 bytes, and Go ends the process where it gets none.)
enum { LITTLE = 64 };
static atomic_int scarce;

static int refuse(size_t size) {
    if (size > LITTLE && atomic_load(&scarce)) return 1;
    if (left < 0 || left-- > 0) return 0;
    if (all) left = 0;
    refused++;
    return 1;
}

// How many blocks the process holds, but for those that it held before it could count.
static atomic_long held;

static void *holds(void *new) {
    if (new) atomic_fetch_add(&held, 1);
    return new;
}

void *malloc(size_t size) { return refuse(size) ? NULL : holds(__libc_malloc(size)); }
void *calloc(size_t count, size_t size) { return holds(__libc_calloc(count, size)); }
void *realloc(void *old, size_t size) {
    if (refuse(size)) return NULL;
    return old ? __libc_realloc(old, size) : holds(__libc_malloc(size));
}
void free(void *old) {
    if (old) atomic_fetch_sub(&held, 1);
    __libc_free(old);
}

static long held_now(void) { return atomic_load(&held); }

static void set_scarce(int is) { atomic_store(&scarce, is); }

static void from(long n, int every) { left = n, all = every, refused = 0; }
static long end(void) { left = -1; return refused; }
*/
import "C"

import "runtime"

// During runs f in a thread of its own. The n-th allocation there is refused, counted from 0, and with all each one after it. It
// returns how many were.
func During(n int, all bool, f func()) (refused int) {
	every := C.int(0)
	if all {
		every = 1
	}
	done := make(chan struct{})
	go func() {
		defer close(done)
		runtime.LockOSThread() // The thread ends with the goroutine.
		C.from(C.long(n), every)
		f()
		refused = int(C.end())
	}()
	<-done
	return refused
}

// Everywhere refuses, from now on, each allocation of the process that is larger than 64 bytes.
func Everywhere() { C.set_scarce(1) }

// Held is how many blocks of memory C holds in this process, but for some that it took as it began: two of these numbers tell how many more
// there are.
func Held() int { return int(C.held_now()) }
