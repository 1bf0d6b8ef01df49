/* The allocations of the library. A test refuses one: svid_test_refuse(n) refuses the one after the next n; below 0, none. svid_test_held() is how
 * many there are that nobody has freed. */
#include <stddef.h>

extern void *__real_malloc(size_t size);
extern void *__real_calloc(size_t count, size_t size);
extern void *__real_realloc(void *old, size_t size);
extern void __real_free(void *old);

static int left = -1;
static int held;

void svid_test_refuse(int count) { left = count; }

int svid_test_left(void) { return left; }

int svid_test_held(void) { return __atomic_load_n(&held, __ATOMIC_SEQ_CST); }

static int is_refused(void) {
    int before = left;
    if (before >= 0) left = before - 1;
    return before == 0;
}

static void *counted(void *made) {
    if (made != NULL) __atomic_add_fetch(&held, 1, __ATOMIC_SEQ_CST);
    return made;
}

void *__wrap_malloc(size_t size) { return is_refused() ? NULL : counted(__real_malloc(size)); }

void *__wrap_calloc(size_t count, size_t size) { return is_refused() ? NULL : counted(__real_calloc(count, size)); }

void *__wrap_realloc(void *old, size_t size) {
    void *made = is_refused() ? NULL : __real_realloc(old, size);
    return old == NULL ? counted(made) : made;
}

void __wrap_free(void *old) {
    if (old != NULL) __atomic_sub_fetch(&held, 1, __ATOMIC_SEQ_CST);
    __real_free(old);
}
