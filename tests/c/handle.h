/* What the calls on a handle promise alike: of trust bundles (bundles.c), and of a token (tokens.c). Each call also has a validator.
 *
 * Before this line a file says what a `handle` is, CLOSE, how many CALLS there are and their NAMES, the one that opens it (OPEN), its INPUTS, and MORE: what
 * an `answer` has beside `status`, `told` and `out`. A `loan` has what a call is lent. After this line it says what is lent for an answer (`lent`), how
 * it is called (`call_with`), what `begin` opens, and what holds of the memory that a call took and keeps (`took`). */
#include "harness.h"

static loan lent(handle *h, svid_validator *v, answer *a);
static uint32_t call_with(int which, const loan *l);
static void begin(int which, handle *h, svid_validator *v);
static void took(int which, long asked_for, long kept);

static void call(int which, handle *h, svid_validator *v, answer *a) {
    loan l = lent(h, v, a);
    answered = a->status = call_with(which, &l);
}

static void end(handle *h, svid_validator *v) {
    CLOSE(h);
    holds(h->word == 0 && h->held == NULL, "it is open after close");
    CLOSE(h);
    svid_validator_close(v);
}

static void clear(answer *a) { memset(a, 0, sizeof *a); memset(a->out, 0xA5, sizeof a->out); memset(&a->MORE, 0x5A, sizeof a->MORE); }

static void refused(void) {
    static answer due, got, none;
    long tried = 0;
    for (int which = 0; which < CALLS; which++) {
        handle h;
        svid_validator v;
        at = NAMES[which];
        refused_at = 0;
        begin(which, &h, &v);
        asked = freed = 0;
        long before = standing;
        clear(&due);
        call(which, &h, &v, &due);
        long all = asked;
        took(which, all, standing - before);
        holds(due.status == SVID_OK, "it does not do what it is for");
        end(&h, &v);
        holds(standing == 0, "memory is held after close");
        for (long n = 1; n <= all; n++) {
            tried++;
            begin(which, &h, &v);
            asked = 0;
            refused_at = n;
            clear(&got);
            call(which, &h, &v, &got);
            refused_at = 0;
            if (got.status == SVID_NO_MEMORY) {
                svid_told told = got.told;
                clear(&none);
                holds(told.len == 0 && told.input == 0 && told.message == 0 && told.offset == 0 && told.more == 0, "want of memory tells more");
                holds(!memcmp(got.out, none.out, sizeof none.out) && !memcmp(&got.MORE, &none.MORE, sizeof none.MORE), "want of memory writes");
                holds((h.word == 0) == (which == OPEN), "want of memory opens or closes");
                clear(&got);
                call(which, &h, &v, &got);
            }
            holds(!memcmp(&got, &due, sizeof due), "the answer differs");
            end(&h, &v);
            holds(standing == 0, "memory is held after close");
        }
    }
    printf("%ld allocations refused", tried);
}

/* (the pages are given back at the end of the process) */
static void guarded(void) {
    static answer due, got;
    static const size_t rooms[] = { 0, 1, 100, SVID_ID_ROOM, sizeof due.out };
    for (int turn = 0; turn < 2 * CALLS; turn++) {
        int which = turn / 2, first = turn % 2;
        at = NAMES[which];
        for (size_t i = 0; i < COUNT(rooms); i++) {
            handle h, g;
            svid_validator v, w;
            begin(which, &h, &v);
            begin(which, &g, &w);
            clear(&due);
            loan plain = lent(&h, &v, &due);
            plain.room = rooms[i];
            due.status = call_with(which, &plain);
            clear(&got);
            loan l = lent(&g, &w, &got);
            for (int k = 0; k < INPUTS; k++) l.in[k].bytes = between(l.in[k].bytes, l.in[k].len, first);
            l.h = between(&g, sizeof g, first);
            l.v = between(&w, sizeof w, first);
            l.out = between(got.out, rooms[i], first);
            l.room = rooms[i];
            l.told = between(&got.told, sizeof got.told, first);
            l.MORE = between(&got.MORE, sizeof got.MORE, first);
            answered = got.status = call_with(which, &l);
            g = *l.h, w = *l.v;
            memcpy(got.out, l.out, rooms[i]);
            got.told = *l.told, got.MORE = *l.MORE;
            holds(!memcmp(&got, &due, sizeof got), "the answer differs");
            end(&h, &v);
            end(&g, &w);
        }
    }
    printf("%d calls in %zu rooms between pages that can't be touched", CALLS, COUNT(rooms));
}

/* Both are the same call, but for one input or room of no bytes. */
static void nulls(void) {
    static answer due, got;
    static const uint8_t nothing[1];
    answer *both[] = { &due, &got };
    for (int which = 0; which < CALLS; which++) {
        at = NAMES[which];
        for (int input_of = 0; input_of <= INPUTS; input_of++) {
            for (int i = 0; i < 2; i++) {
                handle h;
                svid_validator v;
                begin(which, &h, &v);
                clear(both[i]);
                loan l = lent(&h, &v, both[i]);
                if (input_of < INPUTS) l.in[input_of].bytes = i ? NULL : nothing, l.in[input_of].len = 0;
                else l.out = i ? NULL : l.out, l.room = 0;
                answered = both[i]->status = call_with(which, &l);
                end(&h, &v);
            }
            holds(!memcmp(&got, &due, sizeof got), "NULL is answered otherwise");
        }
    }
    printf("NULL for each input of %d calls", CALLS);
}

typedef struct { int which; handle *h; svid_validator *v; answer *a; } job;
static void *run_job(void *given) {
    job *j = given;
    call(j->which, j->h, j->v, j->a);
    return NULL;
}

/* Each call, and OPEN of inputs that are as deep as a reader of JSON lets them be. */
static void stack_with(void (*deepen)(int depth)) {
    static answer a;
    static const int depths[] = { 100, 123, 124, 10000 };
    size_t most = 0;
    for (size_t turn = 0; turn < CALLS + COUNT(depths); turn++) {
        handle h;
        svid_validator v;
        job j = { turn < CALLS ? (int)turn : OPEN, &h, &v, &a };
        at = NAMES[j.which];
        begin(j.which, &h, &v);
        if (turn >= CALLS) deepen(depths[turn - CALLS]);
        clear(&a);
        size_t used = stack_of(run_job, &j);
        if (used > most) most = used;
        end(&h, &v);
    }
    is_stack(most, STACK_MOST);
}
