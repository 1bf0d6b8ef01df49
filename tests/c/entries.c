/* Calls svid_entries_read and svid_entries_write.
 *
 *   entries answers   what each answers, beside bytes that are made here by docs/FORMATS.md
 *   entries refused   each call with each of its allocations refused in turn; linked with --wrap for malloc, realloc and free
 *   entries guarded   all that a call is lent between pages that can't be touched, right before the one and right behind the other
 *   entries nulls     NULL for each input of none, and for a room of none: the answer is that of another pointer
 *   entries stack     each call on a painted stack, which tells how much of it the call needs */
#include "harness.h"

_Static_assert(offsetof(svid_entry, withdrawn) == 0 && offsetof(svid_entry, exp) == 8 && offsetof(svid_entry, at) == 16 && offsetof(svid_entry, key) == 24
    && offsetof(svid_entry, validator_id) == 56 && sizeof(svid_entry) == 72, "svid_entry");

/* What a call answered, and what it wrote: bytes or entries. */
typedef struct { uint32_t status; svid_told told; uint8_t out[1024]; svid_entry entries[8]; } answer;
static void clear(answer *a) { memset(a, 0xA5, sizeof *a); }

static void read_from(const void *messages, size_t len, size_t room, answer *a) {
    clear(a);
    answered = a->status = svid_entries_read(messages, len, a->entries, room, &a->told);
}

static void write_from(const svid_entry *entries, size_t len, size_t room, answer *a) {
    clear(a);
    answered = a->status = svid_entries_write(entries, len, a->out, room, &a->told);
}

/* An entry, the text of one, and the head of a batch, as FORMATS.md has them. */
static svid_entry entry(uint64_t exp, int key, uint64_t made, uint64_t withdrawn) {
    svid_entry e = { withdrawn, exp, made, { 0 }, { 0 } };
    memset(e.key, key, sizeof e.key);
    memset(e.validator_id, 0x22, sizeof e.validator_id);
    return e;
}

static uint8_t *put_number(uint8_t *to, uint64_t number, int bytes) {
    for (int i = bytes; i--; number >>= 8) to[i] = (uint8_t)number;
    return to + bytes;
}

static uint8_t *put_entry(uint8_t *to, const svid_entry *e) {
    to = put_number(to, e->exp, 8);
    memcpy(to, e->key, 32);
    memcpy(to + 32, e->validator_id, 16);
    to = put_number(to + 48, e->at, 8);
    *to = e->withdrawn != 0;
    return to + 1;
}

static uint8_t *put_head(uint8_t *to, uint64_t moment, uint32_t count) {
    memcpy(to, "JSR\2\1", 5);
    return put_number(put_number(to + 5, moment, 8), count, 4);
}

/* Four entries of two times, in no order, one of them twice; and the messages that tell them. */
static svid_entry given[5], told[4];
static uint8_t text[2 * 17 + 4 * 65];
static void make(void) {
    given[0] = told[3] = entry(105, 0x11, 100, 7);
    told[3].withdrawn = 1;
    given[1] = told[1] = entry(105, 0x33, 99, 0);
    given[2] = told[0] = entry(104, 0x44, 99, 0);
    given[3] = told[2] = entry(105, 0x11, 100, 0);
    given[4] = given[1];
    uint8_t *to = put_head(text, 99, 2);
    to = put_entry(put_entry(to, &told[0]), &told[1]);
    to = put_head(to, 100, 2);
    to = put_entry(put_entry(to, &told[2]), &told[3]);
    holds(to == text + sizeof text, "the test is wrong");
}

static void is_refused_with(const answer *a, uint32_t status, size_t input, size_t message, size_t offset) {
    static answer none;
    clear(&none);
    holds(a->status == status, svid_strstatus(status));
    holds(a->told.len == 0 && a->told.input == input && a->told.message == message && a->told.offset == offset && a->told.more == 0, "tells otherwise");
    holds(!memcmp(a->out, none.out, sizeof none.out) && !memcmp(a->entries, none.entries, sizeof none.entries), "writes, though it is refused");
}

static void written(void) {
    static answer a;
    at = "entries";
    write_from(given, 5, sizeof a.out, &a);
    holds(a.status == SVID_OK && a.told.len == sizeof text && !memcmp(a.out, text, sizeof text) && a.out[sizeof text] == 0xA5, "are written otherwise");
    write_from(told, 4, sizeof text, &a);
    holds(a.status == SVID_OK && !memcmp(a.out, text, sizeof text), "in another order are written otherwise");
    write_from(given, 5, sizeof text - 1, &a);
    holds(a.status == SVID_TOO_SHORT && a.told.len == sizeof text && a.out[0] == 0xA5, "have no room, and it is not told");
    write_from(given, 0, sizeof a.out, &a);
    holds(a.status == SVID_OK && a.told.len == 0 && a.out[0] == 0xA5, "of none are written");
    at = "an entry that expires when it is made";
    svid_entry late[] = { entry(101, 1, 100, 0), entry(100, 1, 100, 0), entry(99, 1, 100, 0) };
    write_from(late, 3, sizeof a.out, &a);
    is_refused_with(&a, SVID_USE_EXPIRED, 0, 0, 1);
    write_from(late + 2, 1, sizeof a.out, &a);
    is_refused_with(&a, SVID_USE_EXPIRED, 0, 0, 0);
    at = "an entry of the last second";
    svid_entry last = entry(UINT64_MAX, 1, UINT64_MAX - 1, 0);
    write_from(&last, 1, sizeof a.out, &a);
    holds(a.status == SVID_OK && a.told.len == 82, "is not written");
}

static void were_read(void) {
    static answer a;
    static uint8_t other[SVID_SUMMARY_LEN + sizeof text];
    at = "the entries of messages";
    read_from(text, sizeof text, 8, &a);
    holds(a.status == SVID_OK && a.told.len == 4 && !memcmp(a.entries, told, sizeof told) && a.entries[4].exp == UINT64_C(0xA5A5A5A5A5A5A5A5), "are read otherwise");
    for (size_t room = 0; room < 4; room++) {
        read_from(text, sizeof text, room, &a);
        holds(a.status == SVID_TOO_SHORT && a.told.len == 4 && a.entries[0].exp == UINT64_C(0xA5A5A5A5A5A5A5A5), "have no room, and it is not told");
    }
    read_from(text, 0, 8, &a);
    holds(a.status == SVID_OK && a.told.len == 0, "of no bytes are some");
    at = "a summary in front of messages";
    memcpy(other, "JSR\2\2", 5);
    memcpy(other + SVID_SUMMARY_LEN, text, sizeof text);
    read_from(other, sizeof other, 8, &a);
    holds(a.status == SVID_OK && a.told.len == 4 && !memcmp(a.entries, told, sizeof told), "is not passed over");
    at = "messages that are cut";
    for (size_t len = 1; len < sizeof text; len++) {
        if (len == 17 + 2 * 65) continue;
        read_from(text, len, 8, &a);
        is_refused_with(&a, SVID_TRUNCATED, 1, len < 17 + 2 * 65 ? 1 : 2, len < 17 + 2 * 65 ? len : len - 17 - 2 * 65);
    }
    at = "messages that are changed";
    static const struct { size_t offset; uint8_t byte; uint32_t status; size_t message, told; } changes[] = {
        { 0, 'K', SVID_MAGIC, 1, 0 }, { 4, 3, SVID_KIND, 1, 4 }, { 13, 1, SVID_COUNT, 1, 13 }, { 147 + 4, 9, SVID_KIND, 2, 4 },
        { 81, 2, SVID_USE_KIND, 1, 17 }, { 12, 104, SVID_USE_EXPIRED, 1, 17 }, { 12, 98, SVID_USE_FUTURE, 1, 17 }, { 24, 106, SVID_USE_ORDER, 1, 82 },
    };
    for (size_t i = 0; i < sizeof changes / sizeof *changes; i++) {
        memcpy(other, text, sizeof text);
        other[changes[i].offset] = changes[i].byte;
        read_from(other, sizeof text, 8, &a);
        is_refused_with(&a, changes[i].status, 1, changes[i].message, changes[i].told);
    }
    at = "more bytes than an input may have";
    size_t len = (size_t)SVID_INPUT_MOST / 17 * 17 + 17;
    uint8_t *many = malloc(len);
    holds(many != NULL, "no memory for the test");
    for (size_t i = 0; i < len; i += 17) put_head(many + i, 0, 0);
    read_from(many, len, 8, &a);
    is_refused_with(&a, SVID_TOO_MUCH, 1, 0, 0);
    read_from(many, len - 17, 8, &a);
    holds(a.status == SVID_OK && a.told.len == 0, "one message less is refused");
    free(many);
}

/* More entries of one time than a batch may have, written and read. */
static void many(void) {
    size_t count = 2 * 65536 + 1, len = 3 * 17 + 65 * count, half = 17 + 65 * (size_t)65536;
    svid_entry *all = malloc(count * sizeof *all), *back = malloc(count * sizeof *back);
    uint8_t *out = malloc(len);
    svid_told t;
    at = "many entries of one time";
    holds(all && back && out, "no memory for the test");
    for (size_t i = 0; i < count; i++) {
        all[i] = entry(200, 0, 100, 0);
        put_number(all[i].key, (uint64_t)(i * 48271 % count), 8);
    }
    answered = svid_entries_write(all, count, out, len, &t);
    holds(answered == SVID_OK && t.len == len, "are written otherwise");
    holds(out[14] == 1 && out[15] == 0 && out[16] == 0 && out[half + 14] == 1 && out[2 * half + 16] == 1, "are in other batches");
    answered = svid_entries_read(out, len, back, count, &t);
    holds(answered == SVID_OK && t.len == count, "are read otherwise");
    uint8_t number[8];
    for (size_t i = 0; i < count; i++) {
        put_number(number, i, 8);
        holds(!memcmp(back[i].key, number, 8) && back[i].at == 100 && back[i].exp == 200 && !back[i].withdrawn, "come back otherwise");
    }
    free(all), free(back), free(out);
}

static void answers(void) {
    written();
    were_read();
    many();
    printf("entries written and read");
}

/* Each way to call: whether it writes, and what it is lent. */
static const struct { int writes; size_t len, room; } WAYS[] = {
    { 1, 5, 1024 }, { 1, 5, 10 }, { 1, 0, 1024 }, { 0, sizeof text, 8 }, { 0, sizeof text, 2 }, { 0, sizeof text - 1, 8 }, { 0, 0, 8 },
};
enum { ALL_WAYS = sizeof WAYS / sizeof *WAYS };

static void go(int way, answer *a) {
    at = WAYS[way].writes ? "svid_entries_write" : "svid_entries_read";
    if (WAYS[way].writes) write_from(given, WAYS[way].len, WAYS[way].room, a);
    else read_from(text, WAYS[way].len, WAYS[way].room, a);
}

static void refused(void) {
    static answer due, got, none;
    long tried = 0;
    for (int way = 0; way < ALL_WAYS; way++) {
        refused_at = asked = 0;
        go(way, &due);
        long all = asked;
        holds(due.status != SVID_NO_MEMORY && standing == 0, "memory is held");
        holds(!WAYS[way].len || all > 0, "no allocation was seen");
        for (long n = 1; n <= all; n++, tried++) {
            asked = 0, refused_at = n;
            go(way, &got);
            refused_at = 0;
            holds(standing == 0, "memory is held");
            if (got.status != SVID_NO_MEMORY) { holds(!memcmp(&got, &due, sizeof due), "the answer differs"); continue; }
            clear(&none);
            memset(&none.told, 0, sizeof none.told);
            none.status = SVID_NO_MEMORY;
            holds(!memcmp(&got, &none, sizeof none), "want of memory writes, or tells more");
        }
    }
    printf("%ld allocations refused", tried);
}

/* (the pages are given back at the end of the process) */
static void guarded(void) {
    static answer due, got;
    for (int turn = 0; turn < 2 * ALL_WAYS; turn++) {
        int way = turn / 2, first = turn % 2;
        size_t len = WAYS[way].len, room = WAYS[way].room;
        go(way, &due);
        clear(&got);
        svid_told *told_at = between(&got.told, sizeof got.told, first);
        if (WAYS[way].writes) {
            uint8_t *out = between(got.out, room, first);
            answered = got.status = svid_entries_write(between(given, len * sizeof *given, first), len, out, room, told_at);
            memcpy(got.out, out, room);
        } else {
            svid_entry *out = between(got.entries, room * sizeof *out, first);
            answered = got.status = svid_entries_read(between(text, len, first), len, out, room, told_at);
            memcpy(got.entries, out, room * sizeof *out);
        }
        got.told = *told_at;
        holds(!memcmp(&got, &due, sizeof got), "the answer differs");
    }
    printf("%d calls between pages that can't be touched", 2 * ALL_WAYS);
}

static void nulls(void) {
    static answer due, got;
    at = "NULL for no input";
    write_from(given, 0, sizeof due.out, &due), write_from(NULL, 0, sizeof got.out, &got);
    holds(!memcmp(&got, &due, sizeof got), "is answered otherwise");
    read_from(text, 0, 8, &due), read_from(NULL, 0, 8, &got);
    holds(!memcmp(&got, &due, sizeof got), "is answered otherwise");
    at = "NULL for a room of none";
    write_from(given, 5, 0, &due), clear(&got);
    answered = got.status = svid_entries_write(given, 5, NULL, 0, &got.told);
    holds(!memcmp(&got, &due, sizeof got), "is answered otherwise");
    read_from(text, sizeof text, 0, &due), clear(&got);
    answered = got.status = svid_entries_read(text, sizeof text, NULL, 0, &got.told);
    holds(!memcmp(&got, &due, sizeof got), "is answered otherwise");
    printf("NULL for each input and room");
}

static void *run(void *way) {
    static answer a;
    go(*(int *)way, &a);
    return NULL;
}

static void stack(void) {
    size_t most = 0;
    for (int way = 0; way < ALL_WAYS; way++) {
        size_t used = stack_of(run, &way);
        if (used > most) most = used;
    }
    is_stack(most, STACK_MOST);
}

int main(int count, char **words) {
    static const part parts[] = { { "refused", refused }, { "guarded", guarded }, { "nulls", nulls }, { "answers", answers }, { "stack", stack } };
    make();
    return run_part(count, words, parts, COUNT(parts));
}
