/* Calls svid_validator_digest, svid_summary_of, svid_summary_read, svid_validator_differs and svid_validator_bucket.
 *
 *   buckets answers   bucket by bucket they tell what svid_validator_summary and svid_validator_answer tell
 *   buckets refused   each call with each of its allocations refused in turn; linked with --wrap for malloc, realloc and free
 *   buckets guarded   all that a call is lent between pages that can't be touched, right before the one and right behind the other
 *   buckets nulls     NULL for no summary and a room of none: the answer is that of another pointer
 *   buckets stack     each call on a painted stack, which tells how much of it the call needs */
#include "harness.h"

STANDS_AT(svid_digests, moment, 0);
STANDS_AT(svid_digests, digests, 8);
_Static_assert(sizeof(svid_digests) == 8 + 256 * 32, "svid_digests");

enum { KEYS = 1000, ROOM = 1 << 17 };
static uint8_t messages[ROOM], summary[SVID_SUMMARY_LEN];
static size_t messages_len;

/* A validator with uses in most buckets: of each key, one expires at NOW + 5, and a withdrawal at NOW + 50. Not those from `from` to `to`. */
static void begin(svid_validator *v, uint64_t now, int from, int to) {
    static svid_entry entries[2 * KEYS];
    svid_told told;
    svid_validator none = SVID_VALIDATOR_CLOSED;
    size_t count = 0;
    *v = none;
    for (int i = 0; i < KEYS; i++) {
        if (i >= from && i < to) continue;
        for (uint64_t later = 0; later < 2; later++) {
            svid_entry e = { later, NOW + (later ? 50 : 5), NOW - 1 - (uint64_t)i % 3, { 0 }, { 1 } };
            e.key[0] = (uint8_t)(i * 7 % 199), e.key[1] = (uint8_t)i, e.key[2] = (uint8_t)(i >> 8);
            entries[count++] = e;
        }
    }
    holds(svid_entries_write(entries, count, messages, ROOM, &told) == SVID_OK, "the test has no messages");
    messages_len = told.len;
    holds(svid_validator_open(v, &TERMS, (const uint8_t *)"ledger", 6, bundles, bundles_len, &told) == SVID_OK, "it does not open");
    holds(svid_validator_take(v, NOW, messages, messages_len, &told) == SVID_OK && svid_validator_tick(v, now, &told) == SVID_OK, "it takes no messages");
}

/* The record of a validator, as messages. */
static size_t record(svid_validator *v, uint8_t *out) {
    svid_told told;
    holds(svid_validator_tell(v, out, ROOM * 2, &told) == SVID_OK, "the record is not told");
    return told.len;
}

static void digests_at(svid_validator *v, uint64_t moment, svid_digests *all, size_t *uses) {
    svid_told told;
    memset(all, 0xA5, sizeof *all);
    all->moment = moment;
    *uses = 0;
    for (int bucket = 0; bucket < 256; bucket++) {
        answered = svid_validator_digest(v, (uint8_t)bucket, all, &told);
        holds(answered == SVID_OK && told.input == 0 && told.message == 0 && told.offset == 0 && told.more == 0 && all->moment == moment, "a digest is told otherwise");
        *uses += told.len;
    }
}

/* Whether a call told just so many bytes or uses, and whether a bucket differs. */
static int is_told(const svid_told *told, size_t len, size_t more) {
    return told->len == len && told->input == 0 && told->message == 0 && told->offset == 0 && told->more == more;
}

/* Whether the digests of all buckets at a moment are the summary that the validator has then. */
static void is_summary(uint64_t moment) {
    static uint8_t whole[SVID_SUMMARY_LEN], pieces[SVID_SUMMARY_LEN + 1], before[2 * ROOM], after[2 * ROOM];
    static svid_digests all;
    svid_validator v;
    svid_told told;
    svid_size size;
    size_t uses;
    at = "a summary of digests";
    begin(&v, NOW, 0, 0);
    size_t len = record(&v, before);
    digests_at(&v, moment, &all, &uses);
    holds(record(&v, after) == len && !memcmp(before, after, len), "telling digests changes the record");
    pieces[SVID_SUMMARY_LEN] = 0xA5;
    answered = svid_summary_of(&all, pieces, sizeof pieces, &told);
    holds(answered == SVID_OK && told.len == SVID_SUMMARY_LEN && pieces[SVID_SUMMARY_LEN] == 0xA5, "is not written");
    holds(svid_validator_tick(&v, moment, &told) == SVID_OK && svid_validator_summary(&v, whole, sizeof whole, &told) == SVID_OK, "the whole summary is not written");
    holds(!memcmp(whole, pieces, sizeof whole), "is another one");
    holds(svid_validator_size(&v, &size, &told) == SVID_OK && size.uses == uses, "counts other uses");
    answered = svid_summary_of(&all, pieces, SVID_SUMMARY_LEN - 1, &told);
    holds(answered == SVID_TOO_SHORT && told.len == SVID_SUMMARY_LEN, "has no room, and it is not told");
    static svid_digests asked;
    memset(&asked, 0xA5, sizeof asked);
    answered = svid_summary_read(pieces, SVID_SUMMARY_LEN, &asked, &told);
    holds(answered == SVID_OK && is_told(&told, 0, 0) && !memcmp(&asked, &all, sizeof all), "is read as another one");
    svid_validator_close(&v);
}

static int by_bytes(const void *a, const void *b) { return memcmp(a, b, sizeof(svid_entry)); }

/* The uses of messages, in an order of their own. */
static size_t entries_of(const uint8_t *text, size_t len, svid_entry *entries) {
    svid_told told;
    holds(svid_entries_read(text, len, entries, 2 * KEYS, &told) == SVID_OK, "an answer is no messages");
    qsort(entries, told.len, sizeof *entries, by_bytes);
    return told.len;
}

/* Whether the answers of all buckets to the summary of another record tell what the whole answer tells. */
static void is_answer(uint64_t moment, int from, int to) {
    static uint8_t whole[2 * ROOM], pieces[2 * ROOM];
    static svid_entry of_whole[2 * KEYS], of_pieces[2 * KEYS];
    svid_validator v, other;
    svid_told told;
    static svid_digests asked;
    size_t len = 0, differing = 0;
    at = "answers of buckets";
    begin(&other, moment, from, to);
    holds(svid_validator_summary(&other, summary, sizeof summary, &told) == SVID_OK, "there is no summary");
    svid_validator_close(&other);
    begin(&v, NOW, 0, 0);
    answered = svid_summary_read(summary, sizeof summary, &asked, &told);
    holds(answered == SVID_OK && asked.moment == moment, "there is no such summary");
    for (int bucket = 0; bucket < 256; bucket++) {
        answered = svid_validator_differs(&v, (uint8_t)bucket, &asked, &told);
        holds(answered == SVID_OK && told.more < 2 && is_told(&told, 0, told.more), "whether a bucket differs is told otherwise");
        if (!told.more) continue;
        differing++;
        answered = svid_validator_bucket(&v, (uint8_t)bucket, asked.moment, pieces + len, sizeof pieces - len, &told);
        holds(answered == SVID_OK && is_told(&told, told.len, 0), "are told otherwise");
        len += told.len;
    }
    holds(differing == (size_t)(to - from > 199 ? 199 : to - from), "are of other buckets");
    holds(svid_validator_answer(&v, moment, summary, sizeof summary, whole, sizeof whole, &told) == SVID_OK, "there is no whole answer");
    size_t count = entries_of(whole, told.len, of_whole);
    holds(entries_of(pieces, len, of_pieces) == count && !memcmp(of_whole, of_pieces, count * sizeof *of_whole), "are others than the whole answer");
    holds((count > 0) == (to > from), "are of none, or of all");
    svid_validator_close(&v);
}

static void answers(void) {
    static const uint64_t moments[] = { NOW, NOW + 4, NOW + 5, NOW + 49, NOW + 50 };
    for (size_t i = 0; i < COUNT(moments); i++) is_summary(moments[i]);
    is_answer(NOW, 0, 0);
    is_answer(NOW, 10, 13);
    is_answer(NOW, 0, KEYS);
    is_answer(NOW + 5, 20, 30);
    /* What is no summary, and a moment in front of the record's. */
    static uint8_t out[ROOM];
    svid_validator v;
    svid_told told;
    at = "what is no summary";
    begin(&v, NOW + 5, 0, 0);
    static svid_digests all, before;
    memset(&all, 0xA5, sizeof all);
    before = all;
    answered = svid_summary_read(messages, messages_len, &all, &told);
    holds(answered == SVID_NOT_SUMMARY && is_told(&told, 0, 0) && !memcmp(&all, &before, sizeof all), "is read");
    answered = svid_summary_read(summary, 100, &all, &told);
    holds(answered == SVID_TRUNCATED && told.input == 1 && told.message == 1 && told.offset == 100 && !memcmp(&all, &before, sizeof all), "is read");
    at = "a bucket at some moments";
    answered = svid_validator_bucket(&v, 70, NOW + 49, out, ROOM, &told);
    size_t len = told.len;
    holds(answered == SVID_OK && len > 0, "has no uses");
    memset(out, 0xA5, ROOM);
    answered = svid_validator_bucket(&v, 70, NOW + 49, out, len - 1, &told);
    holds(answered == SVID_TOO_SHORT && is_told(&told, len, 0) && out[0] == 0xA5, "has no room, and it is not told");
    answered = svid_validator_bucket(&v, 70, NOW, out, len, &told);
    holds(answered == SVID_OK && is_told(&told, len, 0) && out[len] == 0xA5, "has what the record has not");
    answered = svid_validator_bucket(&v, 70, NOW + 50, out, ROOM, &told);
    holds(answered == SVID_OK && is_told(&told, 0, 0), "has what has expired");
    answered = svid_validator_bucket(&v, 230, NOW, out, ROOM, &told);
    holds(answered == SVID_OK && is_told(&told, 0, 0), "has uses of another");
    at = "a summary of an earlier moment";
    size_t uses;
    digests_at(&v, NOW, &all, &uses);
    holds(uses == KEYS, "has uses that the record has not");
    svid_validator_close(&v);
    answered = svid_validator_digest(&v, 7, &all, &told);
    holds(answered == SVID_CLOSED, "a closed validator tells a digest");
    printf("%d summaries and 4 answers, bucket by bucket", (int)COUNT(moments));
}

/* Those up to BUCKET take a handle, and those in front of it no memory. */
enum { DIGEST, DIFFERS, SAME, BUCKET, SUMMARY_OF, READ, NONE, WAYS };
static const char *const NAMES[] = { "svid_validator_digest", "svid_validator_differs", "a bucket that agrees", "svid_validator_bucket", "svid_summary_of", "svid_summary_read", "no summary" };
typedef struct { uint32_t status; svid_told told; svid_digests digests; uint8_t out[16384]; } answer;

/* A summary of other uses than the validator's in bucket 70, and of the same in bucket 198. */
static svid_digests of_summary;
static void make_summary(void) {
    svid_validator other;
    svid_told told;
    size_t uses;
    begin(&other, NOW, 10, 11);
    holds(svid_validator_summary(&other, summary, sizeof summary, &told) == SVID_OK, "there is no summary");
    digests_at(&other, NOW, &of_summary, &uses);
    svid_validator_close(&other);
}

static void clear(int way, answer *a) {
    memset(a, 0xA5, sizeof *a);
    memset(&a->told, 0, sizeof a->told);
    if (way < READ) a->digests = of_summary;
}

static uint32_t call_with(int way, svid_validator *v, const uint8_t *asked_by, size_t len, svid_digests *digests, uint8_t *out, size_t room, svid_told *told) {
    switch (way) {
    case DIGEST: return svid_validator_digest(v, 70, digests, told);
    case DIFFERS: return svid_validator_differs(v, 70, digests, told);
    case SAME: return svid_validator_differs(v, 198, digests, told);
    case BUCKET: return svid_validator_bucket(v, 70, NOW, out, room, told);
    case SUMMARY_OF: return svid_summary_of(digests, out, room, told);
    case READ: return svid_summary_read(asked_by, len, digests, told);
    default: return svid_summary_read(asked_by, 0, digests, told);
    }
}

static void go(int way, svid_validator *v, size_t room, answer *a) {
    at = NAMES[way];
    clear(way, a);
    answered = a->status = call_with(way, v, summary, sizeof summary, &a->digests, a->out, room, &a->told);
}

static void refused(void) {
    static answer due, got, none;
    static uint8_t before[2 * ROOM], after[2 * ROOM];
    long tried = 0;
    for (int way = 0; way < WAYS; way++) {
        svid_validator v;
        refused_at = 0;
        begin(&v, NOW, 0, 0);
        size_t len = record(&v, before);
        asked = 0;
        go(way, &v, sizeof due.out, &due);
        long all = asked, stood = standing;
        holds(due.status == (way == NONE ? SVID_NOT_SUMMARY : SVID_OK) && (way < BUCKET ? all == 0 : all > 0 || way == NONE), "it does not do what it is for");
        holds(way > SAME || way == DIGEST || due.told.more == (way == DIFFERS), "it is told otherwise");
        holds(way != READ || !memcmp(&due.digests, &of_summary, sizeof of_summary), "it is read otherwise");
        for (long n = 1; n <= all; n++, tried++) {
            asked = 0, refused_at = n;
            go(way, &v, sizeof got.out, &got);
            refused_at = 0;
            holds(standing == stood, "memory is held");
            clear(way, &none);
            none.status = SVID_NO_MEMORY;
            holds(!memcmp(&got, got.status == SVID_NO_MEMORY ? &none : &due, sizeof due), "the answer differs");
            holds(record(&v, after) == len && !memcmp(before, after, len), "the record differs");
        }
        svid_validator_close(&v);
        holds(standing == 0, "memory is held after close");
        go(way, &v, sizeof got.out, &got);
        clear(way, &none);
        if (way <= BUCKET) holds(got.status == SVID_CLOSED && !memcmp(got.out, none.out, sizeof none.out) && !memcmp(&got.digests, &none.digests, sizeof none.digests), "a closed validator does something");
    }
    printf("%ld allocations refused", tried);
}

/* (the pages are given back at the end of the process) */
static void guarded(void) {
    static answer due, got;
    svid_validator v;
    begin(&v, NOW, 0, 0);
    for (int turn = 0; turn < 2 * WAYS; turn++) {
        int way = turn / 2, first = turn % 2;
        go(way, &v, sizeof due.out, &due);
        size_t room = due.told.len && way != DIGEST ? due.told.len : 9;
        clear(way, &got);
        svid_told *told_at = between(&got.told, sizeof got.told, first);
        svid_digests *digests = between(&got.digests, sizeof got.digests, first);
        uint8_t *out = between(got.out, room, first);
        answered = got.status = call_with(way, &v, between(summary, sizeof summary, first), sizeof summary, digests, out, room, told_at);
        memcpy(got.out, out, room);
        got.digests = *digests;
        got.told = *told_at;
        holds(!memcmp(&got, &due, sizeof got), "the answer differs");
    }
    svid_validator_close(&v);
    printf("%d calls between pages that can't be touched", 2 * WAYS);
}

static void nulls(void) {
    static answer due, got;
    svid_validator v;
    begin(&v, NOW, 0, 0);
    go(NONE, &v, sizeof due.out, &due);
    at = "NULL for no summary";
    clear(NONE, &got);
    answered = got.status = svid_summary_read(NULL, 0, &got.digests, &got.told);
    holds(!memcmp(&got, &due, sizeof got), "is answered otherwise");
    at = "NULL for a room of none";
    for (int way = BUCKET; way <= SUMMARY_OF; way++) {
        go(way, &v, 0, &due);
        clear(way, &got);
        answered = got.status = call_with(way, &v, summary, sizeof summary, &got.digests, NULL, 0, &got.told);
        holds(!memcmp(&got, &due, sizeof got), "is answered otherwise");
    }
    svid_validator_close(&v);
    printf("NULL for each input and room");
}

static svid_validator held_open;
static void *run(void *way) {
    static answer a;
    go(*(int *)way, &held_open, sizeof a.out, &a);
    return NULL;
}

static void stack(void) {
    size_t most = 0;
    begin(&held_open, NOW, 0, 0);
    for (int way = 0; way < WAYS; way++) {
        size_t used = stack_of(run, &way);
        if (used > most) most = used;
    }
    svid_validator_close(&held_open);
    is_stack(most, STACK_MOST);
}

int main(int count, char **words) {
    static const part parts[] = { { "refused", refused }, { "guarded", guarded }, { "nulls", nulls }, { "answers", answers }, { "stack", stack } };
    read_examples();
    make_summary();
    return run_part(count, words, parts, COUNT(parts));
}
