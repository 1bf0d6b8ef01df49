/* Calls each function of svid.h with each of its allocations refused in turn, and with rooms of many lengths, over
 * the files of the folder examples/, where it runs.
 *
 * What goes in and out is lent between two pages that can't be touched, once right before the second one and once
 * right behind the first one, and is compared afterwards. Linked with --wrap for malloc, realloc and free, through
 * which the library takes all of its memory. */
#include "harness.h"

STANDS_AT(svid_id, offset, 0); STANDS_AT(svid_id, domain_len, 8); STANDS_AT(svid_id, path_len, 16);
STANDS_AT(svid_told, len, 0); STANDS_AT(svid_told, input, 8); STANDS_AT(svid_told, message, 16); STANDS_AT(svid_told, offset, 24); STANDS_AT(svid_told, more, 32);
STANDS_AT(svid_setting, moment, 0); STANDS_AT(svid_setting, longest, 8); STANDS_AT(svid_setting, validator_id, 16);
STANDS_AT(svid_use, exp, 0); STANDS_AT(svid_use, at, 8); STANDS_AT(svid_use, key, 16); STANDS_AT(svid_use, validator_id, 48);
_Static_assert(sizeof(svid_id) == 24 && sizeof(svid_told) == 40 && sizeof(svid_setting) == 32 && sizeof(svid_use) == 64, "sizes");

typedef struct { uint8_t *bytes; size_t len; } text;

/* Whether what is lent lies right behind the page before it, and not right before the page behind it. */
static int lies_first;

/* The bytes of the pages that a room of so many takes. */
static size_t paged(size_t len, size_t page) { return (len + page - 1) / page * page; }

/* Room of so many bytes, between two pages that can't be touched. */
static text room(size_t len) {
    return (text){ between(NULL, len, lies_first), len };
}

static void give_back(text t) {
    size_t page = (size_t)sysconf(_SC_PAGESIZE);
    uint8_t *own = t.bytes - (uintptr_t)t.bytes % page;
    holds(!munmap(own - page, paged(t.len, page) + 2 * page), "munmap");
}

static text lent(const void *bytes, size_t len) {
    return (text){ between(bytes, len, lies_first), len };
}

static text said(const char *words) { return lent(words, strlen(words)); }

static text file(const char *name) {
    static uint8_t bytes[FILE_MOST];
    size_t len = read_file(name, bytes);
    while (strstr(name, "token") && len && bytes[len - 1] == '\n') len--;
    return lent(bytes, len);
}

static text first(text t, size_t len) { return lent(t.bytes, len); }

/* A call: its name, the inputs, and what it is to answer. */
enum kind { ID, ALLOWS, JOIN, REPORT, SUMMARY, ANSWER };
#define INPUTS 2
typedef struct {
    const char *name;
    enum kind kind;
    text in[INPUTS];
    uint64_t now;
    uint32_t status;
    size_t input, message, offset;
} row;

typedef struct { svid_id id; svid_told told; } answer;

/* What a call is lent. */
typedef struct { text in[INPUTS], out, id, told; } loan;

static uint32_t call(enum kind kind, uint64_t now, const loan *l) {
    const text *in = l->in, out = l->out;
    svid_told *told = (svid_told *)l->told.bytes;
    switch (kind) {
    case ID: return svid_id_parse(in[0].bytes, in[0].len, (svid_id *)l->id.bytes);
    case ALLOWS: return svid_id_allows(in[0].bytes, in[0].len, in[1].bytes, in[1].len, (svid_id *)l->id.bytes);
    case JOIN: return svid_join(in[0].bytes, in[0].len, in[1].bytes, in[1].len, now, out.bytes, out.len, told);
    case REPORT: return svid_report(in[0].bytes, in[0].len, now, out.bytes, out.len, told);
    case SUMMARY: return svid_summary(in[0].bytes, in[0].len, now, out.bytes, out.len, told);
    default: return svid_answer(in[0].bytes, in[0].len, in[1].bytes, in[1].len, now, out.bytes, out.len, told);
    }
}

/* Takes back what was only to be read: it is as it was. */
static void unchanged(text t, const void *was, const char *why) {
    holds(!t.len || !memcmp(t.bytes, was, t.len), why);
    give_back(t);
}

/* Takes back a structure, with what the call wrote in it. */
static void taken(text t, void *to) {
    memcpy(to, t.bytes, t.len);
    give_back(t);
}

/* Calls with room for `len` bytes, while some allocations are refused: nothing stands afterwards, and no input has
 * changed. What is behind the text, or all of the room where there is none, is as it was. */
static text called(const row *r, size_t len, long from, long to, answer *a) {
    memset(a, 0xA5, sizeof *a);
    loan l = { .out = room(len), .id = lent(&a->id, sizeof a->id), .told = lent(&a->told, sizeof a->told) };
    memset(l.out.bytes, 0x5A, len);
    for (int i = 0; i < INPUTS; i++) l.in[i] = lent(r->in[i].bytes, r->in[i].len);
    asked = 0, refused_at = from, refused_to = to;
    answered = call(r->kind, r->now, &l);
    refused_at = 0;
    holds(standing == 0, "memory was not given back");
    for (int i = 0; i < INPUTS; i++) unchanged(l.in[i], r->in[i].bytes, "an input was changed");
    taken(l.id, &a->id), taken(l.told, &a->told);
    size_t text_len = answered == SVID_OK && r->kind > ALLOWS ? a->told.len : 0;
    holds(text_len <= len, "the text is longer than the room");
    for (size_t i = text_len; i < len; i++) holds(l.out.bytes[i] == 0x5A, "the room was changed behind the text");
    return l.out;
}

static int is_told(const answer *a, size_t len, size_t input, size_t message, size_t offset) {
    return a->told.len == len && a->told.input == input && a->told.message == message && a->told.offset == offset;
}

/* An ID has no room, and a fault no text: this is the answer of the row, with any room. */
static int is_answer(const row *r, const answer *a, size_t len) {
    if (r->kind <= ALLOWS) return answered == r->status && a->id.domain_len == r->input && a->id.path_len == r->message && a->id.offset == r->offset;
    return answered == r->status && is_told(a, len, r->input, r->message, r->offset);
}

/* All calls of a row. */
static void try_row(const row *r) {
    answer a;
    at = r->name;
    text none = called(r, 0, 0, 0, &a);
    size_t len = 0;
    if (answered == SVID_TOO_SHORT) len = a.told.len;
    text whole = called(r, len, 0, 0, &a);
    long takes = asked;
    holds(is_answer(r, &a, len), "not what is due");
    /* too short by all, by half and by one, as long as the text, and longer */
    size_t lens[] = { 0, len / 2, len ? len - 1 : 0, len, len + 1, len + 4096 };
    for (int i = 0; i < 6; i++) {
        text out = called(r, lens[i], 0, 0, &a);
        if (lens[i] < len) holds(answered == SVID_TOO_SHORT && is_told(&a, len, 0, 0, 0), "not too short");
        else holds(is_answer(r, &a, len) && !memcmp(out.bytes, whole.bytes, len), "another answer in another room");
        give_back(out);
    }
    /* each allocation alone, and each with all that follow it: the call is out of memory; or a report gives what is due, where
     * one alone was refused and a smaller one did (it collects uses, and a larger room is only asked for first) */
    for (long nth = 1; nth <= takes; nth++) {
        for (int all = 0; all < 2; all++) {
            text out = called(r, len, nth, all ? 1L << 40 : nth, &a);
            if (r->kind == REPORT && !all && asked > nth && answered == r->status) {
                holds(is_answer(r, &a, len) && !memcmp(out.bytes, whole.bytes, len), "another answer with a smaller allocation");
                give_back(out);
                continue;
            }
            holds(answered == SVID_NO_MEMORY, "want of memory is not told");
            if (r->kind <= ALLOWS) holds(a.id.offset == 0 && a.id.domain_len == 0 && a.id.path_len == 0, "something is told of an ID");
            else holds(is_told(&a, 0, 0, 0, 0), "something is told beside want of memory");
            give_back(out);
        }
    }
    text again = called(r, len, 0, 0, &a);
    holds(is_answer(r, &a, len) && !memcmp(again.bytes, whole.bytes, len), "another answer afterwards");
    give_back(none), give_back(whole), give_back(again);
}

/* The batch that tells of a use of the examples' token, by an acceptance at this moment. */
static text batch_of_acceptance(uint64_t now) {
    static uint8_t id[SVID_ID_ROOM];
    svid_validator v = SVID_VALIDATOR_CLOSED;
    svid_told told;
    svid_use used;
    text t = room(SVID_BATCH_OF_LEN);
    holds(svid_validator_open(&v, &TERMS, (const uint8_t *)"ledger", 6, bundles, bundles_len, &told) == SVID_OK, "a validator does not open");
    answered = check_token(&v, now, id, sizeof id, &used, &told);
    holds(answered == SVID_OK, "the token is not accepted");
    svid_validator_close(&v);
    svid_batch_of(&used, t.bytes);
    return t;
}

int main(void) {
    const uint64_t now = 1767225600;
    text o = said(""), two = file("two-uses.batch"), summary = room(8205), kept;
    answer a;
    read_examples();
    /* a record with the token's use, and its summary */
    kept = batch_of_acceptance(now);
    row summing = { "a summary", SUMMARY, { kept, o }, now, SVID_OK, 0, 0, 0 };
    text made = called(&summing, 8205, 0, 0, &a);
    holds(answered == SVID_OK && a.told.len == 8205, "the summary is not made");
    memcpy(summary.bytes, made.bytes, 8205);
    row rows[] = {
        { "an ID", ID, { said("spiffe://example.org/web"), o }, 0, SVID_OK, 11, 4, 0 },
        { "an ID with dots", ID, { said("spiffe://a/.."), o }, 0, SVID_ID_SEGMENT_DOTS, 0, 0, 11 },
        { "no ID", ID, { o, o }, 0, SVID_ID_SCHEME, 0, 0, 0 },
        { "an allowed ID", ALLOWS, { said("spiffe://example.org/web"), said("spiffe://example.org/web") }, 0, SVID_OK, 11, 4, 0 },
        { "an ID below a path", ALLOWS, { said("spiffe://example.org/*"), said("spiffe://example.org/web") }, 0, SVID_OK, 11, 4, 0 },
        { "an ID of a trust domain", ALLOWS, { said("spiffe://example.org"), said("spiffe://example.org/web") }, 0, SVID_OK, 11, 4, 0 },
        { "an ID that is not allowed", ALLOWS, { said("spiffe://example.org/web/*"), said("spiffe://example.org/web") }, 0, SVID_NOT_ALLOWED, 11, 4, 0 },
        { "no pattern", ALLOWS, { o, said("spiffe://a") }, 0, SVID_PATTERN_SCHEME, 0, 0, 0 },
        { "a pattern with a star inside", ALLOWS, { said("spiffe://a/*/b"), said("spiffe://a") }, 0, SVID_PATTERN_PATH_BYTE, 0, 0, 11 },
        { "a pattern and no ID", ALLOWS, { said("spiffe://a/*"), said("spiffe://a/b/") }, 0, SVID_ID_SEGMENT_EMPTY, 0, 0, 13 },
        { "neither a pattern nor an ID", ALLOWS, { said("spiffe://A"), said("spiffe://a/.") }, 0, SVID_PATTERN_DOMAIN_BYTE, 0, 0, 9 },
        { "a join", JOIN, { two, kept }, 0, SVID_OK, 0, 0, 0 },
        { "a join of nothing", JOIN, { o, o }, 0, SVID_OK, 0, 0, 0 },
        { "a join with a cut batch", JOIN, { two, first(two, 40) }, 0, SVID_TRUNCATED, 2, 1, 40 },
        { "a join with other bytes", JOIN, { said("{}..."), two }, 0, SVID_MAGIC, 1, 1, 0 },
        { "a join of two bad inputs", JOIN, { first(two, 40), said("{}...") }, 0, SVID_TRUNCATED, 1, 1, 40 },
        { "a report", REPORT, { two, o }, 0, SVID_OK, 0, 0, 0 },
        { "a report when all has expired", REPORT, { kept, o }, UINT64_MAX, SVID_OK, 0, 0, 0 },
        { "a summary", SUMMARY, { kept, o }, now, SVID_OK, 0, 0, 0 },
        { "an answer", ANSWER, { summary, two }, 0, SVID_OK, 0, 0, 0 },
        { "an answer to a batch", ANSWER, { two, two }, 0, SVID_NOT_SUMMARY, 0, 0, 0 },
        { "an answer of a cut batch", ANSWER, { summary, first(two, 40) }, 0, SVID_TRUNCATED, 2, 1, 40 },
        { "an answer to a batch, of a cut batch", ANSWER, { two, first(two, 40) }, 0, SVID_NOT_SUMMARY, 0, 0, 0 },
        { "an answer to a cut summary, of a cut batch", ANSWER, { first(summary, 50), first(two, 40) }, 0, SVID_TRUNCATED, 1, 1, 50 },
    };
    size_t count = sizeof rows / sizeof *rows;
    for (lies_first = 0; lies_first < 2; lies_first++)
        for (size_t i = 0; i < count; i++) try_row(&rows[i]);
    if (refused_in_all < 100) { printf("only %ld allocations were refused\n", refused_in_all); return 1; }
    printf("%zu calls of the C library, before and behind pages that can't be touched, %ld allocations refused\n", count, refused_in_all);
    return 0;
}
