/* Calls svid_bundles_join.
 *
 *   documents answers   what it answers of documents in each form
 *   documents refused   each call with each of its allocations refused in turn; linked with --wrap for malloc, realloc and free
 *   documents guarded   all that a call is lent between pages that can't be touched, right before the one and right behind the other
 *   documents nulls     NULL for no bytes, no documents and a room of none: the answer is that of another pointer
 *   documents stack     each call on a painted stack, which tells how much of it the call needs */
#include "harness.h"

STANDS_AT(svid_document, name_len, 0);
STANDS_AT(svid_document, text_len, 8);
STANDS_AT(svid_document, keys, 16);
_Static_assert(sizeof(svid_document) == 24, "svid_document");

enum { ROOM = 1024, MOST = 4 };
/* Documents, each with its name and its text. */
typedef struct { const char *name, *text; uint64_t keys; } given;
typedef struct { const char *what; given documents[MOST]; uint32_t status; size_t input, offset; const char *text; } row;

#define SET "{\"keys\":[]}"
#define L4 "[[[["
#define R4 "]]]]"
#define L31 L4 L4 L4 L4 L4 L4 L4 "[[["
#define R31 R4 R4 R4 R4 R4 R4 R4 "]]]"
/* 124 lists in one another. */
#define DEEP L31 L31 L31 L31 R31 R31 R31 R31
#define KEY "{\"kid\":\"k\",\"kty\":\"EC\"}"
/* The answers are those of SPIFFE Trust Domain and Bundle, section 4, of SPIFFE Workload API, section 6.2.2, and of docs/FORMATS.md. */
static const row ROWS[] = {
    { "no document", { { 0 } }, SVID_OK, 0, 0, "{}" },
    { "an object of trust domains", { { "", "{\"b\": " SET ", \"a\": {\"keys\": null}}", 0 } }, SVID_OK, 0, 0, "{\"a\":{\"keys\":null},\"b\":" SET "}" },
    { "the same, which says that it is keys", { { "", "{\"a\":" SET "}", 1 } }, SVID_OK, 0, 0, "{\"a\":" SET "}" },
    { "the bundle of a trust domain", { { "a", "{\"keys\":[" KEY "],\"spiffe_sequence\":1}", 0 } }, SVID_OK, 0, 0, "{\"a\":{\"keys\":[" KEY "],\"spiffe_sequence\":1}}" },
    { "a trust domain by its SPIFFE ID", { { "spiffe://a", SET, 0 } }, SVID_OK, 0, 0, "{\"a\":" SET "}" },
    { "keys for JWT-SVIDs alone", { { "a", "{\"keys\":[" KEY ",{\"use\":\"x509-svid\"},3],\"more\":1}", 1 } }, SVID_OK, 0, 0,
      "{\"a\":{\"keys\":[{\"kid\":\"k\",\"kty\":\"EC\",\"use\":\"jwt-svid\"},{\"use\":\"x509-svid\"},3]}}" },
    { "keys by any other number than 0", { { "a", "{\"keys\":[{}]}", UINT64_MAX } }, SVID_OK, 0, 0, "{\"a\":{\"keys\":[{\"use\":\"jwt-svid\"}]}}" },
    { "documents in each form", { { "c", SET, 0 }, { "", "{\"b\":" SET "}", 0 }, { "a", SET, 1 } }, SVID_OK, 0, 0, "{\"a\":" SET ",\"b\":" SET ",\"c\":" SET "}" },
    { "a bundle with null for its keys", { { "a", "{\"keys\":null}", 0 } }, SVID_OK, 0, 0, "{\"a\":{\"keys\":null}}" },
    { "keys with null for their list", { { "a", "{\"keys\":null,\"more\":1}", 1 } }, SVID_OK, 0, 0, "{\"a\":" SET "}" },
    { "a bundle that nests 126 deep", { { "a", "{\"keys\":[" DEEP "]}", 0 } }, SVID_OK, 0, 0, "{\"a\":{\"keys\":[" DEEP "]}}" },
    { "a bundle that nests 127 deep", { { "a", "{\"keys\":[[" DEEP "]]}", 0 } }, SVID_BUNDLES_NOT_OBJECT, 1, 0, NULL },
    { "keys that nest 127 deep", { { "a", "{\"keys\":[[" DEEP "]]}", 1 } }, SVID_BUNDLES_NOT_OBJECT, 1, 0, NULL },
    { "keys beside what nests 127 deep", { { "a", "{\"keys\":[],\"more\":[[" DEEP "]]}", 1 } }, SVID_OK, 0, 0, "{\"a\":" SET "}" },
    { "keys beside what nests 128 deep", { { "a", "{\"keys\":[],\"more\":[[[" DEEP "]]]}", 1 } }, SVID_BUNDLES_NOT_OBJECT, 1, 0, NULL },
    { "an object that nests 127 deep", { { "", "{\"a\":{\"keys\":[" DEEP "]}}", 0 } }, SVID_OK, 0, 0, "{\"a\":{\"keys\":[" DEEP "]}}" },
    { "an object that nests 128 deep", { { "", "{\"a\":{\"keys\":[[" DEEP "]]}}", 0 } }, SVID_BUNDLES_NOT_OBJECT, 1, 0, NULL },
    { "what is no JSON", { { "a", "{", 0 } }, SVID_BUNDLES_NOT_OBJECT, 1, 0, NULL },
    { "what is no object", { { "", "{}", 0 }, { "", "[]", 0 } }, SVID_BUNDLES_NOT_OBJECT, 2, 0, NULL },
    { "no text", { { "a", "", 0 } }, SVID_BUNDLES_NOT_OBJECT, 1, 0, NULL },
    { "a bundle without its name", { { "a", SET, 0 }, { "", SET, 0 } }, SVID_BUNDLES_UNNAMED, 2, 0, NULL },
    { "the same with null for its keys", { { "", "{\"keys\":null}", 0 } }, SVID_BUNDLES_UNNAMED, 1, 0, NULL },
    { "a name with a capital letter", { { "A", SET, 0 } }, SVID_BUNDLES_DOMAIN, 1, 0, NULL },
    { "the second name of an object", { { "", "{\"b/\":" SET ",\"a\":" SET "}", 0 } }, SVID_BUNDLES_DOMAIN, 1, 1, NULL },
    { "a name that is not UTF-8", { { "b", "{", 0 }, { "\xff", SET, 0 } }, SVID_BUNDLES_DOMAIN, 2, 0, NULL },
    { "a trust domain without keys", { { "", "{\"a\":" SET ",\"b\":{}}", 0 } }, SVID_BUNDLES_KEYS, 1, 1, NULL },
    { "a bundle without keys", { { "a", "{\"other\":" SET "}", 0 } }, SVID_BUNDLES_KEYS, 1, 0, NULL },
    { "a trust domain that two documents have", { { "a", SET, 0 }, { "", "{\"a\":" SET "}", 0 } }, SVID_BUNDLES_TWICE, 2, 0, NULL },
    { "the same by its ID", { { "a", SET, 1 }, { "spiffe://a", SET, 0 } }, SVID_BUNDLES_TWICE, 2, 0, NULL },
};
enum { ALL = sizeof ROWS / sizeof *ROWS };

typedef struct { uint32_t status; svid_told told; uint8_t out[ROOM]; } answer;
static void clear(answer *a) { memset(a, 0xA5, sizeof *a); }

/* The bytes of the documents of a row, and how many documents it has. */
static uint8_t bytes[ROOM];
static size_t bytes_len;
static svid_document documents[MOST];
static size_t lay_out(const row *r) {
    size_t count = 0;
    for (bytes_len = 0; count < MOST && r->documents[count].text; count++) {
        const given *one = &r->documents[count];
        svid_document d = { strlen(one->name), strlen(one->text), one->keys };
        memcpy(bytes + bytes_len, one->name, d.name_len);
        memcpy(bytes + bytes_len + d.name_len, one->text, d.text_len);
        bytes_len += d.name_len + d.text_len;
        documents[count] = d;
    }
    return count;
}

static void go(const row *r, size_t room, answer *a) {
    size_t count = lay_out(r);
    at = r->what;
    clear(a);
    answered = a->status = svid_bundles_join(bytes, bytes_len, documents, count, a->out, room, &a->told);
}

static void is_told(const answer *a, size_t len, size_t input, size_t offset) {
    holds(a->told.len == len && a->told.input == input && a->told.message == 0 && a->told.offset == offset && a->told.more == 0, "tells otherwise");
}

static void is_unwritten(const answer *a) {
    for (size_t i = 0; i < ROOM; i++) holds(a->out[i] == 0xA5, "writes, though it is refused");
}

static void is_due(const row *r, const answer *a) {
    holds(a->status == r->status, svid_strstatus(r->status));
    if (!r->text) { is_told(a, 0, r->input, r->offset); is_unwritten(a); return; }
    is_told(a, strlen(r->text), 0, 0);
    holds(!memcmp(a->out, r->text, strlen(r->text)) && a->out[strlen(r->text)] == 0xA5, "is joined otherwise");
}

static void answers(void) {
    static answer a;
    for (size_t i = 0; i < ALL; i++) {
        go(&ROWS[i], ROOM, &a);
        is_due(&ROWS[i], &a);
        if (!ROWS[i].text) continue;
        size_t len = strlen(ROWS[i].text);
        for (size_t room = 0; room < len; room++) {
            go(&ROWS[i], room, &a);
            holds(a.status == SVID_TOO_SHORT, "has no room, and it is not told");
            is_told(&a, len, 0, 0);
            is_unwritten(&a);
        }
        go(&ROWS[i], len, &a);
        holds(a.status == SVID_OK, "has just its room, and is refused");
    }
    /* Lengths that do not add up, also past all numbers. */
    static const svid_document unfit[][2] = {
        { { 1, 10, 0 }, { 0, 0, 0 } }, { { 1, 12, 0 }, { 0, 0, 0 } }, { { 13, 0, 0 }, { 0, 0, 0 } }, { { 1, 11, 0 }, { SIZE_MAX, 1, 0 } }, { { 1, 11, 0 }, { 0, SIZE_MAX, 0 } },
        { { SIZE_MAX, 2, 0 }, { 1, 9, 0 } }, { { 0, 0, 0 }, { 1, 10, 0 } },
    };
    memcpy(bytes, "a{\"keys\":[]}", 12);
    for (size_t i = 0; i < COUNT(unfit); i++) {
        at = "lengths that do not add up";
        clear(&a);
        answered = a.status = svid_bundles_join(bytes, 12, unfit[i], 2, a.out, ROOM, &a.told);
        holds(a.status == SVID_BUNDLES_LENGTHS, "are taken");
        is_told(&a, 0, 0, 0);
        is_unwritten(&a);
    }
    printf("%d documents joined or refused", (int)ALL);
}

static void refused(void) {
    static answer due, got;
    long tried = 0;
    for (size_t i = 0; i < ALL; i++) {
        refused_at = asked = 0;
        go(&ROWS[i], ROOM, &due);
        is_due(&ROWS[i], &due);
        long all = asked;
        size_t count = lay_out(&ROWS[i]), reads = 0;
        holds(standing == 0, "memory is held");
        for (long n = 1; n <= all; n++, tried++) {
            asked = 0, refused_at = n;
            go(&ROWS[i], ROOM, &got);
            refused_at = 0;
            holds(standing == 0, "memory is held");
            if (got.status != SVID_NO_MEMORY) { holds(!memcmp(&got, &due, sizeof due), "the answer differs"); continue; }
            holds(got.told.len == 0 && got.told.message == 0 && got.told.offset == 0 && got.told.more == 0, "want of memory tells more");
            holds(got.told.input <= count && (got.told.input >= reads || got.told.input == 0), "want of memory names another document");
            if (got.told.input > 0) reads = got.told.input;
            is_unwritten(&got);
        }
        holds(ROWS[i].status != SVID_OK || reads == count, "want of memory names no document");
    }
    printf("%ld allocations refused", tried);
}

/* (the pages are given back at the end of the process) */
static void guarded(void) {
    static answer due, got;
    for (size_t turn = 0; turn < 2 * ALL; turn++) {
        const row *r = &ROWS[turn / 2];
        int first = turn % 2;
        size_t room = r->text ? strlen(r->text) : 9;
        go(r, room, &due);
        size_t count = lay_out(r);
        clear(&got);
        svid_told *told_at = between(&got.told, sizeof got.told, first);
        uint8_t *out = between(got.out, room, first);
        answered = got.status = svid_bundles_join(between(bytes, bytes_len, first), bytes_len, between(documents, count * sizeof *documents, first), count, out, room, told_at);
        memcpy(got.out, out, room);
        got.told = *told_at;
        holds(!memcmp(&got, &due, sizeof got), "the answer differs");
    }
    printf("%d calls between pages that can't be touched", (int)(2 * ALL));
}

static void nulls(void) {
    static answer due, got;
    at = "NULL for no documents";
    go(&ROWS[0], ROOM, &due);
    clear(&got);
    answered = got.status = svid_bundles_join(NULL, 0, NULL, 0, got.out, ROOM, &got.told);
    holds(!memcmp(&got, &due, sizeof got), "is answered otherwise");
    at = "NULL for a room of none";
    go(&ROWS[1], 0, &due);
    clear(&got);
    answered = got.status = svid_bundles_join(bytes, bytes_len, documents, 1, NULL, 0, &got.told);
    holds(!memcmp(&got, &due, sizeof got), "is answered otherwise");
    printf("NULL for each input and room");
}

static void *run(void *which) {
    static answer a;
    go(&ROWS[*(size_t *)which], ROOM, &a);
    return NULL;
}

static void stack(void) {
    size_t most = 0;
    for (size_t i = 0; i < ALL; i++) {
        size_t used = stack_of(run, &i);
        if (used > most) most = used;
    }
    is_stack(most, STACK_MOST);
}

int main(int count, char **words) {
    static const part parts[] = { { "refused", refused }, { "guarded", guarded }, { "nulls", nulls }, { "answers", answers }, { "stack", stack } };
    return run_part(count, words, parts, COUNT(parts));
}
