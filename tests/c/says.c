/* Calls what svid.h has for a request and its token without a record: svid_bearer_token, svid_token_says, svid_token_signature, svid_token_payload,
 * svid_bundles_judge; svid_validator_size; and what a status is called and says: svid_status_name, svid_status_sentence. Runs in the folder examples/.
 *
 *   says answers   what each answers, beside what is known of the files here and of RFC 6750
 *   says refused   each call with each of its allocations refused in turn; linked with --wrap for malloc, realloc and free
 *   says guarded   all that a call is lent between pages that can't be touched, right before the one and right behind the other
 *   says nulls     NULL for each input of no bytes, and for a room of none: the answer is that of another pointer
 *   says stack     each call on a painted stack, which tells how much of it the call needs */
#include "harness.h"

STANDS_AT(svid_bearer, at, 0); STANDS_AT(svid_bearer, len, 8); STANDS_AT(svid_said, key, 0); STANDS_AT(svid_said, exp, 32); STANDS_AT(svid_said, texts, 40);
STANDS_AT(svid_size, moment, 0); STANDS_AT(svid_size, uses, 8);
_Static_assert(sizeof(svid_bearer) == 16 && sizeof(svid_said) == 48 && sizeof(svid_size) == 16, "sizes");

static svid_question question;

enum { BEARER, SAYS, SIGNATURE, PAYLOAD, JUDGE, SIZE, NAME, SENTENCE, CALLS };
static const char *const NAMES[] = { "svid_bearer_token", "svid_token_says", "svid_token_signature", "svid_token_payload", "svid_bundles_judge", "svid_validator_size", "svid_status_name", "svid_status_sentence" };

/* What a call wrote: its status, and all that it may write. */
typedef struct { uint32_t status; svid_told told; svid_bearer bearer; svid_said said; svid_signed over; svid_size size; svid_use used; size_t lens[8]; uint8_t out[4096]; } answer;

/* What a call is lent. */
enum { VALUE, TOKEN, OWN, LENS, YES, INPUTS };
typedef struct { const void *bytes; size_t len; } input;
typedef struct {
    input in[INPUTS];
    const svid_setting *setting;
    svid_bundles *b;
    svid_validator *v;
    svid_bearer *bearer;
    svid_said *said;
    svid_signed *over;
    svid_size *size;
    svid_use *used;
    size_t *lens, lens_len;
    uint8_t *out;
    size_t room;
    svid_told *told;
} loan;

static const size_t OWN_LENS[] = { 2, 6 };
static const svid_setting SETTING = { NOW, UINT64_MAX, { 1, 2, 3 } };

static loan lent(svid_bundles *b, svid_validator *v, answer *a) {
    loan l = { { { "bearer  a.b.c ", 14 }, { token, token_len }, { "x\nledger", 8 }, { OWN_LENS, sizeof OWN_LENS }, { &question, sizeof question } },
               &SETTING, b, v, &a->bearer, &a->said, &a->over, &a->size, &a->used, a->lens, 8, a->out, sizeof a->out, &a->told };
    return l;
}

static uint32_t call_with(int which, const loan *l) {
    const input *in = l->in;
    switch (which) {
    case BEARER: return svid_bearer_token(1, in[VALUE].bytes, in[VALUE].len, l->bearer);
    case SAYS: return svid_token_says(in[TOKEN].bytes, in[TOKEN].len, l->said, l->lens, l->lens_len, l->out, l->room, l->told);
    case SIGNATURE: return svid_token_signature(in[TOKEN].bytes, in[TOKEN].len, l->over, l->out, l->room, l->told);
    case PAYLOAD: return svid_token_payload(in[TOKEN].bytes, in[TOKEN].len, l->out, l->room, l->told);
    case JUDGE: return svid_bundles_judge(l->b, l->setting, in[OWN].bytes, in[OWN].len, in[LENS].bytes, in[LENS].len / sizeof(size_t), in[YES].bytes, in[YES].len / sizeof question,
                                          in[TOKEN].bytes, in[TOKEN].len, l->out, l->room, l->used, l->told);
    case SIZE: return svid_validator_size(l->v, l->size, l->told);
    case NAME: return svid_status_name(SVID_NO_MEMORY, l->out, l->room, l->told);
    default: return svid_status_sentence(SVID_NO_MEMORY, l->out, l->room, l->told);
    }
}

static void clear(answer *a) { memset(a, 0xA5, sizeof *a); }

static void call(int which, svid_bundles *b, svid_validator *v, answer *a) {
    loan l = lent(b, v, a);
    clear(a);
    at = NAMES[which];
    answered = a->status = call_with(which, &l);
}

/* The bundles of the folder, open; and a validator that has accepted its token. */
static void begin(svid_bundles *b, svid_validator *v) {
    static const svid_terms terms = { UINT64_MAX, 10, UINT64_MAX, { 1 } };
    static const svid_bundles no_bundles = SVID_BUNDLES_CLOSED;
    static const svid_validator no_validator = SVID_VALIDATOR_CLOSED;
    static uint8_t id[SVID_ID_ROOM];
    svid_told told;
    svid_use used;
    *b = no_bundles;
    *v = no_validator;
    at = "begin";
    holds((answered = svid_bundles_open(b, bundles, bundles_len, &told)) == SVID_OK, "bundles");
    holds((answered = svid_bundles_question(b, token, token_len, 0, &question, &told)) == SVID_OK, "a question");
    holds((answered = svid_validator_open(v, &terms, (const uint8_t *)"ledger", 6, bundles, bundles_len, &told)) == SVID_OK, "a validator");
    holds((answered = check_token(v, NOW, id, sizeof id, &used, &told)) == SVID_OK, "a check");
}

static void end(svid_bundles *b, svid_validator *v) {
    svid_bundles_close(b);
    svid_validator_close(v);
}

static int is_text(const answer *a, size_t number, const char *text) {
    size_t from = 0;
    for (size_t i = 0; i < number; i++) from += a->lens[i];
    return a->lens[number] == strlen(text) && !memcmp(a->out + from, text, strlen(text));
}

static int untouched(const void *bytes, size_t len) {
    for (size_t i = 0; i < len; i++) if (((const uint8_t *)bytes)[i] != 0xA5) return 0;
    return 1;
}

/* The key of the token of the folder: by Python's hashlib, from docs/FORMATS.md. */
static const uint8_t KEY[32] = { 0x0c, 0xb1, 0x1d, 0xc5, 0xe3, 0xa2, 0x71, 0xe8, 0xd7, 0xb0, 0xe7, 0x46, 0x39, 0x16, 0x5f, 0x5f,
                                 0xeb, 0xf6, 0x1d, 0x2c, 0xbc, 0xad, 0xca, 0x6c, 0x6d, 0x5d, 0x65, 0x98, 0x34, 0x70, 0x1a, 0xef };

static void bearers(void) {
    static const struct { uint64_t fields; const char *value; uint32_t due; size_t at, len; } rows[] = {
        { 1, "Bearer a", SVID_OK, 7, 1 }, { 1, "\t bEARER   a.b.c= \t", SVID_OK, 11, 6 }, { 0, "Bearer a", SVID_BEARER_ABSENT, 0, 0 },
        { 2, "Bearer a", SVID_BEARER_SEVERAL, 0, 0 }, { UINT64_MAX, "", SVID_BEARER_SEVERAL, 0, 0 }, { 1, "", SVID_BEARER_SCHEME, 0, 0 },
        { 1, "Basic YTpi", SVID_BEARER_SCHEME, 0, 0 }, { 1, "Bearer", SVID_BEARER_SPELLING, 0, 0 }, { 1, "Bearer a,Bearer b", SVID_BEARER_SPELLING, 0, 0 },
        { 1, "Bearer\ta", SVID_BEARER_SPELLING, 0, 0 }, { 1, "Bearer =", SVID_BEARER_SPELLING, 0, 0 },
    };
    at = "svid_bearer_token";
    for (size_t i = 0; i < sizeof rows / sizeof *rows; i++) {
        svid_bearer found = { 99, 99 };
        answered = svid_bearer_token(rows[i].fields, (const uint8_t *)rows[i].value, strlen(rows[i].value), &found);
        holds(answered == rows[i].due && found.at == rows[i].at && found.len == rows[i].len, rows[i].value);
    }
    static uint8_t value[7 + 65537];
    svid_bearer found;
    memset(value, 'a', sizeof value);
    memcpy(value, "Bearer ", 7);
    answered = svid_bearer_token(1, value, sizeof value, &found);
    holds(answered == SVID_TOO_LONG && found.at == 0 && found.len == 0, "one byte too many");
    answered = svid_bearer_token(1, value, sizeof value - 1, &found);
    holds(answered == SVID_OK && found.at == 7 && found.len == 65536, "as many as there may be");
}

static void sayings(svid_bundles *b, svid_validator *v) {
    static answer a;
    call(SAYS, b, v, &a);
    holds(a.status == SVID_OK && !memcmp(a.said.key, KEY, 32) && a.said.exp == 4102444800 && a.said.texts == 5, "what a token says");
    holds(is_text(&a, 0, "ES256") && is_text(&a, 1, "spiffe://example.org/billing/api") && is_text(&a, 2, "example.org") && is_text(&a, 3, "ec-1") && is_text(&a, 4, "ledger"), "its texts");
    holds(a.told.len == 5 + 32 + 11 + 4 + 6 && untouched(a.out + a.told.len, sizeof a.out - a.told.len) && untouched(a.lens + 5, 3 * sizeof *a.lens), "behind them");
    /* Each room that is too short. */
    for (size_t lens_len = 0; lens_len <= 5; lens_len++) for (size_t len = 0; len <= a.told.len; len++) {
        static answer c;
        loan l = lent(b, v, &c);
        clear(&c);
        l.lens_len = lens_len, l.room = len;
        answered = call_with(SAYS, &l);
        int fits = lens_len == 5 && len == a.told.len;
        holds(answered == (fits ? SVID_OK : SVID_TOO_SHORT) && c.told.len == a.told.len && !memcmp(&c.said, &a.said, sizeof c.said), "rooms");
        holds(fits || (untouched(c.out, sizeof c.out) && untouched(c.lens, sizeof c.lens)), "too short a room is written");
    }
    /* Header {"alg":"ES256"}, claims {"sub":"spiffe://a","aud":["","x\n\u0000y"],"exp":1}: no name of a key, and characters of any kind. */
    static const char other[] = "eyJhbGciOiJFUzI1NiJ9.eyJzdWIiOiJzcGlmZmU6Ly9hIiwiYXVkIjpbIiIsInhcblx1MDAwMHkiXSwiZXhwIjoxfQ.AA";
    loan l = lent(b, v, &a);
    clear(&a);
    l.in[TOKEN].bytes = other, l.in[TOKEN].len = sizeof other - 1;
    answered = call_with(SAYS, &l);
    holds(answered == SVID_OK && a.said.texts == 6 && a.said.exp == 1 && a.lens[3] == 0 && a.lens[4] == 0 && a.lens[5] == 4, "texts of any characters");
    holds(a.told.len == 5 + 10 + 1 + 4 && !memcmp(a.out + 16, "x\n\0y", 4), "a zero byte");
    /* No JWT-SVID: a token without exp. */
    static const char bad[] = "eyJhbGciOiJFUzI1NiJ9.eyJzdWIiOiJzcGlmZmU6Ly9hIiwiYXVkIjoicyJ9.AA";
    l.in[TOKEN].bytes = bad, l.in[TOKEN].len = sizeof bad - 1;
    clear(&a);
    answered = call_with(SAYS, &l);
    holds(answered == SVID_EXP && a.told.len == 0 && untouched(&a.said, sizeof a.said) && untouched(a.lens, sizeof a.lens) && untouched(a.out, sizeof a.out), "no JWT-SVID");
}

/* The signature, as svid_token_signature has it: by an own reading of base64url (RFC 4648, section 5). */
static size_t decoded(const uint8_t *text, size_t len, uint8_t *to) {
    static const char alphabet[] = "ABCDEFGHIJKLMNOPQRSTUVWXYZabcdefghijklmnopqrstuvwxyz0123456789-_";
    size_t n = 0;
    uint32_t bits = 0;
    for (size_t i = 0; i < len; i++) {
        bits = bits << 6 | (uint32_t)(strchr(alphabet, text[i]) - alphabet);
        if (i % 4) to[n++] = (uint8_t)(bits >> (6 - 2 * (i % 4)));
    }
    return n;
}

/* The longest part that a token may have, with its two periods at the first byte and at this one; and a token of one byte more. */
static void longest(int which, size_t second, svid_bundles *b, svid_validator *v) {
    static answer a;
    static uint8_t most[65537];
    loan l = lent(b, v, &a);
    memset(most, 'A', sizeof most);
    most[0] = most[second] = '.';
    l.in[TOKEN].bytes = most, l.in[TOKEN].len = sizeof most - 1;
    answered = call_with(which, &l);
    holds(answered == SVID_TOO_SHORT && a.told.len == SVID_SIGNATURE_ROOM, "the longest one");
    l.in[TOKEN].len = sizeof most;
    answered = call_with(which, &l);
    holds(answered == SVID_TOO_LONG && a.told.len == 0, "a token that is too long");
}

static void signatures(svid_bundles *b, svid_validator *v) {
    static answer a, c;
    static uint8_t due[64];
    call(SIGNATURE, b, v, &a);
    size_t over = token_len - 87;
    holds(a.status == SVID_OK && a.over.len == over && token[over] == '.' && a.told.len == 64, "how long it is, and what it is over");
    holds(decoded(token + over + 1, 86, due) == 64 && !memcmp(a.out, due, 64) && untouched(a.out + 64, sizeof a.out - 64), "its bytes");
    for (size_t len = 0; len <= 64; len++) {
        loan l = lent(b, v, &c);
        clear(&c);
        l.room = len;
        answered = call_with(SIGNATURE, &l);
        holds(answered == (len == 64 ? SVID_OK : SVID_TOO_SHORT) && c.told.len == 64 && c.over.len == over, "rooms");
        holds(len == 64 || untouched(c.out, sizeof c.out), "too short a room is written");
    }
    /* Neither header nor payload is read. */
    static const struct { const char *token; uint32_t due; size_t over, len; } rows[] = {
        { "..AA", SVID_OK, 1, 1 }, { "%.%.-_8", SVID_OK, 3, 2 }, { "..", SVID_SIGNATURE_SPELLING, 0, 0 }, { "a.b.A", SVID_SIGNATURE_SPELLING, 0, 0 },
        { "a.b.AA==", SVID_SIGNATURE_SPELLING, 0, 0 }, { "a.b.AB", SVID_SIGNATURE_SPELLING, 0, 0 }, { "a.b.A+", SVID_SIGNATURE_SPELLING, 0, 0 },
        { "", SVID_NOT_THREE_PARTS, 0, 0 }, { "a.AA", SVID_NOT_THREE_PARTS, 0, 0 }, { "a.b.AA.", SVID_NOT_THREE_PARTS, 0, 0 },
    };
    for (size_t i = 0; i < sizeof rows / sizeof *rows; i++) {
        loan l = lent(b, v, &c);
        clear(&c);
        l.in[TOKEN].bytes = rows[i].token, l.in[TOKEN].len = strlen(rows[i].token);
        answered = call_with(SIGNATURE, &l);
        holds(answered == rows[i].due && c.told.len == rows[i].len, rows[i].token);
        holds(answered == SVID_OK ? c.over.len == rows[i].over : untouched(&c.over, sizeof c.over) && untouched(c.out, sizeof c.out), rows[i].token);
    }
    longest(SIGNATURE, 1, b, v);
}

/* The payload is that of the folder's token by the same reading, and no other part is read. */
static void payloads(svid_bundles *b, svid_validator *v) {
    static answer a, c;
    static uint8_t due[4096];
    const uint8_t *from = (const uint8_t *)memchr(token, '.', token_len) + 1;
    size_t len = decoded(from, token_len - 87 - (size_t)(from - token), due);
    call(PAYLOAD, b, v, &a);
    holds(a.status == SVID_OK && a.told.len == len && !memcmp(a.out, due, len) && untouched(a.out + len, sizeof a.out - len), "its bytes");
    holds(due[0] == '{' && due[len - 1] == '}', "it is no object");
    for (size_t room = 0; room <= len; room++) {
        loan l = lent(b, v, &c);
        clear(&c);
        l.room = room;
        answered = call_with(PAYLOAD, &l);
        holds(answered == (room == len ? SVID_OK : SVID_TOO_SHORT) && c.told.len == len && (room == len || untouched(c.out, sizeof c.out)), "rooms");
    }
    static const struct { const char *token; uint32_t due; size_t len; } rows[] = {
        { "..", SVID_OK, 0 }, { "%.AA.%", SVID_OK, 1 }, { ".-_8.", SVID_OK, 2 }, { ".A.", SVID_PAYLOAD_SPELLING, 0 }, { ".AA==.", SVID_PAYLOAD_SPELLING, 0 },
        { ".AB.", SVID_PAYLOAD_SPELLING, 0 }, { ".A+.", SVID_PAYLOAD_SPELLING, 0 }, { "", SVID_NOT_THREE_PARTS, 0 }, { "a.AA", SVID_NOT_THREE_PARTS, 0 },
        { "a.AA.b.", SVID_NOT_THREE_PARTS, 0 },
    };
    for (size_t i = 0; i < sizeof rows / sizeof *rows; i++) {
        loan l = lent(b, v, &c);
        clear(&c);
        l.in[TOKEN].bytes = rows[i].token, l.in[TOKEN].len = strlen(rows[i].token);
        answered = call_with(PAYLOAD, &l);
        holds(answered == rows[i].due && c.told.len == rows[i].len && untouched(c.out + rows[i].len, sizeof c.out - rows[i].len), rows[i].token);
    }
    longest(PAYLOAD, 65535, b, v);
}

static void judgments(svid_bundles *b, svid_validator *v) {
    static answer a, c;
    call(JUDGE, b, v, &a);
    holds(a.status == SVID_OK && !memcmp(a.used.key, KEY, 32) && a.used.exp == 4102444800 && a.used.at == NOW && !memcmp(a.used.validator_id, SETTING.validator_id, 16), "the use");
    holds(a.told.len == 32 && !memcmp(a.out, "spiffe://example.org/billing/api", 32) && untouched(a.out + 32, sizeof a.out - 32), "the ID");
    /* The validator that accepted the token refuses it, and these bundles do not, however often. */
    holds((answered = judge_token(v, NOW, c.out, sizeof c.out, &c.used, &c.told)) == SVID_REPLAYED, "the validator forgot it");
    call(JUDGE, b, v, &c);
    holds(!memcmp(&a, &c, sizeof a), "a second judgment differs");
    static const struct { svid_setting setting; int own, yes; size_t room; uint32_t due; } rows[] = {
        { { 4102444800, UINT64_MAX, { 1 } }, 1, 1, 2048, SVID_EXPIRED }, { { 4102444799, UINT64_MAX, { 1 } }, 1, 1, 2048, SVID_OK },
        { { NOW, 4102444799 - NOW, { 1 } }, 1, 1, 2048, SVID_TOO_LONG_LIVED }, { { NOW, 4102444800 - NOW, { 1 } }, 1, 1, 2048, SVID_OK },
        { { NOW, UINT64_MAX, { 1 } }, 0, 1, 2048, SVID_NOT_AUDIENCE }, { { NOW, UINT64_MAX, { 1 } }, 1, 0, 2048, SVID_BAD_SIGNATURE },
        { { NOW, UINT64_MAX, { 1 } }, 1, 1, 2047, SVID_TOO_SHORT }, { { NOW, UINT64_MAX, { 1 } }, 2, 1, 2047, SVID_OWN_LENGTHS }, { { NOW, UINT64_MAX, { 1 } }, 3, 1, 2048, SVID_OWN_NOT_UTF8 },
    };
    for (size_t i = 0; i < sizeof rows / sizeof *rows; i++) {
        static const size_t short_lens[] = { 2, 5 }, one[] = { 1 };
        loan l = lent(b, v, &c);
        clear(&c);
        l.setting = &rows[i].setting;
        l.room = rows[i].room;
        if (rows[i].own == 0) l.in[OWN].len = 2, l.in[LENS].len = sizeof(size_t);
        if (rows[i].own == 2) l.in[LENS].bytes = short_lens;
        if (rows[i].own == 3) l.in[OWN].bytes = "\377", l.in[OWN].len = 1, l.in[LENS].bytes = one, l.in[LENS].len = sizeof one;
        if (!rows[i].yes) l.in[YES].len = 0;
        answered = call_with(JUDGE, &l);
        holds(answered == rows[i].due, "a row of judgments");
        holds(answered == SVID_OK || (untouched(c.out, sizeof c.out) && untouched(&c.used, sizeof c.used)), "what is refused is written");
    }
    svid_bundles closed = SVID_BUNDLES_CLOSED;
    call(JUDGE, &closed, v, &c);
    holds(c.status == SVID_CLOSED && c.told.len == 0 && untouched(c.out, sizeof c.out), "closed bundles");
    /* They still list the key. */
    holds((answered = svid_bundles_question(b, token, token_len, 0, &question, &c.told)) == SVID_OK, "the bundles are gone");
}

static void sizes(svid_bundles *b, svid_validator *v) {
    static answer a;
    static const svid_key other = { { 7 } };
    call(SIZE, b, v, &a);
    holds(a.status == SVID_OK && a.size.moment == NOW && a.size.uses == 1 && a.told.len == 0, "one use");
    holds((answered = svid_validator_withdraw(v, NOW, &other, NOW + 5, &a.used, &a.told)) == SVID_OK, "a withdrawal");
    call(SIZE, b, v, &a);
    holds(a.status == SVID_OK && a.size.uses == 2, "a withdrawal counts");
    holds((answered = svid_validator_tick(v, NOW + 5, &a.told)) == SVID_OK, "a tick");
    call(SIZE, b, v, &a);
    holds(a.size.moment == NOW + 5 && a.size.uses == 1, "what has expired counts");
    svid_validator closed = SVID_VALIDATOR_CLOSED;
    call(SIZE, b, &closed, &a);
    holds(a.status == SVID_CLOSED && untouched(&a.size, sizeof a.size), "a closed validator");
}

/* A text into each room up to its length and one more; `before` is how much of it is no advice. */
static void is_written(uint32_t (*writes)(uint32_t, uint8_t *, size_t, svid_told *), uint32_t status, const char *text, size_t before) {
    size_t len = strlen(text);
    for (size_t room = 0; room <= len + 1; room++) {
        static answer a;
        clear(&a);
        answered = writes(status, a.out, room, &a.told);
        size_t written = room < len ? 0 : len;
        holds(answered == (room < len ? SVID_TOO_SHORT : SVID_OK) && a.told.len == len && a.told.more == before, text);
        holds(!a.told.input && !a.told.message && !a.told.offset, "it tells more");
        holds(!memcmp(a.out, text, written) && untouched(a.out + written, sizeof a.out - written), text);
    }
}

/* The name and the sentence of each number are those that the helpers of svid.h return. Some stand here whole. */
static void statuses(void) {
    static const struct { uint32_t status; const char *name, *says, *advice; } rows[] = {
        { SVID_OK, "SVID_OK", "The answer is yes, or the call did what it is for.", "" }, { SVID_NO_MEMORY, "SVID_NO_MEMORY", "There was no memory.", " Make the call again." },
        { SVID_ENTRY_USE, "SVID_ENTRY_USE", "The entry's use is not \"jwt-svid\".", "" }, { SVID_DEAF, "SVID_DEAF", "The store has lost entries, so no token is accepted that lives as long as it may.", "" },
        { SVID_PATTERN_SCHEME, "SVID_PATTERN_SCHEME", "The pattern does not begin with spiffe://.", " Write spiffe://DOMAIN/PATH for one ID, spiffe://DOMAIN/PATH/* for all below it, or spiffe://DOMAIN for all of a trust domain." },
        { SVID_REPLAYED, "SVID_REPLAYED", "The token was accepted before, here or by a validator whose messages were taken.", "" }, { UINT32_MAX, "SVID_?", "No status has this number.", "" },
    };
    for (uint32_t n = 0; n < 1000; n++) {
        static answer a;
        at = NAMES[NAME];
        is_written(svid_status_name, n, svid_strstatus(n), 0);
        at = NAMES[SENTENCE];
        clear(&a);
        answered = svid_status_sentence(n, a.out, sizeof a.out, &a.told);
        holds(a.told.more <= a.told.len && a.told.more && a.out[a.told.more - 1] == '.', "no sentence stands before the advice");
        holds(a.told.more == a.told.len || (a.out[a.told.more] == ' ' && a.told.more + 1 < a.told.len && a.out[a.told.len - 1] == '.'), "no sentence is the advice");
        is_written(svid_status_sentence, n, svid_strsentence(n), a.told.more);
    }
    for (size_t i = 0; i < COUNT(rows); i++) {
        char text[300];
        sprintf(text, "%s%s", rows[i].says, rows[i].advice);
        at = NAMES[NAME];
        is_written(svid_status_name, rows[i].status, rows[i].name, 0);
        at = NAMES[SENTENCE];
        is_written(svid_status_sentence, rows[i].status, text, strlen(rows[i].says));
    }
}

static void answers(void) {
    svid_bundles b;
    svid_validator v;
    bearers();
    statuses();
    begin(&b, &v);
    sayings(&b, &v);
    signatures(&b, &v);
    payloads(&b, &v);
    judgments(&b, &v);
    sizes(&b, &v);
    end(&b, &v);
    printf("answers of %d calls", CALLS);
}

static void refused(void) {
    static answer due, got;
    long tried = 0;
    svid_bundles b;
    svid_validator v;
    begin(&b, &v);
    for (int which = 0; which < CALLS; which++) {
        long before = standing;
        asked = 0;
        call(which, &b, &v, &due);
        long takes = asked;
        holds(due.status == SVID_OK && standing == before, "memory stays");
        for (refused_at = 1; refused_at <= takes; refused_at++) {
            asked = 0;
            call(which, &b, &v, &got);
            holds(got.status == SVID_NO_MEMORY && got.told.len == 0, "want of memory");
            holds(untouched(&got.said, sizeof got.said) && untouched(&got.over, sizeof got.over) && untouched(&got.used, sizeof got.used) && untouched(got.out, sizeof got.out) && untouched(got.lens, sizeof got.lens), "it writes");
            holds(standing == before, "memory stays after a refusal");
            tried++;
        }
        refused_at = 0;
        call(which, &b, &v, &got);
        holds(!memcmp(&due, &got, sizeof due), "a call after a refusal");
    }
    end(&b, &v);
    holds(!standing, "memory is left");
    printf("%ld allocations refused", tried);
}

/* (the pages are given back at the end of the process) */
static void guarded(void) {
    static answer due, got;
    static const size_t rooms[] = { 0, 57, 58, 63, 64, 2047, 2048, sizeof due.out };
    svid_bundles b;
    svid_validator v;
    begin(&b, &v);
    for (int turn = 0; turn < 2 * CALLS; turn++) for (size_t i = 0; i < sizeof rooms / sizeof *rooms; i++) {
        int which = turn / 2, first = turn % 2;
        loan l = lent(&b, &v, &due);
        at = NAMES[which];
        clear(&due);
        clear(&got);
        l.room = rooms[i];
        due.status = call_with(which, &l);
        l = lent(&b, &v, &got);
        for (int k = 0; k < INPUTS; k++) l.in[k].bytes = between(l.in[k].bytes, l.in[k].len, first);
        l.setting = between(l.setting, sizeof *l.setting, first);
        l.b = between(&b, sizeof b, first);
        l.v = between(&v, sizeof v, first);
        l.bearer = between(l.bearer, sizeof *l.bearer, first);
        l.said = between(l.said, sizeof *l.said, first);
        l.over = between(l.over, sizeof *l.over, first);
        l.size = between(l.size, sizeof *l.size, first);
        l.used = between(l.used, sizeof *l.used, first);
        l.lens = between(l.lens, 8 * sizeof *l.lens, first);
        l.out = between(got.out, rooms[i], first);
        l.room = rooms[i];
        l.told = between(l.told, sizeof *l.told, first);
        answered = got.status = call_with(which, &l);
        b = *l.b, v = *l.v;
        got.told = *l.told, got.bearer = *l.bearer, got.said = *l.said, got.over = *l.over, got.size = *l.size, got.used = *l.used;
        memcpy(got.lens, l.lens, sizeof got.lens);
        memcpy(got.out, l.out, rooms[i]);
        holds(!memcmp(&got, &due, sizeof got), "the answer differs");
    }
    end(&b, &v);
    printf("%d calls in %zu rooms between pages that can't be touched", CALLS, sizeof rooms / sizeof *rooms);
}

static void nulls(void) {
    static const uint64_t nothing = 0;
    static answer both[2];
    svid_bundles b;
    svid_validator v;
    begin(&b, &v);
    for (int which = 0; which < CALLS; which++) for (int of = 0; of < INPUTS + 2; of++) {
        at = NAMES[which];
        for (int i = 0; i < 2; i++) {
            loan l = lent(&b, &v, &both[i]);
            clear(&both[i]);
            if (of < INPUTS) l.in[of].bytes = i ? NULL : &nothing, l.in[of].len = 0;
            else if (of == INPUTS) l.out = i ? NULL : l.out, l.room = 0;
            else l.lens = i ? NULL : l.lens, l.lens_len = 0;
            answered = both[i].status = call_with(which, &l);
        }
        holds(!memcmp(&both[0], &both[1], sizeof both[0]), "NULL is answered otherwise");
    }
    end(&b, &v);
    printf("NULL for each input and room of %d calls", CALLS);
}

typedef struct { int which; svid_bundles *b; svid_validator *v; answer *a; } job;

static void *run_job(void *given) {
    job *j = given;
    loan l = lent(j->b, j->v, j->a);
    answered = j->a->status = call_with(j->which, &l);
    return NULL;
}

static void stack(void) {
    static answer a;
    svid_bundles b;
    svid_validator v;
    begin(&b, &v);
    for (int which = 0; which < CALLS; which++) {
        job j = { which, &b, &v, &a };
        at = NAMES[which];
        clear(&a);
        size_t used = stack_of(run_job, &j);
        holds(a.status == SVID_OK && used <= STACK_MOST, "it takes too much stack");
    }
    end(&b, &v);
    printf("the stack of %d calls", CALLS);
}

int main(int count, char **words) {
    static const part parts[] = { { "answers", answers }, { "refused", refused }, { "guarded", guarded }, { "nulls", nulls }, { "stack", stack } };
    read_examples();
    return run_part(count, words, parts, COUNT(parts));
}
