/* Calls a validator that reads a group's log (svid.h). Runs in the folder examples/, with the helpers of live.c.
 *
 *   log answers    each fate, order and status, by the rules that svid.h states; and saves, restarts and values that are cut
 *   log refused    each call with each of its allocations refused in turn; linked with --wrap for malloc, realloc and free
 *   log guarded    all that a call is lent between pages that can't be touched, right before the one and right behind the other; and NULL for
 *                  each input and room of no bytes
 *   log long       a value of 65,536 uses, read at once and in pieces
 *   log threads    eight threads, each with one of three validators under its lock, and one log: each token is accepted once
 *   log stack      each call on a painted stack, a value of 65,536 uses among them */
#define main live_main
#include "live.c"
#undef main

enum { OWN_ID = 1, OTHER_ID = 2, LASTS = 300, LONGEST_VALUE = 65536 };
static const svid_mark START = { 0, 0, 0 };

/* A claim of the token with the key of 32 such bytes, by a validator; or a withdrawal of it. */
typedef struct { uint8_t key, id; uint64_t at, exp; int withdrawn; } claim;

static uint8_t *put_number(uint8_t *to, uint64_t number, int width) {
    for (int k = 0; k < width; k++) to[k] = (uint8_t)(number >> (8 * (width - 1 - k)));
    return to + width;
}

/* A batch of one claim, of the moment at which that was made. Answers where it ends. */
static uint8_t *put_claim(uint8_t *to, const claim *c) {
    memcpy(to, "JSR\2\1", 5);
    to = put_number(to + 5, c->at, 8);
    to = put_number(to, 1, 4);
    to = put_number(to, c->exp, 8);
    memset(to, c->key, 32);
    memset(to + 32, 0, 16);
    to[32] = c->id;
    to = put_number(to + 48, c->at, 8);
    *to = (uint8_t)c->withdrawn;
    return to + 1;
}

static int is_claim(const svid_use *used, const claim *c) {
    uint8_t key[32], id[16] = { c->id };
    memset(key, c->key, sizeof key);
    return used->exp == c->exp && used->at == c->at && !memcmp(used->key, key, 32) && !memcmp(used->validator_id, id, 16);
}

/* A validator with the ID of this first byte, at the moment NOW, that reads a log from its first value. */
static void begin_to_read(svid_validator *v, uint8_t id) {
    static const svid_validator none = SVID_VALIDATOR_CLOSED;
    svid_terms terms = TERMS;
    svid_told told;
    *v = none;
    terms.validator_id[0] = id;
    holds(svid_validator_open(v, &terms, (const uint8_t *)"ledger", 6, bundles, bundles_len, &told) == SVID_OK && svid_validator_tick(v, NOW, &told) == SVID_OK, "it does not open");
    answered = svid_validator_log(v, &START, 0, LASTS, NULL, 0, &told);
    holds(answered == SVID_OK, "it does not begin to read");
}

static int tells_nothing(const svid_told *told) { return !told->len && !told->input && !told->message && !told->offset && !told->more; }

static svid_mark mark_of(svid_validator *v, uint64_t *accepts) {
    svid_mark mark;
    svid_told told;
    answered = svid_validator_mark(v, &mark, &told);
    holds(answered == SVID_OK, "where it is in its log");
    if (accepts) *accepts = told.more;
    return mark;
}

static size_t beside_of(svid_validator *v, uint8_t *out, size_t room) {
    svid_told told;
    answered = svid_validator_beside(v, out, room, &told);
    holds(answered == SVID_OK, "the claims beside the record");
    return told.len;
}

/* Reads a value of one claim, and answers its fate. */
static uint64_t fate_of(svid_validator *v, uint64_t now, uint64_t position, const claim *c, uint64_t order) {
    uint8_t value[SVID_BATCH_OF_LEN];
    svid_fate fate = { { 0, 0, { 0 }, { 0 } }, 999 };
    svid_reading reading = { 9, 9, 9 };
    svid_told told;
    size_t len = (size_t)(put_claim(value, c) - value);
    answered = svid_validator_read(v, now, position, value, len, &fate, 1, &reading, &told);
    holds(answered == SVID_OK && tells_nothing(&told) && reading.order == order && reading.from == 0, "a value of one claim");
    if (order == SVID_ORDER_AGAIN) {
        holds(reading.count == 0 && fate.fate == 999, "a value that was read is read again");
        return 999;
    }
    holds(reading.count == 1 && is_claim(&fate.used, c), "which use it is");
    return fate.fate;
}

/* The fates that are due by what svid.h says of them, of values of one claim each. The validator is at NOW, takes what is up to 10 seconds ahead, and
 * accepts nothing of the first value, which an earlier life of it may have read. */
static void fates(void) {
    enum { N = SVID_ORDER_NEXT, A = SVID_ORDER_AGAIN, G = SVID_ORDER_GAP };
    static const struct { uint64_t now, position, order, fate; claim c; } rows[] = {
        { NOW, 1, N, SVID_FATE_FIRST, { 1, OWN_ID, NOW, NOW + 100, 0 } },           /* an earlier life may have read it */
        { NOW, 2, N, SVID_FATE_ACCEPTED, { 2, OWN_ID, NOW, NOW + 100, 0 } },
        { NOW, 2, A, 999, { 2, OWN_ID, NOW, NOW + 100, 0 } },
        { NOW, 1, A, 999, { 3, OWN_ID, NOW, NOW + 100, 0 } },
        { NOW, 3, N, SVID_FATE_REPLAYED, { 2, OWN_ID, NOW, NOW + 100, 0 } },        /* a value stands twice */
        { NOW, 4, N, SVID_FATE_FIRST, { 3, OTHER_ID, NOW, NOW + 100, 0 } },
        { NOW, 5, N, SVID_FATE_REPLAYED, { 3, OWN_ID, NOW, NOW + 100, 0 } },
        { NOW, 6, N, SVID_FATE_TOO_FAR_AHEAD, { 4, OTHER_ID, NOW + 11, NOW + 100, 0 } },
        { NOW, 7, N, SVID_FATE_REPLAYED, { 4, OWN_ID, NOW, NOW + 100, 0 } },        /* the early one counts */
        { NOW, 8, N, SVID_FATE_WITHDRAWAL, { 5, OTHER_ID, NOW, NOW + 100, 1 } },
        { NOW, 9, N, SVID_FATE_WITHDRAWN, { 5, OWN_ID, NOW, NOW + 100, 0 } },
        { NOW, 10, N, SVID_FATE_WITHDRAWAL, { 2, OTHER_ID, NOW, NOW + 100, 1 } },
        { NOW, 11, N, SVID_FATE_WITHDRAWN, { 2, OWN_ID, NOW, NOW + 100, 0 } },
        { NOW, 12, N, SVID_FATE_EXPIRED, { 6, OWN_ID, NOW - 9, NOW, 0 } },
        { NOW, 13, N, SVID_FATE_ACCEPTED, { 6, OWN_ID, NOW + 10, NOW + 100, 0 } },  /* the record is advanced to NOW + 10 */
        { NOW - 60, 14, N, SVID_FATE_EXPIRED, { 7, OWN_ID, NOW, NOW + 10, 0 } },    /* a clock that goes back moves nothing */
        { 0, 15, N, SVID_FATE_ACCEPTED, { 7, OWN_ID, NOW + 10, NOW + 100, 0 } },
        { 0, 16, N, SVID_FATE_TOO_FAR_AHEAD, { 8, OWN_ID, NOW + 11, NOW + 100, 0 } }, /* with no clock all that is past the record's moment is */
        { NOW + 10, 17, N, SVID_FATE_TOO_FAR_AHEAD, { 9, OTHER_ID, UINT64_MAX - 1, UINT64_MAX, 0 } },
        { NOW + 12, 19, G, SVID_FATE_FIRST, { 10, OWN_ID, NOW + 12, NOW + 1000, 0 } }, /* value 18 is missing, and may live until NOW + 312 */
        { NOW + 311, 20, N, SVID_FATE_FIRST, { 11, OWN_ID, NOW + 311, NOW + 1000, 0 } },
        { NOW + 312, 21, N, SVID_FATE_ACCEPTED, { 12, OWN_ID, NOW + 312, NOW + 1000, 0 } },
    };
    svid_validator v;
    svid_told told;
    at = "svid_validator_read";
    begin_to_read(&v, OWN_ID);
    holds(svid_validator_log(&v, &START, 1, LASTS, NULL, 0, &told) == SVID_OK, "it begins anew");
    for (size_t i = 0; i < sizeof rows / sizeof *rows; i++) {
        uint64_t fate = fate_of(&v, rows[i].now, rows[i].position, &rows[i].c, rows[i].order);
        if (fate != rows[i].fate) printf("row %zu: fate %llu\n", i, (unsigned long long)fate);
        holds(fate == rows[i].fate, "the fate of a claim");
    }
    svid_validator_close(&v);
}

/* The mark tells where a validator is, and whether it accepts. */
static void marked(void) {
    static const claim c = { 1, OWN_ID, NOW, NOW + 100, 0 }, gone = { 2, OTHER_ID, NOW, NOW + 100, 0 };
    svid_mark from = { 5, 0, NOW + 1 }, mark;
    svid_validator v;
    svid_told told;
    uint64_t accepts;
    at = "svid_validator_mark";
    begin_to_read(&v, OWN_ID);
    holds(svid_validator_log(&v, &from, 6, LASTS, NULL, 0, &told) == SVID_OK && tells_nothing(&told), "a mark");
    mark = mark_of(&v, &accepts);
    holds(!memcmp(&mark, &from, sizeof mark) && !accepts, "a validator that has not read up to `ready`");
    holds(fate_of(&v, NOW, 5, &gone, SVID_ORDER_AGAIN) == 999 && fate_of(&v, NOW, 6, &gone, SVID_ORDER_NEXT) == SVID_FATE_FIRST, "the last value of an earlier life");
    mark = mark_of(&v, &accepts);
    holds(mark.passed == 6 && mark.deaf == NOW + 1 && !accepts, "a validator that is deaf");
    svid_validator_tick(&v, NOW + 1, &told);
    mark = mark_of(&v, &accepts);
    holds(accepts == 1, "a validator that accepts");
    holds(fate_of(&v, NOW + 1, 7, &c, SVID_ORDER_NEXT) == SVID_FATE_ACCEPTED, "it accepts");
    holds(fate_of(&v, NOW + 1, 9, &gone, SVID_ORDER_GAP) == SVID_FATE_REPLAYED, "a value after a gap");
    mark = mark_of(&v, &accepts);
    holds(mark.passed == 9 && mark.begun == 0 && mark.deaf == NOW + 1 + LASTS && !accepts, "a gap");
    answered = svid_validator_go_on(&v, &told);
    holds(answered == SVID_OK && tells_nothing(&told), "going on");
    mark = mark_of(&v, &accepts);
    holds(mark.passed == 9 && mark.deaf == 0 && accepts == 1, "it hears");
    svid_validator_close(&v);
}

/* A value that is no row of messages has the status that svid_validator_take gives, and everybody reads it to its end alike. */
static void no_messages(void) {
    static const struct { const char *bytes; size_t len; uint32_t status; } rows[] = {
        { "XSR\2\1", 5, SVID_MAGIC }, { "JSR\2\3", 5, SVID_KIND }, { "JSR\2\1\0\0\0\0\0\0\0\1\0\1\0\1", 17, SVID_COUNT }, { "JSR\2\1\0\0\0", 8, SVID_TRUNCATED },
        { "JSR", 3, SVID_TRUNCATED }, { "JSR\2\1\0\0\0\0\0\0\0\1\0\0\0\0XXXX", 21, SVID_MAGIC },
    };
    uint8_t value[2 * SVID_BATCH_OF_LEN];
    claim good = { 1, OWN_ID, NOW, NOW + 100, 0 };
    svid_validator v;
    svid_told told, due;
    svid_fate fate;
    svid_reading reading;
    uint64_t position = 1;
    at = "a value that is no row of messages";
    begin_to_read(&v, OWN_ID);
    for (size_t i = 0; i < sizeof rows / sizeof *rows + 5; i++, position++) {
        size_t len = SVID_BATCH_OF_LEN;
        uint32_t status = i < sizeof rows / sizeof *rows ? rows[i].status : 0;
        put_claim(put_claim(value, &good), &good);
        if (status) memcpy(value, rows[i].bytes, len = rows[i].len);
        else switch (i - sizeof rows / sizeof *rows) {
        case 0: value[81] = 2, status = SVID_USE_KIND; break;
        case 1: put_number(value + 17, NOW, 8), status = SVID_USE_EXPIRED; break;
        case 2: put_number(value + 73, NOW + 1, 8), status = SVID_USE_FUTURE; break;
        case 3: value[16] = 2, memcpy(value + 82, value + 17, 65), len = 147, status = SVID_USE_ORDER; break;
        default: value[82] = 'X', len = 2 * SVID_BATCH_OF_LEN, status = SVID_MAGIC; break; /* behind a good one */
        }
        answered = svid_validator_take(&v, NOW, value, len, &due);
        if (answered != status) printf("row %zu\n", i);
        holds(answered == status, "what is no row of messages");
        answered = svid_validator_log(&v, &START, 0, LASTS, value, len, &told);
        holds(answered == status && told.input == 1 && told.offset == due.offset && !told.len && !told.message && !told.more && mark_of(&v, NULL).passed == position - 1, "claims beside the record that are no messages");
        memset(&fate, 0xA5, sizeof fate);
        answered = svid_validator_read(&v, NOW, position, value, len, &fate, 1, &reading, &told);
        holds(answered == status && told.input == 1 && told.offset == due.offset && !told.len && !told.message && !told.more, "what is told");
        holds(reading.order == SVID_ORDER_NEXT && reading.from == 0 && reading.count == 0 && *(uint8_t *)&fate == 0xA5, "what is read");
        holds(mark_of(&v, NULL).passed == position, "it is not read to its end");
        answered = svid_validator_read(&v, NOW, position, value, len, &fate, 1, &reading, &told);
        holds(answered == status && reading.order == SVID_ORDER_AGAIN && mark_of(&v, NULL).passed == position, "it is read again");
    }
    holds(fate_of(&v, NOW, position, &good, SVID_ORDER_NEXT) == SVID_FATE_ACCEPTED, "a bad value has a use");
    /* A summary has no uses. */
    answered = svid_validator_read(&v, NOW, position + 1, summary, sizeof summary, &fate, 1, &reading, &told);
    holds(answered == SVID_OK && reading.order == SVID_ORDER_NEXT && reading.count == 0 && tells_nothing(&told), "a summary");
    svid_validator_close(&v);
}

/* A room, a jump, a gap with no clock, a closed validator, and one that reads no log. */
static void statuses(void) {
    static const claim c = { 1, OWN_ID, NOW, NOW + 100, 0 };
    uint8_t value[SVID_BATCH_OF_LEN], out[SVID_ID_ROOM];
    svid_mark mark = { 7, 7, 7 };
    svid_validator v;
    svid_told told;
    svid_use used;
    svid_fate fate = { { 0, 0, { 0 }, { 0 } }, 999 };
    put_claim(value, &c);
    for (int kind = 0; kind < 2; kind++) {
        uint32_t due = kind ? SVID_NO_LOG : SVID_CLOSED;
        svid_reading reading = { 9, 9, 9 };
        at = kind ? "no log" : "closed";
        begin(TELL, &v);
        if (!kind) svid_validator_close(&v);
        holds((answered = svid_validator_read(&v, NOW, 1, value, sizeof value, &fate, 1, &reading, &told)) == due && tells_nothing(&told), "read");
        holds(fate.fate == 999 && !reading.order && !reading.from && !reading.count, "what is read");
        holds((answered = svid_validator_mark(&v, &mark, &told)) == due && tells_nothing(&told) && mark.passed == 7 && mark.begun == 7 && mark.deaf == 7, "mark");
        holds((answered = svid_validator_go_on(&v, &told)) == due && tells_nothing(&told), "go_on");
        memset(out, 0xA5, sizeof out);
        holds((answered = svid_validator_beside(&v, out, sizeof out, &told)) == due && tells_nothing(&told) && out[0] == 0xA5, "beside");
        if (!kind) holds((answered = svid_validator_log(&v, &START, 0, LASTS, NULL, 0, &told)) == due && tells_nothing(&told) && !v.word && !v.held, "log");
        svid_validator_close(&v);
    }
    at = "svid_validator_read";
    begin_to_read(&v, OWN_ID);
    for (int clock = 0; clock < 2; clock++) {
        svid_reading reading = { 9, 9, 9 };
        answered = svid_validator_read(&v, clock ? 0 : NOW + 86401, clock ? 3 : 1, value, sizeof value, &fate, 1, &reading, &told);
        holds(answered == SVID_JUMP && tells_nothing(&told) && !reading.order && !reading.from && !reading.count && fate.fate == 999 && mark_of(&v, NULL).passed == 0, "a jump, and a gap with no clock");
    }
    for (uint64_t position = 0; position < 2; position++) {
        svid_reading reading = { 9, 9, 9 };
        answered = svid_validator_read(&v, NOW, position, value, sizeof value, NULL, 0, &reading, &told);
        holds(answered == (position ? SVID_TOO_SHORT : SVID_OK) && tells_nothing(&told) && reading.order == position && !reading.from && !reading.count && mark_of(&v, NULL).passed == 0, "no room, and the position 0");
    }
    /* A validator that reads a log checks no token: it judges, and its claim decides. */
    at = "a token";
    holds((answered = check_token(&v, NOW, out, sizeof out, &used, &told)) == SVID_HAS_LOG && tells_nothing(&told), "a check");
    holds((answered = judge_token(&v, NOW, out, sizeof out, &used, &told)) == SVID_OK, "a judgment");
    svid_batch_of(&used, value);
    svid_reading reading;
    holds((answered = svid_validator_read(&v, NOW, 1, value, sizeof value, &fate, 1, &reading, &told)) == SVID_OK && fate.fate == SVID_FATE_ACCEPTED && !memcmp(&fate.used, &used, sizeof used), "its claim");
    holds((answered = judge_token(&v, NOW, out, sizeof out, &used, &told)) == SVID_REPLAYED, "a token that is in the record");
    svid_validator_close(&v);
    /* One that is claimed beside the record is refused as well, until the claim expires. */
    begin_to_read(&v, OWN_ID);
    fate.used.at = NOW + 50, fate.used.exp = NOW + 60, fate.used.validator_id[0] = OTHER_ID;
    svid_batch_of(&fate.used, value);
    holds((answered = svid_validator_read(&v, NOW, 1, value, sizeof value, &fate, 1, &reading, &told)) == SVID_OK && fate.fate == SVID_FATE_TOO_FAR_AHEAD, "a claim beside the record");
    for (int later = 0; later < 2; later++) {
        uint32_t due = later ? SVID_OK : SVID_REPLAYED;
        uint64_t now = NOW + (later ? 60 : 59);
        holds((answered = judge_token(&v, now, out, sizeof out, &used, &told)) == due, "the judgment of a claimed token");
    }
    svid_validator_close(&v);
}

/* A validator that is put back from the mark, the record and the claims beside it goes on as the one that was saved. */
static void restarted(void) {
    static const claim cs[] = { { 1, OTHER_ID, NOW, NOW + 100, 0 }, { 2, OTHER_ID, NOW + 50, NOW + 100, 0 }, { 3, OWN_ID, NOW, NOW + 100, 0 }, { 4, OWN_ID, NOW, NOW + 100, 0 } };
    static uint8_t before[32768], beside[32768], again[32768];
    uint8_t value[4 * SVID_BATCH_OF_LEN], *end = value;
    svid_fate out[4];
    svid_reading reading;
    svid_told told;
    svid_validator v, w;
    at = "a restart";
    for (int i = 0; i < 4; i++) end = put_claim(end, &cs[i]);
    begin_to_read(&v, OWN_ID);
    answered = svid_validator_read(&v, NOW, 1, value, sizeof value, out, 3, &reading, &told);
    holds(answered == SVID_TOO_SHORT && reading.order == SVID_ORDER_NEXT && reading.from == 0 && reading.count == 3, "a part of a value");
    holds(out[0].fate == SVID_FATE_FIRST && out[1].fate == SVID_FATE_TOO_FAR_AHEAD && out[2].fate == SVID_FATE_ACCEPTED, "its fates");
    svid_mark mark = mark_of(&v, NULL);
    holds(mark.passed == 0 && mark.begun == 3 && mark.deaf == 0, "its mark");
    size_t beside_len = beside_of(&v, beside, sizeof beside), len = record(&v, before, sizeof before);
    holds(beside_len == SVID_BATCH_OF_LEN && !memcmp(beside, value + SVID_BATCH_OF_LEN, beside_len), "the claim beside the record");
    answered = svid_validator_beside(&v, again, beside_len - 1, &told);
    holds(answered == SVID_TOO_SHORT && told.len == beside_len && again[0] == 0, "a room one byte too short");
    begin_to_read(&w, OWN_ID);
    holds(svid_validator_take(&w, NOW, before, len, &told) == SVID_OK, "the record");
    answered = svid_validator_log(&w, &mark, 0, LASTS, beside, beside_len, &told);
    holds(answered == SVID_OK && tells_nothing(&told), "the restart");
    holds(beside_of(&w, again, sizeof again) == beside_len && !memcmp(again, beside, beside_len), "the claims beside the record");
    for (int i = 0; i < 2; i++) {
        svid_validator *one = i ? &w : &v;
        svid_fate rest = { { 0, 0, { 0 }, { 0 } }, 999 };
        answered = svid_validator_read(one, NOW, 1, value, sizeof value, &rest, 1, &reading, &told);
        holds(answered == SVID_OK && reading.from == 3 && reading.count == 1 && rest.fate == SVID_FATE_ACCEPTED && is_claim(&rest.used, &cs[3]), "the rest of the value");
        holds(fate_of(one, NOW, 2, &cs[1], SVID_ORDER_NEXT) == SVID_FATE_TOO_FAR_AHEAD, "an early claim");
        claim own = { 2, OWN_ID, NOW, NOW + 100, 0 };
        holds(fate_of(one, NOW, 3, &own, SVID_ORDER_NEXT) == SVID_FATE_REPLAYED, "a claim of its key");
        svid_validator_close(one);
    }
}

/* Of one log with a claim of each of two validators, one accepts, and both have the same record. */
static void two(void) {
    static const claim cs[] = { { 1, OTHER_ID, NOW, NOW + 100, 0 }, { 1, OWN_ID, NOW, NOW + 100, 0 } };
    static const uint64_t due[2][2] = { { SVID_FATE_FIRST, SVID_FATE_REPLAYED }, { SVID_FATE_ACCEPTED, SVID_FATE_REPLAYED } };
    static uint8_t records[2][32768];
    size_t lens[2];
    at = "two validators";
    for (int i = 0; i < 2; i++) {
        svid_validator v;
        begin_to_read(&v, i ? OTHER_ID : OWN_ID);
        for (int k = 0; k < 2; k++) holds(fate_of(&v, NOW, (uint64_t)k + 1, &cs[k], SVID_ORDER_NEXT) == due[i][k], "the fate of a claim");
        lens[i] = record(&v, records[i], sizeof records[i]);
        svid_validator_close(&v);
    }
    holds(lens[0] == lens[1] && !memcmp(records[0], records[1], lens[0]), "the records differ");
}

/* What a call of the log is lent. */
typedef struct { svid_validator *v; const svid_mark *from; svid_mark *mark; input beside, value; svid_fate *fates; size_t room; svid_reading *reading; uint8_t *out; size_t out_len; svid_told *told; } log_loan;
enum { BEGIN_LOG, READ_LOG, MARK_LOG, GO_ON_LOG, BESIDE_LOG, LOG_CALLS };
static const char *const LOG_NAMES[] = { "svid_validator_log", "svid_validator_read", "svid_validator_mark", "svid_validator_go_on", "svid_validator_beside" };

/* What a call may write. */
enum { ROOM = 8 };
typedef struct { uint32_t status; svid_told told; svid_mark mark; svid_reading reading; svid_fate fates[ROOM]; uint8_t out[1024]; } log_answer;

/* A value of a claim of each kind, whose reading wants memory for the record and beside it. */
static uint8_t mixed[5 * SVID_BATCH_OF_LEN], kept[SVID_BATCH_OF_LEN];
static void make_mixed(void) {
    static const claim cs[] = { { 1, OWN_ID, NOW, NOW + 100, 0 }, { 1, OTHER_ID, NOW, NOW + 100, 0 }, { 2, OTHER_ID, NOW + 50, NOW + 100, 0 }, { 3, OTHER_ID, NOW, NOW + 100, 1 }, { 3, OWN_ID, NOW, NOW + 100, 0 } };
    static const claim beside = { 9, OTHER_ID, NOW + 50, NOW + 100, 0 };
    uint8_t *end = mixed;
    for (int i = 0; i < 5; i++) end = put_claim(end, &cs[i]);
    put_claim(kept, &beside);
}

static log_loan log_lent(svid_validator *v, log_answer *a) {
    static const svid_mark from = { 0, 0, 0 };
    log_loan l = { v, &from, &a->mark, { kept, sizeof kept }, { mixed, sizeof mixed }, a->fates, ROOM, &a->reading, a->out, sizeof a->out, &a->told };
    return l;
}

static uint32_t log_call(int which, const log_loan *l) {
    switch (which) {
    case BEGIN_LOG: return svid_validator_log(l->v, l->from, 0, LASTS, l->beside.bytes, l->beside.len, l->told);
    case READ_LOG: return svid_validator_read(l->v, NOW, 1, l->value.bytes, l->value.len, l->fates, l->room, l->reading, l->told);
    case MARK_LOG: return svid_validator_mark(l->v, l->mark, l->told);
    case GO_ON_LOG: return svid_validator_go_on(l->v, l->told);
    default: return svid_validator_beside(l->v, l->out, l->out_len, l->told);
    }
}

/* All that a validator holds: its record, the claims beside it, and its mark. */
typedef struct { uint8_t record[1024], beside[1024]; size_t record_len, beside_len; svid_mark mark; } state;
static state state_of(svid_validator *v) {
    state s;
    memset(&s, 0, sizeof s);
    s.record_len = record(v, s.record, sizeof s.record);
    s.beside_len = beside_of(v, s.beside, sizeof s.beside);
    s.mark = mark_of(v, NULL);
    return s;
}

static void begin_log_call(svid_validator *v) {
    svid_told told;
    begin_to_read(v, OWN_ID);
    holds(svid_validator_log(v, &START, 0, LASTS, kept, sizeof kept, &told) == SVID_OK, "it does not begin to read");
}

static void log_refused(void) {
    static log_answer due, got, none;
    long tried = 0;
    for (int which = 0; which < LOG_CALLS; which++) {
        svid_validator v;
        at = LOG_NAMES[which];
        refused_at = 0;
        memset(&due, 0, sizeof due);
        memset(&none, 0, sizeof none);
        begin_log_call(&v);
        state before = state_of(&v);
        asked = 0;
        log_loan l = log_lent(&v, &due);
        answered = due.status = log_call(which, &l);
        long all = asked;
        holds(due.status == SVID_OK, "it does not do what it is for");
        state after = state_of(&v);
        svid_validator_close(&v);
        holds(standing == 0, "memory is held after close");
        for (long n = 1; n <= all; n++) {
            tried++;
            begin_log_call(&v);
            memset(&got, 0, sizeof got);
            l = log_lent(&v, &got);
            asked = 0;
            refused_at = n;
            answered = got.status = log_call(which, &l);
            refused_at = 0;
            if (got.status == SVID_NO_MEMORY) {
                holds(tells_nothing(&got.told) && !memcmp(got.out, none.out, sizeof none.out), "want of memory tells more");
                state s = state_of(&v);
                if (which == READ_LOG) {
                    /* (the uses that were read are in the record or beside it, and the next call goes on behind them) */
                    size_t count = got.reading.count;
                    holds(count < due.reading.count && !memcmp(got.fates, due.fates, count * sizeof *got.fates) && !memcmp(got.fates + count, none.fates, (ROOM - count) * sizeof *got.fates), "the uses that were read");
                    holds(got.reading.order == (count ? SVID_ORDER_NEXT : got.reading.order) && s.mark.begun == count && s.mark.passed == 0, "where it is");
                    if (!count) holds(s.record_len == before.record_len && !memcmp(s.beside, before.beside, sizeof s.beside), "want of memory changes the validator");
                    l.fates += count, l.room -= count;
                    answered = got.status = log_call(which, &l);
                    holds(got.reading.from == count && got.reading.count == due.reading.count - count && got.reading.order == SVID_ORDER_NEXT, "it goes on");
                    got.reading = due.reading;
                } else {
                    holds(!memcmp(&s, &before, sizeof s), "want of memory changes the validator");
                    answered = got.status = log_call(which, &l);
                }
            }
            holds(!memcmp(&got, &due, sizeof got), "the answer differs");
            state s = state_of(&v);
            holds(!memcmp(&s, &after, sizeof s), "the validator differs");
            svid_validator_close(&v);
            holds(standing == 0, "memory is held after close");
        }
    }
    printf("%ld allocations refused", tried);
}

/* Both are the same call, once with all that it is lent between pages that can't be touched, or with NULL for what has no bytes. */
static void same_guarded(int which, size_t room, size_t text, size_t len, int lies_first) {
    static log_answer due, got;
    svid_validator v, w;
    begin_log_call(&v);
    begin_log_call(&w);
    memset(&due, 0, sizeof due);
    memset(&got, 0, sizeof got);
    log_loan plain = log_lent(&v, &due), l = log_lent(&w, &got);
    plain.room = l.room = room, plain.out_len = l.out_len = text;
    plain.value.len = l.value.len = len < l.value.len ? len : l.value.len;
    plain.beside.len = l.beside.len = len < l.beside.len ? len : l.beside.len;
    l.from = between(l.from, sizeof *l.from, lies_first);
    l.value.bytes = l.value.len ? between(l.value.bytes, l.value.len, lies_first) : NULL;
    l.beside.bytes = l.beside.len ? between(l.beside.bytes, l.beside.len, lies_first) : NULL;
    l.v = between(&w, sizeof w, lies_first);
    l.mark = between(&got.mark, sizeof got.mark, lies_first);
    l.fates = room ? between(got.fates, room * sizeof *l.fates, lies_first) : NULL;
    l.reading = between(&got.reading, sizeof got.reading, lies_first);
    l.out = text ? between(got.out, text, lies_first) : NULL;
    l.told = between(&got.told, sizeof got.told, lies_first);
    due.status = log_call(which, &plain);
    answered = got.status = log_call(which, &l);
    w = *l.v;
    got.told = *l.told, got.mark = *l.mark, got.reading = *l.reading;
    if (room) memcpy(got.fates, l.fates, room * sizeof *l.fates);
    if (text) memcpy(got.out, l.out, text);
    holds(!memcmp(&got, &due, sizeof got), "the answer differs");
    state a = state_of(&v), b = state_of(&w);
    holds(!memcmp(&a, &b, sizeof a), "the validator differs");
    svid_validator_close(&v);
    svid_validator_close(&w);
}

/* (the pages are given back at the end of the process) */
static void log_guarded(void) {
    static const size_t rooms[] = { 0, 1, 5, ROOM }, texts[] = { 0, SVID_BATCH_OF_LEN - 1, SVID_BATCH_OF_LEN, 1024 }, lens[] = { 0, 81, sizeof mixed };
    size_t tried = 0;
    for (int which = 0; which < LOG_CALLS; which++) {
        at = LOG_NAMES[which];
        for (size_t i = 0; i < 4 * 3 * 2; i++, tried++) same_guarded(which, rooms[i % 4], texts[i % 4], lens[i / 4 % 3], i / 12 != 0);
    }
    printf("%zu calls between pages that can't be touched", tried);
}

/* A batch of so many claims of different tokens, as one value. Answers its length. */
static size_t make_long(uint8_t *to, size_t count) {
    claim c = { 0, OWN_ID, NOW, NOW + 100, 0 };
    uint8_t *start = to, one[SVID_BATCH_OF_LEN];
    put_claim(one, &c);
    memcpy(to, one, HEAD);
    put_number(to + HEAD - 4, count, 4);
    to += HEAD;
    for (size_t i = 0; i < count; i++, to += USE) {
        memcpy(to, one + HEAD, USE);
        put_number(to + 8, i, 4);
    }
    return (size_t)(to - start);
}

static uint8_t long_value[HEAD + LONGEST_VALUE * USE];
static svid_fate long_fates[LONGEST_VALUE];

/* A value of 65,536 uses is read alike at once and in pieces, and memory is taken for as many fates as there is room for. */
static void long_values(void) {
    static const size_t rooms[] = { LONGEST_VALUE, 10000, 1 << 15 };
    size_t len = make_long(long_value, LONGEST_VALUE);
    at = "a value of 65,536 uses";
    for (size_t i = 0; i < sizeof rooms / sizeof *rooms; i++) {
        svid_validator v;
        svid_reading reading;
        svid_told told;
        size_t done = 0;
        begin_to_read(&v, OWN_ID);
        do {
            answered = svid_validator_read(&v, NOW, 1, long_value, len, long_fates, rooms[i], &reading, &told);
            size_t left = LONGEST_VALUE - done, count = left < rooms[i] ? left : rooms[i];
            holds(reading.order == SVID_ORDER_NEXT && reading.from == done && reading.count == count && answered == (count < left ? SVID_TOO_SHORT : SVID_OK), "a piece");
            for (size_t k = 0; k < count; k++) {
                uint8_t key[4];
                put_number(key, done + k, 4);
                holds(long_fates[k].fate == SVID_FATE_ACCEPTED && !memcmp(long_fates[k].used.key, key, 4), "the fate of a claim");
            }
            done += count;
        } while (answered == SVID_TOO_SHORT);
        holds(mark_of(&v, NULL).passed == 1, "it is read to its end");
        svid_validator_close(&v);
    }
    /* One use more than a batch may have. */
    svid_validator v;
    svid_reading reading;
    svid_told told;
    begin_to_read(&v, OWN_ID);
    put_number(long_value + HEAD - 4, LONGEST_VALUE + 1, 4);
    answered = svid_validator_read(&v, NOW, 1, long_value, len, long_fates, LONGEST_VALUE, &reading, &told);
    holds(answered == SVID_COUNT && reading.count == 0 && mark_of(&v, NULL).passed == 1, "a batch of too many uses");
    svid_validator_close(&v);
    printf("%d uses in a value, at once and in pieces", LONGEST_VALUE);
}

/* Eight threads, each with one of three validators: it puts claims of the same tokens into one log, and reads that to its end. */
enum { MEMBERS = 3, TOKENS = 40, MOST_VALUES = 8 * TOKENS };
static pthread_mutex_t log_lock = PTHREAD_MUTEX_INITIALIZER, member_locks[MEMBERS] = { PTHREAD_MUTEX_INITIALIZER, PTHREAD_MUTEX_INITIALIZER, PTHREAD_MUTEX_INITIALIZER };
static svid_validator members[MEMBERS];
static uint8_t values[MOST_VALUES][SVID_BATCH_OF_LEN];
static size_t value_count;
static int accepted[MEMBERS][TOKENS];

/* (under the member's lock) */
static void read_to_the_end(int m) {
    pthread_mutex_lock(&log_lock);
    size_t count = value_count;
    pthread_mutex_unlock(&log_lock);
    svid_mark mark;
    svid_told told;
    if (svid_validator_mark(&members[m], &mark, &told) != SVID_OK) fail("where a validator is");
    for (uint64_t position = mark.passed + 1; position <= count; position++) {
        svid_fate fate;
        svid_reading reading;
        if (svid_validator_read(&members[m], NOW, position, values[position - 1], SVID_BATCH_OF_LEN, &fate, 1, &reading, &told) != SVID_OK || reading.order != SVID_ORDER_NEXT || reading.count != 1) fail("a value");
        if (fate.fate == SVID_FATE_ACCEPTED) accepted[m][fate.used.key[0]]++;
    }
}

static void *one_reader(void *given) {
    int id = (int)(size_t)given, m = id % MEMBERS;
    for (int k = 0; k < TOKENS; k++) {
        claim c = { (uint8_t)((k * 7 + id) % TOKENS), (uint8_t)(m + 1), NOW, NOW + 100, 0 };
        pthread_mutex_lock(&log_lock);
        put_claim(values[value_count++], &c);
        pthread_mutex_unlock(&log_lock);
        pthread_mutex_lock(&member_locks[m]);
        read_to_the_end(m);
        pthread_mutex_unlock(&member_locks[m]);
    }
    return NULL;
}

static void log_threads(void) {
    for (int m = 0; m < MEMBERS; m++) begin_to_read(&members[m], (uint8_t)(m + 1));
    eight(one_reader);
    for (int m = 0; m < MEMBERS; m++) read_to_the_end(m);
    for (int k = 0; k < TOKENS; k++) holds(accepted[0][k] + accepted[1][k] + accepted[2][k] == 1, "each token is accepted once");
    for (int m = 0; m < MEMBERS; m++) svid_validator_close(&members[m]);
    printf("8 threads, 3 validators, %d tokens, each accepted once", TOKENS);
}

typedef struct { int which; log_loan l; } log_job;
static void *run_log_job(void *given) {
    log_job *j = given;
    answered = log_call(j->which, &j->l);
    return NULL;
}

static void log_stack(void) {
    static log_answer a;
    size_t len = make_long(long_value, LONGEST_VALUE), most = 0;
    for (int which = 0; which <= LOG_CALLS; which++) {
        svid_validator v;
        begin_log_call(&v);
        log_job j = { which < LOG_CALLS ? which : READ_LOG, log_lent(&v, &a) };
        if (which == LOG_CALLS) j.l.value.bytes = long_value, j.l.value.len = len, j.l.fates = long_fates, j.l.room = LONGEST_VALUE;
        at = LOG_NAMES[j.which];
        size_t used = stack_of(run_log_job, &j);
        holds(answered == SVID_OK, "a call on a painted stack");
        if (used > most) most = used;
        svid_validator_close(&v);
    }
    is_stack(most, STACK_MOST);
}

static void answers(void) {
    fates();
    marked();
    no_messages();
    statuses();
    restarted();
    two();
    printf("each fate, order and status");
}

int main(int count, char **words) {
    static const part log_parts[] = { { "answers", answers }, { "refused", log_refused }, { "guarded", log_guarded }, { "long", long_values }, { "threads", log_threads }, { "stack", log_stack } };
    read_inputs();
    make_mixed();
    return run_part(count, words, log_parts, COUNT(log_parts));
}
