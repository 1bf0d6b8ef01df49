/* Calls a token that C reads once (svid_token of svid.h). Runs in the folder examples/.
 *
 *   tokens refused    each call with each of its allocations refused in turn; linked with --wrap for malloc, realloc and free
 *   tokens guarded    all that a call is lent between pages that can't be touched, right before the one and right behind the other
 *   tokens nulls      NULL for each input of no bytes, and for a room of none: the answer is that of another pointer
 *   tokens answers    a token is answered as by trust bundles without a record, good or not, and a closed handle does nothing
 *   tokens renewed    a token at two validators, whose keys of one name differ
 *   tokens mixed      what was verified of one token is no answer for another, in whole or in part
 *   tokens stack      each call on a painted stack, which tells how much of it the call needs */
#include "harness.h"

enum { OPEN, ASK, JUDGE, CHECK, CALLS };
static const char *const NAMES[] = { "svid_token_open", "svid_validator_ask_token", "svid_validator_judge_token", "svid_validator_check_token" };

/* What a call wrote: its status, and all that it may write. */
typedef struct { uint32_t status; svid_told told; svid_use used; uint8_t out[8192]; } answer;

#define MORE used

/* What a call is lent. */
typedef svid_token handle;
#define CLOSE svid_token_close
enum { TOKEN, KEY, INPUT, SIGNATURE, INPUTS };
typedef struct { const uint8_t *bytes; size_t len; } input;
typedef struct { input in[INPUTS]; svid_token *h; svid_validator *v; svid_bundles *b; uint8_t *out; size_t room; svid_use *used; svid_told *told; } loan;
#include "handle.h"

static loan lent(svid_token *t, svid_validator *v, answer *a) {
    loan l = { { { token, token_len }, { maker, maker_len }, { token, signed_len }, { signature, signature_len } }, t, v, NULL, a->out, sizeof a->out, &a->used, &a->told };
    return l;
}

static uint32_t call_with(int which, const loan *l) {
    const input *in = l->in;
    switch (which) {
    case OPEN: return svid_token_open(l->h, in[TOKEN].bytes, in[TOKEN].len, l->told);
    case ASK: return svid_validator_ask_token(l->v, l->h, SVID_MOST_CANDIDATES, l->out, l->room, l->told);
    case JUDGE: return svid_validator_judge_token(l->v, NOW, in[KEY].bytes, in[KEY].len, in[INPUT].bytes, in[INPUT].len, in[SIGNATURE].bytes, in[SIGNATURE].len, l->h, l->out, l->room, l->used, l->told);
    default: return svid_validator_check_token(l->v, NOW, in[KEY].bytes, in[KEY].len, in[INPUT].bytes, in[INPUT].len, in[SIGNATURE].bytes, in[SIGNATURE].len, l->h, l->out, l->room, l->used, l->told);
    }
}

static size_t put_number(uint8_t *to, size_t n) { to[0] = (uint8_t)(n >> 24), to[1] = (uint8_t)(n >> 16), to[2] = (uint8_t)(n >> 8), to[3] = (uint8_t)n; return 4; }

/* What svid_validator_ask_token is to answer, by what svid_token_signature and svid_bundles_ask do. */
static uint32_t ask_by_text(const loan *l) {
    static uint8_t made[SVID_SIGNATURE_ROOM], rows[8192];
    svid_signed over;
    svid_told told, listed;
    uint32_t status = svid_bundles_ask(l->b, l->in[TOKEN].bytes, l->in[TOKEN].len, SVID_MOST_CANDIDATES, rows, sizeof rows, &listed);
    memset(l->told, 0, sizeof *l->told);
    if (status != SVID_OK) return status;
    holds(svid_token_signature(l->in[TOKEN].bytes, l->in[TOKEN].len, &over, made, sizeof made, &told) == SVID_OK, "a token that is read has no signature");
    size_t len = put_number(l->out, over.len);
    len += put_number(l->out + len, told.len);
    memcpy(l->out + len, made, told.len);
    memcpy(l->out + len + told.len, rows, listed.len);
    l->told->len = len + told.len + listed.len, l->told->more = listed.more;
    return SVID_OK;
}

/* What the other calls are to answer of a validator that has accepted nothing, by what svid_bundles_judge does, where yes is the answer to the question
 * of the key that is lent. */
static uint32_t call_by_text(int which, const loan *l) {
    static const svid_setting setting = { NOW, UINT64_MAX, { 1 } };
    static const size_t lens[] = { 6 };
    static uint8_t rows[8192];
    svid_question asked_of;
    svid_told listed, told;
    size_t count = 0;
    if (which == ASK) return ask_by_text(l);
    if (svid_bundles_ask(l->b, l->in[TOKEN].bytes, l->in[TOKEN].len, SVID_MOST_CANDIDATES, rows, sizeof rows, &listed) != SVID_OK) listed.len = 0;
    for (size_t from = 0, number = 0; from < listed.len && !count; number++) {
        from += 4 + number_at(rows + from);
        size_t len = number_at(rows + from);
        if (len == l->in[KEY].len && !memcmp(rows + from + 4, l->in[KEY].bytes, len)) count += svid_bundles_question(l->b, l->in[TOKEN].bytes, l->in[TOKEN].len, number, &asked_of, &told) == SVID_OK;
        from += 4 + len;
    }
    return svid_bundles_judge(l->b, &setting, (const uint8_t *)"ledger", 6, lens, 1, &asked_of, count, l->in[TOKEN].bytes, l->in[TOKEN].len, l->out, l->room, l->used, l->told);
}

/* A token that was read, or, before the call that reads it, a closed handle; and a validator. */
static void begin(int which, svid_token *t, svid_validator *v) {
    static const svid_token closed = SVID_TOKEN_CLOSED;
    static const svid_validator none = SVID_VALIDATOR_CLOSED;
    svid_told told;
    *t = closed, *v = none;
    find_signature();
    holds(which == OPEN || svid_token_open(t, token, token_len, &told) == SVID_OK, "a token does not open");
    answered = svid_validator_open(v, &TERMS, (const uint8_t *)"ledger", 6, bundles, bundles_len, &told);
    holds(answered == SVID_OK, "a validator does not open");
}

static void took(int which, long asked_for, long kept) {
    holds(which == OPEN || which == CHECK || kept == 0, "it keeps memory");
    holds(asked_for > 0, "no allocation was seen");
}

/* A token of these parts. */
static void make_token(const char *header, const char *payload) {
    token_len = 0;
    add_part(header, strlen(header));
    add_part(payload, strlen(payload));
    add_part("sig", 3);
}

static void closed_ones(void) {
    svid_token t = SVID_TOKEN_CLOSED;
    svid_validator v;
    static answer got, none;
    svid_told told;
    begin(OPEN, &t, &v);
    for (int turn = 0; turn < 2; turn++) {
        at = turn ? "a closed validator" : "a closed token";
        for (int which = ASK; which < CALLS; which++) {
            clear(&got);
            clear(&none);
            call(which, &t, &v, &got);
            holds(got.status == SVID_CLOSED && got.told.len == 0, NAMES[which]);
            holds(!memcmp(got.out, none.out, sizeof none.out) && !memcmp(&got.used, &none.used, sizeof none.used), "it writes");
            holds((t.word != 0) == turn, "it opens or closes");
        }
        if (turn) break;
        holds(svid_token_open(&t, token, token_len, &told) == SVID_OK && told.len == 0, "the token does not open");
        svid_validator_close(&v);
    }
    at = "an open token";
    void *held_before = t.held;
    answered = svid_token_open(&t, (const uint8_t *)"a.b", 3, &told);
    holds(answered == SVID_IS_OPEN && t.held == held_before && told.len == 0, "it opens again");
    end(&t, &v);
}

static void answers(void) {
    static answer got, due;
    static uint8_t text[FILE_MOST];
    static const char *const rows[][2] = {
        { "{\"alg\":\"HS256\"}", "{}" }, { "{\"alg\":\"ES256\"}", "[]" }, { "{\"alg\":\"ES256\"}", "{\"sub\":\"spiffe://example.org/a\",\"aud\":\"ledger\"}" },
        { "{\"alg\":\"ES256\"}", "{\"sub\":\"spiffe://example.org/a\",\"aud\":\"ledger\",\"exp\":1}" },
        { "{\"alg\":\"ES256\"}", "{\"sub\":\"spiffe://example.org/a\",\"aud\":\"other\",\"exp\":4102444800}" },
        { "{\"alg\":\"ES256\"}", "{\"sub\":\"spiffe://elsewhere.example/a\",\"aud\":\"ledger\",\"exp\":4102444800}" },
        { "{\"alg\":\"ES256\",\"kid\":\"none\"}", "{\"sub\":\"spiffe://example.org/a\",\"aud\":\"ledger\",\"exp\":4102444800}" },
        { "{\"alg\":\"ES256\"}", "{\"sub\":\"spiffe://example.org/a\",\"aud\":\"ledger\",\"exp\":4102444800}" },
    };
    closed_ones();
    memcpy(text, token, sizeof text);
    size_t text_len = token_len;
    for (size_t i = 0; i < COUNT(rows) + 3; i++) {
        svid_token t;
        svid_validator v;
        svid_bundles b = SVID_BUNDLES_CLOSED;
        svid_told told;
        if (i < COUNT(rows)) make_token(rows[i][0], rows[i][1]);
        else if (i == COUNT(rows)) token_len = 1;
        else if (i == COUNT(rows) + 1) memset(token, '.', sizeof token), token_len = sizeof token;
        else memcpy(token, text, sizeof text), token_len = text_len;
        begin(OPEN, &t, &v);
        holds(svid_bundles_open(&b, bundles, bundles_len, &told) == SVID_OK, "bundles do not open");
        at = NAMES[OPEN];
        answered = svid_token_open(&t, token, token_len, &told);
        uint32_t opened = answered;
        holds(told.len == 0 && (t.word != 0) == (opened == SVID_OK), "opening");
        for (int turn = 3 * ASK; turn < 3 * CALLS; turn++) {
            int which = turn / 3;
            for (int again = 0; again < 2; again++) {
                at = NAMES[which];
                clear(&due);
                clear(&got);
                loan l = lent(NULL, NULL, &due), read = lent(&t, &v, &got);
                l.b = &b;
                /* (the key; and before that a part of it, and none) */
                l.in[KEY].len = read.in[KEY].len = turn % 3 == 0 ? 0 : turn % 3 == 1 ? maker_len - 1 : maker_len;
                due.status = call_by_text(which, &l);
                if (opened != SVID_OK) {
                    answered = due.status;
                    holds(due.status == opened, "a token that can't be read is refused otherwise");
                    continue;
                }
                answered = got.status = call_with(which, &read);
                if (which == CHECK && again && due.status == SVID_OK) holds(answered == SVID_REPLAYED, "a token twice");
                else holds(!memcmp(&got, &due, sizeof got), "the answer differs");
                holds(t.word != 0, "the token is closed");
            }
        }
        svid_bundles_close(&b);
        end(&t, &v);
    }
    printf("%zu tokens, by a validator and by bundles alone", COUNT(rows) + 3);
}

/* Two validators, whose keys of one name differ: each accepts the token by its own key, and not by that of the other one. */
static void renewed(void) {
    static answer got;
    static uint8_t others[FILE_MOST], other_key[FILE_MOST];
    memcpy(others, bundles, bundles_len);
    memcpy(other_key, maker, maker_len);
    uint8_t *curve = memmem(others, bundles_len, "P-256", 5), *of_key = memmem(other_key, maker_len, "P-256", 5);
    holds(curve != NULL && of_key != NULL, "there is no curve");
    curve[4] = of_key[4] = '7';
    for (int turn = 0; turn < 4; turn++) {
        svid_token t;
        svid_validator v[2] = { SVID_VALIDATOR_CLOSED, SVID_VALIDATOR_CLOSED };
        svid_told told;
        int whose = turn / 2, by = turn % 2;
        begin(ASK, &t, &v[0]);
        answered = svid_validator_open(&v[1], &TERMS, (const uint8_t *)"ledger", 6, others, bundles_len, &told);
        holds(answered == SVID_OK, "a validator does not open");
        for (int which = ASK; which < CALLS; which++) {
            at = NAMES[which];
            clear(&got);
            loan l = lent(&t, &v[whose], &got);
            l.in[KEY].bytes = by ? other_key : maker;
            answered = call_with(which, &l);
            holds(answered == (which == ASK || by == whose ? SVID_OK : SVID_BAD_SIGNATURE), "another answer");
            holds(which != ASK || (memmem(got.out, got.told.len, other_key, maker_len) != NULL) == (whose == 1), "the key that is listed");
        }
        svid_validator_close(&v[1]);
        end(&t, &v[0]);
    }
    printf("a token at validators whose keys differ");
}

/* Two tokens of one issuer, which one key may have signed. What was verified of the other one is no answer for the first, whichever part of it is
 * the other's, or is cut; what was verified of the first is. */
static void mixed(void) {
    static answer got;
    static uint8_t other[FILE_MOST], other_signature[SVID_SIGNATURE_ROOM];
    memcpy(other, token, token_len);
    find_signature();
    memcpy(other_signature, signature, signature_len);
    other[signed_len - 1] ^= 1, other_signature[0] ^= 1;
    for (int which = JUDGE; which < CALLS; which++) {
        for (int turn = 0; turn < 8; turn++) {
            svid_token t;
            svid_validator v;
            at = NAMES[which];
            begin(which, &t, &v);
            clear(&got);
            loan l = lent(&t, &v, &got);
            if (turn == 1 || turn == 3) l.in[INPUT].bytes = other;
            if (turn == 2 || turn == 3) l.in[SIGNATURE].bytes = other_signature;
            if (turn == 4) l.in[INPUT].len--;
            if (turn == 5) l.in[SIGNATURE].len--;
            if (turn == 6) l.in[INPUT].bytes = signature, l.in[INPUT].len = signature_len, l.in[SIGNATURE].bytes = token, l.in[SIGNATURE].len = signed_len;
            if (turn == 7) l.in[INPUT].len = l.in[SIGNATURE].len = 0;
            answered = call_with(which, &l);
            holds(answered == (turn == 0 ? SVID_OK : SVID_BAD_SIGNATURE), "another answer");
            end(&t, &v);
        }
    }
    printf("what was verified of one token is no answer for another");
}

/* A token whose payload is so deep. */
static void deepen(int depth) {
    static char nested[2 * 10000 + 64];
    int n = sprintf(nested, "{\"a\":");
    for (int i = 0; i < depth; i++) nested[n + i] = '[', nested[n + 2 * depth - 1 - i] = ']';
    strcpy(nested + n + 2 * depth, "}");
    make_token("{\"alg\":\"ES256\"}", nested);
}

static void stack(void) { stack_with(deepen); }

int main(int count, char **words) {
    static const part parts[] = { { "refused", refused }, { "guarded", guarded }, { "nulls", nulls }, { "answers", answers }, { "renewed", renewed }, { "mixed", mixed }, { "stack", stack } };
    read_examples();
    return run_part(count, words, parts, COUNT(parts));
}
