/* Calls the helpers in svid.h with what a service may hand them.
 *
 *   helpers names      each status has a name and a sentence of its own, and no other number has one
 *   helpers answers    the check that asks a verifier, by its answers
 *   helpers rooms      the same, in rooms between pages that can't be touched
 *   helpers batches    the message of one use */
#include "harness.h"
#include <limits.h>

/* STATUSES is given: how many names svid_status has. The greatest is less than MOST. */
enum { MOST = 1000 };

static void names(void) {
    int named = 0;
    const char *none = svid_strsentence(UINT32_MAX);
    at = "svid_strstatus";
    for (uint32_t n = 0; n < MOST; n++) {
        const char *name = svid_strstatus(answered = n);
        holds(!strncmp(name, "SVID_", 5) && name[5], "a name begins otherwise");
        const char *says = svid_strsentence(n);
        holds(says[0] && says[strlen(says) - 1] == '.' && !strchr(says, '`'), "a sentence has another form");
        holds((name[5] == '?') == !strcmp(says, none), "a status has no sentence, or a number that is none has one");
        if (name[5] == '?') continue;
        named++;
        for (uint32_t other = 0; other < n; other++) {
            holds(strcmp(name, svid_strstatus(other)), "two have one name");
            holds(strcmp(says, svid_strsentence(other)), "two have one sentence");
        }
    }
    holds(named == STATUSES, "a status has no name, or a number that is none has one");
    holds(!strcmp(svid_strstatus(SVID_OK), "SVID_OK") && !strcmp(svid_strstatus(SVID_WITHDRAWN), "SVID_WITHDRAWN") && !strcmp(svid_strstatus(UINT32_MAX), "SVID_?"), "another name");
    holds(!strcmp(svid_strsentence(SVID_WITHDRAWN), "The token was withdrawn."), "another sentence");
    holds(!strcmp(svid_strsentence(SVID_TRUNCATED), "The bytes end before the message does."), "another sentence");
    holds(!strcmp(svid_strsentence(SVID_CLOSED), "The validator, the bundles or the token is closed. Make a new one."), "another sentence");
    printf("%d names", named);
}

/* Bundles of one trust domain with so many keys, and the first one is padded to be as long as is due. */
static char text[200000];
static size_t bundles_of(int keys, size_t first_len) {
    size_t len = (size_t)sprintf(text, "{\"example.org\":{\"keys\":[");
    for (int n = 1; n <= keys; n++) {
        size_t from = len;
        len += (size_t)sprintf(text + len, "%s{\"kid\":\"%d\",\"kty\":\"EC\",\"pad\":\"", n > 1 ? "," : "", n);
        const char *end = "\",\"use\":\"jwt-svid\"}";
        while (n == 1 && len - from + strlen(end) < first_len) text[len++] = 'a';
        len += (size_t)sprintf(text + len, "%s", end);
    }
    return len + (size_t)sprintf(text + len, "]}}");
}

static void make_token(const char *header, const char *audience, int jti) {
    char payload[200];
    sprintf(payload, "{\"sub\":\"spiffe://example.org/a\",\"aud\":\"%s\",\"exp\":1767226000,\"jti\":\"%d\"}", audience, jti);
    token_len = 0;
    add_part(header, strlen(header));
    add_part(payload, strlen(payload));
    add_part("signature", 9);
}

/* A verifier that says yes of one key, in a word of its own. */
typedef struct { int good, word, calls; size_t longest; } verifier;
static int says(void *context, const uint8_t *alg, size_t alg_len, const uint8_t *jwk, size_t jwk_len, const uint8_t *text, size_t text_len) {
    verifier *it = context;
    it->calls++;
    if (jwk_len > it->longest) it->longest = jwk_len;
    holds(alg_len == 5 && !memcmp(alg, "ES256", 5) && text == token && text_len == token_len, "what a verifier is handed");
    holds(jwk_len > 9 && !memcmp(jwk, "{\"kid\":\"", 8) && jwk[jwk_len - 1] == '}', "the key that it is handed");
    return jwk[8] - '0' == it->good ? it->word : 0;
}

static void answer_all(void) {
    static uint8_t rows[300000], out[SVID_ID_ROOM];
    static const svid_terms terms = { UINT64_MAX, 10, 86400, { 1 } };
    static const int words[] = { 1, 256, 1 << 16, INT_MAX, -1, INT_MIN }; /* the last two are no */
    static const struct { const char *what; int keys, good; size_t first, longest; int calls; uint32_t due; } rows_due[] = {
        { "the first key", 3, 1, 0, 0, 1, SVID_OK }, { "the second key", 3, 2, 0, 0, 2, SVID_OK }, { "the last key", 3, 3, 0, 0, 3, SVID_OK },
        { "no key", 3, 9, 0, 0, 3, SVID_BAD_SIGNATURE }, { "the last one that is tried", 6, SVID_MOST_CANDIDATES, 0, 0, SVID_MOST_CANDIDATES, SVID_OK },
        { "one that is not tried", 6, SVID_MOST_CANDIDATES + 1, 0, 0, SVID_MOST_CANDIDATES, SVID_BAD_SIGNATURE }, { "a long key in front", 3, 2, 65536, 65536, 2, SVID_OK },
        { "a key of some hundred bytes in front", 3, 2, 0x102, 0x102, 2, SVID_OK },
    };
    int jti = 0;
    at = "svid_validator_verify";
    for (size_t n = 0; n < sizeof rows_due / sizeof *rows_due; n++) {
        for (size_t w = 0; w < sizeof words / sizeof *words; w++) {
            svid_validator v = { 0 };
            svid_told told;
            svid_use used;
            verifier it = { rows_due[n].good, words[w], 0, 0 };
            int tried = rows_due[n].keys < SVID_MOST_CANDIDATES ? rows_due[n].keys : SVID_MOST_CANDIDATES;
            at = rows_due[n].what;
            holds(svid_validator_open(&v, &terms, (const uint8_t *)"ledger", 6, (const uint8_t *)text, bundles_of(rows_due[n].keys, rows_due[n].first), &told) == SVID_OK, "it does not open");
            make_token("{\"alg\":\"ES256\"}", "ledger", ++jti);
            answered = svid_validator_verify(&v, NOW, token, token_len, says, &it, rows, 10, out, sizeof out, &used, &told);
            holds(answered == SVID_TOO_SHORT && it.calls == 0 && told.len > 10, "a small room for rows");
            answered = svid_validator_verify(&v, NOW, token, token_len, says, &it, rows, sizeof rows, out, sizeof out, &used, &told);
            holds(answered == (words[w] > 0 ? rows_due[n].due : SVID_BAD_SIGNATURE), "another answer");
            holds(it.calls == (words[w] > 0 ? rows_due[n].calls : tried), "as many calls as keys up to the good one");
            holds(it.longest >= rows_due[n].longest, "the key is cut");
            if (answered == SVID_OK) {
                holds(told.len == 22 && !memcmp(out, "spiffe://example.org/a", 22) && used.exp == 1767226000, "another use");
                answered = svid_validator_verify(&v, NOW, token, token_len, says, &it, rows, sizeof rows, out, sizeof out, &used, &told);
                holds(answered == SVID_REPLAYED, "a token twice");
            }
            /* The first refusal of the table, where no key may have signed the token. */
            make_token("{\"alg\":\"ES256\",\"kid\":\"none\"}", "ledger", ++jti);
            answered = svid_validator_verify(&v, NOW, token, token_len, says, &it, rows, sizeof rows, out, sizeof out, &used, &told);
            holds(answered == SVID_NO_KEY, "a kid that no key has");
            make_token("{\"alg\":\"ES256\",\"kid\":\"none\"}", "other", ++jti);
            answered = svid_validator_verify(&v, NOW, token, token_len, says, &it, rows, sizeof rows, out, sizeof out, &used, &told);
            holds(answered == SVID_NOT_AUDIENCE, "two refusals");
            /* One that can't be read advances the record all the same. */
            svid_size size;
            answered = svid_validator_verify(&v, NOW + 1, token, 2, says, &it, rows, sizeof rows, out, sizeof out, &used, &told);
            holds(answered == SVID_NOT_THREE_PARTS && svid_validator_size(&v, &size, &told) == SVID_OK && size.moment == NOW + 1, "no token");
            svid_validator_close(&v);
            answered = svid_validator_verify(&v, NOW, token, token_len, says, &it, rows, sizeof rows, out, sizeof out, &used, &told);
            holds(answered == SVID_CLOSED, "a closed validator");
            answered = svid_validator_verify(&v, NOW, token, 2, says, &it, rows, sizeof rows, out, sizeof out, &used, &told);
            holds(answered == SVID_CLOSED, "a closed validator, which refuses no token");
        }
    }
}

/* (What malloc keeps for the next call, it has after the first time.) */
static void answers(void) {
    answer_all();
    size_t before = mallinfo2().uordblks;
    answer_all();
    at = "svid_validator_verify";
    holds(mallinfo2().uordblks < before + 8192, "each call holds memory");
}

/* It touches nothing but the rooms that it is given, and reads none of them before something was written there. */
static void rooms(void) {
    svid_validator v = { 0 };
    svid_told told;
    svid_use used;
    verifier it = { 2, 1, 0, 0 };
    at = "svid_validator_verify";
    holds(svid_validator_open(&v, &TERMS, (const uint8_t *)"ledger", 6, (const uint8_t *)text, bundles_of(3, 0), &told) == SVID_OK, "it does not open");
    for (int n = 0; n < 4; n++) {
        uint8_t *nothing = n < 2 ? between(NULL, 0, n) : NULL, *out = between(NULL, SVID_ID_ROOM, n % 2);
        make_token("{\"alg\":\"ES256\",\"kid\":\"none\"}", "ledger", n);
        answered = svid_validator_verify(&v, NOW, token, token_len, says, &it, nothing, 0, out, SVID_ID_ROOM, &used, &told);
        holds(answered == SVID_NO_KEY, "no key, and no room for rows");
        make_token("{\"alg\":\"ES256\"}", "ledger", n);
        answered = svid_validator_verify(&v, NOW, token, token_len, says, &it, nothing, 0, out, SVID_ID_ROOM, &used, &told);
        holds(answered == SVID_TOO_SHORT && told.len > 0, "no room for rows");
        size_t due = told.len;
        uint8_t *less = between(NULL, due - 1, n % 2), *rows = between(NULL, due, n % 2);
        answered = svid_validator_verify(&v, NOW, token, token_len, says, &it, less, due - 1, out, SVID_ID_ROOM, &used, &told);
        holds(answered == SVID_TOO_SHORT && told.len == due && it.calls == 2 * n, "a byte less than rows take");
        answered = svid_validator_verify(&v, NOW, token, token_len, says, &it, rows, due, nothing, 0, &used, &told);
        holds(answered == SVID_TOO_SHORT && told.len == SVID_ID_ROOM, "no room for the ID");
        it.calls = 2 * n;
        answered = svid_validator_verify(&v, NOW, token, token_len, says, &it, rows, due, out, SVID_ID_ROOM, &used, &told);
        holds(answered == SVID_OK && it.calls == 2 * n + 2 && told.len == 22 && !memcmp(out, "spiffe://example.org/a", 22), "just enough room");
    }
    svid_validator_close(&v);
    printf("rooms of the length that is due, and of a byte less");
}

static void batches(void) {
    svid_use used = { 0 };
    uint8_t due[SVID_BATCH_OF_LEN] = { 'J', 'S', 'R', 2, 1 }, got[SVID_BATCH_OF_LEN];
    at = "svid_batch_of";
    used.exp = UINT64_C(0x0102030405060708), used.at = UINT64_C(0x0001122334455667);
    for (int i = 0; i < 32; i++) used.key[i] = (uint8_t)(100 + i);
    for (int i = 0; i < 16; i++) used.validator_id[i] = (uint8_t)(200 + i);
    for (int i = 0; i < 8; i++) due[5 + i] = due[73 + i] = (uint8_t)(used.at >> (56 - 8 * i)), due[17 + i] = (uint8_t)(1 + i);
    due[16] = 1;
    memcpy(due + 25, used.key, 32);
    memcpy(due + 57, used.validator_id, 16);
    memset(got, 0xFF, sizeof got);
    svid_batch_of(&used, got);
    holds(!memcmp(got, due, sizeof due), "other bytes");
    printf("a message");
}

int main(int count, char **words) {
    static const part parts[] = { { "names", names }, { "answers", answers }, { "rooms", rooms }, { "batches", batches } };
    return run_part(count, words, parts, COUNT(parts));
}
