/* A service in C that keeps a validator. In eight threads, it asks which keys may have signed each token, verifies the signature with them
 * (verify.c), and checks the token. Then a second validator takes the first one's record, and renews its trust bundles.
 * Usage: live BUNDLES RENEWED TOKENS, where each line of TOKENS is a name and a token; tokens.py writes all three. */
#include "svid.h"
#include "verify.h"
#include <pthread.h>
#include <stdio.h>
#include <stdlib.h>
#include <string.h>

#define NOW UINT64_C(1767225600)

typedef struct { svid_validator kept; pthread_mutex_t lock; } service;
typedef struct { uint8_t *bytes; size_t len; } text;

static service a = { SVID_VALIDATOR_CLOSED, PTHREAD_MUTEX_INITIALIZER }, b = { SVID_VALIDATOR_CLOSED, PTHREAD_MUTEX_INITIALIZER };
static text tokens;

static void must(int truth, const char *what) { if (!truth) { fprintf(stderr, "live: %s\n", what); exit(2); } }
static void lock(service *s) { must(!pthread_mutex_lock(&s->lock), "no lock"); }
static void unlock(service *s) { must(!pthread_mutex_unlock(&s->lock), "no lock"); }

static text read_file(const char *name) {
    FILE *file = fopen(name, "rb");
    text t = { malloc(65536), 0 };
    must(file && t.bytes, name);
    t.len = fread(t.bytes, 1, 65536, file);
    must(!ferror(file) && feof(file) && !fclose(file), name);
    return t;
}

static size_t number(const uint8_t *at) { return (size_t)at[0] << 24 | (size_t)at[1] << 16 | (size_t)at[2] << 8 | at[3]; }

/* Checks a token: the status, and the ID of an accepted one. It is read, and its signature verified, without the lock. */
static uint32_t check(service *s, uint64_t now, const uint8_t *token, size_t len, char id[SVID_ID_ROOM + 1]) {
    uint8_t rows[65536];
    const uint8_t *key = NULL;
    size_t key_len = 0, end = 0, signed_len = 0, signature_len = 0;
    svid_token read = SVID_TOKEN_CLOSED;
    svid_told told;
    svid_use used;
    uint32_t status = svid_token_open(&read, token, len, &told), ticked;
    if (status != SVID_OK) {
        /* A token that can't be read shows the validator the time, too. */
        lock(s);
        ticked = svid_validator_tick(&s->kept, now, &told);
        unlock(s);
        return ticked == SVID_OK ? status : ticked;
    }
    lock(s);
    status = svid_validator_ask_token(&s->kept, &read, SVID_MOST_CANDIDATES, rows, sizeof rows, &told);
    unlock(s);
    if (status == SVID_OK) end = told.len, signed_len = number(rows), signature_len = number(rows + 4);
    for (const uint8_t *alg = rows + 8 + signature_len + 4, *jwk; alg < rows + end && !key; alg = jwk + number(jwk - 4) + 4) {
        jwk = alg + number(alg - 4) + 4;
        if (verify(NULL, alg, number(alg - 4), jwk, number(jwk - 4), token, len)) key = jwk, key_len = number(jwk - 4);
    }
    /* Where no key may have signed the token, the check answers the first refusal that holds, which may be another. */
    if (status == SVID_OK || status >= SVID_TOO_LONG) {
        lock(s);
        status = svid_validator_check_token(&s->kept, now, key, key_len, token, signed_len, rows + 8, signature_len, &read,
                                            (uint8_t *)id, SVID_ID_ROOM, &used, &told);
        unlock(s);
    }
    svid_token_close(&read);
    if (status == SVID_OK) id[told.len] = 0;
    return status;
}

/* Checks each token, and prints the answers. */
static void check_all(const char *who, service *s, uint64_t now) {
    for (const uint8_t *at = tokens.bytes, *all = at + tokens.len, *end; at < all; at = end + 1) {
        char id[SVID_ID_ROOM + 1] = "";
        const uint8_t *space = memchr(at, ' ', (size_t)(all - at));
        end = memchr(at, '\n', (size_t)(all - at));
        must(space && end && space < end, "a line of the tokens is none");
        uint32_t status = check(s, now, space + 1, (size_t)(end - space - 1), id);
        printf("%s: %.*s: %s%s%s\n", who, (int)(space - at), (const char *)at, svid_strstatus(status), *id ? " " : "", id);
    }
}

static void *thread(void *of) { check_all("a", of, NOW); return NULL; }
int main(int n, char **args) {
    must(n == 4, "usage: live BUNDLES RENEWED TOKENS");
    text bundles = read_file(args[1]), renewed = read_file(args[2]);
    tokens = read_file(args[3]);
    svid_terms terms = { UINT64_MAX, 10, 86400, { 1 } };
    svid_part part = SVID_PART_FIRST;
    svid_told told;
    uint8_t audience[] = "ledger", piece[SVID_BATCH_OF_LEN];
    pthread_t threads[8];
    must(!svid_validator_open(&a.kept, &terms, audience, 6, bundles.bytes, bundles.len, &told), "a does not open");
    terms.validator_id[0] = 2;
    must(!svid_validator_open(&b.kept, &terms, audience, 6, bundles.bytes, bundles.len, &told), "b does not open");
    for (int i = 0; i < 8; i++) must(!pthread_create(&threads[i], NULL, thread, &a), "no thread");
    for (int i = 0; i < 8; i++) must(!pthread_join(threads[i], NULL), "no thread");
    /* The record of a, a piece a call, to b. */
    while (!part.done) {
        must(!svid_validator_parts(&a.kept, &part, piece, sizeof piece, &told), "a does not tell");
        must(!svid_validator_take(&b.kept, NOW + 1, piece, told.len, &told), "b does not take");
    }
    check_all("b, told by a", &b, NOW + 1);
    check_all("b, milliseconds", &b, NOW * 1000);
    must(!svid_validator_bundles(&b.kept, renewed.bytes, renewed.len, &told), "b does not take the renewed bundles");
    check_all("b, renewed", &b, NOW + 2);
    svid_validator_close(&a.kept);
    svid_validator_close(&b.kept);
    check_all("a, closed", &a, NOW);
    free(bundles.bytes); free(renewed.bytes); free(tokens.bytes);
    return fflush(stdout) ? 2 : 0;
}
