/* Verifies each token with each allocation of that refused in turn, those of OpenSSL. A bad signature must stay a bad one.
 * The address sanitizer sees memory that is lost, and a read past the end of an input. Usage: refused BUNDLES TOKENS, as for live.c. */
#include "svid.h"
#include "verify.h"
#include <openssl/crypto.h>
#include <openssl/err.h>
#include <stdio.h>
#include <stdlib.h>
#include <string.h>

static long asked, refused_at;

static int is_refused(void) { return ++asked == refused_at; }
static void *get(size_t size) { return is_refused() ? NULL : malloc(size); }
static void *get_for(size_t size, const char *file, int line) { (void)file; (void)line; return size ? get(size) : NULL; }
static void give_for(void *old, const char *file, int line) { (void)file; (void)line; free(old); }
static void *more_for(void *old, size_t size, const char *file, int line) {
    if (!old) return get_for(size, file, line);
    if (size) return is_refused() ? NULL : realloc(old, size);
    free(old);
    return NULL;
}

static void must(int truth, const char *what) { if (!truth) { fprintf(stderr, "refused: %s (allocation %ld)\n", what, refused_at); exit(1); } }

static size_t read_file(const char *name, uint8_t *room, size_t size) {
    FILE *file = fopen(name, "rb");
    size_t len;
    must(file != NULL, name);
    len = fread(room, 1, size, file);
    must(feof(file) && !fclose(file), name);
    return len;
}

static size_t number(const uint8_t *at) { return (size_t)at[0] << 24 | (size_t)at[1] << 16 | (size_t)at[2] << 8 | at[3]; }

/* An input of just so many bytes. */
static uint8_t *copy(const uint8_t *bytes, size_t len) {
    uint8_t *new = malloc(len);
    must(new != NULL, "out of memory");
    return memcpy(new, bytes, len);
}

/* Whether a verification by this algorithm, with this answer and so many allocations, came before: this one makes the same calls. */
static int came_before(const uint8_t *alg, size_t alg_len, int due, long all) {
    static struct { uint8_t alg[16]; int due; long all; } seen[64];
    static size_t count;
    size_t i;
    must(alg_len <= sizeof seen[0].alg && count < 64, "no room for a verification");
    for (i = 0; i < count; i++) if (!memcmp(seen[i].alg, alg, alg_len) && seen[i].due == due && seen[i].all == all) return 1;
    memcpy(seen[count].alg, alg, alg_len);
    seen[count].due = due;
    seen[count++].all = all;
    return 0;
}

/* Verifies a token with the key of a row, as it is and with each allocation refused, unless that came before: how many there are. */
static long each(const uint8_t *alg_at, const uint8_t *jwk_at, const uint8_t *token_at, size_t len) {
    size_t alg_len = number(alg_at - 4), jwk_len = number(jwk_at - 4);
    uint8_t *alg = copy(alg_at, alg_len), *jwk = copy(jwk_at, jwk_len), *token = copy(token_at, len);
    long all;
    int due = verify(NULL, alg, alg_len, jwk, jwk_len, token, len);
    asked = 0;   /* (the first call looked up what OpenSSL keeps) */
    must(verify(NULL, alg, alg_len, jwk, jwk_len, token, len) == due, "the second answer is another one");
    all = came_before(alg, alg_len, due, asked) ? 0 : asked;
    for (refused_at = 1; refused_at <= all; refused_at++) {
        asked = 0;
        must(!verify(NULL, alg, alg_len, jwk, jwk_len, token, len) || due, "a bad signature is called good");
    }
    refused_at = 0;
    must(verify(NULL, alg, alg_len, jwk, jwk_len, token, len) == due, "the answer is another one afterwards");
    must(ERR_peek_error() == 0, "the next call of OpenSSL in this thread finds an error of this one");
    free(alg); free(jwk); free(token);
    return all;
}

int main(int n, char **args) {
    static uint8_t bundles[65536], tokens[65536], rows[65536];
    svid_validator v = SVID_VALIDATOR_CLOSED;
    svid_terms terms = { UINT64_MAX, 10, UINT64_MAX, { 1 } };
    svid_told told;
    long all = 0, count = 0;
    must(n == 3 && CRYPTO_set_mem_functions(get_for, more_for, give_for) == 1, "usage: refused BUNDLES TOKENS");
    size_t bundles_len = read_file(args[1], bundles, sizeof bundles), tokens_len = read_file(args[2], tokens, sizeof tokens);
    must(!svid_validator_open(&v, &terms, (const uint8_t *)"ledger", 6, bundles, bundles_len, &told), "no validator");
    for (size_t at = 0; at < tokens_len;) {
        const uint8_t *space = memchr(tokens + at, ' ', tokens_len - at), *end = memchr(tokens + at, '\n', tokens_len - at);
        must(space && end && space < end, "a line of the tokens is none");
        svid_token t = SVID_TOKEN_CLOSED;
        if (svid_token_open(&t, space + 1, (size_t)(end - space - 1), &told) == SVID_OK &&
            svid_validator_ask_token(&v, &t, SVID_MOST_CANDIDATES, rows, sizeof rows, &told) == SVID_OK) {
            for (const uint8_t *alg = rows + 8 + number(rows + 4) + 4, *jwk; alg < rows + told.len; alg = jwk + number(jwk - 4) + 4, count++) {
                jwk = alg + number(alg - 4) + 4;
                all += each(alg, jwk, space + 1, (size_t)(end - space - 1));
            }
        }
        svid_token_close(&t);
        at = (size_t)(end - tokens) + 1;
    }
    svid_validator_close(&v);
    printf("%ld verifications, %ld allocations refused\n", count, all);
    return all > 0 && !fflush(stdout) ? 0 : 1;
}
