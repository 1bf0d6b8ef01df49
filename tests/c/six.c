/* Judges tokens with a validator that a service keeps, and OpenSSL (examples/embed/verify.c).
 * Usage: six BUNDLES AUDIENCES LONGEST < FRAMES. AUDIENCES is a file with one a line. A frame is a time in 8 bytes, a length in 4 bytes, both the
 * least first, and a token. For each it prints a line: the status, and of an accepted token its expiry and its SPIFFE ID. */
#include "svid.h"
#include "verify.h"
#include <stdio.h>
#include <stdlib.h>

typedef struct { uint8_t *bytes; size_t len; } text;

static uint8_t rows[1 << 20];

static void must(int truth, const char *what) { if (!truth) { fprintf(stderr, "six: %s\n", what); exit(2); } }

static text read_file(const char *name) {
    FILE *file = fopen(name, "rb");
    text t = { malloc(1 << 24), 0 };
    must(file && t.bytes, name);
    t.len = fread(t.bytes, 1, 1 << 24, file);
    must(!ferror(file) && feof(file) && !fclose(file), name);
    return t;
}

static uint64_t number(const uint8_t *at, int len) { return len ? at[0] | number(at + 1, len - 1) << 8 : 0; }

int main(int n, char **args) {
    must(n == 4, "usage: six BUNDLES AUDIENCES LONGEST");
    text bundles = read_file(args[1]), own = read_file(args[2]);
    svid_terms terms = { strtoull(args[3], NULL, 10), 10, UINT64_MAX, { 1 } };
    svid_validator kept = SVID_VALIDATOR_CLOSED;
    svid_told told;
    uint8_t head[12], *token = malloc(1 << 24), id[SVID_ID_ROOM];
    uint32_t opened = svid_validator_open(&kept, &terms, own.bytes, own.len, bundles.bytes, bundles.len, &told);
    if (opened) return printf("bundles %s\n", svid_strstatus(opened)) < 0;
    must(token != NULL, "no memory");
    while (fread(head, 1, sizeof head, stdin) == sizeof head) {
        size_t len = (size_t)number(head + 8, 4);
        svid_use used;
        must(len <= 1 << 24 && fread(token, 1, len, stdin) == len, "a frame is cut off");
        uint32_t status = svid_validator_verify(&kept, number(head, 8), token, len, verify, NULL, rows, sizeof rows, id, sizeof id, &used, &told);
        if (status) printf("%u\n", status);
        else printf("0 %llu %.*s\n", (unsigned long long)used.exp, (int)told.len, (const char *)id);
    }
    svid_validator_close(&kept);
    free(bundles.bytes); free(own.bytes); free(token);
    return fflush(stdout) ? 2 : 0;
}
