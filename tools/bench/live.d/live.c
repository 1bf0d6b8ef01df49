/* Measures a validator that C keeps (tools/bench/live): live FOLDER INPUT.. opens one with FOLDER/bundles.json, takes each INPUT as messages, asks for
 * and checks each line of FOLDER/tokens.txt, with the answer yes to each question, saves the record in pieces of a mebibyte, and ticks to the
 * moment at which a tenth of all uses has expired.
 *
 * Prints, in one line: microseconds to open; milliseconds to take the last input; the median microseconds of an ask and of a check; the
 * microseconds of the longest check; milliseconds to save, and of the longest piece; millions of bytes resident behind the save; uses saved;
 * milliseconds of the tick.
 * All times are of this thread on the processor. */
#define _POSIX_C_SOURCE 200809L
#include "svid.h"
#include <stdio.h>
#include <stdlib.h>
#include <string.h>
#include <time.h>
#include <unistd.h>

#define NOW UINT64_C(1767225600)
#define LIFE 3600 /* the uses and the tokens of tools/bench/make expire evenly within so many seconds */
#define TOKENS 100000
#define ROOM (1 << 20)

typedef struct { uint8_t *bytes; size_t len; } text;

static void holds(int truth, const char *why) { if (!truth) { fprintf(stderr, "tools/bench/live: %s\n", why); exit(1); } }

static uint64_t clock_ns(void) {
    struct timespec t;
    clock_gettime(CLOCK_THREAD_CPUTIME_ID, &t);
    return (uint64_t)t.tv_sec * 1000000000 + (uint64_t)t.tv_nsec;
}

static text read_file(const char *folder, const char *name) {
    char path[4096];
    text t = { malloc(SVID_INPUT_MOST), 0 };
    snprintf(path, sizeof path, "%s/%s", folder, name);
    FILE *file = fopen(*folder ? path : name, "rb");
    holds(t.bytes && file, name);
    t.len = fread(t.bytes, 1, SVID_INPUT_MOST, file);
    fclose(file);
    return t;
}

static int by_time(const void *a, const void *b) {
    uint64_t x = *(const uint64_t *)a, y = *(const uint64_t *)b;
    return x < y ? -1 : x > y;
}

static uint64_t asks[TOKENS], checks[TOKENS];

static size_t number_at(const uint8_t *from) { return (size_t)from[0] << 24 | (size_t)from[1] << 16 | (size_t)from[2] << 8 | from[3]; }

/* Asks for a token, and checks it, as if its first key made its signature: to read it is a part of asking, and to close it one of checking. */
static void check(svid_validator *v, const uint8_t *token, size_t len, size_t turn) {
    static uint8_t rows[65536];
    uint8_t id[SVID_ID_ROOM];
    svid_told told;
    svid_use used;
    uint64_t from = clock_ns();
    svid_token read = SVID_TOKEN_CLOSED;
    uint32_t status = svid_token_open(&read, token, len, &told);
    if (status == SVID_OK) status = svid_validator_ask_token(v, &read, SVID_MOST_CANDIDATES, rows, sizeof rows, &told);
    asks[turn] = clock_ns() - from;
    holds(status == SVID_OK, svid_strstatus(status));
    const uint8_t *key = rows + 4; /* behind how many bytes are signed: the signature, an algorithm, and the key */
    for (int field = 0; field < 2; field++) key += 4 + number_at(key);
    from = clock_ns();
    status = svid_validator_check_token(v, NOW, key + 4, number_at(key), token, number_at(rows), rows + 8, number_at(rows + 4), &read, id, sizeof id, &used, &told);
    svid_token_close(&read);
    checks[turn] = clock_ns() - from;
    holds(status == SVID_OK, svid_strstatus(status));
}

static double resident_mb(void) {
    long pages = 0, all;
    FILE *file = fopen("/proc/self/statm", "r");
    holds(file && fscanf(file, "%ld %ld", &all, &pages) == 2, "/proc/self/statm");
    fclose(file);
    return (double)pages * (double)sysconf(_SC_PAGESIZE) / 1e6;
}

int main(int argc, char **argv) {
    static uint8_t piece[ROOM];
    svid_validator v = SVID_VALIDATOR_CLOSED;
    svid_terms terms = { UINT64_MAX, 10, UINT64_MAX, { 1 } };
    svid_part part = SVID_PART_FIRST;
    svid_told told;
    holds(argc >= 2, "usage: live FOLDER INPUT..");
    text bundles = read_file(argv[1], "bundles.json"), tokens = read_file(argv[1], "tokens.txt");
    uint64_t from = clock_ns();
    uint32_t status = svid_validator_open(&v, &terms, (const uint8_t *)"ledger", 6, bundles.bytes, bundles.len, &told);
    uint64_t opening = clock_ns() - from, taking = 0, saving = 0, longest_piece = 0, saved = 0;
    holds(status == SVID_OK, svid_strstatus(status));
    for (int i = 2; i < argc; i++) {
        text input = read_file("", argv[i]);
        from = clock_ns();
        status = svid_validator_take(&v, NOW, input.bytes, input.len, &told);
        taking = clock_ns() - from;
        holds(status == SVID_OK, svid_strstatus(status));
        free(input.bytes);
    }
    size_t turn = 0;
    for (uint8_t *at = tokens.bytes, *end = at + tokens.len; turn < TOKENS; turn++) {
        uint8_t *stop = memchr(at, '\n', (size_t)(end - at));
        holds(stop != NULL, "too few tokens");
        check(&v, at, (size_t)(stop - at), turn);
        at = stop + 1;
    }
    while (!part.done) {
        from = clock_ns();
        status = svid_validator_parts(&v, &part, piece, sizeof piece, &told);
        uint64_t took = clock_ns() - from;
        holds(status == SVID_OK, svid_strstatus(status));
        saving += took;
        saved += (told.len - 17) / 65;
        if (took > longest_piece) longest_piece = took;
    }
    double resident = resident_mb();
    from = clock_ns();
    status = svid_validator_tick(&v, NOW + LIFE / 10, &told);
    uint64_t ticking = clock_ns() - from;
    holds(status == SVID_OK, svid_strstatus(status));
    qsort(asks, TOKENS, sizeof *asks, by_time);
    qsort(checks, TOKENS, sizeof *checks, by_time);
    printf("%.1f %.1f %.2f %.2f %.1f %.1f %.2f %.0f %llu %.2f\n", (double)opening / 1e3, (double)taking / 1e6, (double)asks[TOKENS / 2] / 1e3, (double)checks[TOKENS / 2] / 1e3,
           (double)checks[TOKENS - 1] / 1e3, (double)saving / 1e6, (double)longest_piece / 1e6, resident, (unsigned long long)saved,
           (double)ticking / 1e6);
    svid_validator_close(&v);
    free(bundles.bytes);
    free(tokens.bytes);
    return 0;
}
