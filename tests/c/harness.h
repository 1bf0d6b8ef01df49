/* What the programs of this folder share: memory that counts and refuses, what a test says when it fails, the files of examples/, room between
 * pages that can't be touched, a painted stack, and the parts of a program by their names. */
#ifndef HARNESS_H
#define HARNESS_H
#define _GNU_SOURCE
#include "svid.h"
#include <malloc.h>
#include <pthread.h>
#include <stdio.h>
#include <stdlib.h>
#include <string.h>
#include <sys/mman.h>
#include <unistd.h>

#define MAYBE __attribute__((unused))
#define COUNT(list) (sizeof(list) / sizeof *(list))
#define NOW UINT64_C(1767225600)
/* The stack that a call may take: svid.h says so. */
#define STACK_MOST 126976
/* Where the fields of the structures stand, on a machine of 64 bits. */
#define STANDS_AT(type, field, offset) _Static_assert(offsetof(type, field) == offset, #type "." #field)

/* How many allocations were asked for and how often memory was given back; how many blocks stand, and with how many bytes. Those from the one
 * number to the other are refused, or the one alone where there is no other. */
MAYBE static long asked, freed, standing, held, refused_at, refused_to, refused_in_all;

/* (linked with --wrap for malloc, realloc and free, through which the library takes all of its memory) */
#ifdef WRAPPED
void *__real_malloc(size_t size);
void *__real_realloc(void *old, size_t size);
void __real_free(void *old);
static int is_refused(void) {
    asked++;
    int is = refused_at && asked >= refused_at && asked <= (refused_to ? refused_to : refused_at);
    refused_in_all += is;
    return is;
}
void *__wrap_malloc(size_t size) {
    void *new = is_refused() ? NULL : __real_malloc(size);
    standing += new != NULL;
    held += (long)malloc_usable_size(new);
    return new;
}
void *__wrap_realloc(void *old, size_t size) {
    long before = (long)malloc_usable_size(old);
    void *new = is_refused() ? NULL : __real_realloc(old, size);
    standing += new != NULL && old == NULL;
    if (new) held += (long)malloc_usable_size(new) - before;
    return new;
}
void __wrap_free(void *old) {
    freed += old != NULL;
    standing -= old != NULL;
    held -= (long)malloc_usable_size(old);
    __real_free(old);
}
#endif

/* Which call is tried, and what it answered. */
MAYBE static const char *at = "";
MAYBE static uint32_t answered;
static inline void fail(const char *why) { printf("%s: %s (answered %s, allocation %ld)\n", at, why, svid_strstatus(answered), refused_at); exit(1); }
static inline void holds(int truth, const char *why) { if (!truth) fail(why); }

/* The files of examples/, and the questions that its table says yes to; the key that made the token's signature, and that signature, over so many bytes
 * of the token. */
enum { FILE_MOST = 65536 };
MAYBE static uint8_t bundles[FILE_MOST], token[FILE_MOST], table[FILE_MOST], uses[FILE_MOST];
MAYBE static size_t bundles_len, token_len, table_len, uses_len;
MAYBE static svid_question yes[64];
MAYBE static size_t yes_len;
MAYBE static uint8_t maker[FILE_MOST], signature[SVID_SIGNATURE_ROOM];
MAYBE static size_t maker_len, signature_len, signed_len;
MAYBE static const svid_terms TERMS = { UINT64_MAX, 10, 86400, { 1 } };

static inline size_t read_file(const char *name, uint8_t *room) {
    FILE *file = fopen(name, "rb");
    if (!file) { perror(name); exit(2); }
    size_t len = fread(room, 1, FILE_MOST, file);
    fclose(file);
    return len;
}

static inline size_t of_hex(const char *hex, size_t digits, uint8_t *to) {
    for (size_t i = 0; i < digits / 2; i++) { char two[3] = { hex[2 * i], hex[2 * i + 1], 0 }; to[i] = (uint8_t)strtoul(two, NULL, 16); }
    return digits / 2;
}

static inline size_t number_at(const uint8_t *from) { return (size_t)from[0] << 24 | (size_t)from[1] << 16 | (size_t)from[2] << 8 | from[3]; }

/* The signature of `token`, and over how many of its bytes it is made; none if it can't be read. */
static inline void find_signature(void) {
    svid_signed over;
    svid_told told;
    signature_len = signed_len = 0;
    if (svid_token_signature(token, token_len, &over, signature, sizeof signature, &told) == SVID_OK) signature_len = told.len, signed_len = over.len;
}

/* The key whose question about the token the table says yes to, and its signature. */
static inline void find_maker(void) {
    static uint8_t rows[FILE_MOST];
    svid_bundles b = SVID_BUNDLES_CLOSED;
    svid_told told;
    svid_question asks;
    at = "the key of the examples";
    answered = svid_bundles_open(&b, bundles, bundles_len, &told);
    if (answered == SVID_OK) answered = svid_bundles_ask(&b, token, token_len, SIZE_MAX, rows, sizeof rows, &told);
    holds(answered == SVID_OK, "no key");
    size_t len = told.len;
    for (size_t from = 0, number = 0; from < len && !maker_len; number++) {
        from += 4 + number_at(rows + from);
        holds((answered = svid_bundles_question(&b, token, token_len, number, &asks, &told)) == SVID_OK, "no question");
        if (!memcmp(&asks, &yes[0], sizeof asks)) memcpy(maker, rows + from + 4, maker_len = number_at(rows + from));
        from += 4 + number_at(rows + from);
    }
    holds(maker_len > 0, "the table says yes to none");
    svid_bundles_close(&b);
    find_signature();
}

static inline void read_examples(void) {
    bundles_len = read_file("bundles.json", bundles);
    token_len = read_file("token.txt", token);
    if (token_len && token[token_len - 1] == '\n') token_len--;
    table_len = read_file("table.txt", table);
    uses_len = read_file("two-uses.batch", uses);
    for (size_t i = 0; i + 64 <= table_len && yes_len < COUNT(yes) - 1; i += 65, yes_len++) of_hex((const char *)table + i, 64, yes[yes_len].bytes);
    find_maker();
}

/* Reads a token for one call that judges or checks it, with the signature of `token` and the key that made it, or with none. */
typedef uint32_t token_call(svid_validator *, uint64_t, const uint8_t *, size_t, const uint8_t *, size_t, const uint8_t *, size_t, svid_token *, uint8_t *, size_t, svid_use *, svid_told *);
static inline uint32_t read_for(token_call *call, int by_maker, svid_validator *v, uint64_t now, const uint8_t *text, size_t len, uint8_t *out, size_t room, svid_use *used, svid_told *told) {
    svid_token t = SVID_TOKEN_CLOSED;
    uint32_t status = svid_token_open(&t, text, len, told);
    if (status == SVID_OK && by_maker) status = call(v, now, maker, maker_len, text, signed_len, signature, signature_len, &t, out, room, used, told);
    else if (status == SVID_OK) status = call(v, now, NULL, 0, NULL, 0, NULL, 0, &t, out, room, used, told);
    svid_token_close(&t);
    return status;
}
static inline uint32_t check_token(svid_validator *v, uint64_t now, uint8_t *out, size_t room, svid_use *used, svid_told *told) {
    return read_for(svid_validator_check_token, 1, v, now, token, token_len, out, room, used, told);
}
static inline uint32_t judge_token(svid_validator *v, uint64_t now, uint8_t *out, size_t room, svid_use *used, svid_told *told) {
    return read_for(svid_validator_judge_token, 1, v, now, token, token_len, out, room, used, told);
}

/* The same for the call that lists its keys. */
static inline uint32_t ask_token(svid_validator *v, const uint8_t *text, size_t len, size_t most, uint8_t *out, size_t room, svid_told *told) {
    svid_token t = SVID_TOKEN_CLOSED;
    uint32_t status = svid_token_open(&t, text, len, told);
    if (status == SVID_OK) status = svid_validator_ask_token(v, &t, most, out, room, told);
    svid_token_close(&t);
    return status;
}

/* So many bytes between two pages that can't be touched, right behind the first or right before the second; which are these bytes, where some are
 * given. (the pages are given back at the end of the process) */
static inline void *between(const void *bytes, size_t len, int lies_first) {
    size_t page = (size_t)sysconf(_SC_PAGESIZE), own = (len + page - 1) / page * page;
    uint8_t *all = mmap(NULL, own + 2 * page, PROT_NONE, MAP_PRIVATE | MAP_ANONYMOUS, -1, 0);
    holds(all != MAP_FAILED && (!own || !mprotect(all + page, own, PROT_READ | PROT_WRITE)), "no memory for the test");
    uint8_t *to = all + page + (lies_first ? 0 : own - len);
    if (bytes && len) memcpy(to, bytes, len);
    return to;
}

/* One more part of `token`, as base64url with no padding. */
static inline void add_part(const char *text, size_t len) {
    static const char digits[] = "ABCDEFGHIJKLMNOPQRSTUVWXYZabcdefghijklmnopqrstuvwxyz0123456789-_";
    uint32_t bits = 0, left = 0;
    if (token_len) token[token_len++] = '.';
    for (size_t i = 0; i < len; i++) {
        bits = bits << 8 | (uint8_t)text[i], left += 8;
        for (; left >= 6; left -= 6) token[token_len++] = (uint8_t)digits[bits >> (left - 6) & 63];
    }
    if (left) token[token_len++] = (uint8_t)digits[bits << (6 - left) & 63];
}

/* How much of a painted stack a thread takes that makes the call. */
static inline size_t stack_of(void *(*run)(void *), void *given) {
    static uint8_t space[1 << 20] __attribute__((aligned(4096)));
    pthread_attr_t attr;
    pthread_t thread;
    memset(space, 0x5A, sizeof space);
    pthread_attr_init(&attr);
    holds(!pthread_attr_setstack(&attr, space, sizeof space) && !pthread_create(&thread, &attr, run, given), "no thread");
    pthread_join(thread, NULL);
    pthread_attr_destroy(&attr);
    size_t low = 0;
    while (low < sizeof space && space[low] == 0x5A) low++;
    fprintf(stderr, "%-24s %7zu %s\n", at, sizeof space - low, svid_strstatus(answered));
    return sizeof space - low;
}

/* Whether no call took more than it may. */
static inline void is_stack(size_t most, size_t may) {
    if (most > may) fail("a call needs more stack than it may");
    printf("at most %zu bytes of stack", most);
}

/* Eight threads, each with its number. */
static inline void eight(void *(*run)(void *)) {
    pthread_t all[8];
    at = "threads";
    for (size_t i = 0; i < 8; i++) holds(!pthread_create(&all[i], NULL, run, (void *)i), "no thread");
    for (size_t i = 0; i < 8; i++) pthread_join(all[i], NULL);
}

/* The parts of a program. Its one argument names the part that runs. */
typedef struct { const char *name; void (*run)(void); } part;
static inline int run_part(int count, char **words, const part *parts, size_t parts_len) {
    for (size_t i = 0; count == 2 && i < parts_len; i++) {
        if (strcmp(words[1], parts[i].name)) continue;
        parts[i].run();
        holds(strcmp(words[1], "refused") || refused_in_all, "no allocation was refused");
        printf(": passed\n");
        return 0;
    }
    fprintf(stderr, "usage: %s PART\n", words[0]);
    for (size_t i = 0; i < parts_len; i++) fprintf(stderr, "  %s\n", parts[i].name);
    return 2;
}
#endif
