/* One call of libsvid: use join NOW A B | report NOW A | summary NOW A | answer NOW SUMMARY A | id TEXT. A, B and SUMMARY are files. What the call
 * writes goes to standard output, and a fault's number and offset to standard error. */
#include "svid.h"
#include <stdio.h>
#include <stdlib.h>
#include <string.h>

typedef struct { uint8_t *bytes; size_t len; } text;

/* As many bytes, with those that were there. */
static uint8_t *room(uint8_t *old, size_t len) {
    uint8_t *bytes = realloc(old, len);
    if (!bytes) { fprintf(stderr, "out of memory\n"); exit(2); }
    return bytes;
}

static text read_file(const char *name) {
    FILE *file = fopen(name, "rb");
    text t = { NULL, 0 };
    size_t more;
    if (!file) { perror(name); exit(2); }
    do {
        t.bytes = room(t.bytes, t.len + 65536);
        more = fread(t.bytes + t.len, 1, 65536, file);
        t.len += more;
    } while (more > 0);
    if (ferror(file)) { perror(name); exit(2); }
    fclose(file);
    return t;
}

/* The status of this program: 0 where all of its output was written. */
static int end_output(void) {
    if (fflush(stdout) == 0 && !ferror(stdout)) return 0;
    perror("standard output");
    return 2;
}

static uint32_t call(const char *what, uint64_t now, text a, text b, text out, svid_told *told) {
    if (!strcmp(what, "join")) return svid_join(a.bytes, a.len, b.bytes, b.len, now, out.bytes, out.len, told);
    if (!strcmp(what, "answer")) return svid_answer(a.bytes, a.len, b.bytes, b.len, now, out.bytes, out.len, told);
    if (!strcmp(what, "report")) return svid_report(a.bytes, a.len, now, out.bytes, out.len, told);
    return svid_summary(a.bytes, a.len, now, out.bytes, out.len, told);
}

int main(int n, char **args) {
    if (n == 3 && !strcmp(args[1], "id")) {
        svid_id id;
        const uint8_t *t = (const uint8_t *)args[2];
        uint32_t status = svid_id_parse(t, strlen(args[2]), &id);
        if (status) { fprintf(stderr, "refused: %u at %zu\n", status, id.offset); return 1; }
        printf("domain %.*s\npath %.*s\n", (int)id.domain_len, args[2] + 9, (int)id.path_len, args[2] + 9 + id.domain_len);
        return end_output();
    }
    if (n < 4) { fprintf(stderr, "usage: see the first lines of use.c\n"); return 2; }
    text a = read_file(args[3]), b = n > 4 ? read_file(args[4]) : (text){ room(NULL, 1), 0 }, out = { room(NULL, 1), 0 };
    svid_told told;
    uint32_t status = call(args[1], strtoull(args[2], NULL, 10), a, b, out, &told);
    if (status == SVID_TOO_SHORT) {
        out.bytes = room(out.bytes, out.len = told.len);
        status = call(args[1], strtoull(args[2], NULL, 10), a, b, out, &told);
    }
    if (status) { fprintf(stderr, "refused: %u input %zu message %zu offset %zu\n", status, told.input, told.message, told.offset); return 1; }
    fwrite(out.bytes, 1, told.len, stdout);
    free(a.bytes); free(b.bytes); free(out.bytes);
    return end_output();
}
