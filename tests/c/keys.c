/* Reads keys as SubjectPublicKeyInfo (svid_key_spki of svid.h), and entries of trust bundles as the text of keys (svid_key_text).
 *
 *   keys refused    the call with each of its allocations refused in turn; linked with --wrap for malloc, realloc and free
 *   keys guarded    all that it is lent between pages that can't be touched, right before the one and right behind the other
 *   keys nulls      NULL for each input of no bytes, and for a room of none: the answer is that of another pointer
 *   keys answers    the bytes and texts of keys, in rooms of each length, and each reason why a key can't be used, or an entry is no key
 *   keys stack      the call on a painted stack, which tells how much of it the call needs */
#include "harness.h"

typedef struct { uint32_t status; svid_told told; uint8_t out[SVID_SPKI_ROOM]; } answer;
static void clear(answer *a) { memset(a, 0, sizeof *a); memset(a->out, 0xA5, sizeof a->out); }

static void call(const char *key, const char *alg, size_t most, answer *a) {
    clear(a);
    answered = a->status = svid_key_spki((const uint8_t *)key, strlen(key), (const uint8_t *)alg, strlen(alg), most, a->out, sizeof a->out, &a->told);
}

static void call_text(const char *entry, size_t room, answer *a) {
    clear(a);
    answered = a->status = svid_key_text((const uint8_t *)entry, strlen(entry), a->out, room, &a->told);
}

/* The call that an algorithm is for, or svid_key_text where none is given. */
static void call_for(const char *key, const char *alg, answer *a) {
    at = alg ? alg : "svid_key_text";
    if (alg) call(key, alg, SVID_USUAL_RSA_BITS, a); else call_text(key, sizeof a->out, a);
}

/* An entry, and its text as Python's json.dumps(.., sort_keys=True, separators=(",", ":")) writes it. */
static const char ENTRY[] = "{ \"use\": \"jwt-svid\", \"kty\": \"EC\", \"kid\": \"k\", \"n\": 18446744073709551615 }";
static const char ENTRY_TEXT[] = "{\"kid\":\"k\",\"kty\":\"EC\",\"n\":18446744073709551615,\"use\":\"jwt-svid\"}";

/* The key of RFC 7515, appendix A.3.1, and its SubjectPublicKeyInfo, as OpenSSL writes it. */
#define X "f83OJ3D2xF1Bg8vub9tLe1gHMzV76e8Tus9uPHvRVEU"
#define Y "x_FEzRu9m36HLN_tue659LNpXW6pCyStikYjKIWI5a0"
#define EC(kty, crv, x, y) "{\"kty\":\"" kty "\",\"crv\":\"" crv "\",\"x\":\"" x "\",\"y\":\"" y "\"}"
static const char EC_KEY[] = EC("EC", "P-256", X, Y);
static const char EC_DER[] = "3059301306072a8648ce3d020106082a8648ce3d030107034200047fcdce2770f6c45d4183cbee6fdb4b7b580733357be9ef13bacf6e3c7bd15445"
    "c7f144cd1bbd9b7e872cdfedb9eeb9f4b3695d6ea90b24ad8a4623288588e5ad";

/* An RSA key whose modulus is so many bytes: the first, then others of 0xff, and last 0xff or 0xfe; and its exponent in base64url. */
static const char *rsa(size_t bytes, int first, int last, const char *e) {
    static const char digits[] = "ABCDEFGHIJKLMNOPQRSTUVWXYZabcdefghijklmnopqrstuvwxyz0123456789-_";
    static char text[8192];
    char *to = text + sprintf(text, "{\"kty\":\"RSA\",\"n\":\"");
    uint32_t bits = 0;
    for (size_t i = 0; i < bytes; i++) {
        bits = bits << 8 | (uint32_t)(i == 0 ? first : i + 1 == bytes ? last : 0xff);
        if (i % 3 == 0) *to++ = digits[bits >> 2 & 63];
        if (i % 3 == 1) *to++ = digits[bits >> 4 & 63];
        if (i % 3 == 2) *to++ = digits[bits >> 6 & 63], *to++ = digits[bits & 63];
    }
    if (bytes % 3 == 1) *to++ = digits[bits << 4 & 63];
    if (bytes % 3 == 2) *to++ = digits[bits << 2 & 63];
    sprintf(to, "\",\"e\":\"%s\"}", e);
    return text;
}

/* The bytes of a key of 2,048 bits, 2^2048 - 1, and the exponent 65537. */
static size_t rsa_der(uint8_t *to) {
    size_t len = of_hex("30820122300d06092a864886f70d01010105000382010f003082010a0282010100", 66, to);
    memset(to + len, 0xff, 256);
    return len + 256 + of_hex("0203010001", 10, to + len + 256);
}

static void refused(void) {
    static answer due, got, none;
    static char rsa_key[8192];
    strcpy(rsa_key, rsa(256, 0xff, 0xff, "AQAB"));
    static const struct { const char *key, *alg; } keys[] = {
        { EC_KEY, "ES256" }, { rsa_key, "PS384" }, { EC_KEY, "ES384" }, { "{", "ES256" }, { ENTRY, NULL }, { EC_KEY, NULL }, { "{", NULL },
    };
    long tried = 0;
    for (size_t i = 0; i < sizeof keys / sizeof *keys; i++) {
        refused_at = asked = 0;
        call_for(keys[i].key, keys[i].alg, &due);
        long all = asked;
        holds(due.status != SVID_NO_MEMORY && standing == 0, "memory is held");
        holds(!keys[i].key[1] || all > 0, "no allocation was seen");
        for (long n = 1; n <= all; n++, tried++) {
            asked = 0, refused_at = n;
            call_for(keys[i].key, keys[i].alg, &got);
            refused_at = 0;
            holds(standing == 0, "memory is held");
            if (got.status != SVID_NO_MEMORY) { holds(!memcmp(&got, &due, sizeof due), "the answer differs"); continue; }
            clear(&none);
            holds(!memcmp(got.out, none.out, sizeof none.out) && !memcmp(&got.told, &none.told, sizeof none.told), "want of memory writes, or tells more");
        }
    }
    printf("%ld allocations refused", tried);
}

/* (the pages are given back at the end of the process) */
static void guarded(void) {
    static answer due, got;
    static const size_t rooms[] = { 0, 1, 90, 91, 92, 294, SVID_SPKI_ROOM };
    static const char *const algs[] = { "ES256", "RS256", "", "ES256ES256" };
    const char *keys[] = { EC_KEY, rsa(256, 0xff, 0xff, "AQAB"), "", "{\"kty\":\"EC\"" };
    long calls = 0;
    for (int turn = 0; turn < 2 * 4 * 4 * 7; turn++, calls++) {
        const char *key = keys[turn / 2 % 4], *alg = algs[turn / 8 % 4];
        size_t room = rooms[turn / 32], key_len = strlen(key), alg_len = strlen(alg);
        int first = turn % 2;
        clear(&due), clear(&got);
        due.status = svid_key_spki((const uint8_t *)key, key_len, (const uint8_t *)alg, alg_len, SVID_USUAL_RSA_BITS, due.out, room, &due.told);
        svid_told *told = between(&got.told, sizeof got.told, first);
        uint8_t *out = between(got.out, room, first);
        answered = got.status = svid_key_spki(between(key, key_len, first), key_len, between(alg, alg_len, first), alg_len, SVID_USUAL_RSA_BITS, out, room, told);
        memcpy(got.out, out, room), got.told = *told;
        holds(!memcmp(&got, &due, sizeof got), "the answer differs");
    }
    const char *entries[] = { ENTRY, EC_KEY, "", "{\"use\":" };
    const size_t text_rooms[] = { 0, 1, sizeof ENTRY_TEXT - 2, sizeof ENTRY_TEXT - 1, sizeof ENTRY_TEXT, SVID_SPKI_ROOM };
    for (int turn = 0; turn < 2 * 4 * 6; turn++, calls++) {
        const char *entry = entries[turn / 2 % 4];
        size_t room = text_rooms[turn / 8], len = strlen(entry);
        int first = turn % 2;
        call_text(entry, room, &due), clear(&got);
        svid_told *told = between(&got.told, sizeof got.told, first);
        uint8_t *out = between(got.out, room, first);
        answered = got.status = svid_key_text(between(entry, len, first), len, out, room, told);
        memcpy(got.out, out, room), got.told = *told;
        holds(!memcmp(&got, &due, sizeof got), "the answer differs");
    }
    printf("%ld calls between pages that can't be touched", calls);
}

static void nulls(void) {
    static answer due, got;
    static const uint8_t nothing[1];
    const uint8_t *key = (const uint8_t *)EC_KEY, *alg = (const uint8_t *)"ES256";
    size_t key_len = sizeof EC_KEY - 1;
    for (int which = 0; which < 3; which++) {
        answer *both[] = { &due, &got };
        for (int i = 0; i < 2; i++) {
            clear(both[i]);
            const uint8_t *none = i ? NULL : nothing;
            answered = both[i]->status = svid_key_spki(which == 0 ? none : key, which == 0 ? 0 : key_len, which == 1 ? none : alg, which == 1 ? 0 : 5, 4096,
                which == 2 ? (i ? NULL : both[i]->out) : both[i]->out, which == 2 ? 0 : sizeof both[i]->out, &both[i]->told);
        }
        holds(!memcmp(&got, &due, sizeof got), "NULL is answered otherwise");
    }
    for (int which = 0; which < 2; which++) {
        answer *both[] = { &due, &got };
        for (int i = 0; i < 2; i++) {
            clear(both[i]);
            const uint8_t *none = i ? NULL : nothing;
            answered = both[i]->status = svid_key_text(which == 0 ? none : (const uint8_t *)ENTRY, which == 0 ? 0 : sizeof ENTRY - 1,
                which == 1 && i ? NULL : both[i]->out, which == 1 ? 0 : sizeof both[i]->out, &both[i]->told);
        }
        holds(!memcmp(&got, &due, sizeof got), "NULL is answered otherwise");
    }
    printf("NULL for each input");
}

static void wants(const char *key, const char *alg, size_t most, uint32_t due) {
    static answer a, none;
    at = key;
    call(key, alg, most, &a);
    clear(&none);
    holds(a.status == due, svid_strstatus(due));
    if (due == SVID_OK) return;
    holds(a.told.len == 0 && !memcmp(a.out, none.out, sizeof none.out), "a key that can't be used writes, or tells more");
}

/* The beginning of an entry, up to the name of its key. */
#define HEAD "{\"use\":\"jwt-svid\",\"kty\":\"EC\",\"kid\":"

static void wants_entry(const char *entry, uint32_t due) {
    static answer a, none;
    at = entry;
    call_text(entry, sizeof a.out, &a);
    clear(&none);
    holds(a.status == due && a.told.len == 0 && !memcmp(a.out, none.out, sizeof none.out), svid_strstatus(due));
}

/* The rows of docs/FORMATS.md, "Bundles", in their order. */
static void entries(void) {
    static answer a;
    static char long_entry[65600];
    size_t len = sizeof ENTRY_TEXT - 1;
    at = "the text of a key";
    for (size_t room = 0; room <= len + 1; room++) {
        call_text(ENTRY, room, &a);
        holds(a.told.len == len && a.told.input == 0 && a.told.offset == 0 && a.told.more == 0, "tells otherwise");
        holds(a.status == (room < len ? SVID_TOO_SHORT : SVID_OK) && a.out[room < len ? 0 : len] == 0xA5, "a room of another length");
        holds(room < len || !memcmp(a.out, ENTRY_TEXT, len), "differs");
    }
    wants_entry("", SVID_ENTRY_NOT_OBJECT);
    wants_entry("[]", SVID_ENTRY_NOT_OBJECT);
    wants_entry("{\"use\":\"jwt-svid\"", SVID_ENTRY_NOT_OBJECT);
    wants_entry("{\"use\":\"jwt-svid\",\"n\":\"\xff\"}", SVID_ENTRY_NOT_OBJECT);
    wants_entry("{}", SVID_ENTRY_NO_USE);
    wants_entry("{\"use\":\"x509-svid\"}", SVID_ENTRY_X509);
    wants_entry("{\"use\":\"sig\"}", SVID_ENTRY_USE);
    wants_entry("{\"use\":null}", SVID_ENTRY_USE);
    wants_entry("{\"use\":\"jwt-svid\",\"kid\":1}", SVID_ENTRY_KID);
    wants_entry("{\"use\":\"jwt-svid\",\"kid\":\"\",\"kty\":\"oct\"}", SVID_ENTRY_KTY);
    wants_entry("{\"use\":\"jwt-svid\",\"kid\":\"\",\"kty\":\"EC\",\"n\":-0}", SVID_ENTRY_NUMBER);
    memset(long_entry, 'k', sizeof long_entry - 1);
    memcpy(long_entry, HEAD, sizeof HEAD - 1);
    long_entry[sizeof HEAD - 1] = '"';
    memcpy(long_entry + sizeof long_entry - 3, "\"}", 2);
    wants_entry(long_entry, SVID_ENTRY_TOO_LONG);
}

static void answers(void) {
    static answer a;
    static uint8_t der[SVID_SPKI_ROOM];
    entries();
    size_t len = of_hex(EC_DER, sizeof EC_DER - 1, der);
    at = "the bytes of an EC key";
    call(EC_KEY, "ES256", 0, &a);
    holds(a.status == SVID_OK && a.told.len == len && !memcmp(a.out, der, len) && a.out[len] == 0xA5, "differ");
    at = "the bytes of an RSA key";
    len = rsa_der(der);
    call(rsa(256, 0xff, 0xff, "AQAB"), "RS512", 2048, &a);
    holds(a.status == SVID_OK && a.told.len == len && !memcmp(a.out, der, len) && a.out[len] == 0xA5, "differ");
    for (size_t room = 0; room <= len; room++) {
        const char *key = rsa(256, 0xff, 0xff, "AQAB");
        clear(&a);
        answered = svid_key_spki((const uint8_t *)key, strlen(key), (const uint8_t *)"PS256", 5, 4096, a.out, room, &a.told);
        holds(answered == (room < len ? SVID_TOO_SHORT : SVID_OK) && a.told.len == len && a.out[room] == 0xA5 && (room == len || a.out[0] == 0xA5), "a room of another length");
    }
    at = "the longest key";
    call(rsa(2048, 0xff, 0xff, "f____w"), "RS256", SIZE_MAX, &a);
    holds(a.status == SVID_OK && a.told.len <= SVID_SPKI_ROOM, "has no room");
    static const char *const names[] = { "", "HS256", "none", "es256", "ES256 ", "ES2567", "EdDSA", "\xff\xff\xff" };
    for (size_t i = 0; i < sizeof names / sizeof *names; i++) wants(EC_KEY, names[i], 4096, SVID_NO_ALGORITHM);
    wants("", "ES256", 4096, SVID_KEY_NOT_OBJECT);
    wants("[]", "ES256", 4096, SVID_KEY_NOT_OBJECT);
    wants("{\"kty\":\"EC\"", "ES256", 4096, SVID_KEY_NOT_OBJECT);
    wants("{}", "ES256", 4096, SVID_KEY_KTY);
    wants(EC_KEY, "RS256", 4096, SVID_KEY_KTY);
    wants(EC("ec", "P-256", X, Y), "ES256", 4096, SVID_KEY_KTY);
    wants("{\"kty\":\"EC\",\"alg\":null}", "ES256", 4096, SVID_KEY_ALG);
    wants("{\"kty\":\"EC\",\"alg\":\"ES384\"}", "ES256", 4096, SVID_KEY_ALG);
    wants(EC_KEY, "ES384", 4096, SVID_KEY_CRV);
    wants(EC("EC", "P-256", "AA", Y), "ES256", 4096, SVID_KEY_X);
    wants(EC("EC", "P-256", X "=", Y), "ES256", 4096, SVID_KEY_X);
    wants(EC("EC", "P-256", X, "A" Y), "ES256", 4096, SVID_KEY_Y);
    wants(EC("EC", "P-256", X, ""), "ES256", 4096, SVID_KEY_Y);
    wants(rsa(256, 0x00, 0xff, "AQAB"), "RS256", 4096, SVID_KEY_N);
    wants(rsa(256, 0xff, 0xfe, "AQAB"), "RS256", 4096, SVID_KEY_N);
    wants(rsa(256, 0x7f, 0xff, "AQAB"), "RS256", 4096, SVID_KEY_BITS);
    wants(rsa(256, 0x80, 0xff, "AQAB"), "RS256", 4096, SVID_OK);
    wants(rsa(256, 0x80, 0xff, "AQAB"), "RS256", 2047, SVID_KEY_BITS);
    wants(rsa(512, 0xff, 0xff, "AQAB"), "RS256", 4096, SVID_OK);
    wants(rsa(513, 0x01, 0xff, "AQAB"), "RS256", 4096, SVID_KEY_BITS);
    wants(rsa(513, 0x01, 0xff, "AQAB"), "RS256", 4097, SVID_OK);
    wants(rsa(2048, 0xff, 0xff, "AQAB"), "RS256", 16384, SVID_OK);
    wants(rsa(2049, 0x01, 0xff, "AQAB"), "RS256", SIZE_MAX, SVID_KEY_BITS);
    static const struct { const char *e; uint32_t due; } exponents[] = {
        { "Aw", SVID_OK }, { "f____w", SVID_OK }, { "AQ", SVID_KEY_E }, { "Ag", SVID_KEY_E }, { "AQAA", SVID_KEY_E }, { "gAAAAQ", SVID_KEY_E },
        { "AQAAAAE", SVID_KEY_E }, { "AAEAAQ", SVID_KEY_E }, { "", SVID_KEY_E }, { "AQAB==", SVID_KEY_E },
    };
    for (size_t i = 0; i < sizeof exponents / sizeof *exponents; i++) wants(rsa(256, 0xff, 0xff, exponents[i].e), "PS512", 4096, exponents[i].due);
    printf("keys that can and can't be used");
}

static void *run(void *given) {
    static answer a;
    call(given, "ES256", 4096, &a);
    return NULL;
}

static void *run_text(void *given) {
    static answer a;
    call_text(given, sizeof a.out, &a);
    return NULL;
}

/* Objects one within the other, so many. */
static char *nested(char *to, int depth) {
    for (int n = 0; n < depth; n++) to += sprintf(to, "{\"\":");
    *to++ = '0';
    for (int n = 0; n < depth; n++) *to++ = '}';
    *to = 0;
    return to;
}

static void stack(void) {
    static char deep[65536];
    static const int depths[] = { 100, 126, 127, 10000 };
    at = "svid_key_spki";
    size_t most = stack_of(run, (void *)(size_t)EC_KEY);
    for (size_t i = 0; i < sizeof depths / sizeof *depths; i++) {
        nested(deep, depths[i]);
        size_t used = stack_of(run, deep);
        if (used > most) most = used;
    }
    at = "svid_key_text";
    for (size_t i = 0; i < sizeof depths / sizeof *depths; i++) {
        char *to = nested(deep + sprintf(deep, HEAD "\"k\",\"n\":"), depths[i] - 1);
        sprintf(to, "}");
        size_t used = stack_of(run_text, deep);
        holds(answered == (depths[i] <= 127 ? SVID_OK : SVID_ENTRY_NOT_OBJECT), "a deep entry");
        if (used > most) most = used;
    }
    is_stack(most, STACK_MOST);
}

int main(int count, char **words) {
    static const part parts[] = { { "refused", refused }, { "guarded", guarded }, { "nulls", nulls }, { "answers", answers }, { "stack", stack } };
    return run_part(count, words, parts, COUNT(parts));
}
