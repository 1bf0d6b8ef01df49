/* Verifies the signature of a token. A busy service reads each key once, and keeps it by its algorithm and JSON text. */
#include "verify.h"
#include "svid.h"
#include <openssl/ecdsa.h>
#include <openssl/err.h>
#include <openssl/rsa.h>
#include <openssl/x509.h>
#include <string.h>

#define SIGNATURE_MOST 2048   /* bytes of the longest signature that OpenSSL takes */

/* An algorithm of RFC 7518, section 3.1. */
typedef struct {
    const char *name, *digest;
    size_t half;   /* of ECDSA, how many bytes each half of a signature has; else 0 */
    int padding;   /* of RSA; else 0 */
} algorithm;

/* lists:begin algorithms (written by tools/lists from lists/algorithms.toml) */
static const algorithm algorithms[] = {
    { "RS256", "SHA256", 0, RSA_PKCS1_PADDING },
    { "RS384", "SHA384", 0, RSA_PKCS1_PADDING },
    { "RS512", "SHA512", 0, RSA_PKCS1_PADDING },
    { "ES256", "SHA256", 32, 0 },
    { "ES384", "SHA384", 48, 0 },
    { "ES512", "SHA512", 66, 0 },
    { "PS256", "SHA256", 0, RSA_PKCS1_PSS_PADDING },
    { "PS384", "SHA384", 0, RSA_PKCS1_PSS_PADDING },
    { "PS512", "SHA512", 0, RSA_PKCS1_PSS_PADDING },
};
/* lists:end */

static const algorithm *find(const uint8_t *name, size_t len) {
    for (size_t i = 0; i < sizeof algorithms / sizeof *algorithms; i++)
        if (len == strlen(algorithms[i].name) && !memcmp(name, algorithms[i].name, len)) return &algorithms[i];
    return NULL;
}

/* Decodes base64url without padding: how many bytes that makes, or 0 if the text is not base64url or the room is too short. */
static size_t base64url(const char *text, size_t text_len, uint8_t *out, size_t room) {
    static const char digits[] = "ABCDEFGHIJKLMNOPQRSTUVWXYZabcdefghijklmnopqrstuvwxyz0123456789-_";
    uint32_t bits = 0;
    size_t len = 0, left = text_len % 4;
    for (size_t i = 0; i < text_len; i++) {
        const char *digit = memchr(digits, text[i], 64);
        if (!digit || (i % 4 && len == room)) return 0;
        bits = bits << 6 | (uint32_t)(digit - digits);
        if (i % 4) out[len++] = (uint8_t)(bits >> (6 - 2 * (i % 4)));
    }
    /* Bits behind the last byte must be 0. */
    if (left == 1 || (left == 2 && bits & 15) || (left == 3 && bits & 3)) return 0;
    return len;
}

/* The public key that a JWK says, or NULL if the algorithm can't use it. Free it by EVP_PKEY_free. (OpenSSL refuses a point that is not
 * on its curve.) */
static EVP_PKEY *key_of(const uint8_t *jwk, size_t jwk_len, const uint8_t *alg, size_t alg_len) {
    uint8_t der[SVID_SPKI_ROOM];
    const uint8_t *at = der;
    svid_told told;
    if (svid_key_spki(jwk, jwk_len, alg, alg_len, SVID_USUAL_RSA_BITS, der, sizeof der, &told) != SVID_OK) return NULL;
    return d2i_PUBKEY(NULL, &at, (long)told.len);
}

/* Writes two numbers, `half` bytes each, as the DER that OpenSSL reads: its length, or 0. Free `*out` by OPENSSL_free. */
static size_t der_of(const uint8_t *numbers, size_t half, uint8_t **out) {
    ECDSA_SIG *pair = ECDSA_SIG_new();
    BIGNUM *r = BN_bin2bn(numbers, (int)half, NULL), *s = BN_bin2bn(numbers + half, (int)half, NULL);
    int len = 0;
    if (pair && r && s && ECDSA_SIG_set0(pair, r, s) == 1) {
        r = s = NULL;   /* they are the pair's now */
        len = i2d_ECDSA_SIG(pair, out);
    }
    BN_free(r);
    BN_free(s);
    ECDSA_SIG_free(pair);
    return len > 0 ? (size_t)len : 0;
}

/* Whether a key made a signature of a text. */
static int is_good(EVP_PKEY *key, const algorithm *alg, const uint8_t *signature, size_t signature_len, const uint8_t *text, size_t text_len) {
    EVP_MD_CTX *digest = EVP_MD_CTX_new();
    EVP_PKEY_CTX *of = NULL;   /* the digest's own */
    int good = digest && EVP_DigestVerifyInit_ex(digest, &of, alg->digest, NULL, NULL, key, NULL) == 1;
    if (good && alg->padding) good = EVP_PKEY_CTX_set_rsa_padding(of, alg->padding) == 1;
    if (good && alg->padding == RSA_PKCS1_PSS_PADDING) good = EVP_PKEY_CTX_set_rsa_pss_saltlen(of, RSA_PSS_SALTLEN_DIGEST) == 1;
    if (good) good = EVP_DigestVerify(digest, signature, signature_len, text, text_len) == 1;
    EVP_MD_CTX_free(digest);
    return good;
}

int verify(void *context, const uint8_t *alg_name, size_t alg_len, const uint8_t *jwk, size_t jwk_len, const uint8_t *token, size_t token_len) {
    const algorithm *alg = find(alg_name, alg_len);
    uint8_t signature[SIGNATURE_MOST], *der = NULL;
    size_t at = token_len, len, der_len;
    EVP_PKEY *key = alg ? key_of(jwk, jwk_len, alg_name, alg_len) : NULL;
    int good = 0;
    (void)context;
    while (at > 0 && token[at - 1] != '.') at--;   /* behind the last dot, the signature begins */
    len = base64url((const char *)token + at, token_len - at, signature, sizeof signature);
    if (key && at > 0 && len > 0) {
        if (!alg->half) {
            /* (for PSS, OpenSSL takes one that lacks the zeros at its beginning: RFC 8017, section 8.1.2, does not) */
            good = len == (size_t)EVP_PKEY_get_size(key) && is_good(key, alg, signature, len, token, at - 1);
        } else if (len == 2 * alg->half && (der_len = der_of(signature, alg->half, &der)) > 0) {
            good = is_good(key, alg, der, der_len, token, at - 1);
        }
    }
    OPENSSL_free(der);
    EVP_PKEY_free(key);
    ERR_clear_error();   /* what a bad signature leaves behind in this thread */
    return good;
}
