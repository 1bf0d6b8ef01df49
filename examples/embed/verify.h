/* Verifies the signature of a JWT-SVID with a key of its trust bundle, by OpenSSL 3 (-lcrypto). */
#ifndef VERIFY_H
#define VERIFY_H
#include <stddef.h>
#include <stdint.h>

/* 1 if the key `jwk`, as JSON, made the token's signature with the algorithm of this name, and else 0: a `svid_verify` of svid.h. */
int verify(void *context, const uint8_t *alg, size_t alg_len, const uint8_t *jwk, size_t jwk_len, const uint8_t *token, size_t token_len);

#endif
