//go:build cgo && !gocrypto

package svid

/*
#if !__has_include(<openssl/evp.h>)
#error "svid verifies signatures by OpenSSL: install its headers (Debian: libssl-dev), or build with -tags gocrypto"
#endif
// (The macros of OpenSSL would put the folder of the build into the program.)
#define OPENSSL_FILE "verify_openssl.go"
#define OPENSSL_LINE 0
#include <openssl/bn.h>
#include <openssl/core_names.h>
#include <openssl/ecdsa.h>
#include <openssl/err.h>
#include <openssl/evp.h>
#include <openssl/params.h>
#include <openssl/rsa.h>
#include <stdint.h>
#cgo LDFLAGS: -lcrypto

enum { NO, YES, NO_MEMORY };

// What verifies by one key and one algorithm, for one call at a time: an EVP_PKEY_CTX, an EVP_MD_CTX and an EVP_MD. They are
// addresses as numbers: so Go does not look for its pointers in them.
typedef struct {
    uintptr_t key, digest, md;
} seat;

// The digest of a text, which has no bytes before it is made.
typedef struct {
    unsigned char bytes[EVP_MAX_MD_SIZE];
    unsigned int len;
} digest;

typedef struct {
    int is; // NO, YES or NO_MEMORY
    digest of;
} verdict;

// Lets OpenSSL load what it keeps for all keys. Where memory is refused to that, OpenSSL 3.0 may crash, so it is done at the
// start of the process.
static void begin(void) {
    static const char *const types[] = { "RSA", "EC" }, *const hashes[] = { "SHA256", "SHA384", "SHA512" };
    for (size_t i = 0; i < sizeof types / sizeof *types; i++) {
        EVP_PKEY_CTX *making = EVP_PKEY_CTX_new_from_name(NULL, types[i], NULL);
        if (making != NULL) EVP_PKEY_fromdata_init(making);
        EVP_PKEY_CTX_free(making);
    }
    for (size_t i = 0; i < sizeof hashes / sizeof *hashes; i++) EVP_MD_free(EVP_MD_fetch(NULL, hashes[i], NULL));
    EVP_SIGNATURE_free(EVP_SIGNATURE_fetch(NULL, "RSA", NULL));
    EVP_SIGNATURE_free(EVP_SIGNATURE_fetch(NULL, "ECDSA", NULL));
    ERR_clear_error();
}

// The key, which is known to be a good one: so NULL means out of memory. (d2i_PUBKEY of OpenSSL 3.0 takes ten times as long.)
static EVP_PKEY *make_key(const char *type, OSSL_PARAM *params) {
    EVP_PKEY *key = NULL;
    EVP_PKEY_CTX *making = EVP_PKEY_CTX_new_from_name(NULL, type, NULL);
    if (making == NULL || EVP_PKEY_fromdata_init(making) != 1 || EVP_PKEY_fromdata(making, &key, EVP_PKEY_PUBLIC_KEY, params) != 1) key = NULL;
    EVP_PKEY_CTX_free(making);
    ERR_clear_error(); // (the queue of errors is the thread's, and would grow)
    return key;
}

// n begins with its lowest byte.
static EVP_PKEY *rsa_key(unsigned char *n, size_t n_len, unsigned int e) {
    OSSL_PARAM params[] = { OSSL_PARAM_construct_BN(OSSL_PKEY_PARAM_RSA_N, n, n_len), OSSL_PARAM_construct_uint(OSSL_PKEY_PARAM_RSA_E, &e), OSSL_PARAM_construct_end() };
    return make_key("RSA", params);
}

static EVP_PKEY *ec_key(char *curve, unsigned char *point, size_t point_len) {
    OSSL_PARAM params[] = { OSSL_PARAM_construct_utf8_string(OSSL_PKEY_PARAM_GROUP_NAME, curve, 0), OSSL_PARAM_construct_octet_string(OSSL_PKEY_PARAM_PUB_KEY, point, point_len), OSSL_PARAM_construct_end() };
    return make_key("EC", params);
}

static void close_seat(seat *s) {
    EVP_PKEY_CTX_free((EVP_PKEY_CTX *)s->key);
    EVP_MD_CTX_free((EVP_MD_CTX *)s->digest);
    EVP_MD_free((EVP_MD *)s->md);
    *s = (seat){ 0, 0, 0 };
}

// padding is that of RSA, or 0. Whether there was memory for it.
static int open_seat(seat *s, EVP_PKEY *key, const char *hash, int padding) {
    EVP_MD *md = EVP_MD_fetch(NULL, hash, NULL);
    EVP_MD_CTX *digest = EVP_MD_CTX_new();
    EVP_PKEY_CTX *by = EVP_PKEY_CTX_new(key, NULL);
    int good = md != NULL && digest != NULL && by != NULL && EVP_PKEY_verify_init(by) == 1 &&
        EVP_PKEY_CTX_set_signature_md(by, md) == 1 && (padding == 0 || EVP_PKEY_CTX_set_rsa_padding(by, padding) == 1) &&
        (padding != RSA_PKCS1_PSS_PADDING || EVP_PKEY_CTX_set_rsa_pss_saltlen(by, RSA_PSS_SALTLEN_DIGEST) == 1);
    ERR_clear_error();
    *s = (seat){ (uintptr_t)by, (uintptr_t)digest, (uintptr_t)md };
    if (!good) close_seat(s);
    return good;
}

// A signature of ECDSA as OpenSSL reads it, from r and s. NULL if out of memory.
static unsigned char *der_of(const unsigned char *signature, int half, int *len) {
    unsigned char *der = NULL;
    ECDSA_SIG *both = ECDSA_SIG_new();
    BIGNUM *r = BN_bin2bn(signature, half, NULL), *s = BN_bin2bn(signature + half, half, NULL);
    if (both != NULL && r != NULL && s != NULL && ECDSA_SIG_set0(both, r, s) == 1) {
        r = s = NULL; // both owns them
        *len = i2d_ECDSA_SIG(both, &der);
    }
    BN_free(r), BN_free(s), ECDSA_SIG_free(both);
    return der;
}

// Whether this thread has a queue of errors, by which alone lack of memory differs from a bad signature.
static int has_queue(void) {
    static _Thread_local int has = 0;
    if (!has) {
        ERR_raise(ERR_LIB_USER, ERR_R_PASSED_NULL_PARAMETER);
        has = ERR_peek_error() != 0;
        ERR_clear_error();
    }
    return has;
}

// Whether an error of the queue means that OpenSSL is out of memory. The errors of a bad signature, if there are any, begin with a code
// of RSA's or EC's own part of OpenSSL. One that all parts have, in front, says no more than that something below failed.
static int is_memory(unsigned long error, int in_front) {
    int lib = ERR_GET_LIB(error), reason = ERR_GET_REASON(error);
    return reason == ERR_R_MALLOC_FAILURE || (in_front && (ERR_GET_RFLAGS(error) & ERR_RFLAG_COMMON)) ||
        (lib == ERR_LIB_BN && reason == BN_R_TOO_MANY_TEMPORARY_VARIABLES) || (lib == ERR_LIB_EVP && reason == EVP_R_INITIALIZATION_ERROR);
}

// NO or NO_MEMORY, by what the queue has of a signature that was not verified. Empties it.
static int why(void) {
    int is = NO, in_front = 1;
    for (unsigned long error; (error = ERR_get_error()) != 0; in_front = 0)
        if (is_memory(error, in_front)) is = NO_MEMORY;
    return is;
}

// Whether the key made the signature. half is the length of r and of s, and 0 for RSA. of is the text's digest, or none.
static verdict verify(seat *s, _GoString_ text, digest of, const unsigned char *signature, size_t len, int half) {
    verdict said = { NO_MEMORY, of };
    unsigned char *der = NULL;
    int der_len = 0;
    if (!has_queue()) return said;
    EVP_MD_CTX *hashing = (EVP_MD_CTX *)s->digest;
    if (said.of.len == 0 &&
        !(EVP_DigestInit_ex2(hashing, (EVP_MD *)s->md, NULL) == 1 && EVP_DigestUpdate(hashing, _GoStringPtr(text), _GoStringLen(text)) == 1 &&
          EVP_DigestFinal_ex(hashing, said.of.bytes, &said.of.len) == 1)) {
        said.of.len = 0;
        ERR_clear_error();
        return said;
    }
    if (half != 0) {
        der = der_of(signature, half, &der_len);
        if (der == NULL || der_len <= 0) {
            ERR_clear_error();
            return said;
        }
        signature = der, len = (size_t)der_len;
    }
    int good = EVP_PKEY_verify((EVP_PKEY_CTX *)s->key, signature, len, said.of.bytes, said.of.len) == 1;
    OPENSSL_free(der);
    said.is = good ? YES : why();
    return said;
}
*/
import "C"

import (
	"crypto/ecdsa"
	curves "crypto/elliptic"
	"crypto/rsa"
	"runtime"
	"sync/atomic"
	"unsafe"
)

// slots are as many as processors. A call of OpenSSL takes one, so that no more threads wait in C than can run, and uses the
// seats of that number.
var slots = make(chan int, runtime.GOMAXPROCS(0))

func init() {
	C.begin()
	for i := 0; i < cap(slots); i++ {
		slots <- i
	}
}

// openHandles counts keys that OpenSSL holds. Tests look at it.
var openHandles atomic.Int64

// A digest is that of a signed text, or none before it is made.
type digest = C.digest

// A handle is a key as OpenSSL holds it, until it is garbage.
type handle struct {
	key *C.EVP_PKEY
	// The seats by slot and algorithm, and whoever has the slot uses one. A seat is kept once the key made a signature: so a
	// stranger's tokens, which may name each key of a bundle, take no memory for it.
	seats [][]C.seat
}

// hold gives the key to OpenSSL.
func (k *Key) hold() error {
	var key *C.EVP_PKEY
	switch public := k.public.(type) {
	case *rsa.PublicKey:
		n := public.N.Bytes()
		for i, j := 0, len(n)-1; i < j; i, j = i+1, j-1 {
			n[i], n[j] = n[j], n[i]
		}
		key = C.rsa_key((*C.uchar)(unsafe.Pointer(&n[0])), C.size_t(len(n)), C.uint(public.E))
	case *ecdsa.PublicKey:
		point := curves.Marshal(public.Curve, public.X, public.Y)
		key = C.ec_key(curveNames[len(point)], (*C.uchar)(unsafe.Pointer(&point[0])), C.size_t(len(point)))
	}
	if key == nil {
		return ErrNoMemory
	}
	k.handle = &handle{key: key, seats: make([][]C.seat, cap(slots))}
	openHandles.Add(1)
	runtime.SetFinalizer(k.handle, (*handle).free)
	return nil
}

func (h *handle) free() {
	for _, seats := range h.seats {
		for i := range seats {
			C.close_seat(&seats[i])
		}
	}
	C.EVP_PKEY_free(h.key)
	openHandles.Add(-1)
}

// made is nil if the key made the signature, which has the length that is due, and is not empty. Else it is ErrSignature, or
// ErrNoMemory where that is not known.
func (k *Key) made(a *algorithm, s *signing) error {
	slot := <-slots
	defer func() { slots <- slot }()
	is := k.handle.verify(slot, a, s)
	runtime.KeepAlive(k.handle)
	switch is {
	case C.YES:
		return nil
	case C.NO_MEMORY:
		return ErrNoMemory
	}
	return ErrSignature
}

// verify is made with a slot that the caller has.
func (h *handle) verify(slot int, a *algorithm, s *signing) C.int {
	if seats := h.seats[slot]; seats != nil && seats[a.index].key != 0 {
		return s.verifyBy(&seats[a.index], a)
	}
	var seat C.seat
	if !h.open(&seat, a) {
		return C.NO_MEMORY
	}
	is := s.verifyBy(&seat, a)
	if is != C.YES {
		C.close_seat(&seat)
		return is
	}
	if h.seats[slot] == nil {
		h.seats[slot] = make([]C.seat, len(algorithms))
	}
	h.seats[slot][a.index] = seat
	return is
}

func (s *signing) verifyBy(seat *C.seat, a *algorithm) C.int {
	half := 0
	if a.scheme == elliptic {
		half = len(s.signature) / 2
	}
	said := C.verify(seat, s.text, s.digest, (*C.uchar)(unsafe.Pointer(&s.signature[0])), C.size_t(len(s.signature)), C.int(half))
	s.digest = said.of
	return said.is
}

// OpenSSL's names of hashes, by the bytes of a digest, and of curves, by the bytes of a point.
var (
	hashNames  = map[int]*C.char{32: C.CString("SHA256"), 48: C.CString("SHA384"), 64: C.CString("SHA512")}
	curveNames = map[int]*C.char{65: C.CString("P-256"), 97: C.CString("P-384"), 133: C.CString("P-521")}
)

func (h *handle) open(seat *C.seat, a *algorithm) bool {
	padding := C.int(0)
	switch a.scheme {
	case pss:
		padding = C.RSA_PKCS1_PSS_PADDING
	case pkcs1:
		padding = C.RSA_PKCS1_PADDING
	}
	return C.open_seat(seat, h.key, hashNames[a.hash.Size()], padding) == 1
}
