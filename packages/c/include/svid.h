/* svid.h: check JWT-SVIDs and share the record of used tokens, from C. Link with libsvid.a (or -lsvid) and the C library.
 *
 * To check tokens, a service keeps a `svid_validator`: open it once, check tokens, renew its bundles, exchange messages with other
 * validators, and close it. See "A validator that you keep" below. The stateless calls on records, as svid_join, read all inputs again each
 * time, so use them for records of up to a few thousand uses.
 *
 * To keep a record over restarts and crashes, see "A state folder".
 *
 * Words: a *record* is what a validator remembers: the time that it has seen (its *moment*) and the *uses* of tokens that have not yet
 * expired. A *message* tells a record or a part of it to other validators (docs/FORMATS.md). All times are whole seconds since 1970.
 *
 * Results: a call returns a status: SVID_OK, or the number of the fault. `svid_strstatus` names it, and `svid_strsentence` says it in
 * words. `told` says more: how long the text is, or which input is at fault and where.
 *
 * Inputs are a pointer and a length in bytes. Where the length is 0, the pointer may be NULL. The library reads inputs only during the
 * call, and you keep them. They must not change while it runs. Inputs may overlap each other, but no output may overlap an input or
 * another output.
 *
 * Output: text goes into your room `out` of `out_len` bytes, and `told->len` is its length. If the text is longer than the room, the
 * status is SVID_TOO_SHORT, and `told->len` says how much the text needs. Unless the status is SVID_OK, `out` stays as it was. Outputs
 * may be uninitialised. If several inputs are at fault, `told` is about the first one in the order of the parameters.
 *
 * Limits: messages and bundles have at most SVID_INPUT_MOST bytes each, and a token at most 65,536. Your own audiences and the questions that
 * you answer have no limit.
 *
 * Stack, as measured: no call takes more than 124 KiB, hostile tokens and bundles among them. So a thread of musl, which has 128 KiB unless
 * you ask for more, can make every call. Bundles take the most; a check takes up to 66 KiB.
 *
 * Memory comes from malloc. If malloc returns NULL, the status is SVID_NO_MEMORY. No call keeps anything, except that a validator keeps its
 * own record and bundles until you close it, and a `svid_bundles` its bundles. Stateless calls share nothing, so threads may make them at
 * the same time. */
#ifndef SVID_H
#define SVID_H
#include <stddef.h>
#include <stdint.h>
#ifdef __cplusplus
extern "C" {
#endif

/* The version of this header; svid_version() is that of the library: 10,000 times the major, 100 times the minor number, and the patch. */
#define SVID_VERSION_MAJOR 3
#define SVID_VERSION_MINOR 0
#define SVID_VERSION_PATCH 0
#define SVID_VERSION 30000

#define SVID_ID_ROOM 2048            /* enough room for any SPIFFE ID */
#define SVID_SUMMARY_LEN 8205        /* the length of each summary */
#define SVID_BATCH_OF_LEN 82         /* the length of a batch of one use */
#define SVID_INPUT_MOST 67108864     /* the most bytes that an input of messages may have */
#define SVID_PAYLOAD_MOST 16777215   /* the most bytes that a payload of a state folder's file has */
#define SVID_FRAME_MORE 39           /* a frame has at most so many bytes more than its payload */
#define SVID_MOST_CANDIDATES 3       /* how many keys svidd, the Go library and the Python package try for a token: give svid_validator_ask_token
                                        the same, so that all answer the same (docs/FORMATS.md, "Candidates") */
#define SVID_SIGNATURE_ROOM 49150    /* enough room for any signature of svid_token_signature, and for any payload of svid_token_payload */
#define SVID_USUAL_RSA_BITS 4096     /* how many bits they let an RSA key have, unless an option says more */
#define SVID_MOST_RSA_BITS 16384     /* no RSA key may have more */
#define SVID_LEAST_RSA_BITS 2048     /* nor fewer */
#define SVID_SPKI_ROOM 2100          /* enough room for any key of svid_key_spki */
#define SVID_KEY_ROOM 65536          /* enough room for any key of svid_key_text */

enum svid_status {
    /* lists:begin statuses (written by tools/lists from lists/) */
    SVID_OK = 0,
    SVID_TOO_SHORT = 1,   /* the text is longer than the room */
    SVID_NO_MEMORY = 2,
    SVID_TOO_MUCH = 3,    /* bundles, a table or messages have more than 67,108,864 bytes; of messages, no field among the first
                             67,108,864 bytes is bad; told: input */
    SVID_NOT_SUMMARY = 4, /* the first input is messages, but not one summary; told: nothing */

    /* what a call on a validator or on bundles that you keep answers beside these */
    SVID_CLOSED = 5,   /* the validator, the bundles or the token is closed; nothing happened */
    SVID_IS_OPEN = 6,  /* svid_validator_open, svid_bundles_open, svid_token_open: the handle is open already; it stays as it was */
    SVID_GONE = 7,     /* svid_validator_withdraw: the token has expired, so that there is nothing to withdraw */
    SVID_TOO_FAR = 8,  /* a message's moment is more than `ahead` seconds past `now`; it was not taken */
    SVID_JUMP = 9,     /* `now` is more than `step` seconds past the record's moment; nothing happened */
    SVID_HAS_LOG = 10, /* svid_validator_check_token: the validator reads a log, which decides about its tokens; nothing happened */
    SVID_NO_LOG = 19,  /* the validator reads no log; nothing happened */

    /* why an input is no row of messages; told: input, message, offset */
    SVID_MAGIC = 11,       /* the first four bytes are those of no version */
    SVID_KIND = 12,        /* the fifth byte is that of no kind of message of the version */
    SVID_COUNT = 13,       /* a batch tells of too many uses */
    SVID_USE_KIND = 14,    /* the last byte of a use is neither 0 nor 1 */
    SVID_USE_EXPIRED = 15, /* a use expires at its batch's moment or before it */
    SVID_USE_FUTURE = 16,  /* a use was made after its batch's moment */
    SVID_USE_ORDER = 17,   /* a use is not greater than the one before it */
    SVID_TRUNCATED = 18,   /* the bytes end before the message does */

    /* why a text is no SPIFFE ID; svid_id: offset, for 24 and 26 to 28; else 0 */
    SVID_ID_TOO_LONG = 21,      /* more than 2,048 bytes */
    SVID_ID_SCHEME = 22,        /* does not begin with spiffe:// */
    SVID_ID_DOMAIN_EMPTY = 23,  /* the trust domain name is empty */
    SVID_ID_DOMAIN_BYTE = 24,   /* a byte that may not stand in a trust domain name */
    SVID_ID_DOMAIN_LONG = 25,   /* a trust domain name of more than 255 bytes */
    SVID_ID_SEGMENT_EMPTY = 26, /* an empty segment */
    SVID_ID_SEGMENT_DOTS = 27,  /* a segment that is . or .. */
    SVID_ID_PATH_BYTE = 28,     /* a byte that may not stand in a path segment */

    /* why bundles, a table of questions or audiences are refused */
    SVID_BUNDLES_NOT_OBJECT = 31, /* no JSON object */
    SVID_BUNDLES_DOMAIN = 32,     /* a name is no trust domain name; told: offset */
    SVID_BUNDLES_KEYS = 33,       /* a name has no list of keys; told: offset */
    SVID_TABLE_LINE = 34,         /* a line is neither empty nor a question; told: offset, the number of the first such line, counted
                                     from 1 */
    SVID_OWN_NOT_UTF8 = 35,       /* an audience of the validator's own is not UTF-8 */
    SVID_OWN_LENGTHS = 36,        /* the lengths of the audiences do not add up to the length of `own` */

    /* of bundles too: _UNNAMED wherever they are read, and the others by svid_bundles_join; there told: input, the number of the document, counted from 1; offset */
    SVID_BUNDLES_UNNAMED = 37, /* the bundle of one trust domain, without its name */
    SVID_BUNDLES_TWICE = 38,   /* an earlier document has a bundle of this trust domain */
    SVID_BUNDLES_LENGTHS = 39, /* the lengths of the documents do not add up to the length of `bytes`; told: nothing */

    /* why a state folder takes no call; nothing happened */
    SVID_FOLDER_UNFIT = 41,       /* the numbers are not those of a folder, or of the file that is read */
    SVID_FOLDER_ENDED = 42,       /* a sync failed; nobody knows what the disk holds until the next start */
    SVID_FOLDER_NOT_GROWING = 43, /* no journal grows yet */
    SVID_FOLDER_BUSY = 44,        /* a call is due already */
    SVID_FOLDER_NOTHING_DUE = 45, /* no call is due */
    SVID_FOLDER_FLYING = 46,      /* a frame was handed out, and is not synced yet */
    SVID_FOLDER_NOT_FLYING = 47,  /* no frame was handed out */
    SVID_FOLDER_NOT_WRITING = 48, /* no snapshot is being written */
    SVID_FOLDER_NO_MARK = 49,     /* the snapshot has no mark at its end */
    SVID_FOLDER_TOO_LONG = 50,    /* the payload has more than 16,777,215 bytes */
    SVID_FOLDER_FULL = 51,        /* a number of the folder has come to its end */

    /* where reading a file ends; the offset is reader->at */
    SVID_FILE_END = 52,    /* the end: nothing was written here */
    SVID_FILE_TEAR = 53,   /* a write was cut off: nobody was told that it is on the disk; only a journal has one */
    SVID_FILE_DAMAGE = 54, /* what was synced here has changed */
    SVID_FILE_OTHER = 55,  /* a frame of another format stands here; frame->format is its number */

    /* what svid_claim_outcome answers of a claim that does not count: the first that holds, in this order */
    SVID_CLAIM_WITHDRAWN = 56, /* the entry says that the token was withdrawn */
    SVID_CLAIM_TAKEN = 57,     /* the entry is another's, so the token was used */
    SVID_CLAIM_FAR = 58,       /* the token expires more than `lasts` seconds past the store's time */
    SVID_CLAIM_DEAF = 59,      /* the token may have been claimed before the store lost entries */
    SVID_CLAIM_EXPIRED = 60,   /* the token has expired */

    /* what svid_key_text answers of an entry of a trust bundle that is no key for JWT-SVIDs: the first that holds, in this order */
    SVID_ENTRY_NOT_OBJECT = 61, /* it is no JSON object */
    SVID_ENTRY_NO_USE = 62,     /* it has no `use`, which must be "jwt-svid" */
    SVID_ENTRY_X509 = 63,       /* it is for X.509-SVIDs */
    SVID_ENTRY_USE = 64,        /* its `use` is not "jwt-svid" */
    SVID_ENTRY_KID = 65,        /* its `kid` is not there, or no text */
    SVID_ENTRY_KTY = 66,        /* its `kty` is neither RSA nor EC */
    SVID_ENTRY_NUMBER = 67,     /* a number in it is no whole number of 64 bits */
    SVID_ENTRY_TOO_LONG = 68,   /* it has more than 65,536 bytes as compact JSON */

    /* why a key can't be used with an algorithm: the first that holds, in this order. 74 to 76 are of RSA keys alone, and 77 to 79 of EC keys */
    SVID_NO_ALGORITHM = 70,   /* the algorithm is none of RS256 to RS512, ES256 to ES512 and PS256 to PS512 */
    SVID_KEY_NOT_OBJECT = 71, /* the key is no JSON object */
    SVID_KEY_KTY = 72,        /* its `kty` is not the algorithm's: RSA for RS and PS, EC for ES */
    SVID_KEY_ALG = 73,        /* its `alg` is there, and is not the algorithm */
    SVID_KEY_N = 74,          /* its `n` is no odd number in as few bytes of base64url as hold it */
    SVID_KEY_BITS = 75,       /* its `n` has fewer than 2,048 bits, more than `most_bits`, or more than 16,384 */
    SVID_KEY_E = 76,          /* its `e` is no odd number from 3 to 2^31-1 in as few bytes of base64url as hold it */
    SVID_KEY_CRV = 77,        /* its `crv` is not the algorithm's: P-256 for ES256, P-384 for ES384, P-521 for ES512 */
    SVID_KEY_X = 78,          /* its `x` is not base64url of 32, 48 or 66 bytes, as the curve has it */
    SVID_KEY_Y = 79,          /* its `y` is not that */

    /* why a request has no bearer token: the first that holds, in this order, and then SVID_TOO_LONG */
    SVID_BEARER_ABSENT = 81,   /* no header field Authorization */
    SVID_BEARER_SEVERAL = 82,  /* more than one */
    SVID_BEARER_SCHEME = 83,   /* its scheme is not Bearer */
    SVID_BEARER_SPELLING = 84, /* the scheme is not followed by one token */

    /* what svid_id_allows answers about a pattern. 92 to 99: why it is none; svid_id: offset, for 95 and 97 to 99; else 0 */
    SVID_NOT_ALLOWED = 91,           /* the pattern does not allow the ID; svid_id: the lengths of the ID's parts */
    SVID_PATTERN_TOO_LONG = 92,      /* the ID in the pattern has more than 2,048 bytes */
    SVID_PATTERN_SCHEME = 93,        /* the pattern does not begin with spiffe:// */
    SVID_PATTERN_DOMAIN_EMPTY = 94,  /* the trust domain name of the pattern is empty */
    SVID_PATTERN_DOMAIN_BYTE = 95,   /* the pattern has a byte that may not stand in a trust domain name */
    SVID_PATTERN_DOMAIN_LONG = 96,   /* the pattern has a trust domain name of more than 255 bytes */
    SVID_PATTERN_SEGMENT_EMPTY = 97, /* the pattern has an empty segment */
    SVID_PATTERN_SEGMENT_DOTS = 98,  /* the pattern has a segment that is . or .. */
    SVID_PATTERN_PATH_BYTE = 99,     /* the pattern has a byte that may not stand in a path segment */

    /* what a call on a member answers beside these; nothing happened */
    SVID_NO_MEMBER = 20, /* the validator has no member */
    SVID_UNASKED = 29,   /* the request does not wait for that, or its time is over */
    SVID_NO_MODE = 30,   /* the number is none of a mode */

    /* why a member answers a request without judging its token to the end; `status` of svid_deed */
    SVID_LATE = 201,     /* the time of the request was over before it had an answer */
    SVID_NOT_KEPT = 202, /* the state folder did not take the acceptance */
    SVID_LEFT = 203,     /* nobody waits for the answer any more */

    /* why a member judges no token (211 to 217), or why none is to be sent to it: the first that holds, in this order */
    SVID_ENDED = 211,              /* the member has ended */
    SVID_NO_BUNDLE = 212,          /* there is no trust bundle */
    SVID_LOADING = 213,            /* the state folder is being read */
    SVID_STORE_UNREACHED = 214,    /* the group's store was not reached yet */
    SVID_WITHDRAWALS_UNREAD = 215, /* the store's withdrawals are being read */
    SVID_BROKER_UNREACHED = 216,   /* the group's broker was not reached yet */
    SVID_GROUP_UNREAD = 217,       /* what the group had is being read */
    SVID_DRAINING = 218,           /* the member is to end soon */
    SVID_JUMPED = 219,             /* the clock went ahead too far at once */
    SVID_KEEPS_NOTHING = 220,      /* the state folder takes no acceptance */
    SVID_STORE_AWAY = 221,         /* the group's store does not answer, so no token can be claimed */
    SVID_DEAF = 222,               /* the store has lost entries, so no token is accepted that lives as long as it may */

    /* why a token is refused: the first that holds, in this order */
    SVID_TOO_LONG = 101,           /* The token has more than 65,536 bytes. */
    SVID_NOT_THREE_PARTS = 102,    /* The token has not exactly two periods. */
    SVID_HEADER_SPELLING = 103,    /* The header is not base64url. */
    SVID_HEADER_NOT_OBJECT = 104,  /* The header is no JSON object. */
    SVID_CRIT = 105,               /* The header has a member `crit`. */
    SVID_ALG = 106,                /* `alg` is none of the nine algorithms RS256 to RS512, ES256 to ES512 and PS256 to PS512. */
    SVID_TYP = 107,                /* `typ` is there, and is neither "JWT" nor "JOSE". */
    SVID_KID = 108,                /* `kid` is there, and is no string. */
    SVID_PAYLOAD_SPELLING = 109,   /* The payload is not base64url. */
    SVID_PAYLOAD_NOT_OBJECT = 110, /* The payload is no JSON object. */
    SVID_SIGNATURE_SPELLING = 111, /* The signature is empty, or not base64url. */
    SVID_SUB = 112,                /* `sub` is no SPIFFE ID. */
    SVID_AUD = 113,                /* `aud` is neither a string nor a list of one or more strings. */
    SVID_EXP = 114,                /* `exp` is no whole number from 0 to 2^64-1, written with digits alone. */
    SVID_NBF = 115,                /* `nbf` is there, and is no whole number from 0 to 2^64-1. */
    SVID_JTI = 116,                /* `jti` is there, and is no string. */
    SVID_NOT_AUDIENCE = 117,       /* No value of `aud` is one of the validator's audiences. */
    SVID_EXPIRED = 118,            /* The token has expired: `exp` is not greater than the record's moment. */
    SVID_NOT_YET = 119,            /* The token is not valid yet: `nbf` is greater than the record's moment. */
    SVID_TOO_LONG_LIVED = 120,     /* The token expires more than `longest` seconds past the record's moment. */
    SVID_UNKNOWN_DOMAIN = 121,     /* The bundles have no trust domain of this name. */
    SVID_NO_KEY = 122,             /* The trust domain has no key that fits `alg` and `kid`. */
    SVID_BAD_SIGNATURE = 123,      /* No key among the first 3 that fit made the signature. */
    SVID_WITHDRAWN = 124,          /* The token was withdrawn. */
    SVID_REPLAYED = 125            /* The token was accepted before, here or by a validator whose messages were taken. */
    /* lists:end */
};

/* The lengths of an ID's parts, in bytes, or the offset of its fault; 0 elsewhere. The trust domain name stands
 * behind `spiffe://`, and the path behind it. */
typedef struct {
    size_t offset;
    size_t domain_len;
    size_t path_len;
} svid_id;

/* Where the bearer token of a request stands in the value of its header field, and its length, in bytes; 0 where there is none. */
typedef struct {
    size_t at;
    size_t len;
} svid_bearer;

/* What a token says, beside its texts. */
typedef struct {
    uint8_t key[32];    /* identifies the token: `key` of svid_use */
    uint64_t exp;       /* when it expires, in seconds */
    size_t texts;       /* how many texts it has: four, and one for each audience */
} svid_said;

/* What a token's signature is made over. */
typedef struct {
    size_t len;         /* how many bytes of the token that are, from its first one */
} svid_signed;

/* How large a record is. */
typedef struct {
    uint64_t moment;    /* the time that it has seen, in seconds */
    size_t uses;        /* how many uses it has; withdrawals count too */
} svid_size;

/* What a call tells beside its status; 0 where there is nothing to tell. `offset` is always where in the input the fault is:
 *   SVID_MAGIC to SVID_TRUNCATED    the number of the byte in the message `message` of the input `input`, counted from 0
 *   SVID_BUNDLES_DOMAIN and _KEYS   the number of the trust domain among all names in rising order of their bytes, counted from 0
 *   SVID_USE_EXPIRED                of svid_entries_write: the number of the entry, counted from 0 */
typedef struct {
    size_t len;      /* the length of the text that was written, or that has no room; of svid_entries_read the number of entries */
    size_t input;    /* which input of messages is at fault, counted from 1 over the call's inputs: 1 or 2 of svid_join and svid_answer, and
                        1 of any other call. SVID_TOO_MUCH also: 1 for bundles */
    size_t message;  /* which of its messages, counted from 1 */
    size_t offset;
    size_t more;     /* of svid_validator_ask_token and svid_bundles_ask: 1 if more keys may have signed the token than it lists; of
                        svid_validator_mark: 1 if the validator accepts claims; of svid_validator_differs: 1 if the bucket differs; of
                        svid_status_sentence: the length of the text before any advice */
} svid_told;

/* The parameters of svid_bundles_judge, beside its inputs. */
typedef struct {
    uint64_t moment;    /* at which the token is judged, in seconds */
    uint64_t longest;   /* how many seconds past it a token may expire; UINT64_MAX for any */
    uint8_t validator_id[16];  /* 16 bytes that name the validator in the use */
} svid_setting;

/* The use that an acceptance adds to the record. */
typedef struct {
    uint64_t exp;       /* when the token expires, in seconds */
    uint64_t at;        /* the record's moment when the token was accepted, in seconds */
    uint8_t key[32];    /* identifies the token */
    uint8_t validator_id[16];  /* of the validator */
} svid_use;

/* An entry of a record: a token was accepted, or withdrawn. It has no padding, and its last four fields are those of svid_use. */
typedef struct {
    uint64_t withdrawn; /* 0 if the token was accepted, and 1 if it was withdrawn */
    uint64_t exp;       /* when the token expires, in seconds */
    uint64_t at;        /* the record's moment when it was accepted or withdrawn, in seconds */
    uint8_t key[32];    /* identifies the token */
    uint8_t validator_id[16];  /* of the validator that accepted or withdrew it */
} svid_entry;

/* ---- A validator that you keep ----
 *
 * A `svid_validator` lives in your memory and begins as SVID_VALIDATOR_CLOSED, all bytes 0. Three rules:
 * - Only the calls below write it. Do not copy it while it is open: a copy that is closed too frees the same memory twice.
 * - Give it to one call at a time, from any thread. Order the calls of several threads by a lock.
 * - After fork, only one of the two processes may go on with it. The other process opens its own with another `validator_id`: two
 *   validators of one ID accept a token twice.
 * All calls answer SVID_CLOSED on a closed validator, and then do nothing.
 *
 * To check a token:
 *   1. svid_token_open reads it.
 *   2. svid_validator_ask_token gives its signature, and lists the first keys that may have made it.
 *   3. Your crypto library verifies the signature with each of these keys.
 *   4. svid_validator_check_token gets the key that made the signature, with the bytes and the signature that you verified with it, and
 *      accepts or refuses the token.
 * The helper svid_validator_verify makes these calls, and calls your verifier for each key. */
typedef struct { uint64_t word; void *held; } svid_validator;
#define SVID_VALIDATOR_CLOSED { 0, NULL }

/* What a validator is given for its whole life. */
typedef struct {
    uint64_t longest;   /* a token that expires more than so many seconds past the record's moment is refused; UINT64_MAX for no limit */
    uint64_t ahead;     /* how many seconds a message's moment may lie past `now`; 10 is a good value where clocks are synchronised */
    uint64_t step;      /* a `now` more than so many seconds past the record's moment is answered SVID_JUMP, so that a wrong clock
                           (milliseconds, say) does not expire all that the record knows; UINT64_MAX for no limit. A record that has seen
                           no time yet, whose moment is 0, takes any `now`: so the first one must be right */
    uint8_t validator_id[16];  /* 16 bytes that name this validator among all that share its record; take random ones for each process */
} svid_terms;

/* The key that identifies a token: `key` of svid_use. */
typedef struct {
    uint8_t bytes[32];
} svid_key;

/* Opens a closed validator with an empty record. `own` are its own audiences, one a line; empty lines are passed over. `bundles` are the
 * trust bundles as JSON, an object from trust domain names to JWK sets. SVID_IS_OPEN; SVID_OWN_NOT_UTF8; SVID_TOO_MUCH,
 * SVID_BUNDLES_NOT_OBJECT to SVID_BUNDLES_KEYS and SVID_BUNDLES_UNNAMED. Unless the status is SVID_OK, the validator stays as it was. To go
 * on with a saved record, take it by svid_validator_take. */
uint32_t svid_validator_open(svid_validator *v, const svid_terms *terms, const uint8_t *own, size_t own_len,
                             const uint8_t *bundles, size_t bundles_len, svid_told *told);

/* The same, for audiences that may have line feeds: `own` has them one directly after the other, and `lens` has the length of each of the
 * `lens_len` audiences, in bytes. An audience of length 0 is the empty text. SVID_OWN_LENGTHS if the lengths do not add up to `own_len`. */
uint32_t svid_validator_open_by_lengths(svid_validator *v, const svid_terms *terms, const uint8_t *own, size_t own_len,
                                        const size_t *lens, size_t lens_len,
                                        const uint8_t *bundles, size_t bundles_len, svid_told *told);

/* Closes a validator and frees all that it holds. Does nothing to a closed one. */
void svid_validator_close(svid_validator *v);

/* Replaces the trust bundles. The record stays, so a token that was accepted before is still SVID_REPLAYED. If the new bundles are
 * refused (SVID_TOO_MUCH, SVID_BUNDLES_NOT_OBJECT to SVID_BUNDLES_KEYS, SVID_BUNDLES_UNNAMED), the old ones stay. The call takes five
 * microseconds for each key; svid_validator_renew_by takes none of that under the validator's lock. */
uint32_t svid_validator_bundles(svid_validator *v, const uint8_t *bundles, size_t bundles_len, svid_told *told);

/* A token that is read once, by svid_token_open, for the calls that look for its keys, judge and check it. None of these hashes it. It shares
 * nothing with a validator, and any validator may be asked about it. The rules of a validator hold for it too: it begins as SVID_TOKEN_CLOSED, only
 * the calls write it, give it to one call at a time, and do not copy it while it is open. Close it when you are done with it. */
typedef struct { uint64_t word; void *held; } svid_token;
#define SVID_TOKEN_CLOSED { 0, NULL }

/* Opens a closed handle: reads a token, and keeps what it says. Afterwards the handle does not need `token` any more. SVID_IS_OPEN: the handle
 * stays as it was. SVID_TOO_LONG to SVID_JTI: the token is refused, whatever its keys are. SVID_NO_MEMORY, but never for a token that is
 * SVID_TOO_LONG or SVID_NOT_THREE_PARTS. After these the handle stays closed. */
uint32_t svid_token_open(svid_token *t, const uint8_t *token, size_t token_len, svid_told *told);

/* Closes a handle, and frees all that it holds. Does nothing to a closed one. */
void svid_token_close(svid_token *t);

/* Gives all that a verifier needs of a token that was read. First comes, once:
 *     the signed bytes      how many bytes of the token the signature is made over, from the first one, in 4 bytes, the greatest first
 *     the signature         its length in 4 bytes, the greatest first, and then the signature, as svid_token_signature gives it
 * and then, for each of the first `most` keys that may have signed the token, in the order of their bundle:
 *     the algorithm's name  its length in 4 bytes, the greatest first, and then the name, as "ES256"
 *     the key               its length in 4 bytes, the greatest first, and then the key as JSON (RFC 7517)
 * Keep parsed keys by that JSON text, not by `kid`, which is not unique. `told->len` is the length of all that, also where it has no room in `out`
 * (SVID_TOO_SHORT). SVID_UNKNOWN_DOMAIN and SVID_NO_KEY if the token is refused already. SVID_CLOSED if the validator is closed, or the token.
 * Changes nothing, but wants the lock of the validator too; a second validator with the same bundles can answer it without.
 *
 * `told->more` is 1 if more than `most` keys may have signed the token, and else 0. `most` bounds what a stranger's token costs: a token
 * without a `kid` may be signed by any key of its trust domain, and each listed key costs a verification later. Pass SVID_MOST_CANDIDATES, or
 * SIZE_MAX for all keys. */
uint32_t svid_validator_ask_token(svid_validator *v, svid_token *t, size_t most, uint8_t *out, size_t out_len, svid_told *told);

/* Checks a token at the time `now`. `key`, `input` and `signature` are what your crypto library verified: that key, as svid_validator_ask_token
 * lists it, made that signature over these bytes, which are the first of the token. All three are NULL and 0 if no key did.
 *
 * The status is the first that holds: SVID_CLOSED if the validator is closed, or the token; SVID_JUMP; SVID_HAS_LOG if the validator reads a
 * log, since it accepts a token by svid_validator_read alone; SVID_TOO_SHORT if `out_len` is less than SVID_ID_ROOM. Then nothing happened.
 * Else the token is judged.
 *
 * First the call advances the record to `now`; it judges the token at the record's moment, which may be later. If it accepts the token, the
 * status is SVID_OK: the record has gained the use, `used` is that use, and `out` has the SPIFFE ID of the subject. If it refuses the token,
 * the status is the first of SVID_NOT_AUDIENCE to SVID_REPLAYED that holds.
 *
 * The token is refused as SVID_BAD_SIGNATURE, or for what comes before that, if `input` or `signature` is not that of this token, so an answer
 * about another token is worth nothing; and if `key` is empty, or none of the keys that may have signed the token at this moment: the bundles
 * may have been renewed in between. The call compares these bytes, and hashes nothing.
 *
 * SVID_NO_MEMORY: the token was not accepted, and you can check it again. Unless the status is SVID_OK, `used` stays as it was. The token stays
 * open, and another call may be asked about it. */
uint32_t svid_validator_check_token(svid_validator *v, uint64_t now, const uint8_t *key, size_t key_len,
                                    const uint8_t *input, size_t input_len, const uint8_t *signature, size_t signature_len,
                                    svid_token *t, uint8_t *out, size_t out_len, svid_use *used, svid_told *told);

/* Answers what svid_validator_check_token would answer, but the record gains no use: a later check may still accept the token. `used` is the
 * use that a check would add. To judge a token again later, keep its handle open, with the key that made its signature.
 *
 * It never answers SVID_HAS_LOG. If the validator reads a log, `used` is the claim to put into the log (svid_batch_of), and a token with a claim
 * beside the record is SVID_REPLAYED too. */
uint32_t svid_validator_judge_token(svid_validator *v, uint64_t now, const uint8_t *key, size_t key_len,
                                    const uint8_t *input, size_t input_len, const uint8_t *signature, size_t signature_len,
                                    svid_token *t, uint8_t *out, size_t out_len, svid_use *used, svid_told *told);

/* Withdraws the token with this key, which expires at `exp`: it is refused as SVID_WITHDRAWN from now on until `exp`, also by the validators that
 * hear of it. If the token expires later than that, it may be accepted then. `used` is what the record gained. SVID_GONE if the token has
 * expired; SVID_JUMP; SVID_NO_MEMORY, but never for a withdrawal that the record has already. */
uint32_t svid_validator_withdraw(svid_validator *v, uint64_t now, const svid_key *key, uint64_t exp,
                                 svid_use *used, svid_told *told);

/* Advances the record to `now`, and drops what has expired by then. SVID_JUMP. */
uint32_t svid_validator_tick(svid_validator *v, uint64_t now, svid_told *told);

/* Takes messages of other validators, or a record that was saved: advances the record to `now`, and joins it with what all the messages
 * tell. Taking a message twice, or in another order, makes no difference. Summaries are passed over.
 *
 * SVID_TOO_FAR: the messages tell of a time more than `ahead` seconds past `now`; the record was advanced to `now`, and nothing was joined.
 * SVID_TOO_MUCH and SVID_MAGIC to SVID_TRUNCATED: the input is no row of messages, and nothing happened. SVID_NO_MEMORY: a part may be
 * joined, and you can take the same messages again. SVID_JUMP. */
uint32_t svid_validator_take(svid_validator *v, uint64_t now, const uint8_t *messages, size_t messages_len,
                             svid_told *told);

/* Writes the whole record as messages, for other validators or to save it. */
uint32_t svid_validator_tell(svid_validator *v, uint8_t *out, size_t out_len, svid_told *told);

/* How far svid_validator_parts has written a record. Begin with SVID_PART_FIRST; only svid_validator_parts writes it. */
typedef struct {
    uint64_t begun;
    uint64_t done;      /* 1 if the record has no use behind the last one that was written, and else 0 */
    uint64_t withdrawn;
    uint64_t exp;
    uint64_t at;
    uint8_t key[32];
    uint8_t validator_id[16];
} svid_part;
#define SVID_PART_FIRST { 0, 0, 0, 0, 0, { 0 }, { 0 } }

/* Writes the record piece by piece, so that a large one does not keep the lock for long. Each call writes one batch, with as many uses as have
 * room in `out`, and at most 65,536. A batch has 17 bytes, and 65 for each use. Call it until `part->done` is 1, and append what each call
 * writes: the call that writes the last use sets it. You may make other calls in between. The pieces together hold each use that the
 * record had at the first of these calls and that is still live at the last. A use that is accepted in between may be missing.
 * SVID_TOO_SHORT if `out_len` is less than SVID_BATCH_OF_LEN. Unless the status is SVID_OK, `part` stays as it was. */
uint32_t svid_validator_parts(svid_validator *v, svid_part *part, uint8_t *out, size_t out_len, svid_told *told);

/* Tells the moment of the record and how many uses it has. The time that it takes does not depend on how many there are. Unless the status
 * is SVID_OK, `out` stays as it was. */
uint32_t svid_validator_size(svid_validator *v, svid_size *out, svid_told *told);

/* Writes the summary of the record: SVID_SUMMARY_LEN bytes, for a validator that is to answer what is missing here. */
uint32_t svid_validator_summary(svid_validator *v, uint8_t *out, size_t out_len, svid_told *told);

/* Writes the answer to the summary of another validator: messages with the uses that it may lack. Advances the record to `now`, and to the
 * summary's moment. SVID_NOT_SUMMARY; SVID_TOO_FAR; SVID_TOO_MUCH and SVID_MAGIC to SVID_TRUNCATED; SVID_JUMP. */
uint32_t svid_validator_answer(svid_validator *v, uint64_t now, const uint8_t *summary, size_t summary_len,
                               uint8_t *out, size_t out_len, svid_told *told);

/* The digests of the 256 buckets of a record at a moment. A bucket has the uses whose keys begin with its number. */
typedef struct {
    uint64_t moment;          /* in seconds: set it before the first call */
    uint8_t digests[256][32];
} svid_digests;

/* The summary of a large record, bucket by bucket, so that no call keeps the lock for long. svid_validator_digest puts the digest of one bucket
 * at `digests->moment` into its place, and `told->len` is how many uses it is of. It looks at the uses of this bucket alone. Call it for each
 * of 0 to 255, and then svid_summary_of, which writes their summary: SVID_SUMMARY_LEN bytes. It is the summary that the record has once it is
 * advanced to that moment. Other calls may run in between: then each digest is of its bucket at its own call, and the summary is that of no one
 * moment. What it lacks makes an answer longer, and never wrong. A moment before that of the record summarizes what the record still has. */
uint32_t svid_validator_digest(svid_validator *v, uint8_t bucket, svid_digests *digests, svid_told *told);
uint32_t svid_summary_of(const svid_digests *digests, uint8_t *out, size_t out_len, svid_told *told);

/* The answer to the summary of another validator, bucket by bucket, so that no call keeps the lock for long.
 *   1. svid_summary_read puts the moment and the digests of the summary into `asked`. SVID_NOT_SUMMARY; SVID_TOO_MUCH and SVID_MAGIC to
 *      SVID_TRUNCATED: then `asked` stays as it was.
 *   2. svid_validator_differs compares the digest of one bucket at that moment with the one in `asked`: `told->more` is 1 if they differ. Call it
 *      for each of 0 to 255.
 *   3. If they differ, svid_validator_bucket with `asked.moment` writes the uses of that bucket that expire later: messages, or no bytes if there
 *      are none.
 * What step 3 writes in all tells the uses that svid_validator_answer tells. The record stays as it is. Each call of steps 2 and 3 looks once at
 * each use of its bucket, and at no other use.
 *
 * Other calls may run in between. Then the answer has, or the asking validator had when it made the digest of that bucket, each use that the record
 * had at the first call of step 2 and that is still live. What the record gained since, it has or lacks. So also a validator that took a whole
 * answer, or an empty one, may accept a token that this one accepted meanwhile. */
uint32_t svid_summary_read(const uint8_t *summary, size_t summary_len, svid_digests *asked, svid_told *told);
uint32_t svid_validator_differs(svid_validator *v, uint8_t bucket, const svid_digests *asked, svid_told *told);
uint32_t svid_validator_bucket(svid_validator *v, uint8_t bucket, uint64_t moment, uint8_t *out, size_t out_len, svid_told *told);

/* ---- A validator that reads a group's log ----
 *
 * Validators that read one log accept a token once in the whole group. A *log* is a list of values in one order, the same for all; a *value*
 * is a row of messages. A *claim* is a use in a value: it says that the validator of that ID wants to accept the token. Of the claims of a
 * token that have not expired, the first in the log counts. The validators of a group have different IDs.
 *
 * To check a token:
 *   1. svid_validator_judge_token refuses the token, or tells its claim in `used`.
 *   2. Put svid_batch_of(used) at the end of the log, as a value or as a part of one.
 *   3. Read the values in their order with svid_validator_read. It tells what becomes of the claim: accept the token if that is
 *      SVID_FATE_ACCEPTED. Accept it once for each claim that you put: an earlier claim with the same bytes may stand in the log too. */

/* What becomes of a use that stands in a log. The other names are those of a status with the same number. */
enum svid_fates {
    SVID_FATE_ACCEPTED = 0,      /* the first claim of its token, and this validator's own: it accepts the token. The record has the use */
    SVID_FATE_FIRST = 1,         /* the first claim of its token, which this validator does not accept: it is of another validator, or stands at
                                    `ready` or in front of it, or the validator is deaf. The record has the use */
    SVID_FATE_WITHDRAWAL = 2,    /* a withdrawal. The record has it */
    SVID_FATE_TOO_FAR_AHEAD = 8, /* it was made after the record's moment, and more than `ahead` seconds past `now`. It counts as a claim, and
                                    nobody that sees it as early accepts it */
    SVID_FATE_EXPIRED = 118,     /* it has expired */
    SVID_FATE_WITHDRAWN = 124,   /* the token was withdrawn */
    SVID_FATE_REPLAYED = 125     /* the record has a use of the token, or a claim beside the record, which stands in front of it in the log, has
                                    its key */
};

/* How a value follows on those that were read. */
enum svid_orders {
    SVID_ORDER_AGAIN = 0,  /* it was read before; nothing happened. Also where the status says that nothing was read */
    SVID_ORDER_NEXT = 1,
    SVID_ORDER_GAP = 2     /* values in front of it are missing: the validator is deaf for `lasts` seconds, from `now` or from the record's moment,
                              whichever is later */
};

/* Where a validator is in a log. At the start `begun` and `deaf` are 0, and `passed` is the position of the last value in front of the first
 * one that the log still has: 0 if it has all. If it has not, uses of the values up to there may live: then `deaf` is the moment by which they
 * have all expired. */
typedef struct {
    uint64_t passed;    /* the position of the last value that was read to its end */
    size_t begun;       /* how many uses of the value behind that one were read */
    uint64_t deaf;      /* the moment before which the validator accepts nothing, in seconds */
} svid_mark;

/* A use of a value, and what becomes of it. */
typedef struct {
    svid_use used;
    uint64_t fate;      /* one of svid_fates */
} svid_fate;

/* What svid_validator_read did. */
typedef struct {
    uint64_t order;     /* one of svid_orders */
    size_t from;        /* the number of the first use of the value that the call read, counted from 0 */
    size_t count;       /* how many uses it read, and wrote to `out` */
} svid_reading;

/* Lets the validator read a log from `mark` on. `ready` is the position of the last value that an earlier life of it may have read, so that of the
 * last value in the log at the start: the validator accepts nothing up to there. `lasts` is how many seconds a use may live once it is in
 * the log: the longest life of a token, and twice what two clocks may differ. `beside` is what svid_validator_beside wrote at that mark, or no
 * bytes. The record stays as it is: take one that was saved at that mark or later by svid_validator_take. A validator that reads a log already
 * begins again.
 *
 * SVID_MAGIC to SVID_TRUNCATED, with `offset` told and not `message`; SVID_NO_MEMORY. Then nothing happened. */
uint32_t svid_validator_log(svid_validator *v, const svid_mark *mark, uint64_t ready, uint64_t lasts,
                            const uint8_t *beside, size_t beside_len, svid_told *told);

/* Reads the value at `position` of the log, with all its bytes. Positions are counted from 1, without gaps. The validator goes on where it
 * stopped in the value, and writes each use that it reads to `out`, with its fate. `out` has room for `out_len` entries.
 *
 * Before each use, the call advances the record to `now`, and to the time of that use unless it is too far ahead. So a value without a use to read
 * advances nothing. `now` 0 advances nothing by itself.
 *
 * The status is the first of these that holds:
 * - SVID_CLOSED.
 * - SVID_JUMP, by `step`: call again with `now` 0.
 * - SVID_NO_LOG.
 * - SVID_JUMP: values are missing in front of this one, and `now` is 0. A gap wants a clock.
 * - SVID_NO_MEMORY: there was none to read the bytes. In all cases up to here nothing happened, and `reading` is all 0.
 * - SVID_MAGIC to SVID_TRUNCATED, with `offset` told and not `message`: the value is no row of messages. So it has no uses, for every validator
 *   alike, and is read to its end.
 * - SVID_TOO_SHORT: `out` is full, and uses are left. SVID_NO_MEMORY: uses are left too. After these two, call again with the same value: the
 *   validator goes on.
 * - SVID_OK: the value is read to its end.
 * A value at a position that was read before is read no more: nothing happens, `reading` is all 0 (SVID_ORDER_AGAIN), and the status is that of
 * its bytes, so SVID_OK, or SVID_MAGIC to SVID_TRUNCATED.
 *
 * `reading` is always written. `out` stays as it was behind the first `reading->count` entries. */
uint32_t svid_validator_read(svid_validator *v, uint64_t now, uint64_t position, const uint8_t *value, size_t value_len,
                             svid_fate *out, size_t out_len, svid_reading *reading, svid_told *told);

/* Tells where the validator is in its log. `told->more` is 1 if it accepts claims: it has read up to `ready`, and its record's moment has
 * reached `deaf`; else 0. SVID_NO_LOG: `mark` stays as it was. */
uint32_t svid_validator_mark(svid_validator *v, svid_mark *mark, svid_told *told);

/* Ends the time in which the validator is deaf, by setting `deaf` to 0. It may then accept a token whose claim it missed, so for a second
 * time. SVID_NO_LOG. */
uint32_t svid_validator_go_on(svid_validator *v, svid_told *told);

/* Writes the uses beside the record as messages: those of the log that counted when they were read, and that the record did not gain then. Some may
 * have expired since, and messages may have brought some to the record since: both do no harm in a save. Save them with the mark and the
 * record of the same moment. SVID_NO_LOG. */
uint32_t svid_validator_beside(svid_validator *v, uint8_t *out, size_t out_len, svid_told *told);

/* ---- Claims in a store ----
 *
 * Validators that share a *store* accept a token once in the whole group, and tell each other nothing. The store keeps one entry for each token
 * key: the first that was put there. An entry is an *owner*: 32 bytes that say whose claim it is. No call here takes memory.
 *
 * What the store does:
 *   - A put answers the owner that the key has afterwards: the one that was put, or that of an earlier put. Puts of one key never overlap.
 *   - It keeps an entry until svid_claim_until has passed by its own clock. Nobody else removes one.
 *   - Each answer has the store's time, read at the put or after it, and its `deaf`. `deaf` was the same before the put and after it.
 *   - Before it answers a put again after it may have lost entries, it replaces `deaf` by svid_claim_deaf. At first `deaf` is 0.
 *
 * To check a token:
 *   1. svid_validator_judge_token refuses the token, or tells its key and expiry in `used`.
 *   2. Put the owner of svid_claim_owner under that key.
 *   3. Give the answer to svid_claim_outcome, at the moment of svid_claim_moment. If that is SVID_OK, make svid_validator_check_token, which adds the use:
 *      accept the token if that is SVID_OK too. A second answer to the claim then finds the token SVID_REPLAYED.
 *   4. If no answer comes, put the same owner again.
 *
 * To accept a token any number of times, but from one caller, put the owner of svid_claim_owner_of_caller, and accept at SVID_OK of
 * svid_claim_outcome. To withdraw a token, put 32 zeros under its key. If the answer is another owner, the token was used already. */

/* Writes the owner that a life of a validator claims a token for which expires at `exp`. `life` is 16 random bytes: take new ones at each start,
 * or the validator would accept tokens again after a restart. The owner begins with the validator ID. */
void svid_claim_owner(const uint8_t validator_id[16], const uint8_t life[16], uint64_t exp, uint8_t owner[32]);

/* Writes the owner that every validator claims a token for which `caller` presents, and which expires at `exp`. `caller` is 32 bytes that tell the
 * caller from all others, as a digest of its certificate. */
void svid_claim_owner_of_caller(const uint8_t caller[32], uint64_t exp, uint8_t owner[32]);

/* Writes the validator ID that an owner of svid_claim_owner begins with, so that people see who used a token. */
void svid_claim_validator(const uint8_t owner[32], uint8_t validator_id[16]);

/* Returns until when the store keeps the entry of a token that expires at `exp`: `exp` + `margin`, or UINT64_MAX if that is greater. `margin` is at
 * least the `ahead` of svid_claim_moment plus how many seconds the store's clock may ever step back. */
uint64_t svid_claim_until(uint64_t exp, uint64_t margin);

/* Returns the `deaf` of a store after it may have lost entries: the greater of `before`, its `deaf` until then, and `time` + `lasts` (or
 * UINT64_MAX if that is greater). `time` is no less than the time of any answer before the loss: the store's time at the end, plus how many seconds
 * its clock may ever step back. `lasts` is that of svid_claim_outcome, or more. */
uint64_t svid_claim_deaf(uint64_t time, uint64_t lasts, uint64_t before);

/* Returns the moment at which to judge an answer with this time: `now`, or `time` - `ahead` if that is greater. `now` is the greater of the clock and
 * of the record's moment. Do not advance the record to what this returns: a store whose clock is wrong would expire all its uses. */
uint64_t svid_claim_moment(uint64_t now, uint64_t time, uint64_t ahead);

/* Says what becomes of a claim, which put `owner` for a token that expires at `exp`. `found_owner`, `time` and `deaf` are the store's answer: an
 * answer to any put of the key, even a late one. `lasts` is how many seconds past the store's time a token may expire: the longest life of a
 * token, plus what two clocks may differ.
 *
 * SVID_OK: the token is accepted. Else the first of SVID_CLAIM_WITHDRAWN, SVID_CLAIM_TAKEN, SVID_CLAIM_FAR, SVID_CLAIM_DEAF and SVID_CLAIM_EXPIRED
 * that holds. */
uint32_t svid_claim_outcome(const uint8_t owner[32], uint64_t exp, const uint8_t found_owner[32], uint64_t time, uint64_t deaf,
                            uint64_t lasts, uint64_t moment);

/* ---- A member: requests, and their answers ----
 *
 * A member answers requests by a validator: it says which may be answered that their token is accepted, and what has to be done before. Its
 * modes: SVID_ONCE accepts a token once by this member; where there is a state folder, its use is on the disk before the answer. SVID_STRICT
 * accepts it once in the whole group, SVID_BOUND from one caller alone, both by a claim in the group's store. SVID_REUSE accepts it again and again.
 *
 * It has no clock, thread or socket. You tell it what happened, one call at a time, under the lock of the validator. Each call writes at most one
 * thing to do into `deed`. For each request:
 *   1. svid_token_open reads the token, outside of the lock. One that it refuses is answered so.
 *   2. svid_member_come: SVID_DEED_JUDGE has the number of the request.
 *   3. Find the key that made its signature (svid_bundles_*, or svid_validator_ask_token), outside of the lock, and call svid_member_judge.
 *      If you found the key when the token came before, svid_member_ask does 2 and 3 in one call.
 *   4. Do what each deed says:
 *      - SVID_DEED_JUDGE: judge the request of `number` again, by the key that you found.
 *      - SVID_DEED_APPEND: bring `used` to the state folder, and call svid_member_wrote.
 *      - SVID_DEED_CLAIM: put a claim of `used` into the store, for the owner of svid_claim_owner, or in mode bound of svid_claim_owner_of_caller.
 *        Right before a claim goes out, ask svid_member_send: put it only if that says SVID_DEED_CLAIM. Then call svid_member_found with the answer.
 *        A put without an answer may be made again.
 *      - SVID_DEED_ANSWER: answer the request: its token is accepted if `status` is SVID_OK. Then judge that of `next` again, if that is a request.
 *      - SVID_DEED_NOTHING: another call will say what is to be done for it.
 *   5. When svid_member_due comes, call svid_member_overdue until there is nothing to do.
 *
 * What is proved of the answers (crates/PROOFS.md): no token is answered SVID_OK twice, in mode once by one member over its restarts, in mode strict
 * by the whole group; in mode bound none is for two callers. Your part: report writes and claims as they were, carry out each answer once, give
 * each start a `life` of its own, and in mode once let each start take what the state folder has. `up` is a moment by a clock that only goes ahead, in
 * any unit, the same for all calls and for `wait`; `now` is the wall clock's, in seconds.
 *
 * All calls answer SVID_CLOSED if the validator is closed, and, but for svid_member_open, SVID_NO_MEMBER if it has no member: then nothing happened. */

enum svid_modes { SVID_ONCE = 0, SVID_STRICT = 1, SVID_BOUND = 2, SVID_REUSE = 3 };

enum svid_deeds {
    SVID_DEED_NOTHING = 0,
    SVID_DEED_JUDGE = 1,
    SVID_DEED_APPEND = 2,
    SVID_DEED_CLAIM = 3,
    SVID_DEED_ANSWER = 4
};

/* What a member is given for its life. */
typedef struct {
    uint64_t mode;     /* one of svid_modes */
    uint64_t disk;     /* 1 if there is a state folder, else 0 */
    uint64_t store;    /* 1 if there is a store, else 0 */
    uint64_t log;      /* 1 if there is a log that tells withdrawals, else 0 */
    uint64_t wait;     /* within how long each request and each withdrawal is answered, by the clock of `up` */
    uint64_t ahead;    /* how many seconds the store's time may be ahead of the own clock */
    uint64_t lasts;    /* how many seconds past the store's time a token may expire */
    uint8_t life[16];  /* 16 random bytes, new at each start */
} svid_member_terms;

/* What a member knows, as you tell it: 1 for yes, 0 for no. */
typedef struct {
    uint64_t bundled;    /* it has a trust bundle */
    uint64_t loaded;     /* its state folder is read, or it has none */
    uint64_t opened;     /* the store was reached, or it has none */
    uint64_t heard;      /* the store's withdrawals were read to the end once, or it has no store */
    uint64_t joined;     /* the broker of the group was reached, or it has none */
    uint64_t caught_up;  /* what the group had is read, or it has no broker */
    uint64_t draining;   /* it is to end soon */
    uint64_t jumped;     /* its clock went ahead too far at once */
    uint64_t full;       /* the state folder has no room for another acceptance */
    uint64_t away;       /* the store has not answered for longer than a request waits */
    uint64_t deaf;       /* the store has lost entries, so that no token is accepted that lives as long as it may */
    uint64_t ended;      /* it has ended */
} svid_known;

/* What is to be done for a request. */
typedef struct {
    uint64_t what;    /* one of svid_deeds */
    uint64_t number;  /* of the request */
    uint64_t status;  /* of an answer: SVID_OK; SVID_TOO_LONG to SVID_REPLAYED, SVID_NOT_ALLOWED, SVID_CLAIM_FAR or SVID_CLAIM_DEAF; or SVID_LATE,
                         SVID_NOT_KEPT, SVID_LEFT or SVID_NO_MEMORY */
    uint64_t next;    /* of an answer: the number of a request that waited for it, whose token is to be judged again; UINT64_MAX for none */
    svid_use used;    /* of SVID_DEED_APPEND, SVID_DEED_CLAIM and an answer that is SVID_OK; else zeros */
} svid_deed;

/* What a store answered to a put. */
typedef struct {
    uint64_t time;      /* the store's, in seconds, read at the put or after it */
    uint64_t deaf;      /* tokens that expire by then may have been claimed before the store lost entries; 0 if it never lost one */
    uint8_t owner[32];  /* what the key has after the put */
} svid_found;

/* What a store answered before to a put of a claim. */
typedef struct {
    uint64_t exp;       /* when the token expires; no claim has 0 */
    uint8_t key[32];    /* its key, as in svid_use */
    svid_found found;
} svid_known_claim;

/* A moment by the clock of `up`; UINT64_MAX for none. */
typedef struct {
    uint64_t at;
} svid_deadline;

/* Lets a validator answer requests: it has a member, without requests, which judges no token before svid_member_know. All may call. Takes no memory.
 * SVID_HAS_LOG; SVID_IS_OPEN if it has a member; SVID_NO_MODE. */
uint32_t svid_member_open(svid_validator *v, const svid_member_terms *terms);

/* Tells a member all that it is to know from now on. Whether the state folder took the last acceptance it knows by itself. */
uint32_t svid_member_know(svid_validator *v, const svid_known *known);

/* Whether a member judges tokens: SVID_OK, or SVID_ENDED to SVID_GROUP_UNREAD for the first reason why not. */
uint32_t svid_member_judges(svid_validator *v);

/* Whether tokens are to be sent to a member: SVID_OK, or SVID_ENDED to SVID_DEAF for the first reason why not. SVID_WITHDRAWALS_UNREAD counts in all modes
 * but strict, SVID_KEEPS_NOTHING in once alone, and SVID_STORE_AWAY and SVID_DEAF in strict and bound alone. */
uint32_t svid_member_ready(svid_validator *v);

/* A request comes. SVID_ENDED to SVID_GROUP_UNREAD, SVID_NO_MEMORY: nothing came, and `deed` stays as it was. SVID_DEED_NOTHING if no number is left. */
uint32_t svid_member_come(svid_validator *v, uint64_t up, svid_deed *deed);

/* Judges the token of the request `number`, which was read. `key`, `input` and `signature` are as for svid_validator_check_token. In mode once the
 * record gains the use of an accepted token.
 *
 * SVID_OK: the token is accepted, `out` has the SPIFFE ID of its subject, and `used` is its use; `deed` says what is to be done before the answer. It
 * may be an answer already, as SVID_LATE, or SVID_NO_MEMORY if there was none to let the request wait.
 * SVID_NOT_AUDIENCE to SVID_REPLAYED and SVID_NO_MEMORY: it is refused. SVID_NOT_ALLOWED: it is good, and its subject may not call; nothing is added.
 * SVID_UNASKED: the request does not wait for a judgment, or its time is over; nothing happened.
 *
 * SVID_JUMP; SVID_TOO_SHORT if `out_len` is less than SVID_ID_ROOM; SVID_HAS_LOG. Then nothing happened, and `deed` stays as it was. SVID_CLOSED if
 * the validator is closed, or the token. */
uint32_t svid_member_judge(svid_validator *v, uint64_t now, uint64_t up, uint64_t number, const uint8_t *key, size_t key_len,
                           const uint8_t *input, size_t input_len, const uint8_t *signature, size_t signature_len,
                           svid_token *t, uint8_t *out, size_t out_len, svid_use *used, svid_deed *deed, svid_told *told);

/* A request comes whose key was found before, and its token is judged: svid_member_come and svid_member_judge at one moment. If a claim is to be put and
 * `known` is of that claim, the request hears that answer at once, as by svid_member_found. `deed` says what is to be done next, and has the number of
 * the request also if that is nothing. For tokens that come again and again; give `caller` and `known` as zeros where there is none.
 *
 * As svid_member_judge, or as svid_member_found if the request heard the known answer. SVID_ENDED to SVID_GROUP_UNREAD and SVID_NO_MEMORY, with `deed`
 * as it was: nothing came. SVID_UNASKED, with UINT64_MAX as the number: no number is left. */
uint32_t svid_member_ask(svid_validator *v, uint64_t now, uint64_t up, const uint8_t caller[32], const svid_known_claim *known,
                         const uint8_t *key, size_t key_len, const uint8_t *input, size_t input_len, const uint8_t *signature,
                         size_t signature_len, svid_token *t, uint8_t *out, size_t out_len, svid_use *used, svid_deed *deed, svid_told *told);

/* The use of the request `number` is on the disk, or could not be brought there if `ok` is 0. In mode once a member is not ready while the last one
 * could not: call it again once the disk took that use after all. */
uint32_t svid_member_wrote(svid_validator *v, uint64_t up, uint64_t number, uint64_t ok, svid_deed *deed);

/* The claim of the request `number` is about to go out: put it if `deed` is SVID_DEED_CLAIM. */
uint32_t svid_member_send(svid_validator *v, uint64_t up, uint64_t number, svid_deed *deed);

/* The store answered the claim of the request `number`, or any put of the same claim. `caller` are 32 bytes that tell who presents the token, and count
 * in mode bound alone. If the claim counts, the token is judged once more, as by svid_member_judge, and in mode strict the record gains its use. If the
 * store says that the token was withdrawn, so does the record from now on, unless memory is refused.
 *
 * As svid_member_judge, and SVID_CLAIM_WITHDRAWN to SVID_CLAIM_EXPIRED if the claim does not count. SVID_UNASKED: the request does not wait for the
 * claim of this token, or its time is over; nothing happened. */
uint32_t svid_member_found(svid_validator *v, uint64_t now, uint64_t up, uint64_t number, const uint8_t caller[32], const svid_found *found,
                           const uint8_t *key, size_t key_len, const uint8_t *input, size_t input_len, const uint8_t *signature,
                           size_t signature_len, svid_token *t, uint8_t *out, size_t out_len, svid_use *used, svid_deed *deed, svid_told *told);

/* Nobody waits any more for the answer to the request `number`. A use that is on its way to the disk goes there. */
uint32_t svid_member_leave(svid_validator *v, uint64_t up, uint64_t number, svid_deed *deed);

/* Answers the request that came first, if its time is over. */
uint32_t svid_member_overdue(svid_validator *v, uint64_t up, svid_deed *deed);

/* When a request or a withdrawal is due: then call svid_member_overdue and svid_withdrawal_overdue. */
uint32_t svid_member_due(svid_validator *v, svid_deadline *out);

/* Replaces the audiences of a validator, and who may call its member, at once. `own` are audiences, one a line; `callers` are patterns of SPIFFE IDs
 * as of svid_id_allows, one a line; empty lines are passed over. If `all` is not 0, all may call, and `callers` does not count. The record stays.
 * SVID_OWN_NOT_UTF8; SVID_PATTERN_TOO_LONG to SVID_PATTERN_PATH_BYTE for the first line that is no pattern; SVID_NO_MEMORY. Then nothing happened. */
uint32_t svid_member_rules(svid_validator *v, const uint8_t *own, size_t own_len, uint64_t all, const uint8_t *callers, size_t callers_len);

/* Withdrawals on their way to the state folder, the store and the log, as far as there are such (svid_member_terms). After svid_validator_withdraw,
 * svid_withdrawal_come gives the withdrawal a number. Tell what became of it at each of these three keepers, also at one that is not there, by
 * svid_withdrawal_told: it ends once no keeper is left. */
enum svid_keepers { SVID_AT_DISK = 0, SVID_AT_STORE = 1, SVID_AT_LOG = 2 };

/* How far a withdrawal is. For each keeper: 0 it waits, 1 it is there, or need not be, 2 it may not be there. */
typedef struct {
    uint64_t number;  /* UINT64_MAX if none has ended */
    uint64_t disk;
    uint64_t store;
    uint64_t log;
} svid_withdrawal;

/* The record has a withdrawal: `made` has its number and nothing else, or the number UINT64_MAX if none is left. SVID_NO_MEMORY: it is on its way nowhere; make it again. */
uint32_t svid_withdrawal_come(svid_validator *v, uint64_t up, svid_withdrawal *made);

/* A keeper has the withdrawal `number`, or may not have it if `ok` is 0. `made` is that withdrawal if it has ended, else its number is UINT64_MAX. */
uint32_t svid_withdrawal_told(svid_validator *v, uint64_t number, uint64_t keeper, uint64_t ok, svid_withdrawal *made);

/* Gives up the withdrawal that came first, if its time is over: `made` is that, else its number is UINT64_MAX. */
uint32_t svid_withdrawal_overdue(svid_validator *v, uint64_t up, svid_withdrawal *made);

/* When the claims that wait go out: many share a call to the store, and none waits long for that. Times are milliseconds by a clock that only goes
 * ahead. Begin with SVID_PACING_FIRST. */
typedef struct {
    uint64_t calls;  /* how many calls are under way */
    uint64_t at;     /* when the last one went out */
    uint64_t pause;  /* how long claims without an answer wait before they are put again */
} svid_pacing;
#define SVID_PACING_FIRST { 0, 0, 10 }

/* 1 if a call goes out at `up`, where so many claims wait, else 0. */
uint32_t svid_pacing_may_send(const svid_pacing *p, uint64_t up, uint64_t waiting);
/* When a call goes out beside those that are under way, where claims wait; UINT64_MAX if an answer has to come first. */
uint64_t svid_pacing_due(const svid_pacing *p);
/* A call goes out at `up`. */
void svid_pacing_sent(svid_pacing *p, uint64_t up);
/* A call has ended, and the store has answered some of its claims. */
void svid_pacing_answered(svid_pacing *p);
/* A call has ended without an answer. Returns how long its claims wait before they are put again. */
uint64_t svid_pacing_unanswered(svid_pacing *p);

/* ---- Trust bundles that you keep ----
 *
 * A `svid_bundles` reads trust bundles once. By it you renew the bundles of a validator, or judge a token without a record. It shares nothing
 * with a validator: so threads use it while the validator's lock is free for checks. The rules for a `svid_validator` hold for it too: it
 * begins as SVID_BUNDLES_CLOSED, only the calls write it, give it to one call at a time, and do not copy it while it is open.
 *
 * To judge a token without a record:
 *   1. svid_bundles_ask lists the first keys that may have signed it.
 *   2. Your crypto library verifies the signature with each of these keys, until one of them made it.
 *   3. svid_bundles_question gives the question of that key: the token is hashed once.
 *   4. svid_bundles_judge gets that question, and accepts or refuses the token.
 *
 * To renew the bundles of a validator without holding up its checks: open a `svid_bundles`, exchange by svid_validator_renew_by, and close
 * it. Only the exchange needs the validator's lock, and its time does not depend on the bundles. */
typedef struct { uint64_t word; void *held; } svid_bundles;
#define SVID_BUNDLES_CLOSED { 0, NULL }

/* A question of svid_bundles_question: a SHA-256 digest over a key, the algorithm, the signed bytes and the signature of one token. So an answer
 * can't be taken for that of another token or key. */
typedef struct {
    uint8_t bytes[32];
} svid_question;

/* A document of trust bundles: how long its name and its text are, and what the text is. */
typedef struct {
    size_t name_len;    /* of the name of its trust domain, `example.org` or `spiffe://example.org`; 0 if the text is an object from trust
                           domain names to JWK Sets */
    size_t text_len;
    uint64_t keys;      /* if it has a name: 0 if the text is the bundle of that trust domain (SPIFFE Trust Domain and Bundle, section 4), as
                           SPIRE prints it; 1 if it has keys for JWT-SVIDs alone, which need no `use` (SPIFFE Workload API, section 6.2.2) */
} svid_document;

/* Joins documents of trust bundles to one JSON text, as the other calls take bundles: an object from trust domain names to JWK Sets.
 * `bytes` are the name and the text of each document, one after the other. A JWK Set has a list, or null, as its `keys`. Of a text whose
 * `keys` is 1 in `documents`, that list alone is kept.
 *
 * SVID_BUNDLES_LENGTHS if the lengths of the documents do not add up to `bytes_len`. SVID_BUNDLES_NOT_OBJECT: a document is no JSON object, or
 * its objects and lists nest more than 127 deep; what is kept of the bundle of one trust domain may nest 126 deep. SVID_BUNDLES_UNNAMED: it has
 * no name, and is the bundle of one trust domain, since its own `keys` is a list or null. SVID_BUNDLES_DOMAIN, SVID_BUNDLES_KEYS and
 * SVID_BUNDLES_TWICE: one of its names is no trust domain name, has neither a list nor null as `keys`, or is in an earlier document.
 * `told->input` is the number of the first faulty document, counted from 1, and `told->offset` that of the name among all its names in rising
 * order of their bytes, counted from 0. A name that is not UTF-8 (SVID_BUNDLES_DOMAIN) is answered before any other fault.
 *
 * SVID_TOO_SHORT. SVID_NO_MEMORY: `told->input` is the number of the document that was being read, or 0 if none was. Unless the status is
 * SVID_OK, `out` stays as it was. The documents and the text may be longer than SVID_INPUT_MOST; a call that reads the text then refuses it. */
uint32_t svid_bundles_join(const uint8_t *bytes, size_t bytes_len, const svid_document *documents, size_t documents_len,
                           uint8_t *out, size_t out_len, svid_told *told);

/* Opens a closed handle: reads trust bundles, as for svid_validator_open. SVID_IS_OPEN: the handle stays as it was. SVID_TOO_MUCH,
 * SVID_NO_MEMORY, SVID_BUNDLES_NOT_OBJECT to SVID_BUNDLES_KEYS and SVID_BUNDLES_UNNAMED: the handle stays closed. The bundles are no object
 * also if they nest more than 127 deep, and `keys` may be null: then the trust domain has no key. */
uint32_t svid_bundles_open(svid_bundles *b, const uint8_t *bundles, size_t bundles_len, svid_told *told);

/* Closes a handle, and frees all that it holds. Does nothing to a closed one. */
void svid_bundles_close(svid_bundles *b);

/* Lists the keys that may have signed the token, the first `most` of them in the order of their bundle, in rows as svid_validator_ask_token does,
 * but without the signature. The rows are numbered from 0. `most` and `told->more` are as there. SVID_TOO_LONG to SVID_JTI, SVID_UNKNOWN_DOMAIN
 * and SVID_NO_KEY if the token is refused already. */
uint32_t svid_bundles_ask(svid_bundles *b, const uint8_t *token, size_t token_len, size_t most,
                          uint8_t *out, size_t out_len, svid_told *told);

/* Writes the question of the row with this number to `asked`: it hashes the token once.
 * SVID_TOO_LONG to SVID_JTI, SVID_UNKNOWN_DOMAIN and SVID_NO_KEY if the token is refused already. SVID_NO_KEY also if there is no such row:
 * `number` is less than the number of keys that may have signed the token. SVID_CLOSED; SVID_NO_MEMORY. Unless the status is SVID_OK, `asked`
 * stays as it was. */
uint32_t svid_bundles_question(svid_bundles *b, const uint8_t *token, size_t token_len, size_t number,
                               svid_question *asked, svid_told *told);

/* Judges a token at `setting->moment` as a validator with an empty record would that has these bundles, audiences and setting. No record is
 * asked, so the token is never SVID_WITHDRAWN or SVID_REPLAYED. `own` and `lens` are the audiences, as for svid_validator_open_by_lengths.
 * `yes` are `yes_len` questions of this token whose answer is yes.
 *
 * If it accepts the token, the status is SVID_OK: `out` has the SPIFFE ID of the subject, and `used` is the use that a check would add, so it
 * has the token's key and its expiry. If it refuses the token, the status is the first of SVID_TOO_LONG to SVID_BAD_SIGNATURE that holds.
 *
 * SVID_CLOSED; SVID_OWN_NOT_UTF8 and SVID_OWN_LENGTHS; SVID_TOO_SHORT if `out_len` is less than SVID_ID_ROOM; SVID_NO_MEMORY. Unless the
 * status is SVID_OK, `out` and `used` stay as they were. */
uint32_t svid_bundles_judge(svid_bundles *b, const svid_setting *setting, const uint8_t *own, size_t own_len,
                            const size_t *lens, size_t lens_len, const svid_question *yes, size_t yes_len,
                            const uint8_t *token, size_t token_len, uint8_t *out, size_t out_len,
                            svid_use *used, svid_told *told);

/* Exchanges the trust bundles of a validator for those of an open handle, in a time that does not depend on them: it reads nothing, allocates
 * nothing and frees nothing. The handle then holds the bundles that the validator had. The record stays, as for svid_validator_bundles. Wants
 * the lock of both. SVID_CLOSED if one of them is closed: then nothing happened. */
uint32_t svid_validator_renew_by(svid_validator *v, svid_bundles *b, svid_told *told);

/* ---- A state folder ----
 *
 * A state folder keeps a record over restarts and crashes. It has a snapshot and journals (docs/FORMATS.md, "State folder"). You open,
 * write, sync, rename and remove the files. These calls say which of that is due, make the bytes, and read them back. They take no memory.
 *
 * A `svid_folder` is eight numbers in your memory. Only these calls write it; you may read and copy it. Each call checks it, and answers
 * SVID_FOLDER_UNFIT if the numbers are not those of a folder. There is nothing to close. Give it to one call at a time. Unless the status
 * is SVID_OK, it stays as it was, and so does each output but `told`.
 *
 * A file is a row of frames, one for each *payload*: any bytes, at most SVID_PAYLOAD_MOST. A frame seals its payload with its number and
 * with the file that it is in. So a frame of another file, of another folder or at another offset is not taken for this one's. An empty payload
 * is a *mark*: it carries nothing, but makes damage of the frame before it visible.
 *
 * At a start:
 *   1. Read the snapshot, and then each journal by rising number, with svid_journal_read.
 *   2. Call svid_journal_open with the smallest and the greatest number of the journals that are there, or with 1 and 0.
 *   3. Make the calls of the system that are due: svid_journal_due says which, and you give its result to svid_journal_answer, until
 *      SVID_CALL_NOTHING is due. Then the journal `newest` grows, and is empty. A start writes to no journal that it found.
 *
 * To append:
 *   1. svid_journal_put writes the frame of a payload into your room. Requests that share a sync share a payload.
 *   2. Write it at byte `end` of the journal `newest`, and sync the file (fdatasync).
 *   3. svid_journal_synced if both succeeded: only now may you acknowledge what the payload says. svid_journal_unwritten if the write failed:
 *      the next frame goes to the same offset. svid_journal_failed if the sync failed: this ends the folder until the next start.
 * Append a mark (an empty payload) after a burst and before you close the folder; nobody waits for it.
 *
 * To replace the snapshot: svid_journal_begin, and then the calls that are due, as at a start. While SVID_CALL_WRITE_SNAPSHOT is due, write
 * the pieces of svid_journal_piece one behind the other, an empty one last, and then answer. The snapshot must have each use that the record
 * had when the new journal began to grow, which is when SVID_CALL_WRITE_SNAPSHOT becomes due: svid_validator_parts, first called then, writes
 * that. You may append at any time in between; the next frame goes where `newest` and `end` say. */
typedef struct {
    uint64_t step;      /* what is due */
    uint64_t oldest;    /* no journal of a smaller number is there */
    uint64_t newest;    /* the journal that grows; at a start, the greatest number that was found */
    uint64_t ended;     /* 1 after a sync that failed */
    uint64_t count;     /* how many frames of the journal that grows are synced */
    uint64_t end;       /* how many bytes they take: the next frame goes there */
    uint64_t flying;    /* how many bytes the frame takes that was handed out and is not synced, or 0 */
    uint64_t pieces;    /* how many pieces of a snapshot were handed out */
} svid_folder;

/* 16 bytes that tell a state folder from each other one. Take random ones when you make the folder, and keep them in it. While neither a
 * snapshot nor a journal is there, each start syncs the folder above, writes these bytes to a new file, syncs it, renames it to the name that
 * it keeps, and syncs the folder. It ends if one of these calls fails: no later sync vouches for a name whose sync failed. */
typedef struct {
    uint8_t bytes[16];
} svid_folder_id;

/* A call of the system that is due: a number of enum svid_call, and for two of them the number of the journal; else 0. */
typedef struct {
    uint64_t call;
    uint64_t journal;
} svid_due;

enum svid_call {
    SVID_CALL_NOTHING = 0,          /* none is due */
    SVID_CALL_CREATE_JOURNAL = 1,   /* make an empty journal of this number, a new file: remove one that has its name, then open with O_EXCL */
    SVID_CALL_SYNC_FOLDER = 2,      /* fsync the folder */
    SVID_CALL_WRITE_SNAPSHOT = 3,   /* make a file beside the snapshot, and write the pieces to it */
    SVID_CALL_SYNC_SNAPSHOT = 4,    /* sync that file */
    SVID_CALL_RENAME_SNAPSHOT = 5,  /* rename it over the snapshot */
    SVID_CALL_REMOVE_JOURNAL = 6    /* remove the journal of this number; if it is not there, that is a success */
};

/* How far a file is read. Begin with SVID_READER_FIRST; only svid_journal_read writes it. */
typedef struct {
    uint64_t count;     /* how many frames were read */
    uint64_t at;        /* how many bytes they take: the offset of the next one */
    uint64_t marked;    /* 1 if the last of them is a mark, and else 0 */
} svid_reader;
#define SVID_READER_FIRST { 0, 0, 0 }

/* What svid_journal_read found. */
typedef struct {
    size_t payload;     /* where in the bytes the payload begins */
    size_t len;         /* how many bytes it has; 0 for a mark */
    uint64_t format;    /* 2, or of SVID_FILE_OTHER the number of that format */
} svid_frame;

/* A start, in a folder that was read: no journal has a number below `oldest` or above `newest`. Without journals these are 1 and 0. `f`
 * may be uninitialised. SVID_FOLDER_FULL if `newest` is 2^62 - 1 or more; SVID_FOLDER_UNFIT if `oldest` is greater than `newest` + 1. */
uint32_t svid_journal_open(svid_folder *f, uint64_t oldest, uint64_t newest);

/* Begins a new journal and a new snapshot. SVID_FOLDER_ENDED; SVID_FOLDER_BUSY while a call is due; SVID_FOLDER_FULL. */
uint32_t svid_journal_begin(svid_folder *f);

/* Says which call of the system is due. Changes nothing. SVID_FOLDER_ENDED. */
uint32_t svid_journal_due(const svid_folder *f, svid_due *due);

/* Tells that the call that was due succeeded (`ok` is not 0) or failed (`ok` is 0).
 *
 * A sync of the folder that fails ends the folder until the next start, and so does a start that gets no further. Any other call that fails
 * ends the switch alone, and svid_journal_begin begins it again. SVID_FOLDER_ENDED; SVID_FOLDER_NOTHING_DUE; SVID_FOLDER_FLYING if the next
 * journal would grow while a frame is not synced: answer again once it is; SVID_FOLDER_NO_MARK if a snapshot would end without a mark. */
uint32_t svid_journal_answer(svid_folder *f, uint32_t ok);

/* Writes the frame of a payload into `out`. `told->len` is its length: write so many bytes at byte `f->end` of the journal `f->newest`. An
 * empty payload is a mark. SVID_FOLDER_ENDED, SVID_FOLDER_NOT_GROWING, SVID_FOLDER_FLYING, SVID_FOLDER_TOO_LONG, SVID_FOLDER_FULL; SVID_TOO_SHORT
 * if `out` has too little room, and `told->len` says how much the frame needs: `payload_len` + SVID_FRAME_MORE always do. */
uint32_t svid_journal_put(svid_folder *f, const svid_folder_id *folder_id, const uint8_t *payload, size_t payload_len,
                          uint8_t *out, size_t out_len, svid_told *told);

/* Tells that the frame was written and synced: it is acknowledged, and the next one goes behind it. SVID_FOLDER_ENDED;
 * SVID_FOLDER_NOT_FLYING. */
uint32_t svid_journal_synced(svid_folder *f);

/* Tells that the write of the frame failed. Nothing ends: the next frame goes to the same offset. SVID_FOLDER_ENDED;
 * SVID_FOLDER_NOT_FLYING. */
uint32_t svid_journal_unwritten(svid_folder *f);

/* Tells that a sync of the journal that grows failed. Nothing is acknowledged any more until the next start. SVID_FOLDER_ENDED. */
uint32_t svid_journal_failed(svid_folder *f);

/* Writes the frame of the next piece of a snapshot into `out`; `told->len` is its length. Write it behind the pieces before it. An empty payload
 * is the mark that ends the snapshot: then answer SVID_CALL_WRITE_SNAPSHOT. SVID_FOLDER_ENDED, SVID_FOLDER_NOT_WRITING,
 * SVID_FOLDER_TOO_LONG, SVID_FOLDER_FULL; SVID_TOO_SHORT as of svid_journal_put. */
uint32_t svid_journal_piece(svid_folder *f, const svid_folder_id *folder_id, const uint8_t *payload, size_t payload_len,
                            uint8_t *out, size_t out_len, svid_told *told);

/* Reads the next frame of a file of the folder `folder_id`: of the journal of this number, or of the snapshot if `journal` is 0. `bytes` are
 * those of the whole file.
 *
 * SVID_OK: `frame` says where in `bytes` the payload stands, and the reader goes on behind it. Else the reader stays as it was, and the status
 * says why there is no frame at byte `reader->at`: SVID_FILE_END, SVID_FILE_TEAR, SVID_FILE_DAMAGE, SVID_FILE_OTHER, or SVID_FOLDER_UNFIT if
 * the reader's numbers do not fit the bytes. Of SVID_FILE_OTHER `frame->format` is the number of that format; `payload` and `len` are then 0.
 * A snapshot that ends without a mark is damaged. */
uint32_t svid_journal_read(const svid_folder_id *folder_id, uint64_t journal, const uint8_t *bytes, size_t bytes_len,
                           svid_reader *reader, svid_frame *frame);

/* What a payload bears. */
typedef struct {
    svid_mark mark;     /* where a validator was in its log as the payload was written; 0 if the payload does not say */
    size_t marked;      /* 1 if the payload begins with that, else 0 */
    size_t messages;    /* where in the payload its messages begin: SVID_LOG_POSITION or 0 */
} svid_bears;
#define SVID_LOG_POSITION 28

/* Writes where a validator is in its log to `out`, as the front of a payload: SVID_LOG_POSITION bytes. Put the messages of the payload behind
 * them, or none. `mark` is that of svid_validator_mark. At the next start the last such mark says until when the validator accepts nothing.
 * SVID_TOO_SHORT: `out` stays as it was. `told->len` is SVID_LOG_POSITION. */
uint32_t svid_journal_position(const svid_mark *mark, uint8_t *out, size_t out_len, svid_told *told);

/* Says what a payload bears: where a validator was in its log, if the payload begins with that, and where its messages begin. Any bytes are a
 * payload. The call does not look at the messages; no messages begin as a mark does. */
void svid_journal_bears(const uint8_t *payload, size_t payload_len, svid_bears *bears);

/* ---- Stateless calls ---- */

/* The version of the library: SVID_VERSION of the header that it was built with. */
uint32_t svid_version(void);

/* Writes the name of a status, as "SVID_REPLAYED"; "SVID_?" for a number that no status has. It is the text that the helper svid_strstatus
 * returns, for a caller that has the library and not this header.
 *
 * SVID_OK; SVID_TOO_SHORT if the name is longer than `out`. It takes no memory. */
uint32_t svid_status_name(uint32_t status, uint8_t *out, size_t out_len, svid_told *told);

/* Writes what a status says in words, as "The token was withdrawn.", and after a space what to do, if there is something to do. For a number
 * that no status has it writes "No status has this number.". It is the text that the helper svid_strsentence returns. It is for people, and
 * may change from version to version.
 *
 * `told->more` is the length of the part before any advice. The advice begins one byte after it; if there is none, `told->more` is
 * `told->len`. SVID_OK; SVID_TOO_SHORT if the text is longer than `out`. It takes no memory. */
uint32_t svid_status_sentence(uint32_t status, uint8_t *out, size_t out_len, svid_told *told);

/* Reads a SPIFFE ID. */
uint32_t svid_id_parse(const uint8_t *text, size_t text_len, svid_id *out);

/* Says whether a pattern allows a SPIFFE ID. A pattern is one of three:
 *
 * - an ID with a path: it allows that ID alone;
 * - an ID with a slash and a star behind it: it allows all IDs below the path of that ID, by whole segments, and not that ID itself. The path
 *   may be empty;
 * - an ID without a path: it allows all IDs of its trust domain, with or without a path.
 *
 * SVID_OK if the pattern allows the ID, and SVID_NOT_ALLOWED if it does not; then `out` has the lengths of the ID's parts.
 *
 * SVID_PATTERN_TOO_LONG to SVID_PATTERN_PATH_BYTE if `pattern` is none, whatever `id` is: a mistake of whoever wrote the pattern. Else
 * SVID_ID_TOO_LONG to SVID_ID_PATH_BYTE if `id` is none. `out->offset` counts from the first byte of the text that is at fault.
 * SVID_NO_MEMORY: `out` has zeros. */
uint32_t svid_id_allows(const uint8_t *pattern, size_t pattern_len, const uint8_t *id, size_t id_len, svid_id *out);

/* Finds the one bearer token of a request (RFC 9110, section 11.4; RFC 6750, section 2.1). `fields` is how many header fields Authorization
 * the request has, and `value` is the value of the first one. Blanks around the value do no harm. The scheme is Bearer in letters of either
 * case, and spaces stand between it and the token. A token is not empty, and has letters, digits, the seven characters - . _ ~ + / and = at
 * its end. So the value that two fields were joined to has none.
 *
 * SVID_OK, and `out` says where the token stands in the value. Else SVID_BEARER_ABSENT to SVID_BEARER_SPELLING, or SVID_TOO_LONG for a token
 * of more than 65,536 bytes. It does not read the token. It takes no memory. */
uint32_t svid_bearer_token(uint64_t fields, const uint8_t *value, size_t value_len, svid_bearer *out);

/* Reads a token and tells what it says, for a log, say, or to withdraw it. Nobody has vouched for it: the call looks at no signature, no time
 * and no audience.
 *
 * `said` has its key and its expiry. Its texts stand in `out`, one directly after the other, and `lens` has their lengths: the algorithm, as
 * "ES256"; the subject, a SPIFFE ID; the trust domain of the subject; the name of its key, of length 0 if it has none; and each audience.
 * Texts are UTF-8, may have any characters, and do not end in a zero byte.
 *
 * SVID_TOO_SHORT if `out` has less than `told->len` bytes, or `lens` less than `said->texts` numbers. SVID_TOO_LONG to SVID_JTI if the token
 * is refused for what it is, and SVID_NO_MEMORY: then `said` stays as it was. Unless the status is SVID_OK, `lens` and `out` stay as they
 * were. */
uint32_t svid_token_says(const uint8_t *token, size_t token_len, svid_said *said, size_t *lens, size_t lens_len,
                         uint8_t *out, size_t out_len, svid_told *told);

/* Writes the signature of a token, as a library of cryptography wants it beside the key of svid_key_spki: of an EC key that is R and S as
 * RFC 7518 has them (section 3.4). `over` tells over how many bytes of the token it is made, from the first one: the header, a period and the
 * payload (RFC 7515, section 5.2). The call reads neither of these.
 *
 * SVID_TOO_SHORT if the signature is longer than `out`, which it never is if that has SVID_SIGNATURE_ROOM bytes. SVID_TOO_LONG;
 * SVID_NOT_THREE_PARTS; SVID_SIGNATURE_SPELLING; SVID_NO_MEMORY: then `over` stays as it was. Unless the status is SVID_OK, `out` stays. */
uint32_t svid_token_signature(const uint8_t *token, size_t token_len, svid_signed *over,
                              uint8_t *out, size_t out_len, svid_told *told);

/* Writes the payload of a token (RFC 7515, section 5.2): the claims as JSON, byte for byte as they were signed. Nobody has vouched for them: the
 * call judges nothing, and reads no other part. So call it after a check that accepted the token.
 *
 * SVID_TOO_SHORT if the payload is longer than `out`, which it never is if that has SVID_SIGNATURE_ROOM bytes. SVID_TOO_LONG;
 * SVID_NOT_THREE_PARTS; SVID_PAYLOAD_SPELLING; SVID_NO_MEMORY. Unless the status is SVID_OK, `out` stays. */
uint32_t svid_token_payload(const uint8_t *token, size_t token_len, uint8_t *out, size_t out_len, svid_told *told);

/* Says whether an entry of a trust bundle, one of the list `keys` (RFC 7517, section 5), is a key for JWT-SVIDs, and writes that key as
 * svid_bundles_ask lists it: as JSON without blanks, its names in rising order of their bytes. `entry` is the entry's JSON. Every call that
 * reads bundles keeps these entries, and passes over all others.
 *
 * SVID_TOO_SHORT if the key is longer than `out`, which it never is if that has SVID_KEY_ROOM bytes: so with `out_len` 0 it says that the
 * entry is a key. SVID_ENTRY_NOT_OBJECT to SVID_ENTRY_TOO_LONG if the entry is none. SVID_NO_MEMORY. */
uint32_t svid_key_text(const uint8_t *entry, size_t entry_len, uint8_t *out, size_t out_len, svid_told *told);

/* Writes a public key as SubjectPublicKeyInfo in DER (RFC 5280, section 4.1.2.7), which d2i_PUBKEY of OpenSSL, and its like elsewhere, read
 * in one call. `key` is the key as JSON (RFC 7517) and `alg` the name of the algorithm, both as svid_bundles_ask lists them. An RSA key may
 * have up to `most_bits` bits, and never more than SVID_MOST_RSA_BITS. Each verification by a long key costs more, so pass
 * SVID_USUAL_RSA_BITS unless your issuers have longer ones.
 *
 * SVID_NO_ALGORITHM; SVID_KEY_NOT_OBJECT to SVID_KEY_Y if the key can't be used with the algorithm: then it made no signature. This call does
 * not look whether a point is on its curve: your library does when it reads the key. If it refuses the key, the key made no signature. */
uint32_t svid_key_spki(const uint8_t *key, size_t key_len, const uint8_t *alg, size_t alg_len, size_t most_bits,
                       uint8_t *out, size_t out_len, svid_told *told);

/* Reads the entries of messages: those of all batches, in the order in which they stand there. Summaries have none. The entries are as the
 * messages have them: an entry may stand there twice, or have expired since.
 *
 * SVID_OK, and `told->len` is how many entries there are. SVID_TOO_SHORT if there are more than `out_len`: `told->len` says how many entries
 * `out` needs room for. A message has 65 bytes for each entry, and 64 in version 1, so `messages_len / 64` entries are always enough.
 * SVID_TOO_MUCH and SVID_MAGIC to SVID_TRUNCATED: the input is no row of messages. Unless the status is SVID_OK, `out` stays as it was. */
uint32_t svid_entries_read(const uint8_t *messages, size_t messages_len, svid_entry *out, size_t out_len, svid_told *told);

/* Writes entries as messages: one batch for each time `at` at which entries were made, and the times rise. A time with more than 65,536
 * entries has several batches. The entries may be in any order, and one that is given twice is written once. So the same entries make the
 * same bytes. No entries make no bytes. A batch has 17 bytes, and 65 for each entry, so 82 bytes for each entry are always enough. An entry
 * whose `withdrawn` is neither 0 nor 1 counts as withdrawn.
 *
 * SVID_USE_EXPIRED if an entry expires at its `at` or before it: no message can tell it. `told->offset` is the number of the first such entry,
 * counted from 0. SVID_TOO_SHORT and `told->len` as for any text. */
uint32_t svid_entries_write(const svid_entry *entries, size_t entries_len, uint8_t *out, size_t out_len, svid_told *told);

/* An input of messages is zero or more messages, one after the other. The call advances their record to `now`, in whole
 * seconds, and drops the uses that have expired by then. Pass 0 to leave the clock alone. */

/* What both inputs tell, as messages: the one text of that record, whatever order and number of messages it
 * came from. */
uint32_t svid_join(const uint8_t *a, size_t a_len, const uint8_t *b, size_t b_len, uint64_t now,
                   uint8_t *out, size_t out_len, svid_told *told);

/* What the messages tell, for people to read, as `svid report` prints it. */
uint32_t svid_report(const uint8_t *messages, size_t messages_len, uint64_t now,
                     uint8_t *out, size_t out_len, svid_told *told);

/* The summary of the messages' record: 8,205 bytes. */
uint32_t svid_summary(const uint8_t *messages, size_t messages_len, uint64_t now,
                      uint8_t *out, size_t out_len, svid_told *told);

/* The answer to a summary: the uses of all buckets whose digests differ, as batches, or one batch with no use if there are none. It is
 * of the record that the messages make, advanced to `now`, and then to the summary's moment. */
uint32_t svid_answer(const uint8_t *summary, size_t summary_len, const uint8_t *messages, size_t messages_len,
                     uint64_t now, uint8_t *out, size_t out_len, svid_told *told);

/* ---- Helpers ---- */

/* The name of a status, as "SVID_REPLAYED"; "SVID_?" for a number that is none. svid_status_name writes the same text. */
static inline const char *svid_strstatus(uint32_t status) {
    switch (status) {
    /* lists:begin names (written by tools/lists) */
    case SVID_OK: return "SVID_OK";
    case SVID_TOO_SHORT: return "SVID_TOO_SHORT";
    case SVID_NO_MEMORY: return "SVID_NO_MEMORY";
    case SVID_TOO_MUCH: return "SVID_TOO_MUCH";
    case SVID_NOT_SUMMARY: return "SVID_NOT_SUMMARY";
    case SVID_CLOSED: return "SVID_CLOSED";
    case SVID_IS_OPEN: return "SVID_IS_OPEN";
    case SVID_GONE: return "SVID_GONE";
    case SVID_TOO_FAR: return "SVID_TOO_FAR";
    case SVID_JUMP: return "SVID_JUMP";
    case SVID_HAS_LOG: return "SVID_HAS_LOG";
    case SVID_NO_LOG: return "SVID_NO_LOG";
    case SVID_MAGIC: return "SVID_MAGIC";
    case SVID_KIND: return "SVID_KIND";
    case SVID_COUNT: return "SVID_COUNT";
    case SVID_USE_KIND: return "SVID_USE_KIND";
    case SVID_USE_EXPIRED: return "SVID_USE_EXPIRED";
    case SVID_USE_FUTURE: return "SVID_USE_FUTURE";
    case SVID_USE_ORDER: return "SVID_USE_ORDER";
    case SVID_TRUNCATED: return "SVID_TRUNCATED";
    case SVID_ID_TOO_LONG: return "SVID_ID_TOO_LONG";
    case SVID_ID_SCHEME: return "SVID_ID_SCHEME";
    case SVID_ID_DOMAIN_EMPTY: return "SVID_ID_DOMAIN_EMPTY";
    case SVID_ID_DOMAIN_BYTE: return "SVID_ID_DOMAIN_BYTE";
    case SVID_ID_DOMAIN_LONG: return "SVID_ID_DOMAIN_LONG";
    case SVID_ID_SEGMENT_EMPTY: return "SVID_ID_SEGMENT_EMPTY";
    case SVID_ID_SEGMENT_DOTS: return "SVID_ID_SEGMENT_DOTS";
    case SVID_ID_PATH_BYTE: return "SVID_ID_PATH_BYTE";
    case SVID_BUNDLES_NOT_OBJECT: return "SVID_BUNDLES_NOT_OBJECT";
    case SVID_BUNDLES_DOMAIN: return "SVID_BUNDLES_DOMAIN";
    case SVID_BUNDLES_KEYS: return "SVID_BUNDLES_KEYS";
    case SVID_TABLE_LINE: return "SVID_TABLE_LINE";
    case SVID_OWN_NOT_UTF8: return "SVID_OWN_NOT_UTF8";
    case SVID_OWN_LENGTHS: return "SVID_OWN_LENGTHS";
    case SVID_BUNDLES_UNNAMED: return "SVID_BUNDLES_UNNAMED";
    case SVID_BUNDLES_TWICE: return "SVID_BUNDLES_TWICE";
    case SVID_BUNDLES_LENGTHS: return "SVID_BUNDLES_LENGTHS";
    case SVID_FOLDER_UNFIT: return "SVID_FOLDER_UNFIT";
    case SVID_FOLDER_ENDED: return "SVID_FOLDER_ENDED";
    case SVID_FOLDER_NOT_GROWING: return "SVID_FOLDER_NOT_GROWING";
    case SVID_FOLDER_BUSY: return "SVID_FOLDER_BUSY";
    case SVID_FOLDER_NOTHING_DUE: return "SVID_FOLDER_NOTHING_DUE";
    case SVID_FOLDER_FLYING: return "SVID_FOLDER_FLYING";
    case SVID_FOLDER_NOT_FLYING: return "SVID_FOLDER_NOT_FLYING";
    case SVID_FOLDER_NOT_WRITING: return "SVID_FOLDER_NOT_WRITING";
    case SVID_FOLDER_NO_MARK: return "SVID_FOLDER_NO_MARK";
    case SVID_FOLDER_TOO_LONG: return "SVID_FOLDER_TOO_LONG";
    case SVID_FOLDER_FULL: return "SVID_FOLDER_FULL";
    case SVID_FILE_END: return "SVID_FILE_END";
    case SVID_FILE_TEAR: return "SVID_FILE_TEAR";
    case SVID_FILE_DAMAGE: return "SVID_FILE_DAMAGE";
    case SVID_FILE_OTHER: return "SVID_FILE_OTHER";
    case SVID_CLAIM_WITHDRAWN: return "SVID_CLAIM_WITHDRAWN";
    case SVID_CLAIM_TAKEN: return "SVID_CLAIM_TAKEN";
    case SVID_CLAIM_FAR: return "SVID_CLAIM_FAR";
    case SVID_CLAIM_DEAF: return "SVID_CLAIM_DEAF";
    case SVID_CLAIM_EXPIRED: return "SVID_CLAIM_EXPIRED";
    case SVID_ENTRY_NOT_OBJECT: return "SVID_ENTRY_NOT_OBJECT";
    case SVID_ENTRY_NO_USE: return "SVID_ENTRY_NO_USE";
    case SVID_ENTRY_X509: return "SVID_ENTRY_X509";
    case SVID_ENTRY_USE: return "SVID_ENTRY_USE";
    case SVID_ENTRY_KID: return "SVID_ENTRY_KID";
    case SVID_ENTRY_KTY: return "SVID_ENTRY_KTY";
    case SVID_ENTRY_NUMBER: return "SVID_ENTRY_NUMBER";
    case SVID_ENTRY_TOO_LONG: return "SVID_ENTRY_TOO_LONG";
    case SVID_NO_ALGORITHM: return "SVID_NO_ALGORITHM";
    case SVID_KEY_NOT_OBJECT: return "SVID_KEY_NOT_OBJECT";
    case SVID_KEY_KTY: return "SVID_KEY_KTY";
    case SVID_KEY_ALG: return "SVID_KEY_ALG";
    case SVID_KEY_N: return "SVID_KEY_N";
    case SVID_KEY_BITS: return "SVID_KEY_BITS";
    case SVID_KEY_E: return "SVID_KEY_E";
    case SVID_KEY_CRV: return "SVID_KEY_CRV";
    case SVID_KEY_X: return "SVID_KEY_X";
    case SVID_KEY_Y: return "SVID_KEY_Y";
    case SVID_BEARER_ABSENT: return "SVID_BEARER_ABSENT";
    case SVID_BEARER_SEVERAL: return "SVID_BEARER_SEVERAL";
    case SVID_BEARER_SCHEME: return "SVID_BEARER_SCHEME";
    case SVID_BEARER_SPELLING: return "SVID_BEARER_SPELLING";
    case SVID_NOT_ALLOWED: return "SVID_NOT_ALLOWED";
    case SVID_PATTERN_TOO_LONG: return "SVID_PATTERN_TOO_LONG";
    case SVID_PATTERN_SCHEME: return "SVID_PATTERN_SCHEME";
    case SVID_PATTERN_DOMAIN_EMPTY: return "SVID_PATTERN_DOMAIN_EMPTY";
    case SVID_PATTERN_DOMAIN_BYTE: return "SVID_PATTERN_DOMAIN_BYTE";
    case SVID_PATTERN_DOMAIN_LONG: return "SVID_PATTERN_DOMAIN_LONG";
    case SVID_PATTERN_SEGMENT_EMPTY: return "SVID_PATTERN_SEGMENT_EMPTY";
    case SVID_PATTERN_SEGMENT_DOTS: return "SVID_PATTERN_SEGMENT_DOTS";
    case SVID_PATTERN_PATH_BYTE: return "SVID_PATTERN_PATH_BYTE";
    case SVID_NO_MEMBER: return "SVID_NO_MEMBER";
    case SVID_UNASKED: return "SVID_UNASKED";
    case SVID_NO_MODE: return "SVID_NO_MODE";
    case SVID_LATE: return "SVID_LATE";
    case SVID_NOT_KEPT: return "SVID_NOT_KEPT";
    case SVID_LEFT: return "SVID_LEFT";
    case SVID_ENDED: return "SVID_ENDED";
    case SVID_NO_BUNDLE: return "SVID_NO_BUNDLE";
    case SVID_LOADING: return "SVID_LOADING";
    case SVID_STORE_UNREACHED: return "SVID_STORE_UNREACHED";
    case SVID_WITHDRAWALS_UNREAD: return "SVID_WITHDRAWALS_UNREAD";
    case SVID_BROKER_UNREACHED: return "SVID_BROKER_UNREACHED";
    case SVID_GROUP_UNREAD: return "SVID_GROUP_UNREAD";
    case SVID_DRAINING: return "SVID_DRAINING";
    case SVID_JUMPED: return "SVID_JUMPED";
    case SVID_KEEPS_NOTHING: return "SVID_KEEPS_NOTHING";
    case SVID_STORE_AWAY: return "SVID_STORE_AWAY";
    case SVID_DEAF: return "SVID_DEAF";
    case SVID_TOO_LONG: return "SVID_TOO_LONG";
    case SVID_NOT_THREE_PARTS: return "SVID_NOT_THREE_PARTS";
    case SVID_HEADER_SPELLING: return "SVID_HEADER_SPELLING";
    case SVID_HEADER_NOT_OBJECT: return "SVID_HEADER_NOT_OBJECT";
    case SVID_CRIT: return "SVID_CRIT";
    case SVID_ALG: return "SVID_ALG";
    case SVID_TYP: return "SVID_TYP";
    case SVID_KID: return "SVID_KID";
    case SVID_PAYLOAD_SPELLING: return "SVID_PAYLOAD_SPELLING";
    case SVID_PAYLOAD_NOT_OBJECT: return "SVID_PAYLOAD_NOT_OBJECT";
    case SVID_SIGNATURE_SPELLING: return "SVID_SIGNATURE_SPELLING";
    case SVID_SUB: return "SVID_SUB";
    case SVID_AUD: return "SVID_AUD";
    case SVID_EXP: return "SVID_EXP";
    case SVID_NBF: return "SVID_NBF";
    case SVID_JTI: return "SVID_JTI";
    case SVID_NOT_AUDIENCE: return "SVID_NOT_AUDIENCE";
    case SVID_EXPIRED: return "SVID_EXPIRED";
    case SVID_NOT_YET: return "SVID_NOT_YET";
    case SVID_TOO_LONG_LIVED: return "SVID_TOO_LONG_LIVED";
    case SVID_UNKNOWN_DOMAIN: return "SVID_UNKNOWN_DOMAIN";
    case SVID_NO_KEY: return "SVID_NO_KEY";
    case SVID_BAD_SIGNATURE: return "SVID_BAD_SIGNATURE";
    case SVID_WITHDRAWN: return "SVID_WITHDRAWN";
    case SVID_REPLAYED: return "SVID_REPLAYED";
    /* lists:end */
    default: return "SVID_?";
    }
}

/* What a status says in words, as "The token was withdrawn.", and then what to do, where there is something to do; "No status has this
 * number." for a number that is none. The text is for people, and may change from version to version. svid_status_sentence writes the same. */
static inline const char *svid_strsentence(uint32_t status) {
    switch (status) {
    /* lists:begin sentences (written by tools/lists) */
    case SVID_OK: return "The answer is yes, or the call did what it is for.";
    case SVID_TOO_SHORT: return "The text is longer than the room.";
    case SVID_NO_MEMORY: return "There was no memory. Make the call again.";
    case SVID_TOO_MUCH: return "Bundles, a table or messages have more than 67,108,864 bytes. Give less at once.";
    case SVID_NOT_SUMMARY: return "The first input is messages, but not one summary. Give the summary of another validator.";
    case SVID_CLOSED: return "The validator, the bundles or the token is closed. Make a new one.";
    case SVID_IS_OPEN: return "The handle is open already.";
    case SVID_GONE: return "The token has expired, so that there is nothing to withdraw.";
    case SVID_TOO_FAR: return "A message's moment is more than ahead seconds past now. Set the clocks of both validators right.";
    case SVID_JUMP: return "now is more than step seconds past the record's moment. Set the clock right, or let a new validator take the record.";
    case SVID_HAS_LOG: return "The validator reads a log, which decides about its tokens. Put the use of a judgment into the log, and read it.";
    case SVID_NO_LOG: return "The validator reads no log. Let it read one.";
    case SVID_MAGIC: return "The first four bytes are those of no version.";
    case SVID_KIND: return "The fifth byte is that of no kind of message of the version.";
    case SVID_COUNT: return "A batch tells of too many uses.";
    case SVID_USE_KIND: return "The last byte of a use is neither 0 nor 1.";
    case SVID_USE_EXPIRED: return "A use expires at its batch's moment or before it.";
    case SVID_USE_FUTURE: return "A use was made after its batch's moment.";
    case SVID_USE_ORDER: return "A use is not greater than the one before it.";
    case SVID_TRUNCATED: return "The bytes end before the message does.";
    case SVID_ID_TOO_LONG: return "The ID has more than 2,048 bytes. Write an ID as spiffe://DOMAIN/PATH.";
    case SVID_ID_SCHEME: return "The ID does not begin with spiffe://. Write an ID as spiffe://DOMAIN/PATH.";
    case SVID_ID_DOMAIN_EMPTY: return "The trust domain name of the ID is empty. Write an ID as spiffe://DOMAIN/PATH.";
    case SVID_ID_DOMAIN_BYTE: return "The ID has a byte that may not stand in a trust domain name. Write an ID as spiffe://DOMAIN/PATH.";
    case SVID_ID_DOMAIN_LONG: return "The ID has a trust domain name of more than 255 bytes. Write an ID as spiffe://DOMAIN/PATH.";
    case SVID_ID_SEGMENT_EMPTY: return "The ID has an empty segment. Write an ID as spiffe://DOMAIN/PATH.";
    case SVID_ID_SEGMENT_DOTS: return "The ID has a segment that is one or two periods. Write an ID as spiffe://DOMAIN/PATH.";
    case SVID_ID_PATH_BYTE: return "The ID has a byte that may not stand in a path segment. Write an ID as spiffe://DOMAIN/PATH.";
    case SVID_BUNDLES_NOT_OBJECT: return "The bundles are no JSON object. Write one object that has a JWK Set under the name of each trust domain.";
    case SVID_BUNDLES_DOMAIN: return "A name of the bundles is no trust domain name. Correct that name, or take it out.";
    case SVID_BUNDLES_KEYS: return "A name of the bundles has no list of keys. Write a JWK Set under that name, or take it out.";
    case SVID_TABLE_LINE: return "A line of the table is neither empty nor a question.";
    case SVID_OWN_NOT_UTF8: return "An audience of the validator's own is not UTF-8.";
    case SVID_OWN_LENGTHS: return "The lengths of the audiences do not add up to the length of own.";
    case SVID_BUNDLES_UNNAMED: return "The document is the bundle of one trust domain, without its name. Name it.";
    case SVID_BUNDLES_TWICE: return "An earlier document has a bundle of this trust domain. Leave one of them out.";
    case SVID_BUNDLES_LENGTHS: return "The lengths of the documents do not add up to the length of bytes.";
    case SVID_FOLDER_UNFIT: return "The numbers are not those of a folder, or of the file that is read.";
    case SVID_FOLDER_ENDED: return "A sync failed. Mend the disk, and start the service again.";
    case SVID_FOLDER_NOT_GROWING: return "No journal grows yet. Make the calls that are due.";
    case SVID_FOLDER_BUSY: return "A call is due already. Make it first.";
    case SVID_FOLDER_NOTHING_DUE: return "No call is due.";
    case SVID_FOLDER_FLYING: return "A frame was handed out, and is not synced yet. Sync it first.";
    case SVID_FOLDER_NOT_FLYING: return "No frame was handed out.";
    case SVID_FOLDER_NOT_WRITING: return "No snapshot is being written.";
    case SVID_FOLDER_NO_MARK: return "The snapshot has no mark at its end. Put an empty piece after it.";
    case SVID_FOLDER_TOO_LONG: return "The payload has more than 16,777,215 bytes. Append less at once.";
    case SVID_FOLDER_FULL: return "A number of the folder has come to its end. Go on in a new folder, which takes the messages of this one.";
    case SVID_FILE_END: return "The end: nothing was written here.";
    case SVID_FILE_TEAR: return "A write was cut off: nobody was told that it is on the disk.";
    case SVID_FILE_DAMAGE: return "What was synced here has changed.";
    case SVID_FILE_OTHER: return "A frame of another format stands here.";
    case SVID_CLAIM_WITHDRAWN: return "The entry says that the token was withdrawn.";
    case SVID_CLAIM_TAKEN: return "The entry is another's, so the token was used.";
    case SVID_CLAIM_FAR: return "The token expires more than lasts seconds past the store's time. Set the store's clock right.";
    case SVID_CLAIM_DEAF: return "The token may have been claimed before the store lost entries. Present a token that was issued later.";
    case SVID_CLAIM_EXPIRED: return "The token has expired.";
    case SVID_ENTRY_NOT_OBJECT: return "The entry is no JSON object.";
    case SVID_ENTRY_NO_USE: return "The entry has no use, which must be \"jwt-svid\".";
    case SVID_ENTRY_X509: return "The entry is for X.509-SVIDs.";
    case SVID_ENTRY_USE: return "The entry's use is not \"jwt-svid\".";
    case SVID_ENTRY_KID: return "The entry's kid is not there, or no text.";
    case SVID_ENTRY_KTY: return "The entry's kty is neither RSA nor EC.";
    case SVID_ENTRY_NUMBER: return "A number in the entry is no whole number of 64 bits.";
    case SVID_ENTRY_TOO_LONG: return "The entry has more than 65,536 bytes as compact JSON.";
    case SVID_NO_ALGORITHM: return "The algorithm is none of RS256 to RS512, ES256 to ES512 and PS256 to PS512.";
    case SVID_KEY_NOT_OBJECT: return "The key is no JSON object.";
    case SVID_KEY_KTY: return "The key's kty is not the algorithm's: RSA for RS and PS, EC for ES.";
    case SVID_KEY_ALG: return "The key's alg is there, and is not the algorithm.";
    case SVID_KEY_N: return "The key's n is no odd number in as few bytes of base64url as hold it.";
    case SVID_KEY_BITS: return "The key's n has fewer than 2,048 bits, more than most_bits, or more than 16,384.";
    case SVID_KEY_E: return "The key's e is no odd number from 3 to 2^31-1 in as few bytes of base64url as hold it.";
    case SVID_KEY_CRV: return "The key's crv is not the algorithm's: P-256 for ES256, P-384 for ES384, P-521 for ES512.";
    case SVID_KEY_X: return "The key's x is not base64url of 32, 48 or 66 bytes, as the curve has it.";
    case SVID_KEY_Y: return "The key's y is not base64url of 32, 48 or 66 bytes, as the curve has it.";
    case SVID_BEARER_ABSENT: return "The request has no header field Authorization. Send one such field, with Bearer and one token.";
    case SVID_BEARER_SEVERAL: return "The request has more than one header field Authorization. Send one such field, with Bearer and one token.";
    case SVID_BEARER_SCHEME: return "The header field Authorization has another scheme than Bearer. Send one such field, with Bearer and one token.";
    case SVID_BEARER_SPELLING: return "In the header field Authorization, Bearer is not followed by one token. Send one such field, with Bearer and one token.";
    case SVID_NOT_ALLOWED: return "The pattern does not allow the ID.";
    case SVID_PATTERN_TOO_LONG: return "The ID in the pattern has more than 2,048 bytes. Write spiffe://DOMAIN/PATH for one ID, spiffe://DOMAIN/PATH/" "* for all below it, or spiffe://DOMAIN for all of a trust domain.";
    case SVID_PATTERN_SCHEME: return "The pattern does not begin with spiffe://. Write spiffe://DOMAIN/PATH for one ID, spiffe://DOMAIN/PATH/" "* for all below it, or spiffe://DOMAIN for all of a trust domain.";
    case SVID_PATTERN_DOMAIN_EMPTY: return "The trust domain name of the pattern is empty. Write spiffe://DOMAIN/PATH for one ID, spiffe://DOMAIN/PATH/" "* for all below it, or spiffe://DOMAIN for all of a trust domain.";
    case SVID_PATTERN_DOMAIN_BYTE: return "The pattern has a byte that may not stand in a trust domain name. Write spiffe://DOMAIN/PATH for one ID, spiffe://DOMAIN/PATH/" "* for all below it, or spiffe://DOMAIN for all of a trust domain.";
    case SVID_PATTERN_DOMAIN_LONG: return "The pattern has a trust domain name of more than 255 bytes. Write spiffe://DOMAIN/PATH for one ID, spiffe://DOMAIN/PATH/" "* for all below it, or spiffe://DOMAIN for all of a trust domain.";
    case SVID_PATTERN_SEGMENT_EMPTY: return "The pattern has an empty segment. Write spiffe://DOMAIN/PATH for one ID, spiffe://DOMAIN/PATH/" "* for all below it, or spiffe://DOMAIN for all of a trust domain.";
    case SVID_PATTERN_SEGMENT_DOTS: return "The pattern has a segment that is one or two periods. Write spiffe://DOMAIN/PATH for one ID, spiffe://DOMAIN/PATH/" "* for all below it, or spiffe://DOMAIN for all of a trust domain.";
    case SVID_PATTERN_PATH_BYTE: return "The pattern has a byte that may not stand in a path segment. Write spiffe://DOMAIN/PATH for one ID, spiffe://DOMAIN/PATH/" "* for all below it, or spiffe://DOMAIN for all of a trust domain.";
    case SVID_NO_MEMBER: return "The validator has no member. Open one.";
    case SVID_UNASKED: return "The request does not wait for that, or its time is over.";
    case SVID_NO_MODE: return "The number is none of a mode.";
    case SVID_LATE: return "The time of the request was over before it had an answer. Try again.";
    case SVID_NOT_KEPT: return "The state folder did not take the acceptance. Mend the disk.";
    case SVID_LEFT: return "Nobody waits for the answer any more.";
    case SVID_ENDED: return "The member has ended.";
    case SVID_NO_BUNDLE: return "There is no trust bundle.";
    case SVID_LOADING: return "The state folder is being read.";
    case SVID_STORE_UNREACHED: return "The group's store was not reached yet.";
    case SVID_WITHDRAWALS_UNREAD: return "The store's withdrawals are being read.";
    case SVID_BROKER_UNREACHED: return "The group's broker was not reached yet.";
    case SVID_GROUP_UNREAD: return "What the group had is being read.";
    case SVID_DRAINING: return "The member is to end soon.";
    case SVID_JUMPED: return "The clock went ahead too far at once. Set the clock right.";
    case SVID_KEEPS_NOTHING: return "The state folder takes no acceptance. Mend the disk.";
    case SVID_STORE_AWAY: return "The group's store does not answer, so no token can be claimed.";
    case SVID_DEAF: return "The store has lost entries, so no token is accepted that lives as long as it may.";
    case SVID_TOO_LONG: return "The token has more than 65,536 bytes.";
    case SVID_NOT_THREE_PARTS: return "The token has not exactly two periods.";
    case SVID_HEADER_SPELLING: return "The header is not base64url.";
    case SVID_HEADER_NOT_OBJECT: return "The header is no JSON object.";
    case SVID_CRIT: return "The header has a member crit.";
    case SVID_ALG: return "alg is none of the nine algorithms RS256 to RS512, ES256 to ES512 and PS256 to PS512.";
    case SVID_TYP: return "typ is there, and is neither \"JWT\" nor \"JOSE\".";
    case SVID_KID: return "kid is there, and is no string.";
    case SVID_PAYLOAD_SPELLING: return "The payload is not base64url.";
    case SVID_PAYLOAD_NOT_OBJECT: return "The payload is no JSON object.";
    case SVID_SIGNATURE_SPELLING: return "The signature is empty, or not base64url.";
    case SVID_SUB: return "sub is no SPIFFE ID.";
    case SVID_AUD: return "aud is neither a string nor a list of one or more strings.";
    case SVID_EXP: return "exp is no whole number from 0 to 2^64-1, written with digits alone.";
    case SVID_NBF: return "nbf is there, and is no whole number from 0 to 2^64-1.";
    case SVID_JTI: return "jti is there, and is no string.";
    case SVID_NOT_AUDIENCE: return "No value of aud is one of the validator's audiences.";
    case SVID_EXPIRED: return "The token has expired: exp is not greater than the record's moment.";
    case SVID_NOT_YET: return "The token is not valid yet: nbf is greater than the record's moment.";
    case SVID_TOO_LONG_LIVED: return "The token expires more than longest seconds past the record's moment.";
    case SVID_UNKNOWN_DOMAIN: return "The bundles have no trust domain of this name.";
    case SVID_NO_KEY: return "The trust domain has no key that fits alg and kid.";
    case SVID_BAD_SIGNATURE: return "No key among the first 3 that fit made the signature.";
    case SVID_WITHDRAWN: return "The token was withdrawn.";
    case SVID_REPLAYED: return "The token was accepted before, here or by a validator whose messages were taken.";
    /* lists:end */
    default: return "No status has this number.";
    }
}

/* Your verifier of signatures. More than 0 if the key `jwk`, as JSON, made the token's signature with the algorithm of this name. 0 is no, and so
 * is less: OpenSSL answers -1 of a signature that it can't read. */
typedef int (*svid_verify)(void *context, const uint8_t *alg, size_t alg_len, const uint8_t *jwk, size_t jwk_len,
                           const uint8_t *token, size_t token_len);

/* Reads a token, asks for its keys, and checks it, in one call: with `verify` for each of the first SVID_MOST_CANDIDATES keys that may have
 * signed the token, until one of them did; `context` is handed to it. `rows` is room for what svid_validator_ask_token writes: 65,536 bytes
 * do for most bundles and tokens. SVID_TOO_SHORT, and `told->len` is how long it must be, if it is too short; SVID_TOO_SHORT with
 * SVID_ID_ROOM, if `out` is. Then nothing happened. Else as svid_validator_check_token, or SVID_TOO_LONG to SVID_JTI, if the validator is open
 * and `now` is no jump: then the record was advanced to `now` too. Hold the lock for the whole call. */
static inline uint32_t svid_validator_verify(svid_validator *v, uint64_t now, const uint8_t *token, size_t token_len,
                                             svid_verify verify, void *context, uint8_t *rows, size_t rows_len,
                                             uint8_t *out, size_t out_len, svid_use *used, svid_told *told) {
    const uint8_t *field[2], *key = NULL, *signature = NULL;
    size_t at = 4, end, len[2], key_len = 0, signature_len = 0, input_len = 0, n;
    svid_token read = SVID_TOKEN_CLOSED;
    uint32_t status = svid_token_open(&read, token, token_len, told), ticked;
    if (status >= SVID_TOO_LONG) return (ticked = svid_validator_tick(v, now, told)) == SVID_OK ? status : ticked;
    if (status == SVID_OK) status = svid_validator_ask_token(v, &read, SVID_MOST_CANDIDATES, rows, rows_len, told);
    if (status != SVID_OK && status < SVID_TOO_LONG) {
        svid_token_close(&read);
        return status;
    }
    /* Where no key may have signed the token, the check answers the first refusal that holds, which may be another. */
    end = status == SVID_OK ? told->len : 0;
    if (end > 0) input_len = (size_t)rows[0] << 24 | (size_t)rows[1] << 16 | (size_t)rows[2] << 8 | rows[3];
    /* The first field is the signature. Behind it, each two are an algorithm and a key. */
    for (n = 0; at < end && key == NULL; n++) {
        len[n % 2] = (size_t)rows[at] << 24 | (size_t)rows[at + 1] << 16 | (size_t)rows[at + 2] << 8 | rows[at + 3];
        field[n % 2] = rows + at + 4;
        at += 4 + len[n % 2];
        if (n == 0) signature = field[0], signature_len = len[0];
        if (n == 0 || n % 2 == 1) continue;
        if (verify(context, field[1], len[1], field[0], len[0], token, token_len) <= 0) continue;
        key = field[0], key_len = len[0];
    }
    status = svid_validator_check_token(v, now, key, key_len, token, input_len, signature, signature_len, &read, out, out_len, used, told);
    svid_token_close(&read);
    return status;
}

/* Writes a use that a call told as a message: a batch of that one use, of SVID_BATCH_OF_LEN bytes. */
static inline void svid_batch_of(const svid_use *used, uint8_t out[SVID_BATCH_OF_LEN]) {
    static const uint8_t head[5] = { 0x4a, 0x53, 0x52, 2, 1 };
    int i;
    for (i = 0; i < 5; i++) out[i] = head[i];
    for (i = 0; i < 8; i++) out[5 + i] = (uint8_t)(used->at >> (56 - 8 * i));
    for (i = 0; i < 4; i++) out[13 + i] = i == 3;
    for (i = 0; i < 8; i++) out[17 + i] = (uint8_t)(used->exp >> (56 - 8 * i));
    for (i = 0; i < 32; i++) out[25 + i] = used->key[i];
    for (i = 0; i < 16; i++) out[57 + i] = used->validator_id[i];
    for (i = 0; i < 8; i++) out[73 + i] = (uint8_t)(used->at >> (56 - 8 * i));
    out[81] = 0;
}

#ifdef __cplusplus
}
#endif
#endif
