/* Calls a member that C keeps: svid_member_*, svid_withdrawal_* and svid_pacing_* of svid.h. Runs in the folder examples/. (walks.c has what they answer)
 *
 *   members refused    each call with each of its allocations refused in turn; linked with --wrap for malloc, realloc and free
 *   members guarded    all that a call is lent between pages that can't be touched, right before the one and right behind the other
 *   members nulls      NULL for each input of no bytes, and for a room of none: the answer is that of another pointer
 *   members threads    eight threads under a lock: each token is accepted once, each request has one answer
 *   members stack      each call on a painted stack, which tells how much of it the call needs
 *   members times      prints how long the longest call takes, with 1,000,000 uses and 1,000 open requests; it fails for no time */
#include "harness.h"
#include <time.h>

STANDS_AT(svid_member_terms, mode, 0); STANDS_AT(svid_member_terms, disk, 8); STANDS_AT(svid_member_terms, store, 16); STANDS_AT(svid_member_terms, log, 24);
STANDS_AT(svid_member_terms, wait, 32); STANDS_AT(svid_member_terms, ahead, 40); STANDS_AT(svid_member_terms, lasts, 48); STANDS_AT(svid_member_terms, life, 56);
STANDS_AT(svid_known, bundled, 0); STANDS_AT(svid_known, loaded, 8); STANDS_AT(svid_known, opened, 16); STANDS_AT(svid_known, heard, 24); STANDS_AT(svid_known, joined, 32);
STANDS_AT(svid_known, caught_up, 40); STANDS_AT(svid_known, draining, 48); STANDS_AT(svid_known, jumped, 56); STANDS_AT(svid_known, full, 64); STANDS_AT(svid_known, away, 72);
STANDS_AT(svid_known, deaf, 80); STANDS_AT(svid_known, ended, 88);
STANDS_AT(svid_deed, what, 0); STANDS_AT(svid_deed, number, 8); STANDS_AT(svid_deed, status, 16); STANDS_AT(svid_deed, next, 24); STANDS_AT(svid_deed, used, 32);
STANDS_AT(svid_found, time, 0); STANDS_AT(svid_found, deaf, 8); STANDS_AT(svid_found, owner, 16); STANDS_AT(svid_deadline, at, 0);
STANDS_AT(svid_known_claim, exp, 0); STANDS_AT(svid_known_claim, key, 8); STANDS_AT(svid_known_claim, found, 40);
STANDS_AT(svid_withdrawal, number, 0); STANDS_AT(svid_withdrawal, disk, 8); STANDS_AT(svid_withdrawal, store, 16); STANDS_AT(svid_withdrawal, log, 24);
STANDS_AT(svid_pacing, calls, 0); STANDS_AT(svid_pacing, at, 8); STANDS_AT(svid_pacing, pause, 16);
_Static_assert(sizeof(svid_member_terms) == 72 && sizeof(svid_known) == 96 && sizeof(svid_deed) == 96 && sizeof(svid_found) == 48 && sizeof(svid_known_claim) == 88, "sizes");
_Static_assert(sizeof(svid_deadline) == 8 && sizeof(svid_withdrawal) == 32 && sizeof(svid_pacing) == 24, "sizes");

/* When a request comes, by the clock of `up`, and how long it waits; and how far a store may be ahead, and how long past its time a token may expire. */
enum { UP = 1000, WAIT = 100, AHEAD = 10, LASTS = 400 };
#define NONE UINT64_MAX
#define EXP (NOW + 300)

/* Tokens that are good, but for OTHERS, which is for another audience. FAR expires too long after the store's time. */
enum { FIRST, SECOND, GUEST, OTHERS, FAR, CARDS };
static const char *const SUBJECTS[] = { "spiffe://example.org/billing/api", "spiffe://example.org/billing/api", "spiffe://example.org/guest", "spiffe://example.org/billing/api", "spiffe://example.org/billing/api" };
typedef struct { uint8_t text[512]; size_t len, input_len; svid_key key; uint64_t exp; } card;
static card cards[CARDS];

static void write_card(card *c, const char *sub, const char *aud, uint64_t exp, int jti) {
    static const char header[] = "{\"alg\":\"ES256\",\"kid\":\"ec-1\"}";
    char payload[256];
    uint8_t texts[512];
    size_t lens[8];
    svid_said said;
    svid_told told;
    token_len = 0;
    add_part(header, sizeof header - 1);
    add_part(payload, (size_t)snprintf(payload, sizeof payload, "{\"sub\":\"%s\",\"aud\":\"%s\",\"exp\":%llu,\"jti\":\"%d\"}", sub, aud, (unsigned long long)exp, jti));
    c->input_len = token_len;
    add_part("sig", 3);
    holds(token_len <= sizeof c->text, "a card has room");
    memcpy(c->text, token, c->len = token_len);
    answered = svid_token_says(c->text, c->len, &said, lens, COUNT(lens), texts, sizeof texts, &told);
    holds(answered == SVID_OK && said.exp == exp, "what a card says");
    c->exp = exp;
    memcpy(c->key.bytes, said.key, sizeof said.key);
}

/* The key that may have made the signature of each card. (a validator trusts who verified it) */
static uint8_t jwk[FILE_MOST];
static size_t jwk_len;


static void open_card(svid_token *t, const card *c) {
    static const svid_token closed = SVID_TOKEN_CLOSED;
    svid_told told;
    *t = closed;
    holds(svid_token_open(t, c->text, c->len, &told) == SVID_OK, "a card does not open");
}

/* A validator with the ID of this first byte. */
static void open_validator(svid_validator *v, uint8_t id) {
    static const svid_validator closed = SVID_VALIDATOR_CLOSED;
    svid_terms terms = TERMS;
    svid_told told;
    *v = closed;
    memset(terms.validator_id, 0, sizeof terms.validator_id);
    terms.validator_id[0] = id;
    answered = svid_validator_open(v, &terms, (const uint8_t *)"ledger", 6, bundles, bundles_len, &told);
    holds(answered == SVID_OK, "a validator does not open");
}

static void find_key(void) {
    static uint8_t rows[8192];
    svid_validator v;
    svid_token t;
    svid_told told;
    at = "the key of the examples";
    open_validator(&v, 1);
    open_card(&t, &cards[FIRST]);
    answered = svid_validator_ask_token(&v, &t, 1, rows, sizeof rows, &told);
    holds(answered == SVID_OK, "no key");
    const uint8_t *row = rows + 8 + number_at(rows + 4);
    row += 4 + number_at(row);
    memcpy(jwk, row + 4, jwk_len = number_at(row));
    svid_token_close(&t);
    svid_validator_close(&v);
}

static void write_cards(void) {
    at = "the cards";
    for (int i = 0; i < CARDS; i++) write_card(&cards[i], SUBJECTS[i], i == OTHERS ? "others" : "ledger", i == FAR ? NOW + LASTS + 1 : EXP, i);
    find_key();
}

/* ---- Calls, by what they are lent ---- */

enum {
    OPEN, KNOW, JUDGES, READY, COME, JUDGE, WROTE, SEND, FOUND, ASK, LEAVE, OVERDUE, DUE, RULES, WITHDRAWAL_COME, WITHDRAWAL_TOLD, WITHDRAWAL_OVERDUE,
    MAY_SEND, PACING_DUE, SENT, ANSWERED, UNANSWERED
};

/* What a call wrote: its status, and all that it may write. */
typedef struct { uint32_t status; svid_deed deed; svid_use used; svid_told told; svid_deadline due; svid_withdrawal made; svid_pacing pacing; uint8_t out[SVID_ID_ROOM + 8]; } answer;

/* What a call is lent: inputs with their lengths in bytes, numbers, and structures and a room that it may write. */
enum { KEY, INPUT, SIGNATURE, OWN, CALLERS, INPUTS };
typedef struct { const void *bytes; size_t len; } input;
typedef struct {
    svid_validator *v;
    uint64_t now, up, number, ok, target, all, waiting;
    input in[INPUTS];
    const svid_member_terms *terms;
    const svid_known *known;
    const uint8_t *caller;
    const svid_found *found;
    const svid_known_claim *claim;
    svid_token *t;
    uint8_t *out; size_t room;
    svid_use *used; svid_deed *deed; svid_told *told; svid_deadline *due; svid_withdrawal *made; svid_pacing *pacing;
} loan;

static const svid_known GOOD = { 1, 1, 1, 1, 1, 1, 0, 0, 0, 0, 0, 0 };
static const svid_known_claim NO_CLAIM;
static const uint8_t OWNER_ONE[32] = { 1 }, OWNER_TWO[32] = { 2 };

static loan lent(svid_validator *v, answer *a) {
    loan l = { v, NOW, UP, 0, 1, SVID_AT_DISK, 0, 1, { { jwk, jwk_len }, { NULL, 0 }, { "sig", 3 }, { "ledger\n\nthird", 13 }, { "spiffe://example.org\n\nspiffe://example.org/billing/" "*", 49 } },
               NULL, &GOOD, OWNER_ONE, NULL, &NO_CLAIM, NULL, a->out, sizeof a->out, &a->used, &a->deed, &a->told, &a->due, &a->made, &a->pacing };
    return l;
}

static void with_card(loan *l, const card *c, svid_token *t) { l->in[INPUT].bytes = c->text, l->in[INPUT].len = c->input_len, l->t = t; }

static uint32_t call_with(int which, const loan *l) {
    const input *in = l->in;
    switch (which) {
    case OPEN: return svid_member_open(l->v, l->terms);
    case KNOW: return svid_member_know(l->v, l->known);
    case JUDGES: return svid_member_judges(l->v);
    case READY: return svid_member_ready(l->v);
    case COME: return svid_member_come(l->v, l->up, l->deed);
    case JUDGE: return svid_member_judge(l->v, l->now, l->up, l->number, in[KEY].bytes, in[KEY].len, in[INPUT].bytes, in[INPUT].len, in[SIGNATURE].bytes, in[SIGNATURE].len, l->t, l->out, l->room, l->used, l->deed, l->told);
    case WROTE: return svid_member_wrote(l->v, l->up, l->number, l->ok, l->deed);
    case SEND: return svid_member_send(l->v, l->up, l->number, l->deed);
    case FOUND: return svid_member_found(l->v, l->now, l->up, l->number, l->caller, l->found, in[KEY].bytes, in[KEY].len, in[INPUT].bytes, in[INPUT].len, in[SIGNATURE].bytes, in[SIGNATURE].len, l->t, l->out, l->room, l->used, l->deed, l->told);
    case ASK: return svid_member_ask(l->v, l->now, l->up, l->caller, l->claim, in[KEY].bytes, in[KEY].len, in[INPUT].bytes, in[INPUT].len, in[SIGNATURE].bytes, in[SIGNATURE].len, l->t, l->out, l->room, l->used, l->deed, l->told);
    case LEAVE: return svid_member_leave(l->v, l->up, l->number, l->deed);
    case OVERDUE: return svid_member_overdue(l->v, l->up, l->deed);
    case DUE: return svid_member_due(l->v, l->due);
    case RULES: return svid_member_rules(l->v, in[OWN].bytes, in[OWN].len, l->all, in[CALLERS].bytes, in[CALLERS].len);
    case WITHDRAWAL_COME: return svid_withdrawal_come(l->v, l->up, l->made);
    case WITHDRAWAL_TOLD: return svid_withdrawal_told(l->v, l->number, l->target, l->ok, l->made);
    case WITHDRAWAL_OVERDUE: return svid_withdrawal_overdue(l->v, l->up, l->made);
    case MAY_SEND: return svid_pacing_may_send(l->pacing, l->up, l->waiting);
    case PACING_DUE: l->due->at = svid_pacing_due(l->pacing); return 0;
    case SENT: svid_pacing_sent(l->pacing, l->up); return 0;
    case ANSWERED: svid_pacing_answered(l->pacing); return 0;
    default: l->due->at = svid_pacing_unanswered(l->pacing); return 0;
    }
}

static void clear(answer *a) {
    static const svid_pacing first = SVID_PACING_FIRST;
    memset(a, 0, sizeof *a);
    memset(a->out, 0xA5, sizeof a->out);
    memset(&a->deed, 0x5A, sizeof a->deed);
    memset(&a->used, 0x5A, sizeof a->used);
    memset(&a->due, 0x5A, sizeof a->due);
    memset(&a->made, 0x5A, sizeof a->made);
    a->pacing = first;
}

static int tells_nothing(const svid_told *told) { return !told->len && !told->input && !told->message && !told->offset && !told->more; }

/* The record of a validator, as messages. */
static size_t record(svid_validator *v, uint8_t *out, size_t room) {
    svid_told told;
    holds(svid_validator_tell(v, out, room, &told) == SVID_OK, "the record is not told");
    return told.len;
}

static svid_member_terms terms_of(uint64_t mode, uint64_t disk, uint8_t life) {
    svid_member_terms terms = { mode, disk, 1, 1, WAIT, AHEAD, LASTS, { life } };
    return terms;
}

/* A member that judges, with the validator ID and the life of these first bytes. */
static void join(svid_validator *v, uint8_t id, uint8_t life, uint64_t mode, uint64_t disk) {
    svid_member_terms terms = terms_of(mode, disk, life);
    open_validator(v, id);
    answered = svid_member_open(v, &terms);
    holds(answered == SVID_OK, "a member does not open");
    answered = svid_member_know(v, &GOOD);
    holds(answered == SVID_OK && svid_member_judges(v) == SVID_OK && svid_member_ready(v) == SVID_OK, "a member is not ready");
}

/* The deeds of svid.h: this one, and an answer that refuses. */
static svid_deed deed_of(uint64_t what, uint64_t number, uint64_t status, uint64_t next, const svid_use *used) {
    svid_deed deed = { what, number, status, next, { 0, 0, { 0 }, { 0 } } };
    if (used) deed.used = *used;
    return deed;
}
static svid_deed refusal(uint64_t number, uint64_t status, uint64_t next) { return deed_of(SVID_DEED_ANSWER, number, status, next, NULL); }

/* How many uses the record of a validator has. */
static size_t uses_of(svid_validator *v) {
    svid_size size;
    svid_told told;
    holds(svid_validator_size(v, &size, &told) == SVID_OK, "how large a record is");
    return size.uses;
}

/* A store: what each key has, its time, and up to which expiry it may have lost entries. */
typedef struct { uint64_t time, deaf; size_t count, puts; struct { uint8_t key[32], owner[32]; } entries[64]; } store;

static svid_found put(store *s, const uint8_t key[32], const uint8_t owner[32]) {
    svid_found f = { s->time, s->deaf, { 0 } };
    size_t i = 0;
    s->puts++;
    while (i < s->count && memcmp(s->entries[i].key, key, 32)) i++;
    if (i == s->count) {
        holds(i < COUNT(s->entries), "the store is full");
        memcpy(s->entries[i].key, key, 32), memcpy(s->entries[i].owner, owner, 32), s->count++;
    }
    memcpy(f.owner, s->entries[i].owner, 32);
    return f;
}

/* Puts the claim of a use for a life. */
static svid_found put_of_life(store *s, const svid_use *used, uint8_t life) {
    uint8_t lives[16] = { life }, owner[32];
    svid_claim_owner(used->validator_id, lives, used->exp, owner);
    return put(s, used->key, owner);
}

/* ---- One call, of a member that is so far ---- */

/* How far the member is before the call. */
enum {
    WITHOUT,       /* the validator has no member */
    IDLE,          /* it has no requests */
    MANY,          /* 135 others have come, so that a table has to grow in several steps */
    CAME,          /* the request 0 has come */
    GUESTS,        /* the same, and its caller may not call */
    CLAIMING,      /* the request 0 claims the first card, or is written */
    BEHIND,        /* and the request 1 has come, with the same token */
    LINE,          /* and waits in the line */
    TURN,          /* and 0 has left: its turn has come */
    WITHDRAWING    /* a withdrawal has come */
};
enum { MINE, TAKEN, GONE };
typedef struct { const char *name; int which; uint64_t mode; int stage; uint64_t number; int entry; } scene;
static const scene SCENES[] = {
    { "svid_member_open", OPEN, SVID_ONCE, WITHOUT, 0, 0 },
    { "svid_member_know", KNOW, SVID_ONCE, IDLE, 0, 0 },
    { "svid_member_judges", JUDGES, SVID_ONCE, IDLE, 0, 0 },
    { "svid_member_ready", READY, SVID_ONCE, IDLE, 0, 0 },
    { "svid_member_come", COME, SVID_ONCE, IDLE, 0, 0 },
    { "svid_member_come among others", COME, SVID_STRICT, MANY, 0, 0 },
    { "svid_member_judge, once", JUDGE, SVID_ONCE, CAME, 0, 0 },
    { "svid_member_judge, strict", JUDGE, SVID_STRICT, CAME, 0, 0 },
    { "svid_member_judge, bound", JUDGE, SVID_BOUND, CAME, 0, 0 },
    { "svid_member_judge, reuse", JUDGE, SVID_REUSE, CAME, 0, 0 },
    { "svid_member_judge, a guest", JUDGE, SVID_ONCE, GUESTS, 0, 0 },
    { "svid_member_judge, in a line", JUDGE, SVID_STRICT, BEHIND, 1, 0 },
    { "svid_member_judge, again", JUDGE, SVID_STRICT, TURN, 1, 0 },
    { "svid_member_wrote", WROTE, SVID_ONCE, CLAIMING, 0, 0 },
    { "svid_member_send", SEND, SVID_STRICT, CLAIMING, 0, 0 },
    { "svid_member_found, strict", FOUND, SVID_STRICT, LINE, 0, MINE },
    { "svid_member_found, bound", FOUND, SVID_BOUND, LINE, 0, MINE },
    { "svid_member_found, taken", FOUND, SVID_STRICT, LINE, 0, TAKEN },
    { "svid_member_found, withdrawn", FOUND, SVID_STRICT, LINE, 0, GONE },
    { "svid_member_leave", LEAVE, SVID_STRICT, LINE, 0, 0 },
    { "svid_member_overdue", OVERDUE, SVID_STRICT, LINE, 0, 0 },
    { "svid_member_due", DUE, SVID_STRICT, LINE, 0, 0 },
    { "svid_member_rules", RULES, SVID_ONCE, IDLE, 0, 0 },
    { "svid_withdrawal_come", WITHDRAWAL_COME, SVID_ONCE, IDLE, 0, 0 },
    { "svid_withdrawal_told", WITHDRAWAL_TOLD, SVID_ONCE, WITHDRAWING, 0, 0 },
    { "svid_withdrawal_overdue", WITHDRAWAL_OVERDUE, SVID_ONCE, WITHDRAWING, 0, 0 },
    { "svid_pacing_may_send", MAY_SEND, SVID_ONCE, IDLE, 0, 0 },
    { "svid_pacing_due", PACING_DUE, SVID_ONCE, IDLE, 0, 0 },
    { "svid_pacing_sent", SENT, SVID_ONCE, IDLE, 0, 0 },
    { "svid_pacing_answered", ANSWERED, SVID_ONCE, IDLE, 0, 0 },
    { "svid_pacing_unanswered", UNANSWERED, SVID_ONCE, IDLE, 0, 0 },
};

/* What the store answers in a scene. */
static svid_found entry_of(const scene *s) {
    svid_found f = { NOW, 0, { 0 } };
    uint8_t id[16] = { 1 }, life[16] = { 1 };
    if (s->entry == TAKEN) memcpy(f.owner, OWNER_TWO, 32);
    else if (s->entry == MINE && s->mode == SVID_BOUND) svid_claim_owner_of_caller(OWNER_ONE, EXP, f.owner);
    else if (s->entry == MINE) svid_claim_owner(id, life, EXP, f.owner);
    return f;
}

/* A loan with which the call of a scene does what it is for. (`f` and `terms` are what it points to) */
static loan loan_of(const scene *s, svid_validator *v, svid_token *t, answer *a, svid_found *f, svid_member_terms *terms) {
    loan l = lent(v, a);
    *f = entry_of(s), *terms = terms_of(s->mode, 1, 1);
    with_card(&l, &cards[FIRST], t);
    l.terms = terms, l.found = f, l.number = s->number;
    if (s->which == OVERDUE || s->which == WITHDRAWAL_OVERDUE) l.up = UP + WAIT;
    return l;
}

static void begin(const scene *s, svid_validator *v, svid_token *t) {
    static answer a;
    svid_withdrawal made;
    at = s->name;
    open_card(t, &cards[FIRST]);
    if (s->stage == WITHOUT) { open_validator(v, 1); return; }
    join(v, 1, 1, s->mode, 1);
    loan l = lent(v, &a);
    with_card(&l, &cards[FIRST], t);
    if (s->stage == MANY) for (int n = 0; n < 135; n++) holds(svid_member_come(v, UP, &a.deed) == SVID_OK, "another one");
    if (s->stage == GUESTS) holds(svid_member_rules(v, (const uint8_t *)"ledger", 6, 0, NULL, 0) == SVID_OK, "rules");
    for (l.number = 0; l.number <= (uint64_t)(s->stage >= BEHIND) && s->stage >= CAME && s->stage < WITHDRAWING; l.number++) {
        holds(call_with(COME, &l) == SVID_OK && a.deed.what == SVID_DEED_JUDGE && a.deed.number == l.number, "a request");
        if (s->stage >= (l.number ? LINE : CLAIMING)) holds(call_with(JUDGE, &l) == SVID_OK, "it is judged");
    }
    l.number = 0;
    if (s->stage == TURN) holds(call_with(LEAVE, &l) == SVID_OK && a.deed.next == 1, "it leaves");
    if (s->stage == WITHDRAWING) {
        for (uint64_t target = SVID_AT_DISK; target <= SVID_AT_LOG; target++) {
            if (target == SVID_AT_DISK) answered = svid_withdrawal_come(v, UP, &made);
            else answered = svid_withdrawal_told(v, 0, target, 1, &made);
            holds(answered == SVID_OK, "a withdrawal");
        }
    }
}

static void end(svid_validator *v, svid_token *t) { svid_token_close(t); svid_validator_close(v); }

/* Another request comes so far as that of the scene was, whose answer was that there is no memory. Answers its number. */
static uint64_t come_again(const scene *s, svid_validator *v, svid_token *t) {
    static answer a;
    loan l = lent(v, &a);
    with_card(&l, &cards[FIRST], t);
    holds(call_with(COME, &l) == SVID_OK && a.deed.what == SVID_DEED_JUDGE, "another request");
    l.number = a.deed.number;
    if (s->which == FOUND) holds(call_with(JUDGE, &l) == SVID_OK, "it is judged");
    return l.number;
}

static int same_but_number(const answer *a, const answer *b, uint64_t from, uint64_t to) {
    answer c = *a;
    if (c.deed.what && c.deed.number == from) c.deed.number = to;
    return !memcmp(&c, b, sizeof c);
}

static void refused(void) {
    static answer want, made, none;
    static uint8_t before[512], after[512], want_record[512];
    long tried = 0, lost = 0;
    for (size_t i = 0; i < COUNT(SCENES); i++) {
        const scene *s = &SCENES[i];
        svid_validator v;
        svid_token t;
        svid_found f;
        svid_member_terms terms;
        refused_at = 0;
        begin(s, &v, &t);
        size_t before_len = record(&v, before, sizeof before);
        clear(&want);
        clear(&none);
        loan l = loan_of(s, &v, &t, &want, &f, &terms);
        asked = 0;
        answered = want.status = call_with(s->which, &l);
        long all = asked;
        holds(s->which != OPEN || all == 0, "svid_member_open takes memory");
        holds(s->which < MAY_SEND || all == 0, "pacing takes memory");
        size_t want_len = record(&v, want_record, sizeof want_record);
        end(&v, &t);
        holds(standing == 0, "memory is held after close");
        for (long n = 1; n <= all; n++) {
            tried++;
            begin(s, &v, &t);
            clear(&made);
            l = loan_of(s, &v, &t, &made, &f, &terms);
            asked = 0;
            refused_at = n;
            answered = made.status = call_with(s->which, &l);
            refused_at = 0;
            int is_answered = made.deed.what == SVID_DEED_ANSWER && made.deed.status == SVID_NO_MEMORY;
            size_t len = record(&v, after, sizeof after);
            uint64_t number = s->number;
            if (s->which == JUDGE || s->which == FOUND) holds(made.status != SVID_NO_MEMORY || is_answered, "want of memory is no answer");
            if (made.status == SVID_NO_MEMORY || is_answered) {
                holds(len == before_len && !memcmp(after + 13, before + 13, len - 13), "want of memory changes the record");
                if (made.status == SVID_NO_MEMORY) {
                    svid_deed no_memory = refusal(s->number, SVID_NO_MEMORY, want.deed.next);
                    holds(tells_nothing(&made.told) && !memcmp(made.out, none.out, sizeof none.out) && !memcmp(&made.used, &none.used, sizeof none.used) && !memcmp(&made.made, &none.made, sizeof none.made), "want of memory writes");
                    if (is_answered && s->which == FOUND) no_memory.next = s->number + 1;
                    holds(!memcmp(&made.deed, is_answered ? &no_memory : &none.deed, sizeof made.deed), "the deed of want of memory");
                }
                /* (who waited for the request has its turn: it leaves, so that all is as it was) */
                if (is_answered && made.deed.next != NONE) holds(svid_member_leave(&v, UP, made.deed.next, &made.deed) == SVID_OK && made.deed.status == SVID_LEFT, "the next one leaves");
                clear(&made);
                if (is_answered) l.number = number = come_again(s, &v, &t);
                answered = made.status = call_with(s->which, &l);
                if (want.deed.what == SVID_DEED_ANSWER && s->which == FOUND) made.deed.next = want.deed.next;
            } else if (s->entry == GONE && len == before_len) {
                /* (the withdrawal that the store told of is lost, until the store tells of it again) */
                lost++;
                holds(same_but_number(&made, &want, number, s->number), "a withdrawal that is lost");
                holds(svid_member_leave(&v, UP, 1, &made.deed) == SVID_OK, "the next one leaves");
                clear(&made);
                l.number = number = come_again(s, &v, &t);
                answered = made.status = call_with(s->which, &l);
                made.deed.next = want.deed.next;
            }
            holds(same_but_number(&made, &want, number, s->number), "the answer differs");
            holds(record(&v, after, sizeof after) == want_len && !memcmp(after, want_record, want_len), "the record differs");
            end(&v, &t);
            holds(standing == 0, "memory is held after close");
        }
        fprintf(stderr, "%-32s %ld allocations\n", s->name, all);
    }
    holds(lost > 0, "no withdrawal was lost");
    printf("%ld allocations refused", tried);
}

/* (the pages are given back at the end of the process) */
static void guarded(void) {
    static answer want, made;
    static const size_t rooms[] = { 0, SVID_ID_ROOM - 1, SVID_ID_ROOM, sizeof want.out };
    for (size_t turn = 0; turn < 2 * COUNT(SCENES); turn++) {
        const scene *s = &SCENES[turn / 2];
        int first = turn % 2;
        for (size_t i = 0; i < COUNT(rooms); i++) {
            svid_validator v, w;
            svid_token t, u;
            svid_found f;
            svid_member_terms terms;
            begin(s, &v, &t);
            begin(s, &w, &u);
            clear(&want);
            loan plain = loan_of(s, &v, &t, &want, &f, &terms);
            plain.room = rooms[i];
            want.status = call_with(s->which, &plain);
            clear(&made);
            loan l = loan_of(s, &w, &u, &made, &f, &terms);
            for (int k = 0; k < INPUTS; k++) l.in[k].bytes = between(l.in[k].bytes, l.in[k].len, first);
            l.v = between(&w, sizeof w, first);
            l.t = between(&u, sizeof u, first);
            l.terms = between(&terms, sizeof terms, first);
            l.known = between(&GOOD, sizeof GOOD, first);
            l.caller = between(OWNER_ONE, sizeof OWNER_ONE, first);
            l.found = between(&f, sizeof f, first);
            l.out = between(made.out, rooms[i], first);
            l.room = rooms[i];
            l.used = between(&made.used, sizeof made.used, first);
            l.deed = between(&made.deed, sizeof made.deed, first);
            l.told = between(&made.told, sizeof made.told, first);
            l.due = between(&made.due, sizeof made.due, first);
            l.made = between(&made.made, sizeof made.made, first);
            l.pacing = between(&made.pacing, sizeof made.pacing, first);
            answered = made.status = call_with(s->which, &l);
            w = *l.v, u = *l.t;
            memcpy(made.out, l.out, rooms[i]);
            made.used = *l.used, made.deed = *l.deed, made.told = *l.told, made.due = *l.due, made.made = *l.made, made.pacing = *l.pacing;
            holds(!memcmp(&made, &want, sizeof made), "the answer differs");
            end(&v, &t);
            end(&w, &u);
        }
    }
    printf("%zu calls in %zu rooms between pages that can't be touched", COUNT(SCENES), COUNT(rooms));
}

/* Both are the same call, but for one input or room of no bytes. */
static void nulls(void) {
    static answer want, made;
    static const uint8_t empty[1];
    answer *both[] = { &want, &made };
    for (size_t scene_of = 0; scene_of < COUNT(SCENES); scene_of++) {
        const scene *s = &SCENES[scene_of];
        for (int input_of = 0; input_of <= INPUTS; input_of++) {
            for (int i = 0; i < 2; i++) {
                svid_validator v;
                svid_token t;
                svid_found f;
                svid_member_terms terms;
                begin(s, &v, &t);
                clear(both[i]);
                loan l = loan_of(s, &v, &t, both[i], &f, &terms);
                if (input_of < INPUTS) l.in[input_of].bytes = i ? NULL : empty, l.in[input_of].len = 0;
                else l.out = i ? NULL : l.out, l.room = 0;
                answered = both[i]->status = call_with(s->which, &l);
                end(&v, &t);
            }
            holds(!memcmp(&made, &want, sizeof made), "NULL is answered otherwise");
        }
    }
    printf("NULL for each input of %zu calls", COUNT(SCENES));
}

typedef struct { int which; const loan *l; answer *a; } job;
static void *run_job(void *given) {
    job *j = given;
    answered = j->a->status = call_with(j->which, j->l);
    return NULL;
}

/* A record of so many uses, which expire 300 seconds after NOW and later, in 16 batches. */
enum { HEAD = 17, USE = 65, BATCH = 62500 };
static uint8_t *put_number(uint8_t *to, uint64_t number, int width) {
    for (int k = 0; k < width; k++) to[k] = (uint8_t)(number >> (8 * (width - 1 - k)));
    return to + width;
}
static void take_uses(svid_validator *v, size_t batches) {
    uint8_t *batch = calloc(1, HEAD + BATCH * USE);
    svid_told told;
    holds(batch != NULL, "no memory for the test");
    for (size_t b = 0; b < batches; b++) {
        memcpy(batch, "JSR\2\1", 5);
        put_number(put_number(batch + 5, NOW, 8), BATCH, 4);
        for (size_t i = 0; i < BATCH; i++) {
            uint8_t *use = batch + HEAD + i * USE;
            put_number(use, EXP + b, 8);
            put_number(put_number(use + 8, i * (UINT32_MAX / BATCH), 4), b, 4);
            use[40] = 9;
            put_number(use + 56, NOW, 8);
        }
        answered = svid_validator_take(v, NOW, batch, HEAD + BATCH * USE, &told);
        holds(answered == SVID_OK, "the uses are not taken");
    }
    free(batch);
}

static void stack(void) {
    static answer a;
    static char patterns[65536];
    size_t most = 0, len = 0;
    while (len + 128 < sizeof patterns) len += (size_t)sprintf(patterns + len, "spiffe://example.org/a/b/c/d/e/f/%zu/" "*\n", len);
    for (size_t turn = 0; turn < 2 * COUNT(SCENES); turn++) {
        const scene *s = &SCENES[turn / 2];
        svid_validator v;
        svid_token t;
        svid_found f;
        svid_member_terms terms;
        begin(s, &v, &t);
        /* (the second time with a large record, and with many patterns) */
        if (turn % 2) take_uses(&v, 1);
        clear(&a);
        loan l = loan_of(s, &v, &t, &a, &f, &terms);
        if (turn % 2) l.in[CALLERS].bytes = patterns, l.in[CALLERS].len = len;
        job j = { s->which, &l, &a };
        size_t used = stack_of(run_job, &j);
        if (used > most) most = used;
        end(&v, &t);
    }
    is_stack(most, STACK_MOST);
}

/* ---- Eight threads under one lock, which serve requests of the same tokens ---- */

enum { TOKENS = 40 };
static pthread_mutex_t lock = PTHREAD_MUTEX_INITIALIZER;
static svid_validator shared;
static store shared_store = { .time = NOW };
static card shared_cards[TOKENS];
static int said_yes[TOKENS], said_no[8 * TOKENS];

/* Serves one token: its request, and those of others whose turn comes after it. */
static void serve(int k, answer *a) {
    svid_token t;
    loan l;
    open_card(&t, &shared_cards[k]);
    clear(a);
    l = lent(&shared, a);
    with_card(&l, &shared_cards[k], &t);
    int which = COME;
    for (;;) {
        svid_found f;
        pthread_mutex_lock(&lock);
        if (which == FOUND) f = put_of_life(&shared_store, &a->deed.used, 1), l.found = &f;
        a->status = call_with(which, &l);
        if (a->deed.what == SVID_DEED_ANSWER && a->deed.status == SVID_OK) said_yes[k]++;
        else if (a->deed.what == SVID_DEED_ANSWER) said_no[a->deed.number]++;
        pthread_mutex_unlock(&lock);
        if (a->deed.what == SVID_DEED_ANSWER) l.number = a->deed.next;
        else l.number = a->deed.number;
        if (a->deed.what == SVID_DEED_NOTHING || l.number == NONE) break;
        which = a->deed.what == SVID_DEED_CLAIM ? which == SEND ? FOUND : SEND : JUDGE;
    }
    svid_token_close(&t);
}

static void *one_of_eight(void *given) {
    answer *a = malloc(sizeof *a);
    size_t id = (size_t)given;
    if (!a) exit(2);
    for (int k = 0; k < TOKENS; k++) serve((k * 7 + (int)id) % TOKENS, a);
    free(a);
    return NULL;
}

static void threads(void) {
    for (int k = 0; k < TOKENS; k++) write_card(&shared_cards[k], SUBJECTS[FIRST], "ledger", EXP, 100 + k);
    join(&shared, 1, 1, SVID_STRICT, 0);
    eight(one_of_eight);
    int no = 0;
    for (int k = 0; k < TOKENS; k++) holds(said_yes[k] == 1, "each token is accepted once");
    for (int n = 0; n < 8 * TOKENS; n++) { holds(said_no[n] <= 1, "each request has one answer"); no += said_no[n]; }
    svid_deadline left;
    holds(no == 7 * TOKENS && svid_member_due(&shared, &left) == SVID_OK && left.at == NONE, "each request has an answer");
    svid_validator_close(&shared);
    printf("8 threads, %d tokens, each accepted once", TOKENS);
}

/* ---- How long calls take ---- */

enum { OPEN_REQUESTS = 1000, MEASURED = 20000 };
static const char *const TIMED[] = { [COME] = "come", [JUDGE] = "judge", [WROTE] = "wrote", [SEND] = "send", [FOUND] = "found", [ASK] = "ask", [LEAVE] = "leave", [OVERDUE] = "overdue" };
static uint64_t spent[OVERDUE + 1][2 * MEASURED], ran[OVERDUE + 1][2 * MEASURED];
static size_t spent_count[OVERDUE + 1];

static uint64_t nanoseconds(clockid_t clock) {
    struct timespec t;
    clock_gettime(clock, &t);
    return (uint64_t)t.tv_sec * UINT64_C(1000000000) + (uint64_t)t.tv_nsec;
}

static void timed(int which, const loan *l) {
    uint64_t processor = nanoseconds(CLOCK_THREAD_CPUTIME_ID), began = nanoseconds(CLOCK_MONOTONIC);
    answered = call_with(which, l);
    uint64_t took = nanoseconds(CLOCK_MONOTONIC) - began;
    processor = nanoseconds(CLOCK_THREAD_CPUTIME_ID) - processor;
    size_t i = spent_count[which]++;
    holds(i < 2 * MEASURED, "too many calls");
    spent[which][i] = took, ran[which][i] = processor;
}

static int is_greater(const void *a, const void *b) {
    uint64_t x = *(const uint64_t *)a, y = *(const uint64_t *)b;
    return (x > y) - (x < y);
}

static void print_times(const char *what) {
    printf("%s\n", what);
    for (int which = COME; which <= OVERDUE; which++) {
        size_t count = spent_count[which];
        if (!count) continue;
        qsort(spent[which], count, sizeof **spent, is_greater);
        qsort(ran[which], count, sizeof **ran, is_greater);
        printf("  %-8s %6zu calls  half %7.1f us  99.9 %% %7.1f us  longest %8.1f us  (of the processor alone %8.1f us)\n", TIMED[which], count, (double)spent[which][count / 2] / 1e3, (double)spent[which][count - 1 - count / 1000] / 1e3, (double)spent[which][count - 1] / 1e3, (double)ran[which][count - 1] / 1e3);
        spent_count[which] = 0;
    }
}

/* Requests with tokens of their own: 1,000 are open at each time. In the end the clock advances, and those that are left are late. */
static void time_flow(svid_validator *v, uint64_t mode, uint64_t now, uint64_t *up, int base) {
    static card own;
    static svid_token open_ones[OPEN_REQUESTS];
    static card kept[OPEN_REQUESTS];
    static svid_use claimed[OPEN_REQUESTS];
    static answer a;
    static uint64_t number_of[OPEN_REQUESTS];
    for (int i = 0; i < MEASURED; i++) {
        int k = i % OPEN_REQUESTS;
        clear(&a);
        loan l = lent(v, &a);
        l.now = now, l.up = *up += i % 20 == 0;
        if (i >= OPEN_REQUESTS) {
            svid_found f = { now, 0, { 0 } };
            uint8_t life[16] = { 1 };
            l.number = number_of[k];
            with_card(&l, &kept[k], &open_ones[k]);
            if (mode == SVID_STRICT) {
                svid_claim_owner(claimed[k].validator_id, life, claimed[k].exp, f.owner);
                l.found = &f;
                timed(SEND, &l);
                timed(FOUND, &l);
            } else timed(WROTE, &l);
            holds(a.deed.what == SVID_DEED_ANSWER && a.deed.status == SVID_OK, "it is accepted");
            svid_token_close(&open_ones[k]);
        }
        write_card(&own, SUBJECTS[FIRST], "ledger", now + 300, base + i);
        kept[k] = own;
        open_card(&open_ones[k], &kept[k]);
        with_card(&l, &kept[k], &open_ones[k]);
        timed(COME, &l);
        l.number = number_of[k] = a.deed.number;
        timed(JUDGE, &l);
        holds(answered == SVID_OK && (a.deed.what == SVID_DEED_APPEND || a.deed.what == SVID_DEED_CLAIM), "it is judged");
        claimed[k] = a.deed.used;
    }
    loan l = lent(v, &a);
    l.up = *up += 1000000;
    for (int k = 0; k <= OPEN_REQUESTS; k++) {
        timed(OVERDUE, &l);
        holds(a.deed.what == (k < OPEN_REQUESTS ? SVID_DEED_ANSWER : SVID_DEED_NOTHING), "they are late");
        if (k < OPEN_REQUESTS) svid_token_close(&open_ones[k]);
    }
}

/* 1,000 requests with one token. Each leaves when its turn comes. */
static void time_line(svid_validator *v, uint64_t now, uint64_t up, int base) {
    static card one;
    static svid_token t;
    static answer a;
    loan l = lent(v, &a);
    write_card(&one, SUBJECTS[FIRST], "ledger", now + 300, base);
    open_card(&t, &one);
    with_card(&l, &one, &t);
    l.now = now, l.up = up;
    uint64_t first = 0;
    for (int k = 0; k < OPEN_REQUESTS; k++) {
        timed(COME, &l);
        l.number = a.deed.number;
        if (!k) first = l.number;
        timed(JUDGE, &l);
    }
    for (l.number = first; l.number != NONE; l.number = a.deed.next) {
        if (l.number != first) timed(JUDGE, &l);
        timed(LEAVE, &l);
        holds(a.deed.what == SVID_DEED_ANSWER, "it leaves");
    }
    svid_token_close(&t);
}

static void times(void) {
    static const char *const words[] = { "once, with a disk:", "strict:" };
    for (int round = 0; round < 2; round++) {
        svid_validator v;
        uint64_t mode = round ? SVID_STRICT : SVID_ONCE, up = UP;
        svid_member_terms terms = terms_of(mode, 1, 1);
        terms.wait = 100000;
        at = "how long calls take";
        open_validator(&v, 1);
        holds(svid_member_open(&v, &terms) == SVID_OK && svid_member_know(&v, &GOOD) == SVID_OK, "a member");
        take_uses(&v, 16);
        holds(uses_of(&v) == 1000000, "1,000,000 uses");
        time_flow(&v, mode, NOW + 1, &up, 1000);
        print_times(words[round]);
        if (mode == SVID_STRICT) {
            time_line(&v, NOW + 1, up, 900000);
            print_times("strict, 1,000 requests with one token:");
        }
        /* All that the record had expires at once. */
        time_flow(&v, mode, NOW + 1000, &up, 100000);
        print_times("the same, while 1,000,000 uses that have expired are dropped:");
        svid_validator_close(&v);
    }
    printf("1,000,000 uses, 1,000 open requests");
}

int main(int count, char **words) {
    static const part parts[] = { { "refused", refused }, { "guarded", guarded }, { "nulls", nulls }, { "threads", threads }, { "stack", stack }, { "times", times } };
    read_examples();
    write_cards();
    return run_part(count, words, parts, COUNT(parts));
}
