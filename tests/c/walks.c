/* What the calls on a member answer (svid.h), from the request to its answer. Runs in the folder examples/, with the helpers of members.c.
 *
 *   walks answers    each mode, each way that svid.h states, and where nothing happens
 *   walks random     two members and one store, whose events come in a random order: no token is accepted twice, each request has one answer */
#define main members_main
#include "members.c"
#undef main

/* The tokens of the cards, and what the last call wrote. Each step below writes that. */
static svid_token handles[CARDS];
static answer got;

static void make(int which, const loan *l) { answered = got.status = call_with(which, l); }

static void come(svid_validator *v, uint64_t up) { clear(&got); loan l = lent(v, &got); l.up = up; make(COME, &l); }
static void judge_at(svid_validator *v, uint64_t now, uint64_t up, uint64_t number, int which) { clear(&got); loan l = lent(v, &got); with_card(&l, &cards[which], &handles[which]); l.now = now, l.up = up, l.number = number; make(JUDGE, &l); }
static void judge(svid_validator *v, uint64_t up, uint64_t number, int which) { judge_at(v, NOW, up, number, which); }
static void wrote(svid_validator *v, uint64_t up, uint64_t number, uint64_t ok) { clear(&got); loan l = lent(v, &got); l.up = up, l.number = number, l.ok = ok; make(WROTE, &l); }
static void sending(svid_validator *v, uint64_t up, uint64_t number) { clear(&got); loan l = lent(v, &got); l.up = up, l.number = number; make(SEND, &l); }
static void found_at(svid_validator *v, uint64_t now, uint64_t up, uint64_t number, int which, const uint8_t *caller, const svid_found *f) {
    clear(&got);
    loan l = lent(v, &got);
    with_card(&l, &cards[which], &handles[which]);
    l.now = now, l.up = up, l.number = number, l.caller = caller, l.found = f;
    make(FOUND, &l);
}
static void found(svid_validator *v, uint64_t up, uint64_t number, int which, const svid_found *f) { found_at(v, NOW, up, number, which, OWNER_ONE, f); }
static void ask_at(svid_validator *v, uint64_t now, uint64_t up, int which, const uint8_t *caller, const svid_known_claim *claim) {
    clear(&got);
    loan l = lent(v, &got);
    with_card(&l, &cards[which], &handles[which]);
    l.now = now, l.up = up, l.caller = caller, l.claim = claim;
    make(ASK, &l);
}
static void leave(svid_validator *v, uint64_t up, uint64_t number) { clear(&got); loan l = lent(v, &got); l.up = up, l.number = number; make(LEAVE, &l); }
static void overdue(svid_validator *v, uint64_t up) { clear(&got); loan l = lent(v, &got); l.up = up; make(OVERDUE, &l); }
static uint64_t due(svid_validator *v) { clear(&got); loan l = lent(v, &got); make(DUE, &l); holds(got.status == SVID_OK, "when it is due"); return got.due.at; }
static void rules(svid_validator *v, const char *own, uint64_t all, const char *callers) {
    clear(&got);
    loan l = lent(v, &got);
    l.in[OWN].bytes = own, l.in[OWN].len = strlen(own), l.in[CALLERS].bytes = callers, l.in[CALLERS].len = strlen(callers), l.all = all;
    make(RULES, &l);
}

/* The other deeds of svid.h. */
static svid_deed nothing(void) { return deed_of(SVID_DEED_NOTHING, 0, 0, NONE, NULL); }
static svid_deed to_judge(uint64_t number) { return deed_of(SVID_DEED_JUDGE, number, 0, NONE, NULL); }
static svid_deed to_append(uint64_t number, const svid_use *used) { return deed_of(SVID_DEED_APPEND, number, 0, NONE, used); }
static svid_deed to_claim(uint64_t number, const svid_use *used) { return deed_of(SVID_DEED_CLAIM, number, 0, NONE, used); }
static svid_deed acceptance(uint64_t number, uint64_t next, const svid_use *used) { return deed_of(SVID_DEED_ANSWER, number, SVID_OK, next, used); }

/* The use of a card that a validator of this ID accepts at a moment. */
static svid_use use_of(int which, uint64_t moment, uint8_t id) {
    svid_use used = { cards[which].exp, moment, { 0 }, { id } };
    memcpy(used.key, cards[which].key.bytes, sizeof used.key);
    return used;
}

static int is_deed(svid_deed due_deed) { return !memcmp(&got.deed, &due_deed, sizeof due_deed); }

/* The call answered this status, and said that this is to be done. */
static void does(uint32_t status, svid_deed due_deed, const char *why) {
    if (got.status != status || !is_deed(due_deed)) printf("deed %llu of %llu, status %llu, next %llu\n", (unsigned long long)got.deed.what, (unsigned long long)got.deed.number, (unsigned long long)got.deed.status, (unsigned long long)got.deed.next);
    holds(got.status == status && is_deed(due_deed), why);
}

/* It wrote nothing but perhaps a deed. */
static int writes_no_use(void) {
    static answer none;
    clear(&none);
    return !memcmp(got.out, none.out, sizeof none.out) && !memcmp(&got.used, &none.used, sizeof none.used) && tells_nothing(&got.told);
}
static int writes_nothing(void) {
    static answer none;
    clear(&none);
    return writes_no_use() && !memcmp(&got.deed, &none.deed, sizeof none.deed) && !memcmp(&got.due, &none.due, sizeof none.due) && !memcmp(&got.made, &none.made, sizeof none.made);
}

/* A token is accepted, or refused for this reason; and this is to be done. */
static void accepts(int which, svid_use used, svid_deed due_deed, const char *why) {
    static answer none;
    size_t len = strlen(SUBJECTS[which]);
    does(SVID_OK, due_deed, why);
    clear(&none);
    holds(!memcmp(&got.used, &used, sizeof used) && got.told.len == len && !memcmp(got.out, SUBJECTS[which], len) && !memcmp(got.out + len, none.out + len, sizeof none.out - len), why);
}
static void refuses(uint32_t status, svid_deed due_deed, const char *why) {
    does(status, due_deed, why);
    holds(writes_no_use(), why);
}

static uint64_t moment_of(svid_validator *v) {
    svid_size size;
    svid_told told;
    holds(svid_validator_size(v, &size, &told) == SVID_OK, "the moment of a record");
    return size.moment;
}

/* Puts the claim of a use for a caller. */
static svid_found put_of_caller(store *s, const svid_use *used, const uint8_t *caller) {
    uint8_t owner[32];
    svid_claim_owner_of_caller(caller, used->exp, owner);
    return put(s, used->key, owner);
}

/* ---- Walks from the request to its answer ---- */

/* Mode once: the first request with a token is accepted, after the write if there is a disk. No other one is, not after a restart either. */
static void once_walk(uint64_t disk) {
    static uint8_t kept[4096];
    svid_validator v;
    svid_told told;
    svid_use first = use_of(FIRST, NOW, 1), second = use_of(SECOND, NOW, 1);
    uint8_t batch[SVID_BATCH_OF_LEN];
    at = disk ? "once, with a disk" : "once";
    join(&v, 1, 1, SVID_ONCE, disk);
    for (uint64_t n = 0; n < 2; n++) { come(&v, UP); does(SVID_OK, to_judge(n), "a request comes"); }
    judge(&v, UP, 0, FIRST);
    accepts(FIRST, first, disk ? to_append(0, &first) : acceptance(0, NONE, &first), "a token");
    judge(&v, UP, 1, FIRST);
    refuses(SVID_REPLAYED, refusal(1, SVID_REPLAYED, NONE), "the same token");
    judge(&v, UP, 0, FIRST);
    refuses(SVID_UNASKED, nothing(), "a request that was judged");
    if (disk) {
        holds(due(&v) == UP + WAIT, "it is due");
        wrote(&v, UP + 1, 0, 1);
        does(SVID_OK, acceptance(0, NONE, &first), "it is on the disk");
    }
    wrote(&v, UP + 1, 0, 1);
    does(SVID_OK, nothing(), "it was answered");
    holds(due(&v) == NONE && uses_of(&v) == 1, "what is left");
    svid_batch_of(&first, batch);
    size_t len = record(&v, kept, sizeof kept);
    holds(len == sizeof batch && !memcmp(kept, batch, len), "its record");
    /* A use that the disk does not take is spent, and the member is not ready until the disk takes one. */
    come(&v, UP);
    judge(&v, UP, 2, SECOND);
    accepts(SECOND, second, disk ? to_append(2, &second) : acceptance(2, NONE, &second), "another token");
    if (disk) {
        wrote(&v, UP, 2, 0);
        does(SVID_OK, refusal(2, SVID_NOT_KEPT, NONE), "it is not on the disk");
        holds(svid_member_ready(&v) == SVID_KEEPS_NOTHING && svid_member_judges(&v) == SVID_OK, "a disk that takes nothing");
        holds(svid_member_know(&v, &GOOD) == SVID_OK && svid_member_ready(&v) == SVID_KEEPS_NOTHING, "it knows that by itself");
        wrote(&v, UP, 2, 1);
        does(SVID_OK, nothing(), "the disk took it after all");
        holds(svid_member_ready(&v) == SVID_OK, "a disk that takes all");
    }
    come(&v, UP);
    judge(&v, UP, 3, SECOND);
    refuses(SVID_REPLAYED, refusal(3, SVID_REPLAYED, NONE), "a token that is spent");
    len = disk ? len : record(&v, kept, sizeof kept);
    svid_validator_close(&v);
    /* The next life takes what was kept. The disk has one use. */
    join(&v, 1, 2, SVID_ONCE, disk);
    answered = svid_validator_take(&v, NOW, kept, len, &told);
    holds(answered == SVID_OK, "the record is not taken");
    come(&v, UP);
    judge(&v, UP, 0, FIRST);
    refuses(SVID_REPLAYED, refusal(0, SVID_REPLAYED, NONE), "a token after a restart");
    come(&v, UP);
    judge(&v, UP, 1, OTHERS);
    refuses(SVID_NOT_AUDIENCE, refusal(1, SVID_NOT_AUDIENCE, NONE), "a token for others");
    svid_validator_close(&v);
}

/* Mode strict: three requests with one token need one claim. The first is accepted; the others are judged again, and refused. */
static void strict_walk(void) {
    svid_validator v;
    store s = { .time = NOW };
    svid_use first = use_of(FIRST, NOW, 1), later = use_of(FIRST, NOW + 2, 1);
    at = "strict";
    join(&v, 1, 1, SVID_STRICT, 0);
    for (uint64_t n = 0; n < 3; n++) {
        come(&v, UP + n);
        does(SVID_OK, to_judge(n), "a request comes");
        judge(&v, UP + n, n, FIRST);
        accepts(FIRST, first, n ? nothing() : to_claim(0, &first), "a token");
        holds(uses_of(&v) == 0, "nothing is added before the claim");
        judge(&v, UP + n, n, FIRST);
        refuses(SVID_UNASKED, nothing(), "a request that was judged");
    }
    holds(due(&v) == UP + WAIT, "the first is due");
    sending(&v, UP + 3, 0);
    does(SVID_OK, to_claim(0, &first), "its claim goes out");
    sending(&v, UP + 3, 1);
    does(SVID_OK, nothing(), "no claim of a request that waits");
    svid_found f = put_of_life(&s, &first, 1);
    found(&v, UP + 4, 1, FIRST, &f);
    refuses(SVID_UNASKED, nothing(), "a request that waits hears of no claim");
    found(&v, UP + 4, 0, SECOND, &f);
    refuses(SVID_UNASKED, nothing(), "the claim of another token");
    found_at(&v, NOW + 2, UP + 5, 0, FIRST, OWNER_TWO, &f);
    accepts(FIRST, later, acceptance(0, 1, &later), "the claim counts");
    holds(uses_of(&v) == 1, "the record gains its use");
    found_at(&v, NOW + 2, UP + 5, 0, FIRST, OWNER_ONE, &f);
    refuses(SVID_UNASKED, nothing(), "a second answer of the store");
    sending(&v, UP + 5, 0);
    does(SVID_OK, nothing(), "the claim of a request that was answered");
    judge_at(&v, NOW + 2, UP + 6, 2, FIRST);
    refuses(SVID_UNASKED, nothing(), "it is not its turn");
    for (uint64_t n = 1; n < 3; n++) {
        judge_at(&v, NOW + 2, UP + 6, n, FIRST);
        refuses(SVID_REPLAYED, refusal(n, SVID_REPLAYED, n == 1 ? 2 : NONE), "the next is judged again");
    }
    holds(due(&v) == NONE && s.puts == 1, "one claim");
    svid_validator_close(&v);
}

/* A request that waits for a claim has its turn when the first one leaves or is late. One that has left the line is skipped. */
static void line_walk(void) {
    svid_validator v;
    store s = { .time = NOW };
    svid_use own = use_of(FIRST, NOW + 1, 1), later = use_of(FIRST, NOW + 2, 1);
    at = "a line";
    join(&v, 1, 1, SVID_STRICT, 0);
    for (uint64_t n = 0; n < 4; n++) { come(&v, UP + n); judge_at(&v, NOW + (n != 0), UP + n, n, FIRST); }
    leave(&v, UP + 4, 1);
    does(SVID_OK, refusal(1, SVID_LEFT, NONE), "one leaves the line");
    leave(&v, UP + 4, 1);
    does(SVID_OK, nothing(), "it has left");
    overdue(&v, UP + WAIT - 1);
    does(SVID_OK, nothing(), "nobody is late");
    overdue(&v, UP + WAIT);
    does(SVID_OK, refusal(0, SVID_LATE, 2), "the first is late");
    judge_at(&v, NOW + 2, UP + WAIT, 2, FIRST);
    accepts(FIRST, later, to_claim(2, &own), "the next one claims its own use");
    leave(&v, UP + WAIT, 2);
    does(SVID_OK, refusal(2, SVID_LEFT, 3), "it leaves too");
    judge_at(&v, NOW + 2, UP + WAIT, 3, FIRST);
    accepts(FIRST, later, to_claim(3, &own), "the last one claims");
    svid_found f = put_of_life(&s, &own, 1);
    found_at(&v, NOW + 2, UP + WAIT, 3, FIRST, OWNER_ONE, &f);
    accepts(FIRST, later, acceptance(3, NONE, &later), "the last one is accepted");
    come(&v, UP + WAIT);
    leave(&v, UP + WAIT, 4);
    does(SVID_OK, refusal(4, SVID_LEFT, NONE), "one leaves before it is judged");
    leave(&v, UP + WAIT, 99);
    does(SVID_OK, nothing(), "a number that nobody has");
    svid_validator_close(&v);
}

/* Two members and one store: the first claim counts, also after its member has restarted without a record. */
static void race_walk(void) {
    svid_validator v[2];
    store s = { .time = NOW };
    at = "a lost race";
    for (int i = 0; i < 2; i++) join(&v[i], (uint8_t)(i + 1), 1, SVID_STRICT, 0);
    for (int turn = 0; turn < 3; turn++) {
        /* (in the last turn the winner has restarted with a new life and no record) */
        uint64_t n = turn == 2 ? 0 : (uint64_t)(turn / 2);
        svid_validator *one = turn == 1 ? &v[1] : &v[0];
        svid_use own = use_of(FIRST, NOW, turn == 1 ? 2 : 1);
        if (turn == 2) { svid_validator_close(&v[0]); join(&v[0], 1, 2, SVID_STRICT, 0); }
        come(one, UP);
        judge(one, UP, n, FIRST);
        accepts(FIRST, own, to_claim(n, &own), "it claims");
        svid_found f = put_of_life(&s, &own, turn == 2 ? 2 : 1);
        found(one, UP, n, FIRST, &f);
        if (turn == 0) accepts(FIRST, own, acceptance(n, NONE, &own), "the first is accepted");
        else refuses(SVID_CLAIM_TAKEN, refusal(n, SVID_REPLAYED, NONE), "no other one");
        holds(uses_of(one) == (turn == 0), "the record gains a use where the token is accepted");
    }
    for (int i = 0; i < 2; i++) svid_validator_close(&v[i]);
}

/* Each outcome of a claim, in their order, and what it leaves. */
static void store_walk(void) {
    static const struct { int which; uint64_t mode, time, deaf; int entry; uint32_t status; uint64_t verdict; } rows[] = {
        { FIRST, SVID_STRICT, NOW, 0, 0, SVID_OK, SVID_OK },
        { FIRST, SVID_BOUND, NOW, 0, 0, SVID_OK, SVID_OK },
        { FIRST, SVID_STRICT, NOW, 0, 1, SVID_CLAIM_WITHDRAWN, SVID_WITHDRAWN },
        { FIRST, SVID_BOUND, NOW, EXP, 1, SVID_CLAIM_WITHDRAWN, SVID_WITHDRAWN },
        { FIRST, SVID_STRICT, NOW, EXP, 2, SVID_CLAIM_TAKEN, SVID_REPLAYED },
        { FIRST, SVID_BOUND, NOW, 0, 2, SVID_CLAIM_TAKEN, SVID_REPLAYED },
        { FAR, SVID_STRICT, NOW, NOW + LASTS + 1, 0, SVID_CLAIM_FAR, SVID_CLAIM_FAR },
        { FAR, SVID_STRICT, NOW + 1, 0, 0, SVID_OK, SVID_OK },
        { FIRST, SVID_STRICT, NOW, EXP, 0, SVID_CLAIM_DEAF, SVID_CLAIM_DEAF },
        { FIRST, SVID_BOUND, NOW, EXP, 0, SVID_CLAIM_DEAF, SVID_CLAIM_DEAF },
        { FIRST, SVID_STRICT, NOW, EXP - 1, 0, SVID_OK, SVID_OK },
        { FIRST, SVID_STRICT, EXP + AHEAD, 0, 0, SVID_CLAIM_EXPIRED, SVID_EXPIRED },
        { FIRST, SVID_STRICT, EXP + AHEAD - 1, 0, 0, SVID_OK, SVID_OK },
        { FIRST, SVID_BOUND, UINT64_MAX, 0, 0, SVID_CLAIM_EXPIRED, SVID_EXPIRED },
    };
    for (size_t i = 0; i < COUNT(rows); i++) {
        svid_validator v;
        store s = { .time = rows[i].time, .deaf = rows[i].deaf };
        static const uint8_t withdrawn[32];
        svid_use own = use_of(rows[i].which, NOW, 1);
        at = "what a store answers";
        join(&v, 1, 1, rows[i].mode, 0);
        if (rows[i].entry) put(&s, own.key, rows[i].entry == 1 ? withdrawn : OWNER_TWO);
        come(&v, UP);
        judge(&v, UP, 0, rows[i].which);
        accepts(rows[i].which, own, to_claim(0, &own), "it claims");
        svid_found f = rows[i].mode == SVID_STRICT ? put_of_life(&s, &own, 1) : put_of_caller(&s, &own, OWNER_ONE);
        found(&v, UP, 0, rows[i].which, &f);
        if (got.status != rows[i].status) printf("row %zu\n", i);
        if (rows[i].status == SVID_OK) accepts(rows[i].which, own, acceptance(0, NONE, &own), "the claim counts");
        else refuses(rows[i].status, refusal(0, rows[i].verdict, NONE), "the claim does not count");
        holds(moment_of(&v) == NOW, "the store's time moves no record");
        size_t gained = rows[i].entry == 1 || (rows[i].status == SVID_OK && rows[i].mode == SVID_STRICT);
        holds(uses_of(&v) == gained, "what the record gains");
        if (rows[i].entry == 1) {
            come(&v, UP);
            judge(&v, UP, 1, rows[i].which);
            refuses(SVID_WITHDRAWN, refusal(1, SVID_WITHDRAWN, NONE), "the record has the withdrawal");
        }
        svid_validator_close(&v);
    }
}

/* Mode bound: each member accepts the token from the caller that came first, again and again, and from no other one. */
static void bound_walk(void) {
    svid_validator v[2];
    store s = { .time = NOW };
    at = "bound";
    for (int i = 0; i < 2; i++) join(&v[i], (uint8_t)(i + 1), (uint8_t)(i + 1), SVID_BOUND, 1);
    for (uint64_t turn = 0; turn < 6; turn++) {
        int i = turn % 2, is_thief = turn / 2 == 1;
        const uint8_t *caller = is_thief ? OWNER_TWO : OWNER_ONE;
        svid_use own = use_of(FIRST, NOW, (uint8_t)(i + 1));
        come(&v[i], UP);
        judge(&v[i], UP, turn / 2, FIRST);
        accepts(FIRST, own, to_claim(turn / 2, &own), "it claims");
        svid_found f = put_of_caller(&s, &own, caller);
        found_at(&v[i], NOW, UP, turn / 2, FIRST, caller, &f);
        if (is_thief) refuses(SVID_CLAIM_TAKEN, refusal(turn / 2, SVID_REPLAYED, NONE), "another caller");
        else accepts(FIRST, own, acceptance(turn / 2, NONE, &own), "the owner, also again");
        holds(uses_of(&v[i]) == 0, "nothing is added");
    }
    /* (the next of a line claims for its own caller) */
    svid_use own = use_of(FIRST, NOW, 1);
    for (uint64_t n = 3; n < 5; n++) { come(&v[0], UP); judge(&v[0], UP, n, FIRST); }
    svid_found f = put_of_caller(&s, &own, OWNER_ONE);
    found_at(&v[0], NOW, UP, 3, FIRST, OWNER_ONE, &f);
    accepts(FIRST, own, acceptance(3, 4, &own), "the owner");
    judge(&v[0], UP, 4, FIRST);
    accepts(FIRST, own, to_claim(4, &own), "the next one claims");
    f = put_of_caller(&s, &own, OWNER_TWO);
    found_at(&v[0], NOW, UP, 4, FIRST, OWNER_TWO, &f);
    refuses(SVID_CLAIM_TAKEN, refusal(4, SVID_REPLAYED, NONE), "and is another caller");
    for (int i = 0; i < 2; i++) svid_validator_close(&v[i]);
}

/* Mode reuse: a member accepts a token again and again, until it is withdrawn. */
static void reuse_walk(void) {
    svid_validator v;
    svid_use own = use_of(FIRST, NOW, 1), withdrawn;
    svid_told told;
    at = "reuse";
    join(&v, 1, 1, SVID_REUSE, 1);
    for (uint64_t n = 0; n < 3; n++) {
        come(&v, UP);
        judge(&v, UP, n, FIRST);
        accepts(FIRST, own, acceptance(n, NONE, &own), "it is accepted");
        holds(uses_of(&v) == 0, "nothing is added");
    }
    answered = svid_validator_withdraw(&v, NOW, &cards[FIRST].key, EXP, &withdrawn, &told);
    holds(answered == SVID_OK, "a withdrawal");
    come(&v, UP);
    judge(&v, UP, 3, FIRST);
    refuses(SVID_WITHDRAWN, refusal(3, SVID_WITHDRAWN, NONE), "a withdrawn token");
    svid_validator_close(&v);
}

/* At its deadline a request is late, and no later report counts. */
static void late_walk(void) {
    svid_validator v;
    store s = { .time = NOW };
    svid_use own = use_of(FIRST, NOW, 1);
    at = "late requests";
    /* (judged in time, but for the first) */
    join(&v, 1, 1, SVID_ONCE, 1);
    for (uint64_t n = 0; n < 2; n++) come(&v, UP + n);
    holds(due(&v) == UP + WAIT, "the first is due");
    judge(&v, UP + WAIT, 0, FIRST);
    refuses(SVID_UNASKED, nothing(), "a judgment that is late");
    holds(uses_of(&v) == 0 && moment_of(&v) == 0, "no token is spent for nobody");
    judge(&v, UP + WAIT, 1, FIRST);
    accepts(FIRST, own, to_append(1, &own), "another one is in time");
    overdue(&v, UP + WAIT);
    does(SVID_OK, refusal(0, SVID_LATE, NONE), "the first is late");
    holds(due(&v) == UP + 1 + WAIT, "the other one is due");
    overdue(&v, UP + WAIT);
    does(SVID_OK, nothing(), "the other one is not late");
    leave(&v, UP + WAIT, 1);
    does(SVID_OK, nothing(), "a use on its way to the disk goes there");
    wrote(&v, UP + 1 + WAIT, 1, 1);
    does(SVID_OK, refusal(1, SVID_LATE, NONE), "it is written too late");
    holds(due(&v) == NONE, "nobody is due");
    /* (a moment that lies back counts as the last one) */
    come(&v, UP);
    does(SVID_OK, to_judge(2), "a request comes");
    holds(due(&v) == UP + 1 + 2 * WAIT, "a clock that goes back");
    svid_validator_close(&v);
    join(&v, 1, 1, SVID_STRICT, 0);
    for (uint64_t n = 0; n < 2; n++) { come(&v, UP + n); judge(&v, UP + n, n, FIRST); }
    svid_found f = put_of_life(&s, &own, 1);
    found(&v, UP + WAIT, 0, FIRST, &f);
    refuses(SVID_UNASKED, nothing(), "a late answer of the store");
    holds(uses_of(&v) == 0, "a late answer adds nothing");
    sending(&v, UP + WAIT, 0);
    does(SVID_OK, refusal(0, SVID_LATE, 1), "a claim that goes out too late");
    judge(&v, UP + WAIT, 1, FIRST);
    accepts(FIRST, own, to_claim(1, &own), "its turn");
    found(&v, UP + WAIT, 1, FIRST, &f);
    accepts(FIRST, own, acceptance(1, NONE, &own), "the claim of its life");
    svid_validator_close(&v);
}

/* The token of a caller that may not call is not spent, and its own fault is named first. */
static void callers_walk(void) {
    static const struct { uint64_t all; const char *callers; int may; } rows[] = {
        { 1, "", 1 }, { UINT64_MAX, "no pattern", 1 }, { 0, "", 0 }, { 0, "\n\n", 0 }, { 0, "spiffe://example.org", 1 }, { 0, "spiffe://example.com", 0 },
        { 0, "spiffe://example.org/billing/api", 1 }, { 0, "spiffe://example.org/billing", 0 }, { 0, "spiffe://example.org/billing/" "*", 1 },
        { 0, "spiffe://example.com\n\nspiffe://example.org/billing/" "*\nspiffe://example.org/guest", 1 },
    };
    static const struct { const char *own; const char *callers; uint32_t status; } faults[] = {
        { "\xff", "spiffe://example.org", SVID_OWN_NOT_UTF8 }, { "\xff", "*", SVID_OWN_NOT_UTF8 }, { "ledger", "*", SVID_PATTERN_SCHEME },
        { "ledger", "spiffe://example.org\nspiffe:///x\n*", SVID_PATTERN_DOMAIN_EMPTY }, { "ledger", "spiffe://A", SVID_PATTERN_DOMAIN_BYTE },
        { "ledger", "spiffe://example.org//x", SVID_PATTERN_SEGMENT_EMPTY }, { "ledger", "spiffe://example.org/..", SVID_PATTERN_SEGMENT_DOTS }, { "ledger", "spiffe://example.org/a*", SVID_PATTERN_PATH_BYTE },
    };
    svid_validator v;
    svid_use own = use_of(FIRST, NOW, 1);
    for (size_t i = 0; i < COUNT(rows); i++) {
        at = "who may call";
        join(&v, 1, 1, SVID_ONCE, 0);
        rules(&v, "ledger", rows[i].all, rows[i].callers);
        holds(got.status == SVID_OK, rows[i].callers);
        come(&v, UP);
        judge(&v, UP, 0, FIRST);
        if (rows[i].may) accepts(FIRST, own, acceptance(0, NONE, &own), rows[i].callers);
        else refuses(SVID_NOT_ALLOWED, refusal(0, SVID_NOT_ALLOWED, NONE), rows[i].callers);
        holds(uses_of(&v) == (size_t)rows[i].may, "a caller that may not call spends nothing");
        rules(&v, "ledger", 0, "spiffe://example.org/guest");
        holds(got.status == SVID_OK, "other rules");
        come(&v, UP);
        judge(&v, UP, 1, FIRST);
        refuses(rows[i].may ? SVID_REPLAYED : SVID_NOT_ALLOWED, refusal(1, rows[i].may ? SVID_REPLAYED : SVID_NOT_ALLOWED, NONE), "the fault of the token comes first");
        come(&v, UP);
        judge(&v, UP, 2, OTHERS);
        refuses(SVID_NOT_AUDIENCE, refusal(2, SVID_NOT_AUDIENCE, NONE), "a token for others, of a caller that may not call");
        rules(&v, "ledger", 1, "");
        come(&v, UP);
        judge(&v, UP, 3, FIRST);
        if (rows[i].may) refuses(SVID_REPLAYED, refusal(3, SVID_REPLAYED, NONE), "the record stays");
        else accepts(FIRST, own, acceptance(3, NONE, &own), "a token that was not spent");
        svid_validator_close(&v);
    }
    /* Rules that can't be read change nothing. */
    at = "svid_member_rules";
    join(&v, 1, 1, SVID_REUSE, 0);
    rules(&v, "ledger\nthird", 0, "spiffe://example.org/billing/" "*");
    for (uint64_t i = 0; i < COUNT(faults); i++) {
        rules(&v, faults[i].own, 0, faults[i].callers);
        holds(got.status == faults[i].status, faults[i].callers);
        come(&v, UP);
        judge(&v, UP, 2 * i, FIRST);
        accepts(FIRST, own, acceptance(2 * i, NONE, &own), "the rules before");
        come(&v, UP);
        judge(&v, UP, 2 * i + 1, GUEST);
        refuses(SVID_NOT_ALLOWED, refusal(2 * i + 1, SVID_NOT_ALLOWED, NONE), "the rules before");
    }
    svid_validator_close(&v);
}

/* New rules hold for requests that wait, too. */
static void rules_walk(void) {
    static const struct { const char *own, *callers; uint32_t status; } rows[] = {
        { "ledger", "spiffe://example.org/guest", SVID_NOT_ALLOWED }, { "others", "spiffe://example.org", SVID_NOT_AUDIENCE }, { "others", "", SVID_NOT_AUDIENCE }, { "", "spiffe://example.org", SVID_NOT_AUDIENCE },
        { "others\nledger", "spiffe://example.org/billing/api", SVID_OK },
    };
    at = "rules that are replaced";
    for (size_t i = 0; i < COUNT(rows); i++) {
        for (uint64_t mode = SVID_ONCE; mode <= SVID_REUSE; mode++) {
            int claims = mode == SVID_STRICT || mode == SVID_BOUND;
            uint32_t status = rows[i].status;
            svid_validator v;
            store s = { .time = NOW };
            svid_use own = use_of(FIRST, NOW, 1);
            join(&v, 1, 1, mode, 0);
            for (uint64_t n = 0; n < 2; n++) { come(&v, UP); if (claims) judge(&v, UP, n, FIRST); }
            rules(&v, rows[i].own, 0, rows[i].callers);
            holds(got.status == SVID_OK, "rules");
            if (claims) {
                svid_found f = mode == SVID_STRICT ? put_of_life(&s, &own, 1) : put_of_caller(&s, &own, OWNER_ONE);
                found(&v, UP, 0, FIRST, &f);
            } else judge(&v, UP, 0, FIRST);
            uint64_t next = claims ? 1 : NONE;
            if (status == SVID_OK) accepts(FIRST, own, acceptance(0, next, &own), "a request that waited");
            else refuses(status, refusal(0, status, next), "a request that waited");
            holds(uses_of(&v) == (status == SVID_OK && (mode == SVID_ONCE || mode == SVID_STRICT)), "what the record gains");
            judge(&v, UP, 1, FIRST);
            if (status != SVID_OK) refuses(status, refusal(1, status, NONE), "the next one");
            else if (mode == SVID_REUSE) accepts(FIRST, own, acceptance(1, NONE, &own), "the next one");
            else if (mode == SVID_BOUND) accepts(FIRST, own, to_claim(1, &own), "the next one");
            else refuses(SVID_REPLAYED, refusal(1, SVID_REPLAYED, NONE), "the next one");
            svid_validator_close(&v);
        }
    }
}

/* A member names the first reason that holds in its mode why it judges no token, or why none is to be sent to it. */
static void readiness_walk(void) {
    static const uint32_t reasons[] = { SVID_ENDED, SVID_NO_BUNDLE, SVID_LOADING, SVID_STORE_UNREACHED, SVID_WITHDRAWALS_UNREAD, SVID_BROKER_UNREACHED, SVID_GROUP_UNREAD,
                                        SVID_DRAINING, SVID_JUMPED, SVID_KEEPS_NOTHING, SVID_STORE_AWAY, SVID_DEAF };
    enum { REASONS = COUNT(reasons), BLOCKS = 7 };
    at = "readiness";
    for (uint64_t mode = SVID_ONCE; mode <= SVID_REUSE; mode++) {
        svid_validator v;
        svid_member_terms terms = terms_of(mode, 0, 1);
        uint64_t n = 0;
        open_validator(&v, 1);
        holds(svid_member_open(&v, &terms) == SVID_OK && svid_member_judges(&v) == SVID_NO_BUNDLE && svid_member_ready(&v) == SVID_NO_BUNDLE, "a member that was told nothing");
        for (unsigned bits = 0; bits < 1u << REASONS; bits++) {
            int counts[REASONS], first = REASONS;
            for (int k = REASONS - 1; k >= 0; k--) {
                counts[k] = bits >> k & 1;
                if (reasons[k] == SVID_WITHDRAWALS_UNREAD && mode == SVID_STRICT) counts[k] = 0;
                if (reasons[k] == SVID_KEEPS_NOTHING && mode != SVID_ONCE) counts[k] = 0;
                if ((reasons[k] == SVID_STORE_AWAY || reasons[k] == SVID_DEAF) && mode != SVID_STRICT && mode != SVID_BOUND) counts[k] = 0;
                if (counts[k]) first = k;
            }
            svid_known known = { !(bits >> 1 & 1), !(bits >> 2 & 1), !(bits >> 3 & 1), !(bits >> 4 & 1), !(bits >> 5 & 1), !(bits >> 6 & 1),
                                 bits >> 7 & 1, bits >> 8 & 1, bits >> 9 & 1, bits >> 10 & 1, bits >> 11 & 1, bits & 1 };
            holds(svid_member_know(&v, &known) == SVID_OK, "it is told");
            answered = svid_member_ready(&v);
            holds(answered == (first < REASONS ? reasons[first] : SVID_OK), "whether tokens are to be sent");
            answered = svid_member_judges(&v);
            holds(answered == (first < BLOCKS ? reasons[first] : SVID_OK), "whether it judges");
            come(&v, UP);
            if (first < BLOCKS) holds(got.status == reasons[first] && writes_nothing(), "a request that can't come");
            else does(SVID_OK, to_judge(n++), "a request comes");
        }
        svid_validator_close(&v);
    }
}

static uint64_t part_of(const svid_withdrawal *w, int target) { return target == SVID_AT_DISK ? w->disk : target == SVID_AT_STORE ? w->store : w->log; }

/* A withdrawal ends once no place is left, whichever places there are, and in whatever order they answer; or when its time is over. */
static void withdrawals_walk(void) {
    static const int orders[][3] = { { 0, 1, 2 }, { 0, 2, 1 }, { 1, 0, 2 }, { 1, 2, 0 }, { 2, 0, 1 }, { 2, 1, 0 } };
    at = "withdrawals";
    for (unsigned there = 0; there < 8; there++) {
        svid_validator v;
        svid_withdrawal made;
        svid_member_terms terms = { SVID_ONCE, there & 1, there >> 1 & 1, there >> 2 & 1, WAIT, AHEAD, LASTS, { 1 } };
        uint64_t n = 0;
        open_validator(&v, 1);
        holds(svid_member_open(&v, &terms) == SVID_OK, "a member");
        for (size_t order = 0; order < COUNT(orders); order++) {
            for (unsigned well = 0; well < 8; well++, n++) {
                uint64_t due_parts[3] = { !(there & 1), !(there >> 1 & 1), !(there >> 2 & 1) };
                answered = svid_withdrawal_come(&v, UP + n, &made);
                holds(answered == SVID_OK && made.number == n && due(&v) == UP + n + WAIT, "a withdrawal comes");
                int ended = 0;
                for (int k = 0; k < 3; k++) {
                    int target = orders[order][k];
                    for (unsigned again = 0; again < 2; again++) {
                        /* (told a second time, it is as it was) */
                        answered = svid_withdrawal_told(&v, n, (uint64_t)target, (well >> target & 1) ^ again, &made);
                        holds(answered == SVID_OK, "a place");
                        if (!due_parts[target]) due_parts[target] = well >> target & 1 ? 1 : 2;
                        int ends = !ended && due_parts[0] && due_parts[1] && due_parts[2];
                        holds(made.number == (ends ? n : NONE), "whether it has ended");
                        for (int p = 0; p < 3 && ends; p++) holds(part_of(&made, p) == due_parts[p], "how far it is");
                        ended |= ends;
                    }
                }
                holds(ended && due(&v) == NONE, "it ends");
            }
        }
        /* Two that are given up, each at its time. A request may be due before them. */
        uint64_t up = UP + n;
        for (uint64_t k = 0; k < 2; k++) holds(svid_withdrawal_come(&v, up + 2 * k, &made) == SVID_OK && made.number == n + k, "a withdrawal");
        if (there & 1) holds(svid_withdrawal_told(&v, n + 1, SVID_AT_DISK, 1, &made) == SVID_OK && made.number == (there == 1 ? n + 1 : NONE), "a part of it");
        holds(svid_withdrawal_overdue(&v, up + WAIT - 1, &made) == SVID_OK && made.number == NONE, "it is not over");
        for (uint64_t k = 0; k < 2 - (there == 1); k++) {
            holds(due(&v) == up + 2 * k + WAIT, "when it is due");
            holds(svid_withdrawal_overdue(&v, up + 2 * k + WAIT, &made) == SVID_OK && made.number == n + k, "it is given up");
            for (int p = 0; p < 3; p++) holds(part_of(&made, p) == (there >> p & 1 && !(k == 1 && p == SVID_AT_DISK) ? 2u : 1u), "how far it was");
            holds(svid_withdrawal_overdue(&v, up + 2 * k + WAIT, &made) == SVID_OK && made.number == NONE, "no other one");
            holds(svid_withdrawal_told(&v, n + k, SVID_AT_LOG, 1, &made) == SVID_OK && made.number == NONE, "it has ended");
        }
        holds(due(&v) == NONE, "nothing is due");
        /* What is due first, a request or a withdrawal. */
        holds(svid_member_know(&v, &GOOD) == SVID_OK, "it knows");
        come(&v, up + 10);
        holds(svid_withdrawal_come(&v, up + 12, &made) == SVID_OK && due(&v) == up + 10 + WAIT, "the request is due first");
        overdue(&v, up + 10 + WAIT);
        does(SVID_OK, refusal(0, SVID_LATE, NONE), "it is late");
        holds(due(&v) == up + 12 + WAIT, "the withdrawal is due");
        holds(svid_withdrawal_told(&v, NONE, SVID_AT_DISK, 1, &made) == SVID_OK && made.number == NONE, "a number that nobody has");
        svid_validator_close(&v);
    }
}

/* Each status that says that nothing happened, in their order; and nothing did. */
static void nothing_happens(void) {
    svid_validator v;
    svid_token closed = SVID_TOKEN_CLOSED;
    svid_told told;
    svid_found f = { NOW, 0, { 0 } };
    svid_mark from = { 0, 0, 0 };
    svid_use own = use_of(FIRST, NOW, 1);
    svid_member_terms terms = terms_of(SVID_ONCE, 0, 1);
    for (int kind = 0; kind < 2; kind++) {
        uint32_t status = kind ? SVID_NO_MEMBER : SVID_CLOSED;
        at = kind ? "no member" : "a closed validator";
        open_validator(&v, 1);
        if (!kind) svid_validator_close(&v);
        for (int which = KNOW; which <= WITHDRAWAL_OVERDUE; which++) {
            clear(&got);
            loan l = lent(&v, &got);
            with_card(&l, &cards[FIRST], &handles[FIRST]);
            l.found = &f, l.terms = &terms;
            make(which, &l);
            holds(got.status == status && writes_nothing(), "it does something");
        }
        if (!kind) holds((answered = svid_member_open(&v, &terms)) == SVID_CLOSED && !v.word && !v.held, "it opens");
        else holds(moment_of(&v) == 0, "it moves the record");
        svid_validator_close(&v);
    }
    at = "svid_member_open";
    open_validator(&v, 1);
    for (uint64_t mode = SVID_REUSE + 1; mode; mode = mode < 8 ? mode + 1 : mode << 7) {
        terms.mode = mode;
        holds((answered = svid_member_open(&v, &terms)) == SVID_NO_MODE && svid_member_judges(&v) == SVID_NO_MEMBER, "a mode that is none");
    }
    terms.mode = SVID_REUSE;
    holds((answered = svid_member_open(&v, &terms)) == SVID_OK, "a mode");
    terms.mode = 77;
    holds((answered = svid_member_open(&v, &terms)) == SVID_IS_OPEN, "a second member");
    svid_validator_close(&v);
    open_validator(&v, 1);
    holds(svid_validator_log(&v, &from, 0, LASTS, NULL, 0, &told) == SVID_OK && (answered = svid_member_open(&v, &terms)) == SVID_HAS_LOG, "a validator that reads a log");
    holds(svid_member_judges(&v) == SVID_NO_MEMBER, "it has no member");
    svid_validator_close(&v);
    /* Of the calls that judge: a closed token, a jump, a small room, a log; in this order. */
    static const struct { int which; const char *name; } judging[] = { { JUDGE, "svid_member_judge" }, { FOUND, "svid_member_found" }, { ASK, "svid_member_ask" } };
    for (size_t i = 0; i < COUNT(judging); i++) {
        int which = judging[i].which;
        for (unsigned bits = 1; bits < 16; bits++) {
            static const uint32_t statuses[] = { SVID_CLOSED, SVID_JUMP, SVID_TOO_SHORT, SVID_HAS_LOG };
            int first = bits & 1 ? 0 : bits & 2 ? 1 : bits & 4 ? 2 : 3;
            at = judging[i].name;
            join(&v, 1, 1, SVID_STRICT, 0);
            holds(svid_validator_tick(&v, NOW, &told) == SVID_OK, "a tick");
            if (which != ASK) come(&v, UP);
            if (which == FOUND) judge(&v, UP, 0, FIRST);
            if (bits & 8) holds(svid_validator_log(&v, &from, 0, LASTS, NULL, 0, &told) == SVID_OK, "a log");
            store s = { .time = NOW };
            f = put_of_life(&s, &own, 1);
            clear(&got);
            loan l = lent(&v, &got);
            with_card(&l, &cards[FIRST], bits & 1 ? &closed : &handles[FIRST]);
            if (bits & 2) l.now = NOW + TERMS.step + 1;
            if (bits & 4) l.room = SVID_ID_ROOM - 1;
            l.found = &f;
            make(which, &l);
            holds(got.status == statuses[first] && got.told.len == (first == 2 ? SVID_ID_ROOM : 0), "the first reason");
            got.told.len = 0;
            holds(writes_nothing() && moment_of(&v) == NOW && uses_of(&v) == 0, "nothing happens");
            if (!(bits & 8)) {
                if (which == ASK) come(&v, UP), does(SVID_OK, to_judge(0), "no request came");
                else if (which == JUDGE) judge(&v, UP, 0, FIRST), accepts(FIRST, own, to_claim(0, &own), "the request still waits");
                else found(&v, UP, 0, FIRST, &f), accepts(FIRST, own, acceptance(0, NONE, &own), "the request still waits");
            }
            svid_validator_close(&v);
        }
    }
    /* The clock may be `step` seconds past the record's moment, and no more. */
    at = "a clock that goes ahead";
    join(&v, 1, 1, SVID_REUSE, 0);
    holds(svid_validator_tick(&v, NOW - TERMS.step, &told) == SVID_OK, "a tick");
    come(&v, UP);
    judge_at(&v, NOW, UP, 0, FIRST);
    accepts(FIRST, own, acceptance(0, NONE, &own), "no jump");
    come(&v, UP);
    judge_at(&v, NOW - 50, UP, 1, FIRST);
    accepts(FIRST, own, acceptance(1, NONE, &own), "a clock that goes back counts as the record's moment");
    svid_validator_close(&v);
}

/* SVID_UNASKED if a request does not wait for a judgment, or not for the answer to its claim; also if its caller may not call. */
static void unasked_walk(void) {
    svid_found f = { NOW, 0, { 0 } };
    for (int may = 0; may < 2; may++) {
        svid_validator v;
        at = may ? "a request that does not wait" : "one that does not wait, of a caller that may not call";
        join(&v, 1, 1, SVID_STRICT, 0);
        rules(&v, "ledger", (uint64_t)may, "");
        judge(&v, UP, 7, FIRST);
        refuses(SVID_UNASKED, nothing(), "a number that nobody has");
        holds(moment_of(&v) == 0, "the record moves");
        found(&v, UP, 7, FIRST, &f);
        refuses(SVID_UNASKED, nothing(), "the claim of nobody");
        come(&v, UP);
        found(&v, UP, 0, FIRST, &f);
        refuses(SVID_UNASKED, nothing(), "a request that did not claim");
        judge(&v, UP + WAIT, 0, FIRST);
        refuses(SVID_UNASKED, nothing(), "a request whose time is over");
        holds(moment_of(&v) == 0, "the record moves");
        svid_validator_close(&v);
    }
    /* Another's token is no answer for a request. */
    svid_validator v;
    store s = { .time = NOW };
    svid_use own = use_of(FIRST, NOW, 1);
    at = "the token of another request";
    join(&v, 1, 1, SVID_STRICT, 0);
    rules(&v, "ledger", 0, "spiffe://example.org/billing/api");
    come(&v, UP);
    judge(&v, UP, 0, FIRST);
    accepts(FIRST, own, to_claim(0, &own), "it claims");
    f = put_of_life(&s, &own, 1);
    found(&v, UP, 0, GUEST, &f);
    refuses(SVID_UNASKED, nothing(), "a token of a caller that may not call");
    found(&v, UP, 0, FIRST, &f);
    accepts(FIRST, own, acceptance(0, NONE, &own), "its own token");
    svid_validator_close(&v);
}

/* What a request does that comes, is judged, and hears of a claim, in three calls that write to the same room. */
static void in_three_calls(svid_validator *v, uint64_t now, uint64_t up, int which, const uint8_t *caller, const svid_known_claim *claim) {
    come(v, up);
    loan l = lent(v, &got);
    with_card(&l, &cards[which], &handles[which]);
    l.now = now, l.up = up, l.number = got.deed.number, l.caller = caller, l.found = &claim->found;
    if (got.status != SVID_OK) return;
    make(JUDGE, &l);
    if (got.deed.what == SVID_DEED_CLAIM && got.deed.used.exp == claim->exp && !memcmp(got.deed.used.key, claim->key, sizeof claim->key)) make(FOUND, &l);
    if (got.deed.what == SVID_DEED_NOTHING) got.deed.number = l.number;
}

/* svid_member_ask does what these three do: in each mode, of each token, whatever is known of its claim, and whether it may be asked or not. */
static void ask_walk(void) {
    enum { IS_NONE, IS_OWN, IS_OF_ANOTHER, IS_WITHDRAWN, IS_FAR, IS_DEAF, IS_OF_ANOTHER_EXPIRY, IS_OF_ANOTHER_KEY, KINDS };
    static answer three;
    static uint8_t told_of[2][4096];
    int heard = 0;
    at = "svid_member_ask";
    for (uint64_t mode = SVID_ONCE; mode <= SVID_REUSE; mode++) for (int which = 0; which < CARDS; which++) for (int kind = 0; kind < KINDS; kind++) for (int state = 0; state < 4; state++) {
        svid_validator v[2];
        svid_use own = use_of(which, NOW, 1);
        svid_known_claim claim = { own.exp, { 0 }, { NOW, 0, { 0 } } };
        memcpy(claim.key, own.key, sizeof claim.key);
        store s = { .time = kind == IS_FAR ? NOW - LASTS : NOW, .deaf = kind == IS_DEAF ? own.exp : 0 };
        if (kind == IS_OF_ANOTHER) put(&s, own.key, OWNER_TWO);
        if (kind != IS_WITHDRAWN) claim.found = mode == SVID_STRICT ? put_of_life(&s, &own, 1) : put_of_caller(&s, &own, OWNER_ONE);
        if (kind == IS_OF_ANOTHER_EXPIRY) claim.exp++;
        if (kind == IS_OF_ANOTHER_KEY) claim.key[31] ^= 1;
        for (int i = 0; i < 2; i++) {
            static const svid_known none;
            join(&v[i], 1, 1, mode, 1);
            if (state == 1) rules(&v[i], "ledger", 0, "");
            if (state == 2) holds(svid_member_know(&v[i], &none) == SVID_OK, "what it knows");
            if (state == 3) come(&v[i], UP), judge(&v[i], UP, 0, which); /* (another request has the claim) */
        }
        for (int turn = 0; turn < 3; turn++) {
            const uint8_t *caller = turn == 1 ? OWNER_TWO : OWNER_ONE;
            in_three_calls(&v[0], NOW + (uint64_t)turn, UP, which, caller, kind == IS_NONE ? &NO_CLAIM : &claim);
            memcpy(&three, &got, sizeof got);
            ask_at(&v[1], NOW + (uint64_t)turn, UP, which, caller, kind == IS_NONE ? &NO_CLAIM : &claim);
            if (memcmp(&got, &three, sizeof got)) printf("mode %d, card %d, kind %d, state %d, turn %d: %u and %u\n", (int)mode, which, kind, state, turn, got.status, three.status);
            holds(!memcmp(&got, &three, sizeof got), "it does what three calls do");
            heard += got.status == SVID_OK && got.deed.what == SVID_DEED_ANSWER && (mode == SVID_STRICT || mode == SVID_BOUND);
            holds(due(&v[0]) == due(&v[1]), "when it is due");
        }
        size_t len = record(&v[0], told_of[0], sizeof told_of[0]);
        holds(len == record(&v[1], told_of[1], sizeof told_of[1]) && !memcmp(told_of[0], told_of[1], len), "its record");
        for (int i = 0; i < 2; i++) svid_validator_close(&v[i]);
    }
    holds(heard >= 9, "known claims are heard");
}

/* A call goes out at once if none is under way. Else it goes out after 20 ms, or if 32 claims wait and fewer than 4 calls are under way. No more than 64
 * are under way. The claims of a call without an answer wait 10 ms, and twice as long each time, up to 250 ms. */
static void pacing_walk(void) {
    svid_pacing p = SVID_PACING_FIRST;
    at = "pacing";
    holds(!svid_pacing_may_send(&p, UP, 0) && svid_pacing_may_send(&p, 0, 1) && svid_pacing_due(&p) == 20, "no call is under way");
    for (uint64_t calls = 1; calls < 70; calls++) {
        svid_pacing_sent(&p, UP + calls);
        holds(p.calls == calls && p.at == UP + calls && p.pause == 10, "a call goes out");
        holds(svid_pacing_due(&p) == (calls < 64 ? UP + calls + 20 : NONE), "when the next one goes out");
        for (uint64_t waiting = 0; waiting < 40; waiting++) {
            for (uint64_t ms = 0; ms < 25; ms++) {
                int may = waiting > 0 && calls < 64 && (ms >= 20 || (waiting >= 32 && calls < 4));
                holds(svid_pacing_may_send(&p, UP + calls + ms, waiting) == (uint32_t)may, "whether a call goes out");
            }
        }
    }
    for (uint64_t pause = 10, turn = 0; turn < 8; turn++, pause = pause * 2 < 250 ? pause * 2 : 250) {
        holds(p.pause == pause && svid_pacing_unanswered(&p) == pause && p.calls == 68 - turn, "how long claims wait");
    }
    svid_pacing_answered(&p);
    holds(p.pause == 10 && p.calls == 60 && p.at == UP + 69, "an answer");
    for (int k = 0; k < 70; k++) svid_pacing_answered(&p);
    holds(p.calls == 0 && svid_pacing_unanswered(&p) == 10 && p.calls == 0 && p.pause == 20, "no call is left");
    p.at = UINT64_MAX - 5, p.calls = 1;
    holds(svid_pacing_due(&p) == NONE && !svid_pacing_may_send(&p, UINT64_MAX - 1, 1) && svid_pacing_may_send(&p, UINT64_MAX, 1), "the end of time");
    p.calls = UINT64_MAX;
    svid_pacing_sent(&p, 3);
    holds(p.calls == UINT64_MAX && p.at == 3, "the end of numbers");
}

static void open_cards(void) { for (int i = 0; i < CARDS; i++) open_card(&handles[i], &cards[i]); }
static void close_cards(void) { for (int i = 0; i < CARDS; i++) svid_token_close(&handles[i]); }

static void answers(void) {
    open_cards();
    for (uint64_t disk = 0; disk < 2; disk++) once_walk(disk);
    strict_walk();
    line_walk();
    race_walk();
    store_walk();
    bound_walk();
    reuse_walk();
    late_walk();
    callers_walk();
    rules_walk();
    readiness_walk();
    withdrawals_walk();
    nothing_happens();
    ask_walk();
    pacing_walk();
    unasked_walk();
    close_cards();
    printf("each mode, from the request to its answer");
}

/* ---- Two members and one store, whose events come in a random order ---- */

static uint64_t seed = 1;
static uint64_t below(uint64_t n) { seed ^= seed << 13, seed ^= seed >> 7, seed ^= seed << 17; return seed % n; }

/* A request: the token that it came with, how far it is by what the deeds said, and its answer. */
enum { TO_JUDGE, TO_WRITE, TO_CLAIM, TO_WAIT, DONE };
typedef struct { int card, stage, is_turn, answers, is_put; uint64_t status, deadline; svid_use used; uint8_t caller[32]; svid_found last; } request;
enum { MEMBERS = 2, MOST_REQUESTS = 400, STEPS = 4000, RANDOM_CARDS = 24 };
static card random_cards[RANDOM_CARDS];
static svid_token random_handles[RANDOM_CARDS];

/* A member with its requests, what its disk has, and how often it accepted each token over its restarts. */
typedef struct { svid_validator v; uint8_t life; request requests[MOST_REQUESTS]; uint64_t count; uint8_t disk[RANDOM_CARDS][SVID_BATCH_OF_LEN]; size_t written; int accepted[RANDOM_CARDS]; svid_known_claim known[RANDOM_CARDS]; } peer;
static peer peers[MEMBERS];
static int accepted_in_all[RANDOM_CARDS], accepted_of[RANDOM_CARDS], accepted_ever;

static int is_late(const request *r, uint64_t up) { return r->deadline <= up; }

/* Whether a request holds the claim of its token; the first of the others that does, or that waits for it. */
static int has_claim(const request *r) { return r->stage == TO_CLAIM || (r->stage == TO_JUDGE && r->is_turn); }
static uint64_t first_of(const peer *p, int card_of, int waits) {
    uint64_t n = 0;
    while (n < p->count && (p->requests[n].card != card_of || (waits ? p->requests[n].stage != TO_WAIT : !has_claim(&p->requests[n])))) n++;
    return n < p->count ? n : NONE;
}

/* Checks a deed against what happened before, and does what it says. */
static void follow(peer *p, uint64_t mode) {
    svid_deed deed = got.deed;
    request *r = &p->requests[deed.number];
    if (deed.what == SVID_DEED_NOTHING) return;
    holds(deed.number < p->count && r->stage != DONE, "a request that was answered");
    if (deed.what == SVID_DEED_APPEND || (deed.what == SVID_DEED_CLAIM && r->stage != TO_CLAIM)) {
        holds(r->stage == TO_JUDGE && (deed.what == SVID_DEED_APPEND) == (mode == SVID_ONCE), "a write or a claim");
        r->stage = deed.what == SVID_DEED_APPEND ? TO_WRITE : TO_CLAIM, r->used = deed.used;
    }
    if (deed.what != SVID_DEED_ANSWER) return;
    holds(deed.next == (has_claim(r) ? first_of(p, r->card, 1) : NONE), "whose turn it is");
    r->stage = DONE, r->status = deed.status, r->answers++;
    if (deed.next != NONE) p->requests[deed.next].stage = TO_JUDGE, p->requests[deed.next].is_turn = 1;
    if (deed.status != SVID_OK) return;
    accepted_ever++, accepted_in_all[r->card]++, p->accepted[r->card]++;
    if (mode == SVID_ONCE) holds(p->accepted[r->card] == 1, "a member accepts a token twice");
    if (mode == SVID_STRICT) holds(accepted_in_all[r->card] == 1, "a group accepts a token twice");
    if (mode == SVID_BOUND) holds(accepted_in_all[r->card] == 1 || accepted_of[r->card] == r->caller[0], "a token of two callers");
    accepted_of[r->card] = r->caller[0];
}

/* Starts a member, or restarts it: with a new life, and with what its disk has. Its requests are gone. */
static void start(peer *p, uint8_t id, uint64_t mode) {
    svid_told told;
    if (p->life) svid_validator_close(&p->v);
    join(&p->v, id, ++p->life, mode, 1);
    p->count = 0;
    for (size_t i = 0; i < p->written; i++) {
        answered = svid_validator_take(&p->v, NOW, p->disk[i], SVID_BATCH_OF_LEN, &told);
        holds(answered == SVID_OK, "what is on the disk");
    }
}

/* One event of a request of a member. */
static void event(peer *p, store *s, uint64_t mode, uint64_t up, uint64_t kind, uint64_t n) {
    request *r = &p->requests[n];
    int was = r->stage, late = is_late(r, up);
    clear(&got);
    loan l = lent(&p->v, &got);
    with_card(&l, &random_cards[r->card], &random_handles[r->card]);
    l.up = up, l.number = n, l.caller = r->caller, l.ok = below(4) != 0;
    if (kind < 2) {
        make(JUDGE, &l);
        holds((got.status != SVID_UNASKED) == (was == TO_JUDGE && !late), "whether it is judged");
        int joins = got.status == SVID_OK && (mode == SVID_STRICT || mode == SVID_BOUND);
        if (joins) holds(got.deed.what == (r->is_turn || first_of(p, r->card, 0) == NONE ? SVID_DEED_CLAIM : SVID_DEED_NOTHING), "one claim of a token");
        if (joins && got.deed.what == SVID_DEED_NOTHING) r->stage = TO_WAIT;
    } else if (kind == 2) {
        make(WROTE, &l);
        if (was == TO_WRITE && l.ok) svid_batch_of(&r->used, p->disk[p->written++]);
        if (was == TO_WRITE) holds(got.deed.what == SVID_DEED_ANSWER && got.deed.status == (late ? SVID_LATE : l.ok ? SVID_OK : SVID_NOT_KEPT), "what the write brought");
        else does(SVID_OK, nothing(), "a write that nobody waits for");
    } else if (kind == 3) {
        make(SEND, &l);
        if (was != TO_CLAIM) does(SVID_OK, nothing(), "a claim that nobody waits for");
        else if (late) does(SVID_OK, refusal(n, SVID_LATE, got.deed.next), "a claim that is late");
        else {
            does(SVID_OK, to_claim(n, &r->used), "a claim goes out");
            /* (a put may be lost on its way to the store) */
            if (below(4)) {
                svid_known_claim *known = &p->known[r->card];
                r->last = mode == SVID_BOUND ? put_of_caller(s, &r->used, r->caller) : put_of_life(s, &r->used, p->life), r->is_put = 1;
                known->exp = r->used.exp, known->found = r->last;
                memcpy(known->key, r->used.key, sizeof known->key);
            }
        }
    } else if (kind == 4 && r->is_put) {
        /* (an answer of the store may come twice, and late) */
        l.found = &r->last;
        make(FOUND, &l);
        holds((got.status != SVID_UNASKED) == (was == TO_CLAIM && !late), "whether it waits for the store");
    } else if (kind == 5) {
        make(LEAVE, &l);
        if (was == DONE || was == TO_WRITE) does(SVID_OK, nothing(), "a request that can't leave");
        else does(SVID_OK, refusal(n, SVID_LEFT, got.deed.next), "it leaves");
    } else {
        got.deed = nothing();
    }
}

/* The last request of a member comes and is judged in one call, by what the store answered to the last put of its token here. */
static void ask_in(peer *p, uint64_t mode, uint64_t up) {
    uint64_t n = p->count - 1;
    request *r = &p->requests[n];
    clear(&got);
    loan l = lent(&p->v, &got);
    with_card(&l, &random_cards[r->card], &random_handles[r->card]);
    l.up = up, l.caller = r->caller, l.claim = &p->known[r->card];
    int is_free = first_of(p, r->card, 0) == NONE;
    make(ASK, &l);
    holds(got.deed.number == n, "a request comes");
    if (got.status == SVID_OK && (mode == SVID_STRICT || mode == SVID_BOUND)) holds((got.deed.what != SVID_DEED_NOTHING) == is_free, "one claim of a token");
    if (got.deed.what == SVID_DEED_NOTHING) r->stage = TO_WAIT;
}

static void random_walk(uint64_t mode) {
    store s = { .time = NOW };
    uint64_t up = UP;
    memset(peers, 0, sizeof peers);
    memset(accepted_in_all, 0, sizeof accepted_in_all);
    for (int m = 0; m < MEMBERS; m++) start(&peers[m], (uint8_t)(m + 1), mode);
    for (int step = 0; step < STEPS; step++) {
        int m = (int)below(MEMBERS);
        peer *p = &peers[m];
        uint64_t kind = below(12);
        up += below(8) == 0 ? below(20) : 0;
        if (below(1000) == 0) start(p, (uint8_t)(m + 1), mode);
        if (kind >= 9 && p->count < MOST_REQUESTS) {
            request r = { .card = (int)below(RANDOM_CARDS), .deadline = up + WAIT, .caller = { (uint8_t)(1 + below(2)) } };
            /* (every other one comes with the token of another that waits) */
            if (p->count && below(2)) r.card = p->requests[p->count - 1].card;
            p->requests[p->count++] = r;
            if (below(3)) come(&p->v, up), does(SVID_OK, to_judge(p->count - 1), "a request comes");
            else ask_in(p, mode, up), follow(p, mode);
        } else if (kind == 6) {
            uint64_t first = 0;
            while (first < p->count && p->requests[first].stage == DONE) first++;
            overdue(&p->v, up);
            if (first < p->count && is_late(&p->requests[first], up)) does(SVID_OK, refusal(first, SVID_LATE, got.deed.next), "the first is late");
            else does(SVID_OK, nothing(), "nobody is late");
            follow(p, mode);
        } else if (p->count && kind != 5) {
            uint64_t recent = p->count < 12 ? p->count : 12;
            event(p, &s, mode, up, below(20) ? kind % 5 : 5, below(5) ? p->count - 1 - below(recent) : below(p->count));
            follow(p, mode);
        }
    }
    /* In the end all are late, and each has had one answer. */
    for (int m = 0; m < MEMBERS; m++) {
        while (due(&peers[m].v) != NONE) {
            overdue(&peers[m].v, up + WAIT);
            holds(got.deed.what == SVID_DEED_ANSWER, "it is answered");
            follow(&peers[m], mode);
        }
        for (uint64_t n = 0; n < peers[m].count; n++) holds(peers[m].requests[n].answers == 1, "each request has one answer");
        svid_validator_close(&peers[m].v);
    }
}

static void random_walks(void) {
    for (int i = 0; i < RANDOM_CARDS; i++) { write_card(&random_cards[i], SUBJECTS[FIRST], "ledger", EXP, 10 + i); open_card(&random_handles[i], &random_cards[i]); }
    for (int round = 0; round < 100; round++) {
        static const char *const modes[] = { "random, once", "random, strict", "random, bound", "random, reuse" };
        at = modes[round % 4];
        random_walk((uint64_t)round % 4);
    }
    for (int i = 0; i < RANDOM_CARDS; i++) svid_token_close(&random_handles[i]);
    printf("100 walks of %d steps, %d acceptances", STEPS, accepted_ever);
}

int main(int count, char **words) {
    static const part walk_parts[] = { { "answers", answers }, { "random", random_walks } };
    read_examples();
    write_cards();
    return run_part(count, words, walk_parts, COUNT(walk_parts));
}
