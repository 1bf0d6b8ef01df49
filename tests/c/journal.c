/* Makes the calls on a state folder (svid.h, "A state folder").
 *
 *   journal calls      each call with each of its faults, a start, appends, a switch and a read; linked with --wrap for malloc and realloc, which
 *                      these calls never reach
 *   journal bits       each byte of a journal and of a snapshot changed to each other value: found, with its offset; and each front of them
 *   journal positions  the position of a validator in its log, in front of messages: rooms and payloads of each length
 *   journal guarded    all that a call is lent between pages that can't be touched, right before the one and right behind the other
 *   journal nulls      NULL for a payload and for a file of no bytes
 *   journal stack      each call on a painted stack, which tells how much of it the call needs */
#include "harness.h"

/* The stack that a call may take: far less than svid.h says of each call of the library. */
#define STACK_MOST_HERE 16384

STANDS_AT(svid_folder, step, 0); STANDS_AT(svid_folder, oldest, 8); STANDS_AT(svid_folder, newest, 16); STANDS_AT(svid_folder, ended, 24);
STANDS_AT(svid_folder, count, 32); STANDS_AT(svid_folder, end, 40); STANDS_AT(svid_folder, flying, 48); STANDS_AT(svid_folder, pieces, 56);
STANDS_AT(svid_due, call, 0); STANDS_AT(svid_due, journal, 8);
STANDS_AT(svid_reader, count, 0); STANDS_AT(svid_reader, at, 8); STANDS_AT(svid_reader, marked, 16);
STANDS_AT(svid_bears, mark, 0); STANDS_AT(svid_bears, marked, 24); STANDS_AT(svid_bears, messages, 32);
STANDS_AT(svid_frame, payload, 0); STANDS_AT(svid_frame, len, 8); STANDS_AT(svid_frame, format, 16);
_Static_assert(sizeof(svid_folder) == 64 && sizeof(svid_folder_id) == 16 && sizeof(svid_due) == 16 && sizeof(svid_reader) == 24 && sizeof(svid_frame) == 24 && sizeof(svid_bears) == 40, "sizes");

static const svid_folder_id OURS = { { 7, 7, 7, 7, 7, 7, 7, 7, 7, 7, 7, 7, 7, 7, 7, 7 } };
static const svid_folder_id ANOTHER = { { 8 } };

/* What Python's hashlib makes of journal 3 of OURS: number 1 with the payload `hi`, and number 2, a mark. */
static const uint8_t FILE_3[72] = {
    59, 243, 163, 178, 107, 78, 57, 69, 109, 100, 0, 155, 235, 197, 173, 35, 37, 148, 217, 5, 0, 0, 0, 0, 0, 0, 0, 1, 2, 0, 0, 2,
    104, 105, 255, 255, 255, 255, 255, 255,
    142, 191, 192, 139, 126, 100, 115, 134, 84, 196, 149, 108, 199, 167, 10, 248, 131, 79, 10, 85, 0, 0, 0, 0, 0, 0, 0, 2, 2, 0, 0, 0 };
/* And of number 1 of that journal with the payload `hi`, its head in format 1 and in format 3. */
static const uint8_t OLDER[32] = { 13, 139, 96, 242, 198, 195, 198, 65, 119, 108, 28, 191, 100, 142, 167, 241, 209, 175, 72, 149, 0, 0, 0, 0, 0, 0, 0, 1, 1, 0, 0, 2 };
static const uint8_t NEWER[32] = { 64, 159, 114, 228, 43, 110, 223, 134, 97, 30, 238, 151, 179, 106, 112, 208, 144, 38, 63, 130, 0, 0, 0, 0, 0, 0, 0, 1, 3, 0, 0, 2 };

static long made;

/* The calls in numbers, so that each can be made with what a row says. */
enum { OPEN, BEGIN, DUE, ANSWER, PUT, SYNCED, UNWRITTEN, FAILED, PIECE, READ, MARK, BEARS, CALLS };
static const char *const NAMES[] = { "open", "begin", "due", "answer", "put", "synced", "unwritten", "failed", "piece", "read", "position", "bears" };

/* What a call is lent. */
typedef struct {
    svid_folder *f;
    const svid_folder_id *folder_id;
    svid_due *due;
    svid_told *told;
    svid_reader *reader;
    svid_frame *frame;
    const uint8_t *bytes;
    uint8_t *out;
    size_t len, room;
    uint64_t first, second;
    svid_mark *mark;
    svid_bears *bears;
} loan;

static uint32_t make(int which, const loan *l) {
    made++;
    switch (which) {
    case OPEN: return svid_journal_open(l->f, l->first, l->second);
    case BEGIN: return svid_journal_begin(l->f);
    case DUE: return svid_journal_due(l->f, l->due);
    case ANSWER: return svid_journal_answer(l->f, (uint32_t)l->first);
    case PUT: return svid_journal_put(l->f, l->folder_id, l->bytes, l->len, l->out, l->room, l->told);
    case SYNCED: return svid_journal_synced(l->f);
    case UNWRITTEN: return svid_journal_unwritten(l->f);
    case FAILED: return svid_journal_failed(l->f);
    case PIECE: return svid_journal_piece(l->f, l->folder_id, l->bytes, l->len, l->out, l->room, l->told);
    case READ: return svid_journal_read(l->folder_id, l->first, l->bytes, l->len, l->reader, l->frame);
    case MARK: return svid_journal_position(l->mark, l->out, l->room, l->told);
    default: svid_journal_bears(l->bytes, l->len, l->bears); return SVID_OK;
    }
}

/* What a call of a row finds and leaves. */
typedef struct { svid_folder f; svid_due due; svid_told told; svid_reader reader; svid_frame frame; svid_mark mark; svid_bears bears; uint8_t out[256]; } state;

static void clear(state *s) {
    memset(s, 0xA5, sizeof *s);
    memset(&s->told, 0, sizeof s->told);
}

static uint32_t call(int which, state *s, const void *bytes, size_t len, size_t room, uint64_t first, uint64_t second) {
    loan l = { &s->f, &OURS, &s->due, &s->told, &s->reader, &s->frame, bytes, s->out, len, room, first, second, &s->mark, &s->bears };
    at = NAMES[which];
    return answered = make(which, &l);
}

#define MOST (UINT64_C(1) << 62)
#define NUMBERS(...) { __VA_ARGS__ }

/* Each call with each of its faults, and what else it does: the numbers before it, its answer, and the numbers behind it. */
typedef struct { int which; svid_folder before; uint64_t ok; size_t len, room; uint32_t status; svid_folder after; } row;
static const row ROWS[] = {
    /* numbers of no folder */
    { BEGIN, NUMBERS(11, 1, 1, 0, 0, 0, 0, 0), 0, 0, 0, SVID_FOLDER_UNFIT, NUMBERS(11, 1, 1, 0, 0, 0, 0, 0) },
    { BEGIN, NUMBERS(0, 1, 1, 2, 0, 0, 0, 0), 0, 0, 0, SVID_FOLDER_UNFIT, NUMBERS(0, 1, 1, 2, 0, 0, 0, 0) },
    { BEGIN, NUMBERS(0, 2, 1, 0, 0, 0, 0, 0), 0, 0, 0, SVID_FOLDER_UNFIT, NUMBERS(0, 2, 1, 0, 0, 0, 0, 0) },
    { BEGIN, NUMBERS(0, 1, MOST, 0, 0, 0, 0, 0), 0, 0, 0, SVID_FOLDER_UNFIT, NUMBERS(0, 1, MOST, 0, 0, 0, 0, 0) },
    { DUE, NUMBERS(5, 2, 2, 0, 0, 0, 0, 0), 0, 0, 0, SVID_FOLDER_UNFIT, NUMBERS(5, 2, 2, 0, 0, 0, 0, 0) },
    { ANSWER, NUMBERS(1, 1, 0, 0, 0, 0, 64, 0), 1, 0, 0, SVID_FOLDER_UNFIT, NUMBERS(1, 1, 0, 0, 0, 0, 64, 0) },
    { PUT, NUMBERS(0, 1, 1, 0, MOST, 0, 0, 0), 0, 2, 64, SVID_FOLDER_UNFIT, NUMBERS(0, 1, 1, 0, MOST, 0, 0, 0) },
    { SYNCED, NUMBERS(0, 1, 1, 0, 0, MOST, 64, 0), 0, 0, 0, SVID_FOLDER_UNFIT, NUMBERS(0, 1, 1, 0, 0, MOST, 64, 0) },
    { UNWRITTEN, NUMBERS(0, 1, 1, 0, 0, 0, 33554433, 0), 0, 0, 0, SVID_FOLDER_UNFIT, NUMBERS(0, 1, 1, 0, 0, 0, 33554433, 0) },
    { FAILED, NUMBERS(0, UINT64_MAX, 1, 0, 0, 0, 0, 0), 0, 0, 0, SVID_FOLDER_UNFIT, NUMBERS(0, UINT64_MAX, 1, 0, 0, 0, 0, 0) },
    { PIECE, NUMBERS(5, 1, 2, 0, 0, 0, 0, MOST), 0, 2, 64, SVID_FOLDER_UNFIT, NUMBERS(5, 1, 2, 0, 0, 0, 0, MOST) },
    /* after a sync that failed */
    { BEGIN, NUMBERS(0, 1, 1, 1, 2, 96, 0, 0), 0, 0, 0, SVID_FOLDER_ENDED, NUMBERS(0, 1, 1, 1, 2, 96, 0, 0) },
    { DUE, NUMBERS(0, 1, 1, 1, 2, 96, 0, 0), 0, 0, 0, SVID_FOLDER_ENDED, NUMBERS(0, 1, 1, 1, 2, 96, 0, 0) },
    { ANSWER, NUMBERS(0, 1, 1, 1, 2, 96, 0, 0), 1, 0, 0, SVID_FOLDER_ENDED, NUMBERS(0, 1, 1, 1, 2, 96, 0, 0) },
    { PUT, NUMBERS(0, 1, 1, 1, 2, 96, 0, 0), 0, 2, 64, SVID_FOLDER_ENDED, NUMBERS(0, 1, 1, 1, 2, 96, 0, 0) },
    { SYNCED, NUMBERS(0, 1, 1, 1, 2, 96, 0, 0), 0, 0, 0, SVID_FOLDER_ENDED, NUMBERS(0, 1, 1, 1, 2, 96, 0, 0) },
    { UNWRITTEN, NUMBERS(0, 1, 1, 1, 2, 96, 0, 0), 0, 0, 0, SVID_FOLDER_ENDED, NUMBERS(0, 1, 1, 1, 2, 96, 0, 0) },
    { FAILED, NUMBERS(0, 1, 1, 1, 2, 96, 0, 0), 0, 0, 0, SVID_FOLDER_ENDED, NUMBERS(0, 1, 1, 1, 2, 96, 0, 0) },
    { PIECE, NUMBERS(0, 1, 1, 1, 2, 96, 0, 0), 0, 2, 64, SVID_FOLDER_ENDED, NUMBERS(0, 1, 1, 1, 2, 96, 0, 0) },
    /* the other faults */
    { BEGIN, NUMBERS(3, 1, 1, 0, 0, 0, 0, 0), 0, 0, 0, SVID_FOLDER_BUSY, NUMBERS(3, 1, 1, 0, 0, 0, 0, 0) },
    { BEGIN, NUMBERS(0, 1, MOST - 1, 0, 0, 0, 0, 0), 0, 0, 0, SVID_FOLDER_FULL, NUMBERS(0, 1, MOST - 1, 0, 0, 0, 0, 0) },
    { ANSWER, NUMBERS(0, 1, 1, 0, 0, 0, 0, 0), 1, 0, 0, SVID_FOLDER_NOTHING_DUE, NUMBERS(0, 1, 1, 0, 0, 0, 0, 0) },
    { ANSWER, NUMBERS(4, 1, 1, 0, 0, 0, 64, 0), 1, 0, 0, SVID_FOLDER_FLYING, NUMBERS(4, 1, 1, 0, 0, 0, 64, 0) },
    { ANSWER, NUMBERS(5, 1, 2, 0, 0, 0, 0, 1), 1, 0, 0, SVID_FOLDER_NO_MARK, NUMBERS(5, 1, 2, 0, 0, 0, 0, 1) },
    { PUT, NUMBERS(1, 1, 0, 0, 0, 0, 0, 0), 0, 2, 64, SVID_FOLDER_NOT_GROWING, NUMBERS(1, 1, 0, 0, 0, 0, 0, 0) },
    { PUT, NUMBERS(2, 1, 0, 0, 0, 0, 0, 0), 0, 2, 64, SVID_FOLDER_NOT_GROWING, NUMBERS(2, 1, 0, 0, 0, 0, 0, 0) },
    { PUT, NUMBERS(0, 1, 1, 0, 0, 0, 32, 0), 0, 2, 64, SVID_FOLDER_FLYING, NUMBERS(0, 1, 1, 0, 0, 0, 32, 0) },
    { PUT, NUMBERS(0, 1, 1, 0, 0, 0, 0, 0), 0, SVID_PAYLOAD_MOST + 1, 64, SVID_FOLDER_TOO_LONG, NUMBERS(0, 1, 1, 0, 0, 0, 0, 0) },
    { PUT, NUMBERS(0, 1, 1, 0, MOST - 1, 0, 0, 0), 0, 2, 64, SVID_FOLDER_FULL, NUMBERS(0, 1, 1, 0, MOST - 1, 0, 0, 0) },
    { PUT, NUMBERS(0, 1, 1, 0, 0, MOST - 33554432, 0, 0), 0, 2, 64, SVID_FOLDER_FULL, NUMBERS(0, 1, 1, 0, 0, MOST - 33554432, 0, 0) },
    { PUT, NUMBERS(0, 1, 1, 0, 0, 0, 0, 0), 0, 2, 39, SVID_TOO_SHORT, NUMBERS(0, 1, 1, 0, 0, 0, 0, 0) },
    { SYNCED, NUMBERS(0, 1, 1, 0, 2, 96, 0, 0), 0, 0, 0, SVID_FOLDER_NOT_FLYING, NUMBERS(0, 1, 1, 0, 2, 96, 0, 0) },
    { UNWRITTEN, NUMBERS(0, 1, 1, 0, 2, 96, 0, 0), 0, 0, 0, SVID_FOLDER_NOT_FLYING, NUMBERS(0, 1, 1, 0, 2, 96, 0, 0) },
    { PIECE, NUMBERS(0, 1, 2, 0, 0, 0, 0, 0), 0, 2, 64, SVID_FOLDER_NOT_WRITING, NUMBERS(0, 1, 2, 0, 0, 0, 0, 0) },
    { PIECE, NUMBERS(6, 1, 2, 0, 0, 0, 0, 1), 0, 2, 64, SVID_FOLDER_NOT_WRITING, NUMBERS(6, 1, 2, 0, 0, 0, 0, 1) },
    { PIECE, NUMBERS(5, 1, 2, 0, 0, 0, 0, 0), 0, SVID_PAYLOAD_MOST + 1, 64, SVID_FOLDER_TOO_LONG, NUMBERS(5, 1, 2, 0, 0, 0, 0, 0) },
    { PIECE, NUMBERS(5, 1, 2, 0, 0, 0, 0, MOST - 1), 0, 2, 64, SVID_FOLDER_FULL, NUMBERS(5, 1, 2, 0, 0, 0, 0, MOST - 1) },
    { PIECE, NUMBERS(5, 1, 2, 0, 0, 0, 0, 0), 0, 0, 31, SVID_TOO_SHORT, NUMBERS(5, 1, 2, 0, 0, 0, 0, 0) },
    /* what they do: each step on, and back */
    { BEGIN, NUMBERS(0, 1, 1, 0, 2, 96, 32, 0), 0, 0, 0, SVID_OK, NUMBERS(3, 1, 1, 0, 2, 96, 32, 0) },
    { ANSWER, NUMBERS(1, 1, 2, 0, 0, 0, 0, 0), 1, 0, 0, SVID_OK, NUMBERS(2, 1, 2, 0, 0, 0, 0, 0) },
    { ANSWER, NUMBERS(2, 1, 2, 0, 0, 0, 0, 0), 1, 0, 0, SVID_OK, NUMBERS(0, 1, 3, 0, 0, 0, 0, 0) },
    { ANSWER, NUMBERS(3, 1, 3, 0, 2, 96, 32, 0), 7, 0, 0, SVID_OK, NUMBERS(4, 1, 3, 0, 2, 96, 32, 0) },
    { ANSWER, NUMBERS(4, 1, 3, 0, 2, 96, 0, 9), 1, 0, 0, SVID_OK, NUMBERS(5, 1, 4, 0, 0, 0, 0, 0) },
    { ANSWER, NUMBERS(6, 1, 4, 0, 0, 0, 0, 2), 1, 0, 0, SVID_OK, NUMBERS(7, 1, 4, 0, 0, 0, 0, 2) },
    { ANSWER, NUMBERS(7, 1, 4, 0, 0, 0, 0, 2), 1, 0, 0, SVID_OK, NUMBERS(8, 1, 4, 0, 0, 0, 0, 2) },
    { ANSWER, NUMBERS(8, 1, 4, 0, 0, 0, 0, 2), 1, 0, 0, SVID_OK, NUMBERS(9, 1, 4, 0, 0, 0, 0, 2) },
    { ANSWER, NUMBERS(9, 1, 4, 0, 0, 0, 0, 2), 1, 0, 0, SVID_OK, NUMBERS(10, 1, 4, 0, 0, 0, 0, 2) },
    { ANSWER, NUMBERS(10, 1, 4, 0, 0, 0, 0, 2), 1, 0, 0, SVID_OK, NUMBERS(10, 2, 4, 0, 0, 0, 0, 2) },
    { ANSWER, NUMBERS(10, 3, 4, 0, 0, 0, 0, 2), 1, 0, 0, SVID_OK, NUMBERS(0, 4, 4, 0, 0, 0, 0, 2) },
    { ANSWER, NUMBERS(1, 1, 2, 0, 0, 0, 0, 0), 0, 0, 0, SVID_OK, NUMBERS(0, 1, 2, 1, 0, 0, 0, 0) },
    { ANSWER, NUMBERS(2, 1, 2, 0, 0, 0, 0, 0), 0, 0, 0, SVID_OK, NUMBERS(0, 1, 2, 1, 0, 0, 0, 0) },
    { ANSWER, NUMBERS(3, 1, 3, 0, 2, 96, 32, 0), 0, 0, 0, SVID_OK, NUMBERS(0, 1, 3, 0, 2, 96, 32, 0) },
    { ANSWER, NUMBERS(4, 1, 3, 0, 2, 96, 32, 9), 0, 0, 0, SVID_OK, NUMBERS(0, 1, 3, 1, 2, 96, 0, 9) },
    { ANSWER, NUMBERS(5, 1, 4, 0, 0, 0, 0, 1), 0, 0, 0, SVID_OK, NUMBERS(0, 1, 4, 0, 0, 0, 0, 1) },
    { ANSWER, NUMBERS(6, 1, 4, 0, 0, 0, 0, 2), 0, 0, 0, SVID_OK, NUMBERS(0, 1, 4, 0, 0, 0, 0, 2) },
    { ANSWER, NUMBERS(7, 1, 4, 0, 0, 0, 0, 2), 0, 0, 0, SVID_OK, NUMBERS(0, 1, 4, 0, 0, 0, 0, 2) },
    { ANSWER, NUMBERS(8, 1, 4, 0, 0, 0, 0, 2), 0, 0, 0, SVID_OK, NUMBERS(0, 1, 4, 0, 0, 0, 0, 2) },
    { ANSWER, NUMBERS(9, 1, 4, 0, 1, 64, 32, 2), 0, 0, 0, SVID_OK, NUMBERS(0, 1, 4, 1, 1, 64, 0, 2) },
    { ANSWER, NUMBERS(10, 1, 4, 0, 0, 0, 0, 2), 0, 0, 0, SVID_OK, NUMBERS(0, 1, 4, 0, 0, 0, 0, 2) },
    { SYNCED, NUMBERS(0, 1, 1, 0, 2, 96, 64, 0), 0, 0, 0, SVID_OK, NUMBERS(0, 1, 1, 0, 3, 160, 0, 0) },
    { UNWRITTEN, NUMBERS(0, 1, 1, 0, 2, 96, 64, 0), 0, 0, 0, SVID_OK, NUMBERS(0, 1, 1, 0, 2, 96, 0, 0) },
    { FAILED, NUMBERS(6, 1, 2, 0, 2, 96, 64, 5), 0, 0, 0, SVID_OK, NUMBERS(0, 1, 2, 1, 2, 96, 0, 5) },
    { FAILED, NUMBERS(0, 1, 1, 0, 2, 96, 0, 0), 0, 0, 0, SVID_OK, NUMBERS(0, 1, 1, 1, 2, 96, 0, 0) },
    { PUT, NUMBERS(0, 1, 3, 0, 0, 0, 0, 0), 0, 2, 40, SVID_OK, NUMBERS(0, 1, 3, 0, 0, 0, 40, 0) },
    { PUT, NUMBERS(0, 1, 3, 0, 1, 64, 0, 0), 0, 0, 200, SVID_OK, NUMBERS(0, 1, 3, 0, 1, 64, 32, 0) },
    { PIECE, NUMBERS(5, 1, 3, 0, 1, 64, 32, 0), 0, 2, 40, SVID_OK, NUMBERS(5, 1, 3, 0, 1, 64, 32, 1) },
    { PIECE, NUMBERS(5, 1, 3, 0, 1, 64, 32, 1), 0, 0, 32, SVID_OK, NUMBERS(6, 1, 3, 0, 1, 64, 32, 2) },
};

/* Of a start: the numbers that were found, the answer, and which number is first. */
static void starts(void) {
    static const struct { uint64_t oldest, newest; uint32_t status; } all[] = {
        { 1, 0, SVID_OK }, { 1, 1, SVID_OK }, { 5, 9, SVID_OK }, { 10, 9, SVID_OK }, { 11, 9, SVID_FOLDER_UNFIT }, { 2, 0, SVID_FOLDER_UNFIT },
        { 1, MOST - 2, SVID_OK }, { 1, MOST - 1, SVID_FOLDER_FULL }, { 1, UINT64_MAX, SVID_FOLDER_FULL }, { UINT64_MAX, 1, SVID_FOLDER_UNFIT } };
    static state s, before;
    for (size_t i = 0; i < sizeof all / sizeof *all; i++) {
        svid_folder due = NUMBERS(1, all[i].oldest, all[i].newest, 0, 0, 0, 0, 0);
        clear(&s);
        before = s;
        holds(call(OPEN, &s, NULL, 0, 0, all[i].oldest, all[i].newest) == all[i].status, "a start");
        holds(!memcmp(&s.f, answered == SVID_OK ? &due : &before.f, sizeof s.f), "its numbers");
    }
}

/* The call that is due at each step. */
static void dues(void) {
    static const svid_due all[] = { { 0, 0 }, { 1, 5 }, { 2, 0 }, { 1, 5 }, { 2, 0 }, { 3, 0 }, { 3, 0 }, { 4, 0 }, { 5, 0 }, { 2, 0 }, { 6, 2 } };
    static state s;
    for (uint64_t step = 0; step <= 10; step++) {
        svid_folder f = NUMBERS(step, 2, 4, 0, 0, 0, 0, 0);
        clear(&s);
        s.f = f;
        holds(call(DUE, &s, NULL, 0, 0, 0, 0) == SVID_OK && !memcmp(&s.due, &all[step], sizeof s.due) && !memcmp(&s.f, &f, sizeof f), "the call that is due");
    }
}

/* The position of a validator that has passed 1 value, begun 258 uses of the next one, and is deaf until 65536, in front of a message. */
static const uint8_t POSITION[] = "JSL\1\0\0\0\0\0\0\0\1\0\0\0\0\0\0\1\2\0\0\0\0\0\1\0\0JSR";

/* A payload of a row. */
static const uint8_t HI[] = { 104, 105 };

static void calls(void) {
    static state s, before;
    static uint8_t zeros[SVID_PAYLOAD_MOST + 1];
    long allocated = asked;
    for (size_t i = 0; i < sizeof ROWS / sizeof *ROWS; i++) {
        const row *r = &ROWS[i];
        clear(&s);
        s.f = r->before;
        before = s;
        call(r->which, &s, r->len == 2 ? HI : zeros, r->len, r->room, r->ok, 0);
        if (answered != r->status || memcmp(&s.f, &r->after, sizeof s.f)) {
            printf("row %zu: ", i);
            fail("the answer, or the numbers behind it");
        }
        int frames = r->which == PUT || r->which == PIECE;
        size_t len = frames && (answered == SVID_OK || answered == SVID_TOO_SHORT) ? 32 + (r->len + 7) / 8 * 8 : 0;
        holds(!frames || (s.told.len == len && !s.told.input && !s.told.message && !s.told.offset && !s.told.more), "what is told");
        size_t written = answered == SVID_OK ? len : 0;
        holds(!memcmp(s.out + written, before.out + written, sizeof s.out - written), "bytes behind the frame, or of none");
        holds(answered == SVID_OK || !memcmp(&s.due, &before.due, sizeof s.due), "a fault writes a call");
    }
    starts();
    dues();
    /* the frames of journal 3 are those of hashlib */
    clear(&s);
    uint8_t file[72];
    svid_folder three = NUMBERS(0, 1, 3, 0, 0, 0, 0, 0);
    s.f = three;
    for (size_t number = 0; number < 2; number++) {
        holds(call(PUT, &s, HI, number ? 0 : 2, sizeof s.out, 0, 0) == SVID_OK, "a frame");
        memcpy(file + s.f.end, s.out, s.told.len);
        holds(call(SYNCED, &s, NULL, 0, 0, 0, 0) == SVID_OK, "a frame is synced");
    }
    holds(!memcmp(file, FILE_3, sizeof file) && s.f.end == 72 && s.f.count == 2, "the bytes of frames");
    holds(asked == allocated, "memory is asked for");
    printf("%ld calls, no allocation", made);
}

/* What stands behind all payloads of a file: the status, and the offset. */
typedef struct { uint32_t status; uint64_t offset, count; } stop;

static stop read_all(uint64_t journal, const svid_folder_id *folder_id, const uint8_t *bytes, size_t len) {
    svid_reader reader = SVID_READER_FIRST, kept;
    svid_frame frame = { 1, 2, 3 }, before;
    at = "read";
    for (;;) {
        kept = reader;
        before = frame;
        made++;
        answered = svid_journal_read(folder_id, journal, bytes, len, &reader, &frame);
        if (answered != SVID_OK) break;
        holds(reader.count == kept.count + 1 && frame.payload == kept.at + 32 && frame.format == 2, "a payload");
        holds(reader.at == kept.at + 32 + (frame.len + 7) / 8 * 8 && reader.at <= len && reader.marked == (frame.len == 0), "the reader goes on");
    }
    holds(!memcmp(&reader, &kept, sizeof reader), "a reader that stops goes on");
    if (answered == SVID_FILE_OTHER) holds(frame.payload == 0 && frame.len == 0 && frame.format != 2, "another format");
    else holds(!memcmp(&frame, &before, sizeof frame), "a frame is told where none is");
    stop found = { answered, reader.at, reader.count };
    return found;
}

static void is(const char *what, stop found, uint32_t status, uint64_t offset) {
    at = what;
    answered = found.status;
    if (found.offset != offset) printf("at %llu and not %llu: ", (unsigned long long)found.offset, (unsigned long long)offset);
    holds(found.status == status && found.offset == offset, "what stands in a file");
}

/* A file of frames with these lengths of payloads. */
static size_t file_of(uint64_t journal, const size_t *lens, size_t count, uint8_t *out, size_t room, size_t *offsets) {
    static uint8_t payload[100];
    svid_folder f = NUMBERS(journal ? 0 : 5, 1, journal ? journal : 2, 0, 0, 0, 0, 0);
    svid_told told;
    size_t len = 0;
    for (size_t i = 0; i < count; i++) {
        memset(payload, (int)(i + 1), sizeof payload);
        offsets[i] = len;
        answered = journal ? svid_journal_put(&f, &OURS, payload, lens[i], out + len, room - len, &told) : svid_journal_piece(&f, &OURS, payload, lens[i], out + len, room - len, &told);
        holds(answered == SVID_OK && (!journal || svid_journal_synced(&f) == SVID_OK), "a frame");
        len += told.len;
    }
    return len;
}

/* A mark of this number, behind so many zeros. */
static void behind(size_t zeros, uint64_t number, uint32_t status) {
    static uint8_t file[512];
    svid_folder f = NUMBERS(0, 1, 3, 0, number - 1, 0, 0, 0);
    svid_told told;
    memset(file, 0, sizeof file);
    at = "a frame behind";
    answered = svid_journal_put(&f, &OURS, NULL, 0, file + zeros, 32, &told);
    holds(answered == SVID_OK, "a mark");
    is("a frame behind", read_all(3, &OURS, file, zeros + 32), status, 0);
}

static void bits(void) {
    enum { COUNT = 5 };
    static const size_t LENS[COUNT] = { 65, 1, 8, 7, 0 };
    static uint8_t file[1024], other[1024 + 64];
    size_t offsets[COUNT], len = file_of(4, LENS, COUNT, file, sizeof file, offsets);
    is("the whole journal", read_all(4, &OURS, file, len), SVID_FILE_END, len);
    is("a journal of another number", read_all(5, &OURS, file, len), SVID_FILE_TEAR, 0);
    is("a journal of another folder", read_all(4, &ANOTHER, file, len), SVID_FILE_TEAR, 0);
    is("a journal as a snapshot", read_all(0, &OURS, file, len), SVID_FILE_DAMAGE, 0);
    for (size_t i = 0; i < len; i++) {
        size_t frame = COUNT - 1;
        while (offsets[frame] > i) frame--;
        for (int value = 0; value < 256; value++) {
            if (value == file[i]) continue;
            memcpy(other, file, len);
            other[i] = (uint8_t)value;
            /* What has a whole frame behind it is damage; the last frame was the mark that nobody waits for. */
            is("a changed byte", read_all(4, &OURS, other, len), frame == COUNT - 1 ? SVID_FILE_TEAR : SVID_FILE_DAMAGE, offsets[frame]);
        }
    }
    for (size_t cut = 0; cut < len; cut++) {
        size_t frame = COUNT - 1;
        while (offsets[frame] > cut) frame--;
        is("a front of a journal", read_all(4, &OURS, file, cut), cut == offsets[frame] ? SVID_FILE_END : SVID_FILE_TEAR, offsets[frame]);
        /* the rest was never written, so it is zeros */
        memset(other, 0, len);
        memcpy(other, file, cut);
        int whole = 1;
        for (size_t i = cut; i < (frame + 1 < COUNT ? offsets[frame + 1] : len); i++) whole &= file[i] == 0;
        stop found = read_all(4, &OURS, other, len);
        at = "a front of a journal and zeros";
        holds(whole || (found.offset == offsets[frame] && found.status == (cut == offsets[frame] ? SVID_FILE_END : SVID_FILE_TEAR)), "what stands in a file");
    }
    memcpy(other, file, len);
    memset(other + len, 0, 64);
    is("zeros behind a journal", read_all(4, &OURS, other, len + 64), SVID_FILE_END, len);
    other[len + 63] = 1;
    is("something behind a journal", read_all(4, &OURS, other, len + 64), SVID_FILE_TEAR, len);
    /* frames of another format */
    memcpy(other, FILE_3, 72);
    memcpy(other, NEWER, 32);
    is("a newer format", read_all(3, &OURS, other, 72), SVID_FILE_OTHER, 0);
    is("a newer format that is cut", read_all(3, &OURS, other, 39), SVID_FILE_TEAR, 0);
    /* (format 1 filled its frames up to a multiple of 32) */
    memcpy(other, OLDER, 32);
    memset(other + 34, 0xFF, 30);
    is("an older format", read_all(3, &OURS, other, 64), SVID_FILE_OTHER, 0);
    /* a frame behind is damage where one of its number may stand, each in a cell of its own */
    behind(32, 2, SVID_FILE_DAMAGE), behind(40, 2, SVID_FILE_DAMAGE), behind(64, 3, SVID_FILE_DAMAGE), behind(256, 9, SVID_FILE_DAMAGE);
    behind(0, 3, SVID_FILE_TEAR), behind(24, 2, SVID_FILE_TEAR), behind(32, 3, SVID_FILE_TEAR), behind(56, 3, SVID_FILE_TEAR), behind(224, 9, SVID_FILE_TEAR), behind(33, 2, SVID_FILE_TEAR), behind(32, 1, SVID_FILE_TEAR);
    /* a snapshot is written whole, so all that is not its own is damage */
    size_t snapshot = file_of(0, LENS, COUNT, file, sizeof file, offsets);
    is("the whole snapshot", read_all(0, &OURS, file, snapshot), SVID_FILE_END, snapshot);
    is("a snapshot as a journal", read_all(4, &OURS, file, snapshot), SVID_FILE_TEAR, 0);
    for (size_t cut = 0; cut < snapshot; cut++) {
        size_t frame = COUNT - 1;
        while (offsets[frame] > cut) frame--;
        is("a front of a snapshot", read_all(0, &OURS, file, cut), SVID_FILE_DAMAGE, offsets[frame]);
    }
    for (size_t i = 0; i < snapshot; i++) {
        size_t frame = COUNT - 1;
        while (offsets[frame] > i) frame--;
        for (int value = 0; value < 256; value++) {
            if (value == file[i]) continue;
            memcpy(other, file, snapshot);
            other[i] = (uint8_t)value;
            is("a changed byte of a snapshot", read_all(0, &OURS, other, snapshot), SVID_FILE_DAMAGE, offsets[frame]);
        }
    }
    memcpy(other, file, snapshot);
    other[snapshot] = 0;
    is("a byte after a snapshot", read_all(0, &OURS, other, snapshot + 1), SVID_FILE_DAMAGE, snapshot);
    /* numbers of a reader that do not fit */
    static const svid_reader unfit[] = { { 0, 73, 0 }, { MOST, 0, 0 }, { 0, UINT64_MAX, 0 }, { UINT64_MAX, 72, 1 } };
    for (size_t i = 0; i < sizeof unfit / sizeof *unfit; i++) {
        svid_reader reader = unfit[i];
        svid_frame frame = { 1, 2, 3 };
        at = "a reader that does not fit";
        answered = svid_journal_read(&OURS, 3, FILE_3, sizeof FILE_3, &reader, &frame);
        holds(answered == SVID_FOLDER_UNFIT && !memcmp(&reader, &unfit[i], sizeof reader) && frame.payload == 1 && frame.len == 2 && frame.format == 3, "it answers");
    }
    printf("each value of %zu bytes, %ld reads", len + snapshot, made);
}

/* The position of a validator in its log is written in front of messages, and read back. */
static void positions(void) {
    static const svid_mark ALL[] = { { 0, 0, 0 }, { 1, 258, 65536 }, { UINT64_MAX, SIZE_MAX, UINT64_MAX }, { 1, SIZE_MAX, 0 } };
    static const uint8_t LARGEST[24] = { 255, 255, 255, 255, 255, 255, 255, 255, 255, 255, 255, 255, 255, 255, 255, 255, 255, 255, 255, 255, 255, 255, 255, 255 };
    uint8_t out[64], before[64];
    svid_told told;
    svid_bears bears;
    for (size_t i = 0; i < sizeof ALL / sizeof *ALL; i++) {
        for (size_t len = 0; len <= sizeof out; len++) {
            memset(out, 0x4A, sizeof out);
            memcpy(before, out, sizeof out);
            made++;
            at = "position";
            answered = svid_journal_position(&ALL[i], out, len, &told);
            holds(answered == (len < SVID_LOG_POSITION ? SVID_TOO_SHORT : SVID_OK) && told.len == SVID_LOG_POSITION, "the answer");
            size_t written = answered == SVID_OK ? SVID_LOG_POSITION : 0;
            holds(!memcmp(out + written, before + written, sizeof out - written), "bytes behind the position");
            made++;
            at = "bears";
            memset(&bears, 0xA5, sizeof bears);
            svid_journal_bears(out, len, &bears);
            if (answered == SVID_OK) holds(!memcmp(&bears.mark, &ALL[i], sizeof bears.mark) && bears.marked == 1 && bears.messages == SVID_LOG_POSITION, "what was written");
            else holds(!bears.mark.passed && !bears.mark.begun && !bears.mark.deaf && !bears.marked && !bears.messages, "a payload without a position");
        }
    }
    svid_journal_position(&ALL[2], out, sizeof out, &told);
    holds(!memcmp(out, "JSL\1", 4) && !memcmp(out + 4, LARGEST, sizeof LARGEST), "the bytes of a position");
    svid_journal_position(&ALL[1], out, sizeof out, &told);
    holds(!memcmp(out, POSITION, SVID_LOG_POSITION), "the bytes of a position");
    for (size_t i = 0; i < 4; i++) {
        for (int value = 0; value < 256; value++) {
            memcpy(before, POSITION, sizeof POSITION);
            before[i] = (uint8_t)value;
            svid_journal_bears(before, sizeof POSITION, &bears);
            holds(bears.marked == (value == POSITION[i]), "a position of another kind or version");
        }
    }
    printf("%ld calls with positions", made);
}

/* A folder at which a call does what it is for. */
static svid_folder folder_for(int which) {
    svid_folder f = NUMBERS(0, 1, 3, 0, 0, 0, 0, 0);
    if (which == ANSWER) f.step = 3;
    if (which == SYNCED || which == UNWRITTEN || which == FAILED) f.flying = 32;
    if (which == PIECE) f.step = 5;
    return f;
}

static loan lent(int which, state *s) {
    loan l = { &s->f, &OURS, &s->due, &s->told, &s->reader, &s->frame, HI, s->out, 2, 64, 3, 3, &s->mark, &s->bears };
    if (which == READ) l.bytes = FILE_3, l.len = sizeof FILE_3;
    if (which == BEARS) l.bytes = POSITION, l.len = sizeof POSITION;
    clear(s);
    s->f = folder_for(which);
    memset(&s->reader, 0, sizeof s->reader);
    return l;
}

static void guarded(void) {
    static state s;
    for (int first = 0; first < 2; first++) {
        for (int which = 0; which < CALLS; which++) {
            loan plain = lent(which, &s), l = plain;
            at = NAMES[which];
            l.f = between(plain.f, sizeof *plain.f, first);
            l.folder_id = between(plain.folder_id, sizeof *plain.folder_id, first);
            l.due = between(plain.due, sizeof *plain.due, first);
            l.told = between(plain.told, sizeof *plain.told, first);
            l.reader = between(plain.reader, sizeof *plain.reader, first);
            l.frame = between(plain.frame, sizeof *plain.frame, first);
            l.mark = between(plain.mark, sizeof *plain.mark, first);
            l.bears = between(plain.bears, sizeof *plain.bears, first);
            l.bytes = between(plain.bytes, plain.len, first);
            l.out = between(plain.out, plain.room, first);
            answered = make(which, &l);
            uint32_t there = answered;
            answered = make(which, &plain);
            holds(answered == SVID_OK && there == answered, "the answer");
            holds(!memcmp(l.f, plain.f, sizeof *l.f) && !memcmp(l.due, plain.due, sizeof *l.due) && !memcmp(l.told, plain.told, sizeof *l.told) && !memcmp(l.reader, plain.reader, sizeof *l.reader)
                && !memcmp(l.frame, plain.frame, sizeof *l.frame) && !memcmp(l.bears, plain.bears, sizeof *l.bears) && !memcmp(l.out, plain.out, plain.room), "what it writes");
            holds(!memcmp(l.folder_id, &OURS, sizeof OURS) && !memcmp(l.bytes, plain.bytes, plain.len) && !memcmp(l.mark, plain.mark, sizeof *l.mark), "what it only reads");
        }
    }
    printf("%d calls between pages", 2 * CALLS);
}

static void nulls(void) {
    static state s;
    for (int which = PUT; which <= PIECE; which += PIECE - PUT) {
        loan l = lent(which, &s);
        l.bytes = NULL, l.len = 0;
        at = NAMES[which];
        answered = make(which, &l);
        holds(answered == SVID_OK && s.told.len == 32, "a mark of no pointer");
        l = lent(which, &s);
        l.out = NULL, l.room = 0;
        answered = make(which, &l);
        holds(answered == SVID_TOO_SHORT && s.told.len == 40, "a room of no pointer");
    }
    loan l = lent(MARK, &s);
    l.out = NULL, l.room = 0;
    at = "position";
    answered = make(MARK, &l);
    holds(answered == SVID_TOO_SHORT && s.told.len == SVID_LOG_POSITION, "a room of no pointer for a position");
    l = lent(BEARS, &s);
    l.bytes = NULL, l.len = 0;
    make(BEARS, &l);
    holds(!s.bears.marked && !s.bears.messages, "a payload of no pointer");
    is("a journal of no pointer", read_all(3, &OURS, NULL, 0), SVID_FILE_END, 0);
    is("a snapshot of no pointer", read_all(0, &OURS, NULL, 0), SVID_FILE_DAMAGE, 0);
    printf("NULL for what has no bytes");
}

typedef struct { int which; loan l; } job;

static void *run_job(void *given) {
    job *j = given;
    answered = make(j->which, &j->l);
    return NULL;
}

static void stack(void) {
    static state s;
    size_t most = 0;
    for (int which = 0; which < CALLS; which++) {
        job j = { which, lent(which, &s) };
        at = NAMES[which];
        size_t used = stack_of(run_job, &j);
        holds(answered == SVID_OK, "the answer");
        if (used > most) most = used;
    }
    is_stack(most, STACK_MOST_HERE);
}

int main(int count, char **words) {
    static const part parts[] = { { "calls", calls }, { "bits", bits }, { "positions", positions }, { "guarded", guarded }, { "nulls", nulls }, { "stack", stack } };
    return run_part(count, words, parts, COUNT(parts));
}
