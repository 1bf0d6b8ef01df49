//! The C library: the calls of `svid.h` that this crate makes, with their structures and numbers.
//!
//! What a call reads is a pointer and a length of one slice, which it reads only while it runs. What it writes is a structure or a room of
//! that length, which no other input overlaps.
#![allow(dead_code)]

use std::ffi::c_void;

// lists:begin statuses (written by tools/lists from lists/)
pub const OK: u32 = 0;
pub const TOO_SHORT: u32 = 1;
pub const NO_MEMORY: u32 = 2;
pub const TOO_MUCH: u32 = 3;
pub const NOT_SUMMARY: u32 = 4;
pub const CLOSED: u32 = 5;
pub const IS_OPEN: u32 = 6;
pub const GONE: u32 = 7;
pub const TOO_FAR: u32 = 8;
pub const JUMP: u32 = 9;
pub const HAS_LOG: u32 = 10;
pub const NO_LOG: u32 = 19;
pub const MAGIC: u32 = 11;
pub const KIND: u32 = 12;
pub const COUNT: u32 = 13;
pub const USE_KIND: u32 = 14;
pub const USE_EXPIRED: u32 = 15;
pub const USE_FUTURE: u32 = 16;
pub const USE_ORDER: u32 = 17;
pub const TRUNCATED: u32 = 18;
pub const ID_TOO_LONG: u32 = 21;
pub const ID_SCHEME: u32 = 22;
pub const ID_DOMAIN_EMPTY: u32 = 23;
pub const ID_DOMAIN_BYTE: u32 = 24;
pub const ID_DOMAIN_LONG: u32 = 25;
pub const ID_SEGMENT_EMPTY: u32 = 26;
pub const ID_SEGMENT_DOTS: u32 = 27;
pub const ID_PATH_BYTE: u32 = 28;
pub const BUNDLES_NOT_OBJECT: u32 = 31;
pub const BUNDLES_DOMAIN: u32 = 32;
pub const BUNDLES_KEYS: u32 = 33;
pub const TABLE_LINE: u32 = 34;
pub const OWN_NOT_UTF8: u32 = 35;
pub const OWN_LENGTHS: u32 = 36;
pub const BUNDLES_UNNAMED: u32 = 37;
pub const BUNDLES_TWICE: u32 = 38;
pub const BUNDLES_LENGTHS: u32 = 39;
pub const FOLDER_UNFIT: u32 = 41;
pub const FOLDER_ENDED: u32 = 42;
pub const FOLDER_NOT_GROWING: u32 = 43;
pub const FOLDER_BUSY: u32 = 44;
pub const FOLDER_NOTHING_DUE: u32 = 45;
pub const FOLDER_FLYING: u32 = 46;
pub const FOLDER_NOT_FLYING: u32 = 47;
pub const FOLDER_NOT_WRITING: u32 = 48;
pub const FOLDER_NO_MARK: u32 = 49;
pub const FOLDER_TOO_LONG: u32 = 50;
pub const FOLDER_FULL: u32 = 51;
pub const FILE_END: u32 = 52;
pub const FILE_TEAR: u32 = 53;
pub const FILE_DAMAGE: u32 = 54;
pub const FILE_OTHER: u32 = 55;
pub const CLAIM_WITHDRAWN: u32 = 56;
pub const CLAIM_TAKEN: u32 = 57;
pub const CLAIM_FAR: u32 = 58;
pub const CLAIM_DEAF: u32 = 59;
pub const CLAIM_EXPIRED: u32 = 60;
pub const ENTRY_NOT_OBJECT: u32 = 61;
pub const ENTRY_NO_USE: u32 = 62;
pub const ENTRY_X509: u32 = 63;
pub const ENTRY_USE: u32 = 64;
pub const ENTRY_KID: u32 = 65;
pub const ENTRY_KTY: u32 = 66;
pub const ENTRY_NUMBER: u32 = 67;
pub const ENTRY_TOO_LONG: u32 = 68;
pub const NO_ALGORITHM: u32 = 70;
pub const KEY_NOT_OBJECT: u32 = 71;
pub const KEY_KTY: u32 = 72;
pub const KEY_ALG: u32 = 73;
pub const KEY_N: u32 = 74;
pub const KEY_BITS: u32 = 75;
pub const KEY_E: u32 = 76;
pub const KEY_CRV: u32 = 77;
pub const KEY_X: u32 = 78;
pub const KEY_Y: u32 = 79;
pub const BEARER_ABSENT: u32 = 81;
pub const BEARER_SEVERAL: u32 = 82;
pub const BEARER_SCHEME: u32 = 83;
pub const BEARER_SPELLING: u32 = 84;
pub const NOT_ALLOWED: u32 = 91;
pub const PATTERN_TOO_LONG: u32 = 92;
pub const PATTERN_SCHEME: u32 = 93;
pub const PATTERN_DOMAIN_EMPTY: u32 = 94;
pub const PATTERN_DOMAIN_BYTE: u32 = 95;
pub const PATTERN_DOMAIN_LONG: u32 = 96;
pub const PATTERN_SEGMENT_EMPTY: u32 = 97;
pub const PATTERN_SEGMENT_DOTS: u32 = 98;
pub const PATTERN_PATH_BYTE: u32 = 99;
pub const NO_MEMBER: u32 = 20;
pub const UNASKED: u32 = 29;
pub const NO_MODE: u32 = 30;
pub const LATE: u32 = 201;
pub const NOT_KEPT: u32 = 202;
pub const LEFT: u32 = 203;
pub const ENDED: u32 = 211;
pub const NO_BUNDLE: u32 = 212;
pub const LOADING: u32 = 213;
pub const STORE_UNREACHED: u32 = 214;
pub const WITHDRAWALS_UNREAD: u32 = 215;
pub const BROKER_UNREACHED: u32 = 216;
pub const GROUP_UNREAD: u32 = 217;
pub const DRAINING: u32 = 218;
pub const JUMPED: u32 = 219;
pub const KEEPS_NOTHING: u32 = 220;
pub const STORE_AWAY: u32 = 221;
pub const DEAF: u32 = 222;
pub const TOO_LONG: u32 = 101;
pub const NOT_THREE_PARTS: u32 = 102;
pub const HEADER_SPELLING: u32 = 103;
pub const HEADER_NOT_OBJECT: u32 = 104;
pub const CRIT: u32 = 105;
pub const ALG: u32 = 106;
pub const TYP: u32 = 107;
pub const KID: u32 = 108;
pub const PAYLOAD_SPELLING: u32 = 109;
pub const PAYLOAD_NOT_OBJECT: u32 = 110;
pub const SIGNATURE_SPELLING: u32 = 111;
pub const SUB: u32 = 112;
pub const AUD: u32 = 113;
pub const EXP: u32 = 114;
pub const NBF: u32 = 115;
pub const JTI: u32 = 116;
pub const NOT_AUDIENCE: u32 = 117;
pub const EXPIRED: u32 = 118;
pub const NOT_YET: u32 = 119;
pub const TOO_LONG_LIVED: u32 = 120;
pub const UNKNOWN_DOMAIN: u32 = 121;
pub const NO_KEY: u32 = 122;
pub const BAD_SIGNATURE: u32 = 123;
pub const WITHDRAWN: u32 = 124;
pub const REPLAYED: u32 = 125;
// lists:end

/// The major number of the library that these declarations are of.
pub const MAJOR: u32 = 3;
/// Enough room for any SPIFFE ID.
pub const ID_ROOM: usize = 2048;
/// The length of a summary.
pub const SUMMARY_LEN: usize = 8205;
/// The length of a batch of one use.
pub const BATCH_OF_LEN: usize = 82;
/// How many keys are tried for a token.
pub const MOST_CANDIDATES: usize = 3;
/// How many bits an RSA key may have, unless an option says more.
pub const USUAL_RSA_BITS: usize = 4096;
/// Enough room for any key as SubjectPublicKeyInfo.
pub const SPKI_ROOM: usize = 2100;
/// The most bytes that a payload of a state folder's file has.
pub const PAYLOAD_MOST: usize = 16_777_215;
/// A frame has at most so many bytes more than its payload.
pub const FRAME_MORE: usize = 39;
/// How many bytes say where a validator is in its log, before a payload.
pub const LOG_POSITION: usize = 28;

pub const FATE_ACCEPTED: u64 = 0;
pub const FATE_FIRST: u64 = 1;
pub const FATE_WITHDRAWAL: u64 = 2;
pub const FATE_TOO_FAR_AHEAD: u64 = 8;

pub const ORDER_AGAIN: u64 = 0;
pub const ORDER_NEXT: u64 = 1;
pub const ORDER_GAP: u64 = 2;

pub const MODE_ONCE: u64 = 0;
pub const MODE_STRICT: u64 = 1;
pub const MODE_BOUND: u64 = 2;
pub const MODE_REUSE: u64 = 3;

pub const DEED_NOTHING: u64 = 0;
pub const DEED_JUDGE: u64 = 1;
pub const DEED_APPEND: u64 = 2;
pub const DEED_CLAIM: u64 = 3;
pub const DEED_ANSWER: u64 = 4;

pub const AT_DISK: u64 = 0;
pub const AT_STORE: u64 = 1;
pub const AT_LOG: u64 = 2;

/// How far a withdrawal is at a keeper that may not have it.
pub const MAY_LACK: u64 = 2;
/// The number of no request and of no withdrawal.
pub const NO_NUMBER: u64 = u64::MAX;

pub const CALL_NOTHING: u64 = 0;
pub const CALL_CREATE_JOURNAL: u64 = 1;
pub const CALL_SYNC_FOLDER: u64 = 2;
pub const CALL_WRITE_SNAPSHOT: u64 = 3;
pub const CALL_SYNC_SNAPSHOT: u64 = 4;
pub const CALL_RENAME_SNAPSHOT: u64 = 5;
pub const CALL_REMOVE_JOURNAL: u64 = 6;

#[repr(C)]
#[derive(Default, Debug, Clone, Copy, PartialEq, Eq)]
pub struct Told {
    pub len: usize,
    pub input: usize,
    pub message: usize,
    pub offset: usize,
    pub more: usize,
}

#[repr(C)]
#[derive(Default, Debug, Clone, Copy, PartialEq, Eq)]
pub struct Id {
    pub offset: usize,
    pub domain_len: usize,
    pub path_len: usize,
}

#[repr(C)]
#[derive(Default, Debug, Clone, Copy, PartialEq, Eq)]
pub struct Bearer {
    pub at: usize,
    pub len: usize,
}

#[repr(C)]
#[derive(Default, Debug, Clone, Copy, PartialEq, Eq)]
pub struct Said {
    pub key: [u8; 32],
    pub exp: u64,
    pub texts: usize,
}

#[repr(C)]
#[derive(Default, Debug, Clone, Copy, PartialEq, Eq)]
pub struct Entry {
    pub withdrawn: u64,
    pub exp: u64,
    pub at: u64,
    pub key: [u8; 32],
    pub validator_id: [u8; 16],
}

#[repr(C)]
#[derive(Default, Debug, Clone, Copy, PartialEq, Eq)]
pub struct Document {
    pub name_len: usize,
    pub text_len: usize,
    pub keys: u64,
}

#[repr(C)]
#[derive(Default, Debug, Clone, Copy, PartialEq, Eq)]
pub struct Size {
    pub moment: u64,
    pub uses: usize,
}

#[repr(C)]
#[derive(Default, Debug, Clone, Copy, PartialEq, Eq)]
pub struct Use {
    pub exp: u64,
    pub at: u64,
    pub key: [u8; 32],
    pub validator_id: [u8; 16],
}

#[repr(C)]
#[derive(Debug, Clone, Copy, PartialEq, Eq)]
pub struct Terms {
    pub longest: u64,
    pub ahead: u64,
    pub step: u64,
    pub validator_id: [u8; 16],
}

#[repr(C)]
#[derive(Debug, Clone, Copy, PartialEq, Eq)]
pub struct Key {
    pub bytes: [u8; 32],
}

#[repr(C)]
#[derive(Default, Debug, Clone, Copy, PartialEq, Eq)]
pub struct Part {
    pub begun: u64,
    pub done: u64,
    pub withdrawn: u64,
    pub exp: u64,
    pub at: u64,
    pub key: [u8; 32],
    pub validator_id: [u8; 16],
}

#[repr(C)]
#[derive(Default, Debug, Clone, Copy, PartialEq, Eq)]
pub struct Mark {
    pub passed: u64,
    pub begun: usize,
    pub deaf: u64,
}

#[repr(C)]
#[derive(Default, Debug, Clone, Copy, PartialEq, Eq)]
pub struct Fate {
    pub used: Use,
    pub fate: u64,
}

#[repr(C)]
#[derive(Default, Debug, Clone, Copy, PartialEq, Eq)]
pub struct Reading {
    pub order: u64,
    pub from: usize,
    pub count: usize,
}

#[repr(C)]
#[derive(Default, Debug, Clone, Copy, PartialEq, Eq)]
pub struct Folder {
    pub step: u64,
    pub oldest: u64,
    pub newest: u64,
    pub ended: u64,
    pub count: u64,
    pub end: u64,
    pub flying: u64,
    pub pieces: u64,
}

#[repr(C)]
#[derive(Default, Debug, Clone, Copy, PartialEq, Eq)]
pub struct FolderId {
    pub bytes: [u8; 16],
}

#[repr(C)]
#[derive(Default, Debug, Clone, Copy, PartialEq, Eq)]
pub struct Due {
    pub call: u64,
    pub journal: u64,
}

#[repr(C)]
#[derive(Default, Debug, Clone, Copy, PartialEq, Eq)]
pub struct Reader {
    pub count: u64,
    pub at: u64,
    pub marked: u64,
}

#[repr(C)]
#[derive(Default, Debug, Clone, Copy, PartialEq, Eq)]
pub struct Frame {
    pub payload: usize,
    pub len: usize,
    pub format: u64,
}

#[repr(C)]
#[derive(Default, Debug, Clone, Copy, PartialEq, Eq)]
pub struct Bears {
    pub mark: Mark,
    pub marked: usize,
    pub messages: usize,
}

/// A handle of the library: `svid_validator`, `svid_bundles` or `svid_token`. It begins with all bytes 0.
#[repr(C)]
#[derive(Debug)]
pub struct Handle {
    word: u64,
    held: *mut c_void,
}

#[repr(C)]
#[derive(Default, Debug, Clone, Copy, PartialEq, Eq)]
pub struct MemberTerms {
    pub mode: u64,
    pub disk: u64,
    pub store: u64,
    pub log: u64,
    pub wait: u64,
    pub ahead: u64,
    pub lasts: u64,
    pub life: [u8; 16],
}

#[repr(C)]
#[derive(Default, Debug, Clone, Copy, PartialEq, Eq)]
pub struct Known {
    pub bundled: u64,
    pub loaded: u64,
    pub opened: u64,
    pub heard: u64,
    pub joined: u64,
    pub caught_up: u64,
    pub draining: u64,
    pub jumped: u64,
    pub full: u64,
    pub away: u64,
    pub deaf: u64,
    pub ended: u64,
}

#[repr(C)]
#[derive(Default, Debug, Clone, Copy, PartialEq, Eq)]
pub struct Deed {
    pub what: u64,
    pub number: u64,
    pub status: u64,
    pub next: u64,
    pub used: Use,
}

#[repr(C)]
#[derive(Default, Debug, Clone, Copy, PartialEq, Eq)]
pub struct Found {
    pub time: u64,
    pub deaf: u64,
    pub owner: [u8; 32],
}

#[repr(C)]
#[derive(Default, Debug, Clone, Copy, PartialEq, Eq)]
pub struct Deadline {
    pub at: u64,
}

#[repr(C)]
#[derive(Default, Debug, Clone, Copy, PartialEq, Eq)]
pub struct Withdrawal {
    pub number: u64,
    pub disk: u64,
    pub store: u64,
    pub log: u64,
}

#[repr(C)]
#[derive(Default, Debug, Clone, Copy, PartialEq, Eq)]
pub struct Pacing {
    pub calls: u64,
    pub at: u64,
    pub pause: u64,
}

impl Deed {
    /// The status of an answer, as the calls have it.
    pub fn status(&self) -> u32 {
        u32::try_from(self.status).unwrap_or(u32::MAX)
    }
}

impl Pacing {
    pub const FIRST: Pacing = Pacing { calls: 0, at: 0, pause: 10 };
}

impl Handle {
    pub const CLOSED: Handle = Handle { word: 0, held: std::ptr::null_mut() };
}

// SAFETY: the library has no state of a thread, and a handle may be given to one call at a time from any thread (svid.h, "A validator that
// you keep"). It is not `Sync`: each call takes `&mut`.
unsafe impl Send for Handle {}

extern "C" {
    pub fn svid_version() -> u32;
    pub fn svid_status_sentence(status: u32, out: *mut u8, out_len: usize, told: *mut Told) -> u32;
    pub fn svid_id_parse(text: *const u8, text_len: usize, out: *mut Id) -> u32;
    pub fn svid_id_allows(pattern: *const u8, pattern_len: usize, id: *const u8, id_len: usize, out: *mut Id) -> u32;
    pub fn svid_bearer_token(fields: u64, value: *const u8, value_len: usize, out: *mut Bearer) -> u32;
    pub fn svid_token_says(
        token: *const u8,
        token_len: usize,
        said: *mut Said,
        lens: *mut usize,
        lens_len: usize,
        out: *mut u8,
        out_len: usize,
        told: *mut Told,
    ) -> u32;
    pub fn svid_token_payload(token: *const u8, token_len: usize, out: *mut u8, out_len: usize, told: *mut Told) -> u32;
    pub fn svid_key_spki(
        key: *const u8,
        key_len: usize,
        alg: *const u8,
        alg_len: usize,
        most_bits: usize,
        out: *mut u8,
        out_len: usize,
        told: *mut Told,
    ) -> u32;
    pub fn svid_entries_read(messages: *const u8, messages_len: usize, out: *mut Entry, out_len: usize, told: *mut Told) -> u32;
    pub fn svid_entries_write(entries: *const Entry, entries_len: usize, out: *mut u8, out_len: usize, told: *mut Told) -> u32;
    pub fn svid_report(messages: *const u8, messages_len: usize, now: u64, out: *mut u8, out_len: usize, told: *mut Told) -> u32;

    pub fn svid_bundles_join(
        bytes: *const u8,
        bytes_len: usize,
        documents: *const Document,
        documents_len: usize,
        out: *mut u8,
        out_len: usize,
        told: *mut Told,
    ) -> u32;
    pub fn svid_bundles_open(b: *mut Handle, bundles: *const u8, bundles_len: usize, told: *mut Told) -> u32;
    pub fn svid_bundles_close(b: *mut Handle);

    pub fn svid_validator_open_by_lengths(
        v: *mut Handle,
        terms: *const Terms,
        own: *const u8,
        own_len: usize,
        lens: *const usize,
        lens_len: usize,
        bundles: *const u8,
        bundles_len: usize,
        told: *mut Told,
    ) -> u32;
    pub fn svid_validator_close(v: *mut Handle);
    pub fn svid_validator_renew_by(v: *mut Handle, b: *mut Handle, told: *mut Told) -> u32;
    pub fn svid_validator_withdraw(v: *mut Handle, now: u64, key: *const Key, exp: u64, used: *mut Use, told: *mut Told) -> u32;
    pub fn svid_validator_tick(v: *mut Handle, now: u64, told: *mut Told) -> u32;
    pub fn svid_validator_take(v: *mut Handle, now: u64, messages: *const u8, messages_len: usize, told: *mut Told) -> u32;
    pub fn svid_validator_tell(v: *mut Handle, out: *mut u8, out_len: usize, told: *mut Told) -> u32;
    pub fn svid_validator_parts(v: *mut Handle, part: *mut Part, out: *mut u8, out_len: usize, told: *mut Told) -> u32;
    pub fn svid_validator_size(v: *mut Handle, out: *mut Size, told: *mut Told) -> u32;
    pub fn svid_validator_summary(v: *mut Handle, out: *mut u8, out_len: usize, told: *mut Told) -> u32;
    pub fn svid_validator_bucket(v: *mut Handle, bucket: u8, moment: u64, out: *mut u8, out_len: usize, told: *mut Told) -> u32;
    pub fn svid_validator_answer(
        v: *mut Handle,
        now: u64,
        summary: *const u8,
        summary_len: usize,
        out: *mut u8,
        out_len: usize,
        told: *mut Told,
    ) -> u32;

    pub fn svid_validator_log(
        v: *mut Handle,
        mark: *const Mark,
        ready: u64,
        lasts: u64,
        beside: *const u8,
        beside_len: usize,
        told: *mut Told,
    ) -> u32;
    pub fn svid_validator_read(
        v: *mut Handle,
        now: u64,
        position: u64,
        value: *const u8,
        value_len: usize,
        out: *mut Fate,
        out_len: usize,
        reading: *mut Reading,
        told: *mut Told,
    ) -> u32;
    pub fn svid_validator_mark(v: *mut Handle, mark: *mut Mark, told: *mut Told) -> u32;
    pub fn svid_validator_go_on(v: *mut Handle, told: *mut Told) -> u32;
    pub fn svid_validator_beside(v: *mut Handle, out: *mut u8, out_len: usize, told: *mut Told) -> u32;

    pub fn svid_token_open(t: *mut Handle, token: *const u8, token_len: usize, told: *mut Told) -> u32;
    pub fn svid_token_close(t: *mut Handle);
    pub fn svid_validator_ask_token(v: *mut Handle, t: *mut Handle, most: usize, out: *mut u8, out_len: usize, told: *mut Told) -> u32;
    pub fn svid_validator_judge_token(
        v: *mut Handle,
        now: u64,
        key: *const u8,
        key_len: usize,
        input: *const u8,
        input_len: usize,
        signature: *const u8,
        signature_len: usize,
        t: *mut Handle,
        out: *mut u8,
        out_len: usize,
        used: *mut Use,
        told: *mut Told,
    ) -> u32;

    pub fn svid_claim_owner(validator_id: *const [u8; 16], life: *const [u8; 16], exp: u64, owner: *mut [u8; 32]);
    pub fn svid_claim_owner_of_caller(caller: *const [u8; 32], exp: u64, owner: *mut [u8; 32]);
    pub fn svid_claim_until(exp: u64, margin: u64) -> u64;
    pub fn svid_claim_deaf(time: u64, lasts: u64, before: u64) -> u64;

    pub fn svid_member_open(v: *mut Handle, terms: *const MemberTerms) -> u32;
    pub fn svid_member_know(v: *mut Handle, known: *const Known) -> u32;
    pub fn svid_member_ready(v: *mut Handle) -> u32;
    pub fn svid_member_come(v: *mut Handle, up: u64, deed: *mut Deed) -> u32;
    pub fn svid_member_judge(
        v: *mut Handle,
        now: u64,
        up: u64,
        number: u64,
        key: *const u8,
        key_len: usize,
        input: *const u8,
        input_len: usize,
        signature: *const u8,
        signature_len: usize,
        t: *mut Handle,
        out: *mut u8,
        out_len: usize,
        used: *mut Use,
        deed: *mut Deed,
        told: *mut Told,
    ) -> u32;
    pub fn svid_member_wrote(v: *mut Handle, up: u64, number: u64, ok: u64, deed: *mut Deed) -> u32;
    pub fn svid_member_send(v: *mut Handle, up: u64, number: u64, deed: *mut Deed) -> u32;
    pub fn svid_member_found(
        v: *mut Handle,
        now: u64,
        up: u64,
        number: u64,
        caller: *const [u8; 32],
        found: *const Found,
        key: *const u8,
        key_len: usize,
        input: *const u8,
        input_len: usize,
        signature: *const u8,
        signature_len: usize,
        t: *mut Handle,
        out: *mut u8,
        out_len: usize,
        used: *mut Use,
        deed: *mut Deed,
        told: *mut Told,
    ) -> u32;
    pub fn svid_member_leave(v: *mut Handle, up: u64, number: u64, deed: *mut Deed) -> u32;
    pub fn svid_member_overdue(v: *mut Handle, up: u64, deed: *mut Deed) -> u32;
    pub fn svid_member_due(v: *mut Handle, out: *mut Deadline) -> u32;
    pub fn svid_member_rules(v: *mut Handle, own: *const u8, own_len: usize, all: u64, callers: *const u8, callers_len: usize) -> u32;
    pub fn svid_withdrawal_come(v: *mut Handle, up: u64, made: *mut Withdrawal) -> u32;
    pub fn svid_withdrawal_told(v: *mut Handle, number: u64, keeper: u64, ok: u64, made: *mut Withdrawal) -> u32;
    pub fn svid_withdrawal_overdue(v: *mut Handle, up: u64, made: *mut Withdrawal) -> u32;

    pub fn svid_pacing_may_send(p: *const Pacing, up: u64, waiting: u64) -> u32;
    pub fn svid_pacing_due(p: *const Pacing) -> u64;
    pub fn svid_pacing_sent(p: *mut Pacing, up: u64);
    pub fn svid_pacing_answered(p: *mut Pacing);
    pub fn svid_pacing_unanswered(p: *mut Pacing) -> u64;

    pub fn svid_journal_open(f: *mut Folder, oldest: u64, newest: u64) -> u32;
    pub fn svid_journal_begin(f: *mut Folder) -> u32;
    pub fn svid_journal_due(f: *const Folder, due: *mut Due) -> u32;
    pub fn svid_journal_answer(f: *mut Folder, ok: u32) -> u32;
    pub fn svid_journal_put(
        f: *mut Folder,
        folder_id: *const FolderId,
        payload: *const u8,
        payload_len: usize,
        out: *mut u8,
        out_len: usize,
        told: *mut Told,
    ) -> u32;
    pub fn svid_journal_synced(f: *mut Folder) -> u32;
    pub fn svid_journal_unwritten(f: *mut Folder) -> u32;
    pub fn svid_journal_failed(f: *mut Folder) -> u32;
    pub fn svid_journal_piece(
        f: *mut Folder,
        folder_id: *const FolderId,
        payload: *const u8,
        payload_len: usize,
        out: *mut u8,
        out_len: usize,
        told: *mut Told,
    ) -> u32;
    pub fn svid_journal_read(
        folder_id: *const FolderId,
        journal: u64,
        bytes: *const u8,
        bytes_len: usize,
        reader: *mut Reader,
        frame: *mut Frame,
    ) -> u32;
    pub fn svid_journal_bears(payload: *const u8, payload_len: usize, bears: *mut Bears);
}

/// What a call writes: it is made with the room that there is, and once more with as much as it says. The length of the text in the room,
/// or the status of the call.
pub fn written(room: &mut Vec<u8>, told: &mut Told, mut call: impl FnMut(*mut u8, usize, &mut Told) -> u32) -> Result<usize, u32> {
    loop {
        match call(room.as_mut_ptr(), room.len(), told) {
            OK if told.len <= room.len() => return Ok(told.len),
            TOO_SHORT if told.len > room.len() => grow(room, told.len)?,
            // (a length that does not fit is none of this library)
            OK | TOO_SHORT => return Err(u32::MAX),
            status => return Err(status),
        }
    }
}

/// Lets a room have at least so many bytes.
pub fn grow(room: &mut Vec<u8>, len: usize) -> Result<(), u32> {
    if len > room.len() {
        room.try_reserve_exact(len - room.len()).map_err(|_| NO_MEMORY)?;
        room.resize(len, 0);
    }
    Ok(())
}

/// A copy of bytes, where there is memory for it.
pub fn copied(bytes: &[u8]) -> Result<Vec<u8>, u32> {
    let mut copy = Vec::new();
    copy.try_reserve_exact(bytes.len()).map_err(|_| NO_MEMORY)?;
    copy.extend_from_slice(bytes);
    Ok(copy)
}
