package svid;

import com.sun.jna.Memory;
import com.sun.jna.Native;
import com.sun.jna.NativeLibrary;
import com.sun.jna.Pointer;
import java.io.IOException;
import java.io.InputStream;
import java.nio.file.Files;
import java.nio.file.Path;

/** The C library: its functions and structures as {@code svid.h} has them. */
final class Library {
    /** The version of the header that this class is written by. */
    static final int VERSION = 30000;

    static final long MOST_CANDIDATES = 3;

    /** No number, no moment, and no limit: the greatest number of 64 bits. */
    static final long NONE = -1;

    /** What is to be done for a request: {@code svid_deeds}. */
    static final int DEED_NOTHING = 0, DEED_JUDGE = 1, DEED_APPEND = 2, DEED_CLAIM = 3, DEED_ANSWER = 4;

    /** The calls of the system on a state folder: {@code svid_call}. */
    static final int CALL_NOTHING = 0, CALL_CREATE_JOURNAL = 1, CALL_SYNC_FOLDER = 2, CALL_WRITE_SNAPSHOT = 3, CALL_SYNC_SNAPSHOT = 4,
                     CALL_RENAME_SNAPSHOT = 5, CALL_REMOVE_JOURNAL = 6;

    /** How a file of a state folder ends: {@code svid_journal_read}. */
    static final int FILE_END = 52, FILE_TEAR = 53, FILE_DAMAGE = 54, FILE_OTHER = 55;

    /** The most bytes that one frame of a state folder bears. */
    static final long PAYLOAD_MOST = 16_777_215;

    /** How many bytes a frame has at most beside its payload. */
    static final long FRAME_MORE = 39;

    /** The keepers of a withdrawal: {@code svid_keepers}. And what a keeper is of that may not have it. */
    static final int AT_DISK = 0, AT_STORE = 1, AT_LOG = 2, MAY_LACK = 2;

    /** For how long {@code svid_pacing} lets claims wait that the store did not answer, at first. */
    static final long FIRST_PAUSE = 10;

    /** The statuses of requests that have no answer about their token. */
    static final int CLAIM_FAR = 58, CLAIM_DEAF = 59, LATE = 201, NOT_KEPT = 202, LEFT = 203, ENDED = 211, NO_BUNDLE = 212, DEAF = 222;

    static final int USUAL_RSA_BITS = 4096;
    static final long ID_ROOM = 2048;
    static final long SPKI_ROOM = 2100;
    static final long SUMMARY_LEN = 8205;

    /** The system property that names another file of the library. */
    static final String PROPERTY = "svid.library";

    static {
        load();
    }

    private Library() {}

    /** {@code svid_validator}, {@code svid_bundles} and {@code svid_token}. */
    static final class Handle { static final int WORD = 0, HELD = 8, SIZE = 16; }

    /** {@code svid_terms}. */
    static final class Terms { static final int LONGEST = 0, AHEAD = 8, STEP = 16, VALIDATOR_ID = 24, SIZE = 40; }

    /** {@code svid_use}. */
    static final class Use { static final int EXP = 0, AT = 8, KEY = 16, VALIDATOR_ID = 48, SIZE = 64; }

    /** {@code svid_entry}. */
    static final class Entry { static final int WITHDRAWN = 0, EXP = 8, AT = 16, KEY = 24, VALIDATOR_ID = 56, SIZE = 72; }

    /** {@code svid_document}. */
    static final class Document { static final int NAME_LEN = 0, TEXT_LEN = 8, KEYS = 16, SIZE = 24; }

    /** {@code svid_said}. */
    static final class Said { static final int KEY = 0, EXP = 32, TEXTS = 40, SIZE = 48; }

    /** {@code svid_size}. */
    static final class Size { static final int MOMENT = 0, USES = 8, SIZE = 16; }

    /** {@code svid_id}. */
    static final class Id { static final int OFFSET = 0, DOMAIN_LEN = 8, PATH_LEN = 16, SIZE = 24; }

    /** {@code svid_bearer}. */
    static final class Bearer { static final int AT = 0, LEN = 8, SIZE = 16; }

    /** {@code svid_told}. */
    static final class Told { static final int LEN = 0, INPUT = 8, MESSAGE = 16, OFFSET = 24, MORE = 32, SIZE = 40; }

    /** {@code svid_member_terms}. */
    static final class MemberTerms {
        static final int MODE = 0, DISK = 8, STORE = 16, LOG = 24, WAIT = 32, AHEAD = 40, LASTS = 48, LIFE = 56, SIZE = 72;
    }

    /** {@code svid_known}. */
    static final class Known {
        static final int BUNDLED = 0, LOADED = 8, OPENED = 16, HEARD = 24, JOINED = 32, CAUGHT_UP = 40, DRAINING = 48, JUMPED = 56,
                         FULL = 64, AWAY = 72, DEAF = 80, ENDED = 88, SIZE = 96;
    }

    /** {@code svid_deed}. */
    static final class Deed { static final int WHAT = 0, NUMBER = 8, STATUS = 16, NEXT = 24, USED = 32, SIZE = 96; }

    /** {@code svid_found}. */
    static final class Found { static final int TIME = 0, DEAF = 8, OWNER = 16, SIZE = 48; }

    /** {@code svid_deadline}. */
    static final class Deadline { static final int AT = 0, SIZE = 8; }

    /** {@code svid_withdrawal}. */
    static final class Withdrawal { static final int NUMBER = 0, DISK = 8, STORE = 16, LOG = 24, SIZE = 32; }

    /** {@code svid_folder}. */
    static final class Folder {
        static final int STEP = 0, OLDEST = 8, NEWEST = 16, ENDED = 24, COUNT = 32, END = 40, FLYING = 48, PIECES = 56, SIZE = 64;
    }

    /** {@code svid_due}. */
    static final class Due { static final int CALL = 0, JOURNAL = 8, SIZE = 16; }

    /** {@code svid_reader}. */
    static final class Reader { static final int COUNT = 0, AT = 8, MARKED = 16, SIZE = 24; }

    /** {@code svid_frame}. */
    static final class Frame { static final int PAYLOAD = 0, LEN = 8, FORMAT = 16, SIZE = 24; }

    /** {@code svid_bears}. */
    static final class Bears { static final int MARK = 0, MARKED = 24, MESSAGES = 32, SIZE = 40; }

    /** {@code svid_part}. */
    static final class Part {
        static final int BEGUN = 0, DONE = 8, WITHDRAWN = 16, EXP = 24, AT = 32, KEY = 40, VALIDATOR_ID = 72, SIZE = 88;
    }

    /** {@code svid_pacing}. */
    static final class Pacing { static final int CALLS = 0, AT = 8, PAUSE = 16, SIZE = 24; }

    static native int svid_version();

    static native int svid_status_sentence(int status, Pointer out, long outLen, Pointer told);

    static native int svid_validator_open_by_lengths(
            Pointer v, Pointer terms, Pointer own, long ownLen, Pointer lens, long lensLen, Pointer bundles, long bundlesLen, Pointer told);

    static native void svid_validator_close(Pointer v);

    static native int svid_validator_ask_token(Pointer v, Pointer t, long most, Pointer out, long outLen, Pointer told);

    static native int svid_validator_judge_token(Pointer v, long now, Pointer key, long keyLen, Pointer input, long inputLen,
            Pointer signature, long signatureLen, Pointer t, Pointer out, long outLen, Pointer used, Pointer told);

    static native int svid_validator_withdraw(Pointer v, long now, Pointer key, long exp, Pointer used, Pointer told);

    static native int svid_validator_tick(Pointer v, long now, Pointer told);

    static native int svid_validator_take(Pointer v, long now, Pointer messages, long messagesLen, Pointer told);

    static native int svid_validator_tell(Pointer v, Pointer out, long outLen, Pointer told);

    static native int svid_validator_parts(Pointer v, Pointer part, Pointer out, long outLen, Pointer told);

    static native int svid_validator_size(Pointer v, Pointer out, Pointer told);

    static native int svid_validator_bucket(Pointer v, byte bucket, long moment, Pointer out, long outLen, Pointer told);

    static native int svid_validator_summary(Pointer v, Pointer out, long outLen, Pointer told);

    static native int svid_validator_answer(Pointer v, long now, Pointer summary, long givenLen, Pointer out, long outLen, Pointer told);

    static native int svid_validator_renew_by(Pointer v, Pointer bundles, Pointer told);

    static native int svid_token_open(Pointer t, Pointer token, long tokenLen, Pointer told);

    static native void svid_token_close(Pointer t);

    static native int svid_member_open(Pointer v, Pointer terms);

    static native int svid_member_know(Pointer v, Pointer known);

    static native int svid_member_judges(Pointer v);

    static native int svid_member_ready(Pointer v);

    static native int svid_member_come(Pointer v, long up, Pointer deed);

    static native int svid_member_judge(Pointer v, long now, long up, long number, Pointer key, long keyLen, Pointer input, long inputLen,
            Pointer signature, long signatureLen, Pointer t, Pointer out, long outLen, Pointer used, Pointer deed, Pointer told);

    static native int svid_member_send(Pointer v, long up, long number, Pointer deed);

    static native int svid_member_found(Pointer v, long now, long up, long number, Pointer caller, Pointer found, Pointer key, long keyLen,
            Pointer input, long inputLen, Pointer signature, long signatureLen, Pointer t, Pointer out, long outLen, Pointer used,
            Pointer deed, Pointer told);

    static native int svid_member_wrote(Pointer v, long up, long number, long ok, Pointer deed);

    static native int svid_member_leave(Pointer v, long up, long number, Pointer deed);

    static native int svid_member_overdue(Pointer v, long up, Pointer deed);

    static native int svid_member_due(Pointer v, Pointer out);

    static native int svid_member_rules(Pointer v, Pointer own, long ownLen, long all, Pointer callers, long callersLen);

    static native int svid_withdrawal_come(Pointer v, long up, Pointer made);

    static native int svid_withdrawal_told(Pointer v, long number, long keeper, long ok, Pointer made);

    static native int svid_withdrawal_overdue(Pointer v, long up, Pointer made);

    static native int svid_pacing_may_send(Pointer p, long up, long waiting);

    static native long svid_pacing_due(Pointer p);

    static native void svid_pacing_sent(Pointer p, long up);

    static native void svid_pacing_answered(Pointer p);

    static native long svid_pacing_unanswered(Pointer p);

    static native void svid_claim_owner(Pointer validatorId, Pointer life, long exp, Pointer owner);

    static native void svid_claim_owner_of_caller(Pointer caller, long exp, Pointer owner);

    static native long svid_claim_until(long exp, long margin);

    static native long svid_claim_deaf(long time, long lasts, long before);

    static native int svid_bundles_join(
            Pointer bytes, long bytesLen, Pointer documents, long documentsLen, Pointer out, long outLen, Pointer told);

    static native int svid_bundles_open(Pointer b, Pointer bundles, long bundlesLen, Pointer told);

    static native void svid_bundles_close(Pointer b);

    static native int svid_id_parse(Pointer text, long textLen, Pointer out);

    static native int svid_id_allows(Pointer pattern, long patternLen, Pointer id, long idLen, Pointer out);

    static native int svid_bearer_token(long fields, Pointer value, long valueLen, Pointer out);

    static native int svid_token_says(
            Pointer token, long tokenLen, Pointer said, Pointer lens, long lensLen, Pointer out, long outLen, Pointer told);

    static native int svid_token_payload(Pointer token, long tokenLen, Pointer out, long outLen, Pointer told);

    static native int svid_key_spki(
            Pointer key, long keyLen, Pointer alg, long algLen, long mostBits, Pointer out, long outLen, Pointer told);

    static native int svid_entries_write(Pointer entries, long entriesLen, Pointer out, long outLen, Pointer told);

    static native int svid_entries_read(Pointer messages, long messagesLen, Pointer out, long outLen, Pointer told);

    static native int svid_journal_open(Pointer f, long oldest, long newest);

    static native int svid_journal_begin(Pointer f);

    static native int svid_journal_due(Pointer f, Pointer due);

    static native int svid_journal_answer(Pointer f, int ok);

    static native int svid_journal_put(
            Pointer f, Pointer folderId, Pointer payload, long payloadLen, Pointer out, long outLen, Pointer told);

    static native int svid_journal_synced(Pointer f);

    static native int svid_journal_unwritten(Pointer f);

    static native int svid_journal_failed(Pointer f);

    static native int svid_journal_piece(
            Pointer f, Pointer folderId, Pointer payload, long payloadLen, Pointer out, long outLen, Pointer told);

    static native int svid_journal_read(Pointer folderId, long journal, Pointer bytes, long bytesLen, Pointer reader, Pointer frame);

    static native void svid_journal_bears(Pointer payload, long payloadLen, Pointer bears);

    static native int svid_report(Pointer messages, long messagesLen, long now, Pointer out, long outLen, Pointer told);

    /** Loads the library from the jar, or the one that the system property names. */
    private static void load() {
        String named = System.getProperty(PROPERTY);
        try {
            Native.register(Library.class, named == null ? ofThisJar() : NativeLibrary.getInstance(Path.of(named).toRealPath().toString()));
        } catch (IOException | UnsatisfiedLinkError why) {
            String advice = named == null
                    ? "set java.io.tmpdir to a folder where libraries may be written and loaded, or " + PROPERTY + " to a file of it"
                    : "see the system property " + PROPERTY;
            UnsatisfiedLinkError error = new UnsatisfiedLinkError("libsvid.so can't be loaded: " + advice + ": " + why);
            error.initCause(why);
            throw error;
        }
        if (Native.SIZE_T_SIZE != 8) {
            throw new UnsatisfiedLinkError("libsvid.so is for systems of 64 bits");
        }
        int version = svid_version();
        if (version / 10_000 != VERSION / 10_000 || version < VERSION) {
            throw new UnsatisfiedLinkError(
                    "libsvid.so has the version " + version + ", and " + VERSION + " is wanted: take the one of this jar");
        }
    }

    /** The library of the jar, which stays loaded when its file is gone. */
    private static NativeLibrary ofThisJar() throws IOException {
        String machine = System.getProperty("os.arch").equals("amd64") ? "x86_64" : System.getProperty("os.arch");
        // (a folder of its own, which no other user can write)
        Path folder = Files.createTempDirectory("svid");
        Path file = folder.resolve("libsvid.so");
        try (InputStream packed = Library.class.getResourceAsStream(machine + "/libsvid.so")) {
            if (packed == null || !System.getProperty("os.name").equals("Linux")) {
                throw new UnsatisfiedLinkError("this jar has it for Linux on x86_64 and aarch64 alone, and not for " + machine);
            }
            Files.copy(packed, file);
            return NativeLibrary.getInstance(file.toString());
        } finally {
            Files.deleteIfExists(file);
            Files.deleteIfExists(folder);
        }
    }

    /** Memory that is freed once nothing refers to it. */
    static Memory allocated(long size) {
        try {
            return new Memory(size);
        } catch (OutOfMemoryError why) {
            throw new SvidException.OutOfMemory(why);
        }
    }
}
