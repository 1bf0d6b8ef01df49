package svid;

import java.util.Optional;

/**
 * There is no answer about a token, or a call did nothing. Whatever it is, no token was accepted: answer a request with status 503.
 *
 * <p>Each kind is a class of its own in this one. To one of them, {@link NotAllowed}, the answer is 403.
 */
public abstract sealed class SvidException extends RuntimeException {
    private static final long serialVersionUID = 1;
    /** Says that the bundle of a trust domain is to come. */
    private static final int AWAITED = -1;

    SvidException(String message, Throwable cause) {
        super(message, cause);
    }

    /** The word by which a client hears why there is no answer about its token: NotReady, NotKept, NotClaimed, say. */
    String word() {
        int number = this instanceof Unavailable why ? why.number
                : this instanceof OutOfMemory        ? Status.NO_MEMORY.number()
                : this instanceof Jump               ? Status.JUMP.number()
                                                     : 0;
        // lists:begin reasons (written by tools/lists from lists/statuses.toml)
        if (number == 2) {
            return "NoMemory";
        }
        if (number == 9) {
            return "ClockJump";
        }
        if (number == 58) {
            return "NotClaimed";
        }
        if (number == 59) {
            return "EntriesLost";
        }
        if (number == 202) {
            return "NotKept";
        }
        if (number >= 211 && number <= 222) {
            return "NotReady";
        }
        // lists:end
        return number == AWAITED ? "NoBundle" : "NotJudged";
    }

    static SvidException of(int number, CallDetails told) {
        Status status = Status.of(number);
        if (Unavailable.is(number)) {
            return new Unavailable(number, null);
        }
        if (status == null) {
            return new Unexpected(number);
        }
        if (status.isFrom(Status.MAGIC, Status.TRUNCATED)) {
            return new BadMessages(status, told.message(), told.offset());
        }
        switch (status) {
            case NO_MEMORY:
                return new OutOfMemory(null);
            case CLOSED:
                return new Closed();
            case TOO_MUCH:
                return new TooMuch();
            case NOT_SUMMARY:
                return new BadMessages(status, 0, 0);
            case GONE:
                return new Gone();
            case TOO_FAR:
                return new TooFar();
            case JUMP:
                return new Jump();
            case NOT_ALLOWED:
                return new NotAllowed();
            case BUNDLES_NOT_OBJECT:
            case BUNDLES_UNNAMED:
                return new BadBundles(status, 0);
            case BUNDLES_DOMAIN:
            case BUNDLES_KEYS:
                return new BadBundles(status, told.offset());
            default:
                return new Unexpected(number);
        }
    }

    /** There is no memory. Nothing was accepted, and you can make the call again. */
    public static final class OutOfMemory extends SvidException {
        private static final long serialVersionUID = 1;

        OutOfMemory(OutOfMemoryError cause) {
            super(Status.NO_MEMORY.says(), cause);
        }
    }

    /**
     * No token was accepted: the store failed, or there was no answer in time. The token may be used up all the same: its client needs a
     * new one. Of {@link Validator#withdraw(String)}: the token is withdrawn here, and others may still accept it. The cause is what the
     * store threw last, if it did.
     */
    public static final class Unavailable extends SvidException {
        private static final long serialVersionUID = 1;

        private final int number;

        Unavailable(int number, Throwable cause) {
            this(number, saidOf(number), cause);
        }

        Unavailable(String message, Throwable cause) {
            this(0, message, cause);
        }

        Unavailable(int number, String message, Throwable cause) {
            super(message, cause);
            this.number = number;
        }

        /** The bundle of a token's trust domain is to come. */
        static Unavailable ofBundle(String domain) {
            return new Unavailable(AWAITED, "the bundle of " + domain + " was not read yet", null);
        }

        /** Whether a status of the library says this. */
        static boolean is(int number) {
            return number == Library.CLAIM_FAR || number == Library.CLAIM_DEAF || number >= Library.LATE && number <= Library.LEFT
                    || isUnready(number);
        }

        /** Whether a status of the library says why no tokens are to be sent to a validator. */
        static boolean isUnready(int number) {
            return number >= Library.ENDED && number <= Library.DEAF;
        }

        /** What the library says of such a status. */
        static String saidOf(int number) {
            return StatusText.of(number, "status " + number).whole("");
        }
    }

    /**
     * The token is good, and none of {@link Options#callers(IdPattern...)} allows its subject. The token is not used up: answer with status
     * 403. Of {@link Validator#admit(java.util.List)} it is a {@link Denied.NotAllowed}.
     */
    public static final class NotAllowed extends SvidException {
        private static final long serialVersionUID = 1;

        NotAllowed() {
            super("the token is good, and its subject is none of the callers that may call", null);
        }
    }

    /** The validator is closed. Open a new one. */
    public static final class Closed extends SvidException {
        private static final long serialVersionUID = 1;

        Closed() {
            super(Status.CLOSED.says(), null);
        }
    }

    /** The clock is more than {@link Options#step} past the record's moment. Nothing happened. */
    public static final class Jump extends SvidException {
        private static final long serialVersionUID = 1;

        Jump() {
            super(Status.JUMP.says(), null);
        }
    }

    /** The clock shows a time before 1970. Nothing happened. */
    public static final class NoClock extends SvidException {
        private static final long serialVersionUID = 1;

        NoClock() {
            super("the clock shows a time before 1970: set it", null);
        }
    }

    /** The messages tell of a time more than {@link Options#ahead} past the clock. None of them was taken. */
    public static final class TooFar extends SvidException {
        private static final long serialVersionUID = 1;

        TooFar() {
            super(Status.TOO_FAR.says(), null);
        }
    }

    /** The token has expired, so there is nothing to withdraw. */
    public static final class Gone extends SvidException {
        private static final long serialVersionUID = 1;

        Gone() {
            super(Status.GONE.says(), null);
        }
    }

    /** The bytes are more than 67,108,864. Nothing was taken. */
    public static final class TooMuch extends SvidException {
        private static final long serialVersionUID = 1;

        TooMuch() {
            super(Status.TOO_MUCH.says(), null);
        }
    }

    /** The trust bundles can't be read. A validator keeps those that it has. */
    public static final class BadBundles extends SvidException {
        private static final long serialVersionUID = 1;

        private final String reason;
        private final long index;
        private final String trustDomain;

        BadBundles(Status status, long index) {
            super(status.says(status == Status.BUNDLES_NOT_OBJECT || status == Status.BUNDLES_UNNAMED
                                  ? ""
                                  : " It is number " + index + " of the names in rising order, counted from 0."),
                    null);
            this.reason = status.label();
            this.index = index;
            this.trustDomain = null;
        }

        /** One of several bundles can't be joined: that of this name. */
        BadBundles(Status status, String trustDomain) {
            super('"' + trustDomain.replaceAll("[^ -~]", "?") + "\": " + status.says(), null);
            this.reason = status.label();
            this.index = 0;
            this.trustDomain = trustDomain;
        }

        /** By which name {@link Bundles#join} was given the first bundle that it can't join. Others than that call name none. */
        public Optional<String> trustDomain() {
            return Optional.ofNullable(trustDomain);
        }

        /**
         * NotObject, or Unnamed if they are the bundle of one trust domain without its name. Or of a trust domain: Domain for its name,
         * Keys for its list of keys, and where bundles are joined, Twice if an earlier one is of the same trust domain.
         */
        public String reason() {
            return reason;
        }

        /** Which trust domain, counted from 0 in the rising order of the bytes of the names; 0 where {@link #trustDomain} has the name. */
        public long index() {
            return index;
        }
    }

    /** The bytes are no messages of a validator, or not one summary. None of them was taken. */
    public static final class BadMessages extends SvidException {
        private static final long serialVersionUID = 1;

        private final String reason;
        private final long message;
        private final long offset;

        BadMessages(Status status, long message, long offset) {
            super(status.label() + (message == 0 ? "" : " in message " + message + " at byte " + offset) + ": " + status.clause(), null);
            this.reason = status.label();
            this.message = message;
            this.offset = offset;
        }

        /** A name of docs/FORMATS.md, such as "Truncated"; or "NotSummary". */
        public String reason() {
            return reason;
        }

        /** Which of the messages is bad, counted from 1; 0 for "NotSummary". */
        public long message() {
            return message;
        }

        /** Which byte of it is bad, counted from 0. */
        public long offset() {
            return offset;
        }
    }

    /** Another process has the state folder. Stop it, or give this one a folder of its own. */
    public static final class Held extends SvidException {
        private static final long serialVersionUID = 1;

        Held(String folder, String holder) {
            super("the state folder " + folder + " is held by " + holder + ": stop it, or give this one a folder of its own", null);
        }
    }

    /** The state folder can't be read: a file is damaged, missing or of another version. No crash leaves such a file. */
    public static final class BadFolder extends SvidException {
        private static final long serialVersionUID = 1;

        private final String file;
        private final long offset;

        BadFolder(String file, long offset, String message) {
            super(message, null);
            this.file = file;
            this.offset = offset;
        }

        /** The path of the file at fault. */
        public String file() {
            return file;
        }

        /** Which byte of it is at fault, counted from 0; 0 where it is the whole file. */
        public long offset() {
            return offset;
        }
    }

    /** A text is no SPIFFE ID, or no pattern of such. */
    public static final class BadId extends SvidException {
        private static final long serialVersionUID = 1;

        private final String fault;
        private final long offset;

        BadId(Status status, long offset) {
            super((status.isFrom(Status.PATTERN_TOO_LONG, Status.PATTERN_PATH_BYTE) ? "no pattern of SPIFFE IDs" : "no SPIFFE ID")
                            + " (byte " + offset + "): " + status.says(),
                    null);
            this.fault = status.label();
            this.offset = offset;
        }

        /** A name of docs/FORMATS.md, such as "SegmentEmpty". */
        public String fault() {
            return fault;
        }

        /** Which byte of the text is at fault, counted from 0; 0 where it is the whole text. */
        public long offset() {
            return offset;
        }
    }

    /** This Java can't verify signatures of a token's algorithm, so nobody knows whether a key made its signature: see the cause. */
    public static final class Unverifiable extends SvidException {
        private static final long serialVersionUID = 1;

        Unverifiable(Throwable cause) {
            super("java.security can't verify this signature: add the provider of its algorithm, such as the module jdk.crypto.ec", cause);
        }
    }

    /** The library answered what this package does not know. */
    public static final class Unexpected extends SvidException {
        private static final long serialVersionUID = 1;

        Unexpected(int status) {
            super("libsvid answered " + status + ", which this package does not know: take the libsvid.so of this jar", null);
        }
    }
}
