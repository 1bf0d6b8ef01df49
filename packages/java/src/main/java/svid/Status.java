package svid;

/** The statuses of the library that are no refusals. */
enum Status {
    // clang-format off
    // lists:begin statuses (written by tools/lists from lists/statuses.toml)
    OK(0, "Ok"),
    TOO_SHORT(1, "TooShort"),
    NO_MEMORY(2, "NoMemory"),
    TOO_MUCH(3, "TooMuch"),
    NOT_SUMMARY(4, "NotSummary"),
    CLOSED(5, "Closed"),
    IS_OPEN(6, "IsOpen"),
    GONE(7, "Gone"),
    TOO_FAR(8, "TooFar"),
    JUMP(9, "Jump"),
    HAS_LOG(10, "HasLog"),
    NO_LOG(19, "NoLog"),
    MAGIC(11, "Magic", "4A 53 52, which is JSR, and then 02 or 01"),
    KIND(12, "Kind", "01 for a batch, or 02 for a summary, which only version 2 has"),
    COUNT(13, "Count", "a number of at most 65,536 uses, or of 4,096 in version 1"),
    USE_KIND(14, "UseKind", "a use whose last byte is 00 or 01"),
    USE_EXPIRED(15, "UseExpired", "a use that expires after the batch's moment"),
    USE_FUTURE(16, "UseFuture", "a use that was made at the batch's moment or before it"),
    USE_ORDER(17, "UseOrder", "a use that is greater than the one before it"),
    TRUNCATED(18, "Truncated", "the rest of the message"),
    ID_TOO_LONG(21, "TooLong"),
    ID_SCHEME(22, "Scheme"),
    ID_DOMAIN_EMPTY(23, "DomainEmpty"),
    ID_DOMAIN_BYTE(24, "DomainByte"),
    ID_DOMAIN_LONG(25, "DomainLong"),
    ID_SEGMENT_EMPTY(26, "SegmentEmpty"),
    ID_SEGMENT_DOTS(27, "SegmentDots"),
    ID_PATH_BYTE(28, "PathByte"),
    BUNDLES_NOT_OBJECT(31, "NotObject"),
    BUNDLES_DOMAIN(32, "Domain"),
    BUNDLES_KEYS(33, "Keys"),
    TABLE_LINE(34, "TableLine"),
    OWN_NOT_UTF8(35, "OwnNotUtf8"),
    OWN_LENGTHS(36, "OwnLengths"),
    BUNDLES_UNNAMED(37, "Unnamed"),
    BUNDLES_TWICE(38, "Twice"),
    BUNDLES_LENGTHS(39, "Lengths"),
    NO_ALGORITHM(70, "NoAlgorithm"),
    KEY_NOT_OBJECT(71, "KeyNotObject"),
    KEY_KTY(72, "KeyKty"),
    KEY_ALG(73, "KeyAlg"),
    KEY_N(74, "KeyN"),
    KEY_BITS(75, "KeyBits"),
    KEY_E(76, "KeyE"),
    KEY_CRV(77, "KeyCrv"),
    KEY_X(78, "KeyX"),
    KEY_Y(79, "KeyY"),
    BEARER_ABSENT(81, "Absent"),
    BEARER_SEVERAL(82, "Several"),
    BEARER_SCHEME(83, "Scheme"),
    BEARER_SPELLING(84, "Spelling"),
    NOT_ALLOWED(91, "NotAllowed"),
    PATTERN_TOO_LONG(92, "TooLong"),
    PATTERN_SCHEME(93, "Scheme"),
    PATTERN_DOMAIN_EMPTY(94, "DomainEmpty"),
    PATTERN_DOMAIN_BYTE(95, "DomainByte"),
    PATTERN_DOMAIN_LONG(96, "DomainLong"),
    PATTERN_SEGMENT_EMPTY(97, "SegmentEmpty"),
    PATTERN_SEGMENT_DOTS(98, "SegmentDots"),
    PATTERN_PATH_BYTE(99, "PathByte");
    // lists:end
    // clang-format on

    private static final Status[] ALL = values();

    private final int number;
    private final String label;
    private final String due;

    Status(int number, String label) {
        this(number, label, "");
    }

    Status(int number, String label, String due) {
        this.number = number;
        this.label = label;
        this.due = due;
    }

    /** The status of a number, or null where there is none. */
    static Status of(int number) {
        for (Status it : ALL) {
            if (it.number == number) {
                return it;
            }
        }
        return null;
    }

    int number() {
        return number;
    }

    /** Its name within its list, as docs/FORMATS.md has it. */
    String label() {
        return label;
    }

    /** What is wrong, and what to do. */
    String says() {
        return says("");
    }

    /** What is wrong, where that is, and what to do. */
    String says(String where) {
        return words().whole(where);
    }

    /** What is wrong with messages, and what to do or what is due, as a part of a sentence. */
    String clause() {
        return words().clause() + (due.isEmpty() ? "" : ", and due is " + due);
    }

    private StatusText words() {
        return StatusText.of(number, label);
    }

    boolean isFrom(Status first, Status last) {
        return number >= first.number && number <= last.number;
    }
}
