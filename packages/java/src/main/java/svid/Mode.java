package svid;

/** How often a good token is accepted, until it expires. */
public enum Mode {
    /** Once, by this validator. */
    ONCE(0),
    /** Once, by all validators that share a {@link Store}. */
    STRICT(1),
    /** Again and again, but from one caller alone, by all validators that share a {@link Store}. */
    BOUND(2),
    /** Again and again. */
    REUSE(3);

    private final int number;

    Mode(int number) {
        this.number = number;
    }

    /** Its number in the library. */
    int number() {
        return number;
    }

    /** Whether tokens are claimed in a store. */
    boolean hasStore() {
        return this == STRICT || this == BOUND;
    }
}
