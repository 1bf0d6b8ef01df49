package svid;

/** The 32 bytes that say whose a claim is: what a {@link Store} keeps for a token. */
public final class Owner extends Bytes32 {
    /** The owner of a token that was withdrawn. */
    public static final Owner WITHDRAWN = new Owner(new byte[LEN]);

    private Owner(byte[] bytes) {
        super(bytes, "an owner");
    }

    /** The owner of these 32 bytes. */
    public static Owner of(byte[] bytes) {
        return new Owner(bytes);
    }
}
