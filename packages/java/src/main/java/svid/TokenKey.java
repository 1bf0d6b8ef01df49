package svid;

/** The 32 bytes by which all uses of a token are known. */
public final class TokenKey extends Bytes32 {
    private TokenKey(byte[] bytes) {
        super(bytes, "the key of a token");
    }

    /** The key of these 32 bytes. */
    public static TokenKey of(byte[] bytes) {
        return new TokenKey(bytes);
    }
}
