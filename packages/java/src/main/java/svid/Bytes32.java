package svid;

import java.util.Arrays;
import java.util.HexFormat;

/** 32 bytes. Two of one class are equal if their bytes are. */
abstract class Bytes32 {
    static final int LEN = 32;

    private final byte[] bytes;

    Bytes32(byte[] bytes, String what) {
        if (bytes.length != LEN) {
            throw new IllegalArgumentException(what + " has 32 bytes, and not " + bytes.length);
        }
        this.bytes = bytes.clone();
    }

    /** A copy of its bytes. */
    public byte[] bytes() {
        return bytes.clone();
    }

    @Override
    public boolean equals(Object other) {
        return other instanceof Bytes32 it && it.getClass() == getClass() && Arrays.equals(bytes, it.bytes);
    }

    @Override
    public int hashCode() {
        return Arrays.hashCode(bytes);
    }

    /** Its hexadecimal digits. */
    @Override
    public String toString() {
        return HexFormat.of().formatHex(bytes);
    }
}
