package svid;

import com.sun.jna.Pointer;

/** A text that the library wrote, and where it stands; it has no bytes unless the status is OK. */
record Output(int status, Pointer at, byte[] bytes) {
    private static final byte[] NONE = {};

    /** A call that writes a text into a room. */
    interface Call {
        int into(Pointer out, long outLen);
    }

    /** Makes the call, once more with more room where it has too little. */
    static Output by(Arena room, CallDetails told, long usual, Call call) {
        for (long size = usual;; size = told.len()) {
            Pointer out = room.take(size);
            int status = call.into(out, size);
            if (status == Status.TOO_SHORT.number() && told.len() > size) {
                continue;
            }
            return new Output(status, out, status == 0 ? bytesOf(out, told.len()) : NONE);
        }
    }

    /** The bytes that stand there. */
    static byte[] bytesOf(Pointer at, long len) {
        if (len > Integer.MAX_VALUE - 8) {
            throw new SvidException.OutOfMemory(new OutOfMemoryError("an array of " + len + " bytes"));
        }
        return at.getByteArray(0, (int) len);
    }
}
