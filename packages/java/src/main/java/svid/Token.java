package svid;

import com.sun.jna.Pointer;

/** A token that the library has read once, for all calls about it, and the key that made its signature. One thread uses it. */
final class Token implements AutoCloseable {
    final Arena room = new Arena();
    final CallDetails told = new CallDetails(room);
    final byte[] bytes;
    final Pointer text;
    /** The {@code svid_token}. */
    final Pointer at;
    /** What the library says of it. Unless that is OK, it can only be closed. */
    final int status;
    /** Which bundles were asked for its keys: what {@link State#edition} was. */
    long edition = -1;
    /** What they answered. */
    Signatures.Found found = Signatures.Found.NONE;

    Token(byte[] bytes) {
        this.bytes = bytes;
        text = room.put(bytes);
        at = room.take(Library.Handle.SIZE);
        at.clear(Library.Handle.SIZE);
        status = Library.svid_token_open(at, text, bytes.length, told.at);
    }

    /** The bytes that the signature was found to be made over. */
    Pointer input() {
        return found.key() == null ? null : text;
    }

    @Override
    public void close() {
        Library.svid_token_close(at);
        room.close();
    }
}
