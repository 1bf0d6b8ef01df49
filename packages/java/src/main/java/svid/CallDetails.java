package svid;

import com.sun.jna.Pointer;

/** What a call of the library tells beside its status. */
final class CallDetails {
    final Pointer at;

    CallDetails(Arena room) {
        at = room.take(Library.Told.SIZE);
    }

    long len() {
        return at.getLong(Library.Told.LEN);
    }

    long message() {
        return at.getLong(Library.Told.MESSAGE);
    }

    /** The number of an input, counted from 1. */
    long input() {
        return at.getLong(Library.Told.INPUT);
    }

    long offset() {
        return at.getLong(Library.Told.OFFSET);
    }

    /** Throws what a status says that is neither OK nor a refusal. */
    void must(int status) {
        if (status != 0) {
            throw SvidException.of(status, this);
        }
    }

    /** Throws what a status says that is not OK. */
    void accept(int status) throws Refusal {
        Refusal.Reason reason = Refusal.Reason.of(status);
        if (reason != null) {
            throw new Refusal(reason);
        }
        must(status);
    }
}
