package svid;

import com.sun.jna.Memory;
import com.sun.jna.Pointer;

/** What the library says of a state folder: which call of the system is due, and frames. One call at a time uses it. */
final class FolderSteps {
    private final Memory folder = Library.allocated(Library.Folder.SIZE);
    private final Memory id = Library.allocated(Options.ID_LEN);

    /** A call of the system that is due, and the number of its journal. */
    record Due(int call, long journal) {}

    /** The bytes of a frame. */
    record Frame(Pointer at, long len) {}

    FolderSteps(byte[] folderId, long oldest, long newest) {
        id.write(0, folderId, 0, Options.ID_LEN);
        must(Library.svid_journal_open(folder, oldest, newest));
    }

    /** The number of the journal that grows. */
    synchronized long newest() {
        return folder.getLong(Library.Folder.NEWEST);
    }

    /** Where the next frame goes in it. */
    synchronized long end() {
        return folder.getLong(Library.Folder.END);
    }

    /** Whether a sync failed. */
    synchronized boolean isEnded() {
        return folder.getLong(Library.Folder.ENDED) != 0;
    }

    synchronized void begin() {
        must(Library.svid_journal_begin(folder));
    }

    synchronized Due due() {
        try (Arena room = new Arena()) {
            Pointer due = room.take(Library.Due.SIZE);
            must(Library.svid_journal_due(folder, due));
            return new Due((int) due.getLong(Library.Due.CALL), due.getLong(Library.Due.JOURNAL));
        }
    }

    synchronized void answer(boolean isDone) {
        must(Library.svid_journal_answer(folder, isDone ? 1 : 0));
    }

    /** The frame of a payload for the journal that grows, in this room. */
    synchronized Frame put(Arena room, byte[] payload) {
        return frame(room, payload, (lent, len, out, outLen, told) -> Library.svid_journal_put(folder, id, lent, len, out, outLen, told));
    }

    /** The frame of the next piece of the snapshot. */
    synchronized Frame piece(Arena room, byte[] payload) {
        return frame(room, payload, (lent, len, out, outLen, told) -> Library.svid_journal_piece(folder, id, lent, len, out, outLen, told));
    }

    synchronized void synced() {
        must(Library.svid_journal_synced(folder));
    }

    synchronized void unwritten() {
        must(Library.svid_journal_unwritten(folder));
    }

    synchronized void failed() {
        must(Library.svid_journal_failed(folder));
    }

    private interface Framing {
        int call(Pointer payload, long len, Pointer out, long outLen, Pointer told);
    }

    private static Frame frame(Arena room, byte[] payload, Framing framing) {
        CallDetails told = new CallDetails(room);
        Pointer lent = room.put(payload);
        long size = payload.length + Library.FRAME_MORE;
        Pointer out = room.take(size);
        must(framing.call(lent, payload.length, out, size, told.at));
        return new Frame(out, told.len());
    }

    private static void must(int status) {
        if (status != 0) {
            throw new SvidException.Unavailable(status, null);
        }
    }
}
