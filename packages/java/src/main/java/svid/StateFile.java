package svid;

import com.sun.jna.Pointer;
import java.io.IOException;
import java.nio.file.Path;
import java.util.ArrayList;
import java.util.Arrays;
import java.util.List;

/** What a file of a state folder holds. */
final class StateFile {
    private static final int HEAD = 64; // bytes by which messages are known

    final String name;
    /** The messages of its payloads. */
    final List<byte[]> messages = new ArrayList<>();
    /** How many bytes its frames have. */
    final long at;
    /** Whether a crash cut off a write at its end. */
    final boolean isTorn;

    /** Reads a file: a snapshot has the number 0. Throws for damage. */
    StateFile(Folder folder, String file, long number, byte[] folderId) throws IOException {
        Path path = folder.at(file);
        name = path.toString();
        byte[] content = folder.read(file);
        try (Arena room = new Arena()) {
            Reading read = new Reading(room, folderId == null ? new byte[Options.ID_LEN] : folderId, number, content);
            int status = read.all(messages);
            at = read.at();
            isTorn = status == Library.FILE_TEAR;
            if (status != Library.FILE_END && status != Library.FILE_OTHER && at == 0 && beginsAsMessages(room, content)) {
                throw new SvidException.BadFolder(name, 0, name + " is of an older svidd: start a newer one in the folder once");
            }
            if (folderId == null && !isZeros(content)) {
                throw new SvidException.BadFolder(name, 0,
                        "the file " + Folder.ID_FILE + " is missing in " + folder.path + ", and " + name
                                + " can't be read without it: put back a copy");
            }
            if (status == Library.FILE_DAMAGE) {
                throw new SvidException.BadFolder(name, at,
                        name + " is damaged at byte " + at + ": look for a failing disk, and put back a copy of the file of the same day");
            }
            if (status == Library.FILE_OTHER) {
                throw new SvidException.BadFolder(name, at,
                        name + " has format " + read.format() + ", and this version reads format 2: run the version that wrote it");
            }
        }
    }

    private static boolean isZeros(byte[] bytes) {
        for (byte it : bytes) {
            if (it != 0) {
                return false;
            }
        }
        return true;
    }

    /** A file on its way through the library. */
    static final class Reading {
        private final Pointer id;
        private final long number;
        private final byte[] content;
        private final Pointer bytes;
        private final Pointer reader;
        private final Pointer frame;
        private final Pointer bears;

        Reading(Arena room, byte[] folderId, long number, byte[] content) {
            this.number = number;
            this.content = content;
            id = room.put(folderId);
            bytes = room.put(content);
            reader = room.take(Library.Reader.SIZE);
            frame = room.take(Library.Frame.SIZE);
            bears = room.take(Library.Bears.SIZE);
            reader.clear(Library.Reader.SIZE);
        }

        long at() {
            return reader.getLong(Library.Reader.AT);
        }

        long format() {
            return frame.getLong(Library.Frame.FORMAT);
        }

        /** The next payload; null where the status says why there is none. */
        byte[] next(int[] status) {
            status[0] = Library.svid_journal_read(id, number, bytes, content.length, reader, frame);
            if (status[0] != 0) {
                return null;
            }
            int from = (int) frame.getLong(Library.Frame.PAYLOAD);
            return Arrays.copyOfRange(content, from, from + (int) frame.getLong(Library.Frame.LEN));
        }

        /** Adds the messages of each payload, and gives the status that ends them. */
        int all(List<byte[]> messages) {
            int[] status = {0};
            for (byte[] payload = next(status); payload != null; payload = next(status)) {
                byte[] found = messagesOf(payload);
                if (found.length > 0) {
                    messages.add(found);
                }
            }
            if (status[0] < Library.FILE_END || status[0] > Library.FILE_OTHER) {
                throw new SvidException.Unexpected(status[0]);
            }
            return status[0];
        }

        /** The messages of a payload. Another writer may put a position before them. */
        private byte[] messagesOf(byte[] payload) {
            try (Arena room = new Arena()) {
                Library.svid_journal_bears(room.put(payload), payload.length, bears);
                return Arrays.copyOfRange(payload, (int) bears.getLong(Library.Bears.MESSAGES), payload.length);
            }
        }
    }

    /**
     * Whether it may be a file of an older version, which is messages without frames. The library then finds no fault at its beginning.
     * (What is cut off there goes on with zeros.)
     */
    private static boolean beginsAsMessages(Arena room, byte[] content) {
        CallDetails told = new CallDetails(room);
        byte[] text = Arrays.copyOf(Arrays.copyOf(content, Math.min(HEAD, content.length)), Math.min(HEAD, content.length) + HEAD);
        int status = Library.svid_entries_read(room.put(text), text.length, null, 0, told.at);
        if (status == Status.NO_MEMORY.number()) {
            throw SvidException.of(status, told);
        }
        return status != Status.MAGIC.number() || told.message() > 1;
    }
}
