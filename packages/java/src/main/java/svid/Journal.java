package svid;

import com.sun.jna.Memory;
import java.io.IOException;
import java.nio.file.Files;
import java.nio.file.NoSuchFileException;
import java.nio.file.Path;
import java.util.ArrayList;
import java.util.List;
import java.util.function.Consumer;

/**
 * A state folder: what a validator accepted, kept over restarts and crashes.
 *
 * <p>The library decides what the bytes of a file are, which call of the system comes next, and what is read of a file that a crash left
 * (include/svid.h, "A state folder"). This makes the calls, and tells the library how they went. svidd and the packages of other languages
 * write the same files (docs/FORMATS.md, "State folder").
 */
final class Journal implements AutoCloseable {
    static final String THREAD = "svid-journal";

    /** What a journal grows by: to force a new length to the disk takes longer than the bytes. */
    private static final int GROWTH = 262_144;
    /** For how many milliseconds nobody appends until a mark is worth its write. */
    private static final long QUIET = 1000;
    /** So many journals of starts are worth a snapshot. */
    private static final int MANY_JOURNALS = 8;
    /** Journals of so many bytes are worth none. */
    private static final long SMALL = 8L << 20;
    /** How many milliseconds after a snapshot that failed the next one is due. */
    private static final long PAUSE = 60_000;
    /** How many bytes of messages are taken at once, where payloads are shorter. */
    private static final int PIECE = 1 << 20;

    private static final SvidException NO_MEMORY = new SvidException.OutOfMemory(null);

    private final Folder folder;
    private final Disk disk;
    private final byte[] folderId;
    private final List<String> torn;
    private final FolderSteps numbers;
    private final Memory zeros = Library.allocated(GROWTH);
    private final Thread thread;
    private List<byte[]> found = new ArrayList<>();

    /** Held over a snapshot. It guards {@code next}, and what {@link #wantsSnapshot} reads. */
    private final Object switching = new Object();
    private volatile boolean wants;
    private volatile long keptLen; // how many bytes the snapshot has
    private volatile long pauseEnd; // until when none is due
    private volatile int next = -1; // the journal that is to grow

    /** Held over a write. It guards {@code file}, {@code room}, {@code older}, {@code isMarked} and {@code broken}. */
    private final Object writing = new Object();
    private int file = -1; // the journal that grows
    private long room; // its length
    private volatile long older; // how many bytes of frames older journals have
    private boolean isMarked = true; // its last frame is a mark, or it has none
    private Exception broken; // why nothing is kept any more

    /** It guards {@code commit}, {@code isSnapshotting} and {@code isClosing}. */
    private final Object gate = new Object();
    Commit commit; // what the next write takes
    private boolean isSnapshotting; // in the background
    private boolean isClosing;

    /** Takes a part of a record. */
    interface Sink {
        void take(byte[] part) throws IOException;
    }

    /** Gives the parts of a record. */
    interface Parts {
        void to(Sink sink) throws IOException;
    }

    /** The messages that one write takes to the disk, and who is to know what came of it. */
    static final class Commit {
        final List<byte[]> parts = new ArrayList<>();
        final List<Consumer<Exception>> told = new ArrayList<>();
        int len;

        byte[] payload() {
            byte[] all = new byte[len];
            int at = 0;
            for (byte[] it : parts) {
                System.arraycopy(it, 0, all, at, it.length);
                at += it.length;
            }
            return all;
        }

        void end(Exception why) {
            for (Consumer<Exception> it : told) {
                try {
                    it.accept(why);
                } catch (RuntimeException | Error failed) {
                    // (whatever a listener lacks, as memory, must not end the writing)
                }
            }
        }
    }

    /** Opens the folder, and begins a new journal in it. Makes it where its parent is there. */
    Journal(Path path, Disk disk) throws IOException {
        this.disk = disk;
        folder = new Folder(path, disk);
        try {
            for (String it : List.of(Folder.SNAPSHOT, Folder.ID_FILE, Folder.FRAMES)) {
                folder.remove(it + Folder.UNFINISHED);
            }
            if (Files.exists(folder.at(Folder.FRAMES))) {
                throw new SvidException.BadFolder(
                        folder.path.toString(), 0, folder.path + " is of an older svidd: start a newer one in it once");
            }
            byte[] known = folder.id();
            List<Long> journals = folder.journals();
            List<StateFile> files = read(known, journals);
            torn = files.stream().filter(it -> it.isTorn).map(it -> it.name).toList();
            files.forEach(it -> found.addAll(it.messages));
            folderId = known == null ? Options.random() : known;
            boolean hasSnapshot = files.size() > journals.size();
            if (known == null || !hasSnapshot) { // (an older svidd may have left an empty journal)
                folder.keepId(folderId, journals.isEmpty());
            }
            numbers = new FolderSteps(
                    folderId, journals.isEmpty() ? 1 : journals.get(0), journals.isEmpty() ? 0 : journals.get(journals.size() - 1));
            zeros.clear();
            makeCalls(null);
            thread = started(THREAD, this::work);
        } catch (Throwable why) {
            Disk.close(file);
            folder.close();
            throw why;
        }
    }

    /** The snapshot, if there is one, and then each journal. */
    private List<StateFile> read(byte[] known, List<Long> journals) throws IOException {
        List<StateFile> files = new ArrayList<>();
        try {
            files.add(new StateFile(folder, Folder.SNAPSHOT, 0, known));
            keptLen = files.get(0).at;
        } catch (NoSuchFileException none) {
            wants = true;
        }
        for (long it : journals) {
            StateFile journal = new StateFile(folder, Folder.journalName(it), it, known);
            files.add(journal);
            older += journal.at;
        }
        wants |= journals.size() >= MANY_JOURNALS;
        return files;
    }

    private static Thread started(String name, Runnable work) {
        Thread thread = new Thread(work, name);
        thread.setDaemon(true);
        thread.start();
        return thread;
    }

    /** 16 bytes that were made with the folder, for the validator to have as its ID. */
    byte[] validatorId() {
        return folderId;
    }

    /** The journals at whose end a crash cut off a write. Nobody had an answer that it was kept. */
    List<String> torn() {
        return torn;
    }

    /** Gives all messages that were found. Only the first call does. */
    void load(Consumer<byte[]> take) {
        List<byte[]> all = found;
        found = List.of();
        Commit some = new Commit();
        for (byte[] it : all) {
            some.parts.add(it);
            some.len += it.length;
            if (some.len >= PIECE) {
                take.accept(some.payload());
                some = new Commit();
            }
        }
        if (some.len > 0) {
            take.accept(some.payload());
        }
    }

    /** Keeps messages in the background, and tells why that failed, or null. Those that come meanwhile share a write. */
    void keep(byte[] messages, Consumer<Exception> told) {
        try {
            join(messages, told);
        } catch (SvidException why) {
            told.accept(why);
        }
    }

    private void join(byte[] messages, Consumer<Exception> told) {
        synchronized (gate) {
            if (isClosing) {
                throw new SvidException.Closed();
            }
            if (commit == null) {
                commit = new Commit();
                gate.notifyAll();
            }
            if (commit.len + messages.length > Library.PAYLOAD_MOST) {
                throw new SvidException.Unavailable("the disk does not answer, and too much waits for it", null);
            }
            commit.parts.add(messages);
            commit.len += messages.length;
            commit.told.add(told);
        }
    }

    /** Whether a snapshot is due: there is none, or the journals are many or long. */
    boolean wantsSnapshot() {
        return Times.up() >= pauseEnd && (wants || older + numbers.end() > Math.max(keptLen, SMALL));
    }

    /** Replaces the snapshot by these parts, and drops the journals before it. Where it throws, nothing is lost. */
    void snapshot(Parts parts) throws IOException {
        synchronized (switching) {
            mustBeOpen();
            numbers.begin();
            pauseEnd = Times.up() + PAUSE;
            makeCalls(parts);
            wants = false;
            pauseEnd = 0;
        }
    }

    /** Does that in the background, if nothing does. Logs a warning where it fails. */
    void snapshotSoon(Parts parts) {
        synchronized (gate) {
            if (isSnapshotting || isClosing) {
                return;
            }
            isSnapshotting = true;
        }
        try {
            started("svid-snapshot", () -> {
                try {
                    snapshot(parts);
                } catch (IOException | SvidException | OutOfMemoryError why) {
                    warn(why);
                } finally {
                    snapshotted();
                }
            });
        } catch (OutOfMemoryError why) {
            // (the process may have no other thread)
            pauseEnd = Times.up() + PAUSE;
            snapshotted();
            warn(why);
        }
    }

    private static void warn(Throwable why) {
        Log.warn("the snapshot stays as it is: " + why);
    }

    private void snapshotted() {
        synchronized (gate) {
            isSnapshotting = false;
        }
    }

    private void mustBeOpen() {
        synchronized (gate) {
            if (isClosing) {
                throw new SvidException.Closed();
            }
        }
    }

    /** Lets the thread that writes end. Waits for nothing. */
    void drop() {
        synchronized (gate) {
            isClosing = true;
            gate.notifyAll();
        }
    }

    /** Waits for what is under way, and lets go of the folder. */
    @Override
    public void close() {
        drop();
        boolean isInterrupted = false;
        while (thread.isAlive()) {
            try {
                thread.join();
            } catch (InterruptedException why) {
                isInterrupted = true;
            }
        }
        if (isInterrupted) {
            Thread.currentThread().interrupt();
        }
    }

    /** Makes the calls of the system that are due, until one fails. */
    private void makeCalls(Parts parts) throws IOException {
        int[] beside = {-1};
        try {
            for (FolderSteps.Due due = numbers.due(); due.call() != Library.CALL_NOTHING; due = numbers.due()) {
                stay();
                try {
                    make(due, parts, beside);
                } catch (Throwable why) {
                    answer(due.call(), why);
                    if (beside[0] >= 0) {
                        removeUnfinished();
                    }
                    throw why;
                }
                answer(due.call(), null);
            }
        } finally {
            Disk.close(beside[0]);
            Disk.close(next);
            next = -1;
        }
    }

    private void make(FolderSteps.Due due, Parts parts, int[] beside) throws IOException {
        switch (due.call()) {
            case Library.CALL_CREATE_JOURNAL:
                next = folder.create(Folder.journalName(due.journal()));
                return;
            case Library.CALL_SYNC_FOLDER:
                folder.sync();
                return;
            case Library.CALL_WRITE_SNAPSHOT:
                beside[0] = folder.create(Folder.SNAPSHOT + Folder.UNFINISHED);
                writePieces(beside[0], parts);
                return;
            case Library.CALL_SYNC_SNAPSHOT:
                disk.syncData(beside[0]);
                return;
            case Library.CALL_RENAME_SNAPSHOT:
                folder.rename(Folder.SNAPSHOT + Folder.UNFINISHED, Folder.SNAPSHOT);
                return;
            case Library.CALL_REMOVE_JOURNAL:
                folder.remove(Folder.journalName(due.journal()));
                return;
            default:
                throw new SvidException.Unexpected(due.call());
        }
    }

    private void removeUnfinished() {
        try {
            folder.remove(Folder.SNAPSHOT + Folder.UNFINISHED); // its room may be needed
        } catch (IOException why) {
            // (the next start removes it)
        }
    }

    /** Throws, from now on, unless the path still leads to the folder: what is there now may be the folder of another process. */
    private void stay() {
        try {
            folder.stand();
        } catch (IOException why) {
            synchronized (writing) {
                numbers.failed();
                throw endMoved(why);
            }
        }
    }

    /** Tells how a call went, and lets the next journal grow where that comes then. */
    private void answer(int call, Throwable why) {
        synchronized (writing) {
            if (why == null && call == Library.CALL_SYNC_FOLDER && next >= 0) {
                mark(); // the journal is closed
            }
            long before = numbers.newest();
            numbers.answer(why == null);
            if (numbers.isEnded()) {
                end(why);
            }
            if (numbers.newest() != before) {
                if (file >= 0) {
                    older = 0;
                }
                Disk.close(file); // (all of it is on the disk)
                file = next;
                next = -1;
                room = 0;
                isMarked = true;
            }
        }
    }

    /** Writes a snapshot: each part, and a mark. */
    private void writePieces(int to, Parts parts) throws IOException {
        long[] at = {0};
        Sink write = part -> {
            try (Arena lent = new Arena()) {
                FolderSteps.Frame frame = numbers.piece(lent, part);
                disk.write(to, frame.at(), frame.len(), at[0]);
                at[0] += frame.len();
            }
        };
        parts.to(part -> {
            if (part.length > 0) {
                write.take(part);
            }
        });
        write.take(new byte[0]);
        keptLen = at[0];
    }

    /** Takes to the disk what threads append, one write after the other, until it is closed. */
    private void work() {
        boolean isQuiet = true;
        while (true) {
            Commit these;
            synchronized (gate) {
                if (commit == null && !isClosing) {
                    pause(isQuiet ? 0 : QUIET);
                }
                these = commit;
                commit = null;
                if (these == null && isClosing) {
                    break;
                }
            }
            Exception why = NO_MEMORY;
            try {
                synchronized (writing) {
                    if (these == null) {
                        mark();
                    } else {
                        why = put(these);
                    }
                }
            } catch (OutOfMemoryError lost) {
                // (there is none to say so either, and without this thread nothing is kept any more)
            }
            isQuiet = these == null;
            if (these != null) {
                these.end(why);
            }
        }
        synchronized (switching) {
            synchronized (writing) {
                mark();
                Disk.close(file);
                file = -1;
                folder.close();
            }
        }
    }

    /** Waits at the gate, for so many milliseconds; 0 is for ever. */
    private void pause(long most) {
        try {
            gate.wait(most);
        } catch (InterruptedException why) {
            // (nobody ends this thread so)
        }
    }

    // -- With the lock for a write held

    /** Ends the journal by a mark, by which damage before it is seen. */
    private void mark() {
        if (broken == null && !isMarked) {
            put(new byte[0]); // (nobody waits for it: where that fails, there is none)
        }
    }

    private Exception put(Commit these) {
        byte[] payload;
        try {
            payload = these.payload();
        } catch (OutOfMemoryError why) {
            return new SvidException.OutOfMemory(why);
        }
        return payload.length == 0 ? null : put(payload);
    }

    /** Takes a payload to the disk, and gives why that failed, or null. */
    private Exception put(byte[] payload) {
        if (broken != null) {
            return broken;
        }
        try (Arena lent = new Arena()) {
            long at = numbers.end();
            FolderSteps.Frame frame;
            try {
                frame = numbers.put(lent, payload);
            } catch (SvidException why) {
                return why;
            }
            try {
                writeFrame(frame, at);
            } catch (IOException why) {
                numbers.unwritten();
                return why;
            } catch (OutOfMemoryError why) {
                numbers.unwritten();
                return new SvidException.OutOfMemory(why);
            }
            try {
                disk.syncData(file);
            } catch (IOException why) {
                numbers.failed();
                return end(why);
            }
            try {
                folder.stand();
            } catch (IOException why) {
                numbers.failed();
                return endMoved(why);
            }
            numbers.synced();
            isMarked = payload.length == 0;
            return null;
        } catch (SvidException.OutOfMemory why) {
            return why; // (nothing was written)
        } catch (RuntimeException | Error why) {
            // (nobody knows how far it came)
            numbers.failed();
            return end(why);
        }
    }

    /** Writes a frame. Where the file is too short it grows, if there is room for that. */
    private void writeFrame(FolderSteps.Frame frame, long at) throws IOException {
        long end = at + frame.len();
        if (end > room) {
            try {
                disk.write(file, zeros, GROWTH, end);
                room = end + GROWTH;
            } catch (IOException why) {
                // (the frame alone may have room)
            }
        }
        disk.write(file, frame.at(), frame.len(), at);
    }

    /** From now on nothing is kept. */
    private Exception end(Throwable why) {
        broken = new SvidException.Unavailable(
                "the disk does not say what it holds (" + why + "): mend it, and start the service again", why);
        return broken;
    }

    /** From now on nothing is kept: another process may have begun at the path. */
    private SvidException endMoved(IOException why) {
        SvidException moved = new SvidException.Unavailable(
                "the state folder is no longer at its path (" + why + "): put it back there, and start the service again", why);
        broken = moved;
        return moved;
    }
}
