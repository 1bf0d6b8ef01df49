package svid;

import java.io.IOException;
import java.math.BigInteger;
import java.nio.charset.StandardCharsets;
import java.nio.file.FileAlreadyExistsException;
import java.nio.file.FileSystemException;
import java.nio.file.Files;
import java.nio.file.NoSuchFileException;
import java.nio.file.Path;
import java.time.Instant;
import java.time.temporal.ChronoUnit;
import java.util.HexFormat;
import java.util.List;
import java.util.regex.Matcher;
import java.util.regex.Pattern;
import java.util.stream.Stream;

/** A state folder that this process holds, and the calls of the system on it, by the names of files. Each may throw IOException. */
final class Folder {
    static final String LOCK = "lock";
    static final String ID_FILE = "place";
    static final String SNAPSHOT = "snapshot";
    /** It is there while a folder of an older svidd has no snapshot of frames yet. */
    static final String FRAMES = "frames";
    static final String UNFINISHED = ".new";

    private static final Pattern JOURNAL = Pattern.compile("journal\\.([1-9][0-9]{0,19})");
    private static final Pattern ID_TEXT = Pattern.compile("([0-9A-Fa-f]{32})\n?");
    private static final int HOLDER = 200; // bytes that its name has at most
    private static final int MOST = Integer.MAX_VALUE - 8; // of an array

    final Path path;
    private final Disk disk;
    private int self = -1;
    private int lock = -1;
    private final List<Object> is;

    /** Makes the folder where it is not there, and locks it. */
    Folder(Path path, Disk disk) throws IOException {
        this.path = path.toAbsolutePath();
        this.disk = disk;
        make();
        try {
            self = disk.openFolder(this.path);
            lock = held();
            is = List.of(Disk.identity(self), Disk.identity(lock));
        } catch (Throwable why) {
            close();
            throw why;
        }
    }

    /** Lets go of the folder. */
    void close() {
        Disk.close(lock);
        Disk.close(self);
        lock = -1;
        self = -1;
    }

    static String journalName(long number) {
        return "journal." + number;
    }

    Path at(String name) {
        return path.resolve(name);
    }

    /** The numbers of the journals, in rising order. */
    List<Long> journals() throws IOException {
        try (Stream<Path> names = Files.list(path)) {
            return names.map(it -> JOURNAL.matcher(it.getFileName().toString()))
                    .filter(Matcher::matches)
                    .map(it -> new BigInteger(it.group(1)))
                    .filter(it -> it.bitLength() <= Long.SIZE)
                    .sorted()
                    .map(BigInteger::longValue)
                    .toList();
        }
    }

    /** All bytes of a file. The rest of a longer one would be lost, as if a crash had cut it off. */
    byte[] read(String name) throws IOException {
        Path file = at(name);
        if (Files.size(file) > MOST) {
            throw new FileSystemException(
                    file.toString(), null, "it has more than " + MOST + " bytes, which Java can't read at once: svidd can go on with it");
        }
        return Disk.read(file, MOST);
    }

    /** Opens a new file, instead of one that has the name. */
    int create(String name) throws IOException {
        remove(name);
        return disk.create(at(name));
    }

    void rename(String old, String name) throws IOException {
        disk.rename(at(old), at(name));
    }

    /** Removes a file. One that is not there is removed. */
    void remove(String name) throws IOException {
        disk.remove(at(name));
    }

    /** Forces the names of the folder to the disk. */
    void sync() throws IOException {
        disk.sync(self);
    }

    /**
     * Throws unless the path leads to this folder, with the lock that is held. Somebody may have removed or moved it, or mounted another
     * one over it: the lock keeps no other process from what is there now. It reads no disk.
     */
    void stand() throws IOException {
        if (!is.equals(List.of(Disk.identity(path), Disk.identity(at(LOCK))))) {
            throw new FileSystemException(path.toString(), null, "it is another folder than the one that was opened");
        }
    }

    /** The ID of the folder, 16 bytes; null where it has none. */
    byte[] id() throws IOException {
        byte[] text;
        try {
            text = read(ID_FILE);
        } catch (NoSuchFileException none) {
            return null;
        }
        Matcher found = ID_TEXT.matcher(new String(text, StandardCharsets.ISO_8859_1));
        if (!found.matches()) {
            throw new SvidException.BadFolder(at(ID_FILE).toString(), 0,
                    at(ID_FILE) + " is not 32 hexadecimal digits: put back a copy: no file of the folder can be read without it");
        }
        return HexFormat.of().parseHex(found.group(1));
    }

    /**
     * Keeps the ID, before anything is kept that can't be read without it. A start that failed or was killed may have left a file that has
     * it, and an empty folder itself: no later sync vouches for a name whose sync failed. So the file is made again.
     */
    void keepId(byte[] id, boolean isEmpty) throws IOException {
        try {
            if (isEmpty) {
                syncAbove();
            }
        } catch (Disk.Failure why) {
            // (Who may not read the folder above has not made this one. Where that folder is only read, it may have no sync.)
            if (why.number != Disk.EACCES && why.number != Disk.EPERM && why.number != Disk.EINVAL) {
                throw unsure(why);
            }
        }
        int file = create(ID_FILE + UNFINISHED);
        try {
            disk.replace(file, (HexFormat.of().formatHex(id) + "\n").getBytes(StandardCharsets.US_ASCII));
            disk.syncData(file);
        } finally {
            Disk.close(file);
        }
        rename(ID_FILE + UNFINISHED, ID_FILE);
        sync();
    }

    /**
     * Makes the folder where it is not there, so that its name lasts. Where the sync of the folder above fails, no later sync vouches for
     * the name. So the folder is removed, and the next start makes it again.
     */
    private void make() throws IOException {
        try {
            disk.makeFolder(path);
        } catch (FileAlreadyExistsException there) {
            return;
        }
        try {
            syncAbove();
        } catch (IOException why) {
            try {
                disk.remove(path);
            } catch (IOException stays) {
                throw unsure(why);
            }
            throw why;
        }
    }

    private void syncAbove() throws IOException {
        int above = disk.openFolder(path.getParent() == null ? path : path.getParent());
        try {
            disk.sync(above);
        } finally {
            Disk.close(above);
        }
    }

    private IOException unsure(IOException why) {
        return new IOException("the name of " + path + " may not last (" + why.getMessage()
                        + "): mend the disk, remove this folder, which keeps nothing yet, and start again",
                why);
    }

    /** The lock file, locked, with the name of this process. */
    private int held() throws IOException {
        try {
            Disk.mustBeRegular(at(LOCK));
        } catch (NoSuchFileException none) {
            // (it is made)
        }
        int file = disk.openLock(at(LOCK));
        try {
            if (!disk.lock(file)) {
                String holder = new String(Disk.read(at(LOCK), HOLDER), StandardCharsets.UTF_8).strip();
                throw new SvidException.Held(path.toString(), holder.isEmpty() ? "another process" : holder);
            }
            String name = "process " + ProcessHandle.current().pid() + " since " + Instant.now().truncatedTo(ChronoUnit.SECONDS) + "\n";
            disk.replace(file, name.getBytes(StandardCharsets.UTF_8));
            return file;
        } catch (Throwable why) {
            Disk.close(file);
            throw why;
        }
    }
}
