package svid;

import com.sun.jna.Memory;
import com.sun.jna.Native;
import com.sun.jna.Pointer;
import java.io.FileInputStream;
import java.io.IOException;
import java.nio.file.FileSystemException;
import java.nio.file.Files;
import java.nio.file.Path;
import java.nio.file.StandardCopyOption;
import java.nio.file.attribute.BasicFileAttributes;
import java.nio.file.attribute.PosixFilePermissions;

/**
 * The calls of the system by which a state folder is kept. Java has no flock and no fsync of a folder, and closes a file whose thread is
 * interrupted, so they are those of the C library. Each may throw IOException.
 */
class Disk {
    /** The numbers of errors that a caller tells apart. */
    static final int EPERM = 1, EINTR = 4, EAGAIN = 11, EACCES = 13, EINVAL = 22;

    private static final Libc LIBC = Native.load("c", Libc.class);
    private static final int READ = 0, WRITE = 1, BOTH = 2, CREATE = 0100, EXCLUSIVE = 0200, CLOSE_ON_EXEC = 02000000;
    private static final int OWNER_ALONE = 0600;
    private static final int LOCK_NOW = 2 | 4;

    /** The functions, as the C library of Linux declares them. */
    interface Libc extends com.sun.jna.Library {
        int open(String path, int how, int mode);

        int close(int file);

        int flock(int file, int how);

        int ftruncate(int file, long len);

        long pwrite(int file, Pointer bytes, long len, long at);

        int fsync(int file);

        int fdatasync(int file);

        String strerror(int number);
    }

    /** An error of the system, with its number. */
    static final class Failure extends FileSystemException {
        private static final long serialVersionUID = 1;
        final int number;

        Failure(String file, int number) {
            super(file, null, LIBC.strerror(number));
            this.number = number;
        }
    }

    private static void must(long answer, String file) throws IOException {
        if (answer < 0) {
            throw new Failure(file, Native.getLastError());
        }
    }

    private static int opened(Path path, int how) throws IOException {
        int file = LIBC.open(path.toString(), how | CLOSE_ON_EXEC, OWNER_ALONE);
        must(file, path.toString());
        return file;
    }

    void makeFolder(Path path) throws IOException {
        Files.createDirectory(path, PosixFilePermissions.asFileAttribute(PosixFilePermissions.fromString("rwx------")));
    }

    void remove(Path path) throws IOException {
        Files.deleteIfExists(path);
    }

    void rename(Path old, Path name) throws IOException {
        Files.move(old, name, StandardCopyOption.ATOMIC_MOVE);
    }

    /** Opens a new file to write. */
    int create(Path path) throws IOException {
        return opened(path, WRITE | CREATE | EXCLUSIVE);
    }

    /** Opens a file to hold its lock, and makes it where it is not there. */
    int openLock(Path path) throws IOException {
        return opened(path, BOTH | CREATE);
    }

    int openFolder(Path path) throws IOException {
        if (!Files.isDirectory(path)) {
            throw new FileSystemException(path.toString(), null, "it is no folder");
        }
        return opened(path, READ);
    }

    /** Takes the lock of a file. False if another process has it. */
    boolean lock(int file) throws IOException {
        int answer = LIBC.flock(file, LOCK_NOW);
        if (answer < 0 && Native.getLastError() == EAGAIN) {
            return false;
        }
        must(answer, "the lock");
        return true;
    }

    /** Writes all of it at an offset of a file. */
    void write(int file, Pointer bytes, long len, long at) throws IOException {
        for (long done = 0; done < len;) {
            long written = LIBC.pwrite(file, bytes.share(done), len - done, at + done);
            if (written < 0 && Native.getLastError() == EINTR) {
                continue;
            }
            must(written == 0 ? -1 : written, "the file that is written");
            done += written;
        }
    }

    /** Makes the bytes the whole content of a file. */
    void replace(int file, byte[] bytes) throws IOException {
        must(LIBC.ftruncate(file, 0), "the file that is written");
        try (Memory lent = Library.allocated(bytes.length)) {
            lent.write(0, bytes, 0, bytes.length);
            write(file, lent, bytes.length, 0);
        }
    }

    /** Forces the names of a folder to the disk. */
    void sync(int folder) throws IOException {
        must(LIBC.fsync(folder), "the folder");
    }

    /** Forces the bytes of a file to the disk. */
    void syncData(int file) throws IOException {
        must(LIBC.fdatasync(file), "the file that is written");
    }

    /** Closes a file, if it is one. */
    static void close(int file) {
        if (file >= 0) {
            LIBC.close(file);
        }
    }

    /** What tells a file from each other one, by its path. */
    static Object identity(Path path) throws IOException {
        return Files.readAttributes(path, BasicFileAttributes.class).fileKey();
    }

    /** The same of an open file. */
    static Object identity(int file) throws IOException {
        return identity(Path.of("/proc/self/fd/" + file));
    }

    /** Throws for what is no regular file: to open a pipe, or to read one, may take for ever. NoSuchFileException: nothing is there. */
    static void mustBeRegular(Path path) throws IOException {
        if (!Files.readAttributes(path, BasicFileAttributes.class).isRegularFile()) {
            throw new FileSystemException(path.toString(), null, "it is no regular file");
        }
    }

    /** The first bytes of a regular file, at most so many. (A file of java.nio ends where its thread is interrupted.) */
    static byte[] read(Path path, int most) throws IOException {
        mustBeRegular(path);
        try (FileInputStream file = new FileInputStream(path.toFile())) {
            return file.readNBytes(most);
        }
    }
}
