package svid;

import static org.junit.Assert.assertArrayEquals;
import static org.junit.Assert.assertEquals;
import static org.junit.Assert.assertFalse;
import static org.junit.Assert.assertNotEquals;
import static org.junit.Assert.assertThrows;
import static org.junit.Assert.assertTrue;
import static svid.Making.PATIENCE;
import static svid.Making.token;
import static svid.Making.until;

import com.google.gson.JsonObject;
import com.sun.jna.Memory;
import com.sun.jna.Pointer;
import java.io.IOException;
import java.io.RandomAccessFile;
import java.io.UncheckedIOException;
import java.nio.ByteBuffer;
import java.nio.file.Files;
import java.nio.file.NoSuchFileException;
import java.nio.file.Path;
import java.nio.file.StandardCopyOption;
import java.nio.file.attribute.PosixFilePermissions;
import java.time.Duration;
import java.time.Instant;
import java.util.ArrayList;
import java.util.Comparator;
import java.util.HashMap;
import java.util.HashSet;
import java.util.List;
import java.util.Map;
import java.util.Set;
import java.util.TreeSet;
import java.util.concurrent.CompletableFuture;
import java.util.concurrent.ConcurrentSkipListSet;
import java.util.concurrent.CopyOnWriteArrayList;
import java.util.concurrent.CountDownLatch;
import java.util.concurrent.TimeUnit;
import java.util.concurrent.atomic.AtomicInteger;
import java.util.stream.Stream;
import org.junit.Rule;
import org.junit.Test;
import org.junit.rules.TemporaryFolder;

/** A state folder: what it keeps over restarts, kills, losses of power, and calls that fail. */
@SuppressWarnings("try") // (some are only held)
public class StateTest {
    private static final long BEGUN = Instant.now().getEpochSecond();
    private static final int USES = 8;

    @Rule public final TemporaryFolder temporary = new TemporaryFolder();
    @Rule public final Said logger = new Said();

    private Path room() {
        return temporary.getRoot().toPath().toAbsolutePath();
    }

    /** The message of a use of now, by a number. */
    private static byte[] use(int number) {
        byte[] key = ByteBuffer.allocate(TokenKey.LEN).put(TokenKey.LEN - 1, (byte) number).array();
        return new Admission.Use(BEGUN + 3600, BEGUN, key, new byte[16]).message(false);
    }

    /** Keeps messages, and awaits that. */
    private static void append(Journal journal, byte[] messages) throws Exception {
        CompletableFuture<Exception> told = new CompletableFuture<>();
        journal.keep(messages, told::complete);
        Exception why = told.get(PATIENCE, TimeUnit.SECONDS);
        if (why != null) {
            throw why;
        }
    }

    private static Journal open(Path folder) throws IOException {
        return new Journal(folder, new Disk());
    }

    /** The numbers of the uses that a start finds in a folder. */
    private static Set<Integer> found(Path folder) throws Exception {
        try (Journal journal = open(folder); Validator validator = Vectors.empty()) {
            journal.load(validator::take);
            Set<Integer> numbers = new TreeSet<>();
            validator.report()
                    .lines()
                    .filter(it -> it.matches("\\d+ [0-9a-f]{64} .*"))
                    .forEach(it -> numbers.add(Integer.parseInt(it.split(" ")[1].substring(62), 16)));
            return numbers;
        }
    }

    private static List<String> names(Path folder) throws IOException {
        try (Stream<Path> files = Files.list(folder)) {
            return files.map(it -> it.getFileName().toString()).sorted().toList();
        }
    }

    private static void removeAll(Path folder) throws IOException {
        List<Path> all;
        try (Stream<Path> found = Files.walk(folder)) {
            all = found.sorted(Comparator.reverseOrder()).toList();
        }
        for (Path it : all) {
            Files.delete(it);
        }
    }

    private static Validator validator(Path folder) {
        return Validator.open(Vectors.ledger().state(folder), Making.bundles());
    }

    private static String refused(Validator validator, String token) {
        return assertThrows(Refusal.class, () -> validator.check(token)).reason().toString();
    }

    @Test
    public void goesOnWithItsRecord() throws Exception {
        Path folder = room().resolve("state");
        String used = token();
        String withdrawn = token();
        String taken = token();
        byte[] id;
        try (Validator validator = validator(folder); Validator other = Validator.open(Vectors.ledger(), Making.bundles())) {
            id = Vectors.bytes(use(validator, used), "id");
            validator.withdraw(withdrawn);
            other.check(taken);
            assertEquals("Replayed", refused(validator, used));
        }
        try (Validator validator = validator(folder)) {
            assertEquals("Replayed", refused(validator, used));
            assertEquals("Withdrawn", refused(validator, withdrawn));
            assertArrayEquals(id, Vectors.bytes(use(validator, token()), "id"));
            assertEquals(3, validator.size().uses());
            assertTrue(validator.isReady());
        }
        assertEquals(Vectors.hex(id) + "\n", Files.readString(folder.resolve("place")));
        assertEquals(Set.of("rw-------"), permissions(folder));
        assertEquals("rwx------", PosixFilePermissions.toString(Files.getPosixFilePermissions(folder)));
        assertThrows(IllegalArgumentException.class,
                () -> { Validator.open(Vectors.ledger().state(folder).validatorId(new byte[16]), "{}").close(); });
        assertThrows(UncheckedIOException.class, () -> validator(room().resolve("none/state")));
    }

    /** The ID of the validator in the message of an acceptance, as hexadecimal digits. */
    private static JsonObject use(Validator validator, String token) throws Refusal {
        String line = "";
        Admission admission = validator.check(token);
        for (String it : validator.report().lines().toList()) {
            line = it.contains(admission.key().toString()) ? it : line;
        }
        JsonObject found = new JsonObject();
        found.addProperty("id", line.split(" ")[2]);
        return found;
    }

    private static Set<String> permissions(Path folder) throws IOException {
        Set<String> all = new HashSet<>();
        for (String it : names(folder)) {
            all.add(PosixFilePermissions.toString(Files.getPosixFilePermissions(folder.resolve(it))));
        }
        return all;
    }

    /** Each mode keeps withdrawals. A store of another group has none of them. */
    @Test
    public void eachModeKeepsWithdrawals() throws Exception {
        for (Mode mode : Mode.values()) {
            Path folder = room().resolve(mode.name());
            String token = token();
            for (boolean isFirst : List.of(true, false)) {
                Options options = Vectors.ledger().state(folder).mode(mode);
                options = mode.hasStore() ? options.store(new MemoryStore()) : options;
                try (Validator validator = Validator.open(options, Making.bundles())) {
                    if (isFirst) {
                        validator.withdraw(token);
                    } else {
                        assertEquals("Withdrawn", assertThrows(Refusal.class, () -> validator.judge(token)).reason().toString());
                    }
                }
            }
        }
    }

    /** One process holds a folder: others see that by flock, as svidd and the packages of other languages do. */
    @Test
    public void oneProcessHoldsAFolder() throws Exception {
        Path folder = room().resolve("state");
        String[] ask = {"flock", "-n", folder.resolve("lock").toString(), "true"};
        try (Validator validator = validator(folder)) {
            SvidException.Held held = assertThrows(SvidException.Held.class, () -> validator(folder));
            assertTrue(held.getMessage(), held.getMessage().contains("process " + ProcessHandle.current().pid() + " since 20"));
            assertNotEquals(0, Making.ended(new ProcessBuilder(ask).start()));
        }
        assertEquals(0, Making.ended(new ProcessBuilder(ask).start()));
        // (one that is not opened lets go of it at once)
        assertThrows(SvidException.BadBundles.class, () -> Validator.open(Vectors.ledger().state(folder), "[]"));
        validator(folder).close();
        Process other = new ProcessBuilder("flock", folder.resolve("lock").toString(), "cat").start();
        until(() -> {
            try {
                validator(folder).close();
                return false;
            } catch (SvidException.Held why) {
                return true;
            }
        });
        other.getOutputStream().close();
        Making.ended(other);
        validator(folder).close();
    }

    @Test
    public void aDroppedValidatorLetsGo() throws Exception {
        Path folder = room().resolve("state");
        dropped(folder);
        until(() -> {
            System.gc();
            try {
                validator(folder).close();
                return true;
            } catch (SvidException.Held why) {
                return false;
            }
        });
    }

    private static void dropped(Path folder) throws Refusal {
        validator(folder).check(token());
    }

    @Test
    public void closed() throws Exception {
        Path folder = room().resolve("state");
        Validator validator = validator(folder);
        validator.close();
        validator.close();
        assertThrows(SvidException.Closed.class, () -> validator.check(token()));
        Journal journal = open(folder);
        journal.close();
        journal.close();
        assertThrows(SvidException.Closed.class, () -> append(journal, use(1)));
        assertThrows(SvidException.Closed.class, () -> journal.snapshot(sink -> {}));
        assertFalse(Thread.getAllStackTraces().keySet().stream().anyMatch(it -> it.getName().equals(Journal.THREAD) && it.isAlive()));
    }

    @Test
    public void startsDoNotFillTheFolder() throws Exception {
        Path folder = room().resolve("state");
        for (int n = 0; n < 30; n++) {
            validator(folder).close();
        }
        assertTrue(names(folder).toString(), names(folder).size() < 13);
    }

    /** The numbers of journals have any number of digits. */
    @Test
    public void manyStartsLoseNothing() throws Exception {
        Path folder = room().resolve("state");
        Set<Integer> due = new TreeSet<>();
        for (int n = 0; n < 25; n++) {
            try (Journal journal = open(folder)) {
                append(journal, use(n));
            }
            due.add(n);
        }
        assertEquals(due, found(folder));
    }

    /** A long journal becomes a snapshot, while others append. */
    @Test
    public void aLongJournalBecomesASnapshot() throws Exception {
        Path folder = room().resolve("state");
        try (Journal journal = open(folder)) {
            journal.snapshot(sink -> {});
            assertFalse(journal.wantsSnapshot());
            for (int n = 0; n < 4; n++) {
                append(journal, concatenated(2_200_000));
            }
            assertTrue(journal.wantsSnapshot());
            journal.snapshot(sink -> sink.take(use(1)));
            append(journal, use(2));
            assertFalse(journal.wantsSnapshot());
        }
        assertEquals(Set.of(1, 2), found(folder));
        assertFalse(names(folder).contains("journal.1"));
    }

    /** Requests let one be taken, and so do withdrawals. */
    @Test
    public void aValidatorTakesSnapshotsByItself() throws Exception {
        Path folder = room().resolve("state");
        try (Journal journal = open(folder)) {
            Member member = new Member(Vectors.ledger(), Making.bundles().getBytes(), null, journal);
            member.begin(BEGUN);
            byte[] much = concatenated(2_200_000);
            for (int last = 2; last < 4; last++) {
                String before = "journal." + last;
                String after = "journal." + (last + 1);
                assertTrue(names(folder).toString(), names(folder).contains(before));
                for (int n = 0; n < 4; n++) {
                    append(journal, much);
                }
                if (last == 2) {
                    member.check(token().getBytes(), () -> BEGUN, null);
                } else {
                    member.withdraw(BEGUN, TokenKey.of(new byte[TokenKey.LEN]), BEGUN + 60);
                }
                until(() -> names(folder).contains(after) && !names(folder).contains(before));
            }
            member.close();
        }
    }

    /** After a snapshot none is due, however long the journals before it were. After one that failed none is due for a while. */
    @Test
    public void whenASnapshotIsDue() throws Exception {
        Path folder = room().resolve("state");
        try (Journal journal = open(folder)) {
            for (int n = 0; n < 4; n++) {
                append(journal, concatenated(2_200_000));
            }
        }
        Fickle disk = new Fickle();
        try (Journal journal = new Journal(folder, disk)) {
            assertTrue(journal.wantsSnapshot());
            disk.before = name -> {
                if (name.equals("rename")) {
                    throw new IOException("no space left");
                }
            };
            assertThrows(IOException.class, () -> journal.snapshot(sink -> sink.take(use(1))));
            assertFalse(journal.wantsSnapshot());
            journal.snapshotSoon(sink -> sink.take(use(1)));
            until(() -> logger.has("the snapshot stays as it is: java.io.IOException: no space left"));
            assertFalse(journal.wantsSnapshot());
            assertFalse(names(folder).toString(), names(folder).contains("snapshot.new"));
            disk.before = name -> {};
            journal.snapshot(sink -> sink.take(use(1)));
            append(journal, use(2));
            assertFalse(journal.wantsSnapshot());
            // (a journal is long if it is longer than the snapshot)
            byte[] much = concatenated(10_000_000);
            journal.snapshot(sink -> sink.take(much));
            append(journal, concatenated(9_000_000));
            assertFalse(journal.wantsSnapshot());
        }
        try (Journal journal = open(folder)) {
            assertFalse(journal.wantsSnapshot());
            append(journal, concatenated(2_000_000));
            assertTrue(journal.wantsSnapshot());
        }
    }

    /** A write that has room for a part of it fails: the rest goes to no other part of the file. */
    @Test
    public void aWriteWithRoomForAPart() throws Exception {
        String[] limits = {"prlimit", "--pid", Long.toString(ProcessHandle.current().pid()), "--fsize"};
        long limit = 1L << 40; // (other threads may write files, too)
        Disk disk = new Disk();
        int file = disk.create(room().resolve("file"));
        String before = HeaderTest.ran(limits[0], limits[1], limits[2], "--output=SOFT", "--noheadings", "--raw", limits[3]).strip();
        HeaderTest.ran(limits[0], limits[1], limits[2], limits[3] + "=" + limit + ":");
        try (Memory bytes = Library.allocated(8)) {
            IOException why = assertThrows(IOException.class, () -> disk.write(file, bytes, 8, limit - 4));
            assertTrue(why.getMessage(), why.getMessage().contains("too large"));
        } finally {
            HeaderTest.ran(limits[0], limits[1], limits[2], limits[3] + "=" + before + ":");
            Disk.close(file);
        }
    }

    /** Who hears that a use is kept, or that a snapshot is to be made, may fail: the next ones are kept. */
    @Test
    public void aListenerThatFails() throws Exception {
        Path folder = room().resolve("state");
        try (Journal journal = open(folder)) {
            CompletableFuture<Exception> told = new CompletableFuture<>();
            journal.keep(use(1), why -> {
                told.complete(why);
                throw new IllegalStateException("a listener may fail");
            });
            assertEquals(null, told.get(PATIENCE, TimeUnit.SECONDS));
            append(journal, use(2));
            journal.keep(use(4), why -> { throw new OutOfMemoryError("a listener may lack memory"); });
            assertThrows(
                    IllegalStateException.class, () -> journal.snapshot(sink -> { throw new IllegalStateException("a part may fail"); }));
            append(journal, use(3));
        }
        assertEquals(Set.of(1, 2, 3, 4), found(folder));
    }

    /** A start that fails leaves no lock: the next one fails for the same reason, or goes well. */
    @Test
    public void aStartThatFailsLetsGo() throws Exception {
        Path folder = room().resolve("state");
        Options bound = Vectors.ledger().mode(Mode.BOUND).state(folder);
        try (Validator validator = Validator.open(bound, Making.bundles())) {
            validator.check(token(), new byte[1]);
            validator.withdraw(token());
        }
        Options late = bound.clock(Vectors.clock(BEGUN - 3600));
        Path claims = folder.resolve("claims").resolve("place");
        for (int n = 0; n < 2; n++) {
            assertThrows(SvidException.BadBundles.class, () -> Validator.open(bound, "[]"));
            assertThrows(SvidException.TooFar.class, () -> Validator.open(late, Making.bundles()));
            Files.move(claims, claims.resolveSibling("moved"));
            assertThrows(SvidException.BadFolder.class, () -> Validator.open(bound, Making.bundles()));
            Files.move(claims.resolveSibling("moved"), claims);
        }
        Validator.open(bound, Making.bundles()).close();
    }

    /** A program that the service starts gets none of its files: it would hold the lock after the service has ended. */
    @Test
    public void filesAreClosedInOtherPrograms() throws Exception {
        Path folder = room().resolve("state").toAbsolutePath();
        try (Validator validator = validator(folder)) {
            validator.check(token());
            List<String> open = new ArrayList<>();
            for (String it : new java.io.File("/proc/self/fd").list()) {
                Path link = Path.of("/proc/self/fd", it);
                if (Files.isSymbolicLink(link) && Files.readSymbolicLink(link).startsWith(folder)) {
                    String info = Files.readString(Path.of("/proc/self/fdinfo", it));
                    int flags = Integer.parseInt(info.replaceAll("(?s).*flags:\\s*([0-7]+).*", "$1"), 8);
                    assertTrue(Files.readSymbolicLink(link).toString(), (flags & 02000000) != 0);
                    open.add(it);
                }
            }
            assertTrue(open.toString(), open.size() >= 3);
        }
    }

    /** So many bytes of messages. */
    private static byte[] concatenated(int least) {
        byte[] one = use(3);
        ByteBuffer all = ByteBuffer.allocate((least / one.length + 1) * one.length);
        while (all.hasRemaining()) {
            all.put(one);
        }
        return all.array();
    }

    @Test
    public void whatIsNoFile() throws Exception {
        for (String name : List.of("lock", "place", "snapshot", "journal.1")) {
            Path folder = room().resolve(name);
            Files.createDirectory(folder);
            HeaderTest.ran("mkfifo", folder.resolve(name).toString());
            IOException why = assertThrows(name, IOException.class, () -> open(folder));
            assertTrue(why.getMessage(), why.getMessage().contains("it is no regular file"));
        }
        Path file = Files.createFile(room().resolve("file"));
        assertThrows(IOException.class, () -> open(file));
        // (a part of it alone would lose what stands after that)
        Path folder = Files.createDirectory(room().resolve("long"));
        try (RandomAccessFile sparse = new RandomAccessFile(folder.resolve("journal.1").toFile(), "rw")) {
            sparse.setLength(1L << 31);
        }
        IOException why = assertThrows(IOException.class, () -> open(folder));
        assertTrue(why.getMessage(), why.getMessage().contains("journal.1: it has more than 2147483639 bytes"));
    }

    /** Who can't sync the folder above has not made this one, so a start goes on. After another fault the name of this one may not last. */
    @Test
    public void aFolderAboveThatHasNoSync() throws Exception {
        Disk real = new Disk();
        int above = real.openFolder(Path.of("/proc"));
        Disk.Failure none = assertThrows(Disk.Failure.class, () -> real.sync(above));
        Disk.close(above);
        assertEquals(Disk.EINVAL, none.number);
        assertTrue(none.getMessage(), none.getMessage().contains("Invalid argument"));
        Fickle disk = new Fickle();
        final int EIO = 5; // (which nobody tells apart)
        for (int number : List.of(Disk.EINVAL, Disk.EACCES, Disk.EPERM, EIO)) {
            Path folder = Files.createDirectory(room().resolve("state" + number));
            disk.before = name -> {
                if (name.equals("sync")) {
                    disk.before = later -> {};
                    throw new Disk.Failure("above", number);
                }
            };
            if (number == EIO) {
                IOException why = assertThrows(IOException.class, () -> new Journal(folder, disk));
                assertTrue(why.getMessage(), why.getMessage().contains("may not last"));
                assertFalse(names(folder).contains("place"));
                continue;
            }
            try (Journal journal = new Journal(folder, disk)) {
                append(journal, use(1));
            }
            assertEquals(Set.of(1), found(folder));
        }
        // (a folder that was made here, and can't be removed again)
        disk.before = name -> {
            if (name.equals("sync") || name.equals("remove")) {
                throw new IOException("no disk");
            }
        };
        IOException why = assertThrows(IOException.class, () -> new Journal(room().resolve("state"), disk));
        assertTrue(why.getMessage(), why.getMessage().contains("may not last (no disk)"));
    }

    @Test
    public void anIdThatIsLostOrBad() throws Exception {
        Path folder = room().resolve("state");
        try (Journal journal = open(folder)) {
            append(journal, use(1));
        }
        Files.writeString(folder.resolve("place"), "no ID");
        SvidException.BadFolder bad = assertThrows(SvidException.BadFolder.class, () -> open(folder));
        assertEquals(folder.resolve("place").toString(), bad.file());
        Files.delete(folder.resolve("place"));
        for (int n = 0; n < 2; n++) { // (each time it lets go of the folder)
            bad = assertThrows(SvidException.BadFolder.class, () -> open(folder));
            assertTrue(bad.getMessage(), bad.getMessage().contains("place is missing"));
        }
        assertFalse(names(folder).contains("place"));
        // (a file that has nothing can be read without it)
        Files.write(folder.resolve("journal.1"), new byte[1000]);
        assertEquals(Set.of(), found(folder));
        assertTrue(names(folder).contains("place"));
    }

    @Test
    public void aFolderOfAnOlderVersion() throws Exception {
        Path folder = Files.createDirectory(room().resolve("state"));
        Files.write(folder.resolve("journal.1"), use(1));
        Files.writeString(folder.resolve("place"), "07".repeat(16));
        assertTrue(assertThrows(SvidException.BadFolder.class, () -> open(folder)).getMessage().contains("is of an older svidd"));
        Files.createFile(folder.resolve("frames"));
        assertTrue(assertThrows(SvidException.BadFolder.class, () -> open(folder)).getMessage().contains("is of an older svidd"));
    }

    /** Each changed bit of synced bytes is found, and the file is named. */
    @Test
    public void damageIsFound() throws Exception {
        Path folder = room().resolve("state");
        try (Journal journal = open(folder)) {
            append(journal, use(1));
            append(journal, use(2));
        }
        byte[] good = Files.readAllBytes(folder.resolve("journal.1"));
        for (int at = 0; at < 100; at += 7) {
            byte[] bad = good.clone();
            bad[at] ^= 4;
            Files.write(folder.resolve("journal.1"), bad);
            SvidException.BadFolder why = assertThrows(SvidException.BadFolder.class, () -> open(folder));
            assertEquals(folder.resolve("journal.1").toString(), why.file());
        }
    }

    // -- A disk that hangs, or fails

    /** A disk that does something before each call that changes it. */
    private static class Fickle extends Disk {
        interface Before {
            void call(String name) throws IOException;
        }

        volatile Before before = name -> {};

        @Override
        void makeFolder(Path path) throws IOException {
            if (Files.exists(path)) {
                super.makeFolder(path);
            }
            before.call("makeFolder");
            super.makeFolder(path);
        }

        @Override
        void remove(Path path) throws IOException {
            if (Files.exists(path)) {
                before.call("remove");
            }
            super.remove(path);
        }

        @Override
        void rename(Path old, Path name) throws IOException {
            before.call("rename");
            super.rename(old, name);
        }

        @Override
        int create(Path path) throws IOException {
            before.call("create");
            return super.create(path);
        }

        @Override
        void write(int file, Pointer bytes, long len, long at) throws IOException {
            before.call("write");
            super.write(file, bytes, len, at);
        }

        @Override
        void sync(int folder) throws IOException {
            before.call("sync");
        }

        @Override
        void syncData(int file) throws IOException {
            before.call("syncData");
        }
    }

    private static final Fickle.Before FULL = name -> {
        if (name.equals("write")) {
            throw new IOException("no space left");
        }
    };

    /** A full disk is a passing fault: a validator says that, is not ready, tries again, and is well again. */
    @Test
    public void aFullDiskIsAPassingFault() throws Exception {
        Fickle disk = new Fickle();
        String late = token();
        try (Journal journal = new Journal(room().resolve("state"), disk)) {
            Options options = Vectors.ledger();
            Member member = new Member(options, Making.bundles().getBytes(), null, journal);
            member.begin(BEGUN);
            member.check(token().getBytes(), () -> BEGUN, null);
            disk.before = FULL;
            SvidException.Unavailable why =
                    assertThrows(SvidException.Unavailable.class, () -> member.check(late.getBytes(), () -> BEGUN, null));
            assertTrue(why.getMessage(), why.getMessage().contains("no space left"));
            assertNotEquals(null, member.unready(BEGUN));
            Says gone = Says.of(token());
            member.heard(new Store.Withdrawal(gone.key(), gone.expiry()));
            until(() -> logger.has("a withdrawal is not kept"));
            disk.before = name -> {};
            until(() -> member.unready(BEGUN) == null);
            member.check(token().getBytes(), () -> BEGUN, null);
            // (its use is there, so that nobody is let in by it again)
            assertEquals(
                    "Replayed", assertThrows(Refusal.class, () -> member.check(late.getBytes(), () -> BEGUN, null)).reason().toString());
            member.close();
        }
    }

    /** A check waits for the disk, but only as long as it wants. A withdrawal then may not last. */
    @Test
    public void aDiskThatHangs() throws Exception {
        Fickle disk = new Fickle();
        CountDownLatch open = new CountDownLatch(1);
        try (Journal journal = new Journal(room().resolve("state"), disk)) {
            Member member = new Member(Vectors.ledger().wait(Duration.ofMillis(200)), Making.bundles().getBytes(), null, journal);
            member.begin(BEGUN);
            disk.before = name -> Making.await(open);
            until(() -> { // (a check that is late before it was judged stores nothing)
                assertThrows(SvidException.Unavailable.class, () -> member.check(token().getBytes(), () -> BEGUN, null));
                return member.unready(BEGUN) != null;
            });
            Says said = Says.of(token());
            SvidException.Unavailable why =
                    assertThrows(SvidException.Unavailable.class, () -> member.withdraw(BEGUN, said.key(), said.expiry().getEpochSecond()));
            assertTrue(why.getMessage(), why.getMessage().contains("withdraw it again"));
            open.countDown();
            until(() -> member.unready(BEGUN) == null);
            member.close();
        }
    }

    /** Messages for which a write has no memory are not kept, and whoever gave them hears that. The next ones are. */
    @Test
    public void wantOfMemoryForTheMessagesOfAWrite() throws Exception {
        Fickle disk = new Fickle();
        CountDownLatch hangs = new CountDownLatch(1);
        CountDownLatch open = new CountDownLatch(1);
        Path folder = room().resolve("state");
        try (Journal journal = new Journal(folder, disk)) {
            disk.before = name -> {
                hangs.countDown();
                Making.await(open);
            };
            CompletableFuture<Exception> first = new CompletableFuture<>();
            CompletableFuture<Exception> told = new CompletableFuture<>();
            journal.keep(use(1), first::complete);
            Making.await(hangs);
            journal.keep(use(2), told::complete);
            journal.commit.len = Integer.MAX_VALUE; // (no array has as many bytes)
            open.countDown();
            assertEquals(null, first.get(PATIENCE, TimeUnit.SECONDS));
            Exception why = told.get(PATIENCE, TimeUnit.SECONDS);
            assertTrue(String.valueOf(why), why instanceof SvidException.OutOfMemory);
            append(journal, use(3));
        }
        assertEquals(Set.of(1, 3), found(folder));
    }

    /** What an earlier snapshot left neither hinders the next one nor gets into it. It may not have been removed, where the disk failed. */
    @Test
    public void whatAnEarlierSnapshotLeft() throws Exception {
        Path folder = room().resolve("state");
        try (Journal journal = open(folder)) {
            append(journal, use(1));
            Files.writeString(folder.resolve("snapshot.new"), "left".repeat(1000));
            journal.snapshot(sink -> sink.take(use(1)));
            append(journal, use(2));
        }
        assertFalse(names(folder).toString(), names(folder).contains("snapshot.new"));
        assertEquals(Set.of(1, 2), found(folder));
    }

    /** Where there is no memory to say what failed, a check ends all the same, and a close lets go of the folder. */
    @Test
    public void wantOfMemoryAsAWriteFails() throws Exception {
        Fickle disk = new Fickle();
        Journal journal = new Journal(room().resolve("state"), disk);
        Member member = new Member(Vectors.ledger().wait(Duration.ofSeconds(PATIENCE)), Making.bundles().getBytes(), null, journal);
        member.begin(BEGUN);
        disk.before = name -> {
            throw new Error() {
                private static final long serialVersionUID = 1;

                @Override
                public String toString() {
                    throw new OutOfMemoryError("there is none");
                }
            };
        };
        SvidException.Unavailable why =
                assertThrows(SvidException.Unavailable.class, () -> member.check(token().getBytes(), () -> BEGUN, null));
        assertTrue(why.getMessage(), why.getCause() instanceof SvidException.OutOfMemory);
        disk.before = name -> {};
        member.close();
        open(room().resolve("state")).close();
    }

    /** Whoever closes it waits for what is under way, and still knows of an interrupt. */
    @Test
    public void anInterruptOfAClose() throws Exception {
        Fickle disk = new Fickle();
        CountDownLatch open = new CountDownLatch(1);
        Journal journal = new Journal(room().resolve("state"), disk);
        disk.before = name -> Making.await(open);
        CompletableFuture<Exception> told = new CompletableFuture<>();
        journal.keep(use(1), told::complete);
        CompletableFuture<Boolean> isInterrupted = new CompletableFuture<>();
        Thread closes = new Thread(() -> {
            Thread.currentThread().interrupt();
            journal.close();
            isInterrupted.complete(Thread.interrupted());
        });
        closes.start();
        until(() -> closes.getState() == Thread.State.WAITING);
        open.countDown();
        assertTrue(isInterrupted.get(PATIENCE, TimeUnit.SECONDS));
        assertEquals(null, told.get(PATIENCE, TimeUnit.SECONDS));
        assertEquals(Set.of(1), found(room().resolve("state")));
    }

    @Test
    public void threadsShareASync() throws Exception {
        Fickle disk = new Fickle();
        try (Journal journal = new Journal(room().resolve("state"), disk)) {
            CountDownLatch open = new CountDownLatch(1);
            AtomicInteger syncs = new AtomicInteger();
            disk.before = name -> {
                syncs.addAndGet(name.equals("syncData") ? 1 : 0);
                Making.await(open);
            };
            List<CompletableFuture<Exception>> told = new ArrayList<>();
            for (int n = 0; n < 20; n++) {
                told.add(new CompletableFuture<>());
                journal.keep(use(n), told.get(n)::complete);
            }
            open.countDown();
            for (CompletableFuture<Exception> it : told) {
                assertEquals(null, it.get(PATIENCE, TimeUnit.SECONDS));
            }
            assertTrue(syncs + " syncs", syncs.get() <= 3);
        }
        assertEquals(20, found(room().resolve("state")).size());
    }

    /** Too much that waits for a disk is answered so. */
    @Test
    public void aDiskThatDoesNotAnswerHoldsSoMuch() throws Exception {
        Fickle disk = new Fickle();
        CountDownLatch open = new CountDownLatch(1);
        try (Journal journal = new Journal(room().resolve("state"), disk)) {
            append(journal, new byte[(int) Library.PAYLOAD_MOST]); // (one write takes so much)
            disk.before = name -> Making.await(open);
            List<Exception> told = new CopyOnWriteArrayList<>();
            byte[] much = concatenated(8_000_000);
            for (int n = 0; n < 4 && told.isEmpty(); n++) {
                journal.keep(much, told::add);
            }
            assertTrue(told.toString(), told.get(0) instanceof SvidException.Unavailable);
            open.countDown();
        }
    }

    @Test
    public void aMarkStandsBehindABurst() throws Exception {
        Path folder = room().resolve("state");
        try (Journal journal = open(folder)) {
            append(journal, use(1));
            until(() -> marks(folder, journal.validatorId()) == 1);
            append(journal, use(2));
        }
        byte[] id = Vectors.bytes(identified(folder), "id");
        assertEquals(2, marks(folder, id));
    }

    /** So does a journal that another one follows: damage of its last use is seen. It may stay, where the power fails meanwhile. */
    @Test
    public void aMarkStandsBehindAJournalThatAnotherOneFollows() throws Exception {
        long took = Long.MAX_VALUE;
        // (a mark that comes by itself, a second later, says nothing of this one)
        for (int again = 0; took >= 900; again++) {
            Path folder = room().resolve("state " + again);
            Path copy = room().resolve("copy " + again);
            long begun = Times.up();
            try (Journal journal = open(folder)) {
                append(journal, use(1));
                journal.snapshot(sink -> {
                    Files.createDirectory(copy);
                    for (String name : names(folder)) {
                        Files.copy(folder.resolve(name), copy.resolve(name));
                    }
                    sink.take(use(1));
                });
            }
            took = Times.up() - begun;
            byte[] content = Files.readAllBytes(copy.resolve("journal.1"));
            content[60] ^= 1;
            Files.write(copy.resolve("journal.1"), content);
            assertThrows(SvidException.BadFolder.class, () -> open(copy));
        }
    }

    private static JsonObject identified(Path folder) throws IOException {
        JsonObject made = new JsonObject();
        made.addProperty("id", Files.readString(folder.resolve("place")).strip());
        return made;
    }

    /** How many marks the first journal has. */
    private static int marks(Path folder, byte[] id) throws IOException {
        try (Arena room = new Arena()) {
            StateFile.Reading reading = new StateFile.Reading(room, id, 1, Files.readAllBytes(folder.resolve("journal.1")));
            int[] status = {0};
            int marks = 0;
            for (byte[] it = reading.next(status); it != null; it = reading.next(status)) {
                marks += it.length == 0 ? 1 : 0;
            }
            return marks;
        }
    }

    /** After a sync that failed nothing is kept, until the next start. */
    @Test
    public void nothingIsKeptBehindASyncThatFailed() throws Exception {
        Fickle disk = new Fickle();
        Path folder = room().resolve("state");
        try (Journal journal = new Journal(folder, disk)) {
            append(journal, use(1));
            disk.before = name -> {
                if (name.equals("syncData")) {
                    throw new IOException("no disk");
                }
            };
            assertTrue(assertThrows(SvidException.Unavailable.class, () -> append(journal, use(2))).getMessage().contains("no disk"));
            disk.before = name -> {};
            for (int n = 0; n < 2; n++) {
                SvidException why = assertThrows(SvidException.Unavailable.class, () -> append(journal, use(3)));
                assertTrue(why.getMessage(), why.getMessage().contains("start the service again"));
                assertThrows(SvidException.Unavailable.class, () -> journal.snapshot(sink -> sink.take(use(1))));
            }
        }
        Set<Integer> found = found(folder);
        assertTrue(found.toString(), found.contains(1) && !found.contains(3));
    }

    // -- A folder that is not at its path

    private interface Move {
        void of(Path folder) throws IOException;
    }

    /** Another process may have begun at its path: no acceptance is acknowledged, and its files stay. */
    @Test
    public void aFolderThatIsMovedKeepsNothing() throws Exception {
        Move emptied = folder -> {
            removeAll(folder);
            Files.createDirectory(folder);
        };
        Map<String, Move> moves = new HashMap<>();
        moves.put("removed", StateTest::removeAll);
        moves.put("moved", folder -> Files.move(folder, folder.resolveSibling("old")));
        moves.put("emptied", emptied);
        moves.put("without its lock", folder -> Files.delete(folder.resolve("lock")));
        for (String how : moves.keySet()) {
            Path folder = Files.createDirectory(room().resolve(how)).resolve("state");
            try (Journal journal = open(folder)) {
                append(journal, use(1));
                moves.get(how).of(folder);
                try (Journal other = open(folder)) {
                    append(other, use(2));
                    List<String> before = names(folder);
                    SvidException why = assertThrows(how, SvidException.Unavailable.class, () -> append(journal, use(2)));
                    assertTrue(why.getMessage(), why.getMessage().contains("put it back there, and start"));
                    assertThrows(SvidException.Unavailable.class, () -> append(journal, use(3)));
                    assertThrows(SvidException.Unavailable.class, () -> journal.snapshot(sink -> sink.take(use(1))));
                    assertEquals(before, names(folder));
                    append(other, use(4));
                }
            }
            assertTrue(found(folder).containsAll(Set.of(2, 4)));
        }
    }

    @Test
    public void aSnapshotOfAFolderThatIsMovedChangesNoOtherOne() throws Exception {
        Path folder = room().resolve("state");
        try (Journal journal = open(folder)) {
            append(journal, use(1));
            Files.move(folder, room().resolve("old"));
            try (Journal other = open(folder)) {
                append(other, use(2));
                List<String> before = names(folder);
                assertThrows(SvidException.Unavailable.class, () -> journal.snapshot(sink -> sink.take(use(1))));
                assertEquals(before, names(folder));
            }
        }
        assertEquals(Set.of(2), found(folder));
    }

    // -- A disk, call by call

    /**
     * A disk that knows what it surely has: the folder itself, the bytes of each file at its last sync, and the names at the last sync of
     * the folder. No later sync vouches for a name whose sync failed, until the name changes again.
     */
    private static final class Sure extends Fickle {
        final Path folder;
        private final Map<Object, byte[]> synced = new HashMap<>();
        private Map<String, Object> sure = new HashMap<>();
        private final Set<String> stuck = new HashSet<>();
        private boolean isThere;
        private boolean isStuck;

        Sure(Path folder) {
            this.folder = folder;
        }

        private void changed(Path path) {
            stuck.remove(path.getFileName().toString());
        }

        /** Has the folder, with an empty file. */
        void has(String name) throws IOException {
            Files.createDirectory(folder);
            isThere = true;
            sure.put(name, identity(Files.createFile(folder.resolve(name))));
        }

        @Override
        void makeFolder(Path path) throws IOException {
            super.makeFolder(path);
            isThere = false;
            isStuck = false;
        }

        @Override
        void remove(Path path) throws IOException {
            super.remove(path);
            changed(path);
        }

        @Override
        void rename(Path old, Path name) throws IOException {
            super.rename(old, name);
            changed(name);
        }

        @Override
        int create(Path path) throws IOException {
            int file = super.create(path);
            changed(path);
            return file;
        }

        @Override
        void syncData(int file) throws IOException {
            super.syncData(file);
            Path path = Path.of("/proc/self/fd/" + file);
            synced.put(identity(path), Files.readAllBytes(path));
        }

        @Override
        void sync(int file) throws IOException {
            boolean isAbove = !Path.of("/proc/self/fd/" + file).toRealPath().equals(folder.toRealPath());
            Map<String, Object> now = new HashMap<>();
            for (String it : names(folder)) {
                now.put(it, identity(folder.resolve(it)));
            }
            Set<String> all = new HashSet<>(now.keySet());
            all.addAll(sure.keySet());
            try {
                super.sync(file);
            } catch (IOException why) {
                if (isAbove) {
                    isStuck = !isThere;
                } else {
                    all.stream().filter(it -> !java.util.Objects.equals(now.get(it), sure.get(it))).forEach(stuck::add);
                }
                throw why;
            }
            if (isAbove) {
                isThere |= !isStuck;
                return;
            }
            Map<String, Object> next = new HashMap<>();
            sure.forEach((name, it) -> {
                if (stuck.contains(name)) {
                    next.put(name, it);
                }
            });
            now.forEach((name, it) -> {
                if (!stuck.contains(name)) {
                    next.put(name, it);
                }
            });
            sure = next;
        }

        /** A folder with what a loss of power surely leaves, or none. */
        void lost(Path to) throws IOException {
            if (isThere) {
                Files.createDirectory(to);
                for (Map.Entry<String, Object> it : sure.entrySet()) {
                    if (!it.getKey().equals("lock")) {
                        Files.write(to.resolve(it.getKey()), synced.getOrDefault(it.getValue(), new byte[0]));
                    }
                }
            }
        }
    }

    /** Does what someone does who reads why a start failed. */
    private static void removed(Path folder, IOException why) throws IOException {
        if (why.getMessage().contains("remove this folder")) {
            removeAll(folder);
        }
    }

    /** What a process does with a folder. {@code kept} gains each number that the journal acknowledges. */
    private static void run(Sure disk, Set<Integer> kept) throws Exception {
        Journal journal;
        try {
            journal = new Journal(disk.folder, disk);
        } catch (IOException why) {
            removed(disk.folder, why);
            return;
        }
        try (journal) {
            for (int number = 0; number < USES; number++) {
                if (number == 2 || number == 5) {
                    List<Integer> have = List.copyOf(kept);
                    try {
                        journal.snapshot(sink -> {
                            for (int it : have) {
                                sink.take(use(it));
                            }
                        });
                    } catch (IOException | SvidException.Unavailable why) {
                        // (nothing is lost by it)
                    }
                }
                try {
                    append(journal, use(number));
                    kept.add(number);
                } catch (IOException | SvidException.Unavailable why) {
                    // (it is not kept)
                }
            }
        }
    }

    private static Set<Integer> all() {
        Set<Integer> all = new TreeSet<>();
        for (int n = 0; n < USES; n++) {
            all.add(n);
        }
        return all;
    }

    private static void copied(Path from, Path to) throws IOException {
        Files.createDirectory(to);
        for (String it : names(from)) {
            try {
                Files.copy(from.resolve(it), to.resolve(it), StandardCopyOption.REPLACE_EXISTING);
            } catch (NoSuchFileException gone) {
                // (it was removed)
            }
        }
    }

    /** Notes what a loss of power leaves now, and what a kill does. */
    private synchronized void crashed(Sure disk, Set<Integer> kept, List<Set<Integer>> due) throws IOException {
        disk.lost(room().resolve("lost " + due.size()));
        if (Files.exists(disk.folder)) {
            copied(disk.folder, room().resolve("killed " + due.size()));
        }
        due.add(Set.copyOf(kept));
    }

    /** Of what no sync came behind nothing is there, and of the rest all; or all is there, as after a kill. */
    @Test
    public void aLossOfPowerAtEachCallLosesNoAcceptance() throws Exception {
        Sure disk = new Sure(room().resolve("state"));
        Set<Integer> kept = new ConcurrentSkipListSet<>();
        List<Set<Integer>> due = new CopyOnWriteArrayList<>();
        disk.before = name -> crashed(disk, kept, due);
        run(disk, kept);
        assertEquals(all(), kept);
        assertTrue(due.size() > 40);
        for (int number = 0; number < due.size(); number++) {
            for (String how : List.of("lost ", "killed ")) {
                Path folder = room().resolve(how + number);
                for (int n = 0; n < 2; n++) {
                    assertTrue(folder.toString(), found(folder).containsAll(due.get(number)));
                }
            }
        }
    }

    @Test
    public void eachCallThatFailsLosesNoAcceptance() throws Exception {
        for (int failing = 0; failing < 1000; failing++) {
            Sure disk = new Sure(room().resolve("state"));
            AtomicInteger count = new AtomicInteger();
            int number = failing;
            disk.before = name -> {
                if (count.getAndIncrement() == number) {
                    throw new Disk.Failure(name, 5);
                }
            };
            Set<Integer> kept = new TreeSet<>();
            run(disk, kept);
            boolean isLast = count.get() <= failing;
            disk.before = name -> {};
            run(disk, kept);
            assertEquals(all(), kept);
            Path lost = room().resolve("lost");
            disk.lost(lost);
            for (Path folder : List.of(disk.folder, lost)) {
                assertTrue(failing + " " + folder, found(folder).containsAll(kept));
                removeAll(folder);
            }
            if (isLast) {
                assertTrue(failing > 40);
                return;
            }
        }
    }

    /** A new folder whose first starts end anywhere: its own name lasts, and that of its ID. */
    @Test
    public void aNewFolderWhoseFirstStartsEndAnywhere() throws Exception {
        startsEndAnywhere(true, Sure::new);
        startsEndAnywhere(false, Sure::new);
    }

    /** As before, of a folder in which an older version has kept nothing. */
    @Test
    public void anOldFolderWhoseFirstStartsEndAnywhere() throws Exception {
        startsEndAnywhere(false, state -> {
            Sure disk = new Sure(state);
            disk.has("journal.1");
            return disk;
        });
    }

    private interface Disks {
        Sure of(Path state) throws IOException;
    }

    private void startsEndAnywhere(boolean isKilled, Disks made) throws Exception {
        Path state = room().resolve("state");
        Path lost = room().resolve("lost");
        boolean isOver = false;
        for (int at = 0; !isOver; at++) {
            boolean isNextOver = false;
            for (int next = 0; !isNextOver; next++) {
                Sure disk = made.of(state);
                isOver = !ends(disk, at, isKilled);
                isNextOver = !ends(disk, next, false);
                disk.before = name -> {};
                try (Journal journal = new Journal(state, disk)) {
                    append(journal, use(1));
                }
                disk.lost(lost);
                assertEquals(at + " " + next, Set.of(1), found(lost));
                removeAll(lost);
                removeAll(state);
            }
            assertTrue(!isOver || at > 5);
        }
    }

    /** The process is killed, and makes no call after this one. */
    private static final class Killed extends Error { private static final long serialVersionUID = 1; }

    /** Whether a start ends by the call of this number. */
    private static boolean ends(Sure disk, int at, boolean isKilled) throws IOException {
        AtomicInteger count = new AtomicInteger();
        disk.before = name -> {
            int number = count.getAndIncrement();
            if (isKilled && number >= at) {
                throw new Killed();
            }
            if (number == at) {
                throw new Disk.Failure(name, 5);
            }
        };
        try {
            new Journal(disk.folder, disk).close();
            return count.get() > at;
        } catch (IOException why) {
            removed(disk.folder, why);
        } catch (Killed why) {
            return true;
        }
        return true;
    }
}
