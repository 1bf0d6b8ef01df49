package svid;

import static org.junit.Assert.assertEquals;
import static org.junit.Assert.assertThrows;
import static org.junit.Assert.assertTrue;
import static svid.Making.PATIENCE;
import static svid.Making.until;

import java.nio.file.Files;
import java.nio.file.NoSuchFileException;
import java.nio.file.Path;
import java.nio.file.StandardCopyOption;
import java.time.Clock;
import java.time.Duration;
import java.time.Instant;
import java.time.ZoneId;
import java.time.ZoneOffset;
import java.util.Arrays;
import java.util.List;
import java.util.Set;
import java.util.concurrent.CompletableFuture;
import java.util.concurrent.TimeUnit;
import java.util.stream.Collectors;
import java.util.stream.IntStream;
import org.junit.After;
import org.junit.Rule;
import org.junit.Test;
import org.junit.rules.TemporaryFolder;
import svid.testing.Issuer;

/** Mode BOUND without a store: the claims of one validator, in a folder. */
public class LocalTest {
    private static final long NOW = 2_000_000_000L;
    private static final long LASTS = 3600 + 2 * 30;
    private static final long MARGIN = 120;

    @Rule public final TemporaryFolder temporary = new TemporaryFolder();

    private long now = NOW;
    private LocalStore open;

    private final Clock clock = new Clock() {
        @Override
        public Instant instant() {
            return Instant.ofEpochSecond(now);
        }

        @Override
        public ZoneId getZone() {
            return ZoneOffset.UTC;
        }

        @Override
        public Clock withZone(ZoneId zone) {
            return this;
        }
    };

    private Path folder() {
        return temporary.getRoot().toPath().resolve("claims");
    }

    private LocalStore again() throws Exception {
        close();
        open = new LocalStore(folder(), Options.audiences("ledger").clock(clock).wait(Duration.ofSeconds(PATIENCE)));
        return open;
    }

    @After
    public void close() {
        if (open != null) {
            open.close();
        }
    }

    /** The process is killed, and starts again: it writes no last snapshot. */
    private void killed() throws Exception {
        int tries = 1;
        while (!isCopied(folder().resolveSibling("copy" + tries))) {
            tries++;
        }
        Path copy = folder().resolveSibling("copy" + tries);
        close();
        open = null;
        Files.move(folder(), folder().resolveSibling("ended"));
        Files.move(copy, folder());
        again();
    }

    /** Copies the folder as it is at one moment: a snapshot that is under way takes files away. */
    private boolean isCopied(Path copy) throws Exception {
        Set<String> names = Set.of(folder().toFile().list());
        Files.copy(folder(), copy, StandardCopyOption.COPY_ATTRIBUTES);
        try {
            for (String name : names) {
                Files.copy(folder().resolve(name), copy.resolve(name), StandardCopyOption.COPY_ATTRIBUTES);
            }
        } catch (NoSuchFileException gone) {
            return false;
        }
        return names.equals(Set.of(folder().toFile().list()));
    }

    private static TokenKey key(int number) {
        byte[] bytes = new byte[TokenKey.LEN];
        Arrays.fill(bytes, (byte) 1);
        bytes[0] = (byte) number;
        bytes[1] = (byte) (number >> 8);
        bytes[2] = (byte) (number >> 16);
        return TokenKey.of(bytes);
    }

    private static Owner owner(int number) {
        byte[] bytes = new byte[Owner.LEN];
        Arrays.fill(bytes, (byte) number);
        return Owner.of(bytes);
    }

    private Store.Found put(int key, Owner owner, long expiry) throws Exception {
        Store.Found found = open.put(List.of(new Store.Claim(key(key), owner, Instant.ofEpochSecond(expiry)))).get(0);
        assertEquals(Instant.ofEpochSecond(now), found.time());
        return found;
    }

    private void has(int key, int by, int due, long expiry) throws Exception {
        Store.Found found = put(key, owner(by), expiry);
        assertEquals(owner(due), found.owner());
        assertEquals(Instant.EPOCH, found.deaf());
    }

    /** What is no row of messages is not read as a folder without claims. */
    @Test
    public void claimsThatCanNotBeRead() throws Exception {
        again();
        has(7, 1, 1, NOW + 600);
        close();
        Journal journal = new Journal(folder(), new Disk());
        journal.load(messages -> {});
        CompletableFuture<Boolean> kept = new CompletableFuture<>();
        journal.keep("no messages".getBytes(), why -> kept.complete(why == null));
        assertTrue(kept.get(PATIENCE, TimeUnit.SECONDS));
        journal.close();
        SvidException.BadMessages why = assertThrows(SvidException.BadMessages.class, this::again);
        assertEquals("Magic", why.reason());
        byte[] whole = Twice.written(List.of(new Twice.Entry(false, NOW + 600, NOW, new byte[TokenKey.LEN], new byte[Options.ID_LEN])));
        assertEquals(1, Twice.entries(whole).size());
        why = assertThrows(SvidException.BadMessages.class, () -> Twice.entries(Arrays.copyOf(whole, whole.length - 1)));
        assertEquals("Truncated", why.reason());
    }

    @Test
    public void aRestartForgetsNothing() throws Exception {
        byte[] halves = new byte[Owner.LEN];
        IntStream.range(0, Owner.LEN).forEach(it -> halves[it] = (byte) it);
        again();
        has(7, 1, 1, NOW + 600);
        put(8, Owner.of(halves), NOW + 600);
        open.withdraw(key(9), Instant.ofEpochSecond(NOW + 600));
        for (int start = 0; start < 3; start++) {
            again();
            has(7, 2, 1, NOW + 600);
            has(9, 2, 0, NOW + 600);
            assertEquals(Owner.of(halves), put(8, owner(2), NOW + 600).owner());
        }
    }

    @Test
    public void whatIsOverIsClaimedAnew() throws Exception {
        again();
        has(7, 1, 1, NOW + 100);
        now = NOW + 100 + MARGIN - 1;
        has(7, 2, 1, NOW + 300);
        now++;
        has(7, 2, 2, NOW + 300);
        again();
        has(7, 1, 2, NOW + 300);
        // (nobody accepts a token that expired so long ago)
        has(6, 1, 1, NOW);
        has(6, 2, 2, NOW);
    }

    @Test
    public void aClockThatGoesBackEndsTheEpoch() throws Exception {
        for (boolean isRestarted : new boolean[] {true, false}) {
            now = NOW;
            again();
            Instant before = put(7, owner(1), NOW + 600).deaf();
            until(() -> Files.exists(folder().resolve("snapshot"))); // (a later one would tell the time, too)
            now = NOW + 20_000;
            open.put(List.of());
            if (isRestarted) {
                killed();
            }
            // (by a minute it may)
            now = NOW + 20_000 - 60;
            assertEquals(before, put(6, owner(1), now + 10).deaf());
            now--;
            Instant due = Instant.ofEpochSecond(NOW + 20_000 + LASTS);
            assertEquals(due, put(6, owner(1), now + 10).deaf());
            again();
            assertEquals(due, put(7, owner(2), NOW + 600).deaf());
            close();
            open = null;
            Files.move(folder(), folder().resolveSibling("other-" + isRestarted));
        }
    }

    @Test
    public void aClaimIsOnTheDiskBeforeItIsAnswered() throws Exception {
        again();
        Files.move(folder(), folder().resolveSibling("moved"));
        for (int time = 0; time < 2; time++) {
            assertThrows(Exception.class, () -> put(7, owner(1), NOW + 600));
        }
    }

    /** More claims than one piece of a snapshot has. */
    private static List<Store.Claim> many(int by) {
        return IntStream.range(1000, 3500)
                .mapToObj(it -> new Store.Claim(key(it), owner(by), Instant.ofEpochSecond(NOW + 30_000)))
                .toList();
    }

    /** A snapshot has what the folder had: claims, until when the store is deaf, and the time that the clock had. */
    @Test
    public void aSnapshotForgetsNothing() throws Exception {
        again();
        has(7, 1, 1, NOW + 30_000);
        now = NOW + 20_000;
        has(8, 1, 1, NOW + 30_000);
        open.put(many(1));
        now -= 61;
        Instant deaf = put(9, owner(1), NOW + 30_000).deaf();
        assertEquals(Instant.ofEpochSecond(NOW + 20_000 + LASTS), deaf);
        for (long late : List.of(0L, 10_000L)) {
            now += late;
            put(6, owner(1), NOW + 30_000);
            for (int start = 0; start < 9; start++) {
                again();
            }
            until(() -> {
                put(6, owner(1), NOW + 30_000);
                return journals() == 1;
            });
            again();
            for (int key : List.of(7, 8, 9)) {
                Store.Found found = put(key, owner(2), NOW + 30_000);
                assertEquals(owner(1), found.owner());
                assertEquals(late == 0 ? deaf : Instant.EPOCH, found.deaf());
            }
            assertEquals(Set.of(owner(1)), open.put(many(2)).stream().map(Store.Found::owner).collect(Collectors.toSet()));
        }
        now -= 61;
        assertEquals(Instant.ofEpochSecond(now + 61 + LASTS), put(7, owner(2), NOW + 30_000).deaf());
    }

    /** So it does where no claim is left that would tell the time. */
    @Test
    public void aSnapshotTellsTheTime() throws Exception {
        again();
        put(7, owner(1), NOW + 600);
        now = NOW + 20_000;
        for (int start = 0; start < 9; start++) {
            again();
        }
        until(() -> {
            open.put(List.of());
            return journals() == 1;
        });
        again();
        now -= 61;
        assertEquals(Instant.ofEpochSecond(NOW + 20_000 + LASTS), put(7, owner(2), NOW + 600).deaf());
    }

    /** What the folder has is answered without the disk, also after the clock went back. */
    @Test
    public void aClaimThatIsThereNeedsNoDisk() throws Exception {
        again();
        has(7, 1, 1, NOW + 600);
        now -= 61;
        Instant deaf = put(7, owner(2), NOW + 600).deaf();
        Files.move(folder(), folder().resolveSibling("moved"));
        assertThrows(Exception.class, () -> put(8, owner(1), NOW + 600));
        assertEquals(new Store.Found(owner(1), Instant.ofEpochSecond(now), deaf), put(7, owner(2), NOW + 600));
    }

    private long journals() {
        return Arrays.stream(folder().toFile().list()).filter(it -> it.startsWith("journal.")).count();
    }

    private long size() throws Exception {
        long size = 0;
        for (String name : folder().toFile().list()) {
            size += folder().resolve(name).toFile().length(); // (0 of one that went meanwhile)
        }
        return size;
    }

    @Test
    public void theFolderStaysSmall() throws Exception {
        again();
        for (int round = 0; round < 80; round++) {
            int first = round * 1000;
            List<Store.Claim> these = IntStream.range(first, first + 1000)
                                              .mapToObj(it -> new Store.Claim(key(it), owner(1), Instant.ofEpochSecond(now + 30)))
                                              .toList();
            open.put(these);
            now += 240;
        }
        until(() -> {
            open.put(List.of());
            return size() < 6 << 20; // (of 10 MB)
        });
        has(7, 3, 3, now + 30);
        again();
        has(7, 4, 3, now + 30);
    }

    @Test
    public void aTokenBelongsToItsFirstCaller() throws Exception {
        Issuer issuer = new Issuer("example.org");
        String token = issuer.token("/billing/api", "ledger");
        Options options = Options.audiences("ledger").mode(Mode.BOUND).state(folder()).wait(Duration.ofSeconds(PATIENCE));
        for (int start = 0; start < 2; start++) {
            try (Validator validator = Validator.open(options, issuer.bundles())) {
                validator.check(token, new byte[] {1});
                assertThrows(Refusal.class, () -> validator.check(token, new byte[] {2}));
                validator.check(token, new byte[] {1});
                assertTrue(Files.isDirectory(folder().resolve("claims")));
                if (start == 1) {
                    validator.withdraw(token);
                }
            }
        }
        try (Validator validator = Validator.open(options, issuer.bundles())) {
            Refusal why = assertThrows(Refusal.class, () -> validator.check(token, new byte[] {1}));
            assertEquals("Withdrawn", why.reason().toString());
        }
        Options alone = Options.audiences("ledger").mode(Mode.BOUND);
        assertThrows(IllegalArgumentException.class, () -> Validator.open(alone, issuer.bundles()));
        assertThrows(IllegalArgumentException.class, () -> Validator.open(alone.mode(Mode.STRICT).state(folder()), issuer.bundles()));
    }
}
