package svid;

import static org.junit.Assert.assertEquals;
import static org.junit.Assert.assertThrows;
import static org.junit.Assert.assertTrue;
import static svid.Making.until;

import com.sun.jna.Function;
import com.sun.jna.Memory;
import java.io.File;
import java.io.IOException;
import java.io.UncheckedIOException;
import java.lang.reflect.Field;
import java.nio.file.Files;
import java.nio.file.Path;
import java.security.Provider;
import java.security.Security;
import java.time.Duration;
import java.time.Instant;
import java.util.ArrayList;
import java.util.List;
import java.util.Map;
import java.util.concurrent.Callable;
import java.util.stream.Stream;
import org.junit.After;
import org.junit.Before;
import org.junit.Test;
import svid.testing.Issuer;

/**
 * What validators leave that have lived and closed: nothing. It runs over a library that counts its allocations, as {@link MemoryTest}
 * does.
 */
@SuppressWarnings("try") // (some are only held)
public class LeakTest {
    private static final Function HELD = Function.getFunction(System.getProperty(Library.PROPERTY), "svid_test_held");
    private static final int LIVES = 1000;
    /** So many lives open sockets, or wait for a look at files. */
    private static final int FEW = 20;
    /** So many lives show the same tokens. */
    private static final int ALIKE = 50;
    /** So many bytes of the heap a life may leave: the JVM itself learns while it runs. What a life could leave has more. */
    private static final int MOST = 200;

    private final Issuer issuer = new Issuer("example.org");
    private final Provider remembering = new Remembering();
    private Path room;

    /** In memory, since a disk would be forced ten times in each life. */
    @Before
    public void begin() throws Exception {
        Security.insertProviderAt(remembering, 1);
        Path memory = Path.of("/dev/shm");
        room = Files.isWritable(memory) ? Files.createTempDirectory(memory, "svid") : Files.createTempDirectory("svid");
    }

    @After
    public void end() throws Exception {
        Security.removeProvider(remembering.getName());
        remove(room);
    }

    private static void remove(Path folder) throws Exception {
        try (Stream<Path> files = Files.walk(folder)) {
            files.sorted((one, other) -> other.compareTo(one)).map(Path::toFile).forEach(File::delete);
        }
    }

    private interface Life {
        void live(int number) throws Exception;
    }

    private static long descriptors() {
        return new File("/proc/self/fd").list().length;
    }

    private static long threads() {
        return Thread.getAllStackTraces().size();
    }

    private static long allocations() {
        return HELD.invokeInt(new Object[0]);
    }

    /** How many rooms of JNA there are, once it has let go those that nobody refers to. */
    private static long rooms() throws Exception {
        System.gc();
        return roomsNow();
    }

    private static long roomsNow() throws Exception {
        Field all = Memory.class.getDeclaredField("allocatedMemory");
        all.setAccessible(true);
        return ((Map<?, ?>) all.get(null)).size();
    }

    private static long heap() {
        System.gc();
        return Runtime.getRuntime().totalMemory() - Runtime.getRuntime().freeMemory();
    }

    private static void becomes(String what, long due, Callable<Long> now) throws Exception {
        try {
            until(() -> now.call() <= due);
        } catch (AssertionError why) {
            throw new AssertionError(what + ": " + due + " before, and now " + now.call(), why);
        }
    }

    /** Lives some times, and then as often as it says, and compares what is held. */
    private static void leavesNothing(int lives, Life life) throws Exception {
        for (int number = 0; number < lives / 5 + 10; number++) {
            life.live(number);
        }
        heap();
        becomes("threads", threads() - Said.threads(), LeakTest::threads);
        long descriptors = descriptors();
        long threads = threads();
        long allocations = allocations();
        long rooms = rooms();
        long heap = heap();
        for (int number = 0; number < lives; number++) {
            life.live(number);
        }
        becomes("bytes of the heap", heap + (long) MOST * Math.max(lives, LIVES), LeakTest::heap);
        becomes("threads", threads, LeakTest::threads);
        becomes("descriptors", descriptors, LeakTest::descriptors);
        becomes("rooms", rooms, LeakTest::rooms);
        becomes("allocations of the library", allocations, LeakTest::allocations);
    }

    /** What a life shows to its validator: a good token, one that it withdraws, and one with a bad signature. */
    private record Tokens(String good, String withdrawn, String bad) {}

    /** Those of each start of a life. Lives have records of their own, so that some share them: to sign takes long. */
    private final List<Tokens> tokens = new ArrayList<>();

    private Tokens tokens(int number, int start) {
        if (number % ALIKE == 0 && start == 0) {
            tokens.clear();
        }
        while (tokens.size() <= start) {
            tokens.add(new Tokens(token(), token(), issuer.wrong(Issuer.Wrong.SIGNATURE, "/a", "ledger")));
        }
        return tokens.get(start);
    }

    private String token() {
        return issuer.token("/a", "ledger");
    }

    private static Admission checked(Validator validator, Mode mode, String token) throws Refusal {
        return mode == Mode.BOUND ? validator.check(token, new byte[] {1}) : validator.check(token);
    }

    /** Makes each public call. */
    private static void use(Validator validator, Mode mode, Tokens tokens) throws Exception {
        String token = tokens.good;
        Admission admission = checked(validator, mode, token);
        admission.claims();
        if (mode == Mode.ONCE || mode == Mode.STRICT) {
            assertEquals(Refusal.Reason.REPLAYED, assertThrows(Refusal.class, () -> checked(validator, mode, token)).reason());
        } else {
            checked(validator, mode, token);
        }
        validator.judge(tokens.withdrawn);
        validator.withdraw(tokens.withdrawn);
        assertThrows(Refusal.class, () -> checked(validator, mode, tokens.withdrawn));
        assertThrows(Refusal.class, () -> checked(validator, mode, tokens.bad));
        assertThrows(Refusal.class, () -> validator.judge("no token"));
        assertThrows(Denied.class, () -> validator.admit(List.of("Basic a")));
        Validator.says(token);
        validator.take(validator.messages());
        validator.take(validator.answer(validator.summary()));
        assertThrows(SvidException.BadMessages.class, () -> validator.take("no messages".getBytes()));
        validator.report();
        validator.size();
        validator.tick();
        assertTrue(validator.isReady());
    }

    private static void renew(Validator validator, byte[] bundles) {
        validator.renew(bundles);
        assertThrows(SvidException.BadBundles.class, () -> validator.renew("[]"));
    }

    private Options options(Mode mode) {
        return Options.audiences("ledger").mode(mode).wait(Duration.ofSeconds(Making.PATIENCE));
    }

    /** In each mode, with a store where it may have one. */
    @Test
    public void livesInMemory() throws Exception {
        leavesNothing(LIVES, number -> {
            Mode mode = Mode.values()[number % 4];
            Options options = options(mode);
            boolean hasStore = mode.hasStore() || number % 8 < 4;
            Validator closed;
            try (Validator validator = Validator.open(hasStore ? options.store(new MemoryStore()) : options, issuer.bundles())) {
                use(validator, mode, tokens(number, 0));
                renew(validator, issuer.bundles());
                closed = validator;
            }
            assertThrows(SvidException.Closed.class, closed::size);
            assertThrows(SvidException.BadBundles.class, () -> Validator.open(options(Mode.ONCE), "[]"));
        });
    }

    /** With a state folder, which is opened twice, and held by another one meanwhile. */
    @Test
    public void livesInAFolder() throws Exception {
        leavesNothing(LIVES / 2, number -> {
            Mode mode = List.of(Mode.ONCE, Mode.BOUND).get(number % 2);
            Path folder = room.resolve("state" + number);
            for (int start = 0; start < 2; start++) {
                try (Validator validator = Validator.open(options(mode).state(folder), issuer.bundles())) {
                    use(validator, mode, tokens(number, start));
                    assertThrows(SvidException.Held.class, () -> Validator.open(options(mode).state(folder), issuer.bundles()));
                }
            }
            remove(folder);
            assertThrows(UncheckedIOException.class, () -> Validator.open(options(mode).state(folder.resolve("a")), issuer.bundles()));
        });
    }

    /** A store that fails. */
    @Test
    public void livesWithoutTheStore() throws Exception {
        Store none = new Store() {
            @Override
            public List<Found> put(List<Claim> claims) throws IOException {
                throw new IOException("the store is away");
            }

            @Override
            public void withdraw(TokenKey key, Instant expiry) throws IOException {
                throw new IOException("the store is away");
            }
        };
        leavesNothing(LIVES / 5, number -> {
            Options options = options(Mode.STRICT).store(none).wait(Duration.ofMillis(10));
            try (Validator validator = Validator.open(options, issuer.bundles())) {
                assertThrows(SvidException.Unavailable.class, () -> validator.check(tokens(number, 0).good));
            }
        });
    }

    /** A call gives its memory outside the heap back as it ends: a heap with much room is collected seldom. */
    @Test
    public void aCallLeavesNothingToBeCollected() throws Exception {
        String token = issuer.token("/a", "ledger");
        String bad = issuer.wrong(Issuer.Wrong.SIGNATURE, "/a", "ledger");
        try (Validator validator = Validator.open(options(Mode.ONCE), issuer.bundles())) {
            validator.withdraw(token);
            byte[] messages = validator.messages();
            byte[] summary = validator.summary();
            List<Callable<?>> calls = List.of(()
                                                      -> Validator.says(token),
                    ()
                            -> Validator.says("no token"),
                    ()
                            -> validator.check(bad),
                    ()
                            -> validator.check("no token"),
                    ()
                            -> validator.judge(token),
                    ()
                            -> validator.withdraw(token),
                    validator::messages, validator::summary,
                    ()
                            -> validator.answer(summary),
                    ()
                            -> validator.answer(messages),
                    validator::report, validator::size, validator::unready,
                    ()
                            -> SpiffeId.parse("spiffe://example.org/a"),
                    ()
                            -> SpiffeId.parse("none"),
                    ()
                            -> {
                        validator.take(messages);
                        return 0;
                    },
                    () -> {
                        validator.renew(issuer.bundles());
                        return 0;
                    });
            for (int number = 0; number < calls.size(); number++) {
                for (int round = 0; round < 5; round++) {
                    long before = roomsNow();
                    for (int n = 0; n < 100; n++) {
                        MemberTest.answer(calls.get(number));
                    }
                    assertTrue("call " + number, roomsNow() < before + 50); // (what other threads have is no more)
                }
            }
        }
    }

    /** Nobody closes some. */
    @Test
    public void livesThatAreForgotten() throws Exception {
        leavesNothing(LIVES / 5, number -> {
            // (one of its own, since whoever is forgotten may still have the others)
            Path folder = Files.createTempDirectory(room, "state");
            Validator validator = Validator.open(options(Mode.ONCE).state(folder), issuer.bundles());
            validator.check(tokens(number, 0).good);
        });
    }

    /** Bundles that follow a file, which changes, and a Workload API, which is there or not. */
    @Test
    public void livesThatFollow() throws Exception {
        Path file = room.resolve("a.json");
        try (WorkloadTest.Agent agent = new WorkloadTest.Agent("unix:" + room.resolve("agent.sock"))) {
            agent.gives(Map.of("spiffe://example.org", new String(issuer.bundle())));
            leavesNothing(FEW, number -> {
                Files.write(file, issuer.bundle());
                try (Validator validator = Validator.open(options(Mode.ONCE), Sources.file("example.org", file))) {
                    use(validator, Mode.ONCE, tokens(number, 0));
                }
                try (Validator validator = Validator.open(options(Mode.ONCE), Sources.workload(agent.address))) {
                    until(validator::isReady);
                    use(validator, Mode.ONCE, tokens(number, 0));
                }
                for (String it : List.of("unix://" + room.resolve("none.sock"), "tcp://127.0.0.1:1")) {
                    try (Workload stream = new Workload(it, 1000, Workload.IDLE)) {
                        assertThrows(IOException.class, stream::next);
                    }
                }
            });
        }
    }
}
