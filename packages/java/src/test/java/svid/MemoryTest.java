package svid;

import static org.junit.Assert.assertArrayEquals;
import static org.junit.Assert.assertEquals;
import static org.junit.Assert.assertThrows;
import static org.junit.Assert.assertTrue;
import static org.junit.Assert.fail;
import static svid.Vectors.NOW;
import static svid.Vectors.bundles;
import static svid.Vectors.ledgerAt;
import static svid.Vectors.tokens;

import com.sun.jna.Function;
import java.io.IOException;
import java.nio.charset.StandardCharsets;
import java.nio.file.Path;
import java.time.Duration;
import java.time.Instant;
import java.util.Arrays;
import java.util.List;
import java.util.Map;
import java.util.function.Supplier;
import org.junit.Rule;
import org.junit.Test;
import org.junit.rules.TemporaryFolder;

/**
 * Want of memory: in each call, each allocation of the library is refused once. The call says so, or does without; nothing is accepted by
 * one that fails; and the same call succeeds then.
 *
 * <p>The library is one whose allocations go through {@code refusing.c}: packages/java/test links it.
 */
public class MemoryTest {
    @Rule public final TemporaryFolder room = new TemporaryFolder();

    private static final Function REFUSE = Function.getFunction(System.getProperty(Library.PROPERTY), "svid_test_refuse");
    private static final Function LEFT = Function.getFunction(System.getProperty(Library.PROPERTY), "svid_test_left");

    /** What is done before. */
    private interface Begin {
        void on(Validator validator) throws Exception;
    }

    /** What is done with each allocation refused, and what it answers. */
    private interface Call {
        Object on(Validator validator) throws Exception;
    }

    /** Makes the call with each of its allocations refused, until it needs no further one. Says how many were refused. */
    private static int refused(Begin begin, Call call) throws Exception {
        return refused(() -> ledgerAt(NOW), begin, call);
    }

    private static int refused(Supplier<Options> options, Begin begin, Call call) throws Exception {
        Object due;
        try (Validator validator = Validator.open(options.get(), bundles())) {
            begin.on(validator);
            due = call.on(validator);
        }
        for (int count = 0; count < 100_000; count++) {
            try (Validator validator = Validator.open(options.get(), bundles())) {
                begin.on(validator);
                long uses = validator.size().uses();
                Object got = null;
                REFUSE.invokeInt(new Object[] {count});
                boolean isOver;
                try {
                    got = call.on(validator);
                } catch (SvidException.OutOfMemory why) {
                    got = why;
                } finally {
                    isOver = LEFT.invokeInt(new Object[0]) >= 0;
                    REFUSE.invokeInt(new Object[] {-1});
                }
                if (got instanceof SvidException.OutOfMemory) {
                    assertTrue("with allocation " + count + " refused nothing is accepted", validator.size().uses() <= uses + 1);
                    got = call.on(validator);
                }
                assertSame("behind allocation " + count, due, got);
                if (isOver) {
                    return count;
                }
            }
        }
        fail("it does not end");
        return 0;
    }

    private static void assertSame(String when, Object due, Object got) {
        if (due instanceof byte[] bytes) {
            assertArrayEquals(when, bytes, (byte[]) got);
        } else {
            assertEquals(when, due, got);
        }
    }

    private static void nothing(Validator validator) {}

    @Test
    public void checks() throws Exception {
        String token = tokens().get(0);
        // (an OutOfMemory with the use in the record would make the second call a refusal)
        assertTrue(refused(MemoryTest::nothing, it -> it.check(token).spiffeId()) > 0);
        assertTrue(refused(MemoryTest::nothing, it -> it.judge(token).spiffeId()) > 0);
        assertTrue(refused(MemoryTest::nothing, it -> it.judge(token).claims()) > 0);
        assertTrue(refused(MemoryTest::nothing, it -> it.judge(token).audience()) > 0);
        assertTrue(refused(MemoryTest::nothing, it -> it.admit(List.of("Bearer " + token)).key()) > 0);
        assertTrue(refused(it -> it.check(token), it -> assertThrows(Refusal.class, () -> rethrown(it, token)).reason()) > 0);
    }

    private static Owner claimed(LocalStore store, int by) throws Exception {
        byte[] key = new byte[TokenKey.LEN];
        byte[] owner = new byte[Owner.LEN];
        Arrays.fill(key, (byte) 7);
        Arrays.fill(owner, (byte) by);
        return store.put(List.of(new Store.Claim(TokenKey.of(key), Owner.of(owner), Instant.ofEpochSecond(NOW + 600)))).get(0).owner();
    }

    /** The claims of a folder are read whole, or not at all. */
    @Test
    public void claims() throws Exception {
        Path folder = room.getRoot().toPath().resolve("claims");
        Options options = ledgerAt(NOW).wait(Duration.ofSeconds(Making.PATIENCE));
        LocalStore store = new LocalStore(folder, options);
        Owner first = claimed(store, 1);
        store.close();
        int count = 0;
        for (boolean isOver = false; !isOver; count++) {
            store = null;
            REFUSE.invokeInt(new Object[] {count});
            try {
                store = new LocalStore(folder, options);
            } catch (SvidException.OutOfMemory why) {
                // (it opens later)
            } finally {
                isOver = LEFT.invokeInt(new Object[0]) >= 0;
                REFUSE.invokeInt(new Object[] {-1});
            }
            if (store != null) {
                assertEquals("behind allocation " + count, first, claimed(store, 2));
                store.close();
            }
        }
        assertTrue(count > 1);
    }

    /** A check in each mode, where some may call. */
    @Test
    public void members() throws Exception {
        String token = tokens().get(0);
        byte[] caller = {1};
        IdPattern ours = IdPattern.of("spiffe://example.org/billing/*");
        IdPattern others = IdPattern.of("spiffe://example.org/other");
        for (Mode mode : Mode.values()) {
            Supplier<Options> options = () -> {
                Options made = ledgerAt(NOW).mode(mode).wait(Duration.ofSeconds(Making.PATIENCE));
                return mode.hasStore() ? made.store(new MemoryStore(Vectors.clock(NOW), Duration.ofMinutes(1), Duration.ofHours(1))) : made;
            };
            Call check = it -> (mode == Mode.BOUND ? it.check(token, caller) : it.check(token)).spiffeId();
            assertTrue(mode.toString(), refused(() -> options.get().callers(ours), MemoryTest::nothing, check) > 0);
            Call notAllowed = it -> assertThrows(SvidException.NotAllowed.class, () -> rethrown(it, check)).getMessage();
            assertTrue(mode.toString(), refused(() -> options.get().callers(others), MemoryTest::nothing, notAllowed) > 0);
            assertTrue(refused(options, MemoryTest::nothing, it -> {
                it.withdraw(token);
                return it.size();
            }) > 0);
        }
    }

    /** A check and a withdrawal that wait for the disk, and a start that reads the folder. */
    @Test
    public void stateFolders() throws Exception {
        String token = tokens().get(0);
        Supplier<Options> fresh = () -> {
            try {
                return ledgerAt(NOW).wait(Duration.ofSeconds(Making.PATIENCE)).state(room.newFolder().toPath());
            } catch (IOException why) {
                throw new AssertionError(why);
            }
        };
        SpiffeId due = SpiffeId.parse("spiffe://example.org/billing/api");
        assertTrue(refused(fresh, MemoryTest::nothing, it -> {
            try {
                return it.check(token).spiffeId();
            } catch (SvidException.Unavailable why) {
                // (its use is in the record, and was not to be brought to the disk)
                assertTrue(why.getCause() instanceof SvidException.OutOfMemory);
                Making.until(it::isReady);
                return due;
            }
        }) > 0);
        assertTrue(refused(fresh, MemoryTest::nothing, it -> {
            it.withdraw(token);
            return it.size();
        }) > 0);
        Path kept = room.newFolder().toPath();
        try (Validator validator = Validator.open(ledgerAt(NOW).state(kept), bundles())) {
            validator.check(token);
        }
        assertTrue(refused(MemoryTest::nothing, it -> {
            try (Validator other = Validator.open(ledgerAt(NOW).state(kept), bundles())) {
                return other.size();
            }
        }) > 0);
    }

    /** Makes a call, and throws on that it ran out of memory. */
    private static void rethrown(Validator validator, Call call) throws Exception {
        try {
            call.on(validator);
        } catch (SvidException.OutOfMemory why) {
            call.on(validator);
        }
    }

    /** Makes a check, and throws on that it ran out of memory. */
    private static void rethrown(Validator validator, String token) throws Refusal {
        try {
            validator.check(token);
        } catch (SvidException.OutOfMemory why) {
            validator.check(token);
        }
    }

    @Test
    public void otherCalls() throws Exception {
        String token = tokens().get(0);
        byte[] messages;
        byte[] summary;
        try (Validator validator = Validator.open(ledgerAt(NOW), bundles())) {
            summary = validator.summary();
            validator.check(tokens().get(1));
            messages = validator.messages();
        }
        assertTrue(refused(MemoryTest::nothing, it -> Validator.says(token)) > 0);
        assertTrue(
                refused(MemoryTest::nothing, it -> Bundles.join(Map.of("a.org", "{\"keys\":[]}".getBytes(StandardCharsets.UTF_8))).length)
                > 0);
        assertTrue(refused(MemoryTest::nothing, it -> {
            it.take(messages);
            return it.size();
        }) > 0);
        assertTrue(refused(it -> it.take(messages), Validator::messages) >= 0);
        assertTrue(refused(it -> it.take(messages), Validator::report) > 0);
        assertTrue(refused(it -> it.take(messages), Validator::summary) > 0);
        assertTrue(refused(it -> it.take(messages), it -> it.answer(summary)) > 0);
        assertTrue(refused(MemoryTest::nothing, it -> {
            it.withdraw(token);
            return it.size();
        }) > 0);
        assertTrue(refused(MemoryTest::nothing, it -> {
            it.renew(bundles());
            return it.check(token).key();
        }) > 0);
        assertTrue(refused(MemoryTest::nothing, it -> {
            IdPattern pattern = IdPattern.of("spiffe://example.org/billing/*");
            return pattern.allows(SpiffeId.parse("spiffe://example.org/billing/api"));
        }) >= 0);
        assertTrue(refused(MemoryTest::nothing, it -> {
            try (Validator other = Validator.open(ledgerAt(NOW), bundles())) {
                return other.size();
            }
        }) > 0);
    }

    /** What the package itself asks for and does not get. */
    @Test
    public void roomsOfTheCalls() {
        assertThrows(SvidException.OutOfMemory.class, () -> Library.allocated(1L << 62));
        try (Arena room = new Arena()) {
            assertThrows(SvidException.OutOfMemory.class, () -> Output.bytesOf(room.take(8), 1L << 31));
        }
    }
}
