package svid;

import static org.junit.Assert.assertEquals;
import static org.junit.Assert.assertFalse;
import static org.junit.Assert.assertNotEquals;
import static org.junit.Assert.assertThrows;
import static org.junit.Assert.assertTrue;
import static svid.Vectors.NOW;
import static svid.Vectors.bundles;
import static svid.Vectors.ledgerAt;
import static svid.Vectors.of;
import static svid.Vectors.tokens;

import com.google.gson.JsonParser;
import java.lang.management.LockInfo;
import java.lang.management.ManagementFactory;
import java.lang.management.ThreadInfo;
import java.lang.ref.WeakReference;
import java.lang.reflect.Field;
import java.nio.charset.StandardCharsets;
import java.security.InvalidKeyException;
import java.security.NoSuchAlgorithmException;
import java.security.PrivateKey;
import java.security.Provider;
import java.security.PublicKey;
import java.security.Security;
import java.security.Signature;
import java.security.SignatureException;
import java.security.SignatureSpi;
import java.time.Clock;
import java.time.Duration;
import java.time.Instant;
import java.time.ZoneId;
import java.time.ZoneOffset;
import java.util.ArrayList;
import java.util.List;
import java.util.Map;
import java.util.Queue;
import java.util.Set;
import java.util.concurrent.Callable;
import java.util.concurrent.ConcurrentHashMap;
import java.util.concurrent.ConcurrentLinkedQueue;
import java.util.concurrent.CountDownLatch;
import java.util.concurrent.CyclicBarrier;
import java.util.concurrent.ExecutorService;
import java.util.concurrent.Executors;
import java.util.concurrent.Future;
import java.util.concurrent.Semaphore;
import java.util.concurrent.ThreadLocalRandom;
import java.util.concurrent.TimeUnit;
import java.util.concurrent.atomic.AtomicBoolean;
import java.util.concurrent.atomic.AtomicInteger;
import java.util.function.Supplier;
import java.util.function.UnaryOperator;
import java.util.stream.IntStream;
import org.junit.After;
import org.junit.Test;
import svid.testing.Issuer;

/** Threads that share a validator. */
public class ThreadsTest {
    private static final int THREADS = 8;

    private final ExecutorService pool = Executors.newFixedThreadPool(THREADS);

    @After
    public void shutDown() {
        pool.shutdownNow();
    }

    /** Lets all threads do the same at once, and gives what each answers. */
    private <T> List<T> all(Callable<T> each) throws Exception {
        CyclicBarrier begun = new CyclicBarrier(THREADS);
        List<Future<T>> futures = new ArrayList<>();
        for (int n = 0; n < THREADS; n++) {
            futures.add(pool.submit(() -> {
                begun.await(Making.PATIENCE, TimeUnit.SECONDS);
                return each.call();
            }));
        }
        List<T> answers = new ArrayList<>();
        for (Future<T> it : futures) {
            answers.add(Making.given("a thread", it));
        }
        return answers;
    }

    private static String checked(Validator validator, String token) {
        try {
            validator.check(token);
            return "accepted";
        } catch (Refusal why) {
            return why.reason().toString();
        } catch (SvidException why) {
            return why.getClass().getSimpleName();
        }
    }

    @Test
    public void eachTokenIsAcceptedOnce() throws Exception {
        for (int round = 0; round < 20; round++) {
            try (Validator validator = Validator.open(ledgerAt(NOW), bundles())) {
                for (String token : tokens().subList(0, 3)) {
                    List<String> answers = all(() -> checked(validator, token));
                    assertEquals(1, answers.stream().filter("accepted" ::equals).count());
                    assertEquals(THREADS - 1, answers.stream().filter("Replayed" ::equals).count());
                }
            }
        }
    }

    /** While the bundles are renewed, no token is refused that both the old and the new ones have a key for. */
    @Test
    public void renewalsRefuseNoGoodToken() throws Exception {
        String others = bundles().replaceFirst("\\{", "{\"other.example\":{\"keys\":[]},");
        try (Validator validator = Validator.open(ledgerAt(NOW), bundles())) {
            AtomicBoolean isOver = new AtomicBoolean();
            Future<?> renews = pool.submit(() -> {
                for (int n = 0; n < 500; n++) {
                    validator.renew(others);
                    validator.renew(bundles());
                }
                isOver.set(true);
            });
            Making.given("the end of the answers", () -> {
                while (!isOver.get() && !renews.isDone()) {
                    String token = tokens().get(0);
                    String answer;
                    try {
                        answer = validator.judge(token).spiffeId().path();
                    } catch (Refusal why) {
                        answer = why.reason().toString();
                    }
                    assertEquals("/billing/api", answer);
                }
                return null;
            });
            Making.given("the end of the renewals", renews);
        }
    }

    /** A provider whose verification does something, and says what that says, or else what another provider does. */
    static final class Meanwhile extends Provider {
        private static final long serialVersionUID = 1;
        private static final String NAME = "SHA256withECDSAinP1363Format";

        Meanwhile(Supplier<Boolean> deed) {
            super("Meanwhile", "1", "for a test");
            Provider other = Security.getProvider("SunEC");
            putService(new Service(this, "Signature", NAME, SignatureSpi.class.getName(), null, null) {
                @Override
                public Object newInstance(Object unused) throws NoSuchAlgorithmException {
                    return new Verifying(Signature.getInstance(NAME, other), deed);
                }
            });
        }
    }

    static class Verifying extends Signature {
        private final Signature other;
        private final Supplier<Boolean> deed;

        Verifying(Signature other, Supplier<Boolean> deed) {
            super(Meanwhile.NAME);
            this.other = other;
            this.deed = deed;
        }

        @Override
        protected void engineInitVerify(PublicKey key) throws InvalidKeyException {
            other.initVerify(key);
        }

        @Override
        protected void engineUpdate(byte[] bytes, int from, int len) throws SignatureException {
            other.update(bytes, from, len);
        }

        @Override
        protected boolean engineVerify(byte[] signature) throws SignatureException {
            Boolean answer = deed.get();
            return answer == null ? other.verify(signature) : answer;
        }

        @Override
        protected void engineUpdate(byte one) throws SignatureException {
            other.update(one);
        }

        @Override
        protected void engineInitSign(PrivateKey key) throws InvalidKeyException {
            other.initSign(key);
        }

        @Override
        protected byte[] engineSign() throws SignatureException {
            return other.sign();
        }

        @Override
        @Deprecated
        protected void engineSetParameter(String name, Object value) {
            throw new UnsupportedOperationException();
        }

        @Override
        @Deprecated
        protected Object engineGetParameter(String name) {
            throw new UnsupportedOperationException();
        }
    }

    /** While a signature is verified, the bundles may be renewed: then the new keys count. */
    @Test
    public void aRenewalDuringAVerificationCounts() throws Exception {
        String others = otherKeys();
        String token = tokens().get(0);
        for (boolean isJudged : new boolean[] {false, true}) {
            AtomicInteger count = new AtomicInteger();
            try (Validator validator = Validator.open(ledgerAt(NOW), others)) {
                Provider provider = new Meanwhile(() -> {
                    if (count.getAndIncrement() == 0) {
                        validator.renew(bundles());
                    }
                    return null;
                });
                Security.insertProviderAt(provider, 1);
                try {
                    Admission admission = Making.given("an answer", () -> isJudged ? validator.judge(token) : validator.check(token));
                    assertEquals("/billing/api", admission.spiffeId().path());
                    assertEquals(2, count.get());
                } finally {
                    Security.removeProvider(provider.getName());
                }
            }
        }
    }

    /** Bundles with a key of the same name that is another one: that of the vectors. */
    private static String otherKeys() {
        String usual = JsonParser.parseString(Vectors.text("tests/vectors/tokens.json"))
                               .getAsJsonObject()
                               .getAsJsonObject("bundles")
                               .get("usual")
                               .getAsString();
        return usual.replace("\"kid\":\"k1\"", "\"kid\":\"ec-1\"");
    }

    /** A thread that closes a validator waits for the others, whose next call says that it is closed. */
    @Test
    public void oneThreadClosesWhileOthersCall() throws Exception {
        String token = tokens().get(0);
        for (int round = 0; round < 50; round++) {
            Validator validator = Validator.open(ledgerAt(NOW), bundles());
            byte[] messages = validator.messages();
            AtomicInteger number = new AtomicInteger();
            CountDownLatch called = new CountDownLatch(THREADS - 1);
            List<String> answers = all(() -> {
                int own = number.getAndIncrement();
                if (own == 0) {
                    Making.await(called);
                    validator.close();
                    return checked(validator, token);
                }
                try {
                    while (true) {
                        validator.judge(token);
                        validator.take(messages);
                        validator.withdraw(TokenKey.of(new byte[32]), Instant.MAX);
                        validator.messages();
                        validator.renew(bundles());
                        called.countDown();
                    }
                } catch (SvidException why) {
                    return why.getClass().getSimpleName();
                }
            });
            answers.forEach(it -> assertEquals("Closed", it));
        }
    }

    /** Many threads close at once, and for each the validator is closed then. */
    @Test
    public void allThreadsClose() throws Exception {
        for (int round = 0; round < 200; round++) {
            Validator validator = Validator.open(ledgerAt(NOW), "{}");
            all(() -> {
                validator.close();
                return assertThrows(SvidException.Closed.class, validator::size);
            });
        }
    }

    /** The lock of a validator. */
    static Object lockOf(Validator validator) throws ReflectiveOperationException {
        Field field = Validator.class.getDeclaredField("member");
        field.setAccessible(true);
        return field.get(validator);
    }

    /** Waits until a thread waits for this lock. It must not end before. (On its way it may wait for other locks, as that of a class.) */
    private static void waits(Thread thread, Object lock) throws Exception {
        Making.until(() -> {
            assertNotEquals("it did not wait", Thread.State.TERMINATED, thread.getState());
            ThreadInfo info = ManagementFactory.getThreadMXBean().getThreadInfo(thread.getId());
            LockInfo wanted = info == null ? null : info.getLockInfo();
            return wanted != null && wanted.getIdentityHashCode() == System.identityHashCode(lock);
        });
    }

    /** A thread that closes waits for another one that began to, and for a call that is under way. */
    @Test
    public void aCloseWaits() throws Exception {
        Validator validator = Validator.open(ledgerAt(NOW), "{}");
        List<Thread> closing = List.of(new Thread(validator::close), new Thread(validator::close));
        synchronized (lockOf(validator)) {
            for (Thread it : closing) {
                it.start();
                waits(it, lockOf(validator));
            }
            assertEquals(0, validator.size().uses());
        }
        for (Thread it : closing) {
            Making.joined(it);
        }
        assertThrows(SvidException.Closed.class, validator::size);
    }

    /** Each call waits for the one that is under way. */
    @Test
    public void callsWaitForEachOther() throws Exception {
        try (Validator validator = Validator.open(ledgerAt(NOW), bundles())) {
            byte[] messages = validator.messages();
            byte[] summary = validator.summary();
            String token = tokens().get(0);
            List<Runnable> calls = new ArrayList<>(List.of(validator::tick, validator::messages, validator::summary, validator::size));
            calls.add(validator::report);
            calls.add(() -> validator.take(messages));
            calls.add(() -> validator.answer(summary));
            calls.add(() -> validator.renew("{}"));
            calls.add(() -> validator.withdraw(TokenKey.of(new byte[32]), Instant.MAX));
            calls.add(() -> checked(validator, token));
            for (Runnable call : calls) {
                Thread thread = new Thread(call);
                synchronized (lockOf(validator)) {
                    thread.start();
                    waits(thread, lockOf(validator));
                }
                Making.joined(thread);
            }
        }
    }

    /** A check waits once more, after the verification of the signature, during which others may call. */
    @Test
    public void aCheckWaitsBehindTheSignature() throws Exception {
        CountDownLatch verifies = new CountDownLatch(1);
        CountDownLatch isHeld = new CountDownLatch(1);
        Provider provider = new Meanwhile(() -> {
            verifies.countDown();
            Making.await(isHeld);
            return null;
        });
        Security.insertProviderAt(provider, 1);
        try (Validator validator = Validator.open(ledgerAt(NOW), bundles())) {
            List<String> answers = new ArrayList<>();
            Thread thread = new Thread(() -> answers.add(checked(validator, tokens().get(0))));
            thread.start();
            Making.await(verifies);
            synchronized (lockOf(validator)) {
                isHeld.countDown();
                waits(thread, lockOf(validator));
                assertEquals(0, validator.size().uses());
            }
            Making.joined(thread);
            assertEquals(List.of("accepted"), answers);
        } finally {
            Security.removeProvider(provider.getName());
        }
    }

    /** While a signature is verified, others may call. */
    @Test
    public void othersCallDuringAVerification() throws Exception {
        try (Validator validator = Validator.open(ledgerAt(NOW), bundles())) {
            List<Long> uses = new ArrayList<>();
            Provider provider = new Meanwhile(() -> {
                try {
                    uses.add(pool.submit(() -> validator.size().uses()).get(Making.PATIENCE, TimeUnit.SECONDS));
                } catch (Exception why) {
                    throw new AssertionError(why);
                }
                return null;
            });
            Security.insertProviderAt(provider, 1);
            try {
                assertEquals("accepted", checked(validator, tokens().get(0)));
            } finally {
                Security.removeProvider(provider.getName());
            }
            assertEquals(List.of(0L), uses);
        }
    }

    /** A signature of another length is none, whatever a provider says of it. */
    @Test
    public void aProviderThatTakesAnyLength() {
        String usual = "a bit in the middle changed";
        byAProviderThatTakesAll(it -> it.endsWith(usual) ? "accepted" : it.contains(" byte") ? "BadSignature" : null);
    }

    /** Nor is one of a number that is 0, or that is the order of the curve or more. */
    @Test
    public void aProviderThatTakesAnyNumbers() {
        String beyond = ".* (of 0|of 0 and s of 1|of the order|the order more|all ones|all zeros)";
        byAProviderThatTakesAll(it -> it.endsWith("small r and s") ? "accepted" : it.matches(beyond) ? "BadSignature" : null);
    }

    /** What is due of the signatures of ES256, by the names of the vectors; null of those that are not asked. */
    private static void byAProviderThatTakesAll(UnaryOperator<String> dueOf) {
        Provider provider = new Meanwhile(() -> true);
        AtomicInteger count = new AtomicInteger();
        Security.insertProviderAt(provider, 1);
        try {
            Vectors.each("signatures", "rust", it -> of(it, "name").startsWith("ES256, "), (file, it) -> {
                String bundles = "{\"example.org\":{\"keys\":[" + String.join(",", Vectors.list(it, "keys")) + "]}}";
                try (Validator validator = Validator.open(ledgerAt(NOW), bundles)) {
                    String name = of(it, "name");
                    String due = dueOf.apply(name);
                    if (due != null) {
                        assertEquals(name, due, checked(validator, of(it, "token")));
                        count.getAndIncrement();
                    }
                }
            });
        } finally {
            Security.removeProvider(provider.getName());
        }
        assertTrue(count.get() > 3);
    }

    /** A validator that nothing refers to is closed, and one that makes a call is not. */
    @Test
    public void whatIsForgottenIsClosed() throws Exception {
        List<WeakReference<Validator>> all = new ArrayList<>();
        for (int n = 0; n < 100; n++) {
            all.add(new WeakReference<>(Validator.open(ledgerAt(NOW), bundles())));
            if (n % 10 == 0) {
                System.gc();
                Validator.open(ledgerAt(NOW), bundles()).check(tokens().get(0));
            }
        }
        Making.until(() -> {
            System.gc();
            return all.stream().allMatch(it -> it.get() == null);
        });
    }

    // -- Threads that are made to switch, in several numbers

    private static void yields() {
        for (int n = ThreadLocalRandom.current().nextInt(4); n > 0; n--) {
            Thread.yield();
        }
    }

    /** Lets one thread do something, and some others something else, while others run during each verification. */
    private static void beside(int number, Callable<?> one, Callable<?> others) throws Exception {
        Provider provider = new Meanwhile(() -> {
            yields();
            return null;
        });
        Security.insertProviderAt(provider, 1);
        ExecutorService threads = Executors.newFixedThreadPool(number + 1);
        try {
            List<Future<?>> all = new ArrayList<>();
            all.add(threads.submit(one));
            for (int n = 0; n < number; n++) {
                all.add(threads.submit(others));
            }
            for (Future<?> it : all) {
                Making.given("a thread", it);
            }
        } finally {
            threads.shutdownNow();
            Security.removeProvider(provider.getName());
        }
    }

    private static Options yielding(Mode mode) {
        Clock clock = new Clock() {
            @Override
            public Instant instant() {
                yields();
                return Instant.now();
            }

            @Override
            public ZoneId getZone() {
                return ZoneOffset.UTC;
            }

            @Override
            public Clock withZone(ZoneId zone) {
                return this;
            }
        };
        return Options.audiences("ledger").mode(mode).clock(clock).wait(Duration.ofSeconds(Making.PATIENCE));
    }

    /** Once a renewal has ended, the new keys count, and no others; and a token that was refused by others is good once. */
    @Test
    public void checksBesideRenewals() throws Exception {
        Issuer issuer = new Issuer("example.org");
        Issuer stranger = new Issuer("example.org");
        String good = new String(issuer.bundles(), StandardCharsets.UTF_8);
        // (the keys of a stranger, by the names of the good ones)
        String bad = new String(stranger.bundles(), StandardCharsets.UTF_8).replace(nameIn(stranger), nameIn(issuer));
        for (int number : List.of(2, 5, 16)) {
            List<String> tokens = IntStream.range(0, 40).mapToObj(it -> issuer.token("/a", "ledger")).toList();
            Queue<String> shown = new ConcurrentLinkedQueue<>();
            for (int n = 0; n < 4; n++) {
                shown.addAll(tokens);
            }
            Map<String, Integer> accepted = new ConcurrentHashMap<>();
            Set<String> settled = ConcurrentHashMap.newKeySet();
            AtomicInteger begun = new AtomicInteger();
            AtomicInteger done = new AtomicInteger();
            Semaphore checks = new Semaphore(0);
            try (Validator validator = Validator.open(yielding(Mode.ONCE), good)) {
                beside(number,
                        ()
                                -> {
                            while (!shown.isEmpty()) {
                                // (some that end now began before the last renewal, at most one of each thread)
                                checks.tryAcquire(2 * number, Making.PATIENCE, TimeUnit.SECONDS);
                                validator.renew(begun.incrementAndGet() % 2 == 0 ? good : bad);
                                done.incrementAndGet();
                                checks.drainPermits();
                            }
                            return null;
                        },
                        () -> {
                            for (String it = shown.poll(); it != null; it = shown.poll()) {
                                int before = done.get();
                                String said = checked(validator, it);
                                boolean isSettled = begun.get() == before;
                                checks.release();
                                if (said.equals("accepted")) {
                                    accepted.merge(it, 1, Integer::sum);
                                }
                                if (isSettled) {
                                    settled.add(before % 2 == 0 ? "good" : "bad");
                                    assertEquals(before + " " + said, before % 2 != 0, said.equals("BadSignature"));
                                }
                                assertTrue(said, List.of("accepted", "Replayed", "BadSignature").contains(said));
                            }
                            checks.release(2 * number);
                            return null;
                        });
                validator.renew(good);
                for (String it : tokens) {
                    assertEquals(accepted.containsKey(it) ? "Replayed" : "accepted", checked(validator, it));
                }
            }
            assertTrue(accepted.toString(), accepted.values().stream().allMatch(it -> it == 1));
            assertEquals(Set.of("good", "bad"), settled);
        }
    }

    private static String nameIn(Issuer issuer) {
        return JsonParser.parseString(new String(issuer.bundle(), StandardCharsets.UTF_8))
                .getAsJsonObject()
                .getAsJsonArray("keys")
                .get(0)
                .getAsJsonObject()
                .get("kid")
                .getAsString();
    }

    /** A store during whose calls others run. */
    private static Store yielding(Store store) {
        return new Store() {
            @Override
            public List<Found> put(List<Claim> claims) throws Exception {
                yields();
                List<Found> found = store.put(claims);
                yields();
                return found;
            }

            @Override
            public void withdraw(TokenKey key, Instant expiry) throws Exception {
                yields();
                store.withdraw(key, expiry);
                yields();
            }
        };
    }

    /** Of three validators one accepts each token, from one caller; and none does once the token is withdrawn. */
    @Test
    public void aGroupOfManyThreads() throws Exception {
        Issuer issuer = new Issuer("example.org");
        for (int number : List.of(2, 6, 24)) {
            for (Mode mode : List.of(Mode.STRICT, Mode.BOUND)) {
                List<String> tokens = IntStream.range(0, 10).mapToObj(it -> issuer.token("/a", "ledger")).toList();
                Map<String, Set<String>> acceptedFrom = new ConcurrentHashMap<>();
                Map<String, Integer> accepted = new ConcurrentHashMap<>();
                Set<String> withdrawn = ConcurrentHashMap.newKeySet();
                AtomicInteger caller = new AtomicInteger();
                Store store = yielding(new MemoryStore());
                try (Validator first = Validator.open(yielding(mode).store(store), issuer.bundles());
                        Validator second = Validator.open(yielding(mode).store(store), issuer.bundles());
                        Validator third = Validator.open(yielding(mode).store(store), issuer.bundles())) {
                    List<Validator> all = List.of(first, second, third);
                    Callable<Object> withdraws = () -> {
                        for (String it : tokens.subList(0, 3)) {
                            first.withdraw(it);
                            withdrawn.add(it);
                        }
                        first.renew(issuer.bundles());
                        return null;
                    };
                    beside(number, withdraws, () -> {
                        String own = Integer.toString(caller.getAndIncrement());
                        for (String it : tokens) {
                            boolean isOver = withdrawn.contains(it);
                            Validator one = all.get(ThreadLocalRandom.current().nextInt(3));
                            try {
                                if (mode == Mode.BOUND) {
                                    one.check(it, own.getBytes());
                                } else {
                                    one.check(it);
                                }
                                assertFalse("a withdrawn token is accepted", isOver);
                                accepted.merge(it, 1, Integer::sum);
                                acceptedFrom.computeIfAbsent(it, none -> ConcurrentHashMap.newKeySet()).add(own);
                            } catch (Refusal why) {
                                assertTrue(why.reason().toString(), List.of("Replayed", "Withdrawn").contains(why.reason().toString()));
                            }
                        }
                        return null;
                    });
                }
                assertTrue(acceptedFrom.toString(), acceptedFrom.values().stream().allMatch(it -> it.size() == 1));
                assertTrue(accepted.toString(), accepted.values().stream().allMatch(it -> it == 1));
                assertTrue(accepted.keySet().containsAll(tokens.subList(3, 10)));
            }
        }
    }
}
