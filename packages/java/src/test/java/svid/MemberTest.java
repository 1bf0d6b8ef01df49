package svid;

import static org.junit.Assert.assertEquals;
import static org.junit.Assert.assertFalse;
import static org.junit.Assert.assertNotEquals;
import static org.junit.Assert.assertThrows;
import static org.junit.Assert.assertTrue;
import static svid.Making.PATIENCE;
import static svid.Making.SUBJECT;
import static svid.Making.token;
import static svid.Making.until;

import java.io.IOException;
import java.lang.ref.WeakReference;
import java.net.InetAddress;
import java.net.InetSocketAddress;
import java.nio.channels.ServerSocketChannel;
import java.nio.charset.StandardCharsets;
import java.security.Security;
import java.time.Clock;
import java.time.Duration;
import java.time.Instant;
import java.time.ZoneOffset;
import java.util.ArrayList;
import java.util.Arrays;
import java.util.Collection;
import java.util.Collections;
import java.util.HashSet;
import java.util.List;
import java.util.Optional;
import java.util.Random;
import java.util.Set;
import java.util.concurrent.Callable;
import java.util.concurrent.CopyOnWriteArrayList;
import java.util.concurrent.CountDownLatch;
import java.util.concurrent.TimeUnit;
import java.util.concurrent.atomic.AtomicBoolean;
import java.util.concurrent.atomic.AtomicInteger;
import java.util.concurrent.atomic.AtomicLong;
import java.util.concurrent.atomic.AtomicReference;
import java.util.concurrent.locks.LockSupport;
import java.util.stream.Stream;
import org.junit.Test;
import svid.testing.TestClock;

/** Requests, and their answers: the modes, the store of a group, deadlines and readiness. */
@SuppressWarnings("try") // (a Holding is only closed)
public class MemberTest {
    private static final int THREADS = 32;
    private static final long AS_MANY_AS_MAY_BE = 64; // calls of a store at once

    /** What a test wants to happen in a call of a store. */
    private interface Hook {
        void run() throws Exception;
    }

    private static final Hook NOTHING = () -> {};
    private static final Hook AWAY = () -> {
        throw new IOException("the store is away");
    };

    /** A store whose calls do {@code before} what is put, and {@code after} it, as a test wants. */
    private static final class Fickle implements Store {
        final MemoryStore store;
        final List<List<Claim>> puts = new CopyOnWriteArrayList<>();
        final AtomicInteger calls = new AtomicInteger(); // those that put nothing, too
        volatile Hook before = NOTHING;
        volatile Hook after = NOTHING;

        Fickle() {
            this(new MemoryStore());
        }

        Fickle(MemoryStore store) {
            this.store = store;
        }

        @Override
        public List<Found> put(List<Claim> claims) throws Exception {
            calls.getAndIncrement();
            if (!claims.isEmpty()) {
                puts.add(List.copyOf(claims));
            }
            before.run();
            List<Found> found = store.put(claims);
            after.run();
            return found;
        }

        @Override
        public void withdraw(TokenKey key, Instant expiry) throws Exception {
            before.run();
            store.withdraw(key, expiry);
        }
    }

    /** A store whose answers to claims are others. */
    private interface Answering extends Store {
        @Override
        default void withdraw(TokenKey key, Instant expiry) {}
    }

    /** A call in a thread of its own, which a test does not await for longer than it has patience. */
    static final class Soon {
        final Thread thread;
        private volatile String said = "died";

        Soon(Callable<?> call) {
            thread = new Thread(() -> said = MemberTest.answer(call));
            thread.setDaemon(true);
            thread.start();
        }

        String answer() throws InterruptedException {
            thread.join(TimeUnit.SECONDS.toMillis(PATIENCE));
            assertFalse("it does not end", thread.isAlive());
            return said;
        }
    }

    /** The outcome of a call: the subject that it gives, if any, or the name of the error. */
    static String answer(Callable<?> call) {
        try {
            return call.call() instanceof Admission admission ? admission.spiffeId().toString() : "";
        } catch (Refusal why) {
            return why.reason().toString();
        } catch (Exception why) {
            return why.getClass().getSimpleName();
        }
    }

    private static String soon(Callable<?> call) throws InterruptedException {
        return new Soon(call).answer();
    }

    /** The outcome of a check, once it is not too late: a wait may be short for a busy machine. */
    private static String inTime(Validator validator, String token) throws Exception {
        String[] said = new String[1];
        until(() -> !(said[0] = soon(() -> validator.check(token))).equals("Unavailable"));
        return said[0];
    }

    private static Owner owner(int number) {
        byte[] bytes = new byte[32];
        Arrays.fill(bytes, (byte) (number + 1));
        return Owner.of(bytes);
    }

    private static Options ledger() {
        return Options.audiences("ledger").anyLife();
    }

    private static Options strict(Store store) {
        return ledger().mode(Mode.STRICT).store(store);
    }

    private static Options bound(Store store) {
        return ledger().mode(Mode.BOUND).store(store);
    }

    private static Duration patience() {
        return Duration.ofSeconds(PATIENCE);
    }

    private static Validator open(Options options) {
        return Validator.open(options, Making.bundles());
    }

    static Member memberOf(Validator validator) {
        try {
            return (Member) ThreadsTest.lockOf(validator);
        } catch (ReflectiveOperationException why) {
            throw new AssertionError(why);
        }
    }

    /** No request and no withdrawal is left behind. */
    private static void nothingWaits(Validator validator) {
        Member member = memberOf(validator);
        synchronized (member) {
            assertTrue(member.requests.isEmpty() && member.withdrawals.isEmpty());
        }
    }

    /** How many requests and withdrawals wait. */
    private static int waiting(Validator validator) {
        Member member = memberOf(validator);
        synchronized (member) {
            return member.requests.size() + member.withdrawals.size();
        }
    }

    /** Says how many calls of the store are under way. */
    private static void underWay(Validator validator, long calls) {
        Claims claims = memberOf(validator).claims;
        synchronized (claims.gate) {
            claims.pacing.setLong(Library.Pacing.CALLS, calls);
            claims.gate.notifyAll();
        }
    }

    /** The store answers nothing until this is closed. */
    private static final class Holding implements AutoCloseable {
        private final Fickle store;
        private final CountDownLatch go = new CountDownLatch(1);

        Holding(Fickle store) {
            this.store = store;
            store.before = () -> go.await(PATIENCE, TimeUnit.SECONDS);
        }

        @Override
        public void close() {
            store.before = NOTHING;
            go.countDown();
        }
    }

    private static List<Soon> many(int count, Callable<?> call) {
        return Stream.generate(() -> new Soon(call)).limit(count).toList();
    }

    private static List<String> answers(List<Soon> calls) throws InterruptedException {
        List<String> said = new ArrayList<>();
        for (Soon it : calls) {
            said.add(it.answer());
        }
        return said;
    }

    private static List<Integer> sizes(Fickle store) {
        return store.puts.stream().map(List::size).sorted().toList();
    }

    // -- Modes

    @Test
    public void aTokenThatMayComeAgain() throws Exception {
        String token = token();
        try (Validator validator = open(ledger().mode(Mode.REUSE))) {
            for (int n = 0; n < 3; n++) {
                assertEquals(SUBJECT, answer(() -> validator.check(token)));
            }
            assertEquals(0, validator.size().uses());
            validator.withdraw(token);
            assertEquals("Withdrawn", answer(() -> validator.check(token)));
        }
    }

    @Test
    public void aModeAndItsStore() {
        Store store = new MemoryStore();
        for (Options options : List.of(ledger().mode(Mode.STRICT), ledger().mode(Mode.BOUND))) {
            String said = assertThrows(IllegalArgumentException.class, () -> open(options)).getMessage();
            assertEquals("give a store in the modes STRICT and BOUND, or in BOUND a state folder: tokens are claimed there", said);
        }
        assertThrows(IllegalArgumentException.class, () -> ledger().wait(Duration.ZERO));
        assertThrows(IllegalArgumentException.class, () -> ledger().wait(Duration.ofSeconds(-1)));
        open(strict(store).wait(Duration.ofSeconds(Long.MAX_VALUE))).close();
    }

    @Test
    public void oneOfManyThreadsIsAccepted() throws Exception {
        Fickle store = new Fickle();
        String token = token();
        try (Validator validator = open(strict(store).wait(patience()))) {
            List<Soon> calls;
            try (Holding held = new Holding(store)) {
                calls = many(THREADS, () -> validator.check(token));
                until(() -> !store.puts.isEmpty() && waiting(validator) == THREADS);
            }
            List<String> said = answers(calls);
            assertEquals(1, Collections.frequency(said, SUBJECT));
            assertEquals(THREADS - 1, Collections.frequency(said, "Replayed"));
            assertEquals("the others wait for the answer to that", List.of(1), sizes(store));
            assertEquals(1, validator.size().uses());
            nothingWaits(validator);
        }
    }

    @Test
    public void validatorsOfOneStore() throws Exception {
        Store store = new MemoryStore();
        List<String> tokens = Stream.generate(Making::token).limit(20).toList();
        try (Validator one = open(strict(store).wait(patience())); Validator other = open(strict(store).wait(patience()))) {
            List<Soon> calls = new ArrayList<>();
            for (String token : tokens) {
                calls.addAll(many(2, () -> one.check(token)));
                calls.addAll(many(2, () -> other.check(token)));
            }
            List<String> said = answers(calls);
            for (int at = 0; at < said.size(); at += 4) {
                assertEquals(List.of("Replayed", "Replayed", "Replayed", SUBJECT), said.subList(at, at + 4).stream().sorted().toList());
            }
        }
    }

    /** Calls fail before or after they are made, or take long: no token is accepted twice. */
    @Test
    public void aStoreThatFailsNowAndThen() throws Exception {
        Fickle store = new Fickle();
        Random chance = new Random(7);
        Hook fault = () -> {
            int which = chance.nextInt(8);
            if (which < 2) {
                AWAY.run();
            } else if (which == 2) {
                LockSupport.parkNanos(TimeUnit.MILLISECONDS.toNanos(30));
            }
        };
        List<String> tokens = Stream.generate(Making::token).limit(40).toList();
        List<String> won = new CopyOnWriteArrayList<>();
        Set<String> said = Collections.synchronizedSet(new HashSet<>());
        Options options = strict(store).wait(Duration.ofMillis(200));
        try (Validator one = open(options); Validator other = open(options)) {
            store.before = fault;
            store.after = fault;
            List<Soon> workers = new ArrayList<>();
            for (int number = 0; number < 8; number++) {
                Validator validator = number % 2 == 0 ? one : other;
                List<String> shuffled = new ArrayList<>(tokens);
                Collections.shuffle(shuffled, chance);
                workers.add(new Soon(() -> {
                    for (String token : shuffled) {
                        String answer = answer(() -> validator.check(token));
                        said.add(answer);
                        if (answer.equals(SUBJECT)) {
                            won.add(token);
                        }
                    }
                    return null;
                }));
            }
            for (Soon it : workers) {
                assertEquals("", it.answer());
            }
            nothingWaits(one);
            nothingWaits(other);
        }
        assertTrue(said.toString(), Set.of(SUBJECT, "Replayed", "Unavailable").containsAll(said));
        assertTrue(!won.isEmpty() && won.size() == Set.copyOf(won).size());
    }

    /** A restart does not take the claims of the life before for its own. */
    @Test
    public void eachLifeHasClaimsOfItsOwn() throws Exception {
        Options options = strict(new MemoryStore()).validatorId(new byte[16]);
        String token = token();
        for (String due : List.of(SUBJECT, "Replayed")) {
            try (Validator validator = open(options)) {
                assertEquals(due, inTime(validator, token));
            }
        }
    }

    @Test
    public void aTokenIsBoundToItsCaller() throws Exception {
        Store store = new MemoryStore();
        String token = token();
        byte[] mine = "owner".repeat(9).getBytes(StandardCharsets.UTF_8);
        byte[] theirs = "owner".repeat(10).getBytes(StandardCharsets.UTF_8);
        try (Validator one = open(bound(store).wait(patience())); Validator other = open(bound(store).wait(patience()))) {
            for (Validator it : List.of(one, other, one)) {
                assertEquals(SUBJECT, soon(() -> it.check(token, mine)));
                assertEquals("Replayed", soon(() -> it.check(token, theirs)));
            }
            one.withdraw(token);
            for (Validator it : List.of(one, other)) {
                assertEquals("Withdrawn", soon(() -> it.check(token, mine)));
            }
        }
    }

    @Test
    public void aCallerIsGivenInModeBoundAlone() {
        String said = "give a caller in the mode BOUND, and in no other one";
        try (Validator validator = open(bound(new MemoryStore()))) {
            assertEquals(said, assertThrows(IllegalArgumentException.class, () -> validator.check(token())).getMessage());
            assertThrows(NullPointerException.class, () -> validator.check(token(), null));
        }
        try (Validator validator = open(ledger())) {
            assertEquals(said, assertThrows(IllegalArgumentException.class, () -> validator.check(token(), new byte[1])).getMessage());
        }
    }

    // -- The store

    @Test
    public void aStoreThatAnswersLate() throws Exception {
        Fickle store = new Fickle();
        String token = token();
        try (Validator validator = open(strict(store).wait(Duration.ofMillis(200)))) {
            try (Holding held = new Holding(store)) {
                assertEquals("Unavailable", soon(() -> validator.check(token)));
                nothingWaits(validator);
            }
            // (the claim is of this life, so the token is not lost)
            assertEquals(SUBJECT, inTime(validator, token));
            assertEquals("Replayed", inTime(validator, token));
        }
    }

    /** Whether an error says that the store is away. On a busy machine a request may be late before it has asked. */
    private static boolean saysAway(SvidException why) {
        return why.getCause() != null && "the store is away".equals(why.getCause().getMessage());
    }

    @Test
    public void aStoreThatNeverAnswers() throws Exception {
        Fickle store = new Fickle();
        String token = token();
        try (Validator validator = open(strict(store).wait(Duration.ofMillis(200)))) {
            store.before = AWAY;
            until(() -> {
                SvidException.Unavailable why = assertThrows(SvidException.Unavailable.class, () -> validator.check(token));
                assertEquals("The time of the request was over before it had an answer. Try again.", why.getMessage());
                return saysAway(why) && store.puts.size() > 2; // (the claim is put again and again)
            });
            store.before = NOTHING;
            assertEquals(SUBJECT, inTime(validator, token));
            nothingWaits(validator);
            until(() -> memberOf(validator).claims.why() == null);
        }
    }

    /** The same claim is put again, and finds its own entry. */
    @Test
    public void anAnswerThatIsLost() throws Exception {
        Fickle store = new Fickle();
        String token = token();
        AtomicInteger count = new AtomicInteger();
        try (Validator validator = open(strict(store).wait(patience()))) {
            store.after = () -> {
                if (count.getAndIncrement() == 0) {
                    AWAY.run();
                }
            };
            assertEquals(SUBJECT, soon(() -> validator.check(token)));
            assertEquals(List.of(1, 1), sizes(store));
            assertEquals(store.puts.get(0), store.puts.get(1));
            assertEquals("Replayed", soon(() -> validator.check(token)));
        }
    }

    /** An answer that comes again, for a request that has its answer, changes nothing. */
    @Test
    public void anAnswerThatComesAgain() throws Exception {
        String token = token();
        List<Store.Found> said = new CopyOnWriteArrayList<>();
        MemoryStore store = new MemoryStore();
        Answering twice = claims -> {
            List<Store.Found> found = store.put(claims);
            said.addAll(found);
            return found;
        };
        try (Validator validator = open(strict(twice).wait(patience()))) {
            assertEquals(SUBJECT, soon(() -> validator.check(token)));
            for (long number = 0; number < 4; number++) {
                memberOf(validator).found(number, said.get(0));
            }
            assertEquals("Replayed", soon(() -> validator.check(token)));
            assertEquals(1, validator.size().uses());
            nothingWaits(validator);
        }
    }

    @Test
    public void anEntryOfAnotherOwner() throws Exception {
        for (Owner owner : List.of(owner(7), Owner.WITHDRAWN)) {
            boolean isWithdrawn = owner.equals(Owner.WITHDRAWN);
            MemoryStore store = new MemoryStore();
            Answering theirs = claims -> store.put(claims).stream().map(it -> new Store.Found(owner, it.time(), it.deaf())).toList();
            try (Validator validator = open(strict(theirs).wait(patience()))) {
                assertEquals(isWithdrawn ? "Withdrawn" : "Replayed", soon(() -> validator.check(token())));
                assertEquals(isWithdrawn ? 1 : 0, validator.size().uses());
            }
        }
    }

    /** What is no answer counts as none: the claim is put again. */
    @Test
    public void anAnswerThatIsNone() throws Exception {
        MemoryStore store = new MemoryStore();
        for (List<Store.Found> none : Arrays.asList(null, List.<Store.Found>of(), Arrays.asList((Store.Found) null))) {
            AtomicInteger count = new AtomicInteger();
            Answering wrong = claims -> claims.isEmpty() || count.incrementAndGet() > 2 ? store.put(claims) : none;
            try (Validator validator = open(strict(wrong).wait(patience()))) {
                assertEquals(SUBJECT, soon(() -> validator.check(token())));
                assertEquals(3, count.get());
            }
        }
        assertThrows(IllegalArgumentException.class, () -> Owner.of(new byte[31]));
    }

    /** That fails, so that no answer goes to another request. */
    @Test
    public void aStoreThatSortsItsClaims() throws Exception {
        Fickle store = new Fickle();
        AtomicReference<Exception> why = new AtomicReference<>();
        Answering sorting = claims -> {
            try {
                if (!claims.isEmpty()) {
                    claims.sort((one, other) -> other.key().toString().compareTo(one.key().toString()));
                }
            } catch (UnsupportedOperationException thrown) {
                why.set(thrown);
                throw thrown;
            }
            return store.put(claims);
        };
        try (Validator validator = open(strict(sorting).wait(Duration.ofMillis(200)))) {
            until(() -> {
                assertEquals("Unavailable", soon(() -> validator.check(token())));
                return why.get() != null;
            });
            assertEquals(0, store.puts.size());
        }
    }

    @Test
    public void manyClaimsShareACall() throws Exception {
        for (int count : List.of(THREADS, 257)) {
            Fickle store = new Fickle();
            try (Validator validator = open(strict(store).wait(patience()))) {
                List<Soon> calls = new ArrayList<>();
                try (Holding held = new Holding(store)) {
                    calls.addAll(many(1, () -> validator.check(token())));
                    until(() -> !store.puts.isEmpty());
                    underWay(validator, AS_MANY_AS_MAY_BE);
                    calls.addAll(many(count, () -> validator.check(token())));
                    until(() -> memberOf(validator).claims.waiting.size() == count);
                }
                assertEquals(Set.of(SUBJECT), Set.copyOf(answers(calls)));
                assertEquals(count == THREADS ? List.of(1, THREADS) : List.of(1, 1, 256), sizes(store));
            }
        }
    }

    @Test
    public void aCallThatHangsDoesNotHoldUpTheOthers() throws Exception {
        Fickle store = new Fickle();
        CountDownLatch go = new CountDownLatch(1);
        try (Validator validator = open(strict(store).wait(patience()))) {
            store.before = () -> {
                if (store.puts.size() == 1) {
                    go.await(PATIENCE, TimeUnit.SECONDS);
                }
            };
            Soon first = new Soon(() -> validator.check(token()));
            until(() -> !store.puts.isEmpty());
            for (int n = 0; n < 3; n++) {
                assertEquals(SUBJECT, soon(() -> validator.check(token())));
            }
            assertTrue(first.thread.isAlive());
            go.countDown();
            assertEquals(SUBJECT, first.answer());
        }
    }

    /** Nobody would get the answer, and the token would be lost. */
    @Test
    public void aClaimThatIsLateIsNotPut() throws Exception {
        Fickle store = new Fickle();
        String late = token();
        try (Validator validator = open(strict(store).wait(Duration.ofMillis(300)))) {
            underWay(validator, AS_MANY_AS_MAY_BE);
            assertEquals("Unavailable", soon(() -> validator.check(late)));
            underWay(validator, 0);
            until(() -> soon(() -> validator.check(token())).equals(SUBJECT));
            TokenKey key = Validator.says(late).key();
            assertTrue(store.puts.stream().flatMap(Collection::stream).noneMatch(it -> it.key().equals(key)));
        }
    }

    /** A claim is asked about right before it goes out, also if its thread does not know yet that it is late. */
    @Test
    public void aClaimOfWhoDoesNotKnowThatItIsLate() throws Exception {
        Fickle store = new Fickle();
        AtomicLong up = new AtomicLong(1000);
        try (Validator validator = open(strict(store).wait(patience()))) {
            Member member = memberOf(validator);
            member.up = up::get;
            underWay(validator, AS_MANY_AS_MAY_BE);
            Soon call = new Soon(() -> validator.check(token()));
            until(() -> !member.claims.waiting.isEmpty());
            up.addAndGet(patience().toMillis());
            underWay(validator, 0);
            assertEquals("Unavailable", call.answer());
            assertEquals(List.of(), store.puts);
            nothingWaits(validator);
        }
    }

    /** Where nothing is to be put, no call of the store goes out for it. */
    @Test
    public void nothingIsPut() throws Exception {
        Fickle store = new Fickle();
        AtomicLong up = new AtomicLong(1000);
        try (Validator validator = open(strict(store).wait(patience()))) {
            Member member = memberOf(validator);
            member.up = up::get;
            underWay(validator, AS_MANY_AS_MAY_BE);
            Soon late = new Soon(() -> validator.check(token()));
            until(() -> !member.claims.waiting.isEmpty());
            int calls = store.calls.get();
            up.addAndGet(patience().toMillis());
            underWay(validator, 0);
            assertEquals("Unavailable", late.answer());
            until(() -> member.claims.waiting.isEmpty());
            assertEquals(SUBJECT, soon(() -> validator.check(token())));
            until(() -> claiming().stream().allMatch(it -> it.getState() == Thread.State.WAITING));
            assertEquals(calls + 1, store.calls.get());
        }
        try (ServerSocketChannel server = ServerSocketChannel.open().bind(new InetSocketAddress(InetAddress.getLoopbackAddress(), 0))) {
            server.configureBlocking(false);
            String url = "jdbc:postgresql://127.0.0.1:" + server.socket().getLocalPort() + "/d";
            try (PostgresMember member = new PostgresMember(List.of(url), "svid", 1, new PostgresMember.Terms(3600, 120, 60))) {
                assertEquals(List.of(), member.put(List.of(), Times.up() + 1000));
                assertEquals(null, server.accept());
            }
        }
    }

    /** Where there is no memory for what a call leaves, its thread goes on, and so do later claims. */
    @Test
    public void wantOfMemoryAsACallEnds() throws Exception {
        Fickle store = new Fickle();
        AtomicReference<Thread> puts = new AtomicReference<>();
        try (Validator validator = open(strict(store).wait(Duration.ofMillis(200)))) {
            Claims claims = memberOf(validator).claims;
            store.before = () -> {
                puts.set(Thread.currentThread());
                claims.later = new ArrayList<>() {
                    private static final long serialVersionUID = 1;

                    @Override
                    public boolean add(Claims.Later one) {
                        throw new OutOfMemoryError("there is none");
                    }
                };
                AWAY.run();
            };
            until(() -> { // (on a busy machine a request may be late before it is put)
                assertEquals("Unavailable", soon(() -> validator.check(token())));
                return puts.get() != null;
            });
            store.before = NOTHING;
            synchronized (claims.gate) {
                claims.later = new ArrayList<>();
            }
            until(() -> {
                assertTrue("the thread has ended", puts.get().isAlive());
                return puts.get().getState() == Thread.State.WAITING;
            });
            assertEquals(SUBJECT, inTime(validator, token()));
        }
    }

    /** What a store leaves in its thread holds up no other call. */
    @Test
    public void aStoreThatLeavesSomethingInItsThread() throws Exception {
        Fickle store = new Fickle();
        InheritableThreadLocal<String> left = new InheritableThreadLocal<>() {
            @Override
            protected String childValue(String it) {
                throw new IllegalStateException("it has no heirs");
            }
        };
        Set<Thread> seen = Collections.synchronizedSet(new HashSet<>());
        CountDownLatch go = new CountDownLatch(1);
        try (Validator validator = open(strict(store).wait(patience()))) {
            store.before = () -> {
                left.set("it");
                seen.add(Thread.currentThread());
            };
            until(() -> {
                assertEquals(SUBJECT, soon(() -> validator.check(token())));
                return seen.containsAll(claiming());
            });
            AtomicBoolean hangs = new AtomicBoolean(true);
            store.before = () -> {
                if (hangs.getAndSet(false)) {
                    go.await(PATIENCE, TimeUnit.SECONDS);
                }
            };
            Soon first = new Soon(() -> validator.check(token()));
            until(() -> !hangs.get());
            assertEquals(SUBJECT, soon(() -> validator.check(token())));
            go.countDown();
            assertEquals(SUBJECT, first.answer());
        }
    }

    @Test
    public void aStoreThatHasLostEntries() throws Exception {
        MemoryStore store = new MemoryStore(Clock.systemUTC(), Duration.ofMinutes(1), Duration.ofSeconds(3620));
        try (Validator validator = open(strict(store).longest(Duration.ofHours(1)).wait(patience()))) {
            assertEquals(SUBJECT, soon(() -> validator.check(token())));
            assertEquals(Optional.empty(), validator.unready());
            store.lose();
            SvidException.Unavailable why = assertThrows(SvidException.Unavailable.class, () -> validator.check(token()));
            assertEquals("The token may have been claimed before the store lost entries. Present a token that was issued later.",
                    why.getMessage());
            assertEquals(
                    "The store has lost entries, so no token is accepted that lives as long as it may.", validator.unready().orElse(""));
            assertFalse(validator.isReady());
            assertEquals(null, memberOf(validator).unready(Instant.now().getEpochSecond() + 60));
        }
    }

    @Test
    public void aTokenThatLivesLongerThanTheStoreKeepsIt() throws Exception {
        Clock slow = Clock.offset(Clock.systemUTC(), Duration.ofHours(-1));
        MemoryStore store = new MemoryStore(slow, Duration.ZERO, Duration.ofHours(1));
        try (Validator validator = open(strict(store).longest(Duration.ofHours(1)).wait(patience()))) {
            SvidException.Unavailable why = assertThrows(SvidException.Unavailable.class, () -> validator.check(token()));
            assertTrue(why.getMessage(), why.getMessage().contains("Set the store's clock right."));
        }
    }

    @Test
    public void theMemoryOfAStore() {
        AtomicReference<Instant> now = new AtomicReference<>(Instant.ofEpochSecond(1000));
        Clock clock = new Clock() {
            @Override
            public Instant instant() {
                return now.get();
            }

            @Override
            public java.time.ZoneId getZone() {
                return ZoneOffset.UTC;
            }

            @Override
            public Clock withZone(java.time.ZoneId zone) {
                return this;
            }
        };
        MemoryStore store = new MemoryStore(clock, Duration.ofSeconds(10), Duration.ofSeconds(100));
        TokenKey key = TokenKey.of(new byte[32]);
        Owner[] owners = new Owner[2];
        Arrays.setAll(owners,
                it
                -> Owner.of(new byte[] {(byte) it, 1, 2, 3, 4, 5, 6, 7, 8, 9, 10, 11, 12, 13, 14, 15, 16, 17, 18, 19, 20, 21, 22, 23, 24,
                        25, 26, 27, 28, 29, 30, 31}));
        Store.Claim mine = new Store.Claim(key, owners[0], Instant.ofEpochSecond(1050));
        Store.Claim theirs = new Store.Claim(key, owners[1], Instant.ofEpochSecond(1050));
        assertEquals(List.of(), store.put(List.of()));
        Store.Found won = new Store.Found(owners[0], now.get(), Instant.EPOCH);
        assertEquals(List.of(won, won, won), store.put(List.of(mine, theirs, mine)));
        now.set(Instant.ofEpochSecond(1059));
        assertEquals(owners[0], store.put(List.of(theirs)).get(0).owner());
        now.set(Instant.ofEpochSecond(1060));
        assertEquals(owners[1], store.put(List.of(theirs)).get(0).owner());
        store.put(List.of(new Store.Claim(TokenKey.of(owners[1].bytes()), owners[0], Instant.ofEpochSecond(1200))));
        store.withdraw(TokenKey.of(owners[1].bytes()), Instant.ofEpochSecond(1100));
        now.set(Instant.ofEpochSecond(1209));
        List<Store.Claim> late = List.of(new Store.Claim(TokenKey.of(owners[1].bytes()), owners[1], Instant.MAX));
        assertEquals(Owner.WITHDRAWN, store.put(late).get(0).owner());
        store.lose();
        assertEquals(List.of(new Store.Found(owners[1], now.get(), Instant.ofEpochSecond(1309))), store.put(late));
        now.set(Instant.ofEpochSecond(4_000_000_000_000L));
        assertEquals(owners[1], store.put(List.of(mine, late.get(0))).get(1).owner());
    }

    // -- Withdrawals

    @Test
    public void aWithdrawalReachesTheOtherValidators() throws Exception {
        Store store = new MemoryStore();
        String token = token();
        try (Validator one = open(strict(store).wait(patience())); Validator other = open(strict(store).wait(patience()))) {
            one.withdraw(token);
            for (Validator it : List.of(one, other, other)) {
                assertEquals("Withdrawn", soon(() -> it.check(token)));
            }
            assertTrue(other.report(), other.report().contains("withdrawn"));
            nothingWaits(one);
        }
    }

    @Test
    public void aWithdrawalThatTheStoreMayNotHave() throws Exception {
        Fickle store = new Fickle();
        String token = token();
        try (Validator validator = open(strict(store).wait(Duration.ofMillis(200)))) {
            store.before = AWAY;
            until(() -> {
                SvidException.Unavailable why = assertThrows(SvidException.Unavailable.class, () -> validator.withdraw(token));
                assertEquals("the token is withdrawn here, but the group's store may not have that: withdraw it again", why.getMessage());
                return saysAway(why);
            });
            try (Holding held = new Holding(store)) {
                assertThrows(SvidException.Unavailable.class, () -> validator.withdraw(token));
            }
            assertEquals("Withdrawn", inTime(validator, token));
            until(() -> answer(() -> validator.withdraw(token)).isEmpty());
            nothingWaits(validator);
        }
    }

    // -- Callers

    private static final List<IdPattern> OTHERS = List.of(IdPattern.of("spiffe://example.org/other"), IdPattern.of("spiffe://example.com"));
    private static final List<IdPattern> OURS =
            List.of(IdPattern.of("spiffe://example.com"), IdPattern.of("spiffe://example.org/billing/*"));

    @Test
    public void callers() throws Exception {
        for (Options each : List.of(ledger(), ledger().mode(Mode.REUSE), strict(new MemoryStore()))) {
            Options options = each.wait(patience());
            String token = token();
            String bad = token.substring(0, token.length() - 6) + "AAAAAA";
            try (Validator validator = open(options.callers(OTHERS))) {
                for (int n = 0; n < 2; n++) {
                    assertEquals("NotAllowed", soon(() -> validator.check(token)));
                    assertEquals("NotAllowed", soon(() -> validator.judge(token)));
                    assertEquals("BadSignature", soon(() -> validator.check(bad)));
                    assertEquals("BadSignature", soon(() -> validator.judge(bad)));
                }
                Denied.NotAllowed why = assertThrows(Denied.NotAllowed.class, () -> validator.admit(List.of("Bearer " + token)));
                assertEquals(403, why.status());
                assertThrows(Denied.NotAllowed.class, () -> validator.admit(List.of("Bearer " + token), OURS));
                assertEquals(0, validator.size().uses());
                nothingWaits(validator);
            }
            try (Validator validator = open(options.callers(OURS.get(0), OURS.get(1)))) {
                assertEquals(SUBJECT, soon(() -> validator.judge(token)));
                assertEquals(SUBJECT, soon(() -> validator.check(token)));
            }
        }
    }

    @Test
    public void callersThatAreNone() {
        String said = "callers is empty: name who may call, or leave the list out to let all call";
        assertEquals(said, assertThrows(IllegalArgumentException.class, () -> ledger().callers()).getMessage());
        assertEquals(said, assertThrows(IllegalArgumentException.class, () -> ledger().callers(List.of())).getMessage());
        for (String audience : List.of("", "a\nb")) {
            Options options = Options.audiences("ledger", audience);
            open(options).close();
            IllegalArgumentException why = assertThrows(IllegalArgumentException.class, () -> open(options.callers(OURS)));
            assertEquals("with callers, no audience is empty or has a line feed", why.getMessage());
        }
    }

    /** Several audiences stay what they are where only some may call. */
    @Test
    public void audiencesOfCallers() throws Exception {
        try (Validator validator = open(Options.audiences("first", "ledger", "last").callers(OURS))) {
            assertEquals(SUBJECT, answer(() -> validator.check(token())));
        }
        try (Validator validator = open(Options.audiences("first", "last").callers(OURS))) {
            assertEquals("NotAudience", answer(() -> validator.check(token())));
        }
    }

    // -- Times

    /** The token is not used up: it was not judged in time. */
    @Test
    public void aVerifierThatTakesTooLong() throws Exception {
        String token = token();
        AtomicLong up = new AtomicLong(1000);
        ThreadsTest.Meanwhile slow = new ThreadsTest.Meanwhile(() -> {
            up.addAndGet(300);
            return null;
        });
        try (Validator validator = open(ledger().wait(Duration.ofMillis(300)))) {
            memberOf(validator).up = up::get;
            Security.insertProviderAt(slow, 1);
            try {
                assertEquals("Unavailable", soon(() -> validator.check(token)));
            } finally {
                Security.removeProvider(slow.getName());
            }
            assertEquals(0, validator.size().uses());
            nothingWaits(validator);
            assertEquals(SUBJECT, soon(() -> validator.check(token)));
        }
    }

    @Test
    public void thoseThatWaitAreLateOneByOne() throws Exception {
        Fickle store = new Fickle();
        List<String> tokens = Stream.generate(Making::token).limit(4).toList();
        try (Validator validator = open(strict(store).wait(Duration.ofMillis(300)))) {
            try (Holding held = new Holding(store)) {
                List<Soon> calls = new ArrayList<>();
                tokens.forEach(token -> calls.addAll(many(2, () -> validator.check(token))));
                assertEquals(Set.of("Unavailable"), Set.copyOf(answers(calls)));
            }
            nothingWaits(validator);
        }
    }

    /** Its turn comes as the one before it is late, and it is not late itself. */
    @Test
    public void whoWaitsBehindALateClaimGoesOn() throws Exception {
        Fickle store = new Fickle();
        String token = token();
        AtomicLong up = new AtomicLong(1000);
        CountDownLatch go = new CountDownLatch(1);
        try (Validator validator = open(strict(store).wait(patience()))) {
            Member member = memberOf(validator);
            member.up = up::get;
            store.before = () -> {
                if (store.puts.size() == 1) {
                    go.await(PATIENCE, TimeUnit.SECONDS);
                }
            };
            Soon first = new Soon(() -> validator.check(token));
            until(() -> !store.puts.isEmpty());
            up.addAndGet(10);
            Soon second = new Soon(() -> validator.check(token));
            until(() -> waiting(validator) == 2);
            up.addAndGet(patience().toMillis() - 10);
            assertEquals(0, member.untilDue());
            member.overdue();
            assertEquals("Unavailable", first.answer());
            assertEquals(SUBJECT, second.answer());
            go.countDown();
        }
    }

    /** Who waits behind a request that ends by an error has its turn. */
    @Test
    public void anErrorLeavesNobodyBehind() throws Exception {
        String token = token();
        AtomicInteger count = new AtomicInteger();
        ThreadsTest.Meanwhile fails = new ThreadsTest.Meanwhile(() -> {
            if (count.getAndIncrement() == 0) {
                throw new StackOverflowError();
            }
            return null;
        });
        try (Validator validator = open(strict(new MemoryStore()).wait(patience()))) {
            Security.insertProviderAt(fails, 1);
            try {
                assertThrows(StackOverflowError.class, () -> validator.check(token));
                nothingWaits(validator);
                assertEquals(Long.MAX_VALUE, memberOf(validator).untilDue());
                assertEquals(SUBJECT, soon(() -> validator.check(token)));
            } finally {
                Security.removeProvider(fails.getName());
            }
        }
    }

    /** A thread that is interrupted stops waiting, and still knows that it was interrupted. */
    @Test
    public void anInterrupt() throws Exception {
        Fickle store = new Fickle();
        AtomicReference<Boolean> isInterrupted = new AtomicReference<>();
        try (Validator validator = open(strict(store).wait(Duration.ofDays(1)))) {
            try (Holding held = new Holding(store)) {
                Soon call = new Soon(() -> {
                    try {
                        return validator.check(token());
                    } finally {
                        isInterrupted.set(Thread.currentThread().isInterrupted());
                    }
                });
                until(() -> !store.puts.isEmpty());
                call.thread.interrupt();
                assertEquals("Unavailable", call.answer());
                assertTrue(isInterrupted.get());
                nothingWaits(validator);
            }
        }
        try (Validator validator = open(ledger())) {
            Thread.currentThread().interrupt();
            assertEquals("it waits for nobody", SUBJECT, answer(() -> validator.check(token())));
            assertTrue(Thread.interrupted());
        }
    }

    /** Bundles that are replaced while a claim is under way count. */
    @Test
    public void aRenewalDuringAClaimCounts() throws Exception {
        Fickle store = new Fickle();
        try (Validator validator = open(strict(store).wait(patience()))) {
            for (String due : List.of(SUBJECT, "NoKey")) {
                int puts = store.puts.size();
                Soon call;
                try (Holding held = new Holding(store)) {
                    call = new Soon(() -> validator.check(token()));
                    until(() -> store.puts.size() > puts);
                    validator.renew(due.equals("NoKey") ? "{\"example.org\":{\"keys\":[]}}" : Making.bundles());
                }
                assertEquals(due, call.answer());
            }
        }
    }

    private static List<Thread> claiming() {
        return Thread.getAllStackTraces().keySet().stream().filter(it -> it.getName().equals(Claims.THREADS)).toList();
    }

    @Test
    public void aTokenThatExpiresWhileItsClaimIsOnItsWay() throws Exception {
        Fickle store = new Fickle();
        TestClock clock = new TestClock();
        try (Validator validator = open(strict(store).clock(clock).wait(patience()))) {
            Soon call;
            try (Holding held = new Holding(store)) {
                call = new Soon(() -> validator.check(token(clock.instant().getEpochSecond() + 60)));
                until(() -> !store.puts.isEmpty() || !call.thread.isAlive());
                clock.advance(Duration.ofSeconds(60));
            }
            assertEquals("Expired", call.answer());
        }
    }

    @Test
    public void closingWhileOthersWait() throws Exception {
        Fickle store = new Fickle();
        List<String> tokens = Stream.generate(Making::token).limit(3).toList();
        Validator validator = open(strict(store).wait(Duration.ofDays(1)));
        try (Holding held = new Holding(store)) {
            List<Soon> calls = new ArrayList<>();
            tokens.forEach(token -> calls.addAll(many(2, () -> validator.check(token))));
            calls.add(new Soon(() -> validator.withdraw(token())));
            until(() -> waiting(validator) == 7 && calls.stream().allMatch(it -> it.thread.getState() == Thread.State.TIMED_WAITING));
            validator.close();
            assertEquals(Set.of("Closed"), Set.copyOf(answers(calls)));
        }
        nothingWaits(validator);
        until(() -> claiming().isEmpty());
        assertThrows(SvidException.Closed.class, validator::unready);
    }

    @Test
    public void aValidatorThatIsForgottenEndsItsThreads() throws Exception {
        until(() -> claiming().isEmpty() && reading() == 0); // (those of earlier tests)
        for (Mode mode : List.of(Mode.STRICT, Mode.REUSE)) { // (only the second one reads withdrawals)
            WeakReference<Validator> gone = new WeakReference<>(used(mode));
            until(() -> {
                System.gc();
                return gone.get() == null && claiming().isEmpty() && reading() == 0;
            });
        }
    }

    private static long reading() {
        return Thread.getAllStackTraces().keySet().stream().filter(it -> it.getName().equals(WithdrawalReader.THREAD)).count();
    }

    private static Validator used(Mode mode) throws Exception {
        List<Validator> held = new ArrayList<>(); // by a hook of its own
        Validator validator = open(strict(new MemoryStore()).mode(mode).wait(patience()).denied(why -> held.clear()));
        held.add(validator);
        assertEquals(SUBJECT, soon(() -> validator.check(token())));
        assertFalse(claiming().isEmpty());
        assertEquals(mode == Mode.REUSE, reading() > 0);
        assertTrue(claiming().stream().allMatch(Thread::isDaemon));
        return validator;
    }

    // -- Readiness

    @Test
    public void aStoreThatIsNotThereYet() throws Exception {
        Fickle store = new Fickle();
        store.before = AWAY;
        try (Validator validator = open(strict(store).wait(Duration.ofMillis(100)))) {
            assertEquals("The group's store was not reached yet.", validator.unready().orElse(""));
            until(() -> {
                SvidException.Unavailable why = assertThrows(SvidException.Unavailable.class, () -> validator.check(token()));
                assertEquals("The group's store was not reached yet.", why.getMessage());
                return saysAway(why);
            });
            store.before = NOTHING;
            until(validator::isReady);
            assertEquals(SUBJECT, inTime(validator, token()));
        }
    }

    /** It is asked until it answers, also where nobody looks whether the validator is ready. */
    @Test
    public void aStoreThatComesLater() throws Exception {
        Fickle store = new Fickle();
        store.before = AWAY;
        try (Validator validator = open(strict(store).wait(Duration.ofMillis(100)))) {
            until(() -> store.calls.get() > 2);
            store.before = NOTHING;
            until(() -> soon(() -> validator.check(token())).equals(SUBJECT));
        }
    }

    /** Who has looked before does not say later that it was not reached. */
    @Test
    public void aStoreThatIsReachedMeanwhile() throws Exception {
        Fickle store = new Fickle();
        store.before = AWAY;
        try (Validator validator = open(strict(store).wait(Duration.ofMillis(1)))) {
            Claims claims = memberOf(validator).claims;
            AtomicReference<Optional<String>> said = new AtomicReference<>();
            Soon looks;
            synchronized (claims.gate) {
                looks = new Soon(() -> {
                    said.set(validator.unready());
                    return 0;
                });
                Thread thread = looks.thread;
                until(()
                                -> Stream.of(thread.getStackTrace()).anyMatch(it -> it.getMethodName().equals("isAway"))
                                && thread.getState() == Thread.State.BLOCKED);
                claims.answered(List.of(), List.of());
            }
            assertEquals("", looks.answer());
            assertNotEquals(Optional.of("The group's store was not reached yet."), said.get());
        }
    }

    /** As where there is no memory to hand it on: nobody waits for longer than their time. */
    @Test
    public void anAnswerThatIsNotHandedOn() throws Exception {
        Fickle store = new Fickle();
        try (Validator validator = open(strict(store).wait(Duration.ofMillis(300))); Holding held = new Holding(store)) {
            until(() -> {
                List<Soon> calls = List.of(new Soon(() -> validator.check(token())), new Soon(() -> validator.withdraw(token())));
                // (on a busy machine one may be late before the other has come)
                until(() -> waiting(validator) == 2 || calls.stream().anyMatch(it -> !it.thread.isAlive()));
                int forgotten = forget(memberOf(validator));
                assertEquals(List.of("Unavailable", "Unavailable"), answers(calls));
                return forgotten == 2;
            });
        }
    }

    /** Forgets the requests and withdrawals that have come, and says how many those were. */
    private static int forget(Member member) {
        synchronized (member) {
            int count = member.requests.size() + member.withdrawals.size();
            member.requests.clear();
            member.withdrawals.clear();
            return count;
        }
    }

    /** A thread that puts claims may wait for the lock of the validator. So nobody who has that lock waits for it. */
    @Test
    public void nobodyWaitsForTheClaimsUnderTheLock() throws Exception {
        Fickle store = new Fickle();
        store.before = AWAY;
        try (Validator validator = open(strict(store).wait(Duration.ofMillis(1)))) {
            synchronized (memberOf(validator).claims.gate) {
                assertEquals("Unavailable", soon(() -> validator.check(token())));
            }
        }
    }

    @Test
    public void aStoreThatIsAway() throws Exception {
        Fickle store = new Fickle();
        try (Validator validator = open(strict(store).wait(Duration.ofMillis(100)))) {
            until(validator::isReady);
            store.before = AWAY;
            Optional<String> away = Optional.of("The group's store does not answer, so no token can be claimed.");
            until(() -> {
                assertEquals("Unavailable",
                        soon(() -> validator.check(token()))); // (on a busy machine its time is over before it asks the store)
                return validator.unready().equals(away);
            });
            store.before = NOTHING;
            until(validator::isReady); // (each look asks the store)
        }
    }

    /** What a store says of lost entries stays, also where a later answer says less. */
    @Test
    public void aStoreThatSaysLessLater() throws Exception {
        MemoryStore store = new MemoryStore();
        List<Instant> deaf = new CopyOnWriteArrayList<>(List.of(Instant.now().plusSeconds(7200), Instant.EPOCH));
        Answering less = claims -> {
            Instant until = deaf.size() > 1 && !claims.isEmpty() ? deaf.remove(0) : deaf.get(deaf.size() - 1);
            return store.put(claims).stream().map(it -> new Store.Found(it.owner(), it.time(), until)).toList();
        };
        try (Validator validator = open(strict(less).longest(Duration.ofHours(1)).wait(patience()))) {
            assertEquals(Optional.empty(), validator.unready());
            assertEquals("Unavailable", soon(() -> validator.check(token())));
            assertEquals(SUBJECT, soon(() -> validator.check(token())));
            assertEquals(
                    "The store has lost entries, so no token is accepted that lives as long as it may.", validator.unready().orElse(""));
        }
    }

    @Test
    public void aClockThatJumps() {
        try (Validator validator = open(ledger().step(Duration.ofHours(1)))) {
            assertTrue(validator.isReady());
            String said = memberOf(validator).unready(Instant.now().getEpochSecond() + 7200);
            assertEquals("The clock went ahead too far at once. Set the clock right.", said);
            assertEquals(Optional.empty(), validator.unready());
        }
    }
}
