package svid;

import static org.junit.Assert.assertEquals;
import static org.junit.Assert.assertFalse;
import static org.junit.Assert.assertThrows;
import static org.junit.Assert.assertTrue;
import static svid.Making.until;

import com.google.gson.JsonObject;
import com.google.gson.JsonParser;
import com.sun.net.httpserver.HttpServer;
import java.io.ByteArrayOutputStream;
import java.io.IOException;
import java.io.InputStream;
import java.math.BigInteger;
import java.net.HttpURLConnection;
import java.net.InetAddress;
import java.net.InetSocketAddress;
import java.net.URL;
import java.nio.ByteBuffer;
import java.nio.charset.StandardCharsets;
import java.nio.file.Files;
import java.nio.file.Path;
import java.time.Duration;
import java.time.Instant;
import java.util.ArrayList;
import java.util.Base64;
import java.util.Collections;
import java.util.HashMap;
import java.util.List;
import java.util.Map;
import java.util.Set;
import java.util.concurrent.Callable;
import java.util.concurrent.CopyOnWriteArrayList;
import java.util.concurrent.Semaphore;
import java.util.concurrent.TimeUnit;
import java.util.concurrent.atomic.AtomicLong;
import java.util.stream.Stream;
import org.junit.After;
import org.junit.Rule;
import org.junit.Test;
import org.junit.rules.TemporaryFolder;
import svid.testing.Issuer;
import svid.testing.TestClock;

/** What a service gets: claims, hooks, answers, open paths, withdrawals, and what its tests use. */
@SuppressWarnings("try") // (some are only held)
public class ServiceTest {
    /** Longer than a test has patience. */
    private static final Duration PATIENT = Duration.ofSeconds(9 * Making.PATIENCE);

    @Rule public final TemporaryFolder room = new TemporaryFolder();
    @Rule public final Said said = new Said();

    private final TestClock clock = new TestClock();
    private final Issuer issuer = new Issuer("example.org", clock);

    private Options options() {
        return Options.audiences("ledger", "books").clock(clock);
    }

    private Validator open(Options options) {
        return Validator.open(options, issuer.bundles());
    }

    /** No thread stays of a validator that is closed. */
    @After
    public void nothingStays() throws Exception {
        until(() -> Thread.getAllStackTraces().keySet().stream().noneMatch(it -> it.getName().equals(WithdrawalReader.THREAD)));
    }

    @Test
    public void whatAServiceGets() throws Exception {
        try (Validator validator = open(options())) {
            String token = issuer.token("/billing/api",
                    Map.of("aud", List.of("x", "books", "ledger"), "team", "pay", "level", 7, "share", 0.5, "roles", List.of("a", true)));
            for (Admission it : List.of(validator.judge(token), validator.check(token))) {
                assertEquals("books", it.audience());
                assertEquals(SpiffeId.parse("spiffe://example.org/billing/api"), it.spiffeId());
                assertTrue(it.keyId(), it.keyId().length() == 36);
                Map<String, Object> claims = it.claims();
                assertEquals("pay", claims.get("team"));
                assertEquals(7L, claims.get("level"));
                assertEquals(0.5, claims.get("share"));
                assertEquals(List.of("a", true), claims.get("roles"));
                assertEquals(it.expirySeconds(), claims.get("exp"));
                assertEquals(it.spiffeId().toString(), claims.get("sub"));
                claims.clear();
                assertFalse(it.claims().isEmpty());
            }
        }
    }

    /** Without an audience no validator is made; the life of a token has a limit unless the caller says otherwise. */
    @Test
    public void whatIsUsual() throws Exception {
        assertThrows(IllegalArgumentException.class, () -> Options.audiences(List.of()));
        long now = clock.instant().getEpochSecond();
        try (Validator validator = open(options()); Validator any = open(options().anyLife())) {
            validator.check(issuer.token("/a", Map.of("aud", "ledger", "exp", now + 3600)));
            String late = issuer.token("/a", Map.of("aud", "ledger", "exp", now + 3601));
            assertEquals("TooLongLived", assertThrows(Refusal.class, () -> validator.check(late)).reason().toString());
            any.check(late);
        }
    }

    /** A hook may fail, also by an error, or by what another language lets it throw. */
    private static void fail(int how) {
        if (how % 3 == 0) {
            throw new IllegalStateException("it fails");
        } else if (how % 3 == 1) {
            throw new AssertionError("it fails");
        }
        sneaky(new IOException("it fails"));
    }

    @SuppressWarnings("unchecked")
    private static <T extends Throwable> void sneaky(Throwable why) throws T {
        throw(T) why;
    }

    @Test
    public void eachDenialIsTold() throws Exception {
        List<String> told = new CopyOnWriteArrayList<>();
        Options options = options().denied(why -> {
            told.add(why.word());
            fail(told.size());
        });
        try (Validator validator = open(options.callers(IdPattern.of("spiffe://example.org/billing/*")))) {
            String token = issuer.token("/billing/api", "ledger");
            validator.check(token);
            assertThrows(Refusal.class, () -> validator.check(token));
            assertThrows(SvidException.NotAllowed.class, () -> validator.check(issuer.token("/other", "ledger")));
            assertThrows(Denied.NoToken.class, () -> validator.admit(null));
            assertThrows(Denied.NoToken.class, () -> validator.admit(List.of("Basic x")));
            assertThrows(Refusal.class, () -> validator.admit(List.of("Bearer " + token)));
            assertThrows(Denied.NotAllowed.class, () -> validator.admit(List.of("Bearer " + issuer.token("/other", "ledger"))));
        }
        assertEquals(List.of("Replayed", "NotAllowed", "NoToken", "NotBearer", "Replayed", "NotAllowed"), told);
        assertEquals(Collections.nCopies(told.size(), "the hook of denials failed"), said.lines);
    }

    @Test
    public void aTokenThatSeveralAcceptedIsToldOnce() throws Exception {
        List<TokenKey> told = new CopyOnWriteArrayList<>();
        Options hears = options().twice(key -> {
            told.add(key);
            fail(told.size());
        });
        try (Validator one = open(hears); Validator two = open(options()); Validator three = open(options());
                Validator four = open(hears)) {
            List<String> tokens = new ArrayList<>();
            List<Admission> uses = new ArrayList<>();
            ByteArrayOutputStream many = new ByteArrayOutputStream();
            for (int number = 0; number < 40; number++) {
                tokens.add(issuer.token("/billing/api", "ledger"));
                uses.add(two.check(tokens.get(number)));
                many.writeBytes(number < 20 ? uses.get(number).message() : new byte[0]);
            }
            one.take(many.toByteArray());
            assertEquals(List.of(), told);
            TokenKey mine = one.check(tokens.get(30)).key();
            for (int again = 0; again < 2; again++) {
                one.take(uses.get(30).message());
                assertEquals(List.of(mine), told);
            }
            // (a withdrawal is no acceptance)
            one.take(three.withdraw(tokens.get(1)));
            assertEquals(1, told.size());
            // Of two that neither of them made, in one piece.
            Admission other = three.check(tokens.get(5));
            ByteArrayOutputStream both = new ByteArrayOutputStream();
            both.writeBytes(uses.get(5).message());
            both.writeBytes(other.message());
            four.take(both.toByteArray());
            assertEquals(List.of(mine, other.key()), told);
            assertEquals(Collections.nCopies(2, "the hook of double acceptances failed"), said.lines);
            // (without a hook the log tells)
            two.take(other.message());
            assertTrue(said.lines.toString(), said.has("several validators accepted the token " + other.key() + ": "));
            assertThrows(SvidException.BadMessages.class, () -> one.take(new byte[5]));
        }
    }

    // -- Answers

    /** The status of an answer and its headers, and the body. */
    private static String asked(String method, int port, String path, String... values) throws IOException {
        HttpURLConnection connection = (HttpURLConnection) new URL("http://127.0.0.1:" + port + path).openConnection();
        connection.setReadTimeout((int) (1000 * Making.PATIENCE));
        connection.setRequestMethod(method);
        for (String it : values) {
            connection.addRequestProperty("Authorization", it);
        }
        StringBuilder said = new StringBuilder().append(connection.getResponseCode());
        for (String it : List.of("WWW-Authenticate", "Retry-After", "Cache-Control", "Content-Type")) {
            String value = connection.getHeaderField(it);
            said.append(value == null ? "" : " | " + value);
        }
        try (InputStream body = connection.getResponseCode() < 400 ? connection.getInputStream() : connection.getErrorStream()) {
            String text = body == null ? "" : new String(body.readAllBytes(), StandardCharsets.UTF_8).strip();
            return text.isEmpty() ? said.toString() : said + " | " + text;
        }
    }

    @Test
    public void aReasonWhyThereIsNoAnswer() throws Exception {
        Store away = new Store() {
            @Override
            public List<Found> put(List<Claim> claims) {
                if (!claims.isEmpty()) {
                    throw new IllegalStateException("the store is away");
                }
                return List.of();
            }

            @Override
            public void withdraw(TokenKey key, Instant expiry) {}
        };
        try (Validator left = open(options().mode(Mode.STRICT).wait(Duration.ofMillis(200)).store(away))) {
            String token = issuer.token("/a", "ledger");
            assertEquals("NotClaimed", assertThrows(SvidException.class, () -> left.check(token)).word());
        }
        assertEquals("NoMemory", new SvidException.OutOfMemory(null).word());
    }

    @Test
    public void answersAsSvidd() throws Exception {
        String json = " | no-store | application/json | ";
        TestClock ahead = new TestClock();
        try (Validator validator = Validator.open(options().clock(ahead).step(Duration.ofHours(1)), issuer.bundles())) {
            HttpServer server = HttpServer.create(new InetSocketAddress(InetAddress.getLoopbackAddress(), 0), 0);
            ProtectedHandler handler = new ProtectedHandler(validator, List.of(IdPattern.of("spiffe://example.org/billing/*")),
                    (exchange, admission) -> exchange.sendResponseHeaders(admission == null ? 202 : 204, -1));
            ProtectedHandler opens = handler.open("/healthz", "/static/*");
            List<IOException> failed = new CopyOnWriteArrayList<>();
            server.createContext("/", exchange -> {
                try {
                    opens.handle(exchange);
                } catch (IOException why) {
                    failed.add(why);
                }
            });
            server.start();
            int port = server.getAddress().getPort();
            try {
                String bearer = "Bearer " + issuer.token("/billing/api", "ledger");
                assertEquals("204", asked("GET", port, "/", bearer));
                String replayed = "401 | Bearer error=\"invalid_token\", error_description=\"Replayed\"" + json;
                assertEquals(replayed + "{\"reason\":\"Replayed\",\"result\":\"refused\"}", asked("GET", port, "/", bearer));
                assertEquals(replayed.substring(0, replayed.length() - 3), asked("HEAD", port, "/", bearer));
                assertEquals(
                        "401 | Bearer realm=\"svid\"" + json + "{\"reason\":\"NoToken\",\"result\":\"refused\"}", asked("GET", port, "/"));
                assertEquals("401 | Bearer realm=\"svid\"" + json + "{\"reason\":\"NotBearer\",\"result\":\"refused\"}",
                        asked("GET", port, "/", "Basic x"));
                assertEquals("401 | Bearer error=\"invalid_request\", error_description=\"NotBearer\"" + json
                                + "{\"reason\":\"NotBearer\",\"result\":\"refused\"}",
                        asked("GET", port, "/", "Bearer"));
                assertEquals("403 | Bearer error=\"insufficient_scope\", error_description=\"NotAllowed\"" + json
                                + "{\"reason\":\"NotAllowed\",\"result\":\"refused\"}",
                        asked("GET", port, "/", "Bearer " + issuer.token("/other", "ledger")));
                String deep = "/a".repeat(20_000);
                for (String path : List.of("/healthz", "/static/a", "/static/a/b.css", "/static" + deep)) {
                    assertEquals("202", asked("GET", port, path));
                    assertEquals("202", asked("GET", port, path + "?x=..", "Bearer none"));
                }
                for (String path : List.of("/healthz/", "/Healthz", "/static", "/static/", "/static/../", "/static/%2e%2e/x", "/static//x",
                             "/%68ealthz", "/static/./x", deep)) {
                    assertTrue(path, asked("GET", port, path).startsWith("401"));
                }
                ahead.advance(Duration.ofHours(2));
                assertEquals("503 | 1" + json + "{\"reason\":\"ClockJump\",\"result\":\"unavailable\"}",
                        asked("GET", port, "/", "Bearer " + issuer.token("/billing/api", "ledger")));
                assertEquals(List.of("no answer about a token"), said.lines);
                assertEquals("each answer can be given, that to HEAD too", List.of(), failed);
            } finally {
                server.stop(0);
            }
            for (String path : List.of("healthz", "", "/a/../b", "/a//b", "/a%20b", "/*/a", "/a*")) {
                assertThrows(path, IllegalArgumentException.class, () -> handler.open(path));
            }
        }
    }

    /** Each request has an answer, and the log says what a service has to mend. */
    @Test
    public void aCallerThatIsNotToBeHad() throws Exception {
        try (Validator validator = open(options().mode(Mode.BOUND).store(new MemoryStore()).wait(Duration.ofSeconds(Making.PATIENCE)))) {
            HttpServer server = HttpServer.create(new InetSocketAddress(InetAddress.getLoopbackAddress(), 0), 0);
            ProtectedHandler bare = new ProtectedHandler(validator, (exchange, admission) -> exchange.sendResponseHeaders(204, -1));
            server.createContext("/bare", bare);
            server.createContext("/null", bare.caller(exchange -> null));
            server.createContext("/fails", bare.caller(exchange -> exchange.getPrincipal().getName().getBytes(StandardCharsets.UTF_8)));
            server.createContext("/", bare.caller(exchange -> new byte[1]));
            server.start();
            try {
                String token = "Bearer " + issuer.token("/a", "ledger");
                String due = "503 | 1 | no-store | application/json | {\"reason\":\"NotJudged\",\"result\":\"unavailable\"}";
                for (String path : List.of("/bare", "/null", "/fails")) {
                    assertEquals(path, due, asked("GET", server.getAddress().getPort(), path, token));
                }
                assertEquals(Collections.nCopies(3, "no answer about a token"), said.lines);
                assertEquals("204", asked("GET", server.getAddress().getPort(), "/", token));
            } finally {
                server.stop(0);
            }
        }
    }

    /** What a handler was given stays, in whatever order. */
    @Test
    public void eachPartOfAHandlerLeavesTheOthers() throws Exception {
        try (Validator validator = open(options().mode(Mode.BOUND).store(new MemoryStore()).wait(Duration.ofSeconds(Making.PATIENCE)))) {
            HttpServer server = HttpServer.create(new InetSocketAddress(InetAddress.getLoopbackAddress(), 0), 0);
            ProtectedHandler handler = new ProtectedHandler(validator, List.of(IdPattern.of("spiffe://example.org/a")),
                    (exchange, admission) -> exchange.sendResponseHeaders(admission == null ? 202 : 204, -1));
            server.createContext("/first", handler.caller(exchange -> new byte[1]).open("/first/open"));
            server.createContext("/last", handler.open("/last/open").caller(exchange -> new byte[1]));
            server.start();
            int port = server.getAddress().getPort();
            try {
                for (String path : List.of("/first", "/last")) {
                    assertEquals("202", asked("GET", port, path + "/open"));
                    assertEquals("204", asked("GET", port, path, "Bearer " + issuer.token("/a", "ledger")));
                    assertTrue(asked("GET", port, path, "Bearer " + issuer.token("/b", "ledger")).startsWith("403"));
                }
            } finally {
                server.stop(0);
            }
        }
    }

    // -- Withdrawals

    private static String judged(Validator validator, String token) {
        try {
            return validator.judge(token).spiffeId().path();
        } catch (Refusal why) {
            return why.reason().toString();
        }
    }

    /** In each mode but STRICT a validator hears of withdrawals, keeps them over a restart, and is ready once it knows all. */
    @Test
    public void withdrawalsAreHeard() throws Exception {
        for (Mode mode : List.of(Mode.ONCE, Mode.BOUND, Mode.REUSE)) {
            MemoryStore store = new MemoryStore();
            Options options = options().mode(mode).state(room.getRoot().toPath().resolve(mode.name()));
            String before = issuer.token("/a", "ledger");
            String meanwhile = issuer.token("/b", "ledger");
            String other = issuer.token("/c", "ledger");
            try (Validator from = open(options().mode(Mode.REUSE).store(store))) {
                from.withdraw(before);
                try (Validator validator = open(options.store(store))) {
                    until(validator::isReady);
                    assertEquals("Withdrawn", judged(validator, before));
                    assertEquals("/b", judged(validator, meanwhile));
                    from.withdraw(meanwhile);
                    until(() -> judged(validator, meanwhile).equals("Withdrawn"));
                    assertEquals("/c", judged(validator, other));
                    long uses = validator.size().uses();
                    validator.withdraw(other);
                    assertEquals(uses + 1, validator.size().uses());
                    store.lose();
                    from.withdraw(issuer.token("/d", "ledger"));
                    until(() -> validator.size().uses() == uses + 2);
                }
            }
            try (Validator validator = open(options.store(new MemoryStore()))) {
                assertEquals("Withdrawn", judged(validator, before));
                assertEquals("Withdrawn", judged(validator, meanwhile));
            }
        }
    }

    /** A store that tells of them as a test wants. */
    private static class Telling implements Store {
        final MemoryStore store;
        final List<String> asked = new CopyOnWriteArrayList<>();
        volatile boolean isAway;
        volatile boolean isNew; // it knows no position
        volatile boolean isWithoutMemory; // for what its next fault says
        volatile List<Withdrawal> all = List.of();

        Telling() {
            this(new MemoryStore());
        }

        Telling(MemoryStore store) {
            this.store = store;
        }

        @Override
        public List<Found> put(List<Claim> claims) {
            return store.put(claims);
        }

        @Override
        public void withdraw(TokenKey key, Instant expiry) {
            store.withdraw(key, expiry);
        }

        @Override
        public Withdrawals withdrawals(String after) throws Exception {
            asked.add(after);
            if (isAway) {
                throw new IOException("the store is away") {
                    private static final long serialVersionUID = 1;

                    @Override
                    public String toString() {
                        if (isWithoutMemory) {
                            isWithoutMemory = false;
                            throw new OutOfMemoryError("there is none for a text");
                        }
                        return super.toString();
                    }
                };
            }
            int from = after.isEmpty() || isNew ? 0 : Integer.parseInt(after);
            isNew = false;
            int to = Math.min(all.size(), from + 1);
            return new Withdrawals(all.subList(from, to), Integer.toString(to));
        }
    }

    /** They are read page by page; a store that is away is asked again, and the validator is not ready meanwhile. */
    @Test
    public void aStoreThatTellsOfThem() throws Exception {
        Telling store = new Telling();
        store.isAway = true;
        store.isWithoutMemory = true;
        List<String> tokens = new ArrayList<>();
        List<Store.Withdrawal> all = new ArrayList<>();
        for (int n = 0; n < 3; n++) {
            tokens.add(issuer.token("/a", "ledger"));
            Says said = Validator.says(tokens.get(n));
            all.add(new Store.Withdrawal(said.key(), said.expiry()));
        }
        // (one of a token that has expired is passed over, and one that comes twice stands there once)
        all.add(1, new Store.Withdrawal(all.get(0).key(), clock.instant().minusSeconds(5)));
        all.add(all.get(0));
        store.all = all;
        try (Validator validator = open(options().mode(Mode.BOUND).store(store).wait(Duration.ofMillis(200)))) {
            until(() -> store.asked.size() > 1);
            assertFalse(validator.isReady());
            try (Validator once = open(options().store(store).wait(Duration.ofMillis(1)))) {
                until(() -> once.unready().orElse("").equals("The store's withdrawals are being read."));
            }
            store.isAway = false;
            until(validator::isReady);
            for (String it : tokens) {
                assertEquals("Withdrawn", judged(validator, it));
            }
            assertEquals(3, validator.size().uses());
            store.asked.clear();
            until(() -> store.asked.size() > 1);
            assertEquals(List.of("5", "5"), store.asked.subList(0, 2));
            clock.advance(Duration.ofSeconds(1));
            store.isNew = true;
            until(() -> store.asked.contains("4"));
            until(() -> store.asked.get(store.asked.size() - 1).equals("5"));
            assertEquals(3, validator.size().uses());
            store.isAway = true;
            until(() -> !validator.isReady());
            assertTrue(validator.unready().orElse("").contains("store"));
        }
        int before = store.asked.size();
        try (Validator strict = open(options().mode(Mode.STRICT).store(store))) {
            until(strict::isReady);
            assertEquals(before, store.asked.size());
        }
    }

    /** While one page after the other comes, the store is not away, however long all of them take. */
    @Test
    public void pagesThatComeSlowly() throws Exception {
        Semaphore pages = new Semaphore(1000);
        Telling store = new Telling() {
            @Override
            public Withdrawals withdrawals(String after) throws Exception {
                pages.tryAcquire(Making.PATIENCE, TimeUnit.SECONDS);
                return super.withdrawals(after);
            }
        };
        List<Store.Withdrawal> all = new ArrayList<>();
        for (int n = 0; n < 1000; n++) {
            all.add(new Store.Withdrawal(TokenKey.of(ByteBuffer.allocate(32).putInt(n).array()), clock.instant().plusSeconds(60)));
        }
        try (Validator validator = open(options().mode(Mode.BOUND).store(store).wait(Duration.ofSeconds(1)))) {
            until(validator::isReady);
            pages.drainPermits();
            store.all = all;
            until(() -> !validator.isReady());
            until(() -> {
                pages.release();
                return validator.isReady();
            });
            assertTrue(store.asked.size() < all.size());
            pages.release(2000);
        }
    }

    /** While withdrawals can not be taken, a validator is not ready: it would accept tokens that were withdrawn. */
    @Test
    public void withdrawalsThatAreNotTaken() throws Exception {
        Telling store = new Telling();
        try (Validator validator = open(options().mode(Mode.BOUND).store(store).wait(Duration.ofMillis(200)))) {
            until(validator::isReady);
            store.all = List.of(new Store.Withdrawal(null, clock.instant())); // (it has no key)
            until(() -> !validator.isReady());
            store.all = List.of();
            until(validator::isReady);
        }
    }

    /** A store whose validators read withdrawals once, and then where that is due. */
    private static final class Suspended extends Telling {
        final AtomicLong up = new AtomicLong(Times.up()); // the clock that only goes ahead, which goes where a test wants that
        volatile Callable<?> before = () -> null;
        volatile Callable<?> after = () -> null;

        Suspended(TestClock clock) {
            super(new MemoryStore(clock, Duration.ofMinutes(1), Duration.ofHours(1)));
        }

        @Override
        public Withdrawals withdrawals(String position) throws Exception {
            asked.add(position);
            before.call();
            Withdrawals page = store.withdrawals(position);
            after.call(); // (what was read may be old by now)
            return page;
        }

        /** Lets nobody read any more unless it is due. */
        void rest(Validator validator) throws Exception {
            Member member = MemberTest.memberOf(validator);
            member.up = up::get;
            member.hearing.every = TimeUnit.DAYS.toMillis(1);
            member.hearing.wake();
            until(member.hearing::isAtRest);
        }

        /** Reads once more, as if a second had passed. */
        void readAgain(Validator validator) {
            MemberTest.memberOf(validator).hearing.wake();
        }
    }

    /** Another validator withdraws a token while the machine is suspended for so many seconds. */
    private void withdrawnMeanwhile(Store store, String token, long seconds) throws Exception {
        Says said = Validator.says(token);
        store.withdraw(said.key(), said.expiry());
        clock.advance(Duration.ofSeconds(seconds));
    }

    private static Admission checked(Validator validator, Mode mode, String token) throws Refusal {
        return mode == Mode.BOUND ? validator.check(token, new byte[] {1}) : validator.check(token);
    }

    private MemberTest.Soon soon(Validator validator, String token) {
        return new MemberTest.Soon(() -> validator.check(token));
    }

    /** The clock that only goes ahead stands still then. While a process is stopped, both go on. */
    @Test
    public void aWithdrawalWhileTheMachineWasSuspended() throws Exception {
        for (Mode mode : List.of(Mode.ONCE, Mode.BOUND, Mode.REUSE)) {
            Suspended store = new Suspended(clock);
            try (Validator validator = open(options().mode(mode).store(store).wait(Duration.ofSeconds(Making.PATIENCE)))) {
                store.rest(validator);
                for (int n = 0; n < 4; n++) {
                    String token = issuer.token("/a", "ledger");
                    withdrawnMeanwhile(store, token, n % 2 == 0 ? 9 : 0);
                    store.up.addAndGet(n % 2 == 0 ? 0 : 7001);
                    boolean judges = n > 1;
                    String said = MemberTest.answer(() -> judges ? validator.judge(token) : checked(validator, mode, token));
                    assertEquals(mode + " " + n, "Withdrawn", said);
                }
            }
        }
    }

    @Test
    public void noLookIsDueWhileLooksAreMade() throws Exception {
        Suspended store = new Suspended(clock);
        try (Validator validator = open(options().mode(Mode.REUSE).store(store).wait(PATIENT))) {
            store.rest(validator);
            int asked = store.asked.size();
            store.up.addAndGet(7000);
            clock.advance(Duration.ofSeconds(7));
            assertEquals("/a", judged(validator, issuer.token("/a", "ledger")));
            clock.advance(Duration.ofSeconds(-100));
            assertEquals("/a", judged(validator, issuer.token("/a", "ledger")));
            assertEquals(asked, store.asked.size());
        }
    }

    /** Not for who comes while it is made, and not for who comes after it. */
    @Test
    public void aLookFromBeforeASuspensionDoesNotCount() throws Exception {
        for (boolean isOver : new boolean[] {false, true}) {
            Suspended store = new Suspended(clock);
            Semaphore go = new Semaphore(0);
            try (Validator validator = open(options().mode(Mode.REUSE).store(store).wait(PATIENT))) {
                store.rest(validator);
                int asked = store.asked.size();
                store.after = () -> go.tryAcquire(Making.PATIENCE, TimeUnit.SECONDS);
                store.readAgain(validator);
                until(() -> store.asked.size() > asked);
                String token = issuer.token("/a", "ledger");
                withdrawnMeanwhile(store, token, 100);
                if (isOver) {
                    go.release(1000);
                    until(MemberTest.memberOf(validator).hearing::isAtRest);
                }
                MemberTest.Soon call = soon(validator, token);
                until(() -> !call.thread.isAlive() || call.thread.getState() == Thread.State.TIMED_WAITING);
                go.release(1000);
                assertEquals("Withdrawn", call.answer());
            }
        }
    }

    /** Also where it fails: whoever comes then is answered at once, as before. */
    @Test
    public void requestsAfterASuspensionShareALook() throws Exception {
        for (boolean isAway : new boolean[] {false, true}) {
            Suspended store = new Suspended(clock);
            Semaphore go = new Semaphore(0);
            try (Validator validator = open(options().mode(Mode.REUSE).store(store).wait(PATIENT))) {
                store.rest(validator);
                int asked = store.asked.size();
                String token = issuer.token("/a", "ledger");
                String spiffeId = Validator.says(token).spiffeId().toString();
                store.before = () -> {
                    go.tryAcquire(Making.PATIENCE, TimeUnit.SECONDS);
                    if (isAway) {
                        throw new IOException("the store is away");
                    }
                    return null;
                };
                withdrawnMeanwhile(store, token, 100);
                List<MemberTest.Soon> calls = new ArrayList<>(List.of(soon(validator, token)));
                until(() -> store.asked.size() > asked); // (who comes now finds a look that began after it)
                Stream.generate(() -> soon(validator, token)).limit(31).forEach(calls::add);
                until(() -> calls.stream().allMatch(it -> it.thread.getState() == Thread.State.TIMED_WAITING));
                go.release(1000);
                for (MemberTest.Soon it : calls) {
                    assertEquals(isAway ? spiffeId : "Withdrawn", it.answer());
                }
                assertEquals("/b", judged(validator, issuer.token("/b", "ledger")));
                assertEquals(asked + (isAway ? 1 : 2), store.asked.size());
            }
        }
    }

    /** A request waits for a part of its time, and is answered then. The next one is at once. */
    @Test
    public void aStoreThatHangsAfterASuspension() throws Exception {
        for (Mode mode : List.of(Mode.ONCE, Mode.BOUND, Mode.REUSE)) {
            Suspended store = new Suspended(clock);
            Semaphore go = new Semaphore(0);
            try (Validator validator = open(options().mode(mode).store(store).wait(Duration.ofSeconds(2)))) {
                store.rest(validator);
                store.before = () -> go.tryAcquire(9 * Making.PATIENCE, TimeUnit.SECONDS);
                until(() -> {
                    clock.advance(Duration.ofSeconds(100));
                    String token = issuer.token("/a", "ledger");
                    return MemberTest.answer(() -> checked(validator, mode, token)).endsWith("/a");
                });
                until(() -> {
                    long from = Times.up();
                    String token = issuer.token("/a", "ledger");
                    return MemberTest.answer(() -> checked(validator, mode, token)).endsWith("/a") && Times.up() - from < 500;
                });
            }
            go.release(1000);
        }
    }

    @Test
    public void closingWhileALookIsAwaited() throws Exception {
        Suspended store = new Suspended(clock);
        Semaphore go = new Semaphore(0);
        Validator validator = open(options().mode(Mode.REUSE).store(store).wait(PATIENT));
        store.rest(validator);
        store.before = () -> go.tryAcquire(9 * Making.PATIENCE, TimeUnit.SECONDS);
        clock.advance(Duration.ofSeconds(100));
        MemberTest.Soon call = soon(validator, issuer.token("/a", "ledger"));
        until(() -> call.thread.getState() == Thread.State.TIMED_WAITING);
        validator.close();
        assertEquals("Closed", call.answer());
        go.release(1000);
    }

    /** A validator that is closed looks no more, and does not wait for the next look. */
    @Test
    public void aReaderOfWithdrawalsEndsAtOnce() throws Exception {
        Telling store = new Telling();
        until(() -> {
            try (Validator validator = open(options().store(store))) {
                until(validator::isReady);
                store.asked.clear();
                until(() -> !store.asked.isEmpty());
            }
            long closed = Times.up();
            nothingStays();
            return Times.up() - closed < 500; // (of a second)
        });
    }

    /** One that can't be taken yet, as the clock is wrong, is taken once it can be. */
    @Test
    public void aWithdrawalThatIsTakenLater() throws Exception {
        Telling store = new Telling();
        try (Validator validator = open(options().step(Duration.ofHours(1)).store(store))) {
            until(validator::isReady);
            String token = issuer.token("/a", "ledger");
            Says said = Validator.says(token);
            clock.advance(Duration.ofHours(2));
            store.all = List.of(new Store.Withdrawal(said.key(), said.expiry()));
            store.asked.clear();
            until(() -> store.asked.size() > 1);
            clock.advance(Duration.ofHours(-2));
            until(() -> judged(validator, token).equals("Withdrawn"));
        }
    }

    /** Of each outage of a store the log has a line about the claims and one about withdrawals. */
    @Test
    public void eachOutageIsLoggedOnce() throws Exception {
        Telling store = new Telling() {
            @Override
            public List<Found> put(List<Claim> claims) {
                if (isAway) {
                    throw new IllegalStateException("the store is away");
                }
                return super.put(claims);
            }
        };
        List<String> due = new ArrayList<>();
        try (Validator validator = open(options().mode(Mode.BOUND).store(store).wait(Duration.ofMillis(100)))) {
            for (int outage = 0; outage < 2; outage++) {
                until(validator::isReady);
                store.isAway = true;
                store.asked.clear();
                String token = issuer.token("/a", "ledger");
                due.addAll(List.of("the group's store does not answer", "the group's store does not tell of withdrawals"));
                until(() -> { // (on a busy machine a request may be late before it is put)
                    assertThrows(SvidException.Unavailable.class, () -> validator.check(token, new byte[1]));
                    return said.lines.size() >= due.size() && store.asked.size() > 2 && !validator.isReady();
                });
                store.isAway = false;
            }
            until(validator::isReady);
        }
        assertEquals(due.stream().sorted().toList(), said.lines.stream().sorted().toList());
    }

    /** A program may end that closes nothing. */
    @Test
    public void noThreadHoldsUpTheEndOfAProgram() throws Exception {
        Path file = Files.write(room.getRoot().toPath().resolve("a.json"), issuer.bundle());
        Options all = options().mode(Mode.BOUND).store(new Telling());
        try (Validator one = Validator.open(all, Sources.file("example.org", file));
                Validator other = open(options().state(room.getRoot().toPath().resolve("state")))) {
            Map<String, Boolean> threads = new HashMap<>();
            Thread.getAllStackTraces().keySet().forEach(it -> threads.merge(it.getName(), it.isDaemon(), (here, there) -> here && there));
            for (String it : List.of(Claims.THREADS, WithdrawalReader.THREAD, Follower.THREAD, Journal.THREAD)) {
                assertEquals(it, true, threads.get(it));
            }
        }
    }

    // -- What tests of a service use

    /** A number that begins with zeros is as long as another one: one of some hundred keys has such a coordinate. */
    @Test
    public void eachKeyOfAnIssuerIsOnItsCurve() throws Exception {
        BigInteger prime = new BigInteger("ffffffff00000001000000000000000000000000ffffffffffffffffffffffff", 16);
        BigInteger constant = new BigInteger("5ac635d8aa3a93e7b3ebbd55769886bc651d06b0cc53b0f63bce3c3e27d2604b", 16);
        BigInteger three = BigInteger.valueOf(3);
        until(() -> {
            issuer.rotate();
            JsonObject key = JsonParser.parseString(new String(issuer.bundle(), StandardCharsets.UTF_8))
                                     .getAsJsonObject()
                                     .getAsJsonArray("keys")
                                     .get(0)
                                     .getAsJsonObject();
            byte[][] bytes = {
                    Base64.getUrlDecoder().decode(key.get("x").getAsString()), Base64.getUrlDecoder().decode(key.get("y").getAsString())};
            BigInteger x = new BigInteger(1, bytes[0]);
            BigInteger y = new BigInteger(1, bytes[1]);
            assertEquals(y.modPow(BigInteger.TWO, prime), x.pow(3).subtract(three.multiply(x)).add(constant).mod(prime));
            assertEquals("32 32", bytes[0].length + " " + bytes[1].length);
            return Stream.of(bytes).anyMatch(it -> it[0] == 0 && it[1] >= 0);
        });
    }

    @Test
    public void whatTestsUse() throws Exception {
        MemoryStore store = new MemoryStore(clock, Duration.ofMinutes(1), Duration.ofHours(1));
        try (Validator validator = open(options().mode(Mode.STRICT).store(store))) {
            Map<Issuer.Wrong, String> reasons =
                    Map.of(Issuer.Wrong.EXPIRED, "Expired", Issuer.Wrong.NOT_YET, "NotYet", Issuer.Wrong.AUDIENCE, "NotAudience",
                            Issuer.Wrong.SIGNATURE, "BadSignature", Issuer.Wrong.KEY, "NoKey", Issuer.Wrong.MALFORMED, "NotThreeParts");
            for (Issuer.Wrong it : Issuer.Wrong.values()) {
                String token = issuer.wrong(it, "/a", "ledger");
                assertEquals(reasons.get(it), assertThrows(Refusal.class, () -> validator.check(token)).reason().toString());
            }
            String early = issuer.wrong(Issuer.Wrong.NOT_YET, "/a", "ledger");
            clock.advance(Duration.ofMinutes(30));
            assertEquals("/a", validator.check(early).spiffeId().path());
            String token = issuer.token("/a", "ledger");
            clock.advance(Duration.ofMinutes(59));
            assertEquals("/a", validator.check(token).spiffeId().path());
            clock.advance(Duration.ofMinutes(1));
            assertEquals("Expired", assertThrows(Refusal.class, () -> validator.check(token)).reason().toString());
            // (a store that lost entries lets in no token that may have been used)
            store.lose();
            assertThrows(SvidException.Unavailable.class, () -> validator.check(issuer.token("/a", "ledger")));
            clock.set(clock.instant().plus(Duration.ofHours(2)));
            validator.check(issuer.token("/a", Map.of("aud", "ledger", "iat", 1)));
            Map<String, Object> claims = new HashMap<>(Map.of("aud", "ledger"));
            claims.put("jti", null);
            assertEquals(Set.of("sub", "exp", "iat", "aud"), validator.check(issuer.token("/a", claims)).claims().keySet());
            issuer.rotate();
            String rotated = issuer.token("/a", "ledger");
            assertEquals("NoKey", assertThrows(Refusal.class, () -> validator.check(rotated)).reason().toString());
            validator.renew(issuer.bundles());
            validator.check(rotated);
        }
    }
}
