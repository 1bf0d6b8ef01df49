package svid;

import static org.junit.Assert.assertEquals;
import static org.junit.Assert.assertFalse;
import static org.junit.Assert.assertThrows;
import static org.junit.Assert.assertTrue;

import java.io.BufferedReader;
import java.io.File;
import java.io.IOException;
import java.io.InputStream;
import java.io.OutputStream;
import java.io.PrintWriter;
import java.io.StringWriter;
import java.io.UncheckedIOException;
import java.lang.reflect.InvocationHandler;
import java.lang.reflect.InvocationTargetException;
import java.lang.reflect.Proxy;
import java.nio.charset.StandardCharsets;
import java.nio.file.Files;
import java.nio.file.Path;
import java.sql.Connection;
import java.sql.Driver;
import java.sql.DriverManager;
import java.sql.SQLException;
import java.time.Duration;
import java.time.Instant;
import java.util.ArrayList;
import java.util.Arrays;
import java.util.List;
import java.util.Map;
import java.util.Properties;
import java.util.TreeSet;
import java.util.concurrent.CompletableFuture;
import java.util.concurrent.ConcurrentHashMap;
import java.util.concurrent.CopyOnWriteArrayList;
import java.util.concurrent.CountDownLatch;
import java.util.concurrent.Semaphore;
import java.util.concurrent.TimeUnit;
import java.util.concurrent.atomic.AtomicBoolean;
import java.util.concurrent.atomic.AtomicInteger;
import java.util.concurrent.atomic.AtomicReference;
import java.util.function.Supplier;
import java.util.regex.Matcher;
import java.util.regex.Pattern;
import java.util.stream.Stream;
import org.junit.AfterClass;
import org.junit.BeforeClass;
import org.junit.Rule;
import org.junit.Test;
import org.junit.function.ThrowingRunnable;

/** {@link PostgresStore}, over real servers. The tests of go/claims/postgres run over it too. */
@SuppressWarnings("try") // (some are only held)
public class PostgresTest {
    @Rule public final Said logger = new Said();

    private static final Path GO = Path.of(System.getProperty("svid.top"), "go");
    private static final Owner OWNER = Owner.of(filled(111));
    // The tests of go/claims/postgres, in groups that take some time each.
    private static final String MEMBER = "TestAMemberOfAnotherLanguage|TestStore";
    private static final String ALONE = "TestStoreAlone|TestRights|TestAServerThatForgets|TestAPartOfAStore|TestTLS";
    private static final String ENDS = "TestStoreOfAServerThatEnds|TestTrouble|TestFullDisk|TestCloseLeavesNothing|TestQuarantine";
    private static final String LOSSES = "TestRowsThatGoByHandEndTheEpoch|TestALookMissesRows|TestAnOlderCopyThatWentOn|TestAStoreMadeAgain"
            + "|TestADumpThatIsReadInAgain|TestAClockThatIsADayOff|TestASmallStepBack|TestALateAnswerOfAServerThatIsGone|TestAnotherClaimOfACall";
    private static final String CALLS = "TestAClaimThatWaitsWhileTheEpochEnds|TestOneOrder|TestWithdrawalsOfAnotherEpoch"
            + "|TestAnEntryThatIsGoneMeanwhile|TestWhatIsOverGoes|TestATokenThatIsWithdrawnAgain|TestALookAtAStoreOfWhichMuchIsOver|TestTimesOfTheLibrary|TestNobodyLooks"
            + "|TestAClaimThatIsNotCommitted";
    private static final String STANDBYS =
            "TestFailoverToAStandbyThatLacksClaims|TestFailoverToAStandbyThatHasAll|TestFailoverToTheWrongStandby|TestACancelledWait";
    private static final String PRIMARIES = "TestTwoPrimaries|TestTwoStandbysArePromoted|TestServersOfTwoClusters"
            + "|TestStandbysAreNotWaitedForAnyMore|TestWhatIsGivenUpEndsAtTheServer";

    private static Path room;
    private static Process server;
    private static BufferedReader said;
    private static String url;
    private static int groups;

    /** Builds the tests of Go, and starts a server of PostgreSQL, which takes `kill`, `start`, `pause`, `resume` and SQL. */
    @BeforeClass
    public static void start() throws Exception {
        room = Files.createTempDirectory("svid-postgres-");
        Process made =
                new ProcessBuilder("go", "test", "-c", "-o", binary(), "./claims/postgres").directory(GO.toFile()).inheritIO().start();
        assertEquals(0, made.waitFor());
        ProcessBuilder words = new ProcessBuilder(binary(), "-test.run", "^TestAServerOfAnotherLanguage$");
        words.environment().put("SVID_STORE_SERVER", "1");
        words.environment().put("TMPDIR", "/tmp"); // (the user of PostgreSQL may not go through a folder of this one)
        server = words.redirectError(ProcessBuilder.Redirect.INHERIT).start();
        said = server.inputReader(StandardCharsets.UTF_8);
        url = StoreClient.urlOf(Making.given("the address of the server", said::readLine));
    }

    @AfterClass
    public static void end() throws Exception {
        server.getOutputStream().close();
        assertTrue(server.waitFor(Making.PATIENCE, TimeUnit.SECONDS));
        try (Stream<Path> files = Files.walk(room)) {
            files.sorted((one, other) -> other.compareTo(one)).map(Path::toFile).forEach(File::delete);
        }
    }

    private static String binary() {
        return room.resolve("postgres.test").toString();
    }

    private static String tell(String what) throws Exception {
        server.getOutputStream().write((what + "\n").getBytes(StandardCharsets.UTF_8));
        server.getOutputStream().flush();
        return Making.given("the server's answer to " + what, said::readLine);
    }

    /** A group of its own, whose store is there. */
    private static String group() throws Exception {
        String name = "group" + ++groups;
        assertEquals("done", tell("schema " + name));
        return name;
    }

    private static byte[] filled(int with) {
        byte[] bytes = new byte[32];
        Arrays.fill(bytes, (byte) with);
        return bytes;
    }

    private static Store.Claim claim(int n) {
        return new Store.Claim(TokenKey.of(filled(n)), OWNER, Instant.now().plusSeconds(3000));
    }

    /** What a claim finds, once it is answered. */
    private static Store.Found put(PostgresStore store, int n) throws Exception {
        Store.Found[] found = {null};
        Making.until(() -> {
            try {
                found[0] = store.put(List.of(claim(n))).get(0);
                return true;
            } catch (PostgresStore.Fault why) {
                return false;
            }
        });
        return found[0];
    }

    /** Runs tests of go/claims/postgres over the client. Its process only hands calls to this one, and answers back. */
    private static void runs(String tests) throws Exception {
        Path out = room.resolve("out");
        ProcessBuilder words = new ProcessBuilder(binary(), "-test.v", "-test.timeout", "20m", "-test.run", "^(" + tests + ")$");
        Path folder = Files.createTempDirectory(room, "client");
        Path calls = folder.resolve("calls");
        Path answers = folder.resolve("answers");
        HeaderTest.ran("mkfifo", calls.toString(), answers.toString());
        Path client = Files.writeString(folder.resolve("client"), "cat '" + answers + "' & exec cat >'" + calls + "'\n");
        words.environment().put("SVID_STORE_CLIENT", "/bin/bash " + client);
        Thread serving = new Thread(() -> {
            try (InputStream in = Files.newInputStream(calls); OutputStream to = Files.newOutputStream(answers)) {
                StoreClient.serve(in, to);
            } catch (IOException why) {
                throw new UncheckedIOException(why);
            }
        });
        serving.setDaemon(true);
        serving.start();
        words.environment().put("TMPDIR", "/tmp");
        words.directory(GO.resolve("claims/postgres").toFile()).redirectErrorStream(true).redirectOutput(out.toFile());
        int status = words.start().waitFor();
        String all = Files.readString(out, StandardCharsets.ISO_8859_1);
        Matcher passed = Pattern.compile("^--- PASS: ", Pattern.MULTILINE).matcher(all);
        assertEquals(all.substring(Math.max(0, all.length() - 8000)), 0, status);
        assertEquals(tests.split("\\|").length, (int) passed.results().count());
        serving.join(1000 * Making.PATIENCE);
        assertFalse("the client has not ended", serving.isAlive());
    }

    @Test
    public void members() throws Exception {
        runs(MEMBER);
    }

    @Test
    public void aloneWithAServer() throws Exception {
        runs(ALONE);
    }

    @Test
    public void ends() throws Exception {
        runs(ENDS);
    }

    @Test
    public void losses() throws Exception {
        runs(LOSSES);
    }

    @Test
    public void calls() throws Exception {
        runs(CALLS);
    }

    @Test
    public void standbys() throws Exception {
        runs(STANDBYS);
    }

    @Test
    public void primaries() throws Exception {
        runs(PRIMARIES);
    }

    @Test
    public void eachTestOfAStoreInGoIsRun() throws Exception {
        Process listing = new ProcessBuilder(binary(), "-test.list", "^Test").start();
        List<String> listed = listing.inputReader(StandardCharsets.UTF_8).lines().toList();
        assertEquals(0, Making.ended(listing));
        TreeSet<String> run =
                new TreeSet<>(List.of(String.join("|", MEMBER, ALONE, ENDS, LOSSES, CALLS, STANDBYS, PRIMARIES).split("\\|")));
        run.addAll(List.of("TestAServerOfAnotherLanguage", "TestStandbys", "TestOptions", "TestOptionsOfTheEnvironment",
                "TestTheEpochsRowStays", "TestAFewMarksAreKept", "TestAnOldLookDoesNotCount", "TestLooksHavePauses",
                "TestTheLaterTimelineCounts", "TestTwoPrimariesAreNamed", "TestServersThatNobodyLooksAt", "TestEachServerIsLookedAtOnce",
                "TestAServerThatDoesNotSayWhatItIsLeavesNothing", "TestAContextThatEndsWithItsAnswer",
                "TestASessionThatCantBeginLeavesNothing", "TestEachCallThatIsUnderWayMayBeTheLast", "TestEachClaimThatWasThereIsKept",
                "TestConnectionsThatEndedTakeNoMemory", "TestALookIsAsOldAsItsBeginning", "TestALateAnswerAfterASuspension",
                "TestALookEndsWithItsStore", "TestAConnectionThatBeginsEndsWithItsContext"));
        assertEquals(new TreeSet<>(listed), run);
    }

    @Test
    public void oneValidatorAcceptsAToken() throws Exception {
        String group = group();
        try (PostgresStore one = PostgresStore.at(url).group(group).open();
                PostgresStore other = PostgresStore.at(url).group(group).open()) {
            Options options = Options.audiences("ledger").mode(Mode.STRICT).wait(Duration.ofSeconds(Making.PATIENCE));
            String token = Making.token();
            try (Validator first = Validator.open(options.store(one), Making.bundles());
                    Validator second = Validator.open(options.store(other), Making.bundles())) {
                first.check(token);
                assertEquals("Replayed", assertThrows(Refusal.class, () -> second.check(token)).reason().toString());
            }
        }
    }

    @Test
    public void aWithdrawalWinsOverAClaim() throws Exception {
        String group = group();
        try (PostgresStore one = PostgresStore.at(url).group(group).open();
                PostgresStore other = PostgresStore.at(url).group(group).open()) {
            assertEquals(OWNER, put(one, 1).owner());
            assertEquals(OWNER, put(other, 1).owner());
            one.withdraw(claim(1).key(), claim(1).expiry());
            assertEquals(Owner.WITHDRAWN, put(one, 1).owner());
            Making.until(() -> put(other, 1).owner().equals(Owner.WITHDRAWN));
            one.withdraw(claim(2).key(), claim(2).expiry());
            assertEquals(Owner.WITHDRAWN, put(other, 2).owner());
            try (PostgresStore late = PostgresStore.at(url).group(group).open()) { // (it has read all before it answers)
                assertEquals(Owner.WITHDRAWN, put(late, 1).owner());
            }
            Store.Withdrawals read = other.withdrawals("");
            assertEquals(List.of(claim(1).key(), claim(2).key()), read.these().stream().map(Store.Withdrawal::key).toList());
            assertEquals(new Store.Withdrawals(List.of(), read.last()), other.withdrawals(read.last()));
        }
    }

    /** Before its first answer a store has read all withdrawals, however many. It forgets them once their tokens are over. */
    @Test
    public void manyWithdrawals() throws Exception {
        String group = group();
        try (PostgresStore one = PostgresStore.at(url).group(group).open()) {
            put(one, 1);
            assertEquals("done",
                    tell("WITH t AS (UPDATE " + group + ".told SET last = 5000) INSERT INTO " + group + ".withdrawal "
                            + "SELECT n, decode(lpad(to_hex(n), 64, '0'), 'hex'), extract(epoch FROM now())::bigint + 3000 "
                            + "FROM generate_series(1, 5000) AS n"));
            one.withdraw(claim(1).key(), claim(1).expiry());
        }
        try (PostgresStore late = PostgresStore.at(url).group(group).open()) {
            assertEquals(Owner.WITHDRAWN, put(late, 1).owner());
            Instant over = Instant.now().minusSeconds(1000);
            late.withdraw(claim(1).key(), over); // (an earlier expiry takes nothing back)
            late.withdraw(claim(2).key(), over);
            Making.until(() -> known(late) == 5001);
            assertEquals(Owner.WITHDRAWN, put(late, 1).owner());
        }
    }

    /** How many withdrawals a store knows. */
    private static int known(PostgresStore store) {
        synchronized (store.withdrawn) {
            return store.withdrawn.size();
        }
    }

    @Test
    public void aCallEndsThoughTheServerDoesNotAnswer() throws Exception {
        try (PostgresStore store = PostgresStore.at(url).group(group()).wait(Duration.ofMillis(1500)).open()) {
            put(store, 1);
            tell("pause");
            try {
                List<ThrowingRunnable> calls = List.of(()
                                                               -> store.put(List.of(claim(2))),
                        ()
                                -> store.put(List.of()),
                        () -> store.withdraw(claim(3).key(), claim(3).expiry()), () -> store.withdrawals(""), store::state);
                List<CompletableFuture<PostgresStore.Fault>> faults =
                        calls.stream()
                                .map(it
                                        -> CompletableFuture.supplyAsync(
                                                () -> assertThrows(PostgresStore.Fault.class, it), work -> new Thread(work).start()))
                                .toList();
                for (CompletableFuture<PostgresStore.Fault> it : faults) {
                    it.get(Making.PATIENCE, TimeUnit.SECONDS);
                }
            } finally {
                tell("resume");
            }
            assertEquals(OWNER, put(store, 2).owner());
        }
    }

    /**
     * A commit waits for a standby for ever. Where its call was given up, a look ends its session, if not the first one then a later one.
     */
    @Test
    public void whatIsGivenUpEndsThoughALookFails() throws Exception {
        String sessions = " pg_stat_activity WHERE application_name = 'PostgreSQL JDBC Driver'";
        try (PostgresStore store = PostgresStore.at(url).group(group()).wait(Duration.ofMillis(1500)).open()) {
            put(store, 1);
            assertEquals("done", tell("CREATE TABLE earlier AS SELECT pid, backend_start FROM" + sessions));
            assertEquals("done", tell("ALTER SYSTEM SET synchronous_standby_names = 'nobody'"));
            assertEquals("done", tell("SELECT pg_reload_conf()"));
            tell("pause");
            try {
                assertThrows(PostgresStore.Fault.class, () -> store.put(List.of(claim(2))));
                assertThrows(PostgresStore.Fault.class, store::state);
            } finally {
                tell("resume");
            }
            String gone = "ASSERT NOT EXISTS (SELECT FROM" + sessions + " AND (pid, backend_start) IN (SELECT * FROM earlier))";
            Making.until(() -> tell("DO $$ BEGIN " + gone + "; END $$").equals("done"));
        } finally {
            assertEquals("done", tell("ALTER SYSTEM RESET synchronous_standby_names"));
            assertEquals("done", tell("SELECT pg_reload_conf()"));
        }
    }

    /** Where a connection is lost, so are all others that wait: not each of them costs a call. */
    @Test
    public void aServerThatIsStartedAgainCostsFewCalls() throws Exception {
        String group = group();
        try (PostgresStore store = PostgresStore.at(url).group(group).wait(Duration.ofSeconds(Making.PATIENCE)).open()) {
            put(store, 1);
            assertEquals("done", does(group, "PERFORM pg_sleep(1)"));
            assertEquals("done", tell("CREATE TRIGGER does AFTER INSERT ON " + group + ".claim EXECUTE FUNCTION " + group + ".does()"));
            AtomicInteger claims = new AtomicInteger(1);
            Making.until(() -> {
                List<MemberTest.Soon> calls =
                        Stream.generate(() -> new MemberTest.Soon(() -> store.put(List.of(claim(claims.incrementAndGet())))))
                                .limit(Statements.MOST_CALLS)
                                .toList();
                for (MemberTest.Soon it : calls) {
                    it.answer();
                }
                String many = "(SELECT count(*) FROM pg_stat_activity WHERE application_name = 'PostgreSQL JDBC Driver') >= 8";
                return tell("DO $$ BEGIN ASSERT " + many + "; END $$").equals("done");
            });
            assertEquals("done", tell("kill"));
            assertEquals("done", tell("start"));
            List<String> lost = new ArrayList<>(); // why calls fail
            Making.until(() -> {
                try {
                    store.put(List.of(claim(1)));
                    return true;
                } catch (PostgresStore.Fault why) {
                    lost.add(why.getMessage());
                    return false;
                }
            });
            lost.removeIf(it -> !it.contains("terminating connection") && !it.contains("I/O error"));
            assertTrue(lost.toString(), lost.size() < 3);
        }
    }

    @Test
    public void closingEndsCalls() throws Exception {
        PostgresStore store = PostgresStore.at(url).group(group()).wait(Duration.ofSeconds(Making.PATIENCE)).open();
        put(store, 1);
        Thread thread = new Thread(() -> {
            while (!faultOf(store).equals(Statements.IS_CLOSED)) {
                // (a busy machine may close it later than a connection that begins is given up)
            }
        });
        tell("pause");
        try {
            thread.start();
            Making.until(() -> thread.getState() != Thread.State.NEW);
            store.close();
            Making.joined(thread);
        } finally {
            tell("resume");
        }
        store.close();
        assertThrows(PostgresStore.Fault.class, () -> store.put(List.of(claim(1))));
    }

    @Test
    public void nothingOfAStoreStays() throws Exception {
        PostgresStore store = PostgresStore.at(url, url + "&ApplicationName=x").group(group()).open();
        put(store, 1);
        store.close();
        Making.until(() -> Thread.getAllStackTraces().keySet().stream().noneMatch(it -> it.getName().startsWith("svid-s")));
    }

    /** Each connection of the looks at several servers ends too. */
    @Test
    public void noConnectionOfAStoreStays() throws Exception {
        List<Connection> made = new CopyOnWriteArrayList<>();
        Driver its = DriverManager.getDriver(url);
        Driver driver = new org.postgresql.Driver() {
            @Override
            public Connection connect(String address, Properties with) throws SQLException {
                Connection one = super.connect(address, with);
                made.add(one);
                return one;
            }
        };
        DriverManager.deregisterDriver(its);
        DriverManager.registerDriver(driver);
        try {
            PostgresStore store = PostgresStore.at(url, url + "&ApplicationName=x").group(group()).open();
            put(store, 1);
            store.close();
            Making.until(() -> Thread.getAllStackTraces().keySet().stream().noneMatch(it -> it.getName().startsWith("svid-s")));
            assertTrue(made.size() > 2);
            for (Connection it : made) {
                assertTrue(it.isClosed());
            }
        } finally {
            DriverManager.deregisterDriver(driver);
            DriverManager.registerDriver(its);
        }
    }

    /** A store that was away, and is away again, is worth another line. */
    @Test
    public void eachOutageIsLogged() throws Exception {
        String group = group();
        try (PostgresStore store = PostgresStore.at(url).group(group).open()) {
            for (int n = 1; n < 3; n++) {
                int outage = n;
                put(store, n);
                Making.until(() -> { // (a look hears of it, and goes well)
                    withdrawn(group, 100 + outage);
                    return known(store) == outage;
                });
                assertEquals("done", tell("kill"));
                String away = "the group's store can't be looked at: ";
                Making.until(() -> logger.lines.stream().filter(it -> it.contains(away)).count() >= outage);
                assertEquals("done", tell("start"));
            }
        }
    }

    /** Another member withdraws the token of this claim. */
    private static void withdrawn(String group, int n) {
        try (PostgresMember other = member(group, url)) {
            other.withdraw(claim(n).key(), claim(n).expiry(), Times.up() + 1000);
        } catch (PostgresStore.Fault why) {
            // (it is tried again)
        }
    }

    @Test
    public void aStoreThatIsNotThereYet() throws Exception {
        try (PostgresStore store = PostgresStore.at(url).group("later").open()) {
            assertEquals(Statements.IS_MISSING, assertThrows(PostgresStore.Fault.class, () -> store.put(List.of())).getMessage());
            Making.until(() -> logger.has("the group's store can't be looked at: "));
            assertEquals("done", tell("schema later"));
            assertEquals(OWNER, put(store, 1).owner());
            assertEquals("done", tell("TRUNCATE later.claim"));
            Making.until(() -> logger.has("the epoch of the group's store has ended: "));
        }
    }

    /**
     * What a server says reaches whoever runs the service: a commit that did not wait for standbys is no error for it, and is none here.
     */
    @Test
    public void aServerThatWarnsOrFailsOrIsSlow() throws Exception {
        String group = group();
        try (PostgresStore store = PostgresStore.at(url).group(group).wait(Duration.ofSeconds(Making.PATIENCE)).open()) {
            put(store, 1);
            assertEquals("done", does(group, "RAISE WARNING 'what it says'"));
            assertEquals("done", tell("CREATE TRIGGER does AFTER INSERT ON " + group + ".claim EXECUTE FUNCTION " + group + ".does()"));
            Making.until(() -> faultOf(store).startsWith("the server warns: what it says"));
            assertEquals("done", does(group, "RAISE EXCEPTION 'what it says'"));
            Making.until(() -> faultOf(store).startsWith("ERROR: what it says"));
            // (a call may take longer than to connect)
            assertEquals("done", does(group, "PERFORM pg_sleep(" + (Statements.DIAL_WAIT / 1000 + 1) + ")"));
            assertEquals(OWNER, put(store, 2).owner());
        }
    }

    /** Lets the server do this with each claim that is put. */
    private static String does(String group, String what) throws Exception {
        return tell("CREATE OR REPLACE FUNCTION " + group + ".does() RETURNS trigger LANGUAGE plpgsql AS $$ BEGIN " + what
                + "; RETURN NULL; END $$");
    }

    private static String faultOf(PostgresStore store) {
        return assertThrows(PostgresStore.Fault.class, () -> store.put(List.of(claim(2)))).getMessage();
    }

    @Test
    public void termsAreThoseOfSvidd() throws Exception {
        String group = group();
        try (PostgresStore store =
                        PostgresStore.at(url).group(group).longest(Duration.ofSeconds(8000)).ahead(Duration.ofSeconds(10)).open()) {
            put(store, 1);
            assertEquals("done", tell("DO $$ BEGIN ASSERT (SELECT lasts FROM " + group + ".epoch) = 8020; END $$"));
        }
        try (PostgresStore store = PostgresStore.at(url).group(group).ahead(Duration.ofSeconds(61)).open()) {
            String why = assertThrows(PostgresStore.Fault.class, () -> store.put(List.of())).getMessage();
            assertTrue(why, why.contains("give all members the same clock tolerance"));
        }
    }

    @Test
    public void termsAreThoseOfAValidatorByDefault() {
        try (PostgresStore store = PostgresStore.at(url).open()) {
            assertEquals(2000, store.wait);
            assertEquals(store.wait, Options.audiences("ledger").waitMillis());
        }
    }

    private static PostgresMember member(String group, String... urls) {
        return new PostgresMember(List.of(urls), group, 1, new PostgresMember.Terms(3660, 120, 60));
    }

    /** Before it has looked at the store. */
    @Test
    public void theFirstCallOfAMemberMayBeAWithdrawal() throws Exception {
        String group = group();
        try (PostgresStore store = PostgresStore.at(url).group(group).open(); PostgresMember member = member(group, url)) {
            put(store, 2); // (members have compared by then)
            assertEquals(Owner.WITHDRAWN, member.withdraw(claim(1).key(), claim(1).expiry(), Times.up() + 1000 * Making.PATIENCE));
            Making.until(() -> put(store, 1).owner().equals(Owner.WITHDRAWN));
        }
    }

    /** The clocks of a machine that sleeps where a test wants that: the one that only goes ahead stands still then, and here always. */
    private static final class Suspended implements Supplier<Moment> {
        private final AtomicReference<Moment> now = new AtomicReference<>(Moment.now());
        private final Semaphore mayGoOn = new Semaphore(0, true);
        private final AtomicInteger looks = new AtomicInteger();
        private volatile boolean isHolding;

        @Override
        public Moment get() {
            Moment it = now.get();
            if (Thread.currentThread().getName().equals("svid-server")) {
                looks.incrementAndGet();
                if (isHolding) {
                    Making.await(mayGoOn);
                }
            }
            return it;
        }

        /** Lets so many milliseconds pass, and the machine sleep for some more. */
        void pass(long millis, long slept) {
            now.updateAndGet(it -> new Moment(it.up() + millis, it.wall().plusMillis(millis + slept)));
        }

        /** Lets a look at each of two servers begin, but not go on. */
        void hold() throws Exception {
            isHolding = true;
            Making.until(() -> mayGoOn.getQueueLength() == 2);
        }

        /** Lets each of these looks end, and the next one begin. */
        void look() throws Exception {
            int before = looks.get();
            mayGoOn.release(2);
            Making.until(() -> looks.get() == before + 2 && mayGoOn.getQueueLength() == 2);
        }

        void goOn() {
            isHolding = false;
            mayGoOn.release(1000);
        }
    }

    /** A member whose clocks these are, once it has put a claim. */
    private static PostgresMember running(Supplier<Moment> clock, String... urls) throws Exception {
        PostgresMember member = member(group(), urls);
        member.clock = clock;
        Making.until(() -> member.put(List.of(claim(1)), Times.up() + 1000 * Making.PATIENCE).get(0).found() != null);
        return member;
    }

    /** What a claim finds, or why it has no answer, or that it waits for looks at the servers. */
    private static String found(PostgresMember member, int n) throws Exception {
        AtomicReference<PostgresMember.Put> put = new AtomicReference<>();
        Thread call = new Thread(() -> put.set(member.put(List.of(claim(n)), Times.up() + 9000 * Making.PATIENCE).get(0)));
        call.setDaemon(true);
        call.start();
        Making.until(() -> !call.isAlive() || isWaiting(call));
        PostgresMember.Put it = put.get();
        return it == null ? "it waits" : it.fault() == null ? it.found().owner().toString() : it.fault().getMessage();
    }

    private static boolean isWaiting(Thread call) {
        return call.getState() == Thread.State.TIMED_WAITING
                && Stream.of(call.getStackTrace()).anyMatch(it -> it.getMethodName().equals("primary"));
    }

    /** The group may have another primary since then, which an older one does not know. */
    @Test
    public void whatWasSeenBeforeASuspensionDoesNotCount() throws Exception {
        Suspended clock = new Suspended();
        try (PostgresMember member = running(clock, url, url + "&ApplicationName=x")) {
            clock.hold();
            clock.look();
            clock.pass(0, Statements.MOST_AGE);
            assertEquals(OWNER.toString(), found(member, 2));
            clock.pass(0, 1);
            assertEquals("it waits", found(member, 3));
            clock.look(); // (these looks had begun before)
            assertEquals("it waits", found(member, 4));
            clock.look();
            assertEquals(OWNER.toString(), found(member, 5));
        } finally {
            clock.goOn();
        }
    }

    /** A server that did not answer a look answered nobody until then, unless the machine was suspended meanwhile. */
    @Test
    public void aLookThatFailsAfterASuspensionDoesNotCount() throws Exception {
        Suspended clock = new Suspended();
        Semaphore tried = new Semaphore(0);
        Semaphore mayFail = new Semaphore(1000);
        Driver driver = new org.postgresql.Driver() {
            @Override
            public Connection connect(String address, Properties with) throws SQLException {
                tried.release();
                Making.await(mayFail);
                throw new SQLException("nobody is there");
            }
        };
        DriverManager.registerDriver(driver); // (it is asked after PostgreSQL's, which finds no server)
        try (PostgresMember member = running(clock, url, "jdbc:postgresql://127.0.0.1:1/d")) {
            mayFail.drainPermits();
            Making.until(() -> mayFail.getQueueLength() == 1);
            tried.drainPermits();
            for (int slept : List.of(0, Statements.MOST_AGE, 0)) {
                clock.pass(Statements.LOOK_WAIT, slept);
                mayFail.release();
                Making.await(tried); // (the next look has begun)
                clock.pass(Statements.MOST_AGE - Statements.LOOK_WAIT + 1, 0);
                int looks = clock.looks.get();
                Making.until(() -> clock.looks.get() > looks + 1); // (of the other server)
                assertEquals(slept == 0 ? OWNER.toString() : "it waits", found(member, 2));
            }
        } finally {
            mayFail.release(1000);
            DriverManager.deregisterDriver(driver);
        }
    }

    /** That such a connection has ended does not say that its server answers nobody: it may have been started again. */
    @Test
    public void aConnectionFromBeforeASuspensionSaysNothing() throws Exception {
        Suspended clock = new Suspended();
        List<Connection> made = new CopyOnWriteArrayList<>();
        Driver its = DriverManager.getDriver(url);
        Driver driver = new org.postgresql.Driver() {
            @Override
            public Connection connect(String address, Properties with) throws SQLException {
                Connection one = super.connect(address, with);
                if (Thread.currentThread().getName().equals("svid-server")) {
                    made.add(one);
                }
                return one;
            }
        };
        DriverManager.deregisterDriver(its);
        DriverManager.registerDriver(driver);
        try (PostgresMember member = running(clock, url, url + "&ApplicationName=x")) {
            clock.hold();
            clock.pass(0, Statements.MOST_AGE + 1);
            clock.look();
            assertEquals(2, made.size());
            for (Connection it : made) {
                it.close();
            }
            clock.look();
            assertEquals(OWNER.toString(), found(member, 2));
        } finally {
            clock.goOn();
            DriverManager.deregisterDriver(driver);
            DriverManager.registerDriver(its);
        }
    }

    /** The answer of a call during which the machine was suspended counts if the server is still there. */
    @Test
    public void anAnswerFromBeforeASuspension() throws Exception {
        for (int slept : List.of(Statements.SOON, Statements.SOON + 1)) {
            Suspended clock = new Suspended();
            AtomicInteger readings = new AtomicInteger(1000);
            Supplier<Moment> its = () -> {
                if (readings.incrementAndGet() == 2) { // (the server has answered)
                    clock.pass(0, slept);
                    assertEquals("done", told("kill"));
                }
                return clock.get();
            };
            try (PostgresMember member = running(its, url)) {
                readings.set(0);
                PostgresMember.Put put = member.put(List.of(claim(2)), Times.up() + 1000 * Making.PATIENCE).get(0);
                assertTrue(readings.get() >= 2);
                assertEquals(slept == Statements.SOON, put.fault() == null);
            } finally {
                assertEquals("done", tell("start"));
            }
        }
    }

    private static String told(String what) {
        try {
            return tell(what);
        } catch (Exception why) {
            throw new AssertionError(why);
        }
    }

    /** Also not where another connection to it is there yet: another server may be the primary by now. */
    @Test
    public void aServerThatNoLookReachesIsNotThePrimary() throws Exception {
        List<Connection> made = new CopyOnWriteArrayList<>();
        AtomicBoolean isAway = new AtomicBoolean();
        Driver its = DriverManager.getDriver(url);
        Driver driver = new org.postgresql.Driver() {
            @Override
            public Connection connect(String address, Properties with) throws SQLException {
                boolean isLook = Thread.currentThread().getName().equals("svid-server");
                if (isLook && isAway.get()) {
                    throw new SQLException("it is away");
                }
                Connection one = super.connect(address, with);
                if (isLook) {
                    made.add(one);
                }
                return one;
            }
        };
        DriverManager.deregisterDriver(its);
        DriverManager.registerDriver(driver);
        try (PostgresMember member = running(new Suspended(), url, url + "&ApplicationName=x")) {
            isAway.set(true);
            for (Connection it : made) {
                it.close();
            }
            Making.until(() -> found(member, 2).equals("address 1: it is away; address 2: it is away"));
            isAway.set(false);
            Making.until(() -> found(member, 2).equals(OWNER.toString()));
        } finally {
            DriverManager.deregisterDriver(driver);
            DriverManager.registerDriver(its);
        }
    }

    /** A program may end that closes no store. */
    @Test
    public void noThreadOfAStoreHoldsUpTheEndOfAProgram() throws Exception {
        try (PostgresMember member = running(new Suspended(), url, url + "&ApplicationName=x");
                PostgresStore store = PostgresStore.at(url).group("none").open()) {
            List<Thread> all = Thread.getAllStackTraces().keySet().stream().filter(it -> it.getName().startsWith("svid-s")).toList();
            assertTrue(all.stream().map(Thread::getName).toList().containsAll(List.of("svid-server", "svid-store")));
            assertTrue(all.stream().allMatch(Thread::isDaemon));
        }
    }

    /** However long calls may take, a look at a server that hangs ends soon, and the next one begins: other members wait for it. */
    @Test
    public void looksHaveAnEnd() throws Exception {
        Map<String, Integer> waits = new ConcurrentHashMap<>(); // the longest one of each thread
        Driver its = DriverManager.getDriver(url);
        Driver driver = new org.postgresql.Driver() {
            @Override
            public Connection connect(String address, Properties with) throws SQLException {
                Connection one = super.connect(address, with);
                InvocationHandler told = (proxy, method, words) -> {
                    if (method.getName().equals("setNetworkTimeout")) {
                        waits.merge(Thread.currentThread().getName(), (int) words[1], Math::max);
                    }
                    try {
                        return method.invoke(one, words);
                    } catch (InvocationTargetException why) {
                        throw why.getCause();
                    }
                };
                return (Connection) Proxy.newProxyInstance(getClass().getClassLoader(), new Class<?>[] {Connection.class}, told);
            }
        };
        DriverManager.deregisterDriver(its);
        DriverManager.registerDriver(driver);
        try (PostgresStore store = PostgresStore.at(url, url + "&ApplicationName=x").group(group()).wait(Duration.ofHours(1)).open()) {
            put(store, 1);
            String own = Thread.currentThread().getName();
            assertTrue(waits.toString(), waits.remove(own) > 1_000_000);
            Making.until(() -> {
                try {
                    return store.state() != null;
                } catch (PostgresStore.Fault why) {
                    return false;
                }
            });
            Making.until(() -> waits.size() > 2);
            assertTrue(waits.toString(), waits.get("svid-server") <= 2000);
            assertTrue(waits.toString(), waits.get("svid-store") <= 1500);
            assertTrue(waits.toString(), waits.get(own) <= 1500);
        } finally {
            DriverManager.deregisterDriver(driver);
            DriverManager.registerDriver(its);
        }
    }

    /** Servers that nobody can look at are waited for in time, and however often they are asked for, each has one thread that looks. */
    @Test
    public void serversThatNobodyCanLookAt() throws Exception {
        CountDownLatch ends = new CountDownLatch(1);
        Driver driver = new org.postgresql.Driver() {
            @Override
            public Connection connect(String address, Properties with) {
                Making.await(ends);
                return null;
            }
        };
        DriverManager.registerDriver(driver); // (it is asked after PostgreSQL's, which finds no server)
        List<String> why = new ArrayList<>();
        try (PostgresMember member = member("svid", "jdbc:postgresql://127.0.0.1:1/d", "jdbc:postgresql://127.0.0.1:2/d")) {
            Thread thread = new Thread(() -> {
                for (int n = 0; n < 3; n++) {
                    why.add(member.put(List.of(claim(1)), Times.up() + 50).get(0).fault().getMessage());
                }
            });
            thread.setDaemon(true);
            thread.start();
            thread.join(1000 * Making.PATIENCE);
            assertEquals(List.of(Statements.IS_SILENT, Statements.IS_SILENT, Statements.IS_SILENT), why);
            assertEquals(2, Thread.getAllStackTraces().keySet().stream().filter(it -> it.getName().equals("svid-server")).count());
        } finally {
            ends.countDown();
            DriverManager.deregisterDriver(driver);
        }
    }

    @Test
    public void whatIsNoStore() {
        for (PostgresStore.Settings it : List.of(PostgresStore.at(), PostgresStore.at("redis://u:secret@h"),
                     PostgresStore.at("jdbc:postgresql://secret,h2/d"), PostgresStore.at("jdbc:postgresql://u:secret@h/d"),
                     PostgresStore.at("jdbc:postgresql://secret@h/d"), PostgresStore.at("jdbc:postgresql://h:port/d?password=secret"),
                     PostgresStore.at("jdbc:postgresql://h:99999/d?password=secret"),
                     PostgresStore.at("jdbc:postgresql://h?password=secret"), PostgresStore.at("jdbc:postgresql://h/d/e?password=secret"),
                     PostgresStore.at("jdbc:postgresql://h/%zz?password=secret"),
                     PostgresStore.at("jdbc:postgresql://h/d?password=secret%"), PostgresStore.at(url).group("a\"b"),
                     PostgresStore.at(url).group("pg_x"), PostgresStore.at(url).group("x".repeat(64)), PostgresStore.at(url).replicas(0),
                     PostgresStore.at(url).wait(Duration.ZERO))) {
            assertFalse(assertThrows(IllegalArgumentException.class, it::open).getMessage().contains("secret"));
        }
    }

    /** Nobody says what is in an address that the driver does not take, and its user has one line about it. */
    @Test
    public void anAddressThatNoDriverTakesIsNotSaid() throws Exception {
        Said all = new Said("org.postgresql");
        all.before();
        String it = "jdbc:postgresql://h/d?password=secret&port=none";
        try (PostgresStore store = PostgresStore.at(it).open()) {
            StringWriter thrown = new StringWriter();
            assertThrows(PostgresStore.Fault.class, () -> store.put(List.of())).printStackTrace(new PrintWriter(thrown));
            Making.until(() -> logger.has("no driver takes address 1: "));
            assertFalse(thrown + " " + logger.lines + all.lines, (thrown + " " + logger.lines + all.lines).contains("secret"));
        } finally {
            all.after();
        }
        for (String taken : List.of("jdbc:postgresql:d", "jdbc:postgresql:d?user=u&password=a%25%26", "jdbc:postgresql://[::1]:5432/d",
                     "jdbc:postgresql:///d", "jdbc:postgresql://h/",
                     "jdbc:postgresql://127.0.0.1:65000/%C3%A4?password="
                             + "x".repeat(9000))) {
            PostgresStore.at(taken).open().close();
        }
    }

    /** An error of the driver, as where there is no memory, does not end the looks at a store. */
    @Test
    public void anErrorOfTheDriverEndsNoLook() throws Exception {
        Map<String, Integer> calls = new ConcurrentHashMap<>();
        Driver driver = new org.postgresql.Driver() {
            @Override
            public Connection connect(String address, Properties with) {
                calls.merge(address, 1, Integer::sum);
                throw new OutOfMemoryError("there is none");
            }
        };
        DriverManager.registerDriver(driver); // (it is asked after PostgreSQL's, which finds no server)
        String[] urls = {"jdbc:postgresql://127.0.0.1:1/d", "jdbc:postgresql://127.0.0.1:2/d", "jdbc:postgresql://127.0.0.1:3/d"};
        try (PostgresStore one = PostgresStore.at(urls[0]).open(); PostgresStore two = PostgresStore.at(urls[1], urls[2]).open()) {
            Making.until(() -> Stream.of(urls).allMatch(it -> calls.getOrDefault(it, 0) > 2));
        } finally {
            DriverManager.deregisterDriver(driver);
        }
    }
}
