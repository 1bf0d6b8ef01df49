package svid;

import java.nio.ByteBuffer;
import java.sql.Connection;
import java.sql.DriverManager;
import java.sql.PreparedStatement;
import java.sql.ResultSet;
import java.sql.SQLException;
import java.sql.SQLWarning;
import java.time.Instant;
import java.util.ArrayDeque;
import java.util.ArrayList;
import java.util.Arrays;
import java.util.Collections;
import java.util.Deque;
import java.util.HashMap;
import java.util.HashSet;
import java.util.List;
import java.util.Map;
import java.util.Properties;
import java.util.Set;
import java.util.UUID;
import java.util.concurrent.CountDownLatch;
import java.util.concurrent.Semaphore;
import java.util.concurrent.TimeUnit;
import java.util.concurrent.locks.ReentrantLock;
import java.util.function.Supplier;
import java.util.regex.Pattern;
import svid.PostgresStore.Fault;
import svid.Store.Claim;
import svid.Store.Found;
import svid.Store.Withdrawal;
import svid.Store.Withdrawals;

/**
 * A member of a group's store in PostgreSQL. Each call ends soon after a moment that its caller says, by the clock of {@link Times#up}. It
 * is to look at the store once a second.
 */
final class PostgresMember implements AutoCloseable {
    private static final Pattern NAME = Pattern.compile("(?!pg_)[A-Za-z0-9_-]{1,63}");
    private static final Pattern ADDRESS = Pattern.compile(
            "jdbc:postgresql:(?://(?:\\[[^\\]/?]*\\]|[^:/?@\\[\\]]*)(?::[0-9]{1,4}|:[1-6][0-9]{4})?/)?(?:[^/?%]++|%[0-9A-Fa-f]{2})*+"
            + "(?:\\?(?:[^%]++|%[0-9A-Fa-f]{2})*+)?");
    private static final int HEAD = 33;
    private static final int CELL = 33;
    private static final int WITHDRAWAL = 40;
    private static final int LONGEST_ERROR = 1024;

    /** What says how long ago something was. */
    volatile Supplier<Moment> clock = Moment::now; // (a test gives another one)

    private final String group;
    private final int replicas;
    private final Terms terms;
    private final Servers servers;
    private final CountDownLatch closed = new CountDownLatch(1);
    private final ReentrantLock turn = new ReentrantLock(); // who looks at the store has it
    private final Semaphore calls = new Semaphore(Statements.MOST_CALLS);
    // (the lock of this object guards what follows)
    private final Set<Session> open = new HashSet<>();
    private final Deque<Session> idle = new ArrayDeque<>();
    private List<String> left = new ArrayList<>(); // sessions that may do yet what was given up
    private List<Claim> marks = List.of();
    private String epoch; // null before the first look
    private String unfit; // why nothing is accepted

    /**
     * What the members agree on, in seconds: the longest time from a claim to an expiry, the margin after that, and of it the step back.
     */
    record Terms(long lasts, long margin, long back) {}

    /** What a look at the store saw. For `pause` milliseconds no claim has an answer. */
    record Sight(String epoch, long deaf, long time, long pause, boolean due) {}

    /** What is answered to a claim, or why it has no answer. */
    record Put(Found found, Fault fault) {}

    /** What a call like put answers. */
    private record Answer(int status, long time, long deaf, String epoch, byte[] cells) {
        /** Whether the call stored the claim with a number, where it is there. */
        boolean isStored(int n) {
            return cells.length == 0 || cells[n * CELL] == Statements.STORED;
        }
    }

    /** What a server is: `line` is the timeline of a primary, and `system` is what servers have alike that came of one. */
    private record Role(boolean primary, String system, String started, String line) {}

    /** What the server answered instead of rows. */
    private static final class Answered extends Exception {
        private static final long serialVersionUID = 1;

        private final String name;

        Answered(String name, String message, Throwable why) {
            super(message, why);
            this.name = name;
        }
    }

    PostgresMember(List<String> urls, String group, int replicas, Terms terms) {
        if (!NAME.matcher(group).matches()) {
            throw new IllegalArgumentException(
                    "the group is letters, digits, - and _ alone, at most 63 of them, and does not begin with pg_");
        }
        if (urls.isEmpty() || replicas < 1) {
            throw new IllegalArgumentException("give the address of each server, and at least 1 of replicas");
        }
        this.group = group;
        this.replicas = replicas;
        this.terms = terms;
        this.servers = new Servers(urls);
    }

    @Override
    public void close() {
        closed.countDown();
        synchronized (this) {
            open.forEach(Session::close);
            open.clear();
            idle.clear();
        }
        servers.wake();
    }

    boolean isClosed() {
        return closed.getCount() == 0;
    }

    /** Waits for so many milliseconds, or until it is closed. */
    void await(long millis) {
        try {
            closed.await(millis, TimeUnit.MILLISECONDS);
        } catch (InterruptedException why) {
            close(); // (nobody but this class has the thread)
        }
    }

    /** The epoch that this member knows. */
    synchronized String epoch() {
        return epoch;
    }

    private static long left(long end) {
        return Math.max(1, end - Times.up());
    }

    /** Looks at the store, one thread at a time, and removes what is over. */
    Sight look(long given) throws Fault {
        // (who hangs here must not hinder the next look)
        long end = epoch() == null ? given : Math.min(given, Times.up() + Statements.STATE_WAIT);
        try {
            if (!turn.tryLock(left(end), TimeUnit.MILLISECONDS)) {
                throw new Fault(Statements.IS_SILENT);
            }
        } catch (InterruptedException why) {
            throw interrupted();
        }
        try {
            endLeft(end);
            Sight sight = see(end);
            long now = Times.up();
            long half = now + Math.min(1000, (end - now) / 2);
            for (boolean due = sight.due; due && Times.up() < half;) {
                due = (long) only(call(Statements.EXPIRE, false, end), 1)[0] == Statements.PIECES;
            }
            return sight;
        } finally {
            turn.unlock();
        }
    }

    private static Fault interrupted() {
        Thread.currentThread().interrupt();
        return new Fault("the thread was interrupted");
    }

    /** Asks what the store is, and keeps what of that matters to a claim. */
    private Sight see(long end) throws Fault {
        String known;
        List<Claim> asked;
        synchronized (this) {
            known = epoch;
            asked = marks;
        }
        Object[] row = only(call(Statements.STATE, false, end, known, keysOf(asked), ownersOf(asked), endsOf(asked), replicas, terms.margin,
                                    terms.back),
                8);
        String now = (String) row[0];
        long time = (long) row[2];
        long margin = (long) row[5];
        synchronized (this) {
            unfit = (String) row[7];
            if (unfit != null) {
                throw new Fault(unfit);
            }
            if (!now.equals(epoch)) {
                epoch = now;
                marks = List.of();
            }
            marks = marks.stream().filter(it -> Times.sum(expiryOf(it.expiry()), margin) >= time).toList();
        }
        if ((long) row[4] < terms.lasts) {
            call(Statements.AGREE, false, end, terms.lasts);
        }
        return new Sight(now, (long) row[1], time, (long) row[3], (long) row[6] == 1);
    }

    /** Ends what was given up: a call that waits for a standby does so for ever. */
    private void endLeft(long end) throws Fault {
        List<String> sessions;
        synchronized (this) {
            sessions = left;
            left = new ArrayList<>();
        }
        if (sessions.isEmpty()) {
            return;
        }
        boolean isDone = false;
        try {
            call(Statements.TERMINATE, false, end, String.join(",", sessions));
            isDone = true;
        } finally {
            if (!isDone) {
                synchronized (this) {
                    left.addAll(sessions);
                }
            }
        }
    }

    /** Puts claims. Each has an answer of its own. */
    List<Put> put(List<Claim> claims, long end) {
        if (claims.isEmpty()) {
            return List.of();
        }
        Answer answer;
        try {
            answer = claims.size() == 1 ? decide(Statements.PUT_ONE, 1, end, claims.get(0).key().bytes(), claims.get(0).owner().bytes(),
                             expiryOf(claims.get(0).expiry()))
                                        : decide(Statements.PUT, claims.size(), end, keysOf(claims), ownersOf(claims), endsOf(claims));
        } catch (Fault why) {
            if (!why.getMessage().equals(Statements.IS_HELD) || claims.size() == 1) {
                return Collections.nCopies(claims.size(), new Put(null, why));
            }
            int half = claims.size() / 2; // (one of them may hold up all)
            List<Put> both = new ArrayList<>(put(claims.subList(0, half), end));
            both.addAll(put(claims.subList(half, claims.size()), end));
            return both;
        }
        List<Put> all = new ArrayList<>(claims.size());
        List<Claim> earlier = new ArrayList<>();
        Claim stored = null;
        for (int n = 0; n < claims.size(); n++) {
            Claim claim = claims.get(n);
            Put one = found(answer, claim.owner(), n);
            all.add(one);
            boolean isMine = one.fault == null && one.found.owner().equals(claim.owner());
            if (isMine && !answer.isStored(n)) {
                earlier.add(claim);
            } else if (isMine && (stored == null || stored.expiry().isBefore(claim.expiry()))) {
                stored = claim;
            }
        }
        keep(stored, earlier, answer.epoch);
        return all;
    }

    /** Withdraws a token, and gives the owner that is there. */
    Owner withdraw(TokenKey key, Instant expiry, long end) throws Fault {
        Answer answer = decide(Statements.WITHDRAW, 1, end, key.bytes(), expiryOf(expiry));
        Put one = found(answer, Owner.WITHDRAWN, 0);
        if (one.fault != null) {
            throw one.fault;
        }
        if (answer.isStored(0)) { // (a withdrawal that was there may end earlier)
            keep(new Claim(key, Owner.WITHDRAWN, expiry), List.of(), answer.epoch);
        }
        return one.found.owner();
    }

    Withdrawals withdrawals(String after, long end) throws Fault {
        Object[] row = only(call(Statements.WITHDRAWALS, false, end, after.replace('\0', ' ')), 2);
        ByteBuffer bytes = ByteBuffer.wrap((byte[]) row[1]);
        if (bytes.remaining() % WITHDRAWAL != 0) {
            throw new Fault(Statements.IS_ANSWER);
        }
        List<Withdrawal> these = new ArrayList<>();
        while (bytes.hasRemaining()) {
            byte[] key = new byte[TokenKey.LEN];
            bytes.get(key);
            these.add(new Withdrawal(TokenKey.of(key), Times.instantOf(bytes.getLong())));
        }
        return new Withdrawals(these, (String) row[0]);
    }

    /** Keeps claims in mind, one that a call stored, or null, and those that were there: each look asks whether they are there. */
    private synchronized void keep(Claim stored, List<Claim> earlier, String of) {
        if (!of.equals(epoch)) {
            return;
        }
        for (Claim one : earlier) {
            marks = markedLate(marks, one);
        }
        if (stored != null) {
            marks = marked(marks, stored);
        }
    }

    /** Marks with one more, which an earlier call had stored, whose answer may not have come. Its order at the server is not known. */
    static List<Claim> markedLate(List<Claim> marks, Claim one) {
        if (marks.stream().anyMatch(it -> it.key().equals(one.key()))) {
            return marks;
        }
        List<Claim> all = new ArrayList<>(marks);
        int older = Math.max(0, all.size() - Statements.RECENT_MARKS);
        if (older == Statements.MOST_MARKS - Statements.RECENT_MARKS) {
            older--;
            all.remove(older);
        }
        int at = 0;
        while (at < older && !all.get(at).expiry().isBefore(one.expiry())) {
            at++;
        }
        all.add(at, one);
        return all;
    }

    /**
     * Marks with one more: the last ones that a call stored, and before them those that outlive all that came later. What a store loses at
     * its end is the last claim, or some of the last. So one of the marks is lost too, while it has not expired.
     */
    static List<Claim> marked(List<Claim> marks, Claim one) {
        List<Claim> all = new ArrayList<>(marks);
        all.add(one);
        int split = Math.max(0, all.size() - Statements.RECENT_MARKS);
        Deque<Claim> older = new ArrayDeque<>(all.subList(0, split));
        Claim newest = older.pollLast();
        if (newest != null) {
            while (!older.isEmpty() && !older.peekLast().expiry().isAfter(newest.expiry())) {
                older.removeLast();
            }
            if (older.size() == Statements.MOST_MARKS - Statements.RECENT_MARKS) {
                older.removeLast(); // (the one before it in time says nearly as much)
            }
            older.addLast(newest);
        }
        List<Claim> made = new ArrayList<>(older);
        made.addAll(all.subList(split, all.size()));
        return made;
    }

    /** Calls a function that answers as put does. Where the answer does not count, looks at the store, so that the next one may. */
    private Answer decide(String text, int count, long end, Object... values) throws Fault {
        if (epoch() == null) {
            look(end);
        }
        String known;
        synchronized (this) {
            if (unfit != null) {
                throw new Fault(unfit);
            }
            known = epoch;
        }
        Answer answer;
        try {
            answer = answerOf(only(called(text, end, values), 1)[0], count);
        } catch (Fault why) {
            if (why.getMessage().equals(Statements.IS_MISSING) || why.getMessage().equals(Statements.IS_ALONE)) {
                look(end);
            }
            throw why;
        }
        boolean isSame = answer.epoch.equals(known);
        if (answer.status == 0 && isSame) {
            return answer;
        }
        if (answer.status != Statements.QUARANTINE || !isSame) {
            look(end);
        }
        String why = Statements.OF_STATUS.getOrDefault(answer.status, Statements.IS_ANSWER);
        throw new Fault(answer.status == 0 ? Statements.IS_EPOCH : why);
    }

    private List<Object[]> called(String text, long end, Object... values) throws Fault {
        try {
            if (!calls.tryAcquire(left(end), TimeUnit.MILLISECONDS)) {
                throw new Fault(Statements.IS_SILENT);
            }
        } catch (InterruptedException why) {
            throw interrupted();
        }
        try {
            return call(text, true, end, values);
        } finally {
            calls.release();
        }
    }

    /** Makes a call on a connection to the primary, whose answer counts. `confirm`: other servers must have what it commits. */
    private List<Object[]> call(String text, boolean confirm, long end, Object... values) throws Fault {
        Session one = taken(end);
        List<Object[]> rows;
        boolean isWhole = false;
        Moment begun = clock.get();
        try {
            rows = one.call(text, end, values);
            if (confirm && replicas > 1 && (long) only(one.call(Statements.KEPT, end, replicas), 1)[0] != 1) {
                throw new Fault(Statements.IS_ALONE);
            }
            if (confirm && begun.isOld(Statements.SOON, clock.get())) {
                one.role(end); // (it may be gone, and who was away would see that later than its answer)
            }
            isWhole = true;
        } catch (Answered why) {
            isWhole = why.name.equals(Statements.IS_HELD);
            forgetUnless(isWhole, one, false);
            throw faultOf(why, text, end);
        } catch (Fault why) {
            forgetUnless(false, one, true);
            throw isClosed() ? new Fault(Statements.IS_CLOSED) : why;
        } finally {
            if (isWhole) {
                give(one);
            }
        }
        servers.counts(one.at);
        return rows;
    }

    private Fault faultOf(Answered why, String text, long end) {
        if (!why.name.equals(Statements.IS_RIGHTS) || text.equals(Statements.LACKING)) {
            return new Fault(why.name.isEmpty() ? why.getMessage() : why.name, why);
        }
        String more = "";
        try {
            Object found = only(call(Statements.LACKING, false, end, group), 1)[0];
            more = found == null ? "" : ": " + found;
        } catch (Fault unknown) {
            why.addSuppressed(unknown);
        }
        return new Fault(why.name + more, why);
    }

    private Session taken(long end) throws Fault {
        while (true) {
            Session one;
            synchronized (this) {
                if (isClosed()) {
                    throw new Fault(Statements.IS_CLOSED);
                }
                one = idle.pollLast();
            }
            if (one == null) {
                return connected(end);
            }
            try {
                servers.counts(one.at);
                return one;
            } catch (Fault why) {
                forget(one);
            }
        }
    }

    private Session connected(long end) throws Fault {
        Server at = servers.primary(end);
        Session one = new Session(at, end);
        boolean isGood = false;
        try {
            if (!one.role(end).primary) {
                throw new Fault(Statements.IS_STANDBY);
            }
            Object[] row = only(one.call(Statements.SESSION, end), 6);
            one.session = (String) row[row.length - 1];
            synchronized (this) {
                if (isClosed()) {
                    throw new Fault(Statements.IS_CLOSED);
                }
                open.add(one);
            }
            isGood = true;
            return one;
        } catch (Answered why) {
            throw new Fault("address " + at.number + ": " + why.getMessage(), why);
        } finally {
            if (!isGood) {
                one.close();
            }
        }
    }

    private void give(Session one) {
        synchronized (this) {
            if (!isClosed() && idle.size() <= Statements.MOST_CALLS) {
                idle.addLast(one);
                return;
            }
        }
        forget(one);
    }

    /** Ends a connection, with all that wait, unless nothing has happened to it. */
    private void forgetUnless(boolean isWhole, Session one, boolean mayGoOn) {
        if (isWhole) {
            return;
        }
        List<Session> ended;
        synchronized (this) {
            ended = new ArrayList<>(idle);
            idle.clear();
            if (mayGoOn && left.size() < Statements.MOST_LEFT) {
                left.add(one.session);
            }
        }
        forget(one);
        ended.forEach(this::forget);
    }

    private void forget(Session one) {
        one.close();
        synchronized (this) {
            open.remove(one);
        }
    }

    /** The only row, of so many columns. */
    private static Object[] only(List<Object[]> rows, int columns) throws Fault {
        if (rows.size() != 1 || rows.get(0).length != columns) {
            throw new Fault(Statements.IS_ANSWER);
        }
        return rows.get(0);
    }

    private static Answer answerOf(Object found, int count) throws Fault {
        if (!(found instanceof byte[] bytes) || bytes.length != HEAD && bytes.length != HEAD + count * CELL) {
            throw new Fault(Statements.IS_ANSWER);
        }
        ByteBuffer read = ByteBuffer.wrap(bytes);
        int status = read.get();
        long time = read.getLong();
        long deaf = read.getLong();
        String epoch = new UUID(read.getLong(), read.getLong()).toString();
        return new Answer(status, time, deaf, epoch, Arrays.copyOfRange(bytes, HEAD, bytes.length));
    }

    /** What is answered to one of the claims. */
    private static Put found(Answer answer, Owner own, int n) {
        Owner owner = own; // (without cells each is there by this call)
        if (answer.cells.length > 0) {
            int at = n * CELL;
            int what = answer.cells[at];
            if (what != 1 && what != Statements.STORED) {
                return new Put(null, new Fault(Statements.OF_CELL.getOrDefault(what, Statements.IS_ANSWER)));
            }
            owner = Owner.of(Arrays.copyOfRange(answer.cells, at + 1, at + CELL));
        }
        return new Put(new Found(owner, Times.instantOf(answer.time), Times.instantOf(answer.deaf)), null);
    }

    private static long expiryOf(Instant expiry) {
        long seconds = Times.expiryOf(expiry);
        return Long.compareUnsigned(seconds, Statements.MOST_EXPIRY) < 0 ? seconds : Statements.MOST_EXPIRY;
    }

    private static byte[][] keysOf(List<Claim> claims) {
        return claims.stream().map(it -> it.key().bytes()).toArray(byte[][] ::new);
    }

    private static byte[][] ownersOf(List<Claim> claims) {
        return claims.stream().map(it -> it.owner().bytes()).toArray(byte[][] ::new);
    }

    private static Long[] endsOf(List<Claim> claims) {
        return claims.stream().map(it -> expiryOf(it.expiry())).toArray(Long[] ::new);
    }

    private static String brief(String text) {
        String said = String.valueOf(text);
        return said.length() <= LONGEST_ERROR ? said : said.substring(0, LONGEST_ERROR) + ".. (" + said.length() + " characters)";
    }

    /** One of the addresses, and what the last look at it saw where there are several. */
    private static final class Server {
        private final int number;
        private final String url;
        private Role role;
        private String fault = "";
        private Moment at; // null before the first look

        Server(int number, String url) {
            this.number = number;
            this.url = url;
            // (an error has no part of the address, which may be secret)
            if (!url.startsWith("jdbc:postgresql:")) {
                throw new IllegalArgumentException("address " + number + " is not like jdbc:postgresql://HOST/DATABASE");
            }
            String[] parts = url.split("//", 2);
            if (parts.length == 2 && parts[1].split("[/?]", 2)[0].contains(",")) {
                throw new IllegalArgumentException("address " + number + " names several servers: give each its own");
            }
            // (the driver would log what it can't read)
            if (!ADDRESS.matcher(url).matches()) {
                throw new IllegalArgumentException("address " + number
                        + " is not like jdbc:postgresql://HOST:PORT/DATABASE?user=USER&password=PASSWORD,"
                        + " where %25 stands for each % of a text");
            }
        }
    }

    /** A connection, for one thread at a time. It may be closed at any time. */
    private final class Session {
        private final Server at;
        private final Connection connection;
        private final Map<String, PreparedStatement> prepared = new HashMap<>();
        private String session;

        Session(Server at, long end) throws Fault {
            this.at = at;
            long wait = Math.min(Statements.DIAL_WAIT, left(end));
            String seconds = Long.toString((wait + 999) / 1000); // (JDBC counts seconds here)
            Properties with = new Properties();
            for (String name : List.of("connectTimeout", "loginTimeout", "socketTimeout")) {
                with.setProperty(name, seconds);
            }
            with.setProperty("sslmode", "require");
            with.setProperty("prepareThreshold", "1");
            try {
                connection = DriverManager.getConnection(at.url, with);
            } catch (SQLException why) {
                if (String.valueOf(why.getMessage()).contains(at.url)) { // (which may be secret)
                    throw new Fault("no driver takes address " + at.number
                            + ": put PostgreSQL's on the class path, and write the address as it wants");
                }
                throw new Fault("address " + at.number + ": " + brief(why.getMessage()), why);
            }
        }

        void close() {
            try {
                connection.abort(Runnable::run);
            } catch (SQLException why) {
                // (it is closed)
            }
        }

        Role role(long end) throws Fault, Answered {
            Object[] row = only(call(Statements.ROLE, end), 4);
            return new Role((long) row[0] == 1, (String) row[1], (String) row[2], (String) row[3]);
        }

        /** The rows that a statement answers, which the connection prepares once. */
        List<Object[]> call(String text, long end, Object... values) throws Fault, Answered {
            if (Times.up() >= end) {
                throw new Fault(Statements.IS_SILENT);
            }
            try {
                connection.setNetworkTimeout(Runnable::run, (int) Math.min(Integer.MAX_VALUE, left(end)));
                PreparedStatement statement = prepared.get(text);
                if (statement == null) {
                    statement = connection.prepareStatement(text.replace("{S}", '"' + group + '"'));
                    prepared.put(text, statement);
                }
                statement.clearWarnings();
                for (int n = 0; n < values.length; n++) {
                    set(statement, n + 1, values[n]);
                }
                List<Object[]> rows = rowsOf(statement);
                SQLWarning warned = statement.getWarnings();
                if (warned != null) { // (a commit that did not wait for standbys is no error for the server)
                    throw new Fault("the server warns: " + brief(warned.getMessage()));
                }
                return rows;
            } catch (SQLException why) {
                String state = String.valueOf(why.getSQLState());
                if (isClosed()) {
                    throw new Fault(Statements.IS_CLOSED, why);
                }
                if (state.equals("null") || state.startsWith("08")) { // (the connection is lost, or was not used)
                    throw new Fault(Times.up() >= end ? Statements.IS_SILENT : brief(why.getMessage()), why);
                }
                throw new Answered(Statements.OF_CODES.getOrDefault(state, ""), brief(why.getMessage()), why);
            }
        }

        private void set(PreparedStatement to, int at, Object value) throws SQLException {
            if (value instanceof byte[][] all) {
                to.setArray(at, connection.createArrayOf("bytea", all));
            } else if (value instanceof Long[] all) {
                to.setArray(at, connection.createArrayOf("int8", all));
            } else {
                to.setObject(at, value);
            }
        }

        private static List<Object[]> rowsOf(PreparedStatement statement) throws SQLException {
            List<Object[]> rows = new ArrayList<>();
            try (ResultSet found = statement.executeQuery()) {
                int columns = found.getMetaData().getColumnCount();
                while (found.next()) {
                    Object[] row = new Object[columns];
                    for (int n = 0; n < columns; n++) {
                        row[n] = found.getObject(n + 1);
                    }
                    rows.add(row);
                }
            }
            return rows;
        }
    }

    /**
     * All addresses. Where there are several, each one is looked at all the time: so a member does not go on with a primary whose place
     * another server has taken.
     */
    private final class Servers {
        private final List<Server> all = new ArrayList<>();
        private boolean isWatching;

        Servers(List<String> urls) {
            for (String url : urls) {
                all.add(new Server(all.size() + 1, url));
            }
        }

        synchronized void wake() {
            notifyAll();
        }

        /** The primary, once each server was looked at. */
        synchronized Server primary(long end) throws Fault {
            if (all.size() == 1) {
                return all.get(0);
            }
            if (!isWatching) {
                isWatching = true;
                for (Server one : all) {
                    Thread thread = new Thread(() -> watch(one), "svid-server");
                    thread.setDaemon(true);
                    thread.start();
                }
            }
            while (!isLookedAt()) {
                if (isClosed()) {
                    throw new Fault(Statements.IS_CLOSED);
                }
                if (Times.up() >= end) {
                    throw new Fault(Statements.IS_SILENT);
                }
                try {
                    wait(left(end));
                } catch (InterruptedException why) {
                    throw interrupted();
                }
            }
            return first();
        }

        /** Throws if what a server answers does not count. */
        synchronized void counts(Server at) throws Fault {
            if (all.size() == 1) {
                return;
            }
            if (!isLookedAt()) {
                throw new Fault("not all servers were looked at");
            }
            Server first = first();
            if (first != at && !first.role.equals(at.role)) {
                throw new Fault(Statements.IS_STALE);
            }
        }

        private boolean isLookedAt() {
            Moment now = clock.get();
            return all.stream().allMatch(it -> it.at != null && !it.at.isOld(Statements.MOST_AGE, now));
        }

        /** The primary by the last looks. */
        private Server first() throws Fault {
            Server first = null;
            List<String> faults = new ArrayList<>();
            for (Server one : all) {
                if (one.role == null || !one.role.primary) {
                    String name = "address " + one.number + ": ";
                    String fault = one.role == null ? one.fault : Statements.IS_STANDBY;
                    faults.add(fault.startsWith(name) ? fault : name + fault);
                } else if (first == null) {
                    first = one;
                } else if (!first.role.equals(one.role)) { // (one server may have two addresses)
                    first = later(first, one);
                }
            }
            if (first == null) {
                throw new Fault(String.join("; ", faults));
            }
            return first;
        }

        /** Of two primaries the one that was promoted later. */
        private Server later(Server first, Server one) throws Fault {
            String both = "addresses " + first.number + " and " + one.number + " are ";
            if (!first.role.system.equals(one.role.system)) {
                throw new Fault(both + "primaries of two database clusters: name the servers of one");
            }
            int order = first.role.line.compareTo(one.role.line);
            if (order == 0) {
                throw new Fault(both + "both primaries: stop the wrong one");
            }
            return order < 0 ? one : first;
        }

        /** Looks at a server until the end. */
        private void watch(Server at) {
            Session session = null;
            while (!isClosed()) {
                long next = Times.up() + Statements.LOOK_EVERY;
                Moment begun = clock.get();
                if (session != null && at.at.isOld(Statements.MOST_AGE, begun)) {
                    session.close(); // (that it has ended meanwhile would say nothing about the server of now)
                    session = null;
                }
                session = look(at, session, begun);
                await(Math.max(0, next - Times.up()));
            }
            if (session != null) {
                session.close();
            }
            wake();
        }

        private Session look(Server at, Session known, Moment begun) {
            long end = Times.up() + Statements.LOOK_WAIT;
            Session session = known;
            Role role = null;
            String fault = "";
            Moment when = begun;
            try {
                if (session == null) {
                    session = new Session(at, end);
                }
                role = session.role(end);
            } catch (Throwable why) {
                fault = brief(why.getMessage());
                if (session != null) {
                    session.close();
                }
                session = null;
                when = begun.unlessSuspended(clock.get()); // (it answered nobody until now)
            }
            synchronized (this) {
                at.role = role;
                at.fault = fault;
                at.at = when;
                notifyAll();
            }
            return session;
        }
    }
}
