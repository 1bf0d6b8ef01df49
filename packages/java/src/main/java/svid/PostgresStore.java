package svid;

import java.lang.ref.WeakReference;
import java.time.Duration;
import java.time.Instant;
import java.util.ArrayList;
import java.util.HashMap;
import java.util.List;
import java.util.Map;
import java.util.Objects;

/**
 * The store of a group in PostgreSQL 15 or later, over plain JDBC with the driver of PostgreSQL. It is a member of the same store as svidd
 * with {@code --store postgres://..}: services with this package and sidecars accept a token once together. An administrator makes the
 * store by what {@code svidd schema} prints.
 *
 * <p>It looks at the store once a second, by a thread of its own, until {@link #close}. Any number of threads may call it.
 */
public final class PostgresStore implements Store, AutoCloseable {
    private final PostgresMember member;
    final long wait;
    private final long margin;
    /** When each token expires that is known to be withdrawn. Its lock guards {@code position} and {@code isHeard} too. */
    final Map<TokenKey, Long> withdrawn = new HashMap<>();
    private String position = ""; // up to which withdrawals are read
    private boolean isHeard; // they were read to the end once

    /** The store has no answer. Nobody knows what it has: the same call may be made again. */
    public static final class Fault extends Exception {
        private static final long serialVersionUID = 1;

        Fault(String message) {
            super(message);
        }

        Fault(String message, Throwable why) {
            super(message, why);
        }
    }

    /**
     * What a store is at the moment.
     *
     * @param epoch names one history of the store in which nothing was lost
     * @param deaf as in {@link Found}
     * @param time the store's time
     */
    public record StoreState(String epoch, Instant deaf, Instant time) {}

    /** What a store is given. Each method changes it. */
    public static final class Settings {
        private final List<String> servers;
        private String group = "svid";
        private long longest = 3600;
        private long ahead = 30;
        private int replicas = 1;
        private Duration wait = Duration.ofSeconds(2);

        private Settings(List<String> servers) {
            this.servers = servers;
        }

        /** The group's name, which is that of the schema. Without it, {@code svid}. */
        public Settings group(String name) {
            group = Objects.requireNonNull(name);
            return this;
        }

        /** The {@link Options#longest} of the validators. Without it, an hour. */
        public Settings longest(Duration span) {
            longest = Options.secondsOf(span);
            return this;
        }

        /** The {@link Options#ahead} of the validators. Without it, 30 seconds. */
        public Settings ahead(Duration span) {
            ahead = Options.secondsOf(span);
            return this;
        }

        /** How many servers must have a claim before it counts. Without it, 1. */
        public Settings replicas(int count) {
            replicas = count;
            return this;
        }

        /** How long a call may take. Without it, 2 seconds. */
        public Settings wait(Duration span) {
            wait = Objects.requireNonNull(span);
            return this;
        }

        /**
         * Begins, and connects in the background.
         *
         * @throws IllegalArgumentException if something of it can't be used
         */
        public PostgresStore open() {
            return new PostgresStore(this);
        }
    }

    /**
     * A store at the addresses of its servers, each like {@code jdbc:postgresql://HOST/DATABASE?user=USER&sslmode=verify-full}. With
     * several, the one that is the primary is used. Without {@code sslmode} the server must speak TLS, and nobody checks its certificate.
     */
    public static Settings at(String... servers) {
        return new Settings(List.of(servers));
    }

    private PostgresStore(Settings from) {
        if (from.wait.isNegative() || from.wait.isZero() || from.wait.compareTo(Duration.ofDays(1)) > 0) {
            throw new IllegalArgumentException("a call may take some time, and at most a day");
        }
        long back = Statements.STEP_BACK / 1000;
        long lasts = Library.svid_claim_until(from.longest, Times.sum(from.ahead, from.ahead));
        wait = from.wait.toMillis();
        margin = Math.max(from.ahead, Statements.LEAST_MARGIN / 1000) + back;
        member = new PostgresMember(from.servers, from.group, from.replicas, new PostgresMember.Terms(lasts, margin, back));
        WeakReference<PostgresStore> self = new WeakReference<>(this);
        PostgresMember of = member;
        Thread thread = new Thread(() -> watch(self, of), "svid-store");
        thread.setDaemon(true);
        thread.start();
    }

    /** Ends all connections, and the calls that are under way. */
    @Override
    public void close() {
        member.close();
    }

    /**
     * {@inheritDoc}
     *
     * <p>A token that was withdrawn after it was claimed has the owner {@link Owner#WITHDRAWN} within a second.
     *
     * @throws Fault if one of the claims has no answer
     */
    @Override
    public List<Found> put(List<Claim> claims) throws Fault {
        long end = Times.up() + wait;
        if (member.epoch() == null || !isHeard() || claims.isEmpty()) {
            if (look(end).pause() > 0) {
                throw new Fault(Statements.IS_RUN);
            }
            hear(end);
        }
        List<Found> found = new ArrayList<>(claims.size());
        for (PostgresMember.Put it : member.put(claims, end)) {
            if (it.fault() != null) {
                throw it.fault();
            }
            found.add(it.found());
        }
        synchronized (withdrawn) {
            for (int n = 0; n < found.size(); n++) {
                if (withdrawn.containsKey(claims.get(n).key())) {
                    found.set(n, new Found(Owner.WITHDRAWN, found.get(n).time(), found.get(n).deaf()));
                }
            }
        }
        return found;
    }

    /**
     * {@inheritDoc}
     *
     * @throws Fault if the store may not have it
     */
    @Override
    public void withdraw(TokenKey key, Instant expiry) throws Fault {
        member.withdraw(key, expiry, Times.up() + wait);
        synchronized (withdrawn) {
            keep(key, expiry);
        }
    }

    /**
     * {@inheritDoc}
     *
     * @throws Fault if there is no answer
     */
    @Override
    public Withdrawals withdrawals(String after) throws Fault {
        return member.withdrawals(after, Times.up() + wait);
    }

    /**
     * Looks at the store, and says what it is.
     *
     * @throws Fault if there is no answer
     */
    public StoreState state() throws Fault {
        PostgresMember.Sight is = look(Times.up() + wait);
        return new StoreState(is.epoch(), Times.instantOf(is.deaf()), Times.instantOf(is.time()));
    }

    /** Looks at the store, and warns where its epoch has ended. */
    private PostgresMember.Sight look(long end) throws Fault {
        String before = member.epoch();
        PostgresMember.Sight is = member.look(end);
        if (before != null && !before.equals(is.epoch())) {
            Log.warn("the epoch of the group's store has ended: tokens that expire by " + is.deaf() + " may have been claimed before");
        }
        return is;
    }

    private boolean isHeard() {
        synchronized (withdrawn) {
            return isHeard;
        }
    }

    /** A token is withdrawn. (Whoever withdraws it again, with an earlier expiry, does not take that back.) */
    private void keep(TokenKey key, Instant expiry) {
        withdrawn.merge(key, Times.expiryOf(expiry), (before, now) -> Long.compareUnsigned(before, now) < 0 ? now : before);
    }

    /** Reads the withdrawals that have come. */
    private void hear(long end) throws Fault {
        while (true) {
            String after;
            synchronized (withdrawn) {
                after = position;
            }
            Withdrawals read = member.withdrawals(after, end);
            synchronized (withdrawn) {
                read.these().forEach(it -> keep(it.key(), it.expiry()));
                position = read.last();
                if (read.last().equals(after)) {
                    isHeard = true;
                    return;
                }
            }
        }
    }

    /** Looks at a store once a second until it is closed or dropped. */
    private static void watch(WeakReference<PostgresStore> of, PostgresMember member) {
        boolean isAway = false;
        for (PostgresStore store = of.get(); store != null && !member.isClosed(); store = of.get()) {
            long begun = Times.up();
            try {
                long now = store.look(begun + Statements.STATE_WAIT).time();
                store.hear(Times.up() + Statements.HEAR_WAIT);
                synchronized (store.withdrawn) {
                    long margin = store.margin;
                    store.withdrawn.values().removeIf(it -> Long.compareUnsigned(Times.sum(it, margin), now) < 0);
                }
                isAway = false;
            } catch (Throwable why) {
                if (!isAway && !member.isClosed()) {
                    Log.warn("the group's store can't be looked at: " + why.getMessage());
                }
                isAway = true;
            }
            store = null; // (nothing holds it meanwhile)
            member.await(Math.max(0, begun + Statements.STATE_EVERY - Times.up()));
        }
        member.close();
    }
}
