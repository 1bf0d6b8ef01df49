package svid;

import java.io.IOException;
import java.nio.file.Path;
import java.time.Clock;
import java.time.Instant;
import java.util.ArrayList;
import java.util.Arrays;
import java.util.HashMap;
import java.util.List;
import java.util.Map;
import java.util.concurrent.CompletableFuture;
import java.util.concurrent.TimeUnit;

/**
 * The claims of a validator that is alone, in a folder: mode BOUND without a store.
 *
 * <p>The folder is a state folder, of the form of that of svidd in this mode: an entry is two uses. Each has a half of the owner as its
 * validator ID, and that of the second half is a withdrawal. A folder that is removed, or put back from an older copy, has lost claims, and
 * nothing tells that.
 */
final class LocalStore implements Store {
    private static final int HALF = Owner.LEN / 2;
    private static final long MINUTE = 60;
    private static final long STEP_BACK = Statements.STEP_BACK / 1000;
    /** How many entries one write of a snapshot has. */
    private static final int PIECE = 1000;
    // These keys stand for what the store says of itself. No token has one of them, as they are no digest that anybody knows a text of.
    /** Its use tells a time that the clock had. */
    private static final byte[] TIME = new byte[TokenKey.LEN];
    /** Its use expires when the store's deafness ends. */
    private static final byte[] DEAF = new byte[TokenKey.LEN];

    static {
        DEAF[TokenKey.LEN - 1] = 1;
    }

    private final Journal journal;
    private final Clock clock;
    private final long wait;
    private final long lasts;
    private final long margin;
    private Map<TokenKey, Entry> entries = new HashMap<>();
    private long minute = -1; // of the last time that what is over was dropped
    private long latest; // the greatest time that the clock had
    private long deaf;

    /** Opens the folder, and reads it. */
    LocalStore(Path folder, Options options) throws IOException {
        clock = options.clock();
        wait = options.waitMillis();
        lasts = Times.sum(options.longest(), Times.sum(options.ahead(), options.ahead()));
        margin = Times.sum(later(options.ahead(), Statements.LEAST_MARGIN / 1000), STEP_BACK);
        journal = new Journal(folder, new Disk());
        try {
            journal.load(this::take);
        } catch (Throwable why) {
            journal.close();
            throw why;
        }
    }

    /** An entry is kept once the disk has it. */
    private static final class Entry {
        private final byte[] owner;
        private final long at;
        private final long until;
        private boolean isKept;

        private Entry(byte[] owner, long at, long until, boolean isKept) {
            this.owner = owner;
            this.at = at;
            this.until = until;
            this.isKept = isKept;
        }

        private boolean isOver(long now) {
            return Long.compareUnsigned(until, now) <= 0;
        }

        /** The uses that tell it. */
        private List<Twice.Entry> uses(TokenKey key) {
            return List.of(new Twice.Entry(false, until, at, key.bytes(), Arrays.copyOf(owner, HALF)),
                    new Twice.Entry(true, until, at, key.bytes(), Arrays.copyOfRange(owner, HALF, Owner.LEN)));
        }
    }

    @Override
    public List<Found> put(List<Claim> claims) throws Exception {
        List<Twice.Entry> told = new ArrayList<>();
        List<Found> found = new ArrayList<>();
        List<Entry> lacking = new ArrayList<>();
        long now = Times.now(clock);
        boolean isDue;
        synchronized (this) {
            look(now, told);
            for (Claim it : claims) {
                Entry entry = entry(it, now);
                found.add(new Found(Owner.of(entry.owner), Times.instantOf(now), Times.instantOf(deaf)));
                if (!entry.isKept) {
                    told.addAll(entry.uses(it.key()));
                    lacking.add(entry);
                }
            }
            isDue = now / MINUTE != minute;
        }
        if (isDue) {
            told.add(time(now));
        }
        if (!told.isEmpty()) {
            append(Twice.written(told));
        }
        synchronized (this) {
            lacking.forEach(it -> it.isKept = true);
            if (isDue) {
                minute = now / MINUTE;
                entries.values().removeIf(it -> it.isOver(now));
            }
        }
        if (journal.wantsSnapshot()) {
            journal.snapshotSoon(this::parts);
        }
        return found;
    }

    /** What was claimed before, the record of the one validator knows to be withdrawn. */
    @Override
    public void withdraw(TokenKey key, Instant expiry) throws Exception {
        put(List.of(new Claim(key, Owner.WITHDRAWN, expiry)));
    }

    /** Lets the thread that writes end. Waits for nothing. */
    void drop() {
        journal.drop();
    }

    /** Waits for what is under way, and lets go of the folder. */
    void close() {
        journal.close();
    }

    private void append(byte[] messages) throws Exception {
        CompletableFuture<Void> kept = new CompletableFuture<>();
        journal.keep(messages, why -> {
            if (why == null) {
                kept.complete(null);
            } else {
                kept.completeExceptionally(why);
            }
        });
        kept.get(wait, TimeUnit.MILLISECONDS);
    }

    /** Takes messages of the folder. */
    private void take(byte[] messages) {
        for (Twice.Entry it : Twice.entries(messages)) {
            latest = later(latest, it.at());
            if (Arrays.equals(it.key(), DEAF)) {
                deaf = later(deaf, it.exp());
            } else if (!Arrays.equals(it.key(), TIME)) {
                Entry entry = entry(TokenKey.of(it.key()), it.at(), new Entry(new byte[Owner.LEN], it.at(), it.exp(), true));
                System.arraycopy(it.validatorId(), 0, entry.owner, it.isWithdrawn() ? HALF : 0, HALF);
            }
        }
    }

    /** Looks at the clock. One that went back by more than it may ends the epoch: what was dropped may be live. */
    private void look(long now, List<Twice.Entry> told) {
        if (now + STEP_BACK < latest) {
            deaf = Library.svid_claim_deaf(latest, lasts, deaf);
            latest = now;
            told.add(new Twice.Entry(false, deaf, now, DEAF, new byte[HALF]));
        }
        latest = later(latest, now);
    }

    private Entry entry(Claim claim, long now) {
        long until = Library.svid_claim_until(Times.expiryOf(claim.expiry()), margin);
        Entry one = new Entry(claim.owner().bytes(), now, until, Long.compareUnsigned(until, now) <= 0);
        // (no message tells a use that is over; nobody accepts the token, so nothing need stay)
        return entry(claim.key(), now, one);
    }

    /** What stands under a key, or else this one. What is over by then leaves its key to the next one. */
    private Entry entry(TokenKey key, long now, Entry one) {
        return entries.compute(key, (same, is) -> is == null || is.isOver(now) ? one : is);
    }

    /** Tells a time, for as long as an entry may live that was dropped by then. */
    private Twice.Entry time(long now) {
        return new Twice.Entry(false, Times.sum(Times.sum(now + 1, lasts), margin), now, TIME, new byte[HALF]);
    }

    /** All that the folder is to have. */
    private void parts(Journal.Sink sink) throws IOException {
        List<Map.Entry<TokenKey, Entry>> these;
        List<Twice.Entry> some = new ArrayList<>();
        synchronized (this) {
            these = List.copyOf(entries.entrySet());
            some.add(time(latest));
            if (Long.compareUnsigned(deaf, latest) > 0) {
                some.add(new Twice.Entry(false, deaf, latest, DEAF, new byte[HALF]));
            }
        }
        for (int from = 0; from < these.size(); from += PIECE) {
            these.subList(from, Math.min(from + PIECE, these.size())).forEach(it -> some.addAll(it.getValue().uses(it.getKey())));
            sink.take(Twice.written(some));
            some.clear();
        }
        if (!some.isEmpty()) {
            sink.take(Twice.written(some));
        }
    }

    private static long later(long one, long other) {
        return Long.compareUnsigned(one, other) > 0 ? one : other;
    }
}
