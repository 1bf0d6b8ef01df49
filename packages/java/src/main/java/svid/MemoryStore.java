package svid;

import java.time.Clock;
import java.time.Duration;
import java.time.Instant;
import java.util.ArrayList;
import java.util.HashMap;
import java.util.List;
import java.util.Map;
import java.util.Objects;

/** A {@link Store} in the memory of one process, for tests. */
public final class MemoryStore implements Store {
    private final Clock clock;
    private final long margin;
    private final long lasts;
    private final Map<TokenKey, Entry> entries = new HashMap<>();
    private final List<Withdrawal> withdrawals = new ArrayList<>();
    private int epoch;
    private long deaf;

    /** An owner, and until when it stays. */
    private record Entry(Owner owner, long until) {}

    /** An empty store by the system's clock. Its entries stay for a minute after their tokens have expired, and tokens live an hour. */
    public MemoryStore() {
        this(Clock.systemUTC(), Duration.ofMinutes(1), Duration.ofHours(1));
    }

    /**
     * An empty store.
     *
     * @param clock gives its time
     * @param margin how long an entry stays after its token has expired
     * @param lasts how long a token may live that is claimed
     */
    public MemoryStore(Clock clock, Duration margin, Duration lasts) {
        this.clock = Objects.requireNonNull(clock);
        this.margin = Options.secondsOf(margin);
        this.lasts = Options.secondsOf(lasts);
    }

    @Override
    public synchronized List<Found> put(List<Claim> claims) {
        long now = Times.now(clock);
        List<Found> found = new ArrayList<>(claims.size());
        for (Claim it : claims) {
            found.add(new Found(put(it, now), Times.instantOf(now), Times.instantOf(deaf)));
        }
        return found;
    }

    private Owner put(Claim claim, long now) {
        Entry entry = entries.get(claim.key());
        if (entry == null || Long.compareUnsigned(entry.until, now) <= 0) {
            entry = new Entry(claim.owner(), until(claim.expiry()));
            entries.put(claim.key(), entry);
        }
        return entry.owner;
    }

    @Override
    public synchronized void withdraw(TokenKey key, Instant expiry) {
        Entry earlier = entries.get(key);
        long until = until(expiry);
        boolean isLonger = earlier != null && Long.compareUnsigned(earlier.until, until) > 0;
        entries.put(key, new Entry(Owner.WITHDRAWN, isLonger ? earlier.until : until));
        withdrawals.add(new Withdrawal(key, expiry));
    }

    @Override
    public synchronized Withdrawals withdrawals(String after) {
        String of = epoch + "-";
        int from = after.startsWith(of) ? Integer.parseInt(after.substring(of.length())) : 0;
        return new Withdrawals(List.copyOf(withdrawals.subList(from, withdrawals.size())), of + withdrawals.size());
    }

    /** Loses all entries, as a server does that crashes. */
    public synchronized void lose() {
        entries.clear();
        withdrawals.clear();
        epoch++;
        deaf = Library.svid_claim_deaf(Times.now(clock), lasts, deaf);
    }

    private long until(Instant expiry) {
        return Library.svid_claim_until(Times.expiryOf(expiry), margin);
    }
}
