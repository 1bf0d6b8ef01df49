package svid;

import com.sun.jna.Memory;
import java.time.Instant;
import java.util.ArrayList;
import java.util.List;
import java.util.concurrent.CountDownLatch;
import java.util.concurrent.TimeUnit;
import java.util.function.Consumer;

/**
 * The claims of a validator on their way to the store. Threads of their own put them, many in a call. The library says when a call goes
 * out.
 */
final class Claims {
    static final String THREADS = "svid-claims";

    /** How many claims share a call. */
    private static final int MOST = 256;

    /** What follows is guarded by it. A thread that has it may wait for the lock of the validator. */
    final Object gate = new Object();
    final List<Member.Deed> waiting = new ArrayList<>();
    List<Later> later = new ArrayList<>(); // (a test gives another one)
    final Memory pacing = Library.allocated(Library.Pacing.SIZE);

    private final Store store;
    private final Member member;
    private final CountDownLatch announced = new CountDownLatch(1);
    private int idle; // threads that wait for claims
    private boolean asks = true; // whether the store is to say that it is there
    private long silent = Library.NONE; // since when the store does not answer
    private boolean isClosing;
    // (these are read without the gate too: a thread that has the validator's lock must not wait for it)
    private volatile boolean isThere;
    private volatile Instant deaf = Instant.EPOCH;
    private volatile Throwable why;

    /** Claims without an answer, and when they are put again. */
    record Later(long when, List<Member.Deed> deeds) {}

    /** A call of the store. */
    private record Putting(List<Member.Deed> deeds, List<Store.Claim> claims) {}

    Claims(Store store, Member member) {
        this.store = store;
        this.member = member;
        pacing.setLong(Library.Pacing.CALLS, 0);
        pacing.setLong(Library.Pacing.AT, 0);
        pacing.setLong(Library.Pacing.PAUSE, Library.FIRST_PAUSE);
    }

    /** Begins to put claims, and waits until the store answers, but at most so many milliseconds. */
    void begin(long wait) {
        grow();
        try {
            announced.await(wait, TimeUnit.MILLISECONDS);
        } catch (InterruptedException why) {
            Thread.currentThread().interrupt();
        }
    }

    /** Puts a claim, and again until the store answers or the claim is not to go out. */
    void add(Member.Deed deed) {
        synchronized (gate) {
            waiting.add(deed);
            gate.notifyAll();
        }
    }

    /** Withdraws a token in the background, and tells why that failed, or null. */
    void withdraw(TokenKey key, Instant expiry, Consumer<Throwable> told) {
        started("svid-withdraw", () -> {
            Throwable failed = null;
            try {
                store.withdraw(key, expiry);
            } catch (Throwable thrown) {
                failed = thrown;
            }
            try {
                told.accept(failed);
            } catch (SvidException ended) {
                // (the validator is closed, and whoever waited knows that)
            }
        });
    }

    /** Whether the store has answered once. */
    boolean isThere() {
        return isThere;
    }

    /** Whether the store has not answered for longer than so many milliseconds. If so, it is asked again. */
    boolean isAway(long wait) {
        synchronized (gate) {
            if (silent == Library.NONE) {
                return false;
            }
            asks = true;
            gate.notifyAll();
            return Times.up() - silent > wait;
        }
    }

    /** Tokens that expire by then, in seconds, may have been claimed before the store lost entries. */
    long deaf() {
        return Times.expiryOf(deaf);
    }

    /** What the store threw, as long as it does not answer, or null. */
    Throwable why() {
        return why;
    }

    /** Lets the threads end. Waits for nothing, since the store may not answer. */
    void close() {
        synchronized (gate) {
            isClosing = true;
            gate.notifyAll();
        }
        announced.countDown();
    }

    private void grow() {
        started(THREADS, this::work);
    }

    private static void started(String name, Runnable work) {
        Thread thread = new Thread(null, work, name, 0, false); // (what a store leaves in its thread is none of the others')
        thread.setDaemon(true);
        thread.start();
    }

    /** Puts claims until it is closed. One thread more than calls are under way does so. */
    private void work() {
        boolean isOpen = true;
        while (isOpen) {
            try {
                isOpen = put(next());
            } catch (Throwable none) {
                // (there was no memory: whoever waits gets its answer in time)
            }
        }
    }

    /** Makes a call. False at the end. */
    private boolean put(Putting these) {
        if (these == null) {
            return false;
        }
        List<Store.Found> found;
        try {
            // (a store that sorted the list in place would give each answer to another request)
            found = List.copyOf(store.put(List.copyOf(these.claims)));
            if (found.size() != these.claims.size()) {
                throw new IllegalStateException(these.claims.size() + " claims have " + found.size() + " answers");
            }
        } catch (Throwable thrown) {
            failed(these.deeds, thrown);
            return true;
        }
        answered(these.deeds, found);
        return true;
    }

    /** The next call, once it is to go out. Null at the end. */
    private Putting next() {
        synchronized (gate) {
            idle++;
            try {
                while (!isClosing) {
                    Putting these = taken();
                    if (these != null) {
                        return these;
                    }
                    pause();
                }
                return null;
            } finally {
                idle--;
            }
        }
    }

    /** The claims that go out now. Null if no call is to go out. */
    private Putting taken() {
        long moment = Times.up();
        later.removeIf(it -> {
            boolean isDue = it.when <= moment;
            if (isDue) {
                waiting.addAll(it.deeds);
                asks |= !isThere;
            }
            return isDue;
        });
        if (Library.svid_pacing_may_send(pacing, moment, waiting.size() + (asks ? 1 : 0)) == 0) {
            return null;
        }
        Putting these = new Putting(new ArrayList<>(), new ArrayList<>());
        List<Member.Deed> first = waiting.subList(0, Math.min(MOST, waiting.size()));
        for (Member.Deed it : first) {
            Store.Claim claim = member.send(it);
            if (claim != null) {
                these.deeds.add(it);
                these.claims.add(claim);
            }
        }
        first.clear();
        if (these.claims.isEmpty() && !asks) {
            return null;
        }
        if (idle == 1) {
            try {
                grow();
            } catch (OutOfMemoryError none) {
                // (there is no other thread, so the next call waits for this one)
            }
        }
        // (from here to its answer nothing fails, or the call would count as under way for ever)
        asks = false;
        Library.svid_pacing_sent(pacing, moment);
        if (silent == Library.NONE) {
            silent = moment;
        }
        return these;
    }

    /** Waits until there may be something to do. */
    private void pause() {
        long until = waiting.isEmpty() && !asks ? Library.NONE : Library.svid_pacing_due(pacing);
        for (Later it : later) {
            until = Long.compareUnsigned(it.when, until) < 0 ? it.when : until;
        }
        try {
            if (until == Library.NONE) {
                gate.wait();
            } else if (until > Times.up()) {
                gate.wait(until - Times.up() + 1);
            }
        } catch (InterruptedException interrupted) {
            // (a store may have left that behind)
        }
    }

    /** The store has answered a call. */
    void answered(List<Member.Deed> deeds, List<Store.Found> found) {
        synchronized (gate) {
            Library.svid_pacing_answered(pacing);
            silent = Library.NONE;
            why = null;
            isThere = true;
            for (Store.Found it : found) {
                deaf = it.deaf().isAfter(deaf) ? it.deaf() : deaf;
            }
        }
        if (announced.getCount() > 0) {
            try {
                member.reached();
            } catch (SvidException.Closed ended) {
                return;
            }
            announced.countDown();
        }
        for (int number = 0; number < found.size(); number++) {
            member.found(deeds.get(number).number(), found.get(number));
        }
    }

    /** A call has ended without an answer: its claims are put again. */
    private void failed(List<Member.Deed> deeds, Throwable thrown) {
        boolean isFirst;
        synchronized (gate) {
            long pause = Library.svid_pacing_unanswered(pacing);
            later.add(new Later(Times.up() + pause, deeds));
            isFirst = why == null;
            why = thrown;
        }
        if (isFirst) {
            Log.warn("the group's store does not answer", thrown);
        }
    }
}
