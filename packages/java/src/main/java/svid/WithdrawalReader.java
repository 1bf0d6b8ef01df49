package svid;

import java.util.concurrent.CountDownLatch;
import java.util.concurrent.TimeUnit;

/** Hears of the withdrawals of a store, once a second, in a thread of its own. */
final class WithdrawalReader {
    static final String THREAD = "svid-withdrawals";

    /** How many milliseconds lie between two looks. */
    volatile long every = 1000; // (a test gives another one)

    private final Store store;
    private final Member member;
    private final Object gate = new Object();
    private boolean isClosing; // the gate guards it, and the next four
    private long begun; // how many calls of the store have begun
    private long over; // the last one that has read all, or failed
    private long wanted; // the last one that a request waits for
    private Moment began; // when the last one did
    private volatile Moment looked; // when the last one did that is over
    private volatile long silent = Library.NONE; // since when the store does not answer
    private String said; // what the last fault said, until a page is heard
    private volatile boolean isWhole; // they were read to the end once
    private final CountDownLatch announced = new CountDownLatch(1); // the member knows that

    WithdrawalReader(Store store, Member member) {
        this.store = store;
        this.member = member;
    }

    void begin() {
        Thread thread = new Thread(this::work, THREAD);
        thread.setDaemon(true);
        thread.start();
    }

    /** Waits until all withdrawals were read once, but at most so many milliseconds. */
    void await(long wait) {
        try {
            announced.await(wait, TimeUnit.MILLISECONDS);
        } catch (InterruptedException why) {
            Thread.currentThread().interrupt();
        }
    }

    /** Lets the thread end. Waits for nothing, since the store may not answer. */
    void close() {
        synchronized (gate) {
            isClosing = true;
            gate.notifyAll();
        }
        announced.countDown();
    }

    /** Whether all withdrawals were read once. */
    boolean isWhole() {
        return isWhole;
    }

    /** Whether the store has not answered for longer than so many milliseconds. */
    boolean isAway(long wait) {
        long since = silent;
        return since != Library.NONE && Times.up() - since > wait;
    }

    /**
     * Whether a token that comes at this time is to wait until withdrawals are read. They are read once a second, so that the last time is
     * long ago only where the process was stopped, or the machine suspended: tokens may have been withdrawn meanwhile.
     */
    boolean isDue(long time) {
        Moment last = looked;
        return last != null && isOld(last, momentOf(time));
    }

    /**
     * Waits until they are read, but at most so many milliseconds. What the store was asked before the process was stopped does not count.
     */
    void look(long time, long most) throws InterruptedException {
        Moment now = momentOf(time);
        long end = Times.up() + most;
        synchronized (gate) {
            if (!isDue(time)) {
                return;
            }
            long one = isOld(began, now) ? begun + 1 : begun;
            want(one);
            for (long left = most; over < one && !isClosing && left > 0; left = end - Times.up()) {
                gate.wait(left);
            }
            if (isClosing) {
                throw new SvidException.Closed();
            }
            if (isDue(time)) {
                looked = now; // (who comes next does not wait for a store that hangs)
            }
        }
    }

    /** Lets the next look begin now. */
    void wake() {
        synchronized (gate) {
            want(begun + 1);
        }
    }

    /** Whether nobody waits for a look, and none is made. */
    boolean isAtRest() {
        synchronized (gate) {
            return over == begun && wanted <= over;
        }
    }

    private void want(long one) {
        if (wanted < one) {
            wanted = one;
            gate.notifyAll();
        }
    }

    private Moment momentOf(long time) {
        return new Moment(member.up.getAsLong(), Times.instantOf(time));
    }

    private static boolean isOld(Moment then, Moment now) {
        return then.isOld(Statements.MOST_UNLOOKED, now);
    }

    /** A call of the store begins. */
    private void begins() {
        Moment now = momentOf(member.now());
        synchronized (gate) {
            begun++;
            began = now;
        }
    }

    /** The last call has read all, or has failed. */
    private void ends() {
        synchronized (gate) {
            over = begun;
            looked = began;
            gate.notifyAll();
        }
    }

    private void work() {
        String after = "";
        do {
            try {
                after = readFrom(after);
                if (!isWhole) {
                    isWhole = true;
                    member.reached();
                    announced.countDown();
                }
            } catch (SvidException.Closed ended) {
                return;
            } catch (Throwable why) {
                // (a store may throw anything, and the next look may go well)
                said = Log.warnOnce("the group's store does not tell of withdrawals", why, said);
            }
            ends();
        } while (pause());
    }

    /** Reads what is new after a position, page by page, and gives the position after it. */
    private String readFrom(String after) throws Exception {
        for (String at = after;;) {
            if (silent == Library.NONE) {
                silent = Times.up();
            }
            begins();
            Store.Withdrawals page = store.withdrawals(at);
            for (Store.Withdrawal it : page.these()) {
                member.heard(it);
            }
            silent = Library.NONE; // (what is not taken counts as not told)
            said = null;
            if (page.last().equals(at) || !isOpen()) {
                return at;
            }
            at = page.last();
        }
    }

    private boolean isOpen() {
        synchronized (gate) {
            return !isClosing;
        }
    }

    /** Waits until the next look is due, or a request waits for it. False at the end. */
    private boolean pause() {
        long end = Times.up() + every;
        synchronized (gate) {
            while (!isClosing && wanted <= begun && Times.up() < end) {
                try {
                    gate.wait(Math.max(1, end - Times.up()));
                } catch (InterruptedException why) {
                    // (a store may have left that behind)
                }
            }
            return !isClosing;
        }
    }
}
