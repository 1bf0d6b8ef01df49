package svid;

import java.time.Clock;
import java.time.Instant;
import java.util.concurrent.TimeUnit;

/** Times as the library has them, in whole seconds of 64 bits without a sign, and as Java has them. */
final class Times {
    private static final long ORIGIN = System.nanoTime();

    private Times() {}

    /** The moment of a clock that only goes ahead, in milliseconds. */
    static long up() {
        return TimeUnit.NANOSECONDS.toMillis(System.nanoTime() - ORIGIN);
    }

    /** The sum of two spans in seconds, or the longest span. */
    static long sum(long one, long other) {
        return Long.compareUnsigned(one + other, one) < 0 ? Library.NONE : one + other;
    }

    static long now(Clock clock) {
        long seconds = clock.instant().getEpochSecond();
        if (seconds < 0) {
            throw new SvidException.NoClock();
        }
        return seconds;
    }

    /** A time as an instant. What lies after the last one is the last one. */
    static Instant instantOf(long seconds) {
        boolean isTooLate = Long.compareUnsigned(seconds, Instant.MAX.getEpochSecond()) >= 0;
        return isTooLate ? Instant.MAX : Instant.ofEpochSecond(seconds);
    }

    /** An expiry in seconds: the last instant stands for whatever lies after it. */
    static long expiryOf(Instant instant) {
        if (instant.equals(Instant.MAX)) {
            return -1;
        }
        return Math.max(0, instant.getEpochSecond());
    }
}
