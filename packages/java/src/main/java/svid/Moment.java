package svid;

import java.time.Instant;

/** A moment: in milliseconds by the clock that only goes ahead, and by the one that may be wrong, and go back. */
record Moment(long up, Instant wall) {
    static Moment now() {
        return new Moment(Times.up(), Instant.now());
    }

    /** Whether it is longer ago than so many milliseconds, by either clock: while the machine is suspended, the first one stands still. */
    boolean isOld(long most, Moment now) {
        return now.up - up > most || wall.isBefore(now.wall.minusMillis(most));
    }

    /** The moment that is now if the machine was not suspended meanwhile. */
    Moment unlessSuspended(Moment now) {
        return new Moment(now.up, wall.plusMillis(now.up - up));
    }
}
