package svid.testing;

import java.time.Clock;
import java.time.Duration;
import java.time.Instant;
import java.time.ZoneId;
import java.time.ZoneOffset;
import java.time.temporal.ChronoUnit;
import java.util.Objects;

/** A clock that stands still until a test sets it, for {@link svid.Options#clock} and {@link Issuer}. Any number of threads may use it. */
public final class TestClock extends Clock {
    private volatile Instant now;

    /** A clock that shows the second that it is. */
    public TestClock() {
        this(Instant.now().truncatedTo(ChronoUnit.SECONDS));
    }

    /** A clock that shows this time. */
    public TestClock(Instant now) {
        this.now = Objects.requireNonNull(now);
    }

    /** Lets it show this time. */
    public void set(Instant time) {
        now = Objects.requireNonNull(time);
    }

    /** Lets it go ahead, or back by what is negative. */
    public synchronized void advance(Duration by) {
        now = now.plus(by);
    }

    @Override
    public Instant instant() {
        return now;
    }

    @Override
    public ZoneId getZone() {
        return ZoneOffset.UTC;
    }

    /** This clock: its zone does not count. */
    @Override
    public Clock withZone(ZoneId zone) {
        return this;
    }
}
