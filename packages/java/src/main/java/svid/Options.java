package svid;

import java.nio.ByteBuffer;
import java.nio.CharBuffer;
import java.nio.charset.CharacterCodingException;
import java.nio.charset.StandardCharsets;
import java.nio.file.Path;
import java.security.SecureRandom;
import java.time.Clock;
import java.time.Duration;
import java.util.Arrays;
import java.util.Collection;
import java.util.List;
import java.util.Objects;
import java.util.function.Consumer;

/**
 * What a validator is given for its whole life. Each method gives new options, and leaves these as they are.
 *
 * <pre>{@code
 * Options options = Options.audiences("ledger").longest(Duration.ofHours(1)).step(Duration.ofDays(7));
 * }</pre>
 */
public final class Options {
    /** The number of seconds that stands for no limit. */
    static final long ANY = -1;

    static final int ID_LEN = 16;
    private static final Duration LONGEST_WAIT = Duration.ofDays(365_000);

    private List<byte[]> audiences;
    private long longest = 3600;
    private long ahead = 30;
    private long step = ANY;
    private byte[] validatorId;
    private int rsaBits = Library.USUAL_RSA_BITS;
    private Clock clock = Clock.systemUTC();
    private Mode mode = Mode.ONCE;
    private Store store; // null for none
    private List<IdPattern> callers; // null for all
    private Path state; // null for none
    private Consumer<Denied> denied = Options::log;
    private Consumer<TokenKey> twice = Options::warn;
    private long wait = 2000;

    private Options() {}

    private Options(Options from) {
        audiences = from.audiences;
        longest = from.longest;
        ahead = from.ahead;
        step = from.step;
        validatorId = from.validatorId;
        rsaBits = from.rsaBits;
        clock = from.clock;
        mode = from.mode;
        store = from.store;
        callers = from.callers;
        state = from.state;
        denied = from.denied;
        twice = from.twice;
        wait = from.wait;
    }

    /**
     * Options of a validator with these audiences: this service's own names. A token is for it if one of them is in {@code aud}.
     *
     * @throws IllegalArgumentException where there is none
     */
    public static Options audiences(String... audiences) {
        return audiences(Arrays.asList(audiences));
    }

    /** Options of a validator with these audiences, as {@link #audiences(String...)} gives them. */
    public static Options audiences(Collection<String> audiences) {
        if (audiences.isEmpty()) {
            throw new IllegalArgumentException("name an audience: without one, no token is for this service");
        }
        Options made = new Options();
        made.audiences = audiences.stream().map(it -> utf8("an audience", it)).toList();
        return made;
    }

    /**
     * A token that expires more than so long past the record's moment is refused as {@code TooLongLived}. Without it, an hour. It bounds
     * how long a use stays in the record.
     */
    public Options longest(Duration limit) {
        return longest(secondsOf(limit));
    }

    /** Accepts tokens that live for any time. A use then stays in the record until its token expires, however late that is. */
    public Options anyLife() {
        return longest(ANY);
    }

    Options longest(long seconds) {
        Options made = new Options(this);
        made.longest = seconds;
        return made;
    }

    /** How far the moment of a message may lie past the clock: a little more than clocks differ. Without it, thirty seconds. */
    public Options ahead(Duration limit) {
        return ahead(secondsOf(limit));
    }

    Options ahead(long seconds) {
        Options made = new Options(this);
        made.ahead = seconds;
        return made;
    }

    /**
     * A clock more than so far past the record's moment makes calls throw {@link SvidException.Jump}, so that a wrong clock does not expire
     * the record. Without it there is no limit. Set it to more than the longest time without a call.
     */
    public Options step(Duration limit) {
        return step(secondsOf(limit));
    }

    Options step(long seconds) {
        Options made = new Options(this);
        made.step = seconds;
        return made;
    }

    /**
     * The 16 bytes that name this validator among all that share its record. Without them it takes random ones. Two validators of one ID
     * accept a token twice.
     */
    public Options validatorId(byte[] id) {
        if (id.length != ID_LEN) {
            throw new IllegalArgumentException("a validator ID has 16 bytes, and not " + id.length);
        }
        Options made = new Options(this);
        made.validatorId = id.clone();
        return made;
    }

    /**
     * How many bits an RSA key may have: without this 4,096, and never more than 16,384. A longer one made no signature. Each verification
     * by a long key costs more, and a stranger may ask for it.
     */
    public Options rsaBits(int most) {
        if (most < 0) {
            throw new IllegalArgumentException("an RSA key has no negative number of bits: " + most);
        }
        Options made = new Options(this);
        made.rsaBits = most;
        return made;
    }

    /**
     * Is given each answer of a validator that lets somebody not in: {@link Refusal}, {@link Denied.NotAllowed}, and of {@link
     * Validator#admit(java.util.List)} {@link Denied.NoToken}. It counts them, say. It runs in the thread of the request, and what it
     * throws is logged. Without it, the system's logger "svid" has a line at the level DEBUG.
     */
    public Options denied(Consumer<? super Denied> hook) {
        Options made = new Options(this);
        made.denied = hook::accept;
        return made;
    }

    private static void log(Denied why) {
        Log.say(System.Logger.Level.DEBUG, why.getMessage());
    }

    /** Tells the hook, whatever that does. */
    void tell(Denied why) {
        try {
            denied.accept(why);
        } catch (Throwable failed) {
            Log.warn("the hook of denials failed", failed);
        }
    }

    /**
     * Is given the key of a token that several validators accepted, once, when {@link Validator#take} learns that; nothing of messages of
     * more than 4 MiB. What it throws is logged. Without it, the system's logger "svid" has a line at the level WARNING.
     */
    public Options twice(Consumer<? super TokenKey> hook) {
        Options made = new Options(this);
        made.twice = hook::accept;
        return made;
    }

    private static void warn(TokenKey key) {
        Log.warn("several validators accepted the token " + key + ": it may be stolen, or its client sent it twice");
    }

    /** Tells the hook, whatever that does. */
    void tellTwice(TokenKey key) {
        try {
            twice.accept(key);
        } catch (Throwable failed) {
            Log.warn("the hook of double acceptances failed", failed);
        }
    }

    /** The clock that tokens are judged by. Without it, that of the system. */
    public Options clock(Clock other) {
        Options made = new Options(this);
        made.clock = Objects.requireNonNull(other);
        return made;
    }

    /** How often a token is accepted. Without it, {@link Mode#ONCE}. */
    public Options mode(Mode other) {
        Options made = new Options(this);
        made.mode = Objects.requireNonNull(other);
        return made;
    }

    /**
     * The store of the group. In {@link Mode#STRICT} and {@link Mode#BOUND} it is required (in {@code BOUND} a {@link #state} will do), and
     * each token is claimed there. In all modes but {@code STRICT} its withdrawals are heard of within some two seconds. {@link
     * Validator#withdraw(String)} tells it.
     */
    public Options store(Store shared) {
        Options made = new Options(this);
        made.store = Objects.requireNonNull(shared);
        return made;
    }

    /**
     * A folder that keeps the record, so that no token that was accepted is accepted again after a restart, a crash or a loss of power. In
     * {@link Mode#ONCE} a check returns once the disk has the use, and so does a withdrawal in each mode. In {@link Mode#BOUND} without a
     * store, its folder {@code claims} has which caller used a token first, for this validator alone. The validator has the ID that is
     * in the folder. The folder above must be there. What {@link Validator#take} got is kept from the next snapshot on. One process holds a
     * folder at a time, and svidd reads and writes the same files.
     */
    public Options state(Path folder) {
        Options made = new Options(this);
        made.state = Objects.requireNonNull(folder);
        return made;
    }

    /**
     * Who may call. A good token of another caller throws {@link SvidException.NotAllowed}, and is not used up. Without it all may call.
     *
     * @throws IllegalArgumentException where no pattern is given
     */
    public Options callers(IdPattern... patterns) {
        return callers(Arrays.asList(patterns));
    }

    /** Who may call, as {@link #callers(IdPattern...)} says it. */
    public Options callers(Collection<IdPattern> patterns) {
        Options made = new Options(this);
        made.callers = named(patterns);
        return made;
    }

    /** The patterns of those that may call. */
    static List<IdPattern> named(Collection<IdPattern> patterns) {
        if (patterns.isEmpty()) {
            throw new IllegalArgumentException("callers is empty: name who may call, or leave the list out to let all call");
        }
        return List.copyOf(patterns);
    }

    /**
     * How long a check or a withdrawal may take, until it throws {@link SvidException.Unavailable}. Without it, two seconds.
     *
     * @throws IllegalArgumentException where it is less than a millisecond
     */
    public Options wait(Duration limit) {
        if (limit.compareTo(Duration.ofMillis(1)) < 0) {
            throw new IllegalArgumentException("wait is a millisecond or more, and not " + limit);
        }
        Options made = new Options(this);
        made.wait = limit.compareTo(LONGEST_WAIT) > 0 ? LONGEST_WAIT.toMillis() : limit.toMillis();
        return made;
    }

    /** Throws where these options don't fit each other. */
    void mustFit() {
        if (mode.hasStore() && store == null && !isAlone()) {
            throw new IllegalArgumentException(
                    "give a store in the modes STRICT and BOUND, or in BOUND a state folder: tokens are claimed there");
        }
        if (state != null && validatorId != null) {
            throw new IllegalArgumentException("a state folder has the validator's ID: give one of the two");
        }
        if (callers != null && audiences.stream().anyMatch(it -> it.length == 0 || new String(it, StandardCharsets.UTF_8).contains("\n"))) {
            throw new IllegalArgumentException("with callers, no audience is empty or has a line feed");
        }
    }

    /** Whether the state folder has the claims, for this validator alone. */
    boolean isAlone() {
        return mode == Mode.BOUND && store == null && state != null;
    }

    List<byte[]> audiences() {
        return audiences;
    }

    long longest() {
        return longest;
    }

    long ahead() {
        return ahead;
    }

    long step() {
        return step;
    }

    int rsaBits() {
        return rsaBits;
    }

    Clock clock() {
        return clock;
    }

    Mode mode() {
        return mode;
    }

    Store store() {
        return store;
    }

    /** Null for none. */
    Path state() {
        return state;
    }

    /** Null for all. */
    List<IdPattern> mayCall() {
        return callers;
    }

    /** How long a check or a withdrawal may take, in milliseconds. */
    long waitMillis() {
        return wait;
    }

    /** The ID that was given, or a new one. */
    byte[] idOrRandom() {
        if (validatorId != null) {
            return validatorId;
        }
        return random();
    }

    /** Random bytes for a validator ID, or for a life of a validator. */
    static byte[] random() {
        byte[] random = new byte[ID_LEN];
        new SecureRandom().nextBytes(random);
        return random;
    }

    /** A limit in seconds. */
    static long secondsOf(Duration limit) {
        if (limit.isNegative()) {
            throw new IllegalArgumentException("a limit is not negative: " + limit);
        }
        return limit.toSeconds();
    }

    /** A text of the service's own as UTF-8. */
    static byte[] utf8(String what, String text) {
        try {
            ByteBuffer bytes = StandardCharsets.UTF_8.newEncoder().encode(CharBuffer.wrap(text));
            return Arrays.copyOf(bytes.array(), bytes.limit());
        } catch (CharacterCodingException why) {
            throw new IllegalArgumentException(what + " is no Unicode text: it has one half of a surrogate pair", why);
        }
    }
}
