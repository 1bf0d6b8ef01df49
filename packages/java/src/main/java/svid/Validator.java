package svid;

import com.sun.jna.Pointer;
import java.io.IOException;
import java.io.UncheckedIOException;
import java.lang.ref.Cleaner;
import java.lang.ref.Reference;
import java.nio.charset.StandardCharsets;
import java.security.MessageDigest;
import java.security.NoSuchAlgorithmException;
import java.time.Instant;
import java.util.Collection;
import java.util.List;
import java.util.Objects;
import java.util.Optional;
import java.util.function.LongSupplier;

/**
 * Checks JWT-SVIDs, and remembers which were used or withdrawn until they expire. This memory is its <i>record</i>.
 *
 * <p>Make one for the whole process. Any number of threads may call it at once: signatures are verified while other threads check, and by
 * default each token is accepted once ({@link Options#mode}). Tokens are judged at the record's <i>moment</i>, the greatest time that it
 * has seen, so a clock that is set back makes no expired token good.
 *
 * <p>Each method throws {@link SvidException.Closed} after {@link #close}, and {@link SvidException.OutOfMemory}. One that looks at the
 * clock also throws {@link SvidException.Jump} and {@link SvidException.NoClock}. Whatever a check throws, the token was not let in.
 */
public final class Validator implements AutoCloseable {
    private static final Cleaner CLEANER = Cleaner.create();
    private static final long USUAL = 8192;
    private static final byte[] NO_BUNDLES = {'{', '}'};

    private final Options options;
    private final Member member;
    private final Cleaner.Cleanable cleanable;

    private Validator(Options options, Member member) {
        this.options = options;
        this.member = member;
        cleanable = CLEANER.register(this, member::free);
    }

    /**
     * Opens a validator with an empty record. To go on with a saved one, {@link #take} it.
     *
     * <p>With a store it waits until the store answers, but no longer than {@link Options#wait(java.time.Duration)}. It opens the validator
     * all the same, which then accepts tokens once the store is there.
     *
     * @param bundles the keys of each trust domain as JSON: an object from trust domain names to JWK sets, such as
     *     <code>{"example.org": {"keys": [..]}}</code>
     * @throws SvidException.BadBundles where the bundles can't be read
     * @throws SvidException.TooMuch where they are too long
     * @throws SvidException.Held where another process has the state folder
     * @throws SvidException.BadFolder where the state folder is damaged
     * @throws SvidException.TooFar where the clock is behind the record that the state folder has
     * @throws UncheckedIOException where the state folder can't be read or made
     * @throws IllegalArgumentException where the options don't fit each other: a store without {@link Mode#STRICT} or {@link Mode#BOUND},
     *         say
     */
    public static Validator open(Options options, byte[] bundles) {
        return open(options, bundles, null);
    }

    /** Opens a validator as {@link #open(Options, byte[])} does, with the bundles as a text. */
    public static Validator open(Options options, String bundles) {
        return open(options, Options.utf8("the bundles", bundles));
    }

    /**
     * Opens a validator that follows sources of trust bundles, until it is closed. Those that can't be read now may come later: until there
     * is one bundle, the validator is not ready, and accepts no token.
     *
     * @throws SvidException.Held where another process has the state folder
     * @throws SvidException.BadFolder where the state folder is damaged
     * @throws SvidException.TooFar where the clock is behind the record that the state folder has
     * @throws UncheckedIOException where the state folder can't be read or made
     * @throws IllegalArgumentException where the options don't fit each other
     */
    public static Validator open(Options options, Sources sources) {
        return open(options, NO_BUNDLES, Objects.requireNonNull(sources));
    }

    private static Validator open(Options options, byte[] bundles, Sources sources) {
        options.mustFit();
        try {
            Member member = member(options, bundles, sources);
            try {
                Validator made = new Validator(options, member);
                member.begin(made.now());
                return made;
            } catch (Throwable why) {
                member.close();
                throw why;
            }
        } catch (IOException why) {
            throw new UncheckedIOException(why);
        }
    }

    private static Member member(Options options, byte[] bundles, Sources sources) throws IOException {
        Journal journal = options.state() == null ? null : new Journal(options.state(), new Disk());
        LocalStore local = null;
        try {
            if (options.isAlone()) {
                local = new LocalStore(options.state().resolve("claims"), options);
            }
            return new Member(local == null ? options : options.store(local), bundles, sources, journal);
        } catch (Throwable why) {
            if (local != null) {
                local.close();
            }
            if (journal != null) {
                journal.close();
            }
            throw why;
        }
    }

    /**
     * Accepts a token, as often as {@link Options#mode} says: by default once, and the record gains its use.
     *
     * @throws Refusal by the first reason that holds
     * @throws SvidException.NotAllowed where the token is good, and {@link Options#callers(IdPattern...)} does not allow its subject
     * @throws SvidException.Unavailable where the store fails, or where there is no answer in time
     * @throws SvidException.Unverifiable where java.security can't say whether the signature is good
     * @throws IllegalArgumentException of a validator of {@link Mode#BOUND}: it wants to know the caller
     */
    public Admission check(String token) throws Refusal {
        return check(this::now, token, null);
    }

    /**
     * Accepts a token from one caller alone, in {@link Mode#BOUND}. From another caller it is refused as {@code Replayed}.
     *
     * @param caller bytes that tell who presents the token, as its address or its certificate
     * @throws Refusal by the first reason that holds
     * @throws SvidException.NotAllowed where the token is good, and {@link Options#callers(IdPattern...)} does not allow its subject
     * @throws SvidException.Unavailable where the store fails, or where there is no answer in time
     * @throws SvidException.Unverifiable where java.security can't say whether the signature is good
     * @throws IllegalArgumentException of a validator of another mode
     */
    public Admission check(String token, byte[] caller) throws Refusal {
        return check(this::now, token, Objects.requireNonNull(caller));
    }

    Admission check(long now, String token) throws Refusal {
        return check(() -> now, token, null);
    }

    private Admission check(LongSupplier clock, String token, byte[] caller) throws Refusal {
        try {
            return checked(clock, token, caller);
        } catch (Refusal why) {
            options.tell(why);
            throw why;
        } catch (SvidException.NotAllowed why) {
            options.tell(new Denied.NotAllowed());
            throw why;
        }
    }

    private Admission checked(LongSupplier clock, String token, byte[] caller) throws Refusal {
        boolean hasCaller = caller != null;
        if (hasCaller != (options.mode() == Mode.BOUND)) {
            throw new IllegalArgumentException("give a caller in the mode BOUND, and in no other one");
        }
        try {
            return member.check(token.getBytes(StandardCharsets.UTF_8), clock, hasCaller ? digest(caller) : null);
        } finally {
            Reference.reachabilityFence(this);
        }
    }

    private static byte[] digest(byte[] caller) {
        try {
            return MessageDigest.getInstance("SHA-256").digest(caller);
        } catch (NoSuchAlgorithmException why) {
            throw new IllegalStateException("java.security has no SHA-256: add its provider, SUN", why);
        }
    }

    /**
     * Answers what {@link #check(String)} would, but the record gains no use: {@code check} may still accept the token.
     *
     * <p>It asks no store, so that a token which another validator accepted may seem good to it.
     *
     * @throws Refusal by the first reason that holds
     * @throws SvidException.NotAllowed where the token is good, and {@link Options#callers(IdPattern...)} does not allow its subject
     * @throws SvidException.Unavailable where the bundle of its trust domain was not read yet
     * @throws SvidException.Unverifiable where java.security can't say whether the signature is good
     */
    public Admission judge(String token) throws Refusal {
        return judge(now(), token);
    }

    Admission judge(long now, String token) throws Refusal {
        try {
            member.look();
            return member.judge(token.getBytes(StandardCharsets.UTF_8), now);
        } finally {
            Reference.reachabilityFence(this);
        }
    }

    /**
     * Accepts the one bearer token of a request, as {@link #check(String)} does.
     *
     * @param values those of all header fields {@code Authorization} of the request; null where it has none
     * @throws Denied with the answer that is due: of a good token {@link Denied.NotAllowed}
     * @throws SvidException.Unavailable where the store fails, or where there is no answer in time: answer with status 503
     * @throws SvidException.Unverifiable where java.security can't say whether the signature is good
     */
    public Admission admit(List<String> values) throws Denied {
        return admit(values, null, null);
    }

    /**
     * Accepts the one bearer token of a request in {@link Mode#BOUND}, as {@link #check(String, byte[])} does.
     *
     * @param caller bytes that tell who presents the token, as its address or its certificate
     * @throws Denied with the answer that is due: of a good token {@link Denied.NotAllowed}
     * @throws SvidException.Unavailable where the store fails, or where there is no answer in time: answer with status 503
     * @throws SvidException.Unverifiable where java.security can't say whether the signature is good
     */
    public Admission admit(List<String> values, byte[] caller) throws Denied {
        return admit(values, null, Objects.requireNonNull(caller));
    }

    /**
     * Accepts the one bearer token of a request where only some may call. The token of another caller is judged, and not used up. If the
     * same may call in all requests, say that by {@link Options#callers(IdPattern...)} instead.
     *
     * @param callers patterns of the IDs that may call; no pattern lets nobody in
     * @throws Denied with the answer that is due: of a good token {@link Denied.NotAllowed}
     * @throws SvidException.Unavailable where the store fails, or where there is no answer in time: answer with status 503
     * @throws SvidException.Unverifiable where java.security can't say whether the signature is good
     */
    public Admission admit(List<String> values, Collection<IdPattern> callers) throws Denied {
        return admit(values, Objects.requireNonNull(callers), null);
    }

    /**
     * Accepts the one bearer token of a request, for all callers where there is no list, and without a caller where that does not count.
     */
    Admission admit(List<String> values, Collection<IdPattern> callers, byte[] caller) throws Denied {
        try {
            return admitted(bearer(values), callers, caller);
        } catch (Denied why) {
            options.tell(why);
            throw why;
        }
    }

    private Admission admitted(String token, Collection<IdPattern> callers, byte[] caller) throws Denied {
        try {
            if (callers != null) {
                SpiffeId subject = says(token).spiffeId();
                if (callers.stream().noneMatch(it -> it.allows(subject))) {
                    judge(token);
                    throw new Denied.NotAllowed();
                }
            }
            return checked(this::now, token, caller);
        } catch (SvidException.NotAllowed why) {
            throw new Denied.NotAllowed();
        }
    }

    /**
     * Finds the one bearer token of a request. It does not read the token.
     *
     * @param values those of all header fields {@code Authorization} of the request, a character for each byte; null where it has none
     * @throws Denied.NoToken where it has not exactly one token
     * @throws Refusal as {@code TooLong}
     */
    public static String bearer(List<String> values) throws Denied {
        int fields = values == null ? 0 : values.size();
        byte[] value = fields == 0 ? new byte[0] : values.get(0).getBytes(StandardCharsets.ISO_8859_1);
        try (Arena room = new Arena()) {
            Pointer found = room.take(Library.Bearer.SIZE);
            int number = Library.svid_bearer_token(fields, room.put(value), value.length, found);
            Status status = Status.of(number);
            if (status != null && status.isFrom(Status.BEARER_ABSENT, Status.BEARER_SPELLING)) {
                throw new Denied.NoToken(status);
            }
            new CallDetails(room).accept(number);
            int at = (int) found.getLong(Library.Bearer.AT);
            return new String(value, at, (int) found.getLong(Library.Bearer.LEN), StandardCharsets.ISO_8859_1);
        }
    }

    /**
     * What a token says, for a log, say. Nobody has vouched for it.
     *
     * @throws Refusal for what is no JWT-SVID
     */
    public static Says says(String token) throws Refusal {
        return Says.of(token);
    }

    /**
     * Withdraws a token until it expires: from now on it is refused as {@code Withdrawn}. It verifies no signature: the token is withdrawn
     * that has this trust domain and {@code jti}, or this text where it has no {@code jti}. Where there is a store, all validators that
     * share it refuse the token then.
     *
     * @return a message for {@link #take} of other validators, which then refuse the token too
     * @throws SvidException.Gone where the token has expired
     * @throws SvidException.Unavailable where the store may not have that: withdraw the token again
     * @throws Refusal for what is no JWT-SVID
     */
    public byte[] withdraw(String token) throws Refusal {
        Says said = says(token);
        return withdraw(said.key(), said.expiry());
    }

    /**
     * Withdraws the token with this key, which expires then.
     *
     * @return a message for {@link #take} of other validators, which then refuse the token too
     * @throws SvidException.Gone where the token has expired
     * @throws SvidException.Unavailable where the store may not have that: withdraw the token again
     */
    public byte[] withdraw(TokenKey key, Instant expiry) {
        return withdraw(now(), key, Times.expiryOf(expiry));
    }

    byte[] withdraw(long now, TokenKey key, long expiry) {
        try {
            return member.withdraw(now, key, expiry);
        } finally {
            Reference.reachabilityFence(this);
        }
    }

    /**
     * Says the first reason why no tokens are to be sent to this validator, as a sentence; empty if it is ready. Ask it where a load
     * balancer asks, as at a path /readyz: it also asks the store again, and advances the record.
     */
    public Optional<String> unready() {
        try {
            return Optional.ofNullable(member.unready(now()));
        } finally {
            Reference.reachabilityFence(this);
        }
    }

    /** Whether tokens are to be sent to this validator: {@link #unready} says nothing. */
    public boolean isReady() {
        return unready().isEmpty();
    }

    /** Advances the record to the time of the clock, and drops what has expired by then. */
    public void tick() {
        tick(now());
    }

    void tick(long now) {
        try {
            member.tick(now);
        } finally {
            Reference.reachabilityFence(this);
        }
    }

    /**
     * Takes messages of other validators, or a record that was saved. Taking a message twice, or in another order, makes no difference.
     * {@link Options#twice} hears of a token that they show to be accepted twice.
     *
     * @param messages any number of messages, one after the other
     * @throws SvidException.TooFar where they tell of a time that is too far ahead: none was taken
     * @throws SvidException.BadMessages where the bytes are no messages: none was taken
     * @throws SvidException.TooMuch where they are too long: none was taken
     */
    public void take(byte[] messages) {
        take(now(), messages);
    }

    void take(long now, byte[] messages) {
        try {
            member.takeAndTell(now, messages).forEach(options::tellTwice);
        } finally {
            Reference.reachabilityFence(this);
        }
    }

    /** The whole record as messages, to save it, or for {@link #take} of another validator. */
    public byte[] messages() {
        return written(USUAL, (v, out, outLen, told) -> Library.svid_validator_tell(v, out, outLen, told));
    }

    /** A message of 8,205 bytes, for a validator that is to {@link #answer} what is missing here. */
    public byte[] summary() {
        return written(Library.SUMMARY_LEN, (v, out, outLen, told) -> Library.svid_validator_summary(v, out, outLen, told));
    }

    /**
     * Answers the summary of another validator: messages with the uses that it may lack.
     *
     * @throws SvidException.TooFar where the summary tells of a time that is too far ahead
     * @throws SvidException.BadMessages where the bytes are no summary
     */
    public byte[] answer(byte[] summary) {
        return answer(now(), summary);
    }

    byte[] answer(long now, byte[] summary) {
        try (Arena room = new Arena()) {
            CallDetails told = new CallDetails(room);
            Pointer text = room.put(summary);
            Output written = Output.by(room, told, USUAL,
                    (out, outLen) -> locked(v -> Library.svid_validator_answer(v, now, text, summary.length, out, outLen, told.at)));
            told.must(written.status());
            return written.bytes();
        }
    }

    /** What the record holds, as {@code svid report} prints it: for people, and for tests. */
    public String report() {
        return Twice.report(messages());
    }

    /**
     * How large the record is.
     *
     * @param moment the time that it has seen
     * @param uses how many uses it has; withdrawals count too
     */
    public record Size(Instant moment, long uses) {}

    /** How large the record is. The time that it takes does not depend on that. */
    public Size size() {
        try (Arena room = new Arena()) {
            CallDetails told = new CallDetails(room);
            Pointer out = room.take(Library.Size.SIZE);
            told.must(locked(v -> Library.svid_validator_size(v, out, told.at)));
            return new Size(Times.instantOf(out.getLong(Library.Size.MOMENT)), out.getLong(Library.Size.USES));
        }
    }

    /**
     * Replaces the bundles. The record stays. No check waits while they are read.
     *
     * @throws SvidException.BadBundles where the bundles can't be read: the old ones stay
     * @throws SvidException.TooMuch where they are too long: the old ones stay
     * @throws IllegalStateException of a validator that follows sources
     */
    public void renew(byte[] bundles) {
        if (member.follower != null) {
            throw new IllegalStateException("the validator follows its sources: change what they give");
        }
        try {
            member.renew(bundles);
        } finally {
            Reference.reachabilityFence(this);
        }
    }

    /** Replaces the bundles as {@link #renew(byte[])} does, by a text. */
    public void renew(String bundles) {
        renew(Options.utf8("the bundles", bundles));
    }

    /**
     * Frees the record and the bundles. It waits for calls of the library by other threads, and for what is on its way to the disk. Threads
     * that wait for an answer get {@link SvidException.Closed}. Closing twice does nothing.
     */
    @Override
    public void close() {
        member.close();
        cleanable.clean();
    }

    private long now() {
        return Times.now(options.clock());
    }

    private int locked(Member.Call call) {
        try {
            return member.locked(call);
        } finally {
            Reference.reachabilityFence(this);
        }
    }

    /** A call that writes a text. */
    private interface Writing {
        int into(Pointer v, Pointer out, long outLen, Pointer told);
    }

    private byte[] written(long usual, Writing call) {
        try (Arena room = new Arena()) {
            CallDetails told = new CallDetails(room);
            Output written = Output.by(room, told, usual, (out, outLen) -> locked(v -> call.into(v, out, outLen, told.at)));
            told.must(written.status());
            return written.bytes();
        }
    }
}
