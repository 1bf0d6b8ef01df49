package svid;

import com.sun.jna.Pointer;
import java.io.ByteArrayOutputStream;
import java.io.IOException;
import java.nio.charset.StandardCharsets;
import java.time.Clock;
import java.util.HashMap;
import java.util.LinkedHashMap;
import java.util.List;
import java.util.Map;
import java.util.concurrent.BlockingQueue;
import java.util.concurrent.LinkedBlockingQueue;
import java.util.concurrent.TimeUnit;
import java.util.concurrent.atomic.AtomicReference;
import java.util.function.Consumer;
import java.util.function.LongSupplier;
import java.util.stream.Collectors;

/**
 * A validator that answers requests. The library decides (include/svid.h, "A member"). Here stand a map from the numbers of requests to the
 * threads that wait for their answers, and what the library says is to be done.
 */
final class Member extends State {
    private static final byte[] NOBODY = new byte[Owner.LEN];
    /** How many withdrawals are known again. */
    private static final int MOST_HEARD = 65_536;
    /** For how many quarters of its time a request waits until withdrawals are read. */
    private static final long LOOKS = 3;
    /** How many bytes a part of the record has at most. */
    private static final long PIECE = 1 << 20;

    /** The clock that only goes ahead, in milliseconds. */
    volatile LongSupplier up = Times::up;
    /** Null for no store. */
    final Claims claims;
    /** Null where withdrawals of a store are not heard of. */
    final WithdrawalReader hearing;
    /** The withdrawals that the record has of this process, so that it has one once that the store tells of again. */
    private final Map<Store.Withdrawal, Boolean> heard = new LinkedHashMap<>() {
        private static final long serialVersionUID = 1;

        @Override
        protected boolean removeEldestEntry(Map.Entry<Store.Withdrawal, Boolean> eldest) {
            return size() > MOST_HEARD;
        }
    };
    /** The requests that have no answer yet, by their numbers. */
    final Map<Long, Request> requests = new HashMap<>();
    /** The withdrawals that have not ended, by their numbers. */
    final Map<Long, BlockingQueue<End>> withdrawals = new HashMap<>();

    private final Journal journal; // null for no state folder
    private final LocalStore local; // null where another store has the claims
    final Follower follower; // null for bundles that stay
    private final LongSupplier clock;
    private final long wait;
    private final long longest;
    private final boolean isBound;
    private final int late; // the status whose word a client hears where its time is over
    private Unkept unkept; // what the disk did not take last
    private final Pointer deed = room.take(Library.Deed.SIZE);
    private final Pointer usedOfDeed = deed.share(Library.Deed.USED);
    private final Pointer due = room.take(Library.Deadline.SIZE);
    private final Pointer made = room.take(Library.Withdrawal.SIZE);
    private final Pointer known = room.take(Library.Known.SIZE);
    private final Pointer life = room.put(Options.random());
    private final Pointer whose = room.take(Owner.LEN);
    private final Pointer owner = room.take(Owner.LEN);

    /**
     * Opens it with its bundles, or with sources that give all, or null, and with the state folder that it has, or null. It judges no token
     * before {@link #begin}.
     */
    Member(Options options, byte[] bundles, Sources sources, Journal journal) {
        super(options, bundles, journal == null ? options.idOrRandom() : journal.validatorId());
        this.journal = journal;
        local = options.store() instanceof LocalStore it ? it : null;
        follower = sources == null ? null : new Follower(sources, this::adopt);
        known.clear(Library.Known.SIZE);
        known.setLong(Library.Known.BUNDLED, sources == null ? 1 : 0);
        wait = options.waitMillis();
        longest = options.longest();
        isBound = options.mode() == Mode.BOUND;
        late = options.mode().hasStore() ? Library.CLAIM_FAR : journal != null ? Library.NOT_KEPT : Library.LATE;
        claims = options.store() == null ? null : new Claims(options.store(), this);
        // (in mode STRICT the claim of a token tells that it was withdrawn)
        hearing = options.store() == null || options.mode() == Mode.STRICT ? null : new WithdrawalReader(options.store(), this);
        Clock given = options.clock(); // (the hooks of the options may hold the validator, which nobody could forget then)
        clock = () -> Times.now(given);
        try (Arena lent = new Arena()) {
            Pointer terms = lent.take(Library.MemberTerms.SIZE);
            terms.setLong(Library.MemberTerms.MODE, options.mode().number());
            terms.setLong(Library.MemberTerms.DISK, journal == null ? 0 : 1);
            terms.setLong(Library.MemberTerms.STORE, claims == null ? 0 : 1);
            terms.setLong(Library.MemberTerms.LOG, 0);
            terms.setLong(Library.MemberTerms.WAIT, wait);
            terms.setLong(Library.MemberTerms.AHEAD, options.ahead());
            terms.setLong(Library.MemberTerms.LASTS, Times.sum(longest, Times.sum(options.ahead(), options.ahead())));
            terms.write(Library.MemberTerms.LIFE, life.getByteArray(0, Options.ID_LEN), 0, Options.ID_LEN);
            must(locked(v -> Library.svid_member_open(v, terms)));
            if (options.mayCall() != null) {
                byte[] own = lines(options.audiences());
                byte[] callers = options.mayCall()
                                         .stream()
                                         .map(IdPattern::toString)
                                         .collect(Collectors.joining("\n"))
                                         .getBytes(StandardCharsets.UTF_8);
                must(locked(v -> Library.svid_member_rules(v, lent.put(own), own.length, 0, lent.put(callers), callers.length)));
            }
        } catch (Throwable why) {
            free();
            throw why;
        }
    }

    private static byte[] lines(List<byte[]> texts) {
        ByteArrayOutputStream joined = new ByteArrayOutputStream();
        for (byte[] it : texts) {
            joined.writeBytes(it);
            joined.write('\n');
        }
        return joined.toByteArray();
    }

    /**
     * Reads the record of the state folder. Tokens are judged from then on, or once the store is there. Waits for that, but at most as long
     * as a request does.
     */
    void begin(long now) throws IOException {
        if (journal != null) {
            for (String name : journal.torn()) {
                Log.warn("a crash cut off a write at the end of " + name + ": nobody had an answer");
            }
            journal.load(messages -> take(now, messages));
            if (journal.wantsSnapshot()) {
                journal.snapshot(this::parts);
            }
        }
        if (follower != null) {
            follower.begin();
        }
        know(0, false);
        long end = Times.up() + wait;
        if (hearing != null) {
            hearing.begin();
        }
        if (claims != null) {
            claims.begin(wait);
        }
        if (hearing != null) {
            hearing.await(Math.max(end - Times.up(), 0));
        }
    }

    /** Takes what the sources of bundles give. */
    void adopt(byte[] bundles, int count) {
        renew(bundles, v -> {
            known.setLong(Library.Known.BUNDLED, count > 0 ? 1 : 0);
            return Library.svid_member_know(v, known);
        });
    }

    /** Replaces bundles that come from no source. */
    void renew(byte[] bundles) {
        renew(bundles, v -> 0);
    }

    @Override
    void mustHaveBundle(Token token) throws Refusal {
        if (follower != null) {
            String domain = Says.of(token.bytes).spiffeId().trustDomain();
            if (follower.names(domain) || Library.svid_member_judges(open()) == Library.NO_BUNDLE) {
                throw SvidException.Unavailable.ofBundle(domain);
            }
        }
    }

    /** Writes a snapshot in the background, if one is due. */
    void tidy() {
        if (journal != null && journal.wantsSnapshot()) {
            journal.snapshotSoon(this::parts);
        }
    }

    /** The record, part by part. Other calls may be made in between. */
    private void parts(Journal.Sink sink) throws IOException {
        try (Arena lent = new Arena()) {
            CallDetails said = new CallDetails(lent);
            Pointer part = lent.take(Library.Part.SIZE);
            Pointer to = lent.take(PIECE);
            part.clear(Library.Part.SIZE);
            do {
                said.must(locked(v -> Library.svid_validator_parts(v, part, to, PIECE, said.at)));
                sink.take(Output.bytesOf(to, said.len()));
            } while (part.getLong(Library.Part.DONE) == 0);
        }
    }

    /** Waits for what is under way on the disk, and frees all. */
    void close() {
        if (follower != null) {
            follower.close();
        }
        if (journal != null) {
            journal.close();
        }
        free();
        if (local != null) {
            local.close();
        }
    }

    @Override
    void free() {
        if (follower != null) {
            follower.drop();
        }
        if (journal != null) {
            journal.drop();
        }
        if (local != null) {
            local.drop();
        }
        if (hearing != null) {
            hearing.close();
        }
        if (claims != null) {
            claims.close();
        }
        super.free();
    }

    /** Whoever waits for an answer gets none. */
    @Override
    void ended() {
        requests.values().forEach(it -> it.steps.add(new Failure(new SvidException.Closed())));
        withdrawals.values().forEach(it -> it.add(new End(null, new SvidException.Closed())));
        requests.clear();
        withdrawals.clear();
    }

    /** What comes to a request. */
    sealed interface Step permits Deed, Answer, Failure {}

    /** {@code svid_deed}: what is to be done for a request. It has a use where that counts, or else null. */
    record Deed(int what, long number, int status, long next, Admission.Use used) implements Step {}

    /** What the store says of its claim. */
    private record Answer(Store.Found found) implements Step {}

    /** Why no answer comes. */
    private record Failure(SvidException why) implements Step {}

    /** How a withdrawal ended: who may lack it, or null, and why it has no end. */
    record End(String lacks, SvidException why) {}

    /** A use that the disk did not take. */
    private record Unkept(Request request, Admission.Use use) {}

    /** A token on its way to an answer. Its thread does what comes by {@code steps}. */
    static final class Request {
        private final Token token;
        private final LongSupplier clock;
        private final byte[] caller;
        private final BlockingQueue<Step> steps = new LinkedBlockingQueue<>();
        private long number = Library.NONE;
        private long end; // when it is late
        private SpiffeId subject;
        private boolean isAnswered;
        private boolean isWriting; // its use is on its way to the disk
        private Exception why; // why the disk did not take it

        private Request(Token token, LongSupplier clock, byte[] caller) {
            this.token = token;
            this.clock = clock;
            this.caller = caller;
        }
    }

    /**
     * Answers a token.
     *
     * @param clock gives the time of each call
     * @param caller 32 bytes that say who presents the token, or null
     */
    Admission check(byte[] bytes, LongSupplier clock, byte[] caller) throws Refusal {
        try (Token token = read(bytes, clock.getAsLong())) {
            Request request = new Request(token, clock, caller == null ? NOBODY : caller);
            try {
                come(request);
                look();
                Admission admission = seenThrough(request);
                tidy();
                return admission;
            } finally {
                leave(request);
            }
        }
    }

    /** Waits until the withdrawals of the store are read, where nobody has looked for long. */
    void look() {
        if (hearing == null) {
            return;
        }
        long now = now();
        if (hearing.isDue(now)) {
            try {
                hearing.look(now, wait / 4 * LOOKS);
            } catch (InterruptedException why) {
                throw interrupted(why);
            }
        }
    }

    /** The time, in seconds. */
    long now() {
        return clock.getAsLong();
    }

    /** Withdraws a token, here and in the store, and gives the message of that. */
    byte[] withdraw(long now, TokenKey key, long expiry) {
        byte[] message = withdrawn(now, key, expiry).message(true);
        if (hearing != null) {
            note(new Store.Withdrawal(key, Times.instantOf(expiry)));
        }
        if (claims != null || journal != null) {
            bring(key, expiry, message);
            tidy();
        }
        return message;
    }

    /** The first reason why no tokens are to be sent here, as a sentence, or null. */
    String unready(long now) {
        try {
            tick(now);
            know(now, false);
        } catch (SvidException.Jump why) {
            know(now, true);
        }
        keepAgain();
        int status = locked(Library::svid_member_ready);
        if (SvidException.Unavailable.isUnready(status)) {
            return SvidException.Unavailable.saidOf(status);
        }
        must(status);
        return null;
    }

    // -- For the claims

    /** The claim of a request, if it is to go out now, or else null. */
    synchronized Store.Claim send(Deed claimed) {
        try {
            Pointer v = open();
            Request request = requests.get(claimed.number);
            must(Library.svid_member_send(v, up.getAsLong(), claimed.number, deed));
            if (request == null || deed.getLong(Library.Deed.WHAT) != Library.DEED_CLAIM) {
                hand();
                return null;
            }
            Admission.Use use = claimed.used;
            if (isBound) {
                whose.write(0, request.caller, 0, Owner.LEN);
                Library.svid_claim_owner_of_caller(whose, use.exp(), owner);
            } else {
                whose.write(0, use.validatorId(), 0, Options.ID_LEN);
                Library.svid_claim_owner(whose, life, use.exp(), owner);
            }
            return new Store.Claim(TokenKey.of(use.key()), Owner.of(owner.getByteArray(0, Owner.LEN)), Times.instantOf(use.exp()));
        } catch (SvidException why) {
            // (its request is late then, or the validator is closed)
            return null;
        }
    }

    /** The store has answered the claim of a request. */
    synchronized void found(long number, Store.Found found) {
        Request request = requests.get(number);
        if (request != null) {
            request.steps.add(new Answer(found));
        }
    }

    /** Withdraws what another validator withdrew. */
    void heard(Store.Withdrawal one) {
        synchronized (heard) {
            if (heard.containsKey(one)) {
                return;
            }
        }
        Admission.Use use;
        try {
            use = withdrawn(clock.getAsLong(), one.key(), Times.expiryOf(one.expiry()));
        } catch (SvidException.Gone why) {
            return;
        }
        note(one);
        if (journal != null) {
            journal.keep(use.message(true), why -> {
                if (why != null) {
                    Log.warn("a withdrawal is not kept", why);
                }
            });
        }
    }

    private void note(Store.Withdrawal one) {
        synchronized (heard) {
            heard.put(one, true);
        }
    }

    /** The store is there. */
    void reached() {
        know(0, false);
    }

    // -- The way of a request

    private synchronized void come(Request request) {
        must(Library.svid_member_come(open(), up.getAsLong(), deed));
        Deed read = deed();
        request.number = read.number;
        request.end = up.getAsLong() + wait;
        requests.put(read.number, request);
        request.steps.add(read);
    }

    /** Does what is to be done for a request, until it is answered. */
    private Admission seenThrough(Request request) throws Refusal {
        while (true) {
            Step step = next(request.steps, request.end);
            if (step instanceof Failure failure) {
                throw failure.why;
            } else if (step instanceof Answer answer) {
                ask(request, answer.found);
            } else if (step instanceof Deed read && read.what == Library.DEED_JUDGE) {
                ask(request, null);
            } else if (step instanceof Deed read && read.what == Library.DEED_APPEND && journal != null) {
                keep(request, read.used);
            } else if (step instanceof Deed read && read.what == Library.DEED_CLAIM) {
                claims.add(read);
            } else if (step instanceof Deed read && read.what == Library.DEED_ANSWER) {
                return answered(request, read);
            } else {
                throw new IllegalStateException("libsvid wants what this package can't do: " + step);
            }
        }
    }

    /** Makes the call by which the library judges the token, with what the store has found, if it has. */
    private void ask(Request request, Store.Found answer) throws Refusal {
        Token token = request.token;
        Pointer caller = null;
        Pointer answered = null;
        if (answer != null) {
            caller = token.room.put(request.caller);
            answered = token.room.take(Library.Found.SIZE);
            answered.setLong(Library.Found.TIME, Times.expiryOf(answer.time()));
            answered.setLong(Library.Found.DEAF, Times.expiryOf(answer.deaf()));
            answered.write(Library.Found.OWNER, answer.owner().bytes(), 0, Owner.LEN);
        }
        while (true) {
            if (token.edition != edition) {
                find(token);
            }
            long now = request.clock.getAsLong();
            synchronized (this) {
                Pointer v = open();
                if (token.edition != edition) {
                    // (the bundles were renewed meanwhile, so that other keys count)
                    continue;
                }
                Signatures.Found shown = token.found;
                int status = answer == null ? Library.svid_member_judge(v, now, up.getAsLong(), request.number, shown.key(), shown.keyLen(),
                                     token.input(), shown.signed(), shown.signature(), shown.signatureLen(), token.at, out, Library.ID_ROOM,
                                     used, deed, told.at)
                                            : Library.svid_member_found(v, now, up.getAsLong(), request.number, caller, answered,
                                                    shown.key(), shown.keyLen(), token.input(), shown.signed(), shown.signature(),
                                                    shown.signatureLen(), token.at, out, Library.ID_ROOM, used, deed, told.at);
                if (status == Status.CLOSED.number() || status == Status.JUMP.number()) {
                    // (nothing happened)
                    throw SvidException.of(status, told);
                }
                // (others may wait for what is to be done, so that comes before all that may fail)
                hand();
                if (status == 0) {
                    request.subject = subject();
                } else if (status == Refusal.Reason.UNKNOWN_DOMAIN.number()) {
                    mustHaveBundle(token);
                }
                return;
            }
        }
    }

    /** Brings a use to the disk. */
    private void keep(Request request, Admission.Use use) {
        synchronized (this) {
            request.isWriting = true;
        }
        bringToDisk(request, use);
    }

    private void bringToDisk(Request request, Admission.Use use) {
        byte[] message;
        try {
            message = use.message(false);
        } catch (SvidException.OutOfMemory why) {
            wrote(request, use, why);
            return;
        }
        journal.keep(message, why -> wrote(request, use, why));
    }

    /** The disk has a use, or may not have it. */
    private synchronized void wrote(Request request, Admission.Use use, Exception why) {
        request.isWriting = false;
        request.why = why;
        unkept = why == null ? null : new Unkept(request, use);
        must(Library.svid_member_wrote(open(), up.getAsLong(), request.number, why == null ? 1 : 0, deed));
        hand();
    }

    /** Tries again to keep the last use that the disk did not take. */
    private void keepAgain() {
        Unkept last;
        synchronized (this) {
            last = unkept;
            unkept = null;
        }
        if (last != null) {
            bringToDisk(last.request, last.use);
        }
    }

    private Admission answered(Request request, Deed read) throws Refusal {
        request.isAnswered = true;
        if (read.status == 0) {
            return new Admission(request.subject, read.used, request.token.bytes, audiences);
        }
        Exception why;
        synchronized (this) {
            if (request.isWriting) {
                // (the disk hangs, until it says otherwise)
                must(Library.svid_member_wrote(open(), up.getAsLong(), request.number, 0, deed));
                hand();
            }
            why = request.why;
        }
        if (why != null) {
            String said = SvidException.Unavailable.saidOf(read.status) + " (" + why.getMessage() + ")";
            throw new SvidException.Unavailable(toldAs(read.status), said, why);
        }
        request.token.found.mustBeKnown(read.status);
        Refusal.Reason reason = Refusal.Reason.of(read.status);
        if (reason != null) {
            throw new Refusal(reason);
        }
        throw fault(read.status);
    }

    /** Nobody waits for the answer any more. */
    private void leave(Request request) {
        if (request.isAnswered) {
            return;
        }
        synchronized (this) {
            if (requests.containsKey(request.number) && Library.svid_member_leave(open(), up.getAsLong(), request.number, deed) == 0) {
                hand();
            }
            requests.remove(request.number);
        }
    }

    /**
     * The next one of these. Whatever is due meanwhile is answered that it is late.
     *
     * @param end when it is late itself: one comes by then, unless there was no memory to hand it on
     */
    private <T> T next(BlockingQueue<T> steps, long end) {
        while (true) {
            T step = steps.poll();
            if (step != null) {
                return step;
            }
            long left = end - up.getAsLong();
            try {
                step = steps.poll(Math.min(untilDue(), Math.max(left + 1, 0)), TimeUnit.MILLISECONDS);
            } catch (InterruptedException why) {
                throw interrupted(why);
            }
            if (step != null) {
                return step;
            }
            overdue();
            if (left < 0 && steps.isEmpty()) {
                throw fault(Library.LATE);
            }
        }
    }

    private static SvidException interrupted(InterruptedException why) {
        Thread.currentThread().interrupt();
        return new SvidException.Unavailable("the thread was interrupted while it waited for an answer: make the call again", why);
    }

    /** For how many milliseconds nothing is due. */
    synchronized long untilDue() {
        must(Library.svid_member_due(open(), due));
        long at = due.getLong(Library.Deadline.AT);
        return at < 0 ? Long.MAX_VALUE : Math.max(at - up.getAsLong(), 0);
    }

    /** Answers whatever is due. */
    synchronized void overdue() {
        Pointer v = open();
        long moment = up.getAsLong();
        do {
            must(Library.svid_member_overdue(v, moment, deed));
        } while (hand().what != Library.DEED_NOTHING);
        do {
            must(Library.svid_withdrawal_overdue(v, moment, made));
        } while (handEnd());
    }

    // -- Withdrawals

    /** Brings a withdrawal to its keepers. */
    private void bring(TokenKey key, long expiry, byte[] message) {
        BlockingQueue<End> ends = new LinkedBlockingQueue<>();
        long number;
        long due;
        synchronized (this) {
            must(Library.svid_withdrawal_come(open(), up.getAsLong(), made));
            due = up.getAsLong() + wait;
            number = made.getLong(Library.Withdrawal.NUMBER);
            withdrawals.put(number, ends);
        }
        try {
            told(number, Library.AT_LOG, true);
            AtomicReference<Throwable> cause = new AtomicReference<>();
            Consumer<Throwable> atDisk = why -> {
                cause.compareAndSet(null, why);
                told(number, Library.AT_DISK, why == null);
            };
            Consumer<Throwable> atStore = why -> {
                cause.compareAndSet(null, why);
                told(number, Library.AT_STORE, why == null);
            };
            if (claims == null) {
                atStore.accept(null);
            } else {
                claims.withdraw(key, Times.instantOf(expiry), atStore);
            }
            if (journal == null) {
                atDisk.accept(null);
            } else {
                journal.keep(message, atDisk::accept);
            }
            End end = next(ends, due);
            if (end.why != null) {
                throw end.why;
            }
            if (end.lacks != null) {
                throw new SvidException.Unavailable(
                        "the token is withdrawn here, but " + end.lacks + " may not have that: withdraw it again", cause.get());
            }
        } finally {
            synchronized (this) {
                withdrawals.remove(number);
            }
        }
    }

    /** A keeper has a withdrawal, or may not have it. */
    private synchronized void told(long number, int keeper, boolean isThere) {
        must(Library.svid_withdrawal_told(open(), number, keeper, isThere ? 1 : 0, made));
        handEnd();
    }

    /** Hands on the withdrawal that has ended, if one has. */
    private boolean handEnd() {
        long number = made.getLong(Library.Withdrawal.NUMBER);
        BlockingQueue<End> ends = withdrawals.remove(number);
        if (ends != null) {
            boolean isAtDisk = made.getLong(Library.Withdrawal.DISK) != Library.MAY_LACK;
            boolean isAtStore = made.getLong(Library.Withdrawal.STORE) != Library.MAY_LACK;
            ends.add(new End(isAtDisk ? isAtStore ? null : "the group's store" : "the state folder", null));
        }
        return number != Library.NONE;
    }

    // -- With the lock held

    /** What the last call says is to be done. */
    private Deed deed() {
        int what = (int) deed.getLong(Library.Deed.WHAT);
        int status = (int) deed.getLong(Library.Deed.STATUS);
        boolean hasUse = what == Library.DEED_APPEND || what == Library.DEED_CLAIM || what == Library.DEED_ANSWER && status == 0;
        return new Deed(what, deed.getLong(Library.Deed.NUMBER), status, deed.getLong(Library.Deed.NEXT),
                hasUse ? Admission.Use.read(usedOfDeed) : null);
    }

    /** Hands what is to be done to the thread whose request it is for. */
    private Deed hand() {
        Deed read = deed();
        Request request = null;
        if (read.what == Library.DEED_ANSWER) {
            request = requests.remove(read.number);
            Request next = requests.get(read.next);
            if (next != null) {
                next.steps.add(new Deed(Library.DEED_JUDGE, read.next, 0, Library.NONE, null));
            }
        } else if (read.what != Library.DEED_NOTHING) {
            request = requests.get(read.number);
        }
        if (request != null) {
            request.steps.add(read);
        }
        return read;
    }

    private void must(int status) {
        if (status != 0) {
            throw fault(status);
        }
    }

    private SvidException fault(int status) {
        if (!SvidException.Unavailable.is(status)) {
            return SvidException.of(status, told);
        }
        Throwable cause = claims == null ? null : claims.why();
        return new SvidException.Unavailable(toldAs(status), SvidException.Unavailable.saidOf(status), cause);
    }

    /** The status whose word a client hears: where its time is over, the one that says what it waited for. */
    private int toldAs(int status) {
        return status == Library.LATE ? late : status;
    }

    /** Tells the library what the validator has. */
    private void know(long now, boolean isJumped) {
        boolean isAway = claims != null && claims.isAway(wait) || hearing != null && hearing.isAway(wait);
        boolean isDeaf = claims != null && Long.compareUnsigned(claims.deaf(), Times.sum(now, longest)) >= 0;
        synchronized (this) {
            Pointer v = open();
            known.setLong(Library.Known.HEARD, hearing == null || hearing.isWhole() ? 1 : 0);
            for (int it : new int[] {Library.Known.LOADED, Library.Known.JOINED, Library.Known.CAUGHT_UP}) {
                known.setLong(it, 1);
            }
            // (read with the lock held: who looked earlier must not say later that the store was not reached)
            boolean isOpened = claims == null || claims.isThere();
            known.setLong(Library.Known.OPENED, isOpened ? 1 : 0);
            known.setLong(Library.Known.JUMPED, isJumped ? 1 : 0);
            known.setLong(Library.Known.AWAY, isAway ? 1 : 0);
            known.setLong(Library.Known.DEAF, isDeaf ? 1 : 0);
            must(Library.svid_member_know(v, known));
        }
    }
}
