package svid;

import com.sun.jna.Pointer;
import java.util.List;

/** An open validator of the library. Its monitor is the lock for each call. */
abstract class State {
    private static final long USUAL = 8192;

    /** Memory for as long as the validator lives. */
    final Arena room = new Arena();
    /** What calls under the lock write. */
    final CallDetails told = new CallDetails(room);
    final Pointer out = room.take(Library.ID_ROOM);
    final Pointer used = room.take(Library.Use.SIZE);
    /** How often the bundles were renewed. */
    volatile long edition;

    private final Pointer handle = room.take(Library.Handle.SIZE);
    private final Signatures signatures;
    private final List<IdPattern> callers; // null for all
    final List<byte[]> audiences;
    private boolean isClosed;

    /** Opens it, with an empty record. */
    State(Options options, byte[] bundles, byte[] id) {
        signatures = new Signatures(options.rsaBits());
        callers = options.mayCall();
        audiences = options.audiences();
        handle.clear(Library.Handle.SIZE);
        try (Arena lent = new Arena()) {
            Pointer lens = lent.take(8L * audiences.size());
            long len = 0;
            for (int number = 0; number < audiences.size(); number++) {
                lens.setLong(8L * number, audiences.get(number).length);
                len += audiences.get(number).length;
            }
            Pointer own = lent.take(len);
            long at = 0;
            for (byte[] audience : audiences) {
                own.write(at, audience, 0, audience.length);
                at += audience.length;
            }
            Pointer terms = lent.take(Library.Terms.SIZE);
            terms.setLong(Library.Terms.LONGEST, options.longest());
            terms.setLong(Library.Terms.AHEAD, options.ahead());
            terms.setLong(Library.Terms.STEP, options.step());
            terms.write(Library.Terms.VALIDATOR_ID, id, 0, id.length);
            Pointer text = lent.put(bundles);
            told.must(
                    Library.svid_validator_open_by_lengths(handle, terms, own, len, lens, audiences.size(), text, bundles.length, told.at));
        }
    }

    /** A call of the library on an open validator. */
    interface Call {
        int on(Pointer handle);
    }

    /** The handle, for one call under the lock. */
    final Pointer open() {
        if (isClosed) {
            throw new SvidException.Closed();
        }
        return handle;
    }

    /** Makes a call under the lock. */
    final synchronized int locked(Call call) {
        return call.on(open());
    }

    /** Frees the record and the bundles. It waits for calls of other threads. */
    synchronized void free() {
        isClosed = true;
        Library.svid_validator_close(handle);
        ended();
    }

    /** The validator is closed, and the lock is held. */
    void ended() {}

    final void tick(long now) {
        try (Arena lent = new Arena()) {
            CallDetails said = new CallDetails(lent);
            said.must(locked(v -> Library.svid_validator_tick(v, now, said.at)));
        }
    }

    final void take(long now, byte[] messages) {
        try (Arena lent = new Arena()) {
            CallDetails said = new CallDetails(lent);
            Pointer text = lent.put(messages);
            said.must(locked(v -> Library.svid_validator_take(v, now, text, messages.length, said.at)));
        }
    }

    /** Takes messages, and gives the keys of the tokens that they show to be accepted more than once. */
    final List<TokenKey> takeAndTell(long now, byte[] messages) {
        Twice twice;
        synchronized (this) {
            twice = Twice.of(messages, this::bucket);
            take(now, messages);
        }
        return twice.news();
    }

    /** The entries whose keys begin with this byte, as messages. */
    private byte[] bucket(int number) {
        try (Arena lent = new Arena()) {
            CallDetails said = new CallDetails(lent);
            Output written = Output.by(
                    lent, said, USUAL, (to, toLen) -> Library.svid_validator_bucket(open(), (byte) number, 0, to, toLen, said.at));
            said.must(written.status());
            return written.bytes();
        }
    }

    /**
     * Replaces the bundles. They are read before the lock is taken, and the old ones are freed after it.
     *
     * @param then what changes with them, before another call sees them
     */
    final void renew(byte[] bundles, Call then) {
        try (Arena lent = new Arena()) {
            CallDetails said = new CallDetails(lent);
            Pointer fresh = lent.take(Library.Handle.SIZE);
            fresh.clear(Library.Handle.SIZE);
            Pointer text = lent.put(bundles);
            said.must(Library.svid_bundles_open(fresh, text, bundles.length, said.at));
            try {
                said.must(locked(v -> {
                    edition++;
                    int status = Library.svid_validator_renew_by(v, fresh, said.at);
                    return status == 0 ? then.on(v) : status;
                }));
                signatures.forget();
            } finally {
                // (now it has the old ones)
                Library.svid_bundles_close(fresh);
            }
        }
    }

    /** Reads a token. What is none also advances the record. */
    final Token read(byte[] bytes, long now) throws Refusal {
        Token token = new Token(bytes);
        int status = token.status;
        if (status == 0) {
            return token;
        }
        token.close();
        Refusal.Reason reason = Refusal.Reason.of(status);
        if (reason == null) {
            throw SvidException.of(status, told);
        }
        tick(now);
        throw new Refusal(reason);
    }

    /** Says what a check would, and adds nothing. */
    final Admission judge(byte[] bytes, long now) throws Refusal {
        try (Token token = read(bytes, now)) {
            Admission admission = judged(token, now);
            if (callers != null && callers.stream().noneMatch(it -> it.allows(admission.spiffeId()))) {
                throw new SvidException.NotAllowed();
            }
            return admission;
        }
    }

    private Admission judged(Token token, long now) throws Refusal {
        while (true) {
            find(token);
            synchronized (this) {
                Pointer v = open();
                if (token.edition != edition) {
                    continue;
                }
                Signatures.Found found = token.found;
                int status = Library.svid_validator_judge_token(v, now, found.key(), found.keyLen(), token.input(), found.signed(),
                        found.signature(), found.signatureLen(), token.at, out, Library.ID_ROOM, used, told.at);
                found.mustBeKnown(status);
                if (status == Refusal.Reason.UNKNOWN_DOMAIN.number()) {
                    mustHaveBundle(token);
                }
                told.accept(status);
                return new Admission(subject(), Admission.Use.read(used), token.bytes, audiences);
            }
        }
    }

    /** Throws if the bundle by which a token is judged is to come: to refuse the token for that would be wrong. The lock is held. */
    abstract void mustHaveBundle(Token token) throws Refusal;

    /** The subject that the last call has written. */
    final SpiffeId subject() {
        return SpiffeId.of(Output.bytesOf(out, told.len()));
    }

    /** Finds the key that made the signature of a token, among those of the bundles now. The lock is free while signatures are verified. */
    final void find(Token token) {
        Output rows = Output.by(token.room, token.told, USUAL, (to, toLen) -> locked(v -> {
            token.edition = edition;
            return Library.svid_validator_ask_token(v, token.at, Library.MOST_CANDIDATES, to, toLen, token.told.at);
        }));
        // (another reason may come before this one, and the record is to see the time)
        if (Refusal.Reason.of(rows.status()) != null) {
            token.found = Signatures.Found.NONE;
            return;
        }
        token.told.must(rows.status());
        token.found = signatures.find(rows, token.bytes);
    }

    /** Withdraws the token with this key here. */
    final Admission.Use withdrawn(long now, TokenKey key, long expiry) {
        try (Arena lent = new Arena()) {
            CallDetails said = new CallDetails(lent);
            Pointer made = lent.take(Library.Use.SIZE);
            Pointer text = lent.put(key.bytes());
            said.must(locked(v -> Library.svid_validator_withdraw(v, now, text, expiry, made, said.at)));
            return Admission.Use.read(made);
        }
    }
}
