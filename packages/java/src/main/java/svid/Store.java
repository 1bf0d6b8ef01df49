package svid;

import java.time.Instant;
import java.util.List;
import java.util.Objects;

/**
 * The store of a group, where validators of the modes {@link Mode#STRICT} and {@link Mode#BOUND} claim tokens, and those of all modes share
 * withdrawals. Write it over the client of your database.
 *
 * <p>It keeps the first claim of each token key:
 *
 * <ul>
 *   <li>Two puts of one key never overlap, whoever makes them.
 *   <li>An entry stays until its token has expired by the store's own clock, and for a margin after that: at least the {@code ahead} of the
 *       validators, and what the clock of the store may step back.
 *   <li>Before it answers again after it may have lost entries, it raises {@link Found#deaf}: to its time at the loss, plus the
 *       {@code longest} of the validators, plus twice their {@code ahead}.
 * </ul>
 *
 * <p>Several threads call it at once. A call that fails throws anything: then nobody knows what the store has, and the validator puts the
 * same claims again. A call must end within some seconds, even if the server does not answer.
 */
public interface Store {
    /**
     * Puts each claim if its key has no owner yet, and says what each key has afterwards. Answers in the order of the claims.
     *
     * @param claims none where a validator only asks whether the store is there; the list can't be changed
     */
    List<Found> put(List<Claim> claims) throws Exception;

    /**
     * Withdraws a token: from now on each put of this key finds {@link Owner#WITHDRAWN}, whoever claimed it before. The entry stays as one
     * with this expiry does.
     */
    void withdraw(TokenKey key, Instant expiry) throws Exception;

    /**
     * Tells of the withdrawals after a position, for validators of all modes but {@link Mode#STRICT}: they ask once a second, again and
     * again until the position stays. Without this method they hear of none.
     *
     * @param after the {@code last} of an earlier call, or "" at first. A position that the store does not know gives all again
     * @return at most some thousands
     */
    default Withdrawals withdrawals(String after) throws Exception {
        return new Withdrawals(List.of(), after);
    }

    /**
     * A token that nobody accepts any more.
     *
     * @param key by which all uses of the token are known
     * @param expiry when the token expires; {@link Instant#MAX} for what lies after that
     */
    record Withdrawal(TokenKey key, Instant expiry) {}

    /**
     * Withdrawals, and up to where they were read.
     *
     * @param these in their order
     * @param last the position after them; that of the call where there are none
     */
    record Withdrawals(List<Withdrawal> these, String last) {}

    /**
     * What is put under a key that has no owner yet.
     *
     * @param key by which all uses of the token are known
     * @param owner whose claim it is
     * @param expiry when the token expires; {@link Instant#MAX} for what lies after that
     */
    record Claim(TokenKey key, Owner owner, Instant expiry) {}

    /**
     * What a store answers to a claim.
     *
     * @param owner what the key has after the put; it may be the owner of an earlier claim
     * @param time the store's time, read at the put or after it
     * @param deaf tokens that expire by then may have been claimed before the store lost entries: no validator accepts them. It is
     *     {@link Instant#EPOCH} if the store never lost one
     */
    record Found(Owner owner, Instant time, Instant deaf) {
        /** Requires all three. */
        public Found {
            Objects.requireNonNull(owner);
            Objects.requireNonNull(time);
            Objects.requireNonNull(deaf);
        }
    }
}
