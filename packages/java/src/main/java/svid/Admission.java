package svid;

import com.google.gson.Gson;
import com.google.gson.GsonBuilder;
import com.google.gson.ToNumberPolicy;
import com.sun.jna.Pointer;
import java.nio.charset.StandardCharsets;
import java.time.Instant;
import java.util.List;
import java.util.Map;

/** A token that a validator accepted, or would accept. */
public final class Admission {
    private static final Gson GSON = new GsonBuilder().setObjectToNumberStrategy(ToNumberPolicy.LONG_OR_DOUBLE).create();

    private final SpiffeId spiffeId;
    private final Use use;
    private final byte[] token;
    private final List<byte[]> own; // the validator's audiences

    Admission(SpiffeId spiffeId, Use use, byte[] token, List<byte[]> own) {
        this.spiffeId = spiffeId;
        this.use = use;
        this.token = token;
        this.own = own;
    }

    /** The token's subject. */
    public SpiffeId spiffeId() {
        return spiffeId;
    }

    /** The first of the token's audiences that is one of the validator's. */
    public String audience() {
        List<String> names = own.stream().map(it -> new String(it, StandardCharsets.UTF_8)).toList();
        return said().audiences().stream().filter(names::contains).findFirst().orElseThrow();
    }

    /** The name of the key that its header names; "" where it names none. */
    public String keyId() {
        return said().keyId();
    }

    private Says said() {
        try {
            return Says.of(token);
        } catch (Refusal why) {
            throw new IllegalStateException(why);
        }
    }

    /**
     * All claims, as Gson reads the payload: texts, booleans, lists and maps; a number is a Long, or a Double where it is none of 64 bits.
     * Of a name that stands there twice the last value counts.
     *
     * @return a new map, which you may change
     */
    public Map<String, Object> claims() {
        try (Arena room = new Arena()) {
            CallDetails told = new CallDetails(room);
            Pointer text = room.put(token);
            Output payload = Output.by(
                    room, told, token.length, (out, outLen) -> Library.svid_token_payload(text, token.length, out, outLen, told.at));
            told.must(payload.status());
            @SuppressWarnings("unchecked") // (the payload of an accepted token is an object)
            Map<String, Object> claims =
                    (Map<String, Object>) GSON.fromJson(new String(payload.bytes(), StandardCharsets.UTF_8), Object.class);
            return claims;
        }
    }

    /** When the token expires; {@link Instant#MAX} for what lies after that. */
    public Instant expiry() {
        return Times.instantOf(use.exp);
    }

    /** When the token expires, in seconds since 1970, as a number without a sign. */
    public long expirySeconds() {
        return use.exp;
    }

    /** The record's moment at which the token was judged. */
    public Instant at() {
        return Times.instantOf(use.at);
    }

    /** By which all uses of the token are known: to withdraw it, say. */
    public TokenKey key() {
        return TokenKey.of(use.key);
    }

    /**
     * The use as a message, for {@link Validator#take} of other validators. Messages are put one after the other.
     *
     * @throws SvidException.OutOfMemory where there is no memory: make the call again
     */
    public byte[] message() {
        return use.message(false);
    }

    /** A use as the library tells it. */
    record Use(long exp, long at, byte[] key, byte[] validatorId) {
        static Use read(Pointer used) {
            return new Use(used.getLong(Library.Use.EXP), used.getLong(Library.Use.AT), used.getByteArray(Library.Use.KEY, TokenKey.LEN),
                    used.getByteArray(Library.Use.VALIDATOR_ID, 16));
        }

        byte[] message(boolean isWithdrawn) {
            return Twice.written(List.of(new Twice.Entry(isWithdrawn, exp, at, key, validatorId)));
        }
    }
}
