package svid;

/**
 * A token is refused. This is an answer about the token, and the only one: whatever else a call throws says nothing of it.
 *
 * <p>Its message has nothing of the token, so you can log it. It has no stack trace, since refusals are ordinary.
 */
public final class Refusal extends Denied {
    private static final long serialVersionUID = 1;

    private final Reason reason;

    Refusal(Reason reason) {
        super(reason + ": " + reason.sentence(), 401, reason.toString(),
                "Bearer error=\"invalid_token\", error_description=\"" + reason + "\"");
        this.reason = reason;
    }

    /** Why the token is refused. */
    public Reason reason() {
        return reason;
    }

    /** Why a token is refused: the first that holds, in this order. */
    public enum Reason {
        // clang-format off
        // lists:begin refusals (written by tools/lists from lists/refusals.toml)
        /** The token has more than 65,536 bytes. */
        TOO_LONG(101, "TooLong"),
        /** The token has not exactly two periods. */
        NOT_THREE_PARTS(102, "NotThreeParts"),
        /** The header is not base64url. */
        HEADER_SPELLING(103, "HeaderSpelling"),
        /** The header is no JSON object. */
        HEADER_NOT_OBJECT(104, "HeaderNotObject"),
        /** The header has a member {@code crit}. */
        CRIT(105, "Crit"),
        /** {@code alg} is none of the nine algorithms RS256 to RS512, ES256 to ES512 and PS256 to PS512. */
        ALG(106, "Alg"),
        /** {@code typ} is there, and is neither "JWT" nor "JOSE". */
        TYP(107, "Typ"),
        /** {@code kid} is there, and is no string. */
        KID(108, "Kid"),
        /** The payload is not base64url. */
        PAYLOAD_SPELLING(109, "PayloadSpelling"),
        /** The payload is no JSON object. */
        PAYLOAD_NOT_OBJECT(110, "PayloadNotObject"),
        /** The signature is empty, or not base64url. */
        SIGNATURE_SPELLING(111, "SignatureSpelling"),
        /** {@code sub} is no SPIFFE ID. */
        SUB(112, "Sub"),
        /** {@code aud} is neither a string nor a list of one or more strings. */
        AUD(113, "Aud"),
        /** {@code exp} is no whole number from 0 to 2^64-1, written with digits alone. */
        EXP(114, "Exp"),
        /** {@code nbf} is there, and is no whole number from 0 to 2^64-1. */
        NBF(115, "Nbf"),
        /** {@code jti} is there, and is no string. */
        JTI(116, "Jti"),
        /** No value of {@code aud} is one of the validator's audiences. */
        NOT_AUDIENCE(117, "NotAudience"),
        /** The token has expired: {@code exp} is not greater than the record's moment. */
        EXPIRED(118, "Expired"),
        /** The token is not valid yet: {@code nbf} is greater than the record's moment. */
        NOT_YET(119, "NotYet"),
        /** The token expires more than {@code longest} seconds past the record's moment. */
        TOO_LONG_LIVED(120, "TooLongLived"),
        /** The bundles have no trust domain of this name. */
        UNKNOWN_DOMAIN(121, "UnknownDomain"),
        /** The trust domain has no key that fits {@code alg} and {@code kid}. */
        NO_KEY(122, "NoKey"),
        /** No key among the first 3 that fit made the signature. */
        BAD_SIGNATURE(123, "BadSignature"),
        /** The token was withdrawn. */
        WITHDRAWN(124, "Withdrawn"),
        /** The token was accepted before, here or by a validator whose messages were taken. */
        REPLAYED(125, "Replayed");
        // lists:end
        // clang-format on

        private static final Reason[] ALL = values();

        private final int number;
        private final String name;

        Reason(int number, String name) {
            this.number = number;
            this.name = name;
        }

        static Reason of(int number) {
            for (Reason it : ALL) {
                if (it.number == number) {
                    return it;
                }
            }
            return null;
        }

        /** Its number in the C library, which stays the same in all versions. */
        public int number() {
            return number;
        }

        /** What holds of the token. */
        public String sentence() {
            return StatusText.of(number, name).says();
        }

        /** Its name as all languages and the program {@code svid} have it, such as "Replayed". */
        @Override
        public String toString() {
            return name;
        }
    }
}
