package svid;

/** Why a request is not let in, and the answer that is due. */
public abstract sealed class Denied extends Exception permits Refusal, Denied.NoToken, Denied.NotAllowed {
    private static final long serialVersionUID = 1;

    private final int status;
    private final String word;
    private final String challenge;

    Denied(String message, int status, String word, String challenge) {
        super(message, null, false, false);
        this.word = word;
        this.status = status;
        this.challenge = challenge;
    }

    /** The status of the answer: 401, or 403 for a caller that may not call. */
    public int status() {
        return status;
    }

    /** One word that says why, as svidd has it: NoToken, NotBearer, NotAllowed, or the name of a refusal. */
    public String word() {
        return word;
    }

    /** The header {@code WWW-Authenticate} of the answer (RFC 6750, section 3). */
    public String challenge() {
        return challenge;
    }

    /** The request has not exactly one bearer token. */
    public static final class NoToken extends Denied {
        private static final long serialVersionUID = 1;

        private final String why;

        NoToken(Status why) {
            super(why.label() + ": " + why.says(), 401, why == Status.BEARER_ABSENT ? "NoToken" : "NotBearer",
                    why == Status.BEARER_SEVERAL || why == Status.BEARER_SPELLING
                            ? "Bearer error=\"invalid_request\", error_description=\"NotBearer\""
                            : "Bearer realm=\"svid\"");
            this.why = why.label();
        }

        /** Absent, Several header fields, another Scheme, or a Spelling that is not one token. */
        public String why() {
            return why;
        }
    }

    /** The token is good, but no pattern allows its subject. The token is not used up. */
    public static final class NotAllowed extends Denied {
        private static final long serialVersionUID = 1;

        NotAllowed() {
            super("NotAllowed: the caller's SPIFFE ID is not among those that may call", 403, "NotAllowed",
                    "Bearer error=\"insufficient_scope\", error_description=\"NotAllowed\"");
        }
    }
}
