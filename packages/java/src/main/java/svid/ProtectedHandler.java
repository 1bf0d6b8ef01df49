package svid;

import com.sun.net.httpserver.HttpExchange;
import com.sun.net.httpserver.HttpHandler;
import java.io.IOException;
import java.nio.charset.StandardCharsets;
import java.util.Collection;
import java.util.List;
import java.util.Objects;
import java.util.function.Function;

/**
 * A handler for {@code com.sun.net.httpserver} that lets in requests with a good token, and answers all others as svidd does: with status
 * 401 or 403 and the challenge that {@link Denied} says, and with 503 and {@code Retry-After} where there is no answer about the token, as
 * while the store is away. No cache keeps these answers. Each has a JSON body with a {@code reason}, one word. The reason of a 503 is in
 * the system's logger "svid".
 */
public final class ProtectedHandler implements HttpHandler {
    private static final int UNAVAILABLE = 503;
    private static final int NO_BODY = -1;
    private static final Paths NONE = new Paths(List.of());

    private final Validator validator;
    private final Handler handler;
    private final Collection<IdPattern> callers; // null for all
    private final Function<HttpExchange, byte[]> caller; // null where that does not count
    private final Paths open;

    /** What the service does for a request that was let in. The exchange is closed after it. */
    public interface Handler {
        /**
         * Answers the request.
         *
         * @param admission its token; null at an open path
         */
        void handle(HttpExchange exchange, Admission admission) throws IOException;
    }

    /** Lets in each caller with a good token. */
    public ProtectedHandler(Validator validator, Handler handler) {
        this(validator, null, null, NONE, handler);
    }

    /**
     * Lets in the callers whose ID one of the patterns allows. Another one gets status 403, and its token is not used up.
     *
     * @throws IllegalArgumentException where the list is empty: the other constructor lets all in
     */
    public ProtectedHandler(Validator validator, Collection<IdPattern> callers, Handler handler) {
        this(validator, Options.named(callers), null, NONE, handler);
    }

    private ProtectedHandler(
            Validator validator, Collection<IdPattern> callers, Function<HttpExchange, byte[]> caller, Paths open, Handler handler) {
        this.validator = Objects.requireNonNull(validator);
        this.callers = callers;
        this.caller = caller;
        this.open = open;
        this.handler = Objects.requireNonNull(handler);
    }

    /**
     * The same handler for a validator of {@link Mode#BOUND}, which must know who presents a token.
     *
     * @param who gives bytes that tell who sends the request, as its address or its certificate
     */
    public ProtectedHandler caller(Function<HttpExchange, byte[]> who) {
        return new ProtectedHandler(validator, callers, Objects.requireNonNull(who), open, handler);
    }

    /**
     * The same handler, with paths that need no token, as those of health checks. There the handler gets no admission, and a token is not
     * looked at. "/healthz" is that path alone, and "/static/*" is each path below "/static". What may be read in two ways is on no list:
     * escapes, empty segments, "." and "..".
     *
     * @throws IllegalArgumentException for what is no path
     */
    public ProtectedHandler open(String... paths) {
        return new ProtectedHandler(validator, callers, caller, new Paths(List.of(paths)), handler);
    }

    @Override
    public void handle(HttpExchange exchange) throws IOException {
        try (exchange) {
            boolean isOpen = open.has(exchange.getRequestURI().getRawPath());
            Admission admission = isOpen ? null : admitted(exchange);
            if (isOpen || admission != null) {
                handler.handle(exchange, admission);
            }
        }
    }

    /** Lets the request in, or answers it and gives null. */
    private Admission admitted(HttpExchange exchange) throws IOException {
        try {
            byte[] who = caller == null ? null : Objects.requireNonNull(caller.apply(exchange), "the caller of a request");
            List<String> values = exchange.getRequestHeaders().get("Authorization");
            return validator.admit(values, callers, who);
        } catch (Denied why) {
            exchange.getResponseHeaders().set("WWW-Authenticate", why.challenge());
            answer(exchange, why.status(), why.word(), "refused");
        } catch (Exception why) {
            // (whatever it is, the server would end the connection without an answer, and tell nobody)
            Log.warn("no answer about a token", why);
            exchange.getResponseHeaders().set("Retry-After", "1");
            answer(exchange, UNAVAILABLE, why instanceof SvidException it ? it.word() : "NotJudged", "unavailable");
        }
        return null;
    }

    private static void answer(HttpExchange exchange, int status, String reason, String result) throws IOException {
        byte[] body = ("{\"reason\":\"" + reason + "\",\"result\":\"" + result + "\"}\n").getBytes(StandardCharsets.US_ASCII);
        exchange.getResponseHeaders().set("Cache-Control", "no-store");
        exchange.getResponseHeaders().set("Content-Type", "application/json");
        boolean isHead = exchange.getRequestMethod().equals("HEAD");
        exchange.sendResponseHeaders(status, isHead ? NO_BODY : body.length);
        if (!isHead) {
            exchange.getResponseBody().write(body);
        }
    }
}
