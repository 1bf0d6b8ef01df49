package svid;

import static org.junit.Assert.assertArrayEquals;
import static org.junit.Assert.assertEquals;
import static org.junit.Assert.assertFalse;
import static org.junit.Assert.assertNotEquals;
import static org.junit.Assert.assertNull;
import static org.junit.Assert.assertSame;
import static org.junit.Assert.assertThrows;
import static org.junit.Assert.assertTrue;
import static svid.Vectors.NOW;
import static svid.Vectors.bundles;
import static svid.Vectors.ledger;
import static svid.Vectors.ledgerAt;
import static svid.Vectors.tokens;

import com.google.gson.JsonElement;
import com.google.gson.JsonObject;
import com.google.gson.JsonParser;
import java.lang.reflect.Field;
import java.lang.reflect.Modifier;
import java.nio.charset.StandardCharsets;
import java.nio.file.Path;
import java.security.Provider;
import java.security.ProviderException;
import java.security.Security;
import java.time.Duration;
import java.time.Instant;
import java.util.ArrayList;
import java.util.LinkedHashMap;
import java.util.List;
import java.util.Map;
import java.util.Objects;
import java.util.Optional;
import java.util.concurrent.atomic.AtomicInteger;
import java.util.function.UnaryOperator;
import java.util.stream.IntStream;
import org.junit.Test;
import svid.testing.Issuer;
import svid.testing.TestClock;

/** What the vectors don't have: the calls of the API, and what each throws. */
public class ValidatorTest {
    private static final long END = 4_102_444_800L;

    private static Validator opened() {
        return Validator.open(ledgerAt(NOW), bundles());
    }

    private static Refusal.Reason refused(org.junit.function.ThrowingRunnable call) {
        return assertThrows(Refusal.class, call).reason();
    }

    @Test
    public void acceptsATokenOnce() throws Refusal {
        String token = tokens().get(0);
        try (Validator validator = opened()) {
            Admission admission = validator.check(token);
            assertEquals("spiffe://example.org/billing/api", admission.spiffeId().toString());
            assertEquals("example.org", admission.spiffeId().trustDomain());
            assertEquals("/billing/api", admission.spiffeId().path());
            assertEquals(Instant.ofEpochSecond(END), admission.expiry());
            assertEquals(END, admission.expirySeconds());
            assertEquals(Instant.ofEpochSecond(NOW), admission.at());
            assertEquals(Validator.says(token).key(), admission.key());
            Refusal why = assertThrows(Refusal.class, () -> validator.check(token));
            assertEquals(Refusal.Reason.REPLAYED, why.reason());
            assertEquals("Replayed: The token was accepted before, here or by a validator whose messages were taken.", why.getMessage());
            assertEquals(401, why.status());
            assertEquals("Bearer error=\"invalid_token\", error_description=\"Replayed\"", why.challenge());
            assertEquals(0, why.getStackTrace().length);
            assertEquals(new Validator.Size(Instant.ofEpochSecond(NOW), 1), validator.size());
        }
    }

    /** A bundle that ends early would bring keys for another trust domain, where somebody puts it between texts. */
    @Test
    public void joinsBundles() throws Refusal {
        byte[] own = JsonParser.parseString(bundles()).getAsJsonObject().get("example.org").toString().getBytes(StandardCharsets.UTF_8);
        byte[] none = "{\"keys\":[]}".getBytes(StandardCharsets.UTF_8);
        byte[] ends = "{\"keys\":[]},\"example.org\":{\"keys\":[]}".getBytes(StandardCharsets.UTF_8);
        try (Validator validator = Validator.open(ledgerAt(NOW), Bundles.join(Map.of("example.org", own, "foreign.org", none)))) {
            validator.check(tokens().get(0));
        }
        SvidException.BadBundles why =
                assertThrows(SvidException.BadBundles.class, () -> Bundles.join(Map.of("example.org", own, "foreign.org", ends)));
        assertEquals("NotObject", why.reason());
        assertEquals(Optional.of("foreign.org"), why.trustDomain());
        assertTrue(why.getMessage(), why.getMessage().startsWith("\"foreign.org\": The bundles are no JSON object."));
        byte[] deep = ("{\"keys\":[],\"x\":"
                + "[".repeat(127) + "]".repeat(127) + "}")
                              .getBytes(StandardCharsets.UTF_8);
        why = assertThrows(SvidException.BadBundles.class, () -> Bundles.join(Map.of("example.org", own, "foreign.org", deep)));
        assertEquals(Optional.of("foreign.org"), why.trustDomain());
        why = assertThrows(SvidException.BadBundles.class, () -> Bundles.join(Map.of("a.org", none, "spiffe://a.org", none)));
        assertEquals("Twice", why.reason());
        for (String name : List.of("", "A", "a/b", "spiffe://a/b", "a\":1,\"b", "a\nb\u001b[2J\u2028")) {
            why = assertThrows(name, SvidException.BadBundles.class, () -> Bundles.join(Map.of(name, none)));
            assertTrue("a log has one line of it", why.getMessage().matches("[ -~]+"));
        }
        assertThrows(SvidException.BadBundles.class, () -> Bundles.join(Map.of("a.org", new byte[0])));
        assertEquals("{}", new String(Bundles.join(Map.of()), StandardCharsets.UTF_8));
    }

    /** Which keys are for tokens, the bundle says: those of X.509 certificates are not, nor are those that say nothing. */
    @Test
    public void keysOfOtherUsesDoNotCount() throws Refusal {
        Issuer issuer = new Issuer("example.org");
        String bundle = new String(issuer.bundle(), StandardCharsets.UTF_8);
        for (String use : List.of("\"use\":\"jwt-svid\",", "\"use\":\"x509-svid\",", "")) {
            byte[] one = bundle.replace("\"use\":\"jwt-svid\",", use).getBytes(StandardCharsets.UTF_8);
            try (Validator validator = Validator.open(ledger(), Bundles.join(Map.of("example.org", one)))) {
                String token = issuer.token("/a", "ledger");
                if (use.contains("jwt-svid")) {
                    validator.check(token);
                } else {
                    assertEquals(use, Refusal.Reason.NO_KEY, refused(() -> validator.check(token)));
                }
            }
        }
    }

    @Test
    public void judgesWithoutAUse() throws Refusal {
        try (Validator validator = opened()) {
            for (int n = 0; n < 2; n++) {
                assertEquals("/billing/api", validator.judge(tokens().get(0)).spiffeId().path());
            }
            assertEquals(0, validator.size().uses());
            validator.check(tokens().get(0));
            assertEquals(Refusal.Reason.REPLAYED, refused(() -> validator.judge(tokens().get(0))));
        }
    }

    /** Refusals by the keys are not the first: a token that has expired too is refused for that, and the record sees the time. */
    @Test
    public void theFirstReasonCounts() {
        List<String> tokens = tokens();
        try (Validator validator = opened()) {
            assertEquals(Refusal.Reason.NO_KEY, refused(() -> validator.check(tokens.get(4))));
            assertEquals(Refusal.Reason.UNKNOWN_DOMAIN, refused(() -> validator.check(tokens.get(5))));
            assertEquals(Instant.ofEpochSecond(NOW), validator.size().moment());
        }
        try (Validator late = Validator.open(ledgerAt(END), bundles())) {
            assertEquals(Refusal.Reason.EXPIRED, refused(() -> late.check(tokens.get(4))));
            assertEquals(Refusal.Reason.EXPIRED, refused(() -> late.check(tokens.get(0))));
        }
    }

    @Test
    public void admitsByOneHeader() throws Denied {
        String value = "Bearer " + tokens().get(0);
        try (Validator validator = opened()) {
            assertEquals("Several", assertThrows(Denied.NoToken.class, () -> validator.admit(List.of(value, value))).why());
            assertEquals("Several", assertThrows(Denied.NoToken.class, () -> validator.admit(List.of(value, "Basic x"))).why());
            assertEquals("/billing/api", validator.admit(List.of(value)).spiffeId().path());
            assertEquals(Refusal.Reason.REPLAYED, refused(() -> validator.admit(List.of(value))));
            for (List<String> values : new ArrayList<>(java.util.Arrays.asList(null, List.<String>of()))) {
                Denied.NoToken none = assertThrows(Denied.NoToken.class, () -> validator.admit(values));
                assertEquals("Absent 401 Bearer realm=\"svid\"", none.why() + " " + none.status() + " " + none.challenge());
            }
            Denied.NoToken spelling = assertThrows(Denied.NoToken.class, () -> validator.admit(List.of("Bearer")));
            assertEquals("Bearer error=\"invalid_request\", error_description=\"NotBearer\"", spelling.challenge());
            // (a character that is no byte)
            assertEquals("Spelling", assertThrows(Denied.NoToken.class, () -> validator.admit(List.of(value + "\u0141"))).why());
        }
    }

    @Test
    public void onlySomeMayCall() throws Denied {
        List<String> values = List.of("Bearer " + tokens().get(0));
        try (Validator validator = opened()) {
            for (List<IdPattern> callers : List.of(List.<IdPattern>of(), List.of(IdPattern.of("spiffe://example.org/other/*")))) {
                Denied.NotAllowed why = assertThrows(Denied.NotAllowed.class, () -> validator.admit(values, callers));
                assertEquals(403, why.status());
                assertEquals("Bearer error=\"insufficient_scope\", error_description=\"NotAllowed\"", why.challenge());
            }
            assertEquals("the token stays good", 0, validator.size().uses());
            List<IdPattern> both = List.of(IdPattern.of("spiffe://example.org/other"), IdPattern.of("spiffe://example.org/billing/*"));
            assertEquals("/billing/api", validator.admit(values, both).spiffeId().path());
            assertEquals(1, validator.size().uses());
            assertEquals(Refusal.Reason.REPLAYED, refused(() -> validator.admit(values, both)));
            // A bad token is refused for what it is, whoever calls.
            assertEquals(Refusal.Reason.REPLAYED, refused(() -> validator.admit(values, List.of())));
        }
    }

    @Test
    public void renewsTheBundles() throws Refusal {
        List<String> tokens = tokens();
        try (Validator validator = Validator.open(ledgerAt(NOW), "{}")) {
            assertEquals(Refusal.Reason.UNKNOWN_DOMAIN, refused(() -> validator.check(tokens.get(0))));
            validator.renew(bundles());
            validator.check(tokens.get(0));
            SvidException.BadBundles why =
                    assertThrows(SvidException.BadBundles.class, () -> validator.renew("{\"a\":{\"keys\":[]},\"b\":[]}"));
            assertEquals("Keys 1", why.reason() + " " + why.index());
            assertEquals("NotObject", assertThrows(SvidException.BadBundles.class, () -> validator.renew("[]")).reason());
            validator.check(tokens.get(1));
            assertEquals(Refusal.Reason.REPLAYED, refused(() -> validator.check(tokens.get(0))));
            validator.renew("{\"example.org\":{\"keys\":[]}}");
            assertEquals(Refusal.Reason.NO_KEY, refused(() -> validator.check(tokens.get(2))));
        }
        assertThrows(SvidException.BadBundles.class, () -> Validator.open(ledger(), "[]"));
        assertThrows(IllegalArgumentException.class, () -> Validator.open(ledger(), "{\"\ud800\":1}"));
        assertThrows(SvidException.TooMuch.class, () -> Validator.open(ledger(), new byte[67_108_865]));
    }

    @Test
    public void withdrawalsReachOthers() throws Refusal {
        List<String> tokens = tokens();
        try (Validator here = opened(); Validator there = opened()) {
            byte[] message = here.withdraw(tokens.get(0));
            assertArrayEquals(message, here.withdraw(tokens.get(0)));
            assertEquals(Refusal.Reason.WITHDRAWN, refused(() -> here.check(tokens.get(0))));
            there.check(tokens.get(0));
            there.take(message);
            assertEquals(Refusal.Reason.WITHDRAWN, refused(() -> there.check(tokens.get(0))));
            Admission admission = here.check(tokens.get(1));
            there.take(here.withdraw(admission.key(), admission.expiry()));
            assertEquals(Refusal.Reason.WITHDRAWN, refused(() -> there.check(tokens.get(1))));
            there.take(here.messages());
            here.take(there.messages());
            assertArrayEquals(here.messages(), there.messages());
            assertThrows(SvidException.Gone.class, () -> here.withdraw(admission.key(), Instant.ofEpochSecond(NOW)));
            assertEquals(Refusal.Reason.NOT_THREE_PARTS, refused(() -> here.withdraw("none")));
        }
    }

    @Test
    public void processesShareByMessages() throws Refusal {
        String token = tokens().get(0);
        try (Validator here = opened(); Validator there = opened(); Validator late = opened()) {
            Admission admission = here.check(token);
            there.take(admission.message());
            assertEquals(Refusal.Reason.REPLAYED, refused(() -> there.check(token)));
            late.take(there.answer(late.summary()));
            assertEquals(Refusal.Reason.REPLAYED, refused(() -> late.check(token)));
            assertEquals("NotSummary", assertThrows(SvidException.BadMessages.class, () -> late.answer(here.messages())).reason());
            SvidException.BadMessages why = assertThrows(SvidException.BadMessages.class, () -> late.take(new byte[] {'J', 'S', 'R'}));
            assertEquals("Truncated 1 3", why.reason() + " " + why.message() + " " + why.offset());
            assertTrue(late.report(), late.report().startsWith("moment " + NOW + "\nuses 1\n"));
        }
    }

    /** A record is longer than any room that a call begins with. */
    @Test
    public void aLongRecordIsWhole() {
        try (Validator here = opened(); Validator there = opened()) {
            for (int number = 0; number < 1000; number++) {
                byte[] key = new byte[32];
                key[0] = (byte) number;
                key[1] = (byte) (number >> 8);
                here.withdraw(TokenKey.of(key), Instant.ofEpochSecond(END));
            }
            there.take(here.messages());
            assertEquals(1000, there.size().uses());
            assertArrayEquals(here.summary(), there.summary());
            assertEquals(here.report(), there.report());
            try (Validator third = opened()) {
                third.take(here.answer(third.summary()));
                assertArrayEquals(here.messages(), third.messages());
            }
        }
    }

    @Test
    public void saysWhatATokenSays() throws Refusal {
        Says says = Validator.says(tokens().get(0));
        assertEquals("ES256", says.algorithm());
        assertEquals("spiffe://example.org/billing/api", says.spiffeId().toString());
        assertEquals("example.org", says.spiffeId().trustDomain());
        assertEquals("ec-1", says.keyId());
        assertEquals(List.of("ledger"), says.audiences());
        assertEquals(Instant.ofEpochSecond(END), says.expiry());
        assertEquals(Refusal.Reason.NOT_THREE_PARTS, refused(() -> Validator.says("")));
    }

    /** A token may be for any number of services, whose names have any length. */
    @Test
    public void aTokenForMany() throws Exception {
        for (int longest : new int[] {0, 200}) {
            String[] audiences = IntStream.range(0, 200).mapToObj(it -> it + "x".repeat(Math.min(it, longest))).toArray(String[] ::new);
            String token = new Issuer("example.org").token("/a", audiences);
            assertEquals(List.of(audiences), Making.given("what a token says", () -> Validator.says(token)).audiences());
        }
    }

    /** Times that no Instant has are the last Instant, which stands for all of them. */
    @Test
    public void timesWithoutEnd() throws Refusal {
        JsonObject file = JsonParser.parseString(Vectors.text("tests/vectors/tokens.json")).getAsJsonObject();
        int count = 0;
        for (JsonElement it : file.getAsJsonArray("vectors")) {
            JsonObject call = it.getAsJsonObject().getAsJsonArray("calls").get(0).getAsJsonObject();
            String answer = call.get("answer").getAsString();
            if (answer.startsWith("accepted") && answer.endsWith(" 18446744073709551615") && !it.getAsJsonObject().has("setting")) {
                try (Validator validator = Validator.open(ledgerAt(NOW), file.getAsJsonObject("bundles").get("usual").getAsString())) {
                    Admission admission = validator.check(call.get("token").getAsString());
                    assertEquals(Instant.MAX, admission.expiry());
                    assertEquals("18446744073709551615", Long.toUnsignedString(admission.expirySeconds()));
                    validator.withdraw(admission.key(), admission.expiry());
                    try (Validator other = Validator.open(ledgerAt(NOW), "{}")) {
                        other.withdraw(admission.key(), admission.expiry());
                        assertEquals("it ends with the token", last(validator.messages()), last(other.messages()));
                    }
                    count++;
                }
            }
        }
        assertTrue(count > 0);
        assertEquals(Instant.MAX, Times.instantOf(Long.MAX_VALUE));
        assertEquals(Instant.EPOCH, Times.instantOf(0));
        assertEquals(0, Times.expiryOf(Instant.MIN));
    }

    /** When the last entry of a record expires. */
    private static String last(byte[] messages) {
        return Vectors.hex(messages).substring(2 * (messages.length - 65), 2 * (messages.length - 57));
    }

    @Test
    public void theClockIsLookedAt() throws Refusal {
        TestClock hand = new TestClock(Instant.ofEpochSecond(NOW));
        try (Validator validator = Validator.open(ledger().step(Duration.ofSeconds(60)).clock(hand), bundles())) {
            validator.tick();
            hand.advance(Duration.ofSeconds(61));
            assertThrows(SvidException.Jump.class, validator::tick);
            assertThrows(SvidException.Jump.class, () -> validator.check(tokens().get(0)));
            hand.advance(Duration.ofSeconds(-1));
            validator.check(tokens().get(0));
            assertEquals(hand.instant(), validator.size().moment());
            hand.set(Instant.ofEpochSecond(-1));
            assertThrows(SvidException.NoClock.class, () -> validator.check(tokens().get(1)));
            hand.set(Instant.ofEpochSecond(NOW));
            try (Validator late = Validator.open(ledgerAt(NOW + 100), "{}")) {
                late.tick();
                assertThrows(SvidException.TooFar.class, () -> validator.take(late.messages()));
                assertThrows(SvidException.TooFar.class, () -> validator.answer(late.summary()));
            }
        }
    }

    /** Whatever is shown, the record sees the time: also by what is no token. */
    @Test
    public void eachCallSeesTheTime() throws Exception {
        TestClock hand = new TestClock(Instant.ofEpochSecond(NOW));
        String signed = tokens().get(0);
        String bad = signed.substring(0, signed.length() - 6) + "AAAAAA";
        try (Validator validator = Validator.open(ledger().step(Duration.ofSeconds(60)).clock(hand), bundles())) {
            validator.tick();
            for (String token : List.of("none", bad, tokens().get(4), tokens().get(5), signed)) {
                for (Shown call : List.<Shown>of(validator::check, validator::judge, it -> validator.admit(List.of("Bearer " + it)))) {
                    hand.advance(Duration.ofSeconds(1));
                    Vectors.answer(() -> call.as(token).toString());
                    assertEquals(token, hand.instant(), validator.size().moment());
                    hand.advance(Duration.ofSeconds(61));
                    assertThrows(token, SvidException.Jump.class, () -> call.as(token));
                    hand.advance(Duration.ofSeconds(-61));
                }
            }
        }
    }

    /** A call that is shown a token. */
    private interface Shown {
        Admission as(String token) throws Denied;
    }

    @Test
    public void limitsOfALife() {
        try (Validator validator = Validator.open(ledgerAt(NOW).longest(Duration.ofHours(1)), bundles())) {
            assertEquals(Refusal.Reason.TOO_LONG_LIVED, refused(() -> validator.check(tokens().get(0))));
        }
        assertThrows(IllegalArgumentException.class, () -> ledger().longest(Duration.ofSeconds(-1)));
        assertThrows(IllegalArgumentException.class, () -> ledger().validatorId(new byte[15]));
        assertThrows(IllegalArgumentException.class, () -> ledger().rsaBits(-1));
        assertThrows(IllegalArgumentException.class, () -> Options.audiences("\udc00"));
        assertThrows(IllegalArgumentException.class, () -> TokenKey.of(new byte[31]));
    }

    /** Options are values: each stays as it is, and the validator ID is random unless it is given. */
    @Test
    public void optionsStay() throws Refusal {
        Options options = ledgerAt(NOW);
        byte[] id = "0123456789abcdef".getBytes(java.nio.charset.StandardCharsets.UTF_8);
        Options named = options.validatorId(id);
        id[0] = 'x';
        assertEquals('0', named.idOrRandom()[0]);
        assertNotEquals(Vectors.hex(options.idOrRandom()), Vectors.hex(options.idOrRandom()));
        assertNotSameLimits(options, options.longest(Duration.ofSeconds(1)));
        assertEquals(30, options.ahead());
        try (Validator first = Validator.open(named, bundles()); Validator second = Validator.open(named, bundles())) {
            assertArrayEquals(first.check(tokens().get(0)).message(), second.check(tokens().get(0)).message());
        }
    }

    /** An option changes what it is for, and leaves all others as they were set. */
    @Test
    public void eachOptionLeavesTheOthers() throws Exception {
        Map<String, UnaryOperator<Options>> all = new LinkedHashMap<>();
        all.put("longest", it -> it.longest(Duration.ofSeconds(7)));
        all.put("ahead", it -> it.ahead(Duration.ofSeconds(8)));
        all.put("step", it -> it.step(Duration.ofSeconds(9)));
        all.put("validatorId", it -> it.validatorId(new byte[16]));
        all.put("rsaBits", it -> it.rsaBits(2048));
        all.put("clock", it -> it.clock(new TestClock()));
        all.put("mode", it -> it.mode(Mode.BOUND));
        all.put("store", it -> it.store(new MemoryStore()));
        all.put("callers", it -> it.callers(IdPattern.of("spiffe://example.org")));
        all.put("state", it -> it.state(Path.of("state")));
        all.put("denied", it -> it.denied(why -> {}));
        all.put("twice", it -> it.twice(key -> {}));
        all.put("wait", it -> it.wait(Duration.ofSeconds(10)));
        // (a copy, since each constructor makes hooks of its own)
        Options usual = Options.audiences("ledger").longest(Duration.ofHours(1));
        Options full = usual;
        for (UnaryOperator<Options> it : all.values()) {
            full = it.apply(full);
        }
        for (Field field : Options.class.getDeclaredFields()) {
            if (Modifier.isStatic(field.getModifiers())) {
                continue;
            }
            field.setAccessible(true);
            String name = field.getName();
            assertTrue(name, name.equals("audiences") || !Objects.equals(field.get(usual), field.get(full)));
            for (Map.Entry<String, UnaryOperator<Options>> it : all.entrySet()) {
                if (!it.getKey().equals(name)) {
                    assertEquals(it.getKey() + " and " + name, field.get(full), field.get(it.getValue().apply(full)));
                }
            }
        }
    }

    private static void assertNotSameLimits(Options before, Options after) {
        assertEquals(-1, before.longest());
        assertEquals(1, after.longest());
    }

    @Test
    public void aClosedValidatorAnswersNothing() throws Refusal {
        Validator validator = opened();
        byte[] messages = validator.messages();
        TokenKey key = Validator.says(tokens().get(0)).key();
        validator.close();
        validator.close();
        for (org.junit.function.ThrowingRunnable call : List.<org.junit.function.ThrowingRunnable>of(
                     ()
                             -> validator.check(tokens().get(0)),
                     ()
                             -> validator.judge(tokens().get(0)),
                     ()
                             -> validator.admit(List.of("Bearer " + tokens().get(0))),
                     validator::tick,
                     ()
                             -> validator.take(messages),
                     validator::messages, validator::summary, validator::report, validator::size,
                     ()
                             -> validator.answer(messages),
                     () -> validator.renew("{}"), () -> validator.withdraw(tokens().get(0)), () -> validator.withdraw(key, Instant.MAX))) {
            assertThrows(SvidException.Closed.class, call);
        }
    }

    /** What java.security can't do is no answer about the token. */
    @Test
    public void whatCanNotBeVerified() throws Refusal {
        Provider provider = Security.getProvider("SunEC");
        int order = List.of(Security.getProviders()).indexOf(provider) + 1;
        String token = tokens().get(0);
        try (Validator validator = opened()) {
            Security.removeProvider(provider.getName());
            try {
                assertThrows(SvidException.Unverifiable.class, () -> validator.check(token));
                assertThrows(SvidException.Unverifiable.class, () -> validator.judge(token));
                assertEquals(0, validator.size().uses());
                // A token that nobody can verify is refused for what comes before its signature.
                try (Validator late = Validator.open(ledgerAt(END), bundles())) {
                    assertEquals(Refusal.Reason.EXPIRED, refused(() -> late.check(token)));
                }
            } finally {
                Security.insertProviderAt(provider, order);
            }
            validator.check(token);
        }
    }

    /** A key that this Java can't use hides none after it. Where no other one made the signature, there is no answer. */
    @Test
    public void aKeyThatCanNotBeUsed() throws Refusal {
        Issuer issuer = new Issuer("example.org");
        Issuer stranger = new Issuer("example.org");
        JsonObject good = keyOf(issuer);
        JsonObject other = keyOf(stranger);
        other.add("kid", good.get("kid"));
        String token = issuer.token("/a", "ledger");
        String bad = issuer.wrong(Issuer.Wrong.SIGNATURE, "/a", "ledger");
        AtomicInteger count = new AtomicInteger();
        Provider fails = new ThreadsTest.Meanwhile(() -> {
            if (count.getAndIncrement() == 0) {
                throw new ProviderException("no such key");
            }
            return null;
        });
        Security.insertProviderAt(fails, 1);
        try (Validator validator = Validator.open(ledger(), "{\"example.org\":{\"keys\":[" + other + "," + good + "]}}")) {
            validator.check(token);
            assertEquals(2, count.get());
            assertEquals(Refusal.Reason.BAD_SIGNATURE, refused(() -> validator.check(bad)));
            count.set(0);
            assertThrows(SvidException.Unverifiable.class, () -> validator.check(bad));
        } finally {
            Security.removeProvider(fails.getName());
        }
    }

    private static JsonObject keyOf(Issuer issuer) {
        return JsonParser.parseString(new String(issuer.bundle(), StandardCharsets.UTF_8))
                .getAsJsonObject()
                .getAsJsonArray("keys")
                .get(0)
                .getAsJsonObject();
    }

    @Test
    public void patternsAndIdsAreValues() {
        SpiffeId id = SpiffeId.parse("spiffe://example.org/a");
        assertEquals(id, SpiffeId.parse("spiffe://example.org/a"));
        assertEquals(id.hashCode(), SpiffeId.parse("spiffe://example.org/a").hashCode());
        assertNotEquals(id, SpiffeId.parse("spiffe://example.org/b"));
        assertEquals("", SpiffeId.parse("spiffe://example.org").path());
        IdPattern pattern = IdPattern.of("spiffe://example.org/*");
        assertEquals(pattern, IdPattern.of("spiffe://example.org/*"));
        assertTrue(pattern.allows(id));
        assertFalse(pattern.allows(SpiffeId.parse("spiffe://example.org")));
        SvidException.BadId why = assertThrows(SvidException.BadId.class, () -> SpiffeId.parse("spiffe://example.org/a//b"));
        assertEquals("no SPIFFE ID (byte 23): The ID has an empty segment. Write an ID as spiffe://DOMAIN/PATH.", why.getMessage());
        assertEquals(TokenKey.of(new byte[32]), TokenKey.of(new byte[32]));
        assertEquals("00".repeat(32), TokenKey.of(new byte[32]).toString());
    }

    /** The list of refusals is that of lists/refusals.toml, in its order. */
    @Test
    public void reasonsAreThoseOfTheList() {
        List<String> due =
                Vectors.text("lists/refusals.toml").lines().filter(it -> it.startsWith("name = ") || it.startsWith("number = ")).toList();
        List<String> got = new ArrayList<>();
        for (Refusal.Reason it : Refusal.Reason.values()) {
            got.add("name = \"" + it + "\"");
            got.add("number = " + it.number());
            assertSame(it, Refusal.Reason.of(it.number()));
            assertFalse(it.sentence().isEmpty());
        }
        assertEquals(due, got);
        assertNull(Refusal.Reason.of(0));
        assertNull(Status.of(101));
    }

    /** Bytes and texts of any kind are answered. */
    @Test
    public void hostileTexts() throws Exception {
        java.util.Random random = new java.util.Random(1);
        String good = tokens().get(0);
        try (Validator validator = opened()) {
            byte[] record = validator.messages();
            for (int round = 0; round < 2000; round++) {
                StringBuilder text = new StringBuilder(round % 2 == 0 ? good : "");
                for (int n = random.nextInt(4); n >= 0; n--) {
                    int at = random.nextInt(text.length() + 1);
                    text.insert(at, (char) random.nextInt(random.nextBoolean() ? 128 : 65_536));
                }
                String token = text.toString();
                assertThrows(Denied.class, () -> validator.admit(List.of("Bearer " + token)));
                assertThrows(Refusal.class, () -> validator.check(token));
                byte[] bytes = new byte[random.nextInt(100)];
                random.nextBytes(bytes);
                System.arraycopy(record, 0, bytes, 0, Math.min(bytes.length, random.nextInt(record.length)));
                Vectors.answer(() -> {
                    validator.take(bytes);
                    return "taken";
                });
                Vectors.answer(() -> SpiffeId.parse(token).path());
            }
            validator.check(good);
        }
    }
}
