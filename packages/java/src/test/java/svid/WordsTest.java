package svid;

import static org.junit.Assert.assertEquals;
import static org.junit.Assert.assertThrows;
import static svid.Vectors.NOW;
import static svid.Vectors.bytes;
import static svid.Vectors.each;
import static svid.Vectors.empty;
import static svid.Vectors.ledger;
import static svid.Vectors.number;
import static svid.Vectors.of;

import com.google.gson.JsonObject;
import java.io.ByteArrayOutputStream;
import java.util.ArrayList;
import java.util.HashMap;
import java.util.HashSet;
import java.util.List;
import java.util.Locale;
import java.util.Map;
import java.util.Set;
import java.util.regex.Matcher;
import java.util.regex.Pattern;
import org.junit.Test;
import org.junit.function.ThrowingRunnable;

/** What an error says, in the words of lists/statuses.toml. */
public class WordsTest {
    private static final Pattern FIELD = Pattern.compile("(?m)^(\\w+) = \"?(.*?)\"?$");
    private static final Map<String, Map<String, String>> LISTED = new HashMap<>();

    static {
        for (String group : afterFirst(Vectors.text("lists/statuses.toml").split("\\[\\[group]]"))) {
            String[] rows = group.split("\\[\\[group\\.status]]");
            Map<String, String> of = fields(rows[0]);
            for (String row : afterFirst(rows)) {
                Map<String, String> fields = fields(row);
                fields.putIfAbsent("advice", of.getOrDefault("advice", ""));
                fields.putIfAbsent("reason", of.getOrDefault("reason", "NotJudged"));
                LISTED.put(of.getOrDefault("prefix", "") + fields.get("name"), fields);
            }
        }
    }

    private static List<String> afterFirst(String[] parts) {
        return List.of(parts).subList(1, parts.length);
    }

    private static Map<String, String> fields(String row) {
        Map<String, String> found = new HashMap<>();
        for (Matcher it = FIELD.matcher(row); it.find();) {
            found.put(it.group(1), it.group(2));
        }
        return found;
    }

    private static String field(String name, String field) {
        return LISTED.get(name).getOrDefault(field, "");
    }

    private static String capital(String text) {
        return text.isEmpty() ? "" : text.substring(0, 1).toUpperCase(Locale.ROOT) + text.substring(1);
    }

    /** What is wrong, as a sentence without marks; where that is; and what to do. */
    private static String sentence(String name, String where) {
        String says = field(name, "words").isEmpty() ? capital(field(name, "says")) + "." : field(name, "words");
        String advice = field(name, "advice");
        return says.replace("`", "") + where + (advice.isEmpty() ? "" : " " + capital(advice) + ".");
    }

    private static void says(String due, ThrowingRunnable call) {
        assertEquals(due, assertThrows(Exception.class, call).getMessage());
    }

    /** Why there is no answer, and why no tokens are to be sent: all that the list has of a member, and two of a claim. */
    @Test
    public void requests() {
        List<String> names = new ArrayList<>(List.of("CLAIM_FAR", "CLAIM_DEAF"));
        LISTED.forEach((name, fields) -> {
            if (Integer.parseInt(fields.get("number")) > 200) {
                names.add(name);
            }
        });
        assertEquals(17, names.size());
        for (String name : names) {
            int number = Integer.parseInt(field(name, "number"));
            says(sentence(name, ""), () -> { throw(SvidException.Unavailable) SvidException.of(number, null); });
        }
        names.addAll(List.of("NO_MEMORY", "JUMP", "CLOSED", "TOO_MUCH"));
        for (String name : names) {
            assertEquals(name, field(name, "reason"), SvidException.of(Integer.parseInt(field(name, "number")), null).word());
        }
        says("the token is good, and its subject is none of the callers that may call",
                () -> { throw SvidException.of(Status.NOT_ALLOWED.number(), null); });
    }

    @Test
    public void calls() {
        byte[] batch = new byte[17];
        System.arraycopy(new byte[] {'J', 'S', 'R', 2, 1}, 0, batch, 0, 5);
        ByteArrayOutputStream many = new ByteArrayOutputStream();
        while (many.size() <= 67_108_864) {
            many.writeBytes(batch);
        }
        try (Validator validator = Validator.open(ledger().step(100), "{}"); Validator late = empty()) {
            validator.tick(NOW);
            late.tick(NOW + 31);
            says(sentence("JUMP", ""), () -> validator.tick(NOW + 101));
            says(sentence("GONE", ""), () -> validator.withdraw(NOW, TokenKey.of(new byte[32]), NOW));
            says(sentence("TOO_FAR", ""), () -> validator.take(NOW, late.messages()));
            says(sentence("TOO_MUCH", ""), () -> validator.take(NOW, many.toByteArray()));
            says("NotSummary: " + field("NOT_SUMMARY", "says") + ": " + field("NOT_SUMMARY", "advice"), () -> validator.answer(NOW, batch));
        }
        Validator closed = Validator.open(ledger(), "{}");
        closed.close();
        says(sentence("CLOSED", ""), () -> closed.tick(NOW));
        assertEquals(sentence("NO_MEMORY", ""), new SvidException.OutOfMemory(null).getMessage());
    }

    @Test
    public void bundles() {
        says(sentence("BUNDLES_NOT_OBJECT", ""), () -> Validator.open(ledger(), "[]"));
        String where = " It is number %d of the names in rising order, counted from 0.";
        says(sentence("BUNDLES_DOMAIN", where.formatted(0)), () -> Validator.open(ledger(), "{\"a\":{\"keys\":[]},\"B\":{}}"));
        says(sentence("BUNDLES_KEYS", where.formatted(1)), () -> Validator.open(ledger(), "{\"a\":{\"keys\":[]},\"b\":{}}"));
        try (Validator opened = Validator.open(ledger(), "{}")) {
            for (String unnamed : List.of("{\"keys\":[],\"spiffe_sequence\":1}", "{\"A\":1,\"keys\":null}")) {
                says(sentence("BUNDLES_UNNAMED", ""), () -> Validator.open(ledger(), unnamed));
                says(sentence("BUNDLES_UNNAMED", ""), () -> opened.renew(unnamed));
            }
        }
    }

    @Test
    public void messages() {
        Set<String> seen = new HashSet<>();
        each("messages", "rust", (file, it) -> {
            if (!it.has("fault")) {
                return;
            }
            JsonObject fault = it.getAsJsonObject("fault");
            String reason = of(fault, "reason");
            String name = reason.replaceAll("(.)([A-Z])", "$1_$2").toUpperCase(Locale.ROOT);
            String where = reason + " in message " + number(fault, "message") + " at byte " + number(fault, "offset");
            try (Validator validator = empty()) {
                says(where + ": " + field(name, "says") + ", and due is " + field(name, "due"),
                        () -> validator.take(0, bytes(it, "messages")));
            }
            seen.add(reason);
        });
        assertEquals(8, seen.size());
    }

    @Test
    public void idsAndPatterns() {
        String tooLong = "spiffe://"
                + "a".repeat(2040);
        String domainLong = "spiffe://"
                + "a".repeat(256);
        Map<String, String> texts = Map.of("TOO_LONG", tooLong, "SCHEME", "example.org", "DOMAIN_EMPTY", "spiffe://", "DOMAIN_BYTE",
                "spiffe://A", "DOMAIN_LONG", domainLong, "SEGMENT_EMPTY", "spiffe://a//b", "SEGMENT_DOTS", "spiffe://a/../b", "PATH_BYTE",
                "spiffe://a/b*");
        Map<String, Integer> offsets = Map.of("DOMAIN_BYTE", 9, "SEGMENT_EMPTY", 11, "SEGMENT_DOTS", 11, "PATH_BYTE", 12);
        texts.forEach((name, text) -> {
            String where = " (byte " + offsets.getOrDefault(name, 0) + "): ";
            says("no SPIFFE ID" + where + sentence("ID_" + name, ""), () -> SpiffeId.parse(text));
            says("no pattern of SPIFFE IDs" + where + sentence("PATTERN_" + name, ""), () -> IdPattern.of(text));
        });
    }

    @Test
    public void bearerHeaders() {
        Map<String, List<String>> fields = Map.of("Absent", List.of(), "Several", List.of("Bearer a", "Bearer a"), "Scheme",
                List.of("Basic a"), "Spelling", List.of("Bearer a b"));
        fields.forEach((name, values) -> {
            String due = name + ": " + sentence("BEARER_" + name.toUpperCase(Locale.ROOT), "");
            says(due, () -> Validator.bearer(values));
        });
    }
}
