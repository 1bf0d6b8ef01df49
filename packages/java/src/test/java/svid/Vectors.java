package svid;

import static org.junit.Assert.assertEquals;
import static org.junit.Assert.assertFalse;
import static org.junit.Assert.assertTrue;

import com.google.gson.JsonElement;
import com.google.gson.JsonObject;
import com.google.gson.JsonParser;
import java.io.IOException;
import java.nio.file.Files;
import java.nio.file.Path;
import java.util.ArrayList;
import java.util.HexFormat;
import java.util.List;
import java.util.function.Predicate;

/** The files of tests/vectors/, which the tests of every language read (tests/vectors/README.md), and what tests share. */
final class Vectors {
    static final Path TOP = Path.of(System.getProperty("svid.top"));
    /** The folder of the package. */
    static final Path JAVA = Path.of(System.getProperty("svid.java"));
    /** The time of the examples' tokens, which live until 2100. */
    static final long NOW = 1_767_225_600;

    private Vectors() {}

    /** A test of one vector. */
    interface Each {
        void test(JsonObject file, JsonObject it) throws Exception;
    }

    /** Runs a test of each vector that some reader reads. There are as many as the file says. */
    static void each(String name, String reader, Each test) {
        each(name, reader, it -> true, test);
    }

    static void each(String name, String reader, Predicate<JsonObject> isOurs, Each test) {
        JsonObject file = JsonParser.parseString(text("tests/vectors/" + name + ".json")).getAsJsonObject();
        List<String> failures = new ArrayList<>();
        int count = 0;
        for (JsonElement element : file.getAsJsonArray("vectors")) {
            JsonObject it = element.getAsJsonObject();
            if (!List.of(of(it, "readers").split(" ")).contains(reader)) {
                continue;
            }
            count++;
            try {
                if (isOurs.test(it)) {
                    test.test(file, it);
                }
            } catch (Exception | AssertionError why) {
                failures.add(of(it, "name") + ": " + why);
            }
        }
        assertEquals(name + ": as many as are for " + reader, file.getAsJsonObject("counts").get(reader).getAsInt(), count);
        assertTrue(failures.size() + " of " + count + " failed:\n" + String.join("\n", failures), failures.isEmpty());
        assertFalse(name + " has none", count == 0);
    }

    static String text(String path) {
        return text(TOP.resolve(path));
    }

    static String text(Path path) {
        try {
            return Files.readString(path);
        } catch (IOException why) {
            throw new AssertionError(path.toString(), why);
        }
    }

    static String of(JsonObject it, String name) {
        return it.get(name).getAsString();
    }

    /** A text, or null where there is none. */
    static String orNull(JsonObject it, String name) {
        JsonElement found = it.get(name);
        return found == null || found.isJsonNull() ? null : found.getAsString();
    }

    /** A number, or 0 where there is none. */
    static long number(JsonObject it, String name) {
        JsonElement found = it.get(name);
        return found == null || found.isJsonNull() ? 0 : found.getAsBigInteger().longValue();
    }

    static byte[] bytes(JsonObject it, String name) {
        return HexFormat.of().parseHex(of(it, name));
    }

    static String hex(byte[] bytes) {
        return HexFormat.of().formatHex(bytes);
    }

    static List<String> list(JsonObject it, String name) {
        List<String> made = new ArrayList<>();
        it.getAsJsonArray(name).forEach(element -> made.add(element.getAsString()));
        return made;
    }

    /** The usual options: the audience `ledger`. (The tokens of the examples live until 2100.) */
    static Options ledger() {
        return Options.audiences("ledger").anyLife();
    }

    /** The same at a time. */
    static Options ledgerAt(long now) {
        return ledger().clock(clock(now));
    }

    static java.time.Clock clock(long now) {
        return java.time.Clock.fixed(java.time.Instant.ofEpochSecond(now), java.time.ZoneOffset.UTC);
    }

    /** A validator that takes messages of any time. */
    static Validator empty() {
        return Validator.open(ledger().ahead(Options.ANY), "{}");
    }

    static String bundles() {
        return text("examples/bundles.json");
    }

    /** The tokens of the examples: three that are good, one that is no token, one whose key is missing, and one of another trust domain. */
    static List<String> tokens() {
        return text("examples/tokens.txt").lines().toList();
    }

    /** A call that answers something. */
    interface Call {
        String answer() throws Exception;
    }

    /** What a call answers, in the words of the vectors. */
    static String answer(Call call) throws Exception {
        try {
            return call.answer();
        } catch (Refusal why) {
            return "refused " + why.reason();
        } catch (SvidException.BadMessages why) {
            return why.reason() + " " + why.message() + " " + why.offset();
        } catch (SvidException.BadBundles why) {
            return List.of("NotObject", "Unnamed").contains(why.reason()) ? why.reason() : why.reason() + " " + why.index();
        } catch (SvidException why) {
            return why.getClass().getSimpleName();
        }
    }

    static String accepted(Admission it) {
        return "accepted " + it.spiffeId() + " " + Long.toUnsignedString(it.expirySeconds());
    }
}
