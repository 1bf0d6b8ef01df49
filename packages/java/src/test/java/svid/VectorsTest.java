package svid;

import static org.junit.Assert.assertArrayEquals;
import static org.junit.Assert.assertEquals;
import static org.junit.Assert.assertThrows;
import static org.junit.Assert.assertTrue;
import static svid.Vectors.accepted;
import static svid.Vectors.answer;
import static svid.Vectors.bytes;
import static svid.Vectors.each;
import static svid.Vectors.empty;
import static svid.Vectors.hex;
import static svid.Vectors.ledger;
import static svid.Vectors.list;
import static svid.Vectors.number;
import static svid.Vectors.of;
import static svid.Vectors.orNull;

import com.google.gson.JsonElement;
import com.google.gson.JsonObject;
import java.io.File;
import java.nio.charset.StandardCharsets;
import java.nio.file.Files;
import java.nio.file.Path;
import java.util.ArrayList;
import java.util.Comparator;
import java.util.HexFormat;
import java.util.List;
import java.util.Map;
import java.util.TreeMap;
import org.junit.Rule;
import org.junit.Test;

/** The vectors, which say where their answers come from. */
public class VectorsTest {
    @Rule public final Said said = new Said();

    private static long now(JsonObject file) {
        return number(file.getAsJsonObject("setting"), "now");
    }

    /**
     * The ends of the names of signatures that only who has the key can make, and that java.security judges otherwise: it takes a digest
     * without the parameters of its hash, and no abscissa that is not below the order.
     */
    private static final List<String> OTHERWISE = List.of(", a hash without parameters", ", an abscissa beyond the order");

    private static boolean isOurs(JsonObject it) {
        return OTHERWISE.stream().noneMatch(of(it, "name")::endsWith);
    }

    @Test
    public void keys() {
        verified("keys");
    }

    @Test
    public void signatures() {
        verified("signatures");
    }

    private static void verified(String name) {
        each(name, "rust", VectorsTest::isOurs, (file, it) -> {
            Options options = it.has("rsa_bits") ? ledger().rsaBits((int) number(it, "rsa_bits")) : ledger();
            String bundles = "{\"example.org\":{\"keys\":[" + String.join(",", list(it, "keys")) + "]}}";
            try (Validator validator = Validator.open(options, bundles)) {
                String token = of(it, "token");
                assertEquals(of(it, "answer"), answer(() -> accepted(validator.judge(now(file), token))));
                assertEquals(of(it, "answer"), answer(() -> accepted(validator.check(now(file), token))));
            }
        });
    }

    /** One validator for all signatures of the same keys: what it keeps of a key is by the algorithm too. */
    @Test
    public void signaturesByOneValidator() {
        Map<String, List<JsonObject>> byKeys = new TreeMap<>();
        long[] now = new long[1];
        each("signatures", "rust", VectorsTest::isOurs, (file, it) -> {
            now[0] = now(file);
            byKeys.computeIfAbsent(String.join(",", list(it, "keys")), key -> new ArrayList<>()).add(it);
        });
        byKeys.forEach((keys, vectors) -> {
            // (those first by which no key of another algorithm can be used)
            vectors.sort(Comparator.comparing(it -> of(it, "answer"), Comparator.reverseOrder()));
            try (Validator validator = Validator.open(ledger(), "{\"example.org\":{\"keys\":[" + keys + "]}}")) {
                for (JsonObject it : vectors) {
                    assertEquals(of(it, "name"), of(it, "answer"), answer(() -> accepted(validator.judge(now[0], of(it, "token")))));
                }
            } catch (Exception why) {
                throw new AssertionError(why);
            }
        });
        assertTrue(byKeys.size() > 3);
    }

    @Test
    public void tokens() {
        each("tokens", "rust", (file, it) -> {
            JsonObject setting = file.getAsJsonObject("setting").deepCopy();
            if (it.has("setting")) {
                it.getAsJsonObject("setting").entrySet().forEach(own -> setting.add(own.getKey(), own.getValue()));
            }
            Options options = Options.audiences(list(setting, "audiences"))
                                      .longest(limit(setting, "longest"))
                                      .ahead(limit(setting, "ahead"))
                                      .step(limit(setting, "step"))
                                      .validatorId(bytes(setting, "validator_id"));
            String bundles = of(file.getAsJsonObject("bundles"), of(setting, "bundles"));
            try (Validator validator = Validator.open(options, bundles)) {
                for (JsonElement call : it.getAsJsonArray("calls")) {
                    JsonObject made = call.getAsJsonObject();
                    assertEquals(of(made, "call"), of(made, "answer"), answer(() -> called(validator, made)));
                }
            }
        });
    }

    private static long limit(JsonObject setting, String name) {
        String text = orNull(setting, name);
        return text == null ? -1 : Long.parseUnsignedLong(text);
    }

    private static String called(Validator validator, JsonObject call) throws Exception {
        switch (of(call, "call")) {
            case "check":
                return accepted(validator.check(number(call, "now"), of(call, "token")));
            case "judge":
                return accepted(validator.judge(number(call, "now"), of(call, "token")));
            case "withdraw":
                validator.withdraw(number(call, "now"), TokenKey.of(bytes(call, "key")), number(call, "exp"));
                return "withdrawn";
            case "take":
                validator.take(number(call, "now"), bytes(call, "messages"));
                return "taken";
            case "tick":
                validator.tick(number(call, "now"));
                return "ticked";
            case "tell":
                return hex(validator.messages());
            default:
                throw new AssertionError(call + " is no call");
        }
    }

    /** Those that are an object of trust domains. */
    @Test
    public void bundles() {
        each("bundles", "rust", it -> of(it, "form").equals("domains"), (file, it) -> {
            byte[] bundles = it.has("text") ? of(it, "text").getBytes(StandardCharsets.UTF_8) : bytes(it, "hex");
            String opened = answer(() -> {
                try (Validator validator = Validator.open(ledger(), bundles)) {
                    return accepted(validator.check(now(file), of(it, "token")));
                }
            });
            assertEquals(of(it, "answer"), opened);
            try (Validator validator = Validator.open(ledger(), "{}")) {
                String renewed = answer(() -> {
                    validator.renew(bundles);
                    return accepted(validator.check(now(file), of(it, "token")));
                });
                assertEquals(of(it, "answer"), renewed);
            }
        });
    }

    @Test
    public void files() {
        Map<Integer, String> ends =
                Map.of(Library.FILE_END, "end", Library.FILE_TEAR, "tear", Library.FILE_DAMAGE, "damage", Library.FILE_OTHER, "format");
        each("files", "rust", (file, it) -> {
            try (Arena room = new Arena()) {
                StateFile.Reading reading =
                        new StateFile.Reading(room, bytes(it, "folder_id"), number(it, "journal"), bytes(it, "content"));
                List<String> payloads = new ArrayList<>();
                int[] status = {0};
                for (byte[] payload = reading.next(status); payload != null; payload = reading.next(status)) {
                    payloads.add(hex(payload));
                }
                assertEquals(list(it, "payloads"), payloads);
                assertEquals(of(it, "end"), ends.get(status[0]));
                assertEquals(number(it, "at"), reading.at());
                assertTrue(!it.has("format") || number(it, "format") == reading.format());
            }
        });
    }

    @Test
    public void folders() {
        each("folders", "rust", (file, it) -> {
            Path folder = Files.createTempDirectory("svid-folder");
            try {
                for (Map.Entry<String, JsonElement> content : it.getAsJsonObject("files").entrySet()) {
                    Files.write(folder.resolve(content.getKey()), HexFormat.of().parseHex(content.getValue().getAsString()));
                }
                Options options = ledger().ahead(Options.ANY).state(folder);
                if (it.has("record")) {
                    try (Validator validator = Validator.open(options, "{}"); Validator same = empty()) {
                        same.take(0, bytes(it, "record"));
                        String uses = "(?m)^(moment|uses) .*\n";
                        assertEquals(same.report().replaceAll(uses, ""), validator.report().replaceAll(uses, ""));
                    }
                    boolean isTorn = of(it, "name").equals("a journal that is torn");
                    String line = "a crash cut off a write at the end of " + folder.resolve("journal.1") + ": nobody had an answer";
                    assertEquals(isTorn ? List.of(line) : List.of(), said.lines);
                    said.lines.clear();
                    return;
                }
                SvidException.BadFolder why = assertThrows(SvidException.BadFolder.class, () -> Validator.open(options, "{}").close());
                assertEquals(folder.resolve(it.has("damaged") ? of(it, "damaged") : of(it, "of_format")).toString(), why.file());
                if (it.has("damaged")) {
                    assertEquals(number(it, "at"), why.offset());
                } else {
                    assertTrue(why.getMessage(), why.getMessage().contains(" has format " + number(it, "format") + ","));
                }
            } finally {
                for (File left : folder.toFile().listFiles()) {
                    Files.delete(left.toPath());
                }
                Files.delete(folder);
            }
        });
    }

    @Test
    public void headers() {
        each("headers", "rust", (file, it) -> {
            List<String> values = list(it, "values");
            long now = now(file);
            String bundles = of(file.getAsJsonObject("setting"), "bundles");
            try (Validator validator = Validator.open(ledger().clock(Vectors.clock(now)), bundles)) {
                String why = orNull(it, "why");
                if (!of(it, "answer").equals("refused")) {
                    assertEquals(of(it, "answer"), accepted(validator.admit(values)));
                    return;
                }
                Denied denied = assertThrows(Denied.class, () -> validator.admit(values));
                assertEquals(401, denied.status());
                assertTrue(denied.challenge(), denied.challenge().startsWith("Bearer "));
                if (why != null) {
                    String said = denied instanceof Denied.NoToken none ? none.why() : ((Refusal) denied).reason().toString();
                    assertEquals(why, said);
                    assertEquals(of(it, "challenge"), denied.challenge());
                }
            }
        });
    }

    @Test
    public void ids() {
        each("ids", "rust", (file, it) -> {
            if (!it.has("fault")) {
                SpiffeId id = SpiffeId.parse(of(it, "text"));
                assertEquals(of(it, "domain") + " " + of(it, "path"), id.trustDomain() + " " + id.path());
                assertEquals(of(it, "text"), id.toString());
                return;
            }
            SvidException.BadId why = assertThrows(SvidException.BadId.class, () -> SpiffeId.parse(of(it, "text")));
            assertEquals(of(it, "fault") + " " + number(it, "offset"), why.fault() + " " + why.offset());
        });
    }

    @Test
    public void patterns() {
        each("patterns", "rust", (file, it) -> {
            switch (of(it, "answer")) {
                case "no pattern":
                    bad(it, assertThrows(SvidException.BadId.class, () -> IdPattern.of(of(it, "pattern"))));
                    break;
                case "no ID":
                    IdPattern.of(of(it, "pattern"));
                    bad(it, assertThrows(SvidException.BadId.class, () -> SpiffeId.parse(of(it, "id"))));
                    break;
                default:
                    boolean allows = IdPattern.of(of(it, "pattern")).allows(SpiffeId.parse(of(it, "id")));
                    assertEquals(of(it, "answer"), allows ? "allowed" : "not allowed");
            }
        });
    }

    private static void bad(JsonObject it, SvidException.BadId why) {
        assertEquals(of(it, "fault") + " " + number(it, "offset"), why.fault() + " " + why.offset());
    }

    @Test
    public void messages() {
        each("messages", "rust", (file, it) -> {
            try (Validator validator = empty()) {
                String taken = answer(() -> {
                    validator.take(0, bytes(it, "messages"));
                    return "taken";
                });
                if (it.has("fault")) {
                    JsonObject fault = it.getAsJsonObject("fault");
                    assertEquals(of(fault, "reason") + " " + number(fault, "message") + " " + number(fault, "offset"), taken);
                    return;
                }
                assertEquals("taken", taken);
                validator.tick(number(it, "now"));
                assertEquals(of(it, "record"), hex(validator.messages()));
                assertEquals(of(it, "report"), validator.report());
            }
        });
    }

    @Test
    public void summaries() {
        each("summaries", "rust", (file, it) -> {
            try (Validator validator = empty()) {
                validator.take(0, bytes(it, "messages"));
                if (of(it, "call").equals("summary")) {
                    assertEquals(of(it, "summary"), hex(validator.summary()));
                    return;
                }
                String got = answer(() -> hex(validator.answer(0, bytes(it, "summary"))));
                String due = it.has("answer")                  ? of(it, "answer")
                        : of(it, "fault").equals("NotSummary") ? "NotSummary 0 0"
                                                               : of(it, "fault");
                assertEquals(due, got);
            }
        });
    }

    /** The use that a check adds is a message that makes the same record elsewhere. */
    @Test
    public void messagesOfUses() {
        each("tokens", "rust", it -> of(it, "name").equals("a good token") || it.getAsJsonArray("calls").size() == 1, (file, it) -> {
            JsonObject call = it.getAsJsonArray("calls").get(0).getAsJsonObject();
            if (!of(call, "answer").startsWith("accepted") || it.has("setting") || !of(call, "call").equals("check")) {
                return;
            }
            String bundles = of(file.getAsJsonObject("bundles"), "usual");
            try (Validator here = Validator.open(ledger(), bundles); Validator there = empty()) {
                Admission admission = here.check(number(call, "now"), of(call, "token"));
                there.take(0, admission.message());
                assertArrayEquals(here.messages(), there.messages());
                assertEquals(82, admission.message().length);
                assertEquals(HexFormat.of().formatHex(admission.key().bytes()), Validator.says(of(call, "token")).key().toString());
            }
        });
    }
}
