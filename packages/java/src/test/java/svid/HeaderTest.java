package svid;

import static org.junit.Assert.assertEquals;
import static org.junit.Assert.assertTrue;

import java.lang.reflect.Field;
import java.lang.reflect.Method;
import java.lang.reflect.Modifier;
import java.nio.file.Files;
import java.nio.file.Path;
import java.util.ArrayList;
import java.util.Arrays;
import java.util.List;
import java.util.Locale;
import java.util.regex.Matcher;
import java.util.regex.Pattern;
import java.util.stream.Collectors;
import org.junit.Rule;
import org.junit.Test;
import org.junit.rules.TemporaryFolder;

/** {@link Library} is what include/svid.h declares, as a compiler of C has it. */
public class HeaderTest {
    private static final String HEADER = Vectors.text("packages/c/include/svid.h");

    @Rule public final TemporaryFolder room = new TemporaryFolder();

    /** What a program with these lines in it prints, a number a line. */
    private List<Long> numbers(List<String> expressions) throws Exception {
        String lines = expressions.stream()
                               .map(it -> "    printf(\"%llu\\n\", (unsigned long long)(" + it + "));\n")
                               .collect(Collectors.joining());
        Path source = room.newFile("numbers.c").toPath();
        Files.writeString(source, "#include <stdio.h>\n#include \"svid.h\"\nint main(void) {\n" + lines + "    return 0;\n}\n");
        String program = room.getRoot() + "/numbers";
        ran("cc", "-Wall", "-Werror", "-I" + Vectors.TOP + "/packages/c/include", source.toString(), "-o", program);
        return ran(program).lines().map(Long::parseUnsignedLong).toList();
    }

    static String ran(String... words) throws Exception {
        Process process = new ProcessBuilder(words).redirectErrorStream(true).start();
        process.getOutputStream().close();
        String said = Making.said(process);
        assertEquals(String.join(" ", words) + ": " + said, 0, Making.ended(process));
        return said;
    }

    @Test
    public void structures() throws Exception {
        List<String> expressions = new ArrayList<>();
        List<String> names = new ArrayList<>();
        List<Long> got = new ArrayList<>();
        for (Class<?> it : Library.class.getDeclaredClasses()) {
            List<String> structs =
                    it == Library.Handle.class ? List.of("svid_validator", "svid_bundles", "svid_token")
                                               : List.of("svid_"
                                                       + it.getSimpleName().replaceAll("(.)([A-Z])", "$1_$2").toLowerCase(Locale.ROOT));
            for (String struct : structs) {
                for (Field field : it.getDeclaredFields()) {
                    boolean isSize = field.getName().equals("SIZE");
                    names.add(struct + "." + field.getName());
                    expressions.add(isSize ? "sizeof(" + struct + ")"
                                           : "offsetof(" + struct + ", " + field.getName().toLowerCase(Locale.ROOT) + ")");
                    got.add((long) field.getInt(null));
                }
                String body = matched("typedef struct \\{([^}]*)\\} " + struct + ";");
                long fields = Pattern.compile("\\w+(\\[\\w+\\])?;").matcher(body.replaceAll("(?s)/\\*.*?\\*/", "")).results().count();
                assertEquals(struct, fields + 1, it.getDeclaredFields().length);
            }
        }
        assertTrue(got.size() > 40);
        assertEquals(named(names, numbers(expressions)), named(names, got));
    }

    private static String named(List<String> names, List<Long> numbers) {
        assertEquals(names.size(), numbers.size());
        StringBuilder lines = new StringBuilder();
        for (int n = 0; n < names.size(); n++) {
            lines.append(names.get(n)).append(' ').append(numbers.get(n)).append('\n');
        }
        return lines.toString();
    }

    private static String matched(String pattern) {
        Matcher matcher = Pattern.compile(pattern).matcher(HEADER);
        assertTrue(pattern, matcher.find());
        return matcher.group(1);
    }

    @Test
    public void numbersOfTheHeader() throws Exception {
        List<String> names = new ArrayList<>(List.of("SVID_VERSION", "SVID_MOST_CANDIDATES", "SVID_USUAL_RSA_BITS", "SVID_ID_ROOM",
                "SVID_SPKI_ROOM", "SVID_SUMMARY_LEN", "SVID_PAYLOAD_MOST", "SVID_FRAME_MORE"));
        List<Long> got = new ArrayList<>(List.of((long) Library.VERSION, Library.MOST_CANDIDATES, (long) Library.USUAL_RSA_BITS,
                Library.ID_ROOM, Library.SPKI_ROOM, Library.SUMMARY_LEN, Library.PAYLOAD_MOST, Library.FRAME_MORE));
        for (String it : List.of("DEED_NOTHING", "DEED_JUDGE", "DEED_APPEND", "DEED_CLAIM", "DEED_ANSWER", "CALL_NOTHING",
                     "CALL_CREATE_JOURNAL", "CALL_SYNC_FOLDER", "CALL_WRITE_SNAPSHOT", "CALL_SYNC_SNAPSHOT", "CALL_RENAME_SNAPSHOT",
                     "CALL_REMOVE_JOURNAL", "FILE_END", "FILE_TEAR", "FILE_DAMAGE", "FILE_OTHER", "AT_DISK", "AT_STORE", "AT_LOG",
                     "CLAIM_FAR", "CLAIM_DEAF", "LATE", "LEFT", "ENDED", "DEAF")) {
            names.add("SVID_" + it);
            got.add((long) Library.class.getDeclaredField(it).getInt(null));
        }
        names.add("((svid_pacing) SVID_PACING_FIRST).pause");
        got.add(Library.FIRST_PAUSE);
        for (Mode it : Mode.values()) {
            names.add("SVID_" + it.name());
            got.add((long) it.number());
        }
        for (Status it : Status.values()) {
            names.add("SVID_" + it.name());
            got.add((long) it.number());
        }
        for (Refusal.Reason it : Refusal.Reason.values()) {
            names.add("SVID_" + it.name());
            got.add((long) it.number());
        }
        assertEquals(named(names, numbers(names)), named(names, got));
    }

    /** What a parameter of the header is in Java. */
    private static String inJava(String parameter) {
        if (parameter.contains("*") || parameter.contains("[")) {
            return "Pointer";
        }
        return parameter.startsWith("size_t ") || parameter.startsWith("uint64_t ") ? "long"
                : parameter.startsWith("uint32_t ")                                 ? "int"
                : parameter.startsWith("uint8_t ")                                  ? "byte"
                                                                                    : parameter;
    }

    /** Each function has the parameters of the header, in their order: pointers, lengths, and numbers of 64 and of 32 bits. */
    @Test
    public void functions() {
        int count = 0;
        for (Method it : Library.class.getDeclaredMethods()) {
            if (!Modifier.isNative(it.getModifiers())) {
                continue;
            }
            count++;
            String returns = it.getReturnType() == void.class ? "void" : it.getReturnType() == long.class ? "uint64_t" : "uint32_t";
            String parameters = matched("(?m)^" + returns + " " + it.getName() + "\\(([^)]*)\\);");
            List<String> due = Arrays.stream(parameters.split(","))
                                       .map(String::strip)
                                       .filter(one -> !one.equals("void"))
                                       .map(HeaderTest::inJava)
                                       .toList();
            assertEquals(it.getName(), due, Arrays.stream(it.getParameterTypes()).map(Class::getSimpleName).toList());
        }
        assertTrue(count > 20);
    }
}
