package svid;

import com.sun.jna.Memory;
import java.nio.charset.StandardCharsets;
import java.util.Map;
import java.util.concurrent.ConcurrentHashMap;

/** What the library says of a status: what is wrong, and what to do, or nothing; each is a sentence. */
record StatusText(String says, String advice) {
    private static final long USUAL = 64;
    private static final Map<Integer, StatusText> KNOWN = new ConcurrentHashMap<>();

    /** The words of the library, which is asked for them once. Without memory for that, the name stands for them. */
    static StatusText of(int number, String name) {
        StatusText known = KNOWN.computeIfAbsent(number, StatusText::asked);
        return known == null ? new StatusText(name, "") : known;
    }

    /** Null where there is no memory for the question. */
    private static StatusText asked(int number) {
        for (long size = USUAL;;) {
            try (Memory out = new Memory(size); Memory told = new Memory(Library.Told.SIZE)) {
                int status = Library.svid_status_sentence(number, out, size, told);
                size = told.getLong(Library.Told.LEN);
                if (status == 0) {
                    String text = new String(out.getByteArray(0, (int) size), StandardCharsets.UTF_8);
                    // (each text is ASCII, so that a byte is a character)
                    int before = (int) told.getLong(Library.Told.MORE);
                    return new StatusText(text.substring(0, before), text.substring(before).strip());
                }
            } catch (OutOfMemoryError why) {
                return null;
            }
        }
    }

    /** What is wrong, where that is, and what to do. */
    String whole(String where) {
        return says + where + (advice.isEmpty() ? "" : " " + advice);
    }

    /** What is wrong, and what to do, as a part of a sentence. */
    String clause() {
        return clause(says) + (advice.isEmpty() ? "" : ": " + clause(advice));
    }

    private static String clause(String sentence) {
        int end = sentence.endsWith(".") ? sentence.length() - 1 : sentence.length();
        return Character.toLowerCase(sentence.charAt(0)) + sentence.substring(1, end);
    }
}
