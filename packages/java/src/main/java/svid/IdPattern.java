package svid;

import com.sun.jna.Pointer;
import java.nio.charset.StandardCharsets;

/**
 * A pattern of SPIFFE IDs. "spiffe://example.org/billing/api" allows that ID, "spiffe://example.org/billing/*" all IDs below the path, by
 * whole segments, and "spiffe://example.org" all of the trust domain.
 */
public final class IdPattern {
    private static final String ANYBODY = "spiffe://example.org";

    private final String text;

    private IdPattern(String text) {
        this.text = text;
    }

    /**
     * Reads a pattern.
     *
     * @throws SvidException.BadId where the text is none
     */
    public static IdPattern of(String text) {
        ask(text, ANYBODY);
        return new IdPattern(text);
    }

    /** Whether it allows an ID. */
    public boolean allows(SpiffeId id) {
        return ask(text, id.toString());
    }

    private static boolean ask(String pattern, String id) {
        byte[] bytes = pattern.getBytes(StandardCharsets.UTF_8);
        byte[] idBytes = id.getBytes(StandardCharsets.UTF_8);
        try (Arena room = new Arena()) {
            Pointer out = room.take(Library.Id.SIZE);
            int number = Library.svid_id_allows(room.put(bytes), bytes.length, room.put(idBytes), idBytes.length, out);
            if (number != Status.OK.number() && number != Status.NOT_ALLOWED.number()) {
                throw SpiffeId.fault(number, out);
            }
            return number == Status.OK.number();
        }
    }

    @Override
    public boolean equals(Object other) {
        return other instanceof IdPattern pattern && text.equals(pattern.text);
    }

    @Override
    public int hashCode() {
        return text.hashCode();
    }

    /** Its text. */
    @Override
    public String toString() {
        return text;
    }
}
