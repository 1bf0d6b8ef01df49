package svid;

import com.sun.jna.Pointer;
import java.nio.charset.StandardCharsets;

/** A SPIFFE ID, such as "spiffe://example.org/billing/api". */
public final class SpiffeId {
    private final String text;
    private volatile Parts parts; // null until they are asked for

    /** The parts of an ID. */
    private record Parts(String trustDomain, String path) {}

    private SpiffeId(String text) {
        this.text = text;
    }

    /**
     * Reads an ID.
     *
     * @throws SvidException.BadId where the text is none
     */
    public static SpiffeId parse(String text) {
        SpiffeId made = new SpiffeId(text);
        made.parts();
        return made;
    }

    /**
     * An ID that the library wrote. It is not read here, so that this needs none of the library's memory: a token may be used up already.
     */
    static SpiffeId of(byte[] text) {
        return new SpiffeId(new String(text, StandardCharsets.UTF_8));
    }

    private Parts parts() {
        Parts known = parts;
        if (known == null) {
            byte[] bytes = text.getBytes(StandardCharsets.UTF_8);
            try (Arena room = new Arena()) {
                Pointer id = room.take(Library.Id.SIZE);
                int number = Library.svid_id_parse(room.put(bytes), bytes.length, id);
                if (number != 0) {
                    throw fault(number, id);
                }
                int path = bytes.length - (int) id.getLong(Library.Id.PATH_LEN);
                int domain = path - (int) id.getLong(Library.Id.DOMAIN_LEN);
                known = new Parts(text.substring(domain, path), text.substring(path));
            }
            parts = known;
        }
        return known;
    }

    /** Why a text is no ID, or no pattern. */
    static SvidException fault(int number, Pointer id) {
        Status status = Status.of(number);
        boolean isOfText = status != null
                && (status.isFrom(Status.ID_TOO_LONG, Status.ID_PATH_BYTE)
                        || status.isFrom(Status.PATTERN_TOO_LONG, Status.PATTERN_PATH_BYTE));
        return isOfText ? new SvidException.BadId(status, id.getLong(Library.Id.OFFSET)) : SvidException.of(number, null);
    }

    /** Its trust domain, such as "example.org". */
    public String trustDomain() {
        return parts().trustDomain;
    }

    /** Its path with the first "/", such as "/billing/api"; "" where it has none. */
    public String path() {
        return parts().path;
    }

    @Override
    public boolean equals(Object other) {
        return other instanceof SpiffeId id && text.equals(id.text);
    }

    @Override
    public int hashCode() {
        return text.hashCode();
    }

    /** Its text. */
    @Override
    public String toString() {
        return text;
    }
}
