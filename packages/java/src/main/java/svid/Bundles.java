package svid;

import com.sun.jna.Pointer;
import java.io.ByteArrayOutputStream;
import java.nio.charset.StandardCharsets;
import java.util.List;
import java.util.Map;
import java.util.Set;

/** Trust bundles as the one text that {@link Validator#open} and {@link Validator#renew} take. */
public final class Bundles {
    private Bundles() {}

    /**
     * Joins the bundles of several trust domains, each as SPIRE prints it.
     *
     * <p>Put no bundle that comes from elsewhere between texts of your own: it could bring keys for another trust domain.
     *
     * @param bundles each, as JSON, by the name of its trust domain
     * @throws SvidException.BadBundles where one of them is no bundle, or a name none of a trust domain; it names the first such one
     * @throws SvidException.OutOfMemory where there is no memory
     */
    public static byte[] join(Map<String, byte[]> bundles) {
        return join(bundles, Set.of());
    }

    /** The same. All keys of these trust domains are for JWT-SVIDs, and need no `use` (SPIFFE Workload API, section 6.2.2). */
    static byte[] join(Map<String, byte[]> bundles, Set<String> ofApi) {
        ByteArrayOutputStream bytes = new ByteArrayOutputStream();
        try (Arena room = new Arena()) {
            CallDetails told = new CallDetails(room);
            Pointer documents = room.take(Library.Document.SIZE * (long) bundles.size());
            long at = 0;
            for (Map.Entry<String, byte[]> it : bundles.entrySet()) {
                // (to the library, a document with an empty name has none)
                byte[] name = (it.getKey().isEmpty() ? "spiffe://" : it.getKey()).getBytes(StandardCharsets.UTF_8);
                documents.setLong(at + Library.Document.NAME_LEN, name.length);
                documents.setLong(at + Library.Document.TEXT_LEN, it.getValue().length);
                documents.setLong(at + Library.Document.KEYS, ofApi.contains(it.getKey()) ? 1 : 0);
                bytes.writeBytes(name);
                bytes.writeBytes(it.getValue());
                at += Library.Document.SIZE;
            }
            Pointer text = room.put(bytes.toByteArray());
            Output written = Output.by(room, told, 2L * bytes.size() + 64,
                    (out, outLen) -> Library.svid_bundles_join(text, bytes.size(), documents, bundles.size(), out, outLen, told.at));
            Status status = Status.of(written.status());
            if (status == Status.BUNDLES_TWICE || status != null && status.isFrom(Status.BUNDLES_NOT_OBJECT, Status.BUNDLES_KEYS)) {
                throw new SvidException.BadBundles(status, List.copyOf(bundles.keySet()).get((int) told.input() - 1));
            }
            told.must(written.status());
            return written.bytes();
        }
    }
}
