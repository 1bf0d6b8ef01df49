package svid;

import com.sun.jna.Pointer;
import java.nio.charset.StandardCharsets;
import java.time.Instant;
import java.util.ArrayList;
import java.util.List;

/**
 * What a token says, for a log, say. Nobody has vouched for it: no signature, time or audience was looked at.
 *
 * @param algorithm the algorithm of its signature, such as "ES256"
 * @param spiffeId its subject
 * @param keyId the name of its key; "" where it has none
 * @param audiences its audiences
 * @param key by which all its uses are known
 * @param expiry when it expires; {@link Instant#MAX} for what lies after that
 */
public record Says(String algorithm, SpiffeId spiffeId, String keyId, List<String> audiences, TokenKey key, Instant expiry) {
    private static final long USUAL = 1024;
    private static final int FIRST_AUDIENCE = 4;

    static Says of(String token) throws Refusal {
        return of(token.getBytes(StandardCharsets.UTF_8));
    }

    static Says of(byte[] bytes) throws Refusal {
        try (Arena room = new Arena()) {
            CallDetails told = new CallDetails(room);
            Pointer said = room.take(Library.Said.SIZE);
            Pointer text = room.put(bytes);
            for (long size = USUAL, most = 16;; size = told.len(), most = said.getLong(Library.Said.TEXTS)) {
                Pointer out = room.take(size);
                Pointer lens = room.take(Math.multiplyExact(8, most));
                int status = Library.svid_token_says(text, bytes.length, said, lens, most, out, size, told.at);
                if (status == Status.TOO_SHORT.number() && (told.len() > size || said.getLong(Library.Said.TEXTS) > most)) {
                    continue;
                }
                told.accept(status);
                return read(said, lens.getLongArray(0, (int) said.getLong(Library.Said.TEXTS)), out);
            }
        }
    }

    private static Says read(Pointer said, long[] lens, Pointer out) {
        List<byte[]> texts = new ArrayList<>(lens.length);
        long at = 0;
        for (long len : lens) {
            texts.add(out.getByteArray(at, (int) len));
            at += len;
        }
        List<String> audiences = texts.subList(FIRST_AUDIENCE, texts.size()).stream().map(Says::text).toList();
        TokenKey key = TokenKey.of(said.getByteArray(Library.Said.KEY, TokenKey.LEN));
        return new Says(text(texts.get(0)), SpiffeId.of(texts.get(1)), text(texts.get(3)), audiences, key,
                Times.instantOf(said.getLong(Library.Said.EXP)));
    }

    private static String text(byte[] bytes) {
        return new String(bytes, StandardCharsets.UTF_8);
    }
}
