package svid;

import com.sun.jna.Pointer;
import java.math.BigInteger;
import java.nio.ByteBuffer;
import java.nio.charset.StandardCharsets;
import java.security.GeneralSecurityException;
import java.security.InvalidKeyException;
import java.security.KeyFactory;
import java.security.ProviderException;
import java.security.PublicKey;
import java.security.Signature;
import java.security.SignatureException;
import java.security.interfaces.ECKey;
import java.security.interfaces.RSAKey;
import java.security.spec.InvalidKeySpecException;
import java.security.spec.MGF1ParameterSpec;
import java.security.spec.PSSParameterSpec;
import java.security.spec.X509EncodedKeySpec;
import java.util.Map;
import java.util.Optional;
import java.util.concurrent.ConcurrentHashMap;

/**
 * Verifies signatures by java.security. The library says which keys may have made one, and writes each as SubjectPublicKeyInfo; this
 * answers whether it did. It keeps the keys that it has read.
 */
final class Signatures {
    private static final int MOST_KEYS = 4096;

    private final int mostBits;
    private final Map<String, Optional<PublicKey>> keys = new ConcurrentHashMap<>();

    Signatures(int mostBits) {
        this.mostBits = mostBits;
    }

    /**
     * Which key made which signature over how many bytes of a token, as the library takes it; none where no key did. Then also why it is
     * not known of one whether it did, if that is so.
     */
    record Found(Pointer key, long keyLen, long signed, Pointer signature, long signatureLen, SvidException.Unverifiable unknown) {
        static final Found NONE = none(null);

        private static Found none(SvidException.Unverifiable unknown) {
            return new Found(null, 0, 0, null, 0, unknown);
        }

        /** Throws why it is not known whether the signature is good, where the library took it for a bad one. */
        void mustBeKnown(int status) {
            if (unknown != null && status == Refusal.Reason.BAD_SIGNATURE.number()) {
                throw unknown;
            }
        }
    }

    /** A field that the library wrote. */
    private record Part(Pointer at, byte[] bytes) {}

    /** Drops the keys of bundles that were replaced. */
    void forget() {
        keys.clear();
    }

    /** Which of the keys made the token's signature. Rows are those of {@code svid_validator_ask_token}. */
    Found find(Output rows, byte[] token) {
        ByteBuffer rest = ByteBuffer.wrap(rows.bytes());
        int signed = rest.getInt();
        Part signature = next(rows, rest);
        SvidException.Unverifiable unknown = null;
        while (rest.hasRemaining()) {
            String algorithm = new String(next(rows, rest).bytes, StandardCharsets.UTF_8);
            Part jwk = next(rows, rest);
            try {
                if (isMadeBy(algorithm, jwk.bytes, token, signed, signature.bytes)) {
                    return new Found(jwk.at, jwk.bytes.length, signed, signature.at, signature.bytes.length, null);
                }
            } catch (GeneralSecurityException | ProviderException why) {
                unknown = new SvidException.Unverifiable(why);
            }
        }
        return Found.none(unknown);
    }

    /** The field that begins here, which has its length before it. */
    private static Part next(Output rows, ByteBuffer rest) {
        byte[] bytes = new byte[rest.getInt()];
        Pointer at = rows.at().share(rest.position());
        rest.get(bytes);
        return new Part(at, bytes);
    }

    /** Whether the key made the signature of the token's first bytes. */
    private boolean isMadeBy(String name, byte[] jwk, byte[] token, int signed, byte[] signature) throws GeneralSecurityException {
        Algorithm algorithm = Algorithm.valueOf(name);
        PublicKey key = key(algorithm, jwk).orElse(null);
        if (key == null || signature.length != algorithm.lengthBy(key) || !isInRange(key, signature)) {
            return false;
        }
        Signature verifier = Signature.getInstance(algorithm.signature);
        if (algorithm.pss != null) {
            verifier.setParameter(algorithm.pss);
        }
        try {
            verifier.initVerify(key);
            verifier.update(token, 0, signed);
            return verifier.verify(signature);
        } catch (InvalidKeyException | SignatureException why) {
            return false;
        }
    }

    /**
     * Whether the two numbers of an EC signature are from 1 to one less than the order of the curve (FIPS 186-5, section 6.4.2). OpenJDK
     * before 17.0.3 does not look, and takes two zeros as a signature of any text by any key.
     */
    private static boolean isInRange(PublicKey key, byte[] signature) {
        if (!(key instanceof ECKey ec)) {
            return true;
        }
        BigInteger order = ec.getParams().getOrder();
        int half = signature.length / 2;
        BigInteger r = new BigInteger(1, signature, 0, half);
        BigInteger s = new BigInteger(1, signature, half, half);
        return r.signum() > 0 && r.compareTo(order) < 0 && s.signum() > 0 && s.compareTo(order) < 0;
    }

    /** A key as java.security has it, or none where it can't be used with the algorithm. */
    private Optional<PublicKey> key(Algorithm algorithm, byte[] jwk) throws GeneralSecurityException {
        String name = algorithm + " " + new String(jwk, StandardCharsets.UTF_8);
        Optional<PublicKey> kept = keys.get(name);
        if (kept != null) {
            return kept;
        }
        Optional<PublicKey> read = read(algorithm, jwk);
        if (keys.size() >= MOST_KEYS) {
            keys.clear();
        }
        keys.put(name, read);
        return read;
    }

    private Optional<PublicKey> read(Algorithm algorithm, byte[] jwk) throws GeneralSecurityException {
        byte[] spki;
        try (Arena room = new Arena()) {
            CallDetails told = new CallDetails(room);
            byte[] name = algorithm.name().getBytes(StandardCharsets.UTF_8);
            Pointer key = room.put(jwk);
            Pointer alg = room.put(name);
            Output written = Output.by(room, told, Library.SPKI_ROOM,
                    (out, outLen) -> Library.svid_key_spki(key, jwk.length, alg, name.length, mostBits, out, outLen, told.at));
            Status status = Status.of(written.status());
            if (status != null && status.isFrom(Status.NO_ALGORITHM, Status.KEY_Y)) {
                return Optional.empty();
            }
            told.must(written.status());
            spki = written.bytes();
        }
        try {
            return Optional.of(KeyFactory.getInstance(algorithm.keys).generatePublic(new X509EncodedKeySpec(spki)));
        } catch (InvalidKeySpecException why) {
            // (a point that is not on its curve)
            return Optional.empty();
        }
    }

    /** The algorithms of a token, as java.security names them. */
    private enum Algorithm {
        // clang-format off
        // lists:begin algorithms (written by tools/lists from lists/algorithms.toml)
        RS256("RSA", "SHA256withRSA", "", 0),
        RS384("RSA", "SHA384withRSA", "", 0),
        RS512("RSA", "SHA512withRSA", "", 0),
        ES256("EC", "SHA256withECDSAinP1363Format", "", 32),
        ES384("EC", "SHA384withECDSAinP1363Format", "", 48),
        ES512("EC", "SHA512withECDSAinP1363Format", "", 66),
        PS256("RSA", "RSASSA-PSS", "SHA-256", 0),
        PS384("RSA", "RSASSA-PSS", "SHA-384", 0),
        PS512("RSA", "RSASSA-PSS", "SHA-512", 0);
        // lists:end
        // clang-format on

        private final String keys;
        private final String signature;
        private final PSSParameterSpec pss;
        private final int half;

        /**
         * The last two are the hash of RSASSA-PSS, whose salt is as long (RFC 7518, section 3.5), and how many bytes each half of an EC
         * signature has.
         */
        Algorithm(String keys, String signature, String hash, int half) {
            this.keys = keys;
            this.signature = signature;
            this.pss = hash.isEmpty() ? null : new PSSParameterSpec(hash, "MGF1", new MGF1ParameterSpec(hash), saltOf(hash), 1);
            this.half = half;
        }

        private static int saltOf(String hash) {
            return Integer.parseInt(hash.substring("SHA-".length())) / 8;
        }

        /** How many bytes a signature by the key has (RFC 8017, section 8; RFC 7518, section 3.4). A provider may take others. */
        int lengthBy(PublicKey key) {
            return key instanceof RSAKey rsa ? (rsa.getModulus().bitLength() + 7) / 8 : 2 * half;
        }
    }
}
