package svid.testing;

import com.google.gson.Gson;
import java.math.BigInteger;
import java.nio.charset.StandardCharsets;
import java.security.GeneralSecurityException;
import java.security.KeyPair;
import java.security.KeyPairGenerator;
import java.security.Signature;
import java.security.interfaces.ECPublicKey;
import java.security.spec.ECGenParameterSpec;
import java.time.Clock;
import java.time.Duration;
import java.util.ArrayList;
import java.util.Base64;
import java.util.LinkedHashMap;
import java.util.List;
import java.util.Map;
import java.util.Objects;
import java.util.UUID;

/**
 * Issues JWT-SVIDs for tests of a service, as SPIRE does: each with the algorithm ES256, an expiry in an hour, and a {@code jti} of its
 * own. Nobody else may trust its keys.
 *
 * <pre>{@code
 * Issuer issuer = new Issuer("example.org");
 * try (Validator validator = Validator.open(Options.audiences("ledger"), issuer.bundles())) {
 *     validator.check(issuer.token("/billing/api", "ledger"));
 * }
 * }</pre>
 */
public final class Issuer {
    private static final Duration LIFE = Duration.ofHours(1);
    private static final Gson GSON = new Gson();

    private final String trustDomain;
    private final Clock clock;
    private final List<Key> keys = new ArrayList<>();

    /** What is wrong with a token. */
    public enum Wrong {
        /** It has expired. */
        EXPIRED,
        /** It is good in half an hour. */
        NOT_YET,
        /** It is for another service. */
        AUDIENCE,
        /** Another key made its signature. */
        SIGNATURE,
        /** It names a key that the bundle has not. */
        KEY,
        /** It is no token. */
        MALFORMED
    }

    private record Key(String id, KeyPair pair) {}

    /** An issuer of this trust domain, by the system's clock. */
    public Issuer(String trustDomain) {
        this(trustDomain, Clock.systemUTC());
    }

    /** An issuer of this trust domain, by a clock. */
    public Issuer(String trustDomain, Clock clock) {
        this.trustDomain = Objects.requireNonNull(trustDomain);
        this.clock = Objects.requireNonNull(clock);
        rotate();
    }

    /** Signs by a new key from now on. The bundle keeps the one before it, and none of those before that. */
    public synchronized void rotate() {
        keys.add(0, key());
        while (keys.size() > 2) {
            keys.remove(2);
        }
    }

    /** The bundle of the trust domain as SPIRE prints it: for {@link svid.Sources}, or a file. */
    public synchronized byte[] bundle() {
        return json(Map.of("keys", keys.stream().map(Issuer::jwk).toList(), "spiffe_refresh_hint", 60));
    }

    /** The bundle with the name of its trust domain, as {@link svid.Validator#open(svid.Options, byte[])} takes it. */
    public byte[] bundles() {
        String bundle = new String(bundle(), StandardCharsets.UTF_8);
        return ("{\"" + trustDomain + "\":" + bundle + "}").getBytes(StandardCharsets.UTF_8);
    }

    /** A good token of the workload with this path, as "/billing/api", for these audiences. */
    public String token(String path, String... audiences) {
        return token(path, Map.of("aud", List.of(audiences)));
    }

    /**
     * A token with these claims beside or instead of {@code sub}, {@code exp}, {@code iat} and {@code jti}. Null as a value leaves one
     * out.
     */
    public String token(String path, Map<String, ?> claims) {
        return token(newest(), path, claims);
    }

    /** A token of the workload with this path that is wrong in one way, and else good for this audience. */
    public String wrong(Wrong how, String path, String audience) {
        long now = clock.instant().getEpochSecond();
        Map<String, Object> claims = new LinkedHashMap<>(Map.of("aud", List.of(audience)));
        Key by = newest();
        switch (how) {
            case EXPIRED -> claims.put("exp", now - 1);
            case NOT_YET -> claims.put("nbf", now + LIFE.toSeconds() / 2);
            case AUDIENCE -> claims.put("aud", List.of("not " + audience));
            case SIGNATURE -> by = new Key(by.id, key().pair);
            case KEY -> by = key();
            case MALFORMED -> {
                return "no token";
            }
        }
        return token(by, path, claims);
    }

    private synchronized Key newest() {
        return keys.get(0);
    }

    private String token(Key by, String path, Map<String, ?> claims) {
        long now = clock.instant().getEpochSecond();
        Map<String, Object> all = new LinkedHashMap<>();
        all.put("sub", "spiffe://" + trustDomain + path);
        all.put("exp", now + LIFE.toSeconds());
        all.put("iat", now);
        all.put("jti", UUID.randomUUID().toString());
        all.putAll(claims); // (Gson leaves out what is null)
        Map<String, Object> header = new LinkedHashMap<>();
        header.put("alg", "ES256");
        header.put("kid", by.id);
        String signed = base64(json(header)) + "." + base64(json(all));
        try {
            Signature signer = Signature.getInstance("SHA256withECDSAinP1363Format");
            signer.initSign(by.pair.getPrivate());
            signer.update(signed.getBytes(StandardCharsets.US_ASCII));
            return signed + "." + base64(signer.sign());
        } catch (GeneralSecurityException why) {
            throw new IllegalStateException("java.security can't sign by ES256: add the module jdk.crypto.ec", why);
        }
    }

    private static Key key() {
        try {
            KeyPairGenerator generator = KeyPairGenerator.getInstance("EC");
            generator.initialize(new ECGenParameterSpec("secp256r1"));
            return new Key(UUID.randomUUID().toString(), generator.generateKeyPair());
        } catch (GeneralSecurityException why) {
            throw new IllegalStateException("java.security has no EC keys: add the module jdk.crypto.ec", why);
        }
    }

    private static Map<String, Object> jwk(Key key) {
        ECPublicKey point = (ECPublicKey) key.pair.getPublic();
        Map<String, Object> jwk = new LinkedHashMap<>();
        jwk.put("kty", "EC");
        jwk.put("use", "jwt-svid");
        jwk.put("kid", key.id);
        jwk.put("crv", "P-256");
        jwk.put("x", coordinate(point.getW().getAffineX()));
        jwk.put("y", coordinate(point.getW().getAffineY()));
        return jwk;
    }

    private static String coordinate(BigInteger number) {
        byte[] all = number.toByteArray();
        byte[] bytes = new byte[32];
        int len = Math.min(bytes.length, all.length);
        System.arraycopy(all, all.length - len, bytes, bytes.length - len, len);
        return base64(bytes);
    }

    private static String base64(byte[] bytes) {
        return Base64.getUrlEncoder().withoutPadding().encodeToString(bytes);
    }

    private static byte[] json(Object value) {
        return GSON.toJson(value).getBytes(StandardCharsets.UTF_8);
    }
}
