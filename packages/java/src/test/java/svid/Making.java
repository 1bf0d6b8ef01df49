package svid;

import java.math.BigInteger;
import java.nio.charset.StandardCharsets;
import java.security.GeneralSecurityException;
import java.security.KeyPair;
import java.security.KeyPairGenerator;
import java.security.Signature;
import java.security.interfaces.ECPublicKey;
import java.security.spec.ECGenParameterSpec;
import java.time.Instant;
import java.util.Arrays;
import java.util.Base64;
import java.util.UUID;
import java.util.concurrent.Callable;
import java.util.concurrent.CountDownLatch;
import java.util.concurrent.Future;
import java.util.concurrent.FutureTask;
import java.util.concurrent.Semaphore;
import java.util.concurrent.TimeUnit;
import java.util.concurrent.TimeoutException;

/** Tokens of now, and what tests wait for. */
final class Making {
    static final String SUBJECT = "spiffe://example.org/billing/api";
    /** For how many seconds a test waits for what must come. (packages/java/wrong/run says how long: with a wrong body most never do.) */
    static final long PATIENCE = System.getenv("SVID_TEST_PATIENCE") == null ? 180 : Long.parseLong(System.getenv("SVID_TEST_PATIENCE"));

    private static final KeyPair KEY = key();

    private Making() {}

    private static KeyPair key() {
        try {
            KeyPairGenerator generator = KeyPairGenerator.getInstance("EC");
            generator.initialize(new ECGenParameterSpec("secp256r1"));
            return generator.generateKeyPair();
        } catch (GeneralSecurityException why) {
            throw new AssertionError(why);
        }
    }

    private static String base64(byte[] bytes) {
        return Base64.getUrlEncoder().withoutPadding().encodeToString(bytes);
    }

    private static String coordinate(BigInteger number) {
        byte[] bytes = new byte[32];
        byte[] all = number.toByteArray();
        int len = Math.min(32, all.length);
        System.arraycopy(all, all.length - len, bytes, 32 - len, len);
        return base64(bytes);
    }

    /** Bundles with the key of these tokens. */
    static String bundles() {
        ECPublicKey key = (ECPublicKey) KEY.getPublic();
        return "{\"example.org\":{\"keys\":[{\"kty\":\"EC\",\"use\":\"jwt-svid\",\"kid\":\"k\",\"crv\":\"P-256\",\"x\":\""
                + coordinate(key.getW().getAffineX()) + "\",\"y\":\"" + coordinate(key.getW().getAffineY()) + "\"}]}}";
    }

    /** A good token, another one each time. It outlives a test on a slow machine. */
    static String token() {
        return token(Instant.now().getEpochSecond() + 3000);
    }

    /** A token that expires then, in seconds. */
    static String token(long expiry) {
        String header = base64("{\"alg\":\"ES256\",\"kid\":\"k\"}".getBytes(StandardCharsets.UTF_8));
        String payload = "{\"sub\":\"" + SUBJECT + "\",\"aud\":[\"ledger\"],\"exp\":" + expiry + ",\"jti\":\"" + UUID.randomUUID() + "\"}";
        String signed = header + "." + base64(payload.getBytes(StandardCharsets.UTF_8));
        try {
            Signature signer = Signature.getInstance("SHA256withECDSAinP1363Format");
            signer.initSign(KEY.getPrivate());
            signer.update(signed.getBytes(StandardCharsets.UTF_8));
            return signed + "." + base64(signer.sign());
        } catch (GeneralSecurityException why) {
            throw new AssertionError(why);
        }
    }

    /** Waits in a call of a disk or a store until a test lets it go on. */
    static void await(CountDownLatch latch) {
        try {
            if (!latch.await(PATIENCE, TimeUnit.SECONDS)) {
                throw new AssertionError("nobody lets it go on");
            }
        } catch (InterruptedException why) {
            throw new AssertionError(why);
        }
    }

    /** Waits in such a call until a test lets one more go on. */
    static void await(Semaphore permits) {
        try {
            if (!permits.tryAcquire(PATIENCE, TimeUnit.SECONDS)) {
                throw new AssertionError("nobody lets it go on");
            }
        } catch (InterruptedException why) {
            throw new AssertionError(why);
        }
    }

    /** What somebody gives who lets this wait, but not without an end: a line of a process, or a connection. */
    static <T> T given(String what, Callable<T> waits) throws Exception {
        FutureTask<T> task = new FutureTask<>(waits);
        Thread thread = new Thread(task, what);
        thread.setDaemon(true);
        thread.start();
        return given(what, task);
    }

    /** What comes of something that is under way. */
    static <T> T given(String what, Future<T> task) throws Exception {
        try {
            return task.get(PATIENCE, TimeUnit.SECONDS);
        } catch (TimeoutException why) {
            throw new AssertionError("waited in vain for " + what, why);
        }
    }

    /** Waits for the end of a thread. */
    static void joined(Thread thread) throws InterruptedException {
        thread.join(1000 * PATIENCE);
        if (thread.isAlive()) {
            throw new AssertionError(thread + " does not end: " + Arrays.toString(thread.getStackTrace()));
        }
    }

    /** The status with which a process ends. */
    static int ended(Process process) throws InterruptedException {
        if (!process.waitFor(PATIENCE, TimeUnit.SECONDS)) {
            process.destroyForcibly();
            throw new AssertionError("it does not end: " + process.info());
        }
        return process.exitValue();
    }

    /** What a process says until it ends. */
    static String said(Process process) throws Exception {
        byte[] all = given("the end of " + process.info(), () -> process.getInputStream().readAllBytes());
        return new String(all, StandardCharsets.UTF_8);
    }

    /** Waits until something holds. */
    static void until(Callable<Boolean> holds) throws Exception {
        long end = System.nanoTime() + TimeUnit.SECONDS.toNanos(PATIENCE);
        while (!holds.call()) {
            if (System.nanoTime() > end) {
                throw new AssertionError("it never comes");
            }
            Thread.sleep(1);
        }
    }
}
