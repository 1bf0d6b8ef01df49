package svid;

import static org.junit.Assert.assertEquals;
import static org.junit.Assert.assertFalse;
import static org.junit.Assert.assertThrows;
import static org.junit.Assert.assertTrue;
import static svid.Making.until;

import com.sun.net.httpserver.HttpsConfigurator;
import com.sun.net.httpserver.HttpsServer;
import java.io.IOException;
import java.io.InputStream;
import java.net.InetAddress;
import java.net.InetSocketAddress;
import java.net.ServerSocket;
import java.net.Socket;
import java.net.URI;
import java.nio.charset.StandardCharsets;
import java.nio.file.Files;
import java.nio.file.Path;
import java.nio.file.StandardCopyOption;
import java.security.KeyStore;
import java.security.Security;
import java.util.ArrayList;
import java.util.Arrays;
import java.util.List;
import java.util.Map;
import java.util.Optional;
import java.util.Set;
import java.util.concurrent.ConcurrentHashMap;
import java.util.concurrent.CopyOnWriteArrayList;
import java.util.concurrent.CountDownLatch;
import java.util.concurrent.ExecutorService;
import java.util.concurrent.Executors;
import java.util.concurrent.atomic.AtomicInteger;
import javax.net.ssl.HostnameVerifier;
import javax.net.ssl.HttpsURLConnection;
import javax.net.ssl.KeyManagerFactory;
import javax.net.ssl.SSLContext;
import org.junit.BeforeClass;
import org.junit.ClassRule;
import org.junit.Rule;
import org.junit.Test;
import org.junit.function.ThrowingRunnable;
import org.junit.rules.TemporaryFolder;
import svid.testing.Issuer;

/** Bundles that follow: files, folders, and addresses of both profiles. */
@SuppressWarnings("try") // (some are only held)
public class FollowTest {
    @ClassRule public static final TemporaryFolder SECRETS = new TemporaryFolder();
    @Rule public final TemporaryFolder room = new TemporaryFolder();
    @Rule public final Said logger = new Said();

    private static final String SERVER = "spiffe://example.org/server";

    private final List<String> said = logger.lines;
    private final Issuer issuer = new Issuer("example.org");

    private Path path(String name) {
        return room.getRoot().toPath().resolve(name);
    }

    private static void write(Path path, byte[] content) throws IOException {
        Path fresh = path.resolveSibling("fresh");
        Files.write(fresh, content);
        Files.move(fresh, path, StandardCopyOption.ATOMIC_MOVE);
    }

    private static String checked(Validator validator, String token) {
        return MemberTest.answer(() -> validator.check(token));
    }

    private static String judged(Validator validator, String token) {
        return MemberTest.answer(() -> validator.judge(token));
    }

    private String fresh() {
        return issuer.token("/billing/api", "ledger");
    }

    private void becomes(Validator validator, String due) throws Exception {
        until(() -> checked(validator, fresh()).equals(due));
    }

    /** A bundle that has blanks behind it, and is too long by one. */
    private static byte[] padded(byte[] bundle) {
        byte[] all = new byte[Follower.MOST + 1];
        Arrays.fill(all, (byte) ' ');
        System.arraycopy(bundle, 0, all, 0, bundle.length);
        return all;
    }

    /** Looks at files that follow each other at once. */
    private static final class Looks implements Follower.Pausing {
        /** The pauses that were due before them. */
        final Set<Long> pauses = ConcurrentHashMap.newKeySet();
        private final AtomicInteger count = new AtomicInteger();

        @Override
        public long before(Sources.Source source, long millis) {
            if (source == null) {
                pauses.add(millis);
                count.getAndIncrement();
            }
            return 1;
        }

        /** Awaits so many looks that begin from now on, and their ends. */
        void come(int number) throws Exception {
            int from = count.get();
            until(() -> count.get() > from + number);
        }
    }

    @Test
    public void aFileIsFollowed() throws Exception {
        Path file = path("a.json");
        write(file, issuer.bundle());
        Options options = Vectors.ledger().state(path("state"));
        try (Validator validator = Validator.open(options, Sources.file("example.org", file))) {
            String used = fresh();
            assertEquals(Making.SUBJECT, checked(validator, used));
            assertTrue(validator.isReady());
            issuer.rotate();
            issuer.rotate();
            assertEquals("NoKey", checked(validator, fresh()));
            Looks looks = new Looks();
            MemberTest.memberOf(validator).follower.pausing = looks;
            write(file, issuer.bundle());
            becomes(validator, Making.SUBJECT);
            assertEquals("NoKey", checked(validator, used));
            looks.come(2);
            assertEquals(Set.of(1000L), looks.pauses);
            assertThrows(IllegalStateException.class, () -> validator.renew("{}"));
        }
    }

    /** If a text is no bundle, the last good one stays, and the fault is reported once, with the path. */
    @Test
    public void theLastGoodOneStays() throws Exception {
        Path file = path("a.json");
        write(file, issuer.bundle());
        Looks looks = new Looks();
        try (Validator validator = Validator.open(Vectors.ledger(), Sources.file("example.org", file))) {
            MemberTest.memberOf(validator).follower.pausing = looks;
            List<byte[]> bads = List.of("[]".getBytes(), "{\"keys\":1}".getBytes(), padded(issuer.bundle()),
                    ("{\"keys\":[],\"x\":["
                            + "[],".repeat(Follower.MOST_BRACKETS - 3) + "[]]}")
                            .getBytes());
            for (byte[] bad : bads) {
                said.clear();
                write(file, bad);
                until(() -> !said.isEmpty());
                looks.come(2);
                assertEquals(said.toString(), 1, said.size());
                assertTrue(said.get(0), said.get(0).startsWith("bundle not read; the last good one stays: " + file));
                assertEquals(Making.SUBJECT, checked(validator, fresh()));
            }
            Files.delete(file);
            until(() -> said.size() > 1); // (a look that was under way may say it in other words)
            assertEquals(Making.SUBJECT, checked(validator, fresh()));
            write(file, issuer.bundle());
            until(() -> said.contains("bundle source is well again: " + file));
            issuer.rotate();
            write(file, Arrays.copyOf(padded(issuer.bundle()), Follower.MOST)); // (the longest one that is)
            becomes(validator, Making.SUBJECT);
            issuer.rotate();
            String text = new String(issuer.bundle(), StandardCharsets.UTF_8).strip();
            long rest = Follower.MOST_BRACKETS - text.chars().filter(it -> it == '{' || it == '[').count() - 2;
            write(file,
                    (text.substring(0, text.length() - 1) + ",\"x\":["
                            + "[],".repeat((int) rest) + "[]]}")
                            .getBytes());
            becomes(validator, Making.SUBJECT);
        }
    }

    /** Until there is a bundle, the validator is not ready. */
    @Test
    public void aBundleThatComesLater() throws Exception {
        Path file = path("a.json");
        Options options = Vectors.ledger().wait(java.time.Duration.ofMillis(50));
        try (Validator validator = Validator.open(options, Sources.file("example.org", file))) {
            assertFalse(validator.isReady());
            assertEquals("Unavailable", checked(validator, fresh()));
            write(file, issuer.bundle());
            until(validator::isReady);
            becomes(validator, Making.SUBJECT);
        }
    }

    /** A token of a trust domain whose bundle is to come is not refused, though there is a bundle of another one. */
    @Test
    public void aBundleThatComesAfterAnother() throws Exception {
        Issuer other = new Issuer("example.com");
        write(path("a.json"), issuer.bundle());
        Sources sources = Sources.file("example.org", path("a.json")).and(Sources.file("example.com", path("b.json")));
        try (Validator validator = Validator.open(Vectors.ledger(), sources)) {
            assertEquals(Making.SUBJECT, checked(validator, fresh()));
            String token = other.token("/a", "ledger");
            SvidException why = assertThrows(SvidException.Unavailable.class, () -> validator.check(token));
            assertEquals("NoBundle: the bundle of example.com was not read yet", why.word() + ": " + why.getMessage());
            assertEquals("Unavailable", judged(validator, token));
            assertEquals("UnknownDomain", checked(validator, new Issuer("example.net").token("/a", "ledger")));
            write(path("b.json"), other.bundle());
            until(() -> checked(validator, token).equals("spiffe://example.com/a"));
        }
    }

    /** Where the last bundle goes no token is refused for that, also none that is being judged. */
    @Test
    public void theLastBundleGoes() throws Exception {
        Path folder = Files.createDirectory(path("bundles"));
        Path file = folder.resolve("example.org.json");
        write(file, issuer.bundle());
        try (Validator validator = Validator.open(Vectors.ledger().mode(Mode.REUSE), Sources.folder(folder))) {
            Member member = MemberTest.memberOf(validator);
            String token = fresh();
            ThreadsTest.Meanwhile goes = new ThreadsTest.Meanwhile(() -> {
                member.adopt("{}".getBytes(), 0);
                return true;
            });
            Security.insertProviderAt(goes, 1);
            try {
                for (int n = 0; n < 2; n++) {
                    member.adopt(issuer.bundles(), 1);
                    assertEquals("Unavailable", n == 0 ? checked(validator, token) : judged(validator, token));
                    assertEquals(Optional.of("There is no trust bundle."), validator.unready());
                }
            } finally {
                Security.removeProvider(goes.getName());
            }
            // (to free many keys takes some time, in which the others go on)
            String keys = new String(new Issuer("example.com").bundle());
            String many = keys.replace("[", "[" + keys.replaceAll(".*\\[|\\].*", "").concat(",").repeat(1000));
            byte[] both = Bundles.join(Map.of("example.org", issuer.bundle(), "example.com", many.getBytes()));
            Set<String> answers = ConcurrentHashMap.newKeySet();
            Thread exchanges = new Thread(() -> {
                for (int n = 0; n < 100; n++) {
                    member.adopt(both, 2);
                    member.adopt("{}".getBytes(), 0);
                }
            });
            exchanges.start();
            while (exchanges.isAlive()) {
                answers.add(checked(validator, token));
                answers.add(judged(validator, token));
            }
            answers.removeAll(Set.of(Making.SUBJECT, "Unavailable"));
            assertEquals(Set.of(), answers);
        }
    }

    /** Whoever is interrupted while it waits for the threads still knows that. */
    @Test
    public void anInterruptOfAClose() throws Exception {
        Path file = path("a.json");
        CountDownLatch comes = new CountDownLatch(1);
        CountDownLatch goes = new CountDownLatch(1);
        Follower follower = new Follower(Sources.file("example.org", file), (text, count) -> {
            if (count > 0) {
                comes.countDown();
                Making.await(goes);
            }
        });
        follower.begin();
        write(file, issuer.bundle());
        Making.await(comes);
        Thread.currentThread().interrupt();
        follower.close();
        assertTrue(Thread.interrupted());
        goes.countDown();
    }

    @Test
    public void aValidatorThatIsForgottenFollowsNothing() throws Exception {
        Path file = path("a.json");
        write(file, issuer.bundle());
        forgotten(Sources.file("example.org", file));
        until(() -> {
            System.gc();
            return Said.threads() == 0;
        });
    }

    private void forgotten(Sources sources) {
        assertEquals(Making.SUBJECT, checked(Validator.open(Vectors.ledger(), sources), fresh()));
        assertTrue(Said.threads() > 0);
    }

    /** Once a validator is closed nothing is handed on to it any more. */
    @Test
    public void aCloseWaitsForWhatIsHandedOn() throws Exception {
        Path file = path("a.json");
        CountDownLatch comes = new CountDownLatch(1);
        CountDownLatch goes = new CountDownLatch(1);
        Follower follower = new Follower(Sources.file("example.org", file), (text, count) -> {
            comes.countDown();
            Making.await(goes);
        });
        follower.closing = 1000 * Making.PATIENCE;
        follower.begin();
        write(file, issuer.bundle());
        Making.await(comes);
        Thread closes = new Thread(follower::close);
        closes.setDaemon(true);
        closes.start();
        until(() -> !closes.isAlive() || closes.getState() == Thread.State.TIMED_WAITING);
        assertTrue(closes.isAlive());
        goes.countDown();
        Making.joined(closes);
    }

    /** Whoever names a trust domain wrongly hears that at once: no token would be one of it. */
    @Test
    public void whatIsNoNameOfATrustDomain() {
        URI address = URI.create("https://localhost/");
        SpiffeId server = SpiffeId.parse(SERVER);
        for (String it : List.of("", "Example.org", "spiffe://example.org", "example.org/x", "example.org.json/..")) {
            for (ThrowingRunnable call : List.<ThrowingRunnable>of(()
                                                                           -> Sources.file(it, path("a")),
                         ()
                                 -> Sources.web(it, address),
                         ()
                                 -> Sources.web(it, address, path("a")),
                         () -> Sources.spiffe(it, address, server), () -> Sources.spiffe(it, address, server, path("a")))) {
                RuntimeException why = assertThrows(it, RuntimeException.class, call);
                assertTrue(why.toString(), why instanceof IllegalArgumentException || why instanceof SvidException.BadId);
            }
        }
    }

    @Test
    public void aFolderIsFollowed() throws Exception {
        Path folder = Files.createDirectory(path("bundles"));
        Issuer other = new Issuer("example.com");
        Path own = path("own.json");
        write(own, issuer.bundle());
        // (a file of the folder does not replace what has a source of its own)
        write(folder.resolve("example.org.json"), "{\"keys\":[]}".getBytes());
        write(folder.resolve("notes.txt"), "no bundle".getBytes());
        Sources sources = Sources.folder(folder).and(Sources.file("example.org", own));
        assertThrows(IllegalArgumentException.class, () -> sources.and(Sources.file("example.org", own)));
        try (Validator validator = Validator.open(Vectors.ledger(), sources)) {
            assertEquals(Making.SUBJECT, checked(validator, fresh()));
            assertEquals("UnknownDomain", checked(validator, other.token("/a", "ledger")));
            write(folder.resolve("example.com.json"), other.bundle());
            until(() -> checked(validator, other.token("/a", "ledger")).equals("spiffe://example.com/a"));
            assertEquals(Making.SUBJECT, checked(validator, fresh()));
            Files.delete(folder.resolve("example.com.json"));
            until(() -> checked(validator, other.token("/a", "ledger")).equals("UnknownDomain"));
            assertEquals(said.toString(), 1, said.size());
            // (a folder that can't be read takes nothing with it)
            write(folder.resolve("example.com.json"), other.bundle());
            until(() -> checked(validator, other.token("/a", "ledger")).equals("spiffe://example.com/a"));
            Files.move(folder, path("away"));
            until(() -> isSaid("bundle not read: " + folder + ": "));
            Looks looks = new Looks();
            MemberTest.memberOf(validator).follower.pausing = looks;
            looks.come(2);
            assertEquals("spiffe://example.com/a", checked(validator, other.token("/a", "ledger")));
        }
    }

    // -- Addresses

    /** What openssl makes of these words, in the folder of secrets. */
    private static void openssl(String... words) throws Exception {
        List<String> all = new ArrayList<>(List.of("openssl"));
        all.addAll(List.of(words));
        Process process = new ProcessBuilder(all).directory(SECRETS.getRoot()).redirectErrorStream(true).start();
        assertEquals(Making.said(process), 0, Making.ended(process));
    }

    private static final String[] KEY = {"-newkey", "ec", "-pkeyopt", "ec_paramgen_curve:P-256", "-nodes", "-keyout"};

    private static void authority(String name) throws Exception {
        openssl("req", "-x509", KEY[0], KEY[1], KEY[2], KEY[3], KEY[4], KEY[5], name + ".key", "-out", name + ".pem", "-days", "30",
                "-subj", "/O=" + name, "-addext", "keyUsage=critical,keyCertSign");
    }

    /** A server whose certificate an authority signed, with these extensions. */
    private static void identity(String name, String by, String extensions) throws Exception {
        Files.writeString(SECRETS.getRoot().toPath().resolve(name + ".ext"), extensions);
        openssl("req", "-new", KEY[0], KEY[1], KEY[2], KEY[3], KEY[4], KEY[5], name + ".key", "-out", name + ".csr", "-subj", "/O=" + name);
        openssl("x509", "-req", "-in", name + ".csr", "-CA", by + ".pem", "-CAkey", by + ".key", "-CAcreateserial", "-days", "30",
                "-extfile", name + ".ext", "-out", name + ".pem");
        openssl("pkcs12", "-export", "-in", name + ".pem", "-inkey", name + ".key", "-out", name + ".p12", "-passout", "pass:secret");
    }

    @BeforeClass
    public static void secrets() throws Exception {
        authority("ca");
        authority("stranger");
        String names = "subjectAltName=DNS:localhost,IP:127.0.0.1\n";
        identity("web", "ca", names);
        identity("svid", "ca", "subjectAltName=URI:" + SERVER + "\nkeyUsage=digitalSignature\n");
        identity("other", "ca", "subjectAltName=URI:" + SERVER + "2\n");
        identity("two", "ca", "subjectAltName=URI:" + SERVER + ",URI:" + SERVER + "2\n");
        identity("strange", "stranger", "subjectAltName=URI:" + SERVER + "\n");
        identity("signer", "ca", "subjectAltName=URI:" + SERVER + "\nkeyUsage=keyCertSign\n");
        identity("withdrawer", "ca", "subjectAltName=URI:" + SERVER + "\nkeyUsage=cRLSign\n");
        identity("client", "ca", "subjectAltName=URI:" + SERVER + "\nextendedKeyUsage=clientAuth\n");
    }

    private static Path secret(String name) {
        return SECRETS.getRoot().toPath().resolve(name);
    }

    private static SSLContext context(String identity) throws Exception {
        KeyStore store = KeyStore.getInstance("PKCS12");
        try (InputStream file = Files.newInputStream(secret(identity + ".p12"))) {
            store.load(file, "secret".toCharArray());
        }
        KeyManagerFactory keys = KeyManagerFactory.getInstance(KeyManagerFactory.getDefaultAlgorithm());
        keys.init(store, "secret".toCharArray());
        SSLContext context = SSLContext.getInstance("TLS");
        context.init(keys.getKeyManagers(), null, null);
        return context;
    }

    /** A server that answers each request as the test wants. */
    private static final class Server implements AutoCloseable {
        final List<String> asked = new CopyOnWriteArrayList<>();
        volatile byte[] answer = {};
        volatile int status = 200;
        volatile String leadsTo;
        volatile boolean isEndless;
        private final HttpsServer server;
        private final ExecutorService threads = Executors.newCachedThreadPool();

        Server(String identity) throws Exception {
            server = HttpsServer.create(new InetSocketAddress(InetAddress.getLoopbackAddress(), 0), 0);
            server.setHttpsConfigurator(new HttpsConfigurator(context(identity)));
            server.setExecutor(threads);
            server.createContext("/", exchange -> {
                asked.add(exchange.getRequestURI().toString());
                if (leadsTo != null && exchange.getRequestURI().getPath().equals("/bundle")) {
                    exchange.getResponseHeaders().set("Location", leadsTo);
                    exchange.sendResponseHeaders(302, -1);
                } else {
                    exchange.sendResponseHeaders(status, isEndless ? 0 : answer.length == 0 ? -1 : answer.length);
                    exchange.getResponseBody().write(answer);
                    if (isEndless) {
                        exchange.getResponseBody().flush();
                        untilItIsOver();
                    }
                }
                exchange.close();
            });
            server.start();
        }

        private static void untilItIsOver() {
            try {
                new CountDownLatch(1).await();
            } catch (InterruptedException why) {
                // (the server is closed)
            }
        }

        URI address() {
            return URI.create("https://localhost:" + server.getAddress().getPort() + "/bundle");
        }

        @Override
        public void close() {
            server.stop(0);
            threads.shutdownNow();
        }
    }

    private boolean isSaid(String part) {
        return logger.has(part);
    }

    @Test
    public void httpsWeb() throws Exception {
        try (Server server = new Server("web")) {
            server.answer = issuer.bundle();
            Sources sources = Sources.web("example.org", server.address(), secret("ca.pem"));
            try (Validator validator = Validator.open(Vectors.ledger(), sources)) {
                until(validator::isReady);
                assertEquals(Making.SUBJECT, checked(validator, fresh()));
                assertEquals(List.of("/bundle"), server.asked);
            }
            // (a redirect within https is followed, and one that leads elsewhere is not)
            server.leadsTo = "/moved";
            try (Validator validator = Validator.open(Vectors.ledger(), sources)) {
                until(validator::isReady);
            }
            server.leadsTo = "http://localhost:1/";
            try (Validator validator = Validator.open(Vectors.ledger(), sources)) {
                until(() -> isSaid("it answers with status 302"));
                assertFalse(validator.isReady());
            }
        }
    }

    /** Who is not known by the system's authorities, has another name, answers too much or something else. */
    @Test
    public void httpsWebThatIsNone() throws Exception {
        assertThrows(IllegalArgumentException.class, () -> Sources.web("example.org", URI.create("http://localhost/")));
        assertThrows(IllegalArgumentException.class, () -> Sources.web("example.org/x", URI.create("https://localhost/")));
        for (String host : List.of("localhost", "my_host")) { // (the second one is no name of a host to URI)
            URI secret = URI.create("https://user:secret@" + host + "/");
            String why = assertThrows(IllegalArgumentException.class, () -> Sources.web("example.org", secret)).getMessage();
            assertFalse(why, why.contains("secret"));
        }
        try (Server server = new Server("web"); Server named = new Server("svid")) {
            server.answer = issuer.bundle();
            named.answer = issuer.bundle();
            for (Sources it : List.of(Sources.web("example.org", server.address()),
                         Sources.web("example.org", server.address(), secret("stranger.pem")),
                         Sources.web("example.org", named.address(), secret("ca.pem")))) {
                said.clear();
                try (Validator validator = Validator.open(Vectors.ledger(), it)) {
                    until(() -> isSaid("SSLHandshakeException") || isSaid("wrong, should be") || isSaid("IOException"));
                    assertFalse(validator.isReady());
                }
            }
            // (a service may have given up to look at names, for its own connections)
            HostnameVerifier usual = HttpsURLConnection.getDefaultHostnameVerifier();
            HttpsURLConnection.setDefaultHostnameVerifier((host, session) -> true);
            said.clear();
            try (Validator validator = Validator.open(Vectors.ledger(), Sources.web("example.org", named.address(), secret("ca.pem")))) {
                until(() -> !said.isEmpty() || validator.isReady());
                assertFalse(validator.isReady());
                assertEquals(List.of(), named.asked);
            } finally {
                HttpsURLConnection.setDefaultHostnameVerifier(usual);
            }
            Path none = Files.createFile(path("none.pem"));
            try (Validator validator = Validator.open(Vectors.ledger(), Sources.web("example.org", server.address(), none))) {
                until(() -> isSaid(none + " has no certificate as PEM"));
            }
            Sources sources = Sources.web("example.org", server.address(), secret("ca.pem"));
            for (byte[] it : List.of(padded(issuer.bundle()), "{}".getBytes(), new byte[] {'x'})) {
                said.clear();
                server.answer = it;
                try (Validator validator = Validator.open(Vectors.ledger(), sources)) {
                    until(() -> !said.isEmpty());
                    assertFalse(validator.isReady());
                }
            }
            server.status = 404;
            said.clear();
            try (Validator validator = Validator.open(Vectors.ledger(), sources)) {
                until(() -> isSaid("it answers with status 404"));
                // (it is asked again, and is then well)
                server.status = 200;
                server.answer = issuer.bundle();
                until(validator::isReady);
            }
        }
    }

    /** A bundle with the authorities that sign the certificates of servers, beside the keys of tokens. */
    private byte[] withAuthorities(String... names) throws IOException {
        StringBuilder entries = new StringBuilder();
        for (String it : names) {
            String pem = Files.readString(secret(it + ".pem"));
            String der = pem.replaceAll("-----.*-----|\\s", "");
            entries.append("{\"use\":\"x509-svid\",\"kty\":\"EC\",\"x5c\":[\"").append(der).append("\"]},");
        }
        String bundle = new String(issuer.bundle(), StandardCharsets.UTF_8);
        return bundle.replace("\"keys\":[", "\"keys\":[" + entries).getBytes(StandardCharsets.UTF_8);
    }

    @Test
    public void httpsSpiffe() throws Exception {
        write(path("first.json"), withAuthorities("ca"));
        SpiffeId id = SpiffeId.parse(SERVER);
        try (Server server = new Server("svid")) {
            server.answer = issuer.bundle();
            Sources own = Sources.spiffe("example.org", server.address(), id, path("first.json"));
            try (Validator validator = Validator.open(Vectors.ledger(), own)) {
                until(validator::isReady);
                assertEquals(Making.SUBJECT, checked(validator, fresh()));
            }
            // (the bundle of the ID's trust domain, from a source of its own)
            Issuer other = new Issuer("example.com");
            server.answer = other.bundle();
            Sources both = Sources.spiffe("example.com", server.address(), id).and(Sources.file("example.org", path("first.json")));
            try (Validator validator = Validator.open(Vectors.ledger(), both)) {
                until(() -> checked(validator, other.token("/a", "ledger")).equals("spiffe://example.com/a"));
            }
            // (the file of such a source counts, also where that trust domain has a bundle of other authorities)
            write(path("strange.json"), withAuthorities("stranger"));
            Sources named = Sources.spiffe("example.com", server.address(), id, path("first.json"))
                                    .and(Sources.file("example.org", path("strange.json")));
            try (Validator validator = Validator.open(Vectors.ledger(), named)) {
                until(() -> checked(validator, other.token("/a", "ledger")).equals("spiffe://example.com/a"));
            }
            server.leadsTo = server.address() + "/moved";
            try (Validator validator = Validator.open(Vectors.ledger(), own)) {
                until(() -> isSaid("it answers with status 302"));
                assertFalse(validator.isReady());
            }
            // (its authorities were not read yet, or there are none)
            for (byte[] it : List.of(issuer.bundle(), "{\"keys\":[{\"use\":\"x509-svid\",\"x5c\":[\"AAAA\"]}]}".getBytes())) {
                said.clear();
                write(path("first.json"), it);
                try (Validator validator = Validator.open(Vectors.ledger(), own)) {
                    until(() -> isSaid("no entry of it has the use"));
                    assertFalse(validator.isReady());
                }
            }
            try (Validator validator = Validator.open(Vectors.ledger(), Sources.spiffe("example.com", server.address(), id))) {
                until(() -> isSaid("was not read yet"));
            }
        }
    }

    /**
     * While authorities are exchanged there are several, and the server has a certificate of one of them. An entry may be no certificate.
     */
    @Test
    public void oneOfSeveralAuthorities() throws Exception {
        String none = new String(withAuthorities("ca", "stranger")).replaceFirst("\"x5c\":\\[\"", "$0AAAA");
        try (Server server = new Server("strange"); Server web = new Server("web")) {
            server.answer = issuer.bundle();
            web.answer = issuer.bundle();
            List<Sources> all = new ArrayList<>();
            for (byte[] it : List.of(withAuthorities("ca", "stranger"), withAuthorities("stranger", "ca"), none.getBytes())) {
                Path first = Files.write(path("first" + all.size() + ".json"), it);
                all.add(Sources.spiffe("example.org", server.address(), SpiffeId.parse(SERVER), first));
            }
            for (String it : List.of("ca stranger", "stranger ca")) {
                Path file = path(it + ".pem");
                Files.writeString(
                        file, Files.readString(secret(it.split(" ")[0] + ".pem")) + Files.readString(secret(it.split(" ")[1] + ".pem")));
                all.add(Sources.web("example.org", web.address(), file));
            }
            for (Sources it : all) {
                try (Validator validator = Validator.open(Vectors.ledger(), it)) {
                    until(validator::isReady);
                }
            }
        }
    }

    /** The last good bundle has the authorities, once there is one: the file does not count then. */
    @Test
    public void theAuthoritiesFollowToo() throws Exception {
        write(path("first.json"), withAuthorities("ca"));
        try (Server server = new Server("svid")) {
            server.answer = withAuthorities("stranger");
            Sources own = Sources.spiffe("example.org", server.address(), SpiffeId.parse(SERVER), path("first.json"));
            List<byte[]> taken = new CopyOnWriteArrayList<>();
            Follower follower = new Follower(own, (text, count) -> taken.add(text));
            Endpoint endpoint = new Endpoint(own.all.get(0), follower);
            endpoint.fetched();
            follower.begin();
            until(() -> taken.size() == 1);
            assertTrue(assertThrows(IOException.class, endpoint::fetched).getMessage().contains("no authority of the bundle vouches"));
            follower.close();
        }
    }

    /** Of each certificate that is none of the server, it is said why. */
    @Test
    public void whoIsNotTheServer() throws Exception {
        write(path("first.json"), withAuthorities("ca"));
        for (String it : List.of("other that of another ID", "two not exactly one URI", "web not exactly one URI",
                     "strange no authority of the bundle vouches", "signer may sign others", "withdrawer may sign others",
                     "client is for no server")) {
            said.clear();
            String name = it.split(" ")[0];
            try (Server server = new Server(name)) {
                server.answer = issuer.bundle();
                Sources sources = Sources.spiffe("example.org", server.address(), SpiffeId.parse(SERVER), path("first.json"));
                try (Validator validator = Validator.open(Vectors.ledger(), sources)) {
                    until(() -> isSaid(it.substring(name.length() + 1)));
                    assertFalse(validator.isReady());
                    assertEquals(List.of(), server.asked);
                }
            }
        }
    }

    /** A server that accepts, and says nothing or a byte now and then, is left in time; and a close waits for none. */
    @Test
    public void aServerThatHangs() throws Exception {
        try (ServerSocket silent = new ServerSocket(0, 5, InetAddress.getLoopbackAddress())) {
            URI address = URI.create("https://127.0.0.1:" + silent.getLocalPort() + "/");
            Sources sources = Sources.web("example.org", address);
            Follower follower = new Follower(sources, (text, count) -> {});
            follower.limit = 300;
            follower.begin();
            until(() -> isSaid("it did not answer within 300 milliseconds") || isSaid("Read timed out"));
            follower.close();
        }
        try (ServerSocket silent = new ServerSocket(0, 5, InetAddress.getLoopbackAddress())) {
            Follower follower = new Follower(
                    Sources.web("example.org", URI.create("https://127.0.0.1:" + silent.getLocalPort() + "/")), (text, count) -> {});
            follower.limit = Integer.MAX_VALUE;
            follower.begin();
            try (Socket first = Making.given("a connection", silent::accept)) {
                // (the client has sent its first bytes, and waits)
                assertTrue(Making.given("its first byte", first.getInputStream()::read) >= 0);
                follower.close();
                until(() -> Said.threads() == 0);
            }
        }
    }

    /** A server that sends a byte now and then is left in time, and what asks it again by itself is ended too. */
    @Test
    public void anAnswerThatNeverEnds() throws Exception {
        try (ServerSocket slow = context("web").getServerSocketFactory().createServerSocket(0, 5, InetAddress.getLoopbackAddress())) {
            Thread serves = new Thread(() -> {
                while (!slow.isClosed()) {
                    try (Socket one = slow.accept()) {
                        one.getOutputStream().write("HTTP/1.1 200 OK\r\nX: ".getBytes());
                        while (true) {
                            one.getOutputStream().write('x');
                            Thread.sleep(10); // (so long a header is taken)
                        }
                    } catch (IOException | InterruptedException why) {
                        // (the client has gone, or the test is over)
                    }
                }
            });
            serves.setDaemon(true);
            serves.start();
            Sources sources = Sources.web("example.org", URI.create("https://localhost:" + slow.getLocalPort() + "/"), secret("ca.pem"));
            Follower follower = new Follower(sources, (text, count) -> {});
            follower.limit = 1000;
            Endpoint endpoint = new Endpoint(sources.all.get(0), follower);
            until(() -> {
                String why = Making.given("the end of a request", () -> assertThrows(IOException.class, endpoint::fetched).getMessage());
                return why.equals("it did not answer within 1000 milliseconds"); // (a busy machine may let it read nothing for so long)
            });
        }
    }

    /** What came until the limit is no answer, also where its end seems to be there. */
    @Test
    public void anAnswerThatIsCutOff() throws Exception {
        try (ServerSocket fast = context("web").getServerSocketFactory().createServerSocket(0, 5, InetAddress.getLoopbackAddress())) {
            Thread serves = new Thread(() -> {
                while (!fast.isClosed()) {
                    try (Socket one = fast.accept()) {
                        one.getOutputStream().write("HTTP/1.1 200 OK\r\n\r\n".getBytes());
                        while (true) {
                            one.getOutputStream().write(' ');
                        }
                    } catch (IOException why) {
                        // (the client has gone, or the test is over)
                    }
                }
            });
            serves.setDaemon(true);
            serves.start();
            Sources sources = Sources.web("example.org", URI.create("https://localhost:" + fast.getLocalPort() + "/"), secret("ca.pem"));
            Follower follower = new Follower(sources, (text, count) -> {});
            follower.limit = 300;
            Endpoint endpoint = new Endpoint(sources.all.get(0), follower);
            for (int n = 0; n < 4; n++) {
                IOException why = Making.given("the end of a request", () -> assertThrows(IOException.class, endpoint::fetched));
                assertEquals("it did not answer within 300 milliseconds", why.getMessage());
            }
        }
    }

    /** The pauses after faults grow to a minute. After a bundle comes the one that its hint wants, and the next fault has a short one. */
    @Test
    public void pausesOfAnAddress() throws Exception {
        List<Long> pauses = new CopyOnWriteArrayList<>();
        try (Server server = new Server("web")) {
            server.status = 500;
            server.answer = "{\"keys\":[],\"spiffe_refresh_hint\":77}".getBytes();
            Follower follower = new Follower(Sources.web("example.org", server.address(), secret("ca.pem")), (text, count) -> {});
            follower.pausing = (source, millis) -> {
                if (source != null) {
                    pauses.add(millis);
                    server.status = pauses.size() == 8 ? 200 : 500;
                }
                return source == null || pauses.size() == 10 ? 3_600_000 : 0;
            };
            follower.begin();
            until(() -> pauses.size() == 10);
            follower.close();
        }
        assertEquals(List.of(1000L, 2000L, 4000L, 8000L, 16_000L, 32_000L, 60_000L, 60_000L, 77_000L, 1000L), pauses);
    }

    /** Bundles that a validator has no memory for are handed on again at the next look, until it takes them. */
    @Test
    public void bundlesThatWereNotTaken() throws Exception {
        Path file = path("a.json");
        write(file, issuer.bundle());
        AtomicInteger count = new AtomicInteger();
        Follower follower = new Follower(Sources.file("example.org", file), (text, domains) -> {
            if (count.getAndIncrement() < 2) {
                throw new SvidException.OutOfMemory(null);
            }
        });
        Looks looks = new Looks();
        follower.pausing = looks;
        follower.begin();
        until(() -> isSaid("bundle source is well again: the validator"));
        looks.come(2);
        assertEquals(3, count.get());
        follower.close();
    }

    /** Whatever fails while bundles are handed on, later ones are taken. */
    @Test
    public void anErrorEndsNoThread() throws Exception {
        Path file = path("a.json");
        List<String> taken = new CopyOnWriteArrayList<>();
        Follower follower = new Follower(Sources.file("example.org", file), (text, domains) -> {
            taken.add(new String(text));
            if (taken.size() == 1) {
                throw new AssertionError("it fails");
            }
        });
        follower.pausing = new Looks();
        follower.begin();
        write(file, issuer.bundle());
        until(() -> taken.size() == 2);
        follower.close();
    }

    /** Of an answer that does not end no more is read than shows that it is too long. */
    @Test
    public void anAnswerWithoutEnd() throws Exception {
        try (Server server = new Server("web")) {
            server.isEndless = true;
            server.answer = padded(issuer.bundle());
            Sources sources = Sources.web("example.org", server.address(), secret("ca.pem"));
            Follower follower = new Follower(sources, (text, count) -> {});
            follower.limit = (int) (1000 * Making.PATIENCE);
            assertEquals(Follower.MOST + 1, new Endpoint(sources.all.get(0), follower).fetched().length);
        }
    }

    @Test
    public void aHintOfABundle() {
        for (String it : List.of("1 10", "10 10", "77 77", "86401 86400", "0 300", "-5 300", "\"x\" 300", "null 300")) {
            String[] parts = it.split(" ");
            byte[] bundle = ("{\"keys\":[],\"spiffe_refresh_hint\":" + parts[0] + "}").getBytes();
            assertEquals(it, Long.parseLong(parts[1]), Endpoint.refreshOf(bundle));
        }
        assertEquals(300, Endpoint.refreshOf("{}".getBytes()));
        assertEquals(300, Endpoint.refreshOf("no".getBytes()));
    }
}
