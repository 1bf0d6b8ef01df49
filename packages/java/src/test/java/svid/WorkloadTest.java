package svid;

import static org.junit.Assert.assertArrayEquals;
import static org.junit.Assert.assertEquals;
import static org.junit.Assert.assertFalse;
import static org.junit.Assert.assertThrows;
import static org.junit.Assert.assertTrue;
import static svid.Making.until;

import com.google.gson.Gson;
import com.google.gson.JsonObject;
import com.google.gson.JsonParser;
import io.grpc.MethodDescriptor;
import io.grpc.Server;
import io.grpc.ServerServiceDefinition;
import io.grpc.netty.NettyServerBuilder;
import io.grpc.stub.ServerCalls;
import java.io.BufferedReader;
import java.io.ByteArrayInputStream;
import java.io.File;
import java.io.IOException;
import java.io.InputStream;
import java.net.InetAddress;
import java.net.InetSocketAddress;
import java.net.ServerSocket;
import java.net.Socket;
import java.net.UnixDomainSocketAddress;
import java.nio.charset.StandardCharsets;
import java.nio.file.Files;
import java.nio.file.Path;
import java.nio.file.attribute.PosixFilePermissions;
import java.util.ArrayList;
import java.util.Arrays;
import java.util.HashSet;
import java.util.HexFormat;
import java.util.List;
import java.util.Map;
import java.util.Set;
import java.util.concurrent.CompletableFuture;
import java.util.concurrent.CopyOnWriteArrayList;
import java.util.concurrent.TimeUnit;
import java.util.concurrent.atomic.AtomicInteger;
import java.util.concurrent.atomic.AtomicReference;
import java.util.stream.Collectors;
import java.util.stream.IntStream;
import org.junit.Rule;
import org.junit.Test;
import org.junit.rules.TemporaryFolder;
import svid.testing.Issuer;

/** Bundles of a Workload API: of gRPC's own server for Python, and of {@code svidd dev}. */
@SuppressWarnings("try") // (a process is waited for)
public class WorkloadTest {
    @Rule public final TemporaryFolder room = new TemporaryFolder();
    @Rule public final Said said = new Said();

    private final Issuer issuer = new Issuer("example.org");
    private final Issuer other = new Issuer("other.example");

    /** go/internal/agenttest/agent.py: it gives what a test says. */
    static final class Agent implements AutoCloseable {
        final String address;
        private final String listens;
        private Process process;
        private BufferedReader answers;

        /** It listens at unix:PATH, or at a port of 127.0.0.1. */
        Agent(String listens) throws Exception {
            this.listens = listens;
            String port = start();
            address = listens.startsWith("unix:") ? listens.replace("unix:", "unix://") : "tcp://127.0.0.1:" + port;
        }

        /** Starts it, at first and after a kill. It gives nothing yet. */
        String start() throws Exception {
            String program = Vectors.TOP.resolve("go/internal/agenttest/agent.py").toString();
            process = new ProcessBuilder("/usr/bin/python3", program, listens).redirectError(ProcessBuilder.Redirect.INHERIT).start();
            answers = process.inputReader(StandardCharsets.UTF_8);
            return Making.given("a line of the agent", answers::readLine);
        }

        private void say(Map<String, Object> what) throws Exception {
            process.getOutputStream().write((new Gson().toJson(what) + "\n").getBytes(StandardCharsets.UTF_8));
            process.getOutputStream().flush();
            streams = Integer.parseInt(Making.given("the agent's answer", answers::readLine));
        }

        /** How many streams there were at its last answer. */
        int streams;

        /** Gives these bundles to all streams, and to those that begin later. */
        void gives(Map<String, String> bundles) throws Exception {
            say(Map.of("bundles", bundles));
        }

        /** Ends all streams, and those that begin later. */
        void refuses(String code) throws Exception {
            say(Map.of("code", code, "why",
                    "no\nmore"
                            + " and more".repeat(500)));
        }

        void kill() throws InterruptedException {
            process.destroyForcibly().waitFor();
        }

        @Override
        public void close() throws InterruptedException {
            kill();
        }
    }

    private String socket() {
        return "unix:" + room.getRoot().toPath().resolve("agent.sock");
    }

    /** The keys of an issuer without a use, as SPIRE gives them. */
    private static String keys(Issuer issuer) {
        JsonObject bundle = JsonParser.parseString(new String(issuer.bundle(), StandardCharsets.UTF_8)).getAsJsonObject();
        bundle.getAsJsonArray("keys").forEach(it -> it.getAsJsonObject().remove("use"));
        return bundle.toString();
    }

    private static String judged(Validator validator, Issuer issuer) {
        try {
            return validator.check(issuer.token("/a", "ledger")).spiffeId().trustDomain();
        } catch (Refusal why) {
            return why.reason().toString();
        } catch (SvidException why) {
            return why.getClass().getSimpleName();
        }
    }

    /** What is answered at last: on a slow machine a check may be late. */
    private static String answered(Validator validator, Issuer issuer) {
        String said = judged(validator, issuer);
        return said.equals("Unavailable") ? answered(validator, issuer) : said;
    }

    private static void becomes(Validator validator, Issuer issuer, String due) throws Exception {
        until(() -> judged(validator, issuer).equals(due));
    }

    private static final String NO_KEYS = "{\"keys\":[]}";

    /** Bundles come, change and go. One that is bad stays as it was. */
    @Test
    public void theBundlesOfAnAgent() throws Exception {
        try (Agent agent = new Agent(socket())) {
            Sources sources = Sources.workload(Map.of("SPIFFE_ENDPOINT_SOCKET", agent.address));
            try (Validator validator = Validator.open(Vectors.ledger(), sources)) {
                assertFalse(validator.isReady());
                assertEquals("Unavailable", judged(validator, issuer));
                agent.gives(Map.of("spiffe://example.org", keys(issuer), "spiffe://other.example", keys(other)));
                becomes(validator, issuer, "example.org");
                assertTrue(validator.isReady());
                becomes(validator, other, "other.example");
                agent.gives(Map.of("spiffe://example.org", "[]", "spiffe://other.example", NO_KEYS, "spiffe://other.example/a", NO_KEYS));
                becomes(validator, other, "NoKey");
                assertEquals("example.org", answered(validator, issuer));
                until(() -> said.has("it gives a bundle of what is no trust domain: spiffe://other.example/a"));
                assertTrue(said.has("the last good one stays: example.org of " + agent.address + ": java.io.IOException: "));
                agent.gives(Map.of());
                until(() -> said.has("it gives no bundle"));
                assertEquals("NoKey", answered(validator, other));
                agent.gives(Map.of("spiffe://example.org", keys(issuer)));
                becomes(validator, other, "UnknownDomain");
                assertEquals("example.org", answered(validator, issuer));
                issuer.rotate();
                issuer.rotate();
                assertEquals("NoKey", answered(validator, issuer));
                agent.gives(Map.of("example.org", keys(issuer)));
                becomes(validator, issuer, "example.org");
                // (a message may be longer than gRPC takes it without being told)
                String blanks = " ".repeat(Follower.MOST - 1000);
                agent.gives(IntStream.range(0, 6).boxed().collect(Collectors.toMap(it -> "n" + it, it -> blanks + NO_KEYS)));
                becomes(validator, issuer, "UnknownDomain");
                assertEquals(1, agent.streams);
            }
            until(() -> {
                agent.gives(Map.of());
                return agent.streams == 0;
            });
        }
    }

    /** What names a trust domain comes before a Workload API, and only one source gives all that it has. */
    @Test
    public void otherSourcesBesideIt() throws Exception {
        Path file = room.getRoot().toPath().resolve("a.json");
        try (Agent agent = new Agent("127.0.0.1:0")) {
            Sources api = Sources.workload(agent.address);
            Sources folder = Sources.folder(room.getRoot().toPath());
            assertThrows(IllegalArgumentException.class, () -> api.and(folder));
            assertThrows(IllegalArgumentException.class, () -> api.and(Sources.workload(agent.address)));
            agent.gives(Map.of("spiffe://example.org", keys(issuer), "spiffe://other.example", keys(other)));
            try (Validator validator = Validator.open(Vectors.ledger(), api.and(Sources.file("example.org", file)))) {
                becomes(validator, other, "other.example");
                assertEquals("Unavailable", judged(validator, issuer)); // (the file may come)
                Files.write(file, issuer.bundle());
                becomes(validator, issuer, "example.org");
            }
        }
    }

    /** An agent that ends a stream, is killed or not there is asked again, and its bundles stay meanwhile. */
    @Test
    public void anAgentThatGoesIsAskedAgain() throws Exception {
        try (Agent agent = new Agent(socket()); Validator validator = Validator.open(Vectors.ledger(), Sources.workload(agent.address))) {
            agent.gives(Map.of("spiffe://example.org", keys(issuer)));
            becomes(validator, issuer, "example.org");
            agent.refuses("PERMISSION_DENIED");
            until(()
                            -> said.has("the last good one stays: " + agent.address
                                    + ": java.io.IOException: it has no identity for this process"));
            assertTrue(said.lines.toString(), said.has("register it as a workload: PERMISSION_DENIED: no more"));
            assertTrue(said.lines.toString(), said.lines.stream().allMatch(it -> it.length() < 1000));
            agent.kill();
            until(() -> said.has("Connection refused"));
            Files.delete(Path.of(socket().substring("unix:".length())));
            until(() -> said.has("No such file or directory"));
            assertEquals("example.org", answered(validator, issuer));
            issuer.rotate();
            issuer.rotate();
            agent.start();
            agent.gives(Map.of("spiffe://example.org", keys(issuer)));
            becomes(validator, issuer, "example.org");
            until(() -> said.has("bundle source is well again: " + agent.address));
        }
    }

    /** The pauses grow to half a minute at the most. Once bundles came, they are short again. */
    @Test
    public void pausesGrow() throws Exception {
        List<Long> pauses = new CopyOnWriteArrayList<>();
        try (Agent agent = new Agent(socket())) {
            agent.refuses("UNAVAILABLE");
            Follower follower = new Follower(Sources.workload(agent.address), (text, count) -> {});
            follower.pausing = (source, millis) -> {
                if (source == null) {
                    return 3_600_000;
                }
                pauses.add(millis);
                try {
                    if (pauses.size() == 7) {
                        agent.gives(Map.of("spiffe://example.org", NO_KEYS));
                    } else if (pauses.size() > 7) {
                        return 3_600_000;
                    }
                } catch (Exception why) {
                    throw new AssertionError(why);
                }
                return 0;
            };
            follower.begin();
            until(() -> follower.bundleOf("example.org") != null);
            agent.refuses("UNAVAILABLE");
            until(() -> pauses.size() == 8);
            follower.close();
        }
        assertEquals(List.of(1000L, 2000L, 4000L, 8000L, 16_000L, 30_000L, 30_000L, 1000L), pauses);
    }

    /** What it sends as it is, and takes as it comes. */
    private static final class Raw implements MethodDescriptor.Marshaller<byte[]> {
        @Override
        public InputStream stream(byte[] it) {
            return new ByteArrayInputStream(it);
        }

        @Override
        public byte[] parse(InputStream it) {
            return new byte[0];
        }
    }

    /**
     * A message that can't be read takes no bundle away, and the call is made again: the next one of that stream may make no sense either.
     */
    @Test
    public void anAgentWhoseMessagesCanNotBeRead() throws Exception {
        AtomicInteger calls = new AtomicInteger();
        MethodDescriptor<byte[], byte[]> method = MethodDescriptor.<byte[], byte[]>newBuilder()
                                                          .setType(MethodDescriptor.MethodType.SERVER_STREAMING)
                                                          .setFullMethodName("SpiffeWorkloadAPI/FetchJWTBundles")
                                                          .setRequestMarshaller(new Raw())
                                                          .setResponseMarshaller(new Raw())
                                                          .build();
        Server server = NettyServerBuilder.forAddress(new InetSocketAddress(InetAddress.getLoopbackAddress(), 0))
                                .addService(ServerServiceDefinition.builder("SpiffeWorkloadAPI")
                                                    .addMethod(method, ServerCalls.<byte[], byte[]>asyncServerStreamingCall((none, to) -> {
                                                        calls.getAndIncrement();
                                                        to.onNext(new byte[] {1}); // (and the stream goes on)
                                                    }))
                                                    .build())
                                .build()
                                .start();
        Follower follower = new Follower(Sources.workload("tcp://127.0.0.1:" + server.getPort()), (text, count) -> {});
        follower.pausing = (source, millis) -> source == null ? 3_600_000 : 1;
        try {
            follower.begin();
            until(() -> said.has("it sends what is no JWTBundlesResponse"));
            until(() -> calls.get() > 2);
        } finally {
            follower.close();
            server.shutdownNow();
        }
    }

    /** Who refuses the call itself is not asked again. */
    @Test
    public void anAgentThatRefusesTheCallItself() throws Exception {
        try (Agent agent = new Agent(socket())) {
            agent.refuses("INVALID_ARGUMENT");
            try (Validator validator = Validator.open(Vectors.ledger(), Sources.workload(agent.address))) {
                until(() -> said.has("it refuses the call itself: INVALID_ARGUMENT: no more"));
                until(() -> Said.threads() == 1); // (that which looks at files)
            }
        }
    }

    /** One that says nothing is left in time, and not once it has given bundles. */
    @Test
    public void anAgentThatIsSilent() throws Exception {
        try (Agent agent = new Agent(socket())) {
            Follower follower = new Follower(Sources.workload(agent.address), (text, count) -> {});
            follower.limit = 300;
            try {
                follower.begin();
                until(() -> said.has("it sent no bundles within 300 milliseconds"));
                agent.gives(Map.of("spiffe://example.org", NO_KEYS));
                until(() -> said.has("bundle source is well again"));
                until(() -> {
                    said.lines.clear();
                    long end = Times.up() + 900;
                    until(() -> Times.up() > end);
                    // (once the second one is there, all was said of the first one)
                    for (int number = 0; number < 2; number++) {
                        String fresh = "{\"keys\":[],\"number\":" + (number + 1) + Times.up() + "}";
                        agent.gives(Map.of("spiffe://example.org", fresh));
                        until(() -> Arrays.equals(fresh.getBytes(), follower.bundleOf("example.org")));
                    }
                    return said.lines.isEmpty();
                });
            } finally {
                follower.close();
            }
        }
        // (it accepts, and speaks no HTTP/2)
        try (ServerSocket silent = new ServerSocket(0, 5, InetAddress.getLoopbackAddress());
                Validator validator = Validator.open(Vectors.ledger(), Sources.workload("tcp://127.0.0.1:" + silent.getLocalPort()))) {
            Making.given("the first byte of a connection", () -> silent.accept().getInputStream().read());
            validator.close();
            until(() -> Said.threads() == 0);
        }
    }

    /** One that is there no more, and whose connection nobody has ended, is noticed. */
    @Test
    public void anAgentThatStops() throws Exception {
        try (Agent agent = new Agent(socket())) {
            agent.gives(Map.of("spiffe://example.org", NO_KEYS));
            AtomicReference<Workload> stream = new AtomicReference<>();
            until(() -> {
                stream.set(new Workload(agent.address, 5000, 10_000));
                try {
                    assertEquals(Set.of("spiffe://example.org"), stream.get().next().keySet());
                    agent.gives(Map.of("spiffe://example.org", NO_KEYS));
                    return !stream.get().next().isEmpty(); // (only one whose first message was not late has another)
                } catch (IOException late) {
                    stream.get().close();
                    return false;
                }
            });
            HeaderTest.ran("kill", "-STOP", Long.toString(agent.process.pid()));
            CompletableFuture<IOException> ended = new CompletableFuture<>();
            new Thread(() -> ended.complete(assertThrows(IOException.class, stream.get()::next))).start();
            try (Workload it = stream.get()) {
                String why = ended.get(Making.PATIENCE, TimeUnit.SECONDS).getMessage();
                assertTrue(why, why.contains("Keepalive failed"));
            }
        }
    }

    @Test
    public void anAddressOfAnAgent() throws Exception {
        UnixDomainSocketAddress socket = UnixDomainSocketAddress.of("/run/agent.sock");
        for (String it : List.of("unix:///run/agent.sock", "unix:/run/agent.sock")) {
            assertEquals(socket, Workload.addressOf(it));
        }
        assertEquals(new InetSocketAddress("127.0.0.1", 8081), Workload.addressOf("tcp://127.0.0.1:8081"));
        assertEquals(new InetSocketAddress("::1", 8081), Workload.addressOf("tcp://[::1]:8081"));
        for (String it : List.of("", "unix:run", "unix:///run?a", "unix:///run#a", "tcp://localhost:1", "tcp://127.0.0.1",
                     "http://127.0.0.1:1", "tcp://127.0.0.1:1/", "tcp://a@127.0.0.1:1", "tcp://127.0.0.1:0", "tcp://127.0.0.1:99999",
                     "tcp://999.0.0.1:1", "tcp:// :1")) {
            String why = assertThrows(it, IllegalArgumentException.class, () -> Sources.workload(it)).getMessage();
            assertEquals('"' + it + "\" is not like unix:///run/spire/agent.sock or tcp://127.0.0.1:8081", why);
        }
        assertTrue(assertThrows(IllegalArgumentException.class, () -> Sources.workload(Map.of()))
                           .getMessage()
                           .startsWith("SPIFFE_ENDPOINT_SOCKET is"));
    }

    private static Map<String, byte[]> read(String hex) throws IOException {
        return Workload.read(new ByteArrayInputStream(HexFormat.of().parseHex(hex)));
    }

    @Test
    public void aMessageOfAnAgent() throws Exception {
        assertEquals(Map.of(), read(""));
        assertArrayEquals("x".getBytes(),
                read("0a06"
                        + "0a0161"
                        + "120178")
                        .get("a"));
        // (fields that nobody knows are passed over, and of one that comes twice the last counts)
        assertArrayEquals("y".getBytes(),
                read("1007"
                        + "0a0b"
                        + "0a0161"
                        + "120178"
                        + "1805"
                        + "120179")
                        .get("a"));
        assertArrayEquals(new byte[0],
                read("0a03"
                        + "0a0161")
                        .get("a"));
        for (String it : List.of("0a",
                     "0a06"
                             + "0a0161"
                             + "1201",
                     "0a03"
                             + "0a01ff",
                     "0a02"
                             + "0a05",
                     "07", "0b", "0c",
                     "0a01"
                             + "0c",
                     "0a01"
                             + "00")) {
            assertThrows(it, IOException.class, () -> read(it));
        }
    }

    // -- svidd dev

    /** A trust domain whose keys rotate each second, with an agent. */
    private static final class Dev implements AutoCloseable {
        private static final List<Socket> HELD = new CopyOnWriteArrayList<>();
        private final String svidd;
        private final Path keys;
        private Process process;
        private String page;

        Dev(Path room) throws Exception {
            svidd = room.resolve("svidd").toString();
            keys = Files.createDirectory(
                    room.resolve("keys"), PosixFilePermissions.asFileAttribute(PosixFilePermissions.fromString("rwx------")));
            File go = Vectors.TOP.resolve("go").toFile();
            // (these words are those of go/build, whose compiled packages it finds)
            String[] words = {"go", "build", "-trimpath", "-buildvcs=false", "-ldflags=-w -buildid=", "-o", svidd, "./cmd/svidd"};
            assertEquals(0, new ProcessBuilder(words).directory(go).inheritIO().start().waitFor());
            start();
        }

        void start() throws Exception {
            List<String> words = new ArrayList<>(List.of(svidd, "dev", "--keys", keys.toString(), "--rotate", "1s"));
            for (String it : List.of("--listen", "--endpoint", "--page")) {
                page = "127.0.0.1:" + heldPort();
                words.addAll(List.of(it, page));
            }
            File log = keys.resolve("log").toFile();
            process = new ProcessBuilder(words).redirectErrorStream(true).redirectOutput(log).start();
            until(() -> {
                String said = Files.readString(log.toPath());
                assertTrue(said, process.isAlive());
                return said.contains("ready. Now: svidd mint --try");
            });
        }

        /**
         * A port that nobody listens on. It stays held by a socket that does not listen, so the system gives it to nobody who asks for any
         * port, and a server that names it can listen there.
         */
        private static int heldPort() throws IOException {
            Socket socket = new Socket();
            socket.setReuseAddress(true);
            socket.bind(new InetSocketAddress("127.0.0.1", 0));
            HELD.add(socket);
            return socket.getLocalPort();
        }

        String address() {
            return "unix://" + keys.resolve("agent.sock");
        }

        /** A new token. */
        String token() throws Exception {
            Process mint = new ProcessBuilder(svidd, "mint", "--dev", page, "--audience", "ledger").start();
            return Making.said(mint).strip();
        }

        /** By which key a new token is signed. */
        String key() throws Exception {
            return Validator.says(token()).keyId();
        }

        @Override
        public void close() throws Exception {
            process.destroy();
            assertTrue(process.waitFor(Making.PATIENCE, TimeUnit.SECONDS));
        }
    }

    private static String checked(Validator validator, String token) {
        try {
            return validator.check(token).spiffeId().toString();
        } catch (Refusal why) {
            return why.reason().toString();
        }
    }

    /** Keys of a real trust domain rotate, and are followed at once; its agent ends, and starts again. */
    @Test
    public void keysThatRotate() throws Exception {
        try (Dev dev = new Dev(room.getRoot().toPath());
                Validator validator = Validator.open(Vectors.ledger(), Sources.workload(dev.address()))) {
            until(validator::isReady);
            Set<String> keys = new HashSet<>();
            until(() -> keys.add(dev.key()) && keys.size() > 3);
            until(() -> checked(validator, dev.token()).equals(Making.SUBJECT));
            dev.close();
            until(() -> said.has("bundle not read; the last good one stays: " + dev.address()));
            dev.start();
            until(() -> checked(validator, dev.token()).equals(Making.SUBJECT));
            until(() -> said.has("bundle source is well again: " + dev.address()));
        }
    }
}
