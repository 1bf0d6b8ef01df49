package svid;

import static org.junit.Assert.assertArrayEquals;
import static org.junit.Assert.assertEquals;
import static org.junit.Assert.assertThrows;
import static org.junit.Assert.assertTrue;

import com.google.gson.JsonObject;
import com.google.gson.JsonParser;
import com.sun.net.httpserver.HttpServer;
import java.io.BufferedReader;
import java.io.File;
import java.io.IOException;
import java.io.InputStream;
import java.net.HttpURLConnection;
import java.net.InetAddress;
import java.net.InetSocketAddress;
import java.net.Socket;
import java.net.URL;
import java.nio.charset.StandardCharsets;
import java.nio.file.Files;
import java.nio.file.Path;
import java.util.ArrayList;
import java.util.List;
import java.util.jar.JarFile;
import java.util.regex.Matcher;
import java.util.regex.Pattern;
import java.util.stream.Stream;
import javax.tools.ToolProvider;
import javax.xml.parsers.DocumentBuilderFactory;
import org.junit.BeforeClass;
import org.junit.ClassRule;
import org.junit.Test;
import org.junit.rules.TemporaryFolder;
import org.w3c.dom.Element;

/** The jar by itself, and what README.md shows. */
public class PackageTest {
    private static final int MOST_LINES = 15;
    /** What each service has beside the jar. */
    private static final String JARS = "/usr/share/java/jna.jar:/usr/share/java/gson.jar";

    @ClassRule public static final TemporaryFolder ROOM = new TemporaryFolder();

    private static Path jar;

    /** packages/java/test has built it. */
    @BeforeClass
    public static void build() throws Exception {
        String given = System.getProperty("svid.jar");
        jar = given == null ? built("first") : Path.of(given);
    }

    private static Path built(String name) throws Exception {
        File folder = ROOM.newFolder(name);
        return Path.of(HeaderTest.ran("bash", Vectors.JAVA + "/build", folder.toString()).lines().findFirst().orElseThrow());
    }

    /** The blocks of README.md in this language. */
    private static List<String> blocks(String language) {
        Matcher matcher = Pattern.compile("(?ms)^```" + language + "\n(.*?)^```$").matcher(Vectors.text(Vectors.JAVA.resolve("README.md")));
        return matcher.results().map(it -> it.group(1)).toList();
    }

    /** The program of this name in README.md. */
    private static String source(String name) {
        return blocks("java").stream().filter(it -> it.contains("public class " + name + " {")).findFirst().orElseThrow();
    }

    /** Compiles a program of README.md against the jar, in a folder of its own, and gives the command that runs it. */
    private static ProcessBuilder program(String name) throws Exception {
        String source = source(name);
        Path folder = ROOM.getRoot().toPath().resolve(name);
        String path = jar + ":" + JARS + ":" + folder;
        if (!Files.exists(folder)) {
            Files.createDirectory(folder);
            Path file = folder.resolve(name + ".java");
            Files.writeString(file, source);
            Files.createSymbolicLink(folder.resolve("examples"), Vectors.TOP.resolve("examples"));
            String[] words = {"-Xlint:all", "-Werror", "-cp", path, "-d", folder.toString(), file.toString()};
            assertEquals(0, ToolProvider.getSystemJavaCompiler().run(null, null, null, words));
        }
        String java = System.getProperty("java.home") + "/bin/java";
        return new ProcessBuilder(new ArrayList<>(List.of(java, "-XX:TieredStopAtLevel=1", "-XX:+UseSerialGC", "-cp", path, name)))
                .directory(folder.toFile())
                .redirectErrorStream(true);
    }

    @Test
    public void theJarIsTheSameEachTime() throws Exception {
        Path again = built("second");
        for (String it : List.of(".jar", "-sources.jar", "-javadoc.jar", ".pom")) {
            String name = jar.getFileName().toString().replace(".jar", it);
            assertArrayEquals(it, Files.readAllBytes(jar.resolveSibling(name)), Files.readAllBytes(again.resolveSibling(name)));
        }
    }

    @Test
    public void whatTheJarHas() throws Exception {
        List<String> names = new ArrayList<>();
        try (JarFile file = new JarFile(jar.toFile())) {
            file.stream().forEach(it -> names.add(it.getName()));
            assertEquals("svid", file.getManifest().getMainAttributes().getValue("Automatic-Module-Name"));
            for (String arch : List.of("x86_64", "aarch64")) {
                try (InputStream packed = file.getInputStream(file.getEntry("svid/" + arch + "/libsvid.so"))) {
                    assertArrayEquals(Files.readAllBytes(Vectors.TOP.resolve("dist/" + arch + "/libsvid.so")), packed.readAllBytes());
                }
            }
        }
        List<String> others =
                names.stream()
                        .filter(it -> !it.matches("META-INF/(MANIFEST\\.MF)?|svid/(testing/)?[\\w$]+\\.class|svid/\\w+/libsvid\\.so"))
                        .toList();
        assertEquals(List.of(), others);
    }

    /** The sources are those that are compiled, and the documentation has each public type. */
    @Test
    public void whatTheOtherJarsHave() throws Exception {
        for (String it : List.of("-sources.jar java", "-javadoc.jar html")) {
            String[] parts = it.split(" ");
            try (JarFile file = new JarFile(jar.toString().replace(".jar", parts[0]))) {
                for (String name : List.of("Validator", "Sources", "Store", "testing/Issuer", "testing/TestClock")) {
                    assertTrue(name, file.getEntry("svid/" + name + "." + parts[1]) != null);
                }
                assertEquals(parts[1].equals("java"), file.getEntry("svid/Member." + parts[1]) != null);
            }
        }
    }

    /** It names the jar, and what that needs when it runs: the packages whose classes it is compiled against. */
    @Test
    public void whatThePomSays() throws Exception {
        Path pom = Path.of(jar.toString().replace(".jar", ".pom"));
        Element project = DocumentBuilderFactory.newInstance().newDocumentBuilder().parse(pom.toFile()).getDocumentElement();
        List<String> said = new ArrayList<>();
        for (String name : List.of("groupId", "artifactId", "version")) {
            said.add(project.getElementsByTagName(name).item(0).getTextContent());
        }
        assertEquals(jar.getFileName().toString(), said.get(1) + "-" + said.get(2) + ".jar");
        List<String> needs = new ArrayList<>();
        for (int n = 0; n < project.getElementsByTagName("dependency").getLength(); n++) {
            Element it = (Element) project.getElementsByTagName("dependency").item(n);
            String need = it.getElementsByTagName("artifactId").item(0).getTextContent();
            for (String name : List.of("scope", "optional")) {
                if (it.getElementsByTagName(name).getLength() > 0) {
                    need += ", " + name + " " + it.getElementsByTagName(name).item(0).getTextContent();
                }
            }
            needs.add(need);
        }
        assertEquals(List.of("jna", "postgresql, scope runtime, optional true", "junit, scope test", "gson", "grpc-netty, optional true",
                             "grpc-stub, optional true", "protobuf-java, optional true"),
                needs);
        assertEquals(0, project.getElementsByTagName("build").getLength());
    }

    @Test
    public void whatReadmeShows() throws Exception {
        List<String> names = List.of("Hello");
        for (String name : names) {
            Process process = program(name).start();
            String said = Making.said(process);
            assertEquals(said, 0, Making.ended(process));
            assertEquals(blocks("text").get(names.indexOf(name)), said);
        }
    }

    /** The lines by which a service tests its own use of the package. */
    @Test
    public void theTestOfReadme() throws Exception {
        String lines = blocks("java").stream().filter(it -> it.startsWith("TestClock clock")).findFirst().orElseThrow();
        assertTrue(lines.lines().count() <= 6);
        assertEquals("passed\n", said(lines + "System.out.println(\"passed\");"));
    }

    /** What these lines print. */
    private static String said(String lines) throws Exception {
        Path folder = ROOM.newFolder().toPath();
        Files.writeString(folder.resolve("Own.java"),
                "import static org.junit.Assert.*;\nimport svid.*;\nimport svid.testing.*;\npublic class Own {\n"
                        + "public static void main(String[] args) throws Exception {\n" + lines + "\n}\n}\n");
        String path = jar + ":" + JARS + ":/usr/share/java/junit4.jar:/usr/share/java/hamcrest.jar:" + folder;
        String[] words = {"-Xlint:all", "-Werror", "-cp", path, "-d", folder.toString(), folder.resolve("Own.java").toString()};
        assertEquals(0, ToolProvider.getSystemJavaCompiler().run(null, null, null, words));
        String java = System.getProperty("java.home") + "/bin/java";
        return HeaderTest.ran(java, "-XX:TieredStopAtLevel=1", "-XX:+UseSerialGC", "-cp", path, "Own");
    }

    /** Only a Workload API needs gRPC, and says so. */
    @Test
    public void withoutGrpc() throws Exception {
        assertEquals("a Workload API needs grpc-netty, grpc-stub and protobuf-java on the class path\n",
                said("try {\nSources.workload(\"unix:///run/agent.sock\");\n} catch (Throwable why) {\n"
                        + "System.out.println(why instanceof IllegalStateException ? why.getMessage() : \"another one\");\n}"));
    }

    /** The service accepts a token once, and refuses it the second time, also while others send half of a request. */
    @Test
    public void theServiceOfReadme() throws Exception {
        Stream<String> own =
                source("Service").lines().filter(it -> !it.isBlank() && !it.startsWith("import ") && !it.matches("[\\s{}();]*"));
        assertTrue(own.count() <= MOST_LINES);
        ProcessBuilder builder = program("Service");
        Path bundles = ROOM.newFolder("bundles").toPath();
        JsonObject all = JsonParser.parseString(Vectors.bundles()).getAsJsonObject();
        Files.writeString(bundles.resolve("example.org.json"), all.get("example.org").toString());
        builder.command().addAll(List.of(bundles.toString(), ROOM.getRoot() + "/state", "0"));
        Process service = builder.start();
        List<Socket> slows = new ArrayList<>();
        try (BufferedReader lines = service.inputReader()) {
            String line = Making.given("a line of the service", lines::readLine);
            assertTrue(line, line.startsWith("listening on "));
            int port = Integer.parseInt(line.substring("listening on ".length()));
            String bearer = "Bearer " + Vectors.tokens().get(0);
            for (int count = 0; count < 20; count++) {
                Socket slow = new Socket("127.0.0.1", port);
                slows.add(slow);
                slow.getOutputStream().write("GET / HTTP/1.1\r\n".getBytes(StandardCharsets.US_ASCII));
            }
            assertEquals("200 hello spiffe://example.org/billing/api\n", asked(port, bearer));
            assertEquals("401 Bearer error=\"invalid_token\", error_description=\"Replayed\"", asked(port, bearer));
            assertEquals("401 Bearer error=\"invalid_request\", error_description=\"NotBearer\"", asked(port, "Bearer"));
            assertEquals("401 Bearer realm=\"svid\"", asked(port));
            assertEquals("401 Bearer error=\"invalid_request\", error_description=\"NotBearer\"", asked(port, bearer, "Basic x"));
        } finally {
            for (Socket slow : slows) {
                slow.close();
            }
            service.destroy();
            Making.ended(service);
        }
    }

    /** The status of the answer to a request with these header fields, and its challenge or its body. */
    private static String asked(int port, String... authorizations) throws IOException {
        return asked("/", port, authorizations);
    }

    private static String asked(String path, int port, String... authorizations) throws IOException {
        HttpURLConnection connection = (HttpURLConnection) new URL("http://127.0.0.1:" + port + path).openConnection();
        connection.setReadTimeout((int) (1000 * Making.PATIENCE));
        for (String it : authorizations) {
            connection.addRequestProperty("Authorization", it);
        }
        int status = connection.getResponseCode();
        String challenge = connection.getHeaderField("WWW-Authenticate");
        if (challenge != null || status != 200) {
            return status + " " + challenge;
        }
        return status + " " + new String(connection.getInputStream().readAllBytes(), StandardCharsets.UTF_8);
    }

    /** The handler answers 403 to a caller that may not call, and 503 where there is no answer about the token. */
    @Test
    public void theHandlerAnswersAll() throws Exception {
        Validator validator = Validator.open(Vectors.ledger(), Vectors.bundles());
        HttpServer server = HttpServer.create(new InetSocketAddress(InetAddress.getLoopbackAddress(), 0), 0);
        List<IdPattern> callers = new ArrayList<>(List.of(IdPattern.of("spiffe://example.org/other")));
        ProtectedHandler.Handler handler = (exchange, admission) -> exchange.sendResponseHeaders(204, -1);
        server.createContext("/", new ProtectedHandler(validator, callers, handler));
        callers.add(IdPattern.of("spiffe://example.org"));
        assertThrows(IllegalArgumentException.class, () -> new ProtectedHandler(validator, List.of(), handler));
        server.start();
        try {
            int port = server.getAddress().getPort();
            String bearer = "Bearer " + Vectors.tokens().get(0);
            assertEquals("403 Bearer error=\"insufficient_scope\", error_description=\"NotAllowed\"", asked(port, bearer));
            assertEquals(0, validator.size().uses());
            validator.close();
            assertEquals("503 null", asked(port, bearer));
        } finally {
            server.stop(0);
        }
    }

    /** A store that is away, as long as it is. */
    private static final class Away implements Store {
        final MemoryStore store = new MemoryStore();
        volatile boolean isAway = true;

        @Override
        public List<Found> put(List<Claim> claims) throws IOException {
            if (isAway) {
                throw new IOException("the store is away");
            }
            return store.put(claims);
        }

        @Override
        public void withdraw(TokenKey key, java.time.Instant expiry) {
            store.withdraw(key, expiry);
        }
    }

    /** In mode bound the handler says who sends the request. It answers 503 while the store is away, and 403 to who may not call. */
    @Test
    public void theHandlerOfAStore() throws Exception {
        Away store = new Away();
        Options options = Vectors.ledger().mode(Mode.BOUND).store(store).wait(java.time.Duration.ofMillis(500));
        List<byte[]> who = new ArrayList<>(List.of(new byte[] {1}));
        ProtectedHandler.Handler handler = (exchange, admission) -> exchange.sendResponseHeaders(204, -1);
        HttpServer server = HttpServer.create(new InetSocketAddress(InetAddress.getLoopbackAddress(), 0), 0);
        String bearer = "Bearer " + Making.token();
        try (Validator validator = Validator.open(options, Making.bundles());
                Validator closed = Validator.open(options.callers(IdPattern.of("spiffe://example.com")), Making.bundles())) {
            server.createContext("/", new ProtectedHandler(validator, handler).caller(exchange -> who.get(0)));
            server.createContext("/closed", new ProtectedHandler(closed, handler).caller(exchange -> who.get(0)));
            server.start();
            int port = server.getAddress().getPort();
            assertEquals("503 null", asked(port, bearer));
            store.isAway = false;
            Making.until(() -> validator.isReady() && closed.isReady());
            String forbidden = "403 Bearer error=\"insufficient_scope\", error_description=\"NotAllowed\"";
            Making.until(() -> asked("/closed", port, bearer).equals(forbidden));
            for (int n = 0; n < 2; n++) {
                Making.until(() -> asked(port, bearer).equals("204 null"));
            }
            who.set(0, new byte[] {2});
            Making.until(() -> asked(port, bearer).equals("401 Bearer error=\"invalid_token\", error_description=\"Replayed\""));
        } finally {
            server.stop(0);
        }
    }

    /** The version and the dependency of pom.xml, and the folder of the library. */
    @Test
    public void thePom() throws Exception {
        Element pom = DocumentBuilderFactory.newInstance()
                              .newDocumentBuilder()
                              .parse(Vectors.JAVA.resolve("pom.xml").toFile())
                              .getDocumentElement();
        String version = pom.getElementsByTagName("version").item(0).getTextContent();
        assertEquals("svid-" + version + ".jar", jar.getFileName().toString());
        assertTrue(Vectors.text(Vectors.JAVA.resolve("README.md")).contains("\n/tmp/svid-" + version + ".jar\n"));
        Path resources = Vectors.JAVA.resolve(pom.getElementsByTagName("directory").item(0).getTextContent());
        assertTrue(resources.toString(), Files.exists(resources.resolve("x86_64/libsvid.so")));
        assertEquals("svid", pom.getElementsByTagName("targetPath").item(0).getTextContent());
    }

    /** Another library is taken where the system property names it, and what is none is said to be none. */
    @Test
    public void anotherLibrary() throws Exception {
        for (String named : List.of(Vectors.TOP + "/dist/x86_64/libsvid.so", "/nowhere/libsvid.so", Vectors.TOP + "/README.md",
                     System.getProperty("svid.other") + " 40000", System.getProperty("svid.other") + " 20900")) {
            String[] other = named.split(" ");
            ProcessBuilder builder = program("Hello");
            builder.command().add(1, "-Dsvid.library=" + other[0]);
            builder.environment().put("SVID_OTHER", other[other.length - 1]);
            Process process = builder.start();
            String said = Making.said(process);
            boolean isGood = named.endsWith("64/libsvid.so");
            assertEquals(said, isGood, Making.ended(process) == 0);
            assertEquals(said, isGood, said.equals(blocks("text").get(0)));
            String due =
                    other.length > 1 ? "libsvid.so has the version " + other[1] + ", and 30000 is wanted: take the one of this jar" : named;
            assertTrue(said, isGood || said.contains("UnsatisfiedLinkError") && said.contains(due));
        }
    }

    @Test
    public void everythingPublicIsDocumented() throws Exception {
        List<String> bare = new ArrayList<>();
        List<Path> sources;
        try (Stream<Path> found = Files.walk(Vectors.JAVA.resolve("src/main/java/svid"))) {
            sources = found.filter(it -> it.toString().endsWith(".java")).sorted().toList();
        }
        for (Path source : sources) {
            List<String> lines = Files.readAllLines(source);
            for (int n = 1; n < lines.size(); n++) {
                if (lines.get(n).matches("\\s*public .*[({].*") && !lines.get(n - 1).strip().matches(".*\\*/|@Override")) {
                    bare.add(source.getFileName() + ":" + (n + 1) + ": " + lines.get(n).strip());
                }
            }
        }
        assertEquals(List.of(), bare);
        assertTrue(sources.size() > 10);
    }

    /** The unpacked library is gone from the folder that it was loaded from. */
    @Test
    public void nothingIsLeftBehind() throws Exception {
        ProcessBuilder builder = program("Hello");
        File folder = ROOM.newFolder();
        builder.command().add(1, "-Djava.io.tmpdir=" + folder);
        Process process = builder.start();
        assertEquals(Making.said(process), 0, Making.ended(process));
        assertEquals(0, folder.list().length);
    }
}
