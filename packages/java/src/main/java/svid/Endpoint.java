package svid;

import com.google.gson.JsonElement;
import com.google.gson.JsonObject;
import com.google.gson.JsonParseException;
import com.google.gson.JsonParser;
import java.io.ByteArrayInputStream;
import java.io.IOException;
import java.io.InputStream;
import java.net.HttpURLConnection;
import java.net.InetAddress;
import java.net.Socket;
import java.nio.charset.StandardCharsets;
import java.nio.file.Path;
import java.security.GeneralSecurityException;
import java.security.KeyStore;
import java.security.cert.CertPathBuilder;
import java.security.cert.CertStore;
import java.security.cert.Certificate;
import java.security.cert.CertificateException;
import java.security.cert.CertificateFactory;
import java.security.cert.CollectionCertStoreParameters;
import java.security.cert.PKIXBuilderParameters;
import java.security.cert.TrustAnchor;
import java.security.cert.X509CertSelector;
import java.security.cert.X509Certificate;
import java.util.ArrayList;
import java.util.Arrays;
import java.util.Collection;
import java.util.HashSet;
import java.util.List;
import java.util.Set;
import java.util.Timer;
import java.util.TimerTask;
import javax.net.ssl.HttpsURLConnection;
import javax.net.ssl.SSLContext;
import javax.net.ssl.SSLEngine;
import javax.net.ssl.SSLSocketFactory;
import javax.net.ssl.TrustManager;
import javax.net.ssl.TrustManagerFactory;
import javax.net.ssl.X509ExtendedTrustManager;

/**
 * The bundle endpoint of a trust domain (SPIFFE Federation, section 5.2). In the profile https_web its server has a certificate for its
 * name. In the profile https_spiffe it has an X.509-SVID of the ID that the source names.
 */
final class Endpoint {
    /** How many seconds lie between two requests: by the hint of a bundle within bounds, and without one. */
    private static final long SHORTEST = 10, USUAL = 300, LONGEST = 86_400;
    private static final int URI_NAME = 6;
    private static final int CERT_SIGN = 5, CRL_SIGN = 6;
    private static final List<String> OF_SERVERS = List.of("1.3.6.1.5.5.7.3.1", "2.5.29.37.0");

    private final Sources.Source source;
    private final Follower follower;

    Endpoint(Sources.Source source, Follower follower) {
        this.source = source;
        this.follower = follower;
    }

    /** Asks for the bundle. */
    byte[] fetched() throws IOException {
        int most = follower.limit;
        Guarded sockets = new Guarded(context(), follower);
        Timer limit = new Timer(Follower.THREAD, true);
        limit.schedule(sockets, most);
        try {
            HttpsURLConnection connection = (HttpsURLConnection) source.address().toURL().openConnection();
            connection.setSSLSocketFactory(sockets.factory());
            connection.setConnectTimeout(most);
            connection.setReadTimeout(most);
            connection.setUseCaches(false);
            connection.setRequestProperty("Connection", "close");
            // (It is asked where the name in the address is not that of the certificate. In https_spiffe that says nothing, as only this
            // server is known; else no verifier counts, also not one that the service has for its own connections.)
            connection.setHostnameVerifier((host, session) -> source.server() != null);
            connection.setInstanceFollowRedirects(source.server() == null);
            int status = connection.getResponseCode();
            if (status != HttpURLConnection.HTTP_OK) {
                throw new IOException("it answers with status " + status);
            }
            try (InputStream body = connection.getInputStream()) {
                byte[] bundle = body.readNBytes(Follower.MOST + 1);
                if (sockets.isLate()) {
                    throw new IOException("the rest may lack"); // (a socket that is closed between two reads seems to be at its end)
                }
                return bundle;
            }
        } catch (IOException why) {
            throw sockets.isLate() ? new IOException("it did not answer within " + most + " milliseconds", why) : why;
        } finally {
            limit.cancel();
            sockets.end();
        }
    }

    private SSLContext context() throws IOException {
        try {
            if (source.server() == null && source.authorities() == null) {
                return SSLContext.getDefault();
            }
            TrustManager[] judges = source.server() == null ? web(source.authorities())
                                                            : new TrustManager[] {new OfOneServer(source.server(), authorities())};
            SSLContext context = SSLContext.getInstance("TLS");
            context.init(null, judges, null);
            return context;
        } catch (GeneralSecurityException why) {
            throw new IOException(why);
        }
    }

    /** Judges by the certificates of a file, as PEM. */
    private static TrustManager[] web(Path file) throws IOException, GeneralSecurityException {
        KeyStore store = KeyStore.getInstance(KeyStore.getDefaultType());
        store.load(null, null);
        for (Certificate it : certificates(Disk.read(file, Follower.MOST))) {
            store.setCertificateEntry(Integer.toString(store.size()), it);
        }
        if (store.size() == 0) {
            throw new IOException(file + " has no certificate as PEM");
        }
        TrustManagerFactory factory = TrustManagerFactory.getInstance(TrustManagerFactory.getDefaultAlgorithm());
        factory.init(store);
        return factory.getTrustManagers();
    }

    private static Collection<? extends Certificate> certificates(byte[] pem) throws CertificateException {
        return CertificateFactory.getInstance("X.509").generateCertificates(new ByteArrayInputStream(pem));
    }

    /**
     * Those by which the server of an ID is known: where its bundle is that of the ID's own trust domain, the last good one, and before the
     * first one the file; else the file, or where there is none, the last good bundle of the ID's trust domain.
     */
    private Set<TrustAnchor> authorities() throws IOException {
        String domain = source.server().trustDomain();
        byte[] last = follower.bundleOf(domain);
        if (last != null && (source.authorities() == null || domain.equals(source.domain()))) {
            return authoritiesIn(last, "the bundle of " + domain);
        }
        if (source.authorities() == null) {
            throw new IOException("the bundle of " + domain + ", by which its server is known, was not read yet");
        }
        return authoritiesIn(Disk.read(source.authorities(), Follower.MOST), source.authorities().toString());
    }

    /** The certificates of a bundle that sign X.509-SVIDs (SPIFFE Trust Domain and Bundle, section 4.2.2). */
    private static Set<TrustAnchor> authoritiesIn(byte[] bundle, String name) throws IOException {
        Set<TrustAnchor> found = new HashSet<>();
        JsonElement keys = object(bundle).get("keys");
        for (JsonElement it : keys != null && keys.isJsonArray() ? keys.getAsJsonArray() : List.<JsonElement>of()) {
            JsonObject entry = it.isJsonObject() ? it.getAsJsonObject() : new JsonObject();
            JsonElement chain = entry.get("x5c");
            if ("x509-svid".equals(text(entry.get("use"))) && chain != null && chain.isJsonArray() && chain.getAsJsonArray().size() == 1) {
                String pem = "-----BEGIN CERTIFICATE-----\n" + text(chain.getAsJsonArray().get(0)) + "\n-----END CERTIFICATE-----\n";
                try {
                    for (Certificate one : certificates(pem.getBytes(StandardCharsets.UTF_8))) {
                        found.add(new TrustAnchor((X509Certificate) one, null));
                    }
                } catch (CertificateException why) {
                    // (what is no certificate is no authority)
                }
            }
        }
        if (found.isEmpty()) {
            throw new IOException(name + ": no entry of it has the use \"x509-svid\" and one certificate");
        }
        return found;
    }

    /** How many seconds after it a bundle wants its address to be asked again. */
    static long refreshOf(byte[] bundle) {
        try {
            long hint = object(bundle).get("spiffe_refresh_hint").getAsLong();
            return hint <= 0 ? USUAL : Math.min(Math.max(hint, SHORTEST), LONGEST);
        } catch (RuntimeException | IOException none) {
            return USUAL;
        }
    }

    private static JsonObject object(byte[] json) throws IOException {
        try {
            return JsonParser.parseString(new String(json, StandardCharsets.UTF_8)).getAsJsonObject();
        } catch (JsonParseException | IllegalStateException why) {
            throw new IOException("it is no JSON object", why);
        }
    }

    private static String text(JsonElement it) {
        return it != null && it.isJsonPrimitive() ? it.getAsString() : "";
    }

    /** Takes the X.509-SVID of one ID, and no other certificate (X.509-SVID, section 5). */
    static final class OfOneServer extends X509ExtendedTrustManager {
        private final SpiffeId id;
        private final Set<TrustAnchor> authorities;

        OfOneServer(SpiffeId id, Set<TrustAnchor> authorities) {
            this.id = id;
            this.authorities = authorities;
        }

        private void judge(X509Certificate[] shown) throws CertificateException {
            X509Certificate leaf = shown[0];
            List<String> uris = new ArrayList<>();
            for (List<?> it : leaf.getSubjectAlternativeNames() == null ? List.<List<?>>of() : leaf.getSubjectAlternativeNames()) {
                if (it.get(0).equals(URI_NAME)) {
                    uris.add((String) it.get(1));
                }
            }
            if (uris.size() != 1) {
                throw new CertificateException("its certificate has not exactly one URI, so it is no X.509-SVID");
            }
            if (!uris.get(0).equals(id.toString())) {
                throw new CertificateException("its certificate is that of another ID, and not of " + id);
            }
            boolean[] usage = leaf.getKeyUsage();
            if (leaf.getBasicConstraints() >= 0 || usage != null && (usage[CERT_SIGN] || usage[CRL_SIGN])) {
                throw new CertificateException("its certificate may sign others, so it is no X.509-SVID of a server");
            }
            if (leaf.getExtendedKeyUsage() != null && leaf.getExtendedKeyUsage().stream().noneMatch(OF_SERVERS::contains)) {
                throw new CertificateException("its certificate is for no server");
            }
            X509CertSelector of = new X509CertSelector();
            of.setCertificate(leaf);
            try {
                PKIXBuilderParameters terms = new PKIXBuilderParameters(authorities, of);
                terms.setRevocationEnabled(false);
                terms.addCertStore(CertStore.getInstance("Collection", new CollectionCertStoreParameters(Arrays.asList(shown))));
                CertPathBuilder.getInstance("PKIX").build(terms);
            } catch (GeneralSecurityException why) {
                throw new CertificateException("no authority of the bundle vouches for its certificate: " + why.getMessage(), why);
            }
        }

        @Override
        public void checkServerTrusted(X509Certificate[] shown, String how, Socket socket) throws CertificateException {
            judge(shown);
        }

        @Override
        public void checkServerTrusted(X509Certificate[] shown, String how, SSLEngine engine) throws CertificateException {
            judge(shown);
        }

        @Override
        public void checkServerTrusted(X509Certificate[] shown, String how) throws CertificateException {
            judge(shown);
        }

        @Override
        public void checkClientTrusted(X509Certificate[] shown, String how, Socket socket) throws CertificateException {
            throw new CertificateException("this is no server");
        }

        @Override
        public void checkClientTrusted(X509Certificate[] shown, String how, SSLEngine engine) throws CertificateException {
            throw new CertificateException("this is no server");
        }

        @Override
        public void checkClientTrusted(X509Certificate[] shown, String how) throws CertificateException {
            throw new CertificateException("this is no server");
        }

        @Override
        public X509Certificate[] getAcceptedIssuers() {
            return new X509Certificate[0];
        }
    }

    /** The sockets of one request, which are closed when it is late, or when the validator is closed. */
    private static final class Guarded extends TimerTask {
        private final SSLSocketFactory made;
        private final Follower follower;
        private final List<Socket> open = new ArrayList<>();
        private boolean isLate;

        Guarded(SSLContext context, Follower follower) {
            made = context.getSocketFactory();
            this.follower = follower;
        }

        synchronized boolean isLate() {
            return isLate;
        }

        @Override
        public synchronized void run() {
            isLate = true;
            end();
        }

        synchronized void end() {
            open.forEach(follower::ended);
            open.clear();
        }

        private synchronized Socket kept(Socket socket) throws IOException {
            open.add(socket);
            follower.opened(socket);
            if (isLate) {
                end();
            }
            return socket;
        }

        SSLSocketFactory factory() {
            return new SSLSocketFactory() {
                @Override
                public String[] getDefaultCipherSuites() {
                    return made.getDefaultCipherSuites();
                }

                @Override
                public String[] getSupportedCipherSuites() {
                    return made.getSupportedCipherSuites();
                }

                @Override
                public Socket createSocket() throws IOException {
                    return kept(made.createSocket());
                }

                @Override
                public Socket createSocket(Socket under, String host, int port, boolean isToClose) throws IOException {
                    return kept(made.createSocket(under, host, port, isToClose));
                }

                @Override
                public Socket createSocket(String host, int port) throws IOException {
                    return kept(made.createSocket(host, port));
                }

                @Override
                public Socket createSocket(String host, int port, InetAddress from, int fromPort) throws IOException {
                    return kept(made.createSocket(host, port, from, fromPort));
                }

                @Override
                public Socket createSocket(InetAddress host, int port) throws IOException {
                    return kept(made.createSocket(host, port));
                }

                @Override
                public Socket createSocket(InetAddress host, int port, InetAddress from, int fromPort) throws IOException {
                    return kept(made.createSocket(host, port, from, fromPort));
                }
            };
        }
    }
}
