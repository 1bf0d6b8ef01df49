package svid;

import java.net.URI;
import java.nio.file.Path;
import java.util.ArrayList;
import java.util.HashSet;
import java.util.List;
import java.util.Map;
import java.util.Objects;
import java.util.Set;

/**
 * Where the trust bundles of a validator come from, which {@link Validator#open(Options, Sources)} follows: a new bundle is used soon after
 * it is there, and of one that can't be read the last good one stays. Then the system's logger "svid" has a warning, once for each fault.
 *
 * <pre>{@code
 * Sources sources = Sources.folder(Path.of("/run/bundles")).and(Sources.web("example.com", URI.create("https://example.com/bundle.json")));
 * }</pre>
 *
 * <p>A bundle is a SPIFFE bundle document, as SPIRE prints it, of at most 1,048,576 bytes. One trust domain has one source; a file of a
 * folder counts only if no other source names its trust domain.
 */
public final class Sources {
    private static final String SCHEME = "spiffe://";
    private static final String ENDPOINT_SOCKET = "SPIFFE_ENDPOINT_SOCKET";

    final List<Source> all;

    private Sources(List<Source> all) {
        this.all = all;
    }

    /**
     * A source.
     *
     * @param domain its trust domain; "" of a folder and a Workload API
     * @param where the path of a file or of a folder, or null
     * @param address that of a bundle endpoint, or null
     * @param server the SPIFFE ID of the server, for https_spiffe, or null
     * @param authorities a file with those by which the server is known, or null
     * @param api the address of a Workload API, or null
     */
    record Source(String domain, Path where, URI address, SpiffeId server, Path authorities, String api) {
        private static Source endpoint(String domain, URI address, SpiffeId server, Path authorities) {
            return new Source(named(domain), null, https(address), server, authorities, null);
        }

        /** What it is called in warnings. */
        String name() {
            return api != null ? api : where == null ? address.toString() : where.toString();
        }
    }

    private static Sources of(Source one) {
        return new Sources(List.of(one));
    }

    /** The bundle of one trust domain, in a file. A change is used within two seconds. */
    public static Sources file(String trustDomain, Path file) {
        return of(new Source(named(trustDomain), Objects.requireNonNull(file), null, null, null, null));
    }

    /**
     * Each file TRUST-DOMAIN.json of a folder, as {@code example.org.json}. A change is used within two seconds, and so is a file that
     * comes or goes.
     */
    public static Sources folder(Path folder) {
        return of(new Source("", Objects.requireNonNull(folder), null, null, null, null));
    }

    /**
     * The bundle endpoint of a trust domain, whose server has a certificate of the system's authorities for its name (SPIFFE Federation,
     * profile https_web). It is asked again after the seconds of the bundle's spiffe_refresh_hint, but at the least after 10, and at the
     * most after 86,400; without a hint, after five minutes.
     *
     * @throws IllegalArgumentException where the address is none of https, or has a user
     */
    public static Sources web(String trustDomain, URI address) {
        return of(Source.endpoint(trustDomain, address, null, null));
    }

    /**
     * The bundle endpoint of a trust domain, as {@link #web(String, URI)} has it, whose server is known by other authorities.
     *
     * @param authorities a file of certificates as PEM, which is read for each request
     */
    public static Sources web(String trustDomain, URI address, Path authorities) {
        return of(Source.endpoint(trustDomain, address, null, Objects.requireNonNull(authorities)));
    }

    /**
     * The bundle endpoint of a trust domain, whose server has the X.509-SVID of a SPIFFE ID (SPIFFE Federation, profile https_spiffe). Its
     * authorities are those of the last good bundle of the ID's trust domain, which has a source of its own.
     *
     * @throws IllegalArgumentException where the address is none of https, or has a user
     */
    public static Sources spiffe(String trustDomain, URI address, SpiffeId server) {
        return of(Source.endpoint(trustDomain, address, Objects.requireNonNull(server), null));
    }

    /**
     * The bundle endpoint of a trust domain, as {@link #spiffe(String, URI, SpiffeId)} has it, where the server is one of that trust domain
     * itself, or where its trust domain has no other source.
     *
     * @param first a file with a bundle of the ID's trust domain, which counts until a good bundle of it was read
     */
    public static Sources spiffe(String trustDomain, URI address, SpiffeId server, Path first) {
        return of(Source.endpoint(trustDomain, address, Objects.requireNonNull(server), Objects.requireNonNull(first)));
    }

    /**
     * The bundles of all trust domains that a SPIFFE Workload API gives, as SPIRE's agent serves it. A change is used at once. It needs
     * grpc-netty, grpc-stub and protobuf-java on the class path.
     *
     * @param address as unix:///run/spire/agent.sock or tcp://127.0.0.1:8081
     * @throws IllegalArgumentException where the address is another one
     * @throws IllegalStateException where a package that it needs is not there
     */
    public static Sources workload(String address) {
        try {
            Workload.addressOf(address);
        } catch (NoClassDefFoundError why) {
            throw new IllegalStateException("a Workload API needs grpc-netty, grpc-stub and protobuf-java on the class path", why);
        }
        return of(new Source("", null, null, null, null, address));
    }

    /**
     * The bundles of a Workload API, as {@link #workload(String)} has them, at the address that the variable SPIFFE_ENDPOINT_SOCKET of the
     * environment has.
     *
     * @throws IllegalArgumentException where it has none
     * @throws IllegalStateException where a package that it needs is not there
     */
    public static Sources workload() {
        return workload(System.getenv());
    }

    static Sources workload(Map<String, String> environment) {
        String address = environment.get(ENDPOINT_SOCKET);
        if (address == null) {
            throw new IllegalArgumentException(ENDPOINT_SOCKET + " is not set: give the address of the Workload API");
        }
        return workload(address);
    }

    /**
     * These sources and others.
     *
     * @throws IllegalArgumentException where both name a trust domain, or both may give bundles of the same ones: a Workload API and a
     *         folder, or two Workload APIs
     */
    public Sources and(Sources others) {
        List<Source> both = new ArrayList<>(all);
        both.addAll(others.all);
        Set<String> names = new HashSet<>();
        for (Source it : both) {
            if (!it.domain.isEmpty() && !names.add(it.domain)) {
                throw new IllegalArgumentException("the bundle of " + it.domain + " has two sources: give one");
            }
        }
        if (both.stream().anyMatch(it -> it.api != null) && both.stream().filter(it -> it.domain.isEmpty()).count() > 1) {
            throw new IllegalArgumentException("one trust domain could have two sources: give one Workload API, and no folder");
        }
        return new Sources(List.copyOf(both));
    }

    /** Whether a source names this trust domain. */
    boolean name(String domain) {
        return all.stream().anyMatch(it -> it.domain.equals(domain));
    }

    /** The trust domain that a Workload API calls so, by its SPIFFE ID or its name. Null where there is none. */
    static String domainOf(String name) {
        try {
            SpiffeId id = SpiffeId.parse(name.startsWith(SCHEME) ? name : SCHEME + name);
            return id.path().isEmpty() ? id.trustDomain() : null;
        } catch (SvidException.BadId none) {
            return null;
        }
    }

    /** The library says what the name of a trust domain is. */
    private static String named(String domain) {
        SpiffeId id = SpiffeId.parse(SCHEME + domain);
        if (!id.trustDomain().equals(domain)) {
            throw new IllegalArgumentException('"' + domain + "\" is no name of a trust domain");
        }
        return domain;
    }

    private static URI https(URI address) {
        if (String.valueOf(address.getRawAuthority()).contains("@")) {
            // (it would stand in each warning, and no request would have it)
            throw new IllegalArgumentException("an address has no name of a user, and no password: write https://HOST/PATH");
        }
        if (!"https".equals(address.getScheme()) || address.getHost() == null) {
            throw new IllegalArgumentException(address + " is no address: write https://HOST/PATH");
        }
        return address;
    }
}
