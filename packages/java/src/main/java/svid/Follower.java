package svid;

import java.io.Closeable;
import java.io.IOException;
import java.nio.file.Files;
import java.nio.file.Path;
import java.util.ArrayList;
import java.util.Arrays;
import java.util.HashMap;
import java.util.HashSet;
import java.util.List;
import java.util.Map;
import java.util.Set;
import java.util.TreeMap;
import java.util.concurrent.TimeUnit;
import java.util.stream.Stream;

/** Follows the sources of trust bundles, and hands on all bundles whenever one has changed. */
final class Follower {
    static final String THREAD = "svid-bundles";
    /** How many bytes a bundle has at the most. */
    static final int MOST = 1 << 20;
    /** How many objects and lists it begins at the most: each takes memory to read. */
    static final int MOST_BRACKETS = 1 << 15;

    private static final String SUFFIX = ".json";
    /** How many milliseconds lie between two looks at files. */
    private static final long EVERY = 1000;
    /** For how many milliseconds an address is left alone after a fault, at first and at most. */
    private static final long FIRST_PAUSE = 1000;
    private static final long LONGEST_PAUSE = 60_000;
    /** The longest one of a Workload API. */
    private static final long LONGEST_OF_API = 30_000;
    /** How many characters of a fault are logged: a server may have said much. */
    private static final int SAID = 500;

    /** How many milliseconds one answer of an address may take. */
    volatile int limit = 15_000;
    /** For how many milliseconds a close waits for its threads. (A test gives another one.) */
    volatile long closing = 5000;
    /** What makes the pauses. (A test makes others.) */
    volatile Pausing pausing = (source, millis) -> millis;

    private final Sources sources;
    private final Taker taker;
    private final List<Thread> threads = new ArrayList<>();

    /** It guards {@code held}, {@code faults}, {@code sockets} and {@code isClosing}. */
    private final Object gate = new Object();
    private final Map<String, Held> held = new TreeMap<>(); // by trust domain
    private final Map<String, String> faults = new HashMap<>(); // by source: what was last wrong with it
    private final Set<Closeable> sockets = new HashSet<>(); // of requests that are under way
    private boolean isClosing;

    /** Held while bundles are handed on, so that the newest come last. */
    private final Object telling = new Object();
    private volatile boolean isUntaken;

    /** The last good bundle of a trust domain, and its source. */
    private record Held(byte[] text, String source, boolean isOfApi) {}

    /** Takes all bundles. */
    interface Taker {
        /**
         * Takes them as one text.
         *
         * @param count of how many trust domains they are
         */
        void take(byte[] text, int count);
    }

    /** Says for how many milliseconds it pauses where it is to pause for so many. */
    interface Pausing {
        /** Before a source is asked again; null stands for the look at all files. */
        long before(Sources.Source source, long millis);
    }

    /** It follows nothing before {@link #begin}. */
    Follower(Sources sources, Taker taker) {
        this.sources = sources;
        this.taker = taker;
    }

    /** Reads the files now, and begins to follow all. */
    void begin() {
        readFiles();
        start(this::look);
        for (Sources.Source it : sources.all) {
            if (it.address() != null) {
                start(() -> ask(it));
            } else if (it.api() != null) {
                start(() -> attend(it));
            }
        }
    }

    private void start(Runnable work) {
        Thread thread = new Thread(() -> goOn(work), THREAD);
        thread.setDaemon(true);
        threads.add(thread);
        thread.start();
    }

    /** Does this until its end, whatever fails meanwhile, as memory may. */
    private void goOn(Runnable work) {
        boolean isDone = false;
        do {
            try {
                work.run();
                isDone = true;
            } catch (Throwable why) {
                Log.warn("bundles not read", why);
            }
        } while (!isDone && pause(null, EVERY));
    }

    /** Lets its threads end. Waits for nothing. */
    void drop() {
        List<Closeable> open;
        synchronized (gate) {
            isClosing = true;
            gate.notifyAll();
            open = List.copyOf(sockets);
        }
        open.forEach(Follower::closed);
    }

    /** Lets its threads end, and waits for that, but not for a file system that hangs. */
    void close() {
        drop();
        long end = Times.up() + closing;
        for (Thread it : threads) {
            try {
                it.join(Math.max(1, end - Times.up()));
            } catch (InterruptedException why) {
                Thread.currentThread().interrupt();
                return;
            }
        }
    }

    private static void closed(Closeable it) {
        try {
            it.close();
        } catch (IOException why) {
            // (its connection is over)
        }
    }

    /** Lets a request go on that has this socket, or throws at the end. */
    void opened(Closeable socket) throws IOException {
        synchronized (gate) {
            if (!isClosing) {
                sockets.add(socket);
                return;
            }
        }
        socket.close();
        throw new IOException("the validator is closed");
    }

    /** Forgets the socket of a request that has ended. */
    void ended(Closeable socket) {
        synchronized (gate) {
            sockets.remove(socket);
        }
        closed(socket);
    }

    /** Waits for so many milliseconds before a source is asked again, or before the next look at all files. False at the end. */
    private boolean pause(Sources.Source source, long millis) {
        long end = Times.up() + pausing.before(source, millis);
        synchronized (gate) {
            while (!isClosing) {
                long left = end - Times.up();
                if (left <= 0) {
                    return true;
                }
                try {
                    gate.wait(left);
                } catch (InterruptedException why) {
                    // (nobody ends this thread so)
                }
            }
            return false;
        }
    }

    /** Whether a source names this trust domain, so that it is to have a bundle. */
    boolean names(String domain) {
        return sources.name(domain);
    }

    /** The last good bundle of a trust domain, or null. */
    byte[] bundleOf(String domain) {
        synchronized (gate) {
            Held it = held.get(domain);
            return it == null ? null : it.text;
        }
    }

    // -- Files

    /** Looks at the files again and again. */
    private void look() {
        while (pause(null, EVERY)) {
            readFiles();
        }
    }

    private void readFiles() {
        boolean isChanged = false;
        for (Sources.Source it : sources.all) {
            if (it.where() != null && it.domain().isEmpty()) {
                isChanged |= readFolder(it.where());
            } else if (it.where() != null) {
                isChanged |= readFile(it.domain(), it.where());
            }
        }
        if (isChanged || isUntaken) {
            tell();
        }
    }

    private boolean readFile(String domain, Path file) {
        try {
            return adopt(domain, new Held(Disk.read(file, MOST + 1), file.toString(), false));
        } catch (IOException why) {
            fault(file.toString(), why);
            return false;
        }
    }

    /** Reads each bundle of a folder, and drops those whose file is gone. */
    private boolean readFolder(Path folder) {
        List<Path> files;
        try (Stream<Path> found = Files.list(folder)) {
            files = found.filter(it -> it.getFileName().toString().endsWith(SUFFIX)).sorted().toList();
        } catch (IOException | java.io.UncheckedIOException why) {
            fault(folder.toString(), why);
            return false;
        }
        fault(folder.toString(), null);
        boolean isChanged = false;
        for (Path it : files) {
            String name = it.getFileName().toString();
            String domain = name.substring(0, name.length() - SUFFIX.length());
            if (sources.name(domain)) {
                fault(it.toString(), new IOException("the bundle of " + domain + " has another source"));
            } else {
                isChanged |= readFile(domain, it);
            }
        }
        return dropGone(folder, files.stream().map(Path::toString).toList()) || isChanged;
    }

    private boolean dropGone(Path folder, List<String> there) {
        synchronized (gate) {
            faults.keySet().removeIf(it -> isIn(folder, it) && !isNamed(it) && !there.contains(it));
            return held.entrySet().removeIf(it -> {
                String source = it.getValue().source;
                return isIn(folder, source) && !sources.name(it.getKey()) && !there.contains(source);
            });
        }
    }

    private static boolean isIn(Path folder, String source) {
        return folder.equals(Path.of(source).getParent());
    }

    private boolean isNamed(String source) {
        return sources.all.stream().anyMatch(it -> it.name().equals(source));
    }

    // -- Addresses

    /** Asks an address again and again: as its bundle wants that, and sooner after a fault. */
    private void ask(Sources.Source source) {
        Endpoint endpoint = new Endpoint(source, this);
        long pause = FIRST_PAUSE;
        long wait;
        do {
            try {
                byte[] text = endpoint.fetched();
                if (adopt(source.domain(), new Held(text, source.name(), false))) {
                    tell();
                }
                wait = TimeUnit.SECONDS.toMillis(Endpoint.refreshOf(bundleOf(source.domain())));
                pause = FIRST_PAUSE;
            } catch (IOException | RuntimeException | OutOfMemoryError why) {
                fault(source.name(), why);
                wait = pause;
                pause = Math.min(2 * pause, LONGEST_PAUSE);
            }
        } while (pause(source, wait));
    }

    // -- A Workload API

    /** Takes what a Workload API gives, again and again, until it refuses the call itself. Where it fails, the pauses grow. */
    private void attend(Sources.Source source) {
        long pause = FIRST_PAUSE;
        long wait;
        do {
            try {
                Workload stream = new Workload(source.api(), limit, Workload.IDLE);
                try {
                    opened(stream);
                    while (true) {
                        adoptAll(source, stream.next());
                        pause = FIRST_PAUSE;
                    }
                } finally {
                    ended(stream);
                }
            } catch (Workload.ForGood why) {
                fault(source.name(), why);
                return;
            } catch (IOException | RuntimeException | OutOfMemoryError | LinkageError why) {
                // (jars of versions that do not fit each other lack a method)
                fault(source.name(), why);
            }
            wait = pause;
            pause = Math.min(2 * pause, LONGEST_OF_API);
        } while (pause(source, wait));
    }

    /** Takes all bundles of a Workload API, by what it calls their trust domains. Those that it has not given any more go. */
    private void adoptAll(Sources.Source source, Map<String, byte[]> bundles) {
        // (it always has the bundle of its own trust domain)
        IOException fault = bundles.isEmpty() ? new IOException("it gives no bundle") : null;
        Set<String> there = new HashSet<>();
        boolean isChanged = false;
        for (Map.Entry<String, byte[]> it : bundles.entrySet()) {
            String domain = Sources.domainOf(it.getKey());
            if (domain == null) {
                fault = new IOException("it gives a bundle of what is no trust domain: " + it.getKey());
            } else if (!sources.name(domain)) {
                String name = domain + ofApi(source.name());
                there.add(name);
                try {
                    isChanged |= adopt(domain, new Held(it.getValue(), name, true));
                } catch (IOException why) {
                    fault(name, why);
                }
            }
        }
        if (!bundles.isEmpty()) {
            isChanged |= dropOthers(source, there);
        }
        if (isChanged || isUntaken) {
            tell();
        }
        fault(source.name(), fault);
    }

    private boolean dropOthers(Sources.Source source, Set<String> there) {
        synchronized (gate) {
            faults.keySet().removeIf(it -> it.endsWith(ofApi(source.name())) && !there.contains(it));
            return held.values().removeIf(it -> it.source.endsWith(ofApi(source.name())) && !there.contains(it.source));
        }
    }

    /** What follows the name of a trust domain in the name of a source: which Workload API gives its bundle. */
    private static String ofApi(String source) {
        return " of " + source;
    }

    // -- Bundles

    /** Replaces the last good bundle of a trust domain. False if it is the same one. */
    private boolean adopt(String domain, Held given) throws IOException {
        synchronized (gate) {
            Held last = held.get(domain);
            if (last != null && last.source.equals(given.source) && Arrays.equals(last.text, given.text)) {
                fault(given.source, null);
                return false;
            }
        }
        if (given.text.length > MOST) {
            throw new IOException("it has more than " + MOST + " bytes");
        }
        if (brackets(given.text) > MOST_BRACKETS) {
            throw new IOException("it has more than " + MOST_BRACKETS + " of the brackets { and [");
        }
        try {
            joined(Map.of(domain, given));
        } catch (SvidException.BadBundles why) {
            throw new IOException(why.getMessage(), why);
        }
        synchronized (gate) {
            held.put(domain, given);
        }
        fault(given.source, null);
        return true;
    }

    private static int brackets(byte[] text) {
        int count = 0;
        for (byte it : text) {
            count += it == '{' || it == '[' ? 1 : 0;
        }
        return count;
    }

    /** All of these as one text. */
    private static byte[] joined(Map<String, Held> all) {
        Map<String, byte[]> texts = new TreeMap<>();
        Set<String> ofApi = new HashSet<>();
        all.forEach((domain, it) -> {
            texts.put(domain, it.text);
            if (it.isOfApi) {
                ofApi.add(domain);
            }
        });
        return Bundles.join(texts, ofApi);
    }

    /** Hands on all bundles. Where they are not taken, the next look at the files hands them on again. */
    private void tell() {
        synchronized (telling) {
            Map<String, Held> all;
            synchronized (gate) {
                all = new TreeMap<>(held);
            }
            isUntaken = true;
            try {
                taker.take(joined(all), all.size());
                isUntaken = false;
                fault("the validator", null);
            } catch (SvidException.Closed ended) {
                isUntaken = false;
            } catch (SvidException why) {
                fault("the validator", why);
            }
        }
    }

    /** Logs what is wrong with a source, or null, if that is something else than before. */
    private void fault(String source, Throwable why) {
        String all = why == null ? null : why.toString();
        // (a server may have said it: it must not begin another line)
        String said = all == null ? null : all.substring(0, Math.min(SAID, all.length())).replaceAll("\\p{C}", " ");
        String before;
        boolean stays;
        synchronized (gate) {
            before = said == null ? faults.remove(source) : faults.put(source, said);
            stays = held.values().stream().anyMatch(it -> it.source.equals(source) || it.source.endsWith(ofApi(source)));
            if (isClosing) {
                return;
            }
        }
        if (said != null && !said.equals(before)) {
            Log.warn("bundle not read" + (stays ? "; the last good one stays" : "") + ": " + source + ": " + said);
        } else if (said == null && before != null) {
            Log.say(System.Logger.Level.INFO, "bundle source is well again: " + source);
        }
    }
}
