package svid;

import java.io.BufferedReader;
import java.io.IOException;
import java.io.InputStream;
import java.io.InputStreamReader;
import java.io.OutputStream;
import java.io.PrintStream;
import java.net.URI;
import java.nio.charset.StandardCharsets;
import java.time.Instant;
import java.util.ArrayList;
import java.util.Arrays;
import java.util.HexFormat;
import java.util.List;
import java.util.Map;
import java.util.concurrent.ConcurrentHashMap;
import java.util.concurrent.ExecutorService;
import java.util.concurrent.Executors;

/**
 * Makes calls of a member of a store in PostgreSQL for the tests of go/claims/postgres, which run over each client.
 *
 * <p>A call is a line: its number, the name, the store, and what it takes. So is an answer: the number, and what it returns, or
 * {@code fault NAME TEXT}.
 */
public final class StoreClient {
    private static final HexFormat HEX = HexFormat.of();
    private static final Map<String, String> NAMES = Map.ofEntries(Map.entry(Statements.IS_MISSING, "missing"),
            Map.entry(Statements.IS_STANDBY, "standby"), Map.entry(Statements.IS_RUN, "run"), Map.entry(Statements.IS_BACK, "back"),
            Map.entry(Statements.IS_UNLOOKED, "unlooked"), Map.entry(Statements.IS_GONE, "gone"), Map.entry(Statements.IS_LATE, "late"),
            Map.entry(Statements.IS_EPOCH, "epoch"), Map.entry(Statements.IS_ALONE, "alone"), Map.entry(Statements.IS_STALE, "stale"),
            Map.entry(Statements.IS_HELD, "held"), Map.entry(Statements.IS_ANSWER, "answer"));
    private static final List<String> UNFIT =
            List.of("this user may not", "the group's store ", "the server of the group's store", "the owner of");

    private final Map<String, PostgresMember> stores = new ConcurrentHashMap<>();
    private final PrintStream out;

    private StoreClient(OutputStream out) {
        this.out = new PrintStream(out, true, StandardCharsets.UTF_8);
    }

    /** Answers calls until they end. */
    static void serve(InputStream calls, OutputStream answers) throws IOException {
        StoreClient client = new StoreClient(answers);
        ExecutorService threads = Executors.newCachedThreadPool();
        try (BufferedReader in = new BufferedReader(new InputStreamReader(calls, StandardCharsets.UTF_8))) {
            for (String line = in.readLine(); line != null; line = in.readLine()) {
                String[] call = line.split(" ");
                threads.execute(() -> client.answer(call));
            }
        } finally {
            client.stores.values().forEach(PostgresMember::close);
            threads.shutdownNow();
        }
    }

    private void answer(String[] call) {
        List<String> said = new ArrayList<>(List.of(call[0]));
        try {
            said.addAll(call(call[1], call[2], Arrays.copyOfRange(call, 3, call.length)));
        } catch (Exception why) {
            said.addAll(List.of("fault", nameOf(why), textOf(why)));
        }
        synchronized (out) {
            out.println(String.join(" ", said));
        }
    }

    private static String nameOf(Exception why) {
        String text = String.valueOf(why.getMessage());
        String usual = UNFIT.stream().anyMatch(text::startsWith) ? "unfit" : "error";
        return NAMES.getOrDefault(text, usual);
    }

    private static String textOf(Exception why) {
        return HEX.formatHex(String.valueOf(why.getMessage()).getBytes(StandardCharsets.UTF_8));
    }

    private List<String> call(String name, String id, String[] words) throws Exception {
        PostgresMember store = stores.get(id);
        switch (name) {
            case "new" -> {
                long margin = Long.parseLong(words[2]);
                PostgresMember.Terms terms = new PostgresMember.Terms(Long.parseLong(words[1]), margin, Long.parseLong(words[3]));
                List<String> servers = Arrays.stream(words).skip(5).map(StoreClient::urlOf).toList();
                stores.put(id, new PostgresMember(servers, words[0], Integer.parseInt(words[4]), terms));
                return List.of();
            }
            case "close" -> {
                store.close();
                return List.of();
            }
            default -> {
                return call(store, name, Times.up() + (long) (1000 * Double.parseDouble(words[0])), words);
            }
        }
    }

    private static List<String> call(PostgresMember store, String name, long end, String[] words) throws Exception {
        return switch (name) {
            case "open" -> stateOf(opened(store, end));
            case "state" -> stateOf(store.look(end));
            case "put" -> store.put(Arrays.stream(words).skip(1).map(StoreClient::claimOf).toList(), end).stream().map(StoreClient::foundOf).toList();
            case "withdraw" -> List.of(store.withdraw(keyOf(words[1]), instantOf(words[2]), end).toString());
            default -> {
                Store.Withdrawals read =
                        store.withdrawals(new String(HEX.parseHex(words[1].substring(1)), StandardCharsets.UTF_8), end);
                List<String> all = new ArrayList<>(List.of(read.last()));
                read.these().forEach(it -> all.add(it.key() + ":" + it.expiry().getEpochSecond()));
                yield all;
            }
        };
    }

    private static PostgresMember.Sight opened(PostgresMember store, long end) throws Exception {
        while (true) {
            PostgresMember.Sight is = store.look(end);
            if (is.pause() == 0) {
                return is;
            }
            if (Times.up() + is.pause() > end) {
                throw new PostgresStore.Fault(Statements.IS_RUN);
            }
            store.await(is.pause());
        }
    }

    private static List<String> stateOf(PostgresMember.Sight is) {
        return List.of(is.epoch(), Long.toString(is.deaf()), Long.toString(is.time()));
    }

    private static String foundOf(PostgresMember.Put it) {
        if (it.fault() != null) {
            return nameOf(it.fault()) + ":" + textOf(it.fault());
        }
        return it.found().owner() + ":" + it.found().time().getEpochSecond() + ":" + it.found().deaf().getEpochSecond();
    }

    private static Store.Claim claimOf(String word) {
        String[] parts = word.split(":");
        return new Store.Claim(keyOf(parts[0]), Owner.of(HEX.parseHex(parts[1])), instantOf(parts[2]));
    }

    private static TokenKey keyOf(String digits) {
        return TokenKey.of(HEX.parseHex(digits));
    }

    private static Instant instantOf(String digits) {
        return Times.instantOf(Long.parseUnsignedLong(digits));
    }

    /** The URL of a server as JDBC has it. */
    static String urlOf(String url) {
        URI from = URI.create(url);
        StringBuilder to = new StringBuilder("jdbc:postgresql://" + from.getRawAuthority().replaceFirst(".*@", "") + from.getRawPath() + "?");
        if (from.getRawQuery() != null) {
            to.append(from.getRawQuery()).append('&');
        }
        String[] user = String.valueOf(from.getRawUserInfo()).split(":", 2);
        to.append("user=").append(user[0]);
        if (user.length > 1) {
            to.append("&password=").append(user[1]);
        }
        return to.toString();
    }
}
