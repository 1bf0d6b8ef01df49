package svid;

import com.sun.jna.Pointer;
import java.nio.charset.StandardCharsets;
import java.util.ArrayList;
import java.util.HexFormat;
import java.util.List;
import java.util.Set;
import java.util.function.IntFunction;
import java.util.stream.Collectors;
import java.util.stream.IntStream;

/**
 * Tokens that several validators accepted, when one of them hears of that. What counts as twice, the library's report says.
 *
 * @param before the entries of a record, of those tokens that the others are about
 * @param told the entries that it is about to take
 */
record Twice(List<Entry> before, List<Entry> told) {
    /** An entry of messages: {@code svid_entry}. */
    record Entry(boolean isWithdrawn, long exp, long at, byte[] key, byte[] validatorId) {
        private static Entry read(Pointer at) {
            return new Entry(at.getLong(Library.Entry.WITHDRAWN) != 0, at.getLong(Library.Entry.EXP), at.getLong(Library.Entry.AT),
                    at.getByteArray(Library.Entry.KEY, TokenKey.LEN), at.getByteArray(Library.Entry.VALIDATOR_ID, Options.ID_LEN));
        }

        private void write(Pointer to) {
            to.setLong(Library.Entry.WITHDRAWN, isWithdrawn ? 1 : 0);
            to.setLong(Library.Entry.EXP, exp);
            to.setLong(Library.Entry.AT, at);
            to.write(Library.Entry.KEY, key, 0, key.length);
            to.write(Library.Entry.VALIDATOR_ID, validatorId, 0, validatorId.length);
        }
    }

    /** Of longer messages nothing is said: whoever takes so many wants a report. */
    private static final int LONGEST = 1 << 22;
    /** So many bytes an entry takes in messages, or more. */
    private static final int LEAST = 64;
    private static final long USUAL = 8192;

    /** Reads what messages tell, and what the record has beside that. Throws as {@link #entries} does. */
    static Twice of(byte[] messages, IntFunction<byte[]> bucket) {
        List<Entry> told = messages.length > LONGEST ? List.of() : entries(messages);
        Set<TokenKey> keys = told.stream().map(Twice::keyOf).collect(Collectors.toSet());
        IntStream numbers = keys.stream().mapToInt(it -> Byte.toUnsignedInt(it.bytes()[0])).distinct();
        List<Entry> before =
                numbers.mapToObj(it -> entries(bucket.apply(it))).flatMap(List::stream).filter(it -> keys.contains(keyOf(it))).toList();
        return new Twice(before, told);
    }

    /** The keys of the tokens that were accepted more than once, by these messages and not before. */
    List<TokenKey> news() {
        if (before.isEmpty() && told.stream().map(Twice::keyOf).distinct().count() == told.size()) {
            return List.of();
        }
        List<TokenKey> old = reported(before);
        List<Entry> all = new ArrayList<>(before);
        all.addAll(told);
        return reported(all).stream().filter(it -> !old.contains(it)).toList();
    }

    private static TokenKey keyOf(Entry entry) {
        return TokenKey.of(entry.key);
    }

    /** The entries of messages. Throws {@link SvidException.BadMessages} if the bytes are no messages. */
    static List<Entry> entries(byte[] messages) {
        try (Arena room = new Arena()) {
            CallDetails told = new CallDetails(room);
            long most = messages.length / LEAST;
            Pointer out = room.take(most * Library.Entry.SIZE);
            told.must(Library.svid_entries_read(room.put(messages), messages.length, out, most, told.at));
            return IntStream.range(0, (int) told.len()).mapToObj(it -> Entry.read(out.share((long) it * Library.Entry.SIZE))).toList();
        }
    }

    /** Entries as messages. */
    static byte[] written(List<Entry> entries) {
        try (Arena room = new Arena()) {
            CallDetails said = new CallDetails(room);
            Pointer lent = room.take((long) entries.size() * Library.Entry.SIZE);
            for (int number = 0; number < entries.size(); number++) {
                entries.get(number).write(lent.share((long) number * Library.Entry.SIZE));
            }
            Output written =
                    Output.by(room, said, USUAL, (out, outLen) -> Library.svid_entries_write(lent, entries.size(), out, outLen, said.at));
            said.must(written.status());
            return written.bytes();
        }
    }

    /** The keys that the report of these entries has after {@code twice} (docs/FORMATS.md). */
    private static List<TokenKey> reported(List<Entry> entries) {
        List<String> lines = report(written(entries)).lines().dropWhile(it -> !it.startsWith("twice ")).skip(1).toList();
        return lines.stream().map(it -> TokenKey.of(HexFormat.of().parseHex(it.split(" ")[0]))).toList();
    }

    /** What messages tell, as {@code svid report} prints it. */
    static String report(byte[] messages) {
        try (Arena room = new Arena()) {
            CallDetails told = new CallDetails(room);
            Pointer text = room.put(messages);
            Output written =
                    Output.by(room, told, USUAL, (out, outLen) -> Library.svid_report(text, messages.length, 0, out, outLen, told.at));
            told.must(written.status());
            return new String(written.bytes(), StandardCharsets.UTF_8);
        }
    }
}
