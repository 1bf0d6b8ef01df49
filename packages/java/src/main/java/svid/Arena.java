package svid;

import com.sun.jna.Memory;
import com.sun.jna.Pointer;
import java.util.ArrayList;
import java.util.List;

/** The native memory of one call: all that it is given, and all that it writes. */
final class Arena implements AutoCloseable {
    private static final long USUAL = 16_384;

    private final List<Memory> held = new ArrayList<>(2);
    private long left;

    /** Takes memory whose bytes may be anything. */
    Pointer take(long size) {
        long whole = Math.addExact(size, 7) & ~7L;
        if (held.isEmpty() || whole > left) {
            Memory more = Library.allocated(Math.max(USUAL, whole));
            held.add(more);
            left = more.size();
        }
        Memory last = held.get(held.size() - 1);
        Pointer taken = last.share(last.size() - left, size);
        left -= whole;
        return taken;
    }

    /** Takes memory with these bytes. */
    Pointer put(byte[] bytes) {
        Pointer taken = take(bytes.length);
        taken.write(0, bytes, 0, bytes.length);
        return taken;
    }

    @Override
    public void close() {
        held.forEach(Memory::close);
    }
}
