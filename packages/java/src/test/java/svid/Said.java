package svid;

import static svid.Making.until;

import java.util.List;
import java.util.concurrent.CopyOnWriteArrayList;
import java.util.logging.Handler;
import java.util.logging.LogRecord;
import java.util.logging.Logger;
import org.junit.rules.ExternalResource;

/** What the logger "svid" says in a test of bundles that follow. Its handler fails each time, and no thread stays of a validator. */
final class Said extends ExternalResource {
    private final boolean isOwn;
    private final Logger logger; // (it is held, or a logger is forgotten with its handlers)
    final List<String> lines = new CopyOnWriteArrayList<>();
    private final Handler handler = new Handler() {
        @Override
        public void publish(LogRecord line) {
            lines.add(line.getMessage());
            if (isOwn) {
                throw new IllegalStateException("a handler of a log may fail");
            }
        }

        @Override
        public void flush() {}

        @Override
        public void close() {}
    };

    Said() {
        this("svid");
    }

    Said(String name) {
        logger = Logger.getLogger(name);
        isOwn = name.equals("svid");
    }

    @Override
    protected void before() {
        logger.addHandler(handler);
    }

    @Override
    protected void after() {
        logger.removeHandler(handler);
        try {
            until(() -> threads() == 0);
        } catch (Exception why) {
            throw new AssertionError(why);
        }
    }

    boolean has(String part) {
        return lines.stream().anyMatch(it -> it.contains(part));
    }

    /** How many threads follow bundles. */
    static long threads() {
        return Thread.getAllStackTraces().keySet().stream().filter(it -> it.getName().startsWith(Follower.THREAD)).count();
    }
}
