package svid;

/** The system's logger "svid". Whatever a handler of it throws ends no thread that follows bundles or a store, and no request. */
final class Log {
    private static final System.Logger LOGGER = System.getLogger("svid");

    private Log() {}

    static void warn(String text) {
        say(System.Logger.Level.WARNING, text, null);
    }

    static void warn(String text, Throwable why) {
        say(System.Logger.Level.WARNING, text, why);
    }

    static void say(System.Logger.Level level, String text) {
        say(level, text, null);
    }

    /** Warns of a fault, unless the last one said the same. Gives what this one says. */
    static String warnOnce(String text, Throwable why, String before) {
        try {
            String said = why.toString();
            if (!said.equals(before)) {
                warn(text, why);
            }
            return said;
        } catch (Throwable failed) {
            // (there may be no memory for the text)
            return before;
        }
    }

    private static void say(System.Logger.Level level, String text, Throwable why) {
        try {
            LOGGER.log(level, text, why);
        } catch (Throwable failed) {
            // (nobody is left to be told)
        }
    }
}
