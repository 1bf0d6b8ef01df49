package svid;

import java.util.ArrayList;
import java.util.Collection;
import java.util.List;
import java.util.regex.Pattern;

/**
 * A list of paths of requests: "/a/b" is that path alone, and "/a/*" is each path below "/a". A server and a framework may each read a path
 * in their own way, so what they could read in two ways is on no list: escapes, empty segments, "." and "..". The worst that comes of that
 * is a request that needs a token.
 */
final class Paths {
    private static final Pattern PLAIN = Pattern.compile("/(?:(?!\\.{1,2}(?:/|\\z))[A-Za-z0-9._~-]+(?:/|\\z))*+");
    private static final String BELOW = "/*";

    private final List<String> alone = new ArrayList<>();
    private final List<String> above = new ArrayList<>();

    /** Throws IllegalArgumentException for what is no path. */
    Paths(Collection<String> patterns) {
        for (String it : patterns) {
            boolean isBelow = it.endsWith(BELOW);
            String path = isBelow ? it.substring(0, it.length() - 1) : it;
            if (!PLAIN.matcher(path).matches()) {
                throw new IllegalArgumentException('"' + it + "\" is no path: write /PATH, or /PATH/* for all below it, in letters, digits "
                        + "and - . _ ~, decoded, and without empty segments, . and ..");
            }
            (isBelow ? above : alone).add(path);
        }
    }

    /** Whether the path of a request, as it came, is on the list. */
    boolean has(String path) {
        return path != null && PLAIN.matcher(path).matches()
                && (alone.contains(path) || above.stream().anyMatch(it -> path.startsWith(it) && path.length() > it.length()));
    }
}
