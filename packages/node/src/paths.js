// Paths of requests that are listed: who may come without a token.
//
// A server, a middleware and a framework may each read the path of a request in their own way: they decode it, join its slashes, resolve its dots.
// So a path that they could read in two ways is on no list. The worst that comes of that is a request that needs a token.

// Segments that no URL has to escape, none of them empty, "." or "..".
const PLAIN = /^\/(?:(?!\.{1,2}(?:\/|$))[A-Za-z0-9._~-]+(?:\/|$))*$/;
const BELOW = "/*";

/** A function that says whether the URL of a request is on a list: "/a/b" is that path alone, and "/a/*" each path below "/a". */
export function pathsOf(given = []) {
  const listed = typeof given === "string" ? [given] : [...given];
  for (const it of listed) {
    if (typeof it !== "string" || !PLAIN.test(it.endsWith(BELOW) ? it.slice(0, -1) : it)) {
      throw new RangeError(`${JSON.stringify(it)} is no path: write /PATH, or /PATH/* for all below it, in letters, digits and - . _ ~, without empty segments, . and ..`);
    }
  }
  const alone = new Set(listed.filter((it) => !it.endsWith(BELOW))), above = listed.filter((it) => it.endsWith(BELOW)).map((it) => it.slice(0, -1));
  return (url) => {
    const [path] = String(url).split("?");
    return alone.has(path) || (above.some((it) => path.startsWith(it) && path !== it) && PLAIN.test(path));
  };
}
