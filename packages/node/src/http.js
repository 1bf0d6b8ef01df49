// Middleware for Express, and for servers of node:http: lets in requests with a good token.

import { NotAllowed, Refusal, unjudged } from "./errors.js";
import { hookOf, patternsOf, readPatterns, tell } from "./given.js";
import { pathsOf } from "./paths.js";

const HEADER = "authorization";

/**
 * Middleware for Express and its like: checks the bearer token of each request, and goes on if it is good. `req.svid` is then what the check
 * answered, whatever stood there before.
 */
export function guard(validator, options) {
  const terms = termsOf(validator, options);
  return async function svid(req, res, next) {
    const isLetIn = await admitted(terms, req, res);
    // (outside of any try: what the service throws is its own)
    if (isLetIn) next();
  };
}

/** A listener for node:http that calls `handler` where the request has a good token. */
export function protect(validator, handler, options) {
  const terms = termsOf(validator, options);
  return async function svid(req, res) {
    if (await admitted(terms, req, res)) return handler(req, res);
  };
}

// (`console.error` would write all of a request that it is given, with its token, which is often still good)
const logged = (why) => console.error(why);

// On what terms requests are let in.
function termsOf(validator, { onError = logged, onRefusal, allow, caller, openPaths } = {}) {
  if (typeof validator?.check !== "function" || typeof validator?.bearer !== "function") throw new TypeError("a Validator is wanted");
  for (const [name, it] of Object.entries({ onError, onRefusal, caller })) hookOf(name, it);
  const patterns = readPatterns(patternsOf("allow", allow), (...it) => validator.allows(...it));
  return { validator, onError, onRefusal, caller, patterns, isOpen: pathsOf(openPaths) };
}

// Whether a request is let in. Else it is answered here.
async function admitted({ validator, onError, onRefusal, caller, patterns, isOpen }, req, res) {
  try {
    delete req.svid;
    if (isOpen(req.url)) return true;
    const values = valuesOf(req), { token, several, spelling } = validator.bearer(values);
    if (token === undefined) return refuse(res, values.length ? "NotBearer" : "NoToken", several || spelling ? "invalid_request" : undefined);
    if (patterns && !patterns.some((it) => validator.allows(it, validator.says(token).spiffeId))) {
      await validator.judge(token);
      throw new NotAllowed();
    }
    req.svid = await validator.check(token, caller && { caller: caller(req) });
    return !res.writableEnded; // (a time limit may have answered it)
  } catch (why) {
    const isNotAllowed = why instanceof NotAllowed;
    if (!isNotAllowed && !(why instanceof Refusal)) {
      tell(onError, why, req);
      return answer(res, 503, { "Retry-After": "1" }, { reason: unjudged(why), result: "unavailable" });
    }
    if (onRefusal) tell(onRefusal, why, req);
    return refuse(res, why.name, isNotAllowed ? "insufficient_scope" : "invalid_token", isNotAllowed ? 403 : 401);
  }
}

// The values of all header fields Authorization. (`req.headers` has the first one alone.)
function valuesOf({ rawHeaders }) {
  const values = [];
  for (let n = 0; n + 1 < rawHeaders.length; n += 2) if (rawHeaders[n].toLowerCase() === HEADER) values.push(rawHeaders[n + 1]);
  return values;
}

// Answers a request with a challenge (RFC 6750, section 3). One without an error is for a client that tried no bearer token.
function refuse(res, reason, error, status = 401) {
  const challenge = error ? `Bearer error="${error}", error_description="${reason}"` : 'Bearer realm="svid"';
  return answer(res, status, { "WWW-Authenticate": challenge }, { reason, result: "refused" });
}

// Answers a request that is not let in as svidd does, unless another one has answered it while the check waited.
function answer(res, status, fields, said) {
  if (res.headersSent) return false;
  const body = `${JSON.stringify(said)}\n`;
  res.statusCode = status;
  const all = { ...fields, "Cache-Control": "no-store", "Content-Type": "application/json", "Content-Length": String(body.length) };
  for (const [name, it] of Object.entries(all)) res.setHeader(name, it);
  res.end(body);
  return false;
}
