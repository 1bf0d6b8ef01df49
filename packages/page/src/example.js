// An example that is good for minutes: a new key, a token that it signed, and a bundle with that key and the next one.

const LIFE = 300; // seconds, as SPIRE's usual life of a JWT-SVID
const DOMAIN = "example.org", AUDIENCE = "ledger", KID = "example", NEXT = "example-next";

/** A token that is good from now on (seconds since 1970), the bundles with its key, and its audience. */
export async function makeExample(now) {
  const [pair, next] = await Promise.all([newKey(), newKey()]);
  const keys = [await publicOf(pair, KID), await publicOf(next, NEXT)];
  const header = { alg: "ES256", kid: KID, typ: "JWT" };
  const payload = { sub: `spiffe://${DOMAIN}/billing/api`, aud: [AUDIENCE], iat: Number(now), exp: Number(now) + LIFE, jti: crypto.randomUUID() };
  const signed = `${await written(jsonOf(header))}.${await written(jsonOf(payload))}`;
  const signature = await crypto.subtle.sign({ name: "ECDSA", hash: "SHA-256" }, pair.privateKey, utf8(signed));
  return { token: `${signed}.${await written(new Uint8Array(signature))}`, bundles: JSON.stringify({ [DOMAIN]: { keys } }, null, 1), own: AUDIENCE };
}

const newKey = () => crypto.subtle.generateKey({ name: "ECDSA", namedCurve: "P-256" }, false, ["sign", "verify"]);

// The public key as an entry of a bundle.
async function publicOf(pair, kid) {
  const { key_ops, ext, ...jwk } = await crypto.subtle.exportKey("jwk", pair.publicKey);
  return { ...jwk, use: "jwt-svid", kid };
}

const utf8 = (text) => new TextEncoder().encode(text);
const jsonOf = (value) => utf8(JSON.stringify(value));

// Bytes as a token has them: the browser writes them so as the value of a key.
async function written(bytes) {
  const key = await crypto.subtle.importKey("raw", bytes, { name: "HMAC", hash: "SHA-256" }, true, ["sign"]);
  return (await crypto.subtle.exportKey("jwk", key)).k;
}
