// Certificates for tests, which the program openssl makes: Node reads certificates, and makes none.

import { execFileSync } from "node:child_process";
import { createPublicKey } from "node:crypto";
import { readFileSync, writeFileSync } from "node:fs";
import { join } from "node:path";

const run = (room, ...words) => execFileSync("openssl", words, { cwd: room, stdio: ["ignore", "ignore", "pipe"] });

/** An authority, whose files are in a folder. */
export function authority(room, name) {
  const to = { key: join(room, `${name}.key`), cert: join(room, `${name}.pem`) };
  run(room, "req", "-x509", "-newkey", "ec", "-pkeyopt", "ec_paramgen_curve:P-256", "-nodes", "-days", "2", "-subj", `/CN=${name}`, "-keyout", to.key, "-out", to.cert);
  return { ...to, room, name };
}

/** A server's key and certificate by an authority, with these names and this key usage. */
export function certificate({ room, key, cert }, name, names, { usage = "critical,digitalSignature", constraints = "CA:FALSE" } = {}) {
  const to = (end) => join(room, `${name}.${end}`);
  writeFileSync(to("ext"), `subjectAltName=${names}\nkeyUsage=${usage}\nextendedKeyUsage=serverAuth\nbasicConstraints=${constraints}\n`);
  run(room, "req", "-newkey", "ec", "-pkeyopt", "ec_paramgen_curve:P-256", "-nodes", "-subj", `/CN=${name}`, "-keyout", to("key"), "-out", to("csr"));
  run(room, "x509", "-req", "-in", to("csr"), "-CA", cert, "-CAkey", key, "-CAcreateserial", "-days", "2", "-extfile", to("ext"), "-out", to("pem"));
  return { key: readFileSync(to("key")), cert: readFileSync(to("pem")) };
}

/** The entry of a bundle that lets an authority vouch for servers. */
export function vouching({ cert }) {
  const pem = readFileSync(cert, "utf8");
  return { use: "x509-svid", ...createPublicKey(pem).export({ format: "jwk" }), x5c: [pem.replace(/-----[^-]+-----|\s/g, "")] };
}
