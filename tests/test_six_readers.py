"""One token, one answer: `svid check`, `svidd verify`, `svidd serve`, the Python package, the page and a program in C are given the same tokens and
bundles, and no two of them answer otherwise.

`--tokens N` says how many tokens there are, of all nine algorithms, good and spoiled, and for every 25 of them there is one bundle with an odd key.
`--seed N` chooses them: a failure prints the token, and the seed is in the last line. (Nonces and salts of signatures are new in each run.)

Two of the six have the clock of the system alone. What is at the edge of a time is asked of them in one second of it, and of the others at that
second. This file tells `svid check` which signatures are good: that is by the rules of docs/FORMATS.md and the package `cryptography`."""

import http.client
import json
import os
import re
import struct
import subprocess
import time
import tomllib
from collections import Counter
from collections.abc import Callable, Iterator
from concurrent.futures import ThreadPoolExecutor
from functools import lru_cache
from pathlib import Path

import pytest
import readers
from conftest import PATIENCE, TOP, held_port, needs

six_tokens = pytest.importorskip("six_tokens", reason="the module cryptography is not there")
from cryptography.exceptions import InvalidSignature, UnsupportedAlgorithm  # noqa: E402
from cryptography.hazmat.primitives.asymmetric import ec, padding, rsa, utils  # noqa: E402
from six_tokens import AUDIENCES, LONGEST, Case, crypto  # noqa: E402

ID = "00112233445566778899aabbccddeeff"
WORKERS = len(os.sched_getaffinity(0))
BEARER = re.compile(rb"[A-Za-z0-9._~+/-]+=*")
MOST_CANDIDATES = 3
# So many tokens are made and asked at once: their times hold for half an hour.
TOGETHER = 1000
# So many are at least asked of one process: to start it takes longer than to answer these.
LEAST = 200
# So many seconds anything may take that is waited for.
with open(TOP / "lists/refusals.toml", "rb") as file:
    NAMES = {it["number"]: it["name"] for it in tomllib.load(file)["refusal"]}

Answers = list[str]


@lru_cache(None)
def public_key(text: str, alg: str) -> object:
    """The key that an entry of a bundle is for an algorithm, or none (docs/FORMATS.md, "Keys that can be used")."""
    entry = json.loads(text, parse_float=float)

    def decoded(name: str) -> bytes:
        if not isinstance(entry.get(name), str):
            raise readers.Refused(name)
        return readers.decoded(entry[name].encode(), name)

    def number(name: str) -> int:
        data = decoded(name)
        if not data or data[0] == 0:
            raise readers.Refused(name)
        return int.from_bytes(data, "big")

    if entry["kty"] != ("EC" if alg[0] == "E" else "RSA") or entry.get("alg", alg) != alg:
        return None
    try:
        if alg[0] == "E":
            curve = crypto.CURVE_OF[alg]
            x, y = decoded("x"), decoded("y")
            if entry.get("crv") != curve.name or len(x) != curve.size or len(y) != curve.size:
                return None
            return ec.EllipticCurvePublicNumbers(int.from_bytes(x, "big"), int.from_bytes(y, "big"), curve.curve).public_key()
        n, e = number("n"), number("e")
        if n % 2 == 0 or not 2048 <= n.bit_length() <= 4096 or e % 2 == 0 or not 3 <= e < 2**31:
            return None
        return rsa.RSAPublicNumbers(e, n).public_key()
    except (readers.Refused, ValueError, UnsupportedAlgorithm):
        return None


def made(text: str, alg: str, signed: bytes, signature: bytes) -> bool:
    """Whether a key made a signature (RFC 7518, section 3)."""
    key, hashed = public_key(text, alg), crypto.HASHES[alg[2:]]
    try:
        if isinstance(key, ec.EllipticCurvePublicKey):
            size = crypto.CURVE_OF[alg].size
            first, second = int.from_bytes(signature[:size], "big"), int.from_bytes(signature[size:], "big")
            if len(signature) != 2 * size or not first or not second:
                return False
            key.verify(utils.encode_dss_signature(first, second), signed, ec.ECDSA(hashed))
        elif isinstance(key, rsa.RSAPublicKey):
            if len(signature) != (key.key_size + 7) // 8:
                return False
            key.verify(
                signature, signed, padding.PKCS1v15() if alg[0] == "R" else padding.PSS(padding.MGF1(hashed), hashed.digest_size), hashed
            )
        else:
            return False
    except (InvalidSignature, ValueError):
        return False
    return True


class Group:
    """Tokens, and the bundles that they are for, as each reader takes them."""

    def __init__(self, folder: Path, bundles: dict[str, str], cases: list[Case], now: int) -> None:
        self.folder, self.bundles, self.cases, self.now = folder, bundles, cases, now
        (folder / "bundles").mkdir(parents=True)
        for domain, text in bundles.items():
            (folder / f"bundles/{domain}.json").write_text(text)
        self.joined = "{" + ",".join(f"{json.dumps(name)}:{text}" for name, text in bundles.items()) + "}"
        (folder / "bundles.json").write_text(self.joined)
        (folder / "audiences").write_text("\n".join(AUDIENCES))
        # (the page reads its bundles again for each token)
        named = {it.bundle: "{%s:%s}" % (json.dumps(it.bundle), bundles[it.bundle]) for it in cases if it.bundle}
        (folder / "page.json").write_text(json.dumps({"": self.joined, **named}))

    def frames(self, cases: list[Case], now: int, is_named: bool) -> bytes:
        rows = []
        for it in cases:
            name = struct.pack("<I", len(it.bundle)) + it.bundle.encode() if is_named else b""
            rows.append(struct.pack("<QI", now, len(it.token)) + name + it.token)
        return b"".join(rows)


def spread(ask: Callable[..., object], all_: list) -> list:
    """What is answered to each, by as many threads as there are processors."""
    with ThreadPoolExecutor(WORKERS) as pool:
        return list(pool.map(ask, all_))


class Readers:
    """The six, each with what it needs to be called."""

    def __init__(self, session: Path, program: Path, svidd: Path, archive: Path, shared: Path) -> None:
        self.session, self.program, self.svidd, self.shared = session, program, svidd, shared
        self.module = Path(os.environ.get("SVID_MODULE", TOP / "dist/svid.wasm"))
        self.six = session / "six"
        sources = [TOP / "tests/c/six.c", TOP / "examples/embed/verify.c"]
        subprocess.run(
            [
                "cc",
                "-O2",
                "-std=c11",
                "-Wall",
                "-Wextra",
                "-Werror",
                f"-I{TOP}/packages/c/include",
                f"-I{TOP}/examples/embed",
                "-o",
                self.six,
                *sources,
                archive,
                "-lcrypto",
            ],
            check=True,
        )

    def shares(
        self, group: Group, cases: list[Case], now: int, words: list[object], is_named: bool = False, env: dict[str, str] | None = None
    ) -> Answers:
        """What a program says that reads frames: each processor a share of them, but where they are few."""

        def ask(some: list[Case]) -> list[str]:
            ran = subprocess.run(
                words, input=group.frames(some, now, is_named), stdout=subprocess.PIPE, env={**os.environ, **(env or {})}, check=True
            )
            lines = ran.stdout.decode().splitlines()
            assert len(lines) == len(some), f"{words}: {len(lines)} answers to {len(some)} tokens: {lines[:1]}"
            return lines

        size = max(-(-len(cases) // WORKERS), LEAST)
        return [it for lines in spread(ask, [cases[at : at + size] for at in range(0, len(cases), size)]) for it in lines]

    def c(self, group: Group, cases: list[Case], now: int) -> Answers:
        lines = self.shares(group, cases, now, [self.six, group.folder / "bundles.json", group.folder / "audiences", str(LONGEST)])
        rows = [line.split(" ", 2) for line in lines]
        return [f"accepted {row[2]} {row[1]}" if row[0] == "0" else f"refused {NAMES.get(int(row[0]), row[0])}" for row in rows]

    def python(self, group: Group, cases: list[Case], now: int) -> Answers:
        env = {
            "LIBSVID": str(self.shared),
            "PYTHONPATH": str(TOP / "packages/python"),
            "PYTHONDONTWRITEBYTECODE": "1",
            "PYTHONIOENCODING": "utf-8",
        }
        return self.shares(
            group,
            cases,
            now,
            ["/usr/bin/python3", TOP / "tests/six_python.py", group.folder / "bundles", group.folder / "audiences", str(LONGEST)],
            env=env,
        )

    def page(self, group: Group, cases: list[Case], now: int) -> Answers:
        return self.shares(
            group,
            cases,
            now,
            ["node", TOP / "tests/six_page.mjs", self.module, group.folder / "page.json", group.folder / "audiences", str(LONGEST)],
            is_named=True,
        )

    def check(self, group: Group, cases: list[Case], now: int) -> Answers:
        """`svid check`, and where a signature decides, `svid candidates` before it."""
        lines = b"\n".join(it.token for it in cases) + b"\n"

        def checked(table: bytes) -> Answers:
            (group.folder / "table").write_bytes(table)
            words = [
                self.program,
                "check",
                "--bundles",
                group.folder / "bundles.json",
                "--table",
                group.folder / "table",
                "--now",
                str(now),
                "--validator-id",
                ID,
                "--longest",
                str(LONGEST),
                *AUDIENCES,
            ]
            return subprocess.run(words, input=lines, stdout=subprocess.PIPE).stdout.decode().splitlines()

        first = checked(b"")
        assert len(first) == len(cases), (len(first), first[:1])
        bundles = readers.read_bundles(group.joined.encode())

        def good(case: Case) -> list[str]:
            """The questions of the first keys that fit whose answer is yes."""
            asked = (
                subprocess.run(
                    [self.program, "candidates", "--bundles", group.folder / "bundles.json"],
                    input=case.token + b"\n",
                    stdout=subprocess.PIPE,
                )
                .stdout.decode()
                .splitlines()
            )
            head, payload, tail = case.token.split(b".")
            header, claims = readers.read_header(head), readers.read_claims(readers.read_payload(payload))
            fit = readers.candidates(bundles, claims.domain, header.alg, header.kid)
            assert len(fit) == len(asked), case.what
            rows = list(zip(asked, fit))[:MOST_CANDIDATES]
            return [row.split()[0] for row, key in rows if made(key.text, header.alg, head + b"." + payload, readers.read_signature(tail))]

        wanted = [case for case, answer in zip(cases, first) if answer == "refused BadSignature"]
        table = [question for some in spread(good, wanted) for question in some]
        return checked("\n".join(table).encode())

    def verify(self, group: Group, cases: list[Case], _now: int) -> Answers:
        """`svidd verify`, a process for each token."""

        def ask(case: Case) -> str:
            named = (
                ["--bundle", f"{case.bundle}={group.folder}/bundles/{case.bundle}.json"]
                if case.bundle
                else ["--bundles", group.folder / "bundles"]
            )
            words = [self.svidd, "verify", *named, "--longest", f"{LONGEST}s", *(word for it in AUDIENCES for word in ("--audience", it))]
            ran = subprocess.run(words, input=case.token, capture_output=True)
            if ran.returncode == 0:
                claims = json.loads(ran.stdout)
                return f"accepted {claims['sub']} {claims['exp']}"
            return ran.stderr.decode(errors="replace").strip().partition("\n")[0]  # (the same in words stands in the next line)

        return spread(ask, cases)

    def serve(self, group: Group, cases: list[Case], _now: int) -> Answers:
        """`svidd serve`. What is no bearer token has no answer here: HTTP carries no other."""
        with Served(self.svidd, group) as served:
            size = -(-len(cases) // WORKERS)
            return [it for some in spread(served.ask, [cases[at : at + size] for at in range(0, len(cases), size)]) for it in some]


class Served:
    """A sidecar that judges each token for itself."""

    def __init__(self, svidd: Path, group: Group) -> None:
        self.held = held_port()
        self.port = self.held.getsockname()[1]
        words = [
            svidd,
            "serve",
            "--replay",
            "reuse",
            "--log",
            "errors",
            "--listen",
            f"127.0.0.1:{self.port}",
            "--bundles",
            group.folder / "bundles",
            "--longest",
            f"{LONGEST}s",
        ]
        self.log = open(group.folder / "svidd.log", "wb")
        self.process = subprocess.Popen([*words, *(word for it in AUDIENCES for word in ("--audience", it))], stderr=self.log)

    def __enter__(self) -> "Served":
        end = time.monotonic() + PATIENCE
        while time.monotonic() < end and self.process.poll() is None:
            try:
                connection = self.connection()
                connection.request("GET", "/readyz")
                if connection.getresponse().status == 200:
                    return self
            except OSError:
                pass
            time.sleep(0.05)  # (a port that nobody listens on yet can't be awaited)
        self.process.kill()
        raise AssertionError(f"svidd serve is not ready: {Path(self.log.name).read_text()[-2000:]}")

    def __exit__(self, *_: object) -> None:
        self.process.terminate()
        assert self.process.wait(PATIENCE) == 0
        self.held.close()
        self.log.close()

    def connection(self) -> http.client.HTTPConnection:
        return http.client.HTTPConnection("127.0.0.1", self.port, timeout=PATIENCE)

    def ask(self, cases: list[Case]) -> Answers:
        connection = self.connection()
        answers = []
        for case in cases:
            if not BEARER.fullmatch(case.token):
                answers.append("")
                continue
            connection.request("GET", "/check", headers={"Authorization": b"Bearer " + case.token})
            got = connection.getresponse()
            body = got.read()
            if got.status == 200:
                answers.append(f"accepted {got.headers['X-Spiffe-Id']} {got.headers['X-Svid-Expires']}")
            else:
                answers.append(f"refused {json.loads(body)['reason']}" if got.status == 401 else f"{got.status} {body!r}")
        connection.close()
        return answers


CLOCKED = ("verify", "serve")
SET = ("check", "python", "page", "c")


@pytest.fixture(scope="module")
def six(session, program, archive, shared):
    for command in ("cc", "node", "go"):
        needs(command)
    subprocess.run([TOP / "go/build"], check=True, stdout=subprocess.DEVNULL)
    svidd = TOP / "out/svidd"
    return Readers(session, program, svidd, archive, shared)


def agreed(six: Readers, group: Group) -> tuple[Counter[str], float]:
    """Asks the readers, side by side, and says how often each answer came and how many seconds that took; no two may differ."""
    names, begun = (*SET, *CLOCKED), time.monotonic()
    with ThreadPoolExecutor(len(names)) as pool:
        asked = {name: pool.submit(getattr(six, name), group, group.cases, group.now) for name in names}
        answers = {name: it.result() for name, it in asked.items()}
    took = time.monotonic() - begun
    wrong = []
    for n, case in enumerate(group.cases):
        said = {name: answers[name][n] for name in names if answers[name][n]}
        if len(set(said.values())) != 1 or not re.match("(accepted|refused) ", said[names[0]]):
            wrong.append(f"{case.what}: {said}\n  {case.token[:3000].decode('latin-1')}")
    assert not wrong, f"{len(wrong)} of {len(group.cases)} tokens have no one answer\n" + "\n".join(wrong[:20])
    return Counter(it.split()[0] + " " + it.split()[1] if it.startswith("refused") else "accepted" for it in answers[names[0]]), took


def told(counts: Counter[str], took: float) -> str:
    return f"{sum(counts.values())} asked in {took:.0f} s: {', '.join(f'{n} {name}' for name, n in counts.most_common())}"


def test_tokens(six, session, pytestconfig, capsys):
    seed, count, counts, took = pytestconfig.getoption("seed"), pytestconfig.getoption("tokens"), Counter(), 0.0
    maker = six_tokens.Maker(seed, 0)
    for begin in range(0, count, TOGETHER):
        maker.now = int(time.time())
        cases = six_tokens.tokens(maker, min(TOGETHER, count - begin))
        some, seconds = agreed(six, Group(session / f"tokens-{begin}", six_tokens.main_bundles(), cases, maker.now))
        counts, took = counts + some, took + seconds
    if count >= 2000:
        # (the record is asked of nobody here, so that no token is Withdrawn or Replayed)
        assert (
            set(counts) >= {f"refused {name}" for name in NAMES.values()} - {"refused Withdrawn", "refused Replayed"}
            and counts["accepted"] > count / 20
        )
    with capsys.disabled():
        print(f"\nsix readers: seed {seed}: {told(counts, took)}")


def test_odd_keys(six, session, pytestconfig, capsys):
    seed, count, now = pytestconfig.getoption("seed"), pytestconfig.getoption("tokens") // 25, int(time.time())
    bundles, cases = six_tokens.odd_bundles(seed, now, count)
    counts, took = agreed(six, Group(session / "keys", bundles, cases, now))
    with capsys.disabled():
        print(f"\nsix readers: seed {seed}: odd keys: {told(counts, took)}")


def seconds_of(ask: Callable[[list[Case]], Answers], cases: list[Case]) -> Iterator[tuple[Case, int, str]]:
    """What a reader with the system's clock says of each token, and at which second; not where a second ended meanwhile."""
    for case in cases:
        before = int(time.time())
        (answer,) = ask([case])
        if int(time.time()) == before:
            yield case, before, answer


def test_times_at_their_edge(six, session, pytestconfig, capsys):
    seed, wrong, asked, kinds = pytestconfig.getoption("seed"), [], 0, Counter()
    group = Group(session / "edges", six_tokens.main_bundles(), [], int(time.time()))
    with Served(six.svidd, group) as served:
        rounds, round_, end = pytestconfig.getoption("tokens") // 500 or 1, 0, time.monotonic() + PATIENCE
        # (on a machine that has much to do, few answers come within the second of their question)
        while round_ < rounds or ((asked < 10 or len(kinds) < 3) and time.monotonic() < end):
            round_, rows = round_ + 1, []
            for who, ask, count in (("serve", served.ask, 30), ("verify", lambda cases: six.verify(group, cases, 0), 6)):
                rows += seconds_of(ask, six_tokens.edges(seed + round_, int(time.time()), count, who))
            for now in {second for _, second, _ in rows}:
                some = [(case, answer) for case, second, answer in rows if second == now]
                said = {name: getattr(six, name)(group, [case for case, _ in some], now) for name in SET}
                for n, (case, answer) in enumerate(some):
                    asked += 1
                    kinds[answer.split()[0] if answer.startswith("accepted") else answer] += 1
                    if {it[n] for it in said.values()} != {answer}:
                        wrong.append(f"{case.what} at {now}: {answer}, and { {name: it[n] for name, it in said.items()} }")
    assert not wrong, "\n".join(wrong[:20])
    assert asked and len(kinds) >= 3, kinds
    with capsys.disabled():
        print(f"\nsix readers: seed {seed}: {asked} tokens in the second of their time: {dict(kinds)}")
