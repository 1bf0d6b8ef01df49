"""What docs/PACKAGES.md says that each package has, and what is the same in all of them."""

import re
import subprocess
import tomllib

import pytest
from conftest import TOP

COLUMNS = ("`svidd`", "Go", "Python", "Rust", "Node", "Java")
SOURCES = {
    "Go": "go",
    "Python": "packages/python/svid",
    "Rust": "packages/rust/svid/src",
    "Node": "packages/node/index.d.ts packages/node/testing.d.ts packages/node/src",
    "Java": "packages/java/src/main",
}
# Of each row what a package has by which a service gets it. It stands in the package where the row says so, and nowhere where the row denies it.
NAMES = {
    "modes `once`, `strict`, `bound`, `reuse`": {
        "Go": "Reuse  Mode = server.Reuse",
        "Python": 'MODES = .*"reuse"',
        "Rust": "^    Reuse,",
        "Node": 'type Mode = "once" | "strict" | "bound" | "reuse"',
        "Java": r"^    REUSE\b",
    },
    "signatures verified": {
        "Go": "^func OpenKeyring",
        "Python": "^class Verifier",
        "Rust": "^pub struct OpenSsl",
        "Node": "^export class Verifier",
        "Java": "^final class Signatures",
    },
    "state folder": {
        "Go": "^\tState     string",
        "Python": r"^        state: Path \| None",
        "Rust": "^    pub fn with_journal",
        "Node": r"^  state\?:",
        "Java": r"^    public Options state\(",
    },
    "`bound` without a store": {
        "Go": "^package local$",
        "Python": "^class LocalStore",
        "Rust": "^pub\\(crate\\) struct LocalStore",
        "Node": "class LocalStore",
        "Java": "^final class LocalStore",
    },
    "withdrawals of a store heard": {
        "Go": r"^\tWithdrawals\(ctx",
        "Python": r"^    def withdrawals\(",
        "Rust": r"^    fn withdrawals\(",
        "Node": r"^  withdrawals\?\(",
        "Java": r"^    default Withdrawals withdrawals\(",
    },
    "readiness": {
        "Go": r"^func \(g \*Guard\) Ready",
        "Python": r"^    def unready\(",
        "Rust": r"^    pub fn unready\(",
        "Node": r"^  unready\(",
        "Java": r"^    public Optional<String> unready\(",
    },
    "bundles from files and folders, watched": {
        "Go": "^func Folder",
        "Python": "^class .*Folder",
        "Rust": r"^    pub fn folder\(",
        "Node": r"^  folder\?:",
        "Java": r"^    public static Sources folder\(",
    },
    "answers and challenge as `svidd`": {
        "Go": "^func Protect",
        "Python": "^class SvidMiddleware",
        "Rust": r"^    pub fn body\(",
        "Node": "^export function protect",
        "Java": "^public final class ProtectedHandler",
    },
    "who may call": {
        "Go": r"^\tAllow     \[\]string",
        "Python": "^        callers: ",
        "Rust": r"^    pub fn callers<",
        "Node": r"^  callers\?:",
        "Java": r"^    public Options callers\(",
    },
    "store in PostgreSQL": {
        "Go": "^package postgres$",
        "Python": "^class PostgresStore",
        "Rust": "PostgresStore",
        "Node": "^export class PostgresStore",
        "Java": "^public final class PostgresStore",
    },
    "store in Redis": dict.fromkeys(SOURCES, r"(class|struct) RedisStore|^package redis$"),
    "store in NATS": dict.fromkeys(SOURCES, r"(class|struct) NatsStore|^package nats$"),
    "a store of your own": {
        "Go": "^type Store interface",
        "Python": r"^class Store\(Protocol\)",
        "Rust": "^pub trait Store",
        "Node": "^export interface Store",
        "Java": "^public interface Store",
    },
    "bundle endpoints, `https_web`": {
        "Go": "^\tAuthorities string$",
        "Python": "^class Endpoint",
        "Rust": r"^    pub fn https_web\(",
        "Node": "^export interface Endpoint",
        "Java": r"^    public static Sources web\(",
    },
    "bundle endpoints, `https_spiffe`": {
        "Go": "^\tID string$",
        "Python": "spiffe_id: .*None",
        "Rust": r"^    pub fn https_spiffe\(",
        "Node": r"^  id\?: string",
        "Java": r"^    public static Sources spiffe\(",
    },
    "Workload API": {
        "Go": "^package workload$",
        "Python": "^class WorkloadApi",
        "Rust": "(?i)fn workload|WorkloadApi",
        "Node": "(?i)workloadApi",
        "Java": r"^    public static Sources workload\(",
    },
    "claims of an accepted token": {
        "Go": r"^func Payload\(",
        "Python": r"^    def claims\(self\)",
        "Rust": r"^    pub fn claims\(",
        "Node": "readonly claims",
        "Java": r"^    public Map<String, Object> claims\(",
    },
    "hook for refusals": {
        "Go": "^func NewLines",
        "Python": "^        on_refusal: ",
        "Rust": r"^    pub fn refuses\(",
        "Node": r"^  onRefusal\?:",
        "Java": r"^    public Options denied\(",
    },
    "hook for double acceptances": {
        "Go": '"accepted twice"',
        "Python": "^        on_twice: ",
        "Rust": r"^    pub fn twice\(",
        "Node": r"^  onTwice\?:",
        "Java": r"^    public Options twice\(",
    },
    "open paths": {
        "Go": None,
        "Python": "^        open_paths: ",
        "Rust": r"^    pub fn open_paths<",
        "Node": r"^  openPaths\?:",
        "Java": r"^    public ProtectedHandler open\(",
    },
    "a wall clock for tests": {
        "Go": r"^\tNow       func\(\)",
        "Python": "^        clock: ",
        "Rust": r"^    pub fn clock\(mut self",
        "Node": r"^  now\?: \(\) => Seconds",
        "Java": r"^    public Options clock\(",
    },
    "a kit for tests: issuer, clock, store": {
        "Go": "^package svidtest$",
        "Python": "^class Issuer",
        "Rust": "^pub struct Issuer",
        "Node": "^export class Issuer",
        "Java": "^public final class Issuer",
    },
}
# (None: something else than the package has it, which the cell names)
DENIED = re.compile(r"no\b|\[no\]")


def rows():
    """What all have, and the table."""
    text = (TOP / "docs/PACKAGES.md").read_text()
    table = re.search(r"^\| +\| `svidd` .*?\n\n", text, re.M | re.S)[0]
    head, _, *lines = ([cell.strip() for cell in line.strip("|\n").split("|")] for line in table.strip().splitlines())
    assert head == ["", *COLUMNS]
    everywhere = {name: dict.fromkeys(COLUMNS, "yes") for name in re.search(r"^All have: (.*)\.$", text, re.M)[1].split("; ")}
    return everywhere | {name: dict(zip(COLUMNS, cells)) for name, *cells in lines}


def text_of(language):
    words = ["git", "ls-files", "-co", "--exclude-standard", "--", *SOURCES[language].split()]
    paths = subprocess.run(words, cwd=TOP, capture_output=True, text=True, check=True).stdout.splitlines()
    others = re.compile(r"/vendor/|_test\.go$|/tests?(/|\.rs$)|/wrong/|/internal/(?!server/)")
    code = re.compile(r"\.(go|py|rs|js|ts|java)$")
    return "\n".join((TOP / it).read_text() for it in paths if code.search(it) and not others.search(it) and (TOP / it).exists())


def test_the_rows_are_those_that_are_looked_for():
    assert list(rows()) == list(NAMES)
    assert all(cell or column == "`svidd`" for cells in rows().values() for column, cell in cells.items()), "a cell says nothing"


@pytest.mark.parametrize("language", SOURCES)
def test_a_package_has_what_its_row_says(language):
    text, wrong = text_of(language), []
    for row, cells in rows().items():
        if NAMES[row][language] is None:
            assert not re.match(r"yes|no\b|\[no\]", cells[language]), row
            continue
        is_there, is_due = bool(re.search(NAMES[row][language], text, re.M)), not DENIED.match(cells[language])
        if is_there != is_due:
            wrong.append(
                f"{row}: the table says {cells[language]!r}, and {SOURCES[language]} {'has' if is_there else 'lacks'} {NAMES[row][language]}"
            )
    assert not wrong, "\n".join(wrong)


def test_each_denial_has_its_reason():
    text = (TOP / "docs/PACKAGES.md").read_text()
    for name, cells in rows().items():
        for cell in cells.values():
            if DENIED.match(cell):
                reason = re.match(r"\[no\]\(#([\w-]+)\)|no$", cell)
                assert reason, f"{name}: {cell}"
                if reason[1]:
                    assert reason[1] in [
                        it.lower().replace(", ", "-").replace(" ", "-") for it in re.findall(r"^### (.*)", text, re.M)
                    ], cell


# The defaults of settings that several packages have. `--longest` of svidd has none.
with open(TOP / "lists/svidd.toml", "rb") as list_of_svidd:
    SVIDD = {it["name"]: it.get("default") for it in tomllib.load(list_of_svidd)["option"] if "serve" in it["commands"]}
UNITS = {"s": 1, "m": 60}
DEFAULTS = {
    "longest": (
        3600,
        {
            "go/guard/guard.go": r"usualLongest +=",
            "packages/python/svid/_validator.py": r"longest: Seconds =",
            "packages/python/svid/_group.py": r"DEFAULT_LONGEST =",
            "packages/rust/svid/src/options.rs": r"USUAL_LONGEST: u64 =",
            "packages/node/src/given.js": r"const HOUR =",
            "packages/node/src/group-store.js": r"longest =",
            "packages/java/src/main/java/svid/Options.java": r"long longest =",
            "packages/java/src/main/java/svid/PostgresStore.java": r"long longest =",
        },
    ),
    "ahead": (
        None,
        {
            "go/guard/guard.go": r"usualAhead +=",
            "packages/python/svid/_validator.py": r"ahead: int =",
            "packages/python/svid/_group.py": r"DEFAULT_AHEAD =",
            "packages/rust/svid/src/options.rs": r"^            ahead:",
            "packages/node/src/validator.js": r"options\.ahead \?\?",
            "packages/node/src/group-store.js": r"ahead =",
            "packages/java/src/main/java/svid/Options.java": r"long ahead =",
            "packages/java/src/main/java/svid/PostgresStore.java": r"long ahead =",
        },
    ),
    "wait": (
        None,
        {
            "go/guard/guard.go": r"usualWait +=",
            "packages/python/svid/_validator.py": r"wait: float =",
            "packages/python/svid/_group.py": r"DEFAULT_WAIT =",
            "packages/rust/svid/src/options.rs": r"wait: Duration::from_secs\(",
            "packages/node/src/given.js": r"waitOf\(given =",
            "packages/node/src/group-store.js": r"wait =",
        },
    ),
    "rsa-bits": (
        None,
        {
            "packages/c/include/svid.h": r"^#define SVID_USUAL_RSA_BITS",
            "packages/python/svid/_library.py": r"USUAL_RSA_BITS =",
            "packages/rust/svid/src/ffi.rs": r"USUAL_RSA_BITS: usize =",
            "packages/node/src/library.js": r"USUAL_RSA_BITS =",
            "packages/java/src/main/java/svid/Library.java": r"USUAL_RSA_BITS =",
        },
    ),
    "summaries": (None, {"go/guard/guard.go": r"usualSummaries +="}),
}


@pytest.mark.parametrize("name", DEFAULTS)
def test_a_default_is_the_same_in_all_packages(name):
    due, written = DEFAULTS[name]
    if due is None:
        number, unit = re.fullmatch(r"(\d+)([sm]?)", SVIDD[name]).groups()
        due = int(number) * UNITS.get(unit, 1)
    found = {}
    for path, before in written.items():
        values = re.findall(before + r" *([\d_.]+)( \* time\.(?:Second|Minute))?", (TOP / path).read_text(), re.M)
        found[path] = [float(value.replace("_", "").rstrip(".")) * (60 if "Minute" in unit else 1) for value, unit in values]
    assert found == {path: [due] for path in written}
    if name == "wait":
        assert f"long wait = {due}000;" in (TOP / "packages/java/src/main/java/svid/Options.java").read_text()
