"""The core decides, the adapters carry: what an adapter's code must not name, since the library knows it. Where a rule still stands outside of the
core, it is listed here, and a list only gets shorter."""

import re
import subprocess

import pytest
from conftest import TOP

ADAPTERS = ("go", "packages/python/svid", "packages/node/src", "packages/rust/svid/src", "packages/page/src", "packages/java/src/main")
# Not ours, or not what a service runs: tests, and what only they use.
OTHERS = re.compile(
    r"^go/vendor/|_test\.go$|/tests?/|/tests\.rs$|/(issuer|testing|natstest|agenttest|logtest|sim|vectors|broker|cluster|svidbench|vendored)/|wrong/"
    r"|cmd/svidd/(outside|member)\.py$|^packages/python/svid/testing\.py$"
)
COMMENT = re.compile(r"^\s*(//|/\*|\*|#|\"\"\")")
BEHIND = re.compile(r"\s(//|#) .*")  # a comment behind code

# What tools/lists writes from the one list, in each language.
LISTED = re.compile(r"lists:begin .*?lists:end", re.S)

RULES = {
    # base64url is read by the core: the parts of a token, the members of a key
    "base64url": (
        r"encoding/base64|RawURLEncoding|urlsafe_b64|binascii|\batob\(|\bbtoa\(|fn base64|util\.Base64|\"base64url\"|'base64url'|ABCDEFGHIJKLMNOPQRSTUVWXYZ",
        {
            "packages/page/src/page.js": "the module in the page is base64",
            "go/claims/nats/nats.go": "the subject of an entry has the key as base64url: no other letters may stand in a subject",
            "go/claims/nats/ask.go": "an inbox has random letters that may stand in a subject",
            "go/claims/nats/withdraw.go": "the subject of a withdrawal has the key as base64url too",
        },
    ),
    # the first bytes of a message, and the lengths of its parts
    "messages": (
        r"\bJSR\b|0x4a,|'J', *'S'|74, *83, *82|batchHead|BATCH_HEAD|USE_LENGTH|\buseLen\b|\bUSE_LEN\b|\bheadLen\b|summaryLen|USES_IN_A_BATCH"
        r"|\bcountAt\b|\bmomentAt\b"
        # (the length of a summary has a name in svid.h, as others have that an output needs)
        r"|\b17 *\+ *6[45]\b|\b6[45] *\*|(?<!\*)\* *6[45]\b|(?<!SUMMARY_LEN = )(?<!SUMMARY_LEN: usize = )\b8_?205\b",
        {},
    ),
    # where a SPIFFE ID has its parts
    "ids": (
        r"(TrimPrefix|HasPrefix|CutPrefix|removeprefix|startswith|startsWith|strip_prefix|partition|split)\(.*spiffe:|spiffe_?id\[\d|\[9:\]"
        r"|(slice|substring)\(9\)",
        {},
    ),
    # members of a JSON Web Key
    "keys": (
        r"[\"'](kty|crv)[\"']|\.(kty|crv)\b|(\[|get\()[\"'][nexy][\"']",
        {},
    ),
}


# Files that answer requests through a member of the library, or hand requests to it. Stores are not among them: they keep what they get.
SHELLS = re.compile(
    r"^(go/(internal/server|guard|svidhttp|cmd/svidd|svid)|packages/python/svid|packages/node/src|packages/rust/svid/src|packages/java/src/main)/"
    r"(?!(java/svid/)?[Pp]ostgres|_group|redis|answers|group-store)"
)

# What a shell must not decide, since the member does, and lines that it must not have.
DECIDED = {
    # whether a token is over, by whichever clock
    "expiry": (
        r"\b([eE]xpires|[eE]xpiry|exp)\b(\(\))? *([-+] *[\w.()]+ *)?[<>]=?(?!>)|[^-=<>][<>]=? *[\w.]*\b([eE]xpires|[eE]xpiry|exp)\b",
        {"go/internal/server/store.go": "the member is told of a withdrawal again only where it is to last longer than those before it"},
        (
            "if use.Expires <= now {",
            "if now >= use.expires:",
            "if (token.exp < now) {",
            "return expires + ahead > time;",
            "if at < said.expiry() {",
        ),
    ),
    # whose a claim is
    "owners": (
        r"[oO]wner(\(\))? *([!=]==?|is not |is )|[!=]==? *[\w.]*[oO]wner\b|[!=]==? *claims\.Withdrawn|claims\.Withdrawn *[!=]==?"
        r"|(equal|Equal|equals|compare)\([^()]*[oO]wner",
        {
            "go/internal/server/claims.go": "how many claims were lost to another is counted, and told to the operator; and what the store"
            " answered to one of these is told to the member again"
        },
        (
            "if found.Owner == claim.Owner {",
            "return claims.Withdrawn != o",
            "if owner is None or mine == owner:",
            "if (Arrays.equals(it.owner(), own)) {",
        ),
    ),
    # which reason comes first why a member is to get no tokens
    "readiness": (
        r"[rR]eady *(&&|\|\||and |or )|(&&|\|\||\band|\bor) *!?(not )?[\w.]*\b(is)?[rR]eady\b|\b[rR]eady *= *(true|True)",
        {},
        ("return loaded && ready", "self.ready = True", "if opened and not self.ready:", "m.ready = true"),
    ),
    # when a request is too late
    "deadlines": (
        r"[dD]eadline(\(\))? *[<>]|[^-=][<>]=? *[\w.]*[dD]eadline\b|([aA]fter|[bB]efore|is[BA]\w+)\([\w.]*[dD]eadline",
        {},
        ("if now.After(r.deadline) {", "if time.monotonic() > self.deadline:", "if (deadline <= at) {", "if (at.isAfter(deadline)) {"),
    ),
    # how often something is tried again
    "retries": (
        r"\b([mM]ost|MOST_|max|MAX_)([tT]ries|TRIES|[aA]ttempts|ATTEMPTS|[rR]etries|RETRIES)\b"
        r"|\b(tries|attempts?|retries|tried) *([<>]|\+\+|\+=)",
        {"go/internal/server/engine.go": "how often a token is verified again because the bundles were replaced meanwhile"},
        (
            "for tries := 0; tries < 3; tries++ {",
            "while attempts < 5:",
            "for (let attempt = 0; attempt < MOST_TRIES; attempt++) {",
            "retries += 1;",
        ),
    ),
}


def sources():
    listed = subprocess.run(["git", "ls-files", *ADAPTERS], cwd=TOP, capture_output=True, text=True, check=True).stdout.split()
    return [it for it in listed if it.endswith((".go", ".py", ".js", ".rs", ".java")) and not OTHERS.search(it)]


def named(pattern, paths):
    """The lines that a pattern finds, but for comments and lists, of each file that has one."""
    found = {}
    for path in paths:
        text = LISTED.sub("", (TOP / path).read_text())
        lines = [it for it in text.splitlines() if not COMMENT.match(it) and re.search(pattern, BEHIND.sub("", it))]
        if lines:
            found[path] = lines
    return found


def only(found, left):
    assert {path: lines for path, lines in found.items() if path not in left} == {}
    assert sorted(set(left) - set(found)) == [], "these have lost the rule: take them out of the list"


@pytest.mark.parametrize("rule", RULES)
def test_no_adapter_names_what_the_core_knows(rule):
    pattern, left = RULES[rule]
    paths = sources()
    assert all(any(path.startswith(f"{folder}/") for path in paths) for folder in ADAPTERS) and len(paths) > 100
    only(named(pattern, paths), left)


@pytest.mark.parametrize("rule", DECIDED)
def test_no_shell_decides_what_the_member_decides(rule):
    pattern, left, planted = DECIDED[rule]
    paths = [it for it in sources() if SHELLS.search(it)]
    assert len({SHELLS.search(it).group() for it in paths}) == 9
    only(named(pattern, paths), left)
    assert [it for it in planted if not re.search(pattern, it)] == [], "a line that was planted is not found"
