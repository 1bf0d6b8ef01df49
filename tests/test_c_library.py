"""The C library, called from C by the programs of tests/c. Each part of such a program is a test, and runs in the builds that it is for:

- wrapped: with each allocation counted, and refused in turn;
- bare: as a caller links it, between pages that can't be touched, with NULL for what has no bytes, and on a painted stack;
- musl: with musl, whose threads have 128 KiB of stack;
- sanitized: under the address and the undefined-behaviour sanitizer;
- threads: under the thread sanitizer;
- valgrind: as wrapped, under valgrind."""

import functools
import re
import subprocess
import tempfile

import pytest
from conftest import TOP, needs

STRICT = ["-std=c11", "-Wall", "-Wextra", "-Wpedantic", "-Werror", "-O1", f"-I{TOP}/packages/c/include", "-pthread"]
WRAPPED = [*STRICT, "-Wl,--wrap=malloc,--wrap=realloc,--wrap=free", "-DWRAPPED"]
BUILDS = {
    "wrapped": ["cc", *WRAPPED],
    "bare": ["cc", *STRICT],
    "musl": ["musl-gcc", "-std=c11", "-O1", "-static", f"-I{TOP}/packages/c/include", "-pthread"],
    "sanitized": ["cc", *WRAPPED, "-g", "-fsanitize=address,undefined", "-fno-sanitize-recover=all"],
    "threads": ["cc", *STRICT, "-g", "-fsanitize=thread"],
    "valgrind": ["cc", *WRAPPED],
}
VALGRIND = ["valgrind", "-q", "--error-exitcode=3", "--leak-check=full", "--show-leak-kinds=definite"]
RUNS = {
    # each stateless function of svid.h, with rooms of many lengths
    "refusing": {"wrapped": "all", "sanitized": "all", "valgrind": "all"},
    # a validator that is kept
    "live": {
        "wrapped": "refused",
        "bare": "stack guarded nulls edges",
        "musl": "threads stack",
        "sanitized": "refused guarded nulls edges",
        "threads": "threads",
        "valgrind": "refused nulls",
    },
    # one that reads a group's log
    "log": {
        "wrapped": "refused",
        "bare": "answers guarded long stack",
        "musl": "threads stack",
        "sanitized": "refused answers guarded long",
        "threads": "threads",
        "valgrind": "refused",
    },
    # trust bundles that are kept
    "bundles": {
        "wrapped": "refused nameless",
        "bare": "guarded nulls listed exchanged threads stack",
        "musl": "threads",
        "sanitized": "refused nameless guarded nulls listed",
        "threads": "threads",
        "valgrind": "refused nameless nulls",
    },
    # keys as a library of cryptography reads them
    "keys": {
        "wrapped": "refused",
        "bare": "guarded nulls answers stack",
        "musl": "stack",
        "sanitized": "refused guarded nulls answers",
        "valgrind": "refused nulls",
    },
    # a state folder, whose calls take no memory
    "journal": {
        "wrapped": "calls bits positions guarded nulls stack",
        "sanitized": "calls bits positions guarded nulls",
        "valgrind": "calls positions guarded nulls",
    },
    # tokens without a record
    "says": {
        "wrapped": "refused",
        "bare": "answers guarded nulls stack",
        "sanitized": "answers refused guarded nulls",
        "valgrind": "refused nulls",
    },
    # a token that is read once
    "tokens": {
        "wrapped": "refused",
        "bare": "answers guarded nulls renewed mixed stack",
        "musl": "stack",
        "sanitized": "answers refused guarded nulls renewed mixed",
        "valgrind": "refused nulls renewed mixed",
    },
    # a member that answers requests
    "members": {
        "wrapped": "refused",
        "bare": "guarded nulls threads stack times",
        "musl": "threads stack",
        "sanitized": "refused guarded nulls",
        "threads": "threads",
        "valgrind": "refused nulls",
    },
    # what it answers
    "walks": {
        "wrapped": "answers",
        "bare": "answers random",
        "sanitized": "answers random",
        "valgrind": "answers",
    },
    # the entries of messages
    "entries": {
        "wrapped": "refused",
        "bare": "answers guarded nulls stack",
        "sanitized": "answers refused guarded nulls",
        "valgrind": "refused nulls",
    },
    # documents of trust bundles
    "documents": {
        "wrapped": "refused",
        "bare": "answers guarded nulls stack",
        "musl": "stack",
        "sanitized": "answers refused guarded nulls",
        "valgrind": "refused nulls",
    },
    # a record bucket by bucket
    "buckets": {
        "wrapped": "refused",
        "bare": "answers guarded nulls stack",
        "musl": "stack",
        "sanitized": "answers refused guarded nulls",
        "valgrind": "refused nulls",
    },
    # the helpers that stand in svid.h itself
    "helpers": {"bare": "names answers rooms batches", "sanitized": "rooms", "valgrind": "rooms"},
}
CALLS = [
    pytest.param(name, build, part, id=f"{name}-{part}-{build}")
    for name, builds in RUNS.items()
    for build, parts in builds.items()
    for part in parts.split()
]


@functools.cache
def runs_here(*words):
    """Whether the compiler has what these words ask for, and it runs."""
    with tempfile.TemporaryDirectory() as room:
        built = subprocess.run([*words, "-x", "c", "-", "-o", f"{room}/none"], input=b"int main(void) { return 0; }", capture_output=True)
        return built.returncode == 0 and subprocess.run([f"{room}/none"], capture_output=True).returncode == 0


@pytest.fixture(scope="session")
def built(session, archive):
    """Builds a program in one of the ways, once."""
    header = re.sub(r"/\*.*?\*/", "", (TOP / "packages/c/include/svid.h").read_text(), flags=re.S)
    statuses = len(re.findall(r"SVID_\w+", re.search(r"enum svid_status \{(.*?)\}", header, re.S)[1]))

    @functools.cache
    def build(name, words):
        made = session / f"{name}-{len(list(session.iterdir()))}"
        source = TOP / f"tests/c/{name}.c"
        subprocess.run([*words, f"-DSTATUSES={statuses}", source, archive, "-o", made], check=True)
        return made

    return build


@pytest.mark.parametrize("name, build, part", CALLS)
def test_call(built, name, build, part):
    words = tuple(BUILDS[build])
    needs(words[0])
    if build == "valgrind":
        needs("valgrind")
    if build in ("sanitized", "threads") and not runs_here("cc", *[it for it in words if it.startswith("-fsanitize")]):
        pytest.skip(f"cc has no sanitizer that runs here, for {build}")
    under = VALGRIND if build == "valgrind" else []
    ran = subprocess.run(
        [*under, built(name, words), *([] if part == "all" else [part])],
        cwd=TOP / "examples",
        capture_output=True,
        text=True,
    )
    assert ran.returncode == 0, ran.stdout + ran.stderr


def test_each_part_of_a_program_runs():
    """No part of a program in tests/c is forgotten here."""
    for path in (TOP / "tests/c").glob("*.c"):
        parts = set(re.findall(r'\{ "(\w+)", \w+ \}', path.read_text().partition("int main(")[2]))
        due = {part for named in RUNS.get(path.stem, {}).values() for part in named.split()} - {"all"}
        assert parts == due, path.name
