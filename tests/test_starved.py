"""The program with each of its allocations refused in turn (tests/c/failmalloc.c). A run so starved either does all that the whole run does, or it
says `svid: out of memory`, exits with 2, prints nothing else and leaves each file as it was."""

import os
import shutil
import subprocess
from concurrent.futures import ThreadPoolExecutor
from dataclasses import dataclass

import pytest
from conftest import TOP

# No command makes so many allocations.
MOST = 20000
AT_ONCE = len(os.sched_getaffinity(0))
CHECK = f"check --bundles=bundles.json --table=table.txt --now=100 --validator-id={'1' * 32}"
# Each command, and the file that it reads on standard input.
COMMANDS = [
    (f"{CHECK} --longest=100000 --record=two-uses.batch --out=kept ledger", "tokens.txt"),
    (f"{CHECK} ledger spiffe://example.org/ledger", "token.txt"),
    ("candidates --bundles=bundles.json", "token.txt"),
    ("id spiffe://example.org/ledger", None),
    ("report --now 100 two-uses.batch shared.messages", None),
    ("merge --now=1 two-uses.batch shared.messages", None),
    ("summary two-uses.batch", None),
    ("answer --summary=summary shared.messages", None),
    ("merge", "shared.messages"),
    ("--help", None),
    ("check --help", None),
    ("--version", None),
    ("", None),
    ("id a b", None),
    ("merge no-such-file", None),
]


@dataclass(frozen=True)
class Outcome:
    """What a run did: its exit status, what it printed, and the files that it left."""

    status: int
    out: bytes
    err: bytes
    files: dict[str, bytes]


def files_in(folder):
    return {path.name: path.read_bytes() for path in folder.iterdir()}


@pytest.fixture(scope="module")
def inputs(tmp_path_factory, program):
    """The files that the commands read."""
    made = tmp_path_factory.mktemp("inputs")
    for name in ("bundles.json", "table.txt", "token.txt", "tokens.txt", "two-uses.batch", "shared.messages"):
        shutil.copy(TOP / "examples" / name, made)
    shutil.copy(made / "two-uses.batch", made / "kept")
    with open(made / "summary", "wb") as summary:
        subprocess.run([program, "summary", made / "two-uses.batch"], stdout=summary, check=True)
    return made


@pytest.fixture
def run(program, failmalloc, inputs, tmp_path):
    """Runs a command in a new folder, with the nth allocation refused: what it did, and how many were refused."""

    def one(words, stdin, nth):
        folder = tmp_path / str(nth)
        shutil.copytree(inputs, folder)
        told, tell = os.pipe()
        env = {"LD_PRELOAD": str(failmalloc), "FAILMALLOC_FIRST": str(nth), "FAILMALLOC_COUNT_FD": str(tell)}
        try:
            with open(folder / stdin if stdin else os.devnull, "rb") as source:
                done = subprocess.run(
                    [program, *words], stdin=source, capture_output=True, env=env, cwd=folder, pass_fds=[tell], timeout=600
                )
        finally:
            os.close(tell)
            with os.fdopen(told, "rb") as pipe:
                refused = int(pipe.read() or b"-1")
        outcome = Outcome(done.returncode, done.stdout, done.stderr, files_in(folder))
        shutil.rmtree(folder)
        return outcome, refused

    return one


@pytest.mark.parametrize("command, stdin", COMMANDS, ids=[f"svid {command}" for command, _ in COMMANDS])
def test_each_allocation_refused(run, inputs, command, stdin):
    words = command.split()
    whole, _ = run(words, stdin, 0)
    allowed = [whole, Outcome(2, b"", b"svid: out of memory\n", files_in(inputs))]
    if "--out" in command:
        # (there is no memory for the name of the new file beside it, and the program says that the write failed)
        allowed.append(Outcome(2, b"", b"svid: cannot write\n", files_in(inputs)))
    with ThreadPoolExecutor(AT_ONCE) as pool:
        for first in range(1, MOST, AT_ONCE):
            turns = range(first, first + AT_ONCE)
            for nth, (outcome, refused) in zip(turns, pool.map(lambda nth: run(words, stdin, nth), turns)):
                if refused == 0:
                    assert outcome == whole and nth > 1, "no allocation was refused"
                    return
                assert refused == 1 and outcome in allowed, f"with allocation {nth} refused"
    raise AssertionError(f"it makes more than {MOST} allocations")
