"""The program for aarch64 of dist/, under an emulator of an early processor: beside the program for x86-64 it prints the same bytes, ends with the same
status and writes the same record; tests/test_commands.py holds of it; and it needs no newer glibc than the documents say. (tests/test_start.py holds
./svid and ./install to taking it, and examples/embed tests the library.)"""

import os
import shutil
import subprocess
from pathlib import Path

import pytest
from conftest import TOP, needs

# Where Debian has glibc for aarch64.
GLIBC = "/usr/aarch64-linux-gnu"
CHECK = "check --bundles bundles.json --table table.txt --now 1767225600 --validator-id 00112233445566778899aabbccddeeff"
# Where a test leaves little memory, the emulator takes what it needs, and gives the program that little.
SCRIPT = """#!/bin/sh
room=
limit=$(ulimit -Sv)
[ "$limit" = unlimited ] || {{ ulimit -Sv "$(ulimit -Hv)" && room="-R ${{limit}}k"; }} || exit 126
exec qemu-aarch64-static -cpu cortex-a53 -L {glibc} $room "{program}" "$@"
"""


@pytest.fixture(scope="module")
def emulated(session):
    """The program under the emulator, as a command. (some commands run as nobody, so others may read all this)"""
    for command in ("qemu-aarch64-static", "aarch64-linux-gnu-objdump", f"{GLIBC}/lib/ld-linux-aarch64.so.1"):
        needs(command)
    if subprocess.run([TOP / "tools/dist", "fits"]).returncode:
        pytest.skip("dist/ was not built from these sources")
    shutil.copy(TOP / "dist/aarch64/svid", session / "aarch64")
    (session / "svid").write_text(SCRIPT.format(glibc=GLIBC, program=session / "aarch64"))
    (session / "svid").chmod(0o755)
    return session / "svid"


def outcome(program, words, given, folder):
    """What a program does in a new folder with the files of the examples: its status, what it prints, and the record `kept`."""
    shutil.copytree(TOP / "examples", folder, ignore=lambda _, names: [it for it in names if (TOP / "examples" / it).is_dir()])
    subprocess.run(["sh", "-c", '"$0" summary two-uses.batch >asked', TOP / "dist/x86_64/svid"], cwd=folder, check=True)
    ran = subprocess.run([program, *words], cwd=folder, input=given, capture_output=True, timeout=3600)
    kept = folder / "kept"
    return ran.returncode, ran.stdout, ran.stderr, kept.read_bytes() if kept.exists() else None


COMMANDS = ["check", "id", "report", "merge", "summary", "answer", "candidates"]
IDS = ["spiffe://example.org/web", "spiffe://example.org/", "spiffe://EXAMPLE/", "spiffe://a/%", ""]
READERS = [
    "candidates --bundles bundles.json",
    f"{CHECK} ledger",
    f"{CHECK} --longest 2400000000 --out kept ledger",
    f"{CHECK} --record two-uses.batch --out kept ledger",
    "report",
    "merge two-uses.batch",
    "summary",
    "report --now 100 two-uses.batch {}",
]
CALLS = [
    *([*words.split(), *more] for words, more in [("", []), ("--help", []), ("--version", []), ("help", []), ("-x", [])]),
    *([command, word] for command in COMMANDS for word in ("--help", "--no-such-option", "none")),
    *(["id", it] for it in IDS),
    "answer --summary asked shared.messages".split(),
    "merge --now 101 two-uses.batch shared.messages".split(),
]
GIVEN = ["token.txt", "tokens.txt", "/dev/null", "two-uses.batch"]


@pytest.mark.parametrize("words", CALLS, ids=" ".join)
def test_a_call(emulated, tmp_path, words):
    same(emulated, tmp_path, words, b"")


@pytest.mark.parametrize("given", GIVEN)
@pytest.mark.parametrize("line", READERS)
def test_a_call_that_reads(emulated, tmp_path, line, given):
    same(emulated, tmp_path, line.format(given).split(), (TOP / "examples" / given).read_bytes())


def same(emulated, folder, words, given):
    assert outcome(emulated, words, given, folder / "got") == outcome(TOP / "dist/x86_64/svid", words, given, folder / "due")


def test_what_it_asks_of_the_system(emulated):
    said = subprocess.run(
        ["aarch64-linux-gnu-objdump", "-p", Path(emulated).parent / "aarch64"], capture_output=True, text=True, check=True
    ).stdout
    rows = [line.split() for line in said.splitlines() if line.strip()]
    assert [row[1] for row in rows if row[0] == "NEEDED"] == ["libc.so.6"]
    versions = [row[-1].removeprefix("GLIBC_").split(".") for row in rows if row[-1].startswith("GLIBC_")]
    assert max([int(it) for it in version] for version in versions) == [2, 34]


def test_it_does_what_the_commands_are_to_do(emulated):
    environment = {name: value for name, value in os.environ.items() if name not in ("SVID", "SVID_TESTS")}
    words = [TOP / "tests/run", "commands", "--brief", "--program", emulated]
    ran = subprocess.run(words, capture_output=True, text=True, timeout=3600, env=environment)
    assert ran.returncode == 0, ran.stdout[-3000:]
