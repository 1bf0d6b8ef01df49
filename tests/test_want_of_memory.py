"""The table "Out of memory, call by call" of crates/PROOFS.md fits the sources and the cases.

Each public call of each library stands in a row, and each row names calls that are public. Each call of a row is named in a table of tests/cases/README.md,
by a line of svid_script that makes it; and one such line stands in a case that tools/cases runs with each allocation refused, or, of a call that
takes no memory, in any case. Some are tested by the C library instead (BY_C). Laws, which do nothing, and calls of std's traits need no row."""

import importlib.machinery
import importlib.util
import re
import sys

import pytest
from conftest import TOP
from test_c_library import RUNS as PARTS

NAMES = r"(`[\w:]+`(?:, `[\w:]+`)*)"
ROW = re.compile(rf"\| `(\w+)` \| {NAMES} \| (yes|no) \| (\S.*?) \|$")
TRAITS = {"UseStore", "Verifier", "Sink", "Source"}


def text_of(path):
    return (TOP / path).read_text()


SECTION = text_of("crates/PROOFS.md").partition("## Out of memory, call by call")[2].split("\n## ")[0]
ROWS = [line for line in SECTION.splitlines() if line.startswith("| `")]
# The crates that are libraries.
LISTED = [line.split(":")[0].split()[0] for line in text_of("crates.txt").splitlines() if line.strip() and not line.startswith("#")]
# (the program, which is svid_cli, is starved by test_starved.py)
LIBRARIES = [name for name in LISTED if name != "svid_cli" and (TOP / f"crates/{name}/src/lib.rt").is_file()]


def calls(crate):
    """The public calls of a library: functions, calls of its types, and its types' calls of its traits."""
    names, found = set(), set()
    for group in re.findall(r"^pub use (?:\w+::)*(\{[^}]*\}|\w+);", text_of(f"crates/{crate}/src/lib.rt"), re.M):
        names.update(re.findall(r"\w+", group))
    for path in sorted((TOP / f"crates/{crate}/src").glob("*.rt")):
        owner, of_trait = None, False
        for line in path.read_text().splitlines() if path.name != "laws.rt" else []:
            begin = re.match(r"impl(?:<.*?>+)? (?:(\w+)(?:<[^{]*?>)? for )?(\w+)", line)
            if begin:
                owner, of_trait = begin[2] if begin[2] in names else "", begin[1] in TRAITS
            elif re.match(r"\S", line) and not line.startswith(("}", "{", "//", "#", "where")):
                owner = "" if re.match(r"(pub )?trait ", line) else None
            free, inner = re.match(r"pub fn (\w+)", line), re.match(r"    (pub )?fn (\w+)", line)
            if free and free[1] in names:
                found.add(free[1])
            elif inner and owner and (inner[1] or of_trait):
                found.add(f"{owner}::{inner[2]}")
    return found


# Calls that no case makes: the part of a program in tests/c that refuses each of their allocations.
BY_C = {"is_unnamed": ("nameless", "bundles")}


@pytest.fixture(scope="module")
def words():
    """The words of the lines of all cases, and those of the cases that run with each allocation refused."""
    loader = importlib.machinery.SourceFileLoader("cases", f"{TOP}/tools/cases")
    module = importlib.util.module_from_spec(importlib.util.spec_from_loader("cases", loader))
    sys.modules["cases"] = module
    loader.exec_module(module)
    every, swept = set(), set()
    for case in (case for path in module.paths_of([]) for case in module.cases_in(path)):
        of_case = {call.line.text.removeprefix("once ").split(" ")[0] for call in case.calls}
        every |= of_case
        swept |= of_case if case.is_swept else set()
    return every, swept


@pytest.fixture(scope="module")
def lines():
    """For the last word of each call that tests/cases/README.md names, the words of the lines that make it."""
    found = {}
    for cells in (line.split(" | ") for line in text_of("tests/cases/README.md").splitlines() if line.startswith("| `") and " | " in line):
        for call in re.findall(r"`([\w:]+)`", cells[1]):
            found.setdefault(call.split("::")[-1], set()).update(re.findall(r"`([a-z_.]+)[^`]*`", cells[0]))
    return found


@pytest.mark.parametrize("row", ROWS, ids=lambda row: row[2:60])
def test_the_calls_of_a_row_are_tested(row, words, lines):
    read = ROW.match(row)
    assert read, "this row can't be read"
    _, names, takes, _ = read.groups()
    every, swept = words
    for call in re.findall(r"[\w:]+", names):
        if call in BY_C:
            part, program = BY_C[call]
            assert part in PARTS[program]["wrapped"].split() and f'{{ "{part}", {part} }}' in text_of(f"tests/c/{program}.c")
            continue
        made_by = lines.get(call.split("::")[-1], set())
        assert made_by, f"{call}: no line of tests/cases/README.md makes it"
        assert made_by & (swept if takes == "yes" else every), f"{call}: no case has a line that makes it: {', '.join(sorted(made_by))}"


@pytest.mark.parametrize("crate", LIBRARIES)
def test_each_public_call_has_a_row(crate):
    rowed = {name for row in ROWS if (read := ROW.match(row)) and read[1] == crate for name in re.findall(r"[\w:]+", read[2])}
    public = calls(crate)
    assert public <= rowed
    assert {call for call in rowed - public if not call.endswith(("::clone", "::next"))} == set()


def test_each_row_is_of_a_library():
    assert {ROW.match(row)[1] for row in ROWS} <= {*LIBRARIES}
