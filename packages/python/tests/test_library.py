"""The calls of the C library have the types of include/svid.h, and no other library is taken."""

import ctypes
import os
import pathlib
import re
import subprocess
import sys
import types

import pytest
from making import PATIENCE
from svid import _library as lib

HEADER = pathlib.Path(os.environ["SVID"]).parent / "packages/c/include/svid.h"
TEXT = re.sub(r"/\*.*?\*/", "", HEADER.read_text(encoding="utf-8"), flags=re.S)
NUMBERS = {
    "uint8_t": ctypes.c_uint8,
    "uint32_t": ctypes.c_uint32,
    "uint64_t": ctypes.c_uint64,
    "size_t": ctypes.c_size_t,
    "void": None,
}
POINTERS = (ctypes.c_char_p, ctypes.c_void_p)
CALLS = {
    name: (gives, " ".join(takes.split()))
    for gives, name, takes in re.findall(r"^(\w+) (svid_\w+)\(([^)]*)\);", TEXT, re.M)
}
USED = [*lib._CALLS, *lib._CALLS_OF_NO_STATUS, *lib._CALLS_OF_A_CHECK]


def fits(kind, declared):
    """Whether a type of ctypes is that of a parameter."""
    if "*" in declared or "[" in declared:
        return kind in POINTERS
    return kind is NUMBERS[declared.split()[0]]


@pytest.mark.parametrize("name", USED)
def test_the_types_of_a_call(name):
    """A number of the wrong length would be cut, after 49 days of a clock, say."""
    gives, takes = CALLS[name]
    declared = [] if takes == "void" else takes.split(", ")
    for library in lib.library, lib.quick:
        call = getattr(library, name)
        assert call.restype is NUMBERS[gives]
        if name in lib._CALLS_OF_A_CHECK:
            assert call.argtypes is None
            continue
        assert len(call.argtypes) == len(declared)
        assert all(map(fits, call.argtypes, declared)), declared


def test_each_call_has_its_types():
    sources = "".join(it.read_text() for it in pathlib.Path(lib.__file__).parent.glob("*.py"))
    assert {*re.findall(r"\b(?:quick|library)\.(svid_\w+)", sources)} == {*USED}


def members(name):
    """The members of a structure of the header."""
    found = {of: body for body, of in re.findall(r"typedef struct \{([^}]*)\} (\w+);", TEXT)}
    for kind, member, length in re.findall(r"(\w+) (\w+)(?:\[(\d+)\])?;", found[name]):
        if kind in NUMBERS:
            yield member, NUMBERS[kind] * int(length) if length else NUMBERS[kind]
        else:
            yield member, next(it for it, of in STRUCTURES.items() if of == kind)


STRUCTURES = {
    it: it.__doc__.split("`")[1]
    for it in vars(lib).values()
    if isinstance(it, type) and issubclass(it, ctypes.Structure)
}


@pytest.mark.parametrize("kind", STRUCTURES, ids=lambda it: it.__name__)
def test_the_members_of_a_structure(kind):
    assert list(kind._fields_) == list(members(STRUCTURES[kind]))


def test_the_numbers_of_statuses_and_deeds():
    rows = re.findall(r"\b(SVID_\w+)(?: = | )(\d+)[uUlL]*\b", TEXT)
    theirs = {name.removeprefix("SVID_"): int(number) for name, number in rows}
    ours = {name: it for name, it in vars(lib).items() if name in theirs}
    assert len(ours) > 50
    assert ours == {name: theirs[name] for name in ours}
    modes = {name.upper(): number for name, number in lib.MODES.items()}
    assert modes == {name: theirs[name] for name in modes}


@pytest.mark.parametrize(
    ("version", "said"),
    [(29_999, "has version 29999, and this package needs 3xxxx"), (30_000, "which is too old: ")],
)
def test_a_library_of_another_version(version, said, tmp_path):
    (tmp_path / "old.c").write_text(f"unsigned svid_version(void) {{ return {version}; }}")
    words = ["cc", "-shared", "-o", "old.so", "old.c"]
    subprocess.run(words, cwd=tmp_path, timeout=PATIENCE, check=True)
    environment = {**os.environ, "LIBSVID": str(tmp_path / "old.so")}
    words = [sys.executable, "-c", "import svid"]
    more = {"capture_output": True, "text": True, "timeout": PATIENCE}
    ran = subprocess.run(words, env=environment, check=False, **more)
    assert ran.returncode == 1
    (last,) = ran.stderr.splitlines()[-1:]
    assert last.startswith(f"ImportError: {tmp_path}/old.so ") and said in last


@pytest.mark.parametrize(
    "name", [max(lib._CALLS), lib._CALLS_OF_A_CHECK[-1], max(lib._CALLS_OF_NO_STATUS)]
)
def test_a_library_that_lacks_a_call(name):
    """It is of another build, and the import says so: the first check would be late."""

    def call():
        return 30_000

    def older(_path):
        calls = {*lib._CALLS, *lib._CALLS_OF_A_CHECK, *lib._CALLS_OF_NO_STATUS} - {name}
        return types.SimpleNamespace(**{it: type(call)(call.__code__, {}) for it in calls})

    with pytest.raises(ImportError, match=f"too old: .*{name}"):
        lib._load("libsvid.so", older)
