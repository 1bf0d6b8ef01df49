"""Names say one thing each: what names a validator is a validator ID, where a fault stands is an offset, where a log is read is a position.

So no name in code, of tests and examples too, and none of tests/vectors/ has the word place. A token is refused and withdrawn: nothing here rejects
or revokes, but calls of others. And a file of crates/svid_c/src is named after a call of the header that stands in it, or it is a private
module without calls."""

import functools
import io
import json
import re
import subprocess
import tokenize

import pytest
from conftest import TOP

# Which files have names, by language. (A script of Python or of a shell has no suffix.)
LANGUAGES = {
    "C": (".h", ".c"),
    "Go": (".go",),
    "Python": (".py", "#!python"),
    "JavaScript": (".js", ".mjs", ".ts"),
    "Rust": (".rs",),
    "Java": (".java",),
    "Lua": (".lua",),
}
# What others wrote, or a tool of this repository.
NOT_OURS = ("go/vendor/", "dist/")
# What is no name: comments, and texts between quotation marks. (A character of Rust is one, and a lifetime is none.)
NO_NAMES = re.compile(r"/\*.*?\*/|//[^\n]*|\"(?:\\.|[^\"\\\n])*\"|`(?:\\.|[^`\\])*`|'(?:\\.[^']*|[^'\\\n])'", re.S)
# Ordinary uses: where a bar stands in the timeline of the page, the file `place` of a state folder (its name in Go, and in vectors), and this test.
ORDINARY = {"placed", "placeName", "is_of_place", "test_no_name_has_the_word_place", "test_no_member_of_a_vector_has_the_word_place"}
FILE_OF_A_FOLDER = "place"


def is_of_place(name):
    """Whether one of the words of a name is place. (So replace and placeholder are none.)"""
    return (
        name not in ORDINARY
        and re.search(r"(?<![a-z])place[ds]?(?![a-z])|Place[ds]?(?![a-z])|(?<![A-Z])PLACE[DS]?(?![A-Z])", name) is not None
    )


def names_in(path):
    """The names in the code of a file, each with its line."""
    text = path.read_text(encoding="utf-8")
    if language_of(path) == "Python":
        for token in tokenize.generate_tokens(io.StringIO(text).readline):
            if token.type == tokenize.NAME:
                yield token.string, token.start[0]
        return
    # (what a line of Lua says after two dashes is no name either)
    text = re.sub(r"--.*", "", text) if path.suffix == ".lua" else text
    code = NO_NAMES.sub(lambda it: "\n" * it[0].count("\n"), text)
    for number, line in enumerate(code.splitlines(), 1):
        yield from ((name, number) for name in re.findall(r"[A-Za-z_]\w*", line))


@functools.cache
def tracked():
    """The files of this repository that others did not write."""
    listed = subprocess.run(["git", "ls-files", "-z"], cwd=TOP, capture_output=True, text=True, check=True).stdout.split("\0")
    return [it for it in listed if it and not it.startswith(NOT_OURS)]


def language_of(path):
    suffix = path.suffix
    if not suffix and path.is_file() and path.read_bytes().startswith(b"#!/usr/bin/env python3"):
        suffix = "#!python"
    return next((name for name, suffixes in LANGUAGES.items() if suffix in suffixes), None)


@pytest.mark.parametrize("language", LANGUAGES)
def test_no_name_has_the_word_place(language):
    paths = [TOP / it for it in tracked() if language_of(TOP / it) == language]
    assert paths, f"{language}: there are no sources"
    found = [f"{path.relative_to(TOP)}:{number}: {name}" for path in paths for name, number in names_in(path) if is_of_place(name)]
    assert not found, "call it a validator ID, an offset, a position, an index or a folder ID:\n" + "\n".join(found)


# What others call so: promises and assertions of JavaScript, an option of Node, rights in SQL, a setting of Envoy, and a call of browsers.
OTHERS_WORDS = re.compile(
    r"\bPromise\.reject\b|\bassert\.rejects\b|(?<=[ {(])reject(?=[,); ])|\breject\("
    r"|\bREVOKE (ALL|EXECUTE) ON\b|\bREJECT_REQUEST\b|\brevokeObjectURL\b|\bunhandledRejection\b|\brejectUnauthorized\b"
)


def test_nothing_rejects_or_revokes():
    found = []
    for name in tracked():
        if re.search("revok|reject", name, re.I):
            found.append(f"the file {name}")
        if name == "tests/test_names.py" or not (TOP / name).is_file():
            continue
        text = (TOP / name).read_bytes().decode("utf-8", "replace")
        if re.search("revok|reject", text, re.I):
            lines = enumerate(text.splitlines(), 1)
            found += [
                f"{name}:{number}: {line.strip()}" for number, line in lines if re.search("revok|reject", OTHERS_WORDS.sub("", line), re.I)
            ]
    assert not found, "write refuse, or withdraw:\n" + "\n".join(found)


def members(value):
    if isinstance(value, dict):
        for name, it in value.items():
            yield name
            yield from members(it)
    elif isinstance(value, list):
        for it in value:
            yield from members(it)


@pytest.mark.parametrize("path", sorted((TOP / "tests/vectors").glob("*.json")), ids=lambda path: path.stem)
def test_no_member_of_a_vector_has_the_word_place(path):
    ordinary = {FILE_OF_A_FOLDER} if path.stem == "folders" else set()
    assert {name for name in members(json.loads(path.read_text())) if is_of_place(name)} - ordinary == set()


def calls_in(path):
    return re.findall(r"^pub extern \"C\" fn svid_(\w+)", path.read_text(), re.M)


def modules_of(src):
    """The modules of the library by their paths, as the files declare them, and whether each is public."""
    for path in src.glob("**/*.rt"):
        above = "" if path.stem == "lib" else path.relative_to(src).with_suffix("").as_posix() + "/"
        for word, name in re.findall(r"^(pub |pub\(crate\) )?mod (\w+);", path.read_text(), re.M):
            yield above + name, word == "pub "


def test_a_file_of_the_c_library_is_named_after_a_call_in_it():
    src = TOP / "crates/svid_c/src"
    files = {path.relative_to(src).with_suffix("").as_posix(): calls_in(path) for path in src.glob("**/*.rt")}
    del files["lib"]
    modules = dict(modules_of(src))
    every = {call for calls in files.values() for call in calls}
    wrong = [
        f"{name}.rt has svid_{', svid_'.join(calls)}: name it after one of them"
        for name, calls in files.items()
        if calls and name not in calls
    ]
    for name, calls in files.items():
        if not calls and name in every:
            wrong.append(f"{name}.rt does not have svid_{name}")
        if modules.get(name):
            wrong.append(f"{name}.rt is a public module: C sees its calls alone")
    wrong += [f"{name}.rt is no module: no file declares it" for name in files.keys() - modules.keys()]
    wrong += [f"the module {name} is declared, and has no file" for name in modules.keys() - files.keys()]
    assert not wrong, "\n".join(sorted(wrong))
