"""The vectors of tests/vectors/ are what the program that makes them writes, and the program `svid` and the C library answer each as it says is due.

The tests of the Go library, the Python package and the page see to theirs; here, whether each of them names each file that has vectors for it."""

import json
import re
import subprocess

import pytest
from conftest import TOP, needs

VECTORS = TOP / "tests/vectors"
FILES = {path.stem: json.loads(path.read_text()) for path in sorted(VECTORS.glob("*.json"))}
# What the tests of the other languages read, and how they name a file.
READERS = {
    "go": ["go/internal/vectors/vectors_test.go"],
    "page": ["packages/page/tests/verdicts.mjs", "packages/page/tests/vectors.test.mjs"],
    "python": ["packages/python/tests/test_vectors.py", "packages/python/tests/vectors.py", "packages/python/tests/test_allow.py"],
    "rust": ["packages/rust/svid/tests/all/vectors.rs", "packages/rust/svid/src/journal/tests.rs"],
}


class Program:
    """The program `svid`, in a folder for the files that it is given. Each call has the vectors of one file, and answers what it says and what is due."""

    def __init__(self, room, path):
        self.room, self.path = room, path

    def file(self, name, content):
        (self.room / name).write_bytes(content if isinstance(content, bytes) else content.encode())
        return self.room / name

    def run(self, *words, lines=""):
        """What it prints, or what it says on standard error without `svid: `."""
        ran = subprocess.run([self.path, *words], input=lines.encode(), capture_output=True)
        said = ran.stderr.decode().splitlines()
        return said[-1].removeprefix("svid: ") if said and ran.returncode else ran.stdout

    def check(self, bundles, tokens, yes, given, audiences, now, longest=None):
        files = ["--bundles", self.file("bundles", bundles), "--table", self.file("table", "\n".join(yes))]
        options = ["--now", str(now), "--validator-id", given["validator_id"], *(["--longest", longest] if longest else [])]
        said = self.run("check", *files, *options, "--", *audiences, lines="".join(f"{it}\n" for it in tokens))
        return said.decode().splitlines() if isinstance(said, bytes) else said

    def keys(self, file, it):
        bundles, given = '{"example.org":{"keys":[' + ",".join(it["keys"]) + "]}}", file["setting"]
        return self.check(bundles, [it["token"]], it["yes"], given, [given["audience"]], given["now"]), [it["answer"]]

    signatures = keys

    def tokens(self, file, it):
        given, calls = file["setting"] | it.get("setting", {}), it["calls"]
        yes = [question for call in calls for question in call["yes"]]
        [now] = {call["now"] for call in calls}
        tokens = [call["token"] for call in calls]
        said = self.check(file["bundles"][given["bundles"]], tokens, yes, given, given["audiences"], now, given["longest"])
        return said, [call["answer"] for call in calls]

    def bundles(self, file, it):
        given, text = file["setting"], it["text"] if "text" in it else bytes.fromhex(it["hex"])
        said = self.check(text, [it["token"]], it["yes"], given, [given["audience"]], given["now"])
        if isinstance(said, str):
            return re.sub(r"^bundles: (\w+)(?:\((\d+)\))?$", lambda it: " ".join(filter(None, it.groups())), said), it["answer"]
        return said, [it["answer"]]

    def ids(self, _, it):
        said = self.run("id", "--", it["text"]).decode()
        if "fault" in it:
            return said, f"refused {it['fault']}" + ("" if it["offset"] is None else f"({it['offset']})") + "\n"
        return said, f"domain {it['domain']}\n" + (f"path {it['path']}\n" if it["path"] else "")

    def messages(self, _, it):
        now, path = ["--now", str(it["now"])] if it["now"] else [], self.file("messages", bytes.fromhex(it["messages"]))
        merged = self.run("merge", *now, path)
        if "fault" in it:
            return merged, "input 1 message {message} place {offset}: {reason}".format(**it["fault"])
        return (merged.hex(), self.run("report", *now, path).decode()), (it["record"], it["report"])

    def summaries(self, _, it):
        path, summary = self.file("messages", bytes.fromhex(it["messages"])), self.file("summary", bytes.fromhex(it["summary"]))
        if it["call"] == "summary":
            return self.run("summary", path).hex(), it["summary"]
        said = self.run("answer", "--summary", summary, path)
        return (said, "not one summary") if "fault" in it else (said.hex(), it["answer"])


def of(reader, file):
    return [it for it in file["vectors"] if reader in it["readers"].split()]


@pytest.mark.parametrize("name", FILES)
def test_there_are_as_many_for_the_program_as_the_file_says(name):
    assert len(of("svid", FILES[name])) == FILES[name]["counts"].get("svid", 0)


@pytest.mark.parametrize(
    "name, it", [pytest.param(name, it, id=f"{name}: {it['name']}") for name, file in FILES.items() for it in of("svid", file)]
)
def test_the_program(program, tmp_path, name, it):
    said, due = getattr(Program(tmp_path, program), name)(FILES[name], it)
    assert said == due


@pytest.fixture(scope="module")
def by_the_library(session, archive):
    """What tests/c/vectors.c says of all files."""
    needs("cc")
    headers = b"#include <jansson.h>\n#include <openssl/evp.h>\n"
    if subprocess.run(["cc", "-fsyntax-only", "-x", "c", "-"], input=headers, stderr=subprocess.DEVNULL).returncode:
        pytest.skip("the headers of Jansson or of OpenSSL are not there")
    embed = TOP / "examples/embed"
    words = [
        "-std=c99",
        "-Wall",
        "-Wextra",
        "-Wpedantic",
        "-Werror",
        "-O1",
        "-g",
        "-fsanitize=address,undefined",
        "-fno-sanitize-recover=all",
    ]
    sources = [TOP / "tests/c/vectors.c", embed / "verify.c", embed / "jwk.c", archive, "-lcrypto", "-ljansson"]
    subprocess.run(
        ["cc", *words, f"-I{TOP}/packages/c/include", f"-I{embed}", *filter(exists, sources), "-o", session / "vectors"], check=True
    )
    return subprocess.run([session / "vectors", VECTORS], capture_output=True, text=True)


def exists(source):
    return isinstance(source, str) or source.exists()


def test_the_c_library(by_the_library):
    said = [line for line in by_the_library.stdout.splitlines() if line.startswith("vectors: ")]
    assert (said, by_the_library.stderr, by_the_library.returncode) == ([], "", 0)


def test_there_are_as_many_for_the_c_library_as_the_files_say(by_the_library):
    counts = dict(re.findall(r"^(\w+) (\d+)$", by_the_library.stdout, re.M))
    assert counts == {name: str(file["counts"]["c"]) for name, file in FILES.items() if "c" in file["counts"]}


@pytest.mark.parametrize("reader, name", [(reader, name) for name, file in FILES.items() for reader in READERS if reader in file["counts"]])
def test_the_tests_of_another_language_read_it(reader, name):
    assert any(f'"{name}"' in (TOP / path).read_text() for path in READERS[reader])


def test_they_are_made_again():
    pytest.importorskip("cryptography")
    ran = subprocess.run([VECTORS / "make", "--check"], capture_output=True, text=True)
    assert (ran.stdout + ran.stderr, ran.returncode) == ("", 0)
