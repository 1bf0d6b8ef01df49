"""The sidecar's first session in README.md, typed as it stands there: a token of one's own is accepted, and refused from another address."""

import importlib.machinery
import importlib.util
import json
import os
import resource
import shutil
import signal
import subprocess
import sys
import time

import pytest
from conftest import PATIENCE, TOP, await_, needs

README = TOP / "README.md"


@pytest.fixture(scope="module")
def docs():
    """The tool that runs what documents show."""
    loader = importlib.machinery.SourceFileLoader("docs", f"{TOP}/tools/docs")
    module = importlib.util.module_from_spec(importlib.util.spec_from_loader("docs", loader))
    sys.modules["docs"] = module
    loader.exec_module(module)
    return module


def by_itself():
    """What gives a shell a network of its own, where the system lets us have one: then no other test has the sidecar's port."""
    words = ("unshare", "--map-root-user", "--net")
    works = all(map(shutil.which, ("unshare", "ip"))) and subprocess.run([*words, "ip", "link", "set", "lo", "up"]).returncode == 0
    return words if works else ()


MOST = (
    60  # seconds of the processor, or of the clock, that the session takes once the packages are there and Go has compiled its own library
)


@pytest.fixture(scope="module")
def typed(docs):
    """The two commands of the session, each with what it prints."""
    found = [docs.commands(it) for it in docs.blocks(README) if "tests/test_quickstart.py runs it" in it.comment]
    return [command for block in found for command in block]


def clone(to):
    """A fresh clone, of the files as they are now."""
    listed = subprocess.run(["git", "ls-files", "-z"], cwd=TOP, stdout=subprocess.PIPE, check=True).stdout
    to.mkdir()
    subprocess.run(["xargs", "-0", "cp", "--parents", "--target-directory", to], cwd=TOP, input=listed, check=True)


def spent():
    """How many seconds of the processor the ended children took."""
    return sum(resource.getrusage(resource.RUSAGE_CHILDREN)[:2])


def test_a_fresh_clone_accepts_a_token_of_ones_own_and_refuses_it_elsewhere(docs, typed, tmp_path):
    """Two commands, in two terminals of one machine."""
    needs("go")
    [(serve, served), (mint, minted)] = typed
    # (go/build may install packages, which needs the network. The one of the session finds all of it done, and Go's own library compiled.)
    subprocess.run([TOP / "go/build"], stdin=subprocess.DEVNULL, check=True, timeout=10 * PATIENCE)
    clone(tmp_path / "clone")
    environment = {**os.environ, "TMPDIR": str(tmp_path)}
    words = ["bash", "-c", f"ip link set lo up 2> /dev/null\n({serve}) > said 2>&1"]
    began, before = time.monotonic(), spent()
    terminal = subprocess.Popen([*by_itself(), *words], cwd=tmp_path / "clone", env=environment, start_new_session=True)
    said = tmp_path / "clone/said"
    try:
        await_(lambda: said.exists() and served[-1] in said.read_text(), f"{serve!r} to say: {served[-1]}", lambda: said.read_text())
        beside = ["nsenter", "--target", str(terminal.pid), "--user", "--net", "--preserve-credentials"] if by_itself() else []
        how = {"stdout": subprocess.PIPE, "stderr": subprocess.STDOUT, "text": True, "timeout": PATIENCE}
        got = subprocess.run([*beside, "bash", "-c", mint], cwd=tmp_path / "clone", **how)
        took = time.monotonic() - began
        assert docs.fits(minted, got.stdout), f"$ {mint}\n{got.stdout}"
        assert got.returncode == 0
        end(terminal, said)
        assert docs.fits(served, said.read_text().split(served[-1])[0] + served[-1]), said.read_text()
        assert min(took, spent() - before) <= MOST
    finally:
        if terminal.poll() is None:
            os.killpg(terminal.pid, signal.SIGKILL)
            terminal.wait()


def end(terminal, said):
    """Ends svidd dev as ^C does, and waits for all of the terminal."""
    os.killpg(terminal.pid, signal.SIGINT)
    terminal.wait(PATIENCE)
    assert all(line.startswith("svidd dev (for development only): ") for line in said.read_text().splitlines()), said.read_text()


def test_the_session_says_each_answer(typed):
    """It shows acceptances, and then a refusal of the same token from another address."""
    [(serve, _), (mint, minted)] = typed
    assert serve.startswith("go/build && ") and "dev" in serve and "--try" in mint
    assert [line.rsplit(": ")[-1] for line in minted if line.startswith("sent from")] == [
        "200 accepted",
        "200 accepted",
        "401 refused Replayed",
    ]
    assert [line.split()[2] for line in minted if line.startswith("sent from")] == ["127.0.0.1:", "127.0.0.1:", "127.0.0.2:"]


def test_the_bundle_is_that_of_the_other_examples():
    of_sidecar = json.loads((TOP / "examples/example.org.json").read_text())
    assert json.loads((TOP / "examples/bundles.json").read_text()) == {"example.org": of_sidecar}


@pytest.mark.parametrize(
    ("change", "status", "said"),
    [
        (lambda token: token, 0, ""),
        (lambda token: token[:-8] + "AAAAAAAA", 1, ""),
        (lambda token: "eyJhbGciOiJFUzM4NCJ9" + token[token.index(".") :], 2, "ES384"),
        (lambda token: "", 1, "refused NotThreeParts"),
    ],
    ids=["good", "bad signature", "another algorithm", "no token"],
)
def test_the_session_verifies_signatures(program, tmp_path, change, status, said):
    """examples/verify/answer.py, by which the session of docs/USING.md makes its table, says yes to a good signature alone."""
    needs("openssl")
    token, bundles = tmp_path / "token", TOP / "examples/bundles.json"
    token.write_text(change((TOP / "examples/token.txt").read_text().strip()) + "\n")
    asked = subprocess.run([program, "candidates", "--bundles", bundles], input=token.read_bytes(), stdout=subprocess.PIPE)
    words = ["/usr/bin/python3", TOP / "examples/verify/answer.py", bundles, token]
    # (a token of another algorithm has no key here: its line is one of a good token's)
    lines = asked.stdout if said != "ES384" else b'00 "ec-1"\n'
    ran = subprocess.run(words, input=lines, stdout=subprocess.PIPE, stderr=subprocess.PIPE)
    assert (ran.returncode, bool(ran.stdout)) == (status, status == 0)
    assert said in ran.stderr.decode() and bool(said) == bool(ran.stderr)
