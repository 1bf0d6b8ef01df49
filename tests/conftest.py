"""What the tests stand on: the program, the test driver and the C library of these sources, and folders to work in."""

import base64
import os
import shutil
import socket
import subprocess
import tempfile
import threading
import time
from contextlib import contextmanager
from pathlib import Path

import pytest

TOP = Path(__file__).resolve().parent.parent
PATIENCE = float(os.environ.get("SVID_TEST_PATIENCE") or 180)


def pytest_addoption(parser):
    parser.addoption("--program", help="the program svid to run; else the one that ./svid runs")
    parser.addoption("--brief", action="store_true", help="leaves out records of 64 MiB, which take long under an emulator")
    parser.addoption("--driver", help="the program svid_script; else the one of these sources")
    parser.addoption("--seed", type=int, default=1, help="chooses what is random")
    parser.addoption("--rounds", type=int, default=3000, help="how many random texts of each kind are read")
    parser.addoption("--events", type=int, default=100_000, help="how many events the simulated groups have")
    parser.addoption("--tokens", type=int, default=400, help="how many tokens the six readers are given")
    parser.addoption("--kills", type=int, default=20, help="how many recipes are killed")


def pytest_terminal_summary(terminalreporter):
    """A line for each skipped test, by which ./test knows of it."""
    for report in terminalreporter.stats.get("skipped", []):
        terminalreporter.write_line(f"{report.nodeid}: skipped: {report.longrepr[2].removeprefix('Skipped: ')}")


def tool(*words):
    """What a tool of the checkout prints. It proves nothing, unless SVID_PROVE says so: then it fails, and says what to do."""
    environment = {"SVID_PROVE": "0", **os.environ}
    ran = subprocess.run([TOP / words[0], *words[1:]], stdin=subprocess.DEVNULL, stdout=subprocess.PIPE, text=True, env=environment)
    assert ran.returncode == 0, f"{words}: status {ran.returncode}"
    return ran.stdout.strip()


def needs(command):
    """Skips the test where a command is not there."""
    if not shutil.which(command):
        pytest.skip(f"the command {command} is not there")


def await_(is_so, what, seen=lambda: ""):
    """Waits for a condition, and gives up after SVID_TEST_PATIENCE seconds."""
    until = time.monotonic() + PATIENCE
    while not is_so():
        assert time.monotonic() < until, f"waited for {what}\n{seen()}"
        time.sleep(0.05)


@contextmanager
def answering(process, what):
    """A process is to say something, or to end. One that does not in SVID_TEST_PATIENCE seconds is killed, and the test fails."""
    is_late = threading.Event()

    def end():
        is_late.set()
        process.kill()

    timer = threading.Timer(PATIENCE, end)
    timer.daemon = True
    timer.start()
    try:
        yield
    finally:
        timer.cancel()
        assert not is_late.is_set(), f"waited for {what}"


def public_jwk(key):
    """The public part of a key of P-256. (PyJWT leaves out zeros at the front of a coordinate, which RFC 7518, section 6.2.1.2, wants: of one key in 128.)"""
    numbers = key.public_key().public_numbers()
    x, y = (base64.urlsafe_b64encode(it.to_bytes(32, "big")).rstrip(b"=").decode() for it in (numbers.x, numbers.y))
    return {"kty": "EC", "crv": "P-256", "x": x, "y": y}


def held_port():
    """A socket with a port of its own. It does not listen, so the system gives the port to nobody else, and a server that names it may listen on it."""
    held = socket.socket()
    held.setsockopt(socket.SOL_SOCKET, socket.SO_REUSEADDR, 1)
    held.bind(("127.0.0.1", 0))
    return held


@pytest.fixture(scope="session")
def session(pytestconfig):
    """A folder for the whole run, which anybody may read."""
    with tempfile.TemporaryDirectory(prefix="svid-tests-", dir=os.environ.get("SVID_TESTS")) as name:
        os.chmod(name, 0o755)
        yield Path(name).resolve()


@pytest.fixture(scope="session")
def program(pytestconfig):
    """The program, without the script around it, which looks at all sources in each run."""
    named = pytestconfig.getoption("--program") or os.environ.get("SVID")
    return Path(named).resolve() if named else TOP / tool("tools/dist", "program")


@pytest.fixture(scope="session")
def driver(pytestconfig):
    """The test driver svid_script, which makes any public call."""
    named = pytestconfig.getoption("--driver")
    return Path(named).resolve() if named else Path(tool("tools/dist", "driver"))


@pytest.fixture(scope="session")
def archive(session):
    """The C library as an archive."""
    tool("tools/dist", "archive", session / "libsvid.a")
    return session / "libsvid.a"


@pytest.fixture(scope="session")
def shared(session):
    """The C library as a shared library."""
    tool("tools/dist", "shared", session / "libsvid.so")
    return session / "libsvid.so"


@pytest.fixture(scope="session")
def failmalloc(session):
    """The library that refuses allocations of the program that it is preloaded to."""
    needs("cc")
    made = session / "failmalloc.so"
    subprocess.run(["cc", "-O2", "-fno-builtin", "-fPIC", "-shared", "-o", made, TOP / "tests/c/failmalloc.c"], check=True)
    return made
