"""Every block of README.md, in order: what it prints is what the page says."""

import contextlib
import fcntl
import http.client
import io
import os
import pathlib
import platform
import re
import shutil
import signal
import subprocess
import sys

import pytest
import svid
import svid.asgi
import svid.wsgi
from making import LEFT, PATIENCE, PATIENT, patient, until

PYTHON = pathlib.Path(__file__).parent.parent
BLOCK = re.compile(r"^```(\w*)\n(.*?)^```$", re.MULTILINE | re.DOTALL)
BLOCKS = BLOCK.findall((PYTHON / "README.md").read_text())


@pytest.fixture
def checkout(tmp_path, monkeypatch):
    """A folder with what the page uses of a checkout."""
    top, left = PYTHON.parents[1], shutil.ignore_patterns(*LEFT)
    for name in "packages/python", "examples":
        shutil.copytree(top / name, tmp_path / name, ignore=left)
    (tmp_path / "dist" / platform.machine()).mkdir(parents=True)
    shutil.copy(os.environ["LIBSVID"], tmp_path / "dist" / platform.machine() / "libsvid.so")
    monkeypatch.chdir(tmp_path)
    return tmp_path


def test_the_page_has_blocks_of_three_kinds():
    kinds = [kind for kind, _ in BLOCKS]
    assert set(kinds) == {"python", "text", "console"}
    assert kinds.count("python") >= 4


def test_python(checkout, monkeypatch):
    monkeypatch.setattr(svid, "Validator", svid.Validator)
    exec(PATIENT)
    names, printed = {}, None
    for kind, text in BLOCKS:
        if kind == "python":
            assert not printed, f"the page does not show {printed!r}"
            with contextlib.redirect_stdout(io.StringIO()) as out:
                exec(compile(text, "README.md", "exec"), names)  # the page's own block
            printed = out.getvalue()
        elif kind == "text":
            assert printed == text
            printed = None


def test_the_page_is_short():
    assert len((PYTHON / "README.md").read_text().split()) <= 1200


@pytest.mark.parametrize(
    "text",
    [
        (PYTHON / "README.md").read_text().partition("## Web services")[2].partition("\n## ")[0],
        svid.asgi.SvidMiddleware.__doc__,
        svid.wsgi.SvidMiddleware.__doc__,
    ],
    ids=["README", "ASGI", "WSGI"],
)
def test_it_says_what_several_workers_accept(text):
    """Who reads of the middleware must learn there that each worker accepts a token."""
    assert "one process" in text and "workers" in text and "svidd" in text and "SIDECAR.md" in text


def test_the_service_accepts_a_token_once(checkout):
    """As the page shows it, in at most fifteen lines of its own, by the command of the page."""
    [service] = [text for kind, text in BLOCKS if kind == "python" and "(hello, validator)" in text]
    assert len([line for line in service.splitlines() if line.strip()]) <= 15
    (checkout / "service.py").write_text(service)
    command = "gunicorn --threads 8 service:app"
    assert f"run `{command}`" in (PYTHON / "README.md").read_text()
    token = pathlib.Path("examples/token.txt").read_text().strip()
    body = '{"reason":"Replayed","result":"refused"}\n'
    replayed = (401, body, 'Bearer error="invalid_token", error_description="Replayed"')
    with served(command) as port:
        accepted = (200, "hello spiffe://example.org/billing/api", None)
        assert [answer(port, it) for it in (token, token)] == [accepted, replayed]
    until(is_left)
    with served(command) as port:
        assert answer(port, token) == replayed


@contextlib.contextmanager
def served(command):
    """The port of a service, whose processes are killed at the end."""
    words = [sys.executable, "-m", *command.split(), "-b", "127.0.0.1:0"]
    begins, log = "Listening at: http://127.0.0.1:", pathlib.Path("said")
    folder = pathlib.Path("patient").resolve()
    folder.mkdir(exist_ok=True)
    environment = patient(folder)
    with open(log, "wb") as said:
        ran = subprocess.Popen(words, stderr=said, env=environment, start_new_session=True)
    try:
        until(lambda: begins in log.read_text() or ran.poll() is not None)
        yield int(log.read_text().partition(begins)[2].split()[0])
    finally:
        os.killpg(ran.pid, signal.SIGKILL)
        ran.wait()


def is_left():
    """Whether nobody holds the state folder any more: a process that is killed ends a bit later."""
    with open("state/lock", "rb") as file:
        try:
            fcntl.flock(file, fcntl.LOCK_EX | fcntl.LOCK_NB)
        except BlockingIOError:
            return False
        return True


def answer(port, token):
    connection = http.client.HTTPConnection("127.0.0.1", port, timeout=PATIENCE)
    with contextlib.closing(connection):
        connection.request("GET", "/", headers={"Authorization": f"Bearer {token}"})
        said = connection.getresponse()
        return said.status, said.read().decode(), said.getheader("WWW-Authenticate")


def test_console(checkout):
    environment = {**os.environ, "PATH": f"/usr/bin:{os.environ['PATH']}"}
    del environment["PYTHONPATH"], environment["LIBSVID"]
    for kind, text in BLOCKS:
        if kind == "console":
            commands = [line[2:] for line in text.splitlines() if line.startswith("$ ")]
            printed = [line for line in text.splitlines() if not line.startswith("$ ")]
            script = "set -e\n" + "\n".join(commands).replace("/tmp/", f"{checkout}/")
            words = ["bash", "-c", script]
            ran = subprocess.run(
                words, env=environment, capture_output=True, timeout=5 * PATIENCE, check=False
            )
            assert ran.returncode == 0, ran.stderr.decode()
            assert ran.stdout.decode().splitlines() == printed
