"""Small services, one for each language (tests/services), made of nothing but the files of a release, as the people of that language install them.
Each accepts a token once: over a kill, while its bundle changes, and in two processes that share a store. Each refuses what was withdrawn while it was
suspended."""

import json
import os
import select
import shutil
import signal
import socket
import subprocess
import sys
import tempfile
import time
import tomllib
import uuid
from concurrent.futures import ThreadPoolExecutor
from contextlib import ExitStack
from pathlib import Path

import pytest
from conftest import PATIENCE, TOP, await_, held_port, needs, public_jwk
from test_go_module import serve, vendored
from test_packages import rows
from test_release import NEEDED, SPIFFE_ID, VERSION, Room, output

SERVICES = TOP / "tests/services"
POSTGRES = "/usr/lib/postgresql/15/bin"
ACCEPTED = f"accepted {SPIFFE_ID}"
TOKENS = 20


# The installation: each makes the service in a room, and returns the words that run it


def of_go(room):
    shutil.copytree(room.release / "go", room.folder / "proxy")
    for module in vendored():
        serve(room.folder / "proxy", *module)
    shutil.copy(SERVICES / "service.go", room.folder)
    # (Go's own library was compiled with these options before)
    go = {
        "GOPROXY": f"file://{room.folder}/proxy",
        "GOPATH": str(room.folder / "gopath"),
        "GOCACHE": output("go", "env", "GOCACHE").strip(),
        "GONOSUMDB": "*",
        "GOFLAGS": "-mod=mod -trimpath -modcacherw -gcflags=all=-dwarf=false -ldflags=-w",
        "GOTOOLCHAIN": "local",
    }
    room.run("go", "mod", "init", "service", **go)
    room.run("go", "get", f"svid.example/go/v3@v{VERSION}", **go)
    room.run("go", "build", "-o", "service", **go)
    return ["./service"]


def of_python(room):
    wheel = room.take(f"svid-{VERSION}-py3-none-manylinux_2_5_x86_64.whl")
    # (pip is Debian's: to put one into the environment would take longer than all that it does)
    room.run("/usr/bin/python3", "-m", "venv", "--without-pip", "venv")
    pip = ["/usr/bin/python3", "-m", "pip", "--python", "venv/bin/python"]
    room.run(*pip, "install", "--quiet", "--no-index", "--no-deps", wheel)
    [packages] = room.folder.glob("venv/lib/python3*/site-packages")
    needed = "cryptography _cffi_backend psycopg typing_extensions redis async_timeout deprecated Deprecated packaging wrapt"
    for name in needed.split():
        for it in Path("/usr/lib/python3/dist-packages").glob(f"{name}*"):
            (packages / it.name).symlink_to(it)
    assert "No broken requirements" in room.run(*pip, "check")
    assert f"Version: {VERSION}\n" in room.run(*pip, "show", "svid")
    shutil.copy(SERVICES / "service.py", room.folder)
    return ["venv/bin/python", "-I", "service.py"]


CARGO_HOME = """
[source.crates-io]
replace-with = "debian"
[source.debian]
directory = "/usr/share/cargo/registry"
"""


def of_rust(room):
    room.run("tar", "-xf", room.take(f"svid-{VERSION}.crate"))
    for name, text in {
        "cargo/config.toml": CARGO_HOME,
        "src/main.rs": (SERVICES / "main.rs").read_text(),
        "Cargo.toml": f'[package]\nname = "of_the_release"\nversion = "1.0.0"\nedition = "2021"\n[dependencies]\n'
        f'svid = {{ path = "svid-{VERSION}", features = ["openssl", "postgres"] }}\n' + (TOP / "packages/rust/syn.toml").read_text(),
        "build.rs": "fn main() {}\n",
    }.items():
        (room.folder / name).parent.mkdir(exist_ok=True)
        (room.folder / name).write_text(text)
    # (of the compiler that is used here, wherever that is; packages/rust/test compiles the same crates of others in this target)
    tools = Path(output("rustc", "--print", "sysroot").strip()) / "bin"
    target = os.environ.get("SVID_RUST_TARGET", f"{room.folder}/target")
    path = f"{tools}:/usr/sbin:/usr/bin:/sbin:/bin"
    cargo = {"CARGO_HOME": f"{room.folder}/cargo", "CARGO_PROFILE_DEV_DEBUG": "0", "CARGO_TARGET_DIR": target, "PATH": path}
    room.run("cargo", "build", "--quiet", "--offline", CARGO_INCREMENTAL="0", **cargo)
    return [f"{target}/debug/of_the_release"]


def of_node(room):
    (room.folder / "package.json").write_text('{ "name": "service", "private": true }\n')
    words = ["npm", "install", "--silent", "--offline", "--no-audit", "--no-fund", "--no-update-notifier", "--cache", "cache"]
    room.run(*words, room.take(f"svid-{VERSION}.tgz"))
    modules = room.folder / "node_modules"
    assert json.loads((modules / "svid/package.json").read_text())["version"] == VERSION
    output(TOP / "packages/node/clients", room.folder / "debian", "pg", "redis")
    of_postgres = "pg*", "postgres-*", "buffer-writer", "obuf", "packet-reader", "split2", "xtend"
    of_redis = "redis", "@redis", "cluster-key-slot", "generic-pool", "yallist"
    for pattern in *of_postgres, *of_redis:
        for debian in Path("/usr/share/nodejs"), room.folder / "debian/usr/share/nodejs":
            for it in debian.glob(pattern):
                shutil.copytree(it, modules / it.name, dirs_exist_ok=True)
    shutil.copy(SERVICES / "service.mjs", room.folder)
    return ["node", "service.mjs"]


def of_java(room):
    path = ":".join([room.take(f"svid-{VERSION}.jar"), *(f"/usr/share/java/{it}.jar" for it in ("jna", "gson", "postgresql"))])
    shutil.copy(SERVICES / "Service.java", room.folder)
    room.run("javac", "-cp", path, "Service.java")
    return ["java", "-cp", f"{path}:.", f"-Djava.io.tmpdir={room.folder}/tmp", "Service"]


LANGUAGES = {"Go": of_go, "Python": of_python, "Rust": of_rust, "Node": of_node, "Java": of_java}


def which(row):
    """The languages whose package has what a row of docs/PACKAGES.md says."""
    return [it for it in LANGUAGES if rows()[row][it].startswith("yes")]


@pytest.fixture(scope="session")
def release(session):
    """What tests/run release left in the folder SVID_RELEASE, or another release."""
    for command in NEEDED.split():
        needs(command)
    if os.getuid():
        pytest.skip("mounts want root")
    made = Path(os.environ.get("SVID_RELEASE") or session / "release")
    if not (made / "SHA256SUMS").exists():
        output(TOP / "tools/packaging/release", made, umask=0o022, timeout=3600)
    return made


@pytest.fixture(scope="session")
def services(request, release, session):
    """Of each language its room and the words that run its service, once it is built: beside the others."""

    def built(language):
        room = Room(session / f"of_{language.lower()}", release)
        return room, LANGUAGES[language](room)

    params = [it.callspec.params for it in request.session.items if "services" in it.fixturenames]
    asked = {name for it in params for name in it.get("languages", [it.get("language")])}
    with ThreadPoolExecutor() as pool:
        yield {it: pool.submit(built, it) for it in LANGUAGES if it in asked}


class Service:
    """A process of a service. (pytest shows what it writes to standard error where a test fails.)"""

    def __init__(self, room, words, mode, where):
        words, more = room.inside(*words, mode, where, offline=False)
        self.said, self.errors = None, tempfile.TemporaryFile()
        pipes = {"stdin": subprocess.PIPE, "stdout": subprocess.PIPE, "stderr": self.errors}
        self.process = subprocess.Popen(words, text=True, bufsize=1, **pipes, **more)

    def give(self, token):
        assert self.process.poll() is None, f"it ended with status {self.process.returncode}"
        self.process.stdin.write(f"{token}\n")

    def answer(self):
        assert select.select([self.process.stdout], [], [], PATIENCE)[0], f"no answer within {PATIENCE} seconds"
        self.said = self.process.stdout.readline().strip()
        return self.said

    def ask(self, token):
        self.give(token)
        return self.answer()

    def accepts(self, token, what):
        """Shows it tokens that a call makes, until it accepts one."""
        await_(lambda: self.ask(token()) == ACCEPTED, what, self.seen)

    def seen(self):
        """Its last answer, and the end of its standard error."""
        file, most = self.errors.fileno(), 5000
        wrote = os.pread(file, most, max(0, os.fstat(file).st_size - most)).decode(errors="replace")
        return f"{self.process.args[-3:]} answered {self.said!r} last, and wrote:\n{wrote}"

    def kill(self):
        self.process.kill()
        self.process.wait()
        print(self.seen(), file=sys.stderr)


@pytest.fixture
def start(services):
    """Starts a service, which is killed at the end."""
    with ExitStack() as ends:

        def started(language, mode, where):
            made = Service(*services[language].result(), mode, where)
            ends.callback(made.kill)
            return made

        yield started


class Key:
    """A key of example.org, which signs tokens that live for an hour."""

    def __init__(self, name):
        jwt, ec = pytest.importorskip("jwt"), pytest.importorskip("cryptography.hazmat.primitives.asymmetric.ec")
        self.name, self.key = name, ec.generate_private_key(ec.SECP256R1())
        self.entry = public_jwk(self.key) | {"kid": name, "use": "jwt-svid"}
        self.encode = jwt.encode

    def token(self):
        claims = {"sub": SPIFFE_ID, "aud": "ledger", "exp": int(time.time()) + 3600, "jti": uuid.uuid4().hex}
        return self.encode(claims, self.key, "ES256", {"kid": self.name})


def publish(services, language, *keys):
    """Replaces the bundle of a language's service."""
    folder = services[language].result()[0].folder
    (folder / "new.json").write_text(json.dumps({"keys": [it.entry for it in keys]}))
    (folder / "new.json").rename(folder / "example.org.json")


@pytest.mark.parametrize("language", which("state folder"))
def test_once_with_a_state_folder(services, start, language):
    """Over a kill too. A new key counts soon, and so does the loss of one."""
    old, new = Key("old"), Key("new")
    used = [old.token(), new.token()]
    publish(services, language, old)
    service = start(language, "once", "state")
    assert [service.ask(used[0]) for _ in range(2)] == [ACCEPTED, "Replayed"]
    publish(services, language, new)
    service.accepts(lambda: used[1], "a token of the new key to be accepted")
    assert service.ask(old.token()) == "NoKey"
    service.kill()
    publish(services, language, old, new)
    service = start(language, "once", "state")
    assert [service.ask(it) for it in used] == ["Replayed", "Replayed"]


@pytest.fixture(scope="session")
def ends():
    with ExitStack() as stack:
        yield stack


def serves(ends, folder, is_so, *words, **more):
    """Runs a server in a folder until the end of the session, and waits until it is there."""
    with open(folder / "log", "wb") as log:
        server = subprocess.Popen(words, stdin=subprocess.DEVNULL, stdout=log, stderr=log, cwd=folder, **more)
    ends.callback(server.wait, PATIENCE)
    ends.callback(server.send_signal, signal.SIGINT)
    await_(is_so, words[0], (folder / "log").read_text)


@pytest.fixture(scope="session")
def in_postgres(release, session, ends):
    """The address of a database in which an administrator made the group's store, by svidd schema."""
    needs(f"{POSTGRES}/postgres")
    room = Room(session / "in_postgres", release)
    shutil.chown(room.folder, "postgres", "postgres")
    port = str(ends.enter_context(held_port()).getsockname()[1])
    who = {"user": "postgres", "group": "postgres", "extra_groups": []}
    output(f"{POSTGRES}/initdb", "-D", "data", "-U", "postgres", "--auth=trust", "--no-sync", "--locale=C", cwd=room.folder, **who)
    psql = [f"{POSTGRES}/psql", "-q", "-h", "127.0.0.1", "-p", port, "-U", "postgres", "-v", "ON_ERROR_STOP=1", "--single-transaction"]
    roles = "CREATE ROLE svid NOLOGIN; CREATE ROLE service LOGIN IN ROLE svid"
    is_so = lambda: subprocess.run([*psql, "-c", roles], stderr=subprocess.DEVNULL).returncode == 0
    serves(ends, room.folder, is_so, f"{POSTGRES}/postgres", "-D", "data", "-p", port, "-c", "unix_socket_directories=", **who)
    archive = f"svid-{VERSION}-linux-x86_64"
    room.run("tar", "-xf", room.take(f"{archive}.tar.gz"))
    schema = room.run(f"{archive}/bin/svidd", "schema", "--group", "svid", "--longest", "3600", "--role", "svid")
    output(*psql, stdin=None, input=schema.encode())
    return f"127.0.0.1:{port}/postgres?sslmode=disable"


@pytest.fixture(scope="session")
def in_redis(session, ends):
    needs("redis-server")
    # (each claim waits for its disk, which the tests beside this one keep busy)
    memory = Path("/dev/shm")
    folder = Path(ends.enter_context(tempfile.TemporaryDirectory(dir=memory if os.access(memory, os.W_OK) else session)))
    port = ends.enter_context(held_port()).getsockname()[1]
    words = f"redis-server --port {port} --bind 127.0.0.1 --appendonly yes --appendfsync always"
    with socket.socket() as client:
        serves(ends, folder, lambda: client.connect_ex(("127.0.0.1", port)) == 0, *words.split())
    return f"redis://127.0.0.1:{port}"


STORES = [(it, store) for store in ("PostgreSQL", "Redis") for it in which(f"store in {store}")]


@pytest.fixture
def address(request):
    """What a language's service names a store by."""

    def of(language, store):
        if store == "Redis":
            return request.getfixturevalue("in_redis")
        where = request.getfixturevalue("in_postgres")
        return f"jdbc:postgresql://{where}&user=service" if language == "Java" else f"postgres://service@{where}"

    return of


@pytest.mark.parametrize("language, store", STORES)
def test_strict_over_a_store(services, start, address, language, store):
    """Of two processes that are given a token at once, one accepts it, and then none."""
    where = address(language, store)
    key = Key("one")
    publish(services, language, key)
    both = [start(language, "strict", where) for _ in range(2)]
    for it in both:
        it.accepts(key.token, "the store")
    for token in (key.token() for _ in range(TOKENS)):
        for due in ["Replayed", ACCEPTED], ["Replayed", "Replayed"]:
            for it in both:
                it.give(token)
            assert sorted(it.answer() for it in both) == due


@pytest.mark.parametrize("languages", [[*LANGUAGES]], ids=["all"])
def test_what_was_withdrawn_while_a_service_was_suspended(services, start, address, languages):
    """The first token that it is given then is refused, though nobody has told it yet: its last look at the withdrawals is too old."""
    numbers = tomllib.loads((TOP / "lists/postgres.toml").read_text(encoding="utf-8"))["numbers"]
    key = Key("one")
    for it in languages:
        publish(services, it, key)
    suspended = {it: start(it[0], "reuse", address(*it)) for it in STORES}
    others = {store: start("Python", "reuse", address("Python", store)) for _, store in STORES}
    tokens = {it: key.token() for it in STORES}
    for it, service in suspended.items():
        service.accepts(lambda of=it: tokens[of], "a token to be accepted")
        service.process.send_signal(signal.SIGSTOP)
    for it, service in suspended.items():
        assert others[it[1]].ask(f"withdraw {tokens[it]}") == "withdrawn"
        service.give(tokens[it])
    time.sleep(numbers["most_unlooked"] / 1000 + 1)
    for service in suspended.values():
        service.process.send_signal(signal.SIGCONT)
    assert {it: service.answer() for it, service in suspended.items()} == dict.fromkeys(STORES, "Withdrawn")
