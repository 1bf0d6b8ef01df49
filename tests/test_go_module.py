"""The Go module, as a service takes it from a proxy: without this checkout, and for most packages without any other module."""

import json
import os
import re
import subprocess
import time
import urllib.error
import urllib.request
import zipfile

import pytest
from conftest import TOP, answering, needs, public_jwk

MODULE = "svid.example/go/v3"
VENDOR = TOP / "go/vendor"
README = (TOP / "go/README.md").read_text()
SERVICE = re.search(r"^## A service\n.*?^```go\n(.*?)^```$", README, re.M | re.S)[1]
ALL = (
    "guard",
    "svid",
    "svidhttp",
    "bundles",
    "journal",
    "claims",
    "claims/local",
    "claims/memory",
    "claims/claimstest",
    "carriers",
    "svidtest",
)
OTHERS = ("claims/redis", "claims/postgres", "claims/nats", "carriers/jetstream", "workload")
# As in go/build: so Go's own library, and the modules of others, are compiled once for all.
COMPILED = "-trimpath -gcflags=all=-dwarf=false -ldflags=-w"


def kept():
    """The folder in which Go keeps what it has compiled. It finds it there by all that went into it, so nothing of this checkout gets into a service."""
    return subprocess.run(["go", "env", "GOCACHE"], capture_output=True, text=True, check=True).stdout.strip()


def version():
    named = TOP / "VERSION"
    return "v" + (named.read_text().strip() if named.exists() else "3.0.0")


def make(folder):
    ran = subprocess.run([TOP / "go/build", "module", folder], capture_output=True, text=True)
    assert ran.returncode == 0, ran.stdout + ran.stderr
    return folder


@pytest.fixture(scope="module")
def room(session):
    return session / "go_module"


@pytest.fixture(scope="module")
def proxy(room):
    """A folder that serves the module."""
    needs("go")
    needs("gcc")
    return make(room / "proxy")


class Service:
    """A service in a folder of its own, and what it is built with."""

    def __init__(self, folder, proxy, room):
        self.folder = folder
        folder.mkdir()
        self.environment = {
            "PATH": os.environ["PATH"],
            "HOME": str(room / "home"),
            "GOPATH": str(room / "gopath"),
            "GOCACHE": kept(),
            "GOGC": "1200",  # (as in go/build)
            "GOPROXY": f"file://{proxy}",
            "GONOSUMDB": "*",
            "GOFLAGS": f"-mod=mod {COMPILED}",
            "GOTOOLCHAIN": "local",
        }

    def go(self, *words, **more):
        return subprocess.run(["go", *words], cwd=self.folder, env={**self.environment, **more}, capture_output=True, text=True)

    def write(self, text):
        (self.folder / "main.go").write_text(text)
        for words in (["mod", "init", "service"], ["get", MODULE]):
            ran = self.go(*words)
            assert ran.returncode == 0, f"{words}: {ran.stderr}"


@pytest.fixture
def service(room, proxy, request):
    return Service(room / request.node.name, proxy, room)


def importing(packages):
    return "package main\n\nimport (\n" + "".join(f'\t_ "{MODULE}/{it}"\n' for it in packages) + ")\n\nfunc main() {}\n"


def test_the_same_sources_make_the_same_bytes(proxy, room):
    names = [f"{MODULE}/@v/{it}" for it in ("list", f"{version()}.info", f"{version()}.mod", f"{version()}.zip")]
    again = make(room / "again")
    assert sorted(str(it.relative_to(proxy)) for it in proxy.rglob("*") if it.is_file()) == sorted(names)
    for name in names:
        assert (proxy / name).read_bytes() == (again / name).read_bytes(), name
    assert (proxy / names[0]).read_text() == version() + "\n"
    assert json.loads((proxy / names[1]).read_text())["Version"] == version()


def test_it_has_the_library_for_both_processors(proxy):
    with zipfile.ZipFile(proxy / f"{MODULE}/@v/{version()}.zip") as archive:
        inside = archive.namelist()
        for path, within in (
            ("packages/c/include/svid.h", "svid.h"),
            ("dist/x86_64/libsvid.a", "libsvid_amd64.a"),
            ("dist/aarch64/libsvid.a", "libsvid_arm64.a"),
        ):
            assert archive.read(f"{MODULE}@{version()}/svid/{within}") == (TOP / path).read_bytes(), path
    assert all(it.startswith(f"{MODULE}@{version()}/") for it in inside)
    assert not [it for it in inside if it.endswith("_test.go") or "/vendor/" in it]


def call(address, token):
    """The status of a request with this token, the body, and the challenge."""
    request = urllib.request.Request(f"http://{address}/", headers={"Authorization": f"Bearer {token}"})
    try:
        with urllib.request.urlopen(request, timeout=180) as answer:
            return answer.status, answer.read().decode(), answer.headers["WWW-Authenticate"]
    except urllib.error.HTTPError as answer:
        return answer.code, answer.read().decode(), answer.headers["WWW-Authenticate"]


def test_the_service_of_the_readme(service, tmp_path):
    jwt = pytest.importorskip("jwt")
    ec = pytest.importorskip("cryptography.hazmat.primitives.asymmetric.ec")
    own = [line for line in SERVICE[SERVICE.index("func main()") :].splitlines() if line]
    assert len(own) <= 15, f"{len(own)} lines"
    service.write(SERVICE)
    ran = service.go("build", "-x", "-o", "service")
    assert ran.returncode == 0, ran.stderr
    assert f"{TOP}/" not in ran.stderr, "the build looks into this checkout"
    assert MODULE in (service.folder / "go.mod").read_text()
    linked = subprocess.run(["ldd", service.folder / "service"], capture_output=True, text=True).stdout
    assert "libcrypto" in linked and "libsvid" not in linked

    key = ec.generate_private_key(ec.SECP256R1())
    bundle = tmp_path / "bundle.json"
    bundle.write_text(json.dumps({"keys": [{**public_jwk(key), "kid": "a", "use": "jwt-svid"}]}))
    claims = {"sub": "spiffe://example.org/web", "aud": "ledger", "exp": int(time.time()) + 3000}
    token = jwt.encode(claims, key, "ES256", {"kid": "a"})

    def started():
        running = subprocess.Popen([service.folder / "service", bundle, "127.0.0.1:0"], cwd=tmp_path, stdout=subprocess.PIPE, text=True)
        with answering(running, "the service to tell its address"):
            return running, running.stdout.readline().split()[-1]

    running, address = started()
    try:
        assert call(address, token) == (200, "hello spiffe://example.org/web\n", None)
        challenge = 'Bearer error="invalid_token", error_description="Replayed"'
        assert call(address, token) == (401, '{"reason":"Replayed","result":"refused"}\n', challenge)
        running.kill()
        running.wait()
        running, address = started()
        assert call(address, token)[0] == 401, "after a restart"
        assert call(address, "x")[0] == 401
    finally:
        running.kill()
        running.wait()


def test_most_packages_need_no_other_module(service):
    service.write(importing(ALL))
    ran = service.go("build", "-o", "service")
    assert ran.returncode == 0, ran.stderr
    assert {line.split()[0] for line in (service.folder / "go.sum").read_text().splitlines()} == {MODULE}


def test_a_service_may_keep_the_sources_of_its_modules(service):
    service.write(importing(ALL))
    for words in (["mod", "vendor"], ["build", "-mod=vendor", "-o", "service"]):
        ran = service.go(*words, GOFLAGS=COMPILED, GOPROXY="off" if "build" in words else service.environment["GOPROXY"])
        assert ran.returncode == 0, f"{words}: {ran.stderr}"


TWICE = f"""package main

import (
    "fmt"
    "os"

    "{MODULE}/svid"
)

func main() {{
    keyring, err := svid.NewKeyring([]byte(os.Args[1]))
    if err != nil {{
        panic(err)
    }}
    validator, err := svid.Open(svid.Options{{Audiences: []string{{"ledger"}}, Bundles: []byte(os.Args[1]), Longest: svid.NoLimit}})
    if err != nil {{
        panic(err)
    }}
    for i := 0; i < 2; i++ {{
        accepted, err := validator.Accept(keyring, svid.Now(), os.Args[2])
        fmt.Println(accepted.ID, err)
    }}
}}
"""


def test_a_service_for_aarch64(service):
    """It is built here, and runs under an emulator. (Go's own library verifies the signature, since Debian has no OpenSSL for it here.)"""
    needs("aarch64-linux-gnu-gcc")
    needs("qemu-aarch64-static")
    service.write(TWICE)
    flags = ["-tags", "gocrypto", "-ldflags", "-w -linkmode external -extldflags -static"]
    ran = service.go("build", *flags, "-o", "service", GOARCH="arm64", CGO_ENABLED="1", CC="aarch64-linux-gnu-gcc")
    assert ran.returncode == 0, ran.stderr
    examples = [(TOP / "examples" / it).read_text().strip() for it in ("bundles.json", "token.txt")]
    ran = subprocess.run(["qemu-aarch64-static", service.folder / "service", *examples], capture_output=True, text=True)
    assert ran.stdout == "spiffe://example.org/billing/api <nil>\n svid: token refused: Replayed\n", ran.stderr


def test_without_cgo_one_line_says_what_is_missing(service):
    service.write(importing(ALL))
    ran = service.go("build", "-o", "service", CGO_ENABLED="0")
    said = [line for line in ran.stderr.splitlines() if "download" not in line]
    assert ran.returncode != 0 and len(said) == 1 and "build_it_with_CGO_ENABLED_1_and_a_C_compiler" in said[0], ran.stderr


def vendored():
    """The modules of go/vendor: of each its path, its version, and the Go that it needs."""
    return re.findall(r"^# (\S+) (\S+)\n## explicit(?:; go (\S+))?$", (VENDOR / "modules.txt").read_text(), re.M)


def serve(proxy, path, number, needed):
    """Serves a module from go/vendor, as one that requires no other: go.mod of this module names them all."""
    folder = proxy / re.sub("[A-Z]", lambda it: "!" + it[0].lower(), path) / "@v"
    folder.mkdir(parents=True)
    mod = f"module {path}\n" + (f"\ngo {needed}\n" if needed else "")
    (folder / f"{number}.mod").write_text(mod)
    (folder / f"{number}.info").write_text(json.dumps({"Version": number}))
    (folder / "list").write_text(f"{number}\n")
    with zipfile.ZipFile(folder / f"{number}.zip", "w") as archive:
        archive.writestr(f"{path}@{number}/go.mod", mod)
        for file in sorted(it for it in (VENDOR / path).rglob("*") if it.is_file()):
            archive.write(file, f"{path}@{number}/{file.relative_to(VENDOR / path)}")


def test_all_packages_with_the_modules_that_they_need(service, room):
    both = make(room / "both")
    for module in vendored():
        serve(both, *module)
    service.environment["GOPROXY"] = f"file://{both}"
    service.write(importing(ALL + OTHERS))
    for words in (["build", "-o", "service"], ["build", "-o", "svidd", f"{MODULE}/cmd/svidd"]):
        ran = service.go(*words)
        assert ran.returncode == 0, ran.stderr
    told = subprocess.run([service.folder / "svidd", "version"], capture_output=True, text=True)
    assert told.returncode == 0, told.stderr


def test_a_fresh_clone_is_built(room):
    """Go and a C compiler are enough for the last commit: no network, no module of another folder, and no package of Debian's Go libraries."""
    needs("go")
    needs("gcc")
    clone, gopath = room / "clone", room / "empty"
    gopath.mkdir(parents=True)
    subprocess.run(["git", "clone", "-q", TOP, clone], check=True)
    environment = {
        "PATH": os.environ["PATH"],
        "HOME": str(room / "home"),
        "GOPATH": str(gopath),
        "GOCACHE": kept(),
        "GOFLAGS": COMPILED,
        "GOGC": "1200",
        "GOENV": "off",
        "GOPROXY": "off",
        "GOTOOLCHAIN": "local",
    }

    def go(*words, **more):
        ran = subprocess.run(["go", *words], cwd=clone / "go", env={**environment, **more}, capture_output=True, text=True)
        assert ran.returncode == 0, f"go {' '.join(words)}: {ran.stderr}"
        return ran.stdout

    go("build", "./...")
    go("vet", "./...")
    listed = "{{if not .Standard}}{{.Dir}}{{end}}"
    folders = {line for line in go("list", "-deps", "-test", "-f", listed, "./...").splitlines() if line}
    assert f"{clone}/go/vendor/github.com/nats-io/nats.go" in folders
    assert [it for it in folders if not it.startswith(f"{clone}/go/")] == []
    assert [it for it in gopath.rglob("*") if it.is_file()] == []
    left = subprocess.run(["git", "status", "--porcelain", "--ignored"], cwd=clone, capture_output=True, text=True, check=True).stdout
    assert left == "", "the build leaves files in the clone"


def test_the_version_and_the_path_agree(room, tmp_path):
    """A version of another major number than the module's path has is an error that says what to do."""
    needs("go")
    (tmp_path / "VERSION").write_text("4.1.4\n")
    environment = {**os.environ, "GOFLAGS": "", "GOPROXY": "off", "CGO_ENABLED": "0"}
    ran = subprocess.run(
        ["go", "run", "./cmd/module", ".", tmp_path, room / "none"], cwd=TOP / "go", env=environment, capture_output=True, text=True
    )
    assert ran.returncode != 0 and "the path of the module must end in /v4" in ran.stderr, ran.stderr
    assert not (room / "none").exists()


def test_every_package_of_the_readme_is_there():
    rows = set(re.findall(r"^\| `([\w/]+)` \|", README, re.M))
    assert rows == {*ALL, *OTHERS, "cmd/svidd"}
    public = {str(it.parent.relative_to(TOP / "go")) for it in (TOP / "go").rglob("*.go") if not it.name.endswith("_test.go")}
    private = re.compile(r"^(internal|vendor|cmd/(cluster|module|svidbench|vendored))(/|$)")
    assert {it for it in public if not private.match(it)} == rows
