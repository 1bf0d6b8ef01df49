"""What tools/packaging/release builds: the same bytes wherever the checkout is, and artifacts that work without it. Each is installed by what its users
install it with, in a folder from where no checkout can be seen and no network be reached, and accepts a token once. Its list names all that is inside."""

import base64
import hashlib
import importlib
import json
import os
import re
import shutil
import subprocess
import sys
import tempfile
import tomllib
from concurrent.futures import ThreadPoolExecutor
from pathlib import Path

import pytest
from conftest import TOP, needs

VERSION = (TOP / "VERSION").read_text().strip()
MACHINES = {"amd64": "x86_64", "arm64": "aarch64"}
ARCHITECTURES = list(MACHINES)
SPIFFE_ID = "spiffe://example.org/billing/api"
# Where Debian has glibc for aarch64, and the emulator that runs programs over it.
EMULATOR = ["qemu-aarch64-static", "-L", "/usr/aarch64-linux-gnu"]
NEEDED = "go cargo npm node cc pkg-config dpkg-deb buildah unshare readelf qemu-aarch64-static aarch64-linux-gnu-gcc man"
JAR = (TOP / "packages/java/build").exists()
NEEDED += " javac java" if JAR else ""
MODULE = "go/build module" in (TOP / "go/build").read_text()
NAMES = [
    *(f"svid_{VERSION}_{it}.deb" for it in ARCHITECTURES),
    *(f"svidd-{VERSION}-{it}.oci.tar" for it in ARCHITECTURES),
    *(f"svid-{VERSION}-linux-{it}.tar.gz" for it in MACHINES.values()),
    *(f"svid-{VERSION}-py3-none-manylinux_{it}.whl" for it in ("2_5_x86_64", "2_17_aarch64")),
    *(
        f"svid-{VERSION}{it}"
        for it in (".crate", ".tgz", ".html", ".spdx.json", ".vex.json", *([".jar", ".pom", "-javadoc.jar", "-sources.jar"] if JAR else []))
    ),
    "SHA256SUMS",
]
# What says something of the other files.
BESIDE = ("SHA256SUMS", ".spdx.json", ".vex.json")


sys.path.insert(0, str(TOP / "tools/packaging"))
VEX = importlib.import_module("vex")
script = importlib.import_module("common").loaded
DOCS = script("tools/docs")


def output(*words, **more):
    ran = subprocess.run([str(it) for it in words], capture_output=True, **({"stdin": subprocess.DEVNULL, "timeout": 1800} | more))
    assert ran.returncode == 0, f"{words}: {(ran.stdout + ran.stderr).decode(errors='replace')[-3000:]}"
    return ran.stdout.decode()


@pytest.fixture(scope="session")
def releases(request, session):
    """Two releases: of this checkout, and of a copy elsewhere without .git, under another umask, time zone and language. The first one stays where
    SVID_RELEASE names a folder for it, which tests/run services and tools/packaging/test take. The other one is built beside the tests of the first
    one, and the last test awaits it."""
    for command in NEEDED.split():
        needs(command)
    if os.getuid():
        pytest.skip("dpkg and mounts want root")
    copy = session / "elsewhere" / "checkout"
    copy.mkdir(parents=True)
    left = ["--exclude=./.git", "--exclude=./out", "--exclude=./crates/*/out"]
    packed = subprocess.Popen(["tar", "-C", TOP, *left, "-cf", "-", "."], stdout=subprocess.PIPE)
    output("tar", "-C", copy, "-xmf", "-", stdin=packed.stdout)
    assert packed.wait() in (0, 1)  # (1 says that a file changed meanwhile)
    (session / "tmp").mkdir()
    epoch = os.environ.get("SOURCE_DATE_EPOCH") or output("git", "-C", TOP, "log", "-1", "--format=%ct").strip()
    other = {"SOURCE_DATE_EPOCH": epoch, "TZ": "Asia/Tokyo", "LC_ALL": "C", "TMPDIR": str(session / "tmp")}
    one = Path(os.environ.get("SVID_RELEASE") or session / "one")

    def release_elsewhere():
        output(copy / "tools/packaging/release", session / "two", env=os.environ | other, umask=0o077, timeout=3600)
        shutil.rmtree(copy)
        return session / "two"

    # (one after the other: side by side each would compile what the other one does)
    output(TOP / "tools/packaging/release", one, umask=0o022, timeout=3600)
    with ThreadPoolExecutor(1) as pool:
        wanted = any(it.name == "test_the_same_bytes_from_another_folder" for it in request.session.items)
        yield one, pool.submit(release_elsewhere) if wanted else None


@pytest.fixture(scope="session")
def release(releases):
    return releases[0]


class Room:
    """A folder from where no checkout can be seen and no network be reached."""

    def __init__(self, folder, release):
        self.folder, self.release = folder, release
        (folder / "tmp").mkdir(parents=True)

    def take(self, name):
        """An artifact, and nothing else of the release."""
        return shutil.copy(self.release / name, self.folder)

    def inside(self, *words, offline=True, **environment):
        """What subprocess is given for a command in it."""
        clean = {
            "PATH": "/usr/sbin:/usr/bin:/sbin:/bin:/usr/local/bin",
            "HOME": str(self.folder),
            "TMPDIR": str(self.folder / "tmp"),
            "LC_ALL": "C.UTF-8",
        }
        hidden = 'mount -t tmpfs none "$1" && ! [ -e "$1/VERSION" ] && shift && exec "$@"'
        words = ["unshare", "--mount", *(["--net"] if offline else []), "sh", "-c", hidden, "-", TOP, *words]
        return words, {"cwd": self.folder, "env": clean | environment}

    def run(self, *words, given="", **environment):
        words, more = self.inside(*words, **environment)
        return output(*words, **more, stdin=None, input=given.encode())

    def debian(self, arch):
        """A folder in which dpkg has installed the package."""
        root = self.folder / f"root-{arch}"
        for name in "info", "updates", "triggers":
            (root / "var/lib/dpkg" / name).mkdir(parents=True)
        # (its dpkg knows what this system has; that has no packages for arm64)
        shutil.copy("/var/lib/dpkg/status", root / "var/lib/dpkg/status")
        foreign = ["--force-architecture", "--force-depends"] if arch == "arm64" else []
        words = ["dpkg", f"--root={root}", "--force-script-chrootless", "--log=/dev/null", *foreign]
        self.run(*words, "-i", self.take(f"svid_{VERSION}_{arch}.deb"))
        return root


@pytest.fixture
def room(release, tmp_path):
    made = Room(tmp_path, release)
    bundles = json.loads((TOP / "examples/bundles.json").read_text())
    (made.folder / "example.org.json").write_text(json.dumps(bundles["example.org"]))
    return made


@pytest.fixture(scope="session")
def token():
    return (TOP / "examples/token.txt").read_text()


VERIFY = "verify --audience ledger --bundle example.org="


def says_who(line):
    return json.loads(line)["sub"]


# The whole


def test_what_is_there(release):
    found = {it.relative_to(release).as_posix() for it in release.rglob("*") if it.is_file()}
    assert {it for it in found if not it.startswith("go/")} == {*NAMES}
    assert any(it.startswith("go/") for it in found) == MODULE


def test_the_sums(release):
    output("sha256sum", "--quiet", "--strict", "-c", "SHA256SUMS", cwd=release)
    named = re.findall(r"^[0-9a-f]{64}  (.*)$", (release / "SHA256SUMS").read_text(), re.M)
    assert sorted([*named, "SHA256SUMS"]) == sorted(it.relative_to(release).as_posix() for it in release.rglob("*") if it.is_file())


def refusal(*words):
    """What tools/packaging/release says where it builds nothing."""
    ran = subprocess.run(words, stdin=subprocess.DEVNULL, capture_output=True, text=True, timeout=600)
    assert (ran.returncode, ran.stdout) == (1, "")
    return ran.stderr


def test_a_folder_that_is_no_release_stays(tmp_path):
    (tmp_path / "mine").write_text("mine")
    assert f"{tmp_path} is there, and is no release" in refusal(TOP / "tools/packaging/release", tmp_path)
    assert [it.name for it in tmp_path.iterdir()] == ["mine"]


def test_a_folder_for_a_package_is_made(tmp_path):
    """As by `tools/packaging/build out` in a fresh checkout."""
    shutil.copytree(TOP / "tools/packaging", tmp_path / "tools/packaging", ignore=shutil.ignore_patterns("__pycache__"))
    shutil.copy(TOP / "VERSION", tmp_path)
    (tmp_path / "install").write_text("#!/bin/sh\nexit 1\n")
    (tmp_path / "install").chmod(0o755)
    said = subprocess.run(
        ["tools/packaging/build", "a/out"], cwd=tmp_path, env=os.environ | {"SOURCE_DATE_EPOCH": "0"}, capture_output=True, text=True
    )
    assert said.stderr == "tools/packaging/build: ./install failed\n" and (tmp_path / "a/out").is_dir()
    said = subprocess.run(["tools/packaging/build", "a", "b"], cwd=tmp_path, capture_output=True, text=True)
    assert said.returncode == 2 and not (tmp_path / "b").exists()


def test_no_release_of_other_sources(tmp_path):
    shutil.copytree(TOP / "tools", tmp_path / "tools", ignore=shutil.ignore_patterns("__pycache__"))
    shutil.copy(TOP / "VERSION", tmp_path)
    assert "dist/ was not built from these sources: run ./prove --release" in refusal(tmp_path / "tools/packaging/release")
    assert not (tmp_path / "out").exists()


@pytest.fixture(scope="session")
def unpacked(release, session):
    """The files in each artifact, by the tools that users have for it."""
    found = {}
    for path in sorted(it for it in release.rglob("*") if it.is_file()):
        name = path.relative_to(release).as_posix()
        to = session / "unpacked" / name.replace("/", "_")
        to.mkdir(parents=True)
        if name.endswith(".deb"):
            output("dpkg-deb", "--raw-extract", path, to)
        elif name.endswith(".oci.tar"):
            (to.parent / "oci").mkdir()
            output("tar", "-C", to.parent / "oci", "-xf", path)
            for it in (to.parent / "oci/blobs/sha256").iterdir():
                if it.read_bytes()[:2] == b"\x1f\x8b":
                    output("tar", "-C", to, "-xf", it)
            shutil.rmtree(to.parent / "oci")
        elif name.endswith((".tar.gz", ".tgz", ".crate")):
            output("tar", "-C", to, "-xf", path)
        elif name.endswith((".whl", ".jar", ".zip")):
            output(sys.executable, "-m", "zipfile", "-e", path, to)
        else:
            shutil.copy(path, to)
        files = {it.relative_to(to).as_posix(): it for it in to.rglob("*") if it.is_file() and not it.is_symlink()}
        found[name] = {f"./{name}" if path.read_bytes() == it.read_bytes() else f"./{name}/{inner}": it for inner, it in files.items()}
    return found


def test_no_folder_of_the_build_is_named(unpacked, session):
    named = [
        inner
        for files in unpacked.values()
        for inner, path in files.items()
        if any(f"{it}/".encode() in path.read_bytes() for it in (TOP, session))
    ]
    assert named == []


def test_the_list_names_each_file_with_its_sum(release, unpacked):
    listed = json.loads((release / f"svid-{VERSION}.spdx.json").read_text())
    due = {
        inner: hashlib.sha256(path.read_bytes()).hexdigest()
        for name, files in unpacked.items()
        if not name.endswith(BESIDE)
        for inner, path in files.items()
    }
    sums = {it["fileName"]: {one["algorithm"]: one["checksumValue"] for one in it["checksums"]} for it in listed["files"]}
    assert {name: it["SHA256"] for name, it in sums.items()} == due
    artifacts = {it["packageFileName"]: it["checksums"][1]["checksumValue"] for it in listed["packages"] if "packageFileName" in it}
    files = {f"./{it}": hashlib.sha256((release / it).read_bytes()).hexdigest() for it in unpacked}
    assert artifacts == {name: it for name, it in files.items() if not name.endswith(BESIDE)}


def test_the_list_is_of_the_form_of_spdx(release):
    listed = json.loads((release / f"svid-{VERSION}.spdx.json").read_text())
    wanted = {
        "": "spdxVersion dataLicense SPDXID name documentNamespace creationInfo",
        "packages": "SPDXID name versionInfo downloadLocation filesAnalyzed licenseConcluded licenseDeclared copyrightText",
        "files": "SPDXID fileName checksums licenseConcluded licenseInfoInFiles copyrightText",
        "relationships": "spdxElementId relationshipType relatedSpdxElement",
    }
    for part, fields in wanted.items():
        for it in listed[part] if part else [listed]:
            assert {*fields.split()} <= it.keys(), it
    assert (listed["spdxVersion"], listed["dataLicense"]) == ("SPDX-2.3", "CC0-1.0")
    ids = [it["SPDXID"] for it in [listed, *listed["packages"], *listed["files"]]]
    assert len(ids) == len({*ids}) and all(re.fullmatch(r"SPDXRef-[A-Za-z0-9.-]+", it) for it in ids)
    ends = {it[end] for it in listed["relationships"] for end in ("spdxElementId", "relatedSpdxElement")}
    assert ends == {*ids}
    for it in listed["packages"]:
        assert re.fullmatch(r"NOASSERTION|[A-Za-z0-9.-]+( (AND|OR) [A-Za-z0-9.-]+)*", it["licenseDeclared"])
        assert it["filesAnalyzed"] == ("packageVerificationCode" in it)
    from_debian = {it["name"] for it in listed["packages"] if it.get("supplier") == "Organization: Debian"}
    assert {"openssl", "glibc", "go", "github.com/lib/pq"} <= from_debian and "rattle-kit" not in from_debian


def libraries(release, name):
    """What the list says that an artifact is made of, each with its version."""
    listed = json.loads((release / f"svid-{VERSION}.spdx.json").read_text())
    by_id = {it["SPDXID"]: it for it in listed["packages"]}
    own = next(it["SPDXID"] for it in listed["packages"] if it["name"] == name)
    inside = [it["relatedSpdxElement"] for it in listed["relationships"] if it["spdxElementId"] == own]
    return {by_id[it]["name"]: by_id[it]["versionInfo"] for it in inside if it in by_id}


@pytest.mark.parametrize("arch", ARCHITECTURES)
def test_the_list_names_what_is_linked(release, arch):
    kit = (TOP / "dist/KIT").read_text().strip()
    form = "{{with .Module}}{{if .Version}}{{.Path}} {{.Version}}{{end}}{{end}}"
    asked = os.environ | {"GOFLAGS": "", "GOPROXY": "off"}
    listed = output("go", "list", "-mod=vendor", "-deps", "-f", form, "./cmd/svidd", cwd=TOP / "go", env=asked)
    modules = dict(line.split() for line in listed.splitlines() if line)
    assert modules["github.com/nats-io/nats.go"]
    go = re.search(r"go([\d.]+)", output("go", "version"))[1]
    image = libraries(release, f"svidd-{VERSION}-{arch}.oci.tar")
    package = libraries(release, f"svid_{VERSION}_{arch}.deb")
    assert package.items() <= image.items()
    assert {it: of for it, of in package.items() if not it.startswith("rattle-kit/")} == {**modules, "go": go, "rattle-kit": kit}
    openssl = {} if arch == "arm64" else {"openssl": output("dpkg-query", "-W", "-f", "${Version}", "libssl-dev")}
    assert image.keys() - package.keys() == {"glibc", "libgcc", "ca-certificates", *openssl}
    assert openssl.items() <= image.items()
    module = [it.relative_to(release).as_posix() for it in release.glob("go/**/*.zip")]
    assert len(module) == MODULE
    for name in f"svid-{VERSION}.crate", f"svid-{VERSION}.tgz", *([f"svid-{VERSION}.jar"] if JAR else []), *module:
        found = libraries(release, name)
        assert found["rattle-kit/base64"] == kit and all(it.startswith("rattle-kit") for it in found), name


# The Debian packages


@pytest.mark.parametrize("arch", ARCHITECTURES)
def test_the_debian_package(room, token, arch):
    root = room.debian(arch)
    emulator = EMULATOR if arch == "arm64" else []
    assert room.run(*emulator, root / "usr/bin/svid", "id", SPIFFE_ID) == "domain example.org\npath /billing/api\n"
    assert room.run(*emulator, root / "usr/bin/svidd", "version").startswith(f"svidd {VERSION} (libsvid {VERSION}, ")
    said = room.run(*emulator, root / "usr/bin/svidd", *f"{VERIFY}{room.folder}/example.org.json".split(), given=token)
    assert says_who(said) == SPIFFE_ID
    for name in "svid", "svidd":
        for path in f"bash-completion/completions/{name}", f"zsh/site-functions/_{name}", f"fish/vendor_completions.d/{name}.fish":
            assert (root / "usr/share" / path).stat().st_size > 100
    for page in "man1/svid.1.gz", "man8/svidd.8.gz":
        assert "SYNOPSIS" in room.run("man", "-P", "cat", "-l", root / "usr/share/man" / page)
    unit = (root / "usr/lib/systemd/system/svidd.service").read_text()
    assert (
        "\nExecReload=/usr/bin/svidd reload --config /etc/svidd/svidd.toml\n" in unit
        and "\nRestart=always\n" in unit
        and "/usr/local" not in unit
    )
    # (every user can read the options, since the user of svidd is made at its start: passwords have a file of root's)
    assert "\nDynamicUser=yes\n" in unit and "\nEnvironmentFile=-/etc/svidd/svidd.env\n" in unit
    assert "2.0.0" in room.run("zcat", root / "usr/share/doc/svid/changelog.gz")


@pytest.mark.parametrize("arch", ARCHITECTURES)
def test_what_the_package_depends_on(room, arch):
    root = room.debian(arch)
    programs = [root / "usr/bin/svid", root / "usr/bin/svidd", root / f"usr/lib/{MACHINES[arch]}-linux-gnu/libsvid.so.{VERSION}"]
    said = room.run("readelf", "--wide", "--file-header", "--dynamic", "--version-info", *programs)
    assert {*re.findall(r"Machine: +(.*)", said)} == {"AArch64" if arch == "arm64" else "Advanced Micro Devices X86-64"}
    linked = {*re.findall(r"\(NEEDED\) +Shared library: \[(.*?)]", said)}
    newest = {name: max(map(numbers, re.findall(rf"Name: {name}_([\d.]+)", said)), default=None) for name in ("GLIBC", "OPENSSL")}
    due = dict(re.findall(r"(\w+) \(>= ([\d.]+)\)", room.run("dpkg-deb", "-f", f"svid_{VERSION}_{arch}.deb", "Depends")))
    # (the loader is of libc6 too)
    assert linked - {"ld-linux-x86-64.so.2"} == {"libc.so.6"} | ({"libcrypto.so.3"} if "libssl3" in due else set())
    assert newest == {"GLIBC": numbers(due["libc6"]), "OPENSSL": numbers(due["libssl3"]) if "libssl3" in due else None}


def numbers(version):
    return tuple(map(int, version.split(".")))


def test_options_that_were_changed_stay(room):
    root = room.debian("amd64")
    options = root / "etc/svidd/svidd.toml"
    assert not re.search(r"^[^#\n]", options.read_text(), re.M)
    options.write_text('audience = ["mine"]\n')
    dpkg = ["dpkg", f"--root={root}", "--force-script-chrootless", "--log=/dev/null"]
    room.run(*dpkg, "-i", f"svid_{VERSION}_amd64.deb")
    assert options.read_text() == 'audience = ["mine"]\n'
    state = root / "var/lib/private/svidd"
    state.mkdir(parents=True)
    room.run(*dpkg, "-r", "svid")
    assert options.read_text() == 'audience = ["mine"]\n' and not (root / "usr/bin/svidd").exists()
    assert "/var/lib/private/svidd stays" in room.run(*dpkg, "-P", "svid")
    assert state.is_dir() and not (root / "etc/svidd").exists()


RELOAD = "systemctl --system daemon-reload"
UPDATE = "deb-systemd-helper update-state svidd.service"
ASKED = "deb-systemd-helper debian-installed svidd.service"
ENABLED = [ASKED, "deb-systemd-helper --quiet was-enabled svidd.service", "deb-systemd-helper enable svidd.service"]


@pytest.mark.parametrize(
    "call, enabled, due",
    [
        ("postinst configure", False, [ASKED, UPDATE, RELOAD]),
        ("postinst configure 0.3.0", False, [ASKED, UPDATE, RELOAD, "deb-systemd-invoke restart svidd.service"]),
        ("postinst configure 0.3.0", True, [*ENABLED, UPDATE, RELOAD, "deb-systemd-invoke restart svidd.service"]),
        ("postinst triggered ldconfig", True, []),
        ("prerm remove", True, ["deb-systemd-invoke stop svidd.service"]),
        ("prerm upgrade 2.1.0", True, []),
        ("postrm upgrade 2.1.0", True, []),
        ("postrm remove", True, [RELOAD]),
        ("postrm purge", True, ["deb-systemd-helper purge svidd.service", RELOAD]),
    ],
)
def test_a_script_of_the_package(room, call, enabled, due):
    """Under a systemd that runs: what it is asked to do."""
    room.run("dpkg-deb", "-e", room.take(f"svid_{VERSION}_amd64.deb"), "DEBIAN")
    fakes = room.folder / "fakes"
    fakes.mkdir()
    for name in "systemctl", "deb-systemd-helper", "deb-systemd-invoke":
        status = 0 if enabled or name != "deb-systemd-helper" else '$([ "$1" = update-state ]; echo $?)'
        (fakes / name).write_text(f'#!/bin/sh\necho "{name} $*" >>{room.folder}/calls\nexit {status}\n')
        (fakes / name).chmod(0o755)
    (room.folder / "calls").touch()
    script, *words = call.split()
    systemd = f'mount -t tmpfs none /run && mkdir -p /run/systemd/system && PATH={fakes}:$PATH && exec "$@"'
    room.run("sh", "-c", systemd, "-", f"DEBIAN/{script}", *words)
    assert (room.folder / "calls").read_text().splitlines() == due


# The archives with the programs and the library


@pytest.mark.parametrize("arch", ARCHITECTURES)
def test_the_programs_and_the_library(room, token, arch):
    name = f"svid-{VERSION}-linux-{MACHINES[arch]}"
    room.run("tar", "-xf", room.take(f"{name}.tar.gz"))
    folder = room.folder / "elsewhere"
    (room.folder / name).rename(folder)
    emulator = EMULATOR if arch == "arm64" else []
    assert room.run(*emulator, folder / "bin/svid", "id", SPIFFE_ID) == "domain example.org\npath /billing/api\n"
    said = room.run(*emulator, folder / "bin/svidd", *f"{VERIFY}example.org.json".split(), given=token)
    assert says_who(said) == SPIFFE_ID
    shutil.copy(folder / "share/doc/svid/examples/embed/use.c", room.folder)
    flags = room.run("pkg-config", "--cflags", "--libs", "svid", PKG_CONFIG_PATH=str(folder / "lib/pkgconfig")).split()
    assert room.run("pkg-config", "--modversion", "svid", PKG_CONFIG_PATH=str(folder / "lib/pkgconfig")) == f"{VERSION}\n"
    compiler = "aarch64-linux-gnu-gcc" if arch == "arm64" else "cc"
    for built, words in ("shared", flags), ("alone", [flags[0], folder / "lib/libsvid.a"]):
        room.run(compiler, "-o", built, "use.c", *words)
        library = ["-E", f"LD_LIBRARY_PATH={folder}/lib"] if emulator else []
        said = room.run(*emulator, *library, f"./{built}", "id", SPIFFE_ID, LD_LIBRARY_PATH="" if emulator else str(folder / "lib"))
        assert said == "domain example.org\npath /billing/api\n"
    if not emulator:  # (OpenSSL for aarch64 is not there)
        examples = folder / "share/doc/svid/examples/embed"
        room.run(
            compiler, "-o", "live", examples / "live.c", examples / "verify.c", flags[0], folder / "lib/libsvid.a", "-lcrypto", "-pthread"
        )
    for it in "kubernetes/service/pod.yaml", "prometheus/rules.yaml", "grafana/svidd.json", "svidd.service", "nginx-site.conf":
        assert (folder / "share/doc/svid/go/deploy" / it).read_bytes() == (TOP / "go/deploy" / it).read_bytes()


# The documents in them


@pytest.mark.parametrize(
    "name, usr", [(f"svid_{VERSION}_amd64.deb", "usr"), (f"svid-{VERSION}-linux-x86_64.tar.gz", f"svid-{VERSION}-linux-x86_64")]
)
def test_each_link_of_a_document_leads_somewhere(room, name, usr):
    """To a file of the package, and where it names a heading, to one that is there; or to an address."""
    room.run(*(["dpkg-deb", "-x", room.take(name), "."] if name.endswith(".deb") else ["tar", "-xf", room.take(name)]))
    root = (room.folder / usr).resolve()
    documents = sorted((root / "share/doc/svid").rglob("*.md"))
    # (these paths stay within a major version, wherever the folders are in the repository)
    kept = (
        "README.md CHANGELOG.md docs/INSTALL.md docs/SIDECAR.md go/README.md python/README.md rust/README.md node/README.md java/README.md"
    )
    kept = {*kept.split(), "page/README.md", "cases/README.md", "vectors/README.md", "bench/README.md"}
    assert kept <= {it.relative_to(root / "share/doc/svid").as_posix() for it in documents}
    assert (root / "share/doc/svid/include/svid.h").resolve() == root / "include/svid.h"
    links = [(it, link) for it in documents for link in re.findall(r"\]\(([^)\s]+)\)", it.read_text()) if not re.match(r"\w+:", link)]
    assert len(links) > 300
    lost = []
    for it, link in links:
        path, _, heading = link.partition("#")
        target = (it.parent / path).resolve() if path else it
        if not target.is_relative_to(root) or not target.exists() or heading and heading not in DOCS.anchors(target):
            lost.append(f"{it.relative_to(root)}: {link}")
    assert lost == []


# The signature


def test_a_signature_of_the_sums(tmp_path):
    """A dry run, with keys that are made here."""
    needs("gpg")
    needs("gpgv")
    for it in "tools", "VERSION":
        (shutil.copytree if (TOP / it).is_dir() else shutil.copy)(TOP / it, tmp_path / it)
    release = tmp_path / "release"
    release.mkdir()
    (release / "file").write_text("file\n")
    (release / "SHA256SUMS").write_text(output("sha256sum", "file", cwd=release))
    # (a socket of gpg's agent wants a short path)
    with tempfile.TemporaryDirectory() as home:
        gpg = ["gpg", "--homedir", home, "--batch", "--quiet", "--pinentry-mode=loopback"]
        environment = os.environ | {"GNUPGHOME": home}
        try:
            for name in "owner@example.org", "other@example.org":
                output(*gpg, "--passphrase", "", "--quick-generate-key", name, "ed25519", "sign", "never")
            words = [tmp_path / "tools/packaging/release", "--sign"]

            def refused(name):
                ran = subprocess.run(
                    [*words, name, release], env=environment, stdin=subprocess.DEVNULL, capture_output=True, text=True, timeout=600
                )
                assert ran.returncode == 1 and not (release / "SHA256SUMS.asc").exists(), ran.stderr
                return ran.stderr

            assert "write your public key to it (gpg --armor --export KEY), and commit it" in refused("owner@example.org")
            (tmp_path / "tools/packaging/release-key.asc").write_text(output(*gpg, "--armor", "--export", "owner@example.org"))
            assert "is not the key that signed. Nothing is signed" in refused("other@example.org")
            (release / "file").write_text("another\n")
            assert "file: FAILED" in refused("owner@example.org")
            (release / "file").write_text("file\n")
            assert output(*words, "owner@example.org", release, env=environment) == f"{release}/SHA256SUMS.asc\n"
        finally:
            subprocess.run(["gpgconf", "--homedir", home, "--kill", "all"], check=False)
    # What INSTALL.md says to do, as somebody who has nothing but the public key.
    with tempfile.TemporaryDirectory() as home:
        [block] = re.findall(r"```\n(gpg --import .*?)```", (TOP / "docs/INSTALL.md").read_text(), re.S)
        shutil.copy(tmp_path / "tools/packaging/release-key.asc", release)
        script = ["bash", "-ec", block]
        assert (
            "Good signature"
            in subprocess.run(script, cwd=release, env=os.environ | {"GNUPGHOME": home}, capture_output=True, text=True, check=True).stderr
        )
        (release / "SHA256SUMS").write_text((release / "SHA256SUMS").read_text() + "\n")
        assert subprocess.run(script, cwd=release, env=os.environ | {"GNUPGHOME": home}, capture_output=True, check=False).returncode
        subprocess.run(["gpgconf", "--homedir", home, "--kill", "all"], check=False)


# The known faults of others


def test_what_is_said_of_known_faults(release):
    """Of the form of OpenVEX 0.2.0, of each row, and of each artifact that has svidd."""
    said = json.loads((release / f"svid-{VERSION}.vex.json").read_text())
    assert {"@context", "@id", "author", "timestamp", "version", "statements"} <= said.keys()
    rows = tomllib.loads((TOP / "tools/packaging/faults.toml").read_text())["fault"]
    assert [it["vulnerability"]["name"] for it in said["statements"]] == [it["names"][0] for it in rows]
    machines = [f"svid_{VERSION}_{it}.deb" for it in ARCHITECTURES] + [f"svidd-{VERSION}-{it}.oci.tar" for it in ARCHITECTURES]
    machines += [f"svid-{VERSION}-linux-{it}.tar.gz" for it in MACHINES.values()]
    due = {f"pkg:generic/{it}@{VERSION}": hashlib.sha256((release / it).read_bytes()).hexdigest() for it in machines}
    for it in said["statements"]:
        assert {one["@id"]: one["hashes"]["sha-256"] for one in it["products"]} == due
        wanted = {"not_affected": {"justification", "impact_statement"}, "affected": {"action_statement", "status_notes"}, "fixed": set()}
        assert it.keys() == {"vulnerability", "products", "status"} | wanted[it["status"]], it


ROW = {"names": ["CVE-1"], "of": "stdlib", "fixed": "1.20.3", "packages": ["html/template"]}
SAID = {"because": "It is not called.", "how": "vulnerable_code_not_in_execute_path"}


@pytest.mark.parametrize(
    "more, version, names, due",
    [
        ({}, "1.19.8", {"html/templates.F"}, "vulnerable_code_not_present"),
        ({}, "1.19.8", {"html/template.F"}, "Say in its row whether the fault is reached"),
        (SAID, "1.19.8", {"html/template.F"}, "vulnerable_code_not_in_execute_path"),
        (SAID | {"do": "Wait."}, "1.19.8", {"html/template.F"}, "Say in its row whether the fault is reached"),
        (SAID | {"how": "luck"}, "1.19.8", {"html/template.F"}, "Say in its row whether the fault is reached"),
        (SAID, "1.19.8", {"main.main"}, "Take `because` out of its row"),
        ({"because": "It is.", "do": "Wait."}, "1.19.8", {"html/template.F"}, "affected"),
        ({}, "1.20.3", {"html/template.F"}, "fixed"),
        ({}, "1.20.10", {"html/template.F"}, "fixed"),
        ({"since": "1.20.0"}, "1.19.8", {"html/template.F"}, "vulnerable_code_not_present"),
        ({"of": "example.org/module"}, "1.19.8", {"html/template.F"}, "component_not_present"),
        ({"packages": [], "functions": ["a.(*B).C"]}, "1.19.8", {"a.(*B).CD"}, "vulnerable_code_not_present"),
        ({"packages": [], "functions": ["a.(*B).C"]}, "1.19.8", {"a.(*B).C"}, "Say in its row whether the fault is reached"),
    ],
)
def test_a_fault_by_what_a_program_has_in_it(more, version, names, due):
    """What gets into a program, and is said not to be there, ends a release."""
    # (another program without it changes nothing)
    programs = [({"stdlib": version}, {"main.main"}), ({"stdlib": version}, names)]
    if due.startswith(("Say", "Take")):
        with pytest.raises(SystemExit, match=due):
            VEX.statement(ROW | more, programs)
    else:
        said = VEX.statement(ROW | more, programs)
        assert said.get("justification", said["status"]) == due


@pytest.mark.parametrize("more, versions", [({}, ("1.20.3", "1.19.8")), ({"since": "1.19.9"}, ("1.19.8", "1.19.10"))])
def test_a_fault_that_one_program_still_has(more, versions):
    """It is neither fixed nor absent, whatever the other one has."""
    one, other = [({"stdlib": version}, {"html/template.F"}) for version in versions]
    for programs in [one, other], [other, one]:
        with pytest.raises(SystemExit, match="Say in its row whether the fault is reached"):
            VEX.statement(ROW | more, programs)


def test_a_program_says_what_is_in_it(release, tmp_path):
    output("dpkg-deb", "-x", release / f"svid_{VERSION}_arm64.deb", tmp_path)
    modules, names = VEX.inside(tmp_path / "usr/bin/svidd")
    assert modules["stdlib"] == re.search(r"go([\d.]+)", output("go", "version"))[1] and modules["github.com/lib/pq"]
    assert {"main.main", "net/http.(*Client).do", "github.com/nats-io/nats.go.Connect"} <= names


# The images


@pytest.mark.parametrize("kind", ["oci-archive", "docker-archive"])
@pytest.mark.parametrize("arch", ARCHITECTURES)
def test_the_image(room, token, arch, kind):
    image = room.take(f"svidd-{VERSION}-{arch}.oci.tar")
    buildah = ["buildah", "--storage-driver=vfs", f"--root={room.folder}/store", f"--runroot={room.folder}/run"]
    # (as Podman and containerd name it; of a docker-archive they give the name another registry)
    tag = {"oci-archive": f":{VERSION}", "docker-archive": ""}[kind]
    room.run(*buildah, "pull", "--arch", arch, f"{kind}:{image}{tag}")
    registry = {"oci-archive": "docker.io/library", "docker-archive": "localhost"}[kind]
    assert room.run(*buildah, "images", "--format", "{{.Name}}:{{.Tag}}") == f"{registry}/svidd:{VERSION}\n"
    container = room.run(*buildah, "from", "--pull-never", "--arch", arch, f"svidd:{VERSION}").strip()
    config = json.loads(room.run(*buildah, "inspect", "--type=container", container))["OCIv1"]
    assert config["architecture"] == arch
    assert config["config"]["User"] == "65532:65532" and config["config"]["Entrypoint"] == ["/usr/local/bin/svidd"]
    assert config["config"]["Labels"]["org.opencontainers.image.version"] == VERSION
    root = Path(room.run(*buildah, "mount", container).strip())
    (root / "given").mkdir()
    shutil.copy(room.folder / "example.org.json", root / "given")
    words = ["/usr/local/bin/svidd", *f"{VERIFY}/given/example.org.json".split()]
    if arch == "arm64":
        shutil.copy(shutil.which("qemu-aarch64-static"), root / "given/qemu")
        said = room.run("chroot", "--userspec=65532:65532", root, "/given/qemu", *words, given=token)
    else:
        said = room.run(*buildah, "run", "--isolation=chroot", container, "--", *words, given=token)
    assert says_who(said) == SPIFFE_ID
    assert (root / "var/lib/svidd").stat().st_uid == (root / "run/svidd").stat().st_uid == 65532


# The wheels (tests/test_services.py is about the packages for languages)

LOADER = """
#include <dlfcn.h>
#include <stdio.h>
int main(int count, char **words) {
    void *library = dlopen(words[count - 1], RTLD_NOW);
    unsigned (*version)(void) = library ? (unsigned (*)(void))dlsym(library, "svid_version") : NULL;
    if (!version) return puts(dlerror()), 1;
    printf("%u\\n", version());
}
"""


def test_the_wheel_for_aarch64(room):
    """pip takes it for that platform alone, and its library is loaded there."""
    room.take(f"svid-{VERSION}-py3-none-manylinux_2_17_aarch64.whl")
    install = [
        "/usr/bin/python3",
        "-m",
        "pip",
        "install",
        "--quiet",
        "--no-index",
        "--no-deps",
        "--find-links",
        ".",
        "--only-binary",
        ":all:",
    ]
    room.run(*install, "--platform", "manylinux_2_17_aarch64", "--target", "taken", f"svid=={VERSION}")
    with pytest.raises(AssertionError, match="No matching distribution"):
        room.run(*install, "--platform", "manylinux_2_17_x86_64", "--target", "other", f"svid=={VERSION}")
    (room.folder / "load.c").write_text(LOADER)
    room.run("aarch64-linux-gnu-gcc", "-o", "load", "load.c")
    major, minor, patch = numbers(VERSION)
    assert room.run(*EMULATOR, "./load", "taken/svid/libsvid.so") == f"{10000 * major + 100 * minor + patch}\n"


@pytest.mark.parametrize("it", [it for it in NAMES if it.endswith(".whl")])
def test_what_is_in_a_wheel_is_recorded(unpacked, it):
    files = {name.removeprefix(f"./{it}/"): path.read_bytes() for name, path in unpacked[it].items()}
    info = f"svid-{VERSION}.dist-info"
    rows = dict(line.split(",", 1) for line in files[f"{info}/RECORD"].decode().splitlines())
    due = {}
    for name, data in files.items():
        digest = base64.urlsafe_b64encode(hashlib.sha256(data).digest()).rstrip(b"=").decode()
        due[name] = "," if name == f"{info}/RECORD" else f"sha256={digest},{len(data)}"
    assert rows == due
    tag = "-".join(it.removesuffix(".whl").split("-")[2:])
    assert re.findall(r"^Tag: (.*)$", files[f"{info}/WHEEL"].decode(), re.M) == [tag]
    machine = "x86_64" if tag.endswith("x86_64") else "aarch64"
    assert files["svid/libsvid.so"] == (TOP / "dist" / machine / "libsvid.so").read_bytes()


@pytest.mark.parametrize(
    "source, flags, due",
    [
        ("int one(void) { return 1; }", ["-nostdlib"], (2, 5)),
        ("#include <stdlib.h>\nint one(void) { return *(int *)malloc(4); }", [], (2, 5)),
        ("#include <pthread.h>\nint one(pthread_t *it) { return pthread_create(it, 0, 0, 0); }", [], (2, 34)),
        ("#include <openssl/evp.h>\nvoid *one(void) { return EVP_MD_CTX_new(); }", ["-lcrypto"], "libcrypto.so.3"),
    ],
)
def test_the_glibc_of_a_tag(tmp_path, source, flags, due):
    needs("cc")
    module = script("tools/packaging/wheel")
    (tmp_path / "one.c").write_text(source)
    output("cc", "-shared", "-fPIC", "-o", tmp_path / "one.so", tmp_path / "one.c", *flags)
    if isinstance(due, tuple):
        assert module.glibc(tmp_path / "one.so", "x86_64") == due
    else:
        with pytest.raises(SystemExit, match=due):
            module.glibc(tmp_path / "one.so", "x86_64")


# The whole once more (the last, since the other release is built until then)


def test_the_same_bytes_from_another_folder(releases):
    one, two = releases[0], releases[1].result()
    names = sorted(it.relative_to(one) for it in one.rglob("*") if it.is_file())
    assert names == sorted(it.relative_to(two) for it in two.rglob("*") if it.is_file())
    assert [it for it in names if (one / it).read_bytes() != (two / it).read_bytes()] == []
