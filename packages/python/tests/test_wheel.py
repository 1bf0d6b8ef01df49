"""The wheel in a fresh virtual environment that has Debian's python3-cryptography alone."""

import json
import os
import pathlib
import shutil
import subprocess
import sys
import zipfile

import pytest
from making import LEFT, NOW, PATIENCE, bundle, entry, private_key, token


PYTHON = pathlib.Path(__file__).parent.parent
DEBIAN = pathlib.Path("/usr/lib/python3/dist-packages")
CRYPTOGRAPHY = ["cryptography", "cryptography-*", "_cffi_backend*"]  # and what it depends on
CHECK = """
import sys, json, svid
from svid import _library
bundles, now, token = sys.argv[1:]
with svid.Validator(audiences="ledger", bundles=bundles.encode()) as validator:
    print(validator.check(token, int(now)).spiffe_id)
    try:
        validator.check(token, int(now))
    except svid.Replayed as why:
        print(why.name)
print(_library.library._name)
print(*sorted({it.partition(".")[0] for it in sys.modules} & {"jwt", "setuptools", "starlette"}))
"""


def run(*words, **more):
    ran = subprocess.run(words, capture_output=True, timeout=5 * PATIENCE, check=False, **more)
    assert ran.returncode == 0, ran.stderr.decode()
    return ran.stdout.decode()


@pytest.fixture(scope="module")
def wheel(tmp_path_factory):
    """The wheel, built without a network from a copy of this folder."""
    room = tmp_path_factory.mktemp("wheel")
    shutil.copytree(PYTHON, room / "python", ignore=shutil.ignore_patterns(*LEFT))
    words = ["wheel", "--no-build-isolation", "--no-deps", "--no-index", "--wheel-dir", room]
    run(sys.executable, "-m", "pip", *words, room / "python")
    [made] = room.glob("*.whl")
    return made


def test_what_is_in_it(wheel):
    assert wheel.name == "svid-3.0.0-py3-none-linux_x86_64.whl"
    with zipfile.ZipFile(wheel) as file:
        names = {name for name in file.namelist() if ".dist-info/" not in name}
        library = file.read("svid/libsvid.so")
        (wheels,) = (it for it in file.namelist() if it.endswith(".dist-info/WHEEL"))
        terms = file.read(wheels).decode().splitlines()
    assert "Root-Is-Purelib: false" in terms  # (its folder is that of this machine's code)
    sources = {str(it.relative_to(PYTHON)) for it in (PYTHON / "svid").iterdir() if it.is_file()}
    assert names == sources | {"svid/libsvid.so"}
    assert "svid/py.typed" in names
    assert library == pathlib.Path(os.environ["LIBSVID"]).read_bytes()


@pytest.mark.parametrize(
    "number, name", [(0x3E, "none-linux_x86_64.whl"), (0xB7, "none-linux_aarch64.whl"), (3, "")]
)
def test_a_wheel_is_for_the_machine_of_its_library(number, name, tmp_path):
    """And not for the one that builds it."""
    library = bytearray(pathlib.Path(os.environ["LIBSVID"]).read_bytes())
    library[18] = number
    (tmp_path / "libsvid.so").write_bytes(library)
    shutil.copytree(PYTHON, tmp_path / "python", ignore=shutil.ignore_patterns(*LEFT))
    environment = {**os.environ, "LIBSVID": str(tmp_path / "libsvid.so")}
    # (as pip calls it, which takes four processes for that)
    words = [sys.executable, "setup.py", "-q", "bdist_wheel", "--dist-dir", tmp_path]
    more = {"cwd": tmp_path / "python", "env": environment, "timeout": 5 * PATIENCE}
    ran = subprocess.run(words, capture_output=True, check=False, **more)
    assert bool(ran.returncode) == (not name)
    assert [it.name.endswith(name) for it in tmp_path.glob("*.whl")] == [True] * bool(name)
    assert name or b"is no library for x86_64 or aarch64: build it anew" in ran.stdout + ran.stderr


def test_any_glibc_will_do():
    """The library says no version of a symbol, so that each is the one that every glibc has."""
    library = pathlib.Path(os.environ["LIBSVID"]).read_bytes()
    assert b"malloc\0" in library and b"GLIBC_" not in library


def test_a_fresh_environment(wheel, tmp_path):
    # (pip is Debian's: to put one into the environment would take longer than all that it does.
    # test_readme.py installs a wheel by pip.)
    run(sys.executable, "-m", "venv", "--without-pip", tmp_path / "venv")
    python = tmp_path / "venv" / "bin" / "python"
    [packages] = tmp_path.glob("venv/lib/python3*/site-packages")
    shutil.unpack_archive(wheel, packages, "zip")
    for pattern in CRYPTOGRAPHY:
        for file in DEBIAN.glob(pattern):
            (packages / file.name).symlink_to(file)
    clean = {"PATH": "/usr/bin:/bin", "PYTHONDONTWRITEBYTECODE": "1"}
    bundles = json.dumps(bundle(entry(private_key("ES256"), "k1")))
    words = [python, "-I", "-c", CHECK, bundles, str(NOW), token()]
    said = run(*words, env=clean, cwd=tmp_path).splitlines()
    assert said[:2] == ["spiffe://example.org/billing/api", "Replayed"]
    assert said[2:] == [str(packages / "svid" / "libsvid.so"), ""]
    run(sys.executable, "-m", "pip", "--python", python, "check", env=clean)


def test_a_source_distribution_has_the_library_too(tmp_path):
    shutil.copytree(PYTHON, tmp_path / "python", ignore=shutil.ignore_patterns(*LEFT))
    run(sys.executable, "setup.py", "-q", "sdist", "--dist-dir", tmp_path, cwd=tmp_path / "python")
    shutil.unpack_archive(tmp_path / "svid-3.0.0.tar.gz", tmp_path)
    source = tmp_path / "svid-3.0.0"
    library = (source / "svid" / "libsvid.so").read_bytes()
    assert library == pathlib.Path(os.environ["LIBSVID"]).read_bytes()
    environment = {it: value for it, value in os.environ.items() if it != "LIBSVID"}
    words = [sys.executable, "setup.py", "-q", "bdist_wheel", "--dist-dir", tmp_path]
    run(*words, env=environment, cwd=source)
    [made] = tmp_path.glob("*.whl")
    with zipfile.ZipFile(made) as file:
        assert file.read("svid/libsvid.so") == library


def test_the_library_of_the_system(tmp_path):
    """Where the package has none, as in a checkout, and ./install put one there."""
    (tmp_path / "libsvid.so.3").symlink_to(os.environ["LIBSVID"])
    environment = {**os.environ, "LIBSVID": "", "LD_LIBRARY_PATH": str(tmp_path)}
    said = run(sys.executable, "-c", "import svid; print(svid.Validator.__name__)", env=environment)
    assert said == "Validator\n"


@pytest.mark.parametrize("path", ["/none/libsvid.so", __file__])
def test_a_library_that_is_none(path):
    environment = {**os.environ, "LIBSVID": path}
    words = [sys.executable, "-c", "import svid"]
    more = {"capture_output": True, "text": True, "timeout": PATIENCE}
    ran = subprocess.run(words, env=environment, check=False, **more)
    assert ran.returncode == 1
    last = ran.stderr.splitlines()[-1]
    assert last.startswith(f"ImportError: the C library of svid can't be loaded: {path}: ")
    assert last.endswith("let LIBSVID name libsvid.so")


def test_the_wheel_is_typed(wheel, tmp_path):
    """A program that uses the package is checked against its types, where it is wrong too."""
    shutil.unpack_archive(wheel, tmp_path / "packages", "zip")
    (tmp_path / "good.py").write_text(
        "import svid\n"
        "def who(checks: svid.Validator, token: str) -> str:\n"
        "    return checks.check(token).spiffe_id\n"
    )
    (tmp_path / "bad.py").write_text(
        "import svid\n"
        "def who(checks: svid.Validator) -> int:\n"
        "    return checks.check(7).spiffe_id\n"
    )
    environment = {**os.environ, "MYPYPATH": str(tmp_path / "packages")}
    # (../test has read the types of the modules that the package imports, and keeps them there)
    cache = os.environ.get("MYPY_CACHE_DIR", tmp_path / "cache")
    words = [sys.executable, "-m", "mypy", "--strict", "--cache-dir", cache]
    words += [tmp_path / "good.py", tmp_path / "bad.py"]
    more = {"capture_output": True, "text": True, "timeout": 5 * PATIENCE}
    ran = subprocess.run(words, env=environment, cwd=tmp_path, **more)
    errors = [it.partition(":")[0] for it in ran.stdout.splitlines() if "error:" in it]
    assert ran.returncode == 1 and errors == ["bad.py"] * 2, ran.stdout + ran.stderr
