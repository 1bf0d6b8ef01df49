"""./install puts the program, its completions, the man pages and the C library under a prefix, from where they work, and takes them out again."""

import os
import shlex
import subprocess

import pytest
from conftest import TOP, needs

# The files under PREFIX, each with its mode and the file of the repository that it is, or what is built.
FILES = {
    "bin/svid": (0o755, "program"),
    "share/man/man1/svid.1": (0o644, "tools/packaging/man/svid.1"),
    "share/bash-completion/completions/svid": (0o644, "tools/packaging/completions/svid.bash"),
    "share/zsh/site-functions/_svid": (0o644, "tools/packaging/completions/_svid"),
    "share/fish/vendor_completions.d/svid.fish": (0o644, "tools/packaging/completions/svid.fish"),
    "include/svid.h": (0o644, "packages/c/include/svid.h"),
    "lib/libsvid.a": (0o644, "archive"),
    "lib/libsvid.so.3.0.0": (0o644, "shared"),
    "lib/libsvid.so.3": (0o644, "shared"),
    "lib/libsvid.so": (0o644, "shared"),
    "lib/pkgconfig/svid.pc": (0o644, None),
}
FOLDERS = "share/svid/folders"
WEB = "domain example.org\npath /web\n"


def run(*words, where=None, **environment):
    known = {name: value for name, value in os.environ.items() if name != "DESTDIR"}
    how = {"cwd": where, "stdin": subprocess.DEVNULL, "capture_output": True, "text": True, "timeout": 600}
    return subprocess.run(words, env={**known, **environment}, **how)


def install(*words, status=0, **environment):
    """What ./install prints. A failure is one line on standard error, wrong usage three, and a success none."""
    done = run(TOP / "install", *words, **environment)
    assert (done.returncode, done.stderr.count("\n")) == (status, {0: 0, 1: 1, 2: 3}[status]), done.stderr
    return done.stdout


def below(folder):
    """The files and the folders under a folder."""
    found = {it.relative_to(folder).as_posix(): it.is_dir() and not it.is_symlink() for it in folder.rglob("*")}
    return {name for name, is_folder in found.items() if not is_folder}, {name for name, is_folder in found.items() if is_folder}


@pytest.fixture(scope="module")
def prefix(tmp_path_factory):
    """Where all is installed, though the umask lets nobody else read."""
    made = tmp_path_factory.mktemp("new") / "prefix"
    mask = os.umask(0o077)
    said = install(made)
    os.umask(mask)
    assert said == "".join(f"installed {made}/{name}\n" for name in FILES)
    return made


def test_the_files_are_there_and_no_others(prefix):
    assert below(prefix)[0] == {*FILES, FOLDERS}


@pytest.mark.parametrize("name", FILES)
def test_a_file_is_what_it_is_to_be(prefix, name, program, archive, shared):
    mode, source = FILES[name]
    assert os.stat(prefix / name).st_mode & 0o7777 == mode
    if source:
        original = {"program": program, "archive": archive, "shared": shared}.get(source, TOP / source)
        assert (prefix / name).read_bytes() == original.read_bytes()


def test_folders_may_be_read_by_all(prefix):
    assert {os.stat(prefix / name).st_mode & 0o7777 for name in below(prefix)[1]} == {0o755}


@pytest.mark.parametrize("name, to", {"lib/libsvid.so.3": "libsvid.so.3.0.0", "lib/libsvid.so": "libsvid.so.3"}.items())
def test_links(prefix, name, to):
    assert os.readlink(prefix / name) == to


@pytest.mark.parametrize(
    "line, due",
    [
        ("svid id spiffe://example.org/web", WEB),
        (f"svid report {shlex.quote(str(TOP))}/examples/two-uses.batch | grep -A 1 twice", f"twice 1\n{'1' * 64} 2\n"),
    ],
)
def test_the_program_runs_elsewhere_by_its_name(prefix, tmp_path, line, due):
    assert run("sh", "-c", line, where=tmp_path, PATH=f"{prefix}/bin:{os.environ['PATH']}").stdout == due
    assert os.listdir(tmp_path) == []


@pytest.mark.parametrize("library", ["-lsvid", "-l:libsvid.a"])
def test_the_library_links(prefix, tmp_path, library):
    needs("cc")
    done = run("cc", "-o", tmp_path / "use", f"-I{prefix}/include", TOP / "examples/embed/use.c", f"-L{prefix}/lib", library)
    assert (done.returncode, done.stderr) == (0, "")
    assert run(tmp_path / "use", "id", "spiffe://example.org/web", LD_LIBRARY_PATH=f"{prefix}/lib").stdout == WEB


@pytest.mark.parametrize("option, due", {"--modversion": "3.0.0", "--cflags": "-I{}/include", "--libs": "-L{}/lib -lsvid"}.items())
def test_pkg_config(prefix, option, due):
    needs("pkg-config")
    assert run("pkg-config", option, "svid", PKG_CONFIG_PATH=f"{prefix}/lib/pkgconfig").stdout.strip() == due.format(prefix)


def test_installed_twice_and_removed(tmp_path):
    """A file that was changed is whole again, by whatever name of the folder, and one removal takes all, with the folders that were made."""
    install(tmp_path / "new/prefix")
    page, said_of_it = tmp_path / "new/prefix/share/man/man1/svid.1", tmp_path / "new/prefix/lib/pkgconfig/svid.pc"
    page.write_text("other")
    before = said_of_it.read_text()
    install("new/prefix", where=tmp_path)
    assert below(tmp_path / "new/prefix")[0] == {*FILES, FOLDERS} and page.read_bytes() == (TOP / "tools/packaging/man/svid.1").read_bytes()
    assert said_of_it.read_text() == before and before.startswith(f"prefix={tmp_path}/new/prefix\n")
    said = install("--remove", tmp_path / "new/prefix")
    assert said == "".join(f"removed {tmp_path}/new/prefix/{name}\n" for name in FILES)
    assert below(tmp_path) == (set(), set())
    assert install("--remove", tmp_path / "new/prefix") == ""


def test_what_others_made_stays(tmp_path):
    (tmp_path / "bin").mkdir()
    (tmp_path / "share/man").mkdir(parents=True)
    install(tmp_path)
    (tmp_path / "share/man/man1/other.1").touch()
    install("--remove", tmp_path)
    assert below(tmp_path) == ({"share/man/man1/other.1"}, {"bin", "share", "share/man", "share/man/man1"})


def test_a_package_has_no_list_of_folders(tmp_path):
    install("/usr", DESTDIR=str(tmp_path))
    assert below(tmp_path)[0] == {f"usr/{name}" for name in FILES}
    assert str(tmp_path) not in (tmp_path / "usr/lib/pkgconfig/svid.pc").read_text()
    install("--remove", "/usr", DESTDIR=str(tmp_path))
    assert below(tmp_path)[0] == set()


def test_a_folder_with_blanks_in_its_name(tmp_path):
    install(tmp_path / "a  b'$c\\")
    assert below(tmp_path / "a  b'$c\\")[0] == {*FILES, FOLDERS}
    install("--remove", tmp_path / "a  b'$c\\")
    assert below(tmp_path) == (set(), set())


@pytest.mark.parametrize("words", ["--remove", "DESTDIR", "/usr/local", "Exit status: 0 "])
def test_help(words):
    assert words in install("--help")


@pytest.mark.parametrize("words", [("a", "b"), ("--remove", "a", "b"), ("--help", "a"), ("-x",), ("",), ("--remove", "--help")])
def test_wrong_usage(words):
    install(*words, status=2)
    assert not (TOP / "a").exists()


def test_where_a_file_cannot_be_put_nothing_is_left(tmp_path):
    (tmp_path / "file").touch()
    (tmp_path / "taken/share/zsh/site-functions/_svid").mkdir(parents=True)
    before = below(tmp_path)
    for words in [("file",), ("file/under",), ("taken",)]:
        install(tmp_path / words[0], status=1)
    install("--remove", tmp_path / "taken", status=1)
    install("a\nb", status=1)
    assert below(tmp_path) == before
