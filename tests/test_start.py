"""What of dist/ may run: ./svid, ./install and the tests take a program, a library or a test driver of dist/ only where it was built from the very
sources that are there, and ./prove finds one changed byte. So with what was built in the checkout.

All is tried on copies of this checkout. No kit is needed: where the command rt is asked for, a stand-in answers that only tells its version, so
nothing is proved here."""

import hashlib
import os
import platform
import resource
import shutil
import subprocess

import pytest
from conftest import TOP, needs

BARE = "/usr/bin:/bin:"
UNFIT = "dist/ was not built from these sources"
STALE = "dist/ was not built from these sources, or a file of it is not whole"
SOURCE = "crates/svid_id/src/lib.rt"
# What of the checkout the copies have: all that ./svid, ./prove and the tools look at.
PARTS = "svid prove install tools tests dist packages/page packages/c crates.txt HANDLES examples/bundles.json examples/token.txt".split()
# What the tests change, in place.
EDITED = ["dist", "packages/page", "packages/c", "crates.txt", "crates/svid_id", "tests/driver"]


@pytest.fixture(scope="session")
def origin(session):
    assert subprocess.run([TOP / "tools/dist", "fits"]).returncode == 0, f"{UNFIT}: ./prove --release writes it"
    assert not shutil.which("rt", path=BARE.rstrip(":")), "rt is in /usr/bin or /bin, so what happens without it can't be tried"
    made = session / "origin"
    parts = PARTS + [f"{it.relative_to(TOP)}" for name in ("src", "specs", "proofs") for it in TOP.glob(f"crates/*/{name}")]
    listed = subprocess.run(["git", "ls-files", "-z", "-co", "--exclude-standard", "--", *parts], cwd=TOP, capture_output=True)
    names = listed.stdout or subprocess.run(["find", *parts, "-type", "f", "-print0"], cwd=TOP, capture_output=True, check=True).stdout
    made.mkdir()
    there = b"".join(name + b"\0" for name in names.split(b"\0") if name and (TOP / os.fsdecode(name)).exists())
    subprocess.run(["sh", "-c", 'tar -c --null -T - -f - | tar -x -C "$0"', made], cwd=TOP, input=there, check=True)
    return made


# (what ./test says of proofs is not for the copies)
ENVIRON = {name: value for name, value in os.environ.items() if name != "SVID_PROVE"}


class Copy:
    """A copy of the checkout, in a folder with spaces in its name, and the commands of it that run there with no kit, from another folder."""

    def __init__(self, folder, room):
        self.folder, self.room = folder, room
        self.status, self.out, self.err = 0, "", ""

    def __truediv__(self, path):
        return self.folder / path

    def run(self, *words, path=BARE):
        ran = subprocess.run(
            [self / words[0], *words[1:]],
            cwd="/",
            env={**ENVIRON, "PATH": path},
            stdin=subprocess.DEVNULL,
            capture_output=True,
            text=True,
        )
        self.status, self.out, self.err = ran.returncode, ran.stdout, ran.stderr

    def answers(self, path=BARE):
        self.run("svid", "id", "spiffe://a", path=path)
        return (self.status, self.out) == (0, "domain a\n")

    def refuses(self, why):
        """Nothing runs: it says why, and that it would need the kit."""
        self.run("svid", "id", "spiffe://a")
        return self.status == 2 and not self.out and why in self.err and "rt is not on the PATH" in self.err

    def append(self, path):
        with open(self / path, "a") as file:
            file.write("\n")

    def append_quietly(self, path):
        """With the times that it had: only the time of the change itself tells."""
        before = os.stat(self / path)
        self.append(path)
        os.utime(self / path, ns=(before.st_atime_ns, before.st_mtime_ns))

    def flip(self, path):
        with open(self / path, "r+b") as file:
            file.seek(200000)
            file.write(b"\xff")

    def make(self, path):
        (self / path).parent.mkdir(parents=True, exist_ok=True)
        (self / path).write_text("\n")

    def sums(self):
        """Makes the sums of dist/ fit what is there."""
        names = sorted(
            f"{it.relative_to(self / 'dist')}"
            for it in (self / "dist").rglob("*")
            if it.is_file() and it.name not in ("README.md", "SHA256SUMS")
        )
        made = subprocess.run(["sha256sum", *names], cwd=self / "dist", stdout=subprocess.PIPE, check=True)
        (self / "dist/SHA256SUMS").write_bytes(made.stdout)

    def script(self, path, text):
        (self / path).write_text(f"#!/bin/sh\n{text}\n")

    def digest(self, what):
        return subprocess.run([self / "tools/dist", what], stdout=subprocess.PIPE, check=True).stdout

    def builds_program(self):
        """The program stands in the copy as tools/build leaves it; that of dist/ plays it."""
        out = self / "crates/svid_tool/out"
        out.mkdir(parents=True)
        shutil.copy(self / "dist/x86_64/svid", out / "svid_tool")
        self.run("tools/dist", "mark", self.digest("sources").decode().strip())

    def builds_driver(self):
        """So does the test driver, as `tools/dist here script` leaves it."""
        out = self / "out/driver"
        out.mkdir(parents=True)
        shutil.copy(self / "dist/x86_64/svid_script", out)
        made = hashlib.sha256(self.digest("sources") + self.digest("driver-sources")).hexdigest()
        (out / "built.stamp").write_text(f"{made}\n")


@pytest.fixture
def copy(origin, tmp_path):
    made = tmp_path / "a checkout"
    # (links are quick; what a test may write in is copied)
    subprocess.run(["cp", "-al", origin, made], check=True)
    for part in EDITED:
        subprocess.run(["rm", "-r", made / part], check=True)
        subprocess.run(["cp", "-a", origin / part, made / part], check=True)
    yield Copy(made, tmp_path)
    subprocess.run(["chmod", "-R", "u+w", tmp_path])
    shutil.rmtree(tmp_path / "a checkout")


def first_proof(copy):
    return sorted(f"{it.relative_to(copy.folder)}" for it in (copy / "crates/svid_id/proofs").glob("*.antt"))[0]


def no_program(copy):
    copy.script("dist/x86_64/svid", "exit 127")
    copy.sums()


EDITS = {
    "a source is edited": lambda copy: copy.append(SOURCE),
    "a source is edited, with its old time": lambda copy: copy.append_quietly(SOURCE),
    "a proof is edited": lambda copy: copy.append(first_proof(copy)),
    "a source is removed": lambda copy: (copy / SOURCE).unlink(),
    "a source is added": lambda copy: copy.make("crates/svid_id/src/more.rt"),
    "a source is renamed": lambda copy: (copy / SOURCE).rename(copy / "crates/svid_id/src/other.rt"),
    "a folder of sources is renamed": lambda copy: (copy / "crates/svid_id/specs").rename(copy / "crates/svid_id/others"),
    "a crate is renamed": lambda copy: (copy / "crates/svid_id").rename(copy / "crates/svid_other"),
    "a folder of sources is added": lambda copy: copy.make("crates/svid_tool/proofs/More.antt"),
    "a crate is added": lambda copy: copy.make("crates/svid_more/src/lib.rt"),
    "crates.txt is edited": lambda copy: copy.append("crates.txt"),
    "a byte of the program is changed": lambda copy: copy.flip("dist/x86_64/svid"),
    "a byte of the library is changed": lambda copy: copy.flip("dist/x86_64/libsvid.a"),
    "KIT is changed": lambda copy: copy.append("dist/KIT"),
    "SOURCES is changed": lambda copy: copy.append("dist/SOURCES"),
    "a file is added to dist/": lambda copy: copy.make("dist/x86_64/other"),
    "the program is removed": lambda copy: (copy / "dist/x86_64/svid").unlink(),
    "the program for aarch64 is changed": lambda copy: copy.flip("dist/aarch64/svid"),
    "the program for aarch64 is removed": lambda copy: (copy / "dist/aarch64/svid").unlink(),
}


def test_the_first_run_says_in_one_line_what_it_took(copy):
    began = used()
    assert copy.answers() and used() - began < 2
    assert copy.err.count("\n") == 1 and copy.err.startswith("svid: running dist/")
    assert copy.answers() and copy.err == "", "a later run says more than the program"
    (copy.room / "link").symlink_to(copy / "svid")
    ran = subprocess.run([copy.room / "link", "id", "spiffe://a"], cwd="/", capture_output=True, text=True)
    assert (ran.stdout, ran.stderr) == ("domain a\n", "")


@pytest.mark.parametrize("edit", EDITS)
def test_no_old_program_runs_after(copy, edit):
    assert copy.answers()
    EDITS[edit](copy)
    assert copy.refuses(UNFIT)


def test_a_program_that_does_not_run_here(copy):
    assert copy.answers()
    no_program(copy)
    assert copy.refuses("no program of dist/ runs on this machine")


@pytest.mark.parametrize(
    "edit", [it for it in EDITS if it in ("a source is removed", "a crate is renamed") or it.startswith("a source is edited")]
)
def test_no_old_program_runs_that_was_built_here_after(copy, edit):
    copy.append("crates.txt")
    copy.builds_program()
    assert copy.answers()
    assert copy.answers() and copy.err == "", "a later run says more than the program"
    EDITS[edit](copy)
    assert copy.refuses(UNFIT)


@pytest.fixture
def other(copy):
    """A PATH on which uname says that this is another machine. The program for it is a stand-in, and the one for this machine is broken."""
    (copy.room / "other").mkdir()
    (copy.room / "other/uname").write_text("#!/bin/sh\necho aarch64\n")
    (copy.room / "other/uname").chmod(0o755)
    copy.script("dist/aarch64/svid", "echo domain a")
    copy.script("dist/x86_64/svid", "exit 127")
    copy.sums()
    return f"{copy.room}/other:{BARE}"


def test_on_another_machine_its_program_is_taken(copy, other):
    """Where no loader of that machine is here, each run decides."""
    for _ in range(1 if os.path.exists("/lib/ld-linux-aarch64.so.1") else 2):
        assert copy.answers(other) and copy.err.startswith("svid: running dist/aarch64/svid,")


def test_on_another_machine_its_files_are_installed(copy, other):
    environment = {**ENVIRON, "PATH": other, "DESTDIR": f"{copy.room}/root"}
    subprocess.run([copy / "install", "/usr"], cwd="/", env=environment, stdout=subprocess.DEVNULL, check=True)
    for name, installed in {"svid": "bin/svid", "libsvid.a": "lib/libsvid.a", "libsvid.so": "lib/libsvid.so.3"}.items():
        assert (copy.room / "root/usr" / installed).read_bytes() == (copy / "dist/aarch64" / name).read_bytes()


def test_the_driver(copy):
    def driver():
        copy.run("tools/dist", "driver")
        return copy.out.strip() if copy.status == 0 else copy.out or "build it by ./prove --release" in copy.err

    assert driver() == f"{copy.folder}/dist/x86_64/svid_script"
    copy.append("tests/driver/main.rattle")
    assert driver() is True, "after its own source is edited there is still a driver"
    assert copy.answers(), "after a source of the driver is edited the program does not run"
    copy.append("crates.txt")
    assert driver() is True, "after a source is edited there is still a driver"
    copy.run("tools/cases", "uses")
    assert copy.status and "there is no program" in copy.out, "after a source is edited the cases run"
    copy.builds_driver()
    assert driver() == f"{copy.folder}/out/driver/svid_script"
    copy.append_quietly(SOURCE)
    assert driver() is True, "after a source is edited there is still the driver that was built here"


@pytest.mark.parametrize("what, name", [("archive", "libsvid.a"), ("shared", "libsvid.so")])
def test_the_library(copy, what, name):
    """It is that of dist/, also where that was decided on before; and no old one."""
    for _ in range(2):
        copy.run("tools/dist", what, copy.room / name)
        assert copy.status == 0 and (copy.room / name).read_bytes() == (copy / f"dist/{platform.machine()}" / name).read_bytes()
        assert copy.answers()
    (copy.room / name).unlink()
    copy.append(SOURCE)
    copy.run("tools/dist", what, copy.room / name)
    assert copy.status and "rt is not on the PATH" in copy.err and not (copy.room / name).exists()


@pytest.mark.parametrize("words", [["svid", "id", "spiffe://a"], ["tools/dist", "program"], ["tools/dist", "archive", "library"]])
def test_nothing_is_proved_where_that_is_forbidden(copy, words):
    """A test that would have to prove the sources first fails at once, and says what to do."""
    copy.append(SOURCE)
    ran = subprocess.run(
        [copy / words[0], *words[1:]], cwd=copy.room, env={**ENVIRON, "PATH": BARE, "SVID_PROVE": "0"}, capture_output=True, text=True
    )
    assert ran.returncode and ran.stdout == "" and ran.stderr.count("\n") == 1
    assert "dist/ was not built from these sources" in ran.stderr and "run ./prove --release, or set SVID_PROVE=1" in ran.stderr


def test_a_checkout_that_nobody_may_write(copy):
    """The program runs, and nothing is kept."""
    needs("setpriv")
    subprocess.run(["chmod", "-R", "a-w", copy.folder], check=True)
    subprocess.run(["chmod", "-R", "a+rX", copy.room], check=True)
    for folder in [*copy.room.parents][:3]:
        folder.chmod(folder.stat().st_mode | 0o055)
    as_nobody = ["setpriv", "--reuid=65534", "--regid=65534", "--clear-groups"] if os.geteuid() == 0 else []
    ran = subprocess.run(
        [*as_nobody, copy / "svid", "id", "spiffe://a"], cwd="/", env={**ENVIRON, "PATH": BARE}, capture_output=True, text=True
    )
    assert (ran.returncode, ran.stdout, ran.stderr) == (0, "domain a\n", "")
    assert not (copy / "out").exists()


# What ./prove finds before any proof


def other_kit(copy):
    (copy / "dist/KIT").write_text("another\n")


def other_kit_with_its_sum(copy):
    other_kit(copy)
    copy.sums()


FOUND = {
    "a byte of the program is changed": (lambda copy: copy.flip("dist/x86_64/svid"), STALE),
    "a source is changed": (lambda copy: copy.append(SOURCE), STALE),
    "a byte of the page is changed": (lambda copy: copy.flip("dist/svid.html"), STALE),
    "KIT is changed": (other_kit, "names another kit"),
    "KIT is changed, and its sum with it": (other_kit_with_its_sum, "names another kit"),
    **{
        f"{name} is changed": (lambda copy, name=name: copy.append(name), "the page of dist/ was not built from these sources")
        for name in ("packages/page/src/page.js", "packages/page/module/heap.c", "packages/page/build", "packages/c/include/svid.h")
    },
}


@pytest.mark.parametrize("edit", FOUND)
def test_prove_finds_that(copy, edit):
    (copy.room / "bin").mkdir()
    (copy.room / "bin/rt").write_text(
        f'#!/bin/sh\n[ "$*" = version ] && exec cat "{TOP}/dist/KIT"\necho "$*" >>"{copy.room}/asked"\nexit 1\n'
    )
    (copy.room / "bin/rt").chmod(0o755)
    change, says = FOUND[edit]
    change(copy)
    copy.run("prove", path=f"{copy.room}/bin:{BARE}")
    assert copy.status == 1 and says in copy.out and copy.out.splitlines()[-1] == "0 passed, 1 failed"
    assert not (copy.room / "asked").exists(), "a proof is asked for"


def test_only_a_comparison_finds_a_byte_whose_sum_was_made_to_fit(copy):
    copy.run("tools/dist", "compare", TOP / "dist")
    assert copy.status == 0
    copy.flip("dist/x86_64/svid")
    copy.sums()
    copy.run("tools/dist", "compare", TOP / "dist")
    assert copy.status == 1 and "dist: x86_64/svid: NOT the bytes" in copy.out


def used():
    """Seconds of the processor that all commands took that have ended: a busy machine makes the time on the clock any length."""
    of = resource.getrusage(resource.RUSAGE_CHILDREN)
    return of.ru_utime + of.ru_stime


def costs(*commands):
    """Seconds of the processor that each command takes: the least of some means, since other work only adds to them. They are taken in turns,
    since that work comes and goes."""
    means = [[] for _ in commands]
    for _ in range(10):
        for words, found in zip(commands, means):
            before = used()
            for _ in range(10):
                subprocess.run(words, stdout=subprocess.DEVNULL, check=True)
            found.append((used() - before) / 10)
    return [min(found) for found in means]


def test_a_decision_costs_little_once_it_is_made(copy):
    """It looks at each source once. (a machine on which a shell and a find over one folder take long too is slow, or busy)"""
    assert copy.answers()
    call = ("id", "spiffe://a")
    whole, alone, small = costs(
        (copy / "svid", *call), (copy / f"dist/{platform.machine()}/svid", *call), ("sh", "-c", "exec find / -maxdepth 0")
    )
    over = whole - alone
    assert over < max(
        0.005, 7 * small
    ), f"./svid takes {over * 1e6:.0f} µs of the processor over the program's own, and the other {small * 1e6:.0f}"
    print(f"{over * 1e6:.0f} µs, {small * 1e6:.0f}")
