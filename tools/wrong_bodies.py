"""Wrong bodies of code that nobody proves: for each, the test that it names must fail.

go/wrong/run, packages/page/wrong/run and packages/python/wrong/run say what their language needs, and this does the rest. A file
NAME.edits in wrong/ of a language's folder lists those of a package, by the file that each changes; Go has one list for each of
its packages. tools/edits.py has the form; here each has a line 'why:', and a line 'test:' for each test that must catch it.

It is caught where a test fails. It is not caught where all its tests pass (it survived), where they don't end in time (it
hangs), or where the program does not compile with it, which says nothing of the test. All named tests must pass without a
wrong body, too; with --share nobody looks at that, since ./test runs these tests beside it. In each run all of them are looked
at first, whether they can be applied. A wrong body is to be caught within two minutes: those that took longer are named at the end.

Several are tried at once, by threads of one process, and two rules follow. A file that this process wrote is never executed:
whatever another thread starts holds each file open that is being written, until it is a program of its own, and Linux refuses
to execute such a file ("Text file busy"). So a script of a copy is read by its interpreter: its words begin with BASH or
PYTHON. And a copy takes the files that git knows of, by copy_of(): beside this, tests write into the checkout and remove what
they wrote."""

import json
import os
import shutil
import signal
import subprocess
import sys
import tempfile
import time
import traceback
from concurrent.futures import ThreadPoolExecutor

from edits import Unreadable, below

TOP = os.path.dirname(os.path.dirname(os.path.realpath(__file__)))
LONGEST = 600  # seconds for the tests of one wrong body, with all that is compiled for them
LONGEST_ALL = 3600  # and for those of all, without a wrong body
SLOW = 120  # seconds in which a wrong body is to be caught, where nothing else runs
PATIENCE = 30  # how many seconds a test waits for what never comes with a wrong body
DAY = 86_400
BASH, PYTHON = "/bin/bash", sys.executable  # what reads a script of a copy


class Unfit(Exception):
    """A wrong body that cannot be tried, and why."""


def text_of(path):
    with open(path, encoding="utf-8") as file:
        return file.read()


def write(path, text):
    with open(path, "w", encoding="utf-8") as file:
        file.write(text)


def copy_of(folder, to, without=()):
    """Copies a folder of the checkout: the files that git has or would take, but for these names at the top of it."""
    words = ["git", "ls-files", "-z", "--cached", "--others", "--exclude-standard"]
    listed = subprocess.run(words, cwd=folder, stdout=subprocess.PIPE, check=True).stdout.decode()
    for name in filter(None, listed.split("\0")):
        if name.partition("/")[0] in without:
            continue
        os.makedirs(os.path.dirname(f"{to}/{name}"), exist_ok=True)
        try:
            shutil.copy(f"{folder}/{name}", f"{to}/{name}")
        except FileNotFoundError:
            pass  # (it was removed since, or git has it and the checkout has not)


def environment_of(changed, **more):
    """The environment of tests: with a wrong body, most events that they wait for never come."""
    return {**os.environ, **({"SVID_TEST_PATIENCE": str(PATIENCE)} if changed else {}), **more}


def run(words, folder, environment, longest):
    """The exit status of a command, and what it said; None where it did not end. What it began and left is ended too."""
    with subprocess.Popen(
        words,
        cwd=folder,
        env=environment,
        stdin=subprocess.DEVNULL,
        stdout=subprocess.PIPE,
        stderr=subprocess.STDOUT,
        start_new_session=True,
    ) as ran:
        try:
            said = ran.communicate(timeout=longest)[0].decode(errors="replace")
        except subprocess.TimeoutExpired:
            said = None
        try:
            os.killpg(ran.pid, signal.SIGKILL)
        except ProcessLookupError:
            pass
        if said is None:
            ran.communicate()
    return (None if said is None else ran.returncode), said or ""


class Scripts:
    """Reads modules of JavaScript, by one process of node for all."""

    PROGRAM = """
        const { createInterface } = require("node:readline"), { SourceTextModule } = require("node:vm");
        createInterface({ input: process.stdin }).on("line", (line) => {
          let why = "";
          try { new SourceTextModule(JSON.parse(line)); } catch (error) { why = `${error.name}: ${error.message}`; }
          console.log(JSON.stringify(why));
        });
    """

    def __init__(self):
        self.node = None

    def fault(self, path, text):
        """Why a file can't have this text, or nothing: also where it is no script, or node is not there."""
        if not path.endswith(".js") or not shutil.which("node"):
            return ""
        if self.node is None:
            words = ["node", "--no-warnings", "--experimental-vm-modules", "--eval", self.PROGRAM]
            self.node = subprocess.Popen(words, stdin=subprocess.PIPE, stdout=subprocess.PIPE, text=True)
        print(json.dumps(text), file=self.node.stdin, flush=True)
        said = self.node.stdout.readline()
        return json.loads(said) if said else "node does not read it"


def testing(file, names, ends):
    """The words that run the tests of a file of JavaScript whose names match. With `ends` they end whatever a test leaves open, if this node can do that."""
    force = "--test-force-exit"
    can = ends and subprocess.run(["node", force, "--version"], capture_output=True, check=False).returncode == 0
    patterns = [f"--test-name-pattern=^{it}$" for it in names]
    return ["node", "--test", "--test-reporter=tap", *([force] if can else []), *patterns, f"tests/{file}"]


class Language:
    """What a language needs: subclasses say it."""

    name = ""  # for people
    folder = ""  # of its package, in the checkout
    longest = LONGEST

    def __init__(self):
        self.package = f"{TOP}/{self.folder}"
        self.bodies = f"{self.package}/wrong"

    def begin(self, room):
        """Makes what all runs share, in a folder that stays until the last one has ended."""

    def missing(self):
        """What the tests need and is not there, or nothing."""

    def fault(self, path, text):
        """Why a file can't have this text, as far as a look at it tells, or nothing."""

    def faults(self, texts):
        """What `fault` says of each of some files, by their paths and their texts."""
        return [self.fault(path, text) for path, text in texts]

    def has(self, test):
        """Whether there is a test of this name."""
        raise NotImplementedError

    def run(self, room, changed, tests, longest):
        """Runs tests in an empty folder with these files changed: the exit status, None if they did not end, and what was said."""
        raise NotImplementedError

    def broken(self, status, said):
        """Whether failed tests said that the program does not run, which says nothing of them: true, or what in `said` shows it."""
        raise NotImplementedError


class Wrong:
    """One wrong body: the texts that it changes, and the tests that must catch it."""

    def __init__(self, language, edit):
        self.name, self.tests = edit.name, edit.tests
        self.took = 0.0  # seconds until its tests had ended
        if fault := edit.fault():
            raise Unfit(fault)
        if not (edit.why and edit.tests):
            raise Unfit("it has no 'why:', or no 'test:'")
        self.changed = self._changed(language, edit)
        for test in self.tests:
            if not language.has(test):
                raise Unfit(f"there is no test {test}")

    def _changed(self, language, edit):
        """The files that it changes, by their path, with their new text."""
        texts = {}
        for pair in edit.pairs:
            path, (old, new) = pair.path, pair.texts()
            if not os.path.isfile(f"{language.package}/{path}"):
                raise Unfit(f"there is no file {path}")
            text = texts.get(path) or text_of(f"{language.package}/{path}")
            if text.count(old) != 1:
                raise Unfit(f"its old text stands in {path} {text.count(old)} times, and not once: {old.strip()}")
            texts[path] = text.replace(old, new)
        return texts


def end_of(said):
    return "\n".join(said.splitlines()[-20:])


def outcome(language, changed, tests, longest):
    """What Language.run answers, or Unfit: that which keeps one wrong body from being tried is a fault of that one alone."""
    try:
        with tempfile.TemporaryDirectory(prefix="svid-wrong-", ignore_cleanup_errors=True) as room:
            os.chmod(room, 0o711)  # (where root runs this, a server of PostgreSQL is another user, and has its files below)
            return language.run(room, changed, tests, longest)
    except Unfit:
        raise
    except Exception as error:
        raise Unfit("".join(traceback.format_exception(error))) from error


def tried(language, it):
    """Why a wrong body is not caught, or nothing."""
    begun = time.monotonic()
    try:
        status, said = outcome(language, it.changed, it.tests, language.longest)
    except Unfit as why:
        return f"NOT CAUGHT: it can't be tried: {why}"
    it.took = time.monotonic() - begun
    if status is None:
        return f"NOT CAUGHT: it hangs: its tests don't end within {language.longest} seconds"
    if status == 0:
        return "NOT CAUGHT: it survived: its tests pass"
    if found := language.broken(status, said):
        shown = "" if found is True else f", as {said[found.start() :].splitlines()[0]!r} shows"
        return f"NOT CAUGHT: it does not compile, or its tests don't run{shown}:\n{end_of(said)}"
    return ""


def passing(language, wrongs):
    """What the tests of these wrong bodies say where they don't pass with the sources as they are."""
    tests = sorted({test for it in wrongs for test in it.tests})
    try:
        status, said = outcome(language, {}, tests, LONGEST_ALL)
    except Unfit as why:
        return f"they can't be run: {why}"
    return "" if status == 0 else f"{'' if status is None else f'status {status}: '}{said or 'they do not end'}"


def try_all(language, wrongs, alone):
    """How many of them are not caught, where each processor tries one after the other. With `alone` their tests run without a wrong body, too."""
    faults = 0
    with tempfile.TemporaryDirectory(prefix="svid-wrong-") as shared:
        language.begin(shared)
        with ThreadPoolExecutor(int(os.environ.get("SVID_JOBS") or len(os.sched_getaffinity(0)))) as pool:
            good = pool.submit(passing, language, wrongs) if alone else None
            for it, why in zip(wrongs, pool.map(lambda it: tried(language, it), wrongs)):
                if why:
                    faults += 1
                    print(f"wrong: {language.folder}/{it.name}: {why}", flush=True)
        if good and good.result():
            faults += 1
            print(f"wrong: the tests fail without a wrong body:\n{good.result()}")
    if slow := [f"{it.name} ({it.took:.0f} s)" for it in wrongs if it.took > SLOW]:
        print(f"wrong: {language.folder}: more than {SLOW} s took {', '.join(slow)}")
    return faults


def main(language, words):
    """Tries what the words of the command line name: the exit status."""
    try:
        edits = below(language.bodies)
    except Unreadable as why:
        print(f"wrong: {why}")
        return 1
    names = sorted(edits)
    chosen, only_applies = names, words == ["--applies"]
    if words[:1] == ["--share"] and len(words) == 2 and words[1].isdigit() and int(words[1]):
        chosen = names[int(time.time()) // DAY % int(words[1]) :: int(words[1])]
    elif words and not only_applies:
        chosen = words
    if unknown := set(chosen) - set(names):
        print(f"wrong: there is none of that name: {' '.join(sorted(unknown))}")
        return 2
    wrongs, unfit = {}, {}
    for name in names:
        try:
            wrongs[name] = Wrong(language, edits[name])
        except Unfit as why:
            unfit[name] = why
    rows = [(name, path, text) for name, it in wrongs.items() for path, text in it.changed.items()]
    for (name, path, _), fault in zip(rows, language.faults([row[1:] for row in rows])):
        if fault:
            unfit[name] = f"{path} can't be read then: {fault}"
            wrongs.pop(name, None)
    for name, why in unfit.items():
        print(f"wrong: {language.folder}/{name}: it cannot be applied: {why}")
    faults = len(unfit)
    of = f"of {language.name}"
    print(
        f"wrong: {len(names)} {of}, {f'{faults} of them cannot be applied' if faults else 'each can be applied'}",
        flush=True,
    )
    if not only_applies and (why := language.missing()):
        print(f"wrong: skipped: those {of}, since its tests can't run here: {why}")
    elif not only_applies:
        failed = try_all(language, [wrongs[it] for it in chosen if it in wrongs], words[:1] != ["--share"])
        print(f"wrong: {len(chosen)} {of} tried, {f'{failed} of them NOT caught' if failed else 'each caught'}")
        faults += failed
    return 1 if faults or not names else 0


def start(language):
    sys.exit(main(language(), sys.argv[1:]))
