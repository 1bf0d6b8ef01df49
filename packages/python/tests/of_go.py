"""Runs tests of go/claims over the client of this package."""

import os
import pathlib
import re
import subprocess
import sys

TOP = pathlib.Path(os.environ["SVID"]).parent
LONGEST = 1500  # seconds for these tests, and for what Go compiles: a machine may be busy


def built(*words):
    """Makes a program of Go."""
    subprocess.run(["go", *words], cwd=TOP / "go", timeout=LONGEST, check=True)


def room():
    """The folder below which servers have their data: in memory where that has some GB.

    They make and remove thousands of files there, which takes the system longer on a disk than all
    else that it does for these tests.
    """
    memory = "/dev/shm"
    if os.path.isdir(memory):
        has = os.statvfs(memory)
        if has.f_bavail * has.f_frsize > 2**32 and not has.f_flag & os.ST_NOEXEC:
            return memory
    return "/tmp"


class Outcome:
    """How tests ended that one process ran: each process makes data of servers first."""

    def __init__(self, words, tests, **more):
        words = [*words, "-test.v", "-test.timeout", f"{LONGEST}s"]
        words += ["-test.run", f"^({'|'.join(tests)})$"]
        more |= {"stdout": subprocess.PIPE, "stderr": subprocess.STDOUT, "text": True}
        ran = subprocess.run(words, timeout=LONGEST + 60, check=False, **more)
        self.said = ran.stdout
        found = re.findall(r"^--- (\w+): (\S+) ", self.said, re.M)
        self.ended = {name: result for result, name in found}

    def of(self, name):
        """What one test said, and the end of all."""
        parts = re.split(r"^(?==== |--- )", self.said, flags=re.M)
        its = [it for it in parts if re.match(rf"\S+ \S+\s+{name}\b", it)]
        return "".join(its)[-5000:] + self.said[-2000:]


def chosen(request, groups):
    """The names of the tests of all groups that this run of pytest has of the module."""
    items = [it for it in request.session.items if it.module is request.module]
    names = [it.callspec.params["name"] for it in items if it.originalname == "test_store"]
    return [test for it in names for test in groups[it].split("|")]


def client(file, server):
    """The command of a client, for the tests."""
    return f"{sys.executable} {file} {server}"
