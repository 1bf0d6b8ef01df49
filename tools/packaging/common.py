"""What the scripts of this folder share."""

import importlib.machinery
import importlib.util
import os
import re
import subprocess
import sys
from pathlib import Path

TOP = Path(__file__).resolve().parents[2]
VERSION = (TOP / "VERSION").read_text(encoding="utf-8").strip()
# The names that Debian has for the machines of dist/.
MACHINES = {"amd64": "x86_64", "arm64": "aarch64"}
PYTHON = "/usr/bin/python3"


def script():
    return f"tools/packaging/{Path(sys.argv[0]).name}"


def loaded(path):
    """A script of the repository, as a module."""
    name = Path(path).name
    loader = importlib.machinery.SourceFileLoader(name, str(TOP / path))
    module = importlib.util.module_from_spec(importlib.util.spec_from_loader(name, loader))
    sys.modules[name] = module  # (a dataclass looks there for its module)
    loader.exec_module(module)
    return module


def run(*words, **more):
    """Runs a command, and returns what it prints; ends with what it says where it fails."""
    ran = subprocess.run([str(it) for it in words], stdin=subprocess.DEVNULL, capture_output=True, check=False, **more)
    if ran.returncode:
        said = (ran.stdout + ran.stderr).decode(errors="replace")[-3000:]
        sys.exit(f"{script()}: {' '.join(map(str, words))} ended with status {ran.returncode}:\n{said}")
    return ran.stdout.decode()


def epoch():
    """The seconds that stand in all artifacts as the time: SOURCE_DATE_EPOCH, or that of the last commit."""
    said = os.environ.get("SOURCE_DATE_EPOCH") or run("git", "-C", TOP, "log", "-1", "--format=%ct").strip()
    if not re.fullmatch(r"\d+", said):
        sys.exit(f"{script()}: SOURCE_DATE_EPOCH is {said!r}, and not seconds")
    return int(said)
