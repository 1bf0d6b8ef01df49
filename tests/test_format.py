"""The tests, the tools and what packages in Python are formatted by black, and flake8 finds nothing."""

import subprocess
import sys

import pytest
from conftest import TOP

OF_TESTS = [path for path in (TOP / "tests").rglob("*.py") if not path.is_relative_to(TOP / "tests/vectors")]
FOLDERS = [*OF_TESTS, *(TOP / "tools").iterdir(), *(TOP / "tools/packaging").iterdir()]
SCRIPTS = [path for path in FOLDERS if path.is_file() and path.suffix in ("", ".py")]
PYTHON = [path for path in sorted(SCRIPTS) if path.suffix or path.read_text().startswith(("#!/usr/bin/env python3", "#!/usr/bin/python3"))]


def run(module, *words):
    pytest.importorskip(module)
    return subprocess.run([sys.executable, "-m", module, *words, *PYTHON], cwd=TOP / "tests", capture_output=True, text=True)


def test_black_would_change_no_file():
    ran = run("black", "--check", "--config", "pyproject.toml")
    assert ran.returncode == 0, ran.stderr


def test_flake8_finds_nothing():
    ran = run("flake8", "--config", ".flake8")
    assert ran.returncode == 0, ran.stdout
