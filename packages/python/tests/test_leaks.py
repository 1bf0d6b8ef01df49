"""What validators leave that have lived and closed: nothing."""

import json
import os
import subprocess
import sys
import tempfile

import pytest

from lives import WARM
from making import PATIENCE

LIVES = int(os.environ.get("SVID_TEST_LIVES") or 70)
FOLDER = "/dev/shm"  # (a disk would be forced ten times in each life)


@pytest.fixture(scope="module")
def held():
    """What lives.py holds after some lives, and after many more."""
    with tempfile.TemporaryDirectory(dir=FOLDER if os.access(FOLDER, os.W_OK) else None) as room:
        words = [sys.executable, f"{os.path.dirname(__file__)}/lives.py", room, str(LIVES)]
        ran = subprocess.run(words, capture_output=True, timeout=10 * PATIENCE, check=False)
    assert ran.returncode == 0, ran.stderr.decode()[-2000:]
    return json.loads(ran.stdout)


@pytest.mark.parametrize("kind", ["descriptors", "threads"])
def test_no_life_leaves_one_behind(held, kind):
    before, after = (it[kind] for it in held)
    assert after == before


@pytest.mark.parametrize(("kind", "most"), [("objects", 1), ("bytes", 4096)])
def test_lives_do_not_add_up(held, kind, most):
    """A life that left an object, or a room of the library, would take more each time.

    (What malloc keeps for a thread counts as held: some 70,000 bytes, in few lives or in many.)
    """
    before, after = (it[kind] for it in held)
    assert after - before < most * (LIVES - WARM)
