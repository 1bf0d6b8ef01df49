"""What tools/lists refuses: each row is a change of one file of a checkout, and what is said of it."""

import os
import shutil
import subprocess

import pytest
from conftest import TOP

ROWS = {
    "an unknown key": (
        "lists/refusals.toml",
        'asks = "It has three parts"',
        'ask = "It has three parts"',
        "its head explains no key ask of refusal, which NotThreeParts has",
    ),
    "a key of another table": (
        "lists/svidd.toml",
        'name = "report"\nhelp',
        'name = "report"\ndefault = "no"\nhelp',
        "its head explains no key default of command, which report has",
    ),
    "an unknown table": ("lists/faults.toml", "[[part]]", "[[parts]]", "its head explains no table parts"),
    "an unknown part": ("lists/svidd.toml", 'part = "group"', 'part = "groups"', "docs/SIDECAR-REFERENCE.md has no part groups"),
    "an option without a test": (
        "lists/svidd.toml",
        'name = "log-addresses"',
        'name = "log-hosts"',
        "no test of go/cmd/svidd/*_test.go names --log-hosts",
    ),
    "an option without a line": ("CHANGELOG.md", "`--nats-creds`", "`--nats-credentials`", "no line of CHANGELOG.md names --nats-creds"),
    "a place of the core that is not named": (
        "lists/README.md",
        "`crates/svid_check/specs/Table.antt`",
        "`svid_check`",
        "lists/README.md does not name crates/svid_check/specs/Table.antt, which has every refusal",
    ),
}


@pytest.fixture(scope="module")
def checkout(tmp_path_factory):
    """Links to the files of this one, but for copies of those that are changed."""
    made = tmp_path_factory.mktemp("checkout")
    for it in os.listdir(TOP):
        if it in ("lists", "tools"):
            shutil.copytree(TOP / it, made / it)
        elif it == "CHANGELOG.md":
            shutil.copy(TOP / it, made / it)
        else:
            os.symlink(TOP / it, made / it)
    return made


@pytest.mark.parametrize("path, old, new, says", ROWS.values(), ids=ROWS)
def test_it_is_refused(checkout, path, old, new, says):
    before = (checkout / path).read_text(encoding="utf-8")
    assert old in before
    (checkout / path).write_text(before.replace(old, new, 1), encoding="utf-8")
    try:
        ran = subprocess.run([checkout / "tools/lists", "--check"], capture_output=True, text=True)
    finally:
        (checkout / path).write_text(before, encoding="utf-8")
    assert (ran.returncode, ran.stderr) == (1, "") and says in ran.stdout


def test_no_text_counts_the_refusals():
    """A number that is written by hand is wrong once there is another refusal."""
    form = r"[0-9]+ (refusals|reasons to refuse|checks, in order)"
    files = [".", ":!CHANGELOG.md", ":!crates", ":!dist", ":!go/vendor", ":!tests/vectors/*.json", ":!tests/test_lists.py"]
    ran = subprocess.run(["git", "grep", "-nE", form, "--", *files], cwd=TOP, capture_output=True, text=True)
    assert (ran.returncode, ran.stdout, ran.stderr) == (1, "", "")
