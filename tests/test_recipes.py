"""The recipes of docs/OPERATIONS.md, as they are printed there, lose nothing: not where they are killed, and not where several run at once.

Each recipe first runs whole. Then one after the other is killed by SIGKILL at a random moment of its run: every other time the shell alone, whose
commands then go on. After each kill the record must be whole, must have each use that it ever had, and the use of each acceptance that stands in the
file of answers and of each message that is gone. In the end each runs whole once more, and each token whose acceptance was answered is refused.
`--kills N` and `--seed N` choose how many kills there are, and when."""

import base64
import hashlib
import json
import os
import random
import re
import select
import signal
import subprocess
import time

import pytest
from conftest import PATIENCE, TOP

EXPIRY = 4102444800
VALIDATOR_ID = "00112233445566778899aabbccddeeff"
BATCH_USES = 65536
# How many uses the record begins with: two batches and a part of one.
FIRST_USES = 140000
KEY = {"crv": "P-256", "kid": "k", "kty": "EC", "use": "jwt-svid", "x": "AA", "y": "AA"}
# Each recipe, with the heading that it stands under, and which of them it is there.
HEADINGS = {
    "check": ("Check tokens", 0),
    "join": ("Join what others told", 0),
    "cut": ("When the record is too long", 0),
    "check parts": ("When the record is too long", 1),
    "bundles": ("Bundles from SPIRE", 0),
}
NAMES = ["check", "join", "cut", "check parts"]


def recipe(name):
    """The shell commands of a recipe, as the page has them."""
    heading, number = HEADINGS[name]
    section = re.search(rf"^### {re.escape(heading)}\n(.*?)(?=^##)", (TOP / "docs/OPERATIONS.md").read_text(), re.M | re.S)
    return re.findall(r"^```sh\n(.*?)^```", section[1], re.M | re.S)[number]


def base64url(text):
    return base64.urlsafe_b64encode(text).rstrip(b"=")


def use_text(key, at):
    return EXPIRY.to_bytes(8, "big") + key + bytes.fromhex(VALIDATOR_ID) + at.to_bytes(8, "big") + b"\0"


def batches(uses, moment):
    """The text of a record of these rising uses."""
    parts = [uses[first : first + BATCH_USES] for first in range(0, len(uses), BATCH_USES)]
    return b"".join(b"JSR\2\1" + moment.to_bytes(8, "big") + len(part).to_bytes(4, "big") + b"".join(part) for part in parts)


def uses_in(text):
    """All uses of a record's text, which is whole."""
    found, at = set(), 0
    while at < len(text):
        assert text[at : at + 5] == b"JSR\2\1", f"the record has no batch at byte {at}"
        end = at + 17 + 65 * int.from_bytes(text[at + 13 : at + 17], "big")
        assert end <= len(text), "the record is cut"
        found.update(text[it : it + 65] for it in range(at + 17, end, 65))
        at = end
    return found


class Token:
    """A token that nobody signed, and the question to which the table says yes all the same."""

    def __init__(self, number):
        jti = f"t{number}".encode()
        payload = b'{"sub":"spiffe://a/b","aud":"ledger","exp":%d,"jti":"%s"}' % (EXPIRY, jti)
        signed = base64url(b'{"alg":"ES256","kid":"k"}') + b"." + base64url(payload)
        fields = (b"a", json.dumps(KEY, separators=(",", ":")).encode(), b"ES256", signed, b"sig")
        self.text = signed + b"." + base64url(b"sig")
        self.question = hashlib.sha256(b"".join(len(it).to_bytes(4, "big") + it for it in fields)).hexdigest()
        self.key = hashlib.sha256(b"\1" + (1).to_bytes(4, "big") + b"a" + jti).digest()


class Run:
    """A recipe that runs, in a process group of its own."""

    def __init__(self, name, folder, environment):
        # (each of its processes has the pipe's other end, so the pipe ends with the last of them)
        self.ended, alive = os.pipe()
        how = {"cwd": folder, "env": environment, "stdin": subprocess.DEVNULL, "stderr": subprocess.DEVNULL}
        self.shell = subprocess.Popen(["bash", "-c", recipe(name)], start_new_session=True, pass_fds=[alive], **how)
        os.close(alive)

    def waits(self):
        """Waits for the end of all its processes, and answers the status of the shell."""
        if not select.select([self.ended], [], [], PATIENCE)[0]:
            os.killpg(self.shell.pid, signal.SIGKILL)
            raise AssertionError("a recipe does not end")
        assert os.read(self.ended, 1) == b""
        os.close(self.ended)
        return self.shell.wait(PATIENCE)

    def kills(self, only_shell):
        """Kills it, or the shell alone, and says whether that still ran."""
        if self.shell.poll() is not None:
            return False
        if only_shell:
            self.shell.kill()
        else:
            os.killpg(self.shell.pid, signal.SIGKILL)
        return True


class Room:
    """The folder of a validator, and what must be in its record."""

    def __init__(self, folder, program, kills):
        self.folder, self.program = folder, program
        self.tokens, self.asked, self.accepted, self.told = [Token(it) for it in range(2 * kills + 2 * len(NAMES))], 0, set(), 0
        commands = folder / "bin"
        commands.mkdir()
        (commands / "svid").symlink_to(program)
        bundle = json.dumps({"keys": [{"use": "x509-svid", "kty": "EC"}, KEY], "spiffe_sequence": 1})
        (commands / "spire-server").write_text(
            "#!/bin/sh\n[ ! -e fails ] || exit 1\n[ ! -e silent ] || exit 0\n"
            f"[ \"$*\" = 'bundle show -format spiffe' ] && echo '{bundle}'\n"
        )
        (commands / "spire-server").chmod(0o755)
        self.environment = {**os.environ, "PATH": f"{commands}:{os.environ['PATH']}", "validator_id": VALIDATOR_ID}
        (folder / "bundles.json").write_text(json.dumps({"a": {"keys": [KEY]}}))
        (folder / "table.txt").write_text("".join(f"{it.question}\n" for it in self.tokens))
        first = [use_text(number.to_bytes(32, "big"), 0) for number in range(FIRST_USES)]
        (folder / "kept").write_bytes(batches(first, 1))
        self.must = set(first)

    def has(self, command, does):
        """Lets another command stand in the place of one."""
        path = self.folder / "bin" / command
        path.unlink(missing_ok=True)
        path.write_text(f"#!/bin/sh\n{does}\n")
        path.chmod(0o755)

    def starts(self, name):
        return Run(name, self.folder, self.environment)

    def prepares(self, name):
        """Puts a new token, or a new message, where the recipe looks for it."""
        (self.folder / "answers").unlink(missing_ok=True)
        if name.startswith("check"):
            (self.folder / "tokens").write_bytes(self.tokens[self.asked].text + b"\n")
            self.asked += 1
        if name == "join" and not self.has_message():
            self.told += 1
            (self.folder / "new").write_bytes(batches([self.told_use()], 2))
            (self.folder / "told").hardlink_to(self.folder / "new")
            (self.folder / "new").unlink()

    def has_message(self):
        """Whether a message waits to be joined."""
        return any((self.folder / it).exists() for it in ("told", "told.now"))

    def told_use(self):
        return use_text(b"\xff" * 28 + self.told.to_bytes(4, "big"), 2)

    def answer(self):
        path = self.folder / "answers"
        return path.read_text() if path.exists() else ""

    def looks(self):
        """Looks for all uses that must be there."""
        uses = uses_in((self.folder / "kept").read_bytes())
        assert self.must <= uses, f"the record lost {len(self.must - uses)} of its uses"
        if self.answer().startswith("accepted"):
            self.accepted.add(self.tokens[self.asked - 1].key)
        assert self.accepted <= {it[8:40] for it in uses}, "the record has no use of a token whose acceptance was answered"
        if not self.has_message() and self.told:
            assert self.told_use() in uses, "the message is gone, and its use is not in the record"
        self.must = uses

    def runs_whole(self, name):
        """Runs a recipe to its end, which must be good, and answers how long it took."""
        self.prepares(name)
        begun = time.monotonic()
        assert self.starts(name).waits() == 0, f"the recipe '{name}' fails"
        took = time.monotonic() - begun
        if name.startswith("check"):
            assert self.answer().startswith("accepted spiffe://a/b ")
        if name == "join":
            assert not self.has_message(), "the recipe 'join' leaves its message"
        self.looks()
        return took

    def kills(self, name, within, only_shell):
        """Kills a recipe at a random moment of so many seconds, and says whether it still ran."""
        self.prepares(name)
        run = self.starts(name)
        time.sleep(random.uniform(0, within))
        hit = run.kills(only_shell)
        run.waits()
        self.looks()
        return hit

    def runs_at_once(self, names):
        for name in names:
            self.prepares(name)
        assert [it.waits() for it in [self.starts(name) for name in names]] == [0] * len(names), "one of several recipes at once fails"
        self.looks()

    def refuses_all(self):
        """Each token whose acceptance was answered is refused now."""
        used = [it for it in self.tokens if it.key in self.accepted]
        (self.folder / "answers").unlink(missing_ok=True)
        (self.folder / "tokens").write_bytes(b"".join(it.text + b"\n" for it in used))
        self.starts("check").waits()
        assert self.answer() == "refused Replayed\n" * len(used)


@pytest.fixture
def kills(pytestconfig):
    random.seed(pytestconfig.getoption("seed"))
    return pytestconfig.getoption("kills")


@pytest.fixture
def room(tmp_path, program, kills):
    return Room(tmp_path, program, kills)


@pytest.mark.parametrize("fault", ["fails", "silent"])
def test_old_bundles_stay_where_there_are_no_others(room, fault):
    old = (room.folder / "bundles.json").read_text()
    (room.folder / fault).touch()
    assert room.starts("bundles").waits() != 0 and (room.folder / "bundles.json").read_text() == old


def test_bundles_are_renewed(room):
    room.runs_whole("bundles")
    assert json.loads((room.folder / "bundles.json").read_text())["example.org"]["spiffe_sequence"] == 1


@pytest.mark.parametrize("name", NAMES)
def test_a_recipe_that_gets_no_lock_changes_nothing(room, name):
    """As on a file system that has none: of two that run at once, the uses of one would be lost."""
    room.has("flock", "exit 1")
    room.prepares(name)
    before = (room.folder / "kept").read_bytes()
    assert room.starts(name).waits() == 2
    assert (room.folder / "kept").read_bytes() == before and not room.answer() and (name != "join" or (room.folder / "told").exists())


def test_a_message_that_comes_meanwhile_is_looked_at_too(room):
    """A message of the time 2^64-1 would empty the record. It comes once the one before it was looked at."""
    late, text = room.folder / "late", b"JSR\2\1" + b"\xff" * 8 + bytes(4)
    late.write_bytes(text)
    room.has("svid", f'{room.program} "$@" || exit; [ "$1" != report ] || mv {late} {room.folder}/told')
    room.prepares("join")
    assert room.starts("join").waits() == 0
    assert room.must | {room.told_use()} == uses_in((room.folder / "kept").read_bytes())
    assert (room.folder / "told").read_bytes() == text, "a message is gone that was not joined"
    (room.folder / "bin/svid").unlink()
    (room.folder / "bin/svid").symlink_to(room.program)
    assert room.starts("join").waits() == 1 and not (room.folder / "told").exists()
    assert (room.folder / "told.bad").read_bytes() == text
    # Another one of that kind stays beside it.
    other = b"JSR\2\1" + b"\xfe" * 8 + bytes(4)
    (room.folder / "told").write_bytes(other)
    assert room.starts("join").waits() == 1
    assert (room.folder / "told.bad").read_bytes() == text and (room.folder / "told.now").read_bytes() == other
    (room.folder / "told.now").unlink()
    room.runs_whole("join")


def test_killed_recipes_lose_nothing(room, kills):
    took = {name: room.runs_whole(name) for name in NAMES}
    hit = 0
    for number in range(kills):
        name = NAMES[number % len(NAMES)]
        hit += room.kills(name, 1.1 * took[name], number // len(NAMES) % 2 == 1)
        if number % len(NAMES) == 0:
            room.runs_at_once(["check", "join", "cut"])
    for name in NAMES:
        room.runs_whole(name)
    room.refuses_all()
    print(f"{kills} kills, {hit} of them within a recipe, {len(room.accepted)} acceptances answered, {len(room.must)} uses, none lost")
    assert hit, "no kill was within a recipe"
