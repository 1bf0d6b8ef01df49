"""Wrong bodies, as files list them: what tools/wrong, tools/wrong_bodies.py and tools/cases read.

A file NAME.edits lists the wrong bodies of a crate, or of a package. Each line is a word, a colon and a text:

    file: PATH      the file that the wrong bodies below change, until the next such line
    crate: NAME     the crate that this file is in, where it is not plain from the folder
    body: NAME      a wrong body begins
    why: TEXT       why it is wrong
    proved:         the prover lets it through, and a case must fail
    old: TEXT       what stands there once: a line, or a part of one. Several such lines are one text of several lines
    new: TEXT       what is to stand there instead; further pairs of 'old:' and 'new:' may follow
    test: ID        a test that must catch it; further ones may follow

Empty lines, and lines that begin with '#', say nothing."""

import os
from dataclasses import dataclass, field

ENDING = ".edits"


class Unreadable(Exception):
    """A line that stands at no place."""


@dataclass
class Pair:
    """A text that stands once in a file, and the text that is to stand there instead, both by their lines."""

    path: str
    crate: str
    old: list = field(default_factory=list)
    new: list = field(default_factory=list)

    def texts(self):
        """Both, each as one text."""
        return "\n".join(self.old), "\n".join(self.new)


@dataclass
class Edit:
    """A wrong body."""

    name: str
    pairs: list = field(default_factory=list)
    why: str = ""
    tests: list = field(default_factory=list)
    is_proved: bool = False

    def fault(self):
        """Why it can't be tried, or nothing."""
        if not self.pairs or not all(it.old and it.new for it in self.pairs):
            return "it has no pair of lines 'old:' and 'new:'"
        return ""


class Reader:
    """Reads the lines of a file."""

    def __init__(self, *edits):
        self.edits = [*edits]
        self.path = self.crate = self.before = ""

    def line(self, line):
        """Takes one line."""
        word, colon, rest = line.partition(":")
        take = getattr(self, f"_{word}", None)
        if not colon or take is None or (word not in ("file", "crate", "body") and not self.edits):
            raise Unreadable(f"this line stands at no place: {line}")
        take(rest.removeprefix(" "))
        self.before = word

    def _file(self, rest):
        self.path = rest

    def _crate(self, rest):
        self.crate = rest

    def _body(self, rest):
        self.edits.append(Edit(rest))

    def _why(self, rest):
        self.edits[-1].why = rest

    def _proved(self, _):
        self.edits[-1].is_proved = True

    def _test(self, rest):
        self.edits[-1].tests.append(rest)

    def _old(self, rest):
        if self.before != "old":
            self.edits[-1].pairs.append(Pair(self.path, self.crate))
        self.edits[-1].pairs[-1].old.append(rest)

    def _new(self, rest):
        if self.before not in ("old", "new"):
            raise Unreadable(f"this line has no 'old:' before it: new: {rest}")
        self.edits[-1].pairs[-1].new.append(rest)


def read(path, *begun):
    """The wrong bodies of a file, in their order, the begun ones first."""
    reader = Reader(*begun)
    with open(path, encoding="utf-8") as file:
        for number, line in enumerate(file.read().split("\n"), 1):
            if not line or line.startswith("#"):
                continue
            try:
                reader.line(line)
            except Unreadable as why:
                raise Unreadable(f"{path}:{number}: {why}") from None
    return reader.edits


def read_one(path):
    """The one wrong body of a file of must-fail/, which rt reads too: it has no line 'body:'."""
    return read(path, Edit(os.path.basename(path)))[0]


def below(folder):
    """The wrong bodies of all files of a folder and of those in it, by their names, which differ."""
    found = {}
    for at, folders, files in os.walk(folder):
        folders.sort()
        for name in sorted(files):
            if not name.endswith(ENDING):
                continue
            for edit in read(f"{at}/{name}"):
                if edit.name in found:
                    raise Unreadable(f"{at}/{name}: another wrong body has the name {edit.name}")
                found[edit.name] = edit
    return found
