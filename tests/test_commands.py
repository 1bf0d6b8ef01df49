"""The program, run as a user runs it: what it prints and its exit status are those of docs/FORMATS.md.

Each row is a line of a shell, its status, and what it prints to standard output and standard error; `ANY` is anything. It runs in a folder of its
own, with the files of examples/ and those that the fixture `folder` makes."""

import itertools
import json
import os
import re
import shutil
import subprocess
import time
import tomllib

import pytest
from conftest import TOP

ANY = None
VALIDATOR = "00112233445566778899aabbccddeeff"
ON = "--bundles bundles.json --table table.txt"
CHECK = f"svid check {ON} --now 1767225600 --validator-id {VALIDATOR}"
SPIRE = CHECK.replace("bundles.json", "spire.json")
QUESTION = '3d71aa109589f3104f47c57110e5568b82e8e6b4bd2c35f5b175b2b76209a0c2 "ec-1"\n'
ACCEPTED = "accepted spiffe://example.org/billing/api 4102444800\n"
NOTHING = "moment 0\nuses 0\ntwice 0\n"
USES = [f"101 {'1' * 64} {'2' * 32} 99\n", f"101 {'1' * 64} {'3' * 32} 100"]
REPORT = f"moment 100\nuses 2\n{USES[0]}{USES[1]}\ntwice 1\n{'1' * 64} 2\n"
WITHDRAWN = f"moment 100\nuses 2\n{USES[0]}{USES[1]} withdrawn\ntwice 0\n"
NO_USES = b"JSR\2\1" + (101).to_bytes(8, "big") + bytes(4)
LONG = "spiffe://a/" + "b" * 2038
TOKEN = (TOP / "examples/token.txt").read_text().strip()
# names of keys that a terminal may take for commands, and what is printed of them
CONTROLS = "~\x7f\x80\x9b2J\x9f¡\x1b\n", "\x7f"
CONTROLLED = (
    '48e2be8adc5811ea9bbde7cb4f90eb4c737bd7dd1fde50cfce66ff3e309c7211 "~\\u007f\\u0080\\u009b2J\\u009f¡\\u001b\\n"\n'
    '0c4f61fbb4d15a4f4eed493c9fc6921c270a5016b84516ab8007f2de192a91ab "\\u007f"\n'
)
SHOWN = TOKEN[:20]  # of a token that stands where none is due
# words of many lengths, as the file `many` has them
MANY = ["x" * (10 * n + 1) for n in range(251)]


def prints(text, status=0):
    return status, text, ""


def refuses(text):
    """An answer on standard output, with status 1."""
    return 1, text, ""


def faults(line):
    """An input is not as it must be: a line on standard error, status 1."""
    return 1, "", f"svid: {line}\n"


def stops(line):
    """A file or memory is not there: a line on standard error, status 2."""
    return 2, "", f"svid: {line}\n"


def mistakes(says, command=""):
    """A mistake on the command line: one line on standard error, which names the help to ask for, status 2."""
    return 2, "", f"svid: {says}; see 'svid{command and ' '}{command} --help'\n"


HELPS = 0, ANY, ""
USAGE = 2, "", ANY
QUIET = prints("")
CUT = "message 1 place 100: Truncated"


@pytest.fixture
def folder(session, program, request):
    """A new folder with the files, and with the program as `svid` on the PATH."""
    made = session / f"commands-{next(NUMBERS)}"
    made.mkdir(mode=0o755)
    for name in ("bundles.json", "table.txt", "token.txt", "tokens.txt", "two-uses.batch"):
        shutil.copy(TOP / "examples" / name, made)
    batch, token = (made / "two-uses.batch").read_bytes(), (made / "token.txt").read_bytes()
    uses = [batch[17:82], batch[82:147]]
    one = [batch[:13] + b"\0\0\0\1" + use for use in uses]
    files = {
        "first": one[0],
        "second": one[1],
        "withdrawal": one[1][:81] + b"\1",
        "another_kind": one[1][:81] + b"\2",
        "version_1": b"JSR\1" + batch[4:17] + b"".join(use[:64] for use in uses),
        "summary_in_version_1": b"JSR\1\2" + batch[5:],
        "version_3": b"JSR\3",
        "later": NO_USES[:12] + b"\144" + bytes(4),
        "part": batch[:100],
        "twice": batch + one[0],
        "third_is_cut": one[0] + one[0] + batch[:100],
        "empty": b"",
        "lines": b"\n\r\n",
        "token_later": b"\n\r\n" + token,
        "a_line_more": (made / "table.txt").read_bytes() + b"x\n",
        "many": " ".join(MANY).encode(),
        "bad.json": b'{"A":{"keys":[]}}\n',
        "controls.json": json.dumps(
            {"a": {"keys": [{"kty": "EC", "use": "jwt-svid", "kid": it} for it in CONTROLS]}}, ensure_ascii=False
        ).encode(),
        "token_of_any_key": b"eyJhbGciOiJFUzI1NiJ9.eyJzdWIiOiJzcGlmZmU6Ly9hL2IiLCJhdWQiOiJzIiwiZXhwIjoxMDAxLCJqdGkiOiJqMSJ9.c2ln",
        "spire.json": json.dumps(json.loads((made / "bundles.json").read_text())["example.org"], indent=4).encode(),
    }
    for name, content in files.items():
        (made / name).write_bytes(content)
    (made / "loop").symlink_to("loop")
    (made / "bin").mkdir()
    (made / "bin/svid").symlink_to(program)
    yield made
    shutil.rmtree(made)


NUMBERS = itertools.count()


def run(folder, line, **how):
    known = {**os.environ, "PATH": f"{folder}/bin:{os.environ['PATH']}"}
    line = os.fsencode(line)
    ran = subprocess.run(["bash", "-c", line], cwd=folder, env=known, stdin=subprocess.DEVNULL, capture_output=True, timeout=600, **how)
    return ran.returncode, ran.stdout, ran.stderr


def expect(folder, line, answer):
    got = run(folder, line)
    due = [it if it is ANY or isinstance(it, (int, bytes)) else os.fsencode(it) for it in answer]
    assert [it if of is not ANY else ANY for it, of in zip(got, due)] == due, line[:300]
    if answer == USAGE:
        assert re.fullmatch(rb"svid: [^\n]+; see 'svid [^\n]*--help'\n", got[2]), got[2]


def short(line):
    """The line as a test's name."""
    line = line.replace(f" {ON}", "").replace(f" --now 1767225600 --validator-id {VALIDATOR}", "")
    return line[:100].encode("ascii", "replace").decode()


USUAL = [
    # help and usage
    ("svid --help", HELPS),
    ("svid id --help", HELPS),
    ("svid report --help", HELPS),
    # a mistake is one line, which has the nearest name
    (
        "svid",
        mistakes(
            "'svid' requires a subcommand but one was not provided; [subcommands: check, id, report, merge, summary, answer, candidates, refusals, help]"
        ),
    ),
    ("svid no-such-command", mistakes("unrecognized subcommand 'no-such-command'")),
    ("svid chekc", mistakes("unrecognized subcommand 'chekc'; a similar subcommand exists: 'check'")),
    ("svid reprot bad.json", mistakes("unrecognized subcommand 'reprot'; a similar subcommand exists: 'report'")),
    ("svid check --bundel x", mistakes("unexpected argument '--bundel' found; a similar argument exists: '--bundles'", "check")),
    (
        f"{CHECK} --longets 1 ledger <token.txt",
        mistakes("unexpected argument '--longets' found; a similar argument exists: '--longest'", "check"),
    ),
    ("svid candidates --bundles", mistakes("a value is required for '--bundles <FILE>' but none was supplied", "candidates")),
    (
        "svid check --now 1 ledger <token.txt",
        mistakes("the following required arguments were not provided: --bundles <FILE>; --table <FILE>; --validator-id <ID>", "check"),
    ),
    ("svid report --now x bad.json", mistakes("invalid value 'x' for '--now <N>': invalid digit found in string", "report")),
    ("svid report --now 1 --now 2", mistakes("the argument '--now <N>' cannot be used multiple times", "report")),
    ("svid id", mistakes("the following required arguments were not provided: <TEXT>", "id")),
    ("svid id a b", mistakes("unexpected argument 'b' found", "id")),
    ("svid --explain --reprot", mistakes("unexpected argument '--reprot' found")),
    # a word adds no line to it, and nothing that moves a terminal's cursor; it keeps its bytes beside these
    (r"svid id a $'b\nsvid: c'", mistakes("unexpected argument 'b; svid: c' found", "id")),
    (r"svid id a $'\x1b[2J\x7f\xc3\xa9\xff'", (2, "", b"svid: unexpected argument '[2J\xc3\xa9\xff' found; see 'svid id --help'\n")),
    # of a token it has no more than the beginning of its header, wherever that stands: who calls may keep what is printed
    (f"svid {TOKEN}", mistakes(f"unrecognized subcommand '{SHOWN}'")),
    (f"svid id a {TOKEN}", mistakes(f"unexpected argument '{SHOWN}' found", "id")),
    (f"svid id a 'Bearer {TOKEN}'", mistakes(f"unexpected argument 'Bearer {SHOWN}' found", "id")),
    (f"svid report --now {TOKEN}", mistakes(f"invalid value '{SHOWN}' for '--now <N>': invalid digit found in string", "report")),
    (f"svid report --now={TOKEN}", mistakes(f"invalid value '{SHOWN}' for '--now <N>': invalid digit found in string", "report")),
    (f"svid --{TOKEN}", mistakes(f"unexpected argument '--{SHOWN[:-2]}' found")),
    (rf"svid id a $'{TOKEN[:64]}\n{TOKEN[64:128]}\r\n{TOKEN[128:]}'", mistakes(f"unexpected argument '{SHOWN}; ; ' found", "id")),
    ("svid --version", prints(f"svid {(TOP / 'VERSION').read_text().strip()} ({(TOP / 'dist/KIT').read_text().strip()})\n")),
    # id: the text is the bytes of its word
    ("svid id spiffe://a/b", prints("domain a\npath /b\n")),
    ("svid id spiffe://a", prints("domain a\n")),
    ("svid id spiffe://a/", refuses("refused SegmentEmpty(11)\n")),
    ("svid id ''", refuses("refused Scheme\n")),
    ("svid id -- -x", refuses("refused Scheme\n")),
    (r"svid id $'spiffe://a/\xff'", refuses("refused PathByte(11)\n")),
    (r"svid id $'spiffe://a\xc3\xa9'", refuses("refused DomainByte(10)\n")),
    (f"svid id {LONG}", refuses("refused TooLong\n")),
    (f"svid id {LONG[:-1]}", HELPS),
    # candidates: the first line of standard input that is not empty, or the empty token
    ("svid candidates --bundles bundles.json", refuses("refused NotThreeParts\n")),
    ("svid candidates --bundles bundles.json <token_later", prints(QUESTION)),
    ("svid candidates --bundles=bundles.json <token_later", prints(QUESTION)),
    ("svid candidates --bundles controls.json <token_of_any_key", prints(CONTROLLED)),
    ("svid candidates --bundles bad.json <token_later", faults("bundles: Domain(0)")),
    ("svid candidates --bundles two-uses.batch <token_later", faults("bundles: NotObject")),
    ("svid candidates --bundles none <token_later", stops("cannot open none")),
    ("svid candidates --bundles / <token_later", stops("cannot read input 1")),
    ("svid candidates <token_later", USAGE),
    # a file that is the bundle of one trust domain, as SPIRE prints it
    ("svid candidates --bundles spire.json --trust-domain example.org <token_later", prints(QUESTION)),
    ("svid candidates --trust-domain=spiffe://example.org --bundles spire.json <token_later", prints(QUESTION)),
    ("svid candidates --bundles spire.json --trust-domain example.com <token_later", refuses("refused UnknownDomain\n")),
    ("svid candidates --bundles spire.json --trust-domain Example.org <token_later", faults("bundles: Domain(0)")),
    ("svid candidates --bundles spire.json --trust-domain '' <token_later", faults("bundles: Domain(0)")),
    (r"svid candidates --bundles spire.json --trust-domain $'\xff' <token_later", faults("bundles: Domain(0)")),
    ("svid candidates --bundles spire.json <token_later", faults("bundles: Unnamed")),
    ("svid candidates --bundles bundles.json --trust-domain example.org <token_later", faults("bundles: Keys(0)")),
    ("svid candidates --bundles two-uses.batch --trust-domain example.org <token_later", faults("bundles: NotObject")),
    ("svid candidates --bundles none --trust-domain example.org <token_later", stops("cannot open none")),
    ("svid candidates --bundles / --trust-domain example.org <token_later", stops("cannot read input 1")),
    ("svid report --trust-domain example.org two-uses.batch", USAGE),
    ("svid candidates --help", HELPS),
]

CHECKS = [
    # each line that is not empty is a token; each audience is a name of this service
    (f"{CHECK} ledger <token.txt", prints(ACCEPTED)),
    (f"{CHECK} other ledger third <token.txt", prints(ACCEPTED)),
    (rf"{CHECK} $'\xff' ledger <token.txt", prints(ACCEPTED)),
    (rf"{CHECK} $'\xff' <token.txt", refuses("refused NotAudience\n")),
    (f"{CHECK} Ledger <token.txt", refuses("refused NotAudience\n")),
    (f"{SPIRE} --trust-domain example.org ledger <token.txt", prints(ACCEPTED)),
    (f"{SPIRE} --trust-domain example.com ledger <token.txt", refuses("refused UnknownDomain\n")),
    (f"{SPIRE} ledger <token.txt", faults("bundles: Unnamed")),
    (
        f"{SPIRE} --trust-domain example.org/ --out kept ledger <token.txt; [ ! -e kept ]",
        prints("")[:1] + ("", "svid: bundles: Domain(0)\n"),
    ),
    # each file is open before the first one is read, also where the trust domain of that is named
    (f"{CHECK} --trust-domain example.org ledger <token.txt", faults("bundles: Keys(0)")),
    (f"{CHECK.replace('table.txt', 'none')} --trust-domain example.org ledger <token.txt", stops("cannot open none")),
    (f"{CHECK} --trust-domain example.org --record none ledger <token.txt", stops("cannot open none")),
    (f"{CHECK} --trust-domain example.org --out none/kept ledger <token.txt", stops("cannot open none/kept")),
    (rf"{CHECK} --trust-domain $'\xff' --record none ledger <token.txt", stops("cannot open none")),
    (
        f"echo as before >kept; {CHECK} --trust-domain example.org --out kept ledger <token.txt; cat kept",
        prints("as before\n")[:2] + ("svid: bundles: Keys(0)\n",),
    ),
    (f"{CHECK} $(cat many) ledger <token.txt", prints(ACCEPTED)),
    (f"{CHECK} $(cat many) <token.txt", refuses("refused NotAudience\n")),
    (f"svid merge {'two-uses.batch ' * 251} {MANY[250]}", stops(f"cannot open {MANY[250]}")),
    (f"svid check {ON} --now 4102444800 --validator-id {VALIDATOR} ledger <token.txt", refuses("refused Expired\n")),
    (f"svid check {ON} --now 4102444799 --place {VALIDATOR.upper()} ledger <token.txt", prints(ACCEPTED)),
    (
        f"svid check --bundles bundles.json --table empty --now 1 --validator-id {VALIDATOR} ledger <token.txt",
        refuses("refused BadSignature\n"),
    ),
    (
        f"{CHECK} ledger <tokens.txt",
        refuses(ACCEPTED * 3 + "refused BadSignature\nrefused NoKey\nrefused UnknownDomain\n"),
    ),
    (f"{CHECK} --out kept ledger <lines", QUIET),
    (f"{CHECK} --out kept ledger <lines && svid report kept", prints(NOTHING)),
    # --out keeps a record, and --record reads one
    (f"{CHECK} --out kept ledger <token.txt", prints(ACCEPTED)),
    (
        f"{CHECK} --out kept ledger <token.txt >out; {CHECK} --record kept ledger <token.txt",
        refuses("refused Replayed\n"),
    ),
    (f"{CHECK} --out kept ledger <token.txt >out; svid report kept", HELPS),
    # the first input that is not as it must be is named
    (
        f"svid check --bundles two-uses.batch --table table.txt --now 1 --validator-id {VALIDATOR} ledger <lines",
        faults("bundles: NotObject"),
    ),
    (
        f"svid check --bundles bundles.json --table two-uses.batch --now 1 --validator-id {VALIDATOR} ledger <lines",
        faults("table: line 1"),
    ),
    (f"{CHECK} --record part ledger <lines", faults(f"input 4 {CUT}")),
    (f"svid check --bundles none --table table.txt --now 1 --validator-id {VALIDATOR}0 ledger <lines", stops("bad place")),
    (f"svid check {ON} --now 1 --validator-id {VALIDATOR[:-1]}g ledger <lines", stops("bad place")),
    (f"svid check --bundles none --table no --now 1 --validator-id {VALIDATOR} ledger <lines", stops("cannot open none")),
    (
        f"svid check --bundles bundles.json --table no --now 1 --validator-id {VALIDATOR} --record none ledger <lines",
        stops("cannot open no"),
    ),
    (f"{CHECK} --record none --out / ledger <lines", stops("cannot open none")),
    (f"{CHECK} --out / ledger <lines", stops("cannot open /")),
    (
        f"svid check --bundles bundles.json --table / --now 1 --validator-id {VALIDATOR} ledger <lines",
        stops("cannot read input 2"),
    ),
    (
        f"svid check --bundles / --table table.txt --now 1 --validator-id {VALIDATOR} ledger <token.txt",
        stops("cannot read input 1"),
    ),
    (f"{CHECK} --record / ledger <token.txt", stops("cannot read input 4")),
    (f"{CHECK} --out no/out ledger <token.txt", stops("cannot open no/out")),
    (f"{CHECK} <lines", USAGE),
    (f"svid check {ON} --now -1 --validator-id {VALIDATOR} ledger <lines", USAGE),
    (f"svid check {ON} --now 18446744073709551616 --validator-id {VALIDATOR} ledger <lines", USAGE),
    (f"svid check {ON} --now 1 ledger <lines", USAGE),
    # the longest life: the token expires 2335219200 seconds past the moment
    (f"{CHECK} --longest 2335219200 ledger <token.txt", prints(ACCEPTED)),
    (f"{CHECK} --longest 2335219199 ledger <token.txt", refuses("refused TooLongLived\n")),
    (f"{CHECK} --longest 0 ledger <token.txt", refuses("refused TooLongLived\n")),
    (f"{CHECK} --longest=18446744073709551615 ledger <token.txt", prints(ACCEPTED)),
    (f"{CHECK} ledger --longest <token.txt", USAGE),
    (f"{CHECK} --longest -1 ledger <token.txt", USAGE),
    (f"{CHECK} --longest 18446744073709551616 ledger <token.txt", USAGE),
    ("svid check --help", HELPS),
    # several records are joined, and numbered from 4 on
    (
        f"{CHECK} --out here ledger <token.txt >out; {CHECK} --record first --record here ledger <token.txt",
        refuses("refused Replayed\n"),
    ),
    (f"{CHECK} --record first --record part ledger <token.txt", faults(f"input 5 {CUT}")),
    (f"{CHECK} --record second --record first --record / ledger <token.txt", stops("cannot read input 6")),
]

CLOSED = [
    # a closed standard stream stays closed, and no file takes its place
    ("svid candidates --bundles bundles.json <&-", stops("cannot read input 2")),
    ("svid report <&-", stops("cannot read input 1")),
    ("svid report two-uses.batch two-uses.batch <&-", prints(REPORT)),
    ("svid id spiffe://a <&-", prints("domain a\n")),
    ("svid report --help <&-", HELPS),
    ("svid candidates --bundles bundles.json <token.txt >&-", stops("cannot write")),
    (f"{CHECK} ledger <&-", stops("cannot read input 3")),
    (f"{CHECK} ledger <token.txt >&-", stops("cannot write")),
    ("svid report two-uses.batch >&-", stops("cannot write")),
    ("svid merge two-uses.batch >&-", stops("cannot write")),
    ("svid summary two-uses.batch >&-", stops("cannot write")),
    ("svid summary >nothing; svid answer --summary nothing two-uses.batch >&-", stops("cannot write")),
    ("svid summary >nothing; svid answer --summary nothing <&-", stops("cannot read input 2")),
    ("svid id spiffe://a >&-", stops("cannot write")),
    ("svid --help >&-", stops("cannot write")),
    ("svid candidates --bundles bundles.json <token.txt 2>&-", prints(QUESTION)),
    ("svid report two-uses.batch 2>&-", prints(REPORT)),
    ("svid report part 2>&-", refuses("")),
    ("svid report two-uses.batch none 2>&-", prints("", status=2)),
    ("svid id spiffe://a 2>&-", prints("domain a\n")),
    ("svid id a 2>&-", refuses("refused Scheme\n")),
    ("svid no-such-command 2>&-", prints("", status=2)),
    # a command with nothing to print
    (f"{CHECK} ledger >&-", QUIET),
]

REPORTS = [
    # files in any order and more than once, or standard input
    ("svid report", prints(NOTHING)),
    ("svid report two-uses.batch", prints(REPORT)),
    ("svid report two-uses.batch two-uses.batch", prints(REPORT)),
    ("svid report first second", prints(REPORT)),
    ("svid report second first", prints(REPORT)),
    ("svid report --now 0 two-uses.batch", prints(REPORT)),
    ("svid report --now 100 two-uses.batch", prints(REPORT)),
    ("svid report --now 101 two-uses.batch", prints("moment 101\nuses 0\ntwice 0\n")),
    ("svid report two-uses.batch --now 18446744073709551615", prints("moment 18446744073709551615\nuses 0\ntwice 0\n")),
    (f"svid report {'first second ' * 25}", prints(REPORT)),
    (f"svid report {'first second ' * 25} part", faults(f"input 51 {CUT}")),
    (f"svid report {'first second ' * 25} none", stops("cannot open none")),
    ("svid report --now 18446744073709551616 two-uses.batch", USAGE),
    ("svid report --now x two-uses.batch", USAGE),
    ("svid report --now -1 two-uses.batch", USAGE),
    ("svid report two-uses.batch none", stops("cannot open none")),
    (r"svid report $'\xff'", stops("cannot open \udcff")),
    ("svid report two-uses.batch part", faults(f"input 2 {CUT}")),
    ("svid report /", stops("cannot read input 1")),
    ("svid report token.txt/x", stops("cannot open token.txt/x")),
    ("svid report loop", stops("cannot open loop")),
    ("svid report <two-uses.batch", prints(REPORT)),
    ("svid report <twice", prints(REPORT)),
    ("svid report <third_is_cut", faults("input 1 message 3 place 100: Truncated")),
    # a withdrawal is marked, and is none of the uses that are counted under twice; version 1 is read
    ("svid report first withdrawal", prints(WITHDRAWN)),
    ("svid report withdrawal first", prints(WITHDRAWN)),
    ("svid report version_1", prints(REPORT)),
    ("svid report two-uses.batch version_1", prints(REPORT)),
    ("svid report <another_kind", faults("input 1 message 1 place 17: UseKind")),
    ("svid report <summary_in_version_1", faults("input 1 message 1 place 4: Kind")),
    ("svid report <version_3", faults("input 1 message 1 place 0: Magic")),
]

BATCH = (TOP / "examples/two-uses.batch").read_bytes()
SHARE = (
    f"{CHECK} --out here ledger <token.txt >out;"
    f" svid check {ON} --now 1767225601 --validator-id ff112233445566778899aabbccddeeff --out there ledger <token.txt >out;"
    " { head -c 81 here; printf '\\1'; } >withdrawn; svid merge here there >shared; svid merge withdrawn shared >all"
)
MERGES = [
    # the record that all batches make, in any order, more than once, and over any inputs
    ("svid merge two-uses.batch", prints(BATCH)),
    ("svid merge two-uses.batch two-uses.batch", prints(BATCH)),
    ("svid merge first second", prints(BATCH)),
    ("svid merge second first second", prints(BATCH)),
    ("svid merge two-uses.batch empty first", prints(BATCH)),
    ("svid merge version_1", prints(BATCH)),
    ("svid merge first version_1", prints(BATCH)),
    ("svid merge two-uses.batch part", faults(f"input 2 {CUT}")),
    ("svid merge two-uses.batch none", stops("cannot open none")),
    ("svid merge /", stops("cannot read input 1")),
    ("svid merge --now x two-uses.batch", USAGE),
    ("svid merge --help", HELPS),
    ("svid merge | svid report", prints(NOTHING)),
    # a group shares its records as files: what each kept, merged, is what each has then
    (f"{SHARE}; svid merge there here | cmp - shared", QUIET),
    (f"{SHARE}; svid report shared | grep -c '^twice 1$'", prints("1\n")),
    (f"{SHARE}; {CHECK} --record shared ledger <token.txt", refuses("refused Replayed\n")),
    (f"{SHARE}; {CHECK} --record withdrawn ledger <token.txt", refuses("refused Withdrawn\n")),
    (f"{SHARE}; {CHECK} --record all ledger <token.txt", refuses("refused Withdrawn\n")),
    (
        f"{SHARE}; {CHECK} --record here --record withdrawn --record first ledger <token.txt",
        refuses("refused Withdrawn\n"),
    ),
    (
        f"{SHARE}; svid report shared >due; svid report all | grep -v ' withdrawn$' | sed 's/^uses 3$/uses 2/' | cmp - due",
        QUIET,
    ),
    # --now drops what has expired by then
    ("svid merge --now 100 two-uses.batch", prints(BATCH)),
    ("svid merge --now 0 two-uses.batch", prints(BATCH)),
    ("svid merge two-uses.batch --now 101", prints(NO_USES)),
    ("svid merge --now -1 two-uses.batch", USAGE),
    ("svid merge --now +5 two-uses.batch", HELPS),
    ("svid merge --now 05 two-uses.batch", HELPS),
]

SUMS = "svid summary >nothing; svid summary two-uses.batch >own; cat own two-uses.batch >both; head -c 8204 own >short"
SUMMARIES = [
    # what one record lacks goes over, and a merge comes to the same as with all of the other
    ("svid summary >sum; wc -c <sum", prints("8205\n")),
    ("svid summary >sum; head -c 13 sum", prints(b"JSR\2\2" + bytes(8))),
    (
        "svid summary >sum; tail -c 32 sum | od -An -tx1 | tr -d ' \\n'",
        prints("e3b0c44298fc1c149afbf4c8996fb92427ae41e4649b934ca495991b7852b855"),
    ),
    (f"{SUMS}; svid answer --summary nothing two-uses.batch", prints(BATCH)),
    (f"{SUMS}; svid answer --summary nothing second first nothing", prints(BATCH)),
    (f"{SUMS}; svid answer --summary own two-uses.batch | cmp - later", QUIET),
    (f"{SUMS}; svid answer --summary own first | cmp - first", QUIET),
    (
        f"{SHARE}; svid summary here >sum; svid answer --summary sum there >told; svid merge here told | cmp - shared",
        QUIET,
    ),
    (f"{SUMS}; svid report both", prints(REPORT)),
    (f"{SUMS}; svid answer --summary two-uses.batch two-uses.batch", faults("not one summary")),
    (f"{SUMS}; svid answer --summary both two-uses.batch", faults("not one summary")),
    (f"{SUMS}; svid answer --summary empty two-uses.batch", faults("not one summary")),
    (f"{SUMS}; svid answer --summary short part", faults("input 1 message 1 place 8204: Truncated")),
    (f"{SUMS}; svid answer --summary own part", faults(f"input 2 {CUT}")),
    ("svid summary part", faults(f"input 1 {CUT}")),
    (f"{SUMS}; svid answer --summary none two-uses.batch", stops("cannot open none")),
    (f"{SUMS}; svid answer --summary own none", stops("cannot open none")),
    (f"{SUMS}; svid answer --summary / two-uses.batch", stops("cannot read input 1")),
    (f"{SUMS}; svid answer --summary own /", stops("cannot read input 2")),
    ("svid summary /", stops("cannot read input 1")),
    ("svid answer two-uses.batch", USAGE),
    ("svid answer --summary", USAGE),
    ("svid summary --now 1", USAGE),
]

SAME = f"{CHECK} --out same ledger <token.txt >out; cp same was; ln -s same link"
BAD = f"svid check --bundles bundles.json --table two-uses.batch --now 1 --validator-id {VALIDATOR}"
OUT = [
    # --out is opened before the run and replaced at its end: it may be the file of --record, also by a link
    (f"{SAME}; {CHECK} --record same ledger <token.txt", refuses("refused Replayed\n")),
    (f"{SAME}; {CHECK} --record same --out same ledger <token.txt", refuses("refused Replayed\n")),
    (f"{SAME}; {CHECK} --record link --out same ledger <token.txt", refuses("refused Replayed\n")),
    (f"{SAME}; {CHECK} --record same --out link ledger <token.txt", refuses("refused Replayed\n")),
    (
        f"{SAME}; {CHECK} --record same --out link ledger <token.txt; [ -L link ] && cmp same was",
        prints("refused Replayed\n"),
    ),
    (
        f"{SAME}; chmod 640 same; {CHECK} --record same --out same ledger <token.txt; stat -c %a same",
        prints("refused Replayed\n640\n"),
    ),
    # a refusal, a usage fault and a file that can't be opened leave the file, and make none
    (f"{SAME}; {BAD} --record same --out same ledger <token.txt; echo $?; cmp same was", (0, "1\n", "svid: table: line 1\n")),
    (
        f"{SAME}; {BAD.replace('two-uses.batch', 'none')} --record same --out same ledger <token.txt; echo $?; cmp same was",
        (0, "2\n", "svid: cannot open none\n"),
    ),
    (
        f"{SAME}; svid check {ON} --now 1 --validator-id x --record same --out same ledger <token.txt; echo $?; cmp same was",
        (0, "2\n", "svid: bad place\n"),
    ),
    (f"{SAME}; {CHECK} --record part --out same ledger <token.txt; echo $?; cmp same was", (0, "1\n", f"svid: input 4 {CUT}\n")),
    (
        f"cp table.txt own; svid check --bundles two-uses.batch --table own --now 1 --validator-id {VALIDATOR} --out own ledger <token.txt;"
        " echo $?; cmp own table.txt",
        (0, "1\n", "svid: bundles: NotObject\n"),
    ),
    (
        f"cp bundles.json own; svid check --bundles own --table table.txt --now 1 --validator-id {VALIDATOR} --record part --out own ledger <token.txt;"
        " echo $?; cmp own bundles.json",
        (0, "1\n", f"svid: input 4 {CUT}\n"),
    ),
    (f"{CHECK} --record part --out fresh ledger <token.txt; echo $?; [ ! -e fresh ]", (0, "1\n", f"svid: input 4 {CUT}\n")),
    # nothing is left beside it; where a run was killed while it wrote, what it left stays, and is in nobody's way
    (
        f"{SAME}; {CHECK} --record same --out same ledger <token.txt >out; ls | grep -c '[.]svid-'",
        prints("0\n", status=1),
    ),
    (
        f"{SAME}; echo left >same.svid-0; {CHECK} --record same --out same ledger <token.txt; cat same.svid-0; [ ! -e same.svid-1 ] && cmp same was",
        prints("refused Replayed\nleft\n"),
    ),
    # a run that is killed while it reads leaves the record (more than a pipe holds is written, so the program has read the token, and reads on)
    (
        f"{SAME}; mkfifo slow; {CHECK} --record same --out same ledger <slow >out 2>&1 & exec 5>slow;"
        " { cat token.txt; head -c 1000000 /dev/zero | tr '\\0' '\\n'; } >&5;"
        " kill -9 $!; wait $! 2>/dev/null; cmp same was",
        QUIET,
    ),
    # the record is kept whole before the first line, also where no line can be written
    (f"{SAME}; {CHECK} --out new ledger <token.txt >&-; echo $?; cmp same new", (0, "2\n", "svid: cannot write\n")),
]


def explains(status, line, sentence):
    """A fault line, and behind it the same in words."""
    return status, "", f"svid: {line}\n{sentence}\n"


REFUSED, STOPPED = 1, 2
WROTE = "Name a whole file that svid wrote."
OPENED = (
    "There is no such file, or you may not open it, or its name is not UTF-8."
    " Look at the name, and at who may read the file, or write to that of --out."
)
WRITTEN = "A write to standard output failed, or one to the file of --out. Leave standard output open, and see that the disk has room."
BUNDLES = "is no file of trust bundles"
SUMMARY = "Let the other validator write one with svid summary."
RANK = "others in rising order."
E = "svid --explain"
QUESTIONS = "Write one question a line."
BAD_ID = "The value of --validator-id is not 32 hexadecimal digits. Choose 32 that no other validator has, and give them each time."


def cut(name, message=1):
    """What is said of messages that end within one."""
    says = "the bytes end before the message does, and due is the rest of the message"
    return f"{name} is no message of svid: message {message} is bad from byte 100 on: {says}. {WROTE}"


def begins(name, byte):
    """What is said of an input that begins with another byte than J."""
    return f"{name} is no message of svid: byte 0 is {byte}, where JSR is due. Name a file that svid wrote."


def unreadable(name):
    return f"A read of {name} failed. Name a file, and no folder, or leave standard input open."


def bad(name, offset, reason):
    return f"{name} is no message of svid: message 1 is bad from byte {offset} on: {reason}. {WROTE}"


EXPLAINED = [
    # behind the line stands one more, and the option may stand in front of the command, behind it and between words
    (f"{E} report bad.json", explains(REFUSED, "input 1 message 1 place 0: Magic", begins("bad.json", "7b"))),
    ("svid report --explain bad.json", explains(REFUSED, "input 1 message 1 place 0: Magic", begins("bad.json", "7b"))),
    ("svid report bad.json --explain", explains(REFUSED, "input 1 message 1 place 0: Magic", begins("bad.json", "7b"))),
    ("SVID_EXPLAIN=1 svid report bad.json", explains(REFUSED, "input 1 message 1 place 0: Magic", begins("bad.json", "7b"))),
    # nothing else asks for it
    ("SVID_EXPLAIN=0 svid report bad.json", faults("input 1 message 1 place 0: Magic")),
    ("SVID_EXPLAIN= svid report bad.json", faults("input 1 message 1 place 0: Magic")),
    ("SVID_EXPLAIN=11 svid report bad.json", faults("input 1 message 1 place 0: Magic")),
    ("svid report -- --explain", stops("cannot open --explain")),
    # an answer has none, and no fault of usage
    (f"{E} report two-uses.batch", prints(REPORT)),
    (f"{E} id ''", refuses("refused Scheme\n")),
    (f"SVID_EXPLAIN=1 {CHECK} Ledger <token.txt", refuses("refused NotAudience\n")),
    (f"{E} report --now x two-uses.batch", USAGE),
    ("svid --explain --help", HELPS),
    (f"{E} --explain report", USAGE),
    # messages: the input by its name, wherever it stands among the others
    (f"{E} report <bad.json", explains(REFUSED, "input 1 message 1 place 0: Magic", begins("standard input", "7b"))),
    (f"{E} report first token.txt", explains(REFUSED, "input 2 message 1 place 0: Magic", begins("token.txt", "65"))),
    (f"{E} merge first second part", explains(REFUSED, f"input 3 {CUT}", cut("part"))),
    (f"{E} report <third_is_cut", explains(REFUSED, "input 1 message 3 place 100: Truncated", cut("standard input", 3))),
    (f"{E} summary first part", explains(REFUSED, f"input 2 {CUT}", cut("part"))),
    (f"{CHECK} --explain --record first --record part ledger <lines", explains(REFUSED, f"input 5 {CUT}", cut("part"))),
    (f"{CHECK} --explain --record bad.json ledger <lines", explains(REFUSED, "input 4 message 1 place 0: Magic", begins("bad.json", "7b"))),
    (
        f"svid summary >own; {E} answer --summary own first part",
        explains(REFUSED, f"input 3 {CUT}", cut("part")),
    ),
    (f"svid summary >own; {E} answer --summary own <part", explains(REFUSED, f"input 2 {CUT}", cut("standard input"))),
    (f"{E} answer --summary bad.json first", explains(REFUSED, "input 1 message 1 place 0: Magic", begins("bad.json", "7b"))),
    (
        "printf 'J\\n' >begins_so; svid --explain report begins_so 2>&1 | tail -n 1",
        prints(cut("begins_so").replace("100", "2") + "\n"),
    ),
    (
        "cat first bad.json >second_is_bad; svid --explain report second_is_bad 2>&1 | cut -d : -f 1,2",
        prints("svid: input 1 message 2 place 0\nsecond_is_bad is no message of svid: message 2 is bad from byte 0 on\n"),
    ),
    (
        f"{E} report version_3",
        explains(
            REFUSED,
            "input 1 message 1 place 0: Magic",
            bad("version_3", 0, "the first four bytes are those of no version, and due is 4A 53 52, which is JSR, and then 02 or 01"),
        ),
    ),
    (
        f"{E} report summary_in_version_1",
        explains(
            REFUSED,
            "input 1 message 1 place 4: Kind",
            bad(
                "summary_in_version_1",
                4,
                "the fifth byte is that of no kind of message of the version, and due is 01 for a batch, or 02 for a summary, which only version 2 has",
            ),
        ),
    ),
    (
        f"{E} report another_kind",
        explains(
            REFUSED,
            "input 1 message 1 place 17: UseKind",
            bad("another_kind", 17, "the last byte of a use is neither 0 nor 1, and due is a use whose last byte is 00 or 01"),
        ),
    ),
    (
        f"{E} answer --summary first second",
        explains(REFUSED, "not one summary", f"first is no summary of svid: it is messages, but not one summary. {SUMMARY}"),
    ),
    # bundles, the table, the validator ID
    (
        f"{E} candidates --bundles two-uses.batch <lines",
        explains(
            REFUSED,
            "bundles: NotObject",
            f"two-uses.batch {BUNDLES}: no JSON object. Write one object that has a JWK Set under the name of each trust domain.",
        ),
    ),
    (
        f"{E} candidates --bundles bad.json <lines",
        explains(
            REFUSED,
            "bundles: Domain(0)",
            f"bad.json {BUNDLES}: a name is no trust domain name. It is the one behind 0 {RANK} Correct that name, or take it out.",
        ),
    ),
    (
        """echo '{"b":{"keys":1},"a":{"keys":[]}}' >keys; svid --explain candidates --bundles keys <lines""",
        explains(
            REFUSED,
            "bundles: Keys(1)",
            f"keys {BUNDLES}: a name has no list of keys. It is the one behind 1 {RANK} Write a JWK Set under that name, or take it out.",
        ),
    ),
    (
        f"{CHECK} --explain ledger <lines".replace("table.txt", "a_line_more"),
        explains(
            REFUSED,
            "table: line 4",
            f"a_line_more is no table of questions: a line is neither empty nor a question. It is line 4. {QUESTIONS}",
        ),
    ),
    (f"{CHECK}0 --explain ledger <lines", explains(STOPPED, "bad place", BAD_ID)),
    # files and streams
    (f"{E} report none", explains(STOPPED, "cannot open none", OPENED)),
    (r"svid --explain report $'\xff'", explains(STOPPED, "cannot open \udcff", OPENED)),
    (f"{E} report first /", explains(STOPPED, "cannot read input 2", unreadable("/"))),
    (f"{E} report <&-", explains(STOPPED, "cannot read input 1", unreadable("standard input"))),
    (f"{E} candidates --bundles bundles.json <&-", explains(STOPPED, "cannot read input 2", unreadable("standard input"))),
    (f"{CHECK} --explain ledger <&-", explains(STOPPED, "cannot read input 3", unreadable("standard input"))),
    (f"{CHECK} --explain ledger <lines".replace("table.txt", "/"), explains(STOPPED, "cannot read input 2", unreadable("/"))),
    ("mkdir ä; svid --explain report ä", explains(STOPPED, "cannot read input 1", unreadable("ä"))),
    (f"{E} report two-uses.batch >&-", explains(STOPPED, "cannot write", WRITTEN)),
    (f"{E} --help >&-", explains(STOPPED, "cannot write", WRITTEN)),
    ("SVID_EXPLAIN=1 svid --version >&-", explains(STOPPED, "cannot write", WRITTEN)),
    (f"{E} report part 2>&-", refuses("")),
    # and what the first line, standard output and the status are, they are without it
    (
        f"{CHECK} --explain --record part --out fresh ledger <token.txt; echo $?; [ ! -e fresh ]",
        (0, "1\n", f"svid: input 4 {CUT}\n{cut('part')}\n"),
    ),
]


GROUPS = {
    "help": USUAL,
    "check": CHECKS,
    "a closed stream": CLOSED,
    "report": REPORTS,
    "merge": MERGES,
    "summary and answer": SUMMARIES,
    "out": OUT,
    "explain": EXPLAINED,
}
ROWS = [pytest.param(*row, id=f"{group}: {short(row[0])}") for group, rows in GROUPS.items() for row in rows]


@pytest.mark.parametrize("line, answer", ROWS)
def test_a_command(folder, line, answer):
    expect(folder, line, answer)


def test_a_word_keeps_its_bytes(folder):
    word = bytes(range(1, 256))
    ran = subprocess.run([folder / "bin/svid", "merge", word], stdin=subprocess.DEVNULL, capture_output=True)
    assert (ran.returncode, ran.stdout, ran.stderr) == (2, b"", b"svid: cannot open " + word + b"\n")


def test_refusals_are_those_of_the_list(folder):
    printed = run(folder, "svid refusals --json")[1]
    listed = [(it["number"], it["name"], it["sentence"].replace("`", "")) for it in json.loads(printed)]
    due = tomllib.loads((TOP / "lists/refusals.toml").read_text(encoding="utf-8"))["refusal"]
    assert [it[:2] for it in listed] == [(it["number"], it["name"]) for it in due]
    expect(folder, "svid refusals", prints("".join("{} {}: {}\n".format(*it) for it in listed)))


@pytest.mark.parametrize("command", ["", "check", "id", "report", "merge", "summary", "answer", "candidates"])
def test_help_says_what_is_read_and_the_statuses(folder, command):
    _, text, _ = run(folder, f"svid {command} --help")
    assert b"standard input" in text and b"Exit status: 0 " in text


@pytest.mark.parametrize(
    "line",
    ["svid report locked", f"{CHECK} --record locked ledger <token.txt", "svid answer --summary locked two-uses.batch"],
)
def test_a_file_that_may_not_be_read(folder, program, line):
    """(root may read any file, so it asks as nobody)"""
    (folder / "locked").write_bytes(b"")
    (folder / "locked").chmod(0)
    if os.geteuid() == 0:
        if not shutil.which("setpriv"):
            pytest.skip("root may read any file, and setpriv is not there")
        shutil.copy(program, folder / "program")
        (folder / "program").chmod(0o755)
        (folder / "bin/svid").unlink()
        (folder / "bin/svid").write_text(f'#!/bin/sh\nexec setpriv --reuid=65534 --regid=65534 --clear-groups {folder}/program "$@"\n')
        (folder / "bin/svid").chmod(0o755)
    expect(folder, line, stops("cannot open locked"))


def long_record(path):
    """A record of 67,108,872 bytes, 8 more than may be read at once."""
    with open(path, "wb") as file:
        for at in range(0, 1032440, 65536):
            count = min(65536, 1032440 - at)
            file.write(b"JSR\2\1" + (100).to_bytes(8, "big") + count.to_bytes(4, "big"))
            file.write(b"".join((101).to_bytes(8, "big") + n.to_bytes(32, "big") + bytes(25) for n in range(at, at + count)))


def test_a_record_that_is_too_long_is_read_in_parts(folder, pytestconfig):
    if pytestconfig.getoption("brief"):
        return
    long_record(folder / "long")
    assert (folder / "long").stat().st_size == 67108872
    expect(folder, "svid merge --now 101 long", stops("input 1 too long"))
    expect(folder, "split -b 4259857 long part.", QUIET)
    expect(folder, "svid merge --now 101 part.*", prints(NO_USES))
    expect(folder, f"{CHECK} $(printf -- '--record %s ' part.*) ledger <token.txt", prints(ACCEPTED))


def test_input_that_is_not_ready_is_waited_for(folder):
    ours, theirs = os.pipe()
    os.set_blocking(ours, False)
    with subprocess.Popen([folder / "bin/svid", "report"], stdin=ours, stdout=subprocess.PIPE) as child:
        # the program has found nothing to read once it sleeps; the kernel tells that when it is asked, and by no event
        end = time.monotonic() + 180
        while time.monotonic() < end and "nanosleep" not in open(f"/proc/{child.pid}/wchan").read():
            time.sleep(0.001)
        os.write(theirs, BATCH)
        os.close(theirs)
        os.close(ours)
        out, _ = child.communicate(timeout=180)
    assert child.returncode == 0 and out.startswith(b"moment 100\nuses 2\n")


def test_each_fault_line_has_its_sentence(folder):
    """Whatever line a row above waits for, one line more stands behind it in words, and all else is the same."""
    rows = [(line, answer) for rows in (CHECKS, CLOSED, REPORTS, SUMMARIES) for line, answer in rows if answer[2] not in ("", ANY)]
    assert len(rows) > 40
    for line, answer in rows:
        status, out, told = run(folder, f"export SVID_EXPLAIN=1; {line}")
        first, sentence, rest = told.split(b"\n")
        assert (status, out, first + b"\n") == (answer[0], os.fsencode(answer[1]), os.fsencode(answer[2])), line[:300]
        assert sentence.endswith(b".") and not sentence.startswith(b"svid: ") and rest == b"", line[:300]


WRITERS = [
    "svid report two-uses.batch",
    "svid merge two-uses.batch",
    "svid summary two-uses.batch",
    "svid answer --summary nothing two-uses.batch",
    "svid candidates --bundles bundles.json <token.txt",
    f"{CHECK} ledger <token.txt",
    "svid id spiffe://a",
    "svid --help",
]


@pytest.mark.parametrize("line", [*(f"{line} >/dev/full" for line in WRITERS), f"{CHECK} --out /dev/full ledger <token.txt"])
def test_a_full_device(folder, line):
    expect(folder, f"svid summary >nothing; {line}", stops("cannot write"))


@pytest.mark.parametrize("line", WRITERS)
def test_a_pipe_that_no_one_reads(folder, line):
    """The program is not killed, and does not wait."""
    expect(folder, f"svid summary >nothing; mkfifo pipe; exec 3<>pipe 4>pipe 3<&-; {line} >&4", stops("cannot write"))


@pytest.mark.parametrize(
    "line",
    [
        "svid candidates --bundles bundles.json",
        "svid candidates --bundles long",
        f"{CHECK} --out kept ledger",
        f"svid check --bundles bundles.json --table long --now 1 --validator-id {VALIDATOR} ledger",
    ],
)
def test_a_long_input_in_little_memory(folder, line):
    """The program says that it is out of memory, and writes nothing."""
    (folder / "long").write_bytes(b"\n" * 60_000_000)
    expect(folder, f"ulimit -Sv 60000; {line} <long", stops("out of memory"))
    assert not (folder / "kept").exists()
