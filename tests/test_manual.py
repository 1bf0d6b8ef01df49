"""The man pages and docs/FORMATS.md say of the program what it says itself, and what stands in its sources."""

import os
import re
import shutil
import subprocess
import tomllib

import pytest
from conftest import TOP, needs

# The options that every command has, which the page has once.
EVERY = {"explain"}
SIDECAR_PAGE = TOP / "tools/packaging/man/svidd.8"
PAGE = TOP / "tools/packaging/man/svid.1"


def text_of(path):
    return (TOP / path).read_text()


def run(*words, **how):
    return subprocess.run(words, stdin=subprocess.DEVNULL, capture_output=True, text=True, timeout=600, **how)


# What the program and its sources say


def helps(program):
    """The commands of the program in their order, each with its options, their values, which must be there, and whether it takes files."""
    listed = run(program, "--help").stdout.split("\nCommands:\n")[1].split("\n\n")[0]
    said = {}
    for command in re.findall(r"^  (\w+) ", listed, re.M):
        text = run(program, *(("help", "help") if command == "help" else (command, "--help"))).stdout
        options = dict(re.findall(r"^ +(?:-h, )?--([\w-]+)(?: <(\w+)>)?  ", text, re.M))
        usage = re.search(r"^Usage: (.*)$", text, re.M)[1]
        assert command == "help" or "help" in options, f"svid {command} --help has no --help"
        options.pop("help", None)
        # (those of every command stand last in its list, and somewhere in its help)
        options |= {name: options.pop(name) for name in EVERY & set(options)}
        said[command] = options, set(re.findall(r"--([\w-]+)", usage)), "[FILE]..." in usage
    assert len(said) > 7 and said["check"][0], "the help of the program can't be read"
    return said


def variants(path, name, *without):
    body = re.search(rf"pub enum {name} \{{\n(.*?)\n\}}", text_of(path), re.S)[1]
    return [it for it in re.findall(r"^    (\w+(?:\(usize\))?),$", body, re.M) if it not in without]


def table(path, heading):
    """The rows of the table that has this heading, each with its columns."""
    rows = text_of(path).split(f"\n{heading}\n")[1].split("\n\n")[0].splitlines()[1:]
    return [re.match(r"\| `(.*?)` \| (.*?) \|", row).groups() for row in rows]


def column(path, heading):
    return [name for name, _ in table(path, heading)]


REFUSALS = variants("crates/svid_token/src/refusal.rt", "Refusal", "OutOfMemory")
ID_FAULTS = variants("crates/svid_id/src/id_fault.rt", "IdFault", "OutOfMemory")
REASONS = variants("crates/svid_wire/src/reason.rt", "Reason", "OutOfMemory", "Failed")


def lines_of_sources():
    """The lines on standard error, each with `{}` for its values."""
    text = text_of("crates/svid_share/src/tool_fault.rt") + text_of("crates/svid_cli/src/failure.rt")
    lines = set()
    for line in re.findall(r'b?"(svid: [^"]*)"', text):
        line = re.sub(r"\{\w+\}", "{}", line.replace("\\n", ""))
        lines.add(line + "{}" if line.endswith(" ") else line)
    return lines


# The man page


class Man:
    """The tags of a man page by their sections, each with the text behind it."""

    def __init__(self, text):
        self.text, self.tags = text, {}
        section = tag = None
        lines = iter(text.splitlines())
        for line in lines:
            if line.startswith((".SH ", ".SS ")):
                section, tag = line[4:], None
                self.tags[section] = []
            elif line == ".TP":
                tag = [self.plain(next(lines)), ""]
                self.tags[section].append(tag)
            elif tag:
                tag[1] += line + "\n"

    @staticmethod
    def plain(line):
        """A tag without its macro, and with `{}` for each italic word of it."""
        macro, words = line.split(" ", 1)
        words = [word.strip('"') for word in re.findall(r'"[^"]*"|\S+', words)]
        words = [word.replace(r"\-", "-").replace(r"\~", " ").replace(r"\fR", "") for word in words]
        if macro == ".BI":
            words[1::2] = ["{}"] * len(words[1::2])
        return " ".join(words) if macro == ".B" else "".join(words)

    def of(self, section):
        return [tag for tag, _ in self.tags[section]]

    def section(self, name):
        return self.text.split(f"\n.SH {name}\n")[1].split("\n.SH ")[0]

    def synopsis(self):
        text = re.sub(r"\\f.", "", self.section("SYNOPSIS")).replace(r"\-", "-")
        return re.findall(r"^svid (\w+)(.*(?:\n .*)*)", text, re.M)


MAN = Man(PAGE.read_text())


@pytest.fixture(scope="module")
def said(program):
    return helps(program)


def test_commands_of_the_man_page(said):
    assert re.findall(r"^\.SS (.*)$", MAN.section("COMMANDS"), re.M) == list(said)
    assert MAN.of("COMMANDS") == ["-h, --help", "-V, --version", *(f"--{name}" for name in EVERY)]
    assert [command for command, _ in MAN.synopsis()] == list(said)


def test_options_of_the_man_page(said):
    """They are those of the help, in its order, with the names of their values; and it says which must be given."""
    for command, (options, must, _) in said.items():
        words = re.search(rf"^\.SS {command}\n(.*?)(?=^\.SS |\Z)", MAN.section("COMMANDS"), re.M | re.S)[1]
        named = re.findall(r"^\.TP\n\.BI? --([\w-]+)(?:\\~ (.*))?\n((?:(?!\.TP).*\n)*)", words.replace(r"\-", "-"), re.M)
        assert [(name, value) for name, value, _ in named] == [it for it in options.items() if it[0] not in EVERY]
        assert EVERY <= {*options} or command == "help"
        assert {name for name, _, tail in named if "It must be given." in tail} == must


def test_options_of_the_synopsis(said):
    for command, form in MAN.synopsis():
        options, must, _ = said[command]
        assert dict(re.findall(r"--([\w-]+)(?: (\w+))?", form)) == {name: value for name, value in options.items() if name not in EVERY}
        assert set(re.findall(r"--([\w-]+)", re.sub(r"\[[^]]*\]", "", form))) == must


def test_no_other_option_is_named(said):
    known = {"help", "version", "place"}.union(*(options for options, _, _ in said.values()))
    assert set(re.findall(r"--([a-z][\w-]*)", MAN.text.replace(r"\-", "-"))) == known


def test_refusals():
    assert REFUSALS
    assert MAN.of("REFUSALS") == REFUSALS
    assert column("docs/FORMATS.md", "| refusal | where |") == REFUSALS


def test_faults_of_an_id():
    assert len(ID_FAULTS) == 8
    assert MAN.of("Faults of a SPIFFE ID") == [name.replace("usize", "{}") for name in ID_FAULTS]
    assert column("docs/FORMATS.md", "| fault | where |") == [name.replace("usize", "p") for name in ID_FAULTS]


def test_reasons_of_messages():
    assert column("docs/FORMATS.md", "| reason | offset | the field is bad where |") == REASONS
    tag, text = MAN.tags["DIAGNOSTICS"][0]
    assert tag == "svid: input {} message {} place {}: {}"
    assert re.findall(r"^\.B (\w+)$", text, re.M) == REASONS


def test_lines_on_standard_error():
    lines = MAN.of("DIAGNOSTICS")
    assert len(set(lines)) == len(lines)
    assert set(lines) == lines_of_sources()


def test_statuses_of_these_lines():
    """They are those of the list."""
    listed = tomllib.loads(text_of("lists/faults.toml"))["line"]
    rows = {re.sub(r"\b(I|J|P|N|NAME|REASON)\b", "{}", it["line"]): str(it["status"]) for it in listed}
    of_bundles = rows.pop("svid: bundles: FAULT")
    rows |= {f"svid: bundles: {fault}": of_bundles for fault in ("NotObject", "Domain({})", "Keys({})", "Unnamed")}
    assert {tag: (re.match(r"Status (\d)\.\n", text) or " -")[1] for tag, text in MAN.tags["DIAGNOSTICS"]} == rows


def examples():
    """The commands of the man page's examples, each with what it prints."""
    text = MAN.section("EXAMPLES").replace(r"\-", "-").replace(r"\e", "\\")
    blocks = re.findall(r"^\.RS 2\n(.*?)^\.RE$", text, re.M | re.S)
    return [re.findall(r"^\$ ((?:.*\\\n)*.*)\n((?:(?!\$ ).*\n)*)", block, re.M) for block in blocks]


def test_examples(program, tmp_path):
    """They run one after the other in the folder of examples, and print what the page shows."""
    assert len(examples()) > 3
    shutil.copytree(TOP / "examples", tmp_path / "examples")
    (tmp_path / "svid").symlink_to(program)
    for block in examples():
        for call, due in block:
            done = run("sh", "-c", call, cwd=tmp_path / "examples", env={**os.environ, "PATH": f"{tmp_path}:{os.environ['PATH']}"})
            assert done.stdout + done.stderr == due, call


@pytest.mark.parametrize("page", [PAGE, SIDECAR_PAGE], ids=lambda page: page.name)
@pytest.mark.parametrize(
    "tool", [("groff", "-man", "-ww", "-Tutf8", "-z"), ("man", "--warnings", "-l"), ("mandoc", "-T", "lint")], ids=lambda it: it[0]
)
def test_pages_are_set_without_a_warning(page, tool):
    if not shutil.which(tool[0]) and tool[0] != "man":
        return  # (one of the three is enough)
    needs(tool[0])
    done = run(*tool, page, env={**os.environ, "MANPAGER": "cat", "LC_ALL": "C.UTF-8"})
    assert (done.returncode, done.stderr + (done.stdout if tool[0] == "mandoc" else "")) == (0, "")
