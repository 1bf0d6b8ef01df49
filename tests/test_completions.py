"""Shells complete the commands, the options and the files of the program."""

import os
import pty
import re
import select
import shlex
import signal
import subprocess
import time

import pytest
from conftest import TOP, needs
from test_manual import helps, run, text_of

# What may be given more than once.
REPEATED = {"--record"}
BASH, FISH, ZSH = (TOP / f"tools/packaging/completions/{name}" for name in ("svid.bash", "svid.fish", "_svid"))


@pytest.fixture(scope="module")
def said(program):
    return helps(program)


@pytest.fixture
def room(tmp_path):
    """A folder with one file, `kept`."""
    (tmp_path / "kept").touch()
    return tmp_path


def offers_rightly(shell, said, offer):
    """Whether a shell offers the commands, the options and the files that are due. `offer` has the words that are offered for the last word of a
    command line."""
    assert offer("rep") == {"report"}
    assert offer("") == set(said)
    assert offer("--") == {"--help", "--version"}
    assert offer("help", "") == set(said)
    for command, (options, _, has_files) in said.items():
        if command == "help":
            continue
        named = {f"--{name}" for name in options}
        assert offer(command, "--") == named | {"--help"}
        assert ("kept" in offer(command, "k")) == has_files, command
        for name, value in options.items():
            assert offer(command, f"--{name}", "k") == ({"kept"} if value == "FILE" or (has_files and not value) else set())
            assert offer(command, f"--{name}", "v", "--") == named - ({f"--{name}"} - REPEATED) | {"--help"}
    assert offer("check", "merge", "--lo") == {"--longest"}
    assert offer("no", "--") == (set() if shell == "bash" else {"--help"})


def test_bash(said, room):
    assert run("bash", "-n", BASH).returncode == 0
    script = 'source "$1"; shift; COMP_WORDS=("$@"); COMP_CWORD=$(($# - 1)); _svid; printf "%s\\n" "${COMPREPLY[@]}"'

    def offer(*words):
        done = run("bash", "--norc", "-c", script, "bash", BASH, "svid", *words, cwd=room)
        assert done.stderr == ""
        return set(done.stdout.split("\n")) - {""}

    offers_rightly("bash", said, offer)
    assert offer("check", "--bundles", "=", "k") == {"kept"}
    assert offer("check", "--table", "=") == {"kept"}
    assert offer("report", "--", "--") == set()
    assert offer("-") == {"-h", "--help", "-V", "--version"}
    assert run("bash", "--norc", "-c", 'source "$1"; complete -p svid', "bash", BASH).stdout == "complete -F _svid svid\n"


def test_fish_has_each_command_and_option(said):
    text = text_of("tools/packaging/completions/svid.fish")
    assert re.findall(r"^set -l commands (.*)$", text, re.M) == [" ".join(said)]
    assert re.findall(r"^complete -c svid -n __svid_begins -a (\w+) ", text, re.M) == list(said)
    found = re.findall(r"^complete -c svid -n '__svid_is (\w+)' -l ([\w-]+) (-r -F|-x|-d)", text, re.M)
    options = [(command, *it) for command, (options, _, _) in said.items() for it in options.items()]
    assert found == [(command, name, {"FILE": "-r -F", "": "-d"}.get(value, "-x")) for command, name, value in options]
    assert text.count("complete -c svid -s h -l help ") == 1
    files = re.findall(r"^complete -c svid -n '__svid_is (\w+)' -F$", text, re.M)
    assert files == [command for command, (_, _, has_files) in said.items() if has_files]


def test_fish(said, room):
    needs("fish")
    assert run("fish", "--no-execute", FISH).returncode == 0
    homes = {**os.environ, "HOME": str(room), "XDG_CONFIG_HOME": str(room), "XDG_DATA_HOME": str(room)}

    def offer(*words):
        call = f"source {shlex.quote(str(FISH))}; complete -C {shlex.quote(' '.join(('svid', *words)))}"
        done = run("fish", "--no-config", "-c", call, cwd=room, env=homes)
        assert done.stderr == ""
        offered = {line.split("\t")[0] for line in done.stdout.splitlines()}
        # (fish offers an option again, and shows it as given)
        given = {word for word in words[:-1] if word.startswith("--")} - REPEATED
        return offered - (given if words[-1] == "--" else set())

    offers_rightly("fish", said, offer)


def test_zsh_has_each_command_and_option(said):
    text = text_of("tools/packaging/completions/_svid")
    assert re.findall(r"^    '(\w+):.*'$", text, re.M) == list(said)
    cases = dict(re.findall(r"^    (\w+)\)\n(.*?)^      ;;$", text, re.M | re.S))
    assert list(cases) == list(said)
    for command, (options, _, has_files) in said.items():
        found = re.findall(r"^        '\*?--([\w-]+)(=?)\[[^]]*\](:file:_files)?", cases[command], re.M)
        assert found == [(name, "=" if value else "", ":file:_files" if value == "FILE" else "") for name, value in options.items()]
        assert ("'*:file of messages:_files'" in cases[command]) == has_files
        assert ("{-h,--help}" in cases[command]) == (command != "help")


def test_zsh_reads_its_completions():
    needs("zsh")
    assert run("zsh", "-f", "-n", ZSH).returncode == 0


@pytest.fixture
def zsh(room):
    """What stands on the line of a shell at a terminal, once these keys are typed. A key writes the line, as it is by then, to a file."""
    needs("zsh")
    out = room / ".line"
    begin = (
        f"PS1=; PS2=; fpath=({shlex.quote(str(ZSH.parent))} $fpath); autoload -U compinit; compinit -D -u; "
        f'setopt no_beep; show() {{ print -r -- "$BUFFER" >>{shlex.quote(str(out))}; BUFFER= }}; zle -N show; '
        f"bindkey '^X' show; print -r -- ready >>{shlex.quote(str(out))}\n"
    )
    child, terminal = pty.fork()
    if child == 0:
        os.chdir(room)
        os.execvpe("zsh", ["zsh", "-f", "-i"], {**os.environ, "HOME": str(room), "ZDOTDIR": str(room), "TERM": "dumb"})

    def line(keys):
        """(three minutes are waited for it)"""
        before = out.read_text().count("\n") if out.exists() else 0
        os.write(terminal, keys)
        end = time.monotonic() + 180
        while time.monotonic() < end and not (out.exists() and out.read_text().count("\n") > before):
            if select.select([terminal], [], [], 0.05)[0]:
                os.read(terminal, 65536)
        return out.read_text().splitlines()[before:]

    assert line(begin.encode()) == ["ready"]
    yield lambda typed: line(typed.encode() + b"\x18")
    os.kill(child, signal.SIGKILL)
    os.waitpid(child, 0)
    os.close(terminal)


@pytest.mark.parametrize(
    "typed, due",
    {
        "svid rep\t": "svid report ",
        "svid check --bu\tk\t": "svid check --bundles=kept ",
        "svid check --lon\t": "svid check --longest=",
        "svid check ledger --lon\t": "svid check ledger --longest=",
        "svid check --record=kept --rec\t": "svid check --record=kept --record=",
        "svid check --table=kept --tab\t": "svid check --table=kept --tab",
        "svid check k\t": "svid check k",
        "svid merge k\t": "svid merge kept ",
        "svid help me\t": "svid help merge ",
        "svid id k\t": "svid id k",
    }.items(),
)
def test_zsh(zsh, typed, due):
    assert zsh(typed) == [due]


# The sidecar's, which are written from another list by the same tool


def sidecar_offers(shell, room, *words):
    """The words that bash or fish offers for the last word of a command line of `svidd`."""
    file = TOP / f"tools/packaging/completions/svidd.{shell}"
    if shell == "bash":
        script = 'source "$1"; shift; COMP_WORDS=("$@"); COMP_CWORD=$(($# - 1)); _svidd; printf "%s\\n" "${COMPREPLY[@]}"'
        done = run("bash", "--norc", "-c", script, "bash", file, "svidd", *words, cwd=room)
    else:
        homes = {**os.environ, "HOME": str(room), "XDG_CONFIG_HOME": str(room), "XDG_DATA_HOME": str(room)}
        call = f"source {shlex.quote(str(file))}; complete -C {shlex.quote(' '.join(('svidd', *words)))}"
        done = run("fish", "--no-config", "-c", call, cwd=room, env=homes)
    assert done.stderr == ""
    return {line.split("\t")[0] for line in done.stdout.splitlines()} - {""}


@pytest.mark.parametrize("shell", ["bash", "fish"])
@pytest.mark.parametrize(
    "words, due",
    [
        (["ser"], {"serve"}),
        (["serve", "--nats-c"], {"--nats-ca", "--nats-cert", "--nats-creds"}),
        (["serve", "--replay", ""], {"once", "strict", "bound", "reuse"}),
        (["serve", "--state", "k"], {"kept"}),
        (["withdraw", "--k"], {"--key"}),
        (["report", "--k"], set()),
        (["check-state", "k"], {"kept"}),
        (["version", "--"], set()),
    ],
)
def test_the_sidecar(shell, room, words, due):
    needs(shell)
    # (fish offers --help everywhere)
    assert sidecar_offers(shell, room, *words) - {"--help"} == due


@pytest.mark.parametrize("shell, words", [("bash", ["-n"]), ("fish", ["--no-execute"]), ("zsh", ["-f", "-n"])])
def test_completions_of_the_sidecar_are_read(shell, words):
    needs(shell)
    name = "_svidd" if shell == "zsh" else f"svidd.{shell}"
    assert subprocess.run([shell, *words, TOP / "tools/packaging/completions" / name]).returncode == 0
