"""Completions of a program for bash, zsh and fish, from its list in lists/ (tools/lists writes them)."""

import re


class Program:
    """The commands and options of a program. `front` are options before a command, each with its short name and what it does."""

    def __init__(self, name, listed, front=()):
        self.name, self.commands, self.options, self.front = name, listed["command"], listed["option"], front

    def of(self, command):
        """The options of a command alone."""
        return [it for it in self.options if it["commands"] != "every" and command["name"] in it["commands"]]

    def of_every(self):
        """Those that every command has."""
        return [it for it in self.options if it["commands"] == "every"]

    def all_of(self, command):
        return [*self.of(command), *(self.of_every() if self.has_help(command) else [])]

    def has_help(self, command):
        """The command `help` and one that takes nothing have no options."""
        return command["name"] not in ("help", "version")


def plain(it):
    """A sentence of the list, in one line without marks."""
    return it["help"].replace("`", "").replace("\n", " ")


# bash


def bash(program):
    names = " ".join(it["name"] for it in program.commands)
    yield f"_{program.name}() {{"
    yield "  local current=${COMP_WORDS[COMP_CWORD]} before=${COMP_WORDS[COMP_CWORD - 1]}"
    yield f"  local commands='{names}'"
    yield "  local options='' values='' files='' word n"
    yield "  COMPREPLY=()"
    yield "  # (bash takes the `=` after an option for a word of its own)"
    yield '  if [ "$current" = = ]; then'
    yield "    current=''"
    yield '  elif [ "$before" = = ]; then'
    yield "    before=${COMP_WORDS[COMP_CWORD - 2]}"
    yield "  fi"
    yield "  case $COMP_CWORD,${COMP_WORDS[1]} in"
    if program.front:
        yield "    1,-*) options='" + " ".join(f"-{short} --{name}" for short, name, _ in program.front) + "' ;;"
    helped = " | 2,help" if any(it.get("takes") == "command" for it in program.commands) else ""
    yield f'    1,*{helped}) COMPREPLY=($(compgen -W "$commands" -- "$current")) ;;'
    for command in filter(program.has_help, program.commands):
        options = " ".join([*(f"--{it['name']}" for it in program.all_of(command)), "-h", "--help"])
        files = " files=yes" if command.get("takes") in ("file", "folder") else ""
        yield f"    *,{command['name']}) options='{options}'{files} ;;"
    yield "  esac"
    yield "  # After `--` there are no options, and each option stands once, but for those that may be repeated."
    yield "  for ((n = 2; n < COMP_CWORD; n++)); do"
    yield "    case ${COMP_WORDS[n]} in"
    yield "      --)"
    yield "        options='' before=''"
    yield "        break"
    yield "        ;;"
    repeated = sorted({f"--{it['name']}" for it in program.options if it.get("repeat")})
    if repeated:
        yield f"      {' | '.join(repeated)}) continue ;;"
    yield "    esac"
    yield '    options=" $options "'
    yield '    options=${options/" ${COMP_WORDS[n]} "/ }'
    yield "  done"
    yield "  case $before in"
    kinds = {}
    for it in program.options:
        if "value" in it:
            sets = {"file": "files=yes", "folder": "files=yes", None: "files=''"}.get(
                it.get("takes"), f"files='' values='{it.get('takes')}'"
            )
            kinds.setdefault(sets, {})[f"--{it['name']}"] = True
    for sets, options in kinds.items():
        yield f"    {' | '.join(options)}) options='' {sets} ;;"
    yield "  esac"
    yield "  # What may be a file is one, unless it begins as an option does."
    yield '  if [ -n "$values" ]; then'
    yield '    COMPREPLY=($(compgen -W "$values" -- "$current"))'
    yield '  elif [ -n "$files" ] && ! [[ $options == *-* && $current == -* ]]; then'
    yield "    compopt -o filenames 2>/dev/null"
    yield '    while IFS= read -r word; do COMPREPLY+=("$word"); done < <(compgen -f -- "$current")'
    yield "  elif [[ $options == *-* ]]; then"
    yield '    COMPREPLY=($(compgen -W "$options" -- "$current"))'
    yield "  fi"
    yield "}"
    yield ""
    yield f"complete -F _{program.name} {program.name}"


# zsh


def zsh_text(text):
    return re.sub(r"([\[\]:])", r"\\\1", text).replace("'", "'\\''")


# What a command's words are, by what it takes.
ZSH_WORDS = {"file": "*:file of messages:_files", "folder": "1:folder:_files -/"}


def zsh_option(it):
    actions = {"file": "_files", "folder": "_files -/", None: " "}
    value = ""
    if "value" in it:
        unit = it["takes"] if it.get("takes") in ("file", "folder") else it.get("unit", it["value"].lower().replace("=", " "))
        value = f":{unit}:{actions.get(it.get('takes'), '(' + str(it.get('takes')) + ')')}"
    return f"'{'*' * it.get('repeat', False)}--{it['name']}{'=' if value else ''}[{zsh_text(plain(it))}]{value}'"


def zsh(program):
    yield f"_{program.name}() {{"
    yield "  local context state state_descr line"
    yield "  typeset -A opt_args"
    yield "  local -a commands"
    yield "  commands=("
    yield from (f"    '{it['name']}:{zsh_text(plain(it))}'" for it in program.commands)
    yield "  )"
    yield "  if (( CURRENT == 2 )); then"
    if program.front:
        both = (f"'(-{short} --{name})'{{-{short},--{name}}}'[{says}]'" for short, name, says in program.front)
        yield "    if [[ $words[2] == -* ]]; then"
        yield f"      _arguments {' '.join(both)}"
        yield "      return"
        yield "    fi"
    yield "    _describe -t commands 'command' commands"
    yield "    return"
    yield "  fi"
    yield "  local command=$words[2]"
    yield "  shift words"
    yield "  (( CURRENT-- ))"
    yield "  case $command in"
    for command in program.commands:
        if command.get("takes") == "command":
            yield f"    {command['name']})"
            yield "      (( CURRENT == 2 )) && _describe -t commands 'command' commands"
            yield "      ;;"
        if not program.has_help(command):
            continue
        words = ZSH_WORDS.get(command.get("takes"))
        if not words and "words" in command:
            words = ("*" if "..." in command["words"] else "1") + f":{command['words'].strip('.').lower()}:()"
        lines = [*map(zsh_option, program.all_of(command)), "'(- *)'{-h,--help}'[print help]'", *([f"'{words}'"] if words else [])]
        yield f"    {command['name']})"
        yield "      _arguments \\"
        yield from (f"        {line} \\" for line in lines[:-1])
        yield f"        {lines[-1]}"
        yield "      ;;"
    yield "  esac"
    yield "}"
    yield ""
    yield f'_{program.name} "$@"'


# fish


def fish_text(text):
    return "'" + text.replace("\\", "\\\\").replace("'", "\\'") + "'"


def fish(program):
    name, call = program.name, f"complete -c {program.name}"
    yield f"# The command is the first word after `{name}`, whatever stands after it."
    yield f"function __{name}_is"
    yield "    set -l words (commandline -opc)"
    yield '    contains -- "$words[2]" $argv'
    yield "end"
    yield ""
    yield f"function __{name}_begins"
    yield "    test (count (commandline -opc)) = 1"
    yield "end"
    yield ""
    yield "set -l commands " + " ".join(it["name"] for it in program.commands)
    yield ""
    yield f"{call} -f"
    yield f"{call} -s h -l help -d 'Print help'"
    yield from (
        f"{call} -n __{name}_begins -s {short} -l {long} -d {fish_text(says)}" for short, long, says in program.front if long != "help"
    )
    for it in program.commands:
        yield f"{call} -n __{name}_begins -a {it['name']} -d {fish_text(plain(it))}"
    for command in program.commands:
        here = f"{call} -n '__{name}_is {command['name']}'"
        for it in program.all_of(command):
            takes = it.get("takes")
            value = "" if "value" not in it else {"file": " -r -F", "folder": " -r -F", None: " -x"}.get(takes, f" -x -a '{takes}'")
            yield f"{here} -l {it['name']}{value} -d {fish_text(plain(it))}"
        if command.get("takes") in ("file", "folder"):
            yield f"{here} -F"
        if command.get("takes") == "command":
            yield f'{here} -a "$commands"'
