"""What operators and programs go by keeps its names and numbers within a major version (docs/STABILITY.md): stable.txt has them.

What goes or changes wants a new major version, and what is new a row there."""

import json
import re
import tomllib

from conftest import TOP


def read(path):
    return (TOP / path).read_text(encoding="utf-8")


def metrics():
    """Of metrics.go: each with the names of its labels."""
    text = read("go/internal/server/metrics.go")
    labels = dict(re.findall(r'"((?:svidd|process|go)_\w+)\{(\w+)=', text))
    labels |= dict(re.findall(r'p\.counters\("(\w+)", "(\w+)"', text))
    for name in re.findall(r'p\.(?:head|counter|gauge|counters|histogram)\("(\w+)"', text):
        yield f"{name}{{{labels[name]}}}" if name in labels else name


def options():
    for program in "svid", "svidd":
        for it in tomllib.loads(read(f"lists/{program}.toml"))["option"]:
            commands = it["commands"] if isinstance(it["commands"], list) else [it["commands"]]
            yield from (f"{program} {command} --{it['name']}" for command in commands if command not in ("dev", "mint"))


def numbers():
    """Of the header, but for its version."""
    header = read("packages/c/include/svid.h")
    found = re.findall(r"^\s*(?:#define )?(SVID_\w+)(?: =)? (\d+)\b", header, re.M)
    return [f"{name} {number}" for name, number in found if not name.startswith("SVID_VERSION")]


def packages():
    yield f"Debian {re.search(r'^Package: (.*)$', read('tools/packaging/build'), re.M)[1]}"
    yield f"Go {re.search(r'^module (.*)$', read('go/go.mod'), re.M)[1]}"
    yield f"Node {json.loads(read('packages/node/package.json'))['name']}"
    yield f"Python {tomllib.loads(read('packages/python/pyproject.toml'))['project']['name']}"
    yield f"Rust {tomllib.loads(read('packages/rust/svid/Cargo.toml'))['package']['name']}"
    yield from (f"C {it}" for it in re.findall(r"^link (libsvid\.so\.\d+) ", read("install"), re.M))


def named():
    """Each thing that stays, by its kind."""
    log = read("go/internal/server/log.go").partition("func (l *Log) decide")[2].partition("\n}\n")[0]
    reasons = read("go/internal/server/http.go")
    return {
        "alert": re.findall(r"^ +- alert: (\w+)", read("go/deploy/prometheus/rules.yaml"), re.M),
        "call of C": re.findall(r"^(?!static)\w[\w ]*?\*?(svid_\w+)\(", read("packages/c/include/svid.h"), re.M),
        "exit status": [" ".join(it) for it in re.findall(r"^\texit(\w+) += (\d)", read("go/cmd/svidd/main.go"), re.M)],
        "field of the log": ["time", *re.findall(r'append\w+\(line, "(\w+)"', log), *re.findall(r',"(\w+)":`', log)],
        "metric": metrics(),
        "number of C": numbers(),
        "option": options(),
        "package": packages(),
        "reason of a 503": re.findall(r'^\t+return "([A-Z]\w+)"$', reasons, re.M),
        "refusal": [f"{it['name']} {it['number']}" for it in tomllib.loads(read("lists/refusals.toml"))["refusal"]],
    }


def test_names_and_numbers_stay():
    kept = [line for line in read("tests/stable.txt").splitlines() if line and not line.startswith("#")]
    now = sorted({f"{kind}: {it}" for kind, of in named().items() for it in of})
    assert {line.partition(": ")[0] for line in now} == named().keys(), "a kind has nothing: its source is written in another way now"
    gone, new = sorted({*kept} - {*now}), sorted({*now} - {*kept})
    assert gone == [], "these wait for the next major version (docs/STABILITY.md)"
    assert new == [], "add these to tests/stable.txt"
    assert kept == now, "tests/stable.txt is in the order of its lines"
