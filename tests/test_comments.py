"""What tools/comments finds: in a checkout of one file of each language, the hits of its comments, and none in strings or in code."""

import re
import shutil
import subprocess

import pytest
from conftest import TOP

# Each file, and the lines of its hits. Every text that could be one of them has the phrase of the hits.
FILES = {
    "crates/a/src/lib.rt": (
        "//! It begins\n//! anew.\n//!\n//! ```\n//! begin_anew()\n//! ```\n"
        'const A: &str = "// anew"; // it begins anew\nconst B: char = \'"\'; // anew\n'
    ),
    "crates/a/specs/Lib.antt": '-- it begins anew\nbegin = codes "-- anew"\n',
    "crates/a/wrong.edits": "# It begins anew.\nbody: anew\nold: // anew\n",
    "go/a.go": "package a\n\n/* It begins\nanew. */\nvar A = `// anew`\nvar B = \"//\" + 'a' // anew\n",
    "go/vendor/b/b.go": "// anew\npackage b\n",
    "node/a.js": 'const a = `// anew`, b = "it\'s // anew"\n// It begins `anew`.\n// It begins anew.\n',
    "java/A.java": '/**\n * It begins anew.\n */\nclass A { String a = """\n// anew\n"""; }\n',
    "rust/a.rs": '/// It begins anew.\nconst A: &str = r#"" // anew"#;\nfn a<\'a>(b: &\'a str) {} // anew\n',
    "include/a.h": "// It begins anew, and\n// again anew.\n",
    "python/a.py": '#!/usr/bin/env python3\n"""It begins anew."""\n\n\ndef a():\n    """It begins\n    anew."""\n    return """anew""", "# anew"  # anew\n',
    "tools/a": "#!/usr/bin/env bash\n# It begins anew.\necho '# anew'\n",
    "dist/a.h": "// anew\n",
    "tests/vectors/a.py": "# anew\n",
    "docs/a.md": "It begins anew.\n",
}
HITS = {
    "crates/a/src/lib.rt": [1, 7, 8],
    "crates/a/specs/Lib.antt": [1],
    "crates/a/wrong.edits": [1],
    "go/a.go": [3, 6],
    "node/a.js": [2],
    "java/A.java": [2],
    "rust/a.rs": [1, 3],
    "include/a.h": [1],
    "python/a.py": [2, 6, 8],
    "tools/a": [2],
}


@pytest.fixture(scope="module")
def checkout(tmp_path_factory):
    """A checkout of these files and of the tools."""
    made = tmp_path_factory.mktemp("checkout")
    for name, text in FILES.items():
        (made / name).parent.mkdir(parents=True, exist_ok=True)
        (made / name).write_text(text, encoding="utf-8")
    for name in ("comments", "docs"):
        shutil.copy(TOP / "tools" / name, made / "tools" / name)
    subprocess.run(["git", "init", "-q"], cwd=made, check=True)
    return made


def run(checkout, *words):
    """What the tool prints in the checkout, but for its own comments: the hits by file, the last line, and its status."""
    done = subprocess.run([checkout / "tools/comments", *words], cwd=checkout, capture_output=True, text=True)
    *hits, last = done.stdout.splitlines()
    found = {}
    for name, line in re.findall(r"^(\S+?):(\d+): anew: ", "\n".join(hits), re.M):
        found.setdefault(name, []).append(int(line))
    return found, last, done.returncode


def test_each_comment_is_read_and_nothing_else(checkout):
    found, _, status = run(checkout)
    assert {name: found[name] for name in sorted(found) if name not in ("tools/comments", "tools/docs")} == dict(sorted(HITS.items()))
    assert status == 0


def test_paths_choose_what_is_read(checkout):
    found, last, _ = run(checkout, "crates", checkout / "rust/a.rs")
    assert found == {name: HITS[name] for name in HITS if name.startswith(("crates/", "rust/"))}
    assert last == "7 hits of 7 sentences"


@pytest.mark.parametrize("most, status", [(0, 1), (2, 1), (3, 0), (4, 0)])
def test_more_hits_than_the_limit_are_a_failure(checkout, most, status):
    assert run(checkout, "--most", str(most), "crates/a/src/lib.rt")[1:] == ("3 hits of 3 sentences", status)
