"""packages/c/include/svid.h is what the sources of the C library export: each function with its parameters, each structure with its fields in their order, and
the number of each status; so are the structures in the example in Python and in the crate for Rust. (tools/lists writes the names and
numbers of all languages.)"""

import re
import tomllib

import pytest
from conftest import TOP

SOURCES = TOP / "crates/svid_c/src"
SCRIPTS = [str(path.relative_to(TOP)) for path in TOP.glob("packages/page/src/*.js")]
# What a type of Rattle is in C, in Python and in Rust.
TYPES = {
    "usize": ("size_t {}", "c_size_t", "usize"),
    "u8": ("uint8_t {}", "c_uint8", "u8"),
    "u32": ("uint32_t {}", "c_uint32", "u32"),
    "u64": ("uint64_t {}", "c_uint64", "u64"),
    "[u8; 16]": ("uint8_t {}[16]", "c_uint8 * 16", "[u8; 16]"),
    "[u8; 32]": ("uint8_t {}[32]", "c_uint8 * 32", "[u8; 32]"),
    "[[u8; 32]; 256]": ("uint8_t {}[256][32]", "c_uint8 * 32 * 256", "[[u8; 32]; 256]"),
    "SvidUse": ("svid_use {}", "Use", "Use"),
    "SvidMark": ("svid_mark {}", "Mark", "Mark"),
    "SvidFound": ("svid_found {}", "Found", "Found"),
}
# What the header puts before a name of these lists.
PREFIXES = {
    "IdFault": "ID_",
    "BundleFault": "BUNDLES_",
    "DocumentFault": "BUNDLES_",
    "Fault": "FOLDER_",
    "Next": "FILE_",
    "NoBearer": "BEARER_",
    "KeyFault": "KEY_",
    "EntryFault": "ENTRY_",
    "Outcome": "CLAIM_",
}
LISTS = ("Reason", "Refusal", "Unready", "Verdict", *PREFIXES)
# What stands in these lists but has the name or the number of another one.
OTHER_NAMES = {("Next", "Unfit"), ("NoBearer", "TooLong")}
# What stands in no list.
OWN = {
    "SVID_OK": 0,
    "SVID_TOO_SHORT": 1,
    "SVID_NO_MEMORY": 2,
    "SVID_TOO_MUCH": 3,
    "SVID_NOT_SUMMARY": 4,
    "SVID_CLOSED": 5,
    "SVID_IS_OPEN": 6,
    "SVID_GONE": 7,
    "SVID_TOO_FAR": 8,
    "SVID_JUMP": 9,
    "SVID_HAS_LOG": 10,
    "SVID_NO_LOG": 19,
    "SVID_NO_MEMBER": 20,
    "SVID_UNASKED": 29,
    "SVID_NO_MODE": 30,
    "SVID_TABLE_LINE": 34,
    "SVID_OWN_NOT_UTF8": 35,
    "SVID_OWN_LENGTHS": 36,
    "SVID_BUNDLES_LENGTHS": 39,
    "SVID_NO_ALGORITHM": 70,
    "SVID_NOT_ALLOWED": 91,
}


def text_of(path):
    return (TOP / path).read_text()


def snake(name):
    return re.sub(r"(?<=.)([A-Z])", r"_\1", name).lower()


SOURCE = "\n".join(path.read_text() for path in sorted(SOURCES.glob("*.rt")))
# (without its comments)
HEADER = re.sub(r"/\*.*?\*/", "", text_of("packages/c/include/svid.h"), flags=re.S)
PYTHON = text_of("examples/embed/svid.py")
RUST = text_of("packages/rust/svid/src/ffi.rs")
# The structures that C sees, each with its fields, in their order, and their types.
STRUCTURES = {
    name: re.findall(r"^    pub (\w+): (.*),$", body, re.M)
    for name, body in re.findall(r"#\[repr\(C\)\]\n#\[derive\(Drop\)\]\npub struct (\w+) \{\n(.*?)\n\}", SOURCE, re.S)
}
# Other languages have a question as its bytes.
OF_ALL = [name for name in STRUCTURES if name != "SvidQuestion"]
DECLARED = {name: (result, given) for result, name, given in re.findall(r"^(void|uint32_t|uint64_t) (svid_\w+)\(([^)]*)\);", HEADER, re.M)}
EXPORTED = {
    name: (result, given)
    for name, given, result in re.findall(r"#\[unsafe\(no_mangle\)\]\npub extern \"C\" fn (\w+)\(([^)]*)\)(?: -> (u32|u64))?\n", SOURCE)
}


def defined(name):
    return re.search(rf"#define {name} (\d+)", HEADER)[1]


def test_each_structure_is_in_the_header():
    handles = ["svid_validator", "svid_bundles", "svid_token"]
    assert sorted(re.findall(r"\} (\w+);", HEADER)) == sorted([*map(snake, STRUCTURES), *handles])


@pytest.mark.parametrize("handle", ["Handle", "TrustHandle", "TokenHandle"])
def test_what_a_handle_is(handle):
    assert f"word: u64,\n    pub handle: {handle}," in SOURCE
    assert re.search(rf"pub struct {handle} \{{\n(?:    //.*\n)*    ptr: \*mut \(\),\n    alloc: Global,", SOURCE)


@pytest.mark.parametrize("name", STRUCTURES)
def test_a_structure_in_c(name):
    body = re.search(r"typedef struct \{([^}]*)\} " + snake(name) + ";", HEADER)
    assert re.findall(r"\S.*(?=;)", body[1]) == [TYPES[kind][0].format(field) for field, kind in STRUCTURES[name]]


@pytest.mark.parametrize("name", OF_ALL)
def test_a_structure_in_python(name):
    body = re.search(rf"class {name.removeprefix('Svid')}\(c\.Structure\):\n    _fields_ = \[(.*)\]\n", PYTHON)
    due = [f'("{field}", {"" if kind.startswith("Svid") else "c."}{TYPES[kind][1]})' for field, kind in STRUCTURES[name]]
    assert body and body[1] == ", ".join(due)


def test_structures_in_rust():
    """The crate has those that its calls want."""
    found = re.findall(r"#\[repr\(C\)\]\n#\[derive\([^\n]*\)\]\npub struct (\w+) \{(.*?)\n\}", RUST, re.S)
    own = {f"Svid{name}": re.findall(r"pub (\w+): (.*),", body) for name, body in found if name != "Handle"}
    assert {"SvidDeed", "SvidKnown", "SvidUse"} <= own.keys() <= set(OF_ALL)
    assert own == {name: [(field, TYPES[kind][2]) for field, kind in STRUCTURES[name]] for name in own}


def test_each_function_is_in_the_header():
    assert sorted(DECLARED) == sorted(EXPORTED)


def in_c(field, kind):
    """What a parameter is in C: lent bytes and lists are a pointer and a length, and the allocator that the code is given is none."""
    const = "" if "mut" in kind else "const "
    lists = {"[u8]": "uint8_t", "[usize]": "size_t", "[[u8; 32]]": "svid_question"}
    lent = kind.removeprefix("&").removeprefix("mut ")
    if kind == "Global":
        return []
    if not kind.startswith("&"):
        return [TYPES[kind][0].format(field)]
    if re.fullmatch(r"\[u8; \d+\]", lent):
        return [const + TYPES[lent][0].format(field)]
    if lent in lists or lent.startswith("[Svid"):
        return [f"{const}{lists.get(lent) or snake(lent[1:-1])} *{field}", f"size_t {field}_len"]
    return [f"{const}{snake(lent)} *{field}"]


@pytest.mark.parametrize("name", EXPORTED)
def test_the_parameters_of_a_function(name):
    due = [it for field, kind in re.findall(r"(\w+): ([^,]+)", EXPORTED[name][1]) for it in in_c(field, kind)]
    assert [" ".join(it.split()) for it in DECLARED[name][1].split(",")] == (due or ["void"])


@pytest.mark.parametrize("name", EXPORTED)
def test_the_result_of_a_function(name):
    result = EXPORTED[name][0]
    assert DECLARED[name][0] == (TYPES[result][0].format("").strip() if result else "void")


def numbers():
    """The header's names and their numbers."""
    found, number = {}, -1
    for name, given in re.findall(r"\b(SVID_\w+)(?: = (\d+))?,?", re.search(r"enum svid_status \{(.*?)\}", HEADER, re.S)[1]):
        number = int(given) if given else number + 1
        found[name] = number
    return found


def test_the_numbers_are_those_of_the_sources():
    due = dict(OWN)
    # (this one is answered at the end of a block)
    other = "".join(
        f"Next::Other => {it}," for it in re.findall(r"Next::Other\(\w+\) => \{.*?^            (\d+)\n        \}", SOURCE, re.M | re.S)
    )
    # The faults of a pattern are those of the ID in it, with numbers of their own.
    patterns = text_of("crates/svid_c/src/id_allows.rt")
    for name, number in re.findall(r"IdFault::(\w+)(?:\(_\))? => (\d+),", patterns):
        if name != "OutOfMemory":
            due["SVID_PATTERN_" + snake(name).upper()] = int(number)
    for kind, name, number in re.findall(r"(\w+)::(\w+)(?:\(_\))? => (\d+),", SOURCE.replace(patterns, "") + other):
        if kind in LISTS and number not in ("0", "1", "2") and (kind, name) not in OTHER_NAMES:
            prefix = PREFIXES.get(kind, "")
            due["SVID_" + prefix + snake(name).upper().removeprefix(prefix)] = int(number)
    assert numbers() == due


# What has a number by hand, since it decides by it.
BY_HAND = [
    "packages/python/svid/_library.py",
    "examples/embed/svid.py",
    "packages/node/src/library.js",
    "packages/node/src/errors.js",
    *sorted(SCRIPTS),
]


@pytest.mark.parametrize("path", BY_HAND)
def test_a_number_by_hand(path):
    text = re.sub(r"lists:begin.*?lists:end", "", text_of(path), flags=re.S)
    rows = re.findall(r"\b([A-Z][A-Z_]+(?:, [A-Z][A-Z_]+)*) = (\d+(?:, \d+)*)\b", text)
    found = {name: int(number) for names, given in rows for name, number in zip(names.split(", "), given.split(", "))}
    assert {name: number for name, number in found.items() if numbers().get(f"SVID_{name}", number) != number} == {}


@pytest.mark.parametrize(
    "path, name, least, most",
    [
        ("packages/page/src/refusals.js", "ID_FAULTS", "ID_TOO_LONG", "ID_PATH_BYTE"),
        ("packages/page/src/verify.js", "KEY_FAULTS", "NO_ALGORITHM", "KEY_Y"),
        ("packages/page/src/token.js", "BEARER_FAULTS", "BEARER_ABSENT", "BEARER_SPELLING"),
        ("packages/page/src/bundles.js", "ENTRY_FAULTS", "ENTRY_NOT_OBJECT", "ENTRY_TOO_LONG"),
    ],
)
def test_the_page_has_words_for_each(path, name, least, most):
    body = re.search(rf"^(?:export )?const {name} = \{{\n(.*?)^\}};", text_of(path), re.M | re.S)[1]
    due = range(numbers()[f"SVID_{least}"], numbers()[f"SVID_{most}"] + 1)
    assert [int(it) for it in re.findall(r"^  (\d+): ", body, re.M)] == [it for it in sorted(numbers().values()) if it in due]


@pytest.mark.parametrize(
    "named, path, form",
    [
        ("svid_modes", "member_open.rt", r"(\d+) => Some\(Mode::(\w+)\),"),
        ("svid_keepers", "withdrawal_come.rt", r"(\d+|_) => Place::(\w+),"),
        ("svid_deeds", "deed.rt", r"Deed::(\w+)(?:\([\w, ]+\))? => (?:deed_by\(|deed_of_use\(|SvidDeed \{\s+what: )(\d+),"),
    ],
)
def test_the_numbers_of_another_list(named, path, form):
    """Those that a member takes, and those that it gives: each in the order of the sources, the last keeper being any other number."""
    body = re.search(rf"enum {named} \{{(.*?)\}}", HEADER, re.S)[1]
    found = re.findall(r"SVID_(?:DEED_|AT_)?(\w+) = (\d+)", body)
    rows = [(it[0], it[1]) if it[1].isdigit() else (it[1], it[0]) for it in re.findall(form, text_of(f"crates/svid_c/src/{path}"))]
    due = [(name.upper(), number.replace("_", str(number_of))) for number_of, (name, number) in enumerate(rows)]
    assert found == due and len(due) >= 3


def test_no_two_have_one_number():
    assert len({*numbers().values()}) == len(numbers())


@pytest.mark.parametrize(
    "fault, number",
    {"ToolFault::TooMuch": 3, "ToolFault::NotSummary": 4, "ToolFault::Table": 34, "OwnFault::NotUtf8": 35, "OwnFault::Lengths": 36}.items(),
)
def test_the_number_of_a_fault_of_its_own(fault, number):
    assert re.findall(rf"{fault}(?:\(_\)| \{{ \.\. \}})? => (\d+),", SOURCE) == [str(number)]


def test_each_number_has_its_name():
    assert re.findall(r'case (\w+): return "(\w+)";', HEADER) == [(name, name) for name in numbers()]


def said_by_the_list():
    """What each status but those of keys says in words, and what it advises."""
    ktys = dict.fromkeys(it["kty"] for it in tomllib.loads(text_of("lists/algorithms.toml"))["algorithm"])
    for group in tomllib.loads(text_of("lists/statuses.toml"))["group"]:
        for it in group["status"] if group["name"] != "keys" else []:
            words = it.get("words") or f"{capital(it['says'])}."
            advice = it.get("advice", group.get("advice"))
            yield f"SVID_{group.get('prefix', '')}{it['name']}", words.replace("`", "").replace(
                "NO_KTY", f"neither {' nor '.join(ktys)}"
            ) + (f" {capital(advice)}." if advice else "")


def capital(text):
    return text[:1].upper() + text[1:]


def test_each_status_says_what_the_list_says():
    # (texts that stand beside each other are one)
    said = dict(re.findall(r'case (\w+): return "(.* .*)";', text_of("packages/c/include/svid.h").replace('" "', "").replace('\\"', "\0")))
    said = {name: text.replace("\0", '"') for name, text in said.items()}
    assert {name: said.get(name) for name, _ in said_by_the_list()} == dict(said_by_the_list())


def test_the_version():
    major, minor, patch, whole = (int(defined(f"SVID_VERSION{word}")) for word in ("_MAJOR", "_MINOR", "_PATCH", ""))
    assert whole == major * 10000 + minor * 100 + patch
    assert re.findall(r"fn svid_version\(\) -> u32\n.*result ≡ (\d+)", SOURCE) == [str(whole)]


@pytest.mark.parametrize(
    "path, form",
    [
        ("tools/dist", r"^soname=libsvid\.so\.(\d+)$"),
        ("packages/python/svid/_library.py", r'"libsvid\.so\.(\d+)"'),
        ("packages/python/svid/_library.py", r"^_MAJOR = (\d+)$"),
        ("packages/node/src/library.js", r"^const MAJOR = (\d+);$"),
        ("packages/rust/svid/src/ffi.rs", r"^pub const MAJOR: u32 = (\d+);$"),
        ("packages/java/src/main/java/svid/Library.java", r"^    static final int VERSION = (\d+)0000;$"),
    ],
)
def test_the_name_of_the_shared_library_has_the_major_number(path, form):
    assert re.findall(form, text_of(path), re.M) == [defined("SVID_VERSION_MAJOR")]


@pytest.mark.parametrize(
    "path, form, name",
    [
        ("packages/python/svid/_library.py", r"^MOST_CANDIDATES = (\d+)$", "SVID_MOST_CANDIDATES"),
        ("packages/page/src/library.js", r"^export const MOST_CANDIDATES = (\d+)n;$", "SVID_MOST_CANDIDATES"),
        ("packages/page/tests/native.py", r"^MOST_CANDIDATES = (\d+)$", "SVID_MOST_CANDIDATES"),
        ("packages/node/src/library.js", r"^const MOST_CANDIDATES = (\d+)n;$", "SVID_MOST_CANDIDATES"),
        ("packages/node/src/library.js", r"^export const USUAL_RSA_BITS = (\d+), ", "SVID_USUAL_RSA_BITS"),
        ("packages/node/src/library.js", r"^const SPKI_ROOM = (\d+), FRAME_MORE = \d+;$", "SVID_SPKI_ROOM"),
        ("packages/node/src/library.js", r"^const SPKI_ROOM = \d+, FRAME_MORE = (\d+);$", "SVID_FRAME_MORE"),
        ("examples/embed/svid.py", r"^OK, .*\nMOST_CANDIDATES = (\d+)", "SVID_MOST_CANDIDATES"),
        ("packages/rust/svid/src/ffi.rs", r"^pub const MOST_CANDIDATES: usize = (\d+);$", "SVID_MOST_CANDIDATES"),
        ("docs/FORMATS.md", r"at most the first (\d+) candidates", "SVID_MOST_CANDIDATES"),
        ("tests/vectors/source/checks.py", r"^MOST_CANDIDATES = (\d+)\b", "SVID_MOST_CANDIDATES"),
        ("packages/python/svid/_library.py", r"^USUAL_RSA_BITS = (\d+)$", "SVID_USUAL_RSA_BITS"),
        ("packages/page/src/library.js", r"^export const MOST_RSA_BITS = (\d+)n;$", "SVID_USUAL_RSA_BITS"),
        ("packages/rust/svid/src/ffi.rs", r"^pub const SPKI_ROOM: usize = (\d+);$", "SVID_SPKI_ROOM"),
        ("packages/rust/svid/src/ffi.rs", r"^pub const USUAL_RSA_BITS: usize = (\d+);$", "SVID_USUAL_RSA_BITS"),
        ("examples/embed/svid.py", r"^SPKI_ROOM, USUAL_RSA_BITS = \d+, (\d+)", "SVID_USUAL_RSA_BITS"),
        ("examples/embed/svid.py", r"^SPKI_ROOM, USUAL_RSA_BITS = (\d+), \d+", "SVID_SPKI_ROOM"),
        ("packages/python/svid/_library.py", r"^SPKI_ROOM = (\d+)$", "SVID_SPKI_ROOM"),
    ],
)
def test_a_bound_of_the_header_elsewhere(path, form, name):
    assert re.findall(form, text_of(path), re.M) == [defined(name)]


def test_the_most_candidates_in_go():
    assert re.findall(r"^const MaxCandidates = (C\.SVID_MOST_CANDIDATES)$", text_of("go/svid/keyring.go"), re.M)
