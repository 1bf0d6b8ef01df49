"""The vectors of tests/vectors/, which say where their answers come from."""

import asyncio

import pytest
import svid
import svid.asgi
import vectors
from making import PATIENCE, verdict
from svid import _library as lib

KEYS, SIGNATURES, TOKENS = vectors.read("keys"), vectors.read("signatures"), vectors.TOKENS
BUNDLES, HEADERS, MESSAGES = (vectors.read(it) for it in ("bundles", "headers", "messages"))
SUMMARIES, FILES, FOLDERS = (vectors.read(it) for it in ("summaries", "files", "folders"))
NOW = KEYS["setting"]["now"]
ANY = 2**64 - 1
ENDS = {52: "end", 53: "tear", 54: "damage", 55: "format"}


def each(file):
    return pytest.mark.parametrize("vector", file["vectors"], ids=vectors.name_of)


@each({"vectors": KEYS["vectors"] + SIGNATURES["vectors"]})
def test_keys_and_signatures(vector):
    bundles = '{"example.org":{"keys":[' + ",".join(vector["keys"]) + "]}}"
    terms = {"rsa_bits": vector["rsa_bits"]} if "rsa_bits" in vector else {}
    terms["wait"] = PATIENCE
    with svid.Validator(audiences="ledger", bundles=bundles.encode(), **terms) as checks:
        assert verdict(checks, vector["token"], NOW) == vector["answer"]


@each(TOKENS)
def test_calls_of_a_validator(vector):
    with vectors.opened(vector) as checks:
        for call in vector["calls"]:
            assert vectors.called(checks, call) == call["answer"], call


@each(BUNDLES)
def test_bundles(vector, tmp_path):
    faults = ("NotObject", "Domain", "Keys", "Unnamed", "BadBundles")
    fault = vector["answer"].split(" ")[0] in faults
    try:
        bundles = bundles_of(vector, tmp_path)
        with svid.Validator(audiences="ledger", bundles=bundles, wait=PATIENCE) as checks:
            assert verdict(checks, vector["token"], NOW) == vector["answer"]
    except svid.BadBundles:
        assert fault
    else:
        assert not fault


def bundles_of(vector, folder):
    """Bundles in each of their forms."""
    match vector["form"]:
        case "domains":
            return vector["text"].encode() if "text" in vector else bytes.fromhex(vector["hex"])
        case "document":
            path = folder / f"{vector['domain']}.json"
            path.write_text(vector["text"], encoding="utf-8")
            return path
        case "workload":
            given = {name: text.encode() for name, text in vector["bundles"].items()}
            return svid.from_workload_api(given)


@each(HEADERS)
def test_headers(vector):
    """The middleware lets in the one that the token is of, or answers with status 401."""
    said = []

    async def app(scope, _receive, _send):
        said.append(scope["spiffe_id"])

    async def send(message):
        said.append(message)

    headers = [(b"authorization", value.encode("latin-1")) for value in vector["values"]]
    bundles = HEADERS["setting"]["bundles"].encode()
    with svid.Validator(audiences="ledger", bundles=bundles, wait=PATIENCE) as checks:
        admits = svid.asgi.SvidMiddleware(app, AtOneTime(checks))
        asyncio.run(admits({"type": "http", "headers": headers}, None, send))
    if vector["answer"] == "refused":
        assert said[0]["status"] == 401
        challenge = dict(said[0]["headers"])[b"www-authenticate"].decode()
        assert challenge == vector.get("challenge", challenge)
        assert challenge.startswith("Bearer ")
    else:
        assert said == [vector["answer"].split(" ")[1]]


class AtOneTime:
    """A validator that checks at the time of the vectors."""

    waits = False

    def __init__(self, checks):
        self.checks = checks

    def check(self, token):
        return self.checks.check(token, NOW)

    def _looks_first(self):
        return False


def empty():
    """A validator that takes messages of any time, and whose record is empty."""
    return svid.Validator(audiences="ledger", bundles=b"{}", ahead=ANY)


@each(MESSAGES)
def test_messages(vector):
    messages = bytes.fromhex(vector["messages"])
    with empty() as checks:
        if "fault" in vector:
            with pytest.raises(svid.BadMessages) as raised:
                checks.take(messages, 0)
            why = raised.value
            said = {"reason": why.reason, "message": why.message, "offset": why.offset}
            assert said == vector["fault"]
            return
        checks.take(messages, 0)
        if vector["now"]:
            checks.tick(vector["now"])
        assert b"".join(checks.parts()).hex() == vector["record"]
        assert checks.report() == svid.Report.parse(vector["report"])


@each(SUMMARIES)
def test_summaries(vector):
    with empty() as checks:
        checks.take(bytes.fromhex(vector["messages"]), 0)
        summary = bytes.fromhex(vector["summary"])
        if vector["call"] == "summary":
            assert checks.summary() == summary
        elif "fault" in vector:
            with pytest.raises(svid.BadMessages) as raised:
                checks.answer(summary, 0)
            assert raised.value.reason == vector["fault"]
        else:
            assert checks.answer(summary, 0).hex() == vector["answer"]


@each(FILES)
def test_files_of_a_state_folder(vector):
    content, folder_id = bytes.fromhex(vector["content"]), bytes.fromhex(vector["folder_id"])
    reader, frame = lib.Reader(), lib.Frame()
    lent = (content, len(content), lib.address(reader), lib.address(frame))
    payloads = []
    while True:
        status = lib.library.svid_journal_read(folder_id, vector["journal"], *lent)
        if status != lib.OK:
            break
        payloads.append(content[frame.payload : frame.payload + frame.len].hex())
    assert (payloads, ENDS[status], reader.at) == (vector["payloads"], vector["end"], vector["at"])
    if vector["end"] == "format":
        assert frame.format == vector["format"]


@each(FOLDERS)
def test_state_folders(vector, tmp_path):
    for name, content in vector["files"].items():
        (tmp_path / name).write_bytes(bytes.fromhex(content))
    terms = {"audiences": "ledger", "bundles": b"{}", "ahead": ANY, "state": tmp_path}
    if "record" in vector:
        with svid.Validator(**terms) as checks, empty() as same:
            same.take(bytes.fromhex(vector["record"]), 0)
            assert checks.report().uses == same.report().uses
        return
    with pytest.raises((svid.Damaged, svid.OtherFormat)) as raised:
        svid.Validator(**terms)
    name = vector.get("damaged") or vector["of_format"]
    assert raised.value.file == str(tmp_path / name)
    if "damaged" in vector:
        assert raised.value.offset == vector["at"]
    else:
        assert raised.value.format == vector["format"]
