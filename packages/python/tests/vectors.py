"""The files of tests/vectors/, which the tests of every language read (tests/vectors/README.md)."""

import json
import os
import pathlib

import svid
from making import PATIENCE

# (a copy of the package, as packages/python/wrong/run makes them, has the program of a checkout)
CHECKOUTS = (pathlib.Path(__file__).parents[3], pathlib.Path(os.environ["SVID"]).parent)
FOLDERS = [it / "tests" / "vectors" for it in CHECKOUTS]
HERE = next(it for it in FOLDERS if (it / "tokens.json").exists())
READER = "python"


def read(name):
    """A file, with the vectors that are for this package alone. There are as many as it says."""
    made = json.loads((HERE / f"{name}.json").read_text(encoding="utf-8"))
    made["vectors"] = [it for it in made["vectors"] if READER in it["readers"].split()]
    assert len(made["vectors"]) == made["counts"][READER] > 0
    return made


def name_of(vector):
    """The name of a test of this vector."""
    return vector["name"] if isinstance(vector, dict) else None


TOKENS = read("tokens")
NO_LIMIT = 2**64 - 1


def opened(vector):
    """The validator that a vector of tokens.json calls."""
    given = TOKENS["setting"] | vector.get("setting", {})
    longest, step = given["longest"], given["step"]
    return svid.Validator(
        audiences=given["audiences"],
        bundles=TOKENS["bundles"][given["bundles"]].encode(),
        ahead=int(given["ahead"] or NO_LIMIT),
        validator_id=bytes.fromhex(given["validator_id"]),
        longest=svid.UNLIMITED if longest is None else int(longest),
        step=None if step is None else int(step),
        wait=PATIENCE,
    )


def called(checks, call):
    """What a call of a validator answers, in the words of the vectors."""
    now = call.get("now")
    try:
        match call["call"]:
            case "check" | "judge":
                accepted = getattr(checks, call["call"])(call["token"], now)
                return f"accepted {accepted.spiffe_id} {accepted.expires}"
            case "withdraw":
                checks.withdraw_key(bytes.fromhex(call["key"]), call["exp"], now)
                return "withdrawn"
            case "take":
                checks.take(bytes.fromhex(call["messages"]), now)
                return "taken"
            case "tick":
                checks.tick(now)
                return "ticked"
            case "tell":
                return b"".join(checks.parts()).hex()
    except svid.Refused as why:
        return f"refused {why.name}"
    except svid.BadMessages as why:
        return f"{why.reason} {why.message} {why.offset}"
    except (svid.Jump, svid.Gone, svid.TooFar) as why:
        return type(why).__name__
    raise AssertionError(call["call"])
