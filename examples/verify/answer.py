"""Verifies a token's signature, for `svid check`: answers the questions of `svid candidates` by openssl.

Usage: svid candidates --bundles BUNDLES < TOKEN | python3 answer.py BUNDLES TOKEN > TABLE

Standard input is what `svid candidates` printed. Prints each question whose answer is yes, a line each. The exit status is
0 if a key made the signature, 1 if none did, and 2 if a file is not as it should be. It knows ES256 and RS256.
"""

import json
import pathlib
import sys

sys.dont_write_bytecode = True

import verify  # noqa: E402


def first_token(text):
    """The first line that is not empty."""
    return next((line for line in text.splitlines() if line), "")


def answers(bundles, token, lines):
    """Of the questions that were asked about a token, those whose answer is yes."""
    header, payload, _ = (verify.unbase64url(part) for part in token.split("."))
    alg = json.loads(header)["alg"]
    if alg not in ("ES256", "RS256"):
        raise ValueError(f"a signature of {alg} is not verified here, only ES256 and RS256")
    domain = json.loads(payload)["sub"].removeprefix("spiffe://").partition("/")[0]
    return verify.good_questions(lines, domain, bundles[domain]["keys"], token)


def main(bundles, token):
    lines = sys.stdin.read().splitlines()
    if not lines or lines[0].startswith("refused "):
        print(f"answer.py: there is no question: {lines[0] if lines else 'svid candidates printed nothing'}", file=sys.stderr)
        return 1
    try:
        text = first_token(pathlib.Path(token).read_text(encoding="ascii"))
        good = answers(json.loads(pathlib.Path(bundles).read_text(encoding="utf-8")), text, lines)
    except (OSError, ValueError, KeyError) as fault:
        print(f"answer.py: {fault!r}", file=sys.stderr)
        return 2
    for asked in good:
        print(asked)
    return 0 if good else 1


if __name__ == "__main__":
    if len(sys.argv) != 3:
        sys.exit(__doc__)
    sys.exit(main(*sys.argv[1:]))
