"""headers.json: values of the header `Authorization`, and what becomes of the request."""

from .checks import accepted, token

BEARER = "RFC 6750, section 2.1; RFC 9110, section 11.4"
SCHEME = "RFC 9110, section 11.1: names of schemes have no case"

# The challenge of a 401, for a request without a bearer token. RFC 6750, section 3: there is at least one parameter, and no error where the client tried
# nothing or another scheme. Section 3.1: a malformed request is invalid_request.
NOTHING_TRIED = 'Bearer realm="svid"'
MALFORMED = 'Bearer error="invalid_request", error_description="NotBearer"'
CHALLENGES = {"Absent": NOTHING_TRIED, "Scheme": NOTHING_TRIED, "Several": MALFORMED, "Spelling": MALFORMED}


def row(name, values, answer, why=None, source=BEARER):
    """`why` says why the request has no bearer token; without it, `answer` is that of a check of its token. The page has a field for one header."""
    readers = {} if len(values) == 1 else {"readers": ["go", "python", "rust"]}
    challenge = {"challenge": CHALLENGES[why]} if why else {}
    return {"name": name, "from": source, **readers, "values": values, "why": why, "answer": answer, **challenge}


def vectors():
    good, other = token(jti="h1"), token(jti="h2")
    yes = accepted()
    yield row("a bearer token", [f"Bearer {good}"], yes)
    for scheme in ("bearer", "BEARER", "bEaReR"):
        yield row(f"the scheme {scheme}", [f"{scheme} {good}"], yes, source=SCHEME)
    yield row("some blanks", [f"Bearer   {good}"], yes, source="RFC 9110, section 11.4: 1*SP")
    yield row("no header", [], "refused", "Absent")
    yield row("an empty header", [""], "refused", "Scheme")
    yield row("the scheme alone", ["Bearer"], "refused", "Spelling")
    yield row("the scheme and a blank", ["Bearer "], "refused", "Spelling")
    yield row("a token alone", [good], "refused", "Scheme")
    yield row("another scheme", [f"Basic {good}"], "refused", "Scheme")
    yield row("a scheme that begins so", [f"Bearers {good}"], "refused", "Scheme")
    yield row("a scheme without its blank", [f"Bearer{good}"], "refused", "Scheme")
    yield row("a tab", [f"Bearer\t{good}"], "refused", "Spelling", "RFC 9110, section 11.4: 1*SP")
    yield row("a colon", [f"Bearer: {good}"], "refused", "Scheme")
    several = "RFC 9110, section 5.3: Authorization is no list"
    yield row("two headers", [f"Bearer {good}", f"Bearer {other}"], "refused", "Several", several)
    yield row("the same header twice", [f"Bearer {good}", f"Bearer {good}"], "refused", "Several", several)
    yield row("another scheme first", ["Basic YTpi", f"Bearer {good}"], "refused", "Several", several)
    yield row("another scheme second", [f"Bearer {good}", "Basic YTpi"], "refused", "Several", several)
    for between in (",", ", ", " ", ",Bearer ", ", Bearer ", ";"):
        yield row(f"two tokens with {between!r} between", [f"Bearer {good}{between}{other}"], "refused", "Spelling")
    yield row("a parameter behind it", [f"Bearer {good} realm=x"], "refused", "Spelling")
    yield row("quotation marks", [f'Bearer "{good}"'], "refused", "Spelling")
    yield row("a token of other characters", ["Bearer \x80.\xff.\xfe"], "refused", "Spelling")
    yield row("a token that is none", ["Bearer a.b.c"], "refused")
    yield row("an expired token", [f"Bearer {token(exp=1)}"], "refused", source="RFC 7519, section 4.1.4")
