"""patterns.json: patterns of SPIFFE IDs, and the IDs that each allows."""

WORDS = 'docs/FORMATS.md, "Patterns of IDs"'
FAULTS = 'docs/FORMATS.md, "Faults of an ID"'
ORG = "spiffe://example.org"
LONG = "spiffe://a/" + "c" * 2035
BYTES = set("abcdefghijklmnopqrstuvwxyz0123456789.-_")
LETTERS = BYTES | set("ABCDEFGHIJKLMNOPQRSTUVWXYZ")


def parts(text):
    """The trust domain name and the segments of an ID, by the words of docs/FORMATS.md; none if it is none."""
    rest = text.removeprefix("spiffe://")
    name, *segments = rest.split("/")
    is_id = len(text) <= 2048 and rest != text and 1 <= len(name) <= 255 and set(name) <= BYTES
    return (name, segments) if is_id and all(it not in ("", ".", "..") and set(it) <= LETTERS for it in segments) else None


def allows(pattern, text):
    """Whether a pattern allows an ID, by its segments; none if one of them is none."""
    above, below = parts(pattern.removesuffix("/*")), pattern.endswith("/*")
    of = parts(text)
    if not above or not of:
        return None
    if below:
        return of[0] == above[0] and of[1][: len(above[1])] == above[1] and len(of[1]) > len(above[1])
    return of == above if above[1] else of[0] == above[0]


def shown(text):
    return text if len(text) < 60 else f"{text[:12]}..{text[-3:]} ({len(text):,} bytes)"


def row(pattern, text, is_allowed):
    assert allows(pattern, text) is is_allowed, (pattern, text)
    answer = "allowed" if is_allowed else "not allowed"
    return {"name": f"{shown(pattern)} and {shown(text)}: {answer}", "from": WORDS, "pattern": pattern, "id": text, "answer": answer}


def bad(pattern, text, answer, fault, offset=None):
    assert allows(pattern, text) is None, (pattern, text)
    name = f"{shown(pattern)!r} and {shown(text)!r}: {answer}"
    return {"name": name, "from": FAULTS, "pattern": pattern, "id": text, "answer": answer, "fault": fault, "offset": offset}


def vectors():
    for pattern, allowed, others in (
        (
            f"{ORG}/billing/api",
            ("/billing/api",),
            ("", "/billing", "/billing/ap", "/billing/apis", "/billing/API", "/billing/api/a", "/a/billing/api", "x/billing/api", ".uk/billing/api"),
        ),
        (
            f"{ORG}/billing/*",
            ("/billing/a", "/billing/a/b", "/billing/a/b/c/d/e", "/billing/billing", "/billing/...", "/billing/A"),
            ("", "/billing", "/billingx", "/billingx/a", "/billing.x/a", "/Billing/a", "/billin/g/a", "/a/billing/a", "x/billing/a", ".uk/billing/a"),
        ),
        (f"{ORG}/a/b/*", ("/a/b/c", "/a/b/b"), ("/a/b", "/a/c/b", "/b/a/c", "/a/bc", "/a/bb/c", "/ab/c")),
        (f"{ORG}/*", ("/a", "/a/b", "/.../-"), ("", "x/a", ".uk/a")),
        (ORG, ("", "/a", "/a/b"), ("x", "x/a", ".uk", ".uk/a")),
    ):
        for path in allowed:
            yield row(pattern, ORG + path, True)
        for path in others:
            yield row(pattern, ORG + path, False)
    for pattern in (ORG, f"{ORG}/*", f"{ORG}/a", f"{ORG}/a/*"):
        for domain in ("example.com", "example.or", "a.example.org", "a"):
            yield row(pattern, f"spiffe://{domain}/a", False)
            yield row(pattern, f"spiffe://{domain}/a/b", False)
    # An ID has at most 2,048 bytes, and a pattern 2,050.
    yield row(f"{LONG}/*", f"{LONG}/b", True)
    yield row(f"{LONG}/*", f"{LONG}b", False)
    yield row(f"{LONG}cc", f"{LONG}cc", True)
    yield row(f"{LONG}cc/*", f"{LONG}cc", False)
    yield row(f"{LONG}cc/*", f"{LONG}/b", False)
    yield row("spiffe://a" + "/b" * 1018 + "/*", "spiffe://a" + "/b" * 1019, True)
    yield row("spiffe://a" + "/b" * 1019 + "/*", "spiffe://a" + "/b" * 1019, False)
    yield row("spiffe://" + "a" * 255 + "/*", "spiffe://" + "a" * 255 + "/b", True)
    yield row("spiffe://" + "a" * 255, "spiffe://" + "a" * 254 + "/b", False)
    for pattern, fault, offset in (
        ("", "Scheme", None),
        ("*", "Scheme", None),
        ("/*", "Scheme", None),
        ("spiffe:/*", "Scheme", None),
        ("SPIFFE://a/*", "Scheme", None),
        ("https://a/*", "Scheme", None),
        ("spiffe://", "DomainEmpty", None),
        ("spiffe:///*", "DomainEmpty", None),
        ("spiffe:///a/*", "DomainEmpty", None),
        ("spiffe://*", "DomainByte", 9),
        ("spiffe://*/a", "DomainByte", 9),
        ("spiffe://*/*", "DomainByte", 9),
        ("spiffe://*.example.org/a", "DomainByte", 9),
        ("spiffe://A/*", "DomainByte", 9),
        (f"{ORG}*", "DomainByte", 20),
        (f"{ORG}:80/*", "DomainByte", 20),
        (f"{ORG}/", "SegmentEmpty", 21),
        (f"{ORG}//*", "SegmentEmpty", 21),
        (f"{ORG}/a//*", "SegmentEmpty", 23),
        (f"{ORG}/*/", "PathByte", 21),
        (f"{ORG}/*/a", "PathByte", 21),
        (f"{ORG}/*/*", "PathByte", 21),
        (f"{ORG}/**", "PathByte", 21),
        (f"{ORG}/a*", "PathByte", 22),
        (f"{ORG}/*a", "PathByte", 21),
        (f"{ORG}/é/*", "PathByte", 21),
        (f"{ORG}/./*", "SegmentDots", 21),
        (f"{ORG}/a/../*", "SegmentDots", 23),
        (f"{LONG}ccc", "TooLong", None),
        (f"{LONG}ccc/*", "TooLong", None),
        ("x" * 2051, "TooLong", None),
        ("spiffe://" + "a" * 256 + "/*", "DomainLong", None),
    ):
        yield bad(pattern, f"{ORG}/a", "no pattern", fault, offset)
    # The pattern is looked at first.
    yield bad(f"{ORG}/*a", f"{ORG}/", "no pattern", "PathByte", 21)
    for text, fault, offset in (("", "Scheme", None), (f"{ORG}/", "SegmentEmpty", 21), (f"{ORG}/*", "PathByte", 21), (f"{ORG}/b ", "PathByte", 22)):
        for pattern in (ORG, f"{ORG}/*", f"{ORG}/a"):
            yield bad(pattern, text, "no ID", fault, offset)
