"""ids.json: texts that are SPIFFE IDs, and why others are none."""

SYNTAX = "SPIFFE-ID, sections 2 to 2.3"
FAULTS = 'docs/FORMATS.md, "Faults of an ID"'


def good(domain, path=""):
    text = f"spiffe://{domain}{path}"
    name = text if len(text) < 99 else f"{len(text):,} bytes, a name of {len(domain)}"
    return {"name": name, "from": SYNTAX, "text": text, "domain": domain, "path": path}


def bad(text, fault, offset=None, name=None):
    return {"name": name or f"{text!r} is {fault}", "from": FAULTS, "text": text, "fault": fault, "offset": offset}


def vectors():
    for domain, path in (
        ("example.org", ""),
        ("example.org", "/billing/api"),
        ("a", "/b"),
        ("a.b_c-d.0", "/A/z/0/9/.../-/_"),
        (".", ""),
        ("-", "/-"),
        ("..", "/a"),
        ("1.2.3.4", "/a"),
        ("example.org", "/..."),
        ("example.org", "/.a/a./..b"),
        ("a" * 255, "/b"),
        ("a" * 255, "/" + "b" * 1783),
        ("a", "/b" * 1019),
    ):
        yield good(domain, path)
    long = "spiffe://a/" + "b" * 2038
    assert len(long) == 2049
    yield bad(long, "TooLong", name="2,049 bytes")
    yield bad("x" * 2049, "TooLong", name="2,049 bytes that begin with no scheme")
    for text in ("", "a", "spiffe", "spiffe:/", "spiffe:/a", "SPIFFE://a", "Spiffe://a", "https://a/b", " spiffe://a", "spiffe:a"):
        yield bad(text, "Scheme")
    for text in ("spiffe://", "spiffe:///", "spiffe:///a"):
        yield bad(text, "DomainEmpty")
    for text, offset in (
        ("spiffe://A", 9),
        ("spiffe://a.B/c", 11),
        ("spiffe://a b/c", 10),
        ("spiffe://a:80/c", 10),
        ("spiffe://u@a/c", 10),
        ("spiffe://a%41/c", 10),
        ("spiffe://é/c", 9),
        ("spiffe://a?b", 10),
        ("spiffe://a#b", 10),
        ("spiffe://a\\b", 10),
        ("spiffe://[::1]/a", 9),
    ):
        yield bad(text, "DomainByte", offset)
    yield bad(f"spiffe://{'A' * 256}", "DomainByte", 9, "a name of 256 bytes, the first of which is bad")
    yield bad(f"spiffe://{'a' * 256}", "DomainLong", name="a name of 256 bytes")
    yield bad(f"spiffe://{'a' * 256}//", "DomainLong", name="a name of 256 bytes, and an empty segment")
    for text, offset in (("spiffe://a/", 11), ("spiffe://a//b", 11), ("spiffe://a/b/", 13), ("spiffe://a/b//c", 13), ("spiffe://a//", 11)):
        yield bad(text, "SegmentEmpty", offset)
    for text, offset in (
        ("spiffe://a/.", 11),
        ("spiffe://a/..", 11),
        ("spiffe://a/b/../c", 13),
        ("spiffe://a/./b", 11),
        ("spiffe://a/../%", 11),
    ):
        yield bad(text, "SegmentDots", offset)
    for text, offset in (
        ("spiffe://a/%41", 11),
        ("spiffe://a/b c", 12),
        ("spiffe://a/b?c", 12),
        ("spiffe://a/b#", 12),
        ("spiffe://a/é", 11),
        ("spiffe://a/b/c~", 14),
        ("spiffe://a/b:c/../d", 12),
        ("spiffe://a/b+", 12),
        ("spiffe://a/.%", 12),
    ):
        yield bad(text, "PathByte", offset)
