"""The list of all that is in a release, as SPDX 2.3 in JSON: each artifact, each file in it, and each library of others that is linked into it."""

import functools
import hashlib
import re
from datetime import datetime, timezone

from common import TOP, VERSION, epoch, loaded, run
from contents import contents

LICENSES = {"Expat": "MIT", "Apache-2.0": "Apache-2.0", "BSD-3-clause": "BSD-3-Clause", "Go": "BSD-3-Clause"}
# What has code of the Rattle kit, by the ends of its name.
OF_KIT = re.compile(r"(^|/)(svid|svid\.wasm|svid\.html|libsvid(_\w+)?\.a|libsvid\.so[\d.]*)$")
OF_GO = re.compile(r"(^|/)svidd$")


CHECK = loaded("tools/packaging/check")
COPYRIGHT = {pattern: it for it in CHECK.paragraphs(TOP / "tools/packaging/copyright") for pattern in it.get("Files", "").split()}


@functools.cache
def vendored():
    """The Debian package and its version of each module in go/vendor."""
    rows = re.findall(r"^(\w\S*) \S+ (\S+) (\S+) \S+$", (TOP / "go/vendor.txt").read_text(encoding="utf-8"), re.M)
    return {f"go/vendor/{module}/*": f"{package} {version}" for module, package, version in rows}


def package_of(pattern, name, version, reference=None):
    """A library of others, with what the copyright file says of it."""
    said = COPYRIGHT.get(pattern, {})
    joined = said.get("License", "").partition("\n")[0]
    parts = re.split(" (and|or) ", joined)
    names = [LICENSES.get(it) for it in parts[::2]]
    joins = [f" {it.upper()} " for it in parts[1::2]]
    found = {
        "name": name,
        "versionInfo": version,
        "licenseDeclared": "".join(it for pair in zip(names, [*joins, ""]) for it in pair) if all(names) else "NOASSERTION",
        "copyrightText": re.sub(r"\s*\n\s*", "\n", said.get("Copyright", "")) or "NOASSERTION",
    }
    if found["copyrightText"].startswith("not stated"):
        found["copyrightText"] = "NOASSERTION"
    debian = re.search(r"golang-[\w.-]+", said.get("Comment", ""))
    if pattern in vendored():
        found["sourceInfo"] = f"from Debian's package {vendored()[pattern]}"
    elif debian:
        found["sourceInfo"] = f"from Debian's package {debian[0]} {version_of(debian[0])}"
    if "sourceInfo" in found or (reference or "").startswith("pkg:deb/"):
        found["supplier"] = "Organization: Debian"
    if reference:
        found["externalRefs"] = [{"referenceCategory": "PACKAGE-MANAGER", "referenceType": "purl", "referenceLocator": reference}]
    return found


def version_of(package):
    return run("dpkg-query", "-W", "-f", "${Version}", package)


def linked_from(name, package):
    """A library of Debian that is linked statically, or copied, from a package."""
    version = version_of(package)
    return package_of(None, name, version, f"pkg:deb/debian/{package}@{version.replace(':', '%3A')}")


def kit():
    """The libraries of the Rattle kit that the program and the C library are made of."""
    version = (TOP / "dist/KIT").read_text(encoding="utf-8").strip()
    listed = re.findall(r"^(\w+)(?: staticlib)?: (.*)$", (TOP / "crates.txt").read_text(encoding="utf-8"), re.M)
    ours = {name for name, _ in listed}
    uses = sorted({use for _, words in listed for use in words.split()} - ours)
    yield package_of("rattle-kit/*", "rattle-kit", version)
    yield from (package_of(f"rattle-kit/{use}/*", f"rattle-kit/{use}", version) for use in uses)


def of_svidd(path):
    """What is linked into a svidd, by what Go has noted in it."""
    said = run("go", "version", "-m", path)
    release = re.search(r": go((\d+\.\d+)\S*)", said)
    yield package_of(f"golang-{release[2]}/*", "go", release[1], f"pkg:golang/stdlib@{release[1]}")
    for module, version in re.findall(r"^\tdep\t(\S+)\t(\S+)", said, re.M):
        yield package_of(f"go/vendor/{module}/*", module, version, f"pkg:golang/{module}@{version}")


def bundled(artifact, files, room):
    """The libraries of others in an artifact, by the programs in it. A program that is not known here is a fault."""
    found = []
    for path, data in files:
        is_kit, is_go = OF_KIT.search(path), OF_GO.search(path)
        if is_go and data.startswith(b"\x7fELF"):
            (room / "svidd").write_bytes(data)
            (room / "svidd").chmod(0o755)  # Go reads no other file
            found += [*of_svidd(room / "svidd"), *kit()]
            if artifact.endswith(".oci.tar"):
                cross = "-arm64-cross" if artifact.endswith("-arm64.oci.tar") else ""
                found += [linked_from("glibc", f"libc6-dev{cross}"), linked_from("libgcc", f"libgcc-12-dev{cross}")]
                found += [linked_from("ca-certificates", "ca-certificates")]
                found += [] if cross else [linked_from("openssl", "libssl-dev")]
        elif is_kit and not data.startswith(b"# "):
            found += kit()
        elif data.startswith((b"\x7fELF", b"!<arch>", b"\0asm")):
            raise SystemExit(f"tools/packaging/spdx.py: {artifact} has {path}, of which nobody says what is linked into it")
    return {(it["name"], it["versionInfo"]): it for it in found}


def sums(data):
    return [{"algorithm": name.upper(), "checksumValue": hashlib.new(name, data).hexdigest()} for name in ("sha1", "sha256")]


def verification(files):
    """SPDX 2.3, section 7.9: one digest over those of the files."""
    return hashlib.sha1("".join(sorted(it["checksums"][0]["checksumValue"] for it in files)).encode()).hexdigest()


def document(folder, room):
    """The list of a folder's artifacts."""
    unsaid = {"licenseConcluded": "NOASSERTION", "copyrightText": "NOASSERTION"}
    files, packages, libraries, relations = [], [], {}, []

    def file(path, data):
        it = {"SPDXID": f"SPDXRef-File-{len(files) + 1}", "fileName": f"./{path}", "checksums": sums(data)}
        files.append(it | {"licenseInfoInFiles": ["NOASSERTION"]} | unsaid)
        return files[-1]

    def relate(one, kind, other):
        relations.append({"spdxElementId": one, "relationshipType": kind, "relatedSpdxElement": other})

    artifacts = sorted(it for it in folder.rglob("*") if it.is_file())
    for number, path in enumerate(artifacts, 1):
        data, name = path.read_bytes(), path.relative_to(folder).as_posix()
        inside = contents(name, data)
        own = [file(f"{name}/{inner}", it) for inner, it in inside] or [file(name, data)]
        package = {
            "SPDXID": f"SPDXRef-Artifact-{number}",
            "name": name,
            "versionInfo": VERSION,
            "packageFileName": f"./{name}",
            "downloadLocation": "NOASSERTION",
            "checksums": sums(data),
            "filesAnalyzed": True,
            "packageVerificationCode": {"packageVerificationCodeValue": verification(own)},
            "licenseInfoFromFiles": ["NOASSERTION"],
            "licenseDeclared": "NOASSERTION",
        }
        packages.append(package | unsaid)
        relate("SPDXRef-DOCUMENT", "DESCRIBES", package["SPDXID"])
        for it in own:
            relate(package["SPDXID"], "CONTAINS", it["SPDXID"])
        for key, it in bundled(name, inside or [(name, data)], room).items():
            if key not in libraries:
                more = {"SPDXID": f"SPDXRef-Library-{len(libraries) + 1}", "downloadLocation": "NOASSERTION", "filesAnalyzed": False}
                libraries[key] = more | {"licenseConcluded": "NOASSERTION"} | it
            relate(package["SPDXID"], "CONTAINS", libraries[key]["SPDXID"])
    digest = hashlib.sha256("".join(it["checksums"][1]["checksumValue"] for it in packages).encode()).hexdigest()
    return {
        "spdxVersion": "SPDX-2.3",
        "dataLicense": "CC0-1.0",
        "SPDXID": "SPDXRef-DOCUMENT",
        "name": f"svid-{VERSION}",
        "documentNamespace": f"https://svid.example/spdx/svid-{VERSION}-{digest}",
        "creationInfo": {
            "created": datetime.fromtimestamp(epoch(), timezone.utc).strftime("%Y-%m-%dT%H:%M:%SZ"),
            "creators": [f"Tool: svid-packaging-{VERSION}"],
        },
        "packages": [*packages, *libraries.values()],
        "files": files,
        "relationships": relations,
    }
