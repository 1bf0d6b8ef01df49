"""What a release says of each known fault of code built into svidd (faults.toml), as OpenVEX 0.2.0 in JSON: whether the programs reach it, and why."""

import hashlib
import re
import tomllib
from datetime import datetime, timezone

from common import TOP, VERSION, epoch, run
from contents import contents
from spdx import OF_GO

# What OpenVEX says may be why a product is not affected.
HOW = {
    "vulnerable_code_not_present",
    "vulnerable_code_not_in_execute_path",
    "vulnerable_code_cannot_be_controlled_by_adversary",
    "inline_mitigations_already_exist",
}


def listed():
    return tomllib.loads((TOP / "tools/packaging/faults.toml").read_text(encoding="utf-8"))


def inside(path):
    """The modules of a Go program with their versions, and its functions and variables, by the table of symbols that it keeps."""
    said = run("go", "version", "-m", path)
    modules = {"stdlib": re.search(r": go(\S+)", said)[1], **dict(re.findall(r"^\tdep\t(\S+)\tv(\S+)", said, re.M))}
    names = {it.split(maxsplit=2)[2] for it in run("go", "tool", "nm", path).splitlines() if len(it.split(maxsplit=2)) == 3}
    if "main.main" not in names:
        raise SystemExit(f"tools/packaging/vex.py: {path} has no table of symbols")
    # (a point in the last part of a package's path is written so)
    return modules, {it.replace("%2e", ".") for it in names}


def numbers(version):
    return [int(it) for it in re.findall(r"\d+", version.partition("-")[0])]


def statement(fault, programs):
    """What is said of a fault: `fixed`, `not_affected` with a justification, or `affected` with what to do. A row that says too much or too
    little of these programs ends the release."""
    name, of = fault["names"][0], fault["of"]
    wrong = f"tools/packaging/faults.toml: {name} of {of}:"
    versions = {modules[of] for modules, _ in programs if of in modules}
    found = sorted(
        it
        for it in (*fault.get("packages", ()), *fault.get("functions", ()))
        if any(one == it or "packages" in fault and one.startswith(f"{it}.") for _, names in programs for one in names)
    )
    if versions and all(numbers(it) >= numbers(fault["fixed"]) for it in versions):
        return {"status": "fixed"}
    reason = None
    if not versions:
        reason = "component_not_present", f"No program has {of} in it."
    elif "since" in fault and all(numbers(it) < numbers(fault["since"]) for it in versions):
        reason = "vulnerable_code_not_present", f"The fault came with {fault['since']}."
    elif not found:
        looked = ", ".join([*fault.get("packages", ()), *fault.get("functions", ())])
        reason = "vulnerable_code_not_present", f"No program has this in it: {looked}."
    if reason:
        if "because" in fault:
            raise SystemExit(f"{wrong} {reason[1]} Take `because` out of its row.")
        return {"status": "not_affected", "justification": reason[0], "impact_statement": reason[1]}
    if "because" not in fault or ("how" in fault) == ("do" in fault) or fault.get("how", "vulnerable_code_not_present") not in HOW:
        raise SystemExit(
            f"{wrong} a program has {', '.join(found)} in it. Say in its row whether the fault is reached: `because`, and `how` or `do`."
        )
    if "how" in fault:
        return {"status": "not_affected", "justification": fault["how"], "impact_statement": fault["because"]}
    return {"status": "affected", "status_notes": fault["because"], "action_statement": fault["do"]}


def document(folder, room):
    """What is said of a folder's artifacts."""
    faults, products, programs = listed(), [], {}
    for path in sorted(it for it in folder.rglob("*") if it.is_file()):
        data, name = path.read_bytes(), path.relative_to(folder).as_posix()
        for it in [it for inner, it in contents(name, data) if OF_GO.search(inner) and it.startswith(b"\x7fELF")]:
            if it not in programs:
                (room / "svidd").write_bytes(it)
                (room / "svidd").chmod(0o755)  # Go reads no other file
                programs[it] = inside(room / "svidd")
            products.append({"@id": f"pkg:generic/{name}@{VERSION}", "hashes": {"sha-256": hashlib.sha256(data).hexdigest()}})
    versions = {name: it for modules, _ in programs.values() for name, it in modules.items()}
    statements = []
    for fault in faults["fault"]:
        of = fault["of"]
        part = {"@id": f"pkg:golang/{of}" + (f"@{'' if of == 'stdlib' else 'v'}{versions[of]}" if of in versions else "")}
        said = {"vulnerability": {"name": fault["names"][0]}, "products": [it | {"subcomponents": [part]} for it in products]}
        if fault["names"][1:]:
            said["vulnerability"]["aliases"] = fault["names"][1:]
        statements.append(said | statement(fault, list(programs.values())))
    digest = hashlib.sha256("".join(it["hashes"]["sha-256"] for it in products).encode()).hexdigest()
    return {
        "@context": "https://openvex.dev/ns/v0.2.0",
        "@id": f"https://svid.example/vex/svid-{VERSION}-{digest}",
        "author": f"svid-packaging-{VERSION}",
        "timestamp": datetime.fromtimestamp(epoch(), timezone.utc).strftime("%Y-%m-%dT%H:%M:%SZ"),
        "version": 1,
        "tooling": f"tools/packaging/vex.py. Faults known until {faults['until']}. {faults['about']}",
        "statements": statements,
    }
