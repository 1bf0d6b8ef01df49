"""Scripts of the test driver svid_script: lines with the answers that are due, and how it prints what is in them."""

import base64
import hashlib
import os
import subprocess
from typing import NamedTuple

# More uses than this are printed as a digest, and so are more bytes than that.
MOST_LISTED = 16
MOST_DIGITS = 256

# A line of a script, and the answers that are due.
Line = tuple[str, list[str]]


class Use(NamedTuple):
    """A use or a withdrawal. Their order is that of their bytes."""

    exp: int
    key: bytes
    validator_id: bytes
    at: int
    withdrawn: bool

    def text(self) -> bytes:
        return self.exp.to_bytes(8, "big") + self.key + self.validator_id + self.at.to_bytes(8, "big") + bytes([self.withdrawn])

    def said(self) -> str:
        return f"{self.exp}/{digits(self.key)}/{digits(self.validator_id)}/{self.at}{'/withdrawn' if self.withdrawn else ''}"


def digits(data: bytes) -> str:
    """The digits of bytes; two, if all are equal."""
    return data[:1].hex() if data == data[:1] * len(data) else data.hex()


def base64url(data: bytes) -> bytes:
    return base64.urlsafe_b64encode(data).rstrip(b"=")


def listed(uses: list[Use]) -> list[str]:
    if len(uses) > MOST_LISTED:
        return [f"= uses {len(uses)} {hashlib.sha256(b''.join(it.text() for it in uses)).hexdigest()}"]
    return [f"= {it.said()}" for it in uses]


def batch_lines(moment: int, uses: list[Use]) -> list[str]:
    return [f"= batch {moment} {len(uses)}", *listed(uses)]


def fault(driver: os.PathLike[str], lines: list[Line], **environment: str) -> tuple[str | None, int]:
    """What is wrong with the answers of svid_script, and how many allocations were refused."""
    script = "".join(f"{line}\n" for line, _ in lines).encode()
    done = subprocess.run([driver], input=script, capture_output=True, env={**os.environ, **environment}, timeout=600)
    found: list[list[str]] = []
    refused = 0
    for line in map(str.rstrip, done.stdout.decode(errors="replace").split("\n")):
        if line.startswith("> "):
            found.append([])
        elif line == "~ refused":
            refused += 1
        elif line and found:
            found[-1].append(line)
    for (line, due), got in zip(lines, found):
        if got != due and (due or got != ["= ok"]):
            return f"{line[:300]}\n  due {due}\n  got {got}", refused
    if len(found) != len(lines) or done.returncode:
        said = done.stderr.decode(errors="replace")[-300:]
        return f"{len(found)} answers to {len(lines)} lines, status {done.returncode} {said}", refused
    return None, refused
