"""Judges tokens with the Python package: six_python.py BUNDLES AUDIENCES LONGEST < FRAMES, as six.c does. BUNDLES is a folder or a file."""

import struct
import sys

import svid


def main(bundles: str, audiences: str, longest: str) -> None:
    with open(audiences, encoding="utf-8") as file:
        names = file.read().splitlines()
    read = sys.stdin.buffer.read
    try:
        # (a machine may stand still for a while)
        validator = svid.Validator(audiences=names, bundles=bundles, longest=int(longest), refresh=None, wait=60)
    except svid.BadBundles as error:
        print("bundles", error)
        return
    with validator:
        while head := read(12):
            now, length = struct.unpack("<QI", head)
            try:
                accepted = validator.check(read(length), now)
                print(f"accepted {accepted.spiffe_id} {accepted.expires}")
            except svid.Refused as refused:
                print("refused", type(refused).__name__)


main(*sys.argv[1:])
