"""What is in the artifacts of a release: the files in each, whatever kind of archive it is."""

import io
import json
import tarfile
import zipfile


def of_tar(data):
    with tarfile.open(fileobj=io.BytesIO(data)) as file:
        for it in file:
            if it.isfile():
                yield it.name.removeprefix("./"), file.extractfile(it).read()


def of_zip(data):
    with zipfile.ZipFile(io.BytesIO(data)) as file:
        for it in file.infolist():
            if not it.is_dir():
                yield it.filename, file.read(it)


def of_deb(data):
    """The files of a Debian package: those that it installs, and those of dpkg in DEBIAN/. (dpkg-deb makes an `ar` of three members)"""
    if not data.startswith(b"!<arch>\n"):
        raise ValueError("it is no Debian package")
    at = 8
    while at < len(data):
        name, size = data[at : at + 16].decode().strip(), int(data[at + 48 : at + 58])
        body = data[at + 60 : at + 60 + size]
        at += 60 + size + size % 2
        if name.startswith("control.tar"):
            yield from ((f"DEBIAN/{path}", data) for path, data in of_tar(body))
        elif name.startswith("data.tar"):
            yield from of_tar(body)


def of_image(data):
    """The files of the container that an OCI archive describes."""
    blobs = dict(of_tar(data))

    def blob(it):
        return blobs["blobs/sha256/" + it["digest"].removeprefix("sha256:")]

    for manifest in json.loads(blobs["index.json"])["manifests"]:
        for layer in json.loads(blob(manifest))["layers"]:
            yield from of_tar(blob(layer))


KINDS = [
    (".oci.tar", of_image),
    (".tar.gz", of_tar),
    (".tgz", of_tar),
    (".crate", of_tar),
    (".whl", of_zip),
    (".jar", of_zip),
    (".zip", of_zip),
    (".deb", of_deb),
]


def contents(name, data):
    """The files in an artifact, each with its bytes, in the order of their paths; none where it is no archive."""
    kind = next((kind for end, kind in KINDS if name.endswith(end)), None)
    return sorted(kind(data)) if kind else []
