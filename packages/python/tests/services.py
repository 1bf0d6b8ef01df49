"""Web services in a process of their own, behind real servers of WSGI and ASGI."""

import json
import os
import pathlib
import subprocess
import sys

import svid
from making import PATIENCE, bundle, entry, private_key, until

GUNICORN = [sys.executable, "-m", "gunicorn", "-w", "1", "service:app", "-b", "127.0.0.1:0"]
SERVERS = {
    "wsgi": [*GUNICORN, "--threads", "4"],
    "asgi": [*GUNICORN, "-k", "uvicorn.workers.UvicornWorker"],
}


class Service:
    """A service of one process, behind a port. Its text finds the bundles by SVID_BUNDLES."""

    def __init__(self, folder, kind, text):
        (folder / "service.py").write_text(text)
        bundles = folder / "bundles.json"
        bundles.write_text(json.dumps(bundle(entry(private_key("ES256"), "k1"))))
        package = pathlib.Path(svid.__file__).parent.parent
        self.environment = {
            **os.environ,
            "PYTHONPATH": os.pathsep.join([str(folder), str(package)]),
            "SVID_BUNDLES": str(bundles),
            "SVID_WAIT": str(PATIENCE),
        }
        self.log = folder / "said"
        self.words, self.folder = SERVERS[kind], folder

    def __enter__(self):
        with open(self.log, "wb") as out:
            self.ran = subprocess.Popen(
                self.words, cwd=self.folder, env=self.environment, stdout=out, stderr=out
            )
        until(lambda: "Listening at: http://127.0.0.1:" in self.said())
        self.port = int(self.said().partition("Listening at: http://127.0.0.1:")[2].split()[0])
        return self

    def __exit__(self, *_):
        self.ran.terminate()
        try:
            self.ran.wait(PATIENCE)
        except subprocess.TimeoutExpired:
            self.ran.kill()
            self.ran.wait()

    def said(self):
        assert self.ran.poll() is None, self.log.read_text()[-3000:]
        return self.log.read_text()
