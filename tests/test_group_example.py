"""The example of a group, killed by SIGKILL, which no trap sees: its server ends, and its folder goes."""

import os
import subprocess

from conftest import TOP, answering, needs


def test_a_killed_example_leaves_no_server_and_no_folder(tmp_path):
    """(each process of the example has the pipe open that is read here, so it ends with the last of them)"""
    needs("redis-server")
    needs("redis-cli")
    environment = {**os.environ, "TMPDIR": str(tmp_path)}
    with subprocess.Popen(
        [TOP / "examples/group/run"], stdout=subprocess.PIPE, stderr=subprocess.STDOUT, text=True, env=environment
    ) as example:
        with answering(example, "the example to show a group over a stream"):
            for line in example.stdout:
                if line.startswith("group over a stream: a accepted"):
                    break
            else:
                raise AssertionError(f"the example ends before it shows a group over a stream: {line}")
        assert [path.read_text().strip() for path in tmp_path.glob("*/server")], "the example has no server"
        example.kill()
        rest = subprocess.run(["timeout", "180", "cat"], stdin=example.stdout, stdout=subprocess.PIPE)
        assert rest.returncode == 0, "a process of the example goes on"
    assert os.listdir(tmp_path) == []
