"""What the tests share: a check, running the command, and its library for many files."""

import io
import os
import pathlib
import subprocess
import sys
import unittest

HERE = pathlib.Path(__file__).resolve().parent
ROOT = HERE.parent.parent
FRAG = ROOT / "tools" / "frag"
SAMPLES = ROOT / "samples"

sys.path.insert(0, str(ROOT / "tools"))

from fraglib import cli


class Case(unittest.TestCase):
    def same(self, what, got, expected):
        """A check that stops no other where it fails."""
        with self.subTest(what):
            self.assertEqual(got, expected)


def frag(*arguments, given=b""):
    """What the command does, without a process: exit status, standard output and error."""
    kept = sys.stdin, sys.stdout, sys.stderr
    streams = [io.TextIOWrapper(io.BytesIO(data), encoding="utf-8") for data in (given, b"", b"")]
    sys.stdin, sys.stdout, sys.stderr = streams
    try:
        status = cli.run([str(each) for each in arguments])
    except SystemExit as end:  # how argparse ends after its help or a wrong argument
        status = end.code
    finally:
        sys.stdin, sys.stdout, sys.stderr = kept
    for stream in streams[1:]:
        stream.flush()
    out, error = (stream.buffer.getvalue() for stream in streams[1:])
    return status, out, error.decode("utf-8")


def command(*arguments, given=b"", **settings):
    """The same by a process of its own, as a person runs it."""
    # Python's own settings change how output is buffered and coded, so none is handed on.
    env = {name: value for name, value in os.environ.items() if not name.startswith("PYTHON")}
    env.update(settings.pop("more_env", {}))
    settings = dict({"stdout": subprocess.PIPE, "stderr": subprocess.PIPE, "env": env}, **settings)
    if "preexec_fn" not in settings:
        settings["input"] = given
    words = [sys.executable, str(FRAG)] + [str(each) for each in arguments]
    done = subprocess.run(words, **settings)
    return done.returncode, done.stdout, done.stderr.decode("utf-8")


def unspaced(hex_text):
    return bytes.fromhex("".join(hex_text.split()))


def nested_blocks(count):
    """That many blocks in one another, the kinds by turns, each but the last with one fragment."""
    data = b""
    for level in range(count):
        inner = b"\x08" + len(data).to_bytes(2, "big") + data if level else b""
        data = bytes([3 + level % 2]) + len(inner).to_bytes(2, "big") + inner
    return data
