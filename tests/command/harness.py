"""What the tests share: the built command, fragment files, and a folder of its own for each test."""

import functools
import os
import pathlib
import shutil
import subprocess
import tempfile
import unittest

ROOT = pathlib.Path(__file__).resolve().parents[2]
SAMPLES = ROOT / "samples"
CALL = SAMPLES / "call.fragment"
QUOTED = SAMPLES / "refused" / "9-quote-in-anchor.fragment"
WITH_NUL = SAMPLES / "refused" / "14-nul-in-text.fragment"
NUL = b"refused 14 at 10: NUL in a text (text bytes, tag 17, length 2)\n"
RETURNS = SAMPLES / "returns.fragment"
QUOTE = b"refused 9 at 3: quote in an anchor's name (anchor definition, tag 18, length 8)\n"

# No name that a path may have is special: a space, bytes that are no UTF-8, what a shell would take.
ODD_NAME = b"a b \xff\xc3( *;'"


def field(tag, value=b""):
    return bytes([tag]) + len(value).to_bytes(2, "big") + value


def text(value):
    return field(1, field(17, value))


def call(prefix, first, comma, second, last, suffix):
    """A call of two arguments with these texts, as CALL has it for `f(`, `a`, `,`, `b`, `,` and `)`."""
    arguments = field(8, text(first) + text(comma) + field(5)) + field(8, text(second) + field(7, last))
    return text(prefix) + field(4, arguments) + text(suffix)


MASKED = call(b"xx", b"x", b"x", b"x", b"x", b"x")


@functools.cache
def built():
    """The words that run the command, without the script that builds it."""
    subprocess.run([ROOT / "hazomeny", "--version"], stdout=subprocess.PIPE, check=True)
    return [ROOT / "tools" / "crossed", "run", ROOT / "target" / "command" / "hazomeny"]


def words(*arguments):
    return [*built(), *arguments]


def run(*arguments, given=b"", **settings):
    """What the command does: status, standard output and standard error."""
    settings = {"stdout": subprocess.PIPE, "stderr": subprocess.PIPE, **settings}
    if "stdin" not in settings:
        settings["input"] = given
    done = subprocess.run(words(*arguments), **settings)
    return done.returncode, done.stdout, done.stderr


def as_nobody(command):
    """The same by a user who owns nothing here, if root runs the tests."""
    if os.geteuid() != 0:
        return command
    return ["setpriv", "--reuid=65534", "--regid=65534", "--clear-groups", *command]


def names_below(folder):
    """The paths of all files below a folder, as bytes, temporary ones with them."""
    found = os.walk(os.fsencode(folder))
    return sorted(os.path.join(where, name) for where, _, names in found for name in names)


class Case(unittest.TestCase):
    maxDiff = 2000

    def setUp(self):
        self.folder = pathlib.Path(tempfile.mkdtemp(prefix="hazomeny "))
        self.addCleanup(shutil.rmtree, self.folder, ignore_errors=True)

    def file(self, name, content):
        """A file of the test's folder; its name may be bytes."""
        path = self.folder / os.fsdecode(name)
        path.parent.mkdir(parents=True, exist_ok=True)
        path.write_bytes(content)
        return path

    def ends(self, arguments, status=0, out=b"", error=b"", **settings):
        with self.subTest(arguments):
            self.assertEqual(run(*arguments, **settings), (status, out, error))

    def holds(self, path, content):
        """The file has this content, and nothing temporary stands beside it."""
        self.assertEqual(path.read_bytes(), content)
        self.assertFalse(list(path.parent.glob(".hazomeny-*")))
