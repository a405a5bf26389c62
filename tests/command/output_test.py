"""OUT is written whole or not at all, and keeps what permissions it had."""

import os
import pathlib
import resource
import shutil
import signal
import stat
import subprocess
import time

from harness import CALL, MASKED, QUOTED, Case, ODD_NAME, as_nobody, built, run, text, words

PAGE = b"f(a, b)"


def few_bytes():
    """A disk that is full after 1,000 bytes, for whoever runs behind this."""
    signal.signal(signal.SIGXFSZ, signal.SIG_IGN)
    resource.setrlimit(resource.RLIMIT_FSIZE, (1_000, 1_000))


class Output(Case):
    def test_new_and_old_files(self):
        out = self.folder / os.fsdecode(ODD_NAME)
        for _ in ("new", "old"):
            self.ends(["print", CALL, "-o", out])
            self.holds(out, PAGE)
        self.ends(["print", CALL, "-o", out.name], cwd=self.folder)
        self.holds(out, PAGE)
        self.ends(["html", CALL, "-o", out])
        self.assertTrue(out.read_bytes().endswith(b"</html>\n"))
        self.ends(["mask", CALL, "-o", out])
        self.holds(out, MASKED)
        self.ends(["print", CALL, "-o", "-"], out=PAGE)

    def test_a_failure_leaves_what_was_there(self):
        old = self.file("old", b"as it was")
        new = self.folder / "new"
        long = self.file("long", text(b"a\n" * 5_000))
        for out in (old, new):
            for task in ("print", "mask"):
                self.assertEqual(run(task, QUOTED, "-o", out)[:2], (1, b""))
                self.assertEqual(run(task, self.folder / "none", "-o", out)[:2], (3, b""))
                self.ends([task, long, "-o", out], 3, b"", b"hazomeny: %s: File too large\n" % os.fsencode(out), preexec_fn=few_bytes)
                self.assertFalse(new.exists())
                self.holds(old, b"as it was")

    def test_places_that_take_no_file(self):
        for out, why in [(self.folder, b"Is a directory"), (self.folder / "none" / "out", b"No such file or directory"),
                         (CALL / "out", b"Not a directory")]:
            self.ends(["print", CALL, "-o", out], 3, b"", b"hazomeny: %s: %s\n" % (os.fsencode(out), why))
        self.assertFalse(list(self.folder.iterdir()))

    def test_permissions(self):
        for mask, mode in ((0o022, 0o644), (0o077, 0o600), (0, 0o666)):
            out = self.folder / oct(mask)
            self.ends(["print", CALL, "-o", out], preexec_fn=lambda: os.umask(mask))
            self.assertEqual(stat.S_IMODE(out.stat().st_mode), mode)
        out.chmod(0o640)
        self.ends(["print", CALL, "-o", out])
        self.assertEqual(stat.S_IMODE(out.stat().st_mode), 0o640)

    def test_a_file_that_may_not_be_written(self):
        """It is not replaced either, even where its folder may be written."""
        out = self.file("out", b"as it was")
        out.chmod(0o444)
        self.folder.chmod(0o777)
        program = shutil.copy(built()[-1], self.folder / "program")
        call = shutil.copy(CALL, self.folder / "call")
        told = subprocess.run(as_nobody([*built()[:-1], program, "print", call, "-o", out]), stderr=subprocess.PIPE)
        self.assertEqual((told.returncode, told.stderr), (3, b"hazomeny: %s: Permission denied\n" % os.fsencode(out)))
        self.holds(out, b"as it was")

    def test_links_stay_links(self):
        real, link = self.file("real", b"as it was"), self.folder / "link"
        link.symlink_to(real)
        self.ends(["print", CALL, "-o", link])
        self.assertTrue(link.is_symlink())
        self.holds(real, PAGE)

    def test_what_is_no_file_is_written_to(self):
        self.ends(["print", CALL, "-o", "/dev/null"])
        self.assertTrue(pathlib.Path("/dev/null").is_char_device())
        self.ends(["print", CALL, "-o", "/dev/full"], 3, b"", b"hazomeny: /dev/full: No space left on device\n")
        pipe = self.folder / "pipe"
        os.mkfifo(pipe)
        with subprocess.Popen(["cat", pipe], stdout=subprocess.PIPE) as reader:
            self.ends(["print", CALL, "-o", pipe])
            self.assertEqual(reader.communicate()[0], PAGE)

    def test_signals_while_it_waits(self):
        out = self.folder / "out"
        for number in (signal.SIGINT, signal.SIGTERM, signal.SIGHUP):
            with subprocess.Popen(words("print", "-o", out), stdin=subprocess.PIPE) as waiting:
                time.sleep(0.5)
                waiting.send_signal(number)
                self.assertEqual(waiting.wait(60), -number)
            self.assertFalse(list(self.folder.iterdir()))
