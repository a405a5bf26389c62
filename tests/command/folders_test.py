"""Every file below a folder: names, refusals, many files, workers, signals, the progress bar."""

import os
import pty
import shutil
import signal
import subprocess
import time

from harness import CALL, MASKED, QUOTE, QUOTED, Case, ODD_NAME, names_below, run, text, words

FILES = int(os.environ.get("HAZOMENY_FILES", "10000"))


def summary(printed, files, refused=0, failed=0, done=b"printed"):
    return b"%d of %d files %s, %d refused, %d could not be read or written\n" % (printed, files, done, refused, failed)


class Folders(Case):
    def setUp(self):
        super().setUp()
        self.given, self.out = self.folder / "given", self.folder / "out"
        self.given.mkdir()

    def many(self, count):
        """So many files in folders of a hundred, each with a page of its own."""
        for number in range(count):
            self.file(f"given/{number // 100}/{number}.fragment", text(b"%d" % number))

    def pages(self):
        """The pages that there are, by the number in their name."""
        return {int(path.stem): path.read_bytes() for path in self.out.rglob("*") if path.is_file()}

    def test_a_folder(self):
        call = CALL.read_bytes()
        odd = os.fsdecode(ODD_NAME)
        for name in ("a", "b.c", odd, f"{odd}/{odd}/d"):
            self.file(f"given/{name}.fragment", call)
        for other in ("e.frag", "fragment", ".fragment", "f.fragment.txt"):
            self.file(f"given/{other}", b"\x63")
        (self.given / "g.fragment").symlink_to(CALL)
        (self.given / "round").symlink_to(self.given)
        (self.given / "empty.fragment").mkdir()
        for given in (self.given, os.path.relpath(self.given), f"{self.given}/"):
            self.ends(["print", given, "-o", self.out], out=summary(5, 5))
        pages = [f"{self.out}/{name}.txt" for name in ("a", "b.c", "g", odd, f"{odd}/{odd}/d")]
        self.assertEqual(names_below(self.out), sorted(map(os.fsencode, pages)))
        self.assertTrue(all(open(page, "rb").read() == b"f(a, b)" for page in pages))
        self.ends(["html", self.given, "-w", "6", "-o", self.out], out=summary(5, 5))
        self.assertEqual((self.out / "a.html").read_bytes(), run("html", "-w", "6", CALL)[1])

    def test_it_goes_on(self):
        for name, file in (("a", CALL), ("b", QUOTED), ("c", CALL), ("d", QUOTED)):
            self.file(f"given/{name}.fragment", file.read_bytes())
        told = [b"%s/%s.fragment: %s" % (os.fsencode(self.given), name, QUOTE) for name in (b"b", b"d")]
        for jobs in ("1", "2", "99999"):
            self.ends(["print", self.given, "-o", self.out, "-j", jobs], 1, summary(2, 4, 2), b"".join(told))
        (self.given / "e.fragment").symlink_to("none")
        told.append(b"hazomeny: %s/e.fragment: No such file or directory\n" % os.fsencode(self.given))
        self.ends(["print", self.given, "-o", self.out], 3, summary(2, 5, 2, 1), b"".join(told))

    def test_where_the_pages_go(self):
        words = b"hazomeny: %s: it is a folder, so -o has to name the folder that gets the pages\n" % os.fsencode(self.given)
        for out in ([], ["-o", "-"]):
            self.ends(["print", self.given, *out], 2, b"", words)
        self.ends(["print", self.given, "-o", self.out], out=summary(0, 0))
        self.file("given/a.fragment", CALL.read_bytes())
        self.ends(["print", self.given, "-o", self.given], out=summary(1, 1))
        self.assertEqual((self.given / "a.txt").read_bytes(), b"f(a, b)")
        taken = self.file("taken", b"")
        self.ends(["print", self.given, "-o", taken], 3, summary(0, 1, 0, 1), b"hazomeny: %s: File exists\n" % os.fsencode(taken))
        with open("/dev/full", "wb") as full:
            self.ends(["print", self.given, "-o", self.out], 3, None, b"hazomeny: standard output: No space left on device\n", stdout=full)

    def test_masks(self):
        """They have the files' names, in another folder."""
        names = ["a", os.fsdecode(ODD_NAME), "b/c.d"]
        for name in names:
            self.file(f"given/{name}.fragment", CALL.read_bytes())
        told = b"%s/e.fragment: %s" % (os.fsencode(self.given), QUOTE)
        self.file("given/e.fragment", QUOTED.read_bytes())
        for _ in ("new", "old"):
            self.ends(["mask", self.given, "-o", self.out, "-j", "2"], 1, summary(3, 4, 1, done=b"masked"), told)
        masks = [f"{self.out}/{name}.fragment" for name in names]
        self.assertEqual(names_below(self.out), sorted(map(os.fsencode, masks)))
        self.assertTrue(all(open(mask, "rb").read() == MASKED for mask in masks))

    def test_where_the_masks_go(self):
        words = b"hazomeny: %s: it is a folder, so -o has to name the folder that gets the masks\n" % os.fsencode(self.given)
        for out in ([], ["-o", "-"]):
            self.ends(["mask", self.given, *out], 2, b"", words)
        call = self.file("given/given/a.fragment", CALL.read_bytes())
        (self.folder / "link").symlink_to(self.given)
        for out in ("given", "given/", "given/new/er", ".", "link/new", str(self.given), "given/../given"):
            words = b"hazomeny: %s: a mask has its file's name, so neither folder may lie in the other\n" % os.fsencode(out)
            self.ends(["mask", "given", "-o", out], 2, b"", words, cwd=self.folder)
            self.assertEqual((names_below(self.given), call.read_bytes()), ([os.fsencode(call)], CALL.read_bytes()))
        for out in ("given more", "new/given", "given/../out"):
            self.ends(["mask", "given", "-o", out], out=summary(1, 1, done=b"masked"), cwd=self.folder)
            self.holds(self.folder / out / "given" / "a.fragment", MASKED)

    def test_many_files(self):
        self.many(FILES)
        for jobs in ("1", "2"):
            began = time.monotonic()
            self.ends(["print", self.given, "-o", self.out / jobs, "-j", jobs], out=summary(FILES, FILES))
            print(f"command: {FILES} files with -j {jobs}: {time.monotonic() - began:.1f} s")
        self.assertEqual(len(names_below(self.out)), 2 * FILES)
        self.assertEqual(self.pages(), {number: b"%d" % number for number in range(FILES)})

    def test_side_by_side(self):
        """Several at once write the same pages, and each page stays whole."""
        self.many(300)
        asked = words("print", self.given, "-o", self.out)
        running = [subprocess.Popen(asked, stdout=subprocess.PIPE, stderr=subprocess.PIPE) for _ in range(4)]
        for each in running:
            self.assertEqual((each.communicate(), each.returncode), ((summary(300, 300), b""), 0))
        self.assertEqual(self.pages(), {number: b"%d" % number for number in range(300)})

    def sent(self, number, **settings):
        """Output and status of a call that gets this signal when it has written a page."""
        asked = words("print", self.given, "-o", self.out)
        with subprocess.Popen(asked, stdout=subprocess.PIPE, **settings) as running:
            while running.poll() is None and not (self.out / "0" / "0.txt").exists():
                pass
            running.send_signal(number)
            return running.communicate()[0], running.returncode

    def test_signals_in_the_middle(self):
        """Each page is there whole or not at all, and nothing temporary is left."""
        self.many(3_000)
        for number in (signal.SIGINT, signal.SIGTERM, signal.SIGHUP):
            with self.subTest(number):
                for _ in range(10):
                    shutil.rmtree(self.out, ignore_errors=True)
                    told = self.sent(number)
                    if told[1] != 0:  # a fast machine may be done before the signal comes
                        break
                self.assertEqual(told, (b"", -number))
                self.assertFalse([path for path in names_below(self.out) if not path.endswith(b".txt")])
                self.assertTrue(all(page == b"%d" % name for name, page in self.pages().items()))

    def test_an_ignored_signal_stays_ignored(self):
        self.many(1_000)
        ignoring = {"preexec_fn": lambda: signal.signal(signal.SIGHUP, signal.SIG_IGN)}
        self.assertEqual(self.sent(signal.SIGHUP, **ignoring), (summary(1_000, 1_000), 0))

    def test_the_bar_is_for_terminals(self):
        self.many(200)
        reader, terminal = pty.openpty()
        with subprocess.Popen(words("print", self.given, "-o", self.out), stdout=subprocess.PIPE, stderr=terminal) as running:
            os.close(terminal)
            self.assertIn(b" of 200 files", b"".join(iter(lambda: shown(reader), b"")))
            self.assertEqual((running.communicate()[0], running.returncode), (summary(200, 200), 0))
        os.close(reader)


def shown(terminal):
    """What a terminal shows next; nothing once no program has it open, which the system calls an error."""
    try:
        return os.read(terminal, 65_536)
    except OSError:
        return b""
