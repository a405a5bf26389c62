"""`html --strict` and `check --strict`: carriage returns of texts, NULs that are refused, and the first of two faults."""

import os

from harness import CALL, NUL, QUOTE, QUOTED, RETURNS, SAMPLES, WITH_NUL, Case, field, run, text

MARK = b"\x01"


def nodes(cr):
    """A text, a styled one in an anchor and one that shows in a broken block, with these bytes where a CR could stand."""
    run_of_anchor = field(1, field(16, field(39)) + field(17, b"&" + cr))
    anchor = field(2, field(18, b"na\rme") + run_of_anchor)
    return text(cr + b"a" + cr + cr + b"\n" + cr) + anchor + field(3, field(8, text(b"x") + field(7, cr + b"\n")))


class Strict(Case):
    def test_returns(self):
        """Strict HTML is loose HTML of the file with a mark for each CR of a text, with references for the marks."""
        file, other = self.file("file", nodes(b"\r")), self.file("other", nodes(MARK))
        for kind in ([], ["--body"]):
            loose = run("html", *kind, other)[1]
            self.assertIn(MARK, loose)
            self.ends(["html", "--strict", *kind, file], out=loose.replace(MARK, b"&#13;"))
            self.ends(["html", *kind, file], out=loose.replace(MARK, b"\r"))

    def test_samples_without_returns_are_the_same(self):
        for path in sorted(SAMPLES.glob("*.fragment")):
            for width in ("20", "80"):
                for kind in ([], ["--body"]):
                    loose, strict = (run("html", *kind, *mode, "-w", width, path) for mode in ([], ["--strict"]))
                    with self.subTest(path=path, width=width, kind=kind):
                        self.assertEqual((loose[0], strict[0]), (0, 0))
                        self.assertEqual(loose[1] == strict[1], path != RETURNS)

    def test_a_nul(self):
        name = os.fsencode(WITH_NUL)
        for task in (["html"], ["html", "--body"], ["check"]):
            self.assertEqual(run(*task, WITH_NUL)[::2], (0, b""))
            self.ends([*task, "--strict", WITH_NUL], 1, b"", name + b": " + NUL)
            self.ends([*task, "--strict"], 1, b"", b"standard input: " + NUL, given=WITH_NUL.read_bytes())
        out = self.file("out", b"as it was")
        self.ends(["html", "--strict", "-o", out, WITH_NUL], 1, b"", name + b": " + NUL)
        self.holds(out, b"as it was")

    def test_the_first_fault(self):
        """Layout, which `html` begins with, takes a NUL, so that it would tell the second."""
        nul, cut, wrong = text(b"\0"), text(b"\xc3\0"), field(8)
        cases = [
            (nul + wrong, b"14 at 3: NUL in a text (text bytes, tag 17, length 1)"),
            (field(7, b"\0") + cut, b"14 at 0: NUL in a text (IfBlockLayout, tag 7, length 1)"),
            (wrong + nul, b"4 at 0: a tag that is not allowed there (Fragment, tag 8, length 0)"),
            (cut, b"7 at 3: not UTF-8 (text bytes, tag 17, length 2)"),
            (nul * 10_000, b"1 at 0: the file is longer than 60,000 bytes"),
        ]
        for file, refusal in cases:
            for task in ("html", "check"):
                self.ends([task, "--strict"], 1, b"", b"standard input: refused %s\n" % refusal, given=file)
        self.ends(["html", "--strict", "-w", "6554"], 1, b"", b"standard input: refused 2 at 0: the width is over 6,553\n", given=nul + wrong)

    def test_several_files(self):
        names = [os.fsencode(path) for path in (CALL, WITH_NUL, QUOTED)]
        told = names[1] + b": " + NUL + names[2] + b": " + QUOTE
        self.ends(["check", "--strict", CALL, WITH_NUL, QUOTED, CALL], 1, 2 * (names[0] + b": accepted\n"), told)

    def test_a_folder(self):
        for name, file in (("a", RETURNS), ("b", WITH_NUL), ("c/d", CALL)):
            self.file(f"given/{name}.fragment", file.read_bytes())
        given, out = self.folder / "given", self.folder / "out"
        summary = b"2 of 3 files printed, 1 refused, 0 could not be read or written\n"
        self.ends(["html", "--strict", given, "-o", out], 1, summary, os.fsencode(given / "b.fragment") + b": " + NUL)
        self.holds(out / "a.html", run("html", "--strict", RETURNS)[1])
        self.holds(out / "c" / "d.html", run("html", CALL)[1])
        self.assertFalse((out / "b.html").exists())
