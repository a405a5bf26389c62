"""What print, html, check, layout and mask write for one file, and what they refuse."""

import os
import subprocess

from harness import CALL, MASKED, QUOTE, QUOTED, ROOT, Case, ODD_NAME, field, run, text, words

BROKEN = b"f(\n  a,\n  b,\n)"
LONGEST = 60_000


class Pages(Case):
    def test_print(self):
        self.ends(["print", CALL], out=b"f(a, b)")
        self.ends(["print", "-w", "7", CALL], out=b"f(a, b)")
        self.ends(["print", "-w6", CALL], out=BROKEN)
        self.ends(["print", "--width=6", CALL], out=BROKEN)
        self.ends(["print", CALL, "--jobs", "2"], out=b"f(a, b)")

    def test_standard_input(self):
        call = CALL.read_bytes()
        for named in ([], ["-"]):
            self.ends(["print", "-w", "6", *named], out=BROKEN, given=call)
            self.ends(["check", *named], out=b"standard input: accepted\n", given=call)
            self.ends(["mask", *named], out=MASKED, given=call)
            for task in ("print", "mask"):
                self.ends([task, *named], 1, b"", b"standard input: " + QUOTE, given=QUOTED.read_bytes())

    def test_the_file_is_not_touched(self):
        copy = self.file("copy", CALL.read_bytes())
        copy.chmod(0o444)
        before = copy.stat()
        self.ends(["print", "-w", "0", copy], out=BROKEN)
        self.ends(["mask", copy], out=MASKED)
        self.assertEqual((copy.read_bytes(), copy.stat().st_mtime_ns), (CALL.read_bytes(), before.st_mtime_ns))

    def test_html(self):
        status, document, error = run("html", "-w", "6", CALL)
        self.assertEqual((status, error), (0, b""))
        body = run("html", "--body", "-w", "6", CALL)[1]
        self.assertTrue(body.startswith(b"<pre class=") and body.endswith(b">\n" + BROKEN + b"</pre>"))
        self.assertTrue(document.startswith(b"<!doctype html>\n"))
        self.assertTrue(document.endswith(b"<body>" + body + b"</body>\n</html>\n"))

    def test_check(self):
        name = os.fsencode(CALL) + b": accepted\n"
        quote = os.fsencode(QUOTED) + b": " + QUOTE
        self.ends(["check", CALL, CALL], out=name + name)
        self.ends(["check", CALL, QUOTED, CALL], 1, name + name, quote)
        self.ends(["check", QUOTED, self.folder / "none", CALL, self.folder], 3, name, quote + b"".join(
            b"hazomeny: %s: %s\n" % (os.fsencode(path), why)
            for path, why in [(self.folder / "none", b"No such file or directory"), (self.folder, b"Is a directory")]))

    def test_layout(self):
        out = self.folder / "out"
        laid_out = bytearray(CALL.read_bytes())
        laid_out[8] = 3
        self.ends(["layout", "-w", "6", "-o", out, CALL])
        self.holds(out, laid_out)
        self.ends(["layout", "-w", "6", "-o", "-", CALL], out=bytes(laid_out))
        own = self.file("own", CALL.read_bytes())
        self.ends(["layout", "-w", "6", "-o", own, own])
        self.holds(own, laid_out)
        self.ends(["layout", "-o", out, QUOTED], 1, b"", os.fsencode(QUOTED) + b": " + QUOTE)
        self.holds(out, laid_out)

    def test_mask(self):
        out = self.folder / "out"
        self.ends(["mask", "-o", out, CALL])
        self.holds(out, MASKED)
        self.ends(["mask", "-o", "-", CALL], out=MASKED)
        self.ends(["mask", "-j", "2", CALL], out=MASKED)
        own = self.file("own", CALL.read_bytes())
        self.ends(["mask", "-o", own, own])
        self.holds(own, MASKED)
        self.ends(["mask", own], out=MASKED)
        self.ends(["mask", "-o", out, QUOTED], 1, b"", os.fsencode(QUOTED) + b": " + QUOTE)
        self.holds(out, MASKED)
        self.ends(["check", out], out=os.fsencode(out) + b": accepted\n")

    def test_a_mask_prints_the_same_lines(self):
        masked = self.file("masked", MASKED)
        self.ends(["print", "-w", "7", masked], out=b"xxxx xx")
        self.ends(["print", "-w", "6", masked], out=b"xx\n  xx\n  xx\nx")

    def test_a_mask_hides_texts_alone(self):
        """Newlines stay, and so do the names of anchors, and styles."""
        def nodes(word, lines, comma):
            anchor = field(2, field(18, b"name") + field(1, field(16, field(32, b"abc")) + field(17, word)))
            return anchor + field(3, field(8, text(lines) + field(7, comma))) + text(b"")

        file = self.file("file", nodes(b"name", b"\xc3\xa9\n\nx y", b",\n"))
        self.ends(["mask", file], out=nodes(b"xxxx", b"xx\n\nxxx", b"x\n"))
        self.ends(["mask", self.file("empty", b"")])

    def test_names_and_what_stands_there(self):
        cases = [
            (b"", None),
            (b"\x63", "3 at 0: a field passes the end of what encloses it (no field of the format, tag 99, cut off by the end of the file)"),
            (text(b"a") + field(8), "4 at 7: a tag that is not allowed there (Fragment, tag 8, length 0)"),
            (field(5, b"a"), "5 at 0: a wrong length, or a part that is missing (BreakingOnlySpace, tag 5, length 1)"),
            (field(1, field(16, field(39, b"a")) + field(17)), "5 at 6: a wrong length, or a part that is missing (underline, tag 39, length 1)"),
            (field(3, field(8, text(b"\xff"))), "7 at 9: not UTF-8 (text bytes, tag 17, length 1)"),
            (field(1, field(16, field(35, b"\x76")) + field(17)), "8 at 6: a style that is not allowed (size, tag 35, length 1)"),
        ]
        path = self.file(ODD_NAME, b"")
        for file, refusal in cases:
            path.write_bytes(file)
            name = os.fsencode(path)
            if refusal is None:
                self.ends(["check", path], out=name + b": accepted\n")
                self.ends(["print", path])
            else:
                for task in (["check"], ["check", "--strict"], ["print"], ["html"], ["html", "--strict"], ["mask"]):
                    self.ends([*task, path], 1, b"", b"%s: refused %s\n" % (name, refusal.encode()))

    def test_names_cannot_move_the_cursor(self):
        path = self.file("a\n\x1b[2J", b"\x63")
        self.assertIn(b"/a??[2J: refused 3 at 0: ", run("check", path)[2])

    def test_widths(self):
        self.ends(["print", "-w", "0", CALL], out=BROKEN)
        self.ends(["print", "-w", "6553", CALL], out=b"f(a, b)")
        for width in ("6554", "18446744073709551615"):
            self.ends(["print", "-w", width, CALL], 1, b"", b"%s: refused 2 at 0: the width is over 6,553\n" % os.fsencode(CALL))

    def test_long_files_are_not_read_whole(self):
        longest = self.file("longest", field(5) * (LONGEST // 3))
        self.ends(["print", longest])
        self.ends(["mask", longest], out=longest.read_bytes())
        endless = self.folder / "endless"
        with open(endless, "wb") as file:
            file.truncate(1 << 40)
        for task in ("check", "print", "html", "mask"):
            self.ends([task, endless], 1, b"", b"%s: refused 1 at 0: the file is longer than 60,000 bytes\n" % os.fsencode(endless))
        refusal = b"standard input: refused 1 at 0: the file is longer than 60,000 bytes\n"
        with open("/dev/zero", "rb") as zeros:
            self.ends(["check"], 1, b"", refusal, stdin=zeros)
        with open(endless, "rb") as file:
            self.ends(["check"], 1, b"", refusal, stdin=file)
            self.assertEqual(os.lseek(file.fileno(), 0, os.SEEK_CUR), LONGEST + 1)

    def test_pages_of_any_length(self):
        lines = text(b"a\n" * 14_000)
        for _ in range(32):
            lines = field(3, field(8, lines))
        deep = self.file("deep", lines)
        page = (32 * b"  " + b"a\n") * 14_000
        self.ends(["print", deep], out=page)
        self.assertGreater(len(run("html", deep)[1]), len(page))

    def test_ends_of_output(self):
        """A reader that goes away is no failure, a full disk is one."""
        page = self.file("page", text(b"a\n" * 29_000))
        for arguments in (["print", page], ["html", page], ["layout", "-o", "-", page], ["mask", page], ["check", CALL], ["--help"]):
            reader, writer = os.pipe()
            os.close(reader)
            self.ends(arguments, -13, None, b"", stdout=writer)
            os.close(writer)
            with open("/dev/full", "wb") as full:
                self.ends(arguments, 3, None, b"hazomeny: standard output: No space left on device\n", stdout=full)
        shell = '"$@" | head -n 1; exit ${PIPESTATUS[0]}'
        told = subprocess.run(["bash", "-c", shell, "bash", *words("print", page)], stdout=subprocess.PIPE, stderr=subprocess.PIPE)
        self.assertEqual((told.stdout, told.stderr), (b"a\n", b""))

    def test_what_cannot_be_read(self):
        for task in ("print", "html", "check", "mask"):
            missing = self.folder / "none"
            self.ends([task, missing], 3, b"", b"hazomeny: %s: No such file or directory\n" % os.fsencode(missing))
        self.ends(["layout", "-o", "-", ROOT], 3, b"", b"hazomeny: %s: Is a directory\n" % os.fsencode(ROOT))
