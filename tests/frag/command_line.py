"""The commands as a whole: exact output of dump and hex, files and pipes, help, exit statuses."""

import os
import pathlib
import tempfile

from harness import SAMPLES, Case, command, frag, unspaced

CALL_TREE = """\
place  tag  length  field
    0    1       5  Text
    3   17       2    text bytes "f("
    8    4      34  InlineOrIndentedBlock
   11    8      17    Fragment
   14    1       4      Text
   17   17       1        text bytes "a"
   21    1       4      Text
   24   17       1        text bytes ","
   28    5       0      BreakingOnlySpace
   31    8      11    Fragment
   34    1       4      Text
   37   17       1        text bytes "b"
   41    7       1      IfBlockLayout ","
   45    1       4  Text
   48   17       1    text bytes ")"
"""

CALL_HEX = """\
010005 110002 6628
040022 080011 010004 110001 61 010004 110001 2c 050000 08000b 010004 110001
  62 070001 2c
010004 110001 29
"""

STYLED = ("060000 02002f 130003 c3a90a 010026 10001e 200003 cc5555 210004 3e810000 220001 fd "
          "230001 fe 240000 260000 270000 110002 5c00")
STYLED_TREE = """\
place  tag  length  field
    0    6       0  ForceLineSeparation
    3    2      47  Anchor
    6   19       3    anchor bytes (use) "é\\n"
   12    1      38    Text
   15   16      30      Styles
   18   32       3        colour #cc5555
   24   33       4        opacity 0.25195313 (bits 3e810000)
   31   34       1        thickness -3
   35   35       1        size -2
   39   36       0        subscript
   42   38       0        dim
   45   39       0        underline
   48   17       2      text bytes "\\\\\\0"
"""

OPACITY_IN = "    0    1      13  Text\n    3   16       7    Styles\n"

# Notation as dump prints it: filled to 100 columns, fragments and broken things on their own lines.
LONG_TEXT = 'text "%s"' % ("long " * 20)
TIDY = """\
text "a" space text {} "b" force-line
text "c"
%(long)s
if-block "d" anchor def "e" () anchor use "f" (text "g" text {sub} "h") indented {} indented { [] }
inline-or-indented {
  [ text "i" ]
  [
    %(long)s
    indented { [ force-line ] [ space ] }
  ]
}
anchor def "j" (
  text "k"
  %(long)s
)
""" % {"long": LONG_TEXT}

# Bytes, the tree as far as it is sound, the last line on standard error.
REFUSED = [
    ("050000 03000a 080007 010004 110001 ff", """\
    0    5       0  BreakingOnlySpace
    3    3      10  IndentedBlock
    6    8       7    Fragment
    9    1       4      Text
   12   17       1        text bytes hex ff
""", "refused 7 at 12: not UTF-8 at byte 15, in these text bytes"),
    ("050000 05", "    0    5       0  BreakingOnlySpace\n",
     "refused 3 at 3: a field needs 3 bytes, but 1 byte is left in the file"),
    ("03000a 080009 01000411000161", "    0    3      10  IndentedBlock\n",
     "refused 3 at 3: the length of this Fragment is 9, but 7 bytes are left in this "
     "IndentedBlock"),
    ("010007 130000 11000161", "    0    1       7  Text\n",
     "refused 4 at 3: tag 19 may not stand here in this Text, expected 16 or 17"),
    ("010009 11000161 050000", "", "refused 3 at 0: the length of this Text is 9, but 7 bytes are "
     "left in the file"),
    ("010007 110001 61 050000", """\
    0    1       7  Text
    3   17       1    text bytes "a"
""",
     "refused 4 at 7: tag 5 may not stand here in this Text, expected nothing"),
    ("050002 6161", "", "refused 5 at 0: the length of this BreakingOnlySpace is 2, not 0"),
    ("010000", "    0    1       0  Text\n",
     "refused 5 at 0: this Text ends without its text bytes (17)"),
    ("020000", "    0    2       0  Anchor\n",
     "refused 5 at 0: this Anchor ends without its anchor bytes (18 or 19)"),
    ("010009 100003 280000 110000", "    0    1       9  Text\n    3   16       3    Styles\n",
     "refused 4 at 6: tag 40 may not stand here in these Styles, expected 32 to 39"),
    ("01000c 100006 260000 260000 110000", """\
    0    1      12  Text
    3   16       6    Styles
    6   38       0      dim
""",
     "refused 4 at 9: tag 38 may not stand here in these Styles, expected 39"),
    ("01000c 100006 270000 260000 110000", """\
    0    1      12  Text
    3   16       6    Styles
    6   39       0      underline
""",
     "refused 4 at 9: tag 38 may not stand here in these Styles, expected nothing"),
    ("01000a 100004 270001 00 110000", "    0    1      10  Text\n    3   16       4    Styles\n",
     "refused 5 at 6: the length of this underline is 1, not 0"),
    ("01000d 100007 2100047fc00000 110000", OPACITY_IN +
     "    6   33       4      opacity not a number (bits 7fc00000)\n",
     "refused 8 at 6: the opacity of bits 7fc00000 is not +0 and not from 1/1024 to 1"),
    ("01000d 100007 210004ff800000 110000", OPACITY_IN +
     "    6   33       4      opacity -infinity (bits ff800000)\n",
     "refused 8 at 6: the opacity of bits ff800000 is not +0 and not from 1/1024 to 1"),
    ("01000d 100007 2100043f000000 110000", OPACITY_IN +
     "    6   33       4      opacity 0.5 (bits 3f000000)\n",
     "refused 8 at 3: these Styles have an opacity without a colour"),
    ("05" * 60_001, "", "refused 1 at 0: the file has 60,001 bytes, more than 60,000"),
]

COMMANDS = ["build", "dump", "check", "mask", "hex", "unhex", "help"]


class CommandLine(Case):
    def test_trees(self):
        self.same("dump call", frag("dump", SAMPLES / "call.fragment"), (0, CALL_TREE.encode(), ""))
        self.same("dump styled", frag("dump", "-", given=unspaced(STYLED)),
                  (0, STYLED_TREE.encode("utf-8"), ""))
        self.same("dump of nothing", frag("dump", "-"), (0, b"place  tag  length  field\n", ""))
        heading = CALL_TREE.splitlines(True)[0]
        for hex_bytes, tree, refusal in REFUSED:
            status, out, error = frag("dump", "-", given=unspaced(hex_bytes))
            self.same("dump %.60s" % hex_bytes, (status, out.decode("utf-8"), error),
                      (1, heading + tree, refusal + "\n"))
        built = frag("build", "-", given=TIDY.encode())[1]
        self.same("dump --notation", frag("dump", "--notation", "-", given=built)[1].decode(), TIDY)
        status, out, error = frag("dump", "--notation", "-", given=unspaced("050000 630000"))
        refusal = "refused 4 at 3: tag 99 may not stand here in the file, expected 1 to 7\n"
        self.same("dump --notation of a refused file", (status, out.decode(), error),
                  (1, "space\n# %sraw 630000\n" % refusal, refusal))

    def test_hexes(self):
        self.same("hex call", frag("hex", SAMPLES / "call.fragment"), (0, CALL_HEX.encode(), ""))
        self.same("hex of a cut file", frag("hex", "-", given=unspaced("050000 0500")),
                  (0, b"050000\n0500\n", ""))
        self.same("hex of a long value", frag("hex", "-", given=unspaced("070028" + "61" * 40)),
                  (0, b"070028 " + b"61" * 32 + b"\n  " + b"61" * 8 + b"\n", ""))
        self.same("hex of nothing", frag("hex", "-"), (0, b"", ""))
        self.same("unhex", frag("unhex", given=b"# a text\n01 0004\t1100 01 6\n 1#end"),
                  (0, unspaced("010004 11000161"), ""))
        self.same("unhex of capitals", frag("unhex", "-", given=b"fFAb"), (0, b"\xff\xab", ""))
        self.same("unhex of nothing", frag("unhex", given=b" # nothing\n"), (0, b"", ""))

    def test_helps(self):
        status, whole, error = frag("help")
        self.same("help", (status, error), (0, ""))
        for each in COMMANDS:
            self.same("help tells of " + each, ("\n    %s " % each) in whole.decode(), True)
            shown = frag(each, "--help")
            usage = b"usage: frag %s " % each.encode()
            self.same("%s --help" % each, (shown[0], shown[1].startswith(usage)), (0, True))
            self.same("help %s says the same" % each, frag("help", each), shown)
        self.same("no command is help", frag()[:2], (0, whole))
        for wrong in [("nonsense",), ("build",), ("dump", "--what", "x"), ("help", "nonsense")]:
            status, out, error = frag(*wrong)
            self.same("frag %s" % " ".join(wrong), (status, out, error.startswith("usage: frag")),
                      (2, b"", True))

    def setUp(self):
        folder = tempfile.TemporaryDirectory()
        self.addCleanup(folder.cleanup)
        self.folder = pathlib.Path(folder.name)

    def test_files(self):
        call = (SAMPLES / "call.fragment").read_bytes()
        target = self.folder / "made"
        self.same("build -o", frag("build", SAMPLES / "call.frag", "-o", target), (0, b"", ""))
        self.same("build -o wrote", target.read_bytes(), call)
        self.same("unhex -o", frag("unhex", "-o", target, given=b"0500 00"), (0, b"", ""))
        self.same("unhex -o wrote", target.read_bytes(), unspaced("050000"))
        faulty = self.folder / "faulty.frag"
        faulty.write_text("space\n  text\n", encoding="utf-8")
        self.same("a file is called by its name", frag("build", faulty, "-o", target),
                  (2, b"", "frag: %s:3:1: found the end of the input, expected the text in double "
                   "quotes, or its styles in '{ }'\n" % faulty))
        self.same("a faulty notation changes no file", target.read_bytes(), unspaced("050000"))
        faulty.write_text('space\nindented {\n  [ anchor use "\\"" () ] }\n', encoding="utf-8")
        self.same("a warning's line", frag("build", faulty),
                  (0, unspaced("050000 03000a 080007 020004 130001 22"),
                   "frag: %s:3:16: warning: the built file is refused 9 at 12: a '\"' at byte 15, "
                   "in these anchor bytes (use)\n" % faulty))
        self.same("build -o -", frag("build", SAMPLES / "call.frag", "-o", "-"), (0, call, ""))

    def test_unusable(self):
        missing = self.folder / "missing"
        for each in [("build",), ("dump",), ("dump", "--notation"), ("check",), ("mask",),
                     ("hex",), ("unhex",)]:
            self.same("%s of a missing file" % " ".join(each), frag(*each, missing),
                      (2, b"", "frag: %s: No such file or directory\n" % missing))
            self.same("%s of a folder" % " ".join(each), frag(*each, self.folder),
                      (2, b"", "frag: %s: Is a directory\n" % self.folder))
        nowhere = missing / "file"
        self.same("build -o into a missing folder",
                  frag("build", SAMPLES / "call.frag", "-o", nowhere),
                  (2, b"", "frag: %s: No such file or directory\n" % nowhere))
        for each in ["check", "mask"]:
            self.same("%s of nothing named" % each, frag(each),
                      (2, b"", "frag: %s: found neither a FILE nor --lines, expected one of them\n"
                       % each))
            self.same("%s --lines without a line" % each, frag(each, "--lines"),
                      (2, b"", "frag: standard input: found no line, expected lines of hex and "
                       "answer\n"))
        for line in ["accepted", "0x05 accepted", "05", "05 maybe", "050 accepted"]:
            self.same("check --lines of '%s'" % line, frag("check", "--lines", given=line.encode()),
                      (2, b"", "frag: standard input:1:1: found '%s', expected hex digits, a "
                       "space, and 'accepted' or 'refused N at P'\n" % line))

    def test_pipes(self):
        """A reader that goes away, a closed or full output, another encoding: never a traceback."""
        shader = SAMPLES / "shader.fragment"
        reader, writer = os.pipe()
        os.close(reader)
        self.same("a reader that goes away", command("dump", shader, stdout=writer)[1:], (None, ""))
        os.close(writer)
        self.same("a closed output", command("dump", shader, preexec_fn=lambda: os.close(1))[::2],
                  (2, "frag: standard output: closed\n"))
        for arguments in [("dump", "-"), ("check", "--lines"), ("mask", "--lines")]:
            self.same("a closed input", command(*arguments, preexec_fn=lambda: os.close(0)),
                      (2, b"", "frag: standard input: closed\n"))
        if os.path.exists("/dev/full"):
            for size in ("call", "shader"):  # what fits Python's own buffer, and what does not
                with open("/dev/full", "wb") as full:
                    told = command("dump", SAMPLES / (size + ".fragment"), stdout=full)
                self.same("a full output, " + size, told,
                          (2, None, "frag: standard output: No space left on device\n"))
        ascii_only = {"PYTHONIOENCODING": "ascii", "PYTHONUTF8": "0"}
        self.same("an output that is said to be ASCII",
                  command("dump", "-", given=unspaced(STYLED), more_env=ascii_only),
                  (0, STYLED_TREE.encode("utf-8"), ""))
        self.same("a refused file by a process", command("check", "-", given=b"\x63")[:2],
                  (1, b"refused 3 at 0\n"))
