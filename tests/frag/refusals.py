"""The check on files written by hand: each refusal with its place, and each conflict of order."""

from harness import Case, frag, nested_blocks, unspaced

from fraglib.reading import check

A = "010004 11000161 "
DEEP = nested_blocks(32).hex()  # its innermost block, empty, begins at 186

# What it shows, bytes, answer. Places are counted by hand.
CASES = [
    # 1 and sizes
    ("60,000 bytes", "050000" * 20_000, "accepted"),
    ("60,001 bytes", "050000" * 20_000 + "05", "refused 1 at 0"),
    ("1 before the walk", "63" * 60_001, "refused 1 at 0"),
    ("a value over 255 bytes", "010104 110101 " + "61" * 257, "accepted"),
    ("a length's high byte counts", "010104 110001 61", "refused 3 at 0"),
    # 3
    ("one byte", "05", "refused 3 at 0"),
    ("two bytes", "0500", "refused 3 at 0"),
    ("the lone byte 99: 3 before 4", "63", "refused 3 at 0"),
    ("a length over the file's end", "070002 61", "refused 3 at 0"),
    ("a length just up to the end", "070001 61", "accepted"),
    ("after a sound node", A + "0500", "refused 3 at 7"),
    ("the innermost value encloses", "010004 11000261 62", "refused 3 at 3"),
    ("a fragment over its block's end", "030004 08000205 0000", "refused 3 at 3"),
    ("two bytes in a block", "030002 0800 050000", "refused 3 at 3"),
    ("two bytes in a fragment", "030005 080002 0500 050000", "refused 3 at 6"),
    ("two bytes in a text", "010002 1100", "refused 3 at 3"),
    ("one byte after the 16", "010004 100000 11", "refused 3 at 6"),
    ("one byte after the 17", "010004 110000 11", "refused 3 at 6"),
    ("two bytes after the 17", "010005 110000 1100", "refused 3 at 6"),
    ("two bytes in an anchor", "020002 1200", "refused 3 at 3"),
    ("one byte after an anchor's name", "020005 120001 61 01", "refused 3 at 7"),
    ("two bytes in styles", "010008 100002 2600 110000", "refused 3 at 6"),
    ("two bytes of an underline", "010008 100002 2700 110000", "refused 3 at 6"),
    ("an underline over its 16: 3 before 5", "010009 100003 270001 110000", "refused 3 at 6"),
    ("a style field over its 16", "01000a 100004 20000301 020311", "refused 3 at 6"),
    ("a 16 over its text", "010003 100003 260000", "refused 3 at 3"),
    ("an anchor's name over its anchor", "020004 12000261 62", "refused 3 at 3"),
    # 4
    ("tag 0", "000000", "refused 4 at 0"),
    ("tag 8 at the root", "080000", "refused 4 at 0"),
    ("tag 16 at the root", "100000", "refused 4 at 0"),
    ("tag 17 at the root", "110000", "refused 4 at 0"),
    ("tag 255", "ff0000", "refused 4 at 0"),
    ("4 before a length that runs over", "63ffff", "refused 4 at 0"),
    ("a node straight in a block 3", "030003 050000", "refused 4 at 3"),
    ("a node straight in a block 4", "040003 050000", "refused 4 at 3"),
    ("a fragment in a fragment", "030006 080003 080000", "refused 4 at 6"),
    ("a 32 in a text", "010006 200003 010203", "refused 4 at 3"),
    ("a second 16", "010009 100000 100000 110000", "refused 4 at 6"),
    ("a second 17", "010006 110000 110000", "refused 4 at 6"),
    ("a 16 after the 17", "010006 110000 100000", "refused 4 at 6"),
    ("a node after the 17", "010006 110000 050000", "refused 4 at 6"),
    ("after the 17, 4 before a length that runs over", "010006 110000 11ffff", "refused 4 at 6"),
    ("a text where the name should be: 4, not 5", "020007 010004 11000161", "refused 4 at 3"),
    ("a 17 where the name should be", "020003 110000", "refused 4 at 3"),
    ("a second name", "020006 120000 130000", "refused 4 at 6"),
    ("an anchor in an anchor", "020009 120000 020003 120000", "refused 4 at 6"),
    ("a space in an anchor", "020006 130000 050000", "refused 4 at 6"),
    ("a 31 in styles", "010009 100003 1f0000 110000", "refused 4 at 6"),
    ("a 40 in styles", "010009 100003 280000 110000", "refused 4 at 6"),
    ("a 39 in a text", "010006 270000 110000", "refused 4 at 3"),
    ("a repeated style field", "01000c 100006 260000 260000 110000", "refused 4 at 9"),
    ("a falling style field", "01000c 100006 260000 240000 110000", "refused 4 at 9"),
    ("4 before the length of a repeated one", "01000c 100006 260000 26ffff 110000",
     "refused 4 at 9"),
    ("33 before 32: 4 at the 32", "010013 10000d 2100043f000000 200003010203 110000",
     "refused 4 at 13"),
    ("a 40 after a 38", "01000c 100006 260000 280000 110000", "refused 4 at 9"),
    ("a 38 after a 39", "01000c 100006 270000 260000 110000", "refused 4 at 9"),
    ("a 32 after a 39", "01000f 100009 270000 200003010203 110000", "refused 4 at 9"),
    ("a repeated 39", "01000c 100006 270000 270000 110000", "refused 4 at 9"),
    ("a 40 after a 39", "01000c 100006 270000 280000 110000", "refused 4 at 9"),
    ("4 before the length of what follows a 39", "01000c 100006 270000 27ffff 110000",
     "refused 4 at 9"),
    # 5
    ("a space of length 1", "050001 20", "refused 5 at 0"),
    ("a forced line of length 1", "060001 0a", "refused 5 at 0"),
    ("a space whose length runs over: 3", "050001", "refused 3 at 0"),
    ("a colour of 2", "01000b 100005 200002 0102 110000", "refused 5 at 6"),
    ("a colour of 4", "01000d 100007 200004 01020304 110000", "refused 5 at 6"),
    ("an opacity of 3, 5 before 8", "01000c 100006 210003 ffffff 110000", "refused 5 at 6"),
    ("a thickness of 0", "010009 100003 220000 110000", "refused 5 at 6"),
    ("a size of 2, 5 before 8", "01000b 100005 230002 7f7f 110000", "refused 5 at 6"),
    ("a subscript of 1", "01000a 100004 240001 00 110000", "refused 5 at 6"),
    ("a superscript of 1", "01000a 100004 250001 00 110000", "refused 5 at 6"),
    ("a dim of 1", "01000a 100004 260001 00 110000", "refused 5 at 6"),
    ("an underline of 1", "01000a 100004 270001 00 110000", "refused 5 at 6"),
    ("an underline of 256", "010109 100103 270100 %s 110000" % ("00" * 256), "refused 5 at 6"),
    ("an empty text", "010000", "refused 5 at 0"),
    ("a text of styles alone", A + "010003 100000", "refused 5 at 7"),
    ("an empty anchor field", "030006 080003 020000", "refused 5 at 6"),
    ("a faulty 16 before the missing 17", "010006 100003 230000", "refused 5 at 6"),
    ("a refused style before the missing 17", "010009 100006 240000 250000", "refused 8 at 3"),
    ("a run without its 17", "020007 12000161 010000", "refused 5 at 7"),
    # 6
    ("32 blocks", DEEP, "accepted"),
    ("33 blocks", nested_blocks(33).hex(), "refused 6 at 192"),
    ("32 blocks, then a sibling of the last", None, "accepted"),
    ("6 before the block's content", None, "refused 6 at 192"),
    ("3 before 6: its length runs over", None, "refused 3 at 192"),
    ("4 before 6: no block at all", None, "refused 4 at 192"),
    # 7
    ("an if-block that is not UTF-8", "070001 80", "refused 7 at 0"),
    ("a text that is not UTF-8", "010004 110001 ff", "refused 7 at 3"),
    ("a definition that is not UTF-8", "020004 120001 c3", "refused 7 at 3"),
    ("a use that is not UTF-8", "020004 130001 c3", "refused 7 at 3"),
    ("7 before the anchor's runs", "020007 130001 c3 630000", "refused 7 at 3"),
    ("7 before what follows the 17", "010007 110001 c3 630000", "refused 7 at 3"),
    ("overlong in two", "070002 c1bf", "refused 7 at 0"),
    ("the first of two", "070002 c280", "accepted"),
    ("overlong in three", "070003 e09fbf", "refused 7 at 0"),
    ("the first of three", "070003 e0a080", "accepted"),
    ("the last before the surrogates", "070003 ed9fbf", "accepted"),
    ("the first surrogate", "070003 eda080", "refused 7 at 0"),
    ("the last surrogate", "070003 edbfbf", "refused 7 at 0"),
    ("the first after the surrogates", "070003 ee8080", "accepted"),
    ("overlong in four", "070004 f08fbfbf", "refused 7 at 0"),
    ("the first of four", "070004 f0908080", "accepted"),
    ("the last of all", "070004 f48fbfbf", "accepted"),
    ("one beyond", "070004 f4908080", "refused 7 at 0"),
    ("a lead byte f5", "070004 f5808080", "refused 7 at 0"),
    ("cut at the value's end, though the file goes on", "070001 c3 a90000", "refused 7 at 0"),
    ("NUL and quotes in texts", "070003 002227", "accepted"),
    # 8
    ("size 117", "01000a 100004 23000175 110000", "accepted"),
    ("size 118", "01000a 100004 23000176 110000", "refused 8 at 6"),
    ("size 127", "01000a 100004 2300017f 110000", "refused 8 at 6"),
    ("size -128", "01000a 100004 23000180 110000", "accepted"),
    ("thickness 127", "01000a 100004 2200017f 110000", "accepted"),
    ("opacity without colour", "01000d 100007 2100043f800000 110000", "refused 8 at 3"),
    ("both scripts", "01000c 100006 240000 250000 110000", "refused 8 at 3"),
    ("one script and dim", "01000c 100006 250000 260000 110000", "accepted"),
    ("an underline alone", "010009 100003 270000 110000", "accepted"),
    ("an underline behind a colour", "01000f 100009 200003010203 270000 110000", "accepted"),
    ("an underline behind one script and dim", "01000f 100009 240000 260000 270000 110000",
     "accepted"),
    ("an underline does not make up for a colour", "010010 10000a 2100043f800000 270000 110000",
     "refused 8 at 3"),
    ("both scripts and an underline", "01000f 100009 240000 250000 270000 110000",
     "refused 8 at 3"),
    ("a bad underline answers before both scripts", "010010 10000a 240000 250000 270001 00 110000",
     "refused 5 at 12"),
    ("a bad opacity answers before the missing colour", "01000d 100007 21000440000000 110000",
     "refused 8 at 6"),
    ("a bad size answers before the missing colour", "010011 10000b 2100043f800000 23000176 110000",
     "refused 8 at 13"),
    ("a wrong tag answers before the missing colour", "010010 10000a 2100043f800000 280000 110000",
     "refused 4 at 13"),
    ("a styles fault before the text's own", "01000d 100006 240000 250000 110001 ff",
     "refused 8 at 3"),
    # 9
    ("a quote in a definition", "020004 120001 22", "refused 9 at 3"),
    ("a quote in a use", "020004 130001 22", "refused 9 at 3"),
    ("7 before 9", "020005 120002 22ff", "refused 7 at 3"),
    ("9 before the anchor's runs", "020007 120001 22 630000", "refused 9 at 3"),
    ("an empty name", "020003 120000", "accepted"),
    # the first fault from the front answers
    ("8 in front of a 3", "01000a 100004 23000176 110000 05", "refused 8 at 6"),
    ("9 in front of a 4", "020004 120001 22 000000", "refused 9 at 3"),
    ("document 01's design case", "03000c 080009 010006 100000 110000 050000 03000a 080007 010004 "
     "11000178", "accepted"),
]

# Those of them that have a NUL in a text.
NULS = {"NUL and quotes in texts"}

# Opacity bits, and whether they are accepted beside a colour.
OPACITIES = [
    ("00000000", True), ("80000000", False), ("00000001", False), ("007fffff", False),
    ("3a7fffff", False), ("3a800000", True), ("3a800001", True), ("3f7fffff", True),
    ("3f800000", True), ("3f800001", False), ("bf000000", False), ("7f800000", False),
    ("ff800000", False), ("7fc00000", False), ("ffffffff", False),
]


# What it shows, bytes, the check's answer, and that for strict HTML.
STRICT_CASES = [
    ("a NUL in a text", "010005 110002 6100", "accepted", "refused 14 at 3"),
    ("a NUL in an if-block", A + "070001 00", "accepted", "refused 14 at 7"),
    ("a NUL behind styles", "01000a 100003 260000 110001 00", "accepted", "refused 14 at 9"),
    ("a NUL in a block", "04000a 080007 010004 110001 00", "accepted", "refused 14 at 9"),
    ("a NUL in an anchor's text, and in its name", "02000b 120001 00 010004 110001 00", "accepted",
     "refused 14 at 10"),
    ("a NUL in a definition", "020004 120001 00", "accepted", "accepted"),
    ("a NUL in a use", "020004 130001 00", "accepted", "accepted"),
    ("NULs in a style", "01000c 100006 200003 000000 110000", "accepted", "accepted"),
    ("a NUL written in two bytes is not UTF-8", "070002 c080", "refused 7 at 0", "refused 7 at 0"),
    ("a CR", "070003 0d0a0d", "accepted", "accepted"),
    ("7 before 14", "070002 00ff", "refused 7 at 0", "refused 7 at 0"),
    ("7 before 14, the NUL last", "070002 ff00", "refused 7 at 0", "refused 7 at 0"),
    ("14 in front of a 7", "070001 00 070001 ff", "refused 7 at 4", "refused 14 at 0"),
    ("a 7 in front of a 14", "070001 ff 070001 00", "refused 7 at 0", "refused 7 at 0"),
    ("14 in front of a 4 after the 17", "010007 110001 00 630000", "refused 4 at 7",
     "refused 14 at 3"),
    ("14 in front of a 3", "070001 00 05", "refused 3 at 4", "refused 14 at 0"),
    ("3 before 14 at one field", "070002 00", "refused 3 at 0", "refused 3 at 0"),
    ("4 before 14 at one field", "110001 00", "refused 4 at 0", "refused 4 at 0"),
    ("1 before the walk", "070001 00" * 15_001, "refused 1 at 0", "refused 1 at 0"),
]


# Lines that `check --lines` must not let pass, and the right answers.
WRONG_LINES = [
    ("050000 refused 4 at 0", "accepted"),
    (" refused 3 at 0", "accepted"),
    ("05 accepted", "refused 3 at 0"),
    ("0500 refused 3 at 1", "refused 3 at 0"),
    ("630000 refused 3 at 0", "refused 4 at 0"),
]


def in_the_32nd(inner):
    """32 blocks in one another, the innermost with one fragment of these bytes, at place 192."""
    data = unspaced(inner)
    for level in range(32):
        data = b"\x08" + len(data).to_bytes(2, "big") + data
        data = bytes([3 + level % 2]) + len(data).to_bytes(2, "big") + data
    return data.hex()


MADE = {
    "32 blocks, then a sibling of the last": in_the_32nd(A) + "030000",
    "6 before the block's content": in_the_32nd("030003 630000"),
    "3 before 6: its length runs over": in_the_32nd("030001"),
    "4 before 6: no block at all": in_the_32nd("630001"),
}


def all_cases():
    for name, hex_bytes, answer in CASES:
        yield name, unspaced(MADE.get(name, hex_bytes)), answer
    for bits, accepted in OPACITIES:
        yield ("opacity " + bits, unspaced("010013 10000d 200003010203 210004 %s 110000" % bits),
               "accepted" if accepted else "refused 8 at 12")


class Refusals(Case):
    def test_refusals(self):
        lines = []
        for name, data, answer in all_cases():
            refusal = check(data)
            self.same("check: " + name, refusal.answer() if refusal else "accepted", answer)
            lines.append("%s %s\n" % (data.hex(), answer))
        self.compared(lines)

    def test_strict(self):
        lines = []
        for name, hex_bytes, answer, strict in STRICT_CASES:
            data = unspaced(hex_bytes)
            for right, asked in ((answer, []), (strict, ["--strict"])):
                self.same("check: %s %s" % (name, asked), frag("check", *asked, "-", given=data),
                          (0 if right == "accepted" else 1, right.encode() + b"\n", ""))
            lines.append("%s %s\n" % (data.hex(), strict))
        self.same("check --strict --lines",
                  frag("check", "--strict", "--lines", given="".join(lines).encode()),
                  (0, b"%d lines agree\n" % len(lines), ""))
        self.same("check --lines of strict answers",
                  frag("check", "--lines", given="".join(lines).encode())[0], 1)

    def test_cases_without_a_nul_are_alike(self):
        for name, data, answer in all_cases():
            if name not in NULS:
                refusal = check(data, strict=True)
                self.same("check --strict: " + name, refusal.answer() if refusal else "accepted",
                          answer)

    def compared(self, lines):
        """The same cases through `check --lines`, and lines that must not pass there."""
        told = frag("check", "--lines", given="".join(lines).encode())
        self.same("check --lines", told, (0, b"%d lines agree\n" % len(lines), ""))
        for wrong, right in WRONG_LINES:
            given = "".join(lines[:3]) + wrong + "\n050000 accepted\n"
            status, out, _ = frag("check", "--lines", given=given.encode())
            file, _, said = wrong.partition(" ")
            expected = "line 4 disagrees: %s\n  the line says: %s\n  frag says: %s\n%s\n" % (
                file or "(empty file)", said, right, "3 lines before it agree")
            self.same("check --lines finds " + wrong, (status, out.decode()), (1, expected))
