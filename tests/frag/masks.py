"""Masks: an `x` for each byte of the texts but newlines, and all else as it is."""

import pathlib
import random
import tempfile

from harness import SAMPLES, Case, frag, unspaced
from random_files import SEED, accepted_file, spoiled

from fraglib import format as f
from fraglib.masking import mask
from fraglib.reading import check, read

FILES = 300

# Name, file, mask.
EXAMPLES = [
    ("an empty file", "", ""),
    ("no text", "050000 060000 030003 080000", "050000 060000 030003 080000"),
    ("a text", "010005 110002 6628", "010005 110002 7878"),
    ("an empty text", "010003 110000", "010003 110000"),
    ("newlines stay", "010008 110005 0a610a0a62", "010008 110005 0a780a0a78"),
    ("a character of several bytes", "010006 110003 e58589", "010006 110003 787878"),
    ("a carriage return and a NUL", "010005 110002 0d00", "010005 110002 7878"),
    ("a conditional text", "070003 2c0a2c", "070003 780a78"),
    ("styles stay", "01000d 100006 200003 616263 110001 61",
     "01000d 100006 200003 616263 110001 78"),
    ("an underline stays", "01000b 100003 270000 110002 2727", "01000b 100003 270000 110002 7878"),
    ("an anchor's name stays, its texts do not",
     "020017 120001 6e 010004 110001 61 010009 100003 260000 110000",
     "020017 120001 6e 010004 110001 78 010009 100003 260000 110000"),
    ("a text that looks like a field", "010007 110004 07000161", "010007 110004 78787878"),
    ("in a block", "030011 08000e 010004 110001 61 070004 62620a62",
     "030011 08000e 010004 110001 78 070004 78780a78"),
]


class Masks(Case):
    def test_examples(self):
        for name, hex_bytes, masked in EXAMPLES:
            given = unspaced(hex_bytes)
            self.same(name + " is accepted", check(given), None)
            self.same(name, frag("mask", "-", given=given), (0, unspaced(masked), ""))
            self.same(name + ", masked again", frag("mask", "-", given=unspaced(masked)),
                      (0, unspaced(masked), ""))

    def test_refused(self):
        self.same("a refused file has no mask", frag("mask", "-", given=unspaced("050000 630000")),
                  (1, b"", "refused 4 at 3: tag 99 may not stand here in the file, expected 1 to "
                   "7\n"))

    def test_files(self):
        with tempfile.TemporaryDirectory() as folder:
            target = pathlib.Path(folder) / "mask"
            call = SAMPLES / "call.fragment"
            self.same("mask -o", frag("mask", call, "-o", target), (0, b"", ""))
            self.same("mask -o wrote", target.read_bytes(), frag("mask", call)[1])
            kept = target.read_bytes()
            refused = SAMPLES / "refused" / "9-quote-in-anchor.fragment"
            self.same("mask -o of a refused file", frag("mask", refused, "-o", target)[0], 1)
            self.same("a refused file changes no file", target.read_bytes(), kept)

    def test_lines(self):
        right = b"010004110001 refused 3 at 0\n07000161 masked 07000178\n masked \n"
        self.same("mask --lines", frag("mask", "--lines", given=right), (0, b"3 lines agree\n", ""))
        wrong = b" masked \n07000161 masked 07000161\n"
        self.same("mask --lines that disagree", frag("mask", "--lines", given=wrong),
                  (1, b"line 2 disagrees: 07000161\n  the line says: masked 07000161\n"
                   b"  frag says: masked 07000178\n1 lines before it agree\n", ""))
        for line in ["07000161 accepted", "07000161 masked", "07000161 masked 0g"]:
            self.same("mask --lines of '%s'" % line, frag("mask", "--lines", given=line.encode()),
                      (2, b"", "frag: standard input:1:1: found '%s', expected hex digits, a "
                       "space, and 'masked HEX' or 'refused N at P'\n" % line))

    def test_random_files(self):
        rng = random.Random(SEED)
        for number in range(FILES):
            data = accepted_file(rng)
            masked, refusal = mask(data)
            name = "random file %d of seed %d" % (number, SEED)
            self.same(name + " has a mask", refusal, None)
            self.same(name + ": the same fields", read(masked), read(data))
            self.same(name + ": its texts", *texts_of(data, masked))
            bad = spoiled(rng, data)
            refusal = mask(bad)[1]
            self.same(name + ", spoiled: refused as by the check", refusal and refusal.answer(),
                      check(bad) and check(bad).answer())


def texts_of(data, masked):
    """Each byte of the mask, and what it has to be by the texts around it."""
    inside = set()
    for field in read(data)[0]:
        if field.tag in (f.TEXT_BYTES, f.IF_BLOCK):
            inside.update(range(field.start, field.end))
    byte = lambda at: ord("x") if at in inside and data[at] != ord("\n") else data[at]
    return list(masked), [byte(at) for at in range(len(data))]
