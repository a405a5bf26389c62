"""Random files from a fixed seed: accepted ones, and the same with a byte changed or cut."""

import random
import struct

from harness import Case, command

from fraglib import floats, format as f, hexes, items, notation, unparse
from fraglib.reading import check, read

SEED = 20_240_611
FILES = 400
SPECIAL = "\0\t\n\r\"\\'#{}[]()&<\x7f\x80\xa0\u2028\ufeff\ud7ff\ue000é光\U0001f600\U0010ffff"


def field(tag, value=b""):
    return bytes([tag]) + len(value).to_bytes(2, "big") + value


def many(rng, most, make):
    return b"".join(make() for _ in range(rng.randint(0, most)))


def characters(rng, without=""):
    pool = [c for c in SPECIAL + "abcxyz,; " if c not in without]
    return "".join(rng.choice(pool) for _ in range(rng.choice([0, 1, 2, 5, 30]))).encode("utf-8")


def styles(rng):
    fields = {}
    if rng.random() < 0.6:
        fields[32] = bytes(rng.randrange(256) for _ in range(3))
        if rng.random() < 0.6:
            bits = rng.choice([0, 0x3A800000, 0x3F800000, rng.randint(0x3A800000, 0x3F800000)])
            fields[33] = bits.to_bytes(4, "big")
    if rng.random() < 0.4:
        fields[34] = bytes([rng.randrange(256)])
    if rng.random() < 0.4:
        fields[35] = bytes([rng.randint(-128, 117) % 256])
    if rng.random() < 0.4:
        fields[rng.choice([36, 37])] = b""
    if rng.random() < 0.3:
        fields[38] = b""
    if rng.random() < 0.3:
        fields[39] = b""
    return field(16, b"".join(field(tag, fields[tag]) for tag in sorted(fields)))


def text(rng):
    return field(1, (styles(rng) if rng.random() < 0.5 else b"") + field(17, characters(rng)))


def anchor(rng):
    name = field(rng.choice([18, 19]), characters(rng, without='"'))
    return field(2, name + many(rng, 3, lambda: text(rng)))


def block(rng, depth):
    tag = rng.choice([3, 4])
    return field(tag, many(rng, 3, lambda: field(8, nodes(rng, depth - 1))))


def node(rng, depth):
    kind = rng.choice([1, 1, 2, 3, 4, 5, 6, 7]) if depth else rng.choice([1, 2, 5, 6, 7])
    if kind == 1:
        return text(rng)
    if kind == 2:
        return anchor(rng)
    if kind in (3, 4):
        return block(rng, depth)
    return field(kind, characters(rng) if kind == 7 else b"")


def nodes(rng, depth):
    return many(rng, 4, lambda: node(rng, depth))


def accepted_file(rng):
    data = nodes(rng, rng.choice([0, 2, 4, 5]))
    for _ in range(rng.choice([0, 0, 0, 5, 26])):  # a few stand deep
        data = field(rng.choice([3, 4]), field(8, data))
    return data


def spoiled(rng, data):
    """One byte changed, put in or taken out, or the end cut off."""
    at = rng.randrange(len(data) + 1)
    kind = rng.randrange(4)
    byte = bytes([rng.choice([0, 1, 2, 3, 4, 8, 16, 17, 32, 34, 38, 39, 40, 0x80, 0xC3, 0xFF])])
    if kind == 0:
        return data[:at] + byte + data[at + 1:]
    if kind == 1:
        return data[:at] + byte + data[at:]
    return data[:at] + (data[at + 1:] if kind == 2 else b"")


def first_nul(data):
    """The place of the first text with a NUL in an accepted file, or None."""
    texts = (each for each in read(data)[0] if each.tag in (f.TEXT_BYTES, f.IF_BLOCK))
    return next((each.place for each in texts if 0 in data[each.start:each.end]), None)


def notation_of(data):
    fields, refusal = read(data)
    return "".join(line + "\n" for line in unparse.notation_lines(data, fields, refusal))


def hex_of(data):
    return "".join(line + "\n" for line in hexes.hex_lines(data))


def built(source):
    return items.encode(notation.parse(source))


class RandomFiles(Case):
    def test_random_files(self):
        rng = random.Random(SEED)
        files = [accepted_file(rng) for _ in range(FILES)]
        refused = 0
        for number, data in enumerate(files):
            name = "random file %d of seed %d" % (number, SEED)
            refusal = check(data)
            self.same(name + " is accepted", refusal and refusal.answer(), None)
            bad = spoiled(rng, data)
            refused += check(bad) is not None
            for kind, each in [("", data), (", spoiled", bad)]:
                self.same(name + kind + ": notation", built(notation_of(each)).hex(), each.hex())
                self.same(name + kind + ": hex", hexes.unhex(hex_of(each)).hex(), each.hex())
            self.same(name + ": no raw is needed", "raw" in notation_of(data).split(), False)
        self.same("most spoiled files are refused", refused > FILES / 2, True)
        self.strict(files)
        large = b"".join(files[:100])  # a sequence of root fragments is one too
        self.same("a large file's size", 10_000 < len(large) <= 60_000, True)
        again = command("dump", "--notation", "-", given=large)
        self.same("a large file by the command", command("build", "-", given=again[1]),
                  (0, large, ""))
        self.decimals(rng)

    def strict(self, files):
        """Strict HTML refuses just the files with a NUL in a text, and there are some of both."""
        places = [first_nul(data) for data in files]
        refusals = [check(data, strict=True) for data in files]
        self.same("refused for strict HTML", [each and each.answer() for each in refusals],
                  [None if place is None else "refused 14 at %d" % place for place in places])
        self.same("some have a NUL", 0 < places.count(None) < FILES, True)

    def decimals(self, rng):
        """Opacities read back, and one place fewer would not, by the machine's own floats."""
        for _ in range(FILES):
            bits = rng.randint(0x3A800000, 0x3F800000)
            shown = floats.decimal(bits)
            self.same("%s reads back" % shown, single(shown), bits)
            places = len(shown.partition(".")[2])
            value = struct.unpack(">f", bits.to_bytes(4, "big"))[0]
            shorter = "%.*f" % (max(places - 1, 0), value)
            self.same("%s, shorter than %s, reads back" % (shorter, shown),
                      places > 0 and single(shorter) == bits, False)


def single(decimal):
    return int.from_bytes(struct.pack(">f", float(decimal)), "big")
