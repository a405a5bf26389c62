"""The walk over a fragment file: every field in order, and the first fault with its place.

It is written from document 01 alone, as plainly as possible, so that it can judge other readers.
"""

from typing import NamedTuple

from . import format as f


class Refusal(Exception):
    """Document 01's number and place of a file's first fault, and what is wrong in words."""

    def __init__(self, number, place, words):
        super().__init__(number, place, words)
        self.number, self.place, self.words = number, place, words

    def answer(self):
        return "refused %d at %d" % (self.number, self.place)


class Field(NamedTuple):
    """A field whose header is sound. The root is not a field, but encloses like one."""

    tag: int
    place: int
    start: int  # of the value
    end: int
    level: int  # how many fields it stands in; -1 for the root

    def length(self):
        return self.end - self.start

    def called(self):
        return "the file" if self.level < 0 else f.this(self.tag)


def check(data, strict=False):
    """None for an accepted file, else its Refusal; strict HTML also refuses a NUL in a text."""
    return read(data, strict)[1]


def read(data, strict=False):
    """All fields with a sound header up to the first fault, in file order, and that fault."""
    walk = Walk(data, strict)
    try:
        walk.whole_file()
    except Refusal as refusal:
        return walk.fields, refusal
    return walk.fields, None


class Walk:
    """One pass from the front. `fields` grows as headers are found sound, before their content."""

    def __init__(self, data, strict):
        self.data = data
        self.strict = strict
        self.fields = []
        self.open_blocks = 0

    def whole_file(self):
        size = len(self.data)
        if size > f.LONGEST_FILE:
            words = "the file has %s, more than %s" % (
                f.counted(size, "byte"), format(f.LONGEST_FILE, ","))
            raise Refusal(1, 0, words)
        self.any_number(Field(f.FRAGMENT, 0, 0, size, -1), f.NODES)

    def any_number(self, inside, allowed):
        at = inside.start
        while at < inside.end:
            at = self.field(at, inside, allowed).end

    def field(self, at, inside, allowed):
        """Reads the field at a place, in document 01's order: header, then depth, then content."""
        field = self.header(at, inside, allowed)
        if field.tag in f.BLOCKS and self.open_blocks == f.DEEPEST:
            raise Refusal(6, at, "%s is inside %d other blocks" % (
                f.this(field.tag), f.DEEPEST))
        self.fields.append(field)
        content = self.CONTENT.get(field.tag)
        if content:
            content(self, field)
        return field

    def header(self, at, inside, allowed):
        """Three bytes there, then the tag, then whether the length fits, then a fixed length."""
        left = inside.end - at
        if left < f.HEADER:
            raise Refusal(3, at, "a field needs 3 bytes, but %s left in %s" % (
                "1 byte is" if left == 1 else "2 bytes are", inside.called()))
        tag = self.data[at]
        if tag not in allowed:
            raise Refusal(4, at, wrong_tag(tag, inside, allowed))
        length = int.from_bytes(self.data[at + 1:at + 3], "big")
        if length > left - f.HEADER:
            raise Refusal(3, at, "the length of %s is %d, but %s left in %s" % (
                f.this(tag), length, "1 byte is" if left == 4 else "%d bytes are" % (left - 3),
                inside.called()))
        fixed = f.FIXED_LENGTHS.get(tag, length)
        if length != fixed:
            raise Refusal(5, at, "the length of %s is %d, not %d" % (
                f.this(tag), length, fixed))
        return Field(tag, at, at + f.HEADER, at + f.HEADER + length, inside.level + 1)

    def value(self, field):
        return self.data[field.start:field.end]

    def text(self, field):
        """An optional 16, then one 17, then nothing: what is allowed next shrinks on the way."""
        at, allowed = field.start, (f.STYLES, f.TEXT_BYTES)
        while at < field.end:
            part = self.field(at, field, allowed)
            at, allowed = part.end, (f.TEXT_BYTES,) if part.tag == f.STYLES else ()
        if allowed:
            raise Refusal(5, field.place, "this Text ends without its text bytes (17)")

    def anchor(self, field):
        if field.length() == 0:
            raise Refusal(5, field.place, "this Anchor ends without its anchor bytes (18 or 19)")
        first = self.field(field.start, field, (f.DEFINITION, f.USE))
        self.any_number(field._replace(start=first.end), (f.TEXT,))

    def block(self, field):
        self.open_blocks += 1
        self.any_number(field, (f.FRAGMENT,))
        self.open_blocks -= 1

    def fragment(self, field):
        self.any_number(field, f.NODES)

    def styles(self, field):
        at, allowed, present = field.start, f.STYLE_FIELDS, set()
        while at < field.end:
            part = self.field(at, field, allowed)
            present.add(part.tag)
            at, allowed = part.end, range(part.tag + 1, f.STYLE_FIELDS.stop)
        if f.OPACITY in present and f.COLOUR not in present:
            raise Refusal(8, field.place, "these Styles have an opacity without a colour")
        if f.SUBSCRIPT in present and f.SUPERSCRIPT in present:
            raise Refusal(8, field.place, "these Styles have both subscript and superscript")

    def opacity(self, field):
        bits = int.from_bytes(self.value(field), "big")
        if bits != 0 and not f.SMALLEST_OPACITY <= bits <= f.LARGEST_OPACITY:
            raise Refusal(8, field.place,
                          "the opacity of bits %08x is not +0 and not from 1/1024 to 1" % bits)

    def size(self, field):
        size = f.signed(self.data[field.start])
        if size > f.LARGEST_SIZE:
            raise Refusal(8, field.place, "the size %d is over %d" % (size, f.LARGEST_SIZE))

    def utf8(self, field):
        try:
            self.value(field).decode("utf-8")
        except UnicodeDecodeError as error:
            raise Refusal(7, field.place, "not UTF-8 at byte %d, in %s" % (
                field.start + error.start, f.this(field.tag))) from None

    def without(self, field, byte, number, called):
        at = self.value(field).find(byte)
        if at >= 0:
            raise Refusal(number, field.place, "a %s at byte %d, in %s" % (
                called, field.start + at, f.this(field.tag)))

    def anchor_bytes(self, field):
        self.utf8(field)
        self.without(field, b'"', 9, "'\"'")

    def text_bytes(self, field):
        self.utf8(field)
        if self.strict:
            self.without(field, b"\0", 14, "NUL")

    CONTENT = {
        f.TEXT: text,
        f.ANCHOR: anchor,
        f.INDENTED: block,
        f.INLINE_OR_INDENTED: block,
        f.IF_BLOCK: text_bytes,
        f.FRAGMENT: fragment,
        f.STYLES: styles,
        f.TEXT_BYTES: text_bytes,
        f.DEFINITION: anchor_bytes,
        f.USE: anchor_bytes,
        f.OPACITY: opacity,
        f.SIZE: size,
    }


def wrong_tag(tag, inside, allowed):
    """Says what may stand there in place of a tag that may not."""
    if not allowed:
        expected = "nothing"
    elif len(allowed) > 2:
        expected = "%d to %d" % (allowed[0], allowed[-1])
    else:
        expected = " or ".join(str(each) for each in allowed)
    return "tag %d may not stand here in %s, expected %s" % (tag, inside.called(), expected)
