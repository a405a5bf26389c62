"""The notation's writer: a file back as notation that builds to the same bytes."""

from typing import List, NamedTuple

from . import floats
from . import format as f
from .quoting import quote

WIDTH = 100  # columns that a line of notation is kept to where it can be broken
RAW_ROW = 32  # bytes in a line of raw hex

WORDS = {
    f.INDENTED: "indented {",
    f.INLINE_OR_INDENTED: "inline-or-indented {",
    f.FRAGMENT: "[",
    f.SPACE: "space",
    f.FORCE_LINE: "force-line",
    f.SUBSCRIPT: "sub",
    f.SUPERSCRIPT: "sup",
    f.DIM: "dim",
    f.UNDERLINE: "underline",
}


class Node(NamedTuple):
    """A field with its value and the fields in it."""

    tag: int
    value: bytes
    inner: List


def notation_lines(data, fields, refusal):
    """The file's notation; the part from the first faulty top-level field on is put in as raw."""
    sound_end = len(data)
    if refusal:
        sound_end = max([x.end for x in fields if x.level == 0 and x.end <= refusal.place] + [0])
    sound = nodes(data, [field for field in fields if field.end <= sound_end])
    yield from filled_lines(sound, 0)
    if refusal:
        yield "# %s: %s" % (refusal.answer(), refusal.words)
    for at in range(sound_end, len(data), RAW_ROW):
        yield "raw " + data[at:min(at + RAW_ROW, len(data))].hex()


def nodes(data, fields):
    """The fields, which stand in file order, as trees."""
    lists = [[]]
    for field in fields:
        node = Node(field.tag, data[field.start:field.end], [])
        del lists[field.level + 1:]
        lists[field.level].append(node)
        lists.append(node.inner)
    return lists[0]


def filled_lines(inner, depth):
    """Several nodes to a line; fragments and what is broken stand alone, a force-line ends one."""
    row = Row(depth)
    for node in inner:
        if not row.takes(node):
            yield from row.emptied()
            if not row.takes(node):
                yield from broken_lines(node, depth)
                continue
        row.words.append(one_line(node))
        if node.tag in (f.FRAGMENT, f.FORCE_LINE):
            yield from row.emptied()
    yield from row.emptied()


class Row:
    """A line of notation while it is filled."""

    def __init__(self, depth):
        self.margin = "  " * depth
        self.words = []

    def takes(self, node):
        """Whether a node fits; what cannot be broken is let into an empty row."""
        if not self.words and not parts(node)[1]:
            return True
        return len(self.margin + " ".join(self.words + [one_line(node)])) <= WIDTH

    def emptied(self):
        if self.words:
            yield self.margin + " ".join(self.words)
        self.words.clear()


def broken_lines(node, depth):
    """The inner fields on lines of their own."""
    head, inner, tail = parts(node)
    yield "  " * depth + head
    yield from filled_lines(inner, depth + 1)
    yield "  " * depth + tail


def one_line(node):
    head, inner, tail = parts(node)
    if not inner or tail == ")":  # `(` and `)` stand close to what they hold
        return head + " ".join(one_line(each) for each in inner) + tail
    return " ".join([head] + [one_line(each) for each in inner] + [tail])


def parts(node):
    """What stands before the inner fields that can be on lines of their own, those, and after."""
    if node.tag == f.TEXT:
        return text_line(node), [], ""
    if node.tag == f.ANCHOR:
        name = node.inner[0]
        word = "def" if name.tag == f.DEFINITION else "use"
        return "anchor %s %s (" % (word, quote(name.value)), node.inner[1:], ")"
    if node.tag == f.IF_BLOCK:
        return "if-block " + quote(node.value), [], ""
    closer = {f.FRAGMENT: "]", f.INDENTED: "}", f.INLINE_OR_INDENTED: "}"}.get(node.tag, "")
    return WORDS[node.tag], node.inner, closer


def text_line(node):
    styles = "".join("{%s} " % " ".join(style_word(each) for each in part.inner)
                     for part in node.inner if part.tag == f.STYLES)
    return "text %s%s" % (styles, quote(node.inner[-1].value))


def style_word(field):
    if field.tag == f.COLOUR:
        return "colour=#" + field.value.hex()
    if field.tag == f.OPACITY:
        return "opacity=" + floats.decimal(int.from_bytes(field.value, "big"))
    if field.tag in (f.THICKNESS, f.SIZE):
        return "%s=%d" % (f.name(field.tag), f.signed(field.value[0]))
    return WORDS[field.tag]
