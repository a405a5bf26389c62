"""The fragment file's tables, as document 01 has them: tags, names, fixed lengths, limits."""

TEXT, ANCHOR, INDENTED, INLINE_OR_INDENTED = 1, 2, 3, 4
SPACE, FORCE_LINE, IF_BLOCK, FRAGMENT = 5, 6, 7, 8
STYLES, TEXT_BYTES, DEFINITION, USE = 16, 17, 18, 19
COLOUR, OPACITY, THICKNESS, SIZE = 32, 33, 34, 35
SUBSCRIPT, SUPERSCRIPT, DIM, UNDERLINE = 36, 37, 38, 39

NAMES = {
    TEXT: "Text",
    ANCHOR: "Anchor",
    INDENTED: "IndentedBlock",
    INLINE_OR_INDENTED: "InlineOrIndentedBlock",
    SPACE: "BreakingOnlySpace",
    FORCE_LINE: "ForceLineSeparation",
    IF_BLOCK: "IfBlockLayout",
    FRAGMENT: "Fragment",
    STYLES: "Styles",
    TEXT_BYTES: "text bytes",
    DEFINITION: "anchor bytes (definition)",
    USE: "anchor bytes (use)",
    COLOUR: "colour",
    OPACITY: "opacity",
    THICKNESS: "thickness",
    SIZE: "size",
    SUBSCRIPT: "subscript",
    SUPERSCRIPT: "superscript",
    DIM: "dim",
    UNDERLINE: "underline",
}

FIXED_LENGTHS = {
    SPACE: 0,
    FORCE_LINE: 0,
    COLOUR: 3,
    OPACITY: 4,
    THICKNESS: 1,
    SIZE: 1,
    SUBSCRIPT: 0,
    SUPERSCRIPT: 0,
    DIM: 0,
    UNDERLINE: 0,
}

NODES = range(TEXT, IF_BLOCK + 1)
BLOCKS = (INDENTED, INLINE_OR_INDENTED)
STYLE_FIELDS = range(COLOUR, UNDERLINE + 1)

HEADER = 3  # one tag byte and a two-byte length
LONGEST_VALUE = 0xFFFF
LONGEST_FILE = 60_000
DEEPEST = 32  # a block inside this many others is refused
LARGEST_SIZE = 117
SMALLEST_OPACITY = 0x3A800000  # the float bits of 1/1024
LARGEST_OPACITY = 0x3F800000  # the float bits of 1


def signed(byte):
    """A byte as the signed number it stands for in thickness and size."""
    return byte - 256 if byte > 127 else byte


def name(tag):
    """A tag's name in document 01, or what to call a tag that it has not."""
    return NAMES.get(tag, "tag %d" % tag)


def this(tag):
    """How a message points at a field: `this Text`, `these Styles`."""
    several = tag in (STYLES, TEXT_BYTES, DEFINITION, USE)
    return "%s %s" % ("these" if several else "this", name(tag))


def counted(number, thing):
    """`1 byte`, `2 bytes`."""
    return "%s %s%s" % (format(number, ","), thing, "" if number == 1 else "s")
