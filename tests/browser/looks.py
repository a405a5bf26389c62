"""How each styled text has to look: what its fields ask for, as a browser computes it. The numbers of the page as a whole are those of its
style element."""

import struct

TEXT, ANCHOR, STYLES = 1, 2, 16
HOLDERS = (3, 4, 8)
COLOUR, OPACITY, THICKNESS, SIZE, SUBSCRIPT, SUPERSCRIPT, DIM, UNDERLINE = range(32, 40)

BLACK, PAGE_WEIGHT, LINK_WEIGHT, PAGE_SIZE = [0, 0, 0], 500, 900, 17
DIMMED = "saturate(0.3) opacity(0.5)"
NAMES_AND_ALIGNMENTS = {("span", "baseline"), ("span", "middle"), ("sub", "sub"), ("sup", "super")}


def fields(value):
    """Tag and value of each field."""
    while value:
        end = 3 + int.from_bytes(value[1:3], "big")
        yield value[0], value[3:end]
        value = value[end:]


def asked(value, around=PAGE_WEIGHT):
    """The look of each styled text, in order; `around` is the weight of what it stands in."""
    for tag, inside in fields(value):
        if tag == TEXT:
            yield from (look(dict(fields(styles)), around) for each, styles in fields(inside) if each == STYLES)
        elif tag == ANCHOR:
            yield from asked(inside, LINK_WEIGHT)
        elif tag in HOLDERS:
            yield from asked(inside, around)


def look(style, around):
    name = "sub" if SUBSCRIPT in style else "sup" if SUPERSCRIPT in style else "span"
    colour = list(style.get(COLOUR, BLACK))
    opacity = struct.unpack(">f", style[OPACITY])[0] if OPACITY in style else 1
    numbers = [opacity, weight(style, around), size(style, name)]
    return [name, colour, *numbers, alignment(style, name), DIMMED if DIM in style else "none", "underline" if UNDERLINE in style else "none"]


def weight(style, around):
    """A browser takes 1 to 1000, and passes over other weights."""
    asked_for = 500 + 100 * signed(style[THICKNESS]) if THICKNESS in style else 0
    return asked_for if 1 <= asked_for <= 1000 else around


def size(style, name):
    """In pixels; a size below nothing is passed over."""
    em = 1 + 0.1 * (signed(style[SIZE]) if SIZE in style else 0 if name == "span" else -2)
    return PAGE_SIZE * em if em >= 0 else PAGE_SIZE


def alignment(style, name):
    if name != "span":
        return {"sub": "sub", "sup": "super"}[name]
    return "middle" if SIZE in style else "baseline"


def signed(value):
    return int.from_bytes(value, "big", signed=True)


def rounded(look):
    """A browser keeps an opacity in 255 steps, and a size in parts of a pixel."""
    name, colour, opacity, weight, size, *rest = look
    return [name, colour, round(opacity, 2), weight, round(size, 1), *rest]
