"""The dump: a file's fields as a tree with places, tags, lengths and values."""

from . import floats
from . import format as f
from .quoting import quote

HEADING = "place  tag  length  field"


def tree_lines(data, fields):
    """A heading, then one line for each field, indented by how deep it stands."""
    yield HEADING
    for field in fields:
        value = shown_value(field.tag, data[field.start:field.end])
        yield "%5d  %3d  %6d  %s%s%s" % (
            field.place, field.tag, field.length(), "  " * field.level,
            f.name(field.tag), " " + value if value else "")


def shown_value(tag, value):
    """A field's own value in readable form; nothing where other fields make it up."""
    show = VALUES.get(tag)
    return show(value) if show else ""


def text_or_hex(value):
    try:
        value.decode("utf-8")
    except UnicodeDecodeError:
        return "hex " + value.hex()
    return quote(value)


def opacity(value):
    return "%s (bits %s)" % (floats.decimal(int.from_bytes(value, "big")), value.hex())


def signed_byte(value):
    return str(f.signed(value[0]))


VALUES = {
    f.IF_BLOCK: text_or_hex,
    f.TEXT_BYTES: text_or_hex,
    f.DEFINITION: text_or_hex,
    f.USE: text_or_hex,
    f.COLOUR: lambda value: "#" + value.hex(),
    f.OPACITY: opacity,
    f.THICKNESS: signed_byte,
    f.SIZE: signed_byte,
}
