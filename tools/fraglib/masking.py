"""The mask of a file: what its texts say is hidden, and all else stays to be seen."""

from . import format as f
from .reading import read

TEXTS = (f.TEXT_BYTES, f.IF_BLOCK)


def mask(data):
    """The file with an `x` for each byte of its texts but newlines; or None, and its Refusal."""
    fields, refusal = read(data)
    if refusal:
        return None, refusal
    masked = bytearray(data)
    for field in fields:
        if field.tag in TEXTS:
            lines = data[field.start:field.end].split(b"\n")
            masked[field.start:field.end] = b"\n".join(b"x" * len(line) for line in lines)
    return bytes(masked), None
