"""What a notation says: fields within fields with their place in the source; and their bytes."""

from typing import List, NamedTuple, Union

from . import format as f
from .source import SourceError


class Raw(NamedTuple):
    """Bytes that are put as they are."""

    data: bytes
    offset: int  # in the source


class Made(NamedTuple):
    """A field to make: its value is bytes, or the fields and raw bytes in it."""

    tag: int
    inner: Union[bytes, List]
    offset: int


def encode(items):
    return b"".join(encode_one(item) for item in items)


def encode_one(item):
    if isinstance(item, Raw):
        return item.data
    value = item.inner if isinstance(item.inner, bytes) else encode(item.inner)
    if len(value) > f.LONGEST_VALUE:
        raise SourceError(
            item.offset, "a value of %s for %s" % (f.counted(len(value), "byte"), f.name(item.tag)),
            "at most %s" % format(f.LONGEST_VALUE, ","))
    return bytes([item.tag]) + len(value).to_bytes(2, "big") + value


def offset_of(items, place):
    """Where in the source the innermost item stands that holds the byte at this place."""
    for item in items:
        size = len(encode_one(item))
        if place < size:
            if isinstance(item, Made) and isinstance(item.inner, list) and place >= f.HEADER:
                return offset_of(item.inner, place - f.HEADER)
            return item.offset
        place -= size
    return None
