"""Hex: a file's bytes as hex grouped by field, and hex digits with comments back to bytes."""

import re
import string

from . import format as f
from .reading import read
from .source import SourceError, shown

ROW = 76  # columns after which a row of groups is broken
LONGEST_GROUP = 32  # bytes

GAP_OR_BAD = re.compile(r"\s+|#[^\n]*|(?P<bad>[^0-9A-Fa-f])")
DIGITS = frozenset(string.hexdigits)


def hex_lines(data):
    """Each top-level field begins a row; headers and values are groups."""
    fields, _ = read(data)
    row = ""
    for start, end, top in groups(data, fields):
        group = data[start:end].hex()
        if row and (top or len(row) + 1 + len(group) > ROW):
            yield row
            row = "" if top else "  "
        row += group if row in ("", "  ") else " " + group
    if row:
        yield row


def groups(data, fields):
    """The parts to print, each with whether it begins a row."""
    cuts = {0, len(data)}
    for field in fields:
        cuts.update((field.place, field.start, field.end))
    tops = {field.end for field in fields if field.level == 0}
    ordered = sorted(cuts)
    for start, end in zip(ordered, ordered[1:]):
        for at in range(start, end, LONGEST_GROUP):
            yield at, min(at + LONGEST_GROUP, end), at in tops


def unhex(source):
    """The bytes of hex digits with any white space between and comments from '#'."""
    digits = []
    at = 0
    while at < len(source):
        if source[at] in DIGITS:
            digits.append(at)
            at += 1
            continue
        gap = GAP_OR_BAD.match(source, at)
        if gap["bad"]:
            raise SourceError(at, shown(gap["bad"]), "a hex digit, white space or a '#' comment")
        at = gap.end()
    if len(digits) % 2:
        raise SourceError(digits[-1], "a single hex digit at the end", "two digits for each byte")
    return bytes.fromhex("".join(source[place] for place in digits))
