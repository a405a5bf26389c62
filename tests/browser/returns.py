"""Files with carriage returns in their texts, which a browser reads as newlines unless the document is strict, and files with NULs, which it
drops."""

import pathlib

ROOT = pathlib.Path(__file__).resolve().parents[2]

RETURNS = {
    "alone": b"a\rb",
    "before a newline": b"a\r\nb",
    "behind a newline": b"a\n\rb",
    "doubled": b"a\r\rb",
    "doubled before a newline": b"a\r\r\nb",
    "at a start": b"\ra",
    "at an end": b"a\r",
    "beside ampersands": b"&\r&\r\n&",
    "beside references": b"&#13;\r&#10;\r&amp;",
    "nothing else": b"\r",
}
NULS = {"a NUL": b"a\0b", "a NUL behind a CR": b"\r\0\n"}


def field(tag, value=b""):
    return bytes([tag]) + len(value).to_bytes(2, "big") + value


def everywhere(shown):
    """A file with these bytes in each kind of text: at the page's start and end, styled, in an anchor, and in one that shows only in a broken block."""
    text = field(1, field(17, shown))
    styled = field(1, field(16) + field(17, shown))
    anchor = field(2, field(18, b"name") + text + styled)
    return text + styled + field(6) + anchor + field(3, field(8, text + field(7, shown))) + text


def with_returns():
    """Name and file; strict documents give their pages back."""
    yield "returns", (ROOT / "samples" / "returns.fragment").read_bytes()
    yield from ((name, everywhere(shown)) for name, shown in RETURNS.items())


def with_nuls():
    """Name and file; no document gives their pages back."""
    yield from ((name, everywhere(shown)) for name, shown in NULS.items())
