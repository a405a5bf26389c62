"""Quoted strings: how bytes of a text are written in double quotes, and read back."""

import re

from .source import SourceError, shown

NAMED = {"n": "\n", "r": "\r", "t": "\t", "0": "\0", "\\": "\\", '"': '"'}
LETTERS = {char: letter for letter, char in NAMED.items()}

PIECE = re.compile(
    r'(?P<plain>[^"\\\r\n]+)'
    r'|\\(?P<named>[nrt0\\"])'
    r"|\\x(?P<byte>[0-9A-Fa-f]{2})"
    r"|\\u\{(?P<scalar>[0-9A-Fa-f]{1,6})\}"
)


def quote(data):
    """UTF-8 bytes in double quotes, with escapes for what cannot be seen."""
    return '"%s"' % "".join(quoted_char(char) for char in data.decode("utf-8"))


def quoted_char(char):
    if char in LETTERS:
        return "\\" + LETTERS[char]
    if char.isprintable():
        return char
    code = ord(char)
    return "\\x%02x" % code if code < 0x80 else "\\u{%x}" % code


def unquote(source, offset):
    """Reads the string whose opening quote is at an offset: its bytes and the offset after it."""
    at, parts = offset + 1, []
    while True:
        piece = PIECE.match(source, at)
        if piece is None:
            break
        parts.append(piece_bytes(piece))
        at = piece.end()
    if source.startswith('"', at):
        return b"".join(parts), at + 1
    raise fault_at(source, at, offset)


def piece_bytes(piece):
    if piece["plain"] is not None:
        return piece["plain"].encode("utf-8")
    if piece["named"] is not None:
        return NAMED[piece["named"]].encode("utf-8")
    if piece["byte"] is not None:
        return bytes.fromhex(piece["byte"])
    code = int(piece["scalar"], 16)
    if code > 0x10FFFF or 0xD800 <= code <= 0xDFFF:
        raise SourceError(piece.start(), shown(piece[0]),
                        "a Unicode scalar value: 0 to d7ff or e000 to 10ffff")
    return chr(code).encode("utf-8")


def fault_at(source, at, opening):
    """What is wrong where neither a piece of a string nor its closing quote stands."""
    if not source.startswith("\\", at):
        end = "the end of the line" if at < len(source) else "the end of the input"
        return SourceError(opening, end, "a '\"' that closes this string")
    escape = source[at:at + 2].rstrip("\r\n")
    if escape == "\\x":
        return SourceError(at, shown(one_line(source[at:at + 4])), "two hex digits after '\\x'")
    if escape == "\\u":
        return SourceError(at, shown(one_line(source[at:at + 4])),
                         "one to six hex digits in braces after '\\u'")
    return SourceError(at, shown(escape), 'an escape: \\n \\r \\t \\0 \\\\ \\" \\xNN \\u{...}')


def one_line(text):
    return text.splitlines()[0]
