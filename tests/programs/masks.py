"""The input of the program `alike`: the width's two bytes, a fragment file, and the file with its text bytes masked by `x` and by `y`. Newlines
stay, and `&` and `<`, which HTML escapes."""

HOLDERS = {1, 2, 3, 4, 8, 16}
TEXTS = {7, 17}
KEPT = b"\n&<"


def masked(fields, letter, kept=KEPT):
    """Accepted fields with their text bytes masked but for those that are kept."""
    out, at = bytearray(), 0
    while at < len(fields):
        tag, length = fields[at], int.from_bytes(fields[at + 1:at + 3], "big")
        value = fields[at + 3:at + 3 + length]
        out += fields[at:at + 3] + masked_value(tag, value, letter, kept)
        at += 3 + length
    return bytes(out)


def masked_value(tag, value, letter, kept):
    if tag in HOLDERS:
        return masked(value, letter, kept)
    if tag in TEXTS:
        return bytes(byte if byte in kept else ord(letter) for byte in value)
    return value


def asked(width, file, other=None):
    """The input for a file, or for another file beside that file's masks."""
    return width.to_bytes(2, "big") + (other or file) + masked(file, "x") + masked(file, "y")
