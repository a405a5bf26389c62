"""What a person wrote: reading it as UTF-8, and saying where in it a fault is."""


class SourceError(Exception):
    """A fault in a notation or hex: its offset, what was found there, what was expected."""

    def __init__(self, offset, found, expected):
        super().__init__(offset, found, expected)
        self.offset, self.found, self.expected = offset, found, expected

    def message(self, name, source):
        return "%s:%s: found %s, expected %s" % (
            name, line_and_column(source, self.offset), self.found, self.expected)


def decoded(data):
    """The characters of UTF-8 source, without a byte order mark at its front."""
    try:
        text = data.decode("utf-8")
    except UnicodeDecodeError as error:
        sound = data[:error.start].decode("utf-8")
        raise NotUtf8(sound, data[error.start]) from None
    return text[1:] if text.startswith("\ufeff") else text


class NotUtf8(SourceError):
    """The source stops being UTF-8 after `sound`."""

    def __init__(self, sound, byte):
        super().__init__(len(sound), "the byte %02x, which is not UTF-8 there" % byte, "UTF-8")
        self.sound = sound


def shown(text):
    """What was found, in quotes: cut short if long, without characters that a terminal obeys."""
    cut = text if len(text) <= 40 else text[:40] + "..."
    return "'%s'" % "".join(c if c.isprintable() else "\\u{%x}" % ord(c) for c in cut)


def line_and_column(source, offset):
    """Both from 1; a column is a character."""
    line = source.count("\n", 0, offset) + 1
    column = offset - (source.rfind("\n", 0, offset) + 1) + 1
    return "%d:%d" % (line, column)
