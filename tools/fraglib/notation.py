"""The notation's reader: from source text to the fields it asks for. NOTATION.md describes it."""

import re
from typing import NamedTuple, Optional

from . import floats
from . import format as f
from .items import Made, Raw, encode_one
from .quoting import unquote
from .source import SourceError, shown

DEEPEST_NESTING = 150  # brackets in brackets: more than any accepted file needs

GAP = re.compile(r"(?:\s+|#[^\n]*)*")
BRACKET = re.compile(r"[{}()\[\]]")
# A '#' begins a comment, but not in the value after a '='.
WORD = re.compile(r'([^\s{}()\[\]"#=]+)(=[^\s{}()\[\]"]*)?')

CLOSERS = {"[": "]", "(": ")", "{": "}"}


# Kinds of token that no word can be mistaken for; every other token's kind is its own text.
STRING, END = '"', ""


class Token(NamedTuple):
    """A bracket or word, `name=` with its value apart, a string, or the end."""

    kind: str
    offset: int
    shown: str
    value: Optional[object] = None


def one_token(source, at):
    """The token at an offset, white space and comments left behind, and the offset after it."""
    at = GAP.match(source, at).end()
    if at == len(source):
        return Token(END, at, "the end of the input"), at
    if source[at] == '"':
        data, end = unquote(source, at)
        return Token(STRING, at, "a string", data), end
    bracket = BRACKET.match(source, at)
    if bracket:
        return Token(bracket[0], at, shown(bracket[0])), bracket.end()
    word = WORD.match(source, at)
    if word is None:  # only '=' is left
        raise SourceError(at, "'='", "a word before it, without white space between")
    if word[2] is None:
        return Token(word[1], at, shown(word[1])), word.end()
    return Token(word[1] + "=", at, shown(word[0]), word[2][1:]), word.end()


def parse(source):
    """The root fragment's items."""
    return Parser(source).whole()


class Parser:
    """Reads tokens from the front. Each table of readers below says what may stand at a place.

    A token is made only when it is asked for, so that the first fault in the source is told.
    """

    def __init__(self, source):
        self.source = source
        self.at = 0
        self.ahead = None  # the next token, once it has been looked at
        self.opened = []  # the brackets around, outermost first

    def whole(self):
        return self.until(END, NODES, "the end of the input")

    def peek(self):
        if self.ahead is None:
            self.ahead, self.at = one_token(self.source, self.at)
        return self.ahead

    def take(self):
        token = self.peek()
        self.ahead = None
        return token

    def wrong(self, token, expected):
        """The fault, with the bracket that is still open where the input ends within one."""
        if token.kind == END and self.opened:
            opening = self.opened[-1]
            return SourceError(opening.offset, "%s that is not closed at the end of the input" %
                               opening.shown, "'%s'" % CLOSERS[opening.kind])
        return SourceError(token.offset, token.shown, expected)

    def expect(self, kind, expected):
        token = self.take()
        if token.kind != kind:
            raise self.wrong(token, expected)
        return token

    def string(self, what):
        return self.expect(STRING, "%s in double quotes" % what)

    def until(self, closer, readers, closer_shown):
        """Items by the readers that may stand here, up to the closer."""
        items = []
        while self.peek().kind != closer:
            token = self.take()
            reader = readers.get(token.kind)
            if reader is None:
                words = ", ".join(shown(kind) if kind in CLOSERS else kind for kind in readers)
                raise self.wrong(token, "%s or %s" % (words, closer_shown))
            items.append(reader(self, token))
        self.take()
        return items

    def bracketed(self, opener, readers, expected):
        """Items between an opening bracket and its closing one."""
        return self.inside(self.expect(opener, expected), readers)

    def inside(self, opening, readers):
        """The same, the opening bracket having been taken."""
        self.opened.append(opening)
        if len(self.opened) > DEEPEST_NESTING:
            raise SourceError(opening.offset, "brackets nested more than %d deep" % DEEPEST_NESTING,
                              "fewer")
        closer = CLOSERS[opening.kind]
        items = self.until(closer, readers, "'%s'" % closer)
        self.opened.pop()
        return items

    def text(self, word):
        parts = []
        if self.peek().kind == "{":
            opening = self.take()
            styles = in_order(self.inside(opening, STYLE_WORDS))
            parts.append(Made(f.STYLES, styles, opening.offset))
            value = self.string("the text")
        else:
            value = self.expect(STRING, "the text in double quotes, or its styles in '{ }'")
        parts.append(Made(f.TEXT_BYTES, value.value, value.offset))
        return Made(f.TEXT, parts, word.offset)

    def anchor(self, word):
        kind = self.take()
        if kind.kind not in ANCHOR_KINDS:
            raise self.wrong(kind, "def or use")
        name = self.string("the anchor's name")
        runs = self.bracketed("(", RUNS, "'(', the anchor's texts and ')'")
        return Made(f.ANCHOR, [Made(ANCHOR_KINDS[kind.kind], name.value, name.offset)] + runs,
                    word.offset)

    def block(self, word):
        fragments = self.bracketed("{", FRAGMENTS, "'{', the block's fragments and '}'")
        return Made(BLOCK_TAGS[word.kind], fragments, word.offset)

    def fragment(self, opening):
        return Made(f.FRAGMENT, self.inside(opening, NODES), opening.offset)

    def space(self, word):
        return Made(f.SPACE, b"", word.offset)

    def force_line(self, word):
        return Made(f.FORCE_LINE, b"", word.offset)

    def if_block(self, word):
        return Made(f.IF_BLOCK, self.string("the conditional text").value, word.offset)

    def raw(self, word):
        """Words of hex digits; as no other word begins with a digit, such a one is meant as hex."""
        digits = []
        while re.fullmatch("[0-9].*|[0-9A-Fa-f]+", self.peek().kind):
            token = self.take()
            if not re.fullmatch("([0-9A-Fa-f]{2})+", token.kind):
                raise SourceError(token.offset, token.shown, "hex digits, two for each byte")
            digits.append(token.kind)
        if not digits:
            raise self.wrong(self.peek(), "hex digits after 'raw'")
        return Raw(bytes.fromhex("".join(digits)), word.offset)

    def field(self, word):
        tag = self.take()
        if not re.fullmatch("[0-9]{1,3}", tag.kind) or int(tag.kind) > 255:
            raise self.wrong(tag, "a tag from 0 to 255 after 'field'")
        if self.peek().kind == STRING:
            return Made(int(tag.kind), self.take().value, word.offset)
        inner = self.bracketed("(", ANYTHING, "the value in double quotes, or fields in '( )'")
        return Made(int(tag.kind), inner, word.offset)

    def raw_field(self, word):
        """A field among styles, as bytes: it keeps the place it was written at."""
        return Raw(encode_one(self.field(word)), word.offset)

    def colour(self, word):
        if not re.fullmatch("#[0-9A-Fa-f]{6}", word.value):
            raise SourceError(word.offset, word.shown, "a colour such as colour=#cc5555")
        return Made(f.COLOUR, bytes.fromhex(word.value[1:]), word.offset)

    def opacity(self, word):
        if re.fullmatch("bits:[0-9A-Fa-f]{8}", word.value):
            return Made(f.OPACITY, bytes.fromhex(word.value[5:]), word.offset)
        if not re.fullmatch(r"-?[0-9]{1,60}(\.[0-9]{1,200})?", word.value):
            raise SourceError(word.offset, word.shown,
                              "an opacity such as opacity=0.5 or opacity=bits:3f000000")
        bits = floats.of_decimal(word.value)
        if bits is None:
            raise SourceError(word.offset, word.shown, "a number that a 32-bit float can hold")
        return Made(f.OPACITY, bits.to_bytes(4, "big"), word.offset)

    def signed_byte(self, word):
        number = re.fullmatch("[+-]?[0-9]{1,3}", word.value) and int(word.value)
        if number is None or not -128 <= number <= 127:
            raise SourceError(word.offset, word.shown, "%sN with N from -128 to 127" % word.kind)
        return Made(SIGNED_TAGS[word.kind], bytes([number % 256]), word.offset)

    def flag(self, word):
        return Made(FLAG_TAGS[word.kind], b"", word.offset)


def in_order(styles):
    """Style fields rising, however they were written; as they are where any was put in raw."""
    if any(isinstance(item, Raw) for item in styles):
        return styles
    ordered = sorted(styles, key=lambda item: item.tag)
    for one, other in zip(ordered, ordered[1:]):
        if one.tag == other.tag:
            raise SourceError(other.offset, "a second %s" % f.name(other.tag), "each at most once")
    return ordered


ANCHOR_KINDS = {"def": f.DEFINITION, "use": f.USE}
BLOCK_TAGS = {"indented": f.INDENTED, "inline-or-indented": f.INLINE_OR_INDENTED}
SIGNED_TAGS = {"thickness=": f.THICKNESS, "size=": f.SIZE}
FLAG_TAGS = {"sub": f.SUBSCRIPT, "sup": f.SUPERSCRIPT, "dim": f.DIM, "underline": f.UNDERLINE}

# What may stand where. A fault's message lists these words.
ON_PURPOSE = {"raw": Parser.raw, "field": Parser.field}
NODES = {
    "text": Parser.text,
    "anchor": Parser.anchor,
    "indented": Parser.block,
    "inline-or-indented": Parser.block,
    "space": Parser.space,
    "force-line": Parser.force_line,
    "if-block": Parser.if_block,
    **ON_PURPOSE,
}
RUNS = {"text": Parser.text, **ON_PURPOSE}
FRAGMENTS = {"[": Parser.fragment, **ON_PURPOSE}
ANYTHING = {**NODES, **FRAGMENTS}
STYLE_WORDS = {
    "colour=": Parser.colour,
    "opacity=": Parser.opacity,
    "thickness=": Parser.signed_byte,
    "size=": Parser.signed_byte,
    **{word: Parser.flag for word in FLAG_TAGS},
    "raw": Parser.raw,
    "field": Parser.raw_field,
}
