"""What `frag` says of input that it cannot use: each kind of message, with its line and column."""

from harness import Case, frag

NODE_WORDS = "text, anchor, indented, inline-or-indented, space, force-line, if-block, raw, field"
STYLE_WORDS = "colour=, opacity=, thickness=, size=, sub, sup, dim, underline, raw, field"
ESCAPES = 'an escape: \\n \\r \\t \\0 \\\\ \\" \\xNN \\u{...}'
SCALAR = "a Unicode scalar value: 0 to d7ff or e000 to 10ffff"
OPACITY = "an opacity such as opacity=0.5 or opacity=bits:3f000000"
AT_END = "the end of the input"

# Notation, line and column, what was found, what was expected.
BUILD = [
    # words
    ('texx "a"', "1:1", "'texx'", NODE_WORDS + " or " + AT_END),
    ('text "a"\n  text "b" "c"', "2:12", "a string", NODE_WORDS + " or " + AT_END),
    ("text=3", "1:1", "'text=3'", NODE_WORDS + " or " + AT_END),
    ("\n= x", "2:1", "'='", "a word before it, without white space between"),
    ("end", "1:1", "'end'", NODE_WORDS + " or " + AT_END),
    ("\x1b", "1:1", "'\\u{1b}'", NODE_WORDS + " or " + AT_END),
    ("w" * 50, "1:1", "'%s...'" % ("w" * 40), NODE_WORDS + " or " + AT_END),
    ('texx "\\q"', "1:1", "'texx'", NODE_WORDS + " or " + AT_END),  # the first of two faults
    # strings
    ('text "abc\ntext "b"', "1:6", "the end of the line", "a '\"' that closes this string"),
    ('text "abc\r\ntext "b"', "1:6", "the end of the line", "a '\"' that closes this string"),
    ('\n\ntext "abc', "3:6", AT_END, "a '\"' that closes this string"),
    ('text "é\\q"', "1:8", "'\\q'", ESCAPES),
    ('text "a\\', "1:8", "'\\'", ESCAPES),
    ('text "a\\\n"', "1:8", "'\\'", ESCAPES),
    ('text "\\x4g"', "1:7", "'\\x4g'", "two hex digits after '\\x'"),
    ('text "\\x\n"', "1:7", "'\\x'", "two hex digits after '\\x'"),
    ('text "\\u41"', "1:7", "'\\u41'", "one to six hex digits in braces after '\\u'"),
    ('text "\\u{}"', "1:7", "'\\u{}'", "one to six hex digits in braces after '\\u'"),
    ('text "\\u{d800}"', "1:7", "'\\u{d800}'", SCALAR),
    ('text "\\u{dfff}"', "1:7", "'\\u{dfff}'", SCALAR),
    ('text "\\u{110000}"', "1:7", "'\\u{110000}'", SCALAR),
    # nodes that lack something
    ("text", "1:5", AT_END, "the text in double quotes, or its styles in '{ }'"),
    ("text space", "1:6", "'space'", "the text in double quotes, or its styles in '{ }'"),
    ("text {}\nspace", "2:1", "'space'", "the text in double quotes"),
    ("if-block ,", "1:10", "','", "the conditional text in double quotes"),
    ('anchor "x" ()', "1:8", "a string", "def or use"),
    ("anchor def x ()", "1:12", "'x'", "the anchor's name in double quotes"),
    ('anchor use "x" text "a"', "1:16", "'text'", "'(', the anchor's texts and ')'"),
    ('anchor def "x" ( space )', "1:18", "'space'", "text, raw, field or ')'"),
    ('indented text "a"', "1:10", "'text'", "'{', the block's fragments and '}'"),
    ('indented { text "a" }', "1:12", "'text'", "'[', raw, field or '}'"),
    # brackets
    ('indented { [ text "a" }', "1:23", "'}'", NODE_WORDS + " or ']'"),
    ("]", "1:1", "']'", NODE_WORDS + " or " + AT_END),
    ('inline-or-indented {\n  [ text "a"', "2:3", "'[' that is not closed at the end of the input",
     "']'"),
    ("indented {\n", "1:10", "'{' that is not closed at the end of the input", "'}'"),
    ('anchor use "x" (', "1:16", "'(' that is not closed at the end of the input", "')'"),
    ("field 8 (" * 151, "1:1359", "brackets nested more than 150 deep", "fewer"),
    # styles
    ('text {bold} "a"', "1:7", "'bold'", STYLE_WORDS + " or '}'"),
    ('text {\n  colour\n} "a"', "2:3", "'colour'", STYLE_WORDS + " or '}'"),
    ('text {dim=1} "a"', "1:7", "'dim=1'", STYLE_WORDS + " or '}'"),
    ('text {dim sub dim} "a"', "1:15", "a second dim", "each at most once"),
    ('text {underline dim underline} "a"', "1:21", "a second underline", "each at most once"),
    ('text {underlined} "a"', "1:7", "'underlined'", STYLE_WORDS + " or '}'"),
    ('text {size=1 size=1} "a"', "1:14", "a second size", "each at most once"),
    ('text {colour=#12345} "a"', "1:7", "'colour=#12345'", "a colour such as colour=#cc5555"),
    ('text {colour=#1234567} "a"', "1:7", "'colour=#1234567'", "a colour such as colour=#cc5555"),
    ('text {colour=red} "a"', "1:7", "'colour=red'", "a colour such as colour=#cc5555"),
    ('text {size=128} "a"', "1:7", "'size=128'", "size=N with N from -128 to 127"),
    ('text {size=-129} "a"', "1:7", "'size=-129'", "size=N with N from -128 to 127"),
    ('text {thickness=bold} "a"', "1:7", "'thickness=bold'", "thickness=N with N from -128 to 127"),
    ('text {size=} "a"', "1:7", "'size='", "size=N with N from -128 to 127"),
    ('text {opacity=half} "a"', "1:7", "'opacity=half'", OPACITY),
    ('text {opacity=1e-3} "a"', "1:7", "'opacity=1e-3'", OPACITY),
    ('text {opacity=1/2} "a"', "1:7", "'opacity=1/2'", OPACITY),
    ('text {opacity=bits:3f00000} "a"', "1:7", "'opacity=bits:3f00000'", OPACITY),
    ('text {opacity=1%s} "a"' % ("0" * 20), None, None, None),
    ('text {opacity=%s} "a"' % ("9" * 39), "1:7", "'opacity=%s...'" % ("9" * 32),
     "a number that a 32-bit float can hold"),
    # raw and field
    ("raw", "1:4", AT_END, "hex digits after 'raw'"),
    ("raw zz", "1:5", "'zz'", "hex digits after 'raw'"),
    ("raw 01 0", "1:8", "'0'", "hex digits, two for each byte"),
    ("raw 01 0g", "1:8", "'0g'", "hex digits, two for each byte"),
    ('field "x"', "1:7", "a string", "a tag from 0 to 255 after 'field'"),
    ('field 256 "x"', "1:7", "'256'", "a tag from 0 to 255 after 'field'"),
    ('field -1 "x"', "1:7", "'-1'", "a tag from 0 to 255 after 'field'"),
    ("field 8 [ ]", "1:9", "'['", "the value in double quotes, or fields in '( )'"),
    # sizes
    ('\n\n  text "%s"' % ("a" * 65_536), "3:8", "a value of 65,536 bytes for text bytes",
     "at most 65,535"),
    ('\n text "%s"' % ("a" * 65_533), "2:2", "a value of 65,536 bytes for Text", "at most 65,535"),
    ('field 99 ( raw %s )' % ("00" * 65_536), "1:1", "a value of 65,536 bytes for tag 99",
     "at most 65,535"),
    ("field 99 ( raw %s )" % ("00" * 65_535), None, None, None),
    # the source's encoding
    (b"# fine: \xc3\xa9\ntext \"\xc3\xa9\xe9\"", "2:8",
     "the byte e9, which is not UTF-8 there", "UTF-8"),
    (b"\xff\xfet\0e\0", "1:1", "the byte ff, which is not UTF-8 there", "UTF-8"),
]

UNHEX = [
    ("01 0g", "1:5", "'g'", "a hex digit, white space or a '#' comment"),
    ("01 # zz\n0x02", "2:2", "'x'", "a hex digit, white space or a '#' comment"),
    ("01\n02 3 # odd\n", "2:4", "a single hex digit at the end", "two digits for each byte"),
    (b"01 \xff", "1:4", "the byte ff, which is not UTF-8 there", "UTF-8"),
]


class Messages(Case):
    def test_messages(self):
        commands = [(("build", "-"), BUILD), (("unhex",), UNHEX), (("unhex", "-"), UNHEX[:1])]
        for command, table in commands:
            for source, at, found, expected in table:
                self.told(command, source, at, found, expected)

    def told(self, command, source, at, found, expected):
        """One line and nothing written; or, where no place is given, no such line."""
        given = source if isinstance(source, bytes) else source.encode("utf-8")
        status, out, error = frag(*command, given=given)
        name = "%s %.60r" % (command[0], source)
        if at is None:
            self.same(name + " is let through", (status, len(out) > 0), (0, True))
            return
        line = "frag: standard input:%s: found %s, expected %s\n" % (at, found, expected)
        self.same(name, (status, out, error), (2, b"", line))
