"""Document 01's checked examples in the notation: they build to the bytes it gives or means.

Where document 01 prints an example's bytes these are they; the others are worked out by hand from
its table of tags. Each is also checked, dumped as notation and built again.
"""

from harness import Case, frag, nested_blocks, unspaced

A = "010004 11000161 "
B = "010004 11000162 "
X = "010004 11000178 "

# Name, notation, bytes, answer.
EXAMPLES = [
    ("P1 and P2: the page program's input",
     'text "f(" inline-or-indented { [ text "a" text "," space ] [ text "b" if-block "," ] } '
     'text ")"',
     "01000511000266 28 040022 080011 01000411000161 0100041100012C 050000 08000B 01000411000162 "
     "0700012C 01000411000129", "accepted"),
    ("P3: the empty file", "", "", "accepted"),
    ("P3: a comment alone", "# nothing\n", "", "accepted"),
    ("P4", 'text "a" force-line', A + "060000", "accepted"),
    ("P5", 'text "a" space force-line text "b"', A + "050000 060000" + B, "accepted"),
    ("P6", 'text "a" space text "\\nb"', A + "050000 010005 1100020a62", "accepted"),
    ("P7", 'text "a" space text {} "\\nb"', A + "050000 010008 100000 1100020a62", "accepted"),
    ("P8, styled", 'indented { [ text {} "" ] } text "x"',
     "03000c 080009 010006 100000 110000" + X, "accepted"),
    ("P8, unstyled", 'indented { [ text "" ] } text "x"', "030009 080006 010003 110000" + X,
     "accepted"),
    ("P9", 'inline-or-indented { [ text {sub} "abc" ] }',
     "040012 08000f 01000c 100003 240000 110003 616263", "accepted"),
    ("P10", 'text "x" inline-or-indented { [ text "a\\nb" ] }',
     X + "04000c 080009 010006 110003 610a62", "accepted"),
    ("P11, a definition", 'indented { [ anchor def "n" () text "x" ] }',
     "030011 08000e 020004 1200016e" + X, "accepted"),
    ("P11, a use", 'indented { [ anchor use "n" () text "x" ] }',
     "030011 08000e 020004 1300016e" + X, "accepted"),
    ("P12: size 117", 'text {size=117} "x"', "01000b 100004 23000175 11000178", "accepted"),
    ("P12: size 118", 'text {size=118} "x"', "01000b 100004 23000176 11000178", "refused 8 at 6"),
    ("P12: size -10", 'text {size=-10} "x"', "01000b 100004 230001f6 11000178", "accepted"),
    ("em -2", 'text {size=-2} ""', "01000a 100004 230001fe 110000", "accepted"),
    ("em -9", 'text {size=-9} ""', "01000a 100004 230001f7 110000", "accepted"),
    ("em 0", 'text {size=0} ""', "01000a 100004 23000100 110000", "accepted"),
    ("opacity 0.5", 'text {colour=#000000 opacity=0.5} ""',
     "010013 10000d 200003000000 210004 3f000000 110000", "accepted"),
    ("opacity 1/1024", 'text {colour=#010203 opacity=0.0009765625} ""',
     "010013 10000d 200003010203 210004 3a800000 110000", "accepted"),
    ("opacity 129/512, as it is printed", 'text {colour=#000000 opacity=0.25195313} ""',
     "010013 10000d 200003000000 210004 3e810000 110000", "accepted"),
    ("opacity 129/512, exactly", 'text {colour=#000000 opacity=0.251953125} ""',
     "010013 10000d 200003000000 210004 3e810000 110000", "accepted"),
    ("32 nested blocks", "inline-or-indented { [ indented { [ " * 15
     + "inline-or-indented { [ indented {" + "} ] } ] " * 15 + "} ] }",
     nested_blocks(32).hex(), "accepted"),
    ("33 nested blocks", "indented { [ inline-or-indented { [ " * 16
     + "indented {" + "} ] } ] " * 16 + "}", nested_blocks(33).hex(), "refused 6 at 192"),
    ("the lone byte 99", "raw 63", "63", "refused 3 at 0"),
]

# The same for every other thing that the notation can say.
NOTATION = [
    ("an anchor with runs", 'anchor use "v" ( text "a" text {dim} "b" )',
     "020018 13000176 010004 11000161 01000a 100003 260000 11000162", "accepted"),
    ("styles in any order",
     'text {underline dim sub size=-128 thickness=127 opacity=1 colour=#AbCdEf} "x"',
     "010025 10001e 200003abcdef 210004 3f800000 2200017f 23000180 240000 260000 270000 11000178",
     "accepted"),
    ("an underline alone", 'text {underline} "x"', "01000a 100003 270000 11000178", "accepted"),
    ("an underline before a dim on purpose", 'text {field 39 "" field 38 ""} "x"',
     "01000d 100006 270000 260000 11000178", "refused 4 at 9"),
    ("a plus sign", 'text {size=+7 thickness=-1} ""', "01000e 100008 220001ff 23000107 110000",
     "accepted"),
    ("a superscript", 'text {sup} ""', "010009 100003 250000 110000", "accepted"),
    ("opacity by bits", 'text {colour=#000000 opacity=bits:3DCCCCCD} ""',
     "010013 10000d 200003000000 210004 3dcccccd 110000", "accepted"),
    ("opacity -0", 'text {colour=#000000 opacity=-0} ""',
     "010013 10000d 200003000000 210004 80000000 110000", "refused 8 at 12"),
    ("opacity half way: to even below",
     'text {colour=#000000 opacity=0.500000029802322387695312500} ""',
     "010013 10000d 200003000000 210004 3f000000 110000", "accepted"),
    ("opacity half way: to even above",
     'text {colour=#000000 opacity=0.50000008940696716308593750} ""',
     "010013 10000d 200003000000 210004 3f000002 110000", "accepted"),
    ("opacity just over half way, which a double does not see",
     'text {colour=#000000 opacity=0.50000002980232238769531250000001} ""',
     "010013 10000d 200003000000 210004 3f000001 110000", "accepted"),
    ("every escape", 'text "\\n\\r\\t\\0\\\\\\"\\x7f\\u{e9}\\u{1F600}#{}[]()"',
     "010017 110014 0a0d09005c227f c3a9 f09f9880 237b7d5b5d2829", "accepted"),
    ("characters beyond ASCII", 'text "é光😀"', "01000c 110009 c3a9 e58589 f09f9880", "accepted"),
    ("bytes that make a character", 'text "\\xc3\\xa9"', "010005 110002 c3a9", "accepted"),
    ("an empty fragment, an empty block", "indented { [] } inline-or-indented {}",
     "030003 080000 040000", "accepted"),
    ("raw in a block", 'indented { [ space ] raw 08 0000 }', "030009 080003 050000 080000",
     "accepted"),
    ("raw stops at a word", 'raw 05 0000 060000 text "x"', "050000 060000" + X, "accepted"),
    ("a field of bytes", 'field 17 "a"', "11000161", "refused 4 at 0"),
    ("a field of fields", 'field 3 ( [ space ] field 8 ( field 6 "" ) )',
     "03000c 080003 050000 080003 060000", "accepted"),
    ("a raw field among styles keeps its place", 'text {dim field 36 "" raw 22 0001 02} "x"',
     "010011 10000a 260000 240000 22000102 11000178", "refused 4 at 9"),
    ("raw in an anchor", 'anchor def "a" ( raw 05 0000 )', "020007 12000161 050000",
     "refused 4 at 7"),
    ("comments and white space anywhere", '\ufeff\ttext#c\r\n{#c\n}#"\n"x"#',
     "010007 100000 11000178", "accepted"),
]


class NotationExamples(Case):
    def test_examples(self):
        for name, notation, hex_bytes, answer in EXAMPLES + NOTATION:
            self.builds_to(name, notation, unspaced(hex_bytes), answer)

    def builds_to(self, name, notation, data, answer):
        status, built, warning = frag("build", "-", given=notation.encode("utf-8"))
        self.same(name + ": built", (status, built.hex()), (0, data.hex()))
        warned = warning.partition("warning: the built file is ")[2].partition(":")[0]
        self.same(name + ": warned of", warned, "" if answer == "accepted" else answer)
        status, checked, _ = frag("check", "-", given=data)
        self.same(name + ": checked", (status, checked.decode()),
                  (0 if answer == "accepted" else 1, answer + "\n"))
        status, again, _ = frag("dump", "--notation", "-", given=data)
        self.same(name + ": back in notation, and built again",
                  frag("build", "-", given=again)[1].hex(), data.hex())
