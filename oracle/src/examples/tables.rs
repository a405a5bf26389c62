//! The tables of examples: document 01's own, its slips, the settled readings of it, and request E2, the underline.

/// Page program's file: `f(`, a tag 4 of `a`, `,`, a space break and `b`, a conditional `,`, then `)`.
const CALL: &str = "010005 110002 6628
    040022 080011 010004 110001 61 010004 110001 2c 050000
           08000b 010004 110001 62 070001 2c
    010004 110001 29";

/// Laid out at a width and printed: name, width, file, places of the changed tags, plain page.
#[rustfmt::skip] // one row, one line
pub const PRINTED: &[(&str, u16, &str, &[usize], &str)] = &[
    ("P1: the call at 7", 7, CALL, &[], "f(a, b)"),
    ("P2: the call at 6", 6, CALL, &[8], "f(\n  a,\n  b,\n)"),
    ("P3: empty file", 80, "", &[], ""),
    ("P4: break at the end", 80, "010004 110001 61 060000", &[], "a"),
    ("P5: newline wins over space", 80, "010004 110001 61 050000 060000 010004 110001 62", &[], "a\nb"),
    ("P6: space, unstyled newline", 80, "010004 110001 61 050000 010005 110002 0a62", &[], "a\nb"),
    ("P7: space, styled newline", 80, "010004 110001 61 050000 010008 100000 110002 0a62", &[], "a \nb"),
    ("P8: empty styled text in a block", 80, "03000c 080009 010006 100000 110000 010004 110001 78", &[], "  \nx"),
    ("P8: empty unstyled text in a block", 80, "030009 080006 010003 110000 010004 110001 78", &[], "x"),
    ("P9: subscript at 2", 2, "040012 08000f 01000c 100003 240000 110003 616263", &[0], "  abc"),
    ("P9: subscript at 3", 3, "040012 08000f 01000c 100003 240000 110003 616263", &[], "abc"),
    ("P10: newline in a tag 4 at 0", 0, "010004 110001 78 04000c 080009 010006 110003 610a62", &[7], "x\n  a\n  b"),
    ("P10: newline in a tag 4 at 1", 1, "010004 110001 78 04000c 080009 010006 110003 610a62", &[7], "x\n  a\n  b"),
    ("P10: newline in a tag 4 at 80", 80, "010004 110001 78 04000c 080009 010006 110003 610a62", &[7], "x\n  a\n  b"),
    ("P10: newline in a tag 4 at 6553", 6553, "010004 110001 78 04000c 080009 010006 110003 610a62", &[7], "x\n  a\n  b"),
    ("P11: empty anchor in a block", 80, "030011 08000e 020004 120001 61 010004 110001 78", &[], "  x"),
    ("P12: width 6553", 6553, "", &[], ""),
    ("P12: size -10 measures 0", 0, "040013 080010 01000d 100004 230001 f6 110003 616263", &[], "abc"),
    ("size -9 measures 1 a byte", 0, "040013 080010 01000d 100004 230001 f7 110003 616263", &[0], "  abc"),
    ("size -128 measures 0", 0, "040013 080010 01000d 100004 230001 80 110003 616263", &[], "abc"),
    ("reading 9: empty fragment", 80, "030003 080000", &[], ""),
    ("reading 10: an ignored break leaves the waiting one", 80, "03000c 080009 010006 100000 110000 050000 03000a 080007 010004 110001 78", &[], "   x"),
    ("reading 11: the second tag 4 gets what the first left", 3, "04000b 080008 010005 110002 6162 04000b 080008 010005 110002 6364", &[14], "ab\n  cd"),
    ("reading 11: the own inline maximum decides, not the enlarged one", 6, "010007 110004 78787878 04000c 080009 010006 110003 616263", &[10], "xxxx\n  abc"),
    ("slip: the width before a later newline counts, at 4", 4, "04000c 080009 010006 110003 616263 010007 110004 64650a66", &[0], "  abc\nde\nf"),
    ("slip: the width before a later newline counts, at 5", 5, "04000c 080009 010006 110003 616263 010007 110004 64650a66", &[], "abcde\nf"),
    ("slip: the excess of tag 7 is taken off", 1, "04000f 08000c 010004 110001 61 070002 6262", &[], "a"),
    ("E2: underlined at 2", 2, "040012 08000f 01000c 100003 270000 110003 616263", &[0], "  abc"),
    ("E2: underlined at 3", 3, "040012 08000f 01000c 100003 270000 110003 616263", &[], "abc"),
    ("E2: underlined subscript at 2", 2, "040015 080012 01000f 100006 240000 270000 110003 616263", &[0], "  abc"),
    ("E2: underlined subscript at 3", 3, "040015 080012 01000f 100006 240000 270000 110003 616263", &[], "abc"),
    ("E2: underlined, size -10 measures 0", 0, "040016 080013 010010 100007 230001 f6 270000 110003 616263", &[], "abc"),
    ("E2: a block behind an underlined text", 80, "01000a 100003 270000 110001 78 04000c 080009 010006 110003 610a62", &[13], "x\n  a\n  b"),
    ("E2: space, underlined newline", 80, "010004 110001 61 050000 01000b 100003 270000 110002 0a62", &[], "a \nb"),
];

/// Rendered as it stands: name, file, what stands in the body between `pre` tags.
#[rustfmt::skip] // one row, one line
pub const BODIES: &[(&str, &str, &str)] = &[
    ("P3: empty file", "", ""),
    ("P11: the anchor precedes the spaces", "030011 08000e 020004 120001 61 010004 110001 78", "<a id=\"a\" href=\"#a\"></a>  x"),
    ("Em: -2", "01000a 100004 230001 fe 110000", "<span style=\"font-size:0.8em;vertical-align:middle;\"></span>"),
    ("Em: -9", "01000a 100004 230001 f7 110000", "<span style=\"font-size:0.09999999999999998em;vertical-align:middle;\"></span>"),
    ("Em: -10", "01000a 100004 230001 f6 110000", "<span style=\"font-size:0em;vertical-align:middle;\"></span>"),
    ("Em: 0, and reading 2: a 35 of 0", "01000a 100004 230001 00 110000", "<span style=\"font-size:1em;vertical-align:middle;\"></span>"),
    ("reading 1: size 7", "01000a 100004 230001 07 110000", "<span style=\"font-size:1.7000000000000002em;vertical-align:middle;\"></span>"),
    ("reading 1: size -6", "01000a 100004 230001 fa 110000", "<span style=\"font-size:0.3999999999999999em;vertical-align:middle;\"></span>"),
    ("size 117", "01000a 100004 230001 75 110000", "<span style=\"font-size:12.700000000000001em;vertical-align:middle;\"></span>"),
    ("size -128", "01000a 100004 230001 80 110000", "<span style=\"font-size:-11.8em;vertical-align:middle;\"></span>"),
    ("Opacity: 0.5", "010013 10000d 200003 cc5544 210004 3f000000 110000", "<span style=\"color:rgba(204,85,68,0.5);\"></span>"),
    ("Opacity: 1/1024", "010013 10000d 200003 cc5544 210004 3a800000 110000", "<span style=\"color:rgba(204,85,68,0.0009765625);\"></span>"),
    ("Opacity: 129/512", "010013 10000d 200003 cc5544 210004 3e810000 110000", "<span style=\"color:rgba(204,85,68,0.25195313);\"></span>"),
    ("Opacity: +0", "010013 10000d 200003 000a64 210004 00000000 110000", "<span style=\"color:rgba(0,10,100,0);\"></span>"),
    ("Opacity: 1", "010013 10000d 200003 000a64 210004 3f800000 110000", "<span style=\"color:rgba(0,10,100,1);\"></span>"),
    ("empty style", "010006 100000 110000", "<span></span>"),
    ("reading 2: subscript", "010009 100003 240000 110000", "<sub style=\"font-size:0.8em;\"></sub>"),
    ("reading 2: superscript", "010009 100003 250000 110000", "<sup style=\"font-size:0.8em;\"></sup>"),
    ("reading 2: 35 wins over 36", "01000d 100007 230001 05 240000 110000", "<sub style=\"font-size:1.5em;\"></sub>"),
    ("reading 13: small digits, style before class", "01000f 100009 200003 0a0bcf 260000 110000", "<span style=\"color:#0a0bcf;\" class=\"unchanged\"></span>"),
    ("reading 13: id before href", "02000b 120001 64 010004 110001 61", "<a id=\"d\" href=\"#d\">a</a>"),
    ("a use has no id", "02000b 130001 75 010004 110001 61", "<a href=\"#u\">a</a>"),
    ("weight 13200", "01000a 100004 220001 7f 110000", "<span style=\"font-weight:13200;\"></span>"),
    ("weight 0", "01000a 100004 220001 fb 110000", "<span style=\"font-weight:0;\"></span>"),
    ("weight -12300", "01000a 100004 220001 80 110000", "<span style=\"font-weight:-12300;\"></span>"),
    ("order of the style", "010014 10000e 200003 010203 220001 01 230001 05 110000", "<span style=\"color:#010203;font-weight:600;font-size:1.5em;vertical-align:middle;\"></span>"),
    ("escapes", "010008 110005 263c3e2261", "&amp;&lt;>\"a"),
    ("nothing is escaped in an anchor", "020006 120003 263c3e", "<a id=\"&<>\" href=\"#&<>\"></a>"),
    ("E2: a 39 alone", "010009 100003 270000 110000", "<span style=\"text-decoration:underline;\"></span>"),
    ("E2: behind a dim", "01000c 100006 260000 270000 110000", "<span style=\"text-decoration:underline;\" class=\"unchanged\"></span>"),
    ("E2: behind a colour", "01000f 100009 200003 0a0bcf 270000 110000", "<span style=\"color:#0a0bcf;text-decoration:underline;\"></span>"),
    ("E2: behind a weight", "01000d 100007 220001 01 270000 110000", "<span style=\"font-weight:600;text-decoration:underline;\"></span>"),
    ("E2: behind a size", "01000d 100007 230001 fe 270000 110000", "<span style=\"font-size:0.8em;vertical-align:middle;text-decoration:underline;\"></span>"),
    ("E2: behind a subscript", "01000c 100006 240000 270000 110000", "<sub style=\"font-size:0.8em;text-decoration:underline;\"></sub>"),
    ("E2: behind a superscript", "01000c 100006 250000 270000 110000", "<sup style=\"font-size:0.8em;text-decoration:underline;\"></sup>"),
    ("E2: behind a size and a subscript", "010010 10000a 230001 05 240000 270000 110000", "<sub style=\"font-size:1.5em;text-decoration:underline;\"></sub>"),
    ("E2: behind all that may be", "010024 10001e 200003 010203 210004 3f000000 220001 01 230001 05 250000 260000 270000 110000", "<sup style=\"color:rgba(1,2,3,0.5);font-weight:600;font-size:1.5em;text-decoration:underline;\" class=\"unchanged\"></sup>"),
    ("E2: the second of three texts", "010004 110001 61 010007 100000 110001 62 01000a 100003 270000 110001 63", "a<span>b</span><span style=\"text-decoration:underline;\">c</span>"),
    ("E2: in an anchor named as a tag", "020027 120006 3c7370616e3e 010004 110001 61 01000a 100003 270000 110001 3c 010007 100000 110001 62", "<a id=\"<span>\" href=\"#<span>\">a<span style=\"text-decoration:underline;\">&lt;</span><span>b</span></a>"),
    ("E2: in an anchor in a broken block", "030017 080014 020011 130002 753e 010009 100003 270000 110000", "  <a href=\"#u>\"><span style=\"text-decoration:underline;\"></span></a>"),
    ("E2: two lines in a broken block", "030012 08000f 01000c 100003 270000 110003 610a62", "  <span style=\"text-decoration:underline;\">a\n  b</span>"),
];

/// Accepted by the check: name, file.
#[rustfmt::skip] // one row, one line
pub const ACCEPTED: &[(&str, &str)] = &[
    ("P12: size 117", "01000a 100004 230001 75 110000"),
    ("reading 8: opacity 1/1024", "010013 10000d 200003 000000 210004 3a800000 110000"),
    ("reading 8: opacity 1", "010013 10000d 200003 000000 210004 3f800000 110000"),
    ("reading 8: opacity +0", "010013 10000d 200003 000000 210004 00000000 110000"),
    ("empty blocks", "030000 040000"),
    ("empty anchor name", "020003 120000"),
    ("E2: a 39 alone", "010009 100003 270000 110000"),
    ("E2: a 39 behind a 38", "01000c 100006 260000 270000 110000"),
    ("E2: a 39 behind a 32", "01000f 100009 200003 cc5544 270000 110000"),
    ("E2: a 39 in a run of an anchor", "02000f 120000 010009 100003 270000 110000"),
];

/// Refused by the check: name, file, number, place.
#[rustfmt::skip] // one row, one line
pub const REFUSED: &[(&str, &str, u8, usize)] = &[
    ("lone byte 99", "63", 3, 0),
    ("lone byte 99, read as hex", "99", 3, 0),
    ("P12: size 118", "01000a 100004 230001 76 110000", 8, 6),
    ("reading 3: a wrong field where 18 or 19 should stand", "020007 010004 110001 61", 4, 3),
    ("reading 3: an empty 1", "010000", 5, 0),
    ("reading 3: a 1 with nothing but a 16", "010003 100000", 5, 0),
    ("reading 3: an empty 2", "020000", 5, 0),
    ("reading 3: a faulty 16 before the missing 17", "010007 100004 230001 76", 8, 6),
    ("reading 4: one byte after the 17", "010005 110001 61 ff", 3, 7),
    ("reading 4: two bytes after the 17", "010006 110001 61 1100", 3, 7),
    ("reading 4: a second 17", "010007 110001 61 110000", 4, 7),
    ("reading 4: a 16 after the 17", "010007 110001 61 100000", 4, 7),
    ("reading 4: three bytes after the 17", "010007 110001 61 ffffff", 4, 7),
    ("reading 5: the innermost value encloses", "010004 110002 6162", 3, 3),
    ("reading 7: a 33 before a 32", "010010 10000d 210004 3f000000 200003 cc5544", 4, 13),
    ("reading 7: the range of 33 before the missing colour", "01000d 100007 210004 80000000 110000", 8, 6),
    ("reading 7: the range of 35 before the missing colour", "010011 10000b 210004 3f000000 230001 7f 110000", 8, 13),
    ("opacity without colour", "01000d 100007 210004 3f000000 110000", 8, 3),
    ("both 36 and 37", "01000c 100006 240000 250000 110000", 8, 3),
    ("reading 8: opacity -0", "010013 10000d 200003 000000 210004 80000000 110000", 8, 12),
    ("reading 8: opacity NaN", "010013 10000d 200003 000000 210004 7fc00000 110000", 8, 12),
    ("reading 8: opacity infinite", "010013 10000d 200003 000000 210004 7f800000 110000", 8, 12),
    ("reading 8: opacity subnormal", "010013 10000d 200003 000000 210004 00000001 110000", 8, 12),
    ("reading 8: opacity just under 1/1024", "010013 10000d 200003 000000 210004 3a7fffff 110000", 8, 12),
    ("reading 8: opacity just over 1", "010013 10000d 200003 000000 210004 3f800001 110000", 8, 12),
    ("a repeated style", "01000c 100006 240000 240000 110000", 4, 9),
    ("a falling style", "01000c 100006 250000 240000 110000", 4, 9),
    ("a fixed length", "050001 00", 5, 0),
    ("a fixed length that runs over is cut", "050001", 3, 0),
    ("a wrong tag comes before its length", "09ffff", 4, 0),
    ("a fragment at the root", "080000", 4, 0),
    ("a node in a block", "030003 050000", 4, 3),
    ("surrogate", "010006 110003 eda080", 7, 3),
    ("not UTF-8 in a conditional text", "070001 80", 7, 0),
    ("a quote in an anchor", "020004 120001 22", 9, 3),
    ("the front answers: not UTF-8, then a cut field", "010004 110001 80 01", 7, 3),
    ("the length answers before the content", "01000a 110001 80", 3, 0),
    ("not UTF-8 before what follows the 17", "010007 110001 80 110000", 7, 3),
    ("a size out of range before a falling tag", "01000e 100008 230001 76 220001 00 110000", 8, 6),
    ("a falling tag before the missing colour", "010014 10000e 210004 3f000000 220001 00 220000 110000", 4, 17),
    ("a fixed length before the range", "01000b 100005 230002 7f7f 110000", 5, 6),
    ("a cut fragment", "030003 080001", 3, 3),
    ("UTF-8 before the quote", "020005 130002 2280", 7, 3),
    ("E2: a 39 with a value", "01000a 100004 270001 00 110000", 5, 6),
    ("E2: a 39 whose value runs over", "010009 100003 270001 110000", 3, 6),
    ("E2: a repeated 39", "01000c 100006 270000 270000 110000", 4, 9),
    ("E2: a 38 behind a 39", "01000c 100006 270000 260000 110000", 4, 9),
    ("E2: a 32 behind a 39", "01000f 100009 270000 200003 cc5544 110000", 4, 9),
    ("E2: a tag 40", "010009 100003 280000 110000", 4, 6),
    ("E2: a tag 40 behind a 39", "01000c 100006 270000 280000 110000", 4, 9),
    ("E2: a 39 at the root", "270000", 4, 0),
    ("E2: a 39 where the 17 should stand", "010003 270000", 4, 3),
    ("E2: a 39 behind the 17", "010006 110000 270000", 4, 6),
    ("E2: a 39 with a value before the missing colour", "010011 10000b 210004 3f000000 270001 00 110000", 5, 13),
    ("E2: opacity without colour, underlined", "010010 10000a 210004 3f000000 270000 110000", 8, 3),
    ("E2: both scripts, underlined", "01000f 100009 240000 250000 270000 110000", 8, 3),
];

/// The opening of a body.
pub const PRE: &str = "<pre class=\"spirt-90c2056d-5b38-4644-824a-b4be1c82f14d\">\n";

/// The document of the empty file.
pub const DOCUMENT: &str = r#"<!doctype html>
<html>
<head>
<meta charset="utf-8">

<style>
    pre.spirt-90c2056d-5b38-4644-824a-b4be1c82f14d {
        /* HACK(eddyb) reset default margin to something reasonable. */
        margin: 1ch;

        /* HACK(eddyb) avoid unnecessarily small or thin text. */
        font-size: 17px;
        font-weight: 500;
    }
    pre.spirt-90c2056d-5b38-4644-824a-b4be1c82f14d a {
        color: unset;
        font-weight: 900;
    }
    pre.spirt-90c2056d-5b38-4644-824a-b4be1c82f14d a:not(:hover) {
        text-decoration: unset;
    }
    pre.spirt-90c2056d-5b38-4644-824a-b4be1c82f14d sub, pre.spirt-90c2056d-5b38-4644-824a-b4be1c82f14d sup {
        line-height: 0;
    }

    /* HACK(eddyb) using a class (instead of an inline style) so that hovering
       over a multiversion table cell can disable its desaturation/dimming */
    pre.spirt-90c2056d-5b38-4644-824a-b4be1c82f14d:not(:hover) .unchanged {
        filter: saturate(0.3) opacity(0.5);
    }
</style>

</head>
<body><pre class="spirt-90c2056d-5b38-4644-824a-b4be1c82f14d">
</pre></body>
</html>
"#;
