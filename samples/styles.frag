# Every style field alone, then in the combinations that a page writes differently. Each line says
# in plain text what the styled text beside it is, so that a browser's picture can be judged.

# No style, and a style of nothing: the second pushes a tag, though it looks the same.
text "no style: " text "plain & simple, 1 < 2 > 0" force-line
text "empty style: " text {} "plain & simple, 1 < 2 > 0" force-line

# Colour, and colour with opacity. Opacity is printed with the fewest places that read back.
text "colour red: " text {colour=#cc2222} "a < b && c" force-line
text "colour black: " text {colour=#000000} "0x00" force-line
text "colour white on white: " text {colour=#ffffff} "you should not see this" force-line
text "opacity 1: " text {colour=#2255cc opacity=1} "solid" force-line
text "opacity 0.5: " text {colour=#2255cc opacity=0.5} "half" force-line
text "opacity 0: " text {colour=#2255cc opacity=0} "you should not see this" force-line
text "opacity 129/512: " text {colour=#2255cc opacity=0.251953125} "a quarter and a little" force-line
text "opacity 1/1024: " text {colour=#2255cc opacity=bits:3a800000} "as good as nothing" force-line

# Thickness: the weight is 500 plus 100 times it. A browser takes 1 to 1000; the rest it ignores.
text "thickness -5, weight 0: " text {thickness=-5} "ignored" force-line
text "thickness -4, weight 100: " text {thickness=-4} "thinnest" force-line
text "thickness 0, weight 500: " text {thickness=0} "medium" force-line
text "thickness 4, weight 900: " text {thickness=4} "heavy" force-line
text "thickness -128, weight -12300: " text {thickness=-128} "ignored" force-line
text "thickness 127, weight 13200: " text {thickness=127} "ignored" force-line

# Size: tenths of an em, added to one. Alone it also sets the middle alignment.
text "size -10, nothing: " text {size=-10} "you should not see this" force-line
text "size -9: " text {size=-9} "a tenth" force-line
text "size -5: " text {size=-5} "half" force-line
text "size 0: " text {size=0} "as it was, but in the middle" force-line
text "size 7: " text {size=7} "1.7 em" force-line
text "size 117, the largest: " text {size=117} "!" force-line
text "size -128, below nothing: " text {size=-128} "ignored" force-line

# Scripts are two tenths smaller unless a size says otherwise, and are not set in the middle.
text "subscript: " text "x" text {sub} "i&j" force-line
text "superscript: " text "2" text {sup} "n<m" force-line
text "subscript of size 5: " text "x" text {size=5 sub} "large" force-line
text "superscript of size -5: " text "x" text {size=-5 sup} "small" force-line
text "dim: " text {dim} "half seen" force-line

# An underline changes neither the size nor where the text stands.
text "underline: " text {underline} "a < b && c" force-line
text "underlined subscript: " text "x" text {sub underline} "i&j" force-line
text "underlined superscript: " text "2" text {sup underline} "n<m" force-line
text "underline of size -3, in the middle: " text {size=-3 underline} "smaller" force-line
text "underline and dim: " text {dim underline} "half seen" force-line

# Combinations.
text "colour and dim: " text {colour=#118844 dim} "// a note" force-line
text "colour, thickness: " text {colour=#118844 thickness=3} "keyword" force-line
text "colour, opacity, size: " text {colour=#118844 opacity=0.75 size=-3} "attribute" force-line
text "thickness, subscript, dim: " text "v" text {thickness=2 sub dim} "12" force-line
text "all that go together: "
text {colour=#aa5500 opacity=0.9 thickness=4 size=2 sup dim} "&<>\"'" force-line
text "the same, underlined: "
text {colour=#aa5500 opacity=0.9 thickness=4 size=2 sup dim underline} "&<>\"'" force-line

# Styles on the runs of anchors, and over the ends of lines.
text "definition: " anchor def "v<1>&co" (text {colour=#334155} "v" text {colour=#334155 sub} "1") force-line
text "use: " anchor use "v<1>&co" (text {colour=#334155} "v" text {colour=#334155 sub} "1") force-line
text "underlined use: "
anchor use "v<1>&co" (text {colour=#334155 underline} "v" text {colour=#334155 sub} "1") force-line
text "over two lines: " text {colour=#cc2222 dim} "first & line\nsecond < line" force-line
text "underlined over two lines: " text {underline} "first & line\nsecond < line" force-line
text "not ASCII: " text {thickness=2} "größer ≤ 3 µm, 光" force-line
text "empty, but styled: " text {colour=#cc2222} "" text "|"
