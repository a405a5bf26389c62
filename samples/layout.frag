# Small cases where the width decides, or where it must not. Each is a line `--- what to see`,
# then the case. Try the widths 80, 30, 20, 12, 10, 6, 3 and 0.

text "--- inner list first, then both" force-line
text "f("
inline-or-indented {
  [
    text "g("
    inline-or-indented {
      [ text "alpha," space ]
      [ text "beta" if-block "," ]
    }
    text ")," space
  ]
  [ text "gamma" if-block "," ]
}
text ")" force-line

text "--- two side by side: at 20 the second breaks, at 12 the first" force-line
text "p("
inline-or-indented { [ text "one," space ] [ text "two" if-block "," ] }
text ") q("
inline-or-indented { [ text "three," space ] [ text "four" if-block "," ] }
text ")" force-line

text "--- a list before a block that always breaks: only its own line counts" force-line
text "if ("
inline-or-indented { [ text "cond" if-block "," ] }
text ") {"
indented {
  [ text "run("
    inline-or-indented { [ text "x," space ] [ text "y" if-block "," ] }
    text ");" ]
  [ indented { [ text "deeper;" ] } ]
}
text "}" force-line

text "--- a forced line within a list breaks it at every width" force-line
text "["
inline-or-indented { [ text "a," force-line text "b," space ] [ text "c" if-block "," ] }
text "]" force-line

text "--- a newline within a text breaks it too" force-line
text "x" inline-or-indented { [ text "a\nb" ] } force-line

text "--- a conditional text with a newline has no width" force-line
text "(" inline-or-indented { [ text "k" if-block ",\n// end" ] } text ")" force-line

text "--- subscripts are narrower: three of them take 2.4 columns" force-line
inline-or-indented { [ text {sub} "abc" ] } force-line

text "--- width counts bytes: each of these letters is two" force-line
inline-or-indented { [ text "äöü" ] } force-line

text "--- a waiting space goes when a new line comes, but a style writes it first" force-line
text "a" space text "\nb" force-line
text "a" space text {} "\nb" force-line

text "--- an empty anchor goes before the spaces of the indent" force-line
indented { [ anchor def "top" () text "x" ] [ anchor use "top" () ] [] }
anchor def "outside" () anchor use "run-less" () force-line

text "--- empty things: nothing, a list of nothing, blocks of nothing" force-line
text "" inline-or-indented {} indented {} inline-or-indented { [] [] } indented { [] }
indented { [ text {} "" ] } text "after" force-line

text "--- a break that is ignored leaves the one that waits" force-line
indented { [ text {} "" ] } space indented { [ text "x" ] }
