# Texts that a browser would read as something else if they were not escaped, and links of every kind.

# The page begins with an empty line: a browser drops a newline that begins a pre, but only one.
text "\nafter an empty line" force-line

# What HTML is written with, plain and styled.
text "characters: " text {colour=#1d4ed8} "& < > \" ' &" force-line
text "already escaped: &amp; &lt; &#60; &copy &amp;amp;" force-line
text "ends: " text {sub} "</sub></span></a></pre></body></html>" force-line
text "starts: <!-- <b <script>alert(1)</script> <![CDATA[ <?xml <!doctype html>" text {dim} "<br>" text " --> ]]>" force-line
text "apart: <" text {thickness=2} "b>" text "&" text {} "amp;" force-line

# Letters of two, three and four bytes, and the space that is written out by its name.
text "not ASCII: größer, Ωμέγα, ≤ 3 µm, 光, 𝄞" text {size=-2} "\u{a0}×\u{a0}" force-line

# Tags that stay open over the ends of lines; tabs; spaces at the ends.
text {colour=#15803d dim} "first  \n\n\tthird <\n" text "fourth" force-line

# Definitions and uses: before the definition, after it, of what nothing defines; names with what HTML is written with.
text "before: " anchor use "größe<1>&2" (text "g" text {sub} "1") force-line
text "definition: " anchor def "größe<1>&2" (text {colour=#b45309} "g" text {colour=#b45309 sub} "1") force-line
text "after: " anchor use "größe<1>&2" (text {} "g" text {sub} "1") force-line
text "underlined: " anchor use "größe<1>&2" (text {underline} "g" text {sub underline} "1" text "</a>") force-line
text "to nowhere: " anchor use "nowhere" (text "&n") force-line

# Anchors without texts: on a line, and, where the list does not fit, before the spaces of an indented line.
text "empty: " anchor def "here" () text "<" anchor use "here" () text ">" force-line
text "list<"
inline-or-indented {
  [ anchor def "item" () text "one & one," space ]
  [ anchor use "item" (text "<two>") if-block ", & so on" ]
}
text ">\n"
