# refused 4 at 7: a Fragment stands only in a block.
text "a"
field 8 ( text "b" )
