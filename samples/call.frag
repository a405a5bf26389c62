# Document 01's example: `f(a, b)` at width 7; at width 6 the block breaks and the last comma shows.
text "f("
inline-or-indented {
  [ text "a" text "," space ]
  [ text "b" if-block "," ]
}
text ")"
