# An instruction after a pass that changed one of its operands: the new operand, a link like the one
# before it, is underlined, its subscript too, and what stayed as it was is dim. An underline has no
# width: as without it the instruction fits in 17 columns, and is broken at 16.

anchor def "v20" (text {colour=#334155 dim} "v" text {colour=#334155 sub dim} "20") text {dim} " = "
text {colour=#0369a1 dim} "mul" text {dim} "("
inline-or-indented {
  [
    anchor use "v18" (text {colour=#334155 dim} "v" text {colour=#334155 sub dim} "18")
    text {dim} "," space
  ]
  [
    anchor use "v7" (text {colour=#334155 underline} "v" text {colour=#334155 sub underline} "7")
    if-block ","
  ]
}
text {dim} ")"
