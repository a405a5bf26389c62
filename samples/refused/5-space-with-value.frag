# refused 5 at 6: a BreakingOnlySpace has length 0. The empty text before it takes six bytes.
text ""
field 5 " "
