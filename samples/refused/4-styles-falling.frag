# refused 4 at 10: size before thickness; style fields rise.
text { field 35 "\x01" field 34 "\x01" } "a"
