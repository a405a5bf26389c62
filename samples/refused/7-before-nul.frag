# refused 7 at 3: both a NUL and a cut character; UTF-8 comes first.
text "\0\xc3"
