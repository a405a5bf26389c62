# refused 7 at 3: a surrogate, U+D800, as three bytes is not UTF-8.
text "\xed\xa0\x80"
