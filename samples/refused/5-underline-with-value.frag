# refused 5 at 6: an underline has length 0.
text { field 39 "\x01" } "a"
