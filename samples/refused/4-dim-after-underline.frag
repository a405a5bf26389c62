# refused 4 at 9: a dim (38) after an underline (39); style fields rise.
text { field 39 "" field 38 "" } "a"
