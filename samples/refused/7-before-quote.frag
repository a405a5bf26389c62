# refused 7 at 3: both a quote and a cut character; UTF-8 comes first.
anchor use "\"\xc3" ()
