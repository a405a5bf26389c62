# refused 5 at 6: an Anchor with no value at all.
indented { [ field 2 "" ] }
