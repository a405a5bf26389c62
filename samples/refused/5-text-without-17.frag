# refused 5 at 3: the Text has its styles and ends without text bytes; the place is the Text's.
space
field 1 ( field 16 ( field 38 "" ) )
