# refused 8 at 6: the place is that of the size, which answers before the two scripts.
text {size=118 sub sup} "a"
