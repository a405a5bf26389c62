# refused 3 at 3: the 17 says two bytes, its Text encloses one; that the file goes on does not help.
raw 01 0004 11 0002 61
raw 62
