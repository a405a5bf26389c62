# refused 4 at 0: tag 99 answers before its length, which passes the end of the file.
raw 63 ffff
