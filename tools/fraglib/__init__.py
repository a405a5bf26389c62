"""What `tools/frag` is made of: the format's tables, the check, the dump, the notation, hex."""
