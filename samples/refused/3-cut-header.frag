# refused 3 at 7: after a sound text two bytes are left, and a field needs three.
text "a"
raw 01 00
