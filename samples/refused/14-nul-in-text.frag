# refused 14 at 10: strict HTML alone refuses a text with a NUL, which a browser would drop.
anchor def "\0" ( text "x\0" )
