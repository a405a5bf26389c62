# refused 8 at 3: subscript and superscript in one style.
text {sub sup} "a"
