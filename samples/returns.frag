# Texts with carriage returns: alone, before and behind a newline, doubled, at a text's start and end,
# and beside an ampersand. A browser reads each as a newline, unless the HTML is strict.

text "\rstarts\r" text "\r\rdoubled\r\r" force-line
text "alone\rbefore\r\nbehind\n\rlast\r\r\n"
text {colour=#1d4ed8} "ampersands &\r&\r\n&#13;\r&amp;" text {sub} "\r" force-line
anchor def "v1" (text "\rv" text {sub} "1\r\n") text "= " anchor use "v1" (text "v\r" text {dim} "\r&")
force-line
text "list("
inline-or-indented {
  [ text "one\r," space ]
  [ anchor use "v1" (text "\r&two\r") if-block "\r, & so on\r" ]
}
text ")\r"
