# refused 6 at 192: the 33rd block in one another.
indented { [ indented { [ indented { [ indented { [ indented { [ indented { [ indented { [
indented { [ indented { [ indented { [ indented { [ indented { [ indented { [ indented { [
indented { [ indented { [ indented { [ indented { [ indented { [ indented { [ indented { [
indented { [ indented { [ indented { [ indented { [ indented { [ indented { [ indented { [
indented { [ indented { [ indented { [ indented { [
  inline-or-indented {}
] } ] } ] } ] }
] } ] } ] } ] } ] } ] } ] }
] } ] } ] } ] } ] } ] } ] }
] } ] } ] } ] } ] } ] } ] }
] } ] } ] } ] } ] } ] } ] }
