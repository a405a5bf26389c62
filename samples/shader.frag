# A shader module as a lister would print it: ids with subscripts that are anchors, coloured
# keywords, dim notes, and lists that stay on the line while they fit. Invented for this sample.
# Printed at width 80 and at width 40 it looks quite different.

# What the listing is, in two small dim lines; a superscript on the way.
text {size=-1 dim} "// ember_fog.frag: fog that glows where embers drift through it" force-line
text {size=-1 dim} "// light budget: 10" text {sup dim} "2"
text {size=-1 dim} " lights at most; measured on the harbour level" text "\n\n"

# The module: one block that always breaks, lists in it that may.
text {colour=#7c3aed thickness=1} "module" text " {"
indented {
  [
    text "dialect = " text {colour=#0369a1} "spv" text "("
    inline-or-indented {
      [ text "version: " text {colour=#b45309} "1.4" text "," space ]
      [
        text "capabilities: ["
        inline-or-indented {
          [ text "Shader," space ]
          [ text "ImageQuery," space ]
          [ text "Float16" if-block "," ]
        }
        text "]," space
      ]
      [ text "addressing: Logical" if-block "," ]
    }
    text "),"
  ]
  [
    text "entry = " text {colour=#0369a1} "fragment" text "("
    inline-or-indented {
      [ text {colour=#15803d} "\"ember_fog\"" text "," space ]
      [
        anchor use "F2" (
          text {colour=#1d4ed8 thickness=2} "F" text {colour=#1d4ed8 thickness=2 sub} "2"
        )
        text "," space
      ]
      [ anchor use "G0" (text {colour=#b91c1c} "G" text {colour=#b91c1c sub} "0") text "," space ]
      [ anchor use "G1" (text {colour=#b91c1c} "G" text {colour=#b91c1c sub} "1") text "," space ]
      [ anchor use "G2" (text {colour=#b91c1c} "G" text {colour=#b91c1c sub} "2") text "," space ]
      [ anchor use "G3" (text {colour=#b91c1c} "G" text {colour=#b91c1c sub} "3") if-block "," ]
    }
    text "),"
  ]
  [ text "origin = upper_left" if-block "," ]
}
text "}\n\n"

# Types. Each definition is an anchor that uses point at.
text {colour=#7c3aed thickness=1} "type" text " "
anchor def "T0" (text {colour=#0f766e} "T" text {colour=#0f766e sub} "0") text " = f32" force-line
text {colour=#7c3aed thickness=1} "type" text " "
anchor def "T1" (text {colour=#0f766e} "T" text {colour=#0f766e sub} "1") text " = "
text {colour=#0369a1} "vec" text "("
inline-or-indented {
  [ anchor use "T0" (text {colour=#0f766e} "T" text {colour=#0f766e sub} "0") text "," space ]
  [ text {colour=#b45309} "3" if-block "," ]
}
text ")" force-line
text {colour=#7c3aed thickness=1} "type" text " "
anchor def "T2" (text {colour=#0f766e} "T" text {colour=#0f766e sub} "2") text " = "
text {colour=#0369a1} "vec" text "("
inline-or-indented {
  [ anchor use "T0" (text {colour=#0f766e} "T" text {colour=#0f766e sub} "0") text "," space ]
  [ text {colour=#b45309} "4" if-block "," ]
}
text ")" force-line
text {colour=#7c3aed thickness=1} "type" text " "
anchor def "T3" (text {colour=#0f766e} "T" text {colour=#0f766e sub} "3") text " = bool" force-line
text {colour=#7c3aed thickness=1} "type" text " "
anchor def "T4" (text {colour=#0f766e} "T" text {colour=#0f766e sub} "4") text " = "
text {colour=#0369a1} "sampled_image" text "("
inline-or-indented {
  [
    text {colour=#0369a1} "image" text "("
    inline-or-indented {
      [ anchor use "T0" (text {colour=#0f766e} "T" text {colour=#0f766e sub} "0") text "," space ]
      [ text "dim2," space ]
      [ text "mips" if-block "," ]
    }
    text ")," space
  ]
  [ text "linear" if-block "," ]
}
text ")" force-line
text {colour=#7c3aed thickness=1} "type" text " "
anchor def "T5" (text {colour=#0f766e} "T" text {colour=#0f766e sub} "5") text " = "
text {colour=#7c3aed thickness=1} "struct" text " EmberFogSettings {"
inline-or-indented {
  [
    space text "density: " anchor use "T0" (text {colour=#0f766e} "T" text {colour=#0f766e sub} "0")
    text "," space
  ]
  [
    text "height_start: " anchor use "T0" (text {colour=#0f766e} "T" text {colour=#0f766e sub} "0")
    text "," space
  ]
  [
    text "height_end: " anchor use "T0" (text {colour=#0f766e} "T" text {colour=#0f766e sub} "0")
    text "," space
  ]
  [
    text "tint: " anchor use "T1" (text {colour=#0f766e} "T" text {colour=#0f766e sub} "1") text ","
    space
  ]
  [
    text "ember_tint: " anchor use "T1" (text {colour=#0f766e} "T" text {colour=#0f766e sub} "1")
    text "," space
  ]
  [
    text "wind: " anchor use "T1" (text {colour=#0f766e} "T" text {colour=#0f766e sub} "1") text ","
    space
  ]
  [
    text "time_of_day: " anchor use "T0" (text {colour=#0f766e} "T" text {colour=#0f766e sub} "0")
    if-block "," space
  ]
}
text "}" force-line
text {colour=#7c3aed thickness=1} "type" text " "
anchor def "T6" (text {colour=#0f766e} "T" text {colour=#0f766e sub} "6") text " = "
text {colour=#0369a1} "ptr" text "("
inline-or-indented {
  [ text "Uniform," space ]
  [ anchor use "T5" (text {colour=#0f766e} "T" text {colour=#0f766e sub} "5") if-block "," ]
}
text ")" force-line
text {colour=#7c3aed thickness=1} "type" text " "
anchor def "T7" (text {colour=#0f766e} "T" text {colour=#0f766e sub} "7") text " = "
text {colour=#7c3aed thickness=1} "struct" text " EmberSpark {"
inline-or-indented {
  [
    space text "heat: " anchor use "T0" (text {colour=#0f766e} "T" text {colour=#0f766e sub} "0")
    text "," space
  ]
  [
    text "age: " anchor use "T0" (text {colour=#0f766e} "T" text {colour=#0f766e sub} "0") text ","
    space
  ]
  [
    text "drift: " anchor use "T1" (text {colour=#0f766e} "T" text {colour=#0f766e sub} "1")
    if-block "," space
  ]
}
text "}\n\n"

# Constants; the last is too long for 80 columns.
text {colour=#7c3aed thickness=1} "const" text " "
anchor def "C0" (text {colour=#b45309} "C" text {colour=#b45309 sub} "0") text ": "
anchor use "T0" (text {colour=#0f766e} "T" text {colour=#0f766e sub} "0") text " = "
text {colour=#b45309} "0" force-line
text {colour=#7c3aed thickness=1} "const" text " "
anchor def "C1" (text {colour=#b45309} "C" text {colour=#b45309 sub} "1") text ": "
anchor use "T0" (text {colour=#0f766e} "T" text {colour=#0f766e sub} "0") text " = "
text {colour=#b45309} "1" force-line
text {colour=#7c3aed thickness=1} "const" text " "
anchor def "C2" (text {colour=#b45309} "C" text {colour=#b45309 sub} "2") text ": "
anchor use "T0" (text {colour=#0f766e} "T" text {colour=#0f766e sub} "0") text " = "
text {colour=#b45309} "0.0078125" text {size=-1 dim} " // 2" text {sup dim} "-7" force-line
text {colour=#7c3aed thickness=1} "const" text " "
anchor def "C3" (text {colour=#b45309} "C" text {colour=#b45309 sub} "3") text ": "
anchor use "T1" (text {colour=#0f766e} "T" text {colour=#0f766e sub} "1") text " = "
text {colour=#0369a1} "vec" text "("
inline-or-indented {
  [ anchor use "C0" (text {colour=#b45309} "C" text {colour=#b45309 sub} "0") text "," space ]
  [ anchor use "C1" (text {colour=#b45309} "C" text {colour=#b45309 sub} "1") text "," space ]
  [ anchor use "C0" (text {colour=#b45309} "C" text {colour=#b45309 sub} "0") if-block "," ]
}
text ")" force-line
text {colour=#7c3aed thickness=1} "const" text " "
anchor def "C4" (text {colour=#b45309} "C" text {colour=#b45309 sub} "4") text ": "
anchor use "T2" (text {colour=#0f766e} "T" text {colour=#0f766e sub} "2") text " = "
text {colour=#0369a1} "select" text "("
inline-or-indented {
  [
    text {colour=#0369a1} "less" text "("
    inline-or-indented {
      [
        text {colour=#0369a1} "length" text "("
        inline-or-indented {
          [ anchor use "C3" (text {colour=#b45309} "C" text {colour=#b45309 sub} "3") if-block "," ]
        }
        text ")," space
      ]
      [ anchor use "C2" (text {colour=#b45309} "C" text {colour=#b45309 sub} "2") if-block "," ]
    }
    text ")," space
  ]
  [
    text {colour=#0369a1} "vec" text "("
    inline-or-indented {
      [ anchor use "C0" (text {colour=#b45309} "C" text {colour=#b45309 sub} "0") text "," space ]
      [ anchor use "C0" (text {colour=#b45309} "C" text {colour=#b45309 sub} "0") text "," space ]
      [ anchor use "C0" (text {colour=#b45309} "C" text {colour=#b45309 sub} "0") text "," space ]
      [ anchor use "C1" (text {colour=#b45309} "C" text {colour=#b45309 sub} "1") if-block "," ]
    }
    text ")," space
  ]
  [
    text {colour=#0369a1} "vec" text "("
    inline-or-indented {
      [ anchor use "C1" (text {colour=#b45309} "C" text {colour=#b45309 sub} "1") text "," space ]
      [ anchor use "C1" (text {colour=#b45309} "C" text {colour=#b45309 sub} "1") text "," space ]
      [ anchor use "C1" (text {colour=#b45309} "C" text {colour=#b45309 sub} "1") text "," space ]
      [ anchor use "C1" (text {colour=#b45309} "C" text {colour=#b45309 sub} "1") if-block "," ]
    }
    text ")" if-block ","
  ]
}
text ")\n\n"

# Interface variables, each under a line of attributes in a see-through grey.
text {colour=#64748b opacity=0.75} "#["
inline-or-indented {
  [ text {colour=#64748b opacity=0.75} "location = 0" text "," space ]
  [ text {colour=#64748b opacity=0.75} "smooth" if-block "," ]
}
text "]" force-line
text {colour=#7c3aed thickness=1} "global" text " "
anchor def "G0" (text {colour=#b91c1c} "G" text {colour=#b91c1c sub} "0") text " "
text {colour=#7c3aed thickness=1} "in" text " Input: "
anchor use "T1" (text {colour=#0f766e} "T" text {colour=#0f766e sub} "1")
text {size=-1 dim} " // world position" force-line
text {colour=#64748b opacity=0.75} "#["
inline-or-indented {
  [ text {colour=#64748b opacity=0.75} "location = 0" text "," space ]
  [ text {colour=#64748b opacity=0.75} "blend = premultiplied" text "," space ]
  [ text {colour=#64748b opacity=0.75} "precision = relaxed" text "," space ]
  [ text {colour=#64748b opacity=0.75} "debug_name = \"out_colour\"" if-block "," ]
}
text "]" force-line
text {colour=#7c3aed thickness=1} "global" text " "
anchor def "G1" (text {colour=#b91c1c} "G" text {colour=#b91c1c sub} "1") text " "
text {colour=#7c3aed thickness=1} "in" text " Output: "
anchor use "T2" (text {colour=#0f766e} "T" text {colour=#0f766e sub} "2") force-line
text {colour=#64748b opacity=0.75} "#["
inline-or-indented {
  [ text {colour=#64748b opacity=0.75} "set = 1" text "," space ]
  [ text {colour=#64748b opacity=0.75} "binding = 0" if-block "," ]
}
text "]" force-line
text {colour=#7c3aed thickness=1} "global" text " "
anchor def "G2" (text {colour=#b91c1c} "G" text {colour=#b91c1c sub} "2") text " "
text {colour=#7c3aed thickness=1} "in" text " Uniform: "
anchor use "T6" (text {colour=#0f766e} "T" text {colour=#0f766e sub} "6") force-line
text {colour=#64748b opacity=0.75} "#["
inline-or-indented {
  [ text {colour=#64748b opacity=0.75} "set = 1" text "," space ]
  [ text {colour=#64748b opacity=0.75} "binding = 3" if-block "," ]
}
text "]" force-line
text {colour=#7c3aed thickness=1} "global" text " "
anchor def "G3" (text {colour=#b91c1c} "G" text {colour=#b91c1c sub} "3") text " "
text {colour=#7c3aed thickness=1} "in" text " UniformConstant: "
anchor use "T4" (text {colour=#0f766e} "T" text {colour=#0f766e sub} "4")
text {size=-1 dim} " // ember noise, tiled" text "\n\n"

# A short function: fits a line at 80, breaks at 40.
text {colour=#7c3aed thickness=1} "func" text " "
anchor def "F0" (text {colour=#1d4ed8 thickness=2} "F" text {colour=#1d4ed8 thickness=2 sub} "0")
text " " text {thickness=3} "height_falloff" text "("
inline-or-indented {
  [
    anchor def "v0" (text {colour=#334155} "v" text {colour=#334155 sub} "0") text ": "
    anchor use "T0" (text {colour=#0f766e} "T" text {colour=#0f766e sub} "0") text "," space
  ]
  [
    anchor def "v1" (text {colour=#334155} "v" text {colour=#334155 sub} "1") text ": "
    anchor use "T0" (text {colour=#0f766e} "T" text {colour=#0f766e sub} "0") text "," space
  ]
  [
    anchor def "v2" (text {colour=#334155} "v" text {colour=#334155 sub} "2") text ": "
    anchor use "T0" (text {colour=#0f766e} "T" text {colour=#0f766e sub} "0") if-block ","
  ]
}
text ") -> " anchor use "T0" (text {colour=#0f766e} "T" text {colour=#0f766e sub} "0") text " {"
indented {
  [
    anchor def "v3" (text {colour=#334155} "v" text {colour=#334155 sub} "3") text " = "
    text {colour=#0369a1} "div" text "("
    inline-or-indented {
      [
        text {colour=#0369a1} "sub" text "("
        inline-or-indented {
          [
            anchor use "v0" (text {colour=#334155} "v" text {colour=#334155 sub} "0") text "," space
          ]
          [ anchor use "v1" (text {colour=#334155} "v" text {colour=#334155 sub} "1") if-block "," ]
        }
        text ")," space
      ]
      [
        text {colour=#0369a1} "sub" text "("
        inline-or-indented {
          [
            anchor use "v2" (text {colour=#334155} "v" text {colour=#334155 sub} "2") text "," space
          ]
          [ anchor use "v1" (text {colour=#334155} "v" text {colour=#334155 sub} "1") if-block "," ]
        }
        text ")" if-block ","
      ]
    }
    text "): " anchor use "T0" (text {colour=#0f766e} "T" text {colour=#0f766e sub} "0")
  ]
  [
    anchor def "v4" (text {colour=#334155} "v" text {colour=#334155 sub} "4") text " = "
    text {colour=#0369a1} "clamp" text "("
    inline-or-indented {
      [ anchor use "v3" (text {colour=#334155} "v" text {colour=#334155 sub} "3") text "," space ]
      [ anchor use "C0" (text {colour=#b45309} "C" text {colour=#b45309 sub} "0") text "," space ]
      [ anchor use "C1" (text {colour=#b45309} "C" text {colour=#b45309 sub} "1") if-block "," ]
    }
    text "): " anchor use "T0" (text {colour=#0f766e} "T" text {colour=#0f766e sub} "0")
  ]
  [
    text {colour=#7c3aed thickness=1} "return" text " " text {colour=#0369a1} "mul" text "("
    inline-or-indented {
      [ anchor use "v4" (text {colour=#334155} "v" text {colour=#334155 sub} "4") text "," space ]
      [
        text {colour=#0369a1} "mul" text "("
        inline-or-indented {
          [
            anchor use "v4" (text {colour=#334155} "v" text {colour=#334155 sub} "4") text "," space
          ]
          [
            text {colour=#0369a1} "sub" text "("
            inline-or-indented {
              [
                text {colour=#0369a1} "float" text "("
                inline-or-indented { [ text {colour=#b45309} "3" if-block "," ] } text ")," space
              ]
              [
                text {colour=#0369a1} "mul" text "("
                inline-or-indented {
                  [
                    text {colour=#0369a1} "float" text "("
                    inline-or-indented { [ text {colour=#b45309} "2" if-block "," ] } text "),"
                    space
                  ]
                  [
                    anchor use "v4" (text {colour=#334155} "v" text {colour=#334155 sub} "4")
                    if-block ","
                  ]
                }
                text ")" if-block ","
              ]
            }
            text ")" if-block ","
          ]
        }
        text ")" if-block ","
      ]
    }
    text ")"
  ]
}
text "}\n\n"

# Nested blocks: a loop with a condition in it, and a block comment of three lines.
text {colour=#7c3aed thickness=1} "func" text " "
anchor def "F1" (text {colour=#1d4ed8 thickness=2} "F" text {colour=#1d4ed8 thickness=2 sub} "1")
text " " text {thickness=3} "gather_embers" text "("
inline-or-indented {
  [
    anchor def "v5" (text {colour=#334155} "v" text {colour=#334155 sub} "5") text ": "
    anchor use "T1" (text {colour=#0f766e} "T" text {colour=#0f766e sub} "1") text "," space
  ]
  [
    anchor def "v6" (text {colour=#334155} "v" text {colour=#334155 sub} "6") text ": "
    anchor use "T1" (text {colour=#0f766e} "T" text {colour=#0f766e sub} "1") text "," space
  ]
  [
    anchor def "v7" (text {colour=#334155} "v" text {colour=#334155 sub} "7") text ": "
    anchor use "T0" (text {colour=#0f766e} "T" text {colour=#0f766e sub} "0") text "," space
  ]
  [
    anchor def "v8" (text {colour=#334155} "v" text {colour=#334155 sub} "8") text ": "
    anchor use "T4" (text {colour=#0f766e} "T" text {colour=#0f766e sub} "4") if-block ","
  ]
}
text ") -> " anchor use "T1" (text {colour=#0f766e} "T" text {colour=#0f766e sub} "1") text " {"
indented {
  [
    text {size=-1 dim} "/* Walks along the view ray and sums what\n   the noise says of embers. Eight steps are\n   enough: the fog hides the rest. */"
  ]
  [
    text {colour=#7c3aed thickness=1} "loop" text " "
    anchor def "L0" (
      text {colour=#a16207 opacity=0.9} "L" text {colour=#a16207 opacity=0.9 sub} "0"
    )
    text "("
    inline-or-indented {
      [
        anchor def "v9" (text {colour=#334155} "v" text {colour=#334155 sub} "9") text ": "
        anchor use "T0" (text {colour=#0f766e} "T" text {colour=#0f766e sub} "0") text " <- "
        anchor use "C0" (text {colour=#b45309} "C" text {colour=#b45309 sub} "0") text "," space
      ]
      [
        anchor def "v10" (text {colour=#334155} "v" text {colour=#334155 sub} "10") text ": "
        anchor use "T1" (text {colour=#0f766e} "T" text {colour=#0f766e sub} "1") text " <- "
        anchor use "C3" (text {colour=#b45309} "C" text {colour=#b45309 sub} "3") text "," space
      ]
      [
        anchor def "v11" (text {colour=#334155} "v" text {colour=#334155 sub} "11") text ": "
        anchor use "T1" (text {colour=#0f766e} "T" text {colour=#0f766e sub} "1") text " <- "
        anchor use "v5" (text {colour=#334155} "v" text {colour=#334155 sub} "5") if-block ","
      ]
    }
    text ") {"
    indented {
      [
        anchor def "v12" (text {colour=#334155} "v" text {colour=#334155 sub} "12") text " = "
        text {colour=#0369a1} "sample" text "("
        inline-or-indented {
          [
            anchor use "v8" (text {colour=#334155} "v" text {colour=#334155 sub} "8") text "," space
          ]
          [
            text {colour=#0369a1} "swizzle" text "("
            inline-or-indented {
              [
                anchor use "v11" (text {colour=#334155} "v" text {colour=#334155 sub} "11") text ","
                space
              ]
              [ text "xz" if-block "," ]
            }
            text ")," space
          ]
          [
            text "lod: " text {colour=#0369a1} "log2" text "("
            inline-or-indented {
              [
                text {colour=#0369a1} "add" text "("
                inline-or-indented {
                  [
                    anchor use "v7" (text {colour=#334155} "v" text {colour=#334155 sub} "7")
                    text "," space
                  ]
                  [
                    anchor use "C1" (text {colour=#b45309} "C" text {colour=#b45309 sub} "1")
                    if-block ","
                  ]
                }
                text ")" if-block ","
              ]
            }
            text ")" if-block ","
          ]
        }
        text "): " anchor use "T2" (text {colour=#0f766e} "T" text {colour=#0f766e sub} "2")
      ]
      [
        anchor def "v13" (text {colour=#334155} "v" text {colour=#334155 sub} "13") text " = "
        text {colour=#0369a1} "greater" text "("
        inline-or-indented {
          [
            text {colour=#0369a1} "extract" text "("
            inline-or-indented {
              [
                anchor use "v12" (text {colour=#334155} "v" text {colour=#334155 sub} "12") text ","
                space
              ]
              [ text {colour=#b45309} "3" if-block "," ]
            }
            text ")," space
          ]
          [ anchor use "C2" (text {colour=#b45309} "C" text {colour=#b45309 sub} "2") if-block "," ]
        }
        text "): " anchor use "T3" (text {colour=#0f766e} "T" text {colour=#0f766e sub} "3")
      ]
      [
        anchor def "v14" (text {colour=#334155} "v" text {colour=#334155 sub} "14") text ": "
        anchor use "T1" (text {colour=#0f766e} "T" text {colour=#0f766e sub} "1") text " = "
        text {colour=#7c3aed thickness=1} "if" text " "
        anchor use "v13" (text {colour=#334155} "v" text {colour=#334155 sub} "13") text " {"
        indented {
          [
            anchor def "v15" (text {colour=#334155} "v" text {colour=#334155 sub} "15") text " = "
            anchor use "F0" (
              text {colour=#1d4ed8 thickness=2} "F" text {colour=#1d4ed8 thickness=2 sub} "0"
            )
            text "("
            inline-or-indented {
              [
                text {colour=#0369a1} "extract" text "("
                inline-or-indented {
                  [
                    anchor use "v11" (text {colour=#334155} "v" text {colour=#334155 sub} "11")
                    text "," space
                  ]
                  [ text {colour=#b45309} "1" if-block "," ]
                }
                text ")," space
              ]
              [
                text {colour=#0369a1} "load" text "("
                inline-or-indented {
                  [
                    anchor use "G2" (text {colour=#b91c1c} "G" text {colour=#b91c1c sub} "2")
                    text "," space
                  ]
                  [ text "height_start" if-block "," ]
                }
                text ")," space
              ]
              [
                text {colour=#0369a1} "load" text "("
                inline-or-indented {
                  [
                    anchor use "G2" (text {colour=#b91c1c} "G" text {colour=#b91c1c sub} "2")
                    text "," space
                  ]
                  [ text "height_end" if-block "," ]
                }
                text ")" if-block ","
              ]
            }
            text "): " anchor use "T0" (text {colour=#0f766e} "T" text {colour=#0f766e sub} "0")
          ]
          [
            text {colour=#7c3aed thickness=1} "yield" text " " text {colour=#0369a1} "fma" text "("
            inline-or-indented {
              [
                text {colour=#0369a1} "swizzle" text "("
                inline-or-indented {
                  [
                    anchor use "v12" (text {colour=#334155} "v" text {colour=#334155 sub} "12")
                    text "," space
                  ]
                  [ text "xyz" if-block "," ]
                }
                text ")," space
              ]
              [
                text {colour=#0369a1} "splat" text "("
                inline-or-indented {
                  [
                    anchor use "v15" (text {colour=#334155} "v" text {colour=#334155 sub} "15")
                    if-block ","
                  ]
                }
                text ")," space
              ]
              [
                anchor use "v10" (text {colour=#334155} "v" text {colour=#334155 sub} "10")
                if-block ","
              ]
            }
            text ")"
          ]
        }
        text "} " text {colour=#7c3aed thickness=1} "else" text " {"
        indented {
          [ text {size=-1 dim} "// nothing glows here" ]
          [
            text {colour=#7c3aed thickness=1} "yield" text " "
            anchor use "v10" (text {colour=#334155} "v" text {colour=#334155 sub} "10")
          ]
        }
        text "}"
      ]
      [
        anchor def "v16" (text {colour=#334155} "v" text {colour=#334155 sub} "16") text " = "
        text {colour=#0369a1} "add" text "("
        inline-or-indented {
          [
            anchor use "v9" (text {colour=#334155} "v" text {colour=#334155 sub} "9") text "," space
          ]
          [ anchor use "C1" (text {colour=#b45309} "C" text {colour=#b45309 sub} "1") if-block "," ]
        }
        text "): " anchor use "T0" (text {colour=#0f766e} "T" text {colour=#0f766e sub} "0")
      ]
      [
        text {colour=#7c3aed thickness=1} "continue" text " "
        anchor use "L0" (
          text {colour=#a16207 opacity=0.9} "L" text {colour=#a16207 opacity=0.9 sub} "0"
        )
        text " " text {colour=#7c3aed thickness=1} "while" text " " text {colour=#0369a1} "less"
        text "("
        inline-or-indented {
          [
            anchor use "v16" (text {colour=#334155} "v" text {colour=#334155 sub} "16") text ","
            space
          ]
          [
            text {colour=#0369a1} "float" text "("
            inline-or-indented { [ text {colour=#b45309} "8" if-block "," ] } text ")" if-block ","
          ]
        }
        text ") " text {colour=#7c3aed thickness=1} "with" text " ("
        inline-or-indented {
          [
            anchor use "v16" (text {colour=#334155} "v" text {colour=#334155 sub} "16") text ","
            space
          ]
          [
            anchor use "v14" (text {colour=#334155} "v" text {colour=#334155 sub} "14") text ","
            space
          ]
          [
            text {colour=#0369a1} "add" text "("
            inline-or-indented {
              [
                anchor use "v11" (text {colour=#334155} "v" text {colour=#334155 sub} "11") text ","
                space
              ]
              [
                anchor use "v6" (text {colour=#334155} "v" text {colour=#334155 sub} "6")
                if-block ","
              ]
            }
            text ")" if-block ","
          ]
        }
        text ")"
      ]
    }
    text "}"
  ]
  [
    text {colour=#7c3aed thickness=1} "return" text " "
    anchor use "v14" (text {colour=#334155} "v" text {colour=#334155 sub} "14")
  ]
}
text "}\n\n"

# The entry point.
text {colour=#64748b opacity=0.75} "#["
inline-or-indented {
  [ text {colour=#64748b opacity=0.75} "entry" text "," space ]
  [ text {colour=#64748b opacity=0.75} "early_tests" text "," space ]
  [ text {colour=#64748b opacity=0.75} "derivatives = coarse" if-block "," ]
}
text "]" force-line
text {colour=#7c3aed thickness=1} "func" text " "
anchor def "F2" (text {colour=#1d4ed8 thickness=2} "F" text {colour=#1d4ed8 thickness=2 sub} "2")
text " " text {thickness=3} "ember_fog" text "(" inline-or-indented { } text ") -> () {"
indented {
  [
    anchor def "v17" (text {colour=#334155} "v" text {colour=#334155 sub} "17") text " = "
    text {colour=#0369a1} "load" text "("
    inline-or-indented {
      [ anchor use "G0" (text {colour=#b91c1c} "G" text {colour=#b91c1c sub} "0") if-block "," ]
    }
    text "): " anchor use "T1" (text {colour=#0f766e} "T" text {colour=#0f766e sub} "1")
  ]
  [
    anchor def "v18" (text {colour=#334155} "v" text {colour=#334155 sub} "18") text " = "
    text {colour=#0369a1} "normalize" text "("
    inline-or-indented {
      [
        text {colour=#0369a1} "sub" text "("
        inline-or-indented {
          [
            anchor use "v17" (text {colour=#334155} "v" text {colour=#334155 sub} "17") text ","
            space
          ]
          [
            text {colour=#0369a1} "camera_position" text "(" inline-or-indented { } text ")"
            if-block ","
          ]
        }
        text ")" if-block ","
      ]
    }
    text "): " anchor use "T1" (text {colour=#0f766e} "T" text {colour=#0f766e sub} "1")
  ]
  [
    anchor def "v19" (text {colour=#334155} "v" text {colour=#334155 sub} "19") text " = "
    text {colour=#0369a1} "distance" text "("
    inline-or-indented {
      [ anchor use "v17" (text {colour=#334155} "v" text {colour=#334155 sub} "17") text "," space ]
      [
        text {colour=#0369a1} "camera_position" text "(" inline-or-indented { } text ")"
        if-block ","
      ]
    }
    text "): " anchor use "T0" (text {colour=#0f766e} "T" text {colour=#0f766e sub} "0")
  ]
  [
    text {size=-1 dim} "// Beer and Lambert: what is left after v" text {sub dim} "19"
    text {size=-1 dim} " units of fog"
  ]
  [
    anchor def "v20" (text {colour=#334155} "v" text {colour=#334155 sub} "20") text " = "
    text {colour=#0369a1} "exp" text "("
    inline-or-indented {
      [
        text {colour=#0369a1} "neg" text "("
        inline-or-indented {
          [
            text {colour=#0369a1} "mul" text "("
            inline-or-indented {
              [
                anchor use "v19" (text {colour=#334155} "v" text {colour=#334155 sub} "19") text ","
                space
              ]
              [
                text {colour=#0369a1} "load" text "("
                inline-or-indented {
                  [
                    anchor use "G2" (text {colour=#b91c1c} "G" text {colour=#b91c1c sub} "2")
                    text "," space
                  ]
                  [ text "density" if-block "," ]
                }
                text ")" if-block ","
              ]
            }
            text ")" if-block ","
          ]
        }
        text ")" if-block ","
      ]
    }
    text "): " anchor use "T0" (text {colour=#0f766e} "T" text {colour=#0f766e sub} "0")
  ]
  [
    anchor def "v21" (text {colour=#334155} "v" text {colour=#334155 sub} "21") text " = "
    anchor use "F1" (
      text {colour=#1d4ed8 thickness=2} "F" text {colour=#1d4ed8 thickness=2 sub} "1"
    )
    text "("
    inline-or-indented {
      [ anchor use "v17" (text {colour=#334155} "v" text {colour=#334155 sub} "17") text "," space ]
      [
        text {colour=#0369a1} "mul" text "("
        inline-or-indented {
          [
            anchor use "v18" (text {colour=#334155} "v" text {colour=#334155 sub} "18") text ","
            space
          ]
          [
            text {colour=#0369a1} "splat" text "("
            inline-or-indented {
              [
                text {colour=#0369a1} "div" text "("
                inline-or-indented {
                  [
                    anchor use "v19" (text {colour=#334155} "v" text {colour=#334155 sub} "19")
                    text "," space
                  ]
                  [
                    text {colour=#0369a1} "float" text "("
                    inline-or-indented { [ text {colour=#b45309} "8" if-block "," ] } text ")"
                    if-block ","
                  ]
                }
                text ")" if-block ","
              ]
            }
            text ")" if-block ","
          ]
        }
        text ")," space
      ]
      [ anchor use "v19" (text {colour=#334155} "v" text {colour=#334155 sub} "19") text "," space ]
      [ anchor use "G3" (text {colour=#b91c1c} "G" text {colour=#b91c1c sub} "3") if-block "," ]
    }
    text "): " anchor use "T1" (text {colour=#0f766e} "T" text {colour=#0f766e sub} "1")
  ]
  [
    anchor def "v22" (text {colour=#334155} "v" text {colour=#334155 sub} "22") text " = "
    text {colour=#0369a1} "mix" text "("
    inline-or-indented {
      [
        text {colour=#0369a1} "load" text "("
        inline-or-indented {
          [
            anchor use "G2" (text {colour=#b91c1c} "G" text {colour=#b91c1c sub} "2") text "," space
          ]
          [ text "tint" if-block "," ]
        }
        text ")," space
      ]
      [
        text {colour=#0369a1} "mul" text "("
        inline-or-indented {
          [
            anchor use "v21" (text {colour=#334155} "v" text {colour=#334155 sub} "21") text ","
            space
          ]
          [
            text {colour=#0369a1} "load" text "("
            inline-or-indented {
              [
                anchor use "G2" (text {colour=#b91c1c} "G" text {colour=#b91c1c sub} "2") text ","
                space
              ]
              [ text "ember_tint" if-block "," ]
            }
            text ")" if-block ","
          ]
        }
        text ")," space
      ]
      [
        text {colour=#0369a1} "splat" text "("
        inline-or-indented {
          [
            text {colour=#0369a1} "sub" text "("
            inline-or-indented {
              [
                anchor use "C1" (text {colour=#b45309} "C" text {colour=#b45309 sub} "1") text ","
                space
              ]
              [
                anchor use "v20" (text {colour=#334155} "v" text {colour=#334155 sub} "20")
                if-block ","
              ]
            }
            text ")" if-block ","
          ]
        }
        text ")" if-block ","
      ]
    }
    text "): " anchor use "T1" (text {colour=#0f766e} "T" text {colour=#0f766e sub} "1")
  ]
  [
    text {colour=#7c3aed thickness=1} "store" text " "
    anchor use "G1" (text {colour=#b91c1c} "G" text {colour=#b91c1c sub} "1") text ", "
    text {colour=#0369a1} "construct" text "("
    inline-or-indented {
      [ anchor use "T2" (text {colour=#0f766e} "T" text {colour=#0f766e sub} "2") text "," space ]
      [ anchor use "v22" (text {colour=#334155} "v" text {colour=#334155 sub} "22") text "," space ]
      [
        text {colour=#0369a1} "sub" text "("
        inline-or-indented {
          [
            anchor use "C1" (text {colour=#b45309} "C" text {colour=#b45309 sub} "1") text "," space
          ]
          [
            anchor use "v20" (text {colour=#334155} "v" text {colour=#334155 sub} "20") if-block ","
          ]
        }
        text ")" if-block ","
      ]
    }
    text ")"
  ]
  [ text {colour=#7c3aed thickness=1} "return" ]
}
text "}"
