# Every entry of the header as tests/c/remote.c has it, from what `bin/entries` says on standard input. Numbers and parts are put as
# bytes, low byte first, as tests/c/bridge.c takes them; two rows are one room, with the first one's length before it, and so are two rooms,
# with the length that is told (`length`) behind them. A deck that is changed where it stands is a room.
awk '
    { takes = ""; before = ""; pieces = ""; behind = ""; room = "NULL, 0"; into = "NULL"; rows = 0; rooms = 0; told = ""
      for (i = 2; i <= NF; i++) {
          split($i, take, ":"); kind = take[1]; name = take[2]
          if (kind == "bytes") { type = "const uint8_t *" name ", size_t " name "_len"; pieces = pieces "{" name ", " name "_len}, " }
          else if (kind == "room" || kind == "changed") { type = "uint8_t *" name ", size_t " name "_len"; room = name ", " name "_len"; into = name; lent[++rooms] = name }
          else if (kind == "length") { type = "size_t *" name; told = name }
          else if (kind == "part") {
              type = "open_panel_part *" name
              before = before "    uint8_t told_part[PART];\n    memset(told_part, 255, PART);\n"
              behind = behind "    " name "->in_expansion = number_of(told_part);\n    " name "->offset = number_of(told_part + NUMBER);\n    " name "->length = number_of(told_part + 2 * NUMBER);\n"
              room = "told_part, PART"; into = "told_part"
          } else if (kind == "row") {
              type = "uint32_t *" name ", size_t " name "_len"
              row[++rows] = name
          } else {
              bytes = kind == "u8" ? 1 : kind == "u16" ? 2 : 8
              type = (kind == "u64" ? "size_t " : kind == "u16" ? "uint16_t " : "uint8_t ") name
              before = before "    uint8_t " name "_bytes[NUMBER];\n    put_number(" name "_bytes, " name ");\n"
              pieces = pieces "{" name "_bytes, " bytes "}, "
          }
          takes = takes (takes ? ", " : "") type
      }
      if (rows == 2) {
          long = "(" row[1] "_len + " row[2] "_len) * ROW_NUMBER"
          before = before "    uint8_t first_bytes[NUMBER], *both = malloc(" long " + 1);\n    if (both == NULL) {\n        stop(\"rows\");\n    }\n" \
              "    put_number(first_bytes, " row[1] "_len);\n" \
              "    if (" row[1] "_len > 0) {\n        memcpy(both, " row[1] ", " row[1] "_len * ROW_NUMBER);\n    }\n" \
              "    if (" row[2] "_len > 0) {\n        memcpy(both + " row[1] "_len * ROW_NUMBER, " row[2] ", " row[2] "_len * ROW_NUMBER);\n    }\n"
          behind = behind "    if (" row[1] "_len > 0) {\n        memcpy(" row[1] ", both, " row[1] "_len * ROW_NUMBER);\n    }\n" \
              "    if (" row[2] "_len > 0) {\n        memcpy(" row[2] ", both + " row[1] "_len * ROW_NUMBER, " row[2] "_len * ROW_NUMBER);\n    }\n    free(both);\n"
          pieces = pieces "{first_bytes, NUMBER}, "
          room = "both, " long
          into = "both"
      }
      if (rooms == 2) {
          long = lent[1] "_len + " lent[2] "_len"
          before = before "    uint8_t first_bytes[NUMBER], *both = malloc(" long " + NUMBER);\n    if (both == NULL) {\n        stop(\"rooms\");\n    }\n" \
              "    put_number(first_bytes, " lent[1] "_len);\n" \
              "    if (" lent[1] "_len > 0) {\n        memcpy(both, " lent[1] ", " lent[1] "_len);\n    }\n" \
              "    if (" lent[2] "_len > 0) {\n        memcpy(both + " lent[1] "_len, " lent[2] ", " lent[2] "_len);\n    }\n" \
              "    put_number(both + " long ", *" told ");\n"
          behind = behind "    if (" lent[1] "_len > 0) {\n        memcpy(" lent[1] ", both, " lent[1] "_len);\n    }\n" \
              "    if (" lent[2] "_len > 0) {\n        memcpy(" lent[2] ", both + " lent[1] "_len, " lent[2] "_len);\n    }\n" \
              "    *" told " = number_of(both + " long ");\n    free(both);\n"
          pieces = pieces "{first_bytes, NUMBER}, "
          room = "both, " long " + NUMBER"
          into = "both"
      }
      full = "open_panel_" $1
      print "open_panel_answer " full "(" takes ") {"
      printf "%s", before
      print "    const piece p[] = {{\"" full "\", " length(full) "}, " pieces "{" room "}};"
      print "    const open_panel_answer answer = asked(p, sizeof p / sizeof *p, " into ");"
      printf "%s", behind
      print "    return answer;\n}\n"
    }'
