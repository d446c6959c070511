# Cuts sheets of commands into rows for tools/command_rows, which has the functions that are named here.
#
# Arguments: the sheets, by their names within `folder`, where the files that they include stand too. It prints a script for the
# shell: `sheet NAME` for each sheet, `wrong LINE TEXT` for a line with no key, `lost LINE TEXT` for a row whose text has not the place
# that it changes, or not the prefixes that it names, and `row LINE NUMBER ..` for each other row, one for each of its prefixes; before
# a row with a command that comes first stand `first NUMBER WORDS..` and, for each place that is changed in its output,
# `place NUMBER OLD NEW`. The row's input, and the output and the error output that it wants, are the files NUMBER.in, NUMBER.out and
# NUMBER.err of the folder `to`; one that isn't there is empty.
# What it says of a bundle whose order of turns isn't known is NUMBER.facts.
# The heads of counters.commands and threads.commands tell the keys of a sheet.

BEGIN {
  no_place = "no such place: "
  for (at = 1; at < ARGC; at++) take_sheet(ARGV[at])
  exit
}

function take_sheet(sheet, line) {
  print "sheet " quoted(sheet)
  begin_text()
  begin_row()
  number = 0
  while ((getline line < (folder "/" sheet)) > 0) {
    number++
    if (line !~ /^include / || !take_included(folder "/" substr(line, 9))) take_line(line)
  }
  close(folder "/" sheet)
}

# The lines of a file, in the place of the line that names it; 0 where it has none.
function take_included(file, line, lines) {
  while ((getline line < file) > 0) {
    lines++
    take_line(line)
  }
  close(file)
  return lines > 0
}

# A line: a key, a blank and a text.
function take_line(line, blank, key, text) {
  blank = index(line, " ")
  key = blank > 0 ? substr(line, 1, blank - 1) : line
  text = blank > 0 ? substr(line, blank + 1) : ""
  if (key ~ /%$/) {
    key = substr(key, 1, length(key) - 1)
    text = unescaped(text)
  }
  if (key == "" || key == "#" || key == "##") return
  if (key == "=>") end_row(text)
  else if (!take_of_command(key, text) && !take_of_text(key, text)) print "wrong " number " " quoted("no key " key)
}

# The text in which %n stands for a newline, %t for a tab, %r for a carriage return, and % before another character for that one.
function unescaped(text, at, plain, c) {
  plain = ""
  while ((at = index(text, "%")) > 0) {
    c = substr(text, at + 1, 1)
    plain = plain substr(text, 1, at - 1) (c == "n" ? "\n" : c == "t" ? "\t" : c == "r" ? "\r" : c)
    text = substr(text, at + 2)
  }
  return plain text
}

# The command, its streams, the output that is wanted, and how many blanks stand in the place of the text.

function begin_row() {
  first = words = constants = lines = bytes = facts = blanks = prefixes = pieces = reads = room = error_writes = ""
  is_wordless = is_whole = 0
}

function take_of_command(key, text) {
  if (key == "first") first = first " " quoted(text)
  else if (key == "word") words = words " " quoted(text)
  else if (key == "with") constants = constants " " quoted(text)
  else if (key == "no") { is_wordless = 1; return text == "words" }
  else if (key == "out" || key == "ends") { lines = lines text "\n"; if (key == "out") is_whole = 1 }
  else if (key == "silent") is_whole = 1
  else if (is_of_bundle(key, text)) facts = facts key (text == "" ? "" : " " text) "\n"
  else if (key == "prefixes" && text ~ /^[0-9]+\.\.[0-9]+$/) prefixes = text
  else if (key == "rounds" && are_rounds(text)) words = words " " rounds(text)
  else if (key == "first_rounds" && are_rounds(text)) first = first " " rounds(text)
  else return take_number(key, text)
  return 1
}

# Whether a line says something of a bundle, for tools/command_rows.bundle.awk.
function is_of_bundle(key, text, count, kind) {
  count = "[0-9]+(\\.\\.[0-9]*)?"
  kind = "(step|held|down|blocked|novalue|assert|many|full)"
  if (key == "bundle") return text == ""
  if (key == "instances") return text ~ ("^" count "$")
  if (key == "entries") return text ~ ("^" count "( of ([0-9]+|\\*)( at [A-Za-z0-9_]+)?)?$")
  if (key == "records") return text ~ ("^" count " of ([0-9]+|\\*)( " kind "(\\|" kind ")*)?$")
  if (key == "end") return text ~ /^[a-z|]+ of ([0-9]+|\*)$/
  if (key == "last") return text ~ / = ./
  if (key == "order") return text ~ /^[0-9]+ [0-9]+ [A-Za-z0-9_]+(, [0-9]+ [A-Za-z0-9_]+)*$/
  return key == "where" && text ~ /^[0-9]+$/
}

# `N of K`: the turns of N rounds of K instances. `N of LIST`: N times these turns, with a comma or a * among them.

function are_rounds(text) {
  return text ~ /^[1-9][0-9]* of ([1-9][0-9]*|[0-9]+[,*][0-9,*]*)$/
}

function rounds(text, part, round, i) {
  split(text, part, " of ")
  if (part[2] ~ /[,*]/) round = "," part[2]
  else for (i = 0; i < part[2] + 0; i++) round = round "," i
  return substr(repeated(round, part[1] + 0), 2)
}

function take_number(key, text) {
  if (text !~ /^[0-9]+$/) return 0
  if (key == "bytes") bytes = text
  else if (key == "blanks") blanks = text
  else if (key == "byte") words = words " " quoted(sprintf("%c", text + 0))
  else if (key == "pieces") pieces = text
  else if (key == "reads" && (text == "0" || text == "1")) reads = text
  else if (key == "room") room = text
  else if (key == "error_writes" && text == "0") error_writes = text
  else return 0
  return 1
}

# A text with named parts, of which a row may change some.

function begin_text() {
  whole = ""
  parts = 0
  begin_changes()
}

function begin_changes(i) {
  for (i = 1; i <= parts; i++) { is_changed[i] = 0; change[i] = "" }
  places = 0
}

function take_of_text(key, text, blank, head, rest) {
  blank = index(text, " ")
  head = blank > 0 ? substr(text, 1, blank - 1) : text
  rest = blank > 0 ? substr(text, blank + 1) : ""
  if (key == "text") begin_text()
  else if (key == "|") whole = whole text "\n"
  else if (key == "part") add_part(head, rest, "")
  else if (key == "optional") add_part(text, "", "\n")
  else if (key == "place") { old[++places] = text; new[places] = "" }
  else if (key == "has") { if (places == 0) return 0; new[places] = new[places] text }
  else if (key == "repeat") return add_repeated(head, rest)
  else if (key == "numbered") return add_numbered(head, rest)
  else return add(key, "\n", text)
  return 1
}

function add_part(name, unchanged, end) {
  parts++
  part_name[parts] = name
  stands[parts] = unchanged
  part_end[parts] = end
  is_changed[parts] = 0
  change[parts] = ""
}

# Adds a piece to a part, with a text before it where the row has put something there; 0: there is no such part.
function add(name, between, piece, i) {
  for (i = 1; i <= parts; i++) {
    if (part_name[i] != name) continue
    change[i] = change[i] (is_changed[i] ? between : "") piece
    is_changed[i] = 1
    return 1
  }
  return 0
}

function add_repeated(name, rest, blank, times) {
  blank = index(rest, " ")
  times = blank > 0 ? substr(rest, 1, blank - 1) : rest
  if (times !~ /^[0-9]+$/ || times + 0 == 0) return 0
  return add(name, "", repeated(blank > 0 ? substr(rest, blank + 1) : "", times + 0))
}

function add_numbered(name, rest, blank, times, line, i) {
  blank = index(rest, " ")
  times = blank > 0 ? substr(rest, 1, blank - 1) : rest
  line = blank > 0 ? substr(rest, blank + 1) : ""
  if (times !~ /^[0-9]+$/) return 0
  for (i = 1; i <= times + 0; i++) if (!add(name, "\n", replaced(line, "#", i))) return 0
  return times + 0 > 0
}

function repeated(piece, times, half) {
  if (times < 2) return times == 1 ? piece : ""
  half = repeated(piece, int(times / 2))
  return half half (times % 2 == 1 ? piece : "")
}

# The text with another one in each place of a third.
function replaced(text, place, by, at, done) {
  done = ""
  while ((at = index(text, place)) > 0) {
    done = done substr(text, 1, at - 1) by
    text = substr(text, at + length(place))
  }
  return done text
}

# The text with the changed parts.
function changed(i, mark, text) {
  if (blanks != "") return ""
  text = whole
  for (i = 1; i <= parts; i++) {
    mark = "@" part_name[i] "@"
    text = index(text, mark) == 0 ? no_place mark : replaced(text, mark, is_changed[i] ? change[i] part_end[i] : stands[i])
  }
  return text
}

function with_places(text, i, at) {
  for (i = 1; i <= places; i++) {
    at = index(text, old[i])
    text = at == 0 ? no_place old[i] : substr(text, 1, at - 1) new[i] substr(text, at + length(old[i]))
  }
  return text
}

# The end of a row: STATUS, or STATUS LINE.
function end_row(wanted, text) {
  text = first == "" ? with_places(changed()) : changed()
  if (index(text, no_place) == 1) print "lost " number " " quoted(text)
  else if (prefixes != "") print_prefixes(wanted, text)
  else print_row(wanted, text)
  begin_changes()
  begin_row()
}

# A row for each prefix of the text, with its length in the place of a # of what is wanted.
function print_prefixes(wanted, text, length_of, at) {
  split(prefixes, length_of, /\.\./)
  if (first != "" || length_of[1] + 0 > length_of[2] + 0 || length_of[2] + 0 > length(text)) {
    print "lost " number " " quoted("no such prefixes: " prefixes)
    return
  }
  for (at = length_of[1] + 0; at <= length_of[2] + 0; at++) print_row(replaced(wanted, "#", at), substr(text, 1, at))
}

function print_row(wanted, text, blank, status, how, i) {
  row++
  blank = index(wanted, " ")
  status = blank > 0 ? substr(wanted, 1, blank - 1) : wanted
  how = is_whole ? "whole" : lines != "" ? length(lines) : "any"
  write(row ".in", text)
  write(row ".err", blank > 0 ? substr(wanted, blank + 1) "\n" : "")
  write(row ".out", lines)
  write(row ".facts", facts)
  if (first != "") print "first " row first
  for (i = 1; first != "" && i <= places; i++) print "place " row " " quoted(old[i]) " " quoted(new[i])
  if (words == "" && !is_wordless) words = " step --turns 0"
  print "row " number " " row " " quoted(status) " " how " " quoted(bytes) " " quoted(blanks) " " quoted(pieces) " " quoted(reads) " " quoted(room) " " quoted(error_writes) words constants
}

function write(file, text) {
  if (text == "") return
  printf "%s", text > (to "/" file)
  close(to "/" file)
}

# A text as one word of the shell.
function quoted(text) {
  return "'" replaced(text, "'", "'\\''") "'"
}
