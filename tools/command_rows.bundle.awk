# Judges a bundle for tools/command_rows: whether it is the bundle of a run, and what a row says of it.
#
# Arguments: the lines of the row, as tools/command_rows.awk hands them on, and the bundle. `verdict` is what the program's `check` says of
# the bundle, and `status` how the run ended. It prints the first that isn't so, and what is so in its place, and its status is then 1.
# The head of threads.commands tells what the lines say.

FILENAME == ARGV[1] { line[++lines] = $0; next }

# Lines of values and of the module's text, which may look as any other.
passed_lines > 0 { passed_lines--; next }
passed_bytes > 0 { passed_bytes -= length($0) + 1; next }
$1 == "consts" { passed_lines = $2; next }
$1 == "module" { passed_bytes = $2; next }
$1 == "init" { variables = $2; next }
variables > 0 { variables--; keep_value($0); next }
$1 == "set" { keep_value(substr($0, 5)); next }
$1 == "step" { keep_entry(); next }
$1 == "print" { next }
$1 == "note" { notes++; next }
$1 == "inst" { keep_end(); next }
$1 == "end" { entries_at_end = $2; status_at_end = $3; next }
{ keep_record() }

END {
  judge()
  if (wrong == "") exit 0
  print wrong
  exit 1
}

function keep_value(text, at) {
  at = index(text, " = ")
  value[substr(text, 1, at - 1)] = substr(text, at + 3)
}

function keep_entry() {
  entries++
  by[entries] = $3
  attempt[entries] = $4
  from[entries] = $5
  to[entries] = $6
}

function keep_end() {
  account = $2
  end_of[account] = $4
  instances++
}

function keep_record(kind) {
  kind = $2 == "note" ? $3 : $2
  records[account, kind]++
  records[account, "any"]++
  if ($2 == "note" || $2 == "many") note_records++
  if (kind == "step") { has_record[$3] = account " " $1; steps++ }
  if (kind == "held" && $3 == account) refuses_itself = account
}

# The lines in order, up to one that isn't so; those behind `where` for that status alone.
function judge(i, is_other) {
  for (i = 1; i <= lines && wrong == ""; i++) {
    if (line[i] ~ /^where /) is_other = substr(line[i], 7) != status
    else if (!is_other) judge_line(line[i])
  }
}

function judge_line(text) {
  if (text == "bundle") judge_bundle()
  else if (text ~ /^instances /) judge_count(text, substr(text, 11), instances + 0)
  else if (text ~ /^entries /) judge_entries(text)
  else if (text ~ /^records /) judge_records(text)
  else if (text ~ /^end /) judge_end(text)
  else if (text ~ /^last /) judge_last(text)
  else judge_order(text)
}

function judge_bundle(i, k, at) {
  if (verdict != "run " entries + 0) { wrong = "check: " verdict; return }
  if (entries_at_end != entries + 0 || steps + 0 != entries + 0) wrong = "bundle: " entries + 0 " entries, " steps + 0 " records of them, end " entries_at_end
  if (notes + 0 != note_records + 0) wrong = "bundle: " notes + 0 " notes, " note_records + 0 " records of them"
  for (i = 1; i <= entries; i++) {
    k = by[i]
    if (has_record[i] != k " " attempt[i]) wrong = "bundle: entry " i " has no record"
    if ((k in at) && from[i] != at[k]) wrong = "bundle: entry " i " leads from " from[i] ", and the one before it to " at[k]
    at[k] = to[i]
  }
  for (k in end_of) if ((end_of[k] == "done") != (at[k] == "Done")) wrong = "bundle: instance " k " is " end_of[k] " at " at[k]
  if (refuses_itself != "") wrong = "bundle: instance " refuses_itself " is refused by itself"
  if (status_at_end != status || status_of_ends() != status) wrong = "bundle: the status is " status ", at its end " status_at_end ", by its instances " status_of_ends()
}

# 21 and 22 differ in what sections do in the last state, which no bundle says.
function status_of_ends(k, has, is_left) {
  for (k in end_of) { has[end_of[k]] = 1; if (end_of[k] != "done") is_left = 1 }
  return ("stopped" in has) ? 20 : ("full" in has) ? 23 : is_left ? (status == 22 ? 22 : 21) : 0
}

# entries N; entries N of K; entries N of K at L
function judge_entries(text, word, words, i, k, count) {
  words = split(text, word, " ")
  for (i = 1; i <= entries; i++) if (words < 6 || from[i] == word[6]) count[by[i]]++
  if (words < 4) judge_count(text, word[2], entries + 0)
  else for (k in end_of) if (is_meant(k, word[4])) judge_count(text, word[2], count[k] + 0)
  if (words >= 4) judge_instance(text, word[4])
}

# records N of K; records N of K E
function judge_records(text, word, kind, kinds, i, k, count) {
  kinds = split(split(text, word, " ") < 5 ? "any" : word[5], kind, "|")
  for (k in end_of) {
    count = 0
    for (i = 1; i <= kinds; i++) count += records[k, kind[i]]
    if (is_meant(k, word[4])) judge_count(text, word[2], count)
  }
  judge_instance(text, word[4])
}

# end E of K
function judge_end(text, word, k) {
  split(text, word, " ")
  for (k in end_of) if (is_meant(k, word[4]) && index("|" word[2] "|", "|" end_of[k] "|") == 0) wrong = text ": " end_of[k]
  judge_instance(text, word[4])
}

# last C = V
function judge_last(text, at, component) {
  at = index(text, " = ")
  component = substr(text, 6, at - 6)
  if (!(component in value)) wrong = text ": no value"
  else if (value[component] != substr(text, at + 3)) wrong = text ": " value[component]
}

# order N K L, K L, ..
function judge_order(text, word, item, items, i) {
  split(text, word, " ")
  items = split(substr(text, length("order " word[2] " ") + 1), item, ", ")
  for (i = 1; i <= entries && wrong == ""; i++) {
    if (i > items * word[2] || by[i] " " from[i] != item[(i - 1) % items + 1]) wrong = "order: entry " i " is " by[i] " " from[i]
  }
}

# Whether the number is N; from A to B, as A..B; or at least A, as A..
function judge_count(text, wanted, number, at, low, high) {
  at = index(wanted, "..")
  low = at > 0 ? substr(wanted, 1, at - 1) : wanted
  high = at > 0 ? substr(wanted, at + 2) : wanted
  if (number < low + 0 || high != "" && number > high + 0) wrong = text ": " number
}

function is_meant(k, instance) {
  return instance == "*" || instance == k
}

function judge_instance(text, instance) {
  if (instance != "*" && !(instance in end_of)) wrong = text ": no such instance"
}
