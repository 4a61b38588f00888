# The statements of tools/statements: reads the files of both sides, then compares.
#
#   awk -v room=FOLDER/ -f statements.awk side=before FILE.. side=now FILE..
#
# The files before lie in FOLDER. Both kinds of file are read by their layout, which the gate asks
# for: a declaration begins where its neighbours do, and what belongs to it stands further in.

BEGIN { statements = 0 }
FNR == 1 { begin_file() }
is_spec { take_spec_line(without_comment($0, "--")); next }
{ take_code_line(without_comment($0, "//")) }
END {
  end_statement()
  compare()
  print_all()
  exit gone + changed > 0
}

# Begins the next file.
function begin_file() {
  end_statement()
  file = FILENAME
  if (side == "before") file = substr(file, length(room) + 1)
  is_spec = file ~ /\.antt$/
  depth = 0
  column[0] = 0
  around[0] = ""
  owner[0] = is_trait[0] = 0
  within[0] = heading = state = derived = ""
  opening = is_test = 0
}

# ---- Lines --------------------------------------------------------------------------------------

# The line without its comment, which begins with this mark at its start or behind a blank.
function without_comment(line, mark,    from, found, front) {
  from = 1
  while ((found = index(substr(line, from), mark)) > 0) {
    found += from - 1
    front = substr(line, 1, found - 1)
    if (front ~ /(^|[ \t])$/ && is_outside(front)) return front
    from = found + 1
  }
  return line
}

# Whether no string is open at the end of the text.
function is_outside(text) {
  return gsub(/"/, "", text) % 2 == 0
}

# How many blanks the line begins with.
function indent_of(line) {
  match(line, /^ */)
  return RLENGTH
}

# The text with one blank for several, and as if no list had been broken into lines.
function plain(text) {
  gsub(/[ \t]+/, " ", text)
  sub(/^ /, "", text)
  sub(/ $/, "", text)
  gsub(/, \)/, ")", text)
  gsub(/, \]/, "]", text)
  gsub(/[,;] \}/, " }", text)
  gsub(/\( /, "(", text)
  gsub(/ \)/, ")", text)
  gsub(/\[ /, "[", text)
  gsub(/ \]/, "]", text)
  return text
}

# How many braces the text opens and doesn't close.
function braces(text) {
  gsub(/"([^"\\]|\\.)*"/, "", text)
  gsub(/'(\\.|[{}"])'/, "", text)
  return gsub(/\{/, "", text) - gsub(/\}/, "", text)
}

# ---- Statements ---------------------------------------------------------------------------------

# Begins a statement of this name, where the reader stands.
function begin_statement(name, text) {
  end_statement()
  current = ++statements
  name_of[current] = name
  file_of[current] = file
  side_of[current] = side
  around_of[current] = plain(around[depth])
  text_of[current] = text
}

# Adds a line to the statement that has been begun, where there is one.
function add(text) {
  if (current) text_of[current] = text_of[current] " " text
}

function end_statement() { current = 0 }

# Enters what stands further in behind a heading: where it begins, and the words around it. In code
# also the name of what it belongs to, whether that is a trait, and its statement where it has one.
function enter(indent, words, name, trait, statement) {
  depth++
  column[depth] = indent
  around[depth] = words
  within[depth] = name
  is_trait[depth] = trait
  owner[depth] = statement
}

# ---- Definitions --------------------------------------------------------------------------------

# A line of a file of definitions.
function take_spec_line(line,    indent, text) {
  text = plain(line)
  if (text == "") return
  indent = indent_of(line)
  if (heading != "") { go_on_with_heading(text); return }
  if (opening) {
    opening = 0
    if (indent > column[depth]) enter(indent, around[depth] " " parameters, "", 0, 0)
  }
  while (indent < column[depth]) { depth--; end_statement() }
  if (indent > column[depth]) { add(text); return }
  if (text ~ /^(pub )?(ghost )?(use|mod) /) { end_statement(); return }
  if (text ~ /^module /) { end_statement(); heading = " "; go_on_with_heading(text); return }
  if (text ~ /^infix/) { begin_statement("the binding of " last_word(text), text); return }
  take_declaration(text)
}

# A line of a module's head, which ends with `where`.
function go_on_with_heading(text) {
  heading = heading " " text
  if (heading !~ / where$/) return
  parameters = heading
  sub(/^ *module [^ ]+ /, "", parameters)
  sub(/where$/, "", parameters)
  heading = ""
  opening = 1
}

# A line that begins a declaration, or a clause of one.
function take_declaration(text,    name, rest) {
  rest = text
  while (rest ~ /^(abbrev|unfoldable|pub|data|record|private) /) sub(/^[a-z]+ /, "", rest)
  name = rest
  sub(/ .*/, "", name)
  if (rest != text || substr(rest, length(name) + 1, 3) == " : ") {
    begin_statement(name, text)
    declared[side, file, depth, around_of[current], name] = current
    return
  }
  if ((side, file, depth, plain(around[depth]), name) in declared)
    current = declared[side, file, depth, plain(around[depth]), name]
  add(text)
}

function last_word(text) {
  sub(/.* /, "", text)
  return text
}

# ---- Contracts ----------------------------------------------------------------------------------

# A line of code.
function take_code_line(line,    indent, text) {
  text = plain(line)
  if (text == "") return
  indent = indent_of(line)
  if (state == "signature") take_signature(indent, text)
  else if (state == "body") take_body(indent, text)
  else if (state == "whole") take_whole(text)
  else if (state == "heading") take_code_heading(text)
  else if (state == "import") { if (text ~ /;$/) state = "" }
  else if (state == "passed") { if (indent == start && text ~ /^\}/) state = "" }
  else take_item(indent, text)
}

# A line that begins an item, or ends what is around it.
function take_item(indent, text,    bare) {
  start = indent
  if (text ~ /^\}/) { if (depth) depth--; return }
  if (text ~ /^#\[(cfg\(test\)|test)\]/) { is_test = 1; return }
  if (text ~ /^#\[derive/) { derived = derived text " "; return }
  if (text ~ /^#/) return
  bare = text
  sub(/^pub(\([a-z]+\))? /, "", bare)
  if (is_test || bare ~ /^macro_rules!/) pass(text)
  else if (bare ~ /^(ghost )?use /) { if (text !~ /;$/) state = "import" }
  else if (bare ~ /^((const|unsafe|async) )*fn /) begin_function(indent, text, bare)
  else if (bare ~ /^(unsafe )?(impl|trait)[ <]/) { header = ""; take_code_heading(text) }
  else if (bare ~ /^(struct|enum|ghost|const|static|type) /) begin_whole(text, bare)
  else pass(text)
  is_test = 0
  derived = ""
}

# Passes over an item that states nothing.
function pass(text) {
  if (text !~ /[;}]$/) state = "passed"
}

# Begins a type, or another item that is stated whole. What stands in an `impl` or a trait is part
# of the statement of that.
function begin_whole(text, bare,    name) {
  name = bare
  sub(/^[a-z]+ /, "", name)
  sub(/[^A-Za-z0-9_].*/, "", name)
  end_statement()
  if (owner[depth]) { current = owner[depth]; add(derived text) }
  else if (text ~ /^pub / || bare ~ /^(struct|enum|ghost) /) begin_statement(name, derived text)
  open = braces(text)
  state = "whole"
  end_whole(text)
}

function take_whole(text) {
  add(text)
  open += braces(text)
  end_whole(text)
}

function end_whole(text) {
  if (open > 0 || text !~ /[;}]$/) return
  end_statement()
  state = ""
}

# A line of the head of an `impl` or a trait, which ends with a brace.
function take_code_heading(text,    name, trait) {
  header = plain(header " " text)
  state = text ~ /[{}]$/ ? "" : "heading"
  if (state != "") return
  sub(/ *\{ *\}?$/, "", header)
  name = header
  sub(/^pub(\([a-z]+\))? /, "", name)
  sub(/^(unsafe )?trait /, "", name)
  if (name ~ /^(unsafe )?impl/) name = without_generics(name)
  trait = header ~ /(^| )trait /
  end_statement()
  if (trait || name ~ / for /) begin_statement(name, header)
  if (text ~ /\{$/) enter(0, header, name, trait, current)
  end_statement()
}

# The head of an `impl` from behind its parameters.
function without_generics(text,    at, open, letter) {
  sub(/^(unsafe )?impl/, "", text)
  if (text !~ /^</) return plain(text)
  gsub(/->/, "\001", text)
  for (at = 1; at <= length(text); at++) {
    letter = substr(text, at, 1)
    open += (letter == "<") - (letter == ">")
    if (!open) break
  }
  text = substr(text, at + 1)
  gsub(/\001/, "->", text)
  return plain(text)
}

# Begins a function. Its statement is kept where it has a clause, belongs to a trait or is public.
function begin_function(indent, text, bare,    name) {
  name = bare
  sub(/^.*fn /, "", name)
  sub(/[^A-Za-z0-9_].*/, "", name)
  if (depth) name = within[depth] "::" name
  begin_statement(name, "")
  is_kept = is_trait[depth] || text ~ /^pub /
  open = 0
  state = "signature"
  take_signature(-1, text)
}

# A line of a function's head: of its signature, a clause, or the brace that ends it.
function take_signature(indent, text) {
  if (open > 0 || is_clause(text)) {
    take_clause(text)
    if (!open && text ~ /;$/) end_function()
    return
  }
  if (indent == start && text ~ /^\{/) {
    begin_body(text)
    return
  }
  if (text ~ /[{}]$/) {
    add(substr(text, 1, index(text, "{") - 1))
    begin_body(text)
    return
  }
  add(text)
  if (text ~ /;$/) end_function()
}

function begin_body(text) {
  state = "body"
  if (text ~ /\}$/) end_function()
}

# A line of a function's body, of which only the clauses of closures are stated.
function take_body(indent, text) {
  if (indent == start && text ~ /^\}/) end_function()
  else if (open > 0 || is_clause(text)) take_clause(text)
}

function is_clause(text) { return text ~ /^(requires|ensures) / }

function take_clause(text) {
  is_kept = 1
  add(text)
  open += braces(text)
}

function end_function() {
  if (!is_kept) statements--
  end_statement()
  state = ""
}

# ---- Both sides ---------------------------------------------------------------------------------

# Finds for each statement before what has become of it.
function compare(    one, way) {
  for (one = 1; one <= statements; one++) {
    text_of[one] = plain(around_of[one] " " text_of[one])
    if (side_of[one] == "before") listed[name_of[one], ++count_of[name_of[one]]] = one
    else stands_in[name_of[one], text_of[one]] = file_of[one]
  }
  for (way = 1; way <= 7; way++)
    for (one = 1; one <= statements; one++)
      if (side_of[one] == "now" && !(one in partner)) find_partner(one, way)
}

# Looks for a statement before that became this one in this way.
function find_partner(one, way,    at, other) {
  for (at = 1; at <= count_of[name_of[one]]; at++) {
    other = listed[name_of[one], at]
    if (other in partner || !became(other, one, way)) continue
    partner[one] = other
    partner[other] = one
    way_of[one] = way
    return
  }
}

# Whether a statement became this one of its name. The ways, from the best to the worst: it stands,
# it moved, it was opened; and it was changed, in its file and module, in its file, in such a
# module, or elsewhere.
function became(other, one, way,    same_file, same_around) {
  same_file = file_of[other] == file_of[one]
  same_around = around_of[other] == around_of[one]
  if (way == 1) return same_file && text_of[other] == text_of[one]
  if (way == 2) return text_of[other] == text_of[one]
  if (way == 3) return is_opened(text_of[other], text_of[one])
  if (way == 4) return same_file && same_around
  if (way == 5) return same_file
  if (way == 6) return same_around
  return 1
}

# Whether the texts are the same but for words `pub`, of which there may be more than before.
function is_opened(before, now,    words, others, count, others_count, at, beside) {
  count = split(before, words, " ")
  others_count = split(now, others, " ")
  for (at = beside = 1; at <= count; at++) {
    if (openness(words[at]) > openness(others[beside])) return 0
    if (openness(words[at])) at++
    if (openness(others[beside])) beside++
    if (words[at] != others[beside++]) return 0
  }
  return beside == others_count + 1
}

# How far the word opens what stands behind it: not at all, in part, or to everybody.
function openness(word) {
  return word == "pub" ? 2 : word ~ /^pub\([a-z]+\)$/
}

# ---- What is printed ----------------------------------------------------------------------------

function print_all(    one) {
  for (one = 1; one <= statements; one++) if (way_of[one] == 1) stand++
  for (one = 1; one <= statements; one++) if (way_of[one] == 2) moved += told("MOVED", one)
  for (one = 1; one <= statements; one++) if (way_of[one] == 3) opened += told("OPENED", one)
  for (one = 1; one <= statements; one++)
    if (side_of[one] == "now" && !(one in partner)) added += told("NEW", one)
  for (one = 1; one <= statements; one++)
    if (side_of[one] == "before" && !(one in partner) && (name_of[one], text_of[one]) in stands_in) {
      print "JOINED " name_of[one] ": " file_of[one] " -> " stands_in[name_of[one], text_of[one]]
      joined++
    }
  for (one = 1; one <= statements; one++)
    if (side_of[one] == "before" && !(one in partner) && !((name_of[one], text_of[one]) in stands_in)) {
      gone += told("GONE", one)
      print "  was: " text_of[one]
    }
  for (one = 1; one <= statements; one++)
    if (way_of[one] > 3) {
      changed += told("CHANGED", one)
      print "  was: " text_of[partner[one]]
      print "  now: " text_of[one]
    }
  printf "statements: %d stand, %d moved, %d opened, %d joined, %d new, %d gone, %d changed\n", stand,
    moved, opened, joined, added, gone, changed
}

# Prints the line of one statement, with the file in which it stood before where that is another.
function told(word, one,    file) {
  file = file_of[one]
  if (one in partner && file_of[partner[one]] != file) file = file_of[partner[one]] " -> " file
  print word " " name_of[one] ": " file
  return 1
}
