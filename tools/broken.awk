# The inputs of tools/broken: breaks files of examples by chance.
#
# It reads these files, and writes inputs number `first` to `last` of `seed` into `folder`. For each it prints the file that it wrote,
# the form by which it is to be run, and how many lines it has.

BEGIN { forms = split("run replay deal lease check resume", form, " ") }
FNR == 1 {
  files++
  is_fault[files] = FILENAME ~ /\/faults\//
  form_of[files] = "run"
  for (at = 1; at <= forms; at++) if (FILENAME ~ "/" form[at] "[/_]") form_of[files] = form[at]
}
{ texts[files] = texts[files] $0 "\n" }

END {
  limits = split("0 1 3 4 16 17 63 64 255 256 4096 4097 65536 65537 131072 131073 1000000 1000001 4294967295 4294967296 " \
    "18446744073709551615 18446744073709551616 99999999999999999999 100000000000000000000 00000000000000000001 -1 +1 1.5 0x10 1e3",
    limit, " ")
  for (byte = 0; byte < 256; byte++) bytes[byte] = sprintf("%c", byte)
  for (number = first; number <= last; number++) make(number)
}

function make(number,    pick, way, breaks, file) {
  begin_chance(seed, number)
  do pick = 1 + below(files)
  while (is_fault[pick] && below(4))
  text = texts[pick]
  way = below(4) ? form_of[pick] : form[1 + below(forms)]
  for (breaks = below(3) ? 1 : 1 + below(8); breaks > 0; breaks--) break_once()
  if (way == "replay") shorten_schedule()
  file = folder "/input_" number
  printf "%s", text >file
  close(file)
  print file, way, split(text, line, "\n")
}

# ---- One break ----------------------------------------------------------------------------------

function break_once(    what) {
  what = below(14)
  if (what < 4) break_byte(what)
  else if (what < 6) put_number()
  else if (what < 8) move_word()
  else if (what < 12) break_line(what)
  else if (what == 12) text = substr(text, 1, below(length(text) + 1))
  else text = text texts[1 + below(files)]
}

# a byte is dropped, doubled, changed, or put in between
function break_byte(what,    at, byte) {
  at = 1 + below(length(text) + 1)
  byte = substr(text, at, 1)
  if (what == 0) byte = ""
  else if (what == 1) byte = byte byte
  else if (what == 2) byte = any_byte()
  else byte = any_byte() byte
  text = substr(text, 1, at - 1) byte substr(text, at + 1)
}
function any_byte(    pick) {
  pick = below(10)
  if (pick < 5) return pick == 0 ? "\r" : pick == 1 ? "\t" : pick == 2 ? bytes[255] : pick == 3 ? " " : "\n"
  return bytes[below(256)]
}

# a number is another one, mostly at a limit or past it
function put_number(    at) {
  at = 1 + below(length(text) + 1)
  if (!match(substr(text, at), /[0-9]+/)) return
  at += RSTART - 1
  text = substr(text, 1, at - 1) (below(3) ? limit[1 + below(limits)] : below(20)) substr(text, at + RLENGTH)
}

# a word comes to another place, and leaves its own or doesn't
function move_word(    at, word, rest, where) {
  at = 1 + below(length(text) + 1)
  rest = substr(text, at)
  if (!match(rest, /[^ \n]+/)) return
  word = substr(rest, RSTART, RLENGTH)
  if (below(2)) text = substr(text, 1, at - 1) substr(rest, 1, RSTART - 1) substr(rest, RSTART + RLENGTH)
  where = below(length(text) + 1)
  text = substr(text, 1, where) " " word " " substr(text, where + 1)
}

# a line is cut in two, joined with the next one, comes twice, leaves, or is too long
function break_line(what,    many, i, at, joined) {
  many = split(text, line, "\n")
  at = 1 + below(many)
  if (what == 8) line[at] = cut(line[at], below(length(line[at]) + 1))
  else if (what == 9) line[at] = line[at] "\n" line[at]
  else if (what == 10) line[at] = filled(line[at], one_of(256, 257, 300 + below(5000)))
  text = ""
  joined = below(2)
  for (i = 1; i <= many; i++) {
    if (what == 11 && i == at) {
      if (joined) text = text line[i]
    } else text = text line[i] (i < many ? "\n" : "")
  }
}
function cut(line, at) { return substr(line, 1, at) "\n" substr(line, at + 1) }
function filled(line, many,    filling) {
  filling = one_of(" ", "#", "0")
  while (length(filling) < many) filling = filling filling
  if (below(2)) return substr(line filling, 1, many)
  return substr(filling, 1, many > length(line) ? many - length(line) : 0) line
}

# ---- A replay is to be short --------------------------------------------------------------------

# A schedule has so many events of a line that its text is short; numbers that it can't have stay.
function shorten_schedule(    many, i, word, words) {
  many = split(text, line, "\n")
  text = ""
  for (i = 1; i <= many; i++) {
    words = split(line[i], word, " ")
    if (word[1] ~ /^(step|skip|finish)$/ && words == 3 && word[3] ~ /^0*[1-9][0-9]*$/ && word[3] > 1000 && word[3] <= 1000000)
      line[i] = word[1] " " word[2] " " 1 + word[3] % 1000
    text = text line[i] (i < many ? "\n" : "")
  }
}
