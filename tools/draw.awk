# The drawing of tools/draw, from the printed operations of a replay alone: what these do to the words,
# and how they are said in words. picture.awk draws what comes of them.
#
#   awk -v first=FIRST -v last=LAST -v form=text|svg -f draw.awk -f picture.awk -f svg.awk SCRIPT REPLAY
#
# SCRIPT has no `skip`, and no `finish` before event LAST; REPLAY is what `rht replay` prints of it.
# The words of the table begin as docs/WORDS.md says for the script's table line, and each printed
# operation is done on them. The old value that is printed with it has to be the one that is here;
# where it isn't, this tool is wrong and says so.
#
# A word has 64 bits, and a number of awk is exact up to 53. So a word is kept as its digits, compared
# as text, and taken apart into two halves where bits matter.

# ---- The script, then the replay ----------------------------------------------------------------

BEGIN {
  opened = finished = failed = begun = made = line = 0
}

FNR == NR { read_script(); next }
/^[0-9]+ (load|store|cas|add|sub|and|or) / { take_operation(); next }
/^[0-9]+: / { take_reply(); next }
{ exit }

# Behind the last line events can be left of workers without a command, which print nothing.
END {
  if (failed) exit 1
  end_event()
  while (!finished) { begin_event(); end_event() }
  if (form == "svg") print_svg()
}

# A line of the script: the table line, a line of the schedule, or a command.
function read_script(    worker) {
  if ($0 ~ /^[ \t]*(#|$)/) return
  if (!opened) { open_table(); return }
  if ($1 == "finish") return
  if ($1 == "step") {
    turns++
    turn_of[turns] = $2 + 0
    turn_ends[turns] = turn_ends[turns - 1] + $3
    return
  }
  worker = $1 + 0
  commands[worker]++
  $1 = ""
  sub(/^ /, "")
  command[worker, commands[worker]] = $0
}

# The next event: its number and its worker, by the schedule.
function begin_event() {
  made++
  while (made > turn_ends[line]) {
    line++
    if (line > turns) fail("more events than the schedule has")
  }
  worker = turn_of[line]
  operation = "worker " worker
  words = "no command is left, so nothing happens"
  changed = looked_at = -1
  begun = 1
}

# The event is complete, with its reply line if it has one.
function end_event() {
  if (!begun) return
  begun = 0
  if (made >= first) draw_event()
  finished = made == last
}

# An operation's line. Events before it are of workers without a command; such a worker has no
# operation later, so the next event of this line's worker is the one that it belongs to.
function take_operation(    by) {
  by = $1 + 0
  do {
    end_event()
    if (finished) exit
    begin_event()
  } while (worker != by)
  if (!in_call[by]) { in_call[by] = 1; calls[by]++; steps[by] = 0 }
  steps[by]++
  operation = $0
  looked_at = $3 + 0
  words = in_words($2, $3, $4, $5)
  perform($2, $3, $4, $5, $NF)
  did[by] = words
}

# A reply's line ends the call of the event before it.
function take_reply() {
  sub(/^[0-9]+: /, "")
  in_call[worker] = 0
  answer[worker] = $0
}

function fail(text) {
  failed = 1
  printf "draw: event %d: %s\n", made, text > "/dev/stderr"
  exit 1
}

# ---- The words when the table is opened ---------------------------------------------------------

# A table line: the options that say which words there are and what they are at first.
function open_table(    i, value, size, least, greatest) {
  opened = 1
  value["nodes"] = 4096
  value["pages"] = 256
  value["workers"] = 1
  value["seed"] = "1"
  value["min"] = 4
  for (i = 3; i < NF; i += 2) value[$i] = plain($(i + 1))
  nodes = value["nodes"] + 0
  pages = value["pages"] + 0
  workers = value["workers"] + 0

  size = "hint" in value ? rounded_up(int(value["hint"] * 4 / 3)) : 64
  least = rounded_up(value["min"] + 0)
  if (least < 4) least = 4
  if (size < least) size = least
  if ("max" in value) {
    greatest = rounded_up(value["max"] + 1) / 2
    if (size > greatest) size = greatest
  }

  node_map = 280
  page_map = node_map + int((nodes + 63) / 64)
  node_words = page_map + int((pages + 63) / 64)
  page_words = node_words + 4 * nodes
  all_words = page_words + 64 * pages

  word[3] = "1"
  word[4] = workers ""
  word[24] = exponent_of(size) ""
  word[25] = value["seed"]
  word[28] = "1"
  set_map(node_map, nodes, 0)
  set_map(page_map, pages, size > 64 ? size / 64 : 1)
}

# The words of a map whose bits stand for this many things, of which the first ones are taken.
function set_map(place, number, taken,    n, bits) {
  for (n = taken; n < number; n++) bits[int(n / 64), int(n / 32) % 2] += 2 ^ (n % 32)
  for (n = 0; n < number; n += 64) word[place + n / 64] = digits(bits[n / 64, 1], bits[n / 64, 0])
}

function rounded_up(number,    power) {
  for (power = 1; power < number; power *= 2) continue
  return power
}

function exponent_of(size,    exponent) {
  for (exponent = 0; 2 ^ exponent < size; exponent++) continue
  return exponent
}

# ---- Numbers of 64 bits -------------------------------------------------------------------------

# The digits of a number without leading zeros.
function plain(text) {
  sub(/^0+/, "", text)
  return text == "" ? "0" : text
}

function same(a, b) { return (a "") == (b "") }

# Whether a word is odd, by its last digit.
function is_odd(value) { return value ~ /[13579]$/ }

# Takes a word apart: its upper and its lower 32 bits.
function take_apart(value,    i, at) {
  upper = lower = 0
  for (i = 1; i <= length(value); i++) {
    at = lower * 10 + substr(value, i, 1)
    upper = upper * 10 + int(at / 4294967296)
    lower = at % 4294967296
  }
}

# The digits of the word with these halves. Both are divided by 10,000 again and again.
function digits(high, low,    text, above, rest) {
  high += 0
  low += 0
  text = ""
  while (high > 0 || low >= 10000) {
    above = int(high / 10000)
    rest = (high % 10000) * 4294967296 + low
    high = above
    low = int(rest / 10000)
    text = sprintf("%04d", rest % 10000) text
  }
  return plain(low text)
}

# The bits that are in both halves, or in one of them at least.
function joined(a, b, both,    bit, sum, wanted) {
  sum = 0
  wanted = both ? 2 : 1
  for (bit = 1; bit < 4294967296; bit *= 2)
    if (int(a / bit) % 2 + int(b / bit) % 2 >= wanted) sum += bit
  return sum
}

# What an operation leaves in a word: the sum, the difference, the bits in both, or those in either.
function result_of(name, old, by,    high, low) {
  take_apart(old)
  high = upper
  low = lower
  take_apart(by)
  if (name == "and" || name == "or")
    return digits(joined(high, upper, name == "and"), joined(low, lower, name == "and"))
  if (name == "sub") {
    # the difference is the sum with the number's complement, which is 2^64 less the number
    upper = 4294967295 - upper
    lower = 4294967296 - lower
  }
  low += lower
  high += upper + int(low / 4294967296)
  return digits(high % 4294967296, low % 4294967296)
}

# The numbers of the bits that are in a word and, as asked, in the mask or not in it, each with what
# the word's first bit stands for added.
function bits_beside(value, mask, in_mask, base,    high, low, bit, at, half, list) {
  take_apart(value)
  high = upper
  low = lower
  take_apart(mask)
  list = ""
  for (bit = 0; bit < 64; bit++) {
    at = 2 ^ (bit % 32)
    half = bit < 32 ? int(low / at) % 2 : int(high / at) % 2
    if (half && (bit < 32 ? int(lower / at) % 2 : int(upper / at) % 2) == in_mask)
      list = list " " (base + bit)
  }
  return list
}

# ---- Operations ---------------------------------------------------------------------------------

function word_at(place) { return place in word ? word[place] : "0" }

# Does an operation on the words, and notes whose lock it takes or gives back.
function perform(name, place, a, b, old,    now) {
  if (place + 0 >= all_words) fail("`" operation "` is on no word")
  now = word_at(place)
  if (name != "store" && !same(now, old))
    fail("`" operation "`, but the word is " now " by the operations before")
  if (name == "load") return
  if (name == "store") set_word(place, a)
  else if (name == "cas") { if (same(now, a)) set_word(place, b) }
  else set_word(place, result_of(name, now, a))
}

# Changes a word. The work lock and buckets are locked while they are odd. Of a page to which an entry
# leads it is kept which entry that is.
function set_word(place, value,    was) {
  place += 0
  look_up(place)
  if (sort == "entry") {
    delete entry_to[page_behind(place)]
    if (value != 0) entry_to[value - 1] = place
  }
  was = is_odd(word_at(place))
  word[place] = value ""
  changed = place
  if (sort != "lock" && sort != "bucket") return
  if (!was && is_odd(value)) {
    holder[place] = worker
    held[worker] = held[worker] " " place
  } else if (was && !is_odd(value)) {
    held[holder[place]] = without(held[holder[place]], place)
    delete holder[place]
  }
}

# A list of places without this one.
function without(list, place,    n, i, each, rest) {
  n = split(list, each, " ")
  rest = ""
  for (i = 1; i <= n; i++) if (each[i] != place) rest = rest " " each[i]
  return rest
}

# ---- What stands at a place, and what its word means --------------------------------------------

# Sets `name` and `sort` of the word at a place: what a reader calls it, and how it is read.
function look_up(place,    at, number) {
  place += 0
  sort = "number"
  if (place < 24) name_single(place)
  else if (place < node_map) name_slot(int((place - 24) / 32), (place - 24) % 32)
  else if (place < page_map) { name = "the node map"; sort = "map" }
  else if (place < node_words) { name = "the page map"; sort = "map" }
  else if (place < page_words) {
    at = (place - node_words) % 4
    number = "node " int((place - node_words) / 4)
    if (at == 0) { name = "the link of " number; sort = "link" }
    else if (at == 1) name = "the port of " number
    else if (at == 2) name = "the owner of " number
    else { name = "the list link of " number; sort = "link" }
  }
  else name_page_word(place)
}

function name_single(place) {
  if (place == 0) { name = "the current table"; sort = "table" }
  else if (place == 1) { name = "the work lock"; sort = "lock" }
  else if (place == 2) name = "the count of ports"
  else if (place == 3) name = "the next serial"
  else if (place == 4) name = "the count of workers"
  else if (place < 8) name = "word " place
  else { name = "the section word of worker " (place - 7); sort = "section" }
}

function name_slot(slot, at) {
  if (at == 0) { name = "the shape of table " slot; sort = "shape" }
  else if (at == 1) name = "the seed of table " slot
  else if (at == 2) { name = "the future of table " slot; sort = "future" }
  else if (at == 3) name = "the serial of table " slot
  else if (at == 4) { name = "the state of table " slot; sort = "state" }
  else if (at >= 8 && at < 24) name = "the section word of worker " (at - 7) " in table " slot
  else name = "word " at " of table " slot
}

# A word of a page: a bucket, or an entry of a nested table, of whatever table has it.
function name_page_word(place,    slot) {
  for (slot = 0; slot < 8; slot++) {
    if (word_at(24 + 32 * slot + 4) == 0) continue
    read_shape(slot)
    if (!find_in_table(place)) continue
    sort = depth < levels ? "entry" : "bucket"
    if (depth == 0 || sort == "bucket") name = sort " " number " of table " slot
    else name = "entry " word_in_page(place) " of page " page_of(place)
    return
  }
  name = "word " word_in_page(place) " of page " page_of(place)
}

function page_of(place) { return int((place - page_words) / 64) }
function word_in_page(place) { return (place - page_words) % 64 }

# The page to which an entry leads, or -1.
function page_behind(place,    page) {
  page = word_at(place) - 1
  return page < pages ? page : -1
}

# Whether a word of a page is of the table whose shape was read. If so, sets `depth`, behind how many
# entries it is, and `number`, what the way to it reads as: an entry's place in the top page has the
# lowest bits, and each further word's place in its page the bits from `step` on.
function find_in_table(place,    page) {
  if (place >= buckets && place < buckets + first_words) {
    depth = 0
    number = place - buckets
    step = first_words
    return 1
  }
  page = page_of(place)
  if (!levels || !(page in entry_to) || !find_in_table(entry_to[page])) return 0
  depth++
  number += step * word_in_page(place)
  step *= 64
  return 1
}

# Sets `size` and `levels` of a table, `buckets` and `first_words`: how many buckets it has, and behind
# how many entries each is, 0 in a flat table; where its first words begin, and how many they are, the
# buckets of a flat table or the entries in the top page of a nested one.
function read_shape(slot) { take_shape(word_at(24 + 32 * slot)) }
function take_shape(shape,    nest) {
  size = 2 ^ (shape % 32)
  nest = int(shape / 32) % 32
  levels = nest == 0 ? 0 : size < 8192 ? 1 : 2
  first_words = nest == 0 ? size : 2 ^ nest
  buckets = page_words + 64 * int(shape / 1024)
}

# The buckets of the table whose shape was read, in words.
function shape_text() {
  if (!levels) return size " buckets from [" buckets "]"
  return size " buckets behind " first_words " entries of page " page_of(buckets) " from [" buckets "]"
}

# A word in words. `sort` is that of its place.
function meaning(value) {
  if (sort == "table") return "table " value
  if (sort == "lock") return value == 0 ? "free" : "taken"
  if (sort == "state") return value == 0 ? "free" : value == 1 ? "taken" : "retired"
  if (sort == "future") return value == 0 ? "none" : "table " (value - 1)
  if (sort == "shape") { take_shape(value); return shape_text() }
  if (sort == "entry") return value == 0 ? "none" : "page " (value - 1)
  if (sort == "link") return link_text(value)
  if (sort == "bucket") return bucket_text(value) (is_odd(value) ? ", locked" : "")
  return value
}

function link_text(value) {
  if (value == 0) return "none"
  return is_odd(value) ? "end of [" ((value - 1) / 2) "]" : "node " (value / 2 - 1)
}

# A bucket's word without its lock.
function bucket_text(value) {
  value -= value % 2
  return value == 0 ? "empty" : link_text(value)
}

# An operation in words, before it is done.
function in_words(op, place, a, b,    now) {
  look_up(place)
  now = word_at(place)
  if (op == "load") return "reads " name (sort == "map" ? "" : ": " meaning(now))
  if (op == "store") return store_in_words(now, a)
  if (op == "cas") return cas_in_words(place, now, a, b)
  if (op == "add" && sort == "section") return (is_odd(now) ? "closes" : "opens") " its read section"
  if (op == "add") return "adds " a " to " name ", which was " now
  if (op == "sub") return "subtracts " a " from " name ", which was " now
  return map_in_words(op, place, now, a)
}

function store_in_words(now, value) {
  if (sort == "lock" && value == 0) return "gives " name " back"
  if (sort != "bucket" || !is_odd(now)) return "sets " name " to " meaning(value)
  if (is_odd(value)) return "sets " name " to " meaning(value) " still"
  if (now - 1 == value) return "unlocks " name
  return "sets " name " to " meaning(value) " and unlocks it"
}

function cas_in_words(place, now, a, b) {
  if (!same(now, a))
    return "changes nothing: " name " is " meaning(now) ", not " meaning(a)
  if (sort == "bucket" && !is_odd(a) && b - 1 == a) return "locks " name
  if (sort == "lock") return "takes " name
  if (sort == "future") return "attaches " meaning(b) " as " name
  if (sort == "entry") return "enters " meaning(b) " in " name
  return "exchanges " meaning(a) " for " meaning(b) " in " name
}

# An operation on a map: which nodes or pages it takes or gives back.
function map_in_words(op, place, now, mask,    base, what, list) {
  base = 64 * (place < page_map ? place - node_map : place - page_map)
  what = place < page_map ? "node" : "page"
  if (op == "or") return "gives back " what bits_beside(mask, now, 0, base)
  list = bits_beside(now, mask, 0, base)
  return list == "" ? "finds each " what " taken that it wanted" : "takes " what list
}
