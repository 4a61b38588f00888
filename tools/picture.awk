# The pictures of tools/draw: what draw.awk knows behind an event, as text, or by svg.awk as an SVG.

# ---- The picture of an event --------------------------------------------------------------------

# A picture is a list of lines, each of a kind: a title, a note, more of a note, a blank, or a chain,
# whose cells stand one behind the other, parted by tabs. A cell that begins with `!` shows a word
# that the event has changed.
function draw_event(    slot, next_slot, seen, text, by) {
  lines = 0
  add_line("title", "event " made ": " operation ": " words)
  slot = word_at(0) + 0
  text = "current"
  for (seen = 0; seen < 8; seen++) {
    add_line("blank", "")
    add_table(slot, text)
    next_slot = word_at(24 + 32 * slot + 2) - 1
    if (next_slot < 0) break
    text = "the future of table " slot
    slot = next_slot
  }
  add_retired()
  add_line("blank", "")
  for (by = 1; by <= workers; by++) if (by in commands) add_worker(by)
  add_line("blank", "")
  if (form == "svg") svg_lines(); else print_lines()
}

function add_line(what, text) {
  lines++
  line_kind[lines] = what
  line_text[lines] = text
}

# A table with its entries, where it is nested, and with its buckets that aren't empty or are locked, in
# the order of their numbers. The pages behind equally many entries are gone through together: words that
# are one behind the other in a page are `unit` apart in these numbers, and the one at `from` has that of `base`.
function add_table(slot, text,    wide, level, from, base, n, unit, each, behind, base_behind, found, i, at, page) {
  read_shape(slot)
  add_line("note", "table " slot ": " shape_text() ", " text)
  wide = width_of_names()
  from[1] = buckets
  base[1] = 0
  n = unit = 1
  each = first_words
  for (level = 0; level < levels; level++) {
    for (i = 1; i <= n; i++) add_entries(level, from[i], each, wide)
    found = 0
    for (at = 0; at < each; at++)
      for (i = 1; i <= n; i++) {
        page = page_behind(from[i] + at)
        if (page < 0) continue
        behind[++found] = page_words + 64 * page
        base_behind[found] = base[i] + unit * at
      }
    n = found
    for (i = 1; i <= n; i++) {
      from[i] = behind[i]
      base[i] = base_behind[i]
    }
    unit *= each
    each = 64
  }
  for (at = 0; at < each; at++)
    for (i = 1; i <= n; i++)
      if (word_at(from[i] + at) != 0) add_chain(base[i] + unit * at, from[i] + at, wide)
}

# A line for each retired table, with the section words that were kept of the workers, in their order.
function add_retired(    slot, by, list, found) {
  for (slot = 0; slot < 8; slot++) {
    if (word_at(24 + 32 * slot + 4) != 2) continue
    if (!found++) add_line("blank", "")
    list = ""
    for (by = 1; by <= workers; by++) list = list " " word_at(24 + 32 * slot + 7 + by)
    read_shape(slot)
    add_line("note", "table " slot ": " shape_text() ", retired, with the section words" list)
  }
}

# The longest name that a bucket or an entry of the table can have says how wide they are, so that
# chains begin side by side and stay where they are.
function width_of_names(    last, wide, other) {
  last = levels ? all_words - 1 : buckets + size - 1
  wide = length("bucket " (size - 1) " [" last "] *" workers)
  other = levels < 2 ? 0 : length("entry 63 of page " (pages - 1) " [" last "]")
  return wide > other ? wide : other
}

# The entries in a page of a nested table: a line for each that leads to a page, and then one for those
# that lead to none.
function add_entries(level, from, number, wide,    of, at, end, page, missing, list) {
  of = level == 0 ? "" : " of page " page_of(from)
  missing = 0
  list = ""
  for (at = 0; at < number; at = end) {
    end = at + 1
    page = page_behind(from + at)
    if (page >= 0) {
      add_line("chain", mark(from + at, 1) sprintf("%-" wide "s", "entry " at of " [" (from + at) "]") \
        "\tpage " page " from [" (page_words + 64 * page) "]")
      continue
    }
    while (end < number && page_behind(from + end) < 0) end++
    missing += end - at
    list = list (list == "" ? "" : ", ") at
    if (end > at + 1) list = list (end > at + 2 ? " to " : ", ") (end - 1)
  }
  if (match(list, /, [^,]*$/)) list = substr(list, 1, RSTART - 1) " and " substr(list, RSTART + 2)
  if (missing == 1) add_line("more", "entry " list of " leads to no page")
  else if (missing > 1) add_line("more", "entries " list of " lead to no page")
}

# A bucket's chain, from its word to its end. No chain has more nodes than there are. Of a long one the
# first node and the last are drawn and those that the operation is on, and how many there are between.
function add_chain(bucket, place, wide,    link, cells, n, chain, i, left_out) {
  cells = "bucket " bucket " [" place "]"
  if (place in holder) cells = cells " *" holder[place]
  cells = mark(place, 1) sprintf("%-" wide "s", cells)
  link = word_at(place)
  link -= link % 2
  if (link == 0) link = 2 * place + 1
  for (n = 0; !is_odd(link) && link != 0 && n <= nodes; link = word_at(node_words + 4 * chain[n]))
    chain[++n] = link / 2 - 1
  left_out = 0
  for (i = 1; i <= n; i++) {
    if (n > 8 && i > 1 && i < n && !is_among(looked_at, node_words + 4 * chain[i], 4)) {
      left_out++
      continue
    }
    if (left_out) cells = cells "\t" left_out " node" (left_out > 1 ? "s" : "")
    left_out = 0
    cells = cells "\t" mark(node_words + 4 * chain[i], 4) node_text(chain[i])
  }
  add_line("chain", cells "\t" link_text(link))
}

# Whether a place is that of one of so many words.
function is_among(place, from, number) { return place >= from && place < from + number }

# Whether the event has changed one of so many words.
function mark(place, number) { return is_among(changed, place, number) ? "!" : "" }

# A node with its port and its owner, and behind them the other nodes of its list.
function node_text(node,    at, text, link, seen) {
  at = node_words + 4 * node
  text = "node " node " (port " word_at(at + 1) ": " word_at(at + 2)
  link = word_at(at + 3)
  for (seen = 0; link != 0 && seen < nodes; seen++) {
    node = link / 2 - 1
    at = node_words + 4 * node
    text = text ", node " node ": " word_at(at + 2)
    link = word_at(at + 3)
  }
  return text ")"
}

# Where a worker stands: its call and what it did in it last, or how its last call was answered, and
# which locks it holds.
function add_worker(by,    text, i, n, each, locks) {
  if (in_call[by])
    text = command[by, calls[by]] ", operation " steps[by] ": " did[by]
  else if (calls[by]) text = command[by, calls[by]] " was answered: " answer[by]
  else text = "has begun nothing"
  add_line("note", "worker " by ": " text)
  n = split(held[by], each, " ")
  if (n == 0) return
  locks = ""
  for (i = 1; i <= n; i++) {
    look_up(each[i])
    locks = locks (i > 1 ? ", " : "") name
  }
  add_line("more", "holds " locks)
}

# ---- As text ------------------------------------------------------------------------------------

function print_lines(    i, text) {
  for (i = 1; i <= lines; i++) {
    text = line_text[i]
    if (line_kind[i] == "chain") {
      gsub(/\t!?/, " -> ", text)
      sub(/^!?/, "    ", text)
    } else if (line_kind[i] == "note") text = "  " text
    else if (line_kind[i] == "more") text = "    " text
    print text
  }
}

# ---- As an SVG ----------------------------------------------------------------------------------

# The lines of an event are put below those before, each 28 high, or 20 where it goes on with the one
# above, and 26 where that one has boxes.
function svg_lines(    i) {
  if (svg_high > 0)
    svg_path("M0 " svg_high "h10000", " stroke=\"#999\"")
  for (i = 1; i <= lines; i++) {
    if (line_kind[i] == "blank") { svg_high += 10; continue }
    svg_high += line_kind[i] != "more" ? 28 : line_kind[i - 1] == "chain" ? 26 : 20
    if (line_kind[i] == "chain") svg_chain(line_text[i])
    else if (line_kind[i] == "title") svg_text(16, line_text[i], " font-weight=\"bold\"")
    else svg_text(line_kind[i] == "more" ? 48 : 32, line_text[i], "")
  }
  svg_high += 8
}

# A chain: a box for its bucket and for each node, arrows between them, and its end. An entry is drawn
# alike, with the page that it leads to as the end.
function svg_chain(text,    n, i, cell, left) {
  n = split(text, cell, "\t")
  left = 48
  for (i = 1; i <= n; i++) {
    if (i > 1) {
      svg_path("M" left " " (svg_high - 5) "h26m-7 -4l7 4l-7 4", " fill=\"none\" stroke=\"#000\"")
      left += 28
    }
    if (i < n && cell[i] !~ /^[0-9]/) svg_box(left, cell[i], color_of(cell[i]))
    sub(/^!/, "", cell[i])
    svg_text(left + 6, cell[i], "")
    left += 8 * length(cell[i]) + 12
  }
}

function color_of(cell) {
  if (cell ~ /^!?node/) return "#fff"
  if (cell ~ /^!?entry/) return "#def"
  return cell ~ /\*/ ? "#fd9" : "#eee"
}

# The box of a cell, with a thick red line where the event has changed a word of it.
function svg_box(left, text, color,    line) {
  line = sub(/^!/, "", text) ? " stroke=\"#c00\" stroke-width=\"3\"" : " stroke=\"#000\""
  svg_rect(left, svg_high - 17, 8 * length(text) + 12, 24, color, line)
}
