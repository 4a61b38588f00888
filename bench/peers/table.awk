# Prints the tables of bench/peers/run. A line of its input is a round, a table, a row, the keys, the threads, the
# nanoseconds an operation, and the operations of a thread beside a second. `tables` are the tables, null first and then
# that of this repository.

# the n figures of a key, in rising order, as sorted[1] .. sorted[n]
function sort_of(figures, key, n,    i, j, one) {
  for (i = 1; i <= n; i++) sorted[i] = figures[key, i]
  for (i = 2; i <= n; i++) {
    one = sorted[i]
    for (j = i - 1; j >= 1 && sorted[j] > one; j--) sorted[j + 1] = sorted[j]
    sorted[j + 1] = one
  }
}

# the median of what was sorted last
function median(n) { return n % 2 ? sorted[(n + 1) / 2] : (sorted[n / 2] + sorted[n / 2 + 1]) / 2 }

# a number with its thousands set off
function written(number,    text, at) {
  text = sprintf("%.0f", number)
  for (at = length(text) - 3; at > 0; at -= 3) text = substr(text, 1, at) "," substr(text, at + 1)
  return text
}

# why a table has no figure in a row, or nothing where it has one of each round
function lack_of(table, row,    i) {
  for (i = 1; i <= rounds[row]; i++) {
    if (!((table, row, i) in nanos)) return "failed"
    if (nanos[table, row, i] == "absent") return "not there"
  }
}

# the nanoseconds of a table in a row, null taken off: the median of the rounds
function nanos_of(table, row,    i) {
  if (lack_of(table, row)) return lack_of(table, row)
  for (i = 1; i <= rounds[row]; i++) net[row, i] = nanos[table, row, i] - nanos["null", row, i]
  sort_of(net, row, rounds[row])
  return median(rounds[row]) < 100 ? sprintf("%.1f", median(rounds[row])) : written(median(rounds[row]))
}

# the ratio of the first table by another one in a row, with the least and the greatest of the rounds
function ratio_of(table, row,    i, under) {
  if (lack_of(first, row) || lack_of(table, row)) return ""
  for (i = 1; i <= rounds[row]; i++) {
    under = nanos[table, row, i] - nanos["null", row, i]
    if (under <= 0) return ""
    ratio[row, i] = (nanos[first, row, i] - nanos["null", row, i]) / under
  }
  sort_of(ratio, row, rounds[row])
  return sprintf("%.2f (%.2f to %.2f)", median(rounds[row]), sorted[1], sorted[rounds[row]])
}

# what the thread beside did in a second: the median of the rounds
function rate_of(table, row,    i) {
  if (lack_of(table, row)) return lack_of(table, row)
  for (i = 1; i <= rounds[row]; i++) rates[row, i] = beside[table, row, i] + 0
  sort_of(rates, row, rounds[row])
  return written(median(rounds[row]))
}

function line(cells, n,    i, text) {
  text = "|"
  for (i = 1; i <= n; i++) text = text " " cells[i] " |"
  print text
}

function rule(n,    i, text) {
  text = "|"
  for (i = 1; i <= n; i++) text = text "---|"
  print text
}

# the first three cells of a row
function begin_row(row,    word) {
  split(row, word, " ")
  cells[1] = "`" word[1] "`"
  cells[2] = written(word[2])
  cells[3] = word[3]
}

{
  row = $3 " " $4 " " $5
  if (!(row in rounds)) order[++rows] = row
  round = $1 + 1
  if (round > rounds[row]) rounds[row] = round
  nanos[$2, row, round] = $6
  beside[$2, row, round] = $7
}

END {
  count = split(tables, table, " ")
  first = table[2]

  cells[1] = "row"; cells[2] = "keys"; cells[3] = "threads"; cells[4] = first
  n = 4
  for (t = 3; t <= count; t++) { cells[++n] = table[t]; cells[++n] = first " by " table[t] }
  print "Nanoseconds that an operation takes the thread which makes it, and ratios; what the driver itself takes is taken off both. Medians of the rounds; in brackets stand the least and the greatest ratio."
  print ""
  line(cells, n)
  rule(n)
  for (r = 1; r <= rows; r++) {
    begin_row(order[r])
    cells[4] = nanos_of(first, order[r])
    n = 4
    for (t = 3; t <= count; t++) {
      cells[++n] = nanos_of(table[t], order[r])
      cells[++n] = ratio_of(table[t], order[r])
    }
    line(cells, n)
  }

  print ""
  print "What the thread beside the look-ups did meanwhile, in a second: in `inserting` inserts and removals, in `resizing` changes of the size."
  print ""
  cells[1] = "row"; cells[2] = "keys"; cells[3] = "threads"
  for (t = 2; t <= count; t++) cells[t + 2] = table[t]
  line(cells, count + 2)
  rule(count + 2)
  for (r = 1; r <= rows; r++) {
    if (order[r] !~ /^(inserting|resizing) /) continue
    begin_row(order[r])
    for (t = 2; t <= count; t++) cells[t + 2] = rate_of(table[t], order[r])
    line(cells, count + 2)
  }

  print ""
  print "All figures, round by round, with what the driver takes:"
  print ""
  print "```text"
  for (r = 1; r <= rows; r++)
    for (t = 1; t <= count; t++) {
      text = order[r] " " table[t] ":"
      for (i = 1; i <= rounds[order[r]]; i++) text = text " " nanos[table[t], order[r], i]
      print text
    }
  print "```"
}
