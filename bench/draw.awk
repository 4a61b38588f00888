# The drawings of bench/draw, from the table of a record alone.
#
#   awk -v name=RECORD -v form=calls|threads -f draw.awk -f svg.awk bench/RECORD.md
#
# A row has a bar for each program that the table has figures of. `calls` has the figures of one thread,
# with an axis of its own for each kind of work, since a bind takes many times what a look-up does.
# `threads` has the figure of one thread by that of four, where a row has both. Rows in which the clock is
# read around each call aren't drawn.

BEGIN {
  programs = split("rht;C, with the same clamps;bare C", program, ";")
  split("#06c;#e80;#999", color, ";")
  axis_left = 152
  axis_wide = 480
}

/at commit / && made == "" {
  match($0, /at commit [^;]*/)
  made = substr($0, RSTART + 3, RLENGTH - 3)
  sub(/\. /, ", ", made)
}
/^\| row \| threads \| calls \| rht \| C \| bare C \|/ { in_table = 1; next }
!/^\|/ { in_table = 0 }
in_table && !/^\|-/ { take_row() }

END {
  if (!rows) {
    print "draw: " name " has no table of nanoseconds" > "/dev/stderr"
    exit 1
  }
  if (form == "threads") draw_threads(); else draw_calls()
  svg_high += 16
  print_svg()
}

# A line of the table: what the programs take in a row by so many threads.
function take_row(    cell, i) {
  split($0, cell, / *\| */)
  gsub(/`/, "", cell[2])
  if (cell[2] ~ /^timed_/) return
  if (cell[3] == 1) row[++rows] = cell[2]
  for (i = 1; i <= programs; i++) nanos[cell[2], cell[3], i] = cell[4 + i]
}

# ---- The two drawings ---------------------------------------------------------------------------

function draw_calls(    i, j, first) {
  draw_head("Nanoseconds a call by one thread, the best of all runs: less is better")
  for (i = 1; i <= rows; i++)
    for (j = 1; j <= programs; j++) value[i, j] = nanos[row[i], 1, j]
  for (i = 1; i <= rows; i++) {
    if (kind_of(row[i]) != kind_of(row[i - 1])) first = i
    if (kind_of(row[i]) != kind_of(row[i + 1])) draw_rows(kind_of(row[i]) ": nanoseconds", first, i, 0)
  }
}

function draw_threads(    i, j) {
  while (rows && !((row[rows], 4, 1) in nanos)) rows--
  draw_head("How many times as many calls four threads do as one, by the best of all runs: more is better")
  for (i = 1; i <= rows; i++)
    for (j = 1; j <= programs; j++)
      value[i, j] = nanos[row[i], 4, j] > 0 ? sprintf("%.2f", nanos[row[i], 1, j] / nanos[row[i], 4, j]) : ""
  draw_rows("Times as many: 1 is no more than one thread, 4 is all that four can do", 1, rows, 4)
}

# What stands side by side on one axis.
function kind_of(name) {
  if (name ~ /^(hits|apart|common|misses|mixed)_/) return "Look-ups, and mixed calls"
  if (name ~ /^(churn|binds)_/) return "Binds, and binds with releases"
  if (name ~ /^(resting|resizing)_/) return "Look-ups in a table at rest, and beside a resizing"
  sub(/_of_.*/, "", name)
  return name == "growth" ? "Binds in a table that grows" : name
}

# The title, which record it is of, and which color is whose.
function draw_head(title,    i, left) {
  svg_high = 28
  svg_text(16, title, " font-weight=\"bold\"")
  svg_high += 20
  svg_text(16, "bench/" name ".md, " made, "")
  svg_high += 26
  left = 16
  for (i = 1; i <= programs; i++) {
    draw_bar(left, 24, i)
    svg_text(left + 32, program[i], "")
    left += 32 + 8 * length(program[i]) + 24
  }
}

# ---- Bars ---------------------------------------------------------------------------------------

# Rows on one axis, which goes from 0 to the greatest value, or to `least` where that is more.
function draw_rows(title, from, to, least,    i, j, most, step, ticks, bars, at) {
  most = least
  bars = 0
  for (i = from; i <= to; i++)
    for (j = 1; j <= programs; j++)
      if (value[i, j] != "") {
        bars++
        if (value[i, j] + 0 > most) most = value[i, j] + 0
      }
  step = step_of(most)
  for (ticks = 1; ticks * step < most; ticks++) continue
  svg_high += 36
  svg_text(16, title, " font-weight=\"bold\"")
  svg_high += 24
  for (i = 0; i <= ticks; i++) {
    at = axis_left + int(axis_wide * i / ticks)
    svg_text(at - 4 * length(i * step ""), i * step "", "")
    svg_path("M" at " " (svg_high + 6) "v" (16 * bars + 8 * (to - from + 1) + 4), " stroke=\"" (i ? "#ddd" : "#000") "\"")
  }
  svg_high += 8
  for (i = from; i <= to; i++) {
    svg_high += 16
    svg_text(16, row[i], "")
    svg_high -= 16
    for (j = 1; j <= programs; j++)
      if (value[i, j] != "") {
        svg_high += 16
        at = int(axis_wide * value[i, j] / (ticks * step) + 0.5)
        draw_bar(axis_left, at, j)
        svg_text(axis_left + at + 6, value[i, j], "")
      }
    svg_high += 8
  }
}

function draw_bar(left, wide, which) { svg_rect(left, svg_high - 11, wide, 13, color[which], "") }

# How far one tick is from the next: 1, 2 or 5 of a power of ten, so that there are at most eight.
function step_of(most,    step) {
  for (step = 1; ; step *= 10) {
    if (most <= 8 * step) return step
    if (most <= 16 * step) return 2 * step
    if (most <= 40 * step) return 5 * step
  }
}
