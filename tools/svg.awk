# What an SVG is written with, for tools/draw and bench/draw: texts, boxes and lines are kept as they
# come, and printed at the end, when it's known how large the whole is. A letter is 8 wide. `svg_high`
# is the height at which the next text stands, and `svg_wide` how far to the right texts have come.

# A text without the blanks behind it, which an SVG would drop.
function svg_text(left, text, more,    wide) {
  sub(/ +$/, "", text)
  wide = 8 * length(text)
  if (left + wide > svg_wide) svg_wide = left + wide
  gsub(/&/, "\\&amp;", text)
  gsub(/</, "\\&lt;", text)
  svg_add("<text x=\"" left "\" y=\"" svg_high "\" textLength=\"" wide "\"" more ">" text "</text>")
}

function svg_rect(left, top, wide, high, color, more) {
  svg_add("<rect x=\"" left "\" y=\"" top "\" width=\"" wide "\" height=\"" high \
    "\" fill=\"" color "\"" more "/>")
}

function svg_path(way, more) { svg_add("<path d=\"" way "\"" more "/>") }

function svg_add(text) { svg_part[++svg_parts] = text }

# All of it, on white, so that it can be read on a dark page as well.
function print_svg(    i) {
  svg_wide += 16
  print "<svg xmlns=\"http://www.w3.org/2000/svg\" width=\"" svg_wide "\" height=\"" svg_high \
    "\" viewBox=\"0 0 " svg_wide " " svg_high "\" font-family=\"monospace\" font-size=\"13\">"
  print "<rect width=\"100%\" height=\"100%\" fill=\"#fff\"/>"
  for (i = 1; i <= svg_parts; i++) print svg_part[i]
  print "</svg>"
}
