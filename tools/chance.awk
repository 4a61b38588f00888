# Numbers by chance for tools/soak: the same for the same seed, whichever awk it is.

function begin_chance(seed, number,    i) {
  chance = ((seed % 46337) * 46339 + number * 7919) % 2147483646 + 1
  for (i = 0; i < 8; i++) below(2)
}

# the next number below n
function below(n) {
  chance = (chance * 16807) % 2147483647
  return int(chance / 2147483647 * n)
}

function one_of(a, b, c) { return below(3) == 0 ? a : below(2) ? b : c }
