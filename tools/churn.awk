# The long runs of tools/soak: workers churn on few nodes. Draws a script by chance, and weighs what a run of it has printed.
#
#   form=draw    prints the script of `seed` and `number`: `workers`, `lines` calls of theirs, and then a tail
#   form=weigh   reads a script and its text, and weighs what was bound against what was taken out
#
# All that is asked is so in every order of the calls, so no order is searched. A weighing is one line: `whole`, and then how often
# something was bound, how many nodes must have come back, the answers `nonode`, and whether all nodes were free again in the tail.
# Otherwise it is `lost:` and why, and the status is 1.

BEGIN {
  nodes = 64
  if (form == "draw") {
    draw()
    exit
  }
}

# ---- A script by chance -------------------------------------------------------------------------

# With one worker one port less than nodes, so that nodes suffice at each of its calls. With several each may have taken out some that it
# gives back later.
function draw(    i, kind, worker) {
  begin_chance(seed, number)
  kind = workers > 1 && below(2) ? "listed" : "single"
  ports = workers > 1 ? 24 : nodes - 1
  print "table " kind " nodes " nodes " workers " workers " rewalks " one_of(0, 1, 8) options()
  for (i = 1; i <= lines; i++) {
    worker = 1 + below(workers)
    print worker, drawn_call(kind)
  }
  draw_tail(kind)
}

# One worker has a table that grows once and never shrinks, so that no bind is refused for want of a table.
function options() { return workers == 1 ? "" : (below(2) ? " hint 3" : "") (below(2) ? " shrink on" : "") }

function drawn_call(kind,    port, what) {
  port = 1 + below(ports)
  what = below(100)
  if (what < 38) return "bind " port " " 1 + below(2)
  if (what < 76) return "release " port " " 1 + below(2)
  if (what < 84) return "find " port
  if (what < 92) return tidies ? "tidy" : "count"
  return kind == "listed" && below(2) ? "all " port : "rebind " port " " 1 + below(2) " " 1 + below(2)
}

# The other workers tidy now and then, look up a port in between, and end. The first one waits for them by looking up that port, releases
# all that can be bound, tidies, and binds a port of its own for each node.
function draw_tail(kind,    worker, i, port, owner) {
  for (worker = 2; worker <= workers; worker++) for (i = 0; i < 9 && tidies; i++) {
    print worker, "tidy"
    dawdle(worker, lines / 40)
  }
  if (workers > 1) dawdle(1, lines)
  for (port = 1; port <= ports; port++)
    for (owner = 1; owner <= 2; owner++)
      for (i = kind == "listed" ? 8 : 1; i > 0; i--) print 1, "release", port, owner
  for (i = 0; i < 9; i++) if (tidies) print 1, "tidy"
  for (i = 1; i <= nodes; i++) print 1, "bind", 1000 + i, 9
}

function dawdle(worker, many) {
  while (many-- > 0) print worker, "find 0"
}

# ---- A script and what was printed --------------------------------------------------------------

FNR == 1 { files++ }
files == 1 && $1 == "table" {
  single = $2 == "single"
  next
}
files == 1 {
  calls[$1, ++many_calls[$1]] = $0
  next
}

/^[0-9]+: / {
  worker = $1 + 0
  split(calls[worker, ++many_replies[worker]], call, " ")
  weigh(worker, call[2], $2)
  next
}
$1 == "port" {
  keys++
  if (single && NF > 3) fault("port " $2 + 0 " has two owners")
  for (i = 3; i <= NF; i++) listed[$2 + 0, $i]++
  next
}
$1 == "size" {
  closed = 1
  if ($4 != keys + 0) fault($4 " keys, and " keys + 0 " ports are listed")
  next
}
{ fault("a line that is no reply: " $0) }

function fault(why) {
  if (!faults++) first_fault = why
}

# What the reply says of what is bound: `held` is how often a port was bound to an owner more than it was taken out. `call` is the
# call's line. A reply that isn't one of its call's is a fault.
function weigh(worker, what, reply,    fits) {
  fits = " " replies_to(what) " "
  if (!index(fits, " " reply " ")) fault("worker " worker " was answered " reply " to a " what)
  if (what == "bind" && reply == "bound") put(call[3], call[4], 1)
  if (what == "release" && reply == "released") put(call[3], call[4], -1)
  if (what == "rebind" && reply == "rebound") {
    put(call[3], call[4], -1)
    put(call[3], call[5], 1)
  }
  if (reply == "bound" || reply == "rebound") bound++
  if (reply == "released" || reply == "rebound") out[worker]++
  if (reply == "nonode") unserved++
  if (reply == "clear") {
    out[worker] -= $3
    if (out[worker] < 0) fault("worker " worker " got more nodes back than it took out")
  }
  if (call[3] > 1000 && reply == "bound") in_tail++
}

function replies_to(what) {
  if (what == "bind") return "bound nonode busy notable" (single ? " exists" : "")
  if (what == "release") return "released absent"
  if (what == "rebind") return "rebound absent nonode"
  if (what == "find") return "found missing"
  if (what == "all") return "list"
  if (what == "count") return "count"
  if (what == "tidy") return "clear pending"
  return ""
}

function put(port, owner, many) { held[port + 0, owner] += many }

END {
  if (form == "draw") exit
  if (!closed) fault("the last line is missing")
  for (worker in many_calls)
    if (many_calls[worker] != many_replies[worker])
      fault("worker " worker " gave " many_calls[worker] " calls, and was answered " many_replies[worker] + 0)
  for (pair in held) if (held[pair] != listed[pair] + 0) fault(told(pair))
  for (pair in listed) if (listed[pair] != held[pair] + 0) fault(told(pair))
  if (faults) {
    print "lost: " first_fault
    exit 1
  }
  came = bound - nodes
  print "whole", bound + 0, (came > 0 ? came : 0), unserved + 0, (in_tail == nodes)
}

function told(pair,    parts) {
  split(pair, parts, SUBSEP)
  return "port " parts[1] " was bound to " parts[2] " " held[pair] + 0 " times more than taken out, and is listed " listed[pair] + 0 " times"
}
