# The small runs of tools/soak: draws a script by chance, and judges what a run of it has printed.
#
#   form=draw    prints the script of `seed` and `number`. `tidies` says whether the program knows `tidy`, and `spread` how long
#                workers dawdle
#   form=judge   reads a script and its text, and searches for an order of the replies that is legal. Where `claims` names a file it
#                writes the order that it finds there, as a claimed history for `rht check`
#
# A judgement is one line: `legal`, and then the states that were searched, whether the workers were mixed, the answers `nonode`, the
# tidyings that had to wait, and the claims that were written. Otherwise it is `wrong:` and why, and the status is 1.

BEGIN {
  if (form == "draw") {
    draw()
    exit
  }
}

# ---- A script by chance -------------------------------------------------------------------------

function draw(    i, calls, kind, line, owners_differ, worker) {
  begin_chance(seed, number)
  kind = below(2) ? "listed" : "single"
  line = "table " kind " nodes 8 workers 4 rewalks " one_of(0, 1, 8)
  # few buckets and many ports, so that tables grow and shrink meanwhile; or few ports, which all workers want
  small = below(2)
  if (small) line = line " hint 3"
  if (below(2)) line = line " shrink on"
  if (below(2)) line = line " hash low"
  if (below(small ? 2 : 4) == 0) line = line " work manual"
  # ports of two nets share their numbers
  nets = below(3) == 0
  if (nets) line = line " form 2"
  print line
  ports = small ? 4 + below(5) : 2 + below(4)
  owners_differ = below(2)
  calls = 20 + below(21)
  for (i = 1; i <= calls; i++) {
    worker = 1 + below(4)
    if (below(2)) dawdle(worker)
    print worker, drawn_call(kind, owners_differ, drawn_port(worker))
  }
}

# Look-ups of port 0, which nobody binds. A thread takes longer to start than a worker takes for its calls, so these spread the calls
# of each worker over the time in which all threads have started. A judgement asks that they are missing, and drops them.
function dawdle(worker,    i) {
  for (i = below(spread); i > 0; i--) print worker, "find 0"
}

# An owner that nobody had, or one of three.
function new_owner(port, owners_differ,    owner) {
  owner = owners_differ ? ++owners_so_far : 1 + below(3)
  had[port, ++times[port]] = owner
  return owner
}

# An owner that the port gets by some line above, or one of three.
function old_owner(port) { return times[port] ? had[port, 1 + below(times[port])] : 1 + below(3) }

# Often the port of the worker's last call: what a worker does to one port says most about the order.
function drawn_port(worker) {
  if (!(worker in last_port) || below(2)) last_port[worker] = (nets && below(2) ? "3." : "") 1 + below(ports)
  return last_port[worker]
}

function drawn_call(kind, owners_differ, port,    what, old) {
  what = below(100)
  if (what < (small ? 48 : 38)) return "bind " port " " new_owner(port, owners_differ)
  if (what < 62) return "release " port " " old_owner(port)
  if (what < 80) return "find " port
  if (what < 84) return "count"
  if (what < 89 && tidies) return "tidy"
  if (kind == "listed" && below(2)) return "all " port
  old = old_owner(port)
  return "rebind " port " " old " " new_owner(port, owners_differ)
}

# ---- A script and what was printed --------------------------------------------------------------

FNR == 1 { files++ }

# the script: of each worker its calls in order
files == 1 && $1 == "table" {
  table_line = $0
  single = $2 == "single"
  workers = 1
  for (i = 3; i < NF; i += 2) {
    if ($i == "workers") workers = $(i + 1)
    if ($i == "nodes") nodes = $(i + 1)
  }
  next
}
files == 1 {
  worker = $1
  sub(/^[0-9]+ /, "")
  calls[worker, ++many_calls[worker]] = $0
  if (NF > 1) named[$2]
  next
}

# the text: of each worker its replies in order, and what is bound at last
/^[0-9]+: / {
  worker = $1 + 0
  sub(/^[0-9]+: /, "")
  replies[worker, ++many_replies[worker]] = $0
  next
}
$1 == "port" {
  port = $2
  sub(/:$/, "", port)
  if (!(port in named)) fault("port " port " is bound at last, and no call names it")
  if (keys && key_of(port) <= key_before) fault("the bound ports don't rise")
  key_before = key_of(port)
  keys++
  owners = $3
  for (i = 4; i <= NF; i++) owners = owners "," $i
  last_owners[port] = owners
  next
}
$1 == "size" {
  if ($4 != keys + 0) fault($4 " keys, and " keys + 0 " ports are listed")
  closed = 1
  next
}
{ fault("a line that is no reply: " $0) }

# ports rise by their nets, and in a net by their numbers
function key_of(port,    part) {
  return split(port, part, ".") == 2 ? part[1] * 4294967296 + part[2] : port + 0
}

function fault(why) {
  if (!faults++) first_fault = why
}

END {
  if (form == "draw") exit
  judge()
  if (faults) {
    print "wrong: " first_fault
    exit 1
  }
  if (claims != "") write_claims()
  print "legal", searched + 0, mixed + 0, unserved + 0, waited + 0, claimed + 0
}

# ---- The search ---------------------------------------------------------------------------------

function judge(    worker, i, bound, at, port, last) {
  if (!closed) fault("the last line is missing")
  for (worker = 1; worker <= workers; worker++) {
    if (many_calls[worker] + 0 != many_replies[worker] + 0)
      fault("worker " worker " gave " many_calls[worker] + 0 " calls, and was answered " many_replies[worker] + 0)
    at = at (worker > 1 ? " " : "") "0"
  }
  if (faults) return
  for (worker = 1; worker <= workers; worker++) {
    drop_dawdling(worker)
    look_at_tidyings(worker)
  }
  # all ports that a call names, each with its owners: first none, and at last those that are printed
  bound = last = ";"
  for (port in named) {
    bound = bound port "=;"
    last = last port "=" last_owners[port] ";"
  }
  if (faults) return
  if (!leads(at, bound, last)) fault("no order of the replies is legal and leaves what is bound at last")
  else mixed = !one_after_another(at, bound, last)
}

# All calls of the worker stay in `asked`, with their replies in `answered`. `place_of` has the places there of the calls that are kept.
function drop_dawdling(worker,    i, left) {
  many_asked[worker] = many_calls[worker] + 0
  for (i = 1; i <= many_calls[worker]; i++) {
    asked[worker, i] = calls[worker, i]
    answered[worker, i] = replies[worker, i]
    if (calls[worker, i] != "find 0") {
      calls[worker, ++left] = calls[worker, i]
      replies[worker, left] = replies[worker, i]
      place_of[worker, left] = i
    } else if (replies[worker, i] != "missing") fault("port 0 was " replies[worker, i])
  }
  many_calls[worker] = many_replies[worker] = left + 0
}

# Whether the workers may have run one after another: some order of them in which each makes all its calls at once.
function one_after_another(at, bound, last,    place, worker, i, left) {
  split(at, place, " ")
  for (worker = 1; worker <= workers; worker++) {
    if (place[worker] > 0 || many_calls[worker] == 0) continue
    left++
    after = bound
    for (i = 1; i <= many_calls[worker]; i++) if (!is_right(worker, i, after)) break
    if (i > many_calls[worker] && one_after_another(with_one_more(at, worker), after, last)) return 1
  }
  return left == 0 && bound == last
}

# What a tidying may answer: as many nodes as the worker took out, and that another worker was in its section.
function look_at_tidyings(worker,    i, parts, out) {
  for (i = 1; i <= many_replies[worker]; i++) {
    split(replies[worker, i], parts, " ")
    if (parts[1] == "released" || parts[1] == "rebound") out++
    if (parts[1] == "nonode") unserved++
    if (calls[worker, i] != "tidy") continue
    if (parts[1] == "clear") {
      if (parts[2] > out + 0) fault("worker " worker " got " parts[2] " nodes back, and had taken out " out + 0)
      out -= parts[2]
    } else if (parts[1] == "pending") {
      waited++
      if (parts[2] + 1 == worker || parts[2] >= workers) fault("worker " worker " waits for caller " parts[2])
      if (substr(parts[3], length(parts[3])) !~ /[13579]/) fault("worker " worker " waits for an even word")
    } else fault("a tidy was answered " replies[worker, i])
  }
}

# Whether the replies that are left have a legal order from these bindings to the last ones. `at` has how
# many replies of each worker are behind us.
#
# A reply that is right here and changes nothing is taken at once: an order that takes it later can take it
# here as well. So there is a choice only among those that change what is bound. A state is searched once.
#
# Where they have one, `order` has the workers of the `taken` replies, from the first on.
function leads(at, bound, last,    place, worker, left, here, before, silent) {
  split(at, place, " ")
  left = 0
  here = ""
  before = taken
  for (worker = 1; worker <= workers; worker++) {
    while (place[worker] < many_calls[worker] && is_right(worker, place[worker] + 1, bound) && !changes) {
      place[worker]++
      order[++taken] = worker
    }
    left += many_calls[worker] - place[worker]
    here = here (worker > 1 ? " " : "") place[worker]
  }
  if (left == 0 && bound == last) return 1
  if (left > 0 && !((here bound) in seen)) {
    seen[here bound]
    searched++
    silent = taken
    for (worker = 1; worker <= workers; worker++) {
      if (place[worker] == many_calls[worker] || !is_right(worker, place[worker] + 1, bound)) continue
      taken = silent
      order[++taken] = worker
      if (leads(with_one_more(here, worker), after, last)) return 1
    }
  }
  taken = before
  return 0
}

function with_one_more(here, worker,    place, i, text) {
  split(here, place, " ")
  place[worker]++
  for (i = 1; i <= workers; i++) text = text (i > 1 ? " " : "") place[i]
  return text
}

# ---- The order as claims -------------------------------------------------------------------------

# Writes the order that was found as a claimed history. It has each reply of a call about bindings, the look-ups of port 0 among them:
# these come right before their worker's next reply, since nobody binds that port. `tidy` and `count` have no place in such a history.
function write_claims(    worker, i) {
  print table_line >claims
  for (worker = 1; worker <= workers; worker++)
    for (i = 1; i <= many_asked[worker]; i++) if (is_about_bindings(asked[worker, i])) print worker, asked[worker, i] >claims
  print "history" >claims
  for (i = 1; i <= taken; i++) write_up_to(order[i], place_of[order[i], ++ordered[order[i]]])
  for (worker = 1; worker <= workers; worker++) write_up_to(worker, many_asked[worker])
  close(claims)
}

# the replies of the worker that aren't written yet, up to this one
function write_up_to(worker, last) {
  while (written[worker] < last) {
    written[worker]++
    if (!is_about_bindings(asked[worker, written[worker]])) continue
    print worker ": " answered[worker, written[worker]] >claims
    claimed++
  }
}

function is_about_bindings(call) { return call ~ /^(bind|find|all|release|rebind) / }

# ---- One call on bindings -----------------------------------------------------------------------

# Whether the call may be answered so where this is bound. Then `changes` says whether it changes that, and `after` is what is bound then.
function is_right(worker, i, bound,    call, reply, owners, first, many) {
  split(calls[worker, i], call, " ")
  split(replies[worker, i], reply, " ")
  changes = 0
  after = bound
  if (call[1] == "tidy") return 1
  if (call[1] == "count") {
    many = gsub(/=[0-9]/, "&", bound)
    return reply[1] == "count" && many <= reply[2] && reply[2] <= many + workers - 1 && reply[2] <= nodes
  }
  owners = owners_in(bound, call[2])
  first = owners
  sub(/,.*/, "", first)
  if (call[1] == "find")
    return owners == "" ? reply[1] == "missing" : reply[1] == "found" && reply[2] == first
  if (call[1] == "all") {
    gsub(/,/, " ", owners)
    return replies[worker, i] == (owners == "" ? "list" : "list " owners)
  }
  if (call[1] == "bind") {
    if (reply[1] == "nonode" || reply[1] == "toobig" || reply[1] == "busy" || reply[1] == "notable") return 1
    if (single && owners != "") return reply[1] == "exists" && reply[2] == first
    return reply[1] == "bound" && change(bound, call[2], owners == "" ? call[3] : call[3] "," owners)
  }
  if (call[1] == "release") {
    if (!is_among(call[3], owners)) return reply[1] == "absent"
    return reply[1] == "released" && change(bound, call[2], without_first(call[3], owners))
  }
  if (call[1] == "rebind") {
    if (reply[1] == "nonode") return 1
    if (!is_among(call[3], owners)) return reply[1] == "absent"
    return reply[1] == "rebound" && change(bound, call[2], with_another(call[3], call[4], owners))
  }
  return 0
}

function change(bound, port, owners,    at, rest) {
  changes = 1
  at = index(bound, ";" port "=") + length(port) + 2
  rest = substr(bound, at)
  after = substr(bound, 1, at - 1) owners substr(rest, index(rest, ";"))
  return 1
}

function owners_in(bound, port,    rest) {
  rest = substr(bound, index(bound, ";" port "=") + length(port) + 2)
  return substr(rest, 1, index(rest, ";") - 1)
}

function is_among(owner, owners) { return index("," owners ",", "," owner ",") > 0 }

# the owners with a new one in the place of the first that is this one
function with_another(owner, new, owners,    text, at) {
  text = "," owners ","
  at = index(text, "," owner ",")
  text = substr(text, 1, at) new substr(text, at + length(owner) + 1)
  return substr(text, 2, length(text) - 2)
}

# the owners without the first that is this one
function without_first(owner, owners,    text, at) {
  text = "," owners ","
  at = index(text, "," owner ",")
  text = substr(text, 1, at) substr(text, at + length(owner) + 2)
  return substr(text, 2, length(text) - 2)
}
