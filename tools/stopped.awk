# The replays of tools/stopped: draws a script in which worker 1 stops, and judges its replay together with tools/sweep.awk, which
# has to be read behind this file.
#
#   form=plan    prints the script of `seed`, `number`, `table` and `kind`. `part` says how far its schedule goes: `before` to where
#                worker 1 and the tidier have done what comes before, `call` to the end of worker 1's call, `stop` to the very end.
#                `before` and `tidied` are the operations that those two have made by then, and `stop` those of the call
#   form=points  prints behind which of `many` operations worker 1 stops: of `most` by chance, where that is given
#   form=judge   reads a script and its replay; worker 1 makes `stop` operations in all
#
# A judgement is one line: `right`, the events, the replies, how many callers wait for the stopped one, how many of these by way of
# another, works answered `elsewhere`, tidyings answered `pending`, whether the stopped call's change has been made: 1 or 0, or - where
# nothing tells, and how many slots were given back behind the stop. Otherwise it is `wrong:`, the line of the replay and why, and the
# status is 1.

BEGIN {
  looker = 2
  setter = 3
  mover = 10
  late_looker = 12
  reader = 13
  tidier = 14
  # these two are of the table `current` alone
  filler = 15
  changer = 16
  if (form == "plan") plan()
  if (form == "points") points()
  if (form != "judge") exit
}

# of so many operations those behind which worker 1 stops
function points(    i) {
  begin_chance(seed, number)
  if (most) for (i = 1; i <= many && most > 0; i++) {
    if (below(many - i + 1) < most) {
      print i
      most--
    }
  } else for (i = 1; i <= many; i++) if (many <= 60 || i <= 30 || i > many - 10 || below(many - 40) < 20) print i
}

# ---- A script with a stopped caller -------------------------------------------------------------

function plan() {
  begin_chance(seed, 96 * number + 16 * index("fmnlc", substr(table, 1, 1)) + index("bfraswktc", kind_letter()))
  plan_table()
  plan_ports()
  plan_call()
  if (part != "before") plan_others()
  plan_schedule()
}
function kind_letter() { return kind == "rebind" ? "s" : kind == "walk" ? "w" : kind == "work" ? "k" : substr(kind, 1, 1) }

function plan_table(    line) {
  large = table == "nested" || table == "current"
  size = large ? 256 : table == "moved" ? 4 : 8
  line = "table " (table == "lists" ? "listed" : "single") " nodes " (large ? 40 : 24)
  line = line " pages " (table == "current" ? 10 : large ? 7 : 6) " hint " 3 * size / 4
  print line " workers " (table == "current" ? changer : tidier) " rewalks " below(3) " hash low work manual" (below(2) ? " shrink on" : "")
}

# Most ports lie in one bucket, of which a further table is made where that is full or the table is, and some in the next one.
function plan_ports(    i, base) {
  base = below(size - 1)
  many = large ? 18 + below(2) : table == "moved" ? 6 + below(2) : 5 + below(3)
  crowd = large ? 17 : 3 + below(2)
  if (table == "current") crowd++
  if (table == "current") many++
  for (i = 0; i < many; i++) {
    port_at[i] = i < crowd ? base + size * i : base + 1 + size * (i - crowd)
    owners_of[port_at[i]] = 10 + i
    print binder_of(i), "bind", port_at[i], 10 + i
  }
  if (table == "current") print changer, "work"
  if (table == "lists") for (i = 0; i < 4; i++) {
    owners_of[port_at[i % 3]] = 30 + i " " owners_of[port_at[i % 3]]
    print setter, "bind", port_at[i % 3], 30 + i
  }
  # one that the tidier releases, one that worker 1 binds and releases before, and free ones; behind a nested table that is the current one
  # the bucket of most ports is full, so there they are in another one behind the same entry
  beside_it = table == "current" ? 4 : 0
  gone = base + size * 20
  mine = base + beside_it + size * 21
  free = base + beside_it + size * 22
  free_behind = base + 1 + size * 22
  print setter, "bind", gone, 9
  print 1, "bind", mine, 9
  print 1, "release", mine, 9
  print tidier, "release", gone, 9
  print tidier, "tidy"
  print reader, "find", gone
}
# Where a nested table is to be the current one, 16 ports of one bucket come first. The changer's bind is about to attach a flat table when
# the setter's has to make a nested one, since no row of pages is left. So the changer gives its row back, and takes it for its work.
function binder_of(i) { return table != "current" || i == crowd - 1 ? setter : i == crowd - 2 ? changer : filler }
function bound_port() { return port_at[below(many)] }
function owner_of(port,    list) { return split(owners_of[port], list, " ") ? list[1 + below(length_of(list))] : 99 }
function length_of(list,    i, many) {
  for (i in list) many++
  return many
}

# worker 1's call: of a bound port or a free one, by an owner of it or another
function plan_call(    port, owner, other) {
  port = below(3) ? bound_port() : free
  if (kind == "bind") port = below(3) ? free : bound_port()
  owner = owner_of(port)
  other = below(4) == 0
  asked_port = port
  asked = kind
  if (kind == "bind") asked = kind " " port " 77"
  else if (kind == "find" || kind == "all") asked = kind " " port
  else if (kind == "release") asked = kind " " port " " (other ? 99 : owner)
  else if (kind == "rebind") asked = kind " " port " " (other ? 99 : owner) " 78"
  else asked_port = port_at[0]
}

function plan_others(    port) {
  print 1, asked
  look(looker)
  print 4, "bind", free_behind, 81
  print 5, "bind", asked_port, 82
  port = bound_port()
  print 6, "release", port, owner_of(port)
  print 6, "tidy"
  port = bound_port()
  if (table == "lists") port = asked_port
  print 7, "rebind", port, owner_of(port), 83
  print 8, "all", asked_port
  print 8, "all", bound_port()
  print 9, "find", asked_port
  print 9, "bind", free, 84
  print mover, "work"
  print 11, "work"
  print tidier, "tidy"
  look(late_looker)
}
function look(worker,    i) {
  for (i = 0; i < many; i++) print worker, "find", port_at[i]
  print worker, "find", gone
  print worker, "find", free
  print worker, "find", free_behind
  print worker, "walk"
  print worker, "count"
  print worker, "tidy"
}

function plan_schedule(    worker, light, heavy, begun) {
  light = large ? 400 : 160
  heavy = large ? 3000 : 900
  if (table == "current") {
    steps_of(filler, 9000)
    steps_of(changer, 56)
  }
  steps_of(setter, 9000)
  if (table == "current") steps_of(changer, 9000)
  steps_of(1, part == "before" ? light : before)
  steps_of(reader, 3)
  steps_of(tidier, part == "before" ? light : tidied)
  if (part == "before") return
  # bindings are being moved by another worker, unless worker 1 is to move them
  begun = 10 + below(60)
  if (table == "moved" && kind != "work") steps_of(mover, begun)
  steps_of(1, part == "call" ? heavy : stop)
  if (part == "call") return
  steps_of(reader, light)
  steps_of(tidier, light)
  steps_of(looker, 9000)
  if (table == "moved") steps_of(mover, heavy)
  for (worker = 4; worker <= 9; worker++) steps_of(worker, light)
  steps_of(mover, heavy)
  steps_of(11, heavy)
  steps_of(late_looker, 9000)
}
function steps_of(worker, many) { if (many > 0) print "step", worker, many }

# ---- A replay: before the sweep sees a line -----------------------------------------------------

FNR == 1 { texts++ }

texts == 2 {
  if (stopping) stop_now()
  if ($1 ~ /^[0-9]+:$/) answered($1 + 0)
  else if (NF >= 3 && $1 ~ /^[0-9]+$/) noticed($1, $2, $3)
}

END {
  if (form != "judge") exit 0
  if (failed) exit 1
  if (!closed) fault("it has no last line")
  if (!stopped) fault("worker 1 doesn't come so far")
  for (worker = 2; worker <= workers; worker++) left_at(worker)
  print "right", events_seen, replies, waiting + 0, behind + 0, elsewhere + 0, pending + 0, \
    !differ ? "-" : alive[1] && !alive[0] ? 1 : alive[0] && !alive[1] ? 0 : "-", slots_given - given_before
  exit 0
}

# who has which lock, and who looks at one word again and again
function noticed(w, what, place) {
  if (w == 1 && ++ones == stop) stopping = 1
  if (ones > stop) fault("worker 1 goes on behind its last operation")
  if (place >= first_page) {
    if (what == "cas" && $4 == $6 && !is_odd($4) && is_odd($5)) locker[place] = w
    else if (what == "store" && !is_odd($4)) delete locker[place]
  }
  if (what == "load" && looks_at[w] == place) looks[w]++
  else {
    looks_at[w] = what == "load" ? place : ""
    looks[w] = 1
  }
}

# The plain list of bindings from here on, without the stopped call's change and with it.
function stop_now(    key, pair, asked, was) {
  stopping = 0
  stopped = 1
  given_before = slots_given
  for (key in plain) {
    split(key, pair, SUBSEP)
    plain[1, pair[2]] = plain[key]
  }
  alive[0] = alive[1] = 1
  split(call[1], asked, " ")
  if (asked[1] !~ /^(bind|release|rebind)$/) return
  was = (0, asked[2]) in plain ? plain[0, asked[2]] : ""
  own_answer = effect(was, asked)
  differ = after != was
  put(1, asked[2], after)
}
function put(list, port, owners) {
  if (owners == "") delete plain[list, port]
  else plain[list, port] = owners
}

function answered(w,    reply, verb, fit) {
  reply = substr($0, length($1) + 2)
  sub(/ kick$/, "", reply)
  verb = verb_of[w]
  if (verb == "walk" && steps[w] > 6 + size_of(word[24 + 32 * word[0]]) * (4 + 3 * nodes)) fault("a walk has too many operations")
  if (verb == "count" && steps[w] != 1) fault("a count has more than one operation")
  if (verb == "tidy") tidied_by(w, reply)
  if (verb == "work" && reply == "elsewhere") {
    if (!word[1]) fault("nobody has the work lock")
    elsewhere++
  }
  if (reply == "released" || reply == "rebound") fresh[w]++
  if (!stopped) {
    if (!fits(0, w, reply)) fault(call[w] " is answered " reply)
  } else if (w == 1 && verb ~ /^(bind|release|rebind)$/) {
    if (differ) alive[reply == own_answer ? 0 : 1] = 0
  } else {
    for (fit = 0; fit < 2; fit++) if (alive[fit] && !fits(fit, w, reply)) alive[fit] = 0
    if (!alive[0] && !alive[1]) fault(call[w] " is answered " reply ", which is right neither without the stopped call's change nor with it")
  }
}

# Whether the reply is right on this list, which then has what the call changes.
function fits(list, w, reply,    asked, was, verb) {
  verb = verb_of[w]
  if (verb == "walk") return fits_walk(list, reply)
  if (verb == "count") return reply == "count " keys_of(list) || stopped && !idle[1] && reply == "count " keys_of(list) + 1
  if (verb == "work" || verb == "tidy") return 1
  split(call[w], asked, " ")
  was = (list, asked[2]) in plain ? plain[list, asked[2]] : ""
  if (reply == effect(was, asked)) {
    put(list, asked[2], after)
    return 1
  }
  return verb == "bind" && reply ~ /^(busy|notable|nonode)( |$)/ || verb == "rebind" && reply == "nonode"
}
function keys_of(list,    key, many) {
  for (key in plain) if (index(key, list SUBSEP) == 1) many++
  return many + 0
}
function fits_walk(list, reply,    part, parts, i, pair) {
  if (word[26 + 32 * word[0]]) return reply == "walk again " word[26 + 32 * word[0]] - 1
  parts = split(reply, part, " ")
  if (part[parts] != "end" || parts - 2 != keys_of(list)) return 0
  for (i = 2; i < parts; i++) {
    split(part[i], pair, "=")
    if (!((list, pair[1]) in plain) || first_of(plain[list, pair[1]]) != pair[2]) return 0
  }
  return 1
}

# A tidying by the rule of its answers: the first caller that is still in the section for which the nodes wait.
function tidied_by(w, reply,    other, answer) {
  if (!waiting_nodes[w]) {
    waiting_nodes[w] = fresh[w] + 0
    fresh[w] = 0
    for (other = 1; other <= workers; other++) kept[w, other] = word[7 + other]
  }
  for (other = 1; other <= workers && answer == ""; other++) {
    if (is_odd(kept[w, other]) && word[7 + other] == kept[w, other]) answer = "pending " other - 1 " " kept[w, other]
    else kept[w, other] = 0
  }
  if (answer == "") {
    answer = "clear " waiting_nodes[w]
    waiting_nodes[w] = 0
  } else if (stopped) pending++
  if (reply != answer) fault("a tidying is answered " reply ", and not " answer)
}

# Who hasn't ended waits for a lock of the stopped caller, or for one of another that waits so.
function left_at(w) {
  if (idle[w]) {
    if (made[w] + 0 < many_calls[w] + 0) fault("worker " w " has a command that it didn't begin")
    return
  }
  if (verb_of[w] !~ /^(bind|all|release|rebind|work)$/) fault("worker " w " doesn't end its " call[w])
  if (!waits(w, 0)) fault("worker " w " neither ends its " call[w] " nor waits for the stopped one")
  waiting++
  if (locker[looks_at[w]] != 1) behind++
}
function waits(w, hops,    place) {
  place = looks_at[w]
  if (hops > workers || looks[w] < 50 || !(place in locker) || !is_odd(word[place])) return 0
  return locker[place] == 1 || waits(locker[place], hops + 1)
}
