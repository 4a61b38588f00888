# The replays of tools/sweep: draws a script with a schedule by chance, and judges each event of its replay.
#
#   form=draw    prints the script of `seed` and `number`. `walks` says whether the program knows `walk`, and `events` how many events
#                the schedule has
#   form=judge   reads a script and its replay, and goes through the events with words of its own
#
# A judgement is one line: `right`, then how many events, changes of what is bound, replies, whole walks, nodes, pages and slots given
# back, and how often somebody was in a section then. Otherwise it is `wrong:`, the line of the replay and why, and the status is 1.

BEGIN {
  if (form == "draw") {
    draw()
    exit
  }
  begin_masks()
}

# ---- A script by chance -------------------------------------------------------------------------

function draw(    i, left, part, worker) {
  begin_chance(seed, number)
  kind = below(2) ? "listed" : "single"
  workers = 2 + below(4)
  nested = below(6) == 0
  # few buckets, so that tables grow and shrink, also with 16 ports in one; or so few pages that a further table is nested
  if (nested) line = "table " kind " nodes " 20 + below(9) " pages " 4 + below(3) " hint 96"
  else line = "table " kind " nodes " 3 + below(30) " pages " 4 + below(9) " hint " one_of(1, 3, 6)
  # ports of two nets share their numbers, and by this hash their buckets
  nets = below(2)
  print line " workers " workers " rewalks " below(3) " hash low work manual" (below(3) ? " shrink on" : "") (nets ? " form 2" : "")
  stride = nested ? one_of(128, 128, 64) : one_of(1, 4, 64)
  ports = nested ? 24 : 2 + below(24)
  owners_differ = below(2)
  for (worker = 1; worker <= workers; worker++) {
    # some workers bind more than they release, so that tables fill up
    binds[worker] = 20 + below(50)
    for (i = below(events / 20); i >= 0; i--) print worker, drawn_call(worker)
  }
  for (left = events; left > 0; left -= part) {
    part = below(4) ? 1 + below(6) : 1 + below(60)
    print "step", 1 + below(workers), part
  }
}

function drawn_call(worker,    what, port, owner) {
  port = (nets && below(2) ? "3." : "") stride * below(ports)
  owner = owners_differ ? ++owners_so_far : 1 + below(3)
  what = below(100)
  if (what < binds[worker]) return "bind " port " " owner
  what = below(100)
  if (what < 35) return "release " port " " (owners_differ ? 1 + below(owners_so_far) : 1 + below(3))
  if (what < 55) return "find " port
  if (what < 60) return "count"
  if (what < 70) return "tidy"
  if (what < 85) return "work"
  if (what < 92 && walks) return "walk"
  if (kind == "listed" && below(2)) return "all " port
  return "rebind " port " " (owners_differ ? 1 + below(owners_so_far) : 1 + below(3)) " " owner
}

# ---- Numbers ------------------------------------------------------------------------------------

# awk's numbers are exact up to 2^53, and the complement of a mask isn't. So a mask of `and` is read by its last digits: what is
# cleared is at most the bits of a map's word, and these are few here.
function begin_masks() { all_tail = 744073709551615 }
function cleared_by(mask) {
  if (length(mask) != 20 || substr(mask, 1, 5) != "18446") fault("a mask that clears more than a map has: " mask)
  return all_tail - substr(mask, 6)
}

# The key word of a port, as it stands in a node, by the port as it is printed.
function key_of(port,    part) {
  return sprintf("%.0f", split(port, part, ".") == 2 ? part[1] * 4294967296 + part[2] : port)
}

# the bits of x that are also in y, and those of both
function common(x, y,    bit, sum) {
  for (bit = 1; x > 0 && y > 0; bit *= 2) {
    if (x % 2 && y % 2) sum += bit
    x = int(x / 2)
    y = int(y / 2)
  }
  return sum + 0
}
function joined(x, y) { return x + y - common(x, y) }
function is_odd(x) { return x % 2 == 1 }

# ---- The script ---------------------------------------------------------------------------------

FNR == 1 { files++ }

files == 1 && $1 == "table" {
  single = $2 == "single"
  workers = 1
  nodes = 4096
  pages = 256
  hint = 48
  seed_option = 1
  rewalks = 8
  for (i = 3; i < NF; i += 2) {
    if ($i == "workers") workers = $(i + 1)
    if ($i == "nodes") nodes = $(i + 1)
    if ($i == "pages") pages = $(i + 1)
    if ($i == "hint") hint = $(i + 1)
    if ($i == "seed") seed_option = $(i + 1)
    if ($i == "rewalks") rewalks = $(i + 1)
  }
  if (nodes > 48 || pages > 48) fault("more nodes or pages than one word of a map has here")
  open_table()
  next
}
files == 1 && $1 ~ /^[0-9]+$/ {
  worker = $1
  if (NF > 2) $3 = key_of($3)
  sub(/^[0-9]+ /, "")
  calls[worker, ++many_calls[worker]] = $0
  next
}
files == 1 { next }

# the words at opening
function open_table(    size, exponent, taken) {
  for (size = 4; size < int(4 * hint / 3); size *= 2) {}
  for (exponent = 0; 2 ^ exponent < size; exponent++) {}
  node_map = 280
  page_map = 281
  first_node = 282
  first_page = first_node + 4 * nodes
  word[3] = 1
  word[24] = exponent
  word[25] = seed_option
  word[28] = 1
  word[node_map] = 2 ^ nodes - 1
  taken = size > 64 ? size / 64 : 1
  word[page_map] = 2 ^ pages - 2 ^ taken
  for (i = 1; i <= workers; i++) idle[i] = 1
  read_bound(bound)
}

# ---- The replay ---------------------------------------------------------------------------------

/^[0-9]+: / {
  worker = $1 + 0
  sub(/^[0-9]+: /, "")
  end_call(worker, $0)
  next
}
$1 == "open" {
  opened++
  if (idle[$2]) fault("worker " $2 " is in no command")
  next
}
$1 == "port" {
  keys++
  owners = $3
  for (i = 4; i <= NF; i++) owners = owners "," $i
  port = key_of($2)
  if (bound[port] != owners) fault("the words say " bound[port])
  next
}
$1 == "size" {
  if ($2 != size_of(word[24 + 32 * word[0]])) fault("the words say another size")
  if (NF == 4 && ($4 != keys + 0 || $4 != bound_ports())) fault("the words say " bound_ports() " keys")
  closed = 1
  next
}
NF >= 3 && $1 ~ /^[0-9]+$/ {
  step($1, $2, $3)
  next
}
{ fault("a line that is none of a replay: " $0) }

END {
  if (form == "draw" || failed) exit failed
  if (!closed) fault("it has no last line")
  print "right", events_seen + 0, changes + 0, replies + 0, walked + 0, nodes_given + 0, pages_given + 0, slots_given + 0, beside + 0
}

function fault(why) {
  if (failed) return
  print "wrong: line " FNR " of the replay: " why
  failed = 1
  exit 1
}

# ---- An event -----------------------------------------------------------------------------------

# By a worker an operation on the word at this place. `$4` and so on have what it does there, and what it found.
function step(w, what, place,    old, new, found) {
  events_seen++
  if (idle[w]) begin_call(w)
  steps[w]++
  old = word[place] + 0
  new = old
  found = old
  if (what == "load") found = $4
  else if (what == "store") new = $4 + 0
  else if (what == "cas") {
    found = $6
    if (old == $4) new = $5 + 0
  } else if (what == "add") {
    found = $5
    new = old + $4
  } else if (what == "sub") {
    found = $5
    new = old - $4
  } else if (what == "and") {
    found = $5
    new = old - common(old, cleared_by($4))
  } else if (what == "or") {
    found = $5
    new = joined(old, $4 + 0)
  } else fault("no operation: " what)
  if (found != old) fault("it finds " found ", and the word is " old)
  if (place > 4 && place < 8) fault("a word that is in no use")
  allowed(w, what, place)
  if (what == "load" || new == old) seen(w, what, place, old)
  else {
    given(w, place, old, new)
    word[place] = new
    seen(w, what, place, new)
    if (place == 0 || place >= 24 && place != node_map && place != page_map) changed(w)
  }
}

# what a call of this kind may do
function allowed(w, what, place,    verb) {
  verb = verb_of[w]
  if (verb != "find" && verb != "walk" && verb != "tidy" && verb != "count") return
  if (what == "load") {
    if (place == 1) fault(verb " looks at the work lock")
  } else if (what == "add" && place == 8 + w - 1 && (verb == "find" || verb == "walk")) {
  } else if (!(what == "or" && place == node_map && verb == "tidy")) fault(verb " does more than load")
  if (verb == "count" && place == 2) counts(w)
  if (verb == "find" && steps[w] > 4 + 8 * (4 + (rewalks + 1) * (4 + 2 * nodes))) fault("a look-up has too many operations")
}

# At most so many ports are bound as a counting finds, and at least so many less the others under way.
function counts(w,    other, under_way) {
  counted[w] = word[2] + 0
  for (other = 1; other <= workers; other++) if (other != w && !idle[other]) under_way++
  if (counted[w] < bound_ports() || counted[w] > bound_ports() + under_way) fault("it counts " counted[w] ", and " bound_ports() " are bound")
}

# ---- Where a caller stands ----------------------------------------------------------------------

# Of each caller in its section: the table at which it stands first, and the node of a chain at which it stands.
function seen(w, what, place, now,    slot, at) {
  if (place == 8 + w - 1) {
    stands_in[w] = ""
    stands_at[w] = ""
    return
  }
  if (!is_odd(word[8 + w - 1])) return
  if (place == 0 && what == "load") stands_in[w] = now
  else if (place >= 24 && place < 280) {
    slot = int((place - 24) / 32)
    # a finder and a bind go on to another table by its shape; a worker stands at the current one all the while
    if (what == "load" && (place - 24) % 32 == 0 && verb_of[w] != "work") stands_in[w] = slot
  } else if (place >= first_page) stands_at[w] = node_of(now - now % 2)
  else if (place >= first_node) {
    at = (place - first_node) % 4
    if (at == 0) stands_at[w] = node_of(now)
    else if (at == 1) stands_at[w] = int((place - first_node) / 4)
  }
}

function node_of(link) { return link >= 2 && link % 2 == 0 && link / 2 - 1 < nodes ? link / 2 - 1 : "" }
function size_of(shape,    exponent) {
  exponent = shape % 32
  return 2 ^ (exponent < 2 ? 2 : exponent)
}

# Marks all that this caller could reach: slots, pages and nodes.
function reach(w,    slot, seen_slots) {
  split("", reached)
  slot = stands_in[w] == "" ? word[0] + 0 : stands_in[w] + 0
  for (seen_slots = 0; seen_slots < 8; seen_slots++) {
    reached["slot", slot] = 1
    reach_table(slot)
    if (!word[26 + 32 * slot]) break
    slot = word[26 + 32 * slot] - 1
  }
  if (stands_at[w] != "") reach_chain(link_of(stands_at[w]))
}
function link_of(node) { return 2 * node + 2 }

function reach_table(slot,    shape, page, nest, i, j, inner) {
  shape = word[24 + 32 * slot]
  page = int(shape / 1024)
  nest = int(shape / 32) % 32
  if (!nest) {
    for (i = 0; i < size_of(shape); i += 64) reach_page(page + i / 64, size_of(shape) - i)
    return
  }
  reached["page", page] = 1
  for (i = 0; i < 2 ^ nest; i++) {
    inner = word[page_word(page, i)]
    if (!inner) continue
    if (shape % 32 <= 12) reach_page(inner - 1, 64)
    else {
      reached["page", inner - 1] = 1
      for (j = 0; j < 64; j++) if (word[page_word(inner - 1, j)]) reach_page(word[page_word(inner - 1, j)] - 1, 64)
    }
  }
}
function page_word(page, i) { return first_page + 64 * page + i }

function reach_page(page, buckets,    i, w) {
  reached["page", page] = 1
  for (i = 0; i < 64 && i < buckets; i++) {
    w = word[page_word(page, i)]
    reach_chain(w - w % 2)
  }
}

function reach_chain(link,    node) {
  while ((node = node_of(link)) != "" && !(("chain", node) in reached)) {
    reached["chain", node] = 1
    reach_list(link)
    link = word[first_node + 4 * node]
  }
}
function reach_list(link,    node) {
  while ((node = node_of(link)) != "" && !(("node", node) in reached)) {
    reached["node", node] = 1
    link = word[first_node + 4 * node + 3]
  }
}

# ---- What is given back -------------------------------------------------------------------------

function given(w, place, old, new,    bit, i, slot) {
  if (place == node_map || place == page_map) {
    for (bit = 0; 2 ^ bit <= new; bit++) {
      if (int(new / 2 ^ bit) % 2 && !(int(old / 2 ^ bit) % 2)) {
        if (place == node_map) {
          nodes_given++
          nobody_reaches("node", bit)
        } else {
          pages_given++
          nobody_reaches("page", bit)
          for (i = 0; i < 64; i++) if (word[page_word(bit, i)]) fault("page " bit " is given, and its word " i " isn't 0")
        }
      }
    }
    return
  }
  if (place >= first_page && new && int(word[page_map] / 2 ^ int((place - first_page) / 64)) % 2) fault("a word of a free page is changed")
  if (place >= 24 && place < 280 && (place - 24) % 32 == 4 && !new) {
    slots_given++
    nobody_reaches("slot", int((place - 24) / 32))
  }
}

function nobody_reaches(what, number,    other) {
  for (other = 1; other <= workers; other++) {
    if (!is_odd(word[8 + other - 1])) continue
    beside++
    reach(other)
    if ((what, number) in reached || what == "node" && ("chain", number) in reached)
      fault(what " " number " is given back, and worker " other " could reach it")
  }
}

# ---- What is bound ------------------------------------------------------------------------------

# The owners of each port, by all words: tables in order of futures, buckets in rising order. The first node of a port counts.
function read_bound(into,    slot, many) {
  split("", into)
  slot = word[0] + 0
  for (many = 0; many < 8; many++) {
    read_table(into, slot)
    if (!word[26 + 32 * slot]) break
    slot = word[26 + 32 * slot] - 1
  }
}

function read_table(into, slot,    shape, page, nest, i, j, inner) {
  shape = word[24 + 32 * slot]
  page = int(shape / 1024)
  nest = int(shape / 32) % 32
  if (!nest) {
    for (i = 0; i < size_of(shape); i += 64) read_page(into, page + i / 64, size_of(shape) - i)
    return
  }
  for (i = 0; i < 2 ^ nest; i++) {
    inner = word[page_word(page, i)]
    if (!inner) continue
    if (shape % 32 <= 12) read_page(into, inner - 1, 64)
    else for (j = 0; j < 64; j++) if (word[page_word(inner - 1, j)]) read_page(into, word[page_word(inner - 1, j)] - 1, 64)
  }
}

function read_page(into, page, buckets,    i, w, link, node, visited, port) {
  for (i = 0; i < 64 && i < buckets; i++) {
    w = word[page_word(page, i)]
    if (w < 2) continue
    link = w - w % 2
    for (visited = 0; visited < nodes && (node = node_of(link)) != ""; visited++) {
      port = sprintf("%.0f", word[first_node + 4 * node + 1])
      if (!(port in into)) into[port] = list_from(link)
      link = word[first_node + 4 * node]
    }
  }
}

function list_from(link,    node, owners, many) {
  for (many = 0; many < nodes && (node = node_of(link)) != ""; many++) {
    owners = owners (many ? "," : "") (word[first_node + 4 * node + 2] + 0)
    link = word[first_node + 4 * node + 3]
  }
  return owners
}

function bound_ports(    port, many) {
  for (port in bound) many++
  return many + 0
}

# A word was changed that says what is bound. At most one port is bound otherwise then, just as the worker's call asks.
function changed(w,    port, other, was, is, asked) {
  read_bound(now)
  other = ""
  for (port in bound) if (!(port in now) || now[port] != bound[port]) other = only(other, port)
  for (port in now) if (!(port in bound)) other = only(other, port)
  if (other == "") return
  changes++
  was = other in bound ? bound[other] : ""
  is = other in now ? now[other] : ""
  if (did[w] != "") fault("port " other " is bound otherwise, behind the call's part: " did[w])
  split(call[w], asked, " ")
  if (asked[2] != other) fault("port " other " is bound otherwise by " call[w])
  did[w] = effect(was, asked)
  if (after != is) fault("by " call[w] " port " other " goes from " was " to " is)
  if (is == "") delete bound[other]
  else bound[other] = is
  tell_all(other)
}
function only(other, port) {
  if (other != "") fault("ports " other " and " port " are bound otherwise at once")
  return port
}

# What the call answers where the port has these owners. `after` has those that it leaves.
function effect(was, asked,    owners, many, i, j) {
  after = was
  many = split(was, owners, ",")
  if (asked[1] == "bind") {
    if (single && many) return "exists " owners[1]
    after = asked[3] (many ? "," was : "")
    return "bound"
  }
  if (asked[1] == "find") return many ? "found " owners[1] : "missing"
  if (asked[1] == "all") {
    gsub(/,/, " ", was)
    return "list" (many ? " " was : "")
  }
  for (i = 1; i <= many && owners[i] != asked[3]; i++) {}
  if (i > many) return "absent"
  owners[i] = asked[1] == "rebind" ? asked[4] : ""
  after = ""
  for (j = 1; j <= many; j++) if (owners[j] != "") after = after (after == "" ? "" : ",") owners[j]
  return asked[1] == "rebind" ? "rebound" : "released"
}

# ---- Calls --------------------------------------------------------------------------------------

function begin_call(w,    port, asked) {
  if (made[w] + 0 >= many_calls[w] + 0) fault("worker " w " has no command left")
  call[w] = calls[w, ++made[w]]
  split(call[w], asked, " ")
  verb_of[w] = asked[1]
  idle[w] = 0
  steps[w] = 0
  did[w] = ""
  could[w] = "|"
  if (verb_of[w] == "walk") for (port in bound) {
    stays[w, port] = 1
    tell(w, port)
  } else tell(w, asked[2])
}

# The port's owners, to each call under way: what it could answer, and what a walk could show.
function tell_all(port,    w) {
  for (w = 1; w <= workers; w++) if (!idle[w]) tell(w, port)
}
function tell(w, port,    answer, asked, was) {
  was = port in bound ? bound[port] : ""
  split(call[w], asked, " ")
  if (verb_of[w] == "walk") {
    if (was == "") delete stays[w, port]
    else shown[w, port, first_of(was)] = 1
  } else if (asked[2] == port && verb_of[w] ~ /^(bind|find|all|release|rebind)$/) {
    answer = effect(was, asked)
    if (after == was) could[w] = could[w] answer "|"
  }
}
function first_of(list) {
  sub(/,.*/, "", list)
  return list
}

function end_call(w, reply,    verb) {
  if (idle[w]) fault("worker " w " is in no command")
  verb = verb_of[w]
  idle[w] = 1
  replies++
  if (is_odd(word[8 + w - 1])) fault("its section is open")
  sub(/ kick$/, "", reply)
  if (verb == "walk") end_walk(w, reply)
  else if (verb == "count") {
    if (reply != "count " counted[w]) fault("it found " counted[w])
  } else if (verb == "tidy") end_tidy(reply)
  else if (verb == "work") {
    if (reply !~ /^(idle|moved|moved again|notable [0-9]+|elsewhere)$/) fault("no reply of work: " reply)
  } else if (did[w] != "") {
    if (reply != did[w]) fault("it did its part as " did[w])
  } else if (!(verb == "bind" && reply ~ /^(toobig|again|busy|notable|nonode)( |$)/ || verb == "rebind" && reply == "nonode"))
    if (index(could[w], "|" reply "|") == 0) fault("at no moment " reply " was right, but " could[w])
  end_all()
}

function end_tidy(reply,    part) {
  if (reply ~ /^clear [0-9]+$/) return
  if (reply !~ /^pending [0-9]+ [0-9]+$/) fault("no reply of tidy: " reply)
  split(reply, part, " ")
  if (!is_odd(part[3])) fault("no section is open with " part[3])
}

# A walk to the end shows each port that stayed bound, and each that it shows had this first owner at a moment of it. One that is cut has
# shown as many as there are nodes.
function end_walk(w, reply,    part, many, i, pair, key, mine) {
  if (reply !~ /^walk again [0-7]$/) {
    many = split(reply, part, " ")
    if (part[1] != "walk" || part[many] !~ /^(end|more)$/) fault("no reply of walk: " reply)
    if (part[many] == "more" && many - 2 != nodes) fault("it is cut behind " many - 2 " ports")
    for (i = 2; i < many; i++) {
      split(part[i], pair, "=")
      pair[1] = key_of(pair[1])
      if (pair[1] in mine) fault("it shows port " pair[1] " twice")
      mine[pair[1]] = 1
      if (!((w, pair[1], pair[2]) in shown)) fault("it shows " part[i] ", which was so at no moment")
    }
    if (part[many] == "end") for (key in stays) {
      split(key, pair, SUBSEP)
      if (pair[1] == w && !(pair[2] in mine)) fault("it doesn't show port " pair[2] ", which stayed bound")
    }
    walked++
  }
  for (key in stays) if (index(key, w SUBSEP) == 1) delete stays[key]
  for (key in shown) if (index(key, w SUBSEP) == 1) delete shown[key]
}

# While nobody is in a command, nothing is locked and the count is right.
function end_all(    w, slot) {
  for (w = 1; w <= workers; w++) if (!idle[w]) return
  rests++
  if (word[1]) fault("the work lock is taken at rest")
  if (word[2] + 0 != bound_ports()) fault("the count is " word[2] " at rest, and " bound_ports() " ports are bound")
  for (w = first_page; w < first_page + 64 * pages; w++) if (is_odd(word[w]) && !is_entry(w)) fault("the word at " w " is odd at rest")
}

# whether the word is one of the pages of entries of a nested table that isn't free
function is_entry(place,    page, slot, shape, top, i) {
  page = int((place - first_page) / 64)
  for (slot = 0; slot < 8; slot++) {
    shape = word[24 + 32 * slot]
    if (!word[28 + 32 * slot] || !(int(shape / 32) % 32)) continue
    top = int(shape / 1024)
    if (page == top) return 1
    if (shape % 32 > 12) for (i = 0; i < 64; i++) if (word[page_word(top, i)] == page + 1) return 1
  }
  return 0
}
