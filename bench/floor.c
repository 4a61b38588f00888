/*
 * What `rht_bench` does, in C: the same operations on the same words in the same order, each of them
 * one atomic operation, sequentially consistent. A look-up, a bind and a release each open their caller's
 * read section before they load the current table, and close it behind their last operation there. Each
 * of these can be chosen or not:
 *
 *   cc -O2 -pthread floor.c    with the clamps and the replies that the machines make
 *   -DBARE                     without them: no word is doubted, and a reply is a number
 *   -DOUTLINED                 each call is a function of its own, in place of code in its loop
 *   -DOFFSET=16                the words begin so many bytes behind the start of a cache line
 *
 * It takes the words of `rht_bench` and prints its rows, on standard output how many calls had the
 * reply that they must have, and on standard error the nanoseconds a call. The rows of a table that
 * grows aren't there. `docs/WORDS.md` says where the words stand, `docs/MACHINES.md` which operations
 * a call makes.
 */
#include <pthread.h>
#include <sched.h>
#include <stdatomic.h>
#include <stdbool.h>
#include <stdint.h>
#include <stdio.h>
#include <stdlib.h>
#include <string.h>
#include <time.h>

#ifdef BARE
#define CLAMPS 0
#else
#define CLAMPS 1
#endif

#define ALWAYS static inline __attribute__((always_inline))

#ifdef OUTLINED
#define CALL static __attribute__((noinline))
#else
#define CALL ALWAYS
#endif

#ifndef OFFSET
#define OFFSET 0
#endif

typedef uint16_t u16;
typedef uint32_t u32;
typedef uint64_t u64;
typedef _Atomic u64 word;

/* ---- the words */

enum { CURRENT_TABLE = 0, PORT_COUNT = 2, NEXT_SERIAL = 3, ENROLLED = 4, SECTIONS = 8, SLOTS = 24, NODE_MAP = 280 };
enum { SHAPE = 0, SEED = 1, FUTURE = 2, SERIAL = 3, STATE = 4 };
enum { CHAIN_LINK = 0, KEY = 1, OWNER_WORD = 2, LIST_LINK = 3 };

/* How many physical words are in no use. The first 24 words have a cache line each. */
#define GAPS 168

struct table {
  void *block;
  word *words;
  u32 nodes, pages, map_words;
  size_t page_map, first_node, first_page;
  u32 min, max, rewalks;
  bool shrink;
};

ALWAYS size_t physical(size_t place) { return place < SLOTS ? 8 * place : place + GAPS; }

ALWAYS word *single(const struct table *t, size_t place) { return &t->words[8 * place]; }

ALWAYS word *at(const struct table *t, size_t place) {
#if CLAMPS
  return &t->words[physical(place)];
#else
  return &t->words[place + GAPS];
#endif
}

ALWAYS word *slot_word(const struct table *t, u32 slot, u32 which) {
  return at(t, SLOTS + 32 * (size_t)slot + which);
}

ALWAYS word *node_word(const struct table *t, u32 node, u32 which) {
  return at(t, t->first_node + 4 * (size_t)node + which);
}

ALWAYS u64 load(word *w) { return atomic_load(w); }
ALWAYS void store(word *w, u64 value) { (void)atomic_exchange(w, value); }

ALWAYS u64 link_of(u32 node) { return 2 * (u64)node + 2; }
ALWAYS u64 marker_of(size_t place) { return 2 * (u64)place + 1; }

#define NONE UINT32_MAX

ALWAYS u32 node_of(const struct table *t, u64 link) {
#if CLAMPS
  if (link % 2 != 0 || link < 2) return NONE;
  u64 node = link / 2 - 1;
  return node < t->nodes ? (u32)node : NONE;
#else
  (void)t;
  return link % 2 != 0 || link == 0 ? NONE : (u32)(link / 2 - 1);
#endif
}

ALWAYS u64 head_of(size_t place, u64 w) {
  u64 first = w - w % 2;
  return first == 0 ? marker_of(place) : first;
}

ALWAYS u64 plain_of(size_t place, u64 head) { return head == marker_of(place) ? 0 : head; }

ALWAYS u32 table_of(u64 w) {
#if CLAMPS
  return w < 7 ? (u32)w : 7;
#else
  return (u32)w;
#endif
}

ALWAYS u32 slot_of(u64 future) {
#if CLAMPS
  return 1 <= future && future <= 8 ? (u32)(future - 1) : NONE;
#else
  return (u32)future - 1;
#endif
}

ALWAYS u32 size_of(u64 shape) {
  u32 exponent = (u32)(shape % 32);
#if CLAMPS
  exponent = exponent < 18 ? exponent : 18;
  exponent = exponent > 2 ? exponent : 2;
#endif
  return (u32)1 << exponent;
}

/* ---- ports, and their hash */

/* A net, and a number in it. */
struct port {
  u16 net;
  u32 number;
};

/* the key word of a port, which its node has */
ALWAYS u64 word_of(struct port port) { return (u64)port.net << 32 | port.number; }

ALWAYS struct port port_of(u64 word) { return (struct port){(u16)(word >> 32), (u32)word}; }

/* The net of all ports here. It is read anew where a loop begins, so no compiler knows that it is 0. */
static volatile u16 net_of_ports = 0;

ALWAYS u32 rotated(u32 x, u32 by) { return x << by | x >> (32 - by); }

ALWAYS u32 mixed_hash(struct port port, u32 seed) {
  u32 a = port.number, b = port.net, c = seed;
  c ^= b, c -= rotated(b, 14);
  a ^= c, a -= rotated(c, 11);
  b ^= a, b -= rotated(a, 25);
  c ^= b, c -= rotated(b, 16);
  a ^= c, a -= rotated(c, 4);
  b ^= a, b -= rotated(a, 14);
  c ^= b, c -= rotated(b, 24);
  return c;
}

ALWAYS u32 bucket_of(bool low, struct port port, u64 shape, u64 seed) {
  u32 hash = low ? port.number : mixed_hash(port, (u32)seed);
  return hash & (size_of(shape) - 1);
}

/* ---- the replies */

enum kind { FOUND, MISSING, BOUND, EXISTS, RELEASED, ABSENT, TOO_BIG, NO_TABLE, NO_NODE };

#if CLAMPS
typedef struct {
  enum kind kind;
  union {
    u32 owner;
    u64 count;
    bool kick;
  };
} reply;
#define FOUND_REPLY(o) ((reply){.kind = FOUND, .owner = (o)})
#define EXISTS_REPLY(o) ((reply){.kind = EXISTS, .owner = (o)})
#define BOUND_REPLY(k) ((reply){.kind = BOUND, .kick = (k)})
#define RELEASED_REPLY(k) ((reply){.kind = RELEASED, .kick = (k)})
#define TOO_BIG_REPLY(c) ((reply){.kind = TOO_BIG, .count = (c)})
#define PLAIN_REPLY(what) ((reply){.kind = (what)})
#define IS_FOUND(r, o) ((r).kind == FOUND && (r).owner == (o))
#define IS(r, what) ((r).kind == (what))
#else
/* An owner, or a negative number. */
typedef int64_t reply;
#define FOUND_REPLY(o) ((reply)(o))
#define EXISTS_REPLY(o) PLAIN_REPLY(EXISTS)
#define BOUND_REPLY(k) PLAIN_REPLY(BOUND)
#define RELEASED_REPLY(k) PLAIN_REPLY(RELEASED)
#define TOO_BIG_REPLY(c) PLAIN_REPLY(TOO_BIG)
#define PLAIN_REPLY(what) (-1 - (reply)(what))
#define IS_FOUND(r, o) ((r) == (reply)(o))
#define IS(r, what) ((r) == PLAIN_REPLY(what))
#endif

/* ---- the read section of a caller, whose word is odd while it is open */

ALWAYS void enter(const struct table *t, u32 caller) {
  (void)atomic_fetch_add(single(t, SECTIONS + (size_t)caller), 1);
}

ALWAYS void leave(const struct table *t, u32 caller) {
  (void)atomic_fetch_add(single(t, SECTIONS + (size_t)caller), 1);
}

/* ---- the bucket of a port, its lock and its chain */

struct probed {
  size_t place; /* of the bucket's word */
  u64 word;     /* before it was locked */
  u64 shape;    /* of the table */
  u32 found;    /* the node with the port */
  u32 before;   /* the node before it in the chain */
  u32 length;   /* how many keys were loaded */
};

/* Loads the table's shape and seed, locks the port's bucket and walks its chain. False where the
 * bucket is missing. */
ALWAYS bool probe(const struct table *t, bool low, u32 slot, struct port port, struct probed *p) {
  p->shape = load(slot_word(t, slot, SHAPE));
  u64 seed = load(slot_word(t, slot, SEED));
  u64 index = 64 * (p->shape / 1024 % ((u64)1 << 32)) + bucket_of(low, port, p->shape, seed);
#if CLAMPS
  if (index >= (u64)64 * t->pages) return false;
#endif
  p->place = t->first_page + index;
  word *bucket = at(t, p->place);
  for (;;) {
    u64 w = load(bucket);
    if (w % 2 == 1) continue;
    p->word = w;
    if (atomic_compare_exchange_strong(bucket, &w, w + 1)) break;
  }
  p->found = NONE;
  p->before = NONE;
  p->length = 0;
  u32 node = node_of(t, head_of(p->place, p->word));
  while (node != NONE) {
    u64 key = load(node_word(t, node, KEY));
    p->length += CLAMPS ? p->length != UINT32_MAX : 1;
    if (key == word_of(port)) {
      p->found = node;
      break;
    }
    p->before = node;
    node = node_of(t, load(node_word(t, node, CHAIN_LINK)));
  }
  return true;
}

ALWAYS void unlock(const struct table *t, const struct probed *p) { store(at(t, p->place), p->word); }

/* Gives the place before the found node another link, and unlocks the bucket. */
ALWAYS void relink(const struct table *t, const struct probed *p, u32 before, u64 link) {
  if (before != NONE) {
    store(node_word(t, before, CHAIN_LINK), link);
    store(at(t, p->place), p->word);
  } else {
    store(at(t, p->place), plain_of(p->place, link));
  }
}

/* ---- the calls */

struct pair {
  struct port port;
  u32 owner;
};

/* Where the port's bucket is in the table of this slot; 0 where the bucket is missing. */
ALWAYS size_t reach(const struct table *t, bool low, u32 slot, struct port port) {
  u64 shape = load(slot_word(t, slot, SHAPE));
  u64 seed = load(slot_word(t, slot, SEED));
  u64 index = 64 * (shape / 1024 % ((u64)1 << 32)) + bucket_of(low, port, shape, seed);
#if CLAMPS
  if (index >= (u64)64 * t->pages) return 0;
#endif
  return t->first_page + index;
}

/* Walks the bucket's chain without its lock. False where the port isn't there. A strange end is walked
 * again, so often. */
ALWAYS bool walk(const struct table *t, size_t place, struct port port, u32 *owner) {
  for (u32 left = t->rewalks;; left--) {
    u64 link = head_of(place, load(at(t, place)));
    for (u32 visited = 0;; visited++) {
      u32 node = node_of(t, link);
      if (node == NONE || (CLAMPS && visited >= t->nodes)) break;
      if (load(node_word(t, node, KEY)) == word_of(port)) {
        *owner = (u32)load(node_word(t, node, OWNER_WORD));
        return true;
      }
      link = load(node_word(t, node, CHAIN_LINK));
    }
    if (link == marker_of(place) || left == 0) return false;
  }
}

ALWAYS reply looked_up(const struct table *t, bool low, struct port port) {
  u32 slot = table_of(load(single(t, CURRENT_TABLE)));
  for (;;) {
    size_t place = reach(t, low, slot, port);
    u32 owner;
    if (place != 0 && walk(t, place, port, &owner)) return FOUND_REPLY(owner);
    u32 future = slot_of(load(slot_word(t, slot, FUTURE)));
    if (future == NONE) return PLAIN_REPLY(MISSING);
    slot = future;
  }
}

/* Within the caller's read section. */
ALWAYS reply find_by(const struct table *t, bool low, u32 caller, struct port port) {
  enter(t, caller);
  reply r = looked_up(t, low, port);
  leave(t, caller);
  return r;
}

/* Walks all buckets of the current table, and keeps the port and the owner of each node. It answers how
 * many, or NONE where a table is behind that one. Where a chain ends otherwise than in its bucket's marker
 * the table's future is looked at. */
CALL u32 walk_all(const struct table *t, u32 caller, struct pair *pairs) {
  u32 len = 0;
  enter(t, caller);
  u32 slot = table_of(load(single(t, CURRENT_TABLE)));
  (void)load(slot_word(t, slot, SERIAL));
  u64 shape = load(slot_word(t, slot, SHAPE));
  size_t first = t->first_page + 64 * (size_t)(shape / 1024 % ((u64)1 << 32));
  bool again = false;
  for (u32 bucket = 0; bucket < size_of(shape) && !again; bucket++) {
    size_t place = first + bucket;
#if CLAMPS
    if (place >= t->first_page + (size_t)64 * t->pages) break;
#endif
    u64 link = head_of(place, load(at(t, place)));
    for (u32 visited = 0;; visited++) {
      u32 node = node_of(t, link);
      if (node == NONE || (CLAMPS && visited >= t->nodes)) break;
      struct port port = port_of(load(node_word(t, node, KEY)));
      u32 owner = (u32)load(node_word(t, node, OWNER_WORD));
      if (!CLAMPS || len < t->nodes) pairs[len++] = (struct pair){port, owner};
      link = load(node_word(t, node, CHAIN_LINK));
    }
    if (link != marker_of(place)) again = slot_of(load(slot_word(t, slot, FUTURE))) != NONE;
  }
  if (!again) again = slot_of(load(slot_word(t, slot, FUTURE))) != NONE;
  leave(t, caller);
  return again ? NONE : len;
}

/* Looks through the node map from its first word on, and clears the lowest bit that it finds. */
ALWAYS u32 take_node(const struct table *t) {
  for (u32 index = 0; index < t->map_words; index++) {
    word *map = at(t, NODE_MAP + (size_t)index);
    u64 w = load(map);
    for (;;) {
#if CLAMPS
      u64 left = t->nodes - 64 * (u64)index;
      w &= left < 64 ? ((u64)1 << left) - 1 : UINT64_MAX;
#endif
      if (w == 0) break;
      u32 bit = (u32)__builtin_ctzll(w);
      u64 old = atomic_fetch_and(map, ~((u64)1 << bit));
      if (old >> bit & 1) return 64 * index + bit;
      w = old & (UINT64_MAX - (((u64)1 << bit) - 1) - ((u64)1 << bit));
    }
  }
  return NONE;
}

ALWAYS void give_node(const struct table *t, u32 node) {
  (void)atomic_fetch_or(at(t, NODE_MAP + (size_t)(node / 64)), (u64)1 << node % 64);
}

/* Whether a table of so many buckets has more ports than so many hundredths of them. */
ALWAYS bool above_75(const struct table *t, u64 count, u32 size) {
  return count > size / 4 * 3 && (t->max == 0 || size < t->max);
}
ALWAYS bool above_100(const struct table *t, u64 count, u32 size) {
  return count > size && (t->max == 0 || size < t->max);
}

/* The end of a bind that hasn't linked its node: closes the section, and gives the node back. */
ALWAYS reply unbound(const struct table *t, u32 caller, u32 node, reply r) {
  leave(t, caller);
  give_node(t, node);
  return r;
}

/* A bind in a table that has room. Where it has none, as where a chain of 16 nodes is full, the call
 * would attach a further table: here it is refused. Its node is taken and filled before the caller's
 * read section; where none is free, none is opened. */
ALWAYS reply bind_by(const struct table *t, bool low, u32 caller, struct port port, u32 owner) {
  u32 node = take_node(t);
  if (node == NONE) return PLAIN_REPLY(NO_NODE);
  store(node_word(t, node, KEY), word_of(port));
  store(node_word(t, node, OWNER_WORD), owner);
  store(node_word(t, node, LIST_LINK), 0);
  enter(t, caller);
  u32 slot = table_of(load(single(t, CURRENT_TABLE)));
  for (;;) {
    struct probed p;
    if (!probe(t, low, slot, port, &p)) return unbound(t, caller, node, PLAIN_REPLY(NO_TABLE));
    if (p.found != NONE) {
      u32 first = (u32)load(node_word(t, p.found, OWNER_WORD));
      unlock(t, &p);
      (void)first;
      return unbound(t, caller, node, EXISTS_REPLY(first));
    }
    u32 future = slot_of(load(slot_word(t, slot, FUTURE)));
    if (future != NONE) {
      unlock(t, &p);
      slot = future;
      continue;
    }
    u64 count = p.length >= 16 ? UINT64_MAX : load(single(t, PORT_COUNT));
#if CLAMPS
    u64 ports = count < 65536 ? count : 65536;
    u64 most = t->max == 0 ? (u64)1 << 31 : 2 * (u64)t->max;
    if (count == UINT64_MAX || ports >= most || above_100(t, ports, size_of(p.shape))) {
#else
    if (count > size_of(p.shape)) {
#endif
      unlock(t, &p);
      return unbound(t, caller, node, TOO_BIG_REPLY(count));
    }
    store(node_word(t, node, CHAIN_LINK), head_of(p.place, p.word));
    u64 old = atomic_fetch_add(single(t, PORT_COUNT), 1);
    bool kick = CLAMPS && above_75(t, (old < 65535 ? old : 65535) + 1, size_of(p.shape));
    (void)kick;
    relink(t, &p, NONE, link_of(node));
    leave(t, caller);
    return BOUND_REPLY(kick);
  }
}

ALWAYS reply taken_out(const struct table *t, bool low, struct port port, u32 owner) {
  u32 slot = table_of(load(single(t, CURRENT_TABLE)));
  for (;;) {
    struct probed p;
    if (!probe(t, low, slot, port, &p)) return PLAIN_REPLY(ABSENT);
    if (p.found == NONE) {
      u32 future = slot_of(load(slot_word(t, slot, FUTURE)));
      unlock(t, &p);
      if (future == NONE) return PLAIN_REPLY(ABSENT);
      slot = future;
      continue;
    }
    /* A port has one owner here, so its list has one node. */
    if ((u32)load(node_word(t, p.found, OWNER_WORD)) != owner) {
      (void)load(node_word(t, p.found, LIST_LINK));
      unlock(t, &p);
      return PLAIN_REPLY(ABSENT);
    }
    u32 second = node_of(t, load(node_word(t, p.found, LIST_LINK)));
    u64 link = load(node_word(t, p.found, CHAIN_LINK));
    if (second != NONE) {
      store(node_word(t, second, CHAIN_LINK), link);
      relink(t, &p, p.before, link_of(second));
      return RELEASED_REPLY(false);
    }
    relink(t, &p, p.before, link);
    u64 old = atomic_fetch_sub(single(t, PORT_COUNT), 1);
    u64 left = old == 0 ? 0 : old - 1 < 65536 ? old - 1 : 65536;
    u32 size = size_of(p.shape);
    bool kick = CLAMPS && t->shrink && left < size * 3 / 10 && size > t->min;
    (void)kick;
    return RELEASED_REPLY(kick);
  }
}

/* Within the caller's read section. */
ALWAYS reply release_by(const struct table *t, bool low, u32 caller, struct port port, u32 owner) {
  enter(t, caller);
  reply r = taken_out(t, low, port, owner);
  leave(t, caller);
  return r;
}

/* The same, each by the one hash or by the other. */
CALL reply find(const struct table *t, u32 caller, struct port port) { return find_by(t, false, caller, port); }
CALL reply low_find(const struct table *t, u32 caller, struct port port) { return find_by(t, true, caller, port); }
CALL reply bind(const struct table *t, u32 caller, struct port port, u32 owner) {
  return bind_by(t, false, caller, port, owner);
}
CALL reply low_bind(const struct table *t, u32 caller, struct port port, u32 owner) {
  return bind_by(t, true, caller, port, owner);
}
CALL reply release(const struct table *t, u32 caller, struct port port, u32 owner) {
  return release_by(t, false, caller, port, owner);
}

/* ---- opening */

static void *taken(void *memory) {
  if (memory == NULL) {
    fprintf(stderr, "floor: out of memory\n");
    exit(1);
  }
  return memory;
}

static void fill_map(const struct table *t, size_t first, u32 count) {
  for (u32 i = 0; i < count; i++) *at(t, first + i / 64) |= (u64)1 << i % 64;
}

/* A table with a first table of the size that the hint asks for, at page 0. */
static void open_table(struct table *t, u32 nodes, u32 pages, u32 callers, u32 hint) {
  t->nodes = nodes;
  t->pages = pages;
  t->map_words = (nodes + 63) / 64;
  t->page_map = NODE_MAP + t->map_words;
  t->first_node = t->page_map + (pages + 63) / 64;
  t->first_page = t->first_node + 4 * (size_t)nodes;
  t->min = 4;
  t->max = 0;
  t->rewalks = 8;
  t->shrink = false;
  size_t count = t->first_page + 64 * (size_t)pages + GAPS;
  t->block = taken(aligned_alloc(64, (8 * count + OFFSET + 63) / 64 * 64));
  t->words = (word *)((char *)t->block + OFFSET);
  memset((void *)t->words, 0, 8 * count);
  u32 exponent = 2;
  while (((u32)1 << exponent) < hint * 4 / 3) exponent++;
  fill_map(t, NODE_MAP, nodes);
  fill_map(t, t->page_map, pages);
  u32 first_pages = ((u32)1 << exponent) < 64 ? 1 : ((u32)1 << exponent) / 64;
  for (u32 i = 0; i < first_pages; i++) *at(t, t->page_map + i / 64) &= ~((u64)1 << i % 64);
  *single(t, NEXT_SERIAL) = 1;
  *single(t, ENROLLED) = callers;
  *slot_word(t, 0, SHAPE) = exponent;
  *slot_word(t, 0, SEED) = 1;
  *slot_word(t, 0, STATE) = 1;
}

/* ---- the loops, as in `src/loops.rt` of `rht_bench` */

#define OWNER 7
#define OTHER ((u32)1 << 20)

/* The ports of a loop, and the caller who asks for them. */
struct ports {
  u32 first, count, caller;
  u16 net;
  struct pair *pairs;
};

ALWAYS struct port port_in(struct ports ports, u32 number) { return (struct port){ports.net, number}; }

ALWAYS bool is_done(reply r) { return IS_FOUND(r, OWNER) || IS(r, BOUND) || IS(r, RELEASED); }

ALWAYS u32 hits_in(const struct table *t, bool low, struct ports ports) {
  u32 right = 0;
  for (u32 i = 0; i < ports.count; i++) {
    struct port port = port_in(ports, ports.first + i);
    reply r = low ? low_find(t, ports.caller, port) : find(t, ports.caller, port);
    right += IS_FOUND(r, OWNER);
  }
  return right;
}

ALWAYS u32 binds_in(const struct table *t, bool low, struct ports ports) {
  u32 right = 0;
  for (u32 i = 0; i < ports.count; i++) {
    struct port port = port_in(ports, ports.first + i);
    right += is_done(low ? low_bind(t, ports.caller, port, OWNER) : bind(t, ports.caller, port, OWNER));
  }
  return right;
}

#define LOOP static __attribute__((noinline)) u32

LOOP hits(const struct table *t, struct ports ports) { return hits_in(t, false, ports); }
LOOP apart(const struct table *t, struct ports ports) { return hits_in(t, true, ports); }
LOOP binds(const struct table *t, struct ports ports) { return binds_in(t, false, ports); }
LOOP low_binds(const struct table *t, struct ports ports) { return binds_in(t, true, ports); }

LOOP misses(const struct table *t, struct ports ports) {
  u32 right = 0;
  for (u32 i = 0; i < ports.count; i++) {
    reply r = find(t, ports.caller, port_in(ports, (ports.first + i) | OTHER));
    right += IS(r, MISSING);
  }
  return right;
}

/* Of twenty calls a bind, a release and eighteen look-ups; the ports that are left are looked up. */
LOOP mixed(const struct table *t, struct ports ports) {
  struct port other = port_in(ports, ports.first | OTHER);
  u32 blocks = ports.count / 20;
  u32 right = 0;
  for (u32 i = 0; i < blocks; i++) {
    right += is_done(bind(t, ports.caller, other, OWNER));
    right += is_done(release(t, ports.caller, other, OWNER));
    right += hits_in(t, false, (struct ports){ports.first + 20 * i + 2, 18, ports.caller, ports.net, NULL});
  }
  return right + hits_in(t, false, (struct ports){ports.first + 20 * blocks, ports.count % 20, ports.caller, ports.net, NULL});
}

LOOP churn(const struct table *t, struct ports ports) {
  u32 right = 0;
  for (u32 i = 0; i < ports.count; i++) {
    struct port other = port_in(ports, (ports.first + i) | OTHER);
    reply bound = bind(t, ports.caller, other, OWNER);
    reply released = release(t, ports.caller, other, OWNER);
    right += is_done(bound);
    right += is_done(released);
  }
  return right;
}

LOOP walks(const struct table *t, struct ports ports) { return walk_all(t, ports.caller, ports.pairs) != NONE; }

/* A walk, and then other ports bound and released, one for each twenty. */
LOOP between(const struct table *t, struct ports ports) {
  u32 right = walks(t, ports);
  struct ports some = ports;
  some.count = ports.count / 20;
  return right + churn(t, some);
}

/* ---- the rows, as in `src/rows.rt` and `src/measure.rt` of `rht_bench` */

enum workload { HITS, APART, COMMON, MISSES, MIXED, CHURN, BINDS, WALKS, BETWEEN, WORKLOADS };

static const char *const names[] = {"hits", "apart", "common", "misses", "mixed", "churn", "binds", "walks", "between"};

struct row {
  enum workload workload;
  u32 ports, threads, rounds, tables, nodes, pages;
};

/* Where the threads of a table wait for one another before they begin. */
struct gate {
  _Atomic u32 arrived;
  u32 all;
};

/* How often a thread looks whether all have come, before it goes on without them. */
#define PATIENCE ((u32)1 << 20)

struct job {
  const struct table *table;
  struct gate *gate;
  enum workload workload;
  struct ports ports;
  u32 rounds;
  u64 right, began, ended;
};

static u64 now(void) {
  struct timespec t;
  clock_gettime(CLOCK_MONOTONIC, &t);
  return (u64)t.tv_sec * 1000000000 + (u64)t.tv_nsec;
}

static void pass(struct gate *gate) {
  atomic_fetch_add(&gate->arrived, 1);
  for (u32 i = 0; i < PATIENCE && atomic_load(&gate->arrived) < gate->all; i++) sched_yield();
}

static u64 rounds(const struct job *job) {
  u64 right = 0;
  for (u32 i = 0; i < job->rounds; i++) {
    switch (job->workload) {
    case HITS:
    case COMMON: right += hits(job->table, job->ports); break;
    case APART: right += apart(job->table, job->ports); break;
    case MISSES: right += misses(job->table, job->ports); break;
    case MIXED: right += mixed(job->table, job->ports); break;
    case CHURN: right += churn(job->table, job->ports); break;
    case WALKS: right += walks(job->table, job->ports); break;
    case BETWEEN: right += between(job->table, job->ports); break;
    default: right += binds(job->table, job->ports); break;
    }
  }
  return right;
}

static void *work(void *given) {
  struct job *job = given;
  pass(job->gate);
  job->began = now();
  job->right = rounds(job);
  job->ended = now();
  return NULL;
}

struct measured {
  u64 calls, nanos;
};

/* Does all jobs, the first in this thread and each other one in a thread of its own. */
static void work_all(struct job *jobs, u32 threads) {
  pthread_t started[4];
  for (u32 i = 1; i < threads; i++) {
    if (pthread_create(&started[i], NULL, work, &jobs[i]) != 0) {
      fprintf(stderr, "floor: no thread could be made\n");
      exit(1);
    }
  }
  work(&jobs[0]);
  for (u32 i = 1; i < threads; i++) pthread_join(started[i], NULL);
}

/* The calls of all jobs, from the first beginning to the last end. */
static struct measured all_of(const struct job *jobs, u32 threads) {
  u64 began = jobs[0].began, ended = jobs[0].ended;
  struct measured m = {0, 0};
  for (u32 i = 0; i < threads; i++) {
    if (jobs[i].began < began) began = jobs[i].began;
    if (jobs[i].ended > ended) ended = jobs[i].ended;
    m.calls += jobs[i].right;
  }
  m.nanos = ended - began;
  return m;
}

/* The ports of a thread: its share of them. In `common` each thread has all of them. */
static struct ports ports_of(struct row row, u32 thread) {
  if (row.workload == COMMON) return (struct ports){0, row.ports, thread, net_of_ports, NULL};
  u32 count = row.ports / row.threads;
  return (struct ports){thread * count, count, thread, net_of_ports, NULL};
}

/* Measures a row in one table. In `common` the binds of the first thread bind all ports, and those of the
 * others find them bound. */
static struct measured measure(struct row row) {
  struct table t;
  struct job jobs[4];
  struct gate gate = {0, row.threads};
  open_table(&t, row.nodes, row.pages, row.threads, row.ports);
  for (u32 i = 0; i < row.threads; i++) {
    struct ports own = ports_of(row, i);
    own.pairs = taken(malloc(row.nodes * sizeof(struct pair)));
    jobs[i] = (struct job){&t, &gate, row.workload, own, row.rounds, 0, 0, 0};
    if (row.workload == APART) low_binds(&t, own);
    else if (row.workload != BINDS) binds(&t, own);
  }
  work_all(jobs, row.threads);
  for (u32 i = 0; i < row.threads; i++) free(jobs[i].ports.pairs);
  free(t.block);
  return all_of(jobs, row.threads);
}

struct scale {
  u32 few, many, nodes, pages, times;
};

static u32 one_or(u32 count) { return count > 0 ? count : 1; }

static struct row row_of(struct scale s, enum workload workload, u32 ports, u32 threads) {
  u32 share = s.many / ports;
  struct row row = {workload, ports, threads, 1, 1, s.nodes, s.pages};
  switch (workload) {
  case APART: row.rounds = one_or(512 * share * s.times); break;
  case WALKS: row.rounds = one_or(64 * share * s.times); break;
  case BETWEEN: row.rounds = share, row.tables = one_or(32 * s.times); break;
  case MIXED: row.rounds = 4 * share, row.tables = one_or(16 * s.times); break;
  case CHURN: row.rounds = share, row.tables = one_or(8 * s.times); break;
  case BINDS:
    row.tables = one_or(16 * share * s.times);
    row.nodes = s.nodes / share, row.pages = s.pages / share;
    break;
  default: row.rounds = one_or(128 * share * s.times); break;
  }
  return row;
}

static void print_row(struct row row) {
  struct measured all = {0, 0};
  for (u32 i = 0; i < row.tables; i++) {
    struct measured once = measure(row);
    all.calls += once.calls;
    all.nanos += once.nanos;
  }
  const char *name = names[row.workload];
  printf("%s_of_%u %u %llu\n", name, row.ports, row.threads, (unsigned long long)all.calls);
  u64 hundredths = all.nanos * 100 / (all.calls > 0 ? all.calls : 1);
  fprintf(stderr, "%s_of_%u %u %llu.%02llu\n", name, row.ports, row.threads,
          (unsigned long long)hundredths / 100, (unsigned long long)hundredths % 100);
}

/* Whether the words of the program ask for the row: by its name, where it isn't empty, and its threads. */
static bool is_asked(struct row row, int count, char **words) {
  char name[32];
  snprintf(name, sizeof name, "%s_of_%u", names[row.workload], row.ports);
  return (count < 3 || words[2][0] == '\0' || strcmp(words[2], name) == 0) &&
         (count < 4 || strtoul(words[3], NULL, 10) == row.threads);
}

int main(int count, char **words) {
  struct scale s = {40, 160, 4096, 64, 0};
  if (count > 1) s = (struct scale){1000, 16000, 65536, 2048, (u32)strtoul(words[1], NULL, 10)};
  for (u32 workload = 0; workload < WORKLOADS; workload++)
    for (u32 i = 0; i < 2; i++)
      for (u32 threads = 1; threads <= 4; threads *= 2) {
        struct row row = row_of(s, workload, i == 0 ? s.few : s.many, threads);
        if (is_asked(row, count, words)) print_row(row);
      }
  return 0;
}
