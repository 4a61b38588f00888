/*
 * The calls of rht.h for bench/peers/counts, which reads from callgrind what each loop takes.
 *
 *   calls CALLERS
 *
 * Tables of a fixed shape are opened, with so many handles. One thread makes all calls, by one handle after another, so
 * that no two runs differ. A line of standard output is a loop: its name, its calls, and how often its form was gone
 * through, which `nothing` has without a call. Ends with 1 where a call has another reply than it must have.
 */
#include <rht.h>
#include <stdio.h>
#include <stdlib.h>

typedef uint32_t u32;

#define NODES 65536
#define PAGES 4096
#define HINT 16000
#define MOST_CALLERS 16
#define ROOM 16

#define PORTS 4000u
#define OWNER 7
/* Ports from here on are bound by no loop but `bind_in_pieces`; and those from here on by none. */
#define OTHER 100000u
#define UNBOUND 1000000u

/* What the loops share: the handles, and where pairs and owners are written. */
struct setting {
  rht_handle handles[MOST_CALLERS];
  u32 callers;
  rht_pair pairs[ROOM];
  u32 owners[ROOM];
};

static void fail(const char *what) {
  fprintf(stderr, "calls: %s\n", what);
  exit(1);
}

static rht_handle *handle_of(struct setting *s, u32 number) { return &s->handles[number % s->callers]; }

/* A loop of a call for each port, and how often it has the reply that it must have. */
#define LOOP(name, call, wanted) \
  static __attribute__((noinline)) u32 loop_##name(struct setting *s) { \
    rht_reply reply = RHT_REPLY_INIT; \
    u32 right = 0, owner = 0; \
    for (u32 number = 0; number < PORTS; number++) { \
      rht_handle *handle = handle_of(s, number); \
      rht_port port = {.number = number}, other = {.number = OTHER + number}, unbound = {.number = UNBOUND + number}; \
      (void)reply, (void)owner, (void)handle, (void)port, (void)other, (void)unbound; \
      right += (call) == (wanted); \
    } \
    return right; \
  }

/* A call without anything in it. */
static __attribute__((noinline)) u32 nothing(rht_handle *handle, rht_port port, u32 owner, rht_reply *reply) {
  __asm__ volatile("" : : "r"(handle), "r"(port.number), "r"(owner), "r"(reply) : "memory");
  return RHT_BOUND;
}

LOOP(nothing, nothing(handle, port, OWNER, &reply), RHT_BOUND)
LOOP(bind, rht_bind(handle, port, OWNER, &reply), RHT_BOUND)
LOOP(bind_once, rht_bind_once(handle, port, OWNER, &reply), RHT_BOUND)
LOOP(bind_bound, rht_bind(handle, port, OWNER, &reply), RHT_EXISTS)
LOOP(bind_in_pieces, rht_finish(handle, rht_bind_begin(handle, other, OWNER, &reply), &reply), RHT_BOUND)
LOOP(find, rht_find(handle, port, &owner), RHT_FOUND)
LOOP(find_unbound, rht_find(handle, unbound, &owner), RHT_MISSING)
LOOP(rebind, rht_rebind(handle, port, OWNER, OWNER, &reply), RHT_REBOUND)
LOOP(release, rht_release(handle, port, OWNER, &reply), RHT_RELEASED)
LOOP(release_unbound, rht_release(handle, unbound, OWNER, &reply), RHT_ABSENT)
LOOP(count, rht_count(handle, &reply), RHT_COUNTED)
LOOP(walk, rht_walk(handle, reply.next, 0, &reply), RHT_WALKED)
LOOP(pairs, rht_pairs(handle, 0, s->pairs, ROOM), 4)
LOOP(work_idle, rht_work(handle, &reply), RHT_IDLE)
LOOP(tidy_none, rht_tidy(handle, &reply), RHT_CLEAR)
LOOP(bind_second, rht_bind(handle, port, OWNER + 1, &reply), RHT_BOUND)
LOOP(all, rht_all(handle, port, &reply), RHT_LISTED)
LOOP(owners, rht_owners(handle, 0, s->owners, ROOM), 2)

/* Tidies by each handle until no node of it waits: how many came back. */
static __attribute__((noinline)) u32 loop_tidy(struct setting *s) {
  rht_reply reply = RHT_REPLY_INIT;
  u32 returned = 0;
  for (u32 caller = 0; caller < s->callers; caller++)
    do {
      if (rht_tidy(&s->handles[caller], &reply) != RHT_CLEAR) fail("a tidying is kept waiting by nobody");
      returned += reply.returned;
    } while (reply.returned > 0);
  return returned;
}

/* Binds ports in a table that begins small, and works wherever a reply asks for it. */
static __attribute__((noinline)) u32 loop_grow(struct setting *s) {
  rht_reply reply = RHT_REPLY_INIT;
  u32 right = 0;
  for (u32 number = 0; number < PORTS; number++) {
    rht_handle *handle = handle_of(s, number);
    right += rht_bind(handle, (rht_port){.number = number}, OWNER, &reply) == RHT_BOUND;
    while (reply.kick || reply.again) rht_work(handle, &reply);
  }
  return right;
}

static void open_table(struct setting *s, u32 callers, u32 hint, bool listed) {
  rht_config config = RHT_CONFIG_INIT;
  *s = (struct setting){.callers = callers};
  config.nodes = NODES;
  config.pages = PAGES;
  config.callers = callers;
  config.hint = hint;
  config.listed = listed;
  if (rht_open(&config, s->handles, callers) != RHT_OPENED) fail("no table can be opened");
}

static void close_table(struct setting *s) {
  rht_closed closed;
  if (rht_close_all(s->handles, s->callers, s->pairs, ROOM, &closed) != RHT_ENDED) fail("the table hasn't ended");
}

/* Opens a table, which takes most of what a program does with a table of which it makes few calls. */
static __attribute__((noinline)) u32 loop_open(struct setting *s, u32 callers) {
  open_table(s, callers, HINT, false);
  return 1;
}

static __attribute__((noinline)) u32 loop_close_all(struct setting *s) {
  close_table(s);
  return 1;
}

/* Closes each handle by itself, the last one with the table. */
static __attribute__((noinline)) u32 loop_close(struct setting *s) {
  u32 right = 0;
  for (u32 caller = 0; caller < s->callers; caller++) right += rht_close(&s->handles[caller]) == RHT_CLOSED;
  return right;
}

static void told(const char *name, u32 calls, u32 turns, u32 right) {
  if (right != calls) {
    fprintf(stderr, "calls: %s: %u of %u calls had the reply that they must have\n", name, right, calls);
    exit(1);
  }
  printf("%s %u %u\n", name, calls, turns);
}

#define TELL(name, s) told(#name, PORTS, PORTS, loop_##name(s))

/* Each handle walks until it has four pairs. */
static void walk_to_pairs(struct setting *s) {
  for (u32 caller = 0; caller < s->callers; caller++) {
    rht_reply reply = RHT_REPLY_INIT;
    do
      if (rht_walk(&s->handles[caller], reply.next, 4, &reply) != RHT_WALKED) fail("a walk has to begin anew");
    while (reply.len != 4 && reply.next.more);
  }
}

static void single(struct setting *s, u32 callers) {
  told("open", 1, 0, loop_open(s, callers));
  TELL(nothing, s);
  TELL(bind, s);
  TELL(find, s);
  TELL(find_unbound, s);
  TELL(bind_bound, s);
  TELL(rebind, s);
  TELL(count, s);
  TELL(walk, s);
  walk_to_pairs(s);
  TELL(pairs, s);
  TELL(work_idle, s);
  TELL(release_unbound, s);
  TELL(release, s);
  told("tidy", 2 * PORTS, 0, loop_tidy(s)); /* those of the rebinds and of the releases */
  TELL(tidy_none, s);
  TELL(bind_once, s);
  TELL(bind_in_pieces, s);
  told("close_all", 1, 0, loop_close_all(s)); /* with 8,000 ports, of which a few find room */
}

static void listed(struct setting *s, u32 callers) {
  rht_reply reply = RHT_REPLY_INIT;
  open_table(s, callers, HINT, true);
  for (u32 number = 0; number < PORTS; number++)
    if (rht_bind(handle_of(s, number), (rht_port){.number = number}, OWNER, &reply) != RHT_BOUND) fail("no first owner");
  TELL(bind_second, s);
  TELL(all, s);
  TELL(owners, s);
  close_table(s);
}

static void growing(struct setting *s, u32 callers) {
  open_table(s, callers, 1, false);
  told("grow", PORTS, 0, loop_grow(s));
  told("close", callers, 0, loop_close(s));
}

int main(int count, char **words) {
  static struct setting setting;
  u32 callers = count == 2 ? (u32)strtoul(words[1], NULL, 10) : 0;
  if (callers < 1 || callers > MOST_CALLERS) fail("its word is CALLERS, 1 to 16");
  single(&setting, callers);
  listed(&setting, callers);
  growing(&setting, callers);
  return 0;
}
