/* The table of this repository, by rht.h with the library in the program.
 *
 * What the driver asks for and the library hasn't:
 *   - A table has as many handles as it was opened with, and a closed one isn't opened again. So a thread that leaves
 *     puts its handle back for the next one.
 *   - A removal of a key alone: a release names the owner too. So it is a look-up and a release, and both again where
 *     another thread came between. The other tables look the key up before they remove it as well.
 *   - A resizing to a size: here it is what makes a program resize, binds up to a kick and releases up to the next.
 *
 * Who is told of a kick works at once, by its own handle, until there is nothing to move. A caller tidies after each
 * TIDY_AFTER of its releases, and where a bind finds no node. */
#include <pthread.h>
#include <sched.h>
#include <stdlib.h>

#define RHT_YIELD() sched_yield()
#include <rht.h>

#include "table.h"

/* The greatest that a config may have. Of the nodes 5,536 are left over for those that were taken out and wait. */
#define NODES 65536
#define PAGES 4096
#define HANDLES 16
#define MOST_KEYS 60000

#define TIDY_AFTER 64
/* After so many tidyings without a node there is none. */
#define PATIENCE 1000

struct caller {
  rht_handle handle;
  struct caller *next;
  uint32_t released; /* since it last tidied */
} __attribute__((aligned(128)));

struct callers {
  struct caller caller[HANDLES];
  struct caller *free;
  pthread_mutex_t lock;
  uint32_t own; /* the ports of net 1 that are bound, to resize; one thread at a time does that */
};

static rht_port port_of(uint32_t key) { return (rht_port){.number = key}; }
static rht_port own_port(uint32_t number) { return (rht_port){.number = number, .net = 1}; }

static void *open_callers(uint32_t expected) {
  rht_handle handles[HANDLES];
  rht_config config = RHT_CONFIG_INIT;
  struct callers *callers = aligned_alloc(128, sizeof *callers);
  if (callers == NULL) return NULL;
  for (int i = 0; i < HANDLES; i++) handles[i] = (rht_handle)RHT_HANDLE_INIT;
  config.nodes = NODES;
  config.pages = PAGES;
  config.callers = HANDLES;
  config.hint = expected;
  config.shrink = true;
  if (rht_open(&config, handles, HANDLES) != RHT_OPENED) {
    free(callers);
    return NULL;
  }
  *callers = (struct callers){.free = NULL};
  pthread_mutex_init(&callers->lock, NULL);
  for (int i = HANDLES; i-- > 0;) {
    callers->caller[i] = (struct caller){.handle = handles[i], .next = callers->free};
    callers->free = &callers->caller[i];
  }
  return callers;
}

/* Tidies until no node of the caller waits. */
static void tidy_all(struct caller *caller) {
  rht_reply reply = RHT_REPLY_INIT;
  while (rht_tidy(&caller->handle, &reply) == RHT_PENDING || reply.returned > 0) sched_yield();
  caller->released = 0;
}

static void close_callers(void *table) {
  struct callers *callers = table;
  for (int i = 0; i < HANDLES; i++) {
    tidy_all(&callers->caller[i]);
    if (rht_close(&callers->caller[i].handle) != RHT_CLOSED) abort();
  }
  pthread_mutex_destroy(&callers->lock);
  free(callers);
}

static void *enter(void *table) {
  struct callers *callers = table;
  pthread_mutex_lock(&callers->lock);
  struct caller *caller = callers->free;
  if (caller == NULL) abort();
  callers->free = caller->next;
  pthread_mutex_unlock(&callers->lock);
  return caller;
}

static void leave(void *table, void *seat) {
  struct callers *callers = table;
  struct caller *caller = seat;
  tidy_all(caller);
  pthread_mutex_lock(&callers->lock);
  caller->next = callers->free;
  callers->free = caller;
  pthread_mutex_unlock(&callers->lock);
}

static void settle(void *table, void *seat) {
  rht_reply reply = RHT_REPLY_INIT;
  (void)table;
  while (rht_work(&((struct caller *)seat)->handle, &reply) == RHT_MOVED) continue;
}

static void tidy(struct caller *caller) {
  rht_reply reply = RHT_REPLY_INIT;
  rht_tidy(&caller->handle, &reply);
  caller->released = 0;
}

static bool find(void *table, void *seat, uint32_t key, uint32_t *value) {
  (void)table;
  return rht_find(&((struct caller *)seat)->handle, port_of(key), value) == RHT_FOUND;
}

/* Binds a port, and makes room for the next try where there is none. */
static enum table_answer bind_port(struct caller *caller, rht_port port, uint32_t owner, bool *kick) {
  rht_reply reply = RHT_REPLY_INIT;
  switch (rht_bind(&caller->handle, port, owner, &reply)) {
    case RHT_BOUND:
      *kick = reply.kick;
      return TABLE_DONE;
    case RHT_EXISTS:
      return TABLE_EXISTS;
    case RHT_NO_NODE:
      tidy(caller);
      return TABLE_RETRY;
    case RHT_BUSY:
    case RHT_NO_TABLE:
      settle(NULL, caller);
      return TABLE_RETRY;
    default:
      abort();
  }
}

static enum table_answer insert(void *table, void *seat, uint32_t key, uint32_t value) {
  bool kick = false;
  enum table_answer answer = bind_port(seat, port_of(key), value, &kick);
  if (kick) settle(table, seat);
  return answer;
}

/* Counts a release, and tidies where there were enough. */
static void released(struct caller *caller) {
  if (++caller->released >= TIDY_AFTER) tidy(caller);
}

static bool remove_key(void *table, void *seat, uint32_t key) {
  struct caller *caller = seat;
  rht_reply reply = RHT_REPLY_INIT;
  uint32_t owner = 0;
  do
    if (rht_find(&caller->handle, port_of(key), &owner) != RHT_FOUND) return false;
  while (rht_release(&caller->handle, port_of(key), owner, &reply) != RHT_RELEASED);
  if (reply.kick) settle(table, seat);
  released(caller);
  return true;
}

/* Binds a port more of net 1: whether there is a node for it. */
static bool bind_own(struct callers *callers, struct caller *caller, bool *kick) {
  for (int i = 0; i < PATIENCE; i++)
    if (bind_port(caller, own_port(callers->own), 1, kick) == TABLE_DONE) {
      callers->own++;
      return true;
    }
  return false;
}

/* Releases the last port of net 1: whether there was one. */
static bool release_own(struct callers *callers, struct caller *caller, bool *kick) {
  rht_reply reply = RHT_REPLY_INIT;
  if (callers->own == 0) return false;
  if (rht_release(&caller->handle, own_port(--callers->own), 1, &reply) != RHT_RELEASED) abort();
  *kick = reply.kick;
  released(caller);
  return true;
}

static bool resize(void *table, void *seat, bool larger) {
  bool kick = false;
  while (!kick)
    if (larger ? !bind_own(table, seat, &kick) : !release_own(table, seat, &kick)) return false;
  settle(table, seat);
  return true;
}

static uint64_t count(void *table, void *seat) {
  rht_reply reply = RHT_REPLY_INIT;
  (void)table;
  rht_count(&((struct caller *)seat)->handle, &reply);
  return reply.count;
}

const struct table the_table = {
  .name = "rht",
  .what = "this repository, by rht.h; 65,536 nodes, 4,096 pages, 16 handles",
  .most = MOST_KEYS,
  .open = open_callers,
  .close = close_callers,
  .enter = enter,
  .leave = leave,
  .find = find,
  .insert = insert,
  .remove = remove_key,
  .settle = settle,
  .resize = resize,
  .count = count,
};
