/* liburcu's cds_lfht: its lock-free table, which grows and shrinks by itself. */
#define _GNU_SOURCE
#define _LGPL_SOURCE
#define URCU_API_MAP
#include <stdlib.h>
#include <urcu/urcu-memb.h>

#include <urcu/rculfhash.h>

#include "table.h"
#include "urcu.h"

#define LEAST_BUCKETS 64

struct entry {
  uint32_t key, value;
  struct cds_lfht_node node;
  struct rcu_head behind;
};

struct hashed {
  struct cds_lfht *entries;
  unsigned long buckets; /* those that it is made with */
};

/* Bob Jenkins' final mix of one word, which the kernel's table and rht have too. */
static unsigned long hash_of(uint32_t key) {
  uint32_t a, b, c;
  a = b = c = 0xdeadbeef + 4 + 1;
  a += key;
#define MIX(x, y, by) x = (x ^ y) - (y << by | y >> (32 - by))
  MIX(c, b, 14);
  MIX(a, c, 11);
  MIX(b, a, 25);
  MIX(c, b, 16);
  MIX(a, c, 4);
  MIX(b, a, 14);
  MIX(c, b, 24);
#undef MIX
  return c;
}

static struct entry *entry_of(struct cds_lfht_node *node) { return caa_container_of(node, struct entry, node); }

static int is_of_key(struct cds_lfht_node *node, const void *key) { return entry_of(node)->key == *(const uint32_t *)key; }

static void free_entry(struct rcu_head *behind) { free(caa_container_of(behind, struct entry, behind)); }

static void *open_hashed(uint32_t expected) {
  struct hashed *table = calloc(1, sizeof *table);
  if (table == NULL) return NULL;
  get_default_call_rcu_data(); /* its thread begins here, and not on a processor where a measured one is */
  for (table->buckets = LEAST_BUCKETS; table->buckets < expected;) table->buckets *= 2;
  rcu_register_thread();
  table->entries =
    cds_lfht_new(table->buckets, LEAST_BUCKETS, 0, CDS_LFHT_AUTO_RESIZE | CDS_LFHT_ACCOUNTING, NULL);
  rcu_unregister_thread();
  if (table->entries != NULL) return table;
  free(table);
  return NULL;
}

/* Takes the entry out in the section that was opened: whether nobody else has. */
static bool taken_out(struct hashed *table, struct cds_lfht_node *node) {
  if (cds_lfht_del(table->entries, node) != 0) return false;
  call_rcu(&entry_of(node)->behind, free_entry);
  return true;
}

static void close_hashed(void *given) {
  struct hashed *table = given;
  struct cds_lfht_iter at;
  struct entry *entry;
  rcu_register_thread();
  rcu_read_lock();
  cds_lfht_for_each_entry(table->entries, &at, entry, node) taken_out(table, &entry->node);
  rcu_read_unlock();
  rcu_barrier();
  if (cds_lfht_destroy(table->entries, NULL) != 0) abort();
  rcu_unregister_thread();
  free(table);
}

/* Looks a key up in the section that was opened. */
static struct cds_lfht_node *node_of(struct hashed *table, uint32_t key) {
  struct cds_lfht_iter at;
  cds_lfht_lookup(table->entries, hash_of(key), is_of_key, &key, &at);
  return cds_lfht_iter_get_node(&at);
}

static bool find(void *table, void *seat, uint32_t key, uint32_t *value) {
  (void)seat;
  rcu_read_lock();
  struct cds_lfht_node *node = node_of(table, key);
  if (node != NULL) *value = entry_of(node)->value;
  rcu_read_unlock();
  return node != NULL;
}

static enum table_answer insert(void *given, void *seat, uint32_t key, uint32_t value) {
  struct hashed *table = given;
  struct entry *entry = malloc(sizeof *entry);
  (void)seat;
  if (entry == NULL) return TABLE_RETRY;
  cds_lfht_node_init(&entry->node);
  entry->key = key;
  entry->value = value;
  rcu_read_lock();
  struct cds_lfht_node *there = cds_lfht_add_unique(table->entries, hash_of(key), is_of_key, &key, &entry->node);
  rcu_read_unlock();
  if (there == &entry->node) return TABLE_DONE;
  free(entry);
  return TABLE_EXISTS;
}

static bool remove_key(void *table, void *seat, uint32_t key) {
  (void)seat;
  rcu_read_lock();
  struct cds_lfht_node *node = node_of(table, key);
  bool removed = node != NULL && taken_out(table, node);
  rcu_read_unlock();
  return removed;
}

static bool resize(void *given, void *seat, bool larger) {
  struct hashed *table = given;
  (void)seat;
  cds_lfht_resize(table->entries, larger ? 2 * table->buckets : table->buckets);
  return true;
}

static uint64_t count(void *given, void *seat) {
  struct hashed *table = given;
  unsigned long entries;
  long before, behind;
  (void)seat;
  rcu_read_lock();
  cds_lfht_count_nodes(table->entries, &before, &entries, &behind);
  rcu_read_unlock();
  return entries;
}

const struct table the_table = {
  .name = "liburcu",
  .what = "cds_lfht with the flavour memb, which resizes itself",
  .open = open_hashed,
  .close = close_hashed,
  .enter = enter,
  .leave = leave,
  .find = find,
  .insert = insert,
  .remove = remove_key,
  .resize = resize,
  .count = count,
};
