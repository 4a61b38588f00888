/* The kernel's table, in user space over kernel/shim.h: lib/rhashtable.c as its package has it. It is included here,
 * so that a resizing can call functions of that file. Its readers are liburcu's, of the flavour memb. */
#include "shim.h"

#include "rhashtable.c"

#include "table.h"
#include "urcu.h"

struct entry {
  u32 key, value;
  struct rhash_head node;
  struct rcu_head behind;
};

static int differs(struct rhashtable_compare_arg *wanted, const void *entry) {
  return READ_ONCE(((const struct entry *)entry)->key) != *(const u32 *)wanted->key;
}

/* A constant, so that hash and comparison are inlined, as with the kernel's own users. */
static const struct rhashtable_params as_usual = {
  .key_len = sizeof(u32),
  .key_offset = offsetof(struct entry, key),
  .head_offset = offsetof(struct entry, node),
  .obj_cmpfn = differs,
  .automatic_shrinking = true,
};

/* The hint is a number of 16 bits there. */
static void *open_hashed(u32 expected) {
  struct rhashtable_params params = as_usual;
  struct rhashtable *table = shim_zeroed(sizeof *table);
  if (table == NULL) return NULL;
  shim_start();
  get_default_call_rcu_data(); /* its thread begins here, and not on a processor where a measured one is */
  params.nelem_hint = expected > 65535 ? 65535 : expected;
  if (rhashtable_init(table, &params) == 0) return table;
  free(table);
  return NULL;
}

static void free_now(void *entry, void *unused) { free(entry); }
static void free_entry(struct rcu_head *behind) { free(container_of(behind, struct entry, behind)); }

static void close_hashed(void *table) {
  rcu_barrier();
  rcu_register_thread();
  rhashtable_free_and_destroy(table, free_now, NULL);
  rcu_unregister_thread();
  rcu_barrier();
  free(table);
}

static bool find(void *table, void *seat, u32 key, u32 *value) {
  rcu_read_lock();
  struct entry *entry = rhashtable_lookup(table, &key, as_usual);
  if (entry != NULL) *value = entry->value;
  rcu_read_unlock();
  return entry != NULL;
}

static enum table_answer insert(void *table, void *seat, u32 key, u32 value) {
  struct entry *entry = malloc(sizeof *entry);
  if (entry == NULL) return TABLE_RETRY;
  entry->key = key;
  entry->value = value;
  int answer = rhashtable_lookup_insert_fast(table, &entry->node, as_usual);
  if (answer == 0) return TABLE_DONE;
  free(entry);
  return answer == -EEXIST ? TABLE_EXISTS : TABLE_RETRY;
}

static bool remove_key(void *table, void *seat, u32 key) {
  rcu_read_lock();
  struct entry *entry = rhashtable_lookup(table, &key, as_usual);
  bool removed = entry != NULL && rhashtable_remove_fast(table, &entry->node, as_usual) == 0;
  rcu_read_unlock();
  if (removed) call_rcu(&entry->behind, free_entry);
  return removed;
}

static void settle(void *table, void *seat) { shim_wait_for_work(); }

/* What the table's own work does, to a size that is given. After -EAGAIN there is one table more to empty. */
static bool resize(void *given, void *seat, bool larger) {
  struct rhashtable *table = given;
  mutex_lock(&table->mutex);
  struct bucket_table *last = rhashtable_last_table(table, rht_dereference(table->tbl, table));
  int answer = rhashtable_rehash_alloc(table, last, larger ? 2 * last->size : last->size / 2);
  if (answer == 0)
    do
      answer = rhashtable_rehash_table(table);
    while (answer == -EAGAIN);
  mutex_unlock(&table->mutex);
  return answer == 0;
}

static u64 count(void *table, void *seat) { return atomic_read(&((struct rhashtable *)table)->nelems); }

const struct table the_table = {
  .name = "kernel",
  .what = "lib/rhashtable.c in user space over liburcu memb, with an inlined comparison",
  .open = open_hashed,
  .close = close_hashed,
  .enter = enter,
  .leave = leave,
  .find = find,
  .insert = insert,
  .remove = remove_key,
  .settle = settle,
  .resize = resize,
  .count = count,
};
