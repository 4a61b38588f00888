/* DashMap, by the functions of ../dashmap/src/lib.rs. */
#include "table.h"

void *dashmap_open(uint32_t expected);
void dashmap_close(void *table);
bool dashmap_find(void *table, uint32_t key, uint32_t *value);
bool dashmap_insert(void *table, uint32_t key, uint32_t value);
bool dashmap_remove(void *table, uint32_t key);
uint64_t dashmap_count(void *table);

static void *enter(void *table) { return table; }

static void leave(void *table, void *seat) {
  (void)table;
  (void)seat;
}

static bool find(void *table, void *seat, uint32_t key, uint32_t *value) {
  (void)seat;
  return dashmap_find(table, key, value);
}

static enum table_answer insert(void *table, void *seat, uint32_t key, uint32_t value) {
  (void)seat;
  return dashmap_insert(table, key, value) ? TABLE_DONE : TABLE_EXISTS;
}

static bool remove_key(void *table, void *seat, uint32_t key) {
  (void)seat;
  return dashmap_remove(table, key);
}

static uint64_t count(void *table, void *seat) {
  (void)seat;
  return dashmap_count(table);
}

const struct table the_table = {
  .name = "DashMap",
  .what = "Rust's dashmap, with its own hash",
  .open = dashmap_open,
  .close = dashmap_close,
  .enter = enter,
  .leave = leave,
  .find = find,
  .insert = insert,
  .remove = remove_key,
  .count = count,
};
