/* No table: what the driver, its random numbers and the indirect calls take. */
#include "table.h"

static char nothing;

static void *open_none(uint32_t expected) {
  (void)expected;
  return &nothing;
}

static void close_none(void *table) { (void)table; }

static void *enter(void *table) { return table; }

static void leave(void *table, void *seat) {
  (void)table;
  (void)seat;
}

static bool find(void *table, void *seat, uint32_t key, uint32_t *value) {
  (void)table;
  (void)seat;
  *value = key;
  return true;
}

static enum table_answer insert(void *table, void *seat, uint32_t key, uint32_t value) {
  (void)table;
  (void)seat;
  (void)key;
  (void)value;
  return TABLE_DONE;
}

static bool remove_key(void *table, void *seat, uint32_t key) {
  (void)table;
  (void)seat;
  (void)key;
  return true;
}

static bool resize(void *table, void *seat, bool larger) {
  (void)table;
  (void)seat;
  (void)larger;
  return true;
}

static uint64_t count(void *table, void *seat) {
  (void)table;
  (void)seat;
  return 0;
}

const struct table the_table = {
  .name = "null",
  .what = "no table: the driver itself",
  .is_none = true,
  .open = open_none,
  .close = close_none,
  .enter = enter,
  .leave = leave,
  .find = find,
  .insert = insert,
  .remove = remove_key,
  .resize = resize,
  .count = count,
};
