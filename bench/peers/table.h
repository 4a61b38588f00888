/* What the driver asks of a table. A plug-in is a file of tables/ that defines the_table; it is linked with driver.c
 * into a program of its own, as a program has a table in itself. Keys and values are numbers of 32 bits. Each call
 * goes through this struct, so each table pays for the same indirect call. */
#ifndef TABLE_H
#define TABLE_H

#include <stdbool.h>
#include <stddef.h>
#include <stdint.h>

#ifdef __cplusplus
extern "C" {
#endif

/* What an insert came to: the key was there already; it is there now; or the call is to be made again. */
enum table_answer { TABLE_EXISTS, TABLE_DONE, TABLE_RETRY };

struct table {
  const char *name; /* one word */
  const char *what; /* the library, with the version where the source knows it */
  uint32_t most;    /* the most keys that it can hold; 0 where there is no limit */
  bool is_none;     /* no table: it answers anything, and shows what the driver itself takes */

  /* A table in which so many keys are expected, or any number where that is 0. NULL where there can't be one. */
  void *(*open)(uint32_t expected);
  /* Every thread has left by then. */
  void (*close)(void *table);

  /* Each thread enters before it makes a call below, passes on what it got, which may be NULL, and leaves. */
  void *(*enter)(void *table);
  void (*leave)(void *table, void *seat);

  bool (*find)(void *table, void *seat, uint32_t key, uint32_t *value);
  enum table_answer (*insert)(void *table, void *seat, uint32_t key, uint32_t value);
  bool (*remove)(void *table, void *seat, uint32_t key);

  /* Does what the table has put off, as growing, or waits for it. May be NULL. */
  void (*settle)(void *table, void *seat);
  /* Gives the table twice its buckets, or half of them again; whether it did. May be NULL. */
  bool (*resize)(void *table, void *seat, bool larger);
  /* The keys, while nobody changes the table. */
  uint64_t (*count)(void *table, void *seat);
};

extern const struct table the_table;

#ifdef __cplusplus
}
#endif

#endif
