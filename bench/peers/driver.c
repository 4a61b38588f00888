/*
 * The driver of bench/peers/run: measures one table, which is linked with it (table.h).
 *
 *   PROGRAM about                              its name, the most keys that it holds, and what it is
 *   PROGRAM check                              whether it is a table, also with threads
 *   PROGRAM ROW KEYS MILLISECONDS THREADS..    measures a row, by each of these numbers of threads
 *
 * A row prints a line for each number of threads: the row, the keys, the threads, the nanoseconds that an operation
 * takes the thread which makes it, and how many operations a second a thread beside them has made. Where the table
 * can't do it, `absent` stands for both. The rows are those of bench/README.md, "Beside other tables".
 *
 * Ends with 1 where a call had an answer that it can't have, and with 2 where words are wrong.
 */
#define _GNU_SOURCE
#include <pthread.h>
#include <sched.h>
#include <stdatomic.h>
#include <stdio.h>
#include <stdlib.h>
#include <string.h>
#include <time.h>
#include <unistd.h>
#include "table.h"

typedef uint32_t u32;
typedef uint64_t u64;

#define MOST_THREADS 64
/* the operations between two looks at whether the time is over */
#define STRETCH 128
/* A thread that resizes gets this many seconds more to do so once to and fro, where other work keeps it from that. */
#define SECONDS_MORE 60
/* An insert that is to be made again so often will never be taken. */
#define PATIENCE ((u64)1 << 28)
/* Keys from here on are never inserted; and those from here on are those of the thread beside the others. */
#define MISSING 0x80000000u
#define FURTHER 0x40000000u

struct worker {
  pthread_t thread;
  unsigned number; /* its place among those of its kind */
  unsigned place;  /* its place among all */
  void (*body)(struct worker *);
  void *seat;
  u64 random, operations, nanos, wrong;
} __attribute__((aligned(128)));

static void *table;
static u32 keys;
static unsigned threads; /* those that are measured */
static struct worker workers[MOST_THREADS + 1];
static pthread_barrier_t gate;
static _Atomic unsigned begun;
static _Atomic u64 resized;
static _Atomic bool stop __attribute__((aligned(128)));
static char after_stop[128] __attribute__((aligned(128), unused));

static void fail(const char *why) {
  fprintf(stderr, "driver: %s: %s\n", the_table.name, why);
  exit(1);
}

static u64 now(void) {
  struct timespec t;
  clock_gettime(CLOCK_MONOTONIC, &t);
  return (u64)t.tv_sec * 1000000000 + (u64)t.tv_nsec;
}

/* ---- Keys ------------------------------------------------------------------------------------- */

/* The key of a number: each has another one, and keys of numbers in a row are spread. */
static inline u32 key_of(u32 number) {
  number = (number ^ number >> 16) * 0x85ebca6bu;
  number = (number ^ number >> 13) * 0xc2b2ae35u;
  return number ^ number >> 16;
}

static inline u64 next_random(u64 random) {
  random ^= random << 13;
  random ^= random >> 7;
  return random ^ random << 17;
}

static inline u32 below(u64 random, u32 bound) { return (u32)(((random >> 32) * bound) >> 32); }

/* ---- Operations ------------------------------------------------------------------------------- */

/* One operation of a row by a random number: whether its answer was wrong. */
typedef bool operation(struct worker *w, u64 random);

static enum table_answer insert(struct worker *w, u32 number) {
  for (u64 i = 0; i < PATIENCE; i++) {
    enum table_answer answer = the_table.insert(table, w->seat, key_of(number), number);
    if (answer != TABLE_RETRY) return answer;
  }
  fail("an insert was never taken");
  return TABLE_RETRY;
}

static inline bool remove_key(struct worker *w, u32 number) {
  return the_table.remove(table, w->seat, key_of(number));
}

static inline bool hit(struct worker *w, u64 random) {
  u32 value = MISSING, number = below(random, keys);
  bool found = the_table.find(table, w->seat, key_of(number), &value);
  return !found | (value != number);
}

static inline bool miss(struct worker *w, u64 random) {
  u32 value;
  return the_table.find(table, w->seat, key_of(MISSING + below(random, keys)), &value);
}

/* Of twice as many keys as there are: about half of them are in the table. */
static inline bool mixed(struct worker *w, u64 random) {
  u32 value = MISSING, number = below(random, 2 * keys), choice = (u32)random % 20;
  if (choice >= 2) {
    bool found = the_table.find(table, w->seat, key_of(number), &value);
    return found & (value != number);
  }
  if (choice == 0)
    insert(w, number);
  else
    remove_key(w, number);
  return false;
}

static inline bool change(struct worker *w, u64 random) {
  u32 number = below(random, 2 * keys);
  if (random & 1)
    insert(w, number);
  else
    remove_key(w, number);
  return false;
}

/* Makes operations until the time is over. */
static inline __attribute__((always_inline)) void repeat(struct worker *w, operation *one) {
  u64 random = w->random, done = 0, wrong = 0, began = now();
  while (!atomic_load_explicit(&stop, memory_order_relaxed)) {
    for (int i = 0; i < STRETCH; i++) {
      random = next_random(random);
      wrong += one(w, random);
    }
    done += STRETCH;
  }
  w->nanos = now() - began;
  w->operations = done;
  w->wrong = wrong;
}

static void hits(struct worker *w) { repeat(w, hit); }
static void misses(struct worker *w) { repeat(w, miss); }
static void mix(struct worker *w) { repeat(w, mixed); }
static void changes(struct worker *w) { repeat(w, change); }

/* Inserts this thread's share of the keys. */
static void fill(struct worker *w) {
  u64 began = now();
  for (u32 number = w->number; number < keys; number += threads) {
    w->wrong += insert(w, number) != TABLE_DONE;
    w->operations++;
  }
  w->nanos = now() - began;
}

/* ---- The thread beside the others -------------------------------------------------------------- */

/* The keys that it inserts and removes again. */
static u32 further_keys(void) { return keys / 4 * 11; }

static void insert_and_remove(struct worker *w) {
  u64 began = now();
  while (!stop) {
    u32 in = 0;
    for (; in < further_keys() && !stop; in++) w->wrong += insert(w, FURTHER + in) != TABLE_DONE;
    w->operations += 2 * in;
    while (in > 0) w->wrong += !remove_key(w, FURTHER + --in);
  }
  w->nanos = now() - began;
}

/* Makes the table larger and smaller again; it ends as it began, and each of the two counts as an operation. */
static void resize(struct worker *w) {
  u64 began = now();
  bool larger = true;
  while (!stop || !larger) {
    if (the_table.resize(table, w->seat, larger)) {
      larger = !larger;
      w->operations++;
      resized++;
    } else if (!stop)
      sched_yield();
    else
      break;
  }
  w->nanos = now() - began;
}

/* ---- Threads ----------------------------------------------------------------------------------- */

/* Puts the thread at a place on a processor of its own, where there are as many as threads. */
static void pin(unsigned place, unsigned all) {
  cpu_set_t given, one;
  if (sched_getaffinity(getpid(), sizeof given, &given) != 0 || (unsigned)CPU_COUNT(&given) < all) return;
  for (int i = 0; i < CPU_SETSIZE; i++)
    if (CPU_ISSET(i, &given) && place-- == 0) {
      CPU_ZERO(&one);
      CPU_SET(i, &one);
      pthread_setaffinity_np(pthread_self(), sizeof one, &one);
      return;
    }
}

static unsigned all_threads; /* those that are measured, and the one beside them where there is one */

/* Looks keys up before the clock is read, so that a processor's caches are as they stay. */
static void warm_up(struct worker *w) {
  u64 random = w->random ^ 0x5555555555555555u;
  u32 value, times = keys < 62500 ? 4 * keys : 250000;
  for (u32 i = 0; i < times; i++) {
    random = next_random(random);
    the_table.find(table, w->seat, key_of(below(random, 2 * keys)), &value);
  }
}

static void *work(void *given) {
  struct worker *w = given;
  pin(w->place, all_threads);
  w->seat = the_table.enter(table);
  warm_up(w);
  pthread_barrier_wait(&gate);
  begun++;
  w->body(w);
  pthread_barrier_wait(&gate);
  the_table.leave(table, w->seat);
  return NULL;
}

/* Runs a body in so many threads, and another one, which may be NULL, in one thread more. With a time they are
 * stopped after it, otherwise they end by themselves. */
static void run_threads(unsigned count, void (*body)(struct worker *), void (*beside)(struct worker *), unsigned milliseconds) {
  threads = count;
  all_threads = count + (beside != NULL);
  if (all_threads > MOST_THREADS) fail("these are too many threads");
  memset(workers, 0, sizeof workers);
  pthread_barrier_init(&gate, NULL, all_threads + 1);
  stop = false;
  begun = 0;
  resized = 0;
  for (unsigned i = 0; i < all_threads; i++) {
    struct worker *w = &workers[i];
    w->place = i;
    w->number = i < count ? i : 0;
    w->body = i < count ? body : beside;
    w->random = (i + 1) * 0x9e3779b97f4a7c15u | 1;
    if (pthread_create(&w->thread, NULL, work, w) != 0) fail("no thread could be made");
  }
  pthread_barrier_wait(&gate);
  if (milliseconds > 0) {
    while (begun < all_threads) usleep(200);
    usleep(1000 * milliseconds);
    for (int i = 0; beside == resize && resized < 2 && i < 1000 * SECONDS_MORE; i++) usleep(1000);
    stop = true;
  }
  pthread_barrier_wait(&gate);
  for (unsigned i = 0; i < all_threads; i++) pthread_join(workers[i].thread, NULL);
  pthread_barrier_destroy(&gate);
  for (unsigned i = 0; i < all_threads; i++)
    if (workers[i].wrong > 0 && !the_table.is_none) fail("a call had an answer that it can't have");
}

/* ---- Rows -------------------------------------------------------------------------------------- */

static void open_table(u32 expected) {
  table = the_table.open(expected);
  if (table == NULL) fail("no table can be opened");
}

/* Inserts the keys of numbers that are so far from one another. */
static void populate(u32 distance) {
  struct worker w = {.seat = the_table.enter(table)};
  for (u32 i = 0; i < keys; i++) {
    if (insert(&w, distance * i) != TABLE_DONE && !the_table.is_none) fail("a new key isn't inserted");
    if (i % 1024 == 1023 && the_table.settle != NULL) the_table.settle(table, w.seat);
  }
  if (the_table.settle != NULL) the_table.settle(table, w.seat);
  the_table.leave(table, w.seat);
}

/* Whether the table can be resized as it is, to and fro. */
static bool can_resize(void) {
  void *seat = the_table.enter(table);
  bool can = the_table.resize(table, seat, true) && the_table.resize(table, seat, false);
  the_table.leave(table, seat);
  return can;
}

struct row {
  const char *name;
  void (*body)(struct worker *);
  void (*beside)(struct worker *);
  u32 distance; /* of the numbers whose keys are in the table */
};

static const struct row rows[] = {
  {"hits", hits, NULL, 1},        {"misses", misses, NULL, 1},
  {"mixed", mix, NULL, 2},        {"changes", changes, NULL, 2},
  {"filling", fill, NULL, 0},     {"inserting", hits, insert_and_remove, 1},
  {"resizing", hits, resize, 1},
};

static void print(const struct row *row, u64 nanos, u64 operations) {
  const struct worker *beside = &workers[threads];
  double rate = row->beside != NULL && beside->nanos > 0 ? 1e9 * (double)beside->operations / (double)beside->nanos : 0;
  if (row->body == hits && row->beside == resize && beside->operations == 0) fail("nothing was resized");
  printf("%s %u %u %.3f %.0f\n", row->name, keys, threads, (double)nanos / (double)operations, rate);
  fflush(stdout);
}

/* What the measured threads have done. */
static void add_up(u64 *nanos, u64 *operations) {
  for (unsigned i = 0; i < threads; i++) {
    *nanos += workers[i].nanos;
    *operations += workers[i].operations;
  }
}

/* Fills tables that begin small, as many as it takes for 60,000 keys. */
static void measure_filling(const struct row *row, unsigned count) {
  u64 nanos = 0, operations = 0;
  for (u32 i = 0; i < (keys < 60000 ? 60000 / keys : 1); i++) {
    open_table(0);
    run_threads(count, row->body, NULL, 0);
    add_up(&nanos, &operations);
    the_table.close(table);
  }
  print(row, nanos, operations);
}

static void measure(const struct row *row, unsigned milliseconds, const unsigned *counts, unsigned many) {
  u64 wanted = row->beside == insert_and_remove ? (u64)keys + further_keys() : keys;
  bool can = the_table.most == 0 || wanted <= the_table.most;
  if (row->beside == resize) can = can && the_table.resize != NULL;
  if (can && row->distance > 0) {
    open_table(keys);
    populate(row->distance);
    can = row->beside != resize || can_resize();
  }
  for (unsigned i = 0; i < many; i++) {
    u64 nanos = 0, operations = 0;
    if (!can) {
      printf("%s %u %u absent absent\n", row->name, keys, counts[i]);
    } else if (row->distance == 0) {
      measure_filling(row, counts[i]);
    } else {
      run_threads(counts[i], row->body, row->beside, milliseconds);
      add_up(&nanos, &operations);
      print(row, nanos, operations);
    }
  }
}

/* ---- Whether it is a table ---------------------------------------------------------------------- */

static _Atomic unsigned failed;

static void expect(bool holds, const char *what) {
  if (holds) return;
  if (failed++ < 20) fprintf(stderr, "driver: %s: %s\n", the_table.name, what);
}

/* A thread has the numbers that leave its own place by the threads, and knows what is in the table of them. */
struct own {
  bool *in;
  u32 *value;
  u32 count;
};

static u32 number_of(const struct worker *w, u32 index) { return index * threads + w->number; }

static void check_find(struct worker *w, const struct own *own, u32 index) {
  u32 value = 0;
  bool found = the_table.find(table, w->seat, key_of(number_of(w, index)), &value);
  expect(found == own->in[index], "a look-up finds what isn't there, or misses what is");
  expect(!found || value == own->value[index], "a look-up finds another value");
}

static void check_insert(struct worker *w, struct own *own, u32 index, u32 value) {
  enum table_answer answer;
  do
    answer = the_table.insert(table, w->seat, key_of(number_of(w, index)), value);
  while (answer == TABLE_RETRY);
  expect((answer == TABLE_DONE) == !own->in[index], "an insert takes a key twice, or refuses a new one");
  if (answer == TABLE_DONE) own->value[index] = value;
  own->in[index] = true;
}

static void check_remove(struct worker *w, struct own *own, u32 index) {
  expect(remove_key(w, number_of(w, index)) == own->in[index], "a key is removed that isn't there, or another isn't");
  own->in[index] = false;
}

/* Calls by chance on keys of its own. Stretches in which most are inserts take turns with such as have more
 * removals, so that the table grows and shrinks. */
static void check_own(struct worker *w) {
  u64 random = w->random;
  struct own own = {.count = keys / threads};
  own.in = calloc(own.count, sizeof *own.in);
  own.value = calloc(own.count, sizeof *own.value);
  if (own.in == NULL || own.value == NULL) fail("there is no memory");
  for (u32 i = 0; i < 20 * own.count; i++) {
    bool fills = i / (4 * own.count) % 2 == 0;
    random = next_random(random);
    u32 index = below(random, own.count), choice = (u32)random % 8;
    if (choice < 3)
      check_find(w, &own, index);
    else if (choice < (fills ? 7 : 4))
      check_insert(w, &own, index, i);
    else
      check_remove(w, &own, index);
  }
  for (u32 index = 0; index < own.count; index++) {
    check_find(w, &own, index);
    w->operations += own.in[index];
  }
  free(own.in);
  free(own.value);
}

/* The answers to one thread, also on the least and the greatest key. */
static void check_answers(void) {
  static const u32 some[] = {7, 0, 0xffffffffu};
  open_table(0);
  void *seat = the_table.enter(table);
  for (unsigned i = 0; i < sizeof some / sizeof *some; i++) {
    u32 value = 0;
    expect(!the_table.find(table, seat, some[i], &value), "it finds a key in a table without one");
    expect(!the_table.remove(table, seat, some[i]), "it removes a key from a table without one");
    expect(the_table.insert(table, seat, some[i], 70 + i) == TABLE_DONE, "it refuses a new key");
    expect(the_table.insert(table, seat, some[i], 90) == TABLE_EXISTS, "it takes a key twice");
    expect(the_table.find(table, seat, some[i], &value) && value == 70 + i, "it doesn't find a key with its value");
    expect(the_table.count(table, seat) == 1, "it doesn't count one key");
    expect(the_table.remove(table, seat, some[i]), "it doesn't remove a key");
    expect(!the_table.find(table, seat, some[i], &value), "it finds a key that was removed");
    expect(the_table.count(table, seat) == 0, "it counts a key that was removed");
  }
  the_table.leave(table, seat);
  the_table.close(table);
}

/* Calls of threads beside each other, and how many keys they leave. */
static void check_threads(unsigned count) {
  u64 left = 0;
  open_table(0);
  run_threads(count, check_own, NULL, 0);
  for (unsigned i = 0; i < count; i++) left += workers[i].operations;
  void *seat = the_table.enter(table);
  expect(the_table.count(table, seat) == left, "it counts other keys than there are");
  the_table.leave(table, seat);
  the_table.close(table);
}

/* Look-ups while another thread works: run_threads fails where one misses. */
static void check_beside(void (*beside)(struct worker *), const char *what) {
  u64 nanos = 0, operations = 0;
  open_table(keys);
  populate(1);
  run_threads(3, hits, beside, 200);
  add_up(&nanos, &operations);
  fprintf(stderr, "driver: %s: %llu look-ups beside %llu %s\n", the_table.name, (unsigned long long)operations,
          (unsigned long long)workers[threads].operations, what);
  expect(workers[threads].operations > 0, "the thread beside the look-ups has done nothing");
  the_table.close(table);
}

static int check(void) {
  keys = 4000;
  if (the_table.is_none) return 0;
  check_answers();
  for (unsigned count = 1; count <= 4; count++) check_threads(count);
  check_beside(insert_and_remove, "inserts and removals");
  if (the_table.resize != NULL) check_beside(resize, "resizings");
  printf("%s: %s\n", the_table.name, failed == 0 ? "passed" : "failed");
  return failed != 0;
}

static int usage(void) {
  fprintf(stderr, "usage: PROGRAM about | check | ROW KEYS MILLISECONDS THREADS..\n");
  return 2;
}

int main(int count, char **words) {
  unsigned counts[MOST_THREADS], many = 0;
  if (count == 2 && strcmp(words[1], "about") == 0) {
    printf("%s %u %s\n", the_table.name, the_table.most, the_table.what);
    return 0;
  }
  if (count == 2 && strcmp(words[1], "check") == 0) return check();
  if (count < 5 || count > 4 + MOST_THREADS) return usage();
  keys = (u32)strtoul(words[2], NULL, 10);
  for (int i = 4; i < count; i++) counts[many++] = (unsigned)strtoul(words[i], NULL, 10);
  for (unsigned i = 0; i < many; i++)
    if (keys < 4 || keys > FURTHER / 4 || counts[i] < 1 || counts[i] >= MOST_THREADS) return usage();
  for (unsigned i = 0; i < sizeof rows / sizeof *rows; i++)
    if (strcmp(words[1], rows[i].name) == 0) {
      measure(&rows[i], (unsigned)strtoul(words[3], NULL, 10), counts, many);
      return 0;
    }
  return usage();
}
