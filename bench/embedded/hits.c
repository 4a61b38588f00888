/*
 * Look-ups of bound ports from C: what the rows `hits` of `rht_bench` do, by the functions of rht.h.
 *
 *   hits PORTS THREADS ROUNDS NODES PAGES NET
 *
 * A table with so many nodes and pages is opened, and the ports of the net are bound, of which each thread has
 * its share. When all threads have come to a gate each goes through its ports, so many rounds. Standard output
 * has how many look-ups had the reply that they must have, standard error the nanoseconds a look-up: the wall
 * time of all threads by the look-ups of all threads. `hits.rs` and `hits.py` take the same words, and print the
 * same lines.
 */
#include <pthread.h>
#include <rht.h>
#include <sched.h>
#include <stdatomic.h>
#include <stdio.h>
#include <stdlib.h>
#include <time.h>

typedef uint16_t u16;
typedef uint32_t u32;
typedef uint64_t u64;

#define OWNER 7
#define MOST_THREADS 16

/* A thread looks so often whether all have come, and then goes on without them. */
#define PATIENCE ((u32)1 << 20)

struct gate {
  _Atomic u32 arrived;
  u32 all;
};

/* The ports of a thread, side by side in one net. */
struct ports {
  u32 first, count;
  u16 net;
};

/* What a thread has. */
struct job {
  rht_handle handle;
  struct gate *gate;
  struct ports ports;
  u32 rounds;
  u64 right, began, ended;
};

static struct job jobs[MOST_THREADS];

static void fail(const char *why) {
  fprintf(stderr, "hits: %s\n", why);
  exit(1);
}

static void pass(struct gate *gate) {
  atomic_fetch_add(&gate->arrived, 1);
  for (u32 i = 0; i < PATIENCE && atomic_load(&gate->arrived) < gate->all; i++) sched_yield();
}

static u64 now(void) {
  struct timespec t;
  clock_gettime(CLOCK_MONOTONIC, &t);
  return (u64)t.tv_sec * 1000000000 + (u64)t.tv_nsec;
}

static rht_port port_at(struct ports ports, u32 index) { return (rht_port){ports.first + index, ports.net}; }

static void bind_all(rht_handle *handle, struct ports ports) {
  rht_reply reply = RHT_REPLY_INIT;
  for (u32 i = 0; i < ports.count; i++)
    if (rht_bind(handle, port_at(ports, i), OWNER, &reply) != RHT_BOUND) fail("a port isn't bound");
}

static u64 hits(rht_handle *handle, struct ports ports) {
  u64 right = 0;
  for (u32 i = 0; i < ports.count; i++) {
    u32 owner = 0;
    right += rht_find(handle, port_at(ports, i), &owner) == RHT_FOUND && owner == OWNER;
  }
  return right;
}

static void *work(void *given) {
  struct job *job = given;
  u64 right = 0;
  pass(job->gate);
  job->began = now();
  for (u32 i = 0; i < job->rounds; i++) right += hits(&job->handle, job->ports);
  job->ended = now();
  job->right = right;
  return NULL;
}

/* Opens the table, and gives each job its handle. The bytes of a handle may be moved. */
static void open_table(u32 threads, u32 ports, u32 nodes, u32 pages) {
  static rht_handle opened[MOST_THREADS];
  rht_config config = RHT_CONFIG_INIT;
  config.nodes = nodes;
  config.pages = pages;
  config.callers = threads;
  config.hint = ports;
  if (rht_open(&config, opened, threads) != RHT_OPENED) fail("no table can be opened");
  for (u32 i = 0; i < threads; i++) jobs[i].handle = opened[i];
}

/* Does all jobs, the first in this thread and each other one in a thread of its own. */
static void work_all(u32 threads) {
  pthread_t started[MOST_THREADS];
  for (u32 i = 1; i < threads; i++)
    if (pthread_create(&started[i], NULL, work, &jobs[i]) != 0) fail("no thread could be made");
  work(&jobs[0]);
  for (u32 i = 1; i < threads; i++) pthread_join(started[i], NULL);
}

/* Prints the look-ups of all jobs, and their time from the first beginning to the last end. */
static void print(u32 threads, u32 ports) {
  u64 right = 0, began = jobs[0].began, ended = jobs[0].ended;
  for (u32 i = 0; i < threads; i++) {
    if (jobs[i].began < began) began = jobs[i].began;
    if (jobs[i].ended > ended) ended = jobs[i].ended;
    right += jobs[i].right;
  }
  u64 hundredths = (ended - began) * 100 / (right > 0 ? right : 1);
  printf("hits_of_%u %u %llu\n", ports, threads, (unsigned long long)right);
  fprintf(stderr, "hits_of_%u %u %llu.%02llu\n", ports, threads, (unsigned long long)hundredths / 100,
          (unsigned long long)hundredths % 100);
}

int main(int count, char **words) {
  u32 number[6];
  if (count != 7) fail("its words are PORTS THREADS ROUNDS NODES PAGES NET");
  for (u32 i = 0; i < 6; i++) number[i] = (u32)strtoul(words[i + 1], NULL, 10);
  u32 ports = number[0], threads = number[1];
  if (threads < 1 || threads > MOST_THREADS) fail("a table has 1 to 16 threads");
  struct gate gate = {0, threads};
  open_table(threads, ports, number[3], number[4]);
  for (u32 i = 0; i < threads; i++) {
    jobs[i].gate = &gate;
    jobs[i].ports = (struct ports){i * (ports / threads), ports / threads, (u16)number[5]};
    jobs[i].rounds = number[2];
    bind_all(&jobs[i].handle, jobs[i].ports);
  }
  work_all(threads);
  print(threads, ports);
  for (u32 i = 0; i < threads; i++) rht_close(&jobs[i].handle);
  return 0;
}
