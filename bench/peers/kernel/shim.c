/* What needs code of shim.h: memory, random numbers, and work that is put off. */
#include "shim.h"

void *shim_zeroed(size_t size) {
  size_t rounded = (size + 63) / 64 * 64;
  void *at = aligned_alloc(64, rounded);
  if (at != NULL) memset(at, 0, rounded);
  return at;
}

/* From a fixed seed: splitmix64. */
u32 get_random_u32(void) {
  static u64 state;
  u64 word = __atomic_add_fetch(&state, 0x9e3779b97f4a7c15u, __ATOMIC_RELAXED);
  word = (word ^ word >> 30) * 0xbf58476d1ce4e5b9u;
  word = (word ^ word >> 27) * 0x94d049bb133111ebu;
  return (u32)((word ^ word >> 31) >> 32);
}

/* ---- Work that is put off: a queue, and one thread that takes from it */

static struct {
  pthread_mutex_t lock;
  pthread_cond_t changed;
  struct work_struct *first, *doing;
  bool started;
} queue = {.lock = PTHREAD_MUTEX_INITIALIZER, .changed = PTHREAD_COND_INITIALIZER};

/* The place of a work in the queue, or that behind the last one. With the lock. */
static struct work_struct **place_of(const struct work_struct *work) {
  struct work_struct **place = &queue.first;
  while (*place != NULL && *place != work) place = &(*place)->next;
  return place;
}

/* A work isn't pending any more once it begins, so that it can be scheduled anew meanwhile. */
static void *do_work(void *unused) {
  (void)unused;
  rcu_register_thread();
  pthread_mutex_lock(&queue.lock);
  for (;;) {
    while (queue.first == NULL) pthread_cond_wait(&queue.changed, &queue.lock);
    queue.doing = queue.first;
    queue.first = queue.first->next;
    __atomic_store_n(&queue.doing->pending, false, __ATOMIC_SEQ_CST);
    pthread_mutex_unlock(&queue.lock);
    queue.doing->function(queue.doing);
    pthread_mutex_lock(&queue.lock);
    queue.doing = NULL;
    pthread_cond_broadcast(&queue.changed);
  }
  return NULL;
}

void shim_start(void) {
  pthread_t thread;
  pthread_mutex_lock(&queue.lock);
  if (!queue.started) {
    queue.started = true;
    if (pthread_create(&thread, NULL, do_work, NULL) != 0) abort();
    pthread_detach(thread);
  }
  pthread_mutex_unlock(&queue.lock);
}

bool schedule_work(struct work_struct *work) {
  if (__atomic_load_n(&work->pending, __ATOMIC_SEQ_CST)) return false;
  pthread_mutex_lock(&queue.lock);
  bool scheduled = !work->pending && !work->cancelled;
  if (scheduled) {
    __atomic_store_n(&work->pending, true, __ATOMIC_SEQ_CST);
    work->next = NULL;
    *place_of(work) = work;
    pthread_cond_broadcast(&queue.changed);
  }
  pthread_mutex_unlock(&queue.lock);
  return scheduled;
}

bool cancel_work_sync(struct work_struct *work) {
  pthread_mutex_lock(&queue.lock);
  struct work_struct **place = place_of(work);
  bool was_pending = *place == work;
  if (was_pending) *place = work->next;
  work->pending = false;
  work->cancelled = true; /* so that it doesn't schedule itself again */
  while (queue.doing == work) pthread_cond_wait(&queue.changed, &queue.lock);
  work->cancelled = false;
  pthread_mutex_unlock(&queue.lock);
  return was_pending;
}

void shim_wait_for_work(void) {
  pthread_mutex_lock(&queue.lock);
  while (queue.first != NULL || queue.doing != NULL) pthread_cond_wait(&queue.changed, &queue.lock);
  pthread_mutex_unlock(&queue.lock);
}
