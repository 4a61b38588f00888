/*
 * What lib/rhashtable.c of the kernel takes from the rest of it, in user space. The names are the kernel's, and what
 * stands behind them is written anew.
 *
 * bench/peers/run makes a folder of headers. In it rhashtable.h, rhashtable-types.h, jhash.h, log2.h, list_nulls.h and
 * unaligned/packed_struct.h are the kernel's own, from Debian's package, and each other name is a line that includes
 * this file.
 *
 * Where it isn't what the kernel has:
 *   - Read sections and call_rcu are liburcu's, of the flavour memb. There a section costs two stores and no barrier;
 *     in a kernel that isn't preempted it costs nothing.
 *   - Work that is put off is done by one thread of the program.
 *   - A lock of a bucket spins, and yields the processor after SPINS rounds, since a thread that has it may have been
 *     preempted here. Mutex and spin lock are those of pthread.
 *   - Memory is malloc's and is never refused. There a table without a row of pages is nested.
 *   - Interrupts, lockdep and what finds mistakes are off.
 */
#ifndef SHIM_H
#define SHIM_H

#ifndef _GNU_SOURCE
#define _GNU_SOURCE
#endif
#include <errno.h>
#include <limits.h>
#include <pthread.h>
#include <sched.h>
#include <stdbool.h>
#include <stddef.h>
#include <stdint.h>
#include <stdio.h>
#include <stdlib.h>
#include <string.h>

#define _LGPL_SOURCE
#define URCU_API_MAP
#include <urcu/urcu-memb.h>

/* ---- Types and words of the compiler */

typedef uint8_t u8;
typedef uint16_t u16;
typedef uint32_t u32;
typedef uint64_t u64;
typedef int32_t s32;
typedef unsigned gfp_t;
typedef struct {
  int counter;
} atomic_t;

#undef __always_inline
#define __always_inline inline __attribute__((always_inline))
#undef __packed
#define __packed __attribute__((packed))
#define ____cacheline_aligned_in_smp __attribute__((aligned(64)))
#define fallthrough __attribute__((fallthrough))
#undef likely
#undef unlikely
#define likely(holds) __builtin_expect((holds) ? 1 : 0, 1)
#define unlikely(holds) __builtin_expect((holds) ? 1 : 0, 0)
#define __rcu
#define __acquires(lock)
#define __releases(lock)
#define __release(lock) ((void)0)
#define EXPORT_SYMBOL_GPL(name)

#undef container_of
#define container_of(member_at, type, member) ((type *)((uintptr_t)(member_at) - offsetof(type, member)))
#define max_t(type, one, other) ((type)(one) > (type)(other) ? (type)(one) : (type)(other))
#define max(one, other) max_t(__typeof__((one) + (other)), one, other)

#define BIT(n) (1ul << (n))
#define PAGE_SHIFT 12
#define PAGE_SIZE (1ul << PAGE_SHIFT)

/* The number of the highest bit that is set, from 1 on; 0 where none is. */
static inline int fls64(u64 word) { return word == 0 ? 0 : 64 - __builtin_clzll(word); }
static inline int fls(u32 word) { return fls64(word); }
static inline unsigned fls_long(unsigned long word) { return (unsigned)fls64(word); }
static inline u32 rol32(u32 word, unsigned by) { return word << by % 32 | word >> (32 - by % 32) % 32; }

/* ---- Words that threads share */

#undef barrier
#define barrier() __atomic_signal_fence(__ATOMIC_SEQ_CST)
#define smp_rmb() __atomic_thread_fence(__ATOMIC_ACQUIRE)
#define READ_ONCE(word) (*(const volatile __typeof__(word) *)&(word))
#define WRITE_ONCE(word, value) (*(volatile __typeof__(word) *)&(word) = (value))

#undef cmpxchg
#define cmpxchg(at, wanted, value) \
  ({ \
    __typeof__(*(at)) found_ = (wanted); \
    __atomic_compare_exchange_n((at), &found_, (value), false, __ATOMIC_SEQ_CST, __ATOMIC_SEQ_CST); \
    found_; \
  })

static inline int atomic_read(const atomic_t *word) { return __atomic_load_n(&word->counter, __ATOMIC_RELAXED); }
static inline void atomic_set(atomic_t *word, int value) { __atomic_store_n(&word->counter, value, __ATOMIC_RELAXED); }
static inline void atomic_inc(atomic_t *word) { __atomic_fetch_add(&word->counter, 1, __ATOMIC_SEQ_CST); }
static inline void atomic_dec(atomic_t *word) { __atomic_fetch_sub(&word->counter, 1, __ATOMIC_SEQ_CST); }

/* ---- The lock of a bucket, which is a bit of its word */

#define SPINS 1000

static inline void bit_spin_lock(int bit, unsigned long *word) {
  while (__atomic_fetch_or(word, BIT(bit), __ATOMIC_ACQUIRE) & BIT(bit))
    for (int spins = 0; __atomic_load_n(word, __ATOMIC_RELAXED) & BIT(bit); spins++)
      if (spins < SPINS)
        caa_cpu_relax();
      else
        sched_yield();
}

static inline void bit_spin_unlock(int bit, unsigned long *word) {
  __atomic_fetch_and(word, ~BIT(bit), __ATOMIC_RELEASE);
}

#define local_bh_disable() barrier()
#define local_bh_enable() barrier()
#define preempt_enable() barrier()

/* ---- Locks, and what would watch them */

struct mutex {
  pthread_mutex_t inner;
};
typedef struct mutex spinlock_t;
#define mutex_init(lock) pthread_mutex_init(&(lock)->inner, NULL)
#define mutex_lock(lock) pthread_mutex_lock(&(lock)->inner)
#define mutex_unlock(lock) pthread_mutex_unlock(&(lock)->inner)
#define spin_lock_init(lock) mutex_init(lock)
#define spin_lock(lock) mutex_lock(lock)
#define spin_unlock(lock) mutex_unlock(lock)

struct lockdep_map {};
struct lock_class_key {};
#define lockdep_init_map(map, name, key, subclass) ((void)(key))
#define lockdep_is_held(lock) true
#define lock_map_acquire(map) ((void)(map))
#define lock_map_release(map) ((void)(map))
#define lock_acquire_exclusive(map, subclass, try, nest, ip) ((void)(map))
#define SINGLE_DEPTH_NESTING 1
#define _THIS_IP_ 0

/* ---- Read sections are liburcu's; pointers are loaded and published as in the kernel, which waits for no barrier */

#undef rcu_dereference
#define rcu_dereference(pointer) READ_ONCE(pointer)
#define rcu_dereference_raw(pointer) READ_ONCE(pointer)
#define rcu_dereference_check(pointer, holds) READ_ONCE(pointer)
#define rcu_dereference_protected(pointer, holds) (pointer)
#define rcu_access_pointer(pointer) READ_ONCE(pointer)
#undef rcu_assign_pointer
#define rcu_assign_pointer(pointer, value) __atomic_store_n(&(pointer), (__typeof__(pointer))(value), __ATOMIC_RELEASE)
#define RCU_INIT_POINTER(pointer, value) WRITE_ONCE(pointer, (__typeof__(pointer))(value))
#define cond_resched() ((void)0)

/* A head of which call_rcu hasn't got the function yet. */
#define NO_FUNCTION ((void (*)(struct rcu_head *))UINTPTR_MAX)
static inline void rcu_head_init(struct rcu_head *head) { head->func = NO_FUNCTION; }
static inline bool rcu_head_after_call_rcu(struct rcu_head *head, void (*function)(struct rcu_head *)) {
  return READ_ONCE(head->func) == function;
}

/* ---- Lists of walkers */

struct list_head {
  struct list_head *next, *prev;
};
#define LIST_POISON2 ((void *)0x122)
static inline void INIT_LIST_HEAD(struct list_head *list) { *list = (struct list_head){list, list}; }

static inline void list_add(struct list_head *entry, struct list_head *list) {
  *entry = (struct list_head){.next = list->next, .prev = list};
  entry->next->prev = entry;
  list->next = entry;
}

static inline void list_del(struct list_head *entry) {
  entry->prev->next = entry->next;
  entry->next->prev = entry->prev;
}

#define list_for_each_entry(entry, list, member) \
  for (struct list_head *at_ = (list)->next; \
       at_ != (list) && ((entry) = container_of(at_, __typeof__(*(entry)), member), true); at_ = at_->next)

/* ---- Errors as pointers: the last 4,095 addresses */

static inline bool IS_ERR(const void *pointer) { return unlikely((uintptr_t)pointer > UINTPTR_MAX - 4095); }
static inline bool IS_ERR_OR_NULL(const void *pointer) { return pointer == NULL || IS_ERR(pointer); }
static inline void *ERR_PTR(long error) { return (void *)(intptr_t)error; }
static inline long PTR_ERR(const void *pointer) { return (long)(intptr_t)pointer; }
static inline void *ERR_CAST(const void *pointer) { return (void *)(uintptr_t)pointer; }

/* ---- Memory, of which all bytes are 0 */

#define GFP_KERNEL 1u
#define GFP_ATOMIC 2u
#define __GFP_NOWARN 4u
#define __GFP_NOFAIL 8u
void *shim_zeroed(size_t size);
#define struct_size(at, member, count) (sizeof *(at) + sizeof *(at)->member * (size_t)(count))
#define kzalloc(size, flags) ((void)(flags), shim_zeroed(size))
#define kvzalloc(size, flags) ((void)(flags), shim_zeroed(size))
#define kfree(at) free((void *)(at))
#define kvfree(at) free((void *)(at))

u32 get_random_u32(void);

/* ---- Work that is put off */

struct work_struct {
  void (*function)(struct work_struct *);
  struct work_struct *next;
  bool pending, cancelled;
};
#define INIT_WORK(work, to_do) (*(work) = (struct work_struct){.function = (to_do)})
bool schedule_work(struct work_struct *work);
bool cancel_work_sync(struct work_struct *work);
/* Starts the thread that does it, where it hasn't been. */
void shim_start(void);
/* Waits until no work is pending and none is being done. */
void shim_wait_for_work(void);

/* ---- Mistakes */

#define BUG_ON(holds) ((holds) ? abort() : (void)0)

#endif
