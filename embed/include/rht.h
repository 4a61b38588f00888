/* A table of ports that threads share: the resizable hash table of the library rht.
 *
 * Each thread has a handle of its own. Look-ups and walks take no lock and wait for nobody. The calls behind
 * these functions are proved; this file, and what the program does with it, are not. docs/EMBEDDING.md says
 * what is proved, and how to build.
 *
 * What the program owes, since nothing here can check it:
 *   - A handle is RHT_HANDLE_INIT, or all its bytes are 0, before it is opened. Nobody but these functions writes
 *     to it. It is never copied; its bytes may be moved while no function has it.
 *   - A handle is in one function at a time. A thread that hands its handle to another one synchronises with it:
 *     by a lock, by starting or joining a thread, or by a sequentially consistent atomic.
 *   - A pointer points to as many values as its function says, and is aligned. It may be null where a count or a room
 *     says that there are none, and nowhere else. What it points to is initialised, also where a function only
 *     writes, and each bool in it is 0 or 1. It doesn't overlap with what another argument points to. No other
 *     thread touches it meanwhile.
 *   - A function is left by its return alone: by no longjmp, exception or cancellation.
 *   - No function is called in a signal handler, or in the forked child of a process with several threads.
 *   - malloc, realloc and free are those of one allocator. They align a block to each power of two up to 16 that
 *     divides its size.
 *   - Nothing else in the program defines a name that begins with rht_ or RHT_. The processor is of x86-64-v2.
 *
 * A handle whose call is in progress may hold the lock of a bucket, be the one at work, and be in a section that
 * keeps nodes and tables from coming back. Others then get RHT_NOT_YET, RHT_ELSEWHERE and RHT_PENDING, and in the end
 * RHT_NO_NODE and RHT_NO_TABLE, as long as it isn't gone on with. So a thread that has begun a call on one handle goes
 * on with it before it waits for another one.
 *
 * Calls on one handle are made in their order. Of handles that rht_close_all closes with their table one run is proved
 * to exist: it has the calls of each of them, with their replies, and ends with what was bound. That its order is the
 * order of time isn't proved.
 *
 * Memory order. A program may bind the address or the index of something that it has written, and read that where it
 * finds the owner: rht_find synchronises with the rht_bind or rht_rebind that bound the owner which it gives. So do
 * rht_all, rht_walk, and rht_bind where it gives an owner. Calls of one handle are in the thread's own order; and a
 * call that begins after another one has returned comes after it.
 *   - Proved: each call consists of operations on one word each. Of each handle there is an order of operations of
 *     all callers in which its calls are as it has made them, and each operation finds what the last one before it on
 *     that word has left. One such order serves all handles that rht_close_all closes with their table. What rht_find
 *     answers was so at one of its operations.
 *   - Trusted: that the compiled operations have this order, as C11's have one with memory_order_seq_cst. The kit says
 *     so of its words, and from that alone follows what is said of the program's own memory, and of calls one after
 *     another.
 *   - Tested: 60,000 messages of a thread are bound and found by another one, and none is stale.
 * What an owner stands for is the program's to keep for as long as a thread may have found it: the table knows nothing
 * of it.
 *
 * ThreadSanitizer sees no operation of a library that was compiled without it, and would report such memory as a race.
 * Where it is on, this file tells it which calls synchronise. It does that by 256 marks for all ports of all tables,
 * so a race may go unseen between threads whose calls share a mark. */
#ifndef RHT_H
#define RHT_H

#include <sched.h>
#include <stdbool.h>
#include <stddef.h>
#include <stdint.h>

/* The version of this interface. */
#define RHT_VERSION "0.1.0"

/* RHT_ENTROPY(BYTES, COUNT): puts that many random bytes there, and is 0 where it did. A program may define another
 * source. */
#ifndef RHT_ENTROPY
#include <sys/random.h>
#define RHT_ENTROPY(bytes, count) (getrandom(bytes, count, 0) == (ssize_t)(count) ? 0 : -1)
#endif

/* Whether the program is compiled with ThreadSanitizer. */
#ifndef RHT_TSAN
#if defined(__SANITIZE_THREAD__)
#define RHT_TSAN 1
#elif defined(__has_feature)
#if __has_feature(thread_sanitizer)
#define RHT_TSAN 1
#endif
#endif
#endif
#ifndef RHT_TSAN
#define RHT_TSAN 0
#endif
#if RHT_TSAN
#include <sanitizer/tsan_interface.h>
#endif

#ifdef __cplusplus
extern "C" {
#endif

/* What a call came to. A code below RHT_OPENED is a reply of the table, or says that there is none yet. From
 * RHT_NOT_OPEN on it is a refusal: nothing was done, and what the arguments point to is as it was. */
enum rht_code {
    RHT_NOT_YET = 0,      /* the call is in progress: rht_go_on goes on with it */
    RHT_BOUND = 1,        /* the port is bound to the owner now; kick */
    RHT_EXISTS = 2,       /* the port was bound already: owner is its first owner; single tables alone */
    RHT_FOUND = 3,        /* owner is the port's first owner */
    RHT_MISSING = 4,      /* the port isn't bound */
    RHT_LISTED = 5,       /* the port has len owners, which rht_owners gives */
    RHT_RELEASED = 6,     /* one binding of the port to the owner was taken out; kick */
    RHT_ABSENT = 7,       /* the port isn't bound to this owner */
    RHT_REBOUND = 8,      /* the new owner has the old one's place */
    RHT_TOO_BIG = 9,      /* it was found to hold count ports, which is all that it may hold or more */
    RHT_AGAIN = 10,       /* call again, with a walk from its beginning: the table in slot `table` came between, or is
                             the one with which a walk begins now */
    RHT_BUSY = 11,        /* a resize from slot `table` to slot `last` has to end first, as by rht_work_begin */
    RHT_NO_TABLE = 12,    /* a table of size buckets, or a page of one, was wanted and couldn't be had; nothing was
                             bound or moved. What to do is said at rht_bind_begin and rht_work_begin */
    RHT_NO_NODE = 13,     /* each node was found taken at some moment: tidy, on each handle, and try again */
    RHT_PENDING = 14,     /* the handle number `caller` is in a call still that it was in when the nodes began to wait;
                             section is its section word */
    RHT_ELSEWHERE = 15,   /* another handle is at work */
    RHT_WALKED = 16,      /* len pairs were seen, which rht_pairs gives; the walk goes on at next */
    RHT_MOVED = 17,       /* entries were moved, or are to be; where again is set there is more to do */
    RHT_IDLE = 18,        /* nothing was to be done */
    RHT_CLEAR = 19,       /* returned nodes are free again */
    RHT_COUNTED = 20,     /* at most count ports are bound, and at least as many less the handles in a call */
    RHT_OPENED = 32,      /* the handles are open */
    RHT_CLOSED = 33,      /* the handle is closed, and blank again; or the handles are */
    RHT_ENDED = 34,       /* the handles are closed, and their table with them */
    RHT_READY = 35,       /* the config is filled */
    RHT_NOT_OPEN = 64,    /* the handle is blank */
    RHT_IN_CALL = 65,     /* a call of this handle is in progress: rht_go_on goes on with it */
    RHT_NO_CALL = 66,     /* none is, so there is none to go on with */
    RHT_NO_STEPS = 67,    /* to go on by no operation was asked */
    RHT_HELD = 68,        /* this one and the next two are kept for later; no function answers them yet */
    RHT_NOT_HELD = 69,
    RHT_TIDY_FIRST = 70,
    RHT_WAITING = 71,     /* the handle has nodes that aren't tidied: rht_tidy, or rht_close_now */
    RHT_BAD_CONFIG = 80,  /* no table can be opened with this config */
    RHT_BAD_COUNT = 81,   /* there aren't as many handles as the config has callers */
    RHT_STILL_OPEN = 82,  /* one of the handles is open */
    RHT_NO_MEMORY = 83,   /* memory has run out, and none of it stays taken */
    RHT_TWO_TABLES = 84,  /* the handles aren't all of one table */
    RHT_NO_SEED = 85      /* the system gave no seed */
};

/* A port: a number in a net. */
typedef struct rht_port {
    uint32_t number;
    uint16_t net;
} rht_port;

/* A port, and its first owner. */
typedef struct rht_pair {
    rht_port port;
    uint32_t owner;
} rht_pair;

/* Where a walk goes on. With more false, as of one whose bytes are all 0, it is where a walk begins: the first
 * bucket. Where a walk has left it with more false, the walk has come to the table's end. */
typedef struct rht_cursor {
    uint64_t serial;
    uint32_t bucket;
    bool more;
} rht_cursor;

/* What a table is opened with. min is at most max, where that isn't 0. The first table has 64 buckets, or with a hint
 * the least power of two that is four thirds of it or more. It has min at least and max at most, and has to fit in the
 * pages.
 *
 * nodes has to be more than the greatest number of bindings. A node that a release or a rebind takes out is free again
 * only once it is tidied and each section has ended that was open when it began to wait; and a thread that the system
 * stops in the middle of a call keeps its section open for that long. So there have to be as many nodes more as all
 * threads together take out in the longest time for which one of them may be stopped. Where threads were stopped for up
 * to 28 ms, 64 nodes more for each thread left three of four binds without one, and 1,000 more left none. */
typedef struct rht_config {
    uint32_t nodes;    /* the bindings that there may be at one time: 1 to 65,536 */
    uint32_t pages;    /* pages of 64 words that buckets are kept in: 4 to 4,096 */
    uint32_t callers;  /* the handles of the table: 1 to 16 */
    uint32_t hint;     /* the ports that are expected: 1 to 65,536, or 0 where nothing is said */
    uint32_t min;      /* the least size in buckets: at most 65,536, rounded up to a power of two, 4 at least */
    uint32_t max;      /* the greatest size in buckets: 4 to 131,072, rounded down to a power of two; 0 for none */
    uint32_t seed;     /* the seed of the first table's hash; a later one's is the sum of this and its serial number */
    uint32_t rewalks;  /* how often a look-up walks one bucket again: 0 to 255 */
    bool listed;       /* a port may have any number of owners; the last one that came is the first */
    bool low;          /* a port's number is its hash, so that a test can choose buckets; otherwise it is by jhash */
    bool shrink;       /* the table gets smaller when it is nearly empty */
    uint32_t spare[8]; /* for fields to come: 0, or no table is opened */
} rht_config;

/* The numbers that come with a reply, each where the reply's line above names it, and otherwise 0. Where a function
 * answers no reply, it leaves them as they were. */
typedef struct rht_reply {
    uint64_t count;
    uint64_t section;
    rht_cursor next;
    uint32_t owner;
    uint32_t len;
    uint32_t table;
    uint32_t last;
    uint32_t size;
    uint32_t returned;
    uint32_t caller;
    bool kick;   /* the table may want to grow or shrink: call rht_work_begin */
    bool again;
    uint32_t spare[8];
} rht_reply;

/* What a table was when it was closed. */
typedef struct rht_closed {
    uint64_t len;    /* the pairs that were written */
    uint32_t keys;   /* the ports that were bound */
    uint32_t size;   /* the size of the current table, in buckets */
    uint32_t spare[8];
} rht_closed;

/* A caller of a table, or nothing. Its fields are the library's. A call on an open handle changes what lies behind
 * it, and only what opens and closes writes to the handle itself. */
typedef struct rht_handle {
    void *at;
    bool in_use;
} rht_handle;

/* To initialise with: a blank handle; a config as rht_config_plain makes it, whose seed is known, so for tests alone; a
 * reply without numbers. */
#define RHT_HANDLE_INIT {NULL, false}
#define RHT_CONFIG_INIT {4096, 256, 1, 0, 4, 0, 1, 8, false, false, false, {0, 0, 0, 0, 0, 0, 0, 0}}
#define RHT_REPLY_INIT {0, 0, {0, 0, false}, 0, 0, 0, 0, 0, 0, 0, false, false, {0, 0, 0, 0, 0, 0, 0, 0}}

/* ---- opening and closing */

/* A table with 4,096 nodes, 256 pages and one caller, of one owner for each port, that doesn't shrink. The seed is 1.
 * Whoever may choose ports and knows the seed can choose them for one bucket, so rht_config_init draws one. */
void rht_config_plain(rht_config *config);

/* The same with a seed that is drawn from the system: RHT_READY. Where there is none it is refused as RHT_NO_SEED, and
 * the config stays as it was. A program that wants a seed of its own sets that behind it. */
static inline uint32_t rht_config_init(rht_config *config)
{
    uint32_t seed = 0;
    if (RHT_ENTROPY(&seed, sizeof seed) != 0)
        return RHT_NO_SEED;
    rht_config_plain(config);
    config->seed = seed;
    return RHT_READY;
}

/* Opens a table with count handles, which have to be as many as config->callers, and blank: the one at place i
 * is the caller number i. Sizes in the config are rounded first, and config says them where the table was opened.
 * All memory that the calls below need is taken here, but for that of rht_close_all. RHT_OPENED; or the first of
 * RHT_BAD_CONFIG, RHT_BAD_COUNT, RHT_STILL_OPEN and RHT_NO_MEMORY for which there is a reason. */
uint32_t rht_open(rht_config *config, rht_handle *handles, size_t count);

/* Closes a handle, whose number is given to no other: RHT_CLOSED. The table goes with its last handle. Refused as
 * RHT_NOT_OPEN, RHT_IN_CALL, and RHT_WAITING where its calls took nodes out that it hasn't tidied: no other handle can,
 * so they would be lost to all. Then nothing is done. Tidy until RHT_CLEAR comes with a returned of 0, and close
 * again. */
uint32_t rht_close(rht_handle *handle);

/* Closes a handle, also where it has such nodes: RHT_CLOSED, and given_up is how many of them stay taken until the
 * table ends. Refused as RHT_NOT_OPEN and RHT_IN_CALL, with given_up as it was. */
uint32_t rht_close_now(rht_handle *handle, uint32_t *given_up);

/* Closes count handles, which are of one table, all of them or none; it asks of no nodes whether they are tidied. Where
 * no other handle of the table is open, RHT_ENDED: the table is closed too, closed says what it was, and its bindings
 * are written: in rising order of ports, by nets first, a pair for each owner of a port, the first owner first. As
 * many are written as there is room for, and the others are lost; room for as many pairs as the table has nodes is
 * enough for all. Otherwise RHT_CLOSED, and nothing is written. Of all closings of a table, by whatever threads, the
 * last one ends it. So where all handles are closed by this function exactly one call is answered RHT_ENDED; where the
 * last one is rht_close or rht_close_now, none is. That is tested, and follows from what the kit says of its counts; no
 * clause says which of the two comes.
 *
 * Refused, where the handles stay open as they were, as RHT_NOT_OPEN, also where count is 0; and otherwise as
 * RHT_TWO_TABLES, RHT_IN_CALL and RHT_NO_MEMORY. That the handles are of one table the program owes, and the proof
 * rests on it. RHT_TWO_TABLES is tested alone: handles of one table are never refused so, and handles of two are,
 * unless another thread closes handles of these tables at that very time. */
uint32_t rht_close_all(rht_handle *handles, size_t count, rht_pair *into, size_t room, rht_closed *closed);

/* ---- calls that wait for nobody; each is refused as RHT_NOT_OPEN or RHT_IN_CALL */

/* Looks a port up. RHT_FOUND, which writes owner; RHT_MISSING. Otherwise owner stays as it is. */
uint32_t rht_find(rht_handle *handle, rht_port port, uint32_t *owner);

/* Walks the table from a cursor on, bucket by bucket, until a bucket ends with limit pairs or more seen; with a
 * limit of 0 after one bucket. There are never more pairs than nodes. They stay until the handle's next call.
 * RHT_WALKED; or RHT_AGAIN where the walk has to begin anew, by a cursor whose bytes are all 0. Two things may be the
 * cause. The cursor doesn't fit the current table, as one of a table that was left since. Or a table is behind the
 * current one: no walk comes to its end until an rht_work_begin has moved the entries there. */
uint32_t rht_walk(rht_handle *handle, rht_cursor from, uint32_t limit, rht_reply *reply);

/* Gives back nodes that this handle's calls took out, all that wait or none: RHT_CLEAR, or RHT_PENDING, also where
 * none waits. What was taken out while others waited is for a later call. So all have come back once RHT_CLEAR has a
 * returned of 0. */
uint32_t rht_tidy(rht_handle *handle, rht_reply *reply);

/* Counts the bound ports, by one load: RHT_COUNTED. */
uint32_t rht_count(rht_handle *handle, rht_reply *reply);

/* ---- calls that may have to wait for another handle: each makes one operation, or in one go all for which it needn't
 * wait, and rht_go_on makes more. RHT_NOT_YET comes from each of them; they are refused as the calls above. */

/* Binds a port: RHT_BOUND, RHT_EXISTS, RHT_TOO_BIG, RHT_BUSY, RHT_NO_TABLE, RHT_NO_NODE. A bind wants a further table
 * where more ports are bound than there are buckets, or 16 in its bucket. It wants a page where its bucket's is
 * missing. Behind RHT_BUSY and RHT_NO_TABLE make rht_work_begin, and bind again. Where RHT_NO_TABLE stays, the pages
 * are too few, or a call in progress holds back tables that were left. Calls that want neither go on as before. */
uint32_t rht_bind_begin(rht_handle *handle, rht_port port, uint32_t owner, rht_reply *reply);

/* Binds a port, and is tried once alone: also RHT_AGAIN. */
uint32_t rht_bind_once_begin(rht_handle *handle, rht_port port, uint32_t owner, rht_reply *reply);

/* These two in one go: operation after operation, up to the reply where nothing is in the way. The kernel's function is
 * rhashtable_insert_fast, with the look for the key of rhashtable_lookup_insert_key.
 *
 * rounds is how often a bind tries at most to lock a bucket, anew at each bucket to which it comes. A round is a load
 * of the bucket's word, and where that is unlocked an exchange. It fails where another handle has the lock, or has
 * changed the word in between. So 1 is enough where no other handle is at the bucket. With 0 the call leaves off before
 * its first lock.
 *
 * RHT_NOT_YET says that the call has left off and is in progress, as one that was begun. Nothing is written then, other
 * calls of the handle are refused, and rht_go_on goes on. It comes where the rounds are used up; at a table whose pages
 * don't lie in one row; and where the bind has found that it wants a further table. The call holds no lock there, but
 * is in its section.
 *
 * What it costs: the thread does nothing else in its rounds, and each of them touches a word that the lock's holder
 * writes. A call that has left off costs more, since rht_go_on finds out anew at each operation where the call stands.
 * How many operations were made in one go isn't told; by rht_bind_begin and rht_go_on it is known. */
uint32_t rht_bind_in(rht_handle *handle, rht_port port, uint32_t owner, uint32_t rounds, rht_reply *reply);
uint32_t rht_bind_once_in(rht_handle *handle, rht_port port, uint32_t owner, uint32_t rounds, rht_reply *reply);

/* Takes one binding of the port to the owner out: RHT_RELEASED, RHT_ABSENT. */
uint32_t rht_release_begin(rht_handle *handle, rht_port port, uint32_t owner, rht_reply *reply);

/* The same in one go, with rounds and RHT_NOT_YET as at rht_bind_in; a release wants no table. The kernel's function is
 * rhashtable_remove_fast. */
uint32_t rht_release_in(rht_handle *handle, rht_port port, uint32_t owner, uint32_t rounds, rht_reply *reply);

/* Puts a new owner in the place of the port's first owner that is this one: RHT_REBOUND, RHT_ABSENT, RHT_NO_NODE. */
uint32_t rht_rebind_begin(rht_handle *handle, rht_port port, uint32_t owner, uint32_t with, rht_reply *reply);

/* Lists the owners of a port: RHT_LISTED. They stay until the handle's next call. */
uint32_t rht_all_begin(rht_handle *handle, rht_port port, rht_reply *reply);

/* Resizes the table where that is due, and gives back tables that were left: RHT_MOVED, RHT_IDLE, RHT_ELSEWHERE,
 * RHT_NO_TABLE. Behind RHT_NO_TABLE a program goes on with the table as it is, and works again at the next kick. */
uint32_t rht_work_begin(rht_handle *handle, rht_reply *reply);

/* Goes on with the call in progress by that many operations, unless it ends before: its reply, or RHT_NOT_YET
 * after exactly so many. It is refused as the first of RHT_NO_STEPS, where steps is 0, RHT_NOT_OPEN and RHT_NO_CALL
 * for which there is a reason. */
uint32_t rht_go_on(rht_handle *handle, uint32_t steps, rht_reply *reply);

/* ---- lists: what came with the handle's last call, from the place skip on, as far as there is room for it.
 * They answer how many were written; 0 also where the handle is blank or in a call. A refused call leaves the lists of
 * the call before as they were, and so do these two functions. */

/* The owners that came with RHT_LISTED, the first owner first. */
size_t rht_owners(rht_handle *handle, size_t skip, uint32_t *into, size_t room);

/* The pairs that came with RHT_WALKED, in the order in which they were seen. */
size_t rht_pairs(rht_handle *handle, size_t skip, rht_pair *into, size_t room);

/* ---- from here on these names are functions of this file, which make the calls above. */

/* A null pointer to no values stands for the address of one that isn't looked at. */
static inline uint32_t rht_inline_open(rht_config *config, rht_handle *handles, size_t count)
{
    rht_handle none = RHT_HANDLE_INIT;
    return rht_open(config, count == 0 && handles == NULL ? &none : handles, count);
}
#define rht_open rht_inline_open

static inline size_t rht_inline_owners(rht_handle *handle, size_t skip, uint32_t *into, size_t room)
{
    uint32_t none = 0;
    return rht_owners(handle, skip, room == 0 && into == NULL ? &none : into, room);
}
#define rht_owners rht_inline_owners

static inline size_t rht_inline_pairs(rht_handle *handle, size_t skip, rht_pair *into, size_t room)
{
    rht_pair none = {{0, 0}, 0};
    return rht_pairs(handle, skip, room == 0 && into == NULL ? &none : into, room);
}
#define rht_pairs rht_inline_pairs

/* What ThreadSanitizer is told: before a call on a port that may change it, and behind one that has seen it. A reply
 * that comes by rht_go_on, and what a walk or a closing gives, may be of any port. */
#if RHT_TSAN
#define RHT_MARKS 256
__attribute__((weak)) char rht_marks[RHT_MARKS];

static inline void *rht_mark(rht_port port) { return &rht_marks[(port.number + 31U * port.net) % RHT_MARKS]; }

static inline void rht_tell_before(rht_port port) { __tsan_release(rht_mark(port)); }

static inline uint32_t rht_tell_behind(rht_port port, uint32_t code)
{
    __tsan_acquire(rht_mark(port));
    return code;
}

static inline uint32_t rht_tell_of_all(uint32_t code)
{
    int i;
    for (i = 0; i < RHT_MARKS; i++)
        __tsan_acquire(&rht_marks[i]);
    return code;
}

static inline uint32_t rht_inline_find(rht_handle *handle, rht_port port, uint32_t *owner)
{
    return rht_tell_behind(port, rht_find(handle, port, owner));
}
#define rht_find rht_inline_find

static inline uint32_t rht_inline_walk(rht_handle *handle, rht_cursor from, uint32_t limit, rht_reply *reply)
{
    return rht_tell_of_all(rht_walk(handle, from, limit, reply));
}
#define rht_walk rht_inline_walk

static inline uint32_t rht_inline_bind_begin(rht_handle *handle, rht_port port, uint32_t owner, rht_reply *reply)
{
    rht_tell_before(port);
    return rht_tell_behind(port, rht_bind_begin(handle, port, owner, reply));
}
#define rht_bind_begin rht_inline_bind_begin

static inline uint32_t rht_inline_bind_once_begin(rht_handle *handle, rht_port port, uint32_t owner, rht_reply *reply)
{
    rht_tell_before(port);
    return rht_tell_behind(port, rht_bind_once_begin(handle, port, owner, reply));
}
#define rht_bind_once_begin rht_inline_bind_once_begin

static inline uint32_t rht_inline_bind_in(rht_handle *handle, rht_port port, uint32_t owner, uint32_t rounds,
                                          rht_reply *reply)
{
    rht_tell_before(port);
    return rht_tell_behind(port, rht_bind_in(handle, port, owner, rounds, reply));
}
#define rht_bind_in rht_inline_bind_in

static inline uint32_t rht_inline_bind_once_in(rht_handle *handle, rht_port port, uint32_t owner, uint32_t rounds,
                                               rht_reply *reply)
{
    rht_tell_before(port);
    return rht_tell_behind(port, rht_bind_once_in(handle, port, owner, rounds, reply));
}
#define rht_bind_once_in rht_inline_bind_once_in

static inline uint32_t rht_inline_release_begin(rht_handle *handle, rht_port port, uint32_t owner, rht_reply *reply)
{
    rht_tell_before(port);
    return rht_tell_behind(port, rht_release_begin(handle, port, owner, reply));
}
#define rht_release_begin rht_inline_release_begin

static inline uint32_t rht_inline_release_in(rht_handle *handle, rht_port port, uint32_t owner, uint32_t rounds,
                                             rht_reply *reply)
{
    rht_tell_before(port);
    return rht_tell_behind(port, rht_release_in(handle, port, owner, rounds, reply));
}
#define rht_release_in rht_inline_release_in

static inline uint32_t rht_inline_rebind_begin(rht_handle *handle, rht_port port, uint32_t owner, uint32_t with,
                                               rht_reply *reply)
{
    rht_tell_before(port);
    return rht_tell_behind(port, rht_rebind_begin(handle, port, owner, with, reply));
}
#define rht_rebind_begin rht_inline_rebind_begin

static inline uint32_t rht_inline_all_begin(rht_handle *handle, rht_port port, rht_reply *reply)
{
    return rht_tell_behind(port, rht_all_begin(handle, port, reply));
}
#define rht_all_begin rht_inline_all_begin

static inline uint32_t rht_inline_go_on(rht_handle *handle, uint32_t steps, rht_reply *reply)
{
    const uint32_t code = rht_go_on(handle, steps, reply);
    return code == RHT_NOT_YET ? code : rht_tell_of_all(code);
}
#define rht_go_on rht_inline_go_on
#else
static inline uint32_t rht_tell_of_all(uint32_t code) { return code; }
#endif

static inline uint32_t rht_inline_close_all(rht_handle *handles, size_t count, rht_pair *into, size_t room,
                                            rht_closed *closed)
{
    rht_handle no_handle = RHT_HANDLE_INIT;
    rht_pair no_pair = {{0, 0}, 0};
    return rht_tell_of_all(rht_close_all(count == 0 && handles == NULL ? &no_handle : handles, count,
                                         room == 0 && into == NULL ? &no_pair : into, room, closed));
}
#define rht_close_all rht_inline_close_all

/* ---- the same calls for programs that want to wait. These are loops of this file, over the functions above.
 * They end only if the threads go on whose handles they wait for. */

/* What a waiting call does between two times that it goes on. A program may define another pause. */
#ifndef RHT_YIELD
#define RHT_YIELD() ((void)sched_yield())
#endif

/* The rounds of the waiting calls that go in one go first: rht_bind, rht_bind_once and rht_release. Where these are
 * used up they go on as the others, by rht_go_on. */
#ifndef RHT_ROUNDS
#define RHT_ROUNDS 64
#endif

/* Goes on with a call that has come to this code, until it has ended. */
static inline uint32_t rht_finish(rht_handle *handle, uint32_t code, rht_reply *reply)
{
    while (code == RHT_NOT_YET) {
        code = rht_go_on(handle, 64, reply);
        if (code == RHT_NOT_YET)
            RHT_YIELD();
    }
    return code;
}

static inline uint32_t rht_bind(rht_handle *handle, rht_port port, uint32_t owner, rht_reply *reply)
{
    return rht_finish(handle, rht_bind_in(handle, port, owner, RHT_ROUNDS, reply), reply);
}

static inline uint32_t rht_bind_once(rht_handle *handle, rht_port port, uint32_t owner, rht_reply *reply)
{
    return rht_finish(handle, rht_bind_once_in(handle, port, owner, RHT_ROUNDS, reply), reply);
}

static inline uint32_t rht_release(rht_handle *handle, rht_port port, uint32_t owner, rht_reply *reply)
{
    return rht_finish(handle, rht_release_in(handle, port, owner, RHT_ROUNDS, reply), reply);
}

static inline uint32_t rht_rebind(rht_handle *handle, rht_port port, uint32_t owner, uint32_t with, rht_reply *reply)
{
    return rht_finish(handle, rht_rebind_begin(handle, port, owner, with, reply), reply);
}

static inline uint32_t rht_all(rht_handle *handle, rht_port port, rht_reply *reply)
{
    return rht_finish(handle, rht_all_begin(handle, port, reply), reply);
}

static inline uint32_t rht_work(rht_handle *handle, rht_reply *reply)
{
    return rht_finish(handle, rht_work_begin(handle, reply), reply);
}

#ifdef __cplusplus
}
#endif

#endif
