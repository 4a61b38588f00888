/* Threads that close the handles of a table at the same time. Of all closings of a table the last one ends it.
 *
 *   closings [THREADS [TABLES]]    2 to 4, and how many tables of each form: 4 and 20,000
 *
 * Each thread has one handle of each table. The threads stay, and all spin on one word until the next table is there:
 * so they close within nanoseconds of one another. It is linked with --wrap=malloc, and so for calloc, realloc and free,
 * and counts the blocks that are held. */
#define _POSIX_C_SOURCE 200809L
#include <pthread.h>
#include <sched.h>
#include <stdlib.h>

#include "check.h"

#define MOST 4
#define BOUND 3

void *__real_malloc(size_t size);
void *__real_calloc(size_t count, size_t size);
void *__real_realloc(void *block, size_t size);
void __real_free(void *block);
void *__wrap_malloc(size_t size);
void *__wrap_calloc(size_t count, size_t size);
void *__wrap_realloc(void *block, size_t size);
void __wrap_free(void *block);

/* the blocks that are held */
static long held;

static void *counted(void *block)
{
    if (block != NULL)
        __atomic_add_fetch(&held, 1, __ATOMIC_SEQ_CST);
    return block;
}

void *__wrap_malloc(size_t size) { return counted(__real_malloc(size)); }

void *__wrap_calloc(size_t count, size_t size) { return counted(__real_calloc(count, size)); }

void *__wrap_realloc(void *block, size_t size)
{
    return block == NULL ? counted(__real_realloc(block, size)) : __real_realloc(block, size);
}

void __wrap_free(void *block)
{
    if (block != NULL)
        __atomic_sub_fetch(&held, 1, __ATOMIC_SEQ_CST);
    __real_free(block);
}

/* The number of the table that may be closed, and how many threads have closed their handle of it. */
static unsigned long table, closings;

/* The threads' handles of the table. */
static rht_handle handles[MOST];

/* How a thread closes its handle of a table. */
enum way { ALL, ONE, NOW };

/* A thread, and what its last closing has left. A seat has cache lines of its own. */
struct seat {
    enum way (*way)(unsigned long table, unsigned number);
    unsigned number;
    unsigned long tables;
    uint32_t code, given_up;
    rht_pair pairs[BOUND];
    rht_closed closed;
    char apart[128];
};

/* Each thread by rht_close_all. */
static enum way all_alike(unsigned long number, unsigned thread)
{
    (void)number;
    (void)thread;
    return ALL;
}

/* Each mixture of the three ways, in turn. */
static enum way mixed(unsigned long number, unsigned thread)
{
    for (; thread > 0; thread--)
        number /= 3;
    return (enum way)(number % 3);
}

static void close_one(struct seat *s, unsigned long number)
{
    rht_handle *h = &handles[s->number];
    memset(s->pairs, 0, sizeof s->pairs);
    memset(&s->closed, 0, sizeof s->closed);
    s->given_up = 0;
    switch (s->way(number, s->number)) {
    case ALL: s->code = rht_close_all(h, 1, s->pairs, BOUND, &s->closed); break;
    case ONE: s->code = rht_close(h); break;
    case NOW: s->code = rht_close_now(h, &s->given_up); break;
    }
}

/* Spins until the word has this number. Where there are fewer processors than threads it yields now and then. */
static void wait_for(const unsigned long *word, unsigned long number)
{
    unsigned long spins;
    for (spins = 1; __atomic_load_n(word, __ATOMIC_SEQ_CST) != number; spins++)
        if (spins % 100000 == 0)
            sched_yield();
}

static void *close_each(void *seat)
{
    struct seat *s = seat;
    unsigned long number;
    for (number = 1; number <= s->tables; number++) {
        wait_for(&table, number);
        close_one(s, number);
        __atomic_add_fetch(&closings, 1, __ATOMIC_SEQ_CST);
    }
    return NULL;
}

/* whether the last one that closed was told what is bound, and the others nothing */
static bool is_told(const struct seat *s)
{
    unsigned i;
    if (s->code != RHT_ENDED)
        return s->code == RHT_CLOSED && s->closed.keys == 0 && s->pairs[0].owner == 0 && s->given_up == 0;
    for (i = 0; i < BOUND; i++)
        if (s->pairs[i].port.number != i || s->pairs[i].owner != 10 + i)
            return false;
    return s->closed.len == BOUND && s->closed.keys == BOUND && s->closed.size == 4;
}

/* Opens a table, and binds its ports by several of its handles. */
static void open_next(struct test *t, unsigned threads)
{
    unsigned i;
    t->config.callers = threads;
    ANSWERS(t, rht_open(&t->config, handles, threads), RHT_OPENED);
    for (i = 0; i < BOUND; i++)
        ANSWERS(t, rht_bind(&handles[i % threads], port(i), 10 + i, &t->reply), RHT_BOUND);
}

/* Closes this many tables by as many threads, and says how many of them somebody ended. */
static unsigned long race(struct test *t, enum way (*way)(unsigned long, unsigned), unsigned threads,
                          unsigned long tables)
{
    static struct seat seats[MOST];
    pthread_t started[MOST];
    unsigned long number, ended = 0;
    unsigned i;
    table = 0;
    closings = 0;
    for (i = 0; i < threads; i++) {
        seats[i].way = way;
        seats[i].number = i;
        seats[i].tables = tables;
        if (i > 0 && pthread_create(&started[i], NULL, close_each, &seats[i]) != 0) {
            perror("closings: no thread");
            exit(2);
        }
    }
    for (number = 1; number <= tables; number++) {
        const long before = __atomic_load_n(&held, __ATOMIC_SEQ_CST);
        unsigned told = 0;
        open_next(t, threads);
        __atomic_store_n(&table, number, __ATOMIC_SEQ_CST);
        close_one(&seats[0], number);
        wait_for(&closings, number * (threads - 1));
        for (i = 0; i < threads; i++) {
            CHECK(t, is_told(&seats[i]) && !handles[i].in_use);
            told += seats[i].code == RHT_ENDED;
        }
        CHECK(t, told <= 1);
        CHECK(t, __atomic_load_n(&held, __ATOMIC_SEQ_CST) == before);
        ended += told;
    }
    for (i = 1; i < threads; i++)
        CHECK(t, pthread_join(started[i], NULL) == 0);
    return ended;
}

int main(int words, char **word)
{
    const int threads = words > 1 ? atoi(word[1]) : 4, tables = words > 2 ? atoi(word[2]) : 20000;
    struct test t = {.name = "closings"};
    unsigned long ended_alike, ended_mixed;
    if (threads < 2 || threads > MOST || tables < 1) {
        fprintf(stderr, "usage: closings [THREADS [TABLES]]\n");
        return 2;
    }
    set_plain(&t);
    t.config.nodes = 8;
    t.config.pages = 4;
    t.config.hint = 3;
    ended_alike = race(&t, all_alike, (unsigned)threads, (unsigned long)tables);
    CHECK(&t, ended_alike == (unsigned long)tables);
    ended_mixed = race(&t, mixed, (unsigned)threads, (unsigned long)tables);
    CHECK(&t, tables < 81 || (ended_mixed > 0 && ended_mixed < (unsigned long)tables));
    printf("closings: %d threads, %d tables: %lu ended where all are closed together, %lu in mixtures\n", threads,
           tables, ended_alike, ended_mixed);
    return ended("closings", t.made, t.failed);
}
