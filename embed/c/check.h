/* What the tests share: checks that are counted, and tables to make them on. */
#ifndef CHECK_H
#define CHECK_H

#include <stdio.h>
#include <string.h>

#include "rht.h"

/* A test, or one thread of it: how many of its checks failed, and what it makes calls with. */
struct test {
    const char *name;
    unsigned long made, failed;
    bool listed, low;
    rht_config config;
    rht_handle handles[4];
    rht_reply reply;
    uint32_t owner;
};

/* a reply without any number */
#define NOTHING RHT_REPLY_INIT

/* CHECK(t, HELD): a condition. */
#define CHECK(t, held) check(t, held, #held, __FILE__, __LINE__)

/* ANSWERS(t, CALL, CODE): what a call comes to. */
#define ANSWERS(t, call, code) answers(t, call, code, #call, #code, __FILE__, __LINE__)

/* REPLIES(t, CALL, CODE, {.count = 3}): the same of a call that writes t->reply, and each number there. */
#define REPLIES(t, call, code, ...)                                                          \
    do {                                                                                     \
        spoil(t);                                                                            \
        answers(t, call, code, #call, #code, __FILE__, __LINE__);                            \
        says(t, (rht_reply)__VA_ARGS__, #call, #__VA_ARGS__, __FILE__, __LINE__);            \
    } while (0)

/* REFUSED(t, CALL, CODE): the same of a call that comes to no reply, and so leaves t->reply and t->owner. */
#define REFUSED(t, call, code)                                                               \
    do {                                                                                     \
        spoil(t);                                                                            \
        answers(t, call, code, #call, #code, __FILE__, __LINE__);                            \
        is_spoiled(t, #call, __FILE__, __LINE__);                                            \
    } while (0)

static inline void check(struct test *t, bool held, const char *what, const char *file, int line)
{
    t->made++;
    if (held)
        return;
    t->failed++;
    fprintf(stderr, "%s:%d: %s: not so: %s\n", file, line, t->name, what);
}

static inline void answers(struct test *t, uint32_t found, uint32_t code, const char *call, const char *wanted,
                           const char *file, int line)
{
    t->made++;
    if (found == code)
        return;
    t->failed++;
    fprintf(stderr, "%s:%d: %s: %s answered %u and not %s\n", file, line, t->name, call, (unsigned)found, wanted);
}

static inline bool are_equal(rht_reply a, rht_reply b)
{
    if (memcmp(a.spare, b.spare, sizeof a.spare) != 0)
        return false;
    return a.count == b.count && a.section == b.section && a.next.serial == b.next.serial
        && a.next.bucket == b.next.bucket && a.next.more == b.next.more && a.owner == b.owner && a.len == b.len
        && a.table == b.table && a.last == b.last && a.size == b.size && a.returned == b.returned
        && a.caller == b.caller && a.kick == b.kick && a.again == b.again;
}

static inline void says(struct test *t, rht_reply wanted, const char *call, const char *what, const char *file,
                        int line)
{
    t->made++;
    if (are_equal(t->reply, wanted))
        return;
    t->failed++;
    fprintf(stderr, "%s:%d: %s: %s has other numbers than %s\n", file, line, t->name, call, what);
}

/* numbers that no call of these tests says */
static inline rht_reply spoiled(void)
{
    rht_reply it = {.count = 901, .section = 902, .next = {.serial = 903, .bucket = 904, .more = true}, .owner = 905,
                    .len = 906, .table = 907, .last = 908, .size = 909, .returned = 910, .caller = 911,
                    .kick = true, .again = true, .spare = {913, 914, 915, 916, 917, 918, 919, 920}};
    return it;
}

static inline void spoil(struct test *t)
{
    t->reply = spoiled();
    t->owner = 912;
}

static inline void is_spoiled(struct test *t, const char *call, const char *file, int line)
{
    t->made++;
    if (are_equal(t->reply, spoiled()) && t->owner == 912)
        return;
    t->failed++;
    fprintf(stderr, "%s:%d: %s: %s has no reply and wrote something\n", file, line, t->name, call);
}

static inline rht_port in_net(uint16_t net, uint32_t number)
{
    rht_port it = {.number = number, .net = net};
    return it;
}

static inline rht_port port(uint32_t number) { return in_net(0, number); }

/* The plain config, but of the test's kind of table and its hash. */
static inline void set_plain(struct test *t)
{
    rht_config_plain(&t->config);
    t->config.listed = t->listed;
    t->config.low = t->low;
}

static inline bool are_same_configs(const rht_config *a, const rht_config *b)
{
    return a->nodes == b->nodes && a->pages == b->pages && a->callers == b->callers && a->hint == b->hint
        && a->min == b->min && a->max == b->max && a->seed == b->seed && a->rewalks == b->rewalks
        && a->listed == b->listed && a->low == b->low && a->shrink == b->shrink
        && memcmp(a->spare, b->spare, sizeof a->spare) == 0;
}

/* Opens the test's table, with so many handles. */
static inline void open_table(struct test *t, uint32_t callers)
{
    t->config.callers = callers;
    ANSWERS(t, rht_open(&t->config, t->handles, callers), RHT_OPENED);
}

/* Closes the handles that are open, also with nodes that aren't tidied. */
static inline void close_table(struct test *t)
{
    uint32_t given_up = 0;
    size_t i;
    for (i = 0; i < sizeof t->handles / sizeof *t->handles; i++)
        if (t->handles[i].in_use)
            ANSWERS(t, rht_close_now(&t->handles[i], &given_up), RHT_CLOSED);
}

/* Binds the ports from first to last, each to the owner 1000 more. Each is bound. */
static inline void bind_ports(struct test *t, uint32_t first, uint32_t last)
{
    for (; first <= last; first++)
        ANSWERS(t, rht_bind(t->handles, port(first), first + 1000, &t->reply), RHT_BOUND);
}

/* The last line of a program of tests, and its status. */
static inline int ended(const char *name, unsigned long made, unsigned long failed)
{
    printf("%s: %lu checks, %lu failed\n", name, made, failed);
    return failed > 0 || made == 0 ? 1 : 0;
}

struct named {
    const char *name;
    void (*run)(struct test *);
};

/* Makes each test with each kind of table and by each hash. */
static inline int run_all(const char *program, const struct named *tests, size_t count)
{
    unsigned long made = 0, failed = 0;
    size_t i;
    for (i = 0; i < 4 * count; i++) {
        char name[64];
        struct test t = {.name = name, .listed = i % 2 == 1, .low = i / 2 % 2 == 1};
        sprintf(name, "%s, %s, by %s", tests[i / 4].name, t.listed ? "listed" : "single", t.low ? "low" : "jhash");
        set_plain(&t);
        tests[i / 4].run(&t);
        made += t.made;
        failed += t.failed;
    }
    return ended(program, made, failed);
}

#endif
