/* Memory that runs out while a table is opened or handles are closed together, and calls, which take none.
 *
 * It is linked with --wrap=malloc, and so for calloc, realloc and free: so it counts the blocks that are taken, and
 * refuses one number at a time. */
#include <stdlib.h>

#include "check.h"

void *__real_malloc(size_t size);
void *__real_calloc(size_t count, size_t size);
void *__real_realloc(void *block, size_t size);
void __real_free(void *block);
void *__wrap_malloc(size_t size);
void *__wrap_calloc(size_t count, size_t size);
void *__wrap_realloc(void *block, size_t size);
void __wrap_free(void *block);

/* how many were asked for and how many are held; and which one is refused, where 0 is none */
static unsigned long asked, held, refused;

static bool is_refused(void) { return ++asked == refused; }

static void *counted(void *block)
{
    held += block != NULL;
    return block;
}

void *__wrap_malloc(size_t size) { return is_refused() ? NULL : counted(__real_malloc(size)); }

void *__wrap_calloc(size_t count, size_t size)
{
    return is_refused() ? NULL : counted(__real_calloc(count, size));
}

void *__wrap_realloc(void *block, size_t size)
{
    if (is_refused())
        return NULL;
    return block == NULL ? counted(__real_realloc(block, size)) : __real_realloc(block, size);
}

void __wrap_free(void *block)
{
    held -= block != NULL;
    __real_free(block);
}

/* Each block that opening asks for is refused once. Nothing stays, until one is opened with all of them. */
static void runs_out(struct test *t)
{
    unsigned long before = held, number;
    uint32_t code = RHT_NO_MEMORY;
    unsigned i;
    t->config.callers = 4;
    for (number = 1; code == RHT_NO_MEMORY && number < 1000; number++) {
        asked = 0;
        refused = number;
        code = rht_open(&t->config, t->handles, 4);
        if (code != RHT_NO_MEMORY)
            break;
        CHECK(t, held == before);
        for (i = 0; i < 4; i++)
            CHECK(t, !t->handles[i].in_use);
    }
    refused = 0;
    ANSWERS(t, code, RHT_OPENED);
    CHECK(t, number > 2 && asked == number - 1 && held > before);
    ANSWERS(t, rht_bind(&t->handles[3], port(80), 7, &t->reply), RHT_BOUND);
    close_table(t);
    CHECK(t, held == before);
}

/* Makes calls of all kinds, also such as move tables. */
static void make_calls(struct test *t)
{
    const rht_cursor start = {0, 0, false};
    uint32_t i;
    bind_ports(t, 0, 199);
    for (i = 0; i < 200; i += 2)
        ANSWERS(t, rht_release(t->handles, port(i), i + 1000, &t->reply), RHT_RELEASED);
    do
        ANSWERS(t, rht_work(t->handles, &t->reply), RHT_MOVED);
    while (t->reply.again);
    ANSWERS(t, rht_work(t->handles, &t->reply), RHT_IDLE);
    ANSWERS(t, rht_rebind(t->handles, port(1), 1001, 5, &t->reply), RHT_REBOUND);
    ANSWERS(t, rht_all(t->handles, port(1), &t->reply), RHT_LISTED);
    ANSWERS(t, rht_walk(t->handles, start, UINT32_MAX, &t->reply), RHT_WALKED);
    CHECK(t, t->reply.len == 100);
    ANSWERS(t, rht_tidy(t->handles, &t->reply), RHT_CLEAR);
    CHECK(t, t->reply.returned == 101);
    ANSWERS(t, rht_count(t->handles, &t->reply), RHT_COUNTED);
    ANSWERS(t, rht_find(t->handles, port(1), &t->owner), RHT_FOUND);
}

/* All memory is taken when a table is opened, and given back when its last handle is closed. */
static void takes_none(struct test *t)
{
    unsigned long before = held;
    unsigned i;
    open_table(t, 4);
    asked = 0;
    make_calls(t);
    CHECK(t, asked == 0);
    for (i = 0; i < 3; i++) {
        ANSWERS(t, rht_close(&t->handles[i]), RHT_CLOSED);
        CHECK(t, held > before);
    }
    ANSWERS(t, rht_find(&t->handles[3], port(199), &t->owner), RHT_FOUND);
    ANSWERS(t, rht_close(&t->handles[3]), RHT_CLOSED);
    CHECK(t, held == before);
}

/* Closes handles together, while each block that this asks for is refused once. Then all stay open, with what came
 * with their last call, nothing is written, and no block more is held. The last time none is refused. */
static uint32_t closed_at_last(struct test *t, rht_handle *handles, size_t count, rht_pair *into, size_t room,
                               rht_closed *closed)
{
    const rht_closed before_it = {.len = 71, .keys = 72, .size = 73};
    const unsigned long before = held;
    const rht_pair first = into[0];
    uint32_t code = RHT_NO_MEMORY;
    unsigned long number;
    size_t i;
    for (number = 1; number < 1000; number++) {
        *closed = before_it;
        asked = 0;
        refused = number;
        code = rht_close_all(handles, count, into, room, closed);
        refused = 0;
        if (code != RHT_NO_MEMORY)
            break;
        CHECK(t, asked == number && held == before);
        CHECK(t, closed->len == 71 && closed->keys == 72 && closed->size == 73);
        CHECK(t, into[0].port.number == first.port.number && into[0].owner == first.owner);
        for (i = 0; i < count; i++) {
            CHECK(t, handles[i].in_use && rht_owners(&handles[i], 0, &t->owner, 1) == (number == 1 ? 1 : 0));
            ANSWERS(t, rht_find(&handles[i], port(80), &t->owner), RHT_FOUND);
            ANSWERS(t, rht_bind(&handles[i], port(90), 9, &t->reply), RHT_BOUND);
            ANSWERS(t, rht_release(&handles[i], port(90), 9, &t->reply), RHT_RELEASED);
            ANSWERS(t, rht_tidy(&handles[i], &t->reply), RHT_CLEAR);
        }
    }
    CHECK(t, number > 1 && asked == number - 1 && held < before);
    for (i = 0; i < count; i++)
        CHECK(t, !handles[i].in_use);
    return code;
}

/* Handles are closed beside another one that stays open, and then that one with the table. */
static void closing_runs_out(struct test *t)
{
    const unsigned long before = held;
    rht_pair pair = {.port = {.number = 74}, .owner = 75};
    rht_closed closed;
    unsigned i;
    open_table(t, 4);
    ANSWERS(t, rht_bind(&t->handles[1], port(80), 7, &t->reply), RHT_BOUND);
    for (i = 0; i < 4; i++)
        ANSWERS(t, rht_all(&t->handles[i], port(80), &t->reply), RHT_LISTED);
    ANSWERS(t, closed_at_last(t, t->handles, 2, &pair, 1, &closed), RHT_CLOSED);
    CHECK(t, closed.len == 71 && pair.owner == 75 && held > before);
    ANSWERS(t, rht_bind(&t->handles[2], port(81), 8, &t->reply), RHT_BOUND);
    for (i = 2; i < 4; i++)
        ANSWERS(t, rht_all(&t->handles[i], port(80), &t->reply), RHT_LISTED);
    ANSWERS(t, closed_at_last(t, &t->handles[2], 2, &pair, 1, &closed), RHT_ENDED);
    CHECK(t, closed.len == 1 && closed.keys == 2 && pair.port.number == 80 && pair.owner == 7);
    CHECK(t, held == before);
}

/* Refusals have their other reasons also where there is no memory. */
static void refuses_without_memory(struct test *t)
{
    const unsigned long before = held;
    rht_pair pair;
    rht_closed closed;
    uint32_t code;
    refused = 1;
    asked = 0;
    ANSWERS(t, rht_close_all(t->handles, 0, &pair, 1, &closed), RHT_NOT_OPEN);
    ANSWERS(t, rht_close_all(t->handles, 4, &pair, 1, &closed), RHT_NOT_OPEN);
    CHECK(t, asked == 0 && held == before);
    refused = 0;
    open_table(t, 2);
    ANSWERS(t, rht_all_begin(&t->handles[1], port(80), &t->reply), RHT_NOT_YET);
    asked = 0;
    refused = 1;
    code = rht_close_all(t->handles, 2, &pair, 1, &closed);
    refused = 0;
    CHECK(t, code == RHT_IN_CALL || code == RHT_NO_MEMORY);
    ANSWERS(t, rht_finish(&t->handles[1], RHT_NOT_YET, &t->reply), RHT_LISTED);
    close_table(t);
    CHECK(t, held == before);
}

/* All nodes are bound, to ports of several nets, or in a list to few ports. Just so many pairs are written, into a
 * block that has no room for one more. */
static void has_room(struct test *t)
{
    const unsigned long before = held;
    uint32_t nodes, i, ports;
    for (nodes = 1; nodes <= 1000; nodes *= 10) {
        rht_pair *pairs = calloc(nodes, sizeof *pairs);
        rht_closed closed;
        if (pairs == NULL)
            exit(2);
        set_plain(t);
        t->config.nodes = nodes;
        open_table(t, 2);
        ports = t->listed ? nodes / 5 + 1 : nodes;
        for (i = 0; i < nodes; i++) {
            const uint32_t number = nodes - 1 - i;
            const rht_port of = in_net((uint16_t)(number % ports / 16), number % ports);
            ANSWERS(t, rht_bind(&t->handles[i % 2], of, number, &t->reply), RHT_BOUND);
            while (t->reply.kick || t->reply.again)
                ANSWERS(t, rht_work(t->handles, &t->reply), RHT_MOVED);
        }
        ANSWERS(t, rht_bind(t->handles, in_net(99, 0), 1, &t->reply), RHT_NO_NODE);
        ANSWERS(t, rht_close_all(t->handles, 2, pairs, nodes, &closed), RHT_ENDED);
        CHECK(t, closed.len == nodes && closed.keys == ports);
        for (i = 0; i < closed.len; i++) {
            const uint32_t number = pairs[i].port.number;
            CHECK(t, pairs[i].port.net == number / 16 && pairs[i].owner % ports == number);
            CHECK(t, i == 0 || pairs[i - 1].port.number < number
                         || (pairs[i - 1].port.number == number && pairs[i - 1].owner < pairs[i].owner));
        }
        free(pairs);
        CHECK(t, held == before);
    }
}

static const struct named tests[] = {
    {"runs_out", runs_out}, {"takes_none", takes_none}, {"closing_runs_out", closing_runs_out},
    {"refuses_without_memory", refuses_without_memory}, {"has_room", has_room},
};

int main(void) { return run_all("memory", tests, sizeof tests / sizeof *tests); }
