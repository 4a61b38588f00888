/* Each function on its way, and each reply that one thread can bring about: in single and listed tables, by
 * either hash. A thread with two handles is in a call of one of them while it calls by the other. */
#include <stddef.h>
#include <sys/random.h>

static void go_on_awaited(void);
static int drawn(void *bytes, size_t count);
#define RHT_YIELD() go_on_awaited()
#define RHT_ENTROPY(bytes, count) drawn(bytes, count)
#include "check.h"

#define MANY 200

/* The handle for which a waiting call waits, what its own call has come to, and how often the waiting one yielded. */
static rht_handle *awaited;
static uint32_t awaited_code, yields;

/* What a waiting call does in between: that handle goes on to the end of its call. */
static void go_on_awaited(void)
{
    rht_reply reply = NOTHING;
    yields++;
    if (awaited != NULL)
        awaited_code = rht_go_on(awaited, 1000, &reply);
    awaited = NULL;
}

/* whether the system gives no random bytes, which otherwise are its own */
static bool is_dry;

static int drawn(void *bytes, size_t count)
{
    return is_dry || getrandom(bytes, count, 0) != (ssize_t)count ? -1 : 0;
}

/* a config in which each field has another number than the plain one */
static rht_config other_config(void)
{
    return (rht_config){.nodes = 1, .pages = 2, .callers = 3, .hint = 4, .min = 5, .max = 6, .seed = 7, .rewalks = 9,
                        .listed = true, .low = true, .shrink = true, .spare = {1, 2, 3, 4, 5, 6, 7, 8}};
}

/* A drawn seed is another one each time, and the other fields are plain. A table keeps it, and also one that the
 * program has set. Where none can be drawn the config stays. */
static void seeds(struct test *t)
{
    const rht_config plain = RHT_CONFIG_INIT;
    rht_config configs[3] = {other_config(), other_config(), other_config()}, drawn_one;
    rht_handle handles[3] = {RHT_HANDLE_INIT, RHT_HANDLE_INIT, RHT_HANDLE_INIT};
    unsigned i;
    is_dry = true;
    drawn_one = configs[0];
    ANSWERS(t, rht_config_init(&configs[0]), RHT_NO_SEED);
    CHECK(t, are_same_configs(&configs[0], &drawn_one));
    is_dry = false;
    for (i = 0; i < 3; i++) {
        ANSWERS(t, rht_config_init(&configs[i]), RHT_READY);
        drawn_one = configs[i];
        drawn_one.seed = plain.seed;
        CHECK(t, are_same_configs(&drawn_one, &plain));
        if (i == 2)
            configs[i].seed = 77;
        drawn_one = configs[i];
        ANSWERS(t, rht_open(&configs[i], &handles[i], 1), RHT_OPENED);
        CHECK(t, are_same_configs(&configs[i], &drawn_one));
    }
    CHECK(t, configs[0].seed != configs[1].seed && configs[2].seed == 77);
    for (i = 0; i < 3; i++)
        ANSWERS(t, rht_close(&handles[i]), RHT_CLOSED);
}

static void plain(struct test *t)
{
    const rht_config wanted = RHT_CONFIG_INIT;
    t->config = other_config();
    rht_config_plain(&t->config);
    CHECK(t, wanted.seed == 1);
    CHECK(t, wanted.nodes == 4096 && wanted.pages == 256 && wanted.callers == 1);
    CHECK(t, are_same_configs(&t->config, &wanted));
    open_table(t, 1);
    CHECK(t, are_same_configs(&t->config, &wanted));
    close_table(t);
}

static void finds(struct test *t)
{
    rht_handle *h = t->handles;
    open_table(t, 1);
    t->owner = 77;
    ANSWERS(t, rht_find(h, port(80), &t->owner), RHT_MISSING);
    CHECK(t, t->owner == 77);
    REPLIES(t, rht_bind(h, port(80), 100, &t->reply), RHT_BOUND, NOTHING);
    ANSWERS(t, rht_find(h, port(80), &t->owner), RHT_FOUND);
    CHECK(t, t->owner == 100);
    ANSWERS(t, rht_find(h, in_net(3, 80), &t->owner), RHT_MISSING);
    REPLIES(t, rht_bind(h, in_net(3, 80), 200, &t->reply), RHT_BOUND, NOTHING);
    ANSWERS(t, rht_find(h, in_net(3, 80), &t->owner), RHT_FOUND);
    CHECK(t, t->owner == 200);
    ANSWERS(t, rht_find(h, port(80), &t->owner), RHT_FOUND);
    CHECK(t, t->owner == 100);
    close_table(t);
}

/* the least and the greatest numbers of ports and owners */
static void ends_of_ranges(struct test *t)
{
    const rht_port ports[] = {{0, 0}, {UINT32_MAX, 0}, {0, UINT16_MAX}, {UINT32_MAX, UINT16_MAX}};
    const uint32_t owners[] = {0, UINT32_MAX, 1, UINT32_MAX - 1};
    size_t i;
    open_table(t, 1);
    for (i = 0; i < 4; i++)
        REPLIES(t, rht_bind(t->handles, ports[i], owners[i], &t->reply), RHT_BOUND, NOTHING);
    for (i = 0; i < 4; i++) {
        t->owner = 77;
        ANSWERS(t, rht_find(t->handles, ports[i], &t->owner), RHT_FOUND);
        CHECK(t, t->owner == owners[i]);
    }
    for (i = 0; i < 4; i++)
        REPLIES(t, rht_release(t->handles, ports[i], owners[i], &t->reply), RHT_RELEASED, NOTHING);
    REPLIES(t, rht_count(t->handles, &t->reply), RHT_COUNTED, {.count = 0});
    close_table(t);
}

static void second_owner(struct test *t)
{
    rht_handle *h = t->handles;
    open_table(t, 1);
    REPLIES(t, rht_bind(h, port(80), 100, &t->reply), RHT_BOUND, NOTHING);
    if (t->config.listed) {
        REPLIES(t, rht_bind(h, port(80), 7, &t->reply), RHT_BOUND, NOTHING);
        REPLIES(t, rht_bind_once(h, port(80), 7, &t->reply), RHT_BOUND, NOTHING);
    } else {
        REPLIES(t, rht_bind(h, port(80), 7, &t->reply), RHT_EXISTS, {.owner = 100});
        REPLIES(t, rht_bind(h, port(80), 100, &t->reply), RHT_EXISTS, {.owner = 100});
        REPLIES(t, rht_bind_once(h, port(80), 7, &t->reply), RHT_EXISTS, {.owner = 100});
    }
    ANSWERS(t, rht_find(h, port(80), &t->owner), RHT_FOUND);
    CHECK(t, t->owner == (t->config.listed ? 7 : 100));
    REPLIES(t, rht_count(h, &t->reply), RHT_COUNTED, {.count = 1});
    close_table(t);
}

/* has_owners: whether the port has just these owners, in this order */
static void has_owners(struct test *t, rht_port of, const uint32_t *owners, uint32_t len)
{
    uint32_t found[16] = {0};
    REPLIES(t, rht_all(t->handles, of, &t->reply), RHT_LISTED, {.len = len});
    CHECK(t, rht_owners(t->handles, 0, found, 16) == len);
    CHECK(t, memcmp(found, owners, len * sizeof *owners) == 0);
}

static void listed(struct test *t)
{
    const uint32_t three[] = {9, 8, 7}, one[] = {7};
    uint32_t into[4] = {0, 0, 0, 0};
    open_table(t, 1);
    has_owners(t, port(80), one, 0);
    REPLIES(t, rht_bind(t->handles, port(80), 7, &t->reply), RHT_BOUND, NOTHING);
    has_owners(t, port(80), one, 1);
    if (t->config.listed) {
        bind_ports(t, 1, 3);
        REPLIES(t, rht_bind(t->handles, port(80), 8, &t->reply), RHT_BOUND, NOTHING);
        REPLIES(t, rht_bind(t->handles, port(80), 9, &t->reply), RHT_BOUND, NOTHING);
        has_owners(t, port(80), three, 3);
        CHECK(t, rht_owners(t->handles, 0, into, 2) == 2 && into[0] == 9 && into[1] == 8 && into[2] == 0);
        CHECK(t, rht_owners(t->handles, 2, into, 2) == 1 && into[0] == 7 && into[1] == 8);
        CHECK(t, rht_owners(t->handles, 1, into, 4) == 2 && into[0] == 8 && into[1] == 7 && into[2] == 0);
    }
    CHECK(t, rht_owners(t->handles, t->config.listed ? 3 : 1, into, 4) == 0);
    CHECK(t, rht_owners(t->handles, SIZE_MAX, into, 4) == 0);
    CHECK(t, rht_owners(t->handles, 0, into, 0) == 0);
    close_table(t);
}

/* What came with a call goes with the next one. */
static void lists_go(struct test *t)
{
    const uint32_t seven[] = {7};
    const rht_cursor start = {0, 0, false};
    rht_pair pair = {0};
    open_table(t, 1);
    REPLIES(t, rht_bind(t->handles, port(80), 7, &t->reply), RHT_BOUND, NOTHING);
    has_owners(t, port(80), seven, 1);
    CHECK(t, rht_pairs(t->handles, 0, &pair, 1) == 0);
    ANSWERS(t, rht_find(t->handles, port(80), &t->owner), RHT_FOUND);
    CHECK(t, rht_owners(t->handles, 0, &t->owner, 1) == 0);
    has_owners(t, port(80), seven, 1);
    REPLIES(t, rht_walk(t->handles, start, 10, &t->reply), RHT_WALKED, {.len = 1});
    CHECK(t, rht_owners(t->handles, 0, &t->owner, 1) == 0);
    CHECK(t, rht_pairs(t->handles, 0, &pair, 1) == 1 && pair.port.number == 80 && pair.owner == 7);
    REPLIES(t, rht_count(t->handles, &t->reply), RHT_COUNTED, {.count = 1});
    CHECK(t, rht_pairs(t->handles, 0, &pair, 1) == 0);
    close_table(t);
}

static void releases(struct test *t)
{
    const uint32_t left[] = {9, 8, 7};
    rht_handle *h = t->handles;
    open_table(t, 1);
    REPLIES(t, rht_release(h, port(80), 7, &t->reply), RHT_ABSENT, NOTHING);
    REPLIES(t, rht_bind(h, port(80), 7, &t->reply), RHT_BOUND, NOTHING);
    REPLIES(t, rht_release(h, port(80), 8, &t->reply), RHT_ABSENT, NOTHING);
    REPLIES(t, rht_release(h, in_net(1, 80), 7, &t->reply), RHT_ABSENT, NOTHING);
    if (t->config.listed) {
        REPLIES(t, rht_bind(h, port(80), 8, &t->reply), RHT_BOUND, NOTHING);
        REPLIES(t, rht_bind(h, port(80), 7, &t->reply), RHT_BOUND, NOTHING);
        REPLIES(t, rht_bind(h, port(80), 9, &t->reply), RHT_BOUND, NOTHING);
        REPLIES(t, rht_release(h, port(80), 7, &t->reply), RHT_RELEASED, NOTHING);
        has_owners(t, port(80), left, 3);
        REPLIES(t, rht_release(h, port(80), 9, &t->reply), RHT_RELEASED, NOTHING);
        REPLIES(t, rht_release(h, port(80), 8, &t->reply), RHT_RELEASED, NOTHING);
    }
    REPLIES(t, rht_count(h, &t->reply), RHT_COUNTED, {.count = 1});
    REPLIES(t, rht_release(h, port(80), 7, &t->reply), RHT_RELEASED, NOTHING);
    REPLIES(t, rht_release(h, port(80), 7, &t->reply), RHT_ABSENT, NOTHING);
    ANSWERS(t, rht_find(h, port(80), &t->owner), RHT_MISSING);
    REPLIES(t, rht_count(h, &t->reply), RHT_COUNTED, {.count = 0});
    close_table(t);
}

static void rebinds(struct test *t)
{
    const uint32_t first[] = {3, 9, 1}, second[] = {8, 9, 1};
    rht_handle *h = t->handles;
    open_table(t, 1);
    REPLIES(t, rht_rebind(h, port(80), 1, 2, &t->reply), RHT_ABSENT, NOTHING);
    REPLIES(t, rht_bind(h, port(80), 1, &t->reply), RHT_BOUND, NOTHING);
    REPLIES(t, rht_rebind(h, port(80), 2, 3, &t->reply), RHT_ABSENT, NOTHING);
    if (t->config.listed) {
        REPLIES(t, rht_bind(h, port(80), 2, &t->reply), RHT_BOUND, NOTHING);
        REPLIES(t, rht_bind(h, port(80), 3, &t->reply), RHT_BOUND, NOTHING);
        REPLIES(t, rht_rebind(h, port(80), 2, 9, &t->reply), RHT_REBOUND, NOTHING);
        has_owners(t, port(80), first, 3);
        REPLIES(t, rht_rebind(h, port(80), 3, 8, &t->reply), RHT_REBOUND, NOTHING);
        REPLIES(t, rht_rebind(h, port(80), 1, 1, &t->reply), RHT_REBOUND, NOTHING);
        has_owners(t, port(80), second, 3);
    } else {
        REPLIES(t, rht_rebind(h, port(80), 1, 7, &t->reply), RHT_REBOUND, NOTHING);
        REPLIES(t, rht_rebind(h, port(80), 1, 9, &t->reply), RHT_ABSENT, NOTHING);
        ANSWERS(t, rht_find(h, port(80), &t->owner), RHT_FOUND);
        CHECK(t, t->owner == 7);
    }
    close_table(t);
}

/* No node is free, until what was taken out is tidied. */
static void tidies(struct test *t)
{
    rht_handle *h = t->handles;
    t->config.nodes = 2;
    open_table(t, 1);
    REPLIES(t, rht_tidy(h, &t->reply), RHT_CLEAR, {.returned = 0});
    bind_ports(t, 1, 2);
    REPLIES(t, rht_bind(h, port(3), 3, &t->reply), RHT_NO_NODE, NOTHING);
    REPLIES(t, rht_bind(h, port(1), 3, &t->reply), RHT_NO_NODE, NOTHING);
    REPLIES(t, rht_bind_once(h, port(3), 3, &t->reply), RHT_NO_NODE, NOTHING);
    REPLIES(t, rht_rebind(h, port(1), 1001, 3, &t->reply), RHT_NO_NODE, NOTHING);
    REPLIES(t, rht_release(h, port(1), 1001, &t->reply), RHT_RELEASED, NOTHING);
    REPLIES(t, rht_bind(h, port(3), 3, &t->reply), RHT_NO_NODE, NOTHING);
    REPLIES(t, rht_tidy(h, &t->reply), RHT_CLEAR, {.returned = 1});
    REPLIES(t, rht_tidy(h, &t->reply), RHT_CLEAR, {.returned = 0});
    REPLIES(t, rht_rebind(h, port(2), 1002, 5, &t->reply), RHT_REBOUND, NOTHING);
    REPLIES(t, rht_bind(h, port(3), 3, &t->reply), RHT_NO_NODE, NOTHING);
    REPLIES(t, rht_tidy(h, &t->reply), RHT_CLEAR, {.returned = 1});
    REPLIES(t, rht_bind(h, port(3), 3, &t->reply), RHT_BOUND, NOTHING);
    ANSWERS(t, rht_find(h, port(3), &t->owner), RHT_FOUND);
    close_table(t);
}

/* Walks from the first bucket to the table's end by pieces of this limit, and counts how often each port was
 * seen. Pairs are fetched by two at a time. */
static void walk_all(struct test *t, uint32_t limit, unsigned *seen)
{
    rht_cursor at = {0, 0, false};
    rht_pair two[2] = {0};
    size_t from, len, i;
    memset(seen, 0, MANY * sizeof *seen);
    do {
        ANSWERS(t, rht_walk(t->handles, at, limit, &t->reply), RHT_WALKED);
        at = t->reply.next;
        CHECK(t, at.more || (at.serial == 0 && at.bucket == 0));
        CHECK(t, !at.more || t->reply.len >= limit);
        for (from = 0, len = 1; from < t->reply.len && len > 0; from += len) {
            len = rht_pairs(t->handles, from, two, 2);
            CHECK(t, len == (t->reply.len - from < 2 ? 1 : 2));
            for (i = 0; i < len; i++)
                if (two[i].port.net == 0 && two[i].port.number < MANY && two[i].owner == two[i].port.number + 1000)
                    seen[two[i].port.number]++;
        }
    } while (at.more && t->failed == 0);
}

/* all_seen: whether just the ports from first to last are, and each once */
static bool all_seen(const unsigned *seen, uint32_t first, uint32_t last)
{
    uint32_t i;
    for (i = 0; i < MANY; i++)
        if (seen[i] != (first <= i && i <= last ? 1U : 0U))
            return false;
    return true;
}

static void walks(struct test *t)
{
    unsigned seen[MANY];
    uint32_t limit;
    rht_pair pair = {0};
    open_table(t, 1);
    walk_all(t, 1, seen);
    CHECK(t, all_seen(seen, 1, 0));
    bind_ports(t, 1, 40);
    for (limit = 0; limit < 50; limit += 7) {
        walk_all(t, limit, seen);
        CHECK(t, all_seen(seen, 1, 40));
    }
    walk_all(t, UINT32_MAX, seen);
    CHECK(t, all_seen(seen, 1, 40) && t->reply.len == 40);
    CHECK(t, rht_pairs(t->handles, 39, &pair, 1) == 1);
    CHECK(t, rht_pairs(t->handles, 40, &pair, 1) == 0);
    CHECK(t, rht_pairs(t->handles, (size_t)UINT32_MAX + 1, &pair, 1) == 0);
    CHECK(t, rht_pairs(t->handles, SIZE_MAX, &pair, 1) == 0);
    CHECK(t, rht_pairs(t->handles, 0, &pair, 0) == 0);
    close_table(t);
}

/* A port with several owners is seen once, with its first owner. */
static void walks_lists(struct test *t)
{
    unsigned seen[MANY];
    open_table(t, 1);
    ANSWERS(t, rht_bind(t->handles, port(5), 1, &t->reply), RHT_BOUND);
    if (t->config.listed)
        bind_ports(t, 5, 5);
    else
        ANSWERS(t, rht_rebind(t->handles, port(5), 1, 1005, &t->reply), RHT_REBOUND);
    walk_all(t, 1, seen);
    CHECK(t, all_seen(seen, 5, 5));
    close_table(t);
}

/* Pieces of a walk, by the hash that shows where a bucket ends. */
static void walks_buckets(struct test *t)
{
    rht_cursor at = {0, 0, false};
    rht_pair pairs[4] = {0};
    if (!t->config.low)
        return;
    t->config.hint = 3;
    open_table(t, 1);
    bind_ports(t, 6, 6);
    bind_ports(t, 1, 1);
    bind_ports(t, 5, 5);
    ANSWERS(t, rht_walk(t->handles, at, 1, &t->reply), RHT_WALKED);
    CHECK(t, t->reply.len == 2 && t->reply.next.more && t->reply.next.bucket == 2);
    CHECK(t, rht_pairs(t->handles, 0, pairs, 4) == 2 && pairs[0].port.number == 5 && pairs[1].port.number == 1);
    CHECK(t, pairs[0].owner == 1005 && pairs[1].owner == 1001);
    at = t->reply.next;
    ANSWERS(t, rht_walk(t->handles, at, 2, &t->reply), RHT_WALKED);
    CHECK(t, t->reply.len == 1 && !t->reply.next.more);
    CHECK(t, rht_pairs(t->handles, 0, pairs, 4) == 1 && pairs[0].port.number == 6);
    REPLIES(t, rht_walk(t->handles, at, 9, &t->reply), RHT_WALKED, {.len = 1});
    at.bucket = 4;
    REPLIES(t, rht_walk(t->handles, at, 9, &t->reply), RHT_AGAIN, {.table = 0});
    at.more = false;
    REPLIES(t, rht_walk(t->handles, at, 9, &t->reply), RHT_WALKED, {.len = 3});
    close_table(t);
}

/* A bind kicks, and the work that it asks for moves the table. */
static void grows(struct test *t)
{
    unsigned seen[MANY];
    rht_cursor start = {0, 0, false}, at;
    uint32_t i;
    open_table(t, 1);
    REPLIES(t, rht_work(t->handles, &t->reply), RHT_IDLE, NOTHING);
    for (i = 0; i < 48; i++)
        REPLIES(t, rht_bind(t->handles, port(i), i + 1000, &t->reply), RHT_BOUND, NOTHING);
    REPLIES(t, rht_bind(t->handles, port(48), 1048, &t->reply), RHT_BOUND, {.kick = true});
    ANSWERS(t, rht_walk(t->handles, start, 1, &t->reply), RHT_WALKED);
    at = t->reply.next;
    CHECK(t, at.more);
    REPLIES(t, rht_work(t->handles, &t->reply), RHT_MOVED, {.again = false});
    REPLIES(t, rht_work(t->handles, &t->reply), RHT_IDLE, NOTHING);
    REPLIES(t, rht_walk(t->handles, at, 1, &t->reply), RHT_AGAIN, {.table = 1});
    walk_all(t, 10, seen);
    CHECK(t, all_seen(seen, 0, 48));
    REPLIES(t, rht_count(t->handles, &t->reply), RHT_COUNTED, {.count = 49});
    close_table(t);
}

/* Binds put a second and a third table behind the first one, and nobody works meanwhile. */
static void grows_twice(struct test *t)
{
    unsigned seen[MANY];
    rht_cursor start = {0, 0, false};
    uint32_t i;
    open_table(t, 1);
    bind_ports(t, 0, 64);
    REPLIES(t, rht_bind_once(t->handles, port(65), 1065, &t->reply), RHT_AGAIN, {.table = 1});
    ANSWERS(t, rht_find(t->handles, port(65), &t->owner), RHT_MISSING);
    bind_ports(t, 65, 129);
    REPLIES(t, rht_walk(t->handles, start, MANY, &t->reply), RHT_AGAIN, {.table = 1});
    REPLIES(t, rht_work(t->handles, &t->reply), RHT_MOVED, {.again = true});
    REPLIES(t, rht_walk(t->handles, start, MANY, &t->reply), RHT_AGAIN, {.table = 2});
    REPLIES(t, rht_work(t->handles, &t->reply), RHT_MOVED, {.again = false});
    REPLIES(t, rht_work(t->handles, &t->reply), RHT_IDLE, NOTHING);
    for (i = 0; i < 130; i++) {
        ANSWERS(t, rht_find(t->handles, port(i), &t->owner), RHT_FOUND);
        CHECK(t, t->owner == i + 1000);
    }
    walk_all(t, MANY, seen);
    CHECK(t, all_seen(seen, 0, 129));
    close_table(t);
}

static void shrinks(struct test *t)
{
    rht_handle *h = t->handles;
    t->config.hint = 12;
    t->config.shrink = true;
    open_table(t, 1);
    bind_ports(t, 0, 4);
    REPLIES(t, rht_work(h, &t->reply), RHT_IDLE, NOTHING);
    REPLIES(t, rht_release(h, port(0), 1000, &t->reply), RHT_RELEASED, NOTHING);
    REPLIES(t, rht_work(h, &t->reply), RHT_IDLE, NOTHING);
    REPLIES(t, rht_release(h, port(1), 1001, &t->reply), RHT_RELEASED, {.kick = true});
    REPLIES(t, rht_work(h, &t->reply), RHT_MOVED, {.again = false});
    REPLIES(t, rht_work(h, &t->reply), RHT_IDLE, NOTHING);
    ANSWERS(t, rht_find(h, port(4), &t->owner), RHT_FOUND);
    REPLIES(t, rht_count(h, &t->reply), RHT_COUNTED, {.count = 3});
    close_table(t);
}

/* A table of at most four buckets holds eight ports. */
static void fills(struct test *t)
{
    rht_handle *h = t->handles;
    t->config.max = 4;
    open_table(t, 1);
    bind_ports(t, 0, 7);
    REPLIES(t, rht_bind(h, port(8), 1, &t->reply), RHT_TOO_BIG, {.count = 8});
    REPLIES(t, rht_bind_once(h, port(8), 1, &t->reply), RHT_TOO_BIG, {.count = 8});
    REPLIES(t, rht_release(h, port(3), 1003, &t->reply), RHT_RELEASED, NOTHING);
    REPLIES(t, rht_bind(h, port(8), 1, &t->reply), RHT_BOUND, NOTHING);
    REPLIES(t, rht_bind(h, port(9), 1, &t->reply), RHT_TOO_BIG, {.count = 8});
    if (t->config.listed)
        REPLIES(t, rht_bind(h, port(8), 2, &t->reply), RHT_BOUND, NOTHING);
    close_table(t);
}

/* All ports of one bucket, by the hash that allows it, and nobody works. */
static void is_busy(struct test *t)
{
    uint32_t i;
    if (!t->config.low)
        return;
    open_table(t, 1);
    for (i = 0; i < 16; i++)
        REPLIES(t, rht_bind(t->handles, port(64 * i), i, &t->reply), RHT_BOUND, NOTHING);
    REPLIES(t, rht_bind(t->handles, port(64 * i), i, &t->reply), RHT_BOUND, {.kick = true});
    for (i = 17; i < 32; i++)
        ANSWERS(t, rht_bind(t->handles, port(64 * i), i, &t->reply), RHT_BOUND);
    REPLIES(t, rht_bind(t->handles, port(64 * i), i, &t->reply), RHT_BUSY, {.table = 0, .last = 1});
    REPLIES(t, rht_bind_once(t->handles, port(64 * i), i, &t->reply), RHT_BUSY, {.table = 0, .last = 1});
    REPLIES(t, rht_work(t->handles, &t->reply), RHT_MOVED, {.again = false});
    ANSWERS(t, rht_bind(t->handles, port(64 * i), i, &t->reply), RHT_BOUND);
    REPLIES(t, rht_count(t->handles, &t->reply), RHT_COUNTED, {.count = 33});
    close_table(t);
}

/* There is no row of four pages for 256 buckets, and then not a single page. */
static void has_no_table(struct test *t)
{
    rht_handle *h = t->handles;
    t->config.hint = 96;
    t->config.pages = 4;
    open_table(t, 1);
    bind_ports(t, 0, 96);
    CHECK(t, t->reply.kick);
    REPLIES(t, rht_work(h, &t->reply), RHT_NO_TABLE, {.size = 256});
    bind_ports(t, 97, 128);
    if (t->config.low) {
        bind_ports(t, 129, 129);
        REPLIES(t, rht_bind(h, port(130), 1, &t->reply), RHT_NO_TABLE, {.size = 256});
        bind_ports(t, 133, 133);
        REPLIES(t, rht_work(h, &t->reply), RHT_NO_TABLE, {.size = 256});
        REPLIES(t, rht_count(h, &t->reply), RHT_COUNTED, {.count = 131});
    }
    close_table(t);
}

/* A call in progress holds back each table that is left meanwhile. These are seven, from 4 buckets to 256, beside the
 * one of 512 that is in use. So there is no slot for a further one until that call has ended, and somebody works. */
static void holds_tables_back(struct test *t)
{
    rht_handle *in = &t->handles[0], *h = &t->handles[1];
    uint32_t number;
    t->config.hint = 3;
    open_table(t, 2);
    ANSWERS(t, rht_all_begin(in, port(1), &t->reply), RHT_NOT_YET);
    for (number = 0; number < 513; number++) {
        ANSWERS(t, rht_bind(h, port(number), 7, &t->reply), RHT_BOUND);
        if (t->reply.kick && number < 384)
            REPLIES(t, rht_work(h, &t->reply), RHT_MOVED, {.again = false});
    }
    REPLIES(t, rht_work(h, &t->reply), RHT_NO_TABLE, {.size = 1024});
    REPLIES(t, rht_bind(h, port(513), 7, &t->reply), RHT_NO_TABLE, {.size = 1024});
    ANSWERS(t, rht_find(h, port(512), &t->owner), RHT_FOUND);
    ANSWERS(t, rht_finish(in, RHT_NOT_YET, &t->reply), RHT_LISTED);
    REPLIES(t, rht_bind(h, port(513), 7, &t->reply), RHT_NO_TABLE, {.size = 1024});
    REPLIES(t, rht_work(h, &t->reply), RHT_MOVED, {.again = false});
    ANSWERS(t, rht_bind(h, port(513), 7, &t->reply), RHT_BOUND);
    REPLIES(t, rht_count(h, &t->reply), RHT_COUNTED, {.count = 514});
    close_table(t);
}

/* Goes on by one operation at a time to the call's end, and counts the operations. */
static uint32_t by_ones(struct test *t, uint32_t code, uint32_t *made)
{
    for (*made = 1; code == RHT_NOT_YET && *made < 1000000; ++*made)
        code = rht_go_on(t->handles, 1, &t->reply);
    return code;
}

static void goes_by_ones(struct test *t)
{
    rht_handle *h = t->handles;
    uint32_t made;
    open_table(t, 1);
    REPLIES(t, by_ones(t, rht_bind_begin(h, port(80), 1, &t->reply), &made), RHT_BOUND, NOTHING);
    CHECK(t, made > 1);
    REPLIES(t, by_ones(t, rht_bind_once_begin(h, port(81), 2, &t->reply), &made), RHT_BOUND, NOTHING);
    CHECK(t, made > 1);
    REPLIES(t, by_ones(t, rht_rebind_begin(h, port(81), 2, 3, &t->reply), &made), RHT_REBOUND, NOTHING);
    CHECK(t, made > 1);
    REPLIES(t, by_ones(t, rht_all_begin(h, port(81), &t->reply), &made), RHT_LISTED, {.len = 1});
    CHECK(t, made > 1 && rht_owners(h, 0, &t->owner, 1) == 1 && t->owner == 3);
    REPLIES(t, by_ones(t, rht_release_begin(h, port(80), 1, &t->reply), &made), RHT_RELEASED, NOTHING);
    CHECK(t, made > 1);
    REPLIES(t, by_ones(t, rht_work_begin(h, &t->reply), &made), RHT_IDLE, NOTHING);
    CHECK(t, made > 1);
    REPLIES(t, rht_count(h, &t->reply), RHT_COUNTED, {.count = 1});
    close_table(t);
}

/* Of two equal calls the one is gone on with by ones. So it is known how many operations the other has. */
static void goes_so_far(struct test *t)
{
    rht_handle *h = t->handles;
    uint32_t made;
    open_table(t, 1);
    ANSWERS(t, by_ones(t, rht_bind_begin(h, port(80), 1, &t->reply), &made), RHT_BOUND);
    close_table(t);
    open_table(t, 1);
    REFUSED(t, rht_bind_begin(h, port(80), 1, &t->reply), RHT_NOT_YET);
    if (made > 2)
        REFUSED(t, rht_go_on(h, made - 2, &t->reply), RHT_NOT_YET);
    REPLIES(t, rht_go_on(h, 1, &t->reply), RHT_BOUND, NOTHING);
    close_table(t);
    open_table(t, 1);
    ANSWERS(t, rht_bind_begin(h, port(80), 1, &t->reply), RHT_NOT_YET);
    REPLIES(t, rht_go_on(h, made - 1, &t->reply), RHT_BOUND, NOTHING);
    ANSWERS(t, rht_find(h, port(80), &t->owner), RHT_FOUND);
    REPLIES(t, rht_finish(h, rht_release_begin(h, port(80), 1, &t->reply), &t->reply), RHT_RELEASED, NOTHING);
    ANSWERS(t, rht_bind_begin(h, port(80), 1, &t->reply), RHT_NOT_YET);
    REPLIES(t, rht_go_on(h, UINT32_MAX, &t->reply), RHT_BOUND, NOTHING);
    close_table(t);
}

/* Where nobody else is at the bucket one round is enough: the first answer is the reply. */
static void goes_in_one(struct test *t)
{
    rht_handle *h = t->handles;
    t->config.nodes = 3;
    open_table(t, 1);
    REPLIES(t, rht_release_in(h, port(80), 1, 1, &t->reply), RHT_ABSENT, NOTHING);
    REPLIES(t, rht_bind_in(h, port(80), 1, 1, &t->reply), RHT_BOUND, NOTHING);
    REFUSED(t, rht_go_on(h, 1, &t->reply), RHT_NO_CALL);
    REPLIES(t, rht_bind_once_in(h, port(81), 2, 1, &t->reply), RHT_BOUND, NOTHING);
    if (t->config.listed)
        REPLIES(t, rht_bind_in(h, port(80), 3, 1, &t->reply), RHT_BOUND, NOTHING);
    else {
        REPLIES(t, rht_bind_in(h, port(80), 3, 1, &t->reply), RHT_EXISTS, {.owner = 1});
        REPLIES(t, rht_bind_once_in(h, port(81), 3, 1, &t->reply), RHT_EXISTS, {.owner = 2});
        REPLIES(t, rht_bind_in(h, in_net(1, 80), 3, UINT32_MAX, &t->reply), RHT_BOUND, NOTHING);
    }
    REPLIES(t, rht_release_in(h, port(80), 9, 1, &t->reply), RHT_ABSENT, NOTHING);
    REPLIES(t, rht_release_in(h, port(80), 1, 1, &t->reply), RHT_RELEASED, NOTHING);
    REPLIES(t, rht_release_in(h, port(81), 2, UINT32_MAX, &t->reply), RHT_RELEASED, NOTHING);
    REPLIES(t, rht_count(h, &t->reply), RHT_COUNTED, {.count = 1});
    REPLIES(t, rht_tidy(h, &t->reply), RHT_CLEAR, {.returned = 2});
    close_table(t);
}

/* A bind takes its node before it comes to a lock. So that none is free is answered without a round. */
static void has_no_node_in_one(struct test *t)
{
    t->config.nodes = 1;
    open_table(t, 1);
    bind_ports(t, 1, 1);
    REPLIES(t, rht_bind_in(t->handles, port(2), 1, 0, &t->reply), RHT_NO_NODE, NOTHING);
    REPLIES(t, rht_bind_once_in(t->handles, port(2), 1, 0, &t->reply), RHT_NO_NODE, NOTHING);
    close_table(t);
}

/* A call in one go of a port that is owner 7's, in lists and in single tables. */
struct in_one {
    uint32_t (*call)(rht_handle *, rht_port, uint32_t, uint32_t, rht_reply *);
    uint32_t (*begin)(rht_handle *, rht_port, uint32_t, rht_reply *);
    uint32_t (*wait)(rht_handle *, rht_port, uint32_t, rht_reply *);
    uint32_t before_lock, if_listed, if_single;
};

static const struct in_one in_one[] = {
    {rht_bind_in, rht_bind_begin, rht_bind, 9, RHT_BOUND, RHT_EXISTS},
    {rht_bind_once_in, rht_bind_once_begin, rht_bind_once, 9, RHT_BOUND, RHT_EXISTS},
    {rht_release_in, rht_release_begin, rht_release, 4, RHT_RELEASED, RHT_RELEASED},
};

#define IN_ONE (sizeof in_one / sizeof *in_one)

static uint32_t ends_with(const struct test *t, const struct in_one *it)
{
    return t->listed ? it->if_listed : it->if_single;
}

/* With no round a call leaves off before the lock, after so many operations. Those that are left are as many as a call
 * has left that was begun and gone on with so far. */
static void leaves_off_so_far(struct test *t)
{
    rht_handle *h = t->handles;
    uint32_t made, left;
    size_t i;
    for (i = 0; i < IN_ONE; i++) {
        open_table(t, 1);
        ANSWERS(t, rht_bind_in(h, port(80), 7, 1, &t->reply), RHT_BOUND);
        ANSWERS(t, by_ones(t, in_one[i].begin(h, port(80), 7, &t->reply), &made), ends_with(t, &in_one[i]));
        close_table(t);
        open_table(t, 1);
        ANSWERS(t, rht_bind_in(h, port(80), 7, 1, &t->reply), RHT_BOUND);
        REFUSED(t, in_one[i].call(h, port(80), 7, 0, &t->reply), RHT_NOT_YET);
        ANSWERS(t, by_ones(t, RHT_NOT_YET, &left), ends_with(t, &in_one[i]));
        CHECK(t, made == in_one[i].before_lock + left - 1);
        close_table(t);
    }
}

/* A call that has left off before the lock refuses others, holds nobody up, and is in its section. */
static void leaves_off_before_a_lock(struct test *t)
{
    rht_handle *in = &t->handles[0], *h = &t->handles[1];
    size_t i, k;
    for (i = 0; i < IN_ONE; i++) {
        open_table(t, 2);
        ANSWERS(t, rht_bind(h, port(80), 7, &t->reply), RHT_BOUND);
        ANSWERS(t, rht_bind(h, in_net(1, 80), 8, &t->reply), RHT_BOUND);
        REFUSED(t, in_one[i].call(in, port(80), 7, 0, &t->reply), RHT_NOT_YET);
        for (k = 0; k < IN_ONE; k++) {
            REFUSED(t, in_one[k].call(in, port(80), 7, 0, &t->reply), RHT_IN_CALL);
            REFUSED(t, in_one[k].call(in, port(80), 7, 1, &t->reply), RHT_IN_CALL);
        }
        REFUSED(t, rht_find(in, port(80), &t->owner), RHT_IN_CALL);
        ANSWERS(t, rht_find(h, port(80), &t->owner), RHT_FOUND);
        REPLIES(t, rht_release_in(h, port(80), 9, 1, &t->reply), RHT_ABSENT, NOTHING);
        REPLIES(t, rht_release_in(h, in_net(1, 80), 8, 1, &t->reply), RHT_RELEASED, NOTHING);
        ANSWERS(t, rht_tidy(h, &t->reply), RHT_PENDING);
        CHECK(t, t->reply.caller == 0);
        REFUSED(t, rht_go_on(in, 1, &t->reply), RHT_NOT_YET);
        ANSWERS(t, rht_go_on(in, 1000, &t->reply), ends_with(t, &in_one[i]));
        REPLIES(t, rht_tidy(h, &t->reply), RHT_CLEAR, {.returned = 1});
        close_table(t);
    }
}

/* Eleven operations lead a bind to the lock of its bucket. After ten of the first handle one round is enough for the
 * second one. After the eleventh three don't suffice, and neither do five operations more. */
static void leaves_off_at_a_lock(struct test *t)
{
    rht_handle *in = &t->handles[0], *h = &t->handles[1];
    const uint32_t other = t->listed ? RHT_BOUND : RHT_EXISTS;
    size_t i;
    for (i = 0; i < IN_ONE; i++) {
        open_table(t, 2);
        ANSWERS(t, rht_bind(h, port(80), 7, &t->reply), RHT_BOUND);
        ANSWERS(t, rht_bind_begin(in, port(80), 9, &t->reply), RHT_NOT_YET);
        ANSWERS(t, rht_go_on(in, 9, &t->reply), RHT_NOT_YET);
        REPLIES(t, rht_release_in(h, port(80), 6, 1, &t->reply), RHT_ABSENT, NOTHING);
        ANSWERS(t, rht_go_on(in, 1, &t->reply), RHT_NOT_YET);
        REFUSED(t, in_one[i].call(h, port(80), 7, 3, &t->reply), RHT_NOT_YET);
        REFUSED(t, rht_go_on(h, 5, &t->reply), RHT_NOT_YET);
        REFUSED(t, rht_find(h, port(80), &t->owner), RHT_IN_CALL);
        ANSWERS(t, rht_go_on(in, 1000, &t->reply), other);
        ANSWERS(t, rht_go_on(h, 1000, &t->reply), ends_with(t, &in_one[i]));
        REPLIES(t, rht_bind_in(h, port(81), 1, 1, &t->reply), RHT_BOUND, NOTHING);
        close_table(t);
    }
}

/* The calls of the header wait for that lock: they leave off, go on, and yield. Where nobody has it they don't. */
static void waits_for_a_lock(struct test *t)
{
    rht_handle *in = &t->handles[0], *h = &t->handles[1];
    size_t i;
    for (i = 0; i < IN_ONE; i++) {
        open_table(t, 2);
        yields = 0;
        ANSWERS(t, rht_bind(h, port(80), 7, &t->reply), RHT_BOUND);
        CHECK(t, yields == 0);
        ANSWERS(t, rht_bind_begin(in, port(80), 9, &t->reply), RHT_NOT_YET);
        ANSWERS(t, rht_go_on(in, 10, &t->reply), RHT_NOT_YET);
        awaited = in;
        ANSWERS(t, in_one[i].wait(h, port(80), 7, &t->reply), ends_with(t, &in_one[i]));
        CHECK(t, yields == 1 && awaited == NULL && awaited_code == (t->listed ? RHT_BOUND : RHT_EXISTS));
        close_table(t);
    }
}

/* A bind that wants a further table leaves off for that, whatever its rounds. One that finds it there doesn't. */
static void wants_a_table_in_one(struct test *t)
{
    rht_handle *h = t->handles;
    open_table(t, 1);
    bind_ports(t, 0, 64);
    REFUSED(t, rht_bind_once_in(h, port(65), 1065, UINT32_MAX, &t->reply), RHT_NOT_YET);
    REPLIES(t, rht_finish(h, RHT_NOT_YET, &t->reply), RHT_AGAIN, {.table = 1});
    REPLIES(t, rht_bind_once_in(h, port(65), 1065, 1, &t->reply), RHT_BOUND, NOTHING);
    close_table(t);
    open_table(t, 1);
    bind_ports(t, 0, 64);
    REFUSED(t, rht_bind_in(h, port(65), 1065, UINT32_MAX, &t->reply), RHT_NOT_YET);
    REPLIES(t, rht_finish(h, RHT_NOT_YET, &t->reply), RHT_BOUND, {.kick = true});
    REPLIES(t, rht_bind_in(h, port(66), 1066, 1, &t->reply), RHT_BOUND, NOTHING);
    close_table(t);
}

/* The first handle is in a section while the second one tidies, at first without a node that waits. */
static void is_pending(struct test *t)
{
    rht_handle *in = &t->handles[0], *h = &t->handles[1];
    open_table(t, 2);
    ANSWERS(t, rht_bind(h, port(80), 1, &t->reply), RHT_BOUND);
    ANSWERS(t, rht_all_begin(in, port(80), &t->reply), RHT_NOT_YET);
    ANSWERS(t, rht_tidy(h, &t->reply), RHT_PENDING);
    ANSWERS(t, rht_release(h, port(80), 1, &t->reply), RHT_RELEASED);
    ANSWERS(t, rht_tidy(h, &t->reply), RHT_PENDING);
    CHECK(t, t->reply.caller == 0 && t->reply.section % 2 == 1);
    t->reply.section = 0;
    CHECK(t, are_equal(t->reply, (rht_reply)NOTHING));
    ANSWERS(t, rht_tidy(h, &t->reply), RHT_PENDING);
    ANSWERS(t, rht_go_on(in, 1000, &t->reply), RHT_LISTED);
    REPLIES(t, rht_tidy(h, &t->reply), RHT_CLEAR, {.returned = 1});
    close_table(t);
}

/* The first handle is at work while the second one is to work. */
static void is_elsewhere(struct test *t)
{
    rht_handle *in = &t->handles[0], *h = &t->handles[1];
    open_table(t, 2);
    bind_ports(t, 0, 48);
    ANSWERS(t, rht_work_begin(in, &t->reply), RHT_NOT_YET);
    REPLIES(t, rht_work(h, &t->reply), RHT_ELSEWHERE, NOTHING);
    ANSWERS(t, rht_find(h, port(48), &t->owner), RHT_FOUND);
    REPLIES(t, rht_finish(in, RHT_NOT_YET, &t->reply), RHT_MOVED, {.again = false});
    REPLIES(t, rht_work(h, &t->reply), RHT_IDLE, NOTHING);
    close_table(t);
}

/* What is taken out while other nodes wait comes back by a further tidying. */
static void tidies_twice(struct test *t)
{
    rht_handle *in = &t->handles[0], *h = &t->handles[1];
    open_table(t, 2);
    bind_ports(t, 1, 3);
    ANSWERS(t, rht_release(h, port(1), 1001, &t->reply), RHT_RELEASED);
    ANSWERS(t, rht_all_begin(in, port(80), &t->reply), RHT_NOT_YET);
    ANSWERS(t, rht_tidy(h, &t->reply), RHT_PENDING);
    ANSWERS(t, rht_release(h, port(2), 1002, &t->reply), RHT_RELEASED);
    ANSWERS(t, rht_release(h, port(3), 1003, &t->reply), RHT_RELEASED);
    ANSWERS(t, rht_finish(in, RHT_NOT_YET, &t->reply), RHT_LISTED);
    REPLIES(t, rht_tidy(h, &t->reply), RHT_CLEAR, {.returned = 1});
    REPLIES(t, rht_tidy(h, &t->reply), RHT_CLEAR, {.returned = 2});
    REPLIES(t, rht_tidy(h, &t->reply), RHT_CLEAR, {.returned = 0});
    close_table(t);
}

/* What one handle binds the others find. A handle isn't closed with a node that it hasn't tidied, unless that is given
 * up. */
static void shares(struct test *t)
{
    rht_handle *first = &t->handles[0], *h = &t->handles[1];
    uint32_t given_up = 99;
    t->config.nodes = 1;
    open_table(t, 2);
    ANSWERS(t, rht_bind(first, port(80), 1, &t->reply), RHT_BOUND);
    ANSWERS(t, rht_find(h, port(80), &t->owner), RHT_FOUND);
    CHECK(t, t->owner == 1);
    ANSWERS(t, rht_release(h, port(80), 1, &t->reply), RHT_RELEASED);
    REPLIES(t, rht_bind(first, port(81), 1, &t->reply), RHT_NO_NODE, NOTHING);
    REPLIES(t, rht_tidy(first, &t->reply), RHT_CLEAR, {.returned = 0});
    REPLIES(t, rht_tidy(h, &t->reply), RHT_CLEAR, {.returned = 1});
    ANSWERS(t, rht_bind(first, port(81), 1, &t->reply), RHT_BOUND);
    ANSWERS(t, rht_release(first, port(81), 1, &t->reply), RHT_RELEASED);
    ANSWERS(t, rht_close(first), RHT_WAITING);
    REPLIES(t, rht_tidy(first, &t->reply), RHT_CLEAR, {.returned = 1});
    ANSWERS(t, rht_bind(first, port(81), 1, &t->reply), RHT_BOUND);
    ANSWERS(t, rht_rebind(first, port(81), 1, 2, &t->reply), RHT_NO_NODE);
    ANSWERS(t, rht_release(first, port(81), 1, &t->reply), RHT_RELEASED);
    ANSWERS(t, rht_close_now(first, &given_up), RHT_CLOSED);
    CHECK(t, given_up == 1 && !first->in_use);
    REPLIES(t, rht_bind(h, port(82), 1, &t->reply), RHT_NO_NODE, NOTHING);
    REPLIES(t, rht_tidy(h, &t->reply), RHT_CLEAR, {.returned = 0});
    REPLIES(t, rht_bind(h, port(82), 1, &t->reply), RHT_NO_NODE, NOTHING);
    close_table(t);
}

/* Nodes that are fresh and such as wait, alone and together: a closing is refused and does nothing, until they are
 * tidied. Beside a call of another handle they aren't. A rebind takes out a node as a release does. */
static void closes_no_nodes(struct test *t)
{
    rht_handle *in = &t->handles[0], *h = &t->handles[1];
    uint32_t fresh, waiting, given_up, i;
    for (waiting = 0; waiting <= 2; waiting++)
        for (fresh = 0; fresh <= 2; fresh++) {
            open_table(t, 2);
            bind_ports(t, 1, 4);
            ANSWERS(t, rht_all_begin(in, port(80), &t->reply), RHT_NOT_YET);
            for (i = 1; i <= waiting; i++)
                ANSWERS(t, rht_rebind(h, port(i), i + 1000, 7, &t->reply), RHT_REBOUND);
            ANSWERS(t, rht_tidy(h, &t->reply), RHT_PENDING);
            for (i = 3; i < 3 + fresh; i++)
                ANSWERS(t, rht_release(h, port(i), i + 1000, &t->reply), RHT_RELEASED);
            given_up = 99;
            if (waiting + fresh > 0) {
                const rht_handle before = *h;
                ANSWERS(t, rht_close(h), RHT_WAITING);
                CHECK(t, h->in_use && h->at == before.at);
                ANSWERS(t, rht_find(h, port(4), &t->owner), fresh < 2 ? RHT_FOUND : RHT_MISSING);
            }
            ANSWERS(t, rht_close(in), RHT_IN_CALL);
            ANSWERS(t, rht_close_now(in, &given_up), RHT_IN_CALL);
            CHECK(t, given_up == 99);
            if ((waiting + fresh) % 2 == 0) {
                ANSWERS(t, rht_close_now(h, &given_up), RHT_CLOSED);
                CHECK(t, given_up == waiting + fresh && !h->in_use);
                given_up = 99;
                ANSWERS(t, rht_close_now(h, &given_up), RHT_NOT_OPEN);
                CHECK(t, given_up == 99);
            }
            ANSWERS(t, rht_finish(in, RHT_NOT_YET, &t->reply), RHT_LISTED);
            while (h->in_use && rht_close(h) == RHT_WAITING)
                ANSWERS(t, rht_tidy(h, &t->reply), RHT_CLEAR);
            CHECK(t, !h->in_use);
            ANSWERS(t, rht_close(in), RHT_CLOSED);
        }
}

/* Handles are opened again behind their closing, also where all their bytes are 0. */
static void opens_again(struct test *t)
{
    rht_handle zeroed[1], made[1] = {RHT_HANDLE_INIT};
    open_table(t, 1);
    bind_ports(t, 1, 1);
    close_table(t);
    t->config.listed = !t->config.listed;
    open_table(t, 1);
    ANSWERS(t, rht_find(t->handles, port(1), &t->owner), RHT_MISSING);
    bind_ports(t, 1, 1);
    memset(zeroed, 0, sizeof zeroed);
    ANSWERS(t, rht_open(&t->config, zeroed, 1), RHT_OPENED);
    ANSWERS(t, rht_open(&t->config, made, 1), RHT_OPENED);
    ANSWERS(t, rht_find(zeroed, port(1), &t->owner), RHT_MISSING);
    ANSWERS(t, rht_bind(made, port(1), 5, &t->reply), RHT_BOUND);
    ANSWERS(t, rht_close(zeroed), RHT_CLOSED);
    ANSWERS(t, rht_find(made, port(1), &t->owner), RHT_FOUND);
    ANSWERS(t, rht_close(made), RHT_CLOSED);
    close_table(t);
}

/* A handle may be moved while no call is in it. */
static void moves(struct test *t)
{
    rht_handle there;
    open_table(t, 1);
    bind_ports(t, 1, 1);
    memcpy(&there, t->handles, sizeof there);
    memset(t->handles, 0, sizeof there);
    ANSWERS(t, rht_find(&there, port(1), &t->owner), RHT_FOUND);
    ANSWERS(t, rht_bind(&there, port(2), 2, &t->reply), RHT_BOUND);
    ANSWERS(t, rht_find(t->handles, port(1), &t->owner), RHT_NOT_OPEN);
    ANSWERS(t, rht_close(&there), RHT_CLOSED);
}

/* All sixteen handles of a table, each with a call of its own under way at the same time. */
static void has_sixteen(struct test *t)
{
    rht_handle all[16];
    rht_pair pairs[16] = {0};
    rht_closed closed = {0};
    uint32_t i;
    memset(all, 0, sizeof all);
    t->config.callers = 16;
    ANSWERS(t, rht_open(&t->config, all, 16), RHT_OPENED);
    for (i = 0; i < 16; i++)
        ANSWERS(t, rht_bind_begin(&all[i], port(i), i, &t->reply), RHT_NOT_YET);
    for (i = 16; i-- > 0;)
        REPLIES(t, rht_finish(&all[i], RHT_NOT_YET, &t->reply), RHT_BOUND, NOTHING);
    REPLIES(t, rht_count(&all[7], &t->reply), RHT_COUNTED, {.count = 16});
    ANSWERS(t, rht_close_all(all, 16, pairs, 16, &closed), RHT_ENDED);
    CHECK(t, closed.len == 16 && closed.keys == 16 && closed.size == 64);
    for (i = 0; i < 16; i++)
        CHECK(t, !all[i].in_use && pairs[i].port.number == i && pairs[i].owner == i);
}

/* how many pairs `bound` has, and the number in what no function has written */
#define BOUND 8
#define UNWRITTEN 77

/* What a table is left with by bind_several, in the order in which it is to be written. Lists have the last three
 * owners of port 0 in net 1, and single tables the last one of them. */
static const rht_pair bound[BOUND] = {
    {{3, 0}, 30}, {{9, 0}, 91}, {{UINT32_MAX, 0}, 1}, {{0, 1}, 11}, {{0, 1}, 12}, {{0, 1}, 11}, {{0, 1}, 10},
    {{5, UINT16_MAX}, 0},
};

/* wanted: the pairs of the test's kind of table, of as many as there are */
static size_t wanted(const struct test *t, rht_pair *pairs)
{
    size_t i, len = 0;
    for (i = 0; i < BOUND; i++)
        if (t->listed || i < 3 || i > 5)
            pairs[len++] = bound[i];
    return len;
}

/* Binds five ports, each by another handle than the one before, and not in their order. One more is bound and
 * released, one has a new owner in the place of its old one. No handle tidies. */
static void bind_several(struct test *t, rht_handle *first, rht_handle *second, rht_handle *third)
{
    ANSWERS(t, rht_bind(first, in_net(1, 0), 10, &t->reply), RHT_BOUND);
    ANSWERS(t, rht_bind(second, in_net(UINT16_MAX, 5), 0, &t->reply), RHT_BOUND);
    ANSWERS(t, rht_bind(third, port(9), 90, &t->reply), RHT_BOUND);
    ANSWERS(t, rht_bind(first, port(UINT32_MAX), 1, &t->reply), RHT_BOUND);
    ANSWERS(t, rht_bind(second, in_net(2, 3), 7, &t->reply), RHT_BOUND);
    ANSWERS(t, rht_bind(third, port(3), 30, &t->reply), RHT_BOUND);
    ANSWERS(t, rht_rebind(first, port(9), 90, 91, &t->reply), RHT_REBOUND);
    ANSWERS(t, rht_release(third, in_net(2, 3), 7, &t->reply), RHT_RELEASED);
    if (!t->listed)
        return;
    ANSWERS(t, rht_bind(second, in_net(1, 0), 11, &t->reply), RHT_BOUND);
    ANSWERS(t, rht_bind(third, in_net(1, 0), 12, &t->reply), RHT_BOUND);
    ANSWERS(t, rht_bind(first, in_net(1, 0), 11, &t->reply), RHT_BOUND);
}

/* Pairs and a struct that aren't written yet. */
static void unwrite(rht_pair *pairs, size_t len, rht_closed *closed)
{
    size_t i;
    for (i = 0; i < len; i++)
        pairs[i] = (rht_pair){.port = {UNWRITTEN, UNWRITTEN}, .owner = UNWRITTEN};
    *closed = (rht_closed){.len = UNWRITTEN, .keys = UNWRITTEN, .size = UNWRITTEN,
                           .spare = {UNWRITTEN, UNWRITTEN, UNWRITTEN, UNWRITTEN, UNWRITTEN, UNWRITTEN, UNWRITTEN,
                                     UNWRITTEN}};
}

static bool is_pair(const rht_pair *a, const rht_pair *b)
{
    return a->port.net == b->port.net && a->port.number == b->port.number && a->owner == b->owner;
}

/* are_unwritten: whether these pairs are as unwrite has left them */
static bool are_unwritten(const rht_pair *pairs, size_t len)
{
    const rht_pair not_yet = {.port = {UNWRITTEN, UNWRITTEN}, .owner = UNWRITTEN};
    size_t i;
    for (i = 0; i < len; i++)
        if (!is_pair(&pairs[i], &not_yet))
            return false;
    return true;
}

/* has_ended: the handles are closed with their table, what bind_several has bound is written as far as there is room,
 * and behind that nothing is */
static void has_ended(struct test *t, rht_handle *handles, size_t count, size_t room)
{
    rht_pair left[BOUND], pairs[BOUND + 4];
    rht_closed closed;
    const size_t len = wanted(t, left), written = room < len ? room : len;
    size_t i;
    unwrite(pairs, BOUND + 4, &closed);
    ANSWERS(t, rht_close_all(handles, count, pairs, room, &closed), RHT_ENDED);
    CHECK(t, closed.len == written && closed.keys == 5 && closed.size == 64);
    for (i = 0; i < 8; i++)
        CHECK(t, closed.spare[i] == 0);
    for (i = 0; i < written; i++)
        CHECK(t, is_pair(&pairs[i], &left[i]));
    CHECK(t, are_unwritten(pairs + written, BOUND + 4 - written));
    for (i = 0; i < count; i++)
        CHECK(t, !handles[i].in_use && rht_close(&handles[i]) == RHT_NOT_OPEN);
}

/* With any room, of none and of more than is needed. The handles can be opened again, and the table is a new one. */
static void ends(struct test *t)
{
    size_t room;
    for (room = 0; room <= BOUND + 2; room++) {
        open_table(t, 3);
        ANSWERS(t, rht_find(t->handles, port(3), &t->owner), RHT_MISSING);
        bind_several(t, &t->handles[0], &t->handles[1], &t->handles[2]);
        has_ended(t, t->handles, 3, room);
    }
    open_table(t, 1);
    bind_several(t, t->handles, t->handles, t->handles);
    has_ended(t, t->handles, 1, BOUND);
}

/* Nothing is bound, and nothing was ever. */
static void ends_empty(struct test *t)
{
    rht_pair pair;
    rht_closed closed;
    unsigned i;
    for (i = 0; i < 2; i++) {
        t->config.hint = 3;
        open_table(t, 2);
        if (i == 1) {
            bind_ports(t, 1, 1);
            ANSWERS(t, rht_release(&t->handles[1], port(1), 1001, &t->reply), RHT_RELEASED);
        }
        unwrite(&pair, 1, &closed);
        ANSWERS(t, rht_close_all(t->handles, 2, &pair, 1, &closed), RHT_ENDED);
        CHECK(t, closed.len == 0 && closed.keys == 0 && closed.size == 4 && are_unwritten(&pair, 1));
    }
}

/* In which places the handles of a table lie doesn't matter. */
static void ends_in_any_order(struct test *t)
{
    const rht_handle blank = RHT_HANDLE_INIT;
    rht_handle moved[3];
    unsigned first, i;
    for (first = 0; first < 3; first++) {
        open_table(t, 3);
        bind_several(t, &t->handles[2], &t->handles[0], &t->handles[1]);
        for (i = 0; i < 3; i++) {
            moved[(first + 2 * i) % 3] = t->handles[i];
            t->handles[i] = blank;
        }
        has_ended(t, moved, 3, BOUND);
    }
}

/* Where another handle is open nothing is written, and it goes on. It closes the table, alone or with others. */
static void closes_some(struct test *t)
{
    rht_pair pairs[BOUND];
    rht_closed closed;
    rht_handle *last = &t->handles[3];
    size_t some;
    for (some = 1; some <= 3; some++) {
        open_table(t, 4);
        bind_several(t, &t->handles[0], &t->handles[1], &t->handles[2]);
        unwrite(pairs, BOUND, &closed);
        ANSWERS(t, rht_close_all(t->handles, some, pairs, BOUND, &closed), RHT_CLOSED);
        CHECK(t, are_unwritten(pairs, BOUND));
        CHECK(t, closed.len == UNWRITTEN && closed.keys == UNWRITTEN && closed.size == UNWRITTEN);
        CHECK(t, !t->handles[0].in_use && !t->handles[some - 1].in_use && t->handles[some].in_use);
        ANSWERS(t, rht_find(&t->handles[0], port(3), &t->owner), RHT_NOT_OPEN);
        ANSWERS(t, rht_find(last, port(3), &t->owner), RHT_FOUND);
        CHECK(t, t->owner == 30);
        ANSWERS(t, rht_bind(last, port(4), 40, &t->reply), RHT_BOUND);
        ANSWERS(t, rht_release(last, port(4), 40, &t->reply), RHT_RELEASED);
        has_ended(t, &t->handles[some], 4 - some, BOUND);
    }
}

/* Handles that were closed by themselves have left what they bound. The last one that closes so ends the table, and
 * the handles of another table stay. */
static void closes_each(struct test *t)
{
    rht_handle other[1] = {RHT_HANDLE_INIT};
    rht_config config = t->config;
    config.callers = 1;
    ANSWERS(t, rht_open(&config, other, 1), RHT_OPENED);
    ANSWERS(t, rht_bind(other, port(80), 1, &t->reply), RHT_BOUND);
    open_table(t, 3);
    bind_several(t, &t->handles[0], &t->handles[1], &t->handles[2]);
    ANSWERS(t, rht_close_now(&t->handles[0], &t->owner), RHT_CLOSED);
    CHECK(t, t->owner == 1);
    has_ended(t, &t->handles[1], 2, BOUND);
    ANSWERS(t, rht_find(other, port(80), &t->owner), RHT_FOUND);
    ANSWERS(t, rht_close(other), RHT_CLOSED);
}

/* Two tables are behind the first one, and so many times is worked. Ports of all tables are written, and the size is
 * that of the table with which a walk would begin. */
static void ends_behind_others(struct test *t)
{
    rht_pair pairs[131];
    rht_closed closed;
    uint32_t works, i;
    for (works = 0; works < 3; works++) {
        open_table(t, 2);
        bind_ports(t, 0, 129);
        for (i = 0; i < works; i++)
            REPLIES(t, rht_work(&t->handles[1], &t->reply), RHT_MOVED, {.again = i == 0});
        unwrite(pairs, 131, &closed);
        ANSWERS(t, rht_close_all(t->handles, 2, pairs, 131, &closed), RHT_ENDED);
        CHECK(t, closed.len == 130 && closed.keys == 130 && closed.size == 64U << works);
        for (i = 0; i < 130; i++)
            CHECK(t, pairs[i].port.net == 0 && pairs[i].port.number == i && pairs[i].owner == i + 1000);
        CHECK(t, are_unwritten(pairs + 130, 1));
    }
}

static const struct named tests[] = {
    {"plain", plain}, {"seeds", seeds}, {"finds", finds}, {"ends_of_ranges", ends_of_ranges},
    {"second_owner", second_owner},
    {"listed", listed}, {"lists_go", lists_go}, {"releases", releases}, {"rebinds", rebinds},
    {"tidies", tidies}, {"walks", walks}, {"walks_lists", walks_lists}, {"walks_buckets", walks_buckets},
    {"grows", grows}, {"grows_twice", grows_twice}, {"shrinks", shrinks}, {"fills", fills},
    {"is_busy", is_busy}, {"has_no_table", has_no_table}, {"holds_tables_back", holds_tables_back},
    {"goes_by_ones", goes_by_ones},
    {"goes_so_far", goes_so_far}, {"goes_in_one", goes_in_one}, {"has_no_node_in_one", has_no_node_in_one},
    {"leaves_off_so_far", leaves_off_so_far}, {"leaves_off_before_a_lock", leaves_off_before_a_lock},
    {"leaves_off_at_a_lock", leaves_off_at_a_lock}, {"waits_for_a_lock", waits_for_a_lock},
    {"wants_a_table_in_one", wants_a_table_in_one}, {"is_pending", is_pending}, {"tidies_twice", tidies_twice},
    {"is_elsewhere", is_elsewhere}, {"shares", shares}, {"closes_no_nodes", closes_no_nodes},
    {"opens_again", opens_again}, {"moves", moves},
    {"has_sixteen", has_sixteen}, {"ends", ends}, {"ends_empty", ends_empty},
    {"ends_in_any_order", ends_in_any_order}, {"closes_some", closes_some}, {"closes_each", closes_each},
    {"ends_behind_others", ends_behind_others},
};

int main(void) { return run_all("calls", tests, sizeof tests / sizeof *tests); }
