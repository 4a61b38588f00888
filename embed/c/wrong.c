/* Wrong uses that have to be answered, and that leave handles and what calls write to as they were. What a
 * program owes, as rht.h lists it, isn't tried here: nothing checks it. */
#include "check.h"

#define CALLS 16
#define BEGINS 9

/* Closes handles together, which is to be refused: nothing is written then. */
static uint32_t close_all(struct test *t, rht_handle *handles, size_t count)
{
    rht_pair pairs[2] = {{.port = {.number = 61, .net = 62}, .owner = 63}, {.port = {.number = 64}, .owner = 65}};
    rht_closed closed = {.len = 66, .keys = 67, .size = 68, .spare = {69, 70, 71, 72, 73, 74, 75, 76}};
    const uint32_t code = rht_close_all(handles, count, pairs, 2, &closed);
    CHECK(t, pairs[0].port.number == 61 && pairs[0].port.net == 62 && pairs[0].owner == 63);
    CHECK(t, pairs[1].port.number == 64 && pairs[1].port.net == 0 && pairs[1].owner == 65);
    CHECK(t, closed.len == 66 && closed.keys == 67 && closed.size == 68 && closed.spare[0] == 69);
    return code;
}

/* makes the call of this number, of those that take a handle; first those that begin one, or go in one go without a
 * round */
static uint32_t make(struct test *t, rht_handle *h, unsigned which)
{
    const rht_cursor start = {0, 0, false};
    switch (which) {
    case 0: return rht_bind_begin(h, port(81), 8, &t->reply);
    case 1: return rht_bind_once_begin(h, port(81), 8, &t->reply);
    case 2: return rht_bind_in(h, port(81), 8, 0, &t->reply);
    case 3: return rht_bind_once_in(h, port(81), 8, 0, &t->reply);
    case 4: return rht_release_begin(h, port(80), 7, &t->reply);
    case 5: return rht_release_in(h, port(80), 7, 0, &t->reply);
    case 6: return rht_rebind_begin(h, port(80), 7, 9, &t->reply);
    case 7: return rht_all_begin(h, port(80), &t->reply);
    case 8: return rht_work_begin(h, &t->reply);
    case 9: return rht_find(h, port(80), &t->owner);
    case 10: return rht_walk(h, start, 10, &t->reply);
    case 11: return rht_tidy(h, &t->reply);
    case 12: return rht_count(h, &t->reply);
    case 13: return close_all(t, h, 1);
    case 14: return rht_close_now(h, &t->owner);
    default: return rht_close(h);
    }
}

/* what the begun call of this number comes to, where port 80 is bound to 7 and nothing is due */
static const uint32_t ends[BEGINS] = {RHT_BOUND, RHT_BOUND, RHT_BOUND, RHT_BOUND, RHT_RELEASED, RHT_RELEASED,
                                      RHT_REBOUND, RHT_LISTED, RHT_IDLE};

/* how many ports are bound after that */
static uint32_t left_bound(unsigned begun)
{
    return ends[begun] == RHT_BOUND ? 2 : ends[begun] == RHT_RELEASED ? 0 : 1;
}

static bool is_same(const rht_handle *a, const rht_handle *b) { return a->at == b->at && a->in_use == b->in_use; }

/* has_no_lists: neither owners nor pairs, and nothing is written */
static void has_no_lists(struct test *t, rht_handle *h)
{
    uint32_t owner = 55;
    rht_pair pair = {.port = {.number = 56}, .owner = 57};
    CHECK(t, rht_owners(h, 0, &owner, 1) == 0 && owner == 55);
    CHECK(t, rht_pairs(h, 0, &pair, 1) == 0 && pair.port.number == 56 && pair.owner == 57);
}

/* A blank handle, by its initialiser, by bytes of 0, and closed in place. */
static void is_not_open(struct test *t)
{
    rht_handle blank[3] = {RHT_HANDLE_INIT}, before;
    unsigned which, i;
    memset(&blank[1], 0, sizeof *blank);
    t->config.callers = 1;
    ANSWERS(t, rht_open(&t->config, &blank[2], 1), RHT_OPENED);
    ANSWERS(t, rht_bind(&blank[2], port(80), 7, &t->reply), RHT_BOUND);
    ANSWERS(t, rht_close(&blank[2]), RHT_CLOSED);
    for (i = 0; i < 3; i++) {
        before = blank[i];
        CHECK(t, !before.in_use);
        for (which = 0; which < CALLS; which++)
            REFUSED(t, make(t, &blank[i], which), RHT_NOT_OPEN);
        REFUSED(t, rht_go_on(&blank[i], 1, &t->reply), RHT_NOT_OPEN);
        REFUSED(t, rht_go_on(&blank[i], 0, &t->reply), RHT_NO_STEPS);
        REFUSED(t, rht_bind(&blank[i], port(80), 7, &t->reply), RHT_NOT_OPEN);
        REFUSED(t, rht_bind_once(&blank[i], port(80), 7, &t->reply), RHT_NOT_OPEN);
        REFUSED(t, rht_release(&blank[i], port(80), 7, &t->reply), RHT_NOT_OPEN);
        has_no_lists(t, &blank[i]);
        CHECK(t, is_same(&blank[i], &before));
    }
}

/* A call is in progress, and each other one is refused; then it ends as if nothing had been asked. */
static void is_in_call(struct test *t)
{
    unsigned begun, which;
    rht_handle before;
    for (begun = 0; begun < BEGINS; begun++) {
        open_table(t, 1);
        ANSWERS(t, rht_bind(t->handles, port(80), 7, &t->reply), RHT_BOUND);
        REFUSED(t, make(t, t->handles, begun), RHT_NOT_YET);
        before = *t->handles;
        for (which = 0; which < CALLS; which++)
            REFUSED(t, make(t, t->handles, which), RHT_IN_CALL);
        REFUSED(t, rht_bind(t->handles, port(81), 8, &t->reply), RHT_IN_CALL);
        REFUSED(t, rht_bind_once(t->handles, port(81), 8, &t->reply), RHT_IN_CALL);
        REFUSED(t, rht_release(t->handles, port(80), 7, &t->reply), RHT_IN_CALL);
        REFUSED(t, rht_go_on(t->handles, 0, &t->reply), RHT_NO_STEPS);
        has_no_lists(t, t->handles);
        CHECK(t, is_same(t->handles, &before));
        ANSWERS(t, rht_finish(t->handles, RHT_NOT_YET, &t->reply), ends[begun]);
        CHECK(t, rht_owners(t->handles, 0, &t->owner, 1) == (ends[begun] == RHT_LISTED ? 1 : 0));
        ANSWERS(t, rht_count(t->handles, &t->reply), RHT_COUNTED);
        CHECK(t, t->reply.count == left_bound(begun));
        close_table(t);
    }
}

/* None is in progress. What came with the last call stays. */
static void is_in_no_call(struct test *t)
{
    const rht_cursor start = {0, 0, false};
    rht_handle *h = t->handles;
    rht_pair pair = {0};
    open_table(t, 1);
    REFUSED(t, rht_go_on(h, 1, &t->reply), RHT_NO_CALL);
    REFUSED(t, rht_go_on(h, 0, &t->reply), RHT_NO_STEPS);
    ANSWERS(t, rht_bind(h, port(80), 7, &t->reply), RHT_BOUND);
    REFUSED(t, rht_go_on(h, UINT32_MAX, &t->reply), RHT_NO_CALL);
    ANSWERS(t, rht_all(h, port(80), &t->reply), RHT_LISTED);
    REFUSED(t, rht_go_on(h, 1, &t->reply), RHT_NO_CALL);
    CHECK(t, rht_owners(h, 0, &t->owner, 1) == 1 && t->owner == 7);
    REFUSED(t, rht_finish(h, RHT_NOT_YET, &t->reply), RHT_NO_CALL);
    ANSWERS(t, rht_walk(h, start, 1000, &t->reply), RHT_WALKED);
    REFUSED(t, rht_go_on(h, 0, &t->reply), RHT_NO_STEPS);
    ANSWERS(t, rht_open(&t->config, h, 1), RHT_STILL_OPEN);
    CHECK(t, rht_pairs(h, 0, &pair, 1) == 1 && pair.port.number == 80 && pair.owner == 7);
    CHECK(t, rht_pairs(h, 0, &pair, 1) == 1 && rht_owners(h, 0, &t->owner, 1) == 0);
    close_table(t);
}

static void closes_twice(struct test *t)
{
    open_table(t, 2);
    ANSWERS(t, rht_close(&t->handles[1]), RHT_CLOSED);
    ANSWERS(t, rht_close(&t->handles[1]), RHT_NOT_OPEN);
    ANSWERS(t, rht_bind(&t->handles[0], port(80), 7, &t->reply), RHT_BOUND);
    ANSWERS(t, rht_close(&t->handles[0]), RHT_CLOSED);
    ANSWERS(t, rht_close(&t->handles[0]), RHT_NOT_OPEN);
    ANSWERS(t, rht_close(&t->handles[1]), RHT_NOT_OPEN);
    ANSWERS(t, rht_find(&t->handles[0], port(80), &t->owner), RHT_NOT_OPEN);
}

/* are_same: whether handles are as they were, of whom so many are open */
static bool are_same(const rht_handle *handles, const rht_handle *before, size_t count, size_t open)
{
    size_t i;
    for (i = 0; i < count; i++) {
        if (!is_same(&handles[i], &before[i]))
            return false;
        open -= handles[i].in_use;
    }
    return open == 0;
}

/* None is closed where there is none, or where all are blank. */
static void closes_none(struct test *t)
{
    rht_handle before[4];
    memcpy(before, t->handles, sizeof before);
    REFUSED(t, close_all(t, t->handles, 0), RHT_NOT_OPEN);
    REFUSED(t, close_all(t, t->handles, 1), RHT_NOT_OPEN);
    REFUSED(t, close_all(t, t->handles, 4), RHT_NOT_OPEN);
    CHECK(t, are_same(t->handles, before, 4, 0));
    open_table(t, 2);
    ANSWERS(t, rht_bind(t->handles, port(80), 7, &t->reply), RHT_BOUND);
    memcpy(before, t->handles, sizeof before);
    REFUSED(t, close_all(t, t->handles, 0), RHT_NOT_OPEN);
    CHECK(t, are_same(t->handles, before, 4, 2));
    ANSWERS(t, rht_find(&t->handles[1], port(80), &t->owner), RHT_FOUND);
    close_table(t);
}

/* One of them is blank, at any place, and the others stay open with what came with their last call. */
static void closes_beside_a_blank(struct test *t)
{
    rht_handle before[4];
    unsigned blank, i;
    for (blank = 0; blank < 4; blank++) {
        open_table(t, 4);
        ANSWERS(t, rht_bind(t->handles, port(80), 7, &t->reply), RHT_BOUND);
        for (i = 0; i < 4; i++)
            ANSWERS(t, rht_all(&t->handles[i], port(80), &t->reply), RHT_LISTED);
        ANSWERS(t, rht_close(&t->handles[blank]), RHT_CLOSED);
        memcpy(before, t->handles, sizeof before);
        REFUSED(t, close_all(t, t->handles, 4), RHT_NOT_OPEN);
        CHECK(t, are_same(t->handles, before, 4, 3));
        for (i = 0; i < 4; i++) {
            CHECK(t, rht_owners(&t->handles[i], 0, &t->owner, 1) == (i == blank ? 0 : 1));
            ANSWERS(t, rht_find(&t->handles[i], port(80), &t->owner), i == blank ? RHT_NOT_OPEN : RHT_FOUND);
        }
        close_table(t);
    }
}

/* One of them is in a call, of any kind and at any place. That goes on, and then they close. Where one is blank too
 * that is the reason which is answered. */
static void closes_in_a_call(struct test *t)
{
    rht_handle before[4];
    rht_pair pairs[2] = {{.owner = 0}, {.owner = 0}};
    rht_closed closed = {0};
    unsigned begun, in, i;
    for (begun = 0; begun < BEGINS; begun++)
        for (in = 0; in < 3; in++) {
            open_table(t, 3);
            ANSWERS(t, rht_bind(&t->handles[2], port(80), 7, &t->reply), RHT_BOUND);
            REFUSED(t, make(t, &t->handles[in], begun), RHT_NOT_YET);
            memcpy(before, t->handles, sizeof before);
            REFUSED(t, close_all(t, t->handles, 3), RHT_IN_CALL);
            REFUSED(t, close_all(t, t->handles, 4), RHT_NOT_OPEN);
            REFUSED(t, close_all(t, &t->handles[in], 1), RHT_IN_CALL);
            CHECK(t, are_same(t->handles, before, 4, 3));
            for (i = 0; i < 3; i++)
                if (i != in)
                    ANSWERS(t, rht_find(&t->handles[i], port(81), &t->owner), RHT_MISSING);
            ANSWERS(t, rht_finish(&t->handles[in], RHT_NOT_YET, &t->reply), ends[begun]);
            ANSWERS(t, rht_close_all(t->handles, 3, pairs, 2, &closed), RHT_ENDED);
            CHECK(t, closed.keys == left_bound(begun) && closed.len == closed.keys);
            CHECK(t, closed.keys < 1 || pairs[0].port.number == 80);
            CHECK(t, closed.keys < 1 || pairs[0].owner == (ends[begun] == RHT_REBOUND ? 9 : 7));
            CHECK(t, closed.keys < 2 || (pairs[1].port.number == 81 && pairs[1].owner == 8));
        }
}

/* Behind either answer the handles are blank, so that a second closing is refused. */
static void closes_all_twice(struct test *t)
{
    rht_pair pair;
    rht_closed closed;
    open_table(t, 3);
    ANSWERS(t, rht_close_all(t->handles, 2, &pair, 0, &closed), RHT_CLOSED);
    REFUSED(t, close_all(t, t->handles, 2), RHT_NOT_OPEN);
    REFUSED(t, close_all(t, t->handles, 3), RHT_NOT_OPEN);
    ANSWERS(t, rht_close_all(&t->handles[2], 1, &pair, 0, &closed), RHT_ENDED);
    REFUSED(t, close_all(t, t->handles, 3), RHT_NOT_OPEN);
    ANSWERS(t, rht_close(&t->handles[2]), RHT_NOT_OPEN);
}

/* Two tables of two handles each, which are mixed in any order, also where a caller's number comes twice. All stay open
 * with what came with their last call. Then each table is closed by itself with what it has. */
static void closes_two_tables(struct test *t)
{
    static const unsigned mixtures[][4] = {{0, 1, 2, 3}, {0, 2, 1, 3}, {3, 2, 1, 0}, {0, 1, 3, 2}, {2, 0, 1, 3}};
    rht_handle all[4], mixed[4], before[4];
    rht_pair pair = {.owner = 0};
    rht_closed closed = {0};
    unsigned which, i, count;
    memset(all, 0, sizeof all);
    t->config.callers = 2;
    for (i = 0; i < 2; i++) {
        t->config.low = (i == 1) != t->low; /* by another hash */
        ANSWERS(t, rht_open(&t->config, &all[2 * i], 2), RHT_OPENED);
        ANSWERS(t, rht_bind(&all[2 * i], port(80), i, &t->reply), RHT_BOUND);
    }
    for (which = 0; which < sizeof mixtures / sizeof *mixtures; which++) {
        for (i = 0; i < 4; i++) {
            mixed[i] = all[mixtures[which][i]];
            ANSWERS(t, rht_all(&mixed[i], port(80), &t->reply), RHT_LISTED);
        }
        memcpy(before, mixed, sizeof before);
        for (count = 2; count <= 4; count++) {
            if (count == 2 && mixtures[which][0] / 2 == mixtures[which][1] / 2)
                continue;
            REFUSED(t, close_all(t, mixed, count), RHT_TWO_TABLES);
            CHECK(t, are_same(mixed, before, 4, 4));
        }
        for (i = 0; i < 4; i++) {
            CHECK(t, rht_owners(&mixed[i], 0, &t->owner, 1) == 1 && t->owner == mixtures[which][i] / 2);
            all[mixtures[which][i]] = mixed[i];
        }
    }
    for (i = 0; i < 2; i++) {
        ANSWERS(t, rht_close_all(&all[2 * i], 2, &pair, 1, &closed), RHT_ENDED);
        CHECK(t, closed.len == 1 && pair.port.number == 80 && pair.owner == i);
    }
}

/* Each of the spare words has to be 0, before anything else is looked at. */
static void has_spare_words(struct test *t)
{
    rht_config before;
    unsigned i;
    t->config.callers = 1;
    for (i = 0; i < 8; i++) {
        t->config.spare[i] = UINT32_MAX - i;
        before = t->config;
        ANSWERS(t, rht_open(&t->config, t->handles, 1), RHT_BAD_CONFIG);
        ANSWERS(t, rht_open(&t->config, t->handles, 2), RHT_BAD_CONFIG);
        CHECK(t, are_same_configs(&t->config, &before) && !t->handles->in_use);
        t->config.spare[i] = 0;
    }
    open_table(t, 1);
    t->config.spare[7] = 1;
    ANSWERS(t, rht_open(&t->config, t->handles, 1), RHT_BAD_CONFIG);
    close_table(t);
}

/* Of several handles any one is open, also one of another table. */
static void is_still_open(struct test *t)
{
    rht_handle before[3];
    unsigned i, k;
    t->config.callers = 3;
    for (i = 0; i < 3; i++) {
        rht_config one = t->config;
        one.callers = 1;
        ANSWERS(t, rht_open(&one, &t->handles[i], 1), RHT_OPENED);
        ANSWERS(t, rht_bind(&t->handles[i], port(80), i, &t->reply), RHT_BOUND);
        memcpy(before, t->handles, sizeof before);
        ANSWERS(t, rht_open(&t->config, t->handles, 3), RHT_STILL_OPEN);
        for (k = 0; k < 3; k++)
            CHECK(t, is_same(&before[k], &t->handles[k]));
        ANSWERS(t, rht_find(&t->handles[i], port(80), &t->owner), RHT_FOUND);
        CHECK(t, t->owner == i);
        ANSWERS(t, rht_close(&t->handles[i]), RHT_CLOSED);
    }
    open_table(t, 3);
    ANSWERS(t, rht_open(&t->config, t->handles, 3), RHT_STILL_OPEN);
    ANSWERS(t, rht_count(&t->handles[2], &t->reply), RHT_COUNTED);
    close_table(t);
}

static void has_wrong_counts(struct test *t)
{
    rht_handle before[4];
    uint32_t callers;
    size_t count, i;
    for (callers = 1; callers <= 3; callers++)
        for (count = 0; count <= 4; count++) {
            if (count == callers)
                continue;
            t->config.callers = callers;
            memcpy(before, t->handles, sizeof before);
            ANSWERS(t, rht_open(&t->config, t->handles, count), RHT_BAD_COUNT);
            for (i = 0; i < 4; i++)
                CHECK(t, is_same(&before[i], &t->handles[i]) && !before[i].in_use);
        }
}

/* The first cause is answered: the config, then the count, then an open handle. */
static void has_several_causes(struct test *t)
{
    open_table(t, 2);
    t->config.nodes = 0;
    ANSWERS(t, rht_open(&t->config, t->handles, 3), RHT_BAD_CONFIG);
    t->config.nodes = 1;
    t->config.min = 5;
    ANSWERS(t, rht_open(&t->config, t->handles, 3), RHT_BAD_COUNT);
    ANSWERS(t, rht_open(&t->config, t->handles, 2), RHT_STILL_OPEN);
    CHECK(t, t->config.min == 5);
    close_table(t);
}

enum field { NODES, PAGES, CALLERS, HINT, MIN, MAX, SEED, REWALKS };

static uint32_t *field_of(rht_config *config, enum field field)
{
    switch (field) {
    case NODES: return &config->nodes;
    case PAGES: return &config->pages;
    case CALLERS: return &config->callers;
    case HINT: return &config->hint;
    case MIN: return &config->min;
    case MAX: return &config->max;
    case SEED: return &config->seed;
    default: return &config->rewalks;
    }
}

/* A field has this value, and the rest is plain, but for pages that suffice for any table. */
static void opens_with(struct test *t, enum field field, uint32_t value, uint32_t code)
{
    rht_handle all[17];
    rht_config before;
    uint32_t i;
    memset(all, 0, sizeof all);
    set_plain(t);
    t->config.pages = 4096;
    *field_of(&t->config, field) = value;
    before = t->config;
    ANSWERS(t, rht_open(&t->config, all, field == CALLERS && value < 17 ? value : 1), code);
    if (code == RHT_OPENED) {
        before.min = t->config.min;
        before.max = t->config.max;
    }
    CHECK(t, are_same_configs(&t->config, &before));
    CHECK(t, all[0].in_use == (code == RHT_OPENED) && !all[16].in_use);
    if (code != RHT_OPENED)
        return;
    ANSWERS(t, rht_bind(all, port(80), 7, &t->reply), RHT_BOUND);
    ANSWERS(t, rht_find(all, port(80), &t->owner), RHT_FOUND);
    for (i = 0; i < t->config.callers; i++)
        ANSWERS(t, rht_close(&all[i]), RHT_CLOSED);
}

/* The ends of each field's range, and what is just outside. */
static void has_bad_configs(struct test *t)
{
    static const struct { enum field field; uint32_t good[2], bad[2]; } ranges[] = {
        {NODES, {1, 65536}, {0, 65537}}, {PAGES, {4, 4096}, {3, 4097}}, {CALLERS, {1, 16}, {0, 17}},
        {HINT, {1, 65536}, {65537, 1U << 30}}, {MIN, {1, 65536}, {65537, 131072}},
        {MAX, {4, 131072}, {3, 131073}}, {REWALKS, {0, 255}, {256, 65536}},
    };
    size_t i, k;
    for (i = 0; i < sizeof ranges / sizeof *ranges; i++) {
        for (k = 0; k < 2; k++) {
            opens_with(t, ranges[i].field, ranges[i].good[k], RHT_OPENED);
            opens_with(t, ranges[i].field, ranges[i].bad[k], RHT_BAD_CONFIG);
        }
        opens_with(t, ranges[i].field, UINT32_MAX, RHT_BAD_CONFIG);
        opens_with(t, ranges[i].field, 1U << 31, RHT_BAD_CONFIG);
    }
    opens_with(t, HINT, 0, RHT_OPENED);
    opens_with(t, MAX, 0, RHT_OPENED);
    opens_with(t, MAX, 1, RHT_BAD_CONFIG);
    opens_with(t, MAX, 2, RHT_BAD_CONFIG);
    opens_with(t, MAX, 262143, RHT_BAD_CONFIG);
    opens_with(t, SEED, 0, RHT_OPENED);
    opens_with(t, SEED, UINT32_MAX, RHT_OPENED);
}

/* Sizes are rounded, min up and max down, and then have to agree and to fit the pages. A refusal leaves them. */
static void rounds_sizes(struct test *t)
{
    static const struct { uint32_t min, max, pages, code, min_behind, max_behind; } rows[] = {
        {0, 0, 256, RHT_OPENED, 4, 0}, {1, 4, 256, RHT_OPENED, 4, 4}, {4, 5, 256, RHT_OPENED, 4, 4},
        {5, 8, 256, RHT_OPENED, 8, 8}, {5, 15, 256, RHT_OPENED, 8, 8}, {100, 300, 256, RHT_OPENED, 128, 256},
        {5, 7, 256, RHT_BAD_CONFIG, 5, 7}, {9, 15, 256, RHT_BAD_CONFIG, 9, 15},
        {40000, 131072, 1024, RHT_OPENED, 65536, 131072}, {65536, 0, 1024, RHT_OPENED, 65536, 0},
        {40000, 0, 1023, RHT_BAD_CONFIG, 40000, 0}, {65536, 65535, 4096, RHT_BAD_CONFIG, 65536, 65535},
    };
    size_t i;
    for (i = 0; i < sizeof rows / sizeof *rows; i++) {
        set_plain(t);
        t->config.min = rows[i].min;
        t->config.max = rows[i].max;
        t->config.pages = rows[i].pages;
        ANSWERS(t, rht_open(&t->config, t->handles, 1), rows[i].code);
        CHECK(t, t->config.min == rows[i].min_behind && t->config.max == rows[i].max_behind);
        close_table(t);
    }
}

/* The first table's buckets have to fit the pages. */
static void fits_pages(struct test *t)
{
    set_plain(t);
    t->config.hint = 65536;
    t->config.pages = 2047;
    ANSWERS(t, rht_open(&t->config, t->handles, 1), RHT_BAD_CONFIG);
    t->config.max = 65536;
    ANSWERS(t, rht_open(&t->config, t->handles, 1), RHT_OPENED);
    close_table(t);
    t->config.max = 0;
    t->config.pages = 2048;
    ANSWERS(t, rht_open(&t->config, t->handles, 1), RHT_OPENED);
    close_table(t);
}

static const struct named tests[] = {
    {"is_not_open", is_not_open}, {"is_in_call", is_in_call}, {"is_in_no_call", is_in_no_call},
    {"closes_twice", closes_twice}, {"closes_none", closes_none}, {"closes_beside_a_blank", closes_beside_a_blank},
    {"closes_in_a_call", closes_in_a_call}, {"closes_all_twice", closes_all_twice},
    {"closes_two_tables", closes_two_tables}, {"has_spare_words", has_spare_words},
    {"is_still_open", is_still_open}, {"has_wrong_counts", has_wrong_counts},
    {"has_several_causes", has_several_causes}, {"has_bad_configs", has_bad_configs},
    {"rounds_sizes", rounds_sizes}, {"fits_pages", fits_pages},
};

int main(void) { return run_all("wrong", tests, sizeof tests / sizeof *tests); }
