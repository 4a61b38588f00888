/* Threads with a handle each, on one table that grows and shrinks meanwhile.
 *
 *   threads [THREADS [ROUNDS]]    2 to 4, and how often each thread goes over its ports: 4 and 200
 *
 * The last thread resizes and walks. Each other one has ports of its own, binds and releases them, and knows what
 * each call has to come to. All look up ports that stay bound, and raise a counter: the owner of one port. */
#define _POSIX_C_SOURCE 200809L
#include <pthread.h>
#include <sched.h>
#include <stdlib.h>

#include "check.h"

#define MOST 4
#define SHARED 16
#define OWN 64
#define NODES 512

static const rht_port counter = {.number = 0, .net = 9};

/* the threads that aren't at their end, and what they share it by; and where they wait for one another first */
static pthread_mutex_t lock = PTHREAD_MUTEX_INITIALIZER;
static unsigned running;
static pthread_barrier_t start_line;

/* What a thread is given, and what it leaves. */
struct seat {
    struct test t;
    rht_handle *handle;
    unsigned number, rounds;
    bool is_bound[OWN];
    unsigned long raised, moved, walked;
};

static rht_port shared_port(uint32_t number) { return in_net(1, number); }
static rht_port own_port(const struct seat *s, uint32_t number) { return in_net((uint16_t)(2 + s->number), number); }
static uint32_t owner_of(const struct seat *s, uint32_t number) { return 1000 * (s->number + 1) + number; }

static unsigned still_running(void)
{
    unsigned number;
    pthread_mutex_lock(&lock);
    number = running;
    pthread_mutex_unlock(&lock);
    return number;
}

/* Makes room for a bind that was refused, where that comes of what others do: whether to bind again. */
static bool made_room(struct seat *s, uint32_t code)
{
    rht_reply reply = RHT_REPLY_INIT;
    if (code == RHT_NO_NODE) {
        code = rht_tidy(s->handle, &reply);
        CHECK(&s->t, code == RHT_CLEAR || code == RHT_PENDING);
    } else if (code == RHT_BUSY || code == RHT_NO_TABLE) {
        code = rht_work(s->handle, &reply);
        CHECK(&s->t, code == RHT_MOVED || code == RHT_IDLE || code == RHT_ELSEWHERE || code == RHT_NO_TABLE);
    } else
        return false;
    sched_yield();
    return true;
}

static uint32_t bind_own(struct seat *s, uint32_t number)
{
    uint32_t code;
    do
        code = rht_bind(s->handle, own_port(s, number), owner_of(s, number), &s->t.reply);
    while (made_room(s, code));
    return code;
}

/* A port that stays bound is found, whatever others do. */
static void find_shared(struct seat *s, uint32_t number)
{
    uint32_t owner = 0;
    ANSWERS(&s->t, rht_find(s->handle, shared_port(number % SHARED), &owner), RHT_FOUND);
    CHECK(&s->t, owner == 500 + number % SHARED);
}

/* Binds a port of its own, or releases it, and looks it up before and behind. */
static void turn_own(struct seat *s, uint32_t number)
{
    uint32_t owner = 0, found = s->is_bound[number] ? RHT_FOUND : RHT_MISSING;
    ANSWERS(&s->t, rht_find(s->handle, own_port(s, number), &owner), found);
    if (s->is_bound[number]) {
        CHECK(&s->t, owner == owner_of(s, number));
        ANSWERS(&s->t, bind_own(s, number), RHT_EXISTS);
        ANSWERS(&s->t, rht_release(s->handle, own_port(s, number), 1, &s->t.reply), RHT_ABSENT);
        ANSWERS(&s->t, rht_release(s->handle, own_port(s, number), owner_of(s, number), &s->t.reply), RHT_RELEASED);
    } else
        ANSWERS(&s->t, bind_own(s, number), RHT_BOUND);
    s->is_bound[number] = !s->is_bound[number];
    found = s->is_bound[number] ? RHT_FOUND : RHT_MISSING;
    ANSWERS(&s->t, rht_find(s->handle, own_port(s, number), &owner), found);
}

/* Raises the counter by one, as by a compare-and-swap: of the threads that saw one value one has success. */
static void raise(struct seat *s)
{
    uint32_t seen = 0, code;
    ANSWERS(&s->t, rht_find(s->handle, counter, &seen), RHT_FOUND);
    do
        code = rht_rebind(s->handle, counter, seen, seen + 1, &s->t.reply);
    while (made_room(s, code));
    CHECK(&s->t, code == RHT_REBOUND || code == RHT_ABSENT);
    s->raised += code == RHT_REBOUND;
}

/* Gives back the nodes that wait, or asks once more as long as others stand in their way. */
static void tidy(struct seat *s, bool is_asked_again)
{
    uint32_t code;
    do {
        code = rht_tidy(s->handle, &s->t.reply);
        CHECK(&s->t, code == RHT_CLEAR || code == RHT_PENDING);
        sched_yield();
    } while (is_asked_again && code == RHT_PENDING);
}

/* A thread that binds and releases. At the end its ports of odd numbers stay bound, and no node waits. */
static void *churn(void *given)
{
    struct seat *s = given;
    uint32_t i;
    unsigned round;
    pthread_barrier_wait(&start_line);
    for (round = 0; round < 2 * s->rounds; round++) {
        for (i = 0; i < OWN; i++) {
            turn_own(s, i);
            find_shared(s, i + round);
            raise(s);
        }
        tidy(s, false);
    }
    for (i = 1; i < OWN; i += 2)
        turn_own(s, i);
    tidy(s, true);
    tidy(s, true);
    pthread_mutex_lock(&lock);
    running--;
    pthread_mutex_unlock(&lock);
    return NULL;
}

/* Walks the whole table in one piece. Each shared port is seen, with its owner, unless it has to begin anew. */
static void walk_once(struct seat *s, rht_pair *pairs, size_t room)
{
    const rht_cursor start = {0, 0, false};
    unsigned seen = 0;
    const uint32_t code = rht_walk(s->handle, start, UINT32_MAX, &s->t.reply);
    size_t len, i;
    CHECK(&s->t, code == RHT_WALKED || code == RHT_AGAIN);
    if (code != RHT_WALKED)
        return;
    len = rht_pairs(s->handle, 0, pairs, room);
    CHECK(&s->t, len == s->t.reply.len && !s->t.reply.next.more);
    for (i = 0; i < len; i++)
        if (pairs[i].port.net == 1) {
            CHECK(&s->t, pairs[i].port.number < SHARED && pairs[i].owner == 500 + pairs[i].port.number);
            seen |= 1U << pairs[i].port.number;
        }
    CHECK(&s->t, seen == (1U << SHARED) - 1);
    s->walked++;
}

/* The thread that resizes and walks, until all others are at their end. */
static void *resize(void *given)
{
    struct seat *s = given;
    const uint32_t room = s->t.config.nodes;
    rht_pair *pairs = calloc(room, sizeof *pairs);
    uint32_t code, number = 0;
    if (pairs == NULL)
        exit(2);
    pthread_barrier_wait(&start_line);
    do {
        code = rht_work(s->handle, &s->t.reply);
        CHECK(&s->t, code == RHT_MOVED || code == RHT_IDLE || code == RHT_ELSEWHERE || code == RHT_NO_TABLE);
        s->moved += code == RHT_MOVED;
        walk_once(s, pairs, room);
        find_shared(s, number++);
        ANSWERS(&s->t, rht_count(s->handle, &s->t.reply), RHT_COUNTED);
        CHECK(&s->t, s->t.reply.count > SHARED && s->t.reply.count <= SHARED + 1 + MOST * OWN);
        sched_yield();
    } while (still_running() > 0);
    free(pairs);
    return NULL;
}

/* Opens the table and binds what all share, by the first handle, which goes to a thread then. */
static void begin(struct test *t, unsigned threads)
{
    uint32_t i;
    t->config.nodes = NODES;
    t->config.hint = 3;
    t->config.shrink = true;
    open_table(t, threads);
    for (i = 0; i < SHARED; i++)
        ANSWERS(t, rht_bind(t->handles, shared_port(i), 500 + i, &t->reply), RHT_BOUND);
    ANSWERS(t, rht_bind(t->handles, counter, 0, &t->reply), RHT_BOUND);
}

/* Starts the threads, and waits for their end. */
static void run(struct test *t, struct seat *seats, unsigned threads, unsigned rounds)
{
    pthread_t started[MOST];
    unsigned i;
    running = threads - 1;
    pthread_barrier_init(&start_line, NULL, threads);
    for (i = 0; i < threads; i++) {
        seats[i].t.name = i < threads - 1 ? "a thread that binds" : "the thread that resizes";
        seats[i].t.config = t->config;
        seats[i].handle = &t->handles[i];
        seats[i].number = i;
        seats[i].rounds = rounds;
        if (pthread_create(&started[i], NULL, i < threads - 1 ? churn : resize, &seats[i]) != 0) {
            perror("threads: no thread");
            exit(2);
        }
    }
    for (i = 0; i < threads; i++) {
        CHECK(t, pthread_join(started[i], NULL) == 0);
        t->made += seats[i].t.made;
        t->failed += seats[i].t.failed;
    }
}

/* has_left: whether a pair is one that the threads have left */
static bool has_left(const rht_pair *pair, const struct seat *seats, unsigned threads, uint32_t raised)
{
    const uint32_t number = pair->port.number;
    const unsigned of = pair->port.net - 2U;
    if (pair->port.net == 1)
        return number < SHARED && pair->owner == 500 + number;
    if (pair->port.net == counter.net)
        return number == counter.number && pair->owner == raised;
    return of < threads - 1 && number < OWN && seats[of].is_bound[number]
        && pair->owner == owner_of(&seats[of], number);
}

/* is_once: whether no port of a pair is that of another one */
static bool is_once(const rht_pair *pairs, size_t len)
{
    size_t i, k;
    for (i = 0; i < len; i++)
        for (k = 0; k < i; k++)
            if (pairs[i].port.net == pairs[k].port.net && pairs[i].port.number == pairs[k].port.number)
                return false;
    return true;
}

/* No thread is there any more. What is bound is just what they have left, by each handle. */
static void has_all_ports(struct test *t, const struct seat *seats, unsigned threads)
{
    const rht_cursor start = {0, 0, false};
    rht_pair pairs[NODES] = {0};
    size_t len, i, k;
    uint32_t raised = 0, left = SHARED + 1 + (threads - 1) * OWN / 2;
    for (i = 0; i < threads; i++)
        raised += (uint32_t)seats[i].raised;
    while (rht_work(t->handles, &t->reply) == RHT_MOVED)
        ;
    for (k = 0; k < threads; k++) {
        REPLIES(t, rht_count(&t->handles[k], &t->reply), RHT_COUNTED, {.count = left});
        REPLIES(t, rht_walk(&t->handles[k], start, UINT32_MAX, &t->reply), RHT_WALKED, {.len = left});
        len = rht_pairs(&t->handles[k], 0, pairs, NODES);
        CHECK(t, len == left && is_once(pairs, len));
        for (i = 0; i < len; i++)
            CHECK(t, has_left(&pairs[i], seats, threads, raised));
    }
    ANSWERS(t, rht_find(t->handles, counter, &t->owner), RHT_FOUND);
    CHECK(t, t->owner == raised && raised > 0);
}

/* All nodes that aren't bound are free: just so many ports can be bound beside, in the net 20. */
static void has_all_nodes(struct test *t, unsigned threads)
{
    uint32_t i, left = NODES - (SHARED + 1 + (threads - 1) * OWN / 2);
    for (i = 0; i < threads; i++)
        REPLIES(t, rht_tidy(&t->handles[i], &t->reply), RHT_CLEAR, {.returned = 0});
    for (i = 0; i < left; i++) {
        ANSWERS(t, rht_bind(t->handles, in_net(20, i), i, &t->reply), RHT_BOUND);
        while (t->reply.kick || t->reply.again)
            ANSWERS(t, rht_work(t->handles, &t->reply), RHT_MOVED);
    }
    REPLIES(t, rht_bind(t->handles, in_net(20, i), i, &t->reply), RHT_NO_NODE, NOTHING);
}

/* is_behind: whether a port comes behind another one */
static bool is_behind(rht_port it, rht_port other)
{
    return it.net != other.net ? it.net > other.net : it.number > other.number;
}

/* The threads' handles are closed together. What is written then is just what they have left, and what was bound
 * beside: each node has one pair, and no port two. */
static void ends_with_all(struct test *t, const struct seat *seats, unsigned threads)
{
    rht_pair pairs[NODES] = {0};
    rht_closed closed = {0};
    const uint32_t left = SHARED + 1 + (threads - 1) * OWN / 2;
    uint32_t raised = 0, i;
    for (i = 0; i < threads; i++)
        raised += (uint32_t)seats[i].raised;
    ANSWERS(t, rht_close_all(t->handles, threads, pairs, NODES, &closed), RHT_ENDED);
    CHECK(t, closed.len == NODES && closed.keys == NODES);
    for (i = 0; i < NODES; i++) {
        const uint32_t number = pairs[i].port.number;
        const bool is_beside = pairs[i].port.net == 20 && number < NODES - left && pairs[i].owner == number;
        CHECK(t, is_beside || has_left(&pairs[i], seats, threads, raised));
        CHECK(t, i == 0 || is_behind(pairs[i].port, pairs[i - 1].port));
    }
    for (i = 0; i < threads; i++)
        CHECK(t, !t->handles[i].in_use);
}

int main(int words, char **word)
{
    const int threads = words > 1 ? atoi(word[1]) : 4, rounds = words > 2 ? atoi(word[2]) : 200;
    struct test t = {.name = "threads"};
    struct seat seats[MOST] = {0};
    if (threads < 2 || threads > MOST || rounds < 1) {
        fprintf(stderr, "usage: threads [THREADS [ROUNDS]]\n");
        return 2;
    }
    set_plain(&t);
    begin(&t, (unsigned)threads);
    run(&t, seats, (unsigned)threads, (unsigned)rounds);
    has_all_ports(&t, seats, (unsigned)threads);
    has_all_nodes(&t, (unsigned)threads);
    ends_with_all(&t, seats, (unsigned)threads);
    printf("threads: %lu resizes and %lu walks beside %d threads\n", seats[threads - 1].moved,
           seats[threads - 1].walked, threads - 1);
    return ended("threads", t.made, t.failed);
}
