/* What a thread has written before it binds is seen by who finds the owner: messages in plain memory, which one thread
 * publishes by a bind and another one finds.
 *
 *   publish [MESSAGES]    60000
 *
 * A message lies in a slot, and its number is the owner of the slot's port. The reader releases the port when it has read,
 * and the writer writes the slot anew once it doesn't find it any more. Compiled with ThreadSanitizer it has to be clean,
 * and to be none where RHT_TSAN is 0. */
#define _POSIX_C_SOURCE 200809L
#include <pthread.h>
#include <stdlib.h>

#include "check.h"

#define SLOTS 16
#define WORDS 8

/* A message: each word is its number and the word's place, mixed. */
struct message {
    uint32_t words[WORDS];
};

static struct message slots[SLOTS];

struct seat {
    struct test t;
    rht_handle *handle;
    uint32_t messages, stale;
};

static rht_port slot_port(uint32_t number) { return in_net(7, number % SLOTS); }

static uint32_t word_of(uint32_t number, uint32_t place) { return number * 2654435761U + place; }

/* Gives back what the handle has released, as far as that is possible now. */
static void tidy(struct seat *s)
{
    const uint32_t code = rht_tidy(s->handle, &s->t.reply);
    CHECK(&s->t, code == RHT_CLEAR || code == RHT_PENDING);
}

static void *write_all(void *seat)
{
    struct seat *s = seat;
    uint32_t number, place, owner = 0;
    for (number = 1; number <= s->messages; number++) {
        struct message *slot = &slots[number % SLOTS];
        while (rht_find(s->handle, slot_port(number), &owner) == RHT_FOUND)
            sched_yield();
        for (place = 0; place < WORDS; place++)
            slot->words[place] = word_of(number, place);
        ANSWERS(&s->t, rht_bind(s->handle, slot_port(number), number, &s->t.reply), RHT_BOUND);
    }
    return NULL;
}

static void *read_all(void *seat)
{
    struct seat *s = seat;
    uint32_t number, place, owner = 0;
    for (number = 1; number <= s->messages; number++) {
        const struct message *slot = &slots[number % SLOTS];
        while (rht_find(s->handle, slot_port(number), &owner) != RHT_FOUND)
            sched_yield();
        CHECK(&s->t, owner == number);
        for (place = 0; place < WORDS; place++)
            s->stale += slot->words[place] != word_of(number, place);
        ANSWERS(&s->t, rht_release(s->handle, slot_port(number), number, &s->t.reply), RHT_RELEASED);
        tidy(s);
    }
    return NULL;
}

int main(int words, char **word)
{
    static struct seat seats[2];
    static rht_handle handles[2];
    const int messages = words > 1 ? atoi(word[1]) : 60000;
    rht_config config = RHT_CONFIG_INIT;
    pthread_t threads[2];
    unsigned long made = 0, failed = 0;
    int i;
    config.callers = 2;
    if (messages < 1 || rht_open(&config, handles, 2) != RHT_OPENED) {
        fprintf(stderr, "usage: publish [MESSAGES]\n");
        return 2;
    }
    for (i = 0; i < 2; i++) {
        seats[i].t.name = i == 0 ? "writer" : "reader";
        seats[i].handle = &handles[i];
        seats[i].messages = (uint32_t)messages;
        if (pthread_create(&threads[i], NULL, i == 0 ? write_all : read_all, &seats[i]) != 0)
            return 2;
    }
    for (i = 0; i < 2; i++) {
        uint32_t given_up = 0;
        CHECK(&seats[i].t, pthread_join(threads[i], NULL) == 0);
        ANSWERS(&seats[i].t, rht_close_now(&handles[i], &given_up), RHT_CLOSED);
        CHECK(&seats[i].t, seats[i].stale == 0);
        made += seats[i].t.made;
        failed += seats[i].t.failed;
    }
    printf("publish: %d messages, %u words of them stale\n", messages, (unsigned)seats[1].stale);
    return ended("publish", made, failed);
}
