/* Libraries that lie, which the tests have to find out. LIE is the number of a lie, and the linker puts it before the
 * function of the library that it is about, by --wrap. Above each lie stand the function, the test that has to fail,
 * and what is wrong then; `embed/check test` reads these lines. */
#define _POSIX_C_SOURCE 200809L
#include <stdlib.h>
#include <string.h>
#include <time.h>

#include "rht.h"

#define WRAPPED(result, name, values)  \
    result __real_##name values;       \
    result __wrap_##name values;       \
    result __wrap_##name values

#if LIE == 1 /* rht_find calls: an owner is written where the port is missing */
WRAPPED(uint32_t, rht_find, (rht_handle * handle, rht_port port, uint32_t *owner))
{
    const uint32_t code = __real_rht_find(handle, port, owner);
    if (code == RHT_MISSING)
        *owner = 0;
    return code;
}
#elif LIE == 2 /* rht_find threads: a port that stays bound is missed now and then */
WRAPPED(uint32_t, rht_find, (rht_handle * handle, rht_port port, uint32_t *owner))
{
    const uint32_t code = __real_rht_find(handle, port, owner);
    return code == RHT_FOUND && *owner == 501 && rand() % 8 == 0 ? RHT_MISSING : code;
}
#elif LIE == 3 /* rht_go_on threads: several take the place of one owner */
/* It takes its time, so that another thread rebinds between a look-up and the rebind that follows it. */
WRAPPED(uint32_t, rht_go_on, (rht_handle * handle, uint32_t steps, rht_reply *reply))
{
    const struct timespec while_others_run = {.tv_nsec = 20000};
    uint32_t code;
    nanosleep(&while_others_run, NULL);
    code = __real_rht_go_on(handle, steps, reply);
    return code == RHT_ABSENT ? RHT_REBOUND : code;
}
#elif LIE == 4 /* rht_go_on calls: an operation more is made than was asked */
WRAPPED(uint32_t, rht_go_on, (rht_handle * handle, uint32_t steps, rht_reply *reply))
{
    return __real_rht_go_on(handle, steps == 0 || steps > 1000 ? steps : steps + 1, reply);
}
#elif LIE == 5 /* rht_go_on wrong: an operation is made where none was asked */
WRAPPED(uint32_t, rht_go_on, (rht_handle * handle, uint32_t steps, rht_reply *reply))
{
    return __real_rht_go_on(handle, steps == 0 ? 1 : steps, reply);
}
#elif LIE == 6 /* rht_go_on calls: each bind kicks */
WRAPPED(uint32_t, rht_go_on, (rht_handle * handle, uint32_t steps, rht_reply *reply))
{
    const uint32_t code = __real_rht_go_on(handle, steps, reply);
    reply->kick = reply->kick || code == RHT_BOUND;
    return code;
}
#elif LIE == 7 /* rht_bind_begin wrong: a bind in a call isn't refused */
WRAPPED(uint32_t, rht_bind_begin, (rht_handle * handle, rht_port port, uint32_t owner, rht_reply *reply))
{
    const uint32_t code = __real_rht_bind_begin(handle, port, owner, reply);
    return code == RHT_IN_CALL ? RHT_NOT_YET : code;
}
#elif LIE == 8 /* rht_work_begin wrong: a refused work writes a reply */
WRAPPED(uint32_t, rht_work_begin, (rht_handle * handle, rht_reply *reply))
{
    const uint32_t code = __real_rht_work_begin(handle, reply);
    if (code >= RHT_NOT_OPEN)
        reply->again = false;
    return code;
}
#elif LIE == 9 /* rht_close wrong: a blank handle is closed */
WRAPPED(uint32_t, rht_close, (rht_handle * handle))
{
    const uint32_t code = __real_rht_close(handle);
    return code == RHT_NOT_OPEN ? RHT_CLOSED : code;
}
#elif LIE == 10 /* rht_open wrong: sizes aren't told as they were rounded */
WRAPPED(uint32_t, rht_open, (rht_config * config, rht_handle *handles, size_t count))
{
    const uint32_t max = config->max, code = __real_rht_open(config, handles, count);
    config->max = max;
    return code;
}
#elif LIE == 11 /* rht_open wrong: a handle is written where none is opened */
WRAPPED(uint32_t, rht_open, (rht_config * config, rht_handle *handles, size_t count))
{
    const uint32_t code = __real_rht_open(config, handles, count);
    if (code == RHT_BAD_COUNT)
        handles[0].at = config;
    return code;
}
#elif LIE == 12 /* rht_open memory: a block stays taken */
WRAPPED(uint32_t, rht_open, (rht_config * config, rht_handle *handles, size_t count))
{
    static void *block;
    const uint32_t code = __real_rht_open(config, handles, count);
    if (block == NULL && code == RHT_NO_MEMORY)
        block = malloc(8);
    return code;
}
#elif LIE == 13 /* rht_tidy calls: more nodes came back than do */
WRAPPED(uint32_t, rht_tidy, (rht_handle * handle, rht_reply *reply))
{
    const uint32_t code = __real_rht_tidy(handle, reply);
    reply->returned += code == RHT_CLEAR;
    return code;
}
#elif LIE == 14 /* rht_tidy calls: nothing is waited for */
WRAPPED(uint32_t, rht_tidy, (rht_handle * handle, rht_reply *reply))
{
    const uint32_t code = __real_rht_tidy(handle, reply);
    return code == RHT_PENDING ? RHT_CLEAR : code;
}
#elif LIE == 15 /* rht_count calls: a number comes that doesn't belong to the reply */
WRAPPED(uint32_t, rht_count, (rht_handle * handle, rht_reply *reply))
{
    const uint32_t code = __real_rht_count(handle, reply);
    reply->len = code == RHT_COUNTED ? 1 : reply->len;
    return code;
}
#elif LIE == 16 /* rht_count threads: one more port is counted */
WRAPPED(uint32_t, rht_count, (rht_handle * handle, rht_reply *reply))
{
    const uint32_t code = __real_rht_count(handle, reply);
    reply->count += code == RHT_COUNTED;
    return code;
}
#elif LIE == 17 /* rht_walk threads: a pair is lost */
WRAPPED(uint32_t, rht_walk, (rht_handle * handle, rht_cursor from, uint32_t limit, rht_reply *reply))
{
    const uint32_t code = __real_rht_walk(handle, from, limit, reply);
    reply->len -= code == RHT_WALKED && reply->len > 0;
    return code;
}
#elif LIE == 18 /* rht_pairs calls: pairs aren't skipped */
WRAPPED(size_t, rht_pairs, (rht_handle * handle, size_t skip, rht_pair *into, size_t room))
{
    return __real_rht_pairs(handle, skip == 2 ? 0 : skip, into, room);
}
#elif LIE == 19 /* rht_owners calls: the last owner comes first */
WRAPPED(size_t, rht_owners, (rht_handle * handle, size_t skip, uint32_t *into, size_t room))
{
    const size_t len = __real_rht_owners(handle, skip, into, room);
    const uint32_t first = len > 0 ? into[0] : 0;
    if (len > 0) {
        into[0] = into[len - 1];
        into[len - 1] = first;
    }
    return len;
}
#elif LIE == 20 /* rht_config_plain calls: a plain config has another number of nodes */
WRAPPED(void, rht_config_plain, (rht_config * config))
{
    __real_rht_config_plain(config);
    config->nodes--;
}
#elif LIE == 21 /* rht_open wrong: a config is rounded also where it opens no table */
WRAPPED(uint32_t, rht_open, (rht_config * config, rht_handle *handles, size_t count))
{
    const uint32_t code = __real_rht_open(config, handles, count);
    if (code == RHT_BAD_COUNT && config->min == 5)
        config->min = 8;
    return code;
}
#elif LIE == 22 /* rht_go_on calls: a call in progress writes a reply */
WRAPPED(uint32_t, rht_go_on, (rht_handle * handle, uint32_t steps, rht_reply *reply))
{
    const uint32_t code = __real_rht_go_on(handle, steps, reply);
    if (code == RHT_NOT_YET)
        reply->len = 0;
    return code;
}
#elif LIE == 23 /* rht_close_all calls: the owners of a port come in another order */
WRAPPED(uint32_t, rht_close_all,
        (rht_handle * handles, size_t count, rht_pair *into, size_t room, rht_closed *closed))
{
    const uint32_t code = __real_rht_close_all(handles, count, into, room, closed);
    size_t i;
    for (i = 1; code == RHT_ENDED && i < closed->len; i++)
        if (into[i].port.net == into[i - 1].port.net && into[i].port.number == into[i - 1].port.number) {
            const uint32_t owner = into[i].owner;
            into[i].owner = into[i - 1].owner;
            into[i - 1].owner = owner;
        }
    return code;
}
#elif LIE == 24 /* rht_close_all calls: of handles beside an open one it is told what their table was */
WRAPPED(uint32_t, rht_close_all,
        (rht_handle * handles, size_t count, rht_pair *into, size_t room, rht_closed *closed))
{
    const uint32_t code = __real_rht_close_all(handles, count, into, room, closed);
    if (code == RHT_CLOSED)
        closed->len = 0;
    return code;
}
#elif LIE == 25 /* rht_close_all calls: len has also the pairs for which there was no room */
WRAPPED(uint32_t, rht_close_all,
        (rht_handle * handles, size_t count, rht_pair *into, size_t room, rht_closed *closed))
{
    const uint32_t code = __real_rht_close_all(handles, count, into, room, closed);
    if (code == RHT_ENDED && closed->len == room && closed->len < closed->keys)
        closed->len = closed->keys;
    return code;
}
#elif LIE == 26 /* rht_close_all wrong: the handles before a blank one are closed */
WRAPPED(uint32_t, rht_close_all,
        (rht_handle * handles, size_t count, rht_pair *into, size_t room, rht_closed *closed))
{
    const uint32_t code = __real_rht_close_all(handles, count, into, room, closed);
    size_t i;
    for (i = 0; code == RHT_NOT_OPEN && i < count && handles[i].in_use; i++)
        rht_close(&handles[i]);
    return code;
}
#elif LIE == 27 /* rht_close_all wrong: a pair is written where a handle is in a call */
WRAPPED(uint32_t, rht_close_all,
        (rht_handle * handles, size_t count, rht_pair *into, size_t room, rht_closed *closed))
{
    const uint32_t code = __real_rht_close_all(handles, count, into, room, closed);
    if (code == RHT_IN_CALL && room > 1)
        into[1].owner = 0;
    return code;
}
#elif LIE == 28 /* rht_close_all memory: a handle is closed where memory has run out */
WRAPPED(uint32_t, rht_close_all,
        (rht_handle * handles, size_t count, rht_pair *into, size_t room, rht_closed *closed))
{
    const uint32_t code = __real_rht_close_all(handles, count, into, room, closed);
    if (code == RHT_NO_MEMORY && count > 1)
        rht_close(&handles[count - 1]);
    return code;
}
#elif LIE == 29 /* rht_close_all memory: a block stays taken */
WRAPPED(uint32_t, rht_close_all,
        (rht_handle * handles, size_t count, rht_pair *into, size_t room, rht_closed *closed))
{
    static void *block;
    const uint32_t code = __real_rht_close_all(handles, count, into, room, closed);
    if (block == NULL && code == RHT_NO_MEMORY)
        block = malloc(8);
    return code;
}
#elif LIE == 30 /* rht_close_all threads: a port that was bound isn't written, and another one twice */
WRAPPED(uint32_t, rht_close_all,
        (rht_handle * handles, size_t count, rht_pair *into, size_t room, rht_closed *closed))
{
    const uint32_t code = __real_rht_close_all(handles, count, into, room, closed);
    if (code == RHT_ENDED && closed->len > 100)
        into[100] = into[99];
    return code;
}
#elif LIE == 31 /* rht_bind_in calls: each bind kicks */
WRAPPED(uint32_t, rht_bind_in, (rht_handle * handle, rht_port port, uint32_t owner, uint32_t rounds, rht_reply *reply))
{
    const uint32_t code = __real_rht_bind_in(handle, port, owner, rounds, reply);
    reply->kick = reply->kick || code == RHT_BOUND;
    return code;
}
#elif LIE == 32 /* rht_bind_in calls: one operation is made, and not all */
WRAPPED(uint32_t, rht_bind_in, (rht_handle * handle, rht_port port, uint32_t owner, uint32_t rounds, rht_reply *reply))
{
    (void)rounds;
    return rht_bind_begin(handle, port, owner, reply);
}
#elif LIE == 33 /* rht_bind_once_in calls: it is tried again */
WRAPPED(uint32_t, rht_bind_once_in,
        (rht_handle * handle, rht_port port, uint32_t owner, uint32_t rounds, rht_reply *reply))
{
    return rht_bind_in(handle, port, owner, rounds, reply);
}
#elif LIE == 34 /* rht_bind_once_in calls: it leaves off where nobody is in the way */
WRAPPED(uint32_t, rht_bind_once_in,
        (rht_handle * handle, rht_port port, uint32_t owner, uint32_t rounds, rht_reply *reply))
{
    return __real_rht_bind_once_in(handle, port, owner, rounds - (rounds == 1), reply);
}
#elif LIE == 35 /* rht_release_in calls: a lock is tried where no round was asked */
WRAPPED(uint32_t, rht_release_in,
        (rht_handle * handle, rht_port port, uint32_t owner, uint32_t rounds, rht_reply *reply))
{
    return __real_rht_release_in(handle, port, owner, rounds == 0 ? 1 : rounds, reply);
}
#elif LIE == 36 /* rht_release_in calls: a call that has left off has made an operation more */
WRAPPED(uint32_t, rht_release_in,
        (rht_handle * handle, rht_port port, uint32_t owner, uint32_t rounds, rht_reply *reply))
{
    const uint32_t code = __real_rht_release_in(handle, port, owner, rounds, reply);
    return code == RHT_NOT_YET ? rht_go_on(handle, 1, reply) : code;
}
#elif LIE == 37 /* rht_release_in calls: a call that has left off writes a reply */
WRAPPED(uint32_t, rht_release_in,
        (rht_handle * handle, rht_port port, uint32_t owner, uint32_t rounds, rht_reply *reply))
{
    const uint32_t code = __real_rht_release_in(handle, port, owner, rounds, reply);
    if (code == RHT_NOT_YET)
        reply->kick = false;
    return code;
}
#elif LIE == 38 /* rht_bind_in wrong: a refused bind writes a reply */
WRAPPED(uint32_t, rht_bind_in, (rht_handle * handle, rht_port port, uint32_t owner, uint32_t rounds, rht_reply *reply))
{
    const uint32_t code = __real_rht_bind_in(handle, port, owner, rounds, reply);
    if (code >= RHT_NOT_OPEN)
        reply->owner = 0;
    return code;
}
#elif LIE == 39 /* rht_release_in wrong: a release in a call isn't refused */
WRAPPED(uint32_t, rht_release_in,
        (rht_handle * handle, rht_port port, uint32_t owner, uint32_t rounds, rht_reply *reply))
{
    const uint32_t code = __real_rht_release_in(handle, port, owner, rounds, reply);
    return code == RHT_IN_CALL ? RHT_NOT_YET : code;
}
#elif LIE == 40 /* rht_release_in threads: what is bound to another owner is said to be released */
WRAPPED(uint32_t, rht_release_in,
        (rht_handle * handle, rht_port port, uint32_t owner, uint32_t rounds, rht_reply *reply))
{
    const uint32_t code = __real_rht_release_in(handle, port, owner, rounds, reply);
    return code == RHT_ABSENT ? RHT_RELEASED : code;
}
#elif LIE == 41 /* rht_close calls: a handle is closed with nodes that aren't tidied */
WRAPPED(uint32_t, rht_close, (rht_handle * handle))
{
    const uint32_t code = __real_rht_close(handle);
    uint32_t given_up = 0;
    return code == RHT_WAITING ? rht_close_now(handle, &given_up) : code;
}
#elif LIE == 42 /* rht_close_now calls: no node is given up */
WRAPPED(uint32_t, rht_close_now, (rht_handle * handle, uint32_t *given_up))
{
    const uint32_t code = __real_rht_close_now(handle, given_up);
    *given_up = code == RHT_CLOSED ? 0 : *given_up;
    return code;
}
#elif LIE == 43 /* rht_open wrong: spare words aren't looked at */
WRAPPED(uint32_t, rht_open, (rht_config * config, rht_handle *handles, size_t count))
{
    const rht_config before = *config;
    uint32_t code;
    memset(config->spare, 0, sizeof config->spare);
    code = __real_rht_open(config, handles, count);
    memcpy(config->spare, before.spare, sizeof config->spare);
    return code;
}
#elif LIE == 44 /* rht_close_all closings: now and then nobody ends a table */
WRAPPED(uint32_t, rht_close_all,
        (rht_handle * handles, size_t count, rht_pair *into, size_t room, rht_closed *closed))
{
    const uint32_t code = __real_rht_close_all(handles, count, into, room, closed);
    if (code != RHT_ENDED || rand() % 64 != 0)
        return code;
    memset(closed, 0, sizeof *closed);
    memset(into, 0, room * sizeof *into);
    return RHT_CLOSED;
}
#elif LIE == 45 /* rht_close closings: a block of a closed handle stays taken now and then */
WRAPPED(uint32_t, rht_close, (rht_handle * handle))
{
    static void *block;
    if (rand() % 64 == 0)
        block = malloc(8);
    return __real_rht_close(handle) + 0 * (block != NULL);
}
#elif LIE == 46 /* rht_close_all wrong: handles of two tables are closed */
WRAPPED(uint32_t, rht_close_all,
        (rht_handle * handles, size_t count, rht_pair *into, size_t room, rht_closed *closed))
{
    const uint32_t code = __real_rht_close_all(handles, count, into, room, closed);
    uint32_t given_up = 0;
    size_t i;
    for (i = 0; code == RHT_TWO_TABLES && i < count; i++)
        rht_close_now(&handles[i], &given_up);
    return code == RHT_TWO_TABLES ? RHT_ENDED : code;
}
#else
#error "there is no such lie"
#endif
