/* Null pointers where there are no values: they are allowed, and the library gets none. It is linked with --wrap for each
 * function that takes such a pointer. */
#include "check.h"

/* how many null pointers came to the library */
static unsigned nulls;

uint32_t __real_rht_open(rht_config *config, rht_handle *handles, size_t count);
uint32_t __real_rht_close_all(rht_handle *handles, size_t count, rht_pair *into, size_t room, rht_closed *closed);
size_t __real_rht_owners(rht_handle *handle, size_t skip, uint32_t *into, size_t room);
size_t __real_rht_pairs(rht_handle *handle, size_t skip, rht_pair *into, size_t room);
uint32_t __wrap_rht_open(rht_config *config, rht_handle *handles, size_t count);
uint32_t __wrap_rht_close_all(rht_handle *handles, size_t count, rht_pair *into, size_t room, rht_closed *closed);
size_t __wrap_rht_owners(rht_handle *handle, size_t skip, uint32_t *into, size_t room);
size_t __wrap_rht_pairs(rht_handle *handle, size_t skip, rht_pair *into, size_t room);

uint32_t __wrap_rht_open(rht_config *config, rht_handle *handles, size_t count)
{
    nulls += handles == NULL;
    return __real_rht_open(config, handles, count);
}

uint32_t __wrap_rht_close_all(rht_handle *handles, size_t count, rht_pair *into, size_t room, rht_closed *closed)
{
    nulls += (handles == NULL) + (into == NULL);
    return __real_rht_close_all(handles, count, into, room, closed);
}

size_t __wrap_rht_owners(rht_handle *handle, size_t skip, uint32_t *into, size_t room)
{
    nulls += into == NULL;
    return __real_rht_owners(handle, skip, into, room);
}

size_t __wrap_rht_pairs(rht_handle *handle, size_t skip, rht_pair *into, size_t room)
{
    nulls += into == NULL;
    return __real_rht_pairs(handle, skip, into, room);
}

static void takes_null(struct test *t)
{
    rht_closed closed = {.len = 71};
    ANSWERS(t, rht_open(&t->config, NULL, 0), RHT_BAD_COUNT);
    ANSWERS(t, rht_close_all(NULL, 0, NULL, 0, &closed), RHT_NOT_OPEN);
    CHECK(t, closed.len == 71);
    open_table(t, 2);
    bind_ports(t, 1, 2);
    ANSWERS(t, rht_all(t->handles, port(1), &t->reply), RHT_LISTED);
    CHECK(t, rht_owners(t->handles, 0, NULL, 0) == 0 && rht_pairs(t->handles, 0, NULL, 0) == 0);
    CHECK(t, rht_owners(t->handles, 0, &t->owner, 1) == 1 && t->owner == 1001);
    ANSWERS(t, rht_close_all(t->handles, 2, NULL, 0, &closed), RHT_ENDED);
    CHECK(t, closed.len == 0 && closed.keys == 2 && nulls == 0);
}

static const struct named tests[] = {{"takes_null", takes_null}};

int main(void) { return run_all("null", tests, sizeof tests / sizeof *tests); }
