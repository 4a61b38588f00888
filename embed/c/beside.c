/* Two libraries in one program: this one, and a copy in which each name that begins with rht_ begins with two_. Both
 * have a table, and neither knows of the other's. */
#include <stdio.h>

#include "rht.h"
#include "two.h"

int main(void)
{
    rht_config config;
    two_config other_config;
    rht_handle handle = RHT_HANDLE_INIT;
    two_handle other = TWO_HANDLE_INIT;
    rht_reply reply = RHT_REPLY_INIT;
    two_reply other_reply = TWO_REPLY_INIT;
    const rht_port port = {80, 0};
    const two_port other_port = {80, 0};
    uint32_t owner = 0, other_owner = 0;
    if (rht_config_init(&config) != RHT_READY || two_config_init(&other_config) != TWO_READY)
        return 1;
    if (rht_open(&config, &handle, 1) != RHT_OPENED || two_open(&other_config, &other, 1) != TWO_OPENED)
        return 1;
    if (rht_bind(&handle, port, 7, &reply) != RHT_BOUND)
        return 1;
    if (two_find(&other, other_port, &other_owner) != TWO_MISSING
        || two_bind(&other, other_port, 9, &other_reply) != TWO_BOUND)
        return 1;
    if (rht_find(&handle, port, &owner) != RHT_FOUND || two_find(&other, other_port, &other_owner) != TWO_FOUND)
        return 1;
    printf("beside: %u and %u\n", (unsigned)owner, (unsigned)other_owner);
    if (rht_close(&handle) != RHT_CLOSED || two_close(&other) != TWO_CLOSED)
        return 1;
    return owner == 7 && other_owner == 9 ? 0 : 1;
}
