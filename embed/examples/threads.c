/* Four threads share a table and want the same 3,000 ports. Status 0 says that each is bound just once. */
#include <pthread.h>
#include <stdio.h>
#include <rht.h>
static rht_handle handles[4]; /* all bytes are 0, so they are blank */
static unsigned bound[4];     /* the ports that each thread has bound, and then found as its own */
static void *run(void *handle)
{
    const uint32_t me = (uint32_t)((rht_handle *)handle - handles);
    for (rht_port port = {0, 0}; port.number < 3000; port.number++) {
        rht_reply reply = RHT_REPLY_INIT;
        uint32_t owner = 4, code = rht_bind(handle, port, me, &reply);
        while (reply.kick || reply.again) rht_work(handle, &reply); /* the table is due to grow */
        bound[me] += code == RHT_BOUND && rht_find(handle, port, &owner) == RHT_FOUND && owner == me;
    }
    rht_close(handle);
    return NULL;
}
int main(void)
{
    pthread_t threads[4];
    rht_config config;
    if (rht_config_init(&config) != RHT_READY) return 1;
    config.callers = 4;
    if (rht_open(&config, handles, 4) != RHT_OPENED) return 1;
    for (int i = 0; i < 4; i++) if (pthread_create(&threads[i], NULL, run, &handles[i]) != 0) return 1;
    for (int i = 0; i < 4; i++) pthread_join(threads[i], NULL);
    printf("the threads bound %u, %u, %u and %u of 3,000 ports\n", bound[0], bound[1], bound[2], bound[3]);
    return bound[0] + bound[1] + bound[2] + bound[3] == 3000 ? 0 : 1;
}
