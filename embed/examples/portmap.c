/* A register of ports behind a Unix socket. What a connection has bound all others find until it releases the
 * port or ends. It gives lines, and gets a line for each, but for `list`:
 *
 *   bind NET NUMBER OWNER       bound, exists OWNER, or full
 *   find NET NUMBER             found OWNER, or missing
 *   release NET NUMBER OWNER    released, or absent where this connection hasn't bound it so
 *   list                        a line `port NET NUMBER OWNER` for each bound port, and `end`
 *   count                       count N
 *
 * Any other line is answered `error`. One of 127 bytes or more, or with a byte 0, ends the connection. Four
 * threads serve a connection each, and further ones wait. SIGTERM and SIGINT end the server, with status 0.
 *
 *   cc -std=c99 -pthread portmap.c $(pkg-config --cflags --libs rht) -o portmap && ./portmap SOCKET */
#define _GNU_SOURCE
#include <poll.h>
#include <pthread.h>
#include <signal.h>
#include <stdio.h>
#include <stdlib.h>
#include <string.h>
#include <sys/socket.h>
#include <sys/un.h>
#include <unistd.h>
#include <rht.h>

enum { THREADS = 4, LINE = 128, NODES = 4096, TRIES = 100 };

/* A thread with its handle, the connection that it serves, and what that has bound. */
struct server {
    rht_handle *handle;
    int client;
    size_t bound;
    rht_pair pairs[NODES];
};

/* Where connections come, and a pipe. All threads end when its writing end is closed. */
static int listener, stop_pipe[2];

/* Waits until something is to be read or can be written. False once the server is to end. */
static bool is_ready(int fd, short events)
{
    struct pollfd both[] = {{.fd = stop_pipe[0], .events = POLLIN}, {.fd = fd, .events = events}};
    return poll(both, 2, -1) > 0 && both[0].revents == 0;
}

/* Resizes the table as far as that is due. Where another thread is at it, that one is let go on. */
static void work(rht_handle *handle)
{
    rht_reply reply = RHT_REPLY_INIT;
    while (rht_work(handle, &reply) == RHT_MOVED && reply.again)
        ;
    sched_yield();
}

/* Binds a port. Where a resize has to come first, it works and binds again, a hundred times at most. */
static void bind_port(struct server *s, rht_pair pair)
{
    rht_reply reply = RHT_REPLY_INIT;
    uint32_t code = RHT_BUSY, tries = 0;
    for (; (code == RHT_BUSY || code == RHT_NO_TABLE) && tries < TRIES; tries++) {
        code = rht_bind(s->handle, pair.port, pair.owner, &reply);
        if (code == RHT_BUSY || code == RHT_NO_TABLE || reply.kick)
            work(s->handle);
    }
    if (code == RHT_BOUND)
        s->pairs[s->bound++] = pair;
    if (code == RHT_EXISTS)
        dprintf(s->client, "exists %u\n", reply.owner);
    else
        dprintf(s->client, code == RHT_BOUND ? "bound\n" : "full\n");
}

/* Releases what this connection has bound so, and tidies. For that it may wait for calls of other threads. */
static bool release_port(struct server *s, rht_pair pair)
{
    rht_reply reply = RHT_REPLY_INIT;
    size_t at = s->bound;
    while (at > 0 && (s->pairs[at - 1].port.number != pair.port.number
                      || s->pairs[at - 1].port.net != pair.port.net || s->pairs[at - 1].owner != pair.owner))
        at--;
    if (at == 0)
        return false;
    s->pairs[at - 1] = s->pairs[--s->bound];
    if (rht_release(s->handle, pair.port, pair.owner, &reply) == RHT_RELEASED && reply.kick)
        work(s->handle);
    while (rht_tidy(s->handle, &reply) == RHT_PENDING || reply.returned > 0)
        sched_yield();
    return true;
}

/* Walks the whole table. Where a resize isn't over, that is ended first, and the walk begins anew. */
static void list(struct server *s)
{
    const rht_cursor start = {0, 0, false};
    rht_reply reply = RHT_REPLY_INIT;
    rht_pair pair = {{0, 0}, 0};
    uint32_t code, tries = 0, at = 0;
    while ((code = rht_walk(s->handle, start, NODES, &reply)) == RHT_AGAIN && tries++ < TRIES)
        work(s->handle);
    for (; at <= reply.len && is_ready(s->client, POLLOUT); at++)
        if (rht_pairs(s->handle, at, &pair, 1) == 1)
            dprintf(s->client, "port %u %u %u\n", pair.port.net, pair.port.number, pair.owner);
        else
            dprintf(s->client, code == RHT_WALKED ? "end\n" : "error\n");
}

/* Serves a line: a word, and numbers behind it, which are a net, a port's number and an owner. */
static void serve_line(struct server *s, const char *line)
{
    const unsigned long most[] = {0, UINT16_MAX, UINT32_MAX, UINT32_MAX};
    unsigned long number[4] = {0, 0, 0, 0};
    char word[5][LINE]; /* each has room for the whole line */
    int i, count = sscanf(line, "%s%s%s%s%s", word[0], word[1], word[2], word[3], word[4]);
    rht_reply reply = RHT_REPLY_INIT;
    rht_pair pair;
    for (i = 1; i < count && i < 4; i++) {
        number[i] = strtoul(word[i], NULL, 10);
        if (strspn(word[i], "0123456789") != strlen(word[i]) || number[i] > most[i])
            count = 0;
    }
    pair = (rht_pair){{(uint32_t)number[2], (uint16_t)number[1]}, (uint32_t)number[3]};
    if (count == 4 && strcmp(word[0], "bind") == 0)
        bind_port(s, pair);
    else if (count == 4 && strcmp(word[0], "release") == 0)
        dprintf(s->client, release_port(s, pair) ? "released\n" : "absent\n");
    else if (count == 1 && strcmp(word[0], "list") == 0)
        list(s);
    else if (count == 1 && strcmp(word[0], "count") == 0 && rht_count(s->handle, &reply) == RHT_COUNTED)
        dprintf(s->client, "count %lu\n", (unsigned long)reply.count);
    else if (count != 3 || strcmp(word[0], "find") != 0)
        dprintf(s->client, "error\n");
    else if (rht_find(s->handle, pair.port, &pair.owner) == RHT_FOUND)
        dprintf(s->client, "found %u\n", pair.owner);
    else
        dprintf(s->client, "missing\n");
}

/* Reads for the stream of a connection, which ends also where the server is to end. */
static ssize_t receive(void *client, char *into, size_t room)
{
    return is_ready(*(int *)client, POLLIN) ? recv(*(int *)client, into, room, 0) : 0;
}

/* A thread: serves one connection after another, and releases what each has left bound. */
static void *run(void *handle)
{
    struct server s = {.handle = handle};
    char line[LINE];
    FILE *in;
    while (is_ready(listener, POLLIN)) {
        if ((s.client = accept(listener, NULL, NULL)) < 0)
            continue; /* another thread was faster */
        in = fopencookie(&s.client, "r", (cookie_io_functions_t){.read = receive});
        while (in != NULL && fgets(line, LINE, in) && strchr(line, '\n') && is_ready(s.client, POLLOUT))
            serve_line(&s, line);
        while (s.bound > 0)
            release_port(&s, s.pairs[s.bound - 1]);
        if (in != NULL)
            fclose(in);
        close(s.client);
    }
    return NULL;
}

int main(int words, char **word)
{
    static rht_handle handles[THREADS];
    rht_config config;
    struct sockaddr_un at = {.sun_family = AF_UNIX};
    pthread_t threads[THREADS];
    int i, started = 0, sent;
    sigset_t ends;
    if (rht_config_init(&config) != RHT_READY) { /* whoever chooses ports mustn't know the seed */
        fputs("portmap: the system gives no random bytes\n", stderr);
        return 1;
    }
    config.nodes = NODES;
    config.callers = THREADS;
    config.shrink = true;
    sigemptyset(&ends);
    sigaddset(&ends, SIGTERM);
    sigaddset(&ends, SIGINT);
    pthread_sigmask(SIG_BLOCK, &ends, NULL); /* for each thread that is started */
    signal(SIGPIPE, SIG_IGN);
    listener = socket(AF_UNIX, SOCK_STREAM | SOCK_NONBLOCK, 0);
    if (words != 2 || snprintf(at.sun_path, sizeof at.sun_path, "%s", word[1]) >= (int)sizeof at.sun_path
        || pipe(stop_pipe) != 0 || rht_open(&config, handles, THREADS) != RHT_OPENED
        || bind(listener, (struct sockaddr *)&at, sizeof at) != 0 || listen(listener, 64) != 0) {
        fputs("portmap: there is no table, or no socket at a free path: portmap SOCKET\n", stderr);
        return 1;
    }
    while (started < THREADS && pthread_create(&threads[started], NULL, run, &handles[started]) == 0)
        started++;
    if (started == THREADS)
        sigwait(&ends, &sent);
    close(stop_pipe[1]);
    for (i = 0; i < started; i++)
        pthread_join(threads[i], NULL);
    for (i = 0; i < THREADS; i++)
        rht_close(&handles[i]);
    unlink(word[1]);
    return started == THREADS ? 0 : 1;
}
