// For tools/refused: the calls by which a program takes memory, of which one is refused. It is loaded before the
// C library, by LD_PRELOAD, and stands for its malloc, calloc and realloc.
//
//   REFUSED_CALL   which of these calls is refused, counted from 1 when the program begins
//   REFUSED_MARK   the file that is made when it is
//
// It asks for glibc, whose own names of these calls it uses. Those of its own memory go through it too, as where
// a thread is started.
#include <errno.h>
#include <fcntl.h>
#include <stdatomic.h>
#include <stddef.h>
#include <stdlib.h>
#include <unistd.h>

void *__libc_malloc(size_t size);
void *__libc_calloc(size_t count, size_t size);
void *__libc_realloc(void *old, size_t size);

static atomic_ulong calls;
static unsigned long refused;
static const char *mark;

// The calls that the C library makes before aren't counted.
__attribute__((constructor)) static void begin(void) {
    const char *number = getenv("REFUSED_CALL");
    mark = getenv("REFUSED_MARK");
    atomic_store(&calls, 0);
    refused = number && mark ? strtoul(number, NULL, 10) : 0;
}

static int is_refused(void) {
    if (refused == 0 || atomic_fetch_add(&calls, 1) + 1 != refused) return 0;
    int file = open(mark, O_CREAT | O_WRONLY | O_CLOEXEC, 0600);
    if (file >= 0) close(file);
    errno = ENOMEM;
    return 1;
}

void *malloc(size_t size) { return is_refused() ? NULL : __libc_malloc(size); }

void *calloc(size_t count, size_t size) { return is_refused() ? NULL : __libc_calloc(count, size); }

void *realloc(void *old, size_t size) { return is_refused() ? NULL : __libc_realloc(old, size); }
