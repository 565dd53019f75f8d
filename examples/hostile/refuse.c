/* Refuses one allocation of a process, as a library that is loaded before it (LD_PRELOAD).
 *
 *     REFUSE=N          the Nth allocation from the start of the process on, counted from 1; 0 refuses none and counts
 *     REFUSE=accepted   the first allocation behind the first connection that is accepted, the second behind the third, the
 *                       third behind the fifth, and so on; none behind the connections between
 *
 * To standard error it writes a line `refused N` where it refuses the Nth allocation, and `accepted` at each connection. */
#define _GNU_SOURCE
#include <dlfcn.h>
#include <errno.h>
#include <stdatomic.h>
#include <stdio.h>
#include <stdlib.h>
#include <string.h>
#include <sys/socket.h>
#include <unistd.h>

extern void *__libc_malloc(size_t);
extern void *__libc_calloc(size_t, size_t);
extern void *__libc_realloc(void *, size_t);
extern void *__libc_memalign(size_t, size_t);

static atomic_long count, at, connections;
static int by_connection;
static int (*next_accept)(int, struct sockaddr *, socklen_t *);
static int (*next_accept4)(int, struct sockaddr *, socklen_t *, int);

static void tell(const char *word, long number)
{
    char line[64];
    int length = snprintf(line, sizeof line, "%s %ld\n", word, number);
    if (write(2, line, length) < 0)
        return;
}

__attribute__((constructor)) static void begin(void)
{
    const char *asked = getenv("REFUSE");
    next_accept = dlsym(RTLD_NEXT, "accept");
    next_accept4 = dlsym(RTLD_NEXT, "accept4");
    by_connection = asked && strcmp(asked, "accepted") == 0;
    atomic_store(&count, 0);
    atomic_store(&at, asked && !by_connection ? atol(asked) : 0);
}

static int refuses(void)
{
    long number = atomic_fetch_add(&count, 1) + 1;
    if (number != atomic_load(&at))
        return 0;
    tell("refused", number);
    errno = ENOMEM;
    return 1;
}

void *malloc(size_t size) { return refuses() ? NULL : __libc_malloc(size); }
void *calloc(size_t n, size_t size) { return refuses() ? NULL : __libc_calloc(n, size); }
void *realloc(void *old, size_t size) { return refuses() ? NULL : __libc_realloc(old, size); }
void *memalign(size_t to, size_t size) { return refuses() ? NULL : __libc_memalign(to, size); }
void *aligned_alloc(size_t to, size_t size) { return refuses() ? NULL : __libc_memalign(to, size); }

int posix_memalign(void **made, size_t to, size_t size)
{
    *made = refuses() ? NULL : __libc_memalign(to, size);
    return *made ? 0 : ENOMEM;
}

static int accepted(int link)
{
    if (by_connection && link >= 0) {
        long number = atomic_fetch_add(&connections, 1);
        atomic_store(&at, 0);
        atomic_store(&count, 0);
        atomic_store(&at, number % 2 ? 0 : number / 2 + 1);
        tell("accepted", number + 1);
    }
    return link;
}

int accept(int port, struct sockaddr *from, socklen_t *length) { return accepted(next_accept(port, from, length)); }

int accept4(int port, struct sockaddr *from, socklen_t *length, int flags)
{
    return accepted(next_accept4(port, from, length, flags));
}
