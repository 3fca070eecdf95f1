/* Refuses one call of a program: see refused.py, which loads this before the program's own libraries.

   REFUSED names the call by its kind and its number among those, from 1, as "memory 3": a kind is "memory" (malloc and realloc),
   "config" (a read of a file), "read" (one at standard input), "write" (one at standard output), "accept" (of a connection), "receive"
   (a read at one that was accepted) or "send" (a write there). Without REFUSED the calls go on, and how many there were of each kind is
   told at the end. REFUSED_ERROR is the number of the error of the last three kinds, of which it is told when one was refused.
   READ_PIECE and WRITE_PIECE are how many bytes a read at standard input and a write at standard output pass on at most. Of that many
   writes as WRITE_EVERY says the last one alone passes on; the others are interrupted. */
#define _GNU_SOURCE
#include <dlfcn.h>
#include <errno.h>
#include <stdio.h>
#include <stdlib.h>
#include <string.h>
#include <sys/socket.h>
#include <unistd.h>

enum kind { MEMORY, CONFIG, READ, WRITE, ACCEPT, RECEIVE, SEND, KINDS };

/* More than the descriptors that a program has here. */
enum { OPEN_MAX = 1024 };

static const char *const names[KINDS] = {"memory", "config", "read", "write", "accept", "receive", "send"};
static unsigned long calls[KINDS];
/* Which descriptors are connections that were accepted. */
static char connections[OPEN_MAX];

/* Counts a call, and answers whether it is the one that is refused. */
static int is_refused(enum kind kind)
{
    const char *refused = getenv("REFUSED");
    size_t length = strlen(names[kind]);

    calls[kind]++;
    return refused != NULL && strncmp(refused, names[kind], length) == 0
        && strtoul(refused + length, NULL, 10) == calls[kind];
}

/* Whether a descriptor is a connection that was accepted. */
static int is_connection(int number)
{
    return number >= 0 && number < OPEN_MAX && connections[number];
}

/* Counts a call at a connection, or for one, and answers whether it is the one that is refused, whose error is set then. */
static int fails(enum kind kind)
{
    const char *error = getenv("REFUSED_ERROR");

    if (error == NULL || !is_refused(kind))
        return 0;
    dprintf(STDERR_FILENO, "refused %s %lu\n", names[kind], calls[kind]);
    errno = atoi(error);
    return 1;
}

/* How many bytes are passed on. */
static size_t piece(const char *name, size_t size)
{
    const char *most = getenv(name);
    size_t limit = most == NULL ? size : strtoul(most, NULL, 10);

    return size < limit ? size : limit;
}

void *malloc(size_t size)
{
    static void *(*next)(size_t);

    if (next == NULL)
        *(void **)&next = dlsym(RTLD_NEXT, "malloc");
    return is_refused(MEMORY) ? NULL : next(size);
}

void *realloc(void *old, size_t size)
{
    static void *(*next)(void *, size_t);

    if (next == NULL)
        *(void **)&next = dlsym(RTLD_NEXT, "realloc");
    return is_refused(MEMORY) ? NULL : next(old, size);
}

ssize_t read(int from, void *bytes, size_t size)
{
    static ssize_t (*next)(int, void *, size_t);

    if (next == NULL)
        *(void **)&next = dlsym(RTLD_NEXT, "read");
    if (is_connection(from))
        return fails(RECEIVE) ? -1 : next(from, bytes, size);
    if (is_refused(from == STDIN_FILENO ? READ : CONFIG)) {
        errno = EIO;
        return -1;
    }
    return next(from, bytes, from == STDIN_FILENO ? piece("READ_PIECE", size) : size);
}

ssize_t write(int to, const void *bytes, size_t size)
{
    static ssize_t (*next)(int, const void *, size_t);
    const char *every = getenv("WRITE_EVERY");

    if (next == NULL)
        *(void **)&next = dlsym(RTLD_NEXT, "write");
    if (is_connection(to))
        return fails(SEND) ? -1 : next(to, bytes, size);
    if (to != STDOUT_FILENO)
        return next(to, bytes, size);
    if (is_refused(WRITE)) {
        errno = EIO;
        return -1;
    }
    if (every != NULL && calls[WRITE] % strtoul(every, NULL, 10) != 0) {
        errno = EINTR;
        return -1;
    }
    return next(to, bytes, piece("WRITE_PIECE", size));
}

int accept4(int at, struct sockaddr *from, socklen_t *size, int flags)
{
    static int (*next)(int, struct sockaddr *, socklen_t *, int);
    int number;

    if (next == NULL)
        *(void **)&next = dlsym(RTLD_NEXT, "accept4");
    if (fails(ACCEPT))
        return -1;
    number = next(at, from, size, flags);
    if (number >= 0 && number < OPEN_MAX)
        connections[number] = 1;
    return number;
}

int close(int number)
{
    static int (*next)(int);

    if (next == NULL)
        *(void **)&next = dlsym(RTLD_NEXT, "close");
    if (number >= 0 && number < OPEN_MAX)
        connections[number] = 0;
    return next(number);
}

ssize_t recv(int from, void *bytes, size_t size, int flags)
{
    static ssize_t (*next)(int, void *, size_t, int);

    if (next == NULL)
        *(void **)&next = dlsym(RTLD_NEXT, "recv");
    return is_connection(from) && fails(RECEIVE) ? -1 : next(from, bytes, size, flags);
}

ssize_t send(int to, const void *bytes, size_t size, int flags)
{
    static ssize_t (*next)(int, const void *, size_t, int);

    if (next == NULL)
        *(void **)&next = dlsym(RTLD_NEXT, "send");
    return is_connection(to) && fails(SEND) ? -1 : next(to, bytes, size, flags);
}

/* Tells how many calls there were, where none is refused. */
__attribute__((destructor)) static void tell(void)
{
    if (getenv("REFUSED") != NULL)
        return;
    for (enum kind kind = 0; kind < KINDS; kind++)
        fprintf(stderr, "calls %s %lu\n", names[kind], calls[kind]);
}
