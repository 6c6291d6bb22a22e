/* A library put before malloc (LD_PRELOAD) that refuses allocations: the one at REFUSE_AT, counted from 1 from the start of
 * main on, or with REFUSE_ON set that one and all after it. The first refusal writes an octet to the descriptor REFUSED_TO.
 * With REFUSE_CONNECTED set only those count, and are refused, that are made while a connection is there: from where accept
 * asks for it to where it is closed. The program has one thread.
 *
 * cc -O1 -shared -fPIC -o refuse.so refuse.c */
#define _GNU_SOURCE
#include <errno.h>
#include <dlfcn.h>
#include <stddef.h>
#include <stdlib.h>
#include <sys/socket.h>
#include <unistd.h>

extern void *__libc_malloc(size_t);
extern void *__libc_calloc(size_t, size_t);
extern void *__libc_realloc(void *, size_t);
extern void *__libc_memalign(size_t, size_t);

#define DESCRIPTORS 1024

static long at, on, to, seen, connected, connections;
static char is_connection[DESCRIPTORS];

static long number(const char *name) {
    const char *text = getenv(name);
    return text ? atol(text) : 0;
}

__attribute__((constructor)) static void begin(void) {
    on = getenv("REFUSE_ON") != NULL;
    connected = getenv("REFUSE_CONNECTED") != NULL;
    to = number("REFUSED_TO");
    at = number("REFUSE_AT");
}

static int refused(void) {
    if (at == 0 || (connected && connections == 0)) return 0;
    seen++;
    if (seen == at && to > 0 && write((int)to, "x", 1) != 1) _exit(99);
    if (seen == at || (on && seen > at)) {
        errno = ENOMEM;
        return 1;
    }
    return 0;
}

void *malloc(size_t size) { return refused() ? NULL : __libc_malloc(size); }
void *calloc(size_t count, size_t size) { return refused() ? NULL : __libc_calloc(count, size); }
void *realloc(void *old, size_t size) { return refused() ? NULL : __libc_realloc(old, size); }
void *memalign(size_t align, size_t size) { return refused() ? NULL : __libc_memalign(align, size); }
void *aligned_alloc(size_t align, size_t size) { return refused() ? NULL : __libc_memalign(align, size); }

int posix_memalign(void **place, size_t align, size_t size) {
    void *got = refused() ? NULL : __libc_memalign(align, size);
    if (got == NULL) return ENOMEM;
    *place = got;
    return 0;
}

static int noted(int connection) {
    if (connection >= 0 && connection < DESCRIPTORS && !is_connection[connection]) {
        is_connection[connection] = 1;
        connections++;
    }
    return connection;
}

int accept(int door, struct sockaddr *from, socklen_t *size) {
    int (*next)(int, struct sockaddr *, socklen_t *) = (int (*)(int, struct sockaddr *, socklen_t *))dlsym(RTLD_NEXT, "accept");
    return noted(next(door, from, size));
}

int accept4(int door, struct sockaddr *from, socklen_t *size, int flags) {
    int (*next)(int, struct sockaddr *, socklen_t *, int) = (int (*)(int, struct sockaddr *, socklen_t *, int))dlsym(RTLD_NEXT, "accept4");
    return noted(next(door, from, size, flags));
}

int close(int connection) {
    int (*next)(int) = (int (*)(int))dlsym(RTLD_NEXT, "close");
    if (connection >= 0 && connection < DESCRIPTORS && is_connection[connection]) {
        is_connection[connection] = 0;
        connections--;
    }
    return next(connection);
}
