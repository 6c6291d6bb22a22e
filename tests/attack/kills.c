/* A library put before the C library's (LD_PRELOAD) that kills the process (SIGKILL) at its call of the number KILL_AT, counted from 1, among those
 * that change a file in the folder KILL_IN: an opening, a write, a sync, a change of size, and a change of name. A write that is killed has first
 * written KILL_PART thousandths of its octets. At the end the descriptor KILL_TO, if there is one, is told how many calls there were.
 *
 * cc -O1 -shared -fPIC -o kills.so kills.c -ldl */
#define _GNU_SOURCE
#include <dlfcn.h>
#include <fcntl.h>
#include <limits.h>
#include <signal.h>
#include <stdarg.h>
#include <stdio.h>
#include <stdlib.h>
#include <string.h>
#include <sys/types.h>
#include <unistd.h>

#define NEXT(name) ((__typeof__(&name))dlsym(RTLD_NEXT, #name))

static long calls;

static int is_inside(int descriptor) {
    char link[64], path[PATH_MAX];
    const char *folder = getenv("KILL_IN");
    snprintf(link, sizeof link, "/proc/self/fd/%d", descriptor);
    ssize_t length = readlink(link, path, sizeof path - 1);
    if (folder == NULL || length < 0) return 0;
    path[length] = 0;
    return strncmp(path, folder, strlen(folder)) == 0;
}

/* Counts a call; whether the process is killed at it. */
static int is_last(void) {
    const char *at = getenv("KILL_AT");
    return ++calls == (at ? atol(at) : 0);
}

static void end(void) {
    kill(getpid(), SIGKILL);
    for (;;) pause();
}

__attribute__((destructor)) static void tell(void) {
    const char *to = getenv("KILL_TO");
    if (to != NULL) dprintf(atoi(to), "%ld\n", calls);
}

static ssize_t written(int descriptor, const void *octets, size_t count, off_t at) {
    if (is_inside(descriptor) && is_last()) {
        const char *part = getenv("KILL_PART");
        size_t some = count * (part ? strtoul(part, NULL, 10) : 0) / 1000;
        if (some > 0 && NEXT(pwrite64)(descriptor, octets, some, at) < 0) _exit(99);
        end();
    }
    return NEXT(pwrite64)(descriptor, octets, count, at);
}

ssize_t pwrite64(int descriptor, const void *octets, size_t count, off64_t at) { return written(descriptor, octets, count, at); }

ssize_t pwrite(int descriptor, const void *octets, size_t count, off_t at) { return written(descriptor, octets, count, at); }

int fdatasync(int descriptor) {
    if (is_inside(descriptor) && is_last()) end();
    return NEXT(fdatasync)(descriptor);
}

int fsync(int descriptor) {
    if (is_inside(descriptor) && is_last()) end();
    return NEXT(fsync)(descriptor);
}

int ftruncate64(int descriptor, off64_t size) {
    if (is_inside(descriptor) && is_last()) end();
    return NEXT(ftruncate64)(descriptor, size);
}

int ftruncate(int descriptor, off_t size) { return ftruncate64(descriptor, size); }

int posix_fallocate64(int descriptor, off64_t at, off64_t size) {
    if (is_inside(descriptor) && is_last()) end();
    return NEXT(posix_fallocate64)(descriptor, at, size);
}

int posix_fallocate(int descriptor, off_t at, off_t size) { return posix_fallocate64(descriptor, at, size); }

int fallocate64(int descriptor, int mode, off64_t at, off64_t size) {
    if (is_inside(descriptor) && is_last()) end();
    return NEXT(fallocate64)(descriptor, mode, at, size);
}

int fallocate(int descriptor, int mode, off_t at, off_t size) { return fallocate64(descriptor, mode, at, size); }

int rename(const char *from, const char *to) {
    if (is_last()) end();
    return NEXT(rename)(from, to);
}

/* An opening that may make a file: the process is killed after it, so that the file is there. */
static int opened(int descriptor, int flags) {
    if (flags & O_CREAT && is_inside(descriptor) && is_last()) end();
    return descriptor;
}

int open64(const char *path, int flags, ...) {
    va_list more;
    va_start(more, flags);
    mode_t mode = flags & O_CREAT ? va_arg(more, mode_t) : 0;
    va_end(more);
    return opened(NEXT(open64)(path, flags, mode), flags);
}

int open(const char *path, int flags, ...) {
    va_list more;
    va_start(more, flags);
    mode_t mode = flags & O_CREAT ? va_arg(more, mode_t) : 0;
    va_end(more);
    return opened(NEXT(open)(path, flags, mode), flags);
}

int openat64(int folder, const char *path, int flags, ...) {
    va_list more;
    va_start(more, flags);
    mode_t mode = flags & O_CREAT ? va_arg(more, mode_t) : 0;
    va_end(more);
    return opened(NEXT(openat64)(folder, path, flags, mode), flags);
}

int openat(int folder, const char *path, int flags, ...) {
    va_list more;
    va_start(more, flags);
    mode_t mode = flags & O_CREAT ? va_arg(more, mode_t) : 0;
    va_end(more);
    return opened(NEXT(openat)(folder, path, flags, mode), flags);
}
