/* A library put before the C library's (LD_PRELOAD) that tells of the calls over the file whose path ends with DISK_FILE: each write (w)
 * and each sync (s) is an octet to the descriptor DISK_TO. The sync of the number SYNC_FAILS, counted from 1, fails with EIO and syncs
 * nothing, which is told as x.
 *
 * cc -O1 -shared -fPIC -o disk_calls.so disk_calls.c */
#define _GNU_SOURCE
#include <dlfcn.h>
#include <errno.h>
#include <limits.h>
#include <stdio.h>
#include <stdlib.h>
#include <string.h>
#include <sys/types.h>
#include <unistd.h>

static int is_the_file(int descriptor) {
    char link[64], path[PATH_MAX];
    const char *wanted = getenv("DISK_FILE");
    snprintf(link, sizeof link, "/proc/self/fd/%d", descriptor);
    ssize_t length = readlink(link, path, sizeof path - 1);
    if (wanted == NULL || length < (ssize_t)strlen(wanted)) return 0;
    path[length] = 0;
    return strcmp(path + length - strlen(wanted), wanted) == 0;
}

static void tell(char what) {
    const char *to = getenv("DISK_TO");
    if (to == NULL || write(atoi(to), &what, 1) != 1) _exit(99);
}

static int synced(int descriptor, const char *name) {
    static long syncs;
    int (*next)(int) = (int (*)(int))dlsym(RTLD_NEXT, name);
    if (!is_the_file(descriptor)) return next(descriptor);
    const char *fails = getenv("SYNC_FAILS");
    if (++syncs == (fails ? atol(fails) : 0)) {
        tell('x');
        errno = EIO;
        return -1;
    }
    tell('s');
    return next(descriptor);
}

int fdatasync(int descriptor) { return synced(descriptor, "fdatasync"); }

int fsync(int descriptor) { return synced(descriptor, "fsync"); }

ssize_t pwrite64(int descriptor, const void *octets, size_t count, off64_t at) {
    ssize_t (*next)(int, const void *, size_t, off64_t) = (ssize_t (*)(int, const void *, size_t, off64_t))dlsym(RTLD_NEXT, "pwrite64");
    if (is_the_file(descriptor)) tell('w');
    return next(descriptor, octets, count, at);
}

ssize_t pwrite(int descriptor, const void *octets, size_t count, off_t at) { return pwrite64(descriptor, octets, count, at); }
