/* Preloaded: each read of at least 4,096 octets waits for 2 ms first, so that a file is saved to while it is read. */
#define _GNU_SOURCE
#include <dlfcn.h>
#include <sys/types.h>
#include <time.h>

ssize_t read(int file, void *buffer, size_t size) {
    static ssize_t (*real)(int, void *, size_t);
    if (!real) real = (ssize_t (*)(int, void *, size_t))dlsym(RTLD_NEXT, "read");
    if (size >= 4096) nanosleep(&(struct timespec){0, 2000000}, 0);
    return real(file, buffer, size);
}
