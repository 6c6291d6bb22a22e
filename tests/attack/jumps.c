/* A library put before clock_gettime (LD_PRELOAD) by which the wall clock jumps: it shows as many seconds more as the file that
 * JUMPS_BY names holds, a signed number of 64 bits that may change at any time. The monotonic clock is left as it is.
 *
 * cc -O1 -shared -fPIC -o jumps.so jumps.c */
#define _GNU_SOURCE
#include <dlfcn.h>
#include <fcntl.h>
#include <stdint.h>
#include <stdlib.h>
#include <sys/mman.h>
#include <time.h>
#include <unistd.h>

static int (*read_clock)(clockid_t, struct timespec *);
static volatile const int64_t *more;

__attribute__((constructor)) static void begin(void) {
    const char *path = getenv("JUMPS_BY");
    int file = path ? open(path, O_RDONLY | O_CLOEXEC) : -1;
    void *at = file < 0 ? MAP_FAILED : mmap(NULL, sizeof *more, PROT_READ, MAP_SHARED, file, 0);
    read_clock = (int (*)(clockid_t, struct timespec *))dlsym(RTLD_NEXT, "clock_gettime");
    if (at == MAP_FAILED || read_clock == NULL) _exit(99);
    close(file);
    more = at;
}

int clock_gettime(clockid_t clock, struct timespec *now) {
    int status = read_clock(clock, now);
    if (status == 0 && clock == CLOCK_REALTIME) now->tv_sec += *more;
    return status;
}
