/* The six calls of a save and nothing else, for bench/save: as many saves of as many octets in a file of two slots.
   usage: save FILE OCTETS TIMES */
#include <fcntl.h>
#include <stdint.h>
#include <stdlib.h>
#include <string.h>
#include <unistd.h>

enum { SLOT = 1048576 };

static unsigned char octets[SLOT];

static void put(unsigned char *at, uint64_t number)
{
    for (int i = 7; i >= 0; i--, number >>= 8)
        at[i] = number & 255;
}

static int written(int file, const void *from, size_t size, off_t at)
{
    return pwrite(file, from, size, at) == (ssize_t)size && fdatasync(file) == 0;
}

int main(int count, char **words)
{
    if (count != 4)
        return 2;
    int file = open(words[1], O_RDWR | O_CREAT, 0666);
    size_t size = strtoul(words[2], NULL, 10);
    long times = atol(words[3]);
    if (file < 0 || size > SLOT - 17 || ftruncate(file, 2 * SLOT) != 0 || fsync(file) != 0)
        return 1;
    put(octets + 8, size);
    for (long i = 0; i < times; i++) {
        off_t slot = i % 2 * SLOT;
        put(octets, i + 1);
        if (!written(file, "\0", 1, slot) || !written(file, octets, 16 + size, slot + 1) || !written(file, "\xA5", 1, slot))
            return 1;
    }
    return 0;
}
