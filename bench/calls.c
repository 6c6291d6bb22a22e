/* The system calls of a station's rounds over one agent and nothing else, for bench/exporters: in each round it sends all polls, receives until a wait was
   quiet, and saves by the six calls of a save, from octets that stand ready. The file of polls has each after its length in two octets.
   usage: calls HOST PORT WAIT_MS POLLS FILE OCTETS ROUNDS */
#include <arpa/inet.h>
#include <fcntl.h>
#include <stdio.h>
#include <stdlib.h>
#include <sys/socket.h>
#include <sys/time.h>
#include <unistd.h>

enum { SLOT = 1048576, MOST = 64, ROOM = 65535 };

static unsigned char octets[SLOT], polls[MOST][ROOM], room[ROOM];
static size_t sizes[MOST];

static int read_polls(const char *path)
{
    FILE *from = fopen(path, "rb");
    unsigned char head[2];
    int count = 0;
    while (from && count < MOST && fread(head, 1, 2, from) == 2) {
        sizes[count] = head[0] * 256u + head[1];
        if (fread(polls[count], 1, sizes[count], from) != sizes[count])
            return 0;
        count++;
    }
    return count;
}

static int written(int file, const void *from, size_t size, off_t at)
{
    return pwrite(file, from, size, at) == (ssize_t)size && fdatasync(file) == 0;
}

static int saved(int file, off_t slot, size_t size)
{
    return written(file, "\0", 1, slot) && written(file, octets, 16 + size, slot + 1) && written(file, "\xA5", 1, slot);
}

int main(int count, char **words)
{
    if (count != 8)
        return 2;
    struct sockaddr_in agent = {.sin_family = AF_INET, .sin_port = htons(atoi(words[2]))}, from;
    struct timeval wait = {.tv_usec = atol(words[3]) * 1000};
    int many = read_polls(words[4]), udp = socket(AF_INET, SOCK_DGRAM, 0), file = open(words[5], O_RDWR | O_CREAT, 0666);
    size_t size = strtoul(words[6], NULL, 10);
    long rounds = atol(words[7]), heard = 0;
    if (many == 0 || udp < 0 || file < 0 || size > SLOT - 17 || inet_aton(words[1], &agent.sin_addr) == 0)
        return 1;
    if (setsockopt(udp, SOL_SOCKET, SO_RCVTIMEO, &wait, sizeof wait) != 0 || ftruncate(file, 2 * SLOT) != 0 || fsync(file) != 0)
        return 1;
    for (long round = 0; round < rounds; round++) {
        for (int i = 0; i < many; i++)
            if (sendto(udp, polls[i], sizes[i], 0, (struct sockaddr *)&agent, sizeof agent) < 0)
                return 1;
        for (socklen_t length = sizeof from; recvfrom(udp, room, ROOM, 0, (struct sockaddr *)&from, &length) > 0; length = sizeof from)
            heard++;
        if (!saved(file, round % 2 * SLOT, size))
            return 1;
    }
    printf("%ld\n", heard);
    return heard == rounds * many ? 0 : 1;
}
