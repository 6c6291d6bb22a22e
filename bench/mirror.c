/* An agent that only receives and sends: answers each request by the response that is recorded for its kind, with the request-id of the
   request, and reads nothing else of it. For bench/agent, whose request-ids take four octets. The file has each request and its response,
   each after its length in two octets; requests of one kind have one length and one PDU type.
   usage: mirror FILE      prints its address */
#include <arpa/inet.h>
#include <stdio.h>
#include <string.h>
#include <sys/socket.h>

enum { MOST = 16, ROOM = 65535, ID = 4 };

struct kind {
    unsigned char type;
    size_t asked, size, id;
    unsigned char reply[ROOM];
};

static struct kind kinds[MOST];

/* The octets after the header of an element: its tag and its length. */
static const unsigned char *inside(const unsigned char *element)
{
    return element + 2 + (element[1] & 0x80 ? element[1] & 0x7f : 0);
}

/* The PDU of a message, behind its version and its community. */
static const unsigned char *pdu_of(const unsigned char *message)
{
    const unsigned char *community = inside(message) + 3;
    return community + 2 + community[1];
}

/* The four octets of the request-id. */
static size_t id_at(const unsigned char *message)
{
    return (size_t)(inside(pdu_of(message)) + 2 - message);
}

static size_t record(FILE *from, unsigned char *octets)
{
    unsigned char head[2];
    size_t size = fread(head, 1, 2, from) == 2 ? head[0] * 256u + head[1] : 0;
    return fread(octets, 1, size, from) == size ? size : 0;
}

static int read_kinds(const char *path)
{
    static unsigned char request[ROOM];
    FILE *from = fopen(path, "rb");
    int count = 0;
    for (; from && count < MOST && (kinds[count].asked = record(from, request)); count++) {
        kinds[count].type = *pdu_of(request);
        kinds[count].size = record(from, kinds[count].reply);
        kinds[count].id = id_at(kinds[count].reply);
    }
    return count;
}

static struct kind *kind_of(int count, const unsigned char *request, size_t size)
{
    for (int i = 0; i < count; i++)
        if (kinds[i].asked == size && kinds[i].type == *pdu_of(request))
            return &kinds[i];
    return NULL;
}

int main(int argc, char **argv)
{
    static unsigned char request[ROOM];
    struct sockaddr_in at = {.sin_family = AF_INET, .sin_addr.s_addr = htonl(INADDR_LOOPBACK)}, from;
    socklen_t size = sizeof at;
    int count = argc == 2 ? read_kinds(argv[1]) : 0, opened = socket(AF_INET, SOCK_DGRAM, 0);
    if (!count || bind(opened, (struct sockaddr *)&at, size) || getsockname(opened, (struct sockaddr *)&at, &size))
        return 1;
    printf("127.0.0.1:%d\n", ntohs(at.sin_port));
    fflush(stdout);
    for (;;) {
        size = sizeof from;
        ssize_t got = recvfrom(opened, request, sizeof request, 0, (struct sockaddr *)&from, &size);
        struct kind *kind = got > 0 ? kind_of(count, request, (size_t)got) : NULL;
        if (!kind)
            continue;
        memcpy(kind->reply + kind->id, request + id_at(request), ID);
        sendto(opened, kind->reply, kind->size, 0, (struct sockaddr *)&from, size);
    }
}
