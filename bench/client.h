/* A client's socket, a clock, and the frames of a file, for the C programs of the benches.
 *
 * A file of frames has one frame after another. Each frame contains its own length. */
#include <arpa/inet.h>
#include <netinet/in.h>
#include <stdint.h>
#include <stdio.h>
#include <stdlib.h>
#include <string.h>
#include <sys/socket.h>
#include <time.h>
#include <unistd.h>

enum { PORT = 9929, HEAD_BYTES = 48, LENGTH_AT = 24, REQUEST_AT = 32, NUMBER_BYTES = 4 };
enum { MOST_BYTES = 16461, MOST_FRAMES = 4096, PATIENCE_MS = 5000 };

struct frame {
    uint8_t *bytes;
    size_t length;
};

struct frames {
    struct frame at[MOST_FRAMES];
    size_t count;
};

static void fail(const char *why)
{
    fprintf(stderr, "bench: %s\n", why);
    exit(1);
}

static int64_t nanoseconds(void)
{
    struct timespec now;
    clock_gettime(CLOCK_MONOTONIC, &now);
    return now.tv_sec * INT64_C(1000000000) + now.tv_nsec;
}

/* Opens a socket that sends to this address and receives only from it. */
static int connected(const char *address)
{
    struct sockaddr_in there = {.sin_family = AF_INET, .sin_port = htons(PORT)};
    if (inet_pton(AF_INET, address, &there.sin_addr) != 1)
        fail("the argument is not an IPv4 address");
    int client = socket(AF_INET, SOCK_DGRAM, 0);
    struct timeval patience = {.tv_sec = PATIENCE_MS / 1000};
    if (client < 0 || setsockopt(client, SOL_SOCKET, SO_RCVTIMEO, &patience, sizeof patience) < 0
        || connect(client, (struct sockaddr *)&there, sizeof there) < 0)
        fail("cannot open a socket");
    return client;
}

static struct frames frames_in(const char *path)
{
    struct frames frames = {.count = 0};
    FILE *file = fopen(path, "rb");
    uint8_t head[HEAD_BYTES];
    while (file && frames.count < MOST_FRAMES && fread(head, HEAD_BYTES, 1, file) == 1) {
        uint32_t length;
        memcpy(&length, head + LENGTH_AT, sizeof length);
        struct frame frame = {.length = ntohl(length)};
        if (frame.length < HEAD_BYTES || frame.length > MOST_BYTES)
            fail("the length in a frame of the file is not possible");
        frame.bytes = malloc(frame.length);
        size_t rest = frame.length - HEAD_BYTES;
        if (!frame.bytes || fread(frame.bytes + HEAD_BYTES, 1, rest, file) != rest)
            fail("the last frame of the file is cut off");
        memcpy(frame.bytes, head, HEAD_BYTES);
        frames.at[frames.count++] = frame;
    }
    if (frames.count == 0)
        fail("the file contains no frame");
    fclose(file);
    return frames;
}
