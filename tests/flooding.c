/* The sender of tests/floods.py, which builds and runs it. It sends one datagram again and again, at a given rate.
 *
 *   cc -O2 -o flooding tests/flooding.c
 *   ./flooding ADDRESS RATE < DATAGRAM         from a port that the system chooses
 *   ./flooding ADDRESS RATE FROM < DATAGRAM    with the forged source FROM, at the daemons' port; only as root
 *
 * RATE is in datagrams a second. What cannot be sent in time is left out. It sends until SIGTERM ends it, and then
 * prints how many datagrams it has sent.
 */
#define _GNU_SOURCE
#include <arpa/inet.h>
#include <signal.h>
#include <stdint.h>
#include <stdio.h>
#include <stdlib.h>
#include <string.h>
#include <sys/socket.h>
#include <time.h>
#include <unistd.h>

enum { PORT = 9929, BATCH = 32, MOST_BYTES = 2000, IP_BYTES = 20, UDP_BYTES = 8 };

static volatile sig_atomic_t is_over;

static void end(int number)
{
    (void)number;
    is_over = 1;
}

static void fail(const char *what)
{
    perror(what);
    exit(1);
}

static double seconds(void)
{
    struct timespec now;
    clock_gettime(CLOCK_MONOTONIC, &now);
    return now.tv_sec + now.tv_nsec / 1e9;
}

static struct sockaddr_in place(const char *address)
{
    struct sockaddr_in at = {.sin_family = AF_INET, .sin_port = htons(PORT)};
    if (inet_pton(AF_INET, address, &at.sin_addr) != 1)
        fail("address");
    return at;
}

/* Puts the headers of IP and UDP before a datagram (RFC 791, RFC 768), without a checksum of UDP. Returns the whole
 * length. The system fills in the other fields that are 0. */
static size_t forge(uint8_t *bytes, size_t length, struct sockaddr_in from, struct sockaddr_in to)
{
    uint16_t port = htons(PORT), size = htons(UDP_BYTES + length);
    memmove(bytes + IP_BYTES + UDP_BYTES, bytes, length);
    memset(bytes, 0, IP_BYTES + UDP_BYTES);
    bytes[0] = 0x45;
    bytes[8] = 64;
    bytes[9] = IPPROTO_UDP;
    memcpy(bytes + 12, &from.sin_addr, 4);
    memcpy(bytes + 16, &to.sin_addr, 4);
    memcpy(bytes + IP_BYTES, &port, 2);
    memcpy(bytes + IP_BYTES + 2, &port, 2);
    memcpy(bytes + IP_BYTES + 4, &size, 2);
    return IP_BYTES + UDP_BYTES + length;
}

/* Sends at this rate until SIGTERM comes. Returns how many were sent. */
static uint64_t flood(int sender, struct mmsghdr *batch, double rate)
{
    uint64_t sent = 0;
    double due = 0, last = seconds();
    while (!is_over) {
        double now = seconds(), most = rate / 100 + 1;
        due += (now - last) * rate;
        last = now;
        if (due > most)
            due = most;
        if (due < 1) {
            usleep(500);
            continue;
        }
        int count = sendmmsg(sender, batch, due < BATCH ? (int)due : BATCH, 0);
        if (count > 0) {
            sent += count;
            due -= count;
        }
    }
    return sent;
}

int main(int count, char **words)
{
    static uint8_t bytes[MOST_BYTES + IP_BYTES + UDP_BYTES];
    if (count != 3 && count != 4)
        return 2;
    ssize_t length = read(0, bytes, MOST_BYTES);
    if (length < 0)
        fail("read");
    struct sockaddr_in to = place(words[1]);
    size_t size = count == 4 ? forge(bytes, length, place(words[3]), to) : (size_t)length;
    int sender = count == 4 ? socket(AF_INET, SOCK_RAW, IPPROTO_RAW) : socket(AF_INET, SOCK_DGRAM, 0);
    if (sender < 0 || connect(sender, (struct sockaddr *)&to, sizeof to) != 0)
        fail("socket");
    struct iovec part = {bytes, size};
    struct mmsghdr batch[BATCH] = {0};
    for (int i = 0; i < BATCH; i++) {
        batch[i].msg_hdr.msg_iov = &part;
        batch[i].msg_hdr.msg_iovlen = 1;
    }
    signal(SIGTERM, end);
    printf("%llu\n", (unsigned long long)flood(sender, batch, strtod(words[2], NULL)));
    return 0;
}
