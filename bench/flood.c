/* Sends many datagrams that have no answer. bench/run.py and bench/seals.py build and run this program.
 *
 *   cc -O2 -o flood bench/flood.c
 *   ./flood members ADDRESS FILE COUNT        sends COUNT frames, those in FILE one after another and
 *                                             then again
 *   ./flood hostile ADDRESS FILE COUNT SEED   sends COUNT datagrams that a generator with this seed
 *                                             makes from these frames
 *
 * The first frame of FILE is a request. The program sends it after each burst, and waits for its
 * answer. So the daemon's socket never holds more than a burst, and no datagram is lost. Both forms
 * print how long that took, in nanoseconds, and how many other answers came.
 */
#include "client.h"

enum { BURST_FRAMES = 100, BURST_BYTES = 50000, LONGEST = 20000, COMMAND_AT = 28, MAC_AT = 24 };

static uint64_t seed;

/* Returns the next number of a xorshift generator (64 bits, multiplied). */
static uint64_t chance(void)
{
    seed ^= seed >> 12;
    seed ^= seed << 25;
    seed ^= seed >> 27;
    return seed * UINT64_C(0x2545F4914F6CDD1D);
}

static size_t below(size_t end)
{
    return (chance() >> 33) % end;
}

static void scramble(uint8_t *bytes, size_t length)
{
    for (size_t i = 0; i < length; i++)
        bytes[i] = chance() >> 56;
}

/* Makes a hostile datagram from one of the frames, and returns its length. */
static size_t make(const struct frames *frames, uint8_t *into)
{
    struct frame frame = frames->at[1 + below(frames->count - 1)];
    size_t length = frame.length;
    memcpy(into, frame.bytes, length);
    switch (below(16)) {
    case 0: /* random bytes, mostly few */
        length = below(64) == 0 ? below(LONGEST) : below(600);
        scramble(into, length);
        break;
    case 1: /* a frame's head, and then random bytes */
        length = HEAD_BYTES + below(600);
        scramble(into + HEAD_BYTES, length - HEAD_BYTES);
        break;
    case 2: case 3: /* truncated */
        length = below(length);
        break;
    case 4: case 5: case 6: case 7: /* one to four bits flipped */
        for (size_t flips = 1 + below(4); flips > 0; flips--)
            into[below(length)] ^= 1 << below(8);
        break;
    case 8: /* a wrong length */
        scramble(into + LENGTH_AT + 2 * below(2), 2);
        break;
    case 9: /* too many bytes, counted in the length field or not */
        if (below(2) == 0)
            into[LENGTH_AT + 3] += 28;
        memset(into + length, 0, 28);
        length += 28;
        break;
    case 10: /* an unknown command */
        scramble(into + COMMAND_AT, 4);
        break;
    case 11: case 12: /* a wrong MAC */
        scramble(into + length - MAC_AT, 20);
        break;
    default: /* unchanged */
        break;
    }
    return length;
}

/* Sends the request, and reads until its answer comes. Returns how many other datagrams came before it. */
static uint64_t wait_for_answer(int client, struct frame request)
{
    static uint8_t answer[MOST_BYTES];
    if (send(client, request.bytes, request.length, 0) != (ssize_t)request.length)
        fail("cannot send");
    for (uint64_t others = 0;; others++) {
        if (recv(client, answer, sizeof answer, 0) < HEAD_BYTES)
            fail("no answer after a burst");
        if (memcmp(answer + REQUEST_AT, request.bytes + REQUEST_AT, NUMBER_BYTES) == 0)
            return others;
    }
}

int main(int count, char **words)
{
    static struct frames frames;
    static uint8_t made[LONGEST + MOST_BYTES];
    int is_hostile = count == 6 && strcmp(words[1], "hostile") == 0;
    if (!is_hostile && !(count == 5 && strcmp(words[1], "members") == 0))
        fail("usage: flood members ADDRESS FILE COUNT, or flood hostile ADDRESS FILE COUNT SEED");
    int client = connected(words[2]);
    frames = frames_in(words[3]);
    uint64_t left = strtoull(words[4], NULL, 10), others = 0, next = 0;
    seed = is_hostile ? strtoull(words[5], NULL, 10) : 0;
    if (frames.count < 2 || (is_hostile && seed == 0))
        fail("the file needs two frames or more, and the seed must not be 0");
    int64_t started = nanoseconds();
    while (left > 0) {
        size_t bytes = 0;
        for (int burst = 0; burst < BURST_FRAMES && bytes < BURST_BYTES && left > 0; burst++) {
            struct frame frame = frames.at[1 + next++ % (frames.count - 1)];
            if (is_hostile)
                frame = (struct frame){made, make(&frames, made)};
            if (send(client, frame.bytes, frame.length, 0) != (ssize_t)frame.length)
                fail("cannot send");
            bytes += frame.length;
            left--;
        }
        others += wait_for_answer(client, frames.at[0]);
    }
    printf("%lld %llu\n", (long long)(nanoseconds() - started), (unsigned long long)others);
    return 0;
}
