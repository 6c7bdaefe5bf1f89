/* OpenSSL's HMAC of the signed bytes of frames. bench/seals.py builds and runs this program.
 *
 *   cc -O2 -o macs bench/macs.c -lcrypto
 *   ./macs sha1|sha256 KEY FILE COUNT      makes the MACs of the frames in FILE in turns, COUNT in all
 *   ./macs sha1|sha256 KEY serve ADDRESS   receives frames, makes the MAC of each and compares it
 *
 * KEY is a file. The first form prints how long that took, and its CPU time, both in nanoseconds. The second form sends
 * the request of a client back as its answer, and ends at a wrong MAC.
 */
#include "client.h"
#include <openssl/crypto.h>
#include <openssl/evp.h>
#include <openssl/hmac.h>

enum { AUTH_BYTES = 28, MAC_AT = 24, COMMAND_AT = 28, MOST_KEY_BYTES = 64 };

static int64_t processor_nanoseconds(void)
{
    struct timespec now;
    clock_gettime(CLOCK_PROCESS_CPUTIME_ID, &now);
    return now.tv_sec * INT64_C(1000000000) + now.tv_nsec;
}

/* Receives frames and compares the MAC of each: the least work of a daemon. */
static void serve(const EVP_MD *hash, const uint8_t *key, size_t key_bytes, const char *address)
{
    static uint8_t bytes[MOST_BYTES];
    unsigned char code[EVP_MAX_MD_SIZE];
    struct sockaddr_in here = {.sin_family = AF_INET, .sin_port = htons(PORT)};
    int port = socket(AF_INET, SOCK_DGRAM, 0);
    if (inet_pton(AF_INET, address, &here.sin_addr) != 1 || port < 0
        || bind(port, (struct sockaddr *)&here, sizeof here) < 0)
        fail("cannot listen at this address");
    for (;;) {
        struct sockaddr_in from;
        socklen_t from_bytes = sizeof from;
        ssize_t length = recvfrom(port, bytes, sizeof bytes, 0, (struct sockaddr *)&from, &from_bytes);
        if (length < HEAD_BYTES + AUTH_BYTES)
            continue;
        unsigned mac_bytes;
        if (!HMAC(hash, key, key_bytes, bytes, length - AUTH_BYTES, code, &mac_bytes))
            fail("OpenSSL makes no MAC");
        if (mac_bytes > MAC_AT)
            mac_bytes = MAC_AT;
        if (CRYPTO_memcmp(code, bytes + length - MAC_AT, mac_bytes) != 0)
            fail("a wrong MAC");
        /* only the commands of a client's request begin with these letters */
        if (bytes[COMMAND_AT] == 'C' || bytes[COMMAND_AT] == 'P')
            sendto(port, bytes, length, 0, (struct sockaddr *)&from, from_bytes);
    }
}

int main(int count, char **words)
{
    uint8_t key[MOST_KEY_BYTES];
    unsigned char code[EVP_MAX_MD_SIZE];
    const EVP_MD *hash = count == 5 ? EVP_get_digestbyname(words[1]) : NULL;
    if (!hash)
        fail("usage: macs sha1|sha256 KEY FILE COUNT, or macs sha1|sha256 KEY serve ADDRESS");
    FILE *file = fopen(words[2], "rb");
    size_t key_bytes = file ? fread(key, 1, sizeof key, file) : 0;
    if (key_bytes == 0)
        fail("cannot read the key, or the file is empty");
    if (strcmp(words[3], "serve") == 0)
        serve(hash, key, key_bytes, words[4]);
    struct frames frames = frames_in(words[3]);
    uint64_t macs = strtoull(words[4], NULL, 10);
    int64_t started = nanoseconds(), started_cpu = processor_nanoseconds();
    for (uint64_t mac = 0; mac < macs; mac++) {
        struct frame frame = frames.at[mac % frames.count];
        if (!HMAC(hash, key, key_bytes, frame.bytes, frame.length - AUTH_BYTES, code, NULL))
            fail("OpenSSL makes no MAC");
    }
    printf("%lld %lld\n", (long long)(nanoseconds() - started), (long long)(processor_nanoseconds() - started_cpu));
    return 0;
}
