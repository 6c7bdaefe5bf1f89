/* keeps PATH COUNT: makes, COUNT times, the writes and syncs by which the host writes a record file, and nothing else.
   Prints how long that took, and its CPU time, both in seconds. */
#define _GNU_SOURCE
#include <fcntl.h>
#include <stdio.h>
#include <stdlib.h>
#include <sys/resource.h>
#include <time.h>
#include <unistd.h>

static double now(void) {
    struct timespec t;
    clock_gettime(CLOCK_MONOTONIC, &t);
    return t.tv_sec + t.tv_nsec / 1e9;
}

static double cpu(void) {
    struct rusage u;
    getrusage(RUSAGE_SELF, &u);
    return u.ru_utime.tv_sec + u.ru_stime.tv_sec + (u.ru_utime.tv_usec + u.ru_stime.tv_usec) / 1e6;
}

static void put(int file, const char *bytes, size_t size, off_t at) {
    if (pwrite(file, bytes, size, at) != (ssize_t)size || fdatasync(file) != 0)
        exit(1);
}

int main(int argc, char **argv) {
    if (argc != 3)
        return 1;
    int file = open(argv[1], O_RDWR | O_CREAT, 0600);
    char slot[80] = {1}, entry[72] = {0};
    if (file < 0)
        return 1;
    put(file, slot, 80, 128);
    put(file, slot, 80, 256);
    double started = now(), before = cpu();
    for (long i = atol(argv[2]); i > 0; i--) {
        off_t at = 128 + i % 2 * 128;
        entry[7] = (char)i;
        put(file, "\0", 1, at);
        put(file, entry, 72, at + 8);
        put(file, "\1", 1, at);
    }
    printf("%.9f %.9f\n", now() - started, cpu() - before);
    return 0;
}
