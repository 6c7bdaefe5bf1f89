/* Reads a file and counts its lines. bench/run.py builds and runs this program.
 *
 *   cc -O2 -o lines bench/lines.c && ./lines FILE
 */
#include <fcntl.h>
#include <stdio.h>
#include <unistd.h>

int main(int count, char **words)
{
    static char bytes[65536];
    unsigned long lines = 0;
    int file = count == 2 ? open(words[1], O_RDONLY) : -1;
    if (file < 0) {
        fputs("usage: lines FILE\n", stderr);
        return 1;
    }
    for (ssize_t length; (length = read(file, bytes, sizeof bytes)) > 0;)
        for (ssize_t i = 0; i < length; i++)
            if (bytes[i] == '\n')
                lines++;
    printf("%lu\n", lines);
    return 0;
}
