/* Sends each datagram at port 9929 back to its sender. bench/run.py builds and runs this program.
 *
 *   cc -O2 -o echo bench/echo.c && ./echo ADDRESS
 */
#include <arpa/inet.h>
#include <netinet/in.h>
#include <stdio.h>
#include <sys/socket.h>

enum { PORT = 9929, MOST_BYTES = 16461 };

int main(int count, char **words)
{
    struct sockaddr_in here = {.sin_family = AF_INET, .sin_port = htons(PORT)};
    if (count != 2 || inet_pton(AF_INET, words[1], &here.sin_addr) != 1) {
        fputs("usage: echo ADDRESS\n", stderr);
        return 1;
    }
    int port = socket(AF_INET, SOCK_DGRAM, 0);
    if (port < 0 || bind(port, (struct sockaddr *)&here, sizeof here) < 0) {
        perror("echo");
        return 1;
    }
    for (;;) {
        static char bytes[MOST_BYTES];
        struct sockaddr_in from;
        socklen_t from_bytes = sizeof from;
        struct sockaddr *peer = (struct sockaddr *)&from;
        ssize_t length = recvfrom(port, bytes, sizeof bytes, 0, peer, &from_bytes);
        if (length >= 0)
            sendto(port, bytes, length, 0, peer, from_bytes);
    }
}
