/* Replaces setsockopt of the C library (LD_PRELOAD): a socket gets no more room than on a system with Linux's default
   limits. BOOTH_ROOM is this room in bytes; the system gives twice as much. */
#define _GNU_SOURCE
#include <stdlib.h>
#include <sys/socket.h>
#include <sys/syscall.h>
#include <unistd.h>

int setsockopt(int socket, int level, int name, const void *value, socklen_t length)
{
    const char *text = getenv("BOOTH_ROOM");
    int room = text ? atoi(text) : 0;
    int is_room = level == SOL_SOCKET && (name == SO_RCVBUF || name == SO_SNDBUF) && length == sizeof room;
    if (room > 0 && is_room && *(const int *)value > room)
        value = &room;
    return (int)syscall(SYS_setsockopt, socket, level, name, value, length);
}
