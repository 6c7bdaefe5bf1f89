/* A client of port 9929, which bench/run.py builds and runs. It is written in C so that its own time
 * counts little.
 *
 *   cc -O2 -o asker bench/asker.c
 *   ./asker lists ADDRESS FILE COUNT        sends COUNT requests, those in FILE one after another and
 *                                           then again, each after the answer to the request before
 *   ./asker start ADDRESS FILE PROGRAM ..   starts PROGRAM with its arguments, sends the first
 *                                           request until an answer comes, and ends the program
 *
 * Both print how long that took, in nanoseconds.
 */
#include "client.h"

#include <signal.h>
#include <sys/wait.h>

enum { PAUSE_MICROS = 50 };

/* Sends `count` requests, each after the answer to the request before. */
static void ask(int asker, const struct frames *requests, uint32_t count)
{
    uint8_t answer[MOST_BYTES];
    for (uint32_t number = 0; number < count; number++) {
        struct frame request = requests->at[number % requests->count];
        if (send(asker, request.bytes, request.length, 0) != (ssize_t)request.length)
            fail("cannot send");
        if (recv(asker, answer, sizeof answer, 0) < HEAD_BYTES
            || memcmp(answer + REQUEST_AT, request.bytes + REQUEST_AT, NUMBER_BYTES) != 0)
            fail("no answer to this request");
    }
}

/* Asks again and again until an answer comes. Returns whether one came. */
static int ask_until_answered(int asker, struct frame request, int64_t until)
{
    uint8_t answer[MOST_BYTES];
    struct timespec wait = {.tv_nsec = PAUSE_MICROS * 1000};
    while (nanoseconds() < until) {
        /* (a send fails as long as nobody has the port; the pause leaves the processor to the program) */
        send(asker, request.bytes, request.length, 0);
        nanosleep(&wait, NULL);
        if (recv(asker, answer, sizeof answer, MSG_DONTWAIT) >= HEAD_BYTES)
            return 1;
    }
    return 0;
}

/* Starts the program, and returns the nanoseconds until it answered. */
static int64_t start(int asker, struct frame request, char **words)
{
    int64_t started = nanoseconds();
    pid_t program = fork();
    if (program < 0)
        fail("cannot fork");
    if (program == 0) {
        execv(words[0], words);
        _exit(127);
    }
    int64_t until = started + PATIENCE_MS * INT64_C(1000000);
    int answered = ask_until_answered(asker, request, until);
    int64_t took = nanoseconds() - started;
    kill(program, SIGKILL);
    waitpid(program, NULL, 0);
    if (!answered)
        fail("the program did not answer");
    return took;
}

int main(int count, char **words)
{
    static struct frames requests;
    int64_t took;
    if (count < 5)
        fail("usage: asker lists ADDRESS FILE COUNT, or asker start ADDRESS FILE PROGRAM ..");
    int asker = connected(words[2]);
    requests = frames_in(words[3]);
    if (count == 5 && strcmp(words[1], "lists") == 0) {
        int64_t started = nanoseconds();
        ask(asker, &requests, strtoul(words[4], NULL, 10));
        took = nanoseconds() - started;
    } else if (strcmp(words[1], "start") == 0) {
        took = start(asker, requests.at[0], words + 4);
    } else {
        fail("the first argument must be lists or start");
    }
    printf("%lld\n", (long long)took);
    return 0;
}
