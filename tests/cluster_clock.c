/* A wall clock of its own for a program that is run with this library (LD_PRELOAD). It is as many seconds from the
 * true one as the file says that CLUSTER_CLOCK names. The clocks since the boot stay true. tests/cluster_clocks.py
 * builds it. */
#define _GNU_SOURCE
#include <fcntl.h>
#include <stdlib.h>
#include <sys/syscall.h>
#include <sys/time.h>
#include <time.h>
#include <unistd.h>

static long seconds(void) {
  const char *path = getenv("CLUSTER_CLOCK");
  char text[24] = "";
  int file = path ? open(path, O_RDONLY | O_CLOEXEC) : -1;
  if (file < 0) return 0;
  ssize_t length = read(file, text, sizeof text - 1);
  close(file);
  return length > 0 ? strtol(text, NULL, 10) : 0;
}

int clock_gettime(clockid_t clock, struct timespec *now) {
  long status = syscall(SYS_clock_gettime, clock, now);
  if (status == 0 && (clock == CLOCK_REALTIME || clock == CLOCK_REALTIME_COARSE)) now->tv_sec += seconds();
  return (int)status;
}

int gettimeofday(struct timeval *restrict now, void *restrict zone) {
  long status = syscall(SYS_gettimeofday, now, zone);
  if (status == 0) now->tv_sec += seconds();
  return (int)status;
}

time_t time(time_t *kept) {
  struct timespec now;
  clock_gettime(CLOCK_REALTIME, &now);
  if (kept) *kept = now.tv_sec;
  return now.tv_sec;
}

int timespec_get(struct timespec *now, int base) {
  return base == TIME_UTC && clock_gettime(CLOCK_REALTIME, now) == 0 ? base : 0;
}
