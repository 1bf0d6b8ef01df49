/* A disk whose sync takes longer: before each fdatasync and fsync of a program that this is preloaded to, SLOW_SYNC microseconds pass. */
#define _GNU_SOURCE
#include <stdlib.h>
#include <sys/syscall.h>
#include <time.h>
#include <unistd.h>

static long synced(long call, int fd) {
  const char *given = getenv("SLOW_SYNC");
  long us = given != NULL ? atol(given) : 0;
  struct timespec rest = {us / 1000000, us % 1000000 * 1000};
  while (nanosleep(&rest, &rest) != 0) {
  }
  return syscall(call, fd);
}

int fdatasync(int fd) { return (int)synced(SYS_fdatasync, fd); }

int fsync(int fd) { return (int)synced(SYS_fsync, fd); }
