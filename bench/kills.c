// A disk for the tests of logs, put before the program by LD_PRELOAD. It looks at files *.part alone.
//   each sync notes in FILE.part.synced how long the file was when it began: the harness cuts there (SHIM_SKIP: and doesn't sync)
//   SHIM_COUNT=FILE  each sync adds a byte to FILE, and isn't noted
//   SHIM_SLOW_US=n   a sync takes so much longer
//   SHIM_DIE=w:n     the process dies, by w before (b), in (i: half of it is written) or after (a) the n-th write, before (B) or after (A) the n-th sync
//   SHIM_FAIL=w:n    w, s: the n-th write, or sync, fails with EIO. h: the n-th write writes half, the next one fails
#define _GNU_SOURCE
#include <dlfcn.h>
#include <errno.h>
#include <fcntl.h>
#include <stdio.h>
#include <stdlib.h>
#include <string.h>
#include <sys/stat.h>
#include <unistd.h>
#include <signal.h>
static int is_log(int fd, char *path, size_t size) {
  char link[64];
  snprintf(link, sizeof link, "/proc/self/fd/%d", fd);
  ssize_t n = readlink(link, path, size - 16);
  if (n < 5) return 0;
  path[n] = 0;
  return !strncmp(path + n - 5, ".part", 5);
}
static int hits(const char *name, char what, int count) {
  const char *want = getenv(name);
  return want && want[0] == what && atoi(want + 2) == count;
}
static void die_at(char what, int count) { if (hits("SHIM_DIE", what, count)) kill(getpid(), SIGKILL); }
static int syncs, writes;
static void count_sync(const char *name) {
  static int file = -1;
  if (file < 0) file = open(name, O_WRONLY | O_CREAT | O_APPEND | O_CLOEXEC, 0644);
  if (write(file, "", 1) != 1) abort();
}
static int note(int fd, int (*real)(int)) {
  char path[4096];
  if (!is_log(fd, path, sizeof path)) return real(fd);
  int count = __sync_add_and_fetch(&syncs, 1);
  die_at('B', count);
  struct stat before;
  fstat(fd, &before);                       // what is surely there when the sync begins
  if (hits("SHIM_FAIL", 's', count)) { errno = EIO; return -1; }
  const char *slow = getenv("SHIM_SLOW_US");
  if (slow) usleep(atoi(slow));
  if (!getenv("SHIM_SKIP") && real(fd)) return -1;
  const char *counts = getenv("SHIM_COUNT");
  if (counts) count_sync(counts);
  else {
    strcat(path, ".synced");
    int side = open(path, O_RDWR | O_CREAT, 0644);
    long size = before.st_size;
    pwrite(side, &size, 8, 0);
    close(side);
  }
  die_at('A', count);
  return 0;
}
int fdatasync(int fd) { static int (*real)(int); if (!real) real = dlsym(RTLD_NEXT, "fdatasync"); return note(fd, real); }
int fsync(int fd) { static int (*real)(int); if (!real) real = dlsym(RTLD_NEXT, "fsync"); return note(fd, real); }
ssize_t write(int fd, const void *bytes, size_t size) {
  static ssize_t (*real)(int, const void *, size_t); char path[4096];
  if (!real) real = dlsym(RTLD_NEXT, "write");
  if (!(getenv("SHIM_DIE") || getenv("SHIM_FAIL")) || !is_log(fd, path, sizeof path)) return real(fd, bytes, size);
  int count = __sync_add_and_fetch(&writes, 1);
  die_at('b', count);
  if (hits("SHIM_FAIL", 'w', count) || hits("SHIM_FAIL", 'h', count - 1)) { errno = EIO; return -1; }
  if (hits("SHIM_FAIL", 'h', count)) return real(fd, bytes, size / 2);
  if (hits("SHIM_DIE", 'i', count)) { real(fd, bytes, size / 2); kill(getpid(), SIGKILL); }
  ssize_t n = real(fd, bytes, size);
  die_at('a', count);
  return n;
}
