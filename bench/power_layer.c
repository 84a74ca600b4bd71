/* A layer below a program that keeps apart what it wrote to a store and did not sync, for bench/power.
 *
 * It is preloaded. Each write to a file of 8,844 bytes goes on as it is; before it, its place and length, what stood there
 * and what is written are put at the end of the file NAME.unsynced beside it. A sync of the file takes as long as on a slow
 * disk, and empties that. So after a kill, whoever has both files can leave what a cut of the power may leave. */
#define _GNU_SOURCE
#include <dlfcn.h>
#include <fcntl.h>
#include <stdint.h>
#include <stdio.h>
#include <stdlib.h>
#include <sys/stat.h>
#include <sys/uio.h>
#include <unistd.h>

enum { STORE = 8844, SYNC_MICROSECONDS = 4000 };

static void *next(const char *name) {
  void *found = dlsym(RTLD_NEXT, name);
  if (found == NULL) abort();
  return found;
}

/* The file beside a store, or -1 where this is no store. */
static int beside(int file) {
  struct stat status;
  char link[64], path[4096 + 16];
  ssize_t length;
  if (fstat(file, &status) != 0 || !S_ISREG(status.st_mode) || status.st_size != STORE) return -1;
  snprintf(link, sizeof link, "/proc/self/fd/%d", file);
  length = readlink(link, path, 4096);
  if (length <= 0) return -1;
  snprintf(path + length, 16, ".unsynced");
  return open(path, O_WRONLY | O_CREAT | O_APPEND | O_CLOEXEC, 0600);
}

/* Notes a write before it is made. */
static void note(int file, const void *bytes, size_t count, off_t place) {
  static ssize_t (*write_on)(int, const void *, size_t);
  uint32_t head[2] = {(uint32_t)place, (uint32_t)count};
  unsigned char record[8 + 2 * STORE];
  int log = beside(file);
  if (log < 0) return;
  if (!write_on) write_on = next("write");
  if (place < 0 || place + (off_t)count > STORE || pread(file, record + 8, count, place) != (ssize_t)count) abort();
  for (size_t at = 0; at < 8; at++) record[at] = ((unsigned char *)head)[at];
  for (size_t at = 0; at < count; at++) record[8 + count + at] = ((const unsigned char *)bytes)[at];
  if (write_on(log, record, 8 + 2 * count) != (ssize_t)(8 + 2 * count)) abort();
  close(log);
}

/* Syncs a file by this call. */
static int sync_by(int (*on)(int), int file) {
  int log = beside(file), status;
  if (log >= 0) usleep(SYNC_MICROSECONDS);
  status = on(file);
  if (log >= 0) {
    if (status == 0 && ftruncate(log, 0) != 0) abort();
    close(log);
  }
  return status;
}

ssize_t write(int file, const void *bytes, size_t count) {
  static ssize_t (*on)(int, const void *, size_t);
  if (!on) on = next("write");
  note(file, bytes, count, lseek(file, 0, SEEK_CUR));
  return on(file, bytes, count);
}

ssize_t pwrite64(int file, const void *bytes, size_t count, off_t place) {
  static ssize_t (*on)(int, const void *, size_t, off_t);
  if (!on) on = next("pwrite64");
  note(file, bytes, count, place);
  return on(file, bytes, count, place);
}

ssize_t pwrite(int file, const void *bytes, size_t count, off_t place) { return pwrite64(file, bytes, count, place); }

ssize_t writev(int file, const struct iovec *parts, int count) {
  static ssize_t (*on)(int, const struct iovec *, int);
  off_t place = lseek(file, 0, SEEK_CUR);
  if (!on) on = next("writev");
  for (int at = 0; at < count; at++) {
    note(file, parts[at].iov_base, parts[at].iov_len, place);
    place += (off_t)parts[at].iov_len;
  }
  return on(file, parts, count);
}

int fsync(int file) {
  static int (*on)(int);
  if (!on) on = next("fsync");
  return sync_by(on, file);
}

int fdatasync(int file) {
  static int (*on)(int);
  if (!on) on = next("fdatasync");
  return sync_by(on, file);
}
