/* A store in an array: for a trial, and for a lone allocator that may begin anew with each start. It keeps nothing when
 * the program ends, so no member of a cluster may have it.
 *
 * The library calls these three functions on the descriptor that caldrouz_init() was given; here every descriptor
 * is the one array. They answer as POSIX says: how many bytes, all of them, or -1; and 0 or -1.
 */
#include "caldrouz.h"
#include <string.h>
#include <sys/types.h>

ssize_t pread(int fd, void *to, size_t count, off_t at);
ssize_t pwrite(int fd, const void *from, size_t count, off_t at);
int fdatasync(int fd);

static unsigned char array[CALDROUZ_STORE_BYTES];

static int is_inside(size_t count, off_t at) {
    return at >= 0 && (size_t)at <= sizeof array && count <= sizeof array - (size_t)at;
}

ssize_t pread(int fd, void *to, size_t count, off_t at) {
    (void)fd;
    if (!is_inside(count, at)) {
        return -1;
    }
    memcpy(to, array + at, count);
    return (ssize_t)count;
}

ssize_t pwrite(int fd, const void *from, size_t count, off_t at) {
    (void)fd;
    if (!is_inside(count, at)) {
        return -1;
    }
    memcpy(array + at, from, count);
    return (ssize_t)count;
}

int fdatasync(int fd) {
    (void)fd;
    return 0;
}
