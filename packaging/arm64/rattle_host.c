/* What the program `allocator` needs of C beside the C library, on processors for which the toolchain has none of its two
   archives for that, libos_c.a and liblibc_c.a: these functions, by the comments on them in the toolchain's os/src/c.rt and
   libc/src/heap.rt. Nothing proves this; tests/arm64 compares it with the archives, on x86-64. */
#define _GNU_SOURCE
#include <errno.h>
#include <fcntl.h>
#include <stdbool.h>
#include <stddef.h>
#include <stdint.h>
#include <stdlib.h>
#include <sys/ioctl.h>
#include <sys/types.h>

size_t rattle_arg_count(void);
ssize_t rattle_arg(size_t i, char *to, size_t room);
int rattle_errno(void);
void rattle_set_errno(int number);
int rattle_set_nonblocking(int descriptor, bool on);
int rattle_lock_range(int descriptor, short kind, int64_t start, int64_t length);

/* ---- the words of the program */

static int count;
static char **words;

static void keep(int given, char **list, char **environment) {
    (void)environment;
    count = given;
    words = list;
}

/* the C library calls what stands in this section with the arguments of main, before main */
__attribute__((section(".init_array"), used)) static void (*const at_start)(int, char **, char **) = keep;

size_t rattle_arg_count(void) { return (size_t)count; }

/* The length of word i, which is put at the start of the room; -1: there is none; -2: it does not fit, and the room is
   full. */
ssize_t rattle_arg(size_t i, char *to, size_t room) {
    if (i >= (size_t)count || words[i] == NULL) {
        return -1;
    }
    size_t at = 0;
    for (; words[i][at] != 0; at++) {
        if (at == room) {
            return -2;
        }
        to[at] = words[i][at];
    }
    return (ssize_t)at;
}

/* ---- the system */

int rattle_errno(void) { return errno; }

void rattle_set_errno(int number) { errno = number; }

int rattle_set_nonblocking(int descriptor, bool on) {
    int value = on;
    return ioctl(descriptor, FIONBIO, &value);
}

int rattle_lock_range(int descriptor, short kind, int64_t start, int64_t length) {
    struct flock range = {.l_type = kind, .l_whence = SEEK_SET, .l_start = start, .l_len = length, .l_pid = 0};
    return fcntl(descriptor, F_OFD_SETLK, &range);
}

/* ---- the heap: the alignments that are asked for divide that of malloc */

struct tried {
    bool ok;
    void *p;
};

struct tried rattle_alloc(size_t n, size_t align);
struct tried rattle_realloc(void *p, size_t kept, size_t n, size_t align);
void rattle_dealloc(void *p);

static char nothing;

static struct tried tried(void *p) { return (struct tried){.ok = p != NULL, .p = p != NULL ? p : &nothing}; }

struct tried rattle_alloc(size_t n, size_t align) { return tried(malloc(n != 0 ? n : align)); }

struct tried rattle_realloc(void *p, size_t kept, size_t n, size_t align) {
    (void)kept;
    return tried(realloc(p, n != 0 ? n : align));
}

void rattle_dealloc(void *p) { free(p); }
