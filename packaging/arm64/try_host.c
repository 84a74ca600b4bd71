/* Calls each function of rattle_host.c, and prints what it answers. tests/arm64 links it once with that file and once with
   the toolchain's own archives, and compares what both print. It is started with words; the last one is a file that may be
   locked. */
#define _GNU_SOURCE
#include <errno.h>
#include <fcntl.h>
#include <stdbool.h>
#include <stdint.h>
#include <stdio.h>
#include <string.h>
#include <sys/types.h>
#include <unistd.h>

enum { ROOM = 8, MANY = 1000 };
struct tried {
    bool ok;
    void *p;
};
size_t rattle_arg_count(void);
ssize_t rattle_arg(size_t i, char *to, size_t room);
int rattle_errno(void);
void rattle_set_errno(int number);
int rattle_set_nonblocking(int descriptor, bool on);
int rattle_lock_range(int descriptor, short kind, int64_t start, int64_t length);
struct tried rattle_alloc(size_t n, size_t align);
struct tried rattle_realloc(void *p, size_t kept, size_t n, size_t align);
void rattle_dealloc(void *p);

static void words(void) {
    printf("count %zu\n", rattle_arg_count());
    for (size_t i = 1; i <= rattle_arg_count(); i++) {
        for (size_t room = 0; room <= ROOM; room++) {
            char to[ROOM + 1];
            memset(to, '.', sizeof to);
            ssize_t answer = rattle_arg(i, to, room);
            printf("word %zu, room %zu: %zd %.*s\n", i, room, answer, ROOM + 1, to);
        }
    }
    printf("word %zu: %zd\n", (size_t)-1, rattle_arg((size_t)-1, NULL, 0));
}

static void errors(void) {
    rattle_set_errno(EAGAIN);
    printf("errno %d %d\n", errno, rattle_errno());
    errno = EINTR;
    printf("errno %d\n", rattle_errno());
}

static void answered(const char *what, int answer) {
    int number = rattle_errno();
    printf("%s: %d", what, answer);
    if (answer == -1) {
        printf(", errno %d", number);
    }
    printf("\n");
}

static void nonblocking(void) {
    int ends[2];
    if (pipe(ends) != 0) {
        return;
    }
    for (int on = 1; on >= 0; on--) {
        int answer = rattle_set_nonblocking(ends[0], on);
        printf("nonblocking %d: %d, flag %d\n", on, answer, (fcntl(ends[0], F_GETFL) & O_NONBLOCK) != 0);
    }
    answered("nonblocking of none", rattle_set_nonblocking(-1, true));
}

static void locks(const char *path) {
    int first = open(path, O_RDWR), second = open(path, O_RDWR);
    answered("lock 10 to 19", rattle_lock_range(first, F_WRLCK, 10, 10));
    answered("by another, 15", rattle_lock_range(second, F_WRLCK, 15, 1));
    answered("by another, 20", rattle_lock_range(second, F_WRLCK, 20, 1));
    answered("to read, 0 to the end", rattle_lock_range(second, F_RDLCK, 0, 0));
    answered("unlock", rattle_lock_range(first, F_UNLCK, 10, 10));
    answered("by another, 15", rattle_lock_range(second, F_WRLCK, 15, 1));
    answered("of none", rattle_lock_range(-1, F_WRLCK, 0, 0));
}

static void heap(void) {
    for (size_t n = 0; n <= MANY; n += 250) {
        struct tried block = rattle_alloc(n, 16);
        printf("alloc %zu: %d, aligned %d\n", n, block.ok, (uintptr_t)block.p % 16 == 0);
        memset(block.p, 'x', n != 0 ? n : 16);
        block = rattle_realloc(block.p, n, 2 * MANY, 16);
        size_t kept = 0;
        while (kept < n && ((char *)block.p)[kept] == 'x') {
            kept++;
        }
        printf("realloc: %d, kept %zu\n", block.ok, kept);
        block = rattle_realloc(block.p, 0, 0, 16);
        printf("realloc to none: %d, aligned %d\n", block.ok, (uintptr_t)block.p % 16 == 0);
        rattle_dealloc(block.p);
    }
    struct tried block = rattle_alloc(((size_t)1 << 62), 16);
    printf("too much: %d, null %d\n", block.ok, block.p == NULL);
    block = rattle_alloc(1, 1);
    struct tried none = rattle_realloc(block.p, 1, (size_t)1 << 62, 1);
    printf("too much again: %d, null %d\n", none.ok, none.p == NULL);
    rattle_dealloc(block.p);
}

int main(int given, char **list) {
    words();
    errors();
    nonblocking();
    locks(list[given - 1]);
    heap();
    return 0;
}
