/* fuzz CALLS SEED: calls with random numbers, on nodes that were made with random words over stores that are new,
 * short, damaged or none. Each call has to return, and one that is refused to change no byte of the node. Prints how
 * often each status came. */
#define _GNU_SOURCE
#include "caldrouz.h"
#include <stdio.h>
#include <stdlib.h>
#include <string.h>
#include <sys/mman.h>
#include <unistd.h>

enum { CALLS_OF_A_NODE = 3000, OPS = 9, STATUSES = 9 };

static caldrouz node, before;
static uint64_t state;

static uint64_t random_number(void) {
    state ^= state << 13;
    state ^= state >> 7;
    state ^= state << 17;
    return state;
}

static uint64_t below(uint64_t limit) {
    return random_number() % limit;
}

/* a new store; every seventh is short, and of every fifth some bytes are random */
static int store_of(unsigned long round) {
    int fd = memfd_create("store", 0);
    unsigned i;
    if (fd < 0 || ftruncate(fd, round % 7 == 0 ? (off_t)below(9000) : CALDROUZ_STORE_BYTES) != 0) {
        exit(1);
    }
    for (i = 0; round % 5 == 0 && i < 50; i++) {
        const unsigned char byte = (unsigned char)random_number();
        if (pwrite(fd, &byte, 1, (off_t)below(CALDROUZ_STORE_BYTES)) != 1) {
            exit(1);
        }
    }
    return fd;
}

/* mostly a list of members that a node may have, from its own ID on, with its size; else any numbers */
static void list_words(uint32_t id, uint32_t size, uint64_t *list, uint64_t *count) {
    unsigned i;
    *list = random_number();
    *count = below(4) ? size : random_number();
    if (below(4)) {
        for (i = 0, *list = 0; i < 8; i++) {
            *list |= (uint64_t)((id + i * 13) % 128) << (8 * i);
        }
    }
}

/* mostly a frame with a length of 1 to 8; every fifth is a first request of a device */
static uint64_t frame_words(unsigned k) {
    if (k % 5 == 0) {
        return (uint64_t)8 << 32 | 0x1e000500;
    }
    return k % 3 ? (1 + below(8)) << 32 | below(1u << 29) : random_number();
}

static int is_refused(uint32_t op, uint64_t answer) {
    if (op == 4) {
        return answer == 0;
    }
    return op == 0 || (op > 4 && op != 8) || answer == CALDROUZ_NOT_MADE || answer == CALDROUZ_CLOSED ||
           answer == CALDROUZ_NO_FRAME || answer == CALDROUZ_NOT_MEMBERS || answer == CALDROUZ_TOO_LATE;
}

int main(int count, char **words) {
    const unsigned long calls = count > 1 ? strtoul(words[1], NULL, 10) : 900000;
    unsigned long counts[STATUSES] = {0}, damaged = 0, taken = 0, round;
    int i;
    state = (count > 2 ? strtoull(words[2], NULL, 10) : 1) * 2654435761u + 88172645463325252u;
    for (round = 0; round < calls / CALLS_OF_A_NODE; round++) {
        const int fd = store_of(round);
        uint64_t now = round % 2 ? random_number() : 0;
        unsigned k;
        const uint32_t id = (uint32_t)(round % 3 ? below(130) : random_number());
        const uint32_t size = (uint32_t)(round % 4 ? below(6) : random_number());
        caldrouz_make(&node, id, size, round % 11 == 0 ? (uint32_t)random_number() : (uint32_t)fd);
        for (k = 0; k < CALLS_OF_A_NODE; k++) {
            const uint32_t op = k % 97 == 0 ? 1 : (uint32_t)(k % 50 ? below(OPS) : random_number());
            uint64_t a = op == 3 ? frame_words(k) : random_number(), b = random_number();
            uint64_t answer;
            if (op == 8) {
                list_words(id, size, &a, &b);
            }
            now = k % 4 ? now + below(50) : k % 64 == 0 ? random_number() : now;
            before = node;
            answer = caldrouz_call(&node, op, now, a, b);
            if (is_refused(op, answer) && memcmp(&before, &node, sizeof node) != 0) {
                printf("op %lu: answered %llu, and changed the node\n", (unsigned long)op, (unsigned long long)answer);
                return 1;
            }
            if (op == 1 && answer >= CALDROUZ_DAMAGED) {
                damaged++;
            } else if (((op >= 1 && op <= 3) || op == 8) && answer < STATUSES) {
                counts[answer]++;
            } else if (op == 4 && answer != 0) {
                taken++;
            } else if (op == 0 || op >= OPS) {
                counts[CALDROUZ_UNKNOWN] += answer == CALDROUZ_UNKNOWN;
            }
        }
        close(fd);
    }
    for (i = 0; i < STATUSES; i++) {
        printf("status %d: %lu\n", i, counts[i]);
    }
    printf("damaged: %lu\nframes taken: %lu\n", damaged, taken);
    return counts[CALDROUZ_DONE] == 0 || taken == 0;
}
