/* The most stack that the calls take: each runs on a thread whose stack was painted first. */
#define _GNU_SOURCE
#include "caldrouz.h"
#include <pthread.h>
#include <stdio.h>
#include <string.h>
#include <sys/mman.h>
#include <unistd.h>

enum { STACK = 4 << 20, PAINT = 0xa5, DEVICES = 60 };

static caldrouz node;
static int fd;

static void *makes(void *unused) {
    caldrouz_init(&node, 1, 1, fd);
    return unused;
}

static void *opens(void *unused) {
    caldrouz_open(&node, 0, 7);
    return unused;
}

/* ticks, frames, and whole allocations */
static void *steps(void *unused) {
    caldrouz_frame frame;
    uint64_t ms = 3000;
    unsigned device, place;
    for (device = 0; device < DEVICES; device++) {
        unsigned char unique_id[16] = {1, 0, 3};
        unsigned transfer = 0;
        unique_id[1] = (unsigned char)device;
        ms += 1000;
        caldrouz_tick(&node, ms, 7);
        while (caldrouz_take(&node, &frame)) {
        }
        for (place = 0; place < 16; place += 6) {
            const unsigned count = place == 12 ? 4 : 6;
            caldrouz_frame request = {0x1e000500, 0, {0}};
            request.data[0] = place == 0;
            memcpy(request.data + 1, unique_id + place, count);
            request.data[count + 1] = (uint8_t)(0xc0 | transfer++);
            request.len = (uint8_t)(count + 2);
            ms += 5;
            caldrouz_hear(&node, ms, &request);
            while (caldrouz_take(&node, &frame)) {
            }
        }
    }
    return unused;
}

static void *nothing(void *unused) {
    return unused;
}

static size_t stack_of(void *(*call)(void *)) {
    unsigned char *stack = mmap(NULL, STACK, PROT_READ | PROT_WRITE, MAP_PRIVATE | MAP_ANONYMOUS, -1, 0);
    pthread_attr_t attributes;
    pthread_t thread;
    size_t untouched = 0;
    memset(stack, PAINT, STACK);
    pthread_attr_init(&attributes);
    pthread_attr_setstack(&attributes, stack, STACK);
    pthread_create(&thread, &attributes, call, NULL);
    pthread_join(thread, NULL);
    while (untouched < STACK && stack[untouched] == PAINT) {
        untouched++;
    }
    munmap(stack, STACK);
    return STACK - untouched;
}

int main(void) {
    const size_t least = stack_of(nothing);
    fd = memfd_create("store", 0);
    if (fd < 0 || ftruncate(fd, CALDROUZ_STORE_BYTES) != 0) {
        return 1;
    }
    printf("make: %zu bytes of stack\n", stack_of(makes) - least);
    printf("open: %zu bytes of stack\n", stack_of(opens) - least);
    printf("steps: %zu bytes of stack\n", stack_of(steps) - least);
    return 0;
}
