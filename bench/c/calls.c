/* How long the calls of a lone allocator take, with its store in memory. */
#define _GNU_SOURCE
#include "caldrouz.h"
#include <stdio.h>
#include <string.h>
#include <sys/mman.h>
#include <time.h>
#include <unistd.h>

enum { ROUNDS = 20000, DEVICES = 100 };

static caldrouz node;
static uint64_t ms = 3000;

static double microseconds(void) {
    struct timespec t;
    clock_gettime(CLOCK_MONOTONIC, &t);
    return (double)t.tv_sec * 1e6 + (double)t.tv_nsec / 1e3;
}

static void take_all(void) {
    caldrouz_frame frame;
    while (caldrouz_take(&node, &frame)) {
    }
}

static void hear_frames(const char *what, caldrouz_frame frame) {
    const double begun = microseconds();
    unsigned k;
    for (k = 0; k < ROUNDS; k++) {
        frame.data[7] = (uint8_t)(0xc0 | (k & 31));
        caldrouz_hear(&node, ms, &frame);
    }
    printf("%s: %.3f us\n", what, (microseconds() - begun) / ROUNDS);
    take_all();
}

/* the three requests of a device; the node appends an entry, commits it and answers */
static double allocation(unsigned device) {
    unsigned char unique_id[16] = {1, 0, 3, 4, 5, 6, 7, 8, 9, 10, 11, 12, 13, 14, 15, 16};
    double begun;
    unsigned place, transfer = 0;
    unique_id[1] = (unsigned char)device;
    ms += 1000;
    caldrouz_tick(&node, ms, 7);
    take_all();
    begun = microseconds();
    for (place = 0; place < 16; place += 6) {
        const unsigned count = place == 12 ? 4 : 6;
        caldrouz_frame frame = {0x1e000500, 0, {0}};
        frame.data[0] = place == 0;
        memcpy(frame.data + 1, unique_id + place, count);
        frame.data[count + 1] = (uint8_t)(0xc0 | transfer++);
        frame.len = (uint8_t)(count + 2);
        ms += 5;
        caldrouz_hear(&node, ms, &frame);
        take_all();
    }
    return microseconds() - begun;
}

int main(void) {
    const caldrouz_frame unwanted = {0x10000309, 8, {1, 2, 3, 4, 5, 6, 7, 0xc0}}; /* of a type that it does not take */
    const caldrouz_frame status = {0x1e015509, 8, {1, 0, 0, 0, 0, 0, 0, 0xc0}};   /* NodeStatus of node 9 */
    const int fd = memfd_create("store", 0);
    double begun = microseconds(), total = 0;
    unsigned k;
    if (fd < 0 || ftruncate(fd, CALDROUZ_STORE_BYTES) != 0 || caldrouz_init(&node, 1, 1, fd) != CALDROUZ_DONE ||
        caldrouz_open(&node, 0, 7) != CALDROUZ_DONE) {
        return 1;
    }
    printf("make and open: %.1f us\n", microseconds() - begun);
    for (k = 0; k < 5; k++) {
        caldrouz_tick(&node, ms++, 7);
        take_all();
    }
    begun = microseconds();
    for (k = 0; k < ROUNDS; k++) {
        caldrouz_tick(&node, ms, 7);
    }
    printf("tick: %.3f us\n", (microseconds() - begun) / ROUNDS);
    begun = microseconds();
    for (k = 0; k < ROUNDS; k++) {
        take_all();
    }
    printf("take, where nothing waits: %.3f us\n", (microseconds() - begun) / ROUNDS);
    hear_frames("a frame that is not wanted", unwanted);
    hear_frames("a NodeStatus", status);
    ms += 4000; /* while node 9 is online, and has not told its unique ID, no device is given an ID */
    for (k = 0; k < DEVICES; k++) {
        total += allocation(k);
    }
    printf("an allocation, of three requests: %.1f us\n", total / DEVICES);
    return caldrouz_look(&node).commit >= DEVICES ? 0 : 1;
}
