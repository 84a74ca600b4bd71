/* A lone allocator: a cluster of one. No operating system is needed, nor a bus for this trial: the program is also the
 * device that asks. Link it with array_store.c or fram_store.c.
 *
 *     cc -Iinclude examples/c/lone_allocator.c examples/c/array_store.c libcaldrouz.a
 *
 * It prints each frame with its moment, and what the device was given.
 */
#include "caldrouz.h"
#include <stdio.h>
#include <string.h>

/* the store: any number means the one array or chip here */
enum { STORE = 0 };

static caldrouz node;

/* what a device has heard of its unique ID, and the node ID that it was given */
struct device {
    unsigned char unique_id[16];
    unsigned char answer[17];
    size_t length;
    unsigned node;
};

static void show(uint64_t now, const caldrouz_frame *frame) {
    unsigned i;
    printf("%6lu %08lx", (unsigned long)now, (unsigned long)frame->id);
    for (i = 0; i < frame->len; i++) {
        printf(" %02x", frame->data[i]);
    }
    printf("\n");
}

/* Of an answer (an Allocation with a source) the device reads the bytes of one transfer. */
static void answered(struct device *device, const caldrouz_frame *frame) {
    const unsigned tail = frame->data[frame->len - 1];
    const size_t crc = (tail & 0xc0) == 0x80 ? 2 : 0; /* the first of several frames begins with a CRC */
    size_t count = (size_t)frame->len - 1;
    if ((frame->id >> 8 & 0xffff) != 1 || (frame->id & 0xff) == 0) {
        return;
    }
    if (tail & 0x80) {
        device->length = 0;
    }
    if (count < crc || device->length + count - crc > sizeof device->answer) {
        return;
    }
    count -= crc;
    memcpy(device->answer + device->length, frame->data + crc, count);
    device->length += count;
    if ((tail & 0x40) && device->length == 17 && memcmp(device->answer + 1, device->unique_id, 16) == 0) {
        device->node = device->answer[0] >> 1;
    }
}

/* the next part of its unique ID, in a frame without a source: the six bytes, or four, from a place on */
static caldrouz_frame request(const struct device *device, unsigned place, unsigned transfer) {
    caldrouz_frame frame = {0x1e000100u | 0x1234u << 10, 0, {0}};
    const unsigned count = place == 12 ? 4 : 6;
    frame.data[0] = place == 0; /* any node ID will do; and whether this is the first part */
    memcpy(frame.data + 1, device->unique_id + place, count);
    frame.data[count + 1] = (uint8_t)(0xc0 | transfer);
    frame.len = (uint8_t)(count + 2);
    return frame;
}

int main(void) {
    struct device device = {{0xca, 0x1d, 0x50, 0x2a, 1, 2, 3, 4, 5, 6, 7, 8, 9, 10, 11, 12}, {0}, 0, 0};
    unsigned place = 0;
    uint64_t now;
    uint32_t status = caldrouz_init(&node, 1, 1, STORE);
    if (status == CALDROUZ_DONE) {
        status = caldrouz_open(&node, 0, 7);
    }
    for (now = 0; status == CALDROUZ_DONE && now < 6000; now += 10) {
        caldrouz_frame frame;
        status = caldrouz_tick(&node, now, (uint32_t)(now * 2654435761u));
        /* after five seconds it has been elected, by its own vote; then the device asks, a part each 100 ms */
        if (status == CALDROUZ_DONE && now >= 5000 && now % 100 == 0 && place < 16) {
            frame = request(&device, place, place / 6);
            show(now, &frame);
            status = caldrouz_hear(&node, now, &frame);
            place += 6;
        }
        while (status == CALDROUZ_DONE && caldrouz_take(&node, &frame)) {
            show(now, &frame);
            answered(&device, &frame);
        }
    }
    if (status != CALDROUZ_DONE || device.node == 0) {
        printf("status %lu, no node ID\n", (unsigned long)status);
        return 1;
    }
    printf("the device is given %u; the list has %u entries\n", device.node, caldrouz_look(&node).commit);
    return 0;
}
