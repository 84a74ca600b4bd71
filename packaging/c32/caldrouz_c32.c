/* The three functions of caldrouz.h over the C that wasm2c made of the module (`-n cz`: cz.c and cz.h). Each node has
 * an instance of the module, with a memory of its own; the words of a node in the caller's memory are not used.
 *
 * CALDROUZ_NODES is how many nodes there may be. A further one stays unmade. */
#include "caldrouz.h"
#include "cz.h"
#include <unistd.h>

#ifndef CALDROUZ_NODES
#define CALDROUZ_NODES 5
#endif

/* what the functions of the store are given: whose they are */
struct Z_host_instance_t {
    Z_cz_instance_t *module;
};

static struct place {
    const caldrouz *node;
    Z_cz_instance_t module;
    struct Z_host_instance_t host;
} places[CALDROUZ_NODES];

/* the place in memory, or none where it is not within it */
static void *inside(struct Z_host_instance_t *host, u64 at, u64 count) {
    wasm_rt_memory_t *memory = Z_czZ_memory(host->module);
    return at <= memory->size && count <= memory->size - at ? memory->data + at : NULL;
}

u64 Z_hostZ_pread(struct Z_host_instance_t *host, u32 fd, u64 to, u64 count, u64 at) {
    void *place = inside(host, to, count);
    return place ? (u64)(int64_t)pread((int)fd, place, (size_t)count, (off_t)at) : (u64)-1;
}

u64 Z_hostZ_pwrite(struct Z_host_instance_t *host, u32 fd, u64 from, u64 count, u64 at) {
    const void *place = inside(host, from, count);
    return place ? (u64)(int64_t)pwrite((int)fd, place, (size_t)count, (off_t)at) : (u64)-1;
}

u32 Z_hostZ_fdatasync(struct Z_host_instance_t *host, u32 fd) {
    (void)host;
    return (u32)fdatasync((int)fd);
}

/* the place of a node, or the first free one; NULL where there is none */
static struct place *place_of(const caldrouz *node) {
    int i;
    for (i = 0; i < CALDROUZ_NODES; i++) {
        if (places[i].node == node || !places[i].node) {
            return &places[i];
        }
    }
    return NULL;
}

size_t caldrouz_size(void) {
    return sizeof(caldrouz);
}

void caldrouz_make(caldrouz *node, uint32_t id, uint32_t size, uint32_t fd) {
    static int is_ready;
    struct place *place = place_of(node);
    if (!place) {
        return;
    }
    if (!is_ready) {
        wasm_rt_init();
        Z_cz_init_module();
        is_ready = 1;
    }
    if (!place->node) {
        place->node = node;
        place->host.module = &place->module;
        Z_cz_instantiate(&place->module, &place->host);
    }
    Z_czZ_make(&place->module, id, size, fd);
}

uint64_t caldrouz_call(caldrouz *node, uint32_t op, uint64_t now, uint64_t a, uint64_t b) {
    struct place *place = place_of(node);
    return place && place->node ? Z_czZ_call(&place->module, op, now, a, b) : CALDROUZ_NOT_MADE;
}
