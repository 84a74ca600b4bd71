/* replay ID..: drives nodes of the library, of a cluster of these members, by the rows of a schedule at standard input
 * (docs/FORMATS.md, "Schedule"), as `allocator replay` drives its members, and prints what the report says of them:
 * openings, steps (role, numbers, queue), frames that are sent, stops and failures, and at the end the logs. Rows of
 * allocatees are none.
 *
 * The stores are arrays, of which a call can be set to stop the store or to fail. A frame that is taken while bytes
 * wait for a sync ends the program with 2, as a member does that does not take the list of members, and a row that it
 * does not know with 3.
 */
#include "caldrouz.h"
#include <stdio.h>
#include <stdlib.h>
#include <string.h>
#include <sys/types.h>

enum { MEMBERS = 126, FRAMES = 4096, MOST_PATTERN = 16, LINE = 256 };

ssize_t pread(int fd, void *to, size_t count, off_t at);
ssize_t pwrite(int fd, const void *from, size_t count, off_t at);
int fdatasync(int fd);

/* ---- stores that stop ---- */

struct pattern {
    enum { OLD, NEW, BYTES } kind;
    size_t length;
    unsigned char bytes[MOST_PATTERN];
};

struct store {
    unsigned char seen[CALDROUZ_STORE_BYTES], stable[CALDROUZ_STORE_BYTES], touched[CALDROUZ_STORE_BYTES];
    unsigned long stop_in, fail_in; /* 0: never */
    int is_stopped;
    struct pattern pattern;
};

static struct store stores[MEMBERS];

/* whether this call acts */
static int acts(struct store *store) {
    const int stops = store->stop_in == 1, fails = store->fail_in == 1;
    store->stop_in -= store->stop_in > 0;
    store->fail_in -= store->fail_in > 0;
    store->is_stopped = store->is_stopped || stops;
    return !store->is_stopped && !fails;
}

static struct store *store_of(int fd, size_t count, off_t at) {
    if (fd < 0 || fd >= MEMBERS || at < 0 || at > CALDROUZ_STORE_BYTES || count > (size_t)(CALDROUZ_STORE_BYTES - at)) {
        fprintf(stderr, "a call of the store beyond its end\n");
        exit(2);
    }
    return &stores[fd];
}

ssize_t pread(int fd, void *to, size_t count, off_t at) {
    struct store *store = store_of(fd, count, at);
    if (!acts(store)) {
        return -1;
    }
    memcpy(to, store->seen + at, count);
    return (ssize_t)count;
}

ssize_t pwrite(int fd, const void *from, size_t count, off_t at) {
    struct store *store = store_of(fd, count, at);
    if (!acts(store)) {
        return -1;
    }
    memcpy(store->seen + at, from, count);
    memset(store->touched + at, 1, count);
    return (ssize_t)count;
}

int fdatasync(int fd) {
    struct store *store = store_of(fd, 0, 0);
    if (!acts(store)) {
        return -1;
    }
    memcpy(store->stable, store->seen, sizeof store->seen);
    memset(store->touched, 0, sizeof store->touched);
    return 0;
}

static int is_synced(const struct store *store) {
    return memchr(store->touched, 1, sizeof store->touched) == NULL;
}

/* the store after a stop: the pattern begins anew at each run of bytes that wait for a sync */
static void restart(struct store *store, const struct pattern *pattern) {
    size_t i, run = 0;
    for (i = 0; i < CALDROUZ_STORE_BYTES; i++) {
        run = i == 0 || store->touched[i - 1] ? run : i;
        if (store->touched[i] && pattern->kind == OLD) {
            store->seen[i] = store->stable[i];
        } else if (store->touched[i] && pattern->kind == BYTES) {
            store->seen[i] = pattern->bytes[(i - run) % pattern->length];
        }
    }
    memcpy(store->stable, store->seen, sizeof store->seen);
    memset(store->touched, 0, sizeof store->touched);
    store->stop_in = store->fail_in = 0;
    store->is_stopped = 0;
}

/* ---- members and the bus ---- */

static caldrouz nodes[MEMBERS];
static int is_up[MEMBERS];
static uint8_t members[MEMBERS];
static unsigned size; /* how many of them there are */
static caldrouz_frame bus[FRAMES];
static unsigned long frames;

static unsigned byte_at(const char *hex, size_t place) {
    const char two[3] = {hex[2 * place], hex[2 * place + 1], 0};
    return (unsigned)strtoul(two, NULL, 16);
}

static void put(const caldrouz_frame *frame) {
    if (frames == FRAMES) {
        exit(3);
    }
    bus[frames++] = *frame;
}

/* what a call of a member came to: whether it goes on */
static int goes_on(unsigned n, uint32_t status) {
    if (stores[n].is_stopped) {
        printf("%u stop\n", n);
        restart(&stores[n], &stores[n].pattern);
        is_up[n] = 0;
        return 0;
    }
    if (status != CALDROUZ_DONE) {
        printf("%u fault\n", n);
        return 0;
    }
    return 1;
}

static void opens(unsigned n, int is_told, uint64_t now, uint32_t word) {
    caldrouz_view view;
    caldrouz_init(&nodes[n], n, size, (int)n);
    is_up[n] = goes_on(n, caldrouz_open(&nodes[n], now, word));
    if (is_up[n] && is_told && caldrouz_learn(&nodes[n], members, size) != CALDROUZ_DONE) {
        fprintf(stderr, "%u does not take the list of members\n", n);
        exit(2);
    }
    if (is_up[n]) {
        view = caldrouz_look(&nodes[n]);
        printf("%u open %lu %u %u %u\n", n, (unsigned long)view.term, view.vote, view.last, view.commit);
    }
}

static void stepped(unsigned n, uint32_t status) {
    static const char roles[] = "FCL";
    if (goes_on(n, status)) {
        const caldrouz_view view = caldrouz_look(&nodes[n]);
        printf("%u %c %lu %u %u %u\n", n, roles[view.role], (unsigned long)view.term, view.last, view.commit,
               view.queued);
    }
}

static void sends(unsigned n) {
    caldrouz_frame frame;
    unsigned i;
    if (!is_synced(&stores[n])) {
        fprintf(stderr, "a frame is taken before the store is synced\n");
        exit(2);
    }
    if (!caldrouz_take(&nodes[n], &frame)) {
        printf("%u has none\n", n);
        return;
    }
    put(&frame);
    printf("%u send %lu %08lx ", n, frames, (unsigned long)frame.id);
    for (i = 0; i < frame.len; i++) {
        printf("%02x", frame.data[i]);
    }
    printf("\n");
}

static void logs(void) {
    unsigned n, place, i;
    for (n = 0; n < MEMBERS; n++) {
        const caldrouz_view view = is_up[n] ? caldrouz_look(&nodes[n]) : (caldrouz_view){.is_open = 0};
        if (!view.is_open) {
            continue;
        }
        printf("log %u %u\n", n, view.commit);
        for (place = 1; place <= view.commit; place++) {
            const caldrouz_entry entry = caldrouz_entry_at(&nodes[n], (uint8_t)place);
            printf("%u %u ", place, entry.node);
            for (i = 0; i < 16; i++) {
                printf("%02x", entry.unique_id[i]);
            }
            printf("\n");
        }
    }
}

/* ---- rows ---- */

static struct pattern pattern_of(const char *word) {
    struct pattern pattern = {OLD, 0, {0}};
    if (strcmp(word, "new") == 0) {
        pattern.kind = NEW;
    } else if (strcmp(word, "old") != 0) {
        pattern.kind = BYTES;
        for (pattern.length = 0; pattern.length < strlen(word) / 2 && pattern.length < MOST_PATTERN; pattern.length++) {
            pattern.bytes[pattern.length] = (unsigned char)byte_at(word, pattern.length);
        }
    }
    return pattern;
}

static void frame_from_outside(unsigned long id, const char *hex) {
    caldrouz_frame frame = {0, 0, {0}};
    size_t i;
    frame.id = (uint32_t)id;
    frame.len = (uint8_t)(strlen(hex) / 2);
    for (i = 0; i < frame.len && i < 8; i++) {
        frame.data[i] = (uint8_t)byte_at(hex, i);
    }
    put(&frame);
}

static int row(const char *line) {
    unsigned n;
    unsigned long id, k, calls, word;
    unsigned long long now;
    char text[LINE];
    if (sscanf(line, "open %u %llu %lu", &n, &now, &word) == 3 && n < MEMBERS) {
        opens(n, 0, now, (uint32_t)word);
    } else if (sscanf(line, "copen %u %llu %lu", &n, &now, &word) == 3 && n < MEMBERS) {
        opens(n, 1, now, (uint32_t)word);
    } else if (sscanf(line, "tick %u %llu %lu", &n, &now, &word) == 3 && n < MEMBERS) {
        stepped(n, caldrouz_tick(&nodes[n], now, (uint32_t)word));
    } else if (sscanf(line, "rx %u %lu %llu", &n, &k, &now) == 3 && n < MEMBERS && k >= 1 && k <= frames) {
        stepped(n, caldrouz_hear(&nodes[n], now, &bus[k - 1]));
    } else if (sscanf(line, "send %u", &n) == 1 && n < MEMBERS) {
        sends(n);
    } else if (sscanf(line, "ext %lx %255s", &id, text) == 2) {
        frame_from_outside(id, text);
    } else if (sscanf(line, "crash %u %lu %255s", &n, &calls, text) == 3 && n < MEMBERS) {
        stores[n].pattern = pattern_of(text);
        stores[n].stop_in = calls;
        if (calls == 0) {
            restart(&stores[n], &stores[n].pattern);
            is_up[n] = 0;
            printf("%u stop\n", n);
        }
    } else if (sscanf(line, "fault %u %lu", &n, &calls) == 2 && n < MEMBERS) {
        stores[n].fail_in = calls;
    } else {
        return 0;
    }
    return 1;
}

int main(int count, char **words) {
    char line[LINE];
    for (size = 0; (int)size + 1 < count && size < MEMBERS; size++) {
        members[size] = (uint8_t)atoi(words[size + 1]);
    }
    while (fgets(line, sizeof line, stdin)) {
        if (!row(line)) {
            fprintf(stderr, "no row for a node: %s", line);
            return 3;
        }
    }
    logs();
    return 0;
}
