/* One allocator of node IDs of a UAVCAN v0 (DroneCAN) bus: one member of a cluster of one to five, for C99 and C++.
 *
 * Link with libcaldrouz.a. docs/EMBEDDING.md has the duties of a caller, sizes, times, and what is proved.
 *
 *     static caldrouz node;
 *     static const uint8_t members[] = {1, 2, 3};
 *     caldrouz_frame frame;
 *
 *     caldrouz_init(&node, 1, 3, store);            // node ID 1, of a cluster of 3
 *     caldrouz_open(&node, now_ms(), random_word());
 *     caldrouz_learn(&node, members, 3);            // the node IDs of the three, best told to each
 *     for (;;) {
 *         caldrouz_tick(&node, now_ms(), random_word());
 *         if (receive(&frame)) caldrouz_hear(&node, now_ms(), &frame);
 *         if (has_room() && caldrouz_take(&node, &frame)) transmit(&frame);
 *     }
 *
 * Memory. A node is one object of type `caldrouz`, which the caller keeps: static, on a heap, or on a stack.
 *   The library allocates nothing and has no variables of its own. From caldrouz_init() on a node must not be moved,
 *   copied or written by anybody else. There is nothing to free: a node whose caller stops calling is gone.
 * Threads. One call on a node at a time. Different nodes share nothing, and may be called from different threads. The
 *   library takes no lock and starts no thread, and is not to be called from an interrupt that may interrupt a call.
 * Time. `now` is in milliseconds, from any start, by a clock that does not fall and does not stand still, as
 *   CLOCK_BOOTTIME. A step back is taken for the highest moment so far.
 * Waiting. No call waits, but for the three functions of the store, in caldrouz_open(), caldrouz_tick() and
 *   caldrouz_hear(). No call ends the program.
 * Numbers. Every call takes every number. What a number does not fit is answered by a status, and changes nothing.
 *
 * Store. A node keeps its vote and its list in CALDROUZ_STORE_BYTES bytes behind a descriptor. The library calls
 *   pread(), pwrite() and fdatasync() on it: those of POSIX, or the caller's own (examples/c/array_store.c and
 *   examples/c/fram_store.c). What was written before fdatasync() answered 0 has to survive a loss of power. A store
 *   belongs to one member for ever: it is never deleted, copied or put back. It is made once, by
 *   caldrouz_new_store_above(), and looked at before each opening, by caldrouz_find_store().
 */
#ifndef CALDROUZ_H
#define CALDROUZ_H

#include <stddef.h>
#include <stdint.h>

#ifdef __cplusplus
extern "C" {
#endif

/* the bytes of a store, and of a node */
#define CALDROUZ_STORE_BYTES 8844
#define CALDROUZ_NODE_BYTES 46568

/* Milliseconds. A frame that may have waited longer, in a queue of the caller or of the driver, before it is heard or
 * before it is sent, is dropped: by then its transfer ID may be in use again. */
#define CALDROUZ_LONGEST_WAIT 1000

/* what a call may answer */
enum caldrouz_status {
    CALDROUZ_DONE = 0,
    CALDROUZ_NOT_MADE = 1,      /* caldrouz_init() was given a node ID beyond 1 to 125, or a size beyond 1 to 5 */
    CALDROUZ_CLOSED = 2,        /* the node is not open, or its store has failed: caldrouz_open() opens it again */
    CALDROUZ_FAULT = 3,         /* the store failed in this call. Whatever waited to be sent is gone */
    CALDROUZ_NO_FRAME = 4,      /* an identifier of more than 29 bits, or not 1 to 8 bytes. Nothing was heard */
    CALDROUZ_UNKNOWN = 5,       /* caldrouz_call() knows no such number */
    CALDROUZ_OTHER_LIBRARY = 6, /* the library is of another version than this header. Nothing was made */
    CALDROUZ_NOT_MEMBERS = 7,   /* caldrouz_learn() was given what is no list of all members. Nothing was learned */
    CALDROUZ_TOO_LATE = 8,      /* caldrouz_learn() came after a step or a second time. Nothing was learned */
    CALDROUZ_DAMAGED = 256      /* and more: the store is damaged, first at the key that is the status less 256 */
};

enum caldrouz_role { CALDROUZ_FOLLOWER = 0, CALDROUZ_CANDIDATE = 1, CALDROUZ_LEADER = 2 };

/* A node. Its words mean nothing to a caller. */
typedef struct caldrouz {
    uint64_t words[CALDROUZ_NODE_BYTES / 8];
} caldrouz;

/* An extended data frame of the bus. */
typedef struct caldrouz_frame {
    uint32_t id;     /* 29 bits, without flags */
    uint8_t len;     /* 1 to 8 */
    uint8_t data[8]; /* the first `len` count; those behind them are 0 in a frame that was taken */
} caldrouz_frame;

/* What a node shows of itself. */
typedef struct caldrouz_view {
    enum caldrouz_role role;
    uint32_t term;   /* of the election that it knows of */
    uint8_t vote;    /* the node that it voted for in this term, 0 for none */
    uint8_t last;    /* the number of entries of its list, 0 to 127 */
    uint8_t commit;  /* the entries up to this one are for good */
    uint8_t queued;  /* frames that wait to be taken, 0 to 32 */
    uint8_t is_open; /* 1 where it works, else 0: then the rest is that of the moment of its fault */
} caldrouz_view;

/* An entry of the list. */
typedef struct caldrouz_entry {
    uint8_t node;          /* the node ID, 1 to 125; 0 in a blank, which leaders put between entries */
    uint8_t unique_id[16]; /* whom it was given to; zeros: it is kept back, since a node with a fixed address has it */
    uint32_t term;
} caldrouz_entry;

/* ---- The three functions of the library. The functions below call them. ---- */

/* The bytes of a node. They are aligned as uint64_t is. */
size_t caldrouz_size(void);

/* Makes a node in the memory at `node`, which has caldrouz_size() bytes. */
void caldrouz_make(caldrouz *node, uint32_t id, uint32_t size, uint32_t fd);

/* Does what the number `op` asks for, with its arguments. */
uint64_t caldrouz_call(caldrouz *node, uint32_t op, uint64_t now, uint64_t a, uint64_t b);

/* ---- Calls of a caller ---- */

/* Makes a node of the node ID `id`, of a cluster of `size` members that are the same for ever, with its store behind
 * the descriptor `fd`. Nothing is read or written yet. Each other call on the node comes after this one.
 * Answers CALDROUZ_DONE or CALDROUZ_OTHER_LIBRARY. An impossible ID or size is told by each later call. */
static inline uint32_t caldrouz_init(caldrouz *node, uint32_t id, uint32_t size, int fd) {
    if (caldrouz_size() != sizeof *node) {
        return CALDROUZ_OTHER_LIBRARY;
    }
    caldrouz_make(node, id, size, (uint32_t)fd);
    return CALDROUZ_DONE;
}

/* Opens a node with what its store has, at the start and after a fault. `word` is random: it sets how long the node
 * waits before it stands for election, and has to differ between members. Answers CALDROUZ_DONE, CALDROUZ_NOT_MADE,
 * CALDROUZ_FAULT, or CALDROUZ_DAMAGED and more. After a failed write or sync a store is not to be opened again
 * before the cause is known: what it reads may never have reached it. */
static inline uint32_t caldrouz_open(caldrouz *node, uint64_t now, uint32_t word) {
    return (uint32_t)caldrouz_call(node, 1, now, word, 0);
}

/* Tells an open node who the members of its cluster are: `count` node IDs at `members`, its own among them. To be called
 * once after each caldrouz_open() that was done, before the first caldrouz_tick() or caldrouz_hear(), or never: on all
 * members, with the same list in the same order, or on none. Of members that were told, a majority serves from power-on
 * on; members that were not told elect nobody before they have heard each other one. A leader whose log is not all
 * committed adds a blank, which takes one of 127 places: where it was told, once a majority has its whole log; else at
 * its election, also where its calls reach nobody.
 * Answers CALDROUZ_DONE; CALDROUZ_NOT_MEMBERS where the list has another count than the size of the cluster, a number
 * beyond 1 to 125, one twice, or not this node; CALDROUZ_TOO_LATE; CALDROUZ_NOT_MADE or CALDROUZ_CLOSED. */
static inline uint32_t caldrouz_learn(caldrouz *node, const uint8_t *members, size_t count) {
    uint64_t list = 0;
    unsigned i;
    for (i = 0; i < 8 && i < count; i++) {
        list |= (uint64_t)members[i] << (8 * i);
    }
    return (uint32_t)caldrouz_call(node, 8, 0, list, count);
}

/* The clock reads `now`. To be called each 10 ms or so: the timers of the protocol are of 400 ms and more. `word` is
 * random, a new one each time.
 * Answers CALDROUZ_DONE, CALDROUZ_NOT_MADE, CALDROUZ_CLOSED or CALDROUZ_FAULT. */
static inline uint32_t caldrouz_tick(caldrouz *node, uint64_t now, uint32_t word) {
    return (uint32_t)caldrouz_call(node, 2, now, word, 0);
}

/* A frame came, and this is now. Every extended data frame of the bus may be given, in the order in which they came,
 * and each once. Frames that this node has sent are not to be given, nor any that is older than CALDROUZ_LONGEST_WAIT.
 * A call that contradicts what this node has committed changes nothing of it and is not told; the program ends (19).
 * Answers CALDROUZ_DONE, CALDROUZ_NO_FRAME, CALDROUZ_NOT_MADE, CALDROUZ_CLOSED or CALDROUZ_FAULT. */
static inline uint32_t caldrouz_hear(caldrouz *node, uint64_t now, const caldrouz_frame *frame) {
    uint64_t bytes = 0;
    unsigned i;
    for (i = 0; i < 8 && i < frame->len; i++) {
        bytes |= (uint64_t)frame->data[i] << (8 * i);
    }
    return (uint32_t)caldrouz_call(node, 3, now, (uint64_t)frame->len << 32 | frame->id, bytes);
}

/* Takes the next frame to send: that with the least identifier, and of one identifier that which was made first.
 * Answers 1, or 0 where there is none, and then `frame` is left as it was. A frame that was taken is sent within
 * CALDROUZ_LONGEST_WAIT or not at all, and frames of one identifier go out in the order in which they were taken. Best
 * take one when the frame before it is out: until then it waits in the node, behind more urgent ones. */
static inline int caldrouz_take(caldrouz *node, caldrouz_frame *frame) {
    uint64_t bytes;
    unsigned i;
    const uint64_t head = caldrouz_call(node, 4, 0, 0, 0);
    if (head == 0) {
        return 0;
    }
    bytes = caldrouz_call(node, 5, 0, 0, 0);
    frame->id = (uint32_t)head;
    frame->len = (uint8_t)(head >> 32 & 0xff);
    for (i = 0; i < 8; i++) {
        frame->data[i] = (uint8_t)(bytes >> (8 * i));
    }
    return 1;
}

/* What the node shows of itself. Changes nothing. */
static inline caldrouz_view caldrouz_look(caldrouz *node) {
    caldrouz_view view;
    view.role = (enum caldrouz_role)caldrouz_call(node, 6, 0, 0, 0);
    view.term = (uint32_t)caldrouz_call(node, 6, 0, 1, 0);
    view.vote = (uint8_t)caldrouz_call(node, 6, 0, 2, 0);
    view.last = (uint8_t)caldrouz_call(node, 6, 0, 3, 0);
    view.commit = (uint8_t)caldrouz_call(node, 6, 0, 4, 0);
    view.queued = (uint8_t)caldrouz_call(node, 6, 0, 5, 0);
    view.is_open = (uint8_t)caldrouz_call(node, 6, 0, 6, 0);
    return view;
}

/* The entry at a place of the list, 1 to `last` of its view; zeros where there is none. Changes nothing. */
static inline caldrouz_entry caldrouz_entry_at(caldrouz *node, uint8_t place) {
    caldrouz_entry entry;
    unsigned i;
    const uint64_t front = caldrouz_call(node, 7, 0, place, 1);
    const uint64_t back = caldrouz_call(node, 7, 0, place, 2);
    entry.node = (uint8_t)caldrouz_call(node, 7, 0, place, 0);
    entry.term = (uint32_t)caldrouz_call(node, 7, 0, place, 3);
    for (i = 0; i < 8; i++) {
        entry.unique_id[i] = (uint8_t)(front >> (8 * i));
        entry.unique_id[8 + i] = (uint8_t)(back >> (8 * i));
    }
    return entry;
}

/* ---- Stores ----
 *
 * The library opens zeros as an empty store, and zeros are how a lost block reads. So the caller looks before:
 *
 *     caldrouz_new_store_above(image, id, random_word() % CALDROUZ_HIGHEST_START + 1);
 *                                           // once in the life of the member; then all bytes are written, and synced
 *
 *     switch (caldrouz_find_store(image)) { // at each start, of the bytes of the store
 *     case CALDROUZ_NO_STORE: do not open it; the member is replaced, as a machine
 *     case CALDROUZ_NEW_STORE: write CALDROUZ_MARK at CALDROUZ_MARK_PLACE, sync it, and open it
 *     case CALDROUZ_USED_STORE: rest for longer than a frame is on its way, and open it
 *     }
 */
enum caldrouz_found {
    CALDROUZ_NO_STORE = 0,  /* it has no version: none was made, or the block was lost that has it */
    CALDROUZ_NEW_STORE = 1, /* what the two calls below make: no member ran with it */
    CALDROUZ_USED_STORE = 2 /* a member ran with it, or it is damaged, as its opening tells */
};

/* Two bytes that say that a member ran with a store which it found new, and where they stand. They change nothing else:
 * a member may run and store nothing, and its next one has to rest. */
#define CALDROUZ_MARK_PLACE 1
#define CALDROUZ_MARK {1, 2}

/* The highest term above which a store is made. */
#define CALDROUZ_HIGHEST_START 500000

/* The byte of a new store at a place below CALDROUZ_STORE_BYTES: the version 2 in copy B of its key, and no more. */
static inline uint8_t caldrouz_new_byte(size_t place) {
    return place == 0 || place == 34 ? 1 : place == 35 ? 2 : 0;
}

/* The same of the member `id` above a term, which stands in copy A of its key, as a vote for `id` does. */
static inline uint8_t caldrouz_new_byte_above(size_t place, uint8_t id, uint32_t term) {
    switch (place) {
    case 68:
        return 4;
    case 69:
    case 70:
    case 71:
    case 72:
        return (uint8_t)(term >> (8 * (place - 69)));
    case 135:
        return 1;
    case 136:
        return id;
    default:
        return caldrouz_new_byte(place);
    }
}

/* Makes the image of a new store, as the program's `new <id>` does, in the CALDROUZ_STORE_BYTES bytes at `image`. */
static inline void caldrouz_new_store(uint8_t *image) {
    size_t place;
    for (place = 0; place < CALDROUZ_STORE_BYTES; place++) {
        image[place] = caldrouz_new_byte(place);
    }
}

/* The same for the member `id` above a term of 1 to CALDROUZ_HIGHEST_START, as `new above <term> <id>` does. Where the
 * term is drawn by chance, logs of two clusters are told apart, should these meet. */
static inline void caldrouz_new_store_above(uint8_t *image, uint8_t id, uint32_t term) {
    size_t place;
    for (place = 0; place < CALDROUZ_STORE_BYTES; place++) {
        image[place] = caldrouz_new_byte_above(place, id, term);
    }
}

/* What the CALDROUZ_STORE_BYTES bytes of a store are. */
static inline enum caldrouz_found caldrouz_find_store(const uint8_t *image) {
    const uint32_t term = (uint32_t)image[69] | (uint32_t)image[70] << 8 | (uint32_t)image[71] << 16 |
                          (uint32_t)image[72] << 24;
    const uint8_t id = image[136];
    int is_plain = 1;
    int is_above = 1 <= term && term <= CALDROUZ_HIGHEST_START && 1 <= id && id <= 125;
    size_t place;
    if (image[image[0] % 2 == 0 ? 1 : 34] == 0) {
        return CALDROUZ_NO_STORE;
    }
    for (place = 0; place < CALDROUZ_STORE_BYTES; place++) {
        is_plain = is_plain && image[place] == caldrouz_new_byte(place);
        is_above = is_above && image[place] == caldrouz_new_byte_above(place, id, term);
    }
    return is_plain || is_above ? CALDROUZ_NEW_STORE : CALDROUZ_USED_STORE;
}

/* ---- Ages of frames ----
 *
 * How long a frame waited in a driver's queue only the caller can know. Where the driver stamps frames, compare the
 * stamp. Where it does not, keep when its queue was last seen empty: what is in it came later.
 *
 *     const uint64_t now = now_ms();        // read before the queue is
 *     if (!receive(&frame)) caldrouz_ages_empty(&ages, now);
 *     else if (caldrouz_ages_is_fresh(&ages, now)) caldrouz_hear(&node, now, &frame);
 */
typedef struct caldrouz_ages {
    uint64_t empty_at;
} caldrouz_ages;

/* The queue of received frames was just emptied, or found empty, at `now`. Once at the start, too. */
static inline void caldrouz_ages_empty(caldrouz_ages *ages, uint64_t now) {
    ages->empty_at = now;
}

/* Whether a frame that was received at `now` surely waited no longer than CALDROUZ_LONGEST_WAIT. */
static inline int caldrouz_ages_is_fresh(const caldrouz_ages *ages, uint64_t now) {
    return now - ages->empty_at <= CALDROUZ_LONGEST_WAIT;
}

#ifdef __cplusplus
}
#endif

#endif
