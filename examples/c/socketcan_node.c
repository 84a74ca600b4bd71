/* One allocator on a SocketCAN interface:
 *
 *     socketcan_node new STORE ID                      once in the life of a member
 *     socketcan_node INTERFACE ID MEMBERS STORE
 *
 * STORE is a file of 8,844 bytes, as that of `allocator node`. The first form makes it, and fails where it is there
 * already. The second one runs the allocator, and fails where the store is missing: a member that forgot what it told
 * others would break the promise. So it refuses zeros, as which a lost block reads. MEMBERS are the node IDs of all
 * members, as 1,2,3, the same on each of them. Where the store is not new, a member ran before, and the program rests
 * for 5.5 s before its first turn. SIGTERM or SIGINT ends the program, which then writes its list to standard error.
 *
 * The status is 0; 1 for wrong words; 12 where the socket or the store cannot be opened, or the store cannot be made; 13
 * where the socket failed; 14 where the store failed, is damaged, or reads as zeros; 17 where the echo of a frame was
 * half a second late: nobody acknowledged it, and it waits in the interface. Take that down, and up again, before the
 * next start.
 *
 * INTERFACE may be fd:N, a socket of packets that is open already and gives each packet back to its sender, for tests.
 */
#define _GNU_SOURCE
#include "caldrouz.h"
#include <errno.h>
#include <fcntl.h>
#include <linux/can.h>
#include <linux/can/raw.h>
#include <net/if.h>
#include <poll.h>
#include <signal.h>
#include <stdio.h>
#include <stdlib.h>
#include <string.h>
#include <sys/file.h>
#include <sys/random.h>
#include <sys/socket.h>
#include <sys/stat.h>
#include <time.h>
#include <unistd.h>

enum { WRONG_WORDS = 1, NOT_OPENED = 12, BUS_FAILED = 13, STORE_FAILED = 14, LATE_ECHO = 17 };

/* Milliseconds. A frame that was not on the bus by then waits in the controller, since nobody acknowledges it, and comes
 * out when somebody does, however late that is. So the program ends, and writes nothing behind it. */
enum { LONGEST_ON_ITS_WAY = 500 };

/* Milliseconds. Where the program was stopped for longer than that, what waits to be sent is let go. */
enum { LONGEST_PAUSE = 1000 };

/* Milliseconds from the last frame of a member to the opening of the next one with its store: its transfer IDs begin at
 * 0 again, so no frame of before, and no answer to one, may be on its way any more. */
enum { REST = 5500 };

enum { MOST_MEMBERS = 5 };

/* The bus. One frame is on its way at a time: the socket gives it back once it was on the bus. So no controller can
 * change the order of frames, and where nobody acknowledges one frame waits there, and no more. */
struct bus {
    int fd;
    int is_on_its_way;
    uint64_t since; /* the reading before the frame on its way was written */
    uint64_t turn;  /* the reading at which this turn began */
    struct can_frame last;
    caldrouz_ages ages;
};

static volatile sig_atomic_t is_ended;

static void on_signal(int number) {
    (void)number;
    is_ended = 1;
}

/* a clock that goes on while the machine is suspended, and that nobody can set */
static uint64_t now_ms(void) {
    struct timespec t;
    clock_gettime(CLOCK_BOOTTIME, &t);
    return (uint64_t)t.tv_sec * 1000 + (uint64_t)t.tv_nsec / 1000000;
}

static uint32_t random_word(void) {
    uint32_t word = 0;
    if (getrandom(&word, sizeof word, GRND_NONBLOCK) != (ssize_t)sizeof word) {
        word = (uint32_t)now_ms() * 2654435761u + (uint32_t)getpid();
    }
    return word;
}

static int open_bus(const char *name) {
    /* extended data frames alone; no remote frames, no error frames */
    const struct can_filter filter = {.can_id = CAN_EFF_FLAG, .can_mask = CAN_EFF_FLAG | CAN_RTR_FLAG};
    const int on = 1;
    struct sockaddr_can address = {.can_family = AF_CAN};
    int fd;
    if (strncmp(name, "fd:", 3) == 0) {
        fd = atoi(name + 3);
        return fcntl(fd, F_SETFL, fcntl(fd, F_GETFL) | O_NONBLOCK) == 0 ? fd : -1;
    }
    fd = socket(PF_CAN, SOCK_RAW | SOCK_NONBLOCK | SOCK_CLOEXEC, CAN_RAW);
    address.can_ifindex = (int)if_nametoindex(name);
    if (fd < 0 || address.can_ifindex == 0 ||
        setsockopt(fd, SOL_CAN_RAW, CAN_RAW_FILTER, &filter, sizeof filter) != 0 ||
        setsockopt(fd, SOL_CAN_RAW, CAN_RAW_RECV_OWN_MSGS, &on, sizeof on) != 0 ||
        bind(fd, (const struct sockaddr *)&address, sizeof address) != 0) {
        return -1;
    }
    return fd;
}

/* the folder of a file, opened to be synced */
static int open_folder(const char *path) {
    char name[4096] = ".";
    const char *slash = strrchr(path, '/');
    if (slash != NULL) {
        const size_t length = slash == path ? 1 : (size_t)(slash - path);
        if (length >= sizeof name) {
            return -1;
        }
        memcpy(name, path, length);
        name[length] = 0;
    }
    return open(name, O_RDONLY | O_DIRECTORY | O_CLOEXEC);
}

/* A new store of this member, synced, and its name in the folder too. Answers 0, or -1 where it is there already or
 * cannot be made. */
static int make_store(const char *path, uint8_t id) {
    static uint8_t image[CALDROUZ_STORE_BYTES];
    const int folder = open_folder(path);
    const int fd = folder < 0 ? -1 : open(path, O_RDWR | O_CREAT | O_EXCL | O_CLOEXEC, 0600);
    if (fd < 0) {
        return -1;
    }
    caldrouz_new_store_above(image, id, random_word() % CALDROUZ_HIGHEST_START + 1);
    if (pwrite(fd, image, sizeof image, 0) != (ssize_t)sizeof image || fsync(fd) != 0 || fsync(folder) != 0) {
        unlink(path);
        return -1;
    }
    return 0;
}

/* A store that was made before. The lock keeps a second process from the same one. */
static int open_store(const char *path) {
    struct stat found;
    const int fd = open(path, O_RDWR | O_CLOEXEC);
    if (fd < 0 || fstat(fd, &found) != 0 || found.st_size != CALDROUZ_STORE_BYTES ||
        flock(fd, LOCK_EX | LOCK_NB) != 0) {
        return -1;
    }
    return fd;
}

/* What a store is. One that cannot be read counts as used: that is told at its opening. */
static enum caldrouz_found find_store(int store) {
    static uint8_t image[CALDROUZ_STORE_BYTES];
    if (pread(store, image, sizeof image, 0) != (ssize_t)sizeof image) {
        return CALDROUZ_USED_STORE;
    }
    return caldrouz_find_store(image);
}

/* Marks a store that is new as used, before a member runs with it. Answers 0, or -1. */
static int mark_store(int store) {
    static const uint8_t mark[] = CALDROUZ_MARK;
    const ssize_t size = (ssize_t)sizeof mark;
    return pwrite(store, mark, sizeof mark, CALDROUZ_MARK_PLACE) == size && fdatasync(store) == 0 ? 0 : -1;
}

/* Rests so many milliseconds, or until a signal. What comes meanwhile waits in the socket, and is too old afterwards. */
static void rest(uint64_t milliseconds) {
    const uint64_t since = now_ms();
    while (!is_ended && now_ms() - since < milliseconds) {
        poll(NULL, 0, 10);
    }
}

static int is_same(const struct can_frame *one, const struct can_frame *other) {
    return one->can_id == other->can_id && one->can_dlc == other->can_dlc && one->can_dlc <= 8 &&
           memcmp(one->data, other->data, one->can_dlc) == 0;
}

/* Hears the next frame that has come. Answers 1, 0 where none has, or -1 where the socket failed. */
static int hear_one(struct bus *bus, caldrouz *node, uint32_t *status) {
    const uint64_t now = now_ms();
    caldrouz_frame frame = {0};
    struct can_frame in;
    const ssize_t got = read(bus->fd, &in, sizeof in);
    if (got < 0 && (errno == EAGAIN || errno == EINTR)) {
        caldrouz_ages_empty(&bus->ages, now);
        return 0;
    }
    if (got <= 0) {
        return -1;
    }
    if (got != (ssize_t)sizeof in || !(in.can_id & CAN_EFF_FLAG) || (in.can_id & (CAN_RTR_FLAG | CAN_ERR_FLAG)) != 0 ||
        in.can_dlc > 8) {
        return 1;
    }
    if (bus->is_on_its_way && is_same(&in, &bus->last)) {
        bus->is_on_its_way = 0;
        return 1;
    }
    if (!caldrouz_ages_is_fresh(&bus->ages, now)) {
        return 1;
    }
    frame.id = in.can_id & CAN_EFF_MASK;
    frame.len = in.can_dlc;
    memcpy(frame.data, in.data, in.can_dlc);
    *status = caldrouz_hear(node, now, &frame);
    if (*status == CALDROUZ_NO_FRAME) {
        *status = CALDROUZ_DONE;
    }
    return 1;
}

/* Whether the echo of a frame is late, where the socket has nothing any more: it may have waited there. */
static int is_late(const struct bus *bus) {
    return bus->is_on_its_way && now_ms() - bus->since > LONGEST_ON_ITS_WAY;
}

/* Lets go of what waits to be sent, where the program was stopped since this turn began: it is old. */
static void let_go_of_old(const struct bus *bus, caldrouz *node, uint64_t now) {
    caldrouz_frame frame;
    if (now - bus->turn > LONGEST_PAUSE) {
        while (caldrouz_take(node, &frame)) {
        }
    }
}

/* Sends the next frame, if none is on its way. Answers 1, 0 where none was sent, or -1 where the socket failed. */
static int send_one(struct bus *bus, caldrouz *node) {
    const uint64_t now = now_ms();
    caldrouz_frame frame;
    let_go_of_old(bus, node, now);
    if (bus->is_on_its_way || !caldrouz_take(node, &frame)) {
        return 0;
    }
    memset(&bus->last, 0, sizeof bus->last);
    bus->last.can_id = frame.id | CAN_EFF_FLAG;
    bus->last.can_dlc = frame.len;
    memcpy(bus->last.data, frame.data, frame.len);
    bus->since = now;
    if (write(bus->fd, &bus->last, sizeof bus->last) == (ssize_t)sizeof bus->last) {
        bus->is_on_its_way = 1;
        return 1;
    }
    /* no room, or the interface is down: the frame is lost, as one that nobody heard */
    return errno == EAGAIN || errno == ENOBUFS || errno == EINTR || errno == ENETDOWN ? 0 : -1;
}

/* The node IDs of a word, as 1,2,3. Answers how many; what is no list of members caldrouz_learn() refuses. */
static unsigned read_members(const char *word, uint8_t members[MOST_MEMBERS]) {
    unsigned count = 0;
    while (*word != 0 && count < MOST_MEMBERS) {
        char *end;
        const unsigned long member = strtoul(word, &end, 10);
        members[count++] = member <= UINT8_MAX ? (uint8_t)member : 0;
        word = *end == ',' ? end + 1 : "";
    }
    return count;
}

static void tell(caldrouz *node) {
    const caldrouz_view view = caldrouz_look(node);
    unsigned place;
    fprintf(stderr, "role %d term %u last %u commit %u\n", (int)view.role, (unsigned)view.term, view.last, view.commit);
    for (place = 1; place <= view.commit; place++) {
        const caldrouz_entry entry = caldrouz_entry_at(node, (uint8_t)place);
        unsigned i;
        fprintf(stderr, "%u %u ", place, entry.node);
        for (i = 0; i < 16; i++) {
            fprintf(stderr, "%02x", entry.unique_id[i]);
        }
        fprintf(stderr, "\n");
    }
}

int main(int count, char **words) {
    static caldrouz node;
    struct sigaction action = {.sa_handler = on_signal};
    struct bus bus = {0};
    uint8_t members[MOST_MEMBERS];
    unsigned size;
    uint32_t status;
    enum caldrouz_found found;
    int store;
    if (count == 4 && strcmp(words[1], "new") == 0) {
        if (make_store(words[2], (uint8_t)atoi(words[3])) != 0) {
            fprintf(stderr, "%s is there already, or cannot be made\n", words[2]);
            return NOT_OPENED;
        }
        return 0;
    }
    if (count != 5) {
        fprintf(stderr, "socketcan_node new STORE ID\nsocketcan_node INTERFACE ID MEMBERS STORE\n");
        return WRONG_WORDS;
    }
    size = read_members(words[3], members);
    sigaction(SIGTERM, &action, NULL);
    sigaction(SIGINT, &action, NULL);
    bus.fd = open_bus(words[1]);
    store = bus.fd < 0 ? -1 : open_store(words[4]);
    if (store < 0) {
        fprintf(stderr, "%s cannot be opened\n", bus.fd < 0 ? words[1] : words[4]);
        return NOT_OPENED;
    }
    caldrouz_ages_empty(&bus.ages, now_ms());
    bus.turn = now_ms();
    found = find_store(store);
    if (found == CALDROUZ_NO_STORE || (found == CALDROUZ_NEW_STORE && mark_store(store) != 0)) {
        fprintf(stderr, "%s has no version, as where its first block was lost, or cannot be written\n", words[4]);
        return STORE_FAILED;
    }
    if (found == CALDROUZ_USED_STORE) {
        rest(REST);
        if (is_ended) {
            return 0;
        }
    }
    status = caldrouz_init(&node, (uint32_t)atoi(words[2]), size, store);
    if (status == CALDROUZ_DONE) {
        status = caldrouz_open(&node, now_ms(), random_word());
    }
    if (status == CALDROUZ_DONE) {
        status = caldrouz_learn(&node, members, size);
    }
    /* a turn is that of `allocator node`: the clock, one frame that came, one frame to send */
    while (status == CALDROUZ_DONE && !is_ended) {
        int heard, sent;
        const uint64_t now = now_ms();
        let_go_of_old(&bus, &node, now);
        bus.turn = now;
        status = caldrouz_tick(&node, now, random_word());
        if (status != CALDROUZ_DONE) {
            break;
        }
        heard = hear_one(&bus, &node, &status);
        if (heard == 0 && is_late(&bus)) {
            fprintf(stderr, "%s: nobody acknowledges: take it down, and up again, before its cable is mended\n", words[1]);
            return LATE_ECHO;
        }
        sent = status == CALDROUZ_DONE && heard >= 0 ? send_one(&bus, &node) : 0;
        if (heard < 0 || sent < 0) {
            perror(words[1]);
            return BUS_FAILED;
        }
        if (heard == 0 && sent == 0) {
            struct pollfd wait = {.fd = bus.fd, .events = POLLIN};
            poll(&wait, 1, 1);
        }
    }
    if (status != CALDROUZ_DONE) {
        fprintf(stderr, "%s: status %u\n", words[4], (unsigned)status);
        return status == CALDROUZ_NOT_MADE || status == CALDROUZ_NOT_MEMBERS ? WRONG_WORDS : STORE_FAILED;
    }
    tell(&node);
    return 0;
}
