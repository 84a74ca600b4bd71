/* A store in a serial FRAM of 32 KiB or more (as MB85RS256B or FM25V02A), for firmware: pread(), pwrite() and
 * fdatasync() of one's own. An FRAM has no cache and no pages, so what the last clock of a write has brought there
 * stays.
 *
 * The descriptor is the address of the store in the chip, divided by 64: two nodes of one chip have the descriptors
 * 0 and 139. Each write is read back, since a bus that is not driven answers nothing: a fault is then told at the
 * call, and the node answers CALDROUZ_FAULT.
 *
 * spi_transfer() is the board's: it selects the chip, shifts `count` bytes out and as many in, and answers 0, or -1.
 * Build with -DSIMULATED_FRAM to have a chip in an array.
 */
#include "caldrouz.h"
#include <string.h>
#include <sys/types.h>

enum { WRITE_ENABLE = 0x06, WRITE = 0x02, READ = 0x03 };
enum { HEAD = 3, PIECE = 64, UNIT = 64, CHIP = 32768 };

int spi_transfer(const unsigned char *out, unsigned char *in, size_t count);

ssize_t pread(int fd, void *to, size_t count, off_t at);
ssize_t pwrite(int fd, const void *from, size_t count, off_t at);
int fdatasync(int fd);

/* the address in the chip, or -1 */
static long address_of(int fd, size_t count, off_t at) {
    if (fd < 0 || fd > (CHIP - CALDROUZ_STORE_BYTES) / UNIT || at < 0 || at > CALDROUZ_STORE_BYTES ||
        count > (size_t)(CALDROUZ_STORE_BYTES - at)) {
        return -1;
    }
    return (long)fd * UNIT + (long)at;
}

/* a command with an address, and `count` bytes behind it, PIECE at most */
static int command(unsigned char what, long address, const unsigned char *out, unsigned char *in, size_t count) {
    unsigned char sent[HEAD + PIECE] = {0}, got[HEAD + PIECE];
    sent[0] = what;
    sent[1] = (unsigned char)(address >> 8);
    sent[2] = (unsigned char)address;
    if (out) {
        memcpy(sent + HEAD, out, count);
    }
    if (spi_transfer(sent, got, HEAD + count) != 0) {
        return -1;
    }
    if (in) {
        memcpy(in, got + HEAD, count);
    }
    return 0;
}

static int write_piece(long address, const unsigned char *from, size_t count) {
    const unsigned char enable = WRITE_ENABLE;
    unsigned char ignored, found[PIECE];
    if (spi_transfer(&enable, &ignored, 1) != 0 || command(WRITE, address, from, NULL, count) != 0 ||
        command(READ, address, NULL, found, count) != 0) {
        return -1;
    }
    return memcmp(found, from, count) == 0 ? 0 : -1;
}

static size_t piece_of(size_t count, size_t done) {
    return count - done < PIECE ? count - done : PIECE;
}

ssize_t pread(int fd, void *to, size_t count, off_t at) {
    const long address = address_of(fd, count, at);
    size_t done, piece;
    if (address < 0) {
        return -1;
    }
    for (done = 0; done < count; done += piece) {
        piece = piece_of(count, done);
        if (command(READ, address + (long)done, NULL, (unsigned char *)to + done, piece) != 0) {
            return -1;
        }
    }
    return (ssize_t)count;
}

ssize_t pwrite(int fd, const void *from, size_t count, off_t at) {
    const long address = address_of(fd, count, at);
    size_t done, piece;
    if (address < 0) {
        return -1;
    }
    for (done = 0; done < count; done += piece) {
        piece = piece_of(count, done);
        if (write_piece(address + (long)done, (const unsigned char *)from + done, piece) != 0) {
            return -1;
        }
    }
    return (ssize_t)count;
}

/* nothing waits in an FRAM; over flash, or behind a cache, this waits until all that was written is there */
int fdatasync(int fd) {
    return fd < 0 ? -1 : 0;
}

#ifdef SIMULATED_FRAM
int spi_transfer(const unsigned char *out, unsigned char *in, size_t count) {
    static unsigned char cells[CHIP];
    static int is_enabled;
    size_t i;
    if (count == 0) {
        return -1;
    }
    memset(in, 0, count);
    if (out[0] == WRITE_ENABLE) {
        is_enabled = 1;
        return 0;
    }
    for (i = HEAD; i < count; i++) {
        unsigned char *cell = cells + ((((size_t)out[1] << 8 | out[2]) + i - HEAD) % CHIP);
        if (out[0] == READ) {
            in[i] = *cell;
        } else if (out[0] == WRITE && is_enabled) {
            *cell = out[i];
        }
    }
    is_enabled = is_enabled && out[0] != WRITE;
    return 0;
}
#endif
