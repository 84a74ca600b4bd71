/* What the program `allocator` needs of a system, in a WebAssembly module: words, standard input and output, a few files
   that are only read, and a heap. The module is made anew for each run. Nothing proves this. */
/* (the toolchain has no headers) */
#define NULL ((void *)0)
#define bool _Bool
typedef unsigned char byte;
typedef unsigned short uint16_t;
typedef unsigned int uint32_t;
typedef unsigned long uint64_t, size_t;
typedef long int64_t, ssize_t;

#define EXPORT(name) __attribute__((export_name(#name), used))
#define IMPORT(name) __attribute__((import_module("host"), import_name(#name)))

IMPORT(write) void host_write(int stream, const void *from, size_t count);
IMPORT(now) double host_now(void); /* milliseconds */

/* Errors, by their numbers of Linux */
enum { NO_ENTRY = 2, BAD_DESCRIPTOR = 9, NO_ACCESS = 13, CANNOT_SEEK = 29, READ_ONLY = 30, NO_SUCH_CALL = 38 };
static int error;

int rattle_errno(void) { return error; }
void rattle_set_errno(int number) { error = number; }

static int fails(int number) {
    error = number;
    return -1;
}

/* ---- the heap: blocks are taken from its end, and only the last one is given back or grows in place */

enum { UNIT = 16, PAGE = 65536 };
static const size_t MOST = (size_t)1 << 40;
extern byte __heap_base;
static size_t top, last;
static byte nothing[UNIT];

struct tried {
    size_t ok;
    void *p;
};

static size_t rounded(size_t n) { return (n + UNIT - 1) / UNIT * UNIT; }

static bool has_room(size_t end) {
    size_t have = __builtin_wasm_memory_size(0) * PAGE;
    return end <= have || __builtin_wasm_memory_grow(0, (end - have + PAGE - 1) / PAGE) != (size_t)-1;
}

struct tried rattle_alloc(size_t n, size_t align) {
    (void)align; /* it divides UNIT */
    if (top == 0) {
        top = rounded((size_t)&__heap_base);
    }
    if (n > MOST || !has_room(top + rounded(n + 1))) {
        return (struct tried){0, nothing};
    }
    last = top;
    top += rounded(n + 1);
    return (struct tried){1, (void *)last};
}

struct tried rattle_realloc(void *p, size_t kept, size_t n, size_t align) {
    if ((size_t)p == last && n <= MOST && has_room(last + rounded(n + 1))) {
        top = last + rounded(n + 1);
        return (struct tried){1, p};
    }
    struct tried block = rattle_alloc(n, align);
    if (block.ok) {
        __builtin_memcpy(block.p, p, kept < n ? kept : n);
    }
    return block;
}

void rattle_dealloc(void *p) {
    if ((size_t)p == last) {
        top = last;
    }
}

EXPORT(room) void *host_room(size_t n) { return rattle_alloc(n, UNIT).p; }

/* ---- the words, each with a zero behind it */

static const byte *words;
static size_t words_size;

EXPORT(words) void host_words(const byte *from, size_t n) {
    words = from;
    words_size = n;
}

ssize_t rattle_arg(size_t i, byte *to, size_t room) {
    size_t at = 0, n = 0;
    while (at < words_size && i > 0) {
        if (words[at++] == 0) {
            i--;
        }
    }
    if (at >= words_size) {
        return -1;
    }
    for (; words[at + n] != 0; n++) {
        if (n == room) {
            return -2;
        }
        to[n] = words[at + n];
    }
    return (ssize_t)n;
}

/* ---- streams and files: 0 is the input, 1 and 2 are written, and from FIRST on stand the files by name */

enum { INPUT = 0, OUTPUT = 1, ERRORS = 2, NULL_DEVICE = 7, FIRST = 8, MOST_FILES = 16 };

struct file {
    const char *name;
    const byte *bytes;
    size_t size;
};
static struct file files[MOST_FILES];
static size_t files_count;
static const byte *input;
static size_t input_size, input_at;

EXPORT(input) void host_input(const byte *from, size_t n) {
    input = from;
    input_size = n;
}

EXPORT(file) void host_file(const char *name, const byte *from, size_t n) {
    if (files_count < MOST_FILES) {
        files[files_count++] = (struct file){name, from, n};
    }
}

ssize_t read(int descriptor, void *to, size_t n) {
    if (descriptor != INPUT) {
        return fails(BAD_DESCRIPTOR);
    }
    size_t left = input_size - input_at, count = n < left ? n : left;
    __builtin_memcpy(to, input + input_at, count);
    input_at += count;
    return (ssize_t)count;
}

ssize_t write(int descriptor, const void *from, size_t n) {
    if (descriptor != OUTPUT && descriptor != ERRORS) {
        return fails(BAD_DESCRIPTOR);
    }
    host_write(descriptor, from, n);
    return (ssize_t)n;
}

ssize_t __write(int descriptor, const void *from, size_t n) { return write(descriptor, from, n); }

static bool is_same(const char *a, const char *b) {
    while (*a != 0 && *a == *b) {
        a++, b++;
    }
    return *a == *b;
}

static struct file *by_name(const char *path) {
    for (size_t i = 0; i < files_count; i++) {
        if (is_same(files[i].name, path)) {
            return &files[i];
        }
    }
    return NULL;
}

static struct file *by_descriptor(int descriptor) {
    return descriptor >= FIRST && (size_t)(descriptor - FIRST) < files_count ? &files[descriptor - FIRST] : NULL;
}

int open(const char *path, int flags, ...) {
    if (is_same(path, "/dev/null")) {
        return NULL_DEVICE;
    }
    struct file *file = by_name(path);
    if (file == NULL || (flags & 3) != 0) {
        return fails(file == NULL ? NO_ENTRY : NO_ACCESS);
    }
    return FIRST + (int)(file - files);
}

ssize_t pread(int descriptor, void *to, size_t n, long at) {
    struct file *file = by_descriptor(descriptor);
    if (file == NULL) {
        return fails(BAD_DESCRIPTOR);
    }
    if (at < 0 || (size_t)at > file->size) {
        return 0;
    }
    size_t left = file->size - (size_t)at, count = n < left ? n : left;
    __builtin_memcpy(to, file->bytes + at, count);
    return (ssize_t)count;
}

/* Linux's struct statx, of which the kind and the size are asked for */
struct status {
    uint32_t mask, block_size;
    uint64_t attributes;
    uint32_t links, user, group;
    uint16_t mode, spare;
    uint64_t node, size, blocks;
    byte rest[200];
};
_Static_assert(sizeof(struct status) == 256, "as Linux has it");

int statx(int descriptor, const char *path, int flags, unsigned mask, struct status *to) {
    (void)flags, (void)mask;
    struct file *file = *path != 0 ? by_name(path) : by_descriptor(descriptor);
    if (file == NULL) {
        return fails(NO_ENTRY);
    }
    *to = (struct status){0};
    to->mask = 0x7ff;
    to->mode = 0100644;
    to->links = 1;
    to->size = file->size;
    return 0;
}

int close(int descriptor) {
    (void)descriptor;
    return 0;
}

int clock_gettime(int clock, int64_t *to) {
    (void)clock;
    double now = host_now();
    to[0] = (int64_t)(now / 1000);
    to[1] = (int64_t)(now * 1e6) % 1000000000;
    return 0;
}

/* ---- what only `node` calls, which is none of the page's modes, and what files that are only read have no use for */

#define UNUSED __attribute__((unused))
int socket(UNUSED int a, UNUSED int b, UNUSED int c) { return fails(NO_SUCH_CALL); }
int bind(UNUSED int a, UNUSED const void *b, UNUSED unsigned c) { return fails(NO_SUCH_CALL); }
ssize_t sendto(UNUSED int a, UNUSED const void *b, UNUSED size_t c, UNUSED int d, UNUSED const void *e, UNUSED unsigned f) {
    return fails(NO_SUCH_CALL);
}
ssize_t recvfrom(UNUSED int a, UNUSED void *b, UNUSED size_t c, UNUSED int d, UNUSED void *e, UNUSED unsigned *f) {
    return fails(NO_SUCH_CALL);
}
int rattle_set_nonblocking(UNUSED int a, UNUSED bool b) { return fails(NO_SUCH_CALL); }
int poll(UNUSED void *a, UNUSED unsigned long b, UNUSED int c) { return fails(NO_SUCH_CALL); }
int nanosleep(UNUSED const void *a, UNUSED void *b) { return 0; }
long __sysv_signal(UNUSED int a, UNUSED long b) { return 0; }
long lseek(UNUSED int a, UNUSED long b, UNUSED int c) { return fails(CANNOT_SEEK); }
ssize_t pwrite(UNUSED int a, UNUSED const void *b, UNUSED size_t c, UNUSED long d) { return fails(READ_ONLY); }
unsigned geteuid(void) { return 0; } // (the only user)
int flock(UNUSED int a, UNUSED int b) { return 0; }
int fsync(UNUSED int a) { return fails(READ_ONLY); }
int fdatasync(UNUSED int a) { return fails(READ_ONLY); }
int fchmod(UNUSED int a, UNUSED unsigned b) { return fails(READ_ONLY); }
int chmod(UNUSED const char *a, UNUSED unsigned b) { return fails(READ_ONLY); }
int ftruncate(UNUSED int a, UNUSED long b) { return fails(READ_ONLY); }
int unlink(UNUSED const char *a) { return fails(READ_ONLY); }
int __xpg_strerror_r(UNUSED int a, char *to, size_t n) {
    if (n > 0) {
        to[0] = 0;
    }
    return 0;
}

/* ---- the run, and the product of two numbers of 128 bits, which the compiler asks for by this name */

int main(void);
EXPORT(run) int host_run(void) { return main(); }

typedef unsigned __int128 wide;
wide __multi3(wide a, wide b) {
    uint64_t a_low = (uint64_t)a, a_high = (uint64_t)(a >> 64), b_low = (uint64_t)b, b_high = (uint64_t)(b >> 64);
    uint64_t a0 = a_low & 0xffffffff, a1 = a_low >> 32, b0 = b_low & 0xffffffff, b1 = b_low >> 32;
    uint64_t low = a0 * b0, middle = a1 * b0 + (low >> 32), other = a0 * b1 + (middle & 0xffffffff);
    uint64_t high = a1 * b1 + (middle >> 32) + (other >> 32);
    return (wide)(high + a_low * b_high + a_high * b_low) << 64 | (other << 32 | (low & 0xffffffff));
}
