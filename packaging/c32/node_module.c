/* What the module for 32 bits has beside the library: the memory of one node, and the three functions of its store,
 * which the module imports. It is compiled for WebAssembly, and linked with the library's own module. */
typedef unsigned long size_t;
typedef long ssize_t;

#define IMPORT(name) __attribute__((import_module("host"), import_name(#name)))
#define EXPORT(name) __attribute__((export_name(#name), used))

enum { NODE_BYTES = 46568 };

IMPORT(pread) ssize_t host_pread(int fd, void *to, size_t count, long at);
IMPORT(pwrite) ssize_t host_pwrite(int fd, const void *from, size_t count, long at);
IMPORT(fdatasync) int host_fdatasync(int fd);

ssize_t pread(int fd, void *to, size_t count, long at) {
    return host_pread(fd, to, count, at);
}

ssize_t pwrite(int fd, const void *from, size_t count, long at) {
    return host_pwrite(fd, from, count, at);
}

int fdatasync(int fd) {
    return host_fdatasync(fd);
}

void caldrouz_make(void *node, unsigned id, unsigned size, unsigned fd);
unsigned long caldrouz_call(void *node, unsigned op, unsigned long now, unsigned long a, unsigned long b);

static _Alignas(16) unsigned char node[NODE_BYTES];

EXPORT(make) void make(unsigned id, unsigned size, unsigned fd) {
    caldrouz_make(node, id, size, fd);
}

EXPORT(call) unsigned long call(unsigned op, unsigned long now, unsigned long a, unsigned long b) {
    return caldrouz_call(node, op, now, a, b);
}
