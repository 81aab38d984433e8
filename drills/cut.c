/* Preloaded into a program, it cuts one in CUT_ONE_IN of the connections that the program opens itself, each after some bytes of
   what is sent or received: from then on the connection fails as one does that was reset. Those that others open to it stay whole.

     cc -shared -fPIC -O2 -o cut.so cut.c -ldl
     CUT_ONE_IN=8 CUT_SEED=1 CUT_TOLD=FILE LD_PRELOAD=./cut.so PROGRAM ..

   FILE has two numbers of 64 bits: how many were opened so far, and how many of them were cut. */
#define _GNU_SOURCE
#include <dlfcn.h>
#include <errno.h>
#include <fcntl.h>
#include <stdatomic.h>
#include <stdint.h>
#include <stdlib.h>
#include <sys/mman.h>
#include <sys/socket.h>
#include <sys/uio.h>
#include <unistd.h>

#define FILES 65536

// How many bytes a file may still send and receive before it is cut, and one more; 1 where it is cut, 0 where it isn't to be.
static _Atomic long left[FILES];
static _Atomic uint64_t drawn;

// Connections that were opened, and that were cut: in the file, since a program may end without a word to its libraries.
static _Atomic int64_t uncounted[2], *counts = uncounted;

__attribute__((constructor)) static void count_in_file(void) {
    const char *path = getenv("CUT_TOLD");
    int fd = path ? open(path, O_RDWR | O_CREAT | O_TRUNC, 0600) : -1;
    if (fd < 0) return;
    void *at = ftruncate(fd, sizeof uncounted) == 0 ? mmap(NULL, sizeof uncounted, PROT_READ | PROT_WRITE, MAP_SHARED, fd, 0) : MAP_FAILED;
    if (at != MAP_FAILED) counts = at;
    close(fd);
}

static uint64_t draw(void) {
    static _Atomic int begun;
    if (!atomic_exchange(&begun, 1)) {
        const char *seed = getenv("CUT_SEED");
        atomic_fetch_add(&drawn, seed ? strtoull(seed, NULL, 10) << 32 : 0);
    }
    uint64_t x = atomic_fetch_add(&drawn, 0x9e3779b97f4a7c15u);
    x = (x ^ (x >> 30)) * 0xbf58476d1ce4e5b9u;
    x = (x ^ (x >> 27)) * 0x94d049bb133111ebu;
    return x ^ (x >> 31);
}

static uint64_t one_in(void) {
    const char *said = getenv("CUT_ONE_IN");
    return said ? strtoull(said, NULL, 10) : 0;
}

// Whether the file is cut now; else it has this many bytes less.
static int is_cut(int fd, long bytes) {
    if (fd < 0 || fd >= FILES) return 0;
    long had = atomic_load(&left[fd]);
    if (had == 0) return 0;
    if (had > bytes) {
        atomic_store(&left[fd], had - bytes);
        return 0;
    }
    if (atomic_exchange(&left[fd], 1) != 1) atomic_fetch_add(&counts[1], 1);
    shutdown(fd, SHUT_RDWR);
    errno = ECONNRESET;
    return 1;
}

#define NEXT(name) ((__typeof__(&name))dlsym(RTLD_NEXT, #name))

int connect(int fd, const struct sockaddr *to, socklen_t length) {
    uint64_t cuts = one_in();
    if (to->sa_family == AF_INET) atomic_fetch_add(&counts[0], 1);
    if (fd >= 0 && fd < FILES && to->sa_family == AF_INET && cuts && draw() % cuts == 0)
        atomic_store(&left[fd], 2 + (long)(draw() % 900));
    return NEXT(connect)(fd, to, length);
}

int close(int fd) {
    if (fd >= 0 && fd < FILES) atomic_store(&left[fd], 0);
    return NEXT(close)(fd);
}

ssize_t send(int fd, const void *bytes, size_t count, int flags) { return is_cut(fd, (long)count) ? -1 : NEXT(send)(fd, bytes, count, flags); }
ssize_t write(int fd, const void *bytes, size_t count) { return is_cut(fd, (long)count) ? -1 : NEXT(write)(fd, bytes, count); }
ssize_t writev(int fd, const struct iovec *parts, int count) { return is_cut(fd, 200) ? -1 : NEXT(writev)(fd, parts, count); }
ssize_t recv(int fd, void *bytes, size_t count, int flags) { return is_cut(fd, 100) ? -1 : NEXT(recv)(fd, bytes, count, flags); }
ssize_t read(int fd, void *bytes, size_t count) { return is_cut(fd, 100) ? -1 : NEXT(read)(fd, bytes, count); }
