/* Preloaded into a program, it has the program connect to other ports of this machine than those that it names, as a proxy between its
   services wants it. DETOURS says for each port which one it is: "8101=9101,8102=9102". It stands on no header and no library but what
   the program has anyway, so that any compiler makes it.

     cc -shared -fPIC -O2 -nostdlib -o detour.so detour.c
     DETOURS=8101=9101 LD_PRELOAD=./detour.so PROGRAM .. */

/* An address of the Internet's fourth version: its family, and its port with the greater byte first. */
struct address {
    unsigned short family;
    unsigned char port[2];
    unsigned char rest[12];
};

enum { INTERNET = 2 };

extern char *getenv(const char *name);
extern void *dlsym(void *after, const char *name);

/* The number at which the text stands, which goes on behind it. */
static unsigned number_of(const char **text) {
    unsigned number = 0;
    for (; **text >= '0' && **text <= '9'; ++*text) number = 10 * number + (unsigned)(**text - '0');
    return number;
}

static unsigned detour_of(unsigned port) {
    const char *rest = getenv("DETOURS");
    while (rest && *rest) {
        unsigned from = number_of(&rest);
        if (*rest != '=') break;
        rest++;
        unsigned to = number_of(&rest);
        if (from == port) return to;
        if (*rest == ',') rest++;
    }
    return port;
}

int connect(int file, const void *to, unsigned length) {
    /* the library's own, which stands behind this one */
    int (*next)(int, const void *, unsigned) = (int (*)(int, const void *, unsigned))dlsym((void *)-1L, "connect");
    const struct address *named = to;
    if (length < sizeof *named || named->family != INTERNET) return next(file, to, length);
    struct address other = *named;
    unsigned port = detour_of(256u * named->port[0] + named->port[1]);
    other.port[0] = (unsigned char)(port / 256);
    other.port[1] = (unsigned char)port;
    return next(file, &other, sizeof other);
}
