// Preloaded into a program, it counts the calls that change files, and has one of them fail or bring a signal.
//
// CALLS names a file of three numbers of eight octets, which is shared with whoever started the program: the call,
// counted from 1, that is not made; what happens in its place, the number of a signal or, below 0, of an error; and then
// what is told, how many calls there were. It is made without headers and without a C library's start files, so that the
// kit's clang is all that is needed.

typedef unsigned long size;

extern int *__errno_location(void);
extern char *getenv(const char *);
extern void *dlsym(void *, const char *);
extern void *mmap(void *, size, int, int, int, long);
extern int raise(int);

enum { READ_WRITE = 2, CREATE = 0100, PROT_READ_WRITE = 3, MAP_SHARED = 1 };

struct calls {
    long which, what, made;
};

static struct calls nowhere = {0, 0, 0};
static volatile struct calls *calls = &nowhere;

// The next function of a name: that of the C library.
#define NEXT(name) ((__typeof__(&name))dlsym((void *)-1, #name))

static int is_stopped(void) {
    if (++calls->made != calls->which)
        return 0;
    if (calls->what > 0)
        raise((int)calls->what);
    *__errno_location() = (int)-calls->what;
    return 1;
}

int open(const char *path, int flags, ...) {
    __builtin_va_list words;
    __builtin_va_start(words, flags);
    unsigned mode = flags & CREATE ? __builtin_va_arg(words, unsigned) : 0;
    __builtin_va_end(words);
    return flags & CREATE && is_stopped() ? -1 : NEXT(open)(path, flags, mode);
}

long write(int file, const void *octets, size count) {
    return is_stopped() ? -1 : NEXT(write)(file, octets, count);
}

int fsync(int file) {
    return is_stopped() ? -1 : NEXT(fsync)(file);
}

int fchown(int file, unsigned owner, unsigned group) {
    return is_stopped() ? -1 : NEXT(fchown)(file, owner, group);
}

int fchmod(int file, unsigned mode) {
    return is_stopped() ? -1 : NEXT(fchmod)(file, mode);
}

int link(const char *from, const char *to) {
    return is_stopped() ? -1 : NEXT(link)(from, to);
}

int rename(const char *from, const char *to) {
    return is_stopped() ? -1 : NEXT(rename)(from, to);
}

int unlink(const char *path) {
    return is_stopped() ? -1 : NEXT(unlink)(path);
}

__attribute__((constructor)) static void begin(void) {
    const char *name = getenv("CALLS");
    int file = name ? NEXT(open)(name, READ_WRITE, 0) : -1;
    void *page = file < 0 ? (void *)-1 : mmap(0, sizeof(struct calls), PROT_READ_WRITE, MAP_SHARED, file, 0);
    if (page != (void *)-1)
        calls = page;
}
