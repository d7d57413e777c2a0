// Preloaded into a program, it counts each time that the program asks for memory, and refuses some.
//
// ALLOCATIONS names a file of six numbers of eight octets, which is shared with whoever started the program: the first
// allocation to refuse and the last one, both counted from 1, and then what is told, how often the program asked, how
// often it was refused, how many pieces of memory it holds, and how many it held when it last asked. Allocations before
// the program's own start are not counted. It is made without headers and without a C library's start files, so that the
// kit's clang is all that is needed.

typedef unsigned long size;

extern void *__libc_malloc(size);
extern void *__libc_calloc(size, size);
extern void *__libc_realloc(void *, size);
extern void *__libc_memalign(size, size);
extern void __libc_free(void *);
extern int *__errno_location(void);
extern char *getenv(const char *);
extern int open(const char *, int, ...);
extern void *mmap(void *, size, int, int, int, long);

enum { READ_WRITE = 2, PROT_READ_WRITE = 3, MAP_SHARED = 1, NO_MEMORY = 12 };

struct allocations {
    long first, last, asked, refused, held, held_last;
};

static struct allocations nowhere = {0, 0, 0, 0, 0, 0};
static volatile struct allocations *allocations = &nowhere;

__attribute__((constructor)) static void begin(void) {
    const char *name = getenv("ALLOCATIONS");
    int file = name ? open(name, READ_WRITE) : -1;
    void *page = file < 0 ? (void *)-1 : mmap(0, sizeof(struct allocations), PROT_READ_WRITE, MAP_SHARED, file, 0);
    if (page != (void *)-1)
        allocations = page;
}

static int is_refused(void) {
    long allocation = ++allocations->asked;
    allocations->held_last = allocations->held;
    if (allocation < allocations->first || allocations->last < allocation)
        return 0;
    allocations->refused++;
    *__errno_location() = NO_MEMORY;
    return 1;
}

static void *counted(void *made) {
    if (made)
        allocations->held++;
    return made;
}

void *malloc(size octets) {
    return is_refused() ? 0 : counted(__libc_malloc(octets));
}

void *calloc(size count, size octets) {
    return is_refused() ? 0 : counted(__libc_calloc(count, octets));
}

void *realloc(void *old, size octets) {
    if (is_refused())
        return 0;
    return old ? __libc_realloc(old, octets) : counted(__libc_malloc(octets));
}

void *aligned_alloc(size alignment, size octets) {
    return is_refused() ? 0 : counted(__libc_memalign(alignment, octets));
}

int posix_memalign(void **made, size alignment, size octets) {
    if (is_refused())
        return NO_MEMORY;
    *made = counted(__libc_memalign(alignment, octets));
    return *made ? 0 : NO_MEMORY;
}

void free(void *old) {
    if (old)
        allocations->held--;
    __libc_free(old);
}
