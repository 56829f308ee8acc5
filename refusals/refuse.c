/* A preloaded library that fails chosen allocations, reads and writes of a program. COUNTS names a file of three rows of
   four 64-bit numbers, one row for each of these kinds, which it maps: the number of calls, the first and the last call
   to fail, counted from 1, and the number of failed calls. The process's parent may read and write them while it runs.
   It is built with the kit's compiler, which has no headers. The system call numbers are those of x86-64. */
typedef __SIZE_TYPE__ size_t;
extern void *__libc_malloc(size_t), *__libc_realloc(void *, size_t), *__libc_calloc(size_t, size_t);
extern void *__libc_memalign(size_t, size_t);
extern void *mmap(void *, size_t, int, int, int, long);
extern char *getenv(const char *);
extern int open(const char *, int, ...), close(int), *__errno_location(void);
extern long syscall(long, ...);

enum { TO_READ = 1, TO_WRITE = 2, SHARED = 1, READ_AND_WRITE = 2 };
enum { NO_MEMORY = 12, WRONG = 22, BROKEN = 5 };
enum { READ = 0, WRITE = 1, WRITEV = 20, SENDTO = 44, RECVFROM = 45, SENDMSG = 46 };
enum { ALLOCATIONS, READS, WRITES, KINDS };

struct counts {
    long asked, first, last, refused;
};

static struct counts nothing_refused[KINDS], *counts;

/* The first allocation is made while there is one thread. */
static struct counts *mapped(void) {
    const char *name = getenv("COUNTS");
    int file = name ? open(name, READ_AND_WRITE) : -1;
    if (file < 0)
        return nothing_refused;
    void *found = mmap(0, sizeof nothing_refused, TO_READ | TO_WRITE, SHARED, file, 0);
    close(file);
    return found == (void *)-1 ? nothing_refused : found;
}

static int is_refused(int kind, int error) {
    if (!counts)
        counts = mapped();
    struct counts *of = &counts[kind];
    long number = __atomic_add_fetch(&of->asked, 1, __ATOMIC_SEQ_CST);
    long first = __atomic_load_n(&of->first, __ATOMIC_SEQ_CST);
    long last = __atomic_load_n(&of->last, __ATOMIC_SEQ_CST);
    if (number < first || number > last)
        return 0;
    __atomic_add_fetch(&of->refused, 1, __ATOMIC_SEQ_CST);
    *__errno_location() = error;
    return 1;
}

static int has_no_memory(void) { return is_refused(ALLOCATIONS, NO_MEMORY); }

void *malloc(size_t size) { return has_no_memory() ? 0 : __libc_malloc(size); }
void *realloc(void *block, size_t size) { return has_no_memory() ? 0 : __libc_realloc(block, size); }
void *calloc(size_t count, size_t size) { return has_no_memory() ? 0 : __libc_calloc(count, size); }
void *memalign(size_t alignment, size_t size) { return has_no_memory() ? 0 : __libc_memalign(alignment, size); }
void *aligned_alloc(size_t alignment, size_t size) { return memalign(alignment, size); }

int posix_memalign(void **block, size_t alignment, size_t size) {
    if (alignment < sizeof(void *) || alignment & (alignment - 1))
        return WRONG;
    void *made = memalign(alignment, size);
    if (!made)
        return NO_MEMORY;
    *block = made;
    return 0;
}

long read(int file, void *bytes, size_t size) {
    return is_refused(READS, BROKEN) ? -1 : syscall(READ, file, bytes, size);
}

long recv(int file, void *bytes, size_t size, int flags) {
    return is_refused(READS, BROKEN) ? -1 : syscall(RECVFROM, file, bytes, size, flags, 0, 0);
}

long write(int file, const void *bytes, size_t size) {
    return is_refused(WRITES, BROKEN) ? -1 : syscall(WRITE, file, bytes, size);
}

long writev(int file, const void *parts, int count) {
    return is_refused(WRITES, BROKEN) ? -1 : syscall(WRITEV, file, parts, count);
}

long send(int file, const void *bytes, size_t size, int flags) {
    return is_refused(WRITES, BROKEN) ? -1 : syscall(SENDTO, file, bytes, size, flags, 0, 0);
}

long sendmsg(int file, const void *message, int flags) {
    return is_refused(WRITES, BROKEN) ? -1 : syscall(SENDMSG, file, message, flags);
}
