// What lab80_web takes from the C library of Linux, for a WebAssembly module, which has none: a heap, the arithmetic of
// 128 bits that LLVM calls, and what the start of a program asks. `read` and `write` stay the host's. No proof covers this
// file, as none covers the C library.
typedef unsigned long long u64;
typedef unsigned __int128 u128;

// ---- The heap: blocks by classes of sizes, cut from the end of the memory, and used again once they are freed. Neighbours
// aren't joined, so each call takes a few instructions whatever was freed before.

enum { PAGE = 65536, CLASSES = 144 };

// No engine has so much memory. Below it no sum overflows, and the module with 32-bit addresses can count the pages.
static const u64 LIMIT = 1ull << 40;

// What stands before each block. Its size is a multiple of 16, as those of the classes and __heap_base are, so that all
// blocks are aligned to 16.
struct block { struct block *next; u64 class; };

extern char __heap_base;
static char *top = &__heap_base;
static struct block *freed[CLASSES];

// The sizes are 16, 32 and 48, and above them four to each doubling: 64, 80, 96, 112, 128, 160 .. The powers of two are
// among them, since growing vectors ask for these.
static u64 size_of(u64 class) { return class < 4 ? class * 16 : (4 + class % 4) << (class / 4 + 3); }

// The smallest class with room for n bytes, which are neither 0 nor above the limit.
static u64 class_of(u64 n) {
    if (n <= 64) return (n + 15) / 16;
    u64 highest = 63 - __builtin_clzll(n - 1);
    return (highest - 5) * 4 + ((n - 1) >> (highest - 2) & 3) + 1;
}

// Whether there are n bytes from the top on, if need be after the memory has grown. Its size tells that: what memory.grow
// answers on failure is another number in the module with 32-bit addresses.
static int has_room(u64 n) {
    u64 pages = ((u64)top + n + PAGE - 1) / PAGE, there = __builtin_wasm_memory_size(0);
    if (pages > there) __builtin_wasm_memory_grow(0, pages - there);
    return __builtin_wasm_memory_size(0) >= pages;
}

// A block for n bytes: one that was freed, or a new one, or where the memory can't grow a larger one that was freed.
static void *take(u64 n) {
    if (n > LIMIT) return 0;
    u64 class = class_of(n);
    struct block *block = freed[class];
    if (!block && has_room(sizeof *block + size_of(class))) {
        block = (struct block *)top;
        top += sizeof *block + size_of(class);
        block->class = class;
        return block + 1;
    }
    while (!(block = freed[class])) if (++class == CLASSES) return 0;
    freed[class] = block->next;
    return block + 1;
}

static void give(void *p) {
    struct block *block = (struct block *)p - 1;
    block->next = freed[block->class];
    freed[block->class] = block;
}

// The kit's contract for these three is in its libc/src/heap.rt. A failure is `ok` of 0 with a pointer that isn't null, and
// leaves the old block as it was; a size of 0 is that of the alignment `a`, which is at most 16.
struct tried { u64 ok; void *p; };

static struct tried tried(void *p) { return (struct tried){p != 0, p ? p : &__heap_base}; }

struct tried rattle_alloc(u64 n, u64 a) { return tried(take(n ? n : a)); }

void rattle_dealloc(void *p) { give(p); }

// The block stays where it is if n bytes fill at least half of it, and where no smaller one can be had.
struct tried rattle_realloc(void *p, u64 kept, u64 n, u64 a) {
    u64 room = size_of(((struct block *)p - 1)->class), wanted = n ? n : a;
    if (wanted <= room && wanted >= room / 2) return tried(p);
    void *moved = take(wanted);
    if (!moved) return tried(wanted <= room ? p : 0);
    __builtin_memcpy(moved, p, kept);
    give(p);
    return tried(moved);
}

// ---- Arithmetic of 128 bits: products modulo 2^128, and shifts by fewer than 128 places.

union wide { u128 all; struct { u64 low, high; } half; };

// Not optimized, since clang finds that this is a product of 128 bits, and would call this very function for it.
__attribute__((optnone, noinline)) u128 __multi3(u128 x, u128 y) {
    union wide a = {x}, b = {y}, product;
    u64 a0 = (unsigned)a.half.low, a1 = a.half.low >> 32, b0 = (unsigned)b.half.low, b1 = b.half.low >> 32;
    u64 middle = (a0 * b0 >> 32) + (unsigned)(a0 * b1) + (unsigned)(a1 * b0);
    product.half.low = a.half.low * b.half.low;
    product.half.high = a1 * b1 + (a0 * b1 >> 32) + (a1 * b0 >> 32) + (middle >> 32);
    product.half.high += a.half.high * b.half.low + a.half.low * b.half.high;
    return product.all;
}

u128 __lshrti3(u128 x, int places) {
    union wide a = {x}, shifted = {0};
    if (places == 0) return x;
    shifted.half.low = places < 64 ? a.half.low >> places | a.half.high << (64 - places) : a.half.high >> (places - 64);
    if (places < 64) shifted.half.high = a.half.high >> places;
    return shifted.all;
}

u128 __ashlti3(u128 x, int places) {
    union wide a = {x}, shifted = {0};
    if (places == 0) return x;
    shifted.half.high = places < 64 ? a.half.high << places | a.half.low >> (64 - places) : a.half.low << (places - 64);
    if (places < 64) shifted.half.low = a.half.low << places;
    return shifted.all;
}

// ---- The start and the end of a program.

// Standard input isn't a file whose position can be set, and a failed call of the host's has no further reason: EIO.
u64 lseek(int file, u64 offset, int whence) { return -1ull; }

int rattle_errno(void) { return 5; }

// There are no signals, so SIGPIPE is ignored as it is.
void *__sysv_signal(int number, void *handler) { return 0; }
