/* Runs the plain interpreter with a board's duties, like lab80's slices: slices of 4,096 with preallocated room
 * for their port operations, acceptance of a latched request, live frames, and, attached, a bit for
 * each address, checked before each step. Usage: board plain|attached WORKLOAD COUNT */
#include "machine.h"

typedef struct { uint16_t slot, target, site; } Frame;
typedef struct {
    Machine machine;
    Frame frames[65536];
    size_t live;
    uint8_t bits[8192];
    int attached, resumed, moved, halted, latched;
    Slot *traffic;
    size_t operations;
} Board;
enum { MORE, WAITING, STOPPED, ENDED };

static inline int is_ended(Stepped did, uint16_t sp, uint16_t slot) {
    return slot < sp || (did.kind == CALLED && slot <= did.slot) || (did.kind == RETURNED && slot == did.slot);
}

static inline void advance(Board *b, Stepped did, uint16_t site, uint16_t sp) {
    while (b->live && is_ended(did, sp, b->frames[b->live - 1].slot)) b->live--;
    if (did.kind == CALLED) b->frames[b->live++] = (Frame){ did.slot, did.target, site };
}

static inline int is_at_breakpoint(const Board *b, uint16_t pc) {
    return (b->moved || !b->resumed) && (b->bits[pc >> 3] >> (pc & 7) & 1);
}

/* Makes at most n steps, and returns how many. The machine is a local value meanwhile. */
static inline unsigned steps(Board *b, unsigned n, int attached, int *outcome) {
    Machine m = b->machine;
    Slot s = { 0 };
    unsigned k;
    *outcome = MORE;
    for (k = 0; k <= n; k++) {
        if (b->halted && m.interrupts == OFF) { *outcome = ENDED; break; }
        if (attached && is_at_breakpoint(b, m.pc)) { *outcome = STOPPED; break; }
        if (k == n) break;
        if (b->halted && m.interrupts == ON && b->latched < 0) { *outcome = WAITING; break; }
        uint16_t pc = m.pc;
        Stepped did;
        if (m.interrupts == ON && b->latched >= 0) {
            m.interrupts = OFF;
            did = called(&m, 8 * b->latched);
            b->latched = -1;
        } else {
            s.held = 0;
            did = step(&m, &s);
            if (did.kind == UNDEFINED) { *outcome = ENDED; break; }
            if (s.held) b->traffic[b->operations++] = s;
        }
        advance(b, did, pc, m.sp);
        b->halted = did.kind == HALTED;
        b->moved = 1;
    }
    b->machine = m;
    return k;
}

__attribute__((noinline)) static unsigned slice(Board *b, unsigned n, int *outcome) {
    b->traffic = malloc(n * sizeof *b->traffic);
    if (!b->traffic) exit(3);
    b->operations = 0;
    unsigned executed = b->attached ? steps(b, n, 1, outcome) : steps(b, n, 0, outcome);
    free(b->traffic);
    return executed;
}

int main(int argc, char **argv) {
    if (argc != 4) return 2;
    Board *b = calloc(1, sizeof *b);
    if (!b) return 3;
    b->machine = started(argv[2]);
    if (!b->machine.memory) return 3;
    b->latched = -1;
    b->attached = !strcmp(argv[1], "attached");
    b->bits[0x7000 >> 3] = 1;
    unsigned long left = strtoul(argv[3], 0, 10);
    for (int outcome = MORE; left && outcome == MORE;) left -= slice(b, left < 4096 ? left : 4096, &outcome);
    show(argv[2], &b->machine);
}
