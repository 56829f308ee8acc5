/* A plain switch interpreter for the 8080 in C, to compare with lab80's step: the same
 * duties for each step (a slot for one port operation, what the step did, the interrupt state), flags in
 * one byte, S, Z and P from a table; and three endless workloads. core.c and board.c run them. */
#include <stdint.h>
#include <stdio.h>
#include <stdlib.h>
#include <string.h>

enum { OFF, ARMING, ON };
enum { DONE, CALLED, RETURNED, HALTED, UNDEFINED };
typedef struct { int kind; uint16_t slot, target; } Stepped;
typedef struct { uint8_t a, b, c, d, e, h, l, f; uint16_t sp, pc; int interrupts; uint8_t *memory; } Machine;
typedef struct { int held; uint8_t port, byte; } Slot;

static uint8_t shown[256];

#define M (m->memory[(m->h << 8) | m->l])
#define BYTE (m->memory[(uint16_t)(m->pc + 1)])
#define WORD ((uint16_t)(BYTE | m->memory[(uint16_t)(m->pc + 2)] << 8))

static inline void add(Machine *m, uint8_t y, int c) {
    unsigned t = m->a + y + c; uint8_t v = t;
    m->f = shown[v] | ((m->a ^ y ^ v) & 0x10) | (t >> 8 & 1); m->a = v;
}
static inline uint8_t difference(Machine *m, uint8_t y, int b) {
    unsigned t = m->a + (uint8_t)~y + !b; uint8_t v = t;
    m->f = shown[v] | ((m->a ^ (uint8_t)~y ^ v) & 0x10) | ((t >> 8 & 1) ^ 1); return v;
}
static inline uint8_t inr(Machine *m, uint8_t x) { uint8_t v = x + 1; m->f = (m->f & 1) | shown[v] | ((v & 15) == 0) << 4; return v; }
static inline uint8_t dcr(Machine *m, uint8_t x) { uint8_t v = x - 1; m->f = (m->f & 1) | shown[v] | ((v & 15) != 15) << 4; return v; }
static inline void dad(Machine *m, unsigned x) { unsigned t = ((m->h << 8) | m->l) + x; m->h = t >> 8; m->l = t; m->f = (m->f & 0xfe) | (t >> 16 & 1); }
static inline void push(Machine *m, uint16_t w) { m->memory[(uint16_t)(m->sp - 1)] = w >> 8; m->memory[(uint16_t)(m->sp - 2)] = w; m->sp -= 2; }
static inline uint16_t pop(Machine *m) { uint16_t w = m->memory[m->sp] | m->memory[(uint16_t)(m->sp + 1)] << 8; m->sp += 2; return w; }
static inline int holds(Machine *m, int c) {
    static const uint8_t mask[4] = { 0x40, 0x01, 0x04, 0x80 };
    return !!(m->f & mask[c >> 1]) == (c & 1);
}
static inline void alu(Machine *m, int op, uint8_t x) {
    switch (op) {
    case 0: add(m, x, 0); break;
    case 1: add(m, x, m->f & 1); break;
    case 2: m->a = difference(m, x, 0); break;
    case 3: m->a = difference(m, x, m->f & 1); break;
    case 4: { uint8_t ac = ((m->a | x) & 8) << 1; m->a &= x; m->f = shown[m->a] | ac; } break;
    case 5: m->a ^= x; m->f = shown[m->a]; break;
    case 6: m->a |= x; m->f = shown[m->a]; break;
    default: difference(m, x, 0);
    }
}
static inline Stepped called(Machine *m, uint16_t target) { push(m, m->pc); m->pc = target; return (Stepped){ CALLED, m->sp, target }; }
static inline Stepped returned(Machine *m) { uint16_t slot = m->sp; m->pc = pop(m); return (Stepped){ RETURNED, slot, 0 }; }

#define REGS(X, n) X(n, m->b, 0) X(n, m->c, 1) X(n, m->d, 2) X(n, m->e, 3) X(n, m->h, 4) X(n, m->l, 5) X(n, m->a, 7)
#define ALU(n, s, i) case 0x80 + n * 8 + i: m->pc += 1; alu(m, n, s); break;
#define ALUS(n) REGS(ALU, n) case 0x86 + n * 8: m->pc += 1; alu(m, n, M); break; case 0xc6 + n * 8: { uint8_t x = BYTE; m->pc += 2; alu(m, n, x); } break;
#define MOVS(n, to) case 0x40 + n * 8: m->pc++; to = m->b; break; case 0x41 + n * 8: m->pc++; to = m->c; break; case 0x42 + n * 8: m->pc++; to = m->d; break; \
    case 0x43 + n * 8: m->pc++; to = m->e; break; case 0x44 + n * 8: m->pc++; to = m->h; break; case 0x45 + n * 8: m->pc++; to = m->l; break; \
    case 0x46 + n * 8: m->pc++; to = M; break; case 0x47 + n * 8: m->pc++; to = m->a; break;
#define REG(n, to) case 0x04 + n * 8: m->pc++; to = inr(m, to); break; case 0x05 + n * 8: m->pc++; to = dcr(m, to); break; \
    case 0x06 + n * 8: { uint8_t x = BYTE; m->pc += 2; to = x; } break;
#define PAIR(n, hi, lo) case 0x01 + n * 16: { uint16_t w = WORD; m->pc += 3; hi = w >> 8; lo = w; } break; \
    case 0x03 + n * 16: m->pc++; if (!++lo) hi++; break; case 0x0b + n * 16: m->pc++; if (!lo--) hi--; break; \
    case 0x09 + n * 16: m->pc++; dad(m, (hi << 8) | lo); break; \
    case 0xc5 + n * 16: m->pc++; push(m, (hi << 8) | lo); break; case 0xc1 + n * 16: { m->pc++; uint16_t w = pop(m); hi = w >> 8; lo = w; } break;
#define COND(n) case 0xc0 + n * 8: m->pc++; if (holds(m, n)) return returned(m); break; \
    case 0xc2 + n * 8: { uint16_t t = WORD; m->pc += 3; if (holds(m, n)) m->pc = t; } break; \
    case 0xc4 + n * 8: { uint16_t t = WORD; m->pc += 3; if (holds(m, n)) return called(m, t); } break; \
    case 0xc7 + n * 8: m->pc++; return called(m, 8 * n);

static inline __attribute__((always_inline)) Stepped step(Machine *m, Slot *s) {
    uint8_t op = m->memory[m->pc];
    int began = m->interrupts;
    if (began == ARMING) m->interrupts = ON;
    switch (op) {
    case 0x00: m->pc++; break;
    REG(0, m->b) REG(1, m->c) REG(2, m->d) REG(3, m->e) REG(4, m->h) REG(5, m->l) REG(7, m->a)
    case 0x34: m->pc++; M = inr(m, M); break;
    case 0x35: m->pc++; M = dcr(m, M); break;
    case 0x36: { uint8_t x = BYTE; m->pc += 2; M = x; } break;
    PAIR(0, m->b, m->c) PAIR(1, m->d, m->e) PAIR(2, m->h, m->l)
    case 0x31: { uint16_t w = WORD; m->pc += 3; m->sp = w; } break;
    case 0x33: m->pc++; m->sp++; break;
    case 0x3b: m->pc++; m->sp--; break;
    case 0x39: m->pc++; dad(m, m->sp); break;
    case 0x02: m->pc++; m->memory[(m->b << 8) | m->c] = m->a; break;
    case 0x12: m->pc++; m->memory[(m->d << 8) | m->e] = m->a; break;
    case 0x0a: m->pc++; m->a = m->memory[(m->b << 8) | m->c]; break;
    case 0x1a: m->pc++; m->a = m->memory[(m->d << 8) | m->e]; break;
    case 0x22: { uint16_t w = WORD; m->pc += 3; m->memory[w] = m->l; m->memory[(uint16_t)(w + 1)] = m->h; } break;
    case 0x2a: { uint16_t w = WORD; m->pc += 3; m->l = m->memory[w]; m->h = m->memory[(uint16_t)(w + 1)]; } break;
    case 0x32: { uint16_t w = WORD; m->pc += 3; m->memory[w] = m->a; } break;
    case 0x3a: { uint16_t w = WORD; m->pc += 3; m->a = m->memory[w]; } break;
    case 0x07: m->pc++; m->f = (m->f & 0xfe) | m->a >> 7; m->a = m->a << 1 | m->a >> 7; break;
    case 0x0f: m->pc++; m->f = (m->f & 0xfe) | (m->a & 1); m->a = m->a >> 1 | m->a << 7; break;
    case 0x17: { m->pc++; uint8_t c = m->f & 1; m->f = (m->f & 0xfe) | m->a >> 7; m->a = m->a << 1 | c; } break;
    case 0x1f: { m->pc++; uint8_t c = m->f & 1; m->f = (m->f & 0xfe) | (m->a & 1); m->a = m->a >> 1 | c << 7; } break;
    case 0x27: { m->pc++; int low = (m->a & 15) > 9 || (m->f & 0x10) ? 6 : 0; int cy = (m->f & 1) || m->a > 0x99;
        uint8_t v = m->a + low + (cy ? 0x60 : 0); m->f = shown[v] | ((m->a ^ v) & 0x10) | cy; m->a = v; } break;
    case 0x2f: m->pc++; m->a = ~m->a; break;
    case 0x37: m->pc++; m->f |= 1; break;
    case 0x3f: m->pc++; m->f ^= 1; break;
    MOVS(0, m->b) MOVS(1, m->c) MOVS(2, m->d) MOVS(3, m->e) MOVS(4, m->h) MOVS(5, m->l) MOVS(7, m->a)
    case 0x70: m->pc++; M = m->b; break; case 0x71: m->pc++; M = m->c; break; case 0x72: m->pc++; M = m->d; break;
    case 0x73: m->pc++; M = m->e; break; case 0x74: m->pc++; M = m->h; break; case 0x75: m->pc++; M = m->l; break;
    case 0x77: m->pc++; M = m->a; break;
    case 0x76: m->pc++; return (Stepped){ HALTED, 0, 0 };
    ALUS(0) ALUS(1) ALUS(2) ALUS(3) ALUS(4) ALUS(5) ALUS(6) ALUS(7)
    COND(0) COND(1) COND(2) COND(3) COND(4) COND(5) COND(6) COND(7)
    case 0xf5: m->pc++; push(m, m->a << 8 | m->f); break;
    case 0xf1: { m->pc++; uint16_t w = pop(m); m->a = w >> 8; m->f = (w & 0xd7) | 2; } break;
    case 0xc3: m->pc = WORD; break;
    case 0xcd: { uint16_t t = WORD; m->pc += 3; return called(m, t); }
    case 0xc9: m->pc++; return returned(m);
    case 0xe3: { m->pc++; uint8_t *lo = &m->memory[m->sp], *hi = &m->memory[(uint16_t)(m->sp + 1)], x = *lo, y = *hi;
        *lo = m->l; *hi = m->h; m->l = x; m->h = y; } break;
    case 0xeb: { m->pc++; uint8_t x = m->h, y = m->l; m->h = m->d; m->l = m->e; m->d = x; m->e = y; } break;
    case 0xe9: m->pc = (m->h << 8) | m->l; break;
    case 0xf9: m->pc++; m->sp = (m->h << 8) | m->l; break;
    case 0xd3: { uint8_t p = BYTE; m->pc += 2; s->held = 2; s->port = p; s->byte = m->a; } break;
    case 0xdb: { uint8_t p = BYTE; m->pc += 2; s->held = 1; s->port = p; s->byte = 0; m->a = 0; } break;
    case 0xf3: m->pc++; m->interrupts = OFF; break;
    case 0xfb: m->pc++; m->interrupts = ARMING; break;
    default: m->interrupts = began; return (Stepped){ UNDEFINED, op, 0 };
    }
    return (Stepped){ DONE, 0, 0 };
}

static const uint8_t loop[] = { 0x06, 0, 0x0e, 0, 0x0d, 0xc2, 4, 0, 0x05, 0xc2, 4, 0, 0xc3, 0, 0 };
static const uint8_t sort[] = { 0x31, 0, 0x30, 0x21, 0, 0x20, 0x78, 0x07, 0x80, 0xc6, 0x3b, 0x47, 0x77, 0x2c, 0xc2, 6, 0,
    0x21, 0, 0x20, 0x0e, 0, 0x16, 0xff, 0x7e, 0x23, 0xbe, 0xda, 0x28, 0, 0xca, 0x28, 0, 0x5e, 0x77, 0x2b, 0x73, 0x23, 0x0e, 1,
    0x15, 0xc2, 0x18, 0, 0x79, 0xb7, 0xc2, 0x11, 0, 0x04, 0xc3, 3, 0 };
static const uint8_t calls[] = { 0x31, 0, 0x40, 0x3e, 1, 0xcd, 0x10, 0, 0x3c, 0xc2, 5, 0, 0xc3, 3, 0, 0, 0xc5, 0x47, 0x87, 0xa8,
    0xe6, 0x3f, 0x88, 0x17, 0x94, 0xde, 5, 0x27, 0x2f, 0x6f, 0xcd, 0x24, 0, 0x78, 0xc1, 0xc9, 0xb0, 0x3f, 0xd0, 0x67, 0xc9 };


static const uint8_t *workload(const char *name, size_t *size) {
    if (!strcmp(name, "loop")) { *size = sizeof loop; return loop; }
    if (!strcmp(name, "sort")) { *size = sizeof sort; return sort; }
    if (!strcmp(name, "calls")) { *size = sizeof calls; return calls; }
    return NULL;
}

/* A machine after power-on with a workload at address 0; memory is NULL if there is no such workload. */
static Machine started(const char *name) {
    for (int i = 0; i < 256; i++) shown[i] = (i & 0x80) | (i == 0) << 6 | (__builtin_popcount(i) % 2 == 0) << 2 | 2;
    Machine m = { 0 };
    size_t size;
    const uint8_t *code = workload(name, &size);
    if (!code) return m;
    m.f = 2; m.memory = calloc(65536, 1);
    if (m.memory) memcpy(m.memory, code, size);
    return m;
}

static void show(const char *name, const Machine *m) {
    printf("%s PC=%04X A=%02X F=%02X B=%02X C=%02X D=%02X E=%02X H=%02X L=%02X SP=%04X\n", name, m->pc, m->a, m->f, m->b, m->c, m->d, m->e, m->h, m->l, m->sp);
}
