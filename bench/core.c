/* Runs the plain interpreter's steps, one after the other. Usage: core WORKLOAD COUNT */
#include "machine.h"

__attribute__((noinline)) static void run(Machine *given, Slot *s, unsigned long count) {
    Machine m = *given;
    for (unsigned long i = 0; i < count; i++) {
        s->held = 0;
        if (step(&m, s).kind == HALTED) break;
    }
    *given = m;
}

int main(int argc, char **argv) {
    if (argc != 3) return 2;
    Slot s = { 0 };
    Machine m = started(argv[1]);
    if (!m.memory) return 3;
    run(&m, &s, strtoul(argv[2], 0, 10));
    show(argv[1], &m);
}
