/* A preloaded library with which a new thread runs to its end before the one that starts it goes on. So a program whose
   threads don't wait for one another makes the same calls in the same order on each run. It is built with the kit's
   compiler, which has no headers. */
typedef unsigned long pthread_t;

enum { MOST = 256, TOO_MANY = 11 };

static void *results[MOST];
static pthread_t started;

/* Threads are numbered from 1. A thread that starts others has its number before them. */
int pthread_create(pthread_t *thread, const void *attributes, void *(*begin)(void *), void *given) {
    (void)attributes;
    if (started == MOST)
        return TOO_MANY;
    pthread_t number = ++started;
    results[number - 1] = begin(given);
    *thread = number;
    return 0;
}

int pthread_join(pthread_t thread, void **result) {
    if (result)
        *result = results[thread - 1];
    return 0;
}

int pthread_detach(pthread_t thread) {
    (void)thread;
    return 0;
}
