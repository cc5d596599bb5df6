/* Rings and wakes by a futex: a ring where nobody sleeps, and two threads that ring and sleep in turn. A word is 0, 1
   where it was rung, and 2 while its thread sleeps. Needs Linux. */
#define _GNU_SOURCE
#include <linux/futex.h>
#include <pthread.h>
#include <stdatomic.h>
#include <sys/syscall.h>
#include <unistd.h>

#include "timing.h"

struct bell {
    _Alignas(128) atomic_uint word;
};

static struct bell ours, theirs;
static unsigned turns;

static void ring(struct bell *bell) {
    if (atomic_exchange(&bell->word, 1) == 2)
        syscall(SYS_futex, &bell->word, FUTEX_WAKE_PRIVATE, 1, NULL, NULL, 0);
}

static void rest(struct bell *bell) {
    unsigned none = 0;
    atomic_compare_exchange_strong(&bell->word, &none, 2);
    for (;;) {
        unsigned rung = 1;
        if (atomic_compare_exchange_strong(&bell->word, &rung, 0))
            return;
        syscall(SYS_futex, &bell->word, FUTEX_WAIT_PRIVATE, 2, NULL, NULL, 0);
    }
}

static void *answer(void *none) {
    for (unsigned turn = 0; turn < turns; turn++) {
        rest(&theirs);
        ring(&ours);
    }
    return none;
}

static __attribute__((noinline)) void ring_all(struct bell *bell) {
    for (unsigned turn = 0; turn < turns; turn++)
        ring(bell);
}

int main(int argc, char **argv) {
    pthread_t thread;
    turns = argc > 1 && strtoul(argv[1], NULL, 10) > 0 ? 20000 : 1;
    double start = now();
    ring_all(&ours);
    fprintf(stderr, "futex_ring_ps 1 %.0f\n", (now() - start) * 1000 / turns);
    rest(&ours);
    if (pthread_create(&thread, NULL, answer, NULL))
        return 1;
    start = now();
    for (unsigned turn = 0; turn < turns; turn++) {
        ring(&theirs);
        rest(&ours);
    }
    fprintf(stderr, "futex_wake 1 %.1f\n", (now() - start) / (2.0 * turns));
    return pthread_join(thread, NULL);
}
