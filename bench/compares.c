/* Lists of compares of 1 MiB by 1, 2 and 4 threads, which are started for each list and take chunks of 64 KiB by an
   atomic counter; the calling thread is one of them. */
#include <pthread.h>
#include <stdatomic.h>

#include "timing.h"

enum { CHUNK = 65536, CHUNKS = MEBIBYTE / CHUNK, MOST_TASKS = 64 * CHUNKS, PAIRS = 8 };

static unsigned char *image;
static int differs[MOST_TASKS];
static atomic_uint next;
static unsigned tasks;

static void *work(void *unused) {
    (void)unused;
    for (;;) {
        unsigned task = atomic_fetch_add(&next, 1);
        if (task >= tasks)
            return NULL;
        unsigned char *first = image + task / CHUNKS % PAIRS * 2 * (size_t)MEBIBYTE + task % CHUNKS * (size_t)CHUNK;
        differs[task] = memcmp(first, first + MEBIBYTE, CHUNK);
    }
}

static int list(unsigned jobs, unsigned threads) {
    pthread_t started[3];
    int all = 0;
    tasks = jobs * CHUNKS;
    atomic_store(&next, 0);
    for (unsigned t = 1; t < threads; t++)
        if (pthread_create(&started[t - 1], NULL, work, NULL))
            exit(1);
    work(NULL);
    for (unsigned t = 1; t < threads; t++)
        pthread_join(started[t - 1], NULL);
    for (unsigned task = 0; task < tasks; task++)
        all |= differs[task];
    return all;
}

int main(int argc, char **argv) {
    static const struct { const char *name; unsigned jobs, calls; } rows[] = {
        {"threads_compares_64", 64, 16}, {"threads_compares_4", 4, 200}};
    int measures = argc > 1 && strtoul(argv[1], NULL, 10) > 0;
    image = malloc(PAIRS * 2 * (size_t)MEBIBYTE);
    if (!image)
        return 1;
    memset(image, 0x5a, PAIRS * 2 * (size_t)MEBIBYTE);
    for (unsigned r = 0; r < sizeof rows / sizeof *rows; r++)
        for (unsigned threads = 1; threads <= 4; threads *= 2) {
            unsigned calls = measures ? rows[r].calls : 1;
            for (unsigned k = 0; k < calls / 10 + 1; k++)
                if (list(rows[r].jobs, threads))
                    return 1;
            double start = now();
            for (unsigned k = 0; k < calls; k++)
                if (list(rows[r].jobs, threads))
                    return 1;
            fprintf(stderr, "%s %u %.1f\n", rows[r].name, threads, (now() - start) / calls);
        }
    free(image);
    return 0;
}
