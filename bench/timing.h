/* What the programs of this folder share: the buffers of the proved side's benchmark, its sizes and its rows. */
#include <stdint.h>
#include <stdio.h>
#include <stdlib.h>
#include <string.h>
#include <time.h>

enum { MEBIBYTE = 1 << 20, IMAGE = 4 * MEBIBYTE, MOST_JOBS = 200000 };

typedef void kernel(unsigned char *target, const unsigned char *source, size_t size);

static double now(void) {
    struct timespec t;
    clock_gettime(CLOCK_MONOTONIC, &t);
    return t.tv_sec * 1e9 + t.tv_nsec;
}

/* Times one kernel at each size: a name, a size in bytes, the nanoseconds of one call. */
static inline int run(const char *name, kernel *volatile work, int argc, char **argv) {
    static const size_t sizes[] = {64, 4096, 65536, MEBIBYTE};
    unsigned long mebibytes = argc > 1 ? strtoul(argv[1], NULL, 10) : 0;
    unsigned char *image = malloc(IMAGE);
    if (!image)
        return 1;
    memset(image, 0x5a, IMAGE);
    for (size_t i = 0; i < sizeof sizes / sizeof *sizes; i++) {
        unsigned long jobs = mebibytes * MEBIBYTE / sizes[i];
        jobs = jobs < 1 ? 1 : jobs > MOST_JOBS ? MOST_JOBS : jobs;
        work(image + MEBIBYTE, image, sizes[i]);
        double start = now();
        for (unsigned long j = 0; j < jobs; j++)
            work(image + MEBIBYTE, image, sizes[i]);
        fprintf(stderr, "%s %zu %.1f\n", name, sizes[i], (now() - start) / jobs);
    }
    free(image);
    return 0;
}
