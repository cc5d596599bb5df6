/* One call of the C library's memcmp, on equal ranges. */
#include "timing.h"

static volatile int differs;

static void work(unsigned char *target, const unsigned char *source, size_t size) {
    differs = memcmp(target, source, size);
}

int main(int argc, char **argv) {
    return run("memcmp", work, argc, argv);
}
