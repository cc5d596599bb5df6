/* One call of the C library's memmove. */
#include "timing.h"

static void work(unsigned char *target, const unsigned char *source, size_t size) {
    memmove(target, source, size);
}

int main(int argc, char **argv) {
    return run("memmove", work, argc, argv);
}
