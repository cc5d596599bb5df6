/* A loop that writes an 8-byte word. */
#include "timing.h"

static volatile uint64_t pattern = 0x0807060504030201;

static void work(unsigned char *target, const unsigned char *source, size_t size) {
    uint64_t *words = (uint64_t *)target;
    uint64_t word = pattern;
    (void)source;
    for (size_t i = 0; i < size / 8; i++)
        words[i] = word;
}

int main(int argc, char **argv) {
    return run("words", work, argc, argv);
}
