/* Two memcpy passes through a stage: the whole source is read before anything is written. */
#include "timing.h"

static unsigned char *stage;

static void work(unsigned char *target, const unsigned char *source, size_t size) {
    memcpy(stage, source, size);
    memcpy(target, stage, size);
}

int main(int argc, char **argv) {
    stage = malloc(MEBIBYTE);
    return stage ? run("staged", work, argc, argv) : 1;
}
