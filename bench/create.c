/* A loop over 8-byte words that writes an entry of 10 bytes for each that differs: over 512 KiB, of which no word
   differs, and of which one of sixteen does. */
#include "timing.h"

enum { SOURCE = 512 * 1024, BLOCKS = SOURCE / 8 };

static size_t create(unsigned char *record, const unsigned char *first, const unsigned char *second) {
    unsigned char *entry = record;
    for (size_t block = 0; block < BLOCKS; block++) {
        uint64_t a, b;
        memcpy(&a, first + 8 * block, 8);
        memcpy(&b, second + 8 * block, 8);
        if (a != b) {
            uint16_t offset = (uint16_t)block;
            memcpy(entry, &offset, 2);
            memcpy(entry + 2, &b, 8);
            entry += 10;
        }
    }
    return entry - record;
}

static size_t (*volatile scan)(unsigned char *, const unsigned char *, const unsigned char *) = create;

int main(int argc, char **argv) {
    unsigned long calls = argc > 1 && strtoul(argv[1], NULL, 10) > 0 ? 50 : 1;
    unsigned char *record = malloc(10 * BLOCKS), *first = malloc(SOURCE), *second = malloc(SOURCE);
    if (!record || !first || !second)
        return 1;
    memset(first, 0x5a, SOURCE);
    memset(second, 0x5a, SOURCE);
    memset(record, 0, 10 * BLOCKS);
    for (int sixteenth = 0; sixteenth < 2; sixteenth++) {
        size_t want = sixteenth ? 10 * (BLOCKS / 16) : 0;
        for (size_t block = 0; sixteenth && block < BLOCKS; block += 16)
            second[8 * block] = 0;
        double start = now();
        for (unsigned long k = 0; k < calls; k++)
            if (scan(record, first, second) != want)
                return 1;
        const char *name = sixteenth ? "words_sixteenth" : "words_equal";
        fprintf(stderr, "%s %d %.1f\n", name, SOURCE, (now() - start) / calls);
    }
    return 0;
}
