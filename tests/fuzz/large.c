// Lists of more jobs than the program takes at once, and scripts whose jobs are worth several workers.
#include "maker.h"

#include <string.h>

enum { SLOT = 524288, SLOTS = 4, PAGES_OF_A_SLOT = SLOT / PAGE, LEAST_WIDE_LINES = 6 };

static uint64_t lines_from(const struct text *script, size_t start) {
    uint64_t lines = 0;
    for (size_t at = start; at < script->length; at++)
        lines += script->bytes[at] == '\n';
    return lines;
}

// Up to two lists' worth of jobs one after another, or a batch of nearly or just as many as one may have.
void long_list(struct maker *maker) {
    struct text *script = maker->script;
    bool is_batch = one_in(maker, 3);
    if (maker->is_in_batch)
        text_format(script, "end\n"), maker->is_in_batch = false;
    if (is_batch)
        text_format(script, "batch\n");
    size_t start = script->length;
    uint64_t wanted = is_batch ? MOST_JOBS - 8 - below(maker, 200) : MOST_JOBS - 4 + below(maker, 1200), lines;
    maker->is_in_list = true;
    maker->is_free = !one_in(maker, 3);
    for (lines = 0; lines < wanted; lines = lines_from(script, start))
        job_line(maker);
    if (is_batch && one_in(maker, 2))
        for (; lines < MOST_JOBS; lines++)
            text_format(script, "noop\n");
    maker->is_in_list = maker->is_free = false;
    if (is_batch)
        text_format(script, "end\n");
}

// ---- a wide script

static uint64_t slot(struct maker *maker) {
    uint64_t start = (uint64_t)SLOT * below(maker, SLOTS);
    return one_in(maker, 3) ? start + 8 * below(maker, 600) : start;
}

static uint64_t wide_size(struct maker *maker, uint64_t most) {
    return one_in(maker, 2) ? most : most - 8 * below(maker, 3000);
}

static void wide_job(struct maker *maker) {
    uint64_t first = slot(maker), second = slot(maker), third = slot(maker), size = wide_size(maker, 2 * SLOT);
    uint64_t half = wide_size(maker, SLOT), bytes = one_in(maker, 2) ? 0 : pattern(maker), odd = below(maker, 9);
    uint64_t compare[] = {first, second + odd, size}, compare_pattern[] = {first + odd, bytes, size};
    uint64_t create[] = {first, second, half, third + 8 * SLOT * one_in(maker, 9), 10 * (1 + below(maker, 65536))};
    uint64_t move[] = {first + odd, second, one_in(maker, 2) ? half : size}, fill[] = {bytes, first + odd, size};
    uint64_t apply[] = {third, 10 * below(maker, 400), first, half};
    uint64_t dualcast[] = {first, second & ~(uint64_t)(PAGE - 1), third & ~(uint64_t)(PAGE - 1), half};
    switch (below(maker, 12)) {
    case 0: case 1: case 2: case 3:
        plain_job(maker, "compare", compare, 3, true);
        break;
    case 4: case 5:
        plain_job(maker, "compare-pattern", compare_pattern, 3, true);
        break;
    case 6: case 7:
        plain_job(maker, "create", create, 5, true);
        break;
    case 8:
        plain_job(maker, "move", move, 3, false);
        break;
    case 9:
        plain_job(maker, "fill", fill, 3, false);
        break;
    case 10:
        plain_job(maker, "apply", apply, 4, false);
        break;
    default:
        plain_job(maker, "dualcast", dualcast, 4, false);
    }
}

// Two mebibytes, nearly all of them zeros; then lists and batches of large jobs, and a look at some places.
void wide_script(struct maker *maker) {
    maker->pages = SLOTS * PAGES_OF_A_SLOT + 2;
    word(maker, "image");
    number(maker, maker->pages);
    end_line(maker);
    uint64_t absent = one_in(maker, 2) ? maker->pages : below(maker, maker->pages);
    for (uint32_t page = 0; page < maker->pages; page++)
        if (page != absent) {
            text_format(maker->script, "page %u\n", page);
            maker->present[page] = true;
        }
    for (uint64_t lists = 1 + below(maker, 3); lists > 0; lists--) {
        for (uint64_t pokes = below(maker, 4); pokes > 0; pokes--) {
            uint8_t byte = (uint8_t)below(maker, 3);
            uint64_t at = below(maker, (uint64_t)maker->pages * PAGE);
            if (maker->present[at / PAGE])
                poke_bytes(maker, at, &byte, 1);
        }
        bool is_batch = one_in(maker, 2);
        if (is_batch)
            text_format(maker->script, "batch\n");
        maker->is_fenced = is_batch;
        for (uint64_t jobs = LEAST_WIDE_LINES + below(maker, 6); jobs > 0; jobs--)
            wide_job(maker);
        maker->is_fenced = false;
        if (is_batch)
            text_format(maker->script, "end\n");
        show_line(maker, slot(maker), 64);
    }
    show_line(maker, 0, 4096);
    show_line(maker, (uint64_t)SLOT * SLOTS - 2048, 8192);
}
