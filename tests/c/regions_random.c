/*
 * Random jobs over random regions by kazovuni_submit_at, beside the same jobs by kazovuni_submit on an image of an
 * engine's own, whose pages are present where a region has them: the same records, and the same bytes in the end. A
 * third of the calls are kazovuni_submit_list_at beside kazovuni_submit_list, and kazovuni_submit_batch_at beside
 * kazovuni_submit_batch, of none to eight jobs, some of them with the fence. Printed are the jobs and the calls over
 * regions, of which a list is one, and so is a batch.
 *
 * Usage: regions_random [JOBS [SEED]]
 */
#include "kazovuni.h"

#include <stdio.h>
#include <stdlib.h>
#include <string.h>

enum { PAGE = KAZOVUNI_PAGE_BYTES, PAGES = 16, SIZE = PAGES * PAGE, STAGING = 8000 };
enum { CALLS_OF_A_TABLE = 256, CALLS_BETWEEN_LOOKS = 4, MOST_TOGETHER = 8 };

static uint64_t state;

static uint64_t number(void)
{
    state ^= state << 13;
    state ^= state >> 7;
    state ^= state << 17;
    return state;
}

static uint64_t below(uint64_t most)
{
    return number() % most;
}

static kazovuni_engine image, staging;
static kazovuni_region table[PAGES];
static size_t regions;
static unsigned long accepted, refused, faults, crossings, abandoned, calls, lists, batches;

static void give_up(const char *what, unsigned long job)
{
    fprintf(stderr, "regions_random: job %lu: %s\n", job, what);
    exit(1);
}

/* A new table, of regions that touch or leave holes between them, and an image with the same bytes. */
static void make_table(void)
{
    for (size_t i = 0; i < regions; i++)
        free(table[i].bytes);
    kazovuni_free(&image);
    if (kazovuni_create(&image, PAGES, STAGING) != KAZOVUNI_OK)
        give_up("no engine", 0);
    regions = 0;
    for (uint32_t page = (uint32_t)below(3); page < PAGES;) {
        size_t count = 1 + below(4);
        count = count < PAGES - page ? count : PAGES - page;
        kazovuni_region *region = &table[regions++];
        *region = (kazovuni_region){(uint64_t)page * PAGE, malloc(count * PAGE), count * PAGE};
        if (!region->bytes)
            give_up("no memory", 0);
        /* few different bytes, so that compares and creates come far */
        for (size_t i = 0; i < region->length; i++)
            region->bytes[i] = below(64) == 0 ? (uint8_t)below(3) : 0;
        for (size_t i = 0; i < count; i++, page++)
            if (kazovuni_bring(&image, page, region->bytes + i * PAGE) != KAZOVUNI_OK)
                give_up("a page", 0);
        page += below(2) ? (uint32_t)below(3) : 0;
    }
}

static uint64_t some_address(bool is_aligned)
{
    uint64_t address = below(8) == 0 ? number() : below(SIZE + 2 * PAGE);
    if (below(4) == 0)
        address = (below(PAGES + 2) * PAGE) - below(32);
    return is_aligned ? address & ~UINT64_C(7) : address;
}

static void make_job(uint8_t descriptor[64])
{
    static const uint8_t opcodes[] = {0x00, 0x03, 0x03, 0x04, 0x05, 0x05, 0x06, 0x07, 0x07, 0x08, 0x08, 0x09, 0x02};
    static const uint32_t sizes[] = {0, 1, 8, 64, 200, PAGE, 2 * PAGE, 3 * PAGE};
    bool is_aligned = below(8) != 0;
    kazovuni_job job = {.opcode = opcodes[below(sizeof opcodes)], .size = sizes[below(8)]};
    job.source = some_address(is_aligned);
    job.target = some_address(is_aligned);
    job.extra = some_address(false);
    job.delta_size = 10 * (uint32_t)below(30);
    if (job.opcode == KAZOVUNI_OP_DUALCAST)
        job.extra = (job.extra & ~UINT64_C(4095)) | (job.target & 4095);
    if (job.opcode == KAZOVUNI_OP_CREATE_DELTA)
        job.delta_size += 10, job.size &= ~UINT32_C(7);
    if (job.opcode == KAZOVUNI_OP_APPLY_DELTA)
        job.size &= ~UINT32_C(7);
    if (job.opcode == KAZOVUNI_OP_COMPARE_PATTERN)
        job.target = 0;
    if (below(16) == 0)
        job.flags = (uint32_t)below(0x200);
    if (below(64) == 0)
        job.expected = 1;
    if (!kazovuni_encode(&job, descriptor))
        give_up("a descriptor", 0);
}

/* An entry of a record of its own somewhere, so that applies find some that rise. */
static void plant_entries(void)
{
    kazovuni_region *region = &table[below(regions)];
    size_t place = below(region->length - 100);
    uint8_t entries[100];
    for (size_t i = 0; i < 10; i++) {
        memset(entries + 10 * i, (int)below(256), 10);
        entries[10 * i] = (uint8_t)(3 * i + below(3));
        entries[10 * i + 1] = 0;
    }
    memcpy(region->bytes + place, entries, sizeof entries);
    if (kazovuni_write(&image, region->address + place, entries, sizeof entries) != KAZOVUNI_OK)
        give_up("entries", 0);
}

static void look(unsigned long job)
{
    static uint8_t bytes[SIZE];
    for (size_t i = 0; i < regions; i++)
        if (kazovuni_read(&image, table[i].address, bytes, table[i].length) != KAZOVUNI_OK ||
            memcmp(bytes, table[i].bytes, table[i].length) != 0)
            give_up("other bytes", job);
}

/* Whether a range goes over from one region into the next. */
static bool crosses(const kazovuni_range *range)
{
    for (size_t i = 0; i + 1 < regions; i++) {
        uint64_t end = table[i].address + table[i].length;
        if (end == table[i + 1].address && range->address < end && end - range->address < range->length)
            return true;
    }
    return false;
}

/* What a record says of its job. */
static void count(const uint8_t descriptor[64], const uint8_t record[32])
{
    kazovuni_range ranges[3];
    uint32_t most = kazovuni_ranges(descriptor, ranges);
    bool is_abandoned = record[0] == KAZOVUNI_STATUS_ABANDONED;
    bool is_fault = (record[0] & 0x7f) == KAZOVUNI_STATUS_READ_FAULT;
    bool is_refused = !is_fault && record[0] >= KAZOVUNI_STATUS_BAD_OPCODE;
    abandoned += is_abandoned;
    refused += is_refused;
    faults += is_fault;
    accepted += !is_refused && !is_abandoned;
    for (uint32_t i = 0; i < most; i++)
        crossings += !is_refused && !is_abandoned && crosses(&ranges[i]);
}

/* The jobs of one call, by each of the two ways; the records that each has written, and those of the batches. */
static uint8_t descriptors[MOST_TOGETHER][64], records[2][MOST_TOGETHER][32], own[2][32];
enum { ALONE, LIST, BATCH };

static bool is_answered(int form, size_t jobs)
{
    switch (form) {
    case ALONE:
        return kazovuni_submit(&image, descriptors[0], records[0][0]) == KAZOVUNI_OK &&
               kazovuni_submit_at(&staging, table, regions, descriptors[0], records[1][0]) == KAZOVUNI_OK;
    case LIST:
        return kazovuni_submit_list(&image, descriptors[0], jobs, records[0][0], jobs) == KAZOVUNI_OK &&
               kazovuni_submit_list_at(&staging, table, regions, descriptors, jobs, records[1], jobs) == KAZOVUNI_OK;
    default:
        return kazovuni_submit_batch(&image, descriptors, jobs, records[0], jobs, own[0]) == KAZOVUNI_OK &&
               kazovuni_submit_batch_at(&staging, table, regions, descriptors, jobs, records[1], jobs, own[1]) ==
                   KAZOVUNI_OK;
    }
}

/* One call, of some jobs that are yet to come; answers how many. */
static unsigned long try_call(unsigned long n, unsigned long left)
{
    int form = below(3) != 0 ? ALONE : below(2) == 0 ? LIST : BATCH;
    size_t jobs = form == ALONE ? 1 : below(MOST_TOGETHER + 1);
    kazovuni_region before[PAGES];
    jobs = jobs < left ? jobs : left;
    for (size_t i = 0; i < jobs; i++) {
        make_job(descriptors[i]);
        if (form != ALONE && below(4) == 0)
            descriptors[i][4] |= KAZOVUNI_FLAG_FENCE;
    }
    memcpy(before, table, sizeof before);
    memset(records, 0xcc, sizeof records);
    memset(own, 0xcc, sizeof own);
    if (!is_answered(form, jobs))
        give_up("the code", n);
    if (memcmp(records[0], records[1], sizeof records[0]) != 0)
        give_up("a record", n);
    if (memcmp(own[0], own[1], 32) != 0 || (form == BATCH) == (own[0][0] == 0xcc))
        give_up("the batch's own record", n);
    if (memcmp(before, table, sizeof before) != 0)
        give_up("the table", n);
    for (size_t i = 0; i < jobs; i++)
        count(descriptors[i], records[1][i]);
    for (size_t i = 0; i < MOST_TOGETHER; i++)
        if ((records[1][i][0] == 0xcc) != (i >= jobs))
            give_up("which records are written", n);
    calls++;
    lists += form == LIST;
    batches += form == BATCH;
    return jobs;
}

static void print_counts(unsigned long jobs)
{
    printf("regions_random: %lu jobs: %lu carried out, %lu of them with a page fault, %lu refused, %lu abandoned; ",
           jobs, accepted, faults, refused, abandoned);
    printf("%lu calls over regions, %lu lists and %lu batches among them; ", calls, lists, batches);
    printf("%lu ranges go over from one region into the next\n", crossings);
}

int main(int words_given, char **words)
{
    unsigned long jobs = words_given > 1 ? strtoul(words[1], NULL, 10) : 100000;
    state = words_given > 2 ? strtoull(words[2], NULL, 10) : 7;
    state = state * UINT64_C(0x9e3779b97f4a7c15) + 1;
    if (kazovuni_create_staging(&staging, STAGING) != KAZOVUNI_OK)
        return 2;
    for (unsigned long n = 0; n < jobs;) {
        if (calls % CALLS_OF_A_TABLE == 0)
            make_table();
        if (calls % CALLS_BETWEEN_LOOKS == 0) {
            look(n);
            plant_entries();
        }
        n += try_call(n, jobs - n);
    }
    look(jobs);
    for (size_t i = 0; i < regions; i++)
        free(table[i].bytes);
    kazovuni_free(&image);
    kazovuni_free(&staging);
    print_counts(jobs);
    return accepted < jobs / 4 || refused < jobs / 20 || faults < jobs / 20 || crossings < jobs / 20 ||
           abandoned < jobs / 50 || lists < jobs / 20 || batches < jobs / 20;
}
