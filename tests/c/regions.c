/*
 * The calls of an engine for other memory than its own image, and looks at that image, through kazovuni.h: each code
 * and the order of the codes, jobs over regions that touch and over holes, the staging of an engine, pages that are
 * looked at and given up, the ranges of a descriptor and records at completion addresses. What each has to answer
 * stands here.
 */
#define _GNU_SOURCE
#include "kazovuni.h"

#include <stdio.h>
#include <stdlib.h>
#include <string.h>
#include <sys/mman.h>

enum { PAGE = KAZOVUNI_PAGE_BYTES, FIRST = 0, BEHIND = 1, APART = 2, REGIONS = 3 };

/* Where the regions of the rows begin: two that touch, and one behind a hole, above 4 GiB. */
#define LOW UINT64_C(0x10000)
#define HIGH UINT64_C(0x200000000)
#define MOST_END ((UINT64_C(1) << 44) - PAGE)

static int failed;

#define EXPECT(condition) expect((condition), #condition, __LINE__)

static void expect(bool holds, const char *condition, int line)
{
    if (holds)
        return;
    fprintf(stderr, "regions: line %d: not so: %s\n", line, condition);
    failed = 1;
}

static void put(uint8_t *bytes, uint64_t number, int count)
{
    for (int i = 0; i < count; i++)
        bytes[i] = (uint8_t)(number >> (8 * i));
}

/* The record of these fields. */
static void expect_record(
    const uint8_t record[32], uint8_t status, uint8_t result, uint32_t completed, uint64_t fault, uint32_t delta,
    int line)
{
    uint8_t wanted[32] = {status, result};
    put(wanted + 4, completed, 4);
    put(wanted + 8, fault, 8);
    put(wanted + 16, delta, 4);
    expect(memcmp(record, wanted, 32) == 0, "the record", line);
}

#define RECORD(status, result, completed, fault, delta)                                                                \
    expect_record(record, status, result, completed, fault, delta, __LINE__)

static uint8_t *memory[REGIONS]; /* two pages, one page, two pages */
static const size_t lengths[REGIONS] = {2 * PAGE, PAGE, 2 * PAGE};
static kazovuni_region table[REGIONS];

/* The regions with bytes of their own each. */
static void fill_memory(void)
{
    static const uint64_t addresses[REGIONS] = {LOW, LOW + 2 * PAGE, HIGH};
    for (int i = 0; i < REGIONS; i++) {
        free(memory[i]);
        memory[i] = malloc(lengths[i]);
        if (!memory[i])
            exit(2);
        memset(memory[i], 0x10 * (i + 1), lengths[i]);
        table[i] = (kazovuni_region){addresses[i], memory[i], lengths[i]};
    }
}

/* Whether the table is as fill_memory made it. */
static bool is_same_table(void)
{
    static const uint64_t addresses[REGIONS] = {LOW, LOW + 2 * PAGE, HIGH};
    for (int i = 0; i < REGIONS; i++)
        if (table[i].address != addresses[i] || table[i].bytes != memory[i] || table[i].length != lengths[i])
            return false;
    return true;
}

static uint8_t submit_at(kazovuni_engine *engine, kazovuni_job job, uint8_t record[32])
{
    uint8_t descriptor[64];
    EXPECT(kazovuni_encode(&job, descriptor));
    memset(record, 0xcc, 32);
    uint8_t code = kazovuni_submit_at(engine, table, REGIONS, descriptor, record);
    EXPECT(is_same_table());
    return code;
}

/*
 * The code of a table with a no-op, as a job, as a list and as a batch of one, which answer the same; where the table
 * is refused, no record is written, and the numbers of descriptors and records are not looked at.
 */
static uint8_t code_of(kazovuni_engine *engine, kazovuni_region *regions, size_t count)
{
    static const uint8_t descriptor[1][64] = {{0}};
    uint8_t records[3][32], batch[32];
    memset(records, 0xcc, sizeof records);
    memset(batch, 0xcc, sizeof batch);
    uint8_t code = kazovuni_submit_at(engine, regions, count, descriptor, records[0]);
    EXPECT(kazovuni_submit_list_at(engine, regions, count, descriptor, 1, records[1], 1) == code);
    EXPECT(kazovuni_submit_batch_at(engine, regions, count, descriptor, 1, records[2], 1, batch) == code);
    bool is_refused = code != KAZOVUNI_OK;
    for (int i = 0; i < 3; i++)
        EXPECT(is_refused ? records[i][0] == 0xcc && records[i][31] == 0xcc : records[i][0] == KAZOVUNI_STATUS_SUCCESS);
    EXPECT(is_refused ? batch[0] == 0xcc && batch[31] == 0xcc : batch[0] == KAZOVUNI_STATUS_SUCCESS);
    if (is_refused) {
        EXPECT(kazovuni_submit_list_at(engine, regions, count, descriptor, 1, records, 0) == code);
        EXPECT(kazovuni_submit_batch_at(engine, regions, count, descriptor, 1, records, 0, batch) == code);
    }
    return code;
}

static uint8_t page[3 * PAGE]; /* the bytes of regions that are refused */

/* How many regions there are: the handle is looked at before, and each region behind. */
static void try_numbers(kazovuni_engine *engine)
{
    kazovuni_engine none = {0};
    kazovuni_region many[KAZOVUNI_MOST_REGIONS + 1], one = {0, page, PAGE};
    EXPECT(code_of(&none, NULL, 0) == KAZOVUNI_NO_ENGINE);
    EXPECT(code_of(engine, NULL, 0) == KAZOVUNI_NO_REGIONS);
    EXPECT(code_of(engine, &one, 0) == KAZOVUNI_NO_REGIONS);
    for (int i = 0; i <= KAZOVUNI_MOST_REGIONS; i++)
        many[i] = (kazovuni_region){1, NULL, 0}; /* each is wrong otherwise too */
    EXPECT(code_of(engine, many, KAZOVUNI_MOST_REGIONS + 1) == KAZOVUNI_TOO_MANY_REGIONS);
    EXPECT(code_of(engine, many, KAZOVUNI_MOST_REGIONS) == KAZOVUNI_BAD_LENGTH);
    EXPECT(code_of(&none, many, KAZOVUNI_MOST_REGIONS + 1) == KAZOVUNI_NO_ENGINE);
}

/* What a region is refused for, each rule by itself and before those that come later, and behind the handle. */
static void try_one_region(kazovuni_engine *engine)
{
    kazovuni_engine none = {0};
    const struct {
        kazovuni_region region;
        uint8_t code;
    } rows[] = {
        /* a length, before an address */
        {{1, NULL, 0}, KAZOVUNI_BAD_LENGTH},
        {{1, page, 0}, KAZOVUNI_BAD_LENGTH},
        {{MOST_END + 1, page, PAGE - 1}, KAZOVUNI_BAD_LENGTH},
        {{0, page, PAGE + 1}, KAZOVUNI_BAD_LENGTH},
        /* an address, before an end */
        {{1, page, PAGE}, KAZOVUNI_BAD_ADDRESS},
        {{UINT64_MAX, page, PAGE}, KAZOVUNI_BAD_ADDRESS},
        /* the last end that may be, those past it, and one that would wrap */
        {{MOST_END - PAGE, page, PAGE}, KAZOVUNI_OK},
        {{MOST_END, page, PAGE}, KAZOVUNI_REGION_PAST},
        {{MOST_END - PAGE, page, 2 * PAGE}, KAZOVUNI_REGION_PAST},
        {{UINT64_C(0) - PAGE, page, PAGE}, KAZOVUNI_REGION_PAST},
    };
    for (size_t i = 0; i < sizeof rows / sizeof rows[0]; i++) {
        kazovuni_region region = rows[i].region;
        EXPECT(code_of(engine, &region, 1) == rows[i].code);
        EXPECT(code_of(&none, &region, 1) == KAZOVUNI_NO_ENGINE);
    }
}

/* Tables of two regions: the first that is wrong decides, whichever rule it breaks; the handle comes before. */
static void try_two_regions(kazovuni_engine *engine)
{
    kazovuni_engine none = {0};
    const struct {
        kazovuni_region regions[2];
        uint8_t code;
    } rows[] = {
        /* an end, of a region that rises */
        {{{PAGE, page, PAGE}, {UINT64_C(0) - PAGE, page + PAGE, PAGE}}, KAZOVUNI_REGION_PAST},
        /* an end before the order, and an address before it: the second region breaks both rules */
        {{{MOST_END - PAGE, page, PAGE}, {MOST_END - PAGE, page + PAGE, 2 * PAGE}}, KAZOVUNI_REGION_PAST},
        {{{PAGE, page, PAGE}, {1, page + PAGE, PAGE}}, KAZOVUNI_BAD_ADDRESS},
        /* the order: the same page, a page before, a page inside */
        {{{PAGE, page, PAGE}, {PAGE, page + PAGE, PAGE}}, KAZOVUNI_NOT_RISING},
        {{{PAGE, page, PAGE}, {0, page + PAGE, PAGE}}, KAZOVUNI_NOT_RISING},
        {{{0, page, 2 * PAGE}, {PAGE, page + 2 * PAGE, PAGE}}, KAZOVUNI_NOT_RISING},
        /* a region before one that does not rise, and before one that breaks an earlier rule */
        {{{1, page, 2 * PAGE}, {PAGE, page + 2 * PAGE, PAGE}}, KAZOVUNI_BAD_ADDRESS},
        {{{1, page, 2 * PAGE}, {0, page + 2 * PAGE, 1}}, KAZOVUNI_BAD_ADDRESS},
        /* a region that ends too high before one that breaks an earlier rule */
        {{{MOST_END, page, PAGE}, {0, page + PAGE, 1}}, KAZOVUNI_REGION_PAST},
        {{{MOST_END, page, PAGE}, {1, page + PAGE, PAGE}}, KAZOVUNI_REGION_PAST},
        /* an earlier rule, of the region that does not rise */
        {{{PAGE, page, PAGE}, {0, page + PAGE, 1}}, KAZOVUNI_BAD_LENGTH},
        /* a NULL behind a region that breaks one other rule, and before one */
        {{{0, page, 1}, {PAGE, NULL, PAGE}}, KAZOVUNI_NULL_REGION},
        {{{1, page, PAGE}, {2 * PAGE, NULL, PAGE}}, KAZOVUNI_NULL_REGION},
        {{{MOST_END, page, PAGE}, {0, NULL, PAGE}}, KAZOVUNI_NULL_REGION},
        {{{0, NULL, PAGE}, {PAGE, page, 1}}, KAZOVUNI_NULL_REGION},
        {{{0, NULL, PAGE}, {PAGE + 1, page, PAGE}}, KAZOVUNI_NULL_REGION},
        {{{0, NULL, PAGE}, {MOST_END, page, PAGE}}, KAZOVUNI_NULL_REGION},
        {{{PAGE, NULL, PAGE}, {0, page, PAGE}}, KAZOVUNI_NULL_REGION},
    };
    for (size_t i = 0; i < sizeof rows / sizeof rows[0]; i++) {
        kazovuni_region regions[2] = {rows[i].regions[0], rows[i].regions[1]};
        EXPECT(code_of(engine, regions, 2) == rows[i].code);
        EXPECT(code_of(&none, regions, 2) == KAZOVUNI_NO_ENGINE);
    }
}

/* A region that does not rise before one that breaks an earlier rule. */
static void try_three_regions(kazovuni_engine *engine)
{
    const kazovuni_region last[] = {{0, page, 1}, {1, page, PAGE}, {MOST_END, page, PAGE}, {0, page, PAGE}};
    for (size_t i = 0; i < sizeof last / sizeof last[0]; i++) {
        kazovuni_region regions[3] = {{PAGE, page, PAGE}, {PAGE, page + PAGE, PAGE}, last[i]};
        EXPECT(code_of(engine, regions, 3) == KAZOVUNI_NOT_RISING);
    }
}

/*
 * A region whose pointer is NULL and whose length is not 0, in each place of a table: looked for behind the handle and
 * the number of regions, and before any other rule of any region.
 */
static void try_null_regions(kazovuni_engine *engine)
{
    kazovuni_engine none = {0};
    kazovuni_region many[KAZOVUNI_MOST_REGIONS + 1];
    uint8_t descriptors[2][64] = {{0}}, records[1][32] = {{0xcc}}, batch[32] = {0xcc};
    for (int i = 0; i <= KAZOVUNI_MOST_REGIONS; i++)
        many[i] = (kazovuni_region){1, page, 1};
    for (int i = 0; i < KAZOVUNI_MOST_REGIONS; i++) {
        many[i] = (kazovuni_region){1, NULL, 1};
        EXPECT(code_of(engine, many, KAZOVUNI_MOST_REGIONS) == KAZOVUNI_NULL_REGION);
        EXPECT(code_of(engine, many, (size_t)i + 1) == KAZOVUNI_NULL_REGION);
        EXPECT(code_of(engine, many, (size_t)i) == (i == 0 ? KAZOVUNI_NO_REGIONS : KAZOVUNI_BAD_LENGTH));
        EXPECT(many[i].address == 1 && many[i].bytes == NULL && many[i].length == 1);
        many[i] = (kazovuni_region){1, page, 1};
    }
    many[1] = (kazovuni_region){PAGE, NULL, PAGE};
    EXPECT(code_of(&none, many, 2) == KAZOVUNI_NO_ENGINE);
    EXPECT(code_of(engine, many, KAZOVUNI_MOST_REGIONS + 1) == KAZOVUNI_TOO_MANY_REGIONS);
    /* before the counts of a list and of a batch */
    EXPECT(kazovuni_submit_list_at(&none, many, 2, descriptors, 2, records, 1) == KAZOVUNI_NO_ENGINE);
    EXPECT(kazovuni_submit_batch_at(&none, many, 2, descriptors, 2, records, 1, batch) == KAZOVUNI_NO_ENGINE);
    EXPECT(kazovuni_submit_list_at(engine, many, 2, descriptors, 2, records, 1) == KAZOVUNI_NULL_REGION);
    EXPECT(kazovuni_submit_batch_at(engine, many, 2, descriptors, 2, records, 1, batch) == KAZOVUNI_NULL_REGION);
    EXPECT(kazovuni_submit_list_at(engine, many, 2, descriptors, 1, records, 1) == KAZOVUNI_NULL_REGION);
    EXPECT(kazovuni_submit_batch_at(engine, many, 2, descriptors, 1, records, 1, batch) == KAZOVUNI_NULL_REGION);
    EXPECT(records[0][0] == 0xcc && batch[0] == 0xcc);
    /* of no byte: the rule on lengths */
    many[1] = (kazovuni_region){PAGE, NULL, 0};
    many[0] = (kazovuni_region){0, page, PAGE};
    EXPECT(code_of(engine, many, 2) == KAZOVUNI_BAD_LENGTH);
}

/*
 * A NULL in each place of a table whose other regions are sound, and jobs that would fill both of these: none of their
 * bytes is changed, no record is written, and the table is as it was. With a pointer in its place the jobs fill them.
 */
static void try_null_beside_sound(kazovuni_engine *engine)
{
    static uint8_t sound[3][PAGE];
    uint8_t descriptors[2][64], records[2][32], batch[32];
    kazovuni_region regions[3];
    memset(sound, 0x5a, sizeof sound);
    memset(records, 0xcc, sizeof records);
    memset(batch, 0xcc, sizeof batch);
    for (int null = 0; null < 3; null++) {
        for (int i = 0, job = 0; i < 3; i++) {
            uint64_t address = (uint64_t)i * 2 * PAGE;
            kazovuni_job fill = {.opcode = KAZOVUNI_OP_FILL, .target = address, .size = PAGE};
            regions[i] = (kazovuni_region){address, i == null ? NULL : sound[i], PAGE};
            if (i != null)
                EXPECT(kazovuni_encode(&fill, descriptors[job++]));
        }
        EXPECT(kazovuni_submit_at(engine, regions, 3, descriptors[0], records[0]) == KAZOVUNI_NULL_REGION);
        EXPECT(kazovuni_submit_at(engine, regions, 3, descriptors[1], records[0]) == KAZOVUNI_NULL_REGION);
        EXPECT(kazovuni_submit_list_at(engine, regions, 3, descriptors, 2, records, 2) == KAZOVUNI_NULL_REGION);
        EXPECT(kazovuni_submit_batch_at(engine, regions, 3, descriptors, 2, records, 2, batch) == KAZOVUNI_NULL_REGION);
        EXPECT(records[0][0] == 0xcc && records[1][31] == 0xcc && batch[0] == 0xcc && batch[31] == 0xcc);
        for (int i = 0; i < 3 * PAGE; i++)
            EXPECT(sound[i / PAGE][i % PAGE] == 0x5a);
        for (int i = 0; i < 3; i++)
            EXPECT(regions[i].address == (uint64_t)i * 2 * PAGE && regions[i].length == PAGE &&
                   regions[i].bytes == (i == null ? NULL : sound[i]));
    }
    regions[2].bytes = sound[2];
    EXPECT(kazovuni_submit_batch_at(engine, regions, 3, descriptors, 2, records, 2, batch) == KAZOVUNI_OK);
    for (int i = 0; i < 3 * PAGE; i++)
        EXPECT(sound[i / PAGE][i % PAGE] == (i < 2 * PAGE ? 0 : 0x5a));
}

/* What a table is refused for; none of its bytes is changed. */
static void try_tables(kazovuni_engine *engine)
{
    memset(page, 0x5a, sizeof page);
    try_numbers(engine);
    try_one_region(engine);
    try_two_regions(engine);
    try_three_regions(engine);
    try_null_regions(engine);
    try_null_beside_sound(engine);
    for (size_t i = 0; i < sizeof page; i++)
        EXPECT(page[i] == 0x5a);
}

/* As many regions as there may be, each of a page, that lie the other way round in the process. */
static void try_most(kazovuni_engine *engine)
{
    static uint8_t pages[KAZOVUNI_MOST_REGIONS][PAGE];
    kazovuni_region regions[KAZOVUNI_MOST_REGIONS];
    kazovuni_job job = {.opcode = KAZOVUNI_OP_FILL, .source = UINT64_C(0x0807060504030201)};
    uint8_t descriptor[64], record[32];
    for (int i = 0; i < KAZOVUNI_MOST_REGIONS; i++)
        regions[i] = (kazovuni_region){(uint64_t)i * PAGE, pages[KAZOVUNI_MOST_REGIONS - 1 - i], PAGE};
    job.size = KAZOVUNI_MOST_REGIONS * PAGE;
    EXPECT(kazovuni_encode(&job, descriptor));
    EXPECT(kazovuni_submit_at(engine, regions, KAZOVUNI_MOST_REGIONS, descriptor, record) == KAZOVUNI_OK);
    RECORD(KAZOVUNI_STATUS_SUCCESS, 0, KAZOVUNI_MOST_REGIONS * PAGE, 0, 0);
    for (int i = 0; i < KAZOVUNI_MOST_REGIONS; i++)
        for (int k = 0; k < PAGE; k++)
            EXPECT(pages[i][k] == k % 8 + 1);
}

/* Jobs over regions that touch, over a hole, and from one region to another. */
static void try_jobs(kazovuni_engine *engine)
{
    uint8_t record[32];
    fill_memory();
    /* a fill goes on from one region into the next, and stops at the hole behind it */
    EXPECT(submit_at(engine, (kazovuni_job){.opcode = KAZOVUNI_OP_FILL, .source = 0x0807060504030201,
                                            .target = LOW + 2 * PAGE - 4, .size = 8}, record) == KAZOVUNI_OK);
    RECORD(KAZOVUNI_STATUS_SUCCESS, 0, 8, 0, 0);
    EXPECT(memcmp(memory[FIRST] + 2 * PAGE - 5, "\x10\1\2\3\4", 5) == 0);
    EXPECT(memcmp(memory[BEHIND], "\5\6\7\10\x20", 5) == 0);
    EXPECT(submit_at(engine, (kazovuni_job){.opcode = KAZOVUNI_OP_FILL, .source = 0x0807060504030201,
                                            .target = LOW + 3 * PAGE - 4, .size = 8}, record) == KAZOVUNI_OK);
    RECORD(KAZOVUNI_STATUS_WRITE_FAULT, 0, 4, LOW + 3 * PAGE, 0);
    EXPECT(memcmp(memory[BEHIND] + PAGE - 5, "\x20\1\2\3\4", 5) == 0);
    /* a move from a region above 4 GiB to both others, and one whose source is in no region */
    EXPECT(submit_at(engine, (kazovuni_job){.opcode = KAZOVUNI_OP_MOVE, .source = HIGH + 1,
                                            .target = LOW + 2 * PAGE - 100, .size = 200}, record) == KAZOVUNI_OK);
    RECORD(KAZOVUNI_STATUS_SUCCESS, 0, 200, 0, 0);
    for (int i = 0; i < 100; i++)
        EXPECT(memory[FIRST][2 * PAGE - 100 + i] == 0x30 && memory[BEHIND][i] == 0x30);
    EXPECT(memory[BEHIND][100] == 0x20 && memory[FIRST][2 * PAGE - 101] == 0x10);
    EXPECT(submit_at(engine, (kazovuni_job){.opcode = KAZOVUNI_OP_MOVE, .source = 0, .target = LOW, .size = 8},
                     record) == KAZOVUNI_OK);
    RECORD(KAZOVUNI_STATUS_READ_FAULT, 0, 0, 0, 0);
    /* a compare that comes to the hole behind a region, and one that differs before */
    EXPECT(submit_at(engine, (kazovuni_job){.opcode = KAZOVUNI_OP_COMPARE, .source = HIGH + PAGE,
                                            .target = HIGH + 2 * PAGE - 8, .size = 16}, record) == KAZOVUNI_OK);
    RECORD(KAZOVUNI_STATUS_READ_FAULT, 0, 8, HIGH + 2 * PAGE, 0);
    EXPECT(submit_at(engine, (kazovuni_job){.opcode = KAZOVUNI_OP_COMPARE, .source = LOW, .target = HIGH, .size = 16},
                     record) == KAZOVUNI_OK);
    RECORD(KAZOVUNI_STATUS_SUCCESS, 1, 0, 0, 0);
}

/* A delta between two regions, with its record in a third one, applied over the first; and jobs that are refused. */
static void try_delta(kazovuni_engine *engine)
{
    uint8_t record[32];
    fill_memory();
    memset(memory[APART], 0x10, PAGE);
    memset(memory[APART] + 16, 0x77, 8);
    EXPECT(submit_at(engine, (kazovuni_job){.opcode = KAZOVUNI_OP_CREATE_DELTA, .source = LOW, .target = HIGH,
                                            .extra = LOW + 2 * PAGE + 1000, .size = 64, .delta_size = 80},
                     record) == KAZOVUNI_OK);
    RECORD(KAZOVUNI_STATUS_SUCCESS, 1, 64, 0, 10);
    EXPECT(memcmp(memory[BEHIND] + 1000, "\2\0\x77\x77\x77\x77\x77\x77\x77\x77\x20", 11) == 0);
    EXPECT(submit_at(engine, (kazovuni_job){.opcode = KAZOVUNI_OP_APPLY_DELTA, .source = LOW + 2 * PAGE + 1000,
                                            .target = LOW, .size = 64, .delta_size = 10}, record) == KAZOVUNI_OK);
    RECORD(KAZOVUNI_STATUS_SUCCESS, 0, 10, 0, 0);
    EXPECT(memcmp(memory[FIRST], memory[APART], 64) == 0);
    /* a refused job, and one that takes more staging than the engine has */
    EXPECT(submit_at(engine, (kazovuni_job){.opcode = 0x20, .target = LOW, .size = 8}, record) == KAZOVUNI_OK);
    RECORD(KAZOVUNI_STATUS_BAD_OPCODE, 0, 0, 0, 0);
    EXPECT(submit_at(engine, (kazovuni_job){.opcode = KAZOVUNI_OP_MOVE, .source = LOW, .target = HIGH, .size = 8192},
                     record) == KAZOVUNI_OK);
    RECORD(KAZOVUNI_STATUS_STAGING_REFUSED, 0, 0, 0, 0);
}

/* The calls of lists and batches: on the image, over pages in one piece, over regions. */
enum { ON_IMAGE, IN_ONE_PIECE, IN_REGIONS, PLACES };
static uint8_t pages[2 * PAGE];

static uint8_t submit_list(
    int place, kazovuni_engine *engine, const void *descriptors, size_t jobs, void *records, size_t answers)
{
    kazovuni_region regions[] = {{0, pages, PAGE}, {PAGE, pages + PAGE, PAGE}};
    switch (place) {
    case ON_IMAGE:
        return kazovuni_submit_list(engine, descriptors, jobs, records, answers);
    case IN_ONE_PIECE:
        return kazovuni_submit_list_in(engine, pages, sizeof pages, descriptors, jobs, records, answers);
    default:
        return kazovuni_submit_list_at(engine, regions, 2, descriptors, jobs, records, answers);
    }
}

static uint8_t submit_batch(
    int place, kazovuni_engine *engine, const void *descriptors, size_t jobs, void *records, size_t answers,
    uint8_t batch[32])
{
    kazovuni_region regions[] = {{0, pages, PAGE}, {PAGE, pages + PAGE, PAGE}};
    memset(batch, 0xcc, 32);
    switch (place) {
    case ON_IMAGE:
        return kazovuni_submit_batch(engine, descriptors, jobs, records, answers, batch);
    case IN_ONE_PIECE:
        return kazovuni_submit_batch_in(engine, pages, sizeof pages, descriptors, jobs, records, answers, batch);
    default:
        return kazovuni_submit_batch_at(engine, regions, 2, descriptors, jobs, records, answers, batch);
    }
}

/* One job more than a batch may have. */
#define MANY ((size_t)1 << 32)

/* So many descriptors and as many records behind them, which are reserved and never touched, or NULL. */
static uint8_t *reserve_many(void)
{
    void *room = mmap(NULL, 96 * MANY, PROT_READ | PROT_WRITE, MAP_PRIVATE | MAP_ANONYMOUS | MAP_NORESERVE, -1, 0);
    if (room != MAP_FAILED)
        return room;
    puts("regions: a batch of 2^32 jobs is not reserved here, and left out");
    return NULL;
}

/* What a list and a batch are refused for beside their memory, in the order of the tests. */
static void try_counts(int place, kazovuni_engine *engine)
{
    uint8_t descriptors[2][64] = {{0}}, records[2][32], batch[32], *room = reserve_many();
    kazovuni_engine none = {0};
    memset(records, 0xcc, sizeof records);
    EXPECT(submit_list(place, &none, descriptors, 2, records, 1) == KAZOVUNI_NO_ENGINE);
    EXPECT(submit_batch(place, &none, descriptors, 2, records, 1, batch) == KAZOVUNI_NO_ENGINE && batch[0] == 0xcc);
    EXPECT(submit_list(place, engine, descriptors, 2, records, 1) == KAZOVUNI_NOT_AS_MANY);
    EXPECT(submit_list(place, engine, descriptors, 1, records, 2) == KAZOVUNI_NOT_AS_MANY);
    EXPECT(submit_batch(place, engine, descriptors, 2, records, 1, batch) == KAZOVUNI_NOT_AS_MANY && batch[0] == 0xcc);
    EXPECT(submit_batch(place, engine, NULL, 0, records, 2, batch) == KAZOVUNI_NOT_AS_MANY && batch[0] == 0xcc);
    if (room) {
        EXPECT(submit_batch(place, &none, room, MANY, room + 64 * MANY, MANY, batch) == KAZOVUNI_NO_ENGINE);
        EXPECT(batch[0] == 0xcc);
        EXPECT(submit_batch(place, engine, room, MANY, room + 64 * MANY, MANY - 1, batch) == KAZOVUNI_NOT_AS_MANY);
        EXPECT(batch[0] == 0xcc);
        EXPECT(submit_batch(place, engine, room, MANY, room + 64 * MANY, MANY, batch) == KAZOVUNI_TOO_MANY_JOBS);
        EXPECT(batch[0] == 0xcc);
        EXPECT(munmap(room, 96 * MANY) == 0);
    }
    EXPECT(records[0][0] == 0xcc && records[1][31] == 0xcc);
    EXPECT(submit_list(place, engine, NULL, 0, NULL, 0) == KAZOVUNI_OK);
    EXPECT(submit_batch(place, engine, NULL, 0, NULL, 0, batch) == KAZOVUNI_OK);
    expect_record(batch, KAZOVUNI_STATUS_SUCCESS, 0, 0, 0, 0, __LINE__);
}

/* The handle is looked at before the memory, and the memory before the counts. */
static void try_memory_first(kazovuni_engine *engine)
{
    uint8_t descriptors[2][64] = {{0}}, records[1][32] = {{0xcc}}, batch[32] = {0xcc};
    kazovuni_region wrong = {1, pages, PAGE};
    kazovuni_engine none = {0};
    EXPECT(kazovuni_submit_in(&none, pages, 1, descriptors, records) == KAZOVUNI_NO_ENGINE);
    EXPECT(kazovuni_submit_list_in(&none, pages, 1, descriptors, 2, records, 1) == KAZOVUNI_NO_ENGINE);
    EXPECT(kazovuni_submit_batch_in(&none, pages, 1, descriptors, 2, records, 1, batch) == KAZOVUNI_NO_ENGINE);
    EXPECT(kazovuni_submit_list_in(&none, NULL, 0, descriptors, 1, records, 1) == KAZOVUNI_NO_ENGINE);
    EXPECT(kazovuni_submit_batch_in(&none, NULL, 0, descriptors, 1, records, 1, batch) == KAZOVUNI_NO_ENGINE);
    EXPECT(kazovuni_submit_list_in(engine, pages, 1, descriptors, 2, records, 1) == KAZOVUNI_NOT_PAGES);
    EXPECT(kazovuni_submit_batch_in(engine, pages, 1, descriptors, 2, records, 1, batch) == KAZOVUNI_NOT_PAGES);
    EXPECT(kazovuni_submit_list_at(engine, NULL, 0, descriptors, 2, records, 1) == KAZOVUNI_NO_REGIONS);
    EXPECT(kazovuni_submit_batch_at(engine, NULL, 0, descriptors, 2, records, 1, batch) == KAZOVUNI_NO_REGIONS);
    EXPECT(kazovuni_submit_list_at(engine, &wrong, 1, descriptors, 2, records, 1) == KAZOVUNI_BAD_ADDRESS);
    EXPECT(kazovuni_submit_batch_at(engine, &wrong, 1, descriptors, 2, records, 1, batch) == KAZOVUNI_BAD_ADDRESS);
    EXPECT(records[0][0] == 0xcc && batch[0] == 0xcc);
}

/* The codes of tables with a batch of more jobs than there may be: whatever is wrong with a table is told before. */
static const struct {
    kazovuni_region regions[2];
    size_t count;
    uint8_t code;
} tables_of_many[] = {
    {{{0, pages, PAGE}, {PAGE, pages + PAGE, PAGE}}, 2, KAZOVUNI_TOO_MANY_JOBS},
    {{{0, pages, PAGE}, {PAGE, pages + PAGE, PAGE}}, 0, KAZOVUNI_NO_REGIONS},
    {{{0, pages, PAGE}, {PAGE, NULL, PAGE}}, 2, KAZOVUNI_NULL_REGION},
    {{{0, pages, PAGE}, {PAGE, pages + PAGE, PAGE - 1}}, 2, KAZOVUNI_BAD_LENGTH},
    {{{0, pages, PAGE}, {PAGE + 1, pages + PAGE, PAGE}}, 2, KAZOVUNI_BAD_ADDRESS},
    {{{0, pages, PAGE}, {MOST_END, pages + PAGE, PAGE}}, 2, KAZOVUNI_REGION_PAST},
    {{{PAGE, pages, PAGE}, {0, pages + PAGE, PAGE}}, 2, KAZOVUNI_NOT_RISING},
};

/* A batch of so many jobs with an empty handle, over no pages, and over these tables and one that is too long. */
static void try_memory_of_many(kazovuni_engine *engine)
{
    kazovuni_region regions[KAZOVUNI_MOST_REGIONS + 1] = {{0, NULL, 0}};
    kazovuni_engine none = {0};
    uint8_t batch[32], *jobs = reserve_many();
    if (!jobs)
        return;
    uint8_t *records = jobs + 64 * MANY;
    memset(batch, 0xcc, sizeof batch);
    EXPECT(kazovuni_submit_batch_in(&none, pages, 1, jobs, MANY, records, MANY, batch) == KAZOVUNI_NO_ENGINE);
    EXPECT(kazovuni_submit_batch_in(engine, pages, 1, jobs, MANY, records, MANY, batch) == KAZOVUNI_NOT_PAGES);
    EXPECT(kazovuni_submit_batch_in(engine, NULL, 0, jobs, MANY, records, MANY, batch) == KAZOVUNI_NOT_PAGES);
    for (size_t i = 0; i < sizeof tables_of_many / sizeof tables_of_many[0]; i++) {
        size_t count = tables_of_many[i].count;
        uint8_t code = tables_of_many[i].code;
        memcpy(regions, tables_of_many[i].regions, sizeof tables_of_many[i].regions);
        EXPECT(kazovuni_submit_batch_at(engine, regions, count, jobs, MANY, records, MANY, batch) == code);
        EXPECT(kazovuni_submit_batch_at(&none, regions, count, jobs, MANY, records, MANY, batch) == KAZOVUNI_NO_ENGINE);
    }
    size_t most = KAZOVUNI_MOST_REGIONS;
    EXPECT(kazovuni_submit_batch_at(engine, regions, most + 1, jobs, MANY, records, MANY, batch) ==
           KAZOVUNI_TOO_MANY_REGIONS);
    EXPECT(kazovuni_submit_batch_at(&none, regions, most + 1, jobs, MANY, records, MANY, batch) == KAZOVUNI_NO_ENGINE);
    EXPECT(batch[0] == 0xcc && batch[31] == 0xcc);
    EXPECT(munmap(jobs, 96 * MANY) == 0);
}

/* What stands in the memory that the jobs go over. */
static void look(int place, kazovuni_engine *engine, uint8_t bytes[2 * PAGE])
{
    memcpy(bytes, pages, 2 * PAGE);
    if (place == ON_IMAGE)
        EXPECT(kazovuni_read(engine, 0, bytes, 2 * PAGE) == KAZOVUNI_OK);
}

/* A list, in which a fence is refused; batches with a fence behind jobs that succeeded, and behind one that failed. */
static void try_fences(int place, kazovuni_engine *engine)
{
    const kazovuni_job jobs[] = {
        {.opcode = KAZOVUNI_OP_FILL, .source = 0x0101010101010101, .target = 0, .size = 16},
        {.opcode = KAZOVUNI_OP_MOVE, .source = 2 * PAGE, .target = 64, .size = 8}, /* meets a page fault */
        {.opcode = KAZOVUNI_OP_MOVE, .flags = KAZOVUNI_FLAG_FENCE, .source = 0, .target = PAGE, .size = 16},
        {.opcode = KAZOVUNI_OP_FILL, .source = 0x0202020202020202, .target = 0, .size = 8},
    };
    uint8_t descriptors[4][64], records[4][32], batch[32], bytes[2 * PAGE];
    for (int i = 0; i < 4; i++)
        EXPECT(kazovuni_encode(&jobs[i], descriptors[i]));
    memset(pages, 0, sizeof pages);
    if (place == ON_IMAGE)
        EXPECT(kazovuni_bring(engine, 0, pages) == KAZOVUNI_OK && kazovuni_bring(engine, 1, pages) == KAZOVUNI_OK);
    /* the fence is not behind the job that fails: all are carried out, and the batch has failed */
    memcpy(descriptors[3], descriptors[1], 64);
    EXPECT(submit_batch(place, engine, descriptors[2], 2, records[2], 2, batch) == KAZOVUNI_OK);
    expect_record(batch, KAZOVUNI_STATUS_BATCH_FAILED, 0, 2, 0, 0, __LINE__);
    expect_record(records[2], KAZOVUNI_STATUS_SUCCESS, 0, 16, 0, 0, __LINE__);
    expect_record(records[3], KAZOVUNI_STATUS_READ_FAULT, 0, 0, 2 * PAGE, 0, __LINE__);
    /* it is behind it: the two jobs from the fence on are abandoned */
    EXPECT(kazovuni_encode(&jobs[3], descriptors[3]));
    memset(records, 0xcc, sizeof records);
    EXPECT(submit_batch(place, engine, descriptors, 4, records, 4, batch) == KAZOVUNI_OK);
    expect_record(batch, KAZOVUNI_STATUS_BATCH_FAILED, 0, 2, 0, 0, __LINE__);
    expect_record(records[0], KAZOVUNI_STATUS_SUCCESS, 0, 16, 0, 0, __LINE__);
    expect_record(records[1], KAZOVUNI_STATUS_READ_FAULT, 0, 0, 2 * PAGE, 0, __LINE__);
    expect_record(records[2], KAZOVUNI_STATUS_ABANDONED, 0, 0, 0, 0, __LINE__);
    expect_record(records[3], KAZOVUNI_STATUS_ABANDONED, 0, 0, 0, 0, __LINE__);
    look(place, engine, bytes);
    EXPECT(bytes[0] == 1 && bytes[15] == 1 && bytes[16] == 0 && bytes[PAGE] == 0);
    /* all succeed */
    memcpy(descriptors[1], descriptors[0], 64);
    EXPECT(submit_batch(place, engine, descriptors, 4, records, 4, batch) == KAZOVUNI_OK);
    expect_record(batch, KAZOVUNI_STATUS_SUCCESS, 0, 4, 0, 0, __LINE__);
    expect_record(records[2], KAZOVUNI_STATUS_SUCCESS, 0, 16, 0, 0, __LINE__);
    look(place, engine, bytes);
    EXPECT(bytes[0] == 2 && bytes[8] == 1 && bytes[PAGE] == 1 && bytes[PAGE + 15] == 1 && bytes[PAGE + 16] == 0);
    /* in a list the fence is an invalid flag, and the jobs behind it are carried out */
    EXPECT(submit_list(place, engine, descriptors, 4, records, 4) == KAZOVUNI_OK);
    expect_record(records[2], KAZOVUNI_STATUS_BAD_FLAGS, 0, 0, 0, 0, __LINE__);
    expect_record(records[3], KAZOVUNI_STATUS_SUCCESS, 0, 8, 0, 0, __LINE__);
}

/* An engine for its staging alone, and jobs over pages in one piece with it. */
static void try_staging(void)
{
    static uint8_t pages[3 * PAGE]; /* others than above */
    kazovuni_engine engine = {0};
    kazovuni_job create = {.opcode = KAZOVUNI_OP_CREATE_DELTA, .target = PAGE, .extra = 2 * PAGE, .size = PAGE};
    kazovuni_job fault = {.opcode = KAZOVUNI_OP_FILL, .target = 3 * PAGE - 4, .size = 8};
    uint8_t descriptor[64] = {0}, record[32];
    memset(record, 0xcc, sizeof record);
    EXPECT(kazovuni_submit_in(&engine, pages, 1, descriptor, record) == KAZOVUNI_NO_ENGINE);
    EXPECT(kazovuni_create_staging(&engine, KAZOVUNI_MOST_STAGING + 1) == KAZOVUNI_BAD_SETTINGS && !engine.is_open);
    EXPECT(kazovuni_create_staging(&engine, 400) == KAZOVUNI_OK && engine.is_open);
    EXPECT(kazovuni_create_staging(&engine, KAZOVUNI_MOST_STAGING + 1) == KAZOVUNI_HAS_ENGINE);
    EXPECT(kazovuni_create(&engine, 1, KAZOVUNI_MOST_STAGING + 1) == KAZOVUNI_HAS_ENGINE && engine.is_open);
    EXPECT(kazovuni_submit_in(&engine, pages, PAGE - 1, descriptor, record) == KAZOVUNI_NOT_PAGES);
    EXPECT(kazovuni_submit_in(&engine, NULL, 0, descriptor, record) == KAZOVUNI_NOT_PAGES && record[0] == 0xcc);
    memset(pages, 1, 2 * PAGE);
    memset(pages + PAGE + 80, 2, 8);
    create.delta_size = 400;
    EXPECT(kazovuni_encode(&create, descriptor));
    EXPECT(kazovuni_submit_in(&engine, pages, sizeof pages, descriptor, record) == KAZOVUNI_OK);
    RECORD(KAZOVUNI_STATUS_STAGING_REFUSED, 0, 0, 0, 0); /* a create of a page needs 5,120 bytes */
    kazovuni_free(&engine);
    EXPECT(kazovuni_create_staging(&engine, 5120) == KAZOVUNI_OK);
    EXPECT(kazovuni_submit_in(&engine, pages, sizeof pages, descriptor, record) == KAZOVUNI_OK);
    RECORD(KAZOVUNI_STATUS_SUCCESS, 1, PAGE, 0, 10);
    EXPECT(memcmp(pages + 2 * PAGE, "\12\0\2\2\2\2\2\2\2\2\0", 11) == 0);
    EXPECT(kazovuni_encode(&fault, descriptor));
    EXPECT(kazovuni_submit_in(&engine, pages, sizeof pages, descriptor, record) == KAZOVUNI_OK);
    RECORD(KAZOVUNI_STATUS_WRITE_FAULT, 0, 4, 3 * PAGE, 0);
    /* its own image is one absent page, and stays so */
    EXPECT(kazovuni_submit(&engine, descriptor, record) == KAZOVUNI_OK);
    RECORD(KAZOVUNI_STATUS_WRITE_FAULT, 0, 0, 3 * PAGE - 4, 0);
    EXPECT(kazovuni_bring(&engine, 1, pages) == KAZOVUNI_NO_SUCH_PAGE);
    kazovuni_free(&engine);
}

/* Pages that are looked at and given up. */
static void try_pages(void)
{
    static const uint8_t page[PAGE] = {5};
    kazovuni_engine engine = {0};
    uint32_t present = 77;
    uint8_t byte = 9;
    EXPECT(kazovuni_evict(&engine, 0) == KAZOVUNI_NO_ENGINE);
    EXPECT(kazovuni_present(&engine, 0, 1, &present) == KAZOVUNI_NO_ENGINE && present == 77);
    EXPECT(kazovuni_present(&engine, UINT64_MAX, 2, &present) == KAZOVUNI_NO_ENGINE && present == 77);
    EXPECT(kazovuni_create(&engine, 3, 0) == KAZOVUNI_OK);
    EXPECT(kazovuni_evict(&engine, 3) == KAZOVUNI_NO_SUCH_PAGE);
    EXPECT(kazovuni_evict(&engine, UINT32_MAX) == KAZOVUNI_NO_SUCH_PAGE);
    EXPECT(kazovuni_evict(&engine, 2) == KAZOVUNI_ABSENT);
    EXPECT(kazovuni_bring(&engine, 0, page) == KAZOVUNI_OK && kazovuni_bring(&engine, 1, page) == KAZOVUNI_OK);
    EXPECT(kazovuni_present(&engine, 4000, 4096, &present) == KAZOVUNI_OK && present == 4096);
    EXPECT(kazovuni_present(&engine, 4000, UINT32_MAX, &present) == KAZOVUNI_OK && present == 4192);
    EXPECT(kazovuni_present(&engine, 8192, 8, &present) == KAZOVUNI_OK && present == 0);
    EXPECT(kazovuni_present(&engine, UINT64_MAX, 1, &present) == KAZOVUNI_OK && present == 0);
    EXPECT(kazovuni_present(&engine, 0, 0, &present) == KAZOVUNI_OK && present == 0);
    present = 77;
    EXPECT(kazovuni_present(&engine, UINT64_MAX, 2, &present) == KAZOVUNI_ABSENT && present == 77);
    EXPECT(kazovuni_evict(&engine, 0) == KAZOVUNI_OK);
    EXPECT(kazovuni_read(&engine, 0, &byte, 1) == KAZOVUNI_ABSENT && byte == 9);
    EXPECT(kazovuni_read(&engine, 4096, &byte, 1) == KAZOVUNI_OK && byte == 5);
    EXPECT(kazovuni_evict(&engine, 0) == KAZOVUNI_ABSENT);
    EXPECT(kazovuni_present(&engine, 4095, 2, &present) == KAZOVUNI_OK && present == 0);
    EXPECT(kazovuni_bring(&engine, 0, page) == KAZOVUNI_OK); /* and it may be brought again */
    EXPECT(kazovuni_read(&engine, 1, &byte, 1) == KAZOVUNI_OK && byte == 0);
    kazovuni_free(&engine);
}

/* Whether the ranges of a job are these. */
static bool has_ranges(kazovuni_job job, uint32_t count, const kazovuni_range wanted[3])
{
    kazovuni_range ranges[3];
    uint8_t descriptor[64];
    memset(ranges, 0xee, sizeof ranges);
    if (!kazovuni_encode(&job, descriptor) || kazovuni_ranges(descriptor, ranges) != count)
        return false;
    for (int i = 0; i < 3; i++)
        if (ranges[i].address != wanted[i].address || ranges[i].length != wanted[i].length ||
            ranges[i].is_written != wanted[i].is_written)
            return false;
    return true;
}

static void try_ranges(void)
{
    kazovuni_job job = {.source = 11, .target = 22, .extra = 33, .size = 44, .delta_size = 55};
    const kazovuni_range source = {11, 44, false}, target = {22, 44, false}, none = {0, 0, false};
    const kazovuni_range written = {22, 44, true}, second = {33, 44, true}, delta = {33, 55, true};
    job.opcode = KAZOVUNI_OP_NO_OP;
    EXPECT(has_ranges(job, 0, (kazovuni_range[3]){none, none, none}));
    job.opcode = KAZOVUNI_OP_MOVE;
    EXPECT(has_ranges(job, 2, (kazovuni_range[3]){source, written, none}));
    job.opcode = KAZOVUNI_OP_FILL;
    EXPECT(has_ranges(job, 1, (kazovuni_range[3]){written, none, none}));
    job.opcode = KAZOVUNI_OP_COMPARE;
    EXPECT(has_ranges(job, 2, (kazovuni_range[3]){source, target, none}));
    job.opcode = KAZOVUNI_OP_COMPARE_PATTERN;
    EXPECT(has_ranges(job, 1, (kazovuni_range[3]){source, none, none}));
    job.opcode = KAZOVUNI_OP_CREATE_DELTA;
    EXPECT(has_ranges(job, 3, (kazovuni_range[3]){source, target, delta}));
    job.opcode = KAZOVUNI_OP_APPLY_DELTA;
    EXPECT(has_ranges(job, 2, (kazovuni_range[3]){{11, 55, false}, written, none}));
    job.opcode = KAZOVUNI_OP_DUALCAST;
    EXPECT(has_ranges(job, 3, (kazovuni_range[3]){source, written, second}));
    job.opcode = 0x20;
    EXPECT(has_ranges(job, 0, (kazovuni_range[3]){none, none, none}));
}

/* A completion address, and whether a record is written there. */
static void try_records(void)
{
    uint8_t descriptor[64] = {0}, record[32] = {KAZOVUNI_STATUS_SUCCESS}, place[34], zeros[34] = {0};
    uint64_t address = 7;
    put(descriptor + 8, UINT64_C(0x1122334455667788), 8);
    for (int i = 1; i < 32; i++)
        record[i] = (uint8_t)i;
    memset(place, 0, sizeof place);
    EXPECT(!kazovuni_completion(descriptor, &address) && address == 7);
    EXPECT(!kazovuni_put_record(descriptor, record, place + 1));
    descriptor[4] = KAZOVUNI_FLAG_REQUEST_RECORD; /* and no address */
    EXPECT(!kazovuni_completion(descriptor, &address) && address == 7);
    EXPECT(!kazovuni_put_record(descriptor, record, place + 1));
    descriptor[4] = KAZOVUNI_FLAG_ADDRESS_VALID; /* nobody asks for the record of a success */
    EXPECT(kazovuni_completion(descriptor, &address) && address == UINT64_C(0x1122334455667788));
    EXPECT(!kazovuni_put_record(descriptor, record, place + 1) && memcmp(place, zeros, sizeof place) == 0);
    record[0] = KAZOVUNI_STATUS_READ_FAULT;
    EXPECT(kazovuni_put_record(descriptor, record, place + 1) && memcmp(place + 1, record, 32) == 0);
    EXPECT(place[0] == 0 && place[33] == 0);
    record[0] = KAZOVUNI_STATUS_SUCCESS;
    descriptor[4] = KAZOVUNI_FLAG_ADDRESS_VALID | KAZOVUNI_FLAG_REQUEST_RECORD;
    EXPECT(kazovuni_put_record(descriptor, record, place + 1) && memcmp(place + 1, record, 32) == 0);
    /* that of an abandoned job, all zeros, is written too, and no byte beside it */
    memset(record, 0, sizeof record);
    memset(place, 0xcc, sizeof place);
    descriptor[4] = KAZOVUNI_FLAG_ADDRESS_VALID;
    EXPECT(kazovuni_put_record(descriptor, record, place + 1) && memcmp(place + 1, zeros, 32) == 0);
    EXPECT(place[0] == 0xcc && place[33] == 0xcc);
}

int main(void)
{
    kazovuni_engine engine = {0};
    if (kazovuni_create_staging(&engine, 8000) != KAZOVUNI_OK)
        return 2;
    try_tables(&engine);
    kazovuni_free(&engine);
    if (kazovuni_create(&engine, 1, KAZOVUNI_MOST_STAGING) != KAZOVUNI_OK)
        return 2;
    try_most(&engine);
    kazovuni_free(&engine);
    if (kazovuni_create_staging(&engine, 8000) != KAZOVUNI_OK)
        return 2;
    try_jobs(&engine);
    try_delta(&engine);
    kazovuni_free(&engine);
    if (kazovuni_create(&engine, 2, 8000) != KAZOVUNI_OK)
        return 2;
    for (int place = 0; place < PLACES; place++) {
        try_counts(place, &engine);
        try_fences(place, &engine);
    }
    try_memory_first(&engine);
    try_memory_of_many(&engine);
    kazovuni_free(&engine);
    try_staging();
    try_pages();
    try_ranges();
    try_records();
    for (int i = 0; i < REGIONS; i++)
        free(memory[i]);
    if (!failed)
        puts("regions: passed");
    return failed;
}
