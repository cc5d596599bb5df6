/*
 * Rows of batches and of lists, beside those of fences.c, through kazovuni.h: on an engine's own image, over memory in
 * one piece, over a region, over two with a hole between them, over the same far above, and on the last page of 5 GiB
 * in one piece, which are reserved, with two pages behind them, and touched there alone. Each is handed in as a batch,
 * as a list, and job by job, where these answer the same. What a row's jobs have to answer, and what they leave, stands
 * in the row; every other byte has to stay as it was, that of a page which is lent to nobody too.
 */
#define _DEFAULT_SOURCE
#include "kazovuni.h"

#include <stdio.h>
#include <stdlib.h>
#include <string.h>
#include <sys/mman.h>

enum { PAGE = KAZOVUNI_PAGE_BYTES, PAGES = 3, MOST_JOBS = 5, MOST_LEFT = 4, MEBIBYTE = 1 << 20 };
enum place { ON_IMAGE, IN_ONE_PIECE, OVER_A_REGION, BESIDE_A_HOLE, FAR_ABOVE, AT_THE_END, PLACES };

/* How the jobs of a row are handed in; a row has a bit for each way in which it answers what it says. */
enum way { AS_A_BATCH, AS_A_LIST, ALONE, WAYS };
enum { IN_BATCHES = 1 << AS_A_BATCH, IN_LISTS = 1 << AS_A_LIST | 1 << ALONE, ANYHOW = IN_BATCHES | IN_LISTS };

#define FAR_BEGIN (UINT64_C(1) << 43)
#define FIVE_GIB (UINT64_C(5) << 30)

/* Bytes from a place on: so many times the same, or those of the text. */
typedef struct stretch {
    uint64_t place;
    size_t count;
    uint8_t same;
    const char *text;
} stretch;

/* A row: what stands in its page of zeros before, or what the row before left; the batch's own status and count. */
typedef struct row {
    const char *name;
    int ways;
    bool goes_on;
    uint32_t staging;
    stretch before[2];
    int count;
    kazovuni_job jobs[MOST_JOBS];
    kazovuni_record records[MOST_JOBS];
    uint8_t status;
    uint32_t completed;
    stretch left[MOST_LEFT];
} row;

#define FILL(number, address, length)                                                                                  \
    {.opcode = KAZOVUNI_OP_FILL, .source = (number), .target = (address), .size = (length)}
#define FENCED_FILL(number, address, length)                                                                           \
    {.opcode = KAZOVUNI_OP_FILL, .flags = KAZOVUNI_FLAG_FENCE, .source = (number), .target = (address),                \
     .size = (length)}
#define MOVE(from, to, length) {.opcode = KAZOVUNI_OP_MOVE, .source = (from), .target = (to), .size = (length)}
#define COMPARE(one, other, length)                                                                                    \
    {.opcode = KAZOVUNI_OP_COMPARE, .source = (one), .target = (other), .size = (length)}
#define STRANGER {.opcode = 0x10} /* an opcode that is not carried out */

#define DONE(bytes) {.status = KAZOVUNI_STATUS_SUCCESS, .completed = (bytes)}
#define DIFFERS {.status = KAZOVUNI_STATUS_SUCCESS, .result = 1}
#define REFUSED(code) {.status = (code)}
#define FAULT(code, bytes, address) {.status = (code), .completed = (bytes), .fault = (address)}
#define ABANDONED {.status = KAZOVUNI_STATUS_ABANDONED}

#define ONE_TO_EIGHT "\1\2\3\4\5\6\7\10"
#define CREATE {.opcode = KAZOVUNI_OP_CREATE_DELTA, .target = 64, .size = 16, .extra = 128, .delta_size = 10}
#define CHECKED_CREATE                                                                                                 \
    {.opcode = KAZOVUNI_OP_CREATE_DELTA, .flags = KAZOVUNI_FLAG_CHECK_RESULT, .target = 64, .size = 16, .extra = 128,  \
     .delta_size = 10, .expected = 3}

static const row rows[] = {
    {"batch_with_bad_opcode", ANYHOW, false, MEBIBYTE, {{0}}, 3,
     {FILL(1, 0, 8), STRANGER, FILL(2, 8, 8)}, {DONE(8), REFUSED(KAZOVUNI_STATUS_BAD_OPCODE), DONE(8)},
     KAZOVUNI_STATUS_BATCH_FAILED, 3, {{0, 1, 1, NULL}, {8, 1, 2, NULL}}},
    {"staging_refusal_and_two_waves", ANYHOW, false, 64, {{0, 1, 9, NULL}}, 3,
     {MOVE(0, 256, 64), MOVE(0, 512, 65), MOVE(0, 1024, 64)},
     {DONE(64), REFUSED(KAZOVUNI_STATUS_STAGING_REFUSED), DONE(64)},
     KAZOVUNI_STATUS_BATCH_FAILED, 3, {{256, 1, 9, NULL}, {1024, 1, 9, NULL}}},
    {"conflict_chain", ANYHOW, false, MEBIBYTE, {{0, 8, 0, ONE_TO_EIGHT}}, 3,
     {MOVE(0, 64, 16), MOVE(64, 128, 16), FILL(UINT64_MAX, 0, 16)}, {DONE(16), DONE(16), DONE(16)},
     KAZOVUNI_STATUS_SUCCESS, 3, {{0, 16, 0xff, NULL}, {64, 8, 0, ONE_TO_EIGHT}, {128, 8, 0, ONE_TO_EIGHT}}},
    {"levels_of_four_jobs", ANYHOW, false, MEBIBYTE, {{0}}, 4,
     {FILL(1, 0, 8), MOVE(0, 64, 8), FILL(2, 512, 8), MOVE(512, 0, 8)}, {DONE(8), DONE(8), DONE(8), DONE(8)},
     KAZOVUNI_STATUS_SUCCESS, 4, {{0, 1, 2, NULL}, {64, 1, 1, NULL}, {512, 1, 2, NULL}}},
    {"flags_before_size", IN_LISTS, false, MEBIBYTE, {{0}}, 4,
     {{.opcode = KAZOVUNI_OP_MOVE, .flags = 0x10, .size = MEBIBYTE + 1}, MOVE(0, 0, MEBIBYTE + 1), MOVE(0, 0, 0),
      {.opcode = KAZOVUNI_OP_NO_OP, .flags = KAZOVUNI_FLAG_FENCE}},
     {REFUSED(KAZOVUNI_STATUS_BAD_FLAGS), REFUSED(KAZOVUNI_STATUS_BAD_SIZE), DONE(0),
      REFUSED(KAZOVUNI_STATUS_BAD_FLAGS)},
     0, 0, {{0}}},
    {"flags_before_size, without the fence", ANYHOW, false, MEBIBYTE, {{0}}, 3,
     {{.opcode = KAZOVUNI_OP_MOVE, .flags = 0x10, .size = MEBIBYTE + 1}, MOVE(0, 0, MEBIBYTE + 1), MOVE(0, 0, 0)},
     {REFUSED(KAZOVUNI_STATUS_BAD_FLAGS), REFUSED(KAZOVUNI_STATUS_BAD_SIZE), DONE(0)},
     KAZOVUNI_STATUS_BATCH_FAILED, 3, {{0}}},
    {"flags_before_size, with the fence in a batch", IN_BATCHES, false, MEBIBYTE, {{0}}, 4,
     {{.opcode = KAZOVUNI_OP_MOVE, .flags = 0x10, .size = MEBIBYTE + 1}, MOVE(0, 0, MEBIBYTE + 1), MOVE(0, 0, 0),
      {.opcode = KAZOVUNI_OP_NO_OP, .flags = KAZOVUNI_FLAG_FENCE}},
     {REFUSED(KAZOVUNI_STATUS_BAD_FLAGS), REFUSED(KAZOVUNI_STATUS_BAD_SIZE), DONE(0), ABANDONED},
     KAZOVUNI_STATUS_BATCH_FAILED, 3, {{0}}},
    {"empty batch", ANYHOW, false, MEBIBYTE, {{0}}, 0, {{0}}, {{0}}, KAZOVUNI_STATUS_SUCCESS, 0, {{0}}},
    {"stopped_jobs", ANYHOW, false, MEBIBYTE, {{0}}, 5,
     {FILL(0x0101010101010101, 4080, 40), MOVE(4084, 0, 40), COMPARE(0, 4084, 24), COMPARE(0, 100, 24),
      {.opcode = KAZOVUNI_OP_DUALCAST, .source = 0, .target = 256, .extra = 4352, .size = 24}},
     {FAULT(KAZOVUNI_STATUS_WRITE_FAULT, 16, 4096), FAULT(KAZOVUNI_STATUS_READ_FAULT, 12, 4096),
      FAULT(KAZOVUNI_STATUS_READ_FAULT, 12, 4096), DIFFERS, FAULT(KAZOVUNI_STATUS_WRITE_FAULT, 0, 4352)},
     KAZOVUNI_STATUS_BATCH_FAILED, 5, {{4080, 16, 1, NULL}, {0, 12, 1, NULL}}},
    {"batch-goes-on-behind-a-failed-job", ANYHOW, false, MEBIBYTE, {{0}}, 4,
     {FILL(0x1111111111111111, 4090, 8), MOVE(4090, 0, 6),
      {.opcode = KAZOVUNI_OP_FILL, .flags = 0x40, .target = 4090, .size = 2}, COMPARE(0, 4090, 6)},
     {FAULT(KAZOVUNI_STATUS_WRITE_FAULT, 6, 4096), DONE(6), REFUSED(KAZOVUNI_STATUS_BAD_FLAGS), DONE(6)},
     KAZOVUNI_STATUS_BATCH_FAILED, 4, {{4090, 6, 0x11, NULL}, {0, 6, 0x11, NULL}}},
    {"fence-after-an-overflow", IN_BATCHES, false, MEBIBYTE, {{64, 1, 0xff, NULL}, {72, 1, 0xff, NULL}}, 3,
     {CREATE, COMPARE(0, 64, 8), FENCED_FILL(1, 256, 8)},
     {{.status = KAZOVUNI_STATUS_SUCCESS, .result = 2, .completed = 8, .delta_size = 10}, DIFFERS, DONE(8)},
     KAZOVUNI_STATUS_SUCCESS, 3, {{128, 10, 0, "\0\0\xff\0\0\0\0\0\0\0"}, {256, 1, 1, NULL}}},
    {"fence-after-an-overflow, which is not expected", IN_BATCHES, true, MEBIBYTE, {{0}}, 2,
     {CHECKED_CREATE, FENCED_FILL(1, 256, 8)},
     {{.status = KAZOVUNI_STATUS_FALSE_PREDICATE, .result = 2, .completed = 8, .delta_size = 10}, ABANDONED},
     KAZOVUNI_STATUS_BATCH_FAILED, 1, {{0}}},
    {"fence-looks-at-every-earlier-job", IN_BATCHES, false, MEBIBYTE, {{0}}, 5,
     {FILL(1, 0, 8), FENCED_FILL(2, 8, 8), FILL(3, 4096, 8), FILL(4, 16, 8), FENCED_FILL(5, 24, 8)},
     {DONE(8), DONE(8), FAULT(KAZOVUNI_STATUS_WRITE_FAULT, 0, 4096), DONE(8), ABANDONED},
     KAZOVUNI_STATUS_BATCH_FAILED, 4, {{0, 1, 1, NULL}, {8, 1, 2, NULL}, {16, 1, 4, NULL}}},
    {"fence-looks-at-every-earlier-job, in the next batch", IN_BATCHES, true, MEBIBYTE, {{0}}, 1,
     {FENCED_FILL(6, 32, 8)}, {DONE(8)}, KAZOVUNI_STATUS_SUCCESS, 1, {{32, 1, 6, NULL}}},
};

static int failed;
static kazovuni_engine engine;

/* The row's page, one that no job may touch, and one behind the hole; and what they have to be. */
static uint8_t (*pages)[PAGE], own_pages[PAGES][PAGE], wanted[PAGES][PAGE];
static uint8_t *five_gib; /* and two such pages behind them */
static uint8_t descriptors[MOST_JOBS][64], records[MOST_JOBS][32], batch[32];

static void expect(bool holds, const row *row, enum place place, enum way way, const char *what)
{
    if (holds)
        return;
    fprintf(stderr, "batches: %s at place %d, way %d: not so: %s\n", row->name, place, way, what);
    failed = 1;
}

/* Where a row's page begins there. */
static uint64_t begin_of(enum place place)
{
    switch (place) {
    case FAR_ABOVE:
        return FAR_BEGIN;
    case AT_THE_END:
        return FIVE_GIB - PAGE;
    default:
        return 0;
    }
}

static void put(uint8_t *page, const stretch *stretches, int count)
{
    for (int i = 0; i < count; i++) {
        const stretch *stretch = &stretches[i];
        if (stretch->text)
            memcpy(page + stretch->place, stretch->text, stretch->count);
        else
            memset(page + stretch->place, stretch->same, stretch->count);
    }
}

/* The memory of a row, and an engine with its staging, on whose image it goes where that is the place. */
static void open_row(const row *row, enum place place)
{
    kazovuni_free(&engine);
    pages = place == AT_THE_END ? (uint8_t(*)[PAGE])(five_gib + begin_of(place)) : own_pages;
    memset(pages[0], 0, PAGE);
    memset(pages[1], 0xa5, PAGE);
    memset(pages[2], 0x5a, PAGE);
    put(pages[0], row->before, 2);
    memcpy(wanted, pages, sizeof wanted);
    bool is_made = place == ON_IMAGE ? kazovuni_create(&engine, PAGES, row->staging) == KAZOVUNI_OK &&
                                           kazovuni_bring(&engine, 0, pages[0]) == KAZOVUNI_OK &&
                                           kazovuni_bring(&engine, 2, pages[2]) == KAZOVUNI_OK
                                     : kazovuni_create_staging(&engine, row->staging) == KAZOVUNI_OK;
    if (!is_made)
        exit(2);
}

static bool describe(const kazovuni_job *job, enum place place, uint8_t descriptor[64])
{
    kazovuni_job moved = *job;
    if (job->opcode != KAZOVUNI_OP_FILL)
        moved.source += begin_of(place);
    moved.target += begin_of(place);
    moved.extra += begin_of(place);
    return kazovuni_encode(&moved, descriptor);
}

/* Whether a record has these fields, with the place's address of a fault, and zeros in all others. */
static bool has_fields(const uint8_t record[32], kazovuni_record fields, enum place place)
{
    uint8_t bytes[32];
    fields.fault += fields.fault == 0 ? 0 : begin_of(place);
    return kazovuni_record_encode(&fields, bytes) && memcmp(record, bytes, 32) == 0;
}

/* ---- the calls */

static uint8_t submit_batch(enum place place, size_t count, kazovuni_region table[2], size_t regions)
{
    switch (place) {
    case ON_IMAGE:
        return kazovuni_submit_batch(&engine, descriptors, count, records, count, batch);
    case IN_ONE_PIECE:
        return kazovuni_submit_batch_in(&engine, pages[0], PAGE, descriptors, count, records, count, batch);
    case AT_THE_END:
        return kazovuni_submit_batch_in(&engine, five_gib, FIVE_GIB, descriptors, count, records, count, batch);
    default:
        return kazovuni_submit_batch_at(&engine, table, regions, descriptors, count, records, count, batch);
    }
}

static uint8_t submit_list(enum place place, size_t count, kazovuni_region table[2], size_t regions)
{
    switch (place) {
    case ON_IMAGE:
        return kazovuni_submit_list(&engine, descriptors[0], count, records[0], count);
    case IN_ONE_PIECE:
        return kazovuni_submit_list_in(&engine, pages[0], PAGE, descriptors, count, records, count);
    case AT_THE_END:
        return kazovuni_submit_list_in(&engine, five_gib, FIVE_GIB, descriptors, count, records, count);
    default:
        return kazovuni_submit_list_at(&engine, table, regions, descriptors, count, records, count);
    }
}

static uint8_t submit_one(enum place place, size_t i, kazovuni_region table[2], size_t regions)
{
    switch (place) {
    case ON_IMAGE:
        return kazovuni_submit(&engine, descriptors[i], records[i]);
    case IN_ONE_PIECE:
        return kazovuni_submit_in(&engine, pages[0], PAGE, descriptors[i], records[i]);
    case AT_THE_END:
        return kazovuni_submit_in(&engine, five_gib, FIVE_GIB, descriptors[i], records[i]);
    default:
        return kazovuni_submit_at(&engine, table, regions, descriptors[i], records[i]);
    }
}

static uint8_t submit(enum place place, enum way way, size_t count)
{
    uint64_t begin = begin_of(place);
    kazovuni_region table[2] = {{begin, pages[0], PAGE}, {begin + 2 * PAGE, pages[2], PAGE}};
    size_t regions = place == OVER_A_REGION ? 1 : 2;
    uint8_t codes = KAZOVUNI_OK;
    if (way == AS_A_BATCH)
        return submit_batch(place, count, table, regions);
    if (way == AS_A_LIST)
        return submit_list(place, count, table, regions);
    for (size_t i = 0; i < count; i++)
        codes |= submit_one(place, i, table, regions);
    return codes;
}

/* ---- the rows */

static void expect_records(const row *row, enum place place, enum way way)
{
    const kazovuni_record own = {.status = row->status, .completed = row->completed};
    for (int i = 0; i < row->count; i++)
        expect(has_fields(records[i], row->records[i], place), row, place, way, "a job's record");
    for (int i = row->count; i < MOST_JOBS; i++)
        expect(records[i][0] == 0xcc && records[i][31] == 0xcc, row, place, way, "no record behind those of the jobs");
    if (way == AS_A_BATCH)
        expect(has_fields(batch, own, place), row, place, way, "the batch's own record");
    else
        expect(batch[0] == 0xcc && batch[31] == 0xcc, row, place, way, "no record but those of the jobs");
}

static void try_row(const row *row, enum place place, enum way way)
{
    if (!row->goes_on)
        open_row(row, place);
    memset(records, 0xcc, sizeof records);
    memset(batch, 0xcc, sizeof batch);
    for (int i = 0; i < row->count; i++)
        expect(describe(&row->jobs[i], place, descriptors[i]), row, place, way, "a descriptor");
    expect(submit(place, way, (size_t)row->count) == KAZOVUNI_OK, row, place, way, "the code");
    expect_records(row, place, way);
    put(wanted[0], row->left, MOST_LEFT);
    if (place == ON_IMAGE)
        expect(kazovuni_read(&engine, 0, pages[0], PAGE) == KAZOVUNI_OK &&
                   kazovuni_read(&engine, PAGE, pages[1], 1) == KAZOVUNI_ABSENT &&
                   kazovuni_read(&engine, 2 * PAGE, pages[2], PAGE) == KAZOVUNI_OK,
               row, place, way, "the pages are read");
    expect(memcmp(pages, wanted, sizeof wanted) == 0, row, place, way, "the bytes that are left");
}

int main(void)
{
    size_t count = sizeof rows / sizeof rows[0], length = FIVE_GIB + (PAGES - 1) * PAGE;
    void *room = mmap(NULL, length, PROT_READ | PROT_WRITE, MAP_PRIVATE | MAP_ANONYMOUS | MAP_NORESERVE, -1, 0);
    five_gib = room == MAP_FAILED ? NULL : room;
    if (five_gib == NULL)
        puts("batches: the system reserves no 5 GiB: the rows in a piece of that size are left out");
    for (enum place place = 0; place < PLACES; place++)
        for (enum way way = 0; way < WAYS; way++)
            for (size_t i = 0; i < count; i++)
                if ((rows[i].ways >> way & 1) != 0 && (place != AT_THE_END || five_gib != NULL))
                    try_row(&rows[i], place, way);
    kazovuni_free(&engine);
    if (five_gib != NULL)
        munmap(five_gib, length);
    if (!failed)
        printf("batches: %zu rows, passed\n", count);
    return failed;
}
