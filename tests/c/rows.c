/*
 * Worked rows through kazovuni.h: over the caller's own pages by offsets, by the caller's own pointers and as a list of
 * one; over the same in one piece of any size, with the staging of an engine there, and over a region for each page,
 * alone and as a list of one; and over an image behind a handle, alone and as a list of one. What the record and every
 * byte have to be stands in the table.
 */
#include "kazovuni.h"

#include <assert.h>
#include <stdio.h>
#include <stdlib.h>
#include <string.h>

static_assert(sizeof(kazovuni_job) == 40, "the fields of a job as the library has them");
static_assert(offsetof(kazovuni_job, opcode) == 0, "opcode");
static_assert(offsetof(kazovuni_job, expected) == 1, "expected");
static_assert(offsetof(kazovuni_job, flags) == 4, "flags");
static_assert(offsetof(kazovuni_job, source) == 8, "source");
static_assert(offsetof(kazovuni_job, target) == 16, "target");
static_assert(offsetof(kazovuni_job, extra) == 24, "extra");
static_assert(offsetof(kazovuni_job, size) == 32, "size");
static_assert(offsetof(kazovuni_job, delta_size) == 36, "delta_size");

static_assert(sizeof(kazovuni_record) == 24, "the fields of a record as the library has them");
static_assert(offsetof(kazovuni_record, status) == 0, "status");
static_assert(offsetof(kazovuni_record, result) == 1, "result");
static_assert(offsetof(kazovuni_record, completed) == 4, "completed");
static_assert(offsetof(kazovuni_record, fault) == 8, "fault");
static_assert(offsetof(kazovuni_record, delta_size) == 16, "delta_size");

static_assert(sizeof(kazovuni_engine) == 16, "a handle as the library has it");
static_assert(offsetof(kazovuni_engine, engine) == 0, "engine");
static_assert(offsetof(kazovuni_engine, is_open) == 8, "is_open");

enum { NO_OP = 0x00, MOVE = 0x03, FILL = 0x04, COMPARE = 0x05, COMPARE_PATTERN = 0x06 };
enum { CREATE = 0x07, APPLY = 0x08, DUALCAST = 0x09 };
enum { STAGING = 4096 };

/* What a job leaves from a place on. */
typedef struct bytes_left {
    size_t place, count;
    uint8_t bytes[12];
} bytes_left;

typedef struct row {
    const char *name;
    size_t pages;
    kazovuni_job job;
    uint8_t status, result;
    uint32_t completed;
    uint64_t fault;
    uint32_t delta_size;
    bytes_left left[2];
} row;

#define PATTERN UINT64_C(0x0807060504030201)

/* Before each job the bytes are 01, 02, 03, 04, 05 and then 0. */
static const row rows[] = {
    {"no-op", 1, {.opcode = NO_OP}, 0x01, 0, 0, 0, 0, {{0}}},
    {"fill over a page edge", 2, {.opcode = FILL, .source = PATTERN, .target = 4092, .size = 12}, 0x01, 0, 12, 0, 0,
     {{4092, 12, {1, 2, 3, 4, 5, 6, 7, 8, 1, 2, 3, 4}}}},
    {"fill past the end", 1, {.opcode = FILL, .source = PATTERN, .target = 4090, .size = 12}, 0x83, 0, 6, 4096, 0,
     {{4090, 6, {1, 2, 3, 4, 5, 6}}}},
    {"move of a page", 2, {.opcode = MOVE, .source = 0, .target = 4096, .size = 4096}, 0x01, 0, 4096, 0, 0,
     {{4096, 5, {1, 2, 3, 4, 5}}}},
    {"backward move", 2, {.opcode = MOVE, .source = 0, .target = 2, .size = 14}, 0x01, 1, 14, 0, 0,
     {{2, 5, {1, 2, 3, 4, 5}}}},
    {"backward move past the end", 1, {.opcode = MOVE, .source = 0, .target = 4, .size = 4096}, 0x83, 1, 0, 4099, 0,
     {{0}}},
    {"more than the staging", 2, {.opcode = MOVE, .source = 0, .target = 4096, .size = 4097}, 0x7e, 0, 0, 0, 0, {{0}}},
    {"opcode that is none", 1, {.opcode = 0x20, .size = 8}, 0x10, 0, 0, 0, 0, {{0}}},
    {"dualcast", 2, {.opcode = DUALCAST, .source = 0, .target = 8180, .extra = 4084, .size = 5}, 0x01, 0, 5, 0, 0,
     {{8180, 5, {1, 2, 3, 4, 5}}, {4084, 5, {1, 2, 3, 4, 5}}}},
    {"dualcast past the end", 2, {.opcode = DUALCAST, .source = 0, .target = 4094, .extra = 8190, .size = 5}, 0x83, 0,
     2, 8192, 0, {{4094, 2, {1, 2}}, {8190, 2, {1, 2}}}},
    {"compare that differs", 2, {.opcode = COMPARE, .source = 0, .target = 4096, .size = 8}, 0x01, 1, 0, 0, 0, {{0}}},
    {"create", 2,
     {.opcode = CREATE, .source = 4096, .target = 0, .extra = 16, .size = 8, .delta_size = 10}, 0x01, 1, 8, 0, 10,
     {{16, 10, {0, 0, 1, 2, 3, 4, 5, 0, 0, 0}}}},
    {"create of a record behind the end", 1,
     {.opcode = CREATE, .source = 0, .target = 8, .extra = 4096, .size = 8, .delta_size = 10}, 0x83, 0, 0, 4096, 0,
     {{0}}},
    {"create of no byte", 1, {.opcode = CREATE, .source = 0, .target = 8, .extra = 4096, .delta_size = 10}, 0x01, 0, 0,
     0, 0, {{0}}},
    {"apply of a record behind the end", 1,
     {.opcode = APPLY, .source = 4096, .target = 64, .size = 8, .delta_size = 10}, 0x03, 0, 0, 4096, 0, {{0}}},
    {"apply of no entry", 1, {.opcode = APPLY, .source = 4096, .target = 64, .size = 8}, 0x01, 0, 0, 0, 0, {{0}}},
    {"move from behind the end", 1, {.opcode = MOVE, .source = 4096, .target = 0, .size = 4}, 0x03, 0, 0, 4096, 0,
     {{0}}},
    {"fill far behind the end", 1, {.opcode = FILL, .source = PATTERN, .target = 1 << 30, .size = 8}, 0x83, 0, 0,
     1 << 30, 0, {{0}}},
    {"pattern that is met", 1, {.opcode = COMPARE_PATTERN, .source = 0, .target = UINT64_C(0x0504030201), .size = 8},
     0x01, 0, 8, 0, 0, {{0}}},
    {"pattern past the end", 1, {.opcode = COMPARE_PATTERN, .source = 4092, .target = 0, .size = 8}, 0x03, 0, 4, 4096,
     0, {{0}}},
    {"fill up to 2^64", 1, {.opcode = FILL, .source = PATTERN, .target = UINT64_MAX - 7, .size = 8}, 0x83, 0, 0,
     UINT64_MAX - 7, 0, {{0}}},
    {"fill past 2^64", 1, {.opcode = FILL, .source = PATTERN, .target = UINT64_MAX - 7, .size = 9}, 0x7d, 0, 0, 0, 0,
     {{0}}},
    {"compare past 2^64", 1, {.opcode = COMPARE, .source = 0, .target = UINT64_MAX - 3, .size = 8}, 0x7d, 0, 0, 0, 0,
     {{0}}},
};

static int failed;

static void complain(const char *name, const char *form, const char *what)
{
    fprintf(stderr, "rows: %s, %s: %s\n", name, form, what);
    failed = 1;
}

static void put(uint8_t *bytes, uint64_t number, int count)
{
    for (int i = 0; i < count; i++)
        bytes[i] = (uint8_t)(number >> (8 * i));
}

/* The descriptor of a job whose addresses lie behind `base`. */
static void describe(uint8_t descriptor[64], const kazovuni_job *job, uint64_t base)
{
    int is_create = job->opcode == CREATE;
    int has_extra = is_create || job->opcode == DUALCAST;
    int has_source = job->opcode != FILL && job->opcode != NO_OP;
    int has_target = job->opcode != COMPARE_PATTERN && job->opcode != NO_OP;
    memset(descriptor, 0, 64);
    put(descriptor + 4, job->flags, 3);
    descriptor[7] = job->opcode;
    put(descriptor + 16, job->source + (has_source ? base : 0), 8);
    put(descriptor + 24, job->target + (has_target ? base : 0), 8);
    put(descriptor + 32, job->size, 4);
    if (has_extra)
        put(descriptor + 40, job->extra + base, 8);
    if (is_create)
        put(descriptor + 48, job->delta_size, 4);
    if (job->opcode == APPLY)
        put(descriptor + 40, job->delta_size, 4);
}

/* The completion record that a row wants. */
static void expect(uint8_t record[32], const row *row, uint64_t base)
{
    int is_fault = row->status == 0x03 || row->status == 0x83;
    memset(record, 0, 32);
    record[0] = row->status;
    record[1] = row->result;
    put(record + 4, row->completed, 4);
    put(record + 8, row->fault + (is_fault ? base : 0), 8);
    put(record + 16, row->delta_size, 4);
}

enum form {
    BY_OFFSETS,
    AS_A_LIST,
    BY_POINTERS,
    IN_ONE_PIECE,
    AS_A_LIST_IN_ONE_PIECE,
    WITH_STAGING,
    AS_A_LIST_WITH_STAGING,
    OVER_REGIONS,
    AS_A_LIST_OVER_REGIONS,
    BY_HANDLE,
    AS_A_LIST_BY_HANDLE
};
static const char *const form_names[] = {
    "by offsets", "as a list", "by pointers", "in one piece", "as a list in one piece", "with staging",
    "as a list with staging", "over regions", "as a list over regions", "by a handle", "as a list by a handle"};

/* An engine with these bytes as its pages; the program ends where there is none. */
static void open_over(kazovuni_engine *engine, const uint8_t *bytes, size_t pages)
{
    int wrong = kazovuni_create(engine, (uint32_t)pages, STAGING) != KAZOVUNI_OK;
    for (size_t i = 0; i < pages && !wrong; i++)
        wrong = kazovuni_bring(engine, (uint32_t)i, bytes + i * KAZOVUNI_PAGE_BYTES) != KAZOVUNI_OK;
    if (wrong)
        exit(2);
}

/* The same job on an image behind a handle, which is read back into the bytes. */
static uint8_t submit_by_handle(
    uint8_t *bytes, size_t length, enum form form, uint8_t (*descriptor)[64], uint8_t (*records)[32])
{
    kazovuni_engine engine = {0};
    uint8_t answer;
    open_over(&engine, bytes, length / KAZOVUNI_PAGE_BYTES);
    if (form == BY_HANDLE)
        answer = kazovuni_submit(&engine, descriptor[0], records[0]);
    else
        answer = kazovuni_submit_list(&engine, descriptor[0], 1, records[0], 1);
    if (kazovuni_read(&engine, 0, bytes, length) != KAZOVUNI_OK)
        exit(2);
    kazovuni_free(&engine);
    return answer;
}

/* The same job over one piece, or over a region for each page, with the staging of an engine. */
static uint8_t submit_staged(
    uint8_t *bytes, size_t length, enum form form, uint8_t (*descriptor)[64], uint8_t (*records)[32])
{
    kazovuni_engine engine = {0};
    kazovuni_region regions[2];
    size_t count = length / KAZOVUNI_PAGE_BYTES;
    uint8_t answer;
    if (count > 2 || kazovuni_create_staging(&engine, STAGING) != KAZOVUNI_OK)
        exit(2);
    for (size_t i = 0; i < count; i++)
        regions[i] = (kazovuni_region){
            i * KAZOVUNI_PAGE_BYTES, bytes + i * KAZOVUNI_PAGE_BYTES, KAZOVUNI_PAGE_BYTES};
    if (form == WITH_STAGING)
        answer = kazovuni_submit_in(&engine, bytes, length, descriptor, records);
    else if (form == AS_A_LIST_WITH_STAGING)
        answer = kazovuni_submit_list_in(&engine, bytes, length, descriptor, 1, records, 1);
    else if (form == OVER_REGIONS)
        answer = kazovuni_submit_at(&engine, regions, count, descriptor, records);
    else
        answer = kazovuni_submit_list_at(&engine, regions, count, descriptor, 1, records, 1);
    kazovuni_free(&engine);
    return answer;
}

static uint8_t submit(
    uint8_t *bytes, size_t length, enum form form, uint8_t (*descriptor)[64], uint8_t (*records)[32])
{
    switch (form) {
    case BY_OFFSETS:
        return kazovuni_submit_over(bytes, length, descriptor[0], STAGING, records[0]);
    case AS_A_LIST:
        return kazovuni_submit_list_over(bytes, length, descriptor[0], 1, STAGING, records[0], 1);
    case BY_POINTERS:
        return kazovuni_submit_pointers((uintptr_t)bytes, bytes, length, descriptor[0], STAGING, records[0]);
    case IN_ONE_PIECE:
        return kazovuni_submit_whole(bytes, length, descriptor[0], STAGING, records[0]);
    case AS_A_LIST_IN_ONE_PIECE:
        return kazovuni_submit_list_whole(bytes, length, descriptor[0], 1, STAGING, records[0], 1);
    case BY_HANDLE:
    case AS_A_LIST_BY_HANDLE:
        return submit_by_handle(bytes, length, form, descriptor, records);
    default:
        return submit_staged(bytes, length, form, descriptor, records);
    }
}

static void try_row(const row *row, enum form form)
{
    size_t length = row->pages * KAZOVUNI_PAGE_BYTES;
    uint8_t *bytes = calloc(1, length), *after = calloc(1, length);
    uint8_t descriptor[1][64], records[1][32], wanted[32];
    uint64_t base = form == BY_POINTERS ? (uint64_t)(uintptr_t)bytes : 0;
    if (!bytes || !after)
        exit(2);
    memcpy(bytes, "\1\2\3\4\5", 5);
    memcpy(after, bytes, length);
    for (int i = 0; i < 2; i++)
        memcpy(after + row->left[i].place, row->left[i].bytes, row->left[i].count);
    describe(descriptor[0], &row->job, base);
    expect(wanted, row, base);
    memset(records, 0xcc, sizeof records);
    if (submit(bytes, length, form, descriptor, records) != KAZOVUNI_OK)
        complain(row->name, form_names[form], "the answer");
    if (memcmp(records[0], wanted, 32) != 0)
        complain(row->name, form_names[form], "the record");
    if (memcmp(bytes, after, length) != 0)
        complain(row->name, form_names[form], "the bytes");
    free(bytes);
    free(after);
}

/* What is answered where the call itself is wrong; nothing is changed then. */
static void try_codes(void)
{
    static uint8_t bytes[KAZOVUNI_PAGE_BYTES + 1];
    uint8_t descriptors[2][64] = {{0}}, records[2][32], before[2][32];
    const uint8_t *list = descriptors[0];
    memset(records, 0xcc, sizeof records);
    memcpy(before, records, sizeof records);
    if (kazovuni_submit_over(bytes, sizeof bytes, descriptors[0], 0, records[0]) != KAZOVUNI_NOT_PAGES ||
        kazovuni_submit_over(bytes, 0, descriptors[0], 0, records[0]) != KAZOVUNI_NOT_PAGES ||
        kazovuni_submit_list_over(bytes, sizeof bytes, list, 2, 0, records[0], 2) != KAZOVUNI_NOT_PAGES ||
        kazovuni_submit_pointers(0, bytes, sizeof bytes, descriptors[0], 0, records[0]) != KAZOVUNI_NOT_PAGES ||
        kazovuni_submit_whole(bytes, sizeof bytes, descriptors[0], 0, records[0]) != KAZOVUNI_NOT_PAGES ||
        kazovuni_submit_whole(bytes, 0, descriptors[0], 0, records[0]) != KAZOVUNI_NOT_PAGES ||
        kazovuni_submit_list_whole(bytes, sizeof bytes, list, 2, 0, records[0], 2) != KAZOVUNI_NOT_PAGES)
        complain("bytes that are no pages", "all forms", "the answer");
    if (kazovuni_submit_list_over(bytes, KAZOVUNI_PAGE_BYTES, list, 2, 0, records[0], 1) != KAZOVUNI_NOT_AS_MANY ||
        kazovuni_submit_list_whole(bytes, KAZOVUNI_PAGE_BYTES, list, 2, 0, records[0], 1) != KAZOVUNI_NOT_AS_MANY)
        complain("a record too few", "as a list", "the answer");
    if (memcmp(records, before, sizeof records) != 0)
        complain("wrong calls", "all forms", "a record was written");
    if (kazovuni_submit_list_over(bytes, KAZOVUNI_PAGE_BYTES, NULL, 0, 0, NULL, 0) != KAZOVUNI_OK ||
        kazovuni_submit_list_whole(bytes, KAZOVUNI_PAGE_BYTES, NULL, 0, 0, NULL, 0) != KAZOVUNI_OK)
        complain("an empty list", "as a list", "the answer");
    if (kazovuni_version() != KAZOVUNI_VERSION)
        complain("the version", "of the library", "is not the header's");
}

/* Whether a handle is as before its first call. */
static bool is_zeroed(const kazovuni_engine *engine)
{
    return engine->engine == NULL && !engine->is_open;
}

/* What the calls on a handle answer, in their order of tests; what is refused leaves all as it was. */
static void try_handle(void)
{
    kazovuni_engine engine = {0}, moved;
    uint8_t page[KAZOVUNI_PAGE_BYTES], descriptor[1][64] = {{0}}, records[2][32], read[8] = {9, 9, 9, 9, 9, 9, 9, 9};
    const uint8_t *list = descriptor[0];
    memset(page, 0x5a, sizeof page);
    memset(records, 0xcc, sizeof records);
    if (kazovuni_bring(&engine, 0, page) != KAZOVUNI_NO_ENGINE ||
        kazovuni_write(&engine, 0, page, 1) != KAZOVUNI_NO_ENGINE ||
        kazovuni_read(&engine, 0, read, 1) != KAZOVUNI_NO_ENGINE ||
        kazovuni_submit(&engine, descriptor[0], records[0]) != KAZOVUNI_NO_ENGINE ||
        kazovuni_submit_list(&engine, list, 1, records[0], 2) != KAZOVUNI_NO_ENGINE)
        complain("a zeroed handle", "by a handle", "the answer");
    if (kazovuni_create(&engine, 0, KAZOVUNI_MOST_STAGING + 1) != KAZOVUNI_BAD_PAGES ||
        kazovuni_create(&engine, KAZOVUNI_MOST_PAGES + 1, 0) != KAZOVUNI_BAD_PAGES ||
        kazovuni_create(&engine, 2, KAZOVUNI_MOST_STAGING + 1) != KAZOVUNI_BAD_SETTINGS ||
        !is_zeroed(&engine))
        complain("bad pages and settings", "by a handle", "the answer");
    if (kazovuni_create(&engine, 2, 0) != KAZOVUNI_OK || kazovuni_create(&engine, 0, 0) != KAZOVUNI_HAS_ENGINE)
        complain("an engine", "by a handle", "is not made once");
    if (kazovuni_bring(&engine, 2, page) != KAZOVUNI_NO_SUCH_PAGE || kazovuni_bring(&engine, 0, page) != KAZOVUNI_OK)
        complain("a page", "by a handle", "is not brought");
    if (kazovuni_read(&engine, 4090, read, 8) != KAZOVUNI_ABSENT || read[0] != 9 ||
        kazovuni_write(&engine, 4090, page, 7) != KAZOVUNI_ABSENT ||
        kazovuni_read(&engine, UINT64_MAX, read, 8) != KAZOVUNI_ABSENT || read[0] != 9 ||
        kazovuni_read(&engine, UINT64_MAX, NULL, 0) != KAZOVUNI_OK ||
        kazovuni_write(&engine, 4090, (const uint8_t *)"\1\2\3\4\5\6", 6) != KAZOVUNI_OK ||
        kazovuni_read(&engine, 4088, read, 8) != KAZOVUNI_OK || memcmp(read, "\x5a\x5a\1\2\3\4\5\6", 8) != 0)
        complain("bytes", "by a handle", "are not those written");
    if (kazovuni_submit_list(&engine, list, 1, records[0], 2) != KAZOVUNI_NOT_AS_MANY || records[0][0] != 0xcc)
        complain("a record too many", "as a list by a handle", "the answer");
    moved = engine; /* and the first is not used again */
    if (kazovuni_read(&moved, 4090, read, 6) != KAZOVUNI_OK || memcmp(read, "\1\2\3\4\5\6", 6) != 0)
        complain("a handle elsewhere", "by a handle", "has other bytes");
    kazovuni_free(&moved);
    if (!is_zeroed(&moved))
        complain("a freed handle", "by a handle", "is not zero");
    kazovuni_free(&moved);
}

/* A page fault, the page brought, and the rest of the job. */
static void try_fault(void)
{
    kazovuni_engine engine = {0};
    kazovuni_job job = {.opcode = FILL, .source = PATTERN, .target = 4090, .size = 12};
    uint8_t page[KAZOVUNI_PAGE_BYTES] = {0}, descriptor[64], left[64], record[32], wanted[32], read[12];
    row fault = {.status = 0x83, .completed = 6, .fault = 4096}, done = {.status = 0x01, .completed = 6};
    describe(descriptor, &job, 0);
    expect(wanted, &fault, 0);
    if (kazovuni_create(&engine, 2, 0) != KAZOVUNI_OK || kazovuni_bring(&engine, 0, page) != KAZOVUNI_OK ||
        kazovuni_submit(&engine, descriptor, record) != KAZOVUNI_OK || memcmp(record, wanted, 32) != 0)
        complain("a page fault", "by a handle", "the record");
    expect(wanted, &done, 0);
    if (!kazovuni_rest(descriptor, record, left) || kazovuni_bring(&engine, 1, page) != KAZOVUNI_OK ||
        kazovuni_submit(&engine, left, record) != KAZOVUNI_OK || memcmp(record, wanted, 32) != 0 ||
        kazovuni_read(&engine, 4090, read, 12) != KAZOVUNI_OK ||
        memcmp(read, "\1\2\3\4\5\6\7\10\1\2\3\4", 12) != 0)
        complain("the rest", "by a handle", "the bytes");
    kazovuni_free(&engine);
}

#define BASE (UINT64_C(1) << 32)
#define LAST_PAGE (UINT64_MAX - 4095)

/* One page whose first byte has this address, and the addresses of a job and of its fault as the caller has them. */
static const struct {
    uint64_t base;
    row row;
} pointer_rows[] = {
    {BASE, {"compare below the base", 1, {.opcode = COMPARE, .source = BASE - 8, .target = BASE - 8, .size = 8},
            0x03, 0, 0, BASE - 8, 0, {{0}}}},
    {BASE, {"compare over the base", 1, {.opcode = COMPARE, .source = BASE - 4, .target = BASE - 4, .size = 8},
            0x7d, 0, 0, 0, 0, {{0}}}},
    {BASE, {"compare at the base", 1, {.opcode = COMPARE, .source = BASE, .target = BASE + 8, .size = 8},
            0x01, 1, 0, 0, 0, {{0}}}},
    {BASE, {"pattern below the base", 1, {.opcode = COMPARE_PATTERN, .source = BASE - 1, .target = 0, .size = 1},
            0x03, 0, 0, BASE - 1, 0, {{0}}}},
    {BASE, {"fill below the base", 1, {.opcode = FILL, .source = PATTERN, .target = BASE - 4096, .size = 4096},
            0x83, 0, 0, BASE - 4096, 0, {{0}}}},
    {BASE, {"fill over the base", 1, {.opcode = FILL, .source = PATTERN, .target = BASE - 4096, .size = 4097},
            0x7d, 0, 0, 0, 0, {{0}}}},
    {BASE, {"fill past the end", 1, {.opcode = FILL, .source = PATTERN, .target = BASE + 4090, .size = 12},
            0x83, 0, 6, BASE + 4096, 0, {{4090, 6, {1, 2, 3, 4, 5, 6}}}}},
    {BASE, {"move to below the base", 1, {.opcode = MOVE, .source = BASE, .target = BASE - 8, .size = 8},
            0x83, 0, 0, BASE - 8, 0, {{0}}}},
    {BASE, {"dualcast to below the base", 1,
            {.opcode = DUALCAST, .source = BASE, .target = BASE + 8, .extra = BASE - 4088, .size = 5},
            0x83, 0, 0, BASE - 4088, 0, {{0}}}},
    {BASE, {"create of a record below the base", 1,
            {.opcode = CREATE, .source = BASE, .target = BASE + 8, .extra = BASE - 16, .size = 8, .delta_size = 10},
            0x83, 0, 0, BASE - 16, 0, {{0}}}},
    {BASE, {"apply of a record below the base", 1,
            {.opcode = APPLY, .source = BASE - 16, .target = BASE + 64, .size = 8, .delta_size = 10},
            0x03, 0, 0, BASE - 16, 0, {{0}}}},
    {BASE, {"fill at 0", 1, {.opcode = FILL, .source = PATTERN, .target = 0, .size = 8},
            0x83, 0, 0, 0, 0, {{0}}}},
    {LAST_PAGE, {"fill up to 2^64", 1, {.opcode = FILL, .source = PATTERN, .target = LAST_PAGE + 4088, .size = 8},
                 0x01, 0, 8, 0, 0, {{4088, 8, {1, 2, 3, 4, 5, 6, 7, 8}}}}},
    {LAST_PAGE, {"fill past 2^64", 1, {.opcode = FILL, .source = PATTERN, .target = LAST_PAGE + 4090, .size = 12},
                 0x83, 0, 6, 0, 0, {{4090, 6, {1, 2, 3, 4, 5, 6}}}}},
    {BASE, {"fill past 2^64, far from the base", 1,
            {.opcode = FILL, .source = PATTERN, .target = UINT64_MAX - 7, .size = 9},
            0x83, 0, 0, UINT64_MAX - 7, 0, {{0}}}},
    {8, {"fill past 2^64, up to the base", 1,
         {.opcode = FILL, .source = PATTERN, .target = UINT64_MAX - 7, .size = 16},
         0x83, 0, 0, UINT64_MAX - 7, 0, {{0}}}},
    {8, {"fill past 2^64, over the base", 1,
         {.opcode = FILL, .source = PATTERN, .target = UINT64_MAX - 7, .size = 17},
         0x7d, 0, 0, 0, 0, {{0}}}},
    {LAST_PAGE, {"fill from 8 on", 1, {.opcode = FILL, .source = PATTERN, .target = 8, .size = 8},
                 0x83, 0, 0, 8, 0, {{0}}}},
};

/* Addresses below the base, past the end of the pages and past 2^64: taken off, and put back on a fault. */
static void try_pointers(void)
{
    for (size_t i = 0; i < sizeof pointer_rows / sizeof pointer_rows[0]; i++) {
        const row *row = &pointer_rows[i].row;
        uint8_t bytes[KAZOVUNI_PAGE_BYTES] = {1, 2, 3, 4, 5}, after[KAZOVUNI_PAGE_BYTES] = {1, 2, 3, 4, 5};
        uint8_t descriptor[64], record[32], wanted[32];
        memcpy(after + row->left[0].place, row->left[0].bytes, row->left[0].count);
        describe(descriptor, &row->job, 0);
        expect(wanted, row, 0);
        if (kazovuni_submit_pointers(pointer_rows[i].base, bytes, sizeof bytes, descriptor, STAGING, record) !=
            KAZOVUNI_OK)
            complain(row->name, "by pointers, with a base", "the answer");
        if (memcmp(record, wanted, 32) != 0)
            complain(row->name, "by pointers, with a base", "the record");
        if (memcmp(bytes, after, sizeof bytes) != 0)
            complain(row->name, "by pointers, with a base", "the bytes");
    }
}

/* What looks at a descriptor alone. */
static void try_looks(void)
{
    kazovuni_job job = {.opcode = DUALCAST, .flags = 0x100, .source = 1, .target = 2, .extra = 4098, .size = 3};
    uint8_t descriptor[64];
    describe(descriptor, &job, 0);
    kazovuni_job seen = kazovuni_decode(descriptor);
    if (seen.opcode != job.opcode || seen.flags != job.flags || seen.source != job.source ||
        seen.target != job.target || seen.extra != job.extra || seen.size != job.size || seen.delta_size != 0 ||
        seen.expected != 0)
        complain("a dualcast", "decoded", "a field");
    job.flags = 0;
    describe(descriptor, &job, 0);
    if (kazovuni_check(descriptor, 2) != 0x16)
        complain("overlapping ranges", "checked", "the status");
    job.source = 8192;
    describe(descriptor, &job, 0);
    if (kazovuni_need(descriptor) != 3 || kazovuni_check(descriptor, 2) != 0x7e || kazovuni_check(descriptor, 3) != 0)
        complain("the staging of a dualcast", "checked", "the need");
}

/* A list of two jobs of which the second sees what the first left. */
static void try_list(void)
{
    static uint8_t bytes[KAZOVUNI_PAGE_BYTES];
    kazovuni_job jobs[2] = {{.opcode = FILL, .source = PATTERN, .target = 8, .size = 8},
                            {.opcode = COMPARE, .flags = 0x80, .source = 8, .target = 16, .size = 8, .expected = 0}};
    uint8_t descriptors[2][64], records[2][32], wanted[2][32];
    row filled = {.status = 0x01, .completed = 8}, differs = {.status = 0x02, .result = 1};
    for (int i = 0; i < 2; i++)
        if (!kazovuni_encode(&jobs[i], descriptors[i]))
            complain("a list of two", "encoded", "the answer");
    expect(wanted[0], &filled, 0);
    expect(wanted[1], &differs, 0);
    if (kazovuni_submit_list_over(bytes, sizeof bytes, descriptors[0], 2, 0, records[0], 2) != KAZOVUNI_OK ||
        memcmp(records, wanted, sizeof wanted) != 0)
        complain("a list of two", "as a list", "the records");
    memset(bytes, 0, sizeof bytes);
    memset(records, 0xcc, sizeof records);
    if (kazovuni_submit_list_whole(bytes, sizeof bytes, descriptors[0], 2, 0, records[0], 2) != KAZOVUNI_OK ||
        memcmp(records, wanted, sizeof wanted) != 0)
        complain("a list of two", "as a list in one piece", "the records");
}

/* Descriptors and records from their fields and back, and what is left after a page fault. */
static void try_fields(void)
{
    uint8_t descriptor[64], wanted[64], record[32], left[64];
    memset(descriptor, 0xcc, 64);
    for (size_t i = 0; i < sizeof rows / sizeof rows[0]; i++) {
        describe(wanted, &rows[i].job, 0);
        if (!kazovuni_encode(&rows[i].job, descriptor) || memcmp(descriptor, wanted, 64) != 0)
            complain(rows[i].name, "encoded", "the descriptor");
        kazovuni_record fields = {rows[i].status, rows[i].result, rows[i].completed, rows[i].fault, rows[i].delta_size};
        kazovuni_record back = {0};
        expect(wanted, &rows[i], 0);
        if (!kazovuni_record_encode(&fields, record) || memcmp(record, wanted, 32) != 0)
            complain(rows[i].name, "its record encoded", "the bytes");
        if (!kazovuni_record_decode(record, &back) || back.status != fields.status || back.result != fields.result ||
            back.completed != fields.completed || back.fault != fields.fault || back.delta_size != fields.delta_size)
            complain(rows[i].name, "its record decoded", "a field");
    }
    kazovuni_job apply = {.opcode = APPLY, .source = 1, .target = 8, .size = 16, .delta_size = 20};
    kazovuni_job masked = {.opcode = CREATE, .size = 8, .delta_size = 10, .extra = 80, .expected = 6};
    kazovuni_job wide = {.opcode = NO_OP, .flags = 1 << 24}, seen;
    kazovuni_record none = {.status = 0x42};
    seen = kazovuni_encode(&apply, descriptor) ? kazovuni_decode(descriptor) : wide;
    if (seen.delta_size != 20 || seen.source != 1 || seen.target != 8 || seen.size != 16 || descriptor[40] != 20)
        complain("an apply", "encoded", "a field");
    seen = kazovuni_encode(&masked, descriptor) ? kazovuni_decode(descriptor) : wide;
    if (seen.expected != 6 || descriptor[56] != 6 || seen.extra != 80 || seen.delta_size != 10)
        complain("a mask", "encoded", "a field");
    memset(descriptor, 0xcc, 64);
    memset(record, 0x42, 32);
    if (kazovuni_encode(&wide, descriptor) || descriptor[7] != 0xcc || kazovuni_record_encode(&none, record) ||
        record[1] != 0x42 || kazovuni_record_decode(record, &none) || none.completed != 0)
        complain("what does not fit", "encoded", "the answer");
    describe(descriptor, &rows[2].job, 0);
    expect(record, &rows[2], 0);
    kazovuni_job rest = {.opcode = FILL, .source = UINT64_C(0x0605040302010807), .target = 4096, .size = 6};
    describe(wanted, &rest, 0);
    if (!kazovuni_rest(descriptor, record, left) || memcmp(left, wanted, 64) != 0)
        complain("a fill past the end", "its rest", "the descriptor");
    expect(record, &rows[1], 0);
    memset(left, 0xcc, 64);
    if (kazovuni_rest(descriptor, record, left) || left[0] != 0xcc)
        complain("a fill that is done", "its rest", "the answer");
}

int main(void)
{
    for (size_t i = 0; i < sizeof rows / sizeof rows[0]; i++)
        for (enum form form = BY_OFFSETS; form <= AS_A_LIST_BY_HANDLE; form++)
            try_row(&rows[i], form);
    try_codes();
    try_handle();
    try_fault();
    try_pointers();
    try_looks();
    try_list();
    try_fields();
    if (failed)
        return 1;
    printf("rows: all as they have to be\n");
    return 0;
}
