/*
 * Batches with fences and a list with one, through kazovuni.h: on an engine's own image, over memory in one piece and
 * over a region, each of one page of zeros, and on the last page of 5 GiB in one piece, which are reserved and touched
 * there alone. What a row's jobs have to answer, and the first bytes that they leave, stand in the row.
 */
#define _DEFAULT_SOURCE
#include "kazovuni.h"

#include <stdio.h>
#include <string.h>
#include <sys/mman.h>

enum { PAGE = KAZOVUNI_PAGE_BYTES, MOST_JOBS = 4, MOST_LEFT = 72 };
enum place { ON_IMAGE, IN_ONE_PIECE, OVER_A_REGION, AT_THE_END, PLACES };

#define FIVE_GIB (UINT64_C(5) << 30)

#define FENCE KAZOVUNI_FLAG_FENCE
#define FILL(number, address, length)                                                                                  \
    {.opcode = KAZOVUNI_OP_FILL, .source = (number), .target = (address), .size = (length)}
#define FENCED_FILL(number, address, length)                                                                           \
    {.opcode = KAZOVUNI_OP_FILL, .flags = FENCE, .source = (number), .target = (address), .size = (length)}
#define STRANGER 0x10 /* an opcode that is not carried out */

/* A row: its jobs, the status, bytes done and fault of each, and what they leave. In a list `status` is none. */
typedef struct row {
    const char *name;
    int count;
    kazovuni_job jobs[MOST_JOBS];
    struct {
        uint8_t status;
        uint32_t completed;
        uint64_t fault;
    } records[MOST_JOBS];
    uint8_t status;
    uint32_t completed;
    uint8_t left[MOST_LEFT];
} row;

#define DONE {KAZOVUNI_STATUS_SUCCESS, 8, 0}
#define NOTHING_DONE {KAZOVUNI_STATUS_SUCCESS, 0, 0}
#define FAULT {KAZOVUNI_STATUS_WRITE_FAULT, 0, PAGE}
#define ABANDONED {KAZOVUNI_STATUS_ABANDONED, 0, 0}

static const row rows[] = {
    {"fence_in_batch", 1, {{.opcode = KAZOVUNI_OP_NO_OP, .flags = FENCE}}, {NOTHING_DONE},
     KAZOVUNI_STATUS_SUCCESS, 1, {0}},
    {"fence_orders", 2, {FILL(1, 0, 8), FENCED_FILL(2, 0, 8)}, {DONE, DONE}, KAZOVUNI_STATUS_SUCCESS, 2, {2}},
    {"fence_abandons", 4, {FILL(1, 0, 8), FILL(1, PAGE, 8), FENCED_FILL(2, 8, 8), FILL(3, 16, 8)},
     {DONE, FAULT, ABANDONED, ABANDONED}, KAZOVUNI_STATUS_BATCH_FAILED, 2, {1}},
    {"fence_after_false_predicate", 2,
     {{.opcode = KAZOVUNI_OP_COMPARE, .flags = KAZOVUNI_FLAG_CHECK_RESULT, .size = 8, .expected = 1},
      {.opcode = KAZOVUNI_OP_NO_OP, .flags = FENCE}},
     {{KAZOVUNI_STATUS_FALSE_PREDICATE, 8, 0}, ABANDONED}, KAZOVUNI_STATUS_BATCH_FAILED, 1, {0}},
    {"refused_fenced_job", 3, {FILL(1, 0, 8), {.opcode = STRANGER, .flags = FENCE}, FILL(2, 8, 8)},
     {DONE, {KAZOVUNI_STATUS_BAD_OPCODE, 0, 0}, DONE}, KAZOVUNI_STATUS_BATCH_FAILED, 3,
     {1, 0, 0, 0, 0, 0, 0, 0, 2}},
    {"refused_fenced_job_after_fault", 3, {FILL(1, PAGE, 8), {.opcode = STRANGER, .flags = FENCE}, FILL(2, 8, 8)},
     {FAULT, ABANDONED, ABANDONED}, KAZOVUNI_STATUS_BATCH_FAILED, 1, {0}},
    {"fault_in_an_earlier_wave", 4,
     {FILL(1, PAGE, 8), FILL(1, 0, 8), {.opcode = KAZOVUNI_OP_MOVE, .target = 64, .size = 8}, FENCED_FILL(2, 8, 8)},
     {FAULT, DONE, DONE, ABANDONED}, KAZOVUNI_STATUS_BATCH_FAILED, 3, {[0] = 1, [64] = 1}},
    {"fences_one_after_another", 4,
     {FENCED_FILL(1, 0, 8), FENCED_FILL(2, 0, 8), FILL(3, PAGE, 8), FILL(4, 8, 8)},
     {DONE, DONE, FAULT, DONE}, KAZOVUNI_STATUS_BATCH_FAILED, 4, {2, 0, 0, 0, 0, 0, 0, 0, 4}},
    {"fence_in_list", 2, {FENCED_FILL(1, 0, 8), FILL(2, 8, 8)}, {{KAZOVUNI_STATUS_BAD_FLAGS, 0, 0}, DONE},
     0, 0, {[8] = 2}},
};

static int failed;
static uint8_t *five_gib;

/* Where a row's page begins there. */
static uint64_t begin_of(enum place place)
{
    return place == AT_THE_END ? FIVE_GIB - PAGE : 0;
}

static void expect(bool holds, const row *row, enum place place, const char *what)
{
    if (holds)
        return;
    fprintf(stderr, "fences: %s at place %d: not so: %s\n", row->name, place, what);
    failed = 1;
}

/* The descriptor of a job; of an opcode that is not carried out it is put in by hand. */
static bool describe(const kazovuni_job *job, enum place place, uint8_t descriptor[64])
{
    kazovuni_job other = *job;
    other.target += begin_of(place);
    if (job->opcode == KAZOVUNI_OP_MOVE || job->opcode == KAZOVUNI_OP_COMPARE)
        other.source += begin_of(place);
    if (job->opcode == STRANGER)
        other.opcode = KAZOVUNI_OP_NO_OP;
    if (!kazovuni_encode(&other, descriptor))
        return false;
    descriptor[7] = job->opcode;
    return true;
}

/* Whether a record has these fields, and zeros in all others. */
static bool has_fields(const uint8_t record[32], uint8_t status, uint32_t completed, uint64_t fault)
{
    const kazovuni_record fields = {.status = status, .completed = completed, .fault = fault};
    uint8_t wanted[32];
    return kazovuni_record_encode(&fields, wanted) && memcmp(record, wanted, 32) == 0;
}

/* Hands the jobs of a row in: as a list where its batch has no status, else as a batch. */
static uint8_t submit(
    const row *row, enum place place, kazovuni_engine *engine, uint8_t page[PAGE], const uint8_t *descriptors,
    uint8_t *records, uint8_t batch[32])
{
    kazovuni_region table[] = {{0, page, PAGE}};
    uint8_t *bytes = place == AT_THE_END ? five_gib : page;
    size_t length = begin_of(place) + PAGE;
    size_t count = (size_t)row->count;
    bool is_list = row->status == 0;
    switch (place) {
    case ON_IMAGE:
        return is_list ? kazovuni_submit_list(engine, descriptors, count, records, count)
                       : kazovuni_submit_batch(engine, descriptors, count, records, count, batch);
    case IN_ONE_PIECE:
    case AT_THE_END:
        return is_list ? kazovuni_submit_list_in(engine, bytes, length, descriptors, count, records, count)
                       : kazovuni_submit_batch_in(engine, bytes, length, descriptors, count, records, count, batch);
    default:
        return is_list ? kazovuni_submit_list_at(engine, table, 1, descriptors, count, records, count)
                       : kazovuni_submit_batch_at(engine, table, 1, descriptors, count, records, count, batch);
    }
}

static void try_row(const row *row, enum place place, kazovuni_engine *engine)
{
    static uint8_t own[PAGE];
    uint8_t *page = place == AT_THE_END ? five_gib + begin_of(place) : own;
    uint8_t descriptors[MOST_JOBS][64], records[MOST_JOBS][32], batch[32];
    memset(page, 0, PAGE);
    memset(records, 0xcc, sizeof records);
    memset(batch, 0xcc, sizeof batch);
    if (place == ON_IMAGE)
        expect(kazovuni_bring(engine, 0, page) == KAZOVUNI_OK, row, place, "the page is brought");
    for (int i = 0; i < row->count; i++)
        expect(describe(&row->jobs[i], place, descriptors[i]), row, place, "a descriptor");
    expect(submit(row, place, engine, page, descriptors[0], records[0], batch) == KAZOVUNI_OK, row, place, "the code");
    for (int i = 0; i < row->count; i++) {
        uint64_t fault = row->records[i].fault == 0 ? 0 : row->records[i].fault + begin_of(place);
        expect(
            has_fields(records[i], row->records[i].status, row->records[i].completed, fault), row, place,
            "a job's record");
    }
    if (row->status == 0)
        expect(batch[0] == 0xcc && batch[31] == 0xcc, row, place, "a list has no record of its own");
    else
        expect(has_fields(batch, row->status, row->completed, 0), row, place, "the batch's own record");
    if (place == ON_IMAGE)
        expect(kazovuni_read(engine, 0, page, PAGE) == KAZOVUNI_OK, row, place, "the page is read");
    expect(memcmp(page, row->left, MOST_LEFT) == 0, row, place, "the bytes that are left");
}

int main(void)
{
    kazovuni_engine engine = {0};
    if (kazovuni_create(&engine, 1, 4096) != KAZOVUNI_OK)
        return 2;
    void *room = mmap(NULL, FIVE_GIB, PROT_READ | PROT_WRITE, MAP_PRIVATE | MAP_ANONYMOUS | MAP_NORESERVE, -1, 0);
    five_gib = room == MAP_FAILED ? NULL : room;
    if (five_gib == NULL)
        puts("fences: the system reserves no 5 GiB: the rows in a piece of that size are left out");
    for (size_t i = 0; i < sizeof rows / sizeof rows[0]; i++)
        for (enum place place = 0; place < PLACES; place++)
            if (place != AT_THE_END || five_gib != NULL)
                try_row(&rows[i], place, &engine);
    kazovuni_free(&engine);
    if (five_gib != NULL)
        munmap(five_gib, FIVE_GIB);
    if (!failed)
        puts("fences: passed");
    return failed;
}
