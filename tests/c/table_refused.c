/*
 * Each growth of memory that the library asks for, refused in turn: the call that asked answers want of memory and
 * leaves everything as it was, so that the same call does its work right after; no other call answers it, and at the
 * end every block is given back. And all growths above a budget. Jobs on an engine's own pages, those over other memory
 * with its staging, and those over buffers, ask for nothing.
 *
 * Linked with -Wl,--wrap=malloc,--wrap=realloc,--wrap=free, so that the library's own calls come here first.
 */
#include "kazovuni.h"

#include <stdio.h>
#include <stdlib.h>
#include <string.h>

/* What the create below needs, which an engine is made with, and the limit over lent memory, which is far above it. */
enum { PAGE = KAZOVUNI_PAGE_BYTES, NEED = 40, LIMIT = 1 << 20 };

/* ---- the heap */

static size_t growths, refused; /* so many were asked for; the number of the one that is refused */
static size_t budget = SIZE_MAX; /* above so many, every one is refused */
static long blocks;             /* that are held */
static bool is_met;             /* the last call met the refusal */
static size_t largest;          /* of the blocks that were asked for */

void *__real_malloc(size_t size);
void *__real_realloc(void *block, size_t size);
void __real_free(void *block);
void *__wrap_malloc(size_t size);
void *__wrap_realloc(void *block, size_t size);
void __wrap_free(void *block);

static bool refuses(void)
{
    bool is_refused = ++growths == refused || growths > budget;
    is_met |= is_refused;
    return is_refused;
}

void *__wrap_malloc(size_t size)
{
    void *block = refuses() ? NULL : __real_malloc(size);
    largest = size > largest ? size : largest;
    blocks += block != NULL;
    return block;
}

void *__wrap_realloc(void *block, size_t size)
{
    void *grown = refuses() ? NULL : __real_realloc(block, size);
    blocks += block == NULL && grown != NULL;
    return grown;
}

void __wrap_free(void *block)
{
    blocks -= block != NULL;
    __real_free(block);
}

/* ---- the calls */

/* Those that ask for memory, and at how many of their growths each answered want of it. */
enum call { CREATE, STAGING, BRING, OVER, LIST_OVER, POINTERS, WHOLE, LIST_WHOLE, CALLS };
static size_t met[CALLS];

static void expect(const char *what, bool holds)
{
    if (holds)
        return;
    fprintf(stderr, "table_refused: growth %zu: %s\n", refused, what);
    exit(1);
}

/* Whether the call did its work: it answers want of memory exactly where a growth of its own was refused. */
static bool is_done(enum call call, uint8_t answer)
{
    expect("the answer", answer == (is_met ? KAZOVUNI_NO_MEMORY : KAZOVUNI_OK));
    met[call] += is_met;
    is_met = false;
    return answer == KAZOVUNI_OK;
}

/* A call that asks for no memory. */
static void expect_done(const char *name, uint8_t answer)
{
    expect(name, answer == KAZOVUNI_OK && !is_met);
}

/* A create of two entries, its record, and what it leaves at 128, where the bytes at 72 and 88 are these. */
static const uint8_t create[1][64] = {{[7] = 0x07, [24] = 64, [32] = 32, [40] = 128, [48] = 20}};
static const uint8_t created[32] = {0x01, 1, [4] = 32, [16] = 20};
static const uint8_t at_72[8] = {1, 2, 3, 4, 5, 6, 7, 8}, at_88[8] = {0x11, 0x12, 0x13, 0x14, 0x15, 0x16, 0x17, 0x18};
static const uint8_t delta[20] = {1, 0, 1, 2, 3, 4, 5, 6, 7, 8, 3, 0, 0x11, 0x12, 0x13, 0x14, 0x15, 0x16, 0x17, 0x18};

static void walk_engine(const uint8_t page[PAGE])
{
    kazovuni_engine engine = {0};
    uint8_t bytes[PAGE], records[1][32], batch[32];
    uint32_t present = 0;
    while (!is_done(CREATE, kazovuni_create(&engine, 2, NEED)))
        expect("the handle of no engine", engine.engine == NULL && !engine.is_open && blocks == 0);
    while (!is_done(BRING, kazovuni_bring(&engine, 0, page)))
        expect("a page that was not brought", kazovuni_read(&engine, 0, bytes, 1) == KAZOVUNI_ABSENT);
    while (!is_done(BRING, kazovuni_bring(&engine, 1, page)))
        expect("another that was not brought", kazovuni_read(&engine, PAGE, bytes, 1) == KAZOVUNI_ABSENT);
    expect_done("a page that is present", kazovuni_bring(&engine, 0, page));
    expect_done("write", kazovuni_write(&engine, 72, at_72, 8));
    expect_done("submit", kazovuni_submit(&engine, create[0], records[0]));
    expect("the record", memcmp(records[0], created, 32) == 0);
    expect_done("write", kazovuni_write(&engine, 128, page, 20));
    expect_done("submit_list", kazovuni_submit_list(&engine, create[0], 1, records[0], 1));
    expect("the record of a list", memcmp(records[0], created, 32) == 0);
    expect_done("read", kazovuni_read(&engine, 0, bytes, PAGE));
    expect("the bytes before the delta record", memcmp(bytes, page, 128) == 0);
    expect("the delta record", memcmp(bytes + 128, delta, 20) == 0);
    expect("the bytes behind it", memcmp(bytes + 148, page + 148, PAGE - 148) == 0);
    expect_done("submit_batch", kazovuni_submit_batch(&engine, create, 1, records, 1, batch));
    expect_done("present", kazovuni_present(&engine, 0, 2 * PAGE, &present));
    expect("how many bytes are present", present == 2 * PAGE);
    long held = blocks;
    expect_done("evict", kazovuni_evict(&engine, 1));
    expect("the memory of a page that is given up", blocks == held - 1);
    kazovuni_free(&engine);
    expect("free", blocks == 0 && !is_met);
}

/* The ways of a job with the staging of an engine, and of many jobs. */
enum { IN, LIST_IN, BATCH_IN, AT, LIST_AT, BATCH_AT, STAGED_FORMS };

static uint8_t submit_staged(int form, kazovuni_engine *engine, uint8_t bytes[PAGE], uint8_t records[1][32])
{
    kazovuni_region table[1] = {{0, bytes, PAGE}};
    uint8_t batch[32];
    switch (form) {
    case IN:
        return kazovuni_submit_in(engine, bytes, PAGE, create, records);
    case LIST_IN:
        return kazovuni_submit_list_in(engine, bytes, PAGE, create, 1, records, 1);
    case BATCH_IN:
        return kazovuni_submit_batch_in(engine, bytes, PAGE, create, 1, records, 1, batch);
    case AT:
        return kazovuni_submit_at(engine, table, 1, create, records);
    case LIST_AT:
        return kazovuni_submit_list_at(engine, table, 1, create, 1, records, 1);
    default:
        return kazovuni_submit_batch_at(engine, table, 1, create, 1, records, 1, batch);
    }
}

/* A job of each kind that needs staging, and of those that need none, with what each has to answer. */
enum { STAGED_JOBS = 8 };
static const kazovuni_job staged_jobs[STAGED_JOBS] = {
    {.opcode = KAZOVUNI_OP_CREATE_DELTA, .target = 64, .size = 32, .extra = 128, .delta_size = 20},
    {.opcode = KAZOVUNI_OP_APPLY_DELTA, .source = 128, .target = 256, .size = 32, .delta_size = 20},
    {.opcode = KAZOVUNI_OP_DUALCAST, .source = 64, .target = 512, .size = 40, .extra = PAGE + 512},
    {.opcode = KAZOVUNI_OP_COMPARE, .source = 64, .target = PAGE + 512, .size = 40},
    {.opcode = KAZOVUNI_OP_MOVE, .source = 64, .target = PAGE - 8, .size = 32},
    {.opcode = KAZOVUNI_OP_MOVE, .source = PAGE - 8, .target = PAGE, .size = 32}, /* over itself */
    {.opcode = KAZOVUNI_OP_COMPARE_PATTERN, .source = 1024, .size = 64},
    {.opcode = KAZOVUNI_OP_FILL, .source = 7, .target = PAGE - 64, .size = 128},
};
static const kazovuni_record staged_records[STAGED_JOBS] = {
    {.status = 0x01, .result = 1, .completed = 32, .delta_size = 20},
    {.status = 0x01, .completed = 20},
    {.status = 0x01, .completed = 40},
    {.status = 0x01, .completed = 40},
    {.status = 0x01, .completed = 32},
    {.status = 0x01, .result = 1, .completed = 32},
    {.status = 0x01, .completed = 64},
    {.status = 0x01, .completed = 128},
};

static void expect_staged(uint8_t records[STAGED_JOBS][32])
{
    uint8_t wanted[32];
    for (int i = 0; i < STAGED_JOBS; i++) {
        expect("encode", kazovuni_record_encode(&staged_records[i], wanted));
        expect("the record of a job with staging", memcmp(records[i], wanted, 32) == 0);
    }
    memset(records, 0xcc, STAGED_JOBS * 32);
}

/* These jobs over one piece and over two regions, one by one, as a list and as a batch. */
static void walk_staged_jobs(kazovuni_engine *engine)
{
    static uint8_t bytes[2 * PAGE];
    kazovuni_region table[2] = {{0, bytes, PAGE}, {PAGE, bytes + PAGE, PAGE}};
    uint8_t jobs[STAGED_JOBS][64], records[STAGED_JOBS][32], batch[32];
    memset(bytes, 0, sizeof bytes);
    memcpy(bytes + 72, at_72, 8);
    memcpy(bytes + 88, at_88, 8);
    for (int i = 0; i < STAGED_JOBS; i++)
        expect("encode", kazovuni_encode(&staged_jobs[i], jobs[i]));
    for (int i = 0; i < STAGED_JOBS; i++)
        expect_done("in", kazovuni_submit_in(engine, bytes, 2 * PAGE, jobs[i], records[i]));
    expect_staged(records);
    for (int i = 0; i < STAGED_JOBS; i++)
        expect_done("at", kazovuni_submit_at(engine, table, 2, jobs[i], records[i]));
    expect_staged(records);
    expect_done("list_in", kazovuni_submit_list_in(engine, bytes, 2 * PAGE, jobs, STAGED_JOBS, records, STAGED_JOBS));
    expect_staged(records);
    expect_done("list_at", kazovuni_submit_list_at(engine, table, 2, jobs, STAGED_JOBS, records, STAGED_JOBS));
    expect_staged(records);
    jobs[STAGED_JOBS - 1][4] = KAZOVUNI_FLAG_FENCE;
    expect_done(
        "batch_in", kazovuni_submit_batch_in(engine, bytes, 2 * PAGE, jobs, STAGED_JOBS, records, STAGED_JOBS, batch));
    expect_staged(records);
    expect("the batch's own record", batch[0] == 0x01 && batch[4] == STAGED_JOBS);
    expect_done("batch_at", kazovuni_submit_batch_at(engine, table, 2, jobs, STAGED_JOBS, records, STAGED_JOBS, batch));
    expect_staged(records);
    expect("the batch's own record", batch[0] == 0x01 && batch[4] == STAGED_JOBS);
}

/* An engine for its staging alone; the calls that have it ask for nothing, over the longest table and of any job. */
static void walk_staged(const uint8_t page[PAGE])
{
    static uint8_t bytes[PAGE], pages[KAZOVUNI_MOST_REGIONS][PAGE];
    static const uint8_t fill[64] = {[7] = 0x04, [16] = 7, [34] = 4}; /* of 64 pages */
    kazovuni_region table[KAZOVUNI_MOST_REGIONS];
    kazovuni_engine engine = {0};
    uint8_t records[1][32];
    while (!is_done(STAGING, kazovuni_create_staging(&engine, NEED)))
        expect("the handle of no engine", engine.engine == NULL && !engine.is_open && blocks == 0);
    size_t before = growths;
    long held = blocks;
    for (int form = 0; form < 2 * STAGED_FORMS; form++) {
        memcpy(bytes, page, PAGE);
        memset(records, 0xcc, 32);
        expect_done("a call with staging", submit_staged(form % STAGED_FORMS, &engine, bytes, records));
        expect("the record with staging", memcmp(records[0], created, 32) == 0);
        expect("the delta record with staging", memcmp(bytes + 128, delta, 20) == 0);
    }
    for (int i = 0; i < KAZOVUNI_MOST_REGIONS; i++)
        table[i] = (kazovuni_region){(uint64_t)i * PAGE, pages[i], PAGE};
    for (int round = 0; round < 2; round++) {
        expect_done("the longest table",
                    kazovuni_submit_at(&engine, table, KAZOVUNI_MOST_REGIONS, fill, records[0]));
        expect("its record", records[0][0] == 0x01);
    }
    walk_staged_jobs(&engine);
    expect("a call with staging asks for memory", growths == before && blocks == held);
    kazovuni_free(&engine);
    expect("free", blocks == 0 && !is_met);
}

/* With less than an engine takes, none is made; with just that, its calls do their work, which is no growth more. */
static void walk_budget(const uint8_t page[PAGE])
{
    static uint8_t bytes[PAGE];
    kazovuni_engine engine = {0};
    uint8_t records[1][32];
    for (budget = 0;; budget++) {
        growths = refused = 0;
        uint8_t answer = kazovuni_create_staging(&engine, NEED);
        if (answer == KAZOVUNI_OK)
            break;
        expect("the answer above a budget", answer == KAZOVUNI_NO_MEMORY && budget < 100);
        expect("the handle above a budget", engine.engine == NULL && !engine.is_open && blocks == 0);
    }
    is_met = false;
    for (int form = 0; form < STAGED_FORMS; form++) {
        memcpy(bytes, page, PAGE);
        expect_done("a call within the budget", submit_staged(form, &engine, bytes, records));
        expect("the record within the budget", memcmp(records[0], created, 32) == 0);
    }
    expect("the growths of an engine for its staging", growths == budget);
    kazovuni_free(&engine);
    expect("free", blocks == 0);
    budget = SIZE_MAX;
}

/* Makes an engine of two pages by the least budget that is enough, which is five blocks. */
static void create_by_budget(kazovuni_engine *engine)
{
    for (budget = 0;; budget++) {
        growths = refused = 0;
        uint8_t answer = kazovuni_create(engine, 2, NEED);
        if (answer == KAZOVUNI_OK)
            break;
        expect("the answer of an image above a budget", answer == KAZOVUNI_NO_MEMORY && budget < 100);
        expect("the handle above a budget", engine->engine == NULL && !engine->is_open && blocks == 0);
    }
    expect("the growths of an engine with an image", growths == 5 && budget == 5 && blocks == 5);
    is_met = false;
}

/* Brings its first page by the least budget that is enough, which is one block; below that the page stays absent. */
static void bring_by_budget(kazovuni_engine *engine, const uint8_t page[PAGE])
{
    uint8_t byte = 0xcc;
    for (budget = 0;; budget++) {
        growths = refused = 0;
        uint8_t answer = kazovuni_bring(engine, 0, page);
        if (answer == KAZOVUNI_OK)
            break;
        expect("the answer of a page above a budget", answer == KAZOVUNI_NO_MEMORY && budget < 100);
        expect("a page above a budget", kazovuni_read(engine, 0, &byte, 1) == KAZOVUNI_ABSENT && byte == 0xcc);
        expect("the blocks without the page", blocks == 5);
    }
    expect("the growths of a page", growths == 1 && budget == 1 && blocks == 6);
    is_met = false;
}

/* A batch on the image, and the page once more, where the budget is used up. */
static void submit_by_budget(kazovuni_engine *engine, const uint8_t page[PAGE])
{
    static const uint8_t own[32] = {0x01, [4] = 1};
    uint8_t bytes[20], records[1][32], batch[32];
    memset(records, 0xcc, sizeof records);
    memset(batch, 0xcc, sizeof batch);
    expect_done("a page that is present within the budget", kazovuni_bring(engine, 0, page));
    expect_done("a batch within the budget", kazovuni_submit_batch(engine, create, 1, records, 1, batch));
    expect("the record of a batch within the budget", memcmp(records[0], created, 32) == 0);
    expect("the batch's own record within the budget", memcmp(batch, own, 32) == 0);
    expect_done("read within the budget", kazovuni_read(engine, 128, bytes, sizeof bytes));
    expect("the delta record within the budget", memcmp(bytes, delta, sizeof delta) == 0);
    expect("the growths of a batch on the image", growths == budget);
}

/*
 * The same of an engine with an image: a page is brought, given up and brought again, which takes its block anew, and
 * the calls that have it present ask for nothing.
 */
static void walk_image_budget(const uint8_t page[PAGE])
{
    kazovuni_engine engine = {0};
    create_by_budget(&engine);
    bring_by_budget(&engine, page);
    submit_by_budget(&engine, page);
    expect_done("evict within the budget", kazovuni_evict(&engine, 0));
    expect("the block of a page that is given up", growths == budget && blocks == 5);
    bring_by_budget(&engine, page);
    submit_by_budget(&engine, page);
    kazovuni_free(&engine);
    expect("free", blocks == 0);
    budget = SIZE_MAX;
}

/* What is wrong with a call is answered where there is no memory for it either: nothing is asked for. */
static void try_wrong_calls(const uint8_t page[PAGE])
{
    kazovuni_engine none = {0}, engine = {0};
    create_by_budget(&engine);
    budget = growths = refused = 0;
    expect("no staging so large", kazovuni_create_staging(&none, KAZOVUNI_MOST_STAGING + 1) == KAZOVUNI_BAD_SETTINGS);
    expect("no pages", kazovuni_create(&none, 0, NEED) == KAZOVUNI_BAD_PAGES);
    expect("no settings", kazovuni_create(&none, 2, KAZOVUNI_MOST_STAGING + 1) == KAZOVUNI_BAD_SETTINGS);
    expect("no engine", kazovuni_bring(&none, 0, page) == KAZOVUNI_NO_ENGINE);
    expect("an engine", kazovuni_create(&engine, 2, NEED) == KAZOVUNI_HAS_ENGINE);
    expect("an engine", kazovuni_create(&engine, 0, KAZOVUNI_MOST_STAGING + 1) == KAZOVUNI_HAS_ENGINE);
    expect("an engine", kazovuni_create_staging(&engine, NEED) == KAZOVUNI_HAS_ENGINE);
    expect("an engine", kazovuni_create_staging(&engine, KAZOVUNI_MOST_STAGING + 1) == KAZOVUNI_HAS_ENGINE);
    expect("no such page", kazovuni_bring(&engine, 2, page) == KAZOVUNI_NO_SUCH_PAGE);
    expect("a wrong call asks for memory", growths == 0 && none.engine == NULL && blocks == 5);
    kazovuni_free(&engine);
    expect("free", blocks == 0);
    budget = SIZE_MAX;
}

static uint8_t submit(enum call call, uint8_t bytes[PAGE], uint8_t records[1][32])
{
    uint8_t by_pointers[64];
    switch (call) {
    case OVER:
        return kazovuni_submit_over(bytes, PAGE, create[0], LIMIT, records[0]);
    case LIST_OVER:
        return kazovuni_submit_list_over(bytes, PAGE, create[0], 1, LIMIT, records[0], 1);
    case WHOLE:
        return kazovuni_submit_whole(bytes, PAGE, create[0], LIMIT, records[0]);
    case LIST_WHOLE:
        return kazovuni_submit_list_whole(bytes, PAGE, create[0], 1, LIMIT, records[0], 1);
    default:
        memcpy(by_pointers, create[0], 64);
        by_pointers[17] = by_pointers[25] = by_pointers[41] = 0x10; /* behind the base */
        return kazovuni_submit_pointers(PAGE, bytes, PAGE, by_pointers, LIMIT, records[0]);
    }
}

/* A call takes what its job needs, whatever the limit is. */
static void walk_lent(enum call call, const uint8_t page[PAGE])
{
    static uint8_t bytes[PAGE];
    uint8_t records[1][32], untouched[32];
    memcpy(bytes, page, PAGE);
    memset(records, 0xcc, 32);
    memset(untouched, 0xcc, 32);
    largest = 0;
    while (!is_done(call, submit(call, bytes, records))) {
        expect("the bytes of a job that was not begun", memcmp(bytes, page, PAGE) == 0);
        expect("its record", memcmp(records[0], untouched, 32) == 0);
    }
    expect("the record", memcmp(records[0], created, 32) == 0);
    expect("the delta record", memcmp(bytes + 128, delta, 20) == 0);
    expect("the staging of a call", largest == NEED && blocks == 0);
}

/* Jobs over buffers, with places in two pages of bytes: the create above, its record applied, and the others. */
static const kazovuni_job over_buffers[] = {
    {.opcode = 0x07, .source = 0, .target = 64, .size = 32, .extra = 128, .delta_size = 20},
    {.opcode = 0x08, .source = 128, .target = 64, .size = 32, .delta_size = 20},
    {.opcode = 0x03, .source = 0, .target = 64, .size = 32},
    {.opcode = 0x03, .source = 64, .target = 72, .size = 32}, /* over itself */
    {.opcode = 0x04, .source = 7, .target = 64, .size = 32},
    {.opcode = 0x05, .source = 0, .target = 64, .size = 32},
    {.opcode = 0x06, .source = 0, .target = 7, .size = 32},
    {.opcode = 0x09, .source = 0, .target = 64, .size = 32, .extra = PAGE + 64},
};
enum { OVER_BUFFERS = sizeof over_buffers / sizeof *over_buffers };

/* The descriptor of such a job, with the bytes' own addresses. */
static void describe(const kazovuni_job *job, const uint8_t *bytes, uint8_t descriptor[64])
{
    kazovuni_job placed = *job;
    placed.source += job->opcode == 0x04 ? 0 : (uintptr_t)bytes;
    placed.target += job->opcode == 0x06 ? 0 : (uintptr_t)bytes;
    placed.extra += (uintptr_t)bytes;
    expect("encode", kazovuni_encode(&placed, descriptor));
}

static uint8_t by_lengths(const kazovuni_job *job, uint8_t *bytes, const uint8_t descriptor[64], uint8_t record[32])
{
    uint8_t *source = bytes + job->source, *target = bytes + job->target, *extra = bytes + job->extra;
    size_t size = job->size, delta_size = job->delta_size;
    switch (job->opcode) {
    case 0x03:
        if (source + size > target)
            return kazovuni_move_within(descriptor, (uintptr_t)bytes, bytes, PAGE, record);
        return kazovuni_move(descriptor, source, size, target, size, record);
    case 0x04:
        return kazovuni_fill(descriptor, target, size, record);
    case 0x05:
        return kazovuni_compare(descriptor, source, size, target, size, record);
    case 0x06:
        return kazovuni_compare_pattern(descriptor, source, size, record);
    case 0x07:
        return kazovuni_create_delta(descriptor, source, size, target, size, extra, delta_size, record);
    case 0x08:
        return kazovuni_apply_delta(descriptor, source, delta_size, target, size, record);
    default:
        return kazovuni_dualcast(descriptor, source, size, target, size, extra, size, record);
    }
}

/* Each of them by the descriptor's pointers, and then each by its operation's own call: they ask for nothing. */
static void walk_buffers(const uint8_t page[PAGE])
{
    static _Alignas(8) uint8_t bytes[2 * PAGE];
    uint8_t descriptor[64], record[32];
    size_t before = growths;
    for (size_t i = 0; i < 2 * OVER_BUFFERS; i++) {
        const kazovuni_job *job = &over_buffers[i % OVER_BUFFERS];
        if (job->opcode == 0x07)
            memcpy(bytes, page, PAGE);
        memset(record, 0xcc, 32);
        describe(job, bytes, descriptor);
        if (i < OVER_BUFFERS)
            expect_done("execute", kazovuni_execute(descriptor, record));
        else
            expect_done("a call over buffers", by_lengths(job, bytes, descriptor, record));
        expect("the status over buffers", record[0] == 0x01);
        if (job->opcode == 0x07) {
            expect("the record over buffers", memcmp(record, created, 32) == 0);
            expect("the delta record over buffers", memcmp(bytes + 128, delta, 20) == 0);
        }
    }
    expect("a call over buffers asks for memory", growths == before && blocks == 0);
}

/* A list takes the greatest need of its jobs that stage bytes, whatever the limit is, and whatever the others need. */
static void walk_list(enum call call)
{
    static uint8_t bytes[PAGE], descriptors[5][64], records[5][32];
    static const uint8_t statuses[5] = {0x01, 0x01, 0x13, 0x01, 0x01};
    memcpy(descriptors[0], create[0], 64);
    memcpy(descriptors[1], create[0], 64);
    descriptors[1][32] = 8; /* needs 10 */
    memcpy(descriptors[2], create[0], 64);
    descriptors[2][33] = 1;
    descriptors[2][32] = 7; /* would need 320, and is refused */
    descriptors[3][7] = 0x03;
    descriptors[3][25] = 4;
    descriptors[3][33] = 1; /* a move of 256 bytes, which goes straight */
    do {
        is_met = false;
        largest = 0;
        memset(records, 0xcc, sizeof records);
    } while (!is_done(
        call, (call == LIST_WHOLE ? kazovuni_submit_list_whole : kazovuni_submit_list_over)(
                  bytes, PAGE, descriptors[0], 5, LIMIT, records[0], 5)));
    expect("the staging of a list", largest == NEED && blocks == 0);
    for (size_t i = 0; i < 5; i++)
        expect("the status of a job of a list", records[i][0] == statuses[i]);
}

int main(void)
{
    static uint8_t page[PAGE];
    static const char *const names[CALLS] = {"create", "create_staging", "bring", "submit_over", "submit_list_over",
                                             "submit_pointers", "submit_whole", "submit_list_whole"};
    memcpy(page + 72, at_72, 8);
    memcpy(page + 88, at_88, 8);
    do {
        refused++;
        growths = 0;
        walk_engine(page);
        walk_staged(page);
        for (enum call call = OVER; call < CALLS; call++)
            walk_lent(call, page);
        walk_list(LIST_OVER);
        walk_list(LIST_WHOLE);
        walk_buffers(page);
    } while (growths >= refused);
    walk_budget(page);
    walk_image_budget(page);
    try_wrong_calls(page);
    printf("table_refused:");
    for (enum call call = CREATE; call < CALLS; call++) {
        printf(" %s %zu", names[call], met[call]);
        expect("a call that met no refusal", met[call] > 0);
    }
    printf("\n");
    return 0;
}
