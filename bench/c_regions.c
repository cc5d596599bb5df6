/*
 * The time of jobs with the staging of an engine, beside the same ones by kazovuni_submit_whole, which takes its own
 * from malloc; of a job over eight regions beside the same one over a single region; and of a batch of moves of a page
 * beside a list of them, over one piece, and on an image of an engine's own and over eight regions. Rows of a name, a
 * number of bytes and the nanoseconds of one job, the median of rounds in which two over the same memory go by turns.
 * bench/c_calls.sh builds and runs it.
 */
#include "kazovuni.h"
#include "timing.h"

enum { PAGE = KAZOVUNI_PAGE_BYTES, PAGES = 2048, SIZE = PAGES * PAGE, ROUNDS = 41, CALLS = 2000, MOVES = 1024 };

static uint8_t *bytes;
static uint8_t descriptor[64], record[32], descriptors[MOVES][64], records[MOVES][32], batch[32];
static kazovuni_engine engine, image;
static kazovuni_region one[1], eight[8];

static uint8_t whole(void)
{
    return kazovuni_submit_whole(bytes, SIZE, descriptor, MEBIBYTE, record);
}

static uint8_t in(void)
{
    return kazovuni_submit_in(&engine, bytes, SIZE, descriptor, record);
}

static uint8_t at_one(void)
{
    return kazovuni_submit_at(&engine, one, 1, descriptor, record);
}

static uint8_t at_eight(void)
{
    return kazovuni_submit_at(&engine, eight, 8, descriptor, record);
}

static uint8_t list(void)
{
    return kazovuni_submit_list_in(&engine, bytes, SIZE, descriptors, MOVES, records, MOVES);
}

/* What a batch answers: its code, or one where its own record is no success. */
static uint8_t succeeded(uint8_t code)
{
    return batch[0] == KAZOVUNI_STATUS_SUCCESS ? code : UINT8_MAX;
}

static uint8_t batch_in(void)
{
    return succeeded(kazovuni_submit_batch_in(&engine, bytes, SIZE, descriptors, MOVES, records, MOVES, batch));
}

static uint8_t batch_on_image(void)
{
    return succeeded(kazovuni_submit_batch(&image, descriptors, MOVES, records, MOVES, batch));
}

static uint8_t batch_at(void)
{
    return succeeded(kazovuni_submit_batch_at(&engine, eight, 8, descriptors, MOVES, records, MOVES, batch));
}

static void give_up(const char *what)
{
    fprintf(stderr, "c_regions: %s\n", what);
    exit(2);
}

static double timed(uint8_t (*call)(void), int calls)
{
    uint8_t codes = 0;
    double start = now();
    for (int i = 0; i < calls; i++)
        codes |= call();
    double time = (now() - start) / calls;
    if (codes != KAZOVUNI_OK || record[0] != KAZOVUNI_STATUS_SUCCESS)
        give_up("a job does not do its work");
    return time;
}

static int is_more(const void *a, const void *b)
{
    double x = *(const double *)a, y = *(const double *)b;
    return (x > y) - (x < y);
}

/* Two ways of one job by turns, each a row. */
static void print_rows(
    const char *job, size_t size, const char *first, uint8_t (*one_way)(void), const char *second,
    uint8_t (*other_way)(void), int calls, int jobs)
{
    static double times[2][ROUNDS];
    for (int round = 0; round < ROUNDS; round++)
        for (int way = 0; way < 2; way++)
            times[(way + round) % 2][round] = timed((way + round) % 2 ? other_way : one_way, calls) / jobs;
    for (int way = 0; way < 2; way++) {
        qsort(times[way], ROUNDS, sizeof(double), is_more);
        printf("%s_%s %zu %.2f\n", job, way ? second : first, size, times[way][ROUNDS / 2]);
    }
}

/* One way by itself: another one over other memory by turns with it would drive its pages out of the cache. */
static void print_row(const char *name, size_t size, uint8_t (*way)(void), int calls, int jobs)
{
    static double times[ROUNDS];
    for (int round = 0; round < ROUNDS; round++)
        times[round] = timed(way, calls) / jobs;
    qsort(times, ROUNDS, sizeof(double), is_more);
    printf("%s %zu %.2f\n", name, size, times[ROUNDS / 2]);
}

static void describe(kazovuni_job job)
{
    if (!kazovuni_encode(&job, descriptor))
        give_up("a descriptor");
}

static void print_regions(const char *name, kazovuni_job job)
{
    describe(job);
    print_rows(name, job.size, "at_one", at_one, "at_eight", at_eight, CALLS, 1);
}

/* The same job of 64 bytes and of a page. */
static void print_sizes(const char *name, kazovuni_job job)
{
    job.size = 64;
    print_regions(name, job);
    job.size = PAGE;
    print_regions(name, job);
}

/* Jobs of 64 bytes and of a page from the first region to the last; a dualcast's second target is in the middle. */
static void print_all_regions(void)
{
    print_regions("move", (kazovuni_job){.opcode = KAZOVUNI_OP_MOVE, .source = 64, .target = SIZE - PAGE, .size = 64});
    print_regions("move", (kazovuni_job){.opcode = KAZOVUNI_OP_MOVE, .target = SIZE - PAGE, .size = PAGE});
    /* of zeros, as its target has them, so that the compares go to their end */
    print_regions("fill", (kazovuni_job){.opcode = KAZOVUNI_OP_FILL, .target = SIZE - PAGE, .size = 64});
    print_regions("fill", (kazovuni_job){.opcode = KAZOVUNI_OP_FILL, .target = SIZE - PAGE, .size = PAGE});
    print_regions("compare", (kazovuni_job){.opcode = KAZOVUNI_OP_COMPARE, .target = SIZE - PAGE, .size = 64});
    print_regions("compare", (kazovuni_job){.opcode = KAZOVUNI_OP_COMPARE, .target = SIZE - PAGE, .size = PAGE});
    print_sizes("compare_pattern", (kazovuni_job){.opcode = KAZOVUNI_OP_COMPARE_PATTERN, .source = SIZE - PAGE});
    print_sizes("dualcast", (kazovuni_job){.opcode = KAZOVUNI_OP_DUALCAST, .target = SIZE - PAGE, .extra = SIZE / 2});
}

/*
 * Creates in which one block differs, and 20 do, of the first region and the last, with the record in the middle; and
 * behind each an apply of its record over the second source, which leaves that as it is.
 */
static void print_deltas(void)
{
    kazovuni_job create = {.opcode = KAZOVUNI_OP_CREATE_DELTA, .target = SIZE - 2 * PAGE, .extra = SIZE / 2};
    kazovuni_job apply = {.opcode = KAZOVUNI_OP_APPLY_DELTA, .source = SIZE / 2, .target = SIZE - 2 * PAGE};
    for (size_t i = 0; i < 20; i++)
        bytes[SIZE - 2 * PAGE + i * 200] = 1;
    create.size = 64, create.delta_size = 80;
    print_regions("create", create);
    apply.size = 64, apply.delta_size = 10;
    print_regions("apply", apply);
    create.size = PAGE, create.delta_size = 5120;
    print_regions("create", create);
    apply.size = PAGE, apply.delta_size = 200;
    print_regions("apply", apply);
}

/*
 * A batch of moves, each of a page to the one beside it, as dml_bench moves them in its list_page_moves: of pages that
 * were written, since one that was only read may be the kernel's one page of zeros.
 */
static void print_moves(void)
{
    memset(bytes, 0x5a, SIZE);
    for (uint64_t i = 0; i < MOVES; i++) {
        kazovuni_job move = {
            .opcode = KAZOVUNI_OP_MOVE, .source = 2 * i * PAGE, .target = (2 * i + 1) * PAGE, .size = PAGE};
        if (!kazovuni_encode(&move, descriptors[i]))
            give_up("a descriptor");
    }
    if (kazovuni_create(&image, PAGES, MEBIBYTE) != KAZOVUNI_OK)
        give_up("no engine");
    for (uint32_t i = 0; i < PAGES; i++)
        if (kazovuni_bring(&image, i, bytes + (size_t)i * PAGE) != KAZOVUNI_OK)
            give_up("a page");
    print_rows("moves", PAGE, "list", list, "batch", batch_in, 4, MOVES);
    print_row("moves_batch_on_image", PAGE, batch_on_image, 4, MOVES);
    print_row("moves_batch_at", PAGE, batch_at, 4, MOVES);
    kazovuni_free(&image);
}

int main(void)
{
    bytes = calloc(PAGES, PAGE);
    if (!bytes || kazovuni_create_staging(&engine, MEBIBYTE) != KAZOVUNI_OK)
        return 2;
    one[0] = (kazovuni_region){0, bytes, SIZE};
    for (size_t i = 0; i < 8; i++)
        eight[i] = (kazovuni_region){i * (SIZE / 8), bytes + i * (SIZE / 8), SIZE / 8};

    /* a create of a page in which 20 blocks differ, and an apply of its record, which leaves the page as it is */
    for (size_t i = 0; i < 20; i++)
        bytes[PAGE + i * 200] = 1;
    describe((kazovuni_job){.opcode = KAZOVUNI_OP_CREATE_DELTA, .source = 0, .target = PAGE, .size = PAGE,
                            .extra = 2 * PAGE, .delta_size = 5120});
    print_rows("create", PAGE, "whole", whole, "in", in, CALLS, 1);
    describe((kazovuni_job){.opcode = KAZOVUNI_OP_APPLY_DELTA, .source = 2 * PAGE, .target = PAGE, .size = PAGE,
                            .delta_size = 200});
    print_rows("apply", PAGE, "whole", whole, "in", in, CALLS, 1);
    print_all_regions();
    print_deltas();
    print_moves();
    kazovuni_free(&engine);
    free(bytes);
    return records[MOVES - 1][0] == KAZOVUNI_STATUS_SUCCESS ? 0 : 2;
}
