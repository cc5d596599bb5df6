/*
 * Single jobs by kazovuni_submit_pointers of two builds of the library, loaded into one process and run by turns over
 * the same memory: so no page lies otherwise for one of them, by which jobs of 64 KiB and more differ by a tenth from
 * process to process. Usage: c_beside OLDER NEWER [ROUNDS], two paths of libkazovuni.so with a slash in them, and 81
 * rounds where nothing is said; build it with -ldl. Each row has the least nanoseconds of both, the newer's least of
 * the older's, and the median of the ratios of the rounds; a star stands behind a row of which both are above 1.03.
 * Status 0 where no row has a star, 1 where one has, 2 where nothing was measured.
 */
#include "kazovuni.h"
#include "timing.h"

#include <dlfcn.h>

enum { LENT = 4 * MEBIBYTE, MOST_ROUNDS = 1001, MOST_COMPARED = MEBIBYTE / 2 };

typedef uint8_t submit(uint64_t, uint8_t *, size_t, const uint8_t *, uint32_t, uint8_t *);

static submit *submits[2];
static uint8_t *memory, *one, *other, *delta, descriptor[64], record[32];
static int rounds = 81, stars;

static void give_up(const char *what)
{
    fprintf(stderr, "c_beside: %s\n", what);
    exit(2);
}

static submit *loaded(const char *path)
{
    void *library = dlopen(path, RTLD_NOW | RTLD_LOCAL);
    if (!library)
        give_up(dlerror());
    void *symbol = dlsym(library, "kazovuni_submit_pointers");
    if (!symbol)
        give_up("no kazovuni_submit_pointers");
    submit *found;
    memcpy(&found, &symbol, sizeof found);
    return found;
}

static double timed(submit *call, int jobs)
{
    uint8_t codes = 0;
    double start = now();
    for (int i = 0; i < jobs; i++)
        codes |= call((uintptr_t)memory, memory, LENT, descriptor, MEBIBYTE, record);
    double time = (now() - start) / jobs;
    if (codes != KAZOVUNI_OK || record[0] != KAZOVUNI_STATUS_SUCCESS)
        give_up("a job does not do its work");
    return time;
}

static int is_more(const void *a, const void *b)
{
    double x = *(const double *)a, y = *(const double *)b;
    return (x > y) - (x < y);
}

static void print_row(const char *name, kazovuni_job job)
{
    static double ratios[MOST_ROUNDS];
    double least[2] = {1e18, 1e18}, times[2];
    int jobs = (int)(4000000 / (job.size + 2000)) + 1;
    if (!kazovuni_encode(&job, descriptor))
        give_up("a descriptor");
    for (int round = 0; round < rounds; round++) {
        for (int turn = 0; turn < 2; turn++) {
            int side = (round + turn) % 2;
            times[side] = timed(submits[side], jobs);
            least[side] = times[side] < least[side] ? times[side] : least[side];
        }
        ratios[round] = times[1] / times[0];
    }
    qsort(ratios, rounds, sizeof(double), is_more);
    double of_least = least[1] / least[0], median = ratios[rounds / 2];
    bool star = of_least > 1.03 && median > 1.03;
    stars += star;
    printf("%-16s %8u %11.1f %11.1f %7.3f %7.3f%s\n", name, job.size, least[0], least[1], of_least, median,
           star ? " *" : "");
}

/* A create of which each `apart`-th block differs, none where that is 0, and the apply of its record. */
static void print_delta(const char *created, const char *applied, uint32_t size, uint32_t apart)
{
    memset(one, 0x5a, MEBIBYTE);
    memset(other, 0x5a, MEBIBYTE);
    for (uint32_t block = apart / 2; apart > 0 && block < size / 8; block += apart)
        other[8 * block] ^= 1;
    kazovuni_job job = {.opcode = KAZOVUNI_OP_CREATE_DELTA, .source = (uintptr_t)one, .target = (uintptr_t)other,
                        .size = size, .extra = (uintptr_t)delta, .delta_size = 10 * (size / 8)};
    print_row(created, job);
    kazovuni_record made;
    if (!kazovuni_record_decode(record, &made))
        give_up("a record");
    if (made.delta_size > 0)
        print_row(applied, (kazovuni_job){.opcode = KAZOVUNI_OP_APPLY_DELTA, .source = (uintptr_t)delta,
                                          .target = (uintptr_t)one, .size = size, .delta_size = made.delta_size});
}

static void print_rows(uint32_t size)
{
    const uint64_t from = (uintptr_t)one, to = (uintptr_t)other, pattern = 0x5a5a5a5a5a5a5a5a;
    memset(one, 0x5a, MEBIBYTE);
    memset(other, 0x5a, MEBIBYTE);
    print_row("move", (kazovuni_job){.opcode = KAZOVUNI_OP_MOVE, .source = from, .target = to, .size = size});
    print_row("move_up_8",
              (kazovuni_job){.opcode = KAZOVUNI_OP_MOVE, .source = from, .target = from + 8, .size = size});
    print_row("move_down_8",
              (kazovuni_job){.opcode = KAZOVUNI_OP_MOVE, .source = from + 8, .target = from, .size = size});
    if (size > MEBIBYTE / 32) {
        print_row("move_up_4096",
                  (kazovuni_job){.opcode = KAZOVUNI_OP_MOVE, .source = from, .target = from + 4096, .size = size});
        print_row("move_down_4096",
                  (kazovuni_job){.opcode = KAZOVUNI_OP_MOVE, .source = from + 4096, .target = from, .size = size});
    }
    print_row("fill", (kazovuni_job){.opcode = KAZOVUNI_OP_FILL, .source = pattern, .target = to, .size = size});
    print_row("compare", (kazovuni_job){.opcode = KAZOVUNI_OP_COMPARE, .source = from, .target = to, .size = size});
    print_row("compare_pattern",
              (kazovuni_job){.opcode = KAZOVUNI_OP_COMPARE_PATTERN, .source = from, .target = pattern, .size = size});
    print_row("dualcast", (kazovuni_job){.opcode = KAZOVUNI_OP_DUALCAST, .source = from, .target = to,
                                         .size = size, .extra = (uintptr_t)delta});
    if (size > MOST_COMPARED)
        return;
    print_delta("create_none", NULL, size, 0);
    print_delta("create_few", "apply_few", size, 100);
    print_delta("create_all", "apply_all", size, 1);
}

int main(int count, char **words)
{
    static const uint32_t sizes[] = {64, 512, 4096, 65536, MOST_COMPARED, MEBIBYTE};
    if (count < 3)
        give_up("two libraries are wanted");
    for (int i = 0; i < 2; i++)
        submits[i] = loaded(words[1 + i]);
    if (count > 3)
        rounds = atoi(words[3]);
    if (rounds < 1 || rounds > MOST_ROUNDS)
        give_up("1 to 1001 rounds");
    memory = aligned_alloc(KAZOVUNI_PAGE_BYTES, LENT);
    if (!memory)
        give_up("no memory");
    one = memory, other = memory + MEBIBYTE, delta = memory + 2 * MEBIBYTE;
    printf("%-16s %8s %11s %11s %7s %7s\n", "job", "bytes", "older", "newer", "least", "median");
    for (size_t i = 0; i < sizeof sizes / sizeof *sizes; i++)
        print_rows(sizes[i]);
    return stars > 0;
}
