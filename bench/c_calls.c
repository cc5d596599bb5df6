/*
 * The time of calls of kazovuni.h, and of memmove over the same bytes: rows of a name, a number of bytes and the
 * nanoseconds of one job, the mean of many behind one that is not timed. bench/c_calls.sh builds it and runs it beside
 * dml_bench, which times the same moves inside Rattle.
 */
#include "kazovuni.h"
#include "timing.h"

enum { STAGING = MEBIBYTE, LIST = 250, PAGES = 2 * MEBIBYTE / KAZOVUNI_PAGE_BYTES, FEWER_JOBS = MOST_JOBS / 10 };

static uint8_t *bytes;
static uint8_t descriptor[64], descriptors[LIST][64], records[LIST][32];
static kazovuni_engine engine;
static size_t size;
/* What is timed: each answers 0 where the call did what it is for. */
static uint8_t plain_memmove(void)
{
    memmove(bytes + MEBIBYTE, bytes, size);
    return bytes[MEBIBYTE] != 0x5a;
}

static uint8_t decode(void)
{
    return kazovuni_decode(descriptor).size != size;
}

static uint8_t check(void)
{
    return kazovuni_check(descriptor, STAGING);
}

static uint8_t submit_over(void)
{
    return kazovuni_submit_over(bytes, 2 * MEBIBYTE, descriptor, STAGING, records[0]);
}

static uint8_t submit_pointers(void)
{
    return kazovuni_submit_pointers(0, bytes, 2 * MEBIBYTE, descriptor, STAGING, records[0]);
}

static uint8_t submit_list_over(void)
{
    return kazovuni_submit_list_over(bytes, 2 * MEBIBYTE, descriptors[0], LIST, STAGING, records[0], LIST);
}

static uint8_t submit(void)
{
    return kazovuni_submit(&engine, descriptor, records[0]);
}

static uint8_t submit_list(void)
{
    return kazovuni_submit_list(&engine, descriptors[0], LIST, records[0], LIST);
}

static uint8_t bring(void)
{
    return kazovuni_bring(&engine, 1, bytes);
}

static void give_up(const char *name)
{
    fprintf(stderr, "c_calls: %s of %zu bytes does not do its work\n", name, size);
    exit(2);
}

/* Whether a record is that of a move of all the bytes. */
static bool is_moved(const uint8_t record[32])
{
    kazovuni_record fields;
    return kazovuni_record_decode(record, &fields) && fields.status == 0x01 && fields.completed == size;
}

/* Times a call that does so many jobs and writes as many of the records, or none where it is no job. */
static void print_row(const char *name, uint8_t (*call)(void), int jobs, int answers)
{
    int calls = (size > KAZOVUNI_PAGE_BYTES ? FEWER_JOBS : MOST_JOBS) / jobs;
    uint8_t codes = call();
    memset(records, 0xcc, sizeof records); /* the code of no status */
    double start = now();
    for (int i = 0; i < calls; i++)
        codes |= call();
    double time = now() - start;
    for (int i = 0; i < answers; i++)
        if (!is_moved(records[i]))
            give_up(name);
    if (codes != KAZOVUNI_OK)
        give_up(name);
    printf("%s %zu %.2f\n", name, size, time / calls / jobs);
}

/* A move of so many bytes, from address 0 to the second mebibyte. */
static void move(size_t bytes_moved)
{
    kazovuni_job job = {.opcode = 0x03, .target = MEBIBYTE, .size = (uint32_t)bytes_moved};
    size = bytes_moved;
    if (!kazovuni_encode(&job, descriptor))
        exit(2);
    for (int i = 0; i < LIST; i++)
        memcpy(descriptors[i], descriptor, 64);
}

int main(void)
{
    static const size_t sizes[] = {64, 4096, 65536};
    bytes = malloc(2 * MEBIBYTE);
    if (!bytes || kazovuni_create(&engine, PAGES, STAGING) != KAZOVUNI_OK)
        return 2;
    memset(bytes, 0x5a, 2 * MEBIBYTE);
    for (uint32_t page = 0; page < PAGES; page++)
        if (kazovuni_bring(&engine, page, bytes) != KAZOVUNI_OK)
            return 2;
    for (size_t i = 0; i < sizeof sizes / sizeof *sizes; i++) {
        move(sizes[i]);
        print_row("memmove", plain_memmove, 1, 0);
        print_row("kazovuni_submit_over", submit_over, 1, 1);
        print_row("kazovuni_submit_pointers", submit_pointers, 1, 1);
        print_row("kazovuni_submit_list_over", submit_list_over, LIST, LIST);
        print_row("kazovuni_submit", submit, 1, 1);
        print_row("kazovuni_submit_list", submit_list, LIST, LIST);
    }
    move(64);
    print_row("kazovuni_decode", decode, 1, 0);
    print_row("kazovuni_check", check, 1, 0);
    move(KAZOVUNI_PAGE_BYTES);
    bytes[0] = 0x7b;
    print_row("kazovuni_bring", bring, 1, 0);
    uint8_t first;
    if (kazovuni_read(&engine, KAZOVUNI_PAGE_BYTES, &first, 1) != KAZOVUNI_OK || first != 0x7b)
        give_up("kazovuni_bring");
    kazovuni_free(&engine);
    free(bytes);
    return 0;
}
