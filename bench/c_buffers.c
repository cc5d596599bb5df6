/*
 * The time of jobs straight over buffers, beside kazovuni_submit_pointers with the same descriptors: rows of a name, a
 * number of bytes and the nanoseconds of one job. A name is WAY_JOB, where the way is `buffers` (the operation's own
 * call), `execute` (kazovuni_execute), `pointers` (kazovuni_submit_pointers) or `libc` (memmove, memset, memcmp), each
 * in a loop of its own around the call. The ways of a job take turns, and each has its least mean of nine. Behind an
 * apply's rows stands one named entries_JOB, with the number of its entries in place of a time. With POINTERS_ALONE the
 * ways are `pointers` and `libc`, and no call over buffers is made, which an older library may lack. bench/c_calls.sh
 * builds and runs it.
 */
#include "kazovuni.h"
#include "timing.h"

enum { LENT = 4 * MEBIBYTE, STAGING = MEBIBYTE, TURNS = 9, MOST_CALLS = 20000, FEWEST_CALLS = 20 };
enum { ROUND_BYTES = 4 * MEBIBYTE }; /* about as many bytes are gone over in a turn */
enum { MOST_COMPARED = MEBIBYTE / 2 }; /* by a create */
enum { BUFFERS, EXECUTE, POINTERS, LIBC, WAYS };

static uint8_t *memory, *one, *other, *delta;
static uint8_t *from, *to; /* the ranges of a move inside `one` */
static uint8_t descriptor[64], record[32];
static size_t size, whole, delta_size;
static kazovuni_job job;

/* A loop of so many calls, and their codes put together. The compiler may take no call out of it. */
typedef uint8_t loop(size_t calls);
#define LOOP(name, call) \
    static uint8_t name(size_t calls) \
    { \
        uint8_t codes = 0; \
        for (size_t i = 0; i < calls; i++) { \
            codes |= (call); \
            __asm__ volatile("" ::: "memory"); \
        } \
        return codes; \
    }

#ifndef POINTERS_ALONE
LOOP(buffers_move, kazovuni_move(descriptor, one, size, other, size, record))
LOOP(buffers_within, kazovuni_move_within(descriptor, (uintptr_t)one, one, whole, record))
LOOP(buffers_fill, kazovuni_fill(descriptor, other, size, record))
LOOP(buffers_compare, kazovuni_compare(descriptor, one, size, other, size, record))
LOOP(buffers_pattern, kazovuni_compare_pattern(descriptor, one, size, record))
LOOP(buffers_dualcast, kazovuni_dualcast(descriptor, one, size, other, size, delta, size, record))
LOOP(buffers_create, kazovuni_create_delta(descriptor, one, size, other, size, delta, delta_size, record))
LOOP(buffers_apply, kazovuni_apply_delta(descriptor, delta, delta_size, one, size, record))
LOOP(by_execute, kazovuni_execute(descriptor, record))
#define BY(name) buffers_##name
#else
#define BY(name) NULL
#define by_execute NULL
#endif
LOOP(by_pointers, kazovuni_submit_pointers((uintptr_t)memory, memory, LENT, descriptor, STAGING, record))
LOOP(libc_move, memmove(other, one, size) != other)
LOOP(libc_within, memmove(to, from, size) != to)
LOOP(libc_fill, memset(other, 0x11, size) != other)
LOOP(libc_compare, memcmp(one, other, size) != 0)

static void give_up(const char *way, const char *name)
{
    fprintf(stderr, "c_buffers: %s_%s of %zu bytes does not do its work\n", way, name, size);
    exit(2);
}

/* Times the job in each of its ways, which have to answer the same record; NULL is a way that it has not. */
static void print_rows(const char *name, loop *buffers, loop *libc)
{
    static const char *const names[WAYS] = {"buffers", "execute", "pointers", "libc"};
    loop *const ways[WAYS] = {buffers, by_execute, by_pointers, libc};
    size_t calls = ROUND_BYTES / (size + 1);
    double least[WAYS];
    uint8_t wanted[32];
    calls = calls < FEWEST_CALLS ? FEWEST_CALLS : calls > MOST_CALLS ? MOST_CALLS : calls;
    if (!kazovuni_encode(&job, descriptor) || by_pointers(1) != KAZOVUNI_OK || record[0] != 0x01)
        give_up("pointers", name);
    memcpy(wanted, record, 32);
    for (int turn = 0; turn < TURNS; turn++)
        for (int way = 0; way < WAYS; way++) {
            if (ways[way] == NULL)
                continue;
            memset(record, 0xcc, sizeof record); /* the code of no status */
            double start = now();
            uint8_t codes = ways[way](calls);
            double time = (now() - start) / (double)calls;
            least[way] = turn == 0 || time < least[way] ? time : least[way];
            if (codes != KAZOVUNI_OK || (way != LIBC && memcmp(record, wanted, 32) != 0))
                give_up(names[way], name);
        }
    for (int way = 0; way < WAYS; way++)
        if (ways[way] != NULL)
            printf("%s_%s %zu %.2f\n", names[way], name, size, least[way]);
    memcpy(record, wanted, 32);
}

/* A job of an operation over `bytes` bytes: both sources alike, the second source or the destination in another MiB. */
static void make(uint8_t opcode, size_t bytes)
{
    size = bytes;
    memset(one, 0x5a, MEBIBYTE);
    memset(other, 0x5a, MEBIBYTE);
    job = (kazovuni_job){.opcode = opcode, .source = (uintptr_t)one, .target = (uintptr_t)other,
                         .size = (uint32_t)bytes};
    if (opcode == 0x04)
        job.source = 0x1111111111111111;
    if (opcode == 0x06)
        job.target = 0x5a5a5a5a5a5a5a5a;
    if (opcode == 0x09)
        job.extra = (uintptr_t)delta;
}

/* A move inside one buffer, so many bytes up or down, by which its ranges overlap. */
static void time_within(const char *name, size_t bytes, size_t apart, bool is_up)
{
    make(0x03, bytes);
    from = is_up ? one : one + apart;
    to = is_up ? one + apart : one;
    whole = bytes + apart;
    job.source = (uintptr_t)from;
    job.target = (uintptr_t)to;
    print_rows(name, BY(within), libc_within);
}

/* A create of which each `apart`-th block differs, and the apply of its record; no block where that is 0. */
static void time_delta(const char *created, const char *applied, size_t bytes, size_t apart)
{
    make(0x07, bytes);
    for (size_t block = apart / 2; apart > 0 && block < bytes / 8; block += apart)
        other[8 * block] ^= 1;
    delta_size = 10 * (bytes / 8);
    job.extra = (uintptr_t)delta;
    job.delta_size = (uint32_t)delta_size;
    print_rows(created, BY(create), NULL);
    kazovuni_record made;
    if (!kazovuni_record_decode(record, &made))
        give_up("pointers", created);
    delta_size = made.delta_size;
    job = (kazovuni_job){.opcode = 0x08, .source = (uintptr_t)delta, .target = (uintptr_t)one,
                         .size = (uint32_t)bytes, .delta_size = made.delta_size};
    if (made.delta_size == 0)
        return;
    print_rows(applied, BY(apply), NULL);
    printf("entries_%s %zu %u\n", applied, size, made.delta_size / 10);
}

int main(void)
{
    static const size_t sizes[] = {64, 512, 4096, 65536, MOST_COMPARED, MEBIBYTE};
    static const struct {
        uint8_t opcode;
        const char *name;
        loop *buffers, *libc;
    } bytewise[] = {
        {0x03, "move", BY(move), libc_move}, {0x04, "fill", BY(fill), libc_fill},
        {0x05, "compare", BY(compare), libc_compare}, {0x06, "compare_pattern", BY(pattern), NULL},
        {0x09, "dualcast", BY(dualcast), NULL}};
    static const struct {
        const char *name;
        size_t apart;
        bool is_up;
    } within[] = {{"move_up_8", 8, true}, {"move_down_8", 8, false}, {"move_up_4096", 4096, true},
                  {"move_down_4096", 4096, false}};
    memory = aligned_alloc(KAZOVUNI_PAGE_BYTES, LENT);
    if (!memory)
        return 2;
    one = memory, other = memory + MEBIBYTE, delta = memory + 2 * MEBIBYTE;
    memset(memory, 0, LENT);
    for (size_t i = 0; i < sizeof sizes / sizeof *sizes; i++) {
        for (size_t k = 0; k < sizeof bytewise / sizeof *bytewise; k++) {
            make(bytewise[k].opcode, sizes[i]);
            print_rows(bytewise[k].name, bytewise[k].buffers, bytewise[k].libc);
        }
        for (size_t k = 0; k < sizeof within / sizeof *within; k++)
            if (sizes[i] >= 4096 && sizes[i] > within[k].apart)
                time_within(within[k].name, sizes[i], within[k].apart, within[k].is_up);
        if (sizes[i] > MOST_COMPARED)
            continue;
        time_delta("create_none", NULL, sizes[i], 0);
        time_delta("create_few", "apply_few", sizes[i], 100);
        time_delta("create_all", "apply_all", sizes[i], 1);
    }
    free(memory);
    return 0;
}
