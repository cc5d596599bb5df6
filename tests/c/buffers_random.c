/*
 * Random jobs of all operations, each carried out in four ways: by kazovuni_submit_pointers, by the evaluator of
 * tests/fuzz, by kazovuni_execute, and by the operation's own call over copies of its ranges that lie anywhere. Records
 * and all bytes have to be the same; where a call answers 10 or 11, nothing may be changed. A job that is accepted and
 * has a byte outside the test's own memory is drawn anew, and not counted; a range of no byte may lie anywhere. Calls
 * are looked at by buffers_wrapped.c, where that is linked with it.
 *
 * Usage: buffers_random [SEED [COUNT]]   seed 1 and 100,000 jobs, where nothing else is said
 */
#define _GNU_SOURCE
#include "buffers.h"

enum { LENGTH = 8 * PAGE };

static uint8_t *memory, *before; /* the memory that jobs name by its own addresses, and its bytes before a job */
static struct image image;       /* the same for the evaluator, from address 0 on */
static uint64_t number, statuses[256], operations[16];
static uint64_t carried_out, drawn_anew, empty_elsewhere;

static void differ(const char *what, const uint8_t descriptor[64], const uint8_t got[32], const uint8_t wanted[32])
{
    fprintf(stderr, "buffers_random: job %llu, %s\n  job   ", (unsigned long long)number, what);
    for (int i = 0; i < 64; i++)
        fprintf(stderr, "%02x", descriptor[i]);
    fprintf(stderr, "\n  base  %p\n  got   ", (void *)memory);
    for (int i = 0; i < 32; i++)
        fprintf(stderr, "%02x", got[i]);
    fprintf(stderr, "\n  wanted ");
    for (int i = 0; i < 32; i++)
        fprintf(stderr, "%02x", wanted[i]);
    fprintf(stderr, "\n");
    exit(1);
}

/* ---- random jobs */

static uint32_t any_size(uint8_t opcode)
{
    uint32_t size = (uint32_t)(one_in(3) ? below(131) : one_in(40) ? below(2 * PAGE) : below(700));
    if (one_in(80))
        size = one_in(2) ? 0 : (uint32_t)(ENOUGH / 2 - 4 + below(9) * 1000000);
    if ((opcode == CREATE || opcode == APPLY) && !one_in(60))
        size -= size % 8;
    return size;
}

static uint32_t any_delta_size(uint8_t opcode)
{
    uint32_t size = (uint32_t)(10 * below(opcode == CREATE ? 90 : 20));
    if (one_in(60))
        size = (uint32_t)(655340 + 10 * below(5));
    return one_in(60) ? size + (uint32_t)below(10) : size;
}

/* An address in the memory, or seldom near the end of all addresses; of a range of no byte any as often. */
static uint64_t any_address(uint32_t length)
{
    if (length == 0 && one_in(2))
        return any();
    if (one_in(150))
        return UINT64_MAX - below(200);
    return (uintptr_t)memory + (one_in(4) ? PAGE * below(7) : below(LENGTH - 1000));
}

static void lay_ranges(struct job *job)
{
    job->source = any_address(job->opcode == APPLY ? job->delta_size : job->size);
    job->target = one_in(2) ? any_address(job->size) : job->source + below(300) - 150;
    job->extra = any_address(job->opcode == CREATE ? job->delta_size : job->size);
    if (job->opcode == CREATE || job->opcode == APPLY) {
        if (!one_in(40))
            job->target -= job->target % 8;
        if (job->opcode == CREATE && !one_in(40))
            job->source -= job->source % 8;
    }
    if (job->opcode == DUALCAST && !one_in(20))
        job->extra = job->extra - job->extra % PAGE + job->target % PAGE;
}

static struct job any_job(void)
{
    static const uint8_t opcodes[] = {NO_OP, MOVE, MOVE, FILL, COMPARE, COMPARE, COMPARE_PATTERN, CREATE, CREATE,
                                      APPLY, APPLY, DUALCAST, DUALCAST};
    static const uint32_t good[] = {0x02, 0x04, 0x08, 0x80, 0x80, 0x100};
    struct job job = {.opcode = opcodes[below(sizeof opcodes)]};
    if (one_in(200))
        job.opcode = (uint8_t)any();
    job.flags = good[below(6)] | good[below(6)];
    if (one_in(100))
        job.flags = (uint32_t)any() & 0xffffff;
    job.size = any_size(job.opcode);
    job.expected = (uint8_t)below(one_in(4) ? 256 : 4);
    if (job.opcode == CREATE || job.opcode == APPLY)
        job.delta_size = any_delta_size(job.opcode);
    lay_ranges(&job);
    if (job.opcode == FILL)
        job.source = any();
    if (job.opcode == COMPARE_PATTERN)
        job.target = one_in(3) ? any() : 0x0101010101010101 * below(2);
    return job;
}

static bool lies_in_memory(const struct buffer *range)
{
    uint64_t place = range->address - (uintptr_t)memory;
    return place <= LENGTH && range->length <= LENGTH - place;
}

/* Whether all ranges of a job lie in the memory: those of some bytes, or those of none too. */
static bool lie_in_memory(const struct job *job, bool empty_ones_too)
{
    struct buffer ranges[RANGES];
    ranges_of(job, ranges);
    for (int i = 0; i < RANGES; i++)
        if (ranges[i].is_there && (empty_ones_too || ranges[i].length > 0) && !lies_in_memory(&ranges[i]))
            return false;
    return true;
}

/* ---- bytes for them */

/* A delta record: offsets that rise, but for a few. */
static void write_entries(uint8_t *record, size_t length)
{
    uint64_t offset = below(3);
    for (size_t at = 0; at + 10 <= length; at += 10) {
        put_number(record + at, offset, 2);
        offset += one_in(60) ? below(70000) : one_in(40) ? 0 : 1 + below(3);
    }
}

/* The byte of the memory that has an address. */
static uint8_t *at(uint64_t address)
{
    return memory + (address - (uintptr_t)memory);
}

/* Bytes in which the job finds something to do, as ranges that are alike but for a byte or none. */
static void prepare(const struct job *job)
{
    for (int i = 0; i < 40; i++)
        memory[below(LENGTH)] = (uint8_t)below(2);
    if (!lie_in_memory(job, true))
        return;
    if (job->opcode == APPLY)
        write_entries(at(job->source), job->delta_size);
    if ((job->opcode == COMPARE || job->opcode == CREATE) && one_in(2))
        memmove(at(job->target), at(job->source), job->size);
    if ((job->opcode == COMPARE || job->opcode == CREATE) && job->size > 0 && one_in(2))
        at(job->target)[below(job->size)] ^= 1;
    if (job->opcode == COMPARE_PATTERN && one_in(2))
        for (uint32_t i = 0; i < job->size; i++)
            at(job->source)[i] = (uint8_t)(job->target >> 8 * (i % 8));
}

/* ---- the ways */

/* By the evaluator, whose image begins at address 0: the record, and the image after it. */
static void evaluate(const struct job *job, uint8_t record[32])
{
    uint64_t base = (uintptr_t)memory;
    struct record answer = {.status = refusal(job, ENOUGH, false)};
    struct job counted = *job;
    if (answer.status == 0) {
        counted.source -= job->opcode == FILL ? 0 : base;
        counted.target -= job->opcode == COMPARE_PATTERN ? 0 : base;
        counted.extra -= base;
        answer = step(&image, &counted, ENOUGH, false);
    }
    write_record(&answer, record);
}

static void try_pointers(const uint8_t descriptor[64], const uint8_t wanted[32])
{
    uint8_t record[32];
    memset(record, NO_STATUS, 32);
    uint8_t code = kazovuni_submit_pointers((uintptr_t)memory, memory, LENGTH, descriptor, ENOUGH, record);
    if (code != KAZOVUNI_OK || memcmp(record, wanted, 32) != 0)
        differ("kazovuni_submit_pointers has another record than the evaluator", descriptor, record, wanted);
    if (memcmp(memory, image.bytes, LENGTH) != 0)
        differ("kazovuni_submit_pointers leaves other bytes than the evaluator", descriptor, record, wanted);
    memcpy(memory, before, LENGTH);
}

static void try_execute(const uint8_t descriptor[64], const uint8_t wanted[32])
{
    uint8_t record[32];
    memset(record, NO_STATUS, 32);
    if (kazovuni_execute(descriptor, record) != KAZOVUNI_OK || memcmp(record, wanted, 32) != 0)
        differ("kazovuni_execute has another record", descriptor, record, wanted);
    if (memcmp(memory, image.bytes, LENGTH) != 0)
        differ("kazovuni_execute leaves other bytes", descriptor, record, wanted);
}

/* A refused job by each call, with no buffers: its record. */
static void try_refused(const uint8_t descriptor[64], const uint8_t wanted[32])
{
    static const struct buffer none[RANGES];
    for (uint8_t opcode = MOVE; opcode <= DUALCAST; opcode++) {
        uint8_t record[32];
        memset(record, NO_STATUS, 32);
        if (call(opcode, descriptor, none, record) != KAZOVUNI_OK || memcmp(record, wanted, 32) != 0)
            differ("a call has another record of a refusal", descriptor, record, wanted);
    }
    uint8_t record[32];
    memset(record, NO_STATUS, 32);
    if (kazovuni_move_within(descriptor, any(), NULL, 0, record) != KAZOVUNI_OK || memcmp(record, wanted, 32) != 0)
        differ("kazovuni_move_within has another record of a refusal", descriptor, record, wanted);
}

/* A block of just these bytes, and NULL for none. */
static uint8_t *copied(const uint8_t *bytes, size_t length)
{
    uint8_t *block = length == 0 ? NULL : malloc(length);
    if (length > 0 && block == NULL)
        abort();
    if (length > 0)
        memcpy(block, bytes, length);
    return block;
}

/* The bytes of a range in a copy of the memory; of one of no byte, which may lie elsewhere, none. */
static const uint8_t *bytes_in(const uint8_t *copy, const struct buffer *range)
{
    return range->length == 0 ? copy : copy + (range->address - (uintptr_t)memory);
}

static void expect_untouched(
    uint8_t code, uint8_t wanted, const uint8_t descriptor[64], const struct buffer ranges[RANGES],
    const uint8_t record[32])
{
    uint8_t untouched[32];
    memset(untouched, NO_STATUS, 32);
    if (code != wanted || memcmp(record, untouched, 32) != 0)
        differ("a call that is to answer 10 or 11 does not, or writes a record", descriptor, record, untouched);
    for (int i = 0; i < RANGES; i++)
        if (ranges[i].bytes != NULL && memcmp(ranges[i].bytes, bytes_in(before, &ranges[i]), ranges[i].length) != 0)
            differ("a call that answers 10 or 11 changes a byte", descriptor, record, untouched);
}

/* The same call with a buffer that is shorter than its range. */
static void try_shorter(
    const struct job *job, const uint8_t descriptor[64], struct buffer ranges[RANGES], struct buffer *one)
{
    uint8_t record[32];
    size_t length = one->length;
    memset(record, NO_STATUS, 32);
    if (length == 0)
        return;
    one->length -= 1 + below(length);
    expect_untouched(
        call(job->opcode, descriptor, ranges, record), KAZOVUNI_OTHER_LENGTH, descriptor, ranges, record);
    one->length = length;
}

/* The same call with a buffer that is longer than its range, by bytes that may not be changed either. */
static void try_longer(
    const struct job *job, const uint8_t descriptor[64], struct buffer ranges[RANGES], struct buffer *one)
{
    const struct buffer right = *one;
    uint8_t record[32];
    size_t more = 1 + below(one_in(2) ? 3 : 2 * PAGE);
    uint8_t *block = malloc(right.length + more);
    if (block == NULL)
        abort();
    memset(record, NO_STATUS, 32);
    memset(block, NO_STATUS, right.length + more);
    if (right.length > 0)
        memcpy(block, right.bytes, right.length);
    one->bytes = block;
    one->length += more;
    uint8_t code = call(job->opcode, descriptor, ranges, record);
    one->length = right.length;
    expect_untouched(code, KAZOVUNI_OTHER_LENGTH, descriptor, ranges, record);
    for (size_t i = right.length; i < right.length + more; i++)
        if (block[i] != NO_STATUS)
            differ("a call that answers 11 changes a byte behind a range", descriptor, record, record);
    *one = right;
    free(block);
}

/* The calls of other operations, and the same one with a buffer that is shorter or longer than its range. */
static void try_others(const struct job *job, const uint8_t descriptor[64], struct buffer ranges[RANGES])
{
    uint8_t record[32], opcode = (uint8_t)(MOVE + below(7));
    memset(record, NO_STATUS, 32);
    if (opcode != job->opcode)
        expect_untouched(
            call(opcode, descriptor, ranges, record), KAZOVUNI_OTHER_OPERATION, descriptor, ranges, record);
    if (job->opcode != MOVE)
        expect_untouched(
            kazovuni_move_within(
                descriptor, ranges[TARGET].address, ranges[TARGET].bytes, ranges[TARGET].length, record),
            KAZOVUNI_OTHER_OPERATION, descriptor, ranges, record);
    struct buffer *one = &ranges[below(RANGES)];
    if (!one->is_there)
        return;
    if (one_in(2))
        try_shorter(job, descriptor, ranges, one);
    else
        try_longer(job, descriptor, ranges, one);
}

/* The operation's own call, over copies of its ranges in blocks of their own. */
static void try_call(const struct job *job, const uint8_t descriptor[64], const uint8_t wanted[32])
{
    struct buffer ranges[RANGES];
    uint8_t record[32];
    memset(record, NO_STATUS, 32);
    ranges_of(job, ranges);
    for (int i = 0; i < RANGES; i++)
        if (ranges[i].is_there)
            ranges[i].bytes = copied(bytes_in(before, &ranges[i]), ranges[i].length);
        else
            ranges[i].length = 0;
    try_others(job, descriptor, ranges);
    if (call(job->opcode, descriptor, ranges, record) != KAZOVUNI_OK || memcmp(record, wanted, 32) != 0)
        differ("the operation's call has another record", descriptor, record, wanted);
    for (int i = 0; i < RANGES; i++) {
        const uint8_t *bytes = bytes_in(ranges[i].is_written ? image.bytes : before, &ranges[i]);
        if (ranges[i].bytes != NULL && memcmp(ranges[i].bytes, bytes, ranges[i].length) != 0)
            differ("the operation's call leaves other bytes", descriptor, record, wanted);
        free(ranges[i].bytes);
    }
}

/* kazovuni_move_within, over a copy of a buffer that has both ranges, or lacks a byte of them. */
static void try_within(const struct job *job, const uint8_t descriptor[64], const uint8_t wanted[32])
{
    size_t source = job->source - (uintptr_t)memory, target = job->target - (uintptr_t)memory;
    size_t start = source < target ? source : target, end = (source > target ? source : target) + job->size;
    uint8_t record[32], untouched[32];
    memset(record, NO_STATUS, 32);
    memset(untouched, NO_STATUS, 32);
    start -= below(start < 70 ? start + 1 : 70);
    end += below(LENGTH - end < 70 ? LENGTH - end + 1 : 70);
    uint8_t *block = copied(before + start, end - start);
    for (int lacking = 0; lacking < 2; lacking++) {
        size_t first = source < target ? source : target, last = (source > target ? source : target) + job->size;
        size_t from = lacking == 0 ? first + 1 : start, to = lacking == 0 ? end : last - 1;
        if (from > to || from < start || to > end || last == 0)
            continue;
        uint8_t code = kazovuni_move_within(
            descriptor, (uintptr_t)memory + from, block + (from - start), to - from, record);
        if (code != KAZOVUNI_OTHER_LENGTH || memcmp(record, untouched, 32) != 0 ||
            (end > start && memcmp(block, before + start, end - start) != 0))
            differ("kazovuni_move_within takes a buffer that lacks a byte", descriptor, record, untouched);
    }
    if (kazovuni_move_within(descriptor, (uintptr_t)memory + start, block, end - start, record) != KAZOVUNI_OK ||
        memcmp(record, wanted, 32) != 0)
        differ("kazovuni_move_within has another record", descriptor, record, wanted);
    if (end > start && memcmp(block, image.bytes + start, end - start) != 0)
        differ("kazovuni_move_within leaves other bytes", descriptor, record, wanted);
    free(block);
}

/* Whether the job was tried: one that would run over memory that is not the test's is not. */
static bool try_job(const struct job *job)
{
    uint8_t descriptor[64], wanted[32];
    write_descriptor(job, descriptor);
    bool is_refused = refusal(job, ENOUGH, false) != 0, lies_in = lie_in_memory(job, true);
    if (!is_refused && !lie_in_memory(job, false))
        return false;
    prepare(job);
    memcpy(before, memory, LENGTH);
    memcpy(image.bytes, memory, LENGTH);
    evaluate(job, wanted);
    statuses[wanted[0]]++;
    operations[job->opcode % 16]++;
    carried_out += !is_refused;
    empty_elsewhere += !is_refused && !lies_in;
    if (!is_refused || lies_in)
        try_pointers(descriptor, wanted);
    try_execute(descriptor, wanted);
    if (is_refused)
        try_refused(descriptor, wanted);
    else if (job->opcode != NO_OP)
        try_call(job, descriptor, wanted);
    if (!is_refused && lies_in && job->opcode == MOVE)
        try_within(job, descriptor, wanted);
    return true;
}

static void tell(uint64_t count)
{
    printf("buffers_random: %llu jobs agree, of which %llu are carried out and %llu refused; of the former %llu have a "
           "range of no byte elsewhere; drawn anew: %llu; operations",
           (unsigned long long)count, (unsigned long long)carried_out, (unsigned long long)(count - carried_out),
           (unsigned long long)empty_elsewhere, (unsigned long long)drawn_anew);
    for (int i = 0; i < 16; i++)
        if (operations[i] > 0)
            printf(" %02x:%llu", i, (unsigned long long)operations[i]);
    printf("; statuses");
    for (int i = 0; i < 256; i++)
        if (statuses[i] > 0)
            printf(" %02x:%llu", i, (unsigned long long)statuses[i]);
    printf("\n");
}

int main(int argc, char **argv)
{
    static const uint8_t expected[] = {0x01, 0x02, 0x07, 0x08, 0x10, 0x11, 0x13, 0x15, 0x16, 0x17, 0x1c, 0x7d};
    uint64_t count = argc > 2 ? strtoull(argv[2], NULL, 10) : 100000;
    chance = 88172645463325252ull + (argc > 1 ? strtoull(argv[1], NULL, 10) : 1);
    memory = aligned_alloc(PAGE, LENGTH);
    before = malloc(LENGTH);
    image.bytes = malloc(LENGTH);
    if (memory == NULL || before == NULL || image.bytes == NULL)
        return 2;
    image.pages = LENGTH / PAGE;
    memset(image.present, true, image.pages);
    memset(memory, 0, LENGTH);
    while (number < count) {
        struct job job = any_job();
        if (try_job(&job))
            number++;
        else
            drawn_anew++;
    }
    tell(count);
    for (size_t i = 0; i < sizeof expected; i++)
        if (count >= 100000 && statuses[expected[i]] == 0) {
            fprintf(stderr, "buffers_random: status %02x never came up\n", expected[i]);
            return 1;
        }
    if (count >= 100000 && empty_elsewhere == 0) {
        fprintf(stderr, "buffers_random: no range of no byte lay elsewhere\n");
        return 1;
    }
    free(memory), free(before), free(image.bytes);
    return 0;
}
