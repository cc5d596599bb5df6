/*
 * Jobs over buffers of exact length, each between two pages that are not mapped: every alignment from 0 to 63 of each
 * buffer, every length from 0 to 130, those at which compares go over to another block, and the greatest ones. Each job
 * is that of the evaluator of tests/fuzz, whose image has its ranges somewhere else: no byte of an answer depends on
 * where the buffers lie. Those that all begin behind such a page, and those that all end before one, are tried by
 * kazovuni_execute too. A buffer stands as near to one of the pages as its alignment lets it; the bytes between keep
 * what they had, and under valgrind's memcheck may not be touched at all. A range that goes on into such a page, or
 * begins at address 0, is a fault signal of the process.
 *
 * Usage: buffers_exact [STEP]   only each STEP-th alignment of the second buffer, 1 where nothing is said; the first of
 *                               them is another one for each alignment of the first buffer and each size. A move within
 *                               one buffer has all of them
 *        buffers_exact beside   a read of bytes beside a buffer, which memcheck has to report
 */
#define _GNU_SOURCE
#include "buffers.h"

#include <signal.h>
#include <sys/mman.h>
#include <sys/wait.h>
#include <unistd.h>

#if defined(__has_include)
#if __has_include(<valgrind/memcheck.h>)
#include <valgrind/memcheck.h>
#endif
#endif
#ifndef RUNNING_ON_VALGRIND
#define RUNNING_ON_VALGRIND 0
#define VALGRIND_MAKE_MEM_NOACCESS(bytes, length) ((void)(bytes), (void)(length))
#define VALGRIND_MAKE_MEM_DEFINED(bytes, length) ((void)(bytes), (void)(length))
#endif

enum { AREA = 2 * ENOUGH, BESIDE = 128, BLANK = 0xc7, ALIGNMENTS = 64, MOST_LENGTH = 130, MOST_ENTRIES = 65536 };
enum place { BEHIND_A_PAGE, BEFORE_A_PAGE, PLACES };

/* What a compare, a create and an apply meet; other jobs are plain. */
enum kind {
    PLAIN,  /* some bytes or blocks differ, or none, with any room; offsets that rise, inside the target */
    FIRST,  /* a compare: the first byte alone differs */
    LAST,   /* a compare: the last byte alone differs */
    EDGE,   /* all blocks differ, with just the room for them; an offset equal to the one before it */
    BEYOND, /* all blocks differ, and one entry has no room; an offset behind the target */
    KINDS
};

static uint8_t *areas[RANGES]; /* AREA bytes each, between pages that are not mapped */
static struct image image;
static uint64_t jobs;
static uint64_t written, full;  /* creates that wrote all entries, and those that had no room for one */
static uint64_t equal, outside; /* applies that stopped at an equal offset, and at one behind the target */

static uint8_t *area(void)
{
    uint8_t *pages = mmap(NULL, AREA + 2 * PAGE, PROT_NONE, MAP_PRIVATE | MAP_ANONYMOUS, -1, 0);
    if (pages == MAP_FAILED || mprotect(pages + PAGE, AREA, PROT_READ | PROT_WRITE) != 0)
        exit(2);
    memset(pages + PAGE, BLANK, AREA);
    return pages + PAGE;
}

static void fail(const struct job *job, const char *what, const struct buffer ranges[RANGES])
{
    fprintf(stderr, "buffers_exact: opcode %02x, size %u, delta size %u: %s\n", job->opcode, job->size,
            job->delta_size, what);
    for (int i = 0; i < RANGES; i++)
        fprintf(stderr, "  %p %zu\n", (void *)ranges[i].bytes, ranges[i].length);
    exit(1);
}

/* ---- buffers */

/* The part of an area that is near a buffer, and a check of it: all but the buffer is blank. */
static void near(int i, const struct buffer *buffer, uint8_t **from, uint8_t **to)
{
    uint8_t *end = areas[i] + AREA;
    *from = buffer->bytes - areas[i] < BESIDE ? areas[i] : buffer->bytes - BESIDE;
    *to = end - (buffer->bytes + buffer->length) < BESIDE ? end : buffer->bytes + buffer->length + BESIDE;
}

static bool are_blank(const uint8_t *from, const uint8_t *to)
{
    while (from < to)
        if (*from++ != BLANK)
            return false;
    return true;
}

/* Lays a buffer down with an alignment, behind the first page that is not mapped or before the second. */
static void lay(int i, struct buffer *buffer, size_t alignment, enum place place, const uint8_t *bytes)
{
    uint8_t *end = areas[i] + AREA - buffer->length, *from, *to;
    size_t beside = ((uintptr_t)end - alignment) % ALIGNMENTS;
    buffer->bytes = place == BEHIND_A_PAGE ? areas[i] + alignment : end - beside;
    near(i, buffer, &from, &to);
    VALGRIND_MAKE_MEM_NOACCESS(from, to - from);
    VALGRIND_MAKE_MEM_DEFINED(buffer->bytes, buffer->length);
    memcpy(buffer->bytes, bytes, buffer->length);
}

/* Takes a buffer away again: it has to hold these bytes, and nothing beside it may be changed. */
static void take(const struct job *job, int i, const struct buffer ranges[RANGES], const uint8_t *wanted)
{
    const struct buffer *buffer = &ranges[i];
    uint8_t *from, *to;
    near(i, buffer, &from, &to);
    if (memcmp(buffer->bytes, wanted, buffer->length) != 0)
        fail(job, "other bytes are left", ranges);
    VALGRIND_MAKE_MEM_DEFINED(from, to - from);
    if (!are_blank(from, buffer->bytes) || !are_blank(buffer->bytes + buffer->length, to))
        fail(job, "bytes beside a buffer are changed", ranges);
    memset(buffer->bytes, BLANK, buffer->length);
}

/* ---- jobs */

static uint8_t *before; /* the bytes of a job's ranges in the image as they stood before it */

struct answer {
    uint8_t descriptor[64], record[32];
};

/* The job on the image. */
static struct answer evaluate(const struct job *job)
{
    struct buffer ranges[RANGES];
    struct answer answer;
    ranges_of(job, ranges);
    for (int i = 0; i < RANGES; i++)
        if (ranges[i].is_there)
            memcpy(before + ranges[i].address, image.bytes + ranges[i].address, ranges[i].length);
    write_descriptor(job, answer.descriptor);
    struct record record = step(&image, job, ENOUGH, false);
    write_record(&record, answer.record);
    return answer;
}

/* The same job by the pointers of the buffers. */
static uint8_t execute(const struct job *job, const struct buffer ranges[RANGES], uint8_t record[32])
{
    struct job moved = *job;
    uint8_t descriptor[64];
    moved.source = ranges[SOURCE].is_there ? (uintptr_t)ranges[SOURCE].bytes : job->source;
    moved.target = ranges[TARGET].is_there ? (uintptr_t)ranges[TARGET].bytes : job->target;
    moved.extra = ranges[EXTRA].is_there ? (uintptr_t)ranges[EXTRA].bytes : job->extra;
    write_descriptor(&moved, descriptor);
    return kazovuni_execute(descriptor, record);
}

/* The job over buffers with these alignments, by its operation's call or, where the rules let it, by their pointers. */
static void try_at(
    const struct job *job, const struct answer *answer, const size_t alignments[RANGES], enum place place,
    bool is_by_pointers)
{
    struct buffer ranges[RANGES];
    uint8_t record[32], code;
    ranges_of(job, ranges);
    for (int i = 0; i < RANGES; i++)
        if (ranges[i].is_there)
            lay(i, &ranges[i], alignments[i], place, before + ranges[i].address);
    memset(record, NO_STATUS, 32);
    code = is_by_pointers ? execute(job, ranges, record) : call(job->opcode, answer->descriptor, ranges, record);
    if (code != KAZOVUNI_OK || memcmp(record, answer->record, 32) != 0)
        fail(job, "another record", ranges);
    for (int i = 0; i < RANGES; i++)
        if (ranges[i].is_there)
            take(job, i, ranges, (ranges[i].is_written ? image.bytes : before) + ranges[i].address);
    jobs++;
}

/* The same by the pointers of buffers that begin behind a page that is not mapped, and of ones that end before one. */
static void try_by_pointers(const struct job *job, const struct answer *answer)
{
    struct buffer ranges[RANGES];
    size_t alignments[RANGES] = {0, 0, 0};
    try_at(job, answer, alignments, BEHIND_A_PAGE, true);
    ranges_of(job, ranges);
    for (int i = 0; i < RANGES; i++)
        alignments[i] = (ALIGNMENTS - ranges[i].length % ALIGNMENTS) % ALIGNMENTS;
    try_at(job, answer, alignments, BEFORE_A_PAGE, true);
}

/* The same with both ranges of a move in one buffer, `apart` bytes from one another. */
static void try_within(uint32_t size, uint32_t apart, size_t alignment, bool is_upwards)
{
    struct job job = {.opcode = MOVE, .source = is_upwards ? 0 : apart, .target = is_upwards ? apart : 0, .size = size};
    struct buffer whole = {0, (size_t)size + apart, true, true, NULL};
    for (uint32_t i = 0; i < size + apart; i++)
        image.bytes[i] = (uint8_t)any();
    memcpy(before, image.bytes, whole.length);
    struct answer answer = evaluate(&job);
    for (enum place place = 0; place < PLACES; place++) {
        uint8_t record[32];
        struct buffer ranges[RANGES] = {whole};
        lay(0, &ranges[0], alignment, place, before);
        memset(record, NO_STATUS, 32);
        if (kazovuni_move_within(answer.descriptor, 0, ranges[0].bytes, ranges[0].length, record) != KAZOVUNI_OK ||
            memcmp(record, answer.record, 32) != 0)
            fail(&job, "another record of a move within a buffer", ranges);
        take(&job, 0, ranges, image.bytes);
        jobs++;
    }
}

/* The second source of a create: the first, but for the blocks that are to differ. */
static void fill_second(const struct job *job, enum kind kind)
{
    uint8_t *second = image.bytes + job->target;
    uint32_t blocks = job->size / 8;
    memcpy(second, image.bytes + job->source, job->size);
    for (uint32_t i = 0; kind == PLAIN && blocks > 0 && i <= blocks / 2; i++)
        second[below(job->size)] |= 0x40;
    for (uint32_t block = 0; kind != PLAIN && block < blocks; block++)
        second[8 * (uint64_t)block + below(8)] |= 0x40;
}

/* The offsets of a delta record. */
static void fill_offsets(const struct job *job, enum kind kind)
{
    uint8_t *delta = image.bytes + job->source;
    uint32_t blocks = job->size / 8, entries = job->delta_size / 10;
    for (uint32_t x = 0; x < entries; x++)
        put_number(delta + 10 * (uint64_t)x, x * blocks / entries, 2);
    if (kind == EDGE) {
        uint8_t *entry = delta + 10 * (1 + below(entries - 1));
        memcpy(entry, entry - 10, 2);
    }
    if (kind == BEYOND)
        put_number(delta + 10 * below(entries), blocks + below(65536 - blocks), 2);
}

/* What a compare finds in its source: some bytes that differ, or none, or the one of its kind, in one bit. */
static void differ(const struct job *job, enum kind kind)
{
    uint8_t *source = image.bytes + job->source;
    if (kind == FIRST || kind == LAST)
        source[kind == FIRST ? 0 : job->size - 1] ^= 1 << below(8);
    for (int i = 0; kind == PLAIN && job->size > 0 && i < 3 && one_in(2); i++)
        source[below(job->size)] ^= 0x40;
}

/* Bytes of the image: few values, in which the job finds something to do. */
static void fill_image(const struct job *job, enum kind kind)
{
    struct buffer ranges[RANGES];
    ranges_of(job, ranges);
    for (int i = 0; i < RANGES; i++) {
        uint64_t eight = 0;
        for (size_t k = 0; ranges[i].is_there && k < ranges[i].length; k++) {
            eight = k % 8 == 0 ? any() : eight >> 8;
            image.bytes[ranges[i].address + k] = eight & 3;
        }
    }
    if (job->opcode == COMPARE)
        memcpy(image.bytes + job->target, image.bytes + job->source, job->size);
    if (job->opcode == COMPARE_PATTERN)
        for (uint32_t k = 0; k < job->size; k++)
            image.bytes[job->source + k] = (uint8_t)(job->target >> 8 * (k % 8));
    if (job->opcode == COMPARE || job->opcode == COMPARE_PATTERN)
        differ(job, kind);
    if (job->opcode == CREATE)
        fill_second(job, kind);
    if (job->opcode == APPLY)
        fill_offsets(job, kind);
}

/* How many entries a job of a kind has, or has room for. */
static uint32_t entries_of(uint8_t opcode, uint32_t size, enum kind kind)
{
    uint32_t blocks = size / 8;
    if (opcode == CREATE && kind == PLAIN)
        return 1 + (uint32_t)below(blocks < MOST_ENTRIES ? blocks + 1 : blocks);
    if (opcode == CREATE)
        return kind == EDGE ? blocks : blocks - 1;
    if (opcode == APPLY)
        return (uint32_t)(kind == PLAIN ? below(blocks + 1) : 2 + below(blocks - 1));
    return 0;
}

/* Whether there are jobs of a kind: of a compare one wants a byte, of a create or an apply two blocks. */
static bool has_kind(uint8_t opcode, uint32_t size, enum kind kind)
{
    bool is_compare = opcode == COMPARE || opcode == COMPARE_PATTERN, is_delta = opcode == CREATE || opcode == APPLY;
    return kind == PLAIN || (kind < EDGE ? is_compare && size > 0 : is_delta && size >= 16);
}

/* A job whose ranges stand in the image one behind the other, whatever their alignment is elsewhere. */
static struct job job_of(uint8_t opcode, uint32_t size, uint32_t delta_size)
{
    struct job job = {.opcode = opcode, .flags = 0x08, .size = size, .delta_size = delta_size};
    uint64_t room = ENOUGH;
    job.source = opcode == FILL ? 0x8877665544332211 : 0;
    job.target = opcode == COMPARE_PATTERN ? 0x1817161514131211 : room;
    job.extra = opcode == CREATE || opcode == DUALCAST ? 2 * room : 0;
    return job;
}

/* Counts what the evaluator answers of a create or an apply; it has to be what the job's kind is for. */
static void count(const struct job *job, enum kind kind, const uint8_t record[32])
{
    static const struct buffer none[RANGES];
    bool is_create = job->opcode == CREATE, is_apply = job->opcode == APPLY;
    bool is_written = is_create && record[1] == 1, is_full = is_create && record[1] == 2;
    bool is_equal = is_apply && record[0] == 0x07, is_outside = is_apply && record[0] == 0x08;
    written += is_written, full += is_full, equal += is_equal, outside += is_outside;
    bool is_found = record[1] == 1 && kazovuni_number_at(record + 4) == (kind == FIRST ? 0 : job->size - 1);
    if (((kind == FIRST || kind == LAST) && !is_found) || (kind == EDGE && !is_written && !is_equal) ||
        (kind == BEYOND && !is_full && !is_outside))
        fail(job, "it does not meet what it is made for", none);
}

/* A job whose bytes are of a kind, and its answer. */
static struct answer prepared(const struct job *job, enum kind kind)
{
    fill_image(job, kind);
    struct answer answer = evaluate(job);
    count(job, kind, answer.record);
    return answer;
}

/* All alignments of the first buffer, with those of the second that the step leaves: over the sizes, all distances. */
static void try_alignments(const struct job *job, enum kind kind, size_t step)
{
    struct answer answer = prepared(job, kind);
    bool has_one = job->opcode == FILL || job->opcode == COMPARE_PATTERN;
    for (size_t first = 0; first < ALIGNMENTS; first++)
        for (size_t second = has_one ? first : (5 * first + job->size) % step; second < ALIGNMENTS; second += step) {
            const size_t alignments[RANGES] = {first, second, (first + 5 * second) % ALIGNMENTS};
            for (enum place place = 0; place < PLACES; place++)
                try_at(job, &answer, alignments, place, false);
            if (has_one)
                break;
        }
    try_by_pointers(job, &answer);
}

/*
 * Compares at the edges of their steps, of 128 bytes, and of blocks of four steps, and behind a page, from where on a
 * buffer goes by blocks beside a pattern too.
 */
static void try_blocks(size_t step)
{
    static const uint32_t sizes[] = {255,  256,  257,  383,  384,  385,  511,  512,  513, 639,
                                     640,  641,  4095, 4096, 4097, 4607, 4608, 4609, 4737};
    for (uint8_t opcode = COMPARE; opcode <= COMPARE_PATTERN; opcode++)
        for (size_t i = 0; i < sizeof sizes / sizeof *sizes; i++)
            for (enum kind kind = PLAIN; kind <= LAST; kind++) {
                struct job job = job_of(opcode, sizes[i], 0);
                try_alignments(&job, kind, step);
            }
}

static void try_lengths(size_t step)
{
    for (uint8_t opcode = MOVE; opcode <= DUALCAST; opcode++)
        for (uint32_t size = 0; size <= MOST_LENGTH; size++)
            for (enum kind kind = PLAIN; kind < KINDS; kind++) {
                bool is_delta = opcode == CREATE || opcode == APPLY;
                if (!has_kind(opcode, size, kind) || (is_delta && size % 8 != 0))
                    continue;
                struct job job = job_of(opcode, size, 10 * entries_of(opcode, size, kind));
                try_alignments(&job, kind, step);
            }
    for (uint32_t size = 0; size <= MOST_LENGTH; size++)
        for (size_t alignment = 0; alignment < ALIGNMENTS; alignment++)
            for (int way = 0; way < 2; way++)
                try_within(size, (uint32_t)below(size + 2), alignment, way == 0);
}

/* The greatest lengths of an operation, each kind of job twice. */
static void try_greatest(uint8_t opcode, uint32_t most)
{
    for (int round = 0; round < 2; round++)
        for (enum kind kind = PLAIN; kind < KINDS; kind++) {
            if (!has_kind(opcode, most, kind))
                continue;
            uint32_t size = opcode == APPLY && kind == BEYOND ? most - 8 : most; /* no offset lies behind the most */
            struct job job = job_of(opcode, size, 10 * entries_of(opcode, size, kind));
            struct answer answer = prepared(&job, kind);
            for (enum place place = 0; place < PLACES; place++)
                try_at(&job, &answer, (const size_t[RANGES]){below(64), below(64), below(64)}, place, false);
            try_by_pointers(&job, &answer);
        }
}

/*
 * A job above a limit, by its operation's call with no buffers, and with buffers of other lengths, which keep what they
 * have; and by kazovuni_execute.
 */
static void expect_refused(struct job job, uint8_t status)
{
    static const struct buffer none[RANGES];
    struct buffer some[RANGES];
    uint8_t descriptor[64], record[32], again[32], within[32], executed[32], stood[RANGES][64];
    write_descriptor(&job, descriptor);
    for (int i = 0; i < RANGES; i++) {
        for (size_t k = 0; k < sizeof stood[i]; k++)
            stood[i][k] = (uint8_t)any();
        some[i] = (struct buffer){.length = sizeof stood[i], .is_there = true, .is_written = true};
        lay(i, &some[i], 0, BEHIND_A_PAGE, stood[i]);
    }
    if (call(job.opcode, descriptor, none, record) != KAZOVUNI_OK || record[0] != status ||
        call(job.opcode, descriptor, some, again) != KAZOVUNI_OK || memcmp(again, record, 32) != 0 ||
        kazovuni_move_within(descriptor, 0, some[0].bytes, some[0].length, within) != KAZOVUNI_OK ||
        memcmp(within, record, 32) != 0 || kazovuni_execute(descriptor, executed) != KAZOVUNI_OK ||
        memcmp(executed, record, 32) != 0)
        fail(&job, "it is not refused as one above a limit", some);
    for (int i = 0; i < RANGES; i++)
        take(&job, i, some, stood[i]);
}

/* The greatest lengths, and more, which is refused whatever the buffers. */
static void try_limits(void)
{
    for (uint8_t opcode = MOVE; opcode <= DUALCAST; opcode++) {
        bool is_delta = opcode == CREATE || opcode == APPLY;
        uint32_t most = is_delta ? ENOUGH / 2 : ENOUGH;
        try_greatest(opcode, most);
        expect_refused(job_of(opcode, most + 1, is_delta ? 10 : 0), 0x13);
        expect_refused(job_of(opcode, most + 8, is_delta ? 10 : 0), 0x13);
        if (is_delta)
            expect_refused(job_of(opcode, most, 10 * (MOST_ENTRIES + 1)), 0x15);
    }
    for (uint32_t apart = 0; apart < 3000; apart += 999)
        try_within(ENOUGH, apart, apart % 64, apart % 2 == 0);
}

/* A job that is accepted and touches a byte that is not mapped: a fault signal of the process, here of a child. */
static void expect_fault(const struct job *job)
{
    static const struct buffer none[RANGES];
    uint8_t descriptor[64], record[32];
    int status = 0;
    write_descriptor(job, descriptor);
    if (kazovuni_check(descriptor, ENOUGH) != 0)
        fail(job, "it is refused, and was to meet a fault", none);
    pid_t child = fork();
    if (child == 0) {
        signal(SIGSEGV, SIG_DFL);
        kazovuni_execute(descriptor, record);
        _exit(0);
    }
    if (child < 0 || waitpid(child, &status, 0) != child)
        exit(2);
    if (!WIFSIGNALED(status) || WTERMSIG(status) != SIGSEGV) {
        fprintf(stderr, "buffers_exact: source %llx, target %llx, extra %llx: status %d\n",
                (unsigned long long)job->source, (unsigned long long)job->target, (unsigned long long)job->extra,
                status);
        fail(job, "a byte that is not mapped is no fault", none);
    }
}

/* Jobs of each operation that have a range which goes on into a page that is not mapped. */
static void try_past_the_end(uint32_t size)
{
    uint64_t one = (uintptr_t)areas[0], other = (uintptr_t)areas[1], third = (uintptr_t)areas[2];
    uint64_t end = one + AREA, other_end = other + AREA, third_end = third + AREA;
    uint64_t blank = UINT64_C(0x0101010101010101) * BLANK;
    put_number(areas[2], size / 8, 2); /* an entry for the block behind the first `size` bytes */
    const struct job jobs[] = {
        {.opcode = FILL, .target = end - size, .size = size + 1},
        {.opcode = MOVE, .source = end - size, .target = other, .size = size + 1},
        {.opcode = MOVE, .source = other, .target = end - size, .size = size + 1},
        {.opcode = MOVE, .source = end - size, .target = end - size / 2, .size = size},
        {.opcode = MOVE, .source = end - size / 2, .target = end - size, .size = size},
        {.opcode = COMPARE, .source = end - size, .target = other, .size = size + 1},
        {.opcode = COMPARE, .source = other, .target = end - size, .size = size + 1},
        {.opcode = COMPARE_PATTERN, .source = end - size, .target = blank, .size = size + 1},
        {.opcode = CREATE, .source = end - size, .target = other, .extra = third, .size = size + 8,
         .delta_size = 10},
        {.opcode = CREATE, .source = other, .target = end - size, .extra = third, .size = size + 8,
         .delta_size = 10},
        {.opcode = CREATE, .source = one, .target = other, .extra = third_end - 5, .size = size, .delta_size = 10},
        {.opcode = APPLY, .source = end - 1, .target = other, .size = size, .delta_size = 10},
        {.opcode = APPLY, .source = third, .target = end - size, .size = size + 8, .delta_size = 10},
        {.opcode = DUALCAST, .source = end - size, .target = other, .extra = third, .size = size + 1},
        {.opcode = DUALCAST, .source = one, .target = other_end - size, .extra = third_end - PAGE - size,
         .size = size + 1},
        {.opcode = DUALCAST, .source = one, .target = other_end - PAGE - size, .extra = third_end - size,
         .size = size + 1},
    };
    for (size_t k = 0; k < sizeof jobs / sizeof *jobs; k++)
        expect_fault(&jobs[k]);
}

/* Jobs of each operation that have a range at address 0. */
static void try_at_zero(uint32_t size)
{
    uint64_t one = (uintptr_t)areas[0], other = (uintptr_t)areas[1], third = (uintptr_t)areas[2];
    const struct job jobs[] = {
        {.opcode = FILL, .target = 0, .size = size},
        {.opcode = MOVE, .source = 0, .target = other, .size = size},
        {.opcode = MOVE, .source = one, .target = 0, .size = size},
        {.opcode = MOVE, .source = 0, .target = size / 2, .size = size},
        {.opcode = MOVE, .source = size / 2, .target = 0, .size = size},
        {.opcode = COMPARE, .source = 0, .target = other, .size = size},
        {.opcode = COMPARE, .source = one, .target = 0, .size = size},
        {.opcode = COMPARE, .source = 0, .target = 0, .size = size},
        {.opcode = COMPARE_PATTERN, .source = 0, .target = 0, .size = size},
        {.opcode = CREATE, .source = 0, .target = other, .extra = third, .size = size, .delta_size = 10},
        {.opcode = CREATE, .source = one, .target = 0, .extra = third, .size = size, .delta_size = 10},
        {.opcode = CREATE, .source = one, .target = other, .extra = 0, .size = size, .delta_size = 10},
        {.opcode = APPLY, .source = 0, .target = other, .size = size, .delta_size = 10},
        {.opcode = APPLY, .source = one, .target = 0, .size = size, .delta_size = 10},
        {.opcode = DUALCAST, .source = 0, .target = other, .extra = third, .size = size},
        {.opcode = DUALCAST, .source = one, .target = 0, .extra = third, .size = size},
        {.opcode = DUALCAST, .source = one, .target = other, .extra = 0, .size = size},
    };
    for (size_t k = 0; k < sizeof jobs / sizeof *jobs; k++)
        expect_fault(&jobs[k]);
}

/* Both, for three sizes. */
static void try_unmapped(void)
{
    static const uint32_t sizes[] = {8, 64, PAGE};
    memset(areas[0], 0, 10); /* an entry for the first block, which differs from that of the other area */
    for (size_t i = 0; i < sizeof sizes / sizeof *sizes; i++) {
        try_past_the_end(sizes[i]);
        try_at_zero(sizes[i]);
    }
}

/* A compare of 16 bytes, of which the last 8 lie beside a buffer: memcheck has to report it. */
static int read_beside(void)
{
    static const uint8_t bytes[8];
    struct job job = {.opcode = COMPARE_PATTERN, .size = 16};
    struct buffer buffer = {.length = sizeof bytes};
    uint8_t descriptor[64], record[32];
    write_descriptor(&job, descriptor);
    lay(0, &buffer, 0, BEHIND_A_PAGE, bytes);
    return kazovuni_compare_pattern(descriptor, buffer.bytes, 16, record) == KAZOVUNI_OK ? 0 : 1;
}

int main(int argc, char **argv)
{
    size_t step = argc > 1 ? strtoull(argv[1], NULL, 10) : 1;
    for (int i = 0; i < RANGES; i++)
        areas[i] = area();
    if (argc > 1 && strcmp(argv[1], "beside") == 0)
        return read_beside();
    image.bytes = calloc(3, ENOUGH);
    before = calloc(3, ENOUGH);
    if (image.bytes == NULL || before == NULL)
        return 2;
    memset(image.present, true, sizeof image.present);
    image.pages = 3 * ENOUGH / PAGE;
    step = step == 0 ? 1 : step;
    try_lengths(step);
    try_blocks(step);
    try_limits();
    try_unmapped();
    printf("buffers_exact: %llu jobs agree", (unsigned long long)jobs);
    printf("; creates that wrote all: %llu, full: %llu; applies with an equal offset: %llu, with one outside: %llu%s\n",
           (unsigned long long)written, (unsigned long long)full, (unsigned long long)equal,
           (unsigned long long)outside, RUNNING_ON_VALGRIND ? "; no byte beside a buffer is touched" : "");
    return written > 0 && full > 0 && equal > 0 && outside > 0 ? 0 : 1;
}
