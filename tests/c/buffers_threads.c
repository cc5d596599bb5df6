/*
 * Eight threads at once, each with a part of one allocation of its own, over sources that all share: a delta is made of
 * two shared buffers, a copy brought up to date by it, compared with a shared buffer by a shared descriptor, filled,
 * moved over itself and cast to two places. And each has a strip of another allocation, which begins at the very byte
 * behind its neighbour's, at odd places: bytes are moved there, moved on by one, and filled. Every second round of a
 * thread goes by kazovuni_execute, the others by the operations' own calls. valgrind's helgrind and drd watch it
 * (tests/c_buffers.sh).
 *
 * Usage: buffers_threads ROUNDS SIZE [race]   race: two threads have the same part, which each of the two must report
 */
#define _GNU_SOURCE
#include "buffers.h"

#include <pthread.h>

enum { THREADS = 8, SPARE = 24 };

static uint32_t size; /* of a shared buffer, a multiple of 8 */
static uint32_t odd;  /* of a strip */
static uint8_t *one, *other, comparing[64];
static unsigned long rounds;

struct part {
    unsigned number;
    uint8_t *copy, *delta, *second; /* size, 10 * size / 8 and size bytes */
    uint8_t *strip;                 /* odd bytes */
    bool is_executed;               /* or each operation by its own call */
    unsigned long wrong;
};

/* By the operation's own call, over the buffers at the job's addresses. */
static uint8_t call_at(const struct job *job, const uint8_t descriptor[64], uint8_t record[32])
{
    struct buffer ranges[RANGES];
    uint64_t lower = job->source < job->target ? job->source : job->target;
    uint64_t apart = job->source < job->target ? job->target - job->source : job->source - job->target;
    if (job->opcode == MOVE && apart < job->size)
        return kazovuni_move_within(descriptor, lower, (uint8_t *)(uintptr_t)lower, apart + job->size, record);
    ranges_of(job, ranges);
    for (int i = 0; i < RANGES; i++)
        ranges[i].bytes = (uint8_t *)(uintptr_t)ranges[i].address;
    return call(job->opcode, descriptor, ranges, record);
}

static struct record carry_out(const struct part *part, struct job job)
{
    uint8_t descriptor[64], bytes[32], code;
    kazovuni_record fields = {0};
    write_descriptor(&job, descriptor);
    code = part->is_executed ? kazovuni_execute(descriptor, bytes) : call_at(&job, descriptor, bytes);
    if (code != KAZOVUNI_OK || !kazovuni_record_decode(bytes, &fields))
        fields.status = 0;
    return (struct record){fields.status, fields.result, fields.completed, fields.fault, fields.delta_size};
}

static bool is_alike(const uint8_t *bytes)
{
    uint8_t record[32];
    return kazovuni_compare(comparing, bytes, size, other, size, record) == KAZOVUNI_OK && record[0] == 0x01;
}

static void work_apart(struct part *part)
{
    uint64_t copy = (uintptr_t)part->copy, delta = (uintptr_t)part->delta;
    uint64_t from = (uintptr_t)one, to = (uintptr_t)other, pattern = 0x0807060504030201;
    uint8_t *second = part->second + (copy - (uintptr_t)part->second) % PAGE; /* with the low 12 bits of `copy` */
    struct record done = carry_out(part, (struct job){
        .opcode = CREATE, .source = from, .target = to, .size = size, .extra = delta, .delta_size = 10 * (size / 8)});
    part->wrong += done.status != 0x01 || done.result != 1;
    uint32_t made = done.delta_size;
    done = carry_out(part, (struct job){.opcode = MOVE, .source = from, .target = copy, .size = size});
    part->wrong += done.status != 0x01 || is_alike(part->copy);
    done = carry_out(part, (struct job){
        .opcode = APPLY, .source = delta, .delta_size = made, .target = copy, .size = size});
    part->wrong += done.status != 0x01 || !is_alike(part->copy);
    done = carry_out(part, (struct job){.opcode = MOVE, .source = copy, .target = copy + 8, .size = size - 8});
    part->wrong += done.result != 1 || memcmp(part->copy + 8, other, size - 8) != 0;
    done = carry_out(part, (struct job){.opcode = FILL, .source = pattern, .target = copy, .size = size});
    part->wrong += done.status != 0x01;
    done = carry_out(part, (struct job){.opcode = COMPARE_PATTERN, .source = copy, .target = pattern, .size = size});
    part->wrong += done.status != 0x01 || done.result != 0;
    done = carry_out(part, (struct job){
        .opcode = DUALCAST, .source = to, .target = copy, .extra = (uintptr_t)second, .size = size});
    part->wrong += done.status != 0x01 || !is_alike(part->copy) || !is_alike(second);
    done = carry_out(part, (struct job){.opcode = COMPARE, .source = copy, .target = (uintptr_t)second, .size = size});
    part->wrong += done.status != 0x01 || done.result != 0;
}

static void work_side_by_side(struct part *part)
{
    uint64_t strip = (uintptr_t)part->strip, from = (uintptr_t)other, pattern = 0x0101010101010101 * part->number;
    struct record done = carry_out(part, (struct job){.opcode = MOVE, .source = from, .target = strip, .size = odd});
    part->wrong += done.status != 0x01 || memcmp(part->strip, other, odd) != 0;
    done = carry_out(part, (struct job){.opcode = MOVE, .source = strip, .target = strip + 1, .size = odd - 1});
    part->wrong += done.result != 1 || memcmp(part->strip + 1, other, odd - 1) != 0;
    done = carry_out(part, (struct job){.opcode = FILL, .source = pattern, .target = strip, .size = odd});
    part->wrong += done.status != 0x01;
    for (uint32_t i = 0; i < odd; i++)
        part->wrong += part->strip[i] != part->number;
}

static void *work(void *argument)
{
    struct part *part = argument;
    for (unsigned long round = 0; round < rounds; round++) {
        part->is_executed = (round + part->number) % 2 == 0;
        work_apart(part);
        work_side_by_side(part);
    }
    return NULL;
}

static void *taken(size_t length)
{
    void *bytes = aligned_alloc(64, (length + 63) / 64 * 64);
    if (bytes == NULL)
        exit(2);
    return bytes;
}

int main(int argc, char **argv)
{
    struct part parts[THREADS];
    pthread_t threads[THREADS];
    unsigned long wrong = 0;
    bool has_race = argc > 3 && strcmp(argv[3], "race") == 0;
    rounds = argc > 1 ? strtoul(argv[1], NULL, 10) : 100;
    size = argc > 2 ? (uint32_t)strtoul(argv[2], NULL, 10) / 8 * 8 : 4096;
    odd = size - 3;
    size_t delta = 10 * (size_t)(size / 8), second = (size_t)size + PAGE, stride = size + delta + second + SPARE;
    stride += (8 - stride % 8) % 8;
    one = taken(size), other = taken(size);
    uint8_t *all = taken(THREADS * stride), *strips = taken(THREADS * (size_t)odd);
    for (uint32_t i = 0; i < size; i++) {
        one[i] = (uint8_t)(i * 7);
        other[i] = (uint8_t)(i * 7 + (i % 50 == 3));
    }
    struct job job = {.opcode = COMPARE, .flags = FLAG_CHECK, .size = size}; /* with 0 expected, which is 'alike' */
    write_descriptor(&job, comparing);
    for (unsigned i = 0; i < THREADS; i++) {
        size_t place = has_race && i == 1 ? 0 : i;
        uint8_t *part = all + place * stride;
        parts[i] = (struct part){i, part, part + size, part + size + delta, strips + place * odd, false, 0};
    }
    for (int i = 0; i < THREADS; i++)
        if (pthread_create(&threads[i], NULL, work, &parts[i]) != 0)
            return 2;
    for (int i = 0; i < THREADS; i++) {
        pthread_join(threads[i], NULL);
        wrong += parts[i].wrong;
    }
    printf("buffers_threads: %d threads, %lu rounds of 11 jobs, %s\n", THREADS, rounds,
           has_race ? "with a race" : wrong == 0 ? "all as alone" : "and some are wrong");
    free(one), free(other), free(all), free(strips);
    return has_race || wrong == 0 ? 0 : 1;
}
