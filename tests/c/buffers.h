/* What the tests of jobs over buffers share: the calls of kazovuni.h by operation, over buffers that lie anywhere, and
 * the same jobs by the evaluator of tests/fuzz, which was written from docs/PROFILE.md alone. */
#ifndef BUFFERS_H
#define BUFFERS_H

#include "../fuzz/jobs.h"
#include "kazovuni.h"

#include <stdio.h>
#include <stdlib.h>
#include <string.h>

enum { ENOUGH = 1048576, NO_STATUS = 0xcc };

/* ---- chance */

static uint64_t chance = 1;

static inline uint64_t any(void)
{
    chance ^= chance << 13;
    chance ^= chance >> 7;
    chance ^= chance << 17;
    return chance;
}

static inline uint64_t below(uint64_t most)
{
    return any() % most;
}

static inline bool one_in(uint64_t times)
{
    return below(times) == 0;
}

/* ---- descriptors and records as bytes */

static inline void put_number(uint8_t *place, uint64_t number, int length)
{
    for (int i = 0; i < length; i++)
        place[i] = (uint8_t)(number >> 8 * i);
}

static inline void write_descriptor(const struct job *job, uint8_t bytes[64])
{
    memset(bytes, 0, 64);
    put_number(bytes + 4, job->flags, 3);
    bytes[7] = job->opcode;
    put_number(bytes + 16, job->source, 8);
    put_number(bytes + 24, job->target, 8);
    put_number(bytes + 32, job->size, 4);
    if (job->opcode == CREATE || job->opcode == DUALCAST)
        put_number(bytes + 40, job->extra, 8);
    if (job->opcode == APPLY)
        put_number(bytes + 40, job->delta_size, 4);
    if (job->opcode == CREATE) {
        put_number(bytes + 48, job->delta_size, 4);
        bytes[56] = job->expected;
    }
    if (job->opcode == COMPARE || job->opcode == COMPARE_PATTERN)
        bytes[40] = job->expected;
}

static inline void write_record(const struct record *record, uint8_t bytes[32])
{
    memset(bytes, 0, 32);
    bytes[0] = record->status;
    bytes[1] = record->result;
    put_number(bytes + 4, record->completed, 4);
    put_number(bytes + 8, record->fault, 8);
    put_number(bytes + 16, record->delta_size, 4);
}

/* ---- the ranges of a job, and the calls over them */

enum { SOURCE, TARGET, EXTRA, RANGES };

struct buffer {
    uint64_t address; /* in the descriptor */
    size_t length;
    bool is_there, is_written;
    uint8_t *bytes; /* where it lies */
};

static inline void ranges_of(const struct job *job, struct buffer ranges[RANGES])
{
    uint8_t opcode = job->opcode;
    bool has_job = opcode >= MOVE && opcode <= DUALCAST;
    size_t delta = job->delta_size;
    ranges[SOURCE] = (struct buffer){job->source, opcode == APPLY ? delta : job->size, opcode != FILL, false, NULL};
    ranges[TARGET] = (struct buffer){
        job->target, job->size, opcode != COMPARE_PATTERN, opcode != COMPARE && opcode != CREATE, NULL};
    ranges[EXTRA] = (struct buffer){
        job->extra, opcode == CREATE ? delta : job->size, opcode == CREATE || opcode == DUALCAST, true, NULL};
    for (int i = 0; i < RANGES; i++)
        ranges[i].is_there &= has_job;
}

/* The call of an operation, over the buffers of its ranges; a move's may not overlap here. */
static inline uint8_t call(
    uint8_t opcode, const uint8_t descriptor[64], const struct buffer b[RANGES], uint8_t record[32])
{
    const struct buffer *source = &b[SOURCE], *target = &b[TARGET], *extra = &b[EXTRA];
    switch (opcode) {
    case MOVE:
        return kazovuni_move(
            descriptor, source->bytes, source->length, target->bytes, target->length, record);
    case FILL:
        return kazovuni_fill(descriptor, target->bytes, target->length, record);
    case COMPARE:
        return kazovuni_compare(
            descriptor, source->bytes, source->length, target->bytes, target->length, record);
    case COMPARE_PATTERN:
        return kazovuni_compare_pattern(descriptor, source->bytes, source->length, record);
    case CREATE:
        return kazovuni_create_delta(
            descriptor, source->bytes, source->length, target->bytes, target->length, extra->bytes, extra->length,
            record);
    case APPLY:
        return kazovuni_apply_delta(
            descriptor, source->bytes, source->length, target->bytes, target->length, record);
    default:
        return kazovuni_dualcast(
            descriptor, source->bytes, source->length, target->bytes, target->length, extra->bytes, extra->length,
            record);
    }
}

#endif
