/*
 * What is linked with buffers_random.c: the linker hands each of its calls over buffers to a function here first, those
 * inside kazovuni_execute too (--wrap). One whose job is refused has to come with no byte: kazovuni_execute checks a
 * job before it makes a range of its addresses, where there need be no memory.
 */
#include "kazovuni.h"

#include <stdio.h>
#include <stdlib.h>

static void expect_no_range(const uint8_t descriptor[64], size_t bytes)
{
    if (bytes == 0 || kazovuni_check(descriptor, 1048576) == 0)
        return;
    fprintf(stderr, "buffers_wrapped: a refused job, opcode %02x, comes with a range\n", descriptor[7]);
    exit(1);
}

/* A call by its name, its parameters, its arguments, and the bytes that it is given. */
#define WRAP(name, parameters, arguments, bytes) \
    uint8_t __real_##name parameters; \
    uint8_t __wrap_##name parameters; \
    uint8_t __wrap_##name parameters \
    { \
        expect_no_range(descriptor, bytes); \
        return __real_##name arguments; \
    }

WRAP(kazovuni_compare,
     (const uint8_t descriptor[64], const uint8_t *one, size_t one_length, const uint8_t *other, size_t other_length,
      uint8_t record[32]),
     (descriptor, one, one_length, other, other_length, record), one_length | other_length)

WRAP(kazovuni_compare_pattern,
     (const uint8_t descriptor[64], const uint8_t *bytes, size_t length, uint8_t record[32]),
     (descriptor, bytes, length, record), length)

WRAP(kazovuni_fill, (const uint8_t descriptor[64], uint8_t *target, size_t length, uint8_t record[32]),
     (descriptor, target, length, record), length)

WRAP(kazovuni_move,
     (const uint8_t descriptor[64], const uint8_t *source, size_t source_length, uint8_t *target, size_t target_length,
      uint8_t record[32]),
     (descriptor, source, source_length, target, target_length, record), source_length | target_length)

WRAP(kazovuni_move_within,
     (const uint8_t descriptor[64], uint64_t start, uint8_t *bytes, size_t length, uint8_t record[32]),
     (descriptor, start, bytes, length, record), length)

WRAP(kazovuni_dualcast,
     (const uint8_t descriptor[64], const uint8_t *source, size_t source_length, uint8_t *target, size_t target_length,
      uint8_t *second, size_t second_length, uint8_t record[32]),
     (descriptor, source, source_length, target, target_length, second, second_length, record),
     source_length | target_length | second_length)

WRAP(kazovuni_create_delta,
     (const uint8_t descriptor[64], const uint8_t *one, size_t one_length, const uint8_t *other, size_t other_length,
      uint8_t *delta, size_t delta_length, uint8_t record[32]),
     (descriptor, one, one_length, other, other_length, delta, delta_length, record),
     one_length | other_length | delta_length)

WRAP(kazovuni_apply_delta,
     (const uint8_t descriptor[64], const uint8_t *delta, size_t delta_length, uint8_t *target, size_t target_length,
      uint8_t record[32]),
     (descriptor, delta, delta_length, target, target_length, record), delta_length | target_length)
