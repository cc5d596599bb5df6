/*
 * Jobs straight over a program's own buffers: a text in a heap block is copied into the field of a struct and compared
 * with it there; what another text has otherwise is written as a delta record on the stack, and applied to the copy.
 *
 *     cc -o buffers buffers.c $(pkg-config --cflags --libs kazovuni)
 *
 * The descriptor and the record are the structs of linux/idxd.h, with the program's own pointers as addresses.
 */
#include "kazovuni.h"

#include <linux/idxd.h>
#include <stdio.h>
#include <stdlib.h>
#include <string.h>

enum { SIZE = 48, MOST_DELTA = 10 * SIZE / 8 }; /* a record has at most an entry of 10 bytes for each block of 8 */

struct message {
    uint64_t number;
    uint8_t text[SIZE];
};

/* Carries out a job by its own pointers, and answers its record, which must have status 01. */
static struct dsa_completion_record execute(struct dsa_hw_desc descriptor)
{
    struct dsa_completion_record record;
    kazovuni_execute((uint8_t *)&descriptor, (uint8_t *)&record);
    if (record.status != DSA_COMP_SUCCESS) {
        fprintf(stderr, "buffers: status %02x of operation %02x\n", record.status, descriptor.opcode);
        exit(1);
    }
    return record;
}

static void compare(const uint8_t *one, const uint8_t *other)
{
    struct dsa_completion_record compared = execute((struct dsa_hw_desc){
        .opcode = DSA_OPCODE_COMPARE, .src_addr = (uintptr_t)one, .src2_addr = (uintptr_t)other, .xfer_size = SIZE});
    if (compared.result == 0)
        printf("compare: no difference\n");
    else
        printf("compare: the first difference is at %u\n", compared.bytes_completed);
}

int main(void)
{
    static const char before[] = "the quick brown fox jumps over the lazy dog now.";
    static const char after[] = "the quick green fox jumps over the lazy cat now.";
    uint8_t *old_text = malloc(SIZE), *new_text = malloc(SIZE), delta[MOST_DELTA];
    struct message message = {.number = 7};
    if (!old_text || !new_text)
        return 1;
    memcpy(old_text, before, SIZE);
    memcpy(new_text, after, SIZE);

    struct dsa_completion_record moved = execute((struct dsa_hw_desc){
        .opcode = DSA_OPCODE_MEMMOVE, .src_addr = (uintptr_t)old_text, .dst_addr = (uintptr_t)message.text,
        .xfer_size = SIZE});
    printf("moved %u bytes\n", moved.bytes_completed);
    compare(old_text, message.text);
    compare(new_text, message.text);

    struct dsa_completion_record created = execute((struct dsa_hw_desc){
        .opcode = DSA_OPCODE_CR_DELTA, .src_addr = (uintptr_t)old_text, .src2_addr = (uintptr_t)new_text,
        .xfer_size = SIZE, .delta_addr = (uintptr_t)delta, .max_delta_size = MOST_DELTA});
    printf("create: result %d, the record has %u bytes\n", created.result, created.delta_rec_size);

    struct dsa_completion_record applied = execute((struct dsa_hw_desc){
        .opcode = DSA_OPCODE_AP_DELTA, .src_addr = (uintptr_t)delta, .delta_rec_size = created.delta_rec_size,
        .dst_addr = (uintptr_t)message.text, .xfer_size = SIZE});
    printf("apply: %u bytes of the record are done\n", applied.bytes_completed);
    compare(new_text, message.text);

    int are_equal = memcmp(new_text, message.text, SIZE) == 0;
    free(old_text), free(new_text);
    return are_equal && created.delta_rec_size == 20 ? 0 : 1;
}
