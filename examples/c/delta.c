/*
 * Two versions of a page compared, and a delta record made of them and applied elsewhere: so a replica is kept up to
 * date without the whole page being sent.
 *
 *     cc -o delta delta.c $(pkg-config --cflags --libs kazovuni)
 *
 * Addresses are offsets from the first byte of the memory that is lent to a call. Two memories stand for two machines.
 */
#include "kazovuni.h"

#include <linux/idxd.h>
#include <stdio.h>
#include <stdlib.h>
#include <string.h>

enum { PAGE = KAZOVUNI_PAGE_BYTES, STAGING = 10 * PAGE / 8 }; /* a create needs 10 bytes for each block of 8 */

static uint8_t here[3 * PAGE];  /* the page as it was, the page as it is, room for a delta record */
static uint8_t there[2 * PAGE]; /* the page as it was, room for a record that arrives */
enum { OLD = 0, NEW = PAGE, DELTA = 2 * PAGE };
enum { COPY = 0, ARRIVED = PAGE };

/* Carries out a job over a memory, and answers its record, which must have status 01. */
static kazovuni_record submit(uint8_t *memory, size_t length, kazovuni_job job)
{
    uint8_t descriptor[64], bytes[32];
    kazovuni_record record = {0};
    if (!kazovuni_encode(&job, descriptor) ||
        kazovuni_submit_over(memory, length, descriptor, STAGING, bytes) != KAZOVUNI_OK ||
        !kazovuni_record_decode(bytes, &record) || record.status != DSA_COMP_SUCCESS) {
        fprintf(stderr, "delta: status %02x of operation %02x\n", record.status, job.opcode);
        exit(1);
    }
    return record;
}

int main(void)
{
    for (int i = 0; i < PAGE; i++)
        here[OLD + i] = here[NEW + i] = there[COPY + i] = (uint8_t)(i / 8);
    memcpy(here + NEW + 100, "changed", 7); /* in the blocks of 8 with the numbers 12 and 13 */
    memcpy(here + NEW + 4000, "changed", 7); /* in block 500 */

    kazovuni_job compare = {.opcode = DSA_OPCODE_COMPARE, .source = OLD, .target = NEW, .size = PAGE};
    kazovuni_record compared = submit(here, sizeof here, compare);
    printf("compare: result %d, the first difference is at %u\n", compared.result, compared.completed);

    kazovuni_job create = {.opcode = DSA_OPCODE_CR_DELTA, .source = OLD, .target = NEW, .size = PAGE,
                           .extra = DELTA, .delta_size = 400}; /* with more than 400 bytes, better send the page */
    kazovuni_record created = submit(here, sizeof here, create);
    printf("create: result %d, the record has %u bytes\n", created.result, created.delta_size);
    if (compared.result != 1 || compared.completed != 100 || created.result != 1 || created.delta_size != 30)
        return 1;

    memcpy(there + ARRIVED, here + DELTA, created.delta_size); /* this is what is sent */

    kazovuni_job apply = {.opcode = DSA_OPCODE_AP_DELTA, .source = ARRIVED, .delta_size = created.delta_size,
                          .target = COPY, .size = PAGE};
    kazovuni_record applied = submit(there, sizeof there, apply);
    printf("apply: %u bytes of the record are done\n", applied.completed);

    int are_equal = memcmp(there + COPY, here + NEW, PAGE) == 0;
    printf("the copy %s the new page\n", are_equal ? "is" : "is not");
    return are_equal ? 0 : 1;
}
