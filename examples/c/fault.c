/*
 * A page fault, the page brought, the rest carried out: a move between pages that are brought only when the move asks
 * for them, as pages of a file or of another machine are.
 *
 *     cc -o fault fault.c $(pkg-config --cflags --libs kazovuni)
 *
 * The image of memory is the engine's own, behind a handle; each of its pages is present or absent.
 */
#include "kazovuni.h"

#include <linux/idxd.h>
#include <stdio.h>
#include <stdlib.h>
#include <string.h>

enum { PAGE = KAZOVUNI_PAGE_BYTES, PAGES = 4, SOURCE = 1000, TARGET = 9000, SIZE = 6000 };

static uint8_t store[PAGES * PAGE]; /* where the pages come from */

static void check(const char *what, uint8_t answer)
{
    if (answer == KAZOVUNI_OK)
        return;
    fprintf(stderr, "fault: %s: answer %d\n", what, answer);
    exit(1);
}

/* Carries out a job and its rests, and brings the pages at which they stop; answers how many bytes were done. */
static uint32_t submit_and_bring(kazovuni_engine *engine, const uint8_t job[64])
{
    uint8_t descriptor[64], left[64], bytes[32];
    uint32_t done = 0;
    memcpy(descriptor, job, 64);
    for (;;) {
        kazovuni_record record = {0};
        check("submit", kazovuni_submit(engine, descriptor, bytes));
        kazovuni_record_decode(bytes, &record);
        done += record.completed;
        if ((record.status & DSA_COMP_STATUS_MASK) != DSA_COMP_PAGE_FAULT_NOBOF)
            return record.status == DSA_COMP_SUCCESS ? done : 0;
        printf("page fault on a %s of %u, %u bytes done\n", record.status & DSA_COMP_STATUS_WRITE ? "write" : "read",
               (unsigned)record.fault, done);
        if (record.fault >= sizeof store || !kazovuni_rest(descriptor, bytes, left))
            return 0;
        uint32_t page = (uint32_t)(record.fault / PAGE);
        check("bring", kazovuni_bring(engine, page, store + page * PAGE));
        memcpy(descriptor, left, 64);
    }
}

int main(void)
{
    kazovuni_engine engine = {0}; /* a handle is zeroed before its first call */
    kazovuni_job job = {.opcode = DSA_OPCODE_MEMMOVE, .source = SOURCE, .target = TARGET, .size = SIZE};
    uint8_t descriptor[64], moved[SIZE];
    for (size_t i = 0; i < sizeof store; i++)
        store[i] = (uint8_t)(i % 251);

    check("create", kazovuni_create(&engine, PAGES, SIZE)); /* a move needs as many bytes of staging as it moves */
    check("bring", kazovuni_bring(&engine, 0, store)); /* page 0 is there from the start, the others are not */
    uint32_t done = kazovuni_encode(&job, descriptor) ? submit_and_bring(&engine, descriptor) : 0;
    printf("%u bytes done\n", done);

    check("read", kazovuni_read(&engine, TARGET, moved, SIZE));
    kazovuni_free(&engine);
    return done == SIZE && memcmp(moved, store + SOURCE, SIZE) == 0 ? 0 : 1;
}
