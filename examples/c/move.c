/*
 * A buffer moved over itself: room for a word is made in a text, the word is put in, and the room is closed again.
 *
 *     cc -o move move.c $(pkg-config --cflags --libs kazovuni)
 *
 * The descriptor and the record are the structs of linux/idxd.h, and the addresses in them are the program's own
 * pointers: so a program writes them that submits to the device.
 */
#include "kazovuni.h"

#include <linux/idxd.h>
#include <stdio.h>
#include <stdlib.h>
#include <string.h>

/* The memory that jobs may touch: whole pages, that begin at a multiple of a page. */
static _Alignas(KAZOVUNI_PAGE_BYTES) uint8_t memory[2 * KAZOVUNI_PAGE_BYTES];

/* Moves bytes of the memory, also over themselves, and prints the record. */
static void move(uint8_t *target, const uint8_t *source, uint32_t size)
{
    struct dsa_hw_desc descriptor = {
        .opcode = DSA_OPCODE_MEMMOVE,
        .src_addr = (uintptr_t)source,
        .dst_addr = (uintptr_t)target,
        .xfer_size = size,
    };
    struct dsa_completion_record record;
    uint32_t staging = size; /* a move needs as many bytes of staging as it moves */
    uint8_t answer = kazovuni_submit_pointers(
        (uintptr_t)memory, memory, sizeof memory, (uint8_t *)&descriptor, staging, (uint8_t *)&record);
    if (answer != KAZOVUNI_OK || record.status != DSA_COMP_SUCCESS || record.bytes_completed != size) {
        fprintf(stderr, "move: answer %d, status %02x\n", answer, record.status);
        exit(1);
    }
    printf("moved %u bytes %s\n", record.bytes_completed, record.result ? "from the last to the first"
                                                                        : "from the first to the last");
}

static void expect(const uint8_t *text, const char *wanted)
{
    printf("%s\n", (const char *)text);
    if (strcmp((const char *)text, wanted) != 0)
        exit(1);
}

int main(void)
{
    uint8_t *text = memory + KAZOVUNI_PAGE_BYTES - 16; /* it goes over the edge between the two pages */
    uint8_t *place = text + strlen("the quick ");
    strcpy((char *)text, "the quick fox jumps");
    expect(text, "the quick fox jumps");

    move(place + strlen("brown "), place, sizeof "fox jumps"); /* upwards, into the buffer's own bytes */
    memcpy(place, "brown ", strlen("brown "));
    expect(text, "the quick brown fox jumps");

    move(place, place + strlen("brown "), sizeof "fox jumps"); /* and downwards again */
    expect(text, "the quick fox jumps");
    return 0;
}
