/*
 * Each call that takes memory, for tests/c_library.sh, which has one growth of memory refused: the call that meets it
 * answers want of memory and changes nothing, and does its job when it is made again. Answers 0 where as many calls
 * were refused as the first word says.
 */
#include "kazovuni.h"

#include <stdlib.h>
#include <string.h>

static uint8_t bytes[KAZOVUNI_PAGE_BYTES], record[1][32], descriptor[1][64];
static kazovuni_engine engine;

/* A create of a delta record from two ranges of 8 bytes that differ. */
static uint8_t over_pages(void)
{
    return kazovuni_submit_over(bytes, sizeof bytes, descriptor[0], 4096, record[0]);
}

static uint8_t as_a_list(void)
{
    return kazovuni_submit_list_over(bytes, sizeof bytes, descriptor[0], 1, 4096, record[0], 1);
}

static uint8_t by_pointers(void)
{
    return kazovuni_submit_pointers(0, bytes, sizeof bytes, descriptor[0], 4096, record[0]);
}

static uint8_t in_one_piece(void)
{
    return kazovuni_submit_whole(bytes, sizeof bytes, descriptor[0], 4096, record[0]);
}

static uint8_t as_a_list_in_one_piece(void)
{
    return kazovuni_submit_list_whole(bytes, sizeof bytes, descriptor[0], 1, 4096, record[0], 1);
}

static uint8_t create(void)
{
    return kazovuni_create(&engine, 2, 4096);
}

static uint8_t bring(void)
{
    return kazovuni_bring(&engine, 1, bytes);
}

/* What needs no memory: a page that is present, and jobs on the image. */
static uint8_t again(void)
{
    uint8_t fill[64] = {[7] = 0x04, [16] = 7, [24] = 64, [32] = 1};
    if (kazovuni_bring(&engine, 1, bytes) != KAZOVUNI_OK || kazovuni_submit(&engine, fill, record[0]) != KAZOVUNI_OK)
        return KAZOVUNI_NO_MEMORY;
    return kazovuni_submit_list(&engine, descriptor[0], 1, record[0], 1);
}

/* What needs no memory either: jobs over other memory with the staging of the engine. */
static uint8_t with_its_staging(void)
{
    kazovuni_region table[1] = {{0, bytes, sizeof bytes}};
    uint8_t batch[32];
    if (kazovuni_submit_in(&engine, bytes, sizeof bytes, descriptor, record) != KAZOVUNI_OK ||
        kazovuni_submit_list_in(&engine, bytes, sizeof bytes, descriptor, 1, record, 1) != KAZOVUNI_OK ||
        kazovuni_submit_batch_in(&engine, bytes, sizeof bytes, descriptor, 1, record, 1, batch) != KAZOVUNI_OK ||
        kazovuni_submit_at(&engine, table, 1, descriptor, record) != KAZOVUNI_OK ||
        kazovuni_submit_list_at(&engine, table, 1, descriptor, 1, record, 1) != KAZOVUNI_OK)
        return KAZOVUNI_NO_MEMORY;
    return kazovuni_submit_batch_at(&engine, table, 1, descriptor, 1, record, 1, batch);
}

/*
 * Jobs that stage nothing, and the statuses of their records: a fill; creates and applies that are refused, by each of
 * their rules; and those that have nothing to stage.
 */
static const struct {
    uint8_t descriptor[64], status;
} unstaged[] = {
    {{[7] = 0x04, [16] = 7, [24] = 64, [32] = 1}, 0x01},
    {{[4] = 0x10, [7] = 0x07, [24] = 8, [32] = 8, [40] = 16, [48] = 80}, 0x11},
    {{[7] = 0x07, [24] = 8, [32] = 12, [40] = 16, [48] = 80}, 0x13},
    {{[7] = 0x07, [24] = 8, [32] = 8, [40] = 16, [48] = 85}, 0x15},
    {{[7] = 0x08, [24] = 65, [32] = 8, [40] = 10}, 0x1c},
    {{[7] = 0x08, [24] = 8, [32] = 8, [40] = 10}, 0x16},
    {{[7] = 0x08, [16] = 0xf8, 0xff, 0xff, 0xff, 0xff, 0xff, 0xff, 0xff, [24] = 64, [32] = 8, [40] = 10}, 0x7d},
    {{[7] = 0x07, [25] = 16, [33] = 16, [41] = 64, [48] = 80}, 0x7e},
    {{[7] = 0x07, [24] = 8, [32] = 0, [40] = 16, [48] = 80}, 0x01},
    {{[7] = 0x08, [24] = 64, [32] = 8}, 0x01},
};
enum { UNSTAGED = sizeof unstaged / sizeof unstaged[0] };

/* Each of them alone, by pointers and in one piece, and all of them as a list of both kinds. */
static uint8_t without_staging(void)
{
    uint8_t descriptors[UNSTAGED][64], records[UNSTAGED][32];
    for (size_t i = 0; i < UNSTAGED; i++) {
        const uint8_t *job = unstaged[i].descriptor;
        memcpy(descriptors[i], job, 64);
        if (kazovuni_submit_over(bytes, sizeof bytes, job, 4096, record[0]) != KAZOVUNI_OK ||
            record[0][0] != unstaged[i].status ||
            kazovuni_submit_pointers(0, bytes, sizeof bytes, job, 4096, record[0]) != KAZOVUNI_OK ||
            record[0][0] != unstaged[i].status ||
            kazovuni_submit_whole(bytes, sizeof bytes, job, 4096, record[0]) != KAZOVUNI_OK ||
            record[0][0] != unstaged[i].status)
            return KAZOVUNI_NO_MEMORY;
    }
    for (int whole = 0; whole < 2; whole++) {
        memset(records, 0xcc, sizeof records);
        if ((whole ? kazovuni_submit_list_whole : kazovuni_submit_list_over)(
                bytes, sizeof bytes, descriptors[0], UNSTAGED, 4096, records[0], UNSTAGED) != KAZOVUNI_OK)
            return KAZOVUNI_NO_MEMORY;
        for (size_t i = 0; i < UNSTAGED; i++)
            if (records[i][0] != unstaged[i].status)
                return KAZOVUNI_NO_MEMORY;
    }
    return KAZOVUNI_OK;
}

int main(int count, char **words)
{
    static uint8_t (*const calls[])(void) = {
        over_pages, as_a_list, by_pointers, in_one_piece, as_a_list_in_one_piece, create, bring, again,
        with_its_staging, without_staging};
    int wanted = count > 1 ? atoi(words[1]) : 0, refused = 0;
    descriptor[0][7] = 0x07;
    descriptor[0][24] = 8;
    descriptor[0][32] = 8;
    descriptor[0][40] = 16;
    descriptor[0][48] = 80;
    bytes[0] = 1;
    for (size_t i = 0; i < sizeof calls / sizeof calls[0]; i++) {
        uint8_t before[KAZOVUNI_PAGE_BYTES];
        kazovuni_engine old = engine;
        memcpy(before, bytes, sizeof bytes);
        memset(record, 0xcc, sizeof record);
        uint8_t answer = calls[i]();
        if (answer == KAZOVUNI_NO_MEMORY) {
            refused++;
            if (memcmp(before, bytes, sizeof bytes) != 0 || record[0][0] != 0xcc ||
                old.engine != engine.engine || old.is_open != engine.is_open)
                return 101;
            answer = calls[i]();
        }
        if (answer != KAZOVUNI_OK)
            return 102;
    }
    kazovuni_free(&engine);
    return refused == wanted ? 0 : 103;
}
