/*
 * The worked rows of calls that are no jobs, through kazovuni.h: handles with and without an engine, pages and bytes at
 * the edges of an image, counts that differ, lists and batches that are longer than one wave or one list of the program
 * takes, and NULL with a length or a number of 0. Then the largest create and the largest apply that there are, over
 * lent memory; and the largest memory in one piece, which is reserved and touched in places alone: where the system
 * reserves none, a line says so.
 */
#define _GNU_SOURCE
#include "kazovuni.h"

#include <stdio.h>
#include <stdlib.h>
#include <string.h>
#include <sys/mman.h>

enum { PAGE = KAZOVUNI_PAGE_BYTES, LONG_LIST = 1025 };

static int failed;

#define EXPECT(condition) expect((condition), #condition, __LINE__)

static void expect(bool holds, const char *condition, int line)
{
    if (holds)
        return;
    fprintf(stderr, "table_calls: line %d: not so: %s\n", line, condition);
    failed = 1;
}

static bool is_zeroed(const kazovuni_engine *engine)
{
    return engine->engine == NULL && !engine->is_open;
}

static void put(uint8_t *bytes, uint64_t number, int count)
{
    for (int i = 0; i < count; i++)
        bytes[i] = (uint8_t)(number >> (8 * i));
}

static void try_create(void)
{
    kazovuni_engine engine = {0};
    EXPECT(kazovuni_create(&engine, 0, 0) == KAZOVUNI_BAD_PAGES && is_zeroed(&engine));
    EXPECT(kazovuni_create(&engine, 4097, 0) == KAZOVUNI_BAD_PAGES && is_zeroed(&engine));
    EXPECT(kazovuni_create(&engine, 0, KAZOVUNI_MOST_STAGING + 1) == KAZOVUNI_BAD_PAGES && is_zeroed(&engine));
    EXPECT(kazovuni_create(&engine, 1, KAZOVUNI_MOST_STAGING + 1) == KAZOVUNI_BAD_SETTINGS && is_zeroed(&engine));
    EXPECT(kazovuni_create(&engine, 4096, KAZOVUNI_MOST_STAGING) == KAZOVUNI_OK && engine.is_open);
    EXPECT(kazovuni_create(&engine, 1, 0) == KAZOVUNI_HAS_ENGINE);
    EXPECT(kazovuni_create(&engine, 0, 0) == KAZOVUNI_HAS_ENGINE && engine.is_open);
    EXPECT(kazovuni_create(&engine, 1, KAZOVUNI_MOST_STAGING + 1) == KAZOVUNI_HAS_ENGINE && engine.is_open);
    kazovuni_free(&engine);
    EXPECT(is_zeroed(&engine));
    kazovuni_free(&engine); /* twice is harmless */
    EXPECT(kazovuni_create(&engine, 1, 0) == KAZOVUNI_OK); /* and the handle can be used again */
    kazovuni_free(&engine);
}

/* A handle that has no engine, zeroed or freed: nothing is written. */
static void try_no_engine(kazovuni_engine *engine)
{
    static uint8_t page[PAGE], descriptors[1][64], records[1][32];
    uint8_t byte = 7;
    const uint8_t *list = descriptors[0];
    memset(records, 0xcc, sizeof records);
    EXPECT(kazovuni_bring(engine, 0, page) == KAZOVUNI_NO_ENGINE);
    EXPECT(kazovuni_write(engine, 0, &byte, 1) == KAZOVUNI_NO_ENGINE);
    EXPECT(kazovuni_write(engine, 0, NULL, 0) == KAZOVUNI_NO_ENGINE);
    EXPECT(kazovuni_read(engine, 0, &byte, 1) == KAZOVUNI_NO_ENGINE && byte == 7);
    EXPECT(kazovuni_submit(engine, list, records[0]) == KAZOVUNI_NO_ENGINE);
    EXPECT(kazovuni_submit_list(engine, list, 1, records[0], 1) == KAZOVUNI_NO_ENGINE);
    EXPECT(kazovuni_submit_list(engine, list, 1, records[0], 0) == KAZOVUNI_NO_ENGINE);
    EXPECT(kazovuni_submit_list(engine, NULL, 0, NULL, 0) == KAZOVUNI_NO_ENGINE);
    EXPECT(records[0][0] == 0xcc && is_zeroed(engine));
}

/* The last page of the largest image, and the addresses around it. */
static void try_last_page(void)
{
    static uint8_t page[PAGE], bytes[PAGE + 1];
    kazovuni_engine engine = {0};
    memset(page, 0x5a, PAGE);
    EXPECT(kazovuni_create(&engine, 4096, 0) == KAZOVUNI_OK);
    EXPECT(kazovuni_bring(&engine, 4095, page) == KAZOVUNI_OK);
    EXPECT(kazovuni_bring(&engine, 4096, page) == KAZOVUNI_NO_SUCH_PAGE);
    EXPECT(kazovuni_bring(&engine, UINT32_MAX, page) == KAZOVUNI_NO_SUCH_PAGE);
    EXPECT(kazovuni_read(&engine, 16777215, bytes, 1) == KAZOVUNI_OK && bytes[0] == 0x5a);
    EXPECT(kazovuni_read(&engine, 16773120, bytes, PAGE) == KAZOVUNI_OK && memcmp(bytes, page, PAGE) == 0);
    memset(bytes, 0, sizeof bytes);
    EXPECT(kazovuni_read(&engine, 16773119, bytes, 1) == KAZOVUNI_ABSENT);
    EXPECT(kazovuni_read(&engine, 16777216, bytes, 1) == KAZOVUNI_ABSENT);
    EXPECT(kazovuni_read(&engine, 16773120, bytes, PAGE + 1) == KAZOVUNI_ABSENT);
    EXPECT(kazovuni_read(&engine, UINT64_MAX, bytes, 2) == KAZOVUNI_ABSENT);
    EXPECT(bytes[0] == 0 && bytes[1] == 0);
    EXPECT(kazovuni_read(&engine, 16777216, NULL, 0) == KAZOVUNI_OK); /* a range without a byte has none absent */
    EXPECT(kazovuni_write(&engine, 16777215, page, 2) == KAZOVUNI_ABSENT);
    EXPECT(kazovuni_write(&engine, UINT64_MAX, page, 2) == KAZOVUNI_ABSENT);
    kazovuni_free(&engine);
}

/* Bytes over a page edge, a page that is brought again, a write that would meet an absent page. */
static void try_pages(void)
{
    static const uint8_t zeros[PAGE], written[] = {1, 2, 3, 4}, wanted[] = {0, 0, 3, 4};
    uint8_t bytes[4];
    kazovuni_engine engine = {0}, other = {0};
    EXPECT(kazovuni_create(&engine, 1, 0) == KAZOVUNI_OK);
    EXPECT(kazovuni_bring(&engine, 1, zeros) == KAZOVUNI_NO_SUCH_PAGE);
    kazovuni_free(&engine);
    EXPECT(kazovuni_create(&engine, 2, 0) == KAZOVUNI_OK && kazovuni_create(&other, 2, 0) == KAZOVUNI_OK);
    EXPECT(kazovuni_write(&engine, 0, written, 1) == KAZOVUNI_ABSENT);
    EXPECT(kazovuni_bring(&engine, 0, zeros) == KAZOVUNI_OK && kazovuni_bring(&other, 0, zeros) == KAZOVUNI_OK);
    EXPECT(kazovuni_write(&engine, 4094, written, 4) == KAZOVUNI_ABSENT);
    EXPECT(kazovuni_read(&engine, 4094, bytes, 2) == KAZOVUNI_OK && bytes[0] == 0 && bytes[1] == 0);
    EXPECT(kazovuni_bring(&engine, 1, zeros) == KAZOVUNI_OK);
    EXPECT(kazovuni_write(&engine, 4094, written, 4) == KAZOVUNI_OK);
    EXPECT(kazovuni_bring(&engine, 0, zeros) == KAZOVUNI_OK);
    EXPECT(kazovuni_read(&engine, 4094, bytes, 4) == KAZOVUNI_OK && memcmp(bytes, wanted, 4) == 0);
    EXPECT(kazovuni_read(&other, 4094, bytes, 2) == KAZOVUNI_OK && bytes[1] == 0); /* engines share nothing */
    EXPECT(kazovuni_read(&other, 4096, bytes, 1) == KAZOVUNI_ABSENT);
    kazovuni_free(&other);
    kazovuni_free(&engine);
}

/* More jobs than a list of the program takes; a list with a record too few, and one with a record too many. */
static void try_lists(void)
{
    static uint8_t page[PAGE], descriptors[LONG_LIST][64], records[LONG_LIST][32], wanted[32] = {1};
    const uint8_t *list = descriptors[0];
    kazovuni_engine engine = {0};
    EXPECT(kazovuni_create(&engine, 1, 0) == KAZOVUNI_OK);
    for (int form = 0; form < 3; form++) {
        memset(records, 0xcc, sizeof records);
        EXPECT((form == 0   ? kazovuni_submit_list(&engine, list, LONG_LIST, records[0], LONG_LIST)
                : form == 1 ? kazovuni_submit_list_over(page, PAGE, list, LONG_LIST, 0, records[0], LONG_LIST)
                            : kazovuni_submit_list_whole(page, PAGE, list, LONG_LIST, 0, records[0], LONG_LIST)) ==
               KAZOVUNI_OK);
        for (int i = 0; i < LONG_LIST; i++)
            EXPECT(memcmp(records[i], wanted, 32) == 0);
    }
    EXPECT(kazovuni_bring(&engine, 0, page) == KAZOVUNI_OK);
    descriptors[0][7] = 0x04; /* a fill of a byte */
    put(descriptors[0] + 16, 7, 8);
    put(descriptors[0] + 32, 1, 4);
    memset(records, 0xcc, sizeof records);
    EXPECT(kazovuni_submit_list(&engine, list, 2, records[0], 1) == KAZOVUNI_NOT_AS_MANY);
    EXPECT(kazovuni_submit_list(&engine, list, 2, records[0], 3) == KAZOVUNI_NOT_AS_MANY);
    EXPECT(kazovuni_submit_list(&engine, NULL, 0, NULL, 0) == KAZOVUNI_OK);
    EXPECT(records[0][0] == 0xcc && kazovuni_read(&engine, 0, wanted, 1) == KAZOVUNI_OK && wanted[0] == 0);
    EXPECT(kazovuni_submit_list(&engine, list, 1, records[0], 1) == KAZOVUNI_OK);
    EXPECT(records[0][0] == 1 && kazovuni_read(&engine, 0, wanted, 1) == KAZOVUNI_OK && wanted[0] == 7);
    kazovuni_free(&engine);
}

/* So long a batch on the image, over a page and over a region of one: each job puts its number, the last one fenced. */
static void try_long_batch(void)
{
    static uint8_t page[PAGE], descriptors[LONG_LIST][64], records[LONG_LIST][32], batch[32];
    static const uint8_t zeros[PAGE], wanted[32] = {1, [4] = 2}, own[32] = {1, [4] = 0x01, [5] = 0x04}; /* 1,025 jobs */
    kazovuni_region table[1] = {{0, page, PAGE}};
    kazovuni_engine engine = {0};
    EXPECT(kazovuni_create(&engine, 1, 0) == KAZOVUNI_OK && kazovuni_bring(&engine, 0, zeros) == KAZOVUNI_OK);
    for (size_t i = 0; i < LONG_LIST; i++) {
        kazovuni_job fill = {.opcode = 0x04, .source = i, .target = 2 * i, .size = 2};
        EXPECT(kazovuni_encode(&fill, descriptors[i]));
    }
    descriptors[LONG_LIST - 1][4] = KAZOVUNI_FLAG_FENCE;
    for (int form = 0; form < 3; form++) {
        memset(page, 0, PAGE);
        memset(records, 0xcc, sizeof records);
        memset(batch, 0xcc, sizeof batch);
        EXPECT((form == 0 ? kazovuni_submit_batch(&engine, descriptors, LONG_LIST, records, LONG_LIST, batch)
                : form == 1
                    ? kazovuni_submit_batch_in(&engine, page, PAGE, descriptors, LONG_LIST, records, LONG_LIST, batch)
                    : kazovuni_submit_batch_at(&engine, table, 1, descriptors, LONG_LIST, records, LONG_LIST, batch)) ==
               KAZOVUNI_OK);
        EXPECT(memcmp(batch, own, 32) == 0);
        if (form == 0)
            EXPECT(kazovuni_read(&engine, 0, page, PAGE) == KAZOVUNI_OK);
        for (size_t i = 0; i < LONG_LIST; i++) {
            EXPECT(memcmp(records[i], wanted, 32) == 0);
            EXPECT(page[2 * i] == (uint8_t)i && page[2 * i + 1] == (uint8_t)(i >> 8));
        }
        EXPECT(memcmp(page + 2 * LONG_LIST, zeros, PAGE - 2 * LONG_LIST) == 0);
    }
    kazovuni_free(&engine);
}

/* NULL with a length or a number of 0, in each call that takes one: it is no pages, a range of no byte, or no job. */
static void try_null(void)
{
    static uint8_t page[PAGE], descriptors[1][64], records[1][32];
    const uint8_t *list = descriptors[0];
    kazovuni_engine engine = {0};
    memset(records, 0xcc, sizeof records);
    EXPECT(kazovuni_submit_over(NULL, 0, list, 0, records[0]) == KAZOVUNI_NOT_PAGES);
    EXPECT(kazovuni_submit_pointers(0, NULL, 0, list, 0, records[0]) == KAZOVUNI_NOT_PAGES);
    EXPECT(kazovuni_submit_list_over(NULL, 0, list, 1, 0, records[0], 1) == KAZOVUNI_NOT_PAGES);
    EXPECT(kazovuni_submit_list_over(NULL, 0, NULL, 0, 0, NULL, 0) == KAZOVUNI_NOT_PAGES);
    EXPECT(kazovuni_submit_list_over(page, PAGE, NULL, 0, 0, NULL, 0) == KAZOVUNI_OK);
    EXPECT(kazovuni_submit_list_over(page, PAGE, NULL, 0, 0, records[0], 1) == KAZOVUNI_NOT_AS_MANY);
    EXPECT(kazovuni_submit_list_over(page, PAGE, list, 1, 0, NULL, 0) == KAZOVUNI_NOT_AS_MANY);
    EXPECT(kazovuni_submit_whole(NULL, 0, list, 0, records[0]) == KAZOVUNI_NOT_PAGES);
    EXPECT(kazovuni_submit_list_whole(NULL, 0, list, 1, 0, records[0], 1) == KAZOVUNI_NOT_PAGES);
    EXPECT(kazovuni_submit_list_whole(NULL, 0, NULL, 0, 0, NULL, 0) == KAZOVUNI_NOT_PAGES);
    EXPECT(kazovuni_submit_list_whole(page, PAGE, NULL, 0, 0, NULL, 0) == KAZOVUNI_OK);
    EXPECT(kazovuni_submit_list_whole(page, PAGE, NULL, 0, 0, records[0], 1) == KAZOVUNI_NOT_AS_MANY);
    EXPECT(kazovuni_submit_list_whole(page, PAGE, list, 1, 0, NULL, 0) == KAZOVUNI_NOT_AS_MANY);
    EXPECT(kazovuni_read(&engine, 0, NULL, 0) == KAZOVUNI_NO_ENGINE);
    EXPECT(kazovuni_write(&engine, 0, NULL, 0) == KAZOVUNI_NO_ENGINE);
    EXPECT(kazovuni_submit_list(&engine, NULL, 0, NULL, 0) == KAZOVUNI_NO_ENGINE);
    EXPECT(kazovuni_create(&engine, 1, 0) == KAZOVUNI_OK); /* its page is absent */
    EXPECT(kazovuni_read(&engine, 0, NULL, 0) == KAZOVUNI_OK);
    EXPECT(kazovuni_read(&engine, UINT64_MAX, NULL, 0) == KAZOVUNI_OK);
    EXPECT(kazovuni_write(&engine, 0, NULL, 0) == KAZOVUNI_OK);
    EXPECT(kazovuni_write(&engine, UINT64_MAX, NULL, 0) == KAZOVUNI_OK);
    EXPECT(kazovuni_submit_list(&engine, NULL, 0, NULL, 0) == KAZOVUNI_OK);
    EXPECT(kazovuni_submit_list(&engine, NULL, 0, records[0], 1) == KAZOVUNI_NOT_AS_MANY);
    EXPECT(kazovuni_submit_list(&engine, list, 1, NULL, 0) == KAZOVUNI_NOT_AS_MANY);
    EXPECT(records[0][0] == 0xcc && kazovuni_read(&engine, 0, page, 1) == KAZOVUNI_ABSENT);
    kazovuni_free(&engine);
}

/* The most bytes that a create compares, and that its record has then, where all of its blocks differ. */
enum { MOST_BYTES = 0x80000, MOST_RECORD = 655360, SECOND = MOST_BYTES, RECORD = 2 * MOST_BYTES };
enum { LENT_BYTES = RECORD + MOST_RECORD };

static uint8_t lent[LENT_BYTES];

enum lent_form { BY_OFFSETS, AS_A_LIST, BY_POINTERS, IN_ONE_PIECE, AS_A_LIST_IN_ONE_PIECE, LENT_FORMS };

/* Submits a job whose addresses are offsets, over all lent bytes. */
static uint8_t submit_lent(enum lent_form form, kazovuni_job job, uint32_t staging, uint8_t record[32])
{
    uint8_t descriptor[64];
    uint64_t base = form == BY_POINTERS ? (uintptr_t)lent : 0;
    job.source += base;
    job.target += base;
    job.extra += job.opcode == 0x07 ? base : 0; /* the place of a create's record */
    EXPECT(kazovuni_encode(&job, descriptor) && kazovuni_need(descriptor) == MOST_RECORD);
    memset(record, 0xcc, 32);
    switch (form) {
    case BY_OFFSETS:
        return kazovuni_submit_over(lent, LENT_BYTES, descriptor, staging, record);
    case AS_A_LIST:
        return kazovuni_submit_list_over(lent, LENT_BYTES, descriptor, 1, staging, record, 1);
    case IN_ONE_PIECE:
        return kazovuni_submit_whole(lent, LENT_BYTES, descriptor, staging, record);
    case AS_A_LIST_IN_ONE_PIECE:
        return kazovuni_submit_list_whole(lent, LENT_BYTES, descriptor, 1, staging, record, 1);
    default:
        return kazovuni_submit_pointers(base, lent, LENT_BYTES, descriptor, staging, record);
    }
}

/* Whether the two ranges hold these bytes, and the record at its place an entry for each block of the second. */
static bool holds(const uint8_t *first, const uint8_t *second)
{
    for (size_t block = 0; block < MOST_BYTES / 8; block++) {
        const uint8_t *entry = lent + RECORD + 10 * block;
        if (entry[0] != (uint8_t)block || entry[1] != (uint8_t)(block >> 8) ||
            memcmp(entry + 2, second + 8 * block, 8) != 0)
            return false;
    }
    return memcmp(lent, first, MOST_BYTES) == 0 && memcmp(lent + SECOND, second, MOST_BYTES) == 0;
}

/* A create of all that it may compare, where each block differs, and an apply of its record, which is as long. */
static void try_largest(enum lent_form form)
{
    static uint8_t zeros[MOST_BYTES], second[MOST_BYTES];
    uint8_t record[32], wanted[32] = {0x7e};
    kazovuni_job create = {.opcode = 0x07, .target = SECOND, .extra = RECORD, .size = MOST_BYTES};
    kazovuni_job apply = {.opcode = 0x08, .source = RECORD, .size = MOST_BYTES, .delta_size = MOST_RECORD};
    create.delta_size = MOST_RECORD;
    memset(lent, 0, LENT_BYTES);
    for (size_t place = 0; place < MOST_BYTES; place++)
        second[place] = (uint8_t)(1 + (place / 8 + place) % 255);
    memcpy(lent + SECOND, second, MOST_BYTES);
    EXPECT(submit_lent(form, create, MOST_RECORD - 1, record) == KAZOVUNI_OK && memcmp(record, wanted, 32) == 0);
    wanted[0] = 0x01;
    wanted[1] = 1;
    put(wanted + 4, MOST_BYTES, 4);
    put(wanted + 16, MOST_RECORD, 4);
    EXPECT(submit_lent(form, create, MOST_RECORD, record) == KAZOVUNI_OK && memcmp(record, wanted, 32) == 0);
    EXPECT(holds(zeros, second));
    wanted[1] = 0;
    put(wanted + 4, MOST_RECORD, 4);
    put(wanted + 16, 0, 4);
    EXPECT(submit_lent(form, apply, MOST_RECORD, record) == KAZOVUNI_OK && memcmp(record, wanted, 32) == 0);
    EXPECT(holds(second, second));
}

/* The most bytes of a piece, and a place in it whose address in 32 bits would be another one. */
#define MOST_PIECE (KAZOVUNI_MOST_WHOLE_PAGES * UINT64_C(4096))
#define MIDDLE ((UINT64_C(1) << 43) + 64)
enum { MIB = 1 << 20 };

/* Jobs over all of the piece, one after another, whose bytes are 0 but for 8 at 64, and what each has to answer. */
static const struct {
    kazovuni_job job;
    kazovuni_record record;
} piece_rows[] = {
    /* from one end to the other, and to places between them */
    {{.opcode = 0x03, .source = 64, .target = MOST_PIECE - 8, .size = 8}, {0x01, 0, 8, 0, 0}},
    {{.opcode = 0x05, .source = 64, .target = MOST_PIECE - 8, .size = 8}, {0x01, 0, 8, 0, 0}},
    {{.opcode = 0x09, .source = MOST_PIECE - 8, .target = MIDDLE, .extra = 8192 + 64, .size = 8}, {0x01, 0, 8, 0, 0}},
    {{.opcode = 0x07, .source = 0, .target = MIDDLE, .extra = MIDDLE + 64, .size = 8, .delta_size = 10},
     {0x01, 1, 8, 0, 10}},
    {{.opcode = 0x08, .source = MIDDLE + 64, .target = 0, .size = 8, .delta_size = 10}, {0x01, 0, 10, 0, 0}},
    {{.opcode = 0x05, .source = 0, .target = MIDDLE, .size = 16}, {0x01, 0, 16, 0, 0}},
    {{.opcode = 0x05, .source = 0, .target = MIDDLE - 8, .size = 8}, {0x01, 1, 0, 0, 0}},
    /* over the end, and behind it */
    {{.opcode = 0x04, .source = 0x0807060504030201, .target = MOST_PIECE - 4, .size = 8},
     {0x83, 0, 4, MOST_PIECE, 0}},
    {{.opcode = 0x03, .source = 0, .target = MOST_PIECE, .size = 8}, {0x83, 0, 0, MOST_PIECE, 0}},
    {{.opcode = 0x03, .source = MOST_PIECE - 16, .target = MOST_PIECE - 8, .size = 16},
     {0x83, 1, 0, MOST_PIECE + 7, 0}},
    {{.opcode = 0x04, .source = 7, .target = UINT64_C(1) << 44, .size = 8}, {0x83, 0, 0, UINT64_C(1) << 44, 0}},
    {{.opcode = 0x04, .source = 7, .target = UINT64_C(1) << 63, .size = 8}, {0x83, 0, 0, UINT64_C(1) << 63, 0}},
    {{.opcode = 0x06, .source = UINT64_MAX - 7, .size = 8}, {0x03, 0, 0, UINT64_MAX - 7, 0}},
    {{.opcode = 0x06, .source = UINT64_MAX - 7, .size = 9}, {0x7d, 0, 0, 0, 0}},
};
enum { PIECE_ROWS = sizeof piece_rows / sizeof *piece_rows };

/* What the rows leave, and that at places beside them nothing is written. */
static void expect_left(const uint8_t *piece)
{
    static const uint8_t bytes[8] = {1, 2, 3, 4, 5, 6, 7, 8}, delta[10] = {0, 0, 1, 2, 3, 4, 5, 6, 7, 8}, zeros[PAGE];
    EXPECT(memcmp(piece, bytes, 8) == 0 && memcmp(piece + 8, zeros, 56) == 0 && memcmp(piece + 64, bytes, 8) == 0);
    EXPECT(memcmp(piece + MIDDLE, bytes, 8) == 0 && memcmp(piece + MIDDLE + 64, delta, 10) == 0);
    EXPECT(memcmp(piece + 8192 + 64, bytes, 8) == 0);
    EXPECT(memcmp(piece + MOST_PIECE - 8, "\1\2\3\4\1\2\3\4", 8) == 0);
    EXPECT(memcmp(piece + MIDDLE - 64, zeros, 64) == 0 && memcmp(piece + 72, zeros, PAGE - 72) == 0);
    EXPECT(memcmp(piece + MOST_PIECE % (UINT64_C(1) << 32), zeros, PAGE) == 0);
}

/* Calls over no whole pages, over one page more than there may be, and with a record too many: nothing is written. */
static void try_no_piece(uint8_t *piece, const uint8_t *list)
{
    static uint8_t records[PIECE_ROWS + 1][32];
    uint8_t *record = records[0], batch[32] = {0xcc};
    memset(records, 0xcc, sizeof records);
    EXPECT(kazovuni_submit_whole(piece, MOST_PIECE + PAGE, list, MIB, record) == KAZOVUNI_NOT_PAGES);
    EXPECT(kazovuni_submit_whole(piece, MOST_PIECE - 1, list, MIB, record) == KAZOVUNI_NOT_PAGES);
    EXPECT(kazovuni_submit_list_whole(piece, MOST_PIECE + PAGE, list, PIECE_ROWS, MIB, record, PIECE_ROWS) ==
           KAZOVUNI_NOT_PAGES);
    EXPECT(kazovuni_submit_list_whole(piece, MOST_PIECE, list, PIECE_ROWS, MIB, record, PIECE_ROWS + 1) ==
           KAZOVUNI_NOT_AS_MANY);
    kazovuni_engine engine = {0};
    EXPECT(kazovuni_create_staging(&engine, MIB) == KAZOVUNI_OK);
    EXPECT(kazovuni_submit_in(&engine, piece, MOST_PIECE + PAGE, list, record) == KAZOVUNI_NOT_PAGES);
    EXPECT(kazovuni_submit_list_in(&engine, piece, MOST_PIECE + PAGE, list, PIECE_ROWS, record, PIECE_ROWS) ==
           KAZOVUNI_NOT_PAGES);
    EXPECT(kazovuni_submit_batch_in(&engine, piece, MOST_PIECE + PAGE, list, PIECE_ROWS, record, PIECE_ROWS, batch) ==
           KAZOVUNI_NOT_PAGES);
    kazovuni_free(&engine);
    EXPECT(records[0][0] == 0xcc && batch[0] == 0xcc && piece[MOST_PIECE - 8] == 0);
}

/* The largest piece that there may be, job by job or as a list. */
static void try_piece(uint8_t *piece, bool as_a_list)
{
    static uint8_t descriptors[PIECE_ROWS][64], records[PIECE_ROWS][32], wanted[PIECE_ROWS][32];
    memset(records, 0xcc, sizeof records);
    for (size_t i = 0; i < PIECE_ROWS; i++)
        EXPECT(kazovuni_encode(&piece_rows[i].job, descriptors[i]) &&
               kazovuni_record_encode(&piece_rows[i].record, wanted[i]));
    put(piece + 64, UINT64_C(0x0807060504030201), 8);
    try_no_piece(piece, descriptors[0]);
    if (as_a_list)
        EXPECT(kazovuni_submit_list_whole(
                   piece, MOST_PIECE, descriptors[0], PIECE_ROWS, MIB, records[0], PIECE_ROWS) == KAZOVUNI_OK);
    for (size_t i = 0; i < PIECE_ROWS && !as_a_list; i++)
        EXPECT(kazovuni_submit_whole(piece, MOST_PIECE, descriptors[i], MIB, records[i]) == KAZOVUNI_OK);
    for (size_t i = 0; i < PIECE_ROWS; i++)
        EXPECT(memcmp(records[i], wanted[i], 32) == 0);
    expect_left(piece);
}

/* Both over a piece that is reserved, and touched by the rows alone. */
static void try_pieces(void)
{
    for (int as_a_list = 0; as_a_list < 2; as_a_list++) {
        uint8_t *piece = mmap(
            NULL, MOST_PIECE + PAGE, PROT_READ | PROT_WRITE, MAP_PRIVATE | MAP_ANONYMOUS | MAP_NORESERVE, -1, 0);
        if (piece == MAP_FAILED) {
            printf("table_calls: the system reserves no 16 TiB: the largest piece is left out\n");
            return;
        }
        try_piece(piece, as_a_list);
        munmap(piece, MOST_PIECE + PAGE);
    }
}

int main(void)
{
    kazovuni_engine engine = {0};
    try_no_engine(&engine);
    EXPECT(kazovuni_create(&engine, 1, 64) == KAZOVUNI_OK);
    kazovuni_free(&engine);
    try_no_engine(&engine);
    try_create();
    try_last_page();
    try_pages();
    try_lists();
    try_long_batch();
    try_null();
    for (enum lent_form form = BY_OFFSETS; form < LENT_FORMS; form++)
        try_largest(form);
    try_pieces();
    if (!failed)
        printf("table_calls: all as they have to be\n");
    return failed;
}
