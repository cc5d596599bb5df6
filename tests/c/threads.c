/*
 * Four threads at once, each with an engine of its own and a table of pages of one allocation, whose pages stand side
 * by side with those of the others; then one engine that goes round, with a page on its image: a thread is handed it by
 * its start and gives it back by its end, takes it by a lock, or waits for its turn at an atomic, and one that did not
 * make it frees it and makes it anew. Each holder finds in that page the number that the one before left there, and
 * leaves the next by a job. And records that one thread writes at a completion address by kazovuni_put_record, and
 * another one waits for. valgrind's helgrind and drd watch it, and the thread sanitizer (tests/c_regions.sh).
 *
 * Usage: threads ROUNDS [handle | region | atomic | relaxed | record | early]   handle: two threads have one
 * handle with no lock between them; region: two of them have the same page; relaxed: the atomic orders nothing; early:
 * a record is written with no order among its bytes. Each of these has to be reported. atomic: the round by the atomic
 * alone; record: the records alone. helgrind and drd do not know atomics, and so are shown neither.
 */
#define _GNU_SOURCE
#include "kazovuni.h"

#include <pthread.h>
#include <sched.h>
#include <stdatomic.h>
#include <stdio.h>
#include <stdlib.h>
#include <string.h>

enum { PAGE = KAZOVUNI_PAGE_BYTES, THREADS = 4, REGIONS = 3, STAGING = 10 * PAGE / 8 };

static unsigned long rounds;
static uint8_t *pages; /* the n-th page of a region is that of thread n modulo THREADS */
static bool has_region_race, has_handle_race;

typedef struct part {
    unsigned number;
    kazovuni_engine engine;
    kazovuni_region table[REGIONS];
    unsigned long wrong;
} part;

/* Whether a batch over the table does what it is for: a fill, a move, a create, and an apply behind a fence. */
static bool work_once(kazovuni_engine *engine, kazovuni_region table[REGIONS], unsigned long value)
{
    kazovuni_job jobs[4] = {
        {.opcode = KAZOVUNI_OP_FILL, .source = 0x0101010101010101 * (value % 200 + 1), .target = 0, .size = PAGE},
        {.opcode = KAZOVUNI_OP_MOVE, .source = 0, .target = 0x10000, .size = PAGE - 8},
        {.opcode = KAZOVUNI_OP_CREATE_DELTA, .source = 0x10000, .target = 0, .size = PAGE, .extra = 0x20000,
         .delta_size = 400},
        {.opcode = KAZOVUNI_OP_APPLY_DELTA, .flags = KAZOVUNI_FLAG_FENCE, .source = 0x20000, .target = 0x10000,
         .size = PAGE, .delta_size = 10}};
    uint8_t descriptors[4][64], records[4][32], batch[32];
    memset(table[1].bytes + PAGE - 8, 0, 8);
    for (int i = 0; i < 4; i++)
        if (!kazovuni_encode(&jobs[i], descriptors[i]))
            return false;
    if (kazovuni_submit_batch_at(engine, table, REGIONS, descriptors, 4, records, 4, batch) != KAZOVUNI_OK)
        return false;
    return batch[0] == KAZOVUNI_STATUS_SUCCESS && memcmp(table[0].bytes, table[1].bytes, PAGE) == 0;
}

/* Makes an engine whose image is one page, with a number in each word of it. */
static bool make_with_page(kazovuni_engine *engine, uint64_t number)
{
    uint64_t words[PAGE / 8];
    for (int i = 0; i < PAGE / 8; i++)
        words[i] = number;
    return kazovuni_create(engine, 1, STAGING) == KAZOVUNI_OK &&
           kazovuni_bring(engine, 0, (const uint8_t *)words) == KAZOVUNI_OK;
}

/* Whether that page has what the holder before left, this number in each word; a job on the image leaves the next. */
static bool use_page(kazovuni_engine *engine, uint64_t number)
{
    kazovuni_job fill = {.opcode = KAZOVUNI_OP_FILL, .source = number + 1, .size = PAGE};
    uint8_t descriptor[64], record[32];
    uint64_t words[PAGE / 8] = {0};
    if (!kazovuni_encode(&fill, descriptor) || kazovuni_read(engine, 0, (uint8_t *)words, PAGE) != KAZOVUNI_OK)
        return false;
    for (int i = 0; i < PAGE / 8; i++)
        if (words[i] != number)
            return false;
    return kazovuni_submit(engine, descriptor, record) == KAZOVUNI_OK && record[0] == KAZOVUNI_STATUS_SUCCESS;
}

static void make_table(part *part, unsigned thread)
{
    for (unsigned i = 0; i < REGIONS; i++)
        part->table[i] = (kazovuni_region){0x10000 * i, pages + (size_t)PAGE * (i * THREADS + thread), PAGE};
}

static void *work_apart(void *argument)
{
    part *part = argument;
    part->wrong += kazovuni_create_staging(&part->engine, STAGING) != KAZOVUNI_OK;
    for (unsigned long round = 0; round < rounds; round++)
        part->wrong += !work_once(&part->engine, part->table, round + part->number);
    kazovuni_free(&part->engine);
    return NULL;
}

/* One handle, whose turn it is, how many holders it had, which its page has too, and the lock of all. */
static pthread_mutex_t lock = PTHREAD_MUTEX_INITIALIZER;
static kazovuni_engine shared;
static unsigned long holders;

static void *work_by_turns(void *argument)
{
    part *part = argument;
    for (unsigned long round = 0; round < rounds; round++) {
        if (!has_handle_race)
            pthread_mutex_lock(&lock);
        if (!has_handle_race && round % 16 == part->number) {
            kazovuni_free(&shared);
            part->wrong += !make_with_page(&shared, holders);
        }
        kazovuni_engine taken = shared; /* a copy, and no other is used before it is back */
        if (!has_handle_race)
            part->wrong += !use_page(&taken, holders++);
        part->wrong += !work_once(&taken, part->table, round + part->number);
        if (!has_handle_race) {
            shared = taken;
            pthread_mutex_unlock(&lock);
        }
    }
    return NULL;
}

/*
 * Whose turn it is, counted on by each thread behind its last call; the next one sees it before its first. The handle
 * that goes round is no atomic, nor are the pages of a table that goes with it.
 */
static atomic_ulong turn;
static bool has_relaxed_race;
static kazovuni_region *shared_table;

static unsigned long turn_now(void)
{
    return has_relaxed_race ? atomic_load_explicit(&turn, memory_order_relaxed) : atomic_load(&turn);
}

static void *work_by_an_atomic(void *argument)
{
    part *part = argument;
    for (unsigned long mine = part->number; mine < rounds * THREADS; mine += THREADS) {
        while (turn_now() != mine)
            sched_yield();
        if (mine % (THREADS * 3 + 1) == 0) {
            kazovuni_free(&shared);
            part->wrong += !make_with_page(&shared, mine);
        }
        part->wrong += !use_page(&shared, mine);
        part->wrong += !work_once(&shared, shared_table, mine);
        if (has_relaxed_race)
            atomic_store_explicit(&turn, mine + 1, memory_order_relaxed);
        else
            atomic_store(&turn, mine + 1);
    }
    return NULL;
}

/*
 * Records at a completion address, one after another: a writer puts each by kazovuni_put_record, and a reader looks at
 * the status byte by acquiring loads until it is not 0. Then all of the record has to stand there; the reader makes it
 * zeros again and counts on, which the writer waits for. The bytes that a run finds show that the compiler left the
 * status last, since an x86-64 processor keeps the order of stores by itself. The thread sanitizer shows the rest: that
 * the release and the acquire order what the writer did before all that the reader does behind them. In the race memcpy
 * writes the record, its status as any other byte.
 */
enum { PUTS = 10 }; /* records of a round */
static uint8_t place[KAZOVUNI_RECORD_BYTES];
static atomic_ulong seen;
static bool has_early_race;

/* What is written: no byte is 0, and none is that of the record before at the same place. */
static const uint8_t put_records[][KAZOVUNI_RECORD_BYTES] = {
    {0x01, 0x02, 0x03, 0x04, 0x05, 0x06, 0x07, 0x08, 0x09, 0x0a, 0x0b, 0x0c, 0x0d, 0x0e, 0x0f, 0x10,
     0x11, 0x12, 0x13, 0x14, 0x15, 0x16, 0x17, 0x18, 0x19, 0x1a, 0x1b, 0x1c, 0x1d, 0x1e, 0x1f, 0x20},
    {0x03, 0x22, 0x23, 0x24, 0x25, 0x26, 0x27, 0x28, 0x29, 0x2a, 0x2b, 0x2c, 0x2d, 0x2e, 0x2f, 0x30,
     0x31, 0x32, 0x33, 0x34, 0x35, 0x36, 0x37, 0x38, 0x39, 0x3a, 0x3b, 0x3c, 0x3d, 0x3e, 0x3f, 0x40},
    {0x83, 0x42, 0x43, 0x44, 0x45, 0x46, 0x47, 0x48, 0x49, 0x4a, 0x4b, 0x4c, 0x4d, 0x4e, 0x4f, 0x50,
     0x51, 0x52, 0x53, 0x54, 0x55, 0x56, 0x57, 0x58, 0x59, 0x5a, 0x5b, 0x5c, 0x5d, 0x5e, 0x5f, 0x60},
};
enum { RECORDS = sizeof put_records / sizeof *put_records };

static void write_records(void)
{
    static const uint8_t descriptor[64] = {[4] = KAZOVUNI_FLAG_ADDRESS_VALID | KAZOVUNI_FLAG_REQUEST_RECORD};
    for (unsigned long n = 0; n < rounds * PUTS; n++) {
        while (atomic_load(&seen) != n)
            sched_yield();
        if (has_early_race)
            memcpy(place, put_records[n % RECORDS], KAZOVUNI_RECORD_BYTES);
        else if (!kazovuni_put_record(descriptor, put_records[n % RECORDS], place))
            exit(1); /* the reader would wait for it without an end */
    }
}

static void read_records(part *part)
{
    for (unsigned long n = 0; n < rounds * PUTS; n++) {
        while (__atomic_load_n(&place[0], __ATOMIC_ACQUIRE) == 0)
            sched_yield();
        for (int i = 0; i < KAZOVUNI_RECORD_BYTES; i++)
            part->wrong += place[i] != put_records[n % RECORDS][i];
        memset(place, 0, sizeof place);
        atomic_store(&seen, n + 1);
    }
}

static void *write_or_read(void *argument)
{
    part *part = argument;
    if (part->number == 0)
        write_records();
    else
        read_records(part);
    return NULL;
}

/* Starts a thread for each part, and waits for all. */
static unsigned long run(void *(*work)(void *), part parts[], unsigned count)
{
    pthread_t threads[THREADS];
    unsigned long wrong = 0;
    for (unsigned i = 0; i < count; i++)
        if (pthread_create(&threads[i], NULL, work, &parts[i]) != 0)
            exit(2);
    for (unsigned i = 0; i < count; i++) {
        pthread_join(threads[i], NULL);
        wrong += parts[i].wrong;
    }
    return wrong;
}

/* An engine made by one thread, used by a second one and freed by a third: each is handed it by its start. */
static void *make(void *argument)
{
    part *part = argument;
    part->wrong += !make_with_page(&part->engine, 100);
    return NULL;
}

static void *use(void *argument)
{
    part *part = argument;
    part->wrong += !use_page(&part->engine, 100);
    part->wrong += !work_once(&part->engine, part->table, 7);
    return NULL;
}

static void *let_go(void *argument)
{
    part *part = argument;
    part->wrong += !use_page(&part->engine, 101);
    kazovuni_free(&part->engine);
    return NULL;
}

/* Each of the rounds but the one by an atomic and that of records. */
static unsigned long run_apart_and_by_turns(part parts[THREADS])
{
    unsigned long wrong = run(work_apart, parts, THREADS);
    wrong += run(make, parts, 1);
    wrong += run(use, parts, 1);
    wrong += run(let_go, parts, 1);
    if (!make_with_page(&shared, 0))
        exit(2);
    wrong += run(work_by_turns, parts, has_handle_race ? 2 : THREADS);
    wrong += !has_handle_race && !use_page(&shared, rounds * THREADS);
    kazovuni_free(&shared);
    return wrong;
}

static unsigned long run_by_an_atomic(part parts[THREADS])
{
    if (!make_with_page(&shared, 0))
        exit(2);
    shared_table = parts[0].table;
    unsigned long wrong = run(work_by_an_atomic, parts, THREADS);
    wrong += !use_page(&shared, rounds * THREADS);
    kazovuni_free(&shared);
    return wrong;
}

static unsigned long run_way(part parts[THREADS], const char *way)
{
    if (has_early_race || strcmp(way, "record") == 0)
        return run(write_or_read, parts, 2);
    if (has_relaxed_race || strcmp(way, "atomic") == 0)
        return run_by_an_atomic(parts);
    return run_apart_and_by_turns(parts);
}

int main(int count, char **words)
{
    part parts[THREADS];
    const char *way = count > 2 ? words[2] : "";
    rounds = count > 1 ? strtoul(words[1], NULL, 10) : 100;
    has_handle_race = strcmp(way, "handle") == 0;
    has_region_race = strcmp(way, "region") == 0;
    has_relaxed_race = strcmp(way, "relaxed") == 0;
    has_early_race = strcmp(way, "early") == 0;
    pages = aligned_alloc(64, (size_t)PAGE * REGIONS * THREADS);
    if (!pages)
        return 2;
    memset(pages, 0, (size_t)PAGE * REGIONS * THREADS);
    for (unsigned i = 0; i < THREADS; i++) {
        parts[i] = (part){.number = i};
        make_table(&parts[i], has_region_race && i == 1 ? 0 : i);
    }
    unsigned long wrong = run_way(parts, way);
    free(pages);
    bool has_race = has_handle_race || has_region_race || has_relaxed_race || has_early_race;
    printf("threads: %d threads, %lu rounds, %s\n", THREADS, rounds,
           has_race ? "with a race" : wrong == 0 ? "all as alone" : "and some are wrong");
    return has_race || wrong == 0 ? 0 : 1;
}
