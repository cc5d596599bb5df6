/*
 * A pool of pages and its replica: what changed since a snapshot is found by creates of delta records, the records are
 * shipped, and the replica applies them as one batch, whose last job, behind a fence, sets the version.
 *
 *     cc -o storage storage.c $(pkg-config --cflags --libs kazovuni)
 *
 * Pool, snapshot, records and the replica are allocations of their own. A table says at which address jobs see each.
 */
#include "kazovuni.h"

#include <stdio.h>
#include <stdlib.h>
#include <string.h>

enum { PAGE = KAZOVUNI_PAGE_BYTES, PAGES = 256, SIZE = PAGES * PAGE, MOST_DELTA = 400, WHOLE = 0 };

/* Where jobs see the pool or the replica, the replica's version, the snapshot, and the records or what has arrived. */
#define POOL UINT64_C(0)
#define VERSION (POOL + SIZE)
#define SNAPSHOT UINT64_C(0x100000000)
#define RECORDS UINT64_C(0x200000000)

/* What is sent of a page that changed: its number, and how long its delta record is, or that the whole page follows. */
typedef struct message {
    uint32_t page, delta_size;
} message;

static uint8_t *pool, *snapshot, *records, *replica, *arrived; /* each is as large as the pool */
static uint8_t version[PAGE];                                  /* of the replica, in its first byte */
static uint8_t descriptors[PAGES + 1][KAZOVUNI_DESCRIPTOR_BYTES], answers[PAGES + 1][KAZOVUNI_RECORD_BYTES];
static message messages[PAGES];

static void check(const char *what, bool holds)
{
    if (holds)
        return;
    fprintf(stderr, "storage: %s\n", what);
    exit(1);
}

static uint8_t *pages(void)
{
    uint8_t *bytes = calloc(PAGES, PAGE);
    check("no memory", bytes != NULL);
    return bytes;
}

/* What the pool's users do: some bytes of every eighth page, and all bytes of page 100. */
static void work(void)
{
    for (int page = 0; page < PAGES; page += 8)
        memcpy(pool + page * PAGE + 40 + page, "a new text", 10);
    memset(pool + 100 * PAGE, 0xab, PAGE);
}

/* Creates a delta record of each page, as one list, and says what is to be sent. */
static size_t find_changes(kazovuni_engine *engine)
{
    kazovuni_region table[] = {{POOL, pool, SIZE}, {SNAPSHOT, snapshot, SIZE}, {RECORDS, records, SIZE}};
    size_t changed = 0;
    for (uint32_t page = 0; page < PAGES; page++) {
        uint64_t place = (uint64_t)page * PAGE;
        kazovuni_job create = {.opcode = KAZOVUNI_OP_CREATE_DELTA, .source = SNAPSHOT + place, .target = POOL + place,
                               .size = PAGE, .extra = RECORDS + place, .delta_size = MOST_DELTA};
        check("a create", kazovuni_encode(&create, descriptors[page]));
    }
    check("the creates", kazovuni_submit_list_at(engine, table, 3, descriptors, PAGES, answers, PAGES) == KAZOVUNI_OK);
    for (uint32_t page = 0; page < PAGES; page++) {
        kazovuni_record created = {0};
        kazovuni_record_decode(answers[page], &created);
        check("a create failed", created.status == KAZOVUNI_STATUS_SUCCESS);
        if (created.result == 0)
            continue; /* the page is as it was */
        messages[changed++] = (message){page, created.result == 1 ? created.delta_size : WHOLE};
    }
    return changed;
}

/* Sends the records, and the pages whose records would be longer than is worth it; answers how many bytes. */
static size_t send_changes(size_t changed)
{
    size_t sent = 0;
    for (size_t i = 0; i < changed; i++) {
        size_t place = (size_t)messages[i].page * PAGE, size = messages[i].delta_size;
        memcpy(arrived + place, size == WHOLE ? pool + place : records + place, size == WHOLE ? PAGE : size);
        sent += sizeof(message) + (size == WHOLE ? PAGE : size);
    }
    return sent;
}

/* Applies what arrived as a batch; the version behind the fence is set only where all of it was applied. */
static kazovuni_record apply_changes(kazovuni_engine *engine, size_t changed, uint64_t next)
{
    kazovuni_region table[] = {{POOL, replica, SIZE}, {VERSION, version, PAGE}, {RECORDS, arrived, SIZE}};
    uint8_t bytes[KAZOVUNI_RECORD_BYTES];
    kazovuni_record batch = {0};
    kazovuni_job last = {.opcode = KAZOVUNI_OP_FILL, .flags = KAZOVUNI_FLAG_FENCE, .source = next, .target = VERSION,
                         .size = 1};
    for (size_t i = 0; i < changed; i++) {
        uint64_t place = (uint64_t)messages[i].page * PAGE;
        kazovuni_job job = {.opcode = KAZOVUNI_OP_APPLY_DELTA, .source = RECORDS + place, .target = POOL + place,
                            .size = PAGE, .delta_size = messages[i].delta_size};
        if (messages[i].delta_size == WHOLE)
            job.opcode = KAZOVUNI_OP_MOVE;
        check("a job", kazovuni_encode(&job, descriptors[i]));
    }
    check("the version", kazovuni_encode(&last, descriptors[changed]));
    size_t jobs = changed + 1;
    uint8_t code = kazovuni_submit_batch_at(engine, table, 3, descriptors, jobs, answers, jobs, bytes);
    check("the batch", code == KAZOVUNI_OK);
    kazovuni_record_decode(bytes, &batch);
    return batch;
}

int main(void)
{
    kazovuni_engine engine = {0};
    pool = pages(), snapshot = pages(), records = pages(), replica = pages(), arrived = pages();
    check("no engine", kazovuni_create_staging(&engine, 10 * PAGE / 8) == KAZOVUNI_OK); /* enough for a page's create */
    work();

    size_t changed = find_changes(&engine), sent = send_changes(changed);
    printf("%zu of %d pages changed, %zu bytes sent\n", changed, PAGES, sent);
    kazovuni_record batch = apply_changes(&engine, changed, 1);
    printf("batch: status %02x, %u jobs, the version is %d\n", batch.status, (unsigned)batch.completed, version[0]);
    bool are_equal = memcmp(replica, pool, SIZE) == 0;
    printf("the replica %s the pool\n", are_equal ? "is" : "is not");

    messages[0].delta_size = 15; /* a record that lost bytes on its way: it is no whole entries */
    batch = apply_changes(&engine, changed, 2);
    printf("batch: status %02x, %u jobs, the version is %d\n", batch.status, (unsigned)batch.completed, version[0]);
    kazovuni_free(&engine);
    free(pool), free(snapshot), free(records), free(replica), free(arrived);
    return are_equal && batch.status == KAZOVUNI_STATUS_BATCH_FAILED && version[0] == 1 ? 0 : 1;
}
