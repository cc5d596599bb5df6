/*
 * A monitor of virtual machines as the device of its guest: the guest puts descriptors on a ring in its own memory, and
 * reads the records at their completion addresses. One of them is a batch, one touches memory that the guest gave back,
 * which the monitor lends it again where a job stops there.
 *
 *     cc -o monitor monitor.c $(pkg-config --cflags --libs kazovuni)
 *
 * The guest stands still meanwhile: what it reads and writes while a call runs is not part of what is promised.
 */
#include "kazovuni.h"

#include <linux/idxd.h>
#include <stdio.h>
#include <stdlib.h>

enum { PAGE = KAZOVUNI_PAGE_BYTES, PAGES = 64, RING = 4, MOST_BATCH = 8 };

/* The guest's addresses: memory below and above a hole, and a page of the hole that it gave back. */
#define LOW UINT64_C(0)
#define BALLOON (LOW + PAGES * PAGE)
#define HIGH UINT64_C(0x100000000)
#define RING_PLACE UINT64_C(0x1000)
#define LIST_PLACE UINT64_C(0x2000)
#define RECORDS UINT64_C(0x3000)

static kazovuni_region table[3]; /* in rising order: the balloon's page comes between the other two */
static size_t regions = 2;

static void check(const char *what, bool holds)
{
    if (holds)
        return;
    fprintf(stderr, "monitor: %s\n", what);
    exit(1);
}

static uint8_t *pages(size_t count)
{
    uint8_t *bytes = calloc(count, PAGE);
    return check("no memory", bytes != NULL), bytes;
}

/* The pointer of bytes of the guest's, or NULL where they do not lie in one region. */
static uint8_t *guest(uint64_t address, size_t length)
{
    for (size_t i = 0; i < regions; i++) {
        uint64_t place = address - table[i].address;
        if (place < table[i].length && length <= table[i].length - place)
            return table[i].bytes + place;
    }
    return NULL;
}

/* Writes a record where the guest asked for it. */
static void complete(const struct dsa_hw_desc *descriptor, const uint8_t record[KAZOVUNI_RECORD_BYTES])
{
    uint64_t address;
    uint8_t *place = kazovuni_completion(descriptor, &address) ? guest(address, KAZOVUNI_RECORD_BYTES) : NULL;
    if (place)
        kazovuni_put_record(descriptor, record, place);
}

/* A job alone: where it stops at the balloon's page, that is lent, and the rest carried out. */
static void answer_job(kazovuni_engine *engine, const struct dsa_hw_desc *descriptor)
{
    uint8_t left[KAZOVUNI_DESCRIPTOR_BYTES], record[KAZOVUNI_RECORD_BYTES];
    kazovuni_record fields = {0};
    check("a job", kazovuni_submit_at(engine, table, regions, descriptor, record) == KAZOVUNI_OK);
    kazovuni_record_decode(record, &fields);
    if (fields.fault / PAGE == BALLOON / PAGE && kazovuni_rest((const uint8_t *)descriptor, record, left)) {
        uint32_t done = fields.completed;
        printf("monitor: status %02x at %#llx, %u bytes done\n", fields.status, (unsigned long long)fields.fault, done);
        table[2] = table[regions - 1]; /* the page becomes memory of the guest's again */
        table[1] = (kazovuni_region){BALLOON, pages(1), PAGE};
        regions = 3;
        check("the rest", kazovuni_submit_at(engine, table, regions, left, record) == KAZOVUNI_OK);
        kazovuni_record_decode(record, &fields);
        fields.completed += done;
        check("its record", kazovuni_record_encode(&fields, record));
    }
    complete(descriptor, record);
}

/* A batch: its list is copied out of the guest's memory first. */
static void answer_batch(kazovuni_engine *engine, const struct dsa_hw_desc *batch)
{
    struct dsa_hw_desc list[MOST_BATCH];
    uint8_t records[MOST_BATCH][KAZOVUNI_RECORD_BYTES], record[KAZOVUNI_RECORD_BYTES];
    size_t jobs = batch->desc_count;
    const uint8_t *from = jobs <= MOST_BATCH ? guest(batch->desc_list_addr, jobs * sizeof *list) : NULL;
    check("a batch", from != NULL);
    memcpy(list, from, jobs * sizeof *list);
    check("its jobs",
          kazovuni_submit_batch_at(engine, table, regions, list, jobs, records, jobs, record) == KAZOVUNI_OK);
    for (size_t i = 0; i < jobs; i++)
        complete(&list[i], records[i]);
    complete(batch, record);
}

/* A descriptor of the guest's whose record is the n-th. */
static struct dsa_hw_desc job(uint8_t opcode, uint64_t source, uint64_t target, uint32_t size, int n)
{
    struct dsa_hw_desc descriptor = {.opcode = opcode, .flags = IDXD_OP_FLAG_CRAV | IDXD_OP_FLAG_RCR};
    descriptor.completion_addr = RECORDS + (uint64_t)n * KAZOVUNI_RECORD_BYTES;
    descriptor.src_addr = source, descriptor.dst_addr = target, descriptor.xfer_size = size;
    return descriptor;
}

/* What the guest puts on its ring: a fill, a move over the hole, a batch, a fill that comes to the balloon's page. */
static void run_guest(void)
{
    struct dsa_hw_desc ring[RING], list[3];
    ring[0] = job(DSA_OPCODE_MEMFILL, 0x1111111111111111, LOW + 0x8000, 3 * PAGE, 0);
    ring[1] = job(DSA_OPCODE_MEMMOVE, LOW + 0x8000, HIGH + 100, 3 * PAGE, 1);
    ring[2] = job(DSA_OPCODE_BATCH, LIST_PLACE, 0, 3, 2);
    ring[3] = job(DSA_OPCODE_MEMFILL, 0x2222222222222222, BALLOON - 100, 200, 3);
    list[0] = job(DSA_OPCODE_MEMMOVE, LOW + 0x8000, LOW + 0x20000, PAGE, 4);
    list[1] = job(DSA_OPCODE_MEMMOVE, BALLOON, LOW + 0x21000, PAGE, 5); /* meets a page fault */
    list[2] = job(DSA_OPCODE_MEMFILL, 0x3333333333333333, LOW + 0x20000, PAGE, 6);
    list[2].flags |= IDXD_OP_FLAG_FENCE; /* so this one is abandoned */
    memcpy(guest(RING_PLACE, sizeof ring), ring, sizeof ring);
    memcpy(guest(LIST_PLACE, sizeof list), list, sizeof list);
}

int main(void)
{
    static const uint8_t wanted[] = {1, 1, 5, 1, 1, 3, 0}; /* of the records, one behind the other */
    kazovuni_engine engine = {0};
    table[0] = (kazovuni_region){LOW, pages(PAGES), PAGES * PAGE};
    table[1] = (kazovuni_region){HIGH, pages(PAGES), PAGES * PAGE};
    check("no engine", kazovuni_create_staging(&engine, 1 << 20) == KAZOVUNI_OK);
    run_guest();
    for (size_t i = 0; i < RING; i++) {
        struct dsa_hw_desc descriptor; /* a copy: some calls read a descriptor twice */
        memcpy(&descriptor, guest(RING_PLACE + i * sizeof descriptor, sizeof descriptor), sizeof descriptor);
        descriptor.opcode == DSA_OPCODE_BATCH ? answer_batch(&engine, &descriptor) : answer_job(&engine, &descriptor);
    }
    for (uint64_t n = 0; n < sizeof wanted; n++) {
        kazovuni_record fields = {0};
        check("a record", kazovuni_record_decode(guest(RECORDS + 32 * n, 32), &fields) && fields.status == wanted[n]);
        printf("record %d: status %02x, %u done\n", (int)n, fields.status, (unsigned)fields.completed);
    }
    printf("bytes: %02x %02x %02x %02x\n", *guest(HIGH + 100, 1), *guest(LOW + 0x20000, 1), *guest(BALLOON + 99, 1),
           *guest(BALLOON + 100, 1));
    kazovuni_free(&engine);
    for (size_t i = 0; i < regions; i++)
        free(table[i].bytes);
    return 0;
}
