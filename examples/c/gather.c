/*
 * A list of jobs as a loop of calls: a packet is put together from pieces that lie in different places of the program,
 * each job after the one before, up to the first that does not end well.
 *
 *     cc -o gather gather.c $(pkg-config --cflags --libs kazovuni)
 */
#include "kazovuni.h"

#include <linux/idxd.h>
#include <stdio.h>
#include <stdlib.h>
#include <string.h>

enum { HEADER = 14, PAYLOAD = 100, PADDING = 10, TRAILER = 4, PACKET = HEADER + PAYLOAD + PADDING + TRAILER };
enum { JOBS = 6 };

static const uint8_t header[HEADER] = {'f', 'r', 'o', 'm', ' ', 'h', 'e', 'r', 'e', ' ', 'o', 'n', ':', ' '};

static struct dsa_hw_desc move(uint8_t *target, const uint8_t *source, uint32_t size)
{
    return (struct dsa_hw_desc){.opcode = DSA_OPCODE_MEMMOVE, .src_addr = (uintptr_t)source,
                                .dst_addr = (uintptr_t)target, .xfer_size = size};
}

/* A compare that ends well only where the two ranges are alike. */
static struct dsa_hw_desc expect_alike(const uint8_t *one, const uint8_t *other, uint32_t size)
{
    return (struct dsa_hw_desc){.opcode = DSA_OPCODE_COMPARE, .flags = IDXD_OP_FLAG_CR,
                                .src_addr = (uintptr_t)one, .src2_addr = (uintptr_t)other, .xfer_size = size};
}

/* Carries the jobs out one after another, up to the first that does not end well; answers how many did. */
static size_t execute_all(const struct dsa_hw_desc *jobs, struct dsa_completion_record *records, size_t count)
{
    for (size_t i = 0; i < count; i++) {
        kazovuni_execute((const uint8_t *)&jobs[i], (uint8_t *)&records[i]);
        if (records[i].status != DSA_COMP_SUCCESS)
            return i;
    }
    return count;
}

int main(void)
{
    uint8_t *payload = malloc(PAYLOAD), *packet = malloc(PACKET), trailer[TRAILER] = "end.";
    if (!payload || !packet)
        return 1;
    memset(payload, 'x', PAYLOAD);

    uint8_t *text = packet + HEADER, *padding = text + PAYLOAD, *end = padding + PADDING;
    const struct dsa_hw_desc jobs[JOBS] = {
        move(packet, header, HEADER),
        move(text, payload, PAYLOAD),
        {.opcode = DSA_OPCODE_MEMFILL, .pattern = 0x2e2e2e2e2e2e2e2e, .dst_addr = (uintptr_t)padding,
         .xfer_size = PADDING},
        move(end, trailer, TRAILER),
        expect_alike(payload, text, PAYLOAD),
        expect_alike(header, end - HEADER, HEADER), /* this one does not end well */
    };
    struct dsa_completion_record records[JOBS] = {0};
    size_t done = execute_all(jobs, records, JOBS);
    for (size_t i = 0; i < done; i++)
        printf("job %zu: %u bytes\n", i, records[i].bytes_completed);
    printf("job %zu: status %02x\n", done, records[done < JOBS ? done : 0].status);
    printf("%.*s...%.*s\n", HEADER + 3, (char *)packet, PADDING + TRAILER, (char *)padding);

    int is_right = done == 5 && memcmp(end, trailer, TRAILER) == 0 && memcmp(text, payload, PAYLOAD) == 0;
    free(payload), free(packet);
    return is_right ? 0 : 1;
}
