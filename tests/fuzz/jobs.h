// Jobs over an image, as docs/PROFILE.md has them.
#ifndef JOBS_H
#define JOBS_H

#include <stdbool.h>
#include <stdint.h>

enum { PAGE = 4096, MOST_PAGES = 4096 };

// Whole numbers: a range may end at 2^64 and above, and nothing wraps.
__extension__ typedef unsigned __int128 whole;

struct image {
    uint32_t pages;
    bool present[MOST_PAGES];
    uint8_t *bytes; // PAGE for each page; 0 where a byte is absent
};

struct job {
    uint8_t opcode;
    uint32_t flags;
    uint64_t source, target;
    uint32_t size;
    uint64_t extra;
    uint32_t delta_size;
    uint8_t expected;
};

struct record {
    uint8_t status, result;
    uint32_t completed;
    uint64_t fault;
    uint32_t delta_size;
};

enum opcode {
    NO_OP = 0x00, MOVE = 0x03, FILL = 0x04, COMPARE = 0x05, COMPARE_PATTERN = 0x06, CREATE = 0x07, APPLY = 0x08,
    DUALCAST = 0x09
};

enum { FLAG_FENCE = 0x01, FLAG_CHECK = 0x80 };
enum { LARGEST_STAGING = 16777216, LARGEST_CHUNK = 1048576, MOST_WORKERS = 16, MOST_JOBS = 1024 };

bool has(const struct image *image, whole address);
struct job decoded(const uint8_t bytes[64]);
uint64_t need(const struct job *job);
// The status of the first rule that a job breaks, or 0.
uint8_t refusal(const struct job *job, uint64_t staging, bool in_batch);
// Carries out a job on the image; answers its record.
struct record step(struct image *image, const struct job *job, uint64_t staging, bool in_batch);

// A batch as it goes on, job by job.
struct batch {
    bool has_failed, is_abandoned;
    uint32_t completed;
};
struct record batch_step(struct batch *batch, struct image *image, const struct job *job, uint64_t staging);

#endif
