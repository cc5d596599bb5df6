// Jobs over an image: refusals, the eight operations, batches. Each function retells a rule of docs/PROFILE.md.
#include "jobs.h"

#include <stdlib.h>
#include <string.h>

bool has(const struct image *image, whole address) {
    return address < (whole)image->pages * PAGE && image->present[address / PAGE];
}

// ---- descriptors

static uint64_t field(const uint8_t *bytes, int length) {
    uint64_t number = 0;
    for (int i = length - 1; i >= 0; i--)
        number = number << 8 | bytes[i];
    return number;
}

struct job decoded(const uint8_t bytes[64]) {
    struct job job = {0};
    job.flags = (uint32_t)field(bytes + 4, 3);
    job.opcode = bytes[7];
    job.source = field(bytes + 16, 8);
    job.target = field(bytes + 24, 8);
    job.size = (uint32_t)field(bytes + 32, 4);
    if (job.opcode == CREATE || job.opcode == DUALCAST)
        job.extra = field(bytes + 40, 8);
    if (job.opcode == APPLY)
        job.delta_size = (uint32_t)field(bytes + 40, 4);
    if (job.opcode == CREATE) {
        job.delta_size = (uint32_t)field(bytes + 48, 4);
        job.expected = bytes[56];
    }
    if (job.opcode == COMPARE || job.opcode == COMPARE_PATTERN)
        job.expected = bytes[40];
    return job;
}

// ---- refusals

struct range {
    uint64_t start, length;
};

static whole end_of(struct range range) {
    return (whole)range.start + range.length;
}

static bool share(struct range a, struct range b) {
    return a.length > 0 && b.length > 0 && a.start < end_of(b) && b.start < end_of(a);
}

// The ranges that a job reads and writes, however far it comes; answers how many.
static int ranges_of(const struct job *job, struct range ranges[3]) {
    struct range source = {job->source, job->size}, target = {job->target, job->size};
    struct range second = {job->extra, job->size}, record = {job->extra, job->delta_size};
    struct range read_record = {job->source, job->delta_size};
    switch (job->opcode) {
    case MOVE: case COMPARE:
        ranges[0] = source, ranges[1] = target;
        return 2;
    case FILL:
        ranges[0] = target;
        return 1;
    case COMPARE_PATTERN:
        ranges[0] = source;
        return 1;
    case CREATE:
        ranges[0] = source, ranges[1] = target, ranges[2] = record;
        return 3;
    case APPLY:
        ranges[0] = read_record, ranges[1] = target;
        return 2;
    case DUALCAST:
        ranges[0] = source, ranges[1] = target, ranges[2] = second;
        return 3;
    default:
        return 0;
    }
}

uint64_t need(const struct job *job) {
    switch (job->opcode) {
    case MOVE: case DUALCAST:
        return job->size;
    case CREATE:
        return 10 * (uint64_t)(job->size / 8);
    case APPLY:
        return job->delta_size;
    default:
        return 0;
    }
}

static bool has_bad_size(const struct job *job) {
    if (job->opcode == CREATE || job->opcode == APPLY)
        return job->size > 0x80000 || job->size % 8 != 0;
    return job->size > 1048576;
}

static bool has_bad_delta_size(const struct job *job) {
    uint32_t least = job->opcode == CREATE ? 10 : 0;
    return (job->opcode == CREATE || job->opcode == APPLY) &&
           (job->delta_size % 10 != 0 || job->delta_size < least || job->delta_size > 655360);
}

static bool is_misaligned(const struct job *job) {
    return (job->opcode == CREATE && (job->source % 8 != 0 || job->target % 8 != 0)) ||
           (job->opcode == APPLY && job->target % 8 != 0);
}

static bool has_overlap(const struct job *job) {
    struct range r[3];
    ranges_of(job, r);
    switch (job->opcode) {
    case DUALCAST:
        return share(r[0], r[1]) || share(r[0], r[2]) || share(r[1], r[2]);
    case CREATE:
        return share(r[2], r[0]) || share(r[2], r[1]);
    case APPLY:
        return share(r[0], r[1]);
    default:
        return false;
    }
}

static bool has_range_past(const struct job *job) {
    struct range ranges[3];
    int count = ranges_of(job, ranges);
    for (int i = 0; i < count; i++)
        if (end_of(ranges[i]) > (whole)1 << 64)
            return true;
    return false;
}

uint8_t refusal(const struct job *job, uint64_t staging, bool in_batch) {
    uint32_t accepted = 0x02 | 0x04 | 0x08 | 0x80 | 0x100;
    if (in_batch)
        accepted |= FLAG_FENCE;
    if (job->opcode != NO_OP && (job->opcode < MOVE || job->opcode > DUALCAST))
        return 0x10;
    if ((job->flags & ~accepted) != 0)
        return 0x11;
    if (job->opcode == NO_OP)
        return 0;
    if (has_bad_size(job))
        return 0x13;
    if (has_bad_delta_size(job))
        return 0x15;
    if (is_misaligned(job))
        return 0x1c;
    if (job->opcode == DUALCAST && (job->target & 0xfff) != (job->extra & 0xfff))
        return 0x17;
    if (has_overlap(job))
        return 0x16;
    if (has_range_past(job))
        return 0x7d;
    return need(job) > staging ? 0x7e : 0;
}

// ---- operations

static void *taken(size_t length) {
    void *room = malloc(length > 0 ? length : 1);
    if (room == NULL)
        abort();
    return room;
}

static void put(struct image *image, uint64_t address, const uint8_t *bytes, size_t length) {
    if (length > 0)
        memcpy(image->bytes + address, bytes, length);
}

static struct record faulted(uint8_t status, uint8_t result, uint32_t completed, whole fault) {
    return (struct record){status, result, completed, (uint64_t)fault, 0};
}

// The status of an ended job with this result, checked where the job asks for it.
static uint8_t judged(const struct job *job, uint8_t result) {
    if ((job->flags & FLAG_CHECK) == 0)
        return 0x01;
    if (job->opcode == CREATE)
        return (job->expected >> result & 1) != 0 ? 0x01 : 0x02;
    return job->expected == result ? 0x01 : 0x02;
}

static uint8_t pattern_byte(uint64_t pattern, uint32_t offset) {
    return (uint8_t)(pattern >> 8 * (offset % 8));
}

static struct record move(struct image *image, const struct job *job) {
    uint32_t n = job->size, k = 0;
    bool backward = job->source < job->target && job->target < (whole)job->source + n;
    struct record record = {0x01, backward, n, 0, 0};
    for (; k < n; k++) {
        uint32_t offset = backward ? n - 1 - k : k;
        whole source = (whole)job->source + offset, target = (whole)job->target + offset;
        if (!has(image, source)) {
            record = faulted(0x03, backward, k, source);
            break;
        }
        if (!has(image, target)) {
            record = faulted(0x83, backward, k, target);
            break;
        }
    }
    uint32_t first = backward ? n - k : 0;
    if (k > 0) {
        uint8_t *bytes = taken(k);
        memcpy(bytes, image->bytes + job->source + first, k);
        put(image, job->target + first, bytes, k);
        free(bytes);
    }
    return record;
}

static struct record fill(struct image *image, const struct job *job) {
    for (uint32_t k = 0; k < job->size; k++) {
        whole target = (whole)job->target + k;
        if (!has(image, target))
            return faulted(0x83, 0, k, target);
        image->bytes[target] = pattern_byte(job->source, k);
    }
    return (struct record){0x01, 0, job->size, 0, 0};
}

static struct record compare(const struct image *image, const struct job *job) {
    bool by_pattern = job->opcode == COMPARE_PATTERN;
    for (uint32_t k = 0; k < job->size; k++) {
        whole first = (whole)job->source + k, second = (whole)job->target + k;
        if (!has(image, first))
            return faulted(0x03, 0, k, first);
        if (!by_pattern && !has(image, second))
            return faulted(0x03, 0, k, second);
        uint8_t other = by_pattern ? pattern_byte(job->target, k) : image->bytes[second];
        if (image->bytes[first] != other)
            return (struct record){judged(job, 1), 1, k, 0, 0};
    }
    return (struct record){judged(job, 0), 0, job->size, 0, 0};
}

static struct record dualcast(struct image *image, const struct job *job) {
    uint32_t k = 0;
    struct record record = {0x01, 0, job->size, 0, 0};
    for (; k < job->size && record.status == 0x01; k++) {
        whole source = (whole)job->source + k, first = (whole)job->target + k, second = (whole)job->extra + k;
        if (!has(image, source))
            record = faulted(0x03, 0, k, source);
        else if (!has(image, first))
            record = faulted(0x83, 0, k, first);
        else if (!has(image, second))
            record = faulted(0x83, 0, k, second);
    }
    if (record.completed > 0) {
        uint8_t *bytes = taken(record.completed);
        memcpy(bytes, image->bytes + job->source, record.completed);
        put(image, job->target, bytes, record.completed);
        put(image, job->extra, bytes, record.completed);
        free(bytes);
    }
    return record;
}

// The first absent byte of a range, or its end where all are present.
static whole first_absent(const struct image *image, whole start, uint32_t length) {
    whole address = start;
    while (address < start + length && has(image, address))
        address++;
    return address;
}

// Entry `number`, of block b, stands at `place`. Where it may not, the record says why.
static bool is_written(struct image *image, const struct job *job, uint32_t number, uint32_t b, struct record *record) {
    whole place = (whole)job->extra + 10 * (whole)number;
    whole absent = first_absent(image, place, 10);
    if (10 * (uint64_t)(number + 1) > job->delta_size) {
        *record = (struct record){judged(job, 2), 2, 8 * b, 0, 10 * number};
        return false;
    }
    if (absent < place + 10) {
        *record = (struct record){0x83, 0, 8 * b, (uint64_t)absent, 10 * number};
        return false;
    }
    uint8_t entry[10] = {(uint8_t)b, (uint8_t)(b >> 8)};
    memcpy(entry + 2, image->bytes + job->target + 8 * (uint64_t)b, 8);
    put(image, (uint64_t)place, entry, 10); // the record shares no byte with a source
    return true;
}

static struct record create(struct image *image, const struct job *job) {
    struct record record;
    uint32_t entries = 0;
    for (uint32_t b = 0; b < job->size / 8; b++) {
        for (uint32_t i = 8 * b; i < 8 * b + 8; i++) {
            whole first = (whole)job->source + i, second = (whole)job->target + i;
            if (!has(image, first) || !has(image, second)) {
                whole fault = has(image, first) ? second : first;
                return (struct record){0x03, 0, 8 * b, (uint64_t)fault, 10 * entries};
            }
        }
        if (memcmp(image->bytes + job->source + 8 * (uint64_t)b, image->bytes + job->target + 8 * (uint64_t)b, 8) == 0)
            continue;
        if (!is_written(image, job, entries, b, &record))
            return record;
        entries++;
    }
    uint8_t result = entries > 0 ? 1 : 0;
    return (struct record){judged(job, result), result, job->size, 0, 10 * entries};
}

static struct record apply(struct image *image, const struct job *job) {
    int64_t before = -1; // the offset of the entry before
    for (uint32_t x = 0; x < job->delta_size / 10; x++) {
        whole entry = (whole)job->source + 10 * (whole)x, absent = first_absent(image, entry, 10);
        if (absent < entry + 10)
            return faulted(0x03, 0, 10 * x, absent);
        int64_t offset = (int64_t)field(image->bytes + (uint64_t)entry, 2);
        if (offset <= before)
            return faulted(0x07, 0, 10 * x, 0);
        if (offset >= job->size / 8)
            return faulted(0x08, 0, 10 * x, 0);
        whole block = (whole)job->target + 8 * (whole)offset;
        absent = first_absent(image, block, 8);
        if (absent < block + 8)
            return faulted(0x83, 0, 10 * x, absent);
        put(image, (uint64_t)block, image->bytes + (uint64_t)entry + 2, 8); // the record shares no byte with it
        before = offset;
    }
    return (struct record){0x01, 0, job->delta_size, 0, 0};
}

struct record step(struct image *image, const struct job *job, uint64_t staging, bool in_batch) {
    uint8_t refused = refusal(job, staging, in_batch);
    if (refused != 0)
        return (struct record){refused, 0, 0, 0, 0};
    switch (job->opcode) {
    case MOVE:
        return move(image, job);
    case FILL:
        return fill(image, job);
    case COMPARE: case COMPARE_PATTERN:
        return compare(image, job);
    case CREATE:
        return create(image, job);
    case APPLY:
        return apply(image, job);
    case DUALCAST:
        return dualcast(image, job);
    default:
        return (struct record){0x01, 0, 0, 0, 0};
    }
}

// ---- batches

struct record batch_step(struct batch *batch, struct image *image, const struct job *job, uint64_t staging) {
    if ((job->flags & FLAG_FENCE) != 0 && batch->has_failed)
        batch->is_abandoned = true;
    if (batch->is_abandoned)
        return (struct record){0x00, 0, 0, 0, 0};
    struct record record = step(image, job, staging, true);
    batch->completed++;
    if (record.status != 0x01)
        batch->has_failed = true;
    return record;
}
