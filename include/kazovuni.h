/*
 * Kazovuni: the jobs of Intel's data streaming accelerator in software, straight over the caller's own buffers, over
 * whole pages of the caller's in one piece or in regions, or over an image of its own behind a handle.
 *
 * A job is a descriptor of 64 bytes and answers a completion record of 32, both laid out as linux/idxd.h has them; all
 * numbers are little-endian. No function has a precondition but that its pointers are valid for the bytes named (of
 * kazovuni_execute also those in the descriptor of an accepted job), and that memory which is written is passed once
 * only. A pointer with a length or a number of 0 may be NULL; one to a handle, a descriptor, a record or a struct may
 * not, not even in kazovuni_free. Each answers a code where something may be wrong with the call itself; what is wrong
 * with a job stands in its completion record. docs/C.md says all of it.
 *
 * Threads: what a call is passed as const may be read by any number of calls and threads at once, as long as nobody
 * writes it; all else that it is passed, its record and its handle too, counts as written for its whole length,
 * whatever the job touches, and no other thread, process or device may touch any of it meanwhile. Over buffers of the
 * caller's that is a job's own written ranges alone; over whole pages it is all of their bytes, which have to be
 * writable, for a compare too. A descriptor in memory that others can write is to be copied first: some calls read it
 * more than once. A handle may be handed to another thread: one call at a time is made with it, and a lock, a thread's
 * start or join, or a sequentially consistent atomic stands between the calls of two threads.
 *
 * Descriptors, records and the bytes that jobs work on need no alignment but what a job's rules ask of its addresses.
 * The completion address of a descriptor is read past: its record goes where the call is told.
 */
#ifndef KAZOVUNI_H
#define KAZOVUNI_H

#include <stdbool.h>
#include <stddef.h>
#include <stdint.h>
#include <string.h>

#ifdef __cplusplus
extern "C" {
#endif

/*
 * This header's version: the major number in the upper 16 bits, the minor one in the lower. A library fits where its
 * kazovuni_version() has the same major number, and is no less.
 */
#define KAZOVUNI_VERSION UINT32_C(0x00010004)

#define KAZOVUNI_DESCRIPTOR_BYTES 64
#define KAZOVUNI_RECORD_BYTES 32
#define KAZOVUNI_PAGE_BYTES 4096
#define KAZOVUNI_MOST_PAGES 4096
#define KAZOVUNI_MOST_WHOLE_PAGES UINT32_C(4294967295) /* of memory in one piece */

#define KAZOVUNI_MOST_STAGING UINT32_C(16777216)
#define KAZOVUNI_MOST_REGIONS 64 /* of a table */

/* How this header's own functions are declared: a C++ program has each of them once, however many files include it. */
#ifdef __cplusplus
#define KAZOVUNI_INLINE inline
#define KAZOVUNI_CAST(type, value) static_cast<type>(value)
#else
#define KAZOVUNI_INLINE static inline
#define KAZOVUNI_CAST(type, value) ((type)(value))
#endif

/* What a call answers. Whatever is not KAZOVUNI_OK, nothing was changed. */
enum {
    KAZOVUNI_OK = 0,
    KAZOVUNI_NOT_PAGES = 1,    /* the bytes are not 1 to 4,096 whole pages of 4,096; in one piece: 1 to 2^32 - 1 */
    KAZOVUNI_NO_MEMORY = 2,    /* malloc gave no memory */
    KAZOVUNI_NOT_AS_MANY = 3,  /* there are not as many records as descriptors */
    KAZOVUNI_NO_ENGINE = 4,    /* the handle has no engine */
    KAZOVUNI_HAS_ENGINE = 5,   /* the handle has an engine already */
    KAZOVUNI_BAD_PAGES = 6,    /* an engine has 1 to 4,096 pages */
    KAZOVUNI_BAD_SETTINGS = 7, /* an engine has at most 16,777,216 bytes of staging */
    KAZOVUNI_NO_SUCH_PAGE = 8, /* the engine has no page of this number */
    KAZOVUNI_ABSENT = 9,       /* a byte of the range, or the page, is absent; or the range ends above 2^64 */
    KAZOVUNI_OTHER_OPERATION = 10, /* the descriptor's operation is another one than the call's */
    KAZOVUNI_OTHER_LENGTH = 11,    /* a buffer has another length than the job's range */
    KAZOVUNI_NO_REGIONS = 12,      /* the table of regions is empty */
    KAZOVUNI_TOO_MANY_REGIONS = 13, /* it has more than 64 */
    KAZOVUNI_BAD_LENGTH = 14,      /* a region has no byte, or no whole pages */
    KAZOVUNI_BAD_ADDRESS = 15,     /* a region's address is no multiple of 4,096 */
    KAZOVUNI_REGION_PAST = 16,     /* a region ends above 2^44 - 4,096 */
    KAZOVUNI_NOT_RISING = 17,      /* a region begins before the one in front of it ends */
    KAZOVUNI_TOO_MANY_JOBS = 18,   /* a batch has 2^32 jobs or more */
    KAZOVUNI_NULL_REGION = 19      /* a region's pointer is NULL, and its length is not 0 */
};

/* Opcodes: those of the operations that there are, and a batch's, which no single descriptor may have. */
enum {
    KAZOVUNI_OP_NO_OP = 0x00,
    KAZOVUNI_OP_BATCH = 0x01,
    KAZOVUNI_OP_MOVE = 0x03,
    KAZOVUNI_OP_FILL = 0x04,
    KAZOVUNI_OP_COMPARE = 0x05,
    KAZOVUNI_OP_COMPARE_PATTERN = 0x06,
    KAZOVUNI_OP_CREATE_DELTA = 0x07,
    KAZOVUNI_OP_APPLY_DELTA = 0x08,
    KAZOVUNI_OP_DUALCAST = 0x09
};

/* Flags of a descriptor; a job with another one is refused. */
enum {
    KAZOVUNI_FLAG_FENCE = 0x01,          /* in a batch alone: abandoned unless all jobs before it succeeded */
    KAZOVUNI_FLAG_BLOCK_ON_FAULT = 0x02, /* accepted, and without effect */
    KAZOVUNI_FLAG_ADDRESS_VALID = 0x04,  /* the completion address is one */
    KAZOVUNI_FLAG_REQUEST_RECORD = 0x08, /* a record is written there for a success too */
    KAZOVUNI_FLAG_CHECK_RESULT = 0x80,   /* a result that is not the expected one is 0x02 */
    KAZOVUNI_FLAG_CACHE_CONTROL = 0x100  /* accepted, and without effect */
};

/* The statuses of a completion record. The codes are those of linux/idxd.h, but for the library's own two. */
enum {
    KAZOVUNI_STATUS_ABANDONED = 0x00,       /* the job of a batch was abandoned at a fence */
    KAZOVUNI_STATUS_SUCCESS = 0x01,
    KAZOVUNI_STATUS_FALSE_PREDICATE = 0x02, /* done, and the result is not the expected one */
    KAZOVUNI_STATUS_READ_FAULT = 0x03,      /* a byte to be read is absent */
    KAZOVUNI_STATUS_BATCH_FAILED = 0x05,    /* some job of the batch has another status than 0x01 */
    KAZOVUNI_STATUS_NOT_RISING = 0x07,      /* the offsets of a delta record do not rise */
    KAZOVUNI_STATUS_OFFSET_RANGE = 0x08,    /* an offset of a delta record is out of range */
    KAZOVUNI_STATUS_BAD_OPCODE = 0x10,
    KAZOVUNI_STATUS_BAD_FLAGS = 0x11,
    KAZOVUNI_STATUS_BAD_SIZE = 0x13,
    KAZOVUNI_STATUS_BAD_DELTA_SIZE = 0x15,
    KAZOVUNI_STATUS_OVERLAP = 0x16,
    KAZOVUNI_STATUS_DUALCAST_BITS = 0x17,   /* a dualcast's targets differ in address bits 11:0 */
    KAZOVUNI_STATUS_MISALIGNED = 0x1c,
    KAZOVUNI_STATUS_RANGE_PAST = 0x7d,      /* own: a range ends above 2^64 */
    KAZOVUNI_STATUS_STAGING_REFUSED = 0x7e, /* own: the job needs more staging than there is */
    KAZOVUNI_STATUS_WRITE_FAULT = 0x83      /* a byte to be written is absent */
};

/*
 * A job, with the fields of a descriptor. Decoded, a field has 0 where its operation's descriptor has no place for it;
 * flags, source, target and size stand in every descriptor.
 */
typedef struct kazovuni_job {
    uint8_t opcode;
    uint8_t expected;
    uint32_t flags;
    uint64_t source;
    uint64_t target;
    uint64_t extra;
    uint32_t size;
    uint32_t delta_size;
} kazovuni_job;

/* A job's completion record, with the code of its status. */
typedef struct kazovuni_record {
    uint8_t status;
    uint8_t result;
    uint32_t completed;
    uint64_t fault;
    uint32_t delta_size;
} kazovuni_record;

/*
 * The handle of an engine: an image of pages that are present or absent, and its staging. It is zeroed before its first
 * call, and the caller never sets a field of it afterwards; kazovuni_free zeroes it again. Between calls it may be
 * copied to another place, and from then on one of the two copies alone is used. One call at a time.
 */
typedef struct kazovuni_engine {
    void *engine;
    bool is_open;
} kazovuni_engine;

/* A range of bytes that a job names. */
typedef struct kazovuni_range {
    uint64_t address;
    uint32_t length;
    bool is_written;
} kazovuni_range;

/* Whole pages of the caller's memory, and the address that jobs know their first byte by. */
typedef struct kazovuni_region {
    uint64_t address;
    uint8_t *bytes;
    size_t length;
} kazovuni_region;

/* The version of the library that is linked. */
uint32_t kazovuni_version(void);

/* 0 where the job is accepted with so many bytes of staging, else the status of the first rule that it breaks. */
uint8_t kazovuni_check(const uint8_t descriptor[64], uint32_t staging);

/* The bytes of staging that the job needs. */
uint64_t kazovuni_need(const uint8_t descriptor[64]);

/* The fields of a descriptor. */
kazovuni_job kazovuni_decode(const uint8_t descriptor[64]);

/* Writes the descriptor of a job: false, and nothing is written, where its flags do not fit 24 bits. */
bool kazovuni_encode(const kazovuni_job *job, uint8_t descriptor[64]);

/* Writes the bytes of a completion record: false, and nothing is written, where its status is the code of none. */
bool kazovuni_record_encode(const kazovuni_record *fields, uint8_t record[32]);

/* Reads a completion record: false, and nothing is written, where its first byte is the code of no status. */
bool kazovuni_record_decode(const uint8_t record[32], kazovuni_record *fields);

/*
 * Writes the descriptor of what is left of a job after a page fault, by the record that answered it: false, and nothing
 * is written, where nothing is left. Bytes of the descriptor without a meaning here, as PASID and the completion
 * address, are written as 0.
 */
bool kazovuni_rest(const uint8_t descriptor[64], const uint8_t record[32], uint8_t left[64]);

/*
 * Writes the ranges that a job names, those that it reads and then those that it writes, zeros behind them, and answers
 * how many there are. A refused job touches none of them, and a job may end before it comes to all of their bytes.
 */
uint32_t kazovuni_ranges(const void *descriptor, kazovuni_range ranges[3]);

/* Writes a descriptor's completion address: false, and nothing is written, where its flags say that it has none. */
bool kazovuni_completion(const void *descriptor, uint64_t *address);

/*
 * Jobs straight over the caller's own buffers. Each call carries out the job of a descriptor over the buffers that are
 * the ranges of its operation, and writes its completion record. A buffer may lie anywhere in the process, and is just
 * as long as its range: so no page fault comes up, nothing is staged, and no memory is asked for. One of no byte may
 * be NULL.
 *
 * What the descriptor has as addresses is judged by the rules and never followed: let them be those of the buffers, or
 * let kazovuni_execute, at the end of this header, take them from there. No buffer that is written may share a byte
 * with another one of the call, not even in a call whose job is refused; those that are read may be the same or
 * overlap.
 *
 * A refused job is answered KAZOVUNI_OK, with its record, whatever the buffers are. Else: KAZOVUNI_OTHER_OPERATION,
 * for a no-op too, or KAZOVUNI_OTHER_LENGTH, tested in this order; nothing is changed then, and no record is written.
 */
uint8_t kazovuni_compare(
    const uint8_t descriptor[64], const uint8_t *one, size_t one_length, const uint8_t *other, size_t other_length,
    uint8_t record[32]);

uint8_t kazovuni_compare_pattern(
    const uint8_t descriptor[64], const uint8_t *bytes, size_t length, uint8_t record[32]);

uint8_t kazovuni_fill(const uint8_t descriptor[64], uint8_t *target, size_t length, uint8_t record[32]);

uint8_t kazovuni_move(
    const uint8_t descriptor[64], const uint8_t *source, size_t source_length, uint8_t *target, size_t target_length,
    uint8_t record[32]);

/*
 * A move whose ranges may overlap: both lie in these bytes, which begin at the address `start`. Else
 * KAZOVUNI_OTHER_LENGTH.
 */
uint8_t kazovuni_move_within(
    const uint8_t descriptor[64], uint64_t start, uint8_t *bytes, size_t length, uint8_t record[32]);

uint8_t kazovuni_dualcast(
    const uint8_t descriptor[64], const uint8_t *source, size_t source_length, uint8_t *target, size_t target_length,
    uint8_t *second, size_t second_length, uint8_t record[32]);

/* `delta_length` is the descriptor's greatest size of a delta record; all of these bytes count as written. */
uint8_t kazovuni_create_delta(
    const uint8_t descriptor[64], const uint8_t *one, size_t one_length, const uint8_t *other, size_t other_length,
    uint8_t *delta, size_t delta_length, uint8_t record[32]);

uint8_t kazovuni_apply_delta(
    const uint8_t descriptor[64], const uint8_t *delta, size_t delta_length, uint8_t *target, size_t target_length,
    uint8_t record[32]);

/*
 * Carries out a job over the caller's bytes and writes its completion record. The descriptor's addresses are offsets:
 * the bytes begin at address 0, all of their pages are present, and no other page is. A refused job changes no byte.
 * `staging` is the most that a job may need (kazovuni_need): above it the job is refused with
 * KAZOVUNI_STATUS_STAGING_REFUSED. At most 16 MiB are passed, a window of what is larger, and all ranges of the job
 * have to lie in it: where they do not, kazovuni_submit_whole takes all of it, and docs/C.md says what else is left to
 * do. Neither the descriptor nor the record may lie in the bytes. KAZOVUNI_NOT_PAGES, or KAZOVUNI_NO_MEMORY.
 */
uint8_t kazovuni_submit_over(
    uint8_t *bytes, size_t length, const uint8_t descriptor[64], uint32_t staging, uint8_t record[32]);

/*
 * Carries out the jobs of some descriptors one after another, and writes the completion record of each. There are
 * `jobs` descriptors of 64 bytes and `answers` records of 32, each behind the other: of `uint8_t descriptors[8][64]`,
 * `(const uint8_t *)descriptors` is passed. KAZOVUNI_NOT_PAGES, KAZOVUNI_NOT_AS_MANY, or KAZOVUNI_NO_MEMORY.
 */
uint8_t kazovuni_submit_list_over(
    uint8_t *bytes, size_t length, const uint8_t *descriptors, size_t jobs, uint32_t staging, uint8_t *records,
    size_t answers);

/*
 * As kazovuni_submit_over, with the caller's own pointers as addresses: `base` is the address of the first byte, and
 * is taken off each address of the descriptor, and put back on the address of a page fault; both wrap at 2^64. Where
 * base and length together are at most 2^64, as those of real memory, an address below the base is past the end of the
 * pages: the job meets a page fault there as behind the end, or is refused with 0x7d where its range goes on over the
 * base. KAZOVUNI_NOT_PAGES, or KAZOVUNI_NO_MEMORY.
 */
uint8_t kazovuni_submit_pointers(
    uint64_t base, uint8_t *bytes, size_t length, const uint8_t descriptor[64], uint32_t staging,
    uint8_t record[32]);

/*
 * As kazovuni_submit_over, over memory in one piece of any size: 1 to 2^32 - 1 whole pages, so the ranges of a job may
 * lie anywhere in it, however far apart. A call goes over the ranges of its job alone, so its work does not grow with
 * the size; pages that no cache holds cost what they cost memmove, and some nanoseconds more. Memory that is mapped to
 * be read and written, and was not touched yet, may be passed. All of it is the library's alone until the call returns,
 * as said above: no other thread, no processor of a guest and no device may read or write a byte of it meanwhile.
 * KAZOVUNI_NOT_PAGES, or KAZOVUNI_NO_MEMORY.
 */
uint8_t kazovuni_submit_whole(
    uint8_t *bytes, size_t length, const uint8_t descriptor[64], uint32_t staging, uint8_t record[32]);

/*
 * As kazovuni_submit_list_over, over memory in one piece of any size: KAZOVUNI_NOT_PAGES, KAZOVUNI_NOT_AS_MANY, or
 * KAZOVUNI_NO_MEMORY.
 */
uint8_t kazovuni_submit_list_whole(
    uint8_t *bytes, size_t length, const uint8_t *descriptors, size_t jobs, uint32_t staging, uint8_t *records,
    size_t answers);

/*
 * Makes an engine with an image of so many pages, all absent, and takes its staging and room for a table of regions:
 * KAZOVUNI_HAS_ENGINE, KAZOVUNI_BAD_PAGES, KAZOVUNI_BAD_SETTINGS, tested in this order, or KAZOVUNI_NO_MEMORY.
 */
uint8_t kazovuni_create(kazovuni_engine *engine, uint32_t pages, uint32_t staging);

/*
 * The same for its staging and that room alone, as the calls below take them: its image is one absent page.
 * KAZOVUNI_HAS_ENGINE, KAZOVUNI_BAD_SETTINGS, tested in this order, or KAZOVUNI_NO_MEMORY.
 */
uint8_t kazovuni_create_staging(kazovuni_engine *engine, uint32_t staging);

/* Frees the engine, if there is one, and zeroes the handle's fields. */
void kazovuni_free(kazovuni_engine *engine);

/*
 * Makes a page present with these bytes; a page that is present is overwritten: KAZOVUNI_NO_ENGINE,
 * KAZOVUNI_NO_SUCH_PAGE, or KAZOVUNI_NO_MEMORY, which a page that is present never meets.
 */
uint8_t kazovuni_bring(kazovuni_engine *engine, uint32_t page, const uint8_t bytes[4096]);

/* Writes bytes into the image from an address on: KAZOVUNI_NO_ENGINE, or KAZOVUNI_ABSENT. */
uint8_t kazovuni_write(kazovuni_engine *engine, uint64_t address, const uint8_t *bytes, size_t length);

/* Reads bytes of the image from an address on: KAZOVUNI_NO_ENGINE, or KAZOVUNI_ABSENT. */
uint8_t kazovuni_read(kazovuni_engine *engine, uint64_t address, uint8_t *bytes, size_t length);

/*
 * Gives a page of the image up, with its memory; it is absent from then on, and may be brought again:
 * KAZOVUNI_NO_ENGINE, KAZOVUNI_NO_SUCH_PAGE, or KAZOVUNI_ABSENT, where it was absent.
 */
uint8_t kazovuni_evict(kazovuni_engine *engine, uint32_t page);

/*
 * Writes how many bytes of a range of the image come before the first absent one: KAZOVUNI_NO_ENGINE, or
 * KAZOVUNI_ABSENT, where the range ends above 2^64.
 */
uint8_t kazovuni_present(kazovuni_engine *engine, uint64_t address, uint32_t length, uint32_t *present);

/* Carries out a job on the image and writes its completion record: KAZOVUNI_NO_ENGINE. */
uint8_t kazovuni_submit(kazovuni_engine *engine, const uint8_t descriptor[64], uint8_t record[32]);

/*
 * Carries out the jobs of some descriptors one after another on the image, and writes the completion record of each,
 * both as in kazovuni_submit_list_over: KAZOVUNI_NO_ENGINE, or KAZOVUNI_NOT_AS_MANY.
 */
uint8_t kazovuni_submit_list(
    kazovuni_engine *engine, const uint8_t *descriptors, size_t jobs, uint8_t *records, size_t answers);

/*
 * The calls from here on take descriptors and records as void: 64 and 32 bytes each, one behind the other, of any type.
 *
 * Carries out a batch on the image: its jobs one after another, those with the fence too. One that has it is
 * abandoned, and so are all behind it, unless every job before it has status 0x01; an abandoned job changes nothing,
 * and its record is all zeros. Writes the record of each job, and the batch's own: 0x01 where all jobs that were
 * carried out have it, else 0x05, and how many these are. KAZOVUNI_NO_ENGINE, KAZOVUNI_NOT_AS_MANY, or
 * KAZOVUNI_TOO_MANY_JOBS.
 */
uint8_t kazovuni_submit_batch(
    kazovuni_engine *engine, const void *descriptors, size_t jobs, void *records, size_t answers, void *batch_record);

/*
 * As kazovuni_submit_whole, kazovuni_submit_list_whole and kazovuni_submit_batch, over memory of the caller's in one
 * piece of any size, with the staging of an engine: no memory is asked for, and the engine's own image stays as it is.
 * KAZOVUNI_NO_ENGINE, KAZOVUNI_NOT_PAGES, of the second and third KAZOVUNI_NOT_AS_MANY, of the third
 * KAZOVUNI_TOO_MANY_JOBS, tested in this order.
 */
uint8_t kazovuni_submit_in(
    kazovuni_engine *engine, uint8_t *bytes, size_t length, const void *descriptor, void *record);

uint8_t kazovuni_submit_list_in(
    kazovuni_engine *engine, uint8_t *bytes, size_t length, const void *descriptors, size_t jobs, void *records,
    size_t answers);

uint8_t kazovuni_submit_batch_in(
    kazovuni_engine *engine, uint8_t *bytes, size_t length, const void *descriptors, size_t jobs, void *records,
    size_t answers, void *batch_record);

/*
 * The same over regions of the caller's memory: the table says which address the first byte of each has. Regions may
 * touch, and a job may go over from one to the next; a page in none of them is absent. They may lie anywhere in the
 * process, in any order, but share no byte with each other, which no test sees, nor with the table, descriptors or
 * records. Each pointer is valid for its length. The table is as it was once the call returns. KAZOVUNI_NO_ENGINE;
 * KAZOVUNI_NO_REGIONS, KAZOVUNI_TOO_MANY_REGIONS, KAZOVUNI_NULL_REGION, and region by region KAZOVUNI_BAD_LENGTH,
 * KAZOVUNI_BAD_ADDRESS, KAZOVUNI_REGION_PAST, KAZOVUNI_NOT_RISING; of the second and third KAZOVUNI_NOT_AS_MANY, of the
 * third KAZOVUNI_TOO_MANY_JOBS; tested in this order, before anything is done. The room for the table is the engine's
 * own, so no memory is asked for; KAZOVUNI_NO_MEMORY would answer that it is gone.
 *
 * For NULL this header looks itself: behind these names stand its own functions, below, which call the library's. Who
 * calls the library's, from another language, passes no such region.
 */
uint8_t kazovuni_submit_at(
    kazovuni_engine *engine, kazovuni_region *regions, size_t count, const void *descriptor, void *record);

uint8_t kazovuni_submit_list_at(
    kazovuni_engine *engine, kazovuni_region *regions, size_t count, const void *descriptors, size_t jobs,
    void *records, size_t answers);

uint8_t kazovuni_submit_batch_at(
    kazovuni_engine *engine, kazovuni_region *regions, size_t count, const void *descriptors, size_t jobs,
    void *records, size_t answers, void *batch_record);

/* Whether a table that is not too long has a region whose pointer is NULL where its length is not 0. */
KAZOVUNI_INLINE bool kazovuni_has_null_region(const kazovuni_region *regions, size_t count)
{
    size_t i;
    if (count > KAZOVUNI_MOST_REGIONS)
        return false;
    for (i = 0; i < count; i++)
        if (regions[i].bytes == NULL && regions[i].length != 0)
            return true;
    return false;
}

/* The code of a table with such a region, where the call with an empty table answers this one. */
KAZOVUNI_INLINE uint8_t kazovuni_null_region_code(uint8_t code)
{
    return code == KAZOVUNI_NO_REGIONS ? KAZOVUNI_CAST(uint8_t, KAZOVUNI_NULL_REGION) : code;
}

KAZOVUNI_INLINE uint8_t kazovuni_checked_submit_at(
    kazovuni_engine *engine, kazovuni_region *regions, size_t count, const void *descriptor, void *record)
{
    if (kazovuni_has_null_region(regions, count))
        return kazovuni_null_region_code(kazovuni_submit_at(engine, regions, 0, descriptor, record));
    return kazovuni_submit_at(engine, regions, count, descriptor, record);
}

KAZOVUNI_INLINE uint8_t kazovuni_checked_submit_list_at(
    kazovuni_engine *engine, kazovuni_region *regions, size_t count, const void *descriptors, size_t jobs,
    void *records, size_t answers)
{
    if (kazovuni_has_null_region(regions, count))
        return kazovuni_null_region_code(
            kazovuni_submit_list_at(engine, regions, 0, descriptors, jobs, records, answers));
    return kazovuni_submit_list_at(engine, regions, count, descriptors, jobs, records, answers);
}

KAZOVUNI_INLINE uint8_t kazovuni_checked_submit_batch_at(
    kazovuni_engine *engine, kazovuni_region *regions, size_t count, const void *descriptors, size_t jobs,
    void *records, size_t answers, void *batch_record)
{
    if (kazovuni_has_null_region(regions, count))
        return kazovuni_null_region_code(
            kazovuni_submit_batch_at(engine, regions, 0, descriptors, jobs, records, answers, batch_record));
    return kazovuni_submit_batch_at(engine, regions, count, descriptors, jobs, records, answers, batch_record);
}

#define kazovuni_submit_at kazovuni_checked_submit_at
#define kazovuni_submit_list_at kazovuni_checked_submit_list_at
#define kazovuni_submit_batch_at kazovuni_checked_submit_batch_at

/* What stands in a descriptor at a place: a number, an address, and the pointer that it is. x86-64 has them so too. */
KAZOVUNI_INLINE uint32_t kazovuni_number_at(const uint8_t *place)
{
    uint32_t number;
    memcpy(&number, place, sizeof number);
    return number;
}

KAZOVUNI_INLINE uint64_t kazovuni_address_at(const uint8_t *place)
{
    uint64_t address;
    memcpy(&address, place, sizeof address);
    return address;
}

KAZOVUNI_INLINE uint8_t *kazovuni_pointer_at(const uint8_t *place)
{
    uintptr_t address = kazovuni_address_at(place);
#ifdef __cplusplus
    return reinterpret_cast<uint8_t *>(address);
#else
    return (uint8_t *)address;
#endif
}

/*
 * Writes a job's completion record at a place, as a device does: where the flags of its descriptor say that there is a
 * completion address, and either ask for a record or the status is not 0x01. That of an abandoned job, all zeros, is
 * written too, which is this library's own choice. The status byte is written last, with gcc and clang behind all
 * others also for other threads: who reads it by an acquiring load, and sees that it is no more what it was, may read
 * the rest. The place is what kazovuni_completion tells, as a pointer; it is no part of any running call. Answers
 * whether it is written.
 */
KAZOVUNI_INLINE bool kazovuni_put_record(const void *descriptor, const void *record, void *place)
{
    const uint8_t *from = KAZOVUNI_CAST(const uint8_t *, record);
    uint8_t *to = KAZOVUNI_CAST(uint8_t *, place);
    uint32_t flags = kazovuni_number_at(KAZOVUNI_CAST(const uint8_t *, descriptor) + 4);
    bool is_asked_for = (flags & KAZOVUNI_FLAG_REQUEST_RECORD) != 0 || from[0] != KAZOVUNI_STATUS_SUCCESS;
    if ((flags & KAZOVUNI_FLAG_ADDRESS_VALID) == 0 || !is_asked_for)
        return false;
    memcpy(to + 1, from + 1, KAZOVUNI_RECORD_BYTES - 1);
#if defined(__GNUC__)
    __atomic_store_n(to, from[0], __ATOMIC_RELEASE);
#else
    *KAZOVUNI_CAST(volatile uint8_t *, to) = from[0];
#endif
    return true;
}

/* A move by the descriptor's own addresses: where the ranges overlap, inside the buffer that both of them make up. */
KAZOVUNI_INLINE uint8_t kazovuni_execute_move(const uint8_t descriptor[64], uint8_t record[32])
{
    const uint8_t *from = descriptor + 16, *to = descriptor + 24, *lower;
    uint64_t source = kazovuni_address_at(from), target = kazovuni_address_at(to);
    uint64_t apart = source < target ? target - source : source - target;
    size_t size = kazovuni_number_at(descriptor + 32);
    if (apart >= size)
        return kazovuni_move(descriptor, kazovuni_pointer_at(from), size, kazovuni_pointer_at(to), size, record);
    lower = source < target ? from : to;
    return kazovuni_move_within(
        descriptor, kazovuni_address_at(lower), kazovuni_pointer_at(lower), apart + size, record);
}

/*
 * Carries out the job of a descriptor over the memory that its own addresses name, as a device does, and writes its
 * completion record. It answers KAZOVUNI_OK. The job is checked first, and no range of a refused one is touched: so
 * ranges that are written may be refused for sharing a byte with others, and those of a move may overlap. The ranges
 * of an accepted job have to be memory of the caller's: one that is not mapped is the process's own fault signal.
 * Neither the descriptor nor the record may lie in a range that is written, nor the record in any range; and whether
 * the job is refused or not, the two may not share a byte with each other.
 */
KAZOVUNI_INLINE uint8_t kazovuni_execute(const uint8_t descriptor[64], uint8_t record[32])
{
    const uint8_t *d = descriptor;
    size_t size = kazovuni_number_at(d + 32);
    if (kazovuni_check(d, 1048576u) != 0) /* a mebibyte of staging is enough for every job */
        return kazovuni_fill(d, NULL, 0, record); /* as any call, it answers the record of a refused job */
    switch (d[7]) {
    case 0x03:
        return kazovuni_execute_move(d, record);
    case 0x04:
        return kazovuni_fill(d, kazovuni_pointer_at(d + 24), size, record);
    case 0x05:
        return kazovuni_compare(d, kazovuni_pointer_at(d + 16), size, kazovuni_pointer_at(d + 24), size, record);
    case 0x06:
        return kazovuni_compare_pattern(d, kazovuni_pointer_at(d + 16), size, record);
    case 0x07:
        return kazovuni_create_delta(
            d, kazovuni_pointer_at(d + 16), size, kazovuni_pointer_at(d + 24), size, kazovuni_pointer_at(d + 40),
            kazovuni_number_at(d + 48), record);
    case 0x08:
        return kazovuni_apply_delta(
            d, kazovuni_pointer_at(d + 16), kazovuni_number_at(d + 40), kazovuni_pointer_at(d + 24), size, record);
    case 0x09:
        return kazovuni_dualcast(
            d, kazovuni_pointer_at(d + 16), size, kazovuni_pointer_at(d + 24), size, kazovuni_pointer_at(d + 40), size,
            record);
    default: /* the no-op, which is a success */
        memset(record, 0, KAZOVUNI_RECORD_BYTES);
        record[0] = 0x01;
        return KAZOVUNI_OK;
    }
}

#ifdef __cplusplus
}
#endif

#endif
