// An evaluator of scripts and descriptors that shares nothing with the program: it was written from docs/PROFILE.md,
// which it follows rule by rule, byte by byte and one job after another, with no chunk, level or worker.
#ifndef EVALUATOR_H
#define EVALUATOR_H

#include <stddef.h>
#include <stdint.h>

// Bytes that grow.
struct text {
    char *bytes;
    size_t length, room;
};

void text_clear(struct text *text);
void text_bytes(struct text *text, const void *bytes, size_t length);
void text_format(struct text *text, const char *format, ...) __attribute__((format(printf, 2, 3)));

struct settings {
    uint64_t staging, chunk, workers;
};

// What a call of the program leaves: its standard output, its standard error and its exit status.
struct answer {
    struct text out, err;
    int status;
};

// How often each status of a job, each of a batch and each kind of fault came up, for a report.
enum { FAULT_KINDS = 14 }; // the kinds of a script's faults, and last a script that is too long
struct tally {
    uint64_t job[256], batch[256], fault[FAULT_KINDS];
    uint64_t long_lists, wide_lists; // of more jobs than one list has; worth two workers and more
    uint64_t fenced_batches, ended_batches; // worth two workers, with a fence behind the first job; that end at one
};
extern const char *const fault_texts[FAULT_KINDS];

void evaluate_run(const char *script, size_t length, const struct settings *settings, struct answer *answer,
                  struct tally *tally);
void evaluate_decode(const char *hex, struct answer *answer);

#endif
