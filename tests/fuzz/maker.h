// How a random script is made: what has been said so far, and the pieces that lines are made of.
#ifndef MAKER_H
#define MAKER_H

#include "evaluator.h"
#include "jobs.h"

#include <stdbool.h>

enum { LONGEST_SCRIPT = 4194304, LONGEST_LINE = 16384 };

struct maker {
    uint64_t state, base, last, pattern;
    uint32_t pages;
    bool is_in_batch;
    bool is_in_list; // in a long list: no line but those of jobs
    bool is_free;    // no job is fenced
    bool is_fenced;  // a job in four is, for batches that are worth workers
    bool is_plain;   // single spaces between words, and no line that is skipped
    bool is_of_jobs; // hardly any line but those of jobs, for long lists
    bool present[MOST_PAGES];
    struct text *script;
};

// ---- chance

uint64_t any(struct maker *maker);
uint64_t below(struct maker *maker, uint64_t most);
bool one_in(struct maker *maker, uint64_t times);

// ---- words and lines

void word(struct maker *maker, const char *word);
void number(struct maker *maker, uint64_t number);
void end_line(struct maker *maker);
void page_line(struct maker *maker, uint64_t page);
void poke_bytes(struct maker *maker, uint64_t at, const uint8_t *bytes, size_t length);
void show_line(struct maker *maker, uint64_t at, uint64_t length);
void plain_job(struct maker *maker, const char *name, const uint64_t *numbers, int count, bool has_check);
void job_line(struct maker *maker);
uint64_t pattern(struct maker *maker);

// A line with a fault, or several; broken.c.
void bad_line(struct maker *maker);
// More than a thousand short jobs in a row; large.c.
void long_list(struct maker *maker);
// A whole script of few jobs on many pages, worth several workers; large.c.
void wide_script(struct maker *maker);

#endif
