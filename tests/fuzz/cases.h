// Random cases: the words of a call of the program and its script, well-formed or broken.
#ifndef CASES_H
#define CASES_H

#include "evaluator.h"

#include <stdbool.h>

enum { MOST_CALL_WORDS = 8 };

struct test_case {
    bool is_decode;
    struct settings settings;
    int word_count;
    struct text words[MOST_CALL_WORDS]; // behind the program's name
    struct text script;
    uint64_t pieces; // where it is not 0, the script comes in pieces through a pipe; their lengths go by this number
};

// The case of this seed and number: always the same one.
void make_case(struct test_case *made, uint64_t seed, uint64_t number);

#endif
