// The text of scripts: lines, their faults in order, and the answer line by line. See evaluator.h.
#include "evaluator.h"

#include "jobs.h"

#include <stdarg.h>
#include <stdio.h>
#include <stdlib.h>
#include <string.h>

enum { LONGEST_SCRIPT = 4194304, LONGEST_LINE = 16384, MOST_WORDS = 12, LONGEST_SHOW = 65536 };

// The bytes of compares from which on a list may go to two workers. No answer depends on it; it is for the report alone.
enum { WIDE = 1572864 };

enum fault {
    LONG_LINE, NOT_ASCII, UNKNOWN_WORD, MISSING_IMAGE, SECOND_IMAGE, IN_BATCH, STRAY_END, TOO_MANY_JOBS, WRONG_WORDS,
    BAD_NUMBER, BAD_HEX, BAD_RANGE, OPEN_BATCH, TOO_LONG, NO_FAULT
};

const char *const fault_texts[FAULT_KINDS] = {
    "the line is too long", "the line is not ASCII text", "unknown word", "the script must begin with an image line",
    "a second image line", "this line may not stand in a batch", "no batch is open", "the batch has too many jobs",
    "wrong number or kind of words", "not a number of the right size",
    "not hexadecimal text of the right length", "out of range", "the batch has no end", "the script is too long"};

// ---- texts

void text_clear(struct text *text) {
    text->length = 0;
}

void text_bytes(struct text *text, const void *bytes, size_t length) {
    if (text->length + length + 1 > text->room) {
        text->room = 2 * (text->length + length + 1);
        text->bytes = realloc(text->bytes, text->room);
        if (text->bytes == NULL)
            abort();
    }
    if (length > 0)
        memcpy(text->bytes + text->length, bytes, length);
    text->length += length;
    text->bytes[text->length] = 0;
}

void text_format(struct text *text, const char *format, ...) {
    char line[512];
    va_list arguments;
    va_start(arguments, format);
    int length = vsnprintf(line, sizeof line, format, arguments);
    va_end(arguments);
    text_bytes(text, line, (size_t)length);
}

// ---- words, numbers and hexadecimal text

struct word {
    const char *bytes;
    size_t length;
};

static bool word_is(struct word word, const char *name) {
    return word.length == strlen(name) && memcmp(word.bytes, name, word.length) == 0;
}

static bool is_space(char byte) {
    return byte == ' ' || byte == '\t';
}

// The words of a line, at most MOST_WORDS of them, which is more than any line may have.
static int words_of(struct word line, struct word words[MOST_WORDS]) {
    int count = 0;
    size_t at = 0;
    while (count < MOST_WORDS) {
        while (at < line.length && is_space(line.bytes[at]))
            at++;
        if (at == line.length)
            break;
        words[count].bytes = line.bytes + at;
        while (at < line.length && !is_space(line.bytes[at]))
            at++;
        words[count].length = (size_t)(line.bytes + at - words[count].bytes);
        count++;
    }
    return count;
}

static int digit(char byte) {
    if (byte >= '0' && byte <= '9')
        return byte - '0';
    if (byte >= 'a' && byte <= 'f')
        return byte - 'a' + 10;
    if (byte >= 'A' && byte <= 'F')
        return byte - 'A' + 10;
    return 99;
}

// Whether the word is a number of at most `most`: 1 to 20 decimal digits, or 0x and 1 to 16 hexadecimal ones.
static bool is_number(struct word word, uint64_t most, uint64_t *number) {
    bool is_hex = word.length >= 2 && word.bytes[0] == '0' && word.bytes[1] == 'x';
    size_t from = is_hex ? 2 : 0, digits = word.length - from;
    int radix = is_hex ? 16 : 10;
    whole value = 0;
    if (digits < 1 || digits > (is_hex ? 16 : 20))
        return false;
    for (size_t i = from; i < word.length; i++) {
        if (digit(word.bytes[i]) >= radix)
            return false;
        value = value * (unsigned)radix + (unsigned)digit(word.bytes[i]);
    }
    *number = (uint64_t)value;
    return value <= most;
}

static bool is_hex(struct word word, size_t least, size_t most) {
    for (size_t i = 0; i < word.length; i++)
        if (digit(word.bytes[i]) > 15)
            return false;
    return word.length % 2 == 0 && word.length >= least && word.length <= most;
}

static void hex_bytes(struct word word, uint8_t *bytes) {
    for (size_t i = 0; i + 1 < word.length; i += 2)
        bytes[i / 2] = (uint8_t)(digit(word.bytes[i]) << 4 | digit(word.bytes[i + 1]));
}

// ---- the sorts of lines

// What stands after the first word, by place: p a page number, n a 64-bit number, s a 32-bit number, h hexadecimal
// text, r that of a descriptor, x hexadecimal text that may be left out. `has_check`, `has_flags`: what may follow.
struct sort {
    const char *name, *parts;
    bool has_check, has_flags, may_be_in_batch;
    uint8_t opcode;
};

enum { IMAGE, PAGE_LINE, POKE, SHOW, BATCH, END, RAW, NO_OP_LINE, SORTS = 15 };
static const struct sort sorts[SORTS] = {
    {"image", "n", 0, 0, 1, 0}, {"page", "nx", 0, 0, 0, 0}, {"poke", "nh", 0, 0, 0, 0}, {"show", "nn", 0, 0, 0, 0},
    {"batch", "", 0, 0, 0, 0}, {"end", "", 0, 0, 1, 0}, {"raw", "r", 0, 0, 1, 0}, {"noop", "", 0, 1, 1, NO_OP},
    {"move", "nns", 0, 1, 1, MOVE}, {"fill", "nns", 0, 1, 1, FILL}, {"compare", "nns", 1, 1, 1, COMPARE},
    {"compare-pattern", "nns", 1, 1, 1, COMPARE_PATTERN}, {"create", "nnsns", 1, 1, 1, CREATE},
    {"apply", "nsns", 0, 1, 1, APPLY}, {"dualcast", "nnns", 0, 1, 1, DUALCAST}};

struct line {
    int sort;
    uint64_t numbers[5];
    struct word hex;
    uint32_t check, flags; // check: 256 where there is none
};

// What the lines so far say.
struct reading {
    bool has_image, is_in_batch;
    uint64_t pages;
    uint32_t batch_jobs, batch_line;
    bool present[MOST_PAGES];
};

static bool is_job(int sort) {
    return sort >= RAW;
}

static bool is_suffix(const struct word *words, int count, int at, const char *name, bool may_stand) {
    return may_stand && at + 1 < count && word_is(words[at], name);
}

// Whether the words are those of the sort: its parts, and then what may follow.
static bool has_right_words(const struct sort *sort, const struct word *words, int count) {
    int parts = (int)strlen(sort->parts), least = parts;
    if (parts > 0 && sort->parts[parts - 1] == 'x')
        least--;
    int at = 1 + parts;
    if (count < 1 + least)
        return false;
    if (is_suffix(words, count, at, "check", sort->has_check))
        at += 2;
    if (is_suffix(words, count, at, "flags", sort->has_flags))
        at += 2;
    return count <= at;
}

// Reads the words after the first into the line; answers the first fault from the left.
static enum fault fill_line(struct line *line, const struct word *words, int count) {
    const struct sort *sort = &sorts[line->sort];
    int at = 1;
    uint64_t number;
    for (const char *part = sort->parts; *part != 0 && at < count; part++, at++) {
        size_t least = *part == 'r' ? 128 : 2, most = *part == 'r' ? 128 : 8192;
        if (*part == 'n' || *part == 's') {
            if (!is_number(words[at], *part == 's' ? UINT32_MAX : UINT64_MAX, &line->numbers[at - 1]))
                return BAD_NUMBER;
        } else if (is_hex(words[at], least, most)) {
            line->hex = words[at];
        } else {
            return BAD_HEX;
        }
    }
    for (; at + 1 < count; at += 2) {
        bool is_check = word_is(words[at], "check");
        if (!is_number(words[at + 1], is_check ? 255 : 0xffffff, &number))
            return BAD_NUMBER;
        *(is_check ? &line->check : &line->flags) = (uint32_t)number;
    }
    return NO_FAULT;
}

static bool is_out_of_range(const struct line *line, const struct reading *reading) {
    uint64_t address = line->numbers[0], length = line->hex.length / 2;
    switch (line->sort) {
    case IMAGE:
        return address < 1 || address > MOST_PAGES;
    case PAGE_LINE:
        return address >= reading->pages;
    case POKE:
        for (whole at = address; at < (whole)address + length; at++)
            if (at >= (whole)reading->pages * PAGE || !reading->present[at / PAGE])
                return true;
        return false;
    case SHOW:
        return line->numbers[1] < 1 || line->numbers[1] > LONGEST_SHOW ||
               (whole)address + line->numbers[1] > (whole)1 << 64;
    default:
        return false;
    }
}

// Reads one line that is not skipped; answers its first fault in the order of the table.
static enum fault read_line(struct word text, const struct reading *reading, struct line *line) {
    struct word words[MOST_WORDS];
    int count = words_of(text, words);
    *line = (struct line){.sort = SORTS, .check = 256};
    if (text.length > LONGEST_LINE)
        return LONG_LINE;
    for (size_t i = 0; i < text.length; i++)
        if (text.bytes[i] != '\t' && (text.bytes[i] < 0x20 || text.bytes[i] > 0x7e))
            return NOT_ASCII;
    for (int sort = 0; sort < SORTS; sort++)
        if (word_is(words[0], sorts[sort].name))
            line->sort = sort;
    if (line->sort == SORTS)
        return UNKNOWN_WORD;
    if (!reading->has_image && line->sort != IMAGE)
        return MISSING_IMAGE;
    if (reading->has_image && line->sort == IMAGE)
        return SECOND_IMAGE;
    if (reading->is_in_batch && !sorts[line->sort].may_be_in_batch)
        return IN_BATCH;
    if (!reading->is_in_batch && line->sort == END)
        return STRAY_END;
    if (reading->is_in_batch && is_job(line->sort) && reading->batch_jobs == MOST_JOBS)
        return TOO_MANY_JOBS;
    if (!has_right_words(&sorts[line->sort], words, count))
        return WRONG_WORDS;
    enum fault fault = fill_line(line, words, count);
    if (fault != NO_FAULT)
        return fault;
    return is_out_of_range(line, reading) ? BAD_RANGE : NO_FAULT;
}

static void go_on(struct reading *reading, const struct line *line, uint32_t number) {
    if (line->sort == IMAGE) {
        reading->has_image = true;
        reading->pages = line->numbers[0];
    } else if (line->sort == PAGE_LINE) {
        reading->present[line->numbers[0]] = true;
    } else if (line->sort == BATCH) {
        reading->is_in_batch = true;
        reading->batch_jobs = 0;
        reading->batch_line = number;
    } else if (line->sort == END) {
        reading->is_in_batch = false;
    } else if (is_job(line->sort)) {
        reading->batch_jobs++;
    }
}

// ---- a run

struct run {
    struct image image;
    uint64_t staging;
    uint32_t jobs;
    bool is_in_batch;
    uint32_t in_list;  // successive jobs so far
    uint64_t compared; // the bytes that their compares and creates name
    bool has_fence;    // one of them behind the first is fenced
    struct batch batch;
    struct text *out;
    struct tally *tally;
};

static struct job job_of(const struct line *line) {
    const uint64_t *n = line->numbers;
    struct job job = {.opcode = sorts[line->sort].opcode, .flags = line->flags};
    uint8_t bytes[64];
    if (line->sort == RAW) {
        hex_bytes(line->hex, bytes);
        return decoded(bytes);
    }
    if (line->check < 256) {
        job.flags |= FLAG_CHECK;
        job.expected = (uint8_t)line->check;
    }
    job.source = n[0];
    job.target = n[1];
    job.size = (uint32_t)n[2];
    if (job.opcode == CREATE) {
        job.extra = n[3];
        job.delta_size = (uint32_t)n[4];
    } else if (job.opcode == APPLY) {
        job.delta_size = (uint32_t)n[1];
        job.target = n[2];
        job.size = (uint32_t)n[3];
    } else if (job.opcode == DUALCAST) {
        job.extra = n[2];
        job.size = (uint32_t)n[3];
    }
    return job;
}

// Counts a list of more than MOST_JOBS successive jobs once, and one whose compares and creates pay for two workers.
static void count_in_list(struct run *run, const struct job *job) {
    bool is_compared = job->opcode == COMPARE || job->opcode == COMPARE_PATTERN || job->opcode == CREATE;
    uint64_t before = run->compared;
    run->compared += is_compared ? job->size : 0;
    run->in_list++;
    run->tally->long_lists += run->in_list == MOST_JOBS + 1;
    run->tally->wide_lists += before < WIDE && run->compared >= WIDE;
    run->has_fence |= run->in_list > 1 && (job->flags & FLAG_FENCE) != 0;
}

static void run_job(struct run *run, const struct job *job) {
    count_in_list(run, job);
    struct record record = run->is_in_batch ? batch_step(&run->batch, &run->image, job, run->staging)
                                            : step(&run->image, job, run->staging, false);
    run->tally->job[record.status]++;
    text_format(run->out, "job %u status %02x result %u completed %u fault %llu delta %u\n", run->jobs++,
                record.status, record.result, record.completed, (unsigned long long)record.fault, record.delta_size);
}

static void run_show(struct run *run, uint64_t address, uint64_t length) {
    text_format(run->out, "show %llu ", (unsigned long long)address);
    for (whole at = address; at < (whole)address + length; at++) {
        if (has(&run->image, at))
            text_format(run->out, "%02x", run->image.bytes[at]);
        else
            text_bytes(run->out, "--", 2);
    }
    text_bytes(run->out, "\n", 1);
}

// Counts a batch that pays for two workers and has a fence behind its first job, and one that ends at such a fence.
static void count_batch(const struct run *run) {
    bool is_fenced = run->compared >= WIDE && run->has_fence;
    run->tally->fenced_batches += is_fenced;
    run->tally->ended_batches += is_fenced && run->batch.is_abandoned;
}

static void run_line(struct run *run, const struct line *line) {
    uint64_t number = line->numbers[0];
    struct job job;
    if (line->sort == END)
        count_batch(run);
    if (!is_job(line->sort))
        run->in_list = 0, run->compared = 0, run->has_fence = false;
    switch (line->sort) {
    case IMAGE:
        run->image.pages = (uint32_t)number;
        run->image.bytes = calloc(number, PAGE);
        if (run->image.bytes == NULL)
            abort();
        break;
    case PAGE_LINE:
        run->image.present[number] = true;
        memset(run->image.bytes + number * PAGE, 0, PAGE);
        hex_bytes(line->hex, run->image.bytes + number * PAGE);
        break;
    case POKE:
        hex_bytes(line->hex, run->image.bytes + number);
        break;
    case SHOW:
        run_show(run, number, line->numbers[1]);
        break;
    case BATCH:
        run->is_in_batch = true;
        run->batch = (struct batch){0};
        break;
    case END:
        run->is_in_batch = false;
        run->tally->batch[run->batch.has_failed ? 0x05 : 0x01]++;
        text_format(run->out, "batch status %s completed %u\n", run->batch.has_failed ? "05" : "01",
                    run->batch.completed);
        break;
    default:
        job = job_of(line);
        run_job(run, &job);
    }
}

// ---- a script

// The next line: its bytes without line feed and one carriage return before it.
static struct word next_line(const char *script, size_t length, size_t *at) {
    const char *start = script + *at, *feed = memchr(start, '\n', length - *at);
    struct word text = {start, feed == NULL ? length - *at : (size_t)(feed - start)};
    *at += text.length + (feed == NULL ? 0 : 1);
    if (feed != NULL && text.length > 0 && start[text.length - 1] == '\r')
        text.length--;
    return text;
}

static bool is_skipped(struct word text) {
    size_t at = 0;
    while (at < text.length && is_space(text.bytes[at]))
        at++;
    return at == text.length || text.bytes[at] == '#';
}

// Goes over the script: without a run it only reads, and answers the first fault with its line.
static enum fault go_over(const char *script, size_t length, struct run *run, uint32_t *number) {
    struct reading reading = {0};
    struct line line;
    size_t at = 0;
    for (*number = 1; at < length; ++*number) {
        struct word text = next_line(script, length, &at);
        if (is_skipped(text))
            continue;
        enum fault fault = read_line(text, &reading, &line);
        if (fault != NO_FAULT)
            return fault;
        go_on(&reading, &line, *number);
        if (run != NULL)
            run_line(run, &line);
    }
    if (!reading.has_image)
        return MISSING_IMAGE;
    if (reading.is_in_batch) {
        *number = reading.batch_line;
        return OPEN_BATCH;
    }
    return NO_FAULT;
}

static bool are_valid(const struct settings *settings) {
    return settings->staging <= LARGEST_STAGING && settings->chunk >= 8 && settings->chunk <= LARGEST_CHUNK &&
           settings->chunk % 8 == 0 && settings->workers >= 1 && settings->workers <= MOST_WORKERS;
}

void evaluate_run(const char *script, size_t length, const struct settings *settings, struct answer *answer,
                  struct tally *tally) {
    struct run run = {.staging = settings->staging, .out = &answer->out, .tally = tally};
    uint32_t number = 0;
    text_clear(&answer->out);
    text_clear(&answer->err);
    answer->status = 3;
    if (!are_valid(settings)) {
        text_format(&answer->err, "dmljob: the settings are out of range\n");
        return;
    }
    enum fault fault = length > LONGEST_SCRIPT ? TOO_LONG : go_over(script, length, NULL, &number);
    answer->status = fault == NO_FAULT ? 0 : 2;
    if (fault == NO_FAULT) {
        go_over(script, length, &run, &number);
        free(run.image.bytes);
        return;
    }
    tally->fault[fault]++;
    if (fault == TOO_LONG)
        text_format(&answer->err, "dmljob: %s\n", fault_texts[fault]);
    else
        text_format(&answer->err, "dmljob: line %u: %s\n", number, fault_texts[fault]);
}

// ---- a descriptor

void evaluate_decode(const char *hex, struct answer *answer) {
    struct word word = {hex, strlen(hex)};
    uint8_t bytes[64], refused;
    text_clear(&answer->out);
    text_clear(&answer->err);
    answer->status = 3;
    if (!is_hex(word, 128, 128)) {
        text_format(&answer->err, "dmljob: not 64 bytes of hex\n");
        return;
    }
    hex_bytes(word, bytes);
    struct job job = decoded(bytes);
    answer->status = 0;
    text_format(&answer->out,
                "opcode %02x flags %06x source %llu target %llu size %u extra %llu delta %u expected %u\n",
                job.opcode, job.flags, (unsigned long long)job.source, (unsigned long long)job.target, job.size,
                (unsigned long long)job.extra, job.delta_size, job.expected);
    refused = refusal(&job, 1048576, false);
    if (refused == 0)
        text_format(&answer->out, "check accepted need %llu\n", (unsigned long long)need(&job));
    else
        text_format(&answer->out, "check refused %02x\n", refused);
}
