/*
 * The worked rows of tests/c/table.rows through kazovuni.h: over pages of an engine's own, and over regions, job by job
 * and as lists of jobs; over lent memory, job by job, as lists, and by pointers; and in one piece, job by job and as
 * lists, also with the staging of an engine. Behind each call the records and every byte have to be the row's. The
 * regions are its pages that are present, and no other page is mapped. Lent memory has all of its pages present, so
 * there a row is run whose present pages are its first ones; the pages before and behind them are not mapped.
 *
 * A piece has the row's pages alone, or lies before them too, up to the far end of 5 GiB, or up to the line of 4 GiB,
 * which then runs through the row: by a page at a time, and by 8 bytes at a time where the row meets no page fault and
 * so may have memory behind it. The addresses of jobs and of faults are moved as far. Such a piece is reserved, and
 * touched by the row alone; where the system reserves none, a line says so.
 *
 * Usage: table FILE
 */
#define _GNU_SOURCE
#include "kazovuni.h"

#include <inttypes.h>
#include <stdio.h>
#include <stdlib.h>
#include <string.h>
#include <sys/mman.h>

#define GIB (UINT64_C(1) << 30)

enum { PAGE = KAZOVUNI_PAGE_BYTES, MOST_LINES = 2000, MOST_JOBS = 16, ROWS = 32, LENT_ROWS = 23, STEP = 8 };
enum { NO_OP = 0x00, FILL = 0x04, COMPARE_PATTERN = 0x06, CREATE = 0x07, DUALCAST = 0x09 };

static int failed;

static void complain(size_t number, const char *form, const char *what)
{
    fprintf(stderr, "table: line %zu, %s: %s\n", number, form, what);
    failed = 1;
}

static void give_up(size_t number, const char *why)
{
    fprintf(stderr, "table: line %zu: %s\n", number, why);
    exit(2);
}

/* ---- the lines */

enum word { ROW, MEMORY, BRING, ZEROS, POKE, JOB, NEED, RECORD, LEFT, REST, WORDS };

/* Each word, how many numbers it has, and how many bytes at most behind them. */
static const struct {
    const char *name;
    size_t numbers, bytes;
} words[WORDS] = {
    [ROW] = {"row", 0, 0},      [MEMORY] = {"memory", 2, 0}, [BRING] = {"page", 1, 64}, [ZEROS] = {"zeros", 2, 0},
    [POKE] = {"poke", 1, 64},   [JOB] = {"job", 0, 64},      [NEED] = {"need", 1, 0},   [RECORD] = {"record", 0, 32},
    [LEFT] = {"left", 1, 64},   [REST] = {"rest", 0, 64},
};

typedef struct line {
    size_t number;
    enum word word;
    uint64_t numbers[2];
    size_t count;
    uint8_t bytes[64];
} line;

static line lines[MOST_LINES];
static size_t line_count;

static void add_bytes(line *line, const char *text)
{
    unsigned byte;
    int length;
    while (sscanf(text, " %2x%n", &byte, &length) == 1) {
        if (line->count == words[line->word].bytes)
            give_up(line->number, "too many bytes");
        line->bytes[line->count++] = (uint8_t)byte;
        text += length;
    }
    if (text[strspn(text, " \n")] != '\0')
        give_up(line->number, "no hexadecimal text");
}

static void add_line(size_t number, char *text)
{
    size_t length = strcspn(text, " \n");
    line *line = &lines[line_count++];
    if (line_count == MOST_LINES)
        give_up(number, "too many lines");
    line->number = number;
    while (line->word < WORDS && (strlen(words[line->word].name) != length ||
                                  strncmp(words[line->word].name, text, length) != 0))
        line->word++;
    if (line->word == WORDS)
        give_up(number, "unknown word");
    text += length;
    for (size_t i = 0; i < words[line->word].numbers; i++)
        line->numbers[i] = strtoull(text, &text, 10);
    text += strspn(text, " ");
    if (line->word != ROW && !(line->word == REST && strcmp(text, "none\n") == 0))
        add_bytes(line, text);
}

static void read_lines(const char *name)
{
    char text[256];
    FILE *file = fopen(name, "r");
    if (!file)
        give_up(0, "no such file");
    for (size_t number = 1; fgets(text, sizeof text, file); number++) {
        if (text[0] == ' ' && line_count > 0)
            add_bytes(&lines[line_count - 1], text);
        else if (text[0] != '#' && text[0] != '\n')
            add_line(number, text);
    }
    fclose(file);
}

/* ---- a memory in one of the forms, and what it has to hold */

enum form {
    OWN,
    OWN_LIST,
    REGIONS,
    REGIONS_LIST,
    LENT,
    LENT_LIST,
    POINTERS,
    WHOLE,
    WHOLE_LIST,
    STAGED,
    STAGED_LIST,
    FAR,
    FAR_LIST,
    LINE,
    LINE_LIST,
    FORMS
};
static const char *const form_names[FORMS] = {
    "on own pages", "as a list on own pages", "over regions", "as a list over regions", "over lent memory",
    "as a list over lent memory", "by pointers", "in one piece", "as a list in one piece",
    "in one piece with staging", "as a list in one piece with staging", "at the end of 5 GiB",
    "as a list at the end of 5 GiB", "over the line of 4 GiB", "as a list over the line of 4 GiB"};

/* Where a row lies in its piece: how many bytes stand before it, and how many the piece has at least. */
typedef struct place {
    uint64_t from, least;
} place;

typedef struct memory {
    enum form form;
    uint32_t pages, staging;
    kazovuni_engine engine;
    place place;
    size_t reserved, mapped; /* of the piece; one page before it and one behind it are not mapped */
    uint8_t *piece, *lent;   /* the row's pages are the last ones, or lie in it */
    uint8_t *wanted;         /* as many pages */
    size_t length;           /* of the row's bytes that are mapped */
    bool present[KAZOVUNI_MOST_PAGES];
} memory;

static bool is_list(enum form form)
{
    return form == OWN_LIST || form == REGIONS_LIST || form == LENT_LIST || form == WHOLE_LIST ||
           form == STAGED_LIST || form == FAR_LIST || form == LINE_LIST;
}

static bool is_in_regions(enum form form)
{
    return form == REGIONS || form == REGIONS_LIST;
}

/* Whether a form has the staging of an engine, and memory of the caller's. */
static bool is_staged(enum form form)
{
    return is_in_regions(form) || form == STAGED || form == STAGED_LIST;
}

/* Reserves so many bytes, of which the first are mapped; NULL where the system gives none. */
static uint8_t *reserve(size_t bytes, size_t mapped)
{
    uint8_t *start = mmap(NULL, bytes + 2 * PAGE, PROT_NONE, MAP_PRIVATE | MAP_ANONYMOUS | MAP_NORESERVE, -1, 0);
    if (start == MAP_FAILED)
        return NULL;
    if (mprotect(start + PAGE, mapped, PROT_READ | PROT_WRITE) == 0)
        return start + PAGE;
    munmap(start, bytes + 2 * PAGE);
    return NULL;
}

static void give_back(uint8_t *start, size_t bytes)
{
    munmap(start - PAGE, bytes + 2 * PAGE);
}

static bool has_room(void)
{
    uint8_t *piece = reserve(5 * GIB, 5 * GIB);
    if (piece)
        give_back(piece, 5 * GIB);
    return piece != NULL;
}

static void open_memory(memory *memory, const line *line, enum form form, place place)
{
    size_t own = line->numbers[0] * PAGE;
    memset(memory, 0, sizeof *memory);
    memory->form = form;
    memory->pages = (uint32_t)line->numbers[0];
    memory->staging = (uint32_t)line->numbers[1];
    memory->place = place;
    memory->reserved = place.least > place.from + own ? place.least : place.from + own;
    memory->mapped = place.least > place.from ? place.least : place.from;
    memory->piece = reserve(memory->reserved, memory->mapped);
    memory->wanted = reserve(own, own);
    if (!memory->piece || !memory->wanted)
        give_up(line->number, "no memory");
    memory->lent = memory->piece + place.from;
    if ((form <= OWN_LIST && kazovuni_create(&memory->engine, memory->pages, memory->staging) != KAZOVUNI_OK) ||
        (is_staged(form) && kazovuni_create_staging(&memory->engine, memory->staging) != KAZOVUNI_OK))
        complain(line->number, form_names[form], "no engine");
}

static void close_memory(memory *memory)
{
    kazovuni_free(&memory->engine);
    give_back(memory->piece, memory->reserved);
    give_back(memory->wanted, (size_t)memory->pages * PAGE);
}

/* How many bytes of the piece are passed: it ends behind the row's pages, or goes on behind them. */
static size_t piece_length(const memory *memory)
{
    size_t end = memory->place.from + memory->length;
    return memory->place.least > end ? memory->place.least : end;
}

static void bring(memory *memory, const line *line, uint64_t page)
{
    uint8_t *wanted = memory->wanted + page * PAGE, *lent = memory->lent + page * PAGE;
    memset(wanted, 0, PAGE);
    memcpy(wanted, line->bytes, line->count);
    memory->present[page] = true;
    if (memory->form <= OWN_LIST) {
        if (kazovuni_bring(&memory->engine, (uint32_t)page, wanted) != KAZOVUNI_OK)
            complain(line->number, form_names[memory->form], "the page is not brought");
        return;
    }
    if (lent >= memory->piece + memory->mapped && mprotect(lent, PAGE, PROT_READ | PROT_WRITE) != 0)
        give_up(line->number, "no memory");
    memcpy(lent, wanted, PAGE);
    memory->length = page * PAGE < memory->length ? memory->length : (page + 1) * PAGE;
}

static void poke(memory *memory, const line *line)
{
    memcpy(memory->wanted + line->numbers[0], line->bytes, line->count);
    if (memory->form > OWN_LIST)
        memcpy(memory->lent + line->numbers[0], line->bytes, line->count);
    else if (kazovuni_write(&memory->engine, line->numbers[0], line->bytes, line->count) != KAZOVUNI_OK)
        complain(line->number, form_names[memory->form], "nothing is written");
}

/* Whether nothing is written where an address would lie that has lost its upper half. */
static bool is_clear_below(const memory *memory)
{
    uint64_t places[] = {0, memory->place.from % (4 * GIB)};
    for (size_t i = 0; i < 2; i++) {
        const uint8_t *bytes = memory->piece + places[i];
        size_t length = memory->length;
        if (places[i] + length <= memory->place.from && (bytes[0] != 0 || memcmp(bytes, bytes + 1, length - 1) != 0))
            return false;
    }
    return true;
}

/* Whether each page that is present has the wanted bytes; no other one is mapped. */
static bool has_wanted_pages(const memory *memory)
{
    for (size_t page = 0; page < memory->pages; page++)
        if (memory->present[page] && memcmp(memory->lent + page * PAGE, memory->wanted + page * PAGE, PAGE) != 0)
            return false;
    return true;
}

/* Whether every byte is the wanted one, and every other page absent. */
static bool is_as_wanted(memory *memory)
{
    if (is_in_regions(memory->form))
        return has_wanted_pages(memory);
    if (memory->form > OWN_LIST)
        return memcmp(memory->lent, memory->wanted, memory->length) == 0 && is_clear_below(memory);
    for (size_t page = 0; page < memory->pages; page++) {
        uint8_t bytes[PAGE];
        size_t length = memory->present[page] ? PAGE : 1;
        uint8_t answer = kazovuni_read(&memory->engine, page * PAGE, bytes, length);
        if (answer != (memory->present[page] ? KAZOVUNI_OK : KAZOVUNI_ABSENT))
            return false;
        if (memory->present[page] && memcmp(bytes, memory->wanted + page * PAGE, PAGE) != 0)
            return false;
    }
    return true;
}

/* ---- jobs */

typedef struct jobs {
    size_t count, numbers[MOST_JOBS];
    uint8_t descriptors[MOST_JOBS][64], wanted[MOST_JOBS][32], records[MOST_JOBS][32];
} jobs;

static void add_to(uint8_t *bytes, uint64_t number)
{
    for (int i = 0; i < 8; i++) {
        number += bytes[i];
        bytes[i] = (uint8_t)number;
        number >>= 8;
    }
}

static bool is_fault(const uint8_t record[32])
{
    return record[0] == 0x03 || record[0] == 0x83;
}

/* Puts the base on an address. In a piece one near 2^64 stays where it is: past the end of every memory. */
static void move_address(uint8_t *address, uint64_t base, bool is_pointer)
{
    if (is_pointer || address[7] == 0)
        add_to(address, base);
}

/* Puts the base on the addresses of a descriptor, and on the address of a page fault. */
static void lay_at(uint64_t base, bool is_pointer, uint8_t descriptor[64], uint8_t record[32])
{
    uint8_t opcode = descriptor[7];
    if (opcode != NO_OP && opcode != FILL)
        move_address(descriptor + 16, base, is_pointer);
    if (opcode != NO_OP && opcode != COMPARE_PATTERN)
        move_address(descriptor + 24, base, is_pointer);
    if (opcode == CREATE || opcode == DUALCAST)
        move_address(descriptor + 40, base, is_pointer);
    if (is_fault(record))
        move_address(record + 8, base, is_pointer);
}

/* A region far above the others, so that there is one where no page is. */
static uint8_t far_above[PAGE];

/*
 * The regions of the pages that are present, of one page and then of more by turns, and behind them the one far above;
 * answers how many.
 */
static size_t make_table(memory *memory, kazovuni_region table[KAZOVUNI_MOST_REGIONS])
{
    size_t count = 0;
    for (size_t page = 0; page < memory->pages; page++) {
        if (!memory->present[page])
            continue;
        if (page > 0 && memory->present[page - 1] && (count % 2 == 0 || count == KAZOVUNI_MOST_REGIONS - 1))
            table[count - 1].length += PAGE;
        else if (count < KAZOVUNI_MOST_REGIONS - 1)
            table[count++] = (kazovuni_region){page * PAGE, memory->lent + page * PAGE, PAGE};
        else
            give_up(page, "too many regions");
    }
    table[count] = (kazovuni_region){UINT64_C(1) << 43, far_above, PAGE};
    return count + 1;
}

/* The calls over regions; the table and the region far above stay as they were. */
static uint8_t submit_regions(memory *memory, jobs *jobs)
{
    static const uint8_t zeros[PAGE];
    kazovuni_region table[KAZOVUNI_MOST_REGIONS], before[KAZOVUNI_MOST_REGIONS];
    const uint8_t *descriptors = jobs->descriptors[0];
    uint8_t *records = jobs->records[0];
    size_t count = jobs->count, regions = make_table(memory, table);
    memset(before, 0, sizeof before);
    memcpy(before, table, regions * sizeof *table);
    uint8_t code = memory->form == REGIONS
        ? kazovuni_submit_at(&memory->engine, table, regions, descriptors, records)
        : kazovuni_submit_list_at(&memory->engine, table, regions, descriptors, count, records, count);
    for (size_t i = 0; i < regions; i++)
        if (table[i].address != before[i].address || table[i].bytes != before[i].bytes ||
            table[i].length != before[i].length)
            complain(jobs->numbers[0], form_names[memory->form], "the table");
    if (memcmp(far_above, zeros, PAGE) != 0)
        complain(jobs->numbers[0], form_names[memory->form], "the region far above");
    return code;
}

/* The calls with the staging of an engine, over one piece and over regions. */
static uint8_t submit_staged(memory *memory, jobs *jobs)
{
    const uint8_t *descriptors = jobs->descriptors[0];
    uint8_t *records = jobs->records[0];
    size_t count = jobs->count;
    switch (memory->form) {
    case STAGED:
        return kazovuni_submit_in(&memory->engine, memory->piece, piece_length(memory), descriptors, records);
    case STAGED_LIST:
        return kazovuni_submit_list_in(
            &memory->engine, memory->piece, piece_length(memory), descriptors, count, records, count);
    default:
        return submit_regions(memory, jobs);
    }
}

static uint8_t submit(memory *memory, jobs *jobs)
{
    const uint8_t *descriptors = jobs->descriptors[0];
    uint8_t *records = jobs->records[0];
    bool is_pointer = memory->form == POINTERS;
    uint64_t base = is_pointer ? (uintptr_t)memory->lent : memory->place.from;
    for (size_t i = 0; i < jobs->count; i++)
        lay_at(base, is_pointer, jobs->descriptors[i], jobs->wanted[i]);
    if (is_staged(memory->form))
        return submit_staged(memory, jobs);
    switch (memory->form) {
    case OWN:
        return kazovuni_submit(&memory->engine, descriptors, records);
    case OWN_LIST:
        return kazovuni_submit_list(&memory->engine, descriptors, jobs->count, records, jobs->count);
    case LENT:
        return kazovuni_submit_over(memory->lent, memory->length, descriptors, memory->staging, records);
    case LENT_LIST:
        return kazovuni_submit_list_over(
            memory->lent, memory->length, descriptors, jobs->count, memory->staging, records, jobs->count);
    case POINTERS:
        return kazovuni_submit_pointers(base, memory->lent, memory->length, descriptors, memory->staging, records);
    case WHOLE:
    case FAR:
    case LINE:
        return kazovuni_submit_whole(memory->piece, piece_length(memory), descriptors, memory->staging, records);
    default:
        return kazovuni_submit_list_whole(
            memory->piece, piece_length(memory), descriptors, jobs->count, memory->staging, records, jobs->count);
    }
}

/* What looks at a descriptor and at a record alone. */
static void try_looks(const jobs *jobs, const line *about, const line *end, uint32_t staging)
{
    const uint8_t *descriptor = jobs->descriptors[0], *record = jobs->wanted[0];
    uint8_t again[64], left[64];
    kazovuni_job job = kazovuni_decode(descriptor);
    kazovuni_record fields;
    bool is_refused = record[0] >= 0x10 && record[0] != 0x83;
    if (kazovuni_check(descriptor, staging) != (is_refused ? record[0] : 0))
        complain(jobs->numbers[0], "checked", "the status");
    if (!kazovuni_encode(&job, again) || memcmp(again, descriptor, 64) != 0)
        complain(jobs->numbers[0], "decoded and encoded", "the descriptor");
    if (!kazovuni_record_decode(record, &fields) || !kazovuni_record_encode(&fields, again) ||
        memcmp(again, record, 32) != 0)
        complain(jobs->numbers[0], "its record decoded and encoded", "the bytes");
    for (; about < end && about->word != JOB; about++) {
        if (about->word == NEED && kazovuni_need(descriptor) != about->numbers[0])
            complain(about->number, "asked", "the need");
        if (about->word != REST)
            continue;
        if (kazovuni_rest(descriptor, record, left) != (about->count > 0) || memcmp(left, about->bytes, about->count))
            complain(about->number, "after its record", "the rest");
    }
}

/* Takes the jobs from a line on, of a list all that follow one another; answers the line behind them. */
static const line *take_jobs(jobs *jobs, memory *memory, const line *at, const line *end)
{
    size_t most = is_list(memory->form) ? MOST_JOBS : 1;
    memset(jobs, 0, sizeof *jobs);
    memset(jobs->records, 0xcc, sizeof jobs->records);
    for (; at < end && at->word >= JOB; at++) {
        if (at->word == JOB) {
            if (jobs->count == most)
                break;
            jobs->numbers[jobs->count] = at->number;
            memcpy(jobs->descriptors[jobs->count++], at->bytes, 64);
        }
        if (at->word == RECORD)
            memcpy(jobs->wanted[jobs->count - 1], at->bytes, 32);
        if (at->word == LEFT)
            memcpy(memory->wanted + at->numbers[0], at->bytes, at->count);
    }
    return at;
}

static const line *run_jobs(memory *memory, const line *at, const line *end)
{
    static jobs jobs;
    const line *behind = take_jobs(&jobs, memory, at, end);
    const char *form = form_names[memory->form];
    if (memory->form == OWN)
        try_looks(&jobs, at + 1, end, memory->staging);
    if (submit(memory, &jobs) != KAZOVUNI_OK)
        complain(at->number, form, "the answer");
    for (size_t i = 0; i < jobs.count; i++)
        if (memcmp(jobs.records[i], jobs.wanted[i], 32) != 0)
            complain(jobs.numbers[i], form, "the record");
    if (!is_as_wanted(memory))
        complain(at->number, form, "the bytes");
    return behind;
}

/* ---- rows */

/* Whether the present pages are the row's first ones wherever it submits a job. */
static bool fits_lent(const line *at, const line *end)
{
    uint64_t present = 0;
    for (; at < end; at++) {
        uint64_t last = at->word == ZEROS ? at->numbers[1] : at->numbers[0];
        if (at->word == BRING || at->word == ZEROS) {
            if (at->numbers[0] > present)
                return false;
            present = last < present ? present : last + 1;
        }
        if (at->word == JOB && present == 0)
            return false;
    }
    return true;
}

static void run_row(const line *row, const line *end, enum form form, place place)
{
    static memory memory;
    const line *at = row + 2;
    if (end - row < 2 || row[1].word != MEMORY)
        give_up(row->number, "the row has no memory");
    open_memory(&memory, row + 1, form, place);
    while (at < end) {
        switch (at->word) {
        case BRING:
            bring(&memory, at, at->numbers[0]);
            break;
        case ZEROS:
            for (uint64_t page = at->numbers[0]; page <= at->numbers[1]; page++)
                bring(&memory, at, page);
            break;
        case POKE:
            poke(&memory, at);
            break;
        case JOB:
            at = run_jobs(&memory, at, end);
            continue;
        default:
            give_up(at->number, "this word has no place here");
        }
        at++;
    }
    close_memory(&memory);
}

/* A row that fits lent memory, laid over the line of 4 GiB; answers how often. */
static size_t run_over_line(const line *row, const line *end)
{
    size_t times = 0;
    bool meets_fault = false;
    uint64_t present = 0;
    for (const line *at = row; at < end; at++) {
        meets_fault |= at->word == RECORD && is_fault(at->bytes);
        if (at->word == BRING || at->word == ZEROS)
            present = at->numbers[at->word == ZEROS] + 1;
    }
    for (uint64_t page = 1; page <= present; page++, times++)
        for (enum form form = LINE; form <= LINE_LIST; form++)
            run_row(row, end, form, (place){4 * GIB - page * PAGE, 0});
    for (uint64_t before = STEP; before < PAGE && !meets_fault; before += STEP, times++)
        for (enum form form = LINE; form <= LINE_LIST; form++)
            run_row(row, end, form, (place){4 * GIB - before, 5 * GIB});
    return times;
}

int main(int count, char **arguments)
{
    size_t rows = 0, lent = 0, jobs = 0, times = 0;
    bool is_roomy = has_room();
    if (count != 2)
        give_up(0, "usage: table FILE");
    read_lines(arguments[1]);
    for (size_t from = 0, to; from < line_count; from = to) {
        for (to = from + 1; to < line_count && lines[to].word != ROW; to++)
            jobs += lines[to].word == JOB;
        const line *row = lines + from, *end = lines + to;
        bool is_lent = fits_lent(row, end);
        for (enum form form = OWN; form < (is_lent ? FAR : LENT); form++)
            run_row(row, end, form, (place){0, 0});
        for (enum form form = FAR; form <= FAR_LIST && is_lent && is_roomy; form++)
            run_row(row, end, form, (place){5 * GIB - PAGE, 0}); /* its first page is the last of the 5 GiB */
        times += is_lent && is_roomy ? run_over_line(row, end) : 0;
        rows++;
        lent += is_lent;
    }
    if (failed)
        return 1;
    printf("table: %zu rows of %zu jobs on own pages and over regions, ", rows, jobs);
    printf("%zu of the rows over lent memory and in one piece\n", lent);
    if (is_roomy)
        printf("table: these at the end of 5 GiB, and %zu times over the line of 4 GiB\n", times);
    else
        printf("table: the system reserves no 5 GiB: the rows in a piece of that size are left out\n");
    if (rows != ROWS || lent != LENT_ROWS) {
        fprintf(stderr, "table: %d rows are wanted, %d of them over lent memory\n", ROWS, LENT_ROWS);
        return 1;
    }
    return 0;
}
