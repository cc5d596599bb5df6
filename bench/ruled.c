/* The lists of compares.c by the rules of a wave, as plain C: threads take one task a time from a deque that holds
   them all before the first one starts, each with its job by reference; an outcome is a record, which each thread puts
   into its own list, and to which the slot of its task refers once all threads have left their lists: their ends are
   not waited for. Pages lie apart, and are compared 16 bytes at a time. A list of one thread is compared page by page,
   with no task. Memory is kept from list to list. Needs Linux. */
#define _GNU_SOURCE
#include <emmintrin.h>
#include <linux/futex.h>
#include <pthread.h>
#include <stdatomic.h>
#include <sys/syscall.h>
#include <unistd.h>

#include "timing.h"

enum { CHUNK = 65536, CHUNKS = MEBIBYTE / CHUNK, MOST_TASKS = 64 * CHUNKS, PAIRS = 8, PAGE = 4096, STEP = 128 };
enum { PAGES = PAIRS * 2 * MEBIBYTE / PAGE, LOOKS = 200 };

struct job {
    uint64_t source, target, words[5];
};

struct task {
    const struct job *job;
    uint32_t from, to, number;
    void *room[3];
};

struct outcome {
    uint32_t task, differs;
    uint64_t words[6];
    void *room[3];
};

static unsigned char *pages[PAGES];
static struct job list_jobs[MOST_TASKS / CHUNKS];
static struct task deque[MOST_TASKS];
static _Alignas(128) atomic_uint front;
static _Alignas(128) atomic_uint back;
static _Alignas(128) atomic_uint left;
static const struct outcome *slots[MOST_TASKS];
static struct list {
    unsigned count;
    struct outcome outcomes[MOST_TASKS];
} lists[4];

static int page_differs(const unsigned char *a, const unsigned char *b) {
    for (size_t i = 0; i < PAGE; i += STEP) {
        __m128i equal = _mm_set1_epi8(-1);
        for (size_t k = i; k < i + STEP; k += 16)
            equal = _mm_and_si128(equal, _mm_cmpeq_epi8(_mm_loadu_si128((const __m128i *)(a + k)),
                                                        _mm_loadu_si128((const __m128i *)(b + k))));
        if (_mm_movemask_epi8(equal) != 0xffff)
            return 1;
    }
    return 0;
}

static int differs(uint64_t source, uint64_t target, uint32_t from, uint32_t to) {
    for (uint64_t at = from; at < to; at += PAGE)
        if (page_differs(pages[(source + at) / PAGE], pages[(target + at) / PAGE]))
            return 1;
    return 0;
}

static int take(struct task *task) {
    for (;;) {
        unsigned next = atomic_load(&front);
        if (next == atomic_load(&back))
            return 0;
        if (atomic_compare_exchange_strong(&front, &next, next + 1)) {
            *task = deque[next];
            memset(&deque[next], 0, sizeof *task);
            return 1;
        }
    }
}

static struct outcome outcome_of(const struct task *task) {
    return (struct outcome){.task = task->number,
                            .differs = differs(task->job->source, task->job->target, task->from, task->to),
                            .words = {task->from, task->to},
                            .room = {task->room[0], task->room[1], task->room[2]}};
}

static void fill(struct list *mine) {
    struct task task;
    unsigned count = 0;
    while (take(&task))
        mine->outcomes[count++] = outcome_of(&task);
    mine->count = count;
}

static void *work(void *given) {
    fill(given);
    if (atomic_fetch_sub(&left, 1) == 1)
        syscall(SYS_futex, &left, FUTEX_WAKE_PRIVATE, 1, NULL, NULL, 0);
    return NULL;
}

/* Looks for a while, and then sleeps, until no thread is at its list. */
static void wait_for_all(void) {
    unsigned at = atomic_load(&left);
    for (unsigned look = 0; at && look < LOOKS; look++) {
        _mm_pause();
        at = atomic_load(&left);
    }
    for (; at; at = atomic_load(&left))
        syscall(SYS_futex, &left, FUTEX_WAIT_PRIVATE, at, NULL, NULL, 0);
}

static int alone(unsigned jobs) {
    int all = 0;
    for (unsigned j = 0; j < jobs; j++)
        all |= differs(j % PAIRS * 2 * (uint64_t)MEBIBYTE, (j % PAIRS * 2 + 1) * (uint64_t)MEBIBYTE, 0, MEBIBYTE);
    return all;
}

static void cut(unsigned jobs) {
    atomic_store(&front, 0);
    atomic_store(&back, 0);
    for (unsigned t = 0; t < jobs * CHUNKS; t++) {
        struct job *job = &list_jobs[t / CHUNKS];
        uint32_t from = t % CHUNKS * CHUNK;
        if (from == 0) {
            uint64_t pair = t / CHUNKS % PAIRS * 2 * (uint64_t)MEBIBYTE;
            *job = (struct job){.source = pair, .target = pair + MEBIBYTE};
        }
        deque[t] = (struct task){.job = job, .from = from, .to = from + CHUNK, .number = t};
        atomic_store(&back, t + 1);
        slots[t] = NULL;
    }
}

static int list(unsigned jobs, unsigned threads) {
    pthread_t started;
    int all = 0;
    if (threads == 1)
        return alone(jobs);
    cut(jobs);
    atomic_store(&left, threads - 1);
    for (unsigned t = 1; t < threads; t++)
        if (pthread_create(&started, NULL, work, &lists[t]) || pthread_detach(started))
            exit(1);
    fill(&lists[0]);
    wait_for_all();
    for (unsigned t = 0; t < threads; t++)
        for (unsigned k = 0; k < lists[t].count; k++)
            slots[lists[t].outcomes[k].task] = &lists[t].outcomes[k];
    for (unsigned t = 0; t < jobs * CHUNKS; t++)
        all |= !slots[t] || slots[t]->differs;
    return all;
}

int main(int argc, char **argv) {
    static const struct { const char *name; unsigned jobs, calls; } rows[] = {
        {"ruled_compares_64", 64, 16}, {"ruled_compares_4", 4, 200}};
    int measures = argc > 1 && strtoul(argv[1], NULL, 10) > 0;
    for (unsigned p = 0; p < PAGES; p++) {
        pages[p] = malloc(PAGE);
        if (!pages[p])
            return 1;
        memset(pages[p], 0x5a, PAGE);
    }
    for (unsigned r = 0; r < sizeof rows / sizeof *rows; r++)
        for (unsigned threads = 1; threads <= 4; threads *= 2) {
            unsigned calls = measures ? rows[r].calls : 1;
            for (unsigned k = 0; k < calls / 10 + 1; k++)
                if (list(rows[r].jobs, threads))
                    return 1;
            double start = now();
            for (unsigned k = 0; k < calls; k++)
                if (list(rows[r].jobs, threads))
                    return 1;
            fprintf(stderr, "%s %u %.1f\n", rows[r].name, threads, (now() - start) / calls);
        }
    return 0;
}
