// Runs random cases by the program and by the evaluator, and compares standard output, standard error and exit status
// byte for byte. See tests/fuzz.sh. Usage: fuzz PROGRAM SEED COUNT FIRST PROCESSES FOLDER, or fuzz show SEED CASE.
// Exit status: 0 where all cases agree, 1 where one does not, 2 where the cases could not be run.
#define _GNU_SOURCE
#include "cases.h"

#include <errno.h>
#include <fcntl.h>
#include <poll.h>
#include <signal.h>
#include <spawn.h>
#include <stdio.h>
#include <stdlib.h>
#include <string.h>
#include <sys/mman.h>
#include <sys/wait.h>
#include <time.h>
#include <unistd.h>

enum { MOST_PROCESSES = 64, MOST_TOLD = 3, SECONDS_A_RUN = 60 };

struct shared {
    struct tally tally;
    uint64_t cases, decoded, refused_settings, done, wrong, bytes, in_pieces;
};

struct runner {
    const char *program, *folder;
    uint64_t seed;
    int in, out, err; // files in memory, that each run of the program gets
    struct answer wanted, got;
    struct shared *shared, own;
};

static void stop(const char *what) {
    perror(what);
    exit(2);
}

static void read_file(int file, struct text *text) {
    char bytes[65536];
    ssize_t length;
    text_clear(text);
    text_bytes(text, "", 0);
    if (lseek(file, 0, SEEK_SET) != 0)
        stop("fuzz: lseek");
    while ((length = read(file, bytes, sizeof bytes)) > 0)
        text_bytes(text, bytes, (size_t)length);
    if (length < 0 || ftruncate(file, 0) != 0 || lseek(file, 0, SEEK_SET) != 0)
        stop("fuzz: read");
}

static void write_input(int file, const char *bytes, size_t length) {
    if (ftruncate(file, 0) != 0 || lseek(file, 0, SEEK_SET) != 0)
        stop("fuzz: ftruncate");
    while (length > 0) {
        ssize_t taken = write(file, bytes, length);
        if (taken <= 0)
            stop("fuzz: write");
        bytes += taken;
        length -= (size_t)taken;
    }
    if (lseek(file, 0, SEEK_SET) != 0)
        stop("fuzz: lseek");
}

// Waits for the program, at most SECONDS_A_RUN; its exit status, 256 and more where a signal ended it.
static int status_of(pid_t process) {
    sigset_t child;
    struct timespec rest = {SECONDS_A_RUN, 0};
    int status = 0;
    sigemptyset(&child);
    sigaddset(&child, SIGCHLD);
    while (waitpid(process, &status, WNOHANG) == 0) {
        if (sigtimedwait(&child, NULL, &rest) >= 0 || errno != EAGAIN)
            continue;
        kill(process, SIGKILL);
        waitpid(process, &status, 0);
        break;
    }
    return WIFEXITED(status) ? WEXITSTATUS(status) : 256 + WTERMSIG(status);
}

// Writes the script into the pipe piece by piece, as long as the program reads; a piece has 1 to 4,096 bytes, and one in
// eight just one.
static void feed(int pipe, const char *bytes, size_t length, uint64_t pieces) {
    while (length > 0) {
        struct pollfd end = {.fd = pipe, .events = POLLOUT};
        pieces = pieces * 6364136223846793005 + 1442695040888963407;
        size_t piece = pieces >> 61 == 0 || length < 64 ? 1 : 1 + (size_t)(pieces >> 33) % 4096;
        if (poll(&end, 1, SECONDS_A_RUN * 1000) <= 0)
            break;
        ssize_t taken = write(pipe, bytes, piece < length ? piece : length);
        if (taken <= 0)
            break;
        bytes += taken;
        length -= (size_t)taken;
    }
    close(pipe);
}

static void run_program(struct runner *runner, const struct test_case *made, const char *script, size_t length) {
    extern char **environ;
    char *words[MOST_CALL_WORDS + 2] = {(char *)(uintptr_t)runner->program};
    posix_spawn_file_actions_t actions;
    posix_spawnattr_t attributes;
    sigset_t none, broken;
    pid_t process;
    int ends[2] = {-1, -1};
    for (int i = 0; i < made->word_count; i++)
        words[1 + i] = made->words[i].bytes;
    if (made->pieces == 0)
        write_input(runner->in, script, length);
    else if (pipe2(ends, O_CLOEXEC) != 0)
        stop("fuzz: pipe2");
    sigemptyset(&none);
    sigemptyset(&broken);
    sigaddset(&broken, SIGPIPE);
    posix_spawn_file_actions_init(&actions);
    posix_spawn_file_actions_adddup2(&actions, made->pieces == 0 ? runner->in : ends[0], 0);
    posix_spawn_file_actions_adddup2(&actions, runner->out, 1);
    posix_spawn_file_actions_adddup2(&actions, runner->err, 2);
    posix_spawnattr_init(&attributes);
    posix_spawnattr_setsigmask(&attributes, &none);
    posix_spawnattr_setsigdefault(&attributes, &broken);
    posix_spawnattr_setflags(&attributes, POSIX_SPAWN_SETSIGMASK | POSIX_SPAWN_SETSIGDEF);
    if (posix_spawn(&process, runner->program, &actions, &attributes, words, environ) != 0)
        stop("fuzz: cannot start the program");
    posix_spawn_file_actions_destroy(&actions);
    posix_spawnattr_destroy(&attributes);
    if (made->pieces != 0) {
        close(ends[0]);
        feed(ends[1], script, length, made->pieces);
    }
    runner->got.status = status_of(process);
    read_file(runner->out, &runner->got.out);
    read_file(runner->err, &runner->got.err);
}

static bool are_same(const struct text *a, const struct text *b) {
    return a->length == b->length && memcmp(a->bytes, b->bytes, a->length) == 0;
}

// Whether both answer alike on this script, with the words of the case.
static bool agree(struct runner *runner, const struct test_case *made, const char *script, size_t length,
                  struct tally *tally) {
    struct answer *wanted = &runner->wanted, *got = &runner->got;
    text_bytes(&wanted->out, "", 0);
    text_bytes(&wanted->err, "", 0);
    if (made->is_decode)
        evaluate_decode(made->words[1].bytes, wanted);
    else
        evaluate_run(script, length, &made->settings, wanted, tally);
    run_program(runner, made, script, length);
    return wanted->status == got->status && are_same(&wanted->out, &got->out) && are_same(&wanted->err, &got->err);
}

// ---- a difference

// Leaves out lines as long as the answers stay different.
static void shrink(struct runner *runner, const struct test_case *made, struct text *script) {
    static struct tally unused;
    bool has_shrunk = true;
    while (has_shrunk && script->length < 100000) {
        has_shrunk = false;
        for (size_t start = 0, end; start < script->length; start = end) {
            const char *feed = memchr(script->bytes + start, '\n', script->length - start);
            end = feed == NULL ? script->length : (size_t)(feed - script->bytes) + 1;
            struct text shorter = {0};
            text_bytes(&shorter, script->bytes, start);
            text_bytes(&shorter, script->bytes + end, script->length - end);
            if (!agree(runner, made, shorter.bytes, shorter.length, &unused)) {
                struct text longer = *script;
                *script = shorter;
                shorter = longer;
                end = start;
                has_shrunk = true;
            }
            free(shorter.bytes);
        }
    }
}

static void keep(const struct runner *runner, uint64_t number, const char *ending, const struct text *text) {
    char name[4096];
    snprintf(name, sizeof name, "%s/%llu.%s", runner->folder, (unsigned long long)number, ending);
    FILE *file = fopen(name, "w");
    if (file == NULL)
        return;
    fwrite(text->bytes, 1, text->length, file);
    fclose(file);
}

static void tell(struct runner *runner, const struct test_case *made, uint64_t number) {
    static struct tally unused;
    struct text script = {0};
    text_bytes(&script, made->script.bytes, made->script.length);
    if (!made->is_decode)
        shrink(runner, made, &script);
    agree(runner, made, script.bytes, script.length, &unused);
    fprintf(stderr, "fuzz: case %llu of seed %llu: dmljob", (unsigned long long)number,
            (unsigned long long)runner->seed);
    for (int i = 0; i < made->word_count; i++)
        fprintf(stderr, " %s", made->words[i].bytes);
    fprintf(stderr, ": status %d, wanted is %d; %s/%llu.* has the shortest script found and both answers\n",
            runner->got.status, runner->wanted.status, runner->folder, (unsigned long long)number);
    keep(runner, number, "script", &script);
    keep(runner, number, "wanted.out", &runner->wanted.out);
    keep(runner, number, "wanted.err", &runner->wanted.err);
    keep(runner, number, "got.out", &runner->got.out);
    keep(runner, number, "got.err", &runner->got.err);
    free(script.bytes);
}

// ---- many cases

static void add(struct shared *all, const struct shared *own) {
    uint64_t *sums = (uint64_t *)all;
    const uint64_t *parts = (const uint64_t *)own;
    for (size_t i = 0; i < sizeof *all / sizeof *sums; i++)
        __atomic_fetch_add(&sums[i], parts[i], __ATOMIC_RELAXED);
}

static void run_cases(struct runner *runner, uint64_t first, uint64_t count, uint64_t stride) {
    struct test_case made = {0};
    struct shared *own = &runner->own;
    runner->in = memfd_create("in", MFD_CLOEXEC);
    runner->out = memfd_create("out", MFD_CLOEXEC);
    runner->err = memfd_create("err", MFD_CLOEXEC);
    if (runner->in < 0 || runner->out < 0 || runner->err < 0)
        stop("fuzz: memfd_create");
    for (uint64_t number = first; count > 0; number += stride, count--) {
        make_case(&made, runner->seed, number);
        bool is_alike = agree(runner, &made, made.script.bytes, made.script.length, &own->tally);
        own->cases++;
        own->decoded += made.is_decode;
        own->done += !made.is_decode && runner->wanted.status == 0;
        own->refused_settings += !made.is_decode && runner->wanted.status == 3;
        own->bytes += made.script.length;
        own->in_pieces += !made.is_decode && made.pieces != 0;
        if (!is_alike && own->wrong++ < MOST_TOLD)
            tell(runner, &made, number);
    }
    add(runner->shared, own);
}

static void report(const struct shared *all, double seconds, uint64_t seed, uint64_t first) {
    printf("fuzz: seed %llu, cases %llu to %llu, in %.0f seconds: %llu wrong\n", (unsigned long long)seed,
           (unsigned long long)first, (unsigned long long)(first + all->cases - 1), seconds,
           (unsigned long long)all->wrong);
    printf("fuzz: %llu scripts carried out, %llu descriptors, %llu settings refused, %llu bytes of script\n",
           (unsigned long long)all->done, (unsigned long long)all->decoded, (unsigned long long)all->refused_settings,
           (unsigned long long)all->bytes);
    printf("fuzz: %llu scripts came in pieces; %llu lists of more than 1,024 jobs, %llu that are worth workers\n",
           (unsigned long long)all->in_pieces, (unsigned long long)all->tally.long_lists,
           (unsigned long long)all->tally.wide_lists);
    printf("fuzz: %llu batches that are worth workers have a fence behind their first job, %llu of them end at one\n",
           (unsigned long long)all->tally.fenced_batches, (unsigned long long)all->tally.ended_batches);
    printf("fuzz: statuses of jobs:");
    for (int status = 0; status < 256; status++)
        if (all->tally.job[status] > 0)
            printf(" %02x %llu;", status, (unsigned long long)all->tally.job[status]);
    printf(" of batches: 01 %llu; 05 %llu\n", (unsigned long long)all->tally.batch[1],
           (unsigned long long)all->tally.batch[5]);
    for (int kind = 0; kind < FAULT_KINDS; kind++)
        printf("fuzz: %8llu times: %s\n", (unsigned long long)all->tally.fault[kind], fault_texts[kind]);
}

// Whether each status, each kind of fault and each kind of list came up; asked of runs that are long enough. A script
// that is too long, the last kind, is left out: it is rare, since it costs much. Batches worth workers that end at a
// fence are rare too, and are asked of long runs.
static bool is_broad(const struct shared *all) {
    static const uint8_t statuses[] = {0x00, 0x01, 0x02, 0x03, 0x07, 0x08, 0x10, 0x11, 0x13, 0x15, 0x16, 0x17, 0x1c, 0x7d,
                                       0x7e, 0x83};
    bool is_missing = all->tally.batch[1] == 0 || all->tally.batch[5] == 0 || all->in_pieces == 0;
    is_missing |= all->tally.long_lists == 0 || all->tally.wide_lists == 0 || all->tally.fenced_batches == 0;
    is_missing |= all->cases >= 30000 && all->tally.ended_batches == 0;
    for (size_t i = 0; i < sizeof statuses; i++)
        is_missing |= all->tally.job[statuses[i]] == 0;
    for (int kind = 0; kind + 1 < FAULT_KINDS; kind++)
        is_missing |= all->tally.fault[kind] == 0;
    return !is_missing;
}

static int show(uint64_t seed, uint64_t number) {
    struct test_case made = {0};
    make_case(&made, seed, number);
    fprintf(stderr, "dmljob");
    for (int i = 0; i < made.word_count; i++)
        fprintf(stderr, " %s", made.words[i].bytes);
    fprintf(stderr, "\n");
    fwrite(made.script.bytes, 1, made.script.length, stdout);
    return 0;
}

// Starts a process for each part of the cases; answers whether all came to their end.
static bool run_processes(struct runner *runner, uint64_t first, uint64_t count, uint64_t processes) {
    bool is_whole = true;
    sigset_t child;
    sigemptyset(&child);
    sigaddset(&child, SIGCHLD);
    sigprocmask(SIG_BLOCK, &child, NULL); // waits until status_of asks for it; each process has its own
    signal(SIGPIPE, SIG_IGN);             // a program may end before its input does
    for (uint64_t i = 0; i < processes; i++) {
        pid_t process = fork();
        if (process < 0)
            stop("fuzz: fork");
        if (process == 0) {
            run_cases(runner, first + i, count / processes + (i < count % processes), processes);
            exit(0);
        }
    }
    for (uint64_t i = 0; i < processes; i++) {
        int status = 0;
        if (wait(&status) < 0 || status != 0)
            is_whole = false;
    }
    return is_whole;
}

int main(int count, char **words) {
    struct runner runner = {0};
    struct timespec start, end;
    if (count == 4 && strcmp(words[1], "show") == 0)
        return show(strtoull(words[2], NULL, 10), strtoull(words[3], NULL, 10));
    if (count != 7) {
        fprintf(stderr, "usage: fuzz PROGRAM SEED COUNT FIRST PROCESSES FOLDER, or fuzz show SEED CASE\n");
        return 2;
    }
    uint64_t cases = strtoull(words[3], NULL, 10), first = strtoull(words[4], NULL, 10);
    uint64_t processes = strtoull(words[5], NULL, 10);
    runner.program = words[1];
    runner.seed = strtoull(words[2], NULL, 10);
    runner.folder = words[6];
    if (cases == 0 || processes < 1 || processes > MOST_PROCESSES) {
        fprintf(stderr, "fuzz: at least one case, and 1 to %d processes\n", MOST_PROCESSES);
        return 2;
    }
    runner.shared = mmap(NULL, sizeof *runner.shared, PROT_READ | PROT_WRITE, MAP_SHARED | MAP_ANONYMOUS, -1, 0);
    if (runner.shared == MAP_FAILED)
        stop("fuzz: mmap");
    clock_gettime(CLOCK_MONOTONIC, &start);
    bool is_whole = run_processes(&runner, first, cases, processes);
    clock_gettime(CLOCK_MONOTONIC, &end);
    report(runner.shared, (double)(end.tv_sec - start.tv_sec) + (double)(end.tv_nsec - start.tv_nsec) / 1e9,
           runner.seed, first);
    if (!is_whole || runner.shared->cases != cases) {
        fprintf(stderr, "fuzz: not all cases were run\n");
        return 2;
    }
    if (cases >= 3000 && !is_broad(runner.shared)) {
        fprintf(stderr, "fuzz: some status or kind of fault never came up\n");
        return 1;
    }
    return runner.shared->wrong == 0 ? 0 : 1;
}
