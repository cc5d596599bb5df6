/* Loaded before a program by LD_PRELOAD, refuses growths of memory that the program asks for.

   With REFUSE=N it refuses the one numbered N, counted from 1. Where it comes, the line
   `refused N SIZE` is written to the new file REFUSE_LOG, so that no such file means that the program
   asked for fewer.

   With REFUSE_ABOVE=BYTES it refuses each by which the program would hold more than so many bytes
   over what it held when it asked for the growth numbered REFUSE_FROM; none before that one, and with
   REFUSE_BEHIND=N none up to the one numbered N. A line is written for each. A block counts with the
   size that was asked for.

   A growth is a call of malloc, calloc or realloc from the program's own code, but for one that makes
   a block no larger: that is neither counted nor refused, and so is what the C library asks for on its
   own account. Needs the GNU C library. */
#define _GNU_SOURCE
#include <errno.h>
#include <fcntl.h>
#include <link.h>
#include <stdint.h>
#include <stdio.h>
#include <stdlib.h>
#include <string.h>
#include <unistd.h>

extern void *__libc_malloc(size_t size);
extern void *__libc_calloc(size_t count, size_t size);
extern void *__libc_realloc(void *block, size_t size);
extern void __libc_free(void *block);

static uintptr_t program_start;
static uintptr_t program_end;
static unsigned long wanted;
static unsigned long growths;

/* The growth from which on there is a limit, the last one before the first that it may refuse, how many
   bytes it leaves, and the most that may be held. */
static unsigned long limited_from;
static unsigned long limited_behind;
static size_t allowance;
static size_t most_bytes = SIZE_MAX;

/* The program's blocks: a table by their addresses, whose free places are NULL. A block stands at the
   first place from its own on that was free. */
enum { PLACE_BITS = 18, PLACES = 1 << PLACE_BITS };
static struct {
    void *block;
    size_t size;
} held[PLACES];
static size_t held_count;
static size_t held_bytes;
static char lock;

/* The first object is the program. */
static int note_program(struct dl_phdr_info *info, size_t size, void *data)
{
    (void)size;
    (void)data;
    program_start = UINTPTR_MAX;
    for (int i = 0; i < info->dlpi_phnum; i++) {
        if (info->dlpi_phdr[i].p_type != PT_LOAD)
            continue;
        uintptr_t start = info->dlpi_addr + info->dlpi_phdr[i].p_vaddr;
        uintptr_t end = start + info->dlpi_phdr[i].p_memsz;
        if (start < program_start)
            program_start = start;
        if (end > program_end)
            program_end = end;
    }
    return 1;
}

__attribute__((constructor)) static void begin(void)
{
    const char *number = getenv("REFUSE");
    wanted = number ? strtoul(number, NULL, 10) : 0;
    const char *above = getenv("REFUSE_ABOVE");
    const char *from = getenv("REFUSE_FROM");
    const char *behind = getenv("REFUSE_BEHIND");
    allowance = above ? strtoul(above, NULL, 10) : 0;
    limited_from = above && from ? strtoul(from, NULL, 10) : 0;
    limited_behind = behind ? strtoul(behind, NULL, 10) : 0;
    dl_iterate_phdr(note_program, NULL);
}

static void log_refusal(unsigned long number, size_t size, int mode)
{
    char line[64];
    const char *path = getenv("REFUSE_LOG");
    int length = snprintf(line, sizeof line, "refused %lu %zu\n", number, size);
    int file = path ? open(path, O_WRONLY | O_CREAT | mode, 0600) : -1;
    if (file < 0 || write(file, line, length) != length)
        _exit(99); /* unseen, the refusal would be taken for none */
    close(file);
}

static int is_of_program(void *caller)
{
    uintptr_t place = (uintptr_t)caller;
    return place >= program_start && place < program_end;
}

/* The block's place, or a free one where it is not held. */
static size_t place_of(void *block)
{
    size_t place = ((uintptr_t)block >> 4) * 0x9e3779b97f4a7c15u >> (64 - PLACE_BITS);
    while (held[place].block && held[place].block != block)
        place = (place + 1) % PLACES;
    return place;
}

static void put(size_t place, void *block, size_t size)
{
    held[place].block = block;
    held[place].size = size;
}

static void hold(void *block, size_t size)
{
    if (++held_count > PLACES / 2)
        _exit(98); /* the table is too small */
    put(place_of(block), block, size);
    held_bytes += size;
}

/* Lets a block go, if it is held; those that stand behind it are put anew. */
static void let_go(void *block)
{
    size_t place = place_of(block);
    if (!held[place].block)
        return;
    held_count--;
    held_bytes -= held[place].size;
    put(place, NULL, 0);
    for (place = (place + 1) % PLACES; held[place].block; place = (place + 1) % PLACES) {
        void *moved = held[place].block;
        size_t size = held[place].size;
        put(place, NULL, 0);
        put(place_of(moved), moved, size);
    }
}

static void take_lock(void)
{
    while (__atomic_test_and_set(&lock, __ATOMIC_ACQUIRE))
        ;
}

static void leave_lock(void)
{
    __atomic_clear(&lock, __ATOMIC_RELEASE);
}

/* Whether the next growth is refused, by which a block gets this size in place of another one. */
static int is_refused(size_t size, size_t before)
{
    growths++;
    if (growths == limited_from)
        most_bytes = held_bytes + allowance;
    size_t rest = held_bytes - before;
    int is_wanted = growths == wanted;
    int is_above = limited_from && growths > limited_behind && (rest > most_bytes || size > most_bytes - rest);
    if (is_wanted || is_above)
        log_refusal(growths, size, is_wanted ? O_EXCL : O_APPEND);
    return is_wanted || is_above;
}

/* A block of this size in place of another, or of none, unless that is refused. */
static void *held_block(void *block, size_t size)
{
    take_lock();
    size_t before = block ? held[place_of(block)].size : 0;
    int grows = !block || size > before;
    void *made = grows && is_refused(size, before) ? NULL : __libc_realloc(block, size);
    if (made && block)
        let_go(block);
    if (made)
        hold(made, size);
    else
        errno = ENOMEM;
    leave_lock();
    return made;
}

static int is_held(void *caller)
{
    return (wanted || limited_from) && is_of_program(caller);
}

void *malloc(size_t size)
{
    return is_held(__builtin_return_address(0)) ? held_block(NULL, size) : __libc_malloc(size);
}

void *calloc(size_t count, size_t size)
{
    if (!is_held(__builtin_return_address(0)))
        return __libc_calloc(count, size);
    size_t whole;
    void *made = __builtin_mul_overflow(count, size, &whole) ? NULL : held_block(NULL, whole);
    return made ? memset(made, 0, whole) : NULL;
}

void *realloc(void *block, size_t size)
{
    return is_held(__builtin_return_address(0)) ? held_block(block, size) : __libc_realloc(block, size);
}

void free(void *block)
{
    if ((wanted || limited_from) && block) {
        take_lock();
        let_go(block);
        leave_lock();
    }
    __libc_free(block);
}
