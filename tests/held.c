/* Loaded before a program by LD_PRELOAD, counts the bytes that the allocator has given and that were not yet given
   back, and writes their peak to the new file HELD at the end. Of a block it counts what may be used of it, which is
   at least what was asked for. Needs the GNU C library. */
#include <malloc.h>
#include <stdio.h>
#include <stdlib.h>
#include <unistd.h>

extern void *__libc_malloc(size_t size);
extern void *__libc_calloc(size_t count, size_t size);
extern void *__libc_realloc(void *block, size_t size);
extern void __libc_free(void *block);

static size_t held;
static size_t peak;

static void *given(void *block)
{
    size_t now = __atomic_add_fetch(&held, malloc_usable_size(block), __ATOMIC_SEQ_CST);
    size_t most = __atomic_load_n(&peak, __ATOMIC_SEQ_CST);
    while (now > most && !__atomic_compare_exchange_n(&peak, &most, now, 0, __ATOMIC_SEQ_CST, __ATOMIC_SEQ_CST)) {
    }
    return block;
}

static void taken(void *block)
{
    __atomic_sub_fetch(&held, malloc_usable_size(block), __ATOMIC_SEQ_CST);
}

void *malloc(size_t size)
{
    return given(__libc_malloc(size));
}

void *calloc(size_t count, size_t size)
{
    return given(__libc_calloc(count, size));
}

void *realloc(void *block, size_t size)
{
    taken(block);
    void *moved = __libc_realloc(block, size);
    given(moved || size == 0 ? moved : block);
    return moved;
}

void free(void *block)
{
    taken(block);
    __libc_free(block);
}

__attribute__((destructor)) static void tell(void)
{
    size_t most = peak;
    const char *path = getenv("HELD");
    FILE *file = path ? fopen(path, "wx") : NULL;
    if (!file || fprintf(file, "%zu\n", most) < 0 || fclose(file) != 0)
        _exit(99); /* unseen, it would be taken for nothing held */
}
