/* Loaded before a program by LD_PRELOAD, counts the threads that it starts: at the program's end their number is
   appended to the file STARTED_LOG, a line for each process, since a program of tests has one for each test. Where
   STARTED_MOST is a number, no more threads than that are started: for each further one the system is said to have none
   left. Needs the GNU C library. */
#define _GNU_SOURCE
#include <dlfcn.h>
#include <errno.h>
#include <fcntl.h>
#include <pthread.h>
#include <stdatomic.h>
#include <stdio.h>
#include <stdlib.h>
#include <sys/syscall.h>
#include <unistd.h>

static atomic_ulong started;

int pthread_create(pthread_t *thread, const pthread_attr_t *attributes, void *(*work)(void *), void *given)
{
    int (*create)(pthread_t *, const pthread_attr_t *, void *(*)(void *), void *);
    const char *most = getenv("STARTED_MOST");
    if (most && *most && atomic_load(&started) >= strtoul(most, NULL, 10))
        return EAGAIN;
    *(void **)&create = dlsym(RTLD_NEXT, "pthread_create");
    int refused = create(thread, attributes, work, given);
    if (!refused)
        atomic_fetch_add(&started, 1);
    return refused;
}

static void log_starts(void)
{
    static atomic_flag done = ATOMIC_FLAG_INIT;
    char line[32];
    const char *path = getenv("STARTED_LOG");
    if (!path || atomic_flag_test_and_set(&done))
        return;
    int length = snprintf(line, sizeof line, "%lu\n", atomic_load(&started));
    int file = open(path, O_WRONLY | O_CREAT | O_APPEND, 0600);
    if (file >= 0 && write(file, line, length) == length)
        close(file);
}

/* A Rattle program ends by _exit. */
void _exit(int status)
{
    log_starts();
    syscall(SYS_exit_group, status);
    __builtin_unreachable();
}

__attribute__((destructor)) static void end(void)
{
    log_starts();
}
