/* Runs a program and writes to the file named first how much memory it had resident at its peak, in KiB:
   peak FILE PROGRAM [WORD..]. Ends with the program's own status. Linux counts ru_maxrss in KiB. */
#define _DEFAULT_SOURCE
#include <stdio.h>
#include <sys/resource.h>
#include <sys/types.h>
#include <sys/wait.h>
#include <unistd.h>

int main(int count, char **words)
{
    if (count < 3)
        return 98;
    pid_t child = fork();
    if (child < 0)
        return 98;
    if (child == 0) {
        execv(words[2], words + 2);
        _exit(98);
    }
    int status;
    struct rusage use;
    if (wait4(child, &status, 0, &use) != child || !WIFEXITED(status))
        return 97;
    FILE *file = fopen(words[1], "w");
    if (!file || fprintf(file, "%ld\n", use.ru_maxrss) < 0 || fclose(file) != 0)
        return 98;
    return WEXITSTATUS(status);
}
