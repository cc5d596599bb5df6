/*
 * A little device: descriptors of 64 bytes from the standard input, completion records of 32 bytes to the standard
 * output, each as soon as its job is done. A driver can be played against it through two pipes, and a driver's log as
 * it stands. This file is C and C++.
 *
 *     cc -o device device.c $(pkg-config --cflags --libs kazovuni)
 *     grep -v '^#' device.log | tr a-f A-F | basenc --base16 -di | ./device -p 1 | od -An -v -tx1 -w32
 *
 *   -p PAGES  the memory has so many pages of 4,096 bytes, 1 to 4,096, all zero (16 where nothing is said)
 *   -m FILE   the memory is that of a file of whole pages, which keeps what the jobs write
 *   -b BASE   the address of the memory's first byte, as the log has it: a multiple of 4,096 (0 where nothing is said)
 *
 * A job that leaves the memory is answered by a page fault, any but the eight operations by status 10: so the jobs of a
 * batch have to stand in the log themselves. Status 0 at the end of the input, 1 where it ends inside of a descriptor
 * or something failed, 2 where the words are wrong.
 */
#define _POSIX_C_SOURCE 200809L
#include "kazovuni.h"

#include <fcntl.h>
#include <stdio.h>
#include <stdlib.h>
#include <sys/mman.h>
#include <sys/stat.h>
#include <unistd.h>

enum { STAGING = 1048576 }; /* as much as the largest job needs */

typedef struct device_memory {
    uint8_t *bytes;
    size_t length;
} device_memory;

static uint8_t zeros[KAZOVUNI_MOST_PAGES * KAZOVUNI_PAGE_BYTES];

/* The bytes of a file; none where they are not to be had. */
static device_memory map_file(const char *file)
{
    device_memory memory = {NULL, 0};
    struct stat status;
    int descriptor = open(file, O_RDWR);
    if (descriptor < 0 || fstat(descriptor, &status) != 0)
        return memory;
    void *bytes = mmap(NULL, (size_t)status.st_size, PROT_READ | PROT_WRITE, MAP_SHARED, descriptor, 0);
    memory.bytes = bytes == MAP_FAILED ? NULL : (uint8_t *)bytes;
    memory.length = (size_t)status.st_size;
    return memory;
}

/* Answers each descriptor of the input; false where it cannot go on. */
static bool serve(device_memory memory, uint64_t base)
{
    uint8_t descriptor[KAZOVUNI_DESCRIPTOR_BYTES], record[KAZOVUNI_RECORD_BYTES];
    size_t count;
    while ((count = fread(descriptor, 1, sizeof descriptor, stdin)) == sizeof descriptor) {
        uint8_t answer = kazovuni_submit_pointers(base, memory.bytes, memory.length, descriptor, STAGING, record);
        if (answer != KAZOVUNI_OK) {
            fprintf(stderr, answer == KAZOVUNI_NOT_PAGES ? "device: the memory is not 1 to 4,096 whole pages\n"
                                                         : "device: out of memory\n");
            return false;
        }
        if (fwrite(record, sizeof record, 1, stdout) != 1 || fflush(stdout) != 0) {
            perror("device: standard output");
            return false;
        }
    }
    if (ferror(stdin))
        perror("device: standard input");
    else if (count != 0)
        fprintf(stderr, "device: the input ends inside of a descriptor\n");
    return !ferror(stdin) && count == 0;
}

static bool read_number(const char *word, uint64_t *number)
{
    char *end;
    *number = strtoull(word, &end, 0); /* decimal, or hexadecimal behind 0x */
    return end != word && *end == '\0';
}

int main(int count, char **words)
{
    const char *file = NULL;
    uint64_t base = 0, pages = 16;
    bool is_right = true;
    for (int option; (option = getopt(count, words, "p:m:b:")) != -1;)
        switch (option) {
        case 'p': is_right &= read_number(optarg, &pages); break;
        case 'b': is_right &= read_number(optarg, &base); break;
        case 'm': file = optarg; break;
        default: is_right = false;
        }
    is_right &= optind == count && pages >= 1 && pages <= KAZOVUNI_MOST_PAGES && base % KAZOVUNI_PAGE_BYTES == 0;
    if (!is_right) {
        fprintf(stderr, "usage: device [-p PAGES | -m FILE] [-b BASE]\n");
        return 2;
    }
    device_memory memory = {zeros, (size_t)pages * KAZOVUNI_PAGE_BYTES};
    if (file)
        memory = map_file(file);
    if (!memory.bytes) {
        perror(file);
        return 1;
    }
    return serve(memory, base) ? 0 : 1;
}
