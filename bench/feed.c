/* Many lines at once: the program reads them from a file in memory and writes its replies to another. Prints the
 * microseconds of user time and of system time for each line, and a hash of the replies, by which two programs that
 * answer alike are known.
 *
 *     feed KIND COUNT PROGRAM [WORD ..]
 */
#define _GNU_SOURCE
#include "common.h"

#include <stdint.h>
#include <stdio.h>
#include <string.h>
#include <sys/mman.h>
#include <sys/resource.h>
#include <sys/time.h>
#include <unistd.h>

static int memory_file(const char *name)
{
    int file = memfd_create(name, MFD_CLOEXEC);
    if (file < 0)
        die("no file in memory");
    return file;
}

/* The lines of the setup, and then so many of the circle. */
static int input_of(const struct load *load, long count)
{
    int file = memory_file("lines");
    FILE *lines = fdopen(dup(file), "w");
    if (lines == NULL)
        die("no file in memory");
    for (size_t i = 0; i < load->setup_count; i++)
        fwrite(load->setup[i].text, 1, load->setup[i].length, lines);
    for (long i = 0; i < count; i++) {
        struct line line = load->circle[(size_t)i % load->circle_count];
        fwrite(line.text, 1, line.length, lines);
    }
    if (fclose(lines) != 0 || lseek(file, 0, SEEK_SET) != 0)
        die("the lines could not be written");
    return file;
}

/* FNV-1a of the replies; dies where one is a refusal, or where they aren't so many. */
static uint64_t hash_of(int file, long replies)
{
    uint64_t hash = 14695981039346656037u;
    FILE *lines = fdopen(file, "r");
    char reply[LONGEST_REPLY];
    if (lines == NULL || fseek(lines, 0, SEEK_SET) != 0)
        die("the replies could not be read");
    while (fgets(reply, sizeof reply, lines) != NULL) {
        if (strncmp(reply, "no ", 3) == 0)
            die("a line was refused");
        for (char *byte = reply; *byte != '\0'; byte++)
            hash = (hash ^ (unsigned char)*byte) * 1099511628211u;
        replies--;
    }
    if (replies != 0)
        die("there isn't one reply for each line");
    fclose(lines);
    return hash;
}

static double microseconds(struct timeval time)
{
    return (double)time.tv_sec * 1e6 + (double)time.tv_usec;
}

int main(int count, char **words)
{
    struct rusage used;
    begin_program(count, 4, "usage: feed KIND COUNT PROGRAM ..");
    long lines = number_of(words[2]);
    struct load load = load_of(words[1], "hub");
    int output = memory_file("replies");
    pid_t child = start(words + 3, input_of(&load, lines), output);
    wait_for(child);
    getrusage(RUSAGE_CHILDREN, &used);
    printf("%.4f %.4f %016llx\n", microseconds(used.ru_utime) / (double)lines,
        microseconds(used.ru_stime) / (double)lines,
        (unsigned long long)hash_of(output, (long)load.setup_count + lines));
    return 0;
}
