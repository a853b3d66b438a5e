/* What sleeping alone costs: so many naps of a millisecond. Prints the processor time over the time, and that time in
 * seconds, as `idle` does of a session that waits.
 *
 *     naps COUNT
 */
#define _GNU_SOURCE
#include "common.h"

#include <stdio.h>
#include <time.h>
#include <unistd.h>

int main(int count, char **words)
{
    struct timespec used;
    begin_program(count, 2, "usage: naps COUNT");
    long naps = number_of(words[1]);
    double begun = now();
    for (long i = 0; i < naps; i++)
        usleep(1000);
    double took = now() - begun;
    clock_gettime(CLOCK_PROCESS_CPUTIME_ID, &used);
    printf("%.6f %.3f\n", ((double)used.tv_sec + (double)used.tv_nsec / 1e9) / took, took);
    return 0;
}
