/* What a session costs that waits for a service which never gets up: prints the processor time of the program over
 * the time of the wait, and that time in seconds.
 *
 *     idle TURNS PATH PROGRAM [WORD ..]
 */
#define _GNU_SOURCE
#include "common.h"

#include <fcntl.h>
#include <stdio.h>
#include <string.h>
#include <unistd.h>

int main(int count, char **words)
{
    char reply[LONGEST_REPLY], text[64];
    struct line service = { "svc db 64 1000 0\n", 17 };
    begin_program(count, 4, "usage: idle TURNS PATH PROGRAM ..");
    struct line wait = { text, (size_t)snprintf(text, sizeof text, "wait all up %ld db\n", number_of(words[1])) };
    int nothing = open("/dev/null", O_RDWR | O_CLOEXEC);
    pid_t child = start(words + 3, nothing, nothing);
    int stream = connect_to(words[2], child);
    request(stream, stream, service, reply);
    double used = processor_time(child);
    double begun = now();
    request(stream, stream, wait, reply);
    double took = now() - begun;
    used = processor_time(child) - used;
    if (strcmp(reply, "late\n") != 0)
        die("the wait wasn't answered `late`");
    close(stream);
    wait_for(child);
    unlink(words[2]);
    printf("%.6f %.3f\n", used / took, took);
    return 0;
}
