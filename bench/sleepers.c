/* What sessions cost that wait while nothing happens: prints the processor time of the program over the time that they
 * waited, and the KiB of its memory over their number. Before that, each session sends so many lines at once.
 *
 *     sleepers hub SESSIONS NAMES SECONDS LINES PATH PROGRAM [WORD ..]      each in a `wait` for so many services
 *     sleepers redis SESSIONS NAMES SECONDS LINES PATH PROGRAM [WORD ..]    each subscribed to so many channels
 */
#define _GNU_SOURCE
#include "common.h"

#include <fcntl.h>
#include <stdio.h>
#include <string.h>
#include <unistd.h>

enum { MOST_SESSIONS = 1024, MOST_NAMES = 32, MOST_LINE = 1024, MOST_LINES = 4096 };

static void make_services(int stream, int names)
{
    char text[MOST_LINE], reply[LONGEST_REPLY];
    for (int i = 0; i < names; i++) {
        struct line line = { text, (size_t)snprintf(text, sizeof text, "svc n%d 64 1000 0\n", i) };
        request(stream, stream, line, reply);
        if (strcmp(reply, "ok\n") != 0)
            die("a service wasn't made");
    }
}

/* Sends a line so many times at once, and reads the replies. */
static void send_lines(int stream, const char *line, long count)
{
    static char lines[MOST_LINES * 16];
    size_t length = strlen(line);
    for (long i = 0; i < count; i++)
        memcpy(lines + (size_t)i * length, line, length);
    write_all(stream, lines, (size_t)count * length);
    read_replies(stream, count);
}

/* Begins to wait for so many services, or channels. */
static void begin_to_wait(int stream, const char *front, int names, const char *end)
{
    char text[MOST_LINE];
    size_t length = (size_t)snprintf(text, sizeof text, "%s", front);
    for (int i = 0; i < names; i++)
        length += (size_t)snprintf(text + length, sizeof text - length, " n%d", i);
    length += (size_t)snprintf(text + length, sizeof text - length, "%s", end);
    write_all(stream, text, length);
}

/* KiB of memory that a process has. */
static double memory_of(pid_t process)
{
    char path[64], line[256];
    double found = 0;
    snprintf(path, sizeof path, "/proc/%d/status", (int)process);
    FILE *status = fopen(path, "r");
    if (status == NULL)
        die("no status of the program");
    while (fgets(line, sizeof line, status) != NULL && sscanf(line, "VmRSS: %lf", &found) != 1)
        ;
    fclose(status);
    return found;
}

int main(int count, char **words)
{
    begin_program(count, 8, "usage: sleepers hub|redis SESSIONS NAMES SECONDS LINES PATH PROGRAM ..");
    int is_hub = strcmp(words[1], "hub") == 0;
    long sessions = number_of(words[2]), names = number_of(words[3]), seconds = number_of(words[4]), lines = number_of(words[5]);
    if (sessions > MOST_SESSIONS || names > MOST_NAMES || lines > MOST_LINES)
        die("too many sessions, names or lines");
    int nothing = open("/dev/null", O_RDWR | O_CLOEXEC);
    pid_t child = start(words + 7, nothing, nothing);
    for (long i = 0; i < sessions; i++) {
        int stream = connect_to(words[6], child);
        if (is_hub && i == 0)
            make_services(stream, (int)names);
        send_lines(stream, is_hub ? "status n0\n" : "PING\r\n", lines);
        begin_to_wait(stream, is_hub ? "wait all up 1000000" : "SUBSCRIBE", (int)names, is_hub ? "\n" : "\r\n");
    }
    sleep(1);
    double used = processor_time(child), begun = now();
    sleep((unsigned)seconds);
    printf("%.6f %.1f\n", (processor_time(child) - used) / (now() - begun), memory_of(child) / (double)sessions);
    stop(child);
    unlink(words[6]);
    return 0;
}
