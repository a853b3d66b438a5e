/* One publisher of a service for which many sessions wait. It sends single letters, so many lines at once, whose replies come before the
 * next. What is refused as full is sent again. Prints how many letters a second the service took, and how many were refused.
 *
 *     crowd WAITS W DEPTH PATH PROGRAM [WORD ..]    the service has room for W letters. WAITS may be 0
 */
#define _GNU_SOURCE
#include "common.h"

#include <fcntl.h>
#include <stdio.h>
#include <string.h>
#include <unistd.h>

enum { MOST_WAITS = 1023, MOST_DEPTH = 128, SECONDS = 1, SETTLED = 100000 };

/* The letters of a service that starts and dies again and again, and never says that it is ready. */
static const char *const LETTERS[] = { "pub db u\n", "pub db d\n", "pub db D\n" };
enum { KINDS = sizeof LETTERS / sizeof LETTERS[0], LENGTH = 9 };

struct publisher {
    int stream;
    /* The next letter that the service takes, and how many it took and refused. */
    long next, taken, refused;
};

static void ask(int stream, const char *text, char reply[LONGEST_REPLY])
{
    write_all(stream, text, strlen(text));
    read_until(stream, "\n", 1, reply);
    if (strncmp(reply, "ok", 2) != 0)
        die("a request was refused");
}

/* Opens so many sessions, each of which waits until the service is ready, and returns when all of them do. */
static void begin_waits(int publisher, long waits, const char *path, pid_t server)
{
    static const char wait[] = "wait all ready 1000000 db\n";
    char reply[LONGEST_REPLY];
    long begun = 0;
    for (long i = 0; i < waits; i++)
        write_all(connect_to(path, server), wait, sizeof wait - 1);
    while (begun < waits) {
        usleep(1000);
        ask(publisher, "about db\n", reply);
        if (sscanf(reply, "ok svc 1 %*s %*s hold %ld", &begun) != 1)
            die("the service isn't what it was made as");
    }
    usleep(SETTLED);
}

/* What a reply says of the letter that it answers. After a letter that was refused as full, the next ones may be unlawful. */
static void count_reply(struct publisher *publisher, long letter, const char *reply)
{
    if (strncmp(reply, "ok ", 3) == 0) {
        publisher->taken++;
        publisher->next = (letter + 1) % KINDS;
    } else if (strncmp(reply, "no full", 7) == 0) {
        publisher->refused++;
    } else if (strncmp(reply, "no unlawful", 11) != 0 || publisher->refused == 0) {
        die("a letter was refused");
    }
}

/* Reads the replies to so many letters, of which this was the first. */
static void read_burst(struct publisher *publisher, long first, long depth)
{
    char bytes[LONGEST_REPLY];
    size_t length = 0;
    for (long count = 0; count < depth;) {
        ssize_t more = read(publisher->stream, bytes + length, sizeof bytes - length);
        if (more <= 0)
            die("no reply came");
        char *end, *from = bytes, *all = bytes + length + more;
        for (; (end = memchr(from, '\n', (size_t)(all - from))) != NULL; from = end + 1)
            count_reply(publisher, (first + count++) % KINDS, from);
        length = (size_t)(all - from);
        memmove(bytes, from, length);
    }
}

static double publish(struct publisher *publisher, long depth)
{
    char burst[MOST_DEPTH * LENGTH];
    double begun = now();
    while (now() - begun < SECONDS) {
        long first = publisher->next;
        for (long i = 0; i < depth; i++)
            memcpy(burst + i * LENGTH, LETTERS[(first + i) % KINDS], LENGTH);
        write_all(publisher->stream, burst, (size_t)(depth * LENGTH));
        read_burst(publisher, first, depth);
    }
    return (double)publisher->taken / (now() - begun);
}

int main(int count, char **words)
{
    char text[64], reply[LONGEST_REPLY];
    begin_program(count, 6, "usage: crowd WAITS W DEPTH PATH PROGRAM ..");
    long waits = strcmp(words[1], "0") == 0 ? 0 : number_of(words[1]), depth = number_of(words[3]);
    if (waits > MOST_WAITS || depth > MOST_DEPTH)
        die("too many waits, or too many lines at once");
    int nothing = open("/dev/null", O_RDWR | O_CLOEXEC);
    pid_t server = start(words + 5, nothing, nothing);
    struct publisher publisher = { .stream = connect_to(words[4], server) };
    snprintf(text, sizeof text, "svc db %ld 1000000000000 1\n", number_of(words[2]));
    ask(publisher.stream, text, reply);
    ask(publisher.stream, "pub db s\n", reply);
    begin_waits(publisher.stream, waits, words[4], server);
    double rate = publish(&publisher, depth);
    printf("%.0f %ld\n", rate, publisher.refused);
    stop(server);
    unlink(words[4]);
    return 0;
}
