/* So many requests at a time: lines are written, their replies are waited for, and only then come the next. Over a pipe it
 * is one. Prints how many requests there were in a second, in the best part of the run, of some thousand requests a client:
 * what else the machine does at the same time comes and goes. The program is started here, and has ended when this ends.
 *
 *     ask pipe KIND PARTS PROGRAM [WORD ..]
 *     ask socket KIND CLIENTS DEPTH PARTS PATH PROGRAM [WORD ..]
 *     ask beside KIND WAITS DEPTH PARTS PATH PROGRAM [WORD ..]    one client, while so many other sessions wait for a service
 */
#define _GNU_SOURCE
#include "common.h"

#include <fcntl.h>
#include <pthread.h>
#include <signal.h>
#include <stdio.h>
#include <stdlib.h>
#include <string.h>
#include <unistd.h>

/* A part is so many requests: more of them if they are sent many at a time. */
enum { MOST_CLIENTS = 64, MOST_WAITS = 63, PART = 1024, DEEP_PART = 16 * PART };

struct client {
    pthread_t thread;
    pthread_barrier_t *begin;
    struct load load;
    long depth, parts;
    int stream;
    /* When its last part began and ended. */
    double begun, ended;
};

static double max(double a, double b)
{
    return a > b ? a : b;
}

static void ask_over_pipes(const char *kind, long parts, char **program)
{
    int to[2], from[2];
    struct load load = load_of(kind, "hub");
    if (pipe2(to, O_CLOEXEC) != 0 || pipe2(from, O_CLOEXEC) != 0)
        die("no pipe");
    stay_on_one_processor();
    pid_t child = start(program, to[0], from[1]);
    close(to[0]);
    close(from[1]);
    send_setup(from[0], to[1], &load);
    double best = 0;
    for (long part = 0; part < parts; part++) {
        double begun = now();
        send_circle(from[0], to[1], &load, PART);
        best = max(best, PART / (now() - begun));
    }
    close(to[1]);
    wait_for(child);
    printf("%.0f\n", best);
}

static void *run_client(void *of)
{
    struct client *client = of;
    send_setup(client->stream, client->stream, &client->load);
    for (long part = 0; part < client->parts; part++) {
        pthread_barrier_wait(client->begin);
        client->begun = now();
        if (client->depth == 1)
            send_circle(client->stream, client->stream, &client->load, PART);
        else
            send_deep(client->stream, client->stream, &client->load, client->depth, DEEP_PART);
        client->ended = now();
        pthread_barrier_wait(client->begin);
    }
    close(client->stream);
    return NULL;
}

/* From the first client's beginning of a part to the last one's end. */
static double time_of_part(const struct client *all, int clients)
{
    double begun = all[0].begun, ended = all[0].ended;
    for (int i = 1; i < clients; i++) {
        begun = -max(-begun, -all[i].begun);
        ended = max(ended, all[i].ended);
    }
    return ended - begun;
}

/* Opens so many sessions, each of which waits for a service that never gets up. */
static void begin_waits(int *streams, int waits, const char *path, pid_t child)
{
    static char service[] = "svc idle 64 1000 0\n", wait[] = "wait all up 1000000 idle\n";
    char reply[LONGEST_REPLY];
    for (int i = 0; i < waits; i++) {
        streams[i] = connect_to(path, child);
        if (i == 0)
            request(streams[i], streams[i], (struct line){ service, sizeof service - 1 }, reply);
        write_all(streams[i], wait, sizeof wait - 1);
    }
}

/* Whether a program serves for ever. */
static int is_forever(char **program)
{
    while (*program != NULL && strcmp(*program, "--forever") != 0)
        program++;
    return *program != NULL;
}

/* Ends the server. A hub ends by itself when its clients have closed, unless it serves for ever, or its waits go on. */
static void end_server(pid_t server, const char *kind, int goes_on)
{
    if (goes_on || strncmp(kind, "nats", 4) == 0) {
        stop(server);
        return;
    }
    if (strcmp(kind, "redis") == 0)
        kill(server, SIGTERM);
    wait_for(server);
}

static void ask_over_socket(const char *kind, int clients, int waits, long depth, long parts, const char *path, char **program)
{
    static struct client all[MOST_CLIENTS];
    int waiting[MOST_WAITS];
    pthread_barrier_t begin;
    double best = 0;
    int nothing = open("/dev/null", O_RDWR | O_CLOEXEC);
    if (clients == 1)
        stay_on_one_processor();
    pid_t child = start(program, nothing, nothing);
    begin_waits(waiting, waits, path, child);
    pthread_barrier_init(&begin, NULL, (unsigned)clients + 1);
    for (int i = 0; i < clients; i++) {
        char fifodir[16];
        snprintf(fifodir, sizeof fifodir, "hub%d", i);
        all[i] = (struct client){ 0, &begin, load_of(kind, fifodir), depth, parts, connect_to(path, child), 0, 0 };
        if (pthread_create(&all[i].thread, NULL, run_client, &all[i]) != 0)
            die("no thread");
    }
    for (long part = 0; part < parts; part++) {
        pthread_barrier_wait(&begin);
        pthread_barrier_wait(&begin);
        best = max(best, clients * (depth == 1 ? PART : DEEP_PART) / time_of_part(all, clients));
    }
    for (int i = 0; i < clients; i++)
        pthread_join(all[i].thread, NULL);
    end_server(child, kind, waits > 0 || is_forever(program));
    unlink(path);
    printf("%.0f\n", best);
}

int main(int count, char **words)
{
    static const char usage[] = "usage: ask pipe KIND PARTS PROGRAM .. | ask socket KIND CLIENTS DEPTH PARTS PATH PROGRAM .. | "
                                "ask beside KIND WAITS DEPTH PARTS PATH PROGRAM ..";
    begin_program(count, 5, usage);
    signal(SIGPIPE, SIG_IGN);
    if (strcmp(words[1], "pipe") == 0) {
        ask_over_pipes(words[2], number_of(words[3]), words + 4);
    } else if (count > 7 && strcmp(words[1], "socket") == 0 && number_of(words[3]) <= MOST_CLIENTS) {
        ask_over_socket(words[2], (int)number_of(words[3]), 0, number_of(words[4]), number_of(words[5]), words[6], words + 7);
    } else if (count > 7 && strcmp(words[1], "beside") == 0 && number_of(words[3]) <= MOST_WAITS) {
        ask_over_socket(words[2], 1, (int)number_of(words[3]), number_of(words[4]), number_of(words[5]), words[6], words + 7);
    } else {
        die(usage);
    }
    return 0;
}
