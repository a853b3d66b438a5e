/* How long it takes from a message to those who wait for it. Prints the median and the 99th percentile in microseconds, over
 * all rounds and all who wait.
 *
 *     wake hub WAITERS ROUNDS PATH PROGRAM [WORD ..]      sessions in a `wait`, until they have its reply
 *     wake await WAITERS ROUNDS PATH PROGRAM [WORD ..]    sessions in an `await`, until they have the reply of a `poll` after it
 *     wake next WAITERS ROUNDS PATH PROGRAM [WORD ..]     sessions of a listener in a `next`, until they have its reply
 *     wake redis WAITERS ROUNDS PATH PROGRAM [WORD ..]    subscribers of a channel, until they have the message
 *     wake call ROUNDS PATH PROGRAM [WORD ..]             a process `PROGRAM call PATH` in a `wait`, until it has ended
 *     wake ftrig ROUNDS FIFODIR                           a process `s6-ftrig-wait FIFODIR u`, until it has ended
 */
#define _GNU_SOURCE
#include "common.h"

#include <dirent.h>
#include <fcntl.h>
#include <pthread.h>
#include <signal.h>
#include <stdio.h>
#include <stdlib.h>
#include <string.h>
#include <sys/wait.h>
#include <unistd.h>

/* `SETTLED` microseconds after who waits has begun, the message is sent. */
enum { MOST_WAITERS = 63, MOST_ROUNDS = 1000, SETTLED = 50000 };

/* What is sent to a server: by who waits, once, in each round, and when the event has come; by who publishes, before all, in
 * each round, and after it. An empty line isn't sent. */
struct talk {
    const char *once, *wait, *then;
    const char *setup[2], *event, *back;
    const char *end_of_once, *end_of_event;
};

static const struct talk HUB = {
    "", "wait all up 1000000 db\n", "",
    { "svc db 4096 1000000000000 0\n", "pub db s\n" }, "pub db u\n", "pub db dD\n",
    "\n", "\n",
};

static const struct talk AWAIT = {
    "listen db repeat u\n", "await 1 1000000\n", "poll 1\n",
    { "dir db 4096 1000000000000\n", "" }, "pub db u\n", "",
    "ok 1\n", "ok\n",
};

static const struct talk NEXT = {
    "listen db repeat u\n", "next 1 1000000\n", "",
    { "dir db 4096 1000000000000\n", "" }, "pub db u\n", "",
    "ok 1\n", "hit u\n",
};

static const struct talk REDIS = {
    "*2\r\n$9\r\nSUBSCRIBE\r\n$3\r\nhub\r\n", "", "",
    { "", "" }, "*3\r\n$7\r\nPUBLISH\r\n$3\r\nhub\r\n$1\r\na\r\n", "",
    ":1\r\n", "\r\na\r\n",
};

struct waiter {
    pthread_t thread;
    const struct talk *talk;
    pthread_barrier_t *turn;
    long rounds;
    int stream;
    double came[MOST_ROUNDS];
};

static struct waiter waiters[MOST_WAITERS];
static double begun[MOST_ROUNDS];
static double delays[MOST_WAITERS * MOST_ROUNDS];

static int compare(const void *a, const void *b)
{
    double x = *(const double *)a, y = *(const double *)b;
    return (x > y) - (x < y);
}

static void print_delays(size_t count)
{
    qsort(delays, count, sizeof delays[0], compare);
    printf("%.0f %.0f\n", 1e6 * delays[count / 2], 1e6 * delays[count * 99 / 100]);
}

/* Reads until what came ends so, and dies where it is a refusal. */
static void read_answer(int from, const char *end)
{
    char reply[LONGEST_REPLY];
    read_until(from, end, strlen(end), reply);
    if (strncmp(reply, "no ", 3) == 0 || reply[0] == '-')
        die("a line was refused");
}

static void send_text(int to, const char *text)
{
    write_all(to, text, strlen(text));
}

/* Sends a line that is answered by one line, if there is one to send. */
static void send_line(int stream, const char *line)
{
    if (*line != '\0') {
        send_text(stream, line);
        read_answer(stream, "\n");
    }
}

static void *run_waiter(void *of)
{
    struct waiter *waiter = of;
    if (*waiter->talk->once != '\0') {
        send_text(waiter->stream, waiter->talk->once);
        read_answer(waiter->stream, waiter->talk->end_of_once);
    }
    for (long round = 0; round < waiter->rounds; round++) {
        pthread_barrier_wait(waiter->turn);
        send_text(waiter->stream, waiter->talk->wait);
        read_answer(waiter->stream, waiter->talk->end_of_event);
        send_line(waiter->stream, waiter->talk->then);
        waiter->came[round] = now();
        pthread_barrier_wait(waiter->turn);
    }
    close(waiter->stream);
    return NULL;
}

static void wake_sessions(const struct talk *talk, int count, long rounds, const char *path, char **program)
{
    pthread_barrier_t turn;
    int nothing = open("/dev/null", O_RDWR | O_CLOEXEC);
    pid_t child = start(program, nothing, nothing);
    int publisher = connect_to(path, child);
    pthread_barrier_init(&turn, NULL, (unsigned)count + 1);
    for (int i = 0; i < 2; i++)
        send_line(publisher, talk->setup[i]);
    for (int i = 0; i < count; i++) {
        waiters[i] = (struct waiter){ .talk = talk, .turn = &turn, .rounds = rounds, .stream = connect_to(path, child) };
        if (pthread_create(&waiters[i].thread, NULL, run_waiter, &waiters[i]) != 0)
            die("no thread");
    }
    for (long round = 0; round < rounds; round++) {
        pthread_barrier_wait(&turn);
        usleep(SETTLED);
        begun[round] = now();
        send_line(publisher, talk->event);
        pthread_barrier_wait(&turn);
        send_line(publisher, talk->back);
    }
    close(publisher);
    for (int i = 0; i < count; i++)
        pthread_join(waiters[i].thread, NULL);
    if (talk == &REDIS)
        kill(child, SIGTERM);
    wait_for(child);
    unlink(path);
    size_t all = 0;
    for (int i = 0; i < count; i++)
        for (long round = 0; round < rounds; round++)
            delays[all++] = waiters[i].came[round] - begun[round];
    print_delays(all);
}

/* Starts a process that waits, with this text as its input. */
static pid_t start_waiter(char **program, const char *text)
{
    int input[2], nothing = open("/dev/null", O_RDWR | O_CLOEXEC);
    if (pipe2(input, O_CLOEXEC) != 0)
        die("no pipe");
    pid_t child = start(program, input[0], nothing);
    send_text(input[1], text);
    close(input[0]);
    close(input[1]);
    close(nothing);
    usleep(SETTLED);
    return child;
}

static void wake_calls(long rounds, char *path, char **program)
{
    char *call[] = { program[0], "call", path, NULL };
    int nothing = open("/dev/null", O_RDWR | O_CLOEXEC);
    pid_t server = start(program, nothing, nothing);
    int publisher = connect_to(path, server);
    send_line(publisher, HUB.setup[0]);
    send_line(publisher, HUB.setup[1]);
    for (long round = 0; round < rounds; round++) {
        pid_t child = start_waiter(call, HUB.wait);
        double begin = now();
        send_text(publisher, HUB.event);
        wait_for(child);
        delays[round] = now() - begin;
        read_answer(publisher, "\n");
        send_line(publisher, HUB.back);
    }
    close(publisher);
    wait_for(server);
    unlink(path);
    print_delays((size_t)rounds);
}

/* Sends a letter to each who listens at a fifodir of s6, as `s6-ftrig-notify` does, and returns to how many. */
static int notify(const char *fifodir)
{
    int told = 0;
    char path[4096];
    DIR *all = opendir(fifodir);
    struct dirent *entry;
    if (all == NULL)
        die("no fifodir");
    while ((entry = readdir(all)) != NULL) {
        snprintf(path, sizeof path, "%s/%s", fifodir, entry->d_name);
        int fifo = strncmp(entry->d_name, "ftrig1", 6) == 0 ? open(path, O_WRONLY | O_NONBLOCK | O_CLOEXEC) : -1;
        if (fifo >= 0) {
            send_text(fifo, "u");
            close(fifo);
            told++;
        }
    }
    closedir(all);
    return told;
}

static void wake_listeners(long rounds, char *fifodir)
{
    char *wait[] = { "s6-ftrig-wait", fifodir, "u", NULL };
    for (long round = 0; round < rounds; round++) {
        pid_t child = start_waiter(wait, "");
        double begin = now();
        while (notify(fifodir) == 0)
            begin = now();
        wait_for(child);
        delays[round] = now() - begin;
    }
    print_delays((size_t)rounds);
}

/* What is said in a run of this kind, or NULL. */
static const struct talk *talk_of(const char *kind)
{
    static const struct { const char *kind; const struct talk *talk; } talks[] = {
        { "hub", &HUB }, { "await", &AWAIT }, { "next", &NEXT }, { "redis", &REDIS },
    };
    for (size_t i = 0; i < sizeof talks / sizeof talks[0]; i++)
        if (strcmp(kind, talks[i].kind) == 0)
            return talks[i].talk;
    return NULL;
}

int main(int count, char **words)
{
    static const char usage[] = "usage: wake hub|await|next|redis WAITERS ROUNDS PATH PROGRAM .. | wake call ROUNDS PATH PROGRAM .. | "
                                "wake ftrig ROUNDS FIFODIR";
    begin_program(count, 4, usage);
    signal(SIGPIPE, SIG_IGN);
    if (strcmp(words[1], "ftrig") == 0 && number_of(words[2]) <= MOST_ROUNDS) {
        wake_listeners(number_of(words[2]), words[3]);
    } else if (count > 4 && strcmp(words[1], "call") == 0 && number_of(words[2]) <= MOST_ROUNDS) {
        wake_calls(number_of(words[2]), words[3], words + 4);
    } else if (count > 5 && number_of(words[2]) <= MOST_WAITERS && number_of(words[3]) <= MOST_ROUNDS) {
        const struct talk *talk = talk_of(words[1]);
        if (talk == NULL)
            die(usage);
        wake_sessions(talk, (int)number_of(words[2]), number_of(words[3]), words[4], words + 5);
    } else {
        die(usage);
    }
    return 0;
}
