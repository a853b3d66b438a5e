/* What the load generators share: request lines, requests, and the program that is measured. */
#ifndef COMMON_H
#define COMMON_H

#include <stddef.h>
#include <sys/types.h>

/* No reply of a hub, an echo, Redis or NATS is longer. */
enum { LONGEST_REPLY = 8192 };

/* The lines of NATS by which a client begins: the last of what answers them is the PONG. */
#define NATS_HELLO(verbose) "CONNECT {\"verbose\":" verbose ",\"pedantic\":false}\r\nPING\r\n"
#define NATS_PONG "PONG\r\n"

struct line {
    char *text;
    size_t length;
};

/* Lines that are sent once, and then lines that are sent in a circle. */
struct load {
    struct line *setup;
    size_t setup_count;
    /* How the reply to a line of the setup ends. */
    const char *setup_end;
    struct line *circle;
    size_t circle_count;
    size_t place;
    /* If the lines of the circle have no replies, this line is sent behind so many of them, and has one. */
    struct line last;
};

/* The load of one kind (pub, take, status, mixed, own, shared, redis, nats, nats-pings) over a fifodir with this name. Of NATS, each
 * message is acknowledged, or only a PING behind so many of them. */
struct load load_of(const char *kind, const char *fifodir);

/* Writes a message to standard error, kills what was started, and ends with status 1. */
void die(const char *message) __attribute__((noreturn));

/* Begins a program: it ends after 100 seconds at the latest, and dies with its usage if its command line has fewer words. It may open
 * as many files as the machine lets it, and so may what it starts. */
void begin_program(int count, int wanted, const char *usage);

/* The number that a word of the command line is; dies if it is none above 0. */
long number_of(const char *word);

/* Seconds of the monotonic clock. */
double now(void);

/* Writes all of the bytes. */
void write_all(int to, const char *bytes, size_t length);

/* Reads until what came ends with these bytes, and leaves it in reply, ended by a zero byte. */
void read_until(int from, const char *end, size_t length, char reply[LONGEST_REPLY]);

/* Sends one line, waits for the line that answers it, and leaves that in reply, ended by a zero byte. */
void request(int from, int to, struct line line, char reply[LONGEST_REPLY]);

/* Sends the lines of the setup, each answered before the next. */
void send_setup(int from, int to, const struct load *load);

/* Sends the next lines of the circle, so many, each answered before the next; dies where one is refused. */
void send_circle(int from, int to, struct load *load, long count);

/* Reads so many replies, of a line each, and dies where one of them refuses. (NATS asks with a PING whether its client is there. That is
 * no reply, and nobody has to answer it for minutes.) */
void read_replies(int from, long count);

/* Sends the next lines of the circle, so many, always `depth` of them at once, whose replies come before the next. */
void send_deep(int from, int to, struct load *load, long depth, long count);

/* Keeps this process, and what it starts, on the processor that it runs on. Who asks and who answers take turns, so one
 * is enough; on two, most of the time of a request is that of waking the other, which is the machine's. */
void stay_on_one_processor(void);

/* Starts a program on these descriptors. It is killed when its starter ends. */
pid_t start(char **program, int input, int output);

/* Seconds of processor time that all threads of a process have used. */
double processor_time(pid_t process);

/* Kills the program. */
void stop(pid_t program);

/* Waits until the program has ended; dies where it failed. */
void wait_for(pid_t program);

/* Connects to the Unix socket of a program that was just started, or, if the path is `tcp:PORT`, to that port of this machine. */
int connect_to(const char *path, pid_t program);

#endif
