#define _GNU_SOURCE
#include "common.h"

#include <arpa/inet.h>
#include <errno.h>
#include <netinet/tcp.h>
#include <sched.h>
#include <signal.h>
#include <stdio.h>
#include <stdlib.h>
#include <string.h>
#include <sys/prctl.h>
#include <sys/resource.h>
#include <sys/socket.h>
#include <sys/un.h>
#include <sys/wait.h>
#include <time.h>
#include <unistd.h>

/* How many letters one `take` may take. */
enum { MOST_TAKEN = 256 };

/* The program that was started and hasn't been waited for. */
static pid_t running = 0;

void die(const char *message)
{
    fprintf(stderr, "%s: %s\n", program_invocation_short_name, message);
    if (running > 0) {
        kill(running, SIGKILL);
        waitpid(running, NULL, 0);
    }
    exit(1);
}

void begin_program(int count, int wanted, const char *usage)
{
    struct rlimit files;
    alarm(100);
    if (count < wanted)
        die(usage);
    if (getrlimit(RLIMIT_NOFILE, &files) == 0) {
        files.rlim_cur = files.rlim_max;
        setrlimit(RLIMIT_NOFILE, &files);
    }
}

long number_of(const char *word)
{
    char *end;
    long number = strtol(word, &end, 10);
    if (*word == '\0' || *end != '\0' || number < 1)
        die("a number above 0 is wanted");
    return number;
}

double now(void)
{
    struct timespec time;
    clock_gettime(CLOCK_MONOTONIC, &time);
    return (double)time.tv_sec + (double)time.tv_nsec / 1e9;
}

static void *room(size_t size)
{
    void *bytes = malloc(size);
    if (bytes == NULL)
        die("no memory");
    return bytes;
}

/* A line of which %s is the fifodir's name. */
static struct line line_of(const char *form, const char *fifodir)
{
    size_t size = strlen(form) + strlen(fifodir) + 1;
    struct line line = { room(size), 0 };
    line.length = (size_t)snprintf(line.text, size, form, fifodir);
    return line;
}

/* `pub` of as many letters as one `take` may take. */
static struct line longest_pub(const char *fifodir)
{
    char form[MOST_TAKEN + 16] = "pub %s ";
    size_t front = strlen(form);
    memset(form + front, 'a', MOST_TAKEN);
    strcpy(form + front + MOST_TAKEN, "\n");
    return line_of(form, fifodir);
}

/* A circle of one line and then so many of another. */
static void circle(struct load *load, struct line first, struct line rest, size_t count)
{
    load->circle_count = count + 1;
    load->circle = room(load->circle_count * sizeof(struct line));
    load->circle[0] = first;
    for (size_t i = 1; i <= count; i++)
        load->circle[i] = rest;
}

static void hub_setup(struct load *load, const char *fifodir, size_t count)
{
    load->setup = room(2 * sizeof(struct line));
    load->setup[0] = line_of("dir %s 4096 1000000000000\n", fifodir);
    load->setup[1] = line_of("sub %s\n", fifodir);
    load->setup_count = count;
}

/* The load of NATS: each message is acknowledged, or only a PING behind them. */
static void nats_load(struct load *load, int is_answered)
{
    load->setup_count = 1;
    load->setup[0] = line_of(is_answered ? NATS_HELLO("true") : NATS_HELLO("false"), "");
    load->setup_end = NATS_PONG;
    if (!is_answered)
        load->last = line_of("PING\r\n", "");
    struct line one = line_of("PUB hub 1\r\na\r\n", "");
    circle(load, one, one, 1);
}

/* The load of a peer, if it is of this kind. */
static int peer_load(struct load *load, const char *kind)
{
    if (strcmp(kind, "redis") == 0) {
        struct line one = line_of("*3\r\n$7\r\nPUBLISH\r\n$3\r\nhub\r\n$1\r\na\r\n", "");
        load->setup_count = 0;
        circle(load, one, one, 1);
        return 1;
    }
    int is_answered = strcmp(kind, "nats") == 0;
    if (!is_answered && strcmp(kind, "nats-pings") != 0)
        return 0;
    nats_load(load, is_answered);
    return 1;
}

struct load load_of(const char *kind, const char *fifodir)
{
    struct load load = { .setup_end = "\n", .last = { "", 0 } };
    struct line one = line_of("pub %s a\n", fifodir);
    struct line status = line_of("status %s\n", fifodir);
    hub_setup(&load, fifodir, 2);
    if (strcmp(kind, "pub") == 0) {
        /* One letter a line, and a `take` of them all so that the fifodir is never full. */
        circle(&load, line_of("take 1 256\n", ""), one, MOST_TAKEN);
    } else if (strcmp(kind, "take") == 0) {
        circle(&load, longest_pub(fifodir), line_of("take 1 1\n", ""), MOST_TAKEN);
    } else if (strcmp(kind, "status") == 0) {
        circle(&load, status, status, 1);
    } else if (strcmp(kind, "mixed") == 0) {
        circle(&load, line_of("pub %s ab\n", fifodir), status, 2);
        load.circle[1] = line_of("take 1 10\n", "");
    } else if (strcmp(kind, "own") == 0 || strcmp(kind, "shared") == 0) {
        /* Each session publishes to a fifodir of its own, or all to one. Nobody has subscribed. */
        const char *where = strcmp(kind, "own") == 0 ? fifodir : "hub";
        hub_setup(&load, where, 1);
        one = line_of("pub %s a\n", where);
        circle(&load, one, one, 1);
    } else if (!peer_load(&load, kind)) {
        die("no load of this kind");
    }
    return load;
}

void write_all(int to, const char *bytes, size_t length)
{
    while (length > 0) {
        ssize_t written = write(to, bytes, length);
        if (written <= 0)
            die("a write failed");
        bytes += written;
        length -= (size_t)written;
    }
}

void read_until(int from, const char *end, size_t length, char reply[LONGEST_REPLY])
{
    size_t came = 0;
    do {
        ssize_t more = read(from, reply + came, LONGEST_REPLY - 1 - came);
        if (more <= 0)
            die("no reply came");
        came += (size_t)more;
    } while (came < length || memcmp(reply + came - length, end, length) != 0);
    reply[came] = '\0';
}

void request(int from, int to, struct line line, char reply[LONGEST_REPLY])
{
    write_all(to, line.text, line.length);
    read_until(from, "\n", 1, reply);
}

void send_setup(int from, int to, const struct load *load)
{
    char reply[LONGEST_REPLY];
    for (size_t i = 0; i < load->setup_count; i++) {
        write_all(to, load->setup[i].text, load->setup[i].length);
        read_until(from, load->setup_end, strlen(load->setup_end), reply);
        if (strncmp(reply, "no ", 3) == 0 && strcmp(reply, "no exists\n") != 0)
            die("a line of the setup was refused");
    }
}

void send_circle(int from, int to, struct load *load, long count)
{
    char reply[LONGEST_REPLY];
    for (long i = 0; i < count; i++) {
        request(from, to, load->circle[load->place], reply);
        if (strncmp(reply, "no ", 3) == 0 || reply[0] == '-')
            die("a line was refused");
        load->place = (load->place + 1) % load->circle_count;
    }
}

void read_replies(int from, long count)
{
    char bytes[LONGEST_REPLY], front[4] = "";
    size_t length = 0;
    int refused = 0;
    while (count > 0) {
        ssize_t more = read(from, bytes, sizeof bytes);
        if (more <= 0)
            die("no reply came");
        for (ssize_t i = 0; i < more; i++) {
            if (length < sizeof front)
                front[length++] = bytes[i];
            if (bytes[i] != '\n')
                continue;
            refused |= front[0] == '-' || memcmp(front, "no ", 3) == 0;
            count -= memcmp(front, "PING", sizeof front) != 0;
            length = 0;
        }
    }
    if (refused)
        die("a line was refused");
}

/* Adds a line to the first bytes of some, of which there are so many, and returns how many there are then. */
static size_t add_line(char *lines, size_t length, size_t most, struct line line)
{
    if (length + line.length > most)
        die("the lines are too long for this depth");
    memcpy(lines + length, line.text, line.length);
    return length + line.length;
}

void send_deep(int from, int to, struct load *load, long depth, long count)
{
    static _Thread_local char lines[1 << 16];
    for (long sent = 0; sent < count; sent += depth) {
        size_t length = 0;
        for (long i = 0; i < depth; i++) {
            length = add_line(lines, length, sizeof lines, load->circle[load->place]);
            load->place = (load->place + 1) % load->circle_count;
        }
        length = add_line(lines, length, sizeof lines, load->last);
        write_all(to, lines, length);
        read_replies(from, load->last.length > 0 ? 1 : depth);
    }
}

void stay_on_one_processor(void)
{
    cpu_set_t set;
    CPU_ZERO(&set);
    CPU_SET((size_t)sched_getcpu(), &set);
    if (sched_setaffinity(0, sizeof set, &set) != 0)
        die("no processor to stay on");
}

pid_t start(char **program, int input, int output)
{
    pid_t starter = getpid();
    pid_t child = fork();
    if (child < 0)
        die("no process could be started");
    if (child > 0)
        return running = child;
    prctl(PR_SET_PDEATHSIG, SIGKILL);
    if (getppid() != starter || dup2(input, 0) < 0 || dup2(output, 1) < 0)
        _exit(127);
    execvp(program[0], program);
    _exit(127);
}

double processor_time(pid_t process)
{
    clockid_t clock;
    struct timespec time;
    if (clock_getcpuclockid(process, &clock) != 0 || clock_gettime(clock, &time) != 0)
        die("no processor time");
    return (double)time.tv_sec + (double)time.tv_nsec / 1e9;
}

void stop(pid_t program)
{
    kill(program, SIGKILL);
    waitpid(program, NULL, 0);
    running = 0;
}

void wait_for(pid_t program)
{
    int status;
    if (waitpid(program, &status, 0) != program)
        die("the program could not be waited for");
    running = 0;
    if (status != 0)
        die("the program failed");
}

union address {
    struct sockaddr any;
    struct sockaddr_un local;
    struct sockaddr_in port;
};

/* The address that a path is, and its length. */
static socklen_t address_of(const char *path, union address *address)
{
    memset(address, 0, sizeof *address);
    if (strncmp(path, "tcp:", 4) == 0) {
        address->port.sin_family = AF_INET;
        address->port.sin_port = htons((uint16_t)number_of(path + 4));
        address->port.sin_addr.s_addr = htonl(INADDR_LOOPBACK);
        return sizeof address->port;
    }
    if (strlen(path) >= sizeof address->local.sun_path)
        die("the socket's path is too long");
    address->local.sun_family = AF_UNIX;
    strcpy(address->local.sun_path, path);
    return sizeof address->local;
}

int connect_to(const char *path, pid_t program)
{
    union address address;
    socklen_t length = address_of(path, &address);
    double give_up = now() + 10;
    while (now() < give_up) {
        int status, at_once = 1;
        int stream = socket(address.any.sa_family, SOCK_STREAM | SOCK_CLOEXEC, 0);
        if (connect(stream, &address.any, length) == 0) {
            if (address.any.sa_family == AF_INET)
                setsockopt(stream, IPPROTO_TCP, TCP_NODELAY, &at_once, sizeof at_once);
            return stream;
        }
        close(stream);
        if (waitpid(program, &status, WNOHANG) == program) {
            running = 0;
            die("the program ended before it could be asked");
        }
        usleep(1000);
    }
    die("no connection within ten seconds");
}
