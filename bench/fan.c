/* One publisher and many who take everything: prints how many letters a second they had in all, from the first message until each
 * has the last one. The publisher sends many messages at once, and is ahead of the slowest by at most `WINDOW` letters, so that
 * no server refuses a message or drops one.
 *
 *     fan hub TAKERS MESSAGES SIZE PATH PROGRAM [WORD ..]          sessions that ask by `next`, some times ahead
 *     fan redis TAKERS MESSAGES SIZE PATH PROGRAM [WORD ..]        subscribers of a channel
 *     fan nats TAKERS MESSAGES SIZE PATH PROGRAM [WORD ..]         subscribers of a subject; no message is acknowledged
 *     fan mosquitto TAKERS MESSAGES SIZE PATH PROGRAM [WORD ..]    subscribers of a topic, at quality 0
 */
#define _GNU_SOURCE
#include "common.h"

#include <fcntl.h>
#include <pthread.h>
#include <stdatomic.h>
#include <stdio.h>
#include <string.h>
#include <unistd.h>

enum { MOST_TAKERS = 1024, WINDOW = 4096, BURST = 1024, MOST_SIZE = 256, MOST_FRAME = 512, AHEAD = 32 };

/* What a thread reads at once, and how large its stack is. */
enum { CHUNK = 1 << 16, STACK = 4 * CHUNK };

/* What NATS sends between messages, to see whether its client is there. */
static const char PING[] = "PING\r\n";

struct bytes {
    char bytes[MOST_FRAME];
    size_t length;
};

/* Something that is sent once, and how what answers it ends. If it is empty, it isn't sent. */
struct once {
    struct bytes sent, end;
};

/* What is sent to a server, and what comes from it. */
struct server {
    /* The publisher's first, then that of each client, and then that of each taker. */
    struct once setup, hello, subscribe;
    /* A message as it is sent, and as a taker gets it; if that is empty, takers have to ask. */
    struct bytes sent, got;
    /* Whether the publisher gets a line for each message. */
    int is_answered;
};

struct taker {
    pthread_t thread;
    const struct server *server;
    int stream;
    long size, wanted;
    /* So many bytes came. So many messages began, or so many lines ended, and the next one begins at this byte. */
    long came, count, next;
    /* So many letters came. */
    atomic_long taken;
};

static struct taker takers[MOST_TAKERS];

/* The front, the letters and the end. */
static struct bytes around(const char *front, const char *letters, const char *end)
{
    struct bytes made = { .length = 0 };
    made.length = (size_t)snprintf(made.bytes, sizeof made.bytes, "%s%s%s", front, letters, end);
    return made;
}

/* The same, of which %ld in the front is the size. */
static struct bytes sized(const char *form, const char *letters, const char *end)
{
    char front[64];
    snprintf(front, sizeof front, form, (long)strlen(letters));
    return around(front, letters, end);
}

static struct once once(const char *sent, const char *end)
{
    return (struct once){ around(sent, "", ""), around(end, "", "") };
}

static struct bytes raw(const char *from, size_t length)
{
    struct bytes made = { .length = length };
    memcpy(made.bytes, from, length);
    return made;
}

/* A packet of MQTT: its type, the length of the rest in one byte or two, and the rest. */
static struct bytes packet(int type, const char *rest, size_t length)
{
    struct bytes made = { .length = 0 };
    made.bytes[made.length++] = (char)type;
    if (length > 127)
        made.bytes[made.length++] = (char)(length % 128 | 128);
    made.bytes[made.length++] = (char)(length > 127 ? length / 128 : length);
    memcpy(made.bytes + made.length, rest, length);
    made.length += length;
    return made;
}

static struct server hub(const char *letters)
{
    return (struct server){
        .setup = once("dir hub 4096 1000000000000\n", "ok\n"),
        .subscribe = once("sub hub\n", "ok 1\n"),
        .sent = around("pub hub ", letters, "\n"),
        .is_answered = 1,
    };
}

static struct server redis(const char *letters)
{
    return (struct server){
        .subscribe = once("*2\r\n$9\r\nSUBSCRIBE\r\n$3\r\nhub\r\n", "*3\r\n$9\r\nsubscribe\r\n$3\r\nhub\r\n:1\r\n"),
        .sent = sized("*3\r\n$7\r\nPUBLISH\r\n$3\r\nhub\r\n$%ld\r\n", letters, "\r\n"),
        .got = sized("*3\r\n$7\r\nmessage\r\n$3\r\nhub\r\n$%ld\r\n", letters, "\r\n"),
        .is_answered = 1,
    };
}

static struct server nats(const char *letters)
{
    return (struct server){
        .hello = once(NATS_HELLO("false"), NATS_PONG),
        .subscribe = once("SUB hub 1\r\nPING\r\n", NATS_PONG),
        .sent = sized("PUB hub %ld\r\n", letters, "\r\n"),
        .got = sized("MSG hub 1 %ld\r\n", letters, "\r\n"),
    };
}

/* CONNECT is without a name and with a clean session. */
static struct server mosquitto(const char *letters)
{
    char message[MOST_FRAME];
    size_t length = strlen(letters) + 5;
    memcpy(message, "\0\3hub", 5);
    memcpy(message + 5, letters, length - 5);
    return (struct server){
        .hello = { packet(0x10, "\0\4MQTT\4\2\0\0\0\0", 12), raw("\x20\2\0\0", 4) },
        .subscribe = { packet(0x82, "\0\1\0\3hub\0", 8), raw("\x90\3\0\1\0", 5) },
        .sent = packet(0x30, message, length),
        .got = packet(0x30, message, length),
    };
}

static struct server server_of(const char *kind, long size)
{
    static const struct { const char *kind; struct server (*of)(const char *letters); } servers[] = {
        { "hub", hub }, { "redis", redis }, { "nats", nats }, { "mosquitto", mosquitto },
    };
    char letters[MOST_SIZE + 1] = "";
    memset(letters, 'a', (size_t)size);
    for (size_t i = 0; i < sizeof servers / sizeof servers[0]; i++)
        if (strcmp(kind, servers[i].kind) == 0)
            return servers[i].of(letters);
    die("no server of this kind");
}

static void send_once(int stream, const struct once *once)
{
    char reply[LONGEST_REPLY];
    if (once->sent.length == 0)
        return;
    write_all(stream, once->sent.bytes, once->sent.length);
    read_until(stream, once->end.bytes, once->end.length, reply);
}

/* Sends `next` so many times. */
static void ask(int stream, long times)
{
    static const char line[] = "next 1 1000000\n";
    char burst[AHEAD * sizeof line];
    for (long i = 0; i < times; i++)
        memcpy(burst + (size_t)i * (sizeof line - 1), line, sizeof line - 1);
    write_all(stream, burst, (size_t)times * (sizeof line - 1));
}

/* The letters of all whole lines `got LETTERS` so far, with those in what came. */
static long letters_of_lines(struct taker *taker, const char *bytes, size_t length)
{
    static const long OTHERS = sizeof "got \n" - 1;
    const char *from = bytes, *end = bytes + length, *last = bytes;
    int is_begun = taker->came > taker->next;
    while (from < end && last != NULL) {
        if (!is_begun && *from != 'g')
            die("a request was refused");
        last = memchr(from, '\n', (size_t)(end - from));
        is_begun = last == NULL;
        if (last != NULL) {
            from = last + 1;
            taker->count++;
            taker->next = taker->came + (from - bytes);
        }
    }
    taker->came += (long)length;
    return taker->next - OTHERS * taker->count;
}

/* The letters of all whole messages so far, with those in what came. */
static long letters_of_messages(struct taker *taker, const char *bytes, size_t length)
{
    long message = (long)taker->server->got.length, ping = sizeof PING - 1, came = taker->came + (long)length;
    while (taker->next < came) {
        int is_ping = bytes[taker->next - taker->came] == PING[0];
        taker->next += is_ping ? ping : message;
        taker->count += !is_ping;
    }
    taker->came = came;
    return (taker->count - (taker->next > came)) * taker->size;
}

static void *run_taker(void *of)
{
    struct taker *taker = of;
    char bytes[CHUNK];
    int has_to_ask = taker->server->got.length == 0;
    long asked = 0;
    while (taker->taken < taker->wanted) {
        if (has_to_ask && asked - taker->count <= AHEAD / 2) {
            ask(taker->stream, AHEAD / 2);
            asked += AHEAD / 2;
        }
        ssize_t more = read(taker->stream, bytes, sizeof bytes);
        if (more <= 0)
            die("a connection ended");
        long (*letters_of)(struct taker *, const char *, size_t) = has_to_ask ? letters_of_lines : letters_of_messages;
        taker->taken = letters_of(taker, bytes, (size_t)more);
    }
    return NULL;
}

static void start_taker(struct taker *taker)
{
    pthread_attr_t small;
    send_once(taker->stream, &taker->server->hello);
    send_once(taker->stream, &taker->server->subscribe);
    pthread_attr_init(&small);
    pthread_attr_setstacksize(&small, STACK);
    if (pthread_create(&taker->thread, &small, run_taker, taker) != 0)
        die("no thread");
    pthread_attr_destroy(&small);
}

static long slowest(int count)
{
    long least = takers[0].taken;
    for (int i = 1; i < count; i++)
        if (takers[i].taken < least)
            least = takers[i].taken;
    return least;
}

static void publish(int stream, const struct server *server, long messages, long size, int count)
{
    static char burst[BURST * MOST_FRAME];
    long most = BURST / size, sent = 0;
    while (sent < messages) {
        long now = messages - sent < most ? messages - sent : most;
        while ((sent + now) * size - slowest(count) > WINDOW)
            usleep(20);
        for (long i = 0; i < now; i++)
            memcpy(burst + (size_t)i * server->sent.length, server->sent.bytes, server->sent.length);
        write_all(stream, burst, (size_t)now * server->sent.length);
        if (server->is_answered)
            read_replies(stream, now);
        sent += now;
    }
}

int main(int words, char **word)
{
    begin_program(words, 7, "usage: fan hub|redis|nats|mosquitto TAKERS MESSAGES SIZE PATH PROGRAM ..");
    long count = number_of(word[2]), messages = number_of(word[3]), size = number_of(word[4]);
    if (count > MOST_TAKERS || size > MOST_SIZE)
        die("too many takers, or too long messages");
    struct server server = server_of(word[1], size);
    int nothing = open("/dev/null", O_RDWR | O_CLOEXEC);
    pid_t child = start(word + 6, nothing, nothing);
    int publisher = connect_to(word[5], child);
    send_once(publisher, &server.setup);
    send_once(publisher, &server.hello);
    for (long i = 0; i < count; i++) {
        takers[i] = (struct taker){ .server = &server, .stream = connect_to(word[5], child), .size = size, .wanted = messages * size };
        start_taker(&takers[i]);
    }
    double begun = now();
    publish(publisher, &server, messages, size, (int)count);
    for (long i = 0; i < count; i++)
        pthread_join(takers[i].thread, NULL);
    printf("%.0f\n", (double)(messages * size * count) / (now() - begun));
    stop(child);
    unlink(word[5]);
    return 0;
}
