/* A server that knows no request: it answers `ok 1` to each line, in one write, from one thread for each connection,
 * and ends when so many connections have ended.
 *
 *     ok_server PATH CONNECTIONS
 */
#define _GNU_SOURCE
#include <pthread.h>
#include <signal.h>
#include <stdint.h>
#include <stdlib.h>
#include <string.h>
#include <sys/socket.h>
#include <sys/un.h>
#include <unistd.h>

enum { CHUNK = 65536, MOST_CONNECTIONS = 64 };

static void *serve(void *connection)
{
    int stream = (int)(intptr_t)connection;
    char *chunk = malloc(CHUNK);
    ssize_t length;
    while (chunk != NULL && (length = read(stream, chunk, CHUNK)) > 0) {
        char *from = chunk;
        char *end;
        while ((end = memchr(from, '\n', (size_t)(chunk + length - from))) != NULL) {
            if (write(stream, "ok 1\n", 5) != 5)
                break;
            from = end + 1;
        }
    }
    free(chunk);
    close(stream);
    return NULL;
}

int main(int count, char **words)
{
    struct sockaddr_un address = { .sun_family = AF_UNIX };
    pthread_t threads[MOST_CONNECTIONS];
    signal(SIGPIPE, SIG_IGN);
    int connections = count == 3 ? atoi(words[2]) : 0;
    if (connections < 1 || connections > MOST_CONNECTIONS || strlen(words[1]) >= sizeof address.sun_path)
        return 2;
    strcpy(address.sun_path, words[1]);
    int listener = socket(AF_UNIX, SOCK_STREAM, 0);
    if (bind(listener, (struct sockaddr *)&address, sizeof address) != 0 || listen(listener, 128) != 0)
        return 1;
    for (int i = 0; i < connections; i++) {
        intptr_t stream = accept(listener, NULL, NULL);
        if (stream < 0 || pthread_create(&threads[i], NULL, serve, (void *)stream) != 0)
            return 1;
    }
    for (int i = 0; i < connections; i++)
        pthread_join(threads[i], NULL);
    return 0;
}
