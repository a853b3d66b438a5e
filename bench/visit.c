/* Connections one after the other: each sends one request, reads the line that answers it, and closes. Prints how many there
 * were in a second. The server runs already.
 *
 *     visit hub COUNT PATH      `status web`, which has to be answered `ok`
 *     visit redis COUNT PATH    `PING`
 */
#include "common.h"

#include <stdio.h>
#include <string.h>
#include <unistd.h>

int main(int count, char **words)
{
    static char status[] = "status web\n", ping[] = "PING\r\n";
    char reply[LONGEST_REPLY];
    begin_program(count, 4, "usage: visit hub|redis COUNT PATH");
    int is_hub = strcmp(words[1], "hub") == 0;
    struct line line = is_hub ? (struct line){ status, sizeof status - 1 } : (struct line){ ping, sizeof ping - 1 };
    const char *front = is_hub ? "ok " : "+PONG";
    long visits = number_of(words[2]);
    double begun = now();
    for (long i = 0; i < visits; i++) {
        int stream = connect_to(words[3], 0); /* (it is no child of this process) */
        request(stream, stream, line, reply);
        if (strncmp(reply, front, strlen(front)) != 0)
            die("a request was refused");
        close(stream);
    }
    printf("%.0f\n", (double)visits / (now() - begun));
    return 0;
}
