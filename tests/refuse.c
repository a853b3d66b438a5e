/* A malloc that refuses. In a program that preloads this, the call of the number REFUSE is refused, or with REFUSE=N+ all calls
 * from the Nth on. The first refusal makes the file REFUSED. */
#include <fcntl.h>
#include <stdatomic.h>
#include <stdlib.h>
#include <unistd.h>

void *__libc_malloc(size_t size);

static atomic_ulong calls;
static unsigned long first;
static int goes_on;

__attribute__((constructor)) static void read_environment(void) {
    const char *text = getenv("REFUSE");
    char *rest;

    if (text == NULL) return;
    first = strtoul(text, &rest, 10);
    goes_on = *rest == '+';
}

static void *refuse(void) {
    const char *path = getenv("REFUSED");
    int file = path == NULL ? -1 : open(path, O_WRONLY | O_CREAT, 0600);

    if (file >= 0) close(file);
    return NULL;
}

void *malloc(size_t size) {
    unsigned long call = atomic_fetch_add(&calls, 1) + 1;

    if (first != 0 && (call == first || (goes_on && call > first))) return refuse();
    return __libc_malloc(size);
}
