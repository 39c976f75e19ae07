/* Refuses one allocation of the program into which it is loaded: that with the number REFUSED,
 * counted from 1. If ALLOCATIONS names a file, it writes the number of allocations there when the
 * program ends. `refuse_memory.sh` uses both. */
#include <fcntl.h>
#include <stdio.h>
#include <stdlib.h>
#include <unistd.h>

extern void *__libc_malloc(size_t size);
extern void *__libc_realloc(void *block, size_t size);

static unsigned long asked;

static int is_refused(void) {
    const char *number = getenv("REFUSED");
    asked += 1;
    return number != NULL && asked == strtoul(number, NULL, 10);
}

void *malloc(size_t size) {
    return is_refused() ? NULL : __libc_malloc(size);
}

void *realloc(void *block, size_t size) {
    return is_refused() ? NULL : __libc_realloc(block, size);
}

__attribute__((destructor)) static void tell_allocations(void) {
    const char *file = getenv("ALLOCATIONS");
    int out = file == NULL ? -1 : open(file, O_WRONLY | O_CREAT | O_TRUNC, 0600);
    if (out >= 0) {
        dprintf(out, "%lu\n", asked);
        close(out);
    }
}
