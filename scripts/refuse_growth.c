// Refuses one growth of a program: loaded before the C library, it lets the call to malloc or realloc of the number in
// GROWTH find no memory, counted from 1, and makes the file that REFUSED names when it does.
#include <errno.h>
#include <fcntl.h>
#include <stddef.h>
#include <stdlib.h>
#include <unistd.h>

extern void *__libc_malloc(size_t);
extern void *__libc_realloc(void *, size_t);

static int is_refused(void) {
    static unsigned long grown;
    const char *growth = getenv("GROWTH"), *refused = getenv("REFUSED");
    if (!growth || ++grown != strtoul(growth, NULL, 10)) return 0;
    if (refused) close(open(refused, O_CREAT | O_WRONLY, 0600));
    errno = ENOMEM;
    return 1;
}

void *malloc(size_t size) { return is_refused() ? NULL : __libc_malloc(size); }

void *realloc(void *memory, size_t size) { return is_refused() ? NULL : __libc_realloc(memory, size); }
