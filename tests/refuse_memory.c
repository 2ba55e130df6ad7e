/* Refuses one allocation of the program that it is loaded into, and notes that it did: the one whose number REFUSED has,
 * counted from 1. The note is an empty file of the name that NOTED has. tests/real_file compiles and uses it. */
#include <errno.h>
#include <fcntl.h>
#include <stddef.h>
#include <stdlib.h>
#include <unistd.h>

extern void *__libc_malloc(size_t);
extern void *__libc_calloc(size_t, size_t);
extern void *__libc_realloc(void *, size_t);
extern void *__libc_memalign(size_t, size_t);

static unsigned long asked;

static int is_refused(void) {
    const char *refused = getenv("REFUSED"), *noted = getenv("NOTED");
    asked += 1;
    if (!refused || !noted || asked != strtoul(refused, NULL, 10))
        return 0;
    close(open(noted, O_CREAT | O_WRONLY, 0600));
    errno = ENOMEM;
    return 1;
}

void *malloc(size_t size) { return is_refused() ? NULL : __libc_malloc(size); }

void *calloc(size_t count, size_t size) { return is_refused() ? NULL : __libc_calloc(count, size); }

void *realloc(void *room, size_t size) { return is_refused() ? NULL : __libc_realloc(room, size); }

void *aligned_alloc(size_t align, size_t size) { return is_refused() ? NULL : __libc_memalign(align, size); }

int posix_memalign(void **room, size_t align, size_t size) {
    void *got = is_refused() ? NULL : __libc_memalign(align, size);
    if (!got)
        return ENOMEM;
    *room = got;
    return 0;
}
