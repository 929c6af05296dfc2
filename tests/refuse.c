// Loaded before the C library, it refuses growths of a program, which are calls of malloc or realloc: the one whose number
// REFUSE gives, counting from 1, and if ALWAYS is set each later one too. At the end it writes how many calls there were to
// the file descriptor 3, if COUNT is set. The calls underneath are those of the GNU C library.
#include <errno.h>
#include <stddef.h>
#include <stdio.h>
#include <stdlib.h>
#include <unistd.h>

extern void *__libc_malloc(size_t size);
extern void *__libc_realloc(void *block, size_t size);

static long calls;

static int refused(void) {
    const char *number = getenv("REFUSE");
    long first = number ? atol(number) : 0;
    calls += 1;
    return first > 0 && (calls == first || (calls > first && getenv("ALWAYS")));
}

void *malloc(size_t size) {
    if (refused()) {
        errno = ENOMEM;
        return NULL;
    }
    return __libc_malloc(size);
}

void *realloc(void *block, size_t size) {
    if (refused()) {
        errno = ENOMEM;
        return NULL;
    }
    return __libc_realloc(block, size);
}

__attribute__((destructor)) static void tell(void) {
    if (getenv("COUNT")) {
        char text[32];
        int length = snprintf(text, sizeof text, "%ld\n", calls);
        if (write(3, text, (size_t)length) < 0) {
            _exit(99);
        }
    }
}
