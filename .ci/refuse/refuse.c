// Refuses one request for memory, and counts all of them. Preloaded into a program, it stands in front of malloc, calloc
// and realloc. The environment names the request that is refused, from 1 on, as REFUSE (0: none), and a file to which the
// number of all requests is written when the program ends, as REFUSE_COUNT. A request of the size SHUT, which is refused, shuts the
// allocator: from there on it refuses all, until a request of the size OPEN. How often it was shut is written to the file REFUSE_SHUT.
#include <errno.h>
#include <fcntl.h>
#include <stddef.h>
#include <stdlib.h>
#include <unistd.h>

extern void *__libc_malloc(size_t size);
extern void *__libc_calloc(size_t count, size_t size);
extern void *__libc_realloc(void *old, size_t size);

static const size_t SHUT = 0x4B6176696E740001;
static const size_t OPEN = 0x4B6176696E740002;

static unsigned long made;
static unsigned long refused;
static unsigned long shut;
static int is_read;
static int is_shut;

static int is_refused(size_t size) {
    if (size == SHUT || size == OPEN) {
        is_shut = size == SHUT;
        shut += size == SHUT;
        errno = ENOMEM;
        return 1;
    }
    if (!is_read) {
        const char *wanted = getenv("REFUSE");
        refused = wanted ? strtoul(wanted, NULL, 10) : 0;
        is_read = 1;
    }
    made += 1;
    if (made != refused && !is_shut) {
        return 0;
    }
    errno = ENOMEM;
    return 1;
}

void *malloc(size_t size) { return is_refused(size) ? NULL : __libc_malloc(size); }

void *calloc(size_t count, size_t size) { return is_refused(size) ? NULL : __libc_calloc(count, size); }

void *realloc(void *old, size_t size) { return is_refused(size) ? NULL : __libc_realloc(old, size); }

static void tell(const char *path, unsigned long left) {
    if (!path) {
        return;
    }
    char digits[24];
    size_t start = sizeof digits;
    digits[--start] = '\n';
    do {
        digits[--start] = (char)('0' + left % 10);
        left /= 10;
    } while (left);
    int file = open(path, O_WRONLY | O_CREAT | O_TRUNC, 0600);
    if (file < 0) {
        return;
    }
    ssize_t written = write(file, digits + start, sizeof digits - start);
    (void)written;
    close(file);
}

__attribute__((destructor)) static void report(void) {
    tell(getenv("REFUSE_COUNT"), made);
    tell(getenv("REFUSE_SHUT"), shut);
}
