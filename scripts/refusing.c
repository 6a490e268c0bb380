// The C library's allocator, but that the request with the number REFUSED gets nothing, and a line tells of it. Where
// COUNTED is set, a line at the end tells how many requests there were, and how many blocks were not given back.
#include <stdio.h>
#include <stdlib.h>
#include <unistd.h>

extern void *__libc_malloc(size_t size);
extern void *__libc_realloc(void *block, size_t size);
extern void __libc_free(void *block);

static long requests = 0;
static long blocks = 0;

static void tell(const char *line, int length) {
    if (write(2, line, length) != length)
        _exit(70);
}

static int refused(void) {
    const char *number = getenv("REFUSED");
    requests += 1;
    if (number == NULL || requests != atol(number))
        return 0;
    tell("refused\n", 8);
    return 1;
}

void *malloc(size_t size) {
    void *block = refused() ? NULL : __libc_malloc(size);
    blocks += block != NULL;
    return block;
}

void *realloc(void *block, size_t size) {
    void *grown = refused() ? NULL : __libc_realloc(block, size);
    blocks += block == NULL && grown != NULL;
    return grown;
}

void free(void *block) {
    blocks -= block != NULL;
    __libc_free(block);
}

__attribute__((destructor)) static void tell_counts(void) {
    char line[64];
    if (getenv("COUNTED") != NULL)
        tell(line, snprintf(line, sizeof line, "requests %ld, left %ld\n", requests, blocks));
}
