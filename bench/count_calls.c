/* Preloaded before a program: counts the blocks that it allocates, by malloc, calloc and realloc of nothing, and how often a
   block grows or shrinks, by realloc. At its end it writes both numbers to the file that COUNT_CALLS names. */
#include <stddef.h>
#include <stdio.h>
#include <stdlib.h>

void *__libc_malloc(size_t size);
void *__libc_calloc(size_t count, size_t size);
void *__libc_realloc(void *old, size_t size);

static unsigned long blocks, growths;

void *malloc(size_t size) {
    blocks++;
    return __libc_malloc(size);
}

void *calloc(size_t count, size_t size) {
    blocks++;
    return __libc_calloc(count, size);
}

void *realloc(void *old, size_t size) {
    if (old)
        growths++;
    else
        blocks++;
    return __libc_realloc(old, size);
}

__attribute__((destructor)) static void report(void) {
    unsigned long blocks_counted = blocks, growths_counted = growths;
    const char *name = getenv("COUNT_CALLS");
    FILE *file = name ? fopen(name, "w") : NULL;
    if (file) {
        fprintf(file, "%lu %lu\n", blocks_counted, growths_counted);
        fclose(file);
    }
}
