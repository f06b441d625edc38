/* Preloaded before a program: refuses its Nth allocation, N from REFUSE_NTH, and passes every other call on.
   REFUSE_COUNT names a file to which the number of allocations is written when the program ends. With REFUSE_WITHIN only those
   count that come between a write to standard output that ends with a colon and the next one. */
#define _GNU_SOURCE
#include <errno.h>
#include <fcntl.h>
#include <stdio.h>
#include <stdlib.h>
#include <string.h>
#include <sys/syscall.h>
#include <unistd.h>

extern void *__libc_malloc(size_t);
extern void *__libc_calloc(size_t, size_t);
extern void *__libc_realloc(void *, size_t);

static unsigned long calls;
static unsigned long refused;
static int armed, within;

static int refuses(void) {
    if (!armed) return 0;
    calls += 1;
    if (calls != refused) return 0;
    errno = ENOMEM;
    return 1;
}

__attribute__((constructor)) static void arm(void) {
    const char *nth = getenv("REFUSE_NTH");
    refused = nth ? strtoul(nth, NULL, 10) : 0;
    within = getenv("REFUSE_WITHIN") != NULL;
    armed = !within;
}

__attribute__((destructor)) static void tell(void) {
    const char *file = getenv("REFUSE_COUNT");
    armed = 0;
    if (!file) return;
    char text[32];
    int length = snprintf(text, sizeof text, "%lu\n", calls);
    int to = open(file, O_WRONLY | O_CREAT | O_TRUNC, 0644);
    if (to < 0) return;
    if (write(to, text, (size_t)length) != length) _exit(99);
    close(to);
}

ssize_t write(int fd, const void *from, size_t size) {
    if (within && fd == 1) armed = 0;
    ssize_t written = syscall(SYS_write, fd, from, size);
    if (within && fd == 1 && size) armed = ((const char *)from)[size - 1] == ':';
    return written;
}

void *malloc(size_t size) { return refuses() ? NULL : __libc_malloc(size); }
void *calloc(size_t count, size_t size) { return refuses() ? NULL : __libc_calloc(count, size); }
void *realloc(void *old, size_t size) { return refuses() ? NULL : __libc_realloc(old, size); }
