/* What the program asks of C beside the C library, where the toolchain has no archive of it: memory, errno and arguments. What
   each function has to do is said in the toolchain's libc/src/heap.rt and os/src/c.rt. */
#include <errno.h>
#include <stdbool.h>
#include <stddef.h>
#include <stdlib.h>
#include <sys/types.h>

_Static_assert(_Alignof(max_align_t) >= 16, "malloc aligns to 16 bytes, which is the most that heap.rt asks for");

/* Whether there was memory, and where it is; if there was none, a place that isn't null and that nobody uses. */
struct tried { bool is_had; void *place; };
static char nowhere;
static struct tried tried(void *place) { return (struct tried){place != NULL, place ? place : &nowhere}; }

/* A block of no bytes is made of one, so that null only means that memory was refused, and realloc never frees. */
struct tried rattle_alloc(size_t size, size_t alignment) { return tried(malloc(size ? size : 1)); }
struct tried rattle_realloc(void *block, size_t kept, size_t size, size_t alignment) { return tried(realloc(block, size ? size : 1)); }
void rattle_dealloc(void *block) { free(block); }

int rattle_errno(void) { return errno; }
void rattle_set_errno(int error) { errno = error; }

/* The arguments are those of main, in whose place this is linked (--wrap=main). */
static int count;
static char **arguments;
int __real_main(int, char **);
int __wrap_main(int given, char **words) { return count = given, arguments = words, __real_main(given, words); }

/* Copies an argument and answers its length; -1 if there is none, -2 if it is longer than the room, which is full then. */
ssize_t rattle_arg(size_t number, char *copy, size_t room) {
    size_t length = 0;
    if (number >= (size_t)count) return -1;
    for (const char *word = arguments[number]; word[length]; length++) {
        if (length == room) return -2;
        copy[length] = word[length];
    }
    return (ssize_t)length;
}
